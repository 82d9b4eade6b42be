//! The book of "Figures to check against" in 01, with its variants.

use crate::record::*;

/// What the cases of the table change in that book.
#[derive(Clone, Debug)]
pub struct Figure {
    /// Trade 12: "TMS, cash, charge 500, submitted".
    pub typ: u8,
    pub shares: u32,
    pub lifo: bool,
    /// The lots of account 1 in "ABC": trade number, signed shares, price and time of each.
    pub lots: Vec<(u64, i64, u32, u32)>,
    /// "rates 20,000".
    pub rate: u32,
    /// Places that are free, after all others.
    pub free: usize,
}

impl Figure {
    /// "lots of "ABC": trade 10, 100 at 2,000, time 100; trade 11, 50 at 2,500, time 200".
    pub fn sell(shares: u32, lifo: bool) -> Figure {
        Figure {
            typ: TMS,
            shares,
            lifo,
            lots: vec![(10, 100, 2_000, 100), (11, 50, 2_500, 200)],
            rate: 20_000,
            free: 16,
        }
    }

    /// P5: "buy 80 at 2,900 over one lot of -50 at 3,000, other figures alike".
    pub fn buy_over_short() -> Figure {
        Figure {
            typ: TMB,
            shares: 80,
            lifo: false,
            lots: vec![(10, -50, 3_000, 100)],
            rate: 20_000,
            free: 16,
        }
    }

    /// P7: one share of a lot at 2,000. The gain is the price less 2,000.
    pub fn sell_one() -> Figure {
        Figure::sell(1, false).with_lots(&[(10, 100, 2_000, 100)])
    }

    pub fn with_rate(mut self, rate: u32) -> Figure {
        self.rate = rate;
        self
    }

    pub fn with_free(mut self, free: usize) -> Figure {
        self.free = free;
        self
    }

    pub fn with_lots(mut self, lots: &[(u64, i64, u32, u32)]) -> Figure {
        self.lots = lots.to_vec();
        self
    }

    /// The book. 01 leaves open the numbers of broker 21, customer 31 and rate 41, the tier, the
    /// exchange and the last price.
    pub fn book(&self) -> Vec<u8> {
        let abc = symbol("ABC");
        let mut rows = vec![
            Row {
                kind: BROKER,
                party: 21,
                ..Row::default()
            },
            Row {
                kind: CUSTOMER,
                party: 31,
                typ: 1,
                ..Row::default()
            },
            Row {
                kind: TAX_RATE,
                party: 41,
                n1: self.rate,
                ..Row::default()
            },
            Row {
                kind: CUSTOMER_RATE,
                party: 31,
                n1: 41,
                ..Row::default()
            },
            Row {
                kind: ACCOUNT,
                party: 1,
                n1: 21,
                n2: 31,
                typ: 1,
                m1: 1_000_000,
                ..Row::default()
            },
            Row {
                kind: SECURITY,
                symbol: abc,
                typ: 1,
                n1: 3_000,
                ..Row::default()
            },
        ];
        for typ in TMB..=TSL {
            rows.push(Row {
                kind: BAND,
                typ,
                status: 1,
                flags: 1,
                n1: 1,
                n2: 1_000,
                n3: 50,
                ..Row::default()
            });
            rows.push(Row {
                kind: CHARGE,
                typ,
                status: 1,
                n1: 500,
                ..Row::default()
            });
        }
        let mut sum = 0;
        for (id, shares, price, time) in &self.lots {
            let (id, shares, price, time) = (*id, *shares, *price, *time);
            // "both TMB and not cash"; the short lot of P5 came of a TMS.
            rows.push(Row {
                kind: TRADE,
                typ: if shares > 0 { TMB } else { TMS },
                status: CMPT,
                party: 1,
                id,
                symbol: abc,
                n1: shares.unsigned_abs() as u32,
                n2: price,
                n3: price,
                n4: 500,
                time,
                ..Row::default()
            });
            for status in [SBMT, CMPT] {
                rows.push(Row {
                    kind: HISTORY,
                    status,
                    id,
                    time,
                    ..Row::default()
                });
            }
            rows.push(Row {
                kind: LOT,
                party: 1,
                id,
                symbol: abc,
                n1: price,
                m1: shares as u64,
                time,
                ..Row::default()
            });
            rows.push(Row {
                kind: LOT_HISTORY,
                id,
                m2: id,
                n2: shares as i32 as u32,
                ..Row::default()
            });
            rows.push(Row {
                kind: SETTLEMENT,
                id,
                m1: (-shares * i64::from(price)) as u64,
                time: time + DUE_AFTER,
                ..Row::default()
            });
            sum += shares;
        }
        if sum != 0 {
            rows.push(Row {
                kind: SUMMARY,
                party: 1,
                symbol: abc,
                m1: sum as u64,
                ..Row::default()
            });
        }
        rows.push(Row {
            kind: TRADE,
            typ: self.typ,
            status: SBMT,
            flags: FLAG_CASH + if self.lifo { FLAG_LIFO } else { 0 },
            party: 1,
            id: 12,
            symbol: abc,
            n1: self.shares,
            n2: 3_000,
            n4: 500,
            time: 300,
            ..Row::default()
        });
        rows.push(Row {
            kind: HISTORY,
            status: SBMT,
            id: 12,
            time: 300,
            ..Row::default()
        });
        rows.extend(vec![Row::default(); self.free]);
        bytes_of(&rows)
    }
}

/// The input of a result.
pub fn result_input(id: u64, price: u32, time: u32) -> Vec<u8> {
    bytes_of(&[Row {
        kind: RESULT_INPUT,
        id,
        n1: price,
        time,
        ..Row::default()
    }])
}
