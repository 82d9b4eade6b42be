//! -731 and -831 as 2026-02 has them: "exactly when there is a gain, the tax status is 1 or 2 and the
//! customer's rates sum to zero". One share of a lot at 2,000 is closed, by a sell and by a buy.

use second::calls;
use second::figures::{result_input, Figure};
use second::record::*;
use second::sound;

/// The rates of the customer.
#[derive(Clone, Copy)]
enum Rates {
    NoRows,
    /// One row.
    One(u32),
    /// Two rows.
    Two(u32, u32),
}
use Rates::*;

/// The book of P7 with trade 12 of this type, a lot that it closes, this tax status and these rates.
/// The last price is the one that is tried.
fn book(typ: u8, tax_status: u8, rates: Rates, price: u32) -> Vec<u8> {
    let mut figure = Figure::sell_one();
    figure.typ = typ;
    if buys(typ) {
        figure = figure.with_lots(&[(10, -100, 2_000, 100)]);
    }
    let mut rows = rows_of(&figure.book());
    let mut second_rate = Vec::new();
    for row in &mut rows {
        match (row.kind, rates) {
            (ACCOUNT, _) => row.typ = tax_status,
            (SECURITY, _) => row.n1 = price,
            (CUSTOMER_RATE, NoRows) => *row = Row::default(),
            (TAX_RATE, One(rate) | Two(rate, _)) => row.n1 = rate,
            _ => {}
        }
        if let (TAX_RATE, Two(_, other)) = (row.kind, rates) {
            second_rate.push(Row {
                party: 42,
                n1: other,
                ..*row
            });
        }
        if let (CUSTOMER_RATE, Two(..)) = (row.kind, rates) {
            second_rate.push(Row { n1: 42, ..*row });
        }
    }
    rows.extend(second_rate);
    let book = bytes_of(&rows);
    assert_eq!(sound::check(&book), Ok(()));
    book
}

fn refusal(status: i32) -> Row {
    Row {
        n5: status as u32,
        ..Row::default()
    }
}

/// Tries a result and orders of all types with this gain. They answer with this tax, or are refused
/// where it is None.
fn expect(tax_status: u8, rates: Rates, gain: i64, tax: Option<u64>) {
    for (typ, buy) in [(TMB, true), (TMS, false)] {
        let price = if buy { 2_000 - gain } else { 2_000 + gain };
        let before = book(typ, tax_status, rates, price as u32);
        let mut after = before.clone();
        let mut answer = [0xAA; RECORD];
        let input = result_input(12, price as u32, 400);
        let status = calls::result(&mut after, &input, &mut answer);
        let Some(tax) = tax else {
            assert_eq!((status, Row::read(&answer)), (-831, refusal(-831)));
            assert_eq!(after, before);
            continue;
        };
        // The commission is 10: 50 of 10,000 of any price near 2,000.
        let withheld = if tax_status == 1 { tax as i64 } else { 0 };
        let settlement = if buy { -price } else { price } - 500 - 10 - withheld;
        let expected = Row {
            kind: 34,
            party: 1,
            id: 12,
            symbol: tax.to_le_bytes(),
            m1: (1_000_000 + settlement) as u64,
            m2: settlement as u64,
            ..Row::default()
        };
        assert_eq!((status, Row::read(&answer)), (0, expected));
        assert_eq!(sound::check(&after), Ok(()));
        let rows = rows_of(&after);
        let trade = rows.iter().find(|r| r.kind == TRADE && r.id == 12).unwrap();
        assert_eq!((trade.status, trade.m1, trade.m2), (3, 10, tax));
    }
    for typ in TMB..=TSL {
        let (bought, sold, price) = if buys(typ) {
            (2_000 - gain, 2_000, 2_000 - gain)
        } else {
            (2_000, 2_000 + gain, 2_000 + gain)
        };
        let closer = if buys(typ) { TMB } else { TMS };
        let before = book(closer, tax_status, rates, price as u32);
        let mut after = before.clone();
        let mut answer = [0xAA; RECORD];
        let input = Row {
            kind: 33,
            typ,
            party: 1,
            symbol: symbol("ABC"),
            n1: 1,
            n2: if typ <= TMS { 0 } else { price as u32 },
            ..Row::default()
        };
        let status = calls::order(&mut after, &input.write(), &mut answer);
        let Some(tax) = tax else {
            assert_eq!((status, Row::read(&answer)), (-731, refusal(-731)));
            assert_eq!(after, before);
            continue;
        };
        let expected = Row {
            kind: 33,
            id: 13,
            symbol: tax.to_le_bytes(),
            n1: 500,
            n2: 50,
            n3: price as u32,
            m1: bought as u64,
            m2: sold as u64,
            ..Row::default()
        };
        assert_eq!((status, Row::read(&answer)), (0, expected));
        assert_eq!(sound::check(&after), Ok(()));
    }
}

#[test]
fn a_tax_may_round_to_zero() {
    for tax_status in [1, 2] {
        expect(tax_status, One(1), 1, Some(0));
        expect(tax_status, One(20_000), 2, Some(0));
        expect(tax_status, One(20_000), 3, Some(1));
        expect(tax_status, One(49_999), 1, Some(0));
        expect(tax_status, One(50_000), 1, Some(1));
        expect(tax_status, Two(0, 1), 1, Some(0));
        expect(tax_status, Two(1, 0), 1, Some(0));
        expect(tax_status, Two(24_999, 25_000), 1, Some(0));
        expect(tax_status, Two(25_000, 25_000), 1, Some(1));
    }
}

#[test]
fn a_gain_at_rates_of_zero_is_refused() {
    for tax_status in [1, 2] {
        for gain in [1, 2, 3, 1_000] {
            for rates in [NoRows, One(0), Two(0, 0)] {
                expect(tax_status, rates, gain, None);
            }
        }
    }
}

#[test]
fn no_gain_is_not_refused() {
    for tax_status in [0, 1, 2] {
        for gain in [0, -1, -2] {
            for rates in [NoRows, One(0), Two(0, 0), One(1), One(100_000)] {
                expect(tax_status, rates, gain, Some(0));
            }
        }
    }
}

#[test]
fn tax_status_zero_is_not_refused() {
    for gain in [1, 2, 3] {
        for rates in [NoRows, One(0), Two(0, 0), One(1), One(100_000)] {
            expect(0, rates, gain, Some(0));
        }
    }
}

/// The order of refusals stays: -731 and -831 come first, and a tax that rounds to zero leaves room for
/// those that follow.
#[test]
fn other_refusals_follow() {
    type Break = fn(&mut Vec<Row>);
    let no_band: Break = |rows| rows.retain(|row| row.kind != BAND);
    let zero_rate: Break = |rows| {
        let bands = rows.iter_mut().filter(|row| row.kind == BAND);
        bands.for_each(|row| row.n3 = 0);
    };
    let no_charge: Break = |rows| rows.retain(|row| row.kind != CHARGE);
    let no_room: Break = |rows| rows.retain(|row| !row.is_free());
    let breaks = [
        (no_band, -735, -842),
        (zero_rate, -732, -841),
        (no_charge, -733, 0),
        (no_room, -105, -105),
    ];
    for (spoil, of_order, of_result) in breaks {
        for (rate, refused) in [(0, true), (1, false)] {
            let mut rows = rows_of(&Figure::sell_one().with_rate(rate).book());
            spoil(&mut rows);
            let mut answer = [0; RECORD];
            let order = Row {
                kind: 33,
                typ: TLS,
                party: 1,
                symbol: symbol("ABC"),
                n1: 1,
                n2: 2_001,
                ..Row::default()
            };
            let status = calls::order(&mut bytes_of(&rows), &order.write(), &mut answer);
            assert_eq!(status, if refused { -731 } else { of_order });
            let input = result_input(12, 2_001, 400);
            let status = calls::result(&mut bytes_of(&rows), &input, &mut answer);
            assert_eq!(status, if refused { -831 } else { of_result });
        }
    }
}
