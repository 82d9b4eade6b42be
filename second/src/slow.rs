//! The soundness of a book once more, by nested loops over its rows and nothing else. It is slow
//! and serves only to check `sound::check` in tests.

use crate::record::*;
use crate::sound::Rule;

type Holds = fn(&[Row]) -> bool;

const RULES: [(Rule, Holds); 10] = [
    (Rule::S1, s1),
    (Rule::S2, s2),
    (Rule::S3, s3),
    (Rule::S4, s4),
    (Rule::S5, s5),
    (Rule::S6, s6),
    (Rule::S7, s7),
    (Rule::S8, s8),
    (Rule::S9, s9),
    (Rule::S10, s10),
];

/// Says of each rule, in order, whether it holds, and stops at the first that does not.
pub fn check(book: &[u8]) -> Result<(), Rule> {
    if !book.len().is_multiple_of(RECORD) {
        return Err(Rule::S1);
    }
    let rows = rows_of(book);
    match RULES.iter().find(|(_, holds)| !holds(&rows)) {
        Some((rule, _)) => Err(*rule),
        None => Ok(()),
    }
}

/// All rules that do not hold, each asked whatever the others say.
pub fn broken(rows: &[Row]) -> Vec<Rule> {
    let broken = RULES.iter().filter(|(_, holds)| !holds(rows));
    broken.map(|(rule, _)| *rule).collect()
}

fn s1(rows: &[Row]) -> bool {
    rows.iter().all(|row| check_record(&row.write()).is_ok())
}

fn of_kind(rows: &[Row], kind: u8) -> impl Iterator<Item = &Row> {
    rows.iter().filter(move |row| row.kind == kind)
}

/// How many rows of this kind there are with this property.
fn count(rows: &[Row], kind: u8, good: impl Fn(&Row) -> bool) -> usize {
    of_kind(rows, kind).filter(|row| good(row)).count()
}

fn same_key(a: &Row, b: &Row) -> bool {
    if a.kind != b.kind {
        return false;
    }
    match a.kind {
        1 | 2 | 3 | 5 => a.party == b.party,
        4 | 17 => a.party == b.party && a.n1 == b.n1,
        6 => a.symbol == b.symbol,
        7 => (a.typ, a.status, a.flags, a.n1) == (b.typ, b.status, b.flags, b.n1),
        8 => a.typ == b.typ && a.status == b.status,
        9 | 10 | 12 | 15 | 16 => a.id == b.id,
        11 => a.id == b.id && a.status == b.status,
        13 => a.party == b.party && a.symbol == b.symbol,
        14 => a.id == b.id && a.m2 == b.m2,
        _ => false,
    }
}

fn s2(rows: &[Row]) -> bool {
    for i in 0..rows.len() {
        for j in 0..i {
            if same_key(&rows[i], &rows[j]) {
                return false;
            }
        }
    }
    true
}

fn s3(rows: &[Row]) -> bool {
    let party = |kind: u8, number: u32| count(rows, kind, |row| row.party == number) > 0;
    let security = |symbol: [u8; 8]| count(rows, SECURITY, |row| row.symbol == symbol) > 0;
    let trade = |number: u64| count(rows, TRADE, |row| row.id == number) > 0;
    rows.iter().all(|row| match row.kind {
        4 => party(CUSTOMER, row.party) && party(TAX_RATE, row.n1),
        5 => party(BROKER, row.n1) && party(CUSTOMER, row.n2),
        9 => party(ACCOUNT, row.party) && security(row.symbol),
        10 => trade(row.id) && party(BROKER, row.party) && security(row.symbol),
        11 | 15 | 16 => trade(row.id),
        12 => trade(row.id) && party(ACCOUNT, row.party) && security(row.symbol),
        13 => party(ACCOUNT, row.party) && security(row.symbol),
        14 => trade(row.id) && trade(row.m2),
        17 => party(ACCOUNT, row.party),
        _ => true,
    })
}

fn s4(rows: &[Row]) -> bool {
    for (i, a) in rows.iter().enumerate() {
        for b in &rows[..i] {
            let alike = a.kind == BAND
                && b.kind == BAND
                && a.typ == b.typ
                && a.status == b.status
                && a.flags == b.flags;
            if alike && a.n1 <= b.n2 && b.n1 <= a.n2 {
                return false;
            }
        }
    }
    true
}

fn s5(rows: &[Row]) -> bool {
    of_kind(rows, CUSTOMER).all(|customer| {
        let mut sum = 0u64;
        for link in of_kind(rows, CUSTOMER_RATE).filter(|row| row.party == customer.party) {
            for rate in of_kind(rows, TAX_RATE).filter(|row| row.party == link.n1) {
                sum += u64::from(rate.n1);
            }
        }
        sum <= 100_000
    })
}

fn s6(rows: &[Row]) -> bool {
    of_kind(rows, TRADE).all(|trade| {
        let requests = count(rows, REQUEST, |row| row.id == trade.id);
        let agreeing = count(rows, REQUEST, |row| {
            row.id == trade.id
                && row.typ == trade.typ
                && row.symbol == trade.symbol
                && row.n1 == trade.n1
                && row.n2 == trade.n2
                && count(rows, ACCOUNT, |account| {
                    account.party == trade.party && account.n1 == row.party
                }) == 1
        });
        if trade.status == 1 {
            (3..=5).contains(&trade.typ) && requests == 1 && agreeing == 1
        } else {
            requests == 0
        }
    })
}

fn s7(rows: &[Row]) -> bool {
    of_kind(rows, TRADE).all(|trade| {
        let of_it = |good: &dyn Fn(u8) -> bool| {
            count(rows, HISTORY, |row| row.id == trade.id && good(row.status))
        };
        of_it(&|status| status == trade.status) == 1 && of_it(&|status| status > trade.status) == 0
    })
}

fn s8(rows: &[Row]) -> bool {
    let alike = |a: &Row, b: &Row| a.party == b.party && a.symbol == b.symbol;
    of_kind(rows, LOT).all(|lot| {
        let completed = count(rows, TRADE, |row| {
            row.id == lot.id && row.status == 3 && alike(row, lot)
        });
        let other_sign = count(rows, LOT, |row| {
            alike(row, lot) && row.signed_m1().signum() != lot.signed_m1().signum()
        });
        let summaries = count(rows, SUMMARY, |row| alike(row, lot));
        completed == 1 && other_sign == 0 && summaries == 1
    }) && of_kind(rows, SUMMARY).all(|summary| {
        let lots: Vec<i64> = of_kind(rows, LOT)
            .filter(|lot| alike(lot, summary))
            .map(|lot| lot.signed_m1())
            .collect();
        !lots.is_empty() && lots.iter().sum::<i64>() == summary.signed_m1()
    })
}

fn s9(rows: &[Row]) -> bool {
    of_kind(rows, TRADE).all(|trade| {
        let settlements: Vec<&Row> = of_kind(rows, SETTLEMENT)
            .filter(|row| row.id == trade.id)
            .collect();
        let cash: Vec<&Row> = of_kind(rows, CASH)
            .filter(|row| row.id == trade.id)
            .collect();
        let is_cash = trade.flags % 2 == 1;
        if trade.status != 3 {
            settlements.is_empty() && cash.is_empty()
        } else if is_cash {
            settlements.len() == 1
                && settlements[0].flags == 1
                && cash.len() == 1
                && cash[0].signed_m1() == settlements[0].signed_m1()
        } else {
            settlements.len() == 1 && settlements[0].flags == 0 && cash.is_empty()
        }
    })
}

fn s10(rows: &[Row]) -> bool {
    let completed = |number: u64| count(rows, TRADE, |row| row.id == number && row.status == 3);
    of_kind(rows, LOT_HISTORY).all(|row| completed(row.id) == 1 && completed(row.m2) == 1)
}
