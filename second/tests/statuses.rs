//! "Status numbers, in order of checking": for every random case, all conditions of the table are
//! asked, each on its own, and the first that holds must be the status given.

use second::calls::Call;
use second::gen::{self, Case};
use second::record::*;
use second::rng::Rng;
use second::slow;
use std::collections::BTreeMap;

/// All conditions of the table for this call, in the table's order. Those after the first that
/// holds may be nonsense.
fn expected(case: &Case) -> i32 {
    let call = case.call;
    let records = case.input.len() / RECORD;
    let most = if matches!(call, Call::Order | Call::Result) {
        1
    } else {
        20
    };
    let answer = if call == Call::Lookup {
        128 * records
    } else {
        64
    };
    if case.input.len() != records * RECORD
        || records < 1
        || records > most
        || case.answer.len() != answer
    {
        return -100;
    }
    let places = case.book.len() / RECORD;
    if case.book.len() != places * RECORD || !(1..=4_096).contains(&places) {
        return -101;
    }
    if slow::check(&case.book).is_err() {
        return -102;
    }
    let bad = |record: &[u8]| check_input(call.kind(), record.try_into().unwrap()).is_err();
    if case.input.chunks(RECORD).any(bad) {
        return -103;
    }
    let rows = rows_of(&case.book);
    let input = rows_of(&case.input);
    match call {
        Call::Order => order_status(&rows, &input[0]),
        Call::Result => result_status(&rows, &input[0]),
        Call::Feed => feed_status(&rows, &input),
        Call::Lookup => lookup_status(&rows, &input),
    }
}

fn the(rows: &[Row], good: impl Fn(&Row) -> bool) -> Option<Row> {
    let found: Vec<&Row> = rows.iter().filter(|row| good(row)).collect();
    assert!(found.len() <= 1);
    found.first().copied().copied()
}

fn free(rows: &[Row]) -> usize {
    rows.iter().filter(|row| row.is_free()).count()
}

/// Gain, number of lots met, and shares that no lot meets.
fn walk(rows: &[Row], account: u32, symbol: [u8; 8], trade: (u8, u8, u32), price: u32) -> Walk {
    let (typ, flags, shares) = trade;
    let buy = typ == TMB || typ == TLB;
    let lifo = flags & FLAG_LIFO != 0;
    let lots: Vec<&Row> = rows
        .iter()
        .filter(|r| r.kind == LOT && r.party == account && r.symbol == symbol)
        .filter(|r| (r.signed_m1() < 0) == buy)
        .collect();
    let mut walk = Walk {
        gain: 0,
        met: 0,
        left: i128::from(shares),
    };
    for lot in &lots {
        let before = |r: &&&Row| {
            let (a, b) = ((r.time, r.id), (lot.time, lot.id));
            if lifo {
                a > b
            } else {
                a < b
            }
        };
        let earlier = lots.iter().filter(before).map(|r| r.signed_m1().abs());
        let needed = i128::from(shares) - i128::from(earlier.sum::<i64>());
        if needed > 0 {
            let closed = needed.min(i128::from(lot.signed_m1().abs()));
            let per_share = i128::from(price) - i128::from(lot.n1);
            walk.gain += closed * if buy { -per_share } else { per_share };
            walk.met += 1;
            walk.left -= closed;
        }
    }
    walk
}

struct Walk {
    gain: i128,
    met: usize,
    left: i128,
}

/// The sum of the rates of an account's customer.
fn rates(rows: &[Row], account: &Row) -> i128 {
    rows.iter()
        .filter(|r| r.kind == CUSTOMER_RATE && r.party == account.n2)
        .map(|link| the(rows, |r| r.kind == TAX_RATE && r.party == link.n1).unwrap())
        .map(|rate| i128::from(rate.n1))
        .sum()
}

/// The whole cents nearest to a fraction, found by looking at its rest.
fn nearest(over: i128, under: i128) -> i128 {
    let (whole, rest) = (over / under, over % under);
    if rest * 2 >= under {
        whole + 1
    } else {
        whole
    }
}

/// The band that holds these shares; at most one does.
fn band_of(rows: &[Row], account: &Row, symbol: [u8; 8], typ: u8, shares: u32) -> Option<Row> {
    let tier = the(rows, |r| r.kind == CUSTOMER && r.party == account.n2)
        .unwrap()
        .typ;
    let exchange = the(rows, |r| r.kind == SECURITY && r.symbol == symbol)
        .unwrap()
        .typ;
    the(rows, |r| {
        r.kind == BAND
            && (r.typ, r.status, r.flags) == (typ, tier, exchange)
            && (r.n1..=r.n2).contains(&shares)
    })
}

fn first_of(conditions: &[(i32, bool)]) -> i32 {
    let first = conditions.iter().find(|(_, holds)| *holds);
    first.map_or(0, |(status, _)| *status)
}

fn order_status(rows: &[Row], input: &Row) -> i32 {
    let Some(account) = the(rows, |r| r.kind == ACCOUNT && r.party == input.party) else {
        return -711;
    };
    let permission = the(rows, |r| {
        (r.kind, r.party, r.n1) == (PERMISSION, input.party, input.n3)
    });
    if input.n3 != 0 && permission.is_none() {
        return -721;
    }
    let Some(security) = the(rows, |r| r.kind == SECURITY && r.symbol == input.symbol) else {
        return -712;
    };
    let market = input.typ == TMB || input.typ == TMS;
    let price = if market { security.n1 } else { input.n2 };
    let trade = (input.typ, input.flags, input.n1);
    let gain = walk(rows, input.party, input.symbol, trade, price).gain;
    let taxed = gain > 0 && account.typ > 0;
    let tier = the(rows, |r| r.kind == CUSTOMER && r.party == account.n2)
        .unwrap()
        .typ;
    let charge = the(rows, |r| {
        (r.kind, r.typ, r.status) == (CHARGE, input.typ, tier)
    });
    let band = band_of(rows, &account, input.symbol, input.typ, input.n1);
    first_of(&[
        (-731, taxed && rates(rows, &account) == 0),
        (-732, band.is_some_and(|row| row.n3 == 0)),
        (-735, band.is_none()),
        (-733, charge.is_none_or(|row| row.n1 == 0)),
        (
            -104,
            rows.iter()
                .any(|r| r.kind == TRADE && r.id == 999_999_999_999_999),
        ),
        (-105, free(rows) < if market { 2 } else { 3 }),
    ])
}

fn result_status(rows: &[Row], input: &Row) -> i32 {
    let Some(trade) = the(rows, |r| r.kind == TRADE && r.id == input.id) else {
        return -811;
    };
    if trade.status != SBMT {
        return -812;
    }
    let account = the(rows, |r| r.kind == ACCOUNT && r.party == trade.party).unwrap();
    let broker = the(rows, |r| r.kind == BROKER && r.party == account.n1).unwrap();
    let what = (trade.typ, trade.flags, trade.n1);
    let walk = walk(rows, trade.party, trade.symbol, what, input.n1);
    let taxed = walk.gain > 0 && account.typ > 0;
    let tax = if taxed {
        nearest(walk.gain * rates(rows, &account), 100_000)
    } else {
        0
    };
    let band = band_of(rows, &account, trade.symbol, trade.typ, trade.n1);
    let value = i128::from(trade.n1) * i128::from(input.n1);
    // Nonsense without a band, which is asked about before it counts.
    let commission = nearest(band.map_or(0, |row| row.n3.into()) * value, 10_000);
    let buy = trade.typ == TMB || trade.typ == TLB;
    let amount = if buy { -value } else { value }
        - i128::from(trade.n4)
        - commission
        - if account.typ == 1 { tax } else { 0 };
    let cash = trade.flags & FLAG_CASH != 0;
    let balance = i128::from(account.signed_m1()) + if cash { amount } else { 0 };
    let most = 999_999_999_999_999;
    let summary = the(rows, |r| {
        r.kind == SUMMARY && r.party == trade.party && r.symbol == trade.symbol
    });
    let added = walk.met
        + if walk.left > 0 { 2 } else { 0 }
        + usize::from(summary.is_none())
        + if cash { 3 } else { 2 };
    first_of(&[
        (-831, taxed && rates(rows, &account) == 0),
        (-841, band.is_some_and(|row| row.n3 == 0)),
        (-842, band.is_none()),
        (-104, balance.abs() > most),
        (-104, broker.n1 == 999_999_999),
        (-104, i128::from(broker.m1) + commission > most),
        (-105, free(rows) < added),
    ])
}

fn feed_status(rows: &[Row], input: &[Row]) -> i32 {
    let known = |entry: &Row| {
        rows.iter()
            .any(|r| r.kind == SECURITY && r.symbol == entry.symbol)
    };
    let too_many = |row: &Row| {
        let mine = input.iter().filter(|entry| entry.symbol == row.symbol);
        row.m1 + mine.map(|entry| u64::from(entry.n2)).sum::<u64>() > 999_999_999_999
    };
    let hit = |row: &Row| {
        input.iter().any(|entry| {
            entry.symbol == row.symbol
                && if row.typ == TLS {
                    row.n2 <= entry.n1
                } else {
                    row.n2 >= entry.n1
                }
        })
    };
    let hits = rows.iter().filter(|r| r.kind == REQUEST && hit(r)).count();
    first_of(&[
        (-311, !input.iter().all(known)),
        (-104, rows.iter().any(|r| r.kind == SECURITY && too_many(r))),
        (-105, free(rows) < hits),
    ])
}

fn lookup_status(rows: &[Row], input: &[Row]) -> i32 {
    let known = |entry: &Row| rows.iter().any(|r| r.kind == TRADE && r.id == entry.id);
    first_of(&[(-611, !input.iter().all(known))])
}

#[test]
fn each_status_is_given_exactly_when() {
    let mut rng = Rng::new(40);
    let mut counts: BTreeMap<(Call, i32), u32> = BTreeMap::new();
    for most in [24, 60, 120] {
        for _ in 0..4_000 {
            for call in Call::ALL {
                let case = gen::case(&mut rng, call, most);
                let (mut book, mut answer) = (case.book.clone(), case.answer.clone());
                let status = call.run(&mut book, &case.input, &mut answer);
                assert_eq!(status, expected(&case), "{}", call.name());
                *counts.entry((call, status)).or_default() += 1;
            }
        }
    }
    for call in Call::ALL {
        for status in call.statuses() {
            let count = counts.get(&(call, *status)).copied().unwrap_or(0);
            assert!(count >= 100, "{} {status}: {count}", call.name());
        }
    }
}

/// What a lookup answers: the rows themselves, in turn.
#[test]
fn lookups_answer_the_rows() {
    let mut rng = Rng::new(41);
    let mut checked = 0;
    for _ in 0..2_000 {
        let case = gen::case(&mut rng, Call::Lookup, 60);
        let (mut book, mut answer) = (case.book.clone(), case.answer.clone());
        if case.call.run(&mut book, &case.input, &mut answer) != 0 {
            continue;
        }
        checked += 1;
        assert_eq!(book, case.book);
        let rows = rows_of(&book);
        for (entry, pair) in rows_of(&case.input).iter().zip(rows_of(&answer).chunks(2)) {
            let trade = the(&rows, |r| r.kind == TRADE && r.id == entry.id);
            let settlement = the(&rows, |r| r.kind == SETTLEMENT && r.id == entry.id);
            assert_eq!(Some(pair[0]), trade);
            assert_eq!(pair[1], settlement.unwrap_or_default());
        }
    }
    assert!(checked > 800, "{checked}");
}
