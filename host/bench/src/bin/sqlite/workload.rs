//! Books with as many submitted trades as there is room to carry out, and the results that carry them out.

use second::calls;
use second::record::*;
use second::rng::Rng;
use second::sound;

pub struct Workload {
    pub book: Vec<u8>,
    pub results: Vec<Row>,
}

/// A book of so many records and its results. Every result is accepted by the second program, one after the other.
pub fn of(records: usize) -> Workload {
    let most = records / 5;
    (1..=most)
        .rev()
        .step_by(1 + most / 100)
        .map(|trades| with_trades(records, trades))
        .find(|work| work.as_ref().is_some_and(all_accepted))
        .flatten()
        .expect("a book has room for one trade")
}

fn all_accepted(work: &Workload) -> bool {
    let (mut book, mut answer) = (work.book.clone(), [0; RECORD]);
    assert_eq!(sound::status(&book), 0, "the book to start from");
    let good = work.results.iter().all(|input| {
        let status = calls::result_on_sound(&mut book, &input.write(), &mut answer);
        assert!(status == 0 || status == calls::NO_ROOM, "status {status}");
        status == 0
    });
    assert_eq!(sound::status(&book), 0, "the book after the results");
    good
}

/// The same with so many trades, if they have room themselves. A book has one account and one security for about every
/// hundred records, and an account trades in two securities, so that trades meet lots of earlier ones.
fn with_trades(records: usize, trades: usize) -> Option<Workload> {
    let mut rng = Rng::new(records as u64);
    let large = records > 100;
    let (tiers, exchanges) = if large { (3, 4) } else { (1, 1) };
    let types: &[u8] = if large {
        &[TMB, TMS, TLB, TLS, TSL]
    } else {
        &[TMB, TMS]
    };
    let count = |every: usize| (1 + records / every) as u32;
    let mut rows = Vec::new();
    for party in 1..=count(400) {
        rows.push(Row {
            kind: BROKER,
            party,
            ..Row::default()
        });
    }
    for (party, rate) in [(1, 15_000), (2, 5_000)] {
        rows.push(Row {
            kind: TAX_RATE,
            party,
            n1: rate,
            ..Row::default()
        });
    }
    for party in 1..=count(200) {
        rows.push(Row {
            kind: CUSTOMER,
            party,
            typ: 1 + (party % tiers) as u8,
            ..Row::default()
        });
        for rate in 1..=2 {
            rows.push(Row {
                kind: CUSTOMER_RATE,
                party,
                n1: rate,
                ..Row::default()
            });
        }
    }
    let accounts = count(100);
    for party in 1..=accounts {
        rows.push(Row {
            kind: ACCOUNT,
            party,
            typ: (party % 3) as u8,
            n1: 1 + party % count(400),
            n2: 1 + party % count(200),
            m1: 100_000_000,
            ..Row::default()
        });
    }
    let securities = count(100);
    let name = |number: u32| symbol(&format!("S{number}"));
    for number in 0..securities {
        rows.push(Row {
            kind: SECURITY,
            symbol: name(number),
            typ: 1 + (number % exchanges) as u8,
            n1: 2_500,
            ..Row::default()
        });
    }
    for typ in types {
        for tier in 1..=tiers as u8 {
            for exchange in 1..=exchanges as u8 {
                rows.push(Row {
                    kind: BAND,
                    typ: *typ,
                    status: tier,
                    flags: exchange,
                    n1: 1,
                    n2: 1_000,
                    n3: 50,
                    ..Row::default()
                });
            }
            rows.push(Row {
                kind: CHARGE,
                typ: *typ,
                status: tier,
                n1: 500,
                ..Row::default()
            });
        }
    }
    let mut results = Vec::new();
    for id in 1..=trades as u64 {
        let account = rng.between32(1, accounts);
        let time = id as u32;
        rows.push(Row {
            kind: TRADE,
            typ: *rng.pick(types),
            status: SBMT,
            flags: rng.below(4) as u8,
            party: account,
            id,
            symbol: name((account + rng.below(2) as u32) % securities),
            // Tens, so that the tax of no gain is rounded to zero.
            n1: 10 * rng.between32(1, 20),
            n2: 2_500,
            n4: 500,
            time,
            ..Row::default()
        });
        rows.push(Row {
            kind: HISTORY,
            status: SBMT,
            id,
            time,
            ..Row::default()
        });
        results.push(Row {
            kind: RESULT_INPUT,
            id,
            n1: rng.between32(1_900, 3_100),
            time: 1_000_000 + time,
            ..Row::default()
        });
    }
    if rows.len() > records {
        return None;
    }
    rows.resize(records, Row::default());
    rng.shuffle(&mut rows);
    Some(Workload {
        book: bytes_of(&rows),
        results,
    })
}
