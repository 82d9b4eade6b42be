//! How well the directory's hash spreads the rows of a book, and what the calls do where it does not. The hash is
//! worked out here again, with the numbers that the directory's source has.

use crate::area::Area;
use crate::library::CALLS;
use crate::{compare, Tally, SPREAD};
use second::gen::{self, Plan};
use second::record::{
    bytes_of, rows_of, symbol, Row, ACCOUNT, BAND, CASH, CHARGE, CUSTOMER, HISTORY, LOT,
    LOT_HISTORY, MAX_RECORDS, MAX_TRADE_NUMBER, REQUEST, SECURITY, SETTLEMENT, SUMMARY, TRADE,
};
use second::rng::Rng;
use std::collections::{BTreeMap, BTreeSet};

const SOURCE: &str = include_str!("../../../crates/chains/src/group.rt");
const WORD: u64 = 1 << 32;
/// The most records of a book, by the heads of its directory. The last head is that of the free rows.
const SIZES: [(usize, u64); 3] = [(64, 256), (512, 2_048), (MAX_RECORDS, 16_384)];
/// So many groups may share a bucket. Chance alone puts five or six of 4,096 together.
const LONGEST: usize = 7;
/// The kinds that have a trade's number in `id`.
const NUMBERED: [u8; 7] = [TRADE, REQUEST, HISTORY, LOT, LOT_HISTORY, SETTLEMENT, CASH];

/// What rows of one group share.
#[derive(Clone, Copy, Default, PartialEq, Eq, PartialOrd, Ord)]
struct Group {
    kind: u8,
    typ: u8,
    status: u8,
    flags: u8,
    party: u32,
    id: u64,
    symbol: [u8; 8],
}

impl Group {
    fn of(row: &Row) -> Group {
        let (kind, none) = (row.kind, Group::default());
        let of_party = Group {
            kind,
            party: row.party,
            ..none
        };
        let of_trade = Group {
            kind,
            id: row.id,
            ..none
        };
        match kind {
            SECURITY => Group {
                kind,
                symbol: row.symbol,
                ..none
            },
            BAND => Group {
                kind,
                typ: row.typ,
                status: row.status,
                flags: row.flags,
                ..none
            },
            CHARGE => Group {
                kind,
                typ: row.typ,
                status: row.status,
                ..none
            },
            LOT | SUMMARY => Group {
                symbol: row.symbol,
                ..of_party
            },
            TRADE | REQUEST | HISTORY | LOT_HISTORY | SETTLEMENT | CASH => of_trade,
            _ => of_party,
        }
    }
}

/// The numbers that the hash multiplies by.
struct Hash {
    low: u64,
    high: u64,
    first_letters: u64,
    last_letters: u64,
    name: u64,
    party: u64,
}

impl Hash {
    /// Those that stand after a `*` in the source and are no power of two, in their order there.
    fn of_source() -> Hash {
        let numbers: Vec<u64> = SOURCE
            .split("* ")
            .skip(1)
            .filter_map(|rest| {
                let end = rest.find(|c: char| c != '_' && !c.is_ascii_digit())?;
                rest[..end].replace('_', "").parse().ok()
            })
            .filter(|number: &u64| !number.is_power_of_two())
            .collect();
        let [low, high, first_letters, last_letters, name, party] = numbers[..] else {
            panic!(
                "crates/chains/src/group.rt multiplies by other numbers than expected: {numbers:?}"
            );
        };
        Hash {
            low,
            high,
            first_letters,
            last_letters,
            name,
            party,
        }
    }

    fn number(&self, group: &Group) -> u64 {
        let name = u32::from_le_bytes([group.kind, group.typ, group.status, group.flags]);
        let letters = u64::from_be_bytes(group.symbol);
        let mixed = u64::from(name) * self.name
            + u64::from(group.party) * self.party
            + group.id % WORD * self.low
            + group.id / WORD * self.high
            + letters / WORD * self.first_letters
            + letters % WORD * self.last_letters;
        mixed % WORD
    }

    /// The most groups that share a bucket.
    fn longest(&self, groups: &BTreeSet<Group>, heads: u64) -> usize {
        let mut counts = BTreeMap::new();
        for group in groups {
            *counts
                .entry(self.number(group) * (heads - 1) / WORD)
                .or_insert(0) += 1;
        }
        counts.into_values().max().unwrap_or(0)
    }

    /// Rising trade numbers of which every kind's rows share a bucket, whatever the number of heads.
    fn colliding(&self) -> impl Iterator<Item = u64> + '_ {
        // By Newton's rule each step doubles how many of the lower bits are right.
        let inverse = (0..5).fold(1, |x, _| {
            x * ((2 + WORD - self.low * x % WORD) % WORD) % WORD
        });
        assert_eq!(self.low * inverse % WORD, 1);
        let most = MAX_TRADE_NUMBER / WORD - 1;
        (1..most)
            .map(move |high| high * WORD + (WORD - high * self.high % WORD) % WORD * inverse % WORD)
    }
}

/// Keys of many forms, as many as the largest book has records: numbers that rise, that are far apart, that differ in
/// their upper half alone, that several kinds share; symbols that are numbered, and those of the alphabet.
fn forms() -> Vec<(&'static str, Vec<Group>)> {
    let trades = |name, number: fn(u64) -> u64| {
        let kinds = [TRADE, HISTORY, SETTLEMENT, CASH];
        let rows = (0..4_096u64).map(move |i| Group {
            kind: kinds[i as usize % 4],
            id: number(i / 4 + 1),
            ..Group::default()
        });
        (name, rows.collect())
    };
    let parties = |name, number: fn(u32) -> u32| {
        let kinds = [CUSTOMER, ACCOUNT];
        let rows = (0..4_096u32).map(move |i| Group {
            kind: kinds[i as usize % 2],
            party: number(i / 2 + 1),
            ..Group::default()
        });
        (name, rows.collect())
    };
    let symbols = |name, letters: fn(u32) -> String| {
        let rows = (0..4_096u32).map(move |i| Group {
            kind: SECURITY,
            symbol: symbol(&letters(i)),
            ..Group::default()
        });
        (name, rows.collect())
    };
    let holdings = (0..4_096u32).map(|i| Group {
        kind: [LOT, SUMMARY][i as usize % 2],
        party: i / 40 + 1,
        symbol: symbol(&format!("S{:03}", i / 2 % 20)),
        ..Group::default()
    });
    vec![
        trades("trades from 1", |i| i),
        trades("trades from 200,000,000,000,000", |i| {
            200_000_000_000_000 + i
        }),
        trades("trades down from the largest", |i| MAX_TRADE_NUMBER - i),
        trades("trades in the upper half", |i| (i << 32) + 7),
        trades("trades in both halves", |i| (i << 32) + i),
        trades("every 8th trade", |i| i * 8),
        trades("every 1,000th trade", |i| i * 1_000),
        trades("every 65,536th trade", |i| i << 16),
        trades("every 1,000,000th trade", |i| i * 1_000_000),
        parties("customers and accounts from 1", |i| i),
        parties("customers and accounts from 43,000,000", |i| 43_000_000 + i),
        parties("every 10th customer and account", |i| 43_000_000 + i * 10),
        symbols("symbols of three letters", |i| {
            [676, 26, 1]
                .iter()
                .map(|part| char::from(b'A' + (i / part % 26) as u8))
                .collect()
        }),
        symbols("numbered symbols", |i| format!("S{i:04}")),
        symbols("long numbered symbols", |i| format!("SYM{i:04}")),
        ("lots and summaries", holdings.collect()),
    ]
}

/// The longest chain of keys of many forms, and of random books.
fn longest_chains(tally: &mut Tally, hash: &Hash, rng: &mut Rng) {
    let mut seen = [0; SIZES.len()];
    let mut hold = |name: &str, groups: &BTreeSet<Group>, size: usize| {
        let (records, heads) = SIZES[size];
        let longest = hash.longest(groups, heads);
        seen[size] = longest.max(seen[size]);
        let fault = (longest > LONGEST).then(|| format!("a bucket has {longest} groups"));
        tally.count(|| format!("{name}, {records} records"), fault);
    };
    for (name, groups) in forms() {
        for (size, (records, _)) in SIZES.iter().enumerate() {
            // As many, by turns from all over the list and from its beginning.
            let far: BTreeSet<Group> = (0..*records)
                .map(|i| groups[i * groups.len() / records])
                .collect();
            let near: BTreeSet<Group> = groups[..*records].iter().copied().collect();
            hold(name, &far, size);
            hold(name, &near, size);
        }
    }
    for round in 0..60 {
        let size = round % SIZES.len();
        let plan = Plan::random(rng, SIZES[size].0);
        let rows = rows_of(&gen::book_of(rng, &plan));
        let groups = rows
            .iter()
            .filter(|row| row.kind != 0)
            .map(Group::of)
            .collect();
        hold("a random book", &groups, size);
    }
    println!("longest chains of groups: {seen:?} on 64, 512 and 4,096 records");
}

/// The same book with these numbers for its trades, in the same order.
fn renumbered(book: &[u8], numbers: impl Iterator<Item = u64>) -> Vec<u8> {
    let mut rows = rows_of(book);
    let old: BTreeSet<u64> = rows
        .iter()
        .filter(|row| row.kind == TRADE)
        .map(|row| row.id)
        .collect();
    let new: BTreeMap<u64, u64> = old.into_iter().zip(numbers).collect();
    for row in rows.iter_mut().filter(|row| NUMBERED.contains(&row.kind)) {
        row.id = new[&row.id];
        if row.kind == LOT_HISTORY {
            row.m2 = new[&row.m2];
        }
    }
    bytes_of(&rows)
}

/// Calls on books whose trades share a bucket: slow, never wrong.
fn collisions(tally: &mut Tally, hash: &Hash, rng: &mut Rng) {
    let mut accepted = 0;
    for round in 0..24 {
        let (records, _) = SIZES[round % SIZES.len()];
        for (call, run) in CALLS {
            let plan = Plan::for_call(rng, *call, records);
            let book = renumbered(&gen::book_of(rng, &plan), hash.colliding());
            let trades: BTreeSet<Group> = rows_of(&book)
                .iter()
                .filter(|row| row.kind == TRADE)
                .map(Group::of)
                .collect();
            let shared = hash.longest(&trades, SIZES[0].1) == trades.len();
            let case = gen::case_on(rng, *call, book);
            let mut area = Area::new(rng, &case.book);
            let (status, fault) = compare(&mut tally.kept, rng, run, &case, &mut area);
            let fault =
                fault.or_else(|| (!shared).then(|| "the trades do not share a bucket".to_string()));
            accepted += u64::from(status == 0);
            tally.count(
                || format!("{} on a book that collides, round {round}", call.name()),
                fault,
            );
        }
    }
    println!("{accepted} calls accepted on books whose trades share a bucket");
    let fault = (accepted == 0).then(|| "none is accepted".to_string());
    tally.count(|| "books that collide".to_string(), fault);
}

pub fn run(tally: &mut Tally, seed: u64) {
    let hash = Hash::of_source();
    // The books whose chains are counted are always the same: by chance alone one in some thousand has a longer chain.
    longest_chains(tally, &hash, &mut Rng::of(1, SPREAD, 1));
    collisions(tally, &hash, &mut Rng::of(seed, SPREAD, 2));
}
