//! `yardstick [CASES]`: holds the yardstick to the second program: the status, every byte of the answer and every byte
//! of the book of CASES random results (else 20,000) on books of all sizes; and the status of books that are broken in
//! every way that `second::mutate` knows, with one field of a row of each kind set to the ends of all ranges, with one
//! row as another, and with faults that hide each other. Prints how often each status came; its last line is 'N passed,
//! M failed'.

use bench::count_asked;
use bench::yardstick::Yardstick;
use second::calls::Call;
use second::gen::{self, Focus, Plan};
use second::record::*;
use second::rng::Rng;
use second::sound::{self, Rule};
use second::{features, mutate};
use std::collections::{BTreeMap, BTreeSet};

const CASES: usize = 20_000;
/// So many sound books are broken in each way.
const BOOKS_EACH: u64 = 30;
/// So many sound books have the fields of their rows changed.
const BOOKS_OF_FIELDS: u64 = 5;
/// So many have each row replaced once.
const BOOKS_OF_COPIES: u64 = 200;
const MOST_SAID: u64 = 10;

/// The ends of the ranges of the grid; a field is set to these, to what lies beside them, and to their negatives.
const BORDERS: [u64; 19] = [
    0,
    1,
    2,
    3,
    4,
    5,
    MAX_BAND_RATE as u64,
    MAX_RATE as u64,
    MAX_SHARES as u64,
    MAX_PRICE as u64,
    MAX_NUMBER as u64,
    MAX_TIME as u64,
    MAX_DUE_TIME as u64,
    MAX_VOLUME,
    MAX_FEE,
    MAX_TRADE_NUMBER,
    1 << 15,
    1 << 31,
    1 << 63,
];

#[derive(Default)]
struct Tally {
    passed: u64,
    failed: u64,
}

impl Tally {
    fn count(&mut self, good: bool, what: impl Fn() -> String) {
        if good {
            self.passed += 1;
            return;
        }
        self.failed += 1;
        if self.failed <= MOST_SAID {
            println!("the yardstick and the second program differ: {}", what());
        }
    }
}

/// Random results. Every status and every feature of an accepted result must come up.
fn results(tally: &mut Tally, yardstick: &mut Yardstick, cases: usize) {
    let mut met = BTreeMap::new();
    let mut shown = BTreeSet::new();
    for number in 0..cases as u64 {
        let case = gen::any_case(&mut Rng::of(1, Call::Result.kind(), number), Call::Result);
        let (mut book, mut answer) = (case.book.clone(), case.answer.clone());
        let status = yardstick.result(&mut book, &case.input, &mut answer);
        let (mut expected_book, mut expected_answer) = (case.book.clone(), case.answer);
        let expected = second::calls::result(&mut expected_book, &case.input, &mut expected_answer);
        let good = status == expected && book == expected_book && answer == expected_answer;
        tally.count(good, || {
            format!("case {number}: status {status}, expected {expected}")
        });
        let of_book = (yardstick.status(&case.book), sound::status(&case.book));
        tally.count(of_book.0 == of_book.1, || {
            format!("case {number}: the book's statuses are {of_book:?}")
        });
        *met.entry(expected).or_insert(0) += 1;
        if expected == 0 {
            let list = features::of(
                Call::Result,
                &case.book,
                &expected_book,
                &case.input,
                &expected_answer,
            );
            shown.extend(list);
        }
    }
    for status in Call::Result.statuses() {
        let count = met.get(status).copied().unwrap_or(0);
        println!("result, status {status:4}: {count}");
        tally.count(count > 0, || format!("no case of status {status}"));
    }
    let wanted = features::WANTED
        .iter()
        .filter(|(call, _)| *call == Call::Result);
    for name in wanted.flat_map(|(_, names)| *names) {
        tally.count(shown.contains(name), || {
            format!("no accepted result that {name}")
        });
    }
}

/// Books that are broken by each mutation.
fn broken_books(tally: &mut Tally, yardstick: &mut Yardstick) {
    let mut by_rule: BTreeMap<Rule, (usize, u64)> = BTreeMap::new();
    for (at, mutation) in mutate::ALL.iter().enumerate() {
        let mut broken = 0;
        for number in 0..BOOKS_EACH {
            let mut rng = Rng::of(2, at as u8, number);
            let records = rng.between(18, 150) as usize;
            let mut book = gen::book(&mut rng, records);
            if mutate::apply(&mut rng, mutation, &mut book) {
                broken += 1;
                let statuses = (yardstick.status(&book), sound::status(&book));
                tally.count(statuses == (-102, -102), || {
                    format!("{}: {statuses:?}", mutation.name)
                });
            }
        }
        tally.count(broken > 0, || {
            format!("no book was broken by: {}", mutation.name)
        });
        let (ways, books) = by_rule.entry(mutation.rule).or_default();
        *ways += 1;
        *books += broken;
    }
    for (rule, (ways, books)) in by_rule {
        println!("{books} books broken in {rule:?}, in {ways} ways");
    }
}

/// Books with one field of one row changed: a row of each kind, all fields, all borders and broken symbols. Once in its
/// place, and once in a copy of the row on a free place, which no other row names.
fn fields(tally: &mut Tally, yardstick: &mut Yardstick) {
    let (mut met, mut all_kinds) = (BTreeMap::new(), BTreeSet::new());
    for number in 0..BOOKS_OF_FIELDS {
        let mut rng = Rng::of(3, 0, number);
        let plan = Plan {
            records: rng.between(60, 120) as usize,
            free: 5,
            limits: false,
            submitted: 30,
            focus: Focus::Nothing,
        };
        let book = gen::book_of(&mut rng, &plan);
        let rows = rows_of(&book);
        let free = rows.iter().position(Row::is_free).expect("five are");
        let mut kinds = BTreeSet::new();
        let of_each_kind = rows.iter().enumerate();
        for (place, row) in of_each_kind.filter(|(_, row)| kinds.insert(row.kind)) {
            for start in [place * RECORD, free * RECORD] {
                let mut book = book.clone();
                book[start..start + RECORD].copy_from_slice(&row.write());
                for (field, first, width) in mutate::PLACES {
                    let part = start + first..start + first + width;
                    let good = book[part.clone()].to_vec();
                    for value in values_for(field, width, row) {
                        book[part.clone()].copy_from_slice(&value[..width]);
                        let statuses = (yardstick.status(&book), sound::status(&book));
                        tally.count(statuses.0 == statuses.1, || {
                            format!("kind {}, {field:?} {value:?}: {statuses:?}", row.kind)
                        });
                        *met.entry(statuses.1).or_insert(0) += 1;
                    }
                    book[part].copy_from_slice(&good);
                }
            }
        }
        all_kinds.extend(kinds);
    }
    tally.count(
        (0..=PERMISSION).all(|kind| all_kinds.contains(&kind)),
        || format!("rows of these kinds alone were changed: {all_kinds:?}"),
    );
    println!("statuses of books with one field changed, and how often: {met:?}");
}

/// Books with one row replaced by a copy of another of its kind: a key is there twice, and yet the kind has as many
/// rows as before.
fn copies(tally: &mut Tally, yardstick: &mut Yardstick) {
    let mut met = BTreeMap::new();
    for number in 0..BOOKS_OF_COPIES {
        let mut rng = Rng::of(4, 0, number);
        let records = rng.between(18, 120) as usize;
        let book = gen::book(&mut rng, records);
        let rows = rows_of(&book);
        for (place, row) in rows.iter().enumerate().filter(|(_, row)| !row.is_free()) {
            let others = rows.iter().filter(|other| other.kind == row.kind);
            let other = rng.pick(&others.collect::<Vec<_>>()).write();
            let mut book = book.clone();
            book[place * RECORD..(place + 1) * RECORD].copy_from_slice(&other);
            let statuses = (yardstick.status(&book), sound::status(&book));
            tally.count(statuses.0 == statuses.1, || {
                format!("two rows of kind {}: {statuses:?}", row.kind)
            });
            *met.entry(statuses.1).or_insert(0) += 1;
        }
    }
    println!("statuses of books with one row as another, and how often: {met:?}");
}

/// Books with two faults that hide each other: a trade and its history of a status that there is not, and a lot of no
/// shares beside lots that add up without it.
fn hidden_faults(tally: &mut Tally, yardstick: &mut Yardstick) {
    let (mut statuses, mut lots) = (0, 0);
    for number in 0..BOOKS_OF_COPIES {
        let mut rng = Rng::of(5, 0, number);
        let records = rng.between(18, 120) as usize;
        let rows = rows_of(&gen::book(&mut rng, records));
        let mut refused = |rows: &[Row], what: &str| {
            let book = bytes_of(rows);
            let both = (yardstick.status(&book), sound::status(&book));
            tally.count(both == (-102, -102), || format!("{what}: {both:?}"));
        };
        for trade in rows
            .iter()
            .filter(|row| row.kind == TRADE && row.status != PNDG)
        {
            for status in [0, CMPT + 1] {
                let mut rows = rows.clone();
                let of_status = |row: &&mut Row| row.id == trade.id && row.status == trade.status;
                rows.iter_mut()
                    .filter(of_status)
                    .for_each(|row| row.status = status);
                refused(
                    &rows,
                    "a trade and its history of a status that there is not",
                );
                statuses += 1;
            }
            let of_trade = |row: &&Row| row.kind == LOT && row.id == trade.id;
            let summed = |row: &&Row| {
                row.kind == SUMMARY && row.party == trade.party && row.symbol == trade.symbol
            };
            let free = rows.iter().position(Row::is_free);
            if let (CMPT, None, Some(_), Some(free)) = (
                trade.status,
                rows.iter().find(of_trade),
                rows.iter().find(summed),
                free,
            ) {
                let mut rows = rows.clone();
                rows[free] = Row {
                    kind: LOT,
                    party: trade.party,
                    id: trade.id,
                    symbol: trade.symbol,
                    n1: 1,
                    ..Row::default()
                };
                refused(&rows, "a lot of no shares");
                lots += 1;
            }
        }
    }
    tally.count(statuses > 0 && lots > 0, || "no hidden faults".to_string());
    println!("{statuses} books with a trade and its history of no status, {lots} with a lot of no shares");
}

/// What a field of this row is set to: its first bytes are taken.
fn values_for(field: Field, width: usize, row: &Row) -> Vec<[u8; 8]> {
    let mut values: Vec<[u8; 8]> = BORDERS
        .iter()
        .flat_map(|border| [*border, border + 1, border.wrapping_sub(1)])
        .flat_map(|value| [value, value.wrapping_neg()])
        .map(u64::to_le_bytes)
        .collect();
    if field == Field::Symbol && row.symbol != [0; 8] {
        let broken = gen::broken_symbols(row.symbol).into_iter();
        values.extend(broken.map(|(_, bad)| bad));
    }
    values.sort();
    values.dedup_by_key(|value| value[..width].to_vec());
    values
}

fn main() {
    let (mut tally, mut yardstick) = (Tally::default(), Yardstick::default());
    results(&mut tally, &mut yardstick, count_asked("CASES", CASES));
    broken_books(&mut tally, &mut yardstick);
    fields(&mut tally, &mut yardstick);
    copies(&mut tally, &mut yardstick);
    hidden_faults(&mut tally, &mut yardstick);
    println!("{} passed, {} failed", tally.passed, tally.failed);
    std::process::exit(i32::from(tally.failed > 0));
}
