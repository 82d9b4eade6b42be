//! `sqlite [ROUNDS]`: how long a result takes by book_result, by the yardstick and by SQLite in memory, with the
//! statements of the standard and one transaction a result, on the same books.
//!
//! A round posts the same list of results to a fresh copy of the book for each of the first two, and to fresh tables
//! that hold its rows; none is made within the time that is measured, nor are the statements prepared. Afterwards every
//! answer is compared, and the rows of the tables with those of the book, each as many times: all have done the same.

use bench::yardstick::Yardstick;
use bench::{count_asked, Spread, SIZES};
use database::Database;
use posting::Posting;
use second::calls::{Call, BAD_INPUT, NO_ROOM};
use second::record::{rows_of, Row, LOT_HISTORY, RECORD};
use second::rng::Rng;
use second::runs;
use std::collections::BTreeSet;
use std::hint::black_box;
use std::time::Instant;
use workload::Workload;

mod database;
mod posting;
mod tables;
mod workload;

#[path = "../../../../calls/src/library.rs"]
mod library;
use library::{Run, CALLS};

const ROUNDS: usize = 21;
/// About how many results a round posts at least.
const RESULTS: usize = 500;

/// What SQLite is told before the tables are filled. In memory the journal is there for ROLLBACK alone: without it a
/// refused result could not be undone.
const WAYS: [(&str, &str); 3] = [
    (
        "journal in memory",
        "PRAGMA journal_mode = MEMORY; PRAGMA foreign_keys = OFF",
    ),
    (
        "the same, with foreign keys",
        "PRAGMA journal_mode = MEMORY; PRAGMA foreign_keys = ON",
    ),
    (
        "no journal",
        "PRAGMA journal_mode = OFF; PRAGMA foreign_keys = OFF",
    ),
];

/// How many random lists of results are posted by both before anything is measured.
const LISTS: u64 = 200;

/// The rows of a book, sorted.
fn sorted_rows(book: &[u8]) -> Vec<Row> {
    let mut rows = rows_of(book);
    rows.retain(|row| !row.is_free());
    rows.sort();
    rows
}

/// Sees that the statements do what book_result does, refusals too: random lists of results, with every status, answer
/// and row compared. Tables have no inputs that break a field's rule and are never full, so an input of the first kind
/// is left out, and a list ends where the book is full.
fn compare(run: Run) {
    let mut met = BTreeSet::new();
    for number in 0..LISTS {
        let list = runs::any_run(&mut Rng::new(number));
        let database = Database::in_memory();
        database.execute(WAYS[1].1);
        tables::load(&database, &list.book);
        let posting = Posting::new(&database);
        let mut book = list.book;
        for input in &list.list {
            let mut answer = [0; RECORD];
            let status = run(&mut book, &input.write(), &mut answer);
            if status == NO_ROOM {
                break;
            }
            met.insert(status);
            if status != BAD_INPUT {
                let expected = match status {
                    0 => Ok(Row::read(&answer)),
                    _ => Err(status),
                };
                assert_eq!(posting.result(input), expected, "list {number}");
            }
        }
        let alike = tables::sorted_rows(&database) == sorted_rows(&book);
        assert!(alike, "list {number}: SQLite and the book end otherwise");
    }
    let all = Call::Result.statuses().iter();
    let wanted = all.filter(|status| !(-102..=-100).contains(*status) && **status != NO_ROOM);
    assert!(
        met.iter().eq(&wanted.copied().collect::<BTreeSet<i32>>()),
        "met: {met:?}"
    );
}

/// What a list of results left: the answers in turn, and the rows without their places.
#[derive(PartialEq)]
struct End {
    answers: Vec<Row>,
    rows: Vec<Row>,
}

/// Posts the results to a book: the seconds of one of them, and the end.
fn by_book(mut run: impl FnMut(&mut [u8], &[u8], &mut [u8]) -> i32, work: &Workload) -> (f64, End) {
    let mut book = work.book.clone();
    let inputs: Vec<[u8; RECORD]> = work.results.iter().map(Row::write).collect();
    let mut answers = vec![[0; RECORD]; inputs.len()];
    let start = Instant::now();
    for (input, answer) in inputs.iter().zip(&mut answers) {
        let status = run(black_box(&mut book), input, answer);
        assert_eq!(black_box(status), 0, "an accepted result was refused");
    }
    let seconds = start.elapsed().as_secs_f64() / inputs.len() as f64;
    let rows = sorted_rows(&book);
    let answers = answers.iter().map(Row::read).collect();
    (seconds, End { answers, rows })
}

/// The same by SQLite.
fn by_sqlite(pragmas: &str, work: &Workload) -> (f64, End) {
    let database = Database::in_memory();
    database.execute(pragmas);
    tables::load(&database, &work.book);
    let posting = Posting::new(&database);
    let mut answers = Vec::with_capacity(work.results.len());
    let start = Instant::now();
    for input in &work.results {
        let answer = posting.result(black_box(input));
        answers.push(answer.expect("an accepted result was refused"));
    }
    let seconds = start.elapsed().as_secs_f64() / work.results.len() as f64;
    let rows = tables::sorted_rows(&database);
    (seconds, End { answers, rows })
}

fn main() {
    let rounds = count_asked("ROUNDS", ROUNDS);
    let (_, run) = *CALLS
        .iter()
        .find(|(call, _)| *call == Call::Result)
        .unwrap();
    compare(run);
    println!(
        "a result by book_result, the yardstick and SQLite {} in memory, one transaction each: {rounds} rounds, in",
        database::version()
    );
    println!("microseconds a result: the median of the rounds, and in brackets their 10th and 90th percentile");
    println!("book_result and the yardstick check the whole book in every call; SQLite checks its constraints alone");
    let mut yardstick = Yardstick::default();
    for records in SIZES {
        let work = workload::of(records);
        let (_, end) = by_book(run, &work);
        let closed = end
            .rows
            .iter()
            .filter(|row| row.kind == LOT_HISTORY && row.signed_n1() != 0)
            .count();
        println!(
            "\n{} results on a book of {records} records, which close or reduce {closed} lots:",
            work.results.len()
        );
        // A short list is posted so often in a round that its time can be told from the clock's steps.
        let repeats = 1 + RESULTS / work.results.len();
        let mut times = vec![Vec::new(); 2 + WAYS.len()];
        for at in 0..=rounds {
            let mut taken = vec![0.0; times.len()];
            for _ in 0..repeats {
                let by_yardstick = by_book(|a, b, c| yardstick.result(a, b, c), &work);
                let mut ends = vec![by_book(run, &work), by_yardstick];
                ends.extend(WAYS.map(|(_, pragmas)| by_sqlite(pragmas, &work)));
                for (sum, (seconds, reached)) in taken.iter_mut().zip(ends) {
                    assert!(
                        reached == end,
                        "the book, the yardstick and SQLite end otherwise"
                    );
                    *sum += seconds / repeats as f64;
                }
            }
            // The first round warms the caches and is not counted.
            if at > 0 {
                for (list, mean) in times.iter_mut().zip(taken) {
                    list.push(mean);
                }
            }
        }
        let names = ["book_result", "the yardstick"]
            .into_iter()
            .chain(WAYS.map(|(name, _)| name));
        let spreads: Vec<Spread> = times.into_iter().map(Spread::of).collect();
        for (name, spread) in names.zip(&spreads) {
            println!(
                "  {name:28} {:28} {:6.3} of book_result, which takes {:6.3} of it",
                spread.text(),
                spread.median / spreads[0].median,
                spreads[0].median / spread.median
            );
        }
    }
}
