//! Cases of the four calls that are accepted, for the programs that measure them. It is a part of each of them, and not
//! of the library `bench`, as it calls libbook.a. Each of them leaves something of it unused.
#![allow(dead_code)]

use crate::library::{Run, CALLS};
use bench::yardstick::Yardstick;
use second::calls::{Call, MAX_ENTRIES};
use second::gen::{self, Focus, Plan};
use second::record::{bytes_of, rows_of, Row, FLAG_ROLL_BACK, RECORD, REQUEST, TLB, TSL};
use second::rng::Rng;

/// What is measured, the result last. A quiet feed submits nothing.
pub const LINES: [(&str, Call); 5] = [
    ("lookup", Call::Lookup),
    (QUIET_FEED, Call::Feed),
    ("feed", Call::Feed),
    ("order", Call::Order),
    ("result", Call::Result),
];
pub const QUIET_FEED: &str = "quiet feed";
pub const BOOKS: usize = 20;
/// How many inputs are tried on a book before another book is.
const TRIES: usize = 300;

/// What one call is measured on: a book's bytes are in `books`, at the same place.
pub struct Case {
    pub input: Vec<u8>,
    pub answer: Vec<u8>,
    /// How many of the book's records the call changes.
    pub changed: usize,
    /// The book that the call leaves.
    pub after: Vec<u8>,
}

/// Whether no request waits that this entry of a feed would submit.
fn submits_none(entry: &Row, rows: &[Row]) -> bool {
    rows.iter().all(|row| {
        let submits = match row.typ {
            TLB | TSL => row.n2 >= entry.n1,
            _ => row.n2 <= entry.n1,
        };
        row.kind != REQUEST || row.symbol != entry.symbol || !submits
    })
}

/// An input for this line: a feed or a lookup has as many records as may be, an order is not rolled back.
fn input_for(rng: &mut Rng, name: &str, call: Call, rows: &[Row]) -> Option<Vec<Row>> {
    let mut input = Vec::new();
    for _ in 0..TRIES {
        let more = gen::good_input(rng, call, rows);
        input.extend(
            more.into_iter()
                .filter(|entry| name != QUIET_FEED || submits_none(entry, rows)),
        );
        match call {
            Call::Feed | Call::Lookup if input.len() < MAX_ENTRIES => continue,
            Call::Feed | Call::Lookup => input.truncate(MAX_ENTRIES),
            Call::Order => input[0].flags &= !FLAG_ROLL_BACK,
            Call::Result => {}
        }
        return Some(input);
    }
    None
}

/// An input that the second program accepts on this book, if one is found soon.
fn accepted(rng: &mut Rng, name: &str, call: Call, book: &[u8]) -> Option<Case> {
    let rows = rows_of(book);
    for _ in 0..TRIES {
        let input = bytes_of(&input_for(rng, name, call, &rows)?);
        let mut answer = vec![0; call.answer_length(input.len())];
        let mut after = book.to_vec();
        if call.run(&mut after, &input, &mut answer) != 0 {
            continue;
        }
        // The library and the yardstick do the same, byte for byte, or the times would be of different work.
        let same = |run: Run| {
            let (mut ours, mut answered) = (book.to_vec(), vec![0; answer.len()]);
            run(&mut ours, &input, &mut answered) == 0 && ours == after && answered == answer
        };
        assert!(
            same(library_run(call)),
            "{name}: the library differs from the second program"
        );
        assert!(
            call != Call::Result || same(|a, b, c| Yardstick::default().result(a, b, c)),
            "{name}: the yardstick differs from the second program"
        );
        let pairs = book.chunks(RECORD).zip(after.chunks(RECORD));
        return Some(Case {
            input,
            answer,
            changed: pairs.filter(|(before, after)| before != after).count(),
            after,
        });
    }
    None
}

/// The books of a size, and for each of LINES a case on each of them. An eighth of a book is free.
pub fn cases(records: usize) -> (Vec<Vec<u8>>, Vec<Vec<Case>>) {
    let mut rng = Rng::new(records as u64);
    let plan = Plan {
        records,
        free: records / 8,
        limits: false,
        submitted: 30,
        focus: Focus::Nothing,
    };
    let (mut books, mut by_line) = (Vec::new(), Vec::new());
    by_line.resize_with(LINES.len(), Vec::new);
    while books.len() < BOOKS {
        let book = gen::book_of(&mut rng, &plan);
        let found: Option<Vec<Case>> = LINES
            .iter()
            .map(|(name, call)| accepted(&mut rng, name, *call, &book))
            .collect();
        if let Some(found) = found {
            books.push(book);
            for (list, case) in by_line.iter_mut().zip(found) {
                list.push(case);
            }
        }
    }
    (books, by_line)
}

pub fn library_run(call: Call) -> Run {
    let (_, run) = CALLS.iter().find(|(other, _)| *other == call).unwrap();
    *run
}
