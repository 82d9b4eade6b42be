//! `calls [ROUNDS]`: how long each call of libbook.a takes where it is accepted, by the book's size, beside a copy of
//! the book, the second program and, for a result, the yardstick, all in one run.
//!
//! A size has twenty sound books, the same for all calls, and each book one input for each call. A round copies the
//! books, each into an area of its own, and then makes the call on each of these copies in turn: so every round does
//! the same work, and what its times differ by is the machine's noise. A round's time is the mean over the books.

use bench::yardstick::Yardstick;
use bench::{count_asked, growth, Spread, SIZES};
use second::calls::Call;
use std::hint::black_box;
use std::time::Instant;

#[path = "../cases.rs"]
mod cases;
#[path = "../../../calls/src/library.rs"]
mod library;
use cases::{cases, library_run, Case, BOOKS, LINES, QUIET_FEED};

const ROUNDS: usize = 101;

/// The seconds that one book takes: to be copied, and to have the call made on its copy.
fn round(
    mut run: impl FnMut(&mut [u8], &[u8], &mut [u8]) -> i32,
    books: &[Vec<u8>],
    areas: &mut [Vec<u8>],
    cases: &mut [Case],
) -> (f64, f64) {
    let start = Instant::now();
    for (area, book) in areas.iter_mut().zip(books) {
        area.copy_from_slice(black_box(book));
        black_box(area);
    }
    let copied = Instant::now();
    for (area, case) in areas.iter_mut().zip(cases) {
        let status = run(black_box(area), black_box(&case.input), &mut case.answer);
        assert_eq!(black_box(status), 0, "an accepted call was refused");
        black_box(&case.answer);
    }
    let ended = Instant::now();
    let each = |from: Instant, to: Instant| (to - from).as_secs_f64() / books.len() as f64;
    (each(start, copied), each(copied, ended))
}

/// What a line of the table says.
struct Line {
    name: &'static str,
    changed: usize,
    copy: Spread,
    proved: Spread,
    yardstick: Option<Spread>,
    second: Spread,
}

/// Measures what is to be measured at a size.
fn lines(records: usize, rounds: usize) -> Vec<Line> {
    let (books, mut by_line) = cases(records);
    let mut areas = books.clone();
    let mut yardstick = Yardstick::default();
    let mut lines = Vec::new();
    for ((name, call), cases) in LINES.into_iter().zip(&mut by_line) {
        let [mut copy, mut proved, mut fast, mut second] = [const { Vec::new() }; 4];
        // The first round of each warms the caches and is not counted.
        for at in 0..=rounds {
            let by_library = round(library_run(call), &books, &mut areas, cases);
            let by_yardstick = (call == Call::Result).then(|| {
                round(
                    |a, b, c| yardstick.result(a, b, c),
                    &books,
                    &mut areas,
                    cases,
                )
            });
            let by_second = round(|a, b, c| call.run(a, b, c), &books, &mut areas, cases);
            if at > 0 {
                copy.push(by_library.0);
                proved.push(by_library.1);
                fast.extend(by_yardstick.map(|times| times.1));
                second.push(by_second.1);
            }
        }
        lines.push(Line {
            name,
            changed: cases.iter().map(|case| case.changed).sum(),
            copy: Spread::of(copy),
            proved: Spread::of(proved),
            yardstick: (call == Call::Result).then(|| Spread::of(fast)),
            second: Spread::of(second),
        });
    }
    lines
}

impl Line {
    fn print(&self, records: usize, result: f64) {
        let ours = self.proved.median;
        let (yardstick, to_yardstick) = match &self.yardstick {
            Some(spread) => (spread.text(), format!("{:.2}", ours / spread.median)),
            None => ("-".to_string(), "-".to_string()),
        };
        println!(
            "{:10} {records:7} {:7.1}  {:24} {:30} {yardstick:28} {:33} {:11.1} {to_yardstick:>16} {:13.2} {:13.1}",
            self.name,
            self.changed as f64 / BOOKS as f64,
            self.copy.text(),
            self.proved.text(),
            self.second.text(),
            ours / self.copy.median,
            ours / result,
            self.second.median / ours
        );
    }
}

fn main() {
    let rounds = count_asked("ROUNDS", ROUNDS);
    println!("each call, accepted: {rounds} rounds over {BOOKS} sound books of a size, in microseconds a call;");
    println!("the median of the rounds, and in brackets their 10th and 90th percentile; ratios of medians");
    println!("'changed' is how many records of the book a call changes, the mean over the books; a quiet feed submits");
    println!("nothing; the last but one column is the call beside the library's own result");
    println!(
        "\n{:10} {:>7} {:>7}  {:24} {:30} {:28} {:33} {:>11} {:>16} {:>13} {:>13}",
        "call",
        "records",
        "changed",
        "copy",
        "proved",
        "yardstick",
        "second",
        "proved:copy",
        "proved:yardstick",
        "proved:result",
        "second:proved"
    );
    let mut of_sizes = Vec::new();
    for records in SIZES {
        let lines = lines(records, rounds);
        let result = lines[LINES.len() - 1].proved.median;
        for line in &lines {
            line.print(records, result);
        }
        of_sizes.push(lines);
    }
    println!();
    for (at, (name, _)) in LINES.iter().enumerate() {
        let medians = [0, 1, 2].map(|size: usize| of_sizes[size][at].proved.median);
        println!("{name}, proved: {}", growth(medians));
    }
    let medians = [0, 1, 2].map(|size: usize| of_sizes[size][LINES.len() - 1].yardstick);
    println!(
        "result, yardstick: {}",
        growth(medians.map(|spread| spread.unwrap().median))
    );
    for (lines, records) in of_sizes.iter().zip(SIZES) {
        let of = |name| {
            lines
                .iter()
                .find(|line| line.name == name)
                .unwrap()
                .proved
                .median
        };
        println!(
            "at {records} records a quiet feed takes {:.2} of a lookup",
            of(QUIET_FEED) / of("lookup")
        );
    }
}
