//! `inner [ROUNDS]`: how long a lookup, an order and a result take on a book that is known to be sound and whose
//! directory is given: what is left of a call when the shell's checks are done. It is linked with libinner.a, the
//! library with the names of these inner functions visible, which no client gets.
//!
//! The books and inputs are those of `calls`. Before each call the book and its directory are copied into the areas
//! that the call works on, so every round does the same work. The copying is not measured; it leaves a small book in
//! the first cache and a large one in the second. So each call is measured twice: as the copying leaves it, and after
//! an area that is larger than the first cache was read, which leaves books of all sizes in the second.

use bench::{count_asked, Spread, SIZES};
use second::calls::Call;
use second::record::RECORD;
use std::hint::black_box;
use std::time::Instant;

#[path = "../cases.rs"]
mod cases;
#[path = "../../../calls/src/library.rs"]
mod library;
use cases::{cases, Case, BOOKS, LINES};

const ROUNDS: usize = 101;
/// The bytes that are read to clear the first cache: more than it has, and less than the second.
const OTHER: usize = 256 * 1_024;
/// The bytes that a processor reads at once, or fewer.
const LINE: usize = 32;
const MEASURED: [Call; 3] = [Call::Lookup, Call::Order, Call::Result];

/// A slice: the library's functions take its two parts one after the other.
#[derive(Clone, Copy)]
struct Lent(*const u8, usize);

/// The number of free places, and the largest trade number, in one order or the other; taken one after the other.
#[repr(C)]
#[derive(Clone, Copy)]
struct Totals(u64, u64);
/// What an inner call answers: the totals of the book that it leaves, or the refusal; wherever they stand.
type Ended = [u64; 8];

extern "C" {
    #[link_name = "directory::build::build"]
    fn build(book: *const u8, book_len: usize, dir: *const u8, dir_len: usize) -> Totals;
    #[link_name = "lookup::lookup"]
    fn lookup(
        book: *const u8,
        book_len: usize,
        dir: *const u8,
        dir_len: usize,
        input: *const u8,
        input_len: usize,
        answer: *const u8,
        answer_len: usize,
    ) -> u8;
    #[link_name = "order::order"]
    fn order(
        ended: *mut Ended,
        book: *const u8,
        book_len: usize,
        dir: *const u8,
        dir_len: usize,
        first: u64,
        second: u64,
        input: *const u8,
        input_len: usize,
        answer: *const u8,
        answer_len: usize,
    );
    #[link_name = "result::result"]
    fn result(
        ended: *mut Ended,
        book: *const u8,
        book_len: usize,
        dir: *const u8,
        dir_len: usize,
        first: u64,
        second: u64,
        input: *const u8,
        input_len: usize,
        answer: *const u8,
        answer_len: usize,
    );
}

fn lent<T>(area: &[T]) -> Lent {
    Lent(area.as_ptr().cast(), area.len())
}

/// A book's directory and its totals.
fn directory(book: &[u8]) -> (Vec<u16>, Totals) {
    let records = book.len() / RECORD;
    let cells = match records {
        0..=127 => 512,
        128..=1_023 => 4_096,
        _ => 32_768,
    };
    let dir = vec![records as u16; cells];
    let (Lent(b, b_len), Lent(d, d_len)) = (lent(book), lent(&dir));
    // SAFETY: the book has at most 4,096 records, and all cells of the directory hold their number.
    let totals = unsafe { build(b, b_len, d, d_len) };
    (dir, totals)
}

/// Reads an area, a byte of each line.
fn read(area: &[u8]) -> u8 {
    area.iter().step_by(LINE).fold(0, |sum, byte| sum ^ byte)
}

/// The seconds that the inner call takes.
fn timed(call: Call, book: &[u8], dir: &[u16], totals: &Totals, case: &Case) -> f64 {
    let (Lent(b, b_len), Lent(d, d_len)) = (lent(book), lent(dir));
    let (Lent(i, i_len), Lent(a, a_len)) = (lent(&case.input), lent(&case.answer));
    let Totals(first, second) = *totals;
    let mut ended = [0; 8];
    let start = Instant::now();
    // SAFETY: the book is sound, the directory is the book's, and the lengths are those of the call.
    unsafe {
        match call {
            Call::Lookup => ended[0] = lookup(b, b_len, d, d_len, i, i_len, a, a_len).into(),
            Call::Order => order(&mut ended, b, b_len, d, d_len, first, second, i, i_len, a, a_len),
            _ => result(&mut ended, b, b_len, d, d_len, first, second, i, i_len, a, a_len),
        }
    }
    let taken = start.elapsed();
    black_box(&ended);
    taken.as_secs_f64()
}

fn main() {
    let rounds = count_asked("ROUNDS", ROUNDS);
    println!("inner calls, accepted: {rounds} rounds over {BOOKS} sound books of a size whose directories are");
    println!("given, in microseconds a call; the median of the rounds, and in brackets their 10th and 90th percentile");
    println!(
        "\n{:8} {:>7}  {:30} from the second cache",
        "call", "records", "as the copying leaves it"
    );
    let other = vec![1; OTHER];
    let mut medians = Vec::new();
    for records in SIZES {
        let (books, by_line) = cases(records);
        let made: Vec<_> = books.iter().map(|book| directory(book)).collect();
        for ((name, call), cases) in LINES.iter().zip(&by_line) {
            if !MEASURED.contains(call) {
                continue;
            }
            let spreads = [false, true].map(|cleared| {
                let mut times = Vec::new();
                for round in 0..=rounds {
                    let mut sum = 0.0;
                    for ((book, (dir, totals)), case) in books.iter().zip(&made).zip(cases) {
                        let (book, dir) = (black_box(book.clone()), black_box(dir.clone()));
                        if cleared {
                            black_box(read(black_box(&other)));
                        }
                        sum += timed(*call, &book, &dir, totals, case);
                        assert_eq!(
                            book, case.after,
                            "{name}: the inner call leaves another book"
                        );
                    }
                    if round > 0 {
                        times.push(sum / BOOKS as f64);
                    }
                }
                Spread::of(times)
            });
            println!(
                "{name:8} {records:7}  {:30} {}",
                spreads[0].text(),
                spreads[1].text()
            );
            medians.push((*name, spreads.map(|spread| spread.median)));
        }
    }
    println!();
    for call in 0..MEASURED.len() {
        let (name, small) = medians[call];
        let (_, large) = medians[2 * MEASURED.len() + call];
        println!(
            "{name}: 4,096 records take {:.2} times as long as 64, and {:.2} times from the second cache",
            large[0] / small[0],
            large[1] / small[1]
        );
    }
}
