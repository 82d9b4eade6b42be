//! `soundness [ROUNDS]`: how long a check of soundness takes, by the book's size: the proved one, the yardstick's, the
//! second program's, and beside them a copy of the book's bytes, all in one run. Once each goes over all books in turn,
//! so that no call meets the book that it has just met, and once each meets one book again and again. The medians are
//! printed.

use bench::yardstick::Yardstick;
use bench::SIZES;
use second::calls::BAD_INPUT;
use second::gen;
use second::mutate;
use second::record::RECORD;
use second::rng::Rng;
use second::sound::{self, Rule};
use std::hint::black_box;
use std::time::{Duration, Instant};

extern "C" {
    /// As include/book.h declares it: C passes a slice as a pointer and a length.
    fn book_lookup(
        book: *const u8,
        book_len: usize,
        input: *const u8,
        input_len: usize,
        answer: *mut u8,
        answer_len: usize,
    ) -> i32;
}

const BOOKS: usize = 20;
const ROUNDS: usize = 51;
/// A measurement repeats what it measures for about so long, as the clock is coarse.
const SPAN: Duration = Duration::from_micros(200);

/// The status of a book, by a lookup whose input is no lookup's: the book is checked first, and then the input is refused.
fn proved_status(book: &[u8]) -> i32 {
    let (input, mut answer) = ([0; RECORD], [0; 2 * RECORD]);
    let (a, b, c) = (book.len(), input.len(), answer.len());
    // SAFETY: the pointers and lengths are those of slices that are borrowed until the call returns.
    let status =
        unsafe { book_lookup(book.as_ptr(), a, input.as_ptr(), b, answer.as_mut_ptr(), c) };
    match status {
        BAD_INPUT => 0,
        other => other,
    }
}

/// What the checks work in besides the book: as much room as it takes, and the yardstick's areas.
struct Areas {
    copy: Vec<u8>,
    yardstick: Yardstick,
}

/// The four that are measured.
const TASKS: [fn(&[u8], &mut Areas) -> i32; 4] = [
    |book, areas| {
        areas.copy.copy_from_slice(book);
        0
    },
    |book, _| proved_status(book),
    |book, areas| areas.yardstick.status(book),
    |book, _| sound::status(book),
];

/// The seconds that one book takes, as the mean of so many runs over all books.
fn measure(task: usize, repeats: u32, books: &[Vec<u8>], areas: &mut Areas) -> f64 {
    let start = Instant::now();
    for _ in 0..repeats {
        for book in books {
            let status = TASKS[task](black_box(book), black_box(&mut *areas));
            assert_eq!(black_box(status), 0, "a sound book was refused");
        }
    }
    start.elapsed().as_secs_f64() / f64::from(repeats) / books.len() as f64
}

fn repeats_for(task: usize, books: &[Vec<u8>], areas: &mut Areas) -> u32 {
    measure(task, 1, books, areas);
    let once = measure(task, 1, books, areas) * books.len() as f64;
    (SPAN.as_secs_f64() / once).clamp(1.0, 10_000.0) as u32
}

fn median(mut times: Vec<f64>) -> f64 {
    times.sort_by(f64::total_cmp);
    times[times.len() / 2]
}

/// Sees that all checks refuse books that are broken in each rule: what is measured is the whole check.
fn compare(rng: &mut Rng, records: usize) {
    for rule in Rule::ALL {
        let mut book = gen::book(rng, records);
        if mutate::of_rule(rng, rule, &mut book).is_some() {
            let mut areas = Areas {
                copy: book.clone(),
                yardstick: Yardstick::default(),
            };
            let statuses = TASKS.map(|task| task(&book, &mut areas));
            assert_eq!(statuses[1..], [-102; 3], "a book that breaks {rule:?}");
        }
    }
}

/// The median times of the tasks, in microseconds. Books are met in turn by so many.
fn medians(records: usize, rounds: usize, by: usize) -> [f64; TASKS.len()] {
    let mut rng = Rng::new(records as u64);
    compare(&mut rng, records);
    let books: Vec<Vec<u8>> = (0..BOOKS).map(|_| gen::book(&mut rng, records)).collect();
    let mut areas = Areas {
        copy: books[0].clone(),
        yardstick: Yardstick::default(),
    };
    let repeats = std::array::from_fn(|task| repeats_for(task, &books[..by], &mut areas));
    let repeats: [u32; TASKS.len()] = repeats;
    let mut times = [const { Vec::new() }; TASKS.len()];
    for _ in 0..rounds {
        for group in books.chunks(by) {
            for task in 0..TASKS.len() {
                times[task].push(measure(task, repeats[task], group, &mut areas));
            }
        }
    }
    times.map(|list| median(list) * 1e6)
}

fn table(rounds: usize, by: usize) {
    println!("records       copy     proved  yardstick     second   proved:copy   proved:yardstick   second:proved");
    let of_sizes = SIZES.map(|records| medians(records, rounds, by));
    for (records, [copy, proved, yardstick, second]) in SIZES.into_iter().zip(of_sizes) {
        println!(
            "{records:7} {copy:10.3} {proved:10.3} {yardstick:10.3} {second:10.3} {:13.1} {:18.2} {:15.1}",
            proved / copy,
            proved / yardstick,
            second / proved
        );
    }
    for (name, task) in [("proved", 1), ("yardstick", 2)] {
        println!(
            "{name}: {}",
            bench::growth(of_sizes.map(|times| times[task]))
        );
    }
}

fn main() {
    let rounds = bench::count_asked("ROUNDS", ROUNDS);
    println!("medians over {BOOKS} sound books, in microseconds; ratios of medians");
    println!("\nthe books in turn, {rounds} rounds:");
    table(rounds, BOOKS);
    println!("\none book again and again, 15 rounds:");
    table(15, 1);
}
