//! `vectors SEED COUNT`: prints COUNT small random cases, one on a line: call, book, input, answer
//! area before, then the status, the answer and the book that are expected. Areas are hexadecimal,
//! `-` for one of no bytes. The four calls come in turn; for each, its statuses in turn, and as many
//! successes, which show in turn what a success can do.

use second::calls::Call;
use second::features;
use second::gen::{self, Case};
use second::hex::encode;
use second::rng::Rng;
use std::io::{self, Write};

/// The books are small enough for a slow checker.
const MOST_RECORDS: usize = 24;

fn run(case: &Case) -> (i32, Vec<u8>, Vec<u8>) {
    let mut book = case.book.clone();
    let mut answer = case.answer.clone();
    let status = case.call.run(&mut book, &case.input, &mut answer);
    (status, answer, book)
}

/// A case that gives this status (and does this, if it is a success), or any other if none is found
/// in good time.
fn aimed(rng: &mut Rng, call: Call, status: i32, feature: &str) -> Case {
    for _ in 0..5_000 {
        let case = gen::case(rng, call, MOST_RECORDS);
        let (found, answer, book) = run(&case);
        if found != status {
            continue;
        }
        let shows =
            |name| features::of(call, &case.book, &book, &case.input, &answer).contains(&name);
        if status != 0 || shows(feature) {
            return case;
        }
    }
    gen::case(rng, call, MOST_RECORDS)
}

fn main() -> io::Result<()> {
    let numbers: Vec<u64> = std::env::args()
        .skip(1)
        .filter_map(|text| text.parse().ok())
        .collect();
    let [seed, count] = numbers[..] else {
        eprintln!("usage: vectors SEED COUNT");
        std::process::exit(2);
    };
    let mut rng = Rng::new(seed);
    let mut out = io::BufWriter::new(io::stdout().lock());
    for number in 0..count as usize {
        let (call, wanted) = features::WANTED[number % 4];
        let statuses = call.statuses();
        // Successes have the most to show: every other case of a call is one.
        let turn = number / 4;
        let status = if turn % 2 == 0 {
            statuses[turn / 2 % statuses.len()]
        } else {
            0
        };
        let feature = wanted[turn / 2 % wanted.len()];
        let case = aimed(&mut rng, call, status, feature);
        let (status, answer, book) = run(&case);
        writeln!(
            out,
            "{} {} {} {} {} {} {}",
            call.name(),
            encode(&case.book),
            encode(&case.input),
            encode(&case.answer),
            status,
            encode(&answer),
            encode(&book)
        )?;
    }
    out.flush()
}
