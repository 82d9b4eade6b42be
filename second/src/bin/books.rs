//! `books SEED COUNT`: prints COUNT books, one on a line: the book in hexadecimal (`-` for none),
//! a space and what the tally program prints for it, each line end of that as `\n`. Sound ones,
//! ones broken in each rule, and wrong lengths come in turn.

use second::gen;
use second::hex::encode;
use second::mutate;
use second::rng::Rng;
use second::sound::Rule;
use second::tally;
use std::io::{self, Write};

fn main() -> io::Result<()> {
    let numbers: Vec<u64> = std::env::args()
        .skip(1)
        .filter_map(|text| text.parse().ok())
        .collect();
    let [seed, count] = numbers[..] else {
        eprintln!("usage: books SEED COUNT");
        std::process::exit(2);
    };
    let mut rng = Rng::new(seed);
    let mut out = io::BufWriter::new(io::stdout().lock());
    for number in 0..count as usize {
        let book = some_book(&mut rng, number);
        let text = tally::text(&book).replace('\n', "\\n");
        writeln!(out, "{} {text}", encode(&book))?;
    }
    out.flush()
}

fn some_book(rng: &mut Rng, number: usize) -> Vec<u8> {
    let turn = number % 16;
    // Now and then a book near the limit of 1,024 records, of either side.
    let large = number / 16 % 4 == 3;
    let records = match (turn, large) {
        (_, false) => rng.between(18, 90),
        (0, true) => 1_024,
        (_, true) => rng.between(1_000, 1_024),
    } as usize;
    let mut book = gen::book(rng, records);
    match turn {
        0..=2 => {}
        3..=12 => {
            let rule = Rule::ALL[turn - 3];
            // A small book may have nothing to break the rule with: then another is made.
            while mutate::of_rule(rng, rule, &mut book).is_none() {
                book = gen::book(rng, records);
            }
        }
        13 => mutate::flip(rng, &mut book),
        14 => book = mutate::wrong_book_length(rng, book),
        _ => {
            let records = rng.between(1_025, 1_030) as usize;
            book = gen::book(rng, records);
        }
    }
    book
}
