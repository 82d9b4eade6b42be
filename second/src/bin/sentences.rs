//! `sentences list`: prints the sentences of the rules, one on a line: its number, the status that it
//! must have (`0` if it breaks nothing), the rules that its book breaks, and its label.
//! `sentences implied`: those that no book can break alone, and why.
//! `sentences cases`: writes the calls of all sentences as the program `cases` writes its own, each
//! with its sentence's number.
//! `sentences count`: how many calls these are.

use second::sentences::{self, Item};
use second::stream;
use std::io::{self, Write};

fn list(out: &mut impl Write, items: &[Item]) -> io::Result<()> {
    for (number, item) in items.iter().enumerate() {
        let status = item.refused.unwrap_or(0);
        let rules: String = item
            .breaks
            .iter()
            .map(|rule| format!(" {rule:?}"))
            .collect();
        writeln!(out, "{number} {status}{rules} | {}", item.label)?;
    }
    Ok(())
}

fn main() -> io::Result<()> {
    let items = sentences::all();
    let mut out = io::BufWriter::with_capacity(1 << 20, io::stdout().lock());
    let words: Vec<String> = std::env::args().skip(1).collect();
    let words: Vec<&str> = words.iter().map(String::as_str).collect();
    let cases = (0..).zip(&items).flat_map(|(number, item)| {
        item.cases(number)
            .into_iter()
            .map(move |case| (number, case))
    });
    match words[..] {
        ["list"] => list(&mut out, &items)?,
        ["implied"] => {
            for (label, reason) in sentences::IMPLIED {
                writeln!(out, "{label}: {reason}")?;
            }
        }
        ["cases"] => {
            for (number, case) in cases {
                stream::write(&mut out, number, &case)?;
            }
        }
        ["count"] => writeln!(out, "{}", cases.count())?,
        _ => {
            eprintln!("usage: sentences list|implied|cases|count");
            std::process::exit(2);
        }
    }
    out.flush()
}
