//! `book-check FILE`: says of a book `sound`, or why it is refused: `refused -102 S8 place 19`, then the row at that
//! place in words, then what is wrong with it. Places are counted from 0. `book-check --input CALL FILE` says of the
//! input of an order, result, feed or lookup `good`, or `refused -103 n1 record 0` and the same. FILE may be `-`.
//!
//! Not proved: it is the second program's word. Its status is 0 if nothing is refused, 1 if something is, else 2.

use second::calls::Call;
use second::explain;
use std::io::{self, Read};
use std::process::ExitCode;

const USAGE: &str = "usage: book-check FILE
       book-check --input order|result|feed|lookup FILE
What it says is the second program's word, and not proved.";

fn read(path: &str) -> io::Result<Vec<u8>> {
    if path != "-" {
        return std::fs::read(path);
    }
    let mut bytes = Vec::new();
    io::stdin().lock().read_to_end(&mut bytes)?;
    Ok(bytes)
}

fn main() -> ExitCode {
    let words: Vec<String> = std::env::args().skip(1).collect();
    let words: Vec<&str> = words.iter().map(String::as_str).collect();
    let call = |name| Call::ALL.into_iter().find(|call| call.name() == name);
    let asked = match words[..] {
        ["--input", name, path] => call(name).map(|call| (Some(call), path)),
        [path] if path == "-" || !path.starts_with('-') => Some((None, path)),
        _ => None,
    };
    let Some((call, path)) = asked else {
        eprintln!("{USAGE}");
        return ExitCode::from(2);
    };
    let bytes = match read(path) {
        Ok(bytes) => bytes,
        Err(fault) => {
            eprintln!("{path}: {fault}");
            return ExitCode::from(2);
        }
    };
    let (good, said) = match call {
        None => explain::book(&bytes),
        Some(call) => explain::input(call, &bytes),
    };
    println!("{said}(the second program says so; it is not proved)");
    ExitCode::from(u8::from(!good))
}
