//! The tally program of 01: "prints the trades over a square of five trade types by three
//! statuses".

use crate::record::*;
use crate::sound;

/// "reads a book of at most 1,024 records (more is -101)".
pub const MAX_TALLY_RECORDS: usize = 1_024;

pub const CODES: [&str; 5] = ["TMB", "TMS", "TLB", "TLS", "TSL"];

/// The counts, a line for each type in turn, of PNDG, SBMT and CMPT; or the status of the refusal.
pub fn counts(book: &[u8]) -> Result<[[u32; 3]; 5], i32> {
    let status = sound::status_with_limit(book, MAX_TALLY_RECORDS);
    if status != 0 {
        return Err(status);
    }
    let mut square = [[0; 3]; 5];
    for row in rows_of(book) {
        if row.kind == TRADE {
            square[usize::from(row.typ) - 1][usize::from(row.status) - 1] += 1;
        }
    }
    Ok(square)
}

/// What the program prints: "a line a type, its code and the counts of PNDG, SBMT and CMPT, single
/// spaces between", or "one line: `refused`, a space and the status".
pub fn text(book: &[u8]) -> String {
    match counts(book) {
        Ok(square) => {
            let mut text = String::new();
            for (code, line) in CODES.iter().zip(square) {
                text.push_str(&format!("{code} {} {} {}\n", line[0], line[1], line[2]));
            }
            text
        }
        Err(status) => format!("refused {status}\n"),
    }
}
