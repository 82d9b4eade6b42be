//! Cases in binary, for a program in another language.
//!
//! A case begins with six numbers of four bytes, little-endian: the kind of the call's input records,
//! the case's number, the lengths of the book, of the input and of the answer area, and the status
//! that is expected. Then come the book, the input and the answer area before the call, and the book
//! and the answer area that are expected after it.

use crate::gen::Case;
use std::io::{self, Write};

pub fn write(out: &mut impl Write, number: u32, case: &Case) -> io::Result<()> {
    let mut book = case.book.clone();
    let mut answer = case.answer.clone();
    let status = case.call.run(&mut book, &case.input, &mut answer);
    let lengths = [case.book.len(), case.input.len(), case.answer.len()].map(|len| len as u32);
    let kind = u32::from(case.call.kind());
    for number in [kind, number].into_iter().chain(lengths) {
        out.write_all(&number.to_le_bytes())?;
    }
    out.write_all(&status.to_le_bytes())?;
    for area in [&case.book, &case.input, &case.answer, &book, &answer] {
        out.write_all(area)?;
    }
    Ok(())
}
