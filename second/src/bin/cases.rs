//! `cases SEED FIRST LAST CALL...`: writes random cases of these calls for a program in another
//! language, in binary: the cases FIRST to LAST of each call, the calls in turn. Case N of a call is
//! the same whatever else is asked for.
//! The module `stream` says how a case is laid out.

use second::calls::Call;
use second::gen;
use second::rng::Rng;
use second::stream;
use std::io::{self, Write};

fn write_case(out: &mut impl Write, seed: u64, call: Call, number: u32) -> io::Result<()> {
    let case = gen::any_case(&mut Rng::of(seed, call.kind(), u64::from(number)), call);
    stream::write(out, number, &case)
}

fn asked() -> Option<(u64, u32, u32, Vec<Call>)> {
    let words: Vec<String> = std::env::args().skip(1).collect();
    let [seed, first, last, names @ ..] = &words[..] else {
        return None;
    };
    let named = |name: &String| Call::ALL.into_iter().find(|call| call.name() == name);
    let calls: Vec<Call> = names.iter().map(named).collect::<Option<_>>()?;
    if calls.is_empty() {
        return None;
    }
    Some((
        seed.parse().ok()?,
        first.parse().ok()?,
        last.parse().ok()?,
        calls,
    ))
}

fn main() -> io::Result<()> {
    let Some((seed, first, last, calls)) = asked() else {
        eprintln!("usage: cases SEED FIRST LAST CALL...");
        std::process::exit(2);
    };
    let mut out = io::BufWriter::with_capacity(1 << 20, io::stdout().lock());
    for number in first..=last {
        for call in &calls {
            write_case(&mut out, seed, *call, number)?;
        }
    }
    out.flush()
}
