//! Demand 3, of the library alone: "A list of results run in two orders that keep each account's own order, neither
//! run meeting -104 or -105, gives every result the same answer and ends with the same rows, each as many times."

use crate::area::Area;
use crate::library::{Run, CALLS};
use crate::{Tally, RUN};
use second::calls::{Call, NO_ROOM, OUT_OF_RANGE};
use second::record::{Row, RECORD};
use second::rng::Rng;
use second::runs;
use std::collections::BTreeMap;

/// What came of the runs.
#[derive(Default)]
pub struct Runs {
    compared: u64,
    /// Left out, as a result met -104 or -105.
    hindered: u64,
    /// Compared, and the rows of the two end books lie on other places.
    moved: u64,
    /// How often a result gave a status, in the runs compared and in those left out, both orders counted.
    in_compared: BTreeMap<i32, u64>,
    in_hindered: BTreeMap<i32, u64>,
}

/// What the results of one order gave: status and answer of each, by its place in the list, and the book.
struct End {
    answers: Vec<(i32, Vec<u8>)>,
    book: Vec<u8>,
}

/// Runs the results in this order, or says which of them is wrong and why.
fn run_in(
    tally: &mut Tally,
    rng: &mut Rng,
    result: Run,
    run: &runs::Run,
    order: &[usize],
) -> Result<End, String> {
    let mut book = Area::new(rng, &run.book);
    let mut answers = vec![(0, Vec::new()); run.list.len()];
    for at in order {
        let before = book.bytes().to_vec();
        let record = run.list[*at].write();
        let mut input = Area::new(rng, &record);
        let filled = rng.bytes(RECORD);
        let mut answer = Area::new(rng, &filled);
        let status = result(book.bytes(), input.bytes(), answer.bytes());
        let answered = answer.bytes().to_vec();
        let written = Row::read(answered[..].try_into().unwrap()).n5 as i32;
        let fault = (written != status)
            .then(|| format!("status {status}, in the answer {written}"))
            .or_else(|| book.fault_around("book"))
            .or_else(|| input.fault("input", &record))
            .or_else(|| answer.fault_around("answer"))
            .or_else(|| tally.kept.fault(status, &before, book.bytes()));
        if let Some(fault) = fault {
            return Err(format!("result {at}: {fault}"));
        }
        answers[*at] = (status, answered);
    }
    let book = book.bytes().to_vec();
    Ok(End { answers, book })
}

/// What differs between the ends of two orders that demand 3 wants alike.
fn difference(first: &End, second: &End) -> Option<String> {
    for (at, (a, b)) in first.answers.iter().zip(&second.answers).enumerate() {
        if a.0 != b.0 {
            return Some(format!(
                "result {at}: status {} or {}, by the order",
                a.0, b.0
            ));
        }
        if let Some(byte) = (0..RECORD).find(|byte| a.1[*byte] != b.1[*byte]) {
            return Some(format!(
                "result {at}: byte {byte} of the answer differs by the order"
            ));
        }
    }
    let (a, b) = (
        runs::sorted_records(&first.book),
        runs::sorted_records(&second.book),
    );
    let (a, b) = a.into_iter().zip(b).find(|(a, b)| a != b)?;
    let kind = a[0].max(b[0]);
    Some(format!(
        "the end books have other rows by the order, the first of kind {kind}"
    ))
}

/// One run of the seed. A hindered one counts neither as passed nor as failed, unless a call of it is wrong.
pub fn run(tally: &mut Tally, seed: u64, number: u64) {
    let mut rng = Rng::of(seed, RUN, number);
    let run = runs::any_run(&mut rng);
    let as_listed: Vec<usize> = (0..run.list.len()).collect();
    let (_, result) = *CALLS
        .iter()
        .find(|(call, _)| *call == Call::Result)
        .unwrap();
    let name = || format!("seed {seed}, run {number}");
    let ends = run_in(tally, &mut rng, result, &run, &as_listed).and_then(|first| {
        let second = run_in(tally, &mut rng, result, &run, &run.order)?;
        Ok((first, second))
    });
    let (first, second) = match ends {
        Ok(ends) => ends,
        Err(fault) => return tally.count(name, Some(fault)),
    };
    let statuses = || {
        first
            .answers
            .iter()
            .chain(&second.answers)
            .map(|(status, _)| *status)
    };
    let hindered = statuses().any(runs::hinders);
    let by_status = match hindered {
        true => &mut tally.runs.in_hindered,
        false => &mut tally.runs.in_compared,
    };
    for status in statuses() {
        *by_status.entry(status).or_default() += 1;
    }
    if hindered {
        tally.runs.hindered += 1;
        return;
    }
    tally.runs.compared += 1;
    tally.runs.moved += u64::from(first.book != second.book);
    tally.count(name, difference(&first, &second));
}

/// Runs of the seed until so many were compared; no more than twice as many are tried.
pub fn run_until(tally: &mut Tally, seed: u64, compared: u64) {
    let mut number = 1;
    while tally.runs.compared < compared && number <= 2 * compared {
        run(tally, seed, number);
        number += 1;
    }
}

/// Prints what the runs came to, and counts a failure where they would prove little: fewer than half are compared, no
/// two end books have their rows on other places, or a status never came that a result on a sound book can give.
pub fn report(tally: &mut Tally) {
    let runs = &tally.runs;
    let (compared, hindered, moved) = (runs.compared, runs.hindered, runs.moved);
    println!("{compared} runs in two orders compared, {moved} with rows on other places; {hindered} met -104 or -105");
    let mut faults = Vec::new();
    if compared < hindered || compared == 0 {
        faults.push("fewer than half are compared".to_string());
    }
    if moved == 0 {
        faults.push("in none of them are rows on other places".to_string());
    }
    for (counts, name) in [
        (&runs.in_compared, "compared"),
        (&runs.in_hindered, "left out"),
    ] {
        let words: Vec<String> = counts
            .iter()
            .rev()
            .map(|(status, count)| format!("{count} of {status}"))
            .collect();
        println!("results in runs {name}: {}", words.join(", "));
    }
    // The lengths are good and the book is sound.
    let can_be_met = Call::Result
        .statuses()
        .iter()
        .filter(|status| !(-102..=-100).contains(*status));
    for status in can_be_met {
        let counts = match *status {
            OUT_OF_RANGE | NO_ROOM => &runs.in_hindered,
            _ => &runs.in_compared,
        };
        if !counts.contains_key(status) {
            faults.push(format!("no result has status {status}"));
        }
    }
    for fault in faults {
        tally.count(|| "runs".to_string(), Some(fault));
    }
}
