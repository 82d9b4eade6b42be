//! `calls [--seed S] [--cases N] [--runs N] [--seconds T] [--only NAME N] [--sentences TEXT]`: holds the library to the
//! second program: each sentence of the rules, broken and kept; N random cases of each call (else 50,000) and one
//! sequence of calls on one book for every ten of them. Then it holds the library to itself: runs of results in two
//! orders, until N (else 10,000) have been compared. With --seconds all of this goes on for so long instead, and with 0
//! until ten have failed. With --only it runs one case of a call, one `sequence`, or one `run` of the seed again; with
//! --sentences nothing but the sentences that have TEXT in their labels. After every call that is accepted the book is
//! sound, after every other it is as before. Prints how often each status came; its last line is 'N passed, M failed'.

mod area;
mod library;
mod runs;
mod sentences;
mod spread;

use area::Area;
use library::{Run, CALLS};
use runs::Runs;
use second::calls::Call;
use second::gen::{self, Case, Plan};
use second::record::{MAX_RECORDS, RECORD};
use second::rng::Rng;
use second::sound;
use std::collections::BTreeMap;
use std::time::{Duration, Instant};

const CASES: u64 = 50_000;
/// There is one sequence for so many cases of each call, and it has so many steps.
const CASES_PER_SEQUENCE: u64 = 10;
const STEPS: usize = 30;
/// So many runs are compared, and with --seconds there is one run for so many cases of each call.
const RUNS: u64 = 10_000;
const CASES_PER_RUN: u64 = 5;
const MOST_SAID: u64 = 10;
/// BOOK_MOST_STACK of include/book.h.
const STACK: usize = 256 * 1024;
/// The kinds that stand for a sequence, a run and the books of `spread`, where a source of random numbers is for one kind
/// of input records.
const SEQUENCE: u8 = 0;
const RUN: u8 = 1;
const SPREAD: u8 = 2;

#[derive(Default)]
struct Tally {
    passed: u64,
    failed: u64,
    sequences: u64,
    /// How often a call was expected to give a status, on its own and in sequences.
    alone: BTreeMap<(Call, i32), u64>,
    in_sequences: BTreeMap<(Call, i32), u64>,
    /// How many cases were to be accepted on a book of all records that there may be.
    on_largest: BTreeMap<Call, u64>,
    runs: Runs,
    kept: Kept,
}

/// How many accepted calls left a sound book, and how many refused ones the book as before.
#[derive(Default)]
struct Kept {
    sound: u64,
    as_before: u64,
}

impl Kept {
    /// "An accepted call leaves a sound book"; "a refusal leaves the book as found".
    fn fault(&mut self, status: i32, before: &[u8], after: &[u8]) -> Option<String> {
        if status != 0 && before != after {
            return Some(format!("status {status}, yet the book is another"));
        }
        if status != 0 {
            self.as_before += 1;
            return None;
        }
        if let Err(broken) = sound::check(after) {
            return Some(format!("accepted, and the book breaks {broken:?}"));
        }
        self.sound += 1;
        None
    }
}

impl Tally {
    fn count(&mut self, name: impl Fn() -> String, fault: Option<String>) {
        let Some(fault) = fault else {
            self.passed += 1;
            return;
        };
        self.failed += 1;
        if self.failed <= MOST_SAID {
            println!("{}: {fault}", name());
        }
    }
}

/// Runs the library on the book where it lies and on areas of its own for the rest, and the second program on copies.
/// Gives the status that is expected and what is wrong.
fn compare(
    kept: &mut Kept,
    rng: &mut Rng,
    run: impl Fn(&mut [u8], &[u8], &mut [u8]) -> i32,
    case: &Case,
    book: &mut Area,
) -> (i32, Option<String>) {
    let mut expected_book = case.book.clone();
    let mut expected_answer = case.answer.clone();
    let expected = case
        .call
        .run(&mut expected_book, &case.input, &mut expected_answer);
    let mut input = Area::new(rng, &case.input);
    let mut answer = Area::new(rng, &case.answer);
    let status = run(book.bytes(), input.bytes(), answer.bytes());
    let fault = (status != expected)
        .then(|| format!("status {status}, expected {expected}"))
        .or_else(|| book.fault("book", &expected_book))
        .or_else(|| input.fault("input", &case.input))
        .or_else(|| answer.fault("answer", &expected_answer))
        .or_else(|| kept.fault(status, &case.book, book.bytes()));
    (expected, fault)
}

fn run_case(tally: &mut Tally, seed: u64, call: Call, run: Run, number: u64) {
    let mut rng = Rng::of(seed, call.kind(), number);
    let case = gen::any_case(&mut rng, call);
    let mut book = Area::new(&mut rng, &case.book);
    let (status, fault) = compare(&mut tally.kept, &mut rng, run, &case, &mut book);
    *tally.alone.entry((call, status)).or_default() += 1;
    if status == 0 && case.book.len() == MAX_RECORDS * RECORD {
        *tally.on_largest.entry(call).or_default() += 1;
    }
    let name = || format!("seed {seed}, {} case {number}", call.name());
    tally.count(name, fault);
}

/// Random calls in turn on one book, which the library keeps where it is. A call that wants the book spoilt gets
/// another one. The sequence ends with the first fault.
fn run_sequence(tally: &mut Tally, seed: u64, number: u64) {
    tally.sequences += 1;
    let mut rng = Rng::of(seed, SEQUENCE, number);
    let records = match rng.below(200) {
        0 => MAX_RECORDS,
        _ => rng.between(18, 120) as usize,
    };
    let (wanted, _) = *rng.pick(CALLS);
    let mut plan = Plan::for_call(&mut rng, wanted, records);
    // Each call takes places up.
    let room = rng.between(records as u64 / 8, records as u64 / 2);
    plan.free = plan.free.max(room as usize);
    let start = gen::book_of(&mut rng, &plan);
    let mut book = Area::new(&mut rng, &start);
    for step in 1..=STEPS {
        let (call, run) = *rng.pick(CALLS);
        let case = gen::case_on(&mut rng, call, book.bytes().to_vec());
        let (status, fault) = if case.book == book.bytes() {
            compare(&mut tally.kept, &mut rng, run, &case, &mut book)
        } else {
            let mut spoilt = Area::new(&mut rng, &case.book);
            compare(&mut tally.kept, &mut rng, run, &case, &mut spoilt)
        };
        *tally.in_sequences.entry((call, status)).or_default() += 1;
        let failed = fault.is_some();
        let name = || {
            format!(
                "seed {seed}, sequence {number}, step {step}, {}",
                call.name()
            )
        };
        tally.count(name, fault);
        if failed {
            return;
        }
    }
}

/// A case of this call that is accepted, on a book of all records that there may be.
fn largest(rng: &mut Rng, call: Call) -> Case {
    loop {
        let plan = Plan::for_call(rng, call, MAX_RECORDS);
        let book = gen::book_of(rng, &plan);
        let case = gen::case_on(rng, call, book);
        let (mut book, mut answer) = (case.book.clone(), case.answer.clone());
        if call.run(&mut book, &case.input, &mut answer) == 0 {
            return case;
        }
    }
}

/// Runs each call by a thread that has no more stack than a call may take.
fn run_on_small_stacks(tally: &mut Tally, seed: u64) {
    for (call, run) in CALLS {
        let mut rng = Rng::of(seed, call.kind(), 0);
        let case = largest(&mut rng, *call);
        let name = || format!("seed {seed}, {} on a stack of {STACK} bytes", call.name());
        // Too deep a stack ends this program; the message has the thread's name.
        let on_thread = |book: &mut [u8], input: &[u8], answer: &mut [u8]| {
            std::thread::scope(|scope| {
                let thread = std::thread::Builder::new().name(name()).stack_size(STACK);
                let started = thread.spawn_scoped(scope, || run(book, input, answer));
                started.unwrap().join().unwrap()
            })
        };
        let mut book = Area::new(&mut rng, &case.book);
        let (_, fault) = compare(&mut tally.kept, &mut rng, on_thread, &case, &mut book);
        tally.count(name, fault);
    }
}

/// Prints how often each status was expected, and counts a failure for each that never was of a case on its own, and
/// for each call that no sequence or no largest book has accepted.
fn report_cases(tally: &mut Tally) {
    println!("{} sequences of {STEPS} calls", tally.sequences);
    for (call, _) in CALLS {
        for (counts, where_from) in [(&tally.alone, ""), (&tally.in_sequences, " in sequences")] {
            let count = |status: &i32| counts.get(&(*call, *status)).unwrap_or(&0);
            let words: Vec<String> = call
                .statuses()
                .iter()
                .map(|status| format!("{} of {status}", count(status)))
                .collect();
            println!("{}{where_from}: {}", call.name(), words.join(", "));
        }
        let largest = tally.on_largest.get(call).unwrap_or(&0);
        println!("{} on {MAX_RECORDS} records: {largest} of 0", call.name());
        for status in call.statuses() {
            if !tally.alone.contains_key(&(*call, *status)) {
                let fault = Some(format!("no case has status {status}"));
                tally.count(|| call.name().to_string(), fault);
            }
        }
        if !tally.in_sequences.contains_key(&(*call, 0)) {
            let fault = Some("no sequence has one that is accepted".to_string());
            tally.count(|| call.name().to_string(), fault);
        }
        if !tally.on_largest.contains_key(call) {
            let fault = Some(format!("none on {MAX_RECORDS} records is accepted"));
            tally.count(|| call.name().to_string(), fault);
        }
    }
}

struct Asked {
    seed: u64,
    cases: u64,
    runs: u64,
    seconds: Option<u64>,
    only: Option<(String, u64)>,
    sentences: Option<String>,
}

fn asked() -> Option<Asked> {
    let mut asked = Asked {
        seed: 1,
        cases: CASES,
        runs: RUNS,
        seconds: None,
        only: None,
        sentences: None,
    };
    let mut words = std::env::args().skip(1);
    while let Some(word) = words.next() {
        let mut number = || words.next()?.parse::<u64>().ok();
        match word.as_str() {
            "--seed" => asked.seed = number()?,
            "--cases" => asked.cases = number()?,
            "--runs" => asked.runs = number()?,
            "--seconds" => asked.seconds = Some(number()?),
            "--sentences" => asked.sentences = Some(words.next()?),
            "--only" => asked.only = Some((words.next()?, words.next()?.parse().ok()?)),
            _ => return None,
        }
    }
    // Nothing at all would be no failure.
    (asked.cases > 0 || asked.runs > 0).then_some(asked)
}

fn run_one(tally: &mut Tally, seed: u64, name: &str, number: u64) -> Option<()> {
    if name == "sequence" {
        run_sequence(tally, seed, number);
        return Some(());
    }
    if name == "run" {
        runs::run(tally, seed, number);
        return Some(());
    }
    let (call, run) = CALLS.iter().find(|(call, _)| call.name() == name)?;
    run_case(tally, seed, *call, *run, number);
    Some(())
}

/// All that is asked for: the cases and sequences, then the runs; with --seconds, by turns.
fn run_all(tally: &mut Tally, asked: &Asked) {
    let began = Instant::now();
    let goes_on = |number: u64, failed: u64| match asked.seconds {
        None => number <= asked.cases,
        Some(0) => failed < MOST_SAID,
        Some(seconds) => began.elapsed() < Duration::from_secs(seconds),
    };
    let by_turns = asked.seconds.is_some();
    let mut number = 1;
    while goes_on(number, tally.failed) {
        if number == 1 {
            sentences::run(tally, "");
            run_on_small_stacks(tally, asked.seed);
            spread::run(tally, asked.seed);
        }
        for (call, run) in CALLS {
            run_case(tally, asked.seed, *call, *run, number);
        }
        if number % CASES_PER_SEQUENCE == 0 {
            run_sequence(tally, asked.seed, number / CASES_PER_SEQUENCE);
        }
        if by_turns && number % CASES_PER_RUN == 0 {
            runs::run(tally, asked.seed, number / CASES_PER_RUN);
        }
        if number % 1_000_000 == 0 {
            println!("{number} cases of each call, {} failed", tally.failed);
        }
        number += 1;
    }
    if number > 1 {
        report_cases(tally);
    }
    if !by_turns {
        runs::run_until(tally, asked.seed, asked.runs);
    }
    if by_turns || asked.runs > 0 {
        runs::report(tally);
    }
    println!(
        "{} accepted calls left a sound book, {} refused ones left the book as before",
        tally.kept.sound, tally.kept.as_before
    );
}

fn main() {
    let mut tally = Tally::default();
    let done = asked().and_then(|asked| match (&asked.only, &asked.sentences) {
        (_, Some(text)) => {
            sentences::run(&mut tally, text);
            Some(())
        }
        (Some((name, number)), _) => run_one(&mut tally, asked.seed, name, *number),
        _ => {
            run_all(&mut tally, &asked);
            Some(())
        }
    });
    if done.is_none() {
        eprintln!(
            "usage: calls [--seed S] [--cases N] [--runs N] [--seconds T] [--sentences TEXT] \
             [--only CALL-or-'sequence'-or-'run' N]"
        );
        std::process::exit(2);
    }
    println!("{} passed, {} failed", tally.passed, tally.failed);
    std::process::exit(i32::from(tally.failed > 0));
}
