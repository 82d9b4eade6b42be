//! The generator of runs for demand 3: its orders are good ones, and its runs are not idle.

use second::calls;
use second::record::*;
use second::rng::Rng;
use second::runs::{self, Run};
use second::sound;
use std::collections::{BTreeMap, BTreeSet};

const RUNS: u64 = 3_000;

fn all_runs() -> impl Iterator<Item = Run> {
    (0..RUNS).map(|number| runs::any_run(&mut Rng::of(40, 0, number)))
}

/// The account whose trade a result names in the opening book.
fn account_of(rows: &[Row], input: &Row) -> Option<u32> {
    let trade = rows.iter().find(|r| r.kind == TRADE && r.id == input.id);
    trade.map(|trade| trade.party)
}

/// Runs the results in this order: the answer of each, by its place in the list, and the book.
fn run_in(run: &Run, order: &[usize]) -> (Vec<Row>, Vec<u8>) {
    let mut book = run.book.clone();
    let mut answers = vec![Row::default(); run.list.len()];
    for at in order {
        let mut answer = [0xAA; RECORD];
        calls::result_on_sound(&mut book, &run.list[*at].write(), &mut answer);
        answers[*at] = Row::read(&answer);
    }
    (answers, book)
}

fn as_listed(run: &Run) -> Vec<usize> {
    (0..run.list.len()).collect()
}

fn is_hindered(answers: &[Row]) -> bool {
    answers.iter().any(|answer| runs::hinders(answer.n5 as i32))
}

/// The books are sound, accounts share brokers, and there are trades for all of them.
#[test]
fn books_have_several_accounts() {
    for run in all_runs() {
        assert_eq!(sound::status(&run.book), 0);
        let rows = rows_of(&run.book);
        let accounts: Vec<&Row> = rows.iter().filter(|r| r.kind == ACCOUNT).collect();
        assert!((3..=8).contains(&accounts.len()));
        let brokers: BTreeSet<u32> = accounts.iter().map(|account| account.n1).collect();
        assert!(brokers.len() < accounts.len());
        for account in accounts {
            let of_account = |r: &&Row| (r.kind, r.status, r.party) == (TRADE, SBMT, account.party);
            assert!(rows.iter().filter(of_account).count() >= 2);
        }
    }
}

/// The second order has every place of the list once, differs from the first, and keeps each
/// account's own order. In some runs every two results of two accounts change their order.
#[test]
fn orders_keep_each_account_its_own() {
    let mut all_changed = 0;
    let mut lengths = BTreeSet::new();
    let mut unnamed_moved = 0;
    for run in all_runs() {
        let length = run.list.len();
        lengths.insert(length);
        let mut places = run.order.clone();
        assert_ne!(places, as_listed(&run));
        places.sort();
        assert_eq!(places, as_listed(&run));

        let rows = rows_of(&run.book);
        let accounts: Vec<Option<u32>> = run.list.iter().map(|r| account_of(&rows, r)).collect();
        assert!(accounts.iter().flatten().collect::<BTreeSet<_>>().len() >= 2);
        let (mut apart, mut changed) = (0, 0);
        for later in 0..length {
            for earlier in 0..later {
                // In the order of the second run.
                let (a, b) = (run.order[earlier], run.order[later]);
                if accounts[a].is_some() && accounts[a] == accounts[b] {
                    assert!(a < b);
                } else {
                    apart += 1;
                    changed += u32::from(a > b);
                    unnamed_moved += u32::from(a > b && accounts[a].is_none());
                }
            }
        }
        assert!(changed > 0);
        all_changed += u32::from(changed == apart);
    }
    let most = runs::MOST_RESULTS;
    assert!(lengths.contains(&2) && *lengths.last().unwrap() <= most);
    assert!(*lengths.last().unwrap() > most / 2, "{lengths:?}");
    assert!(all_changed > RUNS as u32 / 10, "{all_changed}");
    assert!(unnamed_moved > RUNS as u32 / 10, "{unnamed_moved}");
}

/// Most runs are not hindered; of these many have results that depend on one another, rows on other
/// places in the end, and a list that says something else once an account's own order is not kept.
#[test]
fn runs_are_not_idle() {
    let mut counts: BTreeMap<&str, u64> = BTreeMap::new();
    let mut statuses: BTreeMap<i32, u64> = BTreeMap::new();
    for run in all_runs() {
        let (answers, book) = run_in(&run, &as_listed(&run));
        let (others, other_book) = run_in(&run, &run.order);
        for answer in &answers {
            *statuses.entry(answer.n5 as i32).or_default() += 1;
        }
        let mut count = |what: &'static str, is_so: bool| {
            *counts.entry(what).or_default() += u64::from(is_so);
        };
        if is_hindered(&answers) || is_hindered(&others) {
            count("hindered", true);
            continue;
        }
        count("other places", book != other_book);
        // What a result would have answered as the first of all.
        let mut depends = false;
        let mut walks_others = false;
        for (at, answer) in answers.iter().enumerate() {
            let alone = run_in(&run, &[at]).0[at];
            depends |= alone != *answer;
            let accepted = (alone.n5, answer.n5) == (0, 0);
            walks_others |= accepted && alone.tax() != answer.tax();
        }
        count("depends", depends);
        count("walks lots of others", walks_others);
        let backwards: Vec<usize> = as_listed(&run).into_iter().rev().collect();
        let (other_answers, backwards_book) = run_in(&run, &backwards);
        let shows = other_answers != answers
            || runs::sorted_records(&backwards_book) != runs::sorted_records(&book);
        count("own order shows", shows);
    }
    let share = |what: &str| counts.get(what).unwrap_or(&0) * 100 / RUNS;
    println!("{counts:?} {statuses:?}");
    assert!((5..30).contains(&share("hindered")), "{counts:?}");
    assert!(share("other places") > 50, "{counts:?}");
    assert!(share("depends") > 50, "{counts:?}");
    assert!(share("walks lots of others") > 10, "{counts:?}");
    assert!(share("own order shows") > 50, "{counts:?}");
    for status in [0, -103, -811, -812, -831, -841, -842, -104, -105] {
        assert!(
            statuses.get(&status).is_some_and(|count| *count > 100),
            "{statuses:?}"
        );
    }
}
