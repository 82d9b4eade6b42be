//! The list of sentences: what each item says of itself is true, and no rule or status is left out.

use second::calls::Call;
use second::record::*;
use second::sentences::{self, IMPLIED};
use second::slow;
use second::sound::{self, Rule};
use std::collections::{BTreeMap, BTreeSet};

/// Each book breaks the rules that it is said to break, and no other; a neighbour breaks none.
#[test]
fn books_break_what_they_say() {
    for item in sentences::all().iter().filter(|item| item.input.is_none()) {
        assert_eq!(slow::broken(&item.book), item.breaks, "{}", item.label);
        let first = item.breaks.first().map_or(Ok(()), |rule| Err(*rule));
        assert_eq!(sound::check(&bytes_of(&item.book)), first, "{}", item.label);
    }
}

/// Every call refuses what is broken, and leaves all as found; a neighbour is accepted by every call,
/// but by an order where a trade has the last number.
#[test]
fn calls_refuse_what_is_broken() {
    for (number, item) in (0..).zip(sentences::all()) {
        for case in item.cases(number) {
            let mut book = case.book.clone();
            let mut answer = case.answer.clone();
            let status = case.call.run(&mut book, &case.input, &mut answer);
            let label = format!("{} of {}: {status}", item.label, case.call.name());
            match item.refused {
                Some(refused) => {
                    assert_eq!(status, refused, "{label}");
                    assert_eq!(book, case.book, "{label}");
                }
                None if item.input.is_none() => {
                    let last = item.book.iter().any(|row| row.id == MAX_TRADE_NUMBER);
                    assert!(
                        status == 0 || last && case.call == Call::Order && status == -104,
                        "{label}"
                    );
                }
                None if item.label.starts_with("-721 ") => assert_eq!(status, 0, "{label}"),
                None => assert!(status != -103 && status != -102, "{label}"),
            }
        }
    }
}

/// A label names one item.
#[test]
fn items_differ() {
    let mut labels = BTreeSet::new();
    for item in sentences::all() {
        assert!(
            labels.insert(item.label.clone()),
            "{} stands twice",
            item.label
        );
    }
}

/// There are good and bad books of each rule, and good and bad inputs of each call; a sentence that is
/// said to be implied has items.
#[test]
fn nothing_is_left_out() {
    let mut counts: BTreeMap<(String, bool), u32> = BTreeMap::new();
    let items = sentences::all();
    for item in &items {
        let rule = item.label.split(' ').next().unwrap().to_string();
        *counts.entry((rule, item.refused.is_some())).or_default() += 1;
    }
    let rules = Rule::ALL.map(|rule| format!("{rule:?}"));
    let calls = Call::ALL.map(|call| call.name().to_string());
    for name in rules.into_iter().chain(calls) {
        for refused in [false, true] {
            assert!(
                counts.contains_key(&(name.clone(), refused)),
                "{name}, refused {refused}: {counts:?}"
            );
        }
    }
    for (label, _) in IMPLIED {
        assert!(
            items.iter().any(|item| item.label.contains(label)),
            "{label}"
        );
    }
}
