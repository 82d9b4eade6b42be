//! The sentences of the rules: a broken one must be refused, with nothing changed, and its neighbour must not be.

use crate::area::Area;
use crate::library::CALLS;
use crate::{compare, Tally};
use second::calls::{BAD_INPUT, NOT_SOUND};
use second::rng::Rng;
use second::sentences::{self, Item};
use std::collections::BTreeMap;

/// Runs the sentences with this text in their labels. None at all is a failure.
pub fn run(tally: &mut Tally, text: &str) {
    let mut broken: BTreeMap<String, u32> = BTreeMap::new();
    let mut kept = 0;
    for (number, item) in (0..).zip(sentences::all()) {
        if !item.label.contains(text) {
            continue;
        }
        match item.refused {
            Some(_) => {
                let rule = item.label.split(' ').next().unwrap_or_default();
                *broken.entry(rule.to_string()).or_default() += 1;
            }
            None => kept += 1,
        }
        run_item(tally, number, &item);
    }
    let counts: Vec<String> = broken
        .iter()
        .map(|(rule, n)| format!("{n} of {rule}"))
        .collect();
    println!("sentences broken: {}; kept: {kept}", counts.join(", "));
    if broken.is_empty() && kept == 0 {
        tally.count(
            || format!("sentences with '{text}'"),
            Some("there are none".to_string()),
        );
    }
}

fn run_item(tally: &mut Tally, number: u32, item: &Item) {
    let mut rng = Rng::of(0, 0, u64::from(number));
    for case in item.cases(number) {
        let (_, run) = CALLS
            .iter()
            .find(|(call, _)| *call == case.call)
            .expect("all four");
        let mut book = Area::new(&mut rng, &case.book);
        let (expected, fault) = compare(&mut tally.kept, &mut rng, run, &case, &mut book);
        let right = match item.refused {
            Some(refused) => expected == refused,
            None => expected != NOT_SOUND && expected != BAD_INPUT,
        };
        let fault =
            fault.or_else(|| (!right).then(|| format!("the second program gives {expected}")));
        tally.count(
            || format!("sentence {number}, {}, {}", item.label, case.call.name()),
            fault,
        );
    }
}
