//! The soundness check: generated books are sound, broken ones are not, and the plain slow check
//! with nested loops says the same of both.

use second::gen::{self, Plan};
use second::mutate;
use second::record::*;
use second::rng::Rng;
use second::slow;
use second::sound::{self, Rule};
use std::collections::BTreeMap;

#[test]
fn generated_books_are_sound() {
    let mut rng = Rng::new(10);
    for round in 0..3_000 {
        let records = 1 + rng.index(90);
        let plan = Plan::random(&mut rng, records);
        let book = gen::book_of(&mut rng, &plan);
        assert_eq!(book.len(), records * RECORD, "round {round}");
        let free = rows_of(&book).iter().filter(|row| row.is_free()).count();
        assert_eq!(free, plan.free, "round {round}");
        assert_eq!(sound::check(&book), Ok(()), "round {round}");
        assert_eq!(slow::check(&book), Ok(()), "round {round}");
    }
    for records in [1_000, 1_024, 4_095, 4_096] {
        let book = gen::book(&mut rng, records);
        assert_eq!(book.len(), records * RECORD);
        assert_eq!(sound::status(&book), 0);
    }
}

/// What the generator promises: all of it appears.
#[test]
fn generated_books_are_varied() {
    let mut rng = Rng::new(11);
    let mut seen: BTreeMap<&str, u32> = BTreeMap::new();
    for _ in 0..400 {
        let book = gen::book(&mut rng, 120);
        let rows = rows_of(&book);
        let mut note = |name, holds: bool| *seen.entry(name).or_default() += u32::from(holds);
        let any = |good: &dyn Fn(&Row) -> bool| rows.iter().any(good);
        let two = |good: &dyn Fn(&Row, &Row) -> bool| {
            (0..rows.len()).any(|i| (0..i).any(|j| good(&rows[i], &rows[j])))
        };
        note("full", !any(&|r| r.is_free()));
        note(
            "hole before a row",
            rows.windows(2).any(|w| w[0].is_free() && !w[1].is_free()),
        );
        note("long lot", any(&|r| r.kind == LOT && r.signed_m1() > 0));
        note("short lot", any(&|r| r.kind == LOT && r.signed_m1() < 0));
        let alike = |a: &Row, b: &Row| {
            a.kind == LOT && b.kind == LOT && a.party == b.party && a.symbol == b.symbol
        };
        note("two lots of one position", two(&alike));
        note("tied lots", two(&|a, b| alike(a, b) && a.time == b.time));
        note(
            "two accounts of one broker",
            two(&|a, b| a.kind == ACCOUNT && b.kind == ACCOUNT && a.n1 == b.n1),
        );
        note(
            "two customers with accounts",
            two(&|a, b| a.kind == ACCOUNT && b.kind == ACCOUNT && a.n2 != b.n2),
        );
        for (status, name) in [(0, "tax 0"), (1, "tax 1"), (2, "tax 2")] {
            note(name, any(&|r| r.kind == ACCOUNT && r.typ == status));
        }
        note("rate zero", any(&|r| r.kind == TAX_RATE && r.n1 == 0));
        note("band rate zero", any(&|r| r.kind == BAND && r.n3 == 0));
        note("charge zero", any(&|r| r.kind == CHARGE && r.n1 == 0));
        note(
            "two bands",
            two(&|a, b| {
                a.kind == BAND
                    && b.kind == BAND
                    && (a.typ, a.status, a.flags) == (b.typ, b.status, b.flags)
            }),
        );
        note("no permission", !any(&|r| r.kind == PERMISSION));
        let permissions = |a: &Row, b: &Row| a.kind == PERMISSION && b.kind == PERMISSION;
        note(
            "two executors of one account",
            two(&|a, b| permissions(a, b) && a.party == b.party),
        );
        note(
            "two accounts of one executor",
            two(&|a, b| permissions(a, b) && a.n1 == b.n1),
        );
        for (kind, name) in [
            (BROKER, "an executor with a broker's number"),
            (CUSTOMER, "an executor with a customer's number"),
            (ACCOUNT, "an executor with an account's number"),
        ] {
            let executor =
                |a: &Row, b: &Row| a.kind == PERMISSION && b.kind == kind && a.n1 == b.party;
            note(name, two(&|a, b| executor(a, b) || executor(b, a)));
        }
        for (number, name) in [(1, "executor 1"), (MAX_NUMBER, "the highest executor")] {
            note(name, any(&|r| r.kind == PERMISSION && r.n1 == number));
        }
        let high = MAX_MONEY - 1_000_000_000;
        note(
            "balance high",
            any(&|r| r.kind == ACCOUNT && r.signed_m1() > high),
        );
        note(
            "balance low",
            any(&|r| r.kind == ACCOUNT && r.signed_m1() < -high),
        );
        note(
            "trades at the limit",
            any(&|r| r.kind == BROKER && r.n1 == MAX_BROKER_TRADES),
        );
        note(
            "commission high",
            any(&|r| r.kind == BROKER && r.m1 as i64 > high),
        );
        note(
            "volume high",
            any(&|r| r.kind == SECURITY && r.m1 > MAX_VOLUME - 1_000_000),
        );
        note(
            "last trade number",
            any(&|r| r.kind == TRADE && r.id == MAX_TRADE_NUMBER),
        );
        for (kind, name) in [(1, "pending"), (2, "submitted"), (3, "completed")] {
            note(name, any(&|r| r.kind == TRADE && r.status == kind));
        }
        for len in 1..=7 {
            let names = ["s1", "s2", "s3", "s4", "s5", "s6", "s7"];
            note(
                names[len - 1],
                any(&|r| r.kind == SECURITY && r.symbol.iter().filter(|b| **b != 0).count() == len),
            );
        }
        note(
            "symbols with one beginning",
            two(&|a, b| a.kind == SECURITY && b.kind == SECURITY && a.symbol[..2] == b.symbol[..2]),
        );
    }
    for (name, count) in &seen {
        assert!(*count >= 8, "{name} only {count} times: {seen:?}");
    }
}

/// Each mutation breaks the rule it aims at, and no earlier one; the slow check agrees.
#[test]
fn mutations_break_their_rule() {
    let mut rng = Rng::new(12);
    let mut applied = vec![0; mutate::ALL.len()];
    for _ in 0..400 {
        let records = 20 + rng.index(60);
        let book = gen::book(&mut rng, records);
        for (at, mutation) in mutate::ALL.iter().enumerate() {
            let mut broken = book.clone();
            if !mutate::apply(&mut rng, mutation, &mut broken) {
                assert_eq!(broken, book);
                continue;
            }
            applied[at] += 1;
            let found = sound::check(&broken);
            assert_eq!(found, Err(mutation.rule), "{}", mutation.name);
            assert_eq!(slow::check(&broken), found, "{}", mutation.name);
            assert_eq!(sound::status(&broken), -102);
        }
    }
    for (mutation, count) in mutate::ALL.iter().zip(applied) {
        assert!(count >= 20, "{} only {count} times", mutation.name);
    }
    for rule in Rule::ALL {
        let ways = mutate::ALL.iter().filter(|m| m.rule == rule).count();
        assert!(ways >= 2, "{rule:?}");
    }
}

/// Random damage: several mutations at once, and flipped bits. Fast and slow agree on the rule.
#[test]
fn slow_and_fast_agree_on_damaged_books() {
    let mut rng = Rng::new(13);
    let mut found_rules: BTreeMap<Rule, u32> = BTreeMap::new();
    let mut still_sound = 0;
    for _ in 0..6_000 {
        let records = 1 + rng.index(70);
        let mut book = gen::book(&mut rng, records);
        match rng.below(3) {
            0 => mutate::flip(&mut rng, &mut book),
            1 => flip_a_number(&mut rng, &mut book),
            _ => {
                mutate::any(&mut rng, &mut book);
                // The second one may meet what it does not expect; so it only flips or swaps.
                flip_a_number(&mut rng, &mut book);
            }
        }
        let found = sound::check(&book);
        assert_eq!(slow::check(&book), found);
        match found {
            Ok(()) => still_sound += 1,
            Err(rule) => *found_rules.entry(rule).or_default() += 1,
        }
    }
    assert!(still_sound > 100, "{still_sound}");
    for rule in Rule::ALL {
        assert!(found_rules.contains_key(&rule), "{found_rules:?}");
    }
}

/// Copies a field of one row to another row: most often still a good value, but out of place.
fn flip_a_number(rng: &mut Rng, book: &mut [u8]) {
    let mut rows = rows_of(book);
    let from = rows[rng.index(rows.len())];
    let to = rng.index(rows.len());
    let to = &mut rows[to];
    if to.is_free() {
        return;
    }
    match rng.below(12) {
        0 => to.party = from.party,
        1 => to.id = from.id,
        2 => to.symbol = from.symbol,
        3 => to.n1 = from.n1,
        4 => to.n2 = from.n2,
        5 => to.m1 = from.m1,
        6 => to.m2 = from.m2,
        7 => to.typ = from.typ,
        8 => to.status = from.status,
        9 => to.flags = from.flags,
        10 => to.time = from.time,
        _ => *to = Row::default(),
    }
    book.copy_from_slice(&bytes_of(&rows));
}

#[test]
fn lengths_of_books() {
    assert_eq!(sound::status(&[]), -101);
    assert_eq!(sound::status(&[0; 1]), -101);
    assert_eq!(sound::status(&[0; 63]), -101);
    assert_eq!(sound::status(&[0; 64]), 0);
    assert_eq!(sound::status(&[0; 65]), -101);
    assert_eq!(sound::status(&vec![0; 64 * 4_096]), 0);
    assert_eq!(sound::status(&vec![0; 64 * 4_096 + 64]), -101);
    assert_eq!(sound::status(&vec![0; 64 * 4_096 + 1]), -101);
    // The length comes first: an unsound book that is too long is -101.
    assert_eq!(sound::status(&vec![1; 64 * 4_096 + 64]), -101);
    assert_eq!(sound::status(&[1; 64]), -102);
}
