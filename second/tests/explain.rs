//! What `book-check` says: every way to break a book is named by its rule, with the place of a row that breaks it.

use second::calls::Call;
use second::explain;
use second::figures::Figure;
use second::gen;
use second::mutate::{self, used, PLACES};
use second::record::*;
use second::rng::Rng;
use second::sound::{self, Rule};
use second::words;
use std::io::Write;
use std::process::{Command, Stdio};

/// Runs the program on these bytes: its status, and the lines that it prints.
fn book_check(arguments: &[&str], bytes: &[u8]) -> (i32, Vec<String>) {
    let mut program = Command::new(env!("CARGO_BIN_EXE_book-check"));
    let program = program.args(arguments).arg("-");
    let mut child = program
        .stdin(Stdio::piped())
        .stdout(Stdio::piped())
        .stderr(Stdio::null())
        .spawn()
        .unwrap();
    child.stdin.take().unwrap().write_all(bytes).unwrap();
    let output = child.wait_with_output().unwrap();
    let text = String::from_utf8(output.stdout).unwrap();
    (
        output.status.code().unwrap(),
        text.lines().map(str::to_string).collect(),
    )
}

const NOT_PROVED: &str = "(the second program says so; it is not proved)";

/// The program names the rule of every mutation.
#[test]
fn every_mutation_is_named() {
    let mut rng = Rng::new(40);
    for mutation in mutate::ALL {
        let broken = (0..1_000).find_map(|_| {
            let records = 20 + rng.index(60);
            let mut book = gen::book(&mut rng, records);
            mutate::apply(&mut rng, mutation, &mut book).then_some(book)
        });
        let broken = broken.expect(mutation.name);
        let (status, lines) = book_check(&[], &broken);
        assert_eq!(status, 1, "{}", mutation.name);
        let expected = format!("refused -102 {:?} place ", mutation.rule);
        let place = lines[0].strip_prefix(&expected).expect(mutation.name);
        let row = rows_of(&broken)[place.parse::<usize>().unwrap()];
        assert_eq!(lines[1], words::row(&row));
        assert_eq!(lines.len(), 4, "{lines:?}");
        assert_eq!(lines[3], NOT_PROVED);
    }
}

/// Many books: the rule is the one that the mutation aims at, and a row is at the place. For S1 it is the row that was
/// changed; where a row went another is named, so for the other rules it often is, and not always.
#[test]
fn the_place_is_of_a_row_that_breaks_the_rule() {
    let mut rng = Rng::new(41);
    let mut found_at_change = [0; 10];
    for _ in 0..60 {
        let records = 20 + rng.index(60);
        let book = gen::book(&mut rng, records);
        assert_eq!(explain::fault(&book), None);
        for mutation in mutate::ALL {
            let mut broken = book.clone();
            if !mutate::apply(&mut rng, mutation, &mut broken) {
                continue;
            }
            let fault = explain::fault(&broken).unwrap();
            assert_eq!(fault.rule, mutation.rule, "{}", mutation.name);
            let rows = rows_of(&broken);
            assert!(!rows[fault.place].is_free(), "{}", mutation.name);
            let changed = rows_of(&book).get(fault.place) != Some(&rows[fault.place]);
            found_at_change[fault.rule as usize] += u32::from(changed);
            if fault.rule == Rule::S1 {
                assert!(changed && check_record(&rows[fault.place].write()).is_err());
            }
        }
    }
    assert!(
        found_at_change.iter().all(|count| *count > 20),
        "{found_at_change:?}"
    );
}

/// Random damage: `explain::book` itself asserts that the rule is the one that `sound` finds.
#[test]
fn damaged_books() {
    let mut rng = Rng::new(42);
    let mut refused = 0;
    for _ in 0..3_000 {
        let records = 1 + rng.index(70);
        let mut book = gen::book(&mut rng, records);
        mutate::flip(&mut rng, &mut book);
        let (good, _) = explain::book(&book);
        assert_eq!(good, sound::status(&book) == 0);
        refused += u32::from(!good);
    }
    assert!(refused > 500, "{refused}");
}

/// The book of the figures, broken by hand: rule, place and reason.
#[test]
fn written_out() {
    let good = Figure::sell(120, false).book();
    let rows = rows_of(&good);
    let place = |kind, id| {
        rows.iter()
            .position(|row| row.kind == kind && row.id == id)
            .unwrap()
    };
    let (lot, trade, settlement) = (place(LOT, 10), place(TRADE, 12), place(SETTLEMENT, 10));
    let said = |change: &dyn Fn(&mut Vec<Row>)| {
        let mut rows = rows.clone();
        change(&mut rows);
        book_check(&[], &bytes_of(&rows)).1
    };
    assert_eq!(
        book_check(&[], &good),
        (0, vec!["sound".to_string(), NOT_PROVED.to_string()])
    );
    assert_eq!(
        said(&|rows| rows[lot].n1 = 0),
        [
            format!("refused -102 S1 place {lot}").as_str(),
            "lot 10 of account 1: 100 ABC at 0.00, time 100",
            "n1 is 0: the price, 1..99,999,999",
            NOT_PROVED
        ]
    );
    assert_eq!(
        said(&|rows| rows[lot].m1 = 99)[..3],
        [
            format!("refused -102 S8 place {}", place(SUMMARY, 0)),
            "summary of account 1: 150 ABC".to_string(),
            "its lots sum to 149".to_string()
        ]
    );
    assert_eq!(
        said(&|rows| rows[settlement] = Row::default())[..3],
        [
            format!("refused -102 S9 place {}", place(TRADE, 10)),
            words::row(&rows[place(TRADE, 10)]),
            "it is completed, and has no settlement".to_string()
        ]
    );
    assert_eq!(
        said(&|rows| rows[trade].party = 77)[2],
        "there is no account 77"
    );
    assert_eq!(
        said(&|rows| rows[trade].n5 = 5)[2],
        "n5 is 5: a trade does not use it, so it is zero"
    );
    assert_eq!(
        said(&|rows| rows[lot].kind = 18)[2],
        "kind is 18, and must be 1 to 17"
    );
    assert_eq!(book_check(&[], &good[1..]).1[0], "refused -101");
    assert_eq!(book_check(&[], &[]).0, 1);
}

/// Inputs: every broken record of the generator is refused by the field that `check_input` names.
#[test]
fn inputs() {
    let mut rng = Rng::new(43);
    let book = rows_of(&gen::book(&mut rng, 80));
    for call in Call::ALL {
        let good = gen::good_input(&mut rng, call, &book);
        assert_eq!(
            explain::input(call, &bytes_of(&good)),
            (true, "good\n".to_string())
        );
        let broken = gen::broken_records(&mut rng, call, &good[0]);
        assert!(broken.len() > 5);
        for (name, record) in broken {
            let mut rows = good.clone();
            let last = rows.len() - 1;
            rows[last] = record;
            let (accepted, said) = explain::input(call, &bytes_of(&rows));
            assert!(!accepted, "{name}");
            let field = check_input(call.kind(), &record.write()).unwrap_err();
            let field = words::field_name(field);
            assert!(
                said.starts_with(&format!("refused -103 {field} record {last}\n")),
                "{name}: {said}"
            );
        }
        assert!(explain::input(call, &[]).1.starts_with("refused -100\n"));
    }
    let order = Row {
        kind: ORDER_INPUT,
        typ: TMB,
        party: 1,
        symbol: symbol("ABC"),
        n1: 5,
        n2: 7,
        ..Row::default()
    };
    let (status, lines) = book_check(&["--input", "order"], &order.write());
    assert_eq!(status, 1);
    assert_eq!(lines[0], "refused -103 n2 record 0");
    assert_eq!(
        lines[1],
        "order: market buy of 5 ABC for account 1, flags 0, bid 0.07, time 0"
    );
    assert_eq!(
        lines[2],
        "n2 is 7: the bid, 0 for types 1 and 2, 1..99,999,999 for the others"
    );
    assert_eq!(book_check(&["--input", "sale"], &[]).0, 2);
}

/// A used field has its rule in words, and no other field has one.
#[test]
fn fields_in_words() {
    for kind in BROKER..=PERMISSION {
        for (field, _, _) in PLACES {
            let in_words = field == Field::Kind || words::rule(kind, field).is_some();
            assert_eq!(in_words, used(kind).contains(&field), "{kind} {field:?}");
        }
    }
}

#[test]
fn decimals() {
    assert_eq!(words::decimal(0, 2), "0.00");
    assert_eq!(words::decimal(-7, 2), "-0.07");
    assert_eq!(words::decimal(1_234_567, 2), "12,345.67");
    assert_eq!(words::decimal(-1_000, 0), "-1,000");
    assert_eq!(words::decimal(i64::MIN, 0), "-9,223,372,036,854,775,808");
}
