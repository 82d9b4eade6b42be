//! The four calls: statuses in their order, what refusals write, and single rules of 01.

use second::calls::{self, Call};
use second::features;
use second::figures::{result_input, Figure};
use second::gen::{self, Case};
use second::record::*;
use second::rng::Rng;
use second::sound;
use std::collections::BTreeMap;

/// Runs a case and checks what every call keeps to, whatever its status.
fn run(case: &Case) -> (i32, Vec<u8>, Vec<u8>) {
    let mut book = case.book.clone();
    let mut answer = case.answer.clone();
    let status = case.call.run(&mut book, &case.input, &mut answer);
    if status == -100 {
        // "nothing at all is written"
        assert_eq!(book, case.book);
        assert_eq!(answer, case.answer);
    } else if status != 0 {
        // "A refusal leaves the book as found; all answer bytes are zero but the status".
        assert_eq!(book, case.book);
        let mut expected = vec![0; answer.len()];
        expected[60..64].copy_from_slice(&status.to_le_bytes());
        assert_eq!(answer, expected);
    } else {
        // "An accepted call leaves a sound book."
        assert_eq!(sound::check(&book), Ok(()));
        if case.call != Call::Lookup {
            assert_eq!(answer[60..64], [0; 4]);
            assert_eq!(answer[0], case.call.kind());
        } else {
            assert_eq!(book, case.book);
        }
        // A call that trusts the book does the same.
        let mut book2 = case.book.clone();
        let mut answer2 = vec![0x55; answer.len()];
        case.call
            .run_on_sound(&mut book2, &case.input, &mut answer2);
        assert_eq!((book2, answer2), (book.clone(), answer.clone()));
    }
    assert!(case.call.statuses().contains(&status));
    (status, answer, book)
}

#[test]
fn every_status_is_reached() {
    for (seed, most, count) in [(20, 24, 4_000), (21, 100, 3_000)] {
        let mut rng = Rng::new(seed);
        for (call, wanted) in features::WANTED {
            let mut counts: BTreeMap<i32, u32> = BTreeMap::new();
            let mut found: BTreeMap<&str, u32> = BTreeMap::new();
            for _ in 0..count {
                let case = gen::case(&mut rng, *call, most);
                let (status, answer, book) = run(&case);
                *counts.entry(status).or_default() += 1;
                for name in features::of_refusal(*call, status, &case.book, &case.input) {
                    *found.entry(name).or_default() += 1;
                }
                if status == 0 {
                    for name in features::of(*call, &case.book, &book, &case.input, &answer) {
                        *found.entry(name).or_default() += 1;
                    }
                }
            }
            for name in wanted.iter().chain(&features::reasons(*call)) {
                assert!(
                    found.contains_key(name),
                    "{} {name}: {found:?}",
                    call.name()
                );
            }
            for status in call.statuses() {
                let count = counts.get(status).copied().unwrap_or(0);
                assert!(count > 0, "{} {status}: {counts:?}", call.name());
            }
        }
    }
}

/// Cases moved to an edge are still on a sound book, and fall to both sides of it.
#[test]
fn cases_at_the_edge() {
    let mut rng = Rng::new(26);
    for call in [Call::Order, Call::Result, Call::Feed] {
        let mut counts: BTreeMap<i32, u32> = BTreeMap::new();
        for _ in 0..2_000 {
            let case = gen::case(&mut rng, call, 40);
            if run(&case).0 != 0 {
                continue;
            }
            let moved = gen::to_the_edge(&mut rng, case);
            assert_eq!(sound::check(&moved.book), Ok(()));
            let (status, _, book) = run(&moved);
            *counts.entry(status).or_default() += 1;
            if status == 0 && call != Call::Feed {
                let full = !rows_of(&book).iter().any(Row::is_free);
                *counts.entry(1).or_default() += u32::from(full);
            }
        }
        for status in [0, -104, -105] {
            assert!(counts[&status] > 30, "{}: {counts:?}", call.name());
        }
        assert_eq!(counts.len(), if call == Call::Feed { 3 } else { 4 });
    }
}

/// Cases changed for a large gain are still on a sound book. Where they are accepted, gain × rates
/// is 2^62 or more, and falls to both sides of the largest signed 64-bit number.
#[test]
fn cases_of_a_large_gain() {
    let mut rng = Rng::new(27);
    for call in [Call::Order, Call::Result] {
        let mut counts: BTreeMap<&str, u32> = BTreeMap::new();
        for _ in 0..3_000 {
            let case = gen::case(&mut rng, call, 40);
            let Some(case) = gen::to_a_large_gain(&mut rng, case) else {
                continue;
            };
            assert_eq!(sound::check(&case.book), Ok(()));
            let (status, answer, book) = run(&case);
            if status != 0 {
                continue;
            }
            let mut names = features::of(call, &case.book, &book, &case.input, &answer);
            names.retain(|name| name.starts_with("has gain × rates"));
            assert_eq!(names.len(), 1);
            *counts.entry(names[0]).or_default() += 1;
        }
        assert_eq!(counts.len(), 2);
        assert!(counts.values().all(|count| *count > 50), "{counts:?}");
    }
}

/// Cases changed for other bands are still on a sound book. They meet both refusals of the search for
/// many reasons, and other refusals are due at the same time.
#[test]
fn cases_of_other_bands() {
    let mut rng = Rng::new(28);
    for (call, no_tax, later) in [
        (Call::Order, -731, &[-733, -104, -105, 0][..]),
        (Call::Result, -831, &[-104, -105, 0]),
    ] {
        let mut counts: BTreeMap<&str, u32> = BTreeMap::new();
        let mut instead: BTreeMap<i32, u32> = BTreeMap::new();
        let mut still: BTreeMap<i32, u32> = BTreeMap::new();
        for _ in 0..4_000 {
            let case = gen::case(&mut rng, call, 40);
            let before = run(&case).0;
            let moved = gen::to_other_bands(&mut rng, case.clone());
            let (status, answer, book) = run(&moved);
            if moved.book == case.book {
                continue;
            }
            assert_eq!(sound::check(&moved.book), Ok(()));
            if status == 0 {
                for name in features::of(call, &moved.book, &book, &moved.input, &answer) {
                    *counts.entry(name).or_default() += 1;
                }
            }
            let reasons = features::of_refusal(call, status, &moved.book, &moved.input);
            if matches!(status, -732 | -735 | -841 | -842) {
                *instead.entry(before).or_default() += 1;
                for name in reasons {
                    *counts.entry(name).or_default() += 1;
                }
            } else {
                *still.entry(status).or_default() += 1;
            }
        }
        let wanted = features::BAND_REASONS.iter();
        for name in wanted.chain([&"has a rate beside a band of rate zero"]) {
            assert!(counts.get(name).is_some_and(|n| *n > 30), "{counts:?}");
        }
        // -731 and -831 are said first; the others would have been said but for the bands.
        assert!(still.get(&no_tax).is_some_and(|n| *n > 30), "{still:?}");
        assert!(!instead.contains_key(&no_tax), "{instead:?}");
        for status in later {
            assert!(instead.get(status).is_some_and(|n| *n > 30), "{instead:?}");
        }
    }
}

/// Orders changed for another executor are still on a sound book. They meet -721 for every reason, with
/// every later refusal due too; -711 is said first. The other calls stay as they are.
#[test]
fn cases_of_another_executor() {
    let mut rng = Rng::new(29);
    let mut counts: BTreeMap<&str, u32> = BTreeMap::new();
    let mut statuses: BTreeMap<i32, u32> = BTreeMap::new();
    for _ in 0..6_000 {
        let case = gen::case(&mut rng, Call::Order, 40);
        let before = run(&case).0;
        let moved = gen::to_another_executor(&mut rng, case.clone());
        let (status, answer, book) = run(&moved);
        if (-103..=-100).contains(&before) {
            assert_eq!((&moved.book, &moved.input), (&case.book, &case.input));
            continue;
        }
        assert_eq!(sound::check(&moved.book), Ok(()));
        *statuses.entry(status).or_default() += 1;
        // -711 comes before it; and whatever comes after it waits for it.
        assert_eq!(before == -711, status == -711);
        for name in features::of_refusal(Call::Order, status, &moved.book, &moved.input) {
            *counts.entry(name).or_default() += 1;
        }
        if status == 0 {
            for name in features::of(Call::Order, &moved.book, &book, &moved.input, &answer) {
                *counts.entry(name).or_default() += 1;
            }
        }
    }
    let too_high = |name: &&&str| name.contains("1,000,000,000") || name.contains("4,294,967,295");
    for name in features::EXECUTOR_REASONS.iter().filter(|n| !too_high(n)) {
        assert!(
            counts.get(name).is_some_and(|n| *n > 30),
            "{name} {counts:?}"
        );
    }
    let by = counts.iter().filter(|(name, _)| name.starts_with("is by"));
    assert!(by.clone().all(|(_, n)| *n > 30), "{counts:?}");
    assert_eq!(by.count(), 11);
    for call in [Call::Result, Call::Feed, Call::Lookup] {
        let case = gen::case(&mut rng, call, 40);
        let same = gen::to_another_executor(&mut rng, case.clone());
        assert_eq!((same.book, same.input), (case.book, case.input));
    }
}

#[test]
fn full_books() {
    let mut rng = Rng::new(22);
    for records in [4_096, 4_096, 4_000, 2_500] {
        let book = gen::book(&mut rng, records);
        for call in Call::ALL {
            for _ in 0..3 {
                let case = gen::case_on(&mut rng, call, book.clone());
                run(&case);
            }
        }
    }
    // One record more is -101.
    let mut book = gen::book(&mut rng, 4_096);
    book.extend([0; RECORD]);
    for call in Call::ALL {
        let input = bytes_of(&gen::good_input(&mut rng, call, &rows_of(&book)));
        let answer = rng.bytes(call.answer_length(input.len()));
        let case = Case {
            call,
            book: book.clone(),
            input,
            answer,
        };
        assert_eq!(run(&case).0, -101);
    }
}

/// Every broken field of every record of an input is -103, before anything is looked up.
#[test]
fn broken_inputs() {
    let mut rng = Rng::new(23);
    for _ in 0..40 {
        let book = gen::book(&mut rng, 40);
        for call in Call::ALL {
            let mut good = gen::good_input(&mut rng, call, &rows_of(&book));
            // Even where some record names nobody.
            gen::name_unknown(&mut rng, call, &rows_of(&book), &mut good);
            let at = rng.index(good.len());
            for (name, bad) in gen::broken_records(&mut rng, call, &good[at]) {
                let mut input = good.clone();
                input[at] = bad;
                let input = bytes_of(&input);
                let case = Case {
                    call,
                    book: book.clone(),
                    answer: rng.bytes(call.answer_length(input.len())),
                    input,
                };
                assert_eq!(run(&case).0, -103, "{}: {name}", call.name());
            }
        }
    }
}

#[test]
fn lengths_of_areas() {
    let book = Figure::sell(120, false).book();
    for call in Call::ALL {
        let record = match call {
            Call::Order => Row {
                kind: 33,
                typ: TMB,
                party: 1,
                symbol: symbol("ABC"),
                n1: 1,
                ..Row::default()
            },
            Call::Result => Row {
                kind: 34,
                id: 12,
                n1: 1_000,
                ..Row::default()
            },
            Call::Feed => Row {
                kind: 35,
                symbol: symbol("ABC"),
                n1: 1,
                n2: 1,
                ..Row::default()
            },
            Call::Lookup => Row {
                kind: 36,
                id: 12,
                ..Row::default()
            },
        };
        let bytes = record.write();
        for records in 0..=22 {
            for more in [0, 1, 63] {
                let mut input = bytes.repeat(records);
                input.extend(&bytes[..more]);
                for answer in [0, 1, 63, 64, 65, 127, 128, 129, 192, 256, 2_560, 2_688] {
                    let case = Case {
                        call,
                        book: book.clone(),
                        input: input.clone(),
                        answer: vec![0xAA; answer],
                    };
                    let most = match call {
                        Call::Order | Call::Result => 1,
                        _ => 20,
                    };
                    let long = match call {
                        Call::Lookup => 128 * records,
                        _ => 64,
                    };
                    let good = (1..=most).contains(&records) && more == 0 && answer == long;
                    let expected = if good { 0 } else { -100 };
                    assert_eq!(run(&case).0, expected, "{} {records}", call.name());
                    // -100 comes before -101 and -102.
                    let mut broken = case.clone();
                    broken.book.clear();
                    assert_eq!(run(&broken).0, if good { -101 } else { -100 });
                    broken.book = vec![1; 64];
                    assert_eq!(run(&broken).0, if good { -102 } else { -100 });
                }
            }
        }
    }
}

/// "by rising time and then trade number, or both falling with LIFO"
#[test]
fn ties_are_walked_by_trade_number() {
    let lots = [(10, 5, 100, 7), (9, 5, 200, 7), (11, 5, 300, 6)];
    for (lifo, order) in [(false, [11, 9, 10]), (true, [10, 9, 11])] {
        let mut figure = Figure::sell(15, lifo).with_lots(&lots);
        figure.free = 30;
        let mut book = figure.book();
        let mut answer = [0; RECORD];
        let input = result_input(12, 50, 400);
        assert_eq!(calls::result(&mut book, &input, &mut answer), 0);
        let walked: Vec<u64> = rows_of(&book)
            .iter()
            .filter(|row| row.kind == LOT_HISTORY && row.m2 == 12)
            .map(|row| row.id)
            .collect();
        assert_eq!(walked, order);
    }
}

/// Places: holes are taken lowest first, and those freed by the call are not taken.
#[test]
fn places_free_at_entry_are_taken_lowest_first() {
    let figure = Figure::sell(150, false).with_free(0);
    let rows = rows_of(&figure.book());
    // A hole after every row.
    let spread: Vec<Row> = rows.iter().flat_map(|row| [*row, Row::default()]).collect();
    let mut book = bytes_of(&spread);
    let mut answer = [0; RECORD];
    let input = result_input(12, 3_000, 400);
    assert_eq!(calls::result(&mut book, &input, &mut answer), 0);
    let after = rows_of(&book);
    let kinds: Vec<u8> = (0..6).map(|i| after[2 * i + 1].kind).collect();
    assert_eq!(kinds, [14, 14, 11, 15, 16, 0]);
    for (old, new) in spread.iter().zip(&after) {
        if matches!(old.kind, LOT | SUMMARY) {
            assert!(new.is_free());
        }
    }
}

/// "With roll back, the answer is the one it would have had and the book is unchanged."
#[test]
fn roll_back_answers_alike() {
    let mut rng = Rng::new(24);
    let mut counts: BTreeMap<i32, u32> = BTreeMap::new();
    for _ in 0..1_500 {
        let book = gen::book(&mut rng, 40);
        let mut input = gen::order_input(&mut rng, &rows_of(&book));
        let mut answers = Vec::new();
        for roll_back in [0, FLAG_ROLL_BACK] {
            input.flags = input.flags & 3 | roll_back;
            let mut after = book.clone();
            let mut answer = vec![0xAA; RECORD];
            let status = calls::order(&mut after, &input.write(), &mut answer);
            *counts.entry(status).or_default() += 1;
            assert_eq!(after == book, status != 0 || roll_back != 0);
            answers.push((status, answer));
        }
        assert_eq!(answers[0], answers[1]);
    }
    for status in [0, -721, -731, -732, -735, -733, -104, -105] {
        assert!(counts.contains_key(&status), "{counts:?}");
    }
}

/// An order's estimate is what the result of that order then comes to at the same price.
#[test]
fn estimates_come_true() {
    let mut rng = Rng::new(25);
    let mut compared = 0;
    for _ in 0..3_000 {
        let mut book = gen::book(&mut rng, 60);
        let mut input = gen::order_input(&mut rng, &rows_of(&book));
        input.flags &= 3;
        input.typ = *rng.pick(&[TMB, TMS]);
        input.n2 = 0;
        let mut answer = [0; RECORD];
        if calls::order(&mut book, &input.write(), &mut answer) != 0 {
            continue;
        }
        let order = Row::read(&answer);
        let estimate = trade(&book, order.id);
        let input = result_input(order.id, order.n3, 5);
        if calls::result(&mut book, &input, &mut answer) != 0 {
            continue;
        }
        compared += 1;
        let result = Row::read(&answer);
        let done = trade(&book, order.id);
        assert_eq!(order.tax(), result.tax());
        assert_eq!((done.m1, done.m2), (estimate.m1, order.tax()));
        assert_eq!((done.n2, done.n3), (order.n3, order.n3));
    }
    assert!(compared > 200, "{compared}");
}

fn trade(book: &[u8], id: u64) -> Row {
    rows_of(book)
        .into_iter()
        .find(|row| row.kind == TRADE && row.id == id)
        .unwrap()
}

/// "Entries apply in turn, as one transaction."
#[test]
fn a_feed_of_one_symbol_twice() {
    let mut book = Figure::sell(120, false).book();
    let mut answer = [0; RECORD];
    let order = |typ: u8, bid: u32| {
        Row {
            kind: 33,
            typ,
            party: 1,
            symbol: symbol("ABC"),
            n1: 10,
            n2: bid,
            ..Row::default()
        }
        .write()
    };
    // TLB bid 500, TSL bid 400, TLS bid 600, TLS bid 500.
    for (typ, bid) in [(TLB, 500), (TSL, 400), (TLS, 600), (TLS, 500)] {
        assert_eq!(calls::order(&mut book, &order(typ, bid), &mut answer), 0);
    }
    let entry = |price: u32, time: u32| Row {
        kind: 35,
        symbol: symbol("ABC"),
        n1: price,
        n2: 7,
        time,
        ..Row::default()
    };
    let free = rows_of(&book).iter().position(Row::is_free).unwrap();
    let input = bytes_of(&[entry(500, 1), entry(400, 2), entry(450, 3)]);
    assert_eq!(calls::feed(&mut book, &input, &mut answer), 0);
    let answer = Row::read(&answer);
    assert_eq!((answer.kind, answer.n1, answer.n2), (35, 3, 3));
    let rows = rows_of(&book);
    let added: Vec<(u64, u8, u32)> = rows[free..]
        .iter()
        .take(3)
        .map(|row| (row.id, row.status, row.time))
        .collect();
    // At 500 the TLB (13) and the TLS of 500 (16); at 400 the TSL (14); the TLS of 600 waits.
    assert_eq!(added, [(13, 2, 1), (16, 2, 1), (14, 2, 2)]);
    assert_eq!(trade(&book, 15).status, PNDG);
    let security = rows.iter().find(|row| row.kind == SECURITY).unwrap();
    assert_eq!((security.n1, security.m1, security.time), (450, 21, 3));
}

/// The ranges of -104, at their last good value and one past it.
#[test]
fn ranges_at_their_edges() {
    let input = result_input(12, 3_000, 400);
    // P1 settles 335,700 with a commission of 1,800.
    type Set = fn(&mut Vec<Row>, i64);
    let balance: Set = |rows, v| rows.iter_mut().find(|r| r.kind == ACCOUNT).unwrap().m1 = v as u64;
    let trades: Set = |rows, v| rows.iter_mut().find(|r| r.kind == BROKER).unwrap().n1 = v as u32;
    let total: Set = |rows, v| rows.iter_mut().find(|r| r.kind == BROKER).unwrap().m1 = v as u64;
    let cases: [(Figure, Set, i64, i64); 3] = [
        (Figure::sell(120, false), balance, MAX_MONEY - 335_700, 1),
        (Figure::sell(120, false), trades, 999_999_998, 1),
        (Figure::sell(120, false), total, MAX_MONEY - 1_800, 1),
    ];
    for (figure, set, last_good, step) in cases {
        for (value, expected) in [(last_good, 0), (last_good + step, -104)] {
            let mut rows = rows_of(&figure.book());
            set(&mut rows, value);
            let mut book = bytes_of(&rows);
            let mut answer = [0; RECORD];
            assert_eq!(calls::result(&mut book, &input, &mut answer), expected);
        }
    }
    // A buy of P5 settles -234,660.
    let buy = result_input(12, 2_900, 400);
    for (value, expected) in [(-MAX_MONEY + 234_660, 0), (-MAX_MONEY + 234_659, -104)] {
        let mut rows = rows_of(&Figure::buy_over_short().book());
        balance(&mut rows, value);
        let mut book = bytes_of(&rows);
        let mut answer = [0; RECORD];
        assert_eq!(calls::result(&mut book, &buy, &mut answer), expected);
    }
    // Not a cash trade: its balance cannot leave the range.
    let mut rows = rows_of(&Figure::sell(120, false).book());
    balance(&mut rows, MAX_MONEY);
    let mine = rows
        .iter_mut()
        .find(|row| row.kind == TRADE && row.id == 12);
    mine.unwrap().flags = 0;
    let mut book = bytes_of(&rows);
    let mut answer = [0; RECORD];
    assert_eq!(calls::result(&mut book, &input, &mut answer), 0);
    assert_eq!(Row::read(&answer).signed_m1(), MAX_MONEY);
    // The trade number of an order: trade 12, the last one, has the number before.
    for (last, expected) in [(MAX_TRADE_NUMBER - 1, 0), (MAX_TRADE_NUMBER, -104)] {
        let mut rows = rows_of(&Figure::sell(120, false).book());
        for row in rows.iter_mut().filter(|row| row.id == 12) {
            row.id = last;
        }
        let order = Row {
            kind: 33,
            typ: TMB,
            party: 1,
            symbol: symbol("ABC"),
            n1: 1,
            ..Row::default()
        };
        let mut book = bytes_of(&rows);
        let status = calls::order(&mut book, &order.write(), &mut answer);
        assert_eq!(status, expected);
        if status == 0 {
            assert_eq!(Row::read(&answer).id, MAX_TRADE_NUMBER);
        }
    }
    // The volume of a feed, over two entries.
    for (volume, expected) in [(MAX_VOLUME - 30, 0), (MAX_VOLUME - 29, -104)] {
        let mut rows = rows_of(&Figure::sell(120, false).book());
        rows.iter_mut().find(|r| r.kind == SECURITY).unwrap().m1 = volume;
        let entry = |shares: u32| Row {
            kind: 35,
            symbol: symbol("ABC"),
            n1: 5,
            n2: shares,
            ..Row::default()
        };
        let mut book = bytes_of(&rows);
        let input = bytes_of(&[entry(10), entry(20)]);
        assert_eq!(calls::feed(&mut book, &input, &mut answer), expected);
    }
    // -104 comes before -105.
    let mut rows = rows_of(&Figure::sell(120, false).with_free(0).book());
    trades(&mut rows, 999_999_999);
    let mut book = bytes_of(&rows);
    assert_eq!(calls::result(&mut book, &input, &mut answer), -104);
}

/// An empty book numbers its first trade 1, and a lookup of nothing finds nothing.
#[test]
fn the_first_trade_is_number_one() {
    let rows = rows_of(&Figure::sell(120, false).book());
    let mut rows: Vec<Row> = rows
        .into_iter()
        .map(|row| {
            if row.kind >= TRADE {
                Row::default()
            } else {
                row
            }
        })
        .collect();
    rows.truncate(24);
    let mut book = bytes_of(&rows);
    let order = Row {
        kind: 33,
        typ: TMS,
        flags: 3,
        party: 1,
        symbol: symbol("ABC"),
        n1: 7,
        time: 9,
        ..Row::default()
    };
    let mut answer = [0; RECORD];
    assert_eq!(calls::order(&mut book, &order.write(), &mut answer), 0);
    assert_eq!(Row::read(&answer).id, 1);
    let lookup = |id: u64| Row {
        kind: 36,
        id,
        ..Row::default()
    };
    let mut found = [0xAA; 256];
    let input = bytes_of(&[lookup(1), lookup(1)]);
    assert_eq!(calls::lookup(&mut book, &input, &mut found), 0);
    let rows = rows_of(&found);
    assert_eq!(rows[0], trade(&book, 1));
    assert!(rows[1].is_free() && rows[3].is_free());
    assert_eq!(rows[0], rows[2]);
    let input = bytes_of(&[lookup(1), lookup(2)]);
    assert_eq!(calls::lookup(&mut book, &input, &mut found), -611);
}
