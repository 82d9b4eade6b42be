//! Properties of whole runs: results of several accounts in any order, long runs of mixed calls,
//! and the figures of a result found again from the rows it left.

use second::calls::{self, Call};
use second::gen::{self, Focus, Plan};
use second::record::*;
use second::rng::Rng;
use second::runs::{self, Run};
use second::sound;
use std::collections::{BTreeMap, HashMap};

/// Runs the results in this order: the answer of each, by its place in the list, and the book. An
/// accepted one leaves a sound book, a refused one the book as found.
fn run_results(run: &Run, order: &[usize]) -> (Vec<[u8; RECORD]>, Vec<u8>) {
    let mut book = run.book.clone();
    let mut answers = vec![[0; RECORD]; run.list.len()];
    for at in order {
        let before = book.clone();
        let mut answer = [0xAA; RECORD];
        match calls::result_on_sound(&mut book, &run.list[*at].write(), &mut answer) {
            0 => assert_eq!(sound::check(&book), Ok(())),
            _ => assert_eq!(book, before),
        }
        answers[*at] = answer;
    }
    (answers, book)
}

/// The status in an answer of one record.
fn status_of(answer: &[u8; RECORD]) -> i32 {
    Row::read(answer).n5 as i32
}

/// Results that keep each account's own order give the same answers and the same rows.
#[test]
fn the_order_between_accounts_does_not_matter() {
    let mut rng = Rng::new(30);
    let mut compared = 0;
    let mut with_two_accounts = 0;
    let mut statuses: BTreeMap<i32, u32> = BTreeMap::new();
    for _ in 0..12_000 {
        let run = runs::any_run(&mut rng);
        let as_listed: Vec<usize> = (0..run.list.len()).collect();
        let (answers1, book1) = run_results(&run, &as_listed);
        let (answers2, book2) = run_results(&run, &run.order);
        let mut all_answers = answers1.iter().chain(&answers2);
        if all_answers.any(|answer| runs::hinders(status_of(answer))) {
            continue;
        }
        compared += 1;
        for answer in &answers1 {
            *statuses.entry(status_of(answer)).or_default() += 1;
        }
        let mut accounts: Vec<u32> = answers1
            .iter()
            .filter(|answer| status_of(answer) == 0)
            .map(|answer| Row::read(answer).party)
            .collect();
        accounts.sort();
        accounts.dedup();
        with_two_accounts += u32::from(accounts.len() > 1);

        assert_eq!(answers1, answers2);
        assert_eq!(runs::sorted_records(&book1), runs::sorted_records(&book2));
    }
    assert!(compared >= 10_000, "{compared}");
    assert!(with_two_accounts > 5_000, "{with_two_accounts}");
    for status in [0, -103, -811, -812, -831, -841, -842] {
        assert!(statuses.contains_key(&status), "{statuses:?}");
    }
}

/// Mixed calls one after another: the book stays sound, and trade numbers only grow.
#[test]
fn long_runs_of_mixed_calls() {
    let mut rng = Rng::new(31);
    let mut counts: HashMap<(Call, i32), u32> = HashMap::new();
    for _ in 0..150 {
        let records = 60 + rng.index(200);
        let plan = Plan {
            records,
            free: records * 2 / 3,
            limits: rng.chance(30),
            submitted: 30,
            focus: *rng.pick(&[Focus::Nothing, Focus::Nothing, Focus::Lots]),
        };
        let mut book = gen::book_of(&mut rng, &plan);
        for _ in 0..60 {
            let call = *rng.pick(&Call::ALL);
            let before = rows_of(&book);
            let input = bytes_of(&gen::good_input(&mut rng, call, &before));
            let mut answer = vec![0xAA; call.answer_length(input.len())];
            let status = call.run(&mut book, &input, &mut answer);
            *counts.entry((call, status)).or_default() += 1;
            let after = rows_of(&book);
            assert_eq!(sound::check(&book), Ok(()));
            if status != 0 {
                assert_eq!(before, after);
            }
            let largest = |rows: &[Row]| {
                let trades = rows.iter().filter(|row| row.kind == TRADE);
                trades.map(|row| row.id).max().unwrap_or(0)
            };
            assert!(largest(&before) <= largest(&after));
            // A place that was not free is never given to another row by the same call.
            for (old, new) in before.iter().zip(&after) {
                if !old.is_free() && !new.is_free() {
                    assert_eq!(
                        (old.kind, old.id, old.symbol),
                        (new.kind, new.id, new.symbol)
                    );
                    assert_eq!(old.party, new.party);
                }
            }
        }
    }
    for call in Call::ALL {
        assert!(counts[&(call, 0)] > 500, "{counts:?}");
    }
}

/// "each lies within half a cent of the exact fraction", halves up: 2 x over - under < 2 x under x
/// rounded <= 2 x over + under.
fn is_rounded(rounded: i128, over: i128, under: i128) -> bool {
    2 * over - under < 2 * under * rounded && 2 * under * rounded <= 2 * over + under
}

/// Finds the figures of accepted results again, from the rows before and the lot histories left.
#[test]
fn results_can_be_checked_from_their_rows() {
    let mut rng = Rng::new(32);
    let mut checked = 0;
    let mut taxed = 0;
    let mut rounded_to_zero = 0;
    let mut opened = 0;
    for _ in 0..6_000 {
        let records = 24 + rng.index(60);
        let book = gen::book(&mut rng, records);
        let before = rows_of(&book);
        let input = gen::result_input(&mut rng, &before);
        let mut after = book.clone();
        let mut answer = [0; RECORD];
        if calls::result(&mut after, &input.write(), &mut answer) != 0 {
            continue;
        }
        checked += 1;
        let after = rows_of(&after);
        let answer = Row::read(&answer);
        let by_id = |rows: &[Row], kind: u8, id: u64| {
            rows.iter()
                .find(|row| row.kind == kind && row.id == id)
                .copied()
        };
        let by_party = |rows: &[Row], kind: u8, party: u32| {
            *rows
                .iter()
                .find(|row| row.kind == kind && row.party == party)
                .unwrap()
        };
        let old = by_id(&before, TRADE, input.id).unwrap();
        let new = by_id(&after, TRADE, input.id).unwrap();
        let account = by_party(&before, ACCOUNT, old.party);
        let sell = matches!(old.typ, TMS | TLS | TSL);
        let shares = i128::from(old.n1);
        let price = i128::from(input.n1);

        // The lot histories tell what was closed, and at what lot price.
        let mut closed = 0;
        let (mut bought, mut sold) = (0, 0);
        let mut last_key = None;
        let mut reduced = 0;
        let mut steps: Vec<(usize, Row)> = after
            .iter()
            .enumerate()
            .filter(|(_, row)| row.kind == LOT_HISTORY && row.m2 == input.id)
            .map(|(place, row)| (place, *row))
            .collect();
        steps.sort();
        for (_, step) in steps.iter().filter(|(_, step)| step.id != input.id) {
            let lot = by_id(&before, LOT, step.id).unwrap();
            let (was, is) = (step.signed_n1(), step.signed_n2());
            assert_eq!(i64::from(was), lot.signed_m1());
            assert_eq!(was > 0, sell);
            assert!(is.abs() < was.abs() && (is == 0 || (is > 0) == sell));
            match by_id(&after, LOT, step.id) {
                Some(kept) => {
                    assert_eq!(kept.signed_m1(), i64::from(is));
                    assert_eq!((kept.n1, kept.time), (lot.n1, lot.time));
                    reduced += 1;
                }
                None => assert_eq!(is, 0),
            }
            let part = i128::from((was - is).abs());
            closed += part;
            let (at_lot, at_trade) = (part * i128::from(lot.n1), part * price);
            if sell {
                bought += at_lot;
                sold += at_trade;
            } else {
                sold += at_lot;
                bought += at_trade;
            }
            // Walked by rising (time, number), or falling with LIFO.
            let key = (lot.time, lot.id);
            if let Some(last) = last_key {
                assert_eq!(last < key, old.flags & FLAG_LIFO == 0);
            }
            last_key = Some(key);
        }
        assert!(reduced <= 1 && closed <= shares);
        // A lot that was not walked lies beyond the last one walked, and is as it was.
        for lot in before
            .iter()
            .filter(|row| row.kind == LOT && row.party == old.party && row.symbol == old.symbol)
        {
            if steps.iter().any(|(_, step)| step.id == lot.id) {
                continue;
            }
            assert_eq!(by_id(&after, LOT, lot.id), Some(*lot));
            if (lot.signed_m1() > 0) == sell {
                assert_eq!(closed, shares);
                let beyond = last_key.unwrap() < (lot.time, lot.id);
                assert_eq!(beyond, old.flags & FLAG_LIFO == 0);
            }
        }
        // What no lot met opens one.
        match by_id(&after, LOT, input.id) {
            Some(lot) => {
                opened += 1;
                let left = i128::from(lot.signed_m1());
                assert_eq!(
                    left,
                    if sell {
                        closed - shares
                    } else {
                        shares - closed
                    }
                );
                assert_eq!(
                    (lot.n1, lot.time, lot.party),
                    (input.n1, input.time, old.party)
                );
            }
            None => assert_eq!(closed, shares),
        }

        // Tax, commission, settlement, balance and the broker's totals.
        let mut rates = 0;
        for link in before.iter().filter(|row| row.kind == CUSTOMER_RATE) {
            if link.party == account.n2 {
                rates += i128::from(by_party(&before, TAX_RATE, link.n1).n1);
            }
        }
        let tax = i128::from(answer.tax());
        if account.typ != 0 && sold > bought {
            taxed += 1;
            rounded_to_zero += u32::from(tax == 0);
            assert!(rates > 0 && is_rounded(tax, (sold - bought) * rates, 100_000));
        } else {
            assert_eq!(tax, 0);
        }
        let tier = by_party(&before, CUSTOMER, account.n2).typ;
        let security = before
            .iter()
            .find(|r| r.kind == SECURITY && r.symbol == old.symbol);
        let exchange = security.unwrap().typ;
        let rates: Vec<u32> = before
            .iter()
            .filter(|row| {
                (row.kind, row.typ, row.status, row.flags) == (BAND, old.typ, tier, exchange)
            })
            .filter(|row| row.n1 <= old.n1 && old.n1 <= row.n2)
            .map(|row| row.n3)
            .collect();
        assert_eq!(rates.len(), 1);
        let commission = i128::from(new.m1);
        assert!(is_rounded(
            commission,
            i128::from(rates[0]) * shares * price,
            10_000
        ));
        let fees = i128::from(old.n4) + commission;
        let mut settlement = if sell {
            shares * price
        } else {
            -shares * price
        } - fees;
        if account.typ == 1 {
            settlement -= tax;
        }
        assert_eq!(i128::from(answer.signed_m2()), settlement);
        let mut balance = i128::from(account.signed_m1());
        if old.flags & FLAG_CASH != 0 {
            balance += settlement;
        }
        assert_eq!(i128::from(answer.signed_m1()), balance);
        let account_after = by_party(&after, ACCOUNT, old.party);
        assert_eq!(i128::from(account_after.signed_m1()), balance);
        let broker = by_party(&before, BROKER, account.n1);
        let broker_after = by_party(&after, BROKER, account.n1);
        assert_eq!(broker_after.n1, broker.n1 + 1);
        assert_eq!(
            i128::from(broker_after.m1),
            i128::from(broker.m1) + commission
        );
        let expected = Row {
            status: CMPT,
            n3: input.n1,
            m1: new.m1,
            m2: answer.tax(),
            time: input.time,
            ..old
        };
        assert_eq!(new, expected);

        // The added rows stand on the lowest places free at entry, in 01's order.
        let free: Vec<usize> = places(&before, Row::is_free);
        let mut kinds = vec![LOT_HISTORY; steps.len()];
        if by_id(&after, LOT, input.id).is_some() {
            kinds.push(LOT);
        }
        let at_position =
            |row: &Row| row.kind == SUMMARY && row.party == old.party && row.symbol == old.symbol;
        if !before.iter().any(at_position) {
            kinds.push(SUMMARY);
        }
        kinds.extend([HISTORY, SETTLEMENT]);
        if old.flags & FLAG_CASH != 0 {
            kinds.push(CASH);
        }
        for (at, place) in free.iter().enumerate() {
            let kind = kinds.get(at).copied().unwrap_or(0);
            assert_eq!(after[*place].kind, kind);
            assert_eq!(kind == 0, after[*place].is_free());
        }
        // The opening history is the last of the histories.
        for (_, step) in &steps[..steps.len().saturating_sub(1)] {
            assert_ne!(step.id, input.id);
        }
        let due = by_id(&after, SETTLEMENT, input.id).unwrap();
        assert_eq!(due.time, input.time + 172_800);
        // Nothing else changes but lots walked, summary, trade, broker and account.
        for place in 0..before.len() {
            let row = &before[place];
            let may_change = row.is_free()
                || at_position(row)
                || (row.kind == LOT && steps.iter().any(|(_, step)| step.id == row.id))
                || (row.kind == TRADE && row.id == input.id)
                || (row.kind == BROKER && row.party == account.n1)
                || (row.kind == ACCOUNT && row.party == old.party);
            assert!(may_change || after[place] == *row);
        }
    }
    assert!(
        checked > 800 && taxed > 40 && rounded_to_zero > 10 && opened > 200,
        "{checked} {taxed} {rounded_to_zero} {opened}"
    );
}

/// The places of the rows with this property.
fn places(rows: &[Row], good: impl Fn(&Row) -> bool) -> Vec<usize> {
    (0..rows.len())
        .filter(|place| good(&rows[*place]))
        .collect()
}

/// Puts rows on the lowest free places.
fn put_all(before: &[Row], changed: &mut [Row], added: &[Row]) {
    for (place, row) in places(before, Row::is_free).iter().zip(added) {
        changed[*place] = *row;
    }
}

/// What a feed does, told request by request and security by security, not entry by entry.
#[test]
fn feeds_can_be_told_request_by_request() {
    let mut rng = Rng::new(33);
    let mut checked = 0;
    let mut submitted = 0;
    for _ in 0..4_000 {
        let records = 16 + rng.index(90);
        let plan = Plan::for_call(&mut rng, Call::Feed, records);
        let mut book = gen::book_of(&mut rng, &plan);
        let before = rows_of(&book);
        let input = gen::feed_input(&mut rng, &before);
        let mut answer = [0; RECORD];
        if calls::feed(&mut book, &bytes_of(&input), &mut answer) != 0 {
            continue;
        }
        checked += 1;
        let mut expected = before.clone();
        let mut hits = Vec::new();
        for (place, row) in before.iter().enumerate() {
            if row.kind == SECURITY {
                let mine = input.iter().filter(|entry| entry.symbol == row.symbol);
                if let Some(last) = mine.clone().next_back() {
                    expected[place].n1 = last.n1;
                    expected[place].time = last.time;
                    expected[place].m1 += mine.map(|entry| u64::from(entry.n2)).sum::<u64>();
                }
            }
            if row.kind == REQUEST {
                // The first entry on its symbol whose price meets its bid.
                let first = input.iter().position(|entry| {
                    entry.symbol == row.symbol
                        && match row.typ {
                            TLS => entry.n1 >= row.n2,
                            _ => entry.n1 <= row.n2,
                        }
                });
                if let Some(entry) = first {
                    expected[place] = Row::default();
                    hits.push((entry, row.id));
                    let trades = places(&before, |r| r.kind == TRADE && r.id == row.id);
                    expected[trades[0]].status = SBMT;
                    expected[trades[0]].time = input[entry].time;
                }
            }
        }
        hits.sort();
        let added: Vec<Row> = hits
            .iter()
            .map(|(entry, id)| Row {
                kind: HISTORY,
                status: SBMT,
                id: *id,
                time: input[*entry].time,
                ..Row::default()
            })
            .collect();
        put_all(&before, &mut expected, &added);
        assert_eq!(rows_of(&book), expected);
        let answered = Row {
            kind: 35,
            n1: input.len() as u32,
            n2: hits.len() as u32,
            ..Row::default()
        };
        assert_eq!(Row::read(&answer), answered);
        submitted += hits.len();
    }
    assert!(
        checked > 2_000 && submitted > 1_000,
        "{checked} {submitted}"
    );
}

/// What an order answers and adds, with the walk told lot by lot: of each lot, as many shares are
/// closed as are needed beyond the lots before it.
#[test]
fn orders_can_be_told_lot_by_lot() {
    let mut rng = Rng::new(34);
    let mut checked = 0;
    let mut closing = 0;
    let mut rounded_to_zero = 0;
    for _ in 0..6_000 {
        let records = 20 + rng.index(90);
        let plan = Plan::for_call(&mut rng, Call::Order, records);
        let mut book = gen::book_of(&mut rng, &plan);
        let before = rows_of(&book);
        let input = gen::order_input(&mut rng, &before);
        let mut answer = [0; RECORD];
        if calls::order(&mut book, &input.write(), &mut answer) != 0 {
            continue;
        }
        checked += 1;
        let answer = Row::read(&answer);
        let the = |good: &dyn Fn(&Row) -> bool| *before.iter().find(|row| good(row)).unwrap();
        let account = the(&|r| r.kind == ACCOUNT && r.party == input.party);
        let customer = the(&|r| r.kind == CUSTOMER && r.party == account.n2);
        let security = the(&|r| r.kind == SECURITY && r.symbol == input.symbol);
        let band = the(&|r| {
            (r.kind, r.typ, r.status, r.flags) == (BAND, input.typ, customer.typ, security.typ)
                && (r.n1..=r.n2).contains(&input.n1)
        });
        let charge = the(&|r| (r.kind, r.typ, r.status) == (CHARGE, input.typ, customer.typ));
        let price = if input.typ < TLB {
            security.n1
        } else {
            input.n2
        };
        let buy = input.typ == TMB || input.typ == TLB;
        let lots: Vec<&Row> = before
            .iter()
            .filter(|r| r.kind == LOT && r.party == input.party && r.symbol == input.symbol)
            .filter(|r| (r.signed_m1() < 0) == buy)
            .collect();
        let lifo = input.flags & FLAG_LIFO != 0;
        let (mut at_lots, mut at_price) = (0, 0);
        for lot in &lots {
            let earlier: u64 = lots
                .iter()
                .filter(|r| {
                    if lifo {
                        (r.time, r.id) > (lot.time, lot.id)
                    } else {
                        (r.time, r.id) < (lot.time, lot.id)
                    }
                })
                .map(|r| r.signed_m1().unsigned_abs())
                .sum();
            let needed = u64::from(input.n1).saturating_sub(earlier);
            let closed = needed.min(lot.signed_m1().unsigned_abs());
            at_lots += closed * u64::from(lot.n1);
            at_price += closed * u64::from(price);
        }
        closing += u32::from(at_lots > 0);
        let (bought, sold) = if buy {
            (at_price, at_lots)
        } else {
            (at_lots, at_price)
        };
        let mut rates = 0;
        for link in before.iter().filter(|r| r.kind == CUSTOMER_RATE) {
            if link.party == customer.party {
                rates += i128::from(the(&|r| r.kind == TAX_RATE && r.party == link.n1).n1);
            }
        }
        if account.typ > 0 && sold > bought {
            let gain = i128::from(sold) - i128::from(bought);
            rounded_to_zero += u32::from(answer.tax() == 0);
            assert!(rates > 0 && is_rounded(answer.tax().into(), gain * rates, 100_000));
        } else {
            assert_eq!(answer.tax(), 0);
        }
        let numbers = before.iter().filter(|r| r.kind == TRADE).map(|r| r.id);
        let id = numbers.max().unwrap_or(0) + 1;
        let expected = Row {
            kind: 33,
            id,
            symbol: answer.symbol,
            n1: charge.n1,
            n2: band.n3,
            n3: price,
            m1: bought,
            m2: sold,
            ..Row::default()
        };
        assert_eq!(answer, expected);

        let mut after = before.clone();
        if input.flags & FLAG_ROLL_BACK == 0 {
            let now = rows_of(&book);
            let trade = *now.iter().find(|r| r.kind == TRADE && r.id == id).unwrap();
            let value = i128::from(band.n3) * i128::from(input.n1) * i128::from(price);
            assert!(is_rounded(trade.m1.into(), value, 10_000));
            let status = if input.typ < TLB { 2 } else { 1 };
            let expected = Row {
                kind: TRADE,
                typ: input.typ,
                status,
                flags: input.flags & 3,
                party: input.party,
                id,
                symbol: input.symbol,
                n1: input.n1,
                n2: price,
                n4: charge.n1,
                m1: trade.m1,
                time: input.time,
                ..Row::default()
            };
            let history = Row {
                kind: HISTORY,
                status,
                id,
                time: input.time,
                ..Row::default()
            };
            let request = Row {
                kind: REQUEST,
                typ: input.typ,
                party: account.n1,
                id,
                symbol: input.symbol,
                n1: input.n1,
                n2: price,
                ..Row::default()
            };
            let mut added = vec![expected, history];
            if status == 1 {
                added.push(request);
            }
            put_all(&before, &mut after, &added);
        }
        assert_eq!(rows_of(&book), after);
    }
    assert!(
        checked > 1_500 && closing > 400 && rounded_to_zero > 10,
        "{checked} {closing} {rounded_to_zero}"
    );
}
