//! Permissions and -721 as 2026-01 has them: "row kind 17 (party account, n1 executor, both the key)",
//! and "let n3 of an order name the executor; zero is the owner, always allowed". Orders of account 1
//! are tried on books of the figures that differ in their permissions alone.

use second::calls::Call;
use second::explain;
use second::figures::{result_input, Figure};
use second::mutate::{used, PLACES};
use second::record::*;
use second::slow;
use second::sound::{self, Rule};

/// The executor that most tests name, and another.
const EXECUTOR: u32 = 7;
const OTHER: u32 = 8;
/// Account 1 trades; account 2 has the same broker and customer. Both are in every book here.
const ACCOUNTS: [u32; 2] = [1, 2];
/// Of both accounts.
const BROKER_OF_BOTH: u32 = 21;
const CUSTOMER_OF_BOTH: u32 = 31;

fn permission(account: u32, executor: u32) -> Row {
    Row {
        kind: 17,
        party: account,
        n1: executor,
        ..Row::default()
    }
}

/// The book of the figures with account 2 and these rows more, before the free places.
fn rows_with(more: &[Row]) -> Vec<Row> {
    let mut rows = rows_of(&Figure::sell(120, false).book());
    let account = *rows.iter().find(|row| row.kind == ACCOUNT).unwrap();
    let free = rows.iter().position(Row::is_free).unwrap();
    let second = Row {
        party: 2,
        ..account
    };
    rows.splice(free..free, [&[second], more].concat());
    rows
}

fn sound_rows_with(more: &[Row]) -> Vec<Row> {
    let rows = rows_with(more);
    assert_eq!(sound::check(&bytes_of(&rows)), Ok(()));
    assert_eq!(slow::check(&bytes_of(&rows)), Ok(()));
    rows
}

/// An order of account 1 for 120 "ABC" by this executor.
fn order_of(typ: u8, executor: u32) -> Row {
    Row {
        kind: 33,
        typ,
        party: 1,
        symbol: symbol("ABC"),
        n1: 120,
        n2: if typ <= TMS { 0 } else { 3_000 },
        n3: executor,
        time: 350,
        ..Row::default()
    }
}

/// The status of a call, its answer and the book afterwards. A refusal leaves the book as found and
/// has its status in the answer alone; an accepted call leaves a sound book.
fn try_call(call: Call, rows: &[Row], input: &Row) -> (i32, Vec<Row>, Vec<Row>) {
    let mut after = bytes_of(rows);
    let mut answer = vec![0xAA; call.answer_length(RECORD)];
    let status = call.run(&mut after, &input.write(), &mut answer);
    let answer = rows_of(&answer);
    if status == 0 {
        assert_eq!(sound::check(&after), Ok(()));
    } else {
        let refusal = Row {
            n5: status as u32,
            ..Row::default()
        };
        assert_eq!((answer[0], &after), (refusal, &bytes_of(rows)));
    }
    (status, answer, rows_of(&after))
}

fn status_of(rows: &[Row], input: &Row) -> i32 {
    try_call(Call::Order, rows, input).0
}

/// The status of an order by this executor on a book with these permissions, in both orders of their
/// places, of each type, with and without roll back.
fn expect(permissions: &[Row], executor: u32, status: i32) {
    let mut permissions = permissions.to_vec();
    for _ in 0..2 {
        permissions.reverse();
        let rows = sound_rows_with(&permissions);
        for typ in TMB..=TSL {
            for flags in [0, FLAG_ROLL_BACK] {
                let input = Row {
                    flags,
                    ..order_of(typ, executor)
                };
                assert_eq!(status_of(&rows, &input), status, "{input:?}");
            }
        }
    }
}

/// "zero is the owner, always allowed"
#[test]
fn the_owner_needs_no_row() {
    expect(&[], 0, 0);
    expect(&[permission(1, EXECUTOR)], 0, 0);
    expect(&[permission(2, EXECUTOR)], 0, 0);
    expect(&[permission(1, 1), permission(1, MAX_NUMBER)], 0, 0);
}

#[test]
fn an_executor_needs_a_row() {
    for executor in [1, 2, EXECUTOR, 255, 256, 65_536, 1 << 24, MAX_NUMBER] {
        expect(&[], executor, -721);
        expect(&[permission(1, executor)], executor, 0);
    }
}

/// The row of another account does not help, nor that of another executor, nor both.
#[test]
fn rows_of_another_account_or_executor() {
    let mine = permission(1, EXECUTOR);
    let of_another_account = permission(2, EXECUTOR);
    expect(&[of_another_account], EXECUTOR, -721);
    expect(&[of_another_account, mine], EXECUTOR, 0);
    // The next numbers, and those that differ in one byte alone.
    let byte_apart = [0, 8, 16, 24].map(|bit| EXECUTOR ^ 1 << bit);
    for other in [OTHER, EXECUTOR - 1, 1, MAX_NUMBER]
        .iter()
        .chain(&byte_apart)
    {
        let of_another_executor = permission(1, *other);
        expect(&[of_another_executor], EXECUTOR, -721);
        expect(&[of_another_executor, of_another_account], EXECUTOR, -721);
        expect(&[of_another_executor, mine], EXECUTOR, 0);
        expect(
            &[of_another_executor, of_another_account, mine],
            EXECUTOR,
            0,
        );
    }
    // The two numbers are not exchanged: account 2 lets executor 1 trade, and not the reverse.
    expect(&[permission(2, 1)], 2, -721);
    expect(&[permission(1, 2)], 2, 0);
}

/// Executors are numbers of their own: one may have that of a broker, a customer or an account, and
/// may trade then exactly with a row.
#[test]
fn an_executor_may_have_a_number_of_others() {
    for executor in [
        BROKER_OF_BOTH,
        CUSTOMER_OF_BOTH,
        ACCOUNTS[0],
        ACCOUNTS[1],
        41,
    ] {
        expect(&[], executor, -721);
        expect(&[permission(2, executor)], executor, -721);
        expect(&[permission(1, executor)], executor, 0);
    }
}

/// "n3 of an order": 0..999,999,999, else -103, which comes before all that is looked up.
#[test]
fn limits_of_the_input() {
    let rows = sound_rows_with(&[permission(1, 1), permission(1, MAX_NUMBER)]);
    for (executor, status) in [
        (0, 0),
        (1, 0),
        (2, -721),
        (MAX_NUMBER - 1, -721),
        (MAX_NUMBER, 0),
        (MAX_NUMBER + 1, -103),
        (1 << 30, -103),
        (1 << 31, -103),
        (u32::MAX, -103),
    ] {
        let input = order_of(TMS, executor);
        assert_eq!(status_of(&rows, &input), status, "{executor}");
        let nobody = Row { party: 3, ..input };
        let status = if status == -103 { -103 } else { -711 };
        assert_eq!(status_of(&rows, &nobody), status, "{executor}");
    }
    // No other input has an executor.
    for input in [
        Row::read(&result_input(12, 3_000, 400).try_into().unwrap()),
        Row {
            kind: 35,
            symbol: symbol("ABC"),
            n1: 1,
            n2: 1,
            ..Row::default()
        },
        Row {
            kind: 36,
            id: 12,
            ..Row::default()
        },
    ] {
        let call = Call::ALL.into_iter().find(|call| call.kind() == input.kind);
        let call = call.unwrap();
        assert_eq!(try_call(call, &rows, &input).0, 0);
        let named = Row { n3: 1, ..input };
        assert_eq!(try_call(call, &rows, &named).0, -103);
    }
}

type Break = fn(&mut Vec<Row>, &mut Row);

/// Breaks an order of account 1, each with the status that it has on its own, in order of checking.
const BREAKS: [(Break, i32); 9] = [
    (|_, input| input.symbol = symbol("ABD"), -712),
    // A gain at rates of zero.
    (|rows, _| set(rows, TAX_RATE, |row| row.n1 = 0), -731),
    (|rows, _| set(rows, BAND, |row| row.n3 = 0), -732),
    (|rows, _| set(rows, BAND, |row| row.n2 = 119), -735),
    (|rows, _| set(rows, CHARGE, |row| row.n1 = 0), -733),
    (|rows, _| rows.retain(|row| row.kind != CHARGE), -733),
    (
        |rows, _| {
            for row in rows.iter_mut().filter(|row| row.id == 12) {
                row.id = MAX_TRADE_NUMBER;
            }
        },
        -104,
    ),
    (
        |rows, _| {
            let first = rows.iter().position(Row::is_free).unwrap();
            rows.truncate(first + 1);
        },
        -105,
    ),
    (|rows, _| rows.retain(|row| !row.is_free()), -105),
];

fn set(rows: &mut [Row], kind: u8, change: fn(&mut Row)) {
    rows.iter_mut()
        .filter(|row| row.kind == kind)
        .for_each(change);
}

fn broken(breaks: &[Break], permissions: &[Row], mut input: Row) -> i32 {
    let mut rows = sound_rows_with(permissions);
    for spoil in breaks {
        spoil(&mut rows, &mut input);
    }
    assert_eq!(sound::check(&bytes_of(&rows)), Ok(()));
    status_of(&rows, &input)
}

/// "after -711 and before -712": with each later refusal due too, and with all of them.
#[test]
fn it_comes_after_the_account_and_before_the_security() {
    let input = order_of(TMS, EXECUTOR);
    let by_owner = Row { n3: 0, ..input };
    let may = [permission(1, EXECUTOR)];
    let others = [permission(2, EXECUTOR), permission(1, OTHER)];
    for (spoil, status) in BREAKS {
        assert_eq!(broken(&[spoil], &may, input), status);
        assert_eq!(broken(&[spoil], &[], by_owner), status);
        for may_not in [&[][..], &others] {
            assert_eq!(broken(&[spoil], may_not, input), -721);
        }
    }
    // -104 and -105 both, with nothing else amiss; and all that do not exclude each other.
    let all = [0, 1, 2, 4, 6, 8].map(|at| BREAKS[at].0);
    assert_eq!(broken(&all[4..], &others, input), -721);
    assert_eq!(broken(&all, &may, input), -712);
    assert_eq!(broken(&all, &others, input), -721);
    // No account of the input's: then no executor can have a row of it.
    let nobody: Break = |_, input| input.party = 3;
    for permissions in [&[][..], &may, &others] {
        assert_eq!(broken(&[nobody], permissions, input), -711);
        for (spoil, _) in BREAKS {
            assert_eq!(broken(&[nobody, spoil], permissions, input), -711);
        }
    }
}

/// "The trade that an order adds does not bear the executor": answer and book are those of the owner's
/// order.
#[test]
fn an_executor_leaves_no_trace() {
    let rows = sound_rows_with(&[permission(1, EXECUTOR), permission(2, OTHER)]);
    for typ in TMB..=TSL {
        for flags in 0..8 {
            let by = |executor: u32| {
                let input = Row {
                    flags,
                    ..order_of(typ, executor)
                };
                try_call(Call::Order, &rows, &input)
            };
            let (status, answer, after) = by(EXECUTOR);
            assert_eq!(status, 0);
            assert_eq!((status, answer, after.clone()), by(0));
            assert_eq!(after == rows, flags & FLAG_ROLL_BACK != 0);
            let trade = after.iter().find(|r| r.kind == TRADE && r.id == 13);
            assert!(trade.is_none_or(|row| row.n3 == 0));
            let permissions = |rows: &[Row]| rows.iter().filter(|r| r.kind == PERMISSION).count();
            assert_eq!(permissions(&after), 2);
        }
    }
}

/// The other calls do not look at permissions: they answer as on a book without.
#[test]
fn other_calls_do_not_ask() {
    let inputs = [
        (Call::Result, rows_of(&result_input(12, 3_000, 400))[0]),
        (
            Call::Feed,
            Row {
                kind: 35,
                symbol: symbol("ABC"),
                n1: 2_900,
                n2: 5,
                ..Row::default()
            },
        ),
        (
            Call::Lookup,
            Row {
                kind: 36,
                id: 10,
                ..Row::default()
            },
        ),
    ];
    let rows = [permission(1, EXECUTOR), permission(2, EXECUTOR)];
    for (call, input) in inputs {
        let without = try_call(call, &sound_rows_with(&[]), &input);
        let (status, answer, mut after) = try_call(call, &sound_rows_with(&rows), &input);
        after.retain(|row| row.kind != PERMISSION);
        assert_eq!((status, answer, after), without);
    }
}

/// S1 to S3 of kind 17, each alone: all four calls refuse the book with -102, and the reason is the
/// rule and the place.
#[test]
fn books_that_are_not_sound() {
    let good = permission(1, EXECUTOR);
    let with = |change: fn(&mut Row)| {
        let mut row = good;
        change(&mut row);
        row
    };
    let mut list = vec![
        (
            vec![with(|row| row.n1 = 0)],
            Rule::S1,
            "n1 is 0: the executor, 1..999,999,999".to_string(),
        ),
        (
            vec![with(|row| row.n1 = MAX_NUMBER + 1)],
            Rule::S1,
            "n1 is 1000000000: the executor, 1..999,999,999".to_string(),
        ),
        (
            vec![with(|row| row.n1 = u32::MAX)],
            Rule::S1,
            "n1 is 4294967295: the executor, 1..999,999,999".to_string(),
        ),
        (
            vec![with(|row| row.party = 0)],
            Rule::S1,
            "party is 0: the account, 1..999,999,999".to_string(),
        ),
        (
            vec![with(|row| row.party = MAX_NUMBER + 1)],
            Rule::S1,
            "party is 1000000000: the account, 1..999,999,999".to_string(),
        ),
        (
            vec![good, good],
            Rule::S2,
            "a permission with this key is at place".to_string(),
        ),
        (
            vec![permission(3, EXECUTOR)],
            Rule::S3,
            "there is no account 3".to_string(),
        ),
        // The number of a broker or of a customer is not that of an account.
        (
            vec![permission(BROKER_OF_BOTH, EXECUTOR)],
            Rule::S3,
            "there is no account 21".to_string(),
        ),
        (
            vec![permission(CUSTOMER_OF_BOTH, 1)],
            Rule::S3,
            "there is no account 31".to_string(),
        ),
    ];
    for (field, at, len) in PLACES {
        for byte in at..at + len {
            if used(PERMISSION).contains(&field) {
                continue;
            }
            let mut bytes = good.write();
            bytes[byte] = 1;
            let why = ": a permission does not use it, so it is zero".to_string();
            list.push((vec![Row::read(&bytes)], Rule::S1, why));
        }
    }
    assert_eq!(list.len(), 9 + RECORD - 1 - 4 - 4);
    for (more, rule, why) in list {
        let rows = rows_with(&more);
        let book = bytes_of(&rows);
        assert_eq!(sound::check(&book), Err(rule), "{more:?}");
        // No account has a number out of its range.
        let nobody = rule == Rule::S1 && !ACCOUNTS.contains(&more[0].party);
        let rules = if nobody {
            &[rule, Rule::S3][..]
        } else {
            &[rule]
        };
        assert_eq!(slow::broken(&rows), rules, "{more:?}");
        let fault = explain::fault(&book).unwrap();
        let place = rows.iter().rposition(|row| row.kind == PERMISSION).unwrap();
        assert_eq!((fault.rule, fault.place), (rule, place));
        assert!(fault.why.contains(&why), "{}", fault.why);
        for call in Call::ALL {
            let input = Row {
                kind: call.kind(),
                ..Row::default()
            };
            assert_eq!(try_call(call, &rows, &input).0, -102);
        }
    }
    let said = explain::book(&bytes_of(&rows_with(&[permission(3, EXECUTOR)]))).1;
    assert!(
        said.contains("\nexecutor 7 may trade for account 3\n"),
        "{said}"
    );
    let order = order_of(TMS, MAX_NUMBER + 1);
    let (good, said) = explain::input(Call::Order, &order.write());
    assert!(!good);
    assert_eq!(
        said,
        "refused -103 n3 record 0\n\
         order: market sell of 120 ABC for account 1 by executor 1000000000, flags 0, bid 0.00, time 350\n\
         n3 is 1000000000: the executor, 0 for the owner, else 1..999,999,999\n"
    );
}

/// Keys differ in the account or in the executor; and no executor needs to be there as anything else.
#[test]
fn books_that_are_sound() {
    for more in [
        vec![permission(1, EXECUTOR), permission(2, EXECUTOR)],
        vec![permission(1, EXECUTOR), permission(1, OTHER)],
        vec![permission(1, 2), permission(2, 1)],
        vec![permission(1, 1), permission(2, 2)],
        vec![
            permission(1, BROKER_OF_BOTH),
            permission(1, CUSTOMER_OF_BOTH),
        ],
        vec![permission(1, 1), permission(1, 2), permission(1, 3)],
        vec![permission(1, 1), permission(1, MAX_NUMBER)],
    ] {
        sound_rows_with(&more);
    }
}
