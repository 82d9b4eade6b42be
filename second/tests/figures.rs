//! "Figures to check against" of 01: P1 to P9, the two rows on free places and the tally picture; and a
//! row beside them for the executors of 2026-01.

use second::calls;
use second::figures::{result_input, Figure};
use second::record::*;
use second::{sound, tally};

/// What a result at this price gives: status, answer and the rows of the book afterwards.
fn result_of(figure: &Figure, price: u32) -> (i32, Row, Vec<Row>) {
    let mut book = figure.book();
    assert_eq!(sound::check(&book), Ok(()));
    let before = book.clone();
    let mut answer = [0xAA; RECORD];
    let status = calls::result(&mut book, &result_input(12, price, 400), &mut answer);
    if status == 0 {
        assert_eq!(sound::check(&book), Ok(()));
    } else {
        assert_eq!(book, before);
    }
    (status, Row::read(&answer), rows_of(&book))
}

fn find(rows: &[Row], kind: u8, id: u64) -> Option<Row> {
    rows.iter()
        .find(|row| row.kind == kind && row.id == id)
        .copied()
}

fn lot(rows: &[Row], id: u64) -> Option<i64> {
    find(rows, LOT, id).map(|row| row.signed_m1())
}

fn summary(rows: &[Row]) -> Option<i64> {
    rows.iter()
        .find(|row| row.kind == SUMMARY)
        .map(|row| row.signed_m1())
}

fn count(rows: &[Row], kind: u8) -> usize {
    rows.iter().filter(|row| row.kind == kind).count()
}

/// Checks tax, commission, settlement and balance of an accepted result, wherever they stand.
fn expect(answer: &Row, rows: &[Row], tax: u64, commission: u64, settlement: i64) {
    let balance = 1_000_000 + settlement;
    assert_eq!(answer.kind, 34);
    assert_eq!(answer.party, 1);
    assert_eq!(answer.id, 12);
    assert_eq!(answer.tax(), tax);
    assert_eq!(answer.signed_m1(), balance);
    assert_eq!(answer.signed_m2(), settlement);
    let trade = find(rows, TRADE, 12).unwrap();
    assert_eq!((trade.status, trade.m1, trade.m2), (3, commission, tax));
    let due = find(rows, SETTLEMENT, 12).unwrap();
    assert_eq!((due.flags, due.signed_m1()), (1, settlement));
    assert_eq!(due.time, 400 + 172_800);
    assert_eq!(find(rows, CASH, 12).unwrap().signed_m1(), settlement);
    let account = rows.iter().find(|row| row.kind == ACCOUNT).unwrap();
    assert_eq!(account.signed_m1(), balance);
    let broker = rows.iter().find(|row| row.kind == BROKER).unwrap();
    assert_eq!((broker.n1, broker.m1), (1, commission));
}

#[test]
fn p1_120_fifo() {
    let (status, answer, rows) = result_of(&Figure::sell(120, false), 3_000);
    assert_eq!(status, 0);
    expect(&answer, &rows, 22_000, 1_800, 335_700);
    assert_eq!(answer.signed_m1(), 1_335_700);
    assert_eq!((lot(&rows, 10), lot(&rows, 11)), (None, Some(30)));
    assert_eq!(summary(&rows), Some(30));
}

#[test]
fn p2_120_lifo() {
    let (status, answer, rows) = result_of(&Figure::sell(120, true), 3_000);
    assert_eq!(status, 0);
    expect(&answer, &rows, 19_000, 1_800, 338_700);
    assert_eq!((lot(&rows, 10), lot(&rows, 11)), (Some(30), None));
    assert_eq!(summary(&rows), Some(30));
}

#[test]
fn p3_150() {
    let (status, answer, rows) = result_of(&Figure::sell(150, false), 3_000);
    assert_eq!(status, 0);
    expect(&answer, &rows, 25_000, 2_250, 422_250);
    assert_eq!(count(&rows, LOT), 0);
    assert_eq!(summary(&rows), None);
}

#[test]
fn p4_200() {
    let (status, answer, rows) = result_of(&Figure::sell(200, false), 3_000);
    assert_eq!(status, 0);
    expect(&answer, &rows, 25_000, 3_000, 571_500);
    assert_eq!(count(&rows, LOT), 1);
    assert_eq!(lot(&rows, 12), Some(-50));
    assert_eq!(summary(&rows), Some(-50));
    let opened = find(&rows, LOT, 12).unwrap();
    assert_eq!((opened.n1, opened.time, opened.party), (3_000, 400, 1));
}

#[test]
fn p5_buy_over_short() {
    let (status, answer, rows) = result_of(&Figure::buy_over_short(), 2_900);
    assert_eq!(status, 0);
    expect(&answer, &rows, 1_000, 1_160, -234_660);
    assert_eq!(count(&rows, LOT), 1);
    assert_eq!(lot(&rows, 12), Some(30));
    assert_eq!(summary(&rows), Some(30));
}

#[test]
fn p6_commission_rounds_halves_up() {
    assert_eq!(calls::commission(50, 1, 100), 1);
    assert_eq!(calls::commission(50, 1, 99), 0);
    for (price, commission) in [(100, 1), (99, 0)] {
        let (status, _, rows) = result_of(&Figure::sell(1, false), price);
        assert_eq!(status, 0);
        assert_eq!(find(&rows, TRADE, 12).unwrap().m1, commission);
    }
}

/// P7 as 2026-02 has it, and beside it a gain that rates of zero refuse.
#[test]
fn p7_gain_of_three_and_of_two() {
    // Price, rates, and the tax if it is accepted.
    let cases = [
        (2_003, 20_000, Some(1)),
        (2_002, 20_000, Some(0)),
        (2_002, 0, None),
    ];
    for (price, rates, tax) in cases {
        let figure = Figure::sell_one().with_rate(rates);
        let (status, answer, rows) = result_of(&figure, price);
        match tax {
            Some(tax) => {
                assert_eq!(status, 0);
                let settlement = i64::from(price) - 500 - 10 - tax as i64;
                expect(&answer, &rows, tax, 10, settlement);
            }
            None => {
                let refused = Row {
                    n5: -831i32 as u32,
                    ..Row::default()
                };
                assert_eq!((status, answer), (-831, refused));
            }
        }
        // The same by an order at the bid.
        let (status, answer) = order(&mut figure.book(), TLS, 1, price, b"ABC");
        match tax {
            Some(tax) => assert_eq!((status, answer.tax()), (0, tax)),
            None => assert_eq!(status, -731),
        }
    }
}

/// An order in the book of the figures, by the owner.
fn order(book: &mut [u8], typ: u8, shares: u32, bid: u32, letters: &[u8]) -> (i32, Row) {
    order_by(book, 0, typ, shares, bid, letters)
}

fn order_by(
    book: &mut [u8],
    executor: u32,
    typ: u8,
    shares: u32,
    bid: u32,
    letters: &[u8],
) -> (i32, Row) {
    let mut input = Row {
        kind: 33,
        typ,
        flags: 1,
        party: 1,
        n1: shares,
        n2: bid,
        n3: executor,
        time: 350,
        ..Row::default()
    };
    input.symbol[..letters.len()].copy_from_slice(letters);
    let mut answer = [0xAA; RECORD];
    let status = calls::order(book, &input.write(), &mut answer);
    (status, Row::read(&answer))
}

fn feed(book: &mut [u8], symbol: [u8; 8], price: u32) -> (i32, Row) {
    let input = Row {
        kind: 35,
        symbol,
        n1: price,
        n2: 10,
        time: 360,
        ..Row::default()
    };
    let mut answer = [0xAA; RECORD];
    let status = calls::feed(book, &input.write(), &mut answer);
    (status, Row::read(&answer))
}

#[test]
fn p8_a_limit_buy_at_its_bid() {
    for (price, submitted) in [(500, 1), (501, 0)] {
        let mut book = Figure::sell(120, false).book();
        let (status, answer) = order(&mut book, TLB, 10, 500, b"ABC");
        assert_eq!((status, answer.id), (0, 13));
        assert_eq!(count(&rows_of(&book), REQUEST), 1);
        let (status, answer) = feed(&mut book, symbol("ABC"), price);
        assert_eq!((status, answer.n1, answer.n2), (0, 1, submitted));
        let rows = rows_of(&book);
        let trade = find(&rows, TRADE, 13).unwrap();
        if submitted == 1 {
            assert_eq!((trade.status, trade.time), (SBMT, 360));
            assert_eq!(count(&rows, REQUEST), 0);
        } else {
            assert_eq!((trade.status, trade.time), (PNDG, 350));
            assert_eq!(count(&rows, REQUEST), 1);
        }
        assert_eq!(sound::check(&book), Ok(()));
    }
}

#[test]
fn p9_a_symbol_of_seven_and_of_eight_letters() {
    let mut book = Figure::sell(120, false).book();
    let mut rows = rows_of(&book);
    let free = rows.iter().position(Row::is_free).unwrap();
    rows[free] = Row {
        kind: SECURITY,
        symbol: symbol("ABCDEFG"),
        typ: 1,
        n1: 100,
        ..Row::default()
    };
    book.copy_from_slice(&bytes_of(&rows));
    assert_eq!(order(&mut book, TMB, 10, 0, b"ABCDEFG").0, 0);
    assert_eq!(order(&mut book, TMB, 10, 0, b"ABCDEFGH").0, -103);
    assert_eq!(feed(&mut book, symbol("ABCDEFG"), 5).0, 0);
    assert_eq!(feed(&mut book, symbol("ABCDEFGH"), 5).0, -103);
    // The same in a row of the book.
    rows[free].symbol = symbol("ABCDEFGH");
    assert_eq!(sound::check(&bytes_of(&rows)), Err(sound::Rule::S1));
}

/// Beside the table, for 2026-01: in the book of P1 with a permission of account 1 for executor 7, an
/// order by executor 7 or by the owner is accepted; one by executor 8 is -721.
#[test]
fn an_executor_with_a_row_and_one_without() {
    for (executor, status) in [(7, 0), (0, 0), (8, -721)] {
        let mut rows = rows_of(&Figure::sell(120, false).book());
        let free = rows.iter().position(Row::is_free).unwrap();
        rows[free] = Row {
            kind: 17,
            party: 1,
            n1: 7,
            ..Row::default()
        };
        let mut book = bytes_of(&rows);
        assert_eq!(sound::check(&book), Ok(()));
        let (found, answer) = order_by(&mut book, executor, TMS, 120, 0, b"ABC");
        assert_eq!(found, status);
        if status == 0 {
            // As in P1: 110,000 gained, and rates 20,000.
            assert_eq!((answer.id, answer.tax()), (13, 22_000));
            assert_eq!(find(&rows_of(&book), TRADE, 13).unwrap().m1, 1_800);
        } else {
            assert_eq!(answer.n5 as i32, -721);
            assert_eq!(rows_of(&book), rows);
        }
    }
}

#[test]
fn five_places_free_and_four() {
    let figure = Figure::sell(120, false).with_free(5);
    let (status, answer, rows) = result_of(&figure, 3_000);
    assert_eq!(status, 0);
    expect(&answer, &rows, 22_000, 1_800, 335_700);
    // Rows stand on the places free at entry, in 01's order; the place of lot 10 is free now.
    let last = rows.len() - 5;
    let kinds: Vec<u8> = rows[last..].iter().map(|row| row.kind).collect();
    let expected = [LOT_HISTORY, LOT_HISTORY, HISTORY, SETTLEMENT, CASH];
    assert_eq!(kinds, expected);
    assert_eq!(rows.iter().filter(|row| row.is_free()).count(), 1);
    let steps = [(10, 100, 0), (11, 50, 30)];
    for (row, (id, before, after)) in rows[last..].iter().zip(steps) {
        assert_eq!((row.id, row.m2), (id, 12));
        assert_eq!((row.signed_n1(), row.signed_n2()), (before, after));
    }

    let figure = Figure::sell(120, false).with_free(4);
    let (status, answer, _) = result_of(&figure, 3_000);
    assert_eq!(status, -105);
    assert_eq!(answer.n5 as i32, -105);
}

/// All rows of P4, which has every step, byte for byte.
#[test]
fn p4_adds_its_rows_in_order() {
    let figure = Figure::sell(200, false);
    let before = rows_of(&figure.book());
    let (_, _, rows) = result_of(&figure, 3_000);
    let free = before.iter().position(Row::is_free).unwrap();
    let history = |id: u64, n1: i32, n2: i32| Row {
        kind: 14,
        id,
        m2: 12,
        n1: n1 as u32,
        n2: n2 as u32,
        ..Row::default()
    };
    let added = [
        history(10, 100, 0),
        history(11, 50, 0),
        history(12, 0, -50),
        Row {
            kind: 12,
            party: 1,
            id: 12,
            symbol: symbol("ABC"),
            n1: 3_000,
            m1: -50i64 as u64,
            time: 400,
            ..Row::default()
        },
        Row {
            kind: 11,
            id: 12,
            status: 3,
            time: 400,
            ..Row::default()
        },
        Row {
            kind: 15,
            flags: 1,
            id: 12,
            m1: 571_500,
            time: 173_200,
            ..Row::default()
        },
        Row {
            kind: 16,
            id: 12,
            m1: 571_500,
            time: 400,
            ..Row::default()
        },
    ];
    assert_eq!(rows[free..free + added.len()], added);
    for row in &rows[free + added.len()..] {
        assert!(row.is_free());
    }
    // And of those that were there, the lots go and five rows change.
    for (old, new) in before[..free].iter().zip(&rows) {
        let mut expected = *old;
        match old.kind {
            LOT => expected = Row::default(),
            SUMMARY => expected.m1 = -50i64 as u64,
            BROKER => (expected.n1, expected.m1) = (1, 3_000),
            ACCOUNT => expected.m1 = 1_571_500,
            TRADE if old.id == 12 => {
                expected.status = 3;
                expected.n3 = 3_000;
                expected.m1 = 3_000;
                expected.m2 = 25_000;
                expected.time = 400;
            }
            _ => {}
        }
        assert_eq!(*new, expected);
    }
}

/// An order's answer and its three rows, byte for byte.
#[test]
fn an_order_adds_trade_history_and_request() {
    let mut book = Figure::sell(120, false).book();
    let before = rows_of(&book);
    let free = before.iter().position(Row::is_free).unwrap();
    let (status, answer) = order(&mut book, TLS, 120, 3_000, b"ABC");
    assert_eq!(status, 0);
    let expected = Row {
        kind: 33,
        id: 13,
        symbol: 22_000u64.to_le_bytes(),
        n1: 500,
        n2: 50,
        n3: 3_000,
        m1: 100 * 2_000 + 20 * 2_500,
        m2: 120 * 3_000,
        ..Row::default()
    };
    assert_eq!(answer, expected);
    let trade = Row {
        kind: 9,
        typ: TLS,
        status: 1,
        flags: 1,
        party: 1,
        id: 13,
        symbol: symbol("ABC"),
        n1: 120,
        n2: 3_000,
        n4: 500,
        m1: 1_800,
        time: 350,
        ..Row::default()
    };
    let history = Row {
        kind: 11,
        status: 1,
        id: 13,
        time: 350,
        ..Row::default()
    };
    let request = Row {
        kind: 10,
        typ: TLS,
        party: 21,
        id: 13,
        symbol: symbol("ABC"),
        n1: 120,
        n2: 3_000,
        ..Row::default()
    };
    let mut rows = before;
    rows[free..free + 3].copy_from_slice(&[trade, history, request]);
    assert_eq!(rows_of(&book), rows);
}

/// "Subtracting tax from the settlement for tax status 2, which only records it", and status 0.
#[test]
fn tax_statuses() {
    for (tax_status, tax, settlement) in
        [(0, 0, 357_700), (1, 22_000, 335_700), (2, 22_000, 357_700)]
    {
        let mut rows = rows_of(&Figure::sell(120, false).book());
        let account = rows.iter_mut().find(|row| row.kind == ACCOUNT).unwrap();
        account.typ = tax_status;
        let mut book = bytes_of(&rows);
        let mut answer = [0; RECORD];
        let input = result_input(12, 3_000, 400);
        assert_eq!(calls::result(&mut book, &input, &mut answer), 0);
        expect(&Row::read(&answer), &rows_of(&book), tax, 1_800, settlement);
    }
}

/// "Reading a symbol as ended by its length alone, so "ABC" with a stray later byte equals "ABC"."
#[test]
fn a_stray_byte_in_a_symbol_is_refused() {
    let mut book = Figure::sell(120, false).book();
    assert_eq!(order(&mut book, TMB, 10, 0, b"ABC\0X").0, -103);
    assert_eq!(order(&mut book, TMB, 10, 0, b"ABC\0\0\0\0X").0, -103);
}

#[test]
fn the_tally_picture() {
    let text = tally::text(&Figure::sell(120, false).book());
    assert_eq!(
        text,
        "TMB 0 0 2\nTMS 0 1 0\nTLB 0 0 0\nTLS 0 0 0\nTSL 0 0 0\n"
    );
    assert_eq!(tally::text(&[]), "refused -101\n");
    assert_eq!(tally::text(&[0; 63]), "refused -101\n");
    assert_eq!(tally::text(&[1; 64]), "refused -102\n");
    assert_eq!(tally::text(&vec![0; 64 * 1_025]), "refused -101\n");
    let none = "TMB 0 0 0\nTMS 0 0 0\nTLB 0 0 0\nTLS 0 0 0\nTSL 0 0 0\n";
    assert_eq!(tally::text(&vec![0; 64 * 1_024]), none);
}
