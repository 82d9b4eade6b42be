//! -732, -735, -841 and -842 as 2026-04 has them: "The search must say which: a rate, a band with rate
//! zero, or no band." Orders and results of all types are tried on books that differ in their bands
//! alone, for a customer of tier 1 and a security of exchange 1.

use second::calls::BandSearch::{self, *};
use second::calls::{self, Call};
use second::figures::{result_input, Figure};
use second::record::*;
use second::sound;

/// The shares that most tests trade, at this price.
const SHARES: u32 = 120;
const PRICE: u32 = 3_000;

fn band(typ: u8, tier: u8, exchange: u8, from: u32, to: u32, rate: u32) -> Row {
    Row {
        kind: BAND,
        typ,
        status: tier,
        flags: exchange,
        n1: from,
        n2: to,
        n3: rate,
        ..Row::default()
    }
}

/// The book of the figures without lots, trade 12 of this type and so many shares, and these bands.
fn rows_with(typ: u8, shares: u32, bands: &[Row]) -> Vec<Row> {
    let mut figure = Figure::sell(shares, false).with_lots(&[]);
    figure.typ = typ;
    let mut rows = rows_of(&figure.book());
    rows.retain(|row| row.kind != BAND);
    rows.extend(bands);
    assert_eq!(sound::check(&bytes_of(&rows)), Ok(()));
    rows
}

/// An order of account 1 for "ABC".
fn order_of(typ: u8, shares: u32) -> Row {
    Row {
        kind: 33,
        typ,
        party: 1,
        symbol: symbol("ABC"),
        n1: shares,
        n2: if typ <= TMS { 0 } else { PRICE },
        ..Row::default()
    }
}

fn result_of_12() -> Row {
    rows_of(&result_input(12, PRICE, 400))[0]
}

/// The status of a call and its answer. A refusal leaves the book as found and has its status in the
/// answer alone; an accepted call leaves a sound book.
fn try_call(call: Call, rows: &[Row], input: &Row) -> (i32, Row, Vec<Row>) {
    let mut after = bytes_of(rows);
    let mut answer = [0xAA; RECORD];
    let status = call.run(&mut after, &input.write(), &mut answer);
    let answer = Row::read(&answer);
    if status == 0 {
        assert_eq!(sound::check(&after), Ok(()));
    } else {
        let refusal = Row {
            n5: status as u32,
            ..Row::default()
        };
        assert_eq!((answer, &after), (refusal, &bytes_of(rows)));
    }
    (status, answer, rows_of(&after))
}

fn status_of(call: Call, rows: &[Row], input: &Row) -> i32 {
    try_call(call, rows, input).0
}

/// Tries an order, with and without roll back, and a result of each type on the bands for that type.
fn expect_for(shares: u32, bands_for: impl Fn(u8) -> Vec<Row>, found: BandSearch) {
    for typ in TMB..=TSL {
        let mut bands = bands_for(typ);
        // In both orders of their places.
        for _ in 0..2 {
            bands.reverse();
            let rows = rows_with(typ, shares, &bands);
            expect_order(&rows, order_of(typ, shares), found);
            expect_result(&rows, shares, found);
        }
    }
}

fn expect(bands_for: impl Fn(u8) -> Vec<Row>, found: BandSearch) {
    expect_for(SHARES, bands_for, found);
}

fn expect_order(rows: &[Row], mut input: Row, found: BandSearch) {
    for flags in [0, FLAG_ROLL_BACK] {
        input.flags = flags;
        let (status, answer, _) = try_call(Call::Order, rows, &input);
        match found {
            NoBand => assert_eq!(status, -735),
            ZeroRate => assert_eq!(status, -732),
            Rate(rate) => assert_eq!((status, answer.n2), (0, rate)),
        }
    }
}

fn expect_result(rows: &[Row], shares: u32, found: BandSearch) {
    let (status, _, after) = try_call(Call::Result, rows, &result_of_12());
    match found {
        NoBand => assert_eq!(status, -842),
        ZeroRate => assert_eq!(status, -841),
        Rate(rate) => {
            assert_eq!(status, 0);
            let trade = after.iter().find(|r| r.kind == TRADE && r.id == 12);
            // Halves are rounded up.
            let fraction = u64::from(rate) * u64::from(shares) * u64::from(PRICE);
            assert_eq!(trade.unwrap().m1, (fraction + 5_000) / 10_000);
        }
    }
}

/// Every band of another type, tier or exchange, for all shares at this rate.
fn all_others(typ: u8, rate: u32) -> Vec<Row> {
    let mut bands = Vec::new();
    for other in TMB..=TSL {
        for tier in 1..=3 {
            for exchange in 1..=4 {
                if (other, tier, exchange) != (typ, 1, 1) {
                    bands.push(band(other, tier, exchange, 1, MAX_SHARES, rate));
                }
            }
        }
    }
    bands
}

#[test]
fn a_band_has_a_rate() {
    for rate in [1, 50, MAX_BAND_RATE] {
        for (from, to) in [(1, 1_000), (1, 120), (120, 1_000), (120, 120), (119, 121)] {
            expect(|typ| vec![band(typ, 1, 1, from, to, rate)], Rate(rate));
        }
    }
}

#[test]
fn a_band_has_rate_zero() {
    for (from, to) in [(1, 1_000), (1, 120), (120, 1_000), (120, 120), (119, 121)] {
        expect(|typ| vec![band(typ, 1, 1, from, to, 0)], ZeroRate);
    }
}

#[test]
fn no_band_at_all() {
    expect(|_| Vec::new(), NoBand);
}

/// The rate of a band that is not the trade's own does not matter.
#[test]
fn bands_of_another_type_tier_or_exchange() {
    for rate in [0, 50] {
        for tier in [2, 3] {
            expect(|typ| vec![band(typ, tier, 1, 1, 1_000, rate)], NoBand);
        }
        for exchange in [2, 3, 4] {
            expect(|typ| vec![band(typ, 1, exchange, 1, 1_000, rate)], NoBand);
        }
        for step in 1..=4 {
            let other = |typ: u8| (typ - 1 + step) % 5 + 1;
            expect(|typ| vec![band(other(typ), 1, 1, 1, 1_000, rate)], NoBand);
        }
        expect(|typ| all_others(typ, rate), NoBand);
        for (own, found) in [(0, ZeroRate), (70, Rate(70))] {
            let with_own = |typ: u8| {
                let mut bands = all_others(typ, rate);
                bands.push(band(typ, 1, 1, 1, 1_000, own));
                bands
            };
            expect(with_own, found);
        }
    }
}

#[test]
fn shares_beside_a_band() {
    for rate in [0, 50] {
        for (from, to) in [(121, 121), (121, 999_999), (1, 119), (119, 119)] {
            expect(|typ| vec![band(typ, 1, 1, from, to, rate)], NoBand);
        }
        // At both ends of all shares.
        let one = |from: u32, to: u32| move |typ: u8| vec![band(typ, 1, 1, from, to, rate)];
        let found = if rate == 0 { ZeroRate } else { Rate(rate) };
        expect_for(1, one(1, 1), found);
        expect_for(1, one(2, MAX_SHARES), NoBand);
        expect_for(MAX_SHARES, one(MAX_SHARES, MAX_SHARES), found);
        expect_for(MAX_SHARES, one(1, MAX_SHARES - 1), NoBand);
    }
}

/// The band that holds the shares decides, whatever the rate of the one beside it.
#[test]
fn two_bands_side_by_side() {
    let found = |rate: u32| if rate == 0 { ZeroRate } else { Rate(rate) };
    for (first, second) in [(50, 70), (50, 0), (0, 70), (0, 0)] {
        let two = |last: u32, next: u32| {
            move |typ: u8| {
                vec![
                    band(typ, 1, 1, 1, last, first),
                    band(typ, 1, 1, next, 1_000, second),
                ]
            }
        };
        expect(two(120, 121), found(first));
        expect(two(119, 120), found(second));
        // Gaps of one share and of three.
        expect(two(119, 121), NoBand);
        expect(two(118, 122), NoBand);
        // A gap that the shares are just below or just above.
        expect(two(120, 122), found(first));
        expect(two(118, 120), found(second));
    }
}

type Break = fn(&mut Vec<Row>, &mut Row);

/// The two states of the bands that are refused, with the statuses of order and result.
fn refused_bands() -> [(Vec<Row>, i32, i32); 2] {
    let zero = (TMB..=TSL).map(|typ| band(typ, 1, 1, 1, 1_000, 0));
    [(zero.collect(), -732, -841), (Vec::new(), -735, -842)]
}

/// "at the places of -732 and -841": what comes before is said first.
#[test]
fn earlier_refusals_come_first() {
    let no_account: Break = |_, input| input.party = 2;
    let no_security: Break = |_, input| input.symbol = symbol("ABD");
    let no_trade: Break = |_, input| input.id = 13;
    let not_submitted: Break = |rows, input| {
        // A pending trade with its request.
        for row in rows.iter_mut().filter(|row| row.id == 12) {
            row.status = PNDG;
        }
        let trade = *rows.iter().find(|r| r.kind == TRADE).unwrap();
        let place = rows.iter().position(Row::is_free).unwrap();
        rows[place] = Row {
            kind: REQUEST,
            typ: trade.typ,
            party: 21,
            id: 12,
            symbol: trade.symbol,
            n1: trade.n1,
            n2: trade.n2,
            ..Row::default()
        };
        input.id = 12;
    };
    for (bands, _, _) in refused_bands() {
        let rows = rows_with(TSL, SHARES, &bands);
        let cases = [
            (Call::Order, no_account, order_of(TMS, SHARES), -711),
            (Call::Order, no_security, order_of(TMS, SHARES), -712),
            (Call::Result, no_trade, result_of_12(), -811),
            (Call::Result, not_submitted, result_of_12(), -812),
        ];
        for (call, spoil, mut input, status) in cases {
            let mut rows = rows.clone();
            spoil(&mut rows, &mut input);
            assert_eq!(status_of(call, &rows, &input), status);
        }
    }
    // A gain, at rates of zero.
    for (bands, _, _) in refused_bands() {
        let mut rows = rows_of(&Figure::sell(SHARES, false).with_rate(0).book());
        rows.retain(|row| row.kind != BAND);
        rows.extend(bands);
        let order = order_of(TMS, SHARES);
        assert_eq!(status_of(Call::Order, &rows, &order), -731);
        assert_eq!(status_of(Call::Result, &rows, &result_of_12()), -831);
    }
}

/// "at the places of -732 and -841": what comes after is not said, one at a time and all at once.
#[test]
fn later_refusals_come_after() {
    let no_charge: Break = |rows, _| rows.retain(|row| row.kind != CHARGE);
    let charge_zero: Break = |rows, _| {
        let charges = rows.iter_mut().filter(|row| row.kind == CHARGE);
        charges.for_each(|row| row.n1 = 0);
    };
    let last_number: Break = |rows, input| {
        for row in rows.iter_mut().filter(|row| row.id == 12) {
            row.id = MAX_TRADE_NUMBER;
        }
        if input.kind == 34 {
            input.id = MAX_TRADE_NUMBER;
        }
    };
    let last_broker_trade: Break = |rows, _| {
        let mut brokers = rows.iter_mut().filter(|row| row.kind == BROKER);
        brokers.next().unwrap().n1 = MAX_BROKER_TRADES;
    };
    let highest_balance: Break = |rows, _| {
        let mut accounts = rows.iter_mut().filter(|row| row.kind == ACCOUNT);
        accounts.next().unwrap().m1 = MAX_MONEY as u64;
    };
    let no_room: Break = |rows, _| rows.retain(|row| !row.is_free());
    // Each with the status that it has on its own: of an order, and of a result.
    let breaks = [
        (no_charge, -733, 0),
        (charge_zero, -733, 0),
        (last_number, -104, 0),
        (last_broker_trade, 0, -104),
        (highest_balance, 0, -104),
        (no_room, -105, -105),
    ];
    let good: Vec<Row> = (TMB..=TSL)
        .map(|typ| band(typ, 1, 1, 1, 1_000, 50))
        .collect();
    let broken = |breaks: &[Break], call: Call, bands: &[Row]| {
        let mut rows = rows_with(TMS, SHARES, bands);
        let mut input = match call {
            Call::Order => order_of(TMS, SHARES),
            _ => result_of_12(),
        };
        for spoil in breaks {
            spoil(&mut rows, &mut input);
        }
        status_of(call, &rows, &input)
    };
    for (spoil, of_order, of_result) in breaks {
        assert_eq!(broken(&[spoil], Call::Order, &good), of_order);
        assert_eq!(broken(&[spoil], Call::Result, &good), of_result);
    }
    let all = breaks.map(|(spoil, _, _)| spoil);
    for (bands, of_order, of_result) in refused_bands() {
        for some in all.chunks(1).chain([&all[..]]) {
            assert_eq!(broken(some, Call::Order, &bands), of_order);
            assert_eq!(broken(some, Call::Result, &bands), of_result);
        }
    }
}

/// A result searches at its own time, whatever band its order found.
#[test]
fn bands_may_change_before_the_result() {
    let good = band(TMS, 1, 1, 1, 1_000, 50);
    for (now, status) in [
        (good, 0),
        (Row { n3: 0, ..good }, -841),
        (Row { n1: 121, ..good }, -842),
        (Row::default(), -842),
    ] {
        let mut book = bytes_of(&rows_with(TMS, SHARES, &[good]));
        let order = order_of(TMS, SHARES).write();
        let mut answer = [0; RECORD];
        assert_eq!(calls::order(&mut book, &order, &mut answer), 0);
        let number = Row::read(&answer).id;
        let mut rows = rows_of(&book);
        let place = rows.iter().position(|row| *row == good).unwrap();
        rows[place] = now;
        let input = rows_of(&result_input(number, PRICE, 400))[0];
        assert_eq!(status_of(Call::Result, &rows, &input), status);
    }
}
