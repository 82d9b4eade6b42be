//! Ways to break a sound book, each aimed at one rule.

// All mutations have one type, and some of them make the book longer.
#![allow(clippy::ptr_arg)]

use crate::record::*;
use crate::rng::Rng;
use crate::sound::Rule;

/// Changes the rows; false if this book has nothing to change so (the rows are then as before).
pub type Change = fn(&mut Rng, &mut Vec<Row>) -> bool;

pub struct Mutation {
    pub name: &'static str,
    /// The first rule that fails afterwards.
    pub rule: Rule,
    pub change: Change,
}

/// Applies one mutation to a sound book.
pub fn apply(rng: &mut Rng, mutation: &Mutation, book: &mut Vec<u8>) -> bool {
    let mut rows = rows_of(book);
    let done = (mutation.change)(rng, &mut rows);
    if done {
        *book = bytes_of(&rows);
    }
    done
}

/// Breaks a sound book by a random mutation, or by random byte flips which may leave it sound.
pub fn any(rng: &mut Rng, book: &mut Vec<u8>) {
    if rng.chance(15) {
        flip(rng, book);
        return;
    }
    // A rule first and then one of its mutations, else S1 with its many would crowd out the rest.
    let rule = *rng.pick(&Rule::ALL);
    of_rule(rng, rule, book);
}

/// Breaks this rule, unless the book has nothing to break it with. Gives the mutation's name.
pub fn of_rule(rng: &mut Rng, rule: Rule, book: &mut Vec<u8>) -> Option<&'static str> {
    let mut list: Vec<&Mutation> = ALL.iter().filter(|m| m.rule == rule).collect();
    rng.shuffle(&mut list);
    for mutation in list {
        if apply(rng, mutation, book) {
            return Some(mutation.name);
        }
    }
    None
}

/// Changes one to four random bits, somewhere.
pub fn flip(rng: &mut Rng, book: &mut [u8]) {
    for _ in 0..rng.between(1, 4) {
        let at = rng.index(book.len());
        book[at] ^= 1 << rng.below(8);
    }
}

/// A book of a length that is -101. Only a large one is made too long, to keep small cases small.
pub fn wrong_book_length(rng: &mut Rng, mut book: Vec<u8>) -> Vec<u8> {
    if book.len() > 2_000 * RECORD && rng.chance(50) {
        book.resize((MAX_RECORDS + 1) * RECORD, 0);
        return book;
    }
    match rng.below(4) {
        0 => Vec::new(),
        1 => {
            book.pop();
            book
        }
        2 => {
            book.push(0);
            book
        }
        _ => {
            let short = rng.between(1, RECORD as u64 - 1) as usize;
            book.truncate(book.len() - short);
            book
        }
    }
}

// Helpers.

/// The place of a random row with this property.
fn some(rng: &mut Rng, rows: &[Row], good: impl Fn(&Row) -> bool) -> Option<usize> {
    let places: Vec<usize> = (0..rows.len()).filter(|p| good(&rows[*p])).collect();
    rng.pick_any(&places).copied()
}

/// Puts a row on a free place, or after all others where a book may be longer.
fn put(rng: &mut Rng, rows: &mut Vec<Row>, row: Row) -> bool {
    if let Some(place) = some(rng, rows, Row::is_free) {
        rows[place] = row;
        return true;
    }
    if rows.len() < MAX_RECORDS {
        rows.push(row);
        return true;
    }
    false
}

/// Changes a random row that has this property.
fn alter(
    rng: &mut Rng,
    rows: &mut [Row],
    good: impl Fn(&Row) -> bool,
    change: impl Fn(&mut Row),
) -> bool {
    match some(rng, rows, good) {
        Some(place) => {
            change(&mut rows[place]);
            true
        }
        None => false,
    }
}

/// Removes a random row that has this property.
fn remove(rng: &mut Rng, rows: &mut [Row], good: impl Fn(&Row) -> bool) -> bool {
    alter(rng, rows, good, |row| *row = Row::default())
}

fn is(kind: u8) -> impl Fn(&Row) -> bool {
    move |row| row.kind == kind
}

fn trade_with(status: u8) -> impl Fn(&Row) -> bool {
    move |row| row.kind == TRADE && row.status == status
}

/// A party number that no row of this kind has.
fn no_party(rows: &[Row], kind: u8) -> u32 {
    let free = |number: &u32| !rows.iter().any(|r| r.kind == kind && r.party == *number);
    (1..).find(free).unwrap()
}

/// A trade number that no trade has.
fn no_trade(rows: &[Row]) -> u64 {
    let free = |number: &u64| !rows.iter().any(|r| r.kind == TRADE && r.id == *number);
    (1..).find(free).unwrap()
}

/// A symbol that no security has.
fn no_symbol(rows: &[Row]) -> [u8; 8] {
    let free = |s: &[u8; 8]| !rows.iter().any(|r| r.kind == SECURITY && r.symbol == *s);
    (0..10_000)
        .map(|number| symbol(&format!("X{number}")))
        .find(free)
        .unwrap()
}

/// The fields that 01 lists for each kind.
pub fn used(kind: u8) -> &'static [Field] {
    use Field::*;
    match kind {
        BROKER => &[Kind, Party, N1, M1],
        CUSTOMER => &[Kind, Party, Typ],
        TAX_RATE => &[Kind, Party, N1],
        CUSTOMER_RATE => &[Kind, Party, N1],
        ACCOUNT => &[Kind, Party, N1, N2, Typ, M1],
        SECURITY => &[Kind, Symbol, Typ, N1, M1, Time],
        BAND => &[Kind, Typ, Status, Flags, N1, N2, N3],
        CHARGE => &[Kind, Typ, Status, N1],
        TRADE => &[
            Kind, Id, Typ, Status, Flags, Party, Symbol, N1, N2, N3, N4, M1, M2, Time,
        ],
        REQUEST => &[Kind, Id, Typ, Symbol, N1, N2, Party],
        HISTORY => &[Kind, Id, Status, Time],
        LOT => &[Kind, Id, Party, Symbol, N1, M1, Time],
        SUMMARY => &[Kind, Party, Symbol, M1],
        LOT_HISTORY => &[Kind, Id, M2, N1, N2],
        SETTLEMENT => &[Kind, Id, Flags, M1, Time],
        CASH => &[Kind, Id, M1, Time],
        PERMISSION => &[Kind, Party, N1],
        _ => unreachable!("the book was sound"),
    }
}

/// Where each field begins, and how many bytes it has.
pub const PLACES: [(Field, usize, usize); 15] = [
    (Field::Kind, 0, 1),
    (Field::Typ, 1, 1),
    (Field::Status, 2, 1),
    (Field::Flags, 3, 1),
    (Field::Party, 4, 4),
    (Field::Id, 8, 8),
    (Field::Symbol, 16, 8),
    (Field::N1, 24, 4),
    (Field::N2, 28, 4),
    (Field::N3, 32, 4),
    (Field::N4, 36, 4),
    (Field::M1, 40, 8),
    (Field::M2, 48, 8),
    (Field::Time, 56, 4),
    (Field::N5, 60, 4),
];

/// Sets one byte of a field that the kind of a row with this property does not use.
fn use_unused(rng: &mut Rng, rows: &mut [Row], good: impl Fn(&Row) -> bool) -> bool {
    let Some(place) = some(rng, rows, good) else {
        return false;
    };
    let unused: Vec<&(Field, usize, usize)> = PLACES
        .iter()
        .filter(|(field, _, _)| !used(rows[place].kind).contains(field))
        .collect();
    let (_, at, len) = **rng.pick(&unused);
    let mut bytes = rows[place].write();
    bytes[at + rng.index(len)] = rng.between32(1, 255) as u8;
    rows[place] = Row::read(&bytes);
    true
}

/// Sets one byte of a free record; no row of any kind is that empty.
fn stray_byte(rng: &mut Rng, rows: &mut Vec<Row>) -> bool {
    let Some(place) = some(rng, rows, Row::is_free) else {
        return false;
    };
    let mut bytes = [0; RECORD];
    bytes[rng.index(RECORD)] = rng.between32(1, 255) as u8;
    rows[place] = Row::read(&bytes);
    true
}

fn break_symbol(rng: &mut Rng, rows: &mut Vec<Row>) -> bool {
    let Some(place) = some(rng, rows, |row| row.symbol != [0; 8]) else {
        return false;
    };
    let bad = crate::gen::broken_symbols(rows[place].symbol);
    rows[place].symbol = rng.pick(&bad).1;
    true
}

type SetField = fn(&mut Row);

/// Values just outside (or far outside) the range of a field, kind by kind.
const OUT_OF_RANGE: &[(u8, SetField)] = &[
    (BROKER, |r| r.party = 0),
    (BROKER, |r| r.party = MAX_NUMBER + 1),
    (BROKER, |r| r.n1 = MAX_BROKER_TRADES + 1),
    (BROKER, |r| r.n1 = u32::MAX),
    (BROKER, |r| r.m1 = MAX_MONEY as u64 + 1),
    (BROKER, |r| r.m1 = u64::MAX),
    (CUSTOMER, |r| r.party = 0),
    (CUSTOMER, |r| r.party = MAX_NUMBER + 1),
    (CUSTOMER, |r| r.typ = 0),
    (CUSTOMER, |r| r.typ = 4),
    (TAX_RATE, |r| r.party = 0),
    (TAX_RATE, |r| r.party = u32::MAX),
    (TAX_RATE, |r| r.n1 = MAX_RATE + 1),
    (CUSTOMER_RATE, |r| r.party = 0),
    (CUSTOMER_RATE, |r| r.party = MAX_NUMBER + 1),
    (CUSTOMER_RATE, |r| r.n1 = 0),
    (CUSTOMER_RATE, |r| r.n1 = MAX_NUMBER + 1),
    (ACCOUNT, |r| r.party = 0),
    (ACCOUNT, |r| r.party = MAX_NUMBER + 1),
    (ACCOUNT, |r| r.n1 = 0),
    (ACCOUNT, |r| r.n1 = MAX_NUMBER + 1),
    (ACCOUNT, |r| r.n2 = 0),
    (ACCOUNT, |r| r.n2 = MAX_NUMBER + 1),
    (ACCOUNT, |r| r.typ = 3),
    (ACCOUNT, |r| r.m1 = MAX_MONEY as u64 + 1),
    (ACCOUNT, |r| r.m1 = (-MAX_MONEY - 1) as u64),
    (ACCOUNT, |r| r.m1 = i64::MIN as u64),
    (SECURITY, |r| r.typ = 0),
    (SECURITY, |r| r.typ = 5),
    (SECURITY, |r| r.n1 = 0),
    (SECURITY, |r| r.n1 = MAX_PRICE + 1),
    (SECURITY, |r| r.m1 = MAX_VOLUME + 1),
    (SECURITY, |r| r.time = MAX_TIME + 1),
    (BAND, |r| r.typ = 0),
    (BAND, |r| r.typ = 6),
    (BAND, |r| r.status = 0),
    (BAND, |r| r.status = 4),
    (BAND, |r| r.flags = 0),
    (BAND, |r| r.flags = 5),
    (BAND, |r| r.n1 = 0),
    (BAND, |r| r.n2 = MAX_SHARES + 1),
    (BAND, |r| {
        // "from ≤ to"
        r.n1 = 7;
        r.n2 = 6;
    }),
    (BAND, |r| r.n3 = MAX_BAND_RATE + 1),
    (CHARGE, |r| r.typ = 0),
    (CHARGE, |r| r.typ = 6),
    (CHARGE, |r| r.status = 0),
    (CHARGE, |r| r.status = 4),
    (CHARGE, |r| r.n1 = MAX_CHARGE + 1),
    (TRADE, |r| r.id = 0),
    (TRADE, |r| r.id = MAX_TRADE_NUMBER + 1),
    (TRADE, |r| r.typ = 6),
    (TRADE, |r| r.status = 4),
    (TRADE, |r| r.status = 0),
    (TRADE, |r| r.flags |= 4),
    (TRADE, |r| r.party = 0),
    (TRADE, |r| r.n1 = MAX_SHARES + 1),
    (TRADE, |r| r.n2 = 0),
    (TRADE, |r| r.n4 = MAX_CHARGE + 1),
    (TRADE, |r| r.m1 = MAX_FEE + 1),
    (TRADE, |r| r.m2 = MAX_FEE + 1),
    (TRADE, |r| r.time = MAX_TIME + 1),
    // "n3 is zero exactly until it is completed"
    (TRADE, |r| r.n3 = if r.status == CMPT { 0 } else { 1 }),
    // A completed trade's price, a higher one than there is; of another trade, not zero.
    (TRADE, |r| r.n3 = MAX_PRICE + 1),
    (REQUEST, |r| r.typ = 6),
    (REQUEST, |r| r.n1 = 0),
    (REQUEST, |r| r.n2 = MAX_PRICE + 1),
    (REQUEST, |r| r.party = 0),
    (HISTORY, |r| r.status = 0),
    (HISTORY, |r| r.status = 4),
    (HISTORY, |r| r.time = MAX_TIME + 1),
    (LOT, |r| r.m1 = 0),
    (LOT, |r| r.m1 = u64::from(MAX_SHARES) + 1),
    (LOT, |r| r.m1 = (-i64::from(MAX_SHARES) - 1) as u64),
    (LOT, |r| r.n1 = 0),
    (LOT, |r| r.time = u32::MAX),
    (SUMMARY, |r| r.m1 = 0),
    (LOT_HISTORY, |r| r.n1 = r.n2),
    (LOT_HISTORY, |r| r.n1 = MAX_SHARES + 1),
    (LOT_HISTORY, |r| r.n2 = (-(MAX_SHARES as i32) - 1) as u32),
    (LOT_HISTORY, |r| r.m2 = 0),
    (SETTLEMENT, |r| r.flags |= 2),
    (SETTLEMENT, |r| r.m1 = MAX_MONEY as u64 + 1),
    (SETTLEMENT, |r| r.time = MAX_DUE_TIME + 1),
    (CASH, |r| r.m1 = (-MAX_MONEY - 1) as u64),
    (CASH, |r| r.id = 0),
    (CASH, |r| r.time = MAX_TIME + 1),
    (PERMISSION, |r| r.party = 0),
    (PERMISSION, |r| r.party = MAX_NUMBER + 1),
    (PERMISSION, |r| r.n1 = 0),
    (PERMISSION, |r| r.n1 = MAX_NUMBER + 1),
    (PERMISSION, |r| r.n1 = u32::MAX),
];

fn out_of_range(rng: &mut Rng, rows: &mut Vec<Row>) -> bool {
    let there: Vec<_> = OUT_OF_RANGE
        .iter()
        .filter(|(kind, _)| rows.iter().any(is(*kind)))
        .collect();
    match rng.pick_any(&there) {
        Some((kind, change)) => alter(rng, rows, is(*kind), change),
        None => false,
    }
}

/// Adds a row with the key of a row of this kind, and other values where the kind has some.
fn second_of_kind(rng: &mut Rng, rows: &mut Vec<Row>, kind: u8) -> bool {
    let Some(place) = some(rng, rows, is(kind)) else {
        return false;
    };
    let mut row = rows[place];
    if rng.chance(50) {
        match kind {
            BROKER | TAX_RATE => row.n1 = 17,
            CUSTOMER => row.typ = 1 + row.typ % 3,
            ACCOUNT => row.m1 = 17,
            SECURITY => row.n1 = 17,
            BAND => row.n2 = MAX_SHARES,
            CHARGE => row.n1 = 17,
            TRADE => row.n4 = 17,
            REQUEST => row.n2 = 17,
            HISTORY | LOT | SETTLEMENT | CASH => row.time = 17,
            SUMMARY => row.m1 = 17,
            LOT_HISTORY => (row.n1, row.n2) = (17, 18),
            _ => {}
        }
    }
    put(rng, rows, row)
}

fn second_of_any_kind(rng: &mut Rng, rows: &mut Vec<Row>) -> bool {
    match some(rng, rows, |row| !row.is_free()) {
        Some(place) => {
            let kind = rows[place].kind;
            second_of_kind(rng, rows, kind)
        }
        None => false,
    }
}

// For the rules that look at two rows.

/// Adds a band that shares some shares with another of its type, tier and exchange, but not "from".
fn overlapping_band(rng: &mut Rng, rows: &mut Vec<Row>) -> bool {
    let Some(place) = some(rng, rows, |row| row.kind == BAND && row.n1 < row.n2) else {
        return false;
    };
    let mut band = rows[place];
    band.n1 = rng.between32(band.n1 + 1, band.n2);
    if rng.chance(50) {
        band.n2 = band.n1;
    }
    put(rng, rows, band)
}

/// Lets a band begin at 1 and end where another begins.
fn band_to_the_next(rng: &mut Rng, rows: &mut Vec<Row>) -> bool {
    let Some(place) = some(rng, rows, |row| row.kind == BAND && row.n1 > 1) else {
        return false;
    };
    let mut band = rows[place];
    let alike = |row: &Row| {
        row.kind == BAND && (row.typ, row.status, row.flags) == (band.typ, band.status, band.flags)
    };
    let last = rows.iter().filter(|r| alike(r) && r.n1 < band.n1);
    if let Some(last) = last.max_by_key(|row| row.n1).copied() {
        // There is one before it: that one now ends where this begins.
        return alter(rng, rows, |row| *row == last, |row| row.n2 = band.n1);
    }
    band.n2 = band.n1;
    band.n1 = 1;
    put(rng, rows, band)
}

fn sum_of_rates(rows: &[Row], customer: u32) -> u32 {
    let mut sum = 0;
    for link in rows.iter().filter(|r| r.kind == CUSTOMER_RATE) {
        if link.party == customer {
            let rate = rows
                .iter()
                .find(|r| r.kind == TAX_RATE && r.party == link.n1);
            sum += rate.unwrap().n1;
        }
    }
    sum
}

/// Gives a customer one more rate, which makes the sum 100,001 or more.
fn one_rate_too_many(rng: &mut Rng, rows: &mut Vec<Row>) -> bool {
    let sums: Vec<(u32, u32)> = rows
        .iter()
        .filter(|row| row.kind == CUSTOMER)
        .map(|row| (row.party, sum_of_rates(rows, row.party)))
        .filter(|(_, sum)| *sum > 0)
        .collect();
    let free = rows.iter().filter(|row| row.is_free()).count();
    let Some((customer, sum)) = rng.pick_any(&sums).copied() else {
        return false;
    };
    if free + MAX_RECORDS - rows.len() < 2 {
        return false;
    }
    let party = no_party(rows, TAX_RATE);
    let rate = if rng.chance(50) {
        MAX_RATE + 1 - sum
    } else {
        MAX_RATE
    };
    let rate = Row {
        kind: TAX_RATE,
        party,
        n1: rate,
        ..Row::default()
    };
    let link = Row {
        kind: CUSTOMER_RATE,
        party: customer,
        n1: party,
        ..Row::default()
    };
    put(rng, rows, rate) && put(rng, rows, link)
}

/// Raises a rate of a customer who has another, so that the sum is too high.
fn raised_rate(rng: &mut Rng, rows: &mut Vec<Row>) -> bool {
    let mut found = Vec::new();
    for link in rows.iter().filter(|row| row.kind == CUSTOMER_RATE) {
        let place = rows
            .iter()
            .position(|r| r.kind == TAX_RATE && r.party == link.n1)
            .unwrap();
        let others = sum_of_rates(rows, link.party) - rows[place].n1;
        if others > 0 {
            found.push((place, others));
        }
    }
    match rng.pick_any(&found).copied() {
        Some((place, others)) => {
            rows[place].n1 = MAX_RATE + 1 - others;
            true
        }
        None => false,
    }
}

/// Adds a request that agrees with a trade which is not pending.
fn needless_request(rng: &mut Rng, rows: &mut Vec<Row>) -> bool {
    let Some(place) = some(rng, rows, |row| row.kind == TRADE && row.status != PNDG) else {
        return false;
    };
    let trade = rows[place];
    let account = rows
        .iter()
        .find(|r| r.kind == ACCOUNT && r.party == trade.party)
        .unwrap();
    let request = Row {
        kind: REQUEST,
        typ: trade.typ,
        party: account.n1,
        id: trade.id,
        symbol: trade.symbol,
        n1: trade.n1,
        n2: trade.n2,
        ..Row::default()
    };
    put(rng, rows, request)
}

/// Gives a request to another broker.
fn request_of_another_broker(rng: &mut Rng, rows: &mut Vec<Row>) -> bool {
    let Some(place) = some(rng, rows, is(REQUEST)) else {
        return false;
    };
    let now = rows[place].party;
    match some(rng, rows, |row| row.kind == BROKER && row.party != now) {
        Some(other) => {
            rows[place].party = rows[other].party;
            true
        }
        None => false,
    }
}

/// Puts a row (a lot, a request, ...) on another security of the book.
fn on_another_security(rng: &mut Rng, rows: &mut Vec<Row>, kind: u8) -> bool {
    let Some(place) = some(rng, rows, is(kind)) else {
        return false;
    };
    let now = rows[place].symbol;
    match some(rng, rows, |row| row.kind == SECURITY && row.symbol != now) {
        Some(other) => {
            rows[place].symbol = rows[other].symbol;
            true
        }
        None => false,
    }
}

/// Makes a pending trade and its request a market one.
fn pending_market_trade(rng: &mut Rng, rows: &mut Vec<Row>) -> bool {
    let Some(place) = some(rng, rows, trade_with(PNDG)) else {
        return false;
    };
    let id = rows[place].id;
    let typ = *rng.pick(&[TMB, TMS]);
    rows[place].typ = typ;
    alter(
        rng,
        rows,
        |row| row.kind == REQUEST && row.id == id,
        |row| row.typ = typ,
    )
}

/// Takes away the history row of a trade's present status.
fn no_present_history(rng: &mut Rng, rows: &mut Vec<Row>) -> bool {
    let Some(place) = some(rng, rows, is(TRADE)) else {
        return false;
    };
    let trade = rows[place];
    remove(rng, rows, |row| {
        row.kind == HISTORY && row.id == trade.id && row.status == trade.status
    })
}

/// Adds a history row of a status that the trade has not reached.
fn higher_history(rng: &mut Rng, rows: &mut Vec<Row>) -> bool {
    let Some(place) = some(rng, rows, |row| row.kind == TRADE && row.status != CMPT) else {
        return false;
    };
    let row = Row {
        kind: HISTORY,
        id: rows[place].id,
        status: rng.between32(u32::from(rows[place].status) + 1, 3) as u8,
        time: rows[place].time,
        ..Row::default()
    };
    put(rng, rows, row)
}

/// Raises the present history row of a trade that is not completed.
fn raised_history(rng: &mut Rng, rows: &mut Vec<Row>) -> bool {
    let Some(place) = some(rng, rows, |row| row.kind == TRADE && row.status != CMPT) else {
        return false;
    };
    let trade = rows[place];
    alter(
        rng,
        rows,
        |row| row.kind == HISTORY && row.id == trade.id && row.status == trade.status,
        |row| row.status += 1,
    )
}

/// Adds a lot, and sees to its summary, for a trade that is not completed.
fn lot_of_open_trade(rng: &mut Rng, rows: &mut Vec<Row>) -> bool {
    let Some(place) = some(rng, rows, |row| row.kind == TRADE && row.status != CMPT) else {
        return false;
    };
    let trade = rows[place];
    let summary = rows
        .iter()
        .position(|r| r.kind == SUMMARY && r.party == trade.party && r.symbol == trade.symbol);
    let shares: i64 = match summary {
        Some(at) if rows[at].signed_m1() < 0 => -5,
        _ => 5,
    };
    let lot = Row {
        kind: LOT,
        party: trade.party,
        id: trade.id,
        symbol: trade.symbol,
        n1: trade.n2,
        m1: shares as u64,
        time: trade.time,
        ..Row::default()
    };
    match summary {
        Some(at) => {
            if !put(rng, rows, lot) {
                return false;
            }
            rows[at].m1 = (rows[at].signed_m1() + shares) as u64;
            true
        }
        None => {
            let summary = Row {
                kind: SUMMARY,
                party: trade.party,
                symbol: trade.symbol,
                m1: shares as u64,
                ..Row::default()
            };
            put(rng, rows, summary) && {
                put(rng, rows, lot);
                true
            }
        }
    }
}

/// Gives a lot to another account; its trade is not of that account.
fn lot_of_another_account(rng: &mut Rng, rows: &mut Vec<Row>) -> bool {
    let Some(place) = some(rng, rows, is(LOT)) else {
        return false;
    };
    let now = rows[place].party;
    match some(rng, rows, |row| row.kind == ACCOUNT && row.party != now) {
        Some(other) => {
            rows[place].party = rows[other].party;
            true
        }
        None => false,
    }
}

/// Turns one lot of several the other way, and lets the summary follow.
fn mixed_signs(rng: &mut Rng, rows: &mut Vec<Row>) -> bool {
    let alike = |a: &Row, b: &Row| a.party == b.party && a.symbol == b.symbol;
    let lots: Vec<usize> = (0..rows.len())
        .filter(|place| {
            let lot = &rows[*place];
            let others = rows.iter().filter(|r| r.kind == LOT && alike(r, lot));
            lot.kind == LOT && others.count() > 1
        })
        .collect();
    let Some(place) = rng.pick_any(&lots).copied() else {
        return false;
    };
    let lot = rows[place];
    let summary = rows
        .iter()
        .position(|r| r.kind == SUMMARY && alike(r, &lot))
        .unwrap();
    let sum = rows[summary].signed_m1() - 2 * lot.signed_m1();
    if sum == 0 {
        return false;
    }
    rows[place].m1 = (-lot.signed_m1()) as u64;
    rows[summary].m1 = sum as u64;
    true
}

/// Turns all lots of a summary around but not the summary, or the summary alone.
fn summary_of_the_other_sign(rng: &mut Rng, rows: &mut Vec<Row>) -> bool {
    alter(rng, rows, is(SUMMARY), |row| {
        row.m1 = (-row.signed_m1()) as u64
    })
}

/// Changes a lot's shares by one, keeping its sign, but not the summary.
fn lot_off_by_one(rng: &mut Rng, rows: &mut Vec<Row>) -> bool {
    alter(rng, rows, is(LOT), |row| {
        let shares = row.signed_m1();
        let less = shares.abs() > 1;
        let size = if less {
            shares.abs() - 1
        } else {
            shares.abs() + 1
        };
        row.m1 = (size * shares.signum()) as u64;
    })
}

/// Changes a summary by one, and not to zero.
fn summary_off_by_one(rng: &mut Rng, rows: &mut Vec<Row>) -> bool {
    alter(rng, rows, is(SUMMARY), |row| {
        row.m1 = (row.signed_m1() + row.signed_m1().signum()) as u64
    })
}

/// Lets the sum wrap around to the right low half only: the whole field counts.
fn summary_off_by_high_half(rng: &mut Rng, rows: &mut Vec<Row>) -> bool {
    alter(rng, rows, is(SUMMARY), |row| row.m1 ^= 1 << 40)
}

/// Adds a summary where there are no lots.
fn summary_without_lots(rng: &mut Rng, rows: &mut Vec<Row>) -> bool {
    let mut found = Vec::new();
    for account in rows.iter().filter(|row| row.kind == ACCOUNT).take(40) {
        for security in rows.iter().filter(|row| row.kind == SECURITY).take(40) {
            let there = rows.iter().any(|r| {
                r.kind == SUMMARY && r.party == account.party && r.symbol == security.symbol
            });
            if !there {
                found.push((account.party, security.symbol));
            }
        }
    }
    match rng.pick_any(&found).copied() {
        Some((party, symbol)) => {
            let row = Row {
                kind: SUMMARY,
                party,
                symbol,
                m1: 1,
                ..Row::default()
            };
            put(rng, rows, row)
        }
        None => false,
    }
}

/// Adds a settlement (and cash, if so) for a trade that is not completed.
fn early_settlement(rng: &mut Rng, rows: &mut Vec<Row>) -> bool {
    let Some(place) = some(rng, rows, |row| row.kind == TRADE && row.status != CMPT) else {
        return false;
    };
    let trade = rows[place];
    let settlement = Row {
        kind: SETTLEMENT,
        flags: trade.flags & FLAG_CASH,
        id: trade.id,
        m1: 5,
        ..Row::default()
    };
    put(rng, rows, settlement)
}

/// Adds a cash row for a trade that is not completed.
fn early_cash(rng: &mut Rng, rows: &mut Vec<Row>) -> bool {
    let Some(place) = some(rng, rows, |row| row.kind == TRADE && row.status != CMPT) else {
        return false;
    };
    let cash = Row {
        kind: CASH,
        id: rows[place].id,
        m1: 5,
        ..Row::default()
    };
    put(rng, rows, cash)
}

/// Adds a cash row where the settlement's flag is 0.
fn needless_cash(rng: &mut Rng, rows: &mut Vec<Row>) -> bool {
    let Some(place) = some(rng, rows, |row| row.kind == SETTLEMENT && row.flags == 0) else {
        return false;
    };
    let cash = Row {
        kind: CASH,
        id: rows[place].id,
        m1: rows[place].m1,
        ..Row::default()
    };
    put(rng, rows, cash)
}

/// Turns a settlement's flag and sees to the cash row, so that only the trade's flag disagrees.
fn flag_unlike_the_trade(rng: &mut Rng, rows: &mut Vec<Row>) -> bool {
    let Some(place) = some(rng, rows, is(SETTLEMENT)) else {
        return false;
    };
    let settlement = rows[place];
    if settlement.flags == 1 {
        rows[place].flags = 0;
        return remove(rng, rows, |r| r.kind == CASH && r.id == settlement.id);
    }
    let cash = Row {
        kind: CASH,
        id: settlement.id,
        m1: settlement.m1,
        ..Row::default()
    };
    if !put(rng, rows, cash) {
        return false;
    }
    rows[place].flags = 1;
    true
}

/// Lets a lot history name a trade that is not completed, as its lot or as the changing trade.
fn history_of_open_trade(rng: &mut Rng, rows: &mut Vec<Row>) -> bool {
    let Some(open) = some(rng, rows, |row| row.kind == TRADE && row.status != CMPT) else {
        return false;
    };
    let open = rows[open].id;
    let as_lot = rng.chance(50);
    alter(rng, rows, is(LOT_HISTORY), |row| {
        if as_lot {
            row.id = open;
        } else {
            row.m2 = open;
        }
    })
}

/// Adds a lot history between trades one of which is not completed.
fn new_history_of_open_trade(rng: &mut Rng, rows: &mut Vec<Row>) -> bool {
    let Some(open) = some(rng, rows, |row| row.kind == TRADE && row.status != CMPT) else {
        return false;
    };
    let Some(other) = some(rng, rows, is(TRADE)) else {
        return false;
    };
    let (mut id, mut m2) = (rows[open].id, rows[other].id);
    if rng.chance(50) {
        (id, m2) = (m2, id);
    }
    let row = Row {
        kind: LOT_HISTORY,
        id,
        m2,
        n2: 5,
        ..Row::default()
    };
    put(rng, rows, row)
}

/// Takes away a row that an account, trade or other row names.
fn remove_named(rng: &mut Rng, rows: &mut Vec<Row>, kind: u8) -> bool {
    let named = |row: &Row| match kind {
        BROKER => rows.iter().any(|r| r.kind == ACCOUNT && r.n1 == row.party),
        CUSTOMER => rows.iter().any(|r| r.kind == ACCOUNT && r.n2 == row.party),
        TAX_RATE => rows
            .iter()
            .any(|r| r.kind == CUSTOMER_RATE && r.n1 == row.party),
        ACCOUNT => rows
            .iter()
            .any(|r| matches!(r.kind, TRADE | PERMISSION) && r.party == row.party),
        SECURITY => rows
            .iter()
            .any(|r| r.kind == TRADE && r.symbol == row.symbol),
        // A trade always has a history.
        _ => true,
    };
    let places: Vec<usize> = (0..rows.len())
        .filter(|place| rows[*place].kind == kind && named(&rows[*place]))
        .collect();
    match rng.pick_any(&places).copied() {
        Some(place) => {
            rows[place] = Row::default();
            true
        }
        None => false,
    }
}

/// Lets a row of this kind name a party, trade or security that is not there.
fn name_nobody(rng: &mut Rng, rows: &mut Vec<Row>, kind: u8, field: Field) -> bool {
    let party = match (kind, field) {
        (ACCOUNT, Field::N1) | (REQUEST, _) => no_party(rows, BROKER),
        (ACCOUNT, Field::N2) | (CUSTOMER_RATE, Field::Party) => no_party(rows, CUSTOMER),
        (CUSTOMER_RATE, _) => no_party(rows, TAX_RATE),
        _ => no_party(rows, ACCOUNT),
    };
    let trade = no_trade(rows);
    let nowhere = no_symbol(rows);
    alter(rng, rows, is(kind), |row| match field {
        Field::N1 => row.n1 = party,
        Field::N2 => row.n2 = party,
        Field::Party => row.party = party,
        Field::Symbol => row.symbol = nowhere,
        Field::Id => row.id = trade,
        Field::M2 => row.m2 = trade,
        _ => unreachable!(),
    })
}

const fn aim(rule: Rule, name: &'static str, change: Change) -> Mutation {
    Mutation { name, rule, change }
}

use Rule::*;

/// All of them.
pub const ALL: &[Mutation] = &[
    aim(S1, "an unused field is used", |g, r| {
        use_unused(g, r, |row| !row.is_free())
    }),
    aim(S1, "a free record has a stray byte", stray_byte),
    aim(S1, "a field is out of its range", out_of_range),
    aim(S1, "a symbol is broken", break_symbol),
    aim(S1, "kind 18", |g, r| {
        alter(g, r, |row| !row.is_free(), |row| row.kind = 18)
    }),
    aim(S1, "kind 33", |g, r| {
        alter(g, r, |row| !row.is_free(), |row| row.kind = 33)
    }),
    aim(S1, "kind 0 but not free", |g, r| {
        alter(g, r, |row| !row.is_free(), |row| row.kind = 0)
    }),
    aim(S1, "an open trade has a price", |g, r| {
        alter(
            g,
            r,
            |row| row.kind == TRADE && row.status != CMPT,
            |row| row.n3 = row.n2,
        )
    }),
    aim(S1, "an open trade has a tax", |g, r| {
        alter(
            g,
            r,
            |row| row.kind == TRADE && row.status != CMPT,
            |row| row.m2 = 1,
        )
    }),
    aim(S1, "a completed trade has no price", |g, r| {
        alter(g, r, trade_with(CMPT), |row| row.n3 = 0)
    }),
    aim(S1, "an executor of zero", |g, r| {
        alter(g, r, is(PERMISSION), |row| row.n1 = 0)
    }),
    aim(S1, "an executor above the highest", |g, r| {
        alter(g, r, is(PERMISSION), |row| row.n1 = MAX_NUMBER + 1)
    }),
    aim(S1, "a permission with a stray field", |g, r| {
        use_unused(g, r, is(PERMISSION))
    }),
    aim(S2, "a row twice", second_of_any_kind),
    aim(S2, "broker twice", |g, r| second_of_kind(g, r, BROKER)),
    aim(S2, "customer twice", |g, r| second_of_kind(g, r, CUSTOMER)),
    aim(S2, "tax rate twice", |g, r| second_of_kind(g, r, TAX_RATE)),
    aim(S2, "customer's rate twice", |g, r| {
        second_of_kind(g, r, CUSTOMER_RATE)
    }),
    aim(S2, "account twice", |g, r| second_of_kind(g, r, ACCOUNT)),
    aim(S2, "security twice", |g, r| second_of_kind(g, r, SECURITY)),
    aim(S2, "band twice", |g, r| second_of_kind(g, r, BAND)),
    aim(S2, "charge twice", |g, r| second_of_kind(g, r, CHARGE)),
    aim(S2, "trade twice", |g, r| second_of_kind(g, r, TRADE)),
    aim(S2, "request twice", |g, r| second_of_kind(g, r, REQUEST)),
    aim(S2, "history twice", |g, r| second_of_kind(g, r, HISTORY)),
    aim(S2, "lot twice", |g, r| second_of_kind(g, r, LOT)),
    aim(S2, "summary twice", |g, r| second_of_kind(g, r, SUMMARY)),
    aim(S2, "lot history twice", |g, r| {
        second_of_kind(g, r, LOT_HISTORY)
    }),
    aim(S2, "settlement twice", |g, r| {
        second_of_kind(g, r, SETTLEMENT)
    }),
    aim(S2, "cash twice", |g, r| second_of_kind(g, r, CASH)),
    aim(S2, "permission twice", |g, r| {
        second_of_kind(g, r, PERMISSION)
    }),
    aim(S3, "no such broker of an account", |g, r| {
        name_nobody(g, r, ACCOUNT, Field::N1)
    }),
    aim(S3, "no such customer of an account", |g, r| {
        name_nobody(g, r, ACCOUNT, Field::N2)
    }),
    aim(S3, "no such customer of a rate", |g, r| {
        name_nobody(g, r, CUSTOMER_RATE, Field::Party)
    }),
    aim(S3, "no such rate of a customer", |g, r| {
        name_nobody(g, r, CUSTOMER_RATE, Field::N1)
    }),
    aim(S3, "no such account of a trade", |g, r| {
        name_nobody(g, r, TRADE, Field::Party)
    }),
    aim(S3, "no such security of a trade", |g, r| {
        name_nobody(g, r, TRADE, Field::Symbol)
    }),
    aim(S3, "no such broker of a request", |g, r| {
        name_nobody(g, r, REQUEST, Field::Party)
    }),
    aim(S3, "no such security of a request", |g, r| {
        name_nobody(g, r, REQUEST, Field::Symbol)
    }),
    aim(S3, "no such trade of a request", |g, r| {
        name_nobody(g, r, REQUEST, Field::Id)
    }),
    aim(S3, "no such trade of a history", |g, r| {
        name_nobody(g, r, HISTORY, Field::Id)
    }),
    aim(S3, "no such trade of a lot", |g, r| {
        name_nobody(g, r, LOT, Field::Id)
    }),
    aim(S3, "no such account of a lot", |g, r| {
        name_nobody(g, r, LOT, Field::Party)
    }),
    aim(S3, "no such security of a lot", |g, r| {
        name_nobody(g, r, LOT, Field::Symbol)
    }),
    aim(S3, "no such account of a summary", |g, r| {
        name_nobody(g, r, SUMMARY, Field::Party)
    }),
    aim(S3, "no such security of a summary", |g, r| {
        name_nobody(g, r, SUMMARY, Field::Symbol)
    }),
    aim(S3, "no such lot of a lot history", |g, r| {
        name_nobody(g, r, LOT_HISTORY, Field::Id)
    }),
    aim(S3, "no such trade of a lot history", |g, r| {
        name_nobody(g, r, LOT_HISTORY, Field::M2)
    }),
    aim(S3, "no such trade of a settlement", |g, r| {
        name_nobody(g, r, SETTLEMENT, Field::Id)
    }),
    aim(S3, "no such trade of a cash row", |g, r| {
        name_nobody(g, r, CASH, Field::Id)
    }),
    aim(S3, "no such account of a permission", |g, r| {
        name_nobody(g, r, PERMISSION, Field::Party)
    }),
    aim(S3, "a named broker goes", |g, r| remove_named(g, r, BROKER)),
    aim(S3, "a named customer goes", |g, r| {
        remove_named(g, r, CUSTOMER)
    }),
    aim(S3, "a named rate goes", |g, r| remove_named(g, r, TAX_RATE)),
    aim(S3, "a named account goes", |g, r| {
        remove_named(g, r, ACCOUNT)
    }),
    aim(S3, "a named security goes", |g, r| {
        remove_named(g, r, SECURITY)
    }),
    aim(S3, "a named trade goes", |g, r| remove_named(g, r, TRADE)),
    aim(S4, "a band within another", overlapping_band),
    aim(
        S4,
        "a band that ends where another begins",
        band_to_the_next,
    ),
    aim(S5, "one rate too many", one_rate_too_many),
    aim(S5, "a rate is raised", raised_rate),
    aim(S6, "a request goes", |g, r| remove(g, r, is(REQUEST))),
    aim(
        S6,
        "a request of a trade that waits no more",
        needless_request,
    ),
    aim(S6, "a request of another broker", request_of_another_broker),
    aim(S6, "a request of another type", |g, r| {
        alter(g, r, is(REQUEST), |row| row.typ = row.typ % 5 + 1)
    }),
    aim(S6, "a request of more shares", |g, r| {
        alter(g, r, is(REQUEST), |row| row.n1 = row.n1 % MAX_SHARES + 1)
    }),
    aim(S6, "a request at another bid", |g, r| {
        alter(g, r, is(REQUEST), |row| row.n2 = row.n2 % MAX_PRICE + 1)
    }),
    aim(S6, "a request of another security", |g, r| {
        on_another_security(g, r, REQUEST)
    }),
    aim(S6, "a market trade waits", pending_market_trade),
    aim(S6, "a submitted trade is pending again", |g, r| {
        alter(g, r, trade_with(SBMT), |row| row.status = PNDG)
    }),
    aim(S6, "a pending trade is submitted", |g, r| {
        alter(g, r, trade_with(PNDG), |row| row.status = SBMT)
    }),
    aim(S7, "the present history goes", no_present_history),
    aim(S7, "a higher history", higher_history),
    aim(S7, "the present history is raised", raised_history),
    aim(S8, "a lot of an open trade", lot_of_open_trade),
    aim(S8, "a lot of another account", lot_of_another_account),
    aim(S8, "a lot of another security", |g, r| {
        on_another_security(g, r, LOT)
    }),
    aim(S8, "lots of both signs", mixed_signs),
    aim(S8, "a summary of the other sign", summary_of_the_other_sign),
    aim(S8, "a lot off by one", lot_off_by_one),
    aim(S8, "a summary off by one", summary_off_by_one),
    aim(S8, "a summary off by a high bit", summary_off_by_high_half),
    aim(S8, "a summary goes", |g, r| remove(g, r, is(SUMMARY))),
    aim(S8, "a lot goes", |g, r| remove(g, r, is(LOT))),
    aim(S8, "a summary without lots", summary_without_lots),
    aim(S9, "a settlement goes", |g, r| remove(g, r, is(SETTLEMENT))),
    aim(S9, "a settlement of an open trade", early_settlement),
    aim(S9, "a cash row of an open trade", early_cash),
    aim(S9, "a needless cash row", needless_cash),
    aim(S9, "a settlement's flag turned", |g, r| {
        alter(g, r, is(SETTLEMENT), |row| row.flags ^= 1)
    }),
    aim(S9, "a flag unlike the trade's", flag_unlike_the_trade),
    aim(S9, "a completed trade's cash flag turned", |g, r| {
        alter(g, r, trade_with(CMPT), |row| row.flags ^= FLAG_CASH)
    }),
    aim(S9, "a cash row goes", |g, r| remove(g, r, is(CASH))),
    aim(S9, "a cash row of another amount", |g, r| {
        alter(g, r, is(CASH), |row| {
            row.m1 = if row.m1 == 0 { 1 } else { 0 }
        })
    }),
    aim(S9, "a cash row of the other sign", |g, r| {
        alter(
            g,
            r,
            |row| row.kind == CASH && row.m1 != 0,
            |row| row.m1 = (-row.signed_m1()) as u64,
        )
    }),
    aim(S10, "a lot history of an open trade", history_of_open_trade),
    aim(
        S10,
        "a new lot history of an open trade",
        new_history_of_open_trade,
    ),
];
