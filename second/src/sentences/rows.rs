//! The rows that the sentences are made of, and the values that a field is given.

use crate::mutate::PLACES;
use crate::record::*;

pub(super) const ABC: [u8; 8] = *b"ABC\0\0\0\0\0";
pub(super) const XYZ: [u8; 8] = *b"XYZ\0\0\0\0\0";
/// Names of the figures' book, and more that every book here has.
pub(super) const BROKER_1: u32 = 21;
pub(super) const BROKER_2: u32 = 22;
pub(super) const CUSTOMER_1: u32 = 31;
pub(super) const CUSTOMER_2: u32 = 32;
pub(super) const ACCOUNT_1: u32 = 11;
pub(super) const ACCOUNT_2: u32 = 12;
/// Names that no row of that book has.
pub(super) const NEW: u32 = 51;
pub(super) const NEW_TRADE: u64 = 60;
pub(super) const OTHER_TRADE: u64 = 70;
pub(super) const FREE: usize = 12;

// Rows of each kind, the least that is good in every field but the names.

pub(super) fn row(kind: u8) -> Row {
    Row {
        kind,
        ..Row::default()
    }
}

pub(super) fn broker(party: u32) -> Row {
    Row {
        party,
        ..row(BROKER)
    }
}

pub(super) fn customer(party: u32) -> Row {
    Row {
        party,
        typ: 1,
        ..row(CUSTOMER)
    }
}

pub(super) fn tax_rate(party: u32, n1: u32) -> Row {
    Row {
        party,
        n1,
        ..row(TAX_RATE)
    }
}

pub(super) fn customer_rate(party: u32, n1: u32) -> Row {
    Row {
        party,
        n1,
        ..row(CUSTOMER_RATE)
    }
}

pub(super) fn account(party: u32) -> Row {
    Row {
        party,
        n1: BROKER_1,
        n2: CUSTOMER_1,
        ..row(ACCOUNT)
    }
}

pub(super) fn security(symbol: [u8; 8]) -> Row {
    Row {
        symbol,
        typ: 1,
        n1: 1,
        ..row(SECURITY)
    }
}

/// A band of a tier and an exchange that the figures' book has none for.
pub(super) fn band(n1: u32, n2: u32) -> Row {
    Row {
        typ: TMS,
        status: 2,
        flags: 2,
        n1,
        n2,
        ..row(BAND)
    }
}

pub(super) fn charge() -> Row {
    Row {
        typ: TLB,
        status: 2,
        ..row(CHARGE)
    }
}

/// A limit order to buy, not cash, of the second account in the second security.
fn trade(id: u64, status: u8) -> Row {
    let n3 = if status == CMPT { 1 } else { 0 };
    Row {
        id,
        typ: TLB,
        status,
        party: ACCOUNT_2,
        symbol: XYZ,
        n1: 1,
        n2: 1,
        n3,
        ..row(TRADE)
    }
}

pub(super) fn request(id: u64) -> Row {
    Row {
        id,
        typ: TLB,
        party: BROKER_2,
        symbol: XYZ,
        n1: 1,
        n2: 1,
        ..row(REQUEST)
    }
}

pub(super) fn history(id: u64, status: u8) -> Row {
    Row {
        id,
        status,
        ..row(HISTORY)
    }
}

pub(super) fn lot(id: u64, shares: i64) -> Row {
    Row {
        id,
        party: ACCOUNT_2,
        symbol: XYZ,
        n1: 1,
        m1: shares as u64,
        ..row(LOT)
    }
}

pub(super) fn summary(shares: i64) -> Row {
    Row {
        party: ACCOUNT_2,
        symbol: XYZ,
        m1: shares as u64,
        ..row(SUMMARY)
    }
}

pub(super) fn lot_history(id: u64, m2: u64) -> Row {
    Row {
        id,
        m2,
        n1: 7,
        n2: 5,
        ..row(LOT_HISTORY)
    }
}

pub(super) fn settlement(id: u64) -> Row {
    row_of(SETTLEMENT, id)
}

pub(super) fn cash(id: u64) -> Row {
    row_of(CASH, id)
}

fn row_of(kind: u8, id: u64) -> Row {
    Row { id, ..row(kind) }
}

pub(super) fn permission(party: u32, n1: u32) -> Row {
    Row {
        party,
        n1,
        ..row(PERMISSION)
    }
}

// Rows that are sound together.

/// A trade of this status with what it must have.
pub(super) fn whole_trade(id: u64, status: u8) -> Vec<Row> {
    let mut rows = vec![trade(id, status), history(id, status)];
    match status {
        PNDG => rows.push(request(id)),
        CMPT => rows.push(settlement(id)),
        _ => {}
    }
    rows
}

pub(super) fn cash_trade(id: u64) -> Vec<Row> {
    let mut rows = whole_trade(id, CMPT);
    rows[0].flags = FLAG_CASH;
    rows[2].flags = FLAG_CASH;
    rows.push(cash(id));
    rows
}

/// A lot of each of these shares, with their trades; no summary.
pub(super) fn lots(shares: &[i64]) -> Vec<Row> {
    let numbered = (NEW_TRADE..).zip(shares);
    numbered
        .flat_map(|(id, shares)| joined(&[&[lot(id, *shares)], &whole_trade(id, CMPT)]))
        .collect()
}

pub(super) fn joined(parts: &[&[Row]]) -> Vec<Row> {
    parts.concat()
}

/// A row of this kind before all others that it needs.
pub(super) fn spare(kind: u8) -> Vec<Row> {
    let completed = whole_trade(NEW_TRADE, CMPT);
    match kind {
        BROKER => vec![broker(NEW)],
        CUSTOMER => vec![customer(NEW)],
        TAX_RATE => vec![tax_rate(NEW, 0)],
        CUSTOMER_RATE => vec![customer_rate(NEW, NEW), customer(NEW), tax_rate(NEW, 0)],
        ACCOUNT => vec![
            Row {
                n1: NEW,
                n2: NEW,
                ..account(NEW)
            },
            broker(NEW),
            customer(NEW),
        ],
        SECURITY => vec![security(symbol("NEW"))],
        BAND => vec![band(5, 5)],
        CHARGE => vec![charge()],
        TRADE => whole_trade(NEW_TRADE, SBMT),
        REQUEST => {
            let mut rows = whole_trade(NEW_TRADE, PNDG);
            rows.swap(0, 2);
            rows
        }
        HISTORY => joined(&[&[history(NEW_TRADE, PNDG)], &whole_trade(NEW_TRADE, SBMT)]),
        LOT => joined(&[&lots(&[5]), &[summary(5)]]),
        SUMMARY => joined(&[&[summary(5)], &lots(&[5])]),
        LOT_HISTORY => joined(&[&[lot_history(NEW_TRADE, NEW_TRADE)], &completed]),
        SETTLEMENT => joined(&[&[completed[2]], &completed[..2]]),
        CASH => {
            let mut rows = cash_trade(NEW_TRADE);
            rows.swap(0, 3);
            rows
        }
        PERMISSION => vec![permission(NEW, NEW), account(NEW)],
        _ => unreachable!("a kind of the grid"),
    }
}

pub(super) fn name_of(kind: u8) -> &'static str {
    let names = [
        "broker",
        "customer",
        "tax rate",
        "customer rate",
        "account",
        "security",
        "band",
        "charge",
        "trade",
        "request",
        "history",
        "lot",
        "summary",
        "lot history",
        "settlement",
        "cash",
        "permission",
    ];
    names[usize::from(kind) - 1]
}

fn place_of(field: Field) -> (usize, usize) {
    let (_, at, len) = PLACES.into_iter().find(|place| place.0 == field).unwrap();
    (at, len)
}

/// The row with another value in one field; a negative one in two's complement.
pub(super) fn with(row: Row, field: Field, value: impl Into<i128>) -> Row {
    let (at, len) = place_of(field);
    let mut bytes = row.write();
    bytes[at..at + len].copy_from_slice(&value.into().to_le_bytes()[..len]);
    Row::read(&bytes)
}

/// A field's values at its limits, with a name for each and whether it is good: the limits, the next
/// values outside, and the lowest with one bit more in each byte.
pub(super) fn edges(
    field: Field,
    low: impl Into<i128>,
    high: impl Into<i128>,
) -> Vec<(String, i128, bool)> {
    let (low, high) = (low.into(), high.into());
    let (_, len) = place_of(field);
    let span = 1i128 << (8 * len);
    let signed = low < 0;
    let read = |value: i128| match value.rem_euclid(span) {
        value if signed && value >= span / 2 => value - span,
        value => value,
    };
    let mut list = vec![("lowest".to_string(), low, true)];
    if high > low {
        list.push(("highest".to_string(), high, true));
    }
    list.push(("below".to_string(), low - 1, false));
    list.push(("above".to_string(), high + 1, false));
    for bit in (0..len).flat_map(|byte| [8 * byte, 8 * byte + 7]) {
        let value = read(low + (1 << bit));
        if value < low - 1 || value > high + 1 {
            list.push((format!("far off by bit {bit}"), value, false));
        }
    }
    list
}

pub(super) fn field_name(field: Field) -> String {
    format!("{field:?}").to_lowercase()
}

/// Lots of these shares and a summary of this.
pub(super) fn held(shares: &[i64], sum: i64) -> Vec<Row> {
    joined(&[&lots(shares), &[summary(sum)]])
}

pub(super) fn unused_places(used: &[Field]) -> Vec<usize> {
    let unused = PLACES
        .into_iter()
        .filter(|(field, _, _)| !used.contains(field));
    unused.flat_map(|(_, at, len)| at..at + len).collect()
}

pub(super) fn with_byte(row: Row, at: usize, value: u8) -> Row {
    let mut bytes = row.write();
    bytes[at] = value;
    Row::read(&bytes)
}

const LETTERS: &[u8; 38] = b"ABCDEFGHIJKLMNOPQRSTUVWXYZ0123456789.-";

/// Symbols of each length, and of each letter at each place.
pub(super) fn good_symbols() -> Vec<[u8; 8]> {
    let mut list: Vec<[u8; 8]> = (1..=7).map(|len| symbol(&"Q"[..1].repeat(len))).collect();
    for at in 0..7 {
        for letter in LETTERS {
            let mut value = symbol("ZZZZZZZ");
            value[at] = *letter;
            list.push(value);
        }
    }
    list.sort();
    list.dedup();
    list
}

/// "A symbol is 1 to 7 of A-Z, 0-9, "." and "-", then zeros to byte 23. Byte 23 is the fence."
pub(super) fn bad_symbols() -> Vec<(String, [u8; 8])> {
    let mut list = vec![
        ("empty".to_string(), [0; 8]),
        ("of 8 letters".to_string(), *b"QQQQQQQQ"),
    ];
    for byte in (1..=255).filter(|byte| !LETTERS.contains(byte)) {
        list.push((format!("of the byte {byte}"), [byte, 0, 0, 0, 0, 0, 0, 0]));
    }
    for at in 1..7 {
        // The next bytes below and above the letters; spaces, small letters, and a high bit.
        for byte in *b" ,/:@[`az{\x01\x7f\xc1\xff" {
            let mut value = symbol("QQQQQQQ");
            value[at] = byte;
            list.push((format!("with byte {byte} at {at}"), value));
        }
    }
    for len in 0..8 {
        for at in len + 1..8 {
            for byte in [b'Q', 1, 128] {
                let mut value = symbol(&"Q".repeat(len));
                value[at] = byte;
                list.push((format!("of {len} with byte {byte} at {at}"), value));
            }
        }
    }
    for byte in [1, 128] {
        list.push((
            format!("of 7 with byte {byte} at 7"),
            [b'Q', b'Q', b'Q', b'Q', b'Q', b'Q', b'Q', byte],
        ));
    }
    list
}
