//! Why a book is refused: the first rule that fails, the place of a row that breaks it, and what is wrong with it, in
//! words. The rules are decided by `sound`; here they are gone through once more, plainly, for the place.

use crate::calls::{Call, BAD_INPUT, BOOK_LENGTH, NOT_SOUND, WRONG_LENGTH};
use crate::record::*;
use crate::sound::{self, key, Rule};
use crate::words;
use std::collections::HashMap;

/// A row that breaks the rule; its place is counted from 0.
#[derive(Clone, Debug, PartialEq, Eq)]
pub struct Fault {
    pub rule: Rule,
    pub place: usize,
    pub why: String,
}

/// A rule, gone through row by row: the place of a row that breaks it, and why.
type Search = fn(&Rows) -> Option<(usize, String)>;

const SEARCHES: [(Rule, Search); 9] = [
    (Rule::S2, s2),
    (Rule::S3, s3),
    (Rule::S4, s4),
    (Rule::S5, s5),
    (Rule::S6, s6),
    (Rule::S7, s7),
    (Rule::S8, s8),
    (Rule::S9, s9),
    (Rule::S10, s10),
];

/// The first rule that a book breaks, and where; nothing if it is sound. Its length is a multiple of 64.
pub fn fault(book: &[u8]) -> Option<Fault> {
    let found = |rule, (place, why)| Fault { rule, place, why };
    for (place, record) in book.chunks_exact(RECORD).enumerate() {
        let bytes = record.try_into().unwrap();
        if let Err(field) = check_record(bytes) {
            let why = words::why(&Row::read(bytes), field, "1 to 17");
            return Some(found(Rule::S1, (place, why)));
        }
    }
    let rows = Rows(rows_of(book));
    let mut searches = SEARCHES.iter();
    searches.find_map(|(rule, search)| search(&rows).map(|at| found(*rule, at)))
}

/// The rows of a book at their places. Every record fits the grid.
struct Rows(Vec<Row>);

impl Rows {
    /// The rows of this kind, with their places.
    fn of(&self, kind: u8) -> impl Iterator<Item = (usize, &Row)> {
        let all = self.0.iter().enumerate();
        all.filter(move |(_, row)| row.kind == kind)
    }

    fn find(&self, kind: u8, good: impl Fn(&Row) -> bool) -> Option<(usize, &Row)> {
        self.of(kind).find(|(_, row)| good(row))
    }

    fn party(&self, kind: u8, number: u32) -> Option<&Row> {
        self.find(kind, |row| row.party == number)
            .map(|(_, row)| row)
    }

    fn numbered(&self, kind: u8, number: u64) -> Option<(usize, &Row)> {
        self.find(kind, |row| row.id == number)
    }

    /// The trade of this number, which is there by S3.
    fn trade(&self, number: u64) -> &Row {
        self.numbered(TRADE, number).expect("S3 holds here").1
    }
}

/// "S2 keys are unique within a kind."
fn s2(rows: &Rows) -> Option<(usize, String)> {
    for (place, row) in rows.0.iter().enumerate() {
        if row.is_free() {
            continue;
        }
        let same = |(_, other): &(usize, &Row)| key(other) == key(row);
        let (first, _) = rows.of(row.kind).find(same).unwrap();
        if first < place {
            let name = words::kind_name(row.kind);
            return Some((
                place,
                format!("a {name} with this key is at place {first} already"),
            ));
        }
    }
    None
}

/// What a row names: a kind, and a number or the symbol.
fn named(row: &Row) -> Vec<(u8, u64)> {
    let party = u64::from(row.party);
    match row.kind {
        CUSTOMER_RATE => vec![(CUSTOMER, party), (TAX_RATE, u64::from(row.n1))],
        ACCOUNT => vec![(BROKER, u64::from(row.n1)), (CUSTOMER, u64::from(row.n2))],
        TRADE | SUMMARY => vec![(ACCOUNT, party), (SECURITY, 0)],
        REQUEST => vec![(TRADE, row.id), (BROKER, party), (SECURITY, 0)],
        HISTORY | SETTLEMENT | CASH => vec![(TRADE, row.id)],
        LOT => vec![(TRADE, row.id), (ACCOUNT, party), (SECURITY, 0)],
        LOT_HISTORY => vec![(TRADE, row.id), (TRADE, row.m2)],
        PERMISSION => vec![(ACCOUNT, party)],
        _ => vec![],
    }
}

/// "S3 every named broker, customer, rate, account, security and trade is there."
fn s3(rows: &Rows) -> Option<(usize, String)> {
    for (place, row) in rows.0.iter().enumerate() {
        for (kind, number) in named(row) {
            let (there, name) = match kind {
                SECURITY => {
                    let symbol = rows.find(SECURITY, |other| other.symbol == row.symbol);
                    (symbol.is_some(), words::letters(row.symbol))
                }
                TRADE => (rows.numbered(TRADE, number).is_some(), number.to_string()),
                _ => (
                    rows.party(kind, number as u32).is_some(),
                    number.to_string(),
                ),
            };
            if !there {
                return Some((
                    place,
                    format!("there is no {} {name}", words::kind_name(kind)),
                ));
            }
        }
    }
    None
}

/// "S4 bands of equal type, tier and exchange don't overlap."
fn s4(rows: &Rows) -> Option<(usize, String)> {
    for (place, band) in rows.of(BAND) {
        let alike = |other: &Row| {
            (other.typ, other.status, other.flags) == (band.typ, band.status, band.flags)
        };
        let overlaps = |other: &Row| {
            other != band && alike(other) && other.n1 <= band.n2 && band.n1 <= other.n2
        };
        if let Some((first, _)) = rows.find(BAND, overlaps) {
            return Some((place, format!("it overlaps the band at place {first}")));
        }
    }
    None
}

/// "S5 a customer's rates sum to at most 100,000."
fn s5(rows: &Rows) -> Option<(usize, String)> {
    let mut sums: HashMap<u32, u64> = HashMap::new();
    for (place, row) in rows.of(CUSTOMER_RATE) {
        let rate = rows.party(TAX_RATE, row.n1).expect("S3 holds here").n1;
        let sum = sums.entry(row.party).or_default();
        *sum += u64::from(rate);
        if *sum > u64::from(MAX_RATE) {
            let why = format!("with it the customer's rates sum to {sum}, above {MAX_RATE}");
            return Some((place, why));
        }
    }
    None
}

/// "S6 a trade of status 1 has type 3, 4 or 5 and one request that agrees; no other trade has one."
fn s6(rows: &Rows) -> Option<(usize, String)> {
    for (place, trade) in rows.of(TRADE) {
        let request = rows.numbered(REQUEST, trade.id);
        if trade.status != PNDG {
            if let Some((at, _)) = request {
                return Some((at, format!("its trade, at place {place}, is not pending")));
            }
            continue;
        }
        if !matches!(trade.typ, TLB | TLS | TSL) {
            return Some((
                place,
                "it is pending, and of a type that does not wait".to_string(),
            ));
        }
        let Some((at, request)) = request else {
            return Some((place, "it is pending, and has no request".to_string()));
        };
        let broker = rows.party(ACCOUNT, trade.party).expect("S3 holds here").n1;
        let unlike = [
            ("type", request.typ != trade.typ),
            ("symbol", request.symbol != trade.symbol),
            ("n1", request.n1 != trade.n1),
            ("n2", request.n2 != trade.n2),
        ];
        if let Some((field, _)) = unlike.iter().find(|(_, differs)| *differs) {
            return Some((
                at,
                format!("its {field} is not that of its trade, at place {place}"),
            ));
        }
        if request.party != broker {
            return Some((
                at,
                format!("its party is not {broker}, the broker of the trade's account"),
            ));
        }
    }
    None
}

/// "S7 a trade has the history row of its present status and none of a higher one."
fn s7(rows: &Rows) -> Option<(usize, String)> {
    for (place, trade) in rows.of(TRADE) {
        let status = |row: &Row| (row.id == trade.id).then_some(row.status);
        if rows
            .find(HISTORY, |row| status(row) == Some(trade.status))
            .is_none()
        {
            return Some((
                place,
                "it has no history row of its present status".to_string(),
            ));
        }
        if let Some((at, _)) = rows.find(HISTORY, |row| status(row) > Some(trade.status)) {
            return Some((
                at,
                format!("its trade, at place {place}, has a lower status"),
            ));
        }
    }
    None
}

/// "S8 a lot names a completed trade of its account and symbol. Lots of one account and symbol have one sign. A
/// summary exists exactly where lots do and equals their sum."
fn s8(rows: &Rows) -> Option<(usize, String)> {
    let position = |row: &Row| (row.party, row.symbol);
    for (place, lot) in rows.of(LOT) {
        let trade = rows.trade(lot.id);
        if trade.status != CMPT {
            return Some((place, format!("trade {} is not completed", lot.id)));
        }
        if position(trade) != position(lot) {
            return Some((
                place,
                format!("trade {} is of another account or symbol", lot.id),
            ));
        }
        let alike = |row: &Row| position(row) == position(lot);
        let (first, other) = rows.find(LOT, alike).unwrap();
        if (other.signed_m1() > 0) != (lot.signed_m1() > 0) {
            return Some((
                place,
                format!("its shares have another sign than those of the lot at place {first}"),
            ));
        }
        if rows.find(SUMMARY, alike).is_none() {
            return Some((
                place,
                "there is no summary of its account and symbol".to_string(),
            ));
        }
    }
    for (place, summary) in rows.of(SUMMARY) {
        let lots = rows
            .of(LOT)
            .filter(|(_, lot)| position(lot) == position(summary));
        let sum: i64 = lots.map(|(_, lot)| lot.signed_m1()).sum();
        if sum == 0 {
            return Some((
                place,
                "there is no lot of its account and symbol".to_string(),
            ));
        }
        if sum != summary.signed_m1() {
            return Some((place, format!("its lots sum to {sum}")));
        }
    }
    None
}

/// "S9 a settlement exists exactly for a completed trade, its flag the trade's cash flag; a cash row
/// exactly where that flag is 1, with the same amount."
fn s9(rows: &Rows) -> Option<(usize, String)> {
    for (place, trade) in rows.of(TRADE) {
        let (settlement, cash) = (
            rows.numbered(SETTLEMENT, trade.id),
            rows.numbered(CASH, trade.id),
        );
        if trade.status != CMPT {
            if let Some((at, _)) = settlement.or(cash) {
                return Some((at, format!("its trade, at place {place}, is not completed")));
            }
            continue;
        }
        let Some((at, settlement)) = settlement else {
            return Some((place, "it is completed, and has no settlement".to_string()));
        };
        if settlement.flags != trade.flags & FLAG_CASH {
            return Some((
                at,
                format!("its cash flag is not that of its trade, at place {place}"),
            ));
        }
        match cash {
            None if settlement.flags == 1 => {
                return Some((
                    at,
                    "its cash flag is 1, and there is no cash row".to_string(),
                ))
            }
            Some((cash, _)) if settlement.flags == 0 => {
                return Some((
                    cash,
                    format!("the cash flag of its settlement, at place {at}, is 0"),
                ));
            }
            Some((cash, row)) if row.m1 != settlement.m1 => {
                return Some((
                    cash,
                    format!("its amount is not that of its settlement, at place {at}"),
                ));
            }
            _ => {}
        }
    }
    None
}

/// "S10 both trades of a lot history are completed."
fn s10(rows: &Rows) -> Option<(usize, String)> {
    for (place, row) in rows.of(LOT_HISTORY) {
        for number in [row.id, row.m2] {
            if rows.trade(number).status != CMPT {
                return Some((place, format!("trade {number} is not completed")));
            }
        }
    }
    None
}

/// What `book-check` says of a book: whether it is sound, and the lines of its answer.
pub fn book(bytes: &[u8]) -> (bool, String) {
    let status = sound::status(bytes);
    if status == BOOK_LENGTH {
        let length = bytes.len();
        return (false, format!("refused {status}\n{length} bytes are no book: 1 to 4,096 records of 64 bytes are\n"));
    }
    let found = fault(bytes);
    // The two must agree: this search is only here to find the place.
    assert_eq!(
        sound::check(bytes).err(),
        found.as_ref().map(|fault| fault.rule)
    );
    match found {
        None => (true, "sound\n".to_string()),
        Some(Fault { rule, place, why }) => {
            let row = words::row(&rows_of(bytes)[place]);
            (
                false,
                format!("refused {NOT_SOUND} {rule:?} place {place}\n{row}\n{why}\n"),
            )
        }
    }
}

/// What `book-check` says of the input of a call: whether it is good, and the lines of its answer.
pub fn input(call: Call, bytes: &[u8]) -> (bool, String) {
    if !call.input_length_is_good(bytes.len()) {
        let (length, name) = (bytes.len(), call.name());
        return (
            false,
            format!("refused {WRONG_LENGTH}\n{length} bytes are no input of a {name}\n"),
        );
    }
    for (number, record) in bytes.chunks_exact(RECORD).enumerate() {
        let record = record.try_into().unwrap();
        if let Err(field) = check_input(call.kind(), record) {
            let (row, name) = (Row::read(record), words::field_name(field));
            let why = words::why(&row, field, &call.kind().to_string());
            let said = words::row(&row);
            return (
                false,
                format!("refused {BAD_INPUT} {name} record {number}\n{said}\n{why}\n"),
            );
        }
    }
    (true, "good\n".to_string())
}
