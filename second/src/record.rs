//! One grid for every row: 01, "One grid for every row".

use std::mem::take;

/// "A book is a run of 64-byte records without a header".
pub const RECORD: usize = 64;
/// "1 to 4,096 of them".
pub const MAX_RECORDS: usize = 4_096;

// The kinds of rows in a book.
pub const BROKER: u8 = 1;
pub const CUSTOMER: u8 = 2;
pub const TAX_RATE: u8 = 3;
pub const CUSTOMER_RATE: u8 = 4;
pub const ACCOUNT: u8 = 5;
pub const SECURITY: u8 = 6;
pub const BAND: u8 = 7;
pub const CHARGE: u8 = 8;
pub const TRADE: u8 = 9;
pub const REQUEST: u8 = 10;
pub const HISTORY: u8 = 11;
pub const LOT: u8 = 12;
pub const SUMMARY: u8 = 13;
pub const LOT_HISTORY: u8 = 14;
pub const SETTLEMENT: u8 = 15;
pub const CASH: u8 = 16;
/// An executor's permission to trade for an account (2026-01).
pub const PERMISSION: u8 = 17;

// The kinds of input records, and of the answers of the first three calls.
pub const ORDER_INPUT: u8 = 33;
pub const RESULT_INPUT: u8 = 34;
pub const FEED_INPUT: u8 = 35;
pub const LOOKUP_INPUT: u8 = 36;

// "Trade types: 1 TMB, 2 TMS, 3 TLB, 4 TLS, 5 TSL".
pub const TMB: u8 = 1;
pub const TMS: u8 = 2;
pub const TLB: u8 = 3;
pub const TLS: u8 = 4;
pub const TSL: u8 = 5;

// "Statuses: 1 PNDG, 2 SBMT, 3 CMPT".
pub const PNDG: u8 = 1;
pub const SBMT: u8 = 2;
pub const CMPT: u8 = 3;

// "flags cash 1 + LIFO 2", and for an order "roll back 4".
pub const FLAG_CASH: u8 = 1;
pub const FLAG_LIFO: u8 = 2;
pub const FLAG_ROLL_BACK: u8 = 4;

// The ranges of 01.
pub const MAX_NUMBER: u32 = 999_999_999;
pub const MAX_TRADE_NUMBER: u64 = 999_999_999_999_999;
pub const MAX_BROKER_TRADES: u32 = 999_999_999;
/// The bound of the commission total, of balances and of settlement and cash amounts.
pub const MAX_MONEY: i64 = 999_999_999_999_999;
pub const MAX_RATE: u32 = 100_000;
pub const MAX_PRICE: u32 = 99_999_999;
pub const MAX_SHARES: u32 = 999_999;
pub const MAX_VOLUME: u64 = 999_999_999_999;
pub const MAX_BAND_RATE: u32 = 10_000;
pub const MAX_CHARGE: u32 = 999_999;
/// The bound of a trade's commission and of its tax.
pub const MAX_FEE: u64 = 100_000_000_000_000;
pub const MAX_TIME: u32 = 4_000_000_000;
/// "Due time is time + 172,800".
pub const DUE_AFTER: u32 = 172_800;
pub const MAX_DUE_TIME: u32 = MAX_TIME + DUE_AFTER;

/// "1 and 3 buy".
pub fn buys(typ: u8) -> bool {
    typ == TMB || typ == TLB
}

/// One record, field by field. "Numbers are little-endian."
#[derive(Clone, Copy, Debug, Default, PartialEq, Eq, PartialOrd, Ord, Hash)]
pub struct Row {
    pub kind: u8,
    pub typ: u8,
    pub status: u8,
    pub flags: u8,
    pub party: u32,
    pub id: u64,
    pub symbol: [u8; 8],
    pub n1: u32,
    pub n2: u32,
    pub n3: u32,
    pub n4: u32,
    pub m1: u64,
    pub m2: u64,
    pub time: u32,
    pub n5: u32,
}

fn four(bytes: &[u8; RECORD], at: usize) -> u32 {
    u32::from_le_bytes([bytes[at], bytes[at + 1], bytes[at + 2], bytes[at + 3]])
}

fn eight(bytes: &[u8; RECORD], at: usize) -> [u8; 8] {
    let mut part = [0; 8];
    part.copy_from_slice(&bytes[at..at + 8]);
    part
}

impl Row {
    /// "From byte 0, one byte each: kind, type, status, flags. Party 4 (four bytes), id 8,
    /// symbol 16 (eight each), n1 24, n2 28, n3 32, n4 36 (four each), m1 40, m2 48 (eight each),
    /// time 56, n5 60 (four each)."
    pub fn read(bytes: &[u8; RECORD]) -> Row {
        Row {
            kind: bytes[0],
            typ: bytes[1],
            status: bytes[2],
            flags: bytes[3],
            party: four(bytes, 4),
            id: u64::from_le_bytes(eight(bytes, 8)),
            symbol: eight(bytes, 16),
            n1: four(bytes, 24),
            n2: four(bytes, 28),
            n3: four(bytes, 32),
            n4: four(bytes, 36),
            m1: u64::from_le_bytes(eight(bytes, 40)),
            m2: u64::from_le_bytes(eight(bytes, 48)),
            time: four(bytes, 56),
            n5: four(bytes, 60),
        }
    }

    pub fn write(&self) -> [u8; RECORD] {
        let mut bytes = [0; RECORD];
        bytes[0] = self.kind;
        bytes[1] = self.typ;
        bytes[2] = self.status;
        bytes[3] = self.flags;
        bytes[4..8].copy_from_slice(&self.party.to_le_bytes());
        bytes[8..16].copy_from_slice(&self.id.to_le_bytes());
        bytes[16..24].copy_from_slice(&self.symbol);
        bytes[24..28].copy_from_slice(&self.n1.to_le_bytes());
        bytes[28..32].copy_from_slice(&self.n2.to_le_bytes());
        bytes[32..36].copy_from_slice(&self.n3.to_le_bytes());
        bytes[36..40].copy_from_slice(&self.n4.to_le_bytes());
        bytes[40..48].copy_from_slice(&self.m1.to_le_bytes());
        bytes[48..56].copy_from_slice(&self.m2.to_le_bytes());
        bytes[56..60].copy_from_slice(&self.time.to_le_bytes());
        bytes[60..64].copy_from_slice(&self.n5.to_le_bytes());
        bytes
    }

    /// "A record of 64 zeros is free."
    pub fn is_free(&self) -> bool {
        *self == Row::default()
    }

    // The signed views of the fields that 01 calls signed.

    pub fn signed_n1(&self) -> i32 {
        self.n1 as i32
    }

    pub fn signed_n2(&self) -> i32 {
        self.n2 as i32
    }

    pub fn signed_m1(&self) -> i64 {
        self.m1 as i64
    }

    pub fn signed_m2(&self) -> i64 {
        self.m2 as i64
    }

    /// "bytes 16-23 tax" of an answer.
    pub fn tax(&self) -> u64 {
        u64::from_le_bytes(self.symbol)
    }
}

/// The records of an area, whose length is a multiple of 64.
pub fn rows_of(bytes: &[u8]) -> Vec<Row> {
    assert!(bytes.len().is_multiple_of(RECORD));
    bytes
        .chunks_exact(RECORD)
        .map(|record| Row::read(record.try_into().unwrap()))
        .collect()
}

/// The area that holds these records.
pub fn bytes_of(rows: &[Row]) -> Vec<u8> {
    rows.iter().flat_map(|row| row.write()).collect()
}

/// A symbol's eight bytes from its letters, at most eight of them.
pub fn symbol(letters: &str) -> [u8; 8] {
    let mut bytes = [0; 8];
    bytes[..letters.len()].copy_from_slice(letters.as_bytes());
    bytes
}

/// The field whose rule a record breaks.
#[derive(Clone, Copy, Debug, PartialEq, Eq, Hash)]
pub enum Field {
    Kind,
    Typ,
    Status,
    Flags,
    Party,
    Id,
    Symbol,
    N1,
    N2,
    N3,
    N4,
    M1,
    M2,
    Time,
    N5,
}

fn want(good: bool, field: Field) -> Result<(), Field> {
    if good {
        Ok(())
    } else {
        Err(field)
    }
}

fn within<T: PartialOrd>(value: T, low: T, high: T, field: Field) -> Result<(), Field> {
    want(low <= value && value <= high, field)
}

/// "other numbers that name a party or rate 1..999,999,999".
fn party_number(value: u32, field: Field) -> Result<(), Field> {
    within(value, 1, MAX_NUMBER, field)
}

/// "trade numbers 1..999,999,999,999,999".
fn trade_number(value: u64, field: Field) -> Result<(), Field> {
    within(value, 1, MAX_TRADE_NUMBER, field)
}

/// "Prices are 1..99,999,999".
fn price(value: u32, field: Field) -> Result<(), Field> {
    within(value, 1, MAX_PRICE, field)
}

/// "shares 1..999,999".
fn shares(value: u32, field: Field) -> Result<(), Field> {
    within(value, 1, MAX_SHARES, field)
}

/// "times 0..4,000,000,000 seconds from 2000-01-01".
fn time(value: u32) -> Result<(), Field> {
    within(value, 0, MAX_TIME, Field::Time)
}

/// "signed, within ±999,999,999,999,999".
fn signed_money(value: u64, field: Field) -> Result<(), Field> {
    within(value as i64, -MAX_MONEY, MAX_MONEY, field)
}

fn trade_type(value: u8) -> Result<(), Field> {
    within(value, TMB, TSL, Field::Typ)
}

/// "A symbol is 1 to 7 of A-Z, 0-9, "." and "-", then zeros to byte 23. Byte 23 is the fence."
fn symbol_rule(value: [u8; 8]) -> Result<(), Field> {
    want(is_symbol(&value), Field::Symbol)
}

pub fn is_symbol(value: &[u8; 8]) -> bool {
    let letters = value.iter().take_while(|byte| **byte != 0).count();
    let good_letters = value[..letters]
        .iter()
        .all(|byte| matches!(byte, b'A'..=b'Z' | b'0'..=b'9' | b'.' | b'-'));
    let zeros_after = value[letters..].iter().all(|byte| *byte == 0);
    (1..=7).contains(&letters) && good_letters && zeros_after
}

/// "Unused fields are zero." The used ones were taken out of `rest` before.
fn unused_are_zero(rest: &Row) -> Result<(), Field> {
    want(rest.kind == 0, Field::Kind)?;
    want(rest.typ == 0, Field::Typ)?;
    want(rest.status == 0, Field::Status)?;
    want(rest.flags == 0, Field::Flags)?;
    want(rest.party == 0, Field::Party)?;
    want(rest.id == 0, Field::Id)?;
    want(rest.symbol == [0; 8], Field::Symbol)?;
    want(rest.n1 == 0, Field::N1)?;
    want(rest.n2 == 0, Field::N2)?;
    want(rest.n3 == 0, Field::N3)?;
    want(rest.n4 == 0, Field::N4)?;
    want(rest.m1 == 0, Field::M1)?;
    want(rest.m2 == 0, Field::M2)?;
    want(rest.time == 0, Field::Time)?;
    want(rest.n5 == 0, Field::N5)
}

/// The table of kinds 1 to 17: does a record that is not free fit the grid?
pub fn fits_grid(bytes: &[u8; RECORD]) -> Result<(), Field> {
    let row = Row::read(bytes);
    // Each used field is looked at and taken out (left zero); all that stays must be zero.
    let mut rest = row;
    match take(&mut rest.kind) {
        // "party; n1 trades 0..999,999,999; m1 commission total 0..999,999,999,999,999"
        BROKER => {
            party_number(take(&mut rest.party), Field::Party)?;
            within(take(&mut rest.n1), 0, MAX_BROKER_TRADES, Field::N1)?;
            within(take(&mut rest.m1), 0, MAX_MONEY as u64, Field::M1)?;
        }
        // "party; type = tier 1..3"
        CUSTOMER => {
            party_number(take(&mut rest.party), Field::Party)?;
            within(take(&mut rest.typ), 1, 3, Field::Typ)?;
        }
        // "party; n1 = 0..100,000 (hundred-thousandths)"
        TAX_RATE => {
            party_number(take(&mut rest.party), Field::Party)?;
            within(take(&mut rest.n1), 0, MAX_RATE, Field::N1)?;
        }
        // "party customer, n1 rate"
        CUSTOMER_RATE => {
            party_number(take(&mut rest.party), Field::Party)?;
            party_number(take(&mut rest.n1), Field::N1)?;
        }
        // "party; n1 broker, n2 customer; type = tax status 0..2; m1 balance, signed, within
        // ±999,999,999,999,999"
        ACCOUNT => {
            party_number(take(&mut rest.party), Field::Party)?;
            party_number(take(&mut rest.n1), Field::N1)?;
            party_number(take(&mut rest.n2), Field::N2)?;
            within(take(&mut rest.typ), 0, 2, Field::Typ)?;
            signed_money(take(&mut rest.m1), Field::M1)?;
        }
        // "symbol; type = exchange 1..4; n1 last price; m1 volume 0..999,999,999,999; time"
        SECURITY => {
            symbol_rule(take(&mut rest.symbol))?;
            within(take(&mut rest.typ), 1, 4, Field::Typ)?;
            price(take(&mut rest.n1), Field::N1)?;
            within(take(&mut rest.m1), 0, MAX_VOLUME, Field::M1)?;
            time(take(&mut rest.time))?;
        }
        // "type trade type, status tier, flags exchange, n1 from, n2 to (1..999,999, from ≤ to);
        // n3 rate 0..10,000 (hundredths of a percent)"
        BAND => {
            trade_type(take(&mut rest.typ))?;
            within(take(&mut rest.status), 1, 3, Field::Status)?;
            within(take(&mut rest.flags), 1, 4, Field::Flags)?;
            shares(take(&mut rest.n1), Field::N1)?;
            shares(take(&mut rest.n2), Field::N2)?;
            want(row.n1 <= row.n2, Field::N2)?;
            within(take(&mut rest.n3), 0, MAX_BAND_RATE, Field::N3)?;
        }
        // "type trade type, status tier; n1 = 0..999,999"
        CHARGE => {
            trade_type(take(&mut rest.typ))?;
            within(take(&mut rest.status), 1, 3, Field::Status)?;
            within(take(&mut rest.n1), 0, MAX_CHARGE, Field::N1)?;
        }
        // "id; type, status; flags cash 1 + LIFO 2; party account; symbol; n1 shares; n2 bid;
        // n3 trade price; n4 charge 0..999,999; m1 commission and m2 tax, each
        // 0..100,000,000,000,000; time"
        TRADE => {
            trade_number(take(&mut rest.id), Field::Id)?;
            trade_type(take(&mut rest.typ))?;
            within(take(&mut rest.status), PNDG, CMPT, Field::Status)?;
            within(
                take(&mut rest.flags),
                0,
                FLAG_CASH + FLAG_LIFO,
                Field::Flags,
            )?;
            party_number(take(&mut rest.party), Field::Party)?;
            symbol_rule(take(&mut rest.symbol))?;
            shares(take(&mut rest.n1), Field::N1)?;
            price(take(&mut rest.n2), Field::N2)?;
            within(take(&mut rest.n4), 0, MAX_CHARGE, Field::N4)?;
            within(take(&mut rest.m1), 0, MAX_FEE, Field::M1)?;
            time(take(&mut rest.time))?;
            // "A trade's n3 is zero exactly until it is completed; its m2 is zero until then and
            // may stay so."
            let trade_price = take(&mut rest.n3);
            let tax = take(&mut rest.m2);
            if row.status == CMPT {
                price(trade_price, Field::N3)?;
                within(tax, 0, MAX_FEE, Field::M2)?;
            } else {
                want(trade_price == 0, Field::N3)?;
                want(tax == 0, Field::M2)?;
            }
        }
        // "id; type, symbol, n1 and n2 as the trade's; party = the account's broker"
        REQUEST => {
            trade_number(take(&mut rest.id), Field::Id)?;
            trade_type(take(&mut rest.typ))?;
            symbol_rule(take(&mut rest.symbol))?;
            shares(take(&mut rest.n1), Field::N1)?;
            price(take(&mut rest.n2), Field::N2)?;
            party_number(take(&mut rest.party), Field::Party)?;
        }
        // "id, status; time"
        HISTORY => {
            trade_number(take(&mut rest.id), Field::Id)?;
            within(take(&mut rest.status), PNDG, CMPT, Field::Status)?;
            time(take(&mut rest.time))?;
        }
        // "id; party account; symbol; n1 price; m1 signed shares; time", and of shares
        // "a lot's may be negative, never zero"
        LOT => {
            trade_number(take(&mut rest.id), Field::Id)?;
            party_number(take(&mut rest.party), Field::Party)?;
            symbol_rule(take(&mut rest.symbol))?;
            price(take(&mut rest.n1), Field::N1)?;
            let lot = take(&mut rest.m1) as i64;
            within(
                lot,
                -i64::from(MAX_SHARES),
                i64::from(MAX_SHARES),
                Field::M1,
            )?;
            want(lot != 0, Field::M1)?;
            time(take(&mut rest.time))?;
        }
        // "party, symbol; m1 signed shares, not zero", and "a summary's is unbounded"
        SUMMARY => {
            party_number(take(&mut rest.party), Field::Party)?;
            symbol_rule(take(&mut rest.symbol))?;
            want(take(&mut rest.m1) != 0, Field::M1)?;
        }
        // "id lot, m2 changing trade; n1 before and n2 after, signed, within ±999,999, unequal"
        LOT_HISTORY => {
            let most = MAX_SHARES as i32;
            trade_number(take(&mut rest.id), Field::Id)?;
            trade_number(take(&mut rest.m2), Field::M2)?;
            within(take(&mut rest.n1) as i32, -most, most, Field::N1)?;
            within(take(&mut rest.n2) as i32, -most, most, Field::N2)?;
            want(row.n1 != row.n2, Field::N2)?;
        }
        // "id; flags cash 0 or 1; m1 signed amount, within ±999,999,999,999,999; time due,
        // 0..4,000,172,800"
        SETTLEMENT => {
            trade_number(take(&mut rest.id), Field::Id)?;
            within(take(&mut rest.flags), 0, 1, Field::Flags)?;
            signed_money(take(&mut rest.m1), Field::M1)?;
            within(take(&mut rest.time), 0, MAX_DUE_TIME, Field::Time)?;
        }
        // "id; m1 signed amount, same range; time"
        CASH => {
            trade_number(take(&mut rest.id), Field::Id)?;
            signed_money(take(&mut rest.m1), Field::M1)?;
            time(take(&mut rest.time))?;
        }
        // "party account, n1 executor, both the key" (2026-01)
        PERMISSION => {
            party_number(take(&mut rest.party), Field::Party)?;
            party_number(take(&mut rest.n1), Field::N1)?;
        }
        _ => return Err(Field::Kind),
    }
    unused_are_zero(&rest)
}

/// S1 for one record: "every record is free or fits the grid".
pub fn check_record(bytes: &[u8; RECORD]) -> Result<(), Field> {
    if bytes.iter().all(|byte| *byte == 0) {
        return Ok(());
    }
    fits_grid(bytes)
}

/// The rules whose breach is -103, for an input record of this kind (33 to 36).
pub fn check_input(kind: u8, bytes: &[u8; RECORD]) -> Result<(), Field> {
    let row = Row::read(bytes);
    want(row.kind == kind, Field::Kind)?;
    let mut rest = row;
    match take(&mut rest.kind) {
        // "kind 33; type; flags cash 1, LIFO 2, roll back 4; party; symbol; n1 shares; n2 bid (zero
        // exactly for types 1 and 2, which use the last price); time"
        ORDER_INPUT => {
            trade_type(take(&mut rest.typ))?;
            let all_flags = FLAG_CASH + FLAG_LIFO + FLAG_ROLL_BACK;
            within(take(&mut rest.flags), 0, all_flags, Field::Flags)?;
            party_number(take(&mut rest.party), Field::Party)?;
            symbol_rule(take(&mut rest.symbol))?;
            shares(take(&mut rest.n1), Field::N1)?;
            let bid = take(&mut rest.n2);
            if row.typ == TMB || row.typ == TMS {
                want(bid == 0, Field::N2)?;
            } else {
                price(bid, Field::N2)?;
            }
            // "let n3 of an order name the executor; zero is the owner" (2026-01)
            within(take(&mut rest.n3), 0, MAX_NUMBER, Field::N3)?;
            time(take(&mut rest.time))?;
        }
        // "kind 34, id, n1 price, time"
        RESULT_INPUT => {
            trade_number(take(&mut rest.id), Field::Id)?;
            price(take(&mut rest.n1), Field::N1)?;
            time(take(&mut rest.time))?;
        }
        // "kind 35: symbol, n1 price, n2 shares, time"
        FEED_INPUT => {
            symbol_rule(take(&mut rest.symbol))?;
            price(take(&mut rest.n1), Field::N1)?;
            shares(take(&mut rest.n2), Field::N2)?;
            time(take(&mut rest.time))?;
        }
        // "kind 36, id"
        LOOKUP_INPUT => {
            trade_number(take(&mut rest.id), Field::Id)?;
        }
        _ => return Err(Field::Kind),
    }
    unused_are_zero(&rest)
}
