//! Rows and fields in plain words.

use crate::record::*;

/// A number with so many decimals, its thousands apart.
pub fn decimal(number: i64, decimals: usize) -> String {
    let digits = format!("{:0>width$}", number.unsigned_abs(), width = decimals + 1);
    let (whole, part) = digits.split_at(digits.len() - decimals);
    let mut text = String::new();
    for (at, digit) in whole.chars().enumerate() {
        if at > 0 && (whole.len() - at).is_multiple_of(3) {
            text.push(',');
        }
        text.push(digit);
    }
    let sign = if number < 0 { "-" } else { "" };
    let point = if decimals > 0 { "." } else { "" };
    format!("{sign}{text}{point}{part}")
}

fn money(cents: i64) -> String {
    decimal(cents, 2)
}

fn price(cents: u32) -> String {
    money(i64::from(cents))
}

fn count(number: i64) -> String {
    decimal(number, 0)
}

/// The bytes of a symbol; those that are no letter of one as `\x00`.
pub fn letters(symbol: [u8; 8]) -> String {
    let end = symbol.iter().rposition(|byte| *byte != 0);
    let bytes = &symbol[..end.map_or(0, |at| at + 1)];
    bytes
        .iter()
        .map(|byte| byte.escape_ascii().to_string())
        .collect()
}

pub fn kind_name(kind: u8) -> &'static str {
    match kind {
        BROKER => "broker",
        CUSTOMER => "customer",
        TAX_RATE => "tax rate",
        CUSTOMER_RATE => "customer's rate",
        ACCOUNT => "account",
        SECURITY => "security",
        BAND => "commission band",
        CHARGE => "charge",
        TRADE => "trade",
        REQUEST => "request",
        HISTORY => "trade history",
        LOT => "lot",
        SUMMARY => "summary",
        LOT_HISTORY => "lot history",
        SETTLEMENT => "settlement",
        CASH => "cash row",
        PERMISSION => "permission",
        ORDER_INPUT => "order",
        RESULT_INPUT => "result",
        FEED_INPUT => "entry of a feed",
        LOOKUP_INPUT => "lookup",
        _ => "record of no kind",
    }
}

fn type_name(typ: u8) -> String {
    let names = [
        "market buy",
        "market sell",
        "limit buy",
        "limit sell",
        "stop loss",
    ];
    match usize::from(typ).checked_sub(1).and_then(|at| names.get(at)) {
        Some(name) => name.to_string(),
        None => format!("trade of type {typ}"),
    }
}

fn status_name(status: u8) -> String {
    match status {
        PNDG => "pending".to_string(),
        SBMT => "submitted".to_string(),
        CMPT => "completed".to_string(),
        _ => format!("status {status}"),
    }
}

/// What a row or an input record says, on one line.
pub fn row(row: &Row) -> String {
    let Row {
        party,
        id,
        n1,
        n2,
        time,
        ..
    } = *row;
    let (symbol, typ) = (letters(row.symbol), type_name(row.typ));
    let shares = count(i64::from(n1));
    match row.kind {
        _ if row.is_free() => "a free record".to_string(),
        BROKER => format!("broker {party}: {shares} trades, commissions of {}", money(row.signed_m1())),
        CUSTOMER => format!("customer {party}: tier {}", row.typ),
        TAX_RATE => format!("tax rate {party}: {} %", decimal(i64::from(n1), 3)),
        CUSTOMER_RATE => format!("customer {party} pays tax rate {n1}"),
        ACCOUNT => format!(
            "account {party} of customer {n2} with broker {n1}: tax status {}, balance {}",
            row.typ,
            money(row.signed_m1())
        ),
        SECURITY => format!(
            "security {symbol} on exchange {}: last price {}, volume {}, time {time}",
            row.typ,
            price(n1),
            row.m1
        ),
        BAND => format!(
            "commission of a {typ}, tier {}, exchange {}, {shares} to {} shares: {} %",
            row.status,
            row.flags,
            count(i64::from(n2)),
            decimal(i64::from(row.n3), 2)
        ),
        CHARGE => format!("charge of a {typ}, tier {}: {}", row.status, price(n1)),
        TRADE => format!(
            "trade {id}: {typ} of {shares} {symbol} for account {party}, flags {}, {}; bid {}, price {}, charge {}, \
             commission {}, tax {}, time {time}",
            row.flags,
            status_name(row.status),
            price(n2),
            price(row.n3),
            price(row.n4),
            money(row.signed_m1()),
            money(row.signed_m2())
        ),
        REQUEST => format!("request of trade {id}: {typ} of {shares} {symbol} at {} with broker {party}", price(n2)),
        HISTORY => format!("history of trade {id}: {} at time {time}", status_name(row.status)),
        LOT => format!(
            "lot {id} of account {party}: {} {symbol} at {}, time {time}",
            count(row.signed_m1()),
            price(n1)
        ),
        SUMMARY => format!("summary of account {party}: {} {symbol}", count(row.signed_m1())),
        LOT_HISTORY => format!(
            "history of lot {id}: from {} shares to {} by trade {}",
            count(i64::from(row.signed_n1())),
            count(i64::from(row.signed_n2())),
            row.m2
        ),
        SETTLEMENT => format!(
            "settlement of trade {id}: {}, cash flag {}, due at time {time}",
            money(row.signed_m1()),
            row.flags
        ),
        CASH => format!("cash for trade {id}: {} at time {time}", money(row.signed_m1())),
        PERMISSION => format!("executor {n1} may trade for account {party}"),
        ORDER_INPUT => {
            let executor = match row.n3 {
                0 => String::new(),
                executor => format!(" by executor {executor}"),
            };
            format!(
                "order: {typ} of {shares} {symbol} for account {party}{executor}, flags {}, bid {}, time {time}",
                row.flags,
                price(n2)
            )
        }
        RESULT_INPUT => format!("result of trade {id} at {}, time {time}", price(n1)),
        FEED_INPUT => format!("entry of a feed: {n2} {symbol} at {}, time {time}", price(n1)),
        LOOKUP_INPUT => format!("lookup of trade {id}"),
        kind => format!("a record of kind {kind}"),
    }
}

pub fn field_name(field: Field) -> &'static str {
    match field {
        Field::Kind => "kind",
        Field::Typ => "type",
        Field::Status => "status",
        Field::Flags => "flags",
        Field::Party => "party",
        Field::Id => "id",
        Field::Symbol => "symbol",
        Field::N1 => "n1",
        Field::N2 => "n2",
        Field::N3 => "n3",
        Field::N4 => "n4",
        Field::M1 => "m1",
        Field::M2 => "m2",
        Field::Time => "time",
        Field::N5 => "n5",
    }
}

const PARTY_RANGE: &str = "1..999,999,999";
const TRADE_RANGE: &str = "1..999,999,999,999,999";
const MONEY_RANGE: &str = "signed, within 999,999,999,999,999 of zero";
const SYMBOL_RULE: &str = "1 to 7 of A-Z, 0-9, \".\" and \"-\", then zeros to its eighth byte";
const TIME_RANGE: &str = "0..4,000,000,000";
const PRICE_RANGE: &str = "1..99,999,999";
const SHARES_RANGE: &str = "1..999,999";

/// What a used field of this kind is, and its rule; nothing if the kind does not use it.
pub fn rule(kind: u8, field: Field) -> Option<(&'static str, &'static str)> {
    use Field::*;
    Some(match (kind, field) {
        (BROKER, N1) => ("the trades of a broker", "0..999,999,999"),
        (BROKER, M1) => ("a broker's commissions in all", "0..999,999,999,999,999"),
        (BROKER | CUSTOMER | TAX_RATE | ACCOUNT, Party) => ("its number", PARTY_RANGE),
        (CUSTOMER, Typ) => ("the tier of a customer", "1..3"),
        (TAX_RATE, N1) => ("the rate in hundred-thousandths", "0..100,000"),
        (CUSTOMER_RATE, Party) => ("the customer", PARTY_RANGE),
        (CUSTOMER_RATE, N1) => ("the tax rate's number", PARTY_RANGE),
        (ACCOUNT, Typ) => ("the tax status of an account", "0..2"),
        (ACCOUNT, N1) => ("the broker of an account", PARTY_RANGE),
        (ACCOUNT, N2) => ("the customer of an account", PARTY_RANGE),
        (ACCOUNT, M1) => ("the balance of an account", MONEY_RANGE),
        (SECURITY, Typ) => ("the exchange of a security", "1..4"),
        (SECURITY, N1) => ("the last price of a security", PRICE_RANGE),
        (SECURITY, M1) => ("the volume of a security", "0..999,999,999,999"),
        (BAND | CHARGE, Status) => ("the tier", "1..3"),
        (BAND, Flags) => ("the exchange", "1..4"),
        (BAND, N1) => ("from so many shares", SHARES_RANGE),
        (BAND, N2) => ("to so many shares", "1..999,999, not below n1"),
        (BAND, N3) => ("the rate in hundredths of a percent", "0..10,000"),
        (CHARGE, N1) => ("the charge", "0..999,999"),
        (TRADE, Status) | (HISTORY, Status) => ("the trade status", "1..3"),
        (TRADE, Flags) => ("cash 1 and LIFO 2, added up", "0..3"),
        (TRADE, N2) | (REQUEST, N2) => ("the bid", PRICE_RANGE),
        (TRADE, N3) => (
            "the price of a completed trade",
            "0 until it is completed, 1..99,999,999 then",
        ),
        (TRADE, N4) => ("the charge", "0..999,999"),
        (TRADE, M1) => ("the commission", "0..100,000,000,000,000"),
        (TRADE, M2) => (
            "the tax",
            "0 until it is completed, 0..100,000,000,000,000 then",
        ),
        (REQUEST, Party) => ("the broker of the trade's account", PARTY_RANGE),
        (TRADE | LOT | SUMMARY | PERMISSION | ORDER_INPUT, Party) => ("the account", PARTY_RANGE),
        (BAND | CHARGE | TRADE | REQUEST | ORDER_INPUT, Typ) => ("the trade type", "1..5"),
        (LOT, N1) => ("the price", PRICE_RANGE),
        (LOT, M1) => (
            "the shares of a lot",
            "signed, within 999,999 of zero, and not zero",
        ),
        (SUMMARY, M1) => ("the shares of all its lots", "not zero"),
        (LOT_HISTORY, Id) => ("the lot", TRADE_RANGE),
        (LOT_HISTORY, M2) => ("the changing trade", TRADE_RANGE),
        (LOT_HISTORY, N1) => ("the shares before", "signed, within 999,999 of zero"),
        (LOT_HISTORY, N2) => (
            "the shares after",
            "signed, within 999,999 of zero, and not n1",
        ),
        (SETTLEMENT, Flags) => ("the cash flag", "0 or 1"),
        (SETTLEMENT | CASH, M1) => ("the amount", MONEY_RANGE),
        (SETTLEMENT, Time) => ("the time due", "0..4,000,172,800"),
        (PERMISSION, N1) => ("the executor", PARTY_RANGE),
        (ORDER_INPUT, Flags) => ("cash 1, LIFO 2 and roll back 4, added up", "0..7"),
        (ORDER_INPUT, N2) => (
            "the bid",
            "0 for types 1 and 2, 1..99,999,999 for the others",
        ),
        (ORDER_INPUT, N3) => ("the executor", "0 for the owner, else 1..999,999,999"),
        (RESULT_INPUT | FEED_INPUT, N1) => ("the price", PRICE_RANGE),
        (FEED_INPUT, N2) => ("the shares", SHARES_RANGE),
        (TRADE | REQUEST | ORDER_INPUT, N1) => ("the shares", SHARES_RANGE),
        (SECURITY | TRADE | REQUEST | LOT | SUMMARY | ORDER_INPUT | FEED_INPUT, Symbol) => {
            ("the symbol", SYMBOL_RULE)
        }
        (
            SECURITY | TRADE | HISTORY | LOT | CASH | ORDER_INPUT | RESULT_INPUT | FEED_INPUT,
            Time,
        ) => ("the time", TIME_RANGE),
        (TRADE | REQUEST | HISTORY | LOT | SETTLEMENT | CASH | RESULT_INPUT | LOOKUP_INPUT, Id) => {
            ("the trade's number", TRADE_RANGE)
        }
        _ => return None,
    })
}

/// The value of a field; those that 01 calls signed, of this kind, as such.
fn value(row: &Row, field: Field) -> String {
    let signed_n = row.kind == LOT_HISTORY;
    let signed_m = matches!(row.kind, ACCOUNT | LOT | SUMMARY | SETTLEMENT | CASH);
    match field {
        Field::Kind => row.kind.to_string(),
        Field::Typ => row.typ.to_string(),
        Field::Status => row.status.to_string(),
        Field::Flags => row.flags.to_string(),
        Field::Party => row.party.to_string(),
        Field::Id => row.id.to_string(),
        Field::Symbol => format!("\"{}\"", letters(row.symbol)),
        Field::N1 if signed_n => row.signed_n1().to_string(),
        Field::N2 if signed_n => row.signed_n2().to_string(),
        Field::N1 => row.n1.to_string(),
        Field::N2 => row.n2.to_string(),
        Field::N3 => row.n3.to_string(),
        Field::N4 => row.n4.to_string(),
        Field::M1 if signed_m => row.signed_m1().to_string(),
        Field::M1 => row.m1.to_string(),
        Field::M2 => row.m2.to_string(),
        Field::Time => row.time.to_string(),
        Field::N5 => row.n5.to_string(),
    }
}

/// Why this field of a record breaks its rule. The kinds that there may be are said in words.
pub fn why(row: &Row, field: Field, kinds: &str) -> String {
    let (name, value) = (field_name(field), value(row, field));
    if field == Field::Kind {
        return format!("kind is {value}, and must be {kinds}");
    }
    match rule(row.kind, field) {
        Some((what, range)) => format!("{name} is {value}: {what}, {range}"),
        None => format!(
            "{name} is {value}: a {} does not use it, so it is zero",
            kind_name(row.kind)
        ),
    }
}
