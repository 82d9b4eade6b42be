//! "A sound book" of 01, rule by rule, with maps so that a full book is checked quickly. The module
//! `slow` says the same with nested loops; the tests compare the two.

use crate::record::*;
use std::collections::{HashMap, HashSet};

/// The rule that fails, the first in the order S1, S2, .. S10.
#[derive(Clone, Copy, Debug, PartialEq, Eq, PartialOrd, Ord, Hash)]
pub enum Rule {
    S1,
    S2,
    S3,
    S4,
    S5,
    S6,
    S7,
    S8,
    S9,
    S10,
}

impl Rule {
    pub const ALL: [Rule; 10] = [
        Rule::S1,
        Rule::S2,
        Rule::S3,
        Rule::S4,
        Rule::S5,
        Rule::S6,
        Rule::S7,
        Rule::S8,
        Rule::S9,
        Rule::S10,
    ];
}

/// -101 "book length is 0, no multiple of 64, or over 4,096 records"; -102 "the book is not sound";
/// else 0.
pub fn status(book: &[u8]) -> i32 {
    status_with_limit(book, MAX_RECORDS)
}

/// As `status`, with another limit to the records: the tally program has its own.
pub fn status_with_limit(book: &[u8], most_records: usize) -> i32 {
    if book.is_empty() || !book.len().is_multiple_of(RECORD) || book.len() / RECORD > most_records {
        return -101;
    }
    match check(book) {
        Ok(()) => 0,
        Err(_) => -102,
    }
}

/// Is this book sound? Its length is a multiple of 64 (that is -101's matter, not -102's).
pub fn check(book: &[u8]) -> Result<(), Rule> {
    s1(book)?;
    let rows: Vec<Row> = rows_of(book)
        .into_iter()
        .filter(|row| !row.is_free())
        .collect();
    s2(&rows)?;
    let index = Index::new(&rows);
    s3(&rows, &index)?;
    s4(&rows)?;
    s5(&rows, &index)?;
    s6(&rows, &index)?;
    s7(&rows, &index)?;
    s8(&rows, &index)?;
    s9(&rows, &index)?;
    s10(&rows, &index)
}

fn want(good: bool, rule: Rule) -> Result<(), Rule> {
    if good {
        Ok(())
    } else {
        Err(rule)
    }
}

/// "S1 every record is free or fits the grid."
fn s1(book: &[u8]) -> Result<(), Rule> {
    for record in book.chunks(RECORD) {
        let record = record.try_into().map_err(|_| Rule::S1)?;
        want(check_record(record).is_ok(), Rule::S1)?;
    }
    Ok(())
}

/// The key of a row, in italics in 01: a row with the kind and the key fields alone.
pub(crate) fn key(row: &Row) -> Row {
    let mut key = Row {
        kind: row.kind,
        ..Row::default()
    };
    match row.kind {
        BROKER | CUSTOMER | TAX_RATE | ACCOUNT => key.party = row.party,
        CUSTOMER_RATE => {
            key.party = row.party;
            key.n1 = row.n1;
        }
        SECURITY => key.symbol = row.symbol,
        BAND => {
            key.typ = row.typ;
            key.status = row.status;
            key.flags = row.flags;
            key.n1 = row.n1;
        }
        CHARGE => {
            key.typ = row.typ;
            key.status = row.status;
        }
        TRADE | REQUEST | LOT | SETTLEMENT | CASH => key.id = row.id,
        HISTORY => {
            key.id = row.id;
            key.status = row.status;
        }
        SUMMARY => {
            key.party = row.party;
            key.symbol = row.symbol;
        }
        LOT_HISTORY => {
            key.id = row.id;
            key.m2 = row.m2;
        }
        PERMISSION => {
            key.party = row.party;
            key.n1 = row.n1;
        }
        _ => unreachable!("S1 holds here"),
    }
    key
}

/// "S2 keys are unique within a kind."
fn s2(rows: &[Row]) -> Result<(), Rule> {
    let mut keys = HashSet::new();
    for row in rows {
        want(keys.insert(key(row)), Rule::S2)?;
    }
    Ok(())
}

/// The rows by their keys. It is made once S1 and S2 hold, so no key stands for two rows.
#[derive(Default)]
struct Index {
    brokers: HashSet<u32>,
    customers: HashSet<u32>,
    rates: HashMap<u32, Row>,
    accounts: HashMap<u32, Row>,
    securities: HashSet<[u8; 8]>,
    trades: HashMap<u64, Row>,
    requests: HashMap<u64, Row>,
    histories: HashSet<(u64, u8)>,
    settlements: HashMap<u64, Row>,
    cash: HashMap<u64, Row>,
}

impl Index {
    fn new(rows: &[Row]) -> Index {
        let mut index = Index::default();
        for row in rows {
            match row.kind {
                BROKER => {
                    index.brokers.insert(row.party);
                }
                CUSTOMER => {
                    index.customers.insert(row.party);
                }
                TAX_RATE => {
                    index.rates.insert(row.party, *row);
                }
                ACCOUNT => {
                    index.accounts.insert(row.party, *row);
                }
                SECURITY => {
                    index.securities.insert(row.symbol);
                }
                TRADE => {
                    index.trades.insert(row.id, *row);
                }
                REQUEST => {
                    index.requests.insert(row.id, *row);
                }
                HISTORY => {
                    index.histories.insert((row.id, row.status));
                }
                SETTLEMENT => {
                    index.settlements.insert(row.id, *row);
                }
                CASH => {
                    index.cash.insert(row.id, *row);
                }
                _ => {}
            }
        }
        index
    }
}

/// "S3 every named broker, customer, rate, account, security and trade is there."
fn s3(rows: &[Row], index: &Index) -> Result<(), Rule> {
    let broker = |number: u32| want(index.brokers.contains(&number), Rule::S3);
    let customer = |number: u32| want(index.customers.contains(&number), Rule::S3);
    let rate = |number: u32| want(index.rates.contains_key(&number), Rule::S3);
    let account = |number: u32| want(index.accounts.contains_key(&number), Rule::S3);
    let security = |symbol: [u8; 8]| want(index.securities.contains(&symbol), Rule::S3);
    let trade = |number: u64| want(index.trades.contains_key(&number), Rule::S3);
    for row in rows {
        match row.kind {
            CUSTOMER_RATE => {
                customer(row.party)?;
                rate(row.n1)?;
            }
            ACCOUNT => {
                broker(row.n1)?;
                customer(row.n2)?;
            }
            TRADE => {
                account(row.party)?;
                security(row.symbol)?;
            }
            REQUEST => {
                trade(row.id)?;
                broker(row.party)?;
                security(row.symbol)?;
            }
            HISTORY | SETTLEMENT | CASH => trade(row.id)?,
            LOT => {
                trade(row.id)?;
                account(row.party)?;
                security(row.symbol)?;
            }
            SUMMARY => {
                account(row.party)?;
                security(row.symbol)?;
            }
            LOT_HISTORY => {
                trade(row.id)?;
                trade(row.m2)?;
            }
            // The executor is none of those that S3 lists: its number names nothing (2026-01).
            PERMISSION => account(row.party)?,
            _ => {}
        }
    }
    Ok(())
}

/// "S4 bands of equal type, tier and exchange don't overlap."
fn s4(rows: &[Row]) -> Result<(), Rule> {
    let mut groups: HashMap<(u8, u8, u8), Vec<(u32, u32)>> = HashMap::new();
    for row in rows.iter().filter(|row| row.kind == BAND) {
        let group = groups.entry((row.typ, row.status, row.flags)).or_default();
        group.push((row.n1, row.n2));
    }
    for bands in groups.values_mut() {
        // Sorted by "from", it is enough that each ends before the next begins.
        bands.sort();
        for pair in bands.windows(2) {
            want(pair[0].1 < pair[1].0, Rule::S4)?;
        }
    }
    Ok(())
}

/// "S5 a customer's rates sum to at most 100,000."
fn s5(rows: &[Row], index: &Index) -> Result<(), Rule> {
    let mut sums: HashMap<u32, u64> = HashMap::new();
    for row in rows.iter().filter(|row| row.kind == CUSTOMER_RATE) {
        *sums.entry(row.party).or_default() += u64::from(index.rates[&row.n1].n1);
    }
    for sum in sums.values() {
        want(*sum <= u64::from(MAX_RATE), Rule::S5)?;
    }
    Ok(())
}

/// "S6 a trade of status 1 has type 3, 4 or 5 and one request that agrees; no other trade has one."
/// The request's row of the grid says in what: "id; type, symbol, n1 and n2 as the trade's;
/// party = the account's broker".
fn s6(rows: &[Row], index: &Index) -> Result<(), Rule> {
    for trade in rows.iter().filter(|row| row.kind == TRADE) {
        let request = index.requests.get(&trade.id);
        if trade.status == PNDG {
            want(matches!(trade.typ, TLB | TLS | TSL), Rule::S6)?;
            let request = request.ok_or(Rule::S6)?;
            let broker = index.accounts[&trade.party].n1;
            let agrees = request.typ == trade.typ
                && request.symbol == trade.symbol
                && request.n1 == trade.n1
                && request.n2 == trade.n2
                && request.party == broker;
            want(agrees, Rule::S6)?;
        } else {
            want(request.is_none(), Rule::S6)?;
        }
    }
    Ok(())
}

/// "S7 a trade has the history row of its present status and none of a higher one."
fn s7(rows: &[Row], index: &Index) -> Result<(), Rule> {
    for trade in rows.iter().filter(|row| row.kind == TRADE) {
        let present = index.histories.contains(&(trade.id, trade.status));
        want(present, Rule::S7)?;
        for higher in trade.status + 1..=CMPT {
            want(!index.histories.contains(&(trade.id, higher)), Rule::S7)?;
        }
    }
    Ok(())
}

/// "S8 a lot names a completed trade of its account and symbol. Lots of one account and symbol have
/// one sign. A summary exists exactly where lots do and equals their sum."
fn s8(rows: &[Row], index: &Index) -> Result<(), Rule> {
    let mut sums: HashMap<(u32, [u8; 8]), i64> = HashMap::new();
    for lot in rows.iter().filter(|row| row.kind == LOT) {
        let trade = &index.trades[&lot.id];
        let named = trade.status == CMPT && trade.party == lot.party && trade.symbol == lot.symbol;
        want(named, Rule::S8)?;
        let sum = sums.entry((lot.party, lot.symbol)).or_default();
        // The lots so far have one sign, and so their sum has it too; no lot is zero.
        let one_sign = *sum == 0 || (*sum > 0) == (lot.signed_m1() > 0);
        want(one_sign, Rule::S8)?;
        *sum += lot.signed_m1();
    }
    let mut summaries = 0;
    for summary in rows.iter().filter(|row| row.kind == SUMMARY) {
        let sum = sums.get(&(summary.party, summary.symbol));
        want(sum == Some(&summary.signed_m1()), Rule::S8)?;
        summaries += 1;
    }
    // Every summary has its lots, no two of them the same; so equal counts leave no lots without.
    want(summaries == sums.len(), Rule::S8)
}

/// "S9 a settlement exists exactly for a completed trade, its flag the trade's cash flag; a cash row
/// exactly where that flag is 1, with the same amount."
fn s9(rows: &[Row], index: &Index) -> Result<(), Rule> {
    for trade in rows.iter().filter(|row| row.kind == TRADE) {
        let settlement = index.settlements.get(&trade.id);
        let cash = index.cash.get(&trade.id);
        if trade.status != CMPT {
            want(settlement.is_none() && cash.is_none(), Rule::S9)?;
            continue;
        }
        let settlement = settlement.ok_or(Rule::S9)?;
        want(settlement.flags == trade.flags & FLAG_CASH, Rule::S9)?;
        if settlement.flags == 1 {
            want(cash.map(|row| row.m1) == Some(settlement.m1), Rule::S9)?;
        } else {
            want(cash.is_none(), Rule::S9)?;
        }
    }
    Ok(())
}

/// "S10 both trades of a lot history are completed."
fn s10(rows: &[Row], index: &Index) -> Result<(), Rule> {
    for row in rows.iter().filter(|row| row.kind == LOT_HISTORY) {
        let both = index.trades[&row.id].status == CMPT && index.trades[&row.m2].status == CMPT;
        want(both, Rule::S10)?;
    }
    Ok(())
}
