//! "The four transactions" of 01, with its "Status numbers, in order of checking".
//!
//! Each call works on a copy of the rows. Only when nothing was refused is the copy written back,
//! so a refusal leaves the book as found whatever the work on the copy was.

use crate::record::*;
use crate::sound;

// The statuses, in the order in which 01 lists them. "-721 when a named executor has no row, after
// -711 and before -712" (2026-01). "-735 and -842 for no band, at the places of -732 and -841, which
// keep the zero rate" (2026-04).
pub const WRONG_LENGTH: i32 = -100;
pub const BOOK_LENGTH: i32 = -101;
pub const NOT_SOUND: i32 = -102;
pub const BAD_INPUT: i32 = -103;
pub const ORDER_NO_ACCOUNT: i32 = -711;
pub const ORDER_NOT_PERMITTED: i32 = -721;
pub const ORDER_NO_SECURITY: i32 = -712;
pub const ORDER_NO_TAX: i32 = -731;
pub const ORDER_NO_RATE: i32 = -732;
pub const ORDER_NO_BAND: i32 = -735;
pub const ORDER_NO_CHARGE: i32 = -733;
pub const RESULT_NO_TRADE: i32 = -811;
pub const RESULT_NOT_SUBMITTED: i32 = -812;
pub const RESULT_NO_TAX: i32 = -831;
pub const RESULT_NO_RATE: i32 = -841;
pub const RESULT_NO_BAND: i32 = -842;
pub const FEED_NO_SECURITY: i32 = -311;
pub const LOOKUP_NO_TRADE: i32 = -611;
pub const OUT_OF_RANGE: i32 = -104;
pub const NO_ROOM: i32 = -105;

/// "Input: 1 to 20 records" of a feed or a lookup.
pub const MAX_ENTRIES: usize = 20;

#[derive(Clone, Copy, Debug, PartialEq, Eq, PartialOrd, Ord, Hash)]
pub enum Call {
    Order,
    Result,
    Feed,
    Lookup,
}

impl Call {
    pub const ALL: [Call; 4] = [Call::Order, Call::Result, Call::Feed, Call::Lookup];

    pub fn name(self) -> &'static str {
        match self {
            Call::Order => "order",
            Call::Result => "result",
            Call::Feed => "feed",
            Call::Lookup => "lookup",
        }
    }

    /// The kind of its input records.
    pub fn kind(self) -> u8 {
        match self {
            Call::Order => ORDER_INPUT,
            Call::Result => RESULT_INPUT,
            Call::Feed => FEED_INPUT,
            Call::Lookup => LOOKUP_INPUT,
        }
    }

    /// Every status this call can give.
    pub fn statuses(self) -> &'static [i32] {
        match self {
            Call::Order => &[
                -100, -101, -102, -103, -711, -721, -712, -731, -732, -735, -733, -104, -105, 0,
            ],
            Call::Result => &[
                -100, -101, -102, -103, -811, -812, -831, -841, -842, -104, -105, 0,
            ],
            Call::Feed => &[-100, -101, -102, -103, -311, -104, -105, 0],
            Call::Lookup => &[-100, -101, -102, -103, -611, 0],
        }
    }

    /// The input is one record for an order or a result, 1 to 20 for a feed or a lookup.
    pub fn input_length_is_good(self, input: usize) -> bool {
        let most = match self {
            Call::Order | Call::Result => 1,
            Call::Feed | Call::Lookup => MAX_ENTRIES,
        };
        input.is_multiple_of(RECORD) && (1..=most).contains(&(input / RECORD))
    }

    /// "Order, result and feed answer one record"; a lookup answers "two records for each in turn".
    pub fn answer_length(self, input: usize) -> usize {
        match self {
            Call::Order | Call::Result | Call::Feed => RECORD,
            Call::Lookup => 2 * input,
        }
    }

    /// Runs this call.
    pub fn run(self, book: &mut [u8], input: &[u8], answer: &mut [u8]) -> i32 {
        run(self, book, input, answer, true)
    }

    /// Runs this call on a book that is known to be sound: only its length is checked.
    pub fn run_on_sound(self, book: &mut [u8], input: &[u8], answer: &mut [u8]) -> i32 {
        run(self, book, input, answer, false)
    }
}

pub fn order(book: &mut [u8], input: &[u8], answer: &mut [u8]) -> i32 {
    Call::Order.run(book, input, answer)
}

pub fn result(book: &mut [u8], input: &[u8], answer: &mut [u8]) -> i32 {
    Call::Result.run(book, input, answer)
}

pub fn feed(book: &mut [u8], input: &[u8], answer: &mut [u8]) -> i32 {
    Call::Feed.run(book, input, answer)
}

pub fn lookup(book: &mut [u8], input: &[u8], answer: &mut [u8]) -> i32 {
    Call::Lookup.run(book, input, answer)
}

// The same on a book that is known to be sound, for long runs. On another they may panic.

pub fn order_on_sound(book: &mut [u8], input: &[u8], answer: &mut [u8]) -> i32 {
    Call::Order.run_on_sound(book, input, answer)
}

pub fn result_on_sound(book: &mut [u8], input: &[u8], answer: &mut [u8]) -> i32 {
    Call::Result.run_on_sound(book, input, answer)
}

pub fn feed_on_sound(book: &mut [u8], input: &[u8], answer: &mut [u8]) -> i32 {
    Call::Feed.run_on_sound(book, input, answer)
}

pub fn lookup_on_sound(book: &mut [u8], input: &[u8], answer: &mut [u8]) -> i32 {
    Call::Lookup.run_on_sound(book, input, answer)
}

fn run(call: Call, book: &mut [u8], input: &[u8], answer: &mut [u8], check: bool) -> i32 {
    // "-100: input or answer area has the wrong length; nothing at all is written"
    let lengths_are_good =
        call.input_length_is_good(input.len()) && answer.len() == call.answer_length(input.len());
    if !lengths_are_good {
        return WRONG_LENGTH;
    }
    let outcome = decide(call, book, input, check);
    match outcome {
        Ok((rows, answered)) => {
            book.copy_from_slice(&bytes_of(&rows));
            answer.copy_from_slice(&bytes_of(&answered));
            0
        }
        Err(status) => {
            // "A refusal leaves the book as found; all answer bytes are zero but the status,
            // signed, in bytes 60-63". For a lookup these are bytes of the whole area.
            answer.fill(0);
            answer[60..64].copy_from_slice(&status.to_le_bytes());
            status
        }
    }
}

/// The rows of the book afterwards and the records of the answer, or the refusal. The answer of a
/// success has its status, 0, in bytes 60-63 (n5) as no answer or row uses n5.
fn decide(call: Call, book: &[u8], input: &[u8], check: bool) -> Result<(Vec<Row>, Vec<Row>), i32> {
    if check {
        // -101, then -102.
        let status = sound::status(book);
        if status != 0 {
            return Err(status);
        }
    } else if book.is_empty()
        || !book.len().is_multiple_of(RECORD)
        || book.len() / RECORD > MAX_RECORDS
    {
        return Err(BOOK_LENGTH);
    }
    // "-103: an input field breaks its rule". All records are checked before any is looked up.
    for record in input.chunks_exact(RECORD) {
        if check_input(call.kind(), record.try_into().unwrap()).is_err() {
            return Err(BAD_INPUT);
        }
    }
    let input = rows_of(input);
    let mut book = Book::new(book);
    let answered = match call {
        Call::Order => vec![do_order(&mut book, &input[0])?],
        Call::Result => vec![do_result(&mut book, &input[0])?],
        Call::Feed => vec![do_feed(&mut book, &input)?],
        Call::Lookup => do_lookup(&book, &input)?,
    };
    Ok((book.rows, answered))
}

/// A copy of the rows, and the places that were free at entry.
struct Book {
    rows: Vec<Row>,
    free_at_entry: Vec<usize>,
}

impl Book {
    fn new(book: &[u8]) -> Book {
        let rows = rows_of(book);
        let free_at_entry = (0..rows.len())
            .filter(|place| rows[*place].is_free())
            .collect();
        Book {
            rows,
            free_at_entry,
        }
    }

    /// The place of the row of this kind with this property; at most one has it.
    fn find(&self, kind: u8, good: impl Fn(&Row) -> bool) -> Option<usize> {
        self.rows
            .iter()
            .position(|row| row.kind == kind && good(row))
    }

    fn find_party(&self, kind: u8, number: u32) -> Option<usize> {
        self.find(kind, |row| row.party == number)
    }

    fn find_id(&self, kind: u8, number: u64) -> Option<usize> {
        self.find(kind, |row| row.id == number)
    }

    fn find_security(&self, symbol: [u8; 8]) -> Option<usize> {
        self.find(SECURITY, |row| row.symbol == symbol)
    }

    /// "-105: free places at entry are fewer than rows to add".
    fn has_room(&self, added: &[Row]) -> Result<(), i32> {
        if self.free_at_entry.len() < added.len() {
            return Err(NO_ROOM);
        }
        Ok(())
    }

    /// "They take the places free at entry, lowest first; places freed by a call serve later calls."
    fn add(&mut self, added: &[Row]) {
        for (place, row) in self.free_at_entry.iter().zip(added) {
            self.rows[*place] = *row;
        }
    }
}

/// "rounded to the nearest cent, halves up", of a fraction that is not negative.
pub fn round_half_up(over: i128, under: i128) -> i128 {
    assert!(over >= 0 && under > 0);
    // The largest whole number that is not above over / under + 1 / 2.
    (2 * over + under) / (2 * under)
}

/// "Commission: rate × shares × price / 10,000".
pub fn commission(rate: u32, shares: u32, price: u32) -> i128 {
    round_half_up(
        i128::from(rate) * i128::from(shares) * i128::from(price),
        10_000,
    )
}

/// "Tax: (sold - bought) × sum of rates / 100,000".
pub fn tax_on_gain(gain: i128, rates: i128) -> i128 {
    round_half_up(gain * rates, 100_000)
}

/// What the walk over the lots came to.
struct Walked {
    /// Shares that no lot met.
    left: i128,
    bought: i128,
    sold: i128,
    /// The lots met, as walked.
    steps: Vec<Step>,
}

struct Step {
    place: usize,
    before: i128,
    after: i128,
}

/// "A sell works on positive lots, a buy on negative ones, by rising time and then trade number, or
/// both falling with LIFO." It changes nothing; an order estimates by it and a result acts on it.
fn walk(
    rows: &[Row],
    account: u32,
    symbol: [u8; 8],
    buy: bool,
    lifo: bool,
    shares: u32,
    price: u32,
) -> Walked {
    let mut places: Vec<usize> = (0..rows.len())
        .filter(|place| {
            let row = &rows[*place];
            let right_sign = if buy {
                row.signed_m1() < 0
            } else {
                row.signed_m1() > 0
            };
            row.kind == LOT && row.party == account && row.symbol == symbol && right_sign
        })
        .collect();
    places.sort_by_key(|place| (rows[*place].time, rows[*place].id));
    if lifo {
        places.reverse();
    }
    let price = i128::from(price);
    let mut walked = Walked {
        left: i128::from(shares),
        bought: 0,
        sold: 0,
        steps: Vec::new(),
    };
    for place in places {
        if walked.left == 0 {
            break;
        }
        let before = i128::from(rows[place].signed_m1());
        let lot_price = i128::from(rows[place].n1);
        // "A lot larger than the need is reduced; else it is removed".
        let closed = before.abs().min(walked.left);
        let after = if buy {
            before + closed
        } else {
            before - closed
        };
        // "For a sell, closed shares add their lot price to bought and the trade price to sold; for
        // a buy, the reverse (3.3.8.4)."
        if buy {
            walked.sold += closed * lot_price;
            walked.bought += closed * price;
        } else {
            walked.bought += closed * lot_price;
            walked.sold += closed * price;
        }
        walked.left -= closed;
        walked.steps.push(Step {
            place,
            before,
            after,
        });
    }
    walked
}

/// "Tax, only for tax status 1 or 2 with sold > bought". It may round to zero; None is for a gain
/// where "the tax status is 1 or 2 and the customer's rates sum to zero" (2026-02).
fn tax_of(book: &Book, account: &Row, walked: &Walked) -> Option<i128> {
    let gain = walked.sold - walked.bought;
    let taxed = (account.typ == 1 || account.typ == 2) && gain > 0;
    if !taxed {
        return Some(0);
    }
    let mut rates: i128 = 0;
    for link in &book.rows {
        if link.kind == CUSTOMER_RATE && link.party == account.n2 {
            let rate = book.find_party(TAX_RATE, link.n1).expect("S3");
            rates += i128::from(book.rows[rate].n1);
        }
    }
    if rates == 0 {
        return None;
    }
    Some(tax_on_gain(gain, rates))
}

/// What the search for a commission band says: "a rate, a band with rate zero, or no band" (2026-04).
#[derive(Clone, Copy, Debug, PartialEq, Eq)]
pub enum BandSearch {
    /// The band's rate, which is above zero.
    Rate(u32),
    /// There is a band, and its rate is zero.
    ZeroRate,
    NoBand,
}

/// Searches "the one band that holds the shares", of the trade's type, the customer's tier and the
/// security's exchange.
fn search_band(book: &Book, typ: u8, tier: u8, exchange: u8, shares: u32) -> BandSearch {
    let band = book.find(BAND, |row| {
        row.typ == typ
            && row.status == tier
            && row.flags == exchange
            && row.n1 <= shares
            && shares <= row.n2
    });
    match band.map(|place| book.rows[place].n3) {
        None => BandSearch::NoBand,
        Some(0) => BandSearch::ZeroRate,
        Some(rate) => BandSearch::Rate(rate),
    }
}

/// The charge for the trade's type and the customer's tier; None for "charge 0 or no row".
fn charge_of(book: &Book, typ: u8, tier: u8) -> Option<u32> {
    let place = book.find(CHARGE, |row| row.typ == typ && row.status == tier)?;
    match book.rows[place].n1 {
        0 => None,
        charge => Some(charge),
    }
}

fn history_row(id: u64, status: u8, time: u32) -> Row {
    Row {
        kind: HISTORY,
        id,
        status,
        time,
        ..Row::default()
    }
}

/// Whether this executor may trade for the account: "zero is the owner, always allowed"; another must
/// have a row for this account (2026-01).
fn is_permitted(book: &Book, account: u32, executor: u32) -> bool {
    let row = book.find(PERMISSION, |row| row.party == account && row.n1 == executor);
    executor == 0 || row.is_some()
}

fn do_order(book: &mut Book, input: &Row) -> Result<Row, i32> {
    let account = book
        .find_party(ACCOUNT, input.party)
        .ok_or(ORDER_NO_ACCOUNT)?;
    let account = book.rows[account];
    if !is_permitted(book, account.party, input.n3) {
        return Err(ORDER_NOT_PERMITTED);
    }
    let security = book.find_security(input.symbol).ok_or(ORDER_NO_SECURITY)?;
    let security = book.rows[security];
    let customer = book.rows[book.find_party(CUSTOMER, account.n2).expect("S3")];
    let tier = customer.typ;
    let exchange = security.typ;

    // "n2 bid (zero exactly for types 1 and 2, which use the last price)"
    let market = input.typ == TMB || input.typ == TMS;
    let price = if market { security.n1 } else { input.n2 };
    let lifo = input.flags & FLAG_LIFO != 0;

    // "It estimates gain, tax, commission and charge at that price by the rules below."
    let walked = walk(
        &book.rows,
        account.party,
        input.symbol,
        buys(input.typ),
        lifo,
        input.n1,
        price,
    );
    let tax = tax_of(book, &account, &walked).ok_or(ORDER_NO_TAX)?;
    let rate = match search_band(book, input.typ, tier, exchange, input.n1) {
        BandSearch::Rate(rate) => rate,
        BandSearch::ZeroRate => return Err(ORDER_NO_RATE),
        BandSearch::NoBand => return Err(ORDER_NO_BAND),
    };
    let charge = charge_of(book, input.typ, tier).ok_or(ORDER_NO_CHARGE)?;
    let commission = commission(rate, input.n1, price);

    // "number = largest trade number + 1, or 1"
    let largest = book
        .rows
        .iter()
        .filter(|row| row.kind == TRADE)
        .map(|row| row.id)
        .max();
    let number = match largest {
        Some(largest) => largest + 1,
        None => 1,
    };
    if number > MAX_TRADE_NUMBER {
        return Err(OUT_OF_RANGE);
    }

    // "It adds a trade (...), with n2 the price used, the charge, the estimated commission and tax
    // zero; types 1 and 2 get status 2, others 1; then a history row; then a request for status 1."
    let status = if market { SBMT } else { PNDG };
    let trade = Row {
        kind: TRADE,
        typ: input.typ,
        status,
        flags: input.flags & (FLAG_CASH + FLAG_LIFO),
        party: account.party,
        id: number,
        symbol: input.symbol,
        n1: input.n1,
        n2: price,
        n4: charge,
        m1: commission as u64,
        time: input.time,
        ..Row::default()
    };
    let mut added = vec![trade, history_row(number, status, input.time)];
    if status == PNDG {
        added.push(Row {
            kind: REQUEST,
            typ: trade.typ,
            party: account.n1,
            id: number,
            symbol: trade.symbol,
            n1: trade.n1,
            n2: trade.n2,
            ..Row::default()
        });
    }
    book.has_room(&added)?;
    // "With roll back, the answer is the one it would have had and the book is unchanged."
    if input.flags & FLAG_ROLL_BACK == 0 {
        book.add(&added);
    }

    // "Answer: kind 33, id, n1 charge, n2 rate, n3 price used, m1 bought value, m2 sold value,
    // bytes 16-23 tax."
    Ok(Row {
        kind: ORDER_INPUT,
        id: number,
        symbol: (tax as u64).to_le_bytes(),
        n1: charge,
        n2: rate,
        n3: price,
        m1: walked.bought as u64,
        m2: walked.sold as u64,
        ..Row::default()
    })
}

fn do_result(book: &mut Book, input: &Row) -> Result<Row, i32> {
    let trade_place = book.find_id(TRADE, input.id).ok_or(RESULT_NO_TRADE)?;
    let trade = book.rows[trade_place];
    if trade.status != SBMT {
        return Err(RESULT_NOT_SUBMITTED);
    }
    let account_place = book.find_party(ACCOUNT, trade.party).expect("S3");
    let account = book.rows[account_place];
    let broker_place = book.find_party(BROKER, account.n1).expect("S3");
    let customer = book.rows[book.find_party(CUSTOMER, account.n2).expect("S3")];
    let security = book.rows[book.find_security(trade.symbol).expect("S3")];
    let buy = buys(trade.typ);
    let lifo = trade.flags & FLAG_LIFO != 0;
    let is_cash = trade.flags & FLAG_CASH != 0;
    let shares = i128::from(trade.n1);
    let price = input.n1;
    let value = shares * i128::from(price);

    let walked = walk(
        &book.rows,
        account.party,
        trade.symbol,
        buy,
        lifo,
        trade.n1,
        price,
    );
    let tax = tax_of(book, &account, &walked).ok_or(RESULT_NO_TAX)?;
    let rate = match search_band(book, trade.typ, customer.typ, security.typ, trade.n1) {
        BandSearch::Rate(rate) => rate,
        BandSearch::ZeroRate => return Err(RESULT_NO_RATE),
        BandSearch::NoBand => return Err(RESULT_NO_BAND),
    };
    let commission = commission(rate, trade.n1, price);

    // "Settlement: a sell, value - charge - commission; a buy, -(value + charge + commission); less
    // tax for tax status 1 only."
    let charge = i128::from(trade.n4);
    let mut settlement = if buy {
        -(value + charge + commission)
    } else {
        value - charge - commission
    };
    if account.typ == 1 {
        settlement -= tax;
    }

    // "A cash trade adds the amount to the balance."; "the broker gains one trade and the
    // commission"; "-104: (...) balance, broker's trades or commission total (...) would leave its
    // range".
    let mut balance = i128::from(account.signed_m1());
    if is_cash {
        balance += settlement;
    }
    let broker_trades = i128::from(book.rows[broker_place].n1) + 1;
    let broker_total = i128::from(book.rows[broker_place].m1) + commission;
    let most = i128::from(MAX_MONEY);
    if balance < -most
        || balance > most
        || broker_trades > i128::from(MAX_BROKER_TRADES)
        || broker_total > most
    {
        return Err(OUT_OF_RANGE);
    }

    // "Rows are added in this order: lot histories as walked, the opening one, new lot, new summary,
    // trade history, settlement, cash."
    let mut added = Vec::new();
    let lot_history = |lot: u64, before: i128, after: i128| Row {
        kind: LOT_HISTORY,
        id: lot,
        m2: trade.id,
        n1: before as i32 as u32,
        n2: after as i32 as u32,
        ..Row::default()
    };
    for step in &walked.steps {
        let lot = &mut book.rows[step.place];
        added.push(lot_history(lot.id, step.before, step.after));
        // "A lot larger than the need is reduced; else it is removed".
        if step.after == 0 {
            *lot = Row::default();
        } else {
            lot.m1 = step.after as i64 as u64;
        }
    }
    // "Shares left over open a new lot with the trade's number, price and time, negative for a sell,
    // with a history row from zero."
    if walked.left > 0 {
        let opened = if buy { walked.left } else { -walked.left };
        added.push(lot_history(trade.id, 0, opened));
        added.push(Row {
            kind: LOT,
            party: account.party,
            id: trade.id,
            symbol: trade.symbol,
            n1: price,
            m1: opened as i64 as u64,
            time: input.time,
            ..Row::default()
        });
    }
    // "The summary follows; at zero it goes." One that changes its sign keeps its place.
    let change = if buy { shares } else { -shares };
    let summary_place = book.find(SUMMARY, |row| {
        row.party == account.party && row.symbol == trade.symbol
    });
    match summary_place {
        Some(place) => {
            let sum = i128::from(book.rows[place].signed_m1()) + change;
            if sum == 0 {
                book.rows[place] = Row::default();
            } else {
                book.rows[place].m1 = sum as i64 as u64;
            }
        }
        None => added.push(Row {
            kind: SUMMARY,
            party: account.party,
            symbol: trade.symbol,
            m1: change as i64 as u64,
            ..Row::default()
        }),
    }
    added.push(history_row(trade.id, CMPT, input.time));
    // "Due time is time + 172,800."
    added.push(Row {
        kind: SETTLEMENT,
        flags: trade.flags & FLAG_CASH,
        id: trade.id,
        m1: settlement as i64 as u64,
        time: input.time + DUE_AFTER,
        ..Row::default()
    });
    if is_cash {
        added.push(Row {
            kind: CASH,
            id: trade.id,
            m1: settlement as i64 as u64,
            time: input.time,
            ..Row::default()
        });
    }
    book.has_room(&added)?;
    book.add(&added);

    // "The trade takes status 3, price, commission, tax and time; the broker gains one trade and the
    // commission."
    let row = &mut book.rows[trade_place];
    row.status = CMPT;
    row.n3 = price;
    row.m1 = commission as u64;
    row.m2 = tax as u64;
    row.time = input.time;
    book.rows[broker_place].n1 = broker_trades as u32;
    book.rows[broker_place].m1 = broker_total as u64;
    book.rows[account_place].m1 = balance as i64 as u64;

    // "Answer: kind 34, party account, id, m1 balance after, m2 settlement, bytes 16-23 tax."
    Ok(Row {
        kind: RESULT_INPUT,
        party: account.party,
        id: trade.id,
        symbol: (tax as u64).to_le_bytes(),
        m1: balance as i64 as u64,
        m2: settlement as i64 as u64,
        ..Row::default()
    })
}

/// "(TLB or TSL and bid ≥ price) or (TLS and bid ≤ price)".
fn triggers(request: &Row, price: u32) -> bool {
    match request.typ {
        TLB | TSL => request.n2 >= price,
        TLS => request.n2 <= price,
        _ => false,
    }
}

fn do_feed(book: &mut Book, entries: &[Row]) -> Result<Row, i32> {
    // "-311: an entry's security is unknown", asked of all entries before -104 is asked of any.
    for entry in entries {
        book.find_security(entry.symbol).ok_or(FEED_NO_SECURITY)?;
    }
    // "Entries apply in turn, as one transaction."
    let mut added = Vec::new();
    for entry in entries {
        // "Each sets last price and time and adds its shares to the volume".
        let place = book.find_security(entry.symbol).expect("found above");
        let security = &mut book.rows[place];
        security.n1 = entry.n1;
        security.time = entry.time;
        security.m1 += u64::from(entry.n2);
        if security.m1 > MAX_VOLUME {
            return Err(OUT_OF_RANGE);
        }
        // "then every request on that symbol with (...), by rising trade number, leaves the book,
        // its trade takes status 2 and the entry's time, and a history row is added".
        let mut hit: Vec<usize> = (0..book.rows.len())
            .filter(|place| {
                let row = &book.rows[*place];
                row.kind == REQUEST && row.symbol == entry.symbol && triggers(row, entry.n1)
            })
            .collect();
        hit.sort_by_key(|place| book.rows[*place].id);
        for place in hit {
            let number = book.rows[place].id;
            book.rows[place] = Row::default();
            let trade = book.find_id(TRADE, number).expect("S3");
            book.rows[trade].status = SBMT;
            book.rows[trade].time = entry.time;
            added.push(history_row(number, SBMT, entry.time));
        }
    }
    book.has_room(&added)?;
    book.add(&added);

    // "Answer: kind 35, n1 entries applied, n2 trades submitted." Each submitted trade has one row.
    Ok(Row {
        kind: FEED_INPUT,
        n1: entries.len() as u32,
        n2: added.len() as u32,
        ..Row::default()
    })
}

/// "Answers, two records for each in turn: the trade row, then its settlement row or zeros."
fn do_lookup(book: &Book, entries: &[Row]) -> Result<Vec<Row>, i32> {
    let mut answered = Vec::new();
    for entry in entries {
        let trade = book.find_id(TRADE, entry.id).ok_or(LOOKUP_NO_TRADE)?;
        answered.push(book.rows[trade]);
        match book.find_id(SETTLEMENT, entry.id) {
            Some(settlement) => answered.push(book.rows[settlement]),
            None => answered.push(Row::default()),
        }
    }
    Ok(answered)
}
