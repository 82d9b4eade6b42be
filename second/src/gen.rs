//! A seeded generator of sound books, and of inputs for the four calls.
//!
//! A book is made of units (an account, a pending trade with its request and history, ...) each of
//! which keeps it sound, until its places are used up but for those that shall stay free. Then the
//! rows are strewn over the places.

use crate::calls::{
    Call, BAD_INPUT, BOOK_LENGTH, MAX_ENTRIES, NOT_SOUND, NO_ROOM, ORDER_NO_BAND, ORDER_NO_CHARGE,
    ORDER_NO_RATE, ORDER_NO_TAX, OUT_OF_RANGE, RESULT_NO_BAND, RESULT_NO_RATE, RESULT_NO_TAX,
    WRONG_LENGTH,
};
use crate::mutate;
use crate::record::*;
use crate::rng::Rng;
use std::collections::{HashMap, HashSet};

/// What a book shall be like.
#[derive(Clone, Debug)]
pub struct Plan {
    /// How many records it has.
    pub records: usize,
    /// How many of them are free.
    pub free: usize,
    /// Whether totals near their limits and the largest trade number may appear.
    pub limits: bool,
    /// How many of a hundred trades are submitted ones.
    pub submitted: u64,
    pub focus: Focus,
}

/// Whether all trades are of one account, one security and one type, with as few other rows as may
/// be, so that even a small book has a position of several lots, or several requests.
#[derive(Clone, Copy, Debug, PartialEq, Eq)]
pub enum Focus {
    Nothing,
    Lots,
    Requests,
}

impl Plan {
    /// Nearly full books as often as loose ones.
    pub fn random(rng: &mut Rng, records: usize) -> Plan {
        let free = if rng.chance(50) {
            rng.between(0, 8)
        } else {
            let most = if records <= 40 { 8 } else { records / 3 };
            rng.between(3, most as u64)
        };
        // Once in a while all places are free.
        let free = if rng.chance(2) {
            records
        } else {
            (free as usize).min(records - 1)
        };
        Plan {
            records,
            free,
            limits: rng.chance(50),
            submitted: *rng.pick(&[10, 30, 50]),
            focus: if rng.chance(if records <= 40 { 40 } else { 10 }) {
                *rng.pick(&[Focus::Lots, Focus::Requests])
            } else {
                Focus::Nothing
            },
        }
    }

    /// A plan that has what this call works on, more often than not.
    pub fn for_call(rng: &mut Rng, call: Call, records: usize) -> Plan {
        let mut plan = Plan::random(rng, records);
        if rng.chance(if call == Call::Result { 60 } else { 40 }) {
            match call {
                Call::Order | Call::Result => {
                    plan.focus = Focus::Lots;
                    // An order needs a charge, a result a submitted trade; there is room for one. A
                    // result adds a row for each lot that it closes.
                    let (submitted, most) = match call {
                        Call::Order => (0, 6),
                        _ => (10, (records / 5).max(8)),
                    };
                    plan.submitted = submitted;
                    if rng.chance(80) {
                        plan.free = (rng.between(3, most as u64) as usize).min(records - 1);
                    }
                }
                Call::Feed => plan.focus = Focus::Requests,
                Call::Lookup => {}
            }
        } else if call == Call::Result && rng.chance(60) {
            plan.submitted = 50;
            let room = rng.between(3, 8) as usize;
            plan.free = plan.free.max(room).min(records - 1);
        }
        plan
    }
}

const SYMBOLS: [&str; 24] = [
    "A", "AB", "ABC", "ABCD", "ABCDE", "ABCDEF", "ABCDEFG", "ABCDEFH", "B", "BA", "A.B", "A-B",
    "A.", "A-", ".", "-", "0", "9", "A0", "A00", "Z", "ZZZZZZZ", "0000000", "Z9.-A0B",
];

/// How large prices, shares and times are in one book; a book keeps to one scale, so that gains,
/// losses, tiny gains and equal times are common.
struct Scale {
    price_low: u32,
    price_high: u32,
    shares_high: u32,
    time_low: u32,
    time_high: u32,
}

impl Scale {
    fn random(rng: &mut Rng) -> Scale {
        let (price_low, price_high) = *rng.pick(&[
            (1, 6),
            (95, 105),
            (1_900, 3_100),
            (2_400, 2_404),
            (1, MAX_PRICE),
            (MAX_PRICE - 20, MAX_PRICE),
        ]);
        let shares_high = *rng.pick(&[3, 10, 200, 200, 1_000, MAX_SHARES]);
        let (time_low, time_high) =
            *rng.pick(&[(0, 3), (100, 105), (0, MAX_TIME), (MAX_TIME - 2, MAX_TIME)]);
        Scale {
            price_low,
            price_high,
            shares_high,
            time_low,
            time_high,
        }
    }

    fn price(&self, rng: &mut Rng) -> u32 {
        rng.between32(self.price_low, self.price_high)
    }

    fn shares(&self, rng: &mut Rng) -> u32 {
        if rng.chance(3) {
            return *rng.pick(&[1, MAX_SHARES]);
        }
        rng.between32(1, self.shares_high)
    }

    fn time(&self, rng: &mut Rng) -> u32 {
        rng.between32(self.time_low, self.time_high)
    }
}

struct Maker<'a> {
    rng: &'a mut Rng,
    plan: Plan,
    scale: Scale,
    rows: Vec<Row>,
    /// The place in `rows` of the summary of an account and symbol.
    summaries: HashMap<(u32, [u8; 8]), usize>,
    keys: HashSet<(u8, u32)>,
    trade_numbers: HashSet<u64>,
    lowest_number: u64,
    completed: Vec<u64>,
    types: Vec<u8>,
    brokers: Vec<u32>,
    customers: Vec<u32>,
    accounts: Vec<Row>,
    securities: Vec<Row>,
    /// Those who have permissions; there is none in a book without.
    executors: Vec<u32>,
    /// The account whose trades are made; without one, any account's.
    turn: Option<Row>,
}

/// A sound book as planned.
pub fn book_of(rng: &mut Rng, plan: &Plan) -> Vec<u8> {
    let rows = rows_as_planned(rng, plan, |maker| maker.fill());
    strew(rng, rows, plan.records)
}

/// A sound book of 3 to 8 accounts for lists of results: nine of ten have room for all of them, the
/// others for a few.
pub fn book_for_results(rng: &mut Rng) -> Vec<u8> {
    let plan = Plan {
        records: rng.between(80, 150) as usize,
        free: 0,
        limits: rng.chance(10),
        submitted: 50,
        focus: Focus::Nothing,
    };
    let rows = rows_as_planned(rng, &plan, |maker| maker.fill_for_results());
    let trades = of_kind(&rows, TRADE);
    let submitted = trades.iter().filter(|row| row.status == SBMT).count();
    // A result adds six rows at most and one for each lot that it removes, and opens one at most.
    let enough = 7 * submitted + of_kind(&rows, LOT).len();
    let free = if rng.chance(90) {
        enough
    } else {
        rng.index(13)
    };
    let records = rows.len() + free;
    strew(rng, rows, records)
}

fn rows_as_planned(rng: &mut Rng, plan: &Plan, fill: fn(&mut Maker)) -> Vec<Row> {
    let scale = Scale::random(rng);
    let records = plan.records as u64;
    // Trade numbers lie close together, from low, middling or the highest numbers.
    let span = 4 * records + 8;
    let lowest_number = if plan.limits && rng.chance(25) {
        // The last of them is the largest number there is, or one or two below it.
        MAX_TRADE_NUMBER - span + 1 - rng.below(3)
    } else if rng.chance(20) {
        rng.between(1, MAX_TRADE_NUMBER - 2 * span)
    } else {
        1
    };
    let mut maker = Maker {
        rng,
        plan: plan.clone(),
        scale,
        rows: Vec::new(),
        summaries: HashMap::new(),
        keys: HashSet::new(),
        trade_numbers: HashSet::new(),
        lowest_number,
        completed: Vec::new(),
        types: Vec::new(),
        brokers: Vec::new(),
        customers: Vec::new(),
        accounts: Vec::new(),
        securities: Vec::new(),
        executors: Vec::new(),
        turn: None,
    };
    fill(&mut maker);
    maker.rows
}

/// A sound book of this many records.
pub fn book(rng: &mut Rng, records: usize) -> Vec<u8> {
    let plan = Plan::random(rng, records);
    book_of(rng, &plan)
}

/// Puts the rows on places, with holes anywhere; now and then all free places come last.
fn strew(rng: &mut Rng, mut rows: Vec<Row>, records: usize) -> Vec<u8> {
    if rng.chance(70) {
        rng.shuffle(&mut rows);
    }
    let mut places: Vec<usize> = (0..records).collect();
    if rng.chance(80) {
        rng.shuffle(&mut places);
    }
    let mut all = vec![Row::default(); records];
    for (place, row) in places.into_iter().zip(rows) {
        all[place] = row;
    }
    bytes_of(&all)
}

impl Maker<'_> {
    fn room(&self, rows: usize) -> bool {
        self.rows.len() + rows + self.plan.free <= self.plan.records
    }

    /// Adds a row if there is room.
    fn push(&mut self, row: Row) -> bool {
        if !self.room(1) {
            return false;
        }
        self.rows.push(row);
        true
    }

    /// True now and then, in books that may come near their limits.
    fn at_limit(&mut self) -> bool {
        self.plan.limits && self.rng.chance(12)
    }

    /// An amount as large as a few trades of this book come to.
    fn some_money(&mut self) -> u64 {
        let most = u64::from(self.scale.price_high) * u64::from(self.scale.shares_high);
        self.rng.between(0, most)
    }

    /// A number that is new for this kind. Kinds share numbers: broker 3 and account 3 both exist.
    fn new_party(&mut self, kind: u8) -> u32 {
        loop {
            let number = if self.rng.chance(10) {
                self.rng.between32(MAX_NUMBER - 5_000, MAX_NUMBER)
            } else {
                self.rng.between32(1, 2 * self.plan.records as u32)
            };
            if self.keys.insert((kind, number)) {
                return number;
            }
        }
    }

    fn new_trade_number(&mut self) -> u64 {
        let span = 4 * self.plan.records as u64 + 8;
        // In a book of the highest numbers, the last one is taken often.
        let highest = self.lowest_number + span - 1;
        let at_limit = highest > MAX_TRADE_NUMBER - 3;
        if at_limit && self.rng.chance(60) && self.trade_numbers.insert(highest) {
            return highest;
        }
        loop {
            let mut number = self.rng.between(self.lowest_number, highest);
            // Now and then it differs from another number in its upper half alone.
            if self.rng.chance(4) {
                let far = self.rng.between(1, 1_000) << 32;
                let trades = of_kind(&self.rows, TRADE);
                let other = self.rng.pick_any(&trades).map_or(number, |row| row.id);
                number = if other > far {
                    other - far
                } else {
                    other + far
                };
            }
            if self.trade_numbers.insert(number) {
                return number;
            }
        }
    }

    fn fill(&mut self) {
        let size = self.plan.records as u64;
        let focus = self.plan.focus != Focus::Nothing;
        let small = size <= 40 || focus;
        let some = |rng: &mut Rng, most: u64| rng.between(1, most.max(1));

        // Tiers, exchanges and trade types in use: few in small books, so that bands are met.
        let mut tiers = vec![1, 2, 3];
        let mut exchanges = vec![1, 2, 3, 4];
        let mut types = vec![TMB, TMS, TLB, TLS, TSL];
        for list in [&mut tiers, &mut exchanges, &mut types] {
            self.rng.shuffle(list);
        }
        let most = |all: u64| if small { 1 } else { all.min(1 + size / 100) };
        tiers.truncate(some(self.rng, most(3)) as usize);
        exchanges.truncate(some(self.rng, most(4)) as usize);
        let most_types = match (focus, small) {
            (true, _) => 1,
            (_, true) => 1 + size / 20,
            _ => 5,
        };
        types.truncate(some(self.rng, most_types) as usize);
        self.types = types.clone();

        // A small book has one or two of each, so that rows are left for trades.
        let most = |rng: &mut Rng, every: u64| {
            if focus {
                1
            } else if small {
                1 + u64::from(rng.chance(2 * size))
            } else {
                2 + size / every
            }
        };
        for _ in 0..most(self.rng, 200) {
            self.broker();
        }
        for _ in 0..most(self.rng, 150) {
            let tier = *self.rng.pick(&tiers);
            self.customer(tier);
        }
        for _ in 0..most(self.rng, 40) {
            self.account();
        }
        for _ in 0..most(self.rng, 60) {
            let exchange = *self.rng.pick(&exchanges);
            self.security(exchange);
        }
        let executors = most(self.rng, 400);
        self.permissions(executors, if focus { 20 } else { 40 });
        let rates = most(self.rng, 100);
        if !focus || self.rng.chance(70) {
            self.tax_rates(rates);
        }

        // "bands with gaps and missing bands": now and then a combination has none.
        for typ in &types {
            for tier in &tiers {
                for exchange in &exchanges {
                    if self.rng.chance(96) {
                        self.bands(*typ, *tier, *exchange, if small { 1 } else { 3 });
                    }
                }
                let wanted = match self.plan.focus {
                    Focus::Lots if self.plan.submitted > 0 => 20,
                    _ => 93,
                };
                if self.rng.chance(wanted) {
                    self.charge(*typ, *tier);
                }
            }
        }

        if !self.accounts.is_empty() && !self.securities.is_empty() {
            self.trades();
        }

        // What is left is filled with rows that nobody names.
        while self.room(1) {
            match self.rng.below(5) {
                0 => self.broker(),
                1 => {
                    let tier = self.rng.between32(1, 3) as u8;
                    self.customer(tier)
                }
                2 => {
                    let rate = self.rng.between32(0, MAX_RATE);
                    self.tax_rate(rate);
                }
                3 => self.permission(),
                _ => self.lot_history(),
            }
        }
    }

    /// Several accounts on few securities, each with several submitted trades. Brokers are fewer than
    /// accounts, so that some accounts share one.
    fn fill_for_results(&mut self) {
        let mut tiers = vec![1, 2, 3];
        let mut exchanges = vec![1, 2, 3, 4];
        let mut types = vec![TMB, TMS, TLB, TLS, TSL];
        for list in [&mut tiers, &mut exchanges, &mut types] {
            self.rng.shuffle(list);
        }
        tiers.truncate(self.rng.between(1, 2) as usize);
        exchanges.truncate(self.rng.between(1, 2) as usize);
        types.truncate(self.rng.between(1, 4) as usize);
        // Buys and sells both, so that one trade closes what another opens.
        let first_buys = buys(types[0]);
        if types.iter().all(|typ| buys(*typ) == first_buys) {
            types.push(if first_buys { TMS } else { TMB });
        }
        self.types = types.clone();

        for _ in 0..self.rng.between(1, 2) {
            self.broker();
        }
        for _ in 0..self.rng.between(1, 3) {
            let tier = *self.rng.pick(&tiers);
            self.customer(tier);
        }
        for _ in 0..self.rng.between(3, 8) {
            self.account();
        }
        for _ in 0..self.rng.between(1, 3) {
            let exchange = *self.rng.pick(&exchanges);
            self.security(exchange);
        }
        // These always find room, whatever comes later.
        for account in self.accounts.clone() {
            self.turn = Some(account);
            self.submitted_trade();
            self.submitted_trade();
        }
        self.tax_rates(2);
        self.permissions(2, 20);
        for typ in &types {
            for tier in &tiers {
                for exchange in &exchanges {
                    if self.rng.chance(96) {
                        self.bands(*typ, *tier, *exchange, 1);
                    }
                }
            }
        }
        while self.room(5) {
            self.turn = Some(*self.rng.pick(&self.accounts));
            match self.rng.below(10) {
                0 => self.pending_trade(),
                1..=5 => self.submitted_trade(),
                _ => self.completed_trade(),
            }
        }
        self.shares_near_positions();
    }

    fn broker(&mut self) {
        let trades = if self.at_limit() {
            MAX_BROKER_TRADES - self.rng.below(3) as u32
        } else {
            self.rng.between32(0, 1_000)
        };
        let commission = if self.at_limit() {
            MAX_MONEY as u64 - self.some_money() / 100
        } else {
            self.rng.between(0, 1_000_000)
        };
        let party = self.new_party(BROKER);
        let row = Row {
            kind: BROKER,
            party,
            n1: trades,
            m1: commission,
            ..Row::default()
        };
        if self.push(row) {
            self.brokers.push(party);
        }
    }

    fn customer(&mut self, tier: u8) {
        let party = self.new_party(CUSTOMER);
        let row = Row {
            kind: CUSTOMER,
            party,
            typ: tier,
            ..Row::default()
        };
        if self.push(row) {
            self.customers.push(party);
        }
    }

    fn tax_rate(&mut self, rate: u32) -> Option<u32> {
        let party = self.new_party(TAX_RATE);
        let row = Row {
            kind: TAX_RATE,
            party,
            n1: rate,
            ..Row::default()
        };
        self.push(row).then_some(party)
    }

    /// Rates, and customers' rates as far as S5 lets them.
    fn tax_rates(&mut self, most: u64) {
        let mut rates = Vec::new();
        for _ in 0..self.rng.between(1, most) {
            let rate = match self.rng.below(10) {
                0 => 0,
                1 => 1,
                2 => self.rng.between32(1, 10),
                3 => MAX_RATE,
                4 => self.rng.between32(1, MAX_RATE),
                // Of an odd gain, this is a half exactly.
                5 => 50_000,
                _ => 20_000,
            };
            if let Some(party) = self.tax_rate(rate) {
                rates.push((party, rate));
            }
        }
        for customer in self.customers.clone() {
            let mut sum = 0;
            self.rng.shuffle(&mut rates);
            for (party, rate) in rates.clone() {
                if self.rng.chance(88) && sum + rate <= MAX_RATE {
                    let row = Row {
                        kind: CUSTOMER_RATE,
                        party: customer,
                        n1: party,
                        ..Row::default()
                    };
                    if self.push(row) {
                        sum += rate;
                    }
                }
            }
        }
    }

    fn account(&mut self) {
        if self.brokers.is_empty() || self.customers.is_empty() {
            return;
        }
        let balance = if self.at_limit() {
            MAX_MONEY - self.some_money() as i64 / 2
        } else if self.at_limit() {
            -MAX_MONEY + self.some_money() as i64 / 2
        } else {
            self.rng.between(0, 10_000_000) as i64 - 5_000_000
        };
        let row = Row {
            kind: ACCOUNT,
            party: self.new_party(ACCOUNT),
            n1: *self.rng.pick(&self.brokers),
            n2: *self.rng.pick(&self.customers),
            typ: *self.rng.pick(&[0, 1, 1, 2, 2]),
            m1: balance as u64,
            ..Row::default()
        };
        if self.push(row) {
            self.accounts.push(row);
        }
    }

    /// Executors, at most one more than `most`, each of whom so many of a hundred accounts let trade. One
    /// book in three has none.
    fn permissions(&mut self, most: u64, accounts: u64) {
        if self.accounts.is_empty() || self.rng.chance(33) {
            return;
        }
        for _ in 0..self.rng.between(1, most + 1) {
            let executor = any_executor(self.rng, &self.rows);
            self.executors.push(executor);
        }
        for executor in self.executors.clone() {
            for account in self.accounts.clone() {
                if self.rng.chance(accounts) {
                    self.permit(account.party, executor);
                }
            }
        }
    }

    /// A permission of any account and executor.
    fn permission(&mut self) {
        if let Some(executor) = self.rng.pick_any(&self.executors).copied() {
            let account = *self.rng.pick(&self.accounts);
            self.permit(account.party, executor);
        }
    }

    /// Lets this executor trade for the account, unless there is such a row already.
    fn permit(&mut self, account: u32, executor: u32) {
        let row = permission(account, executor);
        if !self.rows.contains(&row) {
            self.push(row);
        }
    }

    fn security(&mut self, exchange: u8) {
        let symbol = loop {
            let symbol = self.symbol();
            if self.securities.iter().all(|row| row.symbol != symbol) {
                break symbol;
            }
        };
        let volume = if self.at_limit() {
            MAX_VOLUME - self.rng.below(u64::from(self.scale.shares_high) + 1)
        } else {
            self.rng.between(0, 1_000_000)
        };
        let row = Row {
            kind: SECURITY,
            symbol,
            typ: exchange,
            n1: self.scale.price(self.rng),
            m1: volume,
            time: self.scale.time(self.rng),
            ..Row::default()
        };
        if self.push(row) {
            self.securities.push(row);
        }
    }

    fn symbol(&mut self) -> [u8; 8] {
        if self.rng.chance(70) {
            let letters: &str = SYMBOLS[self.rng.index(SYMBOLS.len())];
            return symbol(letters);
        }
        random_symbol(self.rng)
    }

    /// Bands for one type, tier and exchange, by rising shares, with gaps between some.
    fn bands(&mut self, typ: u8, tier: u8, exchange: u8, most: u64) {
        let mut from = if self.rng.chance(90) { 1 } else { 2 };
        for _ in 0..self.rng.between(1, most) {
            let to = match self.rng.below(20) {
                0 | 1 => from + self.rng.between32(0, self.scale.shares_high),
                2 => from,
                _ => MAX_SHARES,
            };
            let to = to.min(MAX_SHARES);
            let rate = match self.rng.below(16) {
                0 => 0,
                1 => 1,
                2 => MAX_BAND_RATE,
                3 => self.rng.between32(0, MAX_BAND_RATE),
                // Of an odd value, this is a half exactly.
                4 => 5_000,
                _ => 50,
            };
            self.push(Row {
                kind: BAND,
                typ,
                status: tier,
                flags: exchange,
                n1: from,
                n2: to,
                n3: rate,
                ..Row::default()
            });
            from = to + *self.rng.pick(&[1, 1, 2, 5]);
            if from > MAX_SHARES {
                break;
            }
        }
    }

    fn charge(&mut self, typ: u8, tier: u8) {
        let charge = match self.rng.below(10) {
            0 => 0,
            1 => MAX_CHARGE,
            2 => self.rng.between32(0, MAX_CHARGE),
            _ => 500,
        };
        self.push(Row {
            kind: CHARGE,
            typ,
            status: tier,
            n1: charge,
            ..Row::default()
        });
    }

    fn trades(&mut self) {
        // A submitted trade and a lot are wanted first, then any, as long as units fit.
        let (submitted, pending) = match self.plan.focus {
            Focus::Nothing => (self.plan.submitted, 35),
            Focus::Lots => (self.plan.submitted, 5),
            Focus::Requests => (5, 90),
        };
        if submitted >= 10 && self.rng.chance(90) {
            self.submitted_trade();
        }
        if pending <= 35 && self.rng.chance(70) {
            self.completed_trade();
        }
        let mut misses = 0;
        while misses < 6 {
            let before = self.rows.len();
            if self.rng.chance(submitted) {
                self.submitted_trade();
            } else if self.rng.chance(pending) {
                self.pending_trade();
            } else {
                self.completed_trade();
            }
            if self.rows.len() == before {
                misses += 1;
            }
        }
        self.shares_near_positions();
    }

    /// Gives many submitted trades as many shares as their position has, or a few more or fewer.
    fn shares_near_positions(&mut self) {
        for place in 0..self.rows.len() {
            let trade = self.rows[place];
            let position = self.summaries.get(&(trade.party, trade.symbol));
            if let (TRADE, SBMT, Some(summary)) = (trade.kind, trade.status, position) {
                let sum = self.rows[*summary].signed_m1().unsigned_abs();
                let shares = match self.rng.below(6) {
                    0 => sum,
                    1 => sum + 1,
                    2 => sum - 1,
                    3 => self.rng.between(1, sum),
                    _ => u64::from(trade.n1),
                };
                self.rows[place].n1 = shares.clamp(1, u64::from(MAX_SHARES)) as u32;
            }
        }
    }

    /// A trade's row but for what its status decides. The first account and the first security are
    /// taken often, so that some positions have many lots and some symbols many requests.
    fn trade(&mut self, typ: u8, status: u8) -> Row {
        let account = match self.turn {
            Some(account) => account,
            None if self.rng.chance(40) => self.accounts[0],
            None => *self.rng.pick(&self.accounts),
        };
        let security = if self.rng.chance(40) {
            self.securities[0]
        } else {
            *self.rng.pick(&self.securities)
        };
        let fee = match self.rng.below(8) {
            0 => MAX_FEE,
            1 => 0,
            _ => self.rng.between(0, 10_000),
        };
        Row {
            kind: TRADE,
            typ,
            status,
            flags: self.rng.below(4) as u8,
            party: account.party,
            id: self.new_trade_number(),
            symbol: security.symbol,
            n1: self.scale.shares(self.rng),
            n2: self.scale.price(self.rng),
            n4: *self.rng.pick(&[0, 500, 500, MAX_CHARGE]),
            m1: fee,
            time: self.scale.time(self.rng),
            ..Row::default()
        }
    }

    fn history(&mut self, id: u64, status: u8) -> Row {
        Row {
            kind: HISTORY,
            id,
            status,
            time: self.scale.time(self.rng),
            ..Row::default()
        }
    }

    fn pending_trade(&mut self) {
        if !self.room(3) {
            return;
        }
        let limits: Vec<u8> = self.types.iter().copied().filter(|typ| *typ >= 3).collect();
        let typ = match self.rng.pick_any(&limits) {
            Some(typ) => *typ,
            None => *self.rng.pick(&[TLB, TLS, TSL]),
        };
        let trade = self.trade(typ, PNDG);
        let account = self.accounts.iter().find(|row| row.party == trade.party);
        let request = Row {
            kind: REQUEST,
            typ,
            party: account.unwrap().n1,
            id: trade.id,
            symbol: trade.symbol,
            n1: trade.n1,
            n2: trade.n2,
            ..Row::default()
        };
        let history = self.history(trade.id, PNDG);
        self.rows.extend([trade, history, request]);
    }

    fn submitted_trade(&mut self) {
        if !self.room(2) {
            return;
        }
        let typ = *self.rng.pick(&self.types);
        let trade = self.trade(typ, SBMT);
        let history = self.history(trade.id, SBMT);
        self.rows.extend([trade, history]);
        // A lower history row may be there or not.
        if self.rng.chance(20) {
            let lower = self.history(trade.id, PNDG);
            self.push(lower);
        }
    }

    /// A completed trade with what S7 and S9 want of it, and often a lot with its summary.
    fn completed_trade(&mut self) {
        if !self.room(4) {
            return;
        }
        let typ = self.rng.between32(1, 5) as u8;
        let mut trade = self.trade(typ, CMPT);
        let lean = self.plan.focus == Focus::Lots && self.rng.chance(80);
        if lean {
            trade.flags &= FLAG_LIFO;
        }
        trade.n3 = self.scale.price(self.rng);
        trade.m2 = match self.rng.below(6) {
            0 => MAX_FEE,
            1 | 2 => 0,
            _ => self.rng.between(0, 100_000),
        };
        let history = self.history(trade.id, CMPT);
        let amount = match self.rng.below(10) {
            0 => MAX_MONEY,
            1 => -MAX_MONEY,
            2 => 0,
            _ => self.rng.between(0, 2_000_000) as i64 - 1_000_000,
        };
        let due = if self.rng.chance(5) {
            MAX_DUE_TIME
        } else {
            self.scale.time(self.rng)
        };
        let settlement = Row {
            kind: SETTLEMENT,
            flags: trade.flags & FLAG_CASH,
            id: trade.id,
            m1: amount as u64,
            time: due,
            ..Row::default()
        };
        self.rows.extend([trade, history, settlement]);
        if trade.flags & FLAG_CASH != 0 {
            self.rows.push(Row {
                kind: CASH,
                id: trade.id,
                m1: amount as u64,
                time: self.scale.time(self.rng),
                ..Row::default()
            });
        }
        self.completed.push(trade.id);
        if lean || self.rng.chance(80) {
            self.lot(&trade);
        }
        if lean {
            return;
        }
        for status in [SBMT, PNDG] {
            if self.rng.chance(15) {
                let lower = self.history(trade.id, status);
                self.push(lower);
            }
        }
        if self.rng.chance(30) {
            self.lot_history();
        }
    }

    /// A lot of this completed trade, of the sign its position has, and the summary.
    fn lot(&mut self, trade: &Row) {
        if !self.room(2) {
            return;
        }
        let position = (trade.party, trade.symbol);
        let summary = self.summaries.get(&position).copied();
        let long = match summary {
            Some(place) => self.rows[place].signed_m1() > 0,
            // Most often such that the book's first trade type closes it.
            None => self.rng.chance(75) != buys(self.types[0]),
        };
        let shares = i64::from(self.scale.shares(self.rng));
        let shares = if long { shares } else { -shares };
        let lot = Row {
            kind: LOT,
            party: trade.party,
            id: trade.id,
            symbol: trade.symbol,
            n1: self.scale.price(self.rng),
            m1: shares as u64,
            time: self.scale.time(self.rng),
            ..Row::default()
        };
        self.rows.push(lot);
        match summary {
            Some(place) => {
                let sum = self.rows[place].signed_m1() + shares;
                self.rows[place].m1 = sum as u64;
            }
            None => {
                self.summaries.insert(position, self.rows.len());
                self.rows.push(Row {
                    kind: SUMMARY,
                    party: trade.party,
                    symbol: trade.symbol,
                    m1: shares as u64,
                    ..Row::default()
                });
            }
        }
    }

    /// A lot history between any two completed trades that have none yet.
    fn lot_history(&mut self) {
        if self.completed.is_empty() {
            return;
        }
        let lot = *self.rng.pick(&self.completed);
        let by = *self.rng.pick(&self.completed);
        let most = self.scale.shares_high as i32;
        let mut shares = || self.rng.between(0, 2 * most as u64) as i32 - most;
        let (before, after) = (shares(), shares());
        let there = self
            .rows
            .iter()
            .any(|row| row.kind == LOT_HISTORY && row.id == lot && row.m2 == by);
        if there || before == after {
            return;
        }
        self.push(Row {
            kind: LOT_HISTORY,
            id: lot,
            m2: by,
            n1: before as u32,
            n2: after as u32,
            ..Row::default()
        });
    }
}

/// Any good symbol.
pub fn random_symbol(rng: &mut Rng) -> [u8; 8] {
    let mut symbol = [0; 8];
    for byte in symbol.iter_mut().take(1 + rng.index(7)) {
        *byte = *rng.pick(b"ABCDEFGHIJKLMNOPQRSTUVWXYZ0123456789.-");
    }
    symbol
}

/// An executor's number, often at one of its limits, or that of a broker, customer or account, too.
fn any_executor(rng: &mut Rng, rows: &[Row]) -> u32 {
    let kind = *rng.pick(&[BROKER, CUSTOMER, ACCOUNT]);
    match (rng.below(8), rng.pick_any(&of_kind(rows, kind))) {
        (0, _) => 1,
        (1, _) => MAX_NUMBER,
        (2..=4, Some(row)) => row.party,
        _ => rng.between32(1, 300),
    }
}

fn permission(account: u32, executor: u32) -> Row {
    Row {
        kind: PERMISSION,
        party: account,
        n1: executor,
        ..Row::default()
    }
}

// Inputs.

pub(crate) fn of_kind(rows: &[Row], kind: u8) -> Vec<Row> {
    rows.iter()
        .filter(|row| row.kind == kind)
        .copied()
        .collect()
}

/// A number that no row of this kind has.
fn unknown_party(rng: &mut Rng, rows: &[Row], kind: u8) -> u32 {
    loop {
        let number = rng.between32(1, MAX_NUMBER);
        if !rows.iter().any(|r| r.kind == kind && r.party == number) {
            return number;
        }
    }
}

/// A trade number that no trade has, often next to one that a trade has.
pub fn unknown_trade(rng: &mut Rng, rows: &[Row]) -> u64 {
    loop {
        let number = match rng.pick_any(&of_kind(rows, TRADE)) {
            Some(trade) if rng.chance(50) => (trade.id + 1).min(MAX_TRADE_NUMBER),
            _ => rng.between(1, MAX_TRADE_NUMBER),
        };
        if !rows.iter().any(|row| row.kind == TRADE && row.id == number) {
            return number;
        }
    }
}

/// A symbol that no security has, often one that is a piece or a longer form of such a one.
pub fn unknown_symbol(rng: &mut Rng, rows: &[Row]) -> [u8; 8] {
    loop {
        let mut symbol = random_symbol(rng);
        if let Some(security) = rng.pick_any(&of_kind(rows, SECURITY)) {
            let letters = security.symbol.iter().take_while(|b| **b != 0).count();
            if rng.chance(30) && letters < 7 {
                symbol = security.symbol;
                symbol[letters] = b'A';
            } else if rng.chance(30) && letters > 1 {
                symbol = security.symbol;
                symbol[letters - 1] = 0;
            }
        }
        if !rows
            .iter()
            .any(|row| row.kind == SECURITY && row.symbol == symbol)
        {
            return symbol;
        }
    }
}

fn any_time(rng: &mut Rng) -> u32 {
    match rng.below(8) {
        0 => 0,
        1 => MAX_TIME,
        2 => rng.between32(0, MAX_TIME),
        _ => rng.between32(0, 500),
    }
}

/// A price around those that count for this symbol: lots, bids and the last price.
pub fn price_near(rng: &mut Rng, rows: &[Row], symbol: [u8; 8]) -> u32 {
    let mut prices = Vec::new();
    for row in rows.iter().filter(|row| row.symbol == symbol) {
        match row.kind {
            SECURITY | LOT => prices.push(row.n1),
            REQUEST => prices.push(row.n2),
            _ => {}
        }
    }
    let near = match rng.pick_any(&prices) {
        Some(price) => *price,
        None => rng.between32(1, 5_000),
    };
    match rng.below(12) {
        0 => 1,
        1 => rng.between32(1, MAX_PRICE),
        2 => (near / 2).max(1),
        3 => (near.saturating_mul(2)).min(MAX_PRICE),
        n => (near + n as u32).saturating_sub(8).clamp(1, MAX_PRICE),
    }
}

/// An order that should be good: an account, a security and a band of the book if it has them.
pub fn order_input(rng: &mut Rng, rows: &[Row]) -> Row {
    let account = rng.pick_any(&of_kind(rows, ACCOUNT)).copied();
    let security = rng.pick_any(&of_kind(rows, SECURITY)).copied();
    let tier = account.and_then(|account| {
        rows.iter()
            .find(|row| row.kind == CUSTOMER && row.party == account.n2)
            .map(|row| row.typ)
    });
    let symbol = match security {
        Some(row) => row.symbol,
        None => random_symbol(rng),
    };
    let bands: Vec<Row> = of_kind(rows, BAND)
        .into_iter()
        .filter(|band| Some(band.status) == tier && Some(band.flags) == security.map(|row| row.typ))
        .collect();
    // Shares around the lots that the order meets, and then most often within its band.
    let lots: Vec<u32> = of_kind(rows, LOT)
        .iter()
        .filter(|lot| lot.symbol == symbol && Some(lot.party) == account.map(|row| row.party))
        .map(|lot| lot.signed_m1().unsigned_abs() as u32)
        .collect();
    let mut shares = match rng.pick_any(&lots) {
        Some(lot) if rng.chance(60) => *lot,
        Some(_) if rng.chance(60) => lots.iter().sum::<u32>().min(MAX_SHARES),
        _ => rng.between32(1, 300),
    };
    if rng.chance(40) {
        shares = (shares + rng.between32(0, 2)).saturating_sub(1).max(1);
    }
    let mut typ = rng.between32(1, 5) as u8;
    if let Some(band) = rng.pick_any(&bands) {
        if rng.chance(92) {
            typ = band.typ;
        }
        if rng.chance(85) {
            shares = shares.clamp(band.n1, band.n2);
        }
    }
    let bid = if typ <= TMS {
        0
    } else {
        price_near(rng, rows, symbol)
    };
    // Most often the owner; else an executor of the account if it has one, now and then of any.
    let permissions = of_kind(rows, PERMISSION);
    let own = permissions
        .iter()
        .filter(|row| Some(row.party) == account.map(|row| row.party));
    let executor = match rng.below(20) {
        0 => rng.pick_any(&permissions),
        1..=5 => rng.pick_any(&own.collect::<Vec<_>>()).copied(),
        _ => None,
    };
    let executor = executor.map_or(0, |row| row.n1);
    Row {
        kind: ORDER_INPUT,
        typ,
        flags: if rng.chance(75) {
            rng.below(4) as u8
        } else {
            rng.below(8) as u8
        },
        party: account.map_or(1, |row| row.party),
        symbol,
        n1: shares.clamp(1, MAX_SHARES),
        n2: bid,
        n3: executor,
        time: any_time(rng),
        ..Row::default()
    }
}

/// A result, most often of a submitted trade.
pub fn result_input(rng: &mut Rng, rows: &[Row]) -> Row {
    let trades = of_kind(rows, TRADE);
    let submitted: Vec<Row> = trades
        .iter()
        .filter(|row| row.status == SBMT)
        .copied()
        .collect();
    let trade = if rng.chance(96) && !submitted.is_empty() {
        rng.pick_any(&submitted)
    } else {
        rng.pick_any(&trades)
    };
    let (id, symbol) = match trade {
        Some(row) => (row.id, row.symbol),
        None => (unknown_trade(rng, rows), [0; 8]),
    };
    Row {
        kind: RESULT_INPUT,
        id,
        n1: price_near(rng, rows, symbol),
        time: any_time(rng),
        ..Row::default()
    }
}

fn entries(rng: &mut Rng) -> usize {
    if rng.chance(60) {
        rng.between(1, 3) as usize
    } else {
        rng.between(1, MAX_ENTRIES as u64) as usize
    }
}

/// A feed on symbols of the book, those with requests first of all.
pub fn feed_input(rng: &mut Rng, rows: &[Row]) -> Vec<Row> {
    let securities = of_kind(rows, SECURITY);
    let requests = of_kind(rows, REQUEST);
    let count = entries(rng);
    let mut input = Vec::new();
    for _ in 0..count {
        let symbol = match (rng.pick_any(&requests), rng.pick_any(&securities)) {
            (Some(request), _) if rng.chance(70) => request.symbol,
            (_, Some(security)) => security.symbol,
            _ => random_symbol(rng),
        };
        let shares = match rng.below(10) {
            0 => MAX_SHARES,
            1 => 1,
            _ => rng.between32(1, 200),
        };
        input.push(Row {
            kind: FEED_INPUT,
            symbol,
            n1: price_near(rng, rows, symbol),
            n2: shares,
            time: any_time(rng),
            ..Row::default()
        });
    }
    input
}

/// A lookup of trades of the book, some of them twice.
pub fn lookup_input(rng: &mut Rng, rows: &[Row]) -> Vec<Row> {
    let trades = of_kind(rows, TRADE);
    (0..entries(rng))
        .map(|_| Row {
            kind: LOOKUP_INPUT,
            id: match rng.pick_any(&trades) {
                Some(trade) => trade.id,
                None => rng.between(1, MAX_TRADE_NUMBER),
            },
            ..Row::default()
        })
        .collect()
}

/// An input that should be good for this call and book.
pub fn good_input(rng: &mut Rng, call: Call, rows: &[Row]) -> Vec<Row> {
    match call {
        Call::Order => vec![order_input(rng, rows)],
        Call::Result => vec![result_input(rng, rows)],
        Call::Feed => feed_input(rng, rows),
        Call::Lookup => lookup_input(rng, rows),
    }
}

/// Makes one record of an input name an account, security or trade that is not there, or any executor.
pub fn name_unknown(rng: &mut Rng, call: Call, rows: &[Row], input: &mut [Row]) {
    let at = rng.index(input.len());
    match call {
        Call::Order => {
            if rng.chance(60) {
                input[at].party = unknown_party(rng, rows, ACCOUNT);
            }
            if rng.chance(60) {
                input[at].symbol = unknown_symbol(rng, rows);
            }
            if rng.chance(40) {
                input[at].n3 = any_executor(rng, rows);
            }
        }
        Call::Feed => input[at].symbol = unknown_symbol(rng, rows),
        Call::Result | Call::Lookup => input[at].id = unknown_trade(rng, rows),
    }
}

/// Every way that we know to break one field of an input record, with its name. Each is -103.
pub fn broken_records(rng: &mut Rng, call: Call, good: &Row) -> Vec<(&'static str, Row)> {
    let mut list: Vec<(&'static str, Row)> = Vec::new();
    let mut with = |name: &'static str, change: &dyn Fn(&mut Row)| {
        let mut row = *good;
        change(&mut row);
        list.push((name, row));
    };
    let junk = rng.between32(1, u32::MAX);
    let junk_byte = rng.between32(1, 255) as u8;
    let other_kinds: Vec<u8> = (0..=255).filter(|kind| *kind != call.kind()).collect();
    let other = *rng.pick(&other_kinds);
    with("kind of another call", &|row| {
        row.kind = if call.kind() == 36 {
            33
        } else {
            call.kind() + 1
        }
    });
    with("kind zero", &|row| row.kind = 0);
    with("another kind", &|row| row.kind = other);
    // No input uses these.
    with("status used", &|row| row.status = junk_byte);
    with("n4 used", &|row| row.n4 = junk);
    with("m1 used", &|row| row.m1 = u64::from(junk) << 32);
    with("m2 used", &|row| row.m2 = u64::from(junk) << 24);
    with("n5 used", &|row| row.n5 = junk);
    if call != Call::Order {
        with("type used", &|row| row.typ = junk_byte);
        with("flags used", &|row| row.flags = junk_byte);
        with("party used", &|row| row.party = junk);
        with("n3 used", &|row| row.n3 = junk);
    } else {
        with("type zero", &|row| row.typ = 0);
        with("type six", &|row| row.typ = 6);
        with("type high", &|row| row.typ |= 128);
        with("flags eight", &|row| row.flags |= 8);
        with("flags high", &|row| row.flags |= 128);
        with("party zero", &|row| row.party = 0);
        with("party high", &|row| row.party = MAX_NUMBER + 1);
        with("party negative", &|row| row.party |= 1 << 31);
        with("shares zero", &|row| row.n1 = 0);
        with("shares high", &|row| row.n1 = MAX_SHARES + 1);
        with("bid wrong for the type", &|row| {
            row.n2 = if row.typ <= TMS { 1 } else { 0 }
        });
        with("bid high", &|row| row.n2 = MAX_PRICE + 1);
        with("executor high", &|row| row.n3 = MAX_NUMBER + 1);
        with("executor highest", &|row| row.n3 = u32::MAX);
        with("id used", &|row| row.id = u64::from(junk));
    }
    if call == Call::Order || call == Call::Feed {
        for (name, bad) in broken_symbols(good.symbol) {
            with(name, &|row| row.symbol = bad);
        }
    } else {
        with("symbol used", &|row| row.symbol = symbol("A"));
        with("fence used", &|row| row.symbol[7] = junk_byte);
        with("id zero", &|row| row.id = 0);
        with("id high", &|row| row.id = MAX_TRADE_NUMBER + 1);
        with("id negative", &|row| row.id |= 1 << 63);
    }
    if call == Call::Feed {
        with("id used", &|row| row.id = u64::from(junk));
        with("shares zero", &|row| row.n2 = 0);
        with("shares high", &|row| row.n2 = MAX_SHARES + 1);
    }
    if call == Call::Feed || call == Call::Result {
        with("price zero", &|row| row.n1 = 0);
        with("price high", &|row| row.n1 = MAX_PRICE + 1);
        with("price negative", &|row| row.n1 = u32::MAX);
    }
    if call == Call::Result || call == Call::Lookup {
        with("n2 used", &|row| row.n2 = junk);
    }
    if call == Call::Lookup {
        with("n1 used", &|row| row.n1 = junk);
        with("time used", &|row| row.time = 1);
    } else {
        with("time high", &|row| row.time = MAX_TIME + 1);
        with("time highest", &|row| row.time = u32::MAX);
    }
    list
}

/// Symbols that break the rule of 01, made of a good one.
pub fn broken_symbols(good: [u8; 8]) -> Vec<(&'static str, [u8; 8])> {
    let letters = good.iter().take_while(|byte| **byte != 0).count();
    let mut list: Vec<(&'static str, [u8; 8])> = vec![
        ("symbol empty", [0; 8]),
        ("symbol of 8 letters", *b"ABCDEFGH"),
        ("symbol small letter", symbol("aB")),
        ("symbol space", symbol("A B")),
        ("symbol slash", symbol("A/B")),
        ("symbol colon", symbol("9:")),
        ("symbol at", symbol("@")),
        ("symbol bracket", symbol("[")),
        ("symbol comma", symbol(",")),
    ];
    let mut fence = good;
    fence[7] = b'A';
    list.push(("symbol fence", fence));
    let mut fence = good;
    fence[7] = 1;
    list.push(("symbol fence not a letter", fence));
    let mut late = good;
    late[0] = 0;
    late[1] = b'A';
    list.push(("symbol begins with zero", late));
    let mut high = good;
    high[letters - 1] |= 128;
    list.push(("symbol high byte", high));
    if letters <= 5 {
        let mut stray = good;
        stray[letters + 1] = b'X';
        list.push(("symbol stray byte", stray));
        let mut stray = good;
        stray[6] = b'0';
        list.push(("symbol stray last byte", stray));
    }
    list
}

/// One call with all that it is given.
#[derive(Clone, Debug)]
pub struct Case {
    pub call: Call,
    pub book: Vec<u8>,
    pub input: Vec<u8>,
    /// The answer area before the call.
    pub answer: Vec<u8>,
}

/// A random call on a random book of at most `most` records. Each part is spoilt now and then, on
/// its own, so that two faults meet too and the order of checking shows.
pub fn case(rng: &mut Rng, call: Call, most: usize) -> Case {
    let least = if rng.chance(10) { 1 } else { most.min(18) };
    let records = if most <= 40 && rng.chance(60) {
        most
    } else {
        rng.between(least as u64, most as u64) as usize
    };
    case_of(rng, call, records)
}

/// The same on a book of any size: most are small, one in a hundred has all 4,096 records. A result
/// needs more rows than the others for all that it may do.
pub fn any_case(rng: &mut Rng, call: Call) -> Case {
    let smallest = if call == Call::Result { 70 } else { 46 };
    match rng.below(100) {
        0 => case_of(rng, call, MAX_RECORDS),
        1..=5 => case(rng, call, 400),
        size if size < smallest => case(rng, call, 64),
        _ => case(rng, call, 24),
    }
}

fn case_of(rng: &mut Rng, call: Call, records: usize) -> Case {
    let mut case = unmoved_case(rng, call, records);
    if rng.chance(20) {
        case = to_a_small_gain(rng, case);
    } else if matches!(call, Call::Order | Call::Result) && rng.chance(5) {
        // One case in seven can be changed so, thus a few are tried.
        let large = (0..4).find_map(|_| {
            let case = unmoved_case(rng, call, records);
            to_a_large_gain(rng, case)
        });
        case = large.unwrap_or(case);
    }
    // A result has five edges, the others one or two.
    if rng.chance(if call == Call::Result { 30 } else { 15 }) {
        case = to_the_edge(rng, case);
    }
    if matches!(call, Call::Order | Call::Result) && rng.chance(12) {
        case = to_other_bands(rng, case);
    }
    if call == Call::Order && rng.chance(15) {
        case = to_another_executor(rng, case);
    }
    case
}

/// A case before it is changed for a certain gain, other bands or another executor, or moved to an edge.
fn unmoved_case(rng: &mut Rng, call: Call, records: usize) -> Case {
    let plan = Plan::for_call(rng, call, records);
    let book = book_of(rng, &plan);
    case_on(rng, call, book)
}

/// A random call on this sound book, which may be spoilt for it.
pub fn case_on(rng: &mut Rng, call: Call, mut book: Vec<u8>) -> Case {
    let rows = rows_of(&book);
    let mut input = good_input(rng, call, &rows);
    if rng.chance(7) {
        name_unknown(rng, call, &rows, &mut input);
    }
    if rng.chance(6) {
        let at = rng.index(input.len());
        let broken = broken_records(rng, call, &input[at]);
        input[at] = rng.pick(&broken).1;
    }
    let mut input = bytes_of(&input);
    let mut answer_length = call.answer_length(input.len());
    if rng.chance(6) {
        if rng.chance(50) {
            input = wrong_length(rng, input);
            if rng.chance(50) {
                answer_length = call.answer_length(input.len());
            }
        } else {
            answer_length = wrong_answer_length(rng, answer_length);
        }
    }
    if rng.chance(6) {
        book = mutate::wrong_book_length(rng, book);
    } else if rng.chance(6) {
        mutate::any(rng, &mut book);
    }
    let answer = rng.bytes(answer_length);
    Case {
        call,
        book,
        input,
        answer,
    }
}

/// Changes the book of a case that is accepted, so that a total lands on the last good value or one
/// past it, or that the free places are just enough or one too few. Other cases stay as they are.
pub fn to_the_edge(rng: &mut Rng, mut case: Case) -> Case {
    let mut after = case.book.clone();
    let mut answer = case.answer.clone();
    if case.call.run(&mut after, &case.input, &mut answer) != 0 {
        return case;
    }
    let mut rows = rows_of(&case.book);
    let past = rng.below(2);
    let first = rows_of(&case.input)[0];
    match case.call {
        Call::Order if rng.chance(50) => {
            let last = MAX_TRADE_NUMBER - 1 + past;
            renumber_largest(&mut rows, last);
        }
        Call::Result if rng.chance(70) => {
            let answer = Row::read(answer[..RECORD].try_into().unwrap());
            let of_kind = |rows: &[Row], kind: u8, party: u32| {
                rows.iter()
                    .position(|row| row.kind == kind && row.party == party)
                    .unwrap()
            };
            let account = of_kind(&rows, ACCOUNT, answer.party);
            let broker = of_kind(&rows, BROKER, rows[account].n1);
            let after = rows_of(&after);
            let trade = after.iter().find(|r| r.kind == TRADE && r.id == first.id);
            // No balance is an edge for a trade that is not cash.
            let edges = match trade.unwrap().flags & FLAG_CASH {
                0 => 2,
                _ => 4,
            };
            match rng.below(edges) {
                0 => rows[broker].n1 = MAX_BROKER_TRADES - 1 + past as u32,
                1 => {
                    let room = trade.unwrap().m1.saturating_sub(past);
                    rows[broker].m1 = MAX_MONEY as u64 - room;
                }
                _ => {
                    // The balance before from which this settlement leads to the limit.
                    let amount = answer.signed_m2();
                    let before = if amount > 0 {
                        MAX_MONEY - amount + past as i64
                    } else {
                        -MAX_MONEY - amount - past as i64
                    };
                    rows[account].m1 = before.clamp(-MAX_MONEY, MAX_MONEY) as u64;
                }
            }
        }
        Call::Feed if rng.chance(50) => {
            let fed = rows_of(&case.input);
            let mine = fed.iter().filter(|entry| entry.symbol == first.symbol);
            let sum: u64 = mine.map(|entry| u64::from(entry.n2)).sum();
            let security = rows
                .iter_mut()
                .find(|row| row.kind == SECURITY && row.symbol == first.symbol);
            security.unwrap().m1 = MAX_VOLUME - sum + past;
        }
        _ => {
            let needed = match case.call {
                Call::Order if first.typ <= TMS => 2,
                Call::Order => 3,
                _ => {
                    let after = rows_of(&after);
                    let taken = |place: &usize| rows[*place].is_free() && !after[*place].is_free();
                    (0..rows.len()).filter(taken).count()
                }
            };
            leave_free(rng, &mut rows, needed.saturating_sub(past as usize));
        }
    }
    case.book = bytes_of(&rows);
    case
}

/// The statuses of an order or a result that is accepted, or refused for its tax.
const ASKED_FOR_TAX: [i32; 3] = [0, ORDER_NO_TAX, RESULT_NO_TAX];
/// Those of one for which nothing is amiss that comes before tax and band.
const ASKED_FOR_BAND: [i32; 10] = [
    0,
    ORDER_NO_TAX,
    ORDER_NO_RATE,
    ORDER_NO_BAND,
    ORDER_NO_CHARGE,
    RESULT_NO_TAX,
    RESULT_NO_RATE,
    RESULT_NO_BAND,
    OUT_OF_RANGE,
    NO_ROOM,
];

/// An order or a result, to be changed for another tax or other bands.
struct Parts {
    rows: Vec<Row>,
    input: Row,
    /// The order's input itself, or the trade that the result names.
    trade: Row,
    /// The account's customer.
    customer: u32,
    /// A rate of the account's customer, if there is one.
    rate: Option<u32>,
}

/// What decides over the tax beside the lots.
struct Terms {
    shares: u32,
    price: u32,
    tax_status: u8,
    /// The sum of the customer's rates.
    rates: u32,
}

impl Parts {
    /// The parts of a case that has one of these statuses.
    fn of(case: &Case, statuses: &[i32]) -> Option<Parts> {
        if !matches!(case.call, Call::Order | Call::Result) {
            return None;
        }
        let mut after = case.book.clone();
        let mut answer = case.answer.clone();
        let status = case.call.run(&mut after, &case.input, &mut answer);
        if !statuses.contains(&status) {
            return None;
        }
        let rows = rows_of(&case.book);
        let input = rows_of(&case.input)[0];
        let trade = match case.call {
            Call::Order => input,
            _ => {
                let trade = rows.iter().find(|r| r.kind == TRADE && r.id == input.id);
                *trade.expect("else it is -811")
            }
        };
        let account = rows
            .iter()
            .find(|r| r.kind == ACCOUNT && r.party == trade.party);
        let customer = account.expect("S3, or else it is -711").n2;
        let link = rows
            .iter()
            .find(|r| r.kind == CUSTOMER_RATE && r.party == customer);
        let rate = link.map(|link| link.n1);
        Some(Parts {
            rows,
            input,
            trade,
            customer,
            rate,
        })
    }

    /// The case with these terms. One rate of the customer, if there is one, is the sum; all others
    /// of the book are zero, so that S5 holds for every customer.
    fn with(mut self, terms: Terms, case: Case) -> Case {
        let trade = self.trade;
        let at_last_price = case.call == Call::Order && trade.typ <= TMS;
        for row in &mut self.rows {
            match row.kind {
                ACCOUNT if row.party == trade.party => row.typ = terms.tax_status,
                TAX_RATE if Some(row.party) == self.rate => row.n1 = terms.rates,
                TAX_RATE => row.n1 = 0,
                TRADE if case.call == Call::Result && row.id == trade.id => row.n1 = terms.shares,
                SECURITY if at_last_price && row.symbol == trade.symbol => row.n1 = terms.price,
                _ => {}
            }
        }
        match case.call {
            Call::Order => {
                self.input.n1 = terms.shares;
                if !at_last_price {
                    self.input.n2 = terms.price;
                }
            }
            _ => self.input.n1 = terms.price,
        }
        Case {
            book: bytes_of(&self.rows),
            input: bytes_of(&[self.input]),
            ..case
        }
    }
}

/// Changes the book and the input of an order or a result that would close lots, so that it closes
/// one share with the gain, tax status and rates that decide over -731 and -831. Other cases stay
/// as they are.
pub fn to_a_small_gain(rng: &mut Rng, case: Case) -> Case {
    let Some(parts) = Parts::of(&case, &ASKED_FOR_TAX) else {
        return case;
    };
    let trade = parts.trade;
    let mut lots = of_kind(&parts.rows, LOT);
    lots.retain(|lot| (lot.party, lot.symbol) == (trade.party, trade.symbol));
    lots.retain(|lot| (lot.signed_m1() < 0) == buys(trade.typ));
    lots.sort_by_key(|lot| (lot.time, lot.id));
    if trade.flags & FLAG_LIFO != 0 {
        lots.reverse();
    }
    let Some(lot) = lots.first() else {
        return case;
    };

    let taxed = rng.between32(1, 2) as u8;
    let few = rng.between(1, 3) as i64;
    let (tax_status, rates, gain) = match rng.below(10) {
        0 | 1 => (taxed, 1, 1),
        2 | 3 => (taxed, 20_000, 2),
        // To both sides of half a cent.
        4 => (taxed, 49_999 + rng.between32(0, 1), 1),
        5 | 6 => (taxed, 0, few),
        7 => (taxed, 0, 0),
        8 => (taxed, 0, -few),
        _ => (0, 0, few),
    };
    let rise = if buys(trade.typ) { -gain } else { gain };
    let price = (i64::from(lot.n1) + rise).clamp(1, i64::from(MAX_PRICE)) as u32;
    let terms = Terms {
        shares: 1,
        price,
        tax_status,
        rates,
    };
    parts.with(terms, case)
}

/// Changes the book and the input of an order or a result that meets lots, so that its gain is
/// nearly as large as may be and the rates are high: mostly, their product passes the largest
/// signed 64-bit number (2026-06). None for other cases and for customers without rates.
pub fn to_a_large_gain(rng: &mut Rng, case: Case) -> Option<Case> {
    let mut parts = Parts::of(&case, &ASKED_FOR_TAX)?;
    let trade = parts.trade;
    let buy = buys(trade.typ);
    let held = |row: &Row| (row.party, row.symbol) == (trade.party, trade.symbol);
    let rows = parts.rows.iter_mut();
    let mut lots: Vec<&mut Row> = rows.filter(|r| r.kind == LOT && held(r)).collect();
    if lots.is_empty() || parts.rate.is_none() {
        return None;
    }

    // Each lot may have all the shares; together they have nearly as many at least.
    let least = (MAX_SHARES - little(rng)) / lots.len() as u32;
    let mut sum = 0;
    for lot in &mut lots {
        let shares = i64::from(rng.between32(least, MAX_SHARES));
        let shares = if buy { -shares } else { shares };
        lot.n1 = price_at_limit(rng, buy);
        lot.m1 = shares as u64;
        sum += shares;
    }
    let mut rows = parts.rows.iter_mut();
    let summary = rows.find(|r| r.kind == SUMMARY && held(r));
    summary.expect("S8").m1 = sum as u64;

    let rates = match rng.below(8) {
        0 | 1 => MAX_RATE,
        2 => MAX_RATE - 1,
        // Of one gain in twenty, this is a half exactly.
        3 => 95_000,
        // At the lowest of these, only the largest gain passes that number.
        4 => rng.between32(92_234, MAX_RATE),
        // With these none does, yet the product is 2^62 or more.
        _ => rng.between32(MAX_RATE / 2, 92_233),
    };
    let terms = Terms {
        shares: MAX_SHARES - little(rng),
        price: price_at_limit(rng, !buy),
        tax_status: rng.between32(1, 2) as u8,
        rates,
    };
    Some(parts.with(terms, case))
}

/// Changes the bands in the book of an order or a result that comes as far as tax and band, so that
/// the search finds no band, one of rate zero, or one with a rate beside such bands (2026-04). Other
/// refusals may be due too, before it or after it. Other cases stay as they are.
pub fn to_other_bands(rng: &mut Rng, case: Case) -> Case {
    let Some(parts) = Parts::of(&case, &ASKED_FOR_BAND) else {
        return case;
    };
    let (mut rows, trade) = (parts.rows, parts.trade);
    let mut customers = rows.iter().filter(|r| r.kind == CUSTOMER);
    let customer = customers.find(|r| r.party == parts.customer);
    let mut securities = rows.iter().filter(|r| r.kind == SECURITY);
    let security = securities.find(|r| r.symbol == trade.symbol);

    // One band holds these, or none. The trade's shares are often the first or the last of them.
    let shares = trade.n1;
    let (mut from, mut to) = (shares, shares);
    if rng.chance(40) {
        from = rng.between32(1, shares);
    }
    if rng.chance(40) {
        to = rng.between32(shares, MAX_SHARES);
    }
    let holding = Row {
        kind: BAND,
        typ: trade.typ,
        status: customer.expect("S3").typ,
        flags: security.expect("S3, or else it is -712").typ,
        n1: from,
        n2: to,
        n3: *rng.pick(&[1, 50, 50, MAX_BAND_RATE]),
        ..Row::default()
    };
    let (n1, n2) = (1, from - 1);
    let below = Row { n1, n2, ..holding };
    let (n1, n2) = (to + 1, MAX_SHARES);
    let above = Row { n1, n2, ..holding };
    let zero = |band: Row| Row { n3: 0, ..band };
    // Any number of 1..=most but this one.
    let mut other = |one: u8, most: u8| 1 + (one + rng.below(u64::from(most) - 1) as u8) % most;
    let (typ, status, flags) = (
        other(holding.typ, TSL),
        other(holding.status, 3),
        other(holding.flags, 4),
    );
    let way = rng.below(10);
    let mut bands = match way {
        0 => Vec::new(),
        1 => vec![Row { typ, ..holding }],
        2 => vec![Row { status, ..holding }],
        3 => vec![Row { flags, ..holding }],
        4 => vec![below],
        5 => vec![above],
        6 => vec![below, above],
        7 => vec![zero(holding)],
        8 => vec![zero(holding), below, above],
        _ => vec![holding, zero(below), zero(above)],
    };
    // There are no shares below the first and none above the last.
    bands.retain(|band| band.n1 <= band.n2);
    // Where none holds the shares, a rate of zero beside them must not be taken for theirs.
    if way <= 6 && rng.chance(25) {
        bands.iter_mut().for_each(|band| band.n3 = 0);
    }

    // They take the place of all bands of their type, tier and exchange, and of the trade's; the
    // first way leaves no band at all. A band that finds no place is left out.
    let of_one_key = |a: &Row, b: &Row| (a.typ, a.status, a.flags) == (b.typ, b.status, b.flags);
    let (mut places, mut free) = (Vec::new(), Vec::new());
    for (place, row) in rows.iter_mut().enumerate() {
        let mut own = bands.iter().chain([&holding]);
        if row.kind == BAND && (way == 0 || own.any(|band| of_one_key(row, band))) {
            *row = Row::default();
            places.push(place);
        } else if row.is_free() {
            free.push(place);
        }
    }
    rng.shuffle(&mut free);
    places.extend(free);
    for (place, band) in places.into_iter().zip(bands) {
        rows[place] = band;
    }
    Case {
        book: bytes_of(&rows),
        ..case
    }
}

/// Changes who gives an order, and the permissions in its book: the owner, an executor who may, or one
/// who may not, as all that there is are rows of another account or of another executor, or no row
/// (2026-01). Other refusals may be due too, before it or after it. An order whose book or input is
/// refused by itself stays as it is, as do the other calls.
pub fn to_another_executor(rng: &mut Rng, case: Case) -> Case {
    let (mut after, mut answer) = (case.book.clone(), case.answer.clone());
    let status = case.call.run(&mut after, &case.input, &mut answer);
    let by_itself = [WRONG_LENGTH, BOOK_LENGTH, NOT_SOUND, BAD_INPUT];
    if case.call != Call::Order || by_itself.contains(&status) {
        return case;
    }
    let mut rows = rows_of(&case.book);
    let mut input = rows_of(&case.input)[0];
    let account = input.party;
    let executor = any_executor(rng, &rows);
    let other_executor = loop {
        // The next number, or one whose highest byte alone differs, or any.
        let other = match rng.below(4) {
            0 => executor + 1,
            1 => executor - 1,
            2 => executor ^ 1 << 24,
            _ => any_executor(rng, &rows),
        };
        if other != executor && (1..=MAX_NUMBER).contains(&other) {
            break other;
        }
    };
    let mut accounts = of_kind(&rows, ACCOUNT);
    // An account that is the only one often gets another beside it, if there is a place.
    let alone = accounts.len() == 1 && accounts[0].party == account;
    if let (true, Some(place)) = (alone && rng.chance(50), rows.iter().position(Row::is_free)) {
        let party = unknown_party(rng, &rows, ACCOUNT);
        rows[place] = Row {
            party,
            ..accounts[0]
        };
        accounts.push(rows[place]);
    }
    let others: Vec<&Row> = accounts.iter().filter(|row| row.party != account).collect();
    let own = permission(account, executor);
    let of_another_executor = permission(account, other_executor);
    let of_another_account = match rng.pick_any(&others) {
        Some(other) => permission(other.party, executor),
        // It is left out below.
        None => Row::default(),
    };
    let (named, mut permissions) = match rng.below(10) {
        0 => (0, Vec::new()),
        1 => (0, vec![of_another_executor, of_another_account]),
        2 => (executor, vec![own]),
        3 => (executor, vec![own, of_another_executor]),
        4 => (executor, vec![own, of_another_account]),
        5 | 6 => (executor, Vec::new()),
        7 => (executor, vec![of_another_account]),
        8 => (executor, vec![of_another_executor]),
        _ => (executor, vec![of_another_account, of_another_executor]),
    };
    input.n3 = named;
    // An account that is not there has no permission.
    permissions.retain(|row| accounts.iter().any(|account| account.party == row.party));

    // They take the place of all permissions of the account and of the executor. One that finds no
    // place is left out.
    let (mut places, mut free) = (Vec::new(), Vec::new());
    for (place, row) in rows.iter_mut().enumerate() {
        if row.kind == PERMISSION && (row.party == account || row.n1 == executor) {
            *row = Row::default();
            places.push(place);
        } else if row.is_free() {
            free.push(place);
        }
    }
    rng.shuffle(&mut free);
    places.extend(free);
    for (place, row) in places.into_iter().zip(permissions) {
        rows[place] = row;
    }
    Case {
        book: bytes_of(&rows),
        input: bytes_of(&[input]),
        ..case
    }
}

/// Nearly the highest price or nearly the lowest.
fn price_at_limit(rng: &mut Rng, high: bool) -> u32 {
    if high {
        MAX_PRICE - little(rng)
    } else {
        1 + little(rng)
    }
}

/// Zero, or at most a hundredth of the most shares.
fn little(rng: &mut Rng) -> u32 {
    let most = *rng.pick(&[0, 9, 9_999]);
    rng.between32(0, most)
}

/// Gives the trade of the largest number this one instead, wherever it is named.
fn renumber_largest(rows: &mut [Row], number: u64) {
    let trades = rows.iter().filter(|row| row.kind == TRADE);
    if let Some(largest) = trades.map(|row| row.id).max() {
        for row in rows {
            if row.kind >= TRADE && row.id == largest {
                row.id = number;
            }
            if row.kind == LOT_HISTORY && row.m2 == largest {
                row.m2 = number;
            }
        }
    }
}

/// Puts brokers whom nobody names on free places, until so many are left.
fn leave_free(rng: &mut Rng, rows: &mut [Row], left: usize) {
    let mut free: Vec<usize> = (0..rows.len()).filter(|p| rows[*p].is_free()).collect();
    rng.shuffle(&mut free);
    while free.len() > left {
        let party = unknown_party(rng, rows, BROKER);
        rows[free.pop().unwrap()] = Row {
            kind: BROKER,
            party,
            ..Row::default()
        };
    }
}

/// An input that is cut, longer, empty or of too many records (two are too many for some calls).
fn wrong_length(rng: &mut Rng, mut input: Vec<u8>) -> Vec<u8> {
    match rng.below(6) {
        0 => Vec::new(),
        5 => {
            let first = input[..RECORD].to_vec();
            input.extend(first);
            input
        }
        1 => {
            input.pop();
            input
        }
        2 => {
            input.push(0);
            input
        }
        3 => {
            let first = input[..RECORD].to_vec();
            while input.len() <= MAX_ENTRIES * RECORD {
                input.extend(&first);
            }
            input
        }
        _ => {
            input.truncate(rng.index(RECORD));
            input
        }
    }
}

fn wrong_answer_length(rng: &mut Rng, length: usize) -> usize {
    match rng.below(6) {
        0 => 0,
        1 => length - 1,
        2 => length + 1,
        3 => length + RECORD,
        4 => length - RECORD,
        _ => 2 * length,
    }
}
