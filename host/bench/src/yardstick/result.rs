//! book_result on the tables that the check of soundness leaves.

use super::grid::{is_time, is_trade_number, put, within, Record, Row};
use super::sound::{band_key, BAND_PLACE, NO_LOT};
use super::{pair, Yardstick};
use second::calls::{
    BandSearch, BAD_INPUT, NO_ROOM, OUT_OF_RANGE, RESULT_NOT_SUBMITTED, RESULT_NO_BAND,
    RESULT_NO_RATE, RESULT_NO_TAX, RESULT_NO_TRADE, WRONG_LENGTH,
};
use second::record::*;

/// A lot that a walk may meet; they are sorted by time and number.
#[derive(Clone, Copy, PartialEq, Eq, PartialOrd, Ord)]
pub struct Lot {
    time: u32,
    id: u64,
    place: u16,
}

/// What the trade is and touches, and what comes of it.
struct Outcome {
    trade: usize,
    account: usize,
    broker: usize,
    summary: Option<usize>,
    buys: bool,
    shares: i64,
    /// How many of the lots in `walk` are met, and the shares that no lot met.
    met: usize,
    left: i64,
    tax: u64,
    commission: u64,
    settlement: i64,
    balance: i64,
    broker_trades: u32,
    broker_total: u64,
}

fn is_result_input(row: Row) -> bool {
    row.head() == RESULT_INPUT.into()
        && is_trade_number(row.id())
        && within(row.n1_n2(), 1, MAX_PRICE.into())
        && is_time(row.time_n5())
        && row.symbol() | row.n3_n4() | row.m1() | row.m2() == 0
}

impl Yardstick {
    /// Does what book_result does, and gives its status.
    pub fn result(&mut self, book: &mut [u8], input: &[u8], answer: &mut [u8]) -> i32 {
        let (Ok(input), Ok(answer)) = (<&Record>::try_from(input), <&mut Record>::try_from(answer))
        else {
            return WRONG_LENGTH;
        };
        let input = Row::of(input);
        let judged = match self.status(book) {
            0 if is_result_input(input) => self.judge(book.as_chunks().0, input),
            0 => Err(BAD_INPUT),
            status => Err(status),
        };
        match judged {
            Ok(outcome) => {
                let rows = book.as_chunks_mut().0;
                self.post(rows, input, &outcome);
                let head = u64::from(RESULT_INPUT) | Row::of(&rows[outcome.account]).party() << 32;
                let (balance, settlement) = (outcome.balance as u64, outcome.settlement as u64);
                let words = [head, input.id(), outcome.tax, 0, 0, balance, settlement, 0];
                put(answer, words);
                0
            }
            Err(status) => {
                answer.fill(0);
                answer[60..].copy_from_slice(&status.to_le_bytes());
                status
            }
        }
    }

    fn place(&self, kind: u8, number: usize) -> usize {
        self.places[usize::from(kind)][number].into()
    }

    /// Everything that can be refused; the book is read only.
    fn judge(&mut self, rows: &[Record], input: Row) -> Result<Outcome, i32> {
        let number = self.trades.find(input.id()).ok_or(RESULT_NO_TRADE)?;
        let of_trade = self.of_trade[number];
        if of_trade.status != SBMT {
            return Err(RESULT_NOT_SUBMITTED);
        }
        let trade_place = self.place(TRADE, number);
        let trade = Row::of(&rows[trade_place]);
        let account_place = self.place(ACCOUNT, of_trade.account.into());
        let account = Row::of(&rows[account_place]);
        let broker_place = self.place(BROKER, self.brokers.find(account.n1().into()).expect("S3"));
        let broker = Row::of(&rows[broker_place]);
        let customer = self.customers.find(account.n2().into()).expect("S3");
        let tier = Row::of(&rows[self.place(CUSTOMER, customer)]).typ();
        let exchange = Row::of(&rows[self.place(SECURITY, of_trade.security.into())]).typ();
        let position = pair(of_trade.account.into(), of_trade.security.into());
        let summary = self.summaries.find(position);
        let (buys, shares, price) = (
            buys(trade.typ()),
            i64::from(trade.n1()),
            i64::from(input.n1()),
        );

        self.gather_lots(rows, summary, buys, trade.flags() & FLAG_LIFO != 0);
        let (mut met, mut left, mut at_lot_prices) = (0, shares, 0);
        for lot in &self.walk {
            if left == 0 {
                break;
            }
            let lot = Row::of(&rows[usize::from(lot.place)]);
            let closed = left.min((lot.m1() as i64).abs());
            at_lot_prices += closed * i64::from(lot.n1());
            left -= closed;
            met += 1;
        }
        let at_trade_price = (shares - left) * price;
        // Sold less bought: a sell has bought the lots, a buy has sold them.
        let gain = if buys {
            at_lot_prices - at_trade_price
        } else {
            at_trade_price - at_lot_prices
        };

        let mut tax = 0;
        if account.typ() != 0 && gain > 0 {
            let rates = u64::from(self.rate_sums[customer]);
            if rates == 0 {
                return Err(RESULT_NO_TAX);
            }
            // Below 10 to the 19: 999,999 shares, 99,999,999 cents, 100,000 of a rate.
            tax = (gain as u64 * rates + 50_000) / 100_000;
        }
        let rate = match self.search_band(rows, [trade.typ(), tier, exchange], trade.n1()) {
            BandSearch::Rate(rate) => rate,
            BandSearch::ZeroRate => return Err(RESULT_NO_RATE),
            BandSearch::NoBand => return Err(RESULT_NO_BAND),
        };
        let value = shares * price;
        let commission = (u64::from(rate) * value as u64 + 5_000) / 10_000;
        let fees = i64::from(trade.n4()) + commission as i64;
        let withheld = if account.typ() == 1 { tax as i64 } else { 0 };
        let settlement = if buys { -value } else { value } - fees - withheld;
        let balance = account.m1() as i64 + if of_trade.cash { settlement } else { 0 };
        let (broker_trades, broker_total) = (broker.n1() + 1, broker.m1() + commission);
        if balance.abs() > MAX_MONEY
            || broker_trades > MAX_BROKER_TRADES
            || broker_total > MAX_MONEY as u64
        {
            return Err(OUT_OF_RANGE);
        }
        let opened = if left > 0 { 2 } else { 0 };
        let added = met + opened + usize::from(summary.is_none()) + 2 + usize::from(of_trade.cash);
        if self.count(0) < added {
            return Err(NO_ROOM);
        }
        Ok(Outcome {
            trade: trade_place,
            account: account_place,
            broker: broker_place,
            summary: summary.map(|number| self.place(SUMMARY, number)),
            buys,
            shares,
            met,
            left,
            tax,
            commission,
            settlement,
            balance,
            broker_trades,
            broker_total,
        })
    }

    /// The lots that a walk goes over, in its order: none if they have the trade's own sign.
    fn gather_lots(&mut self, rows: &[Record], summary: Option<usize>, buys: bool, lifo: bool) {
        self.walk.clear();
        let Some(position) = summary.map(|number| self.positions[number]) else {
            return;
        };
        if (position.sum < 0) != buys {
            return;
        }
        let mut number = position.last_lot;
        while number != NO_LOT {
            let place = self.places[usize::from(LOT)][usize::from(number)];
            let row = Row::of(&rows[usize::from(place)]);
            self.walk.push(Lot {
                time: row.time_n5() as u32,
                id: row.id(),
                place,
            });
            number = self.earlier_lot[usize::from(number)];
        }
        if lifo {
            self.walk.sort_unstable_by(|a, b| b.cmp(a));
        } else {
            self.walk.sort_unstable();
        }
    }

    /// Searches the band of this type, tier and exchange that holds the shares.
    fn search_band(
        &self,
        rows: &[Record],
        [typ, tier, exchange]: [u8; 3],
        shares: u32,
    ) -> BandSearch {
        let head = u64::from(u32::from_le_bytes([BAND, typ, tier, exchange]));
        let key = band_key(head, shares) | BAND_PLACE;
        // The last band that is not above: of these three, the one that begins last before the shares.
        let Some(last) = self
            .bands
            .partition_point(|band| *band <= key)
            .checked_sub(1)
        else {
            return BandSearch::NoBand;
        };
        let band = Row::of(&rows[(self.bands[last] & BAND_PLACE) as usize]);
        if band.head() != head || shares > band.n2() {
            return BandSearch::NoBand;
        }
        match band.n3() {
            0 => BandSearch::ZeroRate,
            rate => BandSearch::Rate(rate),
        }
    }

    /// Changes the book; nothing can fail.
    fn post(&self, rows: &mut [Record], input: Row, outcome: &Outcome) {
        let (id, price, time) = (input.id(), u64::from(input.n1()), input.time_n5());
        let trade = Row::of(&rows[outcome.trade]);
        let (party, symbol, cash) = (trade.party() << 32, trade.symbol(), trade.is_cash());
        let signed = |shares: i64| if outcome.buys { shares } else { -shares };
        let mut free = self.places[0].iter();
        let mut add = |rows: &mut [Record], words: [u64; 8]| {
            let place = free.next().expect("as many as were asked for");
            put(&mut rows[usize::from(*place)], words);
        };
        let lot_history = |lot: u64, before: i64, after: i64| {
            let shares = u64::from(before as u32) | u64::from(after as u32) << 32;
            [LOT_HISTORY.into(), lot, 0, shares, 0, 0, id, 0]
        };

        let mut need = outcome.shares;
        for lot in &self.walk[..outcome.met] {
            let place = usize::from(lot.place);
            let before = Row::of(&rows[place]).m1() as i64;
            let closed = need.min(before.abs());
            let after = before + signed(closed);
            need -= closed;
            add(rows, lot_history(lot.id, before, after));
            if after == 0 {
                rows[place].fill(0);
            } else {
                set_m1(&mut rows[place], after as u64);
            }
        }
        if outcome.left > 0 {
            let opened = signed(outcome.left);
            add(rows, lot_history(id, 0, opened));
            add(
                rows,
                [
                    u64::from(LOT) | party,
                    id,
                    symbol,
                    price,
                    0,
                    opened as u64,
                    0,
                    time,
                ],
            );
        }
        let change = signed(outcome.shares);
        if let Some(place) = outcome.summary {
            let sum = Row::of(&rows[place]).m1() as i64 + change;
            if sum == 0 {
                rows[place].fill(0);
            } else {
                set_m1(&mut rows[place], sum as u64);
            }
        } else {
            add(
                rows,
                [
                    u64::from(SUMMARY) | party,
                    0,
                    symbol,
                    0,
                    0,
                    change as u64,
                    0,
                    0,
                ],
            );
        }
        let settlement = outcome.settlement as u64;
        let due = time + u64::from(DUE_AFTER);
        add(
            rows,
            [
                u64::from(HISTORY) | u64::from(CMPT) << 16,
                id,
                0,
                0,
                0,
                0,
                0,
                time,
            ],
        );
        add(
            rows,
            [
                u64::from(SETTLEMENT) | u64::from(cash) << 24,
                id,
                0,
                0,
                0,
                settlement,
                0,
                due,
            ],
        );
        if cash {
            add(rows, [CASH.into(), id, 0, 0, 0, settlement, 0, time]);
        }

        let trade = &mut rows[outcome.trade];
        trade[2] = CMPT;
        trade[32..36].copy_from_slice(&input.n1().to_le_bytes());
        set_m1(trade, outcome.commission);
        trade[48..56].copy_from_slice(&outcome.tax.to_le_bytes());
        trade[56..60].copy_from_slice(&(time as u32).to_le_bytes());
        let broker = &mut rows[outcome.broker];
        broker[24..28].copy_from_slice(&outcome.broker_trades.to_le_bytes());
        set_m1(broker, outcome.broker_total);
        set_m1(&mut rows[outcome.account], outcome.balance as u64);
    }
}

fn set_m1(record: &mut Record, value: u64) {
    record[40..48].copy_from_slice(&value.to_le_bytes());
}
