//! Trade-Result in SQL: the statements of TPC-E 1.14.0, clause 3.3.8, frame by frame, each prepared once. Where the
//! page of the rules differs (the order of lots with equal times, rounding, the check of the status, whole cents), it
//! wins.

use crate::database::{Database, Statement, Value};
use second::calls::{commission, tax_on_gain, BandSearch};
use second::calls::{
    OUT_OF_RANGE, RESULT_NOT_SUBMITTED, RESULT_NO_BAND, RESULT_NO_RATE, RESULT_NO_TAX,
    RESULT_NO_TRADE,
};
use second::record::{buys, Row, CMPT, DUE_AFTER, RESULT_INPUT, SBMT};
use Value::{Number, Symbol};

pub struct Posting<'a> {
    begin: Statement<'a>,
    commit: Statement<'a>,
    roll_back: Statement<'a>,
    trade: Statement<'a>,
    summary: Statement<'a>,
    account: Statement<'a>,
    insert_summary: Statement<'a>,
    update_summary: Statement<'a>,
    delete_summary: Statement<'a>,
    oldest_first: Statement<'a>,
    newest_first: Statement<'a>,
    insert_holding_history: Statement<'a>,
    update_holding: Statement<'a>,
    delete_holding: Statement<'a>,
    insert_holding: Statement<'a>,
    rates: Statement<'a>,
    update_tax: Statement<'a>,
    exchange: Statement<'a>,
    tier: Statement<'a>,
    rate: Statement<'a>,
    update_trade: Statement<'a>,
    insert_trade_history: Statement<'a>,
    update_broker: Statement<'a>,
    insert_settlement: Statement<'a>,
    update_balance: Statement<'a>,
    insert_cash: Statement<'a>,
    balance: Statement<'a>,
}

struct Lot {
    id: i64,
    shares: i64,
    price: i64,
}

impl<'a> Posting<'a> {
    pub fn new(database: &'a Database) -> Posting<'a> {
        let lots = |way: &str| {
            database.prepare(&format!(
                "SELECT h_t_id, h_qty, h_price FROM holding WHERE h_ca_id = ? AND h_s_symb = ?
                 ORDER BY h_dts {way}, h_t_id {way}"
            ))
        };
        let prepare = |text: &str| database.prepare(text);
        Posting {
            begin: prepare("BEGIN"),
            commit: prepare("COMMIT"),
            roll_back: prepare("ROLLBACK"),
            trade: prepare(
                "SELECT t_ca_id, t_tt_id, t_s_symb, t_qty, t_chrg, t_lifo, t_is_cash, t_st_id
                 FROM trade WHERE t_id = ?",
            ),
            summary: prepare(
                "SELECT hs_qty FROM holding_summary WHERE hs_ca_id = ? AND hs_s_symb = ?",
            ),
            account: prepare(
                "SELECT ca_b_id, ca_c_id, ca_tax_st FROM customer_account WHERE ca_id = ?",
            ),
            insert_summary: prepare(
                "INSERT INTO holding_summary (hs_ca_id, hs_s_symb, hs_qty) VALUES (?, ?, ?)",
            ),
            update_summary: prepare(
                "UPDATE holding_summary SET hs_qty = ? WHERE hs_ca_id = ? AND hs_s_symb = ?",
            ),
            delete_summary: prepare(
                "DELETE FROM holding_summary WHERE hs_ca_id = ? AND hs_s_symb = ?",
            ),
            oldest_first: lots("ASC"),
            newest_first: lots("DESC"),
            insert_holding_history: prepare(
                "INSERT INTO holding_history (hh_h_t_id, hh_t_id, hh_before_qty, hh_after_qty)
                 VALUES (?, ?, ?, ?)",
            ),
            update_holding: prepare("UPDATE holding SET h_qty = ? WHERE h_t_id = ?"),
            delete_holding: prepare("DELETE FROM holding WHERE h_t_id = ?"),
            insert_holding: prepare(
                "INSERT INTO holding (h_t_id, h_ca_id, h_s_symb, h_dts, h_price, h_qty)
                 VALUES (?, ?, ?, ?, ?, ?)",
            ),
            rates: prepare(
                "SELECT sum(tx_rate) FROM taxrate WHERE tx_id IN
                 (SELECT cx_tx_id FROM customer_taxrate WHERE cx_c_id = ?)",
            ),
            update_tax: prepare("UPDATE trade SET t_tax = ? WHERE t_id = ?"),
            exchange: prepare("SELECT s_ex_id FROM security WHERE s_symb = ?"),
            tier: prepare("SELECT c_tier FROM customer WHERE c_id = ?"),
            rate: prepare(
                "SELECT cr_rate FROM commission_rate WHERE cr_c_tier = ? AND cr_tt_id = ?
                 AND cr_ex_id = ? AND cr_from_qty <= ? AND cr_to_qty >= ? LIMIT 1",
            ),
            update_trade: prepare(
                "UPDATE trade SET t_comm = ?, t_dts = ?, t_st_id = ?, t_trade_price = ?
                 WHERE t_id = ?",
            ),
            insert_trade_history: prepare(
                "INSERT INTO trade_history (th_t_id, th_dts, th_st_id) VALUES (?, ?, ?)",
            ),
            update_broker: prepare(
                "UPDATE broker SET b_comm_total = b_comm_total + ?, b_num_trades = b_num_trades + 1
                 WHERE b_id = ?",
            ),
            insert_settlement: prepare(
                "INSERT INTO settlement (se_t_id, se_cash, se_cash_due_date, se_amt)
                 VALUES (?, ?, ?, ?)",
            ),
            update_balance: prepare(
                "UPDATE customer_account SET ca_bal = ca_bal + ? WHERE ca_id = ?",
            ),
            insert_cash: prepare(
                "INSERT INTO cash_transaction (ct_dts, ct_t_id, ct_amt) VALUES (?, ?, ?)",
            ),
            balance: prepare("SELECT ca_bal FROM customer_account WHERE ca_id = ?"),
        }
    }

    /// A result as one transaction: its answer, or its status and no change.
    pub fn result(&self, input: &Row) -> Result<Row, i32> {
        self.begin.run(&[]).expect("no transaction is open");
        let answer = self.post(input);
        let end = if answer.is_ok() {
            &self.commit
        } else {
            &self.roll_back
        };
        end.run(&[]).expect("a transaction is open");
        answer
    }

    /// The first row that a statement gives, by these columns.
    fn one<const N: usize>(&self, statement: &Statement, values: &[Value]) -> Option<[i64; N]> {
        let mut rows = statement.start(values);
        rows.next()
            .then(|| std::array::from_fn(|column| rows.number(column)))
    }

    /// A write that no constraint can refuse.
    fn write(&self, statement: &Statement, values: &[Value]) {
        statement.run(values).expect("a good row");
    }

    fn post(&self, input: &Row) -> Result<Row, i32> {
        let (id, price, time) = (input.id as i64, i64::from(input.n1), i64::from(input.time));

        // Frame 1: the trade, and what the account holds.
        let number = [Number(id)];
        let mut found = self.trade.start(&number);
        if !found.next() {
            return Err(RESULT_NO_TRADE);
        }
        let [account, typ, shares, charge, lifo, cash, status] =
            [0, 1, 3, 4, 5, 6, 7].map(|column| found.number(column));
        let symbol = found.symbol(2);
        drop(found);
        if status != i64::from(SBMT) {
            return Err(RESULT_NOT_SUBMITTED);
        }
        let buy = buys(typ as u8);
        let position = [Number(account), Symbol(&symbol)];
        let held = self.one(&self.summary, &position).map_or(0, |[held]| held);

        // Frame 2: the holdings.
        let [broker, customer, tax_status] = self
            .one(&self.account, &[Number(account)])
            .expect("the trade's account");
        let sign = if buy { 1 } else { -1 };
        let sum = held + sign * shares;
        if held == 0 {
            let row = [Number(account), Symbol(&symbol), Number(sum)];
            self.write(&self.insert_summary, &row);
        } else if sum != 0 {
            let row = [Number(sum), Number(account), Symbol(&symbol)];
            self.write(&self.update_summary, &row);
        }
        let (mut needed, mut bought, mut sold) = (shares, 0, 0);
        // A sell closes what is held, a buy what is owed.
        if held * sign < 0 {
            for lot in self.lots(&position, lifo != 0, needed) {
                let closed = lot.shares.abs().min(needed);
                let left = lot.shares + sign * closed;
                let history = [lot.id, id, lot.shares, left].map(Number);
                self.write(&self.insert_holding_history, &history);
                if left == 0 {
                    self.write(&self.delete_holding, &[Number(lot.id)]);
                } else {
                    self.write(&self.update_holding, &[Number(left), Number(lot.id)]);
                }
                let (at_lot, at_trade) = (closed * lot.price, closed * price);
                bought += if buy { at_trade } else { at_lot };
                sold += if buy { at_lot } else { at_trade };
                needed -= closed;
            }
        }
        if needed > 0 {
            let opened = sign * needed;
            self.write(
                &self.insert_holding_history,
                &[id, id, 0, opened].map(Number),
            );
            let row = [
                Number(id),
                Number(account),
                Symbol(&symbol),
                Number(time),
                Number(price),
                Number(opened),
            ];
            self.write(&self.insert_holding, &row);
        } else if sum == 0 {
            self.write(&self.delete_summary, &position);
        }

        // Frame 3: the tax.
        let mut tax = 0;
        if tax_status != 0 && sold > bought {
            let [rates] = self
                .one(&self.rates, &[Number(customer)])
                .expect("a sum is one row");
            if rates == 0 {
                return Err(RESULT_NO_TAX);
            }
            tax = tax_on_gain(i128::from(sold - bought), i128::from(rates)) as i64;
            self.write(&self.update_tax, &[Number(tax), Number(id)]);
        }

        // Frame 4: the commission.
        let [exchange] = self
            .one(&self.exchange, &[Symbol(&symbol)])
            .expect("the trade's security");
        let [tier] = self
            .one(&self.tier, &[Number(customer)])
            .expect("the account's customer");
        let rate = match self.search_band(tier, typ, exchange, shares) {
            BandSearch::Rate(rate) => rate,
            BandSearch::ZeroRate => return Err(RESULT_NO_RATE),
            BandSearch::NoBand => return Err(RESULT_NO_BAND),
        };
        let fee = commission(rate, shares as u32, price as u32) as i64;

        // Frame 5: the trade and the broker.
        let completed = i64::from(CMPT);
        let trade = [fee, time, completed, price, id].map(Number);
        self.write(&self.update_trade, &trade);
        self.write(
            &self.insert_trade_history,
            &[id, time, completed].map(Number),
        );
        self.update_broker
            .run(&[Number(fee), Number(broker)])
            .map_err(|_| OUT_OF_RANGE)?;

        // Frame 6: the settlement and the balance.
        let mut amount = if buy {
            -(shares * price + charge + fee)
        } else {
            shares * price - charge - fee
        };
        if tax_status == 1 {
            amount -= tax;
        }
        let due = time + i64::from(DUE_AFTER);
        self.write(
            &self.insert_settlement,
            &[id, cash, due, amount].map(Number),
        );
        if cash != 0 {
            self.update_balance
                .run(&[Number(amount), Number(account)])
                .map_err(|_| OUT_OF_RANGE)?;
            self.write(&self.insert_cash, &[time, id, amount].map(Number));
        }
        let [balance] = self
            .one(&self.balance, &[Number(account)])
            .expect("the trade's account");
        Ok(Row {
            kind: RESULT_INPUT,
            party: account as u32,
            id: input.id,
            symbol: tax.to_le_bytes(),
            m1: balance as u64,
            m2: amount as u64,
            ..Row::default()
        })
    }

    /// Searches the band of this tier, type and exchange that holds the shares.
    fn search_band(&self, tier: i64, typ: i64, exchange: i64, shares: i64) -> BandSearch {
        let values = [tier, typ, exchange, shares, shares].map(Number);
        match self.one(&self.rate, &values) {
            None => BandSearch::NoBand,
            Some([0]) => BandSearch::ZeroRate,
            Some([rate]) => BandSearch::Rate(rate as u32),
        }
    }

    /// The lots that a trade of so many shares meets, in order. They are read before any is changed, as SQLite does
    /// not say what a cursor sees of a table that changes under it.
    fn lots(&self, position: &[Value], lifo: bool, shares: i64) -> Vec<Lot> {
        let statement = if lifo {
            &self.newest_first
        } else {
            &self.oldest_first
        };
        let mut rows = statement.start(position);
        let (mut lots, mut met) = (Vec::new(), 0);
        while met < shares && rows.next() {
            let [id, shares, price] = [0, 1, 2].map(|column| rows.number(column));
            met += shares.abs();
            lots.push(Lot { id, shares, price });
        }
        lots
    }
}
