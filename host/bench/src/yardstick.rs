//! The yardstick: soundness and book_result in Rust, written for speed. It answers as the rules say, byte for byte,
//! which the program `yardstick` sees to; the numbers of the rules are those of `second::record`.
//!
//! What makes it fast:
//! - One pass sorts the places by kind. After it a loop meets rows of one kind, so the processor guesses each branch.
//! - A record is eight words, each read when it is asked for. Unused fields are zero if the words' union is.
//! - A row that names another is found good by what it names: a symbol that some security has needs no second look at
//!   its letters, and the key of a request, a history, a lot, a settlement or a cash row is there once if a bit of its
//!   trade was not set before. So only the trades are hashed, and not what hangs on them.
//! - "exactly where" is counted: if each settlement has its own completed trade, there are as many of the ones as of
//!   the others exactly if no completed trade lacks one.
//! - The tables are as large as the rows of a kind want, and the areas are kept from call to call: a call allocates
//!   nothing once such a book was met. Apart from the places, no loop makes a list longer, so that where it lies is
//!   known before.
#![forbid(unsafe_code)]

mod grid;
mod result;
mod sound;
mod table;

use table::Table;

/// The kinds are 1 to 17, and 0 is a free record's.
const KINDS: usize = 18;

/// What a trade is asked for by the rows that name it.
#[derive(Clone, Copy, Default)]
struct Trade {
    status: u8,
    cash: bool,
    /// A bit for each row that names it as its key.
    seen: u8,
    /// Its account and its security, as `accounts` and `securities` number them.
    account: u16,
    security: u16,
}

/// The rows of one account and security: the summary and its lots.
#[derive(Clone, Copy, Default)]
struct Position {
    sum: i64,
    /// The number of its last lot, if it has one; `earlier_lot` has the others.
    last_lot: u16,
}

/// The areas that a call works in. Tables and lists number the rows of a kind from 0, by rising places. A list may be
/// longer than what this book has of its rows.
#[derive(Default)]
pub struct Yardstick {
    /// Of each kind, rising. They grow as rows come: all together are then small and lie close to each other.
    places: [Vec<u16>; KINDS],
    brokers: Table,
    customers: Table,
    tax_rates: Table,
    customer_rates: Table,
    /// Of each customer: the sum of its rates.
    rate_sums: Vec<u32>,
    accounts: Table,
    permissions: Table,
    securities: Table,
    /// Type, tier and exchange, "from" and place of each band as one number, sorted.
    bands: Vec<u64>,
    trades: Table,
    of_trade: Vec<Trade>,
    /// How many trades have a status, without cash and with it.
    trades_of: [[usize; 2]; 4],
    /// Of each trade: the amount of its settlement.
    amounts: Vec<u64>,
    /// By account and security.
    summaries: Table,
    positions: Vec<Position>,
    /// Of each lot: the lot before it in its position.
    earlier_lot: Vec<u16>,
    lot_histories: Table,
    walk: Vec<result::Lot>,
}

/// Makes a list at least so long.
fn lengthen<T: Clone + Default>(list: &mut Vec<T>, length: usize) {
    if list.len() < length {
        list.resize(length, T::default());
    }
}

/// Two numbers of rows as one key.
#[inline(always)]
fn pair(first: usize, second: usize) -> u64 {
    (first as u64) << 16 | second as u64
}
