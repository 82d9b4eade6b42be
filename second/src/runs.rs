//! Runs for demand 3: "A list of results run in two orders that keep each account's own order,
//! neither run meeting -104 or -105, gives every result the same answer and ends with the same rows,
//! each as many times."

use crate::calls::{Call, NO_ROOM, OUT_OF_RANGE};
use crate::gen;
use crate::record::*;
use crate::rng::Rng;
use std::collections::BTreeMap;

pub const MOST_RESULTS: usize = 40;

/// A list of results to run on one book: as it stands, and in another order of its places.
#[derive(Clone, Debug)]
pub struct Run {
    pub book: Vec<u8>,
    pub list: Vec<Row>,
    pub order: Vec<usize>,
}

/// A random run. In one of five the two orders differ as much as may be: the list has one account's
/// results after the other's, and the second order has the accounts the other way round.
pub fn any_run(rng: &mut Rng) -> Run {
    let book = gen::book_for_results(rng);
    let rows = rows_of(&book);
    let mut list = list_of_results(rng, &rows);
    let order = if rng.chance(20) {
        let groups = groups_by_account(&rows, &list);
        list = groups.concat().iter().map(|at| list[*at]).collect();
        let mut moved = groups_by_account(&rows, &list);
        moved.sort();
        moved.reverse();
        moved.concat()
    } else {
        let groups = groups_by_account(&rows, &list);
        loop {
            let order = merge(rng, &groups);
            if !order.is_sorted() {
                break order;
            }
        }
    };
    Run { book, list, order }
}

/// 2 to 40 results for a book that has submitted trades of two accounts at least, and of two accounts
/// at least: most of submitted trades, some of them again, of trades that are not submitted, of
/// numbers that no trade has, and broken records.
fn list_of_results(rng: &mut Rng, rows: &[Row]) -> Vec<Row> {
    let trades = gen::of_kind(rows, TRADE);
    let (mut waiting, others): (Vec<Row>, Vec<Row>) =
        trades.iter().partition(|trade| trade.status == SBMT);
    rng.shuffle(&mut waiting);
    // The last two are taken first; they are of two accounts.
    let last = waiting.len() - 1;
    let party = waiting[last].party;
    let other = waiting.iter().position(|trade| trade.party != party);
    waiting.swap(last - 1, other.expect("trades of two accounts"));

    let most = (waiting.len() * 5 / 4).min(MOST_RESULTS);
    let length = rng.between(2, most as u64) as usize;
    let few_times = rng.chance(50);
    let mut list: Vec<Row> = Vec::new();
    while list.len() < length {
        let kind = if list.len() < 2 { 99 } else { rng.below(100) };
        let trade = match kind {
            0..=4 => None,
            5..=9 => rng.pick_any(&others).copied(),
            10..=17 => Some(*rng.pick(&trades)),
            _ => waiting.pop().or_else(|| Some(*rng.pick(&trades))),
        };
        let mut input = gen::result_input(rng, rows);
        input.id = trade.map_or_else(|| gen::unknown_trade(rng, rows), |trade| trade.id);
        if let Some(trade) = trade {
            input.n1 = gen::price_near(rng, rows, trade.symbol);
        }
        // Lots of equal times, which their numbers put in order.
        if few_times {
            input.time = rng.between32(0, 2);
        }
        if list.len() >= 2 && rng.chance(3) {
            let broken = gen::broken_records(rng, Call::Result, &input);
            input = rng.pick(&broken).1;
        }
        list.push(input);
    }
    rng.shuffle(&mut list);
    list
}

/// The results of the list (by their places in it) that must keep their order: those that name a
/// trade of one account in the opening book. One that names no trade is free to move, on its own.
pub fn groups_by_account(rows: &[Row], list: &[Row]) -> Vec<Vec<usize>> {
    let mut accounts: BTreeMap<u32, Vec<usize>> = BTreeMap::new();
    let mut groups = Vec::new();
    for (at, input) in list.iter().enumerate() {
        match rows.iter().find(|r| r.kind == TRADE && r.id == input.id) {
            Some(trade) => accounts.entry(trade.party).or_default().push(at),
            None => groups.push(vec![at]),
        }
    }
    groups.extend(accounts.into_values());
    groups
}

/// A random order of the list that keeps the order within each group.
fn merge(rng: &mut Rng, groups: &[Vec<usize>]) -> Vec<usize> {
    let mut next = vec![0; groups.len()];
    let mut order = Vec::new();
    loop {
        let waiting: Vec<usize> = (0..groups.len())
            .filter(|group| next[*group] < groups[*group].len())
            .collect();
        match rng.pick_any(&waiting).copied() {
            Some(group) => {
                order.push(groups[group][next[group]]);
                next[group] += 1;
            }
            None => return order,
        }
    }
}

/// Whether demand 3 leaves out a run that meets this status.
pub fn hinders(status: i32) -> bool {
    status == OUT_OF_RANGE || status == NO_ROOM
}

/// The records of a book without their places.
pub fn sorted_records(book: &[u8]) -> Vec<&[u8]> {
    let mut records: Vec<&[u8]> = book.chunks_exact(RECORD).collect();
    records.sort_unstable();
    records
}
