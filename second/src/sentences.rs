//! The sentences of the rules one by one: S1 to S10 of a book, the field rules of an input, and who may
//! give an order. For each there is a book, or an input, that breaks it and as little else as can be,
//! and a neighbour that keeps it.
//!
//! Every book here is the one of "Figures to check against" with a few rows more, which the calls do
//! not look at: a neighbour is accepted by every call.

mod executors;
mod grid;
mod inputs;
mod rows;
mod rules;

use crate::calls::{Call, NOT_SOUND};
use crate::figures::Figure;
use crate::gen::Case;
use crate::record::*;
use crate::rng::Rng;
use crate::sound::Rule;
use inputs::usual_record;
use rows::*;

pub struct Item {
    pub label: String,
    pub book: Vec<Row>,
    /// An input of a call, for the items about inputs and executors. An item about books is for all four
    /// calls.
    pub input: Option<(Call, Vec<Row>)>,
    /// The rules that the book breaks, in order: one, but where the item says why it is more.
    pub breaks: Vec<Rule>,
    /// The status that each call must give, or None if it may be neither -102 nor -103.
    pub refused: Option<i32>,
}

impl Item {
    /// The calls to make. What stands in their answer areas before depends on the item's number alone.
    pub fn cases(&self, number: u32) -> Vec<Case> {
        let inputs = match &self.input {
            Some((call, rows)) => vec![(*call, bytes_of(rows))],
            None => Call::ALL
                .map(|call| (call, bytes_of(&[usual_record(call)])))
                .to_vec(),
        };
        let mut rng = Rng::of(0, 0, u64::from(number));
        let case = |(call, input): (Call, Vec<u8>)| Case {
            call,
            book: bytes_of(&self.book),
            answer: rng.bytes(call.answer_length(input.len())),
            input,
        };
        inputs.into_iter().map(case).collect()
    }
}

/// Sentences that no book can break alone, each with what stands in the way. A program that does not
/// ask them gives the right status all the same; so their items break another sentence, too, or the
/// same one in a second row.
pub const IMPLIED: &[(&str, &str)] = &[
    (
        "S1 customer rate party",
        "S3, and the customer's own number",
    ),
    ("S1 customer rate n1", "S3, and the tax rate's own number"),
    ("S1 account n1", "S3, and the broker's own number"),
    ("S1 account n2", "S3, and the customer's own number"),
    ("S1 band n1 above", "from ≤ to, and the limit of n2"),
    ("S1 band n2 below", "from ≤ to, and the limit of n1"),
    (
        "S1 trade id",
        "S7, and the number of its history row; with that row's rule it can be broken",
    ),
    (
        "S1 trade status",
        "S7, and the status of its history row; with that row's rule it can be broken",
    ),
    ("S1 trade party", "S3, and the account's own number"),
    ("S1 trade symbol", "S3, and the security's own symbol"),
    ("S1 request id", "S3, and the trade's own number"),
    ("S1 request typ", "S6, and the trade's own type"),
    ("S1 request party", "S3, and the broker's own number"),
    ("S1 request symbol", "S3, and the security's own symbol"),
    ("S1 request n1", "S6, and the trade's own shares"),
    ("S1 request n2", "S6, and the trade's own bid"),
    (
        "S1 history id",
        "S3, and the trade's own number; with that row's rule it can be broken",
    ),
    ("S1 lot id", "S3, and the trade's own number"),
    ("S1 lot party", "S3, and the account's own number"),
    ("S1 lot symbol", "S3, and the security's own symbol"),
    ("S1 summary party", "S3, and the account's own number"),
    ("S1 summary symbol", "S3, and the security's own symbol"),
    (
        "S1 summary m1",
        "S8: lots that are not zero and have one sign do not sum to zero",
    ),
    ("S1 lot history id", "S3, and the trade's own number"),
    ("S1 lot history m2", "S3, and the trade's own number"),
    ("S1 settlement id", "S3, and the trade's own number"),
    (
        "S1 settlement flags",
        "S9: the flag is the trade's cash flag, which is 0 or 1",
    ),
    ("S1 cash id", "S3, and the trade's own number"),
    ("S1 cash m1", "S9, and the settlement's own amount"),
    ("S1 permission party", "S3, and the account's own number"),
    ("S2 band", "S4: two bands that begin alike overlap"),
    (
        "S3 request broker",
        "S6, and that the account's broker is there",
    ),
    (
        "S3 request security",
        "S6, and that the trade's security is there",
    ),
    ("S3 lot trade", "S8: the trade is completed"),
    (
        "S3 lot account",
        "S8, and that the trade's account is there",
    ),
    (
        "S3 lot security",
        "S8, and that the trade's security is there",
    ),
    (
        "S3 summary account",
        "S8, and that the lots' account is there",
    ),
    (
        "S3 summary security",
        "S8, and that the lots' security is there",
    ),
    ("S3 lot history lot", "S10: the trade is completed"),
    ("S3 lot history trade", "S10: the trade is completed"),
];

struct List {
    items: Vec<Item>,
}

impl List {
    /// The figures' book with these rows more. Each item has it from another row on, so that a rule is
    /// asked of rows at any place.
    fn book(&self, rows: &[Row]) -> Vec<Row> {
        let mut book = rows_of(&Figure::sell(120, false).with_free(0).book());
        // The lowest number stays free, and the calls here need bands and charges of one type alone.
        for row in &mut book {
            if matches!(row.kind, ACCOUNT | TRADE | LOT | SUMMARY) {
                row.party = ACCOUNT_1;
            }
        }
        book.retain(|row| !matches!(row.kind, BAND | CHARGE) || row.typ == TMS);
        book.extend([broker(BROKER_2), customer(CUSTOMER_2), security(XYZ)]);
        book.push(Row {
            n1: BROKER_2,
            n2: CUSTOMER_2,
            ..account(ACCOUNT_2)
        });
        book.extend(rows);
        book.extend([Row::default(); FREE]);
        let first = self.items.len() % book.len();
        book.rotate_left(first);
        book
    }

    fn push(&mut self, label: String, rows: &[Row], breaks: &[Rule]) {
        let book = self.book(rows);
        let refused = (!breaks.is_empty()).then_some(NOT_SOUND);
        self.items.push(Item {
            label,
            book,
            input: None,
            breaks: breaks.to_vec(),
            refused,
        });
    }

    /// A book that keeps every rule.
    fn good(&mut self, label: &str, rows: &[Row]) {
        self.push(format!("{label}: kept"), rows, &[]);
    }

    fn bad(&mut self, label: &str, breaks: &[Rule], rows: &[Row]) {
        self.push(label.to_string(), rows, breaks);
    }

    /// Rows that keep a sentence, and rows that break it.
    fn clause(&mut self, label: &str, breaks: &[Rule], kept: &[Row], broken: &[Row]) {
        self.good(label, kept);
        self.bad(label, breaks, broken);
    }
}

/// Every sentence, in the order of the rules; those of the inputs and of executors come last.
pub fn all() -> Vec<Item> {
    let mut list = List { items: Vec::new() };
    grid::add(&mut list);
    rules::add(&mut list);
    inputs::add(&mut list);
    executors::add(&mut list);
    list.items
}
