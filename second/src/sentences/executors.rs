//! Who may give an order (2026-01): the owner, and an executor who has a row of the order's account.

use super::inputs::usual_record;
use super::rows::*;
use super::{Item, List};
use crate::calls::{
    Call, NO_ROOM, ORDER_NOT_PERMITTED, ORDER_NO_ACCOUNT, ORDER_NO_BAND, ORDER_NO_CHARGE,
    ORDER_NO_RATE, ORDER_NO_SECURITY, ORDER_NO_TAX, OUT_OF_RANGE,
};
use crate::record::*;

type Change = fn(&mut Vec<Row>);

/// The refusals that come after -721, and what has the book give them. The first needs a symbol that no
/// security has.
const LATER: [(i32, Change); 7] = [
    (ORDER_NO_SECURITY, |_| {}),
    (ORDER_NO_TAX, |book| set(book, TAX_RATE, |row| row.n1 = 0)),
    (ORDER_NO_RATE, |book| set(book, BAND, |row| row.n3 = 0)),
    (ORDER_NO_BAND, |book| set(book, BAND, |row| row.n1 = 11)),
    (ORDER_NO_CHARGE, |book| set(book, CHARGE, |row| row.n1 = 0)),
    (OUT_OF_RANGE, |book| {
        let of_last = book.iter_mut().filter(|row| row.id == 12);
        of_last.for_each(|row| row.id = MAX_TRADE_NUMBER);
    }),
    (NO_ROOM, |book| book.retain(|row| !row.is_free())),
];

fn set(book: &mut [Row], kind: u8, change: fn(&mut Row)) {
    let rows = book.iter_mut().filter(|row| row.kind == kind);
    rows.for_each(change);
}

impl List {
    /// An order on the usual book with these rows more, which is then changed, and the order's refusal.
    fn order(&mut self, label: &str, rows: &[Row], change: Change, order: Row, status: i32) {
        let mut book = self.book(rows);
        change(&mut book);
        self.items.push(Item {
            label: format!("-721 {label}"),
            book,
            input: Some((Call::Order, vec![order])),
            breaks: Vec::new(),
            refused: (status != 0).then_some(status),
        });
    }

    /// The same of an order by this executor on the book as it is: it may be given, or it is -721.
    fn order_by(&mut self, label: &str, rows: &[Row], executor: u32, may: bool) {
        let order = Row {
            n3: executor,
            ..usual_record(Call::Order)
        };
        let status = if may { 0 } else { ORDER_NOT_PERMITTED };
        self.order(label, rows, |_| {}, order, status);
        let rolled_back = Row {
            flags: FLAG_ROLL_BACK,
            ..order
        };
        self.order(
            &format!("{label}, rolled back"),
            rows,
            |_| {},
            rolled_back,
            status,
        );
    }
}

pub(super) fn add(list: &mut List) {
    let own = permission(ACCOUNT_1, NEW);
    let of_another_account = permission(ACCOUNT_2, NEW);
    let of_another_executor = permission(ACCOUNT_1, NEW + 1);
    let apart = [of_another_account, of_another_executor];
    list.order_by("owner, no permission", &[], 0, true);
    list.order_by(
        "owner beside permissions",
        &[own, of_another_account],
        0,
        true,
    );
    list.order_by("executor with a row", &[own], NEW, true);
    list.order_by("executor without a row", &[], NEW, false);
    list.order_by("row of another account", &[of_another_account], NEW, false);
    list.order_by(
        "row of another executor",
        &[of_another_executor],
        NEW,
        false,
    );
    list.order_by("rows of both apart", &apart, NEW, false);
    let all = joined(&[&apart, &[own]]);
    list.order_by("rows of both apart and its own", &all, NEW, true);
    // The second account lets an executor trade who has the first one's number.
    let exchanged = [permission(ACCOUNT_2, ACCOUNT_1)];
    list.order_by(
        "account and executor exchanged",
        &exchanged,
        ACCOUNT_2,
        false,
    );
    for bit in [0, 7, 8, 15, 16, 23, 24, 29] {
        let other = [permission(ACCOUNT_1, NEW ^ 1 << bit)];
        let label = format!("row of an executor that differs in bit {bit}");
        list.order_by(&label, &other, NEW, false);
        let party = ACCOUNT_1 ^ 1 << bit;
        let other = [permission(party, NEW), account(party)];
        let label = format!("row of an account that differs in bit {bit}");
        list.order_by(&label, &other, NEW, false);
    }
    // An executor is a number of its own.
    for (name, number) in [
        ("executor with its broker's number", BROKER_1),
        ("executor with its customer's number", CUSTOMER_1),
        ("executor with its account's number", ACCOUNT_1),
        ("executor with the lowest number", 1),
        ("executor with the highest number", MAX_NUMBER),
    ] {
        let row = [permission(ACCOUNT_1, number)];
        list.order_by(name, &[], number, false);
        list.order_by(&format!("{name} and a row"), &row, number, true);
    }

    // "after -711 and before -712": the order of checking, beside every refusal that may be due, too.
    let order = Row {
        n3: NEW,
        ..usual_record(Call::Order)
    };
    let of_nobody = Row {
        party: NEW,
        ..order
    };
    for (name, rows) in [("no row", &[][..]), ("a row of another account", &[own])] {
        let label = format!("no such account, {name}");
        list.order(&label, rows, |_| {}, of_nobody, ORDER_NO_ACCOUNT);
    }
    for (status, change) in LATER {
        let order = match status {
            ORDER_NO_SECURITY => Row {
                symbol: symbol("NEW"),
                ..order
            },
            _ => order,
        };
        let name = format!("with {status} due");
        list.order(&name, &apart, change, order, ORDER_NOT_PERMITTED);
        let name = format!("{status} with a row");
        list.order(&name, &[own], change, order, status);
    }
}
