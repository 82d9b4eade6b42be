//! S1: the limits of each field, the rules that are no range, unused fields, kinds and symbols.

// The rows that follow a value have one type of function, and some of them are added.
#![allow(clippy::ptr_arg)]

use super::rows::*;
use super::List;
use crate::mutate::used;
use crate::record::*;
use crate::sound::Rule::{self, *};

impl List {
    /// The limits of a field. The rows of a value are such that nothing is broken but S1.
    fn range(
        &mut self,
        name: &str,
        field: Field,
        low: impl Into<i128>,
        high: impl Into<i128>,
        rows: &dyn Fn(i128) -> Vec<Row>,
    ) {
        for (edge, value, good) in edges(field, low, high) {
            let breaks: &[Rule] = if good { &[] } else { &[S1] };
            self.push(format!("S1 {name} {edge}"), &rows(value), breaks);
        }
    }

    /// The limits of a field of this kind's rows; `follow` changes the rows that must agree with it.
    fn range_of(
        &mut self,
        kind: u8,
        field: Field,
        low: impl Into<i128>,
        high: impl Into<i128>,
        follow: fn(&mut Vec<Row>),
    ) {
        let name = format!("{} {}", name_of(kind), field_name(field));
        self.range(&name, field, low, high, &|value| {
            let mut rows = spare(kind);
            rows[0] = with(rows[0], field, value);
            follow(&mut rows);
            rows
        });
    }
}

/// For a field that no other row must agree with.
fn alone(_: &mut Vec<Row>) {}

/// Lets all rows be about the trade that the first is about.
fn same_trade(rows: &mut Vec<Row>) {
    let id = rows[0].id;
    for row in rows.iter_mut().filter(|row| row.id != 0) {
        row.id = id;
    }
}

/// Lets all rows be of the account that the first is of, which is a new one.
fn same_account(rows: &mut Vec<Row>) {
    let party = rows[0].party;
    for row in rows
        .iter_mut()
        .filter(|row| matches!(row.kind, TRADE | LOT | SUMMARY))
    {
        row.party = party;
    }
    rows.push(account(party));
}

/// Lets all rows be of the security that the first is of, which is a new one.
fn same_security(rows: &mut Vec<Row>) {
    let symbol = rows[0].symbol;
    for row in rows.iter_mut().filter(|row| row.symbol != [0; 8]) {
        row.symbol = symbol;
    }
    rows.push(security(symbol));
}

pub(super) fn add(list: &mut List) {
    ranges_of_standing_rows(list);
    ranges_of_trades(list);
    ranges_of_trading_rows(list);
    rules_that_are_no_range(list);
    unused_bytes(list);
    other_kinds(list);
    symbols_of_rows(list);
}

fn ranges_of_standing_rows(list: &mut List) {
    use Field::*;
    list.range_of(BROKER, Party, 1, MAX_NUMBER, alone);
    list.range_of(BROKER, N1, 0, MAX_BROKER_TRADES, alone);
    list.range_of(BROKER, M1, 0, MAX_MONEY, alone);
    list.range_of(CUSTOMER, Party, 1, MAX_NUMBER, alone);
    list.range_of(CUSTOMER, Typ, 1, 3, alone);
    list.range_of(TAX_RATE, Party, 1, MAX_NUMBER, alone);
    list.range_of(TAX_RATE, N1, 0, MAX_RATE, alone);
    list.range_of(CUSTOMER_RATE, Party, 1, MAX_NUMBER, |rows| {
        rows[1].party = rows[0].party
    });
    list.range_of(CUSTOMER_RATE, N1, 1, MAX_NUMBER, |rows| {
        rows[2].party = rows[0].n1
    });
    list.range_of(ACCOUNT, Party, 1, MAX_NUMBER, alone);
    list.range_of(ACCOUNT, N1, 1, MAX_NUMBER, |rows| {
        rows[1].party = rows[0].n1
    });
    list.range_of(ACCOUNT, N2, 1, MAX_NUMBER, |rows| {
        rows[2].party = rows[0].n2
    });
    list.range_of(ACCOUNT, Typ, 0, 2, alone);
    list.range_of(ACCOUNT, M1, -MAX_MONEY, MAX_MONEY, alone);
    list.range_of(SECURITY, Typ, 1, 4, alone);
    list.range_of(SECURITY, N1, 1, MAX_PRICE, alone);
    list.range_of(SECURITY, M1, 0, MAX_VOLUME, alone);
    list.range_of(SECURITY, Time, 0, MAX_TIME, alone);
    list.range_of(BAND, Typ, 1, 5, alone);
    list.range_of(BAND, Status, 1, 3, alone);
    list.range_of(BAND, Flags, 1, 4, alone);
    list.range_of(BAND, N1, 1, MAX_SHARES, |rows| {
        rows[0].n2 = rows[0].n2.max(rows[0].n1)
    });
    list.range_of(BAND, N2, 1, MAX_SHARES, |rows| {
        rows[0].n1 = rows[0].n1.min(rows[0].n2)
    });
    list.range_of(BAND, N3, 0, MAX_BAND_RATE, alone);
    list.range_of(CHARGE, Typ, 1, 5, alone);
    list.range_of(CHARGE, Status, 1, 3, alone);
    list.range_of(CHARGE, N1, 0, MAX_CHARGE, alone);
    list.range_of(PERMISSION, Party, 1, MAX_NUMBER, |rows| {
        rows[1].party = rows[0].party
    });
    list.range_of(PERMISSION, N1, 1, MAX_NUMBER, alone);
}

/// The fields of a trade, for each of its statuses. A pending one's request agrees with it.
fn ranges_of_trades(list: &mut List) {
    use Field::*;
    for (status, state) in [(PNDG, "pending"), (SBMT, "submitted"), (CMPT, "completed")] {
        let name = |field: Field| format!("trade {} ({state})", field_name(field));
        let set = |field: Field| {
            move |value: i128| {
                let mut rows = whole_trade(NEW_TRADE, status);
                rows[0] = with(rows[0], field, value);
                let trade = rows[0];
                if status == PNDG {
                    rows[2] = Row {
                        typ: trade.typ,
                        n1: trade.n1,
                        n2: trade.n2,
                        ..rows[2]
                    };
                }
                rows
            }
        };
        list.range(&name(Id), Id, 1, MAX_TRADE_NUMBER, &|value| {
            let mut rows = set(Id)(value);
            same_trade(&mut rows);
            rows
        });
        list.range(&name(Party), Party, 1, MAX_NUMBER, &|value| {
            let mut rows = set(Party)(value);
            rows.push(Row {
                n1: BROKER_2,
                ..account(rows[0].party)
            });
            rows
        });
        list.range(&name(N1), N1, 1, MAX_SHARES, &set(N1));
        list.range(&name(N2), N2, 1, MAX_PRICE, &set(N2));
        list.range(&name(N4), N4, 0, MAX_CHARGE, &set(N4));
        list.range(&name(M1), M1, 0, MAX_FEE, &set(M1));
        list.range(&name(Time), Time, 0, MAX_TIME, &set(Time));
        // "A trade's n3 is zero exactly until it is completed; its m2 is zero until then and may stay so."
        if status == CMPT {
            list.range(&name(N3), N3, 1, MAX_PRICE, &set(N3));
            list.range(&name(M2), M2, 0, MAX_FEE, &set(M2));
        } else {
            list.range(&name(N3), N3, 0, 0, &set(N3));
            list.range(&name(M2), M2, 0, 0, &set(M2));
        }
        // S6 narrows the types of a pending trade; and S9 has the settlement bear a completed one's flag.
        if status != PNDG {
            list.range(&name(Typ), Typ, 1, 5, &set(Typ));
        }
        list.range(&name(Flags), Flags, 0, 3, &|value| {
            let mut rows = set(Flags)(value);
            if status == CMPT && rows[0].flags & FLAG_CASH != 0 {
                rows[2].flags = FLAG_CASH;
                rows.push(cash(NEW_TRADE));
            }
            rows
        });
    }
    list.range("trade status", Status, 1, 3, &|value| {
        whole_trade(NEW_TRADE, value as u8)
    });
}

fn ranges_of_trading_rows(list: &mut List) {
    use Field::*;
    list.range_of(REQUEST, Id, 1, MAX_TRADE_NUMBER, same_trade);
    list.range_of(REQUEST, N1, 1, MAX_SHARES, |rows| rows[2].n1 = rows[0].n1);
    list.range_of(REQUEST, N2, 1, MAX_PRICE, |rows| rows[2].n2 = rows[0].n2);
    list.range_of(REQUEST, Party, 1, MAX_NUMBER, |rows| {
        let party = rows[0].party;
        rows[2].party = NEW;
        rows.extend([
            Row {
                n1: party,
                ..account(NEW)
            },
            broker(party),
        ]);
    });
    // S6 asks for the types 3, 4 and 5 alone.
    for typ in [TLB, TLS, TSL, 0, TSL + 1, 128, 255] {
        let mut rows = spare(REQUEST);
        (rows[0].typ, rows[2].typ) = (typ, typ);
        let breaks: &[Rule] = if (TLB..=TSL).contains(&typ) {
            &[]
        } else {
            &[S1, S6]
        };
        list.push(format!("S1 request typ {typ}"), &rows, breaks);
    }
    list.range_of(HISTORY, Id, 1, MAX_TRADE_NUMBER, same_trade);
    list.range_of(HISTORY, Time, 0, MAX_TIME, alone);
    // A status that is higher than any breaks S7, too, unless the trade has it.
    for status in [PNDG, 0, CMPT + 1, 128, 255] {
        let mut rows = spare(HISTORY);
        rows[0].status = status;
        let breaks: &[Rule] = match status {
            PNDG => &[],
            0 => &[S1],
            _ => &[S1, S7],
        };
        list.push(format!("S1 history status {status}"), &rows, breaks);
    }
    list.range_of(LOT, Id, 1, MAX_TRADE_NUMBER, same_trade);
    list.range_of(LOT, Party, 1, MAX_NUMBER, same_account);
    list.range_of(LOT, N1, 1, MAX_PRICE, alone);
    list.range_of(LOT, M1, -i64::from(MAX_SHARES), MAX_SHARES, |rows| {
        rows[4].m1 = rows[0].m1
    });
    list.range_of(LOT, Time, 0, MAX_TIME, alone);
    list.range_of(SUMMARY, Party, 1, MAX_NUMBER, same_account);
    list.range("lot history id", Id, 1, MAX_TRADE_NUMBER, &|value| {
        let row = with(lot_history(1, OTHER_TRADE), Id, value);
        joined(&[
            &[row],
            &whole_trade(row.id, CMPT),
            &whole_trade(OTHER_TRADE, CMPT),
        ])
    });
    list.range("lot history m2", M2, 1, MAX_TRADE_NUMBER, &|value| {
        let row = with(lot_history(OTHER_TRADE, 1), M2, value);
        joined(&[
            &[row],
            &whole_trade(row.m2, CMPT),
            &whole_trade(OTHER_TRADE, CMPT),
        ])
    });
    list.range_of(LOT_HISTORY, N1, -i64::from(MAX_SHARES), MAX_SHARES, alone);
    list.range_of(LOT_HISTORY, N2, -i64::from(MAX_SHARES), MAX_SHARES, alone);
    list.range_of(SETTLEMENT, Id, 1, MAX_TRADE_NUMBER, same_trade);
    list.range_of(SETTLEMENT, M1, -MAX_MONEY, MAX_MONEY, alone);
    list.range_of(SETTLEMENT, Time, 0, MAX_DUE_TIME, alone);
    // No trade's cash flag is above 1: S9 is broken, too.
    for flags in [0, 1, 2, 3, 128, 255] {
        let mut rows = if flags % 2 == 0 {
            spare(SETTLEMENT)
        } else {
            cash_trade(NEW_TRADE)
        };
        let settlement = rows.iter_mut().find(|row| row.kind == SETTLEMENT);
        settlement.unwrap().flags = flags;
        let breaks: &[Rule] = if flags <= 1 { &[] } else { &[S1, S9] };
        list.push(format!("S1 settlement flags {flags}"), &rows, breaks);
    }
    list.range_of(CASH, Id, 1, MAX_TRADE_NUMBER, same_trade);
    list.range_of(CASH, M1, -MAX_MONEY, MAX_MONEY, |rows| {
        rows[2].m1 = rows[0].m1
    });
    list.range_of(CASH, Time, 0, MAX_TIME, alone);
}

fn rules_that_are_no_range(list: &mut List) {
    list.clause("S1 band from above to", &[S1], &[band(7, 7)], &[band(7, 6)]);
    list.bad("S1 band from far above to", &[S1], &[band(999_999, 1)]);
    let changed = |n1: i32, n2: i32| {
        let mut rows = spare(LOT_HISTORY);
        (rows[0].n1, rows[0].n2) = (n1 as u32, n2 as u32);
        rows
    };
    list.clause(
        "S1 lot history equal",
        &[S1],
        &changed(3, -3),
        &changed(3, 3),
    );
    list.clause(
        "S1 lot history equal and negative",
        &[S1],
        &changed(-4, -3),
        &changed(-3, -3),
    );
    list.clause(
        "S1 lot history from zero to zero",
        &[S1],
        &changed(0, 1),
        &changed(0, 0),
    );
    // A lot of zero shares has a sign that no other lot has. Alone it needs a summary of zero.
    list.clause("S1 lot m1 zero", &[S1], &held(&[1], 1), &held(&[0], 0));
    list.bad("S1 lot m1 zero before a lot", &[S1, S8], &held(&[0, 5], 5));
    list.bad(
        "S1 lot m1 zero after a lot that is owed",
        &[S1, S8],
        &held(&[-5, 0], -5),
    );
    list.bad("S1 summary m1 zero", &[S1, S8], &held(&[5, -5], 0));
}

/// "Unused fields are zero", byte by byte.
fn unused_bytes(list: &mut List) {
    for kind in BROKER..=PERMISSION {
        for at in unused_places(used(kind)) {
            for value in [1, 128] {
                let mut rows = spare(kind);
                rows[0] = with_byte(rows[0], at, value);
                list.bad(
                    &format!("S1 {} unused byte {at}: {value}", name_of(kind)),
                    &[S1],
                    &rows,
                );
            }
        }
    }
}

/// A record of kind 0 is free only if all of it is zero; and there are no kinds from 18 on.
fn other_kinds(list: &mut List) {
    for at in 1..RECORD {
        for value in [1, 128] {
            let row = with_byte(Row::default(), at, value);
            list.bad(&format!("S1 kind 0 byte {at}: {value}"), &[S1], &[row]);
        }
    }
    for kind in BROKER..=PERMISSION {
        // The rows beside it would name nothing without it.
        let row = Row {
            kind: 0,
            ..spare(kind)[0]
        };
        list.bad(
            &format!("S1 kind 0 instead of {}", name_of(kind)),
            &[S1],
            &[row],
        );
    }
    for kind in PERMISSION + 1..=255 {
        list.bad(&format!("S1 kind {kind}"), &[S1], &[row(kind)]);
        // The kinds that have the same lower four bits.
        for alike in (BROKER..=PERMISSION).filter(|alike| alike % 16 == kind % 16) {
            let row = Row {
                kind,
                ..spare(alike)[0]
            };
            list.bad(
                &format!("S1 kind {kind} as {}", name_of(alike)),
                &[S1],
                &[row],
            );
        }
    }
}

fn symbols_of_rows(list: &mut List) {
    for part in good_symbols().chunks(20) {
        let rows: Vec<Row> = part.iter().map(|symbol| security(*symbol)).collect();
        let first = String::from_utf8_lossy(&part[0][..7]);
        list.good(&format!("S1 security symbol from {first:?} on"), &rows);
    }
    for (name, value) in bad_symbols() {
        list.bad(
            &format!("S1 security symbol {name}"),
            &[S1],
            &[security(value)],
        );
    }
    for kind in [TRADE, REQUEST, LOT, SUMMARY] {
        let followed = |value: [u8; 8]| {
            let mut rows = spare(kind);
            rows[0].symbol = value;
            same_security(&mut rows);
            rows
        };
        let name = format!("S1 {} symbol", name_of(kind));
        for value in [symbol("A"), symbol("ZZZZZZZ")] {
            list.good(
                &format!(
                    "{name} of {} letters",
                    value.iter().filter(|b| **b != 0).count()
                ),
                &followed(value),
            );
        }
        for value in [
            *b"QQQQQQQQ",
            *b"q\0\0\0\0\0\0\0",
            *b"QQ\0Q\0\0\0\0",
            *b"QQ\0\0\0\0\0Q",
        ] {
            list.bad(&format!("{name} {value:?}"), &[S1], &followed(value));
        }
        // "ABC" with a stray later byte does not equal "ABC": the security that it begins like is no match.
        let mut rows = followed(symbol("QQ"));
        for row in rows
            .iter_mut()
            .filter(|row| row.symbol == symbol("QQ") && row.kind != SECURITY)
        {
            row.symbol[5] = b'Q';
        }
        list.bad(
            &format!("{name} with a stray byte that its security has not"),
            &[S1, S3],
            &rows,
        );
    }
}
