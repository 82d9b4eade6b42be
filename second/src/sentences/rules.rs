//! S2 to S10, clause by clause.

use super::rows::*;
use super::List;
use crate::record::*;
use crate::sound::Rule::{self, *};

pub(super) fn add(list: &mut List) {
    keys(list);
    names(list);
    bands(list);
    rates(list);
    requests(list);
    histories(list);
    holdings(list);
    settlements(list);
    lot_histories(list);
}

/// S2: two rows of one key, and rows whose keys differ in one field.
fn keys(list: &mut List) {
    let mut twice = |kind: u8, breaks: &[Rule], change: fn(&mut Row)| {
        let mut rows = spare(kind);
        let mut second = rows[0];
        change(&mut second);
        rows.push(second);
        list.bad(&format!("S2 {}", name_of(kind)), breaks, &rows);
    };
    twice(BROKER, &[S2], |row| row.n1 = 1);
    twice(CUSTOMER, &[S2], |row| row.typ = 2);
    twice(TAX_RATE, &[S2], |row| row.n1 = 1);
    twice(CUSTOMER_RATE, &[S2], |_| {});
    twice(ACCOUNT, &[S2], |row| row.m1 = 1);
    twice(SECURITY, &[S2], |row| row.n1 = 2);
    twice(BAND, &[S2, S4], |row| row.n2 = 6);
    twice(CHARGE, &[S2], |row| row.n1 = 1);
    twice(TRADE, &[S2], |row| row.n4 = 1);
    // S6, S8 and S9 speak of one request, summary, settlement and cash row.
    twice(REQUEST, &[S2, S6], |_| {});
    twice(HISTORY, &[S2], |row| row.time = 1);
    twice(SUMMARY, &[S2, S8], |_| {});
    twice(LOT_HISTORY, &[S2], |row| row.n1 = 8);
    twice(SETTLEMENT, &[S2, S9], |row| row.time = 1);
    twice(CASH, &[S2, S9], |row| row.time = 1);
    twice(PERMISSION, &[S2], |_| {});
    let second = Row {
        n1: 2,
        ..lot(NEW_TRADE, 5)
    };
    list.bad("S2 lot", &[S2], &joined(&[&held(&[5], 10), &[second]]));
    // As many summaries as holdings: who counts them only misses that one is there twice.
    let mut rows = joined(&[
        &held(&[5], 5),
        &[summary(5)],
        &whole_trade(OTHER_TRADE, CMPT),
    ]);
    rows.push(Row {
        symbol: ABC,
        ..lot(OTHER_TRADE, 5)
    });
    let trade = rows
        .iter_mut()
        .find(|row| row.kind == TRADE && row.id == OTHER_TRADE);
    trade.unwrap().symbol = ABC;
    list.bad("S2 summary, and lots without one", &[S2, S8], &rows);

    let mut differ = |label: &str, rows: &[Row]| list.good(&format!("S2 {label}"), rows);
    let parties = [
        broker(NEW),
        customer(NEW),
        tax_rate(NEW, 0),
        account(NEW),
        permission(NEW, NEW),
    ];
    differ("one number in several kinds", &parties);
    let customers = [
        customer(NEW),
        customer(NEW + 1),
        tax_rate(NEW, 0),
        tax_rate(NEW + 1, 0),
    ];
    let rates = |second: Row| joined(&[&customers, &[customer_rate(NEW, NEW), second]]);
    differ("customer rate party", &rates(customer_rate(NEW + 1, NEW)));
    differ("customer rate n1", &rates(customer_rate(NEW, NEW + 1)));
    differ(
        "security symbol",
        &[security(symbol("QQQQQQQ")), security(symbol("QQQQQQR"))],
    );
    differ(
        "security symbol's length",
        &[security(symbol("Q")), security(symbol("QQ"))],
    );
    differ(
        "band type",
        &[band(5, 5), with(band(5, 5), Field::Typ, TMB)],
    );
    differ(
        "band tier",
        &[band(5, 5), with(band(5, 5), Field::Status, 3)],
    );
    differ(
        "band exchange",
        &[band(5, 5), with(band(5, 5), Field::Flags, 3)],
    );
    differ("band from", &[band(5, 5), band(6, 6)]);
    differ("charge type", &[charge(), with(charge(), Field::Typ, TLS)]);
    differ("charge tier", &[charge(), with(charge(), Field::Status, 3)]);
    let far = NEW_TRADE + (1 << 32);
    differ(
        "trade number's upper half",
        &[whole_trade(NEW_TRADE, SBMT), whole_trade(far, SBMT)].concat(),
    );
    let completed = joined(&[
        &whole_trade(NEW_TRADE, CMPT),
        &whole_trade(OTHER_TRADE, CMPT),
    ]);
    let changes = |second: Row| joined(&[&completed, &[lot_history(NEW_TRADE, NEW_TRADE), second]]);
    differ(
        "lot history id",
        &changes(lot_history(OTHER_TRADE, NEW_TRADE)),
    );
    differ(
        "lot history m2",
        &changes(lot_history(NEW_TRADE, OTHER_TRADE)),
    );
    let mut other = whole_trade(OTHER_TRADE, CMPT);
    other[0].party = NEW;
    other.extend([
        Row {
            party: NEW,
            ..lot(OTHER_TRADE, 5)
        },
        Row {
            party: NEW,
            ..summary(5)
        },
        account(NEW),
    ]);
    differ("summary party", &joined(&[&held(&[5], 5), &other]));
    let mut other = whole_trade(OTHER_TRADE, CMPT);
    other[0].symbol = symbol("XYZZ");
    other.push(Row {
        symbol: symbol("XYZZ"),
        ..lot(OTHER_TRADE, 5)
    });
    other.extend([
        Row {
            symbol: symbol("XYZZ"),
            ..summary(5)
        },
        security(symbol("XYZZ")),
    ]);
    differ("summary symbol", &joined(&[&held(&[5], 5), &other]));
    let permissions = |second: Row| [permission(ACCOUNT_1, NEW), second];
    differ("permission party", &permissions(permission(ACCOUNT_2, NEW)));
    differ(
        "permission n1",
        &permissions(permission(ACCOUNT_1, NEW + 1)),
    );
    let both = permissions(permission(ACCOUNT_1, NEW + (1 << 24)));
    differ("permission n1's highest byte", &both);
}

/// S3: each name of each kind.
fn names(list: &mut List) {
    let without = |rows: &[Row], kind: u8| -> Vec<Row> {
        rows.iter()
            .filter(|row| row.kind != kind)
            .copied()
            .collect()
    };
    let mut gone = |kind: u8, named: u8, label: &str| {
        let rows = spare(kind);
        list.clause(
            &format!("S3 {} {label}", name_of(kind)),
            &[S3],
            &rows,
            &without(&rows, named),
        );
    };
    gone(CUSTOMER_RATE, CUSTOMER, "customer");
    gone(CUSTOMER_RATE, TAX_RATE, "rate");
    gone(ACCOUNT, BROKER, "broker");
    gone(ACCOUNT, CUSTOMER, "customer");
    gone(PERMISSION, ACCOUNT, "account");
    for status in [PNDG, SBMT, CMPT] {
        let rows = whole_trade(NEW_TRADE, status);
        if status != PNDG {
            let mut other = rows.clone();
            other[0].party = NEW;
            let kept = joined(&[&other, &[account(NEW)]]);
            list.clause(
                &format!("S3 trade account, status {status}"),
                &[S3],
                &kept,
                &other,
            );
        }
        let mut other = rows.clone();
        let others = other.iter_mut().filter(|row| row.symbol == XYZ);
        others.for_each(|row| row.symbol = symbol("NEW"));
        let kept = joined(&[&other, &[security(symbol("NEW"))]]);
        list.clause(
            &format!("S3 trade security, status {status}"),
            &[S3],
            &kept,
            &other,
        );
        let label = format!("S3 history trade, status {status}");
        list.clause(&label, &[S3], &rows, &[history(NEW_TRADE, status)]);
    }
    // A pending trade's request agrees with the broker of its account: without an account there is none.
    let mut other = whole_trade(NEW_TRADE, PNDG);
    other[0].party = NEW;
    list.bad("S3 trade account, status 1", &[S3, S6], &other);

    let pending = whole_trade(NEW_TRADE, PNDG);
    list.clause("S3 request trade", &[S3], &pending, &[request(NEW_TRADE)]);
    list.clause(
        "S3 settlement trade",
        &[S3],
        &whole_trade(NEW_TRADE, CMPT),
        &[settlement(NEW_TRADE)],
    );
    list.clause(
        "S3 cash trade",
        &[S3],
        &cash_trade(NEW_TRADE),
        &[cash(NEW_TRADE)],
    );
    let settled = [
        with(settlement(NEW_TRADE), Field::Flags, FLAG_CASH),
        cash(NEW_TRADE),
    ];
    list.bad("S3 settlement trade and cash trade", &[S3], &settled);

    // What S6, S8 and S10 ask, too: alone, and where the trade's own names hide it.
    let of = |row: Row, rows: &[Row]| joined(&[&[row], rows]);
    let opened = &pending[..2];
    let mut request = pending[2];
    request.party = NEW;
    list.bad("S3 request broker", &[S3, S6], &of(request, opened));
    let followed = [
        Row {
            party: NEW,
            ..opened[0]
        },
        opened[1],
        Row {
            n1: NEW,
            ..account(NEW)
        },
        request,
    ];
    list.clause(
        "S3 request broker, and the account's",
        &[S3],
        &of(broker(NEW), &followed),
        &followed,
    );
    let request = Row {
        symbol: symbol("NEW"),
        ..pending[2]
    };
    list.bad("S3 request security", &[S3, S6], &of(request, opened));

    let completed = whole_trade(NEW_TRADE, CMPT);
    let holding = |party: u32, symbol: [u8; 8]| {
        [
            Row {
                party,
                symbol,
                ..lot(NEW_TRADE, 5)
            },
            Row {
                party,
                symbol,
                ..summary(5)
            },
        ]
    };
    list.bad("S3 lot trade", &[S3, S8], &holding(ACCOUNT_2, XYZ));
    for (label, party, symbol) in [
        ("account", NEW, XYZ),
        ("security", ACCOUNT_2, symbol("NEW")),
    ] {
        let rows = joined(&[&holding(party, symbol), &completed]);
        list.bad(&format!("S3 lot {label}"), &[S3, S8], &rows);
        let mut followed = rows.clone();
        followed[2] = Row {
            party,
            symbol,
            ..followed[2]
        };
        let there = if label == "account" {
            account(NEW)
        } else {
            security(symbol)
        };
        let label = format!("S3 lot {label}, and the trade's");
        list.clause(&label, &[S3], &of(there, &followed), &followed);
    }
    list.bad(
        "S3 summary account",
        &[S3, S8],
        &[Row {
            party: NEW,
            ..summary(5)
        }],
    );
    list.bad(
        "S3 summary security",
        &[S3, S8],
        &[Row {
            symbol: symbol("NEW"),
            ..summary(5)
        }],
    );
    let changed = lot_history(OTHER_TRADE, NEW_TRADE);
    list.bad("S3 lot history lot", &[S3, S10], &of(changed, &completed));
    let changed = lot_history(NEW_TRADE, OTHER_TRADE);
    list.bad("S3 lot history trade", &[S3, S10], &of(changed, &completed));
}

/// S4: "bands of equal type, tier and exchange don't overlap".
fn bands(list: &mut List) {
    let next = [band(5, 9), band(10, 20)];
    list.clause(
        "S4 one share in both",
        &[S4],
        &next,
        &[band(5, 10), band(10, 20)],
    );
    list.clause(
        "S4 one share in both, the higher first",
        &[S4],
        &[next[1], next[0]],
        &[band(10, 20), band(5, 10)],
    );
    list.bad(
        "S4 one within the other",
        &[S4],
        &[band(5, 20), band(10, 12)],
    );
    list.bad(
        "S4 one within the other, the smaller first",
        &[S4],
        &[band(10, 12), band(5, 20)],
    );
    list.bad(
        "S4 one begins inside and ends with the other",
        &[S4],
        &[band(5, 20), band(20, 20)],
    );
    let apart = [band(5, 9), band(30, 40), band(10, 20)];
    list.clause(
        "S4 not the next row",
        &[S4],
        &apart,
        &[band(5, 10), band(30, 40), band(10, 20)],
    );
    list.bad(
        "S4 the widest over the last",
        &[S4],
        &[band(1, 999_999), band(999_999, 999_999)],
    );
    list.good(
        "S4 overlap in another type",
        &[band(5, 20), with(band(10, 12), Field::Typ, TMB)],
    );
    list.good(
        "S4 overlap in another tier",
        &[band(5, 20), with(band(10, 12), Field::Status, 3)],
    );
    list.good(
        "S4 overlap in another exchange",
        &[band(5, 20), with(band(10, 12), Field::Flags, 3)],
    );
}

/// S5: "a customer's rates sum to at most 100,000".
fn rates(list: &mut List) {
    let of = |party: u32, rates: &[u32]| -> Vec<Row> {
        let numbered = (1000 * party..).zip(rates);
        let rows = numbered.flat_map(|(n, rate)| [tax_rate(n, *rate), customer_rate(party, n)]);
        [customer(party)].into_iter().chain(rows).collect()
    };
    list.clause(
        "S5 two rates",
        &[S5],
        &of(NEW, &[60_000, 40_000]),
        &of(NEW, &[60_000, 40_001]),
    );
    let three = [&[50_000, 25_000, 25_000], &[50_000, 25_000, 25_001]];
    list.clause(
        "S5 three rates",
        &[S5],
        &of(NEW, three[0]),
        &of(NEW, three[1]),
    );
    list.clause(
        "S5 one of all and one more",
        &[S5],
        &of(NEW, &[100_000, 0]),
        &of(NEW, &[100_000, 1]),
    );
    list.bad("S5 far above", &[S5], &of(NEW, &[100_000; 5]));
    list.good(
        "S5 two customers",
        &[of(NEW, &[60_000]), of(NEW + 1, &[60_000])].concat(),
    );
    let mut shared = of(NEW, &[60_000]);
    shared.extend([customer(NEW + 1), customer_rate(NEW + 1, shared[1].party)]);
    list.good("S5 two customers of one rate", &shared);
    list.good(
        "S5 rates of no customer",
        &[tax_rate(NEW, 100_000), tax_rate(NEW + 1, 100_000)],
    );
}

/// S6: "a trade of status 1 has type 3, 4 or 5 and one request that agrees; no other trade has one".
fn requests(list: &mut List) {
    let pending = whole_trade(NEW_TRADE, PNDG);
    let typed = |typ: u8| {
        let mut rows = pending.clone();
        (rows[0].typ, rows[2].typ) = (typ, typ);
        rows
    };
    for typ in [TLB, TLS, TSL] {
        list.good(&format!("S6 pending trade of type {typ}"), &typed(typ));
    }
    for typ in [TMB, TMS] {
        list.bad(
            &format!("S6 pending trade of type {typ}"),
            &[S6],
            &typed(typ),
        );
    }
    list.clause(
        "S6 pending trade without a request",
        &[S6],
        &pending,
        &pending[..2],
    );
    let mut differs = |label: &str, change: fn(&mut Row)| {
        let mut rows = pending.clone();
        change(&mut rows[2]);
        list.bad(&format!("S6 request {label}"), &[S6], &rows);
    };
    differs("of another type", |row| row.typ = TLS);
    differs("of another security", |row| row.symbol = ABC);
    differs("of more shares", |row| row.n1 = 2);
    differs("of shares that differ in the highest byte", |row| {
        row.n1 = 1 + (1 << 16)
    });
    differs("of another bid", |row| row.n2 = 2);
    differs("of a bid that differs in the highest byte", |row| {
        row.n2 = 1 + (1 << 24)
    });
    differs("of another broker", |row| row.party = BROKER_1);
    for (status, name) in [(SBMT, "submitted"), (CMPT, "completed")] {
        let kept = whole_trade(NEW_TRADE, status);
        let broken = joined(&[&kept, &[request(NEW_TRADE)]]);
        list.clause(
            &format!("S6 {name} trade with a request"),
            &[S6],
            &kept,
            &broken,
        );
    }
    let another = joined(&[&pending, &whole_trade(OTHER_TRADE, PNDG)[..2]]);
    list.bad(
        "S6 pending trade with another's request alone",
        &[S6],
        &another,
    );
}

/// S7: "a trade has the history row of its present status and none of a higher one".
fn histories(list: &mut List) {
    for status in [PNDG, SBMT, CMPT] {
        let rows = whole_trade(NEW_TRADE, status);
        let lower: Vec<Row> = (PNDG..status)
            .map(|lower| history(NEW_TRADE, lower))
            .collect();
        let all = joined(&[&rows, &lower]);
        let mut without = rows.clone();
        without.remove(1);
        list.clause(
            &format!("S7 no history row, status {status}"),
            &[S7],
            &rows,
            &without,
        );
        if status > PNDG {
            let mut without = all.clone();
            without.remove(1);
            list.clause(
                &format!("S7 lower history rows alone, status {status}"),
                &[S7],
                &all,
                &without,
            );
        }
        for higher in status + 1..=CMPT {
            let rows = joined(&[&all, &[history(NEW_TRADE, higher)]]);
            list.bad(
                &format!("S7 history row {higher}, status {status}"),
                &[S7],
                &rows,
            );
        }
    }
}

/// S8, of lots and summaries.
fn holdings(list: &mut List) {
    // "A lot names a completed trade of its account and symbol."
    let kept = held(&[5], 5);
    for (status, name) in [(PNDG, "pending"), (SBMT, "submitted")] {
        let rows = joined(&[
            &[lot(NEW_TRADE, 5), summary(5)],
            &whole_trade(NEW_TRADE, status),
        ]);
        list.clause(&format!("S8 lot of a {name} trade"), &[S8], &kept, &rows);
    }
    let mut other = kept.clone();
    (other[0].party, other[4].party) = (ACCOUNT_1, ACCOUNT_1);
    list.bad("S8 lot account differs from its trade's", &[S8], &other);
    let mut other = kept.clone();
    (other[0].symbol, other[4].symbol) = (ABC, ABC);
    list.bad("S8 lot symbol differs from its trade's", &[S8], &other);
    // "Lots of one account and symbol have one sign."
    list.clause(
        "S8 lots of two signs",
        &[S8],
        &held(&[5, 3], 8),
        &held(&[5, -3], 2),
    );
    list.clause(
        "S8 lots of two signs, the owed one first",
        &[S8],
        &held(&[-5, -3], -8),
        &held(&[-5, 3], -2),
    );
    list.bad(
        "S8 lots of two signs, after two of one",
        &[S8],
        &held(&[5, 3, -1], 7),
    );
    let mut apart = joined(&[
        &held(&[5, -3], 5),
        &[Row {
            symbol: symbol("NEW"),
            ..summary(-3)
        }],
    ]);
    apart.push(security(symbol("NEW")));
    let short = apart
        .iter_mut()
        .filter(|row| row.id == NEW_TRADE + 1 && row.symbol == XYZ);
    short.for_each(|row| row.symbol = symbol("NEW"));
    list.good("S8 another sign in another security", &apart);
    let mut apart = joined(&[
        &held(&[5, -3], 5),
        &[
            Row {
                party: NEW,
                ..summary(-3)
            },
            account(NEW),
        ],
    ]);
    let short = apart
        .iter_mut()
        .filter(|row| row.id == NEW_TRADE + 1 && row.party == ACCOUNT_2);
    short.for_each(|row| row.party = NEW);
    list.good("S8 another sign in another account", &apart);
    // "A summary exists exactly where lots do and equals their sum."
    list.clause(
        "S8 lots without a summary",
        &[S8],
        &held(&[5], 5),
        &lots(&[5]),
    );
    list.bad("S8 summary without lots", &[S8], &[summary(5)]);
    list.bad("S8 summary one too high", &[S8], &held(&[5], 6));
    list.bad("S8 summary one too low", &[S8], &held(&[-5], -6));
    list.bad("S8 summary of the other sign", &[S8], &held(&[5], -5));
    list.bad(
        "S8 summary off in its upper half",
        &[S8],
        &held(&[5], 5 + (1 << 32)),
    );
    list.bad(
        "S8 summary off in its highest bit",
        &[S8],
        &held(&[5], 5 + i64::MIN),
    );
    list.bad(
        "S8 summary of the first lot alone",
        &[S8],
        &held(&[5, 3], 5),
    );
    list.bad("S8 summary of the last lot alone", &[S8], &held(&[5, 3], 3));
    let mut elsewhere = held(&[5], 5);
    elsewhere[4].party = ACCOUNT_1;
    list.bad("S8 summary of another account", &[S8], &elsewhere);
    let mut elsewhere = held(&[5], 5);
    elsewhere[4].symbol = symbol("NEW");
    elsewhere.push(security(symbol("NEW")));
    list.bad("S8 summary of another security", &[S8], &elsewhere);
}

/// S9, of settlements and cash rows.
fn settlements(list: &mut List) {
    let plain = whole_trade(NEW_TRADE, CMPT);
    let in_cash = cash_trade(NEW_TRADE);
    // "A settlement exists exactly for a completed trade".
    list.clause(
        "S9 completed trade without a settlement",
        &[S9],
        &plain,
        &plain[..2],
    );
    list.bad(
        "S9 completed cash trade without a settlement",
        &[S9],
        &[in_cash[0], in_cash[1]],
    );
    let unsettled = [in_cash[0], in_cash[1], in_cash[3]];
    list.bad(
        "S9 completed cash trade with a cash row alone",
        &[S9],
        &unsettled,
    );
    for (status, name) in [(PNDG, "pending"), (SBMT, "submitted")] {
        let open = whole_trade(NEW_TRADE, status);
        let with = |rows: &[Row]| joined(&[&open, rows]);
        list.clause(
            &format!("S9 {name} trade with a settlement"),
            &[S9],
            &open,
            &with(&[settlement(NEW_TRADE)]),
        );
        list.bad(
            &format!("S9 {name} trade with a cash row"),
            &[S9],
            &with(&[cash(NEW_TRADE)]),
        );
        let mut both = with(&[in_cash[2], in_cash[3]]);
        both[0].flags = FLAG_CASH;
        list.bad(&format!("S9 {name} cash trade with both"), &[S9], &both);
    }
    // "its flag the trade's cash flag; a cash row exactly where that flag is 1"
    let flagged = |rows: &[Row], trade: u8, settlement: u8| {
        let mut rows = rows.to_vec();
        (rows[0].flags, rows[2].flags) = (trade, settlement);
        rows
    };
    let lifo = FLAG_LIFO;
    list.good("S9 completed LIFO trade", &flagged(&plain, lifo, 0));
    list.good(
        "S9 completed LIFO cash trade",
        &flagged(&in_cash, lifo + FLAG_CASH, 1),
    );
    list.bad(
        "S9 flag 0 of a cash trade, no cash row",
        &[S9],
        &flagged(&plain, 1, 0),
    );
    list.bad(
        "S9 flag 0 of a cash trade, a cash row",
        &[S9],
        &flagged(&in_cash, 1, 0),
    );
    list.bad(
        "S9 flag 1 of a trade not cash, no cash row",
        &[S9],
        &flagged(&plain, 0, 1),
    );
    list.bad(
        "S9 flag 1 of a trade not cash, a cash row",
        &[S9],
        &flagged(&in_cash, 0, 1),
    );
    list.bad(
        "S9 flag 1 of a LIFO trade not cash, a cash row",
        &[S9],
        &flagged(&in_cash, lifo, 1),
    );
    list.clause(
        "S9 flag 1 without a cash row",
        &[S9],
        &in_cash,
        &in_cash[..3],
    );
    list.bad("S9 flag 0 with a cash row", &[S9], &flagged(&in_cash, 0, 0));
    // "with the same amount"
    let amounts = |settled: i64, cash: i64| {
        let mut rows = in_cash.clone();
        (rows[2].m1, rows[3].m1) = (settled as u64, cash as u64);
        rows
    };
    list.clause(
        "S9 cash amount one more",
        &[S9],
        &amounts(-7, -7),
        &amounts(7, 8),
    );
    list.bad("S9 cash amount of the other sign", &[S9], &amounts(7, -7));
    list.bad(
        "S9 cash amount off in its upper half",
        &[S9],
        &amounts(7, 7 + (1 << 32)),
    );
    list.bad("S9 cash amount zero", &[S9], &amounts(7, 0));
}

/// S10: "both trades of a lot history are completed".
fn lot_histories(list: &mut List) {
    let completed = whole_trade(OTHER_TRADE, CMPT);
    let kept = joined(&[
        &completed,
        &whole_trade(NEW_TRADE, CMPT),
        &[lot_history(NEW_TRADE, OTHER_TRADE)],
    ]);
    list.good("S10 both completed", &kept);
    for (status, name) in [(PNDG, "pending"), (SBMT, "submitted")] {
        let rows = joined(&[&completed, &whole_trade(NEW_TRADE, status)]);
        let with = |row: Row| joined(&[&rows, &[row]]);
        let lots = with(lot_history(NEW_TRADE, OTHER_TRADE));
        list.bad(&format!("S10 lot of a {name} trade"), &[S10], &lots);
        let changing = with(lot_history(OTHER_TRADE, NEW_TRADE));
        list.bad(&format!("S10 changing trade {name}"), &[S10], &changing);
    }
}
