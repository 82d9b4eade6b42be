//! Records: round trips, places of fields, field rules.

use second::calls::Call;
use second::gen;
use second::hex;
use second::mutate::{used, PLACES};
use second::record::*;
use second::rng::Rng;

#[test]
fn records_round_trip() {
    let mut rng = Rng::new(1);
    for _ in 0..20_000 {
        let bytes: [u8; RECORD] = rng.bytes(RECORD).try_into().unwrap();
        let row = Row::read(&bytes);
        assert_eq!(row.write(), bytes);
        assert_eq!(Row::read(&row.write()), row);
        assert_eq!(hex::decode(&hex::encode(&bytes)), Some(bytes.to_vec()));
    }
    assert_eq!(Row::read(&[0; RECORD]), Row::default());
    assert!(Row::default().is_free());
    assert_eq!(hex::encode(&[]), "-");
    assert_eq!(hex::encode(&[0x0f, 0xa0]), "0fa0");
}

#[test]
fn fields_stand_where_01_puts_them() {
    let bytes: [u8; RECORD] = std::array::from_fn(|i| i as u8);
    let row = Row::read(&bytes);
    assert_eq!((row.kind, row.typ, row.status, row.flags), (0, 1, 2, 3));
    assert_eq!(row.party, 0x0706_0504);
    assert_eq!(row.id, 0x0F0E_0D0C_0B0A_0908);
    assert_eq!(row.symbol, [16, 17, 18, 19, 20, 21, 22, 23]);
    assert_eq!((row.n1, row.n2), (0x1B1A_1918, 0x1F1E_1D1C));
    assert_eq!((row.n3, row.n4), (0x2322_2120, 0x2726_2524));
    assert_eq!(row.m1, 0x2F2E_2D2C_2B2A_2928);
    assert_eq!(row.m2, 0x3736_3534_3332_3130);
    assert_eq!((row.time, row.n5), (0x3B3A_3938, 0x3F3E_3D3C));
    let negative = Row {
        n1: u32::MAX,
        n2: u32::MAX - 1,
        m1: u64::MAX,
        m2: u64::MAX - 1,
        ..Row::default()
    };
    assert_eq!((negative.signed_n1(), negative.signed_n2()), (-1, -2));
    assert_eq!((negative.signed_m1(), negative.signed_m2()), (-1, -2));
}

#[test]
fn symbols() {
    for good in ["A", "Z", "0", "9", ".", "-", "ABCDEFG", "A.B-0"] {
        assert!(is_symbol(&symbol(good)), "{good}");
    }
    for (name, bad) in gen::broken_symbols(symbol("ABC")) {
        assert!(!is_symbol(&bad), "{name}");
    }
    // Of one letter, exactly 38 are good.
    let good = (0..=255u8).filter(|byte| is_symbol(&[*byte, 0, 0, 0, 0, 0, 0, 0]));
    assert_eq!(good.count(), 38);
}

/// A row of each kind (two of trades, an open and a completed one) with the least in every field.
fn plain_rows() -> [Row; 18] {
    let abc = symbol("ABC");
    let zero = Row::default();
    #[rustfmt::skip]
    let rows = [
        Row { kind: 1, party: 1, ..zero },
        Row { kind: 2, party: 1, typ: 1, ..zero },
        Row { kind: 3, party: 1, ..zero },
        Row { kind: 4, party: 1, n1: 1, ..zero },
        Row { kind: 5, party: 1, n1: 1, n2: 1, ..zero },
        Row { kind: 6, symbol: abc, typ: 1, n1: 1, ..zero },
        Row { kind: 7, typ: 1, status: 1, flags: 1, n1: 1, n2: 999_999, ..zero },
        Row { kind: 8, typ: 1, status: 1, ..zero },
        Row { kind: 9, id: 1, typ: 1, status: 2, party: 1, symbol: abc, n1: 1, n2: 1, ..zero },
        Row { kind: 9, id: 1, typ: 1, status: 3, party: 1, symbol: abc, n1: 1, n2: 1, n3: 1, ..zero },
        Row { kind: 10, id: 1, typ: 1, party: 1, symbol: abc, n1: 1, n2: 1, ..zero },
        Row { kind: 11, id: 1, status: 1, ..zero },
        Row { kind: 12, id: 1, party: 1, symbol: abc, n1: 1, m1: 1, ..zero },
        Row { kind: 13, party: 1, symbol: abc, m1: 1, ..zero },
        Row { kind: 14, id: 1, m2: 1, n2: 1, ..zero },
        Row { kind: 15, id: 1, ..zero },
        Row { kind: 16, id: 1, ..zero },
        Row { kind: 17, party: 1, n1: 1, ..zero },
    ];
    rows
}

/// The edges of every range: the last good value and the first bad one.
#[test]
fn edges_of_the_grid() {
    let rows = plain_rows();
    for row in rows {
        assert_eq!(check_record(&row.write()), Ok(()), "{row:?}");
    }
    #[rustfmt::skip]
    let [
        broker, customer, rate, link, account, security, band, charge, open, done, request, history,
        lot, summary, lot_history, settlement, cash, permission,
    ] = rows;
    // Field, the lowest and the highest good value of it, in that row.
    type Set = fn(&mut Row, i64);
    #[rustfmt::skip]
    let ranges: &[(Row, Set, i64, i64)] = &[
        (broker, |r, v| r.party = v as u32, 1, 999_999_999),
        (broker, |r, v| r.n1 = v as u32, 0, 999_999_999),
        (broker, |r, v| r.m1 = v as u64, 0, 999_999_999_999_999),
        (customer, |r, v| r.party = v as u32, 1, 999_999_999),
        (customer, |r, v| r.typ = v as u8, 1, 3),
        (rate, |r, v| r.party = v as u32, 1, 999_999_999),
        (rate, |r, v| r.n1 = v as u32, 0, 100_000),
        (link, |r, v| r.party = v as u32, 1, 999_999_999),
        (link, |r, v| r.n1 = v as u32, 1, 999_999_999),
        (account, |r, v| r.party = v as u32, 1, 999_999_999),
        (account, |r, v| r.n1 = v as u32, 1, 999_999_999),
        (account, |r, v| r.n2 = v as u32, 1, 999_999_999),
        (account, |r, v| r.typ = v as u8, 0, 2),
        (account, |r, v| r.m1 = v as u64, -999_999_999_999_999, 999_999_999_999_999),
        (security, |r, v| r.typ = v as u8, 1, 4),
        (security, |r, v| r.n1 = v as u32, 1, 99_999_999),
        (security, |r, v| r.m1 = v as u64, 0, 999_999_999_999),
        (security, |r, v| r.time = v as u32, 0, 4_000_000_000),
        (band, |r, v| r.typ = v as u8, 1, 5),
        (band, |r, v| r.status = v as u8, 1, 3),
        (band, |r, v| r.flags = v as u8, 1, 4),
        (band, |r, v| r.n1 = v as u32, 1, 999_999),
        (band, |r, v| r.n2 = v as u32, 1, 999_999),
        (band, |r, v| r.n3 = v as u32, 0, 10_000),
        (charge, |r, v| r.typ = v as u8, 1, 5),
        (charge, |r, v| r.status = v as u8, 1, 3),
        (charge, |r, v| r.n1 = v as u32, 0, 999_999),
        (open, |r, v| r.id = v as u64, 1, 999_999_999_999_999),
        (open, |r, v| r.typ = v as u8, 1, 5),
        (open, |r, v| r.status = v as u8, 1, 2),
        (open, |r, v| r.flags = v as u8, 0, 3),
        (open, |r, v| r.party = v as u32, 1, 999_999_999),
        (open, |r, v| r.n1 = v as u32, 1, 999_999),
        (open, |r, v| r.n2 = v as u32, 1, 99_999_999),
        (open, |r, v| r.n3 = v as u32, 0, 0),
        (open, |r, v| r.n4 = v as u32, 0, 999_999),
        (open, |r, v| r.m1 = v as u64, 0, 100_000_000_000_000),
        (open, |r, v| r.m2 = v as u64, 0, 0),
        (open, |r, v| r.time = v as u32, 0, 4_000_000_000),
        (done, |r, v| r.status = v as u8, 3, 3),
        (done, |r, v| r.n3 = v as u32, 1, 99_999_999),
        (done, |r, v| r.m2 = v as u64, 0, 100_000_000_000_000),
        (request, |r, v| r.id = v as u64, 1, 999_999_999_999_999),
        (request, |r, v| r.typ = v as u8, 1, 5),
        (request, |r, v| r.party = v as u32, 1, 999_999_999),
        (request, |r, v| r.n1 = v as u32, 1, 999_999),
        (request, |r, v| r.n2 = v as u32, 1, 99_999_999),
        (history, |r, v| r.id = v as u64, 1, 999_999_999_999_999),
        (history, |r, v| r.status = v as u8, 1, 3),
        (history, |r, v| r.time = v as u32, 0, 4_000_000_000),
        (lot, |r, v| r.id = v as u64, 1, 999_999_999_999_999),
        (lot, |r, v| r.party = v as u32, 1, 999_999_999),
        (lot, |r, v| r.n1 = v as u32, 1, 99_999_999),
        (lot, |r, v| r.m1 = v as u64, 1, 999_999),
        (lot, |r, v| r.m1 = v as u64, -999_999, -1),
        (lot, |r, v| r.time = v as u32, 0, 4_000_000_000),
        (summary, |r, v| r.party = v as u32, 1, 999_999_999),
        (lot_history, |r, v| r.id = v as u64, 1, 999_999_999_999_999),
        (lot_history, |r, v| r.m2 = v as u64, 1, 999_999_999_999_999),
        (lot_history, |r, v| r.n1 = v as u32, -999_999, 0),
        (lot_history, |r, v| r.n1 = v as u32, 2, 999_999),
        (lot_history, |r, v| r.n2 = v as u32, -999_999, -1),
        (lot_history, |r, v| r.n2 = v as u32, 1, 999_999),
        (settlement, |r, v| r.id = v as u64, 1, 999_999_999_999_999),
        (settlement, |r, v| r.flags = v as u8, 0, 1),
        (settlement, |r, v| r.m1 = v as u64, -999_999_999_999_999, 999_999_999_999_999),
        (settlement, |r, v| r.time = v as u32, 0, 4_000_172_800),
        (cash, |r, v| r.id = v as u64, 1, 999_999_999_999_999),
        (cash, |r, v| r.m1 = v as u64, -999_999_999_999_999, 999_999_999_999_999),
        (cash, |r, v| r.time = v as u32, 0, 4_000_000_000),
        (permission, |r, v| r.party = v as u32, 1, 999_999_999),
        (permission, |r, v| r.n1 = v as u32, 1, 999_999_999),
    ];
    for (row, set, low, high) in ranges {
        for (value, good) in [
            (*low, true),
            (*high, true),
            (*low - 1, false),
            (*high + 1, false),
        ] {
            let mut row = *row;
            set(&mut row, value);
            assert_eq!(
                check_record(&row.write()).is_ok(),
                good,
                "{value} in {row:?}"
            );
        }
    }
    for shares in [i64::MIN, -1, 1, i64::MAX] {
        let mut row = summary;
        row.m1 = shares as u64;
        assert_eq!(check_record(&row.write()), Ok(()));
    }
    // "from ≤ to"
    let mut row = band;
    (row.n1, row.n2) = (5, 5);
    assert_eq!(check_record(&row.write()), Ok(()));
    row.n2 = 4;
    assert_eq!(check_record(&row.write()), Err(Field::N2));
    // 0 is no kind, nor are 18 and the kinds of inputs.
    for kind in (0..=255u8).filter(|kind| !(1..=17).contains(kind)) {
        let mut row = broker;
        row.kind = kind;
        assert_eq!(check_record(&row.write()), Err(Field::Kind));
    }
}

/// "Unused fields are zero": every byte of every field that a kind does not list.
#[test]
fn unused_fields_are_zero() {
    for row in plain_rows() {
        for (field, at, len) in PLACES {
            if used(row.kind).contains(&field) {
                continue;
            }
            for byte in at..at + len {
                for value in [1, 128, 255] {
                    let mut bytes = row.write();
                    bytes[byte] = value;
                    assert_eq!(check_record(&bytes), Err(field));
                }
            }
        }
    }
}

#[test]
fn all_kinds_are_generated() {
    let mut rng = Rng::new(2);
    let mut seen = [0; 18];
    for _ in 0..200 {
        let book = gen::book(&mut rng, 60);
        for row in rows_of(&book).iter().filter(|row| !row.is_free()) {
            seen[usize::from(row.kind)] += 1;
            assert_eq!(check_record(&row.write()), Ok(()));
            let mut bytes = row.write();
            let n5 = 60 + rng.index(4);
            bytes[n5] = 1 + rng.below(255) as u8;
            assert_eq!(check_record(&bytes), Err(Field::N5));
        }
    }
    for (kind, count) in seen.iter().enumerate().skip(1) {
        assert!(*count > 100, "kind {kind} was seen {count} times");
    }
}

#[test]
fn inputs_keep_their_rules() {
    let mut rng = Rng::new(3);
    for round in 0..300 {
        let rows = rows_of(&gen::book(&mut rng, 40));
        for call in Call::ALL {
            for row in gen::good_input(&mut rng, call, &rows) {
                assert_eq!(check_input(call.kind(), &row.write()), Ok(()));
                for other in Call::ALL.iter().filter(|other| **other != call) {
                    assert_eq!(check_input(other.kind(), &row.write()), Err(Field::Kind));
                }
                if round % 10 == 0 {
                    for (name, bad) in gen::broken_records(&mut rng, call, &row) {
                        let found = check_input(call.kind(), &bad.write());
                        assert!(found.is_err(), "{}: {name}", call.name());
                    }
                }
            }
        }
    }
}

#[test]
fn edges_of_the_inputs() {
    let abc = symbol("ABC");
    let zero = Row::default();
    #[rustfmt::skip]
    let market = Row { kind: 33, typ: 1, party: 1, symbol: abc, n1: 1, ..zero };
    #[rustfmt::skip]
    let limit = Row { kind: 33, typ: 5, party: 1, symbol: abc, n1: 1, n2: 1, ..zero };
    #[rustfmt::skip]
    let result = Row { kind: 34, id: 1, n1: 1, ..zero };
    #[rustfmt::skip]
    let feed = Row { kind: 35, symbol: abc, n1: 1, n2: 1, ..zero };
    #[rustfmt::skip]
    let lookup = Row { kind: 36, id: 1, ..zero };
    type Set = fn(&mut Row, i64);
    #[rustfmt::skip]
    let ranges: &[(Row, Set, i64, i64)] = &[
        (market, |r, v| r.typ = v as u8, 1, 2),
        (market, |r, v| r.flags = v as u8, 0, 7),
        (market, |r, v| r.party = v as u32, 1, 999_999_999),
        (market, |r, v| r.n1 = v as u32, 1, 999_999),
        (market, |r, v| r.n2 = v as u32, 0, 0),
        (market, |r, v| r.n3 = v as u32, 0, 999_999_999),
        (market, |r, v| r.time = v as u32, 0, 4_000_000_000),
        (limit, |r, v| r.typ = v as u8, 3, 5),
        (limit, |r, v| r.n2 = v as u32, 1, 99_999_999),
        (limit, |r, v| r.n3 = v as u32, 0, 999_999_999),
        (result, |r, v| r.id = v as u64, 1, 999_999_999_999_999),
        (result, |r, v| r.n1 = v as u32, 1, 99_999_999),
        (result, |r, v| r.time = v as u32, 0, 4_000_000_000),
        (feed, |r, v| r.n1 = v as u32, 1, 99_999_999),
        (feed, |r, v| r.n2 = v as u32, 1, 999_999),
        (feed, |r, v| r.time = v as u32, 0, 4_000_000_000),
        (lookup, |r, v| r.id = v as u64, 1, 999_999_999_999_999),
    ];
    for (row, set, low, high) in ranges {
        for (value, good) in [
            (*low, true),
            (*high, true),
            (*low - 1, false),
            (*high + 1, false),
        ] {
            let mut row = *row;
            set(&mut row, value);
            let found = check_input(row.kind, &row.write());
            assert_eq!(found.is_ok(), good, "{value} in {row:?}");
        }
    }
}
