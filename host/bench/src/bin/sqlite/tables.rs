//! The book's rows as tables, with the standard's names, keys and the references of S3. Columns that the page of the
//! rules has no field for (names, texts) are left out, and with them the table of trade types.

use crate::database::{Database, Value};
use second::record::*;
use Value::{Number, Symbol};

/// Only what a result may push out of its range (-104) is checked by the tables.
const TABLES: &str = "
CREATE TABLE broker (
    b_id INTEGER PRIMARY KEY,
    b_num_trades INTEGER NOT NULL CHECK (b_num_trades BETWEEN 0 AND 999999999),
    b_comm_total INTEGER NOT NULL CHECK (b_comm_total BETWEEN 0 AND 999999999999999));
CREATE TABLE customer (
    c_id INTEGER PRIMARY KEY,
    c_tier INTEGER NOT NULL);
CREATE TABLE taxrate (
    tx_id INTEGER PRIMARY KEY,
    tx_rate INTEGER NOT NULL);
CREATE TABLE customer_taxrate (
    cx_c_id INTEGER NOT NULL REFERENCES customer,
    cx_tx_id INTEGER NOT NULL REFERENCES taxrate,
    PRIMARY KEY (cx_c_id, cx_tx_id)) WITHOUT ROWID;
CREATE TABLE customer_account (
    ca_id INTEGER PRIMARY KEY,
    ca_b_id INTEGER NOT NULL REFERENCES broker,
    ca_c_id INTEGER NOT NULL REFERENCES customer,
    ca_tax_st INTEGER NOT NULL,
    ca_bal INTEGER NOT NULL CHECK (ca_bal BETWEEN -999999999999999 AND 999999999999999));
CREATE TABLE security (
    s_symb TEXT PRIMARY KEY,
    s_ex_id INTEGER NOT NULL,
    lt_price INTEGER NOT NULL,
    lt_vol INTEGER NOT NULL,
    lt_dts INTEGER NOT NULL) WITHOUT ROWID;
CREATE TABLE commission_rate (
    cr_c_tier INTEGER NOT NULL,
    cr_tt_id INTEGER NOT NULL,
    cr_ex_id INTEGER NOT NULL,
    cr_from_qty INTEGER NOT NULL,
    cr_to_qty INTEGER NOT NULL,
    cr_rate INTEGER NOT NULL,
    PRIMARY KEY (cr_c_tier, cr_tt_id, cr_ex_id, cr_from_qty)) WITHOUT ROWID;
CREATE TABLE charge (
    ch_tt_id INTEGER NOT NULL,
    ch_c_tier INTEGER NOT NULL,
    ch_chrg INTEGER NOT NULL,
    PRIMARY KEY (ch_tt_id, ch_c_tier)) WITHOUT ROWID;
CREATE TABLE trade (
    t_id INTEGER PRIMARY KEY,
    t_tt_id INTEGER NOT NULL,
    t_st_id INTEGER NOT NULL,
    t_is_cash INTEGER NOT NULL,
    t_lifo INTEGER NOT NULL,
    t_ca_id INTEGER NOT NULL REFERENCES customer_account,
    t_s_symb TEXT NOT NULL REFERENCES security,
    t_qty INTEGER NOT NULL,
    t_bid_price INTEGER NOT NULL,
    t_trade_price INTEGER NOT NULL,
    t_chrg INTEGER NOT NULL,
    t_comm INTEGER NOT NULL,
    t_tax INTEGER NOT NULL,
    t_dts INTEGER NOT NULL);
CREATE TABLE trade_request (
    tr_t_id INTEGER PRIMARY KEY REFERENCES trade,
    tr_tt_id INTEGER NOT NULL,
    tr_b_id INTEGER NOT NULL REFERENCES broker,
    tr_s_symb TEXT NOT NULL REFERENCES security,
    tr_qty INTEGER NOT NULL,
    tr_bid_price INTEGER NOT NULL);
CREATE TABLE trade_history (
    th_t_id INTEGER NOT NULL REFERENCES trade,
    th_st_id INTEGER NOT NULL,
    th_dts INTEGER NOT NULL,
    PRIMARY KEY (th_t_id, th_st_id)) WITHOUT ROWID;
CREATE TABLE holding (
    h_t_id INTEGER PRIMARY KEY REFERENCES trade,
    h_ca_id INTEGER NOT NULL REFERENCES customer_account,
    h_s_symb TEXT NOT NULL REFERENCES security,
    h_price INTEGER NOT NULL,
    h_qty INTEGER NOT NULL,
    h_dts INTEGER NOT NULL);
CREATE INDEX holding_by_account ON holding (h_ca_id, h_s_symb, h_dts, h_t_id);
CREATE TABLE holding_summary (
    hs_ca_id INTEGER NOT NULL REFERENCES customer_account,
    hs_s_symb TEXT NOT NULL REFERENCES security,
    hs_qty INTEGER NOT NULL,
    PRIMARY KEY (hs_ca_id, hs_s_symb)) WITHOUT ROWID;
CREATE TABLE holding_history (
    hh_h_t_id INTEGER NOT NULL REFERENCES trade,
    hh_t_id INTEGER NOT NULL REFERENCES trade,
    hh_before_qty INTEGER NOT NULL,
    hh_after_qty INTEGER NOT NULL,
    PRIMARY KEY (hh_h_t_id, hh_t_id)) WITHOUT ROWID;
CREATE TABLE settlement (
    se_t_id INTEGER PRIMARY KEY REFERENCES trade,
    se_cash INTEGER NOT NULL,
    se_amt INTEGER NOT NULL,
    se_cash_due_date INTEGER NOT NULL);
CREATE TABLE cash_transaction (
    ct_t_id INTEGER PRIMARY KEY REFERENCES trade,
    ct_amt INTEGER NOT NULL,
    ct_dts INTEGER NOT NULL);
CREATE TABLE account_permission (
    ap_ca_id INTEGER NOT NULL REFERENCES customer_account,
    ap_tax_id INTEGER NOT NULL,
    PRIMARY KEY (ap_ca_id, ap_tax_id)) WITHOUT ROWID;
";

/// The tables by the kind of their rows: the first is of kind 1.
const NAMES: [&str; 17] = [
    "broker",
    "customer",
    "taxrate",
    "customer_taxrate",
    "customer_account",
    "security",
    "commission_rate",
    "charge",
    "trade",
    "trade_request",
    "trade_history",
    "holding",
    "holding_summary",
    "holding_history",
    "settlement",
    "cash_transaction",
    "account_permission",
];

/// A field of a record, as a column has it.
#[derive(Clone, Copy)]
enum Column {
    Type,
    Status,
    Flags,
    Cash,
    Lifo,
    Party,
    Id,
    Letters,
    N1,
    N2,
    N3,
    N4,
    /// n1 and n2 of a lot history are signed.
    SignedN1,
    SignedN2,
    M1,
    M2,
    Time,
}

/// The fields of a kind, in the order of its table's columns.
fn fields(kind: u8) -> &'static [Column] {
    use self::Column::*;
    match kind {
        BROKER => &[Party, N1, M1],
        CUSTOMER => &[Party, Type],
        TAX_RATE => &[Party, N1],
        CUSTOMER_RATE => &[Party, N1],
        ACCOUNT => &[Party, N1, N2, Type, M1],
        SECURITY => &[Letters, Type, N1, M1, Time],
        BAND => &[Status, Type, Flags, N1, N2, N3],
        CHARGE => &[Type, Status, N1],
        TRADE => &[
            Id, Type, Status, Cash, Lifo, Party, Letters, N1, N2, N3, N4, M1, M2, Time,
        ],
        REQUEST => &[Id, Type, Party, Letters, N1, N2],
        HISTORY => &[Id, Status, Time],
        LOT => &[Id, Party, Letters, N1, M1, Time],
        SUMMARY => &[Party, Letters, M1],
        LOT_HISTORY => &[Id, M2, SignedN1, SignedN2],
        SETTLEMENT => &[Id, Cash, M1, Time],
        CASH => &[Id, M1, Time],
        PERMISSION => &[Party, N1],
        _ => panic!("kind {kind} has no table"),
    }
}

fn get(row: &Row, field: Column) -> Value<'_> {
    Number(match field {
        Column::Letters => return Symbol(&row.symbol),
        Column::Type => i64::from(row.typ),
        Column::Status => i64::from(row.status),
        Column::Flags => i64::from(row.flags),
        Column::Cash => i64::from(row.flags & FLAG_CASH),
        Column::Lifo => i64::from(row.flags / FLAG_LIFO),
        Column::Party => i64::from(row.party),
        Column::Id => row.id as i64,
        Column::N1 => i64::from(row.n1),
        Column::N2 => i64::from(row.n2),
        Column::N3 => i64::from(row.n3),
        Column::N4 => i64::from(row.n4),
        Column::SignedN1 => i64::from(row.signed_n1()),
        Column::SignedN2 => i64::from(row.signed_n2()),
        Column::M1 => row.signed_m1(),
        Column::M2 => row.signed_m2(),
        Column::Time => i64::from(row.time),
    })
}

fn set(row: &mut Row, field: Column, number: i64) {
    let small = || u32::try_from(number).expect("a field of four bytes");
    let byte = || u8::try_from(number).expect("a field of one byte");
    let signed = || i32::try_from(number).expect("a signed field of four bytes") as u32;
    match field {
        Column::Letters => panic!("a symbol is no number"),
        Column::Type => row.typ = byte(),
        Column::Status => row.status = byte(),
        Column::Flags => row.flags = byte(),
        Column::Cash => row.flags += byte(),
        Column::Lifo => row.flags += FLAG_LIFO * byte(),
        Column::Party => row.party = small(),
        Column::Id => row.id = number as u64,
        Column::N1 => row.n1 = small(),
        Column::N2 => row.n2 = small(),
        Column::N3 => row.n3 = small(),
        Column::N4 => row.n4 = small(),
        Column::SignedN1 => row.n1 = signed(),
        Column::SignedN2 => row.n2 = signed(),
        Column::M1 => row.m1 = number as u64,
        Column::M2 => row.m2 = number as u64,
        Column::Time => row.time = small(),
    }
}

/// Makes the tables and fills them with the rows of a book.
pub fn load(database: &Database, book: &[u8]) {
    database.execute(TABLES);
    let rows = rows_of(book);
    database.execute("BEGIN");
    for (kind, name) in (1..).zip(NAMES) {
        let fields = fields(kind);
        let marks = vec!["?"; fields.len()].join(", ");
        let insert = database.prepare(&format!("INSERT INTO {name} VALUES ({marks})"));
        for row in rows.iter().filter(|row| row.kind == kind) {
            let values: Vec<Value> = fields.iter().map(|field| get(row, *field)).collect();
            insert.run(&values).expect("a row of a sound book");
        }
    }
    database.execute("COMMIT");
}

/// The rows of all tables as records, sorted.
pub fn sorted_rows(database: &Database) -> Vec<Row> {
    let mut all = Vec::new();
    for (kind, name) in (1..).zip(NAMES) {
        let select = database.prepare(&format!("SELECT * FROM {name}"));
        let mut rows = select.start(&[]);
        while rows.next() {
            let mut row = Row {
                kind,
                ..Row::default()
            };
            for (column, field) in fields(kind).iter().enumerate() {
                match field {
                    Column::Letters => row.symbol = rows.symbol(column),
                    field => set(&mut row, *field, rows.number(column)),
                }
            }
            all.push(row);
        }
    }
    all.sort();
    all
}
