//! What an accepted call had to do, in words, so that one sees whether random cases do enough; and
//! why an executor, a gain or the search for a band was refused.

use crate::calls::{
    Call, BAD_INPUT, NO_ROOM, ORDER_NOT_PERMITTED, ORDER_NO_ACCOUNT, ORDER_NO_BAND,
    ORDER_NO_CHARGE, ORDER_NO_RATE, ORDER_NO_SECURITY, ORDER_NO_TAX, OUT_OF_RANGE, RESULT_NO_BAND,
    RESULT_NO_RATE, RESULT_NO_TAX,
};
use crate::record::*;

/// Every feature that random cases should show, even on books of 24 records.
pub const WANTED: &[(Call, &[&str])] = &[
    (
        Call::Order,
        &[
            "buys",
            "sells",
            "waits",
            "closes lots",
            "has a gain",
            "has a loss",
            "is taxed",
            "has a gain untaxed",
            "has a tax that rounds to zero",
            "has a gain of 1 at rates of 1",
            "has a gain of 2 at rates of 20,000",
            "has a loss at rates of zero",
            "breaks even at rates of zero",
            "has a gain untaxed at rates of zero",
            "has gain × rates past the largest signed 64-bit number",
            "has gain × rates from 2^62 to the largest signed 64-bit number",
            "rolls back",
            "is LIFO",
            "has a rate beside a band of rate zero",
            "is by the owner with no permission in the book",
            "is by the owner of an account with permissions",
            "is by an executor",
            "is by an executor and rolls back",
            "is by one of several executors of its account",
            "is by an executor of several accounts",
            "is by an executor with a broker's number",
            "is by an executor with a customer's number",
            "is by an executor with an account's number",
            "is by executor 1",
            "is by executor 999,999,999",
        ],
    ),
    (
        Call::Result,
        &[
            "buys",
            "sells",
            "closes no lot",
            "closes one lot",
            "closes two or more lots",
            "reduces a lot",
            "removes lots only",
            "opens a lot",
            "closes and opens",
            "adds a summary",
            "frees the summary",
            "changes the summary's sign",
            "adds to a position",
            "is taxed",
            "records the tax only",
            "has a gain untaxed",
            "has a tax that rounds to zero",
            "has a gain of 1 at rates of 1",
            "has a gain of 2 at rates of 20,000",
            "has a loss at rates of zero",
            "breaks even at rates of zero",
            "has a gain untaxed at rates of zero",
            "has gain × rates past the largest signed 64-bit number",
            "has gain × rates from 2^62 to the largest signed 64-bit number",
            "has a loss",
            "is cash",
            "is not cash",
            "is LIFO over two lots",
            "meets lots of equal time",
            "takes the last free place",
            "brings a total to its limit",
            "has a rate beside a band of rate zero",
        ],
    ),
    (
        Call::Feed,
        &[
            "submits none",
            "submits one",
            "submits two or more",
            "leaves a request on its symbol",
            "has two entries of one symbol",
        ],
    ),
    (
        Call::Lookup,
        &["finds a settlement", "finds none", "names a trade twice"],
    ),
];

const WITHOUT_RATES: &str = "is refused without rates";
const ZERO_RATES: &str = "is refused with rates of zero";
const ONE_ZERO_BAND: &str = "is refused with one band, of rate zero";
const ZERO_BESIDE_RATE: &str = "is refused with a band of rate zero beside one with a rate";
const NO_BAND_AT_ALL: &str = "is refused with no band at all";
const OTHER_TYPE: &str = "is refused with a band of another type alone";
const OTHER_TIER: &str = "is refused with a band of another tier alone";
const OTHER_EXCHANGE: &str = "is refused with a band of another exchange alone";
const ONE_BELOW: &str = "is refused one share below a band";
const ONE_ABOVE: &str = "is refused one share above a band";
const IN_A_GAP: &str = "is refused in a gap between two bands";

/// The ways to -731 and -831: rates sum to zero as there are none, or none above zero.
const TAX_REASONS: &[&str] = &[WITHOUT_RATES, ZERO_RATES];

/// The ways to -732 and -841: a rate of zero. To -735 and -842: no band.
pub const BAND_REASONS: &[&str] = &[
    ONE_ZERO_BAND,
    ZERO_BESIDE_RATE,
    NO_BAND_AT_ALL,
    OTHER_TYPE,
    OTHER_TIER,
    OTHER_EXCHANGE,
    ONE_BELOW,
    ONE_ABOVE,
    IN_A_GAP,
];

const NO_PERMISSION: &str = "is refused with no permission in the book";
const OTHER_ACCOUNT: &str = "is refused with its executor's permission of another account alone";
const OTHER_EXECUTOR: &str = "is refused with its account's permission of another executor alone";
const BOTH_APART: &str = "is refused with its account and its executor permitted apart";
const OWN_BROKER: &str = "is refused for an executor with its broker's number";
const OWN_CUSTOMER: &str = "is refused for an executor with its customer's number";
const OWN_ACCOUNT: &str = "is refused for an executor with its account's number";
const LOWEST: &str = "is refused for executor 1";
const HIGHEST: &str = "is refused for executor 999,999,999";
const BEFORE_NO_SECURITY: &str = "is refused -721 with -712 due too";
const BEFORE_NO_TAX: &str = "is refused -721 with -731 due too";
const BEFORE_NO_RATE: &str = "is refused -721 with -732 due too";
const BEFORE_NO_BAND: &str = "is refused -721 with -735 due too";
const BEFORE_NO_CHARGE: &str = "is refused -721 with -733 due too";
const BEFORE_OUT_OF_RANGE: &str = "is refused -721 with -104 due too";
const BEFORE_NO_ROOM: &str = "is refused -721 with -105 due too";
const BEFORE_NOTHING: &str = "is refused -721 with nothing else due";
const AFTER_NO_ACCOUNT: &str = "is refused -711 with -721 due too";
const AFTER_NO_ACCOUNT_AND_SECURITY: &str = "is refused -711 with -721 and -712 due too";
const ONE_TOO_HIGH: &str = "is refused for executor 1,000,000,000";
const FAR_TOO_HIGH: &str = "is refused for executor 4,294,967,295";

/// The ways to -721, with what else was due, and to the statuses that come before it.
pub const EXECUTOR_REASONS: &[&str] = &[
    NO_PERMISSION,
    OTHER_ACCOUNT,
    OTHER_EXECUTOR,
    BOTH_APART,
    OWN_BROKER,
    OWN_CUSTOMER,
    OWN_ACCOUNT,
    LOWEST,
    HIGHEST,
    BEFORE_NO_SECURITY,
    BEFORE_NO_TAX,
    BEFORE_NO_RATE,
    BEFORE_NO_BAND,
    BEFORE_NO_CHARGE,
    BEFORE_OUT_OF_RANGE,
    BEFORE_NO_ROOM,
    BEFORE_NOTHING,
    AFTER_NO_ACCOUNT,
    AFTER_NO_ACCOUNT_AND_SECURITY,
    ONE_TOO_HIGH,
    FAR_TOO_HIGH,
];

/// The ways to a refusal that random cases of this call should show.
pub fn reasons(call: Call) -> Vec<&'static str> {
    match call {
        Call::Order => [EXECUTOR_REASONS, TAX_REASONS, BAND_REASONS].concat(),
        Call::Result => [TAX_REASONS, BAND_REASONS].concat(),
        Call::Feed | Call::Lookup => Vec::new(),
    }
}

/// Which of them led this call to its status.
pub fn of_refusal(call: Call, status: i32, book: &[u8], input: &[u8]) -> Vec<&'static str> {
    if call == Call::Order && matches!(status, BAD_INPUT | ORDER_NO_ACCOUNT | ORDER_NOT_PERMITTED) {
        return of_executor(status, book, &rows_of(input)[0]);
    }
    let reasons_of = match status {
        ORDER_NO_TAX | RESULT_NO_TAX => of_no_tax,
        ORDER_NO_RATE | RESULT_NO_RATE => of_zero_rate,
        ORDER_NO_BAND | RESULT_NO_BAND => of_no_band,
        _ => return Vec::new(),
    };
    let (rows, input) = (rows_of(book), rows_of(input)[0]);
    let trade = match call {
        Call::Order => input,
        _ => {
            let trade = rows.iter().find(|r| r.kind == TRADE && r.id == input.id);
            *trade.expect("else it is -811")
        }
    };
    reasons_of(&rows, &trade)
}

/// The names of what holds.
fn holding<const N: usize>(list: [(bool, &'static str); N]) -> Vec<&'static str> {
    let holding = list.into_iter().filter(|(holds, _)| *holds);
    holding.map(|(_, name)| name).collect()
}

/// Why an executor was refused, or what came before it.
fn of_executor(status: i32, book: &[u8], order: &Row) -> Vec<&'static str> {
    let executor = order.n3;
    if status == BAD_INPUT {
        return holding([
            (executor == MAX_NUMBER + 1, ONE_TOO_HIGH),
            (executor == u32::MAX, FAR_TOO_HIGH),
        ]);
    }
    let rows = rows_of(book);
    if status == ORDER_NO_ACCOUNT {
        // No account, no permission of it (S3).
        let security = rows
            .iter()
            .any(|r| r.kind == SECURITY && r.symbol == order.symbol);
        return holding([
            (executor != 0, AFTER_NO_ACCOUNT),
            (executor != 0 && !security, AFTER_NO_ACCOUNT_AND_SECURITY),
        ]);
    }
    let account = account_of(&rows, order.party);
    let permits =
        |good: &dyn Fn(&Row) -> bool| rows.iter().any(|r| r.kind == PERMISSION && good(r));
    let its_account = permits(&|r| r.party == order.party);
    let its_executor = permits(&|r| r.n1 == executor);
    // What the owner would have been told.
    let by_owner = Row { n3: 0, ..*order };
    let due = Call::Order.run(&mut book.to_vec(), &by_owner.write(), &mut [0; RECORD]);
    holding([
        (!permits(&|_| true), NO_PERMISSION),
        (its_executor && !its_account, OTHER_ACCOUNT),
        (its_account && !its_executor, OTHER_EXECUTOR),
        (its_account && its_executor, BOTH_APART),
        (executor == account.n1, OWN_BROKER),
        (executor == account.n2, OWN_CUSTOMER),
        (executor == account.party, OWN_ACCOUNT),
        (executor == 1, LOWEST),
        (executor == MAX_NUMBER, HIGHEST),
        (due == ORDER_NO_SECURITY, BEFORE_NO_SECURITY),
        (due == ORDER_NO_TAX, BEFORE_NO_TAX),
        (due == ORDER_NO_RATE, BEFORE_NO_RATE),
        (due == ORDER_NO_BAND, BEFORE_NO_BAND),
        (due == ORDER_NO_CHARGE, BEFORE_NO_CHARGE),
        (due == OUT_OF_RANGE, BEFORE_OUT_OF_RANGE),
        (due == NO_ROOM, BEFORE_NO_ROOM),
        (due == 0, BEFORE_NOTHING),
    ])
}

/// What the search for a permission makes of an accepted order.
fn of_permission(rows: &[Row], order: &Row) -> Vec<&'static str> {
    let permissions: Vec<&Row> = rows.iter().filter(|r| r.kind == PERMISSION).collect();
    let of_account = permissions
        .iter()
        .filter(|r| r.party == order.party)
        .count();
    let of_executor = permissions.iter().filter(|r| r.n1 == order.n3).count();
    let owner = order.n3 == 0;
    let shared = |kind: u8| !owner && rows.iter().any(|r| r.kind == kind && r.party == order.n3);
    holding([
        (
            owner && permissions.is_empty(),
            "is by the owner with no permission in the book",
        ),
        (
            owner && of_account > 0,
            "is by the owner of an account with permissions",
        ),
        (!owner, "is by an executor"),
        (
            !owner && order.flags & FLAG_ROLL_BACK != 0,
            "is by an executor and rolls back",
        ),
        (
            !owner && of_account > 1,
            "is by one of several executors of its account",
        ),
        (of_executor > 1, "is by an executor of several accounts"),
        (shared(BROKER), "is by an executor with a broker's number"),
        (
            shared(CUSTOMER),
            "is by an executor with a customer's number",
        ),
        (
            shared(ACCOUNT),
            "is by an executor with an account's number",
        ),
        (order.n3 == 1, "is by executor 1"),
        (order.n3 == MAX_NUMBER, "is by executor 999,999,999"),
    ])
}

fn of_no_tax(rows: &[Row], trade: &Row) -> Vec<&'static str> {
    let without = rates_of(rows, account_of(rows, trade.party)).is_empty();
    holding([(without, WITHOUT_RATES), (!without, ZERO_RATES)])
}

fn of_zero_rate(rows: &[Row], trade: &Row) -> Vec<&'static str> {
    let own = own_bands(rows, trade);
    holding([
        (own.len() == 1, ONE_ZERO_BAND),
        (own.iter().any(|band| band.n3 > 0), ZERO_BESIDE_RATE),
    ])
}

/// A band is of another type, tier or exchange alone if it would hold the trade but for that. It
/// counts where the trade has no band of its own.
fn of_no_band(rows: &[Row], trade: &Row) -> Vec<&'static str> {
    let shares = trade.n1;
    let own = own_bands(rows, trade);
    let others = |what: [bool; 3]| {
        let holds = |r: &Row| r.kind == BAND && (r.n1..=r.n2).contains(&shares);
        let mut bands = rows.iter().filter(|r| holds(r));
        own.is_empty() && bands.any(|band| agreement(rows, trade, band) == what)
    };
    let is_below = |band: &&Row| band.n2 < shares;
    holding([
        (rows.iter().all(|r| r.kind != BAND), NO_BAND_AT_ALL),
        (others([false, true, true]), OTHER_TYPE),
        (others([true, false, true]), OTHER_TIER),
        (others([true, true, false]), OTHER_EXCHANGE),
        (own.iter().any(|band| band.n1 == shares + 1), ONE_BELOW),
        (own.iter().any(|band| band.n2 + 1 == shares), ONE_ABOVE),
        (
            own.iter().any(is_below) && !own.iter().all(is_below),
            IN_A_GAP,
        ),
    ])
}

/// Whether a band has the trade's type, the customer's tier and the security's exchange.
fn agreement(rows: &[Row], trade: &Row, band: &Row) -> [bool; 3] {
    let account = account_of(rows, trade.party);
    let mut customers = rows.iter().filter(|r| r.kind == CUSTOMER);
    let customer = customers.find(|r| r.party == account.n2).expect("S3");
    let mut securities = rows.iter().filter(|r| r.kind == SECURITY);
    let security = securities.find(|r| r.symbol == trade.symbol);
    let security = security.expect("S3, or it was looked up");
    [
        band.typ == trade.typ,
        band.status == customer.typ,
        band.flags == security.typ,
    ]
}

/// The bands of the trade's type, tier and exchange, whatever shares they hold.
fn own_bands<'a>(rows: &'a [Row], trade: &Row) -> Vec<&'a Row> {
    let bands = rows.iter().filter(|r| r.kind == BAND);
    bands
        .filter(|band| agreement(rows, trade, band) == [true; 3])
        .collect()
}

fn account_of(rows: &[Row], party: u32) -> &Row {
    let account = rows.iter().find(|r| r.kind == ACCOUNT && r.party == party);
    account.expect("S3, or it was looked up")
}

/// The rates of an account's customer.
fn rates_of(rows: &[Row], account: &Row) -> Vec<u32> {
    let links = rows
        .iter()
        .filter(|r| r.kind == CUSTOMER_RATE && r.party == account.n2);
    links
        .map(|link| {
            let rate = rows
                .iter()
                .find(|r| r.kind == TAX_RATE && r.party == link.n1);
            rate.expect("S3").n1
        })
        .collect()
}

/// What the rule of tax makes of an accepted order or result that closes lots.
fn of_tax(rows: &[Row], account: &Row, gain: i128, tax: u64) -> Vec<&'static str> {
    let rates: u32 = rates_of(rows, account).iter().sum();
    let taxed = account.typ != 0;
    let product = gain * i128::from(rates);
    let largest = i128::from(i64::MAX);
    holding([
        (gain > 0 && tax > 0, "is taxed"),
        (gain > 0 && !taxed, "has a gain untaxed"),
        (
            gain > 0 && taxed && tax == 0,
            "has a tax that rounds to zero",
        ),
        (
            gain == 1 && taxed && rates == 1,
            "has a gain of 1 at rates of 1",
        ),
        (
            gain == 2 && taxed && rates == 20_000,
            "has a gain of 2 at rates of 20,000",
        ),
        (
            gain < 0 && taxed && rates == 0,
            "has a loss at rates of zero",
        ),
        (
            gain == 0 && taxed && rates == 0,
            "breaks even at rates of zero",
        ),
        (
            gain > 0 && !taxed && rates == 0,
            "has a gain untaxed at rates of zero",
        ),
        (
            taxed && product > largest,
            "has gain × rates past the largest signed 64-bit number",
        ),
        (
            taxed && (1 << 62..=largest).contains(&product),
            "has gain × rates from 2^62 to the largest signed 64-bit number",
        ),
    ])
}

/// What the search for a band makes of an accepted order or result.
fn of_band(rows: &[Row], trade: &Row) -> Vec<&'static str> {
    let zero_beside = own_bands(rows, trade).iter().any(|band| band.n3 == 0);
    holding([(zero_beside, "has a rate beside a band of rate zero")])
}

/// The features of this accepted call.
pub fn of(
    call: Call,
    before: &[u8],
    after: &[u8],
    input: &[u8],
    answer: &[u8],
) -> Vec<&'static str> {
    let (before, after) = (rows_of(before), rows_of(after));
    let (input, answer) = (rows_of(input), rows_of(answer));
    let mut found = Vec::new();
    let mut note = |holds: bool, name: &'static str| {
        if holds {
            found.push(name);
        }
    };
    match call {
        Call::Order => {
            let (input, answer) = (&input[0], &answer[0]);
            note(buys(input.typ), "buys");
            note(!buys(input.typ), "sells");
            note(input.typ >= TLB, "waits");
            note(answer.m1 > 0, "closes lots");
            note(answer.m2 > answer.m1, "has a gain");
            note(answer.m2 < answer.m1, "has a loss");
            note(input.flags & FLAG_ROLL_BACK != 0, "rolls back");
            note(input.flags & FLAG_LIFO != 0, "is LIFO");
            if answer.m1 > 0 {
                let account = account_of(&before, input.party);
                let gain = i128::from(answer.m2) - i128::from(answer.m1);
                found.extend(of_tax(&before, account, gain, answer.tax()));
            }
            found.extend(of_band(&before, input));
            found.extend(of_permission(&before, input));
        }
        Call::Result => {
            let (input, answer) = (&input[0], &answer[0]);
            let trade = before.iter().find(|r| r.kind == TRADE && r.id == input.id);
            let trade = trade.expect("it was accepted");
            let account = account_of(&before, trade.party);
            let steps: Vec<&Row> = after
                .iter()
                .filter(|row| row.kind == LOT_HISTORY && row.m2 == trade.id && row.id != trade.id)
                .collect();
            let position = |rows: &[Row]| {
                rows.iter()
                    .find(|r| {
                        r.kind == SUMMARY && r.party == trade.party && r.symbol == trade.symbol
                    })
                    .map(|row| row.signed_m1())
            };
            let lots: Vec<&Row> = before
                .iter()
                .filter(|r| r.kind == LOT && r.party == trade.party && r.symbol == trade.symbol)
                .collect();
            let tied = (0..lots.len()).any(|i| (0..i).any(|j| lots[i].time == lots[j].time));
            let (was, is) = (position(&before), position(&after));
            let reduces = steps.iter().any(|row| row.n2 != 0);
            let opens = after.iter().any(|r| r.kind == LOT && r.id == trade.id);
            let mut gain = 0;
            for step in &steps {
                let lot = lots
                    .iter()
                    .find(|lot| lot.id == step.id)
                    .expect("it was closed");
                let closed = i128::from(step.signed_n1()) - i128::from(step.signed_n2());
                gain += closed * (i128::from(input.n1) - i128::from(lot.n1));
            }
            note(buys(trade.typ), "buys");
            note(!buys(trade.typ), "sells");
            note(steps.is_empty(), "closes no lot");
            note(steps.len() == 1, "closes one lot");
            note(steps.len() >= 2, "closes two or more lots");
            note(reduces, "reduces a lot");
            note(!steps.is_empty() && !reduces, "removes lots only");
            note(opens, "opens a lot");
            note(!steps.is_empty() && opens, "closes and opens");
            note(was.is_none(), "adds a summary");
            note(was.is_some() && is.is_none(), "frees the summary");
            note(
                was.unwrap_or(0).signum() * is.unwrap_or(0).signum() < 0,
                "changes the summary's sign",
            );
            note(was.is_some() && steps.is_empty(), "adds to a position");
            note(answer.tax() > 0 && account.typ == 2, "records the tax only");
            note(gain < 0, "has a loss");
            note(trade.flags & FLAG_CASH != 0, "is cash");
            note(trade.flags & FLAG_CASH == 0, "is not cash");
            let lifo = trade.flags & FLAG_LIFO != 0;
            note(lifo && steps.len() >= 2, "is LIFO over two lots");
            note(tied && !steps.is_empty(), "meets lots of equal time");
            let stays_free = |place: usize| before[place].is_free() && after[place].is_free();
            note(
                !(0..before.len()).any(stays_free),
                "takes the last free place",
            );
            let broker = after
                .iter()
                .find(|r| r.kind == BROKER && r.party == account.n1);
            let broker = broker.expect("S3");
            note(
                broker.n1 == MAX_BROKER_TRADES
                    || broker.m1 == MAX_MONEY as u64
                    || answer.signed_m1().abs() == MAX_MONEY,
                "brings a total to its limit",
            );
            if !steps.is_empty() {
                found.extend(of_tax(&before, account, gain, answer.tax()));
            }
            found.extend(of_band(&before, trade));
        }
        Call::Feed => {
            let answer = &answer[0];
            note(answer.n2 == 0, "submits none");
            note(answer.n2 == 1, "submits one");
            note(answer.n2 >= 2, "submits two or more");
            let named = |row: &Row| input.iter().any(|entry| entry.symbol == row.symbol);
            note(
                after.iter().any(|row| row.kind == REQUEST && named(row)),
                "leaves a request on its symbol",
            );
            let twice =
                (0..input.len()).any(|i| (0..i).any(|j| input[i].symbol == input[j].symbol));
            note(twice, "has two entries of one symbol");
        }
        Call::Lookup => {
            let settled = |pair: &[Row]| !pair[1].is_free();
            note(answer.chunks(2).any(settled), "finds a settlement");
            note(!answer.chunks(2).all(settled), "finds none");
            let twice = (0..input.len()).any(|i| (0..i).any(|j| input[i].id == input[j].id));
            note(twice, "names a trade twice");
        }
    }
    found
}
