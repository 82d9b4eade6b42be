//! 2026-06: tax and commission, worked out "from whole part and remainder" with each intermediate
//! below 2^62, are those of the rule. `calls` itself keeps the plain formula in 128 bits.

use second::calls;
use second::figures::{result_input, Figure};
use second::record::*;
use second::rng::Rng;

/// How many figures are drawn for each rule.
const DRAWN: u32 = 1_000_000;

/// A tax is gain × rates / 100,000, a commission rate × value / 10,000.
const TAX_UNDER: u64 = 100_000;
const COMMISSION_UNDER: u64 = 10_000;

/// 999,999 shares from 1 cent to 99,999,999.
const LARGEST_GAIN: u64 = 99_999_898_000_002;

/// The rule: value × rate / under, "rounded to the nearest cent, halves up".
fn exact(value: u64, rate: u64, under: u64) -> u128 {
    let (value, rate, under) = (u128::from(value), u128::from(rate), u128::from(under));
    (2 * value * rate + under) / (2 * under)
}

/// The same from whole part and remainder of value / under.
fn in_parts(value: u64, rate: u64, under: u64) -> u64 {
    let (whole, rest) = (low(Some(value / under)), low(Some(value % under)));
    let part = plus(times(rest, rate), under / 2) / under;
    plus(times(whole, rate), part)
}

fn plus(one: u64, other: u64) -> u64 {
    low(one.checked_add(other))
}

fn times(one: u64, other: u64) -> u64 {
    low(one.checked_mul(other))
}

/// An intermediate, which must be below 2^62.
fn low(number: Option<u64>) -> u64 {
    let number = number.expect("it fits 64 bits");
    assert!(number < 1 << 62, "{number}");
    number
}

type Formula = fn(u64, u64, u64) -> u64;

/// Formulas that look right, of value, rate and under.
const WRONG: [(&str, Formula); 4] = [
    ("the remainder is dropped", |value, rate, under| {
        value / under * rate
    }),
    ("the quotient is rounded first", |value, rate, under| {
        (value + under / 2) / under * rate
    }),
    ("the remainder's part goes down", |value, rate, under| {
        value / under * rate + value % under * rate / under
    }),
    ("halves go down", |value, rate, under| {
        value / under * rate + (value % under * rate + under / 2 - 1) / under
    }),
];

/// What was met among the figures drawn.
#[derive(Default, Debug)]
struct Met {
    /// How often each formula of `WRONG` gave another number than the rule.
    wrong: [u32; WRONG.len()],
    /// Remainders of the whole product: one below half of `under`, half, one above.
    around_half: [u32; 3],
    /// Products that pass the largest signed 64-bit number.
    large: u32,
}

/// Holds a million figures to the rule: each value and rate, with what `calls` makes of them.
fn compare(under: u64, mut draw: impl FnMut() -> (u64, u64, i128)) -> Met {
    let mut met = Met::default();
    for _ in 0..DRAWN {
        let (value, rate, called) = draw();
        let expected = exact(value, rate, under);
        let parts = u128::from(in_parts(value, rate, under));
        assert_eq!(parts, expected, "{value} × {rate} in parts");
        assert_eq!(u128::try_from(called), Ok(expected), "{value} × {rate}");
        for ((_, formula), count) in WRONG.iter().zip(&mut met.wrong) {
            *count += u32::from(u128::from(formula(value, rate, under)) != expected);
        }
        let product = value.checked_mul(rate).expect("it fits 64 bits unsigned");
        met.large += u32::from(i64::try_from(product).is_err());
        for (left, count) in (under / 2 - 1..).zip(&mut met.around_half) {
            *count += u32::from(product % under == left);
        }
    }
    for ((name, _), count) in WRONG.iter().zip(met.wrong) {
        assert!(count > 10_000, "{name}: {met:?}");
    }
    assert!(
        met.around_half.iter().all(|count| *count > 10_000),
        "{met:?}"
    );
    met
}

/// A number near this one.
fn near(rng: &mut Rng, middle: u64, most: u64) -> u64 {
    rng.between(middle.saturating_sub(9), most.min(middle + 9))
}

/// A rate of 0..=most: any, or one near 0, half of the most or the most.
fn any_rate(rng: &mut Rng, most: u32) -> u64 {
    let most = u64::from(most);
    match rng.below(4) {
        0 => near(rng, 0, most),
        1 => near(rng, most / 2, most),
        2 => near(rng, most, most),
        _ => rng.between(0, most),
    }
}

/// Shares or a price of 1..=most: any, a small one, or one near the most.
fn any_count(rng: &mut Rng, most: u32) -> u64 {
    let most = u64::from(most);
    match rng.below(3) {
        0 => rng.between(1, 20),
        1 => near(rng, most, most),
        _ => rng.between(1, most),
    }
}

fn any_gain(rng: &mut Rng) -> u64 {
    match rng.below(4) {
        0 => rng.between(0, 3 * TAX_UNDER),
        1 => {
            let whole = rng.between(0, LARGEST_GAIN / TAX_UNDER);
            near(rng, whole * TAX_UNDER, LARGEST_GAIN)
        }
        2 => near(rng, LARGEST_GAIN, LARGEST_GAIN),
        _ => rng.between(0, LARGEST_GAIN),
    }
}

/// Hands out the twos and fives of a number to two factors of it.
fn split(rng: &mut Rng, number: u64) -> (u64, u64) {
    let (mut one, mut other) = (1, number);
    for prime in [2, 5] {
        while other % prime == 0 && rng.chance(50) {
            one *= prime;
            other /= prime;
        }
    }
    (one, other)
}

/// An odd multiple of this part.
fn odd_multiple(rng: &mut Rng, part: u64, most: u64) -> u64 {
    part * (1 + 2 * rng.between(0, (most / part - 1) / 2))
}

/// A number that neither 2 nor 5 divides.
fn prime_to_ten(rng: &mut Rng, most: u64) -> u64 {
    10 * rng.between(0, (most + 1) / 10 - 1) + rng.pick(&[1, 3, 7, 9])
}

/// A number of 1..=most that, times this factor prime to ten, leaves `left` when it is divided by
/// `under`, a power of ten of at most eight zeros.
fn leaving(rng: &mut Rng, left: u64, factor: u64, under: u64, most: u64) -> u64 {
    // The inverse of the factor: its cube has the last digit right, and each step twice as many.
    let factor = factor % under;
    let mut inverse = factor.pow(3) % under;
    for _ in 0..3 {
        inverse = inverse * (under + 2 - factor * inverse % under) % under;
    }
    let least = match inverse * left % under {
        0 => under,
        least => least,
    };
    let number = least + under * rng.between(0, (most - least) / under);
    assert!(number % under * factor % under == left && number <= most);
    number
}

/// A gain and rates. A fifth are at half a cent, or one hundred-thousandth off it.
fn any_tax(rng: &mut Rng) -> (u64, u64) {
    let most_rates = u64::from(MAX_RATE);
    let half = TAX_UNDER / 2;
    match rng.below(10) {
        0 => {
            let (of_gain, of_rates) = split(rng, half);
            let gain = odd_multiple(rng, of_gain, LARGEST_GAIN);
            (gain, odd_multiple(rng, of_rates, most_rates))
        }
        1 => {
            let rates = prime_to_ten(rng, most_rates);
            let left = *rng.pick(&[half - 1, half + 1]);
            (leaving(rng, left, rates, TAX_UNDER, LARGEST_GAIN), rates)
        }
        _ => (any_gain(rng), any_rate(rng, MAX_RATE)),
    }
}

/// Rate, shares and price. A fifth are at half a cent or one ten-thousandth off it, a tenth have a
/// value near a multiple of 10,000.
fn any_commission(rng: &mut Rng) -> (u64, u64, u64) {
    let most_rate = u64::from(MAX_BAND_RATE);
    let (most_shares, most_price) = (u64::from(MAX_SHARES), u64::from(MAX_PRICE));
    let under = COMMISSION_UNDER;
    let half = under / 2;
    match rng.below(10) {
        0 => {
            let (of_rate, others) = split(rng, half);
            let (of_shares, of_price) = split(rng, others);
            let rate = odd_multiple(rng, of_rate, most_rate);
            let shares = odd_multiple(rng, of_shares, most_shares);
            (rate, shares, odd_multiple(rng, of_price, most_price))
        }
        1 => {
            let rate = prime_to_ten(rng, most_rate);
            let shares = prime_to_ten(rng, most_shares);
            let left = *rng.pick(&[half - 1, half + 1]);
            let price = leaving(rng, left, rate * shares, under, most_price);
            (rate, shares, price)
        }
        2 => {
            let shares = prime_to_ten(rng, most_shares);
            let left = near(rng, under, under + 9) % under;
            let price = leaving(rng, left, shares, under, most_price);
            (any_rate(rng, MAX_BAND_RATE), shares, price)
        }
        _ => (
            any_rate(rng, MAX_BAND_RATE),
            any_count(rng, MAX_SHARES),
            any_count(rng, MAX_PRICE),
        ),
    }
}

#[test]
fn taxes_agree() {
    let mut rng = Rng::new(60);
    let met = compare(TAX_UNDER, || {
        let (gain, rates) = any_tax(&mut rng);
        assert!(gain <= LARGEST_GAIN && rates <= MAX_RATE.into());
        (gain, rates, calls::tax_on_gain(gain.into(), rates.into()))
    });
    assert!(met.large > 10_000, "{met:?}");
}

#[test]
fn commissions_agree() {
    let mut rng = Rng::new(61);
    let met = compare(COMMISSION_UNDER, || {
        let (rate, shares, price) = any_commission(&mut rng);
        assert!(rate <= MAX_BAND_RATE.into());
        assert!((1..=MAX_SHARES.into()).contains(&shares));
        assert!((1..=MAX_PRICE.into()).contains(&price));
        let called = calls::commission(rate as u32, shares as u32, price as u32);
        (times(shares, price), rate, called)
    });
    assert_eq!(met.large, 0);
}

/// Taxes of the largest gains and of those around 100,000, by rates.
const TAXES: &[(u64, &[(u32, u64)])] = &[
    (
        LARGEST_GAIN,
        &[
            (100_000, 99_999_898_000_002),
            (99_999, 99_998_898_001_022),
            (99_998, 99_997_898_002_042),
            (50_001, 50_000_948_998_981),
            (50_000, 49_999_949_000_001),
            (1, 999_998_980),
            (0, 0),
        ],
    ),
    // One and two cents less.
    (
        99_999_898_000_001,
        &[
            (100_000, 99_999_898_000_001),
            (99_999, 99_998_898_001_021),
            (99_998, 99_997_898_002_041),
            (50_001, 50_000_948_998_981),
            (50_000, 49_999_949_000_001),
            (1, 999_998_980),
            (0, 0),
        ],
    ),
    (
        99_999_898_000_000,
        &[
            (100_000, 99_999_898_000_000),
            (99_999, 99_998_898_001_020),
            (99_998, 99_997_898_002_040),
            (50_001, 50_000_948_998_980),
            (50_000, 49_999_949_000_000),
            (1, 999_998_980),
            (0, 0),
        ],
    ),
    // 999,999 shares at one cent less.
    (
        99_999_897_000_003,
        &[
            (100_000, 99_999_897_000_003),
            (99_999, 99_998_897_001_033),
            (99_998, 99_997_897_002_063),
            (50_001, 50_000_948_498_972),
            (50_000, 49_999_948_500_002),
            (1, 999_998_970),
            (0, 0),
        ],
    ),
    // One share less.
    (
        99_999_798_000_004,
        &[
            (100_000, 99_999_798_000_004),
            (99_999, 99_998_798_002_024),
            (99_998, 99_997_798_004_044),
            (50_001, 50_000_898_997_982),
            (50_000, 49_999_899_000_002),
            (1, 999_997_980),
            (0, 0),
        ],
    ),
    (100_001, &[(100_000, 100_001), (99_999, 100_000)]),
    (100_000, &[(100_000, 100_000), (99_999, 99_999)]),
    (99_999, &[(100_000, 99_999), (99_999, 99_998)]),
];

#[test]
fn taxes_of_the_largest_gains() {
    for (gain, taxes) in TAXES {
        for (rates, tax) in *taxes {
            let (gain, rates, tax) = (*gain, u64::from(*rates), *tax);
            assert_eq!(exact(gain, rates, TAX_UNDER), tax.into(), "{gain} {rates}");
            assert_eq!(in_parts(gain, rates, TAX_UNDER), tax, "{gain} {rates}");
            let called = calls::tax_on_gain(gain.into(), rates.into());
            assert_eq!(called, tax.into(), "{gain} {rates}");
        }
    }
}

/// The book of the figures with one lot, which trade 12 closes. The bands hold all shares.
fn book(shares: u32, buy: bool, lot_price: u32, rates: u32) -> Vec<u8> {
    let mut figure = Figure::sell(shares, false).with_rate(rates);
    let mut held = i64::from(shares);
    if buy {
        figure.typ = TMB;
        held = -held;
    }
    let figure = figure.with_lots(&[(10, held, lot_price, 100)]);
    let mut rows = rows_of(&figure.book());
    for row in &mut rows {
        if row.kind == BAND {
            row.n2 = MAX_SHARES;
        }
    }
    bytes_of(&rows)
}

/// The largest gain and those next to it can come of one lot, and the result answers their tax.
#[test]
fn results_of_the_largest_gains() {
    let gains = [
        (999_999, 1, 99_999_999, LARGEST_GAIN),
        (999_999, 1, 99_999_998, 99_999_897_000_003),
        (999_999, 2, 99_999_999, 99_999_897_000_003),
        (999_998, 1, 99_999_999, 99_999_798_000_004),
    ];
    for (shares, from, to, gain) in gains {
        let (_, taxes) = TAXES.iter().find(|(of, _)| *of == gain).unwrap();
        for (rates, tax) in *taxes {
            for (buy, lot_price, price) in [(false, from, to), (true, to, from)] {
                let mut book = book(shares, buy, lot_price, *rates);
                let mut answer = [0xAA; RECORD];
                let status = calls::result(&mut book, &result_input(12, price, 400), &mut answer);
                assert_eq!(status, if *rates == 0 { -831 } else { 0 });
                assert_eq!(Row::read(&answer).tax(), *tax, "{gain} {rates}");
            }
        }
    }
}

/// Commissions of the largest values, by rate, shares and price.
#[test]
fn commissions_of_the_largest_values() {
    let commissions = [
        (10_000, 999_999, 99_999_999, 99_999_899_000_001),
        (9_999, 999_999, 99_999_999, 99_989_899_010_101),
        (5_001, 999_999, 99_999_999, 50_009_949_489_901),
        (5_000, 999_999, 99_999_999, 49_999_949_500_001),
        (1, 999_999, 99_999_999, 9_999_989_900),
        (0, 999_999, 99_999_999, 0),
        (10_000, 999_999, 99_999_998, 99_999_898_000_002),
        (9_999, 999_999, 99_999_998, 99_989_898_010_202),
        (10_000, 999_998, 99_999_999, 99_999_799_000_002),
        (9_999, 999_998, 99_999_999, 99_989_799_020_102),
    ];
    for (rate, shares, price, expected) in commissions {
        let value = times(shares.into(), price.into());
        let parts = in_parts(value, rate.into(), COMMISSION_UNDER);
        assert_eq!(parts, expected, "{rate} {shares} {price}");
        let called = calls::commission(rate, shares, price);
        assert_eq!(called, expected.into(), "{rate} {shares} {price}");
    }
}

/// "A product of a large gain with the rates can pass the largest signed 64-bit number, and host
/// debuggers print it as negative." As an unsigned number it fits.
#[test]
fn the_plain_product_passes_the_signed_numbers() {
    let product = LARGEST_GAIN.checked_mul(MAX_RATE.into());
    assert_eq!(product, Some(9_999_989_800_000_200_000));
    assert!(product > Some(i64::MAX as u64));
    assert_eq!(product.map(|p| p as i64), Some(-8_446_754_273_709_351_616));
    // From rates of 92,234 on; and twice the product, as the rounding takes it, needs more.
    assert!(LARGEST_GAIN * 92_233 <= i64::MAX as u64);
    assert!(LARGEST_GAIN * 92_234 > i64::MAX as u64);
    assert_eq!(product.and_then(|p| p.checked_mul(2)), None);
}
