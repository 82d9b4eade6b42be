//! `counts SEED COUNT [RECORDS]`: runs COUNT random cases of each call on books of at most RECORDS
//! records, and prints how often each status came, why executors, gains and bands were refused, and
//! what the accepted calls had to do.

use second::calls::Call;
use second::features;
use second::gen;
use second::rng::Rng;
use std::collections::BTreeMap;

fn main() {
    let numbers: Vec<u64> = std::env::args()
        .skip(1)
        .filter_map(|text| text.parse().ok())
        .collect();
    let (seed, count) = match numbers[..] {
        [seed, count] | [seed, count, _] => (seed, count),
        _ => {
            eprintln!("usage: counts SEED COUNT [RECORDS]");
            std::process::exit(2);
        }
    };
    let records = numbers.get(2).copied().unwrap_or(64).clamp(1, 4_096) as usize;
    let mut rng = Rng::new(seed);
    for (call, wanted) in features::WANTED {
        let (statuses, found) = count_cases(&mut rng, *call, records, count);
        println!("{}", call.name());
        for status in call.statuses() {
            println!("  {:>6}  {status}", statuses.get(status).unwrap_or(&0));
        }
        for name in features::reasons(*call).iter().chain(*wanted) {
            println!("  {:>6}  {name}", found.get(name).unwrap_or(&0));
        }
    }
}

type Counts<Key> = BTreeMap<Key, u64>;

fn count_cases(
    rng: &mut Rng,
    call: Call,
    records: usize,
    count: u64,
) -> (Counts<i32>, Counts<&'static str>) {
    let mut statuses = Counts::new();
    let mut found = Counts::new();
    for _ in 0..count {
        let case = gen::case(rng, call, records);
        let mut book = case.book.clone();
        let mut answer = case.answer.clone();
        let status = call.run(&mut book, &case.input, &mut answer);
        *statuses.entry(status).or_default() += 1;
        for name in features::of_refusal(call, status, &case.book, &case.input) {
            *found.entry(name).or_default() += 1;
        }
        if status == 0 {
            for name in features::of(call, &case.book, &book, &case.input, &answer) {
                *found.entry(name).or_default() += 1;
            }
        }
    }
    (statuses, found)
}
