//! What the programs of the benchmark share.

pub mod yardstick;

/// The sizes of the books that are measured, each 8 times the one before.
pub const SIZES: [usize; 3] = [64, 512, 4_096];

/// What 8 times the records take, of times at the three sizes.
pub fn growth([small, middle, large]: [f64; 3]) -> String {
    let (first, second) = (middle / small, large / middle);
    format!("512 records take {first:.1} times as long as 64, 4,096 take {second:.1} times as long as 512")
}

/// What many rounds of the same work took, in microseconds: nine of ten took longer than `low`, half of them longer
/// than `median`, one of ten longer than `high`. As the work is the same, what lies between is the machine's noise.
#[derive(Clone, Copy)]
pub struct Spread {
    pub low: f64,
    pub median: f64,
    pub high: f64,
}

impl Spread {
    /// Of times in seconds, one at least.
    pub fn of(mut times: Vec<f64>) -> Spread {
        times.sort_by(f64::total_cmp);
        let last = times.len() - 1;
        let at = |tenths: usize| times[(last * tenths + 5) / 10] * 1e6;
        Spread {
            low: at(1),
            median: at(5),
            high: at(9),
        }
    }

    /// `median (low to high)`, with as many digits as the figures bear.
    pub fn text(&self) -> String {
        let digits = match self.median {
            small if small < 10.0 => 3,
            small if small < 100.0 => 2,
            _ => 1,
        };
        format!(
            "{:.digits$} ({:.digits$} to {:.digits$})",
            self.median, self.low, self.high
        )
    }
}

/// The first argument as a count of what is told, or this many; another argument ends the program.
pub fn count_asked(of: &str, else_this: usize) -> usize {
    let words: Vec<String> = std::env::args().collect();
    match words.get(1).map(|word| word.parse()) {
        None => else_this,
        Some(Ok(count)) if count > 0 && words.len() == 2 => count,
        Some(_) => {
            eprintln!("usage: {} [{of}]", words[0]);
            std::process::exit(2);
        }
    }
}
