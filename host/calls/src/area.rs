//! Byte areas to call with: at any alignment, with guard bytes around them.

use second::record::RECORD;
use second::rng::Rng;

const MOST_GUARD: usize = 64;

pub struct Area {
    block: Vec<u8>,
    before: Vec<u8>,
    after: Vec<u8>,
}

impl Area {
    /// An area that holds these bytes.
    pub fn new(rng: &mut Rng, bytes: &[u8]) -> Area {
        let mut guard = || {
            let length = 1 + rng.index(MOST_GUARD);
            rng.bytes(length)
        };
        let (before, after) = (guard(), guard());
        Area {
            block: [&before, bytes, &after].concat(),
            before,
            after,
        }
    }

    fn end(&self) -> usize {
        self.block.len() - self.after.len()
    }

    pub fn bytes(&mut self) -> &mut [u8] {
        let end = self.end();
        &mut self.block[self.before.len()..end]
    }

    /// What is wrong around it, whatever it shall hold.
    pub fn fault_around(&self, name: &str) -> Option<String> {
        let good = self.block.starts_with(&self.before) && self.block.ends_with(&self.after);
        (!good).then(|| format!("a byte before or after the {name} was written"))
    }

    /// What is wrong with it, if it shall hold these bytes.
    pub fn fault(&self, name: &str, expected: &[u8]) -> Option<String> {
        if let Some(fault) = self.fault_around(name) {
            return Some(fault);
        }
        let found = &self.block[self.before.len()..self.end()];
        if found == expected {
            return None;
        }
        let wrong: Vec<usize> = (0..found.len())
            .filter(|at| found[*at] != expected[*at])
            .collect();
        let at = *wrong.first()?;
        Some(format!(
            "{name}: {} wrong bytes, the first in record {}, byte {}: {}, expected {}",
            wrong.len(),
            at / RECORD,
            at % RECORD,
            found[at],
            expected[at]
        ))
    }
}
