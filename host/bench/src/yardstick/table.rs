//! Keys, numbered in the order in which they are added, and found by open addressing.

use super::lengthen;

/// 2 to the 64 divided by the golden ratio, an odd number. The high bits of a key's product with it depend on all bits
/// of the key: keys that rise by a step, and keys that differ in their upper half only, are spread alike.
const SPREAD: u64 = 0x9E37_79B9_7F4A_7C15;

#[derive(Default)]
pub struct Table {
    /// One more than a key's number, or 0 where none is. A power of two of them are in use, a quarter at most not 0.
    slots: Vec<u16>,
    shift: u32,
    mask: usize,
    keys: Vec<u64>,
    count: usize,
}

impl Table {
    /// Forgets all keys and makes room for so many.
    pub fn empty(&mut self, most: usize) {
        let size = (4 * most).max(2).next_power_of_two();
        lengthen(&mut self.slots, size);
        lengthen(&mut self.keys, most);
        self.slots[..size].fill(0);
        self.shift = 64 - size.trailing_zeros();
        self.mask = size - 1;
        self.count = 0;
    }

    /// The slot where the search for a key begins.
    #[inline(always)]
    fn home(&self, key: u64) -> usize {
        (key.wrapping_mul(SPREAD) >> self.shift) as usize
    }

    /// A key's number.
    #[inline(always)]
    pub fn find(&self, key: u64) -> Option<usize> {
        let mut at = self.home(key);
        loop {
            let number = usize::from(self.slots[at]).checked_sub(1)?;
            if self.keys[number] == key {
                return Some(number);
            }
            at = (at + 1) & self.mask;
        }
    }

    /// Gives the key the next number; false if it has one already.
    #[inline(always)]
    pub fn add(&mut self, key: u64) -> bool {
        let mut at = self.home(key);
        while let Some(number) = usize::from(self.slots[at]).checked_sub(1) {
            if self.keys[number] == key {
                return false;
            }
            at = (at + 1) & self.mask;
        }
        self.keys[self.count] = key;
        self.count += 1;
        self.slots[at] = self.count as u16;
        true
    }
}
