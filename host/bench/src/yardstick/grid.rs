//! A record as eight words of the grid.

use second::record::{FLAG_CASH, MAX_MONEY, MAX_NUMBER, MAX_TIME, MAX_TRADE_NUMBER, RECORD};

pub type Record = [u8; RECORD];

/// A row that is read where it lies.
#[derive(Clone, Copy)]
pub struct Row<'a>(&'a Record);

impl<'a> Row<'a> {
    #[inline(always)]
    pub fn of(record: &'a Record) -> Row<'a> {
        Row(record)
    }

    #[inline(always)]
    fn word(self, at: usize) -> u64 {
        u64::from_le_bytes(self.0[at..at + 8].try_into().unwrap())
    }

    /// Kind, type, status and flags, then the party in the upper half.
    #[inline(always)]
    pub fn head(self) -> u64 {
        self.word(0)
    }

    #[inline(always)]
    pub fn typ(self) -> u8 {
        self.0[1]
    }

    #[inline(always)]
    pub fn status(self) -> u8 {
        self.0[2]
    }

    #[inline(always)]
    pub fn flags(self) -> u8 {
        self.0[3]
    }

    #[inline(always)]
    pub fn is_cash(self) -> bool {
        self.flags() & FLAG_CASH != 0
    }

    #[inline(always)]
    pub fn party(self) -> u64 {
        self.head() >> 32
    }

    #[inline(always)]
    pub fn id(self) -> u64 {
        self.word(8)
    }

    #[inline(always)]
    pub fn symbol(self) -> u64 {
        self.word(16)
    }

    /// n1, and n2 in the upper half: n1 alone where n2 is zero.
    #[inline(always)]
    pub fn n1_n2(self) -> u64 {
        self.word(24)
    }

    #[inline(always)]
    pub fn n1(self) -> u32 {
        self.n1_n2() as u32
    }

    #[inline(always)]
    pub fn n2(self) -> u32 {
        (self.n1_n2() >> 32) as u32
    }

    #[inline(always)]
    pub fn n3_n4(self) -> u64 {
        self.word(32)
    }

    #[inline(always)]
    pub fn n3(self) -> u32 {
        self.n3_n4() as u32
    }

    #[inline(always)]
    pub fn n4(self) -> u32 {
        (self.n3_n4() >> 32) as u32
    }

    #[inline(always)]
    pub fn m1(self) -> u64 {
        self.word(40)
    }

    #[inline(always)]
    pub fn m2(self) -> u64 {
        self.word(48)
    }

    /// The time, and n5 in the upper half, which no row uses: no more than a time exactly if n5 is zero.
    #[inline(always)]
    pub fn time_n5(self) -> u64 {
        self.word(56)
    }
}

/// Whether a number is one of these. With signed bounds it works as well, as the circle of numbers is the same.
#[inline(always)]
pub fn within(value: u64, low: u64, high: u64) -> bool {
    value.wrapping_sub(low) <= high.wrapping_sub(low)
}

#[inline(always)]
pub fn is_party(value: u64) -> bool {
    within(value, 1, MAX_NUMBER.into())
}

#[inline(always)]
pub fn is_trade_number(value: u64) -> bool {
    within(value, 1, MAX_TRADE_NUMBER)
}

#[inline(always)]
pub fn is_signed_money(value: u64) -> bool {
    within(value, -MAX_MONEY as u64, MAX_MONEY as u64)
}

#[inline(always)]
pub fn is_time(value: u64) -> bool {
    value <= MAX_TIME.into()
}

/// "A symbol is 1 to 7 of A-Z, 0-9, "." and "-", then zeros to byte 23." Its first letter is the lowest byte.
#[inline(always)]
pub fn is_symbol(value: u64) -> bool {
    let letters = (71 - value.leading_zeros()) / 8;
    let good = |byte: u8| matches!(byte, b'A'..=b'Z' | b'0'..=b'9' | b'.' | b'-');
    let bytes = value.to_le_bytes();
    (1..=7).contains(&letters) && bytes[..letters as usize].iter().all(|byte| good(*byte))
}

/// Writes the eight words of a row.
pub fn put(record: &mut Record, words: [u64; 8]) {
    for (part, word) in record.as_chunks_mut::<8>().0.iter_mut().zip(words) {
        *part = word.to_le_bytes();
    }
}
