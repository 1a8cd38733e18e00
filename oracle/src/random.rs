//! Values to try: the limits, and random ones that depend on the seed alone.

use std::ops::RangeInclusive;

/// A signed number of the cases.
pub trait Number: Copy + Ord + TryFrom<i128> {
    const BITS: u32;
}

impl Number for i16 {
    const BITS: u32 = i16::BITS;
}

impl Number for i32 {
    const BITS: u32 = i32::BITS;
}

impl Number for i64 {
    const BITS: u32 = i64::BITS;
}

/// Every value of the type within 2 of a power of two or of its negative, in ascending order:
/// among them 0, 1, -1, the least, the greatest and their neighbours.
pub fn limits<T: Number>() -> Vec<T> {
    let mut values = Vec::new();
    for power in 0..T::BITS {
        for step in -2..=2 {
            let value = (1i128 << power) + step;
            values.extend(T::try_from(value));
            values.extend(T::try_from(-value));
        }
    }
    values.sort_unstable();
    values.dedup();
    values
}

/// A splitmix64 generator.
pub struct Random {
    state: u64,
}

impl Random {
    /// A generator for one kind of cases.
    pub fn new(seed: u64, kind: u8) -> Self {
        let mut seeded = Self { state: seed };
        let state = seeded.word() ^ u64::from(kind);
        Self { state }
    }

    /// Any number.
    pub fn word(&mut self) -> u64 {
        self.state = self.state.wrapping_add(0x9E37_79B9_7F4A_7C15);
        let mut z = self.state;
        z = (z ^ (z >> 30)).wrapping_mul(0xBF58_476D_1CE4_E5B9);
        z = (z ^ (z >> 27)).wrapping_mul(0x94D0_49BB_1331_11EB);
        z ^ (z >> 31)
    }

    /// A number from 0 to `bound - 1`.
    pub fn below(&mut self, bound: u8) -> u8 {
        (self.word() % u64::from(bound)) as u8
    }

    /// Whether one of `times` chances came.
    pub fn one_in(&mut self, times: u8) -> bool {
        self.below(times) == 0
    }

    /// A number from `range`.
    pub fn within(&mut self, range: RangeInclusive<usize>) -> usize {
        let (least, most) = range.into_inner();
        least + (self.word() % (most - least + 1) as u64) as usize
    }

    /// One of some values.
    pub fn pick<T: Copy>(&mut self, values: &[T]) -> T {
        values[self.within(0..=values.len() - 1)]
    }

    /// Bytes of any values.
    pub fn bytes(&mut self, count: usize) -> Vec<u8> {
        (0..count).map(|_| self.word() as u8).collect()
    }

    /// A value of one of three sorts: any of the type, any of a random number of bits, or one near
    /// a limit.
    pub fn value<T: Number>(&mut self) -> T {
        let value = match self.below(3) {
            0 => self.signed(T::BITS),
            1 => {
                let bits = 1 + u32::from(self.below(T::BITS as u8));
                self.signed(bits)
            }
            _ => self.near_limit(T::BITS),
        };
        number(value)
    }

    /// A value of `bits` bits.
    fn signed(&mut self, bits: u32) -> i128 {
        i128::from(self.word().cast_signed() >> (64 - bits))
    }

    /// A value of `bits` bits near a power of two or its negative.
    fn near_limit(&mut self, bits: u32) -> i128 {
        let power = 1i128 << self.below(bits as u8);
        let value = power + i128::from(self.below(33)) - 16;
        let value = if self.below(2) == 0 { value } else { -value };
        let limit = 1i128 << (bits - 1);
        value.clamp(-limit, limit - 1)
    }
}

fn number<T: Number>(value: i128) -> T {
    T::try_from(value).unwrap_or_else(|_| unreachable!("the value is of the type's range"))
}
