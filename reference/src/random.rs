//! Numbers that look random, for making inputs.

use std::ops::RangeInclusive;

/// The splitmix64 steps: small, and the same from the same seed, so that a difference comes back.
pub struct Random(pub u64);

impl Random {
    pub fn next(&mut self) -> u64 {
        self.0 = self.0.wrapping_add(0x9e37_79b9_7f4a_7c15);
        let z = (self.0 ^ (self.0 >> 30)).wrapping_mul(0xbf58_476d_1ce4_e5b9);
        let z = (z ^ (z >> 27)).wrapping_mul(0x94d0_49bb_1331_11eb);
        z ^ (z >> 31)
    }

    pub fn below(&mut self, end: usize) -> usize {
        (self.next() % end as u64) as usize
    }

    pub fn one_in(&mut self, n: usize) -> bool {
        self.below(n) == 0
    }

    pub fn within(&mut self, range: RangeInclusive<u16>) -> u16 {
        range.start() + self.below(range.len()) as u16
    }

    pub fn lines(&mut self, count: RangeInclusive<u16>, line: RangeInclusive<u16>) -> Vec<u16> {
        let count = self.within(count);
        (0..count).map(|_| self.within(line.clone())).collect()
    }

    pub fn shuffle(&mut self, lines: &mut [u16]) {
        for end in (1..lines.len()).rev() {
            lines.swap(end, self.below(end + 1));
        }
    }
}
