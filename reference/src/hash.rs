//! The four hashes of a line.

/// Bit `i` of the fourth hash is bit `P[i]` of the line.
const P: [u16; 16] = [3, 8, 13, 2, 7, 12, 1, 6, 11, 0, 5, 10, 15, 4, 9, 14];

/// The hashes in the order of the rules.
pub fn hashes(line: u16) -> [u16; 4] {
    let reversed = line.reverse_bits();
    [line, reversed, reversed >> 10, spread(line)]
}

fn spread(line: u16) -> u16 {
    let mut hash = 0;
    for (i, from) in P.into_iter().enumerate() {
        hash |= ((line >> from) & 1) << i;
    }
    hash
}

#[cfg(test)]
mod tests {
    use super::*;

    #[test]
    fn line_1_has_one_bit_in_every_hash() {
        assert_eq!(hashes(1), [1, 0x8000, 32, 512]);
    }

    // Through a register no bit of a hash above bit 9 shows, so the whole hashes are checked here.
    #[test]
    fn line_16_384_fills_the_high_end() {
        assert_eq!(hashes(0x4000), [0x4000, 2, 0, 0x8000]);
    }

    #[test]
    fn p_goes_in_steps_of_5() {
        assert!((0..16).map(|i| (3 + 5 * i) % 16).eq(P));
    }

    #[test]
    fn spreading_loses_no_line() {
        let mut spreads: Vec<u16> = (0..=u16::MAX).map(spread).collect();
        spreads.sort_unstable();
        assert!(spreads.into_iter().eq(0..=u16::MAX));
    }
}
