//! What a signature does, and the four kinds.

use crate::hash::hashes;

/// A set of lines that may grow by more than it is told, and never forgets before a reset.
pub trait Signature {
    /// Leaves the empty set.
    fn reset(&mut self);
    /// Adds `line`, and perhaps others.
    fn insert(&mut self, line: u16);
    /// Whether `line` is in the set.
    fn hit(&self, line: u16) -> bool;
}

/// A register of `WORDS` × 64 bits; the words are counted because an array cannot be `BITS / 64` long.
#[derive(Clone, Debug, PartialEq, Eq)]
pub struct Register<const WORDS: usize> {
    words: [u64; WORDS],
}

pub type Register1024 = Register<16>;
pub type Register128 = Register<2>;

impl<const WORDS: usize> Register<WORDS> {
    pub const BITS: usize = WORDS * 64;

    /// The bits of `line`, in the order of the hashes; some may be the same.
    pub fn bits(line: u16) -> [usize; 4] {
        hashes(line).map(|hash| usize::from(hash) % Self::BITS)
    }

    /// How many bits are set.
    pub fn count(&self) -> u32 {
        self.words.iter().map(|word| word.count_ones()).sum()
    }
}

// Written out because arrays of any length cannot derive it.
impl<const WORDS: usize> Default for Register<WORDS> {
    fn default() -> Self {
        Self { words: [0; WORDS] }
    }
}

impl<const WORDS: usize> Signature for Register<WORDS> {
    fn reset(&mut self) {
        self.words.fill(0);
    }

    fn insert(&mut self, line: u16) {
        for bit in Self::bits(line) {
            self.words[bit / 64] |= 1 << (bit % 64);
        }
    }

    fn hit(&self, line: u16) -> bool {
        Self::bits(line)
            .into_iter()
            .all(|bit| (self.words[bit / 64] >> (bit % 64)) & 1 == 1)
    }
}

/// Up to 16 different lines, and every line when one more comes.
#[derive(Clone, Debug, Default, PartialEq, Eq)]
pub struct List {
    lines: Vec<u16>,
    every: bool,
}

impl List {
    const ROOM: usize = 16;
}

impl Signature for List {
    fn reset(&mut self) {
        self.lines.clear();
        self.every = false;
    }

    fn insert(&mut self, line: u16) {
        // A line that hits is held already, or all lines hit: no room is needed.
        if self.hit(line) {
            return;
        }
        if self.lines.len() < Self::ROOM {
            self.lines.push(line);
        } else {
            self.every = true;
        }
    }

    fn hit(&self, line: u16) -> bool {
        self.every || self.lines.contains(&line)
    }
}

/// Two signatures that must agree on a hit.
#[derive(Clone, Debug, Default, PartialEq, Eq)]
pub struct Both<A, B>(A, B);

impl<A: Signature, B: Signature> Signature for Both<A, B> {
    fn reset(&mut self) {
        self.0.reset();
        self.1.reset();
    }

    fn insert(&mut self, line: u16) {
        self.0.insert(line);
        self.1.insert(line);
    }

    fn hit(&self, line: u16) -> bool {
        self.0.hit(line) && self.1.hit(line)
    }
}

/// A signature that sees four neighbouring lines as one.
#[derive(Clone, Debug, Default, PartialEq, Eq)]
pub struct Coarse<S>(S);

impl<S: Signature> Signature for Coarse<S> {
    fn reset(&mut self) {
        self.0.reset();
    }

    fn insert(&mut self, line: u16) {
        self.0.insert(line / 4);
    }

    fn hit(&self, line: u16) -> bool {
        self.0.hit(line / 4)
    }
}

#[cfg(test)]
mod tests {
    use super::*;

    fn with<S: Signature + Default>(lines: impl IntoIterator<Item = u16>) -> S {
        let mut signature = S::default();
        for line in lines {
            signature.insert(line);
        }
        signature
    }

    fn hits(signature: &impl Signature) -> Vec<u16> {
        (0..=u16::MAX).filter(|&line| signature.hit(line)).collect()
    }

    fn bits_set<const WORDS: usize>(register: &Register<WORDS>) -> Vec<usize> {
        (0..Register::<WORDS>::BITS)
            .filter(|bit| (register.words[bit / 64] >> (bit % 64)) & 1 == 1)
            .collect()
    }

    #[test]
    fn line_1_in_the_registers() {
        assert_eq!(bits_set(&with::<Register1024>([1])), [0, 1, 32, 512]);
        assert_eq!(bits_set(&with::<Register128>([1])), [0, 1, 32]);
    }

    #[test]
    fn line_3_in_the_registers() {
        assert_eq!(bits_set(&with::<Register1024>([3])), [0, 3, 48, 576]);
        assert_eq!(bits_set(&with::<Register128>([3])), [0, 3, 48, 64]);
    }

    #[test]
    fn line_128_makes_a_false_hit_on_line_0() {
        let mut register: Register128 = with([128]);
        assert_eq!(bits_set(&register), [0, 16]);
        assert_eq!(register.count(), 2);
        assert!(register.hit(128) && register.hit(0) && !register.hit(1));
        register.reset();
        assert_eq!(hits(&register), []);
    }

    #[test]
    fn both_needs_two_hits() {
        let both: Both<Register128, List> = with([128]);
        assert_eq!(hits(&both), [128]);
    }

    #[test]
    fn list_holds_16_lines_and_the_17th_makes_all_hit() {
        let lines: Vec<u16> = (0..16).map(|i| i * 4000 + 7).collect();
        let mut list: List = with(lines.clone());
        list.insert(lines[3]);
        assert_eq!(hits(&list), lines);
        list.insert(8);
        assert_eq!(hits(&list).len(), 65_536);
        list.reset();
        assert_eq!(hits(&list), []);
    }

    #[test]
    fn coarse_hits_four_neighbours() {
        let coarse: Coarse<List> = with([5]);
        assert_eq!(hits(&coarse), [4, 5, 6, 7]);
    }

    #[test]
    fn a_pile_of_every_kind_is_a_signature() {
        let mut pile: Both<Coarse<Both<Register1024, List>>, Coarse<Coarse<Register128>>> =
            with(5..25);
        assert!((5..25).all(|line| pile.hit(line)));
        pile.reset();
        assert_eq!(hits(&pile), []);
    }
}
