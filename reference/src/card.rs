//! The punch program: line numbers in, a listing out.

use std::io::{self, BufRead, Write};

use crate::signature::{Both, Coarse, List, Register, Register1024, Register128, Signature};

/// How many lines the summary asks about.
const SHOWN: u16 = 64;

/// Runs the program over `input` and returns its exit status.
pub fn punch(input: impl BufRead, mut out: impl Write, mut err: impl Write) -> io::Result<u8> {
    let mut card = Card::default();
    for (text, at) in input.split(b'\n').zip(1u64..) {
        let Some(line) = number(&text?) else {
            // The listing so far goes out before the complaint about what follows it.
            out.flush()?;
            writeln!(err, "input line {at} is no number below 65536")?;
            return Ok(1);
        };
        card.insert(line);
        list_insert(&mut out, line)?;
    }
    card.summarize(&mut out)?;
    out.flush()?;
    Ok(0)
}

/// Reads digits alone; the parser of the standard library would also take a plus sign.
fn number(text: &[u8]) -> Option<u16> {
    if text.is_empty() {
        return None;
    }
    text.iter().try_fold(0u16, |number, byte| match byte {
        b'0'..=b'9' => number.checked_mul(10)?.checked_add(u16::from(byte - b'0')),
        _ => None,
    })
}

/// The five signatures of the listing, and which of the shown lines were inserted.
struct Card {
    wide: Register1024,
    narrow: Register128,
    list: List,
    both: Both<Register128, List>,
    coarse: Coarse<List>,
    inserted: [bool; SHOWN as usize],
}

// Written out because arrays longer than 32 cannot derive it.
impl Default for Card {
    fn default() -> Self {
        Self {
            wide: Default::default(),
            narrow: Default::default(),
            list: Default::default(),
            both: Default::default(),
            coarse: Default::default(),
            inserted: [false; SHOWN as usize],
        }
    }
}

impl Card {
    fn insert(&mut self, line: u16) {
        self.wide.insert(line);
        self.narrow.insert(line);
        self.list.insert(line);
        self.both.insert(line);
        self.coarse.insert(line);
        if let Some(inserted) = self.inserted.get_mut(usize::from(line)) {
            *inserted = true;
        }
    }

    fn summarize(&self, out: &mut impl Write) -> io::Result<()> {
        self.register(out, &self.wide)?;
        self.register(out, &self.narrow)?;
        self.plain(out, "list", &self.list)?;
        self.plain(out, "both", &self.both)?;
        self.plain(out, "coarse", &self.coarse)
    }

    fn register<const WORDS: usize>(
        &self,
        out: &mut impl Write,
        register: &Register<WORDS>,
    ) -> io::Result<()> {
        let bits = Register::<WORDS>::BITS;
        self.hits(out, &format!("{bits}-bit register"), register)?;
        writeln!(out, ", {} of {bits} bits set", register.count())
    }

    fn plain(&self, out: &mut impl Write, name: &str, kind: &impl Signature) -> io::Result<()> {
        self.hits(out, name, kind)?;
        writeln!(out)
    }

    /// Writes the part of a summary line that every kind has.
    fn hits(&self, out: &mut impl Write, name: &str, kind: &impl Signature) -> io::Result<()> {
        let hits: Vec<_> = (0..SHOWN)
            .filter(|&line| kind.hit(line))
            .map(usize::from)
            .collect();
        let wrong = hits.iter().filter(|&&line| !self.inserted[line]).count();
        write!(out, "{name}: hits")?;
        if hits.is_empty() {
            write!(out, " none")?;
        }
        write_each(out, &hits)?;
        write!(out, ", {wrong} false")
    }
}

fn list_insert(out: &mut impl Write, line: u16) -> io::Result<()> {
    write!(out, "line {line}: 1024-bit register sets")?;
    write_bits(out, Register1024::bits(line))?;
    write!(out, ", 128-bit register sets")?;
    write_bits(out, Register128::bits(line))?;
    writeln!(out)
}

/// Writes each bit once, in ascending order.
fn write_bits(out: &mut impl Write, bits: [usize; 4]) -> io::Result<()> {
    let mut bits = bits.to_vec();
    bits.sort_unstable();
    bits.dedup();
    write_each(out, &bits)
}

/// Writes the numbers with a space before each.
fn write_each(out: &mut impl Write, numbers: &[usize]) -> io::Result<()> {
    numbers
        .iter()
        .try_for_each(|number| write!(out, " {number}"))
}

#[cfg(test)]
mod tests {
    use super::*;

    fn run(input: &[u8]) -> (String, String, u8) {
        let (mut out, mut err) = (Vec::new(), Vec::new());
        let status = punch(input, &mut out, &mut err).unwrap();
        (
            String::from_utf8(out).unwrap(),
            String::from_utf8(err).unwrap(),
            status,
        )
    }

    #[test]
    fn lines_1_and_3() {
        let listing = "\
line 1: 1024-bit register sets 0 1 32 512, 128-bit register sets 0 1 32
line 3: 1024-bit register sets 0 3 48 576, 128-bit register sets 0 3 48 64
1024-bit register: hits 0 1 3 32 48, 3 false, 7 of 1024 bits set
128-bit register: hits 0 1 3 32 48, 3 false, 6 of 128 bits set
list: hits 1 3, 0 false
both: hits 1 3, 0 false
coarse: hits 0 1 2 3, 2 false
";
        assert_eq!(run(b"1\n3\n"), (listing.into(), String::new(), 0));
        assert_eq!(run(b"1\n3"), run(b"1\n3\n"));
        assert_eq!(run(b"001\n0000000003"), run(b"1\n3\n"));
    }

    #[test]
    fn no_lines_at_all() {
        let listing = "\
1024-bit register: hits none, 0 false, 0 of 1024 bits set
128-bit register: hits none, 0 false, 0 of 128 bits set
list: hits none, 0 false
both: hits none, 0 false
coarse: hits none, 0 false
";
        assert_eq!(run(b""), (listing.into(), String::new(), 0));
    }

    #[test]
    fn a_line_that_is_no_number_ends_the_run() {
        let listing = "line 0: 1024-bit register sets 0, 128-bit register sets 0\n";
        let complaint = "input line 2 is no number below 65536\n";
        assert_eq!(run(b"0\n65536\n1\n"), (listing.into(), complaint.into(), 1));
        assert_eq!(run(b"0\n\n"), (listing.into(), complaint.into(), 1));
    }

    #[test]
    fn numbers() {
        assert_eq!(number(b"65535"), Some(65_535));
        assert_eq!(number(b"000000065535"), Some(65_535));
        for text in [
            "",
            "65536",
            "4294967296",
            "-1",
            "+1",
            "1\r",
            " 1",
            "1 ",
            "1\0",
            "x",
        ] {
            assert_eq!(number(text.as_bytes()), None, "{text:?}");
        }
    }
}
