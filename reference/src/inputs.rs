//! Inputs for punch: the same ones in every run, well-formed and damaged.

use crate::random::Random;

/// All lines in order, so that the bits of each one are listed.
pub fn all_lines() -> Vec<u8> {
    text(0..=u16::MAX)
}

/// `count` well-formed inputs, a third as many with a byte spoilt, and the inputs at the edges.
pub fn inputs(count: usize) -> impl Iterator<Item = Vec<u8>> {
    let mut good = Random(1);
    let mut bad = Random(2);
    let good = (0..count).map(move |i| well_formed(&mut good, i));
    let bad = (0..count / 3).map(move |i| spoilt(&mut bad, i));
    good.chain(bad).chain(edges())
}

fn text(lines: impl IntoIterator<Item = u16>) -> Vec<u8> {
    lines
        .into_iter()
        .flat_map(|line| format!("{line}\n").into_bytes())
        .collect()
}

/// A well-formed input; `i` chooses its manner, so that each manner comes equally often.
fn well_formed(random: &mut Random, i: usize) -> Vec<u8> {
    let lines = match i % 8 {
        // Few lines of any size.
        0 => random.lines(0..=8, 0..=65_535),
        // Many lines of any size.
        1 => random.lines(100..=3000, 0..=65_535),
        // Small numbers, where the summary looks.
        2 => random.lines(1..=12, 0..=70),
        // Large numbers.
        3 => random.lines(1..=40, 65_000..=65_535),
        // Multiples of 128, which the small register takes for one another.
        4 => {
            let mut lines = random.lines(1..=12, 0..=511);
            lines.iter_mut().for_each(|line| *line *= 128);
            lines
        }
        // A small stock of lines, each many times.
        5 => {
            let stock = random.lines(1..=20, 0..=99);
            (0..200).map(|_| stock[random.below(stock.len())]).collect()
        }
        // Neighbours, which bring the list to its end.
        6 => cluster(random, 1),
        // One line of each four, which bring the list under coarse to its end.
        _ => cluster(random, 4),
    };
    spelt(random, lines)
}

/// One line of each of 15 to 17 neighbouring groups of `step`, and some once more after the last.
fn cluster(random: &mut Random, step: u16) -> Vec<u16> {
    let count = random.within(15..=17);
    // The summary sees the cluster only at the start of memory.
    let end = if random.one_in(2) { 0 } else { 10_000 };
    let start = random.within(0..=end) * step;
    let mut lines: Vec<u16> = (0..count)
        .map(|k| start + k * step + random.within(0..=step - 1))
        .collect();
    random.shuffle(&mut lines);
    for _ in 0..random.below(11) {
        lines.push(lines[random.below(lines.len())]);
    }
    lines
}

/// Spells lines, now and then with leading zeros or without the last newline.
fn spelt(random: &mut Random, lines: Vec<u16>) -> Vec<u8> {
    let mut input = Vec::new();
    for line in lines {
        if random.one_in(16) {
            input.extend(vec![b'0'; 1 + random.below(9)]);
        }
        input.extend(format!("{line}\n").bytes());
    }
    if random.one_in(3) {
        input.pop();
    }
    input
}

/// A well-formed input with one byte changed, put in or taken out; a few stay well-formed.
fn spoilt(random: &mut Random, i: usize) -> Vec<u8> {
    let mut input = well_formed(random, i);
    let at = random.below(input.len() + 1);
    // Half of the bytes come from those that a hasty reader might take.
    let byte = if random.one_in(2) {
        b"\n\r\t\0 +-_.,/:x9"[random.below(14)]
    } else {
        random.next() as u8
    };
    match i % 3 {
        0 if at < input.len() => input[at] = byte,
        1 if at < input.len() => drop(input.remove(at)),
        _ => input.insert(at, byte),
    }
    input
}

/// Texts of one line at the edge of what is a number, on both sides of it.
#[rustfmt::skip] // Grouped by what is wrong with them.
const EDGE_LINES: &[&[u8]] = &[
    b"", b"0", b"7", b"00000", b"007", b"65535", b"000000065535",
    // Too large; several would be 7 for a reader that counts in 16, 32 or 64 bits.
    b"65536", b"000000065536", b"65543", b"65540", b"70000", b"99999", b"655350", b"131072",
    b"4294967295", b"4294967296", b"4294967303", b"18446744073709551616", b"18446744073709551623",
    b"340282366920938463463374607431768211463",
    // Letters, signs and the neighbours of the digits.
    b"x", b"ten", b"7x", b"x7", b"0x10", b"1e3", b"-", b"-1", b"-0", b"+", b"+7", b"1-",
    b"7.0", b"1,024", b"1_024", b"/", b":", b"1/", b"1:", b"'7'", b"#", b"\\n",
    // White space and carriage returns.
    b"\r", b"7\r", b"\r7", b"1\r3", b" ", b" 7", b"7 ", b"7 8", b"\t7", b"7\t", b"\x0b7", b"7\x0c",
    // NUL, bytes above 127, a byte order mark, a digit of another script, a digit with the high bit.
    b"\0", b"7\0", b"\x007", b"7\x008", b"\x1a", b"\x7f", b"\x80", b"\xff", b"7\xff", b"\xff7",
    b"\xc3\xa9", b"\xef\xbb\xbf7", b"\xd9\xa3", b"\xb7", b"\xe2\x80\xa87",
];

/// Whole inputs at the edge.
#[rustfmt::skip]
const EDGE_INPUTS: &[&[u8]] = &[
    b"", b"\n", b"\n\n", b"\n\n\n", b"\n1\n", b"1\n\n", b"1\n\n3\n", b"1\n3\n\n",
    b"1\r\n3\r\n", b"1\n3\r\n", b"1\r3\r", b"1\n\0", b"1\n\0\n", b"x\ny\n", b"1\nx\n3\ny\n", b"\xff\xfe1\0\n\0",
];

fn edges() -> impl Iterator<Item = Vec<u8>> {
    let lines = EDGE_LINES
        .iter()
        .map(|line| line.to_vec())
        .chain(long_lines());
    let placed = lines.flat_map(|line| {
        [
            ("", ""),
            ("", "\n"),
            ("1\n3\n", ""),
            ("1\n3\n", "\n"),
            ("1\n", "\n3\n"),
        ]
        .map(|(before, after)| [before.as_bytes(), &line, after.as_bytes()].concat())
    });
    let whole = EDGE_INPUTS.iter().map(|input| input.to_vec());
    placed.chain(whole).chain(long_inputs())
}

fn long_lines() -> [Vec<u8>; 5] {
    [
        [vec![b'0'; 1000], b"7".to_vec()].concat(),
        [vec![b'0'; 100_000], b"65535".to_vec()].concat(),
        [vec![b'0'; 100_000], b"65536".to_vec()].concat(),
        [b"1".to_vec(), vec![b'0'; 1000]].concat(),
        vec![b'9'; 100_000],
    ]
}

/// A count of input lines above 16 bits, and much input after the line that ends the run.
fn long_inputs() -> [Vec<u8>; 3] {
    [
        [text(vec![7; 70_000]), b"x\n".to_vec()].concat(),
        [b"1\nx\n".to_vec(), all_lines()].concat(),
        [all_lines(), b"\n".to_vec()].concat(),
    ]
}

#[cfg(test)]
mod tests {
    use super::*;
    use crate::punch;
    use std::collections::BTreeSet;
    use std::io::sink;

    fn status(input: &[u8]) -> u8 {
        punch(input, sink(), sink()).unwrap()
    }

    #[test]
    fn well_formed_inputs_are_taken_to_the_end() {
        assert!(inputs(300).take(300).all(|input| status(&input) == 0));
    }

    #[test]
    fn most_others_are_damaged() {
        let (others, damaged) = inputs(300).skip(300).fold((0, 0), |(all, bad), input| {
            (all + 1, bad + usize::from(status(&input)))
        });
        assert!(damaged * 4 > others * 3, "{damaged} of {others}");
    }

    #[test]
    fn every_run_makes_the_same_inputs() {
        assert!(inputs(50).eq(inputs(50)));
    }

    #[test]
    fn clusters_stop_around_the_room_of_a_list() {
        let mut random = Random(3);
        for step in [1, 4] {
            let groups = |lines: Vec<u16>| {
                let groups: BTreeSet<u16> = lines.into_iter().map(|line| line / step).collect();
                groups.len()
            };
            let sizes: BTreeSet<usize> = (0..50)
                .map(|_| groups(cluster(&mut random, step)))
                .collect();
            assert_eq!(sizes, BTreeSet::from([15, 16, 17]));
        }
    }
}
