//! Files at every limit of 01, from both sides.

use crate::codes::{CODES, HIGH};
use crate::file::{self, MOST_CODE, MOST_TEXT, TRAILER};
use crate::tree::{Bounds, Symbol, ENDLESS};

/// How many files `file` tells apart. It has no common divisor with the numbers
/// of calls, runs and records that take turns with them.
pub const FILES: usize = 53;

/// One of the files; each comment tells what is on either side.
pub fn file(which: usize) -> Vec<u8> {
    let one = [Symbol::Event(0)];
    match which {
        // 20 bytes and 19; 8,204 bytes and 8,205.
        0 => file::write(&[], &one),
        1 => file::write(&[], &one)[1..].to_vec(),
        2 => file::write(&[9; MOST_TEXT], &chain(512)),
        3 => file::write(&[9; MOST_TEXT + 1], &chain(512)),
        // Text of 4,096 bytes and of 4,097.
        4 => file::write(&[9; MOST_TEXT], &one),
        5 => file::write(&[9; MOST_TEXT + 1], &one),
        // 511, 512 and 513 nodes; none.
        6 => file::write(&[], &chain(511)),
        7 => file::write(&[], &chain(512)),
        8 => file::write(&[], &chain(513)),
        9 => with_number(4, 0, Some(12)),
        // More nodes than the file has room for, and just as many.
        10 => with_number(4, 2, Some(28)),
        11 => file::write(&[0; 8], &one),
        12 => with_number(4, 512, Some(4_108)),
        // The distance, one less and one more.
        13 => with_number(8, 19, None),
        14 => with_number(8, 21, None),
        // The edition, and the letters.
        15 => with_number(6, 0, None),
        16 => with_number(6, 2, None),
        17 => with_number(6, 257, None),
        18..=21 => with_letter(which - 18),
        // Codes; kinds 4 and 5.
        22..=29 => file::write(&[], &[Symbol::Event(EVENTS[which - 22])]),
        30 => with_kind(5),
        // Repeats: 32 and 33, in a row.
        31 => file::write(&[], &repeats(32)),
        32 => file::write(&[], &repeats(33)),
        _ => bounds_file(which - 33),
    }
}

/// Codes around the edge of the words, and around the limit.
const EVENTS: [u8; 8] = [
    HIGH - 1,
    HIGH,
    HIGH + 1,
    MOST_CODE - 1,
    MOST_CODE,
    MOST_CODE + 1,
    MOST_CODE + 1 + HIGH,
    u8::MAX,
];

/// A sequence of so many nodes, its last a repeat where the number is even.
fn chain(nodes: usize) -> Vec<Symbol> {
    let mut symbols = vec![Symbol::Event(0)];
    for place in 1..nodes.div_ceil(2) {
        symbols.extend([Symbol::Event((place % CODES) as u8), Symbol::Sequence]);
    }
    if nodes % 2 == 0 {
        symbols.push(ENDLESS);
    }
    symbols
}

fn repeats(count: usize) -> Vec<Symbol> {
    let mut symbols = Vec::new();
    for place in 0..count {
        symbols.extend([
            Symbol::Event(place as u8),
            Symbol::Repeat(Bounds {
                lower: 1,
                upper: Some(2),
            }),
        ]);
        if place > 0 {
            symbols.push(Symbol::Sequence);
        }
    }
    symbols
}

/// A file of one event with another number in its trailer, and another
/// distance where one is given.
fn with_number(at: usize, number: u16, distance: Option<u16>) -> Vec<u8> {
    let mut bytes = file::write(&[], &[Symbol::Event(0)]);
    let trailer = bytes.len() - TRAILER;
    bytes[trailer + at..trailer + at + 2].copy_from_slice(&number.to_le_bytes());
    if let Some(distance) = distance {
        bytes[trailer + 8..trailer + 10].copy_from_slice(&distance.to_le_bytes());
    }
    bytes
}

fn with_letter(which: usize) -> Vec<u8> {
    let mut bytes = file::write(&[], &[Symbol::Event(0)]);
    let place = bytes.len() - TRAILER + which;
    bytes[place] = bytes[place].to_ascii_lowercase();
    bytes
}

fn with_kind(kind: u8) -> Vec<u8> {
    let mut bytes = file::write(&[], &[Symbol::Event(0)]);
    bytes[0] = kind;
    bytes
}

/// Lower and upper as they stand in the file, in pairs around each limit.
const BOUNDS: [(u32, u32); FILES - 33] = [
    (0, 0),
    (0, 1),
    (1, 1),
    (1, 0),
    (2, 1),
    (1, 2),
    (2, 2),
    (0, 4_096),
    (0, 4_097),
    (4_096, 4_096),
    (4_097, 4_097),
    (4_096, 4_095),
    (4_095, 4_096),
    (0, 65_534),
    (0, 65_535),
    (4_096, 65_535),
    (4_097, 65_535),
    (65_535, 65_535),
    (1, 65_535),
    (32_768, 32_768),
];

fn bounds_file(which: usize) -> Vec<u8> {
    let (lower, upper) = BOUNDS[which];
    file::write(
        &[],
        &[
            Symbol::Event(0),
            Symbol::Repeat(Bounds {
                lower,
                upper: Some(upper),
            }),
        ],
    )
}

#[cfg(test)]
mod tests {
    use super::{file, FILES};
    use crate::calls::{judge, Outcome};

    /// The answer of each file, in order, worked out by hand.
    const ANSWERS: [u32; FILES] = [
        0, 1, 0, 1, 0, 3, 0, 0, 3, 3, 3, 0, 3, 3, 3, 2, 2, 2, 2, 2, 2, 2, //
        0, 0, 0, 0, 0, 4, 4, 4, 4, 0, 6, //
        4, 0, 0, 4, 4, 0, 0, 0, 4, 0, 4, 4, 0, 4, 0, 0, 4, 4, 0, 4,
    ];

    #[test]
    fn each_limit_from_both_sides() {
        for (which, answer) in ANSWERS.into_iter().enumerate() {
            assert_eq!(judge(&file(which)).answer(), answer, "file {which}");
        }
    }

    #[test]
    fn the_33rd_repeat_is_told() {
        let refused = Outcome::Judge {
            answer: 6,
            node: 96,
            kind: 0,
            code: 0,
            shared: 0,
        };
        assert_eq!(judge(&file(32)), refused);
    }
}
