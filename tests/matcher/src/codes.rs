//! Codes of events, and sets of them.

use crate::file::MOST_CODE;
use std::ops::RangeInclusive;

/// A set of codes: bit c stands for code c.
pub type Codes = u128;

/// How many codes there are.
pub const CODES: usize = MOST_CODE as usize + 1;

/// A set is told by two words; so many codes are in the low one.
pub const WORD: usize = u64::BITS as usize;

/// The lowest code of the high word.
pub const HIGH: u8 = WORD as u8;

/// The codes of the low word.
pub const LOW_WORD: Codes = u64::MAX as Codes;

// A set has a bit for each code, and two words hold it.
const _: () = assert!(CODES <= Codes::BITS as usize && CODES <= 2 * WORD);

/// Every code that a file may have, rising.
pub fn all() -> RangeInclusive<u8> {
    0..=MOST_CODE
}

/// The set of one code.
pub fn one(code: u8) -> Codes {
    assert!(code <= MOST_CODE, "{code} is no code");
    1 << code
}

/// Whether the code, which may be any byte, is in the set.
pub fn has(codes: Codes, code: u8) -> bool {
    code <= MOST_CODE && codes & one(code) != 0
}

/// The codes of the set, rising.
pub fn of(codes: Codes) -> impl Iterator<Item = u8> {
    all().filter(move |&code| has(codes, code))
}

/// The lowest code of the set.
pub fn lowest(codes: Codes) -> Option<u8> {
    of(codes).next()
}

/// How many codes the set has.
pub fn count(codes: Codes) -> usize {
    of(codes).count()
}

#[cfg(test)]
mod tests {
    use super::{all, count, has, lowest, of, one, LOW_WORD};

    #[test]
    fn every_code_has_a_bit_of_its_own() {
        let both_ends = one(0) | one(63) | one(64) | one(127);
        assert_eq!(of(both_ends).collect::<Vec<_>>(), [0, 63, 64, 127]);
        for code in 0..=255 {
            assert_eq!(has(both_ends, code), [0, 63, 64, 127].contains(&code));
        }
        assert_eq!(all().map(one).fold(0, |codes, code| codes | code), !0);
    }

    /// Not the lowest bit within a word: 70 is bit 6 of the high one.
    #[test]
    fn the_low_word_has_the_lower_codes() {
        assert_eq!(lowest(one(40) | one(70)), Some(40));
        assert_eq!(lowest(one(63) | one(64)), Some(63));
        assert_eq!(lowest(one(64) | one(127)), Some(64));
        assert_eq!(lowest(one(127)), Some(127));
        assert_eq!(lowest(0), None);
    }

    #[test]
    fn codes_of_both_words_are_counted() {
        assert_eq!(count(0), 0);
        assert_eq!(count(one(127)), 1);
        assert_eq!(count(one(63) | one(64)), 2);
        assert_eq!(
            (count(LOW_WORD), count(!LOW_WORD), count(!0)),
            (64, 64, 128)
        );
    }

    #[test]
    fn the_words_part_at_64() {
        assert_eq!(one(63) & LOW_WORD, one(63));
        assert_eq!(one(64) & LOW_WORD, 0);
    }
}
