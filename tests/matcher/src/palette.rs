//! Which codes the events of a case get, and which ones are strange to it.

use crate::codes::{CODES, HIGH, WORD};
use crate::file::MOST_CODE;
use crate::random::Random;

/// Codes on both sides of the words' edge, and the last up to the limit.
pub const EDGES: [u8; 5] = [HIGH - 1, HIGH, HIGH + 1, MOST_CODE - 1, MOST_CODE];

/// Codes past the limit, the first of them the nearest.
pub const BEYOND: [u8; 5] = [
    MOST_CODE + 1,
    MOST_CODE + 2,
    MOST_CODE + HIGH,
    MOST_CODE + HIGH + 1,
    u8::MAX,
];

/// Where codes are taken from.
#[derive(Clone, Copy, Debug)]
enum Spread {
    Lowest,
    /// From the lowest of the high word on.
    High,
    /// On both sides of the words' edge.
    Edge,
    Highest,
    /// In pairs: the same place in the low word and in the high one.
    Twins,
}

/// As often as not the lowest, so that files of low codes keep their share.
const SPREADS: [Spread; 8] = [
    Spread::Lowest,
    Spread::Lowest,
    Spread::Lowest,
    Spread::Lowest,
    Spread::High,
    Spread::Edge,
    Spread::Highest,
    Spread::Twins,
];

impl Spread {
    /// The code of a place among so many; no two places have the same.
    fn code(self, place: usize, count: usize) -> u8 {
        let code = match self {
            Spread::Lowest => place,
            Spread::High => WORD + place,
            Spread::Edge => WORD - count / 2 + place,
            Spread::Highest => CODES - count + place,
            Spread::Twins => place / 2 + place % 2 * WORD,
        };
        (code % CODES) as u8
    }
}

/// Some codes, as many as one of the counts, none twice.
pub fn codes(random: &mut Random, counts: &[usize]) -> Vec<u8> {
    let count = random.pick(counts);
    let spread = random.pick(&SPREADS);
    (0..count).map(|place| spread.code(place, count)).collect()
}

/// What a code might be taken for where its bits are cut short: the code of
/// its place in the other word, and the one past the limit.
pub fn mistaken(code: u8) -> [u8; 2] {
    [code ^ HIGH, code + MOST_CODE + 1]
}

#[cfg(test)]
mod tests {
    use super::{codes, mistaken, Spread, SPREADS};
    use crate::file::MOST_CODE;
    use crate::random::Random;
    use std::collections::BTreeSet;

    fn spread(spread: Spread, count: usize) -> Vec<u8> {
        (0..count).map(|place| spread.code(place, count)).collect()
    }

    #[test]
    fn spreads_meet_the_edges() {
        assert_eq!(spread(Spread::Lowest, 3), [0, 1, 2]);
        assert_eq!(spread(Spread::High, 3), [64, 65, 66]);
        assert_eq!(spread(Spread::Edge, 3), [63, 64, 65]);
        assert_eq!(spread(Spread::Edge, 1), [64]);
        assert_eq!(spread(Spread::Highest, 2), [126, 127]);
        assert_eq!(spread(Spread::Twins, 4), [0, 64, 1, 65]);
    }

    #[test]
    fn no_code_comes_twice_or_is_past_the_limit() {
        for way in SPREADS {
            for count in 1..=128 {
                let codes = spread(way, count);
                let distinct: BTreeSet<&u8> = codes.iter().collect();
                assert_eq!(distinct.len(), count, "{way:?} {count}");
                assert!(codes.iter().all(|&code| code <= MOST_CODE));
            }
        }
    }

    #[test]
    fn low_codes_and_high_ones_both_have_a_share() {
        let mut random = Random::new(1);
        let drawn: Vec<Vec<u8>> = (0..800).map(|_| codes(&mut random, &[2, 64])).collect();
        let low = |codes: &&Vec<u8>| codes.iter().all(|&code| code < 64);
        let high = |codes: &&Vec<u8>| codes.iter().all(|&code| code >= 64);
        let (low, high) = (
            drawn.iter().filter(low).count(),
            drawn.iter().filter(high).count(),
        );
        assert!(low > 300 && high > 100 && low + high < 750);
    }

    #[test]
    fn mistaken_codes_differ_by_their_highest_bits() {
        assert_eq!(mistaken(0), [64, 128]);
        assert_eq!(mistaken(69), [5, 197]);
        assert_eq!(mistaken(127), [63, 255]);
    }
}
