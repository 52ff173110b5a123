//! Procedures whose conflict shares many codes: choices of events beside each
//! other, in one word and in both.

use crate::codes;
use crate::palette;
use crate::parse;
use crate::random::Random;
use crate::tree::{choice_of, Symbol, Tree, ENDLESS, OPTIONAL};

const PROCEDURES: [&str; 16] = [
    // On both sides of the words' edge; on one of them; just at it.
    "#32-71+#55-94",
    "#0-40+#30-63",
    "#10-99{0,1}#64-127",
    "#63-64{1,2}#63-64",
    // Every code, by each kind; the first three are as large as they can be.
    "#0-127+#0-127",
    "#0-127{0,1}#0-127",
    "#0-127{1,2}#0-127",
    "(#0-127{1,2}){3,4}",
    // Kinds 2 and 3 at one node share different codes.
    "(#60-66 #0-10{0,1}){0,1}#0-127",
    "(#60-66 #1-90{0,1}){0,1}#50-100",
    // Kind 3, where the firsts share nothing, and where the left must come.
    "(#5 #40-80{0,1}){0,1}#60-90",
    "(#100-110 #40-80{0,1})#60-105",
    "(#62-70 #60-66{0,1}){2,}",
    // Other codes are shared above, and beside.
    "(#60-64+#64-70)+#0-127",
    "(#10-20{1,2}#18-30){1,2}#0-100",
    "(#0-9+#8-12)(#60-70+#66-80)",
];

/// In turn one of the list, and one of random codes for a kind of conflict.
pub fn tree(random: &mut Random, turn: usize) -> Tree {
    let place = turn / 2;
    if turn % 2 == 0 {
        return parse::tree(PROCEDURES[place % PROCEDURES.len()]);
    }
    Tree::from_postfix(joined(random, place % 4 + 1)).expect("parts were joined")
}

/// Some of the codes, at least one: one of the shares in a hundred.
fn some(random: &mut Random, codes: &[u8], shares: &[usize]) -> Vec<u8> {
    let share = random.pick(shares);
    let sure = random.pick(codes);
    let mut some = codes.to_vec();
    some.retain(|&code| random.percent(share) || code == sure);
    some
}

/// Choices of the same few or many codes, so joined that a conflict of the
/// kind is likely; half the time one of a choice stands above it.
fn joined(random: &mut Random, kind: usize) -> Vec<Symbol> {
    let codes = if random.percent(50) {
        palette::codes(random, &[2, 5, 17, 40, 60])
    } else {
        some(random, &Vec::from_iter(codes::all()), &[5, 15, 35])
    };
    let [first, after, right, above] =
        [(); 4].map(|()| choice_of(some(random, &codes, &[30, 60, 90])));
    let mut symbols = [first, after, vec![OPTIONAL, Symbol::Sequence]].concat();
    let (around, join) = match kind {
        1 => (None, Symbol::Choice),
        2 => (Some(OPTIONAL), Symbol::Sequence),
        3 => (None, Symbol::Sequence),
        _ => (Some(ENDLESS), Symbol::Sequence),
    };
    symbols.extend(around);
    symbols.extend(right);
    symbols.push(join);
    if random.percent(50) {
        symbols.extend(above);
        symbols.push(Symbol::Choice);
    }
    symbols
}

#[cfg(test)]
mod tests {
    use super::{tree, PROCEDURES};
    use crate::calls::Procedure;
    use crate::codes::{self, LOW_WORD};
    use crate::conflict::{self, Conflict};
    use crate::file::MOST_NODES;
    use crate::random::Random;
    use crate::tree::Tree;
    use crate::words::Words;
    use std::ops::RangeInclusive;

    /// Node, kind and shared codes of each procedure, worked out by hand.
    const CONFLICTS: [(usize, u32, RangeInclusive<u8>); PROCEDURES.len()] = [
        (158, 1, 55..=71),
        (148, 1, 30..=40),
        (307, 2, 64..=99),
        (7, 3, 63..=64),
        (510, 1, 0..=127),
        (511, 2, 0..=127),
        (511, 3, 0..=127),
        (256, 4, 0..=127),
        (292, 2, 60..=66),
        (296, 2, 60..=66),
        (146, 3, 60..=80),
        (195, 3, 60..=80),
        (32, 4, 62..=66),
        (22, 1, 64..=64),
        (47, 3, 18..=20),
        (28, 1, 8..=9),
    ];

    /// By the automaton, and the same by words.
    fn named(tree: Tree) -> Option<Conflict> {
        let procedure = Procedure::new(tree);
        let by_words = conflict::lowest(&procedure.tree, &Words::new(&procedure.tree));
        assert_eq!(procedure.conflict, by_words);
        by_words
    }

    #[test]
    fn procedures_share_the_codes_they_are_for() {
        let mut random = Random::new(1);
        for (place, (node, kind, codes)) in CONFLICTS.into_iter().enumerate() {
            let shared = codes.map(codes::one).fold(0, |set, code| set | code);
            let conflict = Conflict { node, kind, shared };
            assert_eq!(named(tree(&mut random, 2 * place)), Some(conflict));
        }
    }

    /// By each kind most share several codes, and many have them in both words.
    #[test]
    fn random_codes_are_shared_by_each_kind() {
        let mut random = Random::new(1);
        let (mut several, mut in_both) = ([0; 4], 0);
        for turn in 0..200 {
            let tree = tree(&mut random, 2 * turn + 1);
            assert!(tree.len() <= MOST_NODES);
            let kind = turn % 4;
            let shares = |found: &Conflict| found.kind as usize == kind + 1;
            let shared = named(tree).filter(shares).map_or(0, |found| found.shared);
            several[kind] += usize::from(codes::count(shared) > 1);
            in_both += usize::from(shared & LOW_WORD != 0 && shared & !LOW_WORD != 0);
        }
        assert!(several.iter().all(|&count| count > 25), "{several:?}");
        assert!(in_both > 50, "{in_both}");
    }
}
