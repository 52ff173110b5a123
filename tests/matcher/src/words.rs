//! Words by derivatives, on the bounds as written. What is still to come is
//! a list of pieces; the derivative by a code is a set of such lists.

use crate::codes::{self, Codes};
use crate::state::Place;
use crate::tree::{Bounds, Node, Symbol, Tree};
use std::collections::BTreeSet;

/// A part that is still to come, so many times.
#[derive(Clone, Copy, Debug, PartialEq, Eq, PartialOrd, Ord)]
pub struct Piece {
    part: Node,
    times: Bounds,
}

/// What is still to come, the next piece last.
pub type Rest = Vec<Piece>;

const ONCE: Bounds = Bounds {
    lower: 1,
    upper: Some(1),
};

/// The words of one tree.
pub struct Words<'t> {
    tree: &'t Tree,
    /// The codes that begin a word of each part.
    begins: Vec<Codes>,
}

impl<'t> Words<'t> {
    pub fn new(tree: &'t Tree) -> Words<'t> {
        let mut words = Words {
            tree,
            begins: Vec::with_capacity(tree.len()),
        };
        for part in 0..tree.len() {
            let codes = words.beginnings(part);
            words.begins.push(codes);
        }
        words
    }

    fn beginnings(&self, part: Node) -> Codes {
        let tree = self.tree;
        match tree.symbol(part) {
            Symbol::Empty => 0,
            Symbol::Event(code) => codes::one(code),
            Symbol::Choice => self.begins[tree.left(part)] | self.begins[tree.right(part)],
            Symbol::Sequence if tree.nullable(tree.left(part)) => {
                self.begins[tree.left(part)] | self.begins[tree.right(part)]
            }
            Symbol::Sequence => self.begins[tree.left(part)],
            Symbol::Repeat(_) => self.begins[tree.body(part)],
        }
    }

    /// The whole part still to come.
    pub fn whole(&self, part: Node) -> Rest {
        vec![Piece { part, times: ONCE }]
    }

    /// What is still to come at a place: the rights of the sequences that
    /// were entered on their left, and the blocks that repeats have left.
    pub fn rest_at(&self, place: &Place) -> Rest {
        let root = self.tree.root();
        let Some(node) = place.node else {
            return self.whole(root);
        };
        let mut rest = Rest::new();
        let mut part = root;
        while part != node {
            part = self.step_down(part, node, place, &mut rest);
        }
        rest
    }

    fn step_down(&self, part: Node, node: Node, place: &Place, rest: &mut Rest) -> Node {
        let tree = self.tree;
        if let Symbol::Repeat(bounds) = tree.symbol(part) {
            let begun = place.counts[tree.rank(part)];
            let times = Bounds {
                lower: bounds.lower.saturating_sub(begun),
                upper: bounds.upper.map(|upper| upper - begun),
            };
            push(
                rest,
                Piece {
                    part: tree.body(part),
                    times,
                },
            );
            return tree.body(part);
        }
        let left = tree.left(part);
        if !tree.holds(left, node) {
            return tree.right(part);
        }
        if tree.symbol(part) == Symbol::Sequence {
            push(
                rest,
                Piece {
                    part: tree.right(part),
                    times: ONCE,
                },
            );
        }
        left
    }

    /// Whether nothing more need come.
    pub fn may_end(&self, rest: &Rest) -> bool {
        rest.iter().all(|piece| self.may_be_empty(*piece))
    }

    fn may_be_empty(&self, piece: Piece) -> bool {
        piece.times.lower == 0 || self.tree.nullable(piece.part)
    }

    /// Every list that can still come after the code, none twice.
    pub fn derive(&self, rest: &Rest, code: u8) -> Vec<Rest> {
        let mut found = Vec::new();
        let mut below = rest.clone();
        while let Some(piece) = below.pop() {
            self.derive_piece(piece, code, &mut below, &mut found);
            if !self.may_be_empty(piece) {
                break;
            }
        }
        found.sort();
        found.dedup();
        found
    }

    fn begins_with(&self, part: Node, code: u8) -> bool {
        codes::has(self.begins[part], code)
    }

    fn derive_piece(&self, piece: Piece, code: u8, below: &mut Rest, found: &mut Vec<Rest>) {
        if !self.begins_with(piece.part, code) {
            return;
        }
        let depth = below.len();
        push(
            below,
            Piece {
                times: piece.times.less_one(),
                ..piece
            },
        );
        self.derive_part(piece.part, code, below, found);
        below.truncate(depth);
    }

    fn derive_part(&self, part: Node, code: u8, below: &mut Rest, found: &mut Vec<Rest>) {
        if !self.begins_with(part, code) {
            return;
        }
        let tree = self.tree;
        match tree.symbol(part) {
            Symbol::Empty => {}
            Symbol::Event(_) => found.push(below.clone()),
            Symbol::Choice => {
                self.derive_part(tree.left(part), code, below, found);
                self.derive_part(tree.right(part), code, below, found);
            }
            Symbol::Sequence => {
                let depth = below.len();
                push(
                    below,
                    Piece {
                        part: tree.right(part),
                        times: ONCE,
                    },
                );
                self.derive_part(tree.left(part), code, below, found);
                below.truncate(depth);
                if tree.nullable(tree.left(part)) {
                    self.derive_part(tree.right(part), code, below, found);
                }
            }
            Symbol::Repeat(times) => {
                self.derive_piece(
                    Piece {
                        part: tree.body(part),
                        times,
                    },
                    code,
                    below,
                    found,
                );
            }
        }
    }

    /// The codes that begin what the lists may still bring.
    pub fn codes_next(&self, rests: &[Rest]) -> Codes {
        let has = |code: &u8| {
            rests
                .iter()
                .any(|rest| !self.derive(rest, *code).is_empty())
        };
        codes::all()
            .filter(has)
            .fold(0, |next, code| next | codes::one(code))
    }

    /// All lists that can come after the code from any of the given ones.
    pub fn derive_all(&self, rests: &[Rest], code: u8) -> Vec<Rest> {
        let mut all: Vec<Rest> = rests
            .iter()
            .flat_map(|rest| self.derive(rest, code))
            .collect();
        all.sort();
        all.dedup();
        all
    }

    /// First of a part.
    pub fn first(&self, part: Node) -> Codes {
        self.codes_next(&[self.whole(part)])
    }

    /// After of a part as 01 words it, for any part: every derivative is
    /// visited. Fit for small bounds only.
    pub fn after(&self, part: Node) -> Codes {
        let mut after = 0;
        let mut seen: BTreeSet<Vec<Rest>> = BTreeSet::new();
        let mut open = vec![vec![self.whole(part)]];
        while let Some(rests) = open.pop() {
            let next = self.codes_next(&rests);
            for code in codes::of(next) {
                let derived = self.derive_all(&rests, code);
                if !seen.insert(derived.clone()) {
                    continue;
                }
                if derived.iter().any(|rest| self.may_end(rest)) {
                    after |= self.codes_next(&derived);
                }
                open.push(derived);
            }
        }
        after
    }

    /// Whether the run is a word of the tree.
    #[cfg(test)]
    pub fn is_word(&self, run: &[u8]) -> bool {
        let mut rests = vec![self.whole(self.tree.root())];
        for &code in run {
            rests = self.derive_all(&rests, code);
        }
        rests.iter().any(|rest| self.may_end(rest))
    }
}

/// Pieces that come no more times are left out, so that equal lists look equal.
fn push(rest: &mut Rest, piece: Piece) {
    if piece.times.upper != Some(0) {
        rest.push(piece);
    }
}

#[cfg(test)]
mod tests {
    use super::Words;
    use crate::codes::one;
    use crate::parse::tree;

    fn words_up_to(text: &str, most: usize) -> Vec<String> {
        let tree = tree(text);
        let words = Words::new(&tree);
        let mut runs: Vec<Vec<u8>> = vec![Vec::new()];
        let mut found = Vec::new();
        while let Some(run) = runs.pop() {
            if words.is_word(&run) {
                found.push(run.iter().map(|code| char::from(b'a' + code)).collect());
            }
            if run.len() < most {
                runs.extend([0, 1].map(|code| [run.clone(), vec![code]].concat()));
            }
        }
        found.sort();
        found
    }

    #[test]
    fn bounds_as_written_give_the_language() {
        assert_eq!(words_up_to("a{2,3}", 5), ["aa", "aaa"]);
        assert_eq!(words_up_to("(a+e){3,3}", 5), ["", "a", "aa", "aaa"]);
        assert_eq!(words_up_to("(a{0,1}){0,2}b", 4), ["aab", "ab", "b"]);
        assert_eq!(words_up_to("(a{2,2}){0,}", 5), ["", "aa", "aaaa"]);
        assert_eq!(words_up_to("(ab){1,2}", 4), ["ab", "abab"]);
    }

    #[test]
    fn codes_at_the_limit() {
        let tree = tree("(#127{1,2}+#64)#63");
        let words = Words::new(&tree);
        assert_eq!(words.first(tree.root()), one(127) | one(64));
        assert_eq!(words.after(1), one(127));
        assert!(words.is_word(&[127, 127, 63]));
        assert!(words.is_word(&[64, 63]));
        // What a word or a byte's highest bit away would be taken for.
        for strange in [0, 63, 128, 192, 255] {
            assert!(!words.is_word(&[strange, 63]), "{strange}");
        }
    }

    /// Source 000, introduction: the two expressions have one language.
    #[test]
    fn source_000_rewriting_keeps_the_language() {
        assert_eq!(
            words_up_to("(a+b){0,}a", 6),
            words_up_to("b{0,}a(b{0,}a){0,}", 6)
        );
    }

    /// Source 001, section 3: followlast of a + ab is b, by definition.
    #[test]
    fn source_001_after_by_definition() {
        let tree = tree("a+ab");
        assert_eq!(Words::new(&tree).after(4), 0b10);
        assert_eq!(Words::new(&tree).first(4), 0b01);
    }
}
