//! The conflict that Judge names, from the sets as 01 words them. Nodes are
//! looked at rising, so the parts below the one named hold no conflict, and
//! there the automaton tells exactly what begins and what goes on.

use crate::automaton::Automaton;
use crate::codes::{self, Codes};
use crate::tree::{Node, Symbol, Tree};

/// A conflict with the codes that are shared; Judge reports the lowest.
#[derive(Clone, Copy, Debug, PartialEq, Eq)]
pub struct Conflict {
    pub node: Node,
    pub kind: u32,
    pub shared: Codes,
}

impl Conflict {
    pub fn code(&self) -> u8 {
        codes::lowest(self.shared).expect("a conflict shares a code")
    }
}

/// The sets of parts, by whichever way.
pub trait Sets {
    /// The codes that begin the part's words.
    fn first(&self, part: Node) -> Codes;
    /// The codes b such that v and v b w are words, v not empty.
    fn after(&self, part: Node) -> Codes;
}

impl Sets for Automaton {
    fn first(&self, part: Node) -> Codes {
        codes_of(self, &self.first[part])
    }

    /// Some reachable place both ends the part and moves on inside it.
    fn after(&self, part: Node) -> Codes {
        let mut after = 0;
        for &event in &self.last[part] {
            let ends = self.acceptance(event, part);
            let inside = self
                .moves_from(Some(event))
                .iter()
                .filter(|step| self.tree.holds(part, step.by));
            for step in inside {
                let code = codes_of(self, &[step.to]);
                if after & code == 0 && self.guard(Some(event), step).meets(&ends) {
                    after |= code;
                }
            }
        }
        after
    }
}

impl Sets for crate::words::Words<'_> {
    fn first(&self, part: Node) -> Codes {
        self.first(part)
    }

    fn after(&self, part: Node) -> Codes {
        self.after(part)
    }
}

fn codes_of(automaton: &Automaton, events: &[Node]) -> Codes {
    let code = |&node: &Node| automaton.tree.code(node).expect("an event");
    events
        .iter()
        .map(code)
        .fold(0, |set, code| set | codes::one(code))
}

/// The lowest conflict, its kind the lowest there.
pub fn lowest(tree: &Tree, sets: &dyn Sets) -> Option<Conflict> {
    (0..tree.len()).find_map(|node| {
        let (kind, shared) = match tree.symbol(node) {
            Symbol::Empty | Symbol::Event(_) => return None,
            Symbol::Choice => (
                1,
                sets.first(tree.left(node)) & sets.first(tree.right(node)),
            ),
            Symbol::Sequence => at_sequence(tree, node, sets),
            Symbol::Repeat(bounds) if bounds.upper == Some(1) => return None,
            Symbol::Repeat(_) => (4, sets.after(tree.body(node)) & sets.first(tree.body(node))),
        };
        (shared != 0).then_some(Conflict { node, kind, shared })
    })
}

fn at_sequence(tree: &Tree, node: Node, sets: &dyn Sets) -> (u32, Codes) {
    let (left, right) = (tree.left(node), tree.right(node));
    let onto = sets.first(right);
    let skipped = if tree.nullable(left) {
        sets.first(left) & onto
    } else {
        0
    };
    if skipped != 0 {
        (2, skipped)
    } else {
        (3, sets.after(left) & onto)
    }
}

#[cfg(test)]
mod tests {
    use super::{lowest, Conflict};
    use crate::automaton::Automaton;
    use crate::codes;
    use crate::parse::tree;
    use crate::words::Words;
    use std::rc::Rc;

    /// Node, kind and shared codes.
    fn named(text: &str) -> Option<(usize, u32, Vec<u8>)> {
        let tree = tree(text);
        let told = |conflict: Conflict| {
            let shared: Vec<u8> = codes::of(conflict.shared).collect();
            assert_eq!(conflict.code(), shared[0], "{text}");
            (conflict.node, conflict.kind, shared)
        };
        let by_automaton = lowest(&tree, &Automaton::new(Rc::new(tree.clone()))).map(told);
        let by_words = lowest(&tree, &Words::new(&tree)).map(told);
        assert_eq!(by_automaton, by_words, "{text}");
        by_automaton
    }

    #[test]
    fn bench_conflicts() {
        assert_eq!(named("(a{1,2}){3,4}"), Some((2, 4, vec![0])));
        assert_eq!(named("((a+e)(b+e)){0,2}"), Some((7, 4, vec![1])));
        assert_eq!(named("a{0,2}a"), Some((3, 2, vec![0])));
        assert_eq!(named("a{2,3}a"), Some((3, 3, vec![0])));
        assert_eq!(named("(a{2,3}(b+e)){0,}"), Some((6, 4, vec![0])));
        assert_eq!(named("a+ab"), Some((4, 1, vec![0])));
    }

    #[test]
    fn bench_cases_without() {
        for text in [
            "a{2,4}",
            "(a{0,1}){0,3}",
            "a{2,2}a",
            "(e b{0,1}){0,2}",
            "(a+e){3,3}",
            "(ab){1,2}",
            "e",
            "(a{2,2}){0,}",
        ] {
            assert_eq!(named(text), None, "{text}");
        }
    }

    /// The lowest kind goes before the lowest code, and what another kind of
    /// the node shares is left out.
    #[test]
    fn kind_goes_before_code() {
        assert_eq!(named("(#5 #1{0,1}){0,1}(#5+#1)"), Some((8, 2, vec![5])));
        assert_eq!(named("(#5 #1{0,1}){0,1}(#6+#1)"), Some((8, 3, vec![1])));
    }

    /// What a node above or beside shares is left out, higher codes or lower.
    #[test]
    fn only_the_lowest_node_tells() {
        assert_eq!(named("(#7+#7)+(#9+#7)"), Some((2, 1, vec![7])));
        assert_eq!(named("(#7-8+#8-9)(#1+#1)"), Some((6, 1, vec![8])));
        assert_eq!(named("(#7{1,2}(#7+#1)){0,}"), Some((5, 3, vec![7])));
    }

    /// The shared codes, whichever words they are in; codes that differ by a
    /// word's 64 are not shared.
    #[test]
    fn codes_of_both_words() {
        assert_eq!(named("(#70+#40)+(#40+#70)"), Some((6, 1, vec![40, 70])));
        assert_eq!(named("(#64+#63){0,1}(#63+#64)"), Some((7, 2, vec![63, 64])));
        assert_eq!(
            named("(#127+#65){1,2}(#65+#127)"),
            Some((7, 3, vec![65, 127]))
        );
        assert_eq!(named("(#126-127{1,2}){3,4}"), Some((4, 4, vec![126, 127])));
        assert_eq!(named("#127{0,2}#127"), Some((3, 2, vec![127])));
        assert_eq!(named("#5+#69"), None);
        assert_eq!(named("#127{0,2}#63"), None);
        assert_eq!(named("a#64{0,1}#64"), Some((5, 3, vec![64])));
    }

    /// Readings are lists of items, not derivations.
    #[test]
    fn several_ways_to_nothing_are_no_conflict() {
        assert_eq!(named("e+e"), None);
        assert_eq!(named("a{0,1}+b{0,1}"), None);
    }

    /// Source 001, lemma 2, on the expressions of its section 2.
    #[test]
    fn source_001_lemma_2() {
        assert_eq!(named("(a{1,2}){1,2}"), Some((2, 4, vec![0])));
        assert_eq!(named("(a+b){6,7}ab(a+b)"), Some((5, 3, vec![0])));
        assert_eq!(named("(t(x+e)){0,}l"), None);
        assert_eq!(
            named("((t(t+e))(e+(abc))){2,3}").map(|told| told.1),
            Some(4)
        );
    }
}
