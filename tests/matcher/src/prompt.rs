//! The prompt: the loosened procedure and what can directly follow in it.

use crate::automaton::Automaton;
use crate::codes::{self, Codes};
use crate::readings::Listing;
use crate::state::Place;
use crate::tree::{Bounds, Node, Symbol, Tree};
use std::rc::Rc;

/// The procedure with every repeat loosened whose upper bound is at least 2.
pub fn loosened(tree: &Tree) -> Tree {
    let loosen = |node: Node| match tree.symbol(node) {
        Symbol::Repeat(bounds) if bounds.upper != Some(1) => {
            let lower = tree.normal_bounds(node).lower.min(1);
            Symbol::Repeat(Bounds { lower, upper: None })
        }
        other => other,
    };
    Tree::from_postfix((0..tree.len()).map(loosen).collect()).expect("the shape is kept")
}

/// The codes that can directly follow a node, from the moves that some
/// counters allow in the loosened procedure.
pub fn following_by_automaton(loose: &Rc<Tree>, node: Option<Node>) -> Codes {
    let automaton = Automaton::new(Rc::clone(loose));
    let moves = automaton.moves_from(node).iter();
    let possible = moves.filter(|step| automaton.is_possible(node, step));
    possible.fold(0, |next, step| next | code(loose, step.to))
}

/// The same from readings. A loosened repeat may be left and may go on after
/// any block, so a place in first blocks shows all that can follow.
pub fn following_by_listing(loose: &Tree, node: Option<Node>) -> Codes {
    let around = node.map_or(&[][..], |node| loose.around(node));
    let count = |repeat: &Node| u32::from(around.contains(repeat));
    let place = Place {
        node,
        counts: loose.repeats().iter().map(count).collect(),
    };
    let mut listing = Listing::new(loose);
    let stack = listing.stack_at(&place);
    listing
        .ways(stack)
        .steps
        .iter()
        .fold(0, |next, step| next | code(loose, step.node))
}

fn code(tree: &Tree, event: Node) -> Codes {
    codes::one(tree.code(event).expect("steps lead to events"))
}

#[cfg(test)]
mod tests {
    use super::{following_by_automaton, following_by_listing, loosened};
    use crate::codes::{one, Codes};
    use crate::notation::show;
    use crate::parse::tree;
    use std::rc::Rc;

    fn prompt(text: &str, node: Option<usize>) -> Codes {
        let loose = Rc::new(loosened(&tree(text)));
        let codes = following_by_automaton(&loose, node);
        assert_eq!(codes, following_by_listing(&loose, node), "{text}");
        codes
    }

    #[test]
    fn only_repeats_with_upper_two_or_more_are_loosened() {
        let shown = |text: &str| show(&loosened(&tree(text)));
        assert_eq!(shown("a{2,4}"), "a{1,}");
        assert_eq!(shown("a{0,2}"), "a{0,}");
        assert_eq!(shown("(a+e){3,3}"), "(a+(e)){0,}");
        assert_eq!(shown("a{0,1}{1,1}{5,}"), "a{0,1}{1,1}{0,}");
    }

    #[test]
    fn counters_do_not_matter() {
        assert_eq!(prompt("a{2,2}b", Some(0)), 0b11);
        assert_eq!(prompt("a{2,2}b", None), 0b01);
        assert_eq!(prompt("a{0,1}b", Some(0)), 0b10);
        assert_eq!(prompt("(a{1,1}b){1,1}c{0,2}", Some(2)), 0b100);
        assert_eq!(prompt("(ab{0,1}){3,4}c", Some(0)), 0b111);
    }

    #[test]
    fn codes_of_both_words() {
        assert_eq!(prompt("(#63+#64)#127", None), one(63) | one(64));
        assert_eq!(prompt("(#63+#64)#127", Some(0)), one(127));
        assert_eq!(prompt("#127{2,2}#0", Some(0)), one(127) | one(0));
        assert_eq!(prompt("#64{2,2}#65", Some(0)), one(64) | one(65));
    }
}
