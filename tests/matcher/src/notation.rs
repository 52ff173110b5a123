//! Procedures as a line of text, for messages: `a` to `d` and `f` to `z` are
//! codes below 26, `#n` is code n, `e` is empty, `+` is choice, side by side
//! is sequence, `{2,4}` and `{2,}` are bounds.

use crate::tree::{Node, Symbol, Tree};

/// The notation of a tree.
pub fn show(tree: &Tree) -> String {
    show_part(tree, tree.root())
}

fn show_part(tree: &Tree, part: Node) -> String {
    match tree.symbol(part) {
        Symbol::Empty => "e".to_string(),
        Symbol::Event(code) if code < 26 && code != 4 => char::from(b'a' + code).to_string(),
        Symbol::Event(code) => format!("#{code} "),
        Symbol::Choice => {
            let (left, right) = (tree.left(part), tree.right(part));
            format!("({}+({}))", show_part(tree, left), show_part(tree, right))
        }
        Symbol::Sequence => {
            let (left, right) = (tree.left(part), tree.right(part));
            format!("({}({}))", show_part(tree, left), show_part(tree, right))
        }
        Symbol::Repeat(bounds) => {
            let upper = bounds
                .upper
                .map_or(String::new(), |upper| upper.to_string());
            let body = show_part(tree, tree.body(part));
            format!("{body}{{{},{upper}}}", bounds.lower)
        }
    }
}
