//! The counting automaton of source 000, section 6: a state for each event
//! node and one for the start, a counter for each repeat, and moves with
//! guards on the counters.

use crate::guard::{Guard, Range};
use crate::record::Item;
use crate::state::Place;
use crate::tree::{Bounds, Node, Symbol, Tree};
use std::rc::Rc;

/// A triple of follow: from one event to another, forward through a sequence
/// or once more around a repeat.
#[derive(Clone, Copy, Debug, PartialEq, Eq)]
pub struct Move {
    pub to: Node,
    /// The sequence or the repeat that makes the move possible.
    pub by: Node,
    /// How many of the repeats around the old event are left, innermost first.
    left: usize,
    /// Whether the next one after these begins another block.
    again: bool,
    /// How many of the repeats around the new event are entered afresh.
    entered: usize,
}

/// The automaton of one tree.
pub struct Automaton {
    pub tree: Rc<Tree>,
    /// The event nodes that begin and that end readings of each part.
    pub first: Vec<Vec<Node>>,
    pub last: Vec<Vec<Node>>,
    starts: Vec<Move>,
    /// The moves from each event node, by rising code.
    moves: Vec<Vec<Move>>,
}

impl Automaton {
    pub fn new(tree: Rc<Tree>) -> Automaton {
        let first = ends_of_parts(&tree, |tree, node| (tree.left(node), tree.right(node)));
        let last = ends_of_parts(&tree, |tree, node| (tree.right(node), tree.left(node)));
        let moves = vec![Vec::new(); tree.len()];
        let mut automaton = Automaton {
            tree,
            first,
            last,
            starts: Vec::new(),
            moves,
        };
        let root = automaton.tree.root();
        automaton.starts = automaton.first[root]
            .iter()
            .map(|&to| automaton.start_move(to))
            .collect();
        for node in 0..automaton.tree.len() {
            automaton.add_moves(node);
        }
        let tree = Rc::clone(&automaton.tree);
        automaton.starts.sort_by_key(|step| tree.code(step.to));
        automaton
            .moves
            .iter_mut()
            .for_each(|moves| moves.sort_by_key(|step| tree.code(step.to)));
        automaton
    }

    fn start_move(&self, to: Node) -> Move {
        let entered = self.tree.around(to).len();
        Move {
            to,
            by: self.tree.root(),
            left: 0,
            again: false,
            entered,
        }
    }

    /// The triples that one subexpression gives, as in section 6.2.
    fn add_moves(&mut self, by: Node) {
        let again = match self.tree.symbol(by) {
            Symbol::Sequence => false,
            Symbol::Repeat(_) => true,
            _ => return,
        };
        let from = if again {
            self.tree.body(by)
        } else {
            self.tree.left(by)
        };
        let onto = by - 1;
        // A repeat that goes round stays around both events.
        let shared = self.tree.around(by).len() + usize::from(again);
        for &event in &self.last[from] {
            let left = self.tree.around(event).len() - shared;
            for &to in &self.first[onto] {
                let entered = self.tree.around(to).len() - shared;
                self.moves[event].push(Move {
                    to,
                    by,
                    left,
                    again,
                    entered,
                });
            }
        }
    }

    /// All moves from a place, whether or not its counters allow them.
    pub fn moves_from(&self, node: Option<Node>) -> &[Move] {
        node.map_or(&self.starts, |node| &self.moves[node])
    }

    fn moves_by_code(&self, node: Option<Node>, code: u8) -> &[Move] {
        let moves = self.moves_from(node);
        let code_of = |step: &Move| self.tree.code(step.to).expect("moves lead to events");
        let begin = moves.partition_point(|step| code_of(step) < code);
        let end = moves.partition_point(|step| code_of(step) <= code);
        &moves[begin..end]
    }

    /// The value test: a repeat may be left.
    fn leaving(&self, repeat: Node) -> Range {
        let Bounds { lower, .. } = self.tree.normal_bounds(repeat);
        Range {
            rank: self.tree.rank(repeat),
            least: lower.max(1),
            most: self.tree.cap(repeat),
        }
    }

    /// The upper bound test: a repeat may have another block.
    fn repeating(&self, repeat: Node) -> Range {
        let cap = self.tree.cap(repeat);
        let most = self
            .tree
            .bounds(repeat)
            .upper
            .map_or(cap, |upper| upper - 1);
        Range {
            rank: self.tree.rank(repeat),
            least: 1,
            most,
        }
    }

    /// The condition under which a move from an event is possible.
    pub fn guard(&self, from: Option<Node>, step: &Move) -> Guard {
        let around = from.map_or(&[][..], |node| self.tree.around(node));
        let mut ranges: Vec<Range> = around[..step.left]
            .iter()
            .map(|&repeat| self.leaving(repeat))
            .collect();
        if step.again {
            ranges.push(self.repeating(step.by));
        }
        Guard(ranges)
    }

    /// Whether the move's guard can be met at all.
    pub fn is_possible(&self, from: Option<Node>, step: &Move) -> bool {
        let guard = self.guard(from, step);
        guard.meets(&guard)
    }

    /// The condition under which a part may end at one of its last events.
    pub fn acceptance(&self, event: Node, part: Node) -> Guard {
        let inside = |repeat: &&Node| self.tree.holds(part, **repeat);
        Guard(
            self.tree
                .around(event)
                .iter()
                .filter(inside)
                .map(|&repeat| self.leaving(repeat))
                .collect(),
        )
    }

    fn allows(&self, place: &Place, step: &Move) -> bool {
        let around = place.node.map_or(&[][..], |node| self.tree.around(node));
        let count = |repeat: Node| place.counts[self.tree.rank(repeat)];
        around[..step.left]
            .iter()
            .all(|&repeat| self.tree.normal_bounds(repeat).lower <= count(repeat))
            && (!step.again || self.tree.bounds(step.by).has_room_after(count(step.by)))
    }

    /// The moves that the counters at a place allow.
    pub fn allowed<'a>(&'a self, place: &'a Place) -> impl Iterator<Item = &'a Move> + 'a {
        self.moves_from(place.node)
            .iter()
            .filter(|step| self.allows(place, step))
    }

    /// The moves with a code that the counters at a place allow.
    pub fn allowed_by<'a>(
        &'a self,
        place: &'a Place,
        code: u8,
    ) -> impl Iterator<Item = &'a Move> + 'a {
        self.moves_by_code(place.node, code)
            .iter()
            .filter(|step| self.allows(place, step))
    }

    /// Changes a place as the move's updates tell.
    pub fn apply(&self, place: &mut Place, step: &Move) {
        let around = place.node.map_or(&[][..], |node| self.tree.around(node));
        for &repeat in &around[..step.left] {
            place.counts[self.tree.rank(repeat)] = 0;
        }
        if step.again {
            let count = &mut place.counts[self.tree.rank(step.by)];
            *count = (*count + 1).min(self.tree.cap(step.by));
        }
        for &repeat in &self.tree.around(step.to)[..step.entered] {
            place.counts[self.tree.rank(repeat)] = 1;
        }
        place.node = Some(step.to);
    }

    /// Adds the marks that a move passes, and its event.
    pub fn add_items(&self, from: Option<Node>, step: &Move, items: &mut Vec<Item>) {
        let around = from.map_or(&[][..], |node| self.tree.around(node));
        items.extend(
            around[..step.left]
                .iter()
                .map(|&repeat| Item::Closing(repeat)),
        );
        if step.again {
            items.extend([Item::Closing(step.by), Item::Opening(step.by)]);
        }
        let entered = &self.tree.around(step.to)[..step.entered];
        items.extend(entered.iter().rev().map(|&repeat| Item::Opening(repeat)));
        items.push(Item::Event(step.to));
    }

    /// The marks of an end at a place, or `None` where no reading ends.
    pub fn end(&self, place: &Place) -> Option<Vec<Item>> {
        let root = self.tree.root();
        let Some(node) = place.node else {
            return self.tree.nullable(root).then(Vec::new);
        };
        let ends = self.last[root].binary_search(&node).is_ok()
            && self.acceptance(node, root).holds(place);
        ends.then(|| {
            self.tree
                .around(node)
                .iter()
                .map(|&repeat| Item::Closing(repeat))
                .collect()
        })
    }

    /// Whether no reachable place allows two moves with one code: theorem 9
    /// calls the tree strongly deterministic then.
    pub fn is_deterministic(&self) -> bool {
        let events = self.tree.events().map(Some);
        std::iter::once(None)
            .chain(events)
            .all(|from| self.is_deterministic_at(from))
    }

    fn is_deterministic_at(&self, from: Option<Node>) -> bool {
        let moves = self.moves_from(from);
        let code_of = |step: &Move| self.tree.code(step.to);
        moves
            .chunk_by(|one, two| code_of(one) == code_of(two))
            .all(|same| {
                same.iter().enumerate().all(|(place, one)| {
                    let guard = self.guard(from, one);
                    same[place + 1..]
                        .iter()
                        .all(|two| !guard.meets(&self.guard(from, two)))
                })
            })
    }

    /// Whether the items are those of a reading, event by event.
    pub fn is_reading(&self, items: &[Item]) -> bool {
        let is_event = |item: &Item| matches!(item, Item::Event(_));
        let mut place = Place::start(&self.tree);
        let mut passed = Vec::new();
        for piece in items.split_inclusive(is_event) {
            let Some(Item::Event(to)) = piece.last().copied() else {
                return self.end(&place).as_deref() == Some(piece);
            };
            let code = (to < self.tree.len()).then(|| self.tree.code(to)).flatten();
            let Some(code) = code else {
                return false;
            };
            let step = self.allowed_by(&place, code).find(|step| {
                passed.clear();
                self.add_items(place.node, step, &mut passed);
                passed == piece
            });
            let Some(step) = step.copied() else {
                return false;
            };
            self.apply(&mut place, &step);
        }
        self.end(&place).is_some_and(|marks| marks.is_empty())
    }
}

/// First or last of every part, as in section 6.1; `order` tells which child
/// of a sequence is at that end. The lists rise.
fn ends_of_parts(tree: &Tree, order: fn(&Tree, Node) -> (Node, Node)) -> Vec<Vec<Node>> {
    let mut ends: Vec<Vec<Node>> = Vec::with_capacity(tree.len());
    for node in 0..tree.len() {
        let mut events = match tree.symbol(node) {
            Symbol::Empty => Vec::new(),
            Symbol::Event(_) => vec![node],
            Symbol::Choice => [&ends[tree.left(node)][..], &ends[tree.right(node)]].concat(),
            Symbol::Sequence => {
                let (near, far) = order(tree, node);
                let behind: &[Node] = if tree.nullable(near) { &ends[far] } else { &[] };
                [&ends[near][..], behind].concat()
            }
            Symbol::Repeat(_) => ends[tree.body(node)].clone(),
        };
        events.sort_unstable();
        ends.push(events);
    }
    ends
}

#[cfg(test)]
mod tests {
    use super::Automaton;
    use crate::parse::tree;
    use std::rc::Rc;

    fn deterministic(text: &str) -> bool {
        Automaton::new(Rc::new(tree(text))).is_deterministic()
    }

    /// Source 000, section 2 and introduction.
    #[test]
    fn source_000_examples() {
        assert!(!deterministic("((a+e)(b+e)){0,2}"));
        assert!(!deterministic("(a{1,2}){3,4}"));
        assert!(deterministic("(a{2,2}){3,4}"));
        assert!(deterministic("(ab){1,2}"));
        assert!(!deterministic("(a{2,3}+b){3,3}b"));
        assert!(deterministic("(a{0,1}){0,3}(b{0,}+c{0,})d"));
        assert!(deterministic("a{0,}+b{0,}"));
    }

    /// Source 001, sections 1 and 2.
    #[test]
    fn source_001_examples() {
        assert!(!deterministic("a{0,2}a"));
        assert!(!deterministic("(a{1,2}){1,2}"));
        assert!(!deterministic("((t(t+e))(e+(abc))){2,3}"));
        assert!(deterministic("(t(x+e)){0,}l"));
    }

    /// Source 000, section 6.1: the repeats around the first event.
    #[test]
    fn source_000_iterators() {
        let tree = tree("((a{1,2}b){3,4}){5,6}");
        assert_eq!(tree.around(0), [1, 4, 5]);
        assert_eq!(tree.around(2), [4, 5]);
    }

    #[test]
    fn bounds_too_large_to_list() {
        assert!(
            deterministic("(a{4096,4096}){0,4096}a{2,2}b") == deterministic("(a{2,2}){0,3}a{2,2}b")
        );
        assert!(deterministic("((a{4096,4096}){4096,4096}b){0,}"));
        assert!(!deterministic("((a{4095,4096}){4096,4096}b){0,}"));
    }
}
