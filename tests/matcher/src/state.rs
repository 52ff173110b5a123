//! The state: its 66 bytes, the place it tells, and which of them some
//! beginning of a word reaches.

use crate::record::Item;
use crate::tree::{Node, Tree};

pub const STATE_BYTES: usize = 66;

/// The start, or the event node reached with the number of blocks begun in
/// each repeat around it, as far as a state tells them.
#[derive(Clone, Debug, PartialEq, Eq, PartialOrd, Ord, Hash)]
pub struct Place {
    pub node: Option<Node>,
    /// One count a repeat, in rising node order.
    pub counts: Vec<u32>,
}

impl Place {
    pub fn start(tree: &Tree) -> Place {
        Place {
            node: None,
            counts: vec![0; tree.repeats().len()],
        }
    }

    /// The bytes of the state.
    pub fn write(&self) -> Vec<u8> {
        let node = self.node.map_or(0, |node| node + 1) as u16;
        let mut bytes = node.to_le_bytes().to_vec();
        self.counts
            .iter()
            .for_each(|&count| bytes.extend((count as u16).to_le_bytes()));
        bytes.resize(STATE_BYTES, 0);
        bytes
    }

    /// The place that a state tells, if some beginning of a word reaches it.
    pub fn read(tree: &Tree, bytes: &[u8]) -> Option<Place> {
        if bytes.len() != STATE_BYTES {
            return None;
        }
        let numbers: Vec<u32> = bytes
            .chunks(2)
            .map(|pair| u32::from(pair[0]) + 256 * u32::from(pair[1]))
            .collect();
        let (told, past) = numbers[1..].split_at(tree.repeats().len());
        let node = (numbers[0] as usize).checked_sub(1);
        let place = Place {
            node,
            counts: told.to_vec(),
        };
        let past_is_zero = past.iter().all(|&count| count == 0);
        (past_is_zero && place.is_reached(tree)).then_some(place)
    }

    /// Every count from 1 to its cap is reached around every event, each
    /// independently of the others; nothing else is. The listing shows it for
    /// all small trees.
    fn is_reached(&self, tree: &Tree) -> bool {
        if self
            .node
            .is_some_and(|node| node >= tree.len() || tree.code(node).is_none())
        {
            return false;
        }
        let around = self.node.map_or(&[][..], |node| tree.around(node));
        tree.repeats()
            .iter()
            .zip(&self.counts)
            .all(|(repeat, &count)| {
                if around.contains(repeat) {
                    (1..=tree.cap(*repeat)).contains(&count)
                } else {
                    count == 0
                }
            })
    }

    /// The place where the items lead, counted as 01 tells: an opening begins
    /// a block, and a new stay in every repeat inside.
    pub fn after(&self, tree: &Tree, items: &[Item]) -> Place {
        let mut place = self.clone();
        for item in items {
            match *item {
                Item::Event(node) => place.node = Some(node),
                Item::Opening(repeat) => place.begin_block(tree, repeat),
                Item::Closing(_) => {}
            }
        }
        let around = place.node.map_or(&[][..], |node| tree.around(node));
        for repeat in tree
            .repeats()
            .iter()
            .filter(|repeat| !around.contains(repeat))
        {
            place.counts[tree.rank(*repeat)] = 0;
        }
        place
    }

    fn begin_block(&mut self, tree: &Tree, repeat: Node) {
        let count = &mut self.counts[tree.rank(repeat)];
        *count = (*count + 1).min(tree.cap(repeat));
        for inner in tree
            .repeats()
            .iter()
            .filter(|inner| tree.around(**inner).contains(&repeat))
        {
            self.counts[tree.rank(*inner)] = 0;
        }
    }
}
