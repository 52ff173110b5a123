//! Readings by listing, straight from their definition: what a reading still
//! has to do is a stack of tasks, and every way to do the next task is tried.
//! Beginnings of readings that leave the same tasks go on alike and are
//! listed once.

use crate::record::Item;
use crate::state::Place;
use crate::tree::{Node, Symbol, Tree};
use std::collections::{HashMap, HashSet};

/// Readings are listed up to this number of events. It settles strong
/// determinism of every tree of up to four nodes with bounds 0 to 3 or none.
pub const HORIZON: usize = 30;

/// What a reading has to do next.
#[derive(Clone, Copy, Debug, PartialEq, Eq, Hash)]
enum Task {
    /// A reading of the part.
    Read(Node),
    /// So many blocks of the repeat are done; more may follow.
    Blocks(Node, u32),
    /// The closing of the block that follows so many done.
    Close(Node, u32),
}

/// A stack of tasks, named by a number; `NOTHING` has none.
pub type Stack = usize;

pub const NOTHING: Stack = 0;

/// A way from one event to the next.
#[derive(Clone, Debug, PartialEq, Eq, PartialOrd, Ord)]
pub struct Step {
    /// The marks passed, then the event.
    pub items: Vec<Item>,
    pub node: Node,
    pub stack: Stack,
}

/// All that can come next in a reading.
#[derive(Clone, Debug, Default)]
pub struct Ways {
    pub steps: Vec<Step>,
    /// The marks passed where the reading may end here.
    pub end: Option<Vec<Item>>,
}

/// The listing of one tree's readings.
pub struct Listing<'t> {
    tree: &'t Tree,
    /// Each stack is a task on top of a stack made before.
    stacks: Vec<(Task, Stack)>,
    known: HashMap<(Task, Stack), Stack>,
}

impl<'t> Listing<'t> {
    pub fn new(tree: &'t Tree) -> Listing<'t> {
        // The entry of NOTHING is never looked at.
        let stacks = vec![(Task::Read(tree.root()), NOTHING)];
        Listing {
            tree,
            stacks,
            known: HashMap::new(),
        }
    }

    fn push(&mut self, task: Task, below: Stack) -> Stack {
        let fresh = self.stacks.len();
        let stack = *self.known.entry((task, below)).or_insert(fresh);
        if stack == fresh {
            self.stacks.push((task, below));
        }
        stack
    }

    /// The stack before anything is read.
    pub fn start(&mut self) -> Stack {
        self.push(Task::Read(self.tree.root()), NOTHING)
    }

    /// The stack of a reading that has come to a place.
    pub fn stack_at(&mut self, place: &Place) -> Stack {
        let Some(node) = place.node else {
            return self.start();
        };
        let tree = self.tree;
        let (mut part, mut stack) = (tree.root(), NOTHING);
        while part != node {
            if matches!(tree.symbol(part), Symbol::Repeat(_)) {
                let begun = place.counts[tree.rank(part)];
                stack = self.push(Task::Close(part, begun - 1), stack);
                part = tree.body(part);
            } else if tree.holds(tree.left(part), node) {
                if tree.symbol(part) == Symbol::Sequence {
                    stack = self.push(Task::Read(tree.right(part)), stack);
                }
                part = tree.left(part);
            } else {
                part = tree.right(part);
            }
        }
        stack
    }

    /// Every way to the next event and to the end. A part may have nothing to
    /// read in several ways; the same tasks with the same marks count once.
    pub fn ways(&mut self, stack: Stack) -> Ways {
        let mut ways = Ways::default();
        let mut seen: HashSet<(Stack, Vec<Item>)> = HashSet::new();
        let mut open = vec![(stack, Vec::new())];
        while let Some((stack, marks)) = open.pop() {
            if !seen.insert((stack, marks.clone())) {
                continue;
            }
            if stack == NOTHING {
                ways.end = Some(marks);
                continue;
            }
            let (task, below) = self.stacks[stack];
            match task {
                Task::Read(part) => self.read(part, below, marks, &mut open, &mut ways),
                Task::Blocks(repeat, done) => self.go_on(repeat, done, below, marks, &mut open),
                Task::Close(repeat, done) => self.close(repeat, done, below, marks, &mut open),
            }
        }
        ways.steps.sort();
        ways.steps.dedup();
        ways
    }

    fn read(
        &mut self,
        part: Node,
        below: Stack,
        marks: Vec<Item>,
        open: &mut Vec<(Stack, Vec<Item>)>,
        ways: &mut Ways,
    ) {
        let tree = self.tree;
        match tree.symbol(part) {
            Symbol::Empty => open.push((below, marks)),
            Symbol::Event(_) => {
                let mut items = marks;
                items.push(Item::Event(part));
                ways.steps.push(Step {
                    items,
                    node: part,
                    stack: below,
                });
            }
            Symbol::Choice => {
                open.push((self.push(Task::Read(tree.left(part)), below), marks.clone()));
                open.push((self.push(Task::Read(tree.right(part)), below), marks));
            }
            Symbol::Sequence => {
                let right = self.push(Task::Read(tree.right(part)), below);
                open.push((self.push(Task::Read(tree.left(part)), right), marks));
            }
            Symbol::Repeat(_) => open.push((self.push(Task::Blocks(part, 0), below), marks)),
        }
    }

    fn go_on(
        &mut self,
        repeat: Node,
        done: u32,
        below: Stack,
        marks: Vec<Item>,
        open: &mut Vec<(Stack, Vec<Item>)>,
    ) {
        let bounds = self.tree.normal_bounds(repeat);
        if bounds.lower <= done {
            open.push((below, marks.clone()));
        }
        if bounds.has_room_after(done) {
            let closing = self.push(Task::Close(repeat, done), below);
            let block = self.push(Task::Read(self.tree.body(repeat)), closing);
            open.push((block, [marks, vec![Item::Opening(repeat)]].concat()));
        }
    }

    /// A block without an event is none: its opening would be among the marks
    /// since the last event.
    fn close(
        &mut self,
        repeat: Node,
        done: u32,
        below: Stack,
        marks: Vec<Item>,
        open: &mut Vec<(Stack, Vec<Item>)>,
    ) {
        if marks.contains(&Item::Opening(repeat)) {
            return;
        }
        let blocks = self.push(Task::Blocks(repeat, done + 1), below);
        open.push((blocks, [marks, vec![Item::Closing(repeat)]].concat()));
    }

    /// Every beginning of a reading from the stack on with the given codes:
    /// its items and the tasks that it leaves.
    pub fn beginnings(&mut self, stack: Stack, codes: &[u8]) -> Vec<(Vec<Item>, Stack)> {
        let mut all = vec![(Vec::new(), stack)];
        for &code in codes {
            let mut longer = Vec::new();
            for (items, stack) in all {
                let steps = self.ways(stack).steps;
                let fits = |step: &Step| self.tree.code(step.node) == Some(code);
                let more = steps.into_iter().filter(fits);
                longer.extend(more.map(|step| ([items.clone(), step.items].concat(), step.stack)));
            }
            all = longer;
        }
        all
    }

    /// The items of every reading with exactly these codes.
    pub fn readings_of(&mut self, codes: &[u8]) -> Vec<Vec<Item>> {
        let start = self.start();
        let beginnings = self.beginnings(start, codes);
        let finish = |(items, stack): (Vec<Item>, Stack)| {
            self.ways(stack).end.map(|marks| [items, marks].concat())
        };
        beginnings.into_iter().filter_map(finish).collect()
    }

    /// Whether the items are a reading: each piece up to an event must be
    /// among the ways on.
    pub fn is_reading(&mut self, items: &[Item]) -> bool {
        let is_event = |item: &Item| matches!(item, Item::Event(_));
        let mut stack = self.start();
        for piece in items.split_inclusive(is_event) {
            let ways = self.ways(stack);
            if !piece.last().is_some_and(is_event) {
                return ways.end.as_deref() == Some(piece);
            }
            match ways.steps.iter().find(|step| step.items == piece) {
                Some(step) => stack = step.stack,
                None => return false,
            }
        }
        self.ways(stack).end.is_some_and(|marks| marks.is_empty())
    }
}

#[cfg(test)]
mod tests {
    use super::Listing;
    use crate::parse::tree;
    use crate::record::Item;

    /// Source 001, definition 2: both bracketings of aa.
    #[test]
    fn source_001_two_bracketings() {
        let tree = tree("(a{1,2}){1,2}");
        let (open, close) = (Item::Opening, Item::Closing);
        let a = Item::Event(0);
        let mut readings = Listing::new(&tree).readings_of(&[0, 0]);
        readings.sort();
        assert_eq!(readings.len(), 2);
        assert!(readings.contains(&vec![
            open(2),
            open(1),
            a,
            close(1),
            close(2),
            open(2),
            open(1),
            a,
            close(1),
            close(2)
        ]));
        assert!(readings.contains(&vec![
            open(2),
            open(1),
            a,
            close(1),
            open(1),
            a,
            close(1),
            close(2)
        ]));
    }
}
