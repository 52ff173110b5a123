//! The readings up to a number of events, and what they show of strong
//! determinism.

use crate::readings::{Listing, Stack, Step, Ways};
use crate::tree::Tree;
use std::collections::{HashMap, VecDeque};

/// Every stack that readings of up to so many events pass.
pub struct Explored {
    /// The ways on from each stack seen, in the order of discovery.
    pub ways: Vec<(Stack, Ways)>,
    /// The fewest events from the start to each stack, and from it to an end.
    pub from_start: HashMap<Stack, usize>,
    pub to_end: HashMap<Stack, usize>,
}

impl Explored {
    /// Lists the readings of up to `most` events.
    pub fn new(listing: &mut Listing, most: usize) -> Explored {
        let start = listing.start();
        let mut from_start = HashMap::from([(start, 0)]);
        let mut ways = Vec::new();
        let mut queue = VecDeque::from([start]);
        while let Some(stack) = queue.pop_front() {
            let here = listing.ways(stack);
            let events = from_start[&stack] + 1;
            for step in here.steps.iter().filter(|_| events <= most) {
                from_start.entry(step.stack).or_insert_with(|| {
                    queue.push_back(step.stack);
                    events
                });
            }
            ways.push((stack, here));
        }
        let to_end = fewest_to_end(&ways);
        Explored {
            ways,
            from_start,
            to_end,
        }
    }

    /// The fewest events within which two readings show that the tree is not
    /// strongly deterministic. Readings that first differ at an event have
    /// the same items before it, and so the same tasks.
    pub fn shown_at(&self, tree: &Tree) -> Option<usize> {
        let mut least: Option<usize> = None;
        for (stack, ways) in &self.ways {
            let length = |step: &Step| {
                self.to_end
                    .get(&step.stack)
                    .map(|more| self.from_start[stack] + 1 + more)
            };
            for (place, one) in ways.steps.iter().enumerate() {
                for two in ways.steps[place + 1..].iter() {
                    if tree.code(one.node) != tree.code(two.node) {
                        continue;
                    }
                    if let (Some(first), Some(second)) = (length(one), length(two)) {
                        let longer = first.max(second);
                        least = Some(least.map_or(longer, |least| least.min(longer)));
                    }
                }
            }
        }
        least
    }
}

/// The fewest events from each stack to an end, over the steps that were seen.
fn fewest_to_end(ways: &[(Stack, Ways)]) -> HashMap<Stack, usize> {
    let mut before: HashMap<Stack, Vec<Stack>> = HashMap::new();
    let mut to_end = HashMap::new();
    let mut queue = VecDeque::new();
    for (stack, here) in ways {
        here.steps
            .iter()
            .for_each(|step| before.entry(step.stack).or_default().push(*stack));
        if here.end.is_some() {
            to_end.insert(*stack, 0);
            queue.push_back(*stack);
        }
    }
    while let Some(stack) = queue.pop_front() {
        let events = to_end[&stack] + 1;
        for &earlier in before.get(&stack).into_iter().flatten() {
            to_end.entry(earlier).or_insert_with(|| {
                queue.push_back(earlier);
                events
            });
        }
    }
    to_end
}

#[cfg(test)]
mod tests {
    use super::Explored;
    use crate::parse::tree;
    use crate::readings::{Listing, HORIZON};

    fn strong(text: &str) -> bool {
        let tree = tree(text);
        let shown = Explored::new(&mut Listing::new(&tree), HORIZON).shown_at(&tree);
        shown.is_none_or(|events| events > HORIZON)
    }

    /// Source 000, section 2 and introduction.
    #[test]
    fn source_000_examples() {
        assert!(!strong("((a+e)(b+e)){0,2}"));
        assert!(!strong("(a{1,2}){3,4}"));
        assert!(strong("(a{2,2}){3,4}"));
        assert!(strong("(ab){1,2}"));
        assert!(!strong("(a+b){0,}a"));
        assert!(strong("b{0,}a(b{0,}a){0,}"));
        assert!(!strong("(a{0,}){0,}"));
        assert!(strong("a{0,}+b{0,}"));
        assert!(!strong("(a{2,3}+b){3,3}b"));
        assert!(strong("(a{0,1}){0,3}(b{0,}+c{0,})d"));
    }

    /// Source 001, sections 1 and 2.
    #[test]
    fn source_001_examples() {
        assert!(!strong("a{0,2}a"));
        assert!(!strong("(a{1,2}){1,2}"));
        assert!(!strong("((b+e)a{2,3}){3,3}b"));
        assert!(!strong("((t(t+e))(e+(abc))){2,3}"));
        assert!(strong("(t(x+e)){0,}l"));
    }

    /// A horizon of ten would pass this one.
    #[test]
    fn a_short_horizon_shows_too_little() {
        let tree = tree("((a{3,3}){3,}){3,}");
        assert_eq!(
            Explored::new(&mut Listing::new(&tree), 40).shown_at(&tree),
            Some(30)
        );
    }

    #[test]
    fn many_ways_to_read_nothing_count_once() {
        assert!(strong(
            "(e+e)(e+e)(e+e)(e+e)(e+e)(e+e)(e+e)(e+e)(e+e)(e+e)a"
        ));
        assert!(strong("a{0,1}+b{0,1}"));
    }
}
