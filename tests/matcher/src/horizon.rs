//! The automaton against the listing, on every tree of up to four nodes over
//! a and b with bounds 0 to 3 or none.

use crate::automaton::Automaton;
use crate::codes;
use crate::conflict;
use crate::explored::Explored;
use crate::notation::show;
use crate::prompt;
use crate::readings::{Listing, Stack, Step, Ways, HORIZON};
use crate::record::Item;
use crate::state::Place;
use crate::tree::{Bounds, Node, Symbol, Tree};
use crate::words::Words;
use std::collections::{BTreeMap, BTreeSet, HashMap};
use std::rc::Rc;

const MOST_NODES: usize = 4;
const MOST_BOUND: u32 = 3;
/// Runs up to this length are tried one by one for being words.
const WORD_LENGTH: usize = 6;

/// What was found over all trees.
pub struct Findings {
    pub trees: usize,
    pub strong: usize,
    /// Trees that show their conflict only within so many events.
    pub shown_at: BTreeMap<usize, usize>,
}

impl Findings {
    /// The least number of events that settles every tree.
    pub fn least_horizon(&self) -> usize {
        self.shown_at.keys().next_back().copied().unwrap_or(0)
    }

    /// How many trees fewer events would misjudge.
    pub fn misjudged_with(&self, events: usize) -> usize {
        self.shown_at
            .range(events + 1..)
            .map(|(_, trees)| trees)
            .sum()
    }
}

/// All bounds 0 to 3 or none.
fn all_bounds() -> Vec<Bounds> {
    let uppers = (1..=MOST_BOUND).map(Some).chain([None]);
    let fits = |upper: Option<u32>| 0..=upper.unwrap_or(MOST_BOUND);
    uppers
        .flat_map(|upper| fits(upper).map(move |lower| Bounds { lower, upper }))
        .collect()
}

/// The postfix lists of all trees of exactly `size` nodes.
fn shapes(size: usize) -> Vec<Vec<Symbol>> {
    if size == 1 {
        return [Symbol::Empty, Symbol::Event(0), Symbol::Event(1)]
            .map(|leaf| vec![leaf])
            .to_vec();
    }
    let mut all = Vec::new();
    for body in shapes(size - 1) {
        let repeat = |bounds| [&body[..], &[Symbol::Repeat(bounds)]].concat();
        all.extend(all_bounds().into_iter().map(repeat));
    }
    for left_size in 1..size.saturating_sub(1) {
        for left in shapes(left_size) {
            for right in shapes(size - 1 - left_size) {
                let join = |symbol| [&left[..], &right, &[symbol]].concat();
                all.extend([Symbol::Choice, Symbol::Sequence].map(join));
            }
        }
    }
    all
}

/// Every tree of up to `most` nodes.
pub fn all_trees(most: usize) -> Vec<Tree> {
    let lists = (1..=most).flat_map(shapes);
    lists
        .map(|symbols| Tree::from_postfix(symbols).expect("a tree was listed"))
        .collect()
}

/// Tests every tree; the first disagreement is told in words.
pub fn run() -> Result<Findings, String> {
    let mut findings = Findings {
        trees: 0,
        strong: 0,
        shown_at: BTreeMap::new(),
    };
    for tree in all_trees(MOST_NODES) {
        let shown = settle(&tree).map_err(|what| format!("{}: {what}", show(&tree)))?;
        findings.trees += 1;
        findings.strong += usize::from(shown.is_none());
        if let Some(events) = shown {
            *findings.shown_at.entry(events).or_default() += 1;
        }
    }
    Ok(findings)
}

/// The number of events that shows the tree's conflict, if it has one.
fn settle(tree: &Tree) -> Result<Option<usize>, String> {
    let automaton = Automaton::new(Rc::new(tree.clone()));
    let words = Words::new(tree);
    let mut listing = Listing::new(tree);
    let explored = Explored::new(&mut listing, HORIZON);
    let shown = explored.shown_at(tree).filter(|&events| events <= HORIZON);
    agree(
        "strong determinism",
        shown.is_none(),
        automaton.is_deterministic(),
    )?;
    let named = conflict::lowest(tree, &automaton);
    agree("a conflict", shown.is_some(), named.is_some())?;
    agree("the conflict named", conflict::lowest(tree, &words), named)?;
    same_ways(tree, &automaton, &explored)?;
    same_words(tree, &words, &mut listing)?;
    same_prompt(tree)?;
    Ok(shown)
}

fn agree<T: PartialEq + std::fmt::Debug>(what: &str, listed: T, other: T) -> Result<(), String> {
    if listed == other {
        Ok(())
    } else {
        Err(format!("{what}: {listed:?} against {other:?}"))
    }
}

/// The ways agree, and the states that beginnings of words reach are those
/// that are taken for reached.
fn same_ways(tree: &Tree, automaton: &Automaton, explored: &Explored) -> Result<(), String> {
    let reached = same_ways_but_states(tree, automaton, explored)?;
    agree(
        "the states reached",
        reached,
        candidate_places(tree).into_iter().collect(),
    )
}

/// At every spot of a reading the automaton's place allows the same items
/// next, and the same end, as the listing. A spot is a stack with the event
/// before it. Gives the places of all spots from which an end was listed.
fn same_ways_but_states(
    tree: &Tree,
    automaton: &Automaton,
    explored: &Explored,
) -> Result<BTreeSet<Place>, String> {
    let ways: HashMap<Stack, &Ways> = explored
        .ways
        .iter()
        .map(|(stack, ways)| (*stack, ways))
        .collect();
    let begin = (None, explored.ways[0].0);
    let mut places = HashMap::from([(begin, Place::start(tree))]);
    let mut reached = BTreeSet::from([Place::start(tree)]);
    let mut open = vec![begin];
    while let Some(spot) = open.pop() {
        let Some(here) = ways.get(&spot.1) else {
            continue;
        };
        let place = places[&spot].clone();
        for (step, next) in same_steps(tree, automaton, &place, here)? {
            let known = places
                .entry((Some(step.node), step.stack))
                .or_insert_with(|| {
                    open.push((Some(step.node), step.stack));
                    next.clone()
                });
            agree("the place of a stack", &*known, &next)?;
            if explored.to_end.contains_key(&step.stack) {
                reached.insert(next);
            }
        }
    }
    Ok(reached)
}

/// The steps of the listing with the places where the automaton leads.
fn same_steps<'w>(
    tree: &Tree,
    automaton: &Automaton,
    place: &Place,
    ways: &'w Ways,
) -> Result<Vec<(&'w Step, Place)>, String> {
    agree("the end", ways.end.clone(), automaton.end(place))?;
    let mut moves: Vec<(Vec<Item>, Place)> = Vec::new();
    for step in automaton.allowed(place) {
        let (mut items, mut next) = (Vec::new(), place.clone());
        automaton.add_items(place.node, step, &mut items);
        automaton.apply(&mut next, step);
        moves.push((items, next));
    }
    moves.sort();
    agree("the number of ways", ways.steps.len(), moves.len())?;
    let mut pairs = Vec::new();
    for (step, (items, next)) in ways.steps.iter().zip(moves) {
        agree("the items", &step.items, &items)?;
        agree("the place", &place.after(tree, &step.items), &next)?;
        pairs.push((step, next));
    }
    Ok(pairs)
}

/// Every place that is taken for reached, of all with counts up to one more
/// than any bound.
fn candidate_places(tree: &Tree) -> Vec<Place> {
    let mut counts: Vec<Vec<u32>> = vec![Vec::new()];
    for _ in tree.repeats() {
        let longer = |short: &Vec<u32>| {
            (0..=MOST_BOUND + 1)
                .map(|count| [&short[..], &[count]].concat())
                .collect::<Vec<_>>()
        };
        counts = counts.iter().flat_map(longer).collect();
    }
    let nodes = std::iter::once(None).chain((0..=tree.len()).map(Some));
    let all = nodes.flat_map(|node| {
        counts.iter().map(move |counts| Place {
            node,
            counts: counts.clone(),
        })
    });
    all.filter_map(|place| Place::read(tree, &place.write()))
        .collect()
}

/// Two codes, as many of them the tree's own as it has.
fn codes_tried(tree: &Tree) -> Vec<u8> {
    let own: BTreeSet<u8> = tree.events().filter_map(|node| tree.code(node)).collect();
    let others = codes::all().filter(|code| !own.contains(code));
    own.iter().copied().chain(others).take(2).collect()
}

/// A run is a word exactly if some reading has its codes.
fn same_words(tree: &Tree, words: &Words, listing: &mut Listing) -> Result<(), String> {
    let tried = codes_tried(tree);
    let mut open = vec![(
        Vec::new(),
        vec![words.whole(tree.root())],
        BTreeSet::from([listing.start()]),
    )];
    while let Some((run, rests, stacks)) = open.pop() {
        let ways: Vec<Ways> = stacks.iter().map(|&stack| listing.ways(stack)).collect();
        let read = ways.iter().any(|ways| ways.end.is_some());
        agree(
            &format!("the word {run:?}"),
            read,
            rests.iter().any(|rest| words.may_end(rest)),
        )?;
        if run.len() == WORD_LENGTH {
            continue;
        }
        for &code in &tried {
            let steps = ways.iter().flat_map(|ways| &ways.steps);
            let on = steps
                .filter(|step| tree.code(step.node) == Some(code))
                .map(|step| step.stack)
                .collect();
            open.push((
                [&run[..], &[code]].concat(),
                words.derive_all(&rests, code),
                on,
            ));
        }
    }
    Ok(())
}

/// The prompt at every event is what directly follows it in some reading of
/// the loosened tree.
fn same_prompt(tree: &Tree) -> Result<(), String> {
    let loose = Rc::new(prompt::loosened(tree));
    let pairs = direct_pairs(&loose);
    for node in std::iter::once(None).chain(loose.events().map(Some)) {
        let follows = pairs.iter().filter(|pair| pair.0 == node);
        let listed = follows.fold(0, |listed, pair| listed | codes::one(pair.1));
        agree(
            "the prompt",
            listed,
            prompt::following_by_automaton(&loose, node),
        )?;
        agree(
            "the prompt at a place",
            listed,
            prompt::following_by_listing(&loose, node),
        )?;
    }
    Ok(())
}

/// Each event node, or none for the start, with a code that directly follows
/// it in a reading.
fn direct_pairs(loose: &Tree) -> BTreeSet<(Option<Node>, u8)> {
    let mut listing = Listing::new(loose);
    let mut pairs = BTreeSet::new();
    let mut layer = BTreeSet::from([(None, listing.start())]);
    // One more than the events there are shows every pair.
    for _ in 0..=loose.events().count() {
        let mut next = BTreeSet::new();
        for (node, stack) in layer {
            for step in listing.ways(stack).steps {
                pairs.insert((node, loose.code(step.node).expect("an event")));
                next.insert((Some(step.node), step.stack));
            }
        }
        layer = next;
    }
    pairs
}

#[cfg(test)]
mod tests {
    use super::{agree, all_trees, run, same_prompt, same_ways_but_states, same_words};
    use crate::automaton::Automaton;
    use crate::conflict;
    use crate::explored::Explored;
    use crate::grow;
    use crate::notation::show;
    use crate::random::Random;
    use crate::readings::{Listing, HORIZON};
    use crate::words::Words;
    use std::rc::Rc;

    /// Larger trees, as far as few events reach: what the listing shows must
    /// hold, though it does not settle them.
    #[test]
    fn random_trees_agree_as_far_as_listed() {
        let mut random = Random::new(2);
        for _ in 0..1_500 {
            let tree = grow::small(&mut random);
            let automaton = Automaton::new(Rc::new(tree.clone()));
            let mut listing = Listing::new(&tree);
            let explored = Explored::new(&mut listing, 7);
            let shown = explored.shown_at(&tree).is_some();
            assert!(!shown || !automaton.is_deterministic(), "{}", show(&tree));
            let words = Words::new(&tree);
            let named = conflict::lowest(&tree, &automaton);
            let narrow = tree.repeats().iter().all(|&repeat| tree.cap(repeat) <= 3);
            let by_words = if narrow {
                conflict::lowest(&tree, &words)
            } else {
                named
            };
            agree("the conflict", by_words, named)
                .and_then(|()| same_ways_but_states(&tree, &automaton, &explored).map(|_| ()))
                .and_then(|()| same_words(&tree, &words, &mut listing))
                .and_then(|()| same_prompt(&tree))
                .unwrap_or_else(|what| panic!("{}: {what}", show(&tree)));
        }
    }

    #[test]
    fn every_small_tree_is_listed_once() {
        let trees = all_trees(3);
        let distinct: std::collections::BTreeSet<_> =
            trees.iter().map(|tree| tree.symbols().to_vec()).collect();
        assert_eq!((trees.len(), distinct.len()), (567, 567));
    }

    #[test]
    fn automaton_and_listing_agree_within_the_horizon() {
        let findings = run().unwrap_or_else(|what| panic!("{what}"));
        assert_eq!(findings.trees, 7_860);
        assert_eq!(findings.least_horizon(), HORIZON);
        assert!(findings.misjudged_with(10) > 0);
    }
}
