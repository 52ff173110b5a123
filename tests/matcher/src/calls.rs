//! The five calls, each answered in more than one way: words by derivatives,
//! readings by listing as far as it reaches, the automaton everywhere. Where
//! two ways differ the matcher itself is wrong, and it stops.

use crate::automaton::Automaton;
use crate::codes::Codes;
use crate::conflict::{self, Conflict};
use crate::explored::Explored;
use crate::file;
use crate::prompt;
use crate::readings::{Listing, HORIZON};
use crate::record::{self, Item};
use crate::state::Place;
use crate::tree::{Symbol, Tree};
use crate::words::Words;
use std::rc::Rc;

pub const MOST_EVENTS: usize = 65_536;

/// A call with all that is handed over.
#[derive(Clone, Debug)]
pub enum Call {
    Judge {
        file: Vec<u8>,
    },
    Follow {
        file: Vec<u8>,
        state: Vec<u8>,
        events: Vec<u8>,
    },
    Write {
        file: Vec<u8>,
        run: Vec<u8>,
        space: Vec<u8>,
    },
    Check {
        file: Vec<u8>,
        record: Vec<u8>,
    },
    Prompt {
        file: Vec<u8>,
        state: Vec<u8>,
    },
}

impl Call {
    pub fn file(&self) -> &[u8] {
        match self {
            Call::Judge { file }
            | Call::Follow { file, .. }
            | Call::Write { file, .. }
            | Call::Check { file, .. }
            | Call::Prompt { file, .. } => file,
        }
    }
}

/// All that a call gives, lent space included.
#[derive(Clone, Debug, PartialEq, Eq)]
pub enum Outcome {
    Judge {
        answer: u32,
        node: usize,
        kind: u32,
        code: u8,
        /// All the codes that the conflict shares; Judge also counts them.
        shared: Codes,
    },
    Follow {
        answer: u32,
        taken: usize,
        verdict: u32,
        state: Vec<u8>,
    },
    Write {
        answer: u32,
        length: usize,
        space: Vec<u8>,
    },
    Check {
        answer: u32,
        yes: u32,
    },
    Prompt {
        answer: u32,
        set: Codes,
    },
}

impl Outcome {
    pub fn answer(&self) -> u32 {
        match *self {
            Outcome::Judge { answer, .. }
            | Outcome::Follow { answer, .. }
            | Outcome::Write { answer, .. }
            | Outcome::Check { answer, .. }
            | Outcome::Prompt { answer, .. } => answer,
        }
    }
}

/// A file that none of 1 to 6 refuses, with its judgement.
pub struct Procedure {
    pub tree: Rc<Tree>,
    pub automaton: Automaton,
    pub conflict: Option<Conflict>,
}

impl Procedure {
    pub fn new(tree: Tree) -> Procedure {
        let tree = Rc::new(tree);
        let automaton = Automaton::new(Rc::clone(&tree));
        let conflict = conflict::lowest(&tree, &automaton);
        assert_eq!(
            conflict.is_none(),
            automaton.is_deterministic(),
            "a conflict against the automaton"
        );
        if listing_settles(&tree) {
            let shown = Explored::new(&mut Listing::new(&tree), HORIZON).shown_at(&tree);
            assert_eq!(
                conflict.is_some(),
                shown.is_some(),
                "a conflict against the listing"
            );
            assert_eq!(
                conflict,
                conflict::lowest(&tree, &Words::new(&tree)),
                "a conflict against words"
            );
        }
        Procedure {
            tree,
            automaton,
            conflict,
        }
    }

    /// The procedure of a file that is answered with 0 by Judge.
    fn admitted(file: &[u8]) -> Result<Procedure, u32> {
        let tree = file::read(file).map_err(|refusal| refusal.answer)?;
        let procedure = Procedure::new(tree);
        if procedure.conflict.is_some() {
            return Err(7);
        }
        Ok(procedure)
    }
}

/// Whether the tree is one of those for which the horizon was tested.
fn listing_settles(tree: &Tree) -> bool {
    let small = |symbol: &Symbol| match symbol {
        Symbol::Repeat(bounds) => bounds.lower <= 3 && bounds.upper.is_none_or(|upper| upper <= 3),
        _ => true,
    };
    tree.len() <= 4 && tree.symbols().iter().all(small)
}

pub fn answer(call: &Call) -> Outcome {
    match call {
        Call::Judge { file } => judge(file),
        Call::Follow {
            file,
            state,
            events,
        } => follow(file, state, events),
        Call::Write { file, run, space } => write(file, run, space),
        Call::Check { file, record } => check(file, record),
        Call::Prompt { file, state } => prompt(file, state),
    }
}

pub fn judge(file: &[u8]) -> Outcome {
    let without_conflict = |answer, node| Outcome::Judge {
        answer,
        node,
        kind: 0,
        code: 0,
        shared: 0,
    };
    let tree = match file::read(file) {
        Ok(tree) => tree,
        Err(refusal) => return without_conflict(refusal.answer, refusal.node),
    };
    match Procedure::new(tree).conflict {
        Some(conflict) => Outcome::Judge {
            answer: 7,
            node: conflict.node,
            kind: conflict.kind,
            code: conflict.code(),
            shared: conflict.shared,
        },
        None => without_conflict(0, 0),
    }
}

pub fn follow(file: &[u8], state: &[u8], events: &[u8]) -> Outcome {
    let refused = |answer| Outcome::Follow {
        answer,
        taken: 0,
        verdict: 0,
        state: state.to_vec(),
    };
    let procedure = match Procedure::admitted(file) {
        Ok(procedure) => procedure,
        Err(answer) => return refused(answer),
    };
    let Some(place) = Place::read(&procedure.tree, state) else {
        return refused(8);
    };
    let (taken, complete) = follow_words(&procedure.tree, &place, events);
    let (_, after) = walk(&procedure.automaton, &place, &events[..taken]);
    let ends = procedure.automaton.end(&after).is_some();
    assert_eq!(complete, ends, "the end by words against the automaton");
    if let Some(&code) = events.get(taken) {
        let goes_on = procedure
            .automaton
            .allowed_by(&after, code)
            .next()
            .is_some();
        assert!(!goes_on, "the event taken by the automaton alone");
    }
    if taken <= HORIZON {
        follow_listing(&procedure.tree, &place, events, taken, &after);
    }
    let verdict = match (taken == events.len(), complete) {
        (true, true) => 0,
        (true, false) => 1,
        (false, _) => 2,
    };
    Outcome::Follow {
        answer: 0,
        taken,
        verdict,
        state: after.write(),
    }
}

/// How many events continue from the place, and whether a word ends there.
fn follow_words(tree: &Tree, place: &Place, events: &[u8]) -> (usize, bool) {
    let words = Words::new(tree);
    let mut rest = words.rest_at(place);
    let mut taken = 0;
    for &code in events {
        let mut next = words.derive(&rest, code);
        assert!(next.len() <= 1, "two derivatives of an admitted procedure");
        let Some(only) = next.pop() else {
            break;
        };
        rest = only;
        taken += 1;
    }
    (taken, words.may_end(&rest))
}

/// The items passed and the place reached by the automaton, which must have
/// exactly one move for each code.
fn walk(automaton: &Automaton, place: &Place, codes: &[u8]) -> (Vec<Item>, Place) {
    let mut items = Vec::new();
    let mut place = place.clone();
    for &code in codes {
        let mut moves = automaton.allowed_by(&place, code).copied();
        let step = moves.next().expect("the event taken by words alone");
        assert!(moves.next().is_none(), "two moves of an admitted procedure");
        drop(moves);
        automaton.add_items(place.node, &step, &mut items);
        automaton.apply(&mut place, &step);
    }
    (items, place)
}

/// The same from the readings themselves.
fn follow_listing(tree: &Tree, place: &Place, events: &[u8], taken: usize, after: &Place) {
    let mut listing = Listing::new(tree);
    let stack = listing.stack_at(place);
    let beginnings = listing.beginnings(stack, &events[..taken]);
    assert_eq!(beginnings.len(), 1, "one beginning of a reading");
    let (items, stack) = &beginnings[0];
    assert_eq!(&place.after(tree, items), after, "the place by listing");
    let steps = listing.ways(*stack).steps;
    let goes_on = |code: u8| steps.iter().any(|step| tree.code(step.node) == Some(code));
    assert!(
        !events.get(taken).is_some_and(|&code| goes_on(code)),
        "the event taken by listing alone"
    );
}

pub fn write(file: &[u8], run: &[u8], space: &[u8]) -> Outcome {
    let refused = |answer| Outcome::Write {
        answer,
        length: 0,
        space: space.to_vec(),
    };
    let procedure = match Procedure::admitted(file) {
        Ok(procedure) => procedure,
        Err(answer) => return refused(answer),
    };
    if run.len() > MOST_EVENTS {
        return refused(9);
    }
    let Some(items) = record_of(&procedure, run) else {
        return refused(10);
    };
    let bytes = record::write(&items);
    if bytes.len() > space.len() {
        return refused(11);
    }
    let mut after = space.to_vec();
    after[..bytes.len()].copy_from_slice(&bytes);
    Outcome::Write {
        answer: 0,
        length: bytes.len(),
        space: after,
    }
}

/// The items of the one reading with these codes, if the run is a word.
pub fn record_of(procedure: &Procedure, run: &[u8]) -> Option<Vec<Item>> {
    let tree = &procedure.tree;
    let start = Place::start(tree);
    let (taken, complete) = follow_words(tree, &start, run);
    let is_word = complete && taken == run.len();
    let items = is_word.then(|| {
        let (items, after) = walk(&procedure.automaton, &start, run);
        let end = procedure
            .automaton
            .end(&after)
            .expect("the end by words alone");
        [items, end].concat()
    });
    if run.len() <= HORIZON {
        let listed = Listing::new(tree).readings_of(run);
        assert_eq!(
            listed,
            items.iter().cloned().collect::<Vec<_>>(),
            "the readings of a run"
        );
    }
    items
}

pub fn check(file: &[u8], record: &[u8]) -> Outcome {
    let tree = match file::read(file) {
        Ok(tree) => tree,
        Err(refusal) => {
            return Outcome::Check {
                answer: refusal.answer,
                yes: 0,
            }
        }
    };
    let Some(items) = record::read(record) else {
        return Outcome::Check { answer: 0, yes: 0 };
    };
    let events = items
        .iter()
        .filter(|item| matches!(item, Item::Event(_)))
        .count();
    let automaton = Automaton::new(Rc::new(tree));
    let yes = automaton.is_reading(&items);
    if events <= HORIZON {
        assert_eq!(
            yes,
            Listing::new(&automaton.tree).is_reading(&items),
            "a reading"
        );
    }
    Outcome::Check {
        answer: 0,
        yes: u32::from(yes),
    }
}

pub fn prompt(file: &[u8], state: &[u8]) -> Outcome {
    let procedure = match Procedure::admitted(file) {
        Ok(procedure) => procedure,
        Err(answer) => return Outcome::Prompt { answer, set: 0 },
    };
    let tree = &procedure.tree;
    let Some(place) = Place::read(tree, state) else {
        return Outcome::Prompt { answer: 8, set: 0 };
    };
    let loose = Rc::new(prompt::loosened(tree));
    let set = prompt::following_by_automaton(&loose, place.node);
    assert_eq!(
        set,
        prompt::following_by_listing(&loose, place.node),
        "the prompt"
    );
    if place.node.is_none() {
        assert_eq!(
            set,
            Words::new(tree).first(tree.root()),
            "first of the root"
        );
    }
    Outcome::Prompt { answer: 0, set }
}
