//! The cases of Write.

use super::Maker;
use crate::calls::{record_of, Call, Procedure, MOST_EVENTS};
use crate::codes::{CODES, WORD};
use crate::damage;
use crate::palette;
use crate::state::Place;
use crate::themes::{Theme, Theme as T};
use crate::trail::Trail;
use crate::tree::{Symbol, Tree, ENDLESS};

impl Maker {
    pub(super) fn write_refused(&mut self, turn: usize) -> Call {
        let file = damage::refused(&mut self.random, turn as u32 % 7 + 1);
        let (run, space) = (self.random.below(5), self.random.below(9));
        Call::Write {
            file,
            run: self.random.bytes(run),
            space: self.random.bytes(space),
        }
    }

    pub(super) fn write(&mut self, theme: Theme, turn: usize) -> Call {
        let procedure = self.procedure(theme, turn);
        let automaton = &procedure.automaton;
        let most = self.random.pick(&[3, 8, 20, 31, 90, 400]);
        let trail = Trail::to_an_end(automaton, &mut self.random, most);
        let complete = trail.complete(automaton);
        let (run, length) = match complete {
            _ if theme == T::WriteBroken && turn % 2 == 0 => (
                trail.broken(automaton, &mut self.random, turn / 2 % trail.places.len()),
                trail.items.len(),
            ),
            Some((run, items)) if theme != T::WriteBroken => (run, items.len()),
            _ => {
                let cut = self.random.below(trail.codes.len() + 1);
                (trail.codes[..cut].to_vec(), trail.items.len())
            }
        };
        let space = self.space(2 * length);
        Call::Write {
            file: self.file(&procedure.tree),
            run,
            space,
        }
    }

    /// Space for a record of so many bytes: just enough, too little or more.
    pub(super) fn space(&mut self, length: usize) -> Vec<u8> {
        let short = self.random.pick(&[1, 1, 2, 2, 3, length / 2, length]);
        let more = self.random.pick(&[1, 2, 3, 16]);
        let count = match self.random.below(10) {
            0..=2 => length.saturating_sub(short),
            3..=6 => length,
            _ => length + more,
        };
        self.random.bytes(count)
    }

    pub(super) fn write_too_long(&mut self, turn: usize) -> Call {
        let procedure = self.endless();
        let most = MOST_EVENTS + 1 + turn % 2;
        let trail = Trail::walk(
            &procedure.automaton,
            &mut self.random,
            Place::start(&procedure.tree),
            most,
            0,
        );
        let space = self.random.bytes(turn % 5);
        Call::Write {
            file: self.file(&procedure.tree),
            run: trail.codes,
            space,
        }
    }

    /// A run of exactly as many events as a record may have, every fourth
    /// time; else one of some thousands. The record fits or just does not.
    pub(super) fn write_longest(&mut self, turn: usize) -> Call {
        let block = self.random.pick(&[16, 64, 128, 256]);
        let codes = palette::codes(&mut self.random, &[WORD, CODES]);
        let code = |place: usize| codes[place % block % codes.len()];
        let mut symbols: Vec<Symbol> = vec![Symbol::Event(code(0))];
        for place in 1..block {
            symbols.extend([Symbol::Event(code(place)), Symbol::Sequence]);
        }
        symbols.push(ENDLESS);
        let procedure = Procedure::new(Tree::from_postfix(symbols).expect("a tree"));
        let events = if turn % 4 == 0 {
            MOST_EVENTS
        } else {
            block * self.random.within(2, 2_000 / block)
        };
        let run: Vec<u8> = (0..events).map(code).collect();
        let items = record_of(&procedure, &run).expect("whole blocks");
        let short = if turn % 8 == 4 { 1 } else { 0 };
        let space = self.random.bytes(2 * items.len() - short);
        Call::Write {
            file: self.file(&procedure.tree),
            run,
            space,
        }
    }
}
