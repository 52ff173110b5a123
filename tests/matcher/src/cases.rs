//! The cases: calls made from a seed, by themes that take turns, so that
//! every answer of every call comes up often enough whatever the seed.

mod edges;
mod shared;
mod writes;

use crate::calls::{Call, Procedure, MOST_EVENTS};
use crate::codes;
use crate::damage::{self, FIELDS};
use crate::file::MOST_REPEATS;
use crate::grow::{self, SHAPES};
use crate::limits;
use crate::parse;
use crate::random::Random;
use crate::record;
use crate::state::STATE_BYTES;
use crate::stream;
use crate::themes::{Theme, Theme as T, BENCH, ROUND};
use crate::trail::{self, Trail};
use crate::tree::{Symbol, Tree, ENDLESS};
use std::collections::HashMap;

/// Makes one call after another.
pub struct Maker {
    /// The letters of the calls that it makes.
    calls: String,
    random: Random,
    round: Vec<Theme>,
    made: usize,
    turns: HashMap<Theme, usize>,
}

impl Maker {
    pub fn new(seed: u64, calls: &str) -> Maker {
        let round = ROUND
            .iter()
            .filter(|(theme, _)| theme.letters().contains(|letter| calls.contains(letter)))
            .flat_map(|&(theme, count)| vec![theme; count])
            .collect();
        Maker {
            calls: calls.to_string(),
            random: Random::new(seed),
            round,
            made: 0,
            turns: HashMap::new(),
        }
    }

    /// The next call; those that are not asked for are passed over.
    pub fn next(&mut self) -> Call {
        loop {
            let call = self.any_next();
            if self.calls.contains(stream::letter(&call)) {
                return call;
            }
        }
    }

    fn any_next(&mut self) -> Call {
        let theme = self.round[self.made % self.round.len()];
        self.made += 1;
        let turn = self.turns.entry(theme).or_default();
        *turn += 1;
        let turn = *turn - 1;
        self.call(theme, turn)
    }

    fn call(&mut self, theme: Theme, turn: usize) -> Call {
        match theme {
            T::Bench => self.bench(turn),
            T::Field | T::Limit => self.any_call(theme, turn),
            T::Edges => self.edges(turn),
            T::JudgeRefused | T::JudgeSmall | T::JudgeAdmitted => self.judge(theme, turn),
            T::JudgeConflicted | T::JudgeShared => self.judge(theme, turn),
            T::JudgeLarge | T::JudgeRepeats => self.judge(theme, turn),
            T::FollowRefused | T::FollowWrongState => self.follow_refused(theme, turn),
            T::FollowLong => self.follow_long(turn),
            T::FollowNested | T::FollowBroken | T::FollowAdmitted => self.follow(theme, turn),
            T::FollowLarge | T::FollowRepeats => self.follow(theme, turn),
            T::WriteRefused => self.write_refused(turn),
            T::WriteTooLong => self.write_too_long(turn),
            T::WriteLongest => self.write_longest(turn),
            T::WriteNested | T::WriteBroken | T::WriteAdmitted => self.write(theme, turn),
            T::WriteLarge | T::WriteRepeats => self.write(theme, turn),
            T::CheckRefused => self.check_refused(turn),
            T::CheckRecord | T::CheckChanged | T::CheckLarge => self.check(theme, turn),
            T::PromptRefused | T::PromptWrongState => self.prompt_refused(theme, turn),
            T::PromptNested | T::PromptAdmitted | T::PromptLarge => self.prompt(theme, turn),
        }
    }

    fn file(&mut self, tree: &Tree) -> Vec<u8> {
        damage::file_of(&mut self.random, tree)
    }

    /// The admitted procedure of a theme.
    fn procedure(&mut self, theme: Theme, turn: usize) -> Procedure {
        let shape = SHAPES[turn % SHAPES.len()];
        match theme {
            T::FollowLarge | T::WriteLarge | T::PromptLarge => {
                grow::large_admitted(&mut self.random, shape)
            }
            T::FollowAdmitted | T::WriteAdmitted | T::PromptAdmitted => {
                grow::admitted(&mut self.random)
            }
            T::FollowRepeats | T::WriteRepeats => self.admitted_repeats(),
            _ => grow::nested(&mut self.random),
        }
    }

    /// 32 repeats, nested or in a row.
    fn admitted_repeats(&mut self) -> Procedure {
        loop {
            let grow = if self.random.percent(70) {
                grow::nest
            } else {
                grow::row
            };
            let symbols = grow(&mut self.random, 32);
            let procedure = Procedure::new(Tree::from_postfix(symbols).expect("a tree"));
            if procedure.conflict.is_none() {
                return procedure;
            }
        }
    }

    /// Each bench procedure, each call, short runs over a and b.
    fn bench(&mut self, turn: usize) -> Call {
        let procedure = Procedure::new(parse::tree(BENCH[turn % BENCH.len()]));
        let file = self.file(&procedure.tree);
        let length = self.random.below(7);
        let run: Vec<u8> = (0..length)
            .map(|_| u8::from(self.random.percent(25)))
            .collect();
        let state = trail::place(&procedure.automaton, &mut self.random).write();
        match turn / BENCH.len() % 6 {
            0 => Call::Judge { file },
            1 => Call::Follow {
                file,
                state: vec![0; STATE_BYTES],
                events: run,
            },
            2 => Call::Write {
                file,
                run,
                space: self.random.bytes(40),
            },
            3 => Call::Check {
                file,
                record: self.record(&procedure, 6),
            },
            4 => Call::Prompt { file, state },
            _ => Call::Follow {
                file,
                state,
                events: run,
            },
        }
    }

    /// The record of a random reading, or of its beginning.
    fn record(&mut self, procedure: &Procedure, most: usize) -> Vec<u8> {
        let trail = Trail::to_an_end(&procedure.automaton, &mut self.random, most);
        let complete = trail.complete(&procedure.automaton);
        record::write(&complete.map_or(trail.items, |(_, items)| items))
    }

    /// Files damaged in a field, or at a limit, for each call in turn.
    fn any_call(&mut self, theme: Theme, turn: usize) -> Call {
        let file = match theme {
            T::Field => damage::field_damaged(&mut self.random, turn % FIELDS),
            _ => limits::file(turn % limits::FILES),
        };
        let (state, run) = (vec![0; STATE_BYTES], vec![0; turn % 3]);
        match turn / 2 % 5 {
            0 => Call::Follow {
                file,
                state,
                events: run,
            },
            1 => Call::Write {
                file,
                run,
                space: vec![7; 9],
            },
            2 => Call::Check {
                file,
                record: vec![0; turn % 4],
            },
            3 => Call::Prompt { file, state },
            _ => Call::Judge { file },
        }
    }

    fn judge(&mut self, theme: Theme, turn: usize) -> Call {
        let random = &mut self.random;
        let shape = SHAPES[turn % SHAPES.len()];
        let tree = match theme {
            T::JudgeRefused => {
                return Call::Judge {
                    file: damage::refused(random, turn as u32 % 6 + 1),
                }
            }
            T::JudgeSmall => (*grow::any(random).tree).clone(),
            T::JudgeAdmitted => (*grow::admitted(random).tree).clone(),
            T::JudgeConflicted => (*grow::conflicted(random, turn as u32 % 4 + 1).tree).clone(),
            T::JudgeShared => shared::tree(random, turn),
            T::JudgeLarge if turn % 8 < 4 => grow::largest(random, shape),
            T::JudgeLarge => grow::large(random, shape),
            _ => {
                let grow = if turn % 2 == 0 { grow::nest } else { grow::row };
                Tree::from_postfix(grow(random, 31 + turn % 3)).expect("a tree")
            }
        };
        Call::Judge {
            file: self.file(&tree),
        }
    }

    fn follow_refused(&mut self, theme: Theme, turn: usize) -> Call {
        let length = self.random.below(8);
        let events = self.random.bytes(length);
        if theme == T::FollowRefused {
            let file = damage::refused(&mut self.random, turn as u32 % 7 + 1);
            let state =
                self.random
                    .pick(&[vec![0; 66], vec![0; 66], vec![0; 65], vec![9; 66], vec![]]);
            return Call::Follow {
                file,
                state,
                events,
            };
        }
        let procedure = self.procedure(theme, turn);
        let state = trail::wrong_state(&procedure.automaton, &mut self.random, turn);
        Call::Follow {
            file: self.file(&procedure.tree),
            state,
            events,
        }
    }

    fn follow(&mut self, theme: Theme, turn: usize) -> Call {
        let procedure = self.procedure(theme, turn);
        let automaton = &procedure.automaton;
        let place = trail::place(automaton, &mut self.random);
        let most = self.random.pick(&[0, 1, 1, 2, 5, 12, 30, 31, 60, 300]);
        let trail = Trail::walk(automaton, &mut self.random, place.clone(), most, 4);
        let breaks = theme == T::FollowBroken || self.random.percent(15);
        let events = if breaks {
            trail.broken(automaton, &mut self.random, turn % trail.places.len())
        } else if self.random.percent(50) {
            trail
                .complete(automaton)
                .map_or(trail.codes, |(codes, _)| codes)
        } else {
            trail.codes
        };
        Call::Follow {
            file: self.file(&procedure.tree),
            state: place.write(),
            events,
        }
    }

    /// Any admitted procedure, then an event of its own, without end.
    fn endless(&mut self) -> Procedure {
        loop {
            let inner = grow::nested(&mut self.random);
            let used: Vec<u8> = inner
                .tree
                .events()
                .filter_map(|node| inner.tree.code(node))
                .collect();
            let free: Vec<u8> = codes::all().filter(|code| !used.contains(code)).collect();
            if free.is_empty() || inner.tree.repeats().len() == MOST_REPEATS {
                continue;
            }
            let own = Symbol::Event(self.random.pick(&free));
            let more = [own, Symbol::Sequence, ENDLESS];
            let tree = Tree::from_postfix([inner.tree.symbols(), &more].concat()).expect("a tree");
            return Procedure::new(tree);
        }
    }

    /// Every fourth has more events than a record may have.
    fn follow_long(&mut self, turn: usize) -> Call {
        let procedure = self.endless();
        let automaton = &procedure.automaton;
        let place = trail::place(automaton, &mut self.random);
        let most = if turn % 4 == 0 {
            MOST_EVENTS + self.random.below(3)
        } else {
            self.random.within(400, 5_000)
        };
        let trail = Trail::walk(automaton, &mut self.random, place.clone(), most, 0);
        let at = self
            .random
            .pick(&[trail.places.len() - 1, trail.places.len() / 2]);
        let events = if turn % 2 == 0 {
            trail.codes
        } else {
            trail.broken(automaton, &mut self.random, at)
        };
        Call::Follow {
            file: self.file(&procedure.tree),
            state: place.write(),
            events,
        }
    }

    fn check_refused(&mut self, turn: usize) -> Call {
        let file = damage::refused(&mut self.random, turn as u32 % 6 + 1);
        let length = self.random.below(9);
        Call::Check {
            file,
            record: self.random.bytes(length),
        }
    }

    fn check(&mut self, theme: Theme, turn: usize) -> Call {
        let shape = SHAPES[turn % SHAPES.len()];
        let procedure = match turn % 3 {
            _ if theme == T::CheckLarge => Procedure::new(grow::large(&mut self.random, shape)),
            0 => grow::conflicted(&mut self.random, turn as u32 / 3 % 4 + 1),
            1 => grow::nested(&mut self.random),
            _ => grow::any(&mut self.random),
        };
        let most = self.random.pick(&[2, 6, 15, 31, 60, 300]);
        let trail = Trail::to_an_end(&procedure.automaton, &mut self.random, most);
        let items = trail
            .complete(&procedure.automaton)
            .map_or(trail.items, |(_, items)| items);
        let changed = theme == T::CheckChanged || self.random.percent(10);
        let record = if changed {
            trail::wrong_record(&procedure.automaton, &mut self.random, &items, turn)
        } else {
            record::write(&items)
        };
        Call::Check {
            file: self.file(&procedure.tree),
            record,
        }
    }

    fn prompt_refused(&mut self, theme: Theme, turn: usize) -> Call {
        if theme == T::PromptRefused {
            let file = damage::refused(&mut self.random, turn as u32 % 7 + 1);
            return Call::Prompt {
                file,
                state: self.random.pick(&[vec![0; 66], vec![0; 67], vec![1; 66]]),
            };
        }
        let procedure = self.procedure(theme, turn);
        let state = trail::wrong_state(&procedure.automaton, &mut self.random, turn);
        Call::Prompt {
            file: self.file(&procedure.tree),
            state,
        }
    }

    fn prompt(&mut self, theme: Theme, turn: usize) -> Call {
        let procedure = self.procedure(theme, turn);
        let place = trail::place(&procedure.automaton, &mut self.random);
        Call::Prompt {
            file: self.file(&procedure.tree),
            state: place.write(),
        }
    }
}

#[cfg(test)]
mod tests {
    use super::Maker;
    use crate::calls::answer;
    use crate::coverage::Coverage;
    use crate::stream::{bytes, letter, LETTERS};

    #[test]
    fn a_seed_makes_the_same_cases_again() {
        let made = |seed: u64| {
            let mut maker = Maker::new(seed, LETTERS);
            (0..300).map(|_| bytes(&maker.next())).collect::<Vec<_>>()
        };
        assert_eq!(made(5), made(5));
        assert_ne!(made(5), made(6));
    }

    fn covers(calls: &str) {
        let mut maker = Maker::new(1, calls);
        let mut coverage = Coverage::new(calls);
        for _ in 0..2_000 {
            let call = maker.next();
            assert!(calls.contains(letter(&call)));
            coverage.add(&call, &answer(&call));
        }
        assert_eq!(coverage.gaps(), [""; 0]);
    }

    #[test]
    fn two_thousand_cases_cover_every_outcome() {
        covers(LETTERS);
    }

    #[test]
    fn two_thousand_cases_of_one_call_cover_its_outcomes() {
        LETTERS.split_inclusive(|_| true).for_each(covers);
    }
}
