//! Cases with codes at the edges: of a set's two words, and of what a file
//! may have. The procedures are written with letters, and runs are walked with
//! them; then each letter becomes its code, in the file and in the run.

use super::Maker;
use crate::calls::{Call, Procedure};
use crate::codes::HIGH;
use crate::file::{self, MOST_CODE};
use crate::palette::{BEYOND, EDGES};
use crate::parse;
use crate::state::Place;
use crate::stream::LETTERS;
use crate::trail::{self, Trail};
use crate::tree::Symbol;

/// Procedures over a, b and c: without conflict, then with one of each kind,
/// all but the first of them in two codes.
const PROCEDURES: [&str; 13] = [
    "a",
    "a{2,4}",
    "ab",
    "a+b",
    "a{0,1}(b+c)",
    "(a+b){2,3}c",
    "(ab{0,1}){3,4}c",
    "((a+e){2,2}(b+c)){0,}",
    "a+a",
    "(a+b)+(b+a)",
    "(a+b){0,1}(b+a)",
    "(a+b){1,2}(b+a)",
    "((a+b){1,2}){3,4}",
];

const LOW: u8 = HIGH - 1;
const PAST: u8 = MOST_CODE + 1;

/// What a, b and c stand for.
const ALPHABETS: [[u8; 3]; 11] = [
    // In the low word, in the high one, and in both.
    [0, LOW, 1],
    [MOST_CODE, HIGH, MOST_CODE - 1],
    [LOW, HIGH, MOST_CODE],
    [HIGH, LOW, HIGH + 1],
    [MOST_CODE, 0, LOW],
    // The same place in both words; then the lower code at the higher place.
    [HIGH, 0, 1],
    [HIGH + 6, 40, 6],
    // Past the limit, some with a place in the words that another code has.
    [PAST, MOST_CODE, LOW],
    [PAST, 0, HIGH],
    [MOST_CODE, PAST, LOW],
    [LOW, u8::MAX, PAST],
];

/// The codes of an event that a run gets besides its own, if it gets one.
const STRAYS: [&[u8]; 7] = [&[], &[PAST], &[u8::MAX], &[], &EDGES, &[PAST], &BEYOND];

/// The codes of a run over the letters.
fn run_of(letters: &[u8], codes: [u8; 3]) -> Vec<u8> {
    letters.iter().map(|&at| codes[usize::from(at)]).collect()
}

/// The file of a procedure over the letters.
fn file_of(symbols: &[Symbol], codes: [u8; 3]) -> Vec<u8> {
    let put = |symbol: &Symbol| match *symbol {
        Symbol::Event(at) => Symbol::Event(codes[usize::from(at)]),
        other => other,
    };
    file::write(&[], &symbols.iter().map(put).collect::<Vec<_>>())
}

impl Maker {
    /// The lists, the calls, the strays and the places are gone through at
    /// once. No two of their numbers have a common divisor, so everything meets.
    pub(super) fn edges(&mut self, turn: usize) -> Call {
        let codes = ALPHABETS[turn % ALPHABETS.len()];
        let procedure = Procedure::new(parse::tree(PROCEDURES[turn % PROCEDURES.len()]));
        let file = file_of(procedure.tree.symbols(), codes);
        let place = if turn % 2 == 0 {
            Place::start(&procedure.tree)
        } else {
            trail::place(&procedure.automaton, &mut self.random)
        };
        let state = place.write();
        match LETTERS.as_bytes()[turn % LETTERS.len()] {
            b'J' => Call::Judge { file },
            b'F' => {
                let trail = Trail::walk(&procedure.automaton, &mut self.random, place, 5, 4);
                Call::Follow {
                    file,
                    state,
                    events: self.strayed(run_of(&trail.codes, codes), turn),
                }
            }
            b'W' => {
                let trail = Trail::to_an_end(&procedure.automaton, &mut self.random, 4);
                let complete = trail.complete(&procedure.automaton);
                let (letters, items) = complete.unwrap_or((trail.codes, trail.items));
                Call::Write {
                    file,
                    run: self.strayed(run_of(&letters, codes), turn),
                    space: self.space(2 * items.len()),
                }
            }
            b'C' => Call::Check {
                file,
                record: self.record(&procedure, 6),
            },
            _ => Call::Prompt { file, state },
        }
    }

    /// The run with its stray, anywhere.
    fn strayed(&mut self, mut run: Vec<u8>, turn: usize) -> Vec<u8> {
        let strays = STRAYS[turn % STRAYS.len()];
        if !strays.is_empty() {
            let at = self.random.below(run.len() + 1);
            run.insert(at, self.random.pick(strays));
        }
        run
    }
}

#[cfg(test)]
mod tests {
    use super::{ALPHABETS, LETTERS, PROCEDURES, STRAYS};
    use crate::calls::Procedure;
    use crate::parse;
    use std::collections::BTreeSet;

    #[test]
    fn every_call_meets_every_procedure_with_all_codes() {
        let lengths = [
            LETTERS.len(),
            PROCEDURES.len(),
            ALPHABETS.len(),
            STRAYS.len(),
            2,
        ];
        let all = lengths.iter().product();
        let met: BTreeSet<_> = (0..all)
            .map(|turn| lengths.map(|length| turn % length))
            .collect();
        assert_eq!(met.len(), all);
    }

    /// The kind of each conflict, and how many codes are shared.
    #[test]
    fn procedures_have_the_conflicts_they_are_for() {
        let told = PROCEDURES.map(|text| {
            let conflict = Procedure::new(parse::tree(text)).conflict;
            conflict.map_or((0, 0), |found| (found.kind, found.shared.count_ones()))
        });
        assert_eq!(told[..8], [(0, 0); 8]);
        assert_eq!(told[8..], [(1, 1), (1, 2), (2, 2), (3, 2), (4, 2)]);
    }
}
