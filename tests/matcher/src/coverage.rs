//! What the cases cover: how many gave each answer, verdict, yes and no, what
//! codes they had, and which share of Follow and Write had admitted files with
//! nested repeats.

use crate::calls::{Call, Outcome};
use crate::codes::{self, Codes, CODES, HIGH, LOW_WORD};
use crate::file::{self, MOST_CODE};
use crate::stream::{letter, LETTERS};
use crate::tree::Tree;

/// Large sets must have each outcome this often, middling ones once; small
/// sets are free.
const OFTEN: usize = 50;
const LARGE_SET: usize = 20_000;
const MIDDLING_SET: usize = 2_000;

/// Each call with the answers that it can give, in the order of `LETTERS`.
const ANSWERS: [(&str, &[u32]); 5] = [
    ("Judge", &[0, 1, 2, 3, 4, 5, 6, 7]),
    ("Follow", &[0, 1, 2, 3, 4, 5, 6, 7, 8]),
    ("Write", &[0, 1, 2, 3, 4, 5, 6, 7, 9, 10, 11]),
    ("Check", &[0, 1, 2, 3, 4, 5, 6]),
    ("Prompt", &[0, 1, 2, 3, 4, 5, 6, 7, 8]),
];

const VERDICTS: [&str; 3] = ["complete", "unfinished", "broken"];
const CHECKS: [&str; 2] = ["no", "yes"];
const KINDS: [&str; 4] = ["kind 1", "kind 2", "kind 3", "kind 4"];
/// Files that a call admits, and those that it refuses for a code.
const FILES: [&str; 4] = ["low codes", "a high code", "the highest", "one too high"];
/// Events that continue, and those that never do.
const EVENTS: [&str; 2] = ["the highest taken", "one too high not taken"];
/// What a set has codes in.
const WORDS: [&str; 4] = ["no word", "the low word", "the high word", "both words"];
/// How many codes a conflict shares.
const COUNTS: [&str; 3] = ["one code", "several", "every code"];

/// The counts of one set of cases.
#[derive(Default)]
pub struct Coverage {
    /// The letters of the calls that the set is to cover.
    calls: String,
    cases: usize,
    answers: [[usize; 12]; 5],
    verdicts: [usize; 3],
    checks: [usize; 2],
    kinds: [usize; 4],
    /// Conflicts that share more than one code, by their kinds.
    more: [usize; 4],
    /// Conflicts by how many codes they share, as in `COUNTS`.
    counts: [usize; 3],
    /// The files of each call by their codes, as in `FILES`.
    files: [[usize; 4]; 5],
    /// Follow's events and Write's runs, as in `EVENTS`.
    events: [usize; 2],
    runs: [usize; 2],
    /// The codes that conflicts share and that prompts light, as in `WORDS`.
    shared: [usize; 4],
    prompts: [usize; 4],
    /// Cases of each call that have admitted files with nested repeats.
    nested: [usize; 5],
}

/// The words that a set has codes in, by its place in `WORDS`.
fn words(set: Codes) -> usize {
    usize::from(set & LOW_WORD != 0) + 2 * usize::from(set & !LOW_WORD != 0)
}

/// Whether the node's record is an event one code past the limit.
fn is_too_high(file: &[u8], node: usize) -> bool {
    file::records(file).is_ok_and(|records| records[node] == [1, MOST_CODE + 1, 0, 0, 0, 0, 0, 0])
}

impl Coverage {
    pub fn new(calls: &str) -> Coverage {
        Coverage {
            calls: calls.to_string(),
            ..Coverage::default()
        }
    }

    pub fn add(&mut self, call: &Call, outcome: &Outcome) {
        let row = LETTERS.find(letter(call)).expect("a call's letter");
        let answer = outcome.answer();
        self.cases += 1;
        self.answers[row][answer as usize] += 1;
        self.add_outcome(outcome);
        self.add_events(call, outcome);
        match file::read(call.file()) {
            Ok(tree) if answer == 0 || answer > 7 => self.add_admitted(row, &tree),
            Ok(_) => {}
            Err(refusal) => {
                let too_high = answer == 4 && is_too_high(call.file(), refusal.node);
                self.files[row][3] += usize::from(too_high);
            }
        }
    }

    fn add_outcome(&mut self, outcome: &Outcome) {
        match *outcome {
            Outcome::Judge {
                answer: 7,
                kind,
                shared,
                ..
            } => self.add_conflict(kind as usize - 1, shared),
            Outcome::Follow {
                answer: 0, verdict, ..
            } => self.verdicts[verdict as usize] += 1,
            Outcome::Check { answer: 0, yes } => self.checks[yes as usize] += 1,
            Outcome::Prompt { answer: 0, set } => self.prompts[words(set)] += 1,
            _ => {}
        }
    }

    fn add_conflict(&mut self, kind: usize, shared: Codes) {
        let count = codes::count(shared);
        self.kinds[kind] += 1;
        self.more[kind] += usize::from(count > 1);
        self.counts[usize::from(count > 1) + usize::from(count == CODES)] += 1;
        self.shared[words(shared)] += 1;
    }

    fn add_events(&mut self, call: &Call, outcome: &Outcome) {
        let too_high = &(MOST_CODE + 1);
        match (call, outcome) {
            (
                Call::Follow { events, .. },
                &Outcome::Follow {
                    answer: 0, taken, ..
                },
            ) => {
                self.events[0] += usize::from(events[..taken].contains(&MOST_CODE));
                self.events[1] += usize::from(events.get(taken) == Some(too_high));
            }
            (Call::Write { run, .. }, Outcome::Write { answer: 0, .. }) => {
                self.runs[0] += usize::from(run.contains(&MOST_CODE))
            }
            (Call::Write { run, .. }, Outcome::Write { answer: 10, .. }) => {
                self.runs[1] += usize::from(run.contains(too_high))
            }
            _ => {}
        }
    }

    fn add_admitted(&mut self, row: usize, tree: &Tree) {
        let codes = || tree.events().filter_map(|node| tree.code(node));
        let high = codes().any(|code| code >= HIGH);
        self.files[row][usize::from(high)] += 1;
        self.files[row][2] += usize::from(codes().any(|code| code == MOST_CODE));
        self.nested[row] += usize::from(tree.has_nested_repeats());
    }

    /// What is counted of the calls that the set is to cover.
    fn rows(&self) -> Vec<Row> {
        let mut rows = Vec::new();
        for (row, (letter, (heading, answers))) in LETTERS.chars().zip(ANSWERS).enumerate() {
            let told = |answer: &u32| (answer.to_string(), self.answers[row][*answer as usize]);
            rows.push(Row {
                letter,
                heading: heading.to_string(),
                counts: answers.iter().map(told).collect(),
            });
        }
        for (row, (letter, (call, _))) in LETTERS.chars().zip(ANSWERS).enumerate() {
            let heading = format!("{call}'s files");
            rows.push(Row::of(letter, &heading, &FILES, &self.files[row]));
        }
        rows.push(Row::of('F', "verdicts", &VERDICTS, &self.verdicts));
        rows.push(Row::of('F', "events", &EVENTS, &self.events));
        rows.push(Row::of('W', "runs", &EVENTS, &self.runs));
        rows.push(Row::of('C', "checks", &CHECKS, &self.checks));
        rows.push(Row::of('J', "conflicts", &KINDS, &self.kinds));
        rows.push(Row::of('J', "shared", &COUNTS, &self.counts));
        rows.push(Row::of('J', "more than one", &KINDS, &self.more));
        rows.push(Row::of('J', "shared in", &WORDS[1..], &self.shared[1..]));
        rows.push(Row::of('P', "prompts", &WORDS, &self.prompts));
        rows.retain(|row| self.calls.contains(row.letter));
        rows
    }

    /// The calls that nested repeats are asked of, with all their cases and
    /// those on admitted files with such repeats.
    fn nested(&self) -> Vec<(&'static str, usize, usize)> {
        let asked = LETTERS.chars().zip(ANSWERS).enumerate();
        asked
            .filter(|(_, (letter, _))| "FW".contains(*letter) && self.calls.contains(*letter))
            .map(|(row, (_, (call, _)))| (call, self.answers[row].iter().sum(), self.nested[row]))
            .collect()
    }

    /// The table as text.
    pub fn table(&self) -> String {
        let mut text = String::new();
        for Row {
            heading, counts, ..
        } in self.rows()
        {
            let cells: Vec<String> = counts
                .iter()
                .map(|(name, count)| format!("{name}: {count}"))
                .collect();
            text += &format!("{heading:<14} {}\n", cells.join(", "));
        }
        for (call, all, nested) in self.nested() {
            text += &format!("{call} on admitted files with nested repeats: {nested} of {all}\n");
        }
        text
    }

    /// What the set covers too little, in words.
    pub fn gaps(&self) -> Vec<String> {
        let least = match self.cases {
            LARGE_SET.. => OFTEN,
            MIDDLING_SET.. => 1,
            _ => return Vec::new(),
        };
        let mut gaps = Vec::new();
        for Row {
            heading, counts, ..
        } in self.rows()
        {
            let low = counts.into_iter().filter(|(_, count)| *count < least);
            gaps.extend(
                low.map(|(name, count)| format!("{heading} {name}: {count} of at least {least}")),
            );
        }
        for (call, all, nested) in self.nested() {
            if 3 * nested < all {
                gaps.push(format!(
                    "{call}: under a third on admitted files with nested repeats"
                ));
            }
        }
        gaps
    }
}

/// One line of the table: outcomes of one call, each with its count.
struct Row {
    letter: char,
    heading: String,
    counts: Vec<(String, usize)>,
}

impl Row {
    fn of(letter: char, heading: &str, names: &[&str], counts: &[usize]) -> Row {
        let names = names.iter().map(|name| name.to_string());
        Row {
            letter,
            heading: heading.to_string(),
            counts: names.zip(counts.iter().copied()).collect(),
        }
    }
}

#[cfg(test)]
mod tests {
    use super::{Coverage, MIDDLING_SET};
    use crate::calls::{answer, Call};
    use crate::file;
    use crate::parse::tree;
    use crate::state::STATE_BYTES;
    use crate::tree::Symbol;

    /// What is lacking where every case of a middling set is this one.
    fn lacking(call: Call) -> Vec<String> {
        let mut coverage = Coverage::new(&crate::stream::letter(&call).to_string());
        let outcome = answer(&call);
        (0..MIDDLING_SET).for_each(|_| coverage.add(&call, &outcome));
        coverage.gaps()
    }

    fn lacks(gaps: &[String], what: &str) -> bool {
        gaps.contains(&format!("{what}: 0 of at least 1"))
    }

    /// Of the names of a row all are lacking but one.
    fn assert_only(gaps: &[String], row: &str, names: &[&str], found: &str) {
        for name in names {
            let asked = format!("{row} {name}");
            assert_eq!(lacks(gaps, &asked), *name != found, "{asked}");
        }
    }

    fn file_of(text: &str) -> Vec<u8> {
        file::write(&[], tree(text).symbols())
    }

    fn prompt(text: &str) -> Vec<String> {
        lacking(Call::Prompt {
            file: file_of(text),
            state: vec![0; STATE_BYTES],
        })
    }

    #[test]
    fn each_word_of_a_prompt_is_asked_for() {
        for (text, lit) in [
            ("e", "no word"),
            ("#0+#63", "the low word"),
            ("#64+#127", "the high word"),
            ("#63+#64", "both words"),
        ] {
            assert_only(&prompt(text), "prompts", &super::WORDS, lit);
        }
    }

    #[test]
    fn each_sort_of_codes_is_asked_for() {
        let low = prompt("#63");
        assert!(!lacks(&low, "Prompt's files low codes"));
        assert!(lacks(&low, "Prompt's files a high code"));
        assert!(lacks(&low, "Prompt's files one too high"));
        let high = prompt("#64");
        assert!(lacks(&high, "Prompt's files low codes"));
        assert!(!lacks(&high, "Prompt's files a high code"));
        assert!(lacks(&high, "Prompt's files the highest"));
        assert!(!lacks(&prompt("#127"), "Prompt's files the highest"));
    }

    #[test]
    fn a_code_too_high_is_asked_for() {
        let gaps = |code| {
            lacking(Call::Judge {
                file: file::write(&[], &[Symbol::Event(code)]),
            })
        };
        assert!(!lacks(&gaps(128), "Judge's files one too high"));
        assert!(lacks(&gaps(127), "Judge's files one too high"));
        assert!(lacks(&gaps(129), "Judge's files one too high"));
    }

    fn judge(text: &str) -> Vec<String> {
        lacking(Call::Judge {
            file: file_of(text),
        })
    }

    #[test]
    fn each_number_of_shared_codes_is_asked_for() {
        for (text, found) in [
            ("#64+#64", "one code"),
            ("#63-64+#63-64", "several"),
            ("#0-126+#0-126", "several"),
            ("#0-127+#0-127", "every code"),
        ] {
            assert_only(&judge(text), "shared", &super::COUNTS, found);
        }
    }

    #[test]
    fn more_than_one_shared_code_of_each_kind_is_asked_for() {
        let texts = ["#_+#_", "#_{0,1}#_", "#_{1,2}#_", "(#_{1,2}){3,4}"];
        for (text, found) in texts.into_iter().zip(super::KINDS) {
            let [with_one, with_two] = ["5", "5-6"].map(|codes| judge(&text.replace('_', codes)));
            assert_only(&with_one, "more than one", &super::KINDS, "no kind");
            assert_only(&with_two, "more than one", &super::KINDS, found);
        }
    }

    #[test]
    fn shared_codes_of_each_word_are_asked_for() {
        for (text, found) in [
            ("#63+#63", "the low word"),
            ("#64+#64", "the high word"),
            ("(#64+#0)+(#0+#64)", "both words"),
        ] {
            assert_only(&judge(text), "shared in", &super::WORDS[1..], found);
        }
    }

    #[test]
    fn events_at_the_limit_are_asked_for() {
        let followed = |events: &[u8]| {
            lacking(Call::Follow {
                file: file_of("#127{0,}"),
                state: vec![0; STATE_BYTES],
                events: events.to_vec(),
            })
        };
        let written = |run: &[u8]| {
            lacking(Call::Write {
                file: file_of("#127{0,}"),
                run: run.to_vec(),
                space: vec![0; 99],
            })
        };
        for (events, taken, not_taken) in [
            (&[126][..], false, false),
            (&[127], true, false),
            (&[128, 127], false, true),
        ] {
            for (heading, gaps) in [("events", followed(events)), ("runs", written(events))] {
                let asked = format!("{heading} the highest taken");
                assert_eq!(!lacks(&gaps, &asked), taken, "{heading} {events:?}");
                let asked = format!("{heading} one too high not taken");
                assert_eq!(!lacks(&gaps, &asked), not_taken, "{heading} {events:?}");
            }
        }
    }
}
