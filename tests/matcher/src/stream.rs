//! Calls as a stream of bytes, and what they give as lines of text.

use crate::calls::{Call, Outcome};
use crate::codes::{self, Codes, HIGH, LOW_WORD};
use std::fmt::Write as _;

/// The longest slice that a stream may hold.
pub const MOST_SLICE: usize = 1_048_576;

/// The letters of the five calls.
pub const LETTERS: &str = "JFWCP";

/// A call's letter.
pub fn letter(call: &Call) -> char {
    char::from(slices(call).0)
}

/// A call's letter and its slices, in the order of the stream.
fn slices(call: &Call) -> (u8, Vec<&[u8]>) {
    match call {
        Call::Judge { file } => (b'J', vec![file]),
        Call::Follow {
            file,
            state,
            events,
        } => (b'F', vec![file, state, events]),
        Call::Write { file, run, space } => (b'W', vec![file, run, space]),
        Call::Check { file, record } => (b'C', vec![file, record]),
        Call::Prompt { file, state } => (b'P', vec![file, state]),
    }
}

/// The bytes of one call.
pub fn bytes(call: &Call) -> Vec<u8> {
    let (letter, slices) = slices(call);
    let mut bytes = vec![letter];
    for slice in slices {
        assert!(slice.len() <= MOST_SLICE, "a slice too long for a stream");
        bytes.extend((slice.len() as u32).to_le_bytes());
        bytes.extend(slice);
    }
    bytes
}

/// The line of one outcome, line feed included.
pub fn line(outcome: &Outcome) -> String {
    match outcome {
        Outcome::Judge {
            answer,
            node,
            kind,
            code,
            shared,
        } => {
            let (set, count) = (words(*shared), codes::count(*shared));
            format!("J {answer} {node} {kind} {code} {set} {count}\n")
        }
        Outcome::Follow {
            answer,
            taken,
            verdict,
            state,
        } => {
            format!("F {answer} {taken} {verdict} {}\n", hex(state))
        }
        Outcome::Write {
            answer,
            length,
            space,
        } => format!("W {answer} {length} {}\n", hex(space)),
        Outcome::Check { answer, yes } => format!("C {answer} {yes}\n"),
        Outcome::Prompt { answer, set } => format!("P {answer} {}\n", words(*set)),
    }
}

/// The low word of a set and its high one.
fn words(set: Codes) -> String {
    format!("{} {}", set & LOW_WORD, set >> HIGH)
}

fn hex(bytes: &[u8]) -> String {
    if bytes.is_empty() {
        return "-".to_string();
    }
    bytes.iter().fold(String::new(), |mut text, byte| {
        write!(text, "{byte:02x}").expect("text takes text");
        text
    })
}

/// What each field of a line tells.
pub fn field_names(letter: &str) -> &'static [&'static str] {
    match letter {
        "J" => &[
            "call", "answer", "node", "kind", "code", "low", "high", "count",
        ],
        "F" => &["call", "answer", "taken", "verdict", "state"],
        "W" => &["call", "answer", "length", "space"],
        "C" => &["call", "answer", "yes"],
        "P" => &["call", "answer", "low", "high"],
        _ => &[],
    }
}

#[cfg(test)]
mod tests {
    use super::{bytes, line};
    use crate::calls::{Call, Outcome};
    use crate::codes::{one, Codes};

    #[test]
    fn a_call_is_a_letter_and_counted_slices() {
        let call = Call::Follow {
            file: vec![7],
            state: vec![],
            events: vec![1, 2],
        };
        assert_eq!(
            bytes(&call),
            [b'F', 1, 0, 0, 0, 7, 0, 0, 0, 0, 2, 0, 0, 0, 1, 2]
        );
    }

    #[test]
    fn an_outcome_is_a_line() {
        let judged = Outcome::Judge {
            answer: 7,
            node: 2,
            kind: 4,
            code: 0,
            shared: 1,
        };
        assert_eq!(line(&judged), "J 7 2 4 0 1 0 1\n");
        let written = Outcome::Write {
            answer: 0,
            length: 1,
            space: vec![1, 255],
        };
        assert_eq!(line(&written), "W 0 1 01ff\n");
        let refused = Outcome::Follow {
            answer: 8,
            taken: 0,
            verdict: 0,
            state: vec![],
        };
        assert_eq!(line(&refused), "F 8 0 0 -\n");
    }

    #[test]
    fn shared_codes_are_told_by_two_words_and_their_number() {
        let told = |code: u8, shared: Codes| {
            line(&Outcome::Judge {
                answer: 7,
                node: 6,
                kind: 1,
                code,
                shared,
            })
        };
        assert_eq!(
            told(63, one(63) | one(64)),
            "J 7 6 1 63 9223372036854775808 1 2\n"
        );
        assert_eq!(
            told(0, !0),
            "J 7 6 1 0 18446744073709551615 18446744073709551615 128\n"
        );
    }

    #[test]
    fn a_prompt_is_told_by_two_words() {
        let told = |set: Codes| line(&Outcome::Prompt { answer: 0, set });
        assert_eq!(told(0), "P 0 0 0\n");
        assert_eq!(told(one(0) | one(63)), "P 0 9223372036854775809 0\n");
        assert_eq!(told(one(64) | one(127)), "P 0 0 9223372036854775809\n");
        assert_eq!(told(one(1) | one(66)), "P 0 2 4\n");
    }
}
