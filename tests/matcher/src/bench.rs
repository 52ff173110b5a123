//! The bench cases of 01 and the readings of it that were settled, through
//! the five calls.

use crate::calls::{check, follow, judge, prompt, write, Outcome};
use crate::codes::{one, Codes};
use crate::file;
use crate::parse::tree;
use crate::state::{Place, STATE_BYTES};
use crate::tree::Symbol;

const START: [u8; STATE_BYTES] = [0; STATE_BYTES];

fn file_of(text: &str) -> Vec<u8> {
    file::write(&[], tree(text).symbols())
}

fn run_of(text: &str) -> Vec<u8> {
    text.bytes().map(|letter| letter - b'a').collect()
}

/// Answer, node, kind, code and shared codes.
type Judged = (u32, usize, u32, u8, Codes);

const ADMITTED: Judged = (0, 0, 0, 0, 0);

fn judged(text: &str) -> Judged {
    match judge(&file_of(text)) {
        Outcome::Judge {
            answer,
            node,
            kind,
            code,
            shared,
        } => (answer, node, kind, code, shared),
        other => panic!("{other:?}"),
    }
}

/// Answer, taken and verdict of a run from the start, and the counters after.
fn followed(text: &str, run: &str) -> (u32, usize, u32, Vec<u32>) {
    match follow(&file_of(text), &START, &run_of(run)) {
        Outcome::Follow {
            answer,
            taken,
            verdict,
            state,
        } => {
            let place = Place::read(&tree(text), &state).expect("a state that is reached");
            (answer, taken, verdict, place.counts)
        }
        other => panic!("{other:?}"),
    }
}

fn verdict(text: &str, run: &str) -> (usize, u32) {
    let (answer, taken, verdict, _) = followed(text, run);
    assert_eq!(answer, 0, "{text}");
    (taken, verdict)
}

/// The numbers of a run's record, which Check must know again.
fn recorded(text: &str, run: &str) -> Vec<u16> {
    let Outcome::Write {
        answer: 0,
        length,
        space,
    } = write(&file_of(text), &run_of(run), &[7; 100])
    else {
        panic!("{text} has no record of {run}");
    };
    assert!(space[length..].iter().all(|&byte| byte == 7));
    let record = &space[..length];
    assert_eq!(
        check(&file_of(text), record),
        Outcome::Check { answer: 0, yes: 1 }
    );
    record
        .chunks(2)
        .map(|pair| u16::from_le_bytes([pair[0], pair[1]]))
        .collect()
}

#[test]
fn bench_judgements() {
    let (a, b) = (one(0), one(1));
    let table = [
        ("a{2,4}", ADMITTED),
        ("(a{0,1}){0,3}", ADMITTED),
        ("(a{1,2}){3,4}", (7, 2, 4, 0, a)),
        ("((a+e)(b+e)){0,2}", (7, 7, 4, 1, b)),
        ("a{2,2}a", ADMITTED),
        ("a{0,2}a", (7, 3, 2, 0, a)),
        ("a{2,3}a", (7, 3, 3, 0, a)),
        ("(a{2,3}(b+e)){0,}", (7, 6, 4, 0, a)),
        ("(eb{0,1}){0,2}", ADMITTED),
        ("(a+e){3,3}", ADMITTED),
        ("a+ab", (7, 4, 1, 0, a)),
        ("(ab){1,2}", ADMITTED),
        ("e", ADMITTED),
        ("(a{2,2}){0,}", ADMITTED),
    ];
    for (text, expected) in table {
        assert_eq!(judged(text), expected, "{text}");
    }
    assert_eq!(file_of("(a{1,2}){3,4}").len(), 36);
}

#[test]
fn bench_runs() {
    let table = [
        ("a{2,4}", "a", (1, 1)),
        ("a{2,4}", "aa", (2, 0)),
        ("a{2,4}", "aaaaa", (4, 2)),
        ("(a{0,1}){0,3}", "aaa", (3, 0)),
        ("(a{0,1}){0,3}", "aaaa", (3, 2)),
        ("(eb{0,1}){0,2}", "bb", (2, 0)),
        ("(a+e){3,3}", "", (0, 0)),
        ("e", "", (0, 0)),
        ("e", "a", (0, 2)),
        ("(a{2,2}){0,}", "aaa", (3, 1)),
        ("(a{2,2}){0,}", "aaaa", (4, 0)),
    ];
    for (text, run, expected) in table {
        assert_eq!(verdict(text, run), expected, "{text} {run}");
    }
}

#[test]
fn bench_records() {
    assert_eq!(
        recorded("a{2,2}a", "aaa"),
        [4097, 0, 8193, 4097, 0, 8193, 2]
    );
    assert_eq!(recorded("(a+e){3,3}", "a"), [4099, 0, 8195]);
    assert_eq!(
        recorded("(ab){1,2}", "abab"),
        [4099, 0, 1, 8195, 4099, 0, 1, 8195]
    );
    assert_eq!(recorded("e", ""), []);
}

#[test]
fn counters_stop_at_the_larger_of_one_and_lower() {
    assert_eq!(followed("a{3,}", "aaaaa").3, [3]);
    assert_eq!(followed("a{0,}", "aaaaa").3, [1]);
    assert_eq!(followed("(a+e){3,}", "aaaaa").3, [1]);
    assert_eq!(followed("a{2,4096}", "aaaaa").3, [5]);
}

#[test]
fn counters_tell_the_present_stay() {
    assert_eq!(followed("(a{2,2}b){0,4}", "aabaab").3, [0, 2]);
    assert_eq!(followed("(a{2,2}b){0,4}", "aaba").3, [1, 2]);
    assert_eq!(followed("(a{2,2}){0,4}b", "aaaab").3, [0, 0]);
}

#[test]
fn kind_goes_before_code() {
    let text = "(#5 #1{0,1}){0,1}(#5+#1)";
    assert_eq!(judged(text), (7, 8, 2, 5, one(5)));
}

#[test]
fn readings_are_lists_of_items() {
    assert_eq!(judged("e+e"), ADMITTED);
    assert_eq!(judged("a{0,1}+b{0,1}"), ADMITTED);
}

fn follow_state(text: &str, state: &[u8], events: &[u8]) -> Outcome {
    follow(&file_of(text), state, events)
}

fn state_bytes(numbers: &[u16]) -> Vec<u8> {
    let mut bytes: Vec<u8> = numbers
        .iter()
        .flat_map(|number| number.to_le_bytes())
        .collect();
    bytes.resize(STATE_BYTES, 0);
    bytes
}

#[test]
fn a_state_that_no_run_reaches_is_refused() {
    let text = "a{2,4}b";
    let wrong = [
        vec![0; 65],
        vec![0; 67],
        vec![],
        state_bytes(&[0, 1]),
        state_bytes(&[1, 0]),
        state_bytes(&[1, 5]),
        state_bytes(&[1, 1, 1]),
        state_bytes(&[2, 1]),
        state_bytes(&[3, 1]),
        state_bytes(&[4, 0]),
        state_bytes(&[6, 0]),
        state_bytes(&[65_535, 0]),
    ];
    for state in wrong {
        let refused = Outcome::Follow {
            answer: 8,
            taken: 0,
            verdict: 0,
            state: state.clone(),
        };
        assert_eq!(follow_state(text, &state, &[0]), refused);
        assert_eq!(
            prompt(&file_of(text), &state),
            Outcome::Prompt { answer: 8, set: 0 }
        );
    }
    for state in [
        state_bytes(&[1, 1]),
        state_bytes(&[1, 4]),
        state_bytes(&[3, 0]),
    ] {
        assert_eq!(follow_state(text, &state, &[]).answer(), 0);
    }
}

/// A break is not kept: the state stands after the events taken.
#[test]
fn a_break_leaves_the_state_after_those_taken() {
    for strange in [2, 63, 64, 127, 128, 255] {
        let broken = Outcome::Follow {
            answer: 0,
            taken: 2,
            verdict: 2,
            state: state_bytes(&[1, 2]),
        };
        let events = [0, 0, strange, 1];
        assert_eq!(follow_state("a{2,4}b", &START, &events), broken);
    }
    let after = follow_state("a{2,4}b", &state_bytes(&[1, 2]), &[1]);
    assert_eq!(
        after,
        Outcome::Follow {
            answer: 0,
            taken: 1,
            verdict: 0,
            state: state_bytes(&[3])
        }
    );
}

#[test]
fn files_are_refused_before_states() {
    let refused = Outcome::Follow {
        answer: 7,
        taken: 0,
        verdict: 0,
        state: vec![1],
    };
    assert_eq!(follow_state("a+a", &[1], &[]), refused);
    assert_eq!(follow(&[], &[], &[]).answer(), 1);
}

#[test]
fn write_refuses_in_turn() {
    let endless = file_of("a{0,}");
    let unchanged = |answer| Outcome::Write {
        answer,
        length: 0,
        space: vec![5; 5],
    };
    assert_eq!(write(&endless, &[1; 65_537], &[5; 5]), unchanged(9));
    for strange in [64, 127, 128, 255] {
        assert_eq!(write(&endless, &[strange], &[5; 5]), unchanged(10));
    }
    assert_eq!(write(&endless, &[0; 65_536], &[5; 5]), unchanged(11));
    assert_eq!(write(&endless, &[0], &[5; 5]), unchanged(11));
    assert_eq!(
        write(&endless, &[0], &[5; 6]),
        Outcome::Write {
            answer: 0,
            length: 6,
            space: vec![1, 16, 0, 0, 1, 32]
        }
    );
    assert_eq!(
        write(&file_of("e"), &[], &[]),
        Outcome::Write {
            answer: 0,
            length: 0,
            space: vec![]
        }
    );
}

fn checked(text: &str, numbers: &[u16]) -> u32 {
    let record: Vec<u8> = numbers
        .iter()
        .flat_map(|number| number.to_le_bytes())
        .collect();
    match check(&file_of(text), &record) {
        Outcome::Check { answer: 0, yes } => yes,
        other => panic!("{other:?}"),
    }
}

/// Conflicts do not matter to Check: both bracketings of aa are records.
#[test]
fn check_knows_records_of_conflicted_files() {
    let text = "(a{1,2}){1,2}";
    assert_eq!(
        checked(
            text,
            &[4098, 4097, 0, 8193, 8194, 4098, 4097, 0, 8193, 8194]
        ),
        1
    );
    assert_eq!(
        checked(text, &[4098, 4097, 0, 8193, 4097, 0, 8193, 8194]),
        1
    );
    assert_eq!(
        checked(text, &[4098, 4097, 0, 8193, 8193, 4097, 0, 8193, 8194]),
        0
    );
    assert_eq!(checked("a+ab", &[0]), 1);
    assert_eq!(checked("a+ab", &[1, 2]), 1);
    assert_eq!(checked("a+ab", &[0, 2]), 0);
}

#[test]
fn what_is_no_record() {
    for numbers in [
        &[4097, 8193][..],
        &[4097, 0],
        &[0, 8193],
        &[12289, 0, 8193],
        &[4097, 2, 8193],
        &[4097, 1, 8193],
        &[4099, 0, 8193],
    ] {
        assert_eq!(checked("a{0,2}", numbers), 0, "{numbers:?}");
    }
    assert_eq!(checked("a{0,2}", &[]), 1);
    assert_eq!(checked("a{1,2}", &[]), 0);
    assert_eq!(
        check(&file_of("e"), &[0]),
        Outcome::Check { answer: 0, yes: 0 }
    );
    assert_eq!(check(&[0], &[0]), Outcome::Check { answer: 1, yes: 0 });
}

#[test]
fn prompts() {
    let set = |text: &str, state: &[u16]| prompt(&file_of(text), &state_bytes(state));
    assert_eq!(set("a{2,2}b", &[]), Outcome::Prompt { answer: 0, set: 1 });
    assert_eq!(
        set("a{2,2}b", &[1, 2]),
        Outcome::Prompt { answer: 0, set: 3 }
    );
    assert_eq!(
        set("a{0,1}#63", &[1, 1]),
        Outcome::Prompt {
            answer: 0,
            set: 1 << 63
        }
    );
    assert_eq!(
        set("a{2,2}#127", &[1, 1]),
        Outcome::Prompt {
            answer: 0,
            set: 1 | 1 << 127
        }
    );
    assert_eq!(set("e", &[]), Outcome::Prompt { answer: 0, set: 0 });
}

/// The codes on both sides of the words' edge and of the limit, in each call.
#[test]
fn codes_at_the_edges() {
    for code in [0, 63, 64, 65, 126, 127] {
        let text = format!("#{code}{{1,2}}");
        assert_eq!(judged(&text), ADMITTED);
        let complete = Outcome::Follow {
            answer: 0,
            taken: 2,
            verdict: 0,
            state: state_bytes(&[1, 2]),
        };
        assert_eq!(follow_state(&text, &START, &[code, code]), complete);
        let written = Outcome::Write {
            answer: 0,
            length: 6,
            space: vec![1, 16, 0, 0, 1, 32],
        };
        assert_eq!(write(&file_of(&text), &[code], &[5; 6]), written);
        assert_eq!(checked(&text, &[4097, 0, 8193]), 1);
        let lit = Outcome::Prompt {
            answer: 0,
            set: 1 << code,
        };
        assert_eq!(prompt(&file_of(&text), &START), lit);
    }
    for code in [128, 129, 192, 255] {
        let file = file::write(&[], &[Symbol::Event(0), Symbol::Event(code)]);
        assert_eq!(follow(&file, &START, &[code]).answer(), 4);
        assert_eq!(write(&file, &[code], &[]).answer(), 4);
        assert_eq!(check(&file, &[0, 0]).answer(), 4);
        assert_eq!(prompt(&file, &START), Outcome::Prompt { answer: 4, set: 0 });
        assert_eq!(
            judge(&file),
            Outcome::Judge {
                answer: 4,
                node: 1,
                kind: 0,
                code: 0,
                shared: 0
            }
        );
    }
}
