//! An independent second matcher for procedure files: it makes cases with
//! the outcomes that the definitions demand, and compares what was given.

mod automaton;
#[cfg(test)]
mod bench;
mod calls;
mod cases;
mod codes;
mod compare;
mod conflict;
mod coverage;
mod damage;
mod explored;
mod file;
mod grow;
mod guard;
mod horizon;
mod limits;
mod notation;
mod palette;
mod parse;
mod prompt;
mod random;
mod readings;
mod record;
mod state;
mod stream;
mod themes;
mod trail;
mod tree;
mod words;

use readings::HORIZON;
use std::fs::File;
use std::io::{BufReader, BufWriter, Write};
use std::process::ExitCode;

const USAGE: &str = "usage: matcher make SEED CASES STREAM EXPECTED [CALLS]
       matcher compare EXPECTED ACTUAL
       matcher horizon";

fn main() -> ExitCode {
    let words: Vec<String> = std::env::args().skip(1).collect();
    let words: Vec<&str> = words.iter().map(String::as_str).collect();
    let done = match words[..] {
        ["make", seed, cases, stream, expected] => {
            make(seed, cases, stream, expected, stream::LETTERS)
        }
        ["make", seed, cases, stream, expected, calls] => {
            make(seed, cases, stream, expected, calls)
        }
        ["compare", expected, actual] => compare(expected, actual),
        ["horizon"] => horizon(),
        _ => Err(USAGE.to_string()),
    };
    match done {
        Ok(()) => ExitCode::SUCCESS,
        Err(what) => {
            eprintln!("{what}");
            ExitCode::FAILURE
        }
    }
}

/// Writes a stream of calls and the lines that they must give.
fn make(seed: &str, cases: &str, stream: &str, expected: &str, calls: &str) -> Result<(), String> {
    let seed: u64 = seed.parse().map_err(|_| format!("{seed} is no seed"))?;
    let cases: usize = cases
        .parse()
        .map_err(|_| format!("{cases} is no number of cases"))?;
    if calls.is_empty() || !calls.chars().all(|call| stream::LETTERS.contains(call)) {
        return Err(format!(
            "{calls} is no list of calls, some of {}",
            stream::LETTERS
        ));
    }
    println!("seed {seed}, {cases} cases of {calls}, readings listed up to {HORIZON} events");
    let mut maker = cases::Maker::new(seed, calls);
    let mut coverage = coverage::Coverage::new(calls);
    let (mut bytes, mut lines) = (create(stream)?, create(expected)?);
    let failed = |error| format!("cannot write: {error}");
    for _ in 0..cases {
        let call = maker.next();
        let outcome = calls::answer(&call);
        coverage.add(&call, &outcome);
        bytes.write_all(&stream::bytes(&call)).map_err(failed)?;
        lines
            .write_all(stream::line(&outcome).as_bytes())
            .map_err(failed)?;
    }
    bytes.flush().and_then(|()| lines.flush()).map_err(failed)?;
    print!("{}", coverage.table());
    let gaps = coverage.gaps();
    if gaps.is_empty() {
        Ok(())
    } else {
        Err(format!("the cases cover too little:\n{}", gaps.join("\n")))
    }
}

fn create(path: &str) -> Result<BufWriter<File>, String> {
    File::create(path)
        .map(BufWriter::new)
        .map_err(|error| format!("{path}: {error}"))
}

fn open(path: &str) -> Result<BufReader<File>, String> {
    File::open(path)
        .map(BufReader::new)
        .map_err(|error| format!("{path}: {error}"))
}

/// Compares the lines expected with those that were given.
fn compare(expected: &str, actual: &str) -> Result<(), String> {
    let compared = compare::compare(open(expected)?, open(actual)?, |line| println!("{line}"))
        .map_err(|error| format!("cannot read: {error}"))?;
    println!("{} compared, {} differ", compared.lines, compared.differ);
    match compared {
        compare::Compared { lines: 0, .. } => Err("nothing was compared".to_string()),
        compare::Compared { differ: 0, .. } => Ok(()),
        _ => Err("the outcomes differ".to_string()),
    }
}

/// Tests the automaton against the listing on all small trees.
fn horizon() -> Result<(), String> {
    let findings = horizon::run()?;
    let least = findings.least_horizon();
    println!(
        "{} trees of up to four nodes, {} strongly deterministic; readings listed up to {HORIZON} events",
        findings.trees, findings.strong
    );
    println!(
        "{least} events are needed; with ten {} trees would be misjudged",
        findings.misjudged_with(10)
    );
    if least > HORIZON {
        return Err(format!("{HORIZON} events are too few"));
    }
    Ok(())
}
