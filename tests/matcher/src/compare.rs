//! Expected lines against given ones, with the differences in words.

use crate::stream::field_names;
use std::io::{BufRead, Result};

const MOST_SHOWN: usize = 10;

/// The number of lines compared and of those that differ.
#[derive(Clone, Copy, Debug, PartialEq, Eq)]
pub struct Compared {
    pub lines: usize,
    pub differ: usize,
}

/// Compares line by line, line feeds included; a line that only one side has
/// differs.
pub fn compare(
    mut expected: impl BufRead,
    mut actual: impl BufRead,
    mut tell: impl FnMut(String),
) -> Result<Compared> {
    let mut compared = Compared {
        lines: 0,
        differ: 0,
    };
    loop {
        let (wanted, given) = (next_line(&mut expected)?, next_line(&mut actual)?);
        if wanted.is_none() && given.is_none() {
            return Ok(compared);
        }
        compared.lines += 1;
        if wanted == given {
            continue;
        }
        compared.differ += 1;
        if compared.differ <= MOST_SHOWN {
            tell(format!(
                "case {}: {}",
                compared.lines,
                difference(wanted, given)
            ));
        }
    }
}

/// The next line with its line feed, `None` at the end.
fn next_line(lines: &mut impl BufRead) -> Result<Option<Vec<u8>>> {
    let mut line = Vec::new();
    let read = lines.read_until(b'\n', &mut line)?;
    Ok((read > 0).then_some(line))
}

fn difference(wanted: Option<Vec<u8>>, given: Option<Vec<u8>>) -> String {
    let (Some(wanted), Some(given)) = (&wanted, &given) else {
        let side = if wanted.is_some() {
            "expected, but not given"
        } else {
            "given, but not expected"
        };
        return format!("a line is {side}");
    };
    let (wanted, given) = (
        String::from_utf8_lossy(wanted),
        String::from_utf8_lossy(given),
    );
    if wanted.trim_end_matches('\n') == given.trim_end_matches('\n') {
        return "the line feed at its end differs".to_string();
    }
    let fields = |line: &str| -> Vec<String> {
        let line = line.trim_end_matches('\n');
        line.split(' ').map(str::to_string).collect()
    };
    let (wanted, given) = (fields(&wanted), fields(&given));
    let names = field_names(&wanted[0]);
    let differs = |place: &usize| wanted.get(*place) != given.get(*place);
    let places = (0..wanted.len().max(given.len())).filter(differs);
    let told: Vec<String> = places
        .map(|place| {
            let name = names.get(place).unwrap_or(&"a field too many");
            let field = |line: &[String]| line.get(place).cloned().unwrap_or_default();
            field_difference(name, &field(&wanted), &field(&given))
        })
        .collect();
    format!("{}: {}", wanted[0], told.join("; "))
}

/// Long fields are shown around their first difference.
fn field_difference(name: &str, wanted: &str, given: &str) -> String {
    const LONG: usize = 40;
    if wanted.len() <= LONG && given.len() <= LONG {
        return format!("{name} is {given}, {wanted} was expected");
    }
    let same = wanted
        .bytes()
        .zip(given.bytes())
        .take_while(|(one, two)| one == two)
        .count();
    let piece = |text: &str| text.chars().skip(same / 2 * 2).take(8).collect::<String>();
    format!(
        "{name} differs from byte {} on: {}…, {}… was expected",
        same / 2,
        piece(given),
        piece(wanted)
    )
}

#[cfg(test)]
mod tests {
    use super::{compare, Compared};

    fn told(expected: &str, actual: &str) -> (Compared, Vec<String>) {
        let mut lines = Vec::new();
        let compared = compare(expected.as_bytes(), actual.as_bytes(), |line| {
            lines.push(line)
        })
        .unwrap();
        (compared, lines)
    }

    #[test]
    fn equal_lines_do_not_differ() {
        assert_eq!(
            told("J 0 0 0 0 0 0 0\nC 0 1\n", "J 0 0 0 0 0 0 0\nC 0 1\n").0,
            Compared {
                lines: 2,
                differ: 0
            }
        );
        assert_eq!(
            told("", "").0,
            Compared {
                lines: 0,
                differ: 0
            }
        );
    }

    #[test]
    fn differences_are_told_by_field() {
        let (compared, lines) = told("F 0 3 1 00\n", "F 0 3 2 00\n");
        assert_eq!(
            compared,
            Compared {
                lines: 1,
                differ: 1
            }
        );
        assert_eq!(lines, ["case 1: F: verdict is 2, 1 was expected"]);
        let (_, lines) = told("J 7 6 1 0 3 0 2\n", "J 7 6 1 0 1 2 2\n");
        let words = "low is 1, 3 was expected; high is 2, 0 was expected";
        assert_eq!(lines, [format!("case 1: J: {words}")]);
    }

    #[test]
    fn a_missing_line_feed_differs() {
        assert_eq!(
            told("C 0 1\n", "C 0 1").0,
            Compared {
                lines: 1,
                differ: 1
            }
        );
    }

    #[test]
    fn a_missing_or_further_line_differs() {
        assert_eq!(
            told("C 0 1\nC 0 0\n", "C 0 1\n").0,
            Compared {
                lines: 2,
                differ: 1
            }
        );
        assert_eq!(
            told("C 0 1\n", "C 0 1\nC 0 0\n").0,
            Compared {
                lines: 2,
                differ: 1
            }
        );
    }
}
