//! The procedure file, byte by byte: what makes one, and which of the
//! answers 1 to 6 refuses another.

use crate::tree::{Bounds, Node, Symbol, Tree};

pub const LEAST_FILE: usize = 20;
pub const MOST_FILE: usize = 8_204;
pub const MOST_NODES: usize = 512;
pub const MOST_TEXT: usize = 4_096;
pub const MOST_BOUND: u32 = 4_096;
pub const MOST_CODE: u8 = 127;
pub const MOST_REPEATS: usize = 32;
pub const NO_BOUND: u32 = 65_535;
pub const TRAILER: usize = 12;
pub const RECORD: usize = 8;

/// Why a file is refused: 01's number, and the node where it tells one.
#[derive(Clone, Copy, Debug, PartialEq, Eq)]
pub struct Refusal {
    pub answer: u32,
    pub node: Node,
}

fn refuse<T>(answer: u32, node: Node) -> Result<T, Refusal> {
    Err(Refusal { answer, node })
}

/// The little-endian number in the given bytes.
fn number(bytes: &[u8]) -> u64 {
    bytes
        .iter()
        .rev()
        .fold(0, |sum, &byte| sum * 256 + u64::from(byte))
}

/// The node records of a file, or the lowest of the answers 1 to 3 that applies.
pub fn records(file: &[u8]) -> Result<Vec<&[u8]>, Refusal> {
    if file.len() < LEAST_FILE || file.len() > MOST_FILE {
        return refuse(1, 0);
    }
    let trailer = &file[file.len() - TRAILER..];
    if &trailer[..4] != b"SEQP" || number(&trailer[6..8]) != 1 {
        return refuse(2, 0);
    }
    let count = number(&trailer[4..6]) as usize;
    let back = TRAILER + RECORD * count;
    if count == 0 || count > MOST_NODES || number(&trailer[8..]) != back as u64 {
        return refuse(3, 0);
    }
    if back > file.len() || file.len() - back > MOST_TEXT {
        return refuse(3, 0);
    }
    let first = file.len() - back;
    Ok(file[first..first + RECORD * count].chunks(RECORD).collect())
}

/// The tree of a file, or the lowest of the answers 1 to 6 that applies.
pub fn read(file: &[u8]) -> Result<Tree, Refusal> {
    let records = records(file)?;
    let symbols = read_records(&records)?;
    read_order(&records, &symbols)?;
    let repeats: Vec<Node> = (0..symbols.len())
        .filter(|&i| matches!(symbols[i], Symbol::Repeat(_)))
        .collect();
    if let Some(&node) = repeats.get(MOST_REPEATS) {
        return refuse(6, node);
    }
    Ok(Tree::from_postfix(symbols).expect("postfix order was tested"))
}

fn read_records(records: &[&[u8]]) -> Result<Vec<Symbol>, Refusal> {
    let read_one =
        |(node, record): (Node, &&[u8])| read_record(record).ok_or(Refusal { answer: 4, node });
    records.iter().enumerate().map(read_one).collect()
}

/// What a record of 8 bytes tells, children left out; `None` where it breaks
/// the table.
fn read_record(record: &[u8]) -> Option<Symbol> {
    let (kind, code) = (record[0], record[1]);
    let field = |which: usize| number(&record[2 + 2 * which..4 + 2 * which]) as u32;
    let fields = [field(0), field(1), field(2)];
    match kind {
        0 if code == 0 && fields == [0, 0, 0] => Some(Symbol::Empty),
        1 if code <= MOST_CODE && fields == [0, 0, 0] => Some(Symbol::Event(code)),
        2 if code == 0 && fields[2] == 0 => Some(Symbol::Choice),
        3 if code == 0 && fields[2] == 0 => Some(Symbol::Sequence),
        4 if code == 0 => read_bounds(fields[1], fields[2]).map(Symbol::Repeat),
        _ => None,
    }
}

fn read_bounds(lower: u32, upper: u32) -> Option<Bounds> {
    if lower > MOST_BOUND {
        return None;
    }
    if upper == NO_BOUND {
        return Some(Bounds { lower, upper: None });
    }
    let fits = (1..=MOST_BOUND).contains(&upper) && lower <= upper;
    fits.then_some(Bounds {
        lower,
        upper: Some(upper),
    })
}

/// Tests child numbers by a pile of the parts that no node has taken yet.
/// Numbers are signed, so that a child that does not exist equals no field.
fn read_order(records: &[&[u8]], symbols: &[Symbol]) -> Result<(), Refusal> {
    let mut pile: Vec<i64> = Vec::new();
    for (node, (record, symbol)) in records.iter().zip(symbols).enumerate() {
        let told = |which: usize| Some(number(&record[2 + 2 * which..4 + 2 * which]) as i64);
        let in_order = match symbol {
            Symbol::Empty | Symbol::Event(_) => true,
            Symbol::Repeat(_) => pile.pop() == told(0),
            Symbol::Choice | Symbol::Sequence => {
                let right = pile.pop();
                let left = pile.pop();
                left == told(0) && right == told(1)
            }
        };
        if !in_order {
            return refuse(5, node);
        }
        pile.push(node as i64);
    }
    if pile.len() == 1 {
        Ok(())
    } else {
        refuse(5, records.len() - 1)
    }
}

/// The file that holds the text and the symbols, which need not make a tree;
/// a child that does not exist is told as 65,535.
pub fn write(text: &[u8], symbols: &[Symbol]) -> Vec<u8> {
    let mut file = text.to_vec();
    let mut pile: Vec<u16> = Vec::new();
    for (node, symbol) in symbols.iter().enumerate() {
        let mut child = || pile.pop().unwrap_or(u16::MAX);
        let (kind, code, fields) = match *symbol {
            Symbol::Empty => (0, 0, [0, 0, 0]),
            Symbol::Event(code) => (1, code, [0, 0, 0]),
            Symbol::Choice | Symbol::Sequence => {
                let right = child();
                let left = child();
                (
                    if *symbol == Symbol::Choice { 2 } else { 3 },
                    0,
                    [left, right, 0],
                )
            }
            Symbol::Repeat(bounds) => {
                let upper = bounds.upper.unwrap_or(NO_BOUND) as u16;
                (4, 0, [child(), bounds.lower as u16, upper])
            }
        };
        pile.push(node as u16);
        file.extend([kind, code]);
        fields
            .iter()
            .for_each(|field: &u16| file.extend(field.to_le_bytes()));
    }
    write_trailer(&mut file, symbols.len());
    file
}

fn write_trailer(file: &mut Vec<u8>, count: usize) {
    file.extend(b"SEQP");
    file.extend((count as u16).to_le_bytes());
    file.extend(1u16.to_le_bytes());
    file.extend(((TRAILER + RECORD * count) as u32).to_le_bytes());
}

#[cfg(test)]
mod tests {
    use super::{read, write, Refusal};
    use crate::tree::{Bounds, Symbol};

    const A: Symbol = Symbol::Event(0);
    const ANY: Symbol = Symbol::Repeat(Bounds {
        lower: 0,
        upper: None,
    });

    fn refusal(file: &[u8]) -> Option<(u32, usize)> {
        read(file)
            .err()
            .map(|Refusal { answer, node }| (answer, node))
    }

    /// The file with a byte of a node's record changed.
    fn changed(symbols: &[Symbol], node: usize, byte: usize, to: u8) -> Vec<u8> {
        let mut file = write(&[], symbols);
        file[8 * node + byte] = to;
        file
    }

    #[test]
    fn a_file_is_read_as_it_is_written() {
        let symbols = [
            A,
            ANY,
            Symbol::Empty,
            Symbol::Choice,
            Symbol::Event(127),
            Symbol::Sequence,
        ];
        let file = write(b"text", &symbols);
        assert_eq!(file.len(), 4 + 8 * 6 + 12);
        assert_eq!(read(&file).unwrap().symbols(), symbols);
        assert_eq!(file[36..44], [1, 127, 0, 0, 0, 0, 0, 0]);
        let repeat = [4, 0, 0, 0, 0, 0, 255, 255];
        assert_eq!(file[12..20], repeat);
        assert_eq!(file[28..36], [2, 0, 1, 0, 2, 0, 0, 0]);
        assert_eq!(
            file[52..],
            [b'S', b'E', b'Q', b'P', 6, 0, 1, 0, 60, 0, 0, 0]
        );
    }

    #[test]
    fn every_byte_of_a_record_is_judged() {
        let symbols = [A, Symbol::Empty, Symbol::Choice, ANY];
        for (node, byte, to, told) in [
            (0, 0, 5, Some((4, 0))),
            (0, 1, 63, None),
            (0, 1, 64, None),
            (0, 1, 127, None),
            (0, 1, 128, Some((4, 0))),
            (0, 1, 255, Some((4, 0))),
            (0, 2, 1, Some((4, 0))),
            (0, 5, 1, Some((4, 0))),
            (0, 7, 1, Some((4, 0))),
            (1, 1, 1, Some((4, 1))),
            (1, 3, 1, Some((4, 1))),
            (1, 6, 1, Some((4, 1))),
            (2, 1, 1, Some((4, 2))),
            (2, 6, 1, Some((4, 2))),
            (2, 7, 1, Some((4, 2))),
            (2, 2, 1, Some((5, 2))),
            (2, 3, 1, Some((5, 2))),
            (2, 4, 0, Some((5, 2))),
            (2, 5, 1, Some((5, 2))),
            (3, 1, 1, Some((4, 3))),
            (3, 2, 1, Some((5, 3))),
            (3, 3, 1, Some((5, 3))),
            (3, 4, 255, None),
            (3, 5, 16, None),
            (3, 5, 17, Some((4, 3))),
            (3, 6, 254, Some((4, 3))),
            (3, 7, 254, Some((4, 3))),
        ] {
            assert_eq!(
                refusal(&changed(&symbols, node, byte, to)),
                told,
                "node {node} byte {byte} to {to}"
            );
        }
    }

    /// All records are judged before any order.
    #[test]
    fn records_go_before_order() {
        let mut file = write(&[], &[ANY, A, A, Symbol::Event(128)]);
        assert_eq!(refusal(&file), Some((4, 3)));
        file[8 * 3 + 1] = 0;
        assert_eq!(refusal(&file), Some((5, 0)));
    }

    /// A child before node 0 is told as 65,535 and still does not exist.
    #[test]
    fn missing_children_break_the_order() {
        assert_eq!(refusal(&write(&[], &[ANY])), Some((5, 0)));
        assert_eq!(refusal(&write(&[], &[A, Symbol::Choice])), Some((5, 1)));
        assert_eq!(refusal(&write(&[], &[A, A])), Some((5, 1)));
        assert_eq!(refusal(&write(&[], &[A, A, ANY, A])), Some((5, 3)));
        assert_eq!(refusal(&write(&[], &[A, A, Symbol::Choice])), None);
    }

    #[test]
    fn order_goes_before_the_number_of_repeats() {
        let mut symbols = vec![A];
        symbols.extend(vec![ANY; 33]);
        assert_eq!(refusal(&write(&[], &symbols)), Some((6, 33)));
        symbols.push(A);
        assert_eq!(refusal(&write(&[], &symbols)), Some((5, 34)));
    }

    /// 20 bytes that claim 512 nodes.
    #[test]
    fn nodes_longer_than_the_file() {
        let mut file = write(&[], &[A]);
        file[12..14].copy_from_slice(&512u16.to_le_bytes());
        file[16..18].copy_from_slice(&4_108u16.to_le_bytes());
        assert_eq!(refusal(&file), Some((3, 0)));
    }

    #[test]
    fn every_byte_of_the_trailer_is_judged() {
        for (byte, answer) in [
            (0, 2),
            (1, 2),
            (2, 2),
            (3, 2),
            (4, 3),
            (5, 3),
            (6, 2),
            (7, 2),
            (8, 3),
            (9, 3),
            (10, 3),
            (11, 3),
        ] {
            let mut file = write(&[], &[A]);
            file[8 + byte] ^= 2;
            assert_eq!(refusal(&file), Some((answer, 0)), "byte {byte}");
        }
    }
}
