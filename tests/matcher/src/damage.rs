//! Files that are damaged: in any field at will, or so that a wanted answer
//! refuses them.

use crate::codes::HIGH;
use crate::file::{self, MOST_CODE, MOST_FILE, MOST_NODES, MOST_TEXT, RECORD, TRAILER};
use crate::grow;
use crate::palette::BEYOND;
use crate::random::Random;
use crate::tree::{Node, Symbol, Tree, ENDLESS};

/// A text for a file, mostly short.
fn text(random: &mut Random) -> Vec<u8> {
    let length = if random.percent(3) {
        MOST_TEXT
    } else {
        random.pick(&[0, 0, 0, 1, 7, 30])
    };
    random.bytes(length)
}

/// The file of a tree, with some text.
pub fn file_of(random: &mut Random, tree: &Tree) -> Vec<u8> {
    let text = text(random);
    file::write(&text, tree.symbols())
}

/// How many fields `field_damaged` tells apart: the bytes of the trailer, the
/// bytes of a node record, and the length.
pub const FIELDS: usize = TRAILER + RECORD + 2;

/// A file with one field changed; what answers it is not told.
pub fn field_damaged(random: &mut Random, field: usize) -> Vec<u8> {
    let procedure = grow::any(random);
    let mut bytes = file_of(random, &procedure.tree);
    if field == FIELDS - 1 {
        let more = random.within(1, 9);
        bytes.extend(random.bytes(more));
        return bytes;
    }
    if field == FIELDS - 2 {
        bytes.remove(random.below(bytes.len()));
        return bytes;
    }
    let place = if field < TRAILER {
        bytes.len() - TRAILER + field
    } else {
        let node = random.below(procedure.tree.len());
        record_place(&bytes, procedure.tree.len(), node) + field - TRAILER
    };
    let change = random.pick(&[1, 2, 4, 63, 64, 127, 128, 255, 254]);
    bytes[place] = bytes[place].wrapping_add(change);
    bytes
}

fn record_place(bytes: &[u8], nodes: usize, node: Node) -> usize {
    bytes.len() - TRAILER - RECORD * (nodes - node)
}

fn put(bytes: &mut [u8], place: usize, number: u16) {
    bytes[place..place + 2].copy_from_slice(&number.to_le_bytes());
}

/// A file that the given answer, 1 to 7, refuses.
pub fn refused(random: &mut Random, answer: u32) -> Vec<u8> {
    loop {
        let bytes = match answer {
            1 => of_wrong_size(random),
            2 => with_wrong_letters(random),
            3 => with_wrong_count(random),
            4 => with_wrong_record(random),
            5 => out_of_order(random),
            6 => with_too_many_repeats(random),
            7 => {
                let kind = random.within(1, 4) as u32;
                let procedure = grow::conflicted(random, kind);
                file_of(random, &procedure.tree)
            }
            other => panic!("no file is refused with {other}"),
        };
        let given = match file::read(&bytes) {
            Ok(_) => 7,
            Err(refusal) => refusal.answer,
        };
        if given == answer {
            return bytes;
        }
    }
}

fn of_wrong_size(random: &mut Random) -> Vec<u8> {
    if random.percent(20) {
        let shape = random.pick(&grow::SHAPES);
        let tree = grow::largest(random, shape);
        let text = random.bytes(MOST_TEXT + 1);
        return file::write(&text, tree.symbols());
    }
    if random.percent(5) {
        let length = random.pick(&[MOST_FILE + 1, MOST_FILE + 2, 3 * MOST_FILE]);
        return random.bytes(length);
    }
    let bytes = file::write(&[], &[Symbol::Event(0)]);
    let cut = random.pick(&[1, 1, 1, 2, 8, 12, 20]);
    bytes[cut..].to_vec()
}

fn with_wrong_letters(random: &mut Random) -> Vec<u8> {
    let procedure = grow::any(random);
    let mut bytes = file_of(random, &procedure.tree);
    let place = bytes.len() - TRAILER + random.pick(&[0, 1, 2, 3, 6, 7]);
    bytes[place] ^= random.pick(&[1, 2, 32, 128]);
    bytes
}

fn with_wrong_count(random: &mut Random) -> Vec<u8> {
    match random.below(5) {
        0 => {
            let procedure = grow::any(random);
            let extra = random.pick(&[1, 1, 2, 9]);
            let text = random.bytes(MOST_TEXT + extra);
            file::write(&text, procedure.tree.symbols())
        }
        1 => {
            let leaves = vec![Symbol::Event(0); MOST_NODES + 1];
            let mut symbols = leaves[..MOST_NODES / 2 + 1].to_vec();
            symbols.extend(vec![Symbol::Sequence; MOST_NODES / 2]);
            let bytes = file::write(&[], &symbols);
            if random.percent(30) {
                bytes
            } else {
                claiming(random, bytes)
            }
        }
        _ => {
            let procedure = grow::any(random);
            let bytes = file_of(random, &procedure.tree);
            claiming(random, bytes)
        }
    }
}

/// The file with another count or another distance than it has.
fn claiming(random: &mut Random, mut bytes: Vec<u8>) -> Vec<u8> {
    let end = bytes.len();
    if random.percent(40) {
        let place = end - 1 - random.below(4);
        bytes[place] = bytes[place].wrapping_add(random.pick(&[1, 255, 8, 248]));
        return bytes;
    }
    let count = random.pick(&[0, 1, 2, 3, 511, 512, 513, 65_535]);
    put(&mut bytes, end - 8, count);
    if random.percent(80) {
        let back = TRAILER as u32 + RECORD as u32 * u32::from(count);
        bytes[end - 4..].copy_from_slice(&back.to_le_bytes());
    }
    bytes
}

fn with_wrong_record(random: &mut Random) -> Vec<u8> {
    let procedure = grow::any(random);
    let tree = &procedure.tree;
    let mut bytes = file_of(random, tree);
    for _ in 0..random.pick(&[1, 1, 2]) {
        let node = random.below(tree.len());
        let place = record_place(&bytes, tree.len(), node);
        break_record(random, &mut bytes[place..place + RECORD], tree.symbol(node));
    }
    bytes
}

fn break_record(random: &mut Random, record: &mut [u8], symbol: Symbol) {
    if random.percent(15) {
        record[0] = random.pick(&[5, 6, 127, 255]);
        return;
    }
    match symbol {
        Symbol::Event(_) if random.percent(60) => record[1] = random.pick(&BEYOND),
        Symbol::Empty | Symbol::Event(_) => {
            let place = random.within(2, 7);
            record[place] = random.pick(&[1, 128]);
        }
        Symbol::Choice | Symbol::Sequence => {
            let place = random.pick(&[1, 6, 7]);
            record[place] = random.pick(&[1, 128]);
        }
        Symbol::Repeat(_) if random.percent(15) => {
            record[1] = random.pick(&[1, HIGH - 1, HIGH, MOST_CODE, MOST_CODE + 1])
        }
        Symbol::Repeat(_) => {
            let wrong = [
                (0, 0),
                (4_097, 4_097),
                (4_097, 65_535),
                (65_535, 65_535),
                (0, 4_097),
                (1, 65_534),
                (2, 1),
                (4_096, 4_095),
            ];
            let (lower, upper) = random.pick(&wrong);
            put(record, 4, lower);
            put(record, 6, upper);
        }
    }
}

fn out_of_order(random: &mut Random) -> Vec<u8> {
    let procedure = grow::any(random);
    let tree = &procedure.tree;
    if random.percent(40) {
        return with_missing_parts(random, tree);
    }
    let mut bytes = file_of(random, tree);
    let node = random.below(tree.len());
    let place = record_place(&bytes, tree.len(), node);
    let fields = match tree.symbol(node) {
        Symbol::Choice | Symbol::Sequence => vec![2, 4],
        Symbol::Repeat(_) => vec![2],
        _ => return bytes,
    };
    let field = place + random.pick(&fields);
    let told = u16::from_le_bytes([bytes[field], bytes[field + 1]]);
    let wrong = random.pick(&[
        told.wrapping_add(1),
        told.wrapping_sub(1),
        0,
        node as u16,
        511,
        65_535,
    ]);
    put(&mut bytes, field, wrong);
    bytes
}

/// A node too few or too many, its neighbours in good order.
fn with_missing_parts(random: &mut Random, tree: &Tree) -> Vec<u8> {
    let mut symbols = tree.symbols().to_vec();
    let place = random.below(symbols.len());
    match random.below(3) {
        0 => symbols.insert(place, Symbol::Event(1)),
        1 => symbols.insert(0, random.pick(&[Symbol::Choice, Symbol::Sequence, ENDLESS])),
        _ if symbols.len() > 1 => {
            symbols.remove(place);
        }
        _ => symbols.push(Symbol::Sequence),
    }
    file::write(&[], &symbols)
}

fn with_too_many_repeats(random: &mut Random) -> Vec<u8> {
    let repeats = random.pick(&[33, 33, 33, 34, 40]);
    let symbols = if random.percent(50) {
        grow::nest(random, repeats)
    } else {
        grow::row(random, repeats)
    };
    file::write(&[], &symbols)
}
