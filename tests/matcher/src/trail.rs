//! Random ways through a procedure: runs with the items they pass, places to
//! begin from, and breaks.

use crate::automaton::Automaton;
use crate::palette::{self, BEYOND, EDGES};
use crate::random::Random;
use crate::record::Item;
use crate::state::Place;

/// A way from a place on. On a procedure with conflicts it is still one
/// reading among others.
pub struct Trail {
    pub codes: Vec<u8>,
    pub items: Vec<Item>,
    /// The place after each event, the beginning first.
    pub places: Vec<Place>,
    /// The numbers of codes and items where a reading last could end.
    ends: Option<(usize, usize)>,
}

impl Trail {
    /// Goes on at random for up to `most` events; where a reading may end it
    /// stops in so many of a hundred.
    pub fn walk(
        automaton: &Automaton,
        random: &mut Random,
        from: Place,
        most: usize,
        stop: usize,
    ) -> Trail {
        let mut trail = Trail {
            codes: Vec::new(),
            items: Vec::new(),
            places: vec![from.clone()],
            ends: None,
        };
        let mut place = from;
        loop {
            if automaton.end(&place).is_some() {
                trail.ends = Some((trail.codes.len(), trail.items.len()));
                if random.percent(stop) {
                    break;
                }
            }
            let moves: Vec<_> = automaton.allowed(&place).copied().collect();
            if moves.is_empty() || trail.codes.len() == most {
                break;
            }
            let step = random.pick(&moves);
            automaton.add_items(place.node, &step, &mut trail.items);
            automaton.apply(&mut place, &step);
            trail
                .codes
                .push(automaton.tree.code(step.to).expect("an event"));
            trail.places.push(place.clone());
        }
        trail
    }

    /// The first of some trails from the start that passes an end after an
    /// event, or the last of them.
    pub fn to_an_end(automaton: &Automaton, random: &mut Random, most: usize) -> Trail {
        let mut trail = Trail::walk(automaton, random, Place::start(&automaton.tree), most, 6);
        for _ in 0..8 {
            if trail.ends.is_some_and(|(codes, _)| codes > 0) {
                break;
            }
            trail = Trail::walk(
                automaton,
                random,
                Place::start(&automaton.tree),
                2 * most,
                6,
            );
        }
        trail
    }

    /// The run up to where it last was complete, with its record's items.
    pub fn complete(&self, automaton: &Automaton) -> Option<(Vec<u8>, Vec<Item>)> {
        let (codes, items) = self.ends?;
        let marks = automaton.end(&self.places[codes])?;
        Some((
            self.codes[..codes].to_vec(),
            [&self.items[..items], &marks].concat(),
        ))
    }

    /// The codes with one that does not continue set in at a place.
    pub fn broken(&self, automaton: &Automaton, random: &mut Random, at: usize) -> Vec<u8> {
        let place = &self.places[at];
        let stuck = |code: &u8| automaton.allowed_by(place, *code).next().is_none();
        let known: Vec<u8> = automaton
            .tree
            .events()
            .filter_map(|node| automaton.tree.code(node))
            .filter(stuck)
            .collect();
        let strange: Vec<u8> = strange_codes(automaton, place).filter(stuck).collect();
        let code = if known.is_empty() || random.percent(30) {
            random.pick(&strange)
        } else {
            random.pick(&known)
        };
        [&self.codes[..at], &[code], &self.codes[at..]].concat()
    }
}

/// Codes that the procedure may lack: those at the edges, and those that might
/// be taken for one that continues.
fn strange_codes<'a>(automaton: &'a Automaton, place: &'a Place) -> impl Iterator<Item = u8> + 'a {
    let on = automaton
        .allowed(place)
        .filter_map(|step| automaton.tree.code(step.to));
    on.flat_map(palette::mistaken).chain(EDGES).chain(BEYOND)
}

/// A place that some run reaches: the start, one met on the way, or any event
/// with counters at the ends of their ranges.
pub fn place(automaton: &Automaton, random: &mut Random) -> Place {
    let tree = &automaton.tree;
    let events: Vec<_> = tree.events().collect();
    if events.is_empty() || random.percent(15) {
        return Place::start(tree);
    }
    if random.percent(40) {
        let most = random.within(1, 40);
        let trail = Trail::walk(automaton, random, Place::start(tree), most, 5);
        return trail.places.last().cloned().expect("a beginning");
    }
    let node = random.pick(&events);
    let mut place = Place::start(tree);
    place.node = Some(node);
    for &repeat in tree.around(node) {
        let cap = tree.cap(repeat);
        let count = random.pick(&[1, 2, cap / 2, cap - 1, cap, cap, random_count(cap)]);
        place.counts[tree.rank(repeat)] = count.clamp(1, cap);
    }
    place
}

/// Some count that is not at an end of its range.
fn random_count(cap: u32) -> u32 {
    cap * 7 / 11 + 1
}

/// A state's bytes changed; it may by chance still be reached.
pub fn wrong_state(automaton: &Automaton, random: &mut Random, turn: usize) -> Vec<u8> {
    let tree = &automaton.tree;
    let place = place(automaton, random);
    let mut bytes = place.write();
    match turn % 8 {
        0 => bytes.truncate(65),
        1 => bytes.push(0),
        2 => bytes = random.pick(&[vec![], vec![0; 64], vec![0; 68], vec![0; 132]]),
        3 => {
            let node = random.pick(&[tree.len(), tree.len() + 1, 512, 65_534]);
            bytes[..2].copy_from_slice(&(node as u16 + 1).to_le_bytes());
        }
        4 => {
            let other = random.below(tree.len());
            bytes[..2].copy_from_slice(&(other as u16 + 1).to_le_bytes());
        }
        5 => {
            // The start, with the counters of another place or with a single one.
            bytes[..2].copy_from_slice(&[0, 0]);
            if random.percent(50) {
                bytes[2..].fill(0);
                change_counter(&mut bytes, random.pick(&[0, 0, 31]), 1);
            }
        }
        6 => {
            let any = random.below(32);
            let rank = random.pick(&[31, any, any]);
            change_counter(&mut bytes, rank, random.pick(&[1, 65_535, 256, 4_096]));
        }
        _ => {
            let rank = random.below(tree.repeats().len().max(1));
            let over = tree
                .repeats()
                .get(rank)
                .map_or(1, |&repeat| tree.cap(repeat) + 1);
            let wrong = random.pick(&[0, over, over + 1, 4_097, 65_535]);
            bytes[2 + 2 * rank..4 + 2 * rank].copy_from_slice(&(wrong as u16).to_le_bytes());
        }
    }
    bytes
}

fn change_counter(bytes: &mut [u8], rank: usize, add: u16) {
    let at = 2 + 2 * rank;
    let count = u16::from_le_bytes([bytes[at], bytes[at + 1]]).wrapping_add(add);
    bytes[at..at + 2].copy_from_slice(&count.to_le_bytes());
}

/// How many ways `wrong_record` has.
pub const RECORD_CHANGES: usize = 10;

/// A record's bytes changed in one way; it may by chance still be a record.
pub fn wrong_record(
    automaton: &Automaton,
    random: &mut Random,
    items: &[Item],
    turn: usize,
) -> Vec<u8> {
    let mut numbers: Vec<u16> = items.iter().map(|item| item.number()).collect();
    let place = random.below(numbers.len().max(1));
    let node = random.below(automaton.tree.len() + 2) as u16;
    let repeats = automaton.tree.repeats();
    let repeat = if repeats.is_empty() {
        node
    } else {
        random.pick(repeats) as u16
    };
    match turn % RECORD_CHANGES {
        5 => hollow_block(automaton, random, &mut numbers, repeat),
        _ if numbers.is_empty() => numbers.push(node),
        0 => numbers[place] = numbers[place] % 4_096 + 4_096 * random.below(16) as u16,
        1 => numbers[place] = numbers[place] / 4_096 * 4_096 + node,
        2 => {
            numbers.remove(place);
        }
        3 => numbers.insert(place, numbers[place]),
        4 => {
            let next = (place + 1).min(numbers.len() - 1);
            numbers.swap(place, next);
        }
        6 => numbers.truncate(place),
        7 => numbers[place] = random.below(65_536) as u16,
        8 => {
            numbers.splice(place..place, [repeat + 8_192, repeat + 4_096]);
        }
        _ => {}
    }
    let mut bytes: Vec<u8> = numbers
        .iter()
        .flat_map(|number| number.to_le_bytes())
        .collect();
    if turn % RECORD_CHANGES == 9 {
        if random.percent(50) {
            bytes.push(0)
        } else {
            bytes.truncate(bytes.len() - 1)
        }
    }
    bytes
}

/// Puts in a block without an event: before a block of a repeat whose body has the empty word, where there is one, or
/// else one of the repeat given, anywhere.
fn hollow_block(automaton: &Automaton, random: &mut Random, numbers: &mut Vec<u16>, repeat: u16) {
    let tree = &automaton.tree;
    let hollow: Vec<u16> = tree
        .repeats()
        .iter()
        .filter(|&&repeat| tree.nullable(tree.body(repeat)))
        .map(|&repeat| repeat as u16)
        .collect();
    let places: Vec<usize> = (0..numbers.len())
        .filter(|&at| numbers[at] / 4_096 == 1 && hollow.contains(&(numbers[at] % 4_096)))
        .collect();
    let (place, repeat) = if !places.is_empty() {
        let place = random.pick(&places);
        (place, numbers[place] % 4_096)
    } else if numbers.is_empty() && !hollow.is_empty() {
        (0, random.pick(&hollow))
    } else {
        (random.below(numbers.len() + 1), repeat)
    };
    numbers.splice(place..place, [repeat + 4_096, repeat + 8_192]);
}
