//! Random trees: a shape, leaves, and repeats set around some of its parts.

use crate::calls::Procedure;
use crate::codes::{CODES, WORD};
use crate::palette;
use crate::random::Random;
use crate::tree::{Bounds, Symbol, Tree, OPTIONAL};

/// How the leaves of a tree lie.
#[derive(Clone, Copy, Debug, PartialEq, Eq)]
pub enum Shape {
    Any,
    LeftSided,
    RightSided,
    Balanced,
}

pub const SHAPES: [Shape; 4] = [
    Shape::Any,
    Shape::LeftSided,
    Shape::RightSided,
    Shape::Balanced,
];

/// Which bounds repeats get.
#[derive(Clone, Copy, Debug)]
pub enum Reach {
    /// 0 to 3 or none.
    Small,
    /// Mostly exact, so that nested repeats agree.
    Exact,
    /// At and near 4,096, or small.
    Wide,
}

/// What a random tree is made of.
#[derive(Clone, Debug)]
pub struct Plan {
    pub leaves: usize,
    pub repeats: usize,
    pub shape: Shape,
    pub reach: Reach,
    /// Codes are drawn from these; where `rising` they follow in turn.
    pub codes: Vec<u8>,
    pub rising: bool,
    /// Shares in a hundred: choices among the joints, empty among the leaves.
    pub choices: usize,
    pub empties: usize,
}

impl Plan {
    /// The number of nodes that the plan gives.
    pub fn nodes(&self) -> usize {
        2 * self.leaves - 1 + self.repeats
    }

    pub fn grow(&self, random: &mut Random) -> Vec<Symbol> {
        let parts = 2 * self.leaves - 1;
        let mut wraps = vec![0; parts];
        for _ in 0..self.repeats {
            wraps[random.below(parts)] += 1;
        }
        let next_code = random.below(self.codes.len());
        let mut grower = Grower {
            plan: self,
            random,
            wraps,
            next_code,
            symbols: Vec::new(),
        };
        grower.part(self.leaves);
        grower.symbols
    }
}

struct Grower<'p, 'r> {
    plan: &'p Plan,
    random: &'r mut Random,
    /// How many repeats go around each part, taken from the end.
    wraps: Vec<usize>,
    next_code: usize,
    symbols: Vec<Symbol>,
}

impl Grower<'_, '_> {
    fn part(&mut self, leaves: usize) {
        if leaves == 1 {
            let leaf = self.leaf();
            self.symbols.push(leaf);
        } else {
            let left = match self.plan.shape {
                Shape::Any => self.random.within(1, leaves - 1),
                Shape::LeftSided => leaves - 1,
                Shape::RightSided => 1,
                Shape::Balanced => leaves / 2,
            };
            self.part(left);
            self.part(leaves - left);
            let choice = self.random.percent(self.plan.choices);
            self.symbols.push(if choice {
                Symbol::Choice
            } else {
                Symbol::Sequence
            });
        }
        for _ in 0..self.wraps.pop().expect("a number for each part") {
            let bounds = bounds(self.random, self.plan.reach);
            self.symbols.push(Symbol::Repeat(bounds));
        }
    }

    fn leaf(&mut self) -> Symbol {
        if self.random.percent(self.plan.empties) {
            return Symbol::Empty;
        }
        let codes = &self.plan.codes;
        if !self.plan.rising {
            return Symbol::Event(self.random.pick(codes));
        }
        self.next_code += 1;
        Symbol::Event(codes[self.next_code % codes.len()])
    }
}

fn bounds(random: &mut Random, reach: Reach) -> Bounds {
    let small = |random: &mut Random| {
        let upper = random.within(1, 3) as u32;
        let lower = random.within(0, upper as usize) as u32;
        Bounds {
            lower,
            upper: (!random.percent(25)).then_some(upper),
        }
    };
    let exact = |random: &mut Random, most: usize| {
        let count = random.within(1, most) as u32;
        Bounds {
            lower: count,
            upper: Some(count),
        }
    };
    match reach {
        Reach::Small => small(random),
        Reach::Exact if random.percent(70) => exact(random, 3),
        Reach::Exact => small(random),
        Reach::Wide => {
            let upper = random.pick(&[Some(4_096), Some(4_095), Some(256), Some(2), None]);
            let most = upper.unwrap_or(4_096);
            let lower = random.pick(&[0, 1, 2, 3, most / 2, most - 1, most]);
            Bounds {
                lower: lower.min(most),
                upper,
            }
        }
    }
}

fn small_plan(random: &mut Random) -> Plan {
    let repeats = random.within(0, 4);
    Plan {
        leaves: random.within(1, 6),
        repeats,
        shape: random.pick(&SHAPES),
        reach: random.pick(&[Reach::Small, Reach::Small, Reach::Exact, Reach::Wide]),
        codes: palette::codes(random, &[1, 2, 3, 5, WORD, CODES]),
        rising: random.percent(50),
        choices: random.pick(&[20, 50, 80]),
        empties: random.pick(&[0, 10, 25, 40]),
    }
}

/// Codes for trees with many leaves: as many as a word has, or all.
fn many_codes(random: &mut Random) -> Vec<u8> {
    palette::codes(random, &[WORD, CODES])
}

/// A tree of up to some fifteen nodes, admitted or not.
pub fn small(random: &mut Random) -> Tree {
    made(small_plan(random).grow(random))
}

/// A tree with up to 40 leaves over many codes, often admitted.
fn middle(random: &mut Random) -> Tree {
    let plan = Plan {
        leaves: random.within(4, 40),
        repeats: random.within(2, 12),
        shape: random.pick(&SHAPES),
        reach: random.pick(&[Reach::Small, Reach::Exact, Reach::Exact, Reach::Wide]),
        codes: many_codes(random),
        rising: true,
        choices: random.pick(&[5, 20, 40]),
        empties: random.pick(&[0, 5]),
    };
    made(plan.grow(random))
}

/// A tree of close on 512 nodes, one-sided or balanced, admitted or not.
pub fn large(random: &mut Random, shape: Shape) -> Tree {
    let repeats = random.within(0, 32);
    let leaves = random.pick(&[64, 128, 200, 240, 240]);
    let plan = Plan {
        leaves,
        repeats,
        shape,
        reach: random.pick(&[Reach::Small, Reach::Exact, Reach::Wide]),
        codes: many_codes(random),
        rising: !random.percent(15),
        choices: random.pick(&[0, 0, 2, 10]),
        empties: random.pick(&[0, 0, 2]),
    };
    made(plan.grow(random))
}

/// Exactly 512 nodes.
pub fn largest(random: &mut Random, shape: Shape) -> Tree {
    let repeats = 2 * random.below(16) + 1;
    let leaves = (513 - repeats) / 2;
    let choices = random.pick(&[0, 1]);
    let plan = Plan {
        leaves,
        repeats,
        shape,
        reach: Reach::Exact,
        codes: many_codes(random),
        rising: true,
        choices,
        empties: 0,
    };
    assert_eq!(plan.nodes(), 512);
    made(plan.grow(random))
}

/// So many repeats, each around one event more than the one inside.
pub fn nest(random: &mut Random, repeats: usize) -> Vec<Symbol> {
    let reach = random.pick(&[Reach::Small, Reach::Exact, Reach::Wide]);
    let codes = many_codes(random);
    let mut symbols = Vec::new();
    for level in 0..repeats {
        symbols.push(Symbol::Event(codes[level % codes.len()]));
        if level > 0 {
            symbols.push(Symbol::Sequence);
        }
        symbols.push(Symbol::Repeat(bounds(random, reach)));
    }
    symbols
}

/// So many repeats side by side.
pub fn row(random: &mut Random, repeats: usize) -> Vec<Symbol> {
    let reach = random.pick(&[Reach::Small, Reach::Exact, Reach::Wide]);
    let codes = many_codes(random);
    let mut symbols = Vec::new();
    for place in 0..repeats {
        symbols.extend([
            Symbol::Event(codes[place % codes.len()]),
            Symbol::Repeat(bounds(random, reach)),
        ]);
        if place > 0 {
            symbols.push(Symbol::Sequence);
        }
    }
    symbols
}

/// A repeat whose body may be empty, with a lower bound that normal form
/// takes away; perhaps more after it and around it.
fn hollow(random: &mut Random) -> Tree {
    let codes = palette::codes(random, &[7]);
    let mut symbols = Vec::new();
    for item in 0..random.within(1, 3) {
        symbols.push(Symbol::Event(codes[2 * item]));
        if random.percent(40) {
            symbols.push(Symbol::Repeat(bounds(random, Reach::Exact)));
        }
        if random.percent(30) {
            symbols.extend([Symbol::Event(codes[2 * item + 1]), Symbol::Sequence]);
        }
        if item > 0 {
            symbols.push(Symbol::Choice);
        }
    }
    symbols.extend(random.pick(&[vec![Symbol::Empty, Symbol::Choice], vec![OPTIONAL]]));
    let lower = random.pick(&[1, 2, 2, 3, 3, 4_096]);
    let upper = random.pick(&[None, None, Some(lower), Some(4_096)]);
    symbols.push(Symbol::Repeat(Bounds { lower, upper }));
    if random.percent(60) {
        symbols.extend([Symbol::Event(codes[6]), Symbol::Sequence]);
    }
    if random.percent(60) {
        symbols.push(Symbol::Repeat(bounds(random, Reach::Small)));
    }
    made(symbols)
}

fn made(symbols: Vec<Symbol>) -> Tree {
    Tree::from_postfix(symbols).expect("a tree was grown")
}

/// The first tree that is within the limits of a file and passes the test.
fn wanted(
    random: &mut Random,
    grow: fn(&mut Random) -> Tree,
    test: fn(&Procedure) -> bool,
) -> Procedure {
    loop {
        let tree = grow(random);
        if tree.repeats().len() > 32 {
            continue;
        }
        let procedure = Procedure::new(tree);
        if test(&procedure) {
            return procedure;
        }
    }
}

/// A small or middling procedure without conflict.
pub fn admitted(random: &mut Random) -> Procedure {
    let grow = random.pick(&[small as fn(&mut Random) -> Tree, small, hollow, middle]);
    wanted(random, grow, |procedure| procedure.conflict.is_none())
}

/// The same with a repeat inside another.
pub fn nested(random: &mut Random) -> Procedure {
    let deep = |random: &mut Random| {
        let repeats = random.within(2, 32);
        made(nest(random, repeats))
    };
    let grow = random.pick(&[
        small as fn(&mut Random) -> Tree,
        small,
        hollow,
        middle,
        middle,
        deep,
    ]);
    wanted(random, grow, |procedure| {
        procedure.conflict.is_none() && procedure.tree.has_nested_repeats()
    })
}

/// A small or middling procedure whose conflict has the given kind.
pub fn conflicted(random: &mut Random, kind: u32) -> Procedure {
    loop {
        // Drawn anew each time: a tree of many codes has hardly any conflict
        // but those of repeats.
        let grow = random.pick(&[
            small as fn(&mut Random) -> Tree,
            small,
            joined,
            joined,
            hollow,
            middle,
        ]);
        let tree = grow(random);
        let procedure = Procedure::new(tree);
        if procedure
            .conflict
            .is_some_and(|conflict| conflict.kind == kind)
        {
            return procedure;
        }
    }
}

/// A small tree with more sequences than choices, over few codes.
fn joined(random: &mut Random) -> Tree {
    let plan = small_plan(random);
    made(
        Plan {
            leaves: random.within(2, 7),
            codes: palette::codes(random, &[2, 3, 4, 5, 6]),
            choices: 10,
            ..plan
        }
        .grow(random),
    )
}

/// A small procedure, with or without conflict.
pub fn any(random: &mut Random) -> Procedure {
    wanted(random, small, |_| true)
}

/// A large procedure without conflict.
pub fn large_admitted(random: &mut Random, shape: Shape) -> Procedure {
    loop {
        let tree = if random.percent(50) {
            largest(random, shape)
        } else {
            large(random, shape)
        };
        let procedure = Procedure::new(tree);
        if procedure.conflict.is_none() {
            return procedure;
        }
    }
}
