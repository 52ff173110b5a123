//! A procedure as a tree. Parts stand in postfix order; a part is named by
//! the number of its last node.

/// A node's number.
pub type Node = usize;

/// How many blocks a repeat may have; no upper bound is `None`.
#[derive(Clone, Copy, Debug, PartialEq, Eq, PartialOrd, Ord, Hash)]
pub struct Bounds {
    pub lower: u32,
    pub upper: Option<u32>,
}

impl Bounds {
    /// Whether `count` blocks can be followed by one more.
    pub fn has_room_after(self, count: u32) -> bool {
        self.upper.is_none_or(|upper| count < upper)
    }

    /// The bounds that are left when one block is taken off.
    pub fn less_one(self) -> Bounds {
        Bounds {
            lower: self.lower.saturating_sub(1),
            upper: self.upper.map(|upper| upper.saturating_sub(1)),
        }
    }
}

/// What stands at a node; postfix order makes child numbers superfluous.
#[derive(Clone, Copy, Debug, PartialEq, Eq, PartialOrd, Ord, Hash)]
pub enum Symbol {
    Empty,
    Event(u8),
    Choice,
    Sequence,
    Repeat(Bounds),
}

/// A repeat of no block or one.
pub const OPTIONAL: Symbol = Symbol::Repeat(Bounds {
    lower: 0,
    upper: Some(1),
});

/// A repeat of any number of blocks.
pub const ENDLESS: Symbol = Symbol::Repeat(Bounds {
    lower: 0,
    upper: None,
});

/// A choice of events, in postfix order, grouped to the left.
pub fn choice_of(codes: impl IntoIterator<Item = u8>) -> Vec<Symbol> {
    let mut symbols = Vec::new();
    for code in codes {
        let joins = !symbols.is_empty();
        symbols.push(Symbol::Event(code));
        symbols.extend(joins.then_some(Symbol::Choice));
    }
    symbols
}

/// A whole procedure with what is asked of it often.
#[derive(Clone, Debug)]
pub struct Tree {
    symbols: Vec<Symbol>,
    /// The first node of each part.
    start: Vec<Node>,
    /// Whether a part has the empty word, by the bounds as written.
    nullable: Vec<bool>,
    /// The repeats in rising order, and each node's place in that list.
    repeats: Vec<Node>,
    rank: Vec<usize>,
    /// The repeats around each node, innermost first, itself left out.
    around: Vec<Vec<Node>>,
}

impl Tree {
    /// The tree that the symbols list in postfix order, if they list one.
    pub fn from_postfix(symbols: Vec<Symbol>) -> Option<Tree> {
        let start = starts(&symbols)?;
        if start.last() != Some(&0) {
            return None;
        }
        let repeats: Vec<Node> = (0..symbols.len())
            .filter(|&node| matches!(symbols[node], Symbol::Repeat(_)))
            .collect();
        let mut rank = vec![usize::MAX; symbols.len()];
        for (place, &repeat) in repeats.iter().enumerate() {
            rank[repeat] = place;
        }
        let around = (0..symbols.len())
            .map(|node| {
                let encloses = |repeat: &Node| start[*repeat] <= node && node < *repeat;
                repeats.iter().copied().filter(encloses).collect()
            })
            .collect();
        let nullable = vec![false; symbols.len()];
        let mut tree = Tree {
            symbols,
            start,
            nullable,
            repeats,
            rank,
            around,
        };
        for node in 0..tree.len() {
            tree.nullable[node] = tree.has_empty_word(node);
        }
        Some(tree)
    }

    fn has_empty_word(&self, node: Node) -> bool {
        match self.symbols[node] {
            Symbol::Empty => true,
            Symbol::Event(_) => false,
            Symbol::Choice => self.nullable[self.left(node)] || self.nullable[self.right(node)],
            Symbol::Sequence => self.nullable[self.left(node)] && self.nullable[self.right(node)],
            Symbol::Repeat(bounds) => bounds.lower == 0 || self.nullable[self.body(node)],
        }
    }

    pub fn len(&self) -> usize {
        self.symbols.len()
    }

    pub fn root(&self) -> Node {
        self.len() - 1
    }

    pub fn symbols(&self) -> &[Symbol] {
        &self.symbols
    }

    pub fn symbol(&self, node: Node) -> Symbol {
        self.symbols[node]
    }

    /// The code of an event node, `None` for any other.
    pub fn code(&self, node: Node) -> Option<u8> {
        match self.symbols[node] {
            Symbol::Event(code) => Some(code),
            _ => None,
        }
    }

    pub fn left(&self, node: Node) -> Node {
        self.start[node - 1] - 1
    }

    pub fn right(&self, node: Node) -> Node {
        node - 1
    }

    pub fn body(&self, node: Node) -> Node {
        node - 1
    }

    pub fn nullable(&self, node: Node) -> bool {
        self.nullable[node]
    }

    /// Whether `node` stands in the part, its last node included.
    pub fn holds(&self, part: Node, node: Node) -> bool {
        self.start[part] <= node && node <= part
    }

    pub fn repeats(&self) -> &[Node] {
        &self.repeats
    }

    /// A repeat's place among all repeats in rising order.
    pub fn rank(&self, repeat: Node) -> usize {
        self.rank[repeat]
    }

    /// The repeats around a node, innermost first.
    pub fn around(&self, node: Node) -> &[Node] {
        &self.around[node]
    }

    pub fn events(&self) -> impl Iterator<Item = Node> + '_ {
        (0..self.len()).filter(|&node| self.code(node).is_some())
    }

    /// The bounds of a repeat as written.
    pub fn bounds(&self, repeat: Node) -> Bounds {
        match self.symbols[repeat] {
            Symbol::Repeat(bounds) => bounds,
            other => panic!("node {repeat} is no repeat but {other:?}"),
        }
    }

    /// The bounds in normal form: lower is 0 where the body has the empty word.
    pub fn normal_bounds(&self, repeat: Node) -> Bounds {
        let bounds = self.bounds(repeat);
        let lower = if self.nullable(self.body(repeat)) {
            0
        } else {
            bounds.lower
        };
        Bounds { lower, ..bounds }
    }

    /// The highest count that a state tells of a repeat.
    pub fn cap(&self, repeat: Node) -> u32 {
        let bounds = self.normal_bounds(repeat);
        bounds.upper.unwrap_or(bounds.lower.max(1))
    }

    /// Whether some repeat stands inside another.
    pub fn has_nested_repeats(&self) -> bool {
        self.repeats
            .iter()
            .any(|&repeat| !self.around(repeat).is_empty())
    }
}

/// The first node of each part, or `None` where a child is missing.
fn starts(symbols: &[Symbol]) -> Option<Vec<Node>> {
    let mut start: Vec<Node> = Vec::with_capacity(symbols.len());
    for (node, symbol) in symbols.iter().enumerate() {
        let begin = match symbol {
            Symbol::Empty | Symbol::Event(_) => node,
            Symbol::Repeat(_) => start[node.checked_sub(1)?],
            Symbol::Choice | Symbol::Sequence => {
                let right = start[node.checked_sub(1)?];
                start[right.checked_sub(1)?]
            }
        };
        start.push(begin);
    }
    Some(start)
}
