//! The mirror of the notation: trees of text. `#40-70` is short for the choice
//! of these codes, in brackets.

use crate::tree::{choice_of, Bounds, Symbol, Tree};

/// The tree of a notation.
///
/// # Panics
/// Where the text is not in the notation.
pub fn tree(text: &str) -> Tree {
    let letters: Vec<char> = text
        .chars()
        .filter(|letter| !letter.is_whitespace())
        .collect();
    let mut parser = Parser {
        letters,
        at: 0,
        symbols: Vec::new(),
    };
    parser.choice();
    assert_eq!(parser.at, parser.letters.len(), "text left over in {text}");
    Tree::from_postfix(parser.symbols).expect("a parser lists a tree")
}

struct Parser {
    letters: Vec<char>,
    at: usize,
    symbols: Vec<Symbol>,
}

impl Parser {
    fn peek(&self) -> Option<char> {
        self.letters.get(self.at).copied()
    }

    fn expect(&mut self, letter: char) {
        assert_eq!(self.peek(), Some(letter), "at letter {}", self.at);
        self.at += 1;
    }

    fn choice(&mut self) {
        self.sequence();
        while self.peek() == Some('+') {
            self.at += 1;
            self.sequence();
            self.symbols.push(Symbol::Choice);
        }
    }

    fn sequence(&mut self) {
        self.repeated();
        while self
            .peek()
            .is_some_and(|letter| letter != '+' && letter != ')')
        {
            self.repeated();
            self.symbols.push(Symbol::Sequence);
        }
    }

    fn repeated(&mut self) {
        self.single();
        while self.peek() == Some('{') {
            self.at += 1;
            let lower = self.number().expect("a lower bound");
            self.expect(',');
            let upper = self.number();
            self.expect('}');
            self.symbols.push(Symbol::Repeat(Bounds { lower, upper }));
        }
    }

    fn single(&mut self) {
        let letter = self.peek().expect("a part");
        self.at += 1;
        match letter {
            '(' => {
                self.choice();
                self.expect(')');
            }
            'e' => self.symbols.push(Symbol::Empty),
            '#' => {
                let (lowest, highest) = self.codes();
                self.symbols.extend(choice_of(lowest..=highest));
            }
            letter => self.symbols.push(Symbol::Event(letter as u8 - b'a')),
        }
    }

    /// The lowest and the highest of the codes; a single one is both.
    fn codes(&mut self) -> (u8, u8) {
        let lowest = self.number().expect("a code");
        let mut highest = lowest;
        if self.peek() == Some('-') {
            self.at += 1;
            highest = self.number().expect("a code");
        }
        assert!(lowest <= highest, "codes rise");
        (lowest as u8, highest as u8)
    }

    fn number(&mut self) -> Option<u32> {
        let begin = self.at;
        while self.peek().is_some_and(|letter| letter.is_ascii_digit()) {
            self.at += 1;
        }
        self.letters[begin..self.at]
            .iter()
            .collect::<String>()
            .parse()
            .ok()
    }
}

#[cfg(test)]
mod tests {
    use super::tree;
    use crate::notation::show;

    #[test]
    fn parse_and_show_are_mirrors() {
        for text in [
            "e",
            "a{2,4}",
            "(a+e)(b+e){0,2}",
            "(#5 #1{0,1}){0,1}(#5+#1)",
            "a{3,}{0,1}b",
        ] {
            let once = tree(text);
            assert_eq!(once.symbols(), tree(&show(&once)).symbols(), "{text}");
        }
    }

    #[test]
    fn codes_in_a_row_are_a_choice_in_brackets() {
        for (short, long) in [
            ("#3-3", "#3"),
            ("#62-64", "(#62+#63+#64)"),
            ("#1-2{0,1}#7-8", "(#1+#2){0,1}(#7+#8)"),
        ] {
            assert_eq!(tree(short).symbols(), tree(long).symbols(), "{short}");
        }
        assert_eq!(tree("#0-127").len(), 255);
    }

    #[test]
    fn nodes_are_counted_in_postfix_order() {
        let tree = tree("(a{2,3}(b+e)){0,}");
        assert_eq!(tree.len(), 7);
        assert_eq!(tree.left(5), 1);
        assert_eq!(tree.around(0), [1, 6]);
    }
}
