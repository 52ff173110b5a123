//! The items of a reading and their numbers in a record.

use crate::tree::Node;

const MARK: u16 = 4_096;

/// One item of a reading; each names its node.
#[derive(Clone, Copy, Debug, PartialEq, Eq, PartialOrd, Ord, Hash)]
pub enum Item {
    Event(Node),
    Opening(Node),
    Closing(Node),
}

impl Item {
    /// The item's number in a record.
    pub fn number(self) -> u16 {
        match self {
            Item::Event(node) => node as u16,
            Item::Opening(node) => node as u16 + MARK,
            Item::Closing(node) => node as u16 + 2 * MARK,
        }
    }

    /// The item of a number, `None` for the marks 3 to 15.
    pub fn of_number(number: u16) -> Option<Item> {
        let node = Node::from(number % MARK);
        match number / MARK {
            0 => Some(Item::Event(node)),
            1 => Some(Item::Opening(node)),
            2 => Some(Item::Closing(node)),
            _ => None,
        }
    }
}

/// The bytes of a record.
pub fn write(items: &[Item]) -> Vec<u8> {
    items
        .iter()
        .flat_map(|item| item.number().to_le_bytes())
        .collect()
}

/// The items of a record, `None` where its bytes are odd or a mark is unknown.
pub fn read(bytes: &[u8]) -> Option<Vec<Item>> {
    if bytes.len() % 2 != 0 {
        return None;
    }
    bytes
        .chunks(2)
        .map(|pair| Item::of_number(u16::from_le_bytes([pair[0], pair[1]])))
        .collect()
}

#[cfg(test)]
mod tests {
    use super::{read, write, Item};

    #[test]
    fn items_and_numbers_are_mirrors() {
        let items = [
            Item::Opening(1),
            Item::Event(0),
            Item::Closing(1),
            Item::Event(511),
        ];
        let bytes = write(&items);
        assert_eq!(bytes, [1, 16, 0, 0, 1, 32, 255, 1]);
        assert_eq!(read(&bytes), Some(items.to_vec()));
    }

    #[test]
    fn odd_bytes_and_unknown_marks_are_no_record() {
        assert_eq!(read(&[0]), None);
        assert_eq!(read(&[0, 0, 0, 48]), None);
        assert_eq!(read(&[0, 240]), None);
    }
}
