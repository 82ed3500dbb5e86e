//! Words, spots of a page, messages and the reading rule.

/// A group is 0 (`false`), 1 (`true`) or blank (`None`).
pub type Group = Option<bool>;

/// A name is a controller's number or blank (`None`).
pub type Name = Option<u8>;

/// A group with a name. A word of two blanks is still a word.
#[derive(Clone, Copy, Debug, PartialEq, Eq)]
pub struct Word {
    pub group: Group,
    pub name: Name,
}

/// Selectors and rounds count from 1 to 16, phases from 1 to 2.
#[derive(Clone, Copy, Debug, PartialEq, Eq, Hash)]
pub struct Spot {
    pub selector: u8,
    pub round: u8,
    pub phase: u8,
}

pub const LAST: u8 = 16;

impl Spot {
    pub fn new(selector: u8, round: u8, phase: u8) -> Spot {
        Spot { selector, round, phase }
    }

    pub fn within_limits(self) -> bool {
        (1..=LAST).contains(&self.selector)
            && (1..=LAST).contains(&self.round)
            && (1..=2).contains(&self.phase)
    }

    /// Index of the cell in a page of 512 cells.
    pub fn index(self) -> usize {
        ((self.selector as usize - 1) * 16 + (self.round as usize - 1)) * 2
            + (self.phase as usize - 1)
    }

    /// The spot of a cell of a page; the reverse of `index`.
    pub fn at(index: usize) -> Spot {
        Spot::new((index / 32 + 1) as u8, (index / 2 % 16 + 1) as u8, (index % 2 + 1) as u8)
    }
}

#[derive(Clone, Copy, Debug, PartialEq, Eq)]
pub enum Kind {
    Phase,
    Echo,
}

#[derive(Clone, Copy, Debug, PartialEq, Eq)]
pub struct Message {
    pub kind: Kind,
    pub sender: u8,
    pub receiver: u8,
    pub spot: Spot,
    pub word: Word,
}

/// The common entry if all are equal, blank otherwise and for an empty list.
/// Blank is an entry like any other: 0 and blank are not equal.
pub fn reading<T: PartialEq + Clone>(entries: &[Option<T>]) -> Option<T> {
    let first = entries.first()?;
    if entries.iter().all(|entry| entry == first) {
        first.clone()
    } else {
        None
    }
}
