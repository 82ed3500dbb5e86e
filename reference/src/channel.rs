//! The channel: a bag of waiting messages with a fixed number of places.

use crate::words::Message;

/// Gone: one of the message has left. Copied: the bag is unchanged.
#[derive(Clone, Copy, Debug, PartialEq, Eq)]
pub enum Mark {
    Gone,
    Copied,
}

pub trait Channel {
    fn places(&self) -> usize;
    fn waiting(&self) -> usize;
    /// False (refused, nothing changed) exactly when all places are taken.
    fn send(&mut self, message: Message) -> bool;
    /// None exactly when nothing waits. Copied is said only if a place is free.
    fn fetch(&mut self, pick: u32) -> Option<(Message, Mark)>;
    fn free(&self) -> usize {
        self.places() - self.waiting()
    }
}

/// One message a place, and never more than 65,535 places.
#[derive(Clone, Debug, PartialEq, Eq)]
struct Store {
    places: usize,
    messages: Vec<Message>,
}

impl Store {
    fn new(places: usize) -> Store {
        Store { places: places.min(65_535), messages: Vec::new() }
    }

    fn send(&mut self, message: Message) -> bool {
        let room = self.messages.len() < self.places;
        if room {
            self.messages.push(message);
        }
        room
    }
}

/// Gives the oldest message and always says gone.
#[derive(Clone, Debug, PartialEq, Eq)]
pub struct Line(Store);

impl Line {
    pub fn new(places: usize) -> Line {
        Line(Store::new(places))
    }
}

impl Channel for Line {
    fn places(&self) -> usize {
        self.0.places
    }
    fn waiting(&self) -> usize {
        self.0.messages.len()
    }
    fn send(&mut self, message: Message) -> bool {
        self.0.send(message)
    }
    fn fetch(&mut self, _pick: u32) -> Option<(Message, Mark)> {
        if self.0.messages.is_empty() {
            None
        } else {
            Some((self.0.messages.remove(0), Mark::Gone))
        }
    }
}

/// Gives the message at position (pick mod the number waiting). Says copied
/// if the pick is 2^31 or more and a place is free; otherwise the last waiting
/// message moves to that position.
#[derive(Clone, Debug, PartialEq, Eq)]
pub struct Bag(Store);

impl Bag {
    pub fn new(places: usize) -> Bag {
        Bag(Store::new(places))
    }
}

impl Channel for Bag {
    fn places(&self) -> usize {
        self.0.places
    }
    fn waiting(&self) -> usize {
        self.0.messages.len()
    }
    fn send(&mut self, message: Message) -> bool {
        self.0.send(message)
    }
    fn fetch(&mut self, pick: u32) -> Option<(Message, Mark)> {
        if self.0.messages.is_empty() {
            return None;
        }
        let position = pick as usize % self.0.messages.len();
        if pick >= 1 << 31 && self.free() > 0 {
            Some((self.0.messages[position], Mark::Copied))
        } else {
            Some((self.0.messages.swap_remove(position), Mark::Gone))
        }
    }
}
