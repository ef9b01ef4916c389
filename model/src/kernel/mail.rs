//! Objects and their mailboxes.

use crate::chart::Flags;
use std::collections::VecDeque;

/// An entry of a mailbox, or the event in hand.
#[derive(Clone, Copy, Debug, PartialEq, Eq)]
pub enum Event {
    Block(u8),
    /// The signal is that of the arming; the timer may be armed with another by now.
    Timer {
        timer: u8,
        signal: u8,
    },
}

/// A started object.
#[derive(Clone, Debug, PartialEq, Eq)]
pub struct Object {
    pub slot: u8,
    pub rest: u8,
    pub flags: Flags,
    depth: u8,
    mailbox: VecDeque<Event>,
}

impl Object {
    /// With all its flags down.
    pub fn new(slot: u8, rest: u8, depth: u8) -> Self {
        Object {
            slot,
            rest,
            flags: Flags::default(),
            depth,
            mailbox: VecDeque::new(),
        }
    }

    pub fn queued(&self) -> u8 {
        self.mailbox.len() as u8
    }

    pub fn free_places(&self) -> u8 {
        self.depth - self.queued()
    }

    pub fn front(&self) -> Option<Event> {
        self.mailbox.front().copied()
    }

    pub fn entries_of(&self, block: u8) -> usize {
        let is_of_block = |entry: &&Event| **entry == Event::Block(block);
        self.mailbox.iter().filter(is_of_block).count()
    }

    pub fn post_back(&mut self, event: Event) {
        assert!(self.free_places() > 0, "a place is free");
        self.mailbox.push_back(event);
    }

    pub fn post_front(&mut self, event: Event) {
        assert!(self.free_places() > 0, "a place is free");
        self.mailbox.push_front(event);
    }

    pub fn remove_front(&mut self) {
        self.mailbox.pop_front();
    }
}
