//! The side queues of events that are set aside.

use super::numbers::{MOST_SET_ASIDE, SIDE_QUEUES};
use std::collections::VecDeque;

/// Blocks, the oldest first; a timer's event cannot be set aside.
type SideQueue = VecDeque<u8>;

#[derive(Clone, Debug, PartialEq, Eq)]
pub struct SideQueues {
    queues: Vec<SideQueue>,
}

impl SideQueues {
    pub fn fresh() -> Self {
        SideQueues {
            queues: SIDE_QUEUES.map(|_| SideQueue::new()).collect(),
        }
    }

    /// 0 for a side queue out of range.
    pub fn entries(&self, q: u8) -> u8 {
        let queue = self.queues.get(usize::from(q));
        queue.map_or(0, |queue| queue.len() as u8)
    }

    /// The entries of a block in all side queues.
    pub fn entries_of(&self, block: u8) -> usize {
        let all = self.queues.iter().flatten();
        all.filter(|&&entry| entry == block).count()
    }

    pub fn put_last(&mut self, q: u8, block: u8) {
        assert!(self.entries(q) < MOST_SET_ASIDE, "a place is free");
        self.queues[usize::from(q)].push_back(block);
    }

    pub fn take_oldest(&mut self, q: u8) -> Option<u8> {
        self.queues[usize::from(q)].pop_front()
    }
}
