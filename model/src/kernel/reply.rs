//! The reply record.

use super::numbers::{HANDLE_BYTES, REPLY_BYTES};
use crate::chart::MOST_ACTIONS;

/// The answers' names by number.
pub const ANSWER_NAMES: [&str; 16] = [
    "DONE", "FORM", "AREA", "RANGE", "BUSY", "NOSTEP", "IDLE", "STALE", "ABSENT", "TAKEN", "FULL",
    "DRY", "HOLDS", "INUSE", "CHART", "TABLE",
];

/// Every answer but DONE; the order is that of the numbers.
#[derive(Clone, Copy, Debug, PartialEq, Eq, PartialOrd, Ord)]
pub enum Refusal {
    Form = 1,
    Area,
    Range,
    Busy,
    NoStep,
    Idle,
    Stale,
    Absent,
    Taken,
    Full,
    Dry,
    Holds,
    InUse,
    Chart,
    Table,
}

/// A reply before it is laid out; what a command leaves out is 0.
#[derive(Clone, Debug, Default, PartialEq, Eq)]
pub struct Reply {
    pub number: u8,
    pub object: u8,
    pub outcome: u8,
    pub signal: u8,
    /// How many actions there are; NEW has none and shows its pool's mark here.
    pub count: u8,
    pub values: [u8; 2],
    /// READ shows payload bytes here.
    pub actions: Vec<u8>,
    /// Of the event, in NEW's and NEXT's.
    pub handle: [u8; HANDLE_BYTES],
}

impl Reply {
    pub fn refused(refusal: Refusal) -> Self {
        Reply {
            number: refusal as u8,
            ..Reply::default()
        }
    }

    /// DONE with one value.
    pub fn value(value: impl Into<u8>) -> Self {
        Self::values(value, 0)
    }

    /// DONE with two values.
    pub fn values(first: impl Into<u8>, second: impl Into<u8>) -> Self {
        Reply {
            values: [first.into(), second.into()],
            ..Reply::default()
        }
    }

    /// The reply with these actions and their count.
    pub fn with_actions(self, actions: &[u8]) -> Self {
        assert!(
            actions.len() <= MOST_ACTIONS,
            "a reply has room for 18 actions"
        );
        Reply {
            count: actions.len() as u8,
            actions: actions.to_vec(),
            ..self
        }
    }

    pub fn bytes(&self) -> [u8; REPLY_BYTES] {
        let mut bytes = [0; REPLY_BYTES];
        bytes[0] = self.number;
        bytes[1] = self.object;
        bytes[2] = self.outcome * 32 + self.signal;
        bytes[3] = self.count;
        bytes[4..6].copy_from_slice(&self.values);
        bytes[6..6 + self.actions.len()].copy_from_slice(&self.actions);
        bytes[REPLY_BYTES - HANDLE_BYTES..].copy_from_slice(&self.handle);
        bytes
    }
}

#[cfg(test)]
mod tests {
    use super::*;

    #[test]
    fn bytes_stand_in_the_documents_order() {
        let reply = Reply {
            number: 0,
            object: 16,
            outcome: 2,
            signal: 31,
            count: 32,
            values: [7, 8],
            actions: Vec::new(),
            handle: [55, 9, 10, 11],
        };
        let mut expected = [0; REPLY_BYTES];
        expected[..6].copy_from_slice(&[0, 16, 95, 32, 7, 8]);
        expected[24..].copy_from_slice(&[55, 9, 10, 11]);
        assert_eq!(reply.bytes(), expected);
        expected[..9].copy_from_slice(&[0, 16, 95, 3, 7, 8, 1, 2, 3]);
        assert_eq!(reply.clone().with_actions(&[1, 2, 3]).bytes(), expected);
        expected[3] = 18;
        expected[6..24].fill(255);
        assert_eq!(reply.with_actions(&[255; 18]).bytes(), expected);
    }

    #[test]
    fn a_refusal_is_its_number_and_zeros() {
        let bytes = Reply::refused(Refusal::Table).bytes();
        assert_eq!(bytes[0], 15);
        assert_eq!(bytes[1..], [0; 27]);
    }

    #[test]
    fn each_refusal_has_its_name_at_its_number() {
        assert_eq!(ANSWER_NAMES[Refusal::Form as usize], "FORM");
        assert_eq!(ANSWER_NAMES[Refusal::Idle as usize], "IDLE");
        assert_eq!(ANSWER_NAMES[Refusal::Dry as usize], "DRY");
        assert_eq!(ANSWER_NAMES[Refusal::Table as usize], "TABLE");
    }
}
