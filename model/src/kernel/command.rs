//! The command records.

use super::numbers::{HANDLE_BYTES, RECORD_BYTES};

/// Number and arguments, before the payload.
const HEAD_BYTES: usize = 8;
const PAYLOAD_BYTES: usize = RECORD_BYTES - HEAD_BYTES;

/// The commands' names by number, LOAD being 1.
pub const COMMAND_NAMES: [&str; 22] = [
    "LOAD",
    "START",
    "NEW",
    "POST",
    "POSTFRONT",
    "PUBLISH",
    "SUBSCRIBE",
    "UNSUBSCRIBE",
    "HOLD",
    "RELEASE",
    "DROP",
    "NEXT",
    "END",
    "ARM",
    "DISARM",
    "TICK",
    "READ",
    "DRAIN",
    "DEFER",
    "RECALL",
    "FLUSH",
    "FLAG",
];

#[derive(Clone, Copy, Debug, PartialEq, Eq)]
pub struct Handle {
    pub block: u8,
    /// Of 24 bits.
    pub generation: u32,
}

impl Handle {
    pub fn from_bytes([block, low, middle, high]: [u8; HANDLE_BYTES]) -> Self {
        Handle {
            block,
            generation: u32::from_le_bytes([low, middle, high, 0]),
        }
    }

    pub fn bytes(self) -> [u8; HANDLE_BYTES] {
        let [low, middle, high, _] = self.generation.to_le_bytes();
        [self.block, low, middle, high]
    }
}

/// A record of a known number whose unused bytes are 0; its arguments may be out of range.
#[derive(Clone, Copy, Debug, PartialEq, Eq)]
pub enum Command {
    Load {
        slot: u8,
    },
    Start {
        p: u8,
        slot: u8,
        depth: u8,
    },
    New {
        signal: u8,
        size: u8,
        payload: [u8; PAYLOAD_BYTES],
    },
    Post {
        handle: Handle,
        p: u8,
        margin: u8,
    },
    PostFront {
        handle: Handle,
        p: u8,
    },
    Publish {
        handle: Handle,
    },
    Subscribe {
        p: u8,
        signal: u8,
    },
    Unsubscribe {
        p: u8,
        signal: u8,
    },
    Hold {
        handle: Handle,
    },
    Release {
        handle: Handle,
    },
    Drop {
        handle: Handle,
    },
    Next,
    End,
    Arm {
        timer: u8,
        p: u8,
        signal: u8,
        ticks: u16,
        interval: u16,
    },
    Disarm {
        timer: u8,
    },
    Tick,
    Read {
        handle: Handle,
    },
    Drain {
        budget: u8,
    },
    Defer {
        q: u8,
    },
    Recall {
        q: u8,
        p: u8,
    },
    Flush {
        q: u8,
    },
    Flag {
        p: u8,
        flag: u8,
        value: u8,
    },
}

use Command::*;

impl Command {
    /// The command of a record, or nothing if the record's form is wrong.
    pub fn read(record: &[u8]) -> Option<Command> {
        let record: &[u8; RECORD_BYTES] = record.try_into().ok()?;
        let (head, payload) = record.split_at(HEAD_BYTES);
        let command = read_head(head, payload)?;
        let unused = &payload[command.payload_bytes_used()..];
        unused.iter().all(|&byte| byte == 0).then_some(command)
    }

    /// The record of a command.
    pub fn record(&self) -> [u8; RECORD_BYTES] {
        let mut record = [0; RECORD_BYTES];
        record[..HEAD_BYTES].copy_from_slice(&self.head());
        if let New { payload, .. } = self {
            record[HEAD_BYTES..].copy_from_slice(payload);
        }
        record
    }

    fn payload_bytes_used(&self) -> usize {
        match *self {
            // A size above 64 leaves no byte unused.
            New { size, .. } => PAYLOAD_BYTES.min(usize::from(size)),
            _ => 0,
        }
    }

    fn head(&self) -> [u8; HEAD_BYTES] {
        match *self {
            Load { slot } => [1, slot, 0, 0, 0, 0, 0, 0],
            Start { p, slot, depth } => [2, p, slot, depth, 0, 0, 0, 0],
            New { signal, size, .. } => [3, signal, size, 0, 0, 0, 0, 0],
            Post { handle, p, margin } => with_handle(4, handle, [p, margin, 0]),
            PostFront { handle, p } => with_handle(5, handle, [p, 0, 0]),
            Publish { handle } => with_handle(6, handle, [0; 3]),
            Subscribe { p, signal } => [7, p, signal, 0, 0, 0, 0, 0],
            Unsubscribe { p, signal } => [8, p, signal, 0, 0, 0, 0, 0],
            Hold { handle } => with_handle(9, handle, [0; 3]),
            Release { handle } => with_handle(10, handle, [0; 3]),
            Drop { handle } => with_handle(11, handle, [0; 3]),
            Next => [12, 0, 0, 0, 0, 0, 0, 0],
            End => [13, 0, 0, 0, 0, 0, 0, 0],
            Arm {
                timer,
                p,
                signal,
                ticks,
                interval,
            } => {
                let [ticks_low, ticks_high] = ticks.to_le_bytes();
                let [interval_low, interval_high] = interval.to_le_bytes();
                [
                    14,
                    timer,
                    p,
                    signal,
                    ticks_low,
                    ticks_high,
                    interval_low,
                    interval_high,
                ]
            }
            Disarm { timer } => [15, timer, 0, 0, 0, 0, 0, 0],
            Tick => [16, 0, 0, 0, 0, 0, 0, 0],
            Read { handle } => with_handle(17, handle, [0; 3]),
            Drain { budget } => [18, budget, 0, 0, 0, 0, 0, 0],
            Defer { q } => [19, q, 0, 0, 0, 0, 0, 0],
            Recall { q, p } => [20, q, p, 0, 0, 0, 0, 0],
            Flush { q } => [21, q, 0, 0, 0, 0, 0, 0],
            Flag { p, flag, value } => [22, p, flag, value, 0, 0, 0, 0],
        }
    }
}

/// The head of a command whose first argument is a handle.
fn with_handle(number: u8, handle: Handle, [a, b, c]: [u8; 3]) -> [u8; HEAD_BYTES] {
    let [block, low, middle, high] = handle.bytes();
    [number, block, low, middle, high, a, b, c]
}

/// The command of a head; each 0 in a pattern is an unused argument.
fn read_head(head: &[u8], payload: &[u8]) -> Option<Command> {
    let handle = Handle::from_bytes([head[1], head[2], head[3], head[4]]);
    Some(match *head {
        [1, slot, 0, 0, 0, 0, 0, 0] => Load { slot },
        [2, p, slot, depth, 0, 0, 0, 0] => Start { p, slot, depth },
        [3, signal, size, 0, 0, 0, 0, 0] => New {
            signal,
            size,
            payload: payload.try_into().ok()?,
        },
        [4, _, _, _, _, p, margin, 0] => Post { handle, p, margin },
        [5, _, _, _, _, p, 0, 0] => PostFront { handle, p },
        [6, _, _, _, _, 0, 0, 0] => Publish { handle },
        [7, p, signal, 0, 0, 0, 0, 0] => Subscribe { p, signal },
        [8, p, signal, 0, 0, 0, 0, 0] => Unsubscribe { p, signal },
        [9, _, _, _, _, 0, 0, 0] => Hold { handle },
        [10, _, _, _, _, 0, 0, 0] => Release { handle },
        [11, _, _, _, _, 0, 0, 0] => Drop { handle },
        [12, 0, 0, 0, 0, 0, 0, 0] => Next,
        [13, 0, 0, 0, 0, 0, 0, 0] => End,
        [14, timer, p, signal, ticks_low, ticks_high, interval_low, interval_high] => Arm {
            timer,
            p,
            signal,
            ticks: u16::from_le_bytes([ticks_low, ticks_high]),
            interval: u16::from_le_bytes([interval_low, interval_high]),
        },
        [15, timer, 0, 0, 0, 0, 0, 0] => Disarm { timer },
        [16, 0, 0, 0, 0, 0, 0, 0] => Tick,
        [17, _, _, _, _, 0, 0, 0] => Read { handle },
        [18, budget, 0, 0, 0, 0, 0, 0] => Drain { budget },
        [19, q, 0, 0, 0, 0, 0, 0] => Defer { q },
        [20, q, p, 0, 0, 0, 0, 0] => Recall { q, p },
        [21, q, 0, 0, 0, 0, 0, 0] => Flush { q },
        [22, p, flag, value, 0, 0, 0, 0] => Flag { p, flag, value },
        _ => return None,
    })
}

#[cfg(test)]
mod tests {
    use super::*;

    /// A record that begins with these bytes.
    fn record(head: &[u8]) -> [u8; RECORD_BYTES] {
        let mut record = [0; RECORD_BYTES];
        record[..head.len()].copy_from_slice(head);
        record
    }

    /// A record with as many arguments as its command uses, none of them 0.
    fn with_all_arguments(number: u8) -> [u8; RECORD_BYTES] {
        let used = [
            1, 3, 2, 6, 5, 4, 2, 2, 4, 4, 4, 0, 0, 7, 1, 0, 4, 1, 1, 2, 1, 3,
        ];
        let mut record = record(&[number]);
        record[1..=used[usize::from(number) - 1]].fill(1);
        record
    }

    #[test]
    fn arguments_stand_in_the_documents_order() {
        let handle = Handle {
            block: 7,
            generation: 0x0a_0908,
        };
        let start = Start {
            p: 1,
            slot: 2,
            depth: 3,
        };
        let post = Post {
            handle,
            p: 11,
            margin: 12,
        };
        let arm = Arm {
            timer: 1,
            p: 2,
            signal: 3,
            ticks: 0x0504,
            interval: 0x0706,
        };
        assert_eq!(Command::read(&record(&[2, 1, 2, 3])), Some(start));
        assert_eq!(
            Command::read(&record(&[4, 7, 8, 9, 10, 11, 12])),
            Some(post)
        );
        assert_eq!(
            Command::read(&record(&[5, 7, 8, 9, 10, 11])),
            Some(PostFront { handle, p: 11 })
        );
        assert_eq!(
            Command::read(&record(&[14, 1, 2, 3, 4, 5, 6, 7])),
            Some(arm)
        );
        assert_eq!(
            Command::read(&record(&[17, 7, 8, 9, 10])),
            Some(Read { handle })
        );
        assert_eq!(
            Command::read(&record(&[20, 5, 9])),
            Some(Recall { q: 5, p: 9 })
        );
        let flag = Flag {
            p: 9,
            flag: 2,
            value: 1,
        };
        assert_eq!(Command::read(&record(&[22, 9, 2, 1])), Some(flag));
    }

    #[test]
    fn a_handle_has_four_bytes() {
        for (generation, bytes) in [
            (0, [0, 0, 0]),
            (255, [255, 0, 0]),
            (256, [0, 1, 0]),
            (65_535, [255, 255, 0]),
            (65_536, [0, 0, 1]),
            (70_000, [112, 17, 1]),
            (16_777_215, [255, 255, 255]),
        ] {
            let block = 55;
            let [low, middle, high] = bytes;
            let handle = Handle { block, generation };
            assert_eq!(handle.bytes(), [block, low, middle, high]);
            assert_eq!(Handle::from_bytes([block, low, middle, high]), handle);
        }
    }

    #[test]
    fn each_number_is_read_and_written() {
        for number in 1..=22 {
            let record = with_all_arguments(number);
            let command = Command::read(&record).expect("a right form");
            assert_eq!(command.record(), record);
        }
    }

    #[test]
    fn each_unused_byte_must_be_0() {
        for number in 1..=22 {
            let right = with_all_arguments(number);
            let unused = (1..RECORD_BYTES).filter(|&place| right[place] == 0);
            for place in unused {
                let mut wrong = right;
                wrong[place] = 1;
                // The first payload byte of a NEW of size 1 is used.
                let is_payload = number == 3 && place == HEAD_BYTES;
                assert_eq!(Command::read(&wrong).is_some(), is_payload);
            }
        }
    }

    #[test]
    fn payload_bytes_past_the_size_must_be_0() {
        let new = |size: u8, last_place: usize| {
            let mut record = record(&[3, 4, size]);
            record[last_place] = 9;
            Command::read(&record)
        };
        assert_eq!(new(0, 8), None);
        assert!(new(5, 12).is_some());
        assert_eq!(new(5, 13), None);
        assert_eq!(new(63, 71), None);
        assert!(new(64, 71).is_some());
        assert!(new(65, 71).is_some());
        assert!(new(255, 71).is_some());
    }

    #[test]
    fn unknown_numbers_and_other_lengths() {
        for number in (0..=255).filter(|number| !(1..=22).contains(number)) {
            assert_eq!(Command::read(&record(&[number])), None);
        }
        let next = record(&[12]);
        assert_eq!(Command::read(&next), Some(Next));
        assert_eq!(Command::read(&[]), None);
        assert_eq!(Command::read(&next[..71]), None);
        assert_eq!(Command::read(&[&next[..], &[0]].concat()), None);
    }
}
