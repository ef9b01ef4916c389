//! The numbers of the kernel, as documents 01 and 02 give them.

use crate::chart;
use std::ops::RangeInclusive;

/// Objects are known by their priority; 16 is the most urgent.
pub const PRIORITIES: RangeInclusive<u8> = 1..=16;
pub const DEPTHS: RangeInclusive<u8> = 1..=16;
pub const SIGNALS: RangeInclusive<u8> = chart::FIRST_SIGNAL..=chart::LAST_SIGNAL;
pub const TIMERS: RangeInclusive<u8> = 0..=15;
pub const SLOTS: RangeInclusive<u8> = 0..=4;
/// The slot whose chart is of edition two; the others take edition one.
pub const GUARDED_SLOT: u8 = 4;
pub const BLOCKS: RangeInclusive<u8> = 0..=55;
/// A block that is freed with this generation is retired.
pub const LAST_GENERATION: u32 = 16_777_215;
pub const SIZES: RangeInclusive<u8> = 0..=64;
pub const MARGINS: RangeInclusive<u8> = 0..=15;
pub const MOST_HOLDS: u8 = 15;
/// Of one object.
pub const FLAGS: RangeInclusive<u8> = 1..=8;
pub const SIDE_QUEUES: RangeInclusive<u8> = 0..=7;
/// In one side queue.
pub const MOST_SET_ASIDE: u8 = 8;

pub const PAYLOADS_BYTES: usize = 1_536;
/// The tables of slots 0 to 3.
pub const TABLES_BYTES: usize = 64_608;
/// The table of slot 4.
pub const GUARDED_BYTES: usize = 32_280;
pub const LOG_BYTES: usize = 7_140;

/// A command record: number, seven arguments, 64 payload bytes.
pub const RECORD_BYTES: usize = 72;
/// A reply record: 24 bytes, then a handle.
pub const REPLY_BYTES: usize = 28;
/// A handle: the block, then its generation, low byte first.
pub const HANDLE_BYTES: usize = 4;
