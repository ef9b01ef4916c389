//! Picks command records that mostly mean something in the state they are sent to.

use super::super::random::Xorshift;
use super::opening::random_opening;
use crate::chart;
use crate::kernel::command::{Command, Handle};
use crate::kernel::numbers::*;
use crate::kernel::replay::Charts;
use crate::kernel::Kernel;
use std::ops::RangeInclusive;

/// Makes a command for a kernel in some state.
type Make = fn(&mut Picker, &Kernel) -> Command;

const ALL: [Make; 22] = [
    Picker::load,
    Picker::start,
    Picker::new_event,
    Picker::post,
    Picker::post_front,
    Picker::publish,
    Picker::subscribe,
    Picker::unsubscribe,
    Picker::hold,
    Picker::release,
    Picker::drop_event,
    |_, _| Command::Next,
    |_, _| Command::End,
    Picker::arm,
    Picker::disarm,
    Picker::tick,
    Picker::read,
    Picker::drain,
    Picker::defer,
    Picker::recall,
    Picker::flush,
    Picker::flag,
];

/// The commands that a stretch of a trace is mostly about, and how likely each
/// is. Fifteen holds, a dry pool or a full mailbox would hardly come about if
/// every command were as likely at all times.
type Mood = &'static [(Make, usize)];

const SETTING_UP: Mood = &[
    (Picker::load, 8),
    (Picker::start, 10),
    (Picker::subscribe, 6),
    (Picker::new_event, 2),
    (Picker::flag, 5),
];
const POSTING: Mood = &[
    (Picker::new_event, 6),
    (Picker::post, 12),
    (Picker::post_front, 4),
    (Picker::publish, 5),
    (Picker::subscribe, 2),
    (Picker::arm, 2),
    (Picker::tick, 3),
];
const STEPPING: Mood = &[
    (Picker::step, 12),
    (Picker::new_event, 3),
    (Picker::post, 4),
    (Picker::publish, 2),
    (Picker::drain, 2),
];
const HOARDING_SMALL: Mood = &[(Picker::new_small_event, 12), (Picker::read, 1)];
const HOARDING_MIDDLE: Mood = &[(Picker::new_middle_event, 12), (Picker::read, 1)];
const HOARDING_LARGE: Mood = &[(Picker::new_large_event, 12), (Picker::read, 1)];
const HOLDING: Mood = &[(Picker::hold, 10), (Picker::release, 2)];
const RELEASING: Mood = &[(Picker::release, 6), (Picker::drop_event, 4)];
const TIMING: Mood = &[
    (Picker::arm, 4),
    (Picker::disarm, 1),
    (Picker::tick, 8),
    (Picker::step, 4),
    (Picker::defer, 1),
];
const SETTING_ASIDE: Mood = &[
    (Picker::set_aside, 12),
    (Picker::step, 4),
    (Picker::post, 2),
    (Picker::tick, 1),
    (Picker::recall, 1),
];
const CALLING_BACK: Mood = &[
    (Picker::call_back, 8),
    (Picker::step, 6),
    (Picker::set_aside, 3),
    (Picker::flush, 1),
];
const FLAGGING: Mood = &[
    (Picker::flag, 8),
    (Picker::post_to_guarded, 6),
    (Picker::step, 10),
    (Picker::drain, 1),
    (Picker::new_event, 2),
];
const READING_TABLES: Mood = &[
    (Picker::step, 8),
    (Picker::drain, 5),
    (Picker::start, 5),
    (Picker::load, 2),
    (Picker::post_to_guarded, 1),
];
const MOODS: [Mood; 24] = [
    SETTING_UP,
    POSTING,
    POSTING,
    POSTING,
    STEPPING,
    STEPPING,
    STEPPING,
    STEPPING,
    HOARDING_SMALL,
    HOARDING_MIDDLE,
    HOARDING_LARGE,
    HOLDING,
    RELEASING,
    RELEASING,
    TIMING,
    TIMING,
    SETTING_ASIDE,
    SETTING_ASIDE,
    CALLING_BACK,
    CALLING_BACK,
    FLAGGING,
    FLAGGING,
    FLAGGING,
    FLAGGING,
];

pub struct Picker {
    random: Xorshift,
    /// What is sent before anything is picked.
    opening: std::vec::IntoIter<Command>,
    /// The few signals a trace mostly uses, so that they meet subscribers and rows.
    signals: Vec<u8>,
    /// Those that rows of edition two ask for, and any.
    flags: Vec<u8>,
    mood: Mood,
    left_in_mood: usize,
}

impl Picker {
    pub fn new(mut random: Xorshift, charts: &Charts) -> Self {
        let signals = favourite_signals(&mut random, charts);
        let flags = favourite_flags(&mut random, charts);
        let signal = random.pick(&signals);
        let opening = random_opening(&mut random, charts, signal);
        Picker {
            random,
            opening: opening.into_iter(),
            signals,
            flags,
            mood: SETTING_UP,
            left_in_mood: 25,
        }
    }

    pub fn random(&mut self) -> &mut Xorshift {
        &mut self.random
    }

    pub fn is_opening(&self) -> bool {
        self.opening.len() > 0
    }

    /// A record to send to a kernel in this state.
    pub fn record(&mut self, kernel: &Kernel) -> [u8; RECORD_BYTES] {
        if let Some(command) = self.opening.next() {
            return command.record();
        }
        if self.left_in_mood == 0 {
            self.mood = self.random.pick(&MOODS);
            self.left_in_mood = 10 + self.random.below(40);
        }
        self.left_in_mood -= 1;
        let mut record = self.command(kernel).record();
        if self.random.percent(3) {
            self.spoil(&mut record);
        }
        record
    }

    /// The record of a command that reads or writes tables.
    pub fn record_about_tables(&mut self, kernel: &Kernel) -> [u8; RECORD_BYTES] {
        self.command_in_mood(READING_TABLES, kernel).record()
    }

    fn command(&mut self, kernel: &Kernel) -> Command {
        if self.random.percent(25) {
            let make = self.random.pick(&ALL);
            return make(self, kernel);
        }
        self.command_in_mood(self.mood, kernel)
    }

    fn command_in_mood(&mut self, mood: Mood, kernel: &Kernel) -> Command {
        let weight: usize = mood.iter().map(|(_, weight)| weight).sum();
        let mut drawn = self.random.below(weight);
        for &(make, weight) in mood {
            if drawn < weight {
                return make(self, kernel);
            }
            drawn -= weight;
        }
        unreachable!("less was drawn than all weights together");
    }

    /// Sets one byte of the record; most often its form is wrong then.
    fn spoil(&mut self, record: &mut [u8; RECORD_BYTES]) {
        match self.random.below(5) {
            0 => record[0] = self.random.pick(&[0, 23, 24, 128, 255]),
            1 | 2 => record[1 + self.random.below(7)] = self.random.byte(),
            _ => record[8 + self.random.below(64)] = self.random.byte(),
        }
    }

    fn load(&mut self, _: &Kernel) -> Command {
        let slot = self.any(SLOTS);
        Command::Load {
            slot: self.or_wrong(slot, &[5, 255]),
        }
    }

    fn start(&mut self, kernel: &Kernel) -> Command {
        let p = self.mostly(PRIORITIES, |p| !kernel.is_started(p));
        let guards = kernel.is_loaded(GUARDED_SLOT) && self.random.percent(45);
        let slot = match guards {
            true => GUARDED_SLOT,
            false => self.mostly(SLOTS, |slot| kernel.is_loaded(slot)),
        };
        // Shallow mailboxes are full sooner.
        let any_depth = self.any(DEPTHS);
        let depth = self.random.pick(&[1, 2, 3, 4, 16, any_depth]);
        Command::Start {
            p: self.or_wrong(p, &[0, 17, 255]),
            slot: self.or_wrong(slot, &[5, 255]),
            depth: self.or_wrong(depth, &[0, 17, 255]),
        }
    }

    fn new_event(&mut self, _: &Kernel) -> Command {
        let any_size = self.any(SIZES);
        let sizes = [0, 1, 16, 17, 18, 19, 32, 33, 64, any_size];
        let size = self.random.pick(&sizes);
        let size = self.or_wrong(size, &[65, 255]);
        self.new_event_of(size)
    }

    fn new_small_event(&mut self, _: &Kernel) -> Command {
        let size = self.any(0..=16);
        self.new_event_of(size)
    }

    fn new_middle_event(&mut self, _: &Kernel) -> Command {
        let size = self.any(17..=32);
        self.new_event_of(size)
    }

    fn new_large_event(&mut self, _: &Kernel) -> Command {
        let size = self.any(33..=64);
        self.new_event_of(size)
    }

    fn new_event_of(&mut self, size: u8) -> Command {
        let mut payload = [0; 64];
        for byte in payload.iter_mut().take(usize::from(size)) {
            *byte = self.random.byte();
        }
        Command::New {
            signal: self.signal(),
            size,
            payload,
        }
    }

    fn post(&mut self, kernel: &Kernel) -> Command {
        let any_margin = self.any(MARGINS);
        let margin = self.random.pick(&[0, 0, 0, 0, 1, 2, 15, any_margin]);
        Command::Post {
            handle: self.handle(kernel, |block| kernel.references(block) == 0),
            p: self.started_object(kernel),
            margin: self.or_wrong(margin, &[16, 255]),
        }
    }

    /// To an object whose flags matter, if there is one.
    fn post_to_guarded(&mut self, kernel: &Kernel) -> Command {
        Command::Post {
            handle: self.handle(kernel, |_| true),
            p: self.mostly(PRIORITIES, |p| kernel.slot_of(p) == Some(GUARDED_SLOT)),
            margin: 0,
        }
    }

    fn post_front(&mut self, kernel: &Kernel) -> Command {
        Command::PostFront {
            handle: self.handle(kernel, |_| true),
            p: self.started_object(kernel),
        }
    }

    fn publish(&mut self, kernel: &Kernel) -> Command {
        Command::Publish {
            handle: self.handle(kernel, |_| true),
        }
    }

    fn subscribe(&mut self, kernel: &Kernel) -> Command {
        Command::Subscribe {
            p: self.started_object(kernel),
            signal: self.signal(),
        }
    }

    fn unsubscribe(&mut self, kernel: &Kernel) -> Command {
        Command::Unsubscribe {
            p: self.started_object(kernel),
            signal: self.signal(),
        }
    }

    fn hold(&mut self, kernel: &Kernel) -> Command {
        let most = BLOCKS.map(|block| kernel.holds(block)).max();
        Command::Hold {
            // Rather one event with many holds than many with one.
            handle: self.handle(kernel, |block| Some(kernel.holds(block)) == most),
        }
    }

    fn release(&mut self, kernel: &Kernel) -> Command {
        Command::Release {
            handle: self.handle(kernel, |block| kernel.holds(block) > 0),
        }
    }

    fn drop_event(&mut self, kernel: &Kernel) -> Command {
        Command::Drop {
            handle: self.handle(kernel, |block| kernel.references(block) == 0),
        }
    }

    /// Goes on with the open step, or with the next one, or sees to it that there is one.
    fn step(&mut self, kernel: &Kernel) -> Command {
        let asks_too_early = self.random.percent(12);
        if kernel.step_is_open() && !asks_too_early {
            Command::End
        } else if kernel.next_object().is_some() {
            Command::Next
        } else if live_blocks(kernel).is_empty() {
            self.new_event(kernel)
        } else {
            self.post(kernel)
        }
    }

    fn arm(&mut self, kernel: &Kernel) -> Command {
        let timer = self.mostly(TIMERS, |timer| !kernel.is_armed(timer));
        let any_number = u16::from_le_bytes([self.random.byte(), self.random.byte()]);
        // 256 and 257 tell one that drops the high byte.
        let ticks = [1, 1, 1, 1, 2, 2, 3, 4, 256, 257, any_number, 0];
        let intervals = [0, 0, 1, 2, 3, 5, 256, 257, any_number];
        Command::Arm {
            timer: self.or_wrong(timer, &[16, 255]),
            p: self.started_object(kernel),
            signal: self.signal(),
            ticks: self.random.pick(&ticks),
            interval: self.random.pick(&intervals),
        }
    }

    fn disarm(&mut self, kernel: &Kernel) -> Command {
        let timer = self.mostly(TIMERS, |timer| kernel.is_armed(timer));
        Command::Disarm {
            timer: self.or_wrong(timer, &[16, 255]),
        }
    }

    fn tick(&mut self, _: &Kernel) -> Command {
        Command::Tick
    }

    fn read(&mut self, kernel: &Kernel) -> Command {
        Command::Read {
            handle: self.handle(kernel, |_| true),
        }
    }

    fn drain(&mut self, kernel: &Kernel) -> Command {
        if kernel.step_is_open() && self.random.percent(70) {
            return Command::End;
        }
        let any_budget = self.random.byte();
        Command::Drain {
            budget: self.random.pick(&[0, 1, 2, 3, 5, 255, any_budget]),
        }
    }

    fn defer(&mut self, kernel: &Kernel) -> Command {
        let most = most_set_aside(kernel);
        Command::Defer {
            // Rather one side queue with many entries than many with one.
            q: self.side_queue(|q| kernel.set_aside(q) == most),
        }
    }

    /// Sets the event in hand aside, or goes on to the next one that can be.
    fn set_aside(&mut self, kernel: &Kernel) -> Command {
        if kernel.step_is_open() && !kernel.timer_is_in_hand() {
            self.defer(kernel)
        } else {
            self.step(kernel)
        }
    }

    fn recall(&mut self, kernel: &Kernel) -> Command {
        let most = most_set_aside(kernel);
        Command::Recall {
            // The one that DEFER likes, so that many entries pass through it.
            q: self.side_queue(|q| kernel.set_aside(q) == most),
            p: self.started_object(kernel),
        }
    }

    /// Calls an event back, or sees to it that there is one.
    fn call_back(&mut self, kernel: &Kernel) -> Command {
        if most_set_aside(kernel) > 0 {
            self.recall(kernel)
        } else {
            self.set_aside(kernel)
        }
    }

    fn flush(&mut self, kernel: &Kernel) -> Command {
        Command::Flush {
            q: self.side_queue(|q| kernel.set_aside(q) > 0),
        }
    }

    fn flag(&mut self, kernel: &Kernel) -> Command {
        if kernel.step_is_open() && self.random.percent(70) {
            return Command::End;
        }
        let p = match self.random.percent(70) {
            true => self.mostly(PRIORITIES, |p| kernel.slot_of(p) == Some(GUARDED_SLOT)),
            false => self.started_object(kernel),
        };
        let favourites = self.flags.clone();
        let flag = self.mostly(FLAGS, |flag| favourites.contains(&flag));
        let value = self.random.pick(&[0, 1, 1]);
        Command::Flag {
            p,
            flag: self.or_wrong(flag, &[0, 9, 255]),
            value: self.or_wrong(value, &[2, 255]),
        }
    }

    fn side_queue(&mut self, wanted: impl Fn(u8) -> bool) -> u8 {
        let q = self.mostly(SIDE_QUEUES, wanted);
        self.or_wrong(q, &[8, 255])
    }

    fn started_object(&mut self, kernel: &Kernel) -> u8 {
        let p = self.mostly(PRIORITIES, |p| kernel.is_started(p));
        self.or_wrong(p, &[0, 17, 255])
    }

    fn signal(&mut self) -> u8 {
        let favourites = self.signals.clone();
        let signal = self.mostly(SIGNALS, |signal| favourites.contains(&signal));
        self.or_wrong(signal, &[0, 3, 32, 255])
    }

    /// A handle that fits, most of the time, and mostly one to a wanted block.
    fn handle(&mut self, kernel: &Kernel, wanted: impl Fn(u8) -> bool) -> Handle {
        let live = live_blocks(kernel);
        if live.is_empty() || self.random.percent(8) {
            return self.wrong_handle(kernel);
        }
        let fitting = live.iter().copied().filter(|&block| wanted(block));
        let fitting: Vec<u8> = fitting.collect();
        let takes_any = fitting.is_empty() || self.random.percent(20);
        kernel.handle(self.random.pick(if takes_any { &live } else { &fitting }))
    }

    /// A handle out of range, or one that is stale most of the time.
    fn wrong_handle(&mut self, kernel: &Kernel) -> Handle {
        let block = self.mostly(BLOCKS, |block| is_live(kernel, block));
        let fitting = kernel.handle(block);
        match self.random.below(6) {
            0 => Handle {
                block: self.random.pick(&[56, 64, 255]),
                ..fitting
            },
            // Most likely that of a free block.
            1 => kernel.handle(self.any(BLOCKS)),
            2 => Handle {
                generation: before(fitting.generation),
                ..fitting
            },
            _ => self.with_another_byte(fitting),
        }
    }

    /// The handle with another byte at one place of its generation.
    fn with_another_byte(&mut self, handle: Handle) -> Handle {
        let mut bytes = handle.bytes();
        let place = 1 + self.random.below(3);
        let bits = [1, 128, 1 + self.random.below(255) as u8];
        bytes[place] ^= self.random.pick(&bits);
        Handle::from_bytes(bytes)
    }

    fn any(&mut self, range: RangeInclusive<u8>) -> u8 {
        let all: Vec<u8> = range.collect();
        self.random.pick(&all)
    }

    /// Most of the time a wanted number of the range, if there is one, else any.
    fn mostly(&mut self, range: RangeInclusive<u8>, wanted: impl Fn(u8) -> bool) -> u8 {
        let fitting: Vec<u8> = range.clone().filter(|&number| wanted(number)).collect();
        if fitting.is_empty() || self.random.percent(12) {
            self.any(range)
        } else {
            self.random.pick(&fitting)
        }
    }

    /// The number, or, a few times in a hundred, one of the wrong ones.
    fn or_wrong(&mut self, number: u8, wrong: &[u8]) -> u8 {
        if self.random.percent(3) {
            self.random.pick(wrong)
        } else {
            number
        }
    }
}

/// Whether the block has an event.
fn is_live(kernel: &Kernel, block: u8) -> bool {
    !kernel.is_stale(kernel.handle(block))
}

fn live_blocks(kernel: &Kernel) -> Vec<u8> {
    BLOCKS.filter(|&block| is_live(kernel, block)).collect()
}

/// The generation before this one; before the first the last.
fn before(generation: u32) -> u32 {
    generation.checked_sub(1).unwrap_or(LAST_GENERATION)
}

/// The entries of the fullest side queue.
fn most_set_aside(kernel: &Kernel) -> u8 {
    let entries = SIDE_QUEUES.map(|q| kernel.set_aside(q));
    entries.max().expect("there are side queues")
}

/// One signal of any kind, some for which a chart has rows, and some of these for which that of edition two has.
fn favourite_signals(random: &mut Xorshift, charts: &Charts) -> Vec<u8> {
    let any: Vec<u8> = SIGNALS.collect();
    let signals_of = |charts: &[Vec<u8>]| {
        let signals = charts
            .iter()
            .flat_map(|chart| rows(chart))
            .map(|row| row[2]);
        let signals: Vec<u8> = signals.filter(|signal| SIGNALS.contains(signal)).collect();
        if signals.is_empty() {
            any.clone()
        } else {
            signals
        }
    };
    let with_rows = signals_of(charts);
    let with_guarded_rows = signals_of(&charts[usize::from(GUARDED_SLOT)..]);
    let mut favourites = vec![random.pick(&any)];
    favourites.extend((0..4).map(|_| random.pick(&with_rows)));
    favourites.extend((0..2).map(|_| random.pick(&with_guarded_rows)));
    favourites
}

/// One flag of any number, and some that rows of the chart of edition two have.
fn favourite_flags(random: &mut Xorshift, charts: &Charts) -> Vec<u8> {
    let any: Vec<u8> = FLAGS.collect();
    let flags = rows(&charts[usize::from(GUARDED_SLOT)]).map(|row| row[6]);
    let named: Vec<u8> = flags.filter(|flag| FLAGS.contains(flag)).collect();
    let choices = if named.is_empty() { &any } else { &named };
    let mut favourites = vec![random.pick(&any)];
    favourites.extend((0..4).map(|_| random.pick(choices)));
    favourites
}

/// The records of rows, good or not.
fn rows(chart: &[u8]) -> impl Iterator<Item = &[u8]> {
    let records = chart.chunks_exact(chart::RECORD_BYTES);
    records.filter(|record| record[0] == 2)
}
