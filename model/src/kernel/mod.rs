//! The event kernel, driven by command records.

mod aside;
mod carry_out;
pub mod command;
mod mail;
pub mod numbers;
mod pool;
pub mod refusals;
pub mod replay;
pub mod reply;
pub mod tables;
#[cfg(test)]
mod tests;
mod timers;

use crate::chart::{self, Flags, Reading};
use aside::SideQueues;
use command::{Command, Handle};
use mail::{Event, Object};
use numbers::{PRIORITIES, REPLY_BYTES};
use pool::Pool;
use reply::{Refusal, Reply};
use std::collections::{BTreeMap, BTreeSet};
use std::ops::Range;
use tables::{edition_of, Tables};
use timers::Timers;

#[derive(Clone, Debug, PartialEq, Eq)]
pub struct Kernel {
    pool: Pool,
    /// The started objects by priority.
    objects: BTreeMap<u8, Object>,
    loaded_slots: BTreeSet<u8>,
    /// Pairs of signal and priority.
    subscriptions: BTreeSet<(u8, u8)>,
    timers: Timers,
    side_queues: SideQueues,
    /// A step is open while there is one.
    in_hand: Option<Event>,
}

/// The areas lent to one command, of any length.
struct Areas<'a> {
    payloads: &'a mut [u8],
    tables: &'a mut [u8],
    guarded: &'a mut [u8],
    log: &'a mut [u8],
}

/// What a refusal may depend on besides the kernel and the command.
pub struct Lent<'a> {
    pub chart: &'a [u8],
    pub payloads_length: usize,
    pub tables: Tables<'a>,
    pub log_length: usize,
}

impl Lent<'_> {
    const NOTHING: Lent<'static> = Lent {
        chart: &[],
        payloads_length: 0,
        tables: Tables::NONE,
        log_length: 0,
    };
}

impl Areas<'_> {
    fn with_chart<'a>(&'a self, chart: &'a [u8]) -> Lent<'a> {
        Lent {
            chart,
            payloads_length: self.payloads.len(),
            tables: self.all_tables(),
            log_length: self.log.len(),
        }
    }

    fn all_tables(&self) -> Tables<'_> {
        Tables {
            plain: self.tables,
            guarded: self.guarded,
        }
    }
}

impl Kernel {
    pub fn fresh() -> Self {
        Kernel {
            pool: Pool::fresh(),
            objects: BTreeMap::new(),
            loaded_slots: BTreeSet::new(),
            subscriptions: BTreeSet::new(),
            timers: Timers::default(),
            side_queues: SideQueues::fresh(),
            in_hand: None,
        }
    }

    /// Carries out one command record, or refuses it and writes only the reply.
    /// The chart is looked at by LOAD alone.
    pub fn command(
        &mut self,
        record: &[u8],
        chart: &[u8],
        payloads: &mut [u8],
        tables: &mut [u8],
        guarded: &mut [u8],
        log: &mut [u8],
    ) -> [u8; REPLY_BYTES] {
        let mut areas = Areas {
            payloads,
            tables,
            guarded,
            log,
        };
        self.reply(record, chart, &mut areas).bytes()
    }

    fn reply(&mut self, record: &[u8], chart: &[u8], areas: &mut Areas) -> Reply {
        let Some(command) = Command::read(record) else {
            return Reply::refused(Refusal::Form);
        };
        let refusal = self.refusal(&command, &areas.with_chart(chart));
        match (refusal, &command) {
            (None, _) => self.carry_out(&command, chart, areas),
            (Some(Refusal::Chart), Command::Load { slot }) => Reply {
                values: [chart::check(edition_of(*slot), chart) as u8, 0],
                ..Reply::refused(Refusal::Chart)
            },
            (Some(refusal), _) => Reply::refused(refusal),
        }
    }

    /// The part of the payload area that READ hands back; empty for a refused
    /// READ and for other records. READ changes nothing, so the question may
    /// be asked before the command or after it.
    pub fn read_part(&self, record: &[u8], payloads_length: usize) -> Range<usize> {
        let lent = Lent {
            payloads_length,
            ..Lent::NOTHING
        };
        match Command::read(record) {
            Some(Command::Read { handle })
                if self.refusal(&Command::Read { handle }, &lent).is_none() =>
            {
                self.payload_place(handle.block)
            }
            _ => 0..0,
        }
    }

    /// Where the payload of an event stands, as long as its size.
    fn payload_place(&self, block: u8) -> Range<usize> {
        let begin = pool::place(block).start;
        let size = self.pool.content(block).map_or(0, |content| content.size);
        begin..begin + usize::from(size)
    }

    /// The highest object with mail and its front event.
    fn next_event(&self) -> Option<(u8, Event)> {
        let with_mail = |(&p, object): (&u8, &Object)| Some((p, object.front()?));
        self.objects.iter().rev().find_map(with_mail)
    }

    fn signal_of(&self, event: Event) -> u8 {
        match event {
            Event::Block(block) => {
                let content = self.pool.content(block);
                content.expect("a queued block is taken").signal
            }
            Event::Timer { signal, .. } => signal,
        }
    }

    /// References to a block: its holds, its mailbox entries, its side entries,
    /// the hand. They are counted anew each time, so that no counter can go astray.
    pub fn references(&self, block: u8) -> usize {
        let queued: usize = self.objects.values().map(|o| o.entries_of(block)).sum();
        let set_aside = self.side_queues.entries_of(block);
        let in_hand = self.in_hand == Some(Event::Block(block));
        usize::from(self.holds(block)) + queued + set_aside + usize::from(in_hand)
    }

    fn subscribers(&self, signal: u8) -> Vec<u8> {
        let to_signal = PRIORITIES.filter(|&p| self.subscriptions.contains(&(signal, p)));
        to_signal.collect()
    }

    /// The object whose mail NEXT takes; nothing if nothing is queued.
    pub fn next_object(&self) -> Option<u8> {
        let (p, _) = self.next_event()?;
        Some(p)
    }

    /// How that object would answer its front event; nothing too if a table does not have its length.
    pub fn next_reading(&self, tables: &Tables) -> Option<Reading> {
        let (p, event) = self.next_event()?;
        let object = self.objects.get(&p)?;
        let table = tables.of_slot(object.slot)?;
        let (edition, signal) = (edition_of(object.slot), self.signal_of(event));
        let reading = chart::read_step(edition, table, object.rest, signal, &object.flags);
        Some(reading)
    }

    /// Where the rows for an object's rest and its front event stand in the table of its slot.
    pub fn front_rows_place(&self, p: u8) -> Option<Range<usize>> {
        let object = self.objects.get(&p)?;
        let signal = self.signal_of(object.front()?);
        let edition = edition_of(object.slot);
        Some(chart::rows_place(edition, object.rest, signal))
    }

    /// The slot whose chart an object follows.
    pub fn slot_of(&self, p: u8) -> Option<u8> {
        self.objects.get(&p).map(|object| object.slot)
    }

    /// The flags of a started object.
    pub fn flags_of(&self, p: u8) -> Option<&Flags> {
        self.objects.get(&p).map(|object| &object.flags)
    }

    pub fn step_is_open(&self) -> bool {
        self.in_hand.is_some()
    }

    pub fn timer_is_in_hand(&self) -> bool {
        matches!(self.in_hand, Some(Event::Timer { .. }))
    }

    fn nothing_is_queued(&self) -> bool {
        self.next_event().is_none()
    }

    pub fn is_started(&self, p: u8) -> bool {
        self.objects.contains_key(&p)
    }

    pub fn is_loaded(&self, slot: u8) -> bool {
        self.loaded_slots.contains(&slot)
    }

    pub fn is_armed(&self, timer: u8) -> bool {
        self.timers.is_armed(timer)
    }

    /// The entries of a side queue.
    pub fn set_aside(&self, q: u8) -> u8 {
        self.side_queues.entries(q)
    }

    /// The holds on the event in a block; 0 if there is none.
    pub fn holds(&self, block: u8) -> u8 {
        self.pool.content(block).map_or(0, |content| content.holds)
    }

    /// The handle with the generation that a block has now, be it taken or not.
    pub fn handle(&self, block: u8) -> Handle {
        self.pool.handle(block)
    }

    pub fn is_stale(&self, handle: Handle) -> bool {
        self.pool.is_stale(handle)
    }
}
