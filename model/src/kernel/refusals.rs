//! When a command is refused: document 01's table with document 02's additions, command by command.

use super::command::Command::{self, *};
use super::mail::Object;
use super::numbers::*;
use super::reply::Refusal;
use super::tables::{edition_of, Tables};
use super::{Kernel, Lent};
use crate::chart::{self, Edition, Found, GOOD};
use std::collections::BTreeSet;

impl Kernel {
    /// The lowest number that applies to a command whose form is right.
    pub(super) fn refusal(&self, command: &Command, lent: &Lent) -> Option<Refusal> {
        let conditions = self.conditions(command, lent);
        let applying = conditions.into_iter().filter(|(_, applies)| *applies);
        applying.map(|(refusal, _)| refusal).min()
    }

    /// Each refusal that the table gives the command, and whether it applies.
    /// FORM is not among them: it looks at the record alone.
    fn conditions(&self, command: &Command, lent: &Lent) -> Vec<(Refusal, bool)> {
        match *command {
            Load { slot } => vec![
                (Refusal::Area, lacks_tables_for(slot, &lent.tables)),
                (Refusal::Range, !SLOTS.contains(&slot)),
                (Refusal::Busy, self.step_is_open()),
                (Refusal::Taken, self.is_used(slot)),
                (
                    Refusal::Chart,
                    chart::check(edition_of(slot), lent.chart) != GOOD,
                ),
            ],
            Start { p, slot, depth } => vec![
                (Refusal::Area, lacks_tables_for(slot, &lent.tables)),
                (Refusal::Range, !PRIORITIES.contains(&p)),
                (Refusal::Range, !SLOTS.contains(&slot)),
                (Refusal::Range, !DEPTHS.contains(&depth)),
                (Refusal::Busy, self.step_is_open()),
                (Refusal::Absent, !self.is_loaded(slot)),
                (Refusal::Taken, self.is_started(p)),
                (Refusal::Table, start_row_is_unsound(slot, &lent.tables)),
            ],
            New { signal, size, .. } => vec![
                (Refusal::Area, lent.payloads_length != PAYLOADS_BYTES),
                (Refusal::Range, !SIGNALS.contains(&signal)),
                (Refusal::Range, !SIZES.contains(&size)),
                (Refusal::Dry, self.pool.lowest_free(size).is_none()),
            ],
            // Here and below every generation is in range.
            Post { handle, p, margin } => vec![
                (Refusal::Range, !BLOCKS.contains(&handle.block)),
                (Refusal::Range, !PRIORITIES.contains(&p)),
                (Refusal::Range, !MARGINS.contains(&margin)),
                (Refusal::Stale, self.is_stale(handle)),
                (Refusal::Absent, !self.is_started(p)),
                (Refusal::Full, self.free_places(p) <= margin),
            ],
            PostFront { handle, p } => vec![
                (Refusal::Range, !BLOCKS.contains(&handle.block)),
                (Refusal::Range, !PRIORITIES.contains(&p)),
                (Refusal::Stale, self.is_stale(handle)),
                (Refusal::Absent, !self.is_started(p)),
                (Refusal::Full, self.free_places(p) == 0),
            ],
            Publish { handle } => vec![
                (Refusal::Range, !BLOCKS.contains(&handle.block)),
                (Refusal::Stale, self.is_stale(handle)),
                (Refusal::Full, self.a_subscriber_is_full(handle.block)),
            ],
            Subscribe { p, signal } | Unsubscribe { p, signal } => vec![
                (Refusal::Range, !PRIORITIES.contains(&p)),
                (Refusal::Range, !SIGNALS.contains(&signal)),
                (Refusal::Absent, !self.is_started(p)),
            ],
            Hold { handle } => vec![
                (Refusal::Range, !BLOCKS.contains(&handle.block)),
                (Refusal::Stale, self.is_stale(handle)),
                (Refusal::Holds, self.holds(handle.block) == MOST_HOLDS),
            ],
            Release { handle } => vec![
                (Refusal::Range, !BLOCKS.contains(&handle.block)),
                (Refusal::Stale, self.is_stale(handle)),
                (Refusal::Holds, self.holds(handle.block) == 0),
            ],
            Drop { handle } => vec![
                (Refusal::Range, !BLOCKS.contains(&handle.block)),
                (Refusal::Stale, self.is_stale(handle)),
                (Refusal::InUse, self.references(handle.block) > 0),
            ],
            Next => vec![
                (Refusal::Area, !lent.tables.have_length(Edition::Plain)),
                (Refusal::Area, self.lacks_tables_for_next(&lent.tables)),
                (Refusal::Busy, self.step_is_open()),
                (Refusal::Idle, self.nothing_is_queued()),
                (Refusal::Table, self.next_row_is_unsound(&lent.tables)),
            ],
            End => vec![(Refusal::NoStep, !self.step_is_open())],
            Arm {
                timer,
                p,
                signal,
                ticks,
                interval: _,
            } => vec![
                (Refusal::Range, !TIMERS.contains(&timer)),
                (Refusal::Range, !PRIORITIES.contains(&p)),
                (Refusal::Range, !SIGNALS.contains(&signal)),
                (Refusal::Range, ticks == 0),
                (Refusal::Absent, !self.is_started(p)),
                (Refusal::Taken, self.is_armed(timer)),
            ],
            Disarm { timer } => vec![(Refusal::Range, !TIMERS.contains(&timer))],
            Tick => vec![],
            Read { handle } => vec![
                (Refusal::Area, lent.payloads_length != PAYLOADS_BYTES),
                (Refusal::Range, !BLOCKS.contains(&handle.block)),
                (Refusal::Stale, self.is_stale(handle)),
            ],
            // Every budget is in range.
            Drain { budget: _ } => vec![
                (Refusal::Area, !lent.tables.have_length(Edition::Plain)),
                (Refusal::Area, !lent.tables.have_length(Edition::Guarded)),
                (Refusal::Area, lent.log_length != LOG_BYTES),
                (Refusal::Busy, self.step_is_open()),
            ],
            Defer { q } => vec![
                (Refusal::Range, !SIDE_QUEUES.contains(&q)),
                (Refusal::NoStep, !self.step_is_open()),
                (Refusal::Stale, self.timer_is_in_hand()),
                (Refusal::Full, self.set_aside(q) == MOST_SET_ASIDE),
            ],
            Recall { q, p } => vec![
                (Refusal::Range, !SIDE_QUEUES.contains(&q)),
                (Refusal::Range, !PRIORITIES.contains(&p)),
                (Refusal::Absent, !self.is_started(p)),
                (Refusal::Full, self.has_no_place_for_oldest(q, p)),
            ],
            Flush { q } => vec![(Refusal::Range, !SIDE_QUEUES.contains(&q))],
            Flag { p, flag, value } => vec![
                (Refusal::Range, !PRIORITIES.contains(&p)),
                (Refusal::Range, !FLAGS.contains(&flag)),
                (Refusal::Range, value > 1),
                (Refusal::Busy, self.step_is_open()),
                (Refusal::Absent, !self.is_started(p)),
            ],
        }
    }

    fn is_used(&self, slot: u8) -> bool {
        self.objects.values().any(|object| object.slot == slot)
    }

    /// None for an object that is not started.
    pub fn free_places(&self, p: u8) -> u8 {
        self.objects.get(&p).map_or(0, Object::free_places)
    }

    fn a_subscriber_is_full(&self, block: u8) -> bool {
        self.pool.content(block).is_some_and(|content| {
            let mut subscribers = self.subscribers(content.signal).into_iter();
            subscribers.any(|p| self.free_places(p) == 0)
        })
    }

    /// An empty side queue needs no place.
    fn has_no_place_for_oldest(&self, q: u8, p: u8) -> bool {
        self.set_aside(q) > 0 && self.free_places(p) == 0
    }

    /// Whether a table is missing that NEXT reads. It does not matter whether a step is open.
    fn lacks_tables_for_next(&self, tables: &Tables) -> bool {
        let slot = self.next_object().and_then(|p| self.slot_of(p));
        slot.is_some_and(|slot| lacks_tables_for(slot, tables))
    }

    /// No row, no unsound row: IDLE or AREA stands for that.
    pub(super) fn next_row_is_unsound(&self, tables: &Tables) -> bool {
        let reading = self.next_reading(tables);
        reading.is_some_and(|reading| reading.found == Found::Unsound)
    }
}

/// The refusals that the table gives a command, FORM included, ascending.
pub fn refusals_of(command: &Command) -> BTreeSet<Refusal> {
    let conditions = Kernel::fresh().conditions(command, &Lent::NOTHING);
    let listed = conditions.into_iter().map(|(refusal, _)| refusal);
    listed.chain([Refusal::Form]).collect()
}

/// Whether a command about a slot finds no tables: those of slots 0 to 3 are asked for whatever the slot, that of slot 4
/// besides them for slot 4 alone.
fn lacks_tables_for(slot: u8, tables: &Tables) -> bool {
    !tables.have_length(Edition::Plain) || !tables.have_length(edition_of(slot))
}

/// No table, no unsound row: AREA or RANGE stands for that.
fn start_row_is_unsound(slot: u8, tables: &Tables) -> bool {
    let table = tables.of_slot(slot);
    table.is_some_and(|table| chart::read_start(edition_of(slot), table).is_none())
}
