//! What the commands do once nothing refuses them.

use super::command::Command::{self, *};
use super::command::Handle;
use super::mail::{Event, Object};
use super::numbers::{HANDLE_BYTES, REPLY_BYTES};
use super::pool;
use super::reply::Reply;
use super::tables::{edition_of, place_of, Tables};
use super::timers::Timer;
use super::{Areas, Kernel};
use crate::chart::{self, Edition, FlatRow, Found, MOST_ACTIONS};

impl Kernel {
    pub(super) fn carry_out(
        &mut self,
        command: &Command,
        chart: &[u8],
        areas: &mut Areas,
    ) -> Reply {
        match *command {
            Load { slot } => self.load(slot, chart, areas),
            Start { p, slot, depth } => self.start(p, slot, depth, &areas.all_tables()),
            New {
                signal,
                size,
                payload,
            } => self.new_event(signal, &payload[..usize::from(size)], areas.payloads),
            Post { handle, p, .. } => {
                let object = self.object_mut(p);
                object.post_back(Event::Block(handle.block));
                Reply::value(object.queued())
            }
            PostFront { handle, p } => {
                let object = self.object_mut(p);
                object.post_front(Event::Block(handle.block));
                Reply::value(object.queued())
            }
            Publish { handle } => self.publish(handle.block),
            Subscribe { p, signal } => Reply::value(self.subscriptions.insert((signal, p))),
            Unsubscribe { p, signal } => Reply::value(self.subscriptions.remove(&(signal, p))),
            Hold { handle } => {
                let content = self.pool.content_mut(handle.block);
                content.holds += 1;
                Reply::value(content.holds)
            }
            Release { handle } => {
                let content = self.pool.content_mut(handle.block);
                content.holds -= 1;
                let holds = content.holds;
                Reply::values(holds, self.free_without_reference(handle.block))
            }
            Drop { handle } => {
                self.pool.free(handle.block);
                Reply::default()
            }
            Next => self.next(&areas.all_tables()),
            End => Reply::value(self.end()),
            Arm {
                timer,
                p,
                signal,
                ticks,
                interval,
            } => {
                let armed = Timer {
                    p,
                    signal,
                    counter: ticks,
                    interval,
                };
                self.timers.arm(timer, armed);
                Reply::default()
            }
            Disarm { timer } => Reply::value(self.timers.disarm(timer)),
            Tick => {
                let ticked = self.timers.tick(&mut self.objects);
                Reply::values(ticked.fired, ticked.late)
            }
            Read { handle } => self.read(handle, areas.payloads),
            Drain { budget } => self.drain(budget, areas),
            Defer { q } => self.defer(q),
            Recall { q, p } => Reply::value(self.recall(q, p)),
            Flush { q } => Reply::value(self.flush(q)),
            Flag { p, flag, value } => {
                let flags = &mut self.object_mut(p).flags;
                Reply::value(flags.set(flag, value == 1))
            }
        }
    }

    fn load(&mut self, slot: u8, chart: &[u8], areas: &mut Areas) -> Reply {
        let edition = edition_of(slot);
        let chart = chart::parse(edition, chart).expect("the chart is good");
        let area = match edition {
            Edition::Plain => &mut *areas.tables,
            Edition::Guarded => &mut *areas.guarded,
        };
        area[place_of(slot)].copy_from_slice(&chart.table());
        self.loaded_slots.insert(slot);
        Reply::value(chart.state_count() as u8)
    }

    /// A start opens no step: its actions are in the reply and END has nothing to let go.
    fn start(&mut self, p: u8, slot: u8, depth: u8, tables: &Tables) -> Reply {
        let table = tables.of_slot(slot).expect("the tables have their lengths");
        let row = chart::read_start(edition_of(slot), table).expect("the start row is sound");
        self.objects.insert(p, Object::new(slot, row.next, depth));
        let started = Reply {
            object: p,
            outcome: row.outcome,
            ..Reply::default()
        };
        started.with_actions(&row.actions)
    }

    fn new_event(&mut self, signal: u8, payload: &[u8], payloads: &mut [u8]) -> Reply {
        let size = payload.len() as u8;
        let block = self.pool.lowest_free(size).expect("a block is free");
        let mark = self.pool.fill(block, signal, size);
        let (used, unused) = payloads[pool::place(block)].split_at_mut(payload.len());
        used.copy_from_slice(payload);
        unused.fill(0);
        Reply {
            count: mark,
            handle: self.pool.handle(block).bytes(),
            ..Reply::default()
        }
    }

    fn publish(&mut self, block: u8) -> Reply {
        let subscribers = self.subscribers(self.signal_of(Event::Block(block)));
        for &p in &subscribers {
            self.object_mut(p).post_back(Event::Block(block));
        }
        let freed = self.free_without_reference(block);
        Reply::values(subscribers.len() as u8, freed)
    }

    fn next(&mut self, tables: &Tables) -> Reply {
        let (p, event) = self.next_event().expect("something is queued");
        let reading = self.next_reading(tables).expect("something is queued");
        let object = self.object_mut(p);
        let row = match reading.found {
            Found::Taken(row) => row,
            Found::Nothing => FlatRow::ignored(object.rest),
            Found::Unsound => unreachable!("the rows that are read are sound"),
        };
        object.remove_front();
        object.rest = row.next;
        self.in_hand = Some(event);
        let stepped = Reply {
            object: p,
            outcome: row.outcome,
            signal: self.signal_of(event),
            handle: self.handle_bytes(event),
            ..Reply::default()
        };
        stepped.with_actions(&row.actions)
    }

    /// Lets go the event in hand; whether that freed it.
    fn end(&mut self) -> bool {
        match self.in_hand.take() {
            Some(Event::Block(block)) => self.free_without_reference(block),
            _ => false,
        }
    }

    fn read(&self, handle: Handle, payloads: &[u8]) -> Reply {
        let payload = &payloads[self.payload_place(handle.block)];
        let shown = payload.len().min(MOST_ACTIONS);
        Reply::value(payload.len() as u8).with_actions(&payload[..shown])
    }

    fn drain(&mut self, budget: u8, areas: &mut Areas) -> Reply {
        let mut steps = 0;
        let tables = Tables {
            plain: areas.tables,
            guarded: areas.guarded,
        };
        let mut lines = areas.log.chunks_exact_mut(REPLY_BYTES);
        while steps < budget && self.can_step(&tables) {
            let line = lines.next().expect("the log has room for 255 steps");
            line.copy_from_slice(&self.next(&tables).bytes());
            self.end();
            steps += 1;
        }
        let why_stopped = if self.nothing_is_queued() {
            1
        } else if steps < budget {
            2
        } else {
            0
        };
        Reply::values(steps, why_stopped)
    }

    fn can_step(&self, tables: &Tables) -> bool {
        !self.nothing_is_queued() && !self.next_row_is_unsound(tables)
    }

    /// The step stays open: the hand keeps its own reference.
    fn defer(&mut self, q: u8) -> Reply {
        let Some(Event::Block(block)) = self.in_hand else {
            unreachable!("a block event is in hand");
        };
        self.side_queues.put_last(q, block);
        Reply::value(self.set_aside(q))
    }

    /// Moves the oldest entry of a side queue to the front of a mailbox; whether there was one.
    fn recall(&mut self, q: u8, p: u8) -> bool {
        let oldest = self.side_queues.take_oldest(q);
        if let Some(block) = oldest {
            self.object_mut(p).post_front(Event::Block(block));
        }
        oldest.is_some()
    }

    /// Lets go all entries of a side queue; how many there were.
    fn flush(&mut self, q: u8) -> u8 {
        let entries = self.set_aside(q);
        // One by one, so that a block with several entries goes back once, with the last of them.
        while let Some(block) = self.side_queues.take_oldest(q) {
            self.free_without_reference(block);
        }
        entries
    }

    fn handle_bytes(&self, event: Event) -> [u8; HANDLE_BYTES] {
        match event {
            Event::Block(block) => self.pool.handle(block).bytes(),
            Event::Timer { timer, .. } => [128 + timer, 0, 0, 0],
        }
    }

    /// Frees the block if nothing refers to it; whether it did.
    fn free_without_reference(&mut self, block: u8) -> bool {
        let without = self.references(block) == 0;
        if without {
            self.pool.free(block);
        }
        without
    }

    fn object_mut(&mut self, p: u8) -> &mut Object {
        self.objects.get_mut(&p).expect("the object is started")
    }
}
