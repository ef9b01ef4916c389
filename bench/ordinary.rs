//! The ordinary program that DRAIN is timed against: mailboxes are queues of copied events, and nothing is proved.

use std::collections::VecDeque;

const ROW_BYTES: usize = 24;
const LINE_BYTES: usize = 28;
const SLOT_BYTES: usize = 16152;
const TABLE_BYTES: usize = 4 * SLOT_BYTES;
const LOG_BYTES: usize = 255 * LINE_BYTES;
const SIGNALS: usize = 28;
const FIRST_SIGNAL: usize = 4;
const MOST_ACTIONS: usize = 18;
const DEPTH: usize = 16;

/// Copied into a mailbox when it is posted, and out of it when it is taken. No step looks at the payload, so the
/// compiler may leave out its second copy.
#[derive(Clone, Copy)]
#[repr(C)]
pub struct Event {
    pub generation: u32,
    pub block: u8,
    pub signal: u8,
    pub size: u8,
    pub payload: [u8; 64],
}

struct Object {
    slot: usize,
    rest: u8,
    mailbox: VecDeque<Event>,
}

impl Clone for Object {
    fn clone(&self) -> Self {
        let mailbox = self.mailbox.clone();
        Object { mailbox, ..*self }
    }

    // A derived one would give the mailbox other memory each time.
    fn clone_from(&mut self, from: &Self) {
        self.slot = from.slot;
        self.rest = from.rest;
        self.mailbox.clone_from(&from.mailbox);
    }
}

impl Object {
    /// The row of the flat table for the state of rest and the event's signal.
    fn row<'a>(&self, tables: &'a [u8], event: &Event) -> &'a [u8] {
        let number = SIGNALS * (self.rest as usize - 1) + event.signal as usize - FIRST_SIGNAL;
        let place = SLOT_BYTES * self.slot + ROW_BYTES * (1 + number);
        &tables[place..place + ROW_BYTES]
    }
}

fn is_sound(row: &[u8]) -> bool {
    let count = row[2] as usize;
    (1..=24).contains(&row[0])
        && row[1] <= 2
        && count <= MOST_ACTIONS
        && row[3 + count..].iter().all(|&byte| byte == 0)
}

fn write_line(line: &mut [u8], priority: usize, event: &Event, row: &[u8]) {
    let handle = event.generation << 8 | event.block as u32; // the block's byte comes first
    line[0] = 0;
    line[1] = priority as u8;
    line[2] = row[1] * 32 + event.signal;
    line[3] = row[2];
    line[4..6].fill(0);
    line[6..24].copy_from_slice(&row[3..3 + MOST_ACTIONS]);
    line[24..].copy_from_slice(&handle.to_le_bytes());
}

/// Objects by their priority, which begins with 1.
#[derive(Default)]
pub struct Program {
    objects: Vec<Object>,
}

impl Program {
    fn start(&mut self, slot: usize, tables: &[u8]) {
        let mailbox = VecDeque::with_capacity(DEPTH);
        let rest = tables[SLOT_BYTES * slot];
        self.objects.push(Object {
            slot,
            rest,
            mailbox,
        });
    }

    fn post(&mut self, priority: usize, event: Event) {
        self.objects[priority - 1].mailbox.push_back(event);
    }

    /// Takes events until the budget is spent, no mail is left or, if rows are tested, one is unsound: that event
    /// stays. A step posts nothing, so an object that was passed has no mail again. Answers the steps taken.
    fn drain<const TESTED: bool>(&mut self, tables: &[u8], log: &mut [u8], budget: usize) -> usize {
        let mut steps = 0;
        for (index, object) in self.objects.iter_mut().enumerate().rev() {
            while let Some(&event) = object.mailbox.front() {
                let row = object.row(tables, &event);
                if steps == budget || TESTED && !is_sound(row) {
                    return steps;
                }
                object.mailbox.pop_front();
                object.rest = row[0];
                let line = &mut log[LINE_BYTES * steps..][..LINE_BYTES];
                write_line(line, index + 1, &event, row);
                steps += 1;
            }
        }
        steps
    }
}

#[no_mangle]
pub extern "C" fn ordinary_new() -> Box<Program> {
    Box::default()
}

#[no_mangle]
pub extern "C" fn ordinary_start(program: &mut Program, slot: usize, tables: &[u8; TABLE_BYTES]) {
    program.start(slot, tables);
}

#[no_mangle]
pub extern "C" fn ordinary_post(program: &mut Program, priority: usize, event: &Event) {
    program.post(priority, *event);
}

#[no_mangle]
pub extern "C" fn ordinary_restore(program: &mut Program, from: &Program) {
    program.objects.clone_from(&from.objects);
}

#[no_mangle]
pub extern "C" fn ordinary_drain(
    program: &mut Program,
    tables: &[u8; TABLE_BYTES],
    log: &mut [u8; LOG_BYTES],
    budget: usize,
) -> usize {
    program.drain::<false>(tables, log, budget)
}

#[no_mangle]
pub extern "C" fn ordinary_drain_tested(
    program: &mut Program,
    tables: &[u8; TABLE_BYTES],
    log: &mut [u8; LOG_BYTES],
    budget: usize,
) -> usize {
    program.drain::<true>(tables, log, budget)
}
