//! Trunhoac for a host in Rust: the event kernel, the chart check and the flattener, and frames for a trace that can
//! still be read after damage, as safe calls.
//!
//! Take this file in by `#[path = "..."] mod trunhoac;` or copy it, and link the library. It uses `core` and
//! `alloc` alone, and Rust 1.82 or later. Each command of documents 01 and 02 is a method of [`Kernel`]. The library
//! answers any argument, so an argument out of range is refused and no method panics.

extern crate alloc;

use alloc::boxed::Box;
use core::error::Error;
use core::fmt;
use core::mem::{align_of, size_of};
use core::ops::Deref;

/// The most bytes that a payload has.
pub const MOST_PAYLOAD_BYTES: usize = 64;
/// The length of one of the slots 0 to 3, which takes the flat table of one plain chart.
pub const SLOT_BYTES: usize = 16_152;
/// The length of the flat table of a guarded chart.
pub const GUARDED_BYTES: usize = 32_280;
/// The slot that takes guarded charts, and no other.
pub const GUARDED_SLOT: u8 = 4;
/// The length of a reply.
pub const REPLY_BYTES: usize = 28;
/// The last generation of a block, whose first is 0: one that is freed at it is retired.
pub const LAST_GENERATION: u32 = 16_777_215;
/// The most bytes of data in a frame.
pub const FRAME_DATA: usize = 93;
/// The longest frame as it is sent: an area of so many bytes has room for any.
pub const FRAME_BYTES: usize = 193;

const HEAD_BYTES: usize = 8;
const RECORD_BYTES: usize = HEAD_BYTES + MOST_PAYLOAD_BYTES;
const HANDLE_BYTES: usize = 4;
const PAYLOAD_AREA: usize = 1_536;
const TABLE_AREA: usize = 4 * SLOT_BYTES;
const LOG_LINES: usize = 255;
const MOST_ACTIONS: usize = 18;
/// What is told of a frame: five bytes, and room for its data.
const TOLD_BYTES: usize = 5 + FRAME_DATA;
/// A timer's event is told by this number and the timer's own, in the place of a block.
const FIRST_TIMER: u8 = 128;

const MEMORY_WORDS: usize = 258;

/// The kernel's memory. What it holds is the kernel's own.
#[repr(C)]
#[derive(Clone)]
struct Memory {
    words: [u64; MEMORY_WORDS],
}

const _: () = assert!(size_of::<Memory>() == 2_064 && align_of::<Memory>() == 8);

/// The reader's memory. What it holds is the reader's own.
#[repr(C)]
#[derive(Clone)]
struct ReaderMemory {
    bytes: [u8; 100],
}

/// The library's calls.
mod library {
    use super::{Memory, ReaderMemory, REPLY_BYTES, TOLD_BYTES};

    unsafe extern "C" {
        pub fn trunhoac_fresh(kernel: &mut Memory);
        pub fn trunhoac_command(
            kernel: &mut Memory,
            record: *const u8,
            record_length: usize,
            chart: *const u8,
            chart_length: usize,
            payloads: *mut u8,
            payloads_length: usize,
            tables: *mut u8,
            tables_length: usize,
            guarded: *mut u8,
            guarded_length: usize,
            log: *mut u8,
            log_length: usize,
            reply: &mut [u8; REPLY_BYTES],
        );
        pub fn trunhoac_read(
            kernel: &Memory,
            record: *const u8,
            record_length: usize,
            payloads: *const u8,
            payloads_length: usize,
            place: &mut usize,
            length: &mut usize,
        );
        pub fn chart_check(chart: *const u8, chart_length: usize) -> u32;
        pub fn chart_flatten(
            chart: *const u8,
            chart_length: usize,
            slot: *mut u8,
            slot_length: usize,
        ) -> u32;
        pub fn chart_check_guarded(chart: *const u8, chart_length: usize) -> u32;
        pub fn chart_flatten_guarded(
            chart: *const u8,
            chart_length: usize,
            table: *mut u8,
            table_length: usize,
        ) -> u32;
        pub fn trunhoac_frame_write(
            number: &mut u8,
            kind: u8,
            data: *const u8,
            data_length: usize,
            area: *mut u8,
            area_length: usize,
        ) -> usize;
        pub fn trunhoac_reader_fresh(reader: &mut ReaderMemory);
        pub fn trunhoac_reader_feed(
            reader: &mut ReaderMemory,
            piece: *const u8,
            piece_length: usize,
            read: &mut usize,
            told: &mut [u8; TOLD_BYTES],
        );
    }
}

/// Checks a plain chart. A bad one is refused by [`Refusal::Chart`].
pub fn chart_check(chart: &[u8]) -> Result<(), Refusal> {
    // SAFETY: the pointer and the length are those of one slice.
    verdict(unsafe { library::chart_check(chart.as_ptr(), chart.len()) })
}

/// Writes a good plain chart's flat table into a slot of [`SLOT_BYTES`]; after a refusal the slot is as it was.
pub fn chart_flatten(chart: &[u8], slot: &mut [u8]) -> Result<(), Refusal> {
    let (to, length) = (slot.as_mut_ptr(), slot.len());
    // SAFETY: pointers and lengths are those of two slices, and what is borrowed mutably overlaps nothing.
    verdict(unsafe { library::chart_flatten(chart.as_ptr(), chart.len(), to, length) })
}

/// Checks a guarded chart, whose rows may name a flag and which has at most 8 states. A bad one is refused by
/// [`Refusal::Chart`].
pub fn chart_check_guarded(chart: &[u8]) -> Result<(), Refusal> {
    // SAFETY: the pointer and the length are those of one slice.
    verdict(unsafe { library::chart_check_guarded(chart.as_ptr(), chart.len()) })
}

/// Writes a good guarded chart's flat table into one of [`GUARDED_BYTES`]; after a refusal the table is as it was.
pub fn chart_flatten_guarded(chart: &[u8], table: &mut [u8]) -> Result<(), Refusal> {
    let (to, length) = (table.as_mut_ptr(), table.len());
    // SAFETY: pointers and lengths are those of two slices, and what is borrowed mutably overlaps nothing.
    verdict(unsafe { library::chart_flatten_guarded(chart.as_ptr(), chart.len(), to, length) })
}

fn verdict(class: u32) -> Result<(), Refusal> {
    match class {
        0 => Ok(()),
        class => Err(Refusal::Chart(class)),
    }
}

/// Why something is refused. It then changed nothing.
#[derive(Clone, Copy, Debug, PartialEq, Eq)]
pub enum Refusal {
    Form,       // the record's form is wrong; the methods make none such
    Area,       // an area has another length than its own; a kernel's areas have not
    Range,      // an argument is out of range
    Busy,       // a step is open
    NoStep,     // no step is open
    Idle,       // nothing is queued
    Stale,      // the handle is stale, or the event to be set aside is a timer's
    Absent,     // the object is not started, or the slot is not loaded
    Taken,      // the object is started, the slot is in use, or the timer is armed
    Full,       // there is no place in the mailbox or in the side queue
    Dry,        // there is no free block in the pool
    Holds,      // the event has 15 holds, or none to release
    InUse,      // the event is queued, set aside, held or in hand, so it cannot be dropped
    Chart(u32), // the lowest class of the chart's faults; 5 is a slot or a table of another length
    Table,      // a row that is read is not sound; one that a LOAD wrote always is
}

impl Refusal {
    /// What a reply refuses with: nothing if its number is 0, which is DONE.
    pub fn in_reply(reply: &[u8; REPLY_BYTES]) -> Option<Refusal> {
        Some(match reply[0] {
            0 => return None,
            1 => Refusal::Form,
            2 => Refusal::Area,
            3 => Refusal::Range,
            4 => Refusal::Busy,
            5 => Refusal::NoStep,
            6 => Refusal::Idle,
            7 => Refusal::Stale,
            8 => Refusal::Absent,
            9 => Refusal::Taken,
            10 => Refusal::Full,
            11 => Refusal::Dry,
            12 => Refusal::Holds,
            13 => Refusal::InUse,
            14 => Refusal::Chart(reply[4].into()),
            _ => Refusal::Table, // 15: a reply has no greater number
        })
    }
}

impl fmt::Display for Refusal {
    fn fmt(&self, f: &mut fmt::Formatter<'_>) -> fmt::Result {
        f.write_str(match self {
            Refusal::Form => "FORM",
            Refusal::Area => "AREA",
            Refusal::Range => "RANGE",
            Refusal::Busy => "BUSY",
            Refusal::NoStep => "NOSTEP",
            Refusal::Idle => "IDLE",
            Refusal::Stale => "STALE",
            Refusal::Absent => "ABSENT",
            Refusal::Taken => "TAKEN",
            Refusal::Full => "FULL",
            Refusal::Dry => "DRY",
            Refusal::Holds => "HOLDS",
            Refusal::InUse => "INUSE",
            Refusal::Chart(class) => return write!(f, "CHART, class {class}"),
            Refusal::Table => "TABLE",
        })
    }
}

impl Error for Refusal {}

/// An event's block and generation. It goes stale when the event is freed, and every command that names it is then
/// refused for ever: no event of the kernel gets the same handle again.
///
/// For that a block which is freed at [`LAST_GENERATION`] is retired. The answer says freed as for any block, but the
/// block is never handed out again, and counts as taken when its pool runs dry and in its mark.
#[derive(Clone, Copy, Debug, PartialEq, Eq)]
pub struct Handle {
    block: u8,
    generation: u32, // never more than three bytes: a handle comes out of a reply
}

impl Handle {
    /// The block, from 0 to 55.
    pub fn block(self) -> u8 {
        self.block
    }

    /// How often the block was freed before: at most [`LAST_GENERATION`].
    pub fn generation(self) -> u32 {
        self.generation
    }

    fn bytes(self) -> [u8; HANDLE_BYTES] {
        let [low, middle, high, _] = self.generation.to_le_bytes();
        [self.block, low, middle, high]
    }
}

/// What a step takes up: an event with a block, or a timer's, which has none.
#[derive(Clone, Copy, Debug, PartialEq, Eq)]
pub enum Event {
    Block(Handle),
    Timer(u8),
}

/// What the chart makes of a signal.
#[derive(Clone, Copy, Debug, PartialEq, Eq)]
pub enum Outcome {
    Ignored,
    Internal,
    Transition,
}

/// The actions that the host carries out, in order: at most 18. A transition's
/// own action comes before every exit; then come the exits, the entries, and
/// the initial transitions.
#[derive(Clone, Copy, Debug, PartialEq, Eq)]
pub struct Actions {
    places: [u8; MOST_ACTIONS],
    count: u8,
}

impl Deref for Actions {
    type Target = [u8];

    fn deref(&self) -> &[u8] {
        let count = usize::from(self.count);
        self.places.get(..count).unwrap_or(&self.places)
    }
}

/// START's answer.
#[derive(Clone, Copy, Debug, PartialEq, Eq)]
pub struct Start {
    pub object: u8,
    pub outcome: Outcome,
    pub actions: Actions,
}

/// NEXT's answer, which is also a line of DRAIN's log.
#[derive(Clone, Copy, Debug, PartialEq, Eq)]
pub struct Step {
    pub object: u8,
    pub outcome: Outcome,
    pub signal: u8,
    pub event: Event,
    pub actions: Actions,
}

/// NEW's answer: the event, and its pool's mark. That is the least number of free blocks that the pool has had since
/// the fresh start; the block just taken counts as taken, and so do those that are retired.
#[derive(Clone, Copy, Debug, PartialEq, Eq)]
pub struct New {
    pub event: Handle,
    pub least_free: u8,
}

/// PUBLISH's answer.
#[derive(Clone, Copy, Debug, PartialEq, Eq)]
pub struct Published {
    pub receivers: u8,
    pub freed: bool,
}

/// RELEASE's answer: the holds that are left.
#[derive(Clone, Copy, Debug, PartialEq, Eq)]
pub struct Released {
    pub holds: u8,
    pub freed: bool,
}

/// TICK's answer: the timers that fired, and those that found no room.
#[derive(Clone, Copy, Debug, PartialEq, Eq)]
pub struct Ticked {
    pub fired: u8,
    pub late: u8,
}

/// How a DRAIN ended.
#[derive(Clone, Copy, Debug, PartialEq, Eq)]
pub enum DrainEnd {
    /// The budget is spent, and more is queued.
    Spent,
    /// Nothing is queued.
    Empty,
    /// The next row is not sound; one that a LOAD wrote always is.
    Unsound,
}

/// DRAIN's answer, with its log.
#[derive(Clone, Copy, Debug, PartialEq, Eq)]
pub struct Drained<'a> {
    pub steps: u8,
    pub end: DrainEnd,
    lines: &'a [[u8; REPLY_BYTES]],
}

impl<'a> Drained<'a> {
    /// The steps, in order.
    pub fn log(&self) -> impl Iterator<Item = Step> + 'a {
        self.lines.iter().map(|line| Reply(*line).step())
    }
}

/// A reply that is not refused.
struct Reply([u8; REPLY_BYTES]);

impl Reply {
    fn values(&self) -> (u8, u8) {
        (self.0[4], self.0[5])
    }

    fn first(&self) -> u8 {
        self.values().0
    }

    fn handle(&self) -> Handle {
        let [.., block, low, middle, high] = self.0;
        let generation = u32::from_le_bytes([low, middle, high, 0]);
        Handle { block, generation }
    }

    fn event(&self) -> Event {
        let handle = self.handle();
        match handle.block.checked_sub(FIRST_TIMER) {
            Some(timer) => Event::Timer(timer),
            None => Event::Block(handle),
        }
    }

    fn outcome(&self) -> Outcome {
        match self.0[2] / 32 {
            0 => Outcome::Ignored,
            1 => Outcome::Internal,
            _ => Outcome::Transition, // 2: a sound row has no greater outcome
        }
    }

    fn actions(&self) -> Actions {
        let [_, _, _, count, _, _, places @ .., _, _, _, _] = self.0;
        Actions { places, count }
    }

    fn start(&self) -> Start {
        Start {
            object: self.0[1],
            outcome: self.outcome(),
            actions: self.actions(),
        }
    }

    fn step(&self) -> Step {
        Step {
            object: self.0[1],
            outcome: self.outcome(),
            signal: self.0[2] % 32,
            event: self.event(),
            actions: self.actions(),
        }
    }

    fn new_event(&self) -> New {
        New {
            event: self.handle(),
            least_free: self.0[3],
        }
    }
}

/// The commands' numbers.
#[derive(Clone, Copy)]
enum Command {
    Load = 1,
    Start,
    New,
    Post,
    PostFront,
    Publish,
    Subscribe,
    Unsubscribe,
    Hold,
    Release,
    Drop,
    Next,
    End,
    Arm,
    Disarm,
    Tick,
    Read,
    Drain,
    Defer,
    Recall,
    Flush,
    Flag,
}

/// A record of a command and its arguments; what they leave is 0.
fn record(command: Command, arguments: &[u8]) -> [u8; RECORD_BYTES] {
    let mut record = [0; RECORD_BYTES];
    record[0] = command as u8;
    fill(&mut record[1..], arguments);
    record
}

/// A record of a command that names an event, with the arguments behind the handle.
fn record_of(command: Command, event: Handle, arguments: &[u8]) -> [u8; RECORD_BYTES] {
    let mut record = record(command, &event.bytes());
    fill(&mut record[1 + HANDLE_BYTES..], arguments);
    record
}

/// Copies as many bytes as there is room for.
fn fill(room: &mut [u8], bytes: &[u8]) {
    for (place, byte) in room.iter_mut().zip(bytes) {
        *place = *byte;
    }
}

#[derive(Clone)]
struct Parts {
    memory: Memory,
    payloads: [u8; PAYLOAD_AREA],
    tables: [u8; TABLE_AREA],
    guarded: [u8; GUARDED_BYTES],
    log: [[u8; REPLY_BYTES]; LOG_LINES],
}

/// A kernel with its areas. An object is told by its priority.
#[derive(Clone)]
pub struct Kernel {
    parts: Box<Parts>,
}

#[allow(clippy::new_ret_no_self, clippy::wrong_self_convention)] // the names are the commands'
#[allow(clippy::should_implement_trait)] // and NEXT is no iterator's
impl Kernel {
    /// A fresh kernel.
    pub fn fresh() -> Kernel {
        let mut parts = Box::new(Parts {
            memory: Memory {
                words: [0; MEMORY_WORDS],
            },
            payloads: [0; PAYLOAD_AREA],
            tables: [0; TABLE_AREA],
            guarded: [0; GUARDED_BYTES],
            log: [[0; REPLY_BYTES]; LOG_LINES],
        });
        // SAFETY: the memory has the size and the alignment that the library asks for.
        unsafe { library::trunhoac_fresh(&mut parts.memory) };
        Kernel { parts }
    }

    /// LOAD: fills a slot with a chart, and answers how many states the chart has. The slots 0 to 3 take plain charts,
    /// [`GUARDED_SLOT`] takes guarded ones.
    pub fn load(&mut self, slot: u8, chart: &[u8]) -> Result<u8, Refusal> {
        let record = record(Command::Load, &[slot]);
        Ok(self.answer(&record, chart)?.first())
    }

    /// START: an object begins with a slot's chart, a mailbox of this depth and all its flags down.
    pub fn start(&mut self, object: u8, slot: u8, depth: u8) -> Result<Start, Refusal> {
        Ok(self.ask(Command::Start, &[object, slot, depth])?.start())
    }

    /// NEW: an event with a payload of at most 64 bytes; a longer one is refused RANGE.
    pub fn new(&mut self, signal: u8, payload: &[u8]) -> Result<New, Refusal> {
        let size = u8::try_from(payload.len()).unwrap_or(u8::MAX);
        let mut record = record(Command::New, &[signal, size]);
        fill(&mut record[HEAD_BYTES..], payload);
        Ok(self.answer(&record, &[])?.new_event())
    }

    /// POST: to the back of an object's mail if more places than the margin are free; answers how many are queued.
    pub fn post(&mut self, event: Handle, object: u8, margin: u8) -> Result<u8, Refusal> {
        let reply = self.ask_of(Command::Post, event, &[object, margin])?;
        Ok(reply.first())
    }

    /// POSTFRONT: to the front of an object's mail; answers how many are queued.
    pub fn post_front(&mut self, event: Handle, object: u8) -> Result<u8, Refusal> {
        let reply = self.ask_of(Command::PostFront, event, &[object])?;
        Ok(reply.first())
    }

    /// PUBLISH: to the back of every subscriber's mail, all or none.
    pub fn publish(&mut self, event: Handle) -> Result<Published, Refusal> {
        let (receivers, freed) = self.ask_of(Command::Publish, event, &[])?.values();
        let freed = freed == 1;
        Ok(Published { receivers, freed })
    }

    /// SUBSCRIBE: an object asks for a signal; answers whether anything changed.
    pub fn subscribe(&mut self, object: u8, signal: u8) -> Result<bool, Refusal> {
        Ok(self.ask(Command::Subscribe, &[object, signal])?.first() == 1)
    }

    /// UNSUBSCRIBE: an object asks for a signal no more; answers whether anything changed.
    pub fn unsubscribe(&mut self, object: u8, signal: u8) -> Result<bool, Refusal> {
        Ok(self.ask(Command::Unsubscribe, &[object, signal])?.first() == 1)
    }

    /// HOLD: keeps an event from being freed; answers its holds.
    pub fn hold(&mut self, event: Handle) -> Result<u8, Refusal> {
        Ok(self.ask_of(Command::Hold, event, &[])?.first())
    }

    /// RELEASE: takes a hold back.
    pub fn release(&mut self, event: Handle) -> Result<Released, Refusal> {
        let (holds, freed) = self.ask_of(Command::Release, event, &[])?.values();
        let freed = freed == 1;
        Ok(Released { holds, freed })
    }

    /// DROP: frees a new event that went nowhere.
    pub fn drop(&mut self, event: Handle) -> Result<(), Refusal> {
        self.ask_of(Command::Drop, event, &[]).map(|_| ())
    }

    /// NEXT: opens the step of the front event of the most urgent object with mail.
    pub fn next(&mut self) -> Result<Step, Refusal> {
        Ok(self.ask(Command::Next, &[])?.step())
    }

    /// END: closes the step; answers whether its event is freed.
    pub fn end(&mut self) -> Result<bool, Refusal> {
        Ok(self.ask(Command::End, &[])?.first() == 1)
    }

    /// ARM: a timer fires after so many ticks, and then at each interval if that is not 0.
    pub fn arm(
        &mut self,
        timer: u8,
        object: u8,
        signal: u8,
        ticks: u16,
        interval: u16,
    ) -> Result<(), Refusal> {
        let ([t0, t1], [i0, i1]) = (ticks.to_le_bytes(), interval.to_le_bytes());
        let arguments = [timer, object, signal, t0, t1, i0, i1];
        self.ask(Command::Arm, &arguments).map(|_| ())
    }

    /// DISARM: stops a timer; answers whether it was armed. What it has queued stays.
    pub fn disarm(&mut self, timer: u8) -> Result<bool, Refusal> {
        Ok(self.ask(Command::Disarm, &[timer])?.first() == 1)
    }

    /// TICK: time goes on for all timers.
    pub fn tick(&mut self) -> Result<Ticked, Refusal> {
        let (fired, late) = self.ask(Command::Tick, &[])?.values();
        Ok(Ticked { fired, late })
    }

    /// READ: an event's payload.
    pub fn read(&mut self, event: Handle) -> Result<&[u8], Refusal> {
        let record = record_of(Command::Read, event, &[]);
        self.answer(&record, &[])?;
        let (mut place, mut length) = (0, 0);
        let payloads = &self.parts.payloads;
        // SAFETY: pointers and lengths are those of two arrays, and what is borrowed mutably overlaps nothing.
        unsafe {
            library::trunhoac_read(
                &self.parts.memory,
                record.as_ptr(),
                record.len(),
                payloads.as_ptr(),
                payloads.len(),
                &mut place,
                &mut length,
            );
        }
        let part = payloads.get(place..).and_then(|rest| rest.get(..length));
        Ok(part.unwrap_or_default())
    }

    /// DRAIN: NEXT and END, until the budget is spent or nothing is queued.
    pub fn drain(&mut self, budget: u8) -> Result<Drained<'_>, Refusal> {
        let (steps, end) = self.ask(Command::Drain, &[budget])?.values();
        let end = match end {
            0 => DrainEnd::Spent,
            1 => DrainEnd::Empty,
            _ => DrainEnd::Unsound,
        };
        let lines = &self.parts.log[..usize::from(steps)]; // a u8 is never above LOG_LINES
        Ok(Drained { steps, end, lines })
    }

    /// DEFER: sets the event in hand aside, last in a side queue, 0 to 7, which takes eight; answers how many it has.
    /// The step stays open.
    pub fn defer(&mut self, side: u8) -> Result<u8, Refusal> {
        Ok(self.ask(Command::Defer, &[side])?.first())
    }

    /// RECALL: moves a side queue's oldest entry to the front of an object's mail; answers whether there was one.
    pub fn recall(&mut self, side: u8, object: u8) -> Result<bool, Refusal> {
        Ok(self.ask(Command::Recall, &[side, object])?.first() == 1)
    }

    /// FLUSH: lets go of all entries of a side queue; answers how many there were.
    pub fn flush(&mut self, side: u8) -> Result<u8, Refusal> {
        Ok(self.ask(Command::Flush, &[side])?.first())
    }

    /// FLAG: puts one of an object's flags, 1 to 8, up or down; answers whether that changed it. While a flag is down, a
    /// guarded chart is read as if the rows that name it were not there.
    pub fn flag(&mut self, object: u8, flag: u8, up: bool) -> Result<bool, Refusal> {
        let reply = self.ask(Command::Flag, &[object, flag, up.into()])?;
        Ok(reply.first() == 1)
    }

    fn ask_of(
        &mut self,
        command: Command,
        event: Handle,
        arguments: &[u8],
    ) -> Result<Reply, Refusal> {
        self.answer(&record_of(command, event, arguments), &[])
    }

    fn ask(&mut self, command: Command, arguments: &[u8]) -> Result<Reply, Refusal> {
        self.answer(&record(command, arguments), &[])
    }

    fn answer(&mut self, record: &[u8; RECORD_BYTES], chart: &[u8]) -> Result<Reply, Refusal> {
        let mut reply = [0; REPLY_BYTES];
        let parts = &mut *self.parts;
        let log = parts.log.as_flattened_mut();
        // SAFETY: pointers and lengths are those of slices, and what is borrowed mutably overlaps nothing.
        unsafe {
            library::trunhoac_command(
                &mut parts.memory,
                record.as_ptr(),
                record.len(),
                chart.as_ptr(),
                chart.len(),
                parts.payloads.as_mut_ptr(),
                parts.payloads.len(),
                parts.tables.as_mut_ptr(),
                parts.tables.len(),
                parts.guarded.as_mut_ptr(),
                parts.guarded.len(),
                log.as_mut_ptr(),
                log.len(),
                &mut reply,
            );
        }
        match Refusal::in_reply(&reply) {
            Some(refusal) => Err(refusal),
            None => Ok(Reply(reply)),
        }
    }
}

/// A writer of frames. It keeps the number of the next.
#[derive(Clone, Debug, Default, PartialEq, Eq)]
pub struct Writer {
    next: u8,
}

impl Writer {
    /// A writer whose first frame has the number 0.
    pub fn new() -> Writer {
        Writer::default()
    }

    /// Writes a frame at the front of an area, and hands its bytes back; the kind is a record number of the host's
    /// choice. With more than 93 bytes of data, or too little room, there is none, and nothing changed.
    pub fn write<'a>(&mut self, kind: u8, data: &[u8], area: &'a mut [u8]) -> Option<&'a [u8]> {
        let (to, room) = (area.as_mut_ptr(), area.len());
        // SAFETY: pointers and lengths are those of two slices, and what is borrowed mutably overlaps nothing.
        let length = unsafe {
            library::trunhoac_frame_write(&mut self.next, kind, data.as_ptr(), data.len(), to, room)
        };
        area.get(..length).filter(|frame| !frame.is_empty())
    }
}

/// A frame that was read. There is a gap if its number does not follow that of the frame before it: something is
/// missing.
#[derive(Clone, Copy, Debug, PartialEq, Eq)]
pub struct Frame<'a> {
    pub number: u8,
    pub kind: u8,
    pub gap: bool,
    pub data: &'a [u8],
}

/// A reader of frames.
#[derive(Clone)]
pub struct Reader {
    memory: ReaderMemory,
}

impl Reader {
    /// A reader that has read nothing.
    pub fn fresh() -> Reader {
        let mut memory = ReaderMemory { bytes: [0; 100] };
        // SAFETY: the memory has the size that the library asks for.
        unsafe { library::trunhoac_reader_fresh(&mut memory) };
        Reader { memory }
    }

    /// Reads a piece of the input, which may be cut anywhere, and hands out each frame that it completes, in order.
    pub fn feed(&mut self, piece: &[u8], mut hand_out: impl FnMut(Frame<'_>)) {
        let mut rest = piece;
        while !rest.is_empty() {
            let (mut read, mut told) = (0, [0; TOLD_BYTES]);
            let (from, length) = (rest.as_ptr(), rest.len());
            // SAFETY: the pointer and the length are those of one slice, and what is borrowed mutably overlaps nothing.
            unsafe {
                library::trunhoac_reader_feed(&mut self.memory, from, length, &mut read, &mut told);
            }
            rest = rest.get(read..).unwrap_or_default();
            let [complete, number, kind, gap, size, data @ ..] = &told;
            if *complete == 1 {
                hand_out(Frame {
                    number: *number,
                    kind: *kind,
                    gap: *gap == 1,
                    data: data.get(..usize::from(*size)).unwrap_or_default(),
                });
            }
        }
    }
}
