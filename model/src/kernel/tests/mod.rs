//! Cases of documents 01 and 02, written by hand.

mod aside;
mod commands;
mod drain;
mod flags;
mod freeing;
mod generations;
mod mail;
mod marks;
mod pools;
mod refusals;
mod timers;
mod written;

use super::command::{Command, Handle};
use super::numbers::*;
use super::replay::{chart_for, replay, Charts};
use super::Kernel;
use crate::harness::good::{rounds, shift};
use crate::harness::traces::show::shown_handle;
use Command::*;

/// What the areas hold at first, so that a byte written or not written shows.
const UNTOUCHED: u8 = 0xee;

/// A kernel with its areas and chart files; the shift chart is in chart0.
struct Bench {
    kernel: Kernel,
    charts: Charts,
    payloads: Vec<u8>,
    tables: Vec<u8>,
    guarded: Vec<u8>,
    log: Vec<u8>,
}

impl Bench {
    fn fresh() -> Self {
        Bench {
            kernel: Kernel::fresh(),
            charts: shift_alone(),
            payloads: vec![UNTOUCHED; PAYLOADS_BYTES],
            tables: vec![UNTOUCHED; TABLES_BYTES],
            guarded: vec![UNTOUCHED; GUARDED_BYTES],
            log: vec![UNTOUCHED; LOG_BYTES],
        }
    }

    /// With the shift chart loaded and these objects started: priority, depth.
    fn with_objects(objects: &[(u8, u8)]) -> Self {
        let mut bench = Self::fresh();
        bench.expect(Load { slot: 0 }, &[0, 0, 0, 0, 5]);
        for &(p, depth) in objects {
            let slot = 0;
            let started = [0, p, 64, 4, 0, 0, 10, 11, 13, 21];
            bench.expect(Start { p, slot, depth }, &started);
        }
        bench
    }

    fn send_record(&mut self, record: &[u8]) -> [u8; REPLY_BYTES] {
        self.kernel.command(
            record,
            chart_for(record, &self.charts),
            &mut self.payloads,
            &mut self.tables,
            &mut self.guarded,
            &mut self.log,
        )
    }

    fn send(&mut self, command: Command) -> [u8; REPLY_BYTES] {
        self.send_record(&command.record())
    }

    /// Sends a command whose reply begins with these bytes and ends in zeros.
    fn expect(&mut self, command: Command, begin: &[u8]) {
        assert_eq!(self.send(command), reply(begin), "{command:?}");
    }

    /// Sends a NEW or a NEXT whose reply begins with these bytes and ends in the event's handle.
    fn expect_event(&mut self, command: Command, begin: &[u8], event: Handle) {
        assert_eq!(self.send(command), event_reply(begin, event), "{command:?}");
    }

    /// A new event with a payload of zeros.
    fn new_event(&mut self, signal: u8, size: u8) -> Handle {
        let reply = self.send(new(signal, size));
        assert_eq!(reply[0], 0);
        shown_handle(&reply)
    }

    fn post(&mut self, handle: Handle, p: u8) {
        let margin = 0;
        assert_eq!(self.send(Post { handle, p, margin })[0], 0);
    }
}

/// The shift chart in chart0, and no other file.
fn shift_alone() -> Charts {
    let mut charts = Charts::default();
    charts[0] = shift();
    charts
}

fn reply(begin: &[u8]) -> [u8; REPLY_BYTES] {
    let mut reply = [0; REPLY_BYTES];
    reply[..begin.len()].copy_from_slice(begin);
    reply
}

/// The reply of a NEW or a NEXT.
fn event_reply(begin: &[u8], event: Handle) -> [u8; REPLY_BYTES] {
    let mut reply = reply(begin);
    reply[24..].copy_from_slice(&event.bytes());
    reply
}

fn handle(block: u8, generation: u32) -> Handle {
    Handle { block, generation }
}

/// What NEXT shows in place of a handle.
fn timer_event(timer: u8) -> Handle {
    handle(128 + timer, 0)
}

fn new(signal: u8, size: u8) -> Command {
    New {
        signal,
        size,
        payload: [0; 64],
    }
}

#[test]
fn the_trace_of_the_document() {
    let mut trace = [0; 3 * RECORD_BYTES];
    trace[0] = 1;
    trace[72..76].copy_from_slice(&[2, 9, 0, 1]);
    trace[144] = 12;
    let mut expected = [0; 84];
    expected[4] = 5;
    expected[28..38].copy_from_slice(&[0, 9, 64, 4, 0, 0, 10, 11, 13, 21]);
    expected[56] = 6;
    assert_eq!(replay(&trace, &shift_alone()), expected);
}

#[test]
fn a_short_last_piece_is_answered_form() {
    let charts = Charts::default();
    assert_eq!(replay(&[], &charts), []);
    for length in [1, 71] {
        let trace = vec![16; length];
        assert_eq!(replay(&trace, &charts), reply(&[1]));
        let trace = [&Tick.record()[..], &trace].concat();
        assert_eq!(replay(&trace, &charts), [reply(&[0]), reply(&[1])].concat());
    }
}

#[test]
fn load_reads_the_file_of_its_number() {
    let charts = [Vec::new(), shift(), vec![0; 7], vec![0; 8], rounds()];
    let loads: Vec<u8> = (0..=5).flat_map(|slot| Load { slot }.record()).collect();
    let expected = [
        reply(&[14, 0, 0, 0, 1]),
        reply(&[0, 0, 0, 0, 5]),
        reply(&[14, 0, 0, 0, 1]),
        reply(&[14, 0, 0, 0, 2]),
        reply(&[0, 0, 0, 0, 8]),
        reply(&[3]),
    ];
    assert_eq!(replay(&loads, &charts), expected.concat());
}
