//! The refusals: their conditions, their order, and that nothing else is written.

use super::*;
use crate::chart::{rows_place, Edition};

const STALE: Handle = Handle {
    block: 55,
    generation: 0,
};

fn arm(timer: u8, p: u8, signal: u8, ticks: u16) -> Command {
    Arm {
        timer,
        p,
        signal,
        ticks,
        interval: 0,
    }
}

fn start(p: u8, slot: u8, depth: u8) -> Command {
    Start { p, slot, depth }
}

fn flag(p: u8, flag: u8, value: u8) -> Command {
    Flag { p, flag, value }
}

fn post(handle: Handle, p: u8, margin: u8) -> Command {
    Post { handle, p, margin }
}

#[test]
fn every_argument_has_its_range() {
    let mut bench = Bench::with_objects(&[(5, 1)]);
    let event = bench.new_event(4, 0);
    let no_block = handle(56, 0);
    let out_of_range = [
        Load { slot: 5 },
        Load { slot: 255 },
        start(0, 0, 1),
        start(17, 0, 1),
        start(1, 5, 1),
        start(1, 0, 0),
        start(1, 0, 17),
        new(3, 0),
        new(32, 0),
        new(4, 65),
        post(no_block, 5, 0),
        post(event, 0, 0),
        post(event, 17, 0),
        post(event, 5, 16),
        PostFront {
            handle: no_block,
            p: 5,
        },
        PostFront {
            handle: event,
            p: 17,
        },
        Publish { handle: no_block },
        Subscribe { p: 0, signal: 4 },
        Subscribe { p: 5, signal: 3 },
        Unsubscribe { p: 17, signal: 4 },
        Unsubscribe { p: 5, signal: 32 },
        Hold { handle: no_block },
        Release { handle: no_block },
        Drop { handle: no_block },
        arm(16, 5, 4, 1),
        arm(0, 0, 4, 1),
        arm(0, 5, 3, 1),
        arm(0, 5, 32, 1),
        arm(0, 5, 4, 0),
        Disarm { timer: 16 },
        Read { handle: no_block },
        Defer { q: 8 },
        Recall { q: 8, p: 5 },
        Recall { q: 0, p: 0 },
        Recall { q: 0, p: 17 },
        Flush { q: 8 },
        flag(0, 1, 1),
        flag(17, 1, 1),
        flag(5, 0, 1),
        flag(5, 9, 1),
        flag(5, 255, 0),
        flag(5, 1, 2),
        flag(5, 1, 255),
    ];
    for command in out_of_range {
        bench.expect(command, &[3]);
    }
}

#[test]
fn the_ends_of_the_ranges_are_in_range() {
    let mut bench = Bench::fresh();
    bench.charts[4] = shift();
    bench.expect(Load { slot: 0 }, &[0, 0, 0, 0, 5]);
    bench.expect(Load { slot: 4 }, &[0, 0, 0, 0, 5]);
    for (p, slot, depth) in [(1, 0, 1), (16, 4, 16)] {
        assert_eq!(bench.send(start(p, slot, depth))[0], 0);
    }
    for (p, number, value) in [(1, 1, 0), (16, 8, 1)] {
        bench.expect(flag(p, number, value), &[0, 0, 0, 0, value]);
    }
    for (signal, size) in [(4, 0), (31, 64)] {
        assert_eq!(bench.send(new(signal, size))[0], 0);
    }
    bench.expect(post(handle(48, 0), 16, 15), &[0, 0, 0, 0, 1]);
    bench.expect(arm(15, 1, 31, 65_535), &[0]);
    bench.expect(Disarm { timer: 15 }, &[0, 0, 0, 0, 1]);
    bench.expect(Read { handle: STALE }, &[7]);
}

#[test]
fn with_a_step_open_five_commands_are_busy() {
    let mut bench = Bench::with_objects(&[(5, 2)]);
    let event = bench.new_event(31, 0);
    bench.expect(End, &[5]);
    bench.post(event, 5);
    bench.expect(Next, &[0, 5, 31]);
    // BUSY comes before IDLE, ABSENT, TAKEN and CHART.
    let busy = [
        Load { slot: 0 },
        Load { slot: 1 },
        start(5, 0, 1),
        start(6, 1, 1),
        Next,
        Drain { budget: 0 },
        Load { slot: 4 },
        start(6, 4, 1),
        flag(5, 1, 1),
        flag(6, 1, 0),
    ];
    for command in busy {
        bench.expect(command, &[4]);
    }
    bench.expect(Load { slot: 5 }, &[3]);
    bench.expect(flag(5, 9, 1), &[3]);
    let going_on = [
        new(31, 0),
        post(event, 5, 0),
        Subscribe { p: 5, signal: 31 },
        Publish { handle: event },
        Unsubscribe { p: 5, signal: 31 },
        Hold { handle: event },
        Release { handle: event },
        arm(0, 5, 31, 1),
        Disarm { timer: 0 },
        Tick,
        Read { handle: event },
        Defer { q: 0 },
        Recall { q: 1, p: 5 },
        Flush { q: 0 },
    ];
    for command in going_on {
        assert_eq!(bench.send(command)[0], 0, "{command:?}");
    }
    bench.expect(End, &[0, 0, 0, 0, 0]);
    bench.expect(End, &[5]);
}

#[test]
fn stale_comes_before_absent_and_full() {
    let mut bench = Bench::with_objects(&[(5, 1)]);
    bench.expect(post(STALE, 6, 0), &[7]);
    bench.expect(
        PostFront {
            handle: STALE,
            p: 6,
        },
        &[7],
    );
    let event = bench.new_event(4, 0);
    bench.expect(post(event, 6, 0), &[8]);
    bench.expect(
        PostFront {
            handle: event,
            p: 6,
        },
        &[8],
    );
    bench.post(event, 5);
    bench.expect(post(event, 5, 0), &[10]);
    bench.expect(post(STALE, 5, 0), &[7]);
    for command in [
        Publish { handle: STALE },
        Hold { handle: STALE },
        Release { handle: STALE },
        Drop { handle: STALE },
    ] {
        bench.expect(command, &[7]);
    }
}

#[test]
fn absent_objects_and_slots() {
    let mut bench = Bench::with_objects(&[(5, 1)]);
    bench.expect(Subscribe { p: 6, signal: 4 }, &[8]);
    bench.expect(Unsubscribe { p: 6, signal: 4 }, &[8]);
    bench.expect(arm(0, 5, 4, 1), &[0]);
    // ABSENT comes before TAKEN.
    bench.expect(arm(0, 6, 4, 1), &[8]);
    bench.expect(arm(0, 5, 4, 1), &[9]);
    bench.expect(start(5, 1, 1), &[8]);
    bench.expect(start(5, 0, 1), &[9]);
}

#[test]
fn taken_comes_before_table() {
    let mut bench = Bench::with_objects(&[(5, 1)]);
    bench.tables[0] = 0;
    bench.expect(start(5, 0, 1), &[9]);
    bench.expect(start(6, 0, 1), &[15]);
}

/// The right lengths of payloads, tables, guarded table and log.
const LENGTHS: [usize; 4] = [PAYLOADS_BYTES, TABLES_BYTES, GUARDED_BYTES, LOG_BYTES];
/// Where each stands among them.
const PAYLOADS: usize = 0;
const TABLES: usize = 1;
const GUARDED: usize = 2;
const LOG: usize = 3;

/// The right lengths but for one area's, which is none, one less and one more.
fn with_a_wrong_one(area: usize) -> [[usize; 4]; 3] {
    let right = LENGTHS[area];
    [0, right - 1, right + 1].map(|wrong| {
        let mut lengths = LENGTHS;
        lengths[area] = wrong;
        lengths
    })
}

#[test]
fn areas_of_another_length_are_refused() {
    let mut bench = Bench::with_objects(&[(5, 1)]);
    let event = bench.new_event(31, 16);
    bench.post(event, 5);
    let looks_at = [
        (new(4, 0), PAYLOADS),
        (Read { handle: event }, PAYLOADS),
        (Load { slot: 1 }, TABLES),
        (Load { slot: 4 }, TABLES),
        (Load { slot: 4 }, GUARDED),
        (start(6, 0, 1), TABLES),
        (start(6, 4, 1), TABLES),
        (start(6, 4, 1), GUARDED),
        (Next, TABLES),
        (Drain { budget: 1 }, TABLES),
        (Drain { budget: 1 }, GUARDED),
        (Drain { budget: 0 }, LOG),
    ];
    for (command, area) in looks_at {
        for lengths in with_a_wrong_one(area) {
            assert_refused_area(&bench, command, lengths);
        }
    }
}

/// The command is refused with areas of these lengths, and nothing is written.
fn assert_refused_area(bench: &Bench, command: Command, lengths: [usize; 4]) {
    let before = &bench.kernel;
    let (after, answer, areas) = send_with(bench, command, lengths);
    assert_eq!(answer, reply(&[2]), "{command:?}");
    assert!(after == *before);
    assert!(areas.concat().iter().all(|&byte| byte == UNTOUCHED));
}

/// What becomes of the kernel and of areas of these lengths, and the answer. The chart is a good one of both editions.
fn send_with(
    bench: &Bench,
    command: Command,
    lengths: [usize; 4],
) -> (Kernel, [u8; REPLY_BYTES], [Vec<u8>; 4]) {
    let mut kernel = bench.kernel.clone();
    let mut areas = lengths.map(|length| vec![UNTOUCHED; length]);
    let [payloads, tables, guarded, log] = &mut areas;
    let answer = kernel.command(&command.record(), &shift(), payloads, tables, guarded, log);
    (kernel, answer, areas)
}

#[test]
fn the_guarded_table_is_asked_for_by_slot_4_alone() {
    let bench = Bench::with_objects(&[(5, 1)]);
    for lengths in with_a_wrong_one(GUARDED) {
        let answer = |command| send_with(&bench, command, lengths).1[0];
        assert_eq!(answer(Load { slot: 1 }), 0);
        assert_eq!(answer(Load { slot: 0 }), 9);
        assert_eq!(answer(Load { slot: 5 }), 3);
        assert_eq!(answer(start(6, 1, 1)), 8);
        assert_eq!(answer(start(6, 5, 1)), 3);
        // The start row that is lent here is not sound.
        assert_eq!(answer(start(6, 0, 1)), 15);
        assert_eq!(answer(Next), 6);
        assert_eq!(answer(flag(5, 1, 1)), 0);
    }
}

#[test]
fn other_commands_take_areas_of_any_length() {
    let mut bench = Bench::with_objects(&[(5, 4)]);
    let event = bench.new_event(31, 16);
    let free_of_areas = [
        post(event, 5, 0),
        PostFront {
            handle: event,
            p: 5,
        },
        Subscribe { p: 5, signal: 31 },
        Publish { handle: event },
        Unsubscribe { p: 5, signal: 31 },
        Hold { handle: event },
        Release { handle: event },
        arm(0, 5, 31, 1),
        Tick,
        Disarm { timer: 0 },
        flag(5, 1, 1),
    ];
    for command in free_of_areas {
        let answer =
            bench
                .kernel
                .command(&command.record(), &[], &mut [], &mut [], &mut [], &mut []);
        assert_eq!(answer[0], 0, "{command:?}");
    }
    bench.expect_event(Next, &[0, 5, 31], handle(0, 0));
    let in_a_step = [
        (Defer { q: 0 }, reply(&[0, 0, 0, 0, 1])),
        (Recall { q: 0, p: 5 }, reply(&[0, 0, 0, 0, 1])),
        (Flush { q: 0 }, reply(&[0])),
        (End, reply(&[0])),
    ];
    for (command, expected) in in_a_step {
        let answer =
            bench
                .kernel
                .command(&command.record(), &[], &mut [], &mut [], &mut [], &mut []);
        assert_eq!(answer, expected, "{command:?}");
    }
    let other = bench.new_event(31, 16);
    let dropping = Drop { handle: other }.record();
    let dropped = bench
        .kernel
        .command(&dropping, &[], &mut [], &mut [], &mut [], &mut []);
    assert_eq!(dropped, reply(&[0]));
}

#[test]
fn form_comes_before_area_and_area_before_range() {
    let mut kernel = Kernel::fresh();
    let mut send =
        |record: &[u8]| kernel.command(record, &[], &mut [], &mut [], &mut [], &mut [])[0];
    let mut record = Load { slot: 5 }.record();
    assert_eq!(send(&record), 2);
    record[2] = 1;
    assert_eq!(send(&record), 1);
    assert_eq!(send(&new(0, 255).record()), 2);
    assert_eq!(send(&[]), 1);
    assert_eq!(send(&[0; 73]), 1);
}

#[test]
fn idle_comes_before_table() {
    let mut bench = Bench::with_objects(&[(5, 1)]);
    bench.tables.fill(0);
    bench.expect(Next, &[6]);
    let event = bench.new_event(4, 0);
    bench.post(event, 5);
    bench.expect(Next, &[15]);
    bench.tables[rows_place(Edition::Plain, 2, 4).start] = 1;
    bench.expect_event(Next, &[0, 5, 4], handle(0, 0));
}
