//! DRAIN, its log, and tables that somebody else wrote to.

use super::*;
use crate::chart::{rows_place, Edition};

/// Where the row for a state and a signal begins in slot 0.
fn row_offset(state: u8, signal: u8) -> usize {
    rows_place(Edition::Plain, state, signal).start
}

/// An event of signal 31, which the shift chart ignores everywhere, queued so many times.
fn with_mail(times: u8) -> Bench {
    let mut bench = Bench::with_objects(&[(5, 16)]);
    let event = bench.new_event(31, 0);
    for _ in 0..times {
        bench.post(event, 5);
    }
    bench
}

#[test]
fn the_second_value_tells_why_it_stopped() {
    with_mail(3).expect(Drain { budget: 2 }, &[0, 0, 0, 0, 2, 0]);
    with_mail(3).expect(Drain { budget: 3 }, &[0, 0, 0, 0, 3, 1]);
    with_mail(3).expect(Drain { budget: 4 }, &[0, 0, 0, 0, 3, 1]);
    with_mail(3).expect(Drain { budget: 0 }, &[0, 0, 0, 0, 0, 0]);
    with_mail(0).expect(Drain { budget: 0 }, &[0, 0, 0, 0, 0, 1]);
    with_mail(0).expect(Drain { budget: 255 }, &[0, 0, 0, 0, 0, 1]);
}

#[test]
fn an_unsound_row_stops_it_and_stays_at_the_front() {
    let mut bench = with_mail(2);
    let unsound = bench.new_event(9, 0);
    bench.post(unsound, 5);
    bench.post(handle(0, 0), 5);
    // The shift chart starts in state 2; an outcome of 3 is unsound.
    let outcome = row_offset(2, 9) + 1;
    bench.tables[outcome] = 3;
    bench.expect(Drain { budget: 255 }, &[0, 0, 0, 0, 2, 2]);
    bench.expect(Drain { budget: 255 }, &[0, 0, 0, 0, 0, 2]);
    bench.expect(Drain { budget: 0 }, &[0, 0, 0, 0, 0, 0]);
    bench.expect(Next, &[15]);
    bench.expect(End, &[5]);
    bench.tables[outcome] = 0;
    bench.expect_event(Next, &[0, 5, 9], handle(1, 0));
    bench.expect(End, &[0, 0, 0, 0, 1]);
    bench.expect(Drain { budget: 255 }, &[0, 0, 0, 0, 1, 1]);
}

#[test]
fn an_unsound_row_just_past_the_budget_is_not_told() {
    let mut bench = with_mail(2);
    let unsound = bench.new_event(9, 0);
    bench.post(unsound, 5);
    bench.tables[row_offset(2, 9)] = 25;
    bench.expect(Drain { budget: 2 }, &[0, 0, 0, 0, 2, 0]);
    bench.expect(Drain { budget: 1 }, &[0, 0, 0, 0, 0, 2]);
}

#[test]
fn the_log_has_one_next_answer_per_step() {
    let mut bench = Bench::with_objects(&[(5, 2), (9, 1)]);
    let signal_6 = bench.new_event(6, 0);
    let signal_9 = bench.new_event(9, 20);
    bench.post(signal_6, 5);
    bench.post(signal_9, 5);
    bench.post(signal_6, 9);
    bench.expect(Drain { budget: 255 }, &[0, 0, 0, 0, 3, 1]);
    let lines = [
        event_reply(&[0, 9, 64 + 6, 4, 0, 0, 26, 22, 31, 41], signal_6),
        event_reply(&[0, 5, 64 + 6, 4, 0, 0, 26, 22, 31, 41], signal_6),
        event_reply(&[0, 5, 32 + 9, 1, 0, 0, 49], signal_9),
    ];
    assert_eq!(bench.log[..84], lines.concat());
    assert!(bench.log[84..].iter().all(|&byte| byte == UNTOUCHED));
    // Both events were freed.
    bench.expect_event(new(4, 0), &[0, 0, 0, 31], handle(0, 1));
    bench.expect_event(new(4, 20), &[0, 0, 0, 15], handle(32, 1));
}

#[test]
fn a_full_budget_fills_the_log() {
    let objects: Vec<(u8, u8)> = PRIORITIES.map(|p| (p, 16)).collect();
    let mut bench = Bench::with_objects(&objects);
    let event = bench.new_event(31, 0);
    for p in PRIORITIES {
        for _ in 0..16 {
            bench.post(event, p);
        }
    }
    bench.expect(Drain { budget: 255 }, &[0, 0, 0, 0, 255, 0]);
    assert_eq!(bench.log[7_112..], event_reply(&[0, 1, 31], event));
    bench.expect_event(Next, &[0, 1, 31], handle(0, 0));
    bench.expect(End, &[0, 0, 0, 0, 1]);
}

#[test]
fn next_takes_a_sound_row_as_it_stands() {
    let mut bench = with_mail(3);
    // Ignored by outcome, but it moves the rest, and lists an action of 0.
    let row = row_offset(2, 31);
    bench.tables[row..row + 5].copy_from_slice(&[24, 0, 2, 0, 7]);
    bench.expect_event(Next, &[0, 5, 31, 2, 0, 0, 0, 7], handle(0, 0));
    bench.expect(End, &[0]);
    // State 24 is absent: its rows are zeros, and next 0 is unsound.
    bench.expect(Next, &[15]);
    bench.tables[row_offset(24, 31)] = 1;
    bench.expect_event(Next, &[0, 5, 31], handle(0, 0));
}

#[test]
fn start_takes_a_sound_row_as_it_stands() {
    let mut bench = Bench::with_objects(&[]);
    let start = |p| Start {
        p,
        slot: 0,
        depth: 1,
    };
    bench.tables[..4].copy_from_slice(&[4, 1, 1, 99]);
    bench.expect(start(5), &[15]);
    bench.tables[4..24].fill(0);
    bench.expect(start(5), &[0, 5, 32, 1, 0, 0, 99]);
    let event = bench.new_event(9, 0);
    bench.post(event, 5);
    bench.expect_event(Next, &[0, 5, 32 + 9, 1, 0, 0, 49], handle(0, 0));
}

#[test]
fn each_kind_of_unsound_row_is_refused() {
    let row = row_offset(2, 31);
    let pokes = [
        (row, 0),
        (row, 25),
        (row + 1, 3),
        (row + 2, 19),
        (row + 3, 1),
        (row + 20, 1),
        (row + 21, 1),
        (row + 23, 255),
    ];
    for (offset, byte) in pokes {
        let mut bench = with_mail(1);
        bench.tables[offset] = byte;
        let before = bench.kernel.clone();
        bench.expect(Next, &[15]);
        bench.expect(Drain { budget: 9 }, &[0, 0, 0, 0, 0, 2]);
        assert!(bench.kernel == before);
        assert!(bench.log.iter().all(|&byte| byte == UNTOUCHED));
    }
}
