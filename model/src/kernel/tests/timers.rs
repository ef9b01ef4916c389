//! ARM, DISARM and TICK.

use super::*;

fn arm(timer: u8, p: u8, signal: u8, ticks: u16, interval: u16) -> Command {
    Arm {
        timer,
        p,
        signal,
        ticks,
        interval,
    }
}

#[test]
fn of_two_due_timers_with_one_place_the_lower_fires() {
    let mut bench = Bench::with_objects(&[(5, 1)]);
    // The order of arming does not count.
    bench.expect(arm(11, 5, 31, 1, 0), &[0]);
    bench.expect(arm(10, 5, 30, 1, 0), &[0]);
    bench.expect(Tick, &[0, 0, 0, 0, 1, 1]);
    // The late one is tried again at each tick.
    bench.expect(Tick, &[0, 0, 0, 0, 0, 1]);
    bench.expect_event(Next, &[0, 5, 30], timer_event(10));
    bench.expect(Tick, &[0, 0, 0, 0, 1, 0]);
    bench.expect(End, &[0, 0, 0, 0, 0]);
    bench.expect_event(Next, &[0, 5, 31], timer_event(11));
    bench.expect(End, &[0, 0, 0, 0, 0]);
    bench.expect(Tick, &[0, 0, 0, 0, 0, 0]);
}

#[test]
fn a_timer_fires_at_the_tick_of_its_number() {
    let mut bench = Bench::with_objects(&[(5, 16)]);
    bench.expect(arm(0, 5, 31, 3, 2), &[0]);
    bench.expect(arm(15, 5, 30, 300, 0), &[0]);
    let mut fired = Vec::new();
    for tick in 1..=300 {
        let reply = bench.send(Tick);
        fired.extend((0..reply[4]).map(|_| tick));
        bench.send(Drain { budget: 255 });
    }
    // Timer 0 at 3, 5, 7 and so on, the other one at 300.
    let expected: Vec<i32> = (3..=300).step_by(2).chain([300]).collect();
    assert_eq!(fired, expected);
}

#[test]
fn a_late_timer_counts_its_interval_from_when_it_fired() {
    let mut bench = Bench::with_objects(&[(5, 1)]);
    let blocker = bench.new_event(31, 0);
    bench.post(blocker, 5);
    bench.expect(arm(4, 5, 30, 2, 2), &[0]);
    bench.expect(Tick, &[0, 0, 0, 0, 0, 0]);
    bench.expect(Tick, &[0, 0, 0, 0, 0, 1]);
    bench.expect(Tick, &[0, 0, 0, 0, 0, 1]);
    bench.expect(Drain { budget: 1 }, &[0, 0, 0, 0, 1, 1]);
    bench.expect(Tick, &[0, 0, 0, 0, 1, 0]);
    bench.expect(Drain { budget: 1 }, &[0, 0, 0, 0, 1, 1]);
    bench.expect(Tick, &[0, 0, 0, 0, 0, 0]);
    bench.expect(Tick, &[0, 0, 0, 0, 1, 0]);
}

#[test]
fn disarm_leaves_a_queued_entry() {
    let mut bench = Bench::with_objects(&[(5, 4)]);
    bench.expect(arm(7, 5, 6, 1, 1), &[0]);
    bench.expect(Tick, &[0, 0, 0, 0, 1, 0]);
    bench.expect(Disarm { timer: 7 }, &[0, 0, 0, 0, 1]);
    bench.expect(Disarm { timer: 7 }, &[0, 0, 0, 0, 0]);
    bench.expect(Tick, &[0, 0, 0, 0, 0, 0]);
    // Armed anew with another signal: the queued entry keeps the old one.
    bench.expect(arm(7, 5, 31, 1, 0), &[0]);
    bench.expect(Tick, &[0, 0, 0, 0, 1, 0]);
    bench.expect_event(
        Next,
        &[0, 5, 64 + 6, 4, 0, 0, 26, 22, 31, 41],
        timer_event(7),
    );
    bench.expect(End, &[0]);
    bench.expect_event(Next, &[0, 5, 31], timer_event(7));
}

#[test]
fn an_armed_timer_is_taken_until_it_fires_for_the_last_time() {
    let mut bench = Bench::with_objects(&[(5, 4)]);
    bench.expect(arm(7, 5, 31, 1, 0), &[0]);
    bench.expect(arm(7, 5, 31, 1, 0), &[9]);
    bench.expect(Tick, &[0, 0, 0, 0, 1, 0]);
    bench.expect(arm(7, 5, 31, 1, 1), &[0]);
    bench.expect(Tick, &[0, 0, 0, 0, 1, 0]);
    bench.expect(arm(7, 5, 31, 1, 0), &[9]);
}

#[test]
fn timer_entries_go_to_the_back_and_are_no_blocks() {
    let mut bench = Bench::with_objects(&[(5, 4)]);
    let event = bench.new_event(31, 0);
    bench.post(event, 5);
    bench.expect(arm(0, 5, 31, 1, 0), &[0]);
    bench.expect(Tick, &[0, 0, 0, 0, 1, 0]);
    bench.expect_event(Next, &[0, 5, 31], handle(0, 0));
    bench.expect(End, &[0, 0, 0, 0, 1]);
    bench.expect_event(Next, &[0, 5, 31], timer_event(0));
    // Block 0 is free although timer 0 is in hand.
    bench.expect_event(new(31, 0), &[0, 0, 0, 31], handle(0, 1));
    bench.expect(
        Drop {
            handle: handle(0, 1),
        },
        &[0],
    );
    bench.expect(End, &[0, 0, 0, 0, 0]);
}
