//! DEFER, RECALL and FLUSH.

use super::*;

impl Bench {
    /// Opens a step of object 5 with a new event of 16 bytes that the shift chart ignores.
    fn open_step(&mut self) -> Handle {
        let event = self.new_event(31, 16);
        self.post(event, 5);
        self.expect_event(Next, &[0, 5, 31], event);
        event
    }

    /// A new event that has nothing but an entry in each of these side queues.
    fn set_aside(&mut self, queues: &[u8]) -> Handle {
        let event = self.open_step();
        for &q in queues {
            assert_eq!(self.send(Defer { q })[0], 0);
        }
        self.expect(End, &[0, 0, 0, 0, 0]);
        event
    }

    /// A step of object 5 by an event of signal 31, and whether its END frees the event.
    fn expect_step(&mut self, event: Handle, frees: bool) {
        self.expect_event(Next, &[0, 5, 31], event);
        self.expect(End, &[0, 0, 0, 0, u8::from(frees)]);
    }
}

#[test]
fn an_event_set_aside_survives_its_end() {
    let mut bench = Bench::with_objects(&[(5, 2)]);
    let event = bench.open_step();
    bench.expect(Defer { q: 3 }, &[0, 0, 0, 0, 1]);
    // The step stays open, and the hand has its own reference.
    bench.expect(Next, &[4]);
    assert_eq!(bench.kernel.references(event.block), 2);
    bench.expect(End, &[0, 0, 0, 0, 0]);
    bench.expect(End, &[5]);
    bench.expect_event(new(31, 16), &[0, 0, 0, 30], handle(1, 0));
    bench.expect(Recall { q: 3, p: 5 }, &[0, 0, 0, 0, 1]);
    assert_eq!(bench.kernel.references(event.block), 1);
    bench.expect_step(event, true);
    bench.expect(Recall { q: 3, p: 5 }, &[0, 0, 0, 0, 0]);
    bench.expect_event(new(31, 16), &[0, 0, 0, 30], handle(0, 1));
}

#[test]
fn the_oldest_entry_goes_to_the_front() {
    let mut bench = Bench::with_objects(&[(5, 3)]);
    let first = bench.set_aside(&[0]);
    let second = bench.set_aside(&[0]);
    let third = bench.set_aside(&[0]);
    let queued = bench.new_event(31, 0);
    bench.post(queued, 5);
    bench.expect(Recall { q: 0, p: 5 }, &[0, 0, 0, 0, 1]);
    bench.expect(Recall { q: 0, p: 5 }, &[0, 0, 0, 0, 1]);
    for event in [second, first, queued] {
        bench.expect_step(event, true);
    }
    bench.expect(Next, &[6]);
    bench.expect(Recall { q: 0, p: 5 }, &[0, 0, 0, 0, 1]);
    bench.expect_step(third, true);
}

#[test]
fn a_timer_entry_makes_way_for_a_recalled_event() {
    let mut bench = Bench::with_objects(&[(5, 2)]);
    let event = bench.set_aside(&[0]);
    bench.expect(arm(9, 5, 30), &[0]);
    bench.expect(Tick, &[0, 0, 0, 0, 1, 0]);
    bench.expect(Recall { q: 0, p: 5 }, &[0, 0, 0, 0, 1]);
    bench.expect_step(event, true);
    bench.expect_event(Next, &[0, 5, 30], timer_event(9));
}

#[test]
fn an_event_may_be_recalled_to_another_object() {
    let mut bench = Bench::with_objects(&[(5, 1), (9, 1)]);
    // Signal 6 takes the shift chart from state 2 to 4.
    let event = bench.new_event(6, 0);
    bench.post(event, 5);
    let step = [64 + 6, 4, 0, 0, 26, 22, 31, 41];
    bench.expect(Next, &[&[0, 5], &step[..]].concat());
    bench.expect(Defer { q: 7 }, &[0, 0, 0, 0, 1]);
    bench.expect(End, &[0, 0, 0, 0, 0]);
    bench.expect(Recall { q: 7, p: 9 }, &[0, 0, 0, 0, 1]);
    bench.expect(Next, &[&[0, 9], &step[..]].concat());
    bench.expect(End, &[0, 0, 0, 0, 1]);
}

#[test]
fn one_event_may_be_set_aside_several_times() {
    let mut bench = Bench::with_objects(&[(5, 2)]);
    let event = bench.open_step();
    bench.expect(Defer { q: 1 }, &[0, 0, 0, 0, 1]);
    bench.expect(Defer { q: 1 }, &[0, 0, 0, 0, 2]);
    bench.expect(Defer { q: 2 }, &[0, 0, 0, 0, 1]);
    assert_eq!(bench.kernel.references(event.block), 4);
    bench.expect(End, &[0, 0, 0, 0, 0]);
    bench.expect(Recall { q: 1, p: 5 }, &[0, 0, 0, 0, 1]);
    bench.expect(Recall { q: 1, p: 5 }, &[0, 0, 0, 0, 1]);
    bench.expect_step(event, false);
    bench.expect_step(event, false);
    bench.expect(Recall { q: 1, p: 5 }, &[0, 0, 0, 0, 0]);
    bench.expect(Flush { q: 2 }, &[0, 0, 0, 0, 1]);
    bench.expect(Read { handle: event }, &[7]);
}

#[test]
fn each_side_queue_takes_eight_entries() {
    let mut bench = Bench::with_objects(&[(5, 2)]);
    let event = bench.open_step();
    for q in SIDE_QUEUES {
        for entries in 1..=8 {
            bench.expect(Defer { q }, &[0, 0, 0, 0, entries]);
        }
        let full = bench.kernel.clone();
        bench.expect(Defer { q }, &[10]);
        assert!(bench.kernel == full);
    }
    assert_eq!(bench.kernel.references(event.block), 64 + 1);
    bench.expect(Recall { q: 4, p: 5 }, &[0, 0, 0, 0, 1]);
    bench.expect(Defer { q: 3 }, &[10]);
    bench.expect(Defer { q: 4 }, &[0, 0, 0, 0, 8]);
    bench.expect(Flush { q: 5 }, &[0, 0, 0, 0, 8]);
    bench.expect(Defer { q: 5 }, &[0, 0, 0, 0, 1]);
}

#[test]
fn defer_asks_for_a_block_event_in_hand() {
    let mut bench = Bench::with_objects(&[(5, 2)]);
    bench.set_aside(&[0; 8]);
    // NOSTEP comes before FULL, RANGE before NOSTEP.
    bench.expect(Defer { q: 0 }, &[5]);
    bench.expect(Defer { q: 1 }, &[5]);
    bench.expect(Defer { q: 8 }, &[3]);
    bench.expect(arm(0, 5, 31), &[0]);
    bench.expect(Tick, &[0, 0, 0, 0, 1, 0]);
    bench.expect_event(Next, &[0, 5, 31], timer_event(0));
    // STALE comes before FULL, RANGE before STALE.
    bench.expect(Defer { q: 0 }, &[7]);
    bench.expect(Defer { q: 1 }, &[7]);
    bench.expect(Defer { q: 255 }, &[3]);
    bench.expect(End, &[0, 0, 0, 0, 0]);
    bench.open_step();
    bench.expect(Defer { q: 8 }, &[3]);
    bench.expect(Defer { q: 0 }, &[10]);
}

#[test]
fn recall_asks_for_a_place_only_if_there_is_an_entry() {
    let mut bench = Bench::with_objects(&[(5, 1)]);
    bench.set_aside(&[0]);
    let blocker = bench.new_event(31, 0);
    bench.post(blocker, 5);
    let full = bench.kernel.clone();
    bench.expect(Recall { q: 0, p: 5 }, &[10]);
    bench.expect(Recall { q: 1, p: 5 }, &[0, 0, 0, 0, 0]);
    // ABSENT comes before FULL, and an empty side queue is no way round it.
    bench.expect(Recall { q: 0, p: 6 }, &[8]);
    bench.expect(Recall { q: 1, p: 6 }, &[8]);
    assert!(bench.kernel == full);
    bench.expect(Recall { q: 8, p: 6 }, &[3]);
    bench.expect(Recall { q: 8, p: 5 }, &[3]);
    bench.expect(Recall { q: 0, p: 17 }, &[3]);
    bench.expect(Recall { q: 0, p: 0 }, &[3]);
    bench.expect(Drain { budget: 1 }, &[0, 0, 0, 0, 1, 1]);
    bench.expect(Recall { q: 0, p: 5 }, &[0, 0, 0, 0, 1]);
}

#[test]
fn recall_goes_on_with_a_step_open() {
    let mut bench = Bench::with_objects(&[(5, 1)]);
    let event = bench.open_step();
    bench.expect(Defer { q: 6 }, &[0, 0, 0, 0, 1]);
    // NEXT has emptied the one place.
    bench.expect(Recall { q: 6, p: 5 }, &[0, 0, 0, 0, 1]);
    bench.expect(Defer { q: 6 }, &[0, 0, 0, 0, 1]);
    bench.expect(Recall { q: 6, p: 5 }, &[10]);
    bench.expect(End, &[0, 0, 0, 0, 0]);
    bench.expect_step(event, false);
    bench.expect(Recall { q: 6, p: 5 }, &[0, 0, 0, 0, 1]);
    bench.expect_step(event, true);
}

#[test]
fn flush_frees_what_nothing_else_refers_to() {
    let mut bench = Bench::with_objects(&[(3, 1), (5, 1)]);
    let alone = bench.set_aside(&[2]);
    let twice = bench.set_aside(&[2, 2]);
    let held = bench.set_aside(&[2]);
    bench.expect(Hold { handle: held }, &[0, 0, 0, 0, 1]);
    let queued = bench.set_aside(&[2]);
    bench.post(queued, 3);
    let elsewhere = bench.set_aside(&[2, 0]);
    bench.open_step();
    bench.expect(Defer { q: 2 }, &[0, 0, 0, 0, 7]);
    bench.expect(Flush { q: 2 }, &[0, 0, 0, 0, 7]);
    bench.expect(Flush { q: 2 }, &[0, 0, 0, 0, 0]);
    for handle in [alone, twice] {
        bench.expect(Hold { handle }, &[7]);
    }
    // Freed once each, although one of them had two entries.
    bench.expect_event(new(4, 16), &[0, 0, 0, 26], handle(0, 1));
    bench.expect_event(new(4, 16), &[0, 0, 0, 26], handle(1, 1));
    bench.expect(Release { handle: held }, &[0, 0, 0, 0, 0, 1]);
    bench.expect(End, &[0, 0, 0, 0, 1]);
    bench.expect_event(Next, &[0, 3, 31], handle(3, 0));
    bench.expect(End, &[0, 0, 0, 0, 1]);
    bench.expect(Read { handle: elsewhere }, &[0, 0, 0, 16, 16]);
    bench.expect(Flush { q: 0 }, &[0, 0, 0, 0, 1]);
    bench.expect(Read { handle: elsewhere }, &[7]);
}

#[test]
fn flush_leaves_the_free_of_an_event_in_hand_to_end() {
    let mut bench = Bench::with_objects(&[(5, 1)]);
    let event = bench.open_step();
    bench.expect(Defer { q: 0 }, &[0, 0, 0, 0, 1]);
    bench.expect(Defer { q: 0 }, &[0, 0, 0, 0, 2]);
    bench.expect(Flush { q: 0 }, &[0, 0, 0, 0, 2]);
    assert_eq!(bench.kernel.references(event.block), 1);
    bench.expect(End, &[0, 0, 0, 0, 1]);
}

#[test]
fn flush_needs_no_step_and_no_object() {
    let mut bench = Bench::fresh();
    bench.expect(Flush { q: 0 }, &[0, 0, 0, 0, 0]);
    bench.expect(Flush { q: 7 }, &[0, 0, 0, 0, 0]);
    bench.expect(Flush { q: 8 }, &[3]);
}

#[test]
fn a_side_entry_counts_for_every_command() {
    let mut bench = Bench::with_objects(&[(5, 2)]);
    let handle = bench.set_aside(&[0]);
    bench.expect(Drop { handle }, &[13]);
    bench.expect(Publish { handle }, &[0, 0, 0, 0, 0, 0]);
    bench.expect(Hold { handle }, &[0, 0, 0, 0, 1]);
    bench.expect(Release { handle }, &[0, 0, 0, 0, 0, 0]);
    bench.expect(Release { handle }, &[12]);
    bench.post(handle, 5);
    bench.expect(Drain { budget: 255 }, &[0, 0, 0, 0, 1, 1]);
    bench.expect(Read { handle }, &[0, 0, 0, 16, 16]);
    bench.expect(Flush { q: 0 }, &[0, 0, 0, 0, 1]);
    bench.expect(Drop { handle }, &[7]);
}

#[test]
fn a_side_entry_is_no_mail() {
    let mut bench = Bench::with_objects(&[(5, 1)]);
    let event = bench.set_aside(&[0; 8]);
    bench.expect(Next, &[6]);
    bench.expect(Drain { budget: 9 }, &[0, 0, 0, 0, 0, 1]);
    // It takes no place of a mailbox.
    let handle = bench.new_event(31, 0);
    let (p, margin) = (5, 0);
    bench.expect(Post { handle, p, margin }, &[0, 0, 0, 0, 1]);
    bench.expect_step(handle, true);
    bench.expect(Recall { q: 0, p: 5 }, &[0, 0, 0, 0, 1]);
    bench.expect(Drain { budget: 9 }, &[0, 0, 0, 0, 1, 1]);
    assert_eq!(bench.kernel.references(event.block), 7);
}

fn arm(timer: u8, p: u8, signal: u8) -> Command {
    Arm {
        timer,
        p,
        signal,
        ticks: 1,
        interval: 0,
    }
}
