//! FLAG, slot 4, and its table.

use super::*;
use crate::chart::{rows_place, Edition, ROW_BYTES};
use crate::harness::builder::ChartBuilder;
use crate::harness::good::{alarm, six_flags};

/// The reply to a START of a chart with the states of `rounds` or `alarm`, without its zeros.
const STARTED: [u8; 8] = [64, 4, 0, 0, 10, 11, 13, 21];

/// A bench with a chart in slot 4, and these objects on it: priority, depth.
fn with_guarded(chart: Vec<u8>, objects: &[(u8, u8)]) -> Bench {
    let mut bench = Bench::fresh();
    bench.charts[4] = chart;
    assert_eq!(bench.send(Load { slot: 4 })[0], 0);
    for &(p, depth) in objects {
        assert_eq!(bench.send(start(p, 4, depth))[0], 0);
    }
    bench
}

fn start(p: u8, slot: u8, depth: u8) -> Command {
    Start { p, slot, depth }
}

fn up(p: u8, flag: u8) -> Command {
    Flag { p, flag, value: 1 }
}

fn down(p: u8, flag: u8) -> Command {
    Flag { p, flag, value: 0 }
}

const CHANGED: [u8; 5] = [0, 0, 0, 0, 1];
const AS_IT_WAS: [u8; 5] = [0, 0, 0, 0, 0];

impl Bench {
    /// An event of this signal goes to an object, whose step then replies with these bytes behind the object, and ends.
    fn step(&mut self, p: u8, signal: u8, expected: &[u8]) {
        let event = self.new_event(signal, 0);
        self.post(event, p);
        let begin = [&[0, p], expected].concat();
        self.expect_event(Next, &begin, event);
        self.expect(End, &[0, 0, 0, 0, 1]);
    }

    /// The rows of slot 4 for a state and a signal.
    fn rows(&mut self, state: u8, signal: u8) -> &mut [u8] {
        &mut self.guarded[rows_place(Edition::Guarded, state, signal)]
    }
}

#[test]
fn flag_tells_whether_it_changed_anything() {
    let mut bench = with_guarded(rounds(), &[(5, 1)]);
    bench.expect(up(5, 1), &CHANGED);
    bench.expect(up(5, 1), &AS_IT_WAS);
    bench.expect(up(5, 8), &CHANGED);
    bench.expect(down(5, 2), &AS_IT_WAS);
    bench.expect(down(5, 1), &CHANGED);
    bench.expect(down(5, 1), &AS_IT_WAS);
    bench.expect(down(5, 8), &CHANGED);
}

#[test]
fn each_object_has_its_own_flags_on_any_slot() {
    let mut bench = with_guarded(rounds(), &[(5, 1), (6, 1)]);
    bench.expect(Load { slot: 0 }, &[0, 0, 0, 0, 5]);
    bench.expect(start(7, 0, 1), &[&[0, 7], &STARTED[..]].concat());
    for p in [5, 7] {
        bench.expect(up(p, 3), &CHANGED);
        bench.expect(up(p, 3), &AS_IT_WAS);
    }
    bench.expect(down(6, 3), &AS_IT_WAS);
    bench.expect(down(7, 3), &CHANGED);
    bench.expect(up(5, 3), &AS_IT_WAS);
}

#[test]
fn all_flags_are_down_at_start() {
    let mut bench = with_guarded(rounds(), &[(5, 1)]);
    for flag in FLAGS {
        bench.expect(up(5, flag), &CHANGED);
    }
    bench.expect(start(6, 4, 1), &[&[0, 6], &STARTED[..]].concat());
    for flag in FLAGS {
        bench.expect(down(6, flag), &AS_IT_WAS);
    }
}

#[test]
fn flag_is_refused_by_the_lowest_number() {
    let mut bench = with_guarded(rounds(), &[(5, 2)]);
    // RANGE before ABSENT.
    bench.expect(up(6, 9), &[3]);
    bench.expect(up(6, 8), &[8]);
    let event = bench.new_event(31, 0);
    bench.post(event, 5);
    bench.expect_event(Next, &[0, 5, 31], event);
    let before = bench.kernel.clone();
    // RANGE before BUSY, and BUSY before ABSENT.
    for wrong in [up(0, 1), up(17, 1), up(5, 0), up(5, 9)] {
        bench.expect(wrong, &[3]);
    }
    let value = 2;
    let (p, flag) = (5, 1);
    bench.expect(Flag { p, flag, value }, &[3]);
    bench.expect(up(6, 1), &[4]);
    bench.expect(up(5, 1), &[4]);
    bench.expect(down(5, 1), &[4]);
    assert!(bench.kernel == before);
    bench.expect(End, &[0, 0, 0, 0, 1]);
    bench.expect(up(5, 1), &CHANGED);
}

#[test]
fn a_row_whose_flag_is_down_is_passed_over() {
    let mut bench = with_guarded(rounds(), &[(5, 1)]);
    // 2 by 4: the rows of 2 and 1 have flags 2 and 1, and both are down.
    bench.step(5, 4, &[4]);
    bench.step(5, 5, &[32 + 5, 1, 0, 0, 15]);
    bench.expect(up(5, 3), &CHANGED);
    bench.step(5, 5, &[32 + 5, 1, 0, 0, 25]);
    bench.expect(up(5, 2), &CHANGED);
    bench.step(5, 4, &[64 + 4, 3, 0, 0, 24, 22, 31]);
    // 3 by 4 has no flag, and leads back to 2.
    bench.step(5, 4, &[64 + 4, 3, 0, 0, 34, 32, 21]);
    bench.expect(down(5, 2), &CHANGED);
    bench.expect(up(5, 1), &CHANGED);
    let into_4 = [64 + 4, 8, 0, 0, 14, 22, 12, 41, 43, 51, 53, 61];
    bench.step(5, 4, &into_4);
    // 6 by 4: the rows of 6 and 5 are passed over, and that of 4 has no flag.
    bench.step(5, 4, &[64 + 4, 7, 0, 0, 44, 62, 52, 42, 11, 13, 21]);
    bench.step(5, 4, &into_4);
    bench.expect(up(5, 5), &CHANGED);
    bench.step(5, 4, &[64 + 4, 3, 0, 0, 54, 62, 71]);
    // 7 by 5: the row of 4 has flag 4, which is down.
    bench.step(5, 5, &[5]);
}

#[test]
fn six_rows_are_asked_in_turn() {
    for flag in 1..=6 {
        let mut bench = with_guarded(six_flags(), &[(5, 1)]);
        bench.step(5, 4, &[4]);
        bench.expect(up(5, flag), &CHANGED);
        bench.step(5, 4, &[32 + 4, 1, 0, 0, 10 * flag + 4]);
        bench.expect(up(5, 7), &CHANGED);
        bench.expect(down(5, flag), &CHANGED);
        bench.step(5, 4, &[4]);
    }
}

/// A chart without flags does on slot 4 what it does on slot 0.
#[test]
fn the_shift_chart_in_slot_4() {
    let mut bench = with_guarded(shift(), &[]);
    bench.expect(start(5, 4, 1), &[&[0, 5], &STARTED[..]].concat());
    bench.step(5, 9, &[9]);
    bench.step(5, 6, &[64 + 6, 4, 0, 0, 26, 22, 31, 41]);
    bench.step(5, 8, &[64 + 8, 3, 0, 0, 38, 42, 51]);
    bench.step(5, 11, &[64 + 11, 5, 0, 0, 59, 52, 32, 13, 21]);
}

#[test]
fn a_chart_is_checked_by_the_edition_of_its_slot() {
    let mut bench = Bench::fresh();
    let states = |count| {
        let top = ChartBuilder::top(1, 0);
        (0..count).fold(top, |chart, _| chart.state(0, 0, 0))
    };
    let row = |flag| states(1).internal(1, 4, 9).flag(flag).bytes();
    let cases = [
        (0, alarm(), 2),
        (3, row(8), 2),
        (4, states(9).bytes(), 2),
        (4, row(9), 4),
        (4, Vec::new(), 1),
        (4, ChartBuilder::top(2, 0).state(0, 0, 0).bytes(), 3),
    ];
    for (slot, chart, class) in cases {
        bench.charts[usize::from(slot)] = chart;
        bench.expect(Load { slot }, &[14, 0, 0, 0, class]);
        bench.expect(start(1, slot, 1), &[8]);
    }
    let mut bytes = bench.tables.iter().chain(&bench.guarded);
    assert!(bytes.all(|&byte| byte == UNTOUCHED));
    bench.charts[0] = states(9).bytes();
    bench.expect(Load { slot: 0 }, &[0, 0, 0, 0, 9]);
    bench.charts[4] = row(8);
    bench.expect(Load { slot: 4 }, &[0, 0, 0, 0, 1]);
    bench.charts[4] = states(8).bytes();
    bench.expect(Load { slot: 4 }, &[0, 0, 0, 0, 8]);
}

#[test]
fn slot_4_is_taken_while_an_object_uses_it() {
    let mut bench = with_guarded(rounds(), &[]);
    bench.charts[4] = alarm();
    bench.expect(Load { slot: 4 }, &[0, 0, 0, 0, 5]);
    bench.expect(start(5, 4, 1), &[&[0, 5], &STARTED[..]].concat());
    bench.expect(Load { slot: 4 }, &[9]);
    bench.expect(Load { slot: 0 }, &[0, 0, 0, 0, 5]);
    bench.expect(start(5, 4, 1), &[9]);
}

/// The answer to NEXT, with a guarded table of this length.
fn next_with(bench: &Bench, guarded_length: usize) -> u8 {
    let mut kernel = bench.kernel.clone();
    let mut tables = bench.tables.clone();
    let mut guarded = bench.guarded.clone();
    guarded.resize(guarded_length, 0);
    let record = Next.record();
    kernel.command(&record, &[], &mut [], &mut tables, &mut guarded, &mut [])[0]
}

#[test]
fn next_asks_for_the_guarded_table_where_the_highest_mail_is_on_slot_4() {
    let mut bench = with_guarded(rounds(), &[(5, 2), (9, 2)]);
    bench.expect(Load { slot: 0 }, &[0, 0, 0, 0, 5]);
    bench.expect(start(7, 0, 2), &[&[0, 7], &STARTED[..]].concat());
    let answers = |bench: &Bench| {
        let wrong = [0, 16_152, GUARDED_BYTES - 1, GUARDED_BYTES + 1];
        let mut answers = wrong.map(|length| next_with(bench, length));
        let first = answers[0];
        assert!(answers.iter_mut().all(|answer| *answer == first));
        [next_with(bench, GUARDED_BYTES), first]
    };
    // Nothing is queued.
    assert_eq!(answers(&bench), [6, 6]);
    let event = bench.new_event(31, 0);
    bench.post(event, 5);
    assert_eq!(answers(&bench), [0, 2]);
    // A higher object with mail is on slot 0, and then one still higher on slot 4.
    bench.post(event, 7);
    assert_eq!(answers(&bench), [0, 0]);
    bench.post(event, 9);
    assert_eq!(answers(&bench), [0, 2]);
    // With a step open, whichever object's it is: 9 took its event, 7 is the next, and then 9 has mail again.
    bench.expect_event(Next, &[0, 9, 31], event);
    assert_eq!(answers(&bench), [4, 4]);
    bench.post(event, 9);
    assert_eq!(answers(&bench), [4, 2]);
}

/// The first of two objects has an event that is ignored, the second this event on slot 4.
fn with_mail(signal: u8) -> (Bench, Handle) {
    let mut bench = with_guarded(rounds(), &[(5, 1), (9, 1)]);
    let ignored = bench.new_event(30, 0);
    let event = bench.new_event(signal, 0);
    bench.post(ignored, 9);
    bench.post(event, 5);
    (bench, event)
}

/// NEXT stops at a row of object 5, and so does DRAIN, which leaves its event at the front.
fn assert_stops(mut bench: Bench) {
    let steps = [0, 0, 0, 0, 1, 2];
    bench.expect(Drain { budget: 255 }, &steps);
    let before = bench.kernel.clone();
    let log = bench.log.clone();
    bench.expect(Next, &[15]);
    bench.expect(Drain { budget: 255 }, &[0, 0, 0, 0, 0, 2]);
    bench.expect(Drain { budget: 0 }, &[0, 0, 0, 0, 0, 0]);
    assert!(bench.kernel == before && bench.log == log);
}

#[test]
fn each_kind_of_unsound_row_is_refused_on_slot_4() {
    // 2 by 4: the rows of 2 and 1, with flags 2 and 1 and with 3 and 8 actions, then zeros.
    let pokes = [
        (0, 0),
        (0, 9),
        (0, 24),
        (1, 3),
        (2, 19),
        (2, 2),
        (11, 1),
        (20, 1),
        (21, 9),
        (21, 255),
        (22, 1),
        (23, 1),
    ];
    for (at, byte) in pokes {
        for flags_up in [&[][..], &[2]] {
            // In the first row, whether its flag is up or down.
            let (mut bench, _) = with_mail(4);
            for &flag in flags_up {
                bench.expect(up(5, flag), &CHANGED);
            }
            bench.rows(2, 4)[at] = byte;
            assert_stops(bench);
        }
        // In the second row, which is read since the flag of the first is down.
        let (mut bench, _) = with_mail(4);
        bench.rows(2, 4)[ROW_BYTES + at] = byte;
        assert_stops(bench);
    }
}

#[test]
fn a_row_of_zeros_but_for_one_byte_is_not_sound() {
    for at in 1..ROW_BYTES {
        let (mut bench, _) = with_mail(31);
        bench.rows(2, 31)[at] = 1;
        assert_stops(bench);
    }
}

#[test]
fn rows_behind_the_one_that_decides_are_not_read() {
    // Behind a row that is taken.
    let (mut bench, event) = with_mail(4);
    bench.expect(up(5, 2), &CHANGED);
    bench.rows(2, 4)[ROW_BYTES..].fill(255);
    bench.expect(Drain { budget: 1 }, &[0, 0, 0, 0, 1, 0]);
    bench.expect_event(Next, &[0, 5, 64 + 4, 3, 0, 0, 24, 22, 31], event);
    // Behind zeros.
    let (mut bench, event) = with_mail(4);
    bench.rows(2, 4)[3 * ROW_BYTES..].fill(255);
    bench.expect(Drain { budget: 1 }, &[0, 0, 0, 0, 1, 0]);
    bench.expect_event(Next, &[0, 5, 4], event);
}

#[test]
fn a_sound_row_is_taken_as_it_stands() {
    // The first row gets flag 1 in the place of 2, and the row behind the two another next state and outcome 0.
    let (mut bench, event) = with_mail(4);
    bench.rows(2, 4)[21] = 1;
    bench.rows(2, 4)[2 * ROW_BYTES..2 * ROW_BYTES + 5].copy_from_slice(&[8, 0, 2, 0, 7]);
    bench.expect(up(5, 2), &CHANGED);
    bench.expect(Drain { budget: 1 }, &[0, 0, 0, 0, 1, 0]);
    bench.expect_event(Next, &[0, 5, 4, 2, 0, 0, 0, 7], event);
    bench.expect(End, &[0, 0, 0, 0, 1]);
    // It rests in 8 by now.
    bench.step(5, 6, &[64 + 6, 6, 0, 0, 86, 82, 43, 51, 53, 61]);
}

#[test]
fn a_start_row_with_a_flag_is_refused() {
    let mut bench = with_guarded(rounds(), &[]);
    for flag in 1..=255 {
        bench.guarded[21] = flag;
        bench.expect(start(5, 4, 1), &[15]);
    }
    bench.guarded[21] = 0;
    for (at, byte, right) in [(0, 0, 2), (0, 9, 2), (1, 3, 2), (22, 1, 0), (23, 1, 0)] {
        bench.guarded[at] = byte;
        bench.expect(start(5, 4, 1), &[15]);
        bench.guarded[at] = right;
    }
    bench.guarded[0] = 8;
    bench.expect(start(5, 4, 1), &[&[0, 5], &STARTED[..]].concat());
    bench.step(5, 6, &[64 + 6, 6, 0, 0, 86, 82, 43, 51, 53, 61]);
}

/// A table of zeros has no start, and ignores everything.
#[test]
fn a_table_of_zeros() {
    let mut bench = with_guarded(rounds(), &[(5, 1)]);
    bench.guarded.fill(0);
    bench.expect(start(6, 4, 1), &[15]);
    bench.step(5, 4, &[4]);
}

#[test]
fn drain_goes_through_objects_of_both_editions() {
    let mut bench = with_guarded(rounds(), &[(3, 2), (9, 2)]);
    bench.expect(Load { slot: 0 }, &[0, 0, 0, 0, 5]);
    bench.expect(start(6, 0, 1), &[&[0, 6], &STARTED[..]].concat());
    bench.expect(up(9, 2), &CHANGED);
    bench.expect(up(3, 1), &CHANGED);
    bench.expect(up(6, 2), &CHANGED);
    let signal_4 = bench.new_event(4, 0);
    let signal_6 = bench.new_event(6, 0);
    for (event, p) in [
        (signal_4, 3),
        (signal_4, 3),
        (signal_6, 6),
        (signal_4, 9),
        (signal_6, 9),
    ] {
        bench.post(event, p);
    }
    bench.expect(Drain { budget: 255 }, &[0, 0, 0, 0, 5, 1]);
    let into_4 = [0, 3, 64 + 4, 8, 0, 0, 14, 22, 12, 41, 43, 51, 53, 61];
    let out_of_4 = [0, 3, 64 + 4, 7, 0, 0, 44, 62, 52, 42, 11, 13, 21];
    let lines = [
        event_reply(&[0, 9, 64 + 4, 3, 0, 0, 24, 22, 31], signal_4),
        event_reply(&[0, 9, 6], signal_6),
        event_reply(&[0, 6, 64 + 6, 4, 0, 0, 26, 22, 31, 41], signal_6),
        event_reply(&into_4, signal_4),
        event_reply(&out_of_4, signal_4),
    ];
    assert_eq!(bench.log[..140], lines.concat());
    assert!(bench.log[140..].iter().all(|&byte| byte == UNTOUCHED));
}

#[test]
fn flags_say_nothing_on_slots_0_to_3() {
    let mut bench = Bench::with_objects(&[(5, 1)]);
    for flag in FLAGS {
        bench.expect(up(5, flag), &CHANGED);
    }
    bench.step(5, 6, &[64 + 6, 4, 0, 0, 26, 22, 31, 41]);
    bench.step(5, 4, &[4]);
    // A row of edition one has no flag, and one of zeros is not sound.
    let place = rows_place(Edition::Plain, 4, 9);
    for at in [21, 22, 23] {
        bench.tables[place.start + at] = 1;
        let event = bench.new_event(9, 0);
        bench.post(event, 5);
        bench.expect(Next, &[15]);
        bench.tables[place.start + at] = 0;
        bench.expect_event(Next, &[0, 5, 32 + 9, 1, 0, 0, 49], event);
        bench.expect(End, &[0, 0, 0, 0, 1]);
    }
}

/// Nothing that is done on slot 4 writes to the tables of the others.
#[test]
fn slot_4_does_not_touch_the_other_tables() {
    let mut bench = with_guarded(alarm(), &[(5, 1)]);
    bench.expect(up(5, 1), &CHANGED);
    bench.step(5, 8, &[64 + 8, 6, 0, 0, 15, 22, 12, 11, 13, 21]);
    assert!(bench.tables.iter().all(|&byte| byte == UNTOUCHED));
}
