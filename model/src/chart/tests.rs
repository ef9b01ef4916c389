//! The cases of documents 01 and 02 for charts, and what both editions have in common.

use super::*;
use crate::harness::builder::ChartBuilder;
use crate::harness::good::{self, alarm, shift, six_flags, smallest};
use crate::harness::random::{RandomCharts, Xorshift};
use Edition::{Guarded, Plain};

fn shift_chart() -> Chart {
    parse(Plain, &shift()).expect("the shift chart is good")
}

/// The step of a chart whose rows have no flags.
fn step(chart: &Chart, rest: u8, signal: u8) -> Step {
    chart.step(rest, signal, &Flags::default())
}

/// All flags down but these.
fn flags(up: &[u8]) -> Flags {
    let mut flags = Flags::default();
    for &flag in up {
        assert!(flags.set(flag, true));
    }
    flags
}

/// The table that the flattener writes, over bytes that are none of its own.
fn flattened(edition: Edition, chart: &[u8]) -> Vec<u8> {
    let mut table = vec![0xee; edition.table_bytes()];
    assert_eq!(flatten(edition, chart, &mut table), GOOD);
    table
}

/// A row that begins with these bytes and has this flag; all else is 0.
fn row(begin: &[u8], flag: u8) -> [u8; ROW_BYTES] {
    let mut row = [0; ROW_BYTES];
    row[..begin.len()].copy_from_slice(begin);
    row[21] = flag;
    row
}

/// 1 > 2 > 3 with these initial targets of 1 and 2.
fn three_levels(outer_target: u8, inner_target: u8) -> Vec<u8> {
    ChartBuilder::top(1, 10)
        .state(0, 11, 12)
        .initial(outer_target, 0)
        .state(1, 21, 22)
        .initial(inner_target, 0)
        .state(2, 31, 32)
        .bytes()
}

fn moved(next: u8, actions: &[u8]) -> Step {
    Step {
        next,
        outcome: Outcome::Transition,
        actions: actions.to_vec(),
    }
}

#[test]
fn shift_starts_in_2() {
    assert_eq!(shift_chart().start(), moved(2, &[10, 11, 13, 21]));
}

#[test]
fn shift_transitions() {
    let chart = shift_chart();
    assert_eq!(step(&chart, 2, 6), moved(4, &[26, 22, 31, 41]));
    assert_eq!(step(&chart, 4, 8), moved(5, &[38, 42, 51]));
    assert_eq!(step(&chart, 4, 10), moved(4, &[40, 42, 33, 41]));
    assert_eq!(step(&chart, 4, 7), moved(2, &[37, 42, 32, 21]));
    assert_eq!(step(&chart, 5, 11), moved(2, &[59, 52, 32, 13, 21]));
    let all_out = moved(2, &[15, 42, 32, 12, 11, 13, 21]);
    assert_eq!(step(&chart, 4, 5), all_out);
}

#[test]
fn shift_internal() {
    let step = step(&shift_chart(), 4, 9);
    assert_eq!(step.next, 4);
    assert_eq!(step.outcome, Outcome::Internal);
    assert_eq!(step.actions, [49]);
}

#[test]
fn shift_ignored() {
    let step = step(&shift_chart(), 2, 9);
    assert_eq!(step.next, 2);
    assert_eq!(step.outcome, Outcome::Ignored);
    assert_eq!(step.actions, []);
}

#[test]
fn shift_row_of_4_by_8() {
    let table = flattened(Plain, &shift());
    assert_eq!(rows_place(Plain, 4, 8), 2_136..2_160);
    assert_eq!(table[2_136..2_160], row(&[5, 2, 3, 38, 42, 51], 0));
}

#[test]
fn rows_of_ignored_signals_and_of_absent_states() {
    let table = flattened(Plain, &smallest());
    for signal in FIRST_SIGNAL..=LAST_SIGNAL {
        assert_eq!(table[rows_place(Plain, 1, signal)], row(&[1], 0));
    }
    let absent = rows_place(Plain, 2, FIRST_SIGNAL).start;
    assert!(table[absent..].iter().all(|&byte| byte == 0));
}

/// In edition two zeros alone say that a signal is ignored.
#[test]
fn ignored_signals_in_edition_two() {
    let table = flattened(Guarded, &smallest());
    assert_eq!(table[..ROW_BYTES], row(&[1, 2], 0));
    assert!(table[ROW_BYTES..].iter().all(|&byte| byte == 0));
}

#[test]
fn the_last_row_ends_the_table() {
    assert_eq!(rows_place(Plain, 24, LAST_SIGNAL).end, 16_152);
    assert_eq!(rows_place(Guarded, 8, LAST_SIGNAL).end, 32_280);
    assert_eq!(rows_place(Guarded, 1, FIRST_SIGNAL), 24..168);
    for edition in Edition::ALL {
        let last_state = edition.most_states() as u8;
        let end = rows_place(edition, last_state, LAST_SIGNAL).end;
        assert_eq!(end, edition.table_bytes());
    }
}

/// The alarm's rows for signal 8: of 4, of 3 and of 1, which has no flag.
#[test]
fn alarm_rows_of_4_by_8() {
    let table = flattened(Guarded, &alarm());
    assert_eq!(rows_place(Guarded, 4, 8), 12_696..12_840);
    let by_row_of_1 = row(&[2, 2, 7, 15, 42, 32, 12, 11, 13, 21], 0);
    assert_eq!(table[12_696..12_720], row(&[4, 1, 1, 49], 1));
    assert_eq!(table[12_720..12_744], row(&[5, 2, 3, 38, 42, 51], 2));
    assert_eq!(table[12_744..12_768], by_row_of_1);
    assert_eq!(table[12_768..12_840], [0; 72]);
}

/// The other states': what they do themselves, and the flags of those around them.
#[test]
fn alarm_rows_of_other_states() {
    let table = flattened(Guarded, &alarm());
    let expected: [(u8, &[[u8; ROW_BYTES]]); 4] = [
        (1, &[row(&[2, 2, 5, 15, 12, 11, 13, 21], 0)]),
        (2, &[row(&[2, 2, 6, 15, 22, 12, 11, 13, 21], 0)]),
        (
            3,
            &[
                row(&[5, 2, 2, 38, 51], 2),
                row(&[2, 2, 6, 15, 32, 12, 11, 13, 21], 0),
            ],
        ),
        (
            5,
            &[
                row(&[5, 2, 3, 38, 52, 51], 2),
                row(&[2, 2, 7, 15, 52, 32, 12, 11, 13, 21], 0),
            ],
        ),
    ];
    for (state, rows) in expected {
        let mut written = [0; 6 * ROW_BYTES];
        written[..rows.len() * ROW_BYTES].copy_from_slice(&rows.concat());
        assert_eq!(table[rows_place(Guarded, state, 8)], written, "{state}");
    }
    assert_eq!(table[rows_place(Guarded, 4, 9)], [0; 6 * ROW_BYTES]);
    assert_eq!(table[rows_place(Guarded, 6, 8)], [0; 6 * ROW_BYTES]);
}

#[test]
fn six_rows_on_a_way_of_six_states() {
    let table = flattened(Guarded, &six_flags());
    let rows = &table[rows_place(Guarded, 6, 4)];
    for (state, written) in (1..=6).rev().zip(rows.chunks(ROW_BYTES)) {
        assert_eq!(written, row(&[6, 1, 1, 10 * state + 4], state));
    }
    // One level further out there is one row fewer.
    let rows = &table[rows_place(Guarded, 5, 4)];
    assert_eq!(rows[..ROW_BYTES], row(&[5, 1, 1, 54], 5));
    assert_eq!(rows[4 * ROW_BYTES..5 * ROW_BYTES], row(&[5, 1, 1, 14], 1));
    assert_eq!(rows[5 * ROW_BYTES..], [0; ROW_BYTES]);
}

#[test]
fn rows_behind_the_first_without_a_flag_are_zeros() {
    let table = flattened(Guarded, &six_flags());
    // The row of 1 for signal 6 stands behind that of 3, which has no flag.
    let rows = &table[rows_place(Guarded, 6, 6)];
    assert_eq!(rows[..24], row(&[6, 2, 6, 56, 62, 52, 51, 53, 61], 2));
    assert_eq!(rows[24..48], row(&[6, 1, 1, 36], 0));
    assert_eq!(rows[48..], [0; 96]);
    assert_eq!(
        table[rows_place(Guarded, 2, 6)][..24],
        row(&[2, 1, 1, 16], 1)
    );
}

#[test]
fn a_flag_stands_right_behind_eighteen_actions() {
    let table = flattened(Guarded, &six_flags());
    let way = [
        62, 52, 42, 32, 22, 12, 11, 13, 21, 23, 31, 33, 41, 43, 51, 53, 61,
    ];
    let begin = [&[6, 2, 18, 18][..], &way].concat();
    assert_eq!(begin.len(), 21);
    assert_eq!(table[rows_place(Guarded, 6, 8)][..24], row(&begin, 5));
}

#[test]
fn a_flag_is_filler_in_edition_one_and_at_most_8_in_edition_two() {
    let chart = |flag| {
        let chart = ChartBuilder::top(1, 10).state(0, 11, 12);
        chart.internal(1, 4, 14).flag(flag).bytes()
    };
    for edition in Edition::ALL {
        assert_eq!(check(edition, &chart(0)), GOOD);
    }
    for flag in 1..=255 {
        assert_eq!(check(Plain, &chart(flag)), Fault::Records.class());
    }
    assert!((1..=8).all(|flag| check(Guarded, &chart(flag)) == GOOD));
    assert!((9..=255).all(|flag| check(Guarded, &chart(flag)) == Fault::Rows.class()));
}

#[test]
fn the_byte_behind_the_flag_is_filler() {
    let mut chart = ChartBuilder::top(1, 10)
        .state(0, 11, 12)
        .internal(1, 4, 14)
        .flag(8)
        .bytes();
    assert_eq!(check(Guarded, &chart), GOOD);
    *chart.last_mut().expect("a row") = 1;
    assert_eq!(check(Guarded, &chart), Fault::Records.class());
}

#[test]
fn a_ninth_state_is_one_too_many_for_edition_two() {
    let chart = |count| {
        let top = ChartBuilder::top(1, 10);
        let states = (0..count).fold(top, |chart, _| chart.state(0, 1, 2));
        states.bytes()
    };
    assert_eq!(check(Guarded, &chart(8)), GOOD);
    assert_eq!(check(Guarded, &chart(9)), Fault::Records.class());
    assert_eq!(check(Plain, &chart(9)), GOOD);
    assert_eq!(check(Plain, &chart(24)), GOOD);
    assert_eq!(check(Plain, &chart(25)), Fault::Records.class());
}

#[test]
fn every_parent_needs_an_initial_target() {
    for edition in Edition::ALL {
        assert_eq!(check(edition, &three_levels(2, 3)), GOOD);
        assert_eq!(check(edition, &three_levels(3, 3)), GOOD);
        for (outer, inner) in [(0, 3), (2, 0), (3, 0), (0, 0)] {
            let chart = three_levels(outer, inner);
            let class = check(edition, &chart);
            assert_eq!(class, Fault::States.class(), "{outer} {inner}");
        }
    }
}

/// The hard charts of an edition and some random ones.
fn some_charts(edition: Edition) -> Vec<Chart> {
    let hard = good::of(edition).into_iter().map(|good| good.bytes);
    let charts = hard.chain(RandomCharts::new(edition, 2).take(100));
    charts
        .filter_map(|bytes| parse(edition, &bytes).ok())
        .collect()
}

/// Any flags of an object.
fn random_flags(random: &mut Xorshift) -> Flags {
    let mut flags = Flags::default();
    for flag in 1..=8 {
        flags.set(flag, random.percent(40));
    }
    flags
}

#[test]
fn no_parent_is_a_state_of_rest() {
    let mut random = Xorshift::new(1);
    for chart in Edition::ALL.into_iter().flat_map(some_charts) {
        let flags = random_flags(&mut random);
        assert!(!chart.is_parent(chart.start().next));
        for rest in chart.numbers().filter(|&state| !chart.is_parent(state)) {
            let signals = FIRST_SIGNAL..=LAST_SIGNAL;
            let mut nexts = signals.map(|signal| chart.step(rest, signal, &flags).next);
            assert!(nexts.all(|next| !chart.is_parent(next)));
        }
    }
}

/// What a flat row says, as a step tells it.
fn told(step: &Step) -> (u8, u8, &[u8]) {
    (step.next, step.outcome as u8, &step.actions)
}

/// What the rows for a state and a signal say, whichever row it is.
fn read(edition: Edition, table: &[u8], rest: u8, signal: u8, flags: &Flags) -> FlatRow {
    match read_step(edition, table, rest, signal, flags).found {
        Found::Taken(row) => row,
        Found::Nothing => FlatRow::ignored(rest),
        Found::Unsound => panic!("a row of a flattened chart is not sound"),
    }
}

#[test]
fn flat_and_nested_agree() {
    let mut random = Xorshift::new(3);
    for edition in Edition::ALL {
        for chart in some_charts(edition) {
            let table = chart.table();
            let start = read_start(edition, &table).expect("a sound start row");
            let start = (start.next, start.outcome, &start.actions[..]);
            assert_eq!(start, told(&chart.start()));
            for rest in chart.numbers() {
                for signal in FIRST_SIGNAL..=LAST_SIGNAL {
                    let flags = random_flags(&mut random);
                    let flat = read(edition, &table, rest, signal, &flags);
                    let nested = chart.step(rest, signal, &flags);
                    let flat = (flat.next, flat.outcome, &flat.actions[..]);
                    assert_eq!(flat, told(&nested));
                }
            }
        }
    }
}

/// A chart without flags does the same in both editions, whatever the flags.
#[test]
fn edition_one_is_the_case_without_flags() {
    let mut random = Xorshift::new(4);
    let charts = good::of(Plain).into_iter().map(|good| good.bytes);
    let mut both = charts.filter_map(|bytes| {
        let plain = parse(Plain, &bytes).ok()?;
        Some((plain, parse(Guarded, &bytes).ok()?))
    });
    assert!(both.by_ref().all(|(plain, guarded)| {
        let flags = random_flags(&mut random);
        plain.numbers().all(|rest| {
            let mut signals = FIRST_SIGNAL..=LAST_SIGNAL;
            signals.all(|g| step(&plain, rest, g) == guarded.step(rest, g, &flags))
        })
    }));
}

#[test]
fn a_table_of_another_length_is_left_alone() {
    for edition in Edition::ALL {
        let right = edition.table_bytes();
        for length in [0, 1, 16_152, 32_280, right - 1, right + 1] {
            let mut table = vec![0xee; length];
            let answer = flatten(edition, &shift(), &mut table);
            let is_right = length == right;
            assert_eq!(answer, if is_right { GOOD } else { WRONG_TABLE });
            assert!(is_right || table.iter().all(|&byte| byte == 0xee));
        }
    }
}

#[test]
fn a_bad_chart_is_told_before_a_bad_table() {
    for edition in Edition::ALL {
        for length in [7, edition.table_bytes()] {
            let mut table = vec![0xee; length];
            let answer = flatten(edition, &[], &mut table);
            assert_eq!(answer, Fault::Length.class());
            assert!(table.iter().all(|&byte| byte == 0xee));
        }
    }
}

#[test]
fn soundness_of_a_row() {
    let full: Vec<u8> = [&[5, 2, 18][..], &[255; 18][..]].concat();
    for edition in Edition::ALL {
        let most = edition.most_states() as u8;
        let sound = |begin: &[u8]| sound(edition, &row(begin, 0));
        assert!(sound(&[1, 0, 0]));
        assert!(sound(&[most, 2, 2, 9, 9]));
        // An action within the count may be 0: it is not an unused byte.
        assert!(sound(&[most, 2, 2, 0, 9]));
        assert!(sound(&full));

        assert!(!sound(&[0, 0, 0]));
        assert!(!sound(&[most + 1, 0, 0]));
        assert!(!sound(&[1, 3, 0]));
        assert!(!sound(&[1, 2, 19]));
        assert!(!sound(&[1, 2, 255]));
        assert!(!sound(&[1, 2, 1, 9, 9]));
        assert!(!sound(&[&[1, 2, 0][..], &[0; 17], &[1]].concat()));
    }
    assert!(sound(Plain, &row(&[9], 0)));
    assert!(!sound(Guarded, &row(&[9], 0)));
}

#[test]
fn soundness_of_the_last_three_bytes() {
    let full: Vec<u8> = [&[5, 2, 18][..], &[255; 18][..]].concat();
    for begin in [&[1, 0, 0][..], &full] {
        for flag in 0..=255 {
            assert_eq!(sound(Plain, &row(begin, flag)), flag == 0);
            assert_eq!(sound(Guarded, &row(begin, flag)), flag <= 8);
        }
        for edition in Edition::ALL {
            for place in [22, 23] {
                let mut row = row(begin, 0);
                row[place] = 1;
                assert!(!sound(edition, &row));
            }
        }
    }
}

#[test]
fn a_row_of_another_length_is_not_sound() {
    for edition in Edition::ALL {
        assert!(!sound(edition, &[]));
        assert!(!sound(edition, &[1, 0]));
        assert!(!sound(edition, &[1, 0, 0]));
        assert!(!sound(edition, &[&[1][..], &[0; 24][..]].concat()));
    }
}

#[test]
fn a_start_row_has_no_flag() {
    for flag in 0..=9 {
        let start = |edition| read_start(edition, &row(&[1, 2], flag));
        assert_eq!(start(Plain).is_some(), flag == 0);
        assert_eq!(start(Guarded).is_some(), flag == 0);
    }
    assert_eq!(read_start(Guarded, &row(&[], 0)), None);
}

/// A table of edition two in which these rows stand for (1, 4).
fn table_with(rows: &[[u8; ROW_BYTES]]) -> Vec<u8> {
    let mut table = vec![0; Guarded.table_bytes()];
    let begin = rows_place(Guarded, 1, 4).start;
    table[begin..begin + rows.len() * ROW_BYTES].copy_from_slice(&rows.concat());
    table
}

/// Which of the rows for (1, 4) decides with these flags up, and what it says.
fn reading(rows: &[[u8; ROW_BYTES]], up: &[u8]) -> (usize, Found) {
    let reading = read_step(Guarded, &table_with(rows), 1, 4, &flags(up));
    (reading.passed_over, reading.found)
}

/// A row that is taken, whose next state is its only mark.
fn taken(next: u8, flag: u8) -> Found {
    Found::Taken(FlatRow {
        next,
        outcome: 0,
        actions: Vec::new(),
        flag,
    })
}

#[test]
fn rows_are_read_in_order() {
    let rows = [row(&[1], 1), row(&[2], 2), row(&[3], 0), row(&[4], 0)];
    assert_eq!(reading(&rows, &[1]), (0, taken(1, 1)));
    assert_eq!(reading(&rows, &[1, 2]), (0, taken(1, 1)));
    assert_eq!(reading(&rows, &[2]), (1, taken(2, 2)));
    assert_eq!(reading(&rows, &[3, 4]), (2, taken(3, 0)));
    assert_eq!(reading(&rows[..2], &[]), (2, Found::Nothing));
    assert_eq!(reading(&[], &[1]), (0, Found::Nothing));
    let six = [1, 2, 3, 4, 5, 6].map(|flag| row(&[flag], flag));
    assert_eq!(reading(&six, &[6]), (5, taken(6, 6)));
    assert_eq!(reading(&six, &[7, 8]), (6, Found::Nothing));
}

/// Zeros end the reading, though a row stands behind them.
#[test]
fn rows_behind_zeros_are_not_read() {
    let rows = [row(&[1], 1), row(&[], 0), row(&[3], 0)];
    assert_eq!(reading(&rows, &[]), (1, Found::Nothing));
    let unsound_behind = [row(&[], 0), row(&[9], 0)];
    assert_eq!(reading(&unsound_behind, &[]), (0, Found::Nothing));
}

#[test]
fn an_unsound_row_counts_where_it_is_read() {
    let unsound = [row(&[9], 2), row(&[0, 1], 2), row(&[1, 3], 2), row(&[], 9)];
    for unsound in unsound {
        let rows = [row(&[1], 1), unsound, row(&[3], 0)];
        // Its flag is down, or up.
        assert_eq!(reading(&rows, &[]), (1, Found::Unsound));
        assert_eq!(reading(&rows, &[2]), (1, Found::Unsound));
        // Behind the row that is taken it is not read.
        assert_eq!(reading(&rows, &[1]), (0, taken(1, 1)));
    }
    // A row of zeros but for its flag, or a byte behind it, is not one of zeros.
    assert_eq!(reading(&[row(&[], 1)], &[]), (0, Found::Unsound));
    let mut last = row(&[], 0);
    last[23] = 1;
    assert_eq!(reading(&[last], &[]), (0, Found::Unsound));
}

/// In edition one there is one row, and one of zeros is not sound.
#[test]
fn the_one_row_of_edition_one() {
    let mut table = vec![0; Plain.table_bytes()];
    let read = |table: &[u8]| read_step(Plain, table, 1, 4, &Flags::default()).found;
    assert_eq!(read(&table), Found::Unsound);
    table[24] = 24;
    assert_eq!(read(&table), taken(24, 0));
    table[24 + 21] = 1;
    assert_eq!(read(&table), Found::Unsound);
}
