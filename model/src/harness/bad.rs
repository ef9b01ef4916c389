//! Bad charts: at least one for each fault that documents 01 and 02 name, and mixtures.
//!
//! `expected` is the class as read by hand from the documents; the model must agree.

mod guarded;

use super::builder::ChartBuilder;
use super::good;
use crate::chart::Edition;

pub struct BadChart {
    pub name: &'static str,
    pub expected: u32,
    pub bytes: Vec<u8>,
}

/// All bad charts of an edition: those that are bad in both for one reason, then its own.
pub fn of(edition: Edition) -> Vec<BadChart> {
    let mut charts = in_both_editions();
    charts.extend(match edition {
        Edition::Plain => in_edition_one(),
        Edition::Guarded => guarded::all(),
    });
    charts
}

/// By class, then those with faults of several classes.
fn in_both_editions() -> Vec<BadChart> {
    let classes = [
        lengths(),
        kinds(),
        fillers(),
        state_counts(),
        nestings(),
        initials(),
        missing_starts(),
        missing_starts_and_more(),
        row_fields(),
        row_orders(),
        mixtures(),
        mixtures_with_missing_starts(),
    ];
    classes.into_iter().flatten().collect()
}

/// Charts with more states than edition two has, and with what is a flag there.
fn in_edition_one() -> Vec<BadChart> {
    let charts = [
        great_lengths(),
        large_ones(),
        full_ones(),
        flags_as_fillers(),
    ];
    charts.into_iter().flatten().collect()
}

fn chart(name: &'static str, expected: u32, bytes: Vec<u8>) -> BadChart {
    BadChart {
        name,
        expected,
        bytes,
    }
}

/// A good beginning that the charts below spoil: 1 > {2, 3}, 4.
fn four_states() -> ChartBuilder {
    ChartBuilder::top(1, 10)
        .state(0, 11, 12)
        .initial(2, 13)
        .state(1, 21, 22)
        .state(1, 31, 32)
        .state(0, 41, 42)
}

/// A chart of that many states at level 1.
fn flat_states(count: usize) -> ChartBuilder {
    (0..count).fold(ChartBuilder::top(1, 10), |chart, _| chart.state(0, 1, 2))
}

/// A chart of that many states, each inside the one before and with an initial
/// transition to the next.
fn nested_states(count: u8) -> ChartBuilder {
    let outer = (1..count).fold(ChartBuilder::top(1, 10), |chart, number| {
        chart.state(number - 1, 1, 2).initial(number + 1, 3)
    });
    outer.state(count - 1, 1, 2)
}

/// The chart without the initial transition of that state.
fn without_start(mut bytes: Vec<u8>, state: usize) -> Vec<u8> {
    bytes[8 * state + 4..8 * state + 6].fill(0);
    bytes
}

/// A parent that has no initial target, in the smallest chart: 1 > 2.
fn no_start(top_target: u8) -> ChartBuilder {
    let top = ChartBuilder::top(top_target, 10);
    top.state(0, 1, 2).state(1, 1, 2)
}

/// A chart that would start in 1, a parent, and rest there: 1 > {2 > 3, 4}.
fn composite_at_rest() -> Vec<u8> {
    ChartBuilder::top(1, 0)
        .state(0, 0, 12)
        .state(1, 21, 0)
        .initial(3, 0)
        .state(2, 0, 0)
        .state(1, 41, 42)
        .transition(1, 4, 2, 0)
        .internal(1, 5, 0)
        .transition(1, 6, 1, 0)
        .transition(2, 8, 4, 0)
        .transition(3, 7, 1, 37)
        .internal(4, 9, 49)
        .transition(4, 10, 2, 40)
        .bytes()
}

fn shortened(mut bytes: Vec<u8>, length: usize) -> Vec<u8> {
    bytes.truncate(length);
    bytes
}

fn extended(bytes: Vec<u8>, more: &[u8]) -> Vec<u8> {
    [&bytes, more].concat()
}

/// Class 1; a length of 8 is a length of class 2, as no state follows.
fn lengths() -> Vec<BadChart> {
    vec![
        chart("length_0", 1, vec![]),
        chart("length_1", 1, vec![3]),
        chart("length_7", 1, shortened(good::shift(), 7)),
        chart("length_8", 2, shortened(good::shift(), 8)),
        chart("length_9", 1, shortened(good::shift(), 9)),
        chart("length_103", 1, shortened(good::shift(), 103)),
    ]
}

/// Class 1 around the length of the fullest chart.
fn great_lengths() -> Vec<BadChart> {
    let one_row = [2, 24, 31, 0, 0, 1, 0, 0];
    vec![
        chart("length_5575", 1, shortened(good::full(), 5_575)),
        chart("length_5577", 1, extended(good::full(), &[0])),
        chart("length_5584", 1, extended(good::full(), &one_row)),
        chart("length_11152", 1, extended(good::full(), &good::full())),
    ]
}

/// Class 2: unknown kinds and kinds out of order.
fn kinds() -> Vec<BadChart> {
    let unknown = |kind| [kind, 0, 0, 0, 0, 0, 0, 0];
    let top = [3, 1, 10, 0, 0, 0, 0, 0];
    let state = [1, 0, 1, 2, 0, 0, 0, 0];
    let records = |records: &[[u8; 8]]| records.concat();
    vec![
        chart("kind_0_first", 2, records(&[unknown(0), state])),
        chart("kind_4_first", 2, records(&[unknown(4), state])),
        chart("kind_0_last", 2, four_states().record(unknown(0)).bytes()),
        chart("kind_4_last", 2, four_states().record(unknown(4)).bytes()),
        chart("kind_255_last", 2, four_states().record([255; 8]).bytes()),
        chart("kind_0_inside", 2, records(&[top, unknown(0), state])),
        chart("no_top", 2, records(&[state, state])),
        chart("row_first", 2, records(&[[2, 1, 4, 0, 0, 9, 0, 0], state])),
        chart("top_twice", 2, records(&[top, top, state])),
        chart("top_after_state", 2, records(&[top, state, top])),
        chart("top_last", 2, records(&[state, top])),
        chart(
            "top_after_row",
            2,
            four_states().internal(1, 4, 9).record(top).bytes(),
        ),
        chart(
            "row_before_state",
            2,
            ChartBuilder::top(1, 10)
                .internal(1, 4, 9)
                .state(0, 1, 2)
                .bytes(),
        ),
        chart(
            "state_after_row",
            2,
            four_states().internal(1, 4, 9).state(0, 1, 2).bytes(),
        ),
    ]
}

/// Class 2: each filler byte of each kind of record in turn; byte 6 of a row is one in edition one alone.
fn fillers() -> Vec<BadChart> {
    const NAMES: [(&str, usize, u8); 8] = [
        ("filler_3_of_top", 3, 1),
        ("filler_4_of_top", 4, 128),
        ("filler_5_of_top", 5, 1),
        ("filler_6_of_top", 6, 255),
        ("filler_7_of_top", 7, 1),
        ("filler_6_of_state", 8 + 6, 1),
        ("filler_7_of_state", 8 + 7, 255),
        ("filler_7_of_row", 16 + 7, 1),
    ];
    let spoil = |(name, place, value)| {
        let mut bytes = flat_states(1).internal(1, 4, 9).bytes();
        bytes[place] = value;
        chart(name, 2, bytes)
    };
    NAMES.into_iter().map(spoil).collect()
}

/// Class 2: no state, or more than 24.
fn state_counts() -> Vec<BadChart> {
    vec![
        chart(
            "rows_without_state",
            2,
            flat_states(0).internal(1, 4, 9).bytes(),
        ),
        chart("states_25", 2, flat_states(25).bytes()),
        chart("states_255", 2, flat_states(255).bytes()),
        chart("states_257", 2, flat_states(257).bytes()),
    ]
}

/// Class 3: parents and levels.
fn nestings() -> Vec<BadChart> {
    vec![
        chart("parent_is_itself", 3, four_states().state(5, 1, 2).bytes()),
        chart("parent_absent", 3, four_states().state(6, 1, 2).bytes()),
        chart("parent_255", 3, four_states().state(255, 1, 2).bytes()),
        chart(
            "parent_of_first_is_itself",
            3,
            ChartBuilder::top(1, 10).state(1, 1, 2).bytes(),
        ),
        chart(
            "parent_comes_later",
            3,
            flat_states(1)
                .state(3, 1, 2)
                .state(0, 1, 2)
                .initial(2, 3)
                .bytes(),
        ),
        chart(
            "parents_in_a_ring",
            3,
            ChartBuilder::top(1, 10)
                .state(2, 1, 2)
                .initial(2, 3)
                .state(1, 1, 2)
                .initial(1, 3)
                .bytes(),
        ),
        chart("levels_7", 3, nested_states(7).bytes()),
        chart(
            "levels_7_after_a_good_branch",
            3,
            nested_states(6)
                .initial(8, 3)
                .state(0, 1, 2)
                .state(6, 1, 2)
                .bytes(),
        ),
    ]
}

/// Class 3: initial targets and actions, of states and of the top.
fn initials() -> Vec<BadChart> {
    let fifth = |parent, target, action| {
        let state = four_states().state(parent, 1, 2);
        state.initial(target, action).bytes()
    };
    let innermost = |target| nested_states(3).initial(target, 9).bytes();
    vec![
        chart("initial_to_itself", 3, fifth(0, 5, 9)),
        chart("initial_to_parent", 3, innermost(2)),
        chart("initial_to_outermost", 3, innermost(1)),
        chart("initial_to_sibling", 3, fifth(1, 3, 9)),
        chart("initial_to_other_tree", 3, fifth(0, 2, 0)),
        chart("initial_absent", 3, fifth(0, 6, 9)),
        chart("initial_255", 3, fifth(0, 255, 0)),
        chart("initial_action_alone", 3, fifth(0, 0, 9)),
        chart(
            "initial_to_later_sibling",
            3,
            four_states()
                .state(1, 1, 2)
                .initial(6, 9)
                .state(1, 1, 2)
                .bytes(),
        ),
        chart(
            "top_target_0",
            3,
            ChartBuilder::top(0, 10).state(0, 1, 2).bytes(),
        ),
        chart(
            "top_target_0_without_action",
            3,
            ChartBuilder::top(0, 0).state(0, 1, 2).bytes(),
        ),
        chart(
            "top_target_absent",
            3,
            ChartBuilder::top(2, 10).state(0, 1, 2).bytes(),
        ),
        chart(
            "top_target_255",
            3,
            ChartBuilder::top(255, 10).state(0, 1, 2).bytes(),
        ),
    ]
}

/// Class 3: a state that is another state's parent and has no initial target.
pub fn missing_starts() -> Vec<BadChart> {
    let three_levels = nested_states(3).bytes();
    let six_levels = nested_states(6).bytes();
    vec![
        chart("no_start", 3, no_start(1).bytes()),
        chart("no_start_in_1_of_shift", 3, without_start(good::shift(), 1)),
        chart("no_start_in_3_of_shift", 3, without_start(good::shift(), 3)),
        chart(
            "no_start_in_outer_parent",
            3,
            without_start(three_levels.clone(), 1),
        ),
        chart(
            "no_start_in_inner_parent",
            3,
            without_start(three_levels, 2),
        ),
        chart(
            "no_start_at_level_5",
            3,
            without_start(six_levels.clone(), 5),
        ),
        chart(
            "no_start_at_any_level",
            3,
            (1..6).fold(six_levels, without_start),
        ),
        chart(
            "no_start_in_top_target",
            3,
            ChartBuilder::top(2, 10)
                .state(0, 1, 2)
                .state(0, 1, 2)
                .state(2, 1, 2)
                .bytes(),
        ),
        chart("no_start_around_top_target", 3, no_start(2).bytes()),
        chart(
            "no_start_out_of_reach",
            3,
            flat_states(2).state(2, 1, 2).bytes(),
        ),
        chart(
            "no_start_around_initial_target",
            3,
            flat_states(1)
                .initial(3, 9)
                .state(1, 1, 2)
                .state(2, 1, 2)
                .bytes(),
        ),
        chart(
            "no_start_beside_initial_target",
            3,
            four_states().state(3, 1, 2).bytes(),
        ),
        chart("composite_at_rest", 3, composite_at_rest()),
    ]
}

/// Class 3: the same beside each other fault of the class.
fn missing_starts_and_more() -> Vec<BadChart> {
    vec![
        chart(
            "no_start_and_parent_is_itself",
            3,
            no_start(1).state(3, 1, 2).bytes(),
        ),
        chart(
            "no_start_in_parent_that_comes_later",
            3,
            flat_states(1).state(3, 1, 2).state(0, 1, 2).bytes(),
        ),
        chart(
            "no_start_and_levels_7",
            3,
            without_start(nested_states(7).bytes(), 6),
        ),
        chart(
            "no_start_and_initial_to_itself",
            3,
            no_start(1).initial(2, 9).bytes(),
        ),
        chart(
            "no_start_and_initial_absent",
            3,
            no_start(1).initial(3, 9).bytes(),
        ),
        chart(
            "no_start_and_initial_action_alone",
            3,
            no_start(1).initial(0, 9).bytes(),
        ),
        chart(
            "initial_action_alone_in_composite",
            3,
            flat_states(1).initial(0, 255).state(1, 1, 2).bytes(),
        ),
        chart("no_start_and_top_target_0", 3, no_start(0).bytes()),
        chart("no_start_and_top_target_absent", 3, no_start(3).bytes()),
    ]
}

/// Class 4: one row with a field that is wrong.
fn row_fields() -> Vec<BadChart> {
    let row = |state, signal, kind, target| {
        let row = [2, state, signal, kind, target, 9, 0, 0];
        four_states().record(row).bytes()
    };
    vec![
        chart("row_state_0", 4, row(0, 4, 0, 0)),
        chart("row_state_absent", 4, row(5, 4, 0, 0)),
        chart("row_state_255", 4, row(255, 4, 1, 1)),
        chart("row_target_0", 4, row(1, 4, 1, 0)),
        chart("row_target_absent", 4, row(1, 4, 1, 5)),
        chart("row_target_255", 4, row(1, 4, 1, 255)),
        chart("row_signal_0", 4, row(1, 0, 0, 0)),
        chart("row_signal_3", 4, row(1, 3, 1, 1)),
        chart("row_signal_32", 4, row(1, 32, 1, 1)),
        chart("row_signal_255", 4, row(1, 255, 0, 0)),
        chart("row_kind_2", 4, row(1, 4, 2, 1)),
        chart("row_kind_2_without_target", 4, row(1, 4, 2, 0)),
        chart("row_kind_255", 4, row(1, 4, 255, 1)),
        chart("row_internal_with_target", 4, row(1, 4, 0, 2)),
        chart("row_internal_to_itself", 4, row(1, 4, 0, 1)),
        chart("row_internal_to_absent", 4, row(1, 4, 0, 5)),
    ]
}

/// Class 4: good rows in a wrong order.
fn row_orders() -> Vec<BadChart> {
    vec![
        chart(
            "rows_equal",
            4,
            four_states().internal(2, 5, 9).internal(2, 5, 9).bytes(),
        ),
        chart(
            "rows_for_one_signal_twice",
            4,
            four_states()
                .internal(2, 5, 9)
                .transition(2, 5, 1, 8)
                .bytes(),
        ),
        chart(
            "rows_with_signals_descending",
            4,
            four_states().internal(2, 6, 9).internal(2, 5, 9).bytes(),
        ),
        chart(
            "rows_with_states_descending",
            4,
            four_states().internal(2, 5, 9).internal(1, 6, 9).bytes(),
        ),
        chart(
            "rows_descending_at_the_end",
            4,
            four_states()
                .internal(1, 4, 9)
                .internal(1, 31, 9)
                .internal(4, 4, 9)
                .internal(3, 31, 9)
                .bytes(),
        ),
    ]
}

/// Class 3 with many states.
fn large_ones() -> Vec<BadChart> {
    let last_in = |parent| flat_states(23).state(parent, 1, 2).bytes();
    let without_19 = without_start(good::full(), 19);
    vec![
        chart("levels_24", 3, nested_states(24).bytes()),
        chart("no_start_in_19_of_full", 3, without_19),
        chart("no_start_in_23", 3, last_in(23)),
        chart("no_start_in_parent_of_24", 3, last_in(1)),
    ]
}

/// The fullest chart with one byte changed, at its far ends.
fn full_ones() -> Vec<BadChart> {
    let spoilt = |place: usize, value| {
        let mut bytes = good::full();
        bytes[place] = value;
        bytes
    };
    let last_record = 5_576 - 8;
    vec![
        chart("full_with_kind_of_last_row_3", 2, spoilt(last_record, 3)),
        chart("full_with_last_filler", 2, spoilt(last_record + 7, 1)),
        chart("full_with_top_target_25", 3, spoilt(1, 25)),
        chart("full_with_last_state_in_itself", 3, spoilt(8 * 24 + 1, 24)),
        chart("full_with_last_row_of_23", 4, spoilt(last_record + 1, 23)),
        chart("full_with_last_signal_30", 4, spoilt(last_record + 2, 30)),
        chart("full_with_last_target_25", 4, spoilt(last_record + 4, 25)),
    ]
}

/// Class 2: a row with what is a flag in edition two, a good one or not.
fn flags_as_fillers() -> Vec<BadChart> {
    let flag = |flag| four_states().internal(1, 4, 9).flag(flag).bytes();
    let wrong_row = four_states().internal(0, 4, 9).flag(1).bytes();
    vec![
        chart("filler_6_of_row_1", 2, flag(1)),
        chart("filler_6_of_row_8", 2, flag(8)),
        chart("filler_6_of_row_9", 2, flag(9)),
        chart("filler_6_of_row_255", 2, flag(255)),
        chart("filler_6_of_row_and_4", 2, wrong_row),
        chart("alarm_in_edition_one", 2, good::alarm()),
    ]
}

/// Faults of several classes: the lowest is reported, wherever it stands.
fn mixtures() -> Vec<BadChart> {
    let wrong_row = |chart: ChartBuilder| chart.internal(0, 4, 9);
    let unknown = [9, 0, 0, 0, 0, 0, 0, 0];
    let state_with_filler = [1, 0, 1, 2, 0, 0, 0, 7];
    let row_with_filler = [2, 4, 31, 0, 0, 9, 0, 7];
    vec![
        chart(
            "class_1_and_2",
            1,
            extended(four_states().record(unknown).bytes(), &[0]),
        ),
        chart("class_1_and_2_too_long", 1, vec![0; 5_584]),
        chart(
            "class_1_and_3",
            1,
            extended(ChartBuilder::top(0, 10).state(0, 1, 2).bytes(), &[2]),
        ),
        chart(
            "class_1_and_4",
            1,
            extended(wrong_row(four_states()).bytes(), &[2, 4, 4]),
        ),
        chart(
            "class_2_after_3",
            2,
            ChartBuilder::top(0, 10).record(state_with_filler).bytes(),
        ),
        chart(
            "class_2_by_count_and_3_by_levels",
            2,
            nested_states(25).bytes(),
        ),
        chart(
            "class_2_after_4",
            2,
            wrong_row(four_states()).record(unknown).bytes(),
        ),
        chart(
            "class_2_by_late_state_after_4",
            2,
            wrong_row(four_states()).state(0, 1, 2).bytes(),
        ),
        chart(
            "class_2_and_4_in_one_row",
            2,
            four_states().record([2, 9, 99, 9, 99, 9, 0, 1]).bytes(),
        ),
        chart(
            "class_2_and_3_in_the_first_record",
            2,
            ChartBuilder::empty()
                .record([3, 0, 1, 0, 0, 1, 0, 0])
                .state(0, 1, 2)
                .bytes(),
        ),
        chart(
            "class_3_and_4",
            3,
            wrong_row(four_states().state(9, 1, 2)).bytes(),
        ),
        chart(
            "class_3_by_top_and_4",
            3,
            wrong_row(ChartBuilder::top(2, 10).state(0, 1, 2)).bytes(),
        ),
        chart(
            "class_3_by_initial_and_4_by_order",
            3,
            four_states()
                .state(1, 1, 2)
                .initial(5, 0)
                .internal(2, 6, 9)
                .internal(2, 5, 9)
                .bytes(),
        ),
        chart(
            "class_3_by_levels_and_4_by_target",
            3,
            nested_states(7).transition(1, 4, 8, 9).bytes(),
        ),
        chart(
            "class_2_after_3_and_4",
            2,
            wrong_row(four_states().initial(4, 9))
                .record(row_with_filler)
                .bytes(),
        ),
        chart(
            "class_1_to_4",
            1,
            shortened(
                wrong_row(ChartBuilder::top(9, 1).record(state_with_filler)).bytes(),
                23,
            ),
        ),
    ]
}

/// A parent without an initial target beside faults of other classes.
fn mixtures_with_missing_starts() -> Vec<BadChart> {
    let unknown = [9, 0, 0, 0, 0, 0, 0, 0];
    let top_with_filler = [3, 1, 10, 7, 0, 0, 0, 0];
    let state_with_filler = [1, 0, 1, 2, 0, 0, 7, 0];
    let wrong_row = || no_start(1).internal(0, 4, 9);
    let too_long = extended(good::full(), &[2, 24, 31, 0, 0, 1, 0, 0]);
    vec![
        chart(
            "no_start_and_class_1",
            1,
            extended(no_start(1).bytes(), &[0]),
        ),
        chart(
            "no_start_and_class_1_too_long",
            1,
            without_start(too_long, 19),
        ),
        chart(
            "no_start_and_class_2_before",
            2,
            ChartBuilder::empty()
                .record(top_with_filler)
                .state(0, 1, 2)
                .state(1, 1, 2)
                .bytes(),
        ),
        chart(
            "no_start_and_class_2_in_one_state",
            2,
            ChartBuilder::top(1, 10)
                .record(state_with_filler)
                .state(1, 1, 2)
                .bytes(),
        ),
        chart(
            "no_start_and_class_2_after",
            2,
            no_start(1).record(unknown).bytes(),
        ),
        chart(
            "no_start_and_class_2_by_late_child",
            2,
            flat_states(1).internal(1, 4, 9).state(1, 1, 2).bytes(),
        ),
        chart(
            "no_start_and_class_2_by_count",
            2,
            flat_states(24).state(24, 1, 2).bytes(),
        ),
        chart("no_start_and_class_4", 3, wrong_row().bytes()),
        chart(
            "no_start_and_class_4_by_target",
            3,
            no_start(1).transition(1, 4, 3, 9).bytes(),
        ),
        chart(
            "no_start_and_class_4_by_order",
            3,
            no_start(1).internal(1, 6, 9).internal(1, 5, 9).bytes(),
        ),
        chart(
            "no_start_and_class_2_and_4",
            2,
            wrong_row().record(unknown).bytes(),
        ),
        chart(
            "no_start_and_class_1_to_4",
            1,
            extended(wrong_row().record(unknown).bytes(), &[2]),
        ),
    ]
}

#[cfg(test)]
mod tests {
    use super::*;
    use crate::chart::{check, flatten, Fault, GOOD};
    use crate::harness::starts::{missing, missing_is_the_only_fault};
    use std::collections::HashSet;

    /// Each edition's bad charts.
    fn all() -> impl Iterator<Item = (Edition, BadChart)> {
        let of = |edition| of(edition).into_iter().map(move |bad| (edition, bad));
        Edition::ALL.into_iter().flat_map(of)
    }

    #[test]
    fn the_model_agrees_with_the_classes_by_hand() {
        for (edition, bad) in all() {
            let class = check(edition, &bad.bytes);
            assert_eq!(class, bad.expected, "{edition:?} {}", bad.name);
        }
    }

    #[test]
    fn a_bad_chart_leaves_the_table_alone() {
        for (edition, bad) in all() {
            let mut table = vec![0xee; edition.table_bytes()];
            let answer = flatten(edition, &bad.bytes, &mut table);
            assert_eq!(answer, bad.expected, "{edition:?} {}", bad.name);
            assert!(table.iter().all(|&byte| byte == 0xee), "{}", bad.name);
        }
    }

    /// The charts in which a start is missing beside another fault.
    fn missing_beside_others() -> Vec<BadChart> {
        let mut charts = missing_starts_and_more();
        charts.extend(mixtures_with_missing_starts());
        charts
    }

    #[test]
    fn a_start_is_missing_alone_and_beside_others() {
        for edition in Edition::ALL {
            let alone = |bad: &BadChart| missing_is_the_only_fault(edition, &bad.bytes);
            for bad in missing_starts() {
                assert!(alone(&bad), "{}", bad.name);
            }
            for bad in missing_beside_others() {
                assert_ne!(missing(&bad.bytes), [], "{}", bad.name);
                assert!(!alone(&bad), "{}", bad.name);
            }
        }
    }

    /// A chart that is there for another fault must not be refused for this one.
    #[test]
    fn no_start_is_missing_in_other_bad_charts() {
        let own = [missing_starts(), missing_beside_others(), large_ones()];
        let own: HashSet<_> = own.iter().flatten().map(|bad| bad.name).collect();
        let others = all().filter(|(_, bad)| !own.contains(bad.name));
        for (_, bad) in others.filter(|(_, bad)| !bad.name.contains("no_start")) {
            assert_eq!(missing(&bad.bytes), [], "{}", bad.name);
        }
    }

    /// There it is good, or a fault of the rows.
    #[test]
    fn what_is_filler_in_edition_one_is_a_flag_in_edition_two() {
        for bad in flags_as_fillers() {
            let class = check(Edition::Guarded, &bad.bytes);
            assert!([GOOD, Fault::Rows.class()].contains(&class), "{}", bad.name);
        }
    }

    #[test]
    fn the_unspoilt_beginnings_are_good() {
        for edition in Edition::ALL {
            for beginning in [
                four_states(),
                flat_states(1),
                flat_states(edition.most_states()),
                nested_states(6),
            ] {
                assert_eq!(check(edition, &beginning.bytes()), GOOD);
            }
        }
    }
}
