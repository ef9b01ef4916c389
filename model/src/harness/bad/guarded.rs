//! Bad charts of edition two: what its rules add.

use super::super::builder::ChartBuilder;
use super::super::good;
use super::{
    chart, extended, flat_states, four_states, nested_states, no_start, without_start, BadChart,
};

/// By class, then those with faults of several classes.
pub fn all() -> Vec<BadChart> {
    let classes = [
        lengths(),
        state_counts(),
        fillers(),
        missing_starts(),
        flags(),
        orders(),
        spoilt_ones(),
        mixtures(),
        mixtures_with_flags(),
        mixtures_with_flags_and_states(),
    ];
    classes.into_iter().flatten().collect()
}

/// A row that is good but for its flag, if that is above 8.
fn flagged(chart: ChartBuilder, flag: u8) -> ChartBuilder {
    chart.internal(1, 4, 9).flag(flag)
}

/// Class 1 is the same length in both editions, though no good chart of edition two comes near it.
fn lengths() -> Vec<BadChart> {
    let fullest = good::fullest_with_flags();
    let row_again = [2, 8, 31, 0, 0, 1, 1, 0];
    let missing = (5_576 - fullest.len()) / row_again.len();
    let longest = extended(fullest.clone(), &row_again.repeat(missing));
    vec![
        chart("flags_length_1865", 1, extended(fullest, &[0])),
        chart("flags_length_5576", 4, longest.clone()),
        chart("flags_length_5577", 1, extended(longest.clone(), &[0])),
        chart("flags_length_5584", 1, extended(longest, &row_again)),
    ]
}

/// Class 2: a ninth state, also where edition one takes it.
fn state_counts() -> Vec<BadChart> {
    vec![
        chart("states_9", 2, flat_states(9).bytes()),
        chart(
            "states_9_nested",
            2,
            nested_states(6)
                .state(0, 1, 2)
                .state(0, 1, 2)
                .state(0, 1, 2)
                .bytes(),
        ),
        chart("states_9_with_rows", 2, flagged(flat_states(9), 1).bytes()),
        chart("states_24", 2, flat_states(24).bytes()),
        chart("eighteen_in_edition_two", 2, good::eighteen()),
        chart("full_in_edition_two", 2, good::full()),
    ]
}

/// Class 2: the byte behind the flag, whatever the flag.
fn fillers() -> Vec<BadChart> {
    let row = |flag, filler| {
        four_states()
            .record([2, 1, 4, 0, 0, 9, flag, filler])
            .bytes()
    };
    let first_of_two = four_states()
        .record([2, 1, 4, 0, 0, 9, 1, 1])
        .internal(1, 5, 9)
        .bytes();
    vec![
        chart("filler_7_behind_flag_1", 2, row(1, 1)),
        chart("filler_7_behind_flag_8", 2, row(8, 255)),
        chart("filler_7_behind_flag_9", 2, row(9, 9)),
        chart("filler_7_of_first_row", 2, first_of_two),
    ]
}

/// Class 3: a flag does not stand in for a start.
fn missing_starts() -> Vec<BadChart> {
    vec![
        chart(
            "alarm_with_no_start_in_3",
            3,
            without_start(good::alarm(), 3),
        ),
        chart(
            "six_flags_with_no_start_in_5",
            3,
            without_start(good::six_flags(), 5),
        ),
        chart(
            "states_8_with_no_start_in_7",
            3,
            flat_states(7).state(7, 1, 2).bytes(),
        ),
    ]
}

/// Class 4: a flag above 8.
fn flags() -> Vec<BadChart> {
    let transition = four_states().transition(4, 31, 2, 9).flag(9).bytes();
    let second = flagged(four_states(), 8).internal(1, 5, 9).flag(9).bytes();
    let first = flagged(four_states(), 9).internal(1, 5, 9).flag(8).bytes();
    vec![
        chart("flag_9", 4, flagged(four_states(), 9).bytes()),
        chart("flag_10", 4, flagged(four_states(), 10).bytes()),
        chart("flag_128", 4, flagged(four_states(), 128).bytes()),
        chart("flag_255", 4, flagged(four_states(), 255).bytes()),
        chart("flag_9_of_transition", 4, transition),
        chart("flag_9_of_second_row", 4, second),
        chart("flag_9_of_first_row", 4, first),
        chart(
            "flag_9_of_row_state_0",
            4,
            four_states().internal(0, 4, 9).flag(9).bytes(),
        ),
        chart(
            "flag_1_of_row_state_0",
            4,
            four_states().internal(0, 4, 9).flag(1).bytes(),
        ),
        chart(
            "flag_1_of_row_target_absent",
            4,
            four_states().transition(1, 4, 5, 9).flag(1).bytes(),
        ),
        chart(
            "flag_1_of_row_signal_32",
            4,
            four_states().internal(1, 32, 9).flag(1).bytes(),
        ),
        chart(
            "flag_1_of_internal_with_target",
            4,
            four_states().record([2, 1, 4, 0, 2, 9, 1, 0]).bytes(),
        ),
    ]
}

/// Class 4: a state has one row for a signal, whatever the flags.
fn orders() -> Vec<BadChart> {
    let two = |first, second| flagged(flagged(four_states(), first), second).bytes();
    let descending = four_states()
        .internal(2, 5, 9)
        .flag(1)
        .internal(1, 6, 9)
        .flag(2)
        .bytes();
    vec![
        chart("rows_for_one_signal_with_two_flags", 4, two(1, 2)),
        chart("rows_for_one_signal_with_one_flag", 4, two(3, 3)),
        chart("rows_for_one_signal_with_and_without_flag", 4, two(1, 0)),
        chart("rows_for_one_signal_without_and_with_flag", 4, two(0, 8)),
        chart("rows_with_flags_descending", 4, descending),
    ]
}

/// The fullest chart of the edition with one byte changed, at its far ends.
fn spoilt_ones() -> Vec<BadChart> {
    let spoilt = |place: usize, value| {
        let mut bytes = good::fullest_with_flags();
        bytes[place] = value;
        bytes
    };
    let last_state = 8 * 8;
    let last_row = good::fullest_with_flags().len() - 8;
    vec![
        chart(
            "fullest_with_filler_of_last_state",
            2,
            spoilt(last_state + 6, 1),
        ),
        chart("fullest_with_last_filler", 2, spoilt(last_row + 7, 1)),
        chart(
            "fullest_with_first_row_as_state",
            2,
            spoilt(last_state + 8, 1),
        ),
        chart("fullest_with_top_target_9", 3, spoilt(1, 9)),
        chart(
            "fullest_with_last_state_in_itself",
            3,
            spoilt(last_state + 1, 8),
        ),
        chart("fullest_with_last_row_of_9", 4, spoilt(last_row + 1, 9)),
        chart("fullest_with_last_target_9", 4, spoilt(last_row + 4, 9)),
        chart(
            "fullest_with_first_flag_9",
            4,
            spoilt(last_state + 8 + 6, 9),
        ),
        chart("fullest_with_last_flag_9", 4, spoilt(last_row + 6, 9)),
    ]
}

/// A ninth state beside faults of other classes.
fn mixtures() -> Vec<BadChart> {
    let ninth_in_itself = flat_states(8).state(9, 1, 2).bytes();
    let wrong_row = flat_states(9).internal(0, 4, 9).bytes();
    vec![
        chart(
            "states_9_and_class_1",
            1,
            extended(flat_states(9).bytes(), &[0]),
        ),
        chart("states_9_and_class_3", 2, ninth_in_itself),
        chart(
            "states_9_and_class_3_by_levels",
            2,
            nested_states(9).bytes(),
        ),
        chart(
            "states_9_and_no_start",
            2,
            flat_states(8).state(8, 1, 2).bytes(),
        ),
        chart("states_9_and_class_4", 2, wrong_row),
        chart("states_9_and_flag_9", 2, flagged(flat_states(9), 9).bytes()),
    ]
}

/// A flag above 8 beside faults of lower classes that stand in records.
fn mixtures_with_flags() -> Vec<BadChart> {
    let top_with_filler = [3, 1, 10, 0, 0, 0, 9, 0];
    let state_with_filler = [1, 0, 1, 2, 0, 0, 9, 0];
    let in_top = ChartBuilder::empty().record(top_with_filler).state(0, 1, 2);
    let in_state = ChartBuilder::top(1, 10).record(state_with_filler);
    let with_flag = |chart| flagged(chart, 9).bytes();
    let after = flagged(four_states(), 9).record([2, 1, 5, 0, 0, 9, 0, 1]);
    let late_state = flagged(four_states(), 9).state(0, 1, 2);
    let cut = extended(with_flag(four_states()), &[2]);
    vec![
        chart("flag_9_and_class_1", 1, cut),
        chart("flag_9_and_class_2_in_top", 2, with_flag(in_top)),
        chart("flag_9_and_class_2_in_state", 2, with_flag(in_state)),
        chart("flag_9_and_class_2_after", 2, after.bytes()),
        chart("flag_9_and_class_2_by_late_state", 2, late_state.bytes()),
    ]
}

/// A flag, above 8 or not, beside faults of class 3.
fn mixtures_with_flags_and_states() -> Vec<BadChart> {
    let absent_parent = four_states().state(9, 1, 2);
    let absent_target = ChartBuilder::top(2, 10).state(0, 1, 2);
    let with_flag = |chart| flagged(chart, 9).bytes();
    vec![
        chart("flag_9_and_class_3", 3, with_flag(absent_parent)),
        chart("flag_9_and_class_3_by_top", 3, with_flag(absent_target)),
        chart(
            "flag_9_and_class_3_by_levels",
            3,
            with_flag(nested_states(7)),
        ),
        chart("flag_9_and_no_start", 3, with_flag(no_start(1))),
        chart("flag_1_and_no_start", 3, flagged(no_start(1), 1).bytes()),
    ]
}
