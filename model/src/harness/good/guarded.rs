//! Hard charts of edition two, whose rows have flags.

use super::super::builder::ChartBuilder;
use crate::chart::{FIRST_SIGNAL, LAST_SIGNAL};

/// The states of the shift chart with three rows for signal 8, two of them with a flag.
pub fn alarm() -> Vec<u8> {
    ChartBuilder::top(1, 10)
        .state(0, 11, 12)
        .initial(2, 13)
        .state(1, 21, 22)
        .state(1, 31, 32)
        .initial(4, 33)
        .state(3, 41, 42)
        .state(3, 51, 52)
        .transition(1, 8, 1, 15)
        .transition(3, 8, 5, 38)
        .flag(2)
        .internal(4, 8, 49)
        .flag(1)
        .bytes()
}

/// A chain of six, 1 > ... > 6, in which 6 alone can be the rest. For signal 4 all six have a row with a flag of its own;
/// for 5 and 6 a row without one ends the search, at the outermost state and before it; for 7 two rows share a flag;
/// for 8 the longest step there is has a flag.
pub fn six_flags() -> Vec<u8> {
    chain_of_six()
        .internal(1, 4, 14)
        .flag(1)
        .transition(1, 5, 1, 15)
        .internal(1, 6, 16) // hidden by the row of 3
        .flag(1)
        .transition(1, 8, 1, 18)
        .flag(5)
        .internal(2, 4, 24)
        .flag(2)
        .transition(2, 5, 3, 25)
        .flag(7)
        .internal(2, 7, 27)
        .flag(3)
        .internal(3, 4, 34)
        .flag(3)
        .internal(3, 6, 36)
        .internal(4, 4, 44)
        .flag(4)
        .transition(4, 5, 6, 45)
        .flag(8)
        .internal(5, 4, 54)
        .flag(5)
        .transition(5, 6, 5, 56)
        .flag(2)
        .internal(5, 7, 57)
        .flag(3)
        .internal(6, 4, 64)
        .flag(6)
        .internal(6, 5, 65)
        .flag(7)
        .bytes()
}

/// Each state has an initial transition to the next.
fn chain_of_six() -> ChartBuilder {
    let outer = (1..6).fold(ChartBuilder::top(1, 10), |chart, number| {
        chart
            .state(number - 1, 10 * number + 1, 10 * number + 2)
            .initial(number + 1, 10 * number + 3)
    });
    outer.state(5, 61, 62)
}

/// Flags that lead round through five states of rest: 1 > {2, 3}, 4 > {5 > {6, 7}, 8}.
pub fn rounds() -> Vec<u8> {
    two_trees()
        .transition(1, 4, 4, 14)
        .flag(1)
        .internal(1, 5, 15)
        .transition(2, 4, 3, 24)
        .flag(2)
        .internal(2, 5, 25)
        .flag(3)
        .transition(3, 4, 2, 34)
        .transition(3, 6, 7, 36)
        .flag(8)
        .transition(4, 4, 1, 44)
        .transition(4, 5, 8, 45)
        .flag(4)
        .transition(5, 4, 7, 54)
        .flag(5)
        .transition(5, 6, 5, 56)
        .flag(1)
        .transition(6, 4, 8, 64)
        .flag(6)
        .internal(6, 5, 65)
        .flag(1)
        .transition(7, 4, 6, 74)
        .flag(7)
        .transition(8, 5, 3, 85)
        .flag(2)
        .transition(8, 6, 4, 86)
        .bytes()
}

/// The states of the chart above.
fn two_trees() -> ChartBuilder {
    ChartBuilder::top(1, 10)
        .state(0, 11, 12)
        .initial(2, 13)
        .state(1, 21, 22)
        .state(1, 31, 32)
        .state(0, 41, 42)
        .initial(5, 43)
        .state(4, 51, 52)
        .initial(6, 53)
        .state(5, 61, 62)
        .state(5, 71, 72)
        .state(4, 81, 82)
}

/// Parent, and initial target: 1 > 2 > 3 > {4 > 5 > 6, 7}, 8. 1, 2 and 4 skip a level, and 2 leads to another child of 3
/// than 3 itself.
const FULLEST_STATES: [(u8, u8); 8] = [
    (0, 3),
    (1, 7),
    (2, 4),
    (3, 6),
    (4, 6),
    (5, 0),
    (3, 0),
    (0, 0),
];

/// The fullest chart of edition two: eight states, each with a row for each signal; one flag in nine is none.
pub fn fullest_with_flags() -> Vec<u8> {
    let mut chart = ChartBuilder::top(1, 255);
    for (number, (parent, target)) in (1..).zip(FULLEST_STATES) {
        let initial_action = if target == 0 { 0 } else { 10 * number + 2 };
        chart = chart
            .state(parent, 10 * number, 10 * number + 1)
            .initial(target, initial_action);
    }
    for state in 1..=8u8 {
        for signal in FIRST_SIGNAL..=LAST_SIGNAL {
            // Wraps on purpose.
            let action = state.wrapping_mul(29).wrapping_add(signal.wrapping_mul(9));
            let row = match (signal - FIRST_SIGNAL + state) % 10 {
                turn @ 0..=7 => chart.transition(state, signal, turn + 1, action),
                _ => chart.internal(state, signal, action),
            };
            chart = row.flag((4 * state + signal) % 9);
        }
    }
    chart.bytes()
}

#[cfg(test)]
mod tests {
    use super::*;
    use crate::chart::{parse, Chart, Edition, Flags, Outcome, MOST_ACTIONS};
    use Outcome::*;

    fn chart(bytes: Vec<u8>) -> Chart {
        parse(Edition::Guarded, &bytes).expect("a hard chart is good")
    }

    /// The step with these flags up, which was worked out by hand.
    fn assert_step(
        chart: &Chart,
        (rest, signal): (u8, u8),
        up: &[u8],
        (outcome, next, actions): (Outcome, u8, &[u8]),
    ) {
        let mut flags = Flags::default();
        for &flag in up {
            flags.set(flag, true);
        }
        let step = chart.step(rest, signal, &flags);
        assert_eq!(
            (step.outcome, step.next, &step.actions[..]),
            (outcome, next, actions),
            "{rest} by {signal} with {up:?}"
        );
    }

    /// The action of the transition comes before all exits.
    #[test]
    fn alarm_steps() {
        let chart = chart(alarm());
        let start = chart.start();
        assert_eq!((start.next, &start.actions[..]), (2, &[10, 11, 13, 21][..]));
        let by_row_of_1: &[u8] = &[15, 42, 32, 12, 11, 13, 21];
        assert_step(&chart, (4, 8), &[], (Transition, 2, by_row_of_1));
        assert_step(&chart, (4, 8), &[1], (Internal, 4, &[49]));
        assert_step(&chart, (4, 8), &[2], (Transition, 5, &[38, 42, 51]));
        assert_step(&chart, (4, 8), &[1, 2], (Internal, 4, &[49]));
        assert_step(
            &chart,
            (4, 8),
            &[3, 4, 5, 6, 7, 8],
            (Transition, 2, by_row_of_1),
        );
        assert_step(&chart, (5, 8), &[2], (Transition, 5, &[38, 52, 51]));
        let from_5: &[u8] = &[15, 52, 32, 12, 11, 13, 21];
        assert_step(&chart, (5, 8), &[1], (Transition, 2, from_5));
        let from_2: &[u8] = &[15, 22, 12, 11, 13, 21];
        assert_step(&chart, (2, 8), &[1, 2], (Transition, 2, from_2));
        assert_step(&chart, (4, 9), &[1, 2], (Ignored, 4, &[]));
    }

    #[test]
    fn six_flags_steps() {
        let chart = chart(six_flags());
        // For signal 4 each flag alone leads to its own state's row, and of several up the innermost counts.
        assert_step(&chart, (6, 4), &[], (Ignored, 6, &[]));
        assert_step(&chart, (6, 4), &[7, 8], (Ignored, 6, &[]));
        for state in 1..=6 {
            let action = 10 * state + 4;
            assert_step(&chart, (6, 4), &[state], (Internal, 6, &[action]));
            let up: Vec<u8> = (1..=state).collect();
            assert_step(&chart, (6, 4), &up, (Internal, 6, &[action]));
        }
        // For signal 5 the row of 1 stands behind three with a flag.
        let out_and_in: &[u8] = &[
            15, 62, 52, 42, 32, 22, 12, 11, 13, 21, 23, 31, 33, 41, 43, 51, 53, 61,
        ];
        assert_eq!(out_and_in.len(), MOST_ACTIONS);
        assert_step(&chart, (6, 5), &[], (Transition, 6, out_and_in));
        let to_6: &[u8] = &[45, 62, 52, 51, 61];
        assert_step(&chart, (6, 5), &[8], (Transition, 6, to_6));
        assert_step(&chart, (6, 5), &[7], (Internal, 6, &[65]));
        let to_3: &[u8] = &[25, 52, 42, 32, 31, 33, 41, 43, 51, 53, 61];
        assert_step(&chart, (5, 5), &[7], (Transition, 6, to_3));
        // For signal 6 the row of 3 has no flag, so that of 1 is never asked from inside it.
        assert_step(&chart, (6, 6), &[], (Internal, 6, &[36]));
        assert_step(&chart, (6, 6), &[1], (Internal, 6, &[36]));
        let again: &[u8] = &[56, 62, 52, 51, 53, 61];
        assert_step(&chart, (6, 6), &[1, 2], (Transition, 6, again));
        assert_step(&chart, (2, 6), &[1], (Internal, 2, &[16]));
        // For signal 7 two rows have flag 3, and the inner one hides the other.
        assert_step(&chart, (6, 7), &[1, 2], (Ignored, 6, &[]));
        assert_step(&chart, (6, 7), &[3], (Internal, 6, &[57]));
        // For signal 8 the 18 actions have a flag.
        let with_18: Vec<u8> = [&[18], &out_and_in[1..]].concat();
        assert_step(&chart, (6, 8), &[4], (Ignored, 6, &[]));
        assert_step(&chart, (6, 8), &[5], (Transition, 6, &with_18));
    }

    #[test]
    fn rounds_steps() {
        let chart = chart(rounds());
        let (moves, stays) = (Transition, Internal);
        assert_step(&chart, (2, 4), &[], (Ignored, 2, &[]));
        let into_4: &[u8] = &[14, 22, 12, 41, 43, 51, 53, 61];
        assert_step(&chart, (2, 4), &[1], (moves, 6, into_4));
        assert_step(&chart, (2, 4), &[1, 2], (moves, 3, &[24, 22, 31]));
        assert_step(&chart, (2, 5), &[], (stays, 2, &[15]));
        assert_step(&chart, (2, 5), &[3], (stays, 2, &[25]));
        assert_step(&chart, (3, 4), &[1, 2], (moves, 2, &[34, 32, 21]));
        let to_7: &[u8] = &[36, 32, 12, 41, 51, 71];
        assert_step(&chart, (3, 6), &[8], (moves, 7, to_7));
        assert_step(&chart, (3, 6), &[7], (Ignored, 3, &[]));
        let to_1: &[u8] = &[44, 62, 52, 42, 11, 13, 21];
        assert_step(&chart, (6, 4), &[], (moves, 2, to_1));
        assert_step(&chart, (6, 4), &[5], (moves, 7, &[54, 62, 71]));
        assert_step(&chart, (6, 4), &[5, 6], (moves, 8, &[64, 62, 52, 81]));
        assert_step(&chart, (6, 5), &[], (Ignored, 6, &[]));
        assert_step(&chart, (6, 5), &[4], (moves, 8, &[45, 62, 52, 81]));
        assert_step(&chart, (6, 5), &[1, 4], (stays, 6, &[65]));
        let again: &[u8] = &[56, 62, 52, 51, 53, 61];
        assert_step(&chart, (6, 6), &[1], (moves, 6, again));
        assert_step(&chart, (7, 4), &[7], (moves, 6, &[74, 72, 61]));
        assert_step(&chart, (7, 4), &[5, 6], (moves, 7, &[54, 72, 71]));
        assert_step(&chart, (8, 5), &[2], (moves, 3, &[85, 82, 42, 11, 31]));
        assert_step(&chart, (8, 5), &[4], (moves, 8, &[45, 82, 81]));
        assert_step(&chart, (8, 5), &[2, 4], (moves, 3, &[85, 82, 42, 11, 31]));
        let down_again: &[u8] = &[86, 82, 43, 51, 53, 61];
        assert_step(&chart, (8, 6), &[], (moves, 6, down_again));
    }

    #[test]
    fn fullest_with_flags_steps() {
        let bytes = fullest_with_flags();
        assert_eq!(bytes.len(), 8 * (1 + 8 + 8 * 28));
        let chart = chart(bytes);
        // Into 1, to 3 past 2, to 4, to 6 past 5.
        let start: &[u8] = &[255, 10, 12, 20, 30, 32, 40, 42, 50, 60];
        assert_eq!((chart.start().next, &chart.start().actions[..]), (6, start));
        // Signal 4: flags (4 s + 4) % 9 of 6, 5, 4, 3, 2, 1 are 1, 6, 2, 7, 3, 8, so nothing is taken without one.
        assert_step(&chart, (6, 4), &[], (Ignored, 6, &[]));
        // Turn (0 + 6) % 10: 6 to 7, action 174 + 36, and flag 1.
        assert_step(
            &chart,
            (6, 4),
            &[1],
            (Transition, 7, &[210, 61, 51, 41, 70]),
        );
        // Turn (0 + 1) % 10: 1 to 2, action 29 + 36, flag 8; from 2 on to 7.
        let to_2: &[u8] = &[65, 61, 51, 41, 31, 21, 20, 22, 30, 70];
        assert_step(&chart, (6, 4), &[8], (Transition, 7, to_2));
        // Signal 8: flag (4 x 7 + 8) % 9 of 7 is 0. Turn (4 + 7) % 10: 7 to 2, action 203 + 72 - 256; from 2 on to 7.
        assert_step(
            &chart,
            (7, 8),
            &[],
            (Transition, 7, &[19, 71, 31, 22, 30, 70]),
        );
        // The last row of all, turn (27 + 8) % 10: 8 to 6, action 232 + 279 - 256, flag (32 + 31) % 9 = 0.
        let from_8: &[u8] = &[255, 81, 10, 20, 30, 40, 50, 60];
        assert_step(&chart, (8, 31), &[], (Transition, 6, from_8));
    }
}
