//! The hard charts: good ones that try every rule of the step.
//! Those whose rows have flags stand in `guarded`.
//!
//! The comments write a > {b, c} for a state a that contains b and c. Where
//! nothing else is said, state s has entry 10 s + 1, exit 10 s + 2 and
//! initial action 10 s + 3, and the top has action 10.

mod guarded;

pub use guarded::{alarm, fullest_with_flags, rounds, six_flags};

use super::builder::ChartBuilder;
use crate::chart::{Edition, FIRST_SIGNAL, LAST_SIGNAL};

pub struct GoodChart {
    pub name: &'static str,
    pub bytes: Vec<u8>,
}

fn chart(name: &'static str, bytes: Vec<u8>) -> GoodChart {
    GoodChart { name, bytes }
}

/// All hard charts of an edition, in a fixed order. A small one without flags is good in both.
pub fn of(edition: Edition) -> Vec<GoodChart> {
    match edition {
        Edition::Plain => small_ones().into_iter().chain(large_ones()).collect(),
        Edition::Guarded => with_flags().into_iter().chain(small_ones()).collect(),
    }
}

/// The hard charts that edition two alone takes.
pub fn with_flags() -> Vec<GoodChart> {
    vec![
        chart("alarm", alarm()),
        chart("six_flags", six_flags()),
        chart("rounds", rounds()),
        chart("fullest_with_flags", fullest_with_flags()),
    ]
}

/// With at most 8 states.
fn small_ones() -> Vec<GoodChart> {
    vec![
        chart("shift", shift()),
        chart("smallest", smallest()),
        chart("six_levels", six_levels()),
        chart("self_at_top", self_at_top()),
        chart("around_and_inside", around_and_inside()),
        chart("actions_not_listed", actions_not_listed()),
        chart("many_tops", many_tops()),
    ]
}

/// With more.
fn large_ones() -> Vec<GoodChart> {
    vec![chart("full", full()), chart("eighteen", eighteen())]
}

/// The shift chart of document 01.
pub fn shift() -> Vec<u8> {
    ChartBuilder::top(1, 10)
        .state(0, 11, 12)
        .initial(2, 13)
        .state(1, 21, 22)
        .state(1, 31, 32)
        .initial(4, 33)
        .state(3, 41, 42)
        .state(3, 51, 52)
        .transition(1, 5, 1, 15)
        .transition(2, 6, 4, 26)
        .transition(3, 7, 2, 37)
        .transition(3, 8, 5, 38)
        .internal(4, 9, 49)
        .transition(4, 10, 3, 40)
        .transition(5, 11, 1, 59)
        .bytes()
}

/// One state without actions, and no row.
pub fn smallest() -> Vec<u8> {
    ChartBuilder::top(1, 0).state(0, 0, 0).bytes()
}

/// A chain of six: 1 > 2 > 3 > 4 > 5 > 6.
pub fn six_levels() -> Vec<u8> {
    ChartBuilder::top(1, 10)
        .state(0, 11, 12)
        .initial(3, 13)
        .state(1, 21, 22)
        .initial(6, 23) // not taken when 1's initial transition passes through 2
        .state(2, 31, 32)
        .initial(4, 33)
        .state(3, 41, 42)
        .initial(5, 43)
        .state(4, 51, 52)
        .initial(6, 53)
        .state(5, 61, 62)
        .internal(1, 4, 14) // hidden from inner states by the rows of 3 and 6
        .transition(1, 5, 6, 15)
        .transition(2, 6, 2, 25)
        .transition(3, 4, 5, 34)
        .transition(5, 31, 3, 59)
        .transition(6, 4, 4, 64)
        .transition(6, 7, 1, 67)
        .bytes()
}

/// 1 > {2 > {3 > {4 > 5 > 6, 7}, 8}, 9 > 10},
/// 11 > {12 > {13 > 14 > 15 > {16, 17}, 18}, 19 > 20}, 21 > 22 > 23, 24.
const FULL_PARENTS: [u8; 24] = [
    0, 1, 2, 3, 4, 5, 3, 2, 1, 9, 0, 11, 12, 13, 14, 15, 15, 12, 11, 19, 0, 21, 22, 0,
];

/// 1, 4 and 21 skip a level, 2 leads to another child than 1 goes through, and
/// every other parent to its first child.
const FULL_INITIAL_TARGETS: [u8; 24] = [
    3, 8, 4, 6, 6, 0, 0, 0, 10, 0, 12, 13, 14, 15, 16, 0, 0, 0, 20, 0, 23, 23, 0, 0,
];

/// The fullest chart: 24 states, each with a row for each signal. Every state
/// has a transition to every state, itself too, and four internal rows.
pub fn full() -> Vec<u8> {
    let mut chart = ChartBuilder::top(11, 255);
    let states = FULL_PARENTS.into_iter().zip(FULL_INITIAL_TARGETS);
    for (number, (parent, target)) in (1..).zip(states) {
        let initial_action = if target == 0 { 0 } else { 10 * number + 2 };
        chart = chart
            .state(parent, 10 * number, 10 * number + 1)
            .initial(target, initial_action);
    }
    for state in 1..=24u8 {
        for signal in FIRST_SIGNAL..=LAST_SIGNAL {
            // Wraps on purpose, and is 0 in a few rows.
            let action = state.wrapping_mul(29).wrapping_add(signal.wrapping_mul(9));
            chart = match (signal - FIRST_SIGNAL + state) % 28 {
                turn @ 0..=23 => chart.transition(state, signal, turn + 1, action),
                _ => chart.internal(state, signal, action),
            };
        }
    }
    chart.bytes()
}

/// Self transitions at level 1 and inside, also inherited: 1 > 2 > {3, 5}, 4, 6 > 7.
pub fn self_at_top() -> Vec<u8> {
    ChartBuilder::top(1, 10)
        .state(0, 11, 12)
        .initial(3, 13)
        .state(1, 21, 22)
        .initial(3, 23)
        .state(2, 31, 32)
        .state(0, 41, 42)
        .state(2, 51, 52)
        .state(0, 61, 62)
        .initial(7, 63)
        .state(6, 71, 72)
        .transition(1, 4, 1, 14)
        .transition(1, 8, 4, 18)
        .transition(2, 5, 2, 25)
        .transition(2, 7, 5, 27)
        .transition(3, 6, 3, 36)
        .transition(4, 7, 4, 47)
        .transition(4, 8, 7, 48)
        .transition(6, 8, 5, 68)
        .transition(6, 9, 6, 69)
        .bytes()
}

/// Targets around the source and inside it: 1 > {2 > 3 > {4, 5}, 6}.
pub fn around_and_inside() -> Vec<u8> {
    ChartBuilder::top(1, 10)
        .state(0, 11, 12)
        .initial(3, 13)
        .state(1, 21, 22)
        .initial(5, 23)
        .state(2, 31, 32)
        .initial(4, 33)
        .state(3, 41, 42)
        .state(3, 51, 52)
        .state(1, 61, 62)
        .transition(1, 7, 5, 17)
        .transition(1, 9, 2, 19)
        .transition(1, 12, 6, 16)
        .transition(2, 8, 3, 28)
        .transition(3, 10, 5, 30)
        .transition(3, 11, 1, 39)
        .transition(4, 4, 3, 44)
        .transition(4, 6, 1, 46)
        .transition(5, 5, 2, 55)
        .bytes()
}

/// The longest step and the longest start: two chains of six, 1 > ... > 6 and
/// 7 > ... > 12, each state with an initial transition to the next.
pub fn eighteen() -> Vec<u8> {
    let mut chart = ChartBuilder::top(1, 10);
    for number in 1..=12u8 {
        let parent = if number == 7 { 0 } else { number - 1 };
        chart = chart.state(parent, 10 * number + 1, 10 * number + 2);
        if number % 6 != 0 {
            chart = chart.initial(number + 1, 10 * number + 3);
        }
    }
    chart
        .transition(1, 4, 1, 14)
        .transition(1, 5, 7, 15)
        .transition(1, 7, 1, 0) // the same way with one action less
        .transition(6, 6, 7, 66)
        .transition(12, 5, 1, 125)
        .bytes()
}

/// Actions that are 0, down to a start without any: 1 > {2 > 3, 4, 5}.
pub fn actions_not_listed() -> Vec<u8> {
    ChartBuilder::top(1, 0)
        .state(0, 0, 12)
        .initial(5, 0)
        .state(1, 21, 0)
        .initial(3, 0)
        .state(2, 0, 0)
        .state(1, 41, 42)
        .state(1, 0, 0)
        .transition(1, 4, 2, 0)
        .internal(1, 5, 0)
        .transition(1, 6, 1, 0)
        .transition(2, 8, 4, 0)
        .transition(3, 7, 1, 37)
        .internal(4, 9, 49)
        .transition(4, 10, 2, 40)
        .bytes()
}

/// Three trees, so that no state contains source and target: 1 > 2, 3 > 4 > 5, 6.
/// The top target lies inside, and state and row numbers have gaps between them.
pub fn many_tops() -> Vec<u8> {
    ChartBuilder::top(4, 10)
        .state(0, 11, 12)
        .initial(2, 13)
        .state(1, 21, 22)
        .state(0, 31, 32)
        .initial(4, 33) // not taken at the start, which passes through 3
        .state(3, 41, 42)
        .initial(5, 43)
        .state(4, 51, 52)
        .state(0, 61, 62)
        .transition(1, 31, 6, 19)
        .transition(3, 4, 2, 34)
        .transition(5, 4, 1, 54)
        .transition(5, 20, 6, 50)
        .transition(6, 4, 4, 64)
        .transition(6, 31, 5, 69)
        .bytes()
}

#[cfg(test)]
mod tests {
    use super::*;
    use crate::chart::{parse, Chart, Flags, Outcome, MOST_ACTIONS};
    use crate::harness::sound_rows::rows_may_stand;

    fn chart(bytes: Vec<u8>) -> Chart {
        parse(Edition::Plain, &bytes).expect("a hard chart is good")
    }

    fn assert_start(chart: &Chart, next: u8, actions: &[u8]) {
        let start = chart.start();
        assert_eq!((start.next, &start.actions[..]), (next, actions));
    }

    /// A transition worked out by hand from the documents.
    fn assert_moves(chart: &Chart, (rest, signal): (u8, u8), next: u8, actions: &[u8]) {
        assert_step(chart, (rest, signal), Outcome::Transition, next, actions);
    }

    fn assert_step(chart: &Chart, by: (u8, u8), outcome: Outcome, next: u8, actions: &[u8]) {
        let step = chart.step(by.0, by.1, &Flags::default());
        assert_eq!(
            (step.outcome, step.next, &step.actions[..]),
            (outcome, next, actions),
            "{} by {}",
            by.0,
            by.1
        );
    }

    #[test]
    fn every_hard_chart_is_good_and_its_rows_are_sound() {
        for edition in Edition::ALL {
            for good in of(edition) {
                let chart = parse(edition, &good.bytes);
                let chart = chart.unwrap_or_else(|fault| panic!("{}: {:?}", good.name, fault));
                assert!(rows_may_stand(edition, &chart), "{}", good.name);
            }
        }
    }

    #[test]
    fn six_levels_steps() {
        let chart = chart(six_levels());
        assert_start(&chart, 6, &[10, 11, 13, 21, 31, 33, 41, 43, 51, 53, 61]);
        assert_moves(&chart, (4, 4), 6, &[34, 42, 41, 51, 53, 61]);
        assert_moves(&chart, (6, 4), 6, &[64, 62, 52, 43, 51, 53, 61]);
        assert_step(&chart, (2, 4), Outcome::Internal, 2, &[14]);
        let down_again = [15, 62, 52, 42, 32, 22, 21, 31, 41, 51, 61];
        assert_moves(&chart, (6, 5), 6, &down_again);
        assert_moves(&chart, (4, 5), 6, &[15, 42, 32, 22, 21, 31, 41, 51, 61]);
        let by_initial = [25, 62, 52, 42, 32, 22, 21, 23, 31, 41, 51, 61];
        assert_moves(&chart, (6, 6), 6, &by_initial);
        let around = [67, 62, 52, 42, 32, 22, 13, 21, 31, 33, 41, 43, 51, 53, 61];
        assert_moves(&chart, (6, 7), 6, &around);
        let to_third = [59, 62, 52, 42, 33, 41, 43, 51, 53, 61];
        assert_moves(&chart, (6, 31), 6, &to_third);
        assert_step(&chart, (4, 7), Outcome::Ignored, 4, &[]);
    }

    #[test]
    fn full_has_every_row() {
        let bytes = full();
        assert_eq!(bytes.len(), 5_576);
        let chart = chart(bytes);
        assert_eq!(chart.state_count(), 24);
        assert_start(&chart, 16, &full_start());
        for state in chart.numbers() {
            let flags = Flags::default();
            let signals = FIRST_SIGNAL..=LAST_SIGNAL;
            let outcomes = signals.map(|g| chart.step(state, g, &flags).outcome);
            let internal = outcomes.filter(|o| *o == Outcome::Internal).count();
            assert_eq!(internal, 4);
        }
    }

    /// 11 to 16, each by the initial transition of the one before.
    fn full_start() -> [u8; 12] {
        [255, 110, 112, 120, 122, 130, 132, 140, 142, 150, 152, 160]
    }

    #[test]
    fn full_steps() {
        let chart = chart(full());
        // Turn (4 - 4 + 1) % 28 = 1: a transition to 2, action 29 + 36; 2's initial target is 8.
        assert_moves(&chart, (1, 4), 8, &[65, 20, 22, 80]);
        // Turn (31 - 4 + 6) % 28 = 5: the self transition of 6, action 174 + 279 - 256.
        assert_moves(&chart, (6, 31), 6, &[197, 61, 60]);
        // Turn (30 - 4 + 6) % 28 = 4: to 5 around 6, action 174 + 270 - 256, and in again.
        assert_moves(&chart, (6, 30), 6, &[188, 61, 52, 60]);
        // Turn (27 - 4 + 24) % 28 = 19: from 24 to 20, action 696 + 243 - 768.
        assert_moves(&chart, (24, 27), 20, &[171, 241, 110, 190, 200]);
        // Turn (26 - 4 + 24) % 28 = 18: from 24 to 19, action 696 + 234 - 768, and on to 20.
        assert_moves(&chart, (24, 26), 20, &[162, 241, 110, 190, 192, 200]);
        // Turn (31 - 4 + 19) % 28 = 18: the self transition of 19, action 551 + 279 - 768.
        assert_moves(&chart, (19, 31), 20, &[62, 191, 190, 192, 200]);
        // Turn (4 - 4 + 24) % 28 = 24: internal, action 696 + 36 - 512.
        assert_step(&chart, (24, 4), Outcome::Internal, 24, &[220]);
    }

    #[test]
    fn self_at_top_steps() {
        let chart = chart(self_at_top());
        assert_start(&chart, 3, &[10, 11, 13, 21, 31]);
        assert_moves(&chart, (3, 4), 3, &[14, 32, 22, 12, 11, 13, 21, 31]);
        assert_moves(&chart, (1, 4), 3, &[14, 12, 11, 13, 21, 31]);
        assert_moves(&chart, (5, 5), 3, &[25, 52, 22, 21, 23, 31]);
        assert_moves(&chart, (3, 6), 3, &[36, 32, 31]);
        assert_moves(&chart, (4, 7), 4, &[47, 42, 41]);
        assert_moves(&chart, (4, 8), 7, &[48, 42, 61, 71]);
        assert_moves(&chart, (7, 9), 7, &[69, 72, 62, 61, 63, 71]);
        assert_moves(&chart, (6, 9), 7, &[69, 62, 61, 63, 71]);
        assert_moves(&chart, (7, 8), 5, &[68, 72, 62, 11, 21, 51]);
    }

    #[test]
    fn around_and_inside_steps() {
        let chart = chart(around_and_inside());
        assert_start(&chart, 4, &[10, 11, 13, 21, 31, 33, 41]);
        assert_moves(&chart, (4, 4), 4, &[44, 42, 33, 41]);
        assert_moves(&chart, (5, 5), 5, &[55, 52, 32, 23, 31, 51]);
        assert_moves(&chart, (4, 6), 4, &[46, 42, 32, 22, 13, 21, 31, 33, 41]);
        assert_moves(&chart, (4, 7), 5, &[17, 42, 32, 22, 21, 31, 51]);
        assert_moves(&chart, (6, 7), 5, &[17, 62, 21, 31, 51]);
        assert_moves(&chart, (1, 7), 5, &[17, 21, 31, 51]);
        assert_moves(&chart, (5, 8), 4, &[28, 52, 32, 31, 33, 41]);
        assert_moves(&chart, (6, 9), 5, &[19, 62, 21, 23, 31, 51]);
        assert_moves(&chart, (5, 10), 5, &[30, 52, 51]);
        assert_moves(&chart, (5, 11), 4, &[39, 52, 32, 22, 13, 21, 31, 33, 41]);
        assert_moves(&chart, (6, 12), 6, &[16, 62, 61]);
    }

    #[test]
    fn eighteen_steps() {
        let chart = chart(eighteen());
        let down = [11, 13, 21, 23, 31, 33, 41, 43, 51, 53, 61];
        let up = [62, 52, 42, 32, 22, 12];
        let other_down = [71, 73, 81, 83, 91, 93, 101, 103, 111, 113, 121];
        let other_up = [122, 112, 102, 92, 82, 72];
        let way = |action: &[u8], up: &[u8], down: &[u8]| [action, up, down].concat();

        let longest = way(&[14], &up, &down);
        assert_eq!(longest.len(), MOST_ACTIONS);
        assert_moves(&chart, (6, 4), 6, &longest);
        assert_moves(&chart, (6, 5), 12, &way(&[15], &up, &other_down));
        assert_moves(&chart, (6, 6), 12, &way(&[66], &up, &other_down));
        assert_moves(&chart, (6, 7), 6, &way(&[], &up, &down));
        assert_moves(&chart, (12, 5), 6, &way(&[125], &other_up, &down));
        assert_start(&chart, 6, &way(&[10], &[], &down));
    }

    #[test]
    fn actions_not_listed_steps() {
        let chart = chart(actions_not_listed());
        assert_start(&chart, 5, &[]);
        assert_moves(&chart, (1, 4), 3, &[21]);
        assert_moves(&chart, (3, 4), 3, &[21]);
        assert_moves(&chart, (5, 4), 3, &[21]);
        assert_step(&chart, (3, 5), Outcome::Internal, 3, &[]);
        assert_moves(&chart, (1, 6), 5, &[12]);
        assert_moves(&chart, (3, 6), 5, &[12]);
        assert_moves(&chart, (5, 6), 5, &[12]);
        assert_moves(&chart, (3, 7), 5, &[37]);
        assert_moves(&chart, (3, 8), 4, &[41]);
        assert_step(&chart, (4, 9), Outcome::Internal, 4, &[49]);
        assert_moves(&chart, (4, 10), 3, &[40, 42, 21]);
    }

    #[test]
    fn many_tops_steps() {
        let chart = chart(many_tops());
        assert_start(&chart, 5, &[10, 31, 41, 43, 51]);
        assert_moves(&chart, (5, 4), 2, &[54, 52, 42, 32, 11, 13, 21]);
        assert_moves(&chart, (4, 4), 2, &[34, 42, 32, 11, 21]);
        assert_moves(&chart, (5, 20), 6, &[50, 52, 42, 32, 61]);
        assert_moves(&chart, (2, 31), 6, &[19, 22, 12, 61]);
        assert_moves(&chart, (6, 4), 5, &[64, 62, 31, 41, 43, 51]);
        assert_moves(&chart, (6, 31), 5, &[69, 62, 31, 41, 51]);
    }
}
