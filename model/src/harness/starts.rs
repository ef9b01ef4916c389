//! Parents without an initial target, read from the bytes alone: the tests ask which charts have them.

use crate::chart::{check, Edition, Fault, GOOD, RECORD_BYTES};

/// Each parent without an initial target: where its record begins, and its first child.
pub fn missing(chart: &[u8]) -> Vec<(usize, u8)> {
    let records = (0..chart.len() / RECORD_BYTES).map(|record| record * RECORD_BYTES);
    let places = records.filter(|&place| chart[place] == 1);
    let states: Vec<(u8, usize)> = (1..=255).zip(places).collect();
    let first_child = |parent: u8| {
        let mut others = states.iter().filter(|(number, _)| *number != parent);
        let child = others.find(|(_, place)| chart[place + 1] == parent)?;
        Some(child.0)
    };
    let without_target = states.iter().filter(|(_, place)| chart[place + 4] == 0);
    without_target
        .filter_map(|&(number, place)| Some((place, first_child(number)?)))
        .collect()
}

/// Whether such parents are all that is wrong with a chart of the edition: a target for each makes it good.
pub fn missing_is_the_only_fault(edition: Edition, chart: &[u8]) -> bool {
    let missing = missing(chart);
    let mut mended = chart.to_vec();
    for (place, child) in &missing {
        mended[place + 4] = *child;
    }
    // An action without a target is a fault of its own, which the target would hide.
    let has_action = missing.iter().any(|(place, _)| chart[place + 5] != 0);
    let class = |chart: &[u8]| check(edition, chart);
    class(chart) == Fault::States.class() && class(&mended) == GOOD && !has_action
}
