//! Test inputs: hard charts, bad charts, random charts, random traces, frames, and how they are written out.

pub mod bad;
pub mod builder;
pub mod cases;
pub mod files;
pub mod frames;
pub mod good;
pub mod program;
pub mod random;
pub mod report;
#[cfg(test)]
mod sound_rows;
#[cfg(test)]
mod starts;
pub mod traces;

use crate::chart::Edition;

/// The good charts of an edition, then its bad ones, with their names.
fn named_charts(edition: Edition) -> Vec<(&'static str, Vec<u8>)> {
    let good = good::of(edition).into_iter();
    let bad = bad::of(edition).into_iter();
    let good = good.map(|chart| (chart.name, chart.bytes));
    good.chain(bad.map(|chart| (chart.name, chart.bytes)))
        .collect()
}

/// The bytes of the good or bad chart of that name.
pub fn bytes_of(name: &str) -> Option<Vec<u8>> {
    let all = Edition::ALL.into_iter().flat_map(named_charts);
    let mut found = all.filter(|(known, _)| *known == name);
    found.next().map(|(_, bytes)| bytes)
}

/// The names of all charts of an edition.
pub fn names(edition: Edition) -> Vec<&'static str> {
    let charts = named_charts(edition).into_iter();
    charts.map(|(name, _)| name).collect()
}

#[cfg(test)]
mod tests {
    use super::*;
    use std::collections::HashSet;

    #[test]
    fn each_name_is_used_once_in_an_edition() {
        for edition in Edition::ALL {
            let names = names(edition);
            let distinct: HashSet<_> = names.iter().collect();
            assert_eq!(distinct.len(), names.len());
        }
    }

    /// What has one name in both editions is one chart.
    #[test]
    fn a_name_tells_the_bytes() {
        for (name, bytes) in Edition::ALL.into_iter().flat_map(named_charts) {
            assert_eq!(bytes_of(name), Some(bytes), "{name}");
        }
    }

    #[test]
    fn charts_are_found_by_name() {
        assert_eq!(bytes_of("shift"), Some(good::shift()));
        assert_eq!(bytes_of("length_0"), Some(Vec::new()));
        assert_eq!(bytes_of("no such chart"), None);
    }
}
