//! The cases of the program `chart_cases`: the stream that it reads, its file `stdin`, and the text
//! that it must write, its file `stdout`.

use super::random::RandomCharts;
use super::report::{listed_rows, table_sum};
use super::{bad, good};
use crate::chart::{flatten, Edition, GOOD};
use std::io::{self, Write};

/// What the program fills a table with, so that a byte which is written shows.
const FILL: u8 = 170;

const RANDOM_SEED: u64 = 1;
const RANDOM_COUNT: usize = 60;

/// A chart, the edition whose calls it is given to, and whether the rows of its table are written out.
struct Case {
    shows_rows: bool,
    edition: Edition,
    chart: Vec<u8>,
}

/// First those of edition one, of which the program keeps the first chart.
fn all() -> Vec<Case> {
    Edition::ALL.into_iter().flat_map(of).collect()
}

/// The good charts, then the bad ones and the random ones.
/// Of a random chart the sum is enough: the rows of all would make a long text.
fn of(edition: Edition) -> Vec<Case> {
    let case = |shows_rows, chart| Case {
        shows_rows,
        edition,
        chart,
    };
    let good = good::of(edition).into_iter();
    let bad = bad::of(edition).into_iter();
    let random = RandomCharts::new(edition, RANDOM_SEED).take(RANDOM_COUNT);
    good.map(|good| case(true, good.bytes))
        .chain(bad.map(|bad| case(true, bad.bytes)))
        .chain(random.map(|chart| case(false, chart)))
        .collect()
}

impl Case {
    /// The byte before a chart: 1 for the rows, 2 for edition two.
    fn marks(&self) -> u8 {
        let is_guarded = self.edition == Edition::Guarded;
        u8::from(self.shows_rows) + 2 * u8::from(is_guarded)
    }
}

/// For each case one byte for what is asked, the chart's length with its low byte first, and the chart.
pub fn write_input(out: &mut impl Write) -> io::Result<()> {
    for case in all() {
        let length = u16::try_from(case.chart.len()).expect("two bytes hold a length");
        out.write_all(&[case.marks()])?;
        out.write_all(&length.to_le_bytes())?;
        out.write_all(&case.chart)?;
    }
    Ok(())
}

/// The answer to each case, and then to the first chart with tables of other lengths, by the calls of both editions.
pub fn write_expected(out: &mut impl Write) -> io::Result<()> {
    let cases = all();
    for case in &cases {
        write_answer(out, case)?;
    }
    let first = &cases[0].chart;
    for length in [0, 16_151, 16_153] {
        write!(out, "length ")?;
        write_length(out, Edition::Plain, first, length)?;
    }
    for length in [0, 16_152, 32_279, 32_281] {
        write!(out, "guarded length ")?;
        write_length(out, Edition::Guarded, first, length)?;
    }
    Ok(())
}

fn write_answer(out: &mut impl Write, case: &Case) -> io::Result<()> {
    let mut table = vec![FILL; case.edition.table_bytes()];
    let class = flatten(case.edition, &case.chart, &mut table);
    writeln!(out, "class {class}")?;
    if class == GOOD && case.shows_rows {
        for row in listed_rows(&table) {
            writeln!(out, "{row}")?;
        }
    }
    writeln!(out, "sum {}", table_sum(&table))
}

/// The answer for a table of that length, and what the table holds then.
fn write_length(
    out: &mut impl Write,
    edition: Edition,
    chart: &[u8],
    length: usize,
) -> io::Result<()> {
    let mut table = vec![FILL; length];
    let answer = flatten(edition, chart, &mut table);
    writeln!(out, "{length} answer {answer} sum {}", table_sum(&table))
}

#[cfg(test)]
mod tests {
    use super::*;
    use crate::chart::check;
    use crate::harness::starts::missing_is_the_only_fault;
    use std::collections::HashSet;

    fn expected() -> String {
        let mut out = Vec::new();
        write_expected(&mut out).expect("a vector takes all");
        String::from_utf8(out).expect("plain text")
    }

    fn answer(case: &Case) -> String {
        let mut out = Vec::new();
        write_answer(&mut out, case).expect("a vector takes all");
        String::from_utf8(out).expect("plain text")
    }

    /// The sum of a table that still holds what it was filled with: 170 times 1 + 2 + ... + length.
    fn untouched_sum(length: u64) -> u64 {
        170 * length * (length + 1) / 2 % (1 << 32)
    }

    #[test]
    fn the_stream_begins_with_the_shift_chart() {
        let mut out = Vec::new();
        write_input(&mut out).expect("a vector takes all");
        let shift = good::shift();
        assert_eq!(out[..3], [1, 104, 0]);
        assert_eq!(out[3..3 + shift.len()], shift);
    }

    #[test]
    fn a_good_chart_shows_its_rows() {
        let text = expected();
        assert!(text.starts_with("class 0\n0: 2 2 4 10 11 13 21\n48: 2 2 5 15 12 11 13 21\n"));
        assert!(text.contains("\n2136: 5 2 3 38 42 51\n"));
    }

    #[test]
    fn a_chart_of_edition_two_shows_its_flags() {
        let alarm = Case {
            shows_rows: true,
            edition: Edition::Guarded,
            chart: good::alarm(),
        };
        assert_eq!(alarm.marks(), 3);
        let text = answer(&alarm);
        assert!(text.contains("\n12696: 4 1 1 49 flag 1\n12720: 5 2 3 38 42 51 flag 2\n"));
        assert!(text.contains("\n12744: 2 2 7 15 42 32 12 11 13 21\n"));
    }

    #[test]
    fn each_chart_has_its_marks() {
        let marks: HashSet<u8> = all().iter().map(Case::marks).collect();
        assert_eq!(marks, HashSet::from([0, 1, 2, 3]));
    }

    #[test]
    fn a_refused_chart_shows_an_untouched_table() {
        for (edition, length) in [(Edition::Plain, 16_152), (Edition::Guarded, 32_280)] {
            let refused = Case {
                shows_rows: true,
                edition,
                chart: vec![],
            };
            let sum = untouched_sum(length);
            assert_eq!(answer(&refused), format!("class 1\nsum {sum}\n"));
        }
    }

    #[test]
    fn tables_of_other_lengths_come_last() {
        let text = expected();
        let lines: Vec<_> = text.lines().collect();
        let asked = [
            ("length", 0),
            ("length", 16_151),
            ("length", 16_153),
            ("guarded length", 0),
            ("guarded length", 16_152),
            ("guarded length", 32_279),
            ("guarded length", 32_281),
        ];
        let last_lines = &lines[lines.len() - asked.len()..];
        for (line, (name, length)) in last_lines.iter().zip(asked) {
            let sum = untouched_sum(length);
            assert_eq!(*line, format!("{name} {length} answer 5 sum {sum}"));
        }
    }

    #[test]
    fn the_random_charts_are_of_every_class_and_some_only_lack_a_start() {
        for edition in Edition::ALL {
            let cases = of(edition);
            let random = cases.iter().filter(|case| !case.shows_rows);
            let charts: Vec<_> = random.map(|case| &case.chart).collect();
            assert_eq!(charts.len(), RANDOM_COUNT);
            for class in 0..=4 {
                assert!(charts.iter().any(|chart| check(edition, chart) == class));
            }
            let lacks_a_start = |chart: &&Vec<u8>| missing_is_the_only_fault(edition, chart);
            assert!(charts.iter().any(lacks_a_start));
        }
    }
}
