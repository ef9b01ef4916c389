//! How charts and tables are written out as text.

use super::random::RandomCharts;
use super::{bad, good};
use crate::chart::{check, parse, Chart, Edition, Outcome, ROW_BYTES};
use std::io::{self, Write};

/// The sum of (index + 1) times byte over a table, modulo 2 to the 32.
pub fn table_sum(table: &[u8]) -> u32 {
    (1u32..).zip(table).fold(0, |sum, (weight, &byte)| {
        sum.wrapping_add(weight.wrapping_mul(u32::from(byte)))
    })
}

/// For each hard chart of an edition, the rows of its table that are not ignored, and the sum.
pub fn write_rows(out: &mut impl Write, edition: Edition) -> io::Result<()> {
    for chart in good::of(edition) {
        let parsed = parse(edition, &chart.bytes).expect("a hard chart is good");
        writeln!(out, "chart {} states {}", chart.name, parsed.state_count())?;
        write_table(out, &parsed)?;
    }
    Ok(())
}

fn write_table(out: &mut impl Write, chart: &Chart) -> io::Result<()> {
    let table = chart.table();
    for row in listed_rows(&table) {
        writeln!(out, "row {row}")?;
    }
    writeln!(out, "sum {}", table_sum(&table))
}

/// The rows that are not ignored, each in words: where it begins, its bytes up to the last action, and its flag.
pub fn listed_rows(table: &[u8]) -> impl Iterator<Item = String> + '_ {
    let offsets = (0..).step_by(ROW_BYTES);
    let rows = offsets.zip(table.chunks(ROW_BYTES));
    let listed = rows.filter(|(_, row)| row[1] != Outcome::Ignored as u8);
    listed.map(|(offset, row)| {
        let bytes = spaced(&row[..3 + usize::from(row[2])]);
        match row[21] {
            0 => format!("{offset}:{bytes}"),
            flag => format!("{offset}:{bytes} flag {flag}"),
        }
    })
}

/// The bytes in decimal, each after a space.
pub fn spaced(bytes: &[u8]) -> String {
    bytes.iter().map(|byte| format!(" {byte}")).collect()
}

/// The bytes up to the last that is not 0.
pub fn without_zeros(bytes: &[u8]) -> &[u8] {
    let last = bytes.iter().rposition(|&byte| byte != 0);
    &bytes[..last.map_or(0, |last| last + 1)]
}

/// The class that the model gives each bad chart of an edition.
pub fn write_classes(out: &mut impl Write, edition: Edition) -> io::Result<()> {
    for chart in bad::of(edition) {
        writeln!(out, "{} {}", chart.name, check(edition, &chart.bytes))?;
    }
    Ok(())
}

/// Random charts of an edition, one per line: class, bytes, sum of the table.
pub fn write_random(
    out: &mut impl Write,
    edition: Edition,
    seed: u64,
    count: usize,
) -> io::Result<()> {
    for bytes in RandomCharts::new(edition, seed).take(count) {
        let (class, sum) = match parse(edition, &bytes) {
            Ok(chart) => (0, table_sum(&chart.table())),
            Err(fault) => (fault.class(), 0),
        };
        writeln!(out, "{class} {} {sum}", hex(&bytes))?;
    }
    Ok(())
}

/// Two digits for each byte, `-` for none.
fn hex(bytes: &[u8]) -> String {
    if bytes.is_empty() {
        return String::from("-");
    }
    bytes.iter().map(|byte| format!("{byte:02x}")).collect()
}

#[cfg(test)]
mod tests {
    use super::*;

    #[test]
    fn sums_weigh_each_byte_by_its_place() {
        assert_eq!(table_sum(&[]), 0);
        assert_eq!(table_sum(&[7]), 7);
        assert_eq!(table_sum(&[1, 0, 10, 255]), 1 + 30 + 1020);
    }

    #[test]
    fn spaced_bytes() {
        assert_eq!(spaced(&[]), "");
        assert_eq!(spaced(&[0, 10, 255]), " 0 10 255");
    }

    #[test]
    fn bytes_without_zeros() {
        assert_eq!(without_zeros(&[]), []);
        assert_eq!(without_zeros(&[0, 0]), []);
        assert_eq!(without_zeros(&[0, 5, 0, 6, 0]), [0, 5, 0, 6]);
    }

    #[test]
    fn hex_of_bytes() {
        assert_eq!(hex(&[]), "-");
        assert_eq!(hex(&[0, 10, 255]), "000aff");
    }

    fn rows_written(edition: Edition) -> String {
        let mut out = Vec::new();
        write_rows(&mut out, edition).expect("a vector takes all");
        String::from_utf8(out).expect("plain text")
    }

    #[test]
    fn rows_of_the_shift_chart_come_first() {
        let text = rows_written(Edition::Plain);
        let lines: Vec<_> = text.lines().take(3).collect();
        assert_eq!(lines[0], "chart shift states 5");
        assert_eq!(lines[1], "row 0: 2 2 4 10 11 13 21");
        // State 1 by signal 5, its self transition.
        assert_eq!(lines[2], "row 48: 2 2 5 15 12 11 13 21");
        assert!(text.contains("\nrow 2136: 5 2 3 38 42 51\n"));
    }

    /// In edition two the alarm's do, with their flags.
    #[test]
    fn rows_of_the_alarm_chart_come_first() {
        let text = rows_written(Edition::Guarded);
        let lines: Vec<_> = text.lines().take(10).collect();
        let expected = [
            "chart alarm states 5",
            "row 0: 2 2 4 10 11 13 21",
            "row 600: 2 2 5 15 12 11 13 21",
            "row 4632: 2 2 6 15 22 12 11 13 21",
            "row 8664: 5 2 2 38 51 flag 2",
            "row 8688: 2 2 6 15 32 12 11 13 21",
            "row 12696: 4 1 1 49 flag 1",
            "row 12720: 5 2 3 38 42 51 flag 2",
            "row 12744: 2 2 7 15 42 32 12 11 13 21",
            "row 16728: 5 2 3 38 52 51 flag 2",
        ];
        assert_eq!(lines, expected);
    }
}
