//! The cases that were written by hand from documents 01 and 02 for the proved kernel.

use super::*;
use crate::harness::traces::show::told_bytes;
use crate::kernel::command::COMMAND_NAMES;
use crate::kernel::replay::Program;

const CASES: &str = include_str!("../../../../crates/doc_cases/stdin");
const LONGER_THAN_A_CHART: &[u8] = include_bytes!("../../../../crates/doc_cases/data/chart1");
const FULL: &[u8] = include_bytes!("../../../../crates/doc_cases/data/chart2");

fn charts() -> Charts {
    [
        shift(),
        LONGER_THAN_A_CHART.to_vec(),
        FULL.to_vec(),
        Vec::new(),
        Vec::new(),
    ]
}

/// The record of a line, as the crate `words` tells how one is written.
fn record_of(command: &str) -> Vec<u8> {
    let mut words = command.split(' ');
    let name = words.next().expect("a name or a number");
    let numbers = words.enumerate();
    let mut bytes: Vec<u8> = numbers
        .flat_map(|(place, number)| bytes_of(number, width(name, place)))
        .collect();
    if name == "PIECE" {
        return bytes;
    }
    if name == "NEW" && bytes.len() > 2 {
        // The payload stands behind all arguments.
        bytes.splice(2..2, [0; 5]);
    }
    bytes.insert(0, number_of(name));
    bytes.resize(RECORD_BYTES, 0);
    bytes
}

/// How many bytes a number has that stands at this place behind a name: a generation three, ticks and interval two.
fn width(name: &str, place: usize) -> usize {
    match (name, place) {
        ("POST" | "POSTFRONT" | "PUBLISH" | "HOLD" | "RELEASE" | "DROP" | "READ", 1) => 3,
        ("ARM", 3 | 4) => 2,
        _ => 1,
    }
}

/// So many bytes, low byte first.
fn bytes_of(number: &str, width: usize) -> Vec<u8> {
    let number: u32 = number.parse().expect("a number");
    let four_bytes = number.to_le_bytes();
    let (bytes, rest) = four_bytes.split_at(width);
    assert!(rest.iter().all(|&byte| byte == 0), "{number} is too large");
    bytes.to_vec()
}

fn number_of(name: &str) -> u8 {
    match COMMAND_NAMES.iter().position(|known| *known == name) {
        Some(index) => index as u8 + 1,
        None => name.parse().expect("a name or a number"),
    }
}

/// The record of a chart that a line writes out, if it does.
fn chart_record_of(line: &str) -> Option<[u8; 8]> {
    let (name, numbers) = line.split_once(' ')?;
    let kind = ["STATE", "ROW", "TOP"]
        .iter()
        .position(|known| *known == name)?;
    let mut record = [kind as u8 + 1, 0, 0, 0, 0, 0, 0, 0];
    for (byte, number) in record[1..].iter_mut().zip(numbers.split(' ')) {
        *byte = number.parse().expect("a number");
    }
    Some(record)
}

/// The model and whoever wrote the cases read the documents alike. The records of a chart between two commands are lent
/// with the second; a LOAD with none before it has its slot's file.
#[test]
fn the_written_cases() {
    let mut program = Program::fresh(charts());
    let mut chart = Vec::new();
    for line in CASES.lines().filter(|line| !line.starts_with('#')) {
        if line == "FRESH" {
            program = Program::fresh(charts());
            chart.clear();
        }
        chart.extend(chart_record_of(line).into_iter().flatten());
        let Some((command, _)) = line.split_once('=') else {
            continue;
        };
        let record = record_of(command.trim());
        let answered = match &chart[..] {
            [] => program.answer(&record),
            written => program.answer_with(&record, written),
        };
        assert_eq!(format!("{command}={}", told_bytes(&answered)), line);
        chart.clear();
    }
}
