//! The flat table: the rows of a chart written out, and how they are read.

use super::{
    parse, Chart, Edition, Flags, Outcome, Row, Step, FIRST_SIGNAL, GOOD, LAST_SIGNAL,
    MOST_ACTIONS, NO_FLAG, ROW_BYTES, SIGNALS, WRONG_TABLE,
};
use std::ops::Range;

/// Where the actions of a row begin, and where its flag stands, behind room for 18 of them.
const ACTIONS: usize = 3;
const FLAG: usize = ACTIONS + MOST_ACTIONS;

/// The answer of the flattener; the table is written only when it is 0.
pub fn flatten(edition: Edition, bytes: &[u8], table: &mut [u8]) -> u32 {
    match parse(edition, bytes) {
        Err(fault) => fault.class(),
        Ok(_) if table.len() != edition.table_bytes() => WRONG_TABLE,
        Ok(chart) => {
            table.copy_from_slice(&chart.table());
            GOOD
        }
    }
}

/// Where the rows for a state and a signal stand in a table; the start row stands before all.
pub fn rows_place(edition: Edition, state: u8, signal: u8) -> Range<usize> {
    let pairs_before = SIGNALS * (usize::from(state) - 1) + usize::from(signal - FIRST_SIGNAL);
    let length = ROW_BYTES * edition.rows_each();
    let begin = ROW_BYTES + length * pairs_before;
    begin..begin + length
}

impl Chart {
    /// As long as a table of its edition; rows of absent states are zeros.
    pub fn table(&self) -> Vec<u8> {
        let mut table = vec![0; self.edition.table_bytes()];
        table[..ROW_BYTES].copy_from_slice(&flat(&self.start(), NO_FLAG));
        for state in self.numbers() {
            for signal in FIRST_SIGNAL..=LAST_SIGNAL {
                let places = &mut table[rows_place(self.edition, state, signal)];
                let places = places.chunks_exact_mut(ROW_BYTES);
                for (place, row) in places.zip(self.flat_rows(state, signal)) {
                    place.copy_from_slice(&row);
                }
            }
        }
        table
    }

    /// The rows for a state and a signal that are not zeros.
    fn flat_rows(&self, state: u8, signal: u8) -> Vec<[u8; ROW_BYTES]> {
        let rows = self.rows_in_question(state, signal);
        if rows.is_empty() && self.edition == Edition::Plain {
            // In edition one a row says that the signal is ignored, in edition two that none does.
            return vec![flat(&Step::ignored(state), NO_FLAG)];
        }
        let flat_row = |row: &Row| flat(&self.step_by(row, state), row.flag);
        rows.into_iter().map(flat_row).collect()
    }

    /// The rows outward up to and with the first without a flag: behind it none is ever asked.
    fn rows_in_question(&self, state: u8, signal: u8) -> Vec<&Row> {
        let mut rows: Vec<&Row> = self.rows_outward(state, signal).collect();
        if let Some(last) = rows.iter().position(|row| row.flag == NO_FLAG) {
            rows.truncate(last + 1);
        }
        rows
    }
}

fn flat(step: &Step, flag: u8) -> [u8; ROW_BYTES] {
    let mut row = [0; ROW_BYTES];
    row[0] = step.next;
    row[1] = step.outcome as u8;
    row[2] = step.actions.len() as u8;
    row[ACTIONS..ACTIONS + step.actions.len()].copy_from_slice(&step.actions);
    row[FLAG] = flag;
    row
}

/// Whether a row of a table of that edition may be acted on.
pub fn sound(edition: Edition, row: &[u8]) -> bool {
    let Ok(row) = <&[u8; ROW_BYTES]>::try_from(row) else {
        return false;
    };
    let [next, outcome, count, ..] = *row;
    let is_zero = |bytes: &[u8]| bytes.iter().all(|&byte| byte == 0);
    (1..=edition.most_states()).contains(&usize::from(next))
        && outcome <= Outcome::Transition as u8
        && usize::from(count) <= MOST_ACTIONS
        && is_zero(&row[ACTIONS + usize::from(count)..FLAG])
        && row[FLAG] <= edition.highest_flag()
        && is_zero(&row[FLAG + 1..])
}

/// What a sound row says; an action within its count may be 0.
#[derive(Clone, Debug, PartialEq, Eq)]
pub struct FlatRow {
    pub next: u8,
    pub outcome: u8,
    pub actions: Vec<u8>,
    pub flag: u8,
}

impl FlatRow {
    /// Nothing for a row that is not sound.
    fn read(edition: Edition, row: &[u8]) -> Option<Self> {
        sound(edition, row).then(|| FlatRow {
            next: row[0],
            outcome: row[1],
            actions: row[ACTIONS..ACTIONS + usize::from(row[2])].to_vec(),
            flag: row[FLAG],
        })
    }

    /// What is done where no row is taken.
    pub fn ignored(rest: u8) -> Self {
        FlatRow {
            next: rest,
            outcome: Outcome::Ignored as u8,
            actions: Vec::new(),
            flag: NO_FLAG,
        }
    }
}

/// The start row, which is taken whatever the flags: nothing if it is not sound, or has a flag.
pub fn read_start(edition: Edition, table: &[u8]) -> Option<FlatRow> {
    let row = FlatRow::read(edition, table.get(..ROW_BYTES)?)?;
    (row.flag == NO_FLAG).then_some(row)
}

/// What the rows for a state of rest and a signal come to.
#[derive(Clone, Debug, PartialEq, Eq)]
pub struct Reading {
    /// How many sound rows came first whose flag is down.
    pub passed_over: usize,
    pub found: Found,
}

#[derive(Clone, Debug, PartialEq, Eq)]
pub enum Found {
    Taken(FlatRow),
    /// Zeros, or the end: the signal is ignored.
    Nothing,
    Unsound,
}

/// Reads the rows for a state of rest and a signal in order, and none behind the one that decides.
pub fn read_step(edition: Edition, table: &[u8], rest: u8, signal: u8, flags: &Flags) -> Reading {
    let rows = table[rows_place(edition, rest, signal)].chunks(ROW_BYTES);
    for (passed_over, row) in rows.enumerate() {
        if let Some(found) = decided_by(edition, row, flags) {
            return Reading { passed_over, found };
        }
    }
    Reading {
        passed_over: edition.rows_each(),
        found: Found::Nothing,
    }
}

/// What a row decides; nothing if it is passed over.
fn decided_by(edition: Edition, row: &[u8], flags: &Flags) -> Option<Found> {
    // In edition one zeros are a row like any other, and not sound.
    if edition == Edition::Guarded && row.iter().all(|&byte| byte == 0) {
        return Some(Found::Nothing);
    }
    match FlatRow::read(edition, row) {
        None => Some(Found::Unsound),
        Some(row) if flags.admit(row.flag) => Some(Found::Taken(row)),
        Some(_) => None,
    }
}
