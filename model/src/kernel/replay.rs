//! The program that replays a trace.

use super::numbers::*;
use super::tables::Tables;
use super::{Kernel, Lent};

/// The chart files by slot; a missing one is an empty chart.
pub type Charts = [Vec<u8>; 5];

const LOAD: u8 = 1;

/// One kernel with its areas, from a fresh start.
pub struct Program {
    kernel: Kernel,
    charts: Charts,
    payloads: Vec<u8>,
    tables: Vec<u8>,
    guarded: Vec<u8>,
    log: Vec<u8>,
}

impl Program {
    pub fn fresh(charts: Charts) -> Self {
        Program {
            kernel: Kernel::fresh(),
            charts,
            payloads: vec![0; PAYLOADS_BYTES],
            tables: vec![0; TABLES_BYTES],
            guarded: vec![0; GUARDED_BYTES],
            log: vec![0; LOG_BYTES],
        }
    }

    pub fn kernel(&self) -> &Kernel {
        &self.kernel
    }

    /// What is lent with a record.
    pub fn lent(&self, record: &[u8]) -> Lent<'_> {
        Lent {
            chart: chart_for(record, &self.charts),
            payloads_length: self.payloads.len(),
            tables: Tables {
                plain: &self.tables,
                guarded: &self.guarded,
            },
            log_length: self.log.len(),
        }
    }

    pub fn answer(&mut self, record: &[u8]) -> [u8; REPLY_BYTES] {
        let chart = chart_for(record, &self.charts).to_vec();
        self.answer_with(record, &chart)
    }

    /// With a chart that is in no file.
    pub fn answer_with(&mut self, record: &[u8], chart: &[u8]) -> [u8; REPLY_BYTES] {
        self.kernel.command(
            record,
            chart,
            &mut self.payloads,
            &mut self.tables,
            &mut self.guarded,
            &mut self.log,
        )
    }
}

/// The chart that goes with a record: for LOAD n that of file n, else an empty one.
pub fn chart_for<'a>(record: &[u8], charts: &'a Charts) -> &'a [u8] {
    match *record {
        [LOAD, slot, ..] => charts.get(usize::from(slot)).map_or(&[], Vec::as_slice),
        _ => &[],
    }
}

/// The replies to a trace; a last piece shorter than a record is answered too.
pub fn replay(trace: &[u8], charts: &Charts) -> Vec<u8> {
    let mut program = Program::fresh(charts.clone());
    let records = trace.chunks(RECORD_BYTES);
    records.flat_map(|record| program.answer(record)).collect()
}
