//! What the rows of a good chart's table must be, for the tests of good charts.

use crate::chart::{sound, Chart, Edition, ROW_BYTES};

/// Rows of the chart's states are sound, but in edition two zeros where no row of the chart stands; rows of absent states
/// are zeros.
pub fn rows_may_stand(edition: Edition, chart: &Chart) -> bool {
    let table = chart.table();
    let (start, rows) = table.split_at(ROW_BYTES);
    let present = 28 * edition.rows_each() * chart.state_count();
    let (present, absent) = rows.split_at(present * ROW_BYTES);
    let are_zeros = |bytes: &[u8]| bytes.iter().all(|&byte| byte == 0);
    let may_stand = |row: &[u8]| match edition {
        Edition::Plain => sound(edition, row),
        Edition::Guarded => sound(edition, row) || are_zeros(row),
    };
    sound(edition, start) && present.chunks(ROW_BYTES).all(may_stand) && are_zeros(absent)
}
