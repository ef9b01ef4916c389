//! The lent tables: of which edition each slot's chart is, and where its table stands.

use super::numbers::{GUARDED_BYTES, GUARDED_SLOT, TABLES_BYTES};
use crate::chart::Edition;
use std::ops::Range;

/// The edition whose charts a slot takes.
pub fn edition_of(slot: u8) -> Edition {
    match slot {
        GUARDED_SLOT => Edition::Guarded,
        _ => Edition::Plain,
    }
}

/// Where the table of a slot stands in the area of its edition.
pub fn place_of(slot: u8) -> Range<usize> {
    let edition = edition_of(slot);
    let before = match edition {
        Edition::Plain => usize::from(slot),
        Edition::Guarded => 0,
    };
    let begin = before * edition.table_bytes();
    begin..begin + edition.table_bytes()
}

/// The two areas, lent with any length.
#[derive(Clone, Copy)]
pub struct Tables<'a> {
    pub plain: &'a [u8],
    pub guarded: &'a [u8],
}

impl<'a> Tables<'a> {
    pub const NONE: Tables<'static> = Tables {
        plain: &[],
        guarded: &[],
    };

    pub fn have_length(&self, edition: Edition) -> bool {
        match edition {
            Edition::Plain => self.plain.len() == TABLES_BYTES,
            Edition::Guarded => self.guarded.len() == GUARDED_BYTES,
        }
    }

    /// The table of a slot, if the areas have their lengths and there is such a slot.
    pub fn of_slot(&self, slot: u8) -> Option<&'a [u8]> {
        let edition = edition_of(slot);
        let area = match edition {
            Edition::Plain => self.plain,
            Edition::Guarded => self.guarded,
        };
        let area = self.have_length(edition).then_some(area)?;
        area.get(place_of(slot))
    }
}
