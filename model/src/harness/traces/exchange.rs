//! A command with its answer, and what it met.

use crate::chart::{Found, Reading};
use crate::kernel::numbers::{GUARDED_SLOT, PRIORITIES};
use crate::kernel::{Kernel, Lent};

pub struct Exchange<'a> {
    pub record: &'a [u8],
    pub reply: &'a [u8],
    pub before: &'a Kernel,
    pub after: &'a Kernel,
    /// Only LOAD writes to the tables, so they are those before the command for any other.
    pub lent: Lent<'a>,
}

impl Exchange<'_> {
    /// Whether the argument at this place is the slot of edition two.
    pub fn names_slot_4(&self, place: usize) -> bool {
        self.record[place] == GUARDED_SLOT
    }

    /// Whether the command is about an object on that slot, its number being the argument at this place.
    pub fn concerns_slot_4(&self, place: usize) -> bool {
        self.before.slot_of(self.record[place]) == Some(GUARDED_SLOT)
    }

    /// Whether the highest object with mail is on that slot.
    pub fn next_is_on_slot_4(&self) -> bool {
        is_next_on_slot_4(self.before)
    }

    pub fn reading(&self) -> Option<Reading> {
        self.before.next_reading(&self.lent.tables)
    }

    /// What NEXT found in the rows of slot 4, and how many it passed over.
    pub fn read_on_slot_4(&self, wanted: impl Fn(usize, &Found) -> bool) -> bool {
        let reading = self.reading().filter(|_| self.next_is_on_slot_4());
        reading.is_some_and(|reading| wanted(reading.passed_over, &reading.found))
    }

    /// Whether DRAIN stopped at a row of slot 4 that is not sound.
    pub fn stopped_on_slot_4(&self) -> bool {
        is_next_on_slot_4(self.after)
    }

    /// Whether objects of both editions have less mail than before.
    pub fn stepped_in_both_editions(&self) -> bool {
        let stepped = |p: &u8| self.before.free_places(*p) < self.after.free_places(*p);
        let slots = PRIORITIES.filter(stepped).map(|p| self.before.slot_of(p));
        let (guarded, plain): (Vec<_>, Vec<_>) =
            slots.partition(|slot| *slot == Some(GUARDED_SLOT));
        !guarded.is_empty() && !plain.is_empty()
    }
}

fn is_next_on_slot_4(kernel: &Kernel) -> bool {
    let slot = kernel.next_object().and_then(|p| kernel.slot_of(p));
    slot == Some(GUARDED_SLOT)
}
