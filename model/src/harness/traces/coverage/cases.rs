//! What commands come to besides every answer.

use super::super::exchange::Exchange;
use crate::chart::{sound, Edition, Found, ROW_BYTES};
use crate::kernel::numbers::{LOG_BYTES, PAYLOADS_BYTES};
use crate::kernel::reply::Refusal;

/// Something a command may come to, told by its answer and by what it met. Of a reply NEW's mark is byte 3, values are
/// bytes 4 and 5, block and generation of an event bytes 24 to 27; of a record arguments begin at byte 1.
pub struct Case {
    pub command: &'static str,
    pub answer: u8,
    pub name: &'static str,
    pub shows: fn(&Exchange) -> bool,
}

impl Case {
    /// What no other case has.
    pub fn key(&self) -> (&'static str, u8, &'static str) {
        (self.command, self.answer, self.name)
    }
}

const fn done(command: &'static str, name: &'static str, shows: fn(&Exchange) -> bool) -> Case {
    let answer = 0;
    Case {
        command,
        answer,
        name,
        shows,
    }
}

const fn refused(
    command: &'static str,
    refusal: Refusal,
    name: &'static str,
    shows: fn(&Exchange) -> bool,
) -> Case {
    let answer = refusal as u8;
    Case {
        command,
        answer,
        name,
        shows,
    }
}

const fn refused_chart(name: &'static str, shows: fn(&Exchange) -> bool) -> Case {
    refused("LOAD", Refusal::Chart, name, shows)
}

/// What good traces come to.
pub const IN_A_REPLAY: &[Case] = &[
    refused_chart("slots 0 to 3, class 1", |of| refused_with(of, false, 1)),
    refused_chart("slots 0 to 3, class 2", |of| refused_with(of, false, 2)),
    refused_chart("slots 0 to 3, class 3", |of| refused_with(of, false, 3)),
    refused_chart("slots 0 to 3, class 4", |of| refused_with(of, false, 4)),
    refused_chart("slot 4, class 1", |of| refused_with(of, true, 1)),
    refused_chart("slot 4, class 2", |of| refused_with(of, true, 2)),
    refused_chart("slot 4, class 3", |of| refused_with(of, true, 3)),
    refused_chart("slot 4, class 4", |of| refused_with(of, true, 4)),
    done("LOAD", "slots 0 to 3", |of| !of.names_slot_4(1)),
    done("LOAD", "slot 4", |of| of.names_slot_4(1)),
    refused("LOAD", Refusal::Busy, "slot 4", |of| of.names_slot_4(1)),
    refused("LOAD", Refusal::Taken, "slot 4 in use", |of| {
        of.names_slot_4(1)
    }),
    done("START", "slots 0 to 3", |of| !of.names_slot_4(2)),
    done("START", "slot 4", |of| of.names_slot_4(2)),
    refused("START", Refusal::Busy, "slot 4", |of| of.names_slot_4(2)),
    refused("START", Refusal::Absent, "slot 4 not loaded", |of| {
        of.names_slot_4(2)
    }),
    refused("START", Refusal::Taken, "slot 4, object started", |of| {
        of.names_slot_4(2)
    }),
    done("NEW", "block of 16 bytes", |of| of.reply[24] < 32),
    done("NEW", "block of 32 bytes", |of| {
        (32..48).contains(&of.reply[24])
    }),
    done("NEW", "block of 64 bytes", |of| of.reply[24] >= 48),
    done("NEW", "block used before", |of| of.reply[25] > 0),
    done("NEW", "generation above 255", |of| of.reply[26] > 0),
    done("NEW", "mark 0, block of 16 bytes", |of| {
        of.reply[3] == 0 && of.reply[24] < 32
    }),
    done("NEW", "mark 0, block of 32 bytes", |of| {
        of.reply[3] == 0 && (32..48).contains(&of.reply[24])
    }),
    done("NEW", "mark 0, block of 64 bytes", |of| {
        of.reply[3] == 0 && of.reply[24] >= 48
    }),
    done("POST", "into an empty mailbox", |of| of.reply[4] == 1),
    done("POST", "behind others", |of| of.reply[4] > 1),
    done("POSTFRONT", "into an empty mailbox", |of| of.reply[4] == 1),
    done("POSTFRONT", "before others", |of| of.reply[4] > 1),
    done("PUBLISH", "no receiver, freed", |of| {
        of.reply[4..6] == [0, 1]
    }),
    done("PUBLISH", "no receiver, kept", |of| {
        of.reply[4..6] == [0, 0]
    }),
    done("PUBLISH", "one receiver", |of| of.reply[4] == 1),
    done("PUBLISH", "several receivers", |of| of.reply[4] > 1),
    done("SUBSCRIBE", "changed", |of| of.reply[4] == 1),
    done("SUBSCRIBE", "not changed", |of| of.reply[4] == 0),
    done("UNSUBSCRIBE", "changed", |of| of.reply[4] == 1),
    done("UNSUBSCRIBE", "not changed", |of| of.reply[4] == 0),
    done("HOLD", "the fifteenth", |of| of.reply[4] == 15),
    done("RELEASE", "freed", |of| of.reply[5] == 1),
    done("RELEASE", "last hold, kept", |of| of.reply[4..6] == [0, 0]),
    done("RELEASE", "other holds left", |of| of.reply[4] > 0),
    done("NEXT", "a block", |of| of.reply[24] < 128),
    done("NEXT", "a timer", |of| of.reply[24] >= 128),
    done("NEXT", "generation above 255", |of| of.reply[26] > 0),
    done("NEXT", "ignored", |of| of.reply[2] / 32 == 0),
    done("NEXT", "internal", |of| of.reply[2] / 32 == 1),
    done("NEXT", "transition", |of| of.reply[2] / 32 == 2),
    done("END", "freed", |of| of.reply[4] == 1),
    done("END", "kept, or a timer", |of| of.reply[4] == 0),
    done("DISARM", "changed", |of| of.reply[4] == 1),
    done("DISARM", "not changed", |of| of.reply[4] == 0),
    done("TICK", "fired", |of| of.reply[4] > 0),
    done("TICK", "late", |of| of.reply[5] > 0),
    done("TICK", "fired and late", |of| {
        of.reply[4] > 0 && of.reply[5] > 0
    }),
    done("READ", "no byte", |of| of.reply[4] == 0),
    done("READ", "all bytes shown", |of| {
        (1..=18).contains(&of.reply[4])
    }),
    done("READ", "not all bytes shown", |of| of.reply[4] > 18),
    done("DRAIN", "no step, nothing queued", |of| {
        of.reply[4..6] == [0, 1]
    }),
    done("DRAIN", "steps until nothing is queued", |of| {
        of.reply[4] > 0 && of.reply[5] == 1
    }),
    done("DRAIN", "as many steps as there can be", |of| {
        of.reply[4] == 255
    }),
    done("DRAIN", "budget spent, more queued", |of| {
        of.reply[4] > 0 && of.reply[5] == 0
    }),
    done("DEFER", "the first", |of| of.reply[4] == 1),
    done("DEFER", "behind others", |of| of.reply[4] > 1),
    done("DEFER", "the eighth", |of| of.reply[4] == 8),
    done("RECALL", "an entry", |of| of.reply[4] == 1),
    done("RECALL", "no entry", |of| of.reply[4] == 0),
    done("FLUSH", "no entry", |of| of.reply[4] == 0),
    done("FLUSH", "some entries", |of| (1..8).contains(&of.reply[4])),
    done("FLUSH", "eight entries", |of| of.reply[4] == 8),
    refused("NEXT", Refusal::Busy, "slot 4", |of| of.next_is_on_slot_4()),
    done("NEXT", "slot 4, ignored, no row", |of| {
        of.read_on_slot_4(|passed, found| passed == 0 && *found == Found::Nothing)
    }),
    done("NEXT", "slot 4, ignored, flags down", |of| {
        of.read_on_slot_4(|passed, found| (1..6).contains(&passed) && *found == Found::Nothing)
    }),
    done("NEXT", "slot 4, ignored, six flags down", |of| {
        of.read_on_slot_4(|passed, found| passed == 6 && *found == Found::Nothing)
    }),
    done("NEXT", "slot 4, internal", |of| {
        of.next_is_on_slot_4() && of.reply[2] / 32 == 1
    }),
    done("NEXT", "slot 4, transition", |of| {
        of.next_is_on_slot_4() && of.reply[2] / 32 == 2
    }),
    done("NEXT", "slot 4, first row, no flag", |of| {
        takes(of, false, |passed| passed == 0)
    }),
    done("NEXT", "slot 4, first row, flag up", |of| {
        takes(of, true, |passed| passed == 0)
    }),
    done("NEXT", "slot 4, later row, no flag", |of| {
        takes(of, false, |passed| passed > 0)
    }),
    done("NEXT", "slot 4, later row, flag up", |of| {
        takes(of, true, |passed| passed > 0)
    }),
    done("NEXT", "slot 4, sixth row", |of| {
        of.read_on_slot_4(|passed, found| passed == 5 && matches!(found, Found::Taken(_)))
    }),
    done("DRAIN", "steps of both editions", |of| {
        of.stepped_in_both_editions()
    }),
    done("FLAG", "up, changed", |of| {
        (of.record[3], of.reply[4]) == (1, 1)
    }),
    done("FLAG", "up, not changed", |of| {
        (of.record[3], of.reply[4]) == (1, 0)
    }),
    done("FLAG", "down, changed", |of| {
        (of.record[3], of.reply[4]) == (0, 1)
    }),
    done("FLAG", "down, not changed", |of| {
        (of.record[3], of.reply[4]) == (0, 0)
    }),
    done("FLAG", "slots 0 to 3", |of| !of.concerns_slot_4(1)),
    done("FLAG", "slot 4", |of| of.concerns_slot_4(1)),
    refused("FLAG", Refusal::Range, "object alone", |of| {
        is_out_of_range(of, [true, false, false])
    }),
    refused("FLAG", Refusal::Range, "flag 0 alone", |of| {
        is_out_of_range(of, [false, true, false]) && of.record[2] == 0
    }),
    refused("FLAG", Refusal::Range, "flag above 8 alone", |of| {
        is_out_of_range(of, [false, true, false]) && of.record[2] > 8
    }),
    refused("FLAG", Refusal::Range, "value above 1 alone", |of| {
        is_out_of_range(of, [false, false, true])
    }),
];

/// What no replay comes to: somebody lends areas of other lengths, or writes to the tables.
pub const IN_CALLS: &[Case] = &[
    refused("LOAD", Refusal::Area, "slot 4, its table alone", |of| {
        of.names_slot_4(1) && lacks_slot_4_alone(of)
    }),
    refused("START", Refusal::Area, "slot 4, its table alone", |of| {
        of.names_slot_4(2) && lacks_slot_4_alone(of)
    }),
    refused("NEXT", Refusal::Area, "slot 4, its table alone", |of| {
        lacks_slot_4_alone(of) && !of.before.step_is_open()
    }),
    refused(
        "NEXT",
        Refusal::Area,
        "slot 4, its table, step open",
        |of| lacks_slot_4_alone(of) && of.before.step_is_open(),
    ),
    refused(
        "DRAIN",
        Refusal::Area,
        "slot 4's table alone",
        lacks_slot_4_alone,
    ),
    refused("LOAD", Refusal::Area, "slot 4, the others' tables", |of| {
        of.names_slot_4(1) && lacks_slots_0_to_3_alone(of)
    }),
    refused("START", Refusal::Area, "slot 4, the others' tables", |of| {
        of.names_slot_4(2) && lacks_slots_0_to_3_alone(of)
    }),
    refused("NEXT", Refusal::Area, "slot 4, the others' tables", |of| {
        of.next_is_on_slot_4() && lacks_slots_0_to_3_alone(of)
    }),
    refused(
        "DRAIN",
        Refusal::Area,
        "the others' tables alone",
        lacks_slots_0_to_3_alone,
    ),
    done(
        "LOAD",
        "slots 0 to 3, without slot 4's table",
        lacks_slot_4_alone,
    ),
    refused(
        "LOAD",
        Refusal::Range,
        "without slot 4's table",
        lacks_slot_4_alone,
    ),
    done(
        "START",
        "slots 0 to 3, without slot 4's table",
        lacks_slot_4_alone,
    ),
    done(
        "NEXT",
        "slots 0 to 3, without slot 4's table",
        lacks_slot_4_alone,
    ),
    refused(
        "NEXT",
        Refusal::Busy,
        "without slot 4's table",
        lacks_slot_4_alone,
    ),
    refused(
        "NEXT",
        Refusal::Idle,
        "without slot 4's table",
        lacks_slot_4_alone,
    ),
    done("FLAG", "without slot 4's table", lacks_slot_4_alone),
    refused("START", Refusal::Table, "slots 0 to 3", |of| {
        !of.names_slot_4(2)
    }),
    refused(
        "START",
        Refusal::Table,
        "slot 4, a flag in the start row",
        |of| of.names_slot_4(2) && sound(Edition::Guarded, &of.lent.tables.guarded[..ROW_BYTES]),
    ),
    refused("START", Refusal::Table, "slot 4, another fault", |of| {
        of.names_slot_4(2) && !sound(Edition::Guarded, &of.lent.tables.guarded[..ROW_BYTES])
    }),
    refused("NEXT", Refusal::Table, "slots 0 to 3", |of| {
        !of.next_is_on_slot_4()
    }),
    refused("NEXT", Refusal::Table, "slot 4, first row", |of| {
        of.read_on_slot_4(|passed, _| passed == 0)
    }),
    refused("NEXT", Refusal::Table, "slot 4, later row", |of| {
        of.read_on_slot_4(|passed, _| passed > 0)
    }),
    refused("NEXT", Refusal::Table, "slot 4, flag down", |of| {
        stands_in_a_row_with_flag(of, false)
    }),
    refused("NEXT", Refusal::Table, "slot 4, flag up", |of| {
        stands_in_a_row_with_flag(of, true)
    }),
    refused("NEXT", Refusal::Table, "slot 4, flag above 8", |of| {
        last_read(of).is_some_and(|row| row[21] > 8)
    }),
    refused("NEXT", Refusal::Table, "slot 4, next above 8", |of| {
        last_read(of).is_some_and(|row| row[0] > 8)
    }),
    done(
        "NEXT",
        "slot 4, unsound behind the taken",
        has_unsound_behind,
    ),
    done("NEXT", "slot 4, a row of outcome 0", |of| {
        of.read_on_slot_4(|_, found| matches!(found, Found::Taken(row) if row.outcome == 0))
    }),
    done("DRAIN", "stopped at once, slots 0 to 3", |of| {
        stops(of, false, |steps| steps == 0)
    }),
    done("DRAIN", "stopped at once, slot 4", |of| {
        stops(of, true, |steps| steps == 0)
    }),
    done("DRAIN", "stopped later, slots 0 to 3", |of| {
        stops(of, false, |steps| steps > 0)
    }),
    done("DRAIN", "stopped later, slot 4", |of| {
        stops(of, true, |steps| steps > 0)
    }),
];

/// Whether a chart was refused with that class, for slot 4 or for another.
fn refused_with(of: &Exchange, is_for_slot_4: bool, class: u8) -> bool {
    of.names_slot_4(1) == is_for_slot_4 && of.reply[4] == class
}

/// Whether the table of slot 4 is the only area of another length.
fn lacks_slot_4_alone(of: &Exchange) -> bool {
    lacks_the_tables_of(of, Edition::ALL.map(|edition| edition == Edition::Guarded))
}

/// Whether the tables of slots 0 to 3 are the only area of another length.
fn lacks_slots_0_to_3_alone(of: &Exchange) -> bool {
    lacks_the_tables_of(of, Edition::ALL.map(|edition| edition == Edition::Plain))
}

/// Whether the tables of just these editions have another length, and no other area has.
fn lacks_the_tables_of(of: &Exchange, lacking: [bool; 2]) -> bool {
    let tables = Edition::ALL.map(|edition| !of.lent.tables.have_length(edition));
    tables == lacking
        && of.lent.payloads_length == PAYLOADS_BYTES
        && of.lent.log_length == LOG_BYTES
}

/// Whether a row of slot 4 was taken, one with a flag or without, behind so many.
fn takes(of: &Exchange, has_flag: bool, is_wanted: fn(usize) -> bool) -> bool {
    of.read_on_slot_4(|passed, found| match found {
        Found::Taken(row) => is_wanted(passed) && (row.flag != 0) == has_flag,
        _ => false,
    })
}

/// Which of FLAG's object, flag and value are out of range.
fn is_out_of_range(of: &Exchange, expected: [bool; 3]) -> bool {
    let [p, flag, value] = [of.record[1], of.record[2], of.record[3]];
    let wrong = [!(1..=16).contains(&p), !(1..=8).contains(&flag), value > 1];
    wrong == expected
}

/// The row of slot 4 at which NEXT's reading ended.
fn last_read<'a>(of: &'a Exchange) -> Option<&'a [u8]> {
    let reading = of.reading().filter(|_| of.next_is_on_slot_4())?;
    rows_of_next(of)?.nth(reading.passed_over)
}

/// The six rows of slot 4 that NEXT reads in order.
fn rows_of_next<'a>(of: &'a Exchange) -> Option<impl Iterator<Item = &'a [u8]>> {
    let place = of.before.front_rows_place(of.before.next_object()?)?;
    Some(of.lent.tables.guarded.get(place)?.chunks(ROW_BYTES))
}

/// Whether the row that is not sound has a flag from 1 to 8, which is up or down.
fn stands_in_a_row_with_flag(of: &Exchange, is_up: bool) -> bool {
    let flags = of.before.next_object().and_then(|p| of.before.flags_of(p));
    match (last_read(of), flags) {
        (Some(row), Some(flags)) => (1..=8).contains(&row[21]) && flags.admit(row[21]) == is_up,
        _ => false,
    }
}

/// Whether a row was taken on slot 4 though one behind it is neither sound nor zeros.
fn has_unsound_behind(of: &Exchange) -> bool {
    let is_wrong = |row: &[u8]| !sound(Edition::Guarded, row) && row.iter().any(|&byte| byte != 0);
    of.read_on_slot_4(|passed, found| {
        let behind = rows_of_next(of).into_iter().flatten().skip(passed + 1);
        matches!(found, Found::Taken(_)) && behind.into_iter().any(is_wrong)
    })
}

/// Whether DRAIN stopped below its budget at a row of slot 4 or of another, after so many steps.
fn stops(of: &Exchange, is_on_slot_4: bool, is_wanted: fn(u8) -> bool) -> bool {
    of.reply[5] == 2 && of.stopped_on_slot_4() == is_on_slot_4 && is_wanted(of.reply[4])
}
