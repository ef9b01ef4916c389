//! Calls with areas of other lengths, and with tables that others write to.
//!
//! They are those of the program `areas`, which keeps four areas, each one byte longer than its
//! right length, and lends so many first bytes of each as a call says. The program's own text tells
//! how a call is written for it to read, and what its line for a call has.

use super::super::random::Xorshift;
use super::super::report::{table_sum, without_zeros};
use super::coverage::Coverage;
use super::exchange::Exchange;
use super::pick::Picker;
use super::show::told_bytes;
use super::{hard_chart, random_chart, random_charts};
use crate::chart::{Edition, FIRST_SIGNAL, LAST_SIGNAL, MOST_ACTIONS, ROW_BYTES};
use crate::kernel::numbers::*;
use crate::kernel::replay::{chart_for, Charts};
use crate::kernel::tables::{edition_of, place_of, Tables};
use crate::kernel::{Kernel, Lent};

/// Of the payloads, the tables, the guarded table and the log.
const RIGHT_LENGTHS: [usize; 4] = [PAYLOADS_BYTES, TABLES_BYTES, GUARDED_BYTES, LOG_BYTES];

/// A place in the tables of edition one, or in that of edition two.
#[derive(Clone, Copy)]
struct Place {
    edition: Edition,
    offset: usize,
}

/// A byte that somebody else writes to the tables.
#[derive(Clone, Copy)]
struct Poke {
    place: Place,
    byte: u8,
}

struct Call {
    record: Vec<u8>,
    /// In the order of the right ones.
    lengths: [usize; 4],
    poke: Option<Poke>,
}

/// A kernel with areas that have room for one byte too many.
struct Bench {
    kernel: Kernel,
    charts: Charts,
    payloads: Vec<u8>,
    tables: Vec<u8>,
    guarded: Vec<u8>,
    log: Vec<u8>,
}

impl Bench {
    fn fresh(charts: Charts) -> Self {
        Bench {
            kernel: Kernel::fresh(),
            charts,
            payloads: vec![0; PAYLOADS_BYTES + 1],
            tables: vec![0; TABLES_BYTES + 1],
            guarded: vec![0; GUARDED_BYTES + 1],
            log: vec![0; LOG_BYTES + 1],
        }
    }

    fn answer(&mut self, call: &Call) -> [u8; REPLY_BYTES] {
        if let Some(Poke { place, byte }) = call.poke {
            *self.byte_mut(place) = byte;
        }
        let [payloads, tables, guarded, log] = call.lengths;
        self.kernel.command(
            &call.record,
            chart_for(&call.record, &self.charts),
            &mut self.payloads[..payloads],
            &mut self.tables[..tables],
            &mut self.guarded[..guarded],
            &mut self.log[..log],
        )
    }

    /// What the call was lent.
    fn lent(&self, call: &Call) -> Lent<'_> {
        let [payloads_length, tables, guarded, log_length] = call.lengths;
        Lent {
            chart: chart_for(&call.record, &self.charts),
            payloads_length,
            tables: Tables {
                plain: &self.tables[..tables],
                guarded: &self.guarded[..guarded],
            },
            log_length,
        }
    }

    fn area(&self, edition: Edition) -> &[u8] {
        match edition {
            Edition::Plain => &self.tables,
            Edition::Guarded => &self.guarded,
        }
    }

    fn byte_mut(&mut self, place: Place) -> &mut u8 {
        match place.edition {
            Edition::Plain => &mut self.tables[place.offset],
            Edition::Guarded => &mut self.guarded[place.offset],
        }
    }
}

/// Picks calls for a bench.
struct Caller {
    picker: Picker,
    /// Undoes the last poke, so that the run may go on.
    repair: Option<Poke>,
}

impl Caller {
    fn call(&mut self, bench: &Bench) -> Call {
        if self.picker.is_opening() {
            return Call {
                record: self.picker.record(&bench.kernel).to_vec(),
                lengths: RIGHT_LENGTHS,
                poke: None,
            };
        }
        Call {
            record: self.record(&bench.kernel),
            lengths: self.lengths(),
            poke: self.poke(bench),
        }
    }

    /// Now and then another chart for a slot, so that a slot in use may meet a bad one.
    fn new_chart(&mut self) -> Option<(usize, Vec<u8>)> {
        let random = self.picker.random();
        random.percent(2).then(|| {
            let slot = random.pick(&[0, 1, 2, 3, 4, 4]);
            (slot, random_chart(random, slot))
        })
    }

    /// A record, now and then one of another length. After a poke it is more
    /// likely to be about tables, so that the poke is met before its repair.
    fn record(&mut self, kernel: &Kernel) -> Vec<u8> {
        if self.repair.is_some() && self.picker.random().percent(40) {
            return self.picker.record_about_tables(kernel).to_vec();
        }
        let mut record = self.picker.record(kernel).to_vec();
        let random = self.picker.random();
        match random.below(100) {
            0 => record.truncate(random.below(RECORD_BYTES)),
            1 => record.push(random.byte()),
            _ => {}
        }
        record
    }

    /// The table of slot 4 is asked for least often, so it has another length more often.
    fn lengths(&mut self) -> [usize; 4] {
        let random = self.picker.random();
        let mut lengths = RIGHT_LENGTHS;
        for (length, wrong) in lengths.iter_mut().zip([7, 7, 14, 7]) {
            if random.percent(wrong) {
                *length = random.pick(&[0, *length - 1, *length + 1]);
            }
        }
        lengths
    }

    fn poke(&mut self, bench: &Bench) -> Option<Poke> {
        let random = self.picker.random();
        match self.repair {
            Some(_) => self.repair.take_if(|_| random.percent(25)),
            None if random.percent(30) => {
                let poke = random_poke(random, bench);
                let Place { edition, offset } = poke.place;
                self.repair = Some(Poke {
                    byte: bench.area(edition)[offset],
                    ..poke
                });
                Some(poke)
            }
            None => None,
        }
    }
}

/// Changes a byte of some row; about half of the rows are unsound then.
fn random_poke(random: &mut Xorshift, bench: &Bench) -> Poke {
    let row = random_row(random, bench);
    let most_states = row.edition.most_states() as u8;
    let (next, outcome, count, actions, flag) = (0, 1, 2, 3, 21);
    let listed = bench.area(row.edition)[row.offset + count];
    let listed = usize::from(listed).min(MOST_ACTIONS);
    let (at, byte) = match random.below(12) {
        0 | 1 => (next, random.pick(&[0, most_states + 1, 25, 255])),
        2 | 3 => (next, random.pick(&[1, 2, 3, 4, 5, most_states])),
        4 => (outcome, random.pick(&[3, 255])),
        5 => (outcome, random.below(3) as u8),
        6 => (count, random.pick(&[19, 255])),
        7 => (count, random.below(MOST_ACTIONS + 1) as u8),
        8 => {
            let unused = actions + listed..ROW_BYTES;
            let any_unused = unused.start + random.below(unused.len());
            let at = random.pick(&[unused.start, unused.end - 1, any_unused]);
            (at, 1 + random.below(255) as u8)
        }
        9 | 10 => (flag, random.pick(&[0, 1, 2, 8, 9, 255])),
        _ => (actions + random.below(listed.max(1)), random.byte()),
    };
    let offset = row.offset + at;
    let place = Place { offset, ..row };
    Poke { place, byte }
}

/// Where a row begins: one that NEXT reads, one for the front event of an object, a start row, or any of the first states.
fn random_row(random: &mut Xorshift, bench: &Bench) -> Place {
    let kernel = &bench.kernel;
    let with_mail: Vec<u8> = PRIORITIES
        .filter(|&p| kernel.front_rows_place(p).is_some())
        .collect();
    match (random.below(10), kernel.next_object()) {
        (0..4, Some(p)) => front_row(random, bench, p),
        (4..6, Some(_)) => {
            let p = random.pick(&with_mail);
            front_row(random, bench, p)
        }
        (0..8, _) => place_in(a_slot(random, kernel), 0),
        _ => {
            let signals = usize::from(LAST_SIGNAL - FIRST_SIGNAL) + 1;
            let number = 1 + random.below(5 * signals);
            place_in(a_slot(random, kernel), number * ROW_BYTES)
        }
    }
}

/// A row for the front event of an object with mail. Of six that which decides for NEXT is likely, or the one behind it.
fn front_row(random: &mut Xorshift, bench: &Bench, p: u8) -> Place {
    let kernel = &bench.kernel;
    let rows = kernel.front_rows_place(p).expect("it has mail");
    let slot = kernel.slot_of(p).expect("it is started");
    let tables = Tables {
        plain: &bench.tables[..TABLES_BYTES],
        guarded: &bench.guarded[..GUARDED_BYTES],
    };
    let reading = kernel.next_reading(&tables);
    let decides = reading.map_or(0, |reading| reading.passed_over);
    let number = random.pick(&[0, decides, decides, decides + 1]);
    let last = rows.len() / ROW_BYTES - 1;
    place_in(slot, rows.start + number.min(last) * ROW_BYTES)
}

/// A loaded slot, if there is one, and often that of edition two.
fn a_slot(random: &mut Xorshift, kernel: &Kernel) -> u8 {
    let loaded: Vec<u8> = SLOTS.filter(|&slot| kernel.is_loaded(slot)).collect();
    if loaded.contains(&GUARDED_SLOT) && random.percent(40) {
        return GUARDED_SLOT;
    }
    match loaded.is_empty() {
        true => 0,
        false => random.pick(&loaded),
    }
}

/// So many bytes behind the beginning of a slot.
fn place_in(slot: u8, behind: usize) -> Place {
    Place {
        edition: edition_of(slot),
        offset: place_of(slot).start + behind,
    }
}

/// A call that was made, and what became of it.
struct Made<'a> {
    call: &'a Call,
    is_fresh: bool,
    reply: [u8; REPLY_BYTES],
    before: &'a Kernel,
    bench: &'a Bench,
}

/// Makes the calls of runs, each with a seed and so many calls, from a fresh start on.
fn make_calls(runs: &[(u64, usize)], mut tell: impl FnMut(&Made)) {
    for &(seed, count) in runs {
        let (mut bench, mut caller) = fresh_run(seed);
        for number in 0..count {
            if let Some((slot, chart)) = caller.new_chart() {
                bench.charts[slot] = chart;
            }
            let call = caller.call(&bench);
            let before = bench.kernel.clone();
            let reply = bench.answer(&call);
            tell(&Made {
                call: &call,
                is_fresh: number == 0,
                reply,
                before: &before,
                bench: &bench,
            });
        }
    }
}

/// What the program reads, and what it must write.
#[derive(Default)]
pub struct Calls {
    pub input: Vec<u8>,
    pub lines: String,
}

impl Calls {
    pub fn random(runs: &[(u64, usize)]) -> Self {
        let mut calls = Calls::default();
        make_calls(runs, |made| {
            let charts = &made.bench.charts;
            calls.input.extend(sent(made.call, made.is_fresh, charts));
            calls.lines += &line(made.call, &made.reply, made.bench);
        });
        calls
    }
}

/// What the calls of these runs come to.
pub fn coverage(runs: &[(u64, usize)]) -> Coverage {
    let mut coverage = Coverage::default();
    make_calls(runs, |made| {
        coverage.add(&Exchange {
            record: &made.call.record,
            reply: &made.reply,
            before: made.before,
            after: &made.bench.kernel,
            lent: made.bench.lent(made.call),
        });
    });
    coverage
}

fn fresh_run(seed: u64) -> (Bench, Caller) {
    let mut random = Xorshift::new(seed);
    let mut charts = random_charts(&mut random);
    if random.percent(60) {
        // Slot 4 is what most of the calls are about that no replay shows.
        charts[usize::from(GUARDED_SLOT)] = hard_chart(&mut random, Edition::Guarded);
    }
    let caller = Caller {
        picker: Picker::new(random, &charts),
        repair: None,
    };
    (Bench::fresh(charts), caller)
}

/// A call as the program reads it: the head, the record up to its last byte that is not 0, the chart.
fn sent(call: &Call, is_fresh: bool, charts: &Charts) -> Vec<u8> {
    let chart = chart_for(&call.record, charts);
    let given = without_zeros(&call.record);
    let byte = |length: usize| u8::try_from(length).expect("a record is short");
    let two = |number: usize| {
        u16::try_from(number)
            .expect("two bytes hold it")
            .to_le_bytes()
    };
    let (area, offset, poked) = match call.poke {
        None => (0, 0, 0),
        Some(Poke { place, byte }) => (number_of(place.edition), place.offset, byte),
    };
    let mut sent = vec![
        u8::from(is_fresh),
        byte(call.record.len()),
        byte(given.len()),
    ];
    sent.extend(call.lengths.map(two).concat());
    sent.push(area);
    sent.extend(two(offset));
    sent.push(poked);
    sent.extend(two(chart.len()));
    sent.extend(given);
    sent.extend(chart);
    sent
}

/// Which area somebody else writes to; 0 stands for none.
fn number_of(edition: Edition) -> u8 {
    match edition {
        Edition::Plain => 1,
        Edition::Guarded => 2,
    }
}

/// The line of a call. The bench is that after it.
fn line(call: &Call, reply: &[u8; REPLY_BYTES], bench: &Bench) -> String {
    let areas = [&bench.payloads, &bench.tables, &bench.guarded, &bench.log];
    let [payloads, tables, guarded, log] = areas.map(|area| table_sum(area));
    let part = &bench.payloads[bench.kernel.read_part(&call.record, call.lengths[0])];
    format!(
        "{} payloads {payloads} tables {tables} guarded {guarded} log {log} part {} sum {}\n",
        told_bytes(reply),
        part.len(),
        table_sum(part),
    )
}

#[cfg(test)]
mod tests {
    use super::super::coverage::cases::IN_CALLS;
    use super::*;
    use crate::kernel::reply::Refusal;

    /// So many bytes from the front.
    fn take<'a>(input: &mut &'a [u8], count: usize) -> &'a [u8] {
        let (taken, rest) = input.split_at(count);
        *input = rest;
        taken
    }

    /// The call at the front of an input, whether it is a fresh start, and its chart.
    fn take_call<'a>(input: &mut &'a [u8]) -> (Call, bool, &'a [u8]) {
        let head = take(input, 17);
        let two = |at: usize| usize::from(u16::from_le_bytes([head[at], head[at + 1]]));
        let mut record = vec![0; usize::from(head[1])];
        let given = take(input, usize::from(head[2]));
        record[..given.len()].copy_from_slice(given);
        let edition = match head[11] {
            0 => None,
            1 => Some(Edition::Plain),
            2 => Some(Edition::Guarded),
            other => panic!("no area has the number {other}"),
        };
        let poke = |edition| {
            let offset = two(12);
            let place = Place { edition, offset };
            let byte = head[14];
            Poke { place, byte }
        };
        let call = Call {
            record,
            lengths: [two(3), two(5), two(7), two(9)],
            poke: edition.map(poke),
        };
        (call, head[0] == 1, take(input, two(15)))
    }

    /// The input alone is enough to make the calls again.
    #[test]
    fn the_calls_can_be_made_again() {
        let calls = Calls::random(&[(5, 250), (6, 20)]);
        let mut input = calls.input.as_slice();
        let mut bench = Bench::fresh(Charts::default());
        let mut lines = String::new();
        while !input.is_empty() {
            let (call, is_fresh, chart) = take_call(&mut input);
            if is_fresh {
                bench = Bench::fresh(Charts::default());
            }
            if let [1, slot @ 0..=4, ..] = call.record[..] {
                bench.charts[usize::from(slot)] = chart.to_vec();
            }
            let reply = bench.answer(&call);
            lines += &line(&call, &reply, &bench);
        }
        assert_eq!(lines, calls.lines);
        assert_eq!(lines.lines().count(), 270);
    }

    #[test]
    fn a_call_is_written_as_the_program_reads_it() {
        let place = Place {
            edition: Edition::Guarded,
            offset: 32_279,
        };
        let call = Call {
            record: vec![1, 4, 0],
            lengths: [1_536, 64_608, 32_281, 7_139],
            poke: Some(Poke { place, byte: 9 }),
        };
        let mut charts = Charts::default();
        charts[4] = vec![3; 260];
        let head = [
            1, 3, 2, 0, 6, 96, 252, 25, 126, 227, 27, 2, 23, 126, 9, 4, 1,
        ];
        let expected = [&head[..], &[1, 4], &[3; 260]].concat();
        assert_eq!(sent(&call, true, &charts), expected);
    }

    #[test]
    fn the_calls_see_what_a_replay_cannot_show() {
        let runs: Vec<(u64, usize)> = (0..100).map(|seed| (seed, 250)).collect();
        let coverage = coverage(&runs);
        let area = Refusal::Area as u8;
        for command in ["LOAD", "START", "NEXT", "DRAIN", "NEW", "READ"] {
            assert!(coverage.times(command, area) > 0, "{command}");
        }
        let table = Refusal::Table as u8;
        for command in ["START", "NEXT"] {
            assert!(coverage.times(command, table) > 0, "{command}");
        }
        let unseen: Vec<_> = coverage.unseen_cases().map(|case| case.key()).collect();
        for case in IN_CALLS {
            assert!(!unseen.contains(&case.key()), "{:?}", case.key());
        }
    }
}
