//! Random traces: charts, command records that follow the kernel's state, and the model's replies.

pub mod areas;
pub mod coverage;
pub mod exchange;
mod opening;
mod pick;
pub mod show;
pub mod words;

use super::bad::{self, BadChart};
use super::good::{self, GoodChart};
use super::random::{RandomCharts, Xorshift};
use crate::chart::{check, Edition, GOOD};
use crate::kernel::numbers::{RECORD_BYTES, REPLY_BYTES};
use crate::kernel::replay::{Charts, Program};
use crate::kernel::tables::edition_of;
use pick::Picker;

pub struct Trace {
    pub charts: Charts,
    pub records: Vec<u8>,
    pub replies: Vec<u8>,
}

impl Trace {
    /// A trace of so many records; the last one may be cut short.
    pub fn random(seed: u64, commands: usize) -> Self {
        let mut random = Xorshift::new(seed);
        let charts = random_charts(&mut random);
        let cuts_last = random.percent(25);
        let last_bytes = 1 + random.below(RECORD_BYTES - 1);
        let mut picker = Picker::new(random, &charts);
        let mut program = Program::fresh(charts.clone());
        let mut records = Vec::new();
        let mut replies = Vec::new();
        for left in (0..commands).rev() {
            let record = picker.record(program.kernel());
            let sent = match left {
                0 if cuts_last => &record[..last_bytes],
                _ => &record,
            };
            records.extend(sent);
            replies.extend(program.answer(sent));
        }
        Trace {
            charts,
            records,
            replies,
        }
    }

    /// Each record with its reply.
    pub fn exchanges(&self) -> impl Iterator<Item = (&[u8], &[u8])> {
        let records = self.records.chunks(RECORD_BYTES);
        records.zip(self.replies.chunks(REPLY_BYTES))
    }
}

/// A chart file for each slot. One of edition one is good for certain: without one no object starts.
fn random_charts(random: &mut Xorshift) -> Charts {
    let mut charts = std::array::from_fn(|slot| random_chart(random, slot));
    charts[random.below(4)] = hard_chart(random, Edition::Plain);
    charts
}

/// A chart for a slot, now and then one of the other edition.
fn random_chart(random: &mut Xorshift, slot: usize) -> Vec<u8> {
    let own = edition_of(slot as u8);
    let edition = if random.percent(95) { own } else { other(own) };
    let is_good = |class| class == GOOD;
    match random.below(100) {
        0..45 => hard_chart(random, edition),
        45..70 => found_chart(random, edition, is_good),
        70..73 => bad_chart(random, bad::missing_starts()),
        73..80 => found_chart(random, edition, |class| !is_good(class)),
        80..92 => bad_chart(random, bad::of(edition)),
        _ => Vec::new(),
    }
}

fn other(edition: Edition) -> Edition {
    match edition {
        Edition::Plain => Edition::Guarded,
        Edition::Guarded => Edition::Plain,
    }
}

/// Of edition two mostly one whose rows have flags.
fn hard_chart(random: &mut Xorshift, edition: Edition) -> Vec<u8> {
    if edition == Edition::Guarded && random.percent(80) {
        return good_chart(random, good::with_flags());
    }
    good_chart(random, good::of(edition))
}

fn good_chart(random: &mut Xorshift, mut good: Vec<GoodChart>) -> Vec<u8> {
    good.swap_remove(random.below(good.len())).bytes
}

fn bad_chart(random: &mut Xorshift, mut bad: Vec<BadChart>) -> Vec<u8> {
    bad.swap_remove(random.below(bad.len())).bytes
}

/// The first random chart of the edition whose class is wanted.
fn found_chart(random: &mut Xorshift, edition: Edition, wanted: impl Fn(u32) -> bool) -> Vec<u8> {
    let seed = random.below(1 << 32) as u64;
    let charts = RandomCharts::new(edition, seed);
    let mut found = charts.filter(|bytes| wanted(check(edition, bytes)));
    found.next().expect("the charts are endless")
}

#[cfg(test)]
mod tests {
    use super::*;
    use crate::harness::starts::missing_is_the_only_fault;
    use crate::kernel::command::{Command, Handle};
    use crate::kernel::numbers::BLOCKS;
    use crate::kernel::replay::{chart_for, replay};
    use crate::kernel::reply::Refusal;
    use crate::kernel::Kernel;
    use std::collections::BTreeSet;
    use std::ops::RangeInclusive;

    const STALE: u8 = Refusal::Stale as u8;

    #[test]
    fn the_replies_are_those_of_a_replay() {
        for seed in 0..10 {
            let trace = Trace::random(seed, 200);
            assert_eq!(trace.replies, replay(&trace.records, &trace.charts));
            assert_eq!(trace.replies.len(), 200 * REPLY_BYTES);
        }
    }

    #[test]
    fn one_seed_gives_one_trace() {
        let records = |seed| Trace::random(seed, 50).records;
        assert_eq!(records(3), records(3));
        assert_ne!(records(3), records(4));
    }

    #[test]
    fn most_commands_are_done() {
        let traces: Vec<Trace> = (0..20).map(|seed| Trace::random(seed, 500)).collect();
        let replies = traces.iter().flat_map(Trace::exchanges);
        let done = replies.filter(|(_, reply)| reply[0] == 0).count();
        assert!(done > 20 * 500 / 2);
    }

    #[test]
    fn some_loads_are_refused_only_for_a_missing_start() {
        let refuses_one = |trace: &Trace| {
            let chart = Refusal::Chart as u8;
            let mut refused = trace.exchanges().filter(|(_, reply)| reply[0] == chart);
            refused.any(|(load, _)| {
                let chart = chart_for(load, &trace.charts);
                missing_is_the_only_fault(edition_of(load[1]), chart)
            })
        };
        let traces = (0..20).map(|seed| Trace::random(seed, 200));
        assert!(traces.filter(refuses_one).count() >= 2);
    }

    /// What a command came to with the side queues that its reply does not show.
    fn unshown(record: &[u8], answer: u8, before: &Kernel, after: &Kernel) -> Vec<&'static str> {
        let absent = Refusal::Absent as u8;
        match (Command::read(record), answer) {
            (Some(Command::Recall { q, p }), 0) => {
                let in_a_step = before.step_is_open();
                let to_full = before.set_aside(q) == 0 && before.free_places(p) == 0;
                let in_a_step = in_a_step.then_some("RECALL with a step open");
                let to_full = to_full.then_some("RECALL of nothing to a full mailbox");
                in_a_step.into_iter().chain(to_full).collect()
            }
            (Some(Command::Recall { q, .. }), refused) if refused == absent => {
                vec![match before.set_aside(q) {
                    0 => "RECALL of nothing to an absent object",
                    _ => "RECALL of an entry to an absent object",
                }]
            }
            (Some(Command::Flush { .. }), 0) => {
                let counts = BLOCKS.map(|block| [before, after].map(|k| k.references(block)));
                let fallen = counts.filter(|[before, after]| after < before);
                let names = fallen.map(|counts| match counts {
                    [1, 0] => "FLUSH of a block's only reference",
                    [_, 0] => "FLUSH of all of a block's several references",
                    _ => "FLUSH that leaves a block references",
                });
                names.collect()
            }
            _ => Vec::new(),
        }
    }

    #[test]
    fn side_queues_meet_what_no_reply_shows() {
        let mut seen = BTreeSet::new();
        for seed in 0..60 {
            let trace = Trace::random(seed, 500);
            let mut program = Program::fresh(trace.charts.clone());
            for (record, reply) in trace.exchanges() {
                let before = program.kernel().clone();
                program.answer(record);
                seen.extend(unshown(record, reply[0], &before, program.kernel()));
            }
        }
        assert_eq!(seen.len(), 7, "{seen:?}");
    }

    /// The handle that a command names, if it does.
    fn named(record: &[u8]) -> Option<Handle> {
        use Command::*;
        match Command::read(record)? {
            Post { handle, .. }
            | PostFront { handle, .. }
            | Publish { handle }
            | Hold { handle }
            | Release { handle }
            | Drop { handle }
            | Read { handle } => Some(handle),
            _ => None,
        }
    }

    /// Why a handle is stale: its block is free, or which bytes of the generation differ.
    fn why_stale(handle: Handle, kernel: &Kernel) -> [bool; 4] {
        let fitting = kernel.handle(handle.block);
        let [_, low, middle, high] = handle.bytes();
        let [_, fitting_low, fitting_middle, fitting_high] = fitting.bytes();
        [
            kernel.is_stale(fitting),
            low != fitting_low,
            middle != fitting_middle,
            high != fitting_high,
        ]
    }

    #[test]
    fn handles_are_stale_for_each_reason_alone() {
        let mut seen = BTreeSet::new();
        for seed in 0..60 {
            let trace = Trace::random(seed, 500);
            let mut program = Program::fresh(trace.charts.clone());
            for (record, reply) in trace.exchanges() {
                if let (Some(handle), STALE) = (named(record), reply[0]) {
                    seen.insert((record[0], why_stale(handle, program.kernel())));
                }
                program.answer(record);
            }
        }
        for command in [4, 5, 6, 9, 10, 11, 17] {
            for place in 0..4 {
                let alone = std::array::from_fn(|reason| reason == place);
                assert!(seen.contains(&(command, alone)), "{command} {alone:?}");
            }
        }
    }

    /// The blocks of each pool.
    const POOLS: [RangeInclusive<u8>; 3] = [0..=31, 32..=47, 48..=55];

    fn pool_of(block: u8) -> usize {
        let pool = POOLS.iter().position(|blocks| blocks.contains(&block));
        pool.expect("each block is in a pool")
    }

    /// How many blocks of each pool are free; none is retired in a trace, which would have to be far longer.
    fn free_blocks(kernel: &Kernel) -> [usize; 3] {
        let is_free = |block: &u8| kernel.is_stale(kernel.handle(*block));
        POOLS.map(|blocks| blocks.filter(is_free).count())
    }

    /// Told from the whole trace: the free blocks are counted after each command.
    #[test]
    fn a_mark_is_the_least_number_of_free_blocks_so_far() {
        let mut seen = BTreeSet::new();
        for seed in 0..60 {
            let trace = Trace::random(seed, 500);
            let mut program = Program::fresh(trace.charts.clone());
            let mut least = free_blocks(program.kernel());
            for (record, reply) in trace.exchanges() {
                program.answer(record);
                let free = free_blocks(program.kernel());
                let before = least;
                least = std::array::from_fn(|pool| before[pool].min(free[pool]));
                if let (Some(Command::New { .. }), 0) = (Command::read(record), reply[0]) {
                    let pool = pool_of(reply[24]);
                    assert_eq!(usize::from(reply[3]), least[pool]);
                    seen.insert((pool, free[pool].cmp(&before[pool])));
                }
            }
        }
        // In each pool fewer free blocks than ever before, as few, and more.
        assert_eq!(seen.len(), 9, "{seen:?}");
    }

    /// DRAIN is NEXT and END, so a trace with these in its place ends in the same state.
    #[test]
    fn a_drain_is_its_steps_one_by_one() {
        for seed in 0..10 {
            let trace = Trace::random(seed, 300);
            let mut drained = Program::fresh(trace.charts.clone());
            let mut stepped = Program::fresh(trace.charts.clone());
            for (record, reply) in trace.exchanges() {
                drained.answer(record);
                match Command::read(record) {
                    Some(Command::Drain { .. }) if reply[0] == 0 => {
                        for _ in 0..reply[4] {
                            assert_eq!(stepped.answer(&Command::Next.record())[0], 0);
                            assert_eq!(stepped.answer(&Command::End.record())[0], 0);
                        }
                    }
                    _ => {
                        stepped.answer(record);
                    }
                }
                assert!(drained.kernel() == stepped.kernel());
            }
        }
    }

    #[test]
    fn a_block_goes_back_exactly_with_its_last_reference() {
        for seed in 0..20 {
            let trace = Trace::random(seed, 300);
            let mut program = Program::fresh(trace.charts.clone());
            for (record, _) in trace.exchanges() {
                let before = program.kernel().clone();
                program.answer(record);
                for block in BLOCKS.filter(|&block| before.references(block) > 0) {
                    let is_back = program.kernel().is_stale(before.handle(block));
                    assert_eq!(is_back, program.kernel().references(block) == 0);
                }
            }
        }
    }

    #[test]
    fn a_refusal_leaves_the_kernel_as_it_was() {
        for seed in 0..10 {
            let trace = Trace::random(seed, 300);
            let mut program = Program::fresh(trace.charts.clone());
            for (record, _) in trace.exchanges() {
                let before = program.kernel().clone();
                let refused = program.answer(record)[0] != 0;
                assert!(!refused || *program.kernel() == before);
            }
        }
    }
}
