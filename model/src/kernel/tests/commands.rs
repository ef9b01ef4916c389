//! LOAD, START, NEW and READ.

use super::*;
use crate::chart::{parse, Edition};
use crate::harness::good::{alarm, smallest};

const SLOT_BYTES: usize = 16_152;

fn table(edition: Edition, chart: &[u8]) -> Vec<u8> {
    parse(edition, chart).expect("a good chart").table()
}

#[test]
fn load_writes_its_slot_and_nothing_else() {
    let mut bench = Bench::fresh();
    bench.charts[2] = shift();
    bench.expect(Load { slot: 2 }, &[0, 0, 0, 0, 5]);
    let (before, rest) = bench.tables.split_at(2 * SLOT_BYTES);
    let (slot, after) = rest.split_at(SLOT_BYTES);
    assert_eq!(slot, table(Edition::Plain, &shift()));
    let mut others = before.iter().chain(after).chain(&bench.guarded);
    assert!(others.all(|&byte| byte == UNTOUCHED));
}

#[test]
fn load_of_slot_4_writes_the_guarded_table_and_nothing_else() {
    let mut bench = Bench::fresh();
    bench.charts[4] = alarm();
    bench.expect(Load { slot: 4 }, &[0, 0, 0, 0, 5]);
    assert_eq!(bench.guarded, table(Edition::Guarded, &alarm()));
    assert!(bench.tables.iter().all(|&byte| byte == UNTOUCHED));
}

#[test]
fn an_unused_slot_may_be_loaded_again() {
    let mut bench = Bench::with_objects(&[]);
    bench.charts[0] = smallest();
    bench.expect(Load { slot: 0 }, &[0, 0, 0, 0, 1]);
    let table = table(Edition::Plain, &smallest());
    assert_eq!(bench.tables[..SLOT_BYTES], table);
    // A refused chart leaves the slot as it was.
    bench.charts[0] = vec![3, 1, 0, 0, 0, 0, 0, 0];
    bench.expect(Load { slot: 0 }, &[14, 0, 0, 0, 2]);
    assert_eq!(bench.tables[..SLOT_BYTES], table);
    let start = Start {
        p: 1,
        slot: 0,
        depth: 1,
    };
    bench.expect(start, &[0, 1, 64]);
}

#[test]
fn a_used_slot_is_taken() {
    let mut bench = Bench::with_objects(&[(5, 1)]);
    bench.charts[1] = shift();
    bench.expect(Load { slot: 0 }, &[9]);
    bench.expect(Load { slot: 1 }, &[0, 0, 0, 0, 5]);
    bench.expect(Load { slot: 1 }, &[0, 0, 0, 0, 5]);
    // TAKEN comes before CHART.
    bench.charts[0] = Vec::new();
    bench.expect(Load { slot: 0 }, &[9]);
}

#[test]
fn charts_are_refused_by_class() {
    let mut bench = Bench::fresh();
    let top = [3, 1, 0, 0, 0, 0, 0, 0];
    let state = [1, 0, 0, 0, 0, 0, 0, 0];
    let row_of_state_2 = [2, 2, 4, 0, 0, 0, 0, 0];
    let charts = [
        Vec::new(),
        top.to_vec(),
        [[3, 2, 0, 0, 0, 0, 0, 0], state].concat(),
        [top, state, row_of_state_2].concat(),
    ];
    for (class, chart) in (1..).zip(charts) {
        bench.charts[0] = chart;
        bench.expect(Load { slot: 0 }, &[14, 0, 0, 0, class]);
    }
    assert!(bench.tables.iter().all(|&byte| byte == UNTOUCHED));
    bench.expect(
        Start {
            p: 1,
            slot: 0,
            depth: 1,
        },
        &[8],
    );
}

#[test]
fn start_opens_no_step() {
    let mut bench = Bench::with_objects(&[(9, 1), (10, 1)]);
    bench.expect(End, &[5]);
    bench.expect(Next, &[6]);
}

#[test]
fn new_writes_the_whole_block_and_nothing_else() {
    let mut bench = Bench::fresh();
    let mut payload = [0; 64];
    payload[..20].copy_from_slice(&[7; 20]);
    let new = New {
        signal: 4,
        size: 20,
        payload,
    };
    bench.expect_event(new, &[0, 0, 0, 15], handle(32, 0));
    let (before, rest) = bench.payloads.split_at(512);
    let (block, after) = rest.split_at(32);
    assert_eq!(block[..20], [7; 20]);
    assert_eq!(block[20..], [0; 12]);
    assert!(before.iter().chain(after).all(|&byte| byte == UNTOUCHED));
}

#[test]
fn read_shows_the_payload() {
    let mut bench = Bench::fresh();
    let payload: [u8; 64] = std::array::from_fn(|place| 100 + place as u8);
    for (size, block, mark) in [
        (0, 0, 31),
        (5, 1, 30),
        (18, 32, 15),
        (19, 33, 14),
        (64, 48, 7),
    ] {
        let mut used = payload;
        used[usize::from(size)..].fill(0);
        let new = New {
            signal: 4,
            size,
            payload: used,
        };
        bench.expect_event(new, &[0, 0, 0, mark], handle(block, 0));
        let shown = size.min(18);
        let head = [0, 0, 0, shown, size, 0];
        let expected = [&head, &payload[..usize::from(shown)]].concat();
        let read = Read {
            handle: handle(block, 0),
        };
        bench.expect(read, &expected);
        let part = bench.kernel.read_part(&read.record(), PAYLOADS_BYTES);
        assert_eq!(bench.payloads[part], payload[..usize::from(size)]);
    }
}

#[test]
fn read_hands_back_the_blocks_own_part() {
    let mut bench = Bench::fresh();
    for (size, begin) in [
        (16, 0),
        (10, 16),
        (17, 512),
        (32, 544),
        (33, 1_024),
        (64, 1_088),
    ] {
        let handle = bench.new_event(4, size);
        let record = Read { handle }.record();
        let part = bench.kernel.read_part(&record, PAYLOADS_BYTES);
        assert_eq!(part, begin..begin + usize::from(size));
    }
}

#[test]
fn a_refused_read_shows_an_empty_part() {
    let mut bench = Bench::fresh();
    let event = bench.new_event(4, 16);
    let part = |bench: &Bench, handle, length| {
        let record = Read { handle }.record();
        bench.kernel.read_part(&record, length)
    };
    assert_eq!(part(&bench, event, PAYLOADS_BYTES), 0..16);
    assert!(part(&bench, event, PAYLOADS_BYTES - 1).is_empty());
    assert!(part(&bench, event, PAYLOADS_BYTES + 1).is_empty());
    assert!(part(&bench, handle(0, 1), PAYLOADS_BYTES).is_empty());
    assert!(part(&bench, handle(1, 0), PAYLOADS_BYTES).is_empty());
    assert!(part(&bench, handle(56, 0), PAYLOADS_BYTES).is_empty());
    let record = Read { handle: event }.record();
    let short = bench.kernel.read_part(&record[..71], PAYLOADS_BYTES);
    assert!(short.is_empty());
    let hold = bench
        .kernel
        .read_part(&Hold { handle: event }.record(), PAYLOADS_BYTES);
    assert!(hold.is_empty());
}
