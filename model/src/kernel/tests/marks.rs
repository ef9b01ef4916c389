//! What NEW shows of its pool: the least number of free blocks since the fresh start.

use super::freeing::{by_drop, WAYS};
use super::*;

/// Of each pool the first block, the number of blocks, the smallest and the largest size.
const POOLS: [(u8, u8, [u8; 2]); 3] = [(0, 32, [0, 16]), (32, 16, [17, 32]), (48, 8, [33, 64])];

impl Bench {
    /// New events of one size, one for each of these marks.
    fn expect_marks(&mut self, size: u8, marks: &[u8]) -> Vec<Handle> {
        let mut events = Vec::new();
        for &mark in marks {
            let shown = self.send(new(31, size));
            let event = shown_handle(&shown);
            assert_eq!(shown, event_reply(&[0, 0, 0, mark], event));
            events.push(event);
        }
        events
    }

    /// The first new event of each pool.
    fn expect_fresh_marks(&mut self) {
        self.expect_event(new(4, 16), &[0, 0, 0, 31], handle(0, 0));
        self.expect_event(new(4, 32), &[0, 0, 0, 15], handle(32, 0));
        self.expect_event(new(4, 64), &[0, 0, 0, 7], handle(48, 0));
    }

    fn drop_all(&mut self, events: &[Handle]) {
        for &event in events {
            by_drop(self, event);
        }
    }
}

#[test]
fn the_block_just_taken_counts_as_taken() {
    Bench::fresh().expect_fresh_marks();
}

#[test]
fn the_mark_falls_to_0_as_a_pool_empties() {
    for (first, blocks, sizes) in POOLS {
        for size in sizes {
            let mut bench = Bench::fresh();
            for taken in 1..=blocks {
                let block = first + taken - 1;
                bench.expect_event(new(4, size), &[0, 0, 0, blocks - taken], handle(block, 0));
            }
            bench.expect(new(4, size), &[11]);
        }
    }
}

#[test]
fn a_dry_pool_keeps_the_mark_0() {
    for (first, blocks, [size, _]) in POOLS {
        let mut bench = Bench::fresh();
        let falling: Vec<u8> = (0..blocks).rev().collect();
        let events = bench.expect_marks(size, &falling);
        let dry = bench.kernel.clone();
        bench.expect(new(4, size), &[11]);
        bench.expect(new(4, size), &[11]);
        assert!(bench.kernel == dry);
        bench.drop_all(&events[..3]);
        // Two blocks are free after the first of these, then one, then none.
        for block in first..first + 3 {
            bench.expect_event(new(4, size), &[0, 0, 0, 0], handle(block, 1));
        }
        bench.expect(new(4, size), &[11]);
        // At least half of the blocks are free after this.
        bench.drop_all(&events[3..]);
        bench.expect_event(new(4, size), &[0, 0, 0, 0], handle(first + 3, 1));
    }
}

#[test]
fn the_mark_moves_again_once_it_is_passed() {
    let mut bench = Bench::fresh();
    let events = bench.expect_marks(16, &[31, 30, 29, 28, 27]);
    bench.drop_all(&events[1..4]);
    // With 29, 28 and 27 free blocks, then with fewer than ever.
    bench.expect_marks(16, &[27, 27, 27, 26, 25]);
    // One block given back and taken again is no new low.
    bench.drop_all(&events[..1]);
    bench.expect_event(new(4, 16), &[0, 0, 0, 25], handle(0, 1));
    bench.expect_event(new(4, 16), &[0, 0, 0, 24], handle(7, 0));
}

#[test]
fn no_way_of_freeing_moves_the_mark() {
    for free in WAYS {
        let mut bench = Bench::with_objects(&[(5, 1)]);
        for event in bench.expect_marks(16, &[31, 30, 29]) {
            free(&mut bench, event);
        }
        bench.expect_marks(16, &[29, 29, 29, 28]);
    }
}

#[test]
fn a_block_is_not_free_whatever_keeps_it() {
    let mut bench = Bench::with_objects(&[(5, 1), (9, 1)]);
    let events = bench.expect_marks(16, &[31, 30, 29, 28]);
    let [held, queued, set_aside, in_hand] = events[..] else {
        panic!("there are four");
    };
    bench.expect(Hold { handle: held }, &[0, 0, 0, 0, 1]);
    bench.post(queued, 5);
    bench.post(set_aside, 9);
    bench.expect_event(Next, &[0, 9, 31], handle(2, 0));
    bench.expect(Defer { q: 0 }, &[0, 0, 0, 0, 1]);
    bench.expect(End, &[0, 0, 0, 0, 0]);
    bench.post(in_hand, 9);
    bench.expect_event(Next, &[0, 9, 31], handle(3, 0));
    bench.expect_marks(16, &[27]);
}

#[test]
fn each_pool_has_its_own_mark() {
    let mut bench = Bench::fresh();
    bench.expect_marks(16, &[31, 30, 29]);
    let middle = bench.expect_marks(32, &[15, 14, 13, 12]);
    bench.expect_marks(64, &[7, 6]);
    bench.expect_marks(0, &[28]);
    bench.drop_all(&middle);
    bench.expect_marks(33, &[5]);
    bench.expect_marks(17, &[12]);
    bench.expect_marks(1, &[27]);
}

#[test]
fn a_dry_pool_moves_no_other_mark() {
    let mut bench = Bench::fresh();
    for _ in 0..32 {
        bench.new_event(4, 16);
    }
    for size in 0..=16 {
        bench.expect(new(4, size), &[11]);
    }
    bench.expect_event(new(4, 17), &[0, 0, 0, 15], handle(32, 0));
    for _ in 0..15 {
        bench.new_event(4, 17);
    }
    for size in 17..=32 {
        bench.expect(new(4, size), &[11]);
    }
    bench.expect_event(new(4, 33), &[0, 0, 0, 7], handle(48, 0));
}

/// Every refusal of NEW but DRY.
fn refuse_new(bench: &mut Bench) {
    let before = bench.kernel.clone();
    let sizes = POOLS.iter().flat_map(|(_, _, sizes)| sizes);
    for &size in sizes {
        let record = new(4, size).record();
        let mut unused_argument = record;
        unused_argument[3] = 1;
        let too_long = [&record[..], &[0]].concat();
        for wrong in [&record[..71], &unused_argument[..], &too_long[..]] {
            assert_eq!(bench.send_record(wrong), reply(&[1]));
        }
        for signal in [0, 3, 32, 255] {
            bench.expect(new(signal, size), &[3]);
        }
        for length in [0, PAYLOADS_BYTES - 1, PAYLOADS_BYTES + 1] {
            let mut payloads = vec![UNTOUCHED; length];
            let answer =
                bench
                    .kernel
                    .command(&record, &[], &mut payloads, &mut [], &mut [], &mut []);
            assert_eq!(answer, reply(&[2]));
        }
    }
    for size in [65, 255] {
        bench.expect(new(4, size), &[3]);
    }
    let mut past_the_size = new(4, 16).record();
    past_the_size[8 + 16] = 1;
    assert_eq!(bench.send_record(&past_the_size), reply(&[1]));
    assert!(bench.kernel == before);
}

#[test]
fn a_refused_new_moves_no_mark() {
    let mut bench = Bench::fresh();
    refuse_new(&mut bench);
    bench.expect_fresh_marks();
    refuse_new(&mut bench);
    bench.expect_marks(16, &[30]);
    bench.expect_marks(32, &[14]);
    bench.expect_marks(64, &[6]);
}

#[test]
fn the_marks_begin_again_at_a_fresh_start() {
    let mut bench = Bench::fresh();
    for (_, blocks, [size, _]) in POOLS {
        for _ in 0..blocks {
            bench.new_event(4, size);
        }
    }
    bench.kernel = Kernel::fresh();
    bench.expect_fresh_marks();
    // So at each start of the program.
    let trace = [new(4, 0).record(), new(4, 0).record()].concat();
    let second = event_reply(&[0, 0, 0, 30], handle(1, 0));
    let expected = [reply(&[0, 0, 0, 31]), second].concat();
    for _ in 0..2 {
        assert_eq!(replay(&trace, &Charts::default()), expected);
    }
}
