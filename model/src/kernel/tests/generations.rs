//! Handles over the generations of a block, and blocks that are retired after the last.

use super::freeing::{by_drop, WAYS};
use super::*;

/// The first of the eight blocks of 64 bytes.
const BLOCK: u8 = 48;

/// Every command that names a handle; object 5 must be there.
fn naming(handle: Handle) -> [Command; 7] {
    let (p, margin) = (5, 0);
    [
        Post { handle, p, margin },
        PostFront { handle, p },
        Publish { handle },
        Hold { handle },
        Release { handle },
        Drop { handle },
        Read { handle },
    ]
}

impl Bench {
    /// With object 5, which has some places, and this generation for the first block of 64 bytes.
    fn with_generation(generation: u32) -> Self {
        let mut bench = Bench::with_objects(&[(5, 4)]);
        bench.kernel.pool.set_generation(BLOCK, generation);
        bench
    }

    /// A new event of 64 bytes, which takes this block with this generation.
    fn expect_new(&mut self, mark: u8, event: Handle) {
        self.expect_event(new(31, 64), &[0, 0, 0, mark], event);
    }

    /// The first block of 64 bytes, taken and dropped so many times after a fresh start, and taken once more.
    fn with_lives(lives: u32) -> Self {
        let mut bench = Bench::with_generation(0);
        for generation in 0..lives {
            bench.expect_new(7, handle(BLOCK, generation));
            by_drop(&mut bench, handle(BLOCK, generation));
        }
        bench.expect_new(7, handle(BLOCK, lives));
        bench
    }

    /// Each command that names the handle is refused and changes nothing.
    fn expect_stale(&mut self, handle: Handle) {
        let before = self.kernel.clone();
        for command in naming(handle) {
            self.expect(command, &[7]);
        }
        assert!(self.kernel == before);
    }

    /// No command that names the handle finds it stale.
    fn expect_fitting(&mut self, handle: Handle) {
        let before = self.kernel.clone();
        for command in naming(handle) {
            assert_ne!(self.send(command)[0], 7, "{command:?}");
            self.kernel = before.clone();
        }
    }

    /// Takes the first block of 64 bytes, with its last generation, and frees it in this way.
    fn retire_first(&mut self, free: fn(&mut Bench, Handle)) {
        let event = handle(BLOCK, LAST_GENERATION);
        self.kernel.pool.set_generation(BLOCK, LAST_GENERATION);
        self.expect_new(7, event);
        free(self, event);
    }
}

#[test]
fn an_old_handle_does_not_fit_again_after_256_frees() {
    let mut bench = Bench::with_lives(256);
    for generation in 0..=255 {
        bench.expect_stale(handle(BLOCK, generation));
    }
    bench.expect_fitting(handle(BLOCK, 256));
}

#[test]
fn an_old_handle_does_not_fit_again_after_65_536_frees() {
    let mut bench = Bench::with_lives(65_536);
    for generation in [0, 255, 256, 65_280, 65_535] {
        bench.expect_stale(handle(BLOCK, generation));
    }
    bench.expect_fitting(handle(BLOCK, 65_536));
}

#[test]
fn each_byte_of_a_handle_is_compared() {
    for generation in [0, 0x01_0203, 0x7f_8081, LAST_GENERATION] {
        let mut bench = Bench::with_generation(generation);
        let event = handle(BLOCK, generation);
        bench.expect_new(7, event);
        for bit in 0..24 {
            bench.expect_stale(handle(BLOCK, generation ^ 1 << bit));
        }
        bench.expect_stale(handle(BLOCK + 1, generation));
        bench.expect_fitting(event);
    }
}

#[test]
fn every_generation_is_in_range() {
    let mut bench = Bench::with_generation(0);
    for generation in [0, 255, 256, 65_535, 65_536, LAST_GENERATION] {
        bench.expect_stale(handle(BLOCK, generation));
    }
    // RANGE looks at the block, and comes before STALE.
    for command in naming(handle(56, LAST_GENERATION)) {
        bench.expect(command, &[3]);
    }
}

#[test]
fn new_next_and_the_log_show_the_whole_generation() {
    let event = handle(BLOCK, 0x01_0203);
    let mut bench = Bench::with_generation(event.generation);
    bench.expect_new(7, event);
    bench.post(event, 5);
    bench.post(event, 5);
    bench.expect_event(Next, &[0, 5, 31], event);
    bench.expect(End, &[0]);
    bench.expect(
        Arm {
            timer: 15,
            p: 5,
            signal: 30,
            ticks: 1,
            interval: 0,
        },
        &[0],
    );
    bench.expect(Tick, &[0, 0, 0, 0, 1, 0]);
    bench.expect(Drain { budget: 255 }, &[0, 0, 0, 0, 2, 1]);
    let lines = [
        event_reply(&[0, 5, 31], event),
        event_reply(&[0, 5, 30], timer_event(15)),
    ];
    assert_eq!(
        lines.map(|line| line[24..].to_vec()).concat(),
        [48, 3, 2, 1, 143, 0, 0, 0]
    );
    assert_eq!(bench.log[..56], lines.concat());
    assert!(bench.log[56..].iter().all(|&byte| byte == UNTOUCHED));
    bench.expect_new(7, handle(BLOCK, 0x01_0204));
}

#[test]
fn at_the_last_generation_each_way_of_freeing_retires() {
    for free in WAYS {
        let mut bench = Bench::with_generation(0);
        bench.retire_first(free);
        assert_eq!(bench.kernel.handle(BLOCK).generation, LAST_GENERATION);
        assert_eq!(bench.kernel.references(BLOCK), 0);
        for generation in [LAST_GENERATION, LAST_GENERATION - 1, 0, 1] {
            bench.expect_stale(handle(BLOCK, generation));
        }
        // It is not handed out again, and the next block is.
        bench.expect_new(6, handle(BLOCK + 1, 0));
    }
}

#[test]
fn one_generation_before_the_last_no_way_of_freeing_retires() {
    for free in WAYS {
        let mut bench = Bench::with_generation(LAST_GENERATION - 1);
        let event = handle(BLOCK, LAST_GENERATION - 1);
        bench.expect_new(7, event);
        free(&mut bench, event);
        bench.expect_stale(handle(BLOCK, LAST_GENERATION));
        bench.expect_new(7, handle(BLOCK, LAST_GENERATION));
        bench.expect_stale(event);
        bench.expect_fitting(handle(BLOCK, LAST_GENERATION));
    }
}

#[test]
fn an_event_with_references_is_not_retired() {
    let event = handle(BLOCK, LAST_GENERATION);
    let mut bench = Bench::with_generation(LAST_GENERATION);
    bench.expect_new(7, event);
    bench.post(event, 5);
    bench.post(event, 5);
    bench.expect(Hold { handle: event }, &[0, 0, 0, 0, 1]);
    bench.expect_event(Next, &[0, 5, 31], event);
    bench.expect(Defer { q: 0 }, &[0, 0, 0, 0, 1]);
    bench.expect(End, &[0, 0, 0, 0, 0]);
    bench.expect(Drain { budget: 9 }, &[0, 0, 0, 0, 1, 1]);
    bench.expect(Release { handle: event }, &[0, 0, 0, 0, 0, 0]);
    bench.expect(Drop { handle: event }, &[13]);
    bench.expect_fitting(event);
    bench.expect(Flush { q: 0 }, &[0, 0, 0, 0, 1]);
    bench.expect_stale(event);
}

#[test]
fn a_retired_block_counts_as_taken_for_the_mark() {
    let mut bench = Bench::with_generation(0);
    bench.retire_first(by_drop);
    bench.expect_new(6, handle(49, 0));
    bench.expect_new(5, handle(50, 0));
    by_drop(&mut bench, handle(50, 0));
    by_drop(&mut bench, handle(49, 0));
    // Six blocks are free after this, five of them after the next, and four after that.
    bench.expect_new(5, handle(49, 1));
    bench.expect_new(5, handle(50, 1));
    bench.expect_new(4, handle(51, 0));
    // The other pools have lost nothing.
    bench.expect_event(new(4, 32), &[0, 0, 0, 15], handle(32, 0));
    bench.expect_event(new(4, 16), &[0, 0, 0, 31], handle(0, 0));
}

#[test]
fn a_pool_of_retired_blocks_is_dry() {
    let mut bench = Bench::with_generation(0);
    for block in 48..=55 {
        let event = handle(block, LAST_GENERATION);
        bench.kernel.pool.set_generation(block, LAST_GENERATION);
        bench.expect_new(55 - block, event);
        by_drop(&mut bench, event);
    }
    for size in [33, 64] {
        bench.expect(new(4, size), &[11]);
    }
    for block in 48..=55 {
        bench.expect_stale(handle(block, LAST_GENERATION));
    }
    // Nothing is borrowed, and the others go on.
    bench.expect_event(new(4, 32), &[0, 0, 0, 15], handle(32, 0));
}

#[test]
fn a_pool_with_one_retired_block_is_dry_one_block_sooner() {
    let mut bench = Bench::with_generation(0);
    bench.retire_first(by_drop);
    for block in 49..=55 {
        bench.expect_new(55 - block, handle(block, 0));
    }
    bench.expect(new(4, 64), &[11]);
    by_drop(&mut bench, handle(52, 0));
    bench.expect_new(0, handle(52, 1));
    bench.expect(new(4, 64), &[11]);
}

#[test]
fn several_blocks_are_retired_by_one_command() {
    let mut bench = Bench::with_generation(0);
    for block in [48, 49, 50] {
        let event = handle(block, LAST_GENERATION);
        bench.kernel.pool.set_generation(block, LAST_GENERATION);
        bench.expect_new(55 - block, event);
        bench.post(event, 5);
        bench.expect_event(Next, &[0, 5, 31], event);
        bench.expect(Defer { q: 1 }, &[0, 0, 0, 0, block - 47]);
        bench.expect(End, &[0, 0, 0, 0, 0]);
    }
    bench.expect(Flush { q: 1 }, &[0, 0, 0, 0, 3]);
    for block in [48, 49, 50] {
        bench.expect_stale(handle(block, LAST_GENERATION));
    }
    bench.expect_new(4, handle(51, 0));
}
