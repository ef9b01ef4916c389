//! Blocks, handles, holds and references.

use super::*;

#[test]
fn sizes_choose_pools() {
    for (size, block, mark) in [
        (0, 0, 31),
        (16, 0, 31),
        (17, 32, 15),
        (20, 32, 15),
        (33, 48, 7),
        (64, 48, 7),
    ] {
        Bench::fresh().expect_event(new(4, size), &[0, 0, 0, mark], handle(block, 0));
    }
    Bench::fresh().expect(new(4, 65), &[3]);
}

#[test]
fn a_dry_pool_does_not_borrow() {
    let mut bench = Bench::fresh();
    for block in 0..=31 {
        bench.expect_event(new(4, 16), &[0, 0, 0, 31 - block], handle(block, 0));
    }
    bench.expect(new(4, 16), &[11]);
    bench.expect(new(4, 0), &[11]);
    bench.expect_event(new(4, 17), &[0, 0, 0, 15], handle(32, 0));
    // The lowest block that was freed comes back first.
    for block in [20, 3] {
        let handle = handle(block, 0);
        bench.expect(Drop { handle }, &[0]);
    }
    bench.expect_event(new(4, 16), &[0, 0, 0, 0], handle(3, 1));
    bench.expect_event(new(4, 16), &[0, 0, 0, 0], handle(20, 1));
    bench.expect(new(4, 16), &[11]);
}

#[test]
fn the_larger_pools_run_dry_too() {
    let mut bench = Bench::fresh();
    for block in 32..=47 {
        bench.expect_event(new(4, 32), &[0, 0, 0, 47 - block], handle(block, 0));
    }
    bench.expect(new(4, 17), &[11]);
    for block in 48..=55 {
        bench.expect_event(new(4, 64), &[0, 0, 0, 55 - block], handle(block, 0));
    }
    bench.expect(new(4, 64), &[11]);
    bench.expect_event(new(4, 16), &[0, 0, 0, 31], handle(0, 0));
}

#[test]
fn an_event_in_two_mailboxes_is_freed_after_both_steps() {
    let mut bench = Bench::with_objects(&[(5, 1), (9, 1)]);
    bench.expect_event(new(31, 20), &[0, 0, 0, 15], handle(32, 0));
    let event = handle(32, 0);
    bench.post(event, 5);
    bench.post(event, 9);
    bench.expect_event(Next, &[0, 9, 31], handle(32, 0));
    bench.expect(End, &[0, 0, 0, 0, 0]);
    bench.expect_event(Next, &[0, 5, 31], handle(32, 0));
    bench.expect(End, &[0, 0, 0, 0, 1]);
    bench.expect_event(new(4, 20), &[0, 0, 0, 15], handle(32, 1));
    bench.expect(Read { handle: event }, &[7]);
    bench.expect(
        Drop {
            handle: handle(32, 1),
        },
        &[0],
    );
}

#[test]
fn an_event_is_not_free_while_it_is_in_hand() {
    let mut bench = Bench::with_objects(&[(5, 1)]);
    let event = bench.new_event(31, 16);
    bench.post(event, 5);
    bench.expect_event(Next, &[0, 5, 31], handle(0, 0));
    bench.expect(Drop { handle: event }, &[13]);
    bench.expect_event(new(31, 16), &[0, 0, 0, 30], handle(1, 0));
    bench.expect(End, &[0, 0, 0, 0, 1]);
    bench.expect(Drop { handle: event }, &[7]);
    bench.expect_event(new(31, 16), &[0, 0, 0, 30], handle(0, 1));
}

#[test]
fn an_event_reposted_in_its_own_step_survives_its_end() {
    let mut bench = Bench::with_objects(&[(5, 1)]);
    let event = bench.new_event(31, 16);
    bench.post(event, 5);
    bench.expect_event(Next, &[0, 5, 31], handle(0, 0));
    // NEXT has emptied the one place.
    bench.post(event, 5);
    bench.expect(End, &[0, 0, 0, 0, 0]);
    bench.expect_event(Next, &[0, 5, 31], handle(0, 0));
    bench.expect(End, &[0, 0, 0, 0, 1]);
}

#[test]
fn an_event_held_in_its_own_step_survives_its_end() {
    let mut bench = Bench::with_objects(&[(5, 1)]);
    let event = bench.new_event(31, 16);
    bench.post(event, 5);
    bench.expect_event(Next, &[0, 5, 31], handle(0, 0));
    bench.expect(Hold { handle: event }, &[0, 0, 0, 0, 1]);
    bench.expect(End, &[0, 0, 0, 0, 0]);
    bench.expect(Release { handle: event }, &[0, 0, 0, 0, 0, 1]);
    bench.expect(Release { handle: event }, &[7]);
}

#[test]
fn a_release_in_the_step_leaves_the_free_to_end() {
    let mut bench = Bench::with_objects(&[(5, 1)]);
    let event = bench.new_event(31, 16);
    bench.expect(Hold { handle: event }, &[0, 0, 0, 0, 1]);
    bench.post(event, 5);
    bench.expect_event(Next, &[0, 5, 31], handle(0, 0));
    bench.expect(Release { handle: event }, &[0, 0, 0, 0, 0, 0]);
    bench.expect(End, &[0, 0, 0, 0, 1]);
}

#[test]
fn at_most_fifteen_holds() {
    let mut bench = Bench::fresh();
    let handle = bench.new_event(4, 0);
    bench.expect(Release { handle }, &[12]);
    for holds in 1..=15 {
        bench.expect(Hold { handle }, &[0, 0, 0, 0, holds]);
    }
    bench.expect(Hold { handle }, &[12]);
    bench.expect(Drop { handle }, &[13]);
    for holds in (1..=14).rev() {
        bench.expect(Release { handle }, &[0, 0, 0, 0, holds, 0]);
    }
    bench.expect(Release { handle }, &[0, 0, 0, 0, 0, 1]);
    bench.expect(Hold { handle }, &[7]);
}

#[test]
fn the_last_reference_may_be_a_hold_or_a_step() {
    let mut bench = Bench::with_objects(&[(5, 2)]);
    let handle = bench.new_event(31, 0);
    bench.post(handle, 5);
    bench.post(handle, 5);
    bench.expect(Hold { handle }, &[0, 0, 0, 0, 1]);
    bench.expect(Release { handle }, &[0, 0, 0, 0, 0, 0]);
    bench.expect(Release { handle }, &[12]);
    bench.expect(Drop { handle }, &[13]);
    bench.expect(Drain { budget: 1 }, &[0, 0, 0, 0, 1, 0]);
    bench.expect(Drop { handle }, &[13]);
    bench.expect(Drain { budget: 1 }, &[0, 0, 0, 0, 1, 1]);
    bench.expect(Drop { handle }, &[7]);
}
