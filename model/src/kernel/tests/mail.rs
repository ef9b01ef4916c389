//! Posting, publishing and the order of events.

use super::*;

#[test]
fn free_places_must_exceed_the_margin() {
    let mut bench = Bench::with_objects(&[(5, 1), (9, 3)]);
    let handle = bench.new_event(31, 0);
    let post = |p, margin| Post { handle, p, margin };
    // Depth 1, margin 1: always full.
    bench.expect(post(5, 1), &[10]);
    bench.expect(post(5, 15), &[10]);
    bench.expect(post(5, 0), &[0, 0, 0, 0, 1]);
    bench.expect(post(5, 0), &[10]);
    bench.expect(post(9, 3), &[10]);
    bench.expect(post(9, 2), &[0, 0, 0, 0, 1]);
    bench.expect(post(9, 2), &[10]);
    bench.expect(post(9, 1), &[0, 0, 0, 0, 2]);
    bench.expect(post(9, 0), &[0, 0, 0, 0, 3]);
    bench.expect(post(9, 0), &[10]);
    bench.expect(PostFront { handle, p: 9 }, &[10]);
}

#[test]
fn the_deepest_mailbox_has_sixteen_places() {
    let mut bench = Bench::with_objects(&[(16, 16)]);
    let handle = bench.new_event(31, 0);
    let post = |margin| Post {
        handle,
        p: 16,
        margin,
    };
    bench.expect(post(15), &[0, 0, 0, 0, 1]);
    bench.expect(post(15), &[10]);
    for queued in 2..=16 {
        bench.expect(post(0), &[0, 0, 0, 0, queued]);
    }
    bench.expect(post(0), &[10]);
    bench.expect(PostFront { handle, p: 16 }, &[10]);
    bench.expect(Drain { budget: 255 }, &[0, 0, 0, 0, 16, 1]);
}

#[test]
fn posts_go_to_the_back_and_front_posts_to_the_front() {
    let mut bench = Bench::with_objects(&[(5, 4)]);
    for signal in 20..=23 {
        bench.new_event(signal, 0);
    }
    let event = |block| handle(block, 0);
    bench.post(event(0), 5);
    bench.post(event(1), 5);
    let post_front = |block| PostFront {
        handle: event(block),
        p: 5,
    };
    bench.expect(post_front(2), &[0, 0, 0, 0, 3]);
    bench.expect(post_front(3), &[0, 0, 0, 0, 4]);
    for (block, signal) in [(3, 23), (2, 22), (0, 20), (1, 21)] {
        bench.expect_event(Next, &[0, 5, signal], handle(block, 0));
        bench.expect(End, &[0, 0, 0, 0, 1]);
    }
    bench.expect(Next, &[6]);
}

#[test]
fn the_highest_object_with_mail_is_next() {
    let mut bench = Bench::with_objects(&[(1, 2), (16, 1), (7, 1)]);
    let event = bench.new_event(31, 0);
    bench.post(event, 1);
    bench.post(event, 7);
    bench.expect(Next, &[0, 7, 31]);
    // The choice is made anew at each step.
    bench.post(event, 16);
    bench.expect(End, &[0]);
    bench.expect(Next, &[0, 16, 31]);
    bench.expect(End, &[0]);
    bench.expect(Next, &[0, 1, 31]);
    bench.expect(End, &[0, 0, 0, 0, 1]);
}

#[test]
fn each_step_moves_the_rest() {
    let mut bench = Bench::with_objects(&[(9, 5)]);
    for signal in [6, 9, 8, 11, 9] {
        let event = bench.new_event(signal, 0);
        bench.post(event, 9);
    }
    let steps: [&[u8]; 5] = [
        &[0, 9, 64 + 6, 4, 0, 0, 26, 22, 31, 41],
        &[0, 9, 32 + 9, 1, 0, 0, 49],
        &[0, 9, 64 + 8, 3, 0, 0, 38, 42, 51],
        &[0, 9, 64 + 11, 5, 0, 0, 59, 52, 32, 13, 21],
        // Back in state 2, which ignores signal 9.
        &[0, 9, 9],
    ];
    for (block, step) in (0..).zip(steps) {
        bench.expect_event(Next, step, handle(block, 0));
        bench.expect(End, &[0, 0, 0, 0, 1]);
    }
}

#[test]
fn publish_reaches_all_subscribers() {
    let mut bench = Bench::with_objects(&[(3, 1), (8, 1), (12, 2)]);
    for p in [3, 12] {
        bench.expect(Subscribe { p, signal: 31 }, &[0, 0, 0, 0, 1]);
    }
    bench.expect(Subscribe { p: 8, signal: 30 }, &[0, 0, 0, 0, 1]);
    let handle = bench.new_event(31, 0);
    bench.expect(Publish { handle }, &[0, 0, 0, 0, 2, 0]);
    bench.expect(Next, &[0, 12, 31]);
    bench.expect(End, &[0, 0, 0, 0, 0]);
    bench.expect(Next, &[0, 3, 31]);
    bench.expect(End, &[0, 0, 0, 0, 1]);
    bench.expect(Next, &[6]);
}

#[test]
fn publish_reaches_all_or_none() {
    let mut bench = Bench::with_objects(&[(3, 2), (12, 1)]);
    for p in [3, 12] {
        bench.expect(Subscribe { p, signal: 31 }, &[0, 0, 0, 0, 1]);
    }
    let handle = bench.new_event(31, 0);
    let blocker = bench.new_event(30, 0);
    for full in [12, 3] {
        let before = bench.kernel.clone();
        while bench.send(Post {
            handle: blocker,
            p: full,
            margin: 0,
        })[0]
            == 0
        {}
        let filled = bench.kernel.clone();
        bench.expect(Publish { handle }, &[10]);
        assert!(bench.kernel == filled);
        bench.kernel = before;
    }
    bench.expect(Publish { handle }, &[0, 0, 0, 0, 2, 0]);
    bench.expect(Publish { handle }, &[10]);
}

#[test]
fn publish_without_subscriber_frees_a_new_event_only() {
    let mut bench = Bench::with_objects(&[(3, 1)]);
    let handle = bench.new_event(31, 0);
    bench.expect(Publish { handle }, &[0, 0, 0, 0, 0, 1]);
    bench.expect(Publish { handle }, &[7]);

    let handle = bench.new_event(31, 0);
    bench.expect(Hold { handle }, &[0, 0, 0, 0, 1]);
    bench.expect(Publish { handle }, &[0, 0, 0, 0, 0, 0]);
    bench.post(handle, 3);
    bench.expect(Release { handle }, &[0, 0, 0, 0, 0, 0]);
    bench.expect(Publish { handle }, &[0, 0, 0, 0, 0, 0]);
    bench.expect_event(Next, &[0, 3, 31], handle);
    bench.expect(Publish { handle }, &[0, 0, 0, 0, 0, 0]);
    bench.expect(End, &[0, 0, 0, 0, 1]);
}

#[test]
fn subscriptions_change_once() {
    let mut bench = Bench::with_objects(&[(3, 1)]);
    let (p, signal) = (3, 31);
    bench.expect(Unsubscribe { p, signal }, &[0, 0, 0, 0, 0]);
    bench.expect(Subscribe { p, signal }, &[0, 0, 0, 0, 1]);
    bench.expect(Subscribe { p, signal }, &[0, 0, 0, 0, 0]);
    bench.expect(Unsubscribe { p, signal: 30 }, &[0, 0, 0, 0, 0]);
    // What is queued already stays.
    let handle = bench.new_event(signal, 0);
    bench.expect(Publish { handle }, &[0, 0, 0, 0, 1, 0]);
    bench.expect(Unsubscribe { p, signal }, &[0, 0, 0, 0, 1]);
    bench.expect(Unsubscribe { p, signal }, &[0, 0, 0, 0, 0]);
    bench.expect(Next, &[0, 3, 31]);
    bench.expect(Publish { handle }, &[0, 0, 0, 0, 0, 0]);
}

#[test]
fn one_event_may_be_queued_in_all_256_places() {
    let objects: Vec<(u8, u8)> = PRIORITIES.map(|p| (p, 16)).collect();
    let mut bench = Bench::with_objects(&objects);
    let handle = bench.new_event(31, 0);
    for _ in 0..15 {
        bench.send(Hold { handle });
    }
    for p in PRIORITIES {
        for _ in 0..16 {
            bench.post(handle, p);
        }
    }
    bench.expect(Next, &[0, 16, 31]);
    bench.post(handle, 16);
    assert_eq!(bench.kernel.references(handle.block), 256 + 15 + 1);
    bench.expect(End, &[0, 0, 0, 0, 0]);
    bench.expect(Drain { budget: 255 }, &[0, 0, 0, 0, 255, 0]);
    bench.expect(Drain { budget: 255 }, &[0, 0, 0, 0, 1, 1]);
    assert_eq!(bench.kernel.references(handle.block), 15);
}
