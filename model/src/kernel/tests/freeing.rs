//! The ways in which a block is let go for the last time.

use super::*;

/// Each lets go a new event of signal 31, which the shift chart ignores; object 5 must be there, and have a place.
pub const WAYS: [fn(&mut Bench, Handle); 6] =
    [by_drop, by_publish, by_release, by_end, by_drain, by_flush];

pub fn by_drop(bench: &mut Bench, handle: Handle) {
    bench.expect(Drop { handle }, &[0]);
}

fn by_publish(bench: &mut Bench, handle: Handle) {
    bench.expect(Publish { handle }, &[0, 0, 0, 0, 0, 1]);
}

fn by_release(bench: &mut Bench, handle: Handle) {
    bench.expect(Hold { handle }, &[0, 0, 0, 0, 1]);
    bench.expect(Release { handle }, &[0, 0, 0, 0, 0, 1]);
}

fn by_end(bench: &mut Bench, handle: Handle) {
    bench.post(handle, 5);
    bench.expect_event(Next, &[0, 5, 31], handle);
    bench.expect(End, &[0, 0, 0, 0, 1]);
}

fn by_drain(bench: &mut Bench, handle: Handle) {
    bench.post(handle, 5);
    bench.expect(Drain { budget: 1 }, &[0, 0, 0, 0, 1, 1]);
}

fn by_flush(bench: &mut Bench, handle: Handle) {
    bench.post(handle, 5);
    bench.expect_event(Next, &[0, 5, 31], handle);
    bench.expect(Defer { q: 0 }, &[0, 0, 0, 0, 1]);
    bench.expect(End, &[0, 0, 0, 0, 0]);
    bench.expect(Flush { q: 0 }, &[0, 0, 0, 0, 1]);
}
