//! Random streams for the reader, and random calls of the writer.

use super::super::random::Xorshift;
use super::damage::{damaged, special_byte};
use super::{sent, Writing, MOST_ROOM, MOST_SIZE, MOST_STREAM};
use crate::frame::MOST_DATA;

/// Frames that are numbered on most of the time, damaged or not. Most streams are short: the program reads each as
/// often as it is long.
pub fn random_stream(random: &mut Xorshift) -> Vec<u8> {
    let stream = intact_stream(random);
    let times = random.pick(&[0, 0, 0, 1, 1, 1, 2, 3]);
    let mut stream = damaged(random, stream, times);
    stream.truncate(MOST_STREAM);
    stream
}

/// Some of the frames may have too much data.
fn intact_stream(random: &mut Xorshift) -> Vec<u8> {
    let large = random.pick(&[2, 5, 10, 10, 60]);
    let any = special_byte(random);
    let mut number = random.pick(&[0, 0x7C, 253, any]);
    let mut stream = Vec::new();
    for _ in 0..frame_count(random) {
        let size = size(random, large, &[91, 92, 93, 93, 94, 95]);
        let record = special_byte(random);
        stream.extend(sent(number, record, &random_data(random, size)));
        number = number.wrapping_add(step(random));
    }
    stream
}

/// None now and then, else a few or up to twelve.
fn frame_count(random: &mut Xorshift) -> usize {
    match random.below(20) {
        0 => 0,
        1..15 => 1 + random.below(4),
        _ => 1 + random.below(12),
    }
}

/// What the next number has more: mostly one.
fn step(random: &mut Xorshift) -> u8 {
    let any = random.byte();
    match random.percent(90) {
        true => 1,
        false => random.pick(&[0, 2, 255, any]),
    }
}

/// One of the edges so many times in a hundred, else a small size or a middling one.
fn size(random: &mut Xorshift, large: usize, edges: &[usize]) -> usize {
    if random.percent(large) {
        return random.pick(edges);
    }
    let bound = random.pick(&[6, 6, 6, 40]);
    random.below(bound)
}

fn random_data(random: &mut Xorshift, size: usize) -> Vec<u8> {
    (0..size).map(|_| special_byte(random)).collect()
}

/// With about as much room as the frame needs.
pub fn random_writing(random: &mut Xorshift) -> Writing {
    let any = random.below(MOST_SIZE + 1);
    let edges = [MOST_DATA - 1, MOST_DATA, MOST_DATA, MOST_DATA + 1, any];
    let size = size(random, 30, &edges);
    let mut writing = Writing {
        number: special_byte(random),
        record: special_byte(random),
        room: 0,
        data: random_data(random, size),
    };
    let length = writing.frame().len();
    let any = random.below(MOST_ROOM + 1);
    let around = (length + random.below(5)).saturating_sub(2);
    let room = random.pick(&[around, around, around, length, any]);
    writing.room = room.min(MOST_ROOM);
    writing
}

#[cfg(test)]
mod tests {
    use super::*;
    use crate::frame::{read, write, HandedOut, END};

    fn streams() -> Vec<Vec<u8>> {
        let mut random = Xorshift::new(1);
        (0..2000).map(|_| random_stream(&mut random)).collect()
    }

    /// Of how many streams this is true.
    fn count(wanted: impl Fn(&[u8], &[HandedOut]) -> bool) -> usize {
        let streams = streams();
        let found = streams
            .iter()
            .filter(|stream| wanted(stream, &read(stream)));
        found.count()
    }

    #[test]
    fn streams_have_frames_gaps_drops_and_torn_ends() {
        let no_frame = count(|_, frames| frames.is_empty());
        let many_frames = count(|_, frames| frames.len() >= 8);
        let gap = count(|_, frames| frames.iter().any(|read| read.gap));
        let ends = |stream: &[u8]| stream.iter().filter(|&&byte| byte == END).count();
        let dropped = count(|stream, frames| frames.len() < ends(stream));
        let torn = count(|stream, _| stream.last().is_some_and(|&last| last != END));
        let is_full = |read: &HandedOut| read.frame.data.len() == MOST_DATA;
        let full = count(|_, frames| frames.iter().any(is_full));
        for times in [no_frame, many_frames, gap, dropped, torn, full] {
            assert!((50..1500).contains(&times));
        }
    }

    /// Whatever was damaged, after the next end all is read as if nothing had happened, but for the gap at the first.
    #[test]
    fn damage_ends_with_the_next_end() {
        let mut random = Xorshift::new(2);
        for damaged in streams() {
            let damaged = [&damaged[..], &[END]].concat();
            let intact = intact_stream(&mut random);
            let mut together = read(&[&damaged[..], &intact].concat());
            let mut apart = read(&intact);
            let behind = together.split_off(read(&damaged).len());
            if let (Some(first), Some(alone)) = (behind.first(), apart.first_mut()) {
                let last = together.last().map(|read| read.frame.number);
                alone.gap = last.is_some_and(|last| first.frame.number != last.wrapping_add(1));
            }
            assert_eq!(together, read(&damaged));
            assert_eq!(behind, apart);
        }
    }

    /// The program's time goes with the square of a stream's length.
    #[test]
    fn streams_are_not_too_long() {
        let streams = streams();
        let squares = streams.iter().map(|stream| stream.len() * stream.len());
        let mean = squares.sum::<usize>() / streams.len();
        assert!(mean < 40_000);
        assert!(streams.iter().any(|stream| stream.len() > 800));
        assert!(streams.iter().any(|stream| stream.is_empty()));
    }

    #[test]
    fn writings_are_done_or_refused_for_either_reason() {
        let mut random = Xorshift::new(1);
        let (mut done, mut data, mut room) = (0, 0, 0);
        for _ in 0..1000 {
            let writing = random_writing(&mut random);
            let mut area = vec![0; writing.room];
            let answer = write(writing.number, writing.record, &writing.data, &mut area);
            let count = match answer.length {
                Some(_) => &mut done,
                None if writing.data.len() > MOST_DATA => &mut data,
                None => &mut room,
            };
            *count += 1;
        }
        assert!(done >= 300 && data >= 30 && room >= 100);
    }
}
