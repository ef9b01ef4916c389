//! Random damage to a stream of frames.

use super::super::random::Xorshift;
use crate::frame::{END, ESCAPE, FLIPPED_END, FLIPPED_ESCAPE};

/// Bytes that mean something in a stream, and edges.
const SPECIAL: [u8; 6] = [END, ESCAPE, FLIPPED_END, FLIPPED_ESCAPE, 0, 255];

/// The stream of a whole trace; now and then it stays as it is.
pub fn by_seed(seed: u64, stream: Vec<u8>) -> Vec<u8> {
    let mut random = Xorshift::new(seed);
    let times = random.below(13);
    damaged(&mut random, stream, times)
}

/// The stream after so many damages.
pub(super) fn damaged(random: &mut Xorshift, stream: Vec<u8>, times: usize) -> Vec<u8> {
    (0..times).fold(stream, |stream, _| damaged_once(random, stream))
}

/// A byte that is often special.
pub(super) fn special_byte(random: &mut Xorshift) -> u8 {
    match random.percent(40) {
        true => random.pick(&SPECIAL),
        false => random.byte(),
    }
}

fn damaged_once(random: &mut Xorshift, mut stream: Vec<u8>) -> Vec<u8> {
    if stream.is_empty() {
        return vec![special_byte(random)];
    }
    let place = place(random, &stream);
    match random.below(10) {
        0..3 => stream[place] = special_byte(random),
        3 => stream[place] ^= 1 << random.below(8),
        4..6 => {
            let lost = random.pick(&[1, 1, 1, 2, 10, 60]);
            let end = stream.len().min(place + lost);
            stream.drain(place..end);
        }
        6..8 => {
            let count = random.pick(&[1, 1, 1, 2, 5, 100]);
            let more: Vec<u8> = (0..count).map(|_| special_byte(random)).collect();
            stream.splice(place..place, more);
        }
        // The check does not tell in which order bytes come.
        8 => stream.swap(place, place.saturating_sub(1)),
        _ => {
            let torn_off = 1 + random.below(40);
            stream.truncate(stream.len().saturating_sub(torn_off));
        }
    }
    stream
}

/// Any place, or that of an end or an escape.
fn place(random: &mut Xorshift, stream: &[u8]) -> usize {
    let is_telling = |byte: u8| byte == END || byte == ESCAPE;
    let telling: Vec<usize> = (0..stream.len())
        .filter(|&place| is_telling(stream[place]))
        .collect();
    match random.percent(40) && !telling.is_empty() {
        true => random.pick(&telling),
        false => random.below(stream.len()),
    }
}

#[cfg(test)]
mod tests {
    use super::super::sent;
    use super::*;
    use crate::frame::{read, HandedOut};

    /// Two hundred frames in a row.
    fn stream() -> Vec<u8> {
        (0..200)
            .flat_map(|number| sent(number, 1, &[number; 28]))
            .collect()
    }

    #[test]
    fn one_seed_damages_in_one_way() {
        assert_eq!(by_seed(3, stream()), by_seed(3, stream()));
        assert_ne!(by_seed(3, stream()), by_seed(4, stream()));
        assert!(by_seed(5, Vec::new()).len() < 1000);
    }

    #[test]
    fn most_frames_are_left_and_gaps_are_told() {
        let whole = read(&stream());
        let was_written = |found: &HandedOut| whole.iter().any(|read| read.frame == found.frame);
        let (mut unharmed, mut with_gaps, mut with_others) = (0, 0, 0);
        for seed in 0..100 {
            let left = read(&by_seed(seed, stream()));
            assert!(left.len() >= 150);
            unharmed += usize::from(left == whole);
            with_gaps += usize::from(left.iter().any(|read| read.gap));
            with_others += usize::from(!left.iter().all(was_written));
        }
        assert!(unharmed > 0 && with_gaps >= 70 && with_others > 0);
    }

    #[test]
    fn an_end_may_be_torn_off() {
        let torn = (0..100).filter(|&seed| by_seed(seed, stream()).last() != Some(&END));
        assert!(torn.count() >= 20);
    }
}
