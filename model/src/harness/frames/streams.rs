//! The telling streams of the reader.
//!
//! What is tried often stands in the middle, where the frame of number 2 would, between those of numbers 1 and 3: if it
//! is dropped, a gap is told at 3.

use super::writings::{self, BOOK};
use super::{filler_for, sent, Writing, MOST_STREAM};
use crate::frame::*;

pub fn all() -> Vec<Vec<u8>> {
    let kinds = [
        rubbish(),
        read_back(),
        lengths(),
        frames_inside_others(),
        checks(),
        escapes(),
        unneeded_escapes(),
        ends(),
        gaps(),
        overwritten(),
        lost_bytes(),
        inserted_bytes(),
        torn(),
        swapped(),
        passing(),
    ];
    kinds.concat()
}

/// A frame without data.
fn short(number: u8) -> Vec<u8> {
    sent(number, 0, &[])
}

fn in_the_middle(tried: &[u8]) -> Vec<u8> {
    [&short(1), tried, &short(3)].concat()
}

/// No frame at all, or none that is handed out before an end comes.
fn rubbish() -> Vec<Vec<u8>> {
    vec![
        vec![],
        vec![END],
        vec![END; 4],
        vec![5],
        vec![ESCAPE],
        vec![ESCAPE, END],
        vec![ESCAPE, FLIPPED_END],
        vec![9; 120],
        vec![9; MOST_STREAM],
        [vec![ESCAPE; 600], short(7)].concat(),
        [vec![9; 600], vec![END], short(7), short(8)].concat(),
    ]
}

/// The frames that the writer writes, in streams that are not too long: the program reads each as often as it is long.
fn read_back() -> Vec<Vec<u8>> {
    let kinds = writings::read_back();
    kinds.iter().flat_map(|kind| streams_of(kind)).collect()
}

fn streams_of(kind: &[Writing]) -> Vec<Vec<u8>> {
    const LONG: usize = 500;
    let mut streams = vec![Vec::new()];
    for frame in kind.iter().map(Writing::frame) {
        let last = streams.last_mut().expect("there is one");
        match last.len() + frame.len() <= LONG {
            true => last.extend(frame),
            false => streams.push(frame),
        }
    }
    streams
}

/// So many bytes unescaped with a check that fits. Behind the limit are those that a count of one byte takes for fewer.
fn lengths() -> Vec<Vec<u8>> {
    let plain = [
        1, 2, 3, 4, 95, 96, 97, 98, 192, 255, 256, 257, 258, 259, 352, 512, 515,
    ];
    let escaped = [3, 96, 97, 98, 193, 259];
    let plain = plain.map(|count| (count, 2));
    let escaped = escaped.map(|count| (count, ESCAPE));
    let counts = plain.into_iter().chain(escaped);
    let tried = counts.map(|(count, byte)| {
        let mut bytes = vec![byte; count - 1];
        if let Some(number) = bytes.first_mut() {
            *number = 2;
        }
        enclosed(&with_check(&bytes))
    });
    tried.map(|tried| in_the_middle(&tried)).collect()
}

/// Frames that would be one without the bytes before or behind them.
fn frames_inside_others() -> Vec<Vec<u8>> {
    let largest = with_check(&[&[2, 0], &[7; MOST_DATA][..]].concat());
    let small = with_check(&[2, 0, 7]);
    let escaped_first = with_check(&[END, 0, 7]);
    let tried = [
        [&largest[..], &[9]].concat(),
        [&[9], &largest[..]].concat(),
        [&largest[..], &small].concat(),
        [&[9; MOST_UNESCAPED][..], &small].concat(),
        [&[9; MOST_UNESCAPED + 1][..], &escaped_first].concat(),
        [&[9; 256][..], &small].concat(),
        [&[9; 256][..], &largest].concat(),
        [&small[..], &[0; 256]].concat(),
        [&small[..], &[9]].concat(),
        [&[9], &small[..]].concat(),
    ];
    let tried = tried.map(|bytes| in_the_middle(&enclosed(&bytes)));
    tried.into()
}

/// Check bytes that are wrong in a way that one may get them wrong.
fn checks() -> Vec<Vec<u8>> {
    let bytes = [2, 10, 20, END];
    let check = check_byte(&bytes);
    let escaped = enclosed(&bytes);
    let wrong = [
        !check,                  // not inverted
        (!check).wrapping_neg(), // the sum's negative
        check.wrapping_add(1),
        check ^ 128,
        check_byte(&bytes[1..]),                   // without the number
        check_byte(&bytes[2..]),                   // of the data alone
        check_byte(&escaped[..escaped.len() - 1]), // of the bytes as they are sent
        check_byte(&escaped),
    ];
    let wrong = wrong.map(|check| enclosed(&[&bytes[..], &[check]].concat()));
    let missing = enclosed(&bytes);
    // Sent as it is, this check byte ends the frame, and that one escapes the end.
    let not_escaped = [END, ESCAPE].map(|check| {
        let filler = filler_for(check, &[2, 10, 20]);
        vec![2, 10, 20, filler, check, END]
    });
    let tried = wrong.into_iter().chain([missing]).chain(not_escaped);
    tried.map(|tried| in_the_middle(&tried)).collect()
}

/// The two bytes that may follow an escape, those that differ from them in one bit, and others.
fn following_bytes() -> Vec<u8> {
    let allowed = [FLIPPED_END, FLIPPED_ESCAPE];
    let bits = (0..8).map(|bit| 1 << bit);
    let near = bits.flat_map(|bit: u8| allowed.map(|byte| byte ^ bit));
    let others = [0, 1, 0x20, 0x60, 0x7B, 0x80, 255];
    let mut bytes: Vec<u8> = allowed.into_iter().chain(near).chain(others).collect();
    bytes.sort_unstable();
    bytes.dedup();
    bytes
}

/// An escape in the data before each of these bytes, with a check byte that fits the byte flipped, the byte alone, or
/// the escape and the byte: so a reader that takes it for one of these shows.
fn escapes() -> Vec<Vec<u8>> {
    let tried = following_bytes().into_iter().flat_map(|following| {
        let flipped = following ^ FLIP;
        let taken_for = [vec![flipped], vec![following], vec![ESCAPE, following]];
        taken_for.map(|taken_for| {
            let check = check_byte(&[&[2, 10], &taken_for[..], &[20]].concat());
            [&[2, 10, ESCAPE, following, 20], &enclosed(&[check])[..]].concat()
        })
    });
    tried.map(|tried| in_the_middle(&tried)).collect()
}

/// Each byte of a frame in turn is sent flipped behind an escape, though it is neither of the two that must be.
fn unneeded_escapes() -> Vec<Vec<u8>> {
    let frame = sent(2, 10, &[20, 30]);
    let escaped_at = |place: usize| {
        let (before, rest) = frame.split_at(place);
        [before, &[ESCAPE, rest[0] ^ FLIP], &rest[1..]].concat()
    };
    let places = 0..frame.len() - 1;
    places
        .map(|place| in_the_middle(&escaped_at(place)))
        .collect()
}

/// Ends, and escapes before them, where no frame is.
fn ends() -> Vec<Vec<u8>> {
    let (number, record, data) = BOOK;
    let frame = sent(number, record, &data);
    let without_end = &frame[..frame.len() - 1];
    vec![
        [&[END], &short(1)[..], &[END; 3], &short(2), &[END]].concat(),
        in_the_middle(&[ESCAPE, END]),
        in_the_middle(&[ESCAPE, ESCAPE, END]),
        in_the_middle(&[ESCAPE, END, ESCAPE, END]),
        in_the_middle(&[without_end, &[ESCAPE, END]].concat()),
        [&short(0x7D)[..], &[ESCAPE, END], &frame].concat(),
        [&short(0x7D)[..], &[ESCAPE], &frame].concat(),
        // After a bad escape no frame begins before the next end.
        [&short(0x7D)[..], &[ESCAPE, 9], &frame].concat(),
        in_the_middle(&[&[ESCAPE, 9], &sent(2, 0, &[7])[..]].concat()),
        in_the_middle(&[&[9, ESCAPE], &sent(2, 0, &[7])[..]].concat()),
        // A good frame but for its first byte, and but for its last.
        [&short(0x7D)[..], &frame[1..], &short(0x7F)].concat(),
        [&short(0x7D)[..], without_end, &short(0x7F)].concat(),
        [&frame[..], without_end].concat(),
    ]
}

fn gaps() -> Vec<Vec<u8>> {
    let mut streams = vec![
        (0..=255).chain([0, 1]).flat_map(short).collect(),
        [7, 7, 7, 8].map(short).concat(),
        [9, 8, 7, 6].map(short).concat(),
        [250, 252, 254, 0, 2].map(short).concat(),
        // The frames of numbers 2 and 5 are dropped: neither is the last.
        in_the_middle(&damaged(2)),
        [short(1), damaged(5), short(2)].concat(),
        [damaged(1), short(2)].concat(),
        [damaged(1), short(9), damaged(10), short(10)].concat(),
    ];
    streams.extend([0..=127, 128..=255].map(|numbers| alternating(255, numbers)));
    for last in [0u8, 1, 125, 126, 127, 128, 254] {
        let near = [255, 0, 1, 2, 128, 129].map(|more| last.wrapping_add(more));
        streams.push(alternating(last, near.into_iter().chain([0, 255])));
    }
    streams
}

/// A frame that is dropped for its check.
fn damaged(number: u8) -> Vec<u8> {
    enclosed(&[number, 0, number])
}

/// Each of the numbers after that number, and that number after each of them.
fn alternating(last: u8, numbers: impl Iterator<Item = u8>) -> Vec<u8> {
    let pairs = numbers.flat_map(|number| [last, number]);
    pairs.flat_map(short).collect()
}

/// Three frames of numbers 0x7D, 0x7E and 0x7F. The second is the book's, and the check byte of the third is escaped.
fn three_frames() -> Vec<u8> {
    let (number, record, data) = BOOK;
    let first = sent(0x7D, 1, &[FLIPPED_END, 7]);
    let second = sent(number, record, &data);
    let third = sent(0x7F, 3, &[]);
    [first, second, third].concat()
}

fn overwritten() -> Vec<Vec<u8>> {
    let stream = three_frames();
    let overwritten_at = |place: usize| {
        let byte = stream[place];
        let others = [END, ESCAPE, FLIPPED_END, byte ^ 1];
        let others = others.into_iter().filter(move |&other| other != byte);
        let (before, rest) = stream.split_at(place);
        others.map(move |other| [before, &[other], &rest[1..]].concat())
    };
    (0..stream.len()).flat_map(overwritten_at).collect()
}

fn lost_bytes() -> Vec<Vec<u8>> {
    let stream = three_frames();
    let without = |place: usize| [&stream[..place], &stream[place + 1..]].concat();
    (0..stream.len()).map(without).collect()
}

fn inserted_bytes() -> Vec<Vec<u8>> {
    let stream = three_frames();
    let inserted_at = |place: usize| {
        let (before, rest) = stream.split_at(place);
        let bytes = [END, ESCAPE, FLIPPED_END, 9];
        bytes.map(|byte| [before, &[byte], rest].concat())
    };
    (0..=stream.len()).flat_map(inserted_at).collect()
}

/// Cut off at each byte: what is before it, and what is behind it.
fn torn() -> Vec<Vec<u8>> {
    let stream = three_frames();
    let places = 0..=stream.len();
    let parts = places.map(|place| stream.split_at(place));
    parts
        .flat_map(|(before, rest)| [before.to_vec(), rest.to_vec()])
        .collect()
}

/// Each two neighbours; of two plain ones in one frame the check does not tell.
fn swapped() -> Vec<Vec<u8>> {
    let stream = three_frames();
    let swapped_at = |place: usize| {
        let mut swapped = stream.clone();
        swapped.swap(place, place + 1);
        swapped
    };
    (0..stream.len() - 1).map(swapped_at).collect()
}

/// Damaged frames whose check fits all the same.
fn passing() -> Vec<Vec<u8>> {
    let data_changed = enclosed(&[2, 10, 21, 29, check_byte(&[2, 10, 20, 30])]);
    let number_changed = enclosed(&[3, 10, 19, 30, check_byte(&[2, 10, 20, 30])]);
    let zero_lost = enclosed(&[2, 10, 30, check_byte(&[2, 10, 0, 30])]);
    let check_lost = enclosed(&[2, 10, check_byte(&[2, 10])]);
    // Two frames become one where the end between them is overwritten with 1.
    let joined = [&with_check(&[2, 10, 20])[..], &[1], &with_check(&[3, 10])].concat();
    let joined = enclosed(&joined);
    let tried = [data_changed, number_changed, zero_lost, check_lost, joined];
    tried.map(|tried| in_the_middle(&tried)).into()
}

#[cfg(test)]
mod tests {
    use super::*;
    use std::collections::BTreeSet;

    /// Whether what is tried in the middle is dropped.
    fn is_dropped(stream: &[u8]) -> bool {
        let frames = read(stream).into_iter();
        let told = frames.map(|read| (read.frame.number, read.gap));
        told.eq([(1, false), (3, true)])
    }

    /// How many of these are handed out in the middle.
    fn not_dropped(streams: &[Vec<u8>]) -> usize {
        streams.iter().filter(|stream| !is_dropped(stream)).count()
    }

    /// How many frames each of these streams gives, at least and at most.
    fn frames(streams: &[Vec<u8>]) -> (usize, usize) {
        let counts = streams.iter().map(|stream| read(stream).len());
        let least = counts.clone().min().expect("there are streams");
        (least, counts.max().expect("there are streams"))
    }

    #[test]
    fn the_program_has_room_for_all() {
        let all = all();
        assert!(all.iter().all(|stream| stream.len() <= MOST_STREAM));
        let longest = all.iter().map(Vec::len).max();
        assert_eq!(longest, Some(MOST_STREAM));
    }

    #[test]
    fn every_frame_that_is_written_is_read_back() {
        for kind in writings::read_back() {
            let streams = streams_of(&kind);
            let frames = streams.iter().flat_map(|stream| read(stream));
            let data: Vec<Vec<u8>> = frames.map(|read| read.frame.data).collect();
            let written: Vec<Vec<u8>> = kind.into_iter().map(|writing| writing.data).collect();
            assert_eq!(data, written);
        }
    }

    #[test]
    fn what_is_tried_is_dropped_as_the_documents_say() {
        // 3, 4, 95 and 96 bytes are right, and so are 3 and 96 that are escaped.
        assert_eq!(not_dropped(&lengths()), 6);
        assert_eq!(not_dropped(&frames_inside_others()), 0);
        assert_eq!(not_dropped(&checks()), 0);
        // The two bytes that may follow an escape pass with the check of what they stand for.
        assert_eq!(not_dropped(&escapes()), 2);
        assert_eq!(not_dropped(&unneeded_escapes()), 0);
    }

    #[test]
    fn the_passing_frames_are_handed_out() {
        assert_eq!(frames(&passing()), (3, 3));
    }

    /// Each two numbers that follow one another in these streams, and whether a gap is told between them.
    fn pairs(streams: &[Vec<u8>]) -> BTreeSet<(u8, u8, bool)> {
        let mut pairs = BTreeSet::new();
        for stream in streams {
            let frames = read(stream);
            let numbers = frames.iter().map(|read| read.frame.number);
            let following = frames.iter().skip(1);
            let pair = |(last, read): (u8, &HandedOut)| (last, read.frame.number, read.gap);
            pairs.extend(numbers.zip(following).map(pair));
        }
        pairs
    }

    #[test]
    fn each_number_follows_255_and_255_follows_each() {
        let pairs = pairs(&gaps());
        for number in 0..=255u8 {
            let one_above = number.wrapping_add(1);
            assert!(pairs.contains(&(number, one_above, false)));
            assert!(pairs.contains(&(255, number, number != 0)));
            assert!(pairs.contains(&(number, 255, number != 254)));
        }
    }

    #[test]
    fn damage_does_not_reach_far() {
        assert_eq!(frames(&[three_frames()]), (3, 3));
        // One byte that is changed or lost changes the sum; if it is an end, it spoils two frames.
        assert_eq!(frames(&overwritten()), (1, 2));
        assert_eq!(frames(&lost_bytes()), (1, 2));
        assert_eq!(frames(&inserted_bytes()), (2, 3));
        assert_eq!(frames(&torn()), (0, 3));
        assert_eq!(frames(&swapped()), (1, 3));
    }
}
