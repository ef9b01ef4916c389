//! The cases of the program `frame_cases`, and what the programs `record` and `morning` write.
//!
//! A case is a stream for the reader (the letter r, the stream's length, the stream) or a call of the writer (the
//! letter w, the number, the record number, the room, the size of the data, the data). Lengths, rooms and sizes have
//! two bytes, low byte first.

pub mod damage;
pub mod morning;
mod random;
pub mod record;
mod streams;
mod writings;

use super::random::Xorshift;
use super::report::{spaced, table_sum};
use crate::frame::{check_byte, enclosed, read, with_check, write, HandedOut};
use random::{random_stream, random_writing};

/// What the program fills an area with, so that a byte which is written shows.
const FILL: u8 = 170;

/// What the program has room for.
const MOST_STREAM: usize = 1500;
const MOST_ROOM: usize = 400;
const MOST_SIZE: usize = 400;

/// Those that the program's own files have behind the telling cases.
const RANDOM_SEED: u64 = 1;
const RANDOM_STREAMS: usize = 24;

/// A call of the writer.
#[derive(Clone, Debug, PartialEq, Eq)]
struct Writing {
    number: u8,
    record: u8,
    room: usize,
    data: Vec<u8>,
}

impl Writing {
    fn in_room(&self, room: usize) -> Writing {
        let data = self.data.clone();
        Writing {
            room,
            data,
            ..*self
        }
    }

    /// Its frame, refused or not.
    fn frame(&self) -> Vec<u8> {
        sent(self.number, self.record, &self.data)
    }
}

/// What the program reads, and what it must write.
#[derive(Default)]
pub struct Cases {
    pub input: Vec<u8>,
    pub lines: String,
}

impl Cases {
    /// The telling ones, and a few random ones.
    pub fn telling() -> Self {
        let mut cases = Cases::default();
        for writing in writings::all() {
            cases.add_writing(&writing);
        }
        for stream in streams::all() {
            cases.add_stream(&stream);
        }
        cases.add_random(RANDOM_SEED, RANDOM_STREAMS);
        cases
    }

    /// So many streams, with a call of the writer after each.
    pub fn random(seed: u64, streams: usize) -> Self {
        let mut cases = Cases::default();
        cases.add_random(seed, streams);
        cases
    }

    fn add_random(&mut self, seed: u64, streams: usize) {
        let mut random = Xorshift::new(seed);
        for _ in 0..streams {
            self.add_stream(&random_stream(&mut random));
            self.add_writing(&random_writing(&mut random));
        }
    }

    fn add_stream(&mut self, stream: &[u8]) {
        assert!(stream.len() <= MOST_STREAM);
        self.input.push(b'r');
        self.input.extend(two_bytes(stream.len()));
        self.input.extend(stream);
        self.lines += &stream_lines(stream);
    }

    fn add_writing(&mut self, writing: &Writing) {
        assert!(writing.room <= MOST_ROOM && writing.data.len() <= MOST_SIZE);
        self.input.extend([b'w', writing.number, writing.record]);
        self.input.extend(two_bytes(writing.room));
        self.input.extend(two_bytes(writing.data.len()));
        self.input.extend(&writing.data);
        self.lines += &writing_line(writing);
    }
}

fn two_bytes(number: usize) -> [u8; 2] {
    let number = u16::try_from(number).expect("two bytes hold it");
    number.to_le_bytes()
}

/// The line of each frame, and how many ways to cut the stream give the same: all of them, at each place and byte by
/// byte.
fn stream_lines(stream: &[u8]) -> String {
    let frames = read(stream);
    let cuts = stream.len() + 2;
    let lines = frames.iter().map(frame_line);
    lines.chain([format!("cuts {cuts}\n")]).collect()
}

fn frame_line(HandedOut { frame, gap }: &HandedOut) -> String {
    let (number, record, data) = (frame.number, frame.record, spaced(&frame.data));
    let gap = if *gap { " gap" } else { "" };
    format!("frame {number} record {record}{gap}:{data}\n")
}

/// The frame, with the sum of the whole area, so that a byte which is written behind the frame shows.
fn writing_line(writing: &Writing) -> String {
    let mut area = vec![FILL; writing.room];
    let answer = write(writing.number, writing.record, &writing.data, &mut area);
    let (next, sum) = (answer.next, table_sum(&area));
    match answer.length {
        Some(length) => {
            let frame = spaced(&area[..length]);
            format!("written {length} next {next} sum {sum}:{frame}\n")
        }
        None => format!("refused next {next} sum {sum}\n"),
    }
}

/// A frame as it is sent, which may have more data than the writer would take.
fn sent(number: u8, record: u8, data: &[u8]) -> Vec<u8> {
    enclosed(&with_check(&[&[number, record], data].concat()))
}

/// The byte that, together with the others, has this check byte.
fn filler_for(check: u8, others: &[u8]) -> u8 {
    check_byte(others).wrapping_sub(check)
}

#[cfg(test)]
mod tests {
    use super::*;

    /// So many bytes from the front.
    fn take<'a>(input: &mut &'a [u8], count: usize) -> &'a [u8] {
        let (taken, rest) = input.split_at(count);
        *input = rest;
        taken
    }

    fn take_two(input: &mut &[u8]) -> usize {
        let bytes = take(input, 2);
        usize::from(bytes[0]) + 256 * usize::from(bytes[1])
    }

    /// The lines of the case at the front of an input.
    fn lines_of_next(input: &mut &[u8]) -> String {
        match take(input, 1) {
            b"r" => {
                let length = take_two(input);
                stream_lines(take(input, length))
            }
            b"w" => {
                let &[number, record] = take(input, 2) else {
                    panic!("two bytes");
                };
                let room = take_two(input);
                let size = take_two(input);
                let data = take(input, size).to_vec();
                writing_line(&Writing {
                    number,
                    record,
                    room,
                    data,
                })
            }
            other => panic!("no case begins with {other:?}"),
        }
    }

    /// The input alone is enough to make the lines again.
    #[test]
    fn the_cases_can_be_read() {
        for cases in [Cases::telling(), Cases::random(7, 100)] {
            let mut input = &cases.input[..];
            let mut lines = String::new();
            while !input.is_empty() {
                lines += &lines_of_next(&mut input);
            }
            assert_eq!(lines, cases.lines);
        }
    }

    #[test]
    fn the_line_of_a_writing() {
        let mut writing = Writing {
            number: 0x7E,
            record: 0x7D,
            room: 12,
            data: vec![0x7D, 0x08, 0x01],
        };
        let places = [125, 94, 125, 93, 125, 93, 8, 1, 125, 94, 126, 170];
        let sum: usize = (1..).zip(places).map(|(place, byte)| place * byte).sum();
        let expected =
            format!("written 11 next 127 sum {sum}: 125 94 125 93 125 93 8 1 125 94 126\n");
        assert_eq!(writing_line(&writing), expected);
        writing.room = 10;
        let expected = format!("refused next 126 sum {}\n", 170 * 55);
        assert_eq!(writing_line(&writing), expected);
    }

    #[test]
    fn the_lines_of_a_stream() {
        assert_eq!(stream_lines(&[]), "cuts 2\n");
        let stream = [sent(1, 2, &[3, 4]), sent(2, 5, &[]), sent(4, 6, &[7])].concat();
        assert_eq!(
            stream_lines(&stream),
            "frame 1 record 2: 3 4\nframe 2 record 5:\nframe 4 record 6 gap: 7\ncuts 17\n"
        );
    }

    #[test]
    fn a_filler_makes_the_check_byte() {
        for check in 0..=255 {
            let filler = filler_for(check, &[9, 200, 100]);
            assert_eq!(check_byte(&[9, 200, 100, filler]), check);
        }
    }

    #[test]
    fn one_seed_gives_one_input() {
        let input = |seed| Cases::random(seed, 20).input;
        assert_eq!(input(3), input(3));
        assert_ne!(input(3), input(4));
    }

    #[test]
    fn so_many_random_streams_as_asked() {
        let lines = Cases::random(2, 50).lines;
        let counted = |word| lines.lines().filter(|line| line.starts_with(word)).count();
        assert_eq!(counted("cuts"), 50);
        assert_eq!(counted("written") + counted("refused"), 50);
    }
}
