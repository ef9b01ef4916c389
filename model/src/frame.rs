//! Frames in the manner of QS, in which replies are kept for the morning after.
//!
//! Before it is escaped, a frame has its number, a record number, the data, and a check byte.

#[cfg(test)]
mod tests;

use std::ops::RangeInclusive;

/// Ends a frame, and stands nowhere inside one.
pub const END: u8 = 0x7E;
/// Comes before a byte that is sent flipped.
pub const ESCAPE: u8 = 0x7D;
pub const FLIP: u8 = 0x20;
/// The two bytes that may follow an escape.
pub const FLIPPED_END: u8 = END ^ FLIP;
pub const FLIPPED_ESCAPE: u8 = ESCAPE ^ FLIP;

pub const MOST_DATA: usize = 93;
/// What a frame has besides its data, before it is escaped.
const AROUND_DATA: usize = 3;
pub const MOST_UNESCAPED: usize = AROUND_DATA + MOST_DATA;
const UNESCAPED: RangeInclusive<usize> = AROUND_DATA..=MOST_UNESCAPED;
/// A frame all of whose bytes are escaped, with its end.
pub const LONGEST: usize = 2 * MOST_UNESCAPED + 1;

/// What the writer answers.
#[derive(Clone, Copy, Debug, PartialEq, Eq)]
pub struct Answer {
    /// How many bytes the frame has at the area's front; nothing if it was refused.
    pub length: Option<usize>,
    /// The number for the next frame.
    pub next: u8,
}

/// Writes a frame to the front of an area, and nothing if there is too much data or too little room.
pub fn write(number: u8, record: u8, data: &[u8], area: &mut [u8]) -> Answer {
    let frame = enclosed(&with_check(&[&[number, record], data].concat()));
    if data.len() > MOST_DATA || frame.len() > area.len() {
        return Answer {
            length: None,
            next: number,
        };
    }
    area[..frame.len()].copy_from_slice(&frame);
    Answer {
        length: Some(frame.len()),
        next: one_above(number),
    }
}

/// The inverted sum of the bytes, modulo 256.
pub fn check_byte(bytes: &[u8]) -> u8 {
    let sum = bytes.iter().fold(0u8, |sum, &byte| sum.wrapping_add(byte));
    !sum
}

/// The bytes and behind them their check byte.
pub fn with_check(bytes: &[u8]) -> Vec<u8> {
    [bytes, &[check_byte(bytes)]].concat()
}

/// The bytes as they are sent, with the end behind them. It asks neither how many there are nor whether a check fits.
pub fn enclosed(bytes: &[u8]) -> Vec<u8> {
    let escaped = bytes.iter().flat_map(|&byte| match byte {
        END | ESCAPE => vec![ESCAPE, byte ^ FLIP],
        plain => vec![plain],
    });
    escaped.chain([END]).collect()
}

fn one_above(number: u8) -> u8 {
    number.wrapping_add(1)
}

#[derive(Clone, Debug, PartialEq, Eq)]
pub struct Frame {
    pub number: u8,
    pub record: u8,
    pub data: Vec<u8>,
}

/// A frame that the reader hands out.
#[derive(Clone, Debug, PartialEq, Eq)]
pub struct HandedOut {
    pub frame: Frame,
    /// Whether its number is not one above that of the frame handed out before.
    pub gap: bool,
}

/// The frames of a stream, all of which is there to be looked at: it is cut at each end, and each stretch alone is a
/// frame or is none.
pub fn read(stream: &[u8]) -> Vec<HandedOut> {
    let mut stretches: Vec<&[u8]> = stream.split(|&byte| byte == END).collect();
    // What follows the last end is no frame yet.
    stretches.pop();
    let mut last = None;
    let frames = stretches.into_iter().filter_map(frame_of);
    let handed_out = frames.map(|frame| HandedOut {
        gap: match last.replace(frame.number) {
            Some(last) => frame.number != one_above(last),
            None => false,
        },
        frame,
    });
    handed_out.collect()
}

/// The frame that was sent as this stretch, without its end.
fn frame_of(stretch: &[u8]) -> Option<Frame> {
    let bytes = unescaped(stretch)?;
    let (check, checked) = bytes.split_last()?;
    let fits = UNESCAPED.contains(&bytes.len()) && *check == check_byte(checked);
    match checked {
        [number, record, data @ ..] if fits => Some(Frame {
            number: *number,
            record: *record,
            data: data.to_vec(),
        }),
        _ => None,
    }
}

/// Nothing if an escape stands before another byte than the two that may follow it, or at the end.
fn unescaped(stretch: &[u8]) -> Option<Vec<u8>> {
    let mut parts = stretch.split(|&byte| byte == ESCAPE);
    let mut bytes = parts.next()?.to_vec();
    for after_escape in parts {
        match after_escape {
            [flipped @ (FLIPPED_END | FLIPPED_ESCAPE), plain @ ..] => {
                bytes.push(flipped ^ FLIP);
                bytes.extend(plain);
            }
            _ => return None,
        }
    }
    Some(bytes)
}
