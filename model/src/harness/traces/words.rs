//! Replies in words, as the programs `show` and `morning` have them.

use super::super::report::spaced;
use super::show::shown_handle;
use crate::kernel::command::{Handle, COMMAND_NAMES};
use crate::kernel::numbers::REPLY_BYTES;
use crate::kernel::reply::{Refusal, ANSWER_NAMES};

const DONE: u8 = 0;
const CHART: u8 = Refusal::Chart as u8;

const OUTCOME_NAMES: [&str; 3] = ["ignored", "internal", "transition"];

/// An event that came from timer t has the block number 128 + t.
const FIRST_TIMER: u8 = 128;

const NO_HANDLE: Handle = Handle {
    block: 0,
    generation: 0,
};

/// The name of the command of that number, if there is one.
pub fn command_name(number: u8) -> Option<&'static str> {
    let index = usize::from(number).checked_sub(1)?;
    COMMAND_NAMES.get(index).copied()
}

/// A reply, whoever wrote it. Which command it answers need not be known.
pub fn words(reply: &[u8; REPLY_BYTES]) -> String {
    let [answer, object, step, ..] = *reply;
    let told = match (object, step) {
        (0, 0) if is_of_new(reply) => told_of_new(reply),
        (0, 0) => told_of_others(reply),
        _ => told_of_step(reply),
    };
    [vec![answer_name(answer)], told].concat().join("  ")
}

/// No other reply without an object that is DONE has no values, and yet a count or a handle.
fn is_of_new(reply: &[u8; REPLY_BYTES]) -> bool {
    let [answer, _, _, count, first, second, ..] = *reply;
    let has_more = count != 0 || shown_handle(reply) != NO_HANDLE;
    (answer, first, second) == (DONE, 0, 0) && has_more
}

fn told_of_new(reply: &[u8; REPLY_BYTES]) -> Vec<String> {
    let mark = reply[3];
    vec![event(shown_handle(reply)), format!("least free {mark}")]
}

/// Those of START and NEXT.
fn told_of_step(reply: &[u8; REPLY_BYTES]) -> Vec<String> {
    let (object, outcome, signal) = (reply[1], reply[2] / 32, reply[2] % 32);
    let mut told = vec![format!("object {object}"), outcome_name(outcome)];
    // START has no signal, and no event either.
    if signal == 0 {
        told.extend(counted(reply, "actions"));
        told.extend(handle_told(reply));
    } else {
        told.extend([format!("signal {signal}"), event(shown_handle(reply))]);
        told.extend(counted(reply, "actions"));
    }
    told
}

fn told_of_others(reply: &[u8; REPLY_BYTES]) -> Vec<String> {
    let parts = [
        values_told(reply),
        counted(reply, "bytes"),
        handle_told(reply),
    ];
    parts.into_iter().flatten().collect()
}

fn answer_name(answer: u8) -> String {
    match ANSWER_NAMES.get(usize::from(answer)) {
        Some(name) => String::from(*name),
        None => format!("unknown answer {answer}"),
    }
}

fn outcome_name(outcome: u8) -> String {
    match OUTCOME_NAMES.get(usize::from(outcome)) {
        Some(name) => String::from(*name),
        None => format!("outcome {outcome}"),
    }
}

fn event(Handle { block, generation }: Handle) -> String {
    match block.checked_sub(FIRST_TIMER) {
        Some(timer) => format!("timer {timer}"),
        None => format!("event {block} {generation}"),
    }
}

/// A refusal has no values; if it does, they are told all the same.
fn values_told(reply: &[u8; REPLY_BYTES]) -> Option<String> {
    let [answer, _, _, _, first, second, ..] = *reply;
    match (answer, first, second) {
        (CHART, class, _) => Some(format!("class {class}")),
        (DONE, ..) => Some(format!("values {first} {second}")),
        (_, 0, 0) => None,
        _ => Some(format!("values {first} {second}")),
    }
}

/// The count, and as many of what it counts as there can be.
fn counted(reply: &[u8; REPLY_BYTES], name: &str) -> Option<String> {
    let [_, _, _, count, _, _, rest @ .., _, _, _, _] = reply;
    let shown = &rest[..rest.len().min(usize::from(*count))];
    (*count != 0).then(|| format!("count {count}  {name}{}", spaced(shown)))
}

/// Of a reply that has no event: no kernel gives it a handle.
fn handle_told(reply: &[u8; REPLY_BYTES]) -> Option<String> {
    let handle = shown_handle(reply);
    let Handle { block, generation } = handle;
    (handle != NO_HANDLE).then(|| format!("handle {block} {generation}"))
}

#[cfg(test)]
mod tests {
    use super::*;

    const REPLIES: &[u8] = include_bytes!("../../../../crates/show/stdin");
    const SHOWN: &str = include_str!("../../../../crates/show/stdout");

    /// The program's own text tells it in the same words.
    #[test]
    fn replies_are_as_shown() {
        let replies = REPLIES.chunks_exact(REPLY_BYTES);
        // The last line tells of a piece that is too short.
        assert_eq!(replies.len() + 1, SHOWN.lines().count());
        for (reply, line) in replies.zip(SHOWN.lines()) {
            assert_eq!(words(reply.try_into().expect("a whole one")), line);
        }
    }

    fn reply(begin: &[u8], handle: [u8; 4]) -> [u8; REPLY_BYTES] {
        let mut reply = [0; REPLY_BYTES];
        reply[..begin.len()].copy_from_slice(begin);
        reply[24..].copy_from_slice(&handle);
        reply
    }

    #[test]
    fn replies_of_a_kernel() {
        let none = [0; 4];
        let told: [(&[u8], [u8; 4], &str); 14] = [
            (&[0, 0, 0, 0, 5], none, "DONE  values 5 0"),
            (&[0], none, "DONE  values 0 0"),
            (&[7], none, "STALE"),
            (&[14, 0, 0, 0, 2], none, "CHART  class 2"),
            (&[0, 0, 0, 31], none, "DONE  event 0 0  least free 31"),
            (
                &[0, 0, 0, 15],
                [32, 1, 0, 0],
                "DONE  event 32 1  least free 15",
            ),
            (
                &[0],
                [47, 255, 255, 255],
                "DONE  event 47 16777215  least free 0",
            ),
            (
                &[0, 0, 0, 2, 2, 0, 7, 8],
                none,
                "DONE  values 2 0  count 2  bytes 7 8",
            ),
            (
                &[0, 9, 64, 4, 0, 0, 10, 11, 13, 21],
                none,
                "DONE  object 9  transition  count 4  actions 10 11 13 21",
            ),
            (&[0, 9, 64], none, "DONE  object 9  transition"),
            (
                &[0, 9, 9],
                none,
                "DONE  object 9  ignored  signal 9  event 0 0",
            ),
            (
                &[0, 9, 41, 1, 0, 0, 49],
                [0, 0, 1, 0],
                "DONE  object 9  internal  signal 9  event 0 256  count 1  actions 49",
            ),
            (
                &[0, 9, 9],
                [1, 112, 17, 1],
                "DONE  object 9  ignored  signal 9  event 1 70000",
            ),
            (
                &[0, 16, 95, 1, 0, 0, 7],
                [143, 0, 0, 0],
                "DONE  object 16  transition  signal 31  timer 15  count 1  actions 7",
            ),
        ];
        for (begin, handle, expected) in told {
            assert_eq!(words(&reply(begin, handle)), expected);
        }
    }

    #[test]
    fn what_no_kernel_replies() {
        let made_up: [(&[u8], [u8; 4], &str); 6] = [
            (
                &[11, 0, 0, 2],
                [1, 2, 0, 0],
                "DRY  count 2  bytes 0 0  handle 1 2",
            ),
            (
                &[0, 0, 0, 0, 5],
                [0, 0, 1, 0],
                "DONE  values 5 0  handle 0 256",
            ),
            (
                &[14, 0, 0, 0, 2],
                [255, 0, 0, 0],
                "CHART  class 2  handle 255 0",
            ),
            (
                &[0, 9, 64, 1, 0, 0, 10],
                [128, 1, 0, 0],
                "DONE  object 9  transition  count 1  actions 10  handle 128 1",
            ),
            (
                &[0, 0, 0, 3, 0, 0, 7, 8, 9],
                [130, 9, 0, 0],
                "DONE  timer 2  least free 3",
            ),
            (
                &[7, 9, 9, 0, 5, 6],
                [32, 1, 0, 0],
                "STALE  object 9  ignored  signal 9  event 32 1",
            ),
        ];
        for (begin, handle, expected) in made_up {
            assert_eq!(words(&reply(begin, handle)), expected);
        }
    }

    #[test]
    fn names_of_commands() {
        assert_eq!(command_name(0), None);
        assert_eq!(command_name(1), Some("LOAD"));
        assert_eq!(command_name(21), Some("FLUSH"));
        assert_eq!(command_name(22), Some("FLAG"));
        assert_eq!(command_name(23), None);
        assert_eq!(command_name(255), None);
    }
}
