//! Reply records as readable text.

use super::super::report::{spaced, without_zeros};
use crate::kernel::command::Handle;
use crate::kernel::numbers::{HANDLE_BYTES, REPLY_BYTES};
use crate::kernel::reply::ANSWER_NAMES;

/// The handle that stands at the end of a reply.
pub fn shown_handle(reply: &[u8; REPLY_BYTES]) -> Handle {
    let [.., block, low, middle, high] = *reply;
    Handle::from_bytes([block, low, middle, high])
}

/// The bytes of a reply as the programs `doc_cases` and `areas` write them: without the zeros at the end, but always the
/// first; then, if it is not all zeros, the handle likewise.
pub fn told_bytes(reply: &[u8; REPLY_BYTES]) -> String {
    let (begin, handle) = reply.split_at(REPLY_BYTES - HANDLE_BYTES);
    let begin = &begin[..without_zeros(begin).len().max(1)];
    match without_zeros(handle) {
        [] => spaced(begin),
        handle => format!("{} @{}", spaced(begin), spaced(handle)),
    }
}

/// One line for a reply, whoever wrote it; a piece of another length is told as such.
pub fn line(reply: &[u8]) -> String {
    let Ok(reply) = <[u8; REPLY_BYTES]>::try_from(reply) else {
        return format!("a piece of {} bytes", reply.len());
    };
    let [number, object, outcome_and_signal, count, first, second, actions @ .., _, _, _, _] =
        reply;
    let (outcome, signal) = (outcome_and_signal / 32, outcome_and_signal % 32);
    let name = ANSWER_NAMES.get(usize::from(number)).unwrap_or(&"?");
    let Handle { block, generation } = shown_handle(&reply);
    format!(
        "{number} {name} object {object} outcome {outcome} signal {signal} \
         count {count} values {first} {second} handle {block} {generation} actions{}",
        spaced(shown(&actions, count))
    )
}

/// As many as the count says, and more if another byte is not 0. The mark in NEW's reply is taken
/// for a count too: a reply does not say which command it answers.
fn shown(actions: &[u8], count: u8) -> &[u8] {
    let most = without_zeros(actions).len().max(usize::from(count));
    &actions[..most.min(actions.len())]
}

#[cfg(test)]
mod tests {
    use super::*;

    #[test]
    fn lines() {
        let mut reply = [0; REPLY_BYTES];
        reply[..10].copy_from_slice(&[0, 9, 70, 3, 5, 6, 22, 0, 0, 0]);
        reply[24..].copy_from_slice(&[32, 1, 2, 3]);
        let expected =
            "0 DONE object 9 outcome 2 signal 6 count 3 values 5 6 handle 32 197121 actions 22 0 0";
        assert_eq!(line(&reply), expected);
        reply[23] = 7;
        assert!(line(&reply).ends_with("actions 22 0 0 0 0 0 0 0 0 0 0 0 0 0 0 0 0 7"));
        reply[0] = 16;
        assert!(line(&reply).starts_with("16 ? object 9"));
        assert_eq!(line(&reply[..5]), "a piece of 5 bytes");
        assert_eq!(line(&reply[..24]), "a piece of 24 bytes");
    }

    #[test]
    fn bytes_told() {
        let mut reply = [0; REPLY_BYTES];
        assert_eq!(told_bytes(&reply), " 0");
        reply[25] = 1;
        assert_eq!(told_bytes(&reply), " 0 @ 0 1");
        reply[27] = 2;
        assert_eq!(told_bytes(&reply), " 0 @ 0 1 0 2");
        reply[3] = 15;
        reply[24..].copy_from_slice(&[32, 0, 1, 0]);
        assert_eq!(told_bytes(&reply), " 0 0 0 15 @ 32 0 1");
        reply[24..].fill(0);
        assert_eq!(told_bytes(&reply), " 0 0 0 15");
        reply.fill(255);
        assert_eq!(
            told_bytes(&reply),
            " 255".repeat(24) + " @" + &" 255".repeat(4)
        );
    }
}
