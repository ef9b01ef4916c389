//! What the program `record` writes: the replies to a trace as frames.

use crate::frame::{write, LONGEST};
use crate::kernel::numbers::RECORD_BYTES;
use crate::kernel::replay::{Charts, Program};

/// For each record, and for a last piece that is shorter, its reply in a frame that has the command's number.
pub fn frames_of(trace: &[u8], charts: &Charts) -> Vec<u8> {
    let mut program = Program::fresh(charts.clone());
    let mut frames = Vec::new();
    let mut number = 0;
    for record in trace.chunks(RECORD_BYTES) {
        let reply = program.answer(record);
        let mut area = [0; LONGEST];
        let answer = write(number, record[0], &reply, &mut area);
        let length = answer.length.expect("a reply has room in a frame");
        frames.extend(&area[..length]);
        number = answer.next;
    }
    frames
}

#[cfg(test)]
mod tests {
    use super::*;
    use crate::frame::read;
    use crate::harness::traces::Trace;

    #[test]
    fn each_reply_is_the_data_of_its_frame() {
        for seed in 0..10 {
            let trace = Trace::random(seed, 300);
            let frames = read(&frames_of(&trace.records, &trace.charts));
            assert_eq!(frames.len(), 300);
            let numbers = (0..=255).cycle();
            for ((number, read), (record, reply)) in numbers.zip(frames).zip(trace.exchanges()) {
                assert_eq!(read.frame.number, number);
                assert_eq!(read.frame.record, record[0]);
                assert_eq!(read.frame.data, reply);
                assert!(!read.gap);
            }
        }
    }

    #[test]
    fn a_last_piece_is_answered_too() {
        let frames = read(&frames_of(&[12, 0, 0], &Charts::default()));
        assert_eq!(frames.len(), 1);
        let frame = &frames[0].frame;
        assert_eq!((frame.number, frame.record), (0, 12));
        assert_eq!(frame.data, [&[1][..], &[0; 27]].concat());
        assert_eq!(frames_of(&[], &Charts::default()), []);
    }
}
