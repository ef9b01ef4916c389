//! What the program `morning` writes: a line for each frame, for each gap, and for what is torn off at the end.

use super::super::report::spaced;
use super::super::traces::words::{command_name, words};
use crate::frame::{read, Frame, END};

pub fn lines(stream: &[u8]) -> String {
    let frames = read(stream);
    let mut lines = Vec::new();
    for read in &frames {
        if read.gap {
            lines.push(String::from("something is missing here"));
        }
        lines.push(frame_line(&read.frame));
    }
    if stream.last().is_some_and(|&last| last != END) {
        lines.push(String::from("the end is torn off"));
    }
    let gaps = frames.iter().filter(|read| read.gap).count();
    lines.push(format!("frames: {}, gaps: {gaps}", frames.len()));
    lines.into_iter().map(|line| line + "\n").collect()
}

fn frame_line(frame: &Frame) -> String {
    let name = match command_name(frame.record) {
        Some(name) => String::from(name),
        None => format!("command {}", frame.record),
    };
    format!("{:>3} {name:<11}  {}", frame.number, told(frame))
}

/// The reply, if there is one in the frame.
fn told(frame: &Frame) -> String {
    let data = &frame.data;
    match data[..].try_into() {
        Ok(reply) => words(reply),
        Err(_) if data.is_empty() => String::from("no reply, no data"),
        Err(_) => format!("no reply, data:{}", spaced(data)),
    }
}

#[cfg(test)]
mod tests {
    use super::super::record::frames_of;
    use super::super::sent;
    use super::*;
    use crate::harness::good::shift;
    use crate::kernel::command::Command;
    use crate::kernel::replay::Charts;

    /// The frames of a short night, one after the other.
    fn night() -> Vec<Vec<u8>> {
        let commands = [
            Command::Load { slot: 0 },
            Command::Start {
                p: 9,
                slot: 0,
                depth: 4,
            },
            Command::New {
                signal: 6,
                size: 0,
                payload: [0; 64],
            },
            Command::Next,
        ];
        let records = commands.map(|command| command.record()).concat();
        let mut charts = Charts::default();
        charts[0] = shift();
        let frames = frames_of(&records, &charts);
        frames
            .split_inclusive(|&byte| byte == END)
            .map(<[u8]>::to_vec)
            .collect()
    }

    #[test]
    fn a_whole_night() {
        let expected = "  0 LOAD         DONE  values 5 0
  1 START        DONE  object 9  transition  count 4  actions 10 11 13 21
  2 NEW          DONE  event 0 0  least free 31
  3 NEXT         IDLE
frames: 4, gaps: 0
";
        assert_eq!(lines(&night().concat()), expected);
    }

    #[test]
    fn a_night_with_a_gap_and_a_torn_end() {
        let night = night();
        let stream = [&night[0][..], &night[2], &night[3][..5]].concat();
        let expected = "  0 LOAD         DONE  values 5 0
something is missing here
  2 NEW          DONE  event 0 0  least free 31
the end is torn off
frames: 2, gaps: 1
";
        assert_eq!(lines(&stream), expected);
    }

    #[test]
    fn nothing_at_all() {
        assert_eq!(lines(&[]), "frames: 0, gaps: 0\n");
        assert_eq!(lines(&[END]), "frames: 0, gaps: 0\n");
        assert_eq!(lines(&[5]), "the end is torn off\nframes: 0, gaps: 0\n");
    }

    #[test]
    fn what_is_no_reply_of_a_command() {
        let stream = [
            sent(254, 8, &[]),
            sent(255, 0, &[7]),
            sent(0, 23, &[1; 27]),
            sent(1, 255, &[1; 28]),
            sent(9, 22, &[0; 29]),
        ]
        .concat();
        let expected = "254 UNSUBSCRIBE  no reply, no data
255 command 0    no reply, data: 7
  0 command 23   no reply, data: 1 1 1 1 1 1 1 1 1 1 1 1 1 1 1 1 1 1 1 1 1 1 1 1 1 1 1
  1 command 255  FORM  object 1  ignored  signal 1  event 1 65793  count 1  actions 1
something is missing here
  9 FLAG         no reply, data: 0 0 0 0 0 0 0 0 0 0 0 0 0 0 0 0 0 0 0 0 0 0 0 0 0 0 0 0 0
frames: 5, gaps: 1
";
        assert_eq!(lines(&stream), expected);
    }
}
