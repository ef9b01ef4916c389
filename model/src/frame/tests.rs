//! The sentences of document 02 about frames, one by one, and the book's own frame.

use super::*;

/// The book's number, record number and data, and how they are sent.
const BOOK: (u8, u8, [u8; 3]) = (0x7E, 0x7D, [0x7D, 0x08, 0x01]);
const BOOK_SENT: [u8; 11] = [
    0x7D, 0x5E, 0x7D, 0x5D, 0x7D, 0x5D, 0x08, 0x01, 0x7D, 0x5E, 0x7E,
];

const UNTOUCHED: u8 = 170;

/// The writer's answer with so much room, and the area after it.
fn written(number: u8, record: u8, data: &[u8], room: usize) -> (Answer, Vec<u8>) {
    let mut area = vec![UNTOUCHED; room];
    let answer = write(number, record, data, &mut area);
    (answer, area)
}

/// The frame as the writer writes it.
fn sent(number: u8, record: u8, data: &[u8]) -> Vec<u8> {
    let (answer, mut area) = written(number, record, data, LONGEST);
    area.truncate(answer.length.expect("it has room"));
    area
}

fn handed_out(number: u8, record: u8, data: &[u8], gap: bool) -> HandedOut {
    let data = data.to_vec();
    let frame = Frame {
        number,
        record,
        data,
    };
    HandedOut { frame, gap }
}

/// The numbers of the frames that are handed out, and where gaps are told.
fn numbers(stream: &[u8]) -> Vec<(u8, bool)> {
    let frames = read(stream).into_iter();
    frames.map(|read| (read.frame.number, read.gap)).collect()
}

/// A frame without data.
fn short(number: u8) -> Vec<u8> {
    sent(number, 1, &[])
}

/// Whether what was sent is no frame: of it and what surrounds it nothing else is read, and the gap is told.
fn is_dropped(sent: &[u8]) -> bool {
    let stream = [&short(1), sent, &short(3)].concat();
    numbers(&stream) == [(1, false), (3, true)]
}

#[test]
fn the_book_s_frame_is_written_and_read() {
    let (number, record, data) = BOOK;
    let (answer, area) = written(number, record, &data, 12);
    let length = Some(11);
    assert_eq!(answer, Answer { length, next: 0x7F });
    assert_eq!(area[..11], BOOK_SENT);
    assert_eq!(area[11], UNTOUCHED);
    assert_eq!(check_byte(&[0x7E, 0x7D, 0x7D, 0x08, 0x01]), 0x7E);
    assert_eq!(read(&BOOK_SENT), [handed_out(number, record, &data, false)]);
}

#[test]
fn the_check_byte_is_the_inverted_sum() {
    assert_eq!(check_byte(&[]), 255);
    assert_eq!(check_byte(&[1, 2, 3]), 249);
    assert_eq!(check_byte(&[255, 1]), 255);
    assert_eq!(check_byte(&[200, 100]), 255 - 44);
}

#[test]
fn up_to_93_bytes_of_data_are_written() {
    for size in 0..=MOST_DATA {
        let data = vec![5; size];
        let frame = sent(9, 8, &data);
        assert_eq!(frame.len(), size + 4);
        assert_eq!(read(&frame), [handed_out(9, 8, &data, false)]);
    }
    for size in [94, 95, 256, 349] {
        let (answer, area) = written(9, 8, &vec![5; size], 1000);
        let length = None;
        assert_eq!(answer, Answer { length, next: 9 });
        assert_eq!(area, vec![UNTOUCHED; 1000]);
    }
}

#[test]
fn a_frame_is_written_if_it_has_room() {
    let (number, record, data) = BOOK;
    for room in 0..11 {
        let (answer, area) = written(number, record, &data, room);
        let length = None;
        assert_eq!(answer, Answer { length, next: 0x7E });
        assert_eq!(area, vec![UNTOUCHED; room]);
    }
    assert_eq!(written(number, record, &data, 11).1, BOOK_SENT);
}

#[test]
fn the_longest_frame_has_every_byte_escaped() {
    // 64 times 0x7D and 31 times 0x7E have the check byte 0x7D.
    let data: Vec<u8> = [[0x7D; 64].as_slice(), &[0x7E; 29]].concat();
    let frame = sent(0x7E, 0x7E, &data);
    assert_eq!(frame.len(), LONGEST);
    assert_eq!(frame[190..], [0x7D, 0x5D, 0x7E]);
    assert_eq!(written(0x7E, 0x7E, &data, LONGEST - 1).0.length, None);
    assert_eq!(read(&frame), [handed_out(0x7E, 0x7E, &data, false)]);
}

#[test]
fn numbers_go_on_from_255_to_0() {
    assert_eq!(written(254, 1, &[], 4).0.next, 255);
    assert_eq!(written(255, 1, &[], 4).0.next, 0);
    assert_eq!(written(255, 1, &[], 3).0.next, 255);
    let stream = [254, 255, 0, 1].map(short).concat();
    let no_gap = [(254, false), (255, false), (0, false), (1, false)];
    assert_eq!(numbers(&stream), no_gap);
}

#[test]
fn a_gap_is_told_unless_the_number_is_one_above_the_last() {
    for last in 0..=255u8 {
        for number in 0..=255 {
            let gap = (u32::from(last) + 1) % 256 != u32::from(number);
            let stream = [short(last), short(number)].concat();
            assert_eq!(numbers(&stream), [(last, false), (number, gap)]);
        }
    }
}

#[test]
fn the_last_frame_is_the_last_handed_out() {
    // The frame of number 2 is damaged, that of number 3 follows a gap, and none is told at 4.
    let mut stream = [1, 2, 3, 4].map(short).concat();
    stream[5] ^= 1;
    assert_eq!(numbers(&stream), [(1, false), (3, true), (4, false)]);
    // A dropped frame is not the last, even if its number is right.
    stream[4] = 9;
    assert_eq!(numbers(&stream), [(1, false), (3, true), (4, false)]);
}

#[test]
fn an_escape_is_followed_by_one_of_two_bytes() {
    // An end there ends the stretch, as the next test says.
    for following in (0..=255).filter(|&byte| byte != END) {
        let bytes = [4, 1, following ^ FLIP];
        let check = enclosed(&[check_byte(&bytes)]);
        let sent = [&[4, 1, ESCAPE, following], &check[..]].concat();
        match following {
            FLIPPED_END | FLIPPED_ESCAPE => {
                assert_eq!(read(&sent), [handed_out(4, 1, &bytes[2..], false)]);
            }
            _ => assert!(is_dropped(&sent), "{following}"),
        }
    }
}

#[test]
fn an_escape_does_not_hide_an_end() {
    assert!(is_dropped(&[4, 1, ESCAPE, END]));
    assert!(is_dropped(&[ESCAPE, END]));
    let stream = [&[ESCAPE, END][..], &short(7)].concat();
    assert_eq!(numbers(&stream), [(7, false)]);
}

#[test]
fn a_flipped_byte_without_an_escape_is_plain() {
    let data = [FLIPPED_END, FLIPPED_ESCAPE];
    let frame = sent(1, 2, &data);
    assert_eq!(frame.len(), 6);
    assert_eq!(read(&frame), [handed_out(1, 2, &data, false)]);
}

#[test]
fn a_frame_has_3_to_96_bytes_unescaped() {
    for byte in [5, ESCAPE] {
        for count in 0..300 {
            let sent = enclosed(&with_check(&vec![byte; count]));
            let is_frame = (3..=96).contains(&(count + 1));
            assert_eq!(is_dropped(&sent), !is_frame, "{count} times {byte}");
        }
    }
}

#[test]
fn a_check_byte_that_differs_drops_the_frame() {
    let bytes = [4, 1, 100];
    let check = check_byte(&bytes);
    for differing in (0..=255).filter(|&byte| byte != check) {
        let sent = enclosed(&[&bytes[..], &[differing]].concat());
        assert!(is_dropped(&sent), "{differing}");
    }
}

#[test]
fn empty_stretches_are_no_frames() {
    assert_eq!(read(&[]), []);
    assert_eq!(read(&[END; 5]), []);
    let stream = [&[END; 3][..], &short(1), &[END; 2], &short(2), &[END]].concat();
    assert_eq!(numbers(&stream), [(1, false), (2, false)]);
}

#[test]
fn what_follows_the_last_end_is_no_frame_yet() {
    let stream = [short(1), short(2)].concat();
    assert_eq!(numbers(&stream[..7]), [(1, false)]);
    assert_eq!(numbers(&stream[..3]), []);
    assert_eq!(numbers(&stream), [(1, false), (2, false)]);
}

#[test]
fn a_damaged_frame_whose_check_fits_passes() {
    let mut stream = sent(1, 2, &[10, 20]);
    stream.swap(2, 3);
    assert_eq!(read(&stream), [handed_out(1, 2, &[20, 10], false)]);
}

/// Whatever comes before an end, the frames behind it are read as if nothing had happened, but for the first one's gap.
#[test]
fn after_an_end_all_is_as_if_nothing_had_happened() {
    let (number, record, data) = BOOK;
    let intact = [sent(0x7D, 3, &[END; 40]), BOOK_SENT.to_vec(), short(9)].concat();
    let expected = [
        handed_out(number, record, &data, false),
        handed_out(9, 1, &[], true),
    ];
    let mut before = [short(1), sent(2, 3, &[ESCAPE; 93]), vec![ESCAPE; 400]].concat();
    while !before.is_empty() {
        let read = read(&[&before[..], &[END], &intact].concat());
        let [.., first, second, third] = &read[..] else {
            panic!("three frames are intact");
        };
        assert_eq!(first.frame.data, [END; 40]);
        assert_eq!([second.clone(), third.clone()], expected);
        before.pop();
    }
}
