//! The telling calls of the writer.

use super::{filler_for, Writing};
use crate::frame::{END, ESCAPE, MOST_DATA};

/// More than any frame needs.
const AMPLE: usize = 200;

/// Number, record number and data of the book's frame.
pub const BOOK: (u8, u8, [u8; 3]) = (0x7E, 0x7D, [0x7D, 0x08, 0x01]);

pub fn all() -> Vec<Writing> {
    let kinds = [
        sizes(),
        too_much_data(),
        rooms(),
        all_rooms(&book()),
        numbers(),
        record_numbers(),
        data_bytes(),
        escapes(),
        escapes_in_data(),
        longest(),
    ];
    kinds.concat()
}

/// Those whose frames the reader is given.
pub fn read_back() -> Vec<Vec<Writing>> {
    vec![
        sizes(),
        record_numbers(),
        data_bytes(),
        escapes(),
        escapes_in_data(),
        longest(),
    ]
}

fn writing(number: u8, record: u8, data: &[u8]) -> Writing {
    Writing {
        number,
        record,
        room: AMPLE,
        data: data.to_vec(),
    }
}

fn book() -> Writing {
    let (number, record, data) = BOOK;
    writing(number, record, &data)
}

/// Data of every size that is taken, numbered on.
fn sizes() -> Vec<Writing> {
    let sizes = 0..=MOST_DATA as u8;
    let of_size = |size: u8| {
        let data: Vec<u8> = (0..size).map(|place| place ^ size).collect();
        writing(size, 1 + size % 21, &data)
    };
    sizes.map(of_size).collect()
}

/// Sizes that are refused whatever the room; 349 is 93 in its low byte.
fn too_much_data() -> Vec<Writing> {
    let sizes = [94, 95, 96, 97, 128, 192, 255, 256, 257, 349, 350, 400];
    let large = sizes.map(|size| writing(9, 8, &vec![7; size]).in_room(400));
    let one_too_many = writing(255, 8, &[7; MOST_DATA + 1]);
    let exact = [97, 98, 99].map(|room| one_too_many.in_room(room));
    [&large[..], &exact, &[one_too_many.in_room(0)]].concat()
}

/// For some frames hardly any room, room for them unescaped, one too small, the exact room, one more, and 256, which is
/// 0 in its low byte.
fn rooms() -> Vec<Writing> {
    let frames = [
        writing(0, 0, &[]),
        writing(255, 0, &[]),
        writing(1, 2, &[3]),
        writing(1, 2, &[END]),
        writing(1, 1, &[127]), // its check byte alone is escaped
        writing(2, 3, &[5; MOST_DATA]),
        writing(255, 255, &[255; MOST_DATA]), // the largest sum
        writing(4, 5, &[END; MOST_DATA]),
        all_escaped(64),
    ];
    let in_rooms = |writing: &Writing| {
        let unescaped = writing.data.len() + 4;
        let exact = writing.frame().len();
        let rooms = [0, 1, unescaped, exact - 1, exact, exact + 1, 256];
        rooms.map(|room| writing.in_room(room))
    };
    frames.iter().flat_map(in_rooms).collect()
}

/// Every room up to one more than is needed, and those that have such low bytes.
fn all_rooms(writing: &Writing) -> Vec<Writing> {
    let one_more = writing.frame().len() + 1;
    let rooms = (0..=one_more).chain(255..=256 + one_more);
    rooms.map(|room| writing.in_room(room)).collect()
}

fn numbers() -> Vec<Writing> {
    let with_number = |number| writing(number, 1, &[]).in_room(8);
    (0..=255).map(with_number).collect()
}

fn record_numbers() -> Vec<Writing> {
    let with_record = |record| writing(5, record, &[]).in_room(8);
    (0..=255).map(with_record).collect()
}

fn data_bytes() -> Vec<Writing> {
    let with_byte = |byte| writing(5, 6, &[byte]).in_room(10);
    (0..=255).map(with_byte).collect()
}

/// Each choice among number, record number, first data byte, last data byte and check byte of those that are escaped.
fn escapes() -> Vec<Writing> {
    let choices = (0..32).flat_map(|choice| [(choice, END), (choice, ESCAPE)]);
    let chosen = |(choice, escaped): (u8, u8)| {
        let at = |place: u8| match choice >> place & 1 {
            1 => escaped,
            _ => 1 + place,
        };
        let [number, record, first, last, check] = [0, 1, 2, 3, 4].map(at);
        let filler = filler_for(check, &[number, record, first, last]);
        writing(number, record, &[first, filler, last]).in_room(20)
    };
    choices.map(chosen).collect()
}

/// One data byte of twelve, and the first, the last or each of as many as there may be.
fn escapes_in_data() -> Vec<Writing> {
    let in_twelve = (0..12).map(|place| (12, place));
    let in_most = [0, MOST_DATA - 1].map(|place| (MOST_DATA, place));
    let one = in_twelve.chain(in_most).flat_map(|(size, place)| {
        [END, ESCAPE].map(|escaped| {
            let mut data = vec![1; size];
            data[place] = escaped;
            writing(3, 4, &data).in_room(size + 8)
        })
    });
    let each = [END, ESCAPE].map(|byte| writing(3, 4, &[byte; MOST_DATA]));
    one.chain(each).collect()
}

/// Every byte is escaped, the check byte too.
fn longest() -> Vec<Writing> {
    vec![all_escaped(64), all_escaped(65)]
}

/// All bytes are 0x7E but so many first ones of the data, which are 0x7D; with 64 or 65 the check byte is one of the
/// two as well.
fn all_escaped(escapes: usize) -> Writing {
    let mut data = [END; MOST_DATA];
    data[..escapes].fill(ESCAPE);
    writing(END, END, &data)
}

#[cfg(test)]
mod tests {
    use super::super::{MOST_ROOM, MOST_SIZE};
    use super::*;
    use crate::frame::{check_byte, write, LONGEST};
    use std::collections::BTreeSet;

    /// How many bytes are written, if it is not refused.
    fn written(writing: &Writing) -> Option<usize> {
        let mut area = vec![0; writing.room];
        write(writing.number, writing.record, &writing.data, &mut area).length
    }

    fn done() -> Vec<Writing> {
        let is_done = |writing: &Writing| written(writing).is_some();
        all().into_iter().filter(is_done).collect()
    }

    fn check_of(writing: &Writing) -> u8 {
        let head = [writing.number, writing.record];
        check_byte(&[&head, &writing.data[..]].concat())
    }

    #[test]
    fn the_program_has_room_for_all() {
        for writing in all() {
            assert!(writing.room <= MOST_ROOM && writing.data.len() <= MOST_SIZE);
        }
    }

    #[test]
    fn each_byte_is_a_number_a_record_number_data_and_a_check() {
        let done = done();
        let numbers: BTreeSet<u8> = done.iter().map(|writing| writing.number).collect();
        let records: BTreeSet<u8> = done.iter().map(|writing| writing.record).collect();
        let data: BTreeSet<u8> = done
            .iter()
            .flat_map(|writing| writing.data.clone())
            .collect();
        let checks: BTreeSet<u8> = done.iter().map(check_of).collect();
        for bytes in [numbers, records, data, checks] {
            assert_eq!(bytes.len(), 256);
        }
    }

    #[test]
    fn data_of_every_size_is_taken_and_more_is_refused_with_room() {
        let sizes: BTreeSet<usize> = done().iter().map(|writing| writing.data.len()).collect();
        assert!(sizes.into_iter().eq(0..=93));
        let mut all = all();
        all.retain(|writing| written(writing).is_none() && writing.frame().len() <= writing.room);
        let refused: BTreeSet<usize> = all.iter().map(|writing| writing.data.len()).collect();
        assert_eq!(refused.first(), Some(&94));
        assert!(refused.contains(&349));
    }

    #[test]
    fn the_rooms_stand_around_the_frames() {
        let all = rooms();
        let done = all.iter().filter(|writing| written(writing).is_some());
        // Each frame has its exact room, one more and 256; five have no escape, so their room unescaped is exact too.
        assert_eq!(done.count(), 9 * 3 + 5);
    }

    #[test]
    fn the_longest_are_escaped_throughout() {
        let [first, second] = &longest()[..] else {
            panic!("there are two");
        };
        assert_eq!([check_of(first), check_of(second)], [ESCAPE, END]);
        assert_eq!([written(first), written(second)], [Some(LONGEST); 2]);
    }

    #[test]
    fn escapes_are_chosen_in_every_way() {
        let chosen = |writing: &Writing| {
            let &[first, _, last] = &writing.data[..] else {
                panic!("there are three");
            };
            let check = check_of(writing);
            let bytes = [writing.number, writing.record, first, last, check];
            bytes.map(|byte| byte == END || byte == ESCAPE)
        };
        let choices: BTreeSet<[bool; 5]> = escapes().iter().map(chosen).collect();
        assert_eq!(choices.len(), 32);
    }
}
