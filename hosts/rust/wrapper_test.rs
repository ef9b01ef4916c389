//! What the sample night does not reach of the wrapper. The values expected are those of documents 01 and 02.

use trunhoac::Refusal::{self, *};
use trunhoac::{chart_check, chart_check_guarded, chart_flatten, chart_flatten_guarded};
use trunhoac::{DrainEnd, Event, Frame, Handle, Kernel, New, Outcome};
use trunhoac::{Reader, Released, Step, Ticked, Writer};
use trunhoac::{FRAME_BYTES, FRAME_DATA, LAST_GENERATION, REPLY_BYTES};
use trunhoac::{GUARDED_BYTES, GUARDED_SLOT, SLOT_BYTES};

#[path = "../../include/trunhoac.rs"]
#[allow(dead_code)] // the night uses the rest
mod trunhoac;

const SHIFT_CHART: &[u8] = include_bytes!("../../crates/replay/data/chart0");

/// Objects 9 and 5 run the shift chart, each with so many places for mail.
fn started(depth: u8) -> Kernel {
    let mut kernel = Kernel::fresh();
    assert_eq!(kernel.load(0, SHIFT_CHART), Ok(5));
    for object in [9, 5] {
        let start = kernel.start(object, 0, depth).unwrap();
        assert_eq!((start.object, start.outcome), (object, Outcome::Transition));
        assert_eq!(*start.actions, [10, 11, 13, 21]);
    }
    kernel
}

/// The shift chart with a byte changed.
fn changed(place: usize, byte: u8) -> Vec<u8> {
    let mut chart = SHIFT_CHART.to_vec();
    chart[place] = byte;
    chart
}

/// The shift chart with flag 1 at 2 by 6 and flag 8 at 4 by 9; its row of state 1 is for signal 6 too.
fn guarded_chart() -> Vec<u8> {
    let mut chart = changed(50, 6);
    (chart[62], chart[86]) = (1, 8);
    chart
}

/// Object 9 runs that chart.
fn started_guarded() -> Kernel {
    let mut kernel = Kernel::fresh();
    assert_eq!(kernel.load(GUARDED_SLOT, &guarded_chart()), Ok(5));
    let start = kernel.start(9, GUARDED_SLOT, 1).unwrap();
    assert_eq!(*start.actions, [10, 11, 13, 21]);
    kernel
}

#[test]
fn each_refusal_has_the_documents_name() {
    let names = "FORM AREA RANGE BUSY NOSTEP IDLE STALE ABSENT TAKEN FULL DRY HOLDS INUSE";
    let mut reply = [0; REPLY_BYTES];
    assert_eq!(Refusal::in_reply(&reply), None);
    for (number, name) in (1..).zip(names.split(' ').chain(["CHART, class 4", "TABLE"])) {
        (reply[0], reply[4]) = (number, 4);
        assert_eq!(Refusal::in_reply(&reply).unwrap().to_string(), name);
    }
}

#[test]
fn the_kernel_refuses() {
    let mut kernel = started(1);
    assert_eq!(kernel.start(17, 0, 1), Err(Range));
    assert_eq!(kernel.start(3, GUARDED_SLOT + 1, 1), Err(Range));
    assert_eq!(kernel.start(3, 1, 1), Err(Absent));
    assert_eq!(kernel.start(3, GUARDED_SLOT, 1), Err(Absent));
    assert_eq!(kernel.load(GUARDED_SLOT + 1, SHIFT_CHART), Err(Range));
    assert_eq!(kernel.load(0, SHIFT_CHART), Err(Taken));
    assert_eq!(kernel.end(), Err(NoStep));
    assert_eq!(kernel.next(), Err(Idle));
    let event = kernel.new(6, &[]).unwrap().event;
    assert_eq!(kernel.post(event, 9, 1), Err(Full));
    assert_eq!(kernel.post(event, 9, 0), Ok(1));
    assert_eq!(kernel.drop(event), Err(InUse));
    assert!(kernel.next().is_ok());
    assert_eq!(kernel.drain(1), Err(Busy));
    for _ in 1..32 {
        assert!(kernel.new(4, &[0; 16]).is_ok());
    }
    assert_eq!(kernel.new(4, &[0; 16]), Err(Dry));
}

#[test]
fn payloads_choose_the_pool() {
    let mut kernel = Kernel::fresh();
    for (size, block) in [(16, 0), (17, 32), (20, 33), (33, 48), (64, 49)] {
        let payload: Vec<u8> = (1..=size).collect();
        let event = kernel.new(31, &payload).unwrap().event;
        assert_eq!((event.block(), event.generation()), (block, 0));
        assert_eq!(kernel.read(event), Ok(&payload[..]));
    }
    for size in [65, 255, 256, 300] {
        assert_eq!(kernel.new(31, &vec![1; size]), Err(Range));
    }
}

#[test]
fn new_tells_how_near_its_pool_came() {
    let mut kernel = Kernel::fresh();
    let large: Vec<New> = (0..8).map(|_| kernel.new(4, &[0; 64]).unwrap()).collect();
    let marks: Vec<u8> = large.iter().map(|new| new.least_free).collect();
    assert_eq!(marks, [7, 6, 5, 4, 3, 2, 1, 0]);
    assert_eq!(kernel.new(4, &[0; 33]), Err(Dry));
    for new in &large[1..] {
        assert_eq!(kernel.drop(new.event), Ok(()));
    }
    // 6 of the 8 are free behind this NEW; the others are the first of their pools
    for (size, least_free) in [(64, 0), (17, 15), (16, 31)] {
        let new = kernel.new(4, &[0; 64][..size]).unwrap();
        assert_eq!(new.least_free, least_free);
    }
}

#[test]
fn holds_are_counted() {
    let mut kernel = Kernel::fresh();
    let event = kernel.new(6, &[]).unwrap().event;
    assert_eq!(kernel.release(event), Err(Holds));
    for holds in 1..=15 {
        assert_eq!(kernel.hold(event), Ok(holds));
    }
    assert_eq!(kernel.hold(event), Err(Holds));
    for holds in (0..15).rev() {
        let freed = holds == 0;
        assert_eq!(kernel.release(event), Ok(Released { holds, freed }));
    }
    let event = kernel.new(6, &[]).unwrap().event;
    assert_eq!((event.block(), event.generation()), (0, 1));
    assert_eq!(kernel.drop(event), Ok(()));
}

/// Every method that takes the event refuses it.
fn assert_stale(kernel: &mut Kernel, event: Handle) {
    assert_eq!(kernel.post(event, 9, 0), Err(Stale));
    assert_eq!(kernel.post_front(event, 9), Err(Stale));
    assert_eq!(kernel.publish(event), Err(Stale));
    assert_eq!(kernel.hold(event), Err(Stale));
    assert_eq!(kernel.release(event), Err(Stale));
    assert_eq!(kernel.drop(event), Err(Stale));
    assert_eq!(kernel.read(event), Err(Stale));
}

#[test]
fn old_handles_are_refused_for_ever() {
    let mut kernel = started(1);
    let mut old: Vec<Handle> = Vec::new();
    for life in 0..300 {
        let event = kernel.new(6, &[]).unwrap().event;
        assert_eq!((event.block(), event.generation()), (0, life));
        assert_eq!(kernel.post(event, 9, 0), Ok(1));
        let step = kernel.next().unwrap();
        assert_eq!((step.event, kernel.end()), (Event::Block(event), Ok(true)));
        old.push(event);
    }
    assert!(kernel.new(6, &[]).is_ok());
    for event in old {
        assert_stale(&mut kernel, event);
    }
}

/// Takes some seconds: it goes through all lives of a block.
#[test]
fn a_block_is_retired_at_its_last_generation() {
    let mut kernel = Kernel::fresh();
    let mut last = None;
    for generation in 0..=LAST_GENERATION {
        let event = kernel.new(6, &[]).unwrap().event;
        assert_eq!((event.block(), event.generation()), (0, generation));
        assert_eq!(kernel.drop(event), Ok(()));
        last = Some(event);
    }
    let New { event, least_free } = kernel.new(6, &[]).unwrap();
    assert_eq!((event.block(), event.generation(), least_free), (1, 0, 30));
    assert_stale(&mut kernel, last.unwrap());
}

#[test]
fn publishing_follows_the_subscriptions() {
    let mut kernel = started(1);
    assert_eq!(kernel.subscribe(9, 6), Ok(true));
    assert_eq!(kernel.subscribe(9, 6), Ok(false));
    for expected in [(1, false), (0, true)] {
        let event = kernel.new(6, &[]).unwrap().event;
        let published = kernel.publish(event).unwrap();
        assert_eq!((published.receivers, published.freed), expected);
        assert_eq!(kernel.unsubscribe(9, 6), Ok(!published.freed));
    }
}

#[test]
fn steps_tell_what_the_chart_makes_of_a_signal() {
    let mut kernel = started(3);
    let [fault, reading] = [6, 9].map(|signal| kernel.new(signal, &[]).unwrap().event);
    assert_eq!(kernel.post(fault, 9, 0), Ok(1));
    assert_eq!(kernel.post(reading, 9, 0), Ok(2));
    assert_eq!(kernel.post_front(reading, 9), Ok(3));
    assert_eq!(kernel.drain(0).unwrap().end, DrainEnd::Spent);
    let first = kernel.next().unwrap();
    assert_eq!(
        (first.outcome, first.event),
        (Outcome::Ignored, Event::Block(reading))
    );
    assert_eq!((first.actions.len(), kernel.end()), (0, Ok(false)));
    let drained = kernel.drain(255).unwrap();
    assert_eq!((drained.steps, drained.end), (2, DrainEnd::Empty));
    let steps: Vec<Step> = drained.log().collect();
    assert_eq!((steps[0].object, steps[0].signal), (9, 6));
    assert_eq!(
        (steps[0].outcome, steps[0].event),
        (Outcome::Transition, Event::Block(fault))
    );
    assert_eq!(*steps[0].actions, [26, 22, 31, 41]);
    assert_eq!((steps[1].signal, steps[1].outcome), (9, Outcome::Internal));
    assert_eq!((&*steps[1].actions, steps.len()), (&[49][..], 2));
}

#[test]
fn timers_fire_by_ascending_number() {
    let mut kernel = started(1);
    assert_eq!(kernel.arm(15, 9, 8, 0, 1), Err(Range));
    assert_eq!(kernel.arm(15, 9, 8, 1, 2), Ok(()));
    assert_eq!(kernel.arm(15, 9, 8, 1, 2), Err(Taken));
    assert_eq!(kernel.arm(0, 9, 6, 1, 0), Ok(()));
    assert_eq!(kernel.tick(), Ok(Ticked { fired: 1, late: 1 }));
    assert_eq!((kernel.disarm(0), kernel.disarm(15)), (Ok(false), Ok(true)));
    let step = kernel.next().unwrap();
    assert_eq!((step.signal, step.event), (6, Event::Timer(0)));
    assert_eq!(kernel.arm(15, 9, 31, 258, 259), Ok(()));
    for ticks in [258, 259] {
        for fired in (1..=ticks).map(|tick| u8::from(tick == ticks)) {
            assert_eq!(kernel.tick(), Ok(Ticked { fired, late: 0 }));
        }
        assert_eq!(kernel.end(), Ok(false));
        let step = kernel.next().unwrap();
        assert_eq!((step.signal, step.event), (31, Event::Timer(15)));
    }
}

#[test]
fn side_queues_keep_events() {
    let mut kernel = started(1);
    assert_eq!(kernel.defer(0), Err(NoStep));
    let event = kernel.new(6, &[1, 2]).unwrap().event;
    assert_eq!(kernel.post(event, 9, 0), Ok(1));
    assert!(kernel.next().is_ok());
    for aside in 1..=8 {
        assert_eq!(kernel.defer(7), Ok(aside));
    }
    assert_eq!((kernel.defer(7), kernel.defer(8)), (Err(Full), Err(Range)));
    assert_eq!(kernel.end(), Ok(false));
    assert_eq!(kernel.drop(event), Err(InUse));
    assert_eq!(kernel.recall(7, 5), Ok(true));
    assert_eq!(
        (kernel.recall(7, 5), kernel.recall(6, 5)),
        (Err(Full), Ok(false))
    );
    let step = kernel.next().unwrap();
    assert_eq!((step.object, step.event), (5, Event::Block(event)));
    assert_eq!(kernel.read(event), Ok(&[1, 2][..]));
    assert_eq!(kernel.end(), Ok(false));
    assert_eq!((kernel.flush(7), kernel.flush(7)), (Ok(7), Ok(0)));
    assert_eq!(kernel.read(event), Err(Stale));
}

#[test]
fn the_oldest_is_recalled_to_the_front() {
    let mut kernel = started(3);
    let [first, second, third] = [6, 9, 31].map(|signal| kernel.new(signal, &[]).unwrap().event);
    for (event, side, aside) in [(first, 0, 1), (second, 0, 2), (third, 1, 1)] {
        assert_eq!(kernel.post(event, 9, 0), Ok(1));
        assert!(kernel.next().is_ok());
        assert_eq!((kernel.defer(side), kernel.end()), (Ok(aside), Ok(false)));
    }
    for side in [0, 0, 1] {
        assert_eq!(kernel.recall(side, 5), Ok(true));
    }
    let drained = kernel.drain(255).unwrap();
    let events: Vec<Event> = drained.log().map(|step| step.event).collect();
    assert_eq!(events, [third, second, first].map(Event::Block));
}

#[test]
fn side_queues_refuse() {
    let mut kernel = started(1);
    assert_eq!(kernel.recall(8, 5), Err(Range));
    assert_eq!(
        (kernel.recall(0, 0), kernel.recall(0, 17)),
        (Err(Range), Err(Range))
    );
    assert_eq!(kernel.recall(0, 3), Err(Absent));
    assert_eq!(kernel.flush(8), Err(Range));
    assert_eq!(kernel.arm(0, 9, 6, 1, 0), Ok(()));
    assert_eq!(kernel.tick(), Ok(Ticked { fired: 1, late: 0 }));
    assert!(kernel.next().is_ok());
    assert_eq!(kernel.defer(0), Err(Stale));
    assert_eq!(kernel.recall(0, 5), Ok(false));
}

/// What object 9 makes of a signal.
fn step_by(kernel: &mut Kernel, signal: u8) -> (Outcome, Vec<u8>) {
    let event = kernel.new(signal, &[]).unwrap().event;
    assert_eq!(kernel.post(event, 9, 0), Ok(1));
    let step = kernel.next().unwrap();
    assert_eq!((step.object, step.signal), (9, signal));
    assert_eq!((step.event, kernel.end()), (Event::Block(event), Ok(true)));
    (step.outcome, step.actions.to_vec())
}

#[test]
fn flags_decide_which_rows_count() {
    let mut kernel = started_guarded();
    let outer = (Outcome::Transition, vec![15, 22, 12, 11, 13, 21]);
    assert_eq!(step_by(&mut kernel, 6), outer);
    assert_eq!(kernel.flag(9, 1, true), Ok(true));
    assert_eq!(kernel.flag(9, 1, true), Ok(false));
    let inner = (Outcome::Transition, vec![26, 22, 31, 41]);
    assert_eq!(step_by(&mut kernel, 6), inner);
    for (up, outcome) in [
        (false, (Outcome::Ignored, vec![])),
        (true, (Outcome::Internal, vec![49])),
    ] {
        assert_eq!(kernel.flag(9, 8, up), Ok(up));
        assert_eq!(step_by(&mut kernel, 9), outcome);
    }
    assert_eq!(kernel.flag(9, 8, false), Ok(true));
    assert_eq!(step_by(&mut kernel, 9), (Outcome::Ignored, vec![]));
}

#[test]
fn drained_steps_look_at_the_flags() {
    let mut kernel = started_guarded();
    assert_eq!(kernel.load(0, SHIFT_CHART), Ok(5));
    assert!(kernel.start(5, 0, 1).is_ok());
    let event = kernel.new(6, &[]).unwrap().event;
    for (object, flag) in [(9, 2), (5, 1)] {
        assert_eq!(kernel.flag(object, flag, true), Ok(true));
        assert_eq!(kernel.post(event, object, 0), Ok(1));
    }
    let steps: Vec<Step> = kernel.drain(255).unwrap().log().collect();
    assert_eq!((steps[0].object, steps[1].object, steps.len()), (9, 5, 2));
    assert_eq!(*steps[0].actions, [15, 22, 12, 11, 13, 21]);
    assert_eq!(*steps[1].actions, [26, 22, 31, 41]);
}

#[test]
fn flags_are_refused() {
    let mut kernel = started(1);
    for (object, flag) in [(0, 1), (17, 1), (9, 0), (9, 9)] {
        assert_eq!(kernel.flag(object, flag, true), Err(Range));
    }
    assert_eq!(kernel.flag(3, 1, true), Err(Absent));
    let event = kernel.new(6, &[]).unwrap().event;
    assert_eq!(kernel.post(event, 9, 0), Ok(1));
    assert!(kernel.next().is_ok());
    assert_eq!(kernel.flag(9, 9, true), Err(Range));
    assert_eq!(
        (kernel.flag(9, 8, true), kernel.flag(3, 8, true)),
        (Err(Busy), Err(Busy))
    );
    assert_eq!(kernel.end(), Ok(true));
    assert_eq!(kernel.flag(9, 8, true), Ok(true));
    assert_eq!(kernel.start(3, 0, 1).map(|start| start.object), Ok(3));
    assert_eq!(kernel.flag(3, 8, false), Ok(false));
}

#[test]
fn charts_are_refused_by_class() {
    let mut without_start = changed(28, 0);
    without_start[29] = 0; // state 3, a parent, has no initial transition now
    let bad = [
        (1, vec![]),
        (2, changed(0, 9)),
        (3, changed(9, 1)),
        (3, without_start),
        (4, changed(50, 3)),
    ];
    for (class, chart) in bad {
        assert_eq!(chart_check(&chart), Err(Chart(class)));
        assert_eq!(chart_flatten(&chart, &mut []), Err(Chart(class)));
        assert_eq!(Kernel::fresh().load(0, &chart), Err(Chart(class)));
    }
    let mut slot = vec![7; SLOT_BYTES + 1];
    assert_eq!(chart_check(SHIFT_CHART), Ok(()));
    assert_eq!(chart_flatten(SHIFT_CHART, &mut slot), Err(Chart(5)));
    assert_eq!(slot, vec![7; SLOT_BYTES + 1]);
    assert_eq!(chart_flatten(SHIFT_CHART, &mut slot[..SLOT_BYTES]), Ok(()));
    assert_eq!(slot[2136..2142], [5, 2, 3, 38, 42, 51]);
    assert_eq!(slot[2142..2160], [0; 18]);
    assert_eq!(slot[SLOT_BYTES], 7);
}

/// A top initial transition, and so many states in nothing.
fn states(count: usize) -> Vec<u8> {
    let mut chart = vec![3, 1, 0, 0, 0, 0, 0, 0];
    chart.extend([1, 0, 0, 0, 0, 0, 0, 0].repeat(count));
    chart
}

#[test]
fn guarded_charts_are_refused_by_class() {
    let mut flag_nine = guarded_chart();
    flag_nine[86] = 9;
    let bad = [
        (1, vec![]),
        (2, states(9)),
        (2, changed(55, 1)), // the byte behind the flag
        (3, changed(9, 1)),
        (4, flag_nine),
    ];
    for (class, chart) in bad {
        assert_eq!(chart_check_guarded(&chart), Err(Chart(class)));
        assert_eq!(chart_flatten_guarded(&chart, &mut []), Err(Chart(class)));
        let loaded = Kernel::fresh().load(GUARDED_SLOT, &chart);
        assert_eq!(loaded, Err(Chart(class)));
    }
    assert_eq!(chart_check_guarded(&states(8)), Ok(()));
    assert_eq!(
        (chart_check(&states(9)), chart_check(&states(24))),
        (Ok(()), Ok(()))
    );
    assert_eq!(chart_check(&guarded_chart()), Err(Chart(2)));
    assert_eq!(Kernel::fresh().load(3, &guarded_chart()), Err(Chart(2)));
}

#[test]
fn guarded_charts_are_flattened() {
    let chart = guarded_chart();
    let mut table = vec![7; GUARDED_BYTES + 1];
    assert_eq!(chart_check_guarded(&chart), Ok(()));
    for length in [0, SLOT_BYTES, GUARDED_BYTES - 1, GUARDED_BYTES + 1] {
        let refused = chart_flatten_guarded(&chart, &mut table[..length]);
        assert_eq!(refused, Err(Chart(5)));
    }
    assert_eq!(table, vec![7; GUARDED_BYTES + 1]);
    assert_eq!(
        chart_flatten_guarded(&chart, &mut table[..GUARDED_BYTES]),
        Ok(())
    );
    // state 2 and signal 6: its own row with flag 1, that of state 1 without, then four rows of zeros
    let (own, outer, none) = (&table[4344..4368], &table[4368..4392], &table[4392..4488]);
    assert_eq!((&own[..7], own[21]), (&[4, 2, 4, 26, 22, 31, 41][..], 1));
    assert_eq!(
        (&outer[..9], outer[21]),
        (&[2, 2, 6, 15, 22, 12, 11, 13, 21][..], 0)
    );
    assert_eq!(none, [0; 96]);
    assert_eq!(table[GUARDED_BYTES], 7);
}

#[test]
fn no_row_is_unsound() {
    let mut kernel = Kernel::fresh();
    assert_eq!(kernel.load(0, &changed(50, 3)), Err(Chart(4)));
    assert_eq!(kernel.start(9, 0, 1), Err(Absent));
    let mut kernel = started(1);
    for signal in (4..=31).cycle().take(280) {
        let event = kernel.new(signal, &[]).unwrap().event;
        assert_eq!(kernel.post(event, 9, 0), Ok(1));
        assert_eq!(kernel.drain(2).unwrap().end, DrainEnd::Empty);
    }
    let mut kernel = started_guarded();
    for signal in (4..=31).cycle().take(2800) {
        let event = kernel.new(signal, &[]).unwrap().event;
        let generation = event.generation();
        assert!(kernel.flag(9, 1, generation % 3 == 1).is_ok());
        assert!(kernel.flag(9, 8, generation % 5 == 1).is_ok());
        assert_eq!(kernel.post(event, 9, 0), Ok(1));
        assert_eq!(kernel.drain(2).unwrap().end, DrainEnd::Empty);
    }
}

#[test]
fn kernels_stand_side_by_side() {
    let (mut one, mut other) = (Kernel::fresh(), Kernel::fresh());
    let new = one.new(6, &[1, 2]).unwrap();
    let event = new.event;
    assert_eq!(other.read(event), Err(Stale));
    assert_eq!(other.new(7, &[3]), Ok(new));
    let mut copy = one.clone();
    assert_eq!(one.drop(event), Ok(()));
    assert_eq!(one.read(event), Err(Stale));
    assert_eq!(other.read(event), Ok(&[3][..]));
    assert_eq!(copy.read(event), Ok(&[1, 2][..]));
}

/// The bytes of frames one after the other, with these data and the kinds 1, 2, ..
fn framed(writer: &mut Writer, data: &[&[u8]]) -> Vec<u8> {
    let mut area = [0; FRAME_BYTES];
    let frames = (1..).zip(data);
    frames
        .flat_map(|(kind, data)| writer.write(kind, data, &mut area).unwrap().to_vec())
        .collect()
}

/// What is handed out of a frame.
type Told = (u8, u8, bool, Vec<u8>);

fn read(reader: &mut Reader, piece: &[u8]) -> Vec<Told> {
    let mut all = Vec::new();
    reader.feed(
        piece,
        |Frame {
             number,
             kind,
             gap,
             data,
         }| all.push((number, kind, gap, data.to_vec())),
    );
    all
}

#[test]
fn frames_are_written_as_the_book_has_them() {
    let mut writer = Writer::new();
    for _ in 0..0x7E {
        framed(&mut writer, &[&[]]);
    }
    let mut area = [7; 12];
    assert_eq!(writer.write(0x7D, &[0x7D, 8, 1], &mut area[..10]), None);
    assert_eq!(
        writer.write(0, &[0; FRAME_DATA + 1], &mut [0; 2 * FRAME_BYTES]),
        None
    );
    assert_eq!(area, [7; 12]);
    let frame = [0x7D, 0x5E, 0x7D, 0x5D, 0x7D, 0x5D, 8, 1, 0x7D, 0x5E, 0x7E];
    assert_eq!(
        writer.write(0x7D, &[0x7D, 8, 1], &mut area),
        Some(&frame[..])
    );
    assert_eq!(area[11], 7);
}

#[test]
fn frames_are_read_however_they_are_cut() {
    let data: [&[u8]; 3] = [&[0x7E; FRAME_DATA], &[], &[5, 0x7D]];
    let stream = framed(&mut Writer::new(), &data);
    let told: Vec<Told> = (0..)
        .zip(data)
        .map(|(n, data)| (n, n + 1, false, data.to_vec()))
        .collect();
    for cut in 0..=stream.len() {
        let mut reader = Reader::fresh();
        let mut all = read(&mut reader, &stream[..cut]);
        let mut copy = reader.clone();
        all.extend(read(&mut copy, &stream[cut..]));
        assert_eq!(all, told);
    }
}

#[test]
fn a_lost_frame_shows_as_a_gap() {
    let mut writer = Writer::new();
    let mut stream = framed(&mut writer, &[&[1], &[2], &[3], &[4]]);
    stream[6] ^= 1; // in the second of four frames of five bytes
    let told = read(&mut Reader::fresh(), &stream);
    let numbers: Vec<(u8, bool)> = told
        .iter()
        .map(|(number, _, gap, _)| (*number, *gap))
        .collect();
    assert_eq!(numbers, [(0, false), (2, true), (3, false)]);
}
