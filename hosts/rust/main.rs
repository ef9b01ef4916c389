//! The night of samples/night/commands.txt as a host in Rust. Its argument names the file with the shift chart; the
//! alarm chart stands here.

use std::{env, error::Error, fs};
use trunhoac::GUARDED_SLOT;
use trunhoac::{Actions, DrainEnd, Event, Handle, Kernel, Refusal, Released, Step, Ticked};

#[path = "../../include/trunhoac.rs"]
#[allow(dead_code)] // a night does not use every command
mod trunhoac;

const ALARM: u8 = 12;
const VENTILATOR: u8 = 9;
const INFUSION_PUMP: u8 = 5;
const SHIFT_CHART: u8 = 0;
const REMINDER: u8 = 0;
const EARLY_NOTES: u8 = 0;
const NOTE_OPEN: u8 = 1;
const SMALL_BLOCKS: u8 = 32; // of 16 bytes: all events here fit
const RECORD_LOADED: u8 = 5;
const FAULT: u8 = 6;
const SIGN: u8 = 8;
const READING: u8 = 9;
const SIGNED: u8 = 11;
const SILENCE: u8 = 14;

/// That of samples/night/chart4.txt: the top, three states and three rows, of which the second has a flag.
const ALARM_CHART: [[u8; 8]; 7] = [
    [3, 1, 60, 0, 0, 0, 0, 0],
    [1, 0, 61, 62, 2, 63, 0, 0],
    [1, 1, 71, 72, 0, 0, 0, 0],
    [1, 1, 81, 82, 0, 0, 0, 0],
    [2, 1, SILENCE, 0, 0, 64, 0, 0],
    [2, 2, SILENCE, 1, 3, 74, NOTE_OPEN, 0],
    [2, 3, 13, 1, 2, 83, 0, 0],
];

fn main() -> Result<(), Box<dyn Error>> {
    let path = env::args_os().nth(1).ok_or("usage: night CHART")?;
    let mut kernel = Kernel::fresh();
    begin(&mut kernel, &fs::read(path)?)?;
    let note = send_notes(&mut kernel)?;
    take_step(&mut kernel)?;
    take_step(&mut kernel)?;
    remind(&mut kernel)?;
    work_off(&mut kernel)?;
    set_note_aside(&mut kernel)?;
    sign_note(&mut kernel)?;
    recall_note(&mut kernel)?;
    read_back(&mut kernel, note)?;
    let least_free = test_alarm(&mut kernel)?;
    println!("The least number of free small blocks tonight: {least_free} of {SMALL_BLOCKS}");
    Ok(())
}

fn begin(kernel: &mut Kernel, chart: &[u8]) -> Result<(), Refusal> {
    let states = kernel.load(SHIFT_CHART, chart)?;
    println!("The shift chart is loaded: {}", counted(states, "state"));
    start(kernel, VENTILATOR, SHIFT_CHART, 4)?;
    start(kernel, INFUSION_PUMP, SHIFT_CHART, 1)
}

fn start(kernel: &mut Kernel, object: u8, slot: u8, depth: u8) -> Result<(), Refusal> {
    let start = kernel.start(object, slot, depth)?;
    println!("{}: {}", name(start.object), carry_out(&start.actions));
    Ok(())
}

fn send_notes(kernel: &mut Kernel) -> Result<Handle, Box<dyn Error>> {
    kernel.subscribe(VENTILATOR, FAULT)?;
    kernel.subscribe(INFUSION_PUMP, FAULT)?;
    let note = kernel.new(FAULT, &[7, 8, 9])?.event;
    let receivers = counted(kernel.publish(note)?.receivers, "receiver");
    println!("A note of three bytes, signal {FAULT}, is published: {receivers}");
    let second = kernel.new(READING, &[])?.event;
    let refusal = refused(kernel.post(second, INFUSION_PUMP, 0))?;
    println!("A second note for the infusion pump is refused: {refusal}");
    let queued = kernel.post(second, VENTILATOR, 0)?;
    println!("The ventilator takes it: {queued} queued");
    let holds = counted(kernel.hold(note)?, "hold");
    println!("The technician keeps the first note: {holds}");
    Ok(note)
}

fn take_step(kernel: &mut Kernel) -> Result<(), Refusal> {
    open_step(kernel)?;
    close_step(kernel)
}

fn open_step(kernel: &mut Kernel) -> Result<Event, Refusal> {
    let step = kernel.next()?;
    show(&step);
    Ok(step.event)
}

fn close_step(kernel: &mut Kernel) -> Result<(), Refusal> {
    let fate = if kernel.end()? { "is freed" } else { "stays" };
    println!("The event {fate}");
    Ok(())
}

fn remind(kernel: &mut Kernel) -> Result<(), Refusal> {
    kernel.arm(REMINDER, VENTILATOR, SIGN, 2, 0)?;
    println!("A reminder is armed");
    for _ in 0..2 {
        let Ticked { fired, late } = kernel.tick()?;
        println!("Tick: {fired} fired, {late} late");
    }
    Ok(())
}

fn work_off(kernel: &mut Kernel) -> Result<(), Box<dyn Error>> {
    let drained = kernel.drain(10)?;
    let end = match drained.end {
        DrainEnd::Spent => "more is queued",
        DrainEnd::Empty => "nothing is queued",
        DrainEnd::Unsound => "a row is not sound",
    };
    println!("Drained in {}, and {end}", counted(drained.steps, "step"));
    drained.log().for_each(|step| show(&step));
    println!("Next: {}", refused(kernel.next())?);
    Ok(())
}

fn set_note_aside(kernel: &mut Kernel) -> Result<(), Refusal> {
    println!("A note for the infusion pump comes before its device record has loaded");
    let note = kernel.new(FAULT, &[4, 5, 6])?.event;
    kernel.post(note, INFUSION_PUMP, 0)?;
    open_step(kernel)?;
    let aside = kernel.defer(EARLY_NOTES)?;
    println!("Set aside: {}", counted(aside, "note"));
    close_step(kernel)
}

fn sign_note(kernel: &mut Kernel) -> Result<(), Refusal> {
    println!("The technician signs the ventilator's note, and only then is it saved");
    let signature = kernel.new(SIGNED, &[])?.event;
    kernel.post(signature, VENTILATOR, 0)?;
    take_step(kernel)
}

fn recall_note(kernel: &mut Kernel) -> Result<(), Box<dyn Error>> {
    println!("The infusion pump's device record has loaded");
    let loaded = kernel.new(RECORD_LOADED, &[])?.event;
    kernel.post(loaded, INFUSION_PUMP, 0)?;
    open_step(kernel)?;
    let recalled = kernel.recall(EARLY_NOTES, INFUSION_PUMP)?;
    println!("Recalled: {}", counted(recalled.into(), "note"));
    close_step(kernel)?;
    let Event::Block(note) = open_step(kernel)? else {
        return Err("the note was expected".into());
    };
    println!("The note that was set aside: {}", payload(kernel, note)?);
    Ok(close_step(kernel)?)
}

fn read_back(kernel: &mut Kernel, note: Handle) -> Result<(), Box<dyn Error>> {
    println!("The note that was kept: {}", payload(kernel, note)?);
    let Released { holds, freed } = kernel.release(note)?;
    let fate = if freed { "is freed" } else { "stays" };
    println!("Released: {}, the event {fate}", counted(holds, "hold"));
    println!("Read again: {}", refused(kernel.read(note))?);
    Ok(())
}

/// The first time the button finds no note open, and asks for one; the second time it silences the alarm.
/// Answers the least number of free small blocks: its NEW is the night's last, and knows of all before it.
fn test_alarm(kernel: &mut Kernel) -> Result<u8, Refusal> {
    let states = kernel.load(GUARDED_SLOT, ALARM_CHART.as_flattened())?;
    println!("The alarm chart is loaded: {}", counted(states, "state"));
    start(kernel, ALARM, GUARDED_SLOT, 2)?;
    let pressed = kernel.new(SILENCE, &[])?;
    kernel.post(pressed.event, ALARM, 0)?;
    let queued = kernel.post(pressed.event, ALARM, 0)?;
    println!("The button that silences the alarm is pressed twice: {queued} queued");
    take_step(kernel)?;
    let changed = kernel.flag(ALARM, NOTE_OPEN, true)?;
    let fate = if changed { "goes up" } else { "was up before" };
    println!("A note is open: flag {NOTE_OPEN} {fate}");
    take_step(kernel)?;
    Ok(pressed.least_free)
}

fn payload(kernel: &mut Kernel, event: Handle) -> Result<String, Refusal> {
    let bytes: Vec<String> = kernel.read(event)?.iter().map(u8::to_string).collect();
    Ok(bytes.join(" "))
}

/// The refusal that the night counts on; an answer in its place is an error.
fn refused<T>(answer: Result<T, Refusal>) -> Result<Refusal, &'static str> {
    answer.err().ok_or("a refusal was expected")
}

fn show(step: &Step) {
    let actions = carry_out(&step.actions);
    println!("{}, signal {}: {actions}", name(step.object), step.signal);
}

/// A real host would do what this one only names.
fn carry_out(actions: &Actions) -> String {
    if actions.is_empty() {
        return "nothing to do".into();
    }
    let names: Vec<&str> = actions.iter().map(|&action| action_name(action)).collect();
    names.join("; ")
}

fn counted(count: u8, what: &str) -> String {
    let plural = if count == 1 { "" } else { "s" };
    format!("{count} {what}{plural}")
}

fn name(object: u8) -> &'static str {
    match object {
        ALARM => "ventilator's alarm",
        VENTILATOR => "ventilator",
        INFUSION_PUMP => "infusion pump",
        _ => "unknown object",
    }
}

fn action_name(action: u8) -> &'static str {
    match action {
        10 => "switch on",
        11 => "open the shift log",
        12 => "close the shift log",
        13 => "show the ward",
        15 => "begin the shift again",
        21 => "light the ready lamp",
        22 => "put out the ready lamp",
        26 => "take up the fault",
        31 => "open a note",
        32 => "save the note",
        33 => "begin a line",
        37 => "date the note",
        38 => "read the note back",
        40 => "strike the line out",
        41 => "show the keyboard",
        42 => "hide the keyboard",
        49 => "write down a reading",
        51 => "ask for a signature",
        52 => "put the pen away",
        59 => "sign the note",
        60 => "switch the alarm on",
        61 => "watch the pressure",
        62 => "stop the watch",
        63 => "begin with a test",
        64 => "ask for a note",
        71 => "sound the alarm",
        72 => "stop the sound",
        74 => "write it into the note",
        81 => "light the watch lamp",
        82 => "put out the watch lamp",
        83 => "name the fault",
        _ => "unknown action",
    }
}
