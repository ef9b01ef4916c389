//! Ways to begin a trace that random commands would hardly find.

use super::super::random::Xorshift;
use crate::chart::{check, Edition, GOOD};
use crate::kernel::command::{Command, Handle};
use crate::kernel::numbers::*;
use crate::kernel::replay::Charts;
use crate::kernel::tables::edition_of;

/// No opening, most of the time.
pub fn random_opening(random: &mut Xorshift, charts: &Charts, signal: u8) -> Vec<Command> {
    let slots = good_slots(charts);
    match random.below(100) {
        0..3 if !slots.is_empty() => pile(&slots, signal),
        3..6 if !slots.is_empty() => {
            let drained = [Command::End, Command::Drain { budget: 255 }];
            [pile(&slots, signal), drained.to_vec()].concat()
        }
        6..10 => many_lives(signal),
        _ => Vec::new(),
    }
}

/// The first slot of each edition whose chart is good.
fn good_slots(charts: &Charts) -> Vec<u8> {
    let first_good = |edition| {
        let mut slots = SLOTS.filter(|&slot| edition_of(slot) == edition);
        slots.find(|&slot| check(edition, &charts[usize::from(slot)]) == GOOD)
    };
    Edition::ALL.into_iter().filter_map(first_good).collect()
}

/// One event in all 256 mailbox places, in all 64 side places, in hand, and held 15 times. The objects follow the charts
/// of these slots by turns, and each has another flag up than its neighbours.
fn pile(slots: &[u8], signal: u8) -> Vec<Command> {
    let handle = of_block_0(0);
    let loads = slots.iter().map(|&slot| Command::Load { slot });
    let mut commands: Vec<Command> = loads.collect();
    commands.push(new_event(signal));
    for (p, &slot) in PRIORITIES.zip(slots.iter().cycle()) {
        let depth = *DEPTHS.end();
        let flag = 1 + p % FLAGS.end();
        commands.push(Command::Start { p, slot, depth });
        commands.push(Command::Subscribe { p, signal });
        commands.push(Command::Flag { p, flag, value: 1 });
    }
    commands.extend(DEPTHS.map(|_| Command::Publish { handle }));
    commands.extend((0..MOST_HOLDS).map(|_| Command::Hold { handle }));
    commands.push(Command::Next);
    for q in SIDE_QUEUES {
        commands.extend((0..MOST_SET_ASIDE).map(|_| Command::Defer { q }));
    }
    commands.push(Command::Post {
        handle,
        p: *PRIORITIES.end(),
        margin: 0,
    });
    commands
}

/// One block freed 256 times and taken once more, so that its generation has a second byte; then each command that
/// names the handle of its first life, whose low byte fits.
fn many_lives(signal: u8) -> Vec<Command> {
    let filled_and_freed = |generation| {
        let handle = of_block_0(generation);
        [new_event(signal), Command::Drop { handle }]
    };
    let mut commands: Vec<Command> = (0..=255).flat_map(filled_and_freed).collect();
    commands.push(new_event(signal));
    let handle = of_block_0(0);
    let (p, margin) = (*PRIORITIES.start(), 0);
    commands.extend([
        Command::Post { handle, p, margin },
        Command::PostFront { handle, p },
        Command::Publish { handle },
        Command::Hold { handle },
        Command::Release { handle },
        Command::Drop { handle },
        Command::Read { handle },
    ]);
    commands
}

fn of_block_0(generation: u32) -> Handle {
    let block = 0;
    Handle { block, generation }
}

/// A new event that goes to a block of the smallest kind.
fn new_event(signal: u8) -> Command {
    Command::New {
        signal,
        size: 0,
        payload: [0; 64],
    }
}

#[cfg(test)]
mod tests {
    use super::*;
    use crate::harness::good::{alarm, shift};
    use crate::kernel::replay::Program;
    use crate::kernel::reply::Refusal;

    /// Sends these commands, to each of which this is the answer.
    fn send_all(program: &mut Program, commands: &[Command], answer: u8) {
        for command in commands {
            assert_eq!(program.answer(&command.record())[0], answer, "{command:?}");
        }
    }

    fn charts() -> Charts {
        [Vec::new(), shift(), Vec::new(), shift(), alarm()]
    }

    #[test]
    fn a_pile_has_all_references_that_an_event_can_have() {
        assert_eq!(good_slots(&charts()), [1, 4]);
        for slots in [&[1][..], &[4], &[1, 4]] {
            let mut program = Program::fresh(charts());
            send_all(&mut program, &pile(slots, 31), 0);
            assert_eq!(program.kernel().references(0), 256 + 64 + 1 + 15);
        }
    }

    #[test]
    fn after_many_lives_the_first_handle_is_stale() {
        let mut program = Program::fresh(charts());
        let commands = many_lives(31);
        // 256 times NEW and DROP, and NEW.
        let (lives, late) = commands.split_at(2 * 256 + 1);
        assert_eq!(late.len(), 7);
        send_all(&mut program, lives, 0);
        assert_eq!(program.kernel().handle(0).generation, 256);
        send_all(&mut program, late, Refusal::Stale as u8);
    }
}
