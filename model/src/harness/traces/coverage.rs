//! Which answers to which commands a set of random traces or calls has seen.

pub mod cases;

use super::exchange::Exchange;
use super::Trace;
use crate::kernel::command::{Command, COMMAND_NAMES};
use crate::kernel::numbers::RECORD_BYTES;
use crate::kernel::refusals::refusals_of;
use crate::kernel::replay::Program;
use crate::kernel::reply::{Refusal, ANSWER_NAMES};
use cases::{Case, IN_A_REPLAY, IN_CALLS};
use std::collections::BTreeMap;
use std::io::{self, Write};

const DONE: u8 = 0;
const FORM: u8 = Refusal::Form as u8;
const AREA: u8 = Refusal::Area as u8;
const TABLE: u8 = Refusal::Table as u8;

/// Records that belong to no command.
const UNKNOWN_NUMBER: &str = "(unknown)";
const OTHER_LENGTH: &str = "(length)";

/// How often each answer was given to each command, and each case came about.
#[derive(Default)]
pub struct Coverage {
    answers: BTreeMap<(&'static str, u8), usize>,
    /// By command, answer and name.
    cases: BTreeMap<(&'static str, u8, &'static str), usize>,
}

/// An answer that the documents give a command but that never came.
struct Unseen {
    command: &'static str,
    answer: u8,
}

impl Coverage {
    /// Of a trace for each seed and number of commands.
    pub fn of_traces(traces: impl IntoIterator<Item = (u64, usize)>) -> Self {
        let mut coverage = Coverage::default();
        for (seed, commands) in traces {
            coverage.add_trace(&Trace::random(seed, commands));
        }
        coverage
    }

    fn add_trace(&mut self, trace: &Trace) {
        let mut program = Program::fresh(trace.charts.clone());
        for (record, _) in trace.exchanges() {
            let before = program.kernel().clone();
            let reply = program.answer(record);
            self.add(&Exchange {
                record,
                reply: &reply,
                before: &before,
                after: program.kernel(),
                lent: program.lent(record),
            });
        }
    }

    pub fn add(&mut self, exchange: &Exchange) {
        let (command, answer) = (name_of(exchange.record), exchange.reply[0]);
        *self.answers.entry((command, answer)).or_default() += 1;
        for case in IN_A_REPLAY.iter().chain(IN_CALLS) {
            let is_meant = (case.command, case.answer) == (command, answer);
            if is_meant && (case.shows)(exchange) {
                *self.cases.entry(case.key()).or_default() += 1;
            }
        }
    }

    pub fn times(&self, command: &'static str, answer: u8) -> usize {
        self.answers.get(&(command, answer)).copied().unwrap_or(0)
    }

    /// The cases of which there is none.
    pub fn unseen_cases(&self) -> impl Iterator<Item = &'static Case> + '_ {
        let all = IN_A_REPLAY.iter().chain(IN_CALLS);
        all.filter(|case| !self.cases.contains_key(&case.key()))
    }

    /// Of replays; what they cannot come to is told with the reason.
    pub fn write(&self, out: &mut impl Write) -> io::Result<()> {
        self.write_table(out)?;
        self.write_cases(out, IN_A_REPLAY)?;
        writeln!(out)?;
        for Unseen { command, answer } in self.unseen() {
            let name = ANSWER_NAMES[usize::from(answer)];
            let reason = why_not_in_a_replay(answer).unwrap_or("MISSING");
            writeln!(out, "{command} {name} did not occur: {reason}")?;
        }
        Ok(())
    }

    /// Of calls with areas of other lengths, and with tables that others write to.
    pub fn write_calls(&self, out: &mut impl Write) -> io::Result<()> {
        self.write_table(out)?;
        self.write_cases(out, IN_A_REPLAY)?;
        self.write_cases(out, IN_CALLS)
    }

    fn write_cases(&self, out: &mut impl Write, cases: &[Case]) -> io::Result<()> {
        writeln!(out)?;
        for case in cases {
            let Case { command, name, .. } = case;
            let answer = ANSWER_NAMES[usize::from(case.answer)];
            let times = self.cases.get(&case.key()).unwrap_or(&0);
            writeln!(out, "{command:12} {answer:7} {name:37} {times:7}")?;
        }
        Ok(())
    }

    /// A dash stands where the documents have no such answer.
    fn write_table(&self, out: &mut impl Write) -> io::Result<()> {
        write!(out, "{:12}", "")?;
        for name in ANSWER_NAMES {
            write!(out, "{name:>7}")?;
        }
        writeln!(out)?;
        for command in COMMAND_NAMES
            .into_iter()
            .chain([UNKNOWN_NUMBER, OTHER_LENGTH])
        {
            write!(out, "{command:12}")?;
            let listed = answers_of(command);
            for answer in 0..ANSWER_NAMES.len() as u8 {
                if listed.contains(&answer) {
                    write!(out, "{:7}", self.times(command, answer))?;
                } else {
                    write!(out, "{:>7}", "-")?;
                }
            }
            writeln!(out)?;
        }
        Ok(())
    }

    fn unseen(&self) -> Vec<Unseen> {
        let listed = COMMAND_NAMES.into_iter().flat_map(|command| {
            let answers = answers_of(command).into_iter();
            answers.map(move |answer| Unseen { command, answer })
        });
        listed
            .filter(|pair| self.times(pair.command, pair.answer) == 0)
            .collect()
    }
}

fn name_of(record: &[u8]) -> &'static str {
    if record.len() != RECORD_BYTES {
        return OTHER_LENGTH;
    }
    let index = usize::from(record[0]).wrapping_sub(1);
    COMMAND_NAMES.get(index).unwrap_or(&UNKNOWN_NUMBER)
}

/// The answers that the documents give a command.
fn answers_of(command: &str) -> Vec<u8> {
    let Some(index) = COMMAND_NAMES.iter().position(|name| *name == command) else {
        return vec![FORM];
    };
    let mut record = [0; RECORD_BYTES];
    record[0] = index as u8 + 1;
    let command = Command::read(&record).expect("arguments of 0 have a right form");
    let refusals = refusals_of(&command).into_iter();
    [DONE]
        .into_iter()
        .chain(refusals.map(|refusal| refusal as u8))
        .collect()
}

fn why_not_in_a_replay(answer: u8) -> Option<&'static str> {
    match answer {
        AREA => Some("a replay lends each area with its length"),
        TABLE => Some("in a replay only LOAD writes to the tables, and its rows are sound"),
        _ => None,
    }
}

#[cfg(test)]
mod tests {
    use super::*;
    use std::collections::BTreeSet;

    fn of_traces(seeds: std::ops::Range<u64>, commands: usize) -> Coverage {
        Coverage::of_traces(seeds.map(|seed| (seed, commands)))
    }

    #[test]
    fn traces_see_all_that_a_replay_can_show() {
        // Long enough to go on behind the longest opening.
        let coverage = of_traces(0..120, 700);
        for Unseen { command, answer } in coverage.unseen() {
            assert!(why_not_in_a_replay(answer).is_some(), "{command} {answer}");
        }
        for case in IN_A_REPLAY {
            let is_seen = coverage.cases.contains_key(&case.key());
            assert!(is_seen, "{:?}", case.key());
        }
        assert!(coverage.times(OTHER_LENGTH, FORM) > 0);
        assert!(coverage.times(UNKNOWN_NUMBER, FORM) > 0);
    }

    #[test]
    fn no_replay_shows_what_only_calls_can() {
        let coverage = of_traces(200..220, 500);
        for case in IN_CALLS {
            assert!(
                !coverage.cases.contains_key(&case.key()),
                "{:?}",
                case.key()
            );
        }
    }

    #[test]
    fn each_case_has_a_name_of_its_own() {
        let cases = || IN_A_REPLAY.iter().chain(IN_CALLS);
        let names: BTreeSet<_> = cases().map(Case::key).collect();
        assert_eq!(names.len(), cases().count());
    }

    #[test]
    fn no_answer_is_given_that_the_table_does_not_list() {
        let coverage = of_traces(100..120, 500);
        for (command, answer) in coverage.answers.into_keys() {
            assert!(answers_of(command).contains(&answer), "{command} {answer}");
        }
    }
}
