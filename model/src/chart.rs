//! Charts of both editions: the check, and the step by the nested rules.

mod flat;
#[cfg(test)]
mod tests;

pub use flat::{flatten, read_start, read_step, rows_place, sound, FlatRow, Found, Reading};

use std::collections::BTreeSet;

pub const RECORD_BYTES: usize = 8;
pub const MOST_CHART_BYTES: usize = 5_576;
pub const MOST_LEVELS: usize = 6;
pub const MOST_ACTIONS: usize = 18;
pub const FIRST_SIGNAL: u8 = 4;
pub const LAST_SIGNAL: u8 = 31;
/// The flag of a row that has none.
pub const NO_FLAG: u8 = 0;

/// A row of the flat table: next, outcome, count, 18 actions, the flag, 2 zeros.
pub const ROW_BYTES: usize = 24;

/// The check's answer for a chart without a fault.
pub const GOOD: u32 = 0;
/// The flattener's answer for a good chart and a table of another length.
pub const WRONG_TABLE: u32 = 5;

/// Signals 4 to 31.
const SIGNALS: usize = 28;

const TOP_RECORD: u8 = 3;
const STATE_RECORD: u8 = 1;
const ROW_RECORD: u8 = 2;

const INTERNAL: u8 = 0;
const TRANSITION: u8 = 1;

/// The editions of charts; edition one is the case in which no row has a flag.
#[derive(Clone, Copy, Debug, PartialEq, Eq)]
pub enum Edition {
    Plain,
    Guarded,
}

impl Edition {
    pub const ALL: [Edition; 2] = [Edition::Plain, Edition::Guarded];

    pub fn most_states(self) -> usize {
        match self {
            Edition::Plain => 24,
            Edition::Guarded => 8,
        }
    }

    /// Flags count from 1; 0 stands for none in both editions.
    pub fn highest_flag(self) -> u8 {
        match self {
            Edition::Plain => NO_FLAG,
            Edition::Guarded => 8,
        }
    }

    /// How many rows of the flat table a state has for a signal: where rows may be passed over, one for each level.
    pub fn rows_each(self) -> usize {
        match self {
            Edition::Plain => 1,
            Edition::Guarded => MOST_LEVELS,
        }
    }

    pub fn table_bytes(self) -> usize {
        match self {
            Edition::Plain => 16_152,
            Edition::Guarded => 32_280,
        }
    }
}

/// The flags of an object that are up; all are down by default.
#[derive(Clone, Debug, Default, PartialEq, Eq)]
pub struct Flags {
    up: BTreeSet<u8>,
}

impl Flags {
    /// Whether the flag changed.
    pub fn set(&mut self, flag: u8, is_up: bool) -> bool {
        if is_up {
            self.up.insert(flag)
        } else {
            self.up.remove(&flag)
        }
    }

    /// Whether a row with this flag, or with none, may be taken.
    pub fn admit(&self, flag: u8) -> bool {
        flag == NO_FLAG || self.up.contains(&flag)
    }
}

/// What is wrong with a chart, by class.
#[derive(Clone, Copy, Debug, PartialEq, Eq)]
pub enum Fault {
    Length = 1,
    Records = 2,
    States = 3,
    Rows = 4,
}

impl Fault {
    pub fn class(self) -> u32 {
        self as u32
    }
}

/// The top initial transition.
#[derive(Clone, Copy, Debug)]
struct Top {
    target: u8,
    action: u8,
}

/// A state; its number is its place in the file, from 1.
#[derive(Clone, Copy, Debug)]
struct State {
    parent: u8,
    entry: u8,
    exit: u8,
    initial_target: u8,
    initial_action: u8,
}

/// What a state does on a signal.
#[derive(Clone, Copy, Debug)]
struct Row {
    state: u8,
    signal: u8,
    kind: u8,
    target: u8,
    action: u8,
    flag: u8,
}

/// One 8-byte record with a known kind and clean filler bytes.
enum Record {
    Top(Top),
    State(State),
    Row(Row),
}

impl Record {
    fn read(edition: Edition, bytes: &[u8]) -> Option<Record> {
        match *bytes {
            [TOP_RECORD, target, action, 0, 0, 0, 0, 0] => {
                Some(Record::Top(Top { target, action }))
            }
            [STATE_RECORD, parent, entry, exit, initial_target, initial_action, 0, 0] => {
                Some(Record::State(State {
                    parent,
                    entry,
                    exit,
                    initial_target,
                    initial_action,
                }))
            }
            [ROW_RECORD, state, signal, kind, target, action, flag, 0]
                if flag == NO_FLAG || edition == Edition::Guarded =>
            {
                Some(Record::Row(Row {
                    state,
                    signal,
                    kind,
                    target,
                    action,
                    flag,
                }))
            }
            _ => None,
        }
    }
}

/// The way from level 1 down to a state, the state itself last.
type Path = Vec<u8>;

/// A chart without a fault.
#[derive(Clone, Debug)]
pub struct Chart {
    edition: Edition,
    top: Top,
    states: Vec<State>,
    rows: Vec<Row>,
    /// By state number; the path of 0, the top, is empty.
    paths: Vec<Path>,
}

/// How a state of rest answers a signal.
#[derive(Clone, Copy, Debug, PartialEq, Eq)]
pub enum Outcome {
    Ignored = 0,
    Internal = 1,
    Transition = 2,
}

/// The next state of rest, and the actions in the order they are carried out.
#[derive(Clone, Debug, PartialEq, Eq)]
pub struct Step {
    pub next: u8,
    pub outcome: Outcome,
    pub actions: Vec<u8>,
}

/// The answer of the check: 0 for a good chart of the edition, else the class of its fault.
pub fn check(edition: Edition, bytes: &[u8]) -> u32 {
    match parse(edition, bytes) {
        Ok(_) => GOOD,
        Err(fault) => fault.class(),
    }
}

/// Reads and checks a chart, one class after the other over the whole chart,
/// so that the lowest class is found wherever the faults stand.
pub fn parse(edition: Edition, bytes: &[u8]) -> Result<Chart, Fault> {
    if !has_chart_length(bytes) {
        return Err(Fault::Length);
    }
    let (top, states, rows) = read_records(edition, bytes).ok_or(Fault::Records)?;
    let paths = paths_of(&states).ok_or(Fault::States)?;
    let chart = Chart {
        edition,
        top,
        states,
        rows,
        paths,
    };
    if !chart.initials_are_right() {
        return Err(Fault::States);
    }
    if !chart.rows_are_right() {
        return Err(Fault::Rows);
    }
    Ok(chart)
}

fn has_chart_length(bytes: &[u8]) -> bool {
    let has_whole_records = bytes.chunks_exact(RECORD_BYTES).remainder().is_empty();
    has_whole_records && (1..=MOST_CHART_BYTES).contains(&bytes.len())
}

/// The records by kind, or nothing for a fault of class 2.
fn read_records(edition: Edition, bytes: &[u8]) -> Option<(Top, Vec<State>, Vec<Row>)> {
    let records = bytes.chunks(RECORD_BYTES);
    let mut records = records.map(|record| Record::read(edition, record));
    let Some(Record::Top(top)) = records.next()? else {
        return None;
    };
    let mut states = Vec::new();
    let mut rows = Vec::new();
    for record in records {
        match record? {
            Record::State(state) if rows.is_empty() => states.push(state),
            Record::Row(row) => rows.push(row),
            // A state after a row, or a second top.
            _ => return None,
        }
    }
    let count_is_right = (1..=edition.most_states()).contains(&states.len());
    count_is_right.then_some((top, states, rows))
}

/// The paths of the top and of all states, or nothing if a parent is not lower
/// than its state or a state lies too deep.
fn paths_of(states: &[State]) -> Option<Vec<Path>> {
    let mut paths = vec![Path::new()];
    for (number, state) in (1..).zip(states) {
        // Only the lower numbers have a path by now.
        let mut path = paths.get(usize::from(state.parent))?.clone();
        path.push(number);
        if path.len() > MOST_LEVELS {
            return None;
        }
        paths.push(path);
    }
    Some(paths)
}

impl Chart {
    pub fn state_count(&self) -> usize {
        self.states.len()
    }

    /// The state numbers, from 1.
    pub fn numbers(&self) -> impl Iterator<Item = u8> {
        1..=self.states.len() as u8
    }

    /// The start: the top transition, then initial transitions.
    pub fn start(&self) -> Step {
        let mut walk = Walk::at_top(self);
        walk.list(self.top.action);
        walk.enter_down_to(self.top.target);
        walk.take_initial_transitions();
        walk.finish()
    }

    /// The step from a state of rest, which must be a state of the chart: by the first row outward that the flags admit.
    pub fn step(&self, rest: u8, signal: u8, flags: &Flags) -> Step {
        let mut rows = self.rows_outward(rest, signal);
        match rows.find(|row| flags.admit(row.flag)) {
            Some(row) => self.step_by(row, rest),
            None => Step::ignored(rest),
        }
    }

    /// What a row of the state of rest, or of one around it, does. Its action comes first, whatever its kind.
    fn step_by(&self, row: &Row, rest: u8) -> Step {
        let mut walk = Walk::at_rest(self, rest);
        walk.list(row.action);
        if row.kind == INTERNAL {
            return Step {
                outcome: Outcome::Internal,
                ..walk.finish()
            };
        }
        walk.exit_up_to_level(self.level(row.state));
        walk.exit_up_to_level(self.levels_kept(row.state, row.target));
        walk.enter_down_to(row.target);
        walk.take_initial_transitions();
        walk.finish()
    }

    fn state(&self, number: u8) -> &State {
        &self.states[usize::from(number) - 1]
    }

    fn path(&self, number: u8) -> &Path {
        &self.paths[usize::from(number)]
    }

    fn level(&self, number: u8) -> usize {
        self.path(number).len()
    }

    fn is_state(&self, number: u8) -> bool {
        (1..=self.states.len()).contains(&usize::from(number))
    }

    fn is_inside(&self, inner: u8, outer: u8) -> bool {
        self.is_state(inner) && inner != outer && self.path(inner).contains(&outer)
    }

    fn is_parent(&self, number: u8) -> bool {
        self.states.iter().any(|state| state.parent == number)
    }

    /// The part of class 3 that looks at initial transitions.
    fn initials_are_right(&self) -> bool {
        let right = |number: u8| {
            let state = self.state(number);
            match state.initial_target {
                0 => state.initial_action == 0 && !self.is_parent(number),
                target => self.is_inside(target, number),
            }
        };
        self.is_state(self.top.target) && self.numbers().all(right)
    }

    /// Class 4.
    fn rows_are_right(&self) -> bool {
        let ascending = |pair: &[Row]| {
            let [first, second] = pair else { return true };
            (first.state, first.signal) < (second.state, second.signal)
        };
        self.rows.iter().all(|row| self.row_is_right(row)) && self.rows.windows(2).all(ascending)
    }

    fn row_is_right(&self, row: &Row) -> bool {
        let target_is_right = match row.kind {
            INTERNAL => row.target == 0,
            TRANSITION => self.is_state(row.target),
            _ => false,
        };
        self.is_state(row.state)
            && (FIRST_SIGNAL..=LAST_SIGNAL).contains(&row.signal)
            && target_is_right
            && row.flag <= self.edition.highest_flag()
    }

    /// The rows for the signal on the way outward, that of the state of rest first; the state of the one taken is the source.
    fn rows_outward(&self, rest: u8, signal: u8) -> impl Iterator<Item = &Row> {
        let row_at = move |state: &u8| {
            let mut rows = self.rows.iter();
            rows.find(|row| row.state == *state && row.signal == signal)
        };
        self.path(rest).iter().rev().filter_map(row_at)
    }

    /// How many levels, from the top, a transition neither leaves nor enters.
    fn levels_kept(&self, source: u8, target: u8) -> usize {
        if source == target {
            return self.level(source) - 1;
        }
        let pairs = self.path(source).iter().zip(self.path(target));
        pairs.take_while(|(a, b)| a == b).count()
    }
}

impl Step {
    fn ignored(rest: u8) -> Self {
        Step {
            next: rest,
            outcome: Outcome::Ignored,
            actions: Vec::new(),
        }
    }
}

/// A transition under way: the states that are active, and the actions so far.
struct Walk<'a> {
    chart: &'a Chart,
    active: Path,
    actions: Vec<u8>,
}

impl<'a> Walk<'a> {
    fn at_top(chart: &'a Chart) -> Self {
        Self::at_rest(chart, 0)
    }

    fn at_rest(chart: &'a Chart, rest: u8) -> Self {
        Walk {
            chart,
            active: chart.path(rest).clone(),
            actions: Vec::new(),
        }
    }

    /// Action 0 means none.
    fn list(&mut self, action: u8) {
        if action != 0 {
            self.actions.push(action);
        }
    }

    /// Exits, innermost first, every active state below the level.
    fn exit_up_to_level(&mut self, level: usize) {
        while self.active.len() > level {
            let left = self.active.pop().expect("an active state below the level");
            self.list(self.chart.state(left).exit);
        }
    }

    /// Enters, outermost first, what lies between the active states and the target.
    fn enter_down_to(&mut self, target: u8) {
        let chart = self.chart;
        let path = chart.path(target);
        assert!(
            path.starts_with(&self.active),
            "the target is not inside the active state"
        );
        for &entered in &path[self.active.len()..] {
            self.active.push(entered);
            self.list(chart.state(entered).entry);
        }
    }

    /// Goes on from the state reached while it has an initial target.
    fn take_initial_transitions(&mut self) {
        while let Some(&reached) = self.active.last() {
            let state = self.chart.state(reached);
            if state.initial_target == 0 {
                break;
            }
            self.list(state.initial_action);
            self.enter_down_to(state.initial_target);
        }
    }

    fn finish(self) -> Step {
        Step {
            next: *self.active.last().expect("a walk ends in a state"),
            outcome: Outcome::Transition,
            actions: self.actions,
        }
    }
}
