//! Random charts: half of them built to be good, half of those built and then damaged.

use super::builder::ChartBuilder;
use crate::chart::{Edition, FIRST_SIGNAL, LAST_SIGNAL, MOST_LEVELS, RECORD_BYTES};

/// The xorshift generator of 64 bits.
pub struct Xorshift {
    state: u64,
}

impl Xorshift {
    pub fn new(seed: u64) -> Self {
        // The odd factor keeps small seeds apart; the generator must not start at 0.
        let mixed = seed.wrapping_add(1).wrapping_mul(0x9e37_79b9_7f4a_7c15);
        Xorshift {
            state: if mixed == 0 { 1 } else { mixed },
        }
    }

    fn next(&mut self) -> u64 {
        self.state ^= self.state << 13;
        self.state ^= self.state >> 7;
        self.state ^= self.state << 17;
        self.state
    }

    /// A number below the bound, which must not be 0.
    pub(super) fn below(&mut self, bound: usize) -> usize {
        // The high half is the better mixed one.
        (self.next() >> 32) as usize % bound
    }

    /// True so many times in a hundred.
    pub fn percent(&mut self, chance: usize) -> bool {
        self.below(100) < chance
    }

    pub(super) fn pick<T: Copy>(&mut self, items: &[T]) -> T {
        items[self.below(items.len())]
    }

    pub(super) fn byte(&mut self) -> u8 {
        self.below(256) as u8
    }

    /// An action; about one in six is 0.
    fn action(&mut self) -> u8 {
        if self.percent(16) {
            0
        } else {
            self.byte()
        }
    }
}

/// An endless run of charts of one edition from one seed.
pub struct RandomCharts {
    edition: Edition,
    random: Xorshift,
}

impl RandomCharts {
    pub fn new(edition: Edition, seed: u64) -> Self {
        RandomCharts {
            edition,
            random: Xorshift::new(seed),
        }
    }
}

impl Iterator for RandomCharts {
    type Item = Vec<u8>;

    fn next(&mut self) -> Option<Vec<u8>> {
        let random = &mut self.random;
        let good = good_chart(random, self.edition);
        let keep = random.percent(40); // less than half, as some damage does no harm
        Some(if keep { good } else { damaged(random, good) })
    }
}

/// The nesting of a random chart, by state number; 0 is the top.
struct Nesting {
    parents: Vec<usize>,
}

impl Nesting {
    fn random(random: &mut Xorshift, edition: Edition) -> Self {
        let count = 1 + random.below(edition.most_states());
        // How often a state goes into the one before it: high for deep charts, and higher where few states have to do.
        let depth = match edition {
            Edition::Plain => random.pick(&[10, 40, 80]),
            Edition::Guarded => random.pick(&[10, 60, 100]),
        };
        let mut nesting = Nesting { parents: vec![0] };
        for number in 1..=count {
            let before = number - 1;
            let wished = if random.percent(depth) {
                before
            } else {
                random.below(number)
            };
            let too_deep = nesting.around(wished).len() >= MOST_LEVELS;
            nesting.parents.push(if too_deep { 0 } else { wished });
        }
        nesting
    }

    fn states(&self) -> std::ops::Range<usize> {
        1..self.parents.len()
    }

    /// The state and those that contain it, innermost first; none for the top.
    fn around(&self, state: usize) -> Vec<usize> {
        let outward = |state: &usize| Some(self.parents[*state]);
        std::iter::successors(Some(state), outward)
            .take_while(|&state| state != 0)
            .collect()
    }

    /// The proper descendants of a state.
    fn inside(&self, state: usize) -> Vec<usize> {
        let is_inside = |inner: &usize| *inner != state && self.around(*inner).contains(&state);
        self.states().filter(is_inside).collect()
    }

    fn any(&self, random: &mut Xorshift) -> usize {
        1 + random.below(self.states().len())
    }

    /// A target: the state itself, one around or inside it, or any.
    fn target(&self, random: &mut Xorshift, state: usize) -> usize {
        match random.below(4) {
            0 => state,
            1 => {
                let related = [self.around(state), self.inside(state)].concat();
                random.pick(&related)
            }
            _ => self.any(random),
        }
    }
}

fn good_chart(random: &mut Xorshift, edition: Edition) -> Vec<u8> {
    let nesting = Nesting::random(random, edition);
    let mut chart = ChartBuilder::top(nesting.any(random) as u8, random.action());
    for state in nesting.states() {
        let parent = nesting.parents[state] as u8;
        chart = chart.state(parent, random.action(), random.action());
        let inside = nesting.inside(state);
        if !inside.is_empty() {
            chart = chart.initial(random.pick(&inside) as u8, random.action());
        }
    }
    // How many of the possible rows there are; 100 fills every place.
    let density = match edition {
        Edition::Plain => random.pick(&[0, 3, 10, 10, 25, 50, 100]),
        Edition::Guarded => random.pick(&[0, 10, 25, 50, 50, 100, 100]),
    };
    let flags = random_flags(random, edition);
    for state in nesting.states() {
        for signal in FIRST_SIGNAL..=LAST_SIGNAL {
            if random.percent(density) {
                chart = with_row(random, chart, &nesting, state, signal);
                chart = chart.flag(random.pick(&flags));
            }
        }
    }
    chart.bytes()
}

/// The flags that a chart's rows have, 0 standing for none: from one with no flag to one in which each row has one.
fn random_flags(random: &mut Xorshift, edition: Edition) -> Vec<u8> {
    let all: Vec<u8> = (1..=edition.highest_flag()).collect();
    if all.is_empty() {
        return vec![0];
    }
    match random.below(5) {
        0 => vec![0],
        1 => all,
        2 => vec![0, random.pick(&all)],
        3 => vec![random.pick(&all), random.pick(&all)],
        _ => [vec![0; all.len()], all].concat(),
    }
}

fn with_row(
    random: &mut Xorshift,
    chart: ChartBuilder,
    nesting: &Nesting,
    state: usize,
    signal: u8,
) -> ChartBuilder {
    let action = random.action();
    if random.percent(20) {
        return chart.internal(state as u8, signal, action);
    }
    let target = nesting.target(random, state) as u8;
    chart.transition(state as u8, signal, target, action)
}

/// One to three damages, so that faults of several classes meet.
fn damaged(random: &mut Xorshift, mut bytes: Vec<u8>) -> Vec<u8> {
    for _ in 0..random.pick(&[1, 1, 2, 3]) {
        bytes = damaged_once(random, bytes);
    }
    bytes
}

fn damaged_once(random: &mut Xorshift, mut bytes: Vec<u8>) -> Vec<u8> {
    if bytes.is_empty() {
        return bytes;
    }
    match random.below(15) {
        0 | 1 => {
            let place = place(random, bytes.len());
            bytes[place] = random.byte();
        }
        2..=5 => {
            // A small change stays near the limits that the check must hold.
            let place = place(random, bytes.len());
            let change = random.pick(&[1, 2, 254, 255]);
            bytes[place] = bytes[place].wrapping_add(change);
        }
        6 => swap_records(random, &mut bytes),
        7 => remove_record(random, &mut bytes),
        8 => {
            let length = random.below(bytes.len());
            bytes.truncate(length);
        }
        9 | 10 => remove_initial(random, &mut bytes),
        11 | 12 => change_flag(random, &mut bytes),
        13 => add_states(random, &mut bytes),
        _ => extend(random, &mut bytes),
    }
    bytes
}

/// Half of the damage goes to the front, where the top and the states stand.
fn place(random: &mut Xorshift, length: usize) -> usize {
    let front = length.min(12 * RECORD_BYTES);
    let bound = random.pick(&[front, length]);
    random.below(bound)
}

/// Where a whole record begins, if there is one.
fn record_start(random: &mut Xorshift, bytes: &[u8]) -> Option<usize> {
    let whole = bytes.len() / RECORD_BYTES;
    (whole > 0).then(|| random.below(whole) * RECORD_BYTES)
}

fn swap_records(random: &mut Xorshift, bytes: &mut [u8]) {
    let starts = (record_start(random, bytes), record_start(random, bytes));
    if let (Some(first), Some(second)) = starts {
        for place in 0..RECORD_BYTES {
            bytes.swap(first + place, second + place);
        }
    }
}

fn remove_record(random: &mut Xorshift, bytes: &mut Vec<u8>) {
    if let Some(start) = record_start(random, bytes) {
        bytes.drain(start..start + RECORD_BYTES);
    }
}

/// Takes the initial transition of a state away, if there is one.
fn remove_initial(random: &mut Xorshift, bytes: &mut [u8]) {
    let records = bytes.chunks_exact_mut(RECORD_BYTES);
    let states_with_one = records.filter(|record| record[0] == 1 && record[4] != 0);
    let mut states: Vec<&mut [u8]> = states_with_one.collect();
    if !states.is_empty() {
        let drawn = random.below(states.len());
        states[drawn][4..6].fill(0);
    }
}

/// Gives a row another flag, if there is a row: mostly one near the limit of 8.
fn change_flag(random: &mut Xorshift, bytes: &mut [u8]) {
    let records = bytes.chunks_exact_mut(RECORD_BYTES);
    let mut rows: Vec<&mut [u8]> = records.filter(|record| record[0] == 2).collect();
    if !rows.is_empty() {
        let drawn = random.below(rows.len());
        let any_flag = random.byte();
        rows[drawn][6] = random.pick(&[8, 9, 9, 10, 255, any_flag]);
    }
}

/// Adds states behind the last one, as many as lead to the limits of both editions, or one more.
fn add_states(random: &mut Xorshift, bytes: &mut Vec<u8>) {
    let is_state = |record: &[u8]| record[0] == 1;
    let states = bytes.chunks_exact(RECORD_BYTES);
    let count = states.filter(|record| is_state(record)).count();
    let Some(last) = bytes.chunks_exact(RECORD_BYTES).rposition(is_state) else {
        return;
    };
    let wished: usize = random.pick(&[8, 9, 9, 24, 25]);
    let behind = (last + 1) * RECORD_BYTES;
    let state = [1, 0, 1, 2, 0, 0, 0, 0];
    let added = state.repeat(wished.saturating_sub(count));
    bytes.splice(behind..behind, added);
}

/// Adds a copy of a record at the end, or any few bytes.
fn extend(random: &mut Xorshift, bytes: &mut Vec<u8>) {
    match record_start(random, bytes) {
        Some(start) if random.percent(60) => bytes.extend_from_within(start..start + RECORD_BYTES),
        _ => {
            let more = 1 + random.below(2 * RECORD_BYTES);
            bytes.extend((0..more).map(|_| random.byte()));
        }
    }
}

#[cfg(test)]
mod tests {
    use super::*;
    use crate::chart::{check, parse, Chart, Fault, GOOD, ROW_BYTES};
    use crate::harness::sound_rows::rows_may_stand;
    use crate::harness::starts::missing_is_the_only_fault;

    #[test]
    fn built_charts_are_good_and_their_rows_are_sound() {
        for edition in Edition::ALL {
            let mut random = Xorshift::new(7);
            for _ in 0..300 {
                let chart = good_chart(&mut random, edition);
                let chart = parse(edition, &chart).expect("built to be good");
                assert!(rows_may_stand(edition, &chart));
            }
        }
    }

    #[test]
    fn charts_of_every_class_occur_and_about_half_are_good() {
        for edition in Edition::ALL {
            let charts = RandomCharts::new(edition, 1).take(400);
            let classes: Vec<u32> = charts.map(|bytes| check(edition, &bytes)).collect();
            let count = |class| classes.iter().filter(|&&found| found == class).count();
            assert!((160..=240).contains(&count(GOOD)));
            assert!((1..=4).all(|class| count(class) >= 20));
        }
    }

    #[test]
    fn some_charts_are_bad_only_for_a_missing_start() {
        for edition in Edition::ALL {
            let charts = RandomCharts::new(edition, 1).take(400);
            let alone = charts.filter(|bytes| missing_is_the_only_fault(edition, bytes));
            assert!(alone.count() >= 10);
        }
    }

    /// A chart of edition two with its flags taken away: good if they were its only fault.
    fn without_flags(mut bytes: Vec<u8>) -> Vec<u8> {
        let records = bytes.chunks_exact_mut(RECORD_BYTES);
        for row in records.filter(|record| record[0] == 2) {
            row[6] = 0;
        }
        bytes
    }

    #[test]
    fn some_charts_are_bad_only_for_a_flag_or_a_ninth_state() {
        let check = |bytes: &[u8]| check(Edition::Guarded, bytes);
        let charts: Vec<_> = RandomCharts::new(Edition::Guarded, 1).take(400).collect();
        let for_a_flag = charts.iter().filter(|bytes| {
            check(bytes) == Fault::Rows.class() && check(&without_flags(bytes.to_vec())) == GOOD
        });
        assert!(for_a_flag.count() >= 10);
        let for_a_state = charts.iter().filter(|bytes| {
            let in_edition_one = parse(Edition::Plain, &without_flags(bytes.to_vec()));
            check(bytes) == Fault::Records.class() && in_edition_one.is_ok()
        });
        assert!(for_a_state.count() >= 5);
    }

    /// Six rows in a row, all with a flag, are the most that there can be.
    #[test]
    fn some_ways_outward_have_six_rows_with_flags() {
        let charts = RandomCharts::new(Edition::Guarded, 1).take(400);
        let good = charts.filter_map(|bytes| parse(Edition::Guarded, &bytes).ok());
        let has_six = |chart: &Chart| {
            let table = chart.table();
            let all_rows = table[ROW_BYTES..].chunks(6 * ROW_BYTES);
            let mut lasts = all_rows.map(|rows| &rows[5 * ROW_BYTES..]);
            lasts.any(|row| row[21] != 0)
        };
        assert!(good.filter(has_six).count() >= 3);
    }

    #[test]
    fn one_seed_gives_one_run() {
        let run = |seed| {
            let charts = RandomCharts::new(Edition::Plain, seed);
            charts.take(5).collect::<Vec<_>>()
        };
        assert_eq!(run(3), run(3));
        assert_ne!(run(3), run(4));
        assert_ne!(run(0), run(1));
    }
}
