//! Timers.

use super::mail::{Event, Object};
use super::numbers::TIMERS;
use std::collections::BTreeMap;

/// An armed timer.
#[derive(Clone, Copy, Debug, PartialEq, Eq)]
pub struct Timer {
    pub p: u8,
    pub signal: u8,
    /// At least 1.
    pub counter: u16,
    /// 0 for a timer that fires once.
    pub interval: u16,
}

/// The armed timers by number.
#[derive(Clone, Debug, Default, PartialEq, Eq)]
pub struct Timers {
    armed: BTreeMap<u8, Timer>,
}

/// How many timers fired at a tick, and how many found no room.
#[derive(Clone, Copy, Debug, Default, PartialEq, Eq)]
pub struct Ticked {
    pub fired: u8,
    pub late: u8,
}

impl Timers {
    pub fn is_armed(&self, timer: u8) -> bool {
        self.armed.contains_key(&timer)
    }

    pub fn arm(&mut self, number: u8, timer: Timer) {
        self.armed.insert(number, timer);
    }

    /// Whether the timer was armed.
    pub fn disarm(&mut self, timer: u8) -> bool {
        self.armed.remove(&timer).is_some()
    }

    /// One tick of all armed timers. By ascending number, so that a lower
    /// timer may take the place that a higher one then lacks.
    pub fn tick(&mut self, objects: &mut BTreeMap<u8, Object>) -> Ticked {
        let mut ticked = Ticked::default();
        for number in TIMERS {
            let Some(timer) = self.armed.get_mut(&number) else {
                continue;
            };
            if timer.counter > 1 {
                timer.counter -= 1;
                continue;
            }
            let object = objects.get_mut(&timer.p).expect("its object is started");
            if object.free_places() == 0 {
                ticked.late += 1;
                continue;
            }
            object.post_back(Event::Timer {
                timer: number,
                signal: timer.signal,
            });
            ticked.fired += 1;
            timer.counter = timer.interval;
            if timer.interval == 0 {
                self.armed.remove(&number);
            }
        }
        ticked
    }
}
