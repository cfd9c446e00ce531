//! The events worth giving to each state, and the ticks at which each is given.

use super::tables::Explored;
use crate::format::{Event, Timed};
use crate::sizes::{MOST_TICK, ROOM};

/// An event, and where there are ticks how far it is from the last one.
#[derive(Clone, Copy)]
pub struct Step {
    event: Event,
    tick: Option<Ticks>,
}

#[derive(Clone, Copy)]
enum Ticks {
    Later(u32),
    /// One tick too early.
    Below,
    /// So near the last tick that two more events at later ticks come to it.
    NearLimit,
    PastLimit,
}

const TICKS: [Ticks; 6] =
    [Ticks::Later(0), Ticks::Later(1), Ticks::Later(2), Ticks::Below, Ticks::NearLimit, Ticks::PastLimit];

impl Step {
    /// The event at its tick after the last one, if there is such a tick.
    pub fn timed(self, last: u32) -> Option<Timed> {
        let tick = match self.tick {
            None => return Some(self.event.into()),
            Some(Ticks::Later(more)) => last + more,
            Some(Ticks::Below) => last.checked_sub(1)?,
            Some(Ticks::NearLimit) => Some(MOST_TICK - 2).filter(|near| last < *near)?,
            Some(Ticks::PastLimit) => MOST_TICK + 1,
        };
        Some(self.event.at(tick))
    }
}

/// All events worth giving to a table, each kind's out-of-range one included,
/// where there is one, each at every tick worth it. The value of a finish is
/// filled in when it is given.
pub fn alphabet(explored: &Explored) -> Vec<Step> {
    let ticks: Vec<Option<Ticks>> = match explored.table.deadlines {
        None => vec![None],
        Some(_) => TICKS.map(Some).to_vec(),
    };
    let events = events(explored).into_iter();
    events.flat_map(|event| ticks.iter().map(move |tick| Step { event, tick: *tick })).collect()
}

fn events(explored: &Explored) -> Vec<Event> {
    let Explored { table, first_task, first_link, .. } = explored;
    let tasks = table.defaults.len();
    let mut sets: Vec<u32> = (0..1 << (tasks - first_task)).map(|set: u32| set << first_task).collect();
    if tasks < ROOM.tasks {
        sets.extend([1 << tasks, 1 << tasks | 1 << first_task]);
    }
    let mut events: Vec<Event> = sets.into_iter().map(Event::Arrival).collect();
    for task in *first_task as u8..=tasks as u8 {
        events.push(Event::Start(task));
        events.push(Event::Finish(task, 0));
    }
    events.extend((*first_link as u8..=table.links.len() as u8).map(Event::Read));
    events
}
