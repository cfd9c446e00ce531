//! What became of the last task and the last link for which a state has room,
//! and of sets that two bytes can't hold; and what was refused just past them.

use crate::format::Event;
use crate::sizes::{RecordingKind, ROOM};
use crate::state::{State, MOST_POSITIONS};

const LAST_TASK: usize = ROOM.tasks - 1;
const LAST_LINK: usize = ROOM.links - 1;

#[derive(Default)]
pub struct Ends {
    /// Of the last task.
    arrived: usize,
    started: usize,
    finished: usize,
    /// Reads by the last task, by a link of the last task, and by the last link;
    /// of these with a writer that has the most positions.
    read_by_last: usize,
    read_of_last: usize,
    read_by_last_link: usize,
    read_in_crowd: usize,
    /// Arrivals of more tasks at once than the smaller kind has.
    many_arrived: usize,
    /// Refused with 12: sets for tasks alone that two bytes have no room for; a
    /// task and a link one past the most.
    wide_set_refused: usize,
    task_refused: usize,
    link_refused: usize,
}

impl Ends {
    /// An accepted event, with the state before it.
    pub fn note(&mut self, before: &State, event: Event) {
        match event {
            Event::Arrival(set) => {
                self.arrived += usize::from(set >> LAST_TASK & 1 == 1);
                self.many_arrived += usize::from(set.count_ones() as usize > RecordingKind::SIXTEEN.limits.tasks);
            }
            Event::Start(task) => self.started += usize::from(usize::from(task) == LAST_TASK),
            Event::Read(link) => self.note_read(before, usize::from(link)),
            Event::Finish(task, _) => self.finished += usize::from(usize::from(task) == LAST_TASK),
        }
    }

    fn note_read(&mut self, state: &State, link: usize) {
        let writer = usize::from(state.writer[link]);
        let last_link = link == LAST_LINK;
        self.read_by_last += usize::from(usize::from(state.reader[link]) == LAST_TASK);
        self.read_of_last += usize::from(writer == LAST_TASK);
        self.read_by_last_link += usize::from(last_link);
        self.read_in_crowd += usize::from(last_link && state.positions(writer) == MOST_POSITIONS);
    }

    /// An event refused with 12.
    pub fn note_refused(&mut self, state: &State, event: Event) {
        match event {
            Event::Arrival(set) => {
                let outside = u64::from(set) >> state.tasks << state.tasks;
                self.wide_set_refused += usize::from(outside > 0 && outside & 0xFFFF == 0);
            }
            Event::Start(task) | Event::Finish(task, _) => {
                let full = usize::from(state.tasks) == ROOM.tasks;
                self.task_refused += usize::from(full && usize::from(task) == ROOM.tasks);
            }
            Event::Read(link) => {
                let full = usize::from(state.links) == ROOM.links;
                self.link_refused += usize::from(full && usize::from(link) == ROOM.links);
            }
        }
    }

    /// Each of them with its name.
    pub fn counts(&self) -> [(&'static str, usize); 11] {
        [
            ("arrivals of task 31", self.arrived),
            ("starts of task 31", self.started),
            ("finishes of task 31", self.finished),
            ("reads by task 31", self.read_by_last),
            ("reads by a link of task 31", self.read_of_last),
            ("reads by link 95", self.read_by_last_link),
            ("reads by link 95, its writer with ten positions", self.read_in_crowd),
            ("arrivals of more than 16 tasks at once", self.many_arrived),
            ("sets refused for tasks past the first 16 alone", self.wide_set_refused),
            ("starts and finishes of task 32 of 32 refused", self.task_refused),
            ("reads by link 96 of 96 refused", self.link_refused),
        ]
    }
}
