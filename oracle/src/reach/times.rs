//! What became of ticks and deadlines, either side of each line.

use crate::format::{Event, Timed};
use crate::pointers::deadline;
use crate::sizes::MOST_TICK;
use crate::state::{State, ABSENT, BY_DEADLINE};

#[derive(Default)]
pub struct Times {
    /// Accepted at the last tick, one after it, and at the last one there is.
    at_last: usize,
    one_later: usize,
    at_limit: usize,
    /// Finishes before the deadline, and at it.
    finished_early: usize,
    finished_at_deadline: usize,
    /// Starts and reads after it.
    late: usize,
    /// Jobs that went on while a task ahead of theirs was active.
    before_one_ahead: usize,
    /// Jobs that went on while one that was due at once waited: for its relative
    /// deadline, though its task is earlier in the table; and by the table.
    tie_by_deadline: usize,
    tie_by_table: usize,
    /// Pointers freed at a finish, of writers that are later in the table.
    freed_of_later: usize,
    /// Refused: one tick below the last one, one past the limit, one after the
    /// deadline; and for a job of a task that is behind.
    one_below: usize,
    past_limit: usize,
    one_late: usize,
    behind_one_behind: usize,
}

impl Times {
    /// An accepted event, with the states before and after it.
    pub fn note(&mut self, before: &State, Timed { tick, event }: Timed, after: &State) {
        let tick = match tick {
            Some(tick) => tick,
            None => return,
        };
        self.at_last += usize::from(tick == before.last);
        self.one_later += usize::from(tick == before.last + 1);
        self.at_limit += usize::from(tick == MOST_TICK);
        if let Some(task) = runner(before, event) {
            self.note_run(before, task);
            if let Event::Finish(..) = event {
                self.note_finish(before, tick, task, after);
            } else {
                self.late += usize::from(u64::from(tick) > deadline(before, task));
            }
        }
    }

    fn note_run(&mut self, state: &State, task: usize) {
        let order = state.order();
        let others = || (0..usize::from(state.tasks)).filter(|other| *other != task && state.active(*other));
        self.before_one_ahead += usize::from(others().any(|other| order.ahead(other as u8, task as u8)));
        for other in others().filter(|other| deadline(state, *other) == deadline(state, task)) {
            let alike = state.deadline[other] == state.deadline[task];
            self.tie_by_table += usize::from(alike);
            self.tie_by_deadline += usize::from(!alike && other < task);
        }
    }

    fn note_finish(&mut self, before: &State, tick: u32, task: usize, after: &State) {
        let at_deadline = u64::from(tick) == deadline(before, task);
        self.finished_at_deadline += usize::from(at_deadline);
        self.finished_early += usize::from(!at_deadline);
        let freed = |l: &usize| before.pointer[*l] != ABSENT && after.pointer[*l] == ABSENT;
        let of_later = |l: &usize| freed(l) && before.writer[*l] > before.reader[*l];
        self.freed_of_later += (0..usize::from(before.links)).filter(of_later).count();
    }

    /// A refused event, with the state as it was.
    pub fn note_refused(&mut self, state: &State, Timed { tick, event }: Timed, refusal: u8) {
        let tick = match tick {
            Some(tick) if state.policy == BY_DEADLINE => u64::from(tick),
            _ => return,
        };
        match refusal {
            21 => self.one_below += usize::from(tick + 1 == u64::from(state.last)),
            22 => self.past_limit += usize::from(tick == u64::from(MOST_TICK) + 1),
            23 => {
                let due = runner(state, event).map(|task| deadline(state, task));
                self.one_late += usize::from(due == Some(tick - 1));
            }
            16 => {
                let ahead = |other: usize, task: usize| state.order().ahead(other as u8, task as u8);
                let by_one_ahead = runner(state, event)
                    .map(|task| (0..usize::from(state.tasks)).any(|other| state.active(other) && ahead(other, task)));
                self.behind_one_behind += usize::from(by_one_ahead == Some(false));
            }
            _ => {}
        }
    }

    /// Each of them with its name.
    pub fn counts(&self) -> [(&'static str, usize); 14] {
        [
            ("events at the last tick again", self.at_last),
            ("events one tick later", self.one_later),
            ("events at the last tick there is", self.at_limit),
            ("finishes before the deadline", self.finished_early),
            ("finishes at the deadline", self.finished_at_deadline),
            ("starts and reads after the deadline", self.late),
            ("jobs that go on before those of a task ahead", self.before_one_ahead),
            ("jobs due at once that relative deadlines order", self.tie_by_deadline),
            ("jobs due at once that the table orders", self.tie_by_table),
            ("pointers freed of writers later in the table", self.freed_of_later),
            ("ticks refused one below the last", self.one_below),
            ("ticks refused one past the limit", self.past_limit),
            ("finishes refused one tick late", self.one_late),
            ("jobs refused for one of a task behind", self.behind_one_behind),
        ]
    }
}

/// The task that starts, reads or finishes, of an event that names one.
fn runner(state: &State, event: Event) -> Option<usize> {
    match event {
        Event::Arrival(_) => None,
        Event::Start(task) | Event::Finish(task, _) => Some(usize::from(task)),
        Event::Read(link) => Some(usize::from(state.reader[usize::from(link)])),
    }
}
