//! An engine with a flaw: the right one's parts, put together wrongly.

use super::{ends, marks, self_links, times, Flaw};
use crate::engine::{Engine, IDLE, RUNNING};
use crate::format::{Event, Timed};
use crate::pointers as right;
use crate::state::{State, ABSENT};

pub struct WrongEngine {
    flaw: Flaw,
    pub state: State,
    /// Where a reader goes on reading after its pointer was freed too early:
    /// the pointers and marks of this state.
    held: State,
}

impl WrongEngine {
    pub fn new(flaw: Flaw, state: State) -> WrongEngine {
        WrongEngine { flaw, state, held: state }
    }

    fn arrival(&mut self, set: u32) {
        let flaw = self.flaw;
        let before = self.state;
        let settles = |state: &State, link: usize| marks::settles(flaw, &before, state, link);
        let search = move |state: &State, task: usize| wrong_search(flaw, state, task);
        if flaw == Flaw::ReadersFirst {
            right::readers_part(&mut self.state, set, settles);
        }
        right::writers_part(&mut self.state, set, search);
        marks::after_writers(flaw, &before, &mut self.state, set);
        ends::after_writers(flaw, &before, &mut self.state);
        if flaw != Flaw::ReadersFirst && flaw != Flaw::PointersAtStart {
            right::readers_part(&mut self.state, set, settles);
        }
        if flaw == Flaw::DelayedAsDirect {
            all_direct(&mut self.state, set);
        }
        self_links::after_readers(flaw, &before, &mut self.state, set);
        right::now_waiting(&mut self.state, set);
        ends::after_arrival(flaw, &before, &mut self.state);
    }

    fn start(&mut self, task: usize) {
        self.state.phase[task] = RUNNING;
        marks::at_start(self.flaw, &mut self.state, task);
        if self.flaw == Flaw::PointersAtStart {
            right::readers_part(&mut self.state, 1 << task, right::settles_on_start);
        }
        if self.flaw == Flaw::FreedAtStart {
            self.held = self.state;
            right::free_pointers(&mut self.state, task);
        }
    }

    fn read(&self, link: usize) -> u32 {
        let mut lent = self.state;
        if self.flaw == Flaw::DefaultForStart {
            lent.start_value[link] = lent.defaults[usize::from(lent.writer[link])];
        }
        if self.flaw == Flaw::StartBySeen {
            lent.mark[link] = u8::from(right::settles_on_start(&lent, link));
        }
        if self.flaw == Flaw::SelfReadsPrevious && lent.link(link).to_itself() {
            lent.pointer[link] = lent.previous[usize::from(lent.reader[link])];
        }
        if lent.pointer[link] == ABSENT {
            lent.pointer[link] = self.held.pointer[link].max(1);
            lent.mark[link] = self.held.mark[link];
        }
        right::number_at(&lent, link)
    }

    fn finish(&mut self, task: usize, value: u32) {
        let before = self.state;
        let state = &mut self.state;
        let position = if self.flaw == Flaw::WrittenToPrevious { state.previous[task] } else { state.newest[task] };
        let cell = state.cell(task, position);
        state.cells[cell] = value;
        match self.flaw {
            Flaw::KeptAtFinish => {}
            Flaw::FreedByTable => times::free_by_table(state, task),
            Flaw::AllFreedAtFinish => {
                for number in
                    (0..usize::from(state.links)).filter(|l| usize::from(state.reader[*l]) == task).collect::<Vec<_>>()
                {
                    state.pointer[number] = ABSENT;
                    state.mark[number] = 0;
                }
            }
            _ => right::free_pointers(state, task),
        }
        marks::at_finish(self.flaw, &before, state, task);
        self_links::at_finish(self.flaw, &before, state, task);
        ends::at_finish(self.flaw, &before, state);
        state.phase[task] = IDLE;
    }

    fn runner(&self, event: Event) -> Option<usize> {
        match event {
            Event::Arrival(_) => None,
            Event::Start(task) | Event::Finish(task, _) => Some(usize::from(task)).filter(|_| task < self.state.tasks),
            Event::Read(link) if link < self.state.links => Some(usize::from(self.state.reader[usize::from(link)])),
            Event::Read(_) => None,
        }
    }
}

impl WrongEngine {
    /// 0, or the one of 12 to 16 that is given.
    fn judge_phases(&self, event: Event) -> u8 {
        let blocked = |task: usize| times::blocked(self.flaw, &self.state, task);
        let refusal = match (right::judge_phases(&self.state, event), self.runner(event)) {
            (0 | 16, Some(task)) => 16 * u8::from(blocked(task)),
            (refusal, _) => refusal,
        };
        match (self.flaw, event) {
            (Flaw::AnyoneMayRun, _) if refusal == 16 => 0,
            (Flaw::OnlyRunningBlock, _) if refusal == 16 => {
                let runner = self.runner(event).unwrap_or(0);
                let more_urgent = |other: usize| self.state.urgency(other) < self.state.urgency(runner);
                let running = |other: usize| self.state.phase[other] == RUNNING;
                16 * u8::from((0..usize::from(self.state.tasks)).any(|other| running(other) && more_urgent(other)))
            }
            (Flaw::SixteenFirst, _) if refusal == 14 || refusal == 15 => match self.runner(event) {
                Some(task) if blocked(task) => 16,
                _ => refusal,
            },
            (Flaw::ThirteenBeforeTwelve, Event::Arrival(set)) if right::has_active(&self.state, set) => 13,
            _ => ends::judged(self.flaw, &self.state, event, refusal),
        }
    }
}

impl Engine for WrongEngine {
    fn judge(&self, timed: Timed) -> u8 {
        let timed = times::taken(self.flaw, timed);
        let phases = self.judge_phases(timed.event);
        times::judged(self.flaw, &self.state, timed, phases, self.runner(timed.event))
    }

    fn apply(&mut self, timed: Timed) -> u32 {
        let Timed { tick, event } = times::taken(self.flaw, timed);
        let before = self.state;
        let event = ends::cut(self.flaw, event);
        let mut number = 0;
        match event {
            Event::Arrival(set) => self.arrival(set),
            Event::Start(task) => self.start(usize::from(task)),
            Event::Read(link) => number = self.read(usize::from(link)),
            Event::Finish(task, value) => self.finish(usize::from(task), value),
        }
        if let Some(tick) = tick {
            times::after(self.flaw, &before, &mut self.state, tick, event);
        }
        number
    }

    fn phase(&self, task: usize) -> u8 {
        self.state.phase[task]
    }
}

fn wrong_search(flaw: Flaw, state: &State, task: usize) -> u8 {
    let previous = state.previous[task];
    let protects =
        |number: usize| flaw != Flaw::OnlyRunningProtected || state.phase[usize::from(state.reader[number])] == RUNNING;
    let order = state.order();
    let ahead = |position: u8| {
        (0..usize::from(state.links)).any(|l| {
            let link = state.link(l);
            usize::from(link.writer) == task && link.reader_ahead(&order) && state.pointer[l] == position
        })
    };
    let behind = |position: u8| match flaw {
        Flaw::ProtectedByTable => times::pointed_at_by_table(state, task, position),
        _ => right::pointed_at(state, task, position, protects),
    };
    let free = |position: &u8| {
        (*position != previous || flaw == Flaw::PreviousNotSearched)
            && !behind(*position)
            && !(flaw == Flaw::AheadProtectedToo && ahead(*position))
            && !self_links::protects(flaw, state, task, *position)
    };
    let positions = (state.positions(task) + self_links::more_positions(flaw, state, task)) as u8;
    let found = if flaw == Flaw::HighestFree { (1..=positions).rev().find(free) } else { (1..=positions).find(free) };
    found.unwrap_or(1)
}

fn all_direct(state: &mut State, set: u32) {
    for number in 0..usize::from(state.links) {
        if set >> state.reader[number] & 1 == 1 {
            state.pointer[number] = state.newest[usize::from(state.writer[number])];
        }
    }
}
