//! The protocol: newest, previous, pointers, and the lowest free position; and
//! the marks of delayed links that read their start value.

use crate::engine::{Engine, FreshEngine, IDLE, RUNNING, WAITING};
use crate::format::{Event, Table, Timed, DELAYED, DIRECT};
use crate::order::deadline_of;
use crate::sizes::MOST_TICK;
use crate::state::{State, ABSENT, SEEN_TWO};

#[derive(Clone)]
pub struct Pointers {
    pub state: State,
}

impl FreshEngine for Pointers {
    fn fresh(table: &Table) -> Pointers {
        Pointers { state: State::fresh(table) }
    }
}

impl Engine for Pointers {
    fn judge(&self, timed: Timed) -> u8 {
        judge(&self.state, timed)
    }

    fn apply(&mut self, timed: Timed) -> u32 {
        let Timed { tick, event } = timed;
        let number = match event {
            Event::Read(link) => number_at(&self.state, usize::from(link)),
            _ => 0,
        };
        match event {
            Event::Arrival(set) => arrival(&mut self.state, set),
            Event::Start(task) => self.state.phase[usize::from(task)] = RUNNING,
            Event::Read(_) => {}
            Event::Finish(task, value) => finish(&mut self.state, usize::from(task), value),
        }
        if let Some(tick) = tick {
            take_tick(&mut self.state, tick, event);
        }
        number
    }

    fn phase(&self, task: usize) -> u8 {
        self.state.phase[task]
    }
}

/// 0, or the refusal of an event that is given to a sound state: a tick is
/// judged after 12 and before the rest, and 23 last.
pub fn judge(state: &State, Timed { tick, event }: Timed) -> u8 {
    match judge_phases(state, event) {
        12 => 12,
        refusal => first_of([tick_refusal(state, tick), refusal, late_refusal(state, tick, event)]),
    }
}

/// The first that is a refusal.
pub fn first_of<const SOME: usize>(refusals: [u8; SOME]) -> u8 {
    refusals.into_iter().find(|refusal| *refusal != 0).unwrap_or(0)
}

/// 0, or the first of 12 to 16 that holds.
pub fn judge_phases(state: &State, event: Event) -> u8 {
    match event {
        Event::Arrival(set) => judge_arrival(state, set),
        Event::Start(task) => judge_run(state, in_table(task, state.tasks), WAITING, 14),
        Event::Read(link) => {
            let reader = in_table(link, state.links).map(|link| usize::from(state.reader[link]));
            judge_run(state, reader, RUNNING, 15)
        }
        Event::Finish(task, _) => judge_run(state, in_table(task, state.tasks), RUNNING, 15),
    }
}

/// 22 for a tick that is too large, 21 for one below the last. Both can't be: the
/// last one is within the limit.
pub fn tick_refusal(state: &State, tick: Option<u32>) -> u8 {
    match tick {
        Some(tick) if tick > MOST_TICK => 22,
        Some(tick) if tick < state.last => 21,
        _ => 0,
    }
}

/// 23 for a finish after its job's deadline; at the deadline it passes. The task
/// is one of the table.
pub fn late_refusal(state: &State, tick: Option<u32>, event: Event) -> u8 {
    match (tick, event) {
        (Some(tick), Event::Finish(task, _)) if u64::from(tick) > deadline(state, usize::from(task)) => 23,
        _ => 0,
    }
}

pub fn deadline(state: &State, task: usize) -> u64 {
    deadline_of(state.since[task], state.deadline[task])
}

/// What an accepted event does besides where it has a tick: the last tick, and
/// the arrival tick of each job that begins or ends.
pub fn take_tick(state: &mut State, tick: u32, event: Event) {
    state.last = tick;
    match event {
        Event::Arrival(set) => tasks_of(set, state).for_each(|task| state.since[task] = tick),
        Event::Finish(task, _) => state.since[usize::from(task)] = 0,
        Event::Start(_) | Event::Read(_) => {}
    }
}

fn in_table(number: u8, count: u8) -> Option<usize> {
    if number < count {
        Some(usize::from(number))
    } else {
        None
    }
}

fn set_outside_table(state: &State, set: u32) -> bool {
    // Of 32 bits none is left past 32 tasks.
    u64::from(set) >> state.tasks != 0
}

pub fn has_active(state: &State, set: u32) -> bool {
    tasks_of(set, state).any(|task| state.active(task))
}

fn judge_arrival(state: &State, set: u32) -> u8 {
    if set == 0 || set_outside_table(state, set) {
        12
    } else if has_active(state, set) {
        13
    } else {
        0
    }
}

/// Start, read and finish need their task in the table, in the right phase,
/// and no more urgent job.
fn judge_run(state: &State, task: Option<usize>, needed: u8, otherwise: u8) -> u8 {
    match task {
        None => 12,
        Some(task) if state.phase[task] != needed => otherwise,
        Some(task) if blocked(state, task) => 16,
        Some(_) => 0,
    }
}

/// Whether a job is active that is more urgent than the task's.
pub fn blocked(state: &State, task: usize) -> bool {
    let more_urgent = |other: usize| state.active(other) && state.urgency(other) < state.urgency(task);
    (0..usize::from(state.tasks)).any(more_urgent)
}

pub fn tasks_of(set: u32, state: &State) -> impl Iterator<Item = usize> {
    (0..usize::from(state.tasks)).filter(move |task| set >> task & 1 == 1)
}

/// The writers' part for the whole set comes first: a reader that arrives
/// with its writer must see the writer's new positions.
fn arrival(state: &mut State, set: u32) {
    writers_part(state, set, lowest_free);
    readers_part(state, set, settles_on_start);
    now_waiting(state, set);
}

pub fn now_waiting(state: &mut State, set: u32) {
    for task in tasks_of(set, state) {
        state.phase[task] = WAITING;
    }
}

pub fn writers_part(state: &mut State, set: u32, search: impl Fn(&State, usize) -> u8) {
    for task in tasks_of(set, state) {
        state.previous[task] = state.newest[task];
        state.newest[task] = search(state, task);
        state.seen[task] = one_more(state.seen[task]);
    }
}

/// No, one or more arrivals, after another one.
pub fn one_more(seen: u8) -> u8 {
    if seen == 0 {
        1
    } else {
        SEEN_TWO
    }
}

/// The lowest position that is neither `previous` nor the pointer of one of
/// the task's links to readers behind. N + 1 of N + 2 can be taken at most.
/// The pointer of a task's link to itself protects nothing: the task was idle,
/// and this arrival sets that pointer anew.
fn lowest_free(state: &State, task: usize) -> u8 {
    let positions = state.positions(task) as u8;
    let taken = |position: u8| position == state.previous[task] || pointed_at(state, task, position, |_| true);
    (1..=positions).find(|position| !taken(*position)).expect("N + 1 taken positions of N + 2 leave one")
}

/// Whether a link of the task to a reader behind points there, among the
/// links that `counts` admits.
pub fn pointed_at(state: &State, task: usize, position: u8, counts: impl Fn(usize) -> bool) -> bool {
    let points = |number: usize| usize::from(state.writer[number]) == task && state.pointer[number] == position;
    (0..usize::from(state.links)).any(|number| points(number) && state.reader_behind(number) && counts(number))
}

/// Whether the reader of a link that arrives now settles on the start value:
/// the writer's own arrival in the same set counts.
pub fn settles_on_start(state: &State, link: usize) -> bool {
    state.kind[link] == DELAYED && state.writer_new(link)
}

pub fn readers_part(state: &mut State, set: u32, settles: impl Fn(&State, usize) -> bool) {
    for number in 0..usize::from(state.links) {
        if set >> state.reader[number] & 1 == 1 {
            let writer = usize::from(state.writer[number]);
            state.pointer[number] =
                if state.kind[number] == DIRECT { state.newest[writer] } else { state.previous[writer] };
            state.mark[number] = u8::from(settles(state, number));
        }
    }
}

pub fn number_at(state: &State, link: usize) -> u32 {
    if state.mark[link] != 0 {
        return state.start_value[link];
    }
    state.cells[state.cell(usize::from(state.writer[link]), state.pointer[link])]
}

fn finish(state: &mut State, task: usize, value: u32) {
    let newest = state.cell(task, state.newest[task]);
    state.cells[newest] = value;
    free_pointers(state, task);
    state.phase[task] = IDLE;
}

/// Pointers from writers ahead of the task become absent, and their marks go
/// with them; those from writers behind it stay, and so does the one from the
/// task itself.
pub fn free_pointers(state: &mut State, task: usize) {
    for number in 0..usize::from(state.links) {
        if usize::from(state.reader[number]) == task && state.reader_behind(number) {
            state.pointer[number] = ABSENT;
            state.mark[number] = 0;
        }
    }
}
