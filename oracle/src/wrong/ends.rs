//! The last task and the last link for which a state has room, and sets past two
//! bytes, taken with a flaw.

use super::Flaw;
use crate::engine::RUNNING;
use crate::format::Event;
use crate::pointers::judge_phases;
use crate::sizes::{RecordingKind, ROOM};
use crate::state::{sound, State, MOST_POSITIONS, SEEN_TWO};

const LAST_TASK: usize = ROOM.tasks - 1;
const LAST_LINK: usize = ROOM.links - 1;

/// The refusal of an event that the flaw gives in place of the right one.
pub fn judged(flaw: Flaw, state: &State, event: Event, right: u8) -> u8 {
    match (flaw, event) {
        _ if refused(flaw, usize::from(state.tasks), event) => 12,
        (Flaw::WideSetCut, Event::Arrival(_)) => judge_phases(state, cut(flaw, event)),
        (Flaw::OnlySixteenBlock, _) if right == 16 && !state.top().map_or(false, |top| top < 16) => 0,
        _ => right,
    }
}

/// Whether the flaw takes an event to name what is not in the table, which has
/// so many tasks.
pub fn refused(flaw: Flaw, tasks: usize, event: Event) -> bool {
    match (flaw, event) {
        (Flaw::LastTaskRefused, event) => names_last_task(event),
        (Flaw::LastLinkRefused, Event::Read(link)) => usize::from(link) == LAST_LINK,
        (Flaw::FullSetWraps, Event::Arrival(_)) => tasks == ROOM.tasks,
        _ => false,
    }
}

fn names_last_task(event: Event) -> bool {
    match event {
        Event::Arrival(set) => set >> LAST_TASK & 1 == 1,
        Event::Start(task) | Event::Finish(task, _) => usize::from(task) == LAST_TASK,
        Event::Read(_) => false,
    }
}

/// The event as the flaw takes it.
pub fn cut(flaw: Flaw, event: Event) -> Event {
    match (flaw, event) {
        (Flaw::WideSetCut, Event::Arrival(set)) => Event::Arrival(set & 0xFFFF),
        _ => event,
    }
}

/// After the writers' part of an arrival. `before` is the state before it.
pub fn after_writers(flaw: Flaw, before: &State, state: &mut State) {
    if flaw == Flaw::LastTaskNotMoved {
        state.newest[LAST_TASK] = before.newest[LAST_TASK];
        state.previous[LAST_TASK] = before.previous[LAST_TASK];
        state.seen[LAST_TASK] = before.seen[LAST_TASK];
    }
}

/// After all else that an arrival does.
pub fn after_arrival(flaw: Flaw, before: &State, state: &mut State) {
    match flaw {
        Flaw::LastTaskNotPointed => keep_pointers(before, state, |link| reads_for_last(before, link)),
        Flaw::LastLinkNotSet => keep_pointers(before, state, |link| link == LAST_LINK),
        Flaw::LastTaskNotWaiting => state.phase[LAST_TASK] = before.phase[LAST_TASK],
        _ => {}
    }
}

/// After all else that a finish does.
pub fn at_finish(flaw: Flaw, before: &State, state: &mut State) {
    match flaw {
        Flaw::LastTaskNotFreed => keep_pointers(before, state, |link| reads_for_last(before, link)),
        Flaw::LastLinkNotFreed => keep_pointers(before, state, |link| link == LAST_LINK),
        _ => {}
    }
}

fn reads_for_last(state: &State, link: usize) -> bool {
    usize::from(state.reader[link]) == LAST_TASK
}

fn keep_pointers(before: &State, state: &mut State, of: impl Fn(usize) -> bool) {
    for link in (0..usize::from(state.links)).filter(|link| of(*link)) {
        state.pointer[link] = before.pointer[link];
        state.mark[link] = before.mark[link];
    }
}

/// The fresh state of a table as the flaw makes it.
pub fn fresh(flaw: Flaw, mut state: State) -> State {
    match flaw {
        Flaw::LastTaskNotFilled => state.cells[LAST_TASK * MOST_POSITIONS..].fill(0),
        Flaw::LastLinkLeftOut => {
            state.writer[LAST_LINK] = 0;
            state.reader[LAST_LINK] = 0;
            state.kind[LAST_LINK] = 0;
            state.start_value[LAST_LINK] = 0;
        }
        _ => {}
    }
    state
}

/// Whether the flaw takes a state for sound that is not: all would be well
/// without its last task, or its last link.
pub fn too_mild(flaw: Flaw, state: &State) -> bool {
    match flaw {
        Flaw::LastTaskNotAsked => {
            usize::from(state.tasks) == ROOM.tasks && !sound(state) && sound(&with_last_task_mended(state))
        }
        Flaw::LastLinkNotAsked => {
            usize::from(state.links) == ROOM.links
                && !sound(state)
                && sound(&State { links: state.links - 1, ..*state })
        }
        _ => false,
    }
}

/// Whether the flaw refuses a state that is sound.
pub fn past_smaller(state: &State) -> bool {
    RecordingKind::SIXTEEN.limits.refusal(usize::from(state.tasks), usize::from(state.links)) != 0
}

/// The state with a task in the last slot that every sound state may have there,
/// active or not as it was, and by its arrivals asked for marks as it was.
fn with_last_task_mended(state: &State) -> State {
    let mut mended = *state;
    mended.newest[LAST_TASK] = 1;
    mended.previous[LAST_TASK] = 1;
    mended.phase[LAST_TASK] = state.phase[LAST_TASK].min(RUNNING);
    mended.seen[LAST_TASK] = state.seen[LAST_TASK].clamp(1, SEEN_TWO);
    mended.since[LAST_TASK] = 0;
    mended
}
