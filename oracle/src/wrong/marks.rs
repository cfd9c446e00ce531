//! Arrivals counted and marks set or taken away with a flaw.

use super::Flaw;
use crate::format::DELAYED;
use crate::pointers::{one_more, settles_on_start, tasks_of};
use crate::state::{State, SEEN_TWO};

/// Whether a link whose reader arrives gets the mark. `before` is the state
/// before the arrival.
pub fn settles(flaw: Flaw, before: &State, state: &State, link: usize) -> bool {
    let delayed = state.kind[link] == DELAYED;
    let right = settles_on_start(state, link);
    match flaw {
        Flaw::StartAfterSecond => delayed,
        Flaw::OneArrivalEnough => delayed && state.seen[usize::from(state.writer[link])] == 0,
        Flaw::MarkByReader => delayed && state.seen[usize::from(state.reader[link])] < SEEN_TWO,
        Flaw::MarkBeforeWriters => settles_on_start(before, link),
        Flaw::MarkAtDirect => state.writer_new(link),
        Flaw::MarkStays => right || before.mark[link] == 1,
        _ => right,
    }
}

/// After the writers' part of an arrival.
pub fn after_writers(flaw: Flaw, before: &State, state: &mut State, set: u32) {
    match flaw {
        Flaw::SeenAtStart | Flaw::SeenAtFinish => state.seen = before.seen,
        Flaw::SeenPastTwo => {
            tasks_of(set, before).for_each(|task| state.seen[task] = before.seen[task].saturating_add(1))
        }
        Flaw::MarkGoneBySecond => {
            take_marks(state, |state, link| !state.writer_new(link) && set >> state.writer[link] & 1 == 1);
        }
        _ => {}
    }
}

pub fn at_start(flaw: Flaw, state: &mut State, task: usize) {
    match flaw {
        Flaw::SeenAtStart => state.seen[task] = one_more(state.seen[task]),
        Flaw::MarkGoneAtStart => take_marks(state, |state, link| usize::from(state.reader[link]) == task),
        _ => {}
    }
}

/// After all else that a finish does.
pub fn at_finish(flaw: Flaw, before: &State, state: &mut State, task: usize) {
    match flaw {
        Flaw::SeenAtFinish => state.seen[task] = one_more(state.seen[task]),
        Flaw::MarkKeptAtFinish => state.mark = before.mark,
        Flaw::MarkGoneAtFinish => take_marks(state, |state, link| usize::from(state.reader[link]) == task),
        _ => {}
    }
}

fn take_marks(state: &mut State, from: impl Fn(&State, usize) -> bool) {
    for link in 0..usize::from(state.links) {
        if from(state, link) {
            state.mark[link] = 0;
        }
    }
}
