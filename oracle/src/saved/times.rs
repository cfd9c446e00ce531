//! Saved states with a relative deadline, a tick or the policy spoiled.

use crate::prng::Prng;
use crate::sizes::MOST_TICK;
use crate::state::{State, BY_DEADLINE, FIXED};

/// A relative deadline that is none, or another, so that links may be between
/// tasks in another order; an arrival tick either side of the last tick, of any
/// task; the last tick, with all arrival ticks up to it or not; the policy alone,
/// or with all that goes with it. With fixed priorities one that is not 0. Some of
/// these stay sound.
pub fn times_changed(prng: &mut Prng, sound: &State) -> State {
    let mut state = *sound;
    let task = prng.below(usize::from(sound.tasks));
    let last = sound.last;
    match prng.below(8) {
        0 => state.deadline[task] = prng.pick(&[0, 1, 2, 256, 65_535, 65_536, u32::MAX]),
        1 => state.since[task] = prng.pick(&[0, 1, last.saturating_sub(1), last, last.saturating_add(1), u32::MAX]),
        2 => state.last = prng.pick(&[0, 1, last / 2, MOST_TICK, MOST_TICK + 1, u32::MAX]),
        3 => state.policy = prng.pick(&[FIXED, BY_DEADLINE, 2, 1 << 8, 1 << 16 | 1, 1 << 31, u32::MAX]),
        4 if sound.policy == BY_DEADLINE => without_times(&mut state),
        4 => with_deadlines(prng, &mut state),
        5 => arrived_anew(prng, &mut state),
        6 => due_at_once(prng, &mut state),
        _ => far_deadlines(prng, &mut state),
    }
    state
}

/// Fixed priorities, as far as the links allow it.
fn without_times(state: &mut State) {
    let tasks = usize::from(state.tasks);
    state.policy = FIXED;
    state.last = 0;
    state.deadline[..tasks].fill(0);
    state.since[..tasks].fill(0);
}

/// Relative deadlines that rise with the table, or are all alike, so that the
/// links stay allowed.
fn with_deadlines(prng: &mut Prng, state: &mut State) {
    let step = prng.below(3) as u32;
    state.policy = BY_DEADLINE;
    state.last = prng.pick(&[0, 1, 70_000, MOST_TICK]);
    for task in 0..usize::from(state.tasks) {
        state.deadline[task] = 1 + step * task as u32;
    }
    arrived_anew(prng, state);
}

/// The ticks at which the active tasks arrived, drawn anew: few of them, so that
/// jobs are due at once.
fn arrived_anew(prng: &mut Prng, state: &mut State) {
    if state.policy == BY_DEADLINE {
        let longest = prng.pick(&[1, 4, 60_000, u32::MAX]);
        for task in (0..usize::from(state.tasks)).filter(|task| state.phase[*task] != 0) {
            state.since[task] = state.last - prng.below(longest.min(state.last) as usize + 1) as u32;
        }
    }
}

/// Each active task arrived so long ago that all jobs are due at once, one tick
/// apart at most, as far as there was time for it.
fn due_at_once(prng: &mut Prng, state: &mut State) {
    let active = |state: &State, task: &usize| state.phase[*task] != 0;
    let tasks: Vec<usize> = (0..usize::from(state.tasks)).filter(|task| active(state, task)).collect();
    let least = tasks.iter().map(|task| state.deadline[*task]).min().unwrap_or(0);
    for task in tasks.into_iter().filter(|_| state.policy == BY_DEADLINE) {
        let ago = state.deadline[task] - least + prng.pick(&[0, 0, 0, 1]);
        state.since[task] = state.last.saturating_sub(ago);
    }
}

/// Two relative deadlines that no recording can have, so that jobs are due at
/// ticks that have no room in 32 bits, at the last tick there is.
fn far_deadlines(prng: &mut Prng, state: &mut State) {
    if state.policy == BY_DEADLINE {
        state.last = MOST_TICK;
        for _ in 0..2 {
            let task = prng.below(usize::from(state.tasks));
            state.deadline[task] = prng.pick(&[u32::MAX, u32::MAX - 1, u32::MAX - MOST_TICK, u32::MAX - MOST_TICK + 1]);
        }
        arrived_anew(prng, state);
    }
}
