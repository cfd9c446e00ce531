//! The two policies, as the ordinary replay asks for them. With fixed priorities there are no ticks, and nothing is done about them.
use crate::answer::IDLE;
use parnusild::{State, BY_DEADLINE, MOST_TICK};

pub trait Policy {
    /// Whether a task is ahead of another.
    fn ahead(state: &State, task: u8, other: u8) -> bool;

    /// Whether a job is active that is more urgent than a task's.
    fn blocked(state: &State, task: usize) -> bool;

    /// The refusal that a tick earns by itself: 22 or 21.
    fn judge_tick(state: &State, tick: u32) -> Result<(), u8>;

    /// The refusal of a finish after its deadline: 23.
    fn judge_finish(state: &State, task: usize, tick: u32) -> Result<(), u8>;

    /// A task arrives, finishes; an event was accepted.
    fn arrived(state: &mut State, task: usize, tick: u32);
    fn finished(state: &mut State, task: usize);
    fn accepted(state: &mut State, tick: u32);
}

pub struct Fixed;

impl Policy for Fixed {
    fn ahead(_: &State, task: u8, other: u8) -> bool {
        task < other
    }

    fn blocked(state: &State, task: usize) -> bool {
        state.control.phase[..task].iter().any(|&phase| phase != IDLE)
    }

    fn judge_tick(_: &State, _: u32) -> Result<(), u8> {
        Ok(())
    }

    fn judge_finish(_: &State, _: usize, _: u32) -> Result<(), u8> {
        Ok(())
    }

    fn arrived(_: &mut State, _: usize, _: u32) {}

    fn finished(_: &mut State, _: usize) {}

    fn accepted(_: &mut State, _: u32) {}
}

pub struct ByDeadline;

/// The last tick at which a task's job may finish. By the limits of ticks and relative deadlines there is room for it.
fn due(state: &State, task: usize) -> u32 {
    state.times.since[task] + state.times.deadline[task]
}

impl Policy for ByDeadline {
    fn ahead(state: &State, task: u8, other: u8) -> bool {
        let place = |task: u8| (state.times.deadline[task as usize], task);
        place(task) < place(other)
    }

    fn blocked(state: &State, task: usize) -> bool {
        let place = |t: usize| (due(state, t), state.times.deadline[t], t);
        let own = place(task);
        (0..state.tasks).any(|t| state.control.phase[t] != IDLE && place(t) < own)
    }

    fn judge_tick(state: &State, tick: u32) -> Result<(), u8> {
        if tick > MOST_TICK {
            return Err(22);
        }
        if tick < state.times.last {
            return Err(21);
        }
        Ok(())
    }

    fn judge_finish(state: &State, task: usize, tick: u32) -> Result<(), u8> {
        if tick > due(state, task) {
            return Err(23);
        }
        Ok(())
    }

    fn arrived(state: &mut State, task: usize, tick: u32) {
        state.times.since[task] = tick;
    }

    fn finished(state: &mut State, task: usize) {
        state.times.since[task] = 0;
    }

    fn accepted(state: &mut State, tick: u32) {
        state.times.last = tick;
    }
}

/// Whether a task is ahead of another in a table that is being read.
pub fn ahead_in(state: &State, task: u8, other: u8) -> bool {
    if state.times.policy == BY_DEADLINE {
        ByDeadline::ahead(state, task, other)
    } else {
        Fixed::ahead(state, task, other)
    }
}
