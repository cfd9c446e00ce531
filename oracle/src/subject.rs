//! What gets judged: whole replays, the fresh state of a table, one event on
//! a saved state, recordings written. The oracle and the wrong subjects stand
//! behind this trait; the crate `judge` links the proved library behind it.

use crate::engine::{Engine, FreshEngine};
use crate::format::{replay, Counts, Reading, Table, Timed};
use crate::pointers::{judge, Pointers};
use crate::state::{sound, State, BY_DEADLINE, SIZES};
use crate::tables::LentTable;
use crate::writing::{write, Handover, Written};
use crate::zero_time::ZeroTime;

/// The answer to a whole recording. The list is the lent one afterwards, its
/// untouched part included; `rest` is the unread rest of the recording.
#[derive(Clone, PartialEq, Eq, Debug)]
pub struct Answer<'a> {
    pub refusal: u8,
    pub place: usize,
    pub counts: Counts,
    pub state: State,
    pub list: Vec<u32>,
    pub rest: &'a [u8],
}

/// The answer to a table: 0 and its fresh state, or the refusal, 2 to 9, 20 or
/// 24, and the single task's.
#[derive(Clone, PartialEq, Eq, Debug)]
pub struct Made {
    pub refusal: u8,
    pub state: State,
}

/// The answer to one event given to a saved state.
#[derive(Clone, PartialEq, Eq, Debug)]
pub struct OneAnswer {
    pub refusal: u8,
    pub value: u32,
    pub state: State,
}

pub trait Subject {
    fn name(&self) -> String;

    /// What a state takes: tasks, links, bytes, numbers, times.
    fn sizes(&self) -> [usize; 5];

    /// Reads a whole recording with a list lent as it stands.
    fn replay<'a>(&self, bytes: &'a [u8], lent: &[u32]) -> Answer<'a>;

    /// What a table makes that may break rules 2 to 9, 20 and 24.
    fn fresh(&self, table: &LentTable) -> Made;

    /// One event given to a state that may hold any bytes, by the call that has a
    /// tick if the event has one.
    fn one_event(&self, state: &State, timed: Timed) -> OneAnswer;

    /// Writes what is handed over into a buffer lent as it stands.
    fn write(&self, handover: &Handover, buffer: &mut [u8]) -> Written;
}

/// The oracle itself: the reader of recordings on the `Pointers` engine.
pub struct Oracle;

impl Subject for Oracle {
    fn name(&self) -> String {
        "oracle".to_string()
    }

    fn sizes(&self) -> [usize; 5] {
        SIZES
    }

    fn replay<'a>(&self, bytes: &'a [u8], lent: &[u32]) -> Answer<'a> {
        answer_of(replay(bytes, lent, Pointers::fresh), |engine| engine.state)
    }

    fn fresh(&self, table: &LentTable) -> Made {
        made_of(table.judged())
    }

    fn one_event(&self, state: &State, timed: Timed) -> OneAnswer {
        one_event_with(state, timed, judge, |state, timed| {
            let mut engine = Pointers { state: *state };
            let value = engine.apply(timed);
            (engine.state, value)
        })
    }

    fn write(&self, handover: &Handover, buffer: &mut [u8]) -> Written {
        write(handover, buffer)
    }
}

/// What a table that was judged makes.
pub fn made_of(judged: Result<Table, u8>) -> Made {
    match judged {
        Ok(table) => Made { refusal: 0, state: State::fresh(&table) },
        Err(refusal) => Made { refusal, state: State::single() },
    }
}

pub fn answer_of<E>(reading: Reading<'_, E>, state: impl FnOnce(E) -> State) -> Answer<'_> {
    Answer {
        refusal: reading.refusal,
        place: reading.place,
        counts: reading.counts,
        state: reading.engine.map(state).unwrap_or_else(State::single),
        list: reading.list,
        rest: reading.rest,
    }
}

/// 19 before anything else, then what the event earns, then the event; every
/// refusal has the state as lent and the value 0.
pub fn one_event_with(
    state: &State,
    timed: Timed,
    judge: impl FnOnce(&State, Timed) -> u8,
    apply: impl FnOnce(&State, Timed) -> (State, u32),
) -> OneAnswer {
    let refusal = if sound(state) && for_the_call(state, timed) { judge(state, timed) } else { 19 };
    if refusal != 0 {
        return OneAnswer { refusal, value: 0, state: *state };
    }
    let (state, value) = apply(state, timed);
    OneAnswer { refusal, value, state }
}

/// Whether a state has the policy that the call is for: with a tick the earliest
/// deadline first, without one fixed priorities.
pub fn for_the_call(state: &State, timed: Timed) -> bool {
    timed.tick.is_some() == (state.policy == BY_DEADLINE)
}

/// What the zero-time run says of a recording.
pub fn zero_time_reading<'a>(bytes: &'a [u8], lent: &[u32]) -> Reading<'a, ZeroTime> {
    replay(bytes, lent, ZeroTime::fresh)
}

/// What a whole answer and a zero-time reading disagree on, if anything:
/// numbers, refusal, place, counts, rest, the phases, and what is remembered
/// of arrivals and ticks.
pub fn disagreement(answer: &Answer, zero: &Reading<'_, ZeroTime>) -> Option<&'static str> {
    if answer.refusal != zero.refusal {
        return Some("refusal");
    }
    if answer.place != zero.place {
        return Some("place");
    }
    if answer.counts != zero.counts {
        return Some("counts");
    }
    if answer.list != zero.list {
        return Some("list of numbers");
    }
    if answer.rest != zero.rest {
        return Some("rest");
    }
    if let Some(engine) = &zero.engine {
        if (0..usize::from(answer.state.tasks)).any(|task| answer.state.phase[task] != engine.phase(task)) {
            return Some("phases");
        }
        if !remembered_alike(&answer.state, engine) {
            return Some("arrivals, marks and ticks");
        }
    }
    None
}

/// Whether a state's arrivals, marks and ticks are those of the history that led
/// to it.
pub fn remembered_alike(state: &State, zero: &ZeroTime) -> bool {
    state.last == zero.last_tick()
        && (0..usize::from(state.tasks)).all(|task| state.since[task] == zero.since(task))
        && (0..usize::from(state.tasks)).all(|task| state.seen[task] == zero.arrivals_up_to_two(task))
        && (0..usize::from(state.links)).all(|link| state.mark[link] == u8::from(zero.marked(link)))
}
