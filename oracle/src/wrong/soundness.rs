//! Soundness judged with a flaw: too little asked of a state, or too much.

use super::tables::link_rule;
use super::{ends, times, Flaw};
use crate::format::{link_faults, DELAYED};
use crate::state::{broken_clauses, sound, Clause, State, ABSENT, FIXED, SEEN_TWO};

/// Whether the flaw takes a state for sound that is not.
pub fn too_mild(flaw: Flaw, state: &State) -> bool {
    match flaw {
        Flaw::Unsound(clause) => broken_clauses(state) == [clause],
        Flaw::NotAskedOfSelf(clause) => broken_clauses(state) == [clause] && sound(&with_self_links_mended(state)),
        Flaw::SelfRoom => broken_in_positions(state) && within(state, |task| positions_with_self_links(state, task)),
        Flaw::PositionsByTable => broken_in_positions(state) && within_by_table(state),
        Flaw::IdleByTable => broken_clauses(state) == [Clause::IdleReaderWith] && !idle_with_pointer_by_table(state),
        Flaw::TwentyByLowByte | Flaw::SelfDirectAccepted | Flaw::SelfTwice => {
            broken_in_links(state) && !fault_by_rule(flaw, state)
        }
        _ => ends::too_mild(flaw, state),
    }
}

/// Whether the flaw refuses a state that is sound.
pub fn too_strict(flaw: Flaw, state: &State) -> bool {
    let refuses: fn(Flaw, &State) -> bool = match flaw {
        Flaw::NoMarkAfterSecond => |_, state| any_link(state, |link| state.mark[link] == 1 && !state.writer_new(link)),
        Flaw::MarkAtEachPresent => {
            |_, state| any_link(state, |link| present_and_delayed(state, link) && state.mark[link] == 0)
        }
        Flaw::SeenPastCounts => |_, state| state.seen[usize::from(state.tasks)..].iter().any(|seen| *seen > SEEN_TWO),
        Flaw::MarkPastCounts => |_, state| state.mark[usize::from(state.links)..].iter().any(|mark| *mark != 0),
        Flaw::SelfIdleAbsent => {
            |_, state| any_present_self_link(state, |link| !state.active(usize::from(state.reader[link])))
        }
        Flaw::SelfPreviousAsked => |_, state| {
            any_present_self_link(state, |link| state.pointer[link] != state.previous[usize::from(state.writer[link])])
        },
        Flaw::PositionsByTable => |_, state| !within_by_table(state),
        Flaw::IdleByTable => |_, state| idle_with_pointer_by_table(state),
        Flaw::StatesBySmaller => |_, state| ends::past_smaller(state),
        Flaw::SelfCountedBehind | Flaw::SelfAsNinth | Flaw::SelfDelayedRefused => fault_by_rule,
        Flaw::LinksByTable | Flaw::SevenByTable | Flaw::NineByTable | Flaw::AheadFromTheEnd => fault_by_rule,
        _ => times::too_strict,
    };
    sound(state) && refuses(flaw, state)
}

/// The counts must be such that there is room.
fn any_link(state: &State, of: impl Fn(usize) -> bool) -> bool {
    (0..usize::from(state.links)).any(of)
}

fn present_and_delayed(state: &State, link: usize) -> bool {
    state.pointer[link] != ABSENT && state.kind[link] == DELAYED
}

fn any_present_self_link(state: &State, of: impl Fn(usize) -> bool) -> bool {
    state.self_links_of(u32::MAX).any(|link| state.pointer[link] != ABSENT && of(link))
}

/// Whether a link breaks a rule of tables, after counts that break none.
fn broken_in_links(state: &State) -> bool {
    let refusal = broken_clauses(state).first().and_then(|clause| clause.table_refusal());
    matches!(refusal, Some(4..=9 | 20))
}

/// Whether a link is at fault by the flaw's rule.
fn fault_by_rule(flaw: Flaw, state: &State) -> bool {
    link_faults(state.order(), &state.link_list(), link_rule(flaw)).next().is_some()
}

/// The state with a pointer and a mark at each self link that every sound state
/// may have there: what is still broken is so by the others.
fn with_self_links_mended(state: &State) -> State {
    let mut mended = *state;
    for link in state.self_links_of(u32::MAX) {
        mended.pointer[link] = 1;
        mended.mark[link] = 1;
    }
    mended
}

/// Whether nothing is broken but that a position is none of its task's.
fn broken_in_positions(state: &State) -> bool {
    let of_positions = [Clause::Newest, Clause::Previous, Clause::Pointer];
    let broken = broken_clauses(state);
    !broken.is_empty() && broken.iter().all(|clause| of_positions.contains(clause))
}

/// Whether each `newest`, `previous` and pointer would be a position of its task,
/// if the task had so many.
fn within(state: &State, positions: impl Fn(usize) -> usize) -> bool {
    let inside = |position: u8, task: usize| usize::from(position) <= positions(task);
    let named = |position: u8, task: usize| position > 0 && inside(position, task);
    (0..usize::from(state.tasks)).all(|task| named(state.newest[task], task) && named(state.previous[task], task))
        && !any_link(state, |link| !inside(state.pointer[link], usize::from(state.writer[link])))
}

fn positions_with_self_links(state: &State, task: usize) -> usize {
    state.positions(task) + state.self_links_of(1 << task).count()
}

/// The state with its tasks in the table's order.
fn by_table(state: &State) -> State {
    State { policy: FIXED, ..*state }
}

fn within_by_table(state: &State) -> bool {
    let by_table = by_table(state);
    within(state, |task| by_table.positions(task))
}

/// Whether an idle reader has a pointer from a writer earlier in the table.
fn idle_with_pointer_by_table(state: &State) -> bool {
    let by_table = by_table(state);
    let idle = |link: usize| !state.active(usize::from(state.reader[link]));
    any_link(state, |link| idle(link) && by_table.reader_behind(link) && state.pointer[link] != ABSENT)
}
