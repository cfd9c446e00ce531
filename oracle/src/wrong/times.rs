//! Ticks, deadlines and the order that they give, taken with a flaw: by engines,
//! and by the writer of recordings.

use super::Flaw;
use crate::format::{link_refusal, Event, Link, LinkRule, Timed};
use crate::order::{urgency, Order};
use crate::pointers::{deadline, first_of, take_tick};
use crate::sizes::MOST_TICK;
use crate::state::{State, ABSENT, BY_DEADLINE};
use crate::subject::{Made, OneAnswer};
use crate::tables::LentTable;

/// How urgent a job is, by its arrival tick, its relative deadline and its task;
/// the least may run.
pub type Urgency = fn(u32, u32, usize) -> (u64, u32, usize);

pub fn urgency_by(flaw: Flaw) -> Urgency {
    match flaw {
        Flaw::TiesByTable => |since, deadline, task| (urgency(since, deadline, task).0, 0, task),
        Flaw::TiesFromTheEnd => |since, deadline, task| (urgency(since, deadline, task).0, deadline, usize::MAX - task),
        Flaw::OrderByArrival => |since, deadline, task| (u64::from(since), deadline, task),
        Flaw::SixteenByTasks => |_, deadline, task| (0, deadline, task),
        Flaw::SixteenByTable => |_, _, task| (0, 0, task),
        Flaw::SumIn32Bits => |since, deadline, task| (u64::from(since.wrapping_add(deadline)), deadline, task),
        _ => urgency,
    }
}

/// Whether the state's job of a task is not the one that may run.
pub fn blocked(flaw: Flaw, state: &State, task: usize) -> bool {
    let place = |task: usize| urgency_by(flaw)(state.since[task], state.deadline[task], task);
    (0..usize::from(state.tasks)).any(|other| state.active(other) && place(other) < place(task))
}

/// An event as the flaw takes it from the bytes.
pub fn taken(flaw: Flaw, timed: Timed) -> Timed {
    match flaw {
        Flaw::TickHighByteFirst => Timed { tick: timed.tick.map(u32::swap_bytes), ..timed },
        _ => timed,
    }
}

/// 22 or 21.
pub fn tick_refusal(flaw: Flaw, last: u32, tick: Option<u32>) -> u8 {
    let limit = match flaw {
        Flaw::LimitRefused => MOST_TICK - 1,
        Flaw::PastLimitAccepted => MOST_TICK + 1,
        Flaw::Untried(22) => u32::MAX,
        _ => MOST_TICK,
    };
    let least = match flaw {
        Flaw::SameTickRefused => last.saturating_add(1),
        Flaw::OneBelowAccepted => last.saturating_sub(1),
        Flaw::Untried(21) => 0,
        _ => last,
    };
    match tick {
        Some(tick) if tick > limit => 22,
        Some(tick) if tick < least => 21,
        _ => 0,
    }
}

/// 23, of a job that is due at a tick.
pub fn late_refusal(flaw: Flaw, due: u64, tick: Option<u32>, event: Event) -> u8 {
    let tick = match (tick, event) {
        (Some(tick), Event::Finish(..)) => u64::from(tick),
        (Some(tick), Event::Start(_) | Event::Read(_)) if flaw == Flaw::LateRunRefused => u64::from(tick),
        _ => return 0,
    };
    let late = match flaw {
        Flaw::AtDeadlineRefused => tick >= due,
        Flaw::OneLateAccepted => tick > due + 1,
        Flaw::Untried(23) => false,
        _ => tick > due,
    };
    if late {
        23
    } else {
        0
    }
}

/// The first of what applies: of the rows 12 to 16, of 22 and 21, and 23.
pub fn first_tried(flaw: Flaw, phases: u8, tick: u8, late: u8) -> u8 {
    match (flaw, phases) {
        (Flaw::TickBeforeTwelve, _) => first_of([tick, phases, late]),
        (_, 12) => 12,
        (Flaw::TickAfterPhases, _) => first_of([phases, tick, late]),
        (Flaw::TickLast, _) => first_of([phases, late, tick]),
        (Flaw::LateBeforeFifteen, 15) => first_of([tick, late, phases]),
        (Flaw::LateBeforeSixteen, 16) => first_of([tick, late, phases]),
        _ => first_of([tick, phases, late]),
    }
}

/// What an event earns of a state, of which the rows 12 to 16 are known.
pub fn judged(flaw: Flaw, state: &State, Timed { tick, event }: Timed, phases: u8, runner: Option<usize>) -> u8 {
    let due = match runner {
        Some(task) if flaw == Flaw::SumIn32Bits => u64::from(state.since[task].wrapping_add(state.deadline[task])),
        Some(task) => deadline(state, task),
        None => 0,
    };
    let late = if phases == 12 { 0 } else { late_refusal(flaw, due, tick, event) };
    first_tried(flaw, phases, tick_refusal(flaw, state.last, tick), late)
}

/// What an accepted event with a tick does besides. `before` is the state before
/// it.
pub fn after(flaw: Flaw, before: &State, state: &mut State, tick: u32, event: Event) {
    take_tick(state, tick, event);
    match (flaw, event) {
        (Flaw::LastByArrivals, Event::Start(_) | Event::Read(_) | Event::Finish(..)) => state.last = before.last,
        (Flaw::LastNotByReads, Event::Read(_)) => state.last = before.last,
        (Flaw::SinceKept, Event::Finish(task, _)) => {
            state.since[usize::from(task)] = before.since[usize::from(task)];
        }
        (Flaw::SinceNotSet, Event::Arrival(_)) => state.since = before.since,
        (Flaw::SinceAtStart, Event::Start(task)) => state.since[usize::from(task)] = tick,
        _ => {}
    }
}

/// Whether a link of the task to a reader later in the table points there.
pub fn pointed_at_by_table(state: &State, task: usize, position: u8) -> bool {
    let points = |l: usize| usize::from(state.writer[l]) == task && state.pointer[l] == position;
    (0..usize::from(state.links)).any(|l| points(l) && state.reader[l] > state.writer[l])
}

/// Frees the pointers by which a task reads from writers earlier in the table.
pub fn free_by_table(state: &mut State, task: usize) {
    for l in 0..usize::from(state.links) {
        if usize::from(state.reader[l]) == task && state.writer[l] < state.reader[l] {
            state.pointer[l] = ABSENT;
            state.mark[l] = 0;
        }
    }
}

/// The rule by which a flaw judges links, if it is one of these.
pub fn rule(flaw: Flaw) -> Option<LinkRule> {
    let rule: LinkRule = match flaw {
        Flaw::LinksByTable => |order, earlier, link| by_table(order, earlier, link),
        Flaw::SevenByTable => |order, earlier, link| one_by_table(order, earlier, link, 7),
        Flaw::NineByTable => |order, earlier, link| one_by_table(order, earlier, link, 9),
        Flaw::AheadFromTheEnd => |order, earlier, link| from_the_end(order, earlier, link),
        _ => return None,
    };
    Some(rule)
}

fn by_table(order: &Order, earlier: &[Link], link: Link) -> u8 {
    link_refusal(&Order::of_table(order.tasks), earlier, link)
}

/// One rule by the table, the others by the order.
fn one_by_table(order: &Order, earlier: &[Link], link: Link, rule: u8) -> u8 {
    match (link_refusal(order, earlier, link), by_table(order, earlier, link)) {
        (right, wrong) if right == rule || wrong == rule => wrong,
        (right, _) => right,
    }
}

/// The larger relative deadline is taken to be ahead.
fn from_the_end(order: &Order, earlier: &[Link], link: Link) -> u8 {
    let in_order = order.from_the_first();
    let mut turned = vec![0; in_order.len()];
    in_order.iter().rev().enumerate().for_each(|(place, task)| turned[*task] = place as u32 + 1);
    let turned = Order::by_deadlines(order.tasks, turned.into_iter());
    match order == &Order::of_table(order.tasks) {
        true => link_refusal(order, earlier, link),
        false => link_refusal(&turned, earlier, link),
    }
}

/// The right answer to a table bent as a flaw would give it.
pub fn made(flaw: Flaw, table: &LentTable, mut right: Made) -> Made {
    let deadlines = match &table.deadlines {
        Some(deadlines) => deadlines,
        None => return right,
    };
    match flaw {
        Flaw::PolicyNotSet => right.state.policy = 0,
        Flaw::EarlyPolicyKept => right.state.policy = BY_DEADLINE,
        Flaw::DeadlinesPastKept if right.refusal == 0 => right.state.deadline = deadlines.map(u32::from),
        Flaw::TwentyFourAfterThree if right.refusal == 24 && table.links > 96 => right.refusal = 3,
        Flaw::TwentyFourAfterLinks if right.refusal == 24 => {
            let without = LentTable { deadlines: None, ..table.clone() };
            right.refusal = without.judged().err().unwrap_or(24);
        }
        Flaw::DeadlineHighByteFirst => {
            right.state.deadline = right.state.deadline.map(|d| (d as u16).swap_bytes().into())
        }
        Flaw::DeadlinePastAsked if matches!(right.refusal, 0 | 3..=9 | 20) && deadlines.contains(&0) => {
            right = Made { refusal: 24, state: State::single() };
        }
        _ => {}
    }
    right
}

/// Whether the flaw refuses a state that is sound.
pub fn too_strict(flaw: Flaw, state: &State) -> bool {
    let (tasks, dated) = (usize::from(state.tasks), state.policy == BY_DEADLINE);
    match flaw {
        Flaw::SincePastAsked => dated && state.since[tasks..].iter().any(|since| *since != 0),
        Flaw::DeadlinePastAsked => dated && state.deadline[tasks..].contains(&0),
        Flaw::DeadlineOfTwoBytes => state.deadline[..tasks].iter().any(|deadline| *deadline > 65_535),
        Flaw::LastAboveArrivals => dated && (0..tasks).any(|t| state.active(t) && state.since[t] == state.last),
        Flaw::LimitRefused => dated && state.last == MOST_TICK,
        Flaw::DatedRefused => dated,
        _ => false,
    }
}

/// The event as a call takes it that does not ask for the policy: at the last
/// tick, or at none.
pub fn for_any_policy(flaw: Flaw, state: &State, timed: Timed) -> Timed {
    match (flaw, timed.tick, state.policy) {
        (Flaw::WithoutTickAccepted, None, BY_DEADLINE) => Timed { tick: Some(state.last), ..timed },
        (Flaw::WithTickAccepted, Some(_), 0) => timed.event.into(),
        _ => timed,
    }
}

/// The answer to one event bent as a flaw would give it.
pub fn answered(flaw: Flaw, timed: Timed, mut answer: OneAnswer) -> OneAnswer {
    if let (Flaw::LastByRefused, Some(tick), 12..=16 | 21..=23) = (flaw, timed.tick, answer.refusal) {
        answer.state.last = tick;
    }
    answer
}
