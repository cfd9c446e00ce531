//! Self links judged, set or freed with a flaw.

use super::Flaw;
use crate::format::{link_refusal, Link, LinkRule, DELAYED};
use crate::order::Order;
use crate::pointers::settles_on_start;
use crate::sizes::MOST_BEHIND;
use crate::state::{State, ABSENT};

/// The rule by which a flaw judges links, if it is one of these.
pub fn rule(flaw: Flaw) -> Option<LinkRule> {
    let rule: LinkRule = match flaw {
        Flaw::SelfCountedBehind => counted_behind,
        Flaw::SelfAsNinth => as_ninth,
        Flaw::SelfDirectAccepted => direct_accepted,
        Flaw::SelfDirectSeven => |order, earlier, link| instead(order, earlier, link, 5, 7),
        Flaw::SelfDelayedRefused => delayed_refused,
        Flaw::SelfUnknownKindFive => |order, earlier, link| instead(order, earlier, link, 6, 5),
        Flaw::SelfTwice => |order, earlier, link| instead(order, earlier, link, 8, 0),
        _ => return None,
    };
    Some(rule)
}

/// One refusal of a self link for another.
fn instead(order: &Order, earlier: &[Link], link: Link, right: u8, wrong: u8) -> u8 {
    match link_refusal(order, earlier, link) {
        refusal if refusal == right && link.to_itself() => wrong,
        refusal => refusal,
    }
}

fn eight(earlier: &[Link], writer: u8, counts: impl Fn(&Link) -> bool) -> bool {
    earlier.iter().filter(|other| other.writer == writer && counts(other)).count() >= MOST_BEHIND
}

/// An earlier self link takes the place of one to a reader behind.
fn counted_behind(order: &Order, earlier: &[Link], link: Link) -> u8 {
    match link_refusal(order, earlier, link) {
        0 | 20 if link.reader_behind(order) && eight(earlier, link.writer, |other| !other.reader_ahead(order)) => 9,
        refusal => refusal,
    }
}

/// A self link after eight to readers behind is taken for the ninth.
fn as_ninth(order: &Order, earlier: &[Link], link: Link) -> u8 {
    match link_refusal(order, earlier, link) {
        0 if link.to_itself() && eight(earlier, link.writer, |other| other.reader_behind(order)) => 9,
        refusal => refusal,
    }
}

/// A direct self link is left to the rules after 5.
fn direct_accepted(order: &Order, earlier: &[Link], link: Link) -> u8 {
    match link_refusal(order, earlier, link) {
        5 => match link_refusal(order, earlier, Link { kind: DELAYED, ..link }) {
            0 if link.start_value != 0 => 20,
            refusal => refusal,
        },
        refusal => refusal,
    }
}

/// Rule 5 as it was.
fn delayed_refused(order: &Order, earlier: &[Link], link: Link) -> u8 {
    match link_refusal(order, earlier, link) {
        0 | 8 if link.to_itself() => 5,
        refusal => refusal,
    }
}

/// Whether a flaw keeps a position from the search that the task's self link
/// points to.
pub fn protects(flaw: Flaw, state: &State, task: usize, position: u8) -> bool {
    matches!(flaw, Flaw::SelfProtected | Flaw::SelfAsBehind)
        && state.self_links_of(1 << task).any(|link| state.pointer[link] == position)
}

/// How many positions more than N + 2 a flaw searches, so that it finds one
/// although it protects one more.
pub fn more_positions(flaw: Flaw, state: &State, task: usize) -> usize {
    match flaw {
        Flaw::SelfAsBehind => state.self_links_of(1 << task).count(),
        _ => 0,
    }
}

/// After the readers' part of an arrival. `before` is the state before it.
pub fn after_readers(flaw: Flaw, before: &State, state: &mut State, set: u32) {
    let change: fn(&State, &mut State, usize) = match flaw {
        Flaw::SelfAtNewest => |_, state, link| state.pointer[link] = state.newest[reader(state, link)],
        Flaw::SelfSetFirst => |before, state, link| state.pointer[link] = before.previous[reader(before, link)],
        Flaw::SelfNotSet => |before, state, link| {
            state.pointer[link] = before.pointer[link];
            state.mark[link] = before.mark[link];
        },
        Flaw::SelfMarkBeforeArrival => {
            |before, state, link| state.mark[link] = u8::from(settles_on_start(before, link))
        }
        _ => return,
    };
    before.self_links_of(set).for_each(|link| change(before, state, link));
}

/// After all else that a finish does. `before` is the state before it.
pub fn at_finish(flaw: Flaw, before: &State, state: &mut State, task: usize) {
    let freed = flaw == Flaw::SelfFreedAtFinish;
    if freed || flaw == Flaw::SelfMarkGoneAtFinish {
        for link in before.self_links_of(1 << task) {
            state.mark[link] = 0;
            state.pointer[link] = if freed { ABSENT } else { before.pointer[link] };
        }
    }
}

fn reader(state: &State, link: usize) -> usize {
    usize::from(state.reader[link])
}
