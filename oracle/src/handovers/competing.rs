//! Handovers in which several rules are broken at once, so that the order of
//! the refusals shows.

use super::numbers;
use crate::format::Recording;
use crate::nasty::{competing_table, nasty_event};
use crate::prng::Prng;
use crate::random_table::Size;
use crate::schedule::random_recording;
use crate::sizes::KINDS;
use crate::writing::Handover;

/// Links that break several rules, then perhaps another default or relative
/// deadline, or one left out, a cut inside the last link, a number too large for a
/// byte, and events.
pub fn competing_links(prng: &mut Prng) -> Handover {
    let kind = prng.pick(&KINDS);
    let table = competing_table(prng, kind);
    let mut handover = Handover::of(&Recording { kind, table, events: Vec::new() });
    if prng.chance(20) {
        let place = prng.below(handover.tasks.len());
        handover.tasks[place] = prng.pick(&[0, 0, 1, 65_535, 65_536, 65_537, 1 << 31, u32::MAX]);
    } else if prng.chance(10) {
        handover.tasks.pop();
    }
    let length = handover.links.len();
    if prng.chance(15) {
        handover.links.truncate(length - prng.between(1, 3));
    } else if prng.chance(30) {
        let place = length - prng.between(1, 4);
        handover.links[place] = widened(prng, handover.links[place]);
    }
    if prng.chance(20) {
        handover.events = vec![prng.pick(&[0, 1, 2, 3, 4, 5])];
    }
    handover
}

/// A possible history, then an event that breaks several rules, of an unknown
/// kind, with a number too large for its field or without all its numbers;
/// then perhaps more.
pub fn competing_events(prng: &mut Prng) -> Handover {
    let size = prng.pick(&[Size::Small, Size::Small, Size::Any, Size::Any, Size::Full]);
    let (recording, schedule) = random_recording(prng, size, 30);
    let mut handover = Handover::of(&recording);
    let mut last = numbers(nasty_event(prng, &recording.table, &schedule));
    match prng.below(8) {
        0 => last[0] = prng.pick(&[0, 5, 6, 255, 256, 257, 258, 259, 260, u32::MAX]),
        1 => last.truncate(prng.between(1, last.len() - 1)),
        2 => last[1] = widened(prng, last[1]),
        3 => {
            let place = last.len() - prng.pick(&[1, 1, 2]);
            last[place] = widened(prng, last[place]);
        }
        _ => {}
    }
    if prng.chance(20) {
        last.push(prng.below(6) as u32);
    }
    handover.events.extend(last);
    handover
}

/// A number that would be the old one again, cut to a byte or to two.
fn widened(prng: &mut Prng, number: u32) -> u32 {
    number.wrapping_add(prng.pick(&[256, 1 << 16, 1 << 20, 1 << 24, 1 << 31, 257, u32::MAX]))
}

/// Numbers that were never a table, links or events, small ones in the main.
pub fn soup(prng: &mut Prng) -> Handover {
    let kind = prng.pick(&KINDS).number();
    let small = prng.chance(80);
    let mut slice = |most: usize| -> Vec<u32> {
        let length = prng.below(most + 1);
        (0..length).map(|_| if small { prng.below(5) as u32 } else { prng.word() >> prng.below(32) }).collect()
    };
    Handover { kind, tasks: slice(5), links: slice(9), events: slice(20) }
}
