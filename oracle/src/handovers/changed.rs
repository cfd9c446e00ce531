//! Small handovers cut everywhere, with every number changed, and with every
//! room.

use super::Lent;
use crate::example::example;
use crate::format::Recording;
use crate::prng::Prng;
use crate::random_table::{random_table, Size};
use crate::schedule::random_events;
use crate::sizes::{KINDS, MOST_TICK};
use crate::writing::Handover;

pub fn small_or_example(prng: &mut Prng, number: usize) -> Handover {
    if let Some(example) = example(number) {
        return Handover::of(&example);
    }
    let kind = prng.pick(&KINDS);
    let table = random_table(prng, kind, Size::Small);
    let count = prng.between(4, 12);
    let (events, _) = random_events(prng, &table, count);
    Handover::of(&Recording { kind, table, events })
}

/// Each slice cut at every length, the others whole; then the links and the
/// events once more with a number after the cut that is no kind of either.
pub fn every_cut(whole: &Handover) -> Vec<Lent> {
    let mut cut = Vec::new();
    for slice in 0..3 {
        for length in 0..=part(&mut whole.clone(), slice).len() {
            let mut changed = whole.clone();
            part(&mut changed, slice).truncate(length);
            cut.push(changed.clone());
            if slice > 0 {
                part(&mut changed, slice).push(9);
                cut.push(changed);
            }
        }
    }
    cut.into_iter().map(|handover| handover.lent(0)).collect()
}

/// Each number in turn replaced by those near it and near every limit, and by
/// those that would be it again if they were cut to a field.
pub fn every_number(whole: &Handover) -> Vec<Lent> {
    let small = [0, 1, 2, 3, 4, 5, 16, 17, 31, 32, 33, 95, 96, 97, 255, 256, 257, 65_535, 65_536];
    let fixed = [&small[..], &[MOST_TICK, MOST_TICK + 1, u32::MAX]].concat();
    let mut changed = Vec::new();
    for slice in 0..3 {
        for place in 0..part(&mut whole.clone(), slice).len() {
            let old = part(&mut whole.clone(), slice)[place];
            let near = [1, u32::MAX, 256, 1 << 16, 1 << 20, 1 << 31].map(|more| old.wrapping_add(more));
            changed.extend(fixed.iter().chain(&near).map(|number| {
                let mut handover = whole.clone();
                part(&mut handover, slice)[place] = *number;
                handover
            }));
        }
    }
    changed.into_iter().map(|handover| handover.lent(1)).collect()
}

/// Every room from none to a little more than enough.
pub fn every_room(whole: &Handover) -> Vec<Lent> {
    (0..=whole.length() + 3).map(|room| Lent { handover: whole.clone(), room }).collect()
}

/// The tasks, the links or the events.
fn part(handover: &mut Handover, slice: usize) -> &mut Vec<u32> {
    match slice {
        0 => &mut handover.tasks,
        1 => &mut handover.links,
        _ => &mut handover.events,
    }
}
