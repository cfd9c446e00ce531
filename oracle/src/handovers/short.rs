//! Every short handover.

use super::Lent;
use crate::sizes::{RecordingKind, UNDATED};
use crate::writing::Handover;

/// Of either kind with fixed priorities in turn: every slice of links of up to
/// five numbers from 0 to 3, with none to three tasks, and of up to eight
/// numbers from 0 to 2, with two tasks and with three; every slice of events of
/// up to seven numbers from 0 to 4, with two tasks and the link between them,
/// and of up to five without the link. Of a dated recording: every slice of
/// tasks of up to six numbers from 0 to 2, and after the start of one of two
/// tasks every slice of events of up to six numbers from 0 to 4.
pub fn every_short() -> impl Iterator<Item = Lent> {
    let links = (0..=3).flat_map(|tasks| slices(4, 5).map(move |links| (tasks, links, Vec::new())));
    let pairs = (2..=3).flat_map(|tasks| slices(3, 8).map(move |links| (tasks, links, Vec::new())));
    let linked = slices(5, 7).map(|events| (2, vec![0, 1, 0, 0], events));
    let without = slices(5, 5).map(|events| (2, Vec::new(), events));
    let all = links.chain(pairs).chain(linked).chain(without).enumerate();
    let undated = all.map(|(number, (tasks, links, events))| {
        let kind = UNDATED[number / 3 % UNDATED.len()].number();
        Handover { kind, tasks: (7..7 + tasks).collect(), links, events }
    });
    // One byte short, exact, and one more.
    undated.chain(dated()).enumerate().map(|(number, handover)| handover.lent(number as isize % 3 - 1))
}

fn dated() -> impl Iterator<Item = Handover> {
    let kind = RecordingKind::DATED.number();
    let tasks = slices(3, 6).map(move |tasks| Handover { kind, tasks, links: Vec::new(), events: vec![1, 0, 1] });
    // Both tasks have arrived at 1, and the second one, which is ahead, runs.
    let begun = [1, 1, 3, 2, 1, 1];
    let events = slices(5, 6).map(move |events| {
        let events = [&begun[..], &events].concat();
        Handover { kind, tasks: vec![7, 2, 8, 1], links: vec![1, 0, 0, 0], events }
    });
    tasks.chain(events)
}

/// Every slice of up to `longest` numbers below `bound`.
fn slices(bound: u32, longest: u32) -> impl Iterator<Item = Vec<u32>> {
    (0..=longest).flat_map(move |length| {
        (0..bound.pow(length)).map(move |code| (0..length).map(|place| code / bound.pow(place) % bound).collect())
    })
}
