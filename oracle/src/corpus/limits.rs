//! Counts, sets, tasks and links at the limits of each kind of recording, and
//! past them: the bytes of what is handed over there.

use super::Case;
use crate::handovers::of_few_events;
use crate::laws::stand_in;

/// So many batches make up all of them.
const BATCHES: usize = 16;

/// All of them, with room for more reads than any has.
pub fn limits() -> Vec<Case> {
    let mut cases = Vec::new();
    for handover in of_few_events() {
        cases.push(Case::other(stand_in(&handover), handover.events.len()));
    }
    cases
}

/// Those of one batch.
pub fn some_limits(number: usize) -> Vec<Case> {
    let mut cases = limits();
    let of_each = cases.len() / BATCHES + 1;
    let first = number % BATCHES * of_each;
    cases.drain(first..(first + of_each).min(cases.len())).collect()
}
