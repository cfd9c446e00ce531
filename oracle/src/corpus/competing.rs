//! Recordings in which several rules are broken at once, so that the order of
//! the refusals shows.

use super::Case;
use crate::format::{encode, encode_event, encode_table, place_of_event_count, LINK_BYTES};
use crate::nasty::{competing_table, nasty_event};
use crate::prng::Prng;
use crate::random_table::Size;
use crate::schedule::{random_recording, reads};
use crate::sizes::KINDS;

/// A possible history, then one event that breaks several rules at once, then
/// perhaps more bytes, a wrong E, a cut, or no room in the list.
pub fn competing_events(prng: &mut Prng) -> Case {
    let size = prng.pick(&[Size::Small, Size::Small, Size::Any, Size::Any, Size::Full]);
    let (recording, schedule) = random_recording(prng, size, 30);
    let mut bytes = encode(&recording);
    let mut last = Vec::new();
    encode_event(recording.kind, nasty_event(prng, &recording.table, &schedule), &mut last);
    if prng.chance(10) {
        last[0] = prng.pick(&[0, 5, 6, 255]);
    }
    if prng.chance(15) {
        last.truncate(prng.below(last.len()));
    } else if prng.chance(20) {
        last.push(prng.byte());
    }
    bytes.extend_from_slice(&last);
    let events_at = place_of_event_count(recording.kind, &recording.table);
    let more = prng.pick(&[0, 1, 1, 1, 1, 1, 2, 3]);
    let count = (recording.events.len() + more) as u16;
    bytes[events_at..events_at + 2].copy_from_slice(&count.to_le_bytes());
    let room = reads(&recording) + prng.pick(&[0, 0, 1, 5]);
    Case::other(bytes, room)
}

pub fn competing_links(prng: &mut Prng) -> Case {
    let kind = prng.pick(&KINDS);
    let mut table = competing_table(prng, kind);
    if let Some(deadlines) = table.deadlines.as_mut().filter(|_| prng.chance(20)) {
        let task = prng.below(deadlines.len());
        deadlines[task] = 0;
    }
    let mut bytes = encode_table(kind, &table);
    if prng.chance(80) {
        bytes.extend_from_slice(&[0, 0]);
    } else {
        bytes.truncate(bytes.len() - prng.below(LINK_BYTES + 1));
    }
    Case::other(bytes, prng.below(3))
}
