//! Recordings of one kind given as another.

use super::Case;
use crate::format::{encode, Recording};
use crate::prng::Prng;
use crate::random_table::{deadlines, Size};
use crate::schedule::{random_recording, reads};
use crate::sizes::{RecordingKind, KINDS};

/// A possible recording of one kind, written as another: so that its counts may
/// be past the limits, and its sets have bits for which there is no room; as a
/// dated one it has relative deadlines, or now and then none, and ticks that are
/// 0, and as another one its tasks may be in another order. Or only its first byte
/// is the other's, so that its fields are too narrow, or too wide.
pub fn other_kind(prng: &mut Prng) -> Case {
    let size = prng.pick(&[Size::Small, Size::Any, Size::Limit, Size::Full]);
    let (mut recording, _) = random_recording(prng, size, 30);
    let room = reads(&recording) + prng.below(2);
    let kind = another(prng, recording.kind);
    if prng.chance(60) {
        if kind.dated && prng.chance(90) {
            recording.table.deadlines = Some(deadlines(prng, recording.table.defaults.len()));
        }
        return Case::other(encode(&Recording { kind, ..recording }), room);
    }
    let mut bytes = encode(&recording);
    bytes[0] = kind.first_byte;
    Case::other(bytes, room)
}

fn another(prng: &mut Prng, kind: RecordingKind) -> RecordingKind {
    let others: Vec<RecordingKind> = KINDS.into_iter().filter(|other| *other != kind).collect();
    prng.pick(&others)
}
