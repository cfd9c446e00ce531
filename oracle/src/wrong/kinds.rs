//! Kinds of recordings taken with a flaw, in reading and in writing.

use super::Flaw;
use crate::sizes::{RecordingKind, KINDS};

const SMALLER: RecordingKind = RecordingKind::SIXTEEN;
const LARGER: RecordingKind = RecordingKind::THIRTY_TWO;
const DATED: RecordingKind = RecordingKind::DATED;

/// The kind that a number names by a flaw.
pub fn kind_rule(flaw: Flaw) -> fn(u32) -> Option<RecordingKind> {
    match flaw {
        Flaw::SmallerByRoom => |n| with(n, [RecordingKind { limits: LARGER.limits, ..SMALLER }]),
        Flaw::LargerBySmaller => |n| with(n, [RecordingKind { limits: SMALLER.limits, ..LARGER }]),
        Flaw::DatedBySmaller => |n| with(n, [RecordingKind { limits: SMALLER.limits, ..DATED }]),
        Flaw::SmallerSetsOfFour => |n| with(n, [RecordingKind { set_bytes: 4, ..SMALLER }]),
        Flaw::LargerSetsOfTwo => |n| with(n, [RecordingKind { set_bytes: 2, ..LARGER }]),
        Flaw::DatedSetsOfTwo => |n| with(n, [RecordingKind { set_bytes: 2, ..DATED }]),
        Flaw::DatedByTenThousand => |n| with(n, [RecordingKind { most_events: 10_000, ..DATED }]),
        Flaw::LargerBySixThousand => |n| with(n, [RecordingKind { most_events: 6_000, ..LARGER }]),
        Flaw::DatedAsLarger => |n| with(n, [with_first_byte_of(DATED, LARGER)]),
        Flaw::LargerAsDated => |n| with(n, [with_first_byte_of(LARGER, DATED)]),
        Flaw::SmallerRefused => |n| among(n, [LARGER, DATED]),
        Flaw::LargerRefused => |n| among(n, [SMALLER, DATED]),
        Flaw::DatedRefused => |n| among(n, [SMALLER, LARGER]),
        Flaw::KindsSwapped => |n| with(n, [with_first_byte_of(LARGER, SMALLER), with_first_byte_of(SMALLER, LARGER)]),
        Flaw::UnknownAsSmaller => |n| among(n, KINDS).or(Some(SMALLER)),
        Flaw::UnknownAsLarger => |n| among(n, KINDS).or(Some(LARGER)),
        Flaw::UnknownAsDated => |n| among(n, KINDS).or(Some(DATED)),
        Flaw::AllAsSmaller => |_| Some(SMALLER),
        Flaw::NextKindTaken => |n| among(n, KINDS).or(Some(SMALLER).filter(|_| n == 252)),
        Flaw::KindCut => |n| among(n % 256, KINDS),
        _ => RecordingKind::of_number,
    }
}

fn among<const SOME: usize>(number: u32, kinds: [RecordingKind; SOME]) -> Option<RecordingKind> {
    kinds.into_iter().find(|kind| kind.number() == number)
}

/// These in place of the right ones.
fn with<const SOME: usize>(number: u32, kinds: [RecordingKind; SOME]) -> Option<RecordingKind> {
    among(number, kinds).or_else(|| among(number, KINDS))
}

fn with_first_byte_of(other: RecordingKind, kind: RecordingKind) -> RecordingKind {
    RecordingKind { first_byte: other.first_byte, ..kind }
}
