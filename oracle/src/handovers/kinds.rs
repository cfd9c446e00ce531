//! Handovers for another kind of recording, and for kinds that there are not.

use super::Lent;
use crate::prng::Prng;
use crate::sizes::KINDS;
use crate::writing::Handover;

/// Numbers of no kind: near those of a kind, and those that would be one, cut to
/// a byte or to two.
#[rustfmt::skip]
pub const OF_NO_KIND: [u32; 13] = [
    0, 1, 251, 252, 256, 256 + 253, 256 + 254, 256 + 255, 1 << 16 | 253, 1 << 16 | 255, 1 << 31 | 254, 1 << 31 | 255,
    u32::MAX,
];

/// The kind that was handed over, as a rule; else any, or none.
pub fn some_kind(prng: &mut Prng, kind: u32) -> u32 {
    match prng.below(10) {
        0 => prng.pick(&OF_NO_KIND),
        1 | 2 => prng.pick(&KINDS).number(),
        _ => kind,
    }
}

/// Each kind and what is none, with enough room, and with none.
pub fn every_kind(whole: &Handover) -> Vec<Lent> {
    let kinds = KINDS.map(|kind| kind.number()).into_iter().chain(OF_NO_KIND);
    let handovers = kinds.map(|kind| Handover { kind, ..whole.clone() });
    handovers.flat_map(|handover| [handover.clone().lent(1), Lent { handover, room: 0 }]).collect()
}
