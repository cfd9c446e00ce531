//! Seeded families of frames: which there are, and what each makes.

mod ask;
mod changed;
mod floats;
mod limits;
mod random;

use super::frame::Frame;
use crate::prng::Prng;
use crate::run::stream;

pub const SEED: u64 = 1;

type Family = fn(&mut Prng) -> Vec<Frame>;

/// The sharpest come first, so that the first difference tells most.
const FAMILIES: [(&str, Family); 11] = [
    ("EveryCut", changed::every_cut),
    ("NastyFloats", floats::nasty),
    ("ExtraBytes", limits::extra_bytes),
    ("Counts", limits::counts),
    ("EveryLongCut", limits::every_long_cut),
    ("EveryByte", changed::every_byte),
    ("TwoChanges", changed::two_changes),
    ("EveryExponent", floats::every_exponent),
    ("Millionths", floats::millionths),
    ("RandomLists", random::lists),
    ("Soup", random::soup),
];

/// Each family by its name, in the order in which they are asked.
pub fn families(seed: u64) -> Vec<(&'static str, Vec<Frame>)> {
    // Streams of their own, apart from those of the recordings.
    let streams = (200..).map(|number| stream(seed, number));
    FAMILIES.iter().zip(streams).map(|((name, family), mut prng)| (*name, family(&mut prng))).collect()
}

pub fn frames(seed: u64) -> Vec<Frame> {
    families(seed).into_iter().flat_map(|(_, family)| family).collect()
}
