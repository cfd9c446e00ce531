//! Lists on both sides of the limits: how many entries, what the count says of
//! them, and how many bytes.

use super::ask;
use super::random::good_settings;
use crate::prng::Prng;
use crate::settings::frame::{Frame, MOST_BYTES};
use crate::settings::writing::list;
use crate::settings::MOST_SETTINGS;

/// So many entries, and a count that says the same or another number.
pub fn counts(prng: &mut Prng) -> Vec<Frame> {
    let counts = [0, 1, 2, 3, 62, 63, 64, 65, 66, 128, 255];
    let pairs = [0, 1, 2, 3, 63, 64, 65].into_iter().flat_map(|entries| counts.map(|count| (entries, count)));
    pairs.flat_map(|(entries, count)| counted(prng, entries, count)).collect()
}

fn counted(prng: &mut Prng, entries: usize, count: u8) -> Vec<Frame> {
    let mut bytes = list(&good_settings(prng, entries));
    bytes[0] = count;
    ask::every(&bytes, entries)
}

/// The longest list that can be accepted, cut at every place.
pub fn every_long_cut(prng: &mut Prng) -> Vec<Frame> {
    let bytes = list(&good_settings(prng, MOST_SETTINGS));
    (0..=bytes.len()).map(|cut| ask::one(prng, bytes[..cut].to_vec(), MOST_SETTINGS)).collect()
}

/// Bytes after the last entry, as many as a frame can have.
pub fn extra_bytes(prng: &mut Prng) -> Vec<Frame> {
    let numbers = [1, 2, 3, 10, 63, MOST_SETTINGS].into_iter();
    let pairs = numbers.flat_map(|entries| (1..=23).chain([100, MOST_BYTES]).map(move |extra| (entries, extra)));
    pairs.map(|(entries, extra)| lengthened(prng, entries, extra)).collect()
}

fn lengthened(prng: &mut Prng, entries: usize, extra: usize) -> Frame {
    let mut bytes = list(&good_settings(prng, entries));
    bytes.extend((0..extra).map(|_| prng.pick(&[0, 1, 2, 3, 4, 17, 255])));
    bytes.truncate(MOST_BYTES);
    ask::one(prng, bytes, entries)
}
