//! A small list with all three codes: cut at every place, changed in every
//! byte, and changed in two.

use super::ask;
use crate::prng::Prng;
use crate::settings::frame::Frame;
use crate::settings::writing::list;
use crate::settings::Setting;

const ENTRIES: usize = 3;

/// The small list, and the same with an extra byte.
fn small_lists() -> [Vec<u8>; 2] {
    let small = list(&[Setting::Margin(0.25), Setting::Feed(0.1), Setting::Count(42)]);
    let mut longer = small.clone();
    longer.push(1);
    [small, longer]
}

pub fn every_cut(_: &mut Prng) -> Vec<Frame> {
    let cuts = |list: Vec<u8>| (0..=list.len()).map(move |cut| list[..cut].to_vec());
    small_lists().into_iter().flat_map(cuts).flat_map(|list| ask::every(&list, ENTRIES)).collect()
}

pub fn every_byte(prng: &mut Prng) -> Vec<Frame> {
    small_lists().iter().flat_map(|list| every_change(prng, list)).collect()
}

/// All 255 other values at each place.
fn every_change(prng: &mut Prng, list: &[u8]) -> Vec<Frame> {
    let changes = (0..list.len()).flat_map(|place| (0..=255).map(move |value| (place, value)));
    let others = changes.filter(|(place, value)| list[*place] != *value);
    others.map(|(place, value)| ask::one(prng, with_byte(list, place, value), ENTRIES)).collect()
}

/// A place past the end changes nothing.
fn with_byte(list: &[u8], place: usize, value: u8) -> Vec<u8> {
    let mut changed = list.to_vec();
    changed.iter_mut().skip(place).take(1).for_each(|byte| *byte = value);
    changed
}

/// Two faults at once, as a rule, so that the order of the refusals shows.
pub fn two_changes(prng: &mut Prng) -> Vec<Frame> {
    let lists = small_lists();
    let mut drawn = || {
        let which = prng.below(2);
        let once = fault(prng, &lists[which]);
        let twice = fault(prng, &once);
        ask::one(prng, twice, ENTRIES)
    };
    (0..6_000).map(|_| drawn()).collect()
}

fn fault(prng: &mut Prng, list: &[u8]) -> Vec<u8> {
    // The count, the codes, and the bytes that decide what a float is.
    let place = prng.pick(&[0, 1, 10, 19, 7, 8, 16, 17]);
    match prng.below(8) {
        0..=1 => list[..prng.below(list.len() + 1)].to_vec(),
        2..=3 => with_bad_float(prng, list),
        4 => with_byte(list, prng.below(list.len()), prng.byte()),
        5 => with_byte(list, place, prng.byte()),
        _ => with_byte(list, place, prng.pick(&[0, 1, 2, 3, 4, 64, 65, 127, 128, 240, 255])),
    }
}

fn with_bad_float(prng: &mut Prng, list: &[u8]) -> Vec<u8> {
    let no_number = f64::from_bits(0x7ff8_0000_0000_0000);
    let value = prng.pick(&[0.0, -0.0, -1.0, f64::INFINITY, f64::NEG_INFINITY, no_number]);
    let after_code = prng.pick(&[2, 11]);
    let mut changed = list.to_vec();
    let bytes = changed.iter_mut().skip(after_code);
    bytes.zip(value.to_le_bytes()).for_each(|(byte, new)| *byte = new);
    changed
}
