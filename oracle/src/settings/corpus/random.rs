//! Lists of any settings, most of them right, and bytes that never were a list.

use super::{ask, floats};
use crate::prng::Prng;
use crate::settings::frame::Frame;
use crate::settings::writing::list;
use crate::settings::Setting;

/// Settings that a list may have.
pub fn good_settings(prng: &mut Prng, number: usize) -> Vec<Setting> {
    (0..number).map(|_| good_setting(prng)).collect()
}

fn good_setting(prng: &mut Prng) -> Setting {
    let setting = any_setting(prng);
    if setting.bad_float() {
        return Setting::Margin(1.5);
    }
    setting
}

fn any_setting(prng: &mut Prng) -> Setting {
    match prng.below(3) {
        0 => Setting::Margin(floats::any(prng)),
        1 => Setting::Feed(floats::any(prng)),
        _ => Setting::Count(any_count(prng)),
    }
}

/// Small, of any length, or at a limit.
fn any_count(prng: &mut Prng) -> u64 {
    let power_of_ten = 10u64.pow(prng.below(20) as u32);
    match prng.below(6) {
        0 => prng.below(100) as u64,
        1 => power_of_ten,
        2 => power_of_ten - 1,
        3 => 1 << prng.below(64),
        4 => u64::MAX >> prng.below(64),
        _ => prng.draw() >> prng.below(64),
    }
}

/// A few entries in the main, at times up to 64.
fn number_of_entries(prng: &mut Prng) -> usize {
    match prng.below(10) {
        0..=6 => prng.between(1, 5),
        7..=8 => prng.between(6, 20),
        _ => prng.between(21, 64),
    }
}

/// Lists that are right, but for one in three.
pub fn lists(prng: &mut Prng) -> Vec<Frame> {
    (0..8_000).map(|_| random_list(prng)).collect()
}

fn random_list(prng: &mut Prng) -> Frame {
    let entries = number_of_entries(prng);
    let mut bytes = list(&good_settings(prng, entries));
    if prng.chance(33) {
        damage(prng, &mut bytes);
    }
    ask::one(prng, bytes, entries)
}

fn damage(prng: &mut Prng, bytes: &mut Vec<u8>) {
    let place = prng.below(bytes.len());
    match prng.below(6) {
        0 => bytes[place] = prng.byte(),
        1 => bytes[place] ^= 1 << prng.below(8),
        2 => bytes[place] = prng.below(5) as u8,
        3 => {
            bytes.remove(place);
        }
        4 => bytes.insert(place, prng.pick(&[0, 1, 2, 3, 4, 255])),
        _ => bytes.truncate(place),
    }
}

/// Bytes that were never a list, small values in the main.
pub fn soup(prng: &mut Prng) -> Vec<Frame> {
    (0..2_000).map(|_| random_bytes(prng)).collect()
}

fn random_bytes(prng: &mut Prng) -> Frame {
    let length = prng.below(40);
    let small = prng.chance(70);
    let bytes = (0..length).map(|_| if small { prng.below(5) as u8 } else { prng.byte() }).collect();
    ask::one(prng, bytes, length / 9)
}
