//! Recordings that are cut, changed or lengthened, with a list too short, or
//! that never were one.

use std::rc::Rc;

use super::{Case, Origin};
use crate::example::example;
use crate::format::{encode, place_of_event_count, place_of_link_count, Recording};
use crate::prng::Prng;
use crate::random_table::{random_table, Size};
use crate::schedule::{random_events, random_recording, reads};
use crate::sizes::{RecordingKind, KINDS, MOST_EVENTS};

pub fn small_or_example(prng: &mut Prng, number: usize) -> Rc<Recording> {
    if let Some(example) = example(number) {
        return Rc::new(example);
    }
    let kind = prng.pick(&KINDS);
    let table = random_table(prng, kind, Size::Small);
    let count = prng.between(6, 14);
    let (events, _) = random_events(prng, &table, count);
    Rc::new(Recording { kind, table, events })
}

pub fn every_cut(recording: Rc<Recording>) -> Vec<Case> {
    let bytes = encode(&recording);
    let room = reads(&recording) + 1;
    (0..=bytes.len())
        .map(|cut| Case { bytes: bytes[..cut].to_vec(), room, origin: Origin::Cut(recording.clone()) })
        .collect()
}

pub fn every_byte(recording: &Recording) -> Vec<Case> {
    let bytes = encode(recording);
    let room = reads(recording) + 1;
    let changes = (0..bytes.len()).flat_map(|place| (0..=255).map(move |value| (place, value)));
    changes.map(|(place, value)| Case::other(with_byte(&bytes, place, value), room)).collect()
}

fn with_byte(bytes: &[u8], place: usize, value: u8) -> Vec<u8> {
    let mut changed = bytes.to_vec();
    changed[place] = value;
    changed
}

/// Large tables, and each 16th recording with as many events as there may be.
pub fn random_damage(prng: &mut Prng, number: usize) -> Case {
    let most = if number % 16 == 0 { MOST_EVENTS } else { 300 };
    let (recording, _) = random_recording(prng, Size::Limit, most);
    let mut bytes = encode(&recording);
    // Faults in the events show more than faults in the table, and a fault in
    // the table hides what follows: three in four fall after E.
    let events_at = place_of_event_count(recording.kind, &recording.table) + 2;
    for _ in 0..prng.between(1, 3) {
        let from = if prng.chance(75) { events_at.min(bytes.len()) } else { 0 };
        damage(prng, &mut bytes, from);
    }
    Case::other(bytes, reads(&recording) + 2)
}

fn damage(prng: &mut Prng, bytes: &mut Vec<u8>, from: usize) {
    if bytes.len() <= from {
        return;
    }
    let place = from + prng.below(bytes.len() - from);
    match prng.below(7) {
        0 => bytes[place] = prng.byte(),
        1 => bytes[place] ^= 1 << prng.below(8),
        2 => bytes[place] = bytes[place].wrapping_add(prng.pick(&[1, 255])),
        3 => bytes[place] = prng.below(6) as u8,
        4 => {
            bytes.remove(place);
        }
        5 => bytes.insert(place, prng.pick(&[0, 1, 2, 3, 4, 5, 255])),
        _ => bytes.truncate(place),
    }
}

pub fn extra_bytes(prng: &mut Prng, number: usize) -> Case {
    let (recording, _) = random_recording(prng, Size::Any, 40);
    let mut bytes = encode(&recording);
    // The first few go to the longest recording, one byte past it, and beyond.
    let totals = KINDS.map(RecordingKind::most_bytes).map(|most| [most, most + 1, 2 * most]).concat();
    let total = totals.get(number);
    let extra = total.map_or(prng.between(1, 8), |total| total - bytes.len());
    for _ in 0..extra {
        bytes.push(prng.pick(&[0, 1, 2, 3, 4, 5, 17, 255]));
    }
    Case::other(bytes, reads(&recording) + prng.below(3))
}

/// A count, or the first byte before them, changed or left out.
pub fn counts_changed(prng: &mut Prng) -> Case {
    let (recording, _) = random_recording(prng, Size::Any, 40);
    let mut bytes = encode(&recording);
    let links_at = place_of_link_count(recording.kind, recording.table.defaults.len());
    let events_at = place_of_event_count(recording.kind, &recording.table);
    match prng.below(4) {
        0 if prng.chance(30) => {
            bytes.remove(0);
        }
        0 => bytes[0] = near(prng, bytes[0], &[0, 1, 16, 125, 251, 252, 253, 254, 255]),
        1 => bytes[1] = near(prng, bytes[1], &[0, 1, 15, 16, 17, 31, 32, 33, 255]),
        2 => bytes[links_at] = near(prng, bytes[links_at], &[0, 1, 31, 32, 33, 95, 96, 97, 255]),
        _ => {
            let count = changed_event_count(prng, recording.events.len() as u16);
            bytes[events_at..events_at + 2].copy_from_slice(&count.to_le_bytes());
        }
    }
    Case::other(bytes, reads(&recording) + 2)
}

fn near(prng: &mut Prng, byte: u8, limits: &[u8]) -> u8 {
    match prng.below(3) {
        0 => byte.wrapping_add(1),
        1 => byte.wrapping_sub(1),
        _ => prng.pick(limits),
    }
}

fn changed_event_count(prng: &mut Prng, count: u16) -> u16 {
    match prng.below(5) {
        0 => count.wrapping_add(1),
        1 => count.wrapping_sub(1),
        2 => prng.pick(&[0, 5_999, 6_000, 6_001, 9_999, 10_000, 10_001, 10_240, 39_999, u16::MAX]),
        3 => prng.below(usize::from(count) + 1) as u16,
        _ => prng.byte() as u16 * 256 + count % 256,
    }
}

/// A list shorter than the reads, or just long enough.
pub fn short_list(prng: &mut Prng) -> Case {
    let (recording, _) = random_recording(prng, Size::Any, 80);
    let room = prng.below(reads(&recording) + 2);
    let mut bytes = encode(&recording);
    if prng.chance(20) {
        let from = place_of_event_count(recording.kind, &recording.table) + 2;
        damage(prng, &mut bytes, from);
    }
    Case::other(bytes, room)
}

/// Bytes that were never a recording, small values in the main; most of them
/// begin as one, since nothing is looked at after another first byte.
pub fn soup(prng: &mut Prng) -> Case {
    let length = prng.below(40);
    let small = prng.chance(70);
    let mut bytes: Vec<u8> = (0..length).map(|_| if small { prng.below(5) as u8 } else { prng.byte() }).collect();
    if prng.chance(90) {
        bytes.insert(0, prng.pick(&KINDS).first_byte);
    }
    Case::other(bytes, prng.below(4))
}
