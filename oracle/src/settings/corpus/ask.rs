//! How the settings of a list are asked to be written back: numbers and rooms
//! on both sides of every limit.

use crate::prng::Prng;
use crate::settings::frame::{Frame, MOST_BYTES};
use crate::settings::place_of_entry;

/// Numbers around that of the entries, and around the limits.
fn numbers(entries: usize) -> [usize; 8] {
    [entries, entries.saturating_sub(1), entries + 1, 0, 1, 64, 65, 255]
}

/// Rooms around what so many settings take.
fn rooms(number: usize) -> [usize; 5] {
    let exact = place_of_entry(number).min(MOST_BYTES - 1);
    [exact, exact - 1, exact + 1, 0, MOST_BYTES]
}

/// The list with every such number and room.
pub fn every(list: &[u8], entries: usize) -> Vec<Frame> {
    let pairs = numbers(entries).into_iter().flat_map(|number| rooms(number).map(|room| (number, room)));
    pairs.map(|(number, room)| Frame { list: list.to_vec(), number: number as u8, room }).collect()
}

/// The list with one of them, or any. Many ask for all the entries with just
/// the room, which shows the settings once more.
pub fn one(prng: &mut Prng, list: Vec<u8>, entries: usize) -> Frame {
    let number = match prng.below(8) {
        0..=4 => entries.min(64),
        5..=6 => prng.pick(&numbers(entries)),
        _ => prng.below(67),
    };
    let room = match prng.below(8) {
        0..=4 => rooms(number)[0],
        5..=6 => prng.pick(&rooms(number)),
        _ => prng.below(MOST_BYTES + 1),
    };
    Frame { list, number: number as u8, room }
}
