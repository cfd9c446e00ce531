//! Settings written back into a lent buffer, as the old list.

use super::{place_of_entry, Setting, Settings, MOST_SETTINGS};
use crate::format::Fault;

/// How many bytes were written, or the fault; a refusal touches nothing, and
/// an acceptance nothing past what it wrote.
pub fn write_back(settings: &Settings, number: usize, buffer: &mut [u8]) -> Result<usize, Fault> {
    if number == 0 || number > MOST_SETTINGS {
        return Err(Fault { refusal: 2, place: 0 });
    }
    let written = &settings[..number];
    if let Some(entry) = written.iter().position(Setting::bad_float) {
        return Err(Fault { refusal: 26, place: place_of_entry(entry) });
    }
    let length = place_of_entry(number);
    let room = buffer.get_mut(..length).ok_or(Fault { refusal: 18, place: length })?;
    room.copy_from_slice(&list(written));
    Ok(length)
}

/// The bytes of a list. Nothing is judged here: a number of settings that no
/// list has is cut to its byte, and a bad float is written as it is.
pub fn list(settings: &[Setting]) -> Vec<u8> {
    let mut bytes = vec![settings.len() as u8];
    bytes.extend(settings.iter().flat_map(Setting::entry));
    bytes
}
