//! A list read from the left: the settings in it, or the first fault.

use super::{place_of_entry, Setting, Settings, ENTRY_BYTES, MOST_SETTINGS, NOTHING};
use crate::format::Fault;

#[derive(Clone, PartialEq, Eq, Debug)]
pub struct Migration {
    pub refusal: u8,
    /// On acceptance the length of the list.
    pub place: usize,
    /// 0 on a refusal.
    pub number: usize,
    /// Those past the number are counts of 0.
    pub settings: Settings,
}

impl Migration {
    pub fn accepted(list: &[Setting], place: usize) -> Migration {
        let mut settings = [NOTHING; MOST_SETTINGS];
        settings[..list.len()].copy_from_slice(list);
        Migration { refusal: 0, place, number: list.len(), settings }
    }

    pub fn refused(fault: Fault) -> Migration {
        Migration { refusal: fault.refusal, place: fault.place, number: 0, settings: [NOTHING; MOST_SETTINGS] }
    }
}

pub fn migrate(bytes: &[u8]) -> Migration {
    match settings_of(bytes) {
        Ok(list) => Migration::accepted(&list, bytes.len()),
        Err(fault) => Migration::refused(fault),
    }
}

fn settings_of(bytes: &[u8]) -> Result<Vec<Setting>, Fault> {
    let number = count(bytes)?;
    // Each entry is judged before the next is looked at, and the first fault ends it.
    let list =
        (0..number).map(|entry| setting(bytes, place_of_entry(entry))).collect::<Result<Vec<Setting>, Fault>>()?;
    let end = place_of_entry(number);
    if bytes.len() > end {
        return Err(Fault { refusal: 17, place: end });
    }
    Ok(list)
}

fn count(bytes: &[u8]) -> Result<usize, Fault> {
    let count = bytes.first().ok_or(Fault { refusal: 1, place: 0 })?;
    match usize::from(*count) {
        number @ 1..=MOST_SETTINGS => Ok(number),
        _ => Err(Fault { refusal: 2, place: 0 }),
    }
}

/// One entry: its code missing (1), its code unknown (11), its rest missing
/// (1), then a bad float (26), all at its first byte.
fn setting(bytes: &[u8], place: usize) -> Result<Setting, Fault> {
    let fault = |refusal: u8| Fault { refusal, place };
    let code = bytes.get(place).ok_or_else(|| fault(1))?;
    let maker = Setting::maker(*code).ok_or_else(|| fault(11))?;
    let rest = bytes.get(place + 1..place + ENTRY_BYTES).ok_or_else(|| fault(1))?;
    let bits = rest.iter().rev().fold(0, |bits: u64, byte| bits << 8 | u64::from(*byte));
    let setting = maker(bits);
    if setting.bad_float() {
        return Err(fault(26));
    }
    Ok(setting)
}
