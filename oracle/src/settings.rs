//! The settings list of an old station, written from document 02 (request
//! 2026-13) alone.
//!
//! `reading` migrates a list, `writing` gives the old list back, `lines` says
//! what is printed (a number for a person in `value`). `frame` is what the
//! judged program is asked, `answer` what it has to print, `corpus` makes the
//! questions, `reach` says what they reach, `compare` holds the program's
//! output to the answers, and `command` is the command line.

pub mod answer;
pub mod command;
pub mod compare;
pub mod corpus;
pub mod frame;
pub mod lines;
pub mod reach;
pub mod reading;
mod value;
pub mod writing;

pub const MOST_SETTINGS: usize = 64;

/// A code byte and 8 bytes.
pub const ENTRY_BYTES: usize = 9;

/// The place of an entry, counted from 0, after the count byte. It is also the
/// length of the list that has so many entries.
pub fn place_of_entry(entry: usize) -> usize {
    1 + ENTRY_BYTES * entry
}

/// Margins are in millimetres, feed rates in millimetres per second.
#[derive(Clone, Copy, Debug)]
pub enum Setting {
    Margin(f64),
    Feed(f64),
    Count(u64),
}

pub type Settings = [Setting; MOST_SETTINGS];

/// What stands past the number of settings.
pub const NOTHING: Setting = Setting::Count(0);

impl Setting {
    /// What makes a setting from the 64 bits after this code; none for an
    /// unknown code. The bits are not asked for yet, because an unknown code
    /// is refused before they are missed.
    pub fn maker(code: u8) -> Option<fn(u64) -> Setting> {
        match code {
            1 => Some(|bits| Setting::Margin(f64::from_bits(bits))),
            2 => Some(|bits| Setting::Feed(f64::from_bits(bits))),
            3 => Some(Setting::Count),
            _ => None,
        }
    }

    pub fn code(&self) -> u8 {
        match self {
            Setting::Margin(_) => 1,
            Setting::Feed(_) => 2,
            Setting::Count(_) => 3,
        }
    }

    pub fn bits(&self) -> u64 {
        match self {
            Setting::Margin(value) | Setting::Feed(value) => value.to_bits(),
            Setting::Count(count) => *count,
        }
    }

    /// A margin or a feed rate that is not finite or not above zero.
    pub fn bad_float(&self) -> bool {
        match self {
            Setting::Margin(value) | Setting::Feed(value) => !(value.is_finite() && *value > 0.0),
            Setting::Count(_) => false,
        }
    }

    /// The entry of a list.
    pub fn entry(&self) -> [u8; ENTRY_BYTES] {
        let mut entry = [self.code(); ENTRY_BYTES];
        entry[1..].copy_from_slice(&self.bits().to_le_bytes());
        entry
    }
}

/// Floats keep their bits, so bits are what makes two settings one: the zeros
/// are two, and what is not a number is itself.
impl PartialEq for Setting {
    fn eq(&self, other: &Setting) -> bool {
        (self.code(), self.bits()) == (other.code(), other.bits())
    }
}

impl Eq for Setting {}
