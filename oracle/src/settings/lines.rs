//! What is printed of a list, and of writing it back.

use super::reading::Migration;
use super::value::with_unit;
use super::Setting;
use crate::format::Fault;

/// A line for each setting and one for all of them, or the refusal alone.
pub fn printout(migration: &Migration) -> String {
    if migration.refusal != 0 {
        return refused(Fault { refusal: migration.refusal, place: migration.place });
    }
    let settings = migration.settings[..migration.number].iter().enumerate();
    let lines: String = settings.map(|(entry, setting)| line(entry + 1, setting)).collect();
    format!("{}migrated {}\n", lines, migration.number)
}

fn line(number: usize, setting: &Setting) -> String {
    let told = match setting {
        Setting::Margin(value) => format!("margin {}", with_unit(*value, "mm")),
        Setting::Feed(value) => format!("feed {}", with_unit(*value, "mm/s")),
        Setting::Count(count) => format!("count {}", count),
    };
    format!("setting {} {}, bits {:016x}\n", number, told, setting.bits())
}

/// The line of what writing back answered.
pub fn written(answer: &Result<usize, Fault>) -> String {
    match answer {
        Ok(length) => format!("written {}\n", length),
        Err(fault) => refused(*fault),
    }
}

fn refused(fault: Fault) -> String {
    format!("refused {} at {}\n", fault.refusal, fault.place)
}
