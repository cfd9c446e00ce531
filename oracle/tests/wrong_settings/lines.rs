//! A printer of lists with a flaw: the right lines, bent.

use super::flaws::Flaw;
use oracle::settings::lines::printout;
use oracle::settings::reading::{migrate, Migration};
use oracle::settings::{Setting, ENTRY_BYTES};

const LARGE: f64 = 8_796_093_022_208.0;

pub fn wrong_printout(flaw: Flaw, list: &[u8], migration: &Migration) -> String {
    let right = printout(migration);
    if flaw == Flaw::LinesBeforeRefusal && migration.refusal == 26 {
        return lines_before(list, migration.place) + &right;
    }
    let lines = right.split_inclusive('\n').enumerate();
    lines.map(|(entry, line)| wrong_line(flaw, line, migration.settings.get(entry))).collect()
}

/// As of a printer that prints each setting as soon as it is read.
fn lines_before(list: &[u8], place: usize) -> String {
    let mut early = list[..place].to_vec();
    early[0] = (place / ENTRY_BYTES) as u8;
    let lines = printout(&migrate(&early));
    lines.split_inclusive('\n').filter(|line| line.starts_with("setting ")).collect()
}

fn wrong_line(flaw: Flaw, line: &str, setting: Option<&Setting>) -> String {
    match setting.filter(|_| line.starts_with("setting ")) {
        None => line.to_string(),
        Some(setting) if flaw == Flaw::BitsWithoutZeros => {
            line.replace(&format!("{:016x}", setting.bits()), &format!("{:x}", setting.bits()))
        }
        Some(_) if flaw == Flaw::NumberedFromZero => renumbered(line),
        Some(Setting::Margin(value)) => wrong_number(flaw, line, *value, "mm"),
        Some(Setting::Feed(value)) => wrong_number(flaw, line, *value, "mm/s"),
        Some(Setting::Count(count)) => wrong_count(flaw, line, *count),
    }
}

fn renumbered(line: &str) -> String {
    let mut words: Vec<String> = line.split(' ').map(str::to_string).collect();
    words[1] = words[1].parse::<usize>().map_or(String::new(), |number| (number - 1).to_string());
    words.join(" ")
}

fn wrong_count(flaw: Flaw, line: &str, count: u64) -> String {
    let shown = match flaw {
        Flaw::CountSigned => (count as i64).to_string(),
        Flaw::CountOf32Bits => (count as u32).to_string(),
        _ => count.to_string(),
    };
    line.replace(&format!("count {},", count), &format!("count {},", shown))
}

fn wrong_number(flaw: Flaw, line: &str, value: f64, unit: &str) -> String {
    let bracket = format!(" (cut off: less than 0.000001 {})", unit);
    let whole = line.replace(&bracket, "");
    let told_as = |told: &str| with_number(line, &format!("{} {}", told, unit));
    let large = "at least 8796093022208";
    match flaw {
        Flaw::Rounded if value < LARGE => line.replacen(decimals(line), &format!("{:.6}", value), 1),
        Flaw::MultipliedAsFloat if value < LARGE => multiplied(line, value),
        Flaw::CutNotSaid => whole,
        Flaw::TinyNotSaid if value.is_subnormal() => whole,
        Flaw::CutAlwaysSaid if value < LARGE => whole.replace(", bits", &(bracket + ", bits")),
        Flaw::LargeBeforeItsLimit if value.to_bits() == LARGE.to_bits() - 1 => {
            told_as(large).replace(", bits", " (cut off: what is above), bits")
        }
        Flaw::LargeAfterItsLimit if value == LARGE => told_as("8796093022208.000000"),
        Flaw::BracketWithoutSeconds => line.replace("mm/s)", "mm)"),
        _ => line.to_string(),
    }
}

/// The line with other words for its number, from its name to its bits.
fn with_number(line: &str, told: &str) -> String {
    let name: Vec<&str> = line.split(' ').take(3).collect();
    let bits = line.rsplit(", ").next().unwrap_or_default();
    format!("{} {}, {}", name.join(" "), told, bits)
}

/// The number in a line that shows one with decimals.
fn decimals(line: &str) -> &str {
    line.split(' ').nth(3).unwrap_or_default()
}

/// As of a printer that counts the millionths by a product of floats, which is
/// rounded.
fn multiplied(line: &str, value: f64) -> String {
    let millionths = (value * 1e6) as u64;
    let shown = format!("{}.{:06}", millionths / 1_000_000, millionths % 1_000_000);
    line.replacen(decimals(line), &shown, 1)
}
