//! A reader of lists with a flaw: the right answer to a bent list, or the
//! right answer bent.

use super::flaws::Flaw;
use oracle::format::Fault;
use oracle::settings::reading::{migrate, Migration};
use oracle::settings::{place_of_entry, Setting, ENTRY_BYTES};

pub fn wrong_migration(flaw: Flaw, list: &[u8]) -> Migration {
    match flaw {
        Flaw::UnknownCodeAsCount => migrate(&with_codes(list, |code| if (1..=3).contains(&code) { code } else { 3 })),
        Flaw::FeedAsMargin => migrate(&with_codes(list, |code| if code == 2 { 1 } else { code })),
        Flaw::BigEndian => migrate(&with_values(list, |_, bits| bits.swap_bytes())),
        Flaw::SubnormalRefused => refusing(list, f64::is_subnormal),
        Flaw::LargestRefused => refusing(list, |value| value == f64::MAX),
        Flaw::PlusZeroAccepted => accepting(list, |value| value.to_bits() == 0),
        Flaw::MinusZeroAccepted => accepting(list, |value| value.to_bits() == 1 << 63),
        Flaw::NegativeAccepted => accepting(list, |value| value < 0.0),
        Flaw::InfinityAccepted => accepting(list, |value| value == f64::INFINITY),
        Flaw::NoNumberAccepted => accepting(list, f64::is_nan),
        Flaw::CountCutToRoom => migrate(&with_count(list, |count| count.min(64))),
        _ => bent(flaw, list, migrate(list)),
    }
}

fn bent(flaw: Flaw, list: &[u8], right: Migration) -> Migration {
    let Migration { refusal, place, .. } = right;
    let refused = |refusal: u8, place: usize| Migration::refused(Fault { refusal, place });
    let end = list.first().map_or(0, |count| place_of_entry(usize::from(*count)));
    let counted = refusal != 2 && !list.is_empty();
    match flaw {
        Flaw::RestBeforeCode if refusal == 11 && list.len() < place + ENTRY_BYTES => refused(1, place),
        Flaw::FloatBeforeRest if refusal == 1 && matches!(list.get(place), Some(1 | 2)) && place > 0 => {
            refused(26, place)
        }
        Flaw::LengthFirst if counted && list.len() < end => refused(1, place_of_entry((list.len() - 1) / ENTRY_BYTES)),
        Flaw::ExtraFirst if counted && list.len() > end => refused(17, end),
        Flaw::ExtraNotRefused if refusal == 17 => migrate(&list[..place]),
        Flaw::CountOfNoneAccepted if list == [0] => Migration::accepted(&[], 1),
        Flaw::CountOf64Refused if list.first() == Some(&64) => refused(2, 0),
        Flaw::PlaceOfValue if refusal == 26 => refused(26, place + 1),
        Flaw::PlaceOfEnd if refusal == 1 => refused(1, list.len()),
        Flaw::PlacePastExtra if refusal == 17 => refused(17, place + 1),
        Flaw::PlaceCutToByte if refusal != 0 => refused(refusal, place % 256),
        Flaw::KeptOnRefusal if refusal != 0 => Migration { settings: before(list, place).settings, ..right },
        _ => right,
    }
}

/// What the whole entries before the place migrate to.
fn before(list: &[u8], place: usize) -> Migration {
    let entries = place.saturating_sub(1) / ENTRY_BYTES;
    let kept = list.get(..place_of_entry(entries)).unwrap_or_default();
    migrate(&with_count(kept, |_| entries as u8))
}

fn with_count(list: &[u8], count: impl Fn(u8) -> u8) -> Vec<u8> {
    let mut changed = list.to_vec();
    changed.iter_mut().take(1).for_each(|byte| *byte = count(*byte));
    changed
}

/// The list with other codes, those of extra bytes that look like entries too.
fn with_codes(list: &[u8], code: impl Fn(u8) -> u8) -> Vec<u8> {
    let mut changed = list.to_vec();
    changed.iter_mut().skip(1).step_by(ENTRY_BYTES).for_each(|byte| *byte = code(*byte));
    changed
}

/// The list with other values in its whole entries, by their code and bits.
fn with_values(list: &[u8], value: impl Fn(u8, u64) -> u64) -> Vec<u8> {
    let mut changed = list.to_vec();
    for entry in changed.get_mut(1..).unwrap_or_default().chunks_exact_mut(ENTRY_BYTES) {
        let bytes = value(entry[0], bits(entry)).to_le_bytes();
        entry[1..].copy_from_slice(&bytes);
    }
    changed
}

fn bits(entry: &[u8]) -> u64 {
    entry[1..].iter().rev().fold(0, |bits, byte| bits << 8 | u64::from(*byte))
}

/// The list with these bits in place of each float that is such a one.
fn with_such_floats(list: &[u8], such: impl Fn(f64) -> bool, other: u64) -> Vec<u8> {
    let float = |code: u8| code == 1 || code == 2;
    with_values(list, |code, bits| if float(code) && such(f64::from_bits(bits)) { other } else { bits })
}

/// The answer where such floats are refused besides.
fn refusing(list: &[u8], such: impl Fn(f64) -> bool) -> Migration {
    migrate(&with_such_floats(list, such, 0))
}

/// The answer where such floats are accepted too: another stands in for each
/// while the list is read.
fn accepting(list: &[u8], such: impl Fn(f64) -> bool) -> Migration {
    let read = migrate(&with_such_floats(list, such, 1));
    if read.refusal != 0 {
        return read;
    }
    let own = |entry: &[u8]| Setting::maker(entry[0]).map(|maker| maker(bits(entry)));
    let settings: Vec<Setting> = list[1..].chunks_exact(ENTRY_BYTES).filter_map(own).collect();
    Migration::accepted(&settings, read.place)
}
