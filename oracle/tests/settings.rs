//! The settings list, from document 02: lists, buffers and lines worked out by
//! hand.

use oracle::format::Fault;
use oracle::settings::lines::{printout, written};
use oracle::settings::reading::{migrate, Migration};
use oracle::settings::writing::write_back;
use oracle::settings::{Setting, Settings, MOST_SETTINGS, NOTHING};

/// A margin of 0.25, a feed rate of 0.1, and a count of 42.
const MARGIN: [u8; 9] = [1, 0, 0, 0, 0, 0, 0, 0xd0, 0x3f];
const FEED: [u8; 9] = [2, 0x9a, 0x99, 0x99, 0x99, 0x99, 0x99, 0xb9, 0x3f];
const COUNT: [u8; 9] = [3, 42, 0, 0, 0, 0, 0, 0, 0];
/// The largest finite margin, and a margin of 0.
const LARGEST: [u8; 9] = [1, 255, 255, 255, 255, 255, 255, 0xef, 0x7f];
const ZERO: [u8; 9] = [1, 0, 0, 0, 0, 0, 0, 0, 0];

/// 2 to the 43rd.
const LARGE: f64 = 8_796_093_022_208.0;

const INFINITY: u64 = 0x7ff0_0000_0000_0000;
const NEGATIVE: u64 = 0x8000_0000_0000_0000;

fn join(parts: &[&[u8]]) -> Vec<u8> {
    parts.concat()
}

/// The refusal and its place, after checking what each has to come with.
fn verdict(bytes: &[u8]) -> (u8, usize) {
    let migration = migrate(bytes);
    if migration.refusal == 0 {
        assert_eq!((migration.place, migration.number), (bytes.len(), usize::from(bytes[0])));
    } else {
        assert_eq!((migration.number, migration.settings), (0, [NOTHING; MOST_SETTINGS]));
    }
    assert!(migration.settings[migration.number..].iter().all(|setting| *setting == Setting::Count(0)));
    (migration.refusal, migration.place)
}

fn lines_of(bytes: &[u8]) -> String {
    printout(&migrate(bytes))
}

fn entry(code: u8, bits: u64) -> Vec<u8> {
    join(&[&[code], &bits.to_le_bytes()])
}

// ---------------------------------------------------------------- reading

#[test]
fn a_list_of_all_three_codes_is_read() {
    let migration = migrate(&join(&[&[3], &MARGIN, &FEED, &COUNT]));
    assert_eq!((migration.refusal, migration.place, migration.number), (0, 28, 3));
    assert_eq!(migration.settings[..3], [Setting::Margin(0.25), Setting::Feed(0.1), Setting::Count(42)]);
    assert_eq!(migration.settings[3..], [Setting::Count(0); 61]);
    assert_eq!(migration.settings[1].bits(), 0x3fb9_9999_9999_999a);
}

#[test]
fn the_count_is_missing_0_or_above_64() {
    assert_eq!(verdict(&[]), (1, 0));
    assert_eq!(verdict(&[0]), (2, 0));
    assert_eq!(verdict(&[1]), (1, 1));
    assert_eq!(verdict(&[64]), (1, 1));
    assert_eq!(verdict(&[65]), (2, 0));
    assert_eq!(verdict(&[128]), (2, 0));
    assert_eq!(verdict(&[255]), (2, 0));
}

#[test]
fn one_entry_and_64_pass_and_65_do_not() {
    assert_eq!(verdict(&join(&[&[1], &COUNT])), (0, 10));
    for number in [63, 64] {
        assert_eq!(verdict(&join(&[&[number], &COUNT.repeat(number.into())])), (0, 1 + 9 * usize::from(number)));
    }
    assert_eq!(verdict(&join(&[&[65], &COUNT.repeat(65)])), (2, 0));
    assert_eq!(verdict(&join(&[&[64], &COUNT.repeat(65)])), (17, 577));
    assert_eq!(verdict(&join(&[&[64], &COUNT.repeat(63)])), (1, 568));
    assert_eq!(verdict(&join(&[&[63], &COUNT.repeat(64)])), (17, 568));
}

#[test]
fn a_list_is_cut_at_any_place() {
    let bytes = join(&[&[3], &MARGIN, &FEED, &COUNT]);
    let places = [(1, 1), (9, 1), (10, 10), (18, 10), (19, 19), (20, 19), (27, 19)];
    for (cut, place) in places {
        assert_eq!(verdict(&bytes[..cut]), (1, place), "cut to {}", cut);
    }
    assert_eq!(verdict(&bytes), (0, 28));
}

#[test]
fn codes_1_to_3_are_known() {
    for code in 1..=3 {
        assert_eq!(verdict(&join(&[&[1, code], &MARGIN[1..]])), (0, 10));
    }
    for code in [0, 4, 5, 127, 128, 129, 255] {
        assert_eq!(verdict(&join(&[&[1, code], &MARGIN[1..]])), (11, 1));
        assert_eq!(verdict(&join(&[&[2], &COUNT, &[code], &MARGIN[1..]])), (11, 10));
    }
}

#[test]
fn extra_bytes_are_17_at_the_first() {
    assert_eq!(verdict(&join(&[&[1], &MARGIN, &[0]])), (17, 10));
    assert_eq!(verdict(&join(&[&[1], &MARGIN, &FEED])), (17, 10));
    assert_eq!(verdict(&join(&[&[2], &MARGIN, &FEED])), (0, 19));
    assert_eq!(verdict(&join(&[&[64], &COUNT.repeat(64), &[9; 23]])), (17, 577));
}

/// Whether these bits pass, which must be the same for a margin and a feed
/// rate; a count passes with any.
fn passes(bits: u64) -> bool {
    let both = [1, 2].map(|code| verdict(&join(&[&[1], &entry(code, bits)])));
    assert_eq!(both[0], both[1]);
    assert_eq!(verdict(&join(&[&[1], &entry(3, bits)])), (0, 10));
    assert!(both[0] == (0, 10) || both[0] == (26, 1));
    both[0].0 == 0
}

#[test]
fn finite_floats_above_zero_pass_and_keep_their_bits() {
    let smallest_normal = 0x0010_0000_0000_0000;
    for bits in [1, 2, smallest_normal - 1, smallest_normal, 0x3ff0_0000_0000_0000, INFINITY - 2, INFINITY - 1] {
        assert!(passes(bits), "{:016x}", bits);
        let settings = migrate(&join(&[&[2], &entry(1, bits), &entry(2, bits)])).settings;
        assert_eq!([settings[0].bits(), settings[1].bits()], [bits, bits]);
        assert_eq!([settings[0].code(), settings[1].code()], [1, 2]);
    }
}

#[test]
fn zeros_infinities_negatives_and_what_is_no_number_are_bad() {
    for bits in [0, 0x7ff0_0000_0000_0000] {
        assert!(!passes(bits) && !passes(bits | NEGATIVE), "{:016x}", bits);
    }
    for bits in [1, 0x000f_ffff_ffff_ffff, 0x3ff0_0000_0000_0000, 0x7fef_ffff_ffff_ffff] {
        assert!(passes(bits) && !passes(bits | NEGATIVE), "{:016x}", bits);
    }
    let signalling = [0x7ff0_0000_0000_0001, 0x7ff4_0000_0000_0000, 0x7ff7_ffff_ffff_ffff];
    let quiet = [0x7ff8_0000_0000_0000, 0x7ff8_0000_0000_0001, 0x7ff8_dead_beef_cafe, 0x7fff_ffff_ffff_ffff];
    for bits in signalling.into_iter().chain(quiet) {
        assert!(!passes(bits) && !passes(bits | NEGATIVE), "{:016x}", bits);
    }
}

// ------------------------------------------------- several faults at once

#[test]
fn a_wrong_count_comes_before_all_that_follows() {
    assert_eq!(verdict(&[0, 9]), (2, 0));
    assert_eq!(verdict(&join(&[&[0], &COUNT])), (2, 0));
    assert_eq!(verdict(&join(&[&[65], &ZERO, &[4]])), (2, 0));
}

#[test]
fn an_unknown_code_comes_before_a_missing_rest() {
    assert_eq!(verdict(&[1, 4]), (11, 1));
    assert_eq!(verdict(&[1, 0, 1, 2, 3]), (11, 1));
    assert_eq!(verdict(&[1, 3]), (1, 1));
    assert_eq!(verdict(&join(&[&[2], &MARGIN, &[4]])), (11, 10));
    assert_eq!(verdict(&join(&[&[2], &MARGIN])), (1, 10));
    // No bad float behind an unknown code, nor extra bytes.
    assert_eq!(verdict(&join(&[&[1, 4], &ZERO[1..], &[7]])), (11, 1));
}

#[test]
fn a_missing_rest_comes_before_a_bad_float() {
    for length in 1..9 {
        assert_eq!(verdict(&join(&[&[1], &ZERO[..length]])), (1, 1));
        assert_eq!(verdict(&join(&[&[2], &COUNT, &ZERO[..length]])), (1, 10));
    }
    assert_eq!(verdict(&join(&[&[1], &ZERO])), (26, 1));
    assert_eq!(verdict(&join(&[&[2], &COUNT, &ZERO])), (26, 10));
}

#[test]
fn the_first_fault_from_the_left_decides() {
    // A bad float before the end, before an unknown code, and before another.
    assert_eq!(verdict(&join(&[&[2], &ZERO])), (26, 1));
    assert_eq!(verdict(&join(&[&[2], &ZERO, &[4]])), (26, 1));
    assert_eq!(verdict(&join(&[&[3], &COUNT, &ZERO, &ZERO])), (26, 10));
    assert_eq!(verdict(&join(&[&[1], &ZERO, &[7]])), (26, 1));
    // An unknown code before a bad float, and before the end.
    assert_eq!(verdict(&join(&[&[2, 9], &[0; 8], &ZERO])), (11, 1));
    assert_eq!(verdict(&join(&[&[3, 9], &[0; 8]])), (11, 1));
    // What would be a fault in an entry is only extra bytes after the last.
    assert_eq!(verdict(&join(&[&[1], &COUNT, &ZERO])), (17, 10));
    assert_eq!(verdict(&join(&[&[1], &COUNT, &[4]])), (17, 10));
}

// ---------------------------------------------------------- writing back

fn settings(first: &[Setting]) -> Settings {
    Migration::accepted(first, 0).settings
}

/// The answer, and the buffer that was all 170 before.
fn wrote(settings: &Settings, number: usize, room: usize) -> (Result<usize, Fault>, Vec<u8>) {
    let mut buffer = vec![170; room];
    let answer = write_back(settings, number, &mut buffer);
    (answer, buffer)
}

fn refused(refusal: u8, place: usize) -> Result<usize, Fault> {
    Err(Fault { refusal, place })
}

#[test]
fn writing_back_gives_the_old_list() {
    let bytes = join(&[&[4], &MARGIN, &FEED, &LARGEST, &COUNT]);
    let read = migrate(&bytes).settings;
    assert_eq!(wrote(&read, 4, 37), (Ok(37), bytes.clone()));
    assert_eq!(wrote(&read, 4, 40), (Ok(37), join(&[&bytes, &[170; 3]])));
    // Fewer of them, and more: those past the number are counts of 0.
    assert_eq!(wrote(&read, 1, 10), (Ok(10), join(&[&[1], &MARGIN])));
    assert_eq!(wrote(&read, 5, 46), (Ok(46), join(&[&[5], &bytes[1..], &[3, 0, 0, 0, 0, 0, 0, 0, 0]])));
}

#[test]
fn one_setting_and_64_are_written_and_none_and_65_are_not() {
    let full = settings(&[Setting::Count(0x0807_0605_0403_0201); 64]);
    let one = [3, 1, 2, 3, 4, 5, 6, 7, 8];
    assert_eq!(wrote(&full, 1, 10), (Ok(10), join(&[&[1], &one])));
    assert_eq!(wrote(&full, 64, 577), (Ok(577), join(&[&[64], &one.repeat(64)])));
    for number in [0, 65, 66, 255, 256 + 1, usize::MAX] {
        assert_eq!(wrote(&full, number, 600), (refused(2, 0), vec![170; 600]));
    }
}

#[test]
fn a_bad_float_is_26_at_the_place_of_its_entry() {
    for bits in [0, NEGATIVE, INFINITY, INFINITY | NEGATIVE, INFINITY + 1, INFINITY | NEGATIVE | 1, NEGATIVE | 1] {
        let value = f64::from_bits(bits);
        assert_eq!(wrote(&settings(&[Setting::Margin(value)]), 1, 10), (refused(26, 1), vec![170; 10]));
        let third = settings(&[Setting::Count(0), Setting::Margin(0.25), Setting::Feed(value), Setting::Margin(value)]);
        assert_eq!(wrote(&third, 4, 37), (refused(26, 19), vec![170; 37]));
        // Past the number it is none of them.
        assert_eq!(wrote(&third, 2, 19).0, Ok(19));
        assert_eq!(wrote(&third, 3, 28).0, refused(26, 19));
    }
    assert_eq!(wrote(&settings(&[Setting::Margin(f64::from_bits(1))]), 1, 10).0, Ok(10));
    assert_eq!(wrote(&settings(&[Setting::Feed(f64::MAX)]), 1, 10).0, Ok(10));
}

#[test]
fn a_short_buffer_is_18_at_the_length_and_stays_as_it_was() {
    let three = settings(&[Setting::Margin(0.25), Setting::Feed(0.1), Setting::Count(42)]);
    for room in [0, 1, 9, 10, 27] {
        assert_eq!(wrote(&three, 3, room), (refused(18, 28), vec![170; room]));
    }
    assert_eq!(wrote(&three, 3, 28).0, Ok(28));
    assert_eq!(wrote(&three, 64, 576), (refused(18, 577), vec![170; 576]));
    assert_eq!(wrote(&three, 64, 577).0, Ok(577));
}

#[test]
fn writing_back_refuses_2_then_26_then_18() {
    let bad = settings(&[Setting::Count(1), Setting::Feed(-1.0)]);
    assert_eq!(wrote(&bad, 0, 0), (refused(2, 0), vec![]));
    assert_eq!(wrote(&bad, 65, 0).0, refused(2, 0));
    assert_eq!(wrote(&bad, 65, 600).0, refused(2, 0));
    assert_eq!(wrote(&bad, 2, 18), (refused(26, 10), vec![170; 18]));
    assert_eq!(wrote(&bad, 1, 9).0, refused(18, 10));
}

// ------------------------------------------------------------------ lines

#[test]
fn a_list_of_each_kind_prints_its_five_lines() {
    let lines = "setting 1 margin 0.250000 mm, bits 3fd0000000000000\n\
                 setting 2 feed 0.100000 mm/s (cut off: less than 0.000001 mm/s), bits 3fb999999999999a\n\
                 setting 3 margin at least 8796093022208 mm (cut off: what is above), bits 7fefffffffffffff\n\
                 setting 4 count 42, bits 000000000000002a\n\
                 migrated 4\n";
    assert_eq!(lines_of(&join(&[&[4], &MARGIN, &FEED, &LARGEST, &COUNT])), lines);
}

#[test]
fn a_refusal_prints_its_number_and_place_alone() {
    assert_eq!(lines_of(&[]), "refused 1 at 0\n");
    assert_eq!(lines_of(&join(&[&[3], &MARGIN, &FEED, &ZERO])), "refused 26 at 19\n");
    assert_eq!(lines_of(&join(&[&[64], &COUNT.repeat(64), &[0]])), "refused 17 at 577\n");
    assert_eq!(written(&Ok(28)), "written 28\n");
    assert_eq!(written(&refused(18, 577)), "refused 18 at 577\n");
}

/// What the line of a margin says between its name and its bits.
fn shown(value: f64) -> String {
    let line = lines_of(&join(&[&[1], &entry(1, value.to_bits())]));
    let bits = format!(" mm, bits {:016x}\nmigrated 1\n", value.to_bits());
    let bracket = " mm (cut off: less than 0.000001 mm)";
    let shown = line.strip_prefix("setting 1 margin ").unwrap().replace(bracket, ".. mm");
    shown.strip_suffix(&bits).unwrap().to_string()
}

#[test]
fn a_number_has_six_decimals_and_what_is_cut_off_is_said() {
    let neighbour = |value: f64, step: i64| f64::from_bits((value.to_bits() as i64 + step) as u64);
    for (value, expected) in [
        (f64::from_bits(1), "0.000000.."),
        (5e-7, "0.000000.."),
        (1e-6, "0.000000.."), // the nearest float is 9.99..e-7
        (neighbour(1e-6, 1), "0.000001.."),
        (0.007_812_5, "0.007812.."),
        (0.015_625, "0.015625"),
        (neighbour(0.015_625, -1), "0.015624.."),
        (neighbour(0.015_625, 1), "0.015625.."),
        (neighbour(1.0, -1), "0.999999.."),
        (1.0, "1.000000"),
        (neighbour(1.0, 1), "1.000000.."),
        (1.999_999_9, "1.999999.."),
        (123_456.5, "123456.500000"),
        (LARGE - 1.0 / 64.0, "8796093022207.984375"),
        (LARGE - 1.0 / 128.0, "8796093022207.992187.."),
        (neighbour(LARGE, -1), "8796093022207.999023.."),
    ] {
        assert_eq!(shown(value), expected);
    }
}

#[test]
fn from_2_to_the_43rd_on_the_size_alone_is_told() {
    for bits in [LARGE, LARGE + 1.0 / 512.0, 1e15, 1e300, f64::MAX].map(f64::to_bits) {
        let lines = format!(
            "setting 1 margin at least 8796093022208 mm (cut off: what is above), bits {:x}\n\
             setting 2 feed at least 8796093022208 mm/s (cut off: what is above), bits {:x}\n\
             migrated 2\n",
            bits, bits
        );
        assert_eq!(lines_of(&join(&[&[2], &entry(1, bits), &entry(2, bits)])), lines);
    }
}

#[test]
fn counts_are_whole_numbers_of_64_bits() {
    for (count, line) in [
        (0, "setting 1 count 0, bits 0000000000000000\n"),
        (10, "setting 1 count 10, bits 000000000000000a\n"),
        (1 << 63, "setting 1 count 9223372036854775808, bits 8000000000000000\n"),
        (u64::MAX, "setting 1 count 18446744073709551615, bits ffffffffffffffff\n"),
    ] {
        assert_eq!(lines_of(&join(&[&[1], &entry(3, count)])), format!("{}migrated 1\n", line));
    }
}
