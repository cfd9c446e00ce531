//! The judge of settings itself: its frames, what they reach, its comparison,
//! and the numbers for a person worked out a second way.

use oracle::settings::answer::Answer;
use oracle::settings::compare::{compare, Comparison};
use oracle::settings::corpus::{frames, SEED};
use oracle::settings::frame::{decode, encode, Frame};
use oracle::settings::reach::Reached;
use oracle::settings::Setting;

/// A list of one count of 42, written back into 12 bytes.
fn small_frame() -> Frame {
    Frame { list: vec![1, 3, 42, 0, 0, 0, 0, 0, 0, 0], number: 1, room: 12 }
}

fn outputs(frames: &[Frame]) -> Vec<u8> {
    frames.iter().flat_map(|frame| Answer::to(frame).output()).collect()
}

#[test]
fn a_frame_has_five_bytes_before_its_list() {
    let long = Frame { list: vec![0; 600], number: 255, room: 577 };
    assert_eq!(small_frame().bytes(), [10, 0, 1, 12, 0, 1, 3, 42, 0, 0, 0, 0, 0, 0, 0]);
    assert_eq!(long.bytes()[..6], [0x58, 2, 255, 0x41, 2, 0]);
    let empty = Frame { list: vec![], number: 0, room: 0 };
    let all = [small_frame(), empty, long, small_frame()];
    assert_eq!(decode(&encode(&all)), Ok(all.to_vec()));
}

#[test]
fn a_file_that_ends_inside_a_frame_is_none() {
    let bytes = encode(&[small_frame(), small_frame()]);
    assert_eq!(decode(&bytes[..15]), Ok(vec![small_frame()]));
    for cut in 16..30 {
        assert_eq!(decode(&bytes[..cut]), Err(15));
    }
    // Lists and rooms have at most 600 bytes.
    assert_eq!(decode(&[0, 0, 0, 0x59, 2]), Err(0));
    assert_eq!(decode(&[&[0x59, 2, 0, 0, 0][..], &[0; 601]].concat()), Err(0));
}

#[test]
fn an_answer_is_the_lines_and_then_the_buffer() {
    let expected = b"setting 1 count 42, bits 000000000000002a\nmigrated 1\nwritten 10\n\
                     \x01\x03\x2a\x00\x00\x00\x00\x00\x00\x00\xaa\xaa";
    assert_eq!(Answer::to(&small_frame()).output(), expected);
    // A refused list has 64 counts of 0 to write back.
    let refused = Frame { list: vec![1, 3, 42], ..small_frame() };
    let expected = b"refused 1 at 1\nwritten 10\n\x01\x03\x00\x00\x00\x00\x00\x00\x00\x00\xaa\xaa";
    assert_eq!(Answer::to(&refused).output(), expected);
    let short = Frame { room: 2, ..small_frame() };
    let expected = b"setting 1 count 42, bits 000000000000002a\nmigrated 1\nrefused 18 at 10\n\xaa\xaa";
    assert_eq!(Answer::to(&short).output(), expected);
}

#[test]
fn the_right_output_has_no_difference() {
    let frames = frames(SEED);
    assert!((20_000..=60_000).contains(&frames.len()), "{}", frames.len());
    let comparison = compare(&decode(&encode(&frames)).unwrap(), &outputs(&frames));
    assert_eq!((comparison.lists, comparison.differences, comparison.first), (frames.len(), 0, None));
}

fn three_frames_with(spoil: impl FnOnce(&mut Vec<u8>)) -> Comparison {
    let frames = [small_frame(), small_frame(), small_frame()];
    let mut output = outputs(&frames);
    assert_eq!(output.len(), 3 * 76);
    spoil(&mut output);
    compare(&frames, &output)
}

#[test]
fn a_difference_is_told_with_its_frame() {
    let expected = "first difference: list 2\n\
                    frame 0a00010c0001032a00000000000000\n\
                    a list of 10 bytes, then number 1 into 12 bytes\n\
                    expected:\n\
                    setting 1 count 42, bits 000000000000002a\nmigrated 1\nwritten 10\n\
                    buffer 01032a00000000000000aaaa\n\
                    found:\n\
                    setting 1 count 42, bits 000000000000002a\nmigrated 1\nwritten 10\n\
                    buffer 01032a00000000000000aaab\n";
    let last_of_second = 2 * 76 - 1;
    let comparison = three_frames_with(|output| output[last_of_second] += 1);
    assert_eq!((comparison.differences, comparison.first.as_deref()), (1, Some(expected)));
}

#[test]
fn an_answer_of_another_length_leaves_the_later_ones_as_they_are() {
    let differences = |spoil: fn(&mut Vec<u8>)| three_frames_with(spoil).differences;
    // A digit more in a line of the first; a whole line more in the second.
    assert_eq!(differences(|output| output.insert(17, b'0')), 1);
    assert_eq!(differences(|output| drop(output.splice(76..76, *b"setting 0\n"))), 1);
    // The output ends early, has nothing, or goes on.
    assert_eq!(differences(|output| output.truncate(3 * 76 - 1)), 1);
    assert_eq!(differences(|output| output.truncate(76)), 2);
    assert_eq!(differences(|output| output.clear()), 3);
    assert_eq!(differences(|output| output.push(170)), 1);
}

#[test]
fn of_an_endless_answer_the_front_is_told() {
    for endless in [vec![b'x'; 1_000_000], b"setting 1\n".repeat(100_000)] {
        let told = three_frames_with(|output| *output = endless).first.unwrap();
        assert!((10_000..11_000).contains(&told.len()), "{}", told.len());
    }
    let told = three_frames_with(|output| output.extend([0; 1_000_000])).first.unwrap();
    assert!(told.starts_with("first difference: 1000000 bytes after the last answer\nfound: 0000"));
    assert!(told.len() < 21_000, "{}", told.len());
}

#[test]
fn the_corpus_reaches_all_that_it_must() {
    let frames = frames(SEED);
    let reached = Reached::by(&frames);
    assert_eq!(reached.missing(), Vec::<String>::new());
    assert_eq!(reached.writings[26], 0);
}

#[test]
fn all_that_was_not_reached_is_named() {
    let missing = Reached::default().missing();
    // Acceptance and 5 refusals of lists, acceptance and 2 of writing back; then how far, and the three forms.
    assert_eq!(missing.len(), 6 + 3 + 2 + 3);
    for what in ["refusal 26 of settings lists", "refusal 18 of writing back", "1 numbers too large to show: 0"] {
        assert!(missing.iter().any(|named| named == what), "{}", what);
    }
}

#[test]
fn the_seed_decides_the_frames() {
    assert_eq!(frames(5), frames(5));
    assert_ne!(frames(5), frames(6));
}

/// The millionths in a number below 2 to the 43rd, and whether there is more:
/// by whole numbers, from how binary64 is made.
fn millionths(value: f64) -> (u128, bool) {
    let bits = value.to_bits();
    let exponent = (bits >> 52) as u32;
    let fraction = u128::from(bits & ((1 << 52) - 1));
    let whole = if exponent == 0 { fraction } else { fraction | 1 << 52 };
    let down = 1075 - exponent.max(1);
    let scaled = whole * 1_000_000;
    let shown = scaled.checked_shr(down).unwrap_or(0);
    (shown, shown.checked_shl(down) != Some(scaled))
}

/// What a line must say of a margin or a feed rate that is not too large.
fn told_by_whole_numbers(value: f64, unit: &str) -> String {
    let (shown, more) = millionths(value);
    let bracket = if more { format!(" (cut off: less than 0.000001 {})", unit) } else { String::new() };
    format!(" {}.{:06} {}{}, ", shown / 1_000_000, shown % 1_000_000, unit, bracket)
}

/// How many numbers an answer shows, after checking each.
fn numbers_checked(answer: &Answer) -> usize {
    let settings = &answer.migration.settings[..answer.migration.number];
    let mut checked = 0;
    for (setting, line) in settings.iter().zip(answer.text().lines()) {
        let told = match setting {
            Setting::Margin(value) if *value < 8_796_093_022_208.0 => told_by_whole_numbers(*value, "mm"),
            Setting::Feed(value) if *value < 8_796_093_022_208.0 => told_by_whole_numbers(*value, "mm/s"),
            _ => continue,
        };
        assert!(line.contains(&told), "{} in {}", told, line);
        checked += 1;
    }
    checked
}

#[test]
fn every_number_of_the_corpus_is_the_same_a_second_way() {
    let numbers: usize = frames(SEED).iter().map(|frame| numbers_checked(&Answer::to(frame))).sum();
    assert!(numbers > 50_000, "{}", numbers);
}
