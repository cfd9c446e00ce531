//! A recording of the smaller kind written from numbers, by requests 2026-01,
//! 2026-02 and 2026-04: handovers and answers worked out by hand.

use oracle::example::long_example;
use oracle::format::{encode, Fault};
use oracle::handovers::{arises_in_writing, split};
use oracle::subject::{Oracle, Subject};
use oracle::writing::{write, Handover, Written};

/// The answer with so much room. A refusal must touch no byte, an acceptance
/// none past what it wrote, whatever stood there; and what is written must be
/// accepted, as the same numbers.
fn answer(defaults: &[u32], links: &[u32], events: &[u32], room: usize) -> (u8, usize) {
    let [zeros, ones] = [0x00, 0xFF].map(|filled| {
        let mut buffer = vec![filled; room];
        let written = write(&handover(defaults, links, events), &mut buffer);
        let touched = if written.refusal == 0 { written.place } else { 0 };
        assert!(buffer[touched..].iter().all(|byte| *byte == filled), "{:?} touched {:?}", written, buffer);
        (written, buffer[..touched].to_vec())
    });
    assert_eq!(zeros, ones);
    let (Written { refusal, place }, bytes) = zeros;
    if refusal == 0 {
        let read = Oracle.replay(&bytes, &[0; 10_000]);
        assert_eq!((read.refusal, read.place), (0, place));
        assert_eq!(split(&bytes), handover(defaults, links, events));
    }
    (refusal, place)
}

fn handover(defaults: &[u32], links: &[u32], events: &[u32]) -> Handover {
    Handover { kind: 253, tasks: defaults.to_vec(), links: links.to_vec(), events: events.to_vec() }
}

/// With room for the longest recording.
fn verdict(defaults: &[u32], links: &[u32], events: &[u32]) -> (u8, usize) {
    answer(defaults, links, events, 60_293)
}

/// What is written, which must fill the buffer.
fn bytes_of<const LENGTH: usize>(defaults: &[u32], links: &[u32], events: &[u32]) -> [u8; LENGTH] {
    let mut buffer = [0xA5; LENGTH];
    assert_eq!(write(&handover(defaults, links, events), &mut buffer), Written { refusal: 0, place: LENGTH });
    buffer
}

/// Two tasks and a direct link from the first to the second: the link stands
/// at 11, E at 18, the first event at 20.
const TWO: [u32; 2] = [9, 8];
const LINK: [u32; 4] = [0, 1, 0, 0];
const AT_LINK: usize = 11;
const AT_E: usize = 18;
const AT_EVENTS: usize = 20;

fn with_links(links: &[u32]) -> (u8, usize) {
    verdict(&TWO, links, &[])
}

fn with_events(events: &[u32]) -> (u8, usize) {
    verdict(&TWO, &LINK, events)
}

const EXAMPLE_LINKS: [u32; 12] = [1, 0, 1, 90, 1, 2, 0, 0, 1, 3, 0, 0];

#[rustfmt::skip]
const EXAMPLE: [u32; 81] = [
    1, 15, 2, 0, 3, 0, 4, 0, 0, 2, 1, 4, 1, 101, 2, 2, 3, 1, 4, 2, 0, 2, 3,
    1, 3, 2, 0, 3, 0, 4, 0, 0, 2, 1, 4, 1, 102,
    1, 4, 2, 2, 3, 1, 4, 2, 0,
    1, 3, 2, 0, 3, 0, 4, 0, 0, 2, 1, 4, 1, 103, 3, 2, 4, 3, 0,
    1, 9, 2, 0, 3, 0, 4, 0, 0, 2, 3, 3, 2, 4, 3, 0,
];

#[test]
fn the_long_example_is_written_as_its_file() {
    let file = std::fs::read(concat!(env!("CARGO_MANIFEST_DIR"), "/../recordings/figure-17.rec")).unwrap();
    let written = bytes_of::<161>(&[0, 100, 0, 0], &EXAMPLE_LINKS, &EXAMPLE);
    assert_eq!(file, written);
    assert_eq!(file, encode(&long_example()));
    assert_eq!(split(&file), Handover::of(&long_example()));
    assert_eq!(split(&file).events, EXAMPLE);
}

#[test]
fn every_number_stands_with_its_lowest_byte_first() {
    assert_eq!(bytes_of(&[0], &[], &[]), [253, 1, 0, 0, 0, 0, 0, 0, 0]);
    assert_eq!(bytes_of(&[0x0403_0201], &[], &[]), [253, 1, 1, 2, 3, 4, 0, 0, 0]);
    let events = [1, 3, 2, 0, 4, 0, 0x4433_2211, 2, 1, 3, 0];
    let two = bytes_of(&TWO, &[0, 1, 1, 0x0807_0605], &events);
    #[rustfmt::skip]
    let expected = [
        253, 2, 9, 0, 0, 0, 8, 0, 0, 0,
        1, 0, 1, 1, 5, 6, 7, 8,
        5, 0, 1, 3, 0, 2, 0, 4, 0, 0x11, 0x22, 0x33, 0x44, 2, 1, 3, 0,
    ];
    assert_eq!(two, expected);
    let sixteen = bytes_of::<72>(&[7; 16], &[], &[1, 0x8002]);
    assert_eq!(sixteen[66..], [0, 1, 0, 1, 0x02, 0x80]);
    let mut many = [0; 613];
    let reads: Vec<u32> = [1, 3, 2, 0, 4, 0, 1, 2, 1].into_iter().chain([3, 0].repeat(0x102 - 4)).collect();
    let written = write(&handover(&TWO, &LINK, &reads), &mut many);
    assert_eq!((written.refusal, many[AT_E], many[AT_E + 1]), (0, 0x02, 0x01));
}

#[test]
fn exact_longer_one_short_and_empty_buffers() {
    let with_room = |room: usize| answer(&[0, 100, 0, 0], &EXAMPLE_LINKS, &EXAMPLE, room);
    for room in [161, 162, 300] {
        assert_eq!(with_room(room), (0, 161));
    }
    for room in 0..161 {
        assert_eq!(with_room(room), (18, 161));
    }
    assert_eq!(answer(&[5], &[], &[], 9), (0, 9));
    assert_eq!(answer(&[5], &[], &[], 8), (18, 9));
    assert_eq!(answer(&[5], &[], &[], 0), (18, 9));
}

#[test]
fn a_buffer_too_short_is_tried_last() {
    let refused: [(&[u32], &[u32], &[u32], (u8, usize)); 9] = [
        (&[], &[], &[], (2, 1)),
        (&TWO, &[0, 2, 0, 0], &[], (4, AT_LINK)),
        (&TWO, &[0, 1, 0, 1], &[], (20, AT_LINK)),
        (&TWO, &[0, 1], &[], (1, AT_LINK)),
        (&TWO, &LINK, &[1, 0], (12, AT_EVENTS)),
        (&TWO, &LINK, &[1, 1, 9], (11, AT_EVENTS + 3)),
        (&TWO, &LINK, &[1, 1, 4, 0], (1, AT_EVENTS + 3)),
        (&TWO, &LINK, &[1, 1, 1, 1], (13, AT_EVENTS + 3)),
        (&TWO, &LINK, &[1, 3, 2, 1], (16, AT_EVENTS + 3)),
    ];
    for (defaults, links, events, fault) in refused {
        for room in [0, 1, 8, AT_EVENTS, AT_EVENTS + 3, 100] {
            assert_eq!(answer(defaults, links, events, room), fault);
        }
    }
}

#[test]
fn empty_slices() {
    assert_eq!(answer(&[], &[], &[], 0), (2, 1));
    assert_eq!(answer(&[1], &[], &[], 0), (18, 9));
    assert_eq!(verdict(&[], &LINK, &[1, 1]), (2, 1));
    assert_eq!(verdict(&[1], &[], &[]), (0, 9));
    assert_eq!(with_links(&[]), (0, 13));
    assert_eq!(with_events(&[]), (0, AT_EVENTS));
}

#[test]
fn one_to_sixteen_tasks() {
    for tasks in 1..=16 {
        assert_eq!(verdict(&vec![3; tasks], &[], &[]), (0, 5 + 4 * tasks));
    }
    for tasks in [0, 17, 18, 255, 256, 257, 272, 65_537] {
        assert_eq!(verdict(&vec![3; tasks], &[], &[]), (2, 1));
        // Before a fault in the links and in the events.
        assert_eq!(verdict(&vec![3; tasks], &[0; 132], &[0]), (2, 1));
    }
}

/// Four writers with eight readers behind each.
fn many_links(count: u32) -> Vec<u32> {
    (0..count).flat_map(|number| [number / 8, 8 + number % 8, 0, 0]).collect()
}

#[test]
fn up_to_thirty_two_links_and_one_that_was_begun_counts() {
    let with = |links: &[u32]| verdict(&[0; 16], links, &[]);
    assert_eq!(with(&many_links(32)), (0, 66 + 1 + 224 + 2));
    assert_eq!(with(&many_links(33)), (3, 66));
    for more in 1..=3 {
        assert_eq!(with(&[many_links(31), vec![3; more]].concat()), (1, 66 + 1 + 217));
        assert_eq!(with(&[many_links(32), vec![3; more]].concat()), (3, 66));
    }
    // The count before the links, however they are.
    assert_eq!(with(&[99; 132]), (3, 66));
    assert_eq!(with(&[99; 128]), (4, 67));
    assert_eq!(with(&[0; 4 * 256]), (3, 66));
    assert_eq!(with(&[0; 4 * 257]), (3, 66));
}

#[test]
fn a_link_that_was_begun_is_1_at_its_place_after_the_links_before_it() {
    assert_eq!(with_links(&[0]), (1, AT_LINK));
    assert_eq!(with_links(&[0, 1]), (1, AT_LINK));
    // A start value that isn't there is none, not 0.
    assert_eq!(with_links(&[0, 1, 0]), (1, AT_LINK));
    assert_eq!(with_links(&[0, 1, 1]), (1, AT_LINK));
    assert_eq!(with_links(&[0, 1, 0, 0, 1]), (1, AT_LINK + 7));
    assert_eq!(with_links(&[0, 1, 0, 0, 9, 9, 9]), (1, AT_LINK + 7));
    assert_eq!(with_links(&[0, 1, 2, 0, 9, 9, 9]), (6, AT_LINK));
    // Before the events, and before their count.
    assert_eq!(verdict(&TWO, &[0, 1, 0, 0, 1], &[0]), (1, AT_LINK + 7));
    assert_eq!(verdict(&TWO, &[0], &[1; 30_000]), (1, AT_LINK));
}

#[test]
fn the_rules_of_links_in_rising_order() {
    assert_eq!(with_links(&LINK), (0, AT_EVENTS));
    assert_eq!(with_links(&[2, 2, 2, 1]), (4, AT_LINK));
    assert_eq!(with_links(&[0, 2, 0, 1]), (4, AT_LINK));
    assert_eq!(with_links(&[2, 0, 1, 1]), (4, AT_LINK));
    assert_eq!(with_links(&[1, 1, 0, 1]), (5, AT_LINK));
    assert_eq!(with_links(&[1, 1, 1, 1]), (0, AT_EVENTS));
    assert_eq!(with_links(&[1, 1, 2, 1]), (6, AT_LINK));
    assert_eq!(with_links(&[1, 0, 2, 1]), (6, AT_LINK));
    assert_eq!(with_links(&[1, 0, 0, 1]), (7, AT_LINK));
    assert_eq!(with_links(&[1, 0, 1, 1]), (0, AT_EVENTS));
    assert_eq!(with_links(&[1, 0, 1, 1, 1, 0, 0, 0]), (7, AT_LINK + 7));
    assert_eq!(with_links(&[0, 1, 1, 1, 0, 1, 0, 1]), (8, AT_LINK + 7));
    assert_eq!(with_links(&[0, 1, 1, 1, 1, 0, 1, 1]), (0, AT_EVENTS + 7));
    let behind = |count: u32, last: u32| {
        (1..=count).flat_map(|reader| [0, reader, 0, if reader == count { last } else { 0 }]).collect::<Vec<u32>>()
    };
    assert_eq!(verdict(&[0; 10], &behind(8, 0), &[]), (0, 42 + 1 + 56 + 2));
    assert_eq!(verdict(&[0; 10], &behind(8, 1), &[]), (20, 42 + 1 + 49));
    assert_eq!(verdict(&[0; 10], &behind(9, 0), &[]), (9, 42 + 1 + 56));
    assert_eq!(verdict(&[0; 10], &behind(9, 1), &[]), (9, 42 + 1 + 56));
    // The first link at fault decides.
    assert_eq!(with_links(&[0, 1, 2, 0, 2, 2, 0, 0]), (6, AT_LINK));
    assert_eq!(with_links(&[0, 1, 0, 1, 2, 2, 0, 0]), (20, AT_LINK));
}

#[test]
fn the_rules_of_events_in_rising_order() {
    assert_eq!(with_events(&[1, 0]), (12, AT_EVENTS));
    assert_eq!(with_events(&[1, 4]), (12, AT_EVENTS));
    assert_eq!(with_events(&[1, 5]), (12, AT_EVENTS));
    assert_eq!(with_events(&[2, 2]), (12, AT_EVENTS));
    assert_eq!(with_events(&[3, 1]), (12, AT_EVENTS));
    assert_eq!(with_events(&[4, 2, 0]), (12, AT_EVENTS));
    assert_eq!(with_events(&[1, 1, 1, 3]), (13, AT_EVENTS + 3));
    // Not in the table, and active: 12 is tried first.
    assert_eq!(with_events(&[1, 1, 1, 5]), (12, AT_EVENTS + 3));
    assert_eq!(with_events(&[2, 0]), (14, AT_EVENTS));
    assert_eq!(with_events(&[1, 1, 2, 0, 2, 0]), (14, AT_EVENTS + 5));
    assert_eq!(with_events(&[3, 0]), (15, AT_EVENTS));
    assert_eq!(with_events(&[4, 0, 7]), (15, AT_EVENTS));
    assert_eq!(with_events(&[1, 2, 3, 0]), (15, AT_EVENTS + 3));
    assert_eq!(with_events(&[1, 3, 2, 1]), (16, AT_EVENTS + 3));
    assert_eq!(with_events(&[1, 2, 2, 1, 1, 1, 3, 0]), (16, AT_EVENTS + 8));
    assert_eq!(with_events(&[1, 2, 2, 1, 1, 1, 4, 1, 5]), (16, AT_EVENTS + 8));
    // Neither waiting nor the most urgent: 14 and 15 are tried first.
    assert_eq!(with_events(&[1, 1, 2, 1]), (14, AT_EVENTS + 3));
    assert_eq!(with_events(&[1, 1, 3, 0]), (15, AT_EVENTS + 3));
    assert_eq!(with_events(&[1, 3, 2, 0, 4, 0, 5, 2, 1, 3, 0, 4, 1, 6]), (0, AT_EVENTS + 3 + 2 + 6 + 2 + 2 + 6));
}

#[test]
fn an_event_without_all_its_numbers_is_1_at_its_place() {
    for begun in [&[1][..], &[2], &[3], &[4], &[4, 0], &[4, 9]] {
        assert_eq!(with_events(begun), (1, AT_EVENTS));
        assert_eq!(with_events(&[&[1, 1, 2, 0], begun].concat()), (1, AT_EVENTS + 5));
        // After the events before it.
        assert_eq!(with_events(&[&[1, 4], begun].concat()), (12, AT_EVENTS));
        assert_eq!(with_events(&[&[7], begun].concat()), (11, AT_EVENTS));
    }
}

#[test]
fn an_unknown_kind_is_11_and_nothing_after_it_counts() {
    for kind in [0, 5, 6, 255, 256, 257, 258, 259, 260, 65_537, u32::MAX] {
        assert_eq!(with_events(&[kind]), (11, AT_EVENTS));
        assert_eq!(with_events(&[kind, 1]), (11, AT_EVENTS));
        assert_eq!(with_events(&[kind, 1, 1, 4]), (11, AT_EVENTS));
        assert_eq!(with_events(&[1, 1, kind]), (11, AT_EVENTS + 3));
        assert_eq!(with_events(&[1, 0, kind]), (12, AT_EVENTS));
        assert_eq!(with_events(&[&[kind][..], &[1, 1].repeat(10_001)].concat()), (11, AT_EVENTS));
    }
}

/// So many events that are possible, of two bytes but for the first four.
fn events(count: usize) -> Vec<u32> {
    let first = [1, 3, 2, 0, 4, 0, 1, 2, 1];
    first.into_iter().chain([3, 0].repeat(count - 4)).collect()
}

#[test]
fn ten_thousand_events_and_what_counts_as_one_more() {
    let end = AT_EVENTS + 3 + 2 + 6 + 2 + 2 * 9_996;
    assert_eq!(with_events(&events(10_000)), (0, end));
    assert_eq!(answer(&TWO, &LINK, &events(10_000), end), (0, end));
    assert_eq!(answer(&TWO, &LINK, &events(10_000), end - 1), (18, end));
    assert_eq!(with_events(&events(10_001)), (10, AT_E));
    assert_eq!(with_events(&events(65_536)), (10, AT_E));
    assert_eq!(with_events(&events(65_537)), (10, AT_E));
    for (last, refusal) in [(&[0][..], 11), (&[5, 1, 1], 11), (&[1], 1), (&[4, 1], 1)] {
        assert_eq!(with_events(&[&events(9_999), last].concat()), (refusal, end - 2));
        assert_eq!(with_events(&[&events(10_000), last].concat()), (10, AT_E));
    }
    // The count before the events, and after the links.
    assert_eq!(with_events(&[1, 0].repeat(10_001)), (10, AT_E));
    assert_eq!(with_events(&[1, 0].repeat(10_000)), (12, AT_EVENTS));
    assert_eq!(verdict(&TWO, &[0, 1, 2, 0], &events(10_001)), (6, AT_LINK));
}

#[test]
fn no_number_is_cut_to_its_field() {
    for number in [255, 256, 257, 511, 65_535, 65_536, 65_537, 1 << 20, 1 << 31, u32::MAX] {
        assert_eq!(with_links(&[number, 1, 0, 0]), (4, AT_LINK));
        assert_eq!(with_links(&[0, number, 0, 0]), (4, AT_LINK));
        assert_eq!(with_links(&[number, number, number, number]), (4, AT_LINK));
        assert_eq!(with_links(&[0, 1, number, 0]), (6, AT_LINK));
        assert_eq!(with_links(&[1, 1, number, 0]), (6, AT_LINK));
        assert_eq!(with_links(&[0, 1, 0, number]), (20, AT_LINK));
        assert_eq!(with_events(&[number]), (11, AT_EVENTS));
        assert_eq!(with_events(&[1, number]), (12, AT_EVENTS));
        assert_eq!(with_events(&[2, number]), (12, AT_EVENTS));
        assert_eq!(with_events(&[3, number]), (12, AT_EVENTS));
        assert_eq!(with_events(&[4, number, 1]), (12, AT_EVENTS));
        // Defaults, start values and values have room for every number.
        assert_eq!(verdict(&[number], &[], &[]), (0, 9));
        assert_eq!(with_links(&[0, 1, 1, number]), (0, AT_EVENTS));
        assert_eq!(with_events(&[1, 1, 2, 0, 4, 0, number]), (0, AT_EVENTS + 11));
    }
    let sixteen = |set: u32| verdict(&[0; 16], &[], &[1, set]);
    assert_eq!(sixteen(255), (0, 72));
    assert_eq!(sixteen(65_535), (0, 72));
    for set in [65_536, 65_537, 1 | 1 << 20, 1 << 31, u32::MAX] {
        assert_eq!(sixteen(set), (12, 69));
    }
}

#[test]
fn a_recording_is_taken_apart_as_far_as_it_goes() {
    let bytes = bytes_of::<31>(&TWO, &LINK, &[1, 1, 2, 0, 4, 0, 77]);
    let whole = handover(&TWO, &LINK, &[1, 1, 2, 0, 4, 0, 77]);
    assert_eq!(split(&bytes), whole);
    assert_eq!(split(&[&bytes[..], &[1, 1, 0]].concat()), whole);
    // Of no kind, as of this one.
    assert_eq!(split(&[&[252], &bytes[1..]].concat()), Handover { kind: 252, ..whole });
    // Inside the value, the task, the set, E, a start value, a link, and a default.
    assert_eq!(split(&bytes[..30]), handover(&TWO, &LINK, &[1, 1, 2, 0, 4, 0]));
    assert_eq!(split(&bytes[..26]), handover(&TWO, &LINK, &[1, 1, 2, 0, 4]));
    assert_eq!(split(&bytes[..22]), handover(&TWO, &LINK, &[1]));
    assert_eq!(split(&bytes[..19]), handover(&TWO, &LINK, &[]));
    assert_eq!(split(&bytes[..17]), handover(&TWO, &LINK[..3], &[]));
    assert_eq!(split(&bytes[..13]), handover(&TWO, &LINK[..2], &[]));
    assert_eq!(split(&bytes[..9]), handover(&TWO[..1], &[], &[]));
    assert_eq!(split(&bytes[..1]), handover(&[], &[], &[]));
    assert_eq!(split(&[]), Handover { kind: 0, ..handover(&[], &[], &[]) });
}

#[test]
fn which_refusals_the_numbers_of_a_recording_earn_too() {
    let bytes = bytes_of::<31>(&TWO, &LINK, &[1, 1, 2, 0, 4, 0, 77]);
    let alike = |bytes: &[u8]| {
        let read = Oracle.replay(bytes, &[0; 10]);
        let numbers = split(bytes);
        let Written { refusal, place } = write(&numbers, &mut [0; 100]);
        let fault = Fault { refusal: read.refusal, place: read.place };
        assert_eq!(arises_in_writing(&numbers, fault), (refusal, place) == (read.refusal, read.place), "{:?}", bytes);
        (refusal, place) == (read.refusal, read.place)
    };
    // Cut inside the events' numbers or a link; not between records, nor inside a default or E.
    let same = [12, 13, 14, 15, 16, 17, 21, 22, 24, 26, 27, 28, 29, 30, 31];
    for cut in 0..=bytes.len() {
        assert_eq!(alike(&bytes[..cut]), same.contains(&cut), "cut at {}", cut);
    }
    let changed = |place: usize, byte: u8| {
        let mut changed = bytes;
        changed[place] = byte;
        alike(&changed)
    };
    assert!(changed(0, 252));
    assert!(changed(1, 0));
    assert!(!changed(1, 17));
    assert!(!changed(10, 33));
    assert!(changed(11, 9));
    assert!(changed(14, 1));
    assert!(changed(17, 1));
    assert!(changed(20, 9));
    assert!(changed(21, 9));
    assert!(!changed(18, 2));
    assert!(!changed(18, 4));
}
