//! A dated recording written from numbers, by request 2026-07: handovers and
//! answers worked out by hand.

use oracle::example::deadline_example;
use oracle::format::encode;
use oracle::handovers::split;
use oracle::sizes::MOST_TICK;
use oracle::subject::{Oracle, Subject};
use oracle::writing::{write, Handover, Written};

fn handover(tasks: &[u32], links: &[u32], events: &[u32]) -> Handover {
    Handover { kind: 255, tasks: tasks.to_vec(), links: links.to_vec(), events: events.to_vec() }
}

/// With room for the longest recording. A refusal must touch no byte; what is
/// written must be accepted, as the same numbers.
fn verdict(tasks: &[u32], links: &[u32], events: &[u32]) -> (u8, usize) {
    let mut buffer = vec![0xA5; 60_870];
    let given = handover(tasks, links, events);
    let Written { refusal, place } = write(&given, &mut buffer);
    let touched = if refusal == 0 { place } else { 0 };
    assert!(buffer[touched..].iter().all(|byte| *byte == 0xA5));
    if refusal == 0 {
        let read = Oracle.replay(&buffer[..place], &[0; 10_000]);
        assert_eq!((read.refusal, read.place, read.state.policy), (0, place, 1));
        assert_eq!(split(&buffer[..place]), given);
    }
    (refusal, place)
}

/// Two tasks, the second one ahead, and a direct link to the first: L stands at
/// 14, the link at 15, E at 22, the first event at 24.
const TWO: [u32; 4] = [9, 5, 8, 2];
const LINK: [u32; 4] = [1, 0, 0, 0];
const AT_EVENTS: usize = 24;

fn with_events(events: &[u32]) -> (u8, usize) {
    verdict(&TWO, &LINK, events)
}

#[test]
fn the_bytes() {
    let mut buffer = [0xA5; 60];
    let events = [1, 0x0403_0201, 3, 2, 0x0403_0201, 1, 4, 0x0403_0202, 1, 0x0807_0605];
    let written = write(&handover(&[0x0403_0201, 0x0605, 8, 2], &LINK, &events), &mut buffer);
    assert_eq!(written, Written { refusal: 0, place: 49 });
    #[rustfmt::skip]
    let expected = [
        255, 2, 1, 2, 3, 4, 5, 6, 8, 0, 0, 0, 2, 0, 1, 1, 0, 0, 0, 0, 0, 0, 3, 0,
        1, 1, 2, 3, 4, 3, 0, 0, 0, 2, 1, 2, 3, 4, 1, 4, 2, 2, 3, 4, 1, 5, 6, 7, 8,
    ];
    assert_eq!(buffer[..49], expected);
    assert!(buffer[49..].iter().all(|byte| *byte == 0xA5));
}

#[test]
fn the_example_is_written_as_its_bytes() {
    let bytes = encode(&deadline_example());
    let mut buffer = vec![0; bytes.len()];
    assert_eq!(write(&Handover::of(&deadline_example()), &mut buffer), Written { refusal: 0, place: bytes.len() });
    assert_eq!(buffer, bytes);
    assert_eq!(split(&bytes), Handover::of(&deadline_example()));
    let mut short = vec![0xA5; bytes.len() - 1];
    assert_eq!(write(&Handover::of(&deadline_example()), &mut short), Written { refusal: 18, place: bytes.len() });
    assert!(short.iter().all(|byte| *byte == 0xA5));
}

#[test]
fn numbers_that_end_inside_a_task_are_1_at_it_and_it_counts() {
    assert_eq!(verdict(&[], &[], &[]), (2, 1));
    assert_eq!(verdict(&[7], &[], &[]), (1, 2));
    assert_eq!(verdict(&[7, 1, 7], &[], &[]), (1, 8));
    assert_eq!(verdict(&[7, 1, 7, 1], &[], &[]), (0, 17));
    // Before the links, and after the tasks before it.
    assert_eq!(verdict(&[7, 1, 7], &[0; 400], &[9]), (1, 8));
    assert_eq!(verdict(&[7, 0, 7], &[], &[]), (24, 2));
    assert_eq!(verdict(&[1; 63], &[], &[]), (1, 2 + 31 * 6));
    assert_eq!(verdict(&[1; 64], &[], &[]), (0, 2 + 32 * 6 + 3));
    assert_eq!(verdict(&[1; 65], &[], &[]), (2, 1));
    assert_eq!(verdict(&[0; 66], &[], &[]), (2, 1));
}

#[test]
fn a_relative_deadline_that_is_0_or_does_not_fit_is_24() {
    for deadline in [1, 255, 256, 65_535] {
        assert_eq!(verdict(&[7, 9, 7, deadline], &[], &[]), (0, 17));
    }
    for deadline in [0, 65_536, 65_537, 1 << 24, 1 << 31, u32::MAX] {
        assert_eq!(verdict(&[7, 9, 7, deadline], &[], &[]), (24, 8));
        assert_eq!(verdict(&[7, deadline, 7, deadline], &[], &[]), (24, 2));
        // Before the count of links, and after that of tasks.
        assert_eq!(verdict(&[7, 9, 7, deadline], &[0; 4 * 97], &[]), (24, 8));
        assert_eq!(verdict(&[deadline; 66], &[], &[]), (2, 1));
    }
    // A default may be any number.
    assert_eq!(verdict(&[u32::MAX, 9, 0, 9], &[], &[]), (0, 17));
}

#[test]
fn links_are_judged_by_relative_deadlines() {
    assert_eq!(verdict(&TWO, &[1, 0, 0, 0], &[]), (0, 24));
    assert_eq!(verdict(&TWO, &[0, 1, 0, 0], &[]), (7, 15));
    assert_eq!(verdict(&[9, 2, 8, 2], &[0, 1, 0, 0], &[]), (0, 24));
    assert_eq!(verdict(&[9, 2, 8, 2], &[1, 0, 0, 0], &[]), (7, 15));
}

#[test]
fn the_tick_is_the_second_number_of_an_event() {
    assert_eq!(with_events(&[1, 6, 3]), (0, AT_EVENTS + 9));
    assert_eq!(with_events(&[1, 6, 3, 2, 6, 1, 4, 8, 1, 50]), (0, AT_EVENTS + 9 + 6 + 10));
    for cut in 1..3 {
        assert_eq!(with_events(&[1, 6, 3][..cut]), (1, AT_EVENTS));
        assert_eq!(with_events(&[&[1, 6, 3], &[2, 6, 1][..cut]].concat()), (1, AT_EVENTS + 9));
    }
    for cut in 1..4 {
        let finish = [4, 6, 1, 50];
        assert_eq!(with_events(&[&[1, 6, 3, 2, 6, 1], &finish[..cut]].concat()), (1, AT_EVENTS + 15));
    }
    // An unknown kind is an event by itself, whatever comes after it.
    assert_eq!(with_events(&[1, 6, 3, 5]), (11, AT_EVENTS + 9));
    assert_eq!(with_events(&[1, 6, 3, 0, 6, 1, 1]), (11, AT_EVENTS + 9));
}

#[test]
fn ticks_are_judged_after_12_and_before_the_rest() {
    let then = |events: &[u32]| with_events(&[&[1, 6, 3, 2, 6, 1], events].concat()).0;
    assert_eq!(then(&[2, 5, 256]), 12);
    assert_eq!(then(&[2, MOST_TICK + 1, 2]), 12);
    assert_eq!(then(&[1, u32::MAX, 4]), 12);
    assert_eq!(then(&[3, 5, 1]), 12);
    assert_eq!(then(&[1, 5, 1]), 21);
    assert_eq!(then(&[1, MOST_TICK + 1, 1]), 22);
    assert_eq!(then(&[2, u32::MAX, 0]), 22);
    assert_eq!(then(&[1, 6, 1]), 13);
    assert_eq!(then(&[2, 6, 1]), 14);
    assert_eq!(then(&[4, 9, 0, 1]), 15);
    assert_eq!(then(&[2, 6, 0]), 16);
    assert_eq!(then(&[4, 8, 1, 1]), 0);
    assert_eq!(then(&[4, 9, 1, 1]), 23);
    assert_eq!(then(&[4, MOST_TICK, 1, 1]), 23);
    assert_eq!(then(&[4, MOST_TICK + 1, 1, 1]), 22);
}

#[test]
fn six_thousand_events_and_what_counts_as_one_more() {
    let events = |count: usize| -> Vec<u32> {
        let round: [&[u32]; 3] = [&[1, 4, 1], &[2, 4, 0], &[4, 4, 0, 7]];
        round.iter().cycle().take(count).flat_map(|event| event.iter().copied()).collect()
    };
    let at_e = 9;
    let with = |count: usize, more: &[u32]| verdict(&[7, 1], &[], &[&events(count)[..], more].concat());
    let length = 11 + 2_000 * 25;
    assert_eq!(with(6_000, &[]), (0, length));
    assert_eq!(with(6_001, &[]), (10, at_e));
    assert_eq!(with(6_000, &[9]), (10, at_e));
    assert_eq!(with(6_000, &[1]), (10, at_e));
    assert_eq!(with(5_999, &[9]), (11, length - 10));
    assert_eq!(with(5_999, &[4, 4, 0]), (1, length - 10));
}
