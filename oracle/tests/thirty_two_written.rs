//! Request 2026-06, thirty-two tasks, in writing: the writer is told the kind, and
//! judges by it. Handovers and answers worked out by hand.

use oracle::example::{long_example, own_output_example};
use oracle::format::encode;
use oracle::handovers::split;
use oracle::subject::{Oracle, Subject};
use oracle::writing::{write, Handover, Written};

/// The least recording of the larger kind.
const LEAST: [u8; 9] = [0xFE, 1, 0, 0, 0, 0, 0, 0, 0];

/// Where the first event stands in a recording without links.
fn at_events(tasks: usize) -> usize {
    2 + 4 * tasks + 1 + 2
}

fn handover(kind: u32, tasks: usize, links: &[u32], events: &[u32]) -> Handover {
    Handover { kind, tasks: vec![0; tasks], links: links.to_vec(), events: events.to_vec() }
}

/// The answer, and what it leaves of a buffer with so much room.
fn written(handover: &Handover, room: usize) -> ((u8, usize), Vec<u8>) {
    let mut buffer = vec![0xA5; room];
    let Written { refusal, place } = write(handover, &mut buffer);
    ((refusal, place), buffer)
}

/// The verdict, with room for the longest recording. A refusal leaves it as it
/// was, and what is written is accepted.
fn verdict_on_writing(handover: &Handover) -> (u8, usize) {
    let (verdict, buffer) = written(handover, 60_805);
    let touched = if verdict.0 == 0 { verdict.1 } else { 0 };
    assert!(buffer[touched..].iter().all(|byte| *byte == 0xA5));
    if verdict.0 == 0 {
        let read = Oracle.replay(&buffer[..touched], &[0; 100]);
        assert_eq!((read.refusal, read.place), verdict);
    }
    verdict
}

#[test]
fn the_writer_writes_the_kind_that_it_is_told() {
    assert_eq!(written(&handover(254, 1, &[], &[]), 9), ((0, 9), LEAST.to_vec()));
    assert_eq!(written(&handover(253, 1, &[], &[]), 9), ((0, 9), [&[253], &LEAST[1..]].concat()));
    let events = [1, 1, 2, 0];
    let head = [1, 0, 0, 0, 0, 0, 2, 0, 1, 1, 0];
    assert_eq!(written(&handover(253, 1, &[], &events), 14).1, [&[253], &head[..], &[2, 0]].concat());
    assert_eq!(written(&handover(254, 1, &[], &events), 16).1, [&[254], &head[..], &[0, 0, 2, 0]].concat());
    // 18 is of the kind's own length.
    assert_eq!(written(&handover(253, 1, &[], &events), 13), ((18, 14), vec![0xA5; 13]));
    assert_eq!(written(&handover(254, 1, &[], &events), 15), ((18, 16), vec![0xA5; 15]));
    assert_eq!(written(&handover(254, 1, &[], &events), 14), ((18, 16), vec![0xA5; 14]));
}

#[test]
fn a_kind_that_is_none_is_2_at_0_before_all_else() {
    for kind in [0, 1, 252, 256, 256 + 253, 256 + 254, 256 + 255, 1 << 16 | 253, 1 << 31 | 254, u32::MAX] {
        for room in [0, 9, 100] {
            let untouched = ((2, 0), vec![0xA5; room]);
            assert_eq!(written(&handover(kind, 1, &[], &[]), room), untouched);
            assert_eq!(written(&handover(kind, 0, &[], &[]), room), untouched);
            assert_eq!(written(&handover(kind, 33, &[0; 400], &[9]), room), untouched);
        }
    }
}

#[test]
fn counts_are_judged_by_the_kind_that_is_written() {
    let tasks = |kind: u32, tasks: usize| verdict_on_writing(&handover(kind, tasks, &[], &[]));
    assert_eq!(tasks(253, 16), (0, 69));
    assert_eq!(tasks(254, 32), (0, 133));
    for count in [0, 17, 18, 31, 32, 33, 256 + 16, 65_536 + 16] {
        assert_eq!(tasks(253, count), (2, 1));
    }
    for count in [0, 33, 34, 48, 64, 256 + 32, 65_536 + 32] {
        assert_eq!(tasks(254, count), (2, 1));
    }
    let links = |kind: u32, tasks: u32, count: u32| {
        let numbers: Vec<u32> = (0..count).flat_map(|number| [number / 8, tasks - 8 + number % 8, 0, 0]).collect();
        verdict_on_writing(&handover(kind, tasks as usize, &numbers, &[]))
    };
    assert_eq!(links(253, 16, 32), (0, 66 + 1 + 7 * 32 + 2));
    assert_eq!(links(253, 16, 33), (3, 66));
    assert_eq!(links(253, 16, 96), (3, 66));
    assert_eq!(links(254, 16, 33), (0, 66 + 1 + 7 * 33 + 2));
    assert_eq!(links(254, 32, 96), (0, 130 + 1 + 7 * 96 + 2));
    assert_eq!(links(254, 32, 97), (3, 130));
    // One that was begun counts.
    assert_eq!(verdict_on_writing(&handover(254, 32, &[9; 4 * 96 + 1], &[])), (3, 130));
    assert_eq!(verdict_on_writing(&handover(253, 16, &[9; 4 * 32 + 1], &[])), (3, 66));
}

#[test]
fn no_bit_of_a_set_is_cut_off() {
    let set = |kind: u32, tasks: usize, set: u32| verdict_on_writing(&handover(kind, tasks, &[], &[1, set]));
    assert_eq!(set(253, 16, 0xFFFF), (0, 72));
    for wide in [1 << 16, 1 << 16 | 1, 0x1_FFFF, 1 << 31 | 1, u32::MAX] {
        for tasks in [1, 8, 16] {
            assert_eq!(set(253, tasks, wide), (12, at_events(tasks)));
        }
        assert_eq!(set(254, 16, wide), (12, at_events(16)));
        assert_eq!(set(254, 32, wide), (0, at_events(32) + 5));
    }
    assert_eq!(set(254, 17, 0x1_FFFF), (0, at_events(17) + 5));
    assert_eq!(set(254, 17, 0x3_FFFF), (12, at_events(17)));
    assert_eq!(set(254, 31, u32::MAX), (12, at_events(31)));
    assert_eq!(set(254, 31, u32::MAX >> 1), (0, at_events(31) + 5));
    let bytes = written(&handover(254, 32, &[], &[1, 0x8421_0001]), 138).1;
    assert_eq!(bytes[131..], [1, 0, 1, 0x01, 0x00, 0x21, 0x84]);
}

/// What is taken apart of a recording is what makes the same bytes again.
#[test]
fn accepted_ones_of_either_kind_written_again_give_the_same_bytes() {
    let examples = [long_example(), own_output_example()].map(|recording| encode(&recording));
    assert_eq!([examples[0][0], examples[1][0]], [253, 254]);
    for bytes in examples.into_iter().chain([LEAST.to_vec()]) {
        assert_eq!(Oracle.replay(&bytes, &[0; 10]).refusal, 0);
        assert_eq!(written(&split(&bytes), bytes.len()), ((0, bytes.len()), bytes));
    }
    // Cut inside a set, there is a kind without one.
    let bytes = [&LEAST[..7], &[1, 0, 1, 1, 0, 0, 0]].concat();
    assert_eq!(split(&bytes), handover(254, 1, &[], &[1, 1]));
    for cut in 10..14 {
        assert_eq!(split(&bytes[..cut]), handover(254, 1, &[], &[1]));
    }
}

#[test]
fn the_writer_knows_task_31_and_link_95() {
    let links: Vec<u32> = (0..96).flat_map(|number| [number / 8, 24 + number % 8, 0, 0]).collect();
    let start = [1, 1 << 31, 2, 31];
    let then = |events: &[u32]| verdict_on_writing(&handover(254, 32, &links, &[&start[..], events].concat()));
    let place = 131 + 672 + 2 + 5 + 2;
    assert_eq!(then(&[3, 95, 4, 31, 9]), (0, place + 2 + 6));
    for number in [96, 97, 255, 256 + 95, 1 << 16 | 95, u32::MAX] {
        assert_eq!(then(&[3, number]), (12, place));
    }
    for number in [32, 33, 255, 256 + 31, 1 << 16 | 31, u32::MAX] {
        assert_eq!(then(&[4, number, 9]), (12, place));
        assert_eq!(then(&[2, number]), (12, place));
    }
    assert_eq!(then(&[3, 94]), (15, place));
}
