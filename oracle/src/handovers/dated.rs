//! Handovers for a dated recording: ticks and relative deadlines on either side
//! of each line, and every short one.

use crate::sizes::{RecordingKind, MOST_TICK};
use crate::writing::{begun_events, Handover};

const DATED: RecordingKind = RecordingKind::DATED;

/// A handover that is for another kind but for its number, made a dated one: each
/// task has one relative deadline, and each event one tick. One that is for
/// another kind stays.
pub fn with_one_tick(handover: Handover) -> Handover {
    if handover.kind != DATED.number() {
        return handover;
    }
    let tasks = handover.tasks.iter().flat_map(|default| [*default, 7]).collect();
    let events = with_ticks(&handover.events, |_| 9);
    Handover { tasks, events, ..handover }
}

/// The events of another kind with a tick each, by their number. One of which
/// there is only the kind has none, nor has one of no kind, and nothing after that
/// counts.
pub fn with_ticks(numbers: &[u32], tick: impl Fn(usize) -> u32) -> Vec<u32> {
    let mut dated = Vec::new();
    let mut taken = 0;
    for (number, record) in begun_events(RecordingKind::THIRTY_TWO, numbers).into_iter().enumerate() {
        dated.push(record[0]);
        dated.extend(Some(tick(number)).filter(|_| record.len() > 1));
        dated.extend(&record[1..]);
        taken += record.len();
    }
    dated.extend(&numbers[taken..]);
    dated
}

/// Relative deadlines and ticks at their limits, and past them.
pub fn limits() -> Vec<Handover> {
    [deadlines(), ticks_after(), finishes(), ties(), orders()].concat()
}

fn two(deadlines: [u32; 2], links: &[u32], events: Vec<u32>) -> Handover {
    let tasks = vec![3, deadlines[0], 4, deadlines[1]];
    Handover { kind: DATED.number(), tasks, links: links.to_vec(), events }
}

/// Relative deadlines that are none, that two bytes can't hold, and that are none
/// or another cut to two; with a fault in the other task, in the links, and in
/// their count; and numbers that end inside a task, after such a fault and by
/// themselves.
fn deadlines() -> Vec<Handover> {
    let some = [0, 1, 255, 256, 65_535, 65_536, 65_537, 1 << 24, 1 << 31, u32::MAX];
    let mut handovers = Vec::new();
    for deadline in some {
        let many = vec![0; 4 * 97];
        for links in [&[][..], &[0, 1], &[0, 1, 1, 5], &[0, 0, 0, 0], &many] {
            handovers.push(two([deadline, 1], links, vec![1, 0, 3]));
            handovers.push(two([1, deadline], links, vec![1, 0, 3]));
            handovers.push(two([deadline, deadline], links, Vec::new()));
        }
        for tasks in [vec![deadline], vec![0, deadline, 7], vec![7, 1, 0, deadline, 7], vec![deadline; 65]] {
            handovers.push(Handover { tasks, ..two([1, 1], &[0, 1], vec![9]) });
        }
    }
    for numbers in [0, 1, 2, 3, 31, 32, 33, 62, 63, 64, 65, 66, 67, 128, 512, 513, 514] {
        handovers.push(Handover { tasks: vec![1; numbers], ..two([1, 1], &[], Vec::new()) });
    }
    handovers
}

/// An arrival at a tick, then another event at one near it or near a limit, for
/// each kind of event, most of which may not be at all.
fn ticks_after() -> Vec<Handover> {
    let firsts = [0, 1, 255, 256, 65_535, 1 << 24, MOST_TICK - 1, MOST_TICK, MOST_TICK + 1, u32::MAX];
    let mut handovers = Vec::new();
    for first in firsts {
        let near = [first.wrapping_sub(1), first, first.wrapping_add(1), first & 0xFF, first >> 8];
        for tick in near.into_iter().chain([0, MOST_TICK, MOST_TICK + 1, u32::MAX]) {
            let seconds: [&[u32]; 10] =
                [&[1, 2], &[1, 1], &[1, 4], &[1, 0], &[2, 0], &[2, 1], &[2, 256], &[3, 0], &[4, 0, 5], &[4, 2, 5]];
            for second in seconds {
                let events = [&[1, first, 1], &with_ticks(second, |_| tick)[..]].concat();
                handovers.push(two([9, 9], &[1, 0, 1, 8], events));
            }
        }
    }
    handovers
}

/// A job that arrives at a tick and finishes before its deadline, at it, and
/// after it; by itself, where it does not run, beside another job, where it is not
/// the one that may run, and where another one of the task came before it.
fn finishes() -> Vec<Handover> {
    let mut handovers = Vec::new();
    for first in [0, 3, MOST_TICK - 65_536, MOST_TICK - 65_535, MOST_TICK - 1, MOST_TICK] {
        for deadline in [1, 2, 256, 65_535] {
            for tick in [first, first + deadline - 1, first + deadline, first + deadline + 1, u32::MAX] {
                let finish = [4, tick, 0, 6];
                let with = |before: &[u32]| two([deadline, deadline], &[], [before, &finish].concat());
                handovers.push(with(&[1, first, 1, 2, first, 0]));
                handovers.push(with(&[1, first, 1]));
                handovers.push(with(&[1, first, 1, 2, first, 0, 1, first, 2]));
                handovers.push(with(&[1, 0, 2, 1, first, 1, 2, first, 1]));
                handovers.push(with(&[1, 0, 1, 2, 0, 0, 4, 0, 0, 8, 1, first, 1, 2, first, 0]));
                let interrupted = vec![1, first, 2, 2, first, 1, 1, first, 1, 4, tick, 1, 6];
                handovers.push(two([deadline, deadline], &[], interrupted));
            }
        }
    }
    handovers
}

/// Two jobs that are due before each other, or at one time, and a start of
/// either.
fn ties() -> Vec<Handover> {
    let mut handovers = Vec::new();
    for deadlines in [[1, 1], [1, 2], [2, 1], [3, 1], [1, 3]] {
        for (first, second) in [(1, 1), (1, 2), (1, 3), (1, 4)] {
            for order in [[1, 2], [2, 1]] {
                for task in 0..2 {
                    let events = vec![1, first, order[0], 1, second, order[1], 2, second, task, 2, second, 1 - task];
                    handovers.push(two(deadlines, &[], events));
                }
            }
        }
    }
    handovers
}

/// Links between two tasks, which are allowed or not by the order that their
/// relative deadlines give; and a writer with eight readers behind it and one
/// ahead of it, though not in the table, or the other way round.
fn orders() -> Vec<Handover> {
    let mut handovers = Vec::new();
    for deadlines in [[1, 1], [1, 2], [2, 1], [255, 256], [256, 255], [65_535, 1]] {
        for link in [[0, 1, 0, 0], [1, 0, 0, 0], [0, 1, 1, 7], [1, 0, 1, 7], [0, 0, 1, 7], [1, 1, 0, 0]] {
            handovers.push(two(deadlines, &link, vec![1, 0, 3]));
        }
    }
    for writer in [0, 4, 9] {
        let links: Vec<u32> = (0..10).filter(|reader| *reader != writer).flat_map(|r| [writer, r, 1, 7]).collect();
        for first in 0..10 {
            for deadline in [4, 5, 6] {
                let tasks = (0..10).flat_map(|task| [task, if task == first { deadline } else { 5 }]).collect();
                handovers.push(Handover { kind: DATED.number(), tasks, links: links.clone(), events: Vec::new() });
            }
        }
    }
    handovers
}
