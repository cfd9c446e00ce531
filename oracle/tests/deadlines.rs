//! Request 2026-07, earliest deadline first: cases worked out by hand, on either
//! side of each line.

mod common;

use common::{delayed, direct, only_clause_broken, state_after_timed, verdict};
use oracle::example::deadline_example;
use oracle::format::{encode, untimed, Event, Link, Recording, Table, Timed};
use oracle::printouts::inspected;
use oracle::sizes::{RecordingKind, KINDS, MOST_TICK};
use oracle::state::{Clause, State};
use oracle::subject::{disagreement, zero_time_reading, Made, Oracle, Subject};
use oracle::tables::LentTable;
use Event::{Arrival as A, Finish as F, Read as R, Start as S};

const DATED: RecordingKind = RecordingKind::DATED;

/// The least dated recording: one task with default 0 and relative deadline 1.
const LEAST: [u8; 11] = [0xFF, 1, 0, 0, 0, 0, 1, 0, 0, 0, 0];

/// Tasks with the defaults 1000, 1001 and so on.
fn dated(deadlines: &[u16], links: &[Link]) -> Table {
    let defaults = (1000..1000 + deadlines.len() as u32).collect();
    Table { defaults, deadlines: Some(deadlines.to_vec()), links: links.to_vec() }
}

fn timed(events: &[(u32, Event)]) -> Vec<Timed> {
    events.iter().map(|(tick, event)| event.at(*tick)).collect()
}

fn bytes_of(table: &Table, events: &[(u32, Event)]) -> Vec<u8> {
    encode(&Recording { kind: DATED, table: table.clone(), events: timed(events) })
}

/// The refusal, and how many events come before the one at fault; the engines
/// must agree on it, and the last tick is that of the last event before it.
fn refused(table: &Table, events: &[(u32, Event)]) -> (u8, usize) {
    let bytes = bytes_of(table, events);
    let lent = vec![7; events.len()];
    let answer = Oracle.replay(&bytes, &lent);
    assert_eq!(disagreement(&answer, &zero_time_reading(&bytes, &lent)), None);
    let accepted = (0..=events.len()).find(|count| bytes_of(table, &events[..*count]).len() == answer.place);
    let accepted = accepted.expect("the place is that of an event, or the length");
    let last = events[..accepted].last().map_or(0, |(tick, _)| *tick);
    assert_eq!((answer.state.last, answer.state.policy), (last, 1));
    (answer.refusal, accepted)
}

fn numbers(table: &Table, events: &[(u32, Event)]) -> Vec<u32> {
    let bytes = bytes_of(table, events);
    let lent = vec![7; events.len()];
    let answer = Oracle.replay(&bytes, &lent);
    assert_eq!(disagreement(&answer, &zero_time_reading(&bytes, &lent)), None);
    assert_eq!((answer.refusal, answer.place), (0, bytes.len()));
    answer.list[..answer.counts.reads as usize].to_vec()
}

// ------------------------------------------------------------------- bytes

#[test]
fn the_least_recording_begins_with_255() {
    assert_eq!(verdict(&LEAST), (0, 11));
    assert_eq!(verdict(&[&LEAST[..], &[0]].concat()), (17, 11));
    let places = [0, 1, 2, 2, 2, 2, 2, 2, 8, 9, 9];
    for (cut, place) in places.into_iter().enumerate() {
        assert_eq!(verdict(&LEAST[..cut]), (1, place));
    }
    assert_eq!(bytes_of(&Table { defaults: vec![0], ..dated(&[1], &[]) }, &[]), LEAST);
}

#[test]
fn a_relative_deadline_of_0_is_24_at_its_task() {
    let two = |first: u16, second: u16| bytes_of(&dated(&[first, second], &[]), &[]);
    assert_eq!(verdict(&two(1, 1)), (0, 17));
    assert_eq!(verdict(&two(65_535, 256)), (0, 17));
    assert_eq!(verdict(&two(0, 1)), (24, 2));
    assert_eq!(verdict(&two(0, 0)), (24, 2));
    assert_eq!(verdict(&two(1, 0)), (24, 8));
    // After 1: the last byte may still come. Before all that is after it.
    assert_eq!(verdict(&two(1, 0)[..13]), (1, 8));
    assert_eq!(verdict(&two(1, 0)[..14]), (24, 8));
    assert_eq!(verdict(&two(0, 1)[..8]), (24, 2));
    assert_eq!(verdict(&[&two(1, 0)[..14], &[97]].concat()), (24, 8));
    // After T.
    assert_eq!(verdict(&[255, 0]), (2, 1));
    assert_eq!(verdict(&[255, 33, 0, 0, 0, 0, 0, 0]), (2, 1));
    assert_eq!(verdict(&[255, 32, 0, 0, 0, 0, 0, 0]), (24, 2));
}

#[test]
fn a_tick_has_four_bytes_after_the_kind() {
    let head = [255, 1, 9, 0, 0, 0, 5, 0, 0, 1, 0];
    let with = |more: &[u8]| verdict(&[&head[..], more].concat());
    let arrival = [1, 0x00, 0x28, 0x6B, 0xEE, 1, 0, 0, 0];
    assert_eq!(u32::from_le_bytes([0x00, 0x28, 0x6B, 0xEE]), MOST_TICK);
    assert_eq!(with(&arrival), (0, 20));
    assert_eq!(with(&[1, 0x01, 0x28, 0x6B, 0xEE, 1, 0, 0, 0]), (22, 11));
    for short in 0..9 {
        assert_eq!(with(&arrival[..short]), (1, 11));
    }
    // An unknown kind before what is missing.
    assert_eq!(with(&[5]), (11, 11));
    assert_eq!(with(&[0, 0, 0]), (11, 11));
}

#[test]
fn six_thousand_events_and_one_more() {
    assert_eq!(KINDS.map(RecordingKind::most_bytes), [60_293, 60_805, 60_869]);
    let round = [A(1), S(0), F(0, 5)];
    let recording = |count: usize| {
        let events: Vec<(u32, Event)> = (0..count).map(|n| (n as u32 / 3, round[n % 3])).collect();
        bytes_of(&dated(&[1], &[]), &events)
    };
    assert_eq!(verdict(&recording(6_000)), (0, 11 + 2_000 * (9 + 6 + 10)));
    assert_eq!(verdict(&recording(6_001)), (10, 9));
    // E is judged before an event is missed.
    assert_eq!(verdict(&recording(6_001)[..11]), (10, 9));
    assert_eq!(verdict(&recording(6_000)[..11]), (1, 11));
}

#[test]
fn early_refusals_have_the_state_of_fixed_priorities() {
    // `verdict` compares the state for each but 1.
    for (bytes, place) in [(&LEAST[..8], 8), (&LEAST[..7], 2), (&LEAST[..10], 9), (&[255][..], 1)] {
        let answer = Oracle.replay(bytes, &[]);
        assert_eq!((answer.refusal, answer.place), (1, place));
        assert_eq!(answer.state, State::single());
        assert_eq!(answer.state.policy, 0);
    }
    assert_eq!(Oracle.replay(&LEAST, &[]).state.policy, 1);
}

// ------------------------------------------------------------------- order

#[test]
fn ahead_is_by_relative_deadline_then_by_the_table() {
    let with = |deadlines: &[u16], link: Link| verdict(&bytes_of(&dated(deadlines, &[link]), &[])).0;
    for deadlines in [[1, 1], [1, 2], [255, 256], [65_535, 65_535]] {
        assert_eq!(with(&deadlines, direct(0, 1)), 0);
        assert_eq!(with(&deadlines, direct(1, 0)), 7);
    }
    for deadlines in [[2, 1], [256, 255], [65_535, 1]] {
        assert_eq!(with(&deadlines, direct(0, 1)), 7);
        assert_eq!(with(&deadlines, direct(1, 0)), 0);
    }
    for deadlines in [[1, 2], [2, 1]] {
        assert_eq!(with(&deadlines, delayed(0, 1, 5)), 0);
        assert_eq!(with(&deadlines, delayed(1, 0, 5)), 0);
        assert_eq!(with(&deadlines, delayed(1, 1, 5)), 0);
        assert_eq!(with(&deadlines, direct(1, 1)), 5);
    }
}

/// The writer's own relative deadline decides which of its links count.
#[test]
fn the_ninth_reader_behind_is_by_the_order() {
    let links = |writer: u8| -> Vec<Link> {
        (0..10).filter(|reader| *reader != writer).map(|reader| delayed(writer, reader, 3)).collect()
    };
    let with = |writer: usize, own: u16| {
        let mut deadlines = [5; 10];
        deadlines[writer] = own;
        let table = dated(&deadlines, &links(writer as u8));
        let made = Oracle.fresh(&LentTable::of(&table));
        let (refusal, place) = verdict(&bytes_of(&table, &[]));
        assert_eq!(made.refusal, refusal);
        (refusal, place)
    };
    let length = 2 + 60 + 1 + 63 + 2;
    let ninth = 2 + 60 + 1 + 56;
    assert_eq!(with(9, 5), (0, length));
    assert_eq!(with(9, 6), (0, length));
    assert_eq!(with(9, 4), (9, ninth));
    assert_eq!(with(0, 5), (9, ninth));
    assert_eq!(with(0, 4), (9, ninth));
    assert_eq!(with(0, 6), (0, length));
}

/// A reader that is earlier in the table but behind: its pointer is protected
/// while it waits, and freed at its finish.
#[test]
fn positions_and_pointers_go_by_the_order() {
    let table = dated(&[9, 1], &[direct(1, 0)]);
    let fresh = state_after_timed(&table, &[]);
    assert_eq!((fresh.positions(0), fresh.positions(1)), (2, 3));
    let begun = timed(&[(0, A(0b11)), (0, S(1)), (0, F(1, 50)), (1, A(0b10)), (1, S(1)), (1, F(1, 51))]);
    let waiting = state_after_timed(&table, &begun);
    assert_eq!((waiting.newest[1], waiting.previous[1], waiting.pointer[0]), (1, 2, 2));
    let again = state_after_timed(&table, &[&begun[..], &timed(&[(2, A(0b10))])].concat());
    assert_eq!((again.newest[1], again.previous[1], again.pointer[0]), (3, 1, 2));
    let over = timed(&[(2, S(0)), (2, R(0)), (2, F(0, 1))]);
    assert_eq!(state_after_timed(&table, &[&begun[..], &over].concat()).pointer[0], 0);
    let reader_ahead = dated(&[1, 9], &[delayed(1, 0, 4)]);
    assert_eq!(state_after_timed(&reader_ahead, &timed(&[(0, A(1)), (0, S(0)), (0, F(0, 1))])).pointer[0], 1);
}

// -------------------------------------------------------------------- jobs

#[test]
fn the_example() {
    let Recording { table, events, .. } = deadline_example();
    let events: Vec<(u32, Event)> = events.iter().map(|timed| (timed.tick.unwrap(), timed.event)).collect();
    assert_eq!(numbers(&table, &events), [40, 101, 40, 5]);
}

#[test]
fn the_job_that_is_due_first_alone_may_run() {
    let table = dated(&[4, 2], &[]);
    let with = |first: (u32, u32), second: (u32, u32), task: u8| {
        let tick = second.0;
        refused(&table, &[(first.0, A(first.1)), (second.0, A(second.1)), (tick, S(task))])
    };
    // Task 0 from 1 on, due at 5; task 1 from 2 on, due at 4, from 3 on at 5, from 4 on at 6.
    for (since, runs) in [(2, 1), (3, 1), (4, 0)] {
        assert_eq!(with((1, 1), (since, 2), runs), (0, 3));
        assert_eq!(with((1, 1), (since, 2), 1 - runs), (16, 2));
    }
    assert_eq!(with((3, 2), (3, 1), 1), (0, 3));
    assert_eq!(with((3, 2), (3, 1), 0), (16, 2));
}

/// Of jobs that are due at once the one with the smaller relative deadline, and
/// of those the one earlier in the table.
#[test]
fn ties_go_by_the_order_of_tasks() {
    let three = |deadlines: &[u16], events: &[(u32, Event)], task: u8| {
        let tick = events.last().map_or(0, |(tick, _)| *tick);
        refused(&dated(deadlines, &[]), &[events, &[(tick, S(task))]].concat()).0
    };
    let due_at_once = [(7, A(0b001)), (8, A(0b010)), (9, A(0b100))];
    assert_eq!([0, 1, 2].map(|task| three(&[3, 2, 1], &due_at_once, task)), [16, 16, 0]);
    let with_tie = [(7, A(0b001)), (8, A(0b110))];
    assert_eq!([0, 1, 2].map(|task| three(&[3, 2, 2], &with_tie, task)), [16, 0, 16]);
    let turned = [(8, A(0b100)), (8, A(0b010)), (8, A(0b001))];
    assert_eq!([0, 1, 2].map(|task| three(&[2, 2, 2], &turned, task)), [0, 16, 16]);
}

#[test]
fn a_waiting_job_that_is_due_first_holds_up_reads_and_finishes() {
    let table = dated(&[9, 2], &[delayed(0, 0, 7)]);
    let begun = [(0, A(1)), (0, S(0)), (1, A(2))];
    let then = |event: Event| refused(&table, &[&begun[..], &[(1, event)]].concat());
    assert_eq!(then(R(0)), (16, 3));
    assert_eq!(then(F(0, 1)), (16, 3));
    assert_eq!(then(S(1)), (0, 4));
    // It is due at 9, and the other one from 8 on at 10.
    let begun = [(0, A(1)), (0, S(0)), (8, A(2))];
    let then = |event: Event| refused(&table, &[&begun[..], &[(8, event)]].concat());
    assert_eq!(then(R(0)), (0, 4));
    assert_eq!(then(F(0, 1)), (0, 4));
    assert_eq!(then(S(1)), (16, 3));
}

#[test]
fn a_finish_passes_at_its_deadline_and_is_23_after_it() {
    for since in [0, 1, 1_000, MOST_TICK - 65_536] {
        for deadline in [1, 2, 65_535] {
            let table = dated(&[deadline], &[delayed(0, 0, 7)]);
            let due = since + u32::from(deadline);
            let with = |tick: u32, event: Event| refused(&table, &[(since, A(1)), (since, S(0)), (tick, event)]);
            assert_eq!(with(since, F(0, 5)), (0, 3));
            assert_eq!(with(due, F(0, 5)), (0, 3));
            assert_eq!(with(due + 1, F(0, 5)), (23, 2));
            // Only a finish is.
            assert_eq!(with(due + 1, R(0)), (0, 3));
            assert_eq!(refused(&table, &[(since, A(1)), (due + 1, S(0))]), (0, 2));
        }
    }
    // The first job's deadline is not the second one's.
    let twice =
        [(0, A(1)), (0, S(0)), (2, F(0, 1)), (3, A(1)), (3, S(0)), (5, F(0, 2)), (6, A(1)), (6, S(0)), (9, F(0, 3))];
    assert_eq!(refused(&dated(&[2], &[]), &twice), (23, 8));
}

#[test]
fn a_late_job_still_holds_up_the_others() {
    let table = dated(&[1, 9], &[]);
    let begun = [(0, A(1)), (0, S(0)), (5, A(2))];
    assert_eq!(refused(&table, &[&begun[..], &[(5, S(1))]].concat()), (16, 3));
    assert_eq!(refused(&table, &[&begun[..], &[(5, F(0, 1))]].concat()), (23, 3));
}

// ------------------------------------------------------------------- ticks

#[test]
fn ticks_never_fall_and_keep_their_limit() {
    let table = dated(&[9, 9], &[]);
    let after = |first: u32, tick: u32| refused(&table, &[(first, A(1)), (tick, A(2))]);
    for first in [1, 2, 255, 256, 65_536, MOST_TICK - 1] {
        assert_eq!(after(first, first - 1), (21, 1));
        assert_eq!(after(first, first), (0, 2));
        assert_eq!(after(first, first + 1), (0, 2));
        assert_eq!(after(first, 0), (21, 1));
        assert_eq!(after(first, MOST_TICK), (0, 2));
        assert_eq!(after(first, MOST_TICK + 1), (22, 1));
        assert_eq!(after(first, u32::MAX), (22, 1));
    }
    assert_eq!(after(MOST_TICK, MOST_TICK), (0, 2));
    assert_eq!(after(MOST_TICK, MOST_TICK - 1), (21, 1));
    assert_eq!(after(MOST_TICK + 1, 0), (22, 0));
    // Each accepted event sets it, a start and a finish too.
    let events = [(1, A(1)), (3, S(0)), (5, F(0, 1)), (4, A(2))];
    assert_eq!(refused(&table, &events), (21, 3));
    let of_read = [(1, A(1)), (1, S(0)), (4, R(0)), (3, A(2))];
    assert_eq!(refused(&dated(&[9, 9], &[delayed(0, 0, 1)]), &of_read), (21, 3));
}

/// 12, then 22 and 21, then 13 to 16, then 23.
#[test]
fn a_tick_is_judged_after_12_and_before_the_rest() {
    let table = dated(&[2, 9], &[]);
    let begun = [(5, A(0b11)), (5, S(0))];
    let then = |tick: u32, event: Event| refused(&table, &[&begun[..], &[(tick, event)]].concat()).0;
    for tick in [4, MOST_TICK + 1, u32::MAX] {
        for event in [A(0), A(4), S(2), R(0), F(2, 0)] {
            assert_eq!(then(tick, event), 12);
        }
    }
    for event in [A(1), S(0), F(1, 0), S(1), F(0, 1)] {
        assert_eq!(then(4, event), 21);
        assert_eq!(then(MOST_TICK + 1, event), 22);
    }
    assert_eq!([A(1), S(0), F(1, 0), S(1)].map(|event| then(8, event)), [13, 14, 15, 16]);
    // Task 0 is due at 7.
    assert_eq!([7, 8].map(|tick| then(tick, F(0, 1))), [0, 23]);
}

/// Of a late job that runs 23 is told where it is the one that may run, else 16.
#[test]
fn a_late_finish_is_16_while_another_job_is_due_first() {
    // Task 1 is due at 9, and finishes at 10.
    let with_task_0_since = |tick: u32| {
        let events = [(0, A(2)), (0, S(1)), (tick, A(1)), (10, F(1, 1))];
        refused(&dated(&[1, 9], &[]), &events)
    };
    // Task 0 is due one tick after it arrives: first, at one time and of a task ahead, later.
    assert_eq!(with_task_0_since(0), (16, 3));
    assert_eq!(with_task_0_since(8), (16, 3));
    assert_eq!(with_task_0_since(9), (23, 3));
    assert_eq!(with_task_0_since(10), (23, 3));
}

/// 15 comes before 23.
#[test]
fn a_late_finish_of_a_task_that_does_not_run_is_15() {
    let table = dated(&[2], &[]);
    // It has never arrived; it waits, and is due at 5; it has finished.
    assert_eq!([2, 3, MOST_TICK].map(|tick| refused(&table, &[(tick, F(0, 1))])), [(15, 0); 3]);
    assert_eq!([5, 6, MOST_TICK].map(|tick| refused(&table, &[(3, A(1)), (tick, F(0, 1))])), [(15, 1); 3]);
    let finished = [(3, A(1)), (3, S(0)), (4, F(0, 1))];
    let again = |tick: u32| refused(&table, &[&finished[..], &[(tick, F(0, 2))]].concat());
    assert_eq!([4, 5, 6, MOST_TICK].map(again), [(15, 3); 4]);
}

#[test]
fn room_for_a_number_comes_last() {
    let table = dated(&[3, 9], &[delayed(0, 0, 7)]);
    let with = |tick: u32, read: u8| {
        let bytes = bytes_of(&table, &[(2, A(1)), (2, S(0)), (tick, R(read))]);
        Oracle.replay(&bytes, &[]).refusal
    };
    assert_eq!([with(2, 0), with(9, 0), with(1, 0), with(MOST_TICK + 1, 0), with(1, 1)], [18, 18, 21, 22, 12]);
}

#[test]
fn a_state_keeps_the_arrival_ticks_of_active_jobs() {
    let table = dated(&[9, 8, 7], &[]);
    let state = state_after_timed(&table, &timed(&[(3, A(0b101)), (4, A(0b010)), (5, S(2)), (6, F(2, 1))]));
    assert_eq!((&state.since[..4], state.last), (&[3, 4, 0, 0][..], 6));
    assert_eq!((&state.deadline[..4], state.policy), (&[9, 8, 7, 0][..], 1));
}

/// By a direct link the writer's arrival that is recorded before the reader's
/// counts, and one after it does not, though all are at one tick; in one set the
/// writer, which is ahead, comes first.
#[test]
fn arrivals_count_in_recorded_order() {
    let table = dated(&[9, 8], &[direct(1, 0), delayed(0, 1, 70)]);
    let writer = [(4, A(2)), (4, S(1)), (4, R(1)), (4, F(1, 50))];
    let reader = [(4, S(0)), (4, R(0)), (4, F(0, 60))];
    assert_eq!(numbers(&table, &[&writer[..], &[(4, A(1))], &reader].concat()), [70, 50]);
    assert_eq!(numbers(&table, &[&[(4, A(1))], &writer[..], &reader].concat()), [70, 1001]);
    assert_eq!(numbers(&table, &[&[(4, A(3))], &writer[1..], &reader].concat()), [70, 50]);
}

// ----------------------------------------------------------- single events

#[test]
fn a_call_is_for_a_state_of_its_policy() {
    let by_deadline = state_after_timed(&dated(&[5], &[]), &timed(&[(3, A(1))]));
    let fixed = state_after_timed(&Table::undated(vec![0], vec![]), &untimed(&[A(1)]));
    for event in [S(0), A(0), A(1), S(9)] {
        for (state, given) in [(&by_deadline, Timed::from(event)), (&fixed, event.at(3)), (&fixed, event.at(0))] {
            let answer = Oracle.one_event(state, given);
            assert_eq!((answer.refusal, answer.value, answer.state), (19, 0, *state));
        }
    }
    assert_eq!(Oracle.one_event(&by_deadline, S(0).at(3)).refusal, 0);
    assert_eq!(Oracle.one_event(&by_deadline, S(0).at(2)).refusal, 21);
    assert_eq!(Oracle.one_event(&fixed, S(0).into()).refusal, 0);
}

#[test]
fn a_refused_event_leaves_the_last_tick() {
    let state = state_after_timed(&dated(&[5], &[]), &timed(&[(3, A(1))]));
    for (tick, event, refusal) in
        [(9, A(1), 13), (9, F(0, 1), 15), (9, A(0), 12), (2, S(0), 21), (MOST_TICK + 1, S(0), 22)]
    {
        let answer = Oracle.one_event(&state, event.at(tick));
        assert_eq!((answer.refusal, answer.value, answer.state), (refusal, 0, state));
    }
}

// --------------------------------------------------------------- soundness

/// Task 1 runs from 4 on; task 0 is idle. Task 1 is ahead.
fn one_running() -> State {
    state_after_timed(
        &dated(&[9, 5], &[direct(1, 0)]),
        &timed(&[(3, A(1)), (3, S(0)), (3, F(0, 1)), (4, A(2)), (6, S(1))]),
    )
}

fn breaks(change: impl Fn(&mut State)) -> Option<Clause> {
    let mut state = one_running();
    assert_eq!((&state.since[..2], state.last, &state.phase[..2]), (&[0, 4][..], 6, &[0, 2][..]));
    change(&mut state);
    only_clause_broken(&state)
}

#[test]
fn a_sound_state_has_ticks_up_to_the_last_and_that_up_to_the_limit() {
    assert_eq!(breaks(|_| {}), None);
    assert_eq!(breaks(|state| state.since[1] = 0), None);
    assert_eq!(breaks(|state| state.since[1] = 6), None);
    assert_eq!(breaks(|state| state.since[1] = 7), Some(Clause::SinceAfterLast));
    assert_eq!(breaks(|state| state.since[0] = 1), Some(Clause::IdleWithSince));
    assert_eq!(breaks(|state| state.last = 4), None);
    assert_eq!(breaks(|state| state.last = 3), Some(Clause::SinceAfterLast));
    assert_eq!(breaks(|state| state.last = MOST_TICK), None);
    assert_eq!(breaks(|state| state.last = MOST_TICK + 1), Some(Clause::LastTick));
    // Slots past the tasks are not looked at.
    assert_eq!(breaks(|state| state.since[2] = 9), None);
    assert_eq!(breaks(|state| state.deadline[2..].fill(u32::MAX)), None);
}

#[test]
fn a_sound_state_has_relative_deadlines_that_its_links_go_by() {
    assert_eq!(breaks(|state| state.deadline[0] = 0), Some(Clause::NoDeadline));
    assert_eq!(breaks(|state| state.deadline[1] = 0), Some(Clause::NoDeadline));
    assert_eq!(breaks(|state| state.deadline[1] = 8), None);
    // Task 0 is then ahead, and the direct link leads to it.
    assert_eq!(breaks(|state| state.deadline[1] = 9), Some(Clause::DirectAhead));
    assert_eq!(breaks(|state| state.deadline[1] = 10), Some(Clause::DirectAhead));
    assert_eq!(breaks(|state| state.pointer[0] = 1), Some(Clause::IdleReaderWith));
    assert_eq!(breaks(|state| state.newest[1] = 3), None);
    assert_eq!(breaks(|state| state.newest[1] = 4), Some(Clause::Newest));
    assert_eq!(breaks(|state| state.newest[0] = 3), Some(Clause::Newest));
}

#[test]
fn a_sound_state_has_one_of_two_policies() {
    for policy in [2, 3, 256, 257, u32::MAX] {
        assert_eq!(breaks(|state| state.policy = policy), Some(Clause::Policy));
    }
    let fixed = state_after_timed(&Table::undated(vec![0, 0], vec![direct(0, 1)]), &untimed(&[A(1), S(0)]));
    let breaks = |change: &dyn Fn(&mut State)| {
        let mut state = fixed;
        change(&mut state);
        only_clause_broken(&state)
    };
    assert_eq!(breaks(&|_| {}), None);
    assert_eq!(breaks(&|state| state.deadline[1] = 1), Some(Clause::FixedWithDeadline));
    assert_eq!(breaks(&|state| state.since[0] = 1), Some(Clause::FixedWithSince));
    assert_eq!(breaks(&|state| state.since[1] = 1), Some(Clause::FixedWithSince));
    assert_eq!(breaks(&|state| state.last = 1), Some(Clause::FixedWithLast));
    assert_eq!(breaks(&|state| state.policy = 1), Some(Clause::NoDeadline));
    assert_eq!(breaks(&|state| state.since[2] = 1), None);
    assert_eq!(breaks(&|state| state.deadline[31] = 1), None);
}

/// Near what 32 bits hold, and in a saved state past it.
#[test]
fn deadlines_are_compared_whole() {
    let table = dated(&[65_535, 65_534], &[]);
    let begun = timed(&[(MOST_TICK - 1, A(1)), (MOST_TICK, A(2))]);
    let mut state = state_after_timed(&table, &begun);
    let may_run = |state: &State| [0, 1].map(|task| Oracle.one_event(state, S(task).at(MOST_TICK)).refusal);
    // Both are due at 4,000,065,534.
    assert_eq!(may_run(&state), [16, 0]);
    state.deadline[0] = 294_967_297;
    // Task 0 is due at 2^32, and task 1 long before.
    assert_eq!(may_run(&state), [16, 0]);
    state.deadline[1] = u32::MAX;
    assert_eq!(may_run(&state), [0, 16]);
    state.phase[0] = 2;
    assert_eq!(Oracle.one_event(&state, F(0, 1).at(MOST_TICK)).refusal, 0);
}

// ------------------------------------------------------------------ tables

#[test]
fn a_table_earns_2_then_24_then_3_then_what_its_links_do() {
    let table = dated(&[2, 1], &[direct(0, 1)]);
    let lent = LentTable::of(&table);
    let without = |task: usize, lent: &LentTable| {
        let mut changed = lent.clone();
        changed.deadlines.as_mut().unwrap()[task] = 0;
        changed
    };
    let refusal = |lent: &LentTable| {
        let made = Oracle.fresh(lent);
        assert!(made.refusal == 0 || made == Made { refusal: made.refusal, state: State::single() });
        made.refusal
    };
    assert_eq!(refusal(&lent), 7);
    assert_eq!(refusal(&without(0, &lent)), 24);
    assert_eq!(refusal(&without(1, &lent)), 24);
    assert_eq!(refusal(&LentTable { links: 97, ..lent.clone() }), 3);
    assert_eq!(refusal(&LentTable { links: 97, ..without(1, &lent) }), 24);
    assert_eq!(refusal(&LentTable { tasks: 33, ..without(1, &lent) }), 2);
    assert_eq!(refusal(&LentTable { tasks: 0, ..without(0, &lent) }), 2);
    // Slots past the tasks are not looked at: one lent there is 0.
    assert_eq!(refusal(&LentTable { links: 0, ..without(2, &lent) }), 0);
    assert_eq!(refusal(&LentTable { tasks: 1, links: 0, ..without(1, &lent) }), 0);
    // Without relative deadlines the link is as it was.
    assert_eq!(refusal(&LentTable { deadlines: None, ..without(0, &lent) }), 0);
}

#[test]
fn the_fresh_state_of_a_table_with_relative_deadlines() {
    let made = Oracle.fresh(&LentTable::of(&dated(&[7, 65_535], &[])));
    let State { deadline, since, last, policy, .. } = made.state;
    assert_eq!((made.refusal, &deadline[..3], since, last, policy), (0, &[7, 65_535, 0][..], [0; 32], 0, 1));
    assert!(deadline[2..].iter().all(|deadline| *deadline == 0));
}

// --------------------------------------------------------------- printouts

#[test]
fn inspect_prints_the_last_tick_and_since_when_a_task_is_active() {
    let table = dated(&[9, 5], &[direct(1, 0)]);
    let printed = |events: &[(u32, Event)]| inspected(&Oracle.replay(&bytes_of(&table, events), &[]));
    assert_eq!(
        printed(&[(3, A(3)), (4, S(1)), (5, F(1, 77)), (6, S(0))]),
        "refusal 0\nplace 55\ncounts 2 2 0 1\nlast 6\n\
         task 0 running newest 2 previous 1 cells 1000 1000 had 1 since 3\n\
         task 1 idle newest 2 previous 1 cells 1001 77 1001 had 1\n\
         link 0 pointer 2\nrest 0\n"
    );
    assert_eq!(
        printed(&[(3, A(3)), (2, S(1))]),
        "refusal 21\nplace 33\ncounts 2 0 0 0\nlast 3\n\
         task 0 waiting newest 2 previous 1 cells 1000 1000 had 1 since 3\n\
         task 1 waiting newest 2 previous 1 cells 1001 1001 1001 had 1 since 3\n\
         link 0 pointer 2\nrest 6\n"
    );
    let early = inspected(&Oracle.replay(&LEAST[..9], &[]));
    assert_eq!(early, "refusal 1\nplace 9\ncounts 0 0 0 0\ntask 0 idle newest 1 previous 1 cells 0 0 had 0\nrest 0\n");
}
