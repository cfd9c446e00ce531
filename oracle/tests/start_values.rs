//! Request 2026-02, a delayed link has its own start value: cases worked out
//! by hand.

mod common;

use common::{delayed, direct, numbers, only_clause_broken, state_after, table, verdict, verdict_on_links};
use oracle::format::{encode, Event, Link, Recording};
use oracle::sizes::RecordingKind;
use oracle::state::{Clause, State};
use oracle::subject::{Oracle, Subject};
use Event::{Arrival as A, Finish as F, Read as R, Start as S};

const SMALLEST: [u8; 9] = [253, 1, 0, 0, 0, 0, 0, 0, 0];

// ------------------------------------------------------------------- bytes

#[test]
fn the_first_byte_names_a_kind() {
    assert_eq!(verdict(&SMALLEST), (0, 9));
    assert_eq!(verdict(&[&SMALLEST[..], &[0]].concat()), (17, 9));
    assert_eq!(verdict(&[]), (1, 0));
    assert_eq!(verdict(&[253]), (1, 1));
    for first in (0..=255).filter(|first| ![253, 254, 255].contains(first)) {
        assert_eq!(verdict(&[first]), (2, 0));
        assert_eq!(verdict(&[&[first], &SMALLEST[1..]].concat()), (2, 0));
        // Before a fault in T.
        assert_eq!(verdict(&[first, 0]), (2, 0));
    }
    // A recording without it, as they were before.
    assert_eq!(verdict(&SMALLEST[1..]), (2, 0));
    assert_eq!(verdict(&[253, 253]), (2, 1));
}

#[test]
fn a_link_has_seven_bytes() {
    let table = table(2, &[delayed(0, 1, 0x0403_0201)]);
    let bytes = encode(&Recording { kind: RecordingKind::SIXTEEN, table, events: Vec::new() });
    assert_eq!(bytes[10..], [1, 0, 1, 1, 1, 2, 3, 4, 0, 0]);
    for cut in 11..18 {
        assert_eq!(verdict(&bytes[..cut]), (1, 11));
    }
    assert_eq!(verdict(&bytes[..18]), (1, 18));
    assert_eq!(verdict(&bytes), (0, 20));
}

#[test]
fn a_direct_link_with_a_start_value_is_20_after_9() {
    let with = verdict_on_links;
    let started = |writer: u8, reader: u8, kind: u8| Link::of([writer, reader, kind], 1);
    assert_eq!(with(2, &[started(0, 1, 0)]), (20, 11));
    assert_eq!(with(2, &[started(0, 1, 1)]), (0, 20));
    for start_value in [1, 1 << 8, 1 << 16, 1 << 24, 1 << 31, u32::MAX] {
        assert_eq!(with(2, &[Link { start_value, ..direct(0, 1) }]), (20, 11));
    }
    // Rising order: each of the others comes first.
    assert_eq!(with(2, &[started(0, 2, 0)]), (4, 11));
    assert_eq!(with(2, &[started(1, 1, 0)]), (5, 11));
    assert_eq!(with(2, &[started(0, 1, 2)]), (6, 11));
    assert_eq!(with(2, &[started(1, 0, 0)]), (7, 11));
    assert_eq!(with(2, &[direct(0, 1), started(0, 1, 0)]), (8, 18));
    let behind: Vec<Link> = (1..=8).map(|reader| direct(0, reader)).collect();
    assert_eq!(with(10, &[&behind[..], &[started(0, 9, 0)]].concat()), (9, 99));
    assert_eq!(with(10, &[&behind[..7], &[started(0, 9, 0)]].concat()), (20, 92));
    // The first link at fault decides.
    assert_eq!(with(2, &[started(0, 1, 0), direct(1, 1)]), (20, 11));
    assert_eq!(with(2, &[started(0, 1, 1), direct(1, 1)]), (5, 18));
}

// ---------------------------------------------------------------- numbers

/// One run of a task alone, without reads.
fn runs(task: u8, value: u32) -> [Event; 3] {
    [A(1 << task), S(task), F(task, value)]
}

fn reads_at_once(link: u8, reader: u8) -> [Event; 4] {
    [A(1 << reader), S(reader), R(link), F(reader, 0)]
}

#[test]
fn the_start_value_is_read_before_the_writers_second_arrival() {
    let read = reads_at_once(0, 1);
    let events = [&read[..], &runs(0, 5), &read, &runs(0, 6), &read, &runs(0, 7), &read].concat();
    assert_eq!(numbers(&table(2, &[delayed(0, 1, 90)]), &events), [90, 90, 5, 6]);
    // The default is read by direct links only.
    assert_eq!(numbers(&table(2, &[direct(0, 1)]), &events), [1000, 5, 6, 7]);
    // The other way round.
    let read = reads_at_once(0, 0);
    let events = [&read[..], &runs(1, 5), &read, &runs(1, 6), &read].concat();
    assert_eq!(numbers(&table(2, &[delayed(1, 0, 90)]), &events), [90, 90, 5]);
}

#[test]
fn the_writers_own_arrival_in_the_same_set_counts() {
    let round = |value: u32| [A(3), S(0), F(0, value), S(1), R(0), F(1, 0)];
    let events = [round(5), round(6), round(7)].concat();
    assert_eq!(numbers(&table(2, &[delayed(0, 1, 90)]), &events), [90, 5, 6]);
    let events = [&runs(0, 5)[..], &round(6), &round(7)].concat();
    assert_eq!(numbers(&table(2, &[delayed(0, 1, 90)]), &events), [5, 6]);
}

#[test]
fn arrivals_of_the_writer_after_the_readers_do_not_count() {
    // The reader waits, then runs, while the writer comes twice.
    let events = [&[A(2)][..], &runs(0, 5), &[S(1)], &runs(0, 6), &[R(0), F(1, 0)], &reads_at_once(0, 1)].concat();
    assert_eq!(numbers(&table(2, &[delayed(0, 1, 90)]), &events), [90, 5]);
}

#[test]
fn each_link_has_its_own_start_value() {
    let table = table(3, &[delayed(0, 1, 81), delayed(0, 2, 82), delayed(2, 1, 83)]);
    let events = [A(7), S(0), F(0, 5), S(1), R(0), R(2), F(1, 0), S(2), R(1), F(2, 0)];
    assert_eq!(numbers(&table, &events), [81, 83, 82]);
}

// -------------------------------------------------------- arrivals, marks

#[test]
fn a_fresh_state_has_no_arrivals_and_no_marks() {
    let fresh = State::fresh(&table(2, &[delayed(0, 1, 90)]));
    assert_eq!((fresh.seen, fresh.mark), ([0; 32], [0; 96]));
    assert_eq!(fresh.start_value[..2], [90, 0]);
    // Positions hold the default.
    assert_eq!(fresh.cells[..10], [1000; 10]);
}

#[test]
fn arrivals_are_none_one_or_more() {
    let table = table(2, &[]);
    let seen = |events: &[Event]| state_after(&table, events).seen[..2].to_vec();
    assert_eq!(seen(&[]), [0, 0]);
    assert_eq!(seen(&[A(1)]), [1, 0]);
    assert_eq!(seen(&runs(0, 5)), [1, 0]);
    assert_eq!(seen(&[&runs(0, 5)[..], &[A(3)]].concat()), [2, 1]);
    assert_eq!(seen(&runs(0, 5).repeat(300)), [2, 0]);
}

#[test]
fn a_mark_is_set_with_the_pointer_and_goes_with_it() {
    // To a reader behind and to a reader ahead, and a direct link.
    let table = table(3, &[delayed(1, 2, 91), delayed(1, 0, 92), direct(0, 1)]);
    let after = |events: &[Event]| {
        let state = state_after(&table, events);
        (state.pointer[..3].to_vec(), state.mark[..3].to_vec())
    };
    let all = [A(7), S(0), F(0, 5), S(1), F(1, 6), S(2), F(2, 7)];
    assert_eq!(after(&all[..1]), (vec![1, 1, 2], vec![1, 1, 0]));
    // At task 0's finish its pointer from the writer behind it stays, and the mark with it.
    assert_eq!(after(&all[..3]), (vec![1, 1, 2], vec![1, 1, 0]));
    assert_eq!(after(&all[..6]), (vec![1, 1, 0], vec![1, 1, 0]));
    assert_eq!(after(&all), (vec![0, 1, 0], vec![0, 1, 0]));
    // The writer's second arrival moves no mark; the reader's next one does.
    let second = [&all[..], &[A(2)]].concat();
    assert_eq!(after(&second), (vec![0, 1, 2], vec![0, 1, 0]));
    assert_eq!(after(&[&second[..], &[A(1)]].concat()), (vec![0, 2, 2], vec![0, 0, 0]));
    assert_eq!(after(&[&second[..], &[A(4)]].concat()), (vec![2, 1, 2], vec![0, 1, 0]));
}

#[test]
fn a_read_by_a_marked_link_gives_the_start_value_whatever_the_arrivals_are() {
    let table = table(2, &[delayed(0, 1, 90)]);
    let mut state = state_after(&table, &[A(2), S(1)]);
    let read = |state: &State| {
        let answer = Oracle.one_event(state, R(0).into());
        (answer.refusal, answer.value)
    };
    assert_eq!(read(&state), (0, 90));
    state.seen[0] = 2;
    assert_eq!(read(&state), (0, 90));
    state.mark[0] = 0;
    assert_eq!(read(&state), (0, 1000));
    state.seen[0] = 1;
    assert_eq!(read(&state), (19, 0));
}

// -------------------------------------------------------------- soundness

/// Both links delayed and to the same reader behind, which is running; a
/// direct link besides. Tasks 0 and 1 write: the first has had two arrivals,
/// the other none.
fn reader_running() -> State {
    let table = table(4, &[delayed(0, 2, 90), delayed(1, 2, 91), direct(1, 3)]);
    state_after(&table, &[&runs(0, 5)[..], &runs(0, 6), &[A(4), S(2)]].concat())
}

/// The only clause that a change breaks, none if the state stays sound.
fn breaks(change: impl Fn(&mut State)) -> Option<Clause> {
    let mut state = reader_running();
    assert_eq!((&state.seen[..4], &state.mark[..3]), (&[2, 0, 1, 0][..], &[0, 1, 0][..]));
    change(&mut state);
    only_clause_broken(&state)
}

#[test]
fn each_new_sentence_of_soundness_by_itself() {
    assert_eq!(breaks(|_| {}), None);
    assert_eq!(breaks(|state| state.seen[0] = 3), Some(Clause::Seen));
    assert_eq!(breaks(|state| state.seen[3] = 255), Some(Clause::Seen));
    assert_eq!(breaks(|state| state.seen[2] = 0), Some(Clause::ActiveWithoutArrivals));
    assert_eq!(breaks(|state| state.mark[1] = 2), Some(Clause::Mark));
    assert_eq!(breaks(|state| state.mark[0] = 255), Some(Clause::Mark));
    assert_eq!(breaks(|state| state.mark[1] = 0), Some(Clause::MarkMissing));
    assert_eq!(breaks(|state| state.start_value[2] = 1), Some(Clause::DirectWithStart));
    // Absent: the reader is idle again. Direct: a present pointer, so the reader is not.
    let idle = |state: &mut State| {
        state.phase[2] = 0;
        state.pointer[..2].fill(0);
        state.mark[..2].fill(0);
    };
    assert_eq!(breaks(idle), None);
    let marked_when_idle = |state: &mut State| {
        idle(state);
        state.mark[0] = 1;
    };
    assert_eq!(breaks(marked_when_idle), Some(Clause::MarkWithoutPointer));
    let direct_present = |state: &mut State| {
        state.phase[3] = 1;
        state.seen[3] = 1;
        state.pointer[2] = 1;
    };
    assert_eq!(breaks(direct_present), None);
    let direct_marked = |state: &mut State| {
        direct_present(state);
        state.mark[2] = 1;
    };
    assert_eq!(breaks(direct_marked), Some(Clause::MarkAtDirect));
}

#[test]
fn what_the_new_sentences_leave_open() {
    // Either side of two arrivals: fewer need the mark, two may have it.
    assert_eq!(breaks(|state| state.mark[0] = 1), None);
    assert_eq!(breaks(|state| state.seen[1] = 1), None);
    assert_eq!(breaks(|state| state.seen[1] = 2), None);
    let two_without = |state: &mut State| {
        state.seen[1] = 2;
        state.mark[1] = 0;
    };
    assert_eq!(breaks(two_without), None);
    assert_eq!(breaks(|state| state.seen[0] = 1), Some(Clause::MarkMissing));
    assert_eq!(breaks(|state| state.seen[0] = 0), Some(Clause::MarkMissing));
    // An idle task may have had any number of arrivals.
    assert_eq!(breaks(|state| state.seen[3] = 2), None);
    assert_eq!(breaks(|state| state.start_value[0] = 0), None);
    // Slots past the counts belong to no task and no link.
    assert_eq!(breaks(|state| state.seen[4..].fill(9)), None);
    assert_eq!(breaks(|state| state.mark[3..].fill(9)), None);
    assert_eq!(breaks(|state| state.start_value[3..].fill(9)), None);
}
