//! Request 2026-06, thirty-two tasks: cases worked out by hand, on either side of
//! each line of 253 and 254.

mod common;

use common::{
    delayed, direct, numbers, numbers_in, only_clause_broken, state_after, table, verdict, verdict_in, verdict_on_links,
};
use oracle::format::{encode, untimed, Event, Link, Recording, Table, Timed};
use oracle::sizes::{RecordingKind, UNDATED};
use oracle::state::{Clause, State};
use oracle::subject::{disagreement, zero_time_reading, Made, Oracle, Subject};
use oracle::tables::LentTable;
use Event::{Arrival as A, Finish as F, Read as R, Start as S};

const SMALLER: RecordingKind = RecordingKind::SIXTEEN;
const LARGER: RecordingKind = RecordingKind::THIRTY_TWO;

/// The least recording of the larger kind.
const LEAST: [u8; 9] = [0xFE, 1, 0, 0, 0, 0, 0, 0, 0];

/// Where E stands, and the first event, in a recording without links.
fn at_count(tasks: usize) -> usize {
    2 + 4 * tasks + 1
}

fn at_events(tasks: usize) -> usize {
    at_count(tasks) + 2
}

/// The verdict on a recording without links.
fn verdict_on(kind: RecordingKind, tasks: u32, events: &[Event]) -> (u8, usize) {
    verdict(&encode(&Recording { kind, table: table(tasks, &[]), events: untimed(events) }))
}

// ------------------------------------------------------------------- bytes

#[test]
fn the_least_recording_begins_with_254() {
    assert_eq!(verdict(&LEAST), (0, 9));
    assert_eq!(verdict(&[&LEAST[..], &[0]].concat()), (17, 9));
    let places = [0, 1, 2, 2, 2, 2, 6, 7, 7];
    for (cut, place) in places.into_iter().enumerate() {
        assert_eq!(verdict(&LEAST[..cut]), (1, place));
    }
    assert_eq!(encode(&Recording { kind: LARGER, table: Table::undated(vec![0], vec![]), events: vec![] }), LEAST);
}

#[test]
fn the_first_byte_decides_the_kind_and_any_other_is_2_at_0() {
    let with = |first: u8, after: &[u8]| verdict(&[&[first], after].concat());
    for first in [0, 1, 16, 32, 251, 252] {
        assert_eq!(with(first, &LEAST[1..]), (2, 0));
        // Before a fault in T, and before T is missed.
        assert_eq!(with(first, &[0]), (2, 0));
        assert_eq!(with(first, &[]), (2, 0));
    }
    for first in [253, 254] {
        assert_eq!(with(first, &LEAST[1..]), (0, 9));
        assert_eq!(with(first, &[0]), (2, 1));
        assert_eq!(with(first, &[first]), (2, 1));
        assert_eq!(with(first, &[]), (1, 1));
    }
    assert_eq!(verdict(&[]), (1, 0));
}

#[test]
fn an_arrival_has_four_bytes_for_its_set() {
    let head = [254, 2, 9, 0, 0, 0, 8, 0, 0, 0, 0, 1, 0];
    let with = |more: &[u8]| verdict(&[&head[..], more].concat());
    assert_eq!(with(&[1, 3, 0, 0, 0]), (0, 18));
    assert_eq!(with(&[1, 3, 0, 0, 0, 0]), (17, 18));
    for short in 0..5 {
        assert_eq!(with(&[1, 3, 0, 0, 0][..short]), (1, 13));
    }
    // The highest byte last.
    assert_eq!(with(&[1, 4, 0, 0, 0]), (12, 13));
    assert_eq!(with(&[1, 0, 0, 0, 0]), (12, 13));
    assert_eq!(with(&[1, 0, 0, 0, 1]), (12, 13));
    assert_eq!(with(&[1, 3, 0, 1, 0]), (12, 13));
    assert_eq!(with(&[1, 3, 0, 0, 0x80]), (12, 13));
    // As of 253 there are two bytes to it, and two extra.
    let of_smaller = [&[253], &head[1..]].concat();
    assert_eq!(verdict(&[&of_smaller[..], &[1, 3, 0]].concat()), (0, 16));
    assert_eq!(verdict(&[&of_smaller[..], &[1, 3, 0, 0, 0]].concat()), (17, 16));
}

/// Two events, so that a set of another width than the reader's shows in what
/// comes after it.
#[test]
fn a_set_of_the_other_width_shifts_what_follows() {
    let head = |first: u8| vec![first, 1, 7, 0, 0, 0, 0, 2, 0];
    let read = |first: u8, events: &[u8]| verdict(&[&head(first)[..], events].concat());
    assert_eq!(read(254, &[1, 1, 0, 0, 0, 2, 0]), (0, 16));
    assert_eq!(read(254, &[1, 1, 0, 2, 0]), (12, 9));
    assert_eq!(read(253, &[1, 1, 0, 2, 0]), (0, 14));
    assert_eq!(read(253, &[1, 1, 0, 0, 0, 2, 0]), (11, 12));
}

// ------------------------------------------------------------------ counts

#[test]
fn t_17_is_2_at_1_of_253_and_passes_of_254() {
    assert_eq!(verdict_on(SMALLER, 16, &[]), (0, 69));
    assert_eq!(verdict_on(SMALLER, 17, &[]), (2, 1));
    assert_eq!(verdict_on(LARGER, 16, &[]), (0, 69));
    assert_eq!(verdict_on(LARGER, 17, &[]), (0, 73));
    assert_eq!(verdict_on(LARGER, 32, &[]), (0, 133));
    assert_eq!(verdict_on(LARGER, 33, &[]), (2, 1));
    for tasks in 17..=255 {
        assert_eq!(verdict(&[253, tasks]), (2, 1));
    }
    for tasks in 33..=255 {
        assert_eq!(verdict(&[254, tasks]), (2, 1));
    }
    for tasks in 1..=32 {
        assert_eq!(verdict(&[254, tasks]), (1, 2));
    }
}

/// The first tasks with eight readers behind each, which are the last eight.
fn crowd(tasks: u8, links: usize) -> Vec<Link> {
    let pairs = (0..links as u8).map(|number| (number / 8, tasks - 8 + number % 8));
    pairs.map(|(writer, reader)| direct(writer, reader)).collect()
}

#[test]
fn l_33_is_3_of_253_and_passes_of_254() {
    assert_eq!(verdict_in(SMALLER, 16, &crowd(16, 32)), (0, 66 + 1 + 7 * 32 + 2));
    assert_eq!(verdict_in(SMALLER, 16, &crowd(16, 33)), (3, 66));
    assert_eq!(verdict_in(LARGER, 16, &crowd(16, 33)), (0, 66 + 1 + 7 * 33 + 2));
    assert_eq!(verdict_in(LARGER, 32, &crowd(32, 96)), (0, 130 + 1 + 7 * 96 + 2));
    assert_eq!(verdict_in(LARGER, 32, &crowd(32, 97)), (3, 130));
    for links in 33..=96 {
        assert_eq!(verdict_in(SMALLER, 16, &crowd(16, 32)[..1].repeat(links)), (3, 66));
    }
    // T before L.
    assert_eq!(verdict_in(SMALLER, 17, &crowd(17, 33)), (2, 1));
    assert_eq!(verdict_in(LARGER, 33, &crowd(33, 97)), (2, 1));
}

/// A writer has eight readers behind in tables of either size.
#[test]
fn a_ninth_reader_behind_is_9_of_either_kind() {
    let links: Vec<Link> = (1..=9).map(|reader| direct(0, reader)).collect();
    assert_eq!(verdict_on_links(16, &links[..8]), (0, 67 + 56 + 2));
    assert_eq!(verdict_on_links(16, &links), (9, 67 + 56));
    let last: Vec<Link> = (23..=31).map(|reader| direct(22, reader)).collect();
    assert_eq!(verdict_in(LARGER, 32, &last), (9, 131 + 56));
    assert_eq!(State::fresh(&table(32, &last[..8])).positions(22), 10);
}

#[test]
fn a_link_may_name_task_31_and_none_past_the_table() {
    assert_eq!(verdict_in(LARGER, 32, &[delayed(31, 31, 7)]), (0, 131 + 7 + 2));
    assert_eq!(verdict_in(LARGER, 32, &[direct(30, 31)]), (0, 131 + 7 + 2));
    assert_eq!(verdict_in(LARGER, 32, &[direct(31, 30)]), (7, 131));
    assert_eq!(verdict_in(LARGER, 32, &[direct(31, 31)]), (5, 131));
    assert_eq!(verdict_in(LARGER, 32, &[direct(31, 32)]), (4, 131));
    assert_eq!(verdict_in(LARGER, 32, &[delayed(32, 31, 7)]), (4, 131));
    assert_eq!(verdict_in(LARGER, 31, &[direct(30, 31)]), (4, 127));
    assert_eq!(verdict_in(SMALLER, 16, &[direct(15, 16)]), (4, 67));
}

#[test]
fn e_is_at_most_ten_thousand_of_either_kind() {
    for kind in UNDATED {
        let events = [A(1), S(0), F(0, 5)];
        let with = |count: usize| {
            let events: Vec<Event> = events.iter().cycle().take(count).copied().collect();
            let bytes = encode(&Recording { kind, table: table(1, &[]), events: untimed(&events) });
            (verdict(&bytes), bytes.len())
        };
        let (accepted, length) = with(10_000);
        assert_eq!(accepted, (0, length));
        assert_eq!(with(10_001).0, (10, 7));
    }
}

/// What both kinds have room for is read alike, but for the widths of sets.
#[test]
fn a_table_of_sixteen_tasks_may_stand_in_either_kind() {
    let sixteen = table(16, &[delayed(15, 0, 90), direct(0, 15), delayed(15, 15, 7)]);
    let round = |output: u32| [A(0x8001), S(0), R(0), F(0, output), S(15), R(1), R(2), F(15, output + 1)];
    let events = [round(10), round(20), round(30)].concat();
    assert_eq!(numbers(&sixteen, &events), [90, 10, 7, 11, 20, 11, 21, 30, 21]);
    let [smaller, larger] = UNDATED.map(|kind| {
        let bytes = encode(&Recording { kind, table: sixteen.clone(), events: untimed(&events) });
        let answer = Oracle.replay(&bytes, &[0; 9]);
        (bytes.len(), answer.state, answer.counts)
    });
    assert_eq!((smaller.0 + 3 * 2, smaller.1, smaller.2), larger);
}

// -------------------------------------------------------------------- sets

#[test]
fn a_set_may_name_every_task_of_the_table_and_no_other() {
    for (kind, most) in [(SMALLER, 16), (LARGER, 32)] {
        for tasks in 1..=most {
            let place = at_events(tasks as usize);
            let end = place + 1 + kind.set_bytes;
            assert_eq!(verdict_on(kind, tasks, &[A(1 << (tasks - 1))]), (0, end));
            assert_eq!(verdict_on(kind, tasks, &[A(u32::MAX >> (32 - tasks))]), (0, end));
            for past in tasks..most {
                assert_eq!(verdict_on(kind, tasks, &[A(1 << past)]), (12, place));
                assert_eq!(verdict_on(kind, tasks, &[A(1 << past | 1)]), (12, place));
            }
            assert_eq!(verdict_on(kind, tasks, &[A(0)]), (12, place));
        }
    }
}

/// Sixteen tasks and three past them, by the bits of a set in the larger kind.
#[test]
fn either_side_of_bit_15() {
    assert_eq!(verdict_on(LARGER, 16, &[A(1 << 15)]), (0, at_events(16) + 5));
    assert_eq!(verdict_on(LARGER, 16, &[A(1 << 16)]), (12, at_events(16)));
    assert_eq!(verdict_on(LARGER, 17, &[A(1 << 16)]), (0, at_events(17) + 5));
    assert_eq!(verdict_on(LARGER, 17, &[A(0x1_FFFF)]), (0, at_events(17) + 5));
    assert_eq!(verdict_on(LARGER, 31, &[A(1 << 31)]), (12, at_events(31)));
    assert_eq!(verdict_on(LARGER, 32, &[A(1 << 31)]), (0, at_events(32) + 5));
    // 13, of a task past the sixteenth alone.
    assert_eq!(verdict_on(LARGER, 32, &[A(1 << 16), A(0x3_0000)]), (13, at_events(32) + 5));
    assert_eq!(verdict_on(LARGER, 32, &[A(1 << 16), A(0xFFFE_FFFF)]), (0, at_events(32) + 10));
}

#[test]
fn the_last_task_lives_as_any_other() {
    let place = at_events(32);
    assert_eq!(verdict_on(LARGER, 32, &[S(31)]), (14, place));
    assert_eq!(verdict_on(LARGER, 32, &[F(31, 0)]), (15, place));
    assert_eq!(verdict_on(LARGER, 32, &[S(32)]), (12, place));
    assert_eq!(verdict_on(LARGER, 32, &[F(32, 0)]), (12, place));
    let run = [A(1 << 31), S(31), F(31, 9), A(1 << 31)];
    assert_eq!(verdict_on(LARGER, 32, &run), (0, place + 5 + 2 + 6 + 5));
    assert_eq!(verdict_on(LARGER, 32, &[A(3 << 30), S(31)]), (16, place + 5));
    assert_eq!(verdict_on(LARGER, 32, &[A(1 << 31), S(31), A(1 << 30), F(31, 9)]), (16, place + 5 + 2 + 5));
    assert_eq!(verdict_on(LARGER, 31, &[S(31)]), (12, at_events(31)));
}

// ----------------------------------------------------------------- numbers

/// The last link, from the twelfth writer to the last task.
#[test]
fn link_95_is_read_and_link_96_is_12() {
    let links = crowd(32, 96);
    assert_eq!((links[95].writer, links[95].reader), (11, 31));
    let full = table(32, &links);
    let events = [A(1 << 11 | 1 << 31), S(11), F(11, 77), S(31), R(95), R(87), F(31, 1)];
    // Task 10 has not run: its default.
    assert_eq!(numbers_in(LARGER, &full, &events), [77, 1010]);
    let refused = |link: u8| {
        let events = [&events[..4], &[R(link)]].concat();
        let bytes = encode(&Recording { kind: LARGER, table: full.clone(), events: untimed(&events) });
        let answer = Oracle.replay(&bytes, &[0; 10]);
        assert_eq!(disagreement(&answer, &zero_time_reading(&bytes, &[0; 10])), None);
        (answer.refusal, answer.place)
    };
    let place = 131 + 672 + 2 + 5 + 2 + 6 + 2;
    assert_eq!(refused(96), (12, place));
    assert_eq!(refused(255), (12, place));
    // Its reader is another one.
    assert_eq!(refused(94), (15, place));
    assert_eq!(refused(95), (0, place + 2));
}

/// All thirty-two at once, three times; each reads its own output, and the last
/// one that of the first, too.
#[test]
fn thirty_two_tasks_may_all_read_themselves() {
    let own = (0..32).map(|task| delayed(task, task, u32::from(task)));
    let others = (0..64).map(|number| direct(number / 8, 24 + number % 8));
    let links: Vec<Link> = own.chain(others).collect();
    assert_eq!(verdict_in(LARGER, 32, &links), (0, 131 + 672 + 2));
    assert_eq!(verdict_in(LARGER, 32, &[&links[..], &[direct(9, 24)]].concat()), (3, 130));
    let mut events = Vec::new();
    for round in 1..=3 {
        events.push(A(u32::MAX));
        events.extend((0..32).flat_map(|task| [S(task), R(task), F(task, 100 * round + u32::from(task))]));
        // Before its finish; links 39 and 95 are from tasks 0 and 7 to task 31.
        events.splice(events.len() - 1.., [R(39), R(95), F(31, 100 * round + 31)]);
    }
    let round = |own: u32, now: u32| (own..own + 32).chain([now, now + 7]).collect::<Vec<u32>>();
    let expected = [round(0, 100), round(100, 200), round(200, 300)].concat();
    assert_eq!(numbers_in(LARGER, &table(32, &links), &events), expected);
}

/// The deepest interruption: every task runs, and each is interrupted by the next.
#[test]
fn thirty_two_tasks_may_run_at_once() {
    let down = (0..32).rev().flat_map(|task| [A(1 << task), S(task)]);
    let up = (0..32).map(|task| F(task, 1));
    let full = table(32, &crowd(32, 96));
    let deepest: Vec<Event> = down.collect();
    assert_eq!(state_after(&full, &deepest).phase, [2; 32]);
    let state = state_after(&full, &deepest.iter().copied().chain(up).collect::<Vec<Event>>());
    assert_eq!((state.phase, state.seen), ([0; 32], [1; 32]));
}

#[test]
fn arrivals_are_counted_task_by_task() {
    let bytes = encode(&Recording { kind: LARGER, table: table(32, &[]), events: untimed(&[A(u32::MAX)]) });
    let answer = Oracle.replay(&bytes, &[]);
    assert_eq!((answer.refusal, answer.counts.arrivals), (0, 32));
}

// ------------------------------------------------------------ the longest

/// With all tasks arriving at once and no reads: of the larger kind 153 rounds of
/// 65 events and 261 bytes, and 55 events more, an arrival and 27 tasks' runs; of
/// the smaller one 303 rounds of 33 events and 131 bytes, and an arrival.
fn longest(kind: RecordingKind, count: usize) -> Vec<u8> {
    let (tasks, links) = (kind.limits.tasks as u8, kind.limits.links);
    let mut round = vec![A(u32::MAX >> (32 - tasks))];
    round.extend((0..tasks).flat_map(|task| [S(task), F(task, u32::MAX)]));
    let events = round.into_iter().cycle().take(count).map(Timed::from).collect();
    encode(&Recording { kind, table: table(u32::from(tasks), &crowd(tasks, links)), events })
}

#[test]
fn the_longest_that_is_accepted_and_one_event_or_byte_more() {
    let larger = 805 + 153 * 261 + 5 + 27 * 8;
    let smaller = 293 + 303 * 131 + 3;
    for (kind, length, events_at) in [(SMALLER, smaller, 291), (LARGER, larger, 803)] {
        let bytes = longest(kind, 10_000);
        assert_eq!(bytes.len(), length);
        assert_eq!(verdict(&bytes), (0, length));
        assert_eq!(verdict(&[&bytes[..], &[0]].concat()), (17, length));
        assert_eq!(verdict(&longest(kind, 10_001)), (10, events_at));
    }
    assert_eq!((smaller, larger), (39_989, 40_959));
}

/// No recording has more bytes than with 10,000 finishes, the longest records.
/// Such a one is never accepted; the length by itself is no reason to refuse it.
#[test]
fn no_recording_has_more_than_60_293_or_60_805_bytes() {
    for (kind, most) in [(SMALLER, 60_293), (LARGER, 60_805)] {
        assert_eq!(kind.most_bytes(), most);
        let head = longest(kind, 0);
        let mut bytes = [&head[..head.len() - 2], &10_000u16.to_le_bytes()].concat();
        let first = bytes.len();
        bytes.extend([4, 0, 1, 2, 3, 4].repeat(10_000));
        assert_eq!(bytes.len(), most);
        assert_eq!(verdict(&bytes), (15, first));
        assert_eq!(verdict(&[&bytes[..], &[0]].concat()), (15, first));
        bytes[first - 2..first].copy_from_slice(&10_001u16.to_le_bytes());
        assert_eq!(verdict(&bytes), (10, first - 2));
    }
}

// -------------------------------------------------------- the room of states

/// A table is judged by the room, whatever the limits of a recording are.
#[test]
fn a_table_by_itself_is_judged_by_the_room() {
    let made = |tasks: usize, links: usize| {
        let mut lent = LentTable::of(&table(32, &crowd(32, 96)));
        lent.tasks = tasks;
        lent.links = links;
        Oracle.fresh(&lent)
    };
    assert_eq!(made(32, 96), Made { refusal: 0, state: State::fresh(&table(32, &crowd(32, 96))) });
    for tasks in 1..=32 {
        assert_eq!(made(tasks, 0).refusal, 0);
    }
    for links in 0..=96 {
        assert_eq!(made(32, links).refusal, 0);
    }
    let single = |refusal: u8| Made { refusal, state: State::single() };
    for count in [33, 34, 255, 256 + 32, 1 << 16 | 16, usize::MAX] {
        assert_eq!(made(count, 0), single(2));
        assert_eq!(made(count, 97), single(2));
    }
    for count in [97, 98, 255, 256 + 96, 1 << 16 | 32, usize::MAX] {
        assert_eq!(made(32, count), single(3));
    }
    assert_eq!(made(0, 96), single(2));
}

/// The only clause that a change of a state with every slot in use breaks.
fn breaks(change: impl Fn(&mut State)) -> Option<Clause> {
    let mut state = state_after(&table(32, &crowd(32, 96)), &[A(1 << 31), S(31)]);
    change(&mut state);
    only_clause_broken(&state)
}

#[test]
fn a_saved_state_is_judged_by_the_room() {
    assert_eq!(breaks(|_| {}), None);
    assert_eq!(breaks(|state| state.tasks = 33), Some(Clause::Tasks));
    assert_eq!(breaks(|state| state.tasks = 255), Some(Clause::Tasks));
    assert_eq!(breaks(|state| state.links = 97), Some(Clause::Links));
    assert_eq!(breaks(|state| state.links = 95), None);
    // Links to readers that are then not in the table.
    assert_eq!(breaks(|state| state.tasks = 31), Some(Clause::NamesNoTask));
    for tasks in [17, 31, 32] {
        assert_eq!(only_clause_broken(&State::fresh(&table(tasks, &crowd(17, 33)))), None);
    }
}

#[test]
fn the_last_slots_are_looked_at() {
    assert_eq!(breaks(|state| state.phase[31] = 3), Some(Clause::Phase));
    assert_eq!(breaks(|state| state.newest[31] = 3), Some(Clause::Newest));
    assert_eq!(breaks(|state| state.previous[31] = 0), Some(Clause::Previous));
    assert_eq!(breaks(|state| state.seen[31] = 3), Some(Clause::Seen));
    assert_eq!(breaks(|state| state.seen[31] = 0), Some(Clause::ActiveWithoutArrivals));
    assert_eq!(breaks(|state| state.pointer[95] = 0), Some(Clause::ActiveReaderWithout));
    assert_eq!(breaks(|state| state.pointer[95] = 10), None);
    assert_eq!(breaks(|state| state.pointer[95] = 11), Some(Clause::Pointer));
    assert_eq!(breaks(|state| state.pointer[94] = 1), Some(Clause::IdleReaderWith));
    assert_eq!(breaks(|state| state.mark[95] = 1), Some(Clause::MarkAtDirect));
    assert_eq!(breaks(|state| state.kind[95] = 2), Some(Clause::Kind));
    assert_eq!(breaks(|state| state.start_value[95] = 1), Some(Clause::DirectWithStart));
    assert_eq!(breaks(|state| state.writer[95] = 10), Some(Clause::SecondToReader));
}

#[test]
fn single_events_know_thirty_two_tasks_and_ninety_six_links() {
    let state = state_after(&table(32, &crowd(32, 96)), &[A(1 << 31), S(31)]);
    let refusal = |event: Event| Oracle.one_event(&state, event.into()).refusal;
    assert_eq!(refusal(A(0x7FFF_FFFF)), 0);
    assert_eq!(refusal(A(u32::MAX)), 13);
    assert_eq!(refusal(A(0)), 12);
    assert_eq!(refusal(R(95)), 0);
    assert_eq!(refusal(R(94)), 15);
    assert_eq!(refusal(R(96)), 12);
    assert_eq!(refusal(S(31)), 14);
    assert_eq!(refusal(S(32)), 12);
    assert_eq!(refusal(F(31, 0)), 0);
    assert_eq!(refusal(F(32, 0)), 12);
    let of_31 = State::fresh(&table(31, &[]));
    assert_eq!(Oracle.one_event(&of_31, A(1 << 31).into()).refusal, 12);
    assert_eq!(Oracle.one_event(&of_31, A(1 << 30).into()).refusal, 0);
}
