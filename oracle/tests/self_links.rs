//! Request 2026-04, a task that reads its own last output: cases worked out by
//! hand.

mod common;

use common::{delayed, direct, numbers, only_clause_broken, state_after, table, verdict, verdict_in, verdict_on_links};
use oracle::example::own_output_example;
use oracle::format::{encode, untimed, Event, Link, Recording, Table};
use oracle::handovers::split;
use oracle::sizes::RecordingKind;
use oracle::state::{Clause, State};
use oracle::subject::{Oracle, Subject};
use oracle::writing::{write, Handover, Written};
use Event::{Arrival as A, Finish as F, Read as R, Start as S};

/// A filter alone in its table.
fn filter(start_value: u32) -> Table {
    table(1, &[delayed(0, 0, start_value)])
}

/// A run of a task that reads once.
fn run(task: u8, link: u8, output: u32) -> [Event; 4] {
    [A(1 << task), S(task), R(link), F(task, output)]
}

// ------------------------------------------------------------------- rules

#[test]
fn a_link_from_a_task_to_itself_is_5_only_when_direct() {
    assert_eq!(verdict_on_links(1, &[direct(0, 0)]), (5, 7));
    assert_eq!(verdict_on_links(1, &[delayed(0, 0, 0)]), (0, 16));
    for task in 0..16 {
        assert_eq!(verdict_on_links(16, &[direct(task, task)]), (5, 67));
        assert_eq!(verdict_on_links(16, &[delayed(task, task, 40)]), (0, 76));
    }
    for start_value in [0, 1, 1 << 8, 1 << 31, u32::MAX] {
        assert_eq!(verdict_on_links(2, &[delayed(1, 1, start_value)]), (0, 20));
        // Before 20, which is about every direct link.
        assert_eq!(verdict_on_links(2, &[Link { start_value, ..direct(1, 1) }]), (5, 11));
    }
    // The link beside it is judged as ever.
    assert_eq!(verdict_on_links(2, &[delayed(0, 0, 40), direct(1, 1)]), (5, 18));
    assert_eq!(verdict_on_links(2, &[delayed(0, 0, 40), direct(1, 0)]), (7, 18));
    assert_eq!(verdict_on_links(2, &[delayed(0, 0, 40), Link { start_value: 1, ..direct(0, 1) }]), (20, 18));
}

#[test]
fn rising_order_for_a_link_to_itself() {
    for kind in [2, 3, 128, 255] {
        assert_eq!(verdict_on_links(2, &[Link::of([1, 1, kind], 0)]), (6, 11));
        assert_eq!(verdict_on_links(2, &[Link::of([1, 1, kind], 9)]), (6, 11));
        assert_eq!(verdict_on_links(2, &[delayed(1, 1, 9), Link::of([1, 1, kind], 9)]), (6, 18));
        assert_eq!(verdict_on_links(2, &[Link::of([2, 2, kind], 9)]), (4, 11));
    }
    assert_eq!(verdict_on_links(2, &[direct(2, 2)]), (4, 11));
    assert_eq!(verdict_on_links(2, &[delayed(2, 2, 9)]), (4, 11));
    // Before 8.
    assert_eq!(verdict_on_links(2, &[delayed(1, 1, 9), direct(1, 1)]), (5, 18));
}

#[test]
fn a_task_has_one_link_to_itself() {
    assert_eq!(verdict_on_links(2, &[delayed(0, 0, 40), delayed(0, 0, 40)]), (8, 18));
    assert_eq!(verdict_on_links(2, &[delayed(0, 0, 40), delayed(0, 1, 5), delayed(0, 0, 41)]), (8, 25));
    assert_eq!(verdict_on_links(2, &[delayed(0, 0, 40), delayed(1, 1, 40)]), (0, 27));
    let every_pair = [delayed(0, 0, 1), delayed(0, 1, 2), delayed(1, 0, 3), delayed(1, 1, 4)];
    assert_eq!(verdict_on_links(2, &every_pair), (0, 41));
}

#[test]
fn it_is_none_of_the_eight_readers_behind() {
    let behind: Vec<Link> = (1..=8).map(|reader| direct(0, reader)).collect();
    let own = [delayed(0, 0, 40)];
    for at in 0..=8 {
        let nine = [&behind[..at], &own, &behind[at..]].concat();
        assert_eq!(verdict_on_links(10, &nine), (0, 43 + 63 + 2));
        assert_eq!(State::fresh(&table(10, &nine)).positions(0), 8 + 2);
        assert_eq!(verdict_on_links(10, &[&nine[..], &[direct(0, 9)]].concat()), (9, 43 + 63));
        assert_eq!(verdict_on_links(10, &[&nine[..], &[delayed(0, 9, 1)]].concat()), (9, 43 + 63));
    }
    assert_eq!(verdict_on_links(10, &[&behind[..], &[direct(0, 9)], &own].concat()), (9, 43 + 56));
    assert_eq!(State::fresh(&filter(40)).positions(0), 2);
    assert_eq!(State::fresh(&table(2, &[delayed(1, 1, 0), delayed(1, 0, 0)])).positions(1), 2);
}

#[test]
fn sixteen_tasks_may_all_have_one() {
    let own = (0..16).map(|task| delayed(task, task, u32::from(task)));
    let others = (0..16).map(|number| direct(number / 8, 8 + number % 8));
    let links: Vec<Link> = own.chain(others).collect();
    assert_eq!(verdict_on_links(16, &links), (0, 67 + 7 * 32 + 2));
    assert_eq!(verdict_in(RecordingKind::SIXTEEN, 16, &[&links[..], &links[..1]].concat()), (3, 66));
    let sixteen = table(16, &links);
    let mut events = Vec::new();
    for round in 1..=3 {
        events.push(A(0xFFFF));
        events.extend((0..16).flat_map(|task| [S(task), R(task), F(task, 100 * round + u32::from(task))]));
    }
    let expected: Vec<u32> = [0..16, 100..116, 200..216].into_iter().flatten().collect();
    assert_eq!(numbers(&sixteen, &events), expected);
}

// ----------------------------------------------------------------- numbers

#[test]
fn a_filter_adds_to_its_own_last_output() {
    let mut events = Vec::new();
    for read in 40..44 {
        events.extend(run(0, 0, read + 1));
    }
    assert_eq!(numbers(&filter(40), &events), [40, 41, 42, 43]);
}

#[test]
fn however_often_it_reads_it_reads_the_run_before() {
    let events = [&run(0, 0, 41)[..], &[A(1), S(0), R(0), R(0), R(0), F(0, 77)], &run(0, 0, 0), &run(0, 0, 0)].concat();
    assert_eq!(numbers(&filter(40), &events), [40, 41, 41, 41, 77, 0]);
    // Without a read the run still has its output.
    let events = [A(1), S(0), F(0, 5), A(1), S(0), F(0, 6), A(1), S(0), R(0), F(0, 7)];
    assert_eq!(numbers(&filter(40), &events), [6]);
}

#[test]
fn its_start_value_is_its_own_and_no_default() {
    let table = table(2, &[delayed(0, 0, 40), delayed(0, 1, 50), delayed(1, 1, 60), delayed(1, 0, 70)]);
    let first = [A(3), S(0), R(0), R(3), F(0, 1), S(1), R(1), R(2), F(1, 2)];
    assert_eq!(numbers(&table, &first), [40, 70, 50, 60]);
    assert_eq!(numbers(&table, &[first, first].concat()), [40, 70, 50, 60, 1, 2, 1, 2]);
}

/// Another task's arrivals move nothing, while it waits, while it runs, and
/// between its runs.
#[test]
fn interruptions_do_not_touch_what_it_reads() {
    let table = table(2, &[delayed(1, 1, 40), direct(0, 1)]);
    let other = |output: u32| [A(1), S(0), F(0, output)];
    let filtered = |output: u32| {
        [&[A(2)][..], &other(1), &other(2), &[S(1), R(0)], &other(3), &[R(0), R(1), F(1, output)], &other(4)].concat()
    };
    // By link 1 what the other put out last before its arrival: nothing, and then 4.
    assert_eq!(numbers(&table, &filtered(41)), [40, 40, 1000]);
    assert_eq!(numbers(&table, &[filtered(41), filtered(42)].concat()), [40, 40, 1000, 41, 41, 4]);
}

/// Readers behind and ahead get what they got before there were self links.
#[test]
fn the_task_writes_to_others_as_ever() {
    let to_the_last = |link: Link| table(3, &[link, delayed(1, 0, 91), delayed(1, 1, 40)]);
    let round = |output: u32| [A(7), S(0), R(1), F(0, 0), S(1), R(2), F(1, output), S(2), R(0), F(2, 0)];
    let events = [round(41), round(42), round(43)].concat();
    assert_eq!(numbers(&to_the_last(direct(1, 2)), &events), [91, 40, 41, 41, 41, 42, 42, 42, 43]);
    assert_eq!(numbers(&to_the_last(delayed(1, 2, 90)), &events), [91, 40, 90, 41, 41, 41, 42, 42, 42]);
}

#[test]
fn the_example_of_two_filters() {
    let Recording { table, events, .. } = own_output_example();
    let events: Vec<Event> = events.iter().map(|timed| timed.event).collect();
    assert_eq!(numbers(&table, &events), [40, 41, 7, 41]);
}

// ---------------------------------------------------------------- pointers

#[test]
fn its_pointer_is_previous_from_the_arrival_on_and_stays_at_finish() {
    let after = |events: &[Event]| {
        let state = state_after(&filter(40), events);
        (state.newest[0], state.previous[0], state.pointer[0], state.mark[0])
    };
    let runs = [run(0, 0, 41), run(0, 0, 42), run(0, 0, 43)].concat();
    assert_eq!(after(&[]), (1, 1, 0, 0));
    // The first run: from arrival to finish, and idle after it, with its mark.
    for events in 1..=4 {
        assert_eq!(after(&runs[..events]), (2, 1, 1, 1));
    }
    for events in 5..=8 {
        assert_eq!(after(&runs[..events]), (1, 2, 2, 0));
    }
    for events in 9..=12 {
        assert_eq!(after(&runs[..events]), (2, 1, 1, 0));
    }
}

#[test]
fn its_pointer_is_not_protected() {
    let table = table(3, &[delayed(0, 0, 40), direct(0, 1), delayed(0, 2, 50)]);
    let once = [A(1), S(0), F(0, 41)];
    let first = state_after(&table, &once);
    assert_eq!((first.newest[0], first.pointer[0]), (2, 1));
    // Position 1 is the lowest that is not `previous`, although the pointer of the link to itself is there.
    let second = state_after(&table, &[&once[..], &[A(1)]].concat());
    assert_eq!((second.newest[0], second.previous[0], second.pointer[0]), (1, 2, 2));
    // A reader behind that points there protects it.
    let second = state_after(&table, &[&[A(4)][..], &once, &[A(1)]].concat());
    assert_eq!((second.newest[0], second.previous[0], &second.pointer[..3]), (3, 2, &[2, 0, 1][..]));
}

#[test]
fn a_finish_frees_the_pointers_from_writers_ahead_alone() {
    let table = table(3, &[direct(0, 1), delayed(1, 1, 40), delayed(2, 1, 50)]);
    let state = state_after(&table, &[A(2), S(1), F(1, 41)]);
    assert_eq!((&state.pointer[..3], &state.mark[..3]), (&[0, 1, 1][..], &[0, 1, 1][..]));
}

// --------------------------------------------------------------- soundness

/// A filter that has run twice, and one that waits in its first run; a third
/// that has not come yet.
fn three_filters() -> State {
    let table = table(3, &[delayed(0, 0, 40), delayed(1, 1, 50), delayed(2, 2, 60), direct(0, 2)]);
    state_after(&table, &[&run(0, 0, 41)[..], &run(0, 0, 42), &[A(2)]].concat())
}

/// The only clause that a change breaks, none if the state stays sound.
fn breaks(change: impl Fn(&mut State)) -> Option<Clause> {
    let mut state = three_filters();
    assert_eq!((&state.seen[..3], &state.phase[..3]), (&[2, 1, 0][..], &[0, 1, 0][..]));
    assert_eq!((&state.pointer[..4], &state.mark[..4]), (&[2, 1, 0, 0][..], &[0, 1, 0, 0][..]));
    change(&mut state);
    only_clause_broken(&state)
}

#[test]
fn an_idle_task_may_have_its_pointer_or_not() {
    assert_eq!(breaks(|_| {}), None);
    assert_eq!(breaks(|state| state.pointer[0] = 0), None);
    for position in 1..=3 {
        assert_eq!(breaks(|state| state.pointer[0] = position), None);
    }
    // Before it has had two arrivals with the mark, as every delayed link.
    let present = |mark: u8| {
        move |state: &mut State| {
            state.pointer[2] = 2;
            state.mark[2] = mark;
        }
    };
    assert_eq!(breaks(present(1)), None);
    assert_eq!(breaks(present(0)), Some(Clause::MarkMissing));
    assert_eq!(breaks(|state| state.mark[2] = 1), Some(Clause::MarkWithoutPointer));
    assert_eq!(breaks(|state| state.mark[0] = 1), None);
    assert_eq!(breaks(|state| state.mark[0] = 2), Some(Clause::Mark));
}

#[test]
fn an_active_task_must_have_its_pointer() {
    let absent = |state: &mut State| {
        state.pointer[1] = 0;
        state.mark[1] = 0;
    };
    assert_eq!(breaks(absent), Some(Clause::ActiveReaderWithout));
    assert_eq!(breaks(|state| state.pointer[1] = 2), None);
    assert_eq!(breaks(|state| state.mark[1] = 0), Some(Clause::MarkMissing));
    let later = |state: &mut State| {
        state.seen[1] = 2;
        state.mark[1] = 0;
    };
    assert_eq!(breaks(later), None);
    let running = |state: &mut State| {
        state.phase[0] = 2;
        state.pointer[0] = 0;
    };
    assert_eq!(breaks(running), Some(Clause::ActiveReaderWithout));
}

#[test]
fn its_pointer_lies_within_the_positions_without_it() {
    // Task 0 has one reader behind, the others none.
    assert_eq!(breaks(|state| state.pointer[0] = 4), Some(Clause::Pointer));
    assert_eq!(breaks(|state| state.pointer[1] = 3), Some(Clause::Pointer));
    assert_eq!(breaks(|state| state.newest[0] = 3), None);
    assert_eq!(breaks(|state| state.newest[0] = 4), Some(Clause::Newest));
    assert_eq!(breaks(|state| state.previous[1] = 3), Some(Clause::Previous));
}

#[test]
fn the_rules_of_tables_hold_in_states() {
    assert_eq!(breaks(|state| state.kind[0] = 0), Some(Clause::DirectToItself));
    let without_start = |state: &mut State| {
        state.kind[1] = 0;
        state.start_value[1] = 0;
    };
    assert_eq!(breaks(without_start), Some(Clause::DirectToItself));
    assert_eq!(breaks(|state| state.kind[1] = 2), Some(Clause::Kind));
    let second = |state: &mut State| {
        state.writer[2] = 1;
        state.reader[2] = 1;
    };
    assert_eq!(breaks(second), Some(Clause::SecondToReader));
    // The direct link, turned to its own writer.
    assert_eq!(breaks(|state| state.writer[3] = 2), Some(Clause::DirectToItself));
}

/// A pointer that no history leads to, in a sound state.
#[test]
fn a_read_goes_by_the_pointer_and_the_mark() {
    let mut state = state_after(&filter(40), &[&run(0, 0, 41)[..], &run(0, 0, 42), &[A(1), S(0)]].concat());
    let read = |state: &State| {
        let answer = Oracle.one_event(state, R(0).into());
        (answer.refusal, answer.value)
    };
    assert_eq!((state.newest[0], state.previous[0], read(&state)), (2, 1, (0, 42)));
    state.pointer[0] = 2;
    assert_eq!(read(&state), (0, 41));
    state.mark[0] = 1;
    assert_eq!(read(&state), (0, 40));
    state.pointer[0] = 0;
    assert_eq!(read(&state), (19, 0));
}

// ----------------------------------------------------------------- writing

#[test]
fn the_writer_writes_it_as_the_reader_reads_it() {
    let handover = |defaults: &[u32], links: &[u32], events: &[u32]| Handover {
        kind: 253,
        tasks: defaults.to_vec(),
        links: links.to_vec(),
        events: events.to_vec(),
    };
    let filter = handover(&[9], &[0, 0, 1, 40], &[1, 1, 2, 0, 3, 0, 4, 0, 41]);
    let mut buffer = [0xA5; 29];
    assert_eq!(write(&filter, &mut buffer), Written { refusal: 0, place: 29 });
    #[rustfmt::skip]
    let expected = [
        253, 1, 9, 0, 0, 0, 1, 0, 0, 1, 40, 0, 0, 0,
        4, 0, 1, 1, 0, 2, 0, 3, 0, 4, 0, 41, 0, 0, 0,
    ];
    assert_eq!(buffer, expected);
    let read = Oracle.replay(&buffer, &[0; 1]);
    assert_eq!((read.refusal, read.place, read.list), (0, 29, vec![40]));
    let refused = |links: &[u32]| {
        let mut buffer = [0xA5; 100];
        let written = write(&handover(&[9, 8], links, &[]), &mut buffer);
        assert_eq!(buffer, [0xA5; 100]);
        (written.refusal, written.place)
    };
    assert_eq!(refused(&[0, 0, 0, 0]), (5, 11));
    assert_eq!(refused(&[0, 0, 0, 40]), (5, 11));
    for kind in [2, 255, 256, 257, u32::MAX] {
        assert_eq!(refused(&[0, 0, kind, 40]), (6, 11));
    }
    assert_eq!(refused(&[0, 0, 1, 40, 0, 0, 1, 40]), (8, 18));
    assert_eq!(refused(&[0, 0, 1, 40, 1, 1, 0, 0]), (5, 18));
    assert_eq!(refused(&[0, 0, 1]), (1, 11));
    assert_eq!(refused(&[256, 256, 1, 40]), (4, 11));
}

#[test]
fn accepted_ones_written_again_give_the_same_bytes() {
    let two = Recording {
        kind: RecordingKind::SIXTEEN,
        table: table(2, &[delayed(1, 1, u32::MAX), delayed(0, 0, 0)]),
        events: untimed(&run(1, 0, 7)),
    };
    for recording in [own_output_example(), two] {
        let bytes = encode(&recording);
        assert_eq!(Oracle.replay(&bytes, &[0; 9]).refusal, 0);
        let mut buffer = vec![0xA5; bytes.len()];
        assert_eq!(Oracle.write(&split(&bytes), &mut buffer), Written { refusal: 0, place: bytes.len() });
        assert_eq!(buffer, bytes);
    }
}

/// The bytes of the smallest table with one, and each cut of them.
#[test]
fn its_record_has_seven_bytes_like_any_other() {
    let kind = RecordingKind::SIXTEEN;
    let bytes = encode(&Recording { kind, table: filter(0x0403_0201), events: Vec::new() });
    assert_eq!(bytes, [253, 1, 0xE8, 3, 0, 0, 1, 0, 0, 1, 1, 2, 3, 4, 0, 0]);
    assert_eq!(verdict(&bytes), (0, 16));
    for cut in 7..14 {
        assert_eq!(verdict(&bytes[..cut]), (1, 7));
    }
    assert_eq!(verdict(&bytes[..14]), (1, 14));
}
