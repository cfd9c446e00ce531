//! Where the named fields of a state stand in the three arrays that the library is lent: by their offsets, by what the library puts into
//! each of them, and by what it takes from each of them; and how large the library takes a state to be.
use parnusild::{
    sizes, Control, Event, State, Table, Times, Values, CELLS, CONTROL, LINKS, POSITIONS, TASKS, TIMES, VALUES,
};
use std::array::from_fn;
use std::mem::size_of;
use Event::{Arrival, Finish, Read, Start};

/// Where a field begins in its struct and how long it is, both in elements.
fn region<S, E, const LENGTH: usize>(whole: &S, field: &[E; LENGTH]) -> (usize, usize) {
    let bytes = field.as_ptr() as usize - whole as *const S as usize;
    (bytes / size_of::<E>(), LENGTH)
}

/// The numbers are those of the proved layout, crates/mailbox_layout/src/lib.rt.
#[test]
fn each_field_stands_where_the_layout_has_its_region() {
    let State { control, values, times, .. } = amid_a_round();
    assert_eq!(region(&control, &control.phase), (0, 32));
    assert_eq!(region(&control, &control.newest), (32, 32));
    assert_eq!(region(&control, &control.previous), (64, 32));
    assert_eq!(region(&control, &control.seen), (96, 32));
    assert_eq!(region(&control, &control.pointer), (128, 96));
    assert_eq!(region(&control, &control.mark), (224, 96));
    assert_eq!(region(&control, &control.writer), (320, 96));
    assert_eq!(region(&control, &control.reader), (416, 96));
    assert_eq!(region(&control, &control.kind), (512, 96));
    assert_eq!((CONTROL, size_of::<Control>()), (608, 608));
    assert_eq!(region(&values, &values.defaults), (0, 32));
    assert_eq!(region(&values, &values.start_value), (32, 96));
    assert_eq!(region(&values, &values.cells), (128, 320));
    assert_eq!((VALUES, size_of::<Values>()), (448, 4 * 448));
    assert_eq!(region(&times, &times.deadline), (0, 32));
    assert_eq!(region(&times, &times.since), (32, 32));
    assert_eq!(region(&times, std::array::from_ref(&times.last)), (64, 1));
    assert_eq!(region(&times, std::array::from_ref(&times.policy)), (65, 1));
    assert_eq!((TIMES, size_of::<Times>()), (66, 4 * 66));
}

#[test]
fn the_library_has_the_sizes_of_the_host() {
    assert_eq!(sizes(), [32, 96, 608, 448, 66]);
    assert_eq!(sizes(), [TASKS, LINKS, CONTROL, VALUES, TIMES]);
}

/// As many tasks and links as there can be, so that no slot of a region is left out: each task writes to the next one, then each to the one
/// before, then each to itself; direct where the reader is behind. A delayed one has a start value of its own.
fn full_table() -> Table {
    let step = [1, TASKS - 1, 0];
    let writer: [u8; LINKS] = from_fn(|l| (l % TASKS) as u8);
    let reader: [u8; LINKS] = from_fn(|l| ((l + step[l / TASKS]) % TASKS) as u8);
    let kind: [u8; LINKS] = from_fn(|l| u8::from(reader[l] <= writer[l]));
    let start_value = from_fn(|l| if kind[l] == 1 { 2000 + l as u32 } else { 0 });
    Table { tasks: TASKS, links: LINKS, defaults: from_fn(|t| 1000 + t as u32), writer, reader, kind, start_value }
}

/// A state in which no two regions hold the same: the odd tasks have run once; then all but task 30 have arrived, tasks 0 and 1 have run,
/// and task 2 runs.
fn amid_a_round() -> State {
    let odd_ones_run = (1..32).step_by(2).flat_map(|t| [Start(t), Finish(t, 100 + t)]);
    let then = [Arrival(0xbfff_ffff), Start(0), Finish(0, 500), Start(1), Finish(1, 501), Start(2)];
    let mut state = State::fresh(&full_table()).state;
    for event in [Arrival(0xaaaa_aaaa)].into_iter().chain(odd_ones_run).chain(then) {
        assert_eq!(state.event(event), Ok(0), "{:?}", event);
    }
    state
}

/// Position `p` of task `t`, after `amid_a_round`: what the last finish there was given, else the default.
fn number_at(t: usize, p: usize) -> u32 {
    match (t, p) {
        (0, 2) => 500,
        (1, 1) => 501,
        (_, 2) if t % 2 == 1 => 100 + t as u32,
        _ => 1000 + t as u32,
    }
}

/// One entry for each task, in turn for those of even and of odd number, but for some tasks.
fn by_turns(even: u8, odd: u8, others: &[(usize, u8)]) -> [u8; TASKS] {
    let mut list = from_fn(|t| if t % 2 == 0 { even } else { odd });
    for &(task, other) in others {
        list[task] = other;
    }
    list
}

#[test]
fn the_library_puts_each_field_of_a_task_where_the_host_has_it() {
    let State { tasks, control, values, .. } = amid_a_round();
    assert_eq!(tasks, 32);
    assert_eq!(control.phase, by_turns(1, 1, &[(0, 0), (1, 0), (2, 2), (30, 0)]));
    assert_eq!(control.newest, by_turns(2, 1, &[(30, 1)]));
    assert_eq!(control.previous, by_turns(1, 2, &[]));
    assert_eq!(control.seen, by_turns(1, 2, &[(30, 0)]));
    let defaults: [u32; TASKS] = from_fn(|t| 1000 + t as u32);
    assert_eq!(values.defaults, defaults);
    let cells: [u32; CELLS] = from_fn(|c| number_at(c / POSITIONS, c % POSITIONS + 1));
    assert_eq!(values.cells, cells);
}

/// The links from each task to the next one, then those to the one before, then those to itself. The last of the first and the first of the second go
/// around the ends.
#[test]
fn the_library_puts_each_field_of_a_link_where_the_host_has_it() {
    let State { links, control, values, .. } = amid_a_round();
    assert_eq!(links, 96);
    // a direct link has the writer's newest position, a delayed one its previous; absent are the pointer from task 0 to task 1, which has
    // finished, and all three to task 30, which has not arrived
    assert_eq!(control.pointer[..32], by_turns(2, 1, &[(0, 0), (29, 0), (30, 1), (31, 2)]));
    assert_eq!(control.pointer[32..64], by_turns(1, 2, &[(0, 2), (31, 0)]));
    assert_eq!(control.pointer[64..], by_turns(1, 2, &[(30, 0)]));
    // a mark has each delayed link from an even task, which has had fewer than two arrivals, where its reader has arrived
    assert_eq!(control.mark[..32], [0; 32]);
    assert_eq!(control.mark[32..64], by_turns(1, 0, &[(0, 0)]));
    assert_eq!(control.mark[64..], by_turns(1, 0, &[(30, 0)]));
    let each: [u8; TASKS] = from_fn(|t| t as u8);
    assert_eq!(control.writer[..], each.repeat(3));
    assert_eq!((&control.reader[..31], &control.reader[31..33]), (&each[1..], &[0, 31][..]));
    assert_eq!((&control.reader[33..64], &control.reader[64..]), (&each[..31], &each[..]));
    assert_eq!(control.kind[..31], [0; 31]);
    assert_eq!(control.kind[31..33], [1, 0]);
    assert_eq!(control.kind[33..], [1; 63]);
    assert_eq!(values.start_value[..31], [0; 31]);
    assert_eq!(values.start_value[31..33], [2031, 0]);
    let start_values: [u32; 63] = from_fn(|l| 2033 + l as u32);
    assert_eq!(values.start_value[33..], start_values);
}

/// The fresh state of four tasks and one direct link, from task 0 to task 2; with its own number in each position.
fn one_link() -> State {
    let mut reader = [0; LINKS];
    reader[0] = 2;
    let table = Table {
        tasks: 4,
        links: 1,
        defaults: [0; TASKS],
        writer: [0; LINKS],
        reader,
        kind: [0; LINKS],
        start_value: [0; LINKS],
    };
    let mut state = State::fresh(&table).state;
    state.values.cells = from_fn(|c| 100 + c as u32);
    state
}

/// The same, while task 2 runs and task 3 waits.
fn reader_runs() -> State {
    let mut state = one_link();
    for event in [Arrival(0b1100), Start(2)] {
        assert_eq!(state.event(event), Ok(0));
    }
    state
}

/// The answer to an event, and the state after it, where the host has changed the state before.
fn changed(mut state: State, change: fn(&mut State), event: Event) -> (Result<u32, u8>, State) {
    change(&mut state);
    let answer = state.event(event);
    (answer, state)
}

#[test]
fn a_read_takes_each_field_from_where_the_host_has_it() {
    let read = |change: fn(&mut State)| changed(reader_runs(), change, Read(0)).0;
    assert_eq!(read(|_| ()), Ok(100), "position 1 of task 0");
    assert_eq!(read(|s| s.values.cells[0] = 7), Ok(7));
    assert_eq!(read(|s| s.control.pointer[0] = 2), Ok(101), "position 2 of task 0");
    assert_eq!(read(|s| s.control.writer[0] = 1), Ok(110), "position 1 of task 1");
    assert_eq!(read(|s| s.control.reader[0] = 3), Err(15), "task 3 only waits");
    assert_eq!(read(|s| s.control.phase[2] = 1), Err(15), "task 2 only waits");
    assert_eq!(read(|s| s.control.seen[2] = 0), Err(19), "task 2 runs without an arrival");
}

/// Makes link 0 a delayed one with start value 55.
fn delay(s: &mut State) {
    s.control.kind[0] = 1;
    s.values.start_value[0] = 55;
}

/// And gives it a mark.
fn delay_and_mark(s: &mut State) {
    delay(s);
    s.control.mark[0] = 1;
}

#[test]
fn a_read_takes_mark_and_start_value_from_where_the_host_has_them() {
    let read = |change: fn(&mut State)| changed(reader_runs(), change, Read(0)).0;
    assert_eq!(read(delay_and_mark), Ok(55));
    let writer_arrived_twice = |s: &mut State| {
        delay(s);
        s.control.seen[0] = 2;
    };
    assert_eq!(read(writer_arrived_twice), Ok(100), "no mark: position 1 of task 0");
    assert_eq!(read(delay), Err(19), "no mark, though task 0 has not arrived");
}

#[test]
fn an_arrival_takes_each_field_from_where_the_host_has_it() {
    let pointer = |change: fn(&mut State)| changed(one_link(), change, Arrival(0b0100)).1.control.pointer[0];
    assert_eq!(pointer(|_| ()), 1);
    assert_eq!(pointer(|s| s.control.newest[0] = 2), 2, "direct: where the writer is");
    assert_eq!(pointer(|s| s.control.previous[0] = 3), 1);
    let delayed = |s: &mut State| {
        s.control.kind[0] = 1;
        s.control.newest[0] = 2;
        s.control.previous[0] = 3;
    };
    assert_eq!(pointer(delayed), 3, "delayed: where the writer was");
    let seen = |change: fn(&mut State)| changed(one_link(), change, Arrival(0b0100)).1.control.seen;
    assert_eq!(seen(|_| ())[..4], [0, 0, 1, 0]);
    assert_eq!(seen(|s| s.control.seen[2] = 1)[..4], [0, 0, 2, 0]);
    assert_eq!(seen(|s| s.control.seen[2] = 2)[..4], [0, 0, 2, 0]);
}

#[test]
fn an_arrival_puts_the_mark_where_the_host_has_it() {
    let mark_of_delayed = |seen_of_writer: u8| {
        let mut state = one_link();
        delay(&mut state);
        state.control.seen[0] = seen_of_writer;
        assert_eq!(state.event(Arrival(0b0100)), Ok(0));
        state.control.mark[0]
    };
    assert_eq!([0, 1, 2].map(mark_of_delayed), [1, 1, 0]);
    assert_eq!(changed(one_link(), |_| (), Arrival(0b0100)).1.control.mark[0], 0, "direct");
}

#[test]
fn a_finish_takes_each_field_from_where_the_host_has_it() {
    let positions = |change: fn(&mut State)| {
        let (answer, after) = changed(reader_runs(), change, Finish(2, 9));
        assert_eq!(answer, Ok(0));
        (after.values.cells[20], after.values.cells[21])
    };
    assert_eq!(positions(|_| ()), (120, 9));
    assert_eq!(positions(|s| s.control.newest[2] = 1), (9, 121));
}

/// A finish takes the mark away with the pointer.
#[test]
fn a_finish_takes_the_mark_from_where_the_host_has_it() {
    let (answer, after) = changed(reader_runs(), delay_and_mark, Finish(2, 9));
    assert_eq!((answer, after.control.pointer[0], after.control.mark[0]), (Ok(0), 0, 0));
    assert_eq!(after.values.start_value[0], 55);
}

/// An event neither looks at a default nor changes one.
#[test]
fn an_event_leaves_the_defaults_where_the_host_has_them() {
    let other_defaults = |s: &mut State| s.values.defaults = from_fn(|t| 1000 + t as u32);
    for event in [Arrival(1), Start(3), Read(0), Finish(2, 9)] {
        let mut expected = reader_runs();
        let answer = expected.event(event);
        other_defaults(&mut expected);
        assert_eq!(changed(reader_runs(), other_defaults, event), (answer, expected));
    }
}

/// As many tasks as there can be, with relative deadlines that rise with the table from 10 on.
fn full_table_dated() -> State {
    State::fresh_dated(&full_table(), &from_fn(|t| 10 + t as u16)).state
}

/// Task 0 has run from 100 to 102; then each other one has arrived, task t at 102 and t; and task 1 runs from 133 on, when it is late.
fn dated_amid_a_round() -> State {
    let mut state = full_table_dated();
    let first = [(100, Arrival(1)), (101, Start(0)), (102, Finish(0, 500))];
    let others = (1..32).map(|t| (102 + t, Arrival(1 << t)));
    for (tick, event) in first.into_iter().chain(others).chain([(133, Start(1))]) {
        assert_eq!(state.event_at(tick, event), Ok(0), "{:?} at {}", event, tick);
    }
    state
}

#[test]
fn the_library_puts_each_time_where_the_host_has_it() {
    let fresh = full_table_dated().times;
    let deadline: [u32; TASKS] = from_fn(|t| 10 + t as u32);
    assert_eq!(fresh, Times { deadline, since: [0; TASKS], last: 0, policy: 1 });
    let since: [u32; TASKS] = from_fn(|t| if t == 0 { 0 } else { 102 + t as u32 });
    assert_eq!(dated_amid_a_round().times, Times { deadline, since, last: 133, policy: 1 });
    let fixed = Times { deadline: [0; TASKS], since: [0; TASKS], last: 0, policy: 0 };
    assert_eq!(amid_a_round().times, fixed);
}

#[test]
fn an_event_takes_each_time_from_where_the_host_has_it() {
    let given = |change: fn(&mut State), tick: u32, event: Event| {
        let mut state = dated_amid_a_round();
        change(&mut state);
        state.event_at(tick, event)
    };
    assert_eq!(given(|_| (), 133, Finish(1, 9)), Err(23), "task 1 is due at 114");
    assert_eq!(given(|s| s.times.since[1] = 133, 133, Finish(1, 9)), Err(16), "task 1 is due at 144, task 2 at 116");
    assert_eq!(given(|s| s.times.since[31] = 50, 133, Start(31)), Ok(0), "task 31 is due at 91");
    let with_deadline = |s: &mut State| {
        s.times.since[31] = 50;
        s.times.deadline[31] = 70;
    };
    assert_eq!(given(with_deadline, 133, Start(31)), Err(16), "task 31 is due at 120");
    assert_eq!(given(|s| s.times.last = 134, 133, Arrival(1)), Err(21));
    assert_eq!(given(|s| s.times.last = 134, 134, Arrival(1)), Ok(0));
    assert_eq!(given(|s| s.times.policy = 0, 133, Arrival(1)), Err(19));
    assert_eq!(given(|s| s.times.deadline[31] = 0, 133, Arrival(1)), Err(19));
    assert_eq!(given(|s| s.times.since[31] = 134, 133, Arrival(1)), Err(19));
    assert_eq!(given(|s| s.times.since[0] = 1, 133, Arrival(1)), Err(19), "task 0 is idle");
}
