//! Each call of the library from Rust for dated recordings and states by deadlines: an example, either side of each tick and deadline, refusals and
//! what they leave, and what is written, and read again.
use parnusild::{
    replay, rest, write, Event, State, Table, Written, BY_DEADLINE, DATED_KIND, FIXED, MOST_TICK, LINKS, RECORDING,
    TASKS,
};
use Event::{Arrival, Finish, Read, Start};

/// A table from its defaults and its links: writer, reader, kind, start value.
fn table(defaults: &[u32], links: &[(u8, u8, u8, u32)]) -> Table {
    let mut t = Table {
        tasks: defaults.len(),
        links: links.len(),
        defaults: [7; TASKS],
        writer: [9; LINKS],
        reader: [9; LINKS],
        kind: [9; LINKS],
        start_value: [9; LINKS],
    };
    t.defaults[..defaults.len()].copy_from_slice(defaults);
    for (l, &(w, r, k, v)) in links.iter().enumerate() {
        t.writer[l] = w;
        t.reader[l] = r;
        t.kind[l] = k;
        t.start_value[l] = v;
    }
    t
}

/// Relative deadlines as they are lent: past the tasks stand 0, which no task may have.
fn lent(deadlines: &[u16]) -> [u16; TASKS] {
    let mut slots = [0; TASKS];
    slots[..deadlines.len()].copy_from_slice(deadlines);
    slots
}

fn fresh(t: &Table, deadlines: &[u16]) -> State {
    let made = State::fresh_dated(t, &lent(deadlines));
    assert_eq!(made.refusal, 0);
    made.state
}

/// The bytes of a dated recording, by docs/FORMAT.md.
fn record(t: &Table, deadlines: &[u16], events: &[(u32, Event)]) -> Vec<u8> {
    let mut b = vec![255, t.tasks as u8];
    for (default, deadline) in t.defaults.iter().zip(deadlines).take(t.tasks) {
        b.extend(default.to_le_bytes());
        b.extend(deadline.to_le_bytes());
    }
    b.push(t.links as u8);
    for l in 0..t.links {
        b.extend([t.writer[l], t.reader[l], t.kind[l]]);
        b.extend(t.start_value[l].to_le_bytes());
    }
    b.extend((events.len() as u16).to_le_bytes());
    for (tick, e) in events {
        let (kind, fields) = match *e {
            Arrival(set) => (1, set.to_le_bytes().to_vec()),
            Start(task) => (2, vec![task as u8]),
            Read(link) => (3, vec![link as u8]),
            Finish(task, value) => (4, [&[task as u8][..], &value.to_le_bytes()].concat()),
        };
        b.push(kind);
        b.extend(tick.to_le_bytes());
        b.extend(fields);
    }
    b
}

/// Tasks with relative deadlines 5, 2 and 5, so that task 1 is ahead of task 0, and task 0 of task 2; links 0 to 1, ahead, delayed with start value
/// 40; 1 to 0, behind, direct; 0 to 2, behind, direct.
const DEADLINES: [u16; 3] = [5, 2, 5];

fn example_table() -> Table {
    table(&[100, 101, 102], &[(0, 1, 1, 40), (1, 0, 0, 0), (0, 2, 0, 0)])
}

/// Task 0 is due at 5, and so is task 1 that arrives at 3: that goes first. The one that arrives at 4 is due at 6, and waits for task 0.
#[rustfmt::skip]
const EVENTS: [(u32, Event); 16] = [
    (0, Arrival(0b001)), (1, Start(0)), (2, Arrival(0b100)),
    (3, Arrival(0b010)), (3, Start(1)), (3, Read(0)), (3, Finish(1, 11)),
    (4, Arrival(0b010)), (4, Read(1)), (5, Finish(0, 5)),
    (5, Start(1)), (6, Read(0)), (6, Finish(1, 12)),
    (6, Start(2)), (7, Read(2)), (7, Finish(2, 21)),
];

const NUMBERS: [u32; 4] = [40, 101, 40, 5];

/// The state after these events, none of which is refused.
fn after(state: &State, events: &[(u32, Event)]) -> State {
    let mut s = state.clone();
    for (tick, event) in events {
        assert!(s.event_at(*tick, *event).is_ok(), "{:?} at {}", event, tick);
    }
    s
}

/// An event as a call takes it: its kind, its set, task or link, and its value.
fn in_numbers(event: Event) -> (u8, u32, u32) {
    match event {
        Arrival(set) => (1, set, 0),
        Start(task) => (2, task, 0),
        Read(link) => (3, link, 0),
        Finish(task, value) => (4, task, value),
    }
}

/// The refusal that a state gives an event at a tick, 0 for none, by either call; a refusal has the number 0 and leaves the state as it was.
fn refusal(s: &State, tick: u32, event: Event) -> u8 {
    let mut after = s.clone();
    let (kind, which, value) = in_numbers(event);
    let (refusal, number) = after.call_at(tick, kind, which, value);
    if refusal != 0 {
        assert_eq!(number, 0, "the number of a refused event");
        assert_eq!(&after, s, "the state after a refused event");
    }
    assert_eq!(s.clone().event_at(tick, event), if refusal == 0 { Ok(number) } else { Err(refusal) });
    refusal
}

#[test]
fn the_example_whole_and_event_by_event() {
    let bytes = record(&example_table(), &DEADLINES, &EVENTS);
    let mut list = [77; 5];
    let a = replay(&bytes, &mut list);
    assert_eq!((a.refusal, a.place, list), (0, bytes.len(), [40, 101, 40, 5, 77]));
    assert_eq!([a.arrivals, a.starts, a.reads, a.finishes], [4, 4, 4, 4]);
    assert!(rest(&bytes, &a).is_empty());
    let mut s = fresh(&example_table(), &DEADLINES);
    let mut read = Vec::new();
    for (tick, event) in EVENTS {
        let number = s.event_at(tick, event).unwrap();
        assert_eq!(s.times.last, tick);
        if let Read(_) = event {
            read.push(number);
        }
    }
    assert_eq!(read, NUMBERS);
    assert_eq!(s, a.state);
    assert_eq!((s.times.last, s.times.policy, s.times.since), (7, BY_DEADLINE, [0; TASKS]));
}

/// A power cut: the answer is that of the whole records, with 1 at the first that isn't whole; before E the state is that of fixed priorities.
#[test]
fn every_cut() {
    let bytes = record(&example_table(), &DEADLINES, &EVENTS);
    let place_of = |i: usize| record(&example_table(), &DEADLINES, &EVENTS[..i]).len();
    for cut in 0..bytes.len() {
        let a = replay(&bytes[..cut], &mut [77; 4]);
        assert_eq!(a.refusal, 1, "cut at {}", cut);
        if cut < place_of(0) {
            assert_eq!(a.state, State::fresh(&table(&[0], &[])).state);
            assert_eq!(a.state.times.policy, FIXED);
            continue;
        }
        let whole = (0..16).rev().find(|&i| place_of(i) <= cut).unwrap();
        assert_eq!(a.place, place_of(whole));
        assert_eq!(a.state, after(&fresh(&example_table(), &DEADLINES), &EVENTS[..whole]));
    }
}

#[test]
fn counts_and_their_limits() {
    let early = |bytes: &[u8]| {
        let a = replay(bytes, &mut []);
        assert_eq!(a.state, State::fresh(&table(&[0], &[])).state);
        (a.refusal, a.place)
    };
    assert_eq!(early(&[255, 0]), (2, 1));
    assert_eq!(early(&[255, 32]), (1, 2));
    assert_eq!(early(&[255, 33]), (2, 1));
    assert_eq!(early(&[255, 1, 9, 0, 0, 0, 1]), (1, 2));
    assert_eq!(early(&[255, 1, 9, 0, 0, 0, 0, 0]), (24, 2));
    assert_eq!(early(&[255, 2, 9, 0, 0, 0, 0, 1, 9, 0, 0, 0, 0, 0]), (24, 8));
    assert_eq!(early(&[255, 1, 9, 0, 0, 0, 1, 0, 96]), (1, 9));
    assert_eq!(early(&[255, 1, 9, 0, 0, 0, 1, 0, 97]), (3, 8));
    assert_eq!(early(&[255, 1, 9, 0, 0, 0, 1, 0, 0, 0x71, 0x17]), (10, 9));
    let a = replay(&[255, 1, 9, 0, 0, 0, 1, 0, 0, 0x70, 0x17], &mut []);
    assert_eq!((a.refusal, a.place, a.state.times.policy), (1, 11, 1), "6,000 events, none of them there");
}

/// The longest recording, of which all events are finishes: it is read up to the first, since no task runs.
#[test]
fn the_longest_recording() {
    let links: Vec<_> = (0..96).map(|l| (l % 32, (l + [0, 1, 31][usize::from(l / 32)]) % 32, 1, 5)).collect();
    let bytes = record(&table(&[7; TASKS], &links), &[9; TASKS], &[(1, Finish(0, 1)); 6_000]);
    let a = replay(&bytes, &mut []);
    assert_eq!((bytes.len(), a.refusal, a.place, rest(&bytes, &a).len()), (RECORDING, 15, 869, 60_000));
}

/// 2, then 24, then 3, then what the first link at fault earns, by the order of relative deadlines; the state is then that of fixed priorities.
#[test]
fn tables() {
    let refusal = |t: &Table, deadlines: &[u16]| {
        let made = State::fresh_dated(t, &lent(deadlines));
        assert!(made.refusal == 0 || made.state == State::fresh(&table(&[0], &[])).state);
        made.refusal
    };
    let direct = table(&[0; 2], &[(0, 1, 0, 0)]);
    assert_eq!(refusal(&direct, &[1, 1]), 0);
    assert_eq!(refusal(&direct, &[1, 2]), 0);
    assert_eq!(refusal(&direct, &[2, 1]), 7);
    assert_eq!(refusal(&direct, &[256, 255]), 7);
    assert_eq!(refusal(&table(&[0; 2], &[(1, 0, 0, 0)]), &[2, 1]), 0);
    assert_eq!(refusal(&direct, &[1, 0]), 24);
    assert_eq!(refusal(&direct, &[0, 65_535]), 24);
    assert_eq!(refusal(&Table { links: 97, ..direct.clone() }, &[1, 1]), 3);
    assert_eq!(refusal(&Table { links: 97, ..direct.clone() }, &[1, 0]), 24);
    assert_eq!(refusal(&Table { tasks: 33, ..direct.clone() }, &[1, 0]), 2);
    assert_eq!(refusal(&Table { tasks: 0, ..direct }, &[1, 0]), 2);
    // nine readers, all of them behind where the writer's own relative deadline is the smallest
    let nine: Vec<_> = (0..9).map(|r| (9, r, 1, 3)).collect();
    let mut deadlines = [5; 10];
    assert_eq!(refusal(&table(&[0; 10], &nine), &deadlines), 0);
    deadlines[9] = 4;
    assert_eq!(refusal(&table(&[0; 10], &nine), &deadlines), 9);
}

/// The calls without a tick are for a state of fixed priorities, those with one for a state by deadlines: else 19, before all else.
#[test]
fn a_call_is_for_a_state_of_its_policy() {
    let fixed = State::fresh(&example_table()).state;
    let dated = fresh(&example_table(), &DEADLINES);
    for kind in 0..=5 {
        for which in [0, 1, 256, u32::MAX] {
            let mut s = fixed.clone();
            assert_eq!((s.call_at(0, kind, which, 5), &s), ((19, 0), &fixed));
            let mut s = dated.clone();
            assert_eq!((s.call(kind, which, 5), &s), ((19, 0), &dated));
        }
    }
    let mut s = dated.clone();
    assert_eq!(s.call_at(u32::MAX, 5, 0, 0), (11, 0), "an unknown kind is told before a tick");
    assert_eq!(s.event_at(0, Arrival(1)), Ok(0));
}

/// 12, then 22 and 21, then 13 to 16, then 23.
#[test]
fn ticks_and_deadlines() {
    let s = after(&fresh(&table(&[0; 2], &[]), &[2, 9]), &[(5, Arrival(0b11)), (5, Start(0))]);
    for tick in [4, MOST_TICK + 1, u32::MAX] {
        for event in [Arrival(0), Arrival(4), Start(2), Read(0), Finish(2, 0), Start(256), Finish(u32::MAX, 0)] {
            assert_eq!(refusal(&s, tick, event), 12);
        }
    }
    for event in [Arrival(1), Start(0), Finish(1, 0), Start(1), Finish(0, 1)] {
        assert_eq!((refusal(&s, 4, event), refusal(&s, MOST_TICK + 1, event)), (21, 22));
    }
    assert_eq!([Arrival(1), Start(0), Finish(1, 0), Start(1)].map(|e| refusal(&s, 8, e)), [13, 14, 15, 16]);
    assert_eq!([5, 6, 7, 8, MOST_TICK].map(|tick| refusal(&s, tick, Finish(0, 1))), [0, 0, 0, 23, 23]);
    let last = after(&fresh(&table(&[0; 2], &[]), &[65_535, 1]), &[(MOST_TICK, Arrival(1))]);
    assert_eq!((refusal(&last, MOST_TICK, Arrival(2)), refusal(&last, MOST_TICK - 1, Arrival(2))), (0, 21));
}

/// Of two jobs the one that is due first; of those due at once the one with the smaller relative deadline, then the earlier in the table.
#[test]
fn which_job_may_run() {
    let starts = |deadlines: &[u16], second: u32| {
        let s = after(&fresh(&table(&[0; 2], &[]), deadlines), &[(1, Arrival(1)), (second, Arrival(2))]);
        [0, 1].map(|task| refusal(&s, second, Start(task)))
    };
    assert_eq!([1, 2, 3].map(|tick| starts(&[4, 2], tick)), [[16, 0]; 3]);
    assert_eq!(starts(&[4, 2], 4), [0, 16]);
    assert_eq!(starts(&[2, 2], 1), [0, 16]);
    assert_eq!(starts(&[1, 2], 1), [0, 16]);
}

/// A finish passes so many ticks after the arrival, and is 23 one tick later.
#[test]
fn the_largest_relative_deadline() {
    let one = fresh(&table(&[0], &[]), &[65_535]);
    for since in [0, 1, 1_000, MOST_TICK - 65_536] {
        let s = after(&one, &[(since, Arrival(1)), (since, Start(0))]);
        assert_eq!([65_535, 65_536].map(|ticks: u32| refusal(&s, since + ticks, Finish(0, 1))), [0, 23]);
    }
}

/// A saved state may have a relative deadline that no recording has, and a job that is due at a tick that 32 bits can't hold: it goes after
/// those that are due earlier, and is never late.
#[test]
fn relative_deadlines_that_no_recording_has() {
    let since = MOST_TICK - 70_000;
    let begun = after(&fresh(&table(&[0; 2], &[]), &[9, 9]), &[(since, Arrival(0b11))]);
    let saved = |deadlines: [u32; 2]| {
        let mut s = begun.clone();
        s.times.deadline[..2].copy_from_slice(&deadlines);
        s
    };
    let starts = |deadlines: [u32; 2]| [0, 1].map(|task| refusal(&saved(deadlines), MOST_TICK, Start(task)));
    // with this one a job is due at 2^32, which is 0 in 32 bits
    let past_32_bits = u32::MAX - since + 1;
    assert_eq!(starts([65_536, 65_537]), [0, 16]);
    assert_eq!(starts([65_537, 65_536]), [16, 0]);
    assert_eq!(starts([past_32_bits - 1, past_32_bits]), [0, 16]);
    assert_eq!(starts([past_32_bits, past_32_bits - 1]), [16, 0]);
    assert_eq!(starts([u32::MAX, 1]), [16, 0]);
    assert_eq!(starts([u32::MAX, u32::MAX]), [0, 16]);
    let finish = |deadline: u32, ticks: u32| {
        let s = after(&saved([deadline, u32::MAX]), &[(since, Start(0))]);
        refusal(&s, since + ticks, Finish(0, 1))
    };
    assert_eq!([65_536, 65_537].map(|ticks| finish(65_536, ticks)), [0, 23]);
    assert_eq!([past_32_bits - 1, past_32_bits, u32::MAX].map(|deadline| finish(deadline, 70_000)), [0; 3]);
}

/// What soundness asks of times, each by one change of a sound state.
#[test]
fn unsound_times() {
    let good = after(&fresh(&table(&[0; 2], &[(1, 0, 0, 0)]), &[9, 5]), &[(4, Arrival(2)), (6, Start(1))]);
    let answer = |change: fn(&mut State)| {
        let mut s = good.clone();
        change(&mut s);
        s.event_at(MOST_TICK, Arrival(1))
    };
    assert_eq!(answer(|_| ()), Ok(0));
    assert_eq!(answer(|s| s.times.deadline[0] = 0), Err(19));
    assert_eq!(answer(|s| s.times.deadline[1] = 9), Err(19), "the direct link leads to a reader ahead");
    assert_eq!(answer(|s| s.times.deadline[1] = 8), Ok(0));
    assert_eq!(answer(|s| s.times.since[1] = 6), Ok(0));
    assert_eq!(answer(|s| s.times.since[1] = 7), Err(19), "after the last tick");
    assert_eq!(answer(|s| s.times.since[0] = 1), Err(19), "of an idle task");
    assert_eq!(answer(|s| s.times.last = MOST_TICK), Ok(0));
    assert_eq!(answer(|s| s.times.last = MOST_TICK + 1), Err(19));
    assert_eq!(answer(|s| s.times.last = 3), Err(19), "before an arrival");
    assert_eq!(answer(|s| s.times.policy = 0), Err(19));
    assert_eq!(answer(|s| s.times.policy = 2), Err(19));
    assert_eq!(answer(|s| s.times.since[2] = 77), Ok(0), "past the tasks");
}

/// The refusal and the place with so much room; a refusal must leave the buffer as it was, an acceptance what is past the place.
fn written(tasks: &[u32], links: &[u32], events: &[u32], room: usize) -> (u8, usize, Vec<u8>) {
    let mut bytes = vec![77; room];
    let Written { refusal, place } = write(DATED_KIND, tasks, links, events, &mut bytes);
    let kept = if refusal == 0 { place } else { 0 };
    assert!(bytes[kept..].iter().all(|&b| b == 77), "refusal {} at {}: {:?}", refusal, place, bytes);
    bytes.truncate(kept);
    (refusal, place, bytes)
}

/// The example as it is handed over.
fn example_numbers() -> (Vec<u32>, Vec<u32>, Vec<u32>) {
    let t = example_table();
    let tasks = (0..3).flat_map(|task| [t.defaults[task], DEADLINES[task].into()]);
    let links = (0..t.links).flat_map(|l| [t.writer[l].into(), t.reader[l].into(), t.kind[l].into(), t.start_value[l]]);
    let events = EVENTS.iter().flat_map(|(tick, e)| match *e {
        Arrival(set) => vec![1, *tick, set],
        Start(task) => vec![2, *tick, task],
        Read(link) => vec![3, *tick, link],
        Finish(task, value) => vec![4, *tick, task, value],
    });
    (tasks.collect(), links.collect(), events.collect())
}

#[test]
fn the_example_is_written_and_replayed() {
    let (tasks, links, events) = example_numbers();
    let bytes = record(&example_table(), &DEADLINES, &EVENTS);
    let whole = bytes.len();
    for room in [whole, whole + 1] {
        assert_eq!(written(&tasks, &links, &events, room), (0, whole, bytes.clone()));
    }
    for room in [whole - 1, 1, 0] {
        assert_eq!(written(&tasks, &links, &events, room), (18, whole, vec![]));
    }
    for cut in 0..tasks.len() {
        let (refusal, place, _) = written(&tasks[..cut], &[], &[], 100);
        let wanted = match cut {
            0 => (2, 1),
            _ if cut % 2 == 1 => (1, 2 + cut / 2 * 6),
            _ => (0, 2 + cut / 2 * 6 + 3),
        };
        assert_eq!((refusal, place), wanted);
    }
}

#[test]
fn writing_is_refused_as_reading_is() {
    let given = |tasks: &[u32], events: &[u32]| {
        let (refusal, place, _) = written(tasks, &[], events, RECORDING);
        (refusal, place)
    };
    for deadline in [0, 65_536, 65_537, 1 << 31, u32::MAX] {
        assert_eq!(given(&[9, 1, 9, deadline], &[]), (24, 8));
    }
    assert_eq!(given(&[9, 1, 9, 65_535], &[]), (0, 17));
    assert_eq!(given(&[9; 65], &[]), (2, 1));
    assert_eq!(given(&[9, 1], &[1, MOST_TICK, 1]), (0, 20));
    assert_eq!(given(&[9, 1], &[1, MOST_TICK + 1, 1]), (22, 11));
    let then = |events: &[u32]| given(&[9, 2, 9, 9], &[&[1, 5, 3, 2, 5, 0], events].concat());
    assert_eq!(then(&[2, MOST_TICK + 1, 256]), (12, 32));
    assert_eq!(then(&[2, MOST_TICK + 1, 0]), (22, 32));
    assert_eq!(then(&[2, 4, 0]), (21, 32));
    assert_eq!(then(&[2, 5, 0]), (14, 32));
    assert_eq!(then(&[2, 5, 1]), (16, 32));
    assert_eq!(then(&[4, 8, 0, 1]), (23, 32));
    assert_eq!(then(&[4, 7, 0, 1]), (0, 42));
    assert_eq!(then(&[4, 7, 0]), (1, 32));
    assert_eq!(then(&[4]), (1, 32));
    assert_eq!(then(&[5, 7]), (11, 32));
    assert_eq!(given(&[9, 1], &[1, 0, 1].repeat(6_001)), (10, 9));
    assert_eq!(given(&[9, 1], &[1, 0, 1].repeat(6_000)), (13, 20));
}
