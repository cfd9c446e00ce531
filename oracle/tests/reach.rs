//! A run that reached nothing is told so, item by item.

use oracle::engine::{Engine, FreshEngine};
use oracle::example::own_output_example;
use oracle::format::{encode, untimed, Event, Link, Recording, Table};
use oracle::pointers::Pointers;
use oracle::reach::Reached;
use oracle::sizes::{RecordingKind, KINDS};
use oracle::subject::{Oracle, Subject};
use Event::{Arrival as A, Finish as F, Read as R, Start as S};

#[test]
fn all_that_was_not_reached_is_named() {
    let missing = Reached::default().missing();
    // 20 refusals in recordings of each kind and 4 more in dated ones, 2 of none, 10 of one event, 11 of tables, 19 of
    // writing each kind and 4 more of a dated one, 1 of none; then recordings written again and refused alike, and wide
    // sets; then states of the other policy, either way; then the lines: 8, 6 and 6 of a kind, and 4 first bytes; then
    // how deep and how far; and in recordings and saved states 9 items of start values and marks, 9 of self links, 11 of
    // the last task and link, and 14 of ticks.
    let refusals = 3 * 20 + 4 + 2 + 10 + 11 + 3 * 19 + 4 + 1;
    assert_eq!(missing.len(), refusals + 3 + 2 + 8 + 6 + 6 + 4 + 6 + 2 * (9 + 9 + 11 + 14));
    let named = [
        "refusal 18 in recordings of 253",
        "refusal 20 in recordings of 254",
        "refusal 23 in recordings of 255",
        "refusal 2 in recordings of no kind",
        "refusal 19 of one event",
        "refusal 20 of tables",
        "refusal 20 of writing 253",
        "refusal 3 of writing 254",
        "refusal 24 of writing 255",
        "refusal 2 of writing no kind",
        "20 recordings of 253 refused for links for which a state has room: 0",
        "20 recordings of 254 accepted with the most tasks: 0",
        "5 recordings of 255 accepted with the most events: 0",
        "5 recordings of 255 refused with one event more: 0",
        "20 recordings that begin with 252: 0",
        "20 reads by link 95 in recordings: 0",
        "20 finishes of task 31 in saved states: 0",
        "100 reads of a start value in recordings: 0",
        "100 marks gone at a finish in saved states: 0",
        "100 reads by a self link of its start value in recordings: 0",
        "100 direct self links refused after a delayed one in saved states: 0",
        "20 finishes at the deadline in recordings: 0",
        "20 ticks refused one below the last in saved states: 0",
        "100 sound states refused without a tick: 0",
    ];
    assert_all(&missing, &named);
}

#[test]
fn what_was_reached_is_not_named() {
    let mut reached = Reached::default();
    reached.states = 99_528;
    let before = reached.missing();
    assert_eq!(before.last().unwrap(), "99529 states by every sequence of events: 99528");
    reached.states += 1;
    reached.read.note(Some(254), 7);
    let after = reached.missing();
    let gone: Vec<&String> = before.iter().filter(|what| !after.contains(what)).collect();
    assert_eq!(gone, ["refusal 7 in recordings of 254", "99529 states by every sequence of events: 99528"]);
}

/// The example has three runs of tasks that read their own output, the first two
/// of which are first runs.
#[test]
fn what_self_links_did_is_counted() {
    let mut reached = Reached::default();
    let Recording { table, events, .. } = own_output_example();
    let mut engine = Pointers::fresh(&table);
    for event in events {
        let before = engine.state;
        engine.apply(event);
        reached.recordings.note_event(&before, event, &engine.state);
    }
    let own = |task: u8, kind: u8| Link::of([task, task, kind], 0);
    for links in [vec![own(0, 1), own(1, 0)], vec![own(0, 0), own(1, 1)]] {
        let table = Table::undated(vec![0; 2], links);
        let bytes = encode(&Recording { kind: RecordingKind::SIXTEEN, table, events: Vec::new() });
        let answer = Oracle.replay(&bytes, &[]);
        assert_eq!(answer.refusal, 5);
        reached.note_recording(&bytes, &answer);
    }
    let all = (0..16).map(|task| own(task, 1)).collect::<Vec<Link>>();
    reached.recordings.note_table(16, &all);
    reached.recordings.note_table(16, &all[1..]);
    reached.recordings.note_table(15, &all[1..]);
    let named = [
        "100 reads by a self link of its start value in recordings: 2",
        "100 reads by a self link of the output of the run before in recordings: 1",
        "100 pointers of self links set while the task's newest moves in recordings: 3",
        "100 positions taken that a self link pointed to in recordings: 1",
        "100 pointers of self links kept at a finish in recordings: 3",
        "100 marks of self links kept at a finish in recordings: 2",
        "100 tables of 16 tasks that all have a self link in recordings: 1",
        "100 tables of 32 tasks that all have a self link in recordings: 0",
        "100 direct self links refused after a delayed one in recordings: 1",
    ];
    assert_all(&reached.missing(), &named);
}

/// Two tasks of thirty-two, by the last of ninety-six links; then an event past
/// the end of each: of the tasks, of the links, and of two bytes.
#[test]
fn what_the_last_task_and_link_did_is_counted() {
    let mut reached = Reached::default();
    let links = (0..96).map(|number| Link::of([number / 8, 24 + number % 8, 0], 0)).collect();
    let table = Table::undated(vec![0; 32], links);
    let events = [A(1 << 31 | 1 << 11), S(11), F(11, 7), S(31), R(95), F(31, 8)];
    let mut engine = Pointers::fresh(&table);
    for event in untimed(&events) {
        let before = engine.state;
        engine.apply(event);
        reached.recordings.note_event(&before, event, &engine.state);
    }
    let sixteen = Table::undated(vec![0; 16], Vec::new());
    for (table, event) in [(&table, S(32)), (&table, F(32, 0)), (&table, R(96)), (&sixteen, A(1 << 16))] {
        assert_eq!(note(&mut reached, RecordingKind::THIRTY_TWO, table, event), 12);
    }
    assert_all(
        &reached.missing(),
        &[
            "20 arrivals of task 31 in recordings: 1",
            "20 starts of task 31 in recordings: 1",
            "20 finishes of task 31 in recordings: 1",
            "20 reads by task 31 in recordings: 1",
            "20 reads by a link of task 31 in recordings: 0",
            "20 reads by link 95 in recordings: 1",
            "20 reads by link 95, its writer with ten positions in recordings: 1",
            "20 arrivals of more than 16 tasks at once in recordings: 0",
            "20 sets refused for tasks past the first 16 alone in recordings: 1",
            "20 starts and finishes of task 32 of 32 refused in recordings: 2",
            "20 reads by link 96 of 96 refused in recordings: 1",
        ],
    );
}

/// Notes a recording of one event, which is refused with the answer.
fn note(reached: &mut Reached, kind: RecordingKind, table: &Table, event: Event) -> u8 {
    note_whole(reached, Recording { kind, table: table.clone(), events: untimed(&[event]) })
}

/// The same of the first so many events of a task that runs again and again; where
/// there are ticks all are at 0.
fn note_runs(reached: &mut Reached, kind: RecordingKind, count: usize) -> u8 {
    let deadlines = Some(vec![1]).filter(|_| kind.dated);
    let table = Table { deadlines, ..Table::undated(vec![0], Vec::new()) };
    let events: Vec<Event> = [A(1), S(0), F(0, 5)].into_iter().cycle().take(count).collect();
    note_whole(reached, Recording { kind, table, events: untimed(&events) })
}

fn note_whole(reached: &mut Reached, recording: Recording) -> u8 {
    let bytes = encode(&recording);
    let answer = Oracle.replay(&bytes, &[]);
    reached.note_recording(&bytes, &answer);
    answer.refusal
}

fn assert_all(missing: &[String], named: &[&str]) {
    for what in named {
        assert!(missing.iter().any(|named| named == what), "{} in {:?}", what, missing);
    }
}

#[test]
fn either_side_of_the_limits_is_counted_by_kind() {
    let mut reached = Reached::default();
    let (smaller, larger) = (RecordingKind::SIXTEEN, RecordingKind::THIRTY_TWO);
    let refusals =
        [(smaller, 16), (smaller, 17), (smaller, 32), (smaller, 33), (larger, 17), (larger, 32), (larger, 33)].map(
            |(kind, tasks)| {
                let table = Table::undated(vec![0; tasks], Vec::new());
                note(&mut reached, kind, &table, A(1))
            },
        );
    assert_eq!(refusals, [0, 2, 2, 2, 0, 0, 2]);
    for first in [0, 251, 252, 252] {
        reached.note_recording(&[first], &Oracle.replay(&[first], &[]));
    }
    assert_all(
        &reached.missing(),
        &[
            "20 recordings of 253 accepted with the most tasks: 1",
            "20 recordings of 253 accepted with the most links: 0",
            "20 recordings of 253 refused with one task more: 1",
            "20 recordings of 253 refused for tasks for which a state has room: 2",
            "20 recordings of 254 accepted with the most tasks: 1",
            "20 recordings of 254 refused with one task more: 1",
            "20 recordings that begin with 0: 1",
            "20 recordings that begin with 16: 0",
            "20 recordings that begin with 251: 1",
            "20 recordings that begin with 252: 2",
        ],
    );
}

#[test]
fn either_side_of_the_most_events_is_counted_by_kind() {
    let mut reached = Reached::default();
    let refusals = KINDS.map(|kind| {
        let most = kind.most_events;
        [most - 1, most, most + 1, most + 2].map(|count| note_runs(&mut reached, kind, count))
    });
    assert_eq!(refusals, [[0, 0, 10, 10]; 3]);
    for kind in [253, 254, 255] {
        let accepted = format!("5 recordings of {} accepted with the most events: 1", kind);
        let refused = format!("5 recordings of {} refused with one event more: 1", kind);
        assert_all(&reached.missing(), &[&accepted, &refused]);
    }
}
