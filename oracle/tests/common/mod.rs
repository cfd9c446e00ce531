//! What the tests of single requests share; none uses all of it.

#![allow(dead_code)]

use oracle::engine::{Engine, FreshEngine};
use oracle::format::{encode, untimed, Event, Link, Recording, Table, Timed};
use oracle::pointers::Pointers;
use oracle::sizes::{RecordingKind, UNDATED};
use oracle::state::{broken_clauses, sound, Clause, State, BY_DEADLINE};
use oracle::subject::{disagreement, zero_time_reading, Made, Oracle, Subject};
use oracle::tables::LentTable;

pub fn direct(writer: u8, reader: u8) -> Link {
    Link::of([writer, reader, 0], 0)
}

pub fn delayed(writer: u8, reader: u8, start_value: u32) -> Link {
    Link::of([writer, reader, 1], start_value)
}

/// Tasks with the defaults 1000, 1001 and so on.
pub fn table(tasks: u32, links: &[Link]) -> Table {
    Table::undated((1000..1000 + tasks).collect(), links.to_vec())
}

/// The numbers read, by the pointers and by the run that takes no time, alike in
/// a recording of either kind with fixed priorities.
pub fn numbers(table: &Table, events: &[Event]) -> Vec<u32> {
    let [smaller, larger] = UNDATED.map(|kind| numbers_in(kind, table, events));
    assert_eq!(smaller, larger);
    larger
}

pub fn numbers_in(kind: RecordingKind, table: &Table, events: &[Event]) -> Vec<u32> {
    let bytes = encode(&Recording { kind, table: table.clone(), events: untimed(events) });
    let lent = vec![7; events.len()];
    let answer = Oracle.replay(&bytes, &lent);
    assert_eq!(disagreement(&answer, &zero_time_reading(&bytes, &lent)), None);
    assert_eq!(answer.refusal, 0);
    answer.list[..answer.counts.reads as usize].to_vec()
}

pub fn verdict(bytes: &[u8]) -> (u8, usize) {
    let answer = Oracle.replay(bytes, &[]);
    assert_eq!(disagreement(&answer, &zero_time_reading(bytes, &[])), None);
    if matches!(answer.refusal, 2..=10 | 20 | 24) {
        assert_eq!(answer.state, State::single());
    }
    (answer.refusal, answer.place)
}

/// The verdict on a recording without events.
pub fn verdict_in(kind: RecordingKind, tasks: u32, links: &[Link]) -> (u8, usize) {
    verdict(&encode(&Recording { kind, table: table(tasks, links), events: Vec::new() }))
}

/// The same, alike in either kind with fixed priorities; the table by itself must
/// earn the same refusal.
pub fn verdict_on_links(tasks: u32, links: &[Link]) -> (u8, usize) {
    let made = Oracle.fresh(&LentTable::of(&table(tasks, links)));
    let [(refusal, place), larger] = UNDATED.map(|kind| verdict_in(kind, tasks, links));
    assert_eq!((refusal, place), larger);
    assert_eq!(made.refusal, refusal);
    assert!(refusal == 0 || made == Made { refusal, state: State::single() });
    (refusal, place)
}

pub fn state_after(table: &Table, events: &[Event]) -> State {
    state_after_timed(table, &untimed(events))
}

pub fn state_after_timed(table: &Table, events: &[Timed]) -> State {
    let mut engine = Pointers::fresh(table);
    for &timed in events {
        assert_eq!(engine.judge(timed), 0, "{:?}", timed);
        engine.apply(timed);
        assert!(sound(&engine.state));
    }
    engine.state
}

/// The only clause of soundness that the state breaks, none if it is sound: an
/// empty set is then 12, and else 19, with the state as it was.
pub fn only_clause_broken(state: &State) -> Option<Clause> {
    let tick = Some(state.last).filter(|_| state.policy == BY_DEADLINE);
    let answer = Oracle.one_event(state, Timed { tick, event: Event::Arrival(0) });
    assert_eq!((answer.value, answer.state), (0, *state));
    let broken = broken_clauses(state);
    assert_eq!(answer.refusal, if broken.is_empty() { 12 } else { 19 });
    assert!(broken.len() <= 1, "{:?}", broken);
    broken.first().copied()
}
