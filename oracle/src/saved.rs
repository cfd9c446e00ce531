//! Saved states: sound ones from random histories, and spoiled ones.

mod self_links;
mod times;

use crate::engine::{Engine, FreshEngine, IDLE};
use crate::format::{Event, Link, Table, Timed, DELAYED};
use crate::nasty::{crowd_of_links, nasty_event, nasty_tick};
use crate::pointers::Pointers;
use crate::prng::Prng;
use crate::random_table::{deadlines, random_table, Size};
use crate::schedule::{deepest_interruption, events_of_last_two, random_events, Schedule};
use crate::sizes::{RecordingKind, KINDS, MOST_BEHIND, MOST_TICK, ROOM};
use crate::state::{State, ABSENT, MOST_CELLS, MOST_POSITIONS};
use crate::zero_time::ZeroTime;
use self_links::self_link_changed;
use times::times_changed;

/// A state with the history that led to it, as the zero-time run knows it.
pub struct Saved {
    pub state: State,
    pub zero: ZeroTime,
    pub table: Table,
    pub schedule: Schedule,
}

/// A kind of recording whose tables a state is to have: one within the limits of
/// any is lawful in a state, and those within the smaller ones come up as often as
/// others.
fn some_kind(prng: &mut Prng) -> RecordingKind {
    prng.pick(&KINDS)
}

/// One in ten has every slot in use, and a history of the last tasks alone.
pub fn from_history(prng: &mut Prng) -> Saved {
    if prng.chance(10) {
        let kind = prng.pick(&[RecordingKind::THIRTY_TWO, RecordingKind::DATED]);
        let table = random_table(prng, kind, Size::Full);
        let count = prng.below(40);
        let (events, schedule) = events_of_last_two(prng, &table, count);
        return after(table, events, schedule);
    }
    let size = prng.pick(&[Size::Small, Size::Any, Size::Any, Size::Limit, Size::Full]);
    let kind = some_kind(prng);
    let table = random_table(prng, kind, size);
    if prng.chance(5) {
        return all_running(table);
    }
    from_history_of(prng, table)
}

fn from_history_of(prng: &mut Prng, table: Table) -> Saved {
    // After a few events many tasks have had fewer than two arrivals.
    let most = prng.pick(&[12, 40, 120]);
    let count = prng.below(most);
    let (events, schedule) = random_events(prng, &table, count);
    after(table, events, schedule)
}

fn all_running(table: Table) -> Saved {
    let (events, schedule) = deepest_interruption(&table);
    after(table, events, schedule)
}

fn after(table: Table, events: Vec<Timed>, schedule: Schedule) -> Saved {
    let mut pointers = Pointers::fresh(&table);
    let mut zero = ZeroTime::fresh(&table);
    for &event in &events {
        pointers.apply(event);
        zero.apply(event);
    }
    Saved { state: pointers.state, zero, table, schedule }
}

/// An event for a state: half of them are likely to be allowed. One in twenty is
/// for a state of the other policy.
pub fn event_for(prng: &mut Prng, state: &State, saved: &Saved) -> Timed {
    let timed = if prng.chance(50) {
        nasty_event(prng, &saved.table, &saved.schedule)
    } else {
        likely_event(prng, state, saved)
    };
    if !prng.chance(5) {
        return timed;
    }
    let last = saved.schedule.last;
    let tick = if timed.tick.is_some() { None } else { Some(prng.pick(&[0, 0, 1, last, MOST_TICK, u32::MAX])) };
    Timed { tick, ..timed }
}

fn likely_event(prng: &mut Prng, state: &State, saved: &Saved) -> Timed {
    let event = likely_untimed(prng, state, saved);
    let last = state.last;
    let tick = match prng.below(4) {
        0 => nasty_tick(prng, &saved.schedule, event),
        1 => last.saturating_add(1),
        _ => last,
    };
    Timed { tick: Some(tick).filter(|_| saved.schedule.dated), event }
}

fn likely_untimed(prng: &mut Prng, state: &State, saved: &Saved) -> Event {
    let top = saved.schedule.top();
    let idle: u32 =
        (0..saved.table.defaults.len()).filter(|t| saved.schedule.phase[*t] == IDLE).fold(0, |set, t| set | 1 << t);
    let links = usize::from(state.links).min(ROOM.links);
    let top_links: Vec<u8> =
        (0..links).filter(|l| Some(usize::from(state.reader[*l])) == top).map(|l| l as u8).collect();
    let own = top_links.iter().find(|l| state.writer[usize::from(**l)] == state.reader[usize::from(**l)]);
    match (prng.below(5), top_links.last()) {
        (0, _) => Event::Arrival(idle & prng.word()),
        (1, Some(_)) => Event::Read(prng.pick(&top_links)),
        // The last one, or the one to itself, which are seldom the one drawn from many.
        (2, Some(last)) => Event::Read(prng.pick(&[*last, *own.unwrap_or(last)])),
        (3, _) => Event::Start(top.unwrap_or(0) as u8),
        _ => Event::Finish(top.unwrap_or(0) as u8, prng.word()),
    }
}

/// A field that a lent state has; the index runs over the whole array, slots past
/// the counts included.
#[derive(Clone, Copy, PartialEq, Eq, Debug)]
enum Field {
    Tasks,
    Links,
    Default(usize),
    Phase(usize),
    Newest(usize),
    Previous(usize),
    Seen(usize),
    Cell(usize),
    Writer(usize),
    Reader(usize),
    Kind(usize),
    StartValue(usize),
    Pointer(usize),
    Mark(usize),
    Deadline(usize),
    Since(usize),
    Last,
    Policy,
}

fn fields(tasks: impl Iterator<Item = usize>, links: impl Iterator<Item = usize>) -> impl Iterator<Item = Field> {
    let counts = [Field::Tasks, Field::Links, Field::Last, Field::Policy];
    counts.into_iter().chain(tasks.flat_map(fields_of_task)).chain(links.flat_map(fields_of_link))
}

fn all_fields() -> impl Iterator<Item = Field> {
    fields(0..ROOM.tasks, 0..ROOM.links)
}

/// The fields of all tasks and links of a state, and of the first and the last
/// slot past each.
fn fields_around(state: &State) -> impl Iterator<Item = Field> {
    let slots = |count: u8, room: usize| (0..room).filter(move |slot| *slot <= usize::from(count) || slot + 1 == room);
    fields(slots(state.tasks, ROOM.tasks), slots(state.links, ROOM.links))
}

/// Of the positions the first and the last one.
fn fields_of_task(t: usize) -> [Field; 9] {
    let first = t * MOST_POSITIONS;
    let last = first + MOST_POSITIONS - 1;
    [
        Field::Default(t),
        Field::Phase(t),
        Field::Newest(t),
        Field::Previous(t),
        Field::Seen(t),
        Field::Cell(first),
        Field::Cell(last),
        Field::Deadline(t),
        Field::Since(t),
    ]
}

fn fields_of_link(l: usize) -> [Field; 6] {
    [Field::Writer(l), Field::Reader(l), Field::Kind(l), Field::StartValue(l), Field::Pointer(l), Field::Mark(l)]
}

/// The values either side of each line a field has, for a state.
fn boundary_values(state: &State, field: Field) -> Vec<u32> {
    let tasks = u32::from(state.tasks);
    let links = u32::from(state.links);
    let lines = |positions: u32| vec![0, 1, 2, positions, positions + 1, 10, 11, 255];
    match field {
        Field::Tasks => vec![0, 1, tasks - 1, tasks + 1, 15, 16, 17, 31, 32, 33, 255],
        Field::Links => vec![0, 1, links.saturating_sub(1), links + 1, 31, 32, 33, 95, 96, 97, 255],
        Field::Default(_) | Field::Cell(_) => vec![0, 1, u32::MAX],
        Field::Phase(_) | Field::Seen(_) => vec![0, 1, 2, 3, 128, 255],
        Field::Newest(task) | Field::Previous(task) => lines(state.positions(task) as u32),
        Field::Writer(_) | Field::Reader(_) => vec![0, tasks - 1, tasks, 15, 16, 31, 32, 255],
        Field::Kind(_) | Field::Mark(_) => vec![0, 1, 2, 255],
        Field::StartValue(_) => vec![0, 1, 1 << 8, 1 << 16, 1 << 31, u32::MAX],
        Field::Pointer(link) => lines(state.positions(usize::from(state.writer[link])) as u32),
        Field::Deadline(_) => vec![0, 1, 2, 65_535, 65_536, u32::MAX],
        Field::Since(_) => vec![0, 1, state.last.saturating_sub(1), state.last, state.last.saturating_add(1), u32::MAX],
        Field::Last => vec![0, 1, MOST_TICK - 1, MOST_TICK, MOST_TICK + 1, u32::MAX],
        Field::Policy => vec![0, 1, 2, 256, 257, u32::MAX],
    }
}

fn set_field(state: &mut State, field: Field, value: u32) {
    let byte = value as u8;
    match field {
        Field::Tasks => state.tasks = byte,
        Field::Links => state.links = byte,
        Field::Default(t) => state.defaults[t] = value,
        Field::Phase(t) => state.phase[t] = byte,
        Field::Newest(t) => state.newest[t] = byte,
        Field::Previous(t) => state.previous[t] = byte,
        Field::Seen(t) => state.seen[t] = byte,
        Field::Cell(c) => state.cells[c % MOST_CELLS] = value,
        Field::Writer(l) => state.writer[l] = byte,
        Field::Reader(l) => state.reader[l] = byte,
        Field::Kind(l) => state.kind[l] = byte,
        Field::StartValue(l) => state.start_value[l] = value,
        Field::Pointer(l) => state.pointer[l] = byte,
        Field::Mark(l) => state.mark[l] = byte,
        Field::Deadline(t) => state.deadline[t] = value,
        Field::Since(t) => state.since[t] = value,
        Field::Last => state.last = value,
        Field::Policy => state.policy = value,
    }
}

/// Each field of a sound state set to each of its boundary values and to one
/// random value.
fn every_field_spoiled(prng: &mut Prng, sound: &State) -> Vec<State> {
    let mut states = Vec::new();
    for field in fields_around(sound) {
        let mut values = boundary_values(sound, field);
        values.push(prng.word());
        states.extend(values.into_iter().map(|value| with_field(sound, field, value)));
    }
    states
}

fn with_field(state: &State, field: Field, value: u32) -> State {
    let mut changed = *state;
    set_field(&mut changed, field, value);
    changed
}

/// Spoiled in many ways: now and then every field in turn, always arrivals and
/// marks, self links, times, some fields at once, and states that owe nothing to
/// the sound one.
pub fn spoiled(prng: &mut Prng, sound: &State) -> Vec<State> {
    let mut states = if prng.chance(1) { every_field_spoiled(prng, sound) } else { Vec::new() };
    states.extend((0..4).map(|_| arrivals_or_mark_changed(prng, sound)));
    states.extend((0..4).map(|_| self_link_changed(prng, sound)));
    states.extend((0..6).map(|_| times_changed(prng, sound)));
    states.extend((0..20).map(|_| randomly_spoiled(prng, sound)));
    states.push(any_bytes(prng));
    states.push(crowded(prng));
    states
}

/// The arrivals of a task or the mark of a link, or its mark together with its
/// writer's arrivals. Either side of two arrivals stays sound now and then,
/// with the mark and without it.
fn arrivals_or_mark_changed(prng: &mut Prng, sound: &State) -> State {
    let mut state = *sound;
    let task = prng.below(usize::from(sound.tasks));
    let link = prng.below(usize::from(sound.links).max(1));
    let writer = usize::from(sound.writer[link]);
    match prng.below(4) {
        0 => state.seen[task] = prng.pick(&[0, 0, 1, 2, 3, 255]),
        1 => state.mark[link] = prng.pick(&[0, 1, 2, 255]),
        2 => {
            state.seen[writer] = prng.pick(&[0, 1, 2]);
            state.mark[link] = prng.pick(&[0, 1]);
        }
        _ => {
            // All marks of a writer that had two arrivals may stand, and none.
            state.seen[writer] = 2;
            let mark = prng.pick(&[0, 1]);
            (0..usize::from(sound.links)).filter(|l| usize::from(sound.writer[*l]) == writer).for_each(|l| {
                state.mark[l] = mark * u8::from(sound.pointer[l] != ABSENT && sound.kind[l] == DELAYED);
            });
        }
    }
    state
}

/// A few fields at once: small steps that often stay sound, so that accepted
/// events on states no history leads to come up as well.
fn randomly_spoiled(prng: &mut Prng, sound: &State) -> State {
    let mut state = *sound;
    for _ in 0..prng.between(1, 4) {
        let task = prng.below(usize::from(sound.tasks));
        let link = prng.below(usize::from(sound.links).max(1));
        let field = prng.pick(&[
            Field::Phase(task),
            Field::Newest(task),
            Field::Previous(task),
            Field::Cell(task * MOST_POSITIONS + prng_position(sound, task)),
            Field::Kind(link),
            Field::Pointer(link),
            Field::Pointer(link),
            Field::Reader(link),
            Field::Seen(task),
            Field::Mark(link),
            Field::StartValue(link),
            Field::Default(task),
            Field::Links,
            Field::Deadline(task),
            Field::Since(task),
            Field::Last,
        ]);
        let value = match field {
            Field::Links => u32::from(sound.links).saturating_sub(1),
            Field::Cell(_) | Field::Default(_) => prng.word(),
            Field::StartValue(link) if sound.kind[link] == DELAYED => prng.word(),
            Field::Kind(_) => prng.below(2) as u32,
            _ => prng.pick(&boundary_values(sound, field)),
        };
        set_field(&mut state, field, value);
    }
    state
}

/// The task ahead of all others has eight links to readers behind, and perhaps one
/// to itself; a link of the next one is turned into its ninth, or the count of
/// links is taken past such a slot.
fn crowded(prng: &mut Prng) -> State {
    let kind = some_kind(prng);
    let tasks = prng.between(10, kind.limits.tasks);
    let mut table = Table::undated((0..tasks).map(|_| prng.word()).collect(), Vec::new());
    if kind.dated {
        table.deadlines = Some(deadlines(prng, tasks));
    }
    let in_order = table.order().from_the_first();
    table.links = crowd_of_links(prng, &in_order, MOST_BEHIND);
    let at = prng.below(table.links.len() + 1);
    let [first, second, third] = [0, 1, 2].map(|number: usize| in_order[number] as u8);
    let reader = prng.pick(&in_order[9..]) as u8;
    table.links.insert(at, Link { writer: second, reader, kind: DELAYED, start_value: prng.word() });
    let mut state = from_history_of(prng, table).state;
    state.writer[at] = prng.pick(&[first, first, first, third]);
    if prng.chance(30) {
        state.links -= 1;
    }
    state
}

fn prng_position(state: &State, task: usize) -> usize {
    usize::from(state.newest[task]).saturating_sub(1)
}

/// Any bytes at all in the first few fields, for the crudest states.
fn any_bytes(prng: &mut Prng) -> State {
    let mut state = State::single();
    state.tasks = prng.pick(&[0, 1, 2, 3, 16, 17, 32, 33, 255]);
    state.links = prng.pick(&[0, 1, 2, 3, 32, 33, 96, 97, 255]);
    state.policy = prng.pick(&[0, 0, 1, 1, 2]);
    state.last = prng.pick(&[0, 0, 3, MOST_TICK, u32::MAX]);
    for field in all_fields() {
        if prng.chance(60) && !matches!(field, Field::Tasks | Field::Links | Field::Last | Field::Policy) {
            let value = if prng.chance(80) { prng.below(4) as u32 } else { prng.word() };
            set_field(&mut state, field, value);
        }
    }
    state
}
