//! The document's rules once more, as properties of an answer. They share no
//! step with the engines, so an engine's slip does not repeat itself here.

mod writing;

use crate::engine::{IDLE, RUNNING, WAITING};
use crate::format::{encode, Counts, Event, Recording, Timed};
use crate::state::State;
use crate::subject::{Answer, Made, OneAnswer, Subject};
use crate::tables::LentTable;
pub use writing::{read_back_law_broken, stand_in, write_law_broken};

/// What a recording's first byte says: the most tasks, links and events, and the
/// bytes of a task, of a tick and of a set.
struct Sizes {
    tasks: usize,
    links: usize,
    events: usize,
    task: usize,
    tick: usize,
    set: usize,
}

fn sizes_by(first: u8) -> Option<Sizes> {
    match first {
        253 => Some(Sizes { tasks: 16, links: 32, events: 10_000, task: 4, tick: 0, set: 2 }),
        254 => Some(Sizes { tasks: 32, links: 96, events: 10_000, task: 4, tick: 0, set: 4 }),
        255 => Some(Sizes { tasks: 32, links: 96, events: 6_000, task: 6, tick: 4, set: 4 }),
        _ => None,
    }
}

/// Whether a task is ahead of another: by smaller relative deadline, then by the
/// table.
fn ahead(deadlines: &[u32], task: usize, other: usize) -> bool {
    let of = |task: usize| deadlines.get(task).copied().unwrap_or(0);
    of(task) < of(other) || of(task) == of(other) && task < other
}

/// The relative deadlines that a state's tasks go by.
fn deadlines_of(state: &State) -> &[u32] {
    if state.policy == 1 {
        &state.deadline
    } else {
        &[]
    }
}

/// Soundness as the document's sentence reads, over all links and pairs.
pub fn sound_by_sentence(state: &State) -> bool {
    let tasks = usize::from(state.tasks);
    let links = usize::from(state.links);
    (1..=32).contains(&tasks)
        && links <= 96
        && times_hold(state, tasks)
        && table_keeps_rules(state, tasks, links)
        && pointers_lie(state, tasks, links)
        && arrivals_and_marks_hold(state, tasks, links)
}

/// What request 2026-07 adds to the sentence.
fn times_hold(state: &State, tasks: usize) -> bool {
    let times = |t: usize| (state.deadline[t], state.since[t]);
    match state.policy {
        0 => state.last == 0 && (0..tasks).all(|t| times(t) == (0, 0)),
        1 => {
            let since_holds = |t: usize| state.since[t] <= if state.phase[t] == IDLE { 0 } else { state.last };
            state.last <= 4_000_000_000 && (0..tasks).all(|t| state.deadline[t] > 0 && since_holds(t))
        }
        _ => false,
    }
}

fn table_keeps_rules(state: &State, tasks: usize, links: usize) -> bool {
    let pair = |l: usize| (usize::from(state.writer[l]), usize::from(state.reader[l]));
    let behind = |l: usize| ahead(deadlines_of(state), pair(l).0, pair(l).1);
    let each = (0..links).all(|l| {
        let (writer, reader) = pair(l);
        let may_be_direct = behind(l) && state.start_value[l] == 0;
        let kind = state.kind[l];
        writer < tasks && reader < tasks && (kind == 1 || kind == 0 && may_be_direct)
    });
    let once = (0..links).all(|l| (0..links).all(|m| l == m || pair(l) != pair(m)));
    let eight = (0..tasks).all(|task| (0..links).filter(|l| pair(*l).0 == task && behind(*l)).count() <= 8);
    each && once && eight
}

fn pointers_lie(state: &State, tasks: usize, links: usize) -> bool {
    let pair = |l: usize| (usize::from(state.writer[l]), usize::from(state.reader[l]));
    let behind = |l: usize| ahead(deadlines_of(state), pair(l).0, pair(l).1);
    let top = |task: usize| 2 + (0..links).filter(|l| pair(*l).0 == task && behind(*l)).count();
    let lies = |position: u8, task: usize| (1..=top(task)).contains(&usize::from(position));
    (0..tasks).all(|t| state.phase[t] <= 2 && lies(state.newest[t], t) && lies(state.previous[t], t))
        && (0..links).all(|l| {
            let (writer, reader) = pair(l);
            let absent = state.pointer[l] == 0;
            let idle = state.phase[reader] == IDLE;
            // From a writer behind the reader, and from the reader itself.
            let may_stay = !behind(l);
            (absent || lies(state.pointer[l], writer)) && (idle || !absent) && (!idle || may_stay || absent)
        })
}

/// What request 2026-02 adds to the sentence.
fn arrivals_and_marks_hold(state: &State, tasks: usize, links: usize) -> bool {
    (0..tasks).all(|t| matches!((state.seen[t], state.phase[t]), (0, IDLE) | (1 | 2, _)))
        && (0..links).all(|l| {
            let may = state.pointer[l] > 0 && state.kind[l] == 1;
            let must = may && [0, 1].contains(&state.seen[usize::from(state.writer[l])]);
            match state.mark[l] {
                0 => !must,
                1 => may,
                _ => false,
            }
        })
}

/// The first fault that the bytes alone show, without an engine: its number
/// and place. All rules that a link breaks are gathered and the least given.
fn fault_in_bytes(bytes: &[u8]) -> Option<(u8, usize)> {
    let sizes = match bytes.first().map(|first| sizes_by(*first)) {
        None => return Some((1, 0)),
        Some(None) => return Some((2, 0)),
        Some(Some(sizes)) => sizes,
    };
    let tasks = match bytes.get(1).map(|tasks| usize::from(*tasks)) {
        None => return Some((1, 1)),
        Some(tasks) if !(1..=sizes.tasks).contains(&tasks) => return Some((2, 1)),
        Some(tasks) => tasks,
    };
    let links_at = 2 + sizes.task * tasks;
    let mut deadlines = Vec::new();
    for place in (2..links_at).step_by(sizes.task) {
        match bytes.get(place + 4..place + sizes.task) {
            None => return Some((1, place)),
            Some([0, 0]) => return Some((24, place)),
            Some(deadline) => deadlines.extend(deadline.chunks(2).map(|d| u32::from(d[0]) + 256 * u32::from(d[1]))),
        }
    }
    let links = match bytes.get(links_at).map(|links| usize::from(*links)) {
        None => return Some((1, links_at)),
        Some(links) if links > sizes.links => return Some((3, links_at)),
        Some(links) => links,
    };
    let events_at = links_at + 1 + 7 * links;
    for place in (links_at + 1..events_at).step_by(7) {
        if bytes.len() < place + 7 {
            return Some((1, place));
        }
        let earlier = &bytes[links_at + 1..place];
        if let Some(rule) = least_rule_broken(tasks, &deadlines, earlier, &bytes[place..place + 7]) {
            return Some((rule, place));
        }
    }
    match bytes.get(events_at..events_at + 2) {
        None => Some((1, events_at)),
        Some(count) => {
            let events = usize::from(count[0]) + 256 * usize::from(count[1]);
            if events > sizes.events {
                return Some((10, events_at));
            }
            fault_in_events(bytes, events_at + 2, events, &sizes)
        }
    }
}

fn least_rule_broken(tasks: usize, deadlines: &[u32], earlier: &[u8], link: &[u8]) -> Option<u8> {
    let (writer, reader, kind) = (link[0], link[1], link[2]);
    let same_writer = || earlier.chunks(7).filter(|other| other[0] == writer);
    let before = |task: u8, other: u8| ahead(deadlines, usize::from(task), usize::from(other));
    let rules = [
        (20, kind == 0 && link[3..7].iter().any(|byte| *byte > 0)),
        (9, before(writer, reader) && same_writer().filter(|other| before(writer, other[1])).count() == 8),
        (8, same_writer().any(|other| other[1] == reader)),
        (7, kind == 0 && before(reader, writer)),
        (6, kind > 1),
        (5, kind == 0 && reader == writer),
        (4, usize::from(writer.max(reader)) >= tasks),
    ];
    rules.iter().filter(|(_, broken)| *broken).map(|(rule, _)| *rule).min()
}

fn fault_in_events(bytes: &[u8], first: usize, events: usize, sizes: &Sizes) -> Option<(u8, usize)> {
    let lengths = [None, Some(sizes.set), Some(1), Some(1), Some(5)];
    let mut place = first;
    for _ in 0..events {
        let fields = match bytes.get(place) {
            None => return Some((1, place)),
            Some(kind) => lengths.get(usize::from(*kind)).copied().flatten(),
        };
        match fields.map(|fields| 1 + sizes.tick + fields) {
            None => return Some((11, place)),
            Some(size) if bytes.len() < place + size => return Some((1, place)),
            Some(size) => place += size,
        }
    }
    if bytes.len() > place {
        return Some((17, place));
    }
    None
}

/// The refusal and the place follow from the bytes alone, unless the state
/// and the list refuse an earlier event; that refusal is judged once more.
fn verdict_follows(bytes: &[u8], lent: &[u32], answer: &Answer) -> bool {
    let by_state = matches!(answer.refusal, 12..=16 | 18 | 21..=23);
    let fault = fault_in_bytes(bytes);
    if !by_state {
        return fault.unwrap_or((0, bytes.len())) == (answer.refusal, answer.place);
    }
    let earlier = fault.map_or(true, |(number, place)| answer.place < place && matches!(number, 1 | 11 | 17));
    let timed = match event_at(bytes, answer.place) {
        Some(timed) => timed,
        None => return false,
    };
    let full = matches!(timed.event, Event::Read(_)) && answer.counts.reads as usize == lent.len();
    let refusal = match first_refusal(&answer.state, timed) {
        0 if full => 18,
        refusal => refusal,
    };
    earlier && refusal == answer.refusal
}

fn event_at(bytes: &[u8], place: usize) -> Option<Timed> {
    let value = |at: usize| bytes.get(at).map(|byte| u32::from(*byte));
    let two = |at: usize| Some(value(at)? + value(at + 1)? * 256);
    let four = |at: usize| Some(two(at)? + two(at + 2)? * 65_536);
    let dated = bytes[0] == 255;
    let tick = if dated { Some(four(place + 1)?) } else { None };
    let fields = place + if dated { 5 } else { 1 };
    let task = || bytes.get(fields).copied();
    let event = match value(place)? {
        1 if bytes[0] == 253 => Event::Arrival(two(fields)?),
        1 => Event::Arrival(four(fields)?),
        2 => Event::Start(task()?),
        3 => Event::Read(task()?),
        4 => Event::Finish(task()?, four(fields + 1)?),
        _ => return None,
    };
    Some(Timed { tick, event })
}

/// At a refusal at the first byte, in the tasks, the links or a count: one
/// task with default 0 and a fixed priority, all counts 0. Only such a refusal is
/// given for 2 to 10, for 20 and for 24.
fn early_refusal_holds(answer: &Answer) -> bool {
    let nothing_done = answer.state == State::single() && answer.counts == Counts::default();
    !matches!(answer.refusal, 2..=10 | 20 | 24) || nothing_done
}

/// What every answer to a whole recording must keep; the name of the first
/// law broken.
pub fn replay_law_broken(bytes: &[u8], lent: &[u32], answer: &Answer) -> Option<&'static str> {
    let reads = answer.counts.reads as usize;
    let accepted = answer.refusal == 0;
    let active = active_tasks(&answer.state);
    let dated = bytes.first() == Some(&255);
    let laws: [(&'static str, bool); 13] = [
        ("the number is one of 0 to 18, or 20 to 24", matches!(answer.refusal, 0..=18 | 20..=24)),
        ("21 to 24 are of dated recordings", dated || answer.refusal <= 20),
        ("a state with ticks is of a dated recording", dated || answer.state.policy == 0),
        ("on acceptance the place is the length", !accepted || answer.place == bytes.len()),
        (
            "a refusal other than 1 has bytes at its place",
            accepted || answer.refusal == 1 || answer.place < bytes.len(),
        ),
        ("the rest runs from the place to the end", bytes.get(answer.place..) == Some(answer.rest)),
        ("on acceptance the rest is empty", !accepted || answer.rest.is_empty()),
        ("arrivals equal finishes plus active tasks", answer.counts.arrivals == answer.counts.finishes + active),
        ("the state is sound", sound_by_sentence(&answer.state)),
        ("the list keeps its length", answer.list.len() == lent.len()),
        ("the list past the reads is untouched", answer.list.get(reads..) == lent.get(reads..)),
        ("refusal and place follow from bytes, state and list", verdict_follows(bytes, lent, answer)),
        ("an early refusal has the single task's state and no counts", early_refusal_holds(answer)),
    ];
    laws.iter().find(|(_, holds)| !holds).map(|(name, _)| *name)
}

fn active_tasks(state: &State) -> u32 {
    (0..usize::from(state.tasks)).filter(|task| state.phase[*task] != IDLE).count() as u32
}

/// An accepted recording, given event by event to the fresh state, must come
/// to the same state and numbers.
pub fn stepwise_law_broken(subject: &dyn Subject, recording: &Recording, answer: &Answer) -> Option<String> {
    let mut state = subject.fresh(&LentTable::of(&recording.table)).state;
    let mut numbers = answer.list.iter();
    for (number, &timed) in recording.events.iter().enumerate() {
        let one = subject.one_event(&state, timed);
        if one.refusal != 0 {
            return Some(format!("event {} alone is refused {}", number, one.refusal));
        }
        let expected = match timed.event {
            Event::Read(_) => numbers.next().copied().unwrap_or(0),
            _ => 0,
        };
        if one.value != expected {
            return Some(format!("event {} alone gives {} and not {}", number, one.value, expected));
        }
        state = one.state;
    }
    if state != answer.state {
        return Some("the states differ at the end".to_string());
    }
    None
}

/// A power cut: the answer to the first bytes is that of the whole records,
/// refused 1 at the first record that isn't whole.
pub fn power_cut_law_broken(
    subject: &dyn Subject,
    recording: &Recording,
    ends: &[usize],
    cut: usize,
    answer: &Answer,
    lent: &[u32],
) -> Option<&'static str> {
    let whole = ends.iter().take_while(|end| **end <= cut).count();
    if cut < ends[0] {
        return None;
    }
    let events = recording.events[..whole - 1].to_vec();
    let kept = encode(&Recording { table: recording.table.clone(), events, ..*recording });
    let expected = subject.replay(&kept, lent);
    let nothing_lost = whole == ends.len();
    let (refusal, place) = if nothing_lost { (0, cut) } else { (1, ends[whole - 1]) };
    if answer.refusal != refusal || answer.place != place {
        return Some("power cut: refusal and place");
    }
    if answer.state != expected.state || answer.counts != expected.counts || answer.list != expected.list {
        return Some("power cut: state, counts and list of the whole records");
    }
    None
}

/// The place after E, and after each event: where whole records end.
pub fn record_ends(recording: &Recording) -> Vec<usize> {
    let mut ends = vec![crate::format::place_of_event_count(recording.kind, &recording.table) + 2];
    let mut bytes = Vec::new();
    for &timed in &recording.events {
        crate::format::encode_event(recording.kind, timed, &mut bytes);
        ends.push(ends[0] + bytes.len());
    }
    ends
}

/// What the answer to one event must keep, judged without an engine.
pub fn one_event_law_broken(before: &State, timed: Timed, answer: &OneAnswer) -> Option<&'static str> {
    let own_call = before.policy == u32::from(timed.tick.is_some());
    let refusal = if own_call && sound_by_sentence(before) { first_refusal(before, timed) } else { 19 };
    if answer.refusal != refusal {
        return Some("the refusal of one event");
    }
    if refusal != 0 {
        return if answer.value == 0 && answer.state == *before {
            None
        } else {
            Some("a refusal has the state as lent and the value 0")
        };
    }
    if answer.state != with_allowed_changes(before, timed, &answer.state) {
        return Some("only what the event names may change");
    }
    if accepted_holds(before, timed, answer) {
        None
    } else {
        Some("what the event does")
    }
}

/// Of the rows that apply to an event the one that is tried first: 12, 22, 21, 13
/// to 16, and 23.
fn first_refusal(state: &State, Timed { tick, event }: Timed) -> u8 {
    let refusal = least_refusal(state, event);
    let too_late = |task: u8| {
        let (since, deadline) = (state.since[usize::from(task)], state.deadline[usize::from(task)]);
        tick.map_or(false, |tick| tick > since && u64::from(tick - since) > u64::from(deadline))
    };
    match (refusal, tick, event) {
        (12, _, _) => 12,
        (_, Some(4_000_000_001..=u32::MAX), _) => 22,
        (_, Some(tick), _) if tick < state.last => 21,
        (0, Some(_), Event::Finish(task, _)) if too_late(task) => 23,
        _ => refusal,
    }
}

/// The least of the rows 12 to 16 that apply to an event.
fn least_refusal(state: &State, event: Event) -> u8 {
    let tasks = usize::from(state.tasks);
    let active = |task: &usize| *task < tasks && state.phase[*task] != IDLE;
    let phase = |task: usize| state.phase.get(task).copied().filter(|_| task < tasks);
    let (outside, runner, needed, otherwise) = match event {
        Event::Arrival(set) => {
            let named = (0..32).filter(|task| set & (1 << task) != 0);
            if set == 0 || named.clone().any(|task| task >= tasks) {
                return 12;
            }
            return if named.clone().any(|task| active(&task)) { 13 } else { 0 };
        }
        Event::Start(task) => (usize::from(task) >= tasks, usize::from(task), WAITING, 14),
        Event::Finish(task, _) => (usize::from(task) >= tasks, usize::from(task), RUNNING, 15),
        Event::Read(link) if link >= state.links => return 12,
        Event::Read(link) => (false, usize::from(state.reader[usize::from(link)]), RUNNING, 15),
    };
    if outside {
        12
    } else if phase(runner) != Some(needed) {
        otherwise
    } else if (0..tasks).any(|task| active(&task) && more_urgent(state, task, runner)) {
        16
    } else {
        0
    }
}

/// Whether an active job is to run before another: with fixed priorities the one
/// earlier in the table; else the one that is due earlier, and of two that are due
/// at once the one whose task is ahead.
fn more_urgent(state: &State, task: usize, other: usize) -> bool {
    if state.policy == 0 {
        return task < other;
    }
    let due = |task: usize| i128::from(state.since[task]) + i128::from(state.deadline[task]);
    due(task) < due(other) || due(task) == due(other) && ahead(&state.deadline, task, other)
}

/// The state before, with the fields the event may change taken from after.
fn with_allowed_changes(before: &State, Timed { tick, event }: Timed, after: &State) -> State {
    let mut allowed = *before;
    if tick.is_some() {
        allowed.last = after.last;
        let jobs = match event {
            Event::Arrival(set) => set,
            Event::Finish(task, _) => 1 << task,
            Event::Start(_) | Event::Read(_) => 0,
        };
        (0..32).filter(|task| jobs & (1 << task) != 0).for_each(|task| allowed.since[task] = after.since[task]);
    }
    match event {
        Event::Arrival(set) => {
            for task in (0..32).filter(|task| set & (1 << task) != 0) {
                allowed.phase[task] = after.phase[task];
                allowed.newest[task] = after.newest[task];
                allowed.previous[task] = after.previous[task];
                allowed.seen[task] = after.seen[task];
            }
            allow_pointers(&mut allowed, set, after);
        }
        Event::Start(task) => allowed.phase[usize::from(task)] = after.phase[usize::from(task)],
        Event::Read(_) => {}
        Event::Finish(task, _) => {
            let task = usize::from(task);
            let cell = task * 10 + usize::from(before.newest[task]) - 1;
            allowed.phase[task] = after.phase[task];
            allowed.cells[cell] = after.cells[cell];
            allow_pointers(&mut allowed, 1 << task, after);
        }
    }
    allowed
}

/// The pointers and marks of links whose reader is in the set.
fn allow_pointers(allowed: &mut State, set: u32, after: &State) {
    for l in links_into(allowed, set) {
        allowed.pointer[l] = after.pointer[l];
        allowed.mark[l] = after.mark[l];
    }
}

fn links_into(state: &State, set: u32) -> Vec<usize> {
    (0..usize::from(state.links)).filter(|l| set & (1 << state.reader[*l]) != 0).collect()
}

fn accepted_holds(before: &State, timed: Timed, answer: &OneAnswer) -> bool {
    event_holds(before, timed.event, answer) && ticks_hold(before, timed, &answer.state)
}

/// The last tick is that of the event, and a job's arrival tick stands as long as
/// the job; without a tick nothing of this is there.
fn ticks_hold(before: &State, Timed { tick, event }: Timed, after: &State) -> bool {
    let tick = match tick {
        Some(tick) => tick,
        None => return after.last == 0 && after.since == before.since,
    };
    let jobs_hold = match event {
        Event::Arrival(set) => (0..32).all(|task| set & (1 << task) == 0 || after.since[task] == tick),
        Event::Finish(task, _) => after.since[usize::from(task)] == 0,
        Event::Start(_) | Event::Read(_) => after.since == before.since,
    };
    after.last == tick && jobs_hold
}

fn event_holds(before: &State, event: Event, answer: &OneAnswer) -> bool {
    let after = &answer.state;
    match event {
        Event::Arrival(set) => answer.value == 0 && arrival_holds(before, set, after),
        Event::Start(task) => answer.value == 0 && after.phase[usize::from(task)] == RUNNING,
        Event::Read(link) => {
            let link = usize::from(link);
            let cell = usize::from(before.writer[link]) * 10 + usize::from(before.pointer[link]) - 1;
            answer.value == [before.cells[cell], before.start_value[link]][usize::from(before.mark[link])]
        }
        Event::Finish(task, value) => answer.value == 0 && finish_holds(before, usize::from(task), value, after),
    }
}

fn arrival_holds(before: &State, set: u32, after: &State) -> bool {
    let tasks = (0..32).filter(|task| set & (1 << task) != 0);
    let writers = tasks.clone().all(|task| {
        let taken = |position: u8| {
            position == before.newest[task]
                || (0..usize::from(before.links)).any(|l| {
                    usize::from(before.writer[l]) == task
                        && ahead(deadlines_of(before), task, usize::from(before.reader[l]))
                        && before.pointer[l] == position
                })
        };
        let newest = after.newest[task];
        after.phase[task] == WAITING
            && after.previous[task] == before.newest[task]
            && after.seen[task] == [1, 2, 2][usize::from(before.seen[task])]
            && newest >= 1
            && !taken(newest)
            && (1..newest).all(taken)
    });
    let readers = links_into(before, set).into_iter().all(|l| {
        let writer = usize::from(before.writer[l]);
        let wanted = [after.newest[writer], after.previous[writer]][usize::from(before.kind[l])];
        // The writer's arrivals by now, its own in this set included.
        let new = after.seen[writer] != 2;
        after.pointer[l] == wanted && after.mark[l] == u8::from(before.kind[l] == 1 && new)
    });
    writers && readers
}

fn finish_holds(before: &State, task: usize, value: u32, after: &State) -> bool {
    after.phase[task] == IDLE
        && after.cells[task * 10 + usize::from(before.newest[task]) - 1] == value
        && links_into(before, 1 << task).into_iter().all(|l| {
            let writer_ahead = ahead(deadlines_of(before), usize::from(before.writer[l]), task);
            let left = if writer_ahead { (0, 0) } else { (before.pointer[l], before.mark[l]) };
            (after.pointer[l], after.mark[l]) == left
        })
}

/// What a table makes: the least rule that its first bad link breaks and the
/// single task's state, or its own fresh state.
pub fn made_law_broken(table: &LentTable, made: &Made) -> Option<&'static str> {
    let refusal = table_rule_broken(table);
    if made.refusal != refusal {
        return Some("the refusal of a table");
    }
    let holds = if refusal == 0 { fresh_holds(table, &made.state) } else { made.state == State::single() };
    if holds {
        None
    } else {
        Some("the state that a table makes")
    }
}

fn table_rule_broken(table: &LentTable) -> u8 {
    if !(1..=32).contains(&table.tasks) {
        return 2;
    }
    let deadlines: Vec<u32> = table.deadlines.iter().flatten().map(|deadline| u32::from(*deadline)).collect();
    if deadlines.iter().take(table.tasks).any(|deadline| *deadline == 0) {
        return 24;
    }
    if table.links > 96 {
        return 3;
    }
    let record = |l: usize| {
        let start = table.start_value[l].to_le_bytes();
        [table.writer[l], table.reader[l], table.kind[l], start[0], start[1], start[2], start[3]]
    };
    let bytes: Vec<u8> = (0..table.links).flat_map(record).collect();
    let broken = |l: usize| least_rule_broken(table.tasks, &deadlines, &bytes[..7 * l], &bytes[7 * l..7 * l + 7]);
    (0..table.links).find_map(broken).unwrap_or(0)
}

/// The fresh state of a table, as the document says it. Slots past the counts
/// are those of no task and no link, whatever the lent ones held.
fn fresh_holds(table: &LentTable, fresh: &State) -> bool {
    let default = |t: usize| if t < table.tasks { table.defaults[t] } else { 0 };
    let deadline = |t: usize| match &table.deadlines {
        Some(deadlines) if t < table.tasks => u32::from(deadlines[t]),
        _ => 0,
    };
    let policy = if table.deadlines.is_some() { 1 } else { 0 };
    let link = |l: usize| match l < table.links {
        true => (table.writer[l], table.reader[l], table.kind[l], table.start_value[l]),
        false => (0, 0, 0, 0),
    };
    let made = |l: usize| (fresh.writer[l], fresh.reader[l], fresh.kind[l], fresh.start_value[l]);
    usize::from(fresh.tasks) == table.tasks
        && usize::from(fresh.links) == table.links
        && (0..32).all(|t| fresh.defaults[t] == default(t) && fresh.phase[t] == IDLE)
        && (0..32).all(|t| fresh.newest[t] == 1 && fresh.previous[t] == 1 && fresh.seen[t] == 0)
        && (0..320).all(|c| fresh.cells[c] == default(c / 10))
        && (0..96).all(|l| made(l) == link(l) && fresh.pointer[l] == 0 && fresh.mark[l] == 0)
        && (0..32).all(|t| fresh.deadline[t] == deadline(t) && fresh.since[t] == 0)
        && (fresh.last, fresh.policy) == (0, policy)
}
