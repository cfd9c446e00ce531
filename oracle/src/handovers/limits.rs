//! Counts at their limits, and those that a byte or two can't hold; sets,
//! tasks and links at the end of a table, and past it; each for each kind of
//! recording, and some for no kind. For a dated one all have one relative deadline
//! and one tick: `dated` has the others.

use super::dated::{self, with_one_tick};
use super::kinds::OF_NO_KIND;
use super::Lent;
use crate::sizes::{all_of, Limits, RecordingKind, KINDS, MOST_BEHIND, ROOM};
use crate::writing::{Handover, LINK_NUMBERS};

pub fn limits() -> Vec<Lent> {
    let few = of_few_events();
    let many: Vec<Handover> = KINDS.into_iter().flat_map(of_many_events).map(with_one_tick).collect();
    let lent = few.iter().chain(&many).flat_map(|handover| [0, 1, -1].map(|more| handover.clone().lent(more)));
    let large = KINDS.into_iter().flat_map(large_event_counts).map(|handover| with_one_tick(handover).lent(0));
    lent.chain(large).collect()
}

/// All but those about the count of events.
pub fn of_few_events() -> Vec<Handover> {
    let mut handovers = of_no_kind();
    for kind in KINDS {
        handovers.extend(task_counts(kind));
        handovers.extend(link_counts(kind));
        handovers.extend(readers_behind(kind));
        handovers.extend(self_links(kind));
        handovers.extend(all_read_themselves(kind));
        let near_sixteen = (1..=kind.limits.tasks).filter(|tasks| (tasks + 2) % 16 <= 4);
        handovers.extend(near_sixteen.flat_map(|tasks| named_tasks(kind, tasks as u32)));
        let some = [1, 8, 9, 31, 32, 33, 64, 95, 96].into_iter().filter(|links| *links <= kind.limits.links);
        handovers.extend(some.flat_map(|links| named_links(kind, links)));
    }
    handovers.into_iter().map(with_one_tick).chain(dated::limits()).collect()
}

fn of_many_events(kind: RecordingKind) -> Vec<Handover> {
    [event_counts(kind), longest(kind)].concat()
}

/// A kind that is none comes before all else: with nothing at fault besides, and
/// with a fault in the tasks, their count, the links, or the events.
fn of_no_kind() -> Vec<Handover> {
    let each = OF_NO_KIND.into_iter().flat_map(|kind| {
        let with = |tasks: usize, links: &[u32], events: &[u32]| Handover {
            kind,
            tasks: vec![9; tasks],
            links: links.to_vec(),
            events: events.to_vec(),
        };
        [
            with(2, &[0, 1, 0, 0], &[1, 3]),
            with(0, &[], &[]),
            with(ROOM.tasks + 1, &[], &[]),
            with(2, &[0, 1], &[]),
            with(2, &[1, 0, 0, 0], &[]),
            with(2, &[], &[7]),
            with(2, &[], &[1, 0]),
        ]
    });
    each.collect()
}

/// Counts of tasks by themselves, with a link, and with faults after them.
fn task_counts(kind: RecordingKind) -> Vec<Handover> {
    let counts = (0..=ROOM.tasks + 2).chain([255, 256, 257, 272, 273, 288, 289, 65_536, 65_537]);
    let with = |tasks: usize, links: Vec<u32>, events: Vec<u32>| Handover {
        kind: kind.number(),
        tasks: vec![9; tasks],
        links,
        events,
    };
    let each = counts.flat_map(|tasks| {
        [
            with(tasks, Vec::new(), Vec::new()),
            with(tasks, vec![0, 1, 0, 0], vec![1, 1]),
            with(tasks, vec![0, 1, 1, 5, 0, 1, 1, 5], vec![0]),
            with(tasks, vec![0; LINK_NUMBERS * (kind.limits.links + 1)], Vec::new()),
        ]
    });
    each.collect()
}

/// Counts of links with the last one whole or begun; those past the limit are
/// at fault as well.
fn link_counts(kind: RecordingKind) -> Vec<Handover> {
    let counts = [0, 1, 31, 32, 33, 34, 64, 95, 96, 97, 98, 255, 256, 257, 288, 289, 352, 353, 65_536];
    let slices = counts.iter().flat_map(|&count| {
        let numbers: Vec<u32> = (0..count).flat_map(|number| link(kind.limits, number)).collect();
        (0..LINK_NUMBERS).map(move |more| [&numbers[..], &vec![0; more]].concat())
    });
    slices.map(|links| of_most_tasks(kind, links)).collect()
}

/// The first tasks with eight readers behind each, the last eight, direct and
/// delayed in turn; then their first ones again.
fn link(limits: Limits, number: usize) -> [u32; LINK_NUMBERS] {
    let behind = number % limits.links;
    let kind = behind as u32 % 2;
    [
        (behind / MOST_BEHIND) as u32,
        (limits.tasks - MOST_BEHIND + behind % MOST_BEHIND) as u32,
        kind,
        kind * (u32::MAX - behind as u32),
    ]
}

/// As many tasks as there may be.
fn of_most_tasks(kind: RecordingKind, links: Vec<u32>) -> Handover {
    Handover { kind: kind.number(), tasks: vec![6; kind.limits.tasks], links, events: Vec::new() }
}

/// A writer with more than nine tasks behind it, and some ahead of it.
fn writer_amid(kind: RecordingKind) -> u32 {
    kind.limits.tasks as u32 - 13
}

/// Links of a task to so many readers behind.
fn behind(writer: u32, count: u32) -> Vec<u32> {
    (writer + 1..=writer + count).flat_map(|reader| [writer, reader, reader % 2, 0]).collect()
}

/// Seven to nine readers behind a writer, and three ahead of it, which don't
/// count; the ninth by itself, direct with a start value, a second one to its
/// reader, and begun.
fn readers_behind(kind: RecordingKind) -> Vec<Handover> {
    let writer = writer_amid(kind);
    let (first, ninth) = (writer + 1, writer + 9);
    let ahead: Vec<u32> = (0..3).flat_map(|reader| [writer, reader, 1, reader]).collect();
    let [seven, eight, nine] = [7, 8, 9].map(|count| behind(writer, count));
    let after_eight = |link: &[u32]| [&eight[..], link].concat();
    let slices = [
        [&ahead[..], &seven].concat(),
        [&ahead[..], &eight].concat(),
        [&ahead[..], &nine].concat(),
        after_eight(&ahead),
        after_eight(&[writer, ninth, 0, 1]),
        after_eight(&[writer, first, 1, 0]),
        after_eight(&[writer, first, 0, 1]),
        after_eight(&[writer, ninth]),
        after_eight(&[writer, ninth, 1]),
        after_eight(&[writer - 1, ninth, 0, 0]),
        after_eight(&[writer - 1, ninth, 0, 1]),
        nine,
    ];
    slices.map(|links| of_most_tasks(kind, links)).to_vec()
}

/// A writer's self link before, among and after its eight readers behind, of
/// which it is none, and with a ninth; a second one; a direct one by itself and
/// after another, with a start value and without; one of no kind; and begun.
fn self_links(kind: RecordingKind) -> Vec<Handover> {
    let writer = writer_amid(kind);
    let own = [writer, writer, 1, 7];
    let direct = [writer, writer, 0, 0];
    let other = writer - 1;
    let [seven, eight, nine] = [7, 8, 9].map(|count| behind(writer, count));
    let slices = [
        [&own[..], &eight].concat(),
        [&seven[..], &own, &eight[28..]].concat(),
        [&eight[..], &own].concat(),
        [&own[..], &nine].concat(),
        [&eight[..], &own, &nine[32..]].concat(),
        [&own[..], &own].concat(),
        [&eight[..], &own, &own].concat(),
        direct.to_vec(),
        vec![writer, writer, 0, 1],
        [&own[..], &direct].concat(),
        [&own[..], &[other, other, 0, 1]].concat(),
        [&eight[..], &direct].concat(),
        [&own[..], &[writer, writer, 2, 0]].concat(),
        vec![writer, writer, 255, 1],
        vec![writer, writer, 256, 0],
        vec![writer, writer, 257, 0],
        own[..2].to_vec(),
        own[..3].to_vec(),
    ];
    slices.map(|links| of_most_tasks(kind, links)).to_vec()
}

/// A self link of every task, and others up to the limit and past it; all tasks
/// arrive at once, and each reads its own output; the last one in the end once
/// more, after its finish.
fn all_read_themselves(kind: RecordingKind) -> Vec<Handover> {
    let Limits { tasks, links } = kind.limits;
    let last = tasks as u32 - 1;
    let own = (0..=last).flat_map(|task| [task, task, 1, task << 24]);
    let runs = (0..=last).flat_map(|task| [2, task, 3, task, 4, task, task + 1]);
    let events: Vec<u32> = [1, all_of(tasks)].into_iter().chain(runs).collect();
    let with = |others: usize, events: Vec<u32>| {
        let links = own.clone().chain((0..others).flat_map(|number| link(kind.limits, number))).collect();
        Handover { events, ..of_most_tasks(kind, links) }
    };
    let others = links - tasks;
    vec![
        with(0, events.clone()),
        with(others, events.repeat(3)),
        with(others + 1, events.clone()),
        with(others, [&events[..], &[3, last]].concat()),
    ]
}

/// Counts of events with the last one whole, of an unknown kind, or begun.
fn event_counts(kind: RecordingKind) -> Vec<Handover> {
    let most = kind.most_events;
    let counts = [0, 1, most - 1, most, most + 1, 6_000, 6_001, 10_000, 10_001];
    let ends: [&[u32]; 7] = [&[], &[0], &[5, 1], &[257, 1], &[2], &[4, 1], &[4]];
    let mut slices = Vec::new();
    for count in counts {
        slices.extend(ends.map(|end| [&events(count)[..], end].concat()));
    }
    // What is after an unknown kind doesn't count; an event at fault does, and
    // so does all that is after it.
    slices.push([&[0][..], &events(most + 1)].concat());
    slices.push([&[1, 1, 7][..], &events(most + 1)].concat());
    slices.push([&[2, 9][..], &events(most - 1)].concat());
    slices.push([&[2, 9][..], &events(most)].concat());
    let mut handovers: Vec<Handover> = slices.into_iter().map(|slice| two(kind, vec![0, 1, 0, 0], slice)).collect();
    // A fault in the links, or a link that was begun, comes before the events.
    for links in [vec![0, 1, 2, 0], vec![0, 1, 0, 0, 1], vec![0, 0, 0, 0], vec![0, 1, 0, 1]] {
        handovers.push(two(kind, links, events(most + 1)));
    }
    handovers.push(Handover { tasks: Vec::new(), ..two(kind, Vec::new(), events(most + 1)) });
    handovers
}

/// The most bytes that can be accepted, and faults in the last event of so
/// many: a task that a smaller kind has no room for, one that has not arrived,
/// an unknown kind, and numbers that are not all there.
fn longest(kind: RecordingKind) -> Vec<Handover> {
    let (tasks, most) = (kind.limits.tasks as u32, kind.most_events);
    let mut round = vec![vec![1, all_of(kind.limits.tasks)]];
    round.extend((0..tasks).flat_map(|task| [vec![2, task], vec![4, task, task << 24]]));
    let events = |count: usize| round.iter().cycle().take(count).flatten().copied().collect::<Vec<u32>>();
    let links: Vec<u32> = (0..kind.limits.links).flat_map(|number| link(kind.limits, number)).collect();
    let with = |events| Handover { events, ..of_most_tasks(kind, links.clone()) };
    let ends: [&[u32]; 5] = [&[1, 1 << 16], &[2, tasks - 1], &[9], &[3], &[4, tasks - 1]];
    let mut handovers = vec![with(events(most))];
    handovers.extend(ends.map(|end| with([&events(most - 1)[..], end].concat())));
    handovers
}

/// Counts that two bytes can't hold, or just can.
fn large_event_counts(kind: RecordingKind) -> Vec<Handover> {
    [65_535, 65_536, 65_537].map(|count| two(kind, vec![0, 1, 0, 0], events(count))).to_vec()
}

/// Sets and tasks around the end of a table with so many tasks, where the last
/// one may run.
fn named_tasks(kind: RecordingKind, tasks: u32) -> Vec<Handover> {
    let last = 1 << (tasks - 1);
    let all = all_of(tasks as usize);
    let wide = [1 << 15, 1 << 16, 1 << 17, 1 << 20, 1 << 31];
    let sets = [0, 1, last, all, 0xFFFF, u32::MAX].into_iter().chain(wide).chain(wide.map(|bit| bit | last));
    // Of 32 tasks there is no set past them.
    let past = all.checked_add(1).into_iter().flat_map(|past| [past, past | 1]);
    let mut events: Vec<Vec<u32>> = sets.chain(past).map(|set| vec![1, set]).collect();
    for task in around(tasks) {
        events.push(vec![1, last, 2, task]);
        events.push(vec![1, last, 2, tasks - 1, 4, task, 5]);
    }
    let with = |events| Handover { kind: kind.number(), tasks: vec![1; tasks as usize], links: Vec::new(), events };
    events.into_iter().map(with).collect()
}

/// Reads by links around the end of a list with so many, where the last one's
/// reader is running.
fn named_links(kind: RecordingKind, links: usize) -> Vec<Handover> {
    let numbers: Vec<u32> = (0..links).flat_map(|number| link(kind.limits, number)).collect();
    let reader = numbers[numbers.len() - LINK_NUMBERS + 1];
    let with = |which: u32| {
        let events = vec![1, 1 << reader, 2, reader, 3, which];
        Handover { events, ..of_most_tasks(kind, numbers.clone()) }
    };
    around(links as u32).into_iter().map(with).collect()
}

/// Numbers around the end of so many, and those that would be the last one
/// again, cut to a byte or to two.
fn around(count: u32) -> Vec<u32> {
    let last = count - 1;
    let near = [0, last, count, count + 1, 15, 16, 31, 32, 95, 96, 127, 128, 255];
    near.into_iter().chain([last + 256, last | 1 << 16, last | 1 << 31, u32::MAX]).collect()
}

fn two(kind: RecordingKind, links: Vec<u32>, events: Vec<u32>) -> Handover {
    Handover { kind: kind.number(), tasks: vec![3, 4], links, events }
}

/// The first events of a round that goes on for ever.
fn events(count: usize) -> Vec<u32> {
    let round: [&[u32]; 8] = [&[1, 3], &[2, 0], &[4, 0, 6], &[2, 1], &[3, 0], &[3, 0], &[3, 0], &[4, 1, 0]];
    round.iter().cycle().take(count).flat_map(|event| event.iter().copied()).collect()
}
