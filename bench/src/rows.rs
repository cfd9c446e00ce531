//! The recordings that are timed: accepted ones, most of them as long as there are.
use crate::answer::{DELAYED, DIRECT};
use crate::kind::{Kind, KINDS};
use crate::make::{link, Link, Maker};

/// A recording that is timed, and what it is.
pub struct Row {
    pub name: String,
    pub events: usize,
    /// as many events as its kind may have
    pub full: bool,
    pub bytes: Vec<u8>,
}

fn row(kind: Kind, name: String, recording: Maker) -> Row {
    let name = match (kind.dated, kind.wide) {
        (true, _) => format!("dated: {}", name),
        (false, true) => format!("wide: {}", name),
        (false, false) => name,
    };
    let events = recording.count();
    Row { name, events, full: events == kind.events, bytes: recording.bytes() }
}

/// The first links of as many tasks as a kind has: each task writes to the next one, then to the one before, then to the one after the next.
fn spread(kind: Kind, links: usize) -> Vec<Link> {
    let tasks = kind.tasks;
    let pairs = [1, tasks - 1, 2].into_iter().flat_map(|step| (0..tasks).map(move |t| (t, (t + step) % tasks)));
    pairs.take(links).map(|(w, r)| link(w, r, if r < w { DELAYED } else { DIRECT })).collect()
}

/// As many writers as there may be with eight readers behind each.
fn crowd(kind: Kind) -> usize {
    kind.links / 8
}

/// Their links: the readers are the last eight tasks.
fn crowded(kind: Kind) -> Vec<Link> {
    let pairs = (0..crowd(kind)).flat_map(|w| (kind.tasks - 8..kind.tasks).map(move |r| (w, r)));
    pairs.map(|(w, r)| link(w, r, if r % 2 == 0 { DIRECT } else { DELAYED })).collect()
}

/// The set of the first tasks.
fn first(tasks: usize) -> usize {
    (1 << tasks) - 1
}

/// So many events: a round of them over and over, the last one cut where it is full.
fn rounds(kind: Kind, tasks: usize, links: &[Link], events: usize, round: impl Fn(&mut Maker)) -> Maker {
    let mut m = Maker::new(kind, tasks, links, events);
    while !m.full() {
        round(&mut m);
    }
    m
}

/// All tasks of a table arrive at once and run in order, each reading by all its links so many times over.
fn at_once(kind: Kind, tasks: usize, links: &[Link], times: usize, events: usize) -> Maker {
    rounds(kind, tasks, links, events, |m| {
        m.arrival(first(tasks));
        m.run_each(0..tasks, times);
    })
}

/// One task at a time: it arrives, runs and finishes before the next one arrives.
fn one_at_a_time(kind: Kind, links: &[Link], times: usize) -> Maker {
    rounds(kind, kind.tasks, links, kind.events, |m| {
        for t in 0..kind.tasks {
            m.arrival(1 << t);
            m.run(t, times);
        }
    })
}

/// The most reads there can be: an arrival, a start and 9,998 reads by the least urgent task, of a dated recording 5,998.
fn reads_of_last(kind: Kind, links: &[Link]) -> Maker {
    let last = kind.tasks - 1;
    let mut m = Maker::new(kind, kind.tasks, links, kind.events);
    m.arrival(1 << last);
    m.run(last, kind.events);
    m
}

/// Each task is interrupted by the next more urgent one as soon as it runs; then all finish, the most urgent first.
fn interrupted(kind: Kind, links: &[Link]) -> Maker {
    rounds(kind, kind.tasks, links, kind.events, |m| {
        for t in (0..kind.tasks).rev() {
            m.arrival(1 << t);
            m.start(t);
            m.reads(t, 1);
        }
        m.end_each(0..kind.tasks);
    })
}

/// The eight readers of the writers are interrupted one by one while the writers write, so that each reader holds another position.
fn positions_full(kind: Kind) -> Maker {
    let (writers, readers) = (crowd(kind), kind.tasks - 8..kind.tasks);
    rounds(kind, kind.tasks, &crowded(kind), kind.events, |m| {
        for r in readers.clone().rev() {
            m.arrival(1 << r);
            m.start(r);
            m.arrival(first(writers));
            m.run_each(0..writers, 0);
        }
        m.end_each(readers.clone());
    })
}

pub fn rows() -> Vec<Row> {
    let of_kinds = KINDS.map(|kind| different(kind).into_iter().chain(growing(kind)));
    of_kinds.into_iter().flatten().collect()
}

/// Different recordings of full length, with as many tasks and links as a kind has.
fn different(kind: Kind) -> Vec<Row> {
    let Kind { tasks, links, events, .. } = kind;
    let all = spread(kind, links);
    // reads so many times over that a first round is nearly all: 9,985 events of the base kind, 9,953 of the wide one, 5,921 of the dated one
    let times = (events - 1 - 2 * tasks) / links;
    let named = [
        (
            format!("all {} at once, {} links of {} writers", tasks, links, crowd(kind)),
            at_once(kind, tasks, &crowded(kind), 1, events),
        ),
        (format!("all {} at once, {} links of {} writers", tasks, links, tasks), at_once(kind, tasks, &all, 1, events)),
        (format!("one task at a time, {} links, each read once", links), one_at_a_time(kind, &all, 1)),
        (format!("one task at a time, {} links, no reads", links), one_at_a_time(kind, &all, 0)),
        (format!("reads by all {} tasks, {} links", tasks, links), at_once(kind, tasks, &all, times, events)),
        (format!("reads by the last task, {} links", links), reads_of_last(kind, &all)),
        (format!("{} interruptions deep, {} links", tasks, links), interrupted(kind, &all)),
        ("interrupted readers hold 8 positions each".to_string(), positions_full(kind)),
    ];
    named.into_iter().map(|(name, recording)| row(kind, name, recording)).collect()
}

/// The same recording with more and more events, tasks, or links.
fn growing(kind: Kind) -> Vec<Row> {
    let Kind { tasks, links, events: most, .. } = kind;
    let by_events = [100, 1_000, most].map(|events| {
        let name = format!("growth by events: {}, {} tasks, {} links", events, tasks, links);
        row(kind, name, at_once(kind, tasks, &spread(kind, links), 1, events))
    });
    let by_tasks = [1, tasks / 4, tasks].map(|tasks| {
        let name = format!("growth by tasks: {}, no links", tasks);
        row(kind, name, at_once(kind, tasks, &[], 0, most))
    });
    let by_links = [0, links / 4, links].map(|links| {
        let name = format!("growth by links: {}, {} tasks, no reads", links, tasks);
        row(kind, name, at_once(kind, tasks, &spread(kind, links), 0, most))
    });
    [by_events, by_tasks, by_links].into_iter().flatten().collect()
}
