//! Events, sets and links that may break a rule, or several at once.

use crate::engine::IDLE;
use crate::format::{Event, Link, Table, Timed};
use crate::prng::Prng;
use crate::random_table::{link_of_any_kind, random_table, self_link, value, Size};
use crate::schedule::Schedule;
use crate::sizes::{RecordingKind, MOST_BEHIND, MOST_TICK};

/// An event that may break a rule, at a tick that may where there are ticks.
pub fn nasty_event(prng: &mut Prng, table: &Table, schedule: &Schedule) -> Timed {
    let event = nasty_untimed(prng, table, schedule);
    let tick = if schedule.dated { Some(nasty_tick(prng, schedule, event)) } else { None };
    Timed { tick, event }
}

/// The last tick, one below it, and one above; the limit, and one above; the
/// deadline of the job that would finish, or that may run, and one after; and
/// those that are the last one but for their lowest bytes.
pub fn nasty_tick(prng: &mut Prng, schedule: &Schedule, event: Event) -> u32 {
    let last = schedule.last;
    let task = match event {
        Event::Finish(task, _) if usize::from(task) < schedule.phase.len() => Some(usize::from(task)),
        _ => schedule.top(),
    };
    let deadline = task.map_or(last, |task| schedule.deadline(task).min(u64::from(u32::MAX - 1)) as u32);
    let near = [last, last, last, last.saturating_sub(1), last + 1, deadline, deadline, deadline + 1];
    let far = [0, MOST_TICK, MOST_TICK + 1, u32::MAX, last & 0xFFFF, last >> 8, deadline.saturating_sub(1)];
    if prng.chance(75) {
        prng.pick(&near)
    } else {
        prng.pick(&far)
    }
}

/// Out-of-range numbers come up in each kind.
fn nasty_untimed(prng: &mut Prng, table: &Table, schedule: &Schedule) -> Event {
    let tasks = table.defaults.len();
    let task = |prng: &mut Prng| {
        let top = schedule.top().unwrap_or(0);
        let drawn = prng.below(tasks);
        prng.pick(&[top, top, drawn, drawn, drawn, tasks, 15, 16, 31, 32, 255]) as u8
    };
    match prng.below(4) {
        0 => Event::Arrival(nasty_set(prng, &schedule.phase)),
        1 => Event::Start(task(prng)),
        2 => {
            let drawn = prng.below(table.links.len().max(1));
            let links = table.links.len();
            Event::Read(prng.pick(&[drawn, drawn, drawn, drawn, drawn, links, links, 31, 32, 95, 96, 255]) as u8)
        }
        _ => Event::Finish(task(prng), value(prng)),
    }
}

/// Of 32 bits, whatever the field that it may be written to.
fn nasty_set(prng: &mut Prng, phases: &[u8]) -> u32 {
    let mut set = 0;
    for (task, phase) in phases.iter().enumerate() {
        if prng.chance(if *phase == IDLE { 40 } else { 20 }) {
            set |= 1 << task;
        }
    }
    match prng.below(8) {
        0 => 0,
        1 => prng.pick(&[0xFFFF, u32::MAX]),
        2 | 3 if phases.len() < 32 => {
            let past = prng.between(phases.len(), 31);
            set | 1 << prng.pick(&[phases.len(), past, 31])
        }
        4 => prng.word() >> prng.pick(&[0, 16]),
        _ => set,
    }
}

/// A table whose last links break several rules at once, as a rule.
pub fn competing_table(prng: &mut Prng, kind: RecordingKind) -> Table {
    let size = prng.pick(&[Size::Small, Size::Any, Size::Limit, Size::Full]);
    let mut table = random_table(prng, kind, size);
    if prng.chance(30) {
        crowd(prng, &mut table);
        table.links.truncate(kind.limits.links);
    }
    for _ in 0..prng.between(1, 3) {
        table.links.push(nasty_link(prng, &table.order().from_the_first(), &table.links));
    }
    table
}

/// Gives the task ahead of all others a crowd of readers, where the table has
/// that many tasks.
fn crowd(prng: &mut Prng, table: &mut Table) {
    let tasks = table.order().from_the_first();
    table.links.retain(|link| usize::from(link.writer) != tasks[0]);
    let behind = (tasks.len() - 1).min(MOST_BEHIND);
    table.links.extend(crowd_of_links(prng, &tasks, behind));
}

/// Of tasks in their order, links of the first to so many readers behind, and
/// half the time one to itself anywhere among them, which does not count as one
/// of those.
pub fn crowd_of_links(prng: &mut Prng, tasks: &[usize], behind: usize) -> Vec<Link> {
    let first = tasks[0] as u8;
    let readers = &tasks[1..=behind];
    let mut links: Vec<Link> = readers.iter().map(|reader| link_of_any_kind(prng, first, *reader as u8)).collect();
    if prng.chance(50) {
        links.insert(prng.below(links.len() + 1), self_link(prng, first));
    }
    links
}

/// `in_order` are the tasks, the one ahead of all others first.
fn nasty_link(prng: &mut Prng, in_order: &[usize], earlier: &[Link]) -> Link {
    let tasks = in_order.len();
    let task = |prng: &mut Prng| prng.pick(&[0, tasks - 1, tasks.saturating_sub(2), tasks, 16, 32, 255]) as u8;
    let (writer, reader, kind) = (task(prng), task(prng), prng.pick(&[0, 0, 1, 1, 2, 255]));
    // Whatever the kind; one in each of its bytes.
    let start_value = prng.pick(&[0, 0, 0, 1, 1 << 8, 1 << 16, 1 << 24, u32::MAX]);
    let mut link = Link { writer, reader, kind, start_value };
    if prng.chance(40) {
        link.writer = in_order[0] as u8;
        link.reader = prng.below(tasks + 1) as u8;
    }
    if prng.chance(15) {
        link.reader = link.writer;
    }
    if !earlier.is_empty() && prng.chance(30) {
        let old = prng.pick(earlier);
        link.writer = old.writer;
        link.reader = old.reader;
    }
    link
}
