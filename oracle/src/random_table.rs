//! Random tables that keep the rules.

use crate::format::{link_refusal, Link, Table, DELAYED};
use crate::order::Order;
use crate::prng::Prng;
use crate::sizes::{RecordingKind, MOST_BEHIND};

#[derive(Clone, Copy, PartialEq, Eq)]
pub enum Size {
    Small,
    Any,
    Limit,
    /// The most tasks and the most links.
    Full,
}

pub fn random_table(prng: &mut Prng, kind: RecordingKind, size: Size) -> Table {
    let limits = kind.limits;
    let (tasks, links) = match size {
        Size::Small => (prng.between(1, 4), prng.between(0, 5)),
        Size::Any => (prng.between(1, limits.tasks), prng.between(0, limits.links)),
        Size::Full if prng.chance(50) => return crowded_table(prng, kind),
        Size::Full => return all_read_themselves(prng, kind),
        Size::Limit => (prng.between(limits.tasks * 5 / 8, limits.tasks), prng.between(limits.links / 2, limits.links)),
    };
    let mut table = table_of(prng, kind, tasks);
    let order = table.order();
    let habit = link_habit(prng, &order);
    for _ in 0..links * 4 {
        let link = random_link(prng, &order, &habit);
        let wanted = habit.to_itself > 0 || !link.to_itself();
        if wanted && table.links.len() < links && link_refusal(&order, &table.links, link) == 0 {
            table.links.push(link);
        }
    }
    table
}

/// As many tasks as there may be, each with a self link, and other links up to
/// the most; the self links stand anywhere among them.
pub fn all_read_themselves(prng: &mut Prng, kind: RecordingKind) -> Table {
    let limits = kind.limits;
    let mut table = table_of(prng, kind, limits.tasks);
    let order = table.order();
    let habit = link_habit(prng, &order);
    while table.links.len() < limits.links - limits.tasks {
        let link = random_link(prng, &order, &habit);
        if !link.to_itself() && link_refusal(&order, &table.links, link) == 0 {
            table.links.push(link);
        }
    }
    for task in 0..limits.tasks as u8 {
        table.links.insert(prng.below(table.links.len() + 1), self_link(prng, task));
    }
    table
}

/// The first tasks, in their order, with eight readers behind each, the last
/// eight.
pub fn crowded_table(prng: &mut Prng, kind: RecordingKind) -> Table {
    let mut table = table_of(prng, kind, kind.limits.tasks);
    let tasks = table.order().from_the_first();
    let (writers, readers) = (&tasks[..kind.limits.links / MOST_BEHIND], &tasks[tasks.len() - MOST_BEHIND..]);
    let pairs = writers.iter().flat_map(|writer| readers.iter().map(move |reader| (*writer as u8, *reader as u8)));
    table.links = pairs.map(|(writer, reader)| link_of_any_kind(prng, writer, reader)).collect();
    table
}

/// So many tasks, without links.
fn table_of(prng: &mut Prng, kind: RecordingKind, tasks: usize) -> Table {
    let defaults = (0..tasks).map(|_| value(prng)).collect();
    let deadlines = if kind.dated { Some(deadlines(prng, tasks)) } else { None };
    Table { defaults, deadlines, links: Vec::new() }
}

/// Relative deadlines: few different ones, so that many tasks are tied; all
/// alike; rising and falling with the table; the least and the largest; or any.
pub fn deadlines(prng: &mut Prng, tasks: usize) -> Vec<u16> {
    let step = prng.pick(&[1, 1, 3, 100, 1_000]);
    let few = prng.pick(&[2, 4, 8]);
    let alike = prng.pick(&[1, 2, 5, 100, u16::MAX]);
    let habit = prng.below(7);
    let one = |prng: &mut Prng, task: usize| match habit {
        0 | 1 => prng.between(1, few) as u16,
        2 => alike,
        3 => 1 + step * task as u16,
        4 => 1 + step * (tasks - 1 - task) as u16,
        5 => prng.pick(&[1, 2, 256, u16::MAX - 1, u16::MAX]),
        _ => prng.between(1, usize::from(u16::MAX)) as u16,
    };
    (0..tasks).map(|task| one(prng, task)).collect()
}

/// How a table's links are drawn.
struct LinkHabit {
    /// Seven in ten links are of one of these tasks: of few writers the links to
    /// readers behind come up to eight.
    writers: Vec<usize>,
    /// So many in a hundred links are self links, besides those that happen to
    /// be; where it is 0 there are none.
    to_itself: usize,
}

/// All tasks, or the first few in their order.
fn link_habit(prng: &mut Prng, order: &Order) -> LinkHabit {
    let mut writers = order.from_the_first();
    writers.truncate(prng.pick(&[writers.len(), writers.len(), 2, 4]));
    LinkHabit { writers, to_itself: prng.pick(&[0, 5, 20, 50]) }
}

fn random_link(prng: &mut Prng, order: &Order, habit: &LinkHabit) -> Link {
    let writer = if prng.chance(70) { prng.pick(&habit.writers) } else { prng.below(order.tasks) } as u8;
    let reader = if prng.chance(habit.to_itself) { writer } else { prng.below(order.tasks) as u8 };
    let kind = if order.ahead(writer, reader) { prng.below(2) as u8 } else { DELAYED };
    Link { writer, reader, kind, start_value: start_value(prng, kind) }
}

/// A link from a task to itself, as it may be.
pub fn self_link(prng: &mut Prng, task: u8) -> Link {
    Link { writer: task, reader: task, kind: DELAYED, start_value: value(prng) }
}

pub fn link_of_any_kind(prng: &mut Prng, writer: u8, reader: u8) -> Link {
    let kind = prng.below(2) as u8;
    Link { writer, reader, kind, start_value: start_value(prng, kind) }
}

/// A start value that a link of the kind may have: a direct one has none.
pub fn start_value(prng: &mut Prng, kind: u8) -> u32 {
    if kind == DELAYED {
        value(prng)
    } else {
        0
    }
}

pub fn value(prng: &mut Prng) -> u32 {
    match prng.below(20) {
        0 => 0,
        1 => u32::MAX,
        2 => prng.below(3) as u32,
        _ => prng.word(),
    }
}
