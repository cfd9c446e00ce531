//! The small tables over which every sequence of events is tried.

use crate::format::{Link, Table, DELAYED, DIRECT};
use crate::order::Order;
use crate::sizes::ROOM;

/// A table, and the first task and link that events are about.
#[derive(Debug)]
pub struct Explored {
    pub table: Table,
    pub first_task: usize,
    pub first_link: usize,
    /// No sequence of more events is tried.
    pub deepest: usize,
}

impl Explored {
    fn whole(table: Table) -> Explored {
        Explored { table, first_task: 0, first_link: 0, deepest: usize::MAX }
    }

    /// A small table at the end of the room of a state. The tasks before it never
    /// arrive, and the links before its own are theirs.
    fn at_the_end(small: &Table) -> Explored {
        let first_task = ROOM.tasks - small.defaults.len();
        let first_link = ROOM.links - small.links.len();
        let pairs = (0..first_task as u8).flat_map(|writer| (0..=writer).map(move |reader| (writer, reader)));
        let before = pairs.map(|(writer, reader)| delayed(writer, reader)).take(first_link);
        let moved = |task: u8| first_task as u8 + task;
        let own =
            small.links.iter().map(|link| Link { writer: moved(link.writer), reader: moved(link.reader), ..*link });
        // Those before it are not ahead of it, but in the table's order among themselves.
        let deadlines = small.deadlines.as_ref().map(|own| [&vec![9; first_task][..], own].concat());
        let links = before.chain(own).collect();
        let table = Table { defaults: defaults(ROOM.tasks as u8), deadlines, links };
        Explored { deepest: usize::MAX, table, first_task, first_link }
    }
}

/// Every table of one task and of two, and each of them at the end of the room.
/// Of three tasks: without self links every one with four links; with self
/// links every one with up to one link between different tasks, and with two
/// such links every one in which each task has a self link. With `long` every
/// one of three tasks in which none or each has a self link, and every one with
/// up to three links between different tasks.
///
/// From its task's first arrival on a self link points to `previous`, and it is
/// marked until the second. So it adds reads but no states: where each task has
/// one, all is tried that is where fewer have.
///
/// With relative deadlines: every table of one task and of two, with either order
/// and with ties of jobs and of tasks, some of two in the falling order at the end
/// of the room too; and of three tasks some with a link between each two of those
/// that stand side by side in their order, up to a few events.
pub fn explored_tables(long: bool) -> Vec<Explored> {
    let wanted = if long { in_long_run } else { in_default_run };
    let of_three = small_tables(3, None).into_iter().filter(|table| {
        let self_links = self_links(table);
        wanted(self_links, table.links.len() - self_links)
    });
    let smaller = [small_tables(1, None), small_tables(2, None)].concat();
    let at_the_end = smaller.iter().map(Explored::at_the_end).chain(dated_at_the_end()).collect::<Vec<_>>();
    let whole = smaller.into_iter().chain(of_three).chain(dated_tables()).map(Explored::whole);
    whole.chain(dated_of_three(long)).chain(at_the_end).collect()
}

fn dated_tables() -> Vec<Table> {
    let deadlines: [&[u16]; 5] = [&[1], &[3], &[1, 1], &[1, 2], &[3, 1]];
    deadlines.iter().flat_map(|deadlines| dated(deadlines)).collect()
}

/// A chain of links down the order of tasks, direct and delayed, and one back up.
fn dated_of_three(long: bool) -> Vec<Explored> {
    let deepest = if long { 12 } else { 8 };
    let chains = [[2, 1, 2], [3, 2, 1], [1, 1, 1]].map(|deadlines| {
        let table = Table { deadlines: Some(deadlines.to_vec()), ..Table::undated(defaults(3), Vec::new()) };
        let in_order = table.order().from_the_first();
        let [first, second, third] = [0, 1, 2].map(|number: usize| in_order[number] as u8);
        let direct = Link { writer: first, reader: second, kind: DIRECT, start_value: 0 };
        let links = vec![direct, delayed(second, third), delayed(third, first)];
        Explored { deepest, ..Explored::whole(Table { links, ..table }) }
    });
    chains.into_iter().collect()
}

fn dated_at_the_end() -> Vec<Explored> {
    let all_linked = dated(&[2, 1]).into_iter().filter(|table| table.links.len() == 4);
    all_linked.map(|table| Explored { deepest: 10, ..Explored::at_the_end(&table) }).collect()
}

fn dated(deadlines: &[u16]) -> Vec<Table> {
    small_tables(deadlines.len() as u8, Some(deadlines))
}

/// How many links of a table are self links.
pub fn self_links(table: &Table) -> usize {
    table.links.iter().filter(|link| link.to_itself()).count()
}

fn in_default_run(self_links: usize, between: usize) -> bool {
    matches!((self_links, between), (0, 4) | (1..=3, 0 | 1) | (3, 2))
}

fn in_long_run(self_links: usize, between: usize) -> bool {
    matches!((self_links, between), (0 | 3, _) | (_, 0..=3))
}

/// Every table of so many tasks, apart from the order of the links.
fn small_tables(tasks: u8, deadlines: Option<&[u16]>) -> Vec<Table> {
    let without = Table { deadlines: deadlines.map(<[u16]>::to_vec), ..Table::undated(defaults(tasks), Vec::new()) };
    let order = without.order();
    let pairs = (0..tasks).flat_map(|writer| (0..tasks).map(move |reader| (writer, reader)));
    let lists = pairs.fold(vec![Vec::new()], |lists, (writer, reader)| {
        lists.iter().flat_map(|links| with_each_choice(links, &order, writer, reader)).collect()
    });
    lists.into_iter().map(|links| Table { links, ..without.clone() }).collect()
}

/// The links with each choice that a pair leaves after them: none, a delayed
/// one, and a direct one where the reader is behind.
fn with_each_choice(links: &[Link], order: &Order, writer: u8, reader: u8) -> Vec<Vec<Link>> {
    let direct = Link { writer, reader, kind: DIRECT, start_value: 0 };
    let mut choices = vec![links.to_vec(), [links, &[delayed(writer, reader)]].concat()];
    if direct.reader_behind(order) {
        choices.push([links, &[direct]].concat());
    }
    choices
}

/// With a start value that is no default, that no finish writes, and that
/// differs from link to link.
fn delayed(writer: u8, reader: u8) -> Link {
    let start_value = u32::from_be_bytes([0xE0, 0, writer, reader]);
    Link { writer, reader, kind: DELAYED, start_value }
}

/// Defaults that no finish writes and that differ from task to task.
fn defaults(tasks: u8) -> Vec<u32> {
    (0..tasks).map(|task| 0xD000_0000 + u32::from(task)).collect()
}
