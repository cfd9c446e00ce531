//! Tables as a host lends them, and the ones that get tried: lawful ones,
//! every single fault, faults that compete, and counts for which a state has no
//! room.

use crate::format::{deadline_refusal, link_faults, link_refusal, Link, LinkRule, Table};
use crate::nasty::competing_table;
use crate::order::Order;
use crate::prng::Prng;
use crate::random_table::{random_table, Size};
use crate::sizes::{Limits, RecordingKind, KINDS, ROOM};
use crate::writing::Handover;

/// A table that is lent: any two counts, and arrays that may hold anything, with
/// relative deadlines or without. Slots past the counts are not looked at.
#[derive(Clone, PartialEq, Eq, Debug)]
pub struct LentTable {
    pub tasks: usize,
    pub links: usize,
    pub defaults: [u32; ROOM.tasks],
    pub deadlines: Option<[u16; ROOM.tasks]>,
    pub writer: [u8; ROOM.links],
    pub reader: [u8; ROOM.links],
    pub kind: [u8; ROOM.links],
    pub start_value: [u32; ROOM.links],
}

impl LentTable {
    /// A table with the slots past its counts filled, so that one looked at
    /// shows.
    /// What there is no slot for is counted and left out.
    pub fn of(table: &Table) -> LentTable {
        let mut lent = LentTable {
            tasks: table.defaults.len(),
            links: table.links.len(),
            defaults: [0xA5A5_A5A5; ROOM.tasks],
            deadlines: None,
            writer: [0xA5; ROOM.links],
            reader: [0xA5; ROOM.links],
            kind: [0xA5; ROOM.links],
            start_value: [0xA5A5_A5A5; ROOM.links],
        };
        let slots = lent.tasks.min(ROOM.tasks);
        lent.defaults[..slots].copy_from_slice(&table.defaults[..slots]);
        lent.deadlines = table.deadlines.as_ref().map(|deadlines| {
            // Past the tasks one is refused if it is looked at, the next one not.
            let mut filled = [0, 0xA5A5].repeat(ROOM.tasks / 2);
            filled[..slots].copy_from_slice(&deadlines[..slots]);
            std::array::from_fn(|task| filled[task])
        });
        for (number, &link) in table.links.iter().enumerate().take(ROOM.links) {
            lent.set_link(number, link);
        }
        lent
    }

    fn link(&self, number: usize) -> Link {
        Link::of([self.writer[number], self.reader[number], self.kind[number]], self.start_value[number])
    }

    fn set_link(&mut self, number: usize, link: Link) {
        self.writer[number] = link.writer;
        self.reader[number] = link.reader;
        self.kind[number] = link.kind;
        self.start_value[number] = link.start_value;
    }

    fn with_counts(&self, tasks: usize, links: usize) -> LentTable {
        LentTable { tasks, links, ..self.clone() }
    }

    fn with_link(&self, number: usize, link: Link) -> LentTable {
        let mut changed = self.clone();
        changed.set_link(number, link);
        changed
    }

    fn with_deadline(&self, task: usize, deadline: u16) -> LentTable {
        let mut changed = self.clone();
        if let Some(deadlines) = &mut changed.deadlines {
            deadlines[task] = deadline;
        }
        changed
    }

    /// The table, or the first of 2, 24, 3, and 4 to 9 and 20 that it breaks: the
    /// tasks, the count of links, then link by link.
    pub fn judged(&self) -> Result<Table, u8> {
        self.judged_by(ROOM, link_refusal)
    }

    /// The same by other limits, which must be within the room, and with the
    /// links judged by another rule.
    pub fn judged_by(&self, limits: Limits, rule: LinkRule) -> Result<Table, u8> {
        let refusals = [self.task_refusal(limits), limits.link_refusal(self.links)];
        if let Some(refusal) = refusals.into_iter().find(|refusal| *refusal != 0) {
            return Err(refusal);
        }
        let table = self.as_it_stands();
        let fault = link_faults(self.order(), &table.links, rule).next();
        fault.map_or(Ok(table), Err)
    }

    /// 2, or 24 for a relative deadline of 0, where the tasks have any.
    fn task_refusal(&self, limits: Limits) -> u8 {
        match limits.task_refusal(self.tasks) {
            0 => deadline_refusal(self.deadlines_of_tasks().find(|deadline| **deadline == 0)),
            refusal => refusal,
        }
    }

    /// Of a count of tasks for which there is room; none with fixed priorities.
    fn deadlines_of_tasks(&self) -> impl Iterator<Item = &u16> {
        self.deadlines.iter().flatten().take(self.tasks)
    }

    pub fn order(&self) -> Order {
        Order::by_deadlines(self.tasks, self.deadlines_of_tasks().map(|deadline| u32::from(*deadline)))
    }

    /// What a station would hand over that has this table and no events, filled
    /// alike where there is no slot; none for counts that no slice has. A kind with
    /// relative deadlines is for a table that has them.
    pub fn handed_over(&self, kind: RecordingKind) -> Option<Handover> {
        if self.tasks > 1_000 || self.links > 1_000 || kind.dated != self.deadlines.is_some() {
            return None;
        }
        let word = |slots: &[u32], number: usize| slots.get(number).copied().unwrap_or(0xA5A5_A5A5);
        let byte = |slots: &[u8], number: usize| u32::from(slots.get(number).copied().unwrap_or(0xA5));
        let link =
            |l: usize| [byte(&self.writer, l), byte(&self.reader, l), byte(&self.kind, l), word(&self.start_value, l)];
        let deadline = |task: usize| {
            let slots = self.deadlines.as_ref();
            slots.map(|slots| slots.get(task).map_or(0xA5A5, |deadline| u32::from(*deadline)))
        };
        let task = |t: usize| [Some(word(&self.defaults, t)), deadline(t)].into_iter().flatten();
        Some(Handover {
            kind: kind.number(),
            tasks: (0..self.tasks).flat_map(task).collect(),
            links: (0..self.links).flat_map(link).collect(),
            events: Vec::new(),
        })
    }

    /// The table of counts for which there is room, whatever its links say.
    pub fn as_it_stands(&self) -> Table {
        let links = (0..self.links).map(|number| self.link(number)).collect();
        let deadlines = self.deadlines.map(|deadlines| deadlines[..self.tasks].to_vec());
        Table { defaults: self.defaults[..self.tasks].to_vec(), deadlines, links }
    }
}

/// The next tables: one, or a whole family from one lawful table. `number`
/// counts the batches.
pub fn batch(number: usize, prng: &mut Prng) -> Vec<LentTable> {
    let size = prng.pick(&[Size::Small, Size::Any, Size::Limit, Size::Full]);
    let kind = prng.pick(&KINDS);
    let mut lawful = || LentTable::of(&random_table(prng, kind, size));
    match number % 400 {
        200 => every_count(&lawful()),
        201 => every_link_field(&lawful()),
        202 | 203 => every_deadline(&LentTable::of(&random_table(prng, RecordingKind::DATED, size))),
        n if n % 4 == 0 => vec![lawful()],
        n if n % 16 == 1 => {
            let table = competing_table(prng, RecordingKind::DATED);
            vec![one_without_deadline(prng, &LentTable::of(&table))]
        }
        _ => vec![LentTable::of(&competing_table(prng, kind))],
    }
}

/// Each task's relative deadline in turn none, the least, one that its own
/// highest byte alone tells from none, the largest, and that of the task before
/// it, with which it is tied; the first slot past the tasks as well. Each with a
/// count of tasks and one of links past the room too: 2 comes before 24, and 24
/// before 3.
fn every_deadline(lawful: &LentTable) -> Vec<LentTable> {
    let mut tables = Vec::new();
    for task in 0..(lawful.tasks + 1).min(ROOM.tasks) {
        let before = lawful.deadlines.map_or(1, |deadlines| deadlines[task.saturating_sub(1)]);
        for deadline in [0, 1, 0x100, u16::MAX, before] {
            let changed = lawful.with_deadline(task, deadline);
            tables.push(changed.with_counts(changed.tasks, ROOM.links + 1));
            tables.push(changed.with_counts(ROOM.tasks + 1, changed.links));
            tables.push(changed);
        }
    }
    tables
}

fn one_without_deadline(prng: &mut Prng, table: &LentTable) -> LentTable {
    let task = prng.below(table.tasks);
    let links = prng.pick(&[table.links, table.links, ROOM.links + 1, 255]);
    table.with_deadline(task, 0).with_counts(table.tasks, links)
}

/// Every count near the room, and counts that a byte or two can't hold. A
/// smaller count of tasks leaves links that name none; a larger one of links
/// has slots that nobody filled.
fn every_count(lawful: &LentTable) -> Vec<LentTable> {
    let beyond = [255, 256, 257, 512, 1 << 16, 1 << 16 | 1, 1 << 31, usize::MAX - 1, usize::MAX];
    let tasks = || (0..=ROOM.tasks + 2).chain(beyond);
    let links = || (0..=ROOM.links + 2).chain(beyond);
    let mut tables: Vec<LentTable> = tasks().map(|count| lawful.with_counts(count, lawful.links)).collect();
    tables.extend(links().map(|count| lawful.with_counts(lawful.tasks, count)));
    // Both at once: the tasks come first.
    tables.extend(beyond.iter().flat_map(|&count| {
        [lawful.with_counts(count, count), lawful.with_counts(0, count), lawful.with_counts(count, ROOM.links)]
    }));
    tables
}

/// Each byte of each link in turn set to every task, to some past the table,
/// and to every kind and some that are none; and its start value to none, and
/// to one in each of its bytes.
fn every_link_field(lawful: &LentTable) -> Vec<LentTable> {
    let tasks = || (0..=lawful.tasks as u8).chain([16, 32, 127, 255]);
    let mut tables = Vec::new();
    for number in 0..lawful.links {
        let link = lawful.link(number);
        tables.extend(tasks().map(|writer| lawful.with_link(number, Link { writer, ..link })));
        tables.extend(tasks().map(|reader| lawful.with_link(number, Link { reader, ..link })));
        tables.extend([0, 1, 2, 3, 128, 255].map(|kind| lawful.with_link(number, Link { kind, ..link })));
        tables.extend(
            [0, 1, 1 << 8, 1 << 16, 1 << 31, u32::MAX]
                .map(|start_value| lawful.with_link(number, Link { start_value, ..link })),
        );
    }
    tables
}
