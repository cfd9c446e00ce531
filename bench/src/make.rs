//! A recording as it is written.
use crate::answer::DELAYED;
use crate::kind::Kind;
use parnusild::TASKS;
use std::ops::Range;

/// Writer, reader, kind, start value.
pub type Link = (usize, usize, u8, u32);

/// A link that has a start value of its own where it is delayed.
pub fn link(writer: usize, reader: usize, kind: u8) -> Link {
    let own = 2000 + (TASKS * writer + reader) as u32;
    (writer, reader, kind, if kind == DELAYED { own } else { 0 })
}

/// A recording being written, up to a number of events; what comes after them is left out.
///
/// Tasks are named by their order here: task 0 is ahead of all others. In a dated recording that is not where they stand in the table.
pub struct Maker {
    kind: Kind,
    table: Vec<u8>,
    events: Vec<u8>,
    count: usize,
    most: usize,
    links: Vec<Link>,
    value: u32,
    /// by their order, where the tasks stand in the table
    stands: Vec<usize>,
    /// the tick of the next event, and how many more it is of each next one
    pub tick: u32,
    step: u32,
}

impl Maker {
    /// Of a dated recording the tasks stand in the reverse of their order, with relative deadlines so long, and so far apart, that each job is due
    /// before any of a task behind and none is late; each event is one tick later than the one before.
    pub fn new(kind: Kind, tasks: usize, links: &[Link], most: usize) -> Maker {
        if !kind.dated {
            return Maker::made(kind, &vec![0; tasks], links, most);
        }
        let deadlines: Vec<u16> = (0..tasks as u16).rev().map(|place| 30_000 + 1_000 * place).collect();
        let mut maker = Maker::made(kind, &deadlines, links, most);
        maker.step = 1;
        maker
    }

    /// With relative deadlines as they stand in the table, which other kinds than the dated one leave out; all events are at the tick that is set.
    pub fn made(kind: Kind, deadlines: &[u16], links: &[Link], most: usize) -> Maker {
        let mut stands: Vec<usize> = (0..deadlines.len()).collect();
        stands.sort_by_key(|&t| (deadlines[t], t));
        let (links, most) = (links.to_vec(), most);
        let mut maker = Maker {
            kind,
            table: Vec::new(),
            events: Vec::new(),
            count: 0,
            most,
            links,
            value: 0,
            stands,
            tick: 0,
            step: 0,
        };
        maker.put_table(deadlines);
        maker
    }

    fn put_table(&mut self, deadlines: &[u16]) {
        self.table.extend([self.kind.first, deadlines.len() as u8]);
        for (t, deadline) in deadlines.iter().enumerate() {
            self.table.extend((1000 + t as u32).to_le_bytes());
            self.table.extend(&deadline.to_le_bytes()[..self.kind.task_size() - 4]);
        }
        self.table.push(self.links.len() as u8);
        for &(writer, reader, kind, start_value) in &self.links {
            let [writer, reader] = [writer, reader].map(|task| stand(&self.stands, task) as u8);
            self.table.extend([writer, reader, kind]);
            self.table.extend(start_value.to_le_bytes());
        }
    }

    pub fn count(&self) -> usize {
        self.count
    }

    pub fn full(&self) -> bool {
        self.count == self.most
    }

    fn record(&mut self, kind: u8, fields: &[u8]) {
        if !self.full() {
            self.events.push(kind);
            if self.kind.dated {
                self.events.extend(self.tick.to_le_bytes());
                self.tick += self.step;
            }
            self.events.extend_from_slice(fields);
            self.count += 1;
        }
    }

    pub fn arrival(&mut self, set: usize) {
        let bits = (0..usize::BITS as usize).filter(|bit| set >> bit & 1 == 1);
        let set = bits.fold(0, |set, task| set | 1 << stand(&self.stands, task));
        let field = [set as u8, (set >> 8) as u8, (set >> 16) as u8, (set >> 24) as u8];
        self.record(1, &field[..self.kind.set_size()]);
    }

    pub fn start(&mut self, task: usize) {
        self.record(2, &[stand(&self.stands, task) as u8]);
    }

    pub fn read(&mut self, link: usize) {
        self.record(3, &[link as u8]);
    }

    pub fn finish(&mut self, task: usize) {
        self.value = self.value.wrapping_mul(1664525).wrapping_add(1013904223);
        let v = self.value.to_le_bytes();
        self.record(4, &[stand(&self.stands, task) as u8, v[0], v[1], v[2], v[3]]);
    }

    /// A task reads by all its links, so many times over.
    pub fn reads(&mut self, task: usize, times: usize) {
        let own: Vec<usize> = (0..self.links.len()).filter(|&l| self.links[l].1 == task).collect();
        for l in own.repeat(times) {
            self.read(l);
        }
    }

    /// A task that has arrived starts, reads by all its links so many times over, and finishes.
    pub fn run(&mut self, task: usize, times: usize) {
        self.start(task);
        self.reads(task, times);
        self.finish(task);
    }

    /// Tasks that have arrived run in order.
    pub fn run_each(&mut self, tasks: Range<usize>, times: usize) {
        for t in tasks {
            self.run(t, times);
        }
    }

    /// Tasks that have started go on in order: each reads by all its links and finishes.
    pub fn end_each(&mut self, tasks: Range<usize>) {
        for t in tasks {
            self.reads(t, 1);
            self.finish(t);
        }
    }

    pub fn bytes(mut self) -> Vec<u8> {
        self.table.extend_from_slice(&(self.count as u16).to_le_bytes());
        self.table.extend_from_slice(&self.events);
        self.table
    }
}

/// Where a task stands in the table; one that is none of it is what it is.
fn stand(stands: &[usize], task: usize) -> usize {
    stands.get(task).copied().unwrap_or(task)
}
