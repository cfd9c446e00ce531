//! Random recordings, many of them damaged.
use crate::answer::DELAYED;
use crate::kind::{Kind, KINDS};
use crate::make::{link, Link, Maker};
use parnusild::MOST_TICK;

/// Random numbers (splitmix64).
pub struct Random(pub u64);

impl Random {
    pub fn below(&mut self, n: usize) -> usize {
        self.0 = self.0.wrapping_add(0x9e37_79b9_7f4a_7c15);
        let mut z = self.0;
        z = (z ^ (z >> 30)).wrapping_mul(0xbf58_476d_1ce4_e5b9);
        z = (z ^ (z >> 27)).wrapping_mul(0x94d0_49bb_1331_11eb);
        ((z ^ (z >> 31)) >> 16) as usize % n
    }

    pub fn one_in(&mut self, n: usize) -> bool {
        self.below(n) == 0
    }
}

/// Links that keep the rules; now and then one that may not.
fn some_links(random: &mut Random, tasks: usize, most: usize) -> Vec<Link> {
    let mut links: Vec<Link> = Vec::new();
    let most = random.below(most + 1);
    // many links of few writers, or of any
    let writers = if random.one_in(3) { 2 } else { tasks };
    for _ in 0..4 * most {
        if links.len() == most {
            break;
        }
        let (w, r) = (random.below(writers), random.below(tasks));
        let behind = links.iter().filter(|l| l.0 == w && l.1 > w).count();
        let known = links.iter().any(|l| l.0 == w && l.1 == r);
        if w < tasks && !known && (r <= w || behind < 8) {
            // a task's link to itself is direct, and so refused, now and then
            let kind = if r < w || r == w && !random.one_in(100) { DELAYED } else { random.below(2) as u8 };
            let start_value = if random.one_in(300) { 1 << random.below(32) } else { link(w, r, kind).3 };
            links.push((w, r, kind, start_value));
        } else if random.one_in(60) {
            links.push(link(w, r, random.below(3) as u8));
        }
    }
    links
}

/// An event that may not be allowed.
fn any_event(random: &mut Random, m: &mut Maker, tasks: usize, links: usize) {
    match random.below(4) {
        // two tasks that are not in the table may be in it; what the kind's set has no bits for is cut off
        0 => m.arrival(random.below(1 << (tasks + 2))),
        1 => m.start(random.below(tasks + 1)),
        2 => m.read(random.below(links + 1)),
        _ => m.finish(random.below(tasks + 1)),
    }
}

/// Up to 399 events: all of them allowed, or now and then one that may not be.
fn some_events(random: &mut Random, kind: Kind, tasks: usize, links: &[Link]) -> Maker {
    let mut m = Maker::new(kind, tasks, links, random.below(400));
    let wild = random.one_in(3);
    let (mut active, mut running) = (0usize, 0usize);
    while !m.full() {
        if wild && random.one_in(40) {
            any_event(random, &mut m, tasks, links.len());
        } else if active == 0 || random.one_in(4) {
            let set = random.below(1 << tasks) & random.below(1 << tasks) & !active;
            if set != 0 {
                m.arrival(set);
                active |= set;
            }
        } else {
            let urgent = active.trailing_zeros() as usize;
            let bit = 1 << urgent;
            if running & bit == 0 {
                m.start(urgent);
                running |= bit;
            } else if random.one_in(3) {
                m.finish(urgent);
                active &= !bit;
                running &= !bit;
            } else {
                m.reads(urgent, 1);
            }
        }
    }
    m
}

/// Relative deadlines, few of them, so that many tasks are tied; now and then one that is none.
fn some_deadlines(random: &mut Random, tasks: usize) -> Vec<u16> {
    let most = [3, 40, 65_535][random.below(3)];
    (0..tasks).map(|_| if random.one_in(2_000) { 0 } else { 1 + random.below(most) as u16 }).collect()
}

/// The jobs of a dated recording, by the order of tasks: which are active, which run, and when each is due.
struct Jobs {
    deadlines: Vec<u32>,
    due: Vec<u32>,
    active: usize,
    running: usize,
}

impl Jobs {
    fn new(deadlines: &[u16]) -> Jobs {
        let mut deadlines: Vec<u32> = deadlines.iter().map(|&deadline| deadline.into()).collect();
        deadlines.sort();
        Jobs { due: vec![0; deadlines.len()], deadlines, active: 0, running: 0 }
    }

    /// The one that may run.
    fn top(&self) -> Option<usize> {
        (0..self.due.len()).filter(|t| self.active >> t & 1 == 1).min_by_key(|&t| (self.due[t], t))
    }

    fn begin(&mut self, set: usize, tick: u32) {
        self.active |= set;
        (0..self.due.len()).filter(|t| set >> t & 1 == 1).for_each(|t| self.due[t] = tick + self.deadlines[t]);
    }

    /// The next tick: as late as the job that may run allows, or sooner; now and then too late.
    fn next_tick(&self, random: &mut Random, last: u32) -> u32 {
        let until = self.top().map_or(last + 9, |top| self.due[top]).max(last);
        let late = u32::from(random.one_in(300));
        let tick = [last, last, last + 1, until, last + (until - last) / 2][random.below(5)].min(until) + late;
        tick.min(MOST_TICK)
    }
}

/// Up to 399 events of a dated recording, likewise; a job that is late may read, and no other one may run.
fn some_dated_events(random: &mut Random, kind: Kind, deadlines: &[u16], links: &[Link]) -> Maker {
    let tasks = deadlines.len();
    let mut m = Maker::made(kind, deadlines, links, random.below(400));
    let mut jobs = Jobs::new(deadlines);
    let wild = random.one_in(3);
    m.tick = [0, 1, MOST_TICK - 20][random.below(3)];
    let mut tries = 0;
    while !m.full() && tries < 4_000 {
        tries += 1;
        let last = m.tick;
        m.tick = jobs.next_tick(random, last);
        if wild && random.one_in(40) {
            m.tick = [last, last.saturating_sub(1), MOST_TICK + 1, last + 9][random.below(4)];
            any_event(random, &mut m, tasks, links.len());
            m.tick = last;
            continue;
        }
        match jobs.top() {
            Some(top) if !random.one_in(4) => {
                let bit = 1 << top;
                if jobs.running & bit == 0 {
                    m.start(top);
                    jobs.running |= bit;
                } else if random.one_in(3) && (m.tick <= jobs.due[top] || random.one_in(20)) {
                    m.finish(top);
                    jobs.active &= !bit;
                    jobs.running &= !bit;
                } else {
                    m.reads(top, 1);
                }
            }
            _ => {
                let set = random.below(1 << tasks) & random.below(1 << tasks) & !jobs.active;
                if set != 0 {
                    m.arrival(set);
                    jobs.begin(set, m.tick);
                }
            }
        }
    }
    m
}

/// In two of three cases one damage: a cut, a byte more or less, another kind, or another byte.
fn damage(random: &mut Random, bytes: &mut Vec<u8>, kind: Kind, tasks: usize, links: usize) {
    let size = bytes.len();
    let count_of_links = 2 + kind.task_size() * tasks;
    let table = count_of_links + 1 + 7 * links + 2;
    let counts = [0, 1, count_of_links, table - 2, table - 1];
    let (place, below) = match random.below(15) {
        0 => return bytes.truncate(random.below(size + 1)),
        1 => return bytes.truncate(random.below(table + 1)),
        2 => return bytes.push(random.below(256) as u8),
        3 => {
            bytes.remove(random.below(size));
            return;
        }
        4 => (random.below(size), 256),
        5 => (random.below(size), 8),
        6 => (random.below(table), 20),
        7 => (counts[random.below(5)], 256),
        8 => (counts[random.below(5)], 128),
        9 => {
            bytes[0] = KINDS[random.below(KINDS.len())].first;
            return;
        }
        _ => return,
    };
    bytes[place] = random.below(below) as u8;
}

/// A random recording; damaged, it may be of another kind.
pub fn recording(random: &mut Random, kind: Kind) -> Vec<u8> {
    let tasks = 1 + random.below(kind.tasks);
    let links = some_links(random, tasks, kind.links);
    let made = if kind.dated {
        let deadlines = some_deadlines(random, tasks);
        some_dated_events(random, kind, &deadlines, &links)
    } else {
        some_events(random, kind, tasks, &links)
    };
    let mut bytes = made.bytes();
    damage(random, &mut bytes, kind, tasks, links.len());
    bytes
}
