//! The zero-time run: arrivals and outputs alone, no positions, no pointers.
//!
//! A task's n-th arrival produces its n-th output at once. A direct read gets
//! the output of the writer's last arrival up to and including the reader's
//! own, the writer's default where there is none; a delayed one the output
//! before that, the link's start value where there is none. Of a task that
//! reads its own output, that last arrival is the reader's own, so it reads the
//! output of its run before.
//!
//! Arrivals are taken as they are recorded, whatever their ticks; the writer of a
//! direct link that arrives with its reader is ahead of it and so comes first.

use std::cmp::Ordering;

use crate::engine::{Engine, FreshEngine, IDLE, RUNNING, WAITING};
use crate::format::{Event, Table, Timed, DIRECT};
use crate::order::Order;
use crate::sizes::MOST_TICK;

/// The order in which refusals of an event are tried.
const TRIED: [u8; 8] = [12, 22, 21, 13, 14, 15, 16, 23];

#[derive(Clone, Default)]
struct Life {
    /// The instants (counts of accepted events) of the task's arrivals.
    arrivals: Vec<usize>,
    /// The tick of its last arrival, where there are ticks.
    arrival_tick: u32,
    starts: usize,
    /// One value for each finish; the n-th belongs to the n-th arrival.
    outputs: Vec<u32>,
}

impl Life {
    fn active(&self) -> bool {
        self.arrivals.len() > self.outputs.len()
    }

    fn running(&self) -> bool {
        self.starts > self.outputs.len()
    }
}

#[derive(Clone)]
pub struct ZeroTime {
    table: Table,
    order: Order,
    lives: Vec<Life>,
    instant: usize,
    last_tick: u32,
}

impl FreshEngine for ZeroTime {
    fn fresh(table: &Table) -> ZeroTime {
        let lives = vec![Life::default(); table.defaults.len()];
        ZeroTime { table: table.clone(), order: table.order(), lives, instant: 0, last_tick: 0 }
    }
}

impl Engine for ZeroTime {
    fn judge(&self, Timed { tick, event }: Timed) -> u8 {
        let mut applying = Vec::with_capacity(5);
        if let Some(tick) = tick {
            self.note_tick(tick, event, &mut applying);
        }
        match event {
            Event::Arrival(set) => self.faults_of_arrival(set, &mut applying),
            Event::Start(task) => self.faults_of_start(usize::from(task), &mut applying),
            Event::Read(link) => match self.table.links.get(usize::from(link)) {
                Some(link) => self.faults_of_runner(usize::from(link.reader), &mut applying),
                None => applying.push(12),
            },
            Event::Finish(task, _) => self.faults_of_runner(usize::from(task), &mut applying),
        }
        // All the rows that apply were noted; the one tried first is given.
        TRIED.into_iter().find(|row| applying.contains(row)).unwrap_or(0)
    }

    fn apply(&mut self, Timed { tick, event }: Timed) -> u32 {
        self.instant += 1;
        self.last_tick = tick.unwrap_or(0);
        match event {
            Event::Arrival(set) => {
                for task in bits(set) {
                    self.lives[task].arrivals.push(self.instant);
                    self.lives[task].arrival_tick = self.last_tick;
                }
            }
            Event::Start(task) => self.lives[usize::from(task)].starts += 1,
            Event::Read(link) => {
                return self
                    .number_for(usize::from(link))
                    .expect("while a reader runs, no writer it waits for is unfinished")
            }
            Event::Finish(task, value) => self.lives[usize::from(task)].outputs.push(value),
        }
        0
    }

    fn phase(&self, task: usize) -> u8 {
        let life = &self.lives[task];
        if !life.active() {
            IDLE
        } else if life.running() {
            RUNNING
        } else {
            WAITING
        }
    }
}

impl ZeroTime {
    fn note_tick(&self, tick: u32, event: Event, applying: &mut Vec<u8>) {
        if tick > MOST_TICK {
            applying.push(22);
        }
        if tick < self.last_tick {
            applying.push(21);
        }
        if let Event::Finish(task, _) = event {
            let task = usize::from(task);
            let late = |life: &Life| life.active() && u64::from(tick) > self.deadline(task);
            if self.lives.get(task).map_or(false, late) {
                applying.push(23);
            }
        }
    }

    /// The deadline of a task's last job.
    fn deadline(&self, task: usize) -> u64 {
        u64::from(self.lives[task].arrival_tick) + u64::from(self.table.deadline(task))
    }

    fn faults_of_arrival(&self, set: u32, applying: &mut Vec<u8>) {
        if set == 0 {
            applying.push(12);
        }
        for task in bits(set) {
            match self.lives.get(task) {
                None => applying.push(12),
                Some(life) if life.active() => applying.push(13),
                Some(_) => {}
            }
        }
    }

    fn faults_of_start(&self, task: usize, applying: &mut Vec<u8>) {
        match self.lives.get(task) {
            None => applying.push(12),
            Some(life) if !life.active() || life.running() => applying.push(14),
            Some(_) => {}
        }
        self.note_more_urgent(task, applying);
    }

    fn faults_of_runner(&self, task: usize, applying: &mut Vec<u8>) {
        match self.lives.get(task) {
            None => applying.push(12),
            Some(life) if !life.running() => applying.push(15),
            Some(_) => {}
        }
        self.note_more_urgent(task, applying);
    }

    /// Of the jobs that are not over the one with the earliest deadline may run;
    /// of several the one whose task is ahead of the others'.
    fn note_more_urgent(&self, task: usize, applying: &mut Vec<u8>) {
        let before = |other: usize| match self.deadline(other).cmp(&self.deadline(task)) {
            Ordering::Less => true,
            Ordering::Equal => self.order.ahead(other as u8, task as u8),
            Ordering::Greater => false,
        };
        let mut active = (0..self.lives.len()).filter(|other| self.lives[*other].active());
        if task < self.lives.len() && active.any(before) {
            applying.push(16);
        }
    }

    /// What the reader of a link gets by its own last arrival; `None` while
    /// that output is still to come.
    pub fn number_for(&self, link: usize) -> Option<u32> {
        let up_to_own = self.up_to_readers(link);
        let link = self.table.links[link];
        match (link.kind, up_to_own) {
            (DIRECT, _) => self.output(usize::from(link.writer), up_to_own),
            (_, 0 | 1) => Some(link.start_value),
            (_, _) => self.output(usize::from(link.writer), up_to_own - 1),
        }
    }

    /// The writer's arrivals up to and including the last one of the reader.
    fn up_to_readers(&self, link: usize) -> usize {
        let link = self.table.links[link];
        let own = self.lives[usize::from(link.reader)].arrivals.last().copied().unwrap_or(0);
        self.lives[usize::from(link.writer)].arrivals.partition_point(|instant| *instant <= own)
    }

    /// Whether a delayed link's reader has settled on the start value, at an
    /// arrival that is not yet over for the link: a finish ends it only where
    /// the reader is behind.
    pub fn marked(&self, number: usize) -> bool {
        let link = self.table.links[number];
        let reader = &self.lives[usize::from(link.reader)];
        let lasts = reader.active() || !reader.arrivals.is_empty() && !link.reader_behind(&self.order);
        link.kind != DIRECT && lasts && self.up_to_readers(number) < 2
    }

    /// The n-th output of a task; output 0 is the default.
    fn output(&self, task: usize, number: usize) -> Option<u32> {
        match number {
            0 => Some(self.table.defaults[task]),
            _ => self.lives[task].outputs.get(number - 1).copied(),
        }
    }

    /// The last two outputs of a task. With its arrivals up to two, the phases,
    /// and `number_for` the links of active readers, nothing else can matter to
    /// a later read.
    pub fn last_outputs(&self, task: usize) -> [u32; 2] {
        let last = self.lives[task].outputs.len();
        let at = |number| self.output(task, number).unwrap_or(self.table.defaults[task]);
        [at(last), at(last.saturating_sub(1))]
    }

    pub fn arrivals_up_to_two(&self, task: usize) -> u8 {
        self.lives[task].arrivals.len().min(2) as u8
    }

    /// The tick at which a task's job began that is not over, else 0.
    pub fn since(&self, task: usize) -> u32 {
        Some(&self.lives[task]).filter(|life| life.active()).map_or(0, |life| life.arrival_tick)
    }

    pub fn last_tick(&self) -> u32 {
        self.last_tick
    }

    pub fn finishes(&self, task: usize) -> usize {
        self.lives[task].outputs.len()
    }
}

fn bits(set: u32) -> impl Iterator<Item = usize> {
    (0..32).filter(move |task| set >> task & 1 == 1)
}
