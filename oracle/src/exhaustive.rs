//! Every sequence of events up to a depth over small tables, or about the last
//! tasks and links of large ones: `Pointers` against `ZeroTime`, and the
//! subject against both; and a sequence to each state, with one more event,
//! written by the subject.
//!
//! Finish values are all different, and neither engine looks at a value, so
//! two histories whose states differ only by a renaming of values have the
//! same futures. States are therefore kept with values renamed in the order
//! they first appear, and a state already known is not entered again. Nor does
//! anything look at a tick but beside others and the limit, so that ticks are kept
//! as how long ago each was, and how far the limit is.

mod steps;
mod tables;

use std::collections::HashSet;

use crate::engine::{Engine, FreshEngine, IDLE};
use crate::format::{encode, Event, Recording, Table, Timed};
use crate::laws::sound_by_sentence;
use crate::pointers::Pointers;
use crate::sizes::{RecordingKind, KINDS, MOST_TICK};
use crate::subject::{remembered_alike, OneAnswer, Subject};
use crate::writing::{Handover, Written};
use crate::zero_time::ZeroTime;
use steps::{alphabet, Step};
use tables::Explored;
pub use tables::{explored_tables, self_links};

#[derive(Clone, Copy, Default, Debug)]
pub struct Visited {
    pub states: usize,
    pub transitions: usize,
    /// Sequences given to the writer.
    pub written: usize,
    pub depth: usize,
    /// No new state was left: every longer sequence is covered as well.
    pub closed: bool,
}

impl Visited {
    /// What was visited of one more table.
    pub fn add(&mut self, other: Visited) {
        self.states += other.states;
        self.transitions += other.transitions;
        self.written += other.written;
        self.depth = self.depth.max(other.depth);
        self.closed &= other.closed;
    }
}

#[derive(Clone)]
struct Pair {
    pointers: Pointers,
    zero: ZeroTime,
}

/// A state is kept as the way to it: the node before and the step.
struct Node {
    before: u32,
    step: u8,
}

/// A job that arrived longer ago is not looked into: from the largest relative
/// deadline on there is one tick at which it is late.
const LONGEST_AGO: u32 = 4;

impl Pair {
    fn fresh(table: &Table) -> Pair {
        Pair { pointers: Pointers::fresh(table), zero: ZeroTime::fresh(table) }
    }

    /// The event of a step, at the tick to which it leads, if there is one. A
    /// finish writes a value no other finish of the history writes.
    fn filled(&self, step: Step, tasks: usize) -> Option<Timed> {
        let timed = step.timed(self.pointers.state.last)?;
        let event = match timed.event {
            Event::Finish(task, _) if usize::from(task) < tasks => {
                Event::Finish(task, u32::from(task) << 24 | (self.zero.finishes(usize::from(task)) as u32 + 1))
            }
            other => other,
        };
        Some(Timed { event, ..timed })
    }

    fn apply(&mut self, timed: Timed) -> [u32; 2] {
        [self.pointers.apply(timed), self.zero.apply(timed)]
    }

    /// How long ago the tasks arrived that are active; 255 where one is not.
    fn ages(&self, tasks: usize) -> impl Iterator<Item = u32> + '_ {
        let state = &self.pointers.state;
        (0..tasks).map(move |task| if state.active(task) { state.last - state.since[task] } else { 255 })
    }

    /// The engines' and the subject's answers to an event; the state after it
    /// if accepted.
    fn give(&self, subject: &dyn Subject, timed: Timed) -> Result<Option<Pair>, String> {
        let (by_pointers, by_counts) = (self.pointers.judge(timed), self.zero.judge(timed));
        if by_pointers != by_counts {
            return Err(format!("{:?}: {} by pointers, {} by counts", timed, by_pointers, by_counts));
        }
        let said = subject.one_event(&self.pointers.state, timed);
        if by_pointers != 0 {
            return self.refused(by_pointers, said);
        }
        let mut next = self.clone();
        let [number, zero_number] = next.apply(timed);
        if number != zero_number {
            return Err(format!("{:?}: reads {:#x}, in zero time {:#x}", timed, number, zero_number));
        }
        if !sound_by_sentence(&next.pointers.state) {
            return Err(format!("{:?} leads to a state that is not sound", timed));
        }
        if !remembered_alike(&next.pointers.state, &next.zero) {
            return Err(format!("{:?} leads to arrivals, marks or ticks that are not the history's", timed));
        }
        if said != (OneAnswer { refusal: 0, value: number, state: next.pointers.state }) {
            return Err(format!("{:?}: {} says {:?}", timed, subject.name(), said));
        }
        Ok(Some(next))
    }

    /// A refusal has the state as it was lent and the value 0.
    fn refused(&self, refusal: u8, said: OneAnswer) -> Result<Option<Pair>, String> {
        if said != (OneAnswer { refusal, value: 0, state: self.pointers.state }) {
            return Err(format!("refused with {}, but the subject says {:?}", refusal, said));
        }
        Ok(None)
    }

    /// The state of both engines with the values renamed.
    fn key(&self, table: &Table) -> Box<[u8]> {
        let mut names = Names::default();
        let mut key = Vec::with_capacity(64);
        (0..table.defaults.len()).for_each(|task| self.note_task(task, &mut names, &mut key));
        (0..table.links.len()).for_each(|link| self.note_link(link, &mut names, &mut key));
        if table.deadlines.is_some() {
            key.extend(self.ages(table.defaults.len()).map(|ago| ago as u8));
            key.push((MOST_TICK - self.pointers.state.last).min(LONGEST_AGO) as u8);
        }
        key.into_boxed_slice()
    }

    fn note_task(&self, task: usize, names: &mut Names, key: &mut Vec<u8>) {
        let state = &self.pointers.state;
        key.extend_from_slice(&[state.phase[task], state.newest[task], state.previous[task], state.seen[task]]);
        for position in 1..=state.positions(task) as u8 {
            key.push(names.name(state.cells[state.cell(task, position)]));
        }
        let [last, before] = self.zero.last_outputs(task);
        key.extend_from_slice(&[names.name(last), names.name(before)]);
    }

    fn note_link(&self, number: usize, names: &mut Names, key: &mut Vec<u8>) {
        let state = &self.pointers.state;
        key.extend_from_slice(&[state.pointer[number], state.mark[number]]);
        let idle = self.zero.phase(usize::from(state.reader[number])) == IDLE;
        key.push(match self.zero.number_for(number) {
            _ if idle => 255,
            None => 254,
            Some(value) => names.name(value),
        });
    }
}

#[derive(Default)]
struct Names {
    values: Vec<u32>,
}

impl Names {
    fn name(&mut self, value: u32) -> u8 {
        match self.values.iter().position(|known| *known == value) {
            Some(name) => name as u8,
            None => {
                self.values.push(value);
                (self.values.len() - 1) as u8
            }
        }
    }
}

/// The states of a table as they are found, each by the first way to it.
struct Search<'a> {
    subject: &'a dyn Subject,
    table: &'a Table,
    /// The kinds of recordings that may have the table.
    kinds: Vec<RecordingKind>,
    steps: Vec<Step>,
    nodes: Vec<Node>,
    known: HashSet<Box<[u8]>>,
    transitions: usize,
    written: usize,
}

impl<'a> Search<'a> {
    fn new(subject: &'a dyn Subject, explored: &'a Explored) -> Search<'a> {
        let table = &explored.table;
        let has_room = |kind: &RecordingKind| {
            let within = kind.limits.refusal(table.defaults.len(), table.links.len()) == 0;
            within && kind.dated == table.deadlines.is_some()
        };
        let kinds = KINDS.into_iter().filter(has_room).collect();
        let nodes = vec![Node { before: u32::MAX, step: 0 }];
        let known = HashSet::from([Pair::fresh(table).key(table)]);
        Search { subject, table, kinds, steps: alphabet(explored), nodes, known, transitions: 0, written: 0 }
    }

    fn tasks(&self) -> usize {
        self.table.defaults.len()
    }

    /// Gives every event to the state of a node; a state not known before
    /// becomes a node.
    fn step(&mut self, number: usize) -> Result<(), String> {
        let (pair, path) = self.rebuild(number);
        for (code, &step) in self.steps.iter().enumerate() {
            let timed = match pair.filled(step, self.tasks()) {
                Some(timed) => timed,
                None => continue,
            };
            self.transitions += 1;
            let next = pair.give(self.subject, timed).map_err(|fault| format!("{} after {:?}", fault, path))?;
            let entered = next.filter(|next| next.ages(self.tasks()).all(|ago| ago <= LONGEST_AGO || ago == 255));
            if entered.map_or(false, |next| self.known.insert(next.key(self.table))) {
                self.nodes.push(Node { before: number as u32, step: code as u8 });
            }
        }
        match pair.filled(self.steps[number % self.steps.len()], self.tasks()) {
            Some(more) => {
                self.written += 1;
                self.write(number, path, more, &pair)
            }
            None => Ok(()),
        }
    }

    /// The events that lead to a node and one more, written: refused if that
    /// one is, at its place.
    fn write(&self, number: usize, path: Vec<Timed>, more: Timed, pair: &Pair) -> Result<(), String> {
        let kind = self.kinds[number % self.kinds.len()];
        let mut recording = Recording { kind, table: self.table.clone(), events: path };
        let place = encode(&recording).len();
        recording.events.push(more);
        let bytes = encode(&recording);
        let handover = Handover::of(&recording);
        let mut buffer = vec![0xA5; bytes.len()];
        let written = self.subject.write(&handover, &mut buffer);
        let (wanted, left) = match pair.pointers.judge(more) {
            0 => (Written { refusal: 0, place: bytes.len() }, bytes),
            refusal => (Written { refusal, place }, vec![0xA5; bytes.len()]),
        };
        if (written, &buffer) != (wanted, &left) {
            return Err(format!("{:?} is written as {:?}, buffer {:?}", handover, written, buffer));
        }
        Ok(())
    }

    /// The state of a node, and the events that lead to it.
    fn rebuild(&self, number: usize) -> (Pair, Vec<Timed>) {
        let mut back = Vec::new();
        let mut node = &self.nodes[number];
        while node.before != u32::MAX {
            back.push(self.steps[usize::from(node.step)]);
            node = &self.nodes[node.before as usize];
        }
        let mut pair = Pair::fresh(self.table);
        let mut path = Vec::new();
        for step in back.into_iter().rev() {
            let timed = pair.filled(step, self.tasks()).expect("the step led to a node");
            pair.apply(timed);
            path.push(timed);
        }
        (pair, path)
    }
}

/// Breadth first, level by level; an error is the history that shows it.
pub fn explore(subject: &dyn Subject, explored: &Explored, most: usize) -> Result<Visited, String> {
    let mut search = Search::new(subject, explored);
    let mut level = 0..1;
    let mut depth = 0;
    while depth < most.min(explored.deepest) && !level.is_empty() {
        level.clone().try_for_each(|number| search.step(number))?;
        level = level.end..search.nodes.len();
        depth += 1;
    }
    let Search { nodes, transitions, written, .. } = search;
    Ok(Visited { states: nodes.len(), transitions, written, depth, closed: level.is_empty() })
}
