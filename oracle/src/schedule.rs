//! Random histories that are possible: schedules, and recordings of them.

use crate::engine::{IDLE, RUNNING, WAITING};
use crate::format::{Event, Recording, Table, Timed};
use crate::order::{deadline_of, urgency};
use crate::prng::Prng;
use crate::random_table::{random_table, value, Size};
use crate::sizes::{all_of, RecordingKind, KINDS, MOST_TICK};

/// How a random schedule behaves, in percent.
struct Habit {
    /// An arrival, where a run event were possible too.
    arrive: usize,
    /// A set of one task.
    single: usize,
    /// Only tasks whose jobs are more urgent than every active one, so that they
    /// interrupt.
    interrupt: usize,
    /// A read before the finish, each time.
    read: usize,
    /// Start at once what waits, so that it is interrupted while it runs.
    start_at_once: usize,
    /// Time passes before the next event, where there are ticks.
    wait: usize,
}

fn habit(prng: &mut Prng) -> Habit {
    let wait = prng.pick(&[0, 20, 50, 80]);
    match prng.below(4) {
        0 => Habit { arrive: 60, single: 90, interrupt: 95, read: 50, start_at_once: 95, wait },
        1 => Habit { arrive: 45, single: 95, interrupt: 10, read: 30, start_at_once: 50, wait },
        2 => Habit { arrive: 15, single: 20, interrupt: 20, read: 60, start_at_once: 30, wait },
        _ => Habit {
            arrive: prng.between(5, 80),
            single: prng.below(101),
            interrupt: prng.below(101),
            read: prng.between(10, 80),
            start_at_once: prng.below(101),
            wait,
        },
    }
}

/// The phases, and where there are ticks the jobs, that a schedule needs to stay
/// possible, and the first task that takes part in it.
pub struct Schedule {
    pub phase: Vec<u8>,
    pub dated: bool,
    /// The last tick.
    pub last: u32,
    deadlines: Vec<u32>,
    since: Vec<u32>,
    first: usize,
    /// Whether a job may be late. It can't finish then, and the history ends
    /// where nothing else is left to do.
    late: bool,
}

impl Schedule {
    fn new(table: &Table, first: usize) -> Schedule {
        let tasks = table.defaults.len();
        Schedule {
            phase: vec![IDLE; tasks],
            dated: table.deadlines.is_some(),
            last: 0,
            deadlines: (0..tasks).map(|task| table.deadline(task)).collect(),
            since: vec![0; tasks],
            first,
            late: false,
        }
    }

    /// The active task whose job is more urgent than all others, the only one
    /// that may run.
    pub fn top(&self) -> Option<usize> {
        let active = (0..self.phase.len()).filter(|task| self.phase[*task] != IDLE);
        active.min_by_key(|task| urgency(self.since[*task], self.deadlines[*task], *task))
    }

    /// The last tick at which a task's job may finish.
    pub fn deadline(&self, task: usize) -> u64 {
        deadline_of(self.since[task], self.deadlines[task])
    }

    /// So many more ticks may pass before the next event.
    fn slack(&self) -> u32 {
        let left = u64::from(MOST_TICK - self.last);
        let to_deadline = match self.top() {
            Some(top) if !self.late => self.deadline(top).saturating_sub(u64::from(self.last)),
            _ => left,
        };
        left.min(to_deadline) as u32
    }

    /// Lets time pass or not: up to the deadline of the job that may run, one
    /// tick, or any time between; and now and then up to the last tick that there
    /// is, where nothing is active.
    fn pass_time(&mut self, prng: &mut Prng, habit: &Habit) {
        if !self.dated || !prng.chance(habit.wait) {
            return;
        }
        let slack = self.slack();
        let some = prng.below(slack as usize + 1) as u32;
        let to_deadline = match self.top() {
            Some(top) => self.deadline(top).saturating_sub(u64::from(self.last)) as u32,
            None => prng.pick(&[0, 9, 60_000]),
        };
        let few = 1 + prng.below(4) as u32;
        let end = if prng.chance(1) { slack } else { 1 };
        let jump = if self.top().is_none() && prng.chance(95) { 2 } else { some };
        let more = prng.pick(&[1, 1, few, few, to_deadline, to_deadline.saturating_add(1), jump, end]);
        self.last += more.min(slack);
    }

    /// The next event; none where nothing is possible.
    fn next(&mut self, prng: &mut Prng, table: &Table, habit: &Habit) -> Option<Timed> {
        let before = self.last;
        self.pass_time(prng, habit);
        let top = self.top();
        let idle = self.phase[self.first..].contains(&IDLE);
        let rushed = top.map_or(false, |top| self.phase[top] == WAITING) && prng.chance(habit.start_at_once);
        let run = match top {
            Some(top) if !idle || rushed || !prng.chance(habit.arrive) => self.run(prng, table, habit, top),
            _ => None,
        };
        let event = match run {
            Some(event) => event,
            None if idle => self.arrive(prng, habit, top),
            None => {
                self.last = before;
                return None;
            }
        };
        Some(self.timed(event))
    }

    fn timed(&self, event: Event) -> Timed {
        Timed { tick: Some(self.last).filter(|_| self.dated), event }
    }

    /// None where the job is late and its task can read nothing.
    fn run(&mut self, prng: &mut Prng, table: &Table, habit: &Habit, top: usize) -> Option<Event> {
        if self.phase[top] == WAITING {
            self.phase[top] = RUNNING;
            return Some(Event::Start(top as u8));
        }
        let late = self.dated && u64::from(self.last) > self.deadline(top);
        let readable: Vec<u8> = links_into(table, top).collect();
        if !readable.is_empty() && (late || prng.chance(habit.read)) {
            return Some(Event::Read(prng.pick(&readable)));
        }
        if late {
            return None;
        }
        self.phase[top] = IDLE;
        Some(Event::Finish(top as u8, value(prng)))
    }

    fn arrive(&mut self, prng: &mut Prng, habit: &Habit, top: Option<usize>) -> Event {
        let mut candidates: Vec<usize> =
            (self.first..self.phase.len()).filter(|task| self.phase[*task] == IDLE).collect();
        if let Some(top) = top {
            let limit = urgency(self.since[top], self.deadlines[top], top);
            let interrupts = |task: &usize| urgency(self.last, self.deadlines[*task], *task) < limit;
            let interrupting: Vec<usize> = candidates.iter().copied().filter(interrupts).collect();
            if !interrupting.is_empty() && prng.chance(habit.interrupt) {
                candidates = interrupting;
            }
        }
        let mut chosen = vec![self.nearest(prng, habit, &candidates)];
        if !prng.chance(habit.single) {
            chosen.extend(candidates.into_iter().filter(|_| prng.chance(50)));
        }
        let mut set = 0;
        for task in chosen {
            self.begin(task, WAITING);
            set |= 1 << task;
        }
        Event::Arrival(set)
    }

    fn begin(&mut self, task: usize, phase: u8) {
        self.phase[task] = phase;
        self.since[task] = self.last;
    }

    /// Deep interruption begins with the least urgent and climbs slowly.
    fn nearest(&self, prng: &mut Prng, habit: &Habit, candidates: &[usize]) -> usize {
        let climbing = habit.interrupt > 90 && prng.chance(80);
        let least = candidates.iter().copied().max_by_key(|task| (self.deadlines[*task], *task));
        match least {
            Some(least) if climbing => least,
            _ => prng.pick(candidates),
        }
    }
}

/// The links by which a task reads.
fn links_into(table: &Table, task: usize) -> impl Iterator<Item = u8> + '_ {
    (0..table.links.len()).filter(move |l| usize::from(table.links[*l].reader) == task).map(|l| l as u8)
}

/// The deepest interruption: from the least urgent on, each task is
/// interrupted by the next as soon as it runs. All at one tick, at which those
/// ahead are more urgent.
pub fn deepest_interruption(table: &Table) -> (Vec<Timed>, Schedule) {
    let mut schedule = Schedule::new(table, 0);
    let mut events = Vec::new();
    for task in table.order().from_the_first().into_iter().rev() {
        schedule.begin(task, RUNNING);
        events.extend([Event::Arrival(1 << task), Event::Start(task as u8)].map(|event| schedule.timed(event)));
    }
    (events, schedule)
}

/// How a history begins: one in twenty with the deepest interruption, where it is
/// long enough for that; one in four is about some of the last tasks alone, which
/// else seldom run in a large table. Where there are ticks it begins at the first
/// one, at any, or so near the last one that it may come to that; and one in ten
/// that are not long may have late jobs.
fn beginning(prng: &mut Prng, table: &Table, count: usize) -> (Vec<Timed>, Schedule) {
    let tasks = table.defaults.len();
    let (events, mut schedule) = match prng.below(20) {
        0 if count >= 2 * tasks => deepest_interruption(table),
        1..=5 => (Vec::new(), Schedule::new(table, tasks.saturating_sub(prng.pick(&[1, 2, 2, 4, 8])))),
        _ => (Vec::new(), Schedule::new(table, 0)),
    };
    if schedule.dated {
        schedule.late = count < 500 && prng.chance(10);
        if events.is_empty() {
            schedule.last = first_tick(prng);
        }
    }
    (events, schedule)
}

fn first_tick(prng: &mut Prng) -> u32 {
    let any = prng.below(MOST_TICK as usize) as u32;
    let near_last = MOST_TICK - prng.below(40) as u32;
    prng.pick(&[0, 0, 0, 1, 255, 256, 65_535, any, near_last, MOST_TICK - 65_536])
}

pub fn random_events(prng: &mut Prng, table: &Table, count: usize) -> (Vec<Timed>, Schedule) {
    let begun = beginning(prng, table, count);
    continued(prng, table, begun, count)
}

/// First a round in which all tasks arrive at once, and each reads by each of its
/// links: in a large table few histories come so far.
pub fn events_after_round(prng: &mut Prng, table: &Table, count: usize) -> (Vec<Timed>, Schedule) {
    let tasks = table.defaults.len();
    let schedule = Schedule::new(table, 0);
    let mut round = vec![Event::Arrival(all_of(tasks))];
    for task in table.order().from_the_first() {
        round.push(Event::Start(task as u8));
        round.extend(links_into(table, task).map(Event::Read));
        round.push(Event::Finish(task as u8, value(prng)));
    }
    let round = round.into_iter().map(|event| schedule.timed(event)).collect();
    continued(prng, table, (round, schedule), count)
}

/// Events of the last two tasks alone.
pub fn events_of_last_two(prng: &mut Prng, table: &Table, count: usize) -> (Vec<Timed>, Schedule) {
    let begun = (Vec::new(), Schedule::new(table, table.defaults.len().saturating_sub(2)));
    continued(prng, table, begun, count)
}

fn continued(
    prng: &mut Prng,
    table: &Table,
    (mut events, mut schedule): (Vec<Timed>, Schedule),
    count: usize,
) -> (Vec<Timed>, Schedule) {
    let mut habit_now = habit(prng);
    for number in events.len()..count {
        if number % 200 == 199 {
            habit_now = habit(prng);
        }
        match schedule.next(prng, table, &habit_now) {
            Some(event) => events.push(event),
            None => break,
        }
    }
    (events, schedule)
}

/// Of any kind.
pub fn random_recording(prng: &mut Prng, size: Size, most: usize) -> (Recording, Schedule) {
    let kind = prng.pick(&KINDS);
    recording_of(prng, kind, size, most)
}

pub fn recording_of(prng: &mut Prng, kind: RecordingKind, size: Size, most: usize) -> (Recording, Schedule) {
    let table = random_table(prng, kind, size);
    let count = prng.between(0, most.min(kind.most_events));
    let (events, schedule) = random_events(prng, &table, count);
    (Recording { kind, table, events }, schedule)
}

pub fn reads(recording: &Recording) -> usize {
    recording.events.iter().filter(|timed| matches!(timed.event, Event::Read(_))).count()
}
