//! The state as it is lent, saved and handed back, and when it is sound.

use crate::engine::{IDLE, RUNNING};
use crate::format::{link_faults, link_refusal, Link, Table, DELAYED};
use crate::order::{urgency, Order};
use crate::sizes::{MOST_TICK, ROOM};

/// Positions of one task: at most eight readers behind, and two.
pub const MOST_POSITIONS: usize = 10;
pub const MOST_CELLS: usize = ROOM.tasks * MOST_POSITIONS;
/// The pointer's value when it is absent; positions are numbered from 1.
pub const ABSENT: u8 = 0;
/// What `seen` says of a task that has had two arrivals or more; below it
/// stands how many there were.
pub const SEEN_TWO: u8 = 2;

/// The policies: fixed priorities, and the earliest deadline first.
pub const FIXED: u32 = 0;
pub const BY_DEADLINE: u32 = 1;

/// What a state takes: tasks, links, bytes by task and by link, numbers, and
/// times.
pub const SIZES: [usize; 5] = [
    ROOM.tasks,
    ROOM.links,
    // Phase, newest, previous and arrivals; pointer, mark, writer, reader and kind.
    4 * ROOM.tasks + 5 * ROOM.links,
    // Defaults, start values and positions.
    ROOM.tasks + ROOM.links + MOST_CELLS,
    // Relative deadlines and arrival ticks; the last tick and the policy.
    2 * ROOM.tasks + 2,
];

/// Position p of task t is at `cells[t * 10 + p - 1]`. Every field may hold
/// any byte when a state is lent; soundness says which of them are states.
#[derive(Clone, Copy, PartialEq, Eq, Debug)]
pub struct State {
    pub tasks: u8,
    pub links: u8,
    pub defaults: [u32; ROOM.tasks],
    pub phase: [u8; ROOM.tasks],
    pub newest: [u8; ROOM.tasks],
    pub previous: [u8; ROOM.tasks],
    /// Whether the task has had no, one or more arrivals.
    pub seen: [u8; ROOM.tasks],
    pub cells: [u32; MOST_CELLS],
    pub writer: [u8; ROOM.links],
    pub reader: [u8; ROOM.links],
    pub kind: [u8; ROOM.links],
    pub start_value: [u32; ROOM.links],
    pub pointer: [u8; ROOM.links],
    /// Whether the reader's last arrival settled on the link's start value.
    pub mark: [u8; ROOM.links],
    /// The relative deadline of each task, 0 with fixed priorities.
    pub deadline: [u32; ROOM.tasks],
    /// The arrival tick of each active job, 0 for an idle task.
    pub since: [u32; ROOM.tasks],
    /// The tick of the last accepted event, 0 when fresh.
    pub last: u32,
    pub policy: u32,
}

impl State {
    /// The fresh state of a table that keeps rules 2 to 9, 20 and 24.
    pub fn fresh(table: &Table) -> State {
        let mut state = State {
            tasks: table.defaults.len() as u8,
            links: table.links.len() as u8,
            defaults: [0; ROOM.tasks],
            phase: [IDLE; ROOM.tasks],
            newest: [1; ROOM.tasks],
            previous: [1; ROOM.tasks],
            seen: [0; ROOM.tasks],
            cells: [0; MOST_CELLS],
            writer: [0; ROOM.links],
            reader: [0; ROOM.links],
            kind: [0; ROOM.links],
            start_value: [0; ROOM.links],
            pointer: [ABSENT; ROOM.links],
            mark: [0; ROOM.links],
            deadline: [0; ROOM.tasks],
            since: [0; ROOM.tasks],
            last: 0,
            policy: if table.deadlines.is_some() { BY_DEADLINE } else { FIXED },
        };
        for (task, &default) in table.defaults.iter().enumerate().take(ROOM.tasks) {
            state.defaults[task] = default;
            state.deadline[task] = table.deadline(task);
            let first = task * MOST_POSITIONS;
            // Positions past N + 2 hold the default as well.
            state.cells[first..first + MOST_POSITIONS].fill(default);
        }
        state.set_links(&table.links);
        state
    }

    fn set_links(&mut self, links: &[Link]) {
        for (number, link) in links.iter().enumerate().take(ROOM.links) {
            self.writer[number] = link.writer;
            self.reader[number] = link.reader;
            self.kind[number] = link.kind;
            self.start_value[number] = link.start_value;
        }
    }

    /// What an early refusal answers with, whatever the policy: one task, default
    /// 0, no links, fixed priorities.
    pub fn single() -> State {
        State::fresh(&Table::undated(vec![0], Vec::new()))
    }

    /// The order of the tasks, by relative deadlines where the policy has them.
    pub fn order(&self) -> Order {
        let tasks = usize::from(self.tasks);
        match self.policy {
            BY_DEADLINE => Order::by_deadlines(tasks, self.deadline.iter().copied()),
            _ => Order::of_table(tasks),
        }
    }

    /// The least is the job that may run.
    pub fn urgency(&self, task: usize) -> (u64, u32, usize) {
        urgency(self.since[task], self.deadline[task], task)
    }

    /// The job that may run, if any task is active.
    pub fn top(&self) -> Option<usize> {
        (0..usize::from(self.tasks)).filter(|task| self.active(*task)).min_by_key(|task| self.urgency(*task))
    }

    /// Whether a link goes to a reader behind. It must name tasks of the table.
    pub fn reader_behind(&self, link: usize) -> bool {
        self.rank(self.writer[link]) < self.rank(self.reader[link])
    }

    /// A task's place in the order of tasks, without that of all others.
    fn rank(&self, task: u8) -> (u32, u8) {
        match self.policy {
            BY_DEADLINE => (self.deadline[usize::from(task)], task),
            _ => (0, task),
        }
    }

    pub fn link(&self, number: usize) -> Link {
        Link::of([self.writer[number], self.reader[number], self.kind[number]], self.start_value[number])
    }

    /// All links, of a count for which there is room.
    pub fn link_list(&self) -> Vec<Link> {
        (0..usize::from(self.links)).map(|number| self.link(number)).collect()
    }

    /// The self links of the tasks in a set. The links must name tasks of the
    /// table.
    pub fn self_links_of(&self, set: u32) -> impl Iterator<Item = usize> + '_ {
        let in_set = move |number: &usize| self.link(*number).to_itself() && set >> self.reader[*number] & 1 == 1;
        (0..usize::from(self.links)).filter(in_set)
    }

    /// N + 2 of a task. The links must name tasks of the table.
    pub fn positions(&self, task: usize) -> usize {
        let behind = |number: &usize| usize::from(self.writer[*number]) == task && self.reader_behind(*number);
        (0..usize::from(self.links)).filter(behind).count() + 2
    }

    pub fn active(&self, task: usize) -> bool {
        self.phase[task] != IDLE
    }

    /// Whether a link's writer has had fewer than two arrivals.
    pub fn writer_new(&self, link: usize) -> bool {
        self.seen[usize::from(self.writer[link])] < SEEN_TWO
    }

    pub fn cell(&self, task: usize, position: u8) -> usize {
        task * MOST_POSITIONS + usize::from(position) - 1
    }
}

/// The parts of "a state is sound when"; each can be the only one broken.
#[derive(Clone, Copy, PartialEq, Eq, Debug)]
pub enum Clause {
    // The rules of a table.
    Tasks,
    Links,
    NamesNoTask,
    DirectToItself,
    Kind,
    DirectAhead,
    SecondToReader,
    NinthBehind,
    DirectWithStart,
    NoDeadline,
    /// A policy that is neither of the two.
    Policy,
    /// A phase that is none of the three.
    Phase,
    Newest,
    Previous,
    Pointer,
    ActiveReaderWithout,
    IdleReaderWith,
    /// Arrivals that are none of the three.
    Seen,
    ActiveWithoutArrivals,
    /// A mark that is neither 0 nor 1.
    Mark,
    MarkWithoutPointer,
    MarkAtDirect,
    MarkMissing,
    // Of ticks, where there are any.
    LastTick,
    SinceAfterLast,
    IdleWithSince,
    // With fixed priorities there are none, and no relative deadlines.
    FixedWithDeadline,
    FixedWithSince,
    FixedWithLast,
}

pub const CLAUSES: [Clause; 29] = [
    Clause::Tasks,
    Clause::Links,
    Clause::NamesNoTask,
    Clause::DirectToItself,
    Clause::Kind,
    Clause::DirectAhead,
    Clause::SecondToReader,
    Clause::NinthBehind,
    Clause::DirectWithStart,
    Clause::NoDeadline,
    Clause::Policy,
    Clause::Phase,
    Clause::Newest,
    Clause::Previous,
    Clause::Pointer,
    Clause::ActiveReaderWithout,
    Clause::IdleReaderWith,
    Clause::Seen,
    Clause::ActiveWithoutArrivals,
    Clause::Mark,
    Clause::MarkWithoutPointer,
    Clause::MarkAtDirect,
    Clause::MarkMissing,
    Clause::LastTick,
    Clause::SinceAfterLast,
    Clause::IdleWithSince,
    Clause::FixedWithDeadline,
    Clause::FixedWithSince,
    Clause::FixedWithLast,
];

impl Clause {
    /// The refusal of a table that breaks this, where it is a rule of tables.
    pub fn table_refusal(self) -> Option<u8> {
        match self {
            Clause::Tasks => Some(2),
            Clause::Links => Some(3),
            Clause::NamesNoTask => Some(4),
            Clause::DirectToItself => Some(5),
            Clause::Kind => Some(6),
            Clause::DirectAhead => Some(7),
            Clause::SecondToReader => Some(8),
            Clause::NinthBehind => Some(9),
            Clause::DirectWithStart => Some(20),
            Clause::NoDeadline => Some(24),
            _ => None,
        }
    }
}

/// The clauses a state breaks. When the policy is none or the table is broken
/// the rest has no meaning (there is no order of tasks, or no N), so that clause
/// then stands alone.
pub fn broken_clauses(state: &State) -> Vec<Clause> {
    match table_clause(state) {
        Some(clause) => vec![clause],
        None => broken_beyond_table(state),
    }
}

pub fn sound(state: &State) -> bool {
    table_clause(state).is_none() && broken_beyond_table(state).is_empty()
}

fn table_clause(state: &State) -> Option<Clause> {
    if state.policy > BY_DEADLINE {
        return Some(Clause::Policy);
    }
    let refusal = match ROOM.task_refusal(usize::from(state.tasks)) {
        0 if has_no_deadline(state) => 24,
        0 => match ROOM.link_refusal(usize::from(state.links)) {
            0 => link_faults(state.order(), &state.link_list(), link_refusal).next()?,
            refusal => refusal,
        },
        refusal => refusal,
    };
    CLAUSES.iter().copied().find(|clause| clause.table_refusal() == Some(refusal))
}

/// Whether a task of the table lacks the relative deadline that it must have.
fn has_no_deadline(state: &State) -> bool {
    state.policy == BY_DEADLINE && state.deadline[..usize::from(state.tasks)].contains(&0)
}

fn broken_beyond_table(state: &State) -> Vec<Clause> {
    let positions: Vec<usize> = (0..usize::from(state.tasks)).map(|task| state.positions(task)).collect();
    let by_tasks = (0..usize::from(state.tasks)).flat_map(|task| broken_by_task(state, task, positions[task]));
    let of_writer = |number: usize| positions[usize::from(state.writer[number])];
    let by_links = (0..usize::from(state.links)).flat_map(|number| broken_by_link(state, number, of_writer(number)));
    let by_times = (0..usize::from(state.tasks)).flat_map(|task| broken_by_times(state, task));
    let mut broken = Vec::new();
    for clause in by_tasks.chain(by_links).chain(by_times).chain(broken_by_last(state)) {
        if !broken.contains(&clause) {
            broken.push(clause);
        }
    }
    broken
}

fn broken_by_task(state: &State, task: usize, positions: usize) -> impl Iterator<Item = Clause> {
    let inside = |position: u8| position >= 1 && usize::from(position) <= positions;
    those_broken([
        (Clause::Phase, state.phase[task] > RUNNING),
        (Clause::Newest, !inside(state.newest[task])),
        (Clause::Previous, !inside(state.previous[task])),
        (Clause::Seen, state.seen[task] > SEEN_TWO),
        (Clause::ActiveWithoutArrivals, state.seen[task] == 0 && state.active(task)),
    ])
}

/// So many positions has the link's writer.
fn broken_by_link(state: &State, number: usize, positions: usize) -> impl Iterator<Item = Clause> {
    let link = state.link(number);
    let pointer = state.pointer[number];
    let active = state.active(usize::from(link.reader));
    let (present, delayed, marked) = (pointer != ABSENT, link.kind == DELAYED, state.mark[number] != 0);
    those_broken([
        (Clause::Pointer, usize::from(pointer) > positions),
        (Clause::ActiveReaderWithout, active && !present),
        (Clause::IdleReaderWith, !active && state.reader_behind(number) && present),
        (Clause::Mark, state.mark[number] > 1),
        (Clause::MarkWithoutPointer, marked && !present),
        (Clause::MarkAtDirect, marked && !delayed),
        (Clause::MarkMissing, !marked && present && delayed && state.writer_new(number)),
    ])
}

fn broken_by_times(state: &State, task: usize) -> impl Iterator<Item = Clause> {
    let fixed = state.policy == FIXED;
    let (active, since) = (state.active(task), state.since[task]);
    those_broken([
        (Clause::SinceAfterLast, !fixed && active && since > state.last),
        (Clause::IdleWithSince, !fixed && !active && since != 0),
        (Clause::FixedWithDeadline, fixed && state.deadline[task] != 0),
        (Clause::FixedWithSince, fixed && since != 0),
    ])
}

fn broken_by_last(state: &State) -> impl Iterator<Item = Clause> {
    let fixed = state.policy == FIXED;
    those_broken([
        (Clause::LastTick, !fixed && state.last > MOST_TICK),
        (Clause::FixedWithLast, fixed && state.last != 0),
    ])
}

fn those_broken<const PARTS: usize>(clauses: [(Clause, bool); PARTS]) -> impl Iterator<Item = Clause> {
    clauses.into_iter().filter(|(_, broken)| *broken).map(|(clause, _)| clause)
}
