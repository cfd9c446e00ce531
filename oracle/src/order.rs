//! Which task is ahead of which, and which job is more urgent than which: by
//! relative deadlines, as of request 2026-07, or by the table alone.

use crate::sizes::ROOM;

/// The tasks of a table in their order. The task with the smaller relative
/// deadline is ahead, then the one earlier in the table. Where tasks have fixed
/// priorities each has 0 here, so that the table alone decides.
#[derive(Clone, Copy, PartialEq, Eq, Debug)]
pub struct Order {
    pub tasks: usize,
    deadline: [u32; ROOM.tasks],
}

impl Order {
    /// Of so many tasks by the table alone.
    pub fn of_table(tasks: usize) -> Order {
        Order { tasks, deadline: [0; ROOM.tasks] }
    }

    /// Of so many tasks by their relative deadlines. Those past the room are
    /// left out: no table has them.
    pub fn by_deadlines(tasks: usize, deadlines: impl Iterator<Item = u32>) -> Order {
        let mut order = Order::of_table(tasks);
        order.deadline.iter_mut().zip(deadlines).for_each(|(slot, deadline)| *slot = deadline);
        order
    }

    /// Whether a task is ahead of another. Those of no table go by their
    /// numbers.
    pub fn ahead(&self, task: u8, of: u8) -> bool {
        self.rank(task) < self.rank(of)
    }

    fn rank(&self, task: u8) -> (u32, u8) {
        (self.deadline.get(usize::from(task)).copied().unwrap_or(0), task)
    }

    /// The tasks of the table, the one ahead of all others first.
    pub fn from_the_first(&self) -> Vec<usize> {
        let mut tasks: Vec<usize> = (0..self.tasks.min(ROOM.tasks)).collect();
        tasks.sort_by_key(|task| self.rank(*task as u8));
        tasks
    }
}

/// The least one is the job that may run: by its deadline, then by the order of
/// tasks. With fixed priorities there are neither ticks nor relative deadlines,
/// so that the table is left. A deadline may be past what 32 bits hold in a
/// saved state, whose relative deadlines have 32 bits.
pub fn urgency(arrival_tick: u32, relative_deadline: u32, task: usize) -> (u64, u32, usize) {
    (deadline_of(arrival_tick, relative_deadline), relative_deadline, task)
}

/// The last tick at which the job may finish.
pub fn deadline_of(arrival_tick: u32, relative_deadline: u32) -> u64 {
    u64::from(arrival_tick) + u64::from(relative_deadline)
}
