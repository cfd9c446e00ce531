//! What the reader of recordings needs of an engine.

use crate::format::{Table, Timed};

pub const IDLE: u8 = 0;
pub const WAITING: u8 = 1;
pub const RUNNING: u8 = 2;

/// Two engines stand behind this: one moves pointers, one knows only arrivals
/// and outputs. The reader of recordings is the same for both.
pub trait Engine {
    /// 0, or the refusal: the first of 12, then of a tick 22 and 21, then 13 to
    /// 16, then 23. The room for numbers (18) is the reader's affair, since no
    /// engine knows the lent list.
    fn judge(&self, timed: Timed) -> u8;

    /// Takes an event that was judged 0: the number read, 0 for other kinds.
    fn apply(&mut self, timed: Timed) -> u32;

    /// The phase of a task of the table.
    fn phase(&self, task: usize) -> u8;
}

/// An engine that starts from a table and needs nothing else.
pub trait FreshEngine: Engine {
    fn fresh(table: &Table) -> Self;
}
