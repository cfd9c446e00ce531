//! The three kinds of recording.
use parnusild::{BASE_KIND, DATED_EVENTS, DATED_KIND, EVENTS, LINKS, TASKS, WIDE_KIND};

/// A kind of recording: its first byte, how many tasks, links and events it may have, whether the set of an arrival has four bytes instead of two,
/// and whether tasks have relative deadlines and events ticks.
#[derive(Clone, Copy)]
pub struct Kind {
    pub first: u8,
    pub tasks: usize,
    pub links: usize,
    pub events: usize,
    pub wide: bool,
    pub dated: bool,
}

pub const BASE: Kind = Kind { first: BASE_KIND as u8, tasks: 16, links: 32, events: EVENTS, wide: false, dated: false };
pub const WIDE: Kind =
    Kind { first: WIDE_KIND as u8, tasks: TASKS, links: LINKS, events: EVENTS, wide: true, dated: false };
pub const DATED: Kind = Kind { first: DATED_KIND as u8, events: DATED_EVENTS, dated: true, ..WIDE };

pub const KINDS: [Kind; 3] = [BASE, WIDE, DATED];

impl Kind {
    /// The kind that a first byte says.
    pub fn of(first: u8) -> Option<Kind> {
        KINDS.into_iter().find(|kind| kind.first == first)
    }

    /// So many bytes has the set of an arrival.
    pub fn set_size(self) -> usize {
        if self.wide {
            4
        } else {
            2
        }
    }

    /// So many bytes has the record of a task.
    pub fn task_size(self) -> usize {
        if self.dated {
            6
        } else {
            4
        }
    }
}
