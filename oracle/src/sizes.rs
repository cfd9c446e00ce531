//! How large things may be: the kinds of recordings with their limits and
//! fields, and the room of a state.

use crate::format::LINK_BYTES;

/// Of all kinds; a kind may have fewer.
pub const MOST_EVENTS: usize = 10_000;
/// The last tick there is.
pub const MOST_TICK: u32 = 4_000_000_000;
pub const MOST_BEHIND: usize = 8;

/// How many tasks and links a table may have: in a recording by its kind, in a
/// state by its room.
#[derive(Clone, Copy, PartialEq, Eq, Debug)]
pub struct Limits {
    pub tasks: usize,
    pub links: usize,
}

impl Limits {
    /// 2 for a count of tasks that no table has.
    pub fn task_refusal(self, tasks: usize) -> u8 {
        if tasks == 0 || tasks > self.tasks {
            2
        } else {
            0
        }
    }

    /// 3 for a count of links that no table has.
    pub fn link_refusal(self, links: usize) -> u8 {
        if links > self.links {
            3
        } else {
            0
        }
    }

    /// Of both counts; the tasks come first.
    pub fn refusal(self, tasks: usize, links: usize) -> u8 {
        match self.task_refusal(tasks) {
            0 => self.link_refusal(links),
            refusal => refusal,
        }
    }
}

/// A kind of recording: its first byte, by which the writer is told of it too,
/// its limits, and the fields in which kinds differ.
#[derive(Clone, Copy, PartialEq, Eq, Debug)]
pub struct RecordingKind {
    pub first_byte: u8,
    pub limits: Limits,
    /// E is at most that.
    pub most_events: usize,
    /// The bytes of an arrival's set; bit i is task i.
    pub set_bytes: usize,
    /// Whether its tasks have relative deadlines and its events ticks, so that
    /// the earliest deadline goes first; else the tasks have fixed priorities.
    pub dated: bool,
}

/// The kinds that there are.
pub const KINDS: [RecordingKind; 3] = [RecordingKind::SIXTEEN, RecordingKind::THIRTY_TWO, RecordingKind::DATED];

/// Those with fixed priorities.
pub const UNDATED: [RecordingKind; 2] = [RecordingKind::SIXTEEN, RecordingKind::THIRTY_TWO];

impl RecordingKind {
    /// With up to sixteen tasks, as of request 2026-02.
    pub const SIXTEEN: RecordingKind = RecordingKind {
        first_byte: 253,
        limits: Limits { tasks: 16, links: 32 },
        most_events: MOST_EVENTS,
        set_bytes: 2,
        dated: false,
    };

    /// With up to thirty-two tasks, as of request 2026-06.
    pub const THIRTY_TWO: RecordingKind = RecordingKind {
        first_byte: 254,
        limits: Limits { tasks: 32, links: 96 },
        most_events: MOST_EVENTS,
        set_bytes: 4,
        dated: false,
    };

    /// With relative deadlines and ticks, as of request 2026-07.
    pub const DATED: RecordingKind =
        RecordingKind { first_byte: 255, most_events: 6_000, dated: true, ..RecordingKind::THIRTY_TWO };

    /// The kind with this number, which is never cut to a byte.
    pub fn of_number(number: u32) -> Option<RecordingKind> {
        KINDS.into_iter().find(|kind| u32::from(kind.first_byte) == number)
    }

    pub fn number(self) -> u32 {
        u32::from(self.first_byte)
    }

    /// The bytes of a task's record: its default, and its relative deadline.
    pub fn task_bytes(self) -> usize {
        if self.dated {
            6
        } else {
            4
        }
    }

    /// The bytes of an event's tick, after its kind byte.
    pub fn tick_bytes(self) -> usize {
        if self.dated {
            4
        } else {
            0
        }
    }

    /// The length of an event's record by the event's kind, where there is such
    /// a kind.
    pub fn event_bytes(self, event_kind: u32) -> Option<usize> {
        let after_tick = match event_kind {
            1 => self.set_bytes,
            2 | 3 => 1,
            4 => 5,
            _ => return None,
        };
        Some(1 + self.tick_bytes() + after_tick)
    }

    /// A recording has no more bytes than that. None that is accepted has so
    /// many: its events are not all finishes.
    pub fn most_bytes(self) -> usize {
        let events = (1 + self.tick_bytes() + 5) * self.most_events;
        1 + 1 + self.task_bytes() * self.limits.tasks + 1 + LINK_BYTES * self.limits.links + 2 + events
    }
}

/// The set of so many first tasks, at least one.
pub fn all_of(tasks: usize) -> u32 {
    u32::MAX >> (u32::BITS as usize - tasks)
}

/// The room of a state: it holds the table of every recording there is.
pub const ROOM: Limits = RecordingKind::THIRTY_TWO.limits;
