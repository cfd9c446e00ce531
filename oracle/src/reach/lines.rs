//! Either side of the limits of each kind of recording.

use super::{at_least, OFTEN};
use crate::format::{number, place_of_link_count, LINK_BYTES};
use crate::sizes::{RecordingKind, KINDS, ROOM};
use crate::subject::Answer;

/// So often the line of events: a recording with the most of them is long.
const OFTEN_LONG: usize = 5;

/// Of one kind of recording.
#[derive(Clone, Copy, Default)]
struct Line {
    /// Accepted with the most tasks, the most links, and the most events.
    most_tasks: usize,
    most_links: usize,
    most_events: usize,
    /// Refused with one task more, one link more, and one event more.
    task_more: usize,
    link_more: usize,
    event_more: usize,
    /// Refused for tasks, or links, for which a state has room.
    tasks_in_room: usize,
    links_in_room: usize,
}

/// Of each kind, and of first bytes that name none.
#[derive(Default)]
pub struct Lines {
    of_kinds: [Line; KINDS.len()],
    first_bytes: [usize; OF_NO_KIND.len()],
}

/// First bytes that are near those of a kind, and that of recordings without
/// one: T, which is as often small.
const OF_NO_KIND: [u8; 4] = [0, 16, 251, 252];

impl Lines {
    pub fn note(&mut self, bytes: &[u8], answer: &Answer) {
        let first = bytes.first().copied();
        for (kind, line) in KINDS.iter().zip(&mut self.of_kinds) {
            if first == Some(kind.first_byte) {
                line.note(*kind, bytes, answer);
            }
        }
        for (byte, count) in OF_NO_KIND.iter().zip(&mut self.first_bytes) {
            *count += usize::from(first == Some(*byte));
        }
    }

    pub fn print(&self) {
        self.counts().for_each(|(what, count, _)| println!("  {:<69} {:>8}", what, count));
    }

    pub fn missing(&self, missing: &mut Vec<String>) {
        self.counts().for_each(|(what, count, wanted)| at_least(missing, &what, count, wanted));
    }

    /// Each with its name and with how often it must come up.
    fn counts(&self) -> impl Iterator<Item = (String, usize, usize)> + '_ {
        let of_kinds = KINDS.iter().zip(&self.of_kinds).flat_map(|(kind, line)| line.counts(*kind));
        let of_none = OF_NO_KIND.iter().zip(self.first_bytes);
        of_kinds.chain(of_none.map(|(byte, count)| (format!("recordings that begin with {}", byte), count, OFTEN)))
    }
}

impl Line {
    fn note(&mut self, kind: RecordingKind, bytes: &[u8], answer: &Answer) {
        let byte = |place: usize| bytes.get(place).map_or(0, |byte| usize::from(*byte));
        let tasks = byte(1);
        let links_at = place_of_link_count(kind, tasks);
        let links = byte(links_at);
        let events_at = links_at + 1 + LINK_BYTES * links;
        let events = bytes.get(events_at..events_at + 2).map_or(0, |count| number(count) as usize);
        match answer.refusal {
            0 => {
                self.most_tasks += usize::from(tasks == kind.limits.tasks);
                self.most_links += usize::from(links == kind.limits.links);
                self.most_events += usize::from(events == kind.most_events);
            }
            2 => {
                self.task_more += usize::from(tasks == kind.limits.tasks + 1);
                self.tasks_in_room += usize::from(ROOM.task_refusal(tasks) == 0);
            }
            3 => {
                self.link_more += usize::from(links == kind.limits.links + 1);
                self.links_in_room += usize::from(ROOM.link_refusal(links) == 0);
            }
            10 => self.event_more += usize::from(events == kind.most_events + 1),
            _ => {}
        }
    }

    /// Each of them with its name and with how often it must come up. Where the
    /// limits are the room, nothing is refused for which there is room.
    fn counts(&self, kind: RecordingKind) -> Vec<(String, usize, usize)> {
        let mut counts = vec![
            ("accepted with the most tasks", self.most_tasks, OFTEN),
            ("accepted with the most links", self.most_links, OFTEN),
            ("accepted with the most events", self.most_events, OFTEN_LONG),
            ("refused with one task more", self.task_more, OFTEN),
            ("refused with one link more", self.link_more, OFTEN),
            ("refused with one event more", self.event_more, OFTEN_LONG),
        ];
        if kind.limits != ROOM {
            counts.push(("refused for tasks for which a state has room", self.tasks_in_room, OFTEN));
            counts.push(("refused for links for which a state has room", self.links_in_room, OFTEN));
        }
        let of_kind = |what: &str| format!("recordings of {} {}", kind.first_byte, what);
        counts.into_iter().map(|(what, count, wanted)| (of_kind(what), count, wanted)).collect()
    }
}
