//! The bytes of a recording taken apart into what a station would hand over.

use crate::format::{number, Fault};
use crate::sizes::RecordingKind;
use crate::writing::{begun_events, event_numbers, task_numbers, Handover, LINK_NUMBERS};

/// The numbers in the bytes, as far as they go. What the bytes end inside of
/// is left out, and so are bytes after the last event. Where there is no first
/// byte the kind is 0, which is none; those of no kind are taken apart as of the
/// smaller one.
pub fn split(bytes: &[u8]) -> Handover {
    let mut rest = Rest { bytes };
    let first = rest.number(1).unwrap_or(0);
    let mut handover = Handover { kind: first, tasks: Vec::new(), links: Vec::new(), events: Vec::new() };
    let kind = handover.kind_or_smaller();
    let tasks = rest.number(1).unwrap_or(0);
    let fields = [4, 2].into_iter().take(task_numbers(kind)).cycle().take(task_numbers(kind) * tasks as usize);
    handover.tasks.extend(fields.map_while(|length| rest.number(length)));
    let links = rest.number(1).unwrap_or(0);
    let fields = [1, 1, 1, 4].into_iter().cycle().take(LINK_NUMBERS * links as usize);
    handover.links.extend(fields.map_while(|length| rest.number(length)));
    let events = rest.number(2).unwrap_or(0);
    for _ in 0..events {
        let event_kind = match rest.number(1) {
            Some(event_kind) => event_kind,
            None => break,
        };
        handover.events.push(event_kind);
        let fields = match event_kind {
            1 => vec![kind.set_bytes],
            2 | 3 => vec![1],
            4 => vec![1, 4],
            _ => break,
        };
        let tick = Some(4).filter(|_| kind.dated);
        handover.events.extend(tick.into_iter().chain(fields).map_while(|length| rest.number(length)));
    }
    handover
}

struct Rest<'a> {
    bytes: &'a [u8],
}

impl Rest<'_> {
    /// The next number, of so many bytes, its lowest byte first; where they
    /// are not all there nothing follows either.
    fn number(&mut self, length: usize) -> Option<u32> {
        if self.bytes.len() < length {
            self.bytes = &[];
            return None;
        }
        let (next, after) = self.bytes.split_at(length);
        self.bytes = after;
        Some(number(next))
    }
}

/// Whether the reader's refusal of a recording is one that the numbers taken
/// from it earn too. A first byte that is missing can't be handed over, nor can
/// a count above what is there: there is no count but that of the numbers. Nor
/// can extra bytes, and no list is lent.
pub fn arises_in_writing(handover: &Handover, fault: Fault) -> bool {
    let kind = match RecordingKind::of_number(handover.kind) {
        Some(kind) => kind,
        None => return fault.refusal == 2,
    };
    let events = || begun_events(kind, &handover.events);
    let tasks = handover.tasks.chunks(task_numbers(kind));
    let cut_inside = |numbers: &[u32], of_each: usize| numbers.len() % of_each != 0;
    match fault.refusal {
        1 => {
            cut_inside(&handover.tasks, task_numbers(kind))
                || cut_inside(&handover.links, LINK_NUMBERS)
                || events().last().map_or(false, |last| unfinished(kind, last))
        }
        2 => kind.limits.task_refusal(tasks.len()) == 2,
        3 => kind.limits.link_refusal(handover.links.chunks(LINK_NUMBERS).len()) == 3,
        10 => events().len() > kind.most_events,
        17 | 18 => false,
        _ => true,
    }
}

fn unfinished(kind: RecordingKind, record: &[u32]) -> bool {
    event_numbers(kind, record[0]).map_or(false, |length| record.len() < length)
}
