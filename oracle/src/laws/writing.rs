//! Writing by way of reading: the answer to a handover is what the reader says
//! of the bytes that stand for it.

use crate::format::Counts;
use crate::handovers::split;
use crate::sizes::MOST_EVENTS;
use crate::state::State;
use crate::subject::{Oracle, Subject};
use crate::writing::{begun_events, Handover, Written};

/// The bytes that stand for a handover, nothing judged. A count or number that
/// is too large for its field is the largest there, which is outside of every
/// table too; such a set is the empty one, such a relative deadline is none, and
/// such a kind of recording is 0. The bytes end inside what the numbers end inside
/// of, and after an unknown kind.
pub fn stand_in(handover: &Handover) -> Vec<u8> {
    let byte = |number: u32| number.min(255) as u8;
    let dated = handover.kind == 255;
    let of_each = if dated { 2 } else { 1 };
    let tasks = &handover.tasks;
    let kind = u8::try_from(handover.kind).unwrap_or(0);
    let mut bytes = vec![kind, begun(tasks, of_each).min(255) as u8];
    for (number, &handed) in tasks.iter().enumerate() {
        // The second number of a task is its relative deadline; one that has no
        // room is refused as 0 is.
        if number % of_each == 1 {
            bytes.extend(u16::try_from(handed).unwrap_or(0).to_le_bytes());
        } else {
            bytes.extend(four(handed));
        }
    }
    if tasks.len() % of_each > 0 {
        return bytes;
    }
    let links = &handover.links;
    bytes.push(begun(links, 4).min(255) as u8);
    for (number, &handed) in links.iter().enumerate() {
        // The fourth number of a link is its start value.
        if number % 4 == 3 {
            bytes.extend(four(handed));
        } else {
            bytes.push(byte(handed));
        }
    }
    if links.len() % 4 > 0 {
        return bytes;
    }
    let set = |set: u32| match handover.kind {
        254 | 255 => four(set).to_vec(),
        _ => u16::try_from(set).unwrap_or(0).to_le_bytes().to_vec(),
    };
    let (events, records) = stand_in_events(&handover.events, dated, byte, set);
    bytes.extend([(events.min(65_535) % 256) as u8, (events.min(65_535) / 256) as u8]);
    bytes.extend(records);
    bytes
}

fn four(number: u32) -> [u8; 4] {
    [0, 8, 16, 24].map(|shift| (number >> shift & 255) as u8)
}

/// How many there are of so many numbers each, the last one perhaps not whole.
fn begun(numbers: &[u32], of_each: usize) -> usize {
    numbers.len() / of_each + usize::from(numbers.len() % of_each > 0)
}

/// How many events were begun, and their bytes.
fn stand_in_events(
    numbers: &[u32],
    dated: bool,
    byte: impl Fn(u32) -> u8,
    set: impl Fn(u32) -> Vec<u8>,
) -> (usize, Vec<u8>) {
    let mut bytes = Vec::new();
    let mut events = 0;
    let mut rest = numbers;
    while let Some((kind, after)) = rest.split_first() {
        events += 1;
        bytes.push(byte(*kind));
        if !(1..=4).contains(kind) {
            break;
        }
        let (ticks, after) = after.split_at(usize::from(dated).min(after.len()));
        bytes.extend(ticks.iter().flat_map(|tick| four(*tick)));
        rest = match (kind, after) {
            (1, [named, after @ ..]) => {
                bytes.extend(set(*named));
                after
            }
            (2 | 3, [which, after @ ..]) => {
                bytes.push(byte(*which));
                after
            }
            (4, [task, value, after @ ..]) => {
                bytes.push(byte(*task));
                bytes.extend(four(*value));
                after
            }
            _ => break,
        };
    }
    (events, bytes)
}

/// What every answer to a handover must keep; the name of the first law
/// broken. `before` and `after` are the buffer.
pub fn write_law_broken(handover: &Handover, written: Written, before: &[u8], after: &[u8]) -> Option<&'static str> {
    let bytes = stand_in(handover);
    // Of reads there are no more than events: a read is not refused for room.
    let reads = handover.events.len().min(MOST_EVENTS);
    let read = Oracle.replay(&bytes, &vec![0; reads]);
    let length = bytes.len();
    let accepted = read.refusal == 0 && length <= before.len();
    let wanted = match read.refusal {
        0 if accepted => Written { refusal: 0, place: length },
        0 => Written { refusal: 18, place: length },
        refusal => Written { refusal, place: read.place },
    };
    let touched = if accepted { length } else { 0 };
    let laws: [(&'static str, bool); 4] = [
        ("writing has the reader's refusal and place, and 18 last", written == wanted),
        ("the buffer keeps its length", after.len() == before.len()),
        ("what is written are the bytes of the recording", after.get(..touched) == bytes.get(..touched)),
        ("the buffer is untouched but for them", after.get(touched..) == before.get(touched..)),
    ];
    laws.iter().find(|(_, holds)| !holds).map(|(name, _)| *name)
}

/// What was written, read by the subject with room for the numbers: accepted,
/// as the same table, links and events.
pub fn read_back_law_broken(subject: &dyn Subject, handover: &Handover, written: &[u8]) -> Option<&'static str> {
    let apart = split(written);
    if apart != *handover {
        return Some("what is written has the table, links and events that were handed over");
    }
    let reads = handover.events.len().min(MOST_EVENTS);
    let read = subject.replay(written, &vec![0; reads]);
    if (read.refusal, read.place) != (0, written.len()) {
        return Some("what is written is accepted");
    }
    if read.counts != counts_of(handover) {
        return Some("what is written is read with the counts of the events");
    }
    let links = handover.links.len() / 4;
    let state = &read.state;
    let same_tasks = tasks_of(state) == handover.tasks && state.policy == u32::from(handover.kind == 255);
    let ends = |l: usize| [state.writer[l], state.reader[l], state.kind[l]].map(u32::from);
    let same_links = usize::from(state.links) == links
        && handover
            .links
            .chunks(4)
            .enumerate()
            .all(|(l, handed)| handed[..3] == ends(l) && handed[3] == state.start_value[l]);
    if same_tasks && same_links {
        None
    } else {
        Some("what is written is read as the same table and links")
    }
}

/// The numbers that a station would hand over for the tasks of a state.
fn tasks_of(state: &State) -> Vec<u32> {
    let dated = state.policy == 1;
    let task = |t: usize| [Some(state.defaults[t]), Some(state.deadline[t]).filter(|_| dated)].into_iter().flatten();
    (0..usize::from(state.tasks)).flat_map(task).collect()
}

fn counts_of(handover: &Handover) -> Counts {
    let mut counts = Counts::default();
    for record in begun_events(handover.kind_or_smaller(), &handover.events) {
        match record[0] {
            1 => counts.arrivals += record[record.len() - 1].count_ones(),
            2 => counts.starts += 1,
            3 => counts.reads += 1,
            _ => counts.finishes += 1,
        }
    }
    counts
}
