//! Recordings written from what is handed over: the answers to each compared,
//! and the whole buffer.

use super::exposure::given;
use super::recordings::hex;
use super::Run;
use crate::format::Fault;
use crate::handovers::{arises_in_writing, batch, every_short, limits, split, Lent};
use crate::laws;
use crate::prng::Prng;
use crate::sizes::{RecordingKind, UNDATED};
use crate::subject::{Answer, Oracle, Subject};
use crate::tables::LentTable;
use crate::writing::{Handover, Written};

impl Run<'_> {
    /// The oracle's answer and buffer, after comparing the subject's.
    fn compare_writing(&mut self, handover: &Handover, lent: &[u8]) -> (Written, Vec<u8>) {
        self.handovers += 1;
        let (answer, buffer) = written(&Oracle, handover, lent);
        let (other, other_buffer) = written(self.subject, handover, lent);
        if (other, &other_buffer) != (answer, &buffer) {
            let name = self.subject.name();
            let told = format!("{:?}, buffer {}", other, hex(&other_buffer));
            self.differ("the subject's writing", || both_writings(handover, lent, answer, &buffer, &name, &told));
        }
        self.reached.note_writing(handover, answer);
        (answer, buffer)
    }

    /// A handover: besides the answers the laws, and the way back by the
    /// subject's reader. The oracle's answer and buffer.
    fn take_handover(&mut self, handover: &Handover, lent: &[u8]) -> (Written, Vec<u8>) {
        let (answer, buffer) = self.compare_writing(handover, lent);
        let mut law = laws::write_law_broken(handover, answer, lent, &buffer);
        if law.is_none() && answer.refusal == 0 {
            law = laws::read_back_law_broken(self.subject, handover, &buffer[..answer.place]);
        }
        if let Some(law) = law {
            self.differ(law, || both_writings(handover, lent, answer, &buffer, "law", law));
        }
        (answer, buffer)
    }

    /// One that the wrong writers get as well.
    fn take_lent(&mut self, Lent { handover, room }: &Lent) {
        let lent = lent_buffer(self.handovers, *room);
        let (answer, buffer) = self.take_handover(handover, &lent);
        for (wrong, exposure) in given(&mut self.wrong_writers, self.handovers) {
            let (other, other_buffer) = written(wrong, handover, &lent);
            exposure.note(other != answer || other_buffer != buffer, other != answer);
        }
    }

    /// A recording taken apart and written again: the same bytes if it is
    /// accepted, and one byte short of that 18; the reader's refusal and place
    /// if the numbers earn it too, else what the laws say of them.
    pub fn take_split(&mut self, bytes: &[u8], read: &Answer) {
        let handover = split(bytes);
        let more = if read.refusal == 0 { self.handovers % 4 } else { 0 };
        let lent = lent_buffer(self.handovers, bytes.len() + more);
        let (answer, buffer) = self.compare_writing(&handover, &lent);
        let same = (answer.refusal, answer.place) == (read.refusal, read.place);
        if read.refusal == 0 {
            self.reached.written_again += 1;
            if !same || &buffer[..bytes.len()] != bytes {
                self.differ("an accepted recording written again gives the same bytes", || hex(bytes));
            }
            self.take_split_short(&handover, bytes.len());
        } else if arises_in_writing(&handover, Fault { refusal: read.refusal, place: read.place }) {
            self.reached.refused_alike += 1;
            if !same {
                let told = format!("{:?}, the reader {} at {}", answer, read.refusal, read.place);
                self.differ("what the reader refuses is refused alike in writing", || {
                    format!("input {}\n{}", hex(bytes), told)
                });
            }
        } else if let Some(law) = laws::write_law_broken(&handover, answer, &lent, &buffer) {
            self.differ(law, || both_writings(&handover, &lent, answer, &buffer, "law", law));
        }
    }

    /// Every other accepted recording.
    fn take_split_short(&mut self, handover: &Handover, length: usize) {
        if self.reached.written_again % 2 == 0 {
            let lent = lent_buffer(self.handovers, length - 1);
            let (answer, buffer) = self.compare_writing(handover, &lent);
            if answer != (Written { refusal: 18, place: length }) || buffer != lent {
                self.differ("one byte short is 18 at the whole length", || format!("{:?}", handover));
            }
        }
    }

    /// A table by itself earns in writing what it earns by itself, unless its
    /// counts are past the limits of the kind; without relative deadlines there are
    /// two kinds, in turn.
    pub fn take_table_handover(&mut self, table: &LentTable, refusal: u8) {
        let undated = UNDATED[self.tables % UNDATED.len()];
        let kind = if table.deadlines.is_some() { RecordingKind::DATED } else { undated };
        if let Some(handover) = table.handed_over(kind) {
            let lent = lent_buffer(self.handovers, handover.length());
            let (answer, _) = self.take_handover(&handover, &lent);
            let wanted = match kind.limits.refusal(table.tasks, table.links) {
                past if past != 0 && !kind.dated => past,
                _ => refusal,
            };
            if answer.refusal != wanted {
                self.differ("a table earns the same refusal in writing", || format!("{:?}\n{:?}", table, answer));
            }
        }
    }

    /// Counts at their limits, then what the seed draws.
    pub fn random_handovers(&mut self, quota: usize, prng: &mut Prng) -> usize {
        let before = self.handovers;
        limits().iter().for_each(|lent| self.take_lent(lent));
        let mut number = 0;
        while self.handovers - before < quota {
            batch(number, prng).iter().for_each(|lent| self.take_lent(lent));
            number += 1;
        }
        self.handovers - before
    }

    pub fn short_handovers(&mut self) -> usize {
        let before = self.handovers;
        every_short().for_each(|lent| self.take_lent(&lent));
        self.handovers - before
    }
}

/// A subject's answer, and a copy of the lent buffer after it.
fn written(subject: &dyn Subject, handover: &Handover, lent: &[u8]) -> (Written, Vec<u8>) {
    let mut buffer = lent.to_vec();
    (subject.write(handover, &mut buffer), buffer)
}

/// A lent buffer is full of bytes before the call, others each time, so that a
/// touched one shows.
fn lent_buffer(number: usize, room: usize) -> Vec<u8> {
    (0..room).map(|place| (place.wrapping_mul(151) ^ number.wrapping_mul(29) ^ 0xA5) as u8).collect()
}

fn both_writings(handover: &Handover, lent: &[u8], answer: Written, buffer: &[u8], name: &str, told: &str) -> String {
    format!("{:?}\nlent {}\noracle: {:?}, buffer {}\n{}: {}", handover, hex(lent), answer, hex(buffer), name, told)
}
