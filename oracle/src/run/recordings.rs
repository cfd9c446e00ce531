//! Whole recordings: the answers to each compared.

use super::exposure::given;
use super::Run;
use crate::corpus::{batch, Case, Corpus, Origin};
use crate::engine::{Engine, FreshEngine};
use crate::format::Recording;
use crate::laws;
use crate::pointers::Pointers;
use crate::prng::Prng;
use crate::subject::{disagreement, zero_time_reading, Answer, Oracle, Subject};
use crate::tables::LentTable;

impl Run<'_> {
    fn take_case(&mut self, case: &Case) {
        self.recordings += 1;
        let lent = lent_list(case.room);
        let bytes = &case.bytes;
        let answer = Oracle.replay(bytes, &lent);
        self.compare_zero_time(bytes, &lent, &answer);
        let other = self.subject.replay(bytes, &lent);
        if other != answer {
            let name = self.subject.name();
            self.differ("the subject's answer", || {
                both_answers(bytes, case.room, &answer, &name, &format!("{:?}", other))
            });
        }
        if let Some(law) = laws::replay_law_broken(bytes, &lent, &answer) {
            self.differ(law, || both_answers(bytes, case.room, &answer, "law", law));
        }
        self.compare_origin(case, &lent, &answer);
        self.take_split(bytes, &answer);
        self.expose_replay(bytes, &lent, &answer);
        self.reached.note_recording(bytes, &answer);
    }

    fn compare_zero_time(&mut self, bytes: &[u8], lent: &[u32], answer: &Answer) {
        let zero = zero_time_reading(bytes, lent);
        if let Some(what) = disagreement(answer, &zero) {
            let told = format!(
                "refusal {} at {}, {:?}, list {:?}, rest {:?}",
                zero.refusal, zero.place, zero.counts, zero.list, zero.rest
            );
            self.differ(what, || both_answers(bytes, lent.len(), answer, "zero time", &told));
        }
    }

    fn compare_origin(&mut self, case: &Case, lent: &[u32], answer: &Answer) {
        let broken = match &case.origin {
            Origin::Valid(recording) if answer.refusal != 0 => {
                Some(format!("a possible recording of {} events is refused", recording.events.len()))
            }
            Origin::Valid(recording) => self.compare_valid(recording, answer),
            Origin::Cut(recording) => {
                let ends = laws::record_ends(recording);
                laws::power_cut_law_broken(self.subject, recording, &ends, case.bytes.len(), answer, lent)
                    .map(str::to_string)
            }
            Origin::Other => None,
        };
        if let Some(law) = broken {
            self.differ(&law, || both_answers(&case.bytes, case.room, answer, "law", &law));
        }
    }

    fn compare_valid(&mut self, recording: &Recording, answer: &Answer) -> Option<String> {
        self.take_table(&LentTable::of(&recording.table));
        self.note_history(recording);
        laws::stepwise_law_broken(self.subject, recording, answer)
    }

    fn note_history(&mut self, recording: &Recording) {
        let reach = &mut self.reached.recordings;
        reach.note_table(recording.table.defaults.len(), &recording.table.links);
        let mut engine = Pointers::fresh(&recording.table);
        for &timed in &recording.events {
            let before = engine.state;
            engine.apply(timed);
            reach.note_event(&before, timed, &engine.state);
        }
    }

    fn expose_replay(&mut self, bytes: &[u8], lent: &[u32], answer: &Answer) {
        for (wrong, exposure) in given(&mut self.wrong_replays, self.recordings) {
            let other = wrong.replay(bytes, lent);
            let same = (other.refusal, other.place, other.counts, other.rest)
                == (answer.refusal, answer.place, answer.counts, answer.rest);
            exposure.note(other != *answer, !same || other.list != answer.list);
        }
    }

    pub fn corpus(&mut self, corpus: Corpus, quota: usize, prng: &mut Prng) -> usize {
        let before = self.recordings;
        let mut number = 0;
        while self.recordings - before < quota {
            batch(corpus, number, prng).iter().for_each(|case| self.take_case(case));
            number += 1;
        }
        self.recordings - before
    }
}

/// A lent list is full of numbers before the call, so that a touched entry shows.
fn lent_list(room: usize) -> Vec<u32> {
    (0..room as u32).map(|entry| 0xA5A5_A5A5 ^ entry.wrapping_mul(0x9E37_79B1)).collect()
}

pub fn hex(bytes: &[u8]) -> String {
    bytes.iter().map(|byte| format!("{:02x}", byte)).collect()
}

fn both_answers(bytes: &[u8], room: usize, answer: &Answer, name: &str, told: &str) -> String {
    format!("input {}\nroom {}\noracle: {:?}\n{}: {}", hex(bytes), room, answer, name, told)
}
