//! One event given to a saved state: the answers to each compared.

use super::exposure::given;
use super::Run;
use crate::engine::Engine;
use crate::format::Timed;
use crate::laws;
use crate::prng::Prng;
use crate::saved::{event_for, from_history, spoiled, Saved};
use crate::state::State;
use crate::subject::{for_the_call, OneAnswer, Oracle, Subject};

impl Run<'_> {
    fn take_saved(&mut self, state: &State, timed: Timed) -> OneAnswer {
        self.saved_states += 1;
        let answer = Oracle.one_event(state, timed);
        let other = self.subject.one_event(state, timed);
        if other != answer {
            let name = self.subject.name();
            self.differ("the subject's answer to one event", || {
                both_ones(state, timed, &answer, &name, &format!("{:?}", other))
            });
        }
        if let Some(law) = laws::one_event_law_broken(state, timed, &answer) {
            self.differ(law, || both_ones(state, timed, &answer, "law", law));
        }
        for (wrong, exposure) in given(&mut self.wrong_events, self.saved_states) {
            let other = wrong.one_event(state, timed);
            exposure.note(other != answer, (other.refusal, other.value) != (answer.refusal, answer.value));
        }
        self.reached.note_one(state, timed, &answer);
        answer
    }

    /// A state from a history: the zero-time run of that history must agree.
    fn take_sound(&mut self, saved: &Saved, timed: Timed) {
        let answer = self.take_saved(&saved.state, timed);
        let refusal = if for_the_call(&saved.state, timed) { saved.zero.judge(timed) } else { 19 };
        let value = if refusal == 0 { saved.zero.clone().apply(timed) } else { 0 };
        if (answer.refusal, answer.value) != (refusal, value) {
            let told = format!("refusal {}, value {}", refusal, value);
            self.differ("one event against zero time", || both_ones(&saved.state, timed, &answer, "zero time", &told));
        }
    }

    pub fn sound_states(&mut self, quota: usize, prng: &mut Prng) -> usize {
        let before = self.saved_states;
        while self.saved_states - before < quota {
            let saved = from_history(prng);
            (0..8).for_each(|_| self.take_sound(&saved, event_for(prng, &saved.state, &saved)));
        }
        self.saved_states - before
    }

    pub fn spoiled_states(&mut self, quota: usize, prng: &mut Prng) -> usize {
        let before = self.saved_states;
        while self.saved_states - before < quota {
            self.take_spoiled(&from_history(prng), prng);
        }
        self.saved_states - before
    }

    fn take_spoiled(&mut self, saved: &Saved, prng: &mut Prng) {
        for state in spoiled(prng, &saved.state) {
            let timed = event_for(prng, &state, saved);
            self.take_saved(&state, timed);
        }
    }
}

fn both_ones(state: &State, timed: Timed, answer: &OneAnswer, name: &str, told: &str) -> String {
    format!("state {:?}\nevent {:?}\noracle: {:?}\n{}: {}", state, timed, answer, name, told)
}
