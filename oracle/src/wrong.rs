//! The errors that look right. Each is a subject the corpora must expose.

mod ends;
mod engine;
mod flaws;
mod kinds;
mod marks;
mod reader;
mod self_links;
mod soundness;
mod tables;
mod times;
mod writer;

use crate::engine::Engine;
use crate::format::{replay_by, Event, Rules, Table, Timed};
use crate::state::State;
use crate::subject::{answer_of, one_event_with, Answer, Made, OneAnswer, Oracle, Subject};
use crate::tables::LentTable;
use crate::writing::{Handover, Written};
use engine::WrongEngine;
pub use flaws::{in_handovers, in_recordings, in_saved_states, in_tables, Flaw};
use kinds::kind_rule;
use reader::{distorted, without_first_byte};
use soundness::{too_mild, too_strict};
use tables::{distorted_table, link_rule};
use writer::wrong_write;

pub struct Wrong {
    pub flaw: Flaw,
}

impl Subject for Wrong {
    fn name(&self) -> String {
        format!("{:?}", self.flaw)
    }

    fn sizes(&self) -> [usize; 5] {
        match self.flaw {
            Flaw::StatesBySmaller => [16, 32, 224, 208, 34],
            Flaw::DatedRefused => [32, 96, 608, 448, 0],
            _ => Oracle.sizes(),
        }
    }

    fn replay<'a>(&self, bytes: &'a [u8], lent: &[u32]) -> Answer<'a> {
        if let Some(answer) = without_first_byte(self.flaw, bytes, lent) {
            return answer;
        }
        let make = |table: &Table| WrongEngine::new(self.flaw, wrong_fresh(self.flaw, table));
        let rules = Rules { kind: kind_rule(self.flaw), link: link_rule(self.flaw), ..Rules::RIGHT };
        let answer = answer_of(replay_by(rules, bytes, lent, make), |engine| engine.state);
        distorted(self.flaw, bytes, answer)
    }

    fn fresh(&self, table: &LentTable) -> Made {
        times::made(self.flaw, table, distorted_table(self.flaw, table, Oracle.fresh(table)))
    }

    fn one_event(&self, state: &State, timed: Timed) -> OneAnswer {
        let timed = times::for_any_policy(self.flaw, state, timed);
        match self.flaw {
            flaw if too_mild(flaw, state) => OneAnswer { refusal: 0, value: 0, state: *state },
            flaw if too_strict(flaw, state) => OneAnswer { refusal: 19, value: 0, state: *state },
            Flaw::TwelveBeforeNineteen if timed.event == Event::Arrival(0) => {
                OneAnswer { refusal: 12, value: 0, state: *state }
            }
            flaw => {
                let answer = one_event_with(
                    state,
                    timed,
                    |state, timed| WrongEngine::new(flaw, *state).judge(timed),
                    |state, timed| {
                        let mut engine = WrongEngine::new(flaw, *state);
                        let value = engine.apply(timed);
                        (engine.state, value)
                    },
                );
                times::answered(flaw, timed, answer)
            }
        }
    }

    fn write(&self, handover: &Handover, buffer: &mut [u8]) -> Written {
        wrong_write(self.flaw, handover, buffer)
    }
}

/// The fresh state of a table as a wrong reader takes it from the bytes.
fn wrong_fresh(flaw: Flaw, table: &Table) -> State {
    let mut state = ends::fresh(flaw, State::fresh(table));
    if flaw == Flaw::StartHighByteFirst {
        state.start_value = state.start_value.map(u32::swap_bytes);
    }
    if flaw == Flaw::DeadlineHighByteFirst {
        state.deadline = state.deadline.map(|deadline| u32::from((deadline as u16).swap_bytes()));
    }
    state
}
