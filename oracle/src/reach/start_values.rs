//! What became of start values and marks, either side of a writer's second
//! arrival.

use crate::format::{Event, DELAYED};
use crate::state::State;

#[derive(Default)]
pub struct StartValues {
    /// Reads by delayed links: of the start value, of it although the writer's
    /// second arrival came since, and of the writer's output.
    read: usize,
    read_late: usize,
    output_read: usize,
    /// At an arrival: marks set where the writer had no arrival and where it
    /// had one; none where its second is in the same set; one taken away.
    set_without_arrival: usize,
    set_after_one: usize,
    second_in_same_set: usize,
    taken_away: usize,
    /// At a finish: marks that went with the pointer, and that stayed with it.
    gone: usize,
    kept: usize,
}

impl StartValues {
    /// An accepted event, with the states before and after it.
    pub fn note(&mut self, before: &State, event: Event, after: &State) {
        match event {
            Event::Arrival(set) => delayed_into(before, set).for_each(|l| self.note_arrival(before, set, after, l)),
            Event::Start(_) => {}
            Event::Read(link) => self.note_read(before, usize::from(link)),
            Event::Finish(task, _) => delayed_into(before, 1 << task).for_each(|l| {
                self.gone += usize::from(before.mark[l] > after.mark[l]);
                self.kept += usize::from(after.mark[l]);
            }),
        }
    }

    fn note_read(&mut self, state: &State, link: usize) {
        let marked = state.mark[link] == 1;
        self.read += usize::from(marked);
        self.read_late += usize::from(marked && !state.writer_new(link));
        self.output_read += usize::from(!marked && state.kind[link] == DELAYED);
    }

    fn note_arrival(&mut self, before: &State, set: u32, after: &State, link: usize) {
        let writer = usize::from(before.writer[link]);
        let second = before.seen[writer] == 1 && set >> writer & 1 == 1;
        match after.seen[writer] {
            0 => self.set_without_arrival += usize::from(after.mark[link]),
            1 => self.set_after_one += usize::from(after.mark[link]),
            _ => {
                self.second_in_same_set += usize::from(second && after.mark[link] == 0);
                self.taken_away += usize::from(before.mark[link] > after.mark[link]);
            }
        }
    }

    /// Each of them with its name.
    pub fn counts(&self) -> [(&'static str, usize); 9] {
        [
            ("reads of a start value", self.read),
            ("reads of a start value after the writer's second arrival", self.read_late),
            ("reads of an output by a delayed link", self.output_read),
            ("marks set before the writer's first arrival", self.set_without_arrival),
            ("marks set after the writer's first arrival", self.set_after_one),
            ("marks not set, with the writer's second arrival in the set", self.second_in_same_set),
            ("marks taken away at an arrival", self.taken_away),
            ("marks gone at a finish", self.gone),
            ("marks kept at a finish", self.kept),
        ]
    }
}

/// The delayed links whose reader is in the set.
fn delayed_into(state: &State, set: u32) -> impl Iterator<Item = usize> + '_ {
    let into = move |l: &usize| state.kind[*l] == DELAYED && set >> state.reader[*l] & 1 == 1;
    (0..usize::from(state.links)).filter(into)
}
