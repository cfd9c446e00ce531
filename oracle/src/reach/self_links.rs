//! What became of self links, by which a task reads its own last output.

use crate::format::{link_refusal, place_of_link_count, Event, Link, LINK_BYTES};
use crate::sizes::{RecordingKind, UNDATED};
use crate::state::{State, ABSENT};

#[derive(Default)]
pub struct SelfLinks {
    /// Reads of the start value, and of the output of the run before.
    start_read: usize,
    output_read: usize,
    /// At an arrival: pointers set while the task's `newest` moves, and this to
    /// the position that was pointed to, which is not protected.
    set: usize,
    position_taken: usize,
    /// At a finish: pointers that stayed, and marks.
    pointer_kept: usize,
    mark_kept: usize,
    /// Tables of the most tasks of a kind that all have one, be there relative
    /// deadlines or not.
    of_all_tasks: [usize; UNDATED.len()],
    /// Direct ones refused after a delayed one.
    direct_refused: usize,
}

impl SelfLinks {
    /// An accepted event, with the states before and after it.
    pub fn note(&mut self, before: &State, event: Event, after: &State) {
        match event {
            Event::Arrival(set) => {
                before.self_links_of(set).for_each(|link| self.note_arrival(before, after, link));
            }
            Event::Start(_) => {}
            Event::Read(link) => self.note_read(before, usize::from(link)),
            Event::Finish(task, _) => before.self_links_of(1 << task).for_each(|link| {
                let pointer = before.pointer[link];
                self.pointer_kept += usize::from(pointer != ABSENT && after.pointer[link] == pointer);
                self.mark_kept += usize::from(after.mark[link]);
            }),
        }
    }

    fn note_arrival(&mut self, before: &State, after: &State, link: usize) {
        let task = usize::from(before.reader[link]);
        let newest = after.newest[task];
        self.set += usize::from(newest != before.newest[task] && after.pointer[link] == after.previous[task]);
        self.position_taken += usize::from(newest == before.pointer[link]);
    }

    fn note_read(&mut self, state: &State, link: usize) {
        if state.link(link).to_itself() {
            self.start_read += usize::from(state.mark[link] == 1);
            self.output_read += usize::from(state.mark[link] == 0);
        }
    }

    /// The tasks and links of a recording or of a sound state.
    pub fn note_table(&mut self, tasks: usize, links: &[Link]) {
        let all = links.iter().filter(|link| link.to_itself()).count() == tasks;
        for (kind, count) in UNDATED.iter().zip(&mut self.of_all_tasks) {
            *count += usize::from(all && tasks == kind.limits.tasks);
        }
    }

    /// A recording that was refused with 5, at the place of the link.
    pub fn note_recording_refused(&mut self, bytes: &[u8], place: usize) {
        let kind = RecordingKind::of_number(u32::from(bytes[0])).expect("its links were judged");
        let first = place_of_link_count(kind, usize::from(bytes[1])) + 1;
        let earlier: Vec<Link> = bytes[first..place].chunks(LINK_BYTES).map(Link::of_record).collect();
        self.note_direct_refused(&earlier);
    }

    /// A state that is not sound, because of rule 5.
    pub fn note_state_refused(&mut self, state: &State) {
        let links = state.link_list();
        let at_fault = |link: &usize| link_refusal(&state.order(), &links[..*link], links[*link]) == 5;
        if let Some(link) = (0..links.len()).find(at_fault) {
            self.note_direct_refused(&links[..link]);
        }
    }

    fn note_direct_refused(&mut self, earlier: &[Link]) {
        self.direct_refused += usize::from(earlier.iter().any(Link::to_itself));
    }

    /// Each of them with its name.
    pub fn counts(&self) -> [(&'static str, usize); 9] {
        [
            ("reads by a self link of its start value", self.start_read),
            ("reads by a self link of the output of the run before", self.output_read),
            ("pointers of self links set while the task's newest moves", self.set),
            ("positions taken that a self link pointed to", self.position_taken),
            ("pointers of self links kept at a finish", self.pointer_kept),
            ("marks of self links kept at a finish", self.mark_kept),
            ("tables of 16 tasks that all have a self link", self.of_all_tasks[0]),
            ("tables of 32 tasks that all have a self link", self.of_all_tasks[1]),
            ("direct self links refused after a delayed one", self.direct_refused),
        ]
    }
}
