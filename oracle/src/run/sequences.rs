//! Every sequence of events over small tables.

use super::Run;
use crate::exhaustive::{explore, explored_tables, self_links, Visited};

impl Run<'_> {
    pub fn exhaustive(&mut self, depth: usize, long: bool) {
        let tables = explored_tables(long);
        let mut total = Visited { closed: true, ..Visited::default() };
        for explored in &tables {
            match explore(self.subject, explored, depth) {
                Ok(visited) => total.add(visited),
                Err(fault) => self.differ("every sequence", || format!("{:?}\n{}", explored, fault)),
            }
        }
        self.reached.states = total.states;
        let (at_the_end, at_the_beginning): (Vec<_>, Vec<_>) = tables.iter().partition(|of| of.first_task > 0);
        println!(
            "exhaustive: {} tables, {} of them with self links, and {} at the end of the room, depth {}, {} states, \
             {} transitions, {} sequences written{}",
            at_the_beginning.len(),
            at_the_beginning.iter().filter(|of| self_links(&of.table) > 0).count(),
            at_the_end.len(),
            total.depth,
            total.states,
            total.transitions,
            total.written,
            if total.closed { ", no state left: all depths" } else { "" }
        );
    }
}
