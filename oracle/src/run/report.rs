//! What a run tells at its end.

use super::exposure::print_exposed;
use super::Run;

impl Run<'_> {
    fn print_exposures(&self) -> bool {
        println!("wrong subjects, recordings that exposed each (without looking at the state) of those it was given:");
        let replays = print_exposed(&self.wrong_replays);
        println!("wrong subjects, saved states that exposed each (by refusal or value alone) of those it was given:");
        let events = print_exposed(&self.wrong_events);
        println!("wrong subjects, tables that exposed each (by refusal alone) of those it was given:");
        let tables = print_exposed(&self.wrong_tables);
        println!("wrong subjects, handovers that exposed each (by refusal or place alone) of those it was given:");
        let writers = print_exposed(&self.wrong_writers);
        replays && events && tables && writers
    }

    /// The end of the run: true when nothing differed, all were exposed, and
    /// all was reached that must be.
    pub fn conclude(&self, must_reach: bool) -> bool {
        self.reached.print();
        let exposed = self.print_exposures();
        let missing = if must_reach { self.reached.missing() } else { Vec::new() };
        for what in &missing {
            println!("not reached: {}", what);
        }
        if let Some(first) = &self.first_difference {
            println!("{}", first);
        }
        if !exposed {
            println!("a wrong subject was not exposed");
        }
        println!(
            "{} recordings, {} tables, {} saved states, {} handovers",
            self.recordings, self.tables, self.saved_states, self.handovers
        );
        println!("{} differences", self.differences);
        exposed && missing.is_empty() && self.differences == 0
    }
}
