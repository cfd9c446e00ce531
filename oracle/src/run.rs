//! The comparison: a subject against the oracle, the oracle's two engines
//! against each other, and the wrong subjects against all of it.

mod exposure;
mod handovers;
mod options;
mod recordings;
mod report;
mod saved_states;
mod sequences;
mod tables;

use crate::corpus::CORPORA;
use crate::reach::Reached;
use crate::subject::{Oracle, Subject};
use crate::wrong::{in_handovers, in_recordings, in_saved_states, in_tables, Wrong};
use exposure::{subjects, Exposure};
use options::quota;
pub use options::{stream, Options};

struct Run<'a> {
    subject: &'a dyn Subject,
    recordings: usize,
    saved_states: usize,
    tables: usize,
    handovers: usize,
    differences: usize,
    first_difference: Option<String>,
    wrong_replays: Vec<(Wrong, Exposure)>,
    wrong_events: Vec<(Wrong, Exposure)>,
    wrong_tables: Vec<(Wrong, Exposure)>,
    wrong_writers: Vec<(Wrong, Exposure)>,
    reached: Reached,
}

impl<'a> Run<'a> {
    fn new(subject: &'a dyn Subject) -> Run<'a> {
        Run {
            subject,
            recordings: 0,
            saved_states: 0,
            tables: 0,
            handovers: 0,
            differences: 0,
            first_difference: None,
            wrong_replays: subjects(&in_recordings()),
            wrong_events: subjects(&in_saved_states()),
            wrong_tables: subjects(&in_tables()),
            wrong_writers: subjects(&in_handovers()),
            reached: Reached::default(),
        }
    }

    /// A subject that takes a state for another size would be lent too little, or
    /// too much.
    fn compare_sizes(&mut self) {
        let (sizes, others) = (Oracle.sizes(), self.subject.sizes());
        println!("a state has tasks, links, bytes, numbers and times {:?}", others);
        if others != sizes {
            let name = self.subject.name();
            self.differ("the sizes of a state", || format!("oracle: {:?}\n{}: {:?}", sizes, name, others));
        }
    }

    fn differ(&mut self, what: &str, input: impl FnOnce() -> String) {
        self.differences += 1;
        if self.first_difference.is_none() {
            self.first_difference = Some(format!("first difference: {}\n{}", what, input()));
        }
    }
}

/// The whole run; true when there is nothing to complain of.
pub fn run(subject: &dyn Subject, options: &Options) -> bool {
    println!("seed {}", options.seed);
    let mut run = Run::new(subject);
    run.compare_sizes();
    for (number, &corpus) in CORPORA.iter().enumerate() {
        let taken = run.corpus(corpus, quota(corpus, options), &mut stream(options.seed, number));
        println!("{:<16} {:>8} recordings", format!("{:?}", corpus), taken);
    }
    let tables = run.tables(options.count / 4, &mut stream(options.seed, 102));
    println!("{:<16} {:>8} tables", "Tables", tables);
    let sound = run.sound_states(options.count / 4, &mut stream(options.seed, 100));
    println!("{:<16} {:>8} events on saved states", "SoundStates", sound);
    let spoiled = run.spoiled_states(options.count / 2, &mut stream(options.seed, 101));
    println!("{:<16} {:>8} events on saved states", "SpoiledStates", spoiled);
    let handovers = run.random_handovers(options.count / 4, &mut stream(options.seed, 103));
    println!("{:<16} {:>8} handovers", "Handovers", handovers);
    println!("{:<16} {:>8} handovers", "ShortHandovers", run.short_handovers());
    if options.exhaustive > 0 {
        run.exhaustive(options.exhaustive, options.long);
    }
    run.conclude(options.must_reach)
}
