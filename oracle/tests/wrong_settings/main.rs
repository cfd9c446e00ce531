//! The errors that look right, in a migrator of settings. Each is a program
//! whose output the corpus must tell from the right one.

mod flaws;
mod lines;
mod reading;
mod writing;

use std::slice;

use flaws::{Flaw, FLAWS};
use lines::wrong_printout;
use oracle::settings::answer::Answer;
use oracle::settings::compare::compare;
use oracle::settings::corpus::{frames, SEED};
use oracle::settings::frame::Frame;
use oracle::settings::lines::written;
use oracle::settings::{Settings, MOST_SETTINGS, NOTHING};
use reading::wrong_migration;
use writing::wrong_writing;

struct Wrong {
    flaw: Flaw,
    /// The settings of the list before.
    left: Settings,
}

impl Wrong {
    fn with(flaw: Flaw) -> Wrong {
        Wrong { flaw, left: [NOTHING; MOST_SETTINGS] }
    }

    fn output(&mut self, frame: &Frame) -> Vec<u8> {
        let mut migration = wrong_migration(self.flaw, &frame.list);
        if self.flaw == Flaw::LeftPastNumber {
            let number = migration.number;
            migration.settings[number..].copy_from_slice(&self.left[number..]);
        }
        self.left = migration.settings;
        let text = wrong_printout(self.flaw, &frame.list, &migration);
        let (answer, buffer) = wrong_writing(self.flaw, &migration, usize::from(frame.number), frame.room);
        [text.as_bytes(), written(&answer).as_bytes(), &buffer].concat()
    }
}

/// The first frame that a program with the flaw answers wrongly.
fn exposed_by(flaw: Flaw, frames: &[Frame]) -> Option<usize> {
    let mut wrong = Wrong::with(flaw);
    frames.iter().position(|frame| compare(slice::from_ref(frame), &wrong.output(frame)).differences > 0)
}

#[test]
fn the_corpus_exposes_each_of_them() {
    let frames = frames(SEED);
    let hidden: Vec<Flaw> = FLAWS.into_iter().filter(|flaw| exposed_by(*flaw, &frames).is_none()).collect();
    assert!(hidden.is_empty(), "{:?}", hidden);
}

#[test]
fn without_a_flaw_nothing_is_exposed() {
    assert_eq!(exposed_by(Flaw::Nothing, &frames(SEED)), None);
}

/// Its wrong answers have other lengths than the right ones, which are still
/// found to be right after them.
#[test]
fn a_whole_output_differs_where_its_answers_do() {
    let frames = frames(SEED);
    let mut wrong = Wrong::with(Flaw::MinusZeroAccepted);
    let outputs: Vec<Vec<u8>> = frames.iter().map(|frame| wrong.output(frame)).collect();
    let right = frames.iter().map(|frame| Answer::to(frame).output());
    let differences = right.zip(&outputs).filter(|(right, output)| right != *output).count();
    let comparison = compare(&frames, &outputs.concat());
    assert!(differences > 0);
    assert_eq!((comparison.lists, comparison.differences), (frames.len(), differences));
}
