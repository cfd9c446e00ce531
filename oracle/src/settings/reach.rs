//! What the frames reach, and what the corpus has to reach.

use super::answer::Answer;
use super::frame::{Frame, MOST_BYTES};
use super::MOST_SETTINGS;
use crate::reach::{at_least, never_given};

/// How often each number from 0 to 26 was given.
type Refusals = [usize; 27];

#[derive(Default)]
pub struct Reached {
    pub lists: Refusals,
    pub writings: Refusals,
    pub most_settings: usize,
    pub longest: usize,
    /// Numbers shown whole, cut after six decimals, and too large to be shown.
    pub shown: [usize; 3],
}

impl Reached {
    pub fn by(frames: &[Frame]) -> Reached {
        let mut reached = Reached::default();
        frames.iter().for_each(|frame| reached.note(frame, &Answer::to(frame)));
        reached
    }

    fn note(&mut self, frame: &Frame, answer: &Answer) {
        self.lists[usize::from(answer.migration.refusal)] += 1;
        self.writings[answer.written.map_or_else(|fault| usize::from(fault.refusal), |_| 0)] += 1;
        self.most_settings = self.most_settings.max(answer.migration.number);
        self.longest = self.longest.max(frame.list.len());
        answer.text().lines().filter_map(shown).for_each(|form| self.shown[form] += 1);
    }

    pub fn print(&self) {
        println!("refusals of settings lists: {}", told(&self.lists));
        println!("refusals of writing back:   {}", told(&self.writings));
        println!("  most settings {}, longest list {} bytes", self.most_settings, self.longest);
        println!("  numbers whole {}, cut {}, too large {}", self.shown[0], self.shown[1], self.shown[2]);
    }

    /// What the corpus must reach and these frames did not. A bad float (26)
    /// cannot come up in writing back: it is given what a migration answered,
    /// and no migration lets one through.
    pub fn missing(&self) -> Vec<String> {
        let mut missing = Vec::new();
        never_given(&mut missing, "of settings lists", &self.lists, &[0, 1, 2, 11, 17, 26]);
        never_given(&mut missing, "of writing back", &self.writings, &[0, 2, 18]);
        at_least(&mut missing, "settings in a list", self.most_settings, MOST_SETTINGS);
        at_least(&mut missing, "bytes of a settings list", self.longest, MOST_BYTES);
        for (form, name) in ["shown whole", "cut", "too large to show"].iter().enumerate() {
            at_least(&mut missing, &format!("numbers {}", name), self.shown[form], 1);
        }
        missing
    }
}

/// Which of the three forms the number in a line has; none for other lines.
fn shown(line: &str) -> Option<usize> {
    let forms = [" mm", "cut off: less than", "cut off: what is above"];
    forms.iter().rposition(|words| line.contains(words))
}

/// Those that were given, with how often.
fn told(refusals: &Refusals) -> String {
    let given = refusals.iter().enumerate().filter(|(_, count)| **count > 0);
    given.map(|(number, count)| format!("{}:{}", number, count)).collect::<Vec<String>>().join(" ")
}
