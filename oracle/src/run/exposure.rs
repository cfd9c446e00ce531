//! Whether each wrong subject was exposed, and by how many inputs.

use crate::subject::Subject;
use crate::wrong::{Flaw, Wrong};

/// A subject that was exposed so often is given only one input in so many from
/// then on: that its error shows is known, and the time goes to the others. The
/// latter is a prime, which keeps step with no corpus.
const ENOUGH: usize = 100;
const ONE_IN: usize = 17;

/// How many inputs a wrong subject answered differently, of those it was given.
#[derive(Clone, Copy, Default)]
pub struct Exposure {
    given: usize,
    whole: usize,
    /// By numbers, refusal, place, counts or rest, without looking at the state
    /// or the buffer.
    without_state: usize,
}

impl Exposure {
    /// Whether the subject is given the input with this number.
    fn asks_for(&self, number: usize) -> bool {
        self.whole < ENOUGH || number % ONE_IN == 0
    }

    /// An input, and whether the answers to it differ: at all, and without
    /// looking at the state or the buffer.
    pub fn note(&mut self, whole: bool, without_state: bool) {
        self.given += 1;
        self.whole += usize::from(whole);
        self.without_state += usize::from(without_state);
    }
}

pub fn subjects(flaws: &[Flaw]) -> Vec<(Wrong, Exposure)> {
    flaws.iter().map(|flaw| (Wrong { flaw: *flaw }, Exposure::default())).collect()
}

/// The subjects that are given the input with this number.
pub fn given(wrongs: &mut [(Wrong, Exposure)], number: usize) -> impl Iterator<Item = (&Wrong, &mut Exposure)> {
    let asking = wrongs.iter_mut().filter(move |(_, exposure)| exposure.asks_for(number));
    asking.map(|(wrong, exposure)| (&*wrong, exposure))
}

pub fn print_exposed(wrongs: &[(Wrong, Exposure)]) -> bool {
    for (wrong, exposure) in wrongs {
        let Exposure { given, whole, without_state } = exposure;
        println!("  {:<36} {:>8} ({}) of {}", wrong.name(), whole, without_state, given);
    }
    wrongs.iter().all(|(_, exposure)| exposure.whole > 0)
}
