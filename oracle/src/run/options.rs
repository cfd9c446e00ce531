//! How large a run is, and where each part of it draws from.

use crate::corpus::{limits, Corpus};
use crate::prng::Prng;

pub struct Options {
    pub seed: u64,
    pub count: usize,
    pub exhaustive: usize,
    pub long: bool,
    /// The run must reach all that `Reached::missing` names.
    pub must_reach: bool,
}

impl Default for Options {
    fn default() -> Options {
        Options { seed: 1, count: 240_000, exhaustive: 20, long: false, must_reach: true }
    }
}

/// A corpus's part of the recordings, in thousandths of `--count`.
fn share(corpus: Corpus) -> usize {
    match corpus {
        Corpus::ValidShort => 240,
        Corpus::ValidDeep => 60,
        Corpus::ValidLong | Corpus::Limits => 0,
        Corpus::EveryCut => 50,
        Corpus::EveryByte => 250,
        Corpus::RandomDamage => 80,
        Corpus::ExtraBytes => 30,
        Corpus::CountsChanged => 50,
        Corpus::CompetingEvents => 100,
        Corpus::CompetingLinks => 60,
        Corpus::ShortLists => 50,
        Corpus::Soup => 30,
        Corpus::OtherKind => 20,
    }
}

pub fn quota(corpus: Corpus, options: &Options) -> usize {
    match corpus {
        Corpus::ValidLong if options.long => 600,
        Corpus::ValidLong => 30,
        // All of them once.
        Corpus::Limits => limits().len(),
        _ => options.count * share(corpus) / 1000,
    }
}

/// Each corpus draws from its own stream, so that one's quota does not move
/// what another makes.
pub fn stream(seed: u64, number: usize) -> Prng {
    Prng::new(Prng::new(seed ^ (number as u64) << 56).draw())
}
