//! Seeded corpora of whole recordings: which there are, and what each makes.

mod competing;
mod damaged;
mod limits;
mod other_kind;
mod valid;

use std::rc::Rc;

use crate::format::Recording;
use crate::prng::Prng;
use crate::random_table::Size;
use competing::{competing_events, competing_links};
use damaged::{counts_changed, every_byte, every_cut, extra_bytes, random_damage, short_list, small_or_example, soup};
pub use limits::limits;
use limits::some_limits;
use other_kind::other_kind;
use valid::{valid, valid_long};

/// One input: the bytes, the room of the lent list, and where it came from.
pub struct Case {
    pub bytes: Vec<u8>,
    pub room: usize,
    pub origin: Origin,
}

pub enum Origin {
    /// These are the bytes of the recording, and it is possible.
    Valid(Rc<Recording>),
    /// The first bytes of a possible recording.
    Cut(Rc<Recording>),
    Other,
}

impl Case {
    /// Bytes of which nothing is known.
    fn other(bytes: Vec<u8>, room: usize) -> Case {
        Case { bytes, room, origin: Origin::Other }
    }
}

#[derive(Clone, Copy, PartialEq, Eq, Debug)]
pub enum Corpus {
    ValidShort,
    ValidDeep,
    ValidLong,
    EveryCut,
    EveryByte,
    RandomDamage,
    ExtraBytes,
    CountsChanged,
    CompetingEvents,
    CompetingLinks,
    ShortLists,
    Soup,
    Limits,
    OtherKind,
}

pub const CORPORA: [Corpus; 14] = [
    Corpus::ValidShort,
    Corpus::ValidDeep,
    Corpus::ValidLong,
    Corpus::EveryCut,
    Corpus::EveryByte,
    Corpus::RandomDamage,
    Corpus::ExtraBytes,
    Corpus::CountsChanged,
    Corpus::CompetingEvents,
    Corpus::CompetingLinks,
    Corpus::ShortLists,
    Corpus::Soup,
    Corpus::Limits,
    Corpus::OtherKind,
];

/// The next cases of a corpus: one, or a whole family from one recording.
/// `number` counts the batches, so that the first can be a fixed one.
pub fn batch(corpus: Corpus, number: usize, prng: &mut Prng) -> Vec<Case> {
    match corpus {
        Corpus::ValidShort => one(valid(prng, Size::Any, 60)),
        Corpus::ValidDeep if number % 4 == 0 => one(valid(prng, Size::Full, 400)),
        Corpus::ValidDeep => one(valid(prng, Size::Limit, 400)),
        Corpus::ValidLong => one(valid_long(prng, number)),
        Corpus::EveryCut => every_cut(small_or_example(prng, number)),
        Corpus::EveryByte => every_byte(&small_or_example(prng, number)),
        Corpus::RandomDamage => one(random_damage(prng, number)),
        Corpus::ExtraBytes => one(extra_bytes(prng, number)),
        Corpus::CountsChanged => one(counts_changed(prng)),
        Corpus::CompetingEvents => one(competing_events(prng)),
        Corpus::CompetingLinks => one(competing_links(prng)),
        Corpus::ShortLists => one(short_list(prng)),
        Corpus::Soup => one(soup(prng)),
        Corpus::Limits => some_limits(number),
        Corpus::OtherKind => one(other_kind(prng)),
    }
}

fn one(case: Case) -> Vec<Case> {
    vec![case]
}
