//! The errors that look right, in a writer of recordings. Each is a writer
//! whose answers the handovers must tell from the right ones.

use oracle::handovers::{batch, every_short, limits, Lent};
use oracle::prng::Prng;
use oracle::subject::{Oracle, Subject};
use oracle::writing::Written;
use oracle::wrong::{in_handovers, Flaw, Wrong};

fn handovers() -> Vec<Lent> {
    let mut prng = Prng::new(1);
    let drawn = (0..1_200).flat_map(|number| batch(number, &mut prng));
    limits().into_iter().chain(every_short()).chain(drawn).collect()
}

fn given(subject: &dyn Subject, lent: &Lent) -> (Written, Vec<u8>) {
    let mut buffer = vec![0xA5; lent.room];
    (subject.write(&lent.handover, &mut buffer), buffer)
}

/// The first handover that a writer with the flaw answers wrongly.
fn exposed_by(flaw: Flaw, handovers: &[Lent]) -> Option<usize> {
    handovers.iter().position(|lent| given(&Wrong { flaw }, lent) != given(&Oracle, lent))
}

#[test]
fn the_handovers_expose_each_of_them() {
    let handovers = handovers();
    let hidden: Vec<Flaw> = in_handovers().into_iter().filter(|flaw| exposed_by(*flaw, &handovers).is_none()).collect();
    assert!(hidden.is_empty(), "{:?}", hidden);
}

/// A flaw that is none of a writer's leaves a right one.
#[test]
fn without_a_flaw_nothing_is_exposed() {
    assert_eq!(exposed_by(Flaw::HighestFree, &handovers()), None);
}

#[test]
fn every_refusal_is_reached_but_extra_bytes() {
    let mut given_refusals = [0; 25];
    handovers().iter().for_each(|lent| given_refusals[usize::from(given(&Oracle, lent).0.refusal)] += 1);
    let never: Vec<usize> = (0..25).filter(|refusal| given_refusals[*refusal] == 0).collect();
    // 19 is about a lent state, which writing has none of.
    assert_eq!(never, [17, 19]);
}
