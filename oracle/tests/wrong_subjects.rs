//! The errors that look right, in an engine, a reader of recordings, a judge of
//! tables or of saved states. Each is a subject whose answers the corpora must
//! tell from the right ones.

use oracle::corpus::{batch, Case, Corpus};
use oracle::format::Timed;
use oracle::prng::Prng;
use oracle::saved::{event_for, from_history, spoiled};
use oracle::state::State;
use oracle::subject::{Oracle, Subject};
use oracle::tables::LentTable;
use oracle::wrong::{in_recordings, in_saved_states, in_tables, Flaw, Wrong};

/// The flaws that no input exposes.
fn hidden<T>(flaws: Vec<Flaw>, inputs: &[T], exposes: impl Fn(&Wrong, &T) -> bool) -> Vec<Flaw> {
    let shown = |flaw: Flaw| inputs.iter().any(|input| exposes(&Wrong { flaw }, input));
    flaws.into_iter().filter(|flaw| !shown(*flaw)).collect()
}

/// Corpora that are enough to expose each, without long recordings and whole families.
fn recordings() -> Vec<Case> {
    let corpora = [
        Corpus::ValidShort,
        Corpus::CountsChanged,
        Corpus::CompetingLinks,
        Corpus::CompetingEvents,
        Corpus::ExtraBytes,
        Corpus::ShortLists,
        Corpus::Soup,
    ];
    let mut prng = Prng::new(1);
    corpora.iter().flat_map(|corpus| drawn(3_000, |number| batch(*corpus, number, &mut prng))).collect()
}

fn drawn<T>(batches: usize, batch: impl FnMut(usize) -> Vec<T>) -> Vec<T> {
    (0..batches).flat_map(batch).collect()
}

fn saved_states() -> Vec<(State, Timed)> {
    let mut prng = Prng::new(1);
    drawn(600, |_| {
        let saved = from_history(&mut prng);
        let mut states = spoiled(&mut prng, &saved.state);
        states.push(saved.state);
        states.into_iter().map(|state| (state, event_for(&mut prng, &state, &saved))).collect()
    })
}

fn tables() -> Vec<LentTable> {
    let mut prng = Prng::new(1);
    drawn(4_000, |number| oracle::tables::batch(number, &mut prng))
}

fn replays_apart(wrong: &Wrong, case: &Case) -> bool {
    let lent = vec![0xA5; case.room];
    wrong.replay(&case.bytes, &lent) != Oracle.replay(&case.bytes, &lent)
}

fn makes_apart(wrong: &Wrong, table: &LentTable) -> bool {
    wrong.fresh(table) != Oracle.fresh(table)
}

fn answers_apart(wrong: &Wrong, (state, event): &(State, Timed)) -> bool {
    wrong.one_event(state, *event) != Oracle.one_event(state, *event)
}

#[test]
fn the_recordings_expose_each_of_them() {
    assert_eq!(hidden(in_recordings(), &recordings(), replays_apart), []);
}

#[test]
fn the_tables_expose_each_of_them() {
    assert_eq!(hidden(in_tables(), &tables(), makes_apart), []);
}

#[test]
fn the_saved_states_expose_each_of_them() {
    assert_eq!(hidden(in_saved_states(), &saved_states(), answers_apart), []);
}

#[test]
fn other_sizes_of_a_state_show() {
    assert_eq!(Oracle.sizes(), [32, 96, 608, 448, 66]);
    assert_ne!(Wrong { flaw: Flaw::StatesBySmaller }.sizes(), Oracle.sizes());
    assert_eq!(Wrong { flaw: Flaw::BytePastEnd }.sizes(), Oracle.sizes());
}

/// A flaw that is a writer's alone leaves all else right.
#[test]
fn without_a_flaw_nothing_is_exposed() {
    let none = vec![Flaw::BytePastEnd];
    assert_eq!(hidden(none.clone(), &recordings(), replays_apart), none);
    assert_eq!(hidden(none.clone(), &tables(), makes_apart), none);
    assert_eq!(hidden(none.clone(), &saved_states(), answers_apart), none);
}
