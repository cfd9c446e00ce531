//! Saved states with a self link spoiled.

use crate::format::{DELAYED, DIRECT};
use crate::prng::Prng;
use crate::state::{State, ABSENT, SEEN_TWO};

/// A self link, or where there is none another link made into one: no longer
/// delayed; without its pointer; after two arrivals its pointer at any position,
/// with a value that stands only there; its pointer one past them; its mark; or
/// one more made into one, which may be the task's second. Some of these stay
/// sound.
pub fn self_link_changed(prng: &mut Prng, sound: &State) -> State {
    let mut state = *sound;
    let any = prng.below(usize::from(sound.links).max(1));
    let link = some_self_link(prng, sound).unwrap_or_else(|| {
        turn_to_itself(&mut state, any);
        any
    });
    let task = usize::from(state.writer[link]);
    let positions = state.positions(task);
    match prng.below(6) {
        0 => {
            state.kind[link] = DIRECT;
            state.start_value[link] = prng.pick(&[0, state.start_value[link]]);
        }
        1 => {
            state.pointer[link] = ABSENT;
            state.mark[link] = prng.pick(&[0, 0, 1]);
        }
        2 => {
            state.seen[task] = SEEN_TWO;
            state.pointer[link] = prng.between(1, positions) as u8;
            state.mark[link] = 0;
            state.cells[state.cell(task, state.pointer[link])] = prng.word();
        }
        3 => state.pointer[link] = positions as u8 + 1,
        4 => state.mark[link] = prng.pick(&[0, 1, 2, 255]),
        _ => turn_to_itself(&mut state, any),
    }
    state
}

/// A self link of the state, if it has any; half the time that of the most
/// urgent active task, which may read next.
fn some_self_link(prng: &mut Prng, state: &State) -> Option<usize> {
    let links: Vec<usize> = state.self_links_of(u32::MAX).collect();
    match state.top().and_then(|top| state.self_links_of(1 << top).next()) {
        Some(link) if prng.chance(50) => Some(link),
        _ if links.is_empty() => None,
        _ => Some(prng.pick(&links)),
    }
}

/// Makes a link delayed and its reader its writer.
fn turn_to_itself(state: &mut State, link: usize) {
    state.reader[link] = state.writer[link];
    state.kind[link] = DELAYED;
}
