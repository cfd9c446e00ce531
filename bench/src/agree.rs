//! All three replays give the same whole answers, or the program ends.
use crate::answer::Replay;
use crate::kind::{Kind, KINDS};
use crate::random::{self, Random};
use crate::rows::Row;
use crate::{fail, NAMES, REPLAYS};
use parnusild::{Answer, EVENTS};

/// So many random recordings of each kind.
const RECORDINGS: usize = 6_000;
/// A replay refuses with 1 to 18 or 20 to 24, and 0 is none.
const REFUSALS: usize = 25;
/// From here on only that of a dated recording.
const OF_DATED: usize = 21;
/// The refusal of single events alone.
const UNSOUND: usize = 19;
/// What the list holds before a replay.
const UNTOUCHED: u32 = 0xa5a5_a5a5;

/// The answer, and the whole list with what is past the numbers read.
fn whole(replay: Replay, bytes: &[u8], room: usize) -> (Answer, Vec<u32>) {
    let mut numbers = vec![UNTOUCHED; room];
    let answer = replay(bytes, &mut numbers);
    (answer, numbers)
}

/// The refusal that all three give.
fn agreed(what: &str, bytes: &[u8], room: usize) -> usize {
    let (ours, our_list) = whole(REPLAYS[0], bytes, room);
    for (replay, name) in REPLAYS.into_iter().zip(NAMES).skip(1) {
        let (theirs, their_list) = whole(replay, bytes, room);
        let same_list = our_list == their_list;
        if ours != theirs || !same_list {
            eprintln!("{}: {:?}\n{}: {:?}", NAMES[0], ours, name, theirs);
            eprintln!("the same list: {}\nthe recording: {:?}", same_list, bytes);
            fail(format!("{}, room {}: the answers differ", what, room));
        }
    }
    ours.refusal as usize
}

/// The timed recordings must be accepted.
fn check_timed(rows: &[Row]) {
    for row in rows {
        let refusal = agreed(&row.name, &row.bytes, EVENTS);
        if refusal != 0 {
            fail(format!("{}: refused with {}", row.name, refusal));
        }
    }
}

/// Among the random recordings of a kind each refusal of a replay must occur. How many of them earned each.
fn check_random(kind: Kind) -> [usize; REFUSALS] {
    let mut random = Random(1);
    let mut earned = [0; REFUSALS];
    for i in 0..RECORDINGS {
        let bytes = random::recording(&mut random, kind);
        let room = if random.one_in(8) { random.below(40) } else { EVENTS };
        earned[agreed(&format!("random recording {} of kind {}", i, kind.first), &bytes, room)] += 1;
    }
    let given = if kind.dated { 0..REFUSALS } else { 0..OF_DATED };
    if let Some(n) = given.into_iter().find(|&n| n != UNSOUND && earned[n] == 0) {
        fail(format!("no random recording of kind {} was refused with {}", kind.first, n));
    }
    earned
}

/// Compares the answers to the timed recordings and to random ones. How many random ones of each kind earned each refusal.
pub fn check(rows: &[Row]) -> [[usize; REFUSALS]; KINDS.len()] {
    check_timed(rows);
    let earned = KINDS.map(check_random);
    println!(
        "bench: same answers (refusal, place, state, counts, list): {} timed recordings, {} random ones of each kind",
        rows.len(),
        RECORDINGS
    );
    earned
}
