//! A reader of recordings with a flaw: the right answer, bent.

use super::Flaw;
use crate::engine::{Engine, IDLE, RUNNING};
use crate::format::{event_at, place_of_link_count, Event, Fault, Rules, Table, Walker, LINK_BYTES};
use crate::pointers as right;
use crate::sizes::RecordingKind;
use crate::state::{State, BY_DEADLINE};
use crate::subject::{Answer, Oracle, Subject};

/// The answer of a reader that takes a recording of no kind as one from before
/// there were kinds.
pub fn without_first_byte<'a>(flaw: Flaw, bytes: &'a [u8], lent: &[u32]) -> Option<Answer<'a>> {
    let first = bytes.first()?;
    if flaw != Flaw::FirstByteOptional || RecordingKind::of_number(u32::from(*first)).is_some() {
        return None;
    }
    let taken = [&[RecordingKind::SIXTEEN.first_byte], bytes].concat();
    let Answer { refusal, place, counts, state, list, .. } = Oracle.replay(&taken, lent);
    let place = place.saturating_sub(1);
    let rest = if refusal == 0 { &[] } else { &bytes[place..] };
    Some(Answer { refusal, place, counts, state, list, rest })
}

/// The right answer bent the way a wrong reader would give it.
pub fn distorted<'a>(flaw: Flaw, bytes: &'a [u8], mut answer: Answer<'a>) -> Answer<'a> {
    let refusal = answer.refusal;
    let place = answer.place;
    let part = || part_of(bytes, place);
    match flaw {
        Flaw::RefusedEffectKept if (12..=16).contains(&refusal) => keep_effect(bytes, &mut answer),
        Flaw::LastByRefused if matches!(refusal, 12..=16 | 18 | 21..=23) => {
            let tick = event_at(bytes, place).and_then(|timed| timed.tick);
            answer.state.last = tick.unwrap_or(0);
        }
        Flaw::EarlyPolicyKept if bytes.first() == Some(&255) && part() != Part::Events => {
            answer.state.policy = BY_DEADLINE;
        }
        Flaw::DeadlineInItsField if refusal == 24 => (0..4).for_each(|_| shift_place(&mut answer)),
        Flaw::NoDeadlineTwo if refusal == 24 => answer.refusal = 2,
        Flaw::TwentyFourAfterThree | Flaw::TwentyFourAfterLinks if refusal == 24 => {
            if let Some(fault) = found_before_24(flaw, bytes) {
                answer.refusal = fault.refusal;
                answer.place = fault.place;
                answer.rest = &bytes[fault.place..];
            }
        }
        Flaw::EighteenBeforeFifteen if (15..=16).contains(&refusal) => room_first(bytes, &mut answer),
        Flaw::PlaceInsideEvent if refusal != 0 && refusal != 17 && part() == Part::Events => shift_place(&mut answer),
        Flaw::PlaceInsideLink if matches!(refusal, 5..=9 | 20) => shift_place(&mut answer),
        Flaw::FirstByteAtOne if refusal == 2 && place == 0 => shift_place(&mut answer),
        Flaw::TaskCountAtZero if place == 1 => {
            answer.place = 0;
            answer.rest = bytes;
        }
        Flaw::PlaceInsideCount if refusal == 10 => shift_place(&mut answer),
        Flaw::PlacePastExtra if refusal == 17 => shift_place(&mut answer),
        Flaw::SeventeenNotGiven if refusal == 17 => {
            answer.refusal = 0;
            answer.place = bytes.len();
            answer.rest = &[];
        }
        Flaw::ArrivalEventsCounted => answer.counts.arrivals = arrivals(bytes, answer.place, |_| 1),
        Flaw::WideArrivalsNotCounted => {
            answer.counts.arrivals = arrivals(bytes, answer.place, |set| (set & 0xFFFF).count_ones());
        }
        Flaw::RestBeforeKind if refusal == 11 && answer.rest.len() < 2 => answer.refusal = 1,
        Flaw::ListCleared => {
            let reads = answer.counts.reads as usize;
            answer.list[reads..].fill(0);
        }
        Flaw::EarlyTableKept if matches!(refusal, 1 | 10) && part() == Part::EventCount => {
            answer.state = State::fresh(&table_before(bytes));
        }
        Flaw::RestFromTheLeft => answer.rest = &bytes[..answer.rest.len()],
        _ => {}
    }
    answer
}

#[derive(PartialEq, Eq)]
enum Part {
    Earlier,
    EventCount,
    Events,
}

fn part_of(bytes: &[u8], place: usize) -> Part {
    let mut walker = Walker::new(bytes);
    let whole = walker.head().is_ok();
    match whole {
        true if walker.place() <= place => Part::Events,
        false if walker.place() == place && place >= 7 && event_count_reached(bytes, place) => Part::EventCount,
        _ => Part::Earlier,
    }
}

/// Whether a recording whose head is refused there got as far as E: its bytes
/// before the place and an E of 0 make a whole recording.
fn event_count_reached(bytes: &[u8], place: usize) -> bool {
    let mut whole = bytes[..place].to_vec();
    whole.extend_from_slice(&[0, 0]);
    Oracle.replay(&whole, &[]).refusal == 0
}

/// What a reader finds that asks for relative deadlines only after L, or only
/// after the links; nothing where all is well up to there.
fn found_before_24(flaw: Flaw, bytes: &[u8]) -> Option<Fault> {
    let not_asking = Rules { deadline: |_| 0, ..Rules::RIGHT };
    let fault = Walker::by(not_asking, bytes).head().err()?;
    let links_at = place_of_link_count(RecordingKind::DATED, usize::from(bytes[1]));
    let links = bytes.get(links_at).map_or(0, |links| LINK_BYTES * usize::from(*links));
    let asked_at = if flaw == Flaw::TwentyFourAfterThree { links_at + 1 } else { links_at + 1 + links };
    Some(fault).filter(|fault| fault.place < asked_at)
}

fn table_before(bytes: &[u8]) -> Table {
    let kind = RecordingKind::of_number(u32::from(bytes[0])).expect("it got as far as E");
    let links_at = place_of_link_count(kind, usize::from(bytes[1]));
    let links = usize::from(bytes[links_at]);
    let mut whole = bytes[..links_at + 1 + LINK_BYTES * links].to_vec();
    whole.extend_from_slice(&[0, 0]);
    Walker::new(&whole).head().map(|head| head.table).unwrap_or_default()
}

fn shift_place(answer: &mut Answer) {
    if let Some(rest) = answer.rest.get(1..) {
        answer.place += 1;
        answer.rest = rest;
    }
}

fn keep_effect(bytes: &[u8], answer: &mut Answer) {
    let state = &mut answer.state;
    match event_at(bytes, answer.place).map(|timed| timed.event) {
        Some(Event::Arrival(set)) => {
            // As an arrival that moves each task before it meets the fault.
            let fine =
                right::tasks_of(set, state).filter(|task| !state.active(*task)).fold(0, |set, task| set | 1 << task);
            let mut engine = right::Pointers { state: *state };
            engine.apply(Event::Arrival(fine).into());
            *state = engine.state;
        }
        Some(Event::Start(task)) if task < state.tasks => state.phase[usize::from(task)] = RUNNING,
        Some(Event::Finish(task, _)) if task < state.tasks => state.phase[usize::from(task)] = IDLE,
        _ => {}
    }
}

fn room_first(bytes: &[u8], answer: &mut Answer) {
    if bytes[answer.place] == 3 && answer.counts.reads as usize == answer.list.len() {
        answer.refusal = 18;
    }
}

/// The arrivals before the place, counted by a wrong count of each set.
fn arrivals(bytes: &[u8], place: usize, count: fn(u32) -> u32) -> u32 {
    let mut walker = Walker::new(bytes);
    let mut arrivals = 0;
    let kind = match walker.head() {
        Ok(head) => head.kind,
        Err(_) => return 0,
    };
    while walker.place() < place {
        match walker.look_at_event(kind) {
            Ok((timed, length)) => {
                if let Event::Arrival(set) = timed.event {
                    arrivals += count(set);
                }
                walker.pass(length);
            }
            Err(_) => break,
        }
    }
    arrivals
}
