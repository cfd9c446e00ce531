//! What the inputs reached, to show that they go deep, and what the default
//! run has to reach.

mod ends;
mod lines;
mod self_links;
mod start_values;
mod times;

use crate::engine::RUNNING;
use crate::format::{event_at, Link, Timed};
use crate::sizes::{RecordingKind, KINDS, ROOM};
use crate::state::{broken_clauses, Clause, State, BY_DEADLINE, MOST_POSITIONS};
use crate::subject::{Answer, OneAnswer};
use crate::writing::{begun_events, Handover, Written};
use ends::Ends;
use lines::Lines;
use self_links::SelfLinks;
use start_values::StartValues;
use times::Times;

/// So often each line must be met on either side, and the last task and link.
const OFTEN: usize = 20;

/// So many states a published check went through, of the two-task low-to-high
/// scheme (paper 000, figure 14). That is another protocol: the number says
/// what counts as many, and compares nothing else.
const PUBLISHED_STATES: usize = 99_529;

/// How often each number from 0 to 24 was given.
pub type Refusals = [usize; 25];

/// Which of them can be given where. Extra bytes (17) can't be handed over.
const OF_RECORDINGS: [usize; 20] = [0, 1, 2, 3, 4, 5, 6, 7, 8, 9, 10, 11, 12, 13, 14, 15, 16, 17, 18, 20];
const OF_ONE_EVENT: [usize; 10] = [0, 12, 13, 14, 15, 16, 19, 21, 22, 23];
const OF_TABLES: [usize; 11] = [0, 2, 3, 4, 5, 6, 7, 8, 9, 20, 24];
const OF_WRITING: [usize; 19] = [0, 1, 2, 3, 4, 5, 6, 7, 8, 9, 10, 11, 12, 13, 14, 15, 16, 18, 20];
/// In dated recordings, and in writing them, these besides.
const OF_DATED: [usize; 4] = [21, 22, 23, 24];
/// And of recordings of no kind: there is no byte at all, or another one.
const OF_NO_KIND: [usize; 2] = [1, 2];
const OF_NO_KIND_WRITTEN: [usize; 1] = [2];

/// How often each was given, by kind of recording.
#[derive(Default)]
pub struct ByKind {
    of_kinds: [Refusals; KINDS.len()],
    of_none: Refusals,
}

impl ByKind {
    pub fn note(&mut self, number: Option<u32>, refusal: u8) {
        let kind = KINDS.iter().position(|kind| Some(kind.number()) == number);
        let refusals = kind.map_or(&mut self.of_none, |kind| &mut self.of_kinds[kind]);
        refusals[usize::from(refusal)] += 1;
    }

    /// Each with the name of its kind and what can be given there.
    fn each<'a>(
        &'a self,
        given: &'a [usize],
        of_none: &'a [usize],
    ) -> impl Iterator<Item = (String, &'a Refusals, Vec<usize>)> {
        let of_kind = move |kind: &RecordingKind| {
            let besides: &[usize] = if kind.dated { &OF_DATED } else { &[] };
            (kind.first_byte.to_string(), [given, besides].concat())
        };
        let of_kinds = KINDS.iter().zip(&self.of_kinds).map(move |(kind, refusals)| {
            let (name, given) = of_kind(kind);
            (name, refusals, given)
        });
        of_kinds.chain([("no kind".to_string(), &self.of_none, of_none.to_vec())])
    }
}

#[derive(Default)]
pub struct Reach {
    start_values: StartValues,
    self_links: SelfLinks,
    ends: Ends,
    times: Times,
    most_active: usize,
    most_running: usize,
    highest_position: u8,
}

impl Reach {
    /// The tasks and links of a possible recording or of a sound state.
    pub fn note_table(&mut self, tasks: usize, links: &[Link]) {
        self.self_links.note_table(tasks, links);
    }

    /// An accepted event, with the states before and after it.
    pub fn note_event(&mut self, before: &State, timed: Timed, after: &State) {
        self.start_values.note(before, timed.event, after);
        self.self_links.note(before, timed.event, after);
        self.ends.note(before, timed.event);
        self.times.note(before, timed, after);
    }

    /// An event that was refused for what it is, with the state as it was.
    fn note_refused(&mut self, state: &State, timed: Timed, refusal: u8) {
        if refusal == 12 {
            self.ends.note_refused(state, timed.event);
        }
        self.times.note_refused(state, timed, refusal);
    }

    /// What became of start values, of self links, of the last task and link and
    /// of ticks, each with its name and with how often it must come up.
    fn counts(&self) -> impl Iterator<Item = (&'static str, usize, usize)> {
        let wanted = |wanted: usize| move |(what, count)| (what, count, wanted);
        let anywhere = self.start_values.counts().into_iter().chain(self.self_links.counts());
        let at_lines = self.ends.counts().into_iter().chain(self.times.counts());
        anywhere.map(wanted(100)).chain(at_lines.map(wanted(OFTEN)))
    }

    fn note_state(&mut self, state: &State) {
        let tasks = usize::from(state.tasks).min(ROOM.tasks);
        let active = (0..tasks).filter(|task| state.active(*task)).count();
        let running = state.phase[..tasks].iter().filter(|phase| **phase == RUNNING).count();
        self.most_active = self.most_active.max(active);
        self.most_running = self.most_running.max(running);
        self.highest_position = state.newest[..tasks].iter().copied().fold(self.highest_position, u8::max);
    }

    fn depth(&self) -> String {
        format!(
            "  most tasks active at once {}, running at once {}, highest position {}",
            self.most_active, self.most_running, self.highest_position
        )
    }
}

/// All that a run reached.
#[derive(Default)]
pub struct Reached {
    pub recordings: Reach,
    pub events: Reach,
    pub read: ByKind,
    pub one_event: Refusals,
    pub tables: Refusals,
    pub written: ByKind,
    lines: Lines,
    longest: usize,
    /// Handovers for the smaller kind refused with 12 that have a set for which
    /// two bytes have no room.
    wide_sets: usize,
    /// Accepted recordings that were written again.
    pub written_again: usize,
    /// Refused ones whose numbers were refused alike.
    pub refused_alike: usize,
    /// Sound states refused by a call for the other policy: by one without a tick,
    /// and by one with a tick.
    without_tick: usize,
    with_tick: usize,
    /// Of every sequence of events.
    pub states: usize,
}

impl Reached {
    /// A whole recording.
    pub fn note_recording(&mut self, bytes: &[u8], answer: &Answer) {
        self.read.note(bytes.first().map(|first| u32::from(*first)), answer.refusal);
        self.longest = self.longest.max(bytes.len());
        self.lines.note(bytes, answer);
        self.recordings.note_state(&answer.state);
        match (answer.refusal, event_at(bytes, answer.place)) {
            (5, _) => self.recordings.self_links.note_recording_refused(bytes, answer.place),
            (12..=16 | 21..=23, Some(timed)) => self.recordings.note_refused(&answer.state, timed, answer.refusal),
            _ => {}
        }
    }

    /// One event given to a saved state.
    pub fn note_one(&mut self, state: &State, timed: Timed, answer: &OneAnswer) {
        self.one_event[usize::from(answer.refusal)] += 1;
        if answer.refusal == 19 {
            return self.note_state_refused(state);
        }
        let reach = &mut self.events;
        reach.note_state(state);
        reach.note_table(usize::from(state.tasks), &state.link_list());
        match answer.refusal {
            0 => reach.note_event(state, timed, &answer.state),
            refusal => reach.note_refused(state, timed, refusal),
        }
    }

    fn note_state_refused(&mut self, state: &State) {
        match broken_clauses(state)[..] {
            [] if state.policy == BY_DEADLINE => self.without_tick += 1,
            [] => self.with_tick += 1,
            [Clause::DirectToItself] => self.events.self_links.note_state_refused(state),
            _ => {}
        }
    }

    /// What was handed over to be written.
    pub fn note_writing(&mut self, handover: &Handover, written: Written) {
        self.written.note(Some(handover.kind), written.refusal);
        let wide = |record: &&[u32]| matches!(**record, [1, 0x1_0000..=u32::MAX]);
        if handover.kind == RecordingKind::SIXTEEN.number() && written.refusal == 12 {
            let begun = begun_events(RecordingKind::SIXTEEN, &handover.events);
            self.wide_sets += usize::from(begun.iter().any(wide));
        }
    }

    pub fn print(&self) {
        for (kind, refusals, given) in self.read.each(&OF_RECORDINGS, &OF_NO_KIND) {
            print_refusals(&format!("refusals in recordings of {}:", kind), refusals, &given);
        }
        println!("{}, longest {} bytes", self.recordings.depth(), self.longest);
        print_refusals("refusals of one event:", &self.one_event, &OF_ONE_EVENT);
        println!("{}", self.events.depth());
        println!("  of the other policy, without a tick {}, with a tick {}", self.without_tick, self.with_tick);
        print_refusals("refusals of tables:", &self.tables, &OF_TABLES);
        for (kind, refusals, given) in self.written.each(&OF_WRITING, &OF_NO_KIND_WRITTEN) {
            print_refusals(&format!("refusals of writing {}:", kind), refusals, &given);
        }
        println!(
            "  recordings written again {}, refused alike {}, wide sets {}",
            self.written_again, self.refused_alike, self.wide_sets
        );
        self.lines.print();
        println!("in possible recordings, and of one event:");
        let both = self.recordings.counts().zip(self.events.counts());
        both.for_each(|((what, recordings, _), (_, events, _))| {
            println!("  {:<60} {:>8} {:>8}", what, recordings, events);
        });
    }

    /// What the default run must reach and this one did not.
    pub fn missing(&self) -> Vec<String> {
        let mut missing = Vec::new();
        for (kind, refusals, given) in self.read.each(&OF_RECORDINGS, &OF_NO_KIND) {
            never_given(&mut missing, &format!("in recordings of {}", kind), refusals, &given);
        }
        never_given(&mut missing, "of one event", &self.one_event, &OF_ONE_EVENT);
        never_given(&mut missing, "of tables", &self.tables, &OF_TABLES);
        for (kind, refusals, given) in self.written.each(&OF_WRITING, &OF_NO_KIND_WRITTEN) {
            never_given(&mut missing, &format!("of writing {}", kind), refusals, &given);
        }
        at_least(&mut missing, "recordings written again", self.written_again, 100_000);
        at_least(&mut missing, "recordings refused alike in writing", self.refused_alike, 100_000);
        at_least(&mut missing, "handovers refused with a set past two bytes", self.wide_sets, 100);
        at_least(&mut missing, "sound states refused without a tick", self.without_tick, 100);
        at_least(&mut missing, "sound states refused with a tick", self.with_tick, 100);
        self.lines.missing(&mut missing);
        for (reach, place) in [(&self.recordings, "recordings"), (&self.events, "saved states")] {
            at_least(&mut missing, &format!("tasks running at once in {}", place), reach.most_running, ROOM.tasks);
            let highest = usize::from(reach.highest_position);
            at_least(&mut missing, &format!("positions of a task in {}", place), highest, MOST_POSITIONS);
            for (what, count, wanted) in reach.counts() {
                at_least(&mut missing, &format!("{} in {}", what, place), count, wanted);
            }
        }
        let most_bytes = RecordingKind::DATED.most_bytes();
        at_least(&mut missing, "bytes of a recording", self.longest, most_bytes + 1);
        at_least(&mut missing, "states by every sequence of events", self.states, PUBLISHED_STATES);
        missing
    }
}

fn print_refusals(title: &str, refusals: &Refusals, given: &[usize]) {
    let told: Vec<String> = given.iter().map(|number| format!("{}:{}", number, refusals[*number])).collect();
    println!("{:<35} {}", title, told.join(" "));
}

pub fn never_given(missing: &mut Vec<String>, place: &str, refusals: &[usize], wanted: &[usize]) {
    let never = wanted.iter().filter(|number| refusals[**number] == 0);
    missing.extend(never.map(|number| format!("refusal {} {}", number, place)));
}

pub fn at_least(missing: &mut Vec<String>, what: &str, reached: usize, wanted: usize) {
    if reached < wanted {
        missing.push(format!("{} {}: {}", wanted, what, reached));
    }
}
