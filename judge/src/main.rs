//! The proved library as the subject of the judge: every answer is compared
//! with the oracle's, which was written from documents 01 and 02 alone.

use oracle::command;
use oracle::format::{Counts, Event, Timed};
use oracle::state::State;
use oracle::subject::{Answer, Made, OneAnswer, Subject};
use oracle::tables::LentTable;
use oracle::writing::{Handover, Written};

struct Proved;

/// The oracle keeps counts in fewer bits than the library. One that doesn't fit
/// is a wrong answer, and must not pass as what is left of it.
fn narrow<T: TryFrom<usize>>(count: usize) -> T {
    T::try_from(count).unwrap_or_else(|_| panic!("the library answers with a count of {}", count))
}

/// A state as the library's, and back.
fn lent(state: &State) -> parnusild::State {
    parnusild::State {
        tasks: usize::from(state.tasks),
        links: usize::from(state.links),
        control: parnusild::Control {
            phase: state.phase,
            newest: state.newest,
            previous: state.previous,
            seen: state.seen,
            pointer: state.pointer,
            mark: state.mark,
            writer: state.writer,
            reader: state.reader,
            kind: state.kind,
        },
        values: parnusild::Values { defaults: state.defaults, start_value: state.start_value, cells: state.cells },
        times: parnusild::Times {
            deadline: state.deadline,
            since: state.since,
            last: state.last,
            policy: state.policy,
        },
    }
}

fn handed_back(state: &parnusild::State) -> State {
    let (control, values, times) = (&state.control, &state.values, &state.times);
    State {
        tasks: narrow(state.tasks),
        links: narrow(state.links),
        defaults: values.defaults,
        phase: control.phase,
        newest: control.newest,
        previous: control.previous,
        seen: control.seen,
        cells: values.cells,
        writer: control.writer,
        reader: control.reader,
        kind: control.kind,
        start_value: values.start_value,
        pointer: control.pointer,
        mark: control.mark,
        deadline: times.deadline,
        since: times.since,
        last: times.last,
        policy: times.policy,
    }
}

fn asked(table: &LentTable) -> parnusild::Table {
    parnusild::Table {
        tasks: table.tasks,
        links: table.links,
        defaults: table.defaults,
        writer: table.writer,
        reader: table.reader,
        kind: table.kind,
        start_value: table.start_value,
    }
}

impl Subject for Proved {
    fn name(&self) -> String {
        "the proved library".to_string()
    }

    fn sizes(&self) -> [usize; 5] {
        parnusild::sizes()
    }

    fn replay<'a>(&self, bytes: &'a [u8], list: &[u32]) -> Answer<'a> {
        let mut list = list.to_vec();
        let answer = parnusild::replay(bytes, &mut list);
        Answer {
            refusal: answer.refusal,
            place: answer.place,
            counts: Counts {
                arrivals: narrow(answer.arrivals),
                starts: narrow(answer.starts),
                reads: narrow(answer.reads),
                finishes: narrow(answer.finishes),
            },
            state: handed_back(&answer.state),
            rest: parnusild::rest(bytes, &answer),
            list,
        }
    }

    fn fresh(&self, table: &LentTable) -> Made {
        let made = match &table.deadlines {
            Some(deadlines) => parnusild::State::fresh_dated(&asked(table), deadlines),
            None => parnusild::State::fresh(&asked(table)),
        };
        Made { refusal: made.refusal, state: handed_back(&made.state) }
    }

    fn one_event(&self, state: &State, timed: Timed) -> OneAnswer {
        let (kind, which, value) = match timed.event {
            Event::Arrival(set) => (1, set, 0),
            Event::Start(task) => (2, u32::from(task), 0),
            Event::Read(link) => (3, u32::from(link), 0),
            Event::Finish(task, value) => (4, u32::from(task), value),
        };
        let mut after = lent(state);
        let (refusal, value) = match timed.tick {
            Some(tick) => after.call_at(tick, kind, which, value),
            None => after.call(kind, which, value),
        };
        OneAnswer { refusal, value, state: handed_back(&after) }
    }

    fn write(&self, handover: &Handover, buffer: &mut [u8]) -> Written {
        let Handover { kind, tasks, links, events } = handover;
        let written = parnusild::write(*kind, tasks, links, events, buffer);
        Written { refusal: written.refusal, place: written.place }
    }
}

fn main() {
    std::process::exit(command::judge(&Proved));
}
