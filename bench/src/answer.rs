//! What the replays of this bench share: the numbers that a state and a recording are made of, and the answer that a replay begins with.
use parnusild::{Answer, Control, State, Times, Values, CELLS, FIXED, LINKS, TASKS};

pub const IDLE: u8 = 0;
pub const WAITING: u8 = 1;
pub const RUNNING: u8 = 2;

pub const DIRECT: u8 = 0;
pub const DELAYED: u8 = 1;

/// A replay: of the recording, into the lent list of numbers. The answer comes back by value, with the state inside.
pub type Replay = fn(&[u8], &mut [u32]) -> Answer;

/// Nothing read yet: the fresh state of a single task with default 0 and no links, of fixed priorities.
pub fn nothing_yet() -> Answer {
    let state = State {
        tasks: 1,
        links: 0,
        control: Control {
            phase: [IDLE; TASKS],
            newest: [1; TASKS],
            previous: [1; TASKS],
            seen: [0; TASKS],
            pointer: [0; LINKS],
            mark: [0; LINKS],
            writer: [0; LINKS],
            reader: [0; LINKS],
            kind: [0; LINKS],
        },
        values: Values { defaults: [0; TASKS], start_value: [0; LINKS], cells: [0; CELLS] },
        times: Times { deadline: [0; TASKS], since: [0; TASKS], last: 0, policy: FIXED },
    };
    Answer { refusal: 0, place: 0, state, arrivals: 0, starts: 0, reads: 0, finishes: 0 }
}
