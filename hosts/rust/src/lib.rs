//! The proved mailboxes, for hosts in Rust: a saved state in the host's own memory, one event given to it, the replay of a whole
//! recording, and a recording written. Each call lends the state's parts to the proved core, which works on them in place.
//!
//! Nothing is asked of a state, a table, a recording or what is to be written: whatever they hold, an answer comes back, and a refused
//! event leaves the state as it was lent. Refusals are the numbers of docs/FORMAT.md, explained in docs/REFUSALS.md.
mod calls;

use std::mem::size_of;

/// A state has room for so many tasks.
pub const TASKS: usize = 32;
/// And so many links.
pub const LINKS: usize = 96;
/// A recording has at most so many events.
pub const EVENTS: usize = 10_000;
/// A dated one at most so many.
pub const DATED_EVENTS: usize = 6_000;
/// A task has N + 2 positions, N at most 8.
pub const POSITIONS: usize = 10;
/// The positions of all tasks.
pub const CELLS: usize = TASKS * POSITIONS;
/// So many bytes in a state's control.
pub const CONTROL: usize = 4 * TASKS + 5 * LINKS;
/// So many numbers in a state's values.
pub const VALUES: usize = TASKS + LINKS + CELLS;
/// So many numbers in a state's times.
pub const TIMES: usize = 2 * TASKS + 2;
/// So many sizes does a library have.
pub const SIZES: usize = 5;
/// No recording has more bytes, and a dated one may have so many: the first one and the three counts, 6 for each task, 7 for each link, and 10 for
/// each event, a finish.
pub const RECORDING: usize = 5 + 6 * TASKS + 7 * LINKS + 10 * DATED_EVENTS;
/// The last tick there is; a later one is refusal 22.
pub const MOST_TICK: u32 = 4_000_000_000;

/// The kind of recording that has at most 16 tasks and 32 links, by its first byte; the set of an arrival has 2 bytes.
pub const BASE_KIND: u32 = 253;
/// The one that has at most 32 tasks and 96 links; the set of an arrival has 4 bytes.
pub const WIDE_KIND: u32 = 254;
/// The one that is as that, with a relative deadline for each task and a tick for each event, and has at most 6,000 events. Any other first byte is
/// refusal 2, at place 0.
pub const DATED_KIND: u32 = 255;

/// The policy of fixed priorities: of the active tasks the earliest in the table may run.
pub const FIXED: u32 = 0;
/// That by deadlines: the one whose arrival tick and relative deadline make the least, and of several the one that is ahead.
pub const BY_DEADLINE: u32 = 1;

/// A table. Tasks are numbered from 0. One is ahead of another if it is earlier in the table, or, where they have relative deadlines, if its own is
/// smaller, and earlier in the table where they are alike. Slots past the counts are not looked at.
#[derive(Clone, Debug, PartialEq, Eq)]
pub struct Table {
    pub tasks: usize,
    pub links: usize,
    pub defaults: [u32; TASKS],
    pub writer: [u8; LINKS],
    pub reader: [u8; LINKS],
    /// 0 direct, 1 delayed; from a task to itself always 1
    pub kind: [u8; LINKS],
    /// what a delayed link reads at first; 0 for a direct one
    pub start_value: [u32; LINKS],
}

/// The bytes of a state, by task and then by link, in the library's own order.
#[derive(Clone, Debug, PartialEq, Eq)]
#[repr(C)]
pub struct Control {
    /// 0 idle, 1 waiting, 2 running
    pub phase: [u8; TASKS],
    pub newest: [u8; TASKS],
    pub previous: [u8; TASKS],
    /// 0 no arrival yet, 1 one, 2 more
    pub seen: [u8; TASKS],
    /// 0: absent
    pub pointer: [u8; LINKS],
    /// 1: the reader's last arrival settled on the start value; 0: none
    pub mark: [u8; LINKS],
    pub writer: [u8; LINKS],
    pub reader: [u8; LINKS],
    /// 0 direct, 1 delayed
    pub kind: [u8; LINKS],
}

/// The numbers of a state, in the library's own order.
#[derive(Clone, Debug, PartialEq, Eq)]
#[repr(C)]
pub struct Values {
    pub defaults: [u32; TASKS],
    pub start_value: [u32; LINKS],
    /// position p of task t at t * 10 + p - 1
    pub cells: [u32; CELLS],
}

/// The times of a state, in the library's own order. With fixed priorities all of them are 0, the policy too.
#[derive(Clone, Debug, PartialEq, Eq)]
#[repr(C)]
pub struct Times {
    /// each task's relative deadline, from 1 on; at most 65535 in a state that was made here
    pub deadline: [u32; TASKS],
    /// the arrival tick of an active task; 0 for an idle one
    pub since: [u32; TASKS],
    /// the tick of the last accepted event; 0 at first
    pub last: u32,
    /// `FIXED` or `BY_DEADLINE`
    pub policy: u32,
}

// Each struct is lent as one array. With gaps in it, this does not compile.
const _: () = assert!(size_of::<Control>() == CONTROL);
const _: () = assert!(size_of::<Values>() == VALUES * size_of::<u32>());
const _: () = assert!(size_of::<Times>() == TIMES * size_of::<u32>());

/// All that a station has to keep between events. Slots past the counts are never touched by an event.
#[derive(Clone, Debug, PartialEq, Eq)]
pub struct State {
    pub tasks: usize,
    pub links: usize,
    pub control: Control,
    pub values: Values,
    pub times: Times,
}

/// An event: the arrival of a set (bit t is task t), the start of a task, the read by a link, the finish of a task with a value.
#[derive(Clone, Copy, Debug, PartialEq, Eq)]
pub enum Event {
    Arrival(u32),
    Start(u32),
    Read(u32),
    Finish(u32, u32),
}

/// What a table makes: the refusal that it earns, 0 for none, and its fresh state, else that of a single task.
#[derive(Clone, Debug, PartialEq, Eq)]
pub struct Made {
    pub refusal: u8,
    pub state: State,
}

/// The answer to a whole recording: the refusal, 0 for none, its place, the state after the last accepted event, and four counts.
#[derive(Clone, Debug, PartialEq, Eq)]
pub struct Answer {
    pub refusal: u8,
    pub place: usize,
    pub state: State,
    /// task by task: each task of an arrival's set counts one
    pub arrivals: usize,
    pub starts: usize,
    /// so many first entries of the list hold the numbers read
    pub reads: usize,
    pub finishes: usize,
}

/// What became of a recording to be written: the refusal, 0 for none, and its place; on acceptance how many bytes were written.
#[derive(Clone, Copy, Debug, PartialEq, Eq)]
pub struct Written {
    pub refusal: u8,
    pub place: usize,
}

impl Control {
    /// All of it as the library takes it: a pointer to the whole struct, which may be used as one to the array. `repr(C)` puts the fields
    /// one after the other, without gaps, and all are bytes.
    fn lent(&mut self) -> *mut [u8; CONTROL] {
        (self as *mut Control).cast()
    }
}

impl Values {
    /// All of it as the library takes it, likewise: all fields are numbers of 32 bits, and aligned as the array is.
    fn lent(&mut self) -> *mut [u32; VALUES] {
        (self as *mut Values).cast()
    }
}

impl Times {
    /// All of it as the library takes it, likewise.
    fn lent(&mut self) -> *mut [u32; TIMES] {
        (self as *mut Times).cast()
    }
}

/// An event as three numbers: its kind, the set, task or link, and the value of a finish.
fn in_numbers(event: Event) -> (u8, u32, u32) {
    match event {
        Event::Arrival(set) => (1, set, 0),
        Event::Start(task) => (2, task, 0),
        Event::Read(link) => (3, link, 0),
        Event::Finish(task, value) => (4, task, value),
    }
}

/// The number of an event that is not refused.
fn answered((refusal, number): (u8, u32)) -> Result<u32, u8> {
    if refusal == 0 {
        Ok(number)
    } else {
        Err(refusal)
    }
}

impl State {
    /// Room for a state; a call fills it.
    fn room() -> State {
        State {
            tasks: 0,
            links: 0,
            control: Control {
                phase: [0; TASKS],
                newest: [0; TASKS],
                previous: [0; TASKS],
                seen: [0; TASKS],
                pointer: [0; LINKS],
                mark: [0; LINKS],
                writer: [0; LINKS],
                reader: [0; LINKS],
                kind: [0; LINKS],
            },
            values: Values { defaults: [0; TASKS], start_value: [0; LINKS], cells: [0; CELLS] },
            times: Times { deadline: [0; TASKS], since: [0; TASKS], last: 0, policy: 0 },
        }
    }

    /// The fresh state of a table, of fixed priorities, or the refusal that the table earns, 2 to 9 or 20, and the fresh state of a single task.
    pub fn fresh(table: &Table) -> Made {
        let mut state = State::room();
        // SAFETY: each reference is valid, to an array as long as the header says; control, values and times are lent whole, and each struct
        // is the array that its pointer says, in size, alignment and elements. None overlap, since they are to different fields, and the
        // state is this function's own.
        let refusal = unsafe {
            calls::fresh(
                table.tasks,
                table.links,
                &table.defaults,
                &table.writer,
                &table.reader,
                &table.kind,
                &table.start_value,
                &mut state.tasks,
                &mut state.links,
                state.control.lent(),
                state.values.lent(),
                state.times.lent(),
            )
        };
        Made { refusal, state }
    }

    /// The fresh state of a table and its tasks' relative deadlines, by deadlines, or the refusal that the table earns: 2, then 24 a relative
    /// deadline of 0, then 3 to 9 or 20; and the fresh state of a single task, of fixed priorities.
    pub fn fresh_dated(table: &Table, deadlines: &[u16; TASKS]) -> Made {
        let mut state = State::room();
        // SAFETY: as in `fresh`; the relative deadlines are only read.
        let refusal = unsafe {
            calls::fresh_dated(
                table.tasks,
                table.links,
                &table.defaults,
                deadlines,
                &table.writer,
                &table.reader,
                &table.kind,
                &table.start_value,
                &mut state.tasks,
                &mut state.links,
                state.control.lent(),
                state.values.lent(),
                state.times.lent(),
            )
        };
        Made { refusal, state }
    }

    /// One event given to a state of fixed priorities: the number of an accepted read, 0 for another accepted event, or the refusal: 19 for a state
    /// that isn't sound or is by deadlines, else 12 to 16. A refusal leaves the state as it was lent.
    pub fn event(&mut self, event: Event) -> Result<u32, u8> {
        let (kind, which, value) = in_numbers(event);
        answered(self.call(kind, which, value))
    }

    /// One event given at a tick to a state by deadlines; one of fixed priorities is 19. After 12 come 22 a tick too large and 21 one below the last;
    /// then 13 to 16; then 23, a finish after its deadline.
    pub fn event_at(&mut self, tick: u32, event: Event) -> Result<u32, u8> {
        let (kind, which, value) = in_numbers(event);
        answered(self.call_at(tick, kind, which, value))
    }

    /// An event as three numbers, for a host that has no `Event`: the refusal, 11 for a kind outside 1 to 4, and the number.
    pub fn call(&mut self, kind: u8, which: u32, value: u32) -> (u8, u32) {
        // Not 0, so that a test sees that the call sets it.
        let mut number = u32::MAX;
        // SAFETY: control, values and times are lent whole, and each struct is the array that its pointer says, in size, alignment and
        // elements. Nothing overlaps, since they are different fields, and the number is this function's own.
        let refusal = unsafe {
            calls::event(
                kind,
                which,
                value,
                &mut number,
                self.tasks,
                self.links,
                self.control.lent(),
                self.values.lent(),
                self.times.lent(),
            )
        };
        (refusal, number)
    }

    /// The same at a tick.
    pub fn call_at(&mut self, tick: u32, kind: u8, which: u32, value: u32) -> (u8, u32) {
        let mut number = u32::MAX;
        // SAFETY: as in `call`.
        let refusal = unsafe {
            calls::event_at(
                tick,
                kind,
                which,
                value,
                &mut number,
                self.tasks,
                self.links,
                self.control.lent(),
                self.values.lent(),
                self.times.lent(),
            )
        };
        (refusal, number)
    }
}

/// The answer to a whole recording of any kind. The list's first entries become the numbers read, the rest is untouched.
pub fn replay(bytes: &[u8], numbers: &mut [u32]) -> Answer {
    let mut state = State::room();
    let mut place = usize::MAX;
    let mut counts = [usize::MAX; 4];
    // SAFETY: each slice passes with its own length, and its pointer is not null even where it is empty. The list is lent to this function
    // alone, so it overlaps nothing; the rest are different fields and arrays of its own, as long as the header says. Control, values and
    // times are lent whole, and each struct is the array that its pointer says, in size, alignment and elements.
    let refusal = unsafe {
        calls::replay(
            bytes.as_ptr(),
            bytes.len(),
            numbers.as_mut_ptr(),
            numbers.len(),
            &mut place,
            &mut counts,
            &mut state.tasks,
            &mut state.links,
            state.control.lent(),
            state.values.lent(),
            state.times.lent(),
        )
    };
    let [arrivals, starts, reads, finishes] = counts;
    Answer { refusal, place, state, arrivals, starts, reads, finishes }
}

/// The sizes of the library: how many tasks and how many links a state has room for, how many bytes its control has, and how many numbers its
/// values and its times have. They are `TASKS`, `LINKS`, `CONTROL`, `VALUES` and `TIMES`, or it is not the library that this host was built for.
pub fn sizes() -> [usize; SIZES] {
    let mut sizes = [usize::MAX; SIZES];
    // SAFETY: the array is this function's own, and as long as the header says.
    unsafe { calls::sizes(&mut sizes) };
    sizes
}

/// The unread rest of a recording, from the place of its answer to the end: empty after acceptance.
pub fn rest<'a>(bytes: &'a [u8], answer: &Answer) -> &'a [u8] {
    // SAFETY: the slice passes with its own length, its pointer is not null even where it is empty, and nothing is written to.
    let left = unsafe { calls::rest(bytes.as_ptr(), bytes.len(), answer.place) };
    &bytes[bytes.len() - left..]
}

/// Writes a recording of a kind, `BASE_KIND`, `WIDE_KIND` or `DATED_KIND`, into the buffer. `tasks` has the default of each task, with `DATED_KIND`
/// its default and its relative deadline; `links` writer, reader, kind and start value of each link; `events` the kind of each event, with
/// `DATED_KIND` its tick, and what it has: 1 and a set, 2 and a task, 3 and a link, 4, a task and a value. What is written `replay` accepts, with
/// room for the numbers, as the same table, links and events.
///
/// Refusals are the reader's, by the kind's limits, at the place where it would find the fault; a kind that is none of the three is 2 at 0. No
/// number is cut to its field: a task 256 is not in the table, nor is with `BASE_KIND` a task above 15 in a set, and a relative deadline above
/// 65,535 is 24, as 0 is. A task, link or event whose numbers are not all there counts, and is refusal 1; an unknown kind of event counts, is 11,
/// and nothing after it is looked at. Last comes 18, a buffer too short, with the length of the whole recording as its place. A refusal touches no
/// byte of the buffer, and an acceptance none past those written.
pub fn write(kind: u32, tasks: &[u32], links: &[u32], events: &[u32], bytes: &mut [u8]) -> Written {
    let mut place = usize::MAX;
    // SAFETY: each slice passes with its own length, and its pointer is not null even where it is empty. The buffer is lent to this
    // function alone, so it overlaps nothing, and the place is its own. The other three are only read, so that it does no harm where a
    // caller's slices are parts of each other.
    let refusal = unsafe {
        calls::write(
            kind,
            tasks.as_ptr(),
            tasks.len(),
            links.as_ptr(),
            links.len(),
            events.as_ptr(),
            events.len(),
            bytes.as_mut_ptr(),
            bytes.len(),
            &mut place,
        )
    };
    Written { refusal, place }
}
