//! Each call of the library from Rust, in both kinds of recording with fixed priorities (tests/dated.rs has the third): the long example, edge
//! sizes, limits, refusals and what they leave; what is written, and read again.
use parnusild::{
    replay, rest, write, Answer, Event, State, Table, Written, BASE_KIND, DATED_KIND, LINKS, RECORDING, TASKS,
    WIDE_KIND,
};
use Event::{Arrival, Finish, Read, Start};

const KINDS: [u32; 2] = [BASE_KIND, WIDE_KIND];

/// A table from its defaults and its links: writer, reader, kind, start value.
fn table(defaults: &[u32], links: &[(u8, u8, u8, u32)]) -> Table {
    let mut t = Table {
        tasks: defaults.len(),
        links: links.len(),
        defaults: [7; TASKS],
        writer: [9; LINKS],
        reader: [9; LINKS],
        kind: [9; LINKS],
        start_value: [9; LINKS],
    };
    t.defaults[..defaults.len()].copy_from_slice(defaults);
    for (l, &(w, r, k, v)) in links.iter().enumerate() {
        t.writer[l] = w;
        t.reader[l] = r;
        t.kind[l] = k;
        t.start_value[l] = v;
    }
    t
}

/// So many bytes has the set of an arrival.
fn set_size(kind: u32) -> usize {
    match kind {
        BASE_KIND => 2,
        _ => 4,
    }
}

/// The bytes of a recording of a kind, by docs/FORMAT.md.
fn record(kind: u32, t: &Table, events: &[Event]) -> Vec<u8> {
    let mut b = vec![kind as u8, t.tasks as u8];
    for d in &t.defaults[..t.tasks] {
        b.extend(d.to_le_bytes());
    }
    b.push(t.links as u8);
    for l in 0..t.links {
        b.extend([t.writer[l], t.reader[l], t.kind[l]]);
        b.extend(t.start_value[l].to_le_bytes());
    }
    b.extend((events.len() as u16).to_le_bytes());
    for e in events {
        match *e {
            Arrival(set) => {
                b.push(1);
                b.extend(&set.to_le_bytes()[..set_size(kind)]);
            }
            Start(task) => b.extend([2, task as u8]),
            Read(link) => b.extend([3, link as u8]),
            Finish(task, value) => {
                b.extend([4, task as u8]);
                b.extend(value.to_le_bytes());
            }
        }
    }
    b
}

fn example_table() -> Table {
    table(&[0, 100, 0, 0], &[(1, 0, 1, 90), (1, 2, 0, 0), (1, 3, 0, 0)])
}

const NUMBERS: [u32; 8] = [90, 101, 101, 102, 102, 101, 102, 103];

#[rustfmt::skip]
const EVENTS: [Event; 35] = [
    Arrival(0b1111), Start(0), Read(0), Finish(0, 0), Start(1), Finish(1, 101), Start(2), Read(1), Finish(2, 0), Start(3),
    Arrival(0b0011), Start(0), Read(0), Finish(0, 0), Start(1), Finish(1, 102),
    Arrival(0b0100), Start(2), Read(1), Finish(2, 0),
    Arrival(0b0011), Start(0), Read(0), Finish(0, 0), Start(1), Finish(1, 103), Read(2), Finish(3, 0),
    Arrival(0b1001), Start(0), Read(0), Finish(0, 0), Start(3), Read(2), Finish(3, 0),
];

fn example(kind: u32) -> Vec<u8> {
    record(kind, &example_table(), &EVENTS)
}

/// The place of event `i` of the long example.
fn place_of(kind: u32, i: usize) -> usize {
    record(kind, &example_table(), &EVENTS[..i]).len()
}

/// How long it is: it has five arrivals.
fn length(kind: u32) -> usize {
    match kind {
        BASE_KIND => 161,
        _ => 171,
    }
}

fn counts(a: &Answer) -> [usize; 4] {
    [a.arrivals, a.starts, a.reads, a.finishes]
}

/// The fresh state of a single task with default 0 and no links.
fn single() -> State {
    State::fresh(&table(&[0], &[])).state
}

/// The refusal that a state gives an event, which must be refused, with the number 0 and the state left as it was.
fn refused(s: &State, kind: u8, which: u32, value: u32) -> u8 {
    let mut after = s.clone();
    let (refusal, number) = after.call(kind, which, value);
    assert_ne!(refusal, 0);
    assert_eq!(number, 0, "the number of a refused event");
    assert_eq!(&after, s, "the state after a refused event");
    refusal
}

#[test]
fn the_file_is_the_long_example() {
    let path = concat!(env!("CARGO_MANIFEST_DIR"), "/../../recordings/figure-17.rec");
    assert_eq!(std::fs::read(path).unwrap(), example(BASE_KIND));
    assert_eq!(KINDS.map(|kind| example(kind).len()), KINDS.map(length));
}

#[test]
fn long_example() {
    for kind in KINDS {
        let bytes = example(kind);
        let mut list = [77; 10];
        let a = replay(&bytes, &mut list);
        assert_eq!((a.refusal, a.place), (0, length(kind)));
        assert_eq!(counts(&a), [11, 11, 8, 11]);
        assert_eq!(list[..8], NUMBERS);
        assert_eq!(list[8..], [77, 77], "the rest of the list");
        assert!(rest(&bytes, &a).is_empty());
    }
}

#[test]
fn event_by_event() {
    let mut s = State::fresh(&example_table()).state;
    let mut read = Vec::new();
    let mut newest = Vec::new();
    for e in EVENTS {
        let number = s.event(e).unwrap();
        match e {
            Read(_) => read.push(number),
            _ => assert_eq!(number, 0),
        }
        if let Arrival(set) = e {
            if set & 2 != 0 {
                newest.push(s.control.newest[1]);
            }
        }
    }
    assert_eq!(read, NUMBERS);
    assert_eq!(newest, [2, 1, 3]);
    for kind in KINDS {
        assert_eq!(s, replay(&example(kind), &mut [0; 8]).state);
    }
}

#[test]
fn room_for_the_numbers() {
    for kind in KINDS {
        let bytes = example(kind);
        let mut exact = [77; 8];
        let a = replay(&bytes, &mut exact);
        assert_eq!((a.refusal, exact), (0, NUMBERS));
        let mut short = [77; 7];
        let a = replay(&bytes, &mut short);
        assert_eq!((a.refusal, a.place), (18, place_of(kind, 33)));
        assert_eq!(counts(&a), [11, 11, 7, 10]);
        assert_eq!(short, NUMBERS[..7]);
        assert_eq!(rest(&bytes, &a), &bytes[place_of(kind, 33)..]);
        let a = replay(&bytes, &mut []);
        assert_eq!((a.refusal, a.place), (18, place_of(kind, 2)));
        assert_eq!(counts(&a), [4, 1, 0, 0]);
    }
}

/// The refusal and the place of a recording that is refused at its first byte, in its table or at a count: nothing is counted, the list is
/// untouched, the state is that of a single task, and the rest begins at the place.
fn early(bytes: &[u8]) -> (u8, usize) {
    let mut list = [77; 3];
    let a = replay(bytes, &mut list);
    assert_ne!(a.refusal, 0);
    assert_eq!(counts(&a), [0; 4]);
    assert_eq!(list, [77; 3], "the list after an early refusal");
    assert_eq!(a.state, single(), "the state after an early refusal");
    assert_eq!(rest(bytes, &a), &bytes[a.place..]);
    (a.refusal, a.place)
}

#[test]
fn first_bytes() {
    assert_eq!(early(&[]), (1, 0));
    let known = [BASE_KIND, WIDE_KIND, DATED_KIND];
    for first in (0..=255).filter(|&first| !known.contains(&u32::from(first))) {
        assert_eq!(early(&[first, 1, 0, 0, 0, 0, 0, 0, 0]), (2, 0));
    }
    for kind in known {
        assert_eq!(early(&[kind as u8]), (1, 1));
    }
}

/// The refusals of counts, and on this side of each limit that of the record that is then due: T and L by the kind, E in both.
#[test]
fn counts_and_their_limits() {
    for (kind, tasks, links) in [(253, 16, 32), (254, 32, 96)] {
        assert_eq!(early(&[kind, 0]), (2, 1));
        assert_eq!(early(&[kind, tasks]), (1, 2));
        assert_eq!(early(&[kind, tasks + 1]), (2, 1));
        assert_eq!(early(&[kind, 1, 9, 9, 9]), (1, 2));
        assert_eq!(early(&[kind, 1, 9, 0, 0, 0]), (1, 6));
        assert_eq!(early(&[kind, 1, 9, 0, 0, 0, links]), (1, 7));
        assert_eq!(early(&[kind, 1, 9, 0, 0, 0, links + 1]), (3, 6));
        assert_eq!(early(&[kind, 1, 9, 0, 0, 0, 0, 0x10]), (1, 7));
        assert_eq!(early(&[kind, 1, 9, 0, 0, 0, 0, 0x11, 0x27]), (10, 7));
        let a = replay(&[kind, 1, 9, 0, 0, 0, 0, 0x10, 0x27], &mut []);
        assert_eq!((a.refusal, a.place), (1, 9), "10,000 events, none of them there");
    }
}

#[test]
fn early_refusals_of_links() {
    let second = |w, r, k| early_links(&[(0, 1, 0, 0), (w, r, k, 0)]);
    assert_eq!(second(0, 2, 0), (4, 18));
    assert_eq!(second(1, 1, 0), (5, 18));
    assert_eq!(second(1, 1, 2), (6, 18));
    assert_eq!(second(1, 0, 2), (6, 18));
    assert_eq!(second(1, 0, 0), (7, 18));
    assert_eq!(second(0, 1, 1), (8, 18));
}

/// The same of a recording of two tasks with these links: writer, reader, kind, start value. It is so in both kinds.
fn early_links(links: &[(u8, u8, u8, u32)]) -> (u8, usize) {
    let [base, wide] = KINDS.map(|kind| early(&record(kind, &table(&[9, 8], links), &[])));
    assert_eq!(base, wide);
    base
}

/// A direct link with a start value, whichever of its four bytes isn't 0: 20, tried after all else of the link.
#[test]
fn direct_links_with_a_start_value() {
    for start_value in [1, 1 << 8, 1 << 16, 1 << 24] {
        assert_eq!(early_links(&[(0, 1, 0, start_value)]), (20, 11));
    }
    assert_eq!(early_links(&[(1, 0, 0, 1)]), (7, 11));
    let links: Vec<_> = (1..=9).map(|r| (0, r, 0, u32::from(r == 9))).collect();
    for kind in KINDS {
        assert_eq!(early(&record(kind, &table(&[0; 16], &links), &[])), (9, 67 + 8 * 7));
    }
}

#[test]
fn small_recordings() {
    for kind in [253, 254] {
        let a = replay(&[kind, 1, 0, 0, 0, 0, 0, 0, 0], &mut []);
        assert_eq!((a.refusal, a.place, counts(&a)), (0, 9, [0; 4]));
        let a = replay(&[kind, 1, 0, 0, 0, 0, 0, 0, 0, 5], &mut [3]);
        assert_eq!((a.refusal, a.place), (17, 9));
        assert_eq!(rest(&[kind, 1, 0, 0, 0, 0, 0, 0, 0, 5], &a), [5]);
        // a place past the end of other bytes leaves none of them
        assert!(rest(&[kind, 1, 0, 0], &a).is_empty());
        let a = replay(&[kind, 1, 0, 0, 0, 0, 0, 1, 0, 5], &mut []);
        assert_eq!((a.refusal, a.place), (11, 9));
    }
}

/// The same bytes in either kind: an arrival has another length, so that what follows is something else.
#[test]
fn the_set_of_an_arrival_has_the_kinds_length() {
    let with_events = |kind: u8, events: &[u8]| {
        let a = replay(&[&[kind, 1, 0, 0, 0, 0, 0, 1, 0], events].concat(), &mut []);
        (a.refusal, a.place, a.arrivals)
    };
    assert_eq!(with_events(253, &[1, 1]), (1, 9, 0));
    assert_eq!(with_events(253, &[1, 1, 0]), (0, 12, 1));
    assert_eq!(with_events(253, &[1, 1, 0, 0, 0]), (17, 12, 1));
    assert_eq!(with_events(254, &[1, 1, 0]), (1, 9, 0));
    assert_eq!(with_events(254, &[1, 1, 0, 0]), (1, 9, 0));
    assert_eq!(with_events(254, &[1, 1, 0, 0, 0]), (0, 14, 1));
    assert_eq!(with_events(254, &[1, 1, 0, 0, 0, 0]), (17, 14, 1));
    // a task that is not in the table, in each byte of the set
    assert_eq!(with_events(253, &[1, 1, 1]), (12, 9, 0));
    for set in [[1, 1, 0, 0], [1, 0, 1, 0], [1, 0, 0, 1], [1, 0, 0, 128]] {
        assert_eq!(with_events(254, &[&[1][..], &set].concat()), (12, 9, 0));
    }
}

/// As many links as there are, in rings of so many tasks: each task writes to the next one, then each to the one before, then each to itself;
/// direct where the reader is behind. A delayed one has a start value of its own.
fn rings(tasks: usize, links: usize) -> Table {
    let link = |l: usize| {
        let (w, r) = (l % tasks, (l + [1, tasks - 1, 0][l / tasks]) % tasks);
        (w as u8, r as u8, u8::from(r <= w), if r <= w { 2000 + l as u32 } else { 0 })
    };
    table(&vec![7; tasks], &(0..links).map(link).collect::<Vec<_>>())
}

/// A round of it: a set arrives, then each task starts, reads by all its links and finishes with 500 and its number.
fn round(t: &Table, set: u32) -> Vec<Event> {
    let mut events = vec![Arrival(set)];
    for task in 0..t.tasks as u32 {
        events.push(Start(task));
        events.extend((0..t.links as u32).filter(|&l| u32::from(t.reader[l as usize]) == task).map(Read));
        events.push(Finish(task, 500 + task));
    }
    events
}

/// What a recording of a round is answered: the refusal, the place, and how many numbers are read.
fn replayed(kind: u32, tasks: usize, links: usize, set: u32) -> (u8, usize, usize) {
    let t = rings(tasks, links);
    let a = replay(&record(kind, &t, &round(&t, set)), &mut [0; LINKS]);
    (a.refusal, a.place, a.reads)
}

/// Either side of each limit of a kind: 16 tasks and 32 links in the first, though a state has room for more, 32 and 96 in the other.
#[test]
fn the_limits_of_a_kind_and_the_room_of_a_state() {
    assert_eq!(replayed(BASE_KIND, 16, 32, 0xffff), (0, 488, 32));
    assert_eq!(replayed(BASE_KIND, 17, 32, 0xffff), (2, 1, 0));
    assert_eq!(replayed(BASE_KIND, 16, 33, 0xffff), (3, 66, 0));
    assert_eq!(replayed(WIDE_KIND, 16, 32, 0xffff), (0, 490, 32));
    assert_eq!(replayed(WIDE_KIND, 17, 32, 0x1_ffff), (0, 502, 32));
    assert_eq!(replayed(WIDE_KIND, 16, 33, 0xffff), (0, 499, 33));
    assert_eq!(replayed(WIDE_KIND, 16, 32, 0x1_ffff), (12, 293, 0));
    assert_eq!(replayed(WIDE_KIND, 32, 96, u32::MAX), (0, 1258, 96));
    assert_eq!(replayed(WIDE_KIND, 31, 93, u32::MAX), (12, 780, 0));
    for tasks in [17, 31, 32] {
        let t = rings(tasks, 2 * tasks);
        let made = State::fresh(&t);
        assert_eq!((made.refusal, made.state.tasks, made.state.links), (0, tasks, 2 * tasks));
        assert_eq!(replay(&record(WIDE_KIND, &t, &[]), &mut []).state, made.state);
    }
}

/// The last task and the last link, by single events and in a recording.
#[test]
fn task_31_and_link_95() {
    let t = rings(TASKS, LINKS);
    let fresh = State::fresh(&t).state;
    let events = [Arrival(1 << 31), Start(31), Read(95), Finish(31, 9)];
    let mut s = fresh.clone();
    assert_eq!(events.map(|e| s.event(e)), [Ok(0), Ok(0), Ok(2095), Ok(0)]);
    assert_eq!((s.control.newest[31], s.control.seen[31], s.values.cells[31 * 10 + 1]), (2, 1, 9));
    let mut list = [77; 2];
    let a = replay(&record(WIDE_KIND, &t, &events), &mut list);
    assert_eq!((a.refusal, counts(&a), list), (0, [1; 4], [2095, 77]));
    assert_eq!(a.state, s);
    assert_eq!((refused(&fresh, 2, 32, 0), refused(&fresh, 3, 96, 0), refused(&fresh, 4, 32, 0)), (12, 12, 12));
    assert_eq!((refused(&fresh, 2, 31, 0), refused(&fresh, 3, 95, 0), refused(&fresh, 4, 31, 0)), (14, 15, 15));
}

/// A power cut: the answer is that of the whole records, with 1 at the first that isn't whole.
#[test]
fn every_cut() {
    for kind in KINDS {
        cut_everywhere(kind);
    }
}

fn cut_everywhere(kind: u32) {
    let bytes = example(kind);
    for cut in 0..bytes.len() {
        let mut list = [77; 8];
        let a = replay(&bytes[..cut], &mut list);
        assert_eq!(a.refusal, 1, "cut at {}", cut);
        if cut < place_of(kind, 0) {
            assert_eq!(early(&bytes[..cut]).0, 1);
            continue;
        }
        let whole = (0..35).rev().find(|&i| place_of(kind, i) <= cut).unwrap();
        assert_eq!(a.place, place_of(kind, whole));
        let mut state = State::fresh(&example_table()).state;
        let mut reads = 0;
        for e in &EVENTS[..whole] {
            state.event(*e).unwrap();
            reads += matches!(e, Read(_)) as usize;
        }
        assert_eq!((a.reads, a.state), (reads, state));
        assert_eq!(list[..reads], NUMBERS[..reads]);
        assert!(list[reads..].iter().all(|&x| x == 77));
    }
}

#[test]
fn kinds_and_numbers_in_no_table() {
    let mut s = State::fresh(&example_table()).state;
    s.event(Arrival(1)).unwrap();
    for kind in (0..=255).filter(|k| !(1..=4).contains(k)) {
        assert_eq!(refused(&s, kind, 0, 1), 11);
    }
    for which in [4, 255, 256, 257, 65536, u32::MAX] {
        assert_eq!(refused(&s, 2, which, 0), 12);
        assert_eq!(refused(&s, 4, which, 5), 12);
    }
    for which in [3, 255, 256, 512, u32::MAX] {
        assert_eq!(refused(&s, 3, which, 0), 12);
    }
    for set in [0, 1 << 4, 1 | 1 << 16, 1 << 31] {
        assert_eq!(refused(&s, 1, set, 0), 12);
    }
}

#[test]
fn refusals_in_rising_order() {
    let mut s = State::fresh(&example_table()).state;
    assert_eq!(s.event(Start(0)), Err(14));
    assert_eq!(s.event(Read(0)), Err(15));
    assert_eq!(s.event(Finish(0, 1)), Err(15));
    s.event(Arrival(0b1001)).unwrap();
    assert_eq!(refused(&s, 1, 0b0011, 0), 13);
    assert_eq!(refused(&s, 2, 3, 0), 16);
    s.event(Start(0)).unwrap();
    assert_eq!(refused(&s, 2, 0, 0), 14);
    assert_eq!(refused(&s, 3, 2, 0), 15);
    assert_eq!(s.event(Read(0)), Ok(90));
}

/// A state after these events, none of which is refused or reads.
fn after(state: &State, events: &[Event]) -> State {
    let mut s = state.clone();
    for e in events {
        assert_eq!(s.event(*e), Ok(0), "{:?}", e);
    }
    s
}

/// Two tasks with defaults 5 and 6 and a delayed link either way: link 0 from task 1 to task 0, ahead, with start value 90; link 1 from task
/// 0 to task 1, behind, with start value 80.
fn both_ways() -> State {
    State::fresh(&table(&[5, 6], &[(1, 0, 1, 90), (0, 1, 1, 80)])).state
}

/// The marks of its two links.
fn marks(s: &State) -> [u8; 2] {
    [s.control.mark[0], s.control.mark[1]]
}

/// Both tasks arrive together and each reads and finishes with the round's number and its own: in the first round the start values are
/// read, from the second on what the round before put out.
#[test]
fn start_values_are_read_in_the_first_round_alone() {
    let mut s = both_ways();
    let mut read = Vec::new();
    for round in 1..=4 {
        s = after(&s, &[Arrival(0b11), Start(0)]);
        read.push(s.event(Read(0)));
        s = after(&s, &[Finish(0, 10 * round), Start(1)]);
        read.push(s.event(Read(1)));
        s = after(&s, &[Finish(1, 10 * round + 1)]);
    }
    assert_eq!(read, [90, 80, 11, 10, 21, 20, 31, 30].map(Ok));
}

/// The writer's first output is not read before its second arrival, nor its default: neither by a reader ahead nor by one behind.
#[test]
fn the_second_arrival_of_the_writer_ends_the_start_value() {
    for (link, writer, reader, start_value) in [(0, 1, 0, 90), (1, 0, 1, 80)] {
        let read = |before: &State| {
            let mut s = after(before, &[Arrival(1 << reader), Start(reader)]);
            let number = s.event(Read(link)).unwrap();
            (number, s.control.mark[link as usize])
        };
        let run = |s: &State, value| after(s, &[Arrival(1 << writer), Start(writer), Finish(writer, value)]);
        let none = both_ways();
        assert_eq!((none.control.seen[writer as usize], read(&none)), (0, (start_value, 1)));
        let once = run(&none, 7);
        assert_eq!((once.control.seen[writer as usize], read(&once)), (1, (start_value, 1)));
        let twice = run(&once, 8);
        assert_eq!((twice.control.seen[writer as usize], read(&twice)), (2, (7, 0)));
        let thrice = run(&twice, 9);
        assert_eq!((thrice.control.seen[writer as usize], read(&thrice)), (2, (8, 0)));
    }
}

/// The writer's arrival in the same set counts.
#[test]
fn the_second_arrival_may_be_the_readers_own() {
    let once = after(&both_ways(), &[Arrival(0b10), Start(1), Finish(1, 7)]);
    let mut s = after(&once, &[Arrival(0b11), Start(0)]);
    assert_eq!(marks(&s), [0, 1]);
    assert_eq!(s.event(Read(0)), Ok(7));
}

/// A reader that was interrupted by the writer's second and third arrival still reads what its own arrival settled on.
#[test]
fn a_start_value_stays_for_the_reader_that_runs() {
    let writer_runs = [Arrival(0b01), Start(0), Finish(0, 7)];
    let mut s = after(&both_ways(), &[Arrival(0b10), Start(1)]);
    for seen in [1, 2, 2] {
        s = after(&s, &writer_runs);
        assert_eq!((s.control.seen[0], s.control.mark[1]), (seen, 1));
        assert_eq!(s.event(Read(1)), Ok(80));
    }
}

/// At the reader's finish the pointer from a writer ahead goes, and the mark with it; those from a writer behind stay, until the reader's
/// next arrival sets both.
#[test]
fn the_mark_goes_with_the_pointer() {
    let pointers = |s: &State| [s.control.pointer[0], s.control.pointer[1]];
    let arrived = after(&both_ways(), &[Arrival(0b11)]);
    assert_eq!((pointers(&arrived), marks(&arrived)), ([1, 1], [1, 1]));
    let finished = after(&arrived, &[Start(0), Finish(0, 7), Start(1), Finish(1, 8)]);
    assert_eq!((pointers(&finished), marks(&finished)), ([1, 0], [1, 0]));
    let behind_again = after(&finished, &[Arrival(0b10)]);
    assert_eq!((pointers(&behind_again), marks(&behind_again)), ([1, 1], [1, 1]));
    let both_again = after(&finished, &[Arrival(0b11)]);
    assert_eq!((pointers(&both_again), marks(&both_again)), ([2, 2], [0, 0]));
}

/// A task with default 7 that reads its own last output by a delayed link to itself with start value 40.
fn filter_table() -> Table {
    table(&[7], &[(0, 0, 1, 40)])
}

/// Four runs of it, each of which adds 1 to what it read.
fn filter_events() -> Vec<Event> {
    (41..=44).flat_map(|value| [Arrival(1), Start(0), Read(0), Finish(0, value)]).collect()
}

/// The first run reads the start value, each later one what the run before it put out. Pointer and mark stay at the finish.
#[test]
fn a_task_reads_its_own_last_output() {
    let mut s = State::fresh(&filter_table()).state;
    let mut read = Vec::new();
    let mut kept = Vec::new();
    for _ in 0..4 {
        s = after(&s, &[Arrival(1), Start(0)]);
        let number = s.event(Read(0)).unwrap();
        read.push(number);
        s = after(&s, &[Finish(0, number + 1)]);
        kept.push((s.control.pointer[0], s.control.mark[0]));
    }
    assert_eq!(read, [40, 41, 42, 43]);
    assert_eq!(kept, [(1, 1), (2, 0), (1, 0), (2, 0)]);
    for kind in KINDS {
        let mut list = [77; 5];
        let a = replay(&record(kind, &filter_table(), &filter_events()), &mut list);
        assert_eq!((a.refusal, list), (0, [40, 41, 42, 43, 77]));
        assert_eq!(a.state, s);
    }
}

/// An idle task's pointer to itself may be there or not, an active task's must be; a direct link to itself is never sound.
#[test]
fn sound_with_a_link_to_itself() {
    let idle = after(&State::fresh(&filter_table()).state, &[Arrival(1), Start(0), Finish(0, 41)]);
    let active = after(&idle, &[Arrival(1), Start(0)]);
    let answer = |state: &State, event: Event, change: fn(&mut State)| {
        let mut s = state.clone();
        change(&mut s);
        s.event(event)
    };
    let no_pointer = |s: &mut State| {
        s.control.pointer[0] = 0;
        s.control.mark[0] = 0;
    };
    let direct = |s: &mut State| {
        s.control.kind[0] = 0;
        s.values.start_value[0] = 0;
    };
    assert_eq!(answer(&idle, Arrival(1), |_| ()), Ok(0));
    assert_eq!(answer(&idle, Arrival(1), no_pointer), Ok(0));
    assert_eq!(answer(&idle, Arrival(1), |s| s.control.mark[0] = 0), Err(19), "no mark after one arrival");
    assert_eq!(answer(&idle, Arrival(1), |s| s.control.pointer[0] = 3), Err(19), "a third position of two");
    assert_eq!(answer(&active, Read(0), |_| ()), Ok(41));
    assert_eq!(answer(&active, Read(0), |s| s.control.mark[0] = 1), Ok(40));
    assert_eq!(answer(&active, Read(0), no_pointer), Err(19));
    assert_eq!(answer(&active, Read(0), direct), Err(19));
}

/// As many tasks and links as there can be, each task with one to itself: three rounds in which all arrive at once.
#[test]
fn every_task_reads_its_own_last_output() {
    let mut t = rings(TASKS, LINKS);
    for task in 0..TASKS {
        t.start_value[64 + task] = 40 + task as u32;
    }
    let mut s = State::fresh(&t).state;
    assert_eq!((s.tasks, s.links), (TASKS, LINKS));
    for round in 0..3 {
        s = after(&s, &[Arrival(u32::MAX)]);
        for t in 0..32 {
            s = after(&s, &[Start(t)]);
            assert_eq!(s.event(Read(64 + t)), Ok(40 + t + 100 * round));
            s = after(&s, &[Finish(t, 40 + t + 100 * (round + 1))]);
        }
    }
}

/// 19 before anything else: for every kind, also an unknown one, and for numbers in no table.
#[test]
fn unsound_states() {
    let good = State::fresh(&example_table()).state;
    let spoils: [fn(&mut State); 15] = [
        |s| s.tasks = 0,
        |s| s.tasks = 33,
        |s| s.tasks = usize::MAX,
        |s| s.links = 97,
        |s| s.links = usize::MAX,
        |s| s.control.phase[3] = 3,
        |s| s.control.newest[1] = 0,
        |s| s.control.previous[1] = 5,
        |s| s.control.pointer[2] = 1,
        |s| s.control.kind[0] = 0,
        |s| s.times.deadline[0] = 1,
        |s| s.times.since[3] = 1,
        |s| s.times.last = 1,
        |s| s.times.policy = 1,
        |s| s.times.policy = 2,
    ];
    for spoil in spoils {
        let mut s = good.clone();
        spoil(&mut s);
        for kind in 0..=5 {
            for which in [0, 1, 256, u32::MAX] {
                assert_eq!(refused(&s, kind, which, 0), 19);
            }
        }
    }
    let mut full = State::fresh(&rings(TASKS, LINKS)).state;
    assert_eq!(full.event(Arrival(u32::MAX)), Ok(0), "all the room is in use, and the state sound");
    let mut past = good;
    past.control.phase[4] = 200;
    past.control.seen[4] = 200;
    past.control.writer[3] = 200;
    past.control.mark[3] = 200;
    past.values.start_value[3] = 200;
    assert_eq!(past.event(Arrival(1)), Ok(0), "slots past the counts are not looked at");
    assert_eq!((past.control.phase[4], past.control.seen[4]), (200, 200));
    assert_eq!((past.control.writer[3], past.control.mark[3], past.values.start_value[3]), (200, 200, 200));
}

/// What soundness asks of arrivals, marks and start values, each by one change of a sound state: both links have a mark there; task 0, the
/// writer of link 1, has had one arrival and is idle; task 1, the writer of link 0, has had two and waits.
#[test]
fn unsound_arrivals_and_marks() {
    let once = [Arrival(0b11), Start(0), Finish(0, 7), Start(1), Finish(1, 8)];
    let good = after(&both_ways(), &[&once[..], &[Arrival(0b10)]].concat());
    assert_eq!((good.control.seen[..2].to_vec(), marks(&good)), (vec![1, 2], [1, 1]));
    let answer = |change: fn(&mut State)| {
        let mut s = good.clone();
        change(&mut s);
        s.event(Start(1))
    };
    assert_eq!(answer(|_| ()), Ok(0));
    assert_eq!(answer(|s| s.control.seen[0] = 3), Err(19), "none of the three values");
    assert_eq!(answer(|s| s.control.seen[0] = 0), Ok(0), "without arrivals, and idle");
    assert_eq!(answer(|s| s.control.seen[1] = 0), Err(19), "without arrivals, and waiting");
    assert_eq!(answer(|s| s.control.mark[0] = 2), Err(19), "neither 0 nor 1");
    assert_eq!(answer(|s| s.control.pointer[0] = 0), Err(19), "a mark at an absent pointer");
    assert_eq!(answer(|s| s.control.mark[1] = 0), Err(19), "no mark, and a writer with one arrival");
    assert_eq!(answer(|s| s.control.mark[0] = 0), Ok(0), "no mark, and a writer with two arrivals");
    assert_eq!(
        answer(|s| {
            s.control.pointer[0] = 0;
            s.control.mark[0] = 0;
        }),
        Ok(0),
        "neither pointer nor mark"
    );
    // as a direct link, link 1 may have neither a mark nor a start value
    let direct = |s: &mut State, mark: u8, start_value: u32| {
        s.control.kind[1] = 0;
        s.control.mark[1] = mark;
        s.values.start_value[1] = start_value;
        s.event(Start(1))
    };
    assert_eq!(direct(&mut good.clone(), 0, 0), Ok(0));
    assert_eq!(direct(&mut good.clone(), 1, 0), Err(19));
    assert_eq!(direct(&mut good.clone(), 0, 80), Err(19));
}

#[test]
fn tables() {
    let refusal = |t: &Table| {
        let made = State::fresh(t);
        assert!(made.refusal == 0 || made.state == single());
        made.refusal
    };
    for tasks in [0, 33, usize::MAX] {
        let t = Table { tasks, ..example_table() };
        assert_eq!(refusal(&t), 2);
    }
    for links in [97, usize::MAX] {
        assert_eq!(refusal(&Table { links, ..example_table() }), 3);
    }
    // what a recording of the first kind may not have, and all the room
    assert_eq!((refusal(&rings(17, 33)), refusal(&rings(TASKS, LINKS))), (0, 0));
    // each with a start value, which a direct link may not have: 20 is tried last
    assert_eq!(refusal(&table(&[0; 2], &[(0, 2, 0, 1)])), 4);
    assert_eq!(refusal(&table(&[0; 2], &[(0, 0, 0, 1)])), 5);
    assert_eq!(refusal(&table(&[0; 2], &[(0, 0, 2, 1)])), 6);
    assert_eq!(refusal(&table(&[0; 2], &[(0, 1, 2, 1)])), 6);
    assert_eq!(refusal(&table(&[0; 2], &[(1, 0, 0, 1)])), 7);
    assert_eq!(refusal(&table(&[0; 2], &[(0, 1, 1, 1), (0, 1, 0, 1)])), 8);
    assert_eq!(refusal(&table(&[0; 2], &[(1, 1, 1, 1), (1, 1, 1, 1)])), 8);
    let to = |readers: u8, last: u32| -> Vec<_> {
        (1..=readers).map(|r| (0, r, 0, if r == readers { last } else { 0 })).collect()
    };
    assert_eq!(refusal(&table(&[0; 16], &to(8, 0))), 0);
    assert_eq!(refusal(&table(&[0; 16], &to(9, 0))), 9);
    assert_eq!(refusal(&table(&[0; 16], &to(9, 1))), 9);
    // a task's link to itself is not counted
    let and_itself = |readers| [&[(0, 0, 1, 5)], &to(readers, 0)[..]].concat();
    assert_eq!(refusal(&table(&[0; 16], &and_itself(8))), 0);
    assert_eq!(refusal(&table(&[0; 16], &and_itself(9))), 9);
    for start_value in [1, 256, 1 << 16, 1 << 24, u32::MAX] {
        assert_eq!(refusal(&table(&[0; 16], &to(8, start_value))), 20);
        assert_eq!(refusal(&table(&[0; 2], &[(0, 1, 1, start_value), (1, 0, 1, start_value)])), 0);
    }
    let ahead = |r: u8| (0..32).filter(move |w| *w > r).map(move |w| (w, r, 1, 2000 + u32::from(w)));
    let most: Vec<_> = (0..32).flat_map(ahead).take(LINKS).collect();
    assert_eq!(refusal(&table(&[5; TASKS], &most)), 0);
}

#[test]
fn a_fresh_state() {
    let State { tasks, links, control, values, times } = State::fresh(&example_table()).state;
    assert_eq!((tasks, links), (4, 3));
    assert_eq!(values.defaults[..6], [0, 100, 0, 0, 0, 0], "past the tasks stands 0");
    assert_eq!((control.phase, control.newest, control.previous), ([0; TASKS], [1; TASKS], [1; TASKS]));
    assert_eq!((control.seen, control.mark), ([0; TASKS], [0; LINKS]));
    assert_eq!(values.start_value[..5], [90, 0, 0, 0, 0], "past the links stands 0");
    assert!(values.cells[10..20].iter().all(|&c| c == 100));
    assert!(values.cells[..10].iter().chain(&values.cells[20..]).all(|&c| c == 0));
    assert_eq!(
        (control.writer[..4].to_vec(), control.reader[..4].to_vec(), control.kind[..4].to_vec()),
        (vec![1, 1, 1, 0], vec![0, 2, 3, 0], vec![1, 0, 0, 0])
    );
    assert_eq!(control.pointer, [0; LINKS]);
    assert_eq!((times.deadline, times.since, times.last, times.policy), ([0; TASKS], [0; TASKS], 0, 0));
}

/// A table's defaults and links as they are handed over, and events.
fn numbers(t: &Table, events: &[Event]) -> (Vec<u32>, Vec<u32>, Vec<u32>) {
    let links = (0..t.links).flat_map(|l| [t.writer[l].into(), t.reader[l].into(), t.kind[l].into(), t.start_value[l]]);
    let events = events.iter().flat_map(|e| match *e {
        Arrival(set) => vec![1, set],
        Start(task) => vec![2, task],
        Read(link) => vec![3, link],
        Finish(task, value) => vec![4, task, value],
    });
    (t.defaults[..t.tasks].to_vec(), links.collect(), events.collect())
}

/// The refusal and the place with so much room; a refusal must leave the buffer as it was, an acceptance what is past the place.
fn written(kind: u32, defaults: &[u32], links: &[u32], events: &[u32], room: usize) -> (u8, usize, Vec<u8>) {
    let mut bytes = vec![77; room];
    let Written { refusal, place } = write(kind, defaults, links, events, &mut bytes);
    let kept = if refusal == 0 { place } else { 0 };
    assert!(bytes[kept..].iter().all(|&b| b == 77), "refusal {} at {}: {:?}", refusal, place, bytes);
    bytes.truncate(kept);
    (refusal, place, bytes)
}

#[test]
fn the_long_example_is_written_and_replayed() {
    let (defaults, links, events) = numbers(&example_table(), &EVENTS);
    for kind in KINDS {
        let whole = length(kind);
        for room in [whole, whole + 1, 1000] {
            assert_eq!(written(kind, &defaults, &links, &events, room), (0, whole, example(kind)));
        }
        for room in [whole - 1, 42, 1, 0] {
            assert_eq!(written(kind, &defaults, &links, &events, room), (18, whole, vec![]));
        }
        let (_, place, bytes) = written(kind, &defaults, &links, &events, whole);
        let mut list = [77; 8];
        let a = replay(&bytes, &mut list);
        assert_eq!((a.refusal, a.place, list), (0, place, NUMBERS));
        assert_eq!(a.state, replay(&example(BASE_KIND), &mut [0; 8]).state);
    }
}

/// So is a task that reads its own last output.
#[test]
fn a_link_to_itself_is_written_and_replayed() {
    let (defaults, links, events) = numbers(&filter_table(), &filter_events());
    for kind in KINDS {
        let bytes = record(kind, &filter_table(), &filter_events());
        assert_eq!(written(kind, &defaults, &links, &events, bytes.len()), (0, bytes.len(), bytes));
        assert_eq!(written(kind, &defaults, &[0, 0, 0, 0], &events, 100), (5, 7, vec![]));
        assert_eq!(written(kind, &defaults, &[0, 0, 2, 0], &events, 100), (6, 7, vec![]));
    }
}

/// A kind that there is not is 2 at 0, before all else, whatever else is wrong; it is not cut to a byte.
#[test]
fn kinds_that_there_are_not() {
    let (defaults, links, events) = numbers(&example_table(), &EVENTS);
    let next_to_a_kind = [252, 256 + BASE_KIND, 256 + WIDE_KIND, 256 + DATED_KIND, BASE_KIND << 8, WIDE_KIND << 24];
    for kind in next_to_a_kind.into_iter().chain([0, 1, 256, u32::MAX]) {
        assert_eq!(written(kind, &defaults, &links, &events, 171), (2, 0, vec![]));
        assert_eq!(written(kind, &[], &[9], &[0], 0), (2, 0, vec![]));
    }
}

/// Every number of the example in turn, replaced by those that a field can't hold: never cut, and refused unless it is a value, as the start
/// value of its delayed link is.
#[test]
fn numbers_that_no_field_holds() {
    for kind in KINDS {
        for wide in [256, 257, 1 << 16, 1 << 20, u32::MAX] {
            a_link_with(kind, wide);
            an_event_with(kind, wide);
            let one_task = record(kind, &table(&[wide], &[]), &[]);
            assert_eq!(written(kind, &[wide], &[], &[], 9), (0, 9, one_task));
        }
    }
}

/// Each number of the example's links replaced by this one.
fn a_link_with(kind: u32, wide: u32) {
    let (defaults, links, events) = numbers(&example_table(), &EVENTS);
    for at in 0..links.len() {
        let mut links = links.clone();
        links[at] = wide;
        let expected = if at == 3 {
            let mut t = example_table();
            t.start_value[0] = wide;
            (0, length(kind), record(kind, &t, &EVENTS))
        } else {
            ([4, 4, 6, 20][at % 4], 19 + at / 4 * 7, vec![])
        };
        assert_eq!(written(kind, &defaults, &links, &events, 171), expected);
    }
}

/// Kind, task, link, set and value of each of the example's events, likewise.
fn an_event_with(kind: u32, wide: u32) {
    let (defaults, links, events) = numbers(&example_table(), &EVENTS);
    let mut at = 0;
    for (i, e) in EVENTS.iter().enumerate() {
        let size = numbers(&example_table(), &[*e]).2.len();
        for (field, refusal) in [11, 12].into_iter().enumerate() {
            let mut events = events.clone();
            events[at + field] = wide;
            assert_eq!(written(kind, &defaults, &links, &events, 171), (refusal, place_of(kind, i), vec![]));
        }
        if let Finish(task, _) = *e {
            let mut finished = EVENTS;
            finished[i] = Finish(task, wide);
            let events = numbers(&example_table(), &finished).2;
            let expected = (0, length(kind), record(kind, &example_table(), &finished));
            assert_eq!(written(kind, &defaults, &links, &events, 171), expected);
        }
        at += size;
    }
}

/// Each slice of the example cut at every number.
#[test]
fn slices_that_end_too_early() {
    let (defaults, links, events) = numbers(&example_table(), &EVENTS);
    let mut ends = vec![0];
    for e in EVENTS {
        ends.push(ends[ends.len() - 1] + numbers(&example_table(), &[e]).2.len());
    }
    for kind in KINDS {
        for cut in 0..links.len() {
            let after_whole_links = 19 + cut / 4 * 7;
            let without_events = written(kind, &defaults, &links[..cut], &[], 171);
            match cut % 4 {
                0 => assert_eq!((without_events.0, without_events.1), (0, after_whole_links + 2)),
                _ => assert_eq!(without_events, (1, after_whole_links, vec![])),
            }
        }
        for cut in 0..events.len() {
            let whole = ends.iter().rposition(|&end| end <= cut).unwrap();
            let w = written(kind, &defaults, &links, &events[..cut], 171);
            let place = place_of(kind, whole);
            if ends[whole] == cut {
                assert_eq!(w, (0, place, record(kind, &example_table(), &EVENTS[..whole])));
            } else {
                assert_eq!(w, (1, place, vec![]));
            }
        }
    }
}

/// The refusal and the place of what is to be written in a kind, with room for the longest recording.
fn refused_in(kind: u32, defaults: &[u32], links: &[u32], events: &[u32]) -> (u8, usize) {
    let (refusal, place, _) = written(kind, defaults, links, events, RECORDING);
    (refusal, place)
}

/// What both kinds refuse alike, and at the same place.
fn refused_in_both(defaults: &[u32], links: &[u32], events: &[u32]) -> (u8, usize) {
    let [base, wide] = KINDS.map(|kind| refused_in(kind, defaults, links, events));
    assert_eq!(base, wide);
    base
}

#[test]
fn writing_a_table_is_refused_as_reading_is() {
    assert_eq!(refused_in_both(&[], &[], &[]), (2, 1));
    let second = |link: [u32; 4]| refused_in_both(&[9, 8, 7], &[&[0, 1, 0, 0], &link[..]].concat(), &[]);
    assert_eq!(second([0, 3, 0, 1]), (4, 22));
    assert_eq!(second([1, 1, 0, 1]), (5, 22));
    assert_eq!(second([1, 0, 2, 1]), (6, 22));
    assert_eq!(second([1, 0, 0, 1]), (7, 22));
    assert_eq!(second([0, 1, 0, 1]), (8, 22));
    assert_eq!(second([0, 2, 0, 1]), (20, 22));
    assert_eq!(second([0, 2, 1, 1]), (0, 31));
    let nine: Vec<u32> = (1..=9).flat_map(|r| [0, r, 0, r / 9]).collect();
    assert_eq!(refused_in_both(&[0; 16], &nine, &[]), (9, 67 + 8 * 7));
    assert_eq!(refused_in(WIDE_KIND, &[0; 32], &nine, &[]), (9, 131 + 8 * 7));
}

#[test]
fn writing_events_is_refused_as_reading_is() {
    let event = |events: &[u32]| refused_in_both(&[9, 8], &[0, 1, 0, 0], events);
    assert_eq!(event(&[1, 1].repeat(10_001)), (10, 18));
    assert_eq!(event(&[&[0][..], &[1, 1].repeat(10_001)].concat()), (11, 20));
    assert_eq!(event(&[1, 0]), (12, 20));
    assert_eq!(event(&[2, 0]), (14, 20));
    assert_eq!(event(&[3, 0]), (15, 20));
    // behind an arrival, whose length is the kind's
    for kind in KINDS {
        let second = |events: &[u32]| refused_in(kind, &[9, 8], &[0, 1, 0, 0], events);
        let place = 20 + 1 + set_size(kind);
        assert_eq!(second(&[1, 1].repeat(10_000)), (13, place));
        assert_eq!(second(&[1, 3, 2, 1]), (16, place));
        assert_eq!(second(&[1, 3, 2, 0]), (0, place + 2));
    }
}

/// The buffer is tried last, and empty slices are slices.
#[test]
fn a_buffer_too_short_is_tried_last() {
    for kind in KINDS {
        assert_eq!(written(kind, &[9, 8], &[0, 1, 2, 0], &[0], 0), (6, 11, vec![]));
        assert_eq!(written(kind, &[9, 8], &[], &[], 0), (18, 13, vec![]));
        assert_eq!(written(kind, &[0], &[], &[], 9), (0, 9, vec![kind as u8, 1, 0, 0, 0, 0, 0, 0, 0]));
    }
}

/// What a round that is written comes to: the refusal and the place. An accepted one is the recording of the round.
fn round_written(kind: u32, tasks: usize, links: usize, set: u32) -> (u8, usize) {
    let t = rings(tasks, links);
    let (defaults, links, events) = numbers(&t, &round(&t, set));
    let (refusal, place, bytes) = written(kind, &defaults, &links, &events, 1258);
    assert!(refusal != 0 || bytes == record(kind, &t, &round(&t, set)));
    (refusal, place)
}

/// Either side of each limit: by the kind that is told, and a set with a bit above 15 is no set of the first kind.
#[test]
fn the_limits_of_the_kind_that_is_told() {
    assert_eq!(round_written(BASE_KIND, 16, 32, 0xffff), (0, 488));
    assert_eq!(round_written(BASE_KIND, 17, 32, 0x1_ffff), (2, 1));
    assert_eq!(round_written(BASE_KIND, 16, 33, 0xffff), (3, 66));
    for bit in 16..32 {
        assert_eq!(round_written(BASE_KIND, 16, 32, 0xffff | 1 << bit), (12, 293));
    }
    assert_eq!(round_written(WIDE_KIND, 16, 32, 0xffff), (0, 490));
    assert_eq!(round_written(WIDE_KIND, 17, 32, 0x1_ffff), (0, 502));
    assert_eq!(round_written(WIDE_KIND, 16, 33, 0xffff), (0, 499));
    assert_eq!(round_written(WIDE_KIND, 16, 32, 0x1_ffff), (12, 293));
    assert_eq!(round_written(WIDE_KIND, 32, 96, u32::MAX), (0, 1258));
    assert_eq!(round_written(WIDE_KIND, 31, 93, u32::MAX), (12, 780));
    assert_eq!(refused_in(WIDE_KIND, &[0; 33], &[], &[]), (2, 1));
    // as many links as there may be, the first of them at fault; then one more, which is only begun
    assert_eq!(refused_in(WIDE_KIND, &[0; 32], &[0; 384], &[]), (5, 131));
    assert_eq!(refused_in(WIDE_KIND, &[0; 32], &[0; 385], &[]), (3, 130));
    assert_eq!(refused_in(BASE_KIND, &[0; 16], &[0; 128], &[]), (5, 67));
    assert_eq!(refused_in(BASE_KIND, &[0; 16], &[0; 129], &[]), (3, 66));
}

/// The longest recording of either kind with fixed priorities, of which all events are finishes: it is read up to the first, since no task runs.
#[test]
fn the_longest_recordings() {
    for (kind, tasks, links, size, first) in [(BASE_KIND, 16, 32, 60_293, 293), (WIDE_KIND, TASKS, LINKS, 60_805, 805)]
    {
        let bytes = record(kind, &rings(tasks, links), &[Finish(0, 1); 10_000]);
        let a = replay(&bytes, &mut []);
        assert_eq!((bytes.len(), a.refusal, a.place, rest(&bytes, &a).len()), (size, 15, first, 60_000));
    }
    assert_eq!(RECORDING, 60_869, "a dated one");
}
