//! The document's own examples, with the bytes and places of request 2026-02,
//! the delayed link from a task to itself of request 2026-04, and the room of a
//! state of request 2026-06.

use oracle::engine::{Engine, FreshEngine};
use oracle::example::long_example;
use oracle::format::{encode, printout, untimed, Counts, Event, Link, Recording, Table};
use oracle::pointers::Pointers;
use oracle::printouts::inspected;
use oracle::sizes::RecordingKind;
use oracle::state::{sound, State};
use oracle::subject::{disagreement, zero_time_reading, Answer, Made, Oracle, Subject};
use oracle::tables::LentTable;

/// The oracle's answer, after checking that zero time says the same.
fn read(bytes: &[u8], room: usize) -> Answer<'_> {
    let lent: Vec<u32> = (0..room as u32).map(|entry| 7_000_000 + entry).collect();
    let answer = Oracle.replay(bytes, &lent);
    assert_eq!(disagreement(&answer, &zero_time_reading(bytes, &lent)), None);
    answer
}

fn verdict(bytes: &[u8]) -> (u8, usize) {
    let answer = read(bytes, 10_000);
    assert_eq!(answer.rest, &bytes[answer.place..]);
    (answer.refusal, answer.place)
}

fn link(writer: u8, reader: u8, kind: u8) -> Link {
    Link { writer, reader, kind, start_value: 0 }
}

fn recording(tasks: usize, links: &[Link], events: &[Event]) -> Recording {
    let table = Table::undated(vec![0; tasks], links.to_vec());
    Recording { kind: RecordingKind::SIXTEEN, table, events: untimed(events) }
}

fn verdict_of(tasks: usize, links: &[Link], events: &[Event]) -> (u8, usize) {
    verdict(&encode(&recording(tasks, links, events)))
}

/// The example with its events after the given number replaced by others.
fn example_then(kept: usize, then: &[Event]) -> (u8, usize) {
    let mut changed = long_example();
    changed.events.truncate(kept);
    changed.events.extend(untimed(then));
    verdict(&encode(&changed))
}

/// Where the first event of the long example stands.
const EXAMPLE_EVENTS: usize = 2 + 16 + 1 + 21 + 2;

const NINE_LINES: &str =
    "read 0 90\nread 1 101\nread 0 101\nread 1 102\nread 0 102\nread 2 101\nread 0 102\nread 2 103\naccepted 35\n";

#[test]
fn the_long_example_prints_its_nine_lines() {
    let bytes = encode(&long_example());
    let answer = read(&bytes, 10_000);
    assert_eq!((answer.refusal, answer.place, answer.rest), (0, 161, &[][..]));
    assert_eq!(answer.counts, Counts { arrivals: 11, starts: 11, reads: 8, finishes: 11 });
    assert_eq!(answer.list[..8], [90, 101, 101, 102, 102, 101, 102, 103]);
    assert_eq!(answer.list[8], 7_000_008);
    assert_eq!(printout(&bytes, answer.refusal, answer.place, answer.counts, &answer.list), NINE_LINES);
    assert_eq!(inspected(&answer), INSPECTED);
}

/// By hand, from the rules.
const INSPECTED: &str = "refusal 0
place 161
counts 11 11 8 11
task 0 idle newest 1 previous 2 cells 0 0 had 2
task 1 idle newest 3 previous 1 cells 102 101 103 100 had 2
task 2 idle newest 1 previous 2 cells 0 0 had 2
task 3 idle newest 1 previous 2 cells 0 0 had 2
link 0 pointer 1
link 1 pointer absent
link 2 pointer absent
rest 0
";

/// Cut inside the first read, which is of the start value.
#[test]
fn a_mark_is_inspected() {
    let bytes = &encode(&long_example())[..48];
    let lines = inspected(&read(bytes, 10_000));
    assert!(
        lines.starts_with("refusal 1\nplace 47\ncounts 4 1 0 0\ntask 0 running newest 2 previous 1 cells 0 0 had 1\n")
    );
    assert!(lines.ends_with("link 0 pointer 1 mark\nlink 1 pointer 2\nlink 2 pointer 2\nrest 1\n"));
}

#[test]
#[rustfmt::skip]
fn the_long_example_has_35_events_in_161_bytes() {
    let expected: &[u8] = &[
        253, 4, 0, 0, 0, 0, 100, 0, 0, 0, 0, 0, 0, 0, 0, 0, 0, 0, // tasks
        3, 1, 0, 1, 90, 0, 0, 0, 1, 2, 0, 0, 0, 0, 0, 1, 3, 0, 0, 0, 0, 0, // links
        35, 0, // E
        1, 15, 0, 2, 0, 3, 0, 4, 0, 0, 0, 0, 0, 2, 1, 4, 1, 101, 0, 0, 0, // A{0,1,2,3} S0 R0 F0 S1 F1=101
        2, 2, 3, 1, 4, 2, 0, 0, 0, 0, 2, 3, // S2 R1 F2 S3
        1, 3, 0, 2, 0, 3, 0, 4, 0, 0, 0, 0, 0, 2, 1, 4, 1, 102, 0, 0, 0, // A{0,1} S0 R0 F0 S1 F1=102
        1, 4, 0, 2, 2, 3, 1, 4, 2, 0, 0, 0, 0, // A{2} S2 R1 F2
        1, 3, 0, 2, 0, 3, 0, 4, 0, 0, 0, 0, 0, 2, 1, 4, 1, 103, 0, 0, 0, // A{0,1} S0 R0 F0 S1 F1=103
        3, 2, 4, 3, 0, 0, 0, 0, // R2 F3
        1, 9, 0, 2, 0, 3, 0, 4, 0, 0, 0, 0, 0, 2, 3, 3, 2, 4, 3, 0, 0, 0, 0, // A{0,3} S0 R0 F0 S3 R2 F3
    ];
    let bytes = encode(&long_example());
    assert_eq!(long_example().events.len(), 35);
    assert_eq!(bytes.len(), 161);
    assert_eq!(bytes, expected);
}

#[test]
fn newest_of_task_1_goes_2_1_3() {
    let mut engine = Pointers::fresh(&long_example().table);
    let mut newest = Vec::new();
    let mut previous = Vec::new();
    for timed in long_example().events {
        engine.apply(timed);
        if let Event::Arrival(set) = timed.event {
            if set & 2 != 0 {
                newest.push(engine.state.newest[1]);
            }
            previous.push(engine.state.previous[1]);
        }
    }
    assert_eq!(newest, [2, 1, 3]);
    // The rule gives 1 where figure 19 prints 2 at times 4 and 5.
    assert_eq!(previous, [1, 2, 2, 1, 1]);
}

#[test]
fn empty_input_is_1_at_0() {
    let answer = read(&[], 3);
    assert_eq!((answer.refusal, answer.place, answer.rest), (1, 0, &[][..]));
    assert_eq!(answer.state, State::single());
    assert_eq!(answer.counts, Counts::default());
    assert_eq!(answer.list, [7_000_000, 7_000_001, 7_000_002]);
    assert_eq!(printout(&[], 1, 0, answer.counts, &answer.list), "refused 1 at 0\n");
}

#[test]
fn the_smallest_recording_is_accepted_and_one_byte_more_is_17_at_9() {
    let mut bytes = vec![253, 1, 0, 0, 0, 0, 0, 0, 0];
    assert_eq!(verdict(&bytes), (0, 9));
    bytes.push(0);
    assert_eq!(verdict(&bytes), (17, 9));
    assert_eq!(read(&bytes, 0).rest, [0]);
}

#[test]
fn t_16_passes_and_17_is_2_at_1() {
    assert_eq!(verdict_of(16, &[], &[]), (0, 2 + 64 + 1 + 2));
    assert_eq!(verdict_of(17, &[], &[]), (2, 1));
    assert_eq!(verdict(&[253, 17]), (2, 1));
    assert_eq!(verdict(&[253, 0]), (2, 1));
}

fn many_links(count: usize) -> Vec<Link> {
    (0..count).map(|number| link((number / 8) as u8, 8 + (number % 8) as u8, 0)).collect()
}

#[test]
fn l_32_passes_and_33_is_3() {
    assert_eq!(verdict_of(16, &many_links(32), &[]), (0, 2 + 64 + 1 + 224 + 2));
    assert_eq!(verdict_of(16, &many_links(33), &[]), (3, 66));
}

#[test]
fn e_10_000_passes_and_10_001_is_10() {
    let round = [Event::Arrival(1), Event::Start(0), Event::Finish(0, 5), Event::Arrival(2), Event::Start(1)];
    let round =
        round.iter().chain(&[Event::Read(0), Event::Read(0), Event::Read(0), Event::Read(0), Event::Finish(1, 0)]);
    let events: Vec<Event> = round.cycle().copied().take(10_001).collect();
    let links = [link(0, 1, 0)];
    let bytes = encode(&recording(2, &links, &events[..10_000]));
    assert_eq!(verdict(&bytes), (0, bytes.len()));
    assert_eq!(verdict_of(2, &links, &events), (10, 2 + 8 + 1 + 7));
}

#[test]
fn a_ninth_link_to_a_reader_behind_is_9() {
    let mut links: Vec<Link> = (1..=8).map(|reader| link(0, reader, 0)).collect();
    assert_eq!(verdict_of(10, &links, &[]).0, 0);
    links.push(link(0, 9, 0));
    assert_eq!(verdict_of(10, &links, &[]), (9, 2 + 40 + 1 + 56));
}

#[test]
fn links_ahead_to_itself_and_of_kind_2() {
    assert_eq!(verdict_of(2, &[link(1, 0, 0)], &[]), (7, 11));
    assert_eq!(verdict_of(2, &[link(1, 0, 1)], &[]), (0, 20));
    assert_eq!(verdict_of(2, &[link(0, 0, 0)], &[]), (5, 11));
    assert_eq!(verdict_of(2, &[link(0, 0, 1)], &[]), (0, 20));
    assert_eq!(verdict_of(2, &[link(0, 1, 2)], &[]), (6, 11));
    // Rising order: no task (4), direct to itself (5), kind (6), direct ahead (7), second (8).
    assert_eq!(verdict_of(2, &[link(2, 2, 0)], &[]), (4, 11));
    assert_eq!(verdict_of(2, &[link(2, 2, 2)], &[]), (4, 11));
    assert_eq!(verdict_of(2, &[link(1, 1, 1), link(1, 1, 0)], &[]), (5, 18));
    assert_eq!(verdict_of(2, &[link(1, 1, 2)], &[]), (6, 11));
    assert_eq!(verdict_of(2, &[link(1, 0, 2)], &[]), (6, 11));
    assert_eq!(verdict_of(2, &[link(1, 0, 1), link(1, 0, 0)], &[]), (7, 18));
    assert_eq!(verdict_of(2, &[link(0, 1, 1), link(0, 1, 0)], &[]), (8, 18));
    assert_eq!(verdict_of(2, &[link(0, 1, 1), link(1, 0, 1)], &[]).0, 0);
}

#[test]
fn a_lent_table_is_judged_count_by_count_and_link_by_link() {
    let refusal = |table: &LentTable| {
        let made = Oracle.fresh(table);
        assert!(made.refusal == 0 || made == Made { refusal: made.refusal, state: State::single() });
        made.refusal
    };
    let lent = |tasks: usize, links: &[Link]| LentTable::of(&recording(tasks, links, &[]).table);
    let lawful = lent(32, &many_links(64));
    assert_eq!(refusal(&lawful), 0);
    for tasks in [0, 33, 256 + 16, 256 + 32, usize::MAX] {
        assert_eq!(refusal(&LentTable { tasks, ..lawful.clone() }), 2);
        assert_eq!(refusal(&LentTable { tasks, links: 97, ..lawful.clone() }), 2);
    }
    for links in [97, 256 + 32, 256 + 96, usize::MAX] {
        assert_eq!(refusal(&LentTable { links, ..lawful.clone() }), 3);
    }
    assert_eq!(refusal(&lent(2, &[link(2, 2, 2)])), 4);
    assert_eq!(refusal(&lent(2, &[link(1, 1, 0)])), 5);
    assert_eq!(refusal(&lent(2, &[link(1, 1, 1)])), 0);
    assert_eq!(refusal(&lent(2, &[link(1, 1, 2)])), 6);
    assert_eq!(refusal(&lent(2, &[link(1, 0, 2)])), 6);
    assert_eq!(refusal(&lent(2, &[link(1, 0, 1), link(1, 0, 0)])), 7);
    assert_eq!(refusal(&lent(2, &[link(0, 1, 1), link(0, 1, 0)])), 8);
    let nine: Vec<Link> = (1..=9).map(|reader| link(0, reader, 0)).collect();
    assert_eq!(refusal(&lent(10, &nine)), 9);
    // The first link at fault decides, and slots past the counts belong to no link.
    assert_eq!(refusal(&lent(2, &[link(0, 1, 2), link(2, 2, 0)])), 6);
    assert_eq!(Oracle.fresh(&lent(4, &long_example().table.links)).state.writer[..4], [1, 1, 1, 0]);
}

#[test]
fn after_the_second_arrival_r2_is_16_and_a3_is_13() {
    let second = 11;
    assert_eq!(long_example().events[second - 1], Event::Arrival(0b0011).into());
    let place = EXAMPLE_EVENTS + 21 + 12 + 3;
    assert_eq!(example_then(second, &[Event::Read(2)]), (16, place));
    assert_eq!(example_then(second, &[Event::Arrival(0b1000)]), (13, place));
}

#[test]
fn s0_twice_is_14_and_r0_before_s0_is_15() {
    assert_eq!(example_then(2, &[Event::Start(0)]), (14, EXAMPLE_EVENTS + 5));
    assert_eq!(example_then(1, &[Event::Read(0)]), (15, EXAMPLE_EVENTS + 3));
}

#[test]
fn an_event_record_is_judged_kind_rest_then_rising_order() {
    let head = encode_with_e(1);
    let with = |more: &[u8]| verdict(&[&head[..], more].concat());
    let place = head.len();
    assert_eq!(with(&[]), (1, place));
    assert_eq!(with(&[0]), (11, place));
    assert_eq!(with(&[5]), (11, place));
    assert_eq!(with(&[1]), (1, place));
    assert_eq!(with(&[1, 0]), (1, place));
    assert_eq!(with(&[1, 0, 0]), (12, place));
    assert_eq!(with(&[1, 4, 0]), (12, place));
    assert_eq!(with(&[2, 2]), (12, place));
    assert_eq!(with(&[3, 1]), (12, place));
    assert_eq!(with(&[4, 9, 0, 0, 0]), (1, place));
    assert_eq!(with(&[4, 9, 0, 0, 0, 0]), (12, place));
    assert_eq!(with(&[1, 1, 0]), (0, place + 3));
    assert_eq!(with(&[1, 1, 0, 9]), (17, place + 3));
}

fn encode_with_e(events: u8) -> Vec<u8> {
    let mut bytes = encode(&recording(2, &[link(0, 1, 0)], &[]));
    let place = bytes.len() - 2;
    bytes[place] = events;
    bytes
}

#[test]
fn a_full_list_is_18_after_12_15_and_16() {
    let events =
        [Event::Arrival(3), Event::Start(0), Event::Finish(0, 8), Event::Start(1), Event::Read(0), Event::Read(0)];
    let bytes = encode(&recording(2, &[link(0, 1, 0)], &events));
    let answer = read(&bytes, 1);
    assert_eq!((answer.refusal, answer.place, answer.rest), (18, bytes.len() - 2, &[3, 0][..]));
    assert_eq!(answer.list, [8]);
    assert_eq!(answer.counts, Counts { arrivals: 2, starts: 2, reads: 1, finishes: 1 });
    let room_for_none = |event| {
        let bytes = encode(&recording(2, &[link(0, 1, 0)], &[Event::Arrival(3), event]));
        read(&bytes, 0).refusal
    };
    assert_eq!(room_for_none(Event::Read(0)), 15);
    assert_eq!(room_for_none(Event::Read(1)), 12);
}

#[test]
fn the_longest_recording_has_60_293_bytes() {
    let head = encode(&recording(16, &many_links(32), &[]));
    assert_eq!(head.len() + 6 * 10_000, 60_293);
    assert_eq!(RecordingKind::SIXTEEN.most_bytes(), 60_293);
}

#[test]
fn a_power_cut_keeps_the_whole_records() {
    let bytes = encode(&long_example());
    let at_start_3 = EXAMPLE_EVENTS + 21 + 12;
    let answer = read(&bytes[..at_start_3 - 1], 10);
    assert_eq!((answer.refusal, answer.place, answer.rest), (1, at_start_3 - 2, &[2][..]));
    assert_eq!(answer.counts, Counts { arrivals: 4, starts: 3, reads: 2, finishes: 3 });
    let early = read(&bytes[..EXAMPLE_EVENTS - 1], 10);
    assert_eq!((early.refusal, early.place, early.rest), (1, EXAMPLE_EVENTS - 2, &[35][..]));
    assert_eq!(early.state, State::single());
}

#[test]
fn a_state_that_is_not_sound_is_19_before_anything_else() {
    let fresh = State::fresh(&long_example().table);
    assert!(sound(&fresh));
    let spoiled = |spoil: &dyn Fn(&mut State)| {
        let mut state = fresh;
        spoil(&mut state);
        let answer = Oracle.one_event(&state, Event::Arrival(0).into());
        assert_eq!((answer.value, answer.state), (0, state));
        answer.refusal
    };
    assert_eq!(spoiled(&|_| {}), 12);
    assert_eq!(spoiled(&|state| state.tasks = 0), 19);
    assert_eq!(spoiled(&|state| state.links = 97), 19);
    assert_eq!(spoiled(&|state| state.phase[0] = 3), 19);
    assert_eq!(spoiled(&|state| state.newest[1] = 5), 19);
    assert_eq!(spoiled(&|state| state.newest[1] = 4), 12);
    assert_eq!(spoiled(&|state| state.previous[0] = 0), 19);
    assert_eq!(spoiled(&|state| state.pointer[1] = 1), 19);
    // A pointer to a reader ahead may stay; before the writer's second arrival its mark does too.
    let pointed = |position: u8| {
        spoiled(&|state| {
            state.pointer[0] = position;
            state.mark[0] = 1;
        })
    };
    assert_eq!(pointed(4), 12);
    assert_eq!(pointed(5), 19);
    let active = |task: usize| {
        spoiled(&|state| {
            state.phase[task] = 1;
            state.seen[task] = 1;
        })
    };
    assert_eq!(active(1), 12);
    assert_eq!(active(2), 19);
    assert_eq!(spoiled(&|state| state.kind[0] = 2), 19);
    // Slots past the counts belong to no task and no link.
    assert_eq!(spoiled(&|state| state.phase[4] = 9), 12);
    assert_eq!(spoiled(&|state| state.pointer[3] = 99), 12);
}

#[test]
fn the_seed_decides_the_corpus() {
    use oracle::corpus::{batch, Corpus};
    use oracle::prng::Prng;
    let draw = |seed| batch(Corpus::ValidDeep, 0, &mut Prng::new(seed))[0].bytes.clone();
    assert_eq!(draw(5), draw(5));
    assert_ne!(draw(5), draw(6));
}
