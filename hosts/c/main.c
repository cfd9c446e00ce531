/* A host in C. It asks the library for its sizes, and sees that they are the header's; replays a recording and prints what was read and
 * counted, then gives the same events one by one to a saved state of its own and sees that both end in the same state; then gives some
 * events that are refused; then tries each call at edge sizes; then writes the recording itself, in both kinds with fixed priorities, replays
 * what it wrote, and has some writing refused; then holds each kind to its limits; then reads the start value of a delayed link up to its
 * writer's second arrival, and has a state refused after each change that makes it unsound; then has a task read its own last output; then
 * holds a state to its room; then gives events at ticks to a state by deadlines, and has ticks, deadlines and states refused there; then writes
 * a dated recording, replays it, gives the same events one by one and sees that both end in the same state, and has some writing refused; then
 * sees that each named field of a state stands where the library has it.
 *
 *     host FILE       the long example of docs/FORMAT.md (recordings/figure-17.rec)
 */
#include <stddef.h>
#include <stdio.h>
#include <string.h>

#include "parnusild.h"

/* the longest recording and one byte more; as many numbers as a recording can read */
static uint8_t bytes[PARNUSILD_RECORDING + 1];
static uint32_t numbers[PARNUSILD_EVENTS];

struct event {
    uint8_t kind;
    uint32_t which;
    uint32_t value;
};

/* the long example: A{..} arrival, S start, R read, F finish */
#define A(set) { PARNUSILD_ARRIVAL, set, 0 }
#define S(task) { PARNUSILD_START, task, 0 }
#define R(link) { PARNUSILD_READ, link, 0 }
#define F(task, value) { PARNUSILD_FINISH, task, value }
static const struct event example[] = {
    A(0xf), S(0), R(0), F(0, 0), S(1), F(1, 101), S(2), R(1), F(2, 0), S(3),
    A(0x3), S(0), R(0), F(0, 0), S(1), F(1, 102),
    A(0x4), S(2), R(1), F(2, 0),
    A(0x3), S(0), R(0), F(0, 0), S(1), F(1, 103), R(2), F(3, 0),
    A(0x9), S(0), R(0), F(0, 0), S(3), R(2), F(3, 0),
};

/* its table: four tasks, links 1 to 0 delayed with start value 90, 1 to 2 direct, 1 to 3 direct */
static const struct parnusild_table table = {
    .tasks = 4,
    .links = 3,
    .defaults = { 0, 100, 0, 0 },
    .writer = { 1, 1, 1 },
    .reader = { 0, 2, 3 },
    .kind = { 1, 0, 0 },
    .start_value = { 90, 0, 0 },
};

/* what the library says of its sizes, and whether the header's are the same; then with each of them off by one */
static void sizes(void)
{
    size_t of_library[PARNUSILD_SIZES] = { 0 };
    int i;
    parnusild_sizes(of_library);
    printf("sizes");
    for (i = 0; i < PARNUSILD_SIZES; i++)
        printf(" %zu", of_library[i]);
    printf(": %s\n", parnusild_fits(of_library) ? "the header's" : "NOT the header's");
    for (i = 0; i < PARNUSILD_SIZES; i++) {
        of_library[i]++;
        printf("size %d one more: %s\n", i, parnusild_fits(of_library) ? "FITS" : "does not fit");
        of_library[i]--;
    }
    printf("a recording has at most %d bytes\n", PARNUSILD_RECORDING);
}

/* whether two states hold the same */
static int same(const struct parnusild_state *a, const struct parnusild_state *b)
{
    return a->tasks == b->tasks && a->links == b->links && !memcmp(&a->control, &b->control, sizeof a->control)
        && !memcmp(&a->values, &b->values, sizeof a->values) && !memcmp(&a->times, &b->times, sizeof a->times);
}

/* the replay of a whole recording */
static void replay(const uint8_t *recording, size_t size, struct parnusild_state *state)
{
    struct parnusild_answer answer;
    size_t i;
    parnusild_state_replay(state, &answer, recording, size, numbers, PARNUSILD_EVENTS);
    printf("refusal %u at %zu of %zu\n", answer.refusal, answer.place, size);
    printf("arrivals %zu, starts %zu, reads %zu, finishes %zu\n", answer.arrivals, answer.starts, answer.reads, answer.finishes);
    for (i = 0; i < answer.reads; i++)
        printf("read %u\n", (unsigned)numbers[i]);
}

/* the events one by one, on a saved state */
static void one_by_one(struct parnusild_state *state)
{
    size_t i, done = 0, reads = 0, alike = 0;
    uint32_t number;
    printf("fresh %u\n", parnusild_state_fresh(state, &table));
    for (i = 0; i < sizeof example / sizeof example[0]; i++) {
        const struct event *e = &example[i];
        if (parnusild_state_event(state, e->kind, e->which, e->value, &number) == 0)
            done++;
        if (e->kind == PARNUSILD_READ)
            alike += number == numbers[reads++];
        if (e->kind == PARNUSILD_ARRIVAL && e->which & 2)
            printf("newest of task 1: %u\n", state->control.newest[1]);
    }
    printf("accepted %zu of %zu, numbers alike %zu of %zu\n", done, i, alike, reads);
}

/* an event that is refused: its number, whether it left the state, and what it left in `number` */
static void refuse(const char *what, struct parnusild_state *state, uint8_t kind, uint32_t which)
{
    const struct parnusild_state before = *state;
    uint32_t number = 77;
    unsigned refusal = parnusild_state_event(state, kind, which, 5, &number);
    printf("%s: refusal %u, state %s, number %u\n", what, refusal, same(state, &before) ? "kept" : "CHANGED", (unsigned)number);
}

/* a task runs whole, one call for each kind of event */
static void run_whole(struct parnusild_state *state)
{
    uint32_t number;
    printf("arrival %u\n", parnusild_state_arrival(state, 1));
    printf("start %u\n", parnusild_state_start(state, 0));
    printf("read %u", parnusild_state_read(state, 0, &number));
    printf(" number %u\n", (unsigned)number);
    printf("finish %u\n", parnusild_state_finish(state, 0, 9));
}

/* events that are refused by a state whose tasks are idle, by one with active tasks, and by one that isn't sound */
static void refusals(struct parnusild_state *state)
{
    refuse("unknown kind 0", state, 0, 0);
    refuse("unknown kind 5", state, 5, 0);
    refuse("unknown kind 255", state, 255, 0);
    refuse("empty set", state, PARNUSILD_ARRIVAL, 0);
    refuse("task 31 arrives", state, PARNUSILD_ARRIVAL, 0x80000000);
    refuse("task 256", state, PARNUSILD_START, 256);
    refuse("link 256", state, PARNUSILD_READ, 256);
    refuse("task 4294967295", state, PARNUSILD_FINISH, 0xffffffff);
    refuse("idle task starts", state, PARNUSILD_START, 0);
    refuse("idle task reads", state, PARNUSILD_READ, 0);
    parnusild_state_arrival(state, 4);
    parnusild_state_start(state, 2);
    parnusild_state_arrival(state, 1);
    refuse("active task arrives", state, PARNUSILD_ARRIVAL, 5);
    refuse("task ahead is active", state, PARNUSILD_READ, 1);
    state->control.newest[0] = 0;
    refuse("unsound", state, PARNUSILD_START, 0);
    refuse("unsound, unknown kind", state, 9, 0);
    refuse("unsound, task 256", state, PARNUSILD_START, 256);
}

/* a table: the refusal that it earns, and its state, or the single task's instead */
static void make(const char *what, const struct parnusild_table *tried)
{
    struct parnusild_state state;
    unsigned refusal;
    memset(&state, 0x55, sizeof state);
    refusal = parnusild_state_fresh(&state, tried);
    printf("%s: refusal %u, tasks %zu, links %zu\n", what, refusal, state.tasks, state.links);
}

/* tables on either side of the room for tasks, and past that for links; then refused ones */
static void tables(void)
{
    struct parnusild_table other = table;
    other.tasks = 17;
    make("17 tasks", &other);
    other.tasks = 32;
    make("32 tasks", &other);
    other.tasks = 33;
    make("33 tasks", &other);
    other.tasks = 4;
    other.links = 97;
    make("97 links", &other);
    other.links = 3;
    other.kind[0] = 0;
    make("direct link to a reader ahead", &other);
    other.kind[0] = 1;
    other.start_value[2] = 1;
    make("direct link with a start value", &other);
    other.start_value[2] = 0;
    other.writer[2] = 3;
    make("direct link from a task to itself", &other);
    other.kind[2] = 2;
    make("link of kind 2 from a task to itself", &other);
}

/* the entry past the lent ones, which was 77 before; without a list there is none that a replay could reach */
static const char *past(const uint32_t *list, size_t room)
{
    if (!list)
        return "none lent";
    return list[room] == 77 ? "past kept" : "past CHANGED";
}

/* a replay at an edge size: its refusal and place, how many numbers it read, how many bytes are left unread, and whether the entry past the
 * lent ones is as it was */
static void edge(const char *what, const uint8_t *lent, size_t size, uint32_t *list, size_t room)
{
    struct parnusild_state state;
    struct parnusild_answer answer;
    const uint8_t *rest;
    size_t left = 77;
    if (list)
        list[room] = 77;
    parnusild_state_replay(&state, &answer, lent, size, list, room);
    rest = parnusild_recording_rest(&answer, lent, size, &left);
    printf("%s: refusal %u at %zu, reads %zu, tasks %zu, left %zu%s, %s\n", what, answer.refusal, answer.place, answer.reads,
           state.tasks, left, rest == (lent ? lent + answer.place : lent) ? "" : " ELSEWHERE", past(list, room));
}

/* the least recording of a kind, and on either side of it */
static void least_of_kind(uint8_t kind)
{
    const uint8_t least[10] = { kind, 1 }; /* one task, no links, no events; and a byte more */
    printf("kind %u\n", kind);
    edge("least recording", least, 9, NULL, 0);
    edge("one byte short", least, 8, NULL, 0);
    edge("one byte more", least, 10, NULL, 0);
    edge("first byte alone", least, 1, NULL, 0);
}

/* likewise of a dated one, whose task has a relative deadline; without one it is 24 */
static void least_dated(void)
{
    const uint8_t least[12] = { PARNUSILD_KIND_DATED, 1, 0, 0, 0, 0, 1 };
    const uint8_t without[12] = { PARNUSILD_KIND_DATED, 1 };
    printf("kind %u\n", PARNUSILD_KIND_DATED);
    edge("least recording", least, 11, NULL, 0);
    edge("one byte short", least, 10, NULL, 0);
    edge("one byte more", least, 12, NULL, 0);
    edge("first byte alone", least, 1, NULL, 0);
    edge("a byte of its relative deadline", least, 7, NULL, 0);
    edge("no relative deadline", without, 11, NULL, 0);
}

static void edge_sizes(size_t size)
{
    edge("room one more", bytes, size, numbers, 9);
    edge("room exact", bytes, size, numbers, 8);
    edge("room one short", bytes, size, numbers, 7);
    edge("room 0", bytes, size, numbers, 0);
    edge("room 0, no list", bytes, size, NULL, 0);
    edge("no bytes", NULL, 0, NULL, 0);
    least_of_kind(252);
    least_of_kind(PARNUSILD_KIND_BASE);
    least_of_kind(PARNUSILD_KIND_WIDE);
    least_dated();
}

/* the buffer that is written to, 77 in each byte before */
static uint8_t written[PARNUSILD_RECORDING];

/* whether a byte of the buffer is no longer 77, from a place on */
static int touched(size_t from)
{
    for (; from < sizeof written; from++)
        if (written[from] != 77)
            return 1;
    return 0;
}

/* the example's events as numbers; how many numbers those are */
static size_t as_numbers(uint32_t *list)
{
    size_t i, size = 0;
    for (i = 0; i < sizeof example / sizeof example[0]; i++) {
        list[size++] = example[i].kind;
        list[size++] = example[i].which;
        if (example[i].kind == PARNUSILD_FINISH)
            list[size++] = example[i].value;
    }
    return size;
}

/* what is handed over to be written */
struct handover {
    uint32_t kind;
    const uint32_t *tasks;
    size_t tasks_size;
    const uint32_t *links;
    size_t links_size;
    const uint32_t *events;
    size_t events_size;
};

/* written with so much room: the refusal, the place, and whether the bytes that must be as they were are so, all of them on a refusal and
 * else the rest; how many bytes were written */
static size_t put(const char *what, const struct handover *h, size_t room)
{
    size_t place = 77;
    unsigned refusal;
    memset(written, 77, sizeof written);
    refusal = parnusild_recording_write(h->kind, h->tasks, h->tasks_size, h->links, h->links_size, h->events, h->events_size, written,
                                        room, &place);
    printf("%s: refusal %u at %zu, %s %s\n", what, refusal, place, refusal ? "buffer" : "rest",
           touched(refusal ? 0 : place) ? "CHANGED" : "kept");
    return refusal ? 0 : place;
}

/* the example's links as numbers */
static const uint32_t example_links[] = { 1, 0, 1, 90, 1, 2, 0, 0, 1, 3, 0, 0 };

/* the example of a kind, with its events as numbers */
static struct handover example_of(uint32_t kind, const uint32_t *events, size_t events_size)
{
    const struct handover whole = {
        kind, table.defaults, table.tasks, example_links, sizeof example_links / sizeof example_links[0], events, events_size
    };
    return whole;
}

/* the example with one of its events' numbers changed, which is then put back */
static void put_with(const char *what, const struct handover *h, uint32_t *number, uint32_t changed, size_t room)
{
    const uint32_t kept = *number;
    *number = changed;
    put(what, h, room);
    *number = kept;
}

/* the example of the first kind is written as it stands in the file, and is accepted; then what is refused */
static void writing(size_t size)
{
    uint32_t events[3 * sizeof example / sizeof example[0]];
    const size_t all = as_numbers(events);
    const struct handover whole = example_of(PARNUSILD_KIND_BASE, events, all);
    struct handover other = whole;
    const size_t place = put("written", &whole, sizeof written);
    printf("bytes %s\n", place == size && !memcmp(written, bytes, size) ? "as in the file" : "DIFFER");
    edge("replay of what was written", written, place, numbers, 9);
    put("exact room", &whole, size);
    put("one byte short", &whole, size - 1);
    put("no room", &whole, 0);
    other.events_size = all - 1;
    put("event begun", &other, sizeof written);
    other.events = NULL;
    other.events_size = 0;
    put("no events", &other, sizeof written);
    other = whole;
    other.links_size = 11;
    put("link begun", &other, sizeof written);
    put_with("unknown kind 258", &whole, &events[2], 256 + PARNUSILD_START, sizeof written);
    put_with("start of task 256", &whole, &events[3], 256, sizeof written);
    put_with("start of task 1 before task 0", &whole, &events[3], 1, 0);
}

/* the example of the other kind: two bytes more for each of its five arrivals, and nothing else of the answer is another; then kinds that
 * there are not, before all else */
static void writing_wide(const struct parnusild_state *state_of_file)
{
    static const uint32_t none[] = { 0, 252, 256 + PARNUSILD_KIND_BASE, 256 + PARNUSILD_KIND_WIDE, 256 + PARNUSILD_KIND_DATED, 0xffffffff };
    uint32_t events[3 * sizeof example / sizeof example[0]];
    const size_t all = as_numbers(events);
    const struct handover whole = example_of(PARNUSILD_KIND_WIDE, events, all);
    const struct handover nothing = { 0, NULL, 0, NULL, 0, NULL, 0 };
    struct parnusild_state state;
    struct handover other = whole;
    const size_t place = put("written, wide", &whole, sizeof written);
    size_t i;
    replay(written, place, &state);
    printf("states %s\n", same(&state, state_of_file) ? "alike" : "DIFFER");
    put("exact room, wide", &whole, place);
    put("one byte short, wide", &whole, place - 1);
    put_with("start of task 256, wide", &whole, &events[3], 256, sizeof written);
    for (i = 0; i < sizeof none / sizeof none[0]; i++) {
        other.kind = none[i];
        printf("kind %u, ", (unsigned)other.kind);
        put("to be written", &other, sizeof written);
    }
    put("nothing to write, of kind 0", &nothing, 0);
    other = nothing;
    other.kind = PARNUSILD_KIND_BASE;
    put("nothing to write", &other, 0);
}

/* links in rings of so many tasks: each task writes to the next one, then each to the one before, then each to itself; the reader of one */
static size_t ring_reader(size_t tasks, size_t link)
{
    const size_t steps[] = { 1, tasks - 1, 0 };
    return (link + steps[link / tasks % 3]) % tasks;
}

/* its kind: direct where the reader is behind */
static uint8_t ring_kind(size_t tasks, size_t link)
{
    return ring_reader(tasks, link) <= link % tasks;
}

/* its start value: a delayed one has its own */
static uint32_t ring_start_value(size_t tasks, size_t link)
{
    return ring_kind(tasks, link) ? 2000 + (uint32_t)link : 0;
}

/* so many links of rings as numbers; how many numbers those are */
static size_t rings_as_numbers(uint32_t *list, size_t tasks, size_t links)
{
    size_t i, size = 0;
    for (i = 0; i < links; i++) {
        list[size++] = (uint32_t)(i % tasks);
        list[size++] = (uint32_t)ring_reader(tasks, i);
        list[size++] = ring_kind(tasks, i);
        list[size++] = ring_start_value(tasks, i);
    }
    return size;
}

/* a round of the rings as numbers: a set arrives, then each task starts, reads by all its links and finishes with 500 and its number; how many
 * numbers those are */
static size_t round_as_numbers(uint32_t *list, uint32_t set, size_t tasks, size_t links)
{
    size_t task, link, size = 0;
    list[size++] = PARNUSILD_ARRIVAL;
    list[size++] = set;
    for (task = 0; task < tasks; task++) {
        list[size++] = PARNUSILD_START;
        list[size++] = (uint32_t)task;
        for (link = 0; link < links; link++)
            if (ring_reader(tasks, link) == task) {
                list[size++] = PARNUSILD_READ;
                list[size++] = (uint32_t)link;
            }
        list[size++] = PARNUSILD_FINISH;
        list[size++] = (uint32_t)task;
        list[size++] = 500 + (uint32_t)task;
    }
    return size;
}

/* makes what is handed over dated: each task has the relative deadline 9, so that the order is still the table's, and each event the tick 7 */
static void date(struct handover *h)
{
    static uint32_t tasks[2 * (PARNUSILD_TASKS + 1)], events[4 * (PARNUSILD_EVENTS_DATED + 1)];
    size_t at, of_event, size = 0;
    for (at = 0; at < h->tasks_size; at++) {
        tasks[2 * at] = h->tasks[at];
        tasks[2 * at + 1] = 9;
    }
    for (at = 0; at < h->events_size; at += of_event) {
        of_event = h->events[at] == PARNUSILD_FINISH ? 3 : 2;
        events[size++] = h->events[at];
        events[size++] = 7;
        memcpy(&events[size], &h->events[at + 1], (of_event - 1) * sizeof events[0]);
        size += of_event - 1;
    }
    h->tasks = tasks;
    h->tasks_size *= 2;
    h->events = events;
    h->events_size = size;
}

/* a round of so many tasks and links, written in a kind; how many bytes were written */
static size_t put_rings(uint32_t kind, size_t tasks, size_t links, uint32_t set)
{
    static uint32_t defaults[PARNUSILD_TASKS + 1], list[4 * (PARNUSILD_LINKS + 1)];
    static uint32_t events[2 + 5 * (PARNUSILD_TASKS + 1) + 2 * (PARNUSILD_LINKS + 1)];
    struct handover h = { 0, defaults, 0, list, 0, events, 0 };
    h.kind = kind;
    h.tasks_size = tasks;
    h.links_size = rings_as_numbers(list, tasks, links);
    h.events_size = round_as_numbers(events, set, tasks, links);
    if (kind == PARNUSILD_KIND_DATED)
        date(&h);
    printf("kind %u, %zu tasks, %zu links, set %x, ", (unsigned)kind, tasks, links, (unsigned)set);
    return put("to be written", &h, sizeof written);
}

/* likewise, and then replayed: what is said of it, and the last number read; then with another kind in its first byte */
static void try_rings(uint32_t kind, size_t tasks, size_t links, uint32_t set)
{
    const size_t size = put_rings(kind, tasks, links, set);
    if (size == 0)
        return;
    edge("replayed", written, size, numbers, links);
    printf("the last number read: %u\n", (unsigned)numbers[links - 1]);
    written[0] = kind == PARNUSILD_KIND_WIDE ? PARNUSILD_KIND_BASE : PARNUSILD_KIND_WIDE;
    edge("replayed in another kind", written, size, numbers, links);
}

/* so many events of one task, which runs again and again, written in a kind and then replayed */
static void try_events(uint32_t kind, size_t count)
{
    static const uint32_t task[] = { 5 }, run_of_it[] = { PARNUSILD_ARRIVAL, 1, PARNUSILD_START, 0, PARNUSILD_FINISH, 0, 9 };
    static uint32_t events[3 * (PARNUSILD_EVENTS + 1)];
    struct handover h = { 0, task, 1, NULL, 0, events, 0 };
    size_t i, size;
    h.kind = kind;
    h.events_size = count / 3 * 7 + count % 3 * 2; /* the arrival and the start have two numbers, the finish three */
    for (i = 0; i < h.events_size; i++)
        events[i] = run_of_it[i % 7];
    if (kind == PARNUSILD_KIND_DATED)
        date(&h);
    printf("kind %u, %zu events, ", (unsigned)kind, count);
    size = put("to be written", &h, sizeof written);
    if (size != 0)
        edge("replayed", written, size, NULL, 0);
}

/* either side of the first kind's limits, 16 tasks, 32 links, and task 15 in a set, for a recording of any kind */
static void base_limits(uint32_t kind)
{
    try_rings(kind, 16, 32, 0xffff);
    try_rings(kind, 17, 32, 0x1ffff);
    try_rings(kind, 16, 33, 0xffff);
    try_rings(kind, 16, 32, 0x1ffff);
}

/* likewise of the other two kinds, 32, 96 and 31 */
static void wide_limits(uint32_t kind)
{
    try_rings(kind, 32, 96, 0xffffffff);
    try_rings(kind, 33, 96, 0xffffffff);
    try_rings(kind, 32, 97, 0xffffffff);
    try_rings(kind, 31, 93, 0xffffffff);
}

/* the first kind's in both kinds with fixed priorities, the other two's, and either side of the most events of each */
static void limits(void)
{
    base_limits(PARNUSILD_KIND_BASE);
    base_limits(PARNUSILD_KIND_WIDE);
    wide_limits(PARNUSILD_KIND_WIDE);
    wide_limits(PARNUSILD_KIND_DATED);
    try_events(PARNUSILD_KIND_BASE, PARNUSILD_EVENTS);
    try_events(PARNUSILD_KIND_BASE, PARNUSILD_EVENTS + 1);
    try_events(PARNUSILD_KIND_WIDE, PARNUSILD_EVENTS);
    try_events(PARNUSILD_KIND_WIDE, PARNUSILD_EVENTS + 1);
    try_events(PARNUSILD_KIND_DATED, PARNUSILD_EVENTS_DATED);
    try_events(PARNUSILD_KIND_DATED, PARNUSILD_EVENTS_DATED + 1);
}

/* a waiting task starts and finishes; 0 where neither is refused */
static unsigned run(struct parnusild_state *state, uint32_t task, uint32_t value)
{
    const unsigned refusal = parnusild_state_start(state, task);
    return refusal | parnusild_state_finish(state, task, value);
}

/* the fresh state of two tasks and a delayed link either way, each with a start value: link 0 from task 1 to task 0, link 1 back */
static struct parnusild_state both_ways(void)
{
    static const struct parnusild_table both = {
        .tasks = 2,
        .links = 2,
        .defaults = { 5, 6 },
        .writer = { 1, 0 },
        .reader = { 0, 1 },
        .kind = { 1, 1 },
        .start_value = { 90, 80 },
    };
    struct parnusild_state state;
    parnusild_state_fresh(&state, &both);
    return state;
}

/* a waiting task starts, reads by a link and finishes; then pointer and mark of the link */
static void run_and_read(struct parnusild_state *state, uint32_t task, uint32_t link, uint32_t value)
{
    uint32_t number = 77;
    unsigned refusal = parnusild_state_start(state, task);
    refusal |= parnusild_state_read(state, link, &number);
    printf("task %u reads %u, mark %u;", (unsigned)task, (unsigned)number, state->control.mark[link]);
    refusal |= parnusild_state_finish(state, task, value);
    printf(" after its finish pointer %u, mark %u%s\n", state->control.pointer[link], state->control.mark[link],
           refusal ? ", REFUSED" : "");
}

/* at their first arrival both tasks read a start value, and so does task 0 at its second, since task 1 has had one; then both arrive
 * again, and each reads what the other had put out last before that arrival */
static void start_values(void)
{
    struct parnusild_state state = both_ways();
    printf("arrival of both %u\n", parnusild_state_arrival(&state, 0x3));
    run_and_read(&state, 0, 0, 10);
    run_and_read(&state, 1, 1, 11);
    printf("arrival of task 0 %u\n", parnusild_state_arrival(&state, 0x1));
    run_and_read(&state, 0, 0, 20);
    printf("arrival of both %u\n", parnusild_state_arrival(&state, 0x3));
    run_and_read(&state, 0, 0, 30);
    run_and_read(&state, 1, 1, 31);
}

/* the same tasks: task 1 waits after its second arrival, task 0 is idle after one; both links have a mark */
static struct parnusild_state task_1_waits(void)
{
    struct parnusild_state state = both_ways();
    unsigned refusals = parnusild_state_arrival(&state, 0x3);
    refusals |= run(&state, 0, 10);
    refusals |= run(&state, 1, 11);
    refusals |= parnusild_state_arrival(&state, 0x2);
    printf("task 1 waits: %s,", refusals ? "REFUSED" : "accepted");
    printf(" seen %u %u, mark %u %u\n", state.control.seen[0], state.control.seen[1], state.control.mark[0], state.control.mark[1]);
    return state;
}

/* the start of task 1 with one byte of the state changed, which is then put back */
static void refuse_with(const char *what, struct parnusild_state *state, uint8_t *field, uint8_t byte)
{
    const uint8_t kept = *field;
    *field = byte;
    refuse(what, state, PARNUSILD_START, 1);
    *field = kept;
}

/* what soundness asks of arrivals, marks and start values, each broken by a change of that state; then a change that breaks nothing */
static void unsound_by_one_change(void)
{
    struct parnusild_state state = task_1_waits(), direct = state;
    refuse_with("seen 3", &state, &state.control.seen[0], 3);
    refuse_with("waiting without arrivals", &state, &state.control.seen[1], 0);
    refuse_with("mark 2", &state, &state.control.mark[0], 2);
    refuse_with("mark at an absent pointer", &state, &state.control.pointer[0], 0);
    refuse_with("no mark, writer with one arrival", &state, &state.control.mark[1], 0);
    direct.control.kind[1] = 0;
    direct.values.start_value[1] = 0;
    refuse("mark at a direct link", &direct, PARNUSILD_START, 1);
    direct.control.mark[1] = 0;
    direct.values.start_value[1] = 80;
    refuse("start value at a direct link", &direct, PARNUSILD_START, 1);
    state.control.mark[0] = 0;
    printf("no mark, writer with two arrivals: start %u\n", parnusild_state_start(&state, 1));
}

/* a filter, which adds 1 to its own last output: it reads that by a delayed link to itself, in its first run the start value 40 */
static void filter(void)
{
    static const struct parnusild_table own = {
        .tasks = 1,
        .links = 1,
        .defaults = { 7 },
        .writer = { 0 },
        .reader = { 0 },
        .kind = { 1 },
        .start_value = { 40 },
    };
    struct parnusild_state state;
    uint32_t number;
    unsigned refusals = parnusild_state_fresh(&state, &own);
    int i;
    for (i = 0; i < 4; i++) {
        refusals |= parnusild_state_arrival(&state, 1);
        refusals |= parnusild_state_start(&state, 0);
        refusals |= parnusild_state_read(&state, 0, &number);
        refusals |= parnusild_state_finish(&state, 0, number + 1);
        printf("the filter reads %u; after its finish pointer %u, mark %u\n", (unsigned)number, state.control.pointer[0],
               state.control.mark[0]);
    }
    printf("its runs: %s\n", refusals ? "REFUSED" : "accepted");
}

/* an event at a tick: its refusal; then what it left of the state and of `number`, or the last tick and the number */
static void give(const char *what, struct parnusild_state *state, uint32_t tick, uint8_t kind, uint32_t which, uint32_t value)
{
    const struct parnusild_state before = *state;
    uint32_t number = 77;
    unsigned refusal = parnusild_state_event_at(state, tick, kind, which, value, &number);
    printf("%s at %u: refusal %u, ", what, (unsigned)tick, refusal);
    if (refusal)
        printf("state %s", same(state, &before) ? "kept" : "CHANGED");
    else
        printf("last %u", (unsigned)state->times.last);
    printf(", number %u\n", (unsigned)number);
}

/* two tasks with relative deadlines 5 and 2, so that task 1 is ahead; a direct link from it to task 0, and a delayed one back */
static const struct parnusild_table dated_table = {
    .tasks = 2,
    .links = 2,
    .defaults = { 100, 101 },
    .writer = { 1, 0 },
    .reader = { 0, 1 },
    .kind = { 0, 1 },
    .start_value = { 0, 40 },
};
static const uint16_t relative[PARNUSILD_TASKS] = { 5, 2 };

/* what a table and relative deadlines make: the refusal, the tasks, and the policy */
static void make_dated(const char *what, const struct parnusild_table *tried, const uint16_t *deadlines)
{
    struct parnusild_state state;
    unsigned refusal;
    memset(&state, 0x55, sizeof state);
    refusal = parnusild_state_fresh_dated(&state, tried, deadlines);
    printf("%s: refusal %u, tasks %zu, policy %u\n", what, refusal, state.tasks, (unsigned)state.times.policy);
}

/* tables with relative deadlines: 2, then 24, then 3, then links by their order */
static void dated_tables(void)
{
    uint16_t other[PARNUSILD_TASKS] = { 2, 5 };
    struct parnusild_table tried = dated_table;
    make_dated("relative deadlines 5 and 2", &tried, relative);
    make_dated("2 and 5, a direct link to a reader ahead", &tried, other);
    other[0] = 5;
    make_dated("5 and 5, likewise", &tried, other);
    other[1] = 0;
    make_dated("5 and none", &tried, other);
    tried.links = 97;
    make_dated("5 and none, 97 links", &tried, other);
    make_dated("5 and 2, 97 links", &tried, relative);
    tried.tasks = 33;
    make_dated("5 and none, 33 tasks, 97 links", &tried, other);
}

/* task 0 is due at 5; so is task 1, which arrives at 3 and goes first, and again at 4 and is then due at 6; task 0 finishes at its deadline */
static void by_deadlines(struct parnusild_state *state)
{
    uint32_t number = 77;
    printf("fresh %u\n", parnusild_state_fresh_dated(state, &dated_table, relative));
    printf("arrival %u\n", parnusild_state_arrival_at(state, 0, 0x1));
    printf("start %u\n", parnusild_state_start_at(state, 1, 0));
    printf("arrival %u\n", parnusild_state_arrival_at(state, 3, 0x2));
    give("read while a job is due at once, of a task ahead", state, 3, PARNUSILD_READ, 0, 0);
    printf("start %u\n", parnusild_state_start_at(state, 3, 1));
    printf("read %u", parnusild_state_read_at(state, 3, 1, &number));
    printf(" number %u\n", (unsigned)number);
    printf("finish %u\n", parnusild_state_finish_at(state, 3, 1, 11));
    printf("arrival %u\n", parnusild_state_arrival_at(state, 4, 0x2));
    printf("since %u %u\n", (unsigned)state->times.since[0], (unsigned)state->times.since[1]);
    give("start of a job that is due later", state, 4, PARNUSILD_START, 1, 0);
    printf("read %u", parnusild_state_read_at(state, 4, 0, &number));
    printf(" number %u\n", (unsigned)number);
    give("finish one tick after its deadline", state, 6, PARNUSILD_FINISH, 0, 5);
    printf("finish %u\n", parnusild_state_finish_at(state, 5, 0, 5));
    printf("since %u %u\n", (unsigned)state->times.since[0], (unsigned)state->times.since[1]);
}

/* ticks on either side of the last one and of the limit; what comes before a tick, and what after it */
static void ticks(struct parnusild_state *state)
{
    give("unknown kind 5", state, 0, 5, 0, 0);
    give("empty set", state, 4, PARNUSILD_ARRIVAL, 0, 0);
    give("task 256", state, 0xffffffff, PARNUSILD_START, 256, 0);
    give("active task arrives", state, 4, PARNUSILD_ARRIVAL, 0x2, 0);
    give("active task arrives", state, PARNUSILD_MOST_TICK + 1, PARNUSILD_ARRIVAL, 0x2, 0);
    give("active task arrives", state, PARNUSILD_MOST_TICK, PARNUSILD_ARRIVAL, 0x2, 0);
    give("idle task starts", state, 4, PARNUSILD_START, 0, 0);
    give("idle task starts", state, 5, PARNUSILD_START, 0, 0);
    give("waiting task finishes", state, 9, PARNUSILD_FINISH, 1, 0);
    give("waiting task starts late", state, PARNUSILD_MOST_TICK, PARNUSILD_START, 1, 0);
    give("idle task arrives", state, PARNUSILD_MOST_TICK, PARNUSILD_ARRIVAL, 0x1, 0);
    give("late task finishes", state, PARNUSILD_MOST_TICK, PARNUSILD_FINISH, 1, 0);
}

/* two tasks with one relative deadline that arrive at once: the order of the table decides */
static void tie_by_table(void)
{
    static const struct parnusild_table two = { .tasks = 2 };
    static const uint16_t alike[PARNUSILD_TASKS] = { 4, 4 };
    struct parnusild_state state;
    unsigned refusals = parnusild_state_fresh_dated(&state, &two, alike);
    refusals |= parnusild_state_arrival_at(&state, 3, 0x3);
    printf("both arrive: %s\n", refusals ? "REFUSED" : "accepted");
    give("start of the later in the table", &state, 3, PARNUSILD_START, 1, 0);
    give("start of the earlier in the table", &state, 3, PARNUSILD_START, 0, 0);
}

/* the largest relative deadline: a finish one tick after it, and at it */
static void largest_deadline(void)
{
    static const struct parnusild_table one = { .tasks = 1 };
    static const uint16_t largest[PARNUSILD_TASKS] = { 65535 };
    struct parnusild_state state;
    unsigned refusals = parnusild_state_fresh_dated(&state, &one, largest);
    refusals |= parnusild_state_arrival_at(&state, 1000, 0x1);
    refusals |= parnusild_state_start_at(&state, 1000, 0);
    printf("relative deadline 65535, from 1000 on: %s\n", refusals ? "REFUSED" : "accepted");
    give("finish one tick after its deadline", &state, 1000 + 65536, PARNUSILD_FINISH, 0, 5);
    give("finish at its deadline", &state, 1000 + 65535, PARNUSILD_FINISH, 0, 5);
}

/* a number of the times changed, which is then put back: the arrival of task 0 */
static void arrive_with(const char *what, struct parnusild_state *state, uint32_t *field, uint32_t changed)
{
    struct parnusild_state tried;
    const uint32_t kept = *field;
    *field = changed;
    tried = *state;
    give(what, &tried, 9, PARNUSILD_ARRIVAL, 0x1, 0);
    *field = kept;
}

/* what soundness asks of times; then each call on a state of the other policy */
static void unsound_times(void)
{
    struct parnusild_state state, fixed;
    parnusild_state_fresh_dated(&state, &dated_table, relative);
    parnusild_state_arrival_at(&state, 4, 0x2);
    arrive_with("as it is", &state, &state.times.last, 4);
    arrive_with("last tick below an arrival", &state, &state.times.last, 3);
    arrive_with("last tick above the limit", &state, &state.times.last, PARNUSILD_MOST_TICK + 1);
    arrive_with("arrival above the last tick", &state, &state.times.since[1], 5);
    arrive_with("arrival tick of an idle task", &state, &state.times.since[0], 1);
    arrive_with("no relative deadline", &state, &state.times.deadline[0], 0);
    arrive_with("direct link to a reader ahead", &state, &state.times.deadline[0], 2);
    arrive_with("policy 2", &state, &state.times.policy, 2);
    arrive_with("past the tasks", &state, &state.times.since[2], 9);
    refuse("without a tick", &state, PARNUSILD_ARRIVAL, 1);
    refuse("without a tick, unknown kind", &state, 9, 1);
    parnusild_state_fresh(&fixed, &table);
    give("fixed priorities", &fixed, 0, PARNUSILD_ARRIVAL, 1, 0);
    give("fixed priorities, unknown kind", &fixed, 0, 9, 1, 0);
    fixed.times.last = 1;
    refuse("fixed priorities with a last tick", &fixed, PARNUSILD_ARRIVAL, 1);
    fixed.times.last = 0;
    fixed.times.deadline[3] = 1;
    refuse("fixed priorities with a relative deadline", &fixed, PARNUSILD_ARRIVAL, 1);
}

/* the events of a dated recording as they are handed over, one by one on the fresh state of the dated table; then whether numbers and state
 * are those of the replay */
static void one_by_one_at(const uint32_t *events, size_t size, const struct parnusild_state *replayed)
{
    struct parnusild_state state;
    size_t at, of_event, all = 0, done = 0, reads = 0, alike = 0;
    uint32_t number;
    printf("fresh %u\n", parnusild_state_fresh_dated(&state, &dated_table, relative));
    for (at = 0; at < size; at += of_event, all++) {
        const uint8_t kind = (uint8_t)events[at];
        of_event = kind == PARNUSILD_FINISH ? 4 : 3;
        if (parnusild_state_event_at(&state, events[at + 1], kind, events[at + 2], of_event == 4 ? events[at + 3] : 0, &number) == 0)
            done++;
        if (kind == PARNUSILD_READ)
            alike += number == numbers[reads++];
    }
    printf("accepted %zu of %zu, numbers alike %zu of %zu\n", done, all, alike, reads);
    printf("states %s\n", same(&state, replayed) ? "alike" : "DIFFER");
}

/* a dated recording, of the dated table, written, replayed and compared with the same events one by one; then an arrival at the last tick
 * there is; then refused */
static void writing_dated(void)
{
    static const uint32_t tasks[] = { 100, 5, 101, 2, 7 }, links[] = { 1, 0, 0, 0, 0, 1, 1, 40 };
    static const uint32_t at_the_limit[] = { PARNUSILD_ARRIVAL, PARNUSILD_MOST_TICK, 1 };
    static uint32_t events[] = { 1, 0, 1, 2, 1, 0, 1, 3, 2, 2, 3, 1, 3, 3, 1, 4, 3, 1, 11, 3, 5, 0, 4, 5, 0, 5 };
    const size_t all = sizeof events / sizeof events[0];
    const struct handover whole = { PARNUSILD_KIND_DATED, tasks, 4, links, 8, events, all };
    struct handover other = whole;
    struct parnusild_state state;
    const size_t size = put("written, dated", &whole, sizeof written);
    replay(written, size, &state);
    printf("last %u, policy %u\n", (unsigned)state.times.last, (unsigned)state.times.policy);
    one_by_one_at(events, all, &state);
    other.events = at_the_limit;
    other.events_size = 3;
    put("tick at the limit", &other, sizeof written);
    other = whole;
    put("one byte short", &whole, size - 1);
    other.tasks_size = 5;
    put("task begun", &other, sizeof written);
    other.tasks_size = 3;
    put("task 1 begun", &other, sizeof written);
    other = whole;
    other.events_size = all - 1;
    put("event begun", &other, sizeof written);
    put_with("finish after its deadline", &whole, &events[all - 3], 6, sizeof written);
    put_with("tick below the last", &whole, &events[7], 0, sizeof written);
    put_with("tick above the limit", &whole, &events[7], PARNUSILD_MOST_TICK + 1, sizeof written);
    put_with("start of task 256, dated", &whole, &events[11], 256, sizeof written);
}

/* where a named field begins in what is lent and how long it is, in bytes of the control or numbers of the values and times */
#define STANDS(part, field) \
    printf(#field ": %zu from %zu on\n", sizeof state->part.field / sizeof state->part.field[0], \
           offsetof(struct parnusild_##part, field) / sizeof state->part.field[0])

static void layout(const struct parnusild_state *state)
{
    printf("control: %zu bytes\n", sizeof state->control);
    STANDS(control, phase);
    STANDS(control, newest);
    STANDS(control, previous);
    STANDS(control, seen);
    STANDS(control, pointer);
    STANDS(control, mark);
    STANDS(control, writer);
    STANDS(control, reader);
    STANDS(control, kind);
    printf("values: %zu numbers\n", sizeof state->values / sizeof(uint32_t));
    STANDS(values, defaults);
    STANDS(values, start_value);
    STANDS(values, cells);
    printf("times: %zu numbers\n", sizeof state->times / sizeof(uint32_t));
    STANDS(times, deadline);
    STANDS(times, since);
    printf("last: at %zu\n", offsetof(struct parnusild_times, last) / sizeof(uint32_t));
    printf("policy: at %zu\n", offsetof(struct parnusild_times, policy) / sizeof(uint32_t));
}

/* as many tasks and links as there can be, so that no slot of a field is left out: in rings */
static void full_table(struct parnusild_table *full)
{
    size_t i;
    full->tasks = PARNUSILD_TASKS;
    full->links = PARNUSILD_LINKS;
    for (i = 0; i < PARNUSILD_TASKS; i++)
        full->defaults[i] = 1000 + (uint32_t)i;
    for (i = 0; i < PARNUSILD_LINKS; i++) {
        full->writer[i] = i % PARNUSILD_TASKS;
        full->reader[i] = (uint8_t)ring_reader(PARNUSILD_TASKS, i);
        full->kind[i] = ring_kind(PARNUSILD_TASKS, i);
        full->start_value[i] = ring_start_value(PARNUSILD_TASKS, i);
    }
}

/* the last task and the last link that a state has room for, and the first ones that it has not: by single events, and as counts of a state */
static void end_of_the_room(void)
{
    struct parnusild_table full;
    struct parnusild_state state;
    full_table(&full);
    printf("fresh with all the room %u\n", parnusild_state_fresh(&state, &full));
    printf("arrival of task 31 %u\n", parnusild_state_arrival(&state, 0x80000000));
    refuse("task 31 arrives again", &state, PARNUSILD_ARRIVAL, 0x80000000);
    run_and_read(&state, 31, 95, 9);
    refuse("task 32", &state, PARNUSILD_START, 32);
    refuse("link 96", &state, PARNUSILD_READ, 96);
    state.tasks = 33;
    refuse("33 tasks in a state", &state, PARNUSILD_START, 31);
    state.tasks = 32;
    state.links = 97;
    refuse("97 links in a state", &state, PARNUSILD_START, 31);
    state.links = 96;
    refuse("32 tasks and 96 links in a state", &state, PARNUSILD_START, 31);
}

/* a state in which no two fields hold the same: the odd tasks have run once; then all but task 30 have arrived, tasks 0 and 1 have run,
 * and task 2 runs */
static void amid_a_round(struct parnusild_state *state)
{
    struct parnusild_table full;
    unsigned refusals;
    uint32_t task;
    full_table(&full);
    refusals = parnusild_state_fresh(state, &full);
    refusals |= parnusild_state_arrival(state, 0xaaaaaaaa);
    for (task = 1; task < PARNUSILD_TASKS; task += 2)
        refusals |= run(state, task, 100 + task);
    refusals |= parnusild_state_arrival(state, 0xbfffffff);
    refusals |= run(state, 0, 500);
    refusals |= run(state, 1, 501);
    refusals |= parnusild_state_start(state, 2);
    printf("amid a round: %s, tasks %zu, links %zu\n", refusals ? "REFUSED" : "accepted", state->tasks, state->links);
}

static void show_bytes(const char *what, const uint8_t *list, size_t size)
{
    size_t i;
    printf("%s", what);
    for (i = 0; i < size; i++)
        printf(" %u", list[i]);
    printf("\n");
}

static void show_numbers(const char *what, const uint32_t *list, size_t size)
{
    size_t i;
    printf("%s", what);
    for (i = 0; i < size; i++)
        printf(" %u", (unsigned)list[i]);
    printf("\n");
}

/* what the library puts into each named field */
static void fields_put(void)
{
    struct parnusild_state state;
    size_t task;
    amid_a_round(&state);
    show_bytes("phase", state.control.phase, PARNUSILD_TASKS);
    show_bytes("newest", state.control.newest, PARNUSILD_TASKS);
    show_bytes("previous", state.control.previous, PARNUSILD_TASKS);
    show_bytes("seen", state.control.seen, PARNUSILD_TASKS);
    show_bytes("pointer", state.control.pointer, PARNUSILD_LINKS);
    show_bytes("mark", state.control.mark, PARNUSILD_LINKS);
    show_bytes("writer", state.control.writer, PARNUSILD_LINKS);
    show_bytes("reader", state.control.reader, PARNUSILD_LINKS);
    show_bytes("kind", state.control.kind, PARNUSILD_LINKS);
    show_numbers("defaults", state.values.defaults, PARNUSILD_TASKS);
    show_numbers("start_value", state.values.start_value, PARNUSILD_LINKS);
    for (task = 0; task < PARNUSILD_TASKS; task++)
        show_numbers("cells", &state.values.cells[task * PARNUSILD_POSITIONS], PARNUSILD_POSITIONS);
    show_numbers("times", (const uint32_t *)&state.times, PARNUSILD_TIMES);
}

/* what it puts into the times: the last task has arrived at 9, the others at 7 and 8 by turns */
static void times_put(void)
{
    struct parnusild_table full;
    struct parnusild_state state;
    uint16_t deadlines[PARNUSILD_TASKS];
    unsigned refusals;
    size_t task;
    full_table(&full);
    for (task = 0; task < PARNUSILD_TASKS; task++)
        deadlines[task] = (uint16_t)(10 + task);
    refusals = parnusild_state_fresh_dated(&state, &full, deadlines);
    refusals |= parnusild_state_arrival_at(&state, 7, 0x55555555);
    refusals |= parnusild_state_arrival_at(&state, 8, 0x2aaaaaaa);
    refusals |= parnusild_state_arrival_at(&state, 9, 0x80000000);
    printf("arrivals at ticks: %s\n", refusals ? "REFUSED" : "accepted");
    show_numbers("times", (const uint32_t *)&state.times, PARNUSILD_TIMES);
}

/* the fresh state of four tasks and one direct link, from task 0 to task 2; with its own number in each position */
static struct parnusild_state one_link(void)
{
    static const struct parnusild_table one = { .tasks = 4, .links = 1, .writer = { 0 }, .reader = { 2 }, .kind = { 0 } };
    struct parnusild_state state;
    size_t i;
    parnusild_state_fresh(&state, &one);
    for (i = 0; i < PARNUSILD_CELLS; i++)
        state.values.cells[i] = 100 + (uint32_t)i;
    return state;
}

/* the same, while task 2 runs and task 3 waits */
static struct parnusild_state reader_runs(void)
{
    struct parnusild_state state = one_link();
    parnusild_state_arrival(&state, 0xc);
    parnusild_state_start(&state, 2);
    return state;
}

/* the read by the link, in a state of which the host may have changed a field */
static void read_with(const char *what, struct parnusild_state state)
{
    uint32_t number = 77;
    unsigned refusal = parnusild_state_read(&state, 0, &number);
    printf("read, %s: refusal %u, number %u\n", what, refusal, (unsigned)number);
}

/* likewise, the link's pointer and mark and the reader's first two positions after its finish */
static void finish_with(const char *what, struct parnusild_state state)
{
    unsigned refusal = parnusild_state_finish(&state, 2, 9);
    printf("finish, %s: refusal %u, pointer %u, mark %u,", what, refusal, state.control.pointer[0], state.control.mark[0]);
    show_numbers(" cells", &state.values.cells[2 * PARNUSILD_POSITIONS], 2);
}

/* likewise, the link's pointer and mark and what its reader has had of arrivals, after the reader's arrival */
static void arrival_with(const char *what, struct parnusild_state state)
{
    unsigned refusal = parnusild_state_arrival(&state, 0x4);
    printf("arrival, %s: refusal %u, pointer %u, mark %u, seen %u\n", what, refusal, state.control.pointer[0],
           state.control.mark[0], state.control.seen[2]);
}

/* makes the link a delayed one with start value 55, with or without a mark, and its writer one that has had so many arrivals */
static void delay(struct parnusild_state *state, uint8_t mark, uint8_t seen)
{
    state->control.kind[0] = 1;
    state->values.start_value[0] = 55;
    state->control.mark[0] = mark;
    state->control.seen[0] = seen;
}

/* what the library takes from the fields of a delayed link */
static void delayed_fields_taken(void)
{
    struct parnusild_state state = reader_runs();
    delay(&state, 1, 0);
    read_with("start value 55, mark", state);
    finish_with("start value 55, mark", state);
    delay(&state, 1, 2);
    read_with("start value 55, mark, writer seen 2", state);
    delay(&state, 0, 2);
    read_with("start value 55, no mark, writer seen 2", state);
    state = one_link();
    delay(&state, 0, 0);
    arrival_with("delayed, writer seen 0", state);
    delay(&state, 0, 1);
    arrival_with("delayed, writer seen 1", state);
    delay(&state, 0, 2);
    arrival_with("delayed, writer seen 2", state);
    state.control.seen[2] = 1;
    arrival_with("delayed, reader seen 1", state);
}

/* what the library takes from each other named field; no event looks at a default */
static void fields_taken(void)
{
    struct parnusild_state state = reader_runs();
    read_with("as it is", state);
    state.values.cells[0] = 7;
    read_with("7 in position 1 of task 0", state);
    state = reader_runs();
    state.control.pointer[0] = 2;
    read_with("pointer at 2", state);
    state = reader_runs();
    state.control.writer[0] = 1;
    read_with("from task 1", state);
    state = reader_runs();
    state.control.reader[0] = 3;
    read_with("by task 3, which waits", state);
    state = reader_runs();
    state.control.phase[2] = 1;
    read_with("by task 2, which waits", state);
    state = reader_runs();
    finish_with("as it is", state);
    state.control.newest[2] = 1;
    finish_with("newest at 1", state);
    state = one_link();
    arrival_with("as it is", state);
    state.control.newest[0] = 2;
    state.control.previous[0] = 3;
    arrival_with("direct, newest 2, previous 3", state);
    state.control.kind[0] = 1;
    arrival_with("delayed, newest 2, previous 3", state);
}

int main(int argc, char **argv)
{
    struct parnusild_state whole, state;
    size_t size;
    FILE *file = argc == 2 ? fopen(argv[1], "rb") : NULL;
    if (!file) {
        fprintf(stderr, "usage: %s FILE\n", argv[0]);
        return 2;
    }
    size = fread(bytes, 1, sizeof bytes, file);
    fclose(file);
    sizes();
    replay(bytes, size, &whole);
    one_by_one(&state);
    printf("states %s\n", same(&whole, &state) ? "alike" : "DIFFER");
    run_whole(&state);
    refusals(&state);
    tables();
    edge_sizes(size);
    writing(size);
    writing_wide(&whole);
    limits();
    start_values();
    unsound_by_one_change();
    filter();
    end_of_the_room();
    dated_tables();
    by_deadlines(&state);
    ticks(&state);
    tie_by_table();
    largest_deadline();
    unsound_times();
    writing_dated();
    layout(&state);
    fields_put();
    times_put();
    fields_taken();
    delayed_fields_taken();
    return 0;
}
