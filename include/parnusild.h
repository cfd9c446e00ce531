/* The proved mailboxes, for hosts in C.
 *
 * The host keeps the saved state in its own memory, as a struct parnusild_state. Each call lends the state's parts to the proved
 * core, which works on them in place: no state is copied and nothing is kept between calls. Nothing is asked of a state, a table, a
 * recording or what is to be written: whatever they hold, an answer comes back, and a refused event leaves the state as it was lent.
 *
 * What the core takes for granted, and no proof can see: each pointer points to what its type says, and what a call writes to overlaps
 * nothing else that it is given. So the table is not a part of the state, and `number`, the answer and the lists lie outside of it. A call
 * writes to what it is lent and to nothing else, so different threads may have calls under way on different states.
 *
 * Refusals are numbers: 0 is none, 1 to 24 are explained in docs/REFUSALS.md. docs/FORMAT.md has the rules of a table, of events and of
 * a recording.
 *
 * Link with the library that `tools/native-staticlib exports` writes, for x86-64 Linux. A host that was built for states with room for
 * other numbers of tasks and links, or without times, does not link with it.
 */
#ifndef PARNUSILD_H
#define PARNUSILD_H

#include <stddef.h>
#include <stdint.h>

#ifdef __cplusplus
extern "C" {
#define PARNUSILD_RESTRICT
#else
#define PARNUSILD_RESTRICT restrict
#endif

enum {
    PARNUSILD_TASKS = 32,     /* a state has room for so many tasks */
    PARNUSILD_LINKS = 96,     /* and so many links */
    PARNUSILD_EVENTS = 10000, /* a recording has at most so many events */
    PARNUSILD_EVENTS_DATED = 6000, /* a dated one at most so many */
    PARNUSILD_POSITIONS = 10, /* a task has N + 2 positions, N at most 8 */
    PARNUSILD_CELLS = PARNUSILD_TASKS * PARNUSILD_POSITIONS,
    PARNUSILD_CONTROL = 4 * PARNUSILD_TASKS + 5 * PARNUSILD_LINKS,          /* so many bytes in a state's control */
    PARNUSILD_VALUES = PARNUSILD_TASKS + PARNUSILD_LINKS + PARNUSILD_CELLS, /* so many numbers in a state's values */
    PARNUSILD_TIMES = 2 * PARNUSILD_TASKS + 2,                              /* so many numbers in a state's times */
    PARNUSILD_SIZES = 5, /* so many sizes does parnusild_sizes answer */
    /* no recording has more bytes, and a dated one may have so many: the first one and the three counts, 6 for each task, 7 for each link, and
     * 10 for each event, a finish */
    PARNUSILD_RECORDING = 5 + 6 * PARNUSILD_TASKS + 7 * PARNUSILD_LINKS + 10 * PARNUSILD_EVENTS_DATED
};

/* The last tick there is; a later one is refusal 22. */
#define PARNUSILD_MOST_TICK UINT32_C(4000000000)

/* The kinds of a recording, by its first byte. Any other first byte is refusal 2, at place 0. */
enum {
    PARNUSILD_KIND_BASE = 253, /* at most 16 tasks and 32 links; the set of an arrival has 2 bytes */
    PARNUSILD_KIND_WIDE = 254, /* at most 32 tasks and 96 links; the set of an arrival has 4 bytes */
    PARNUSILD_KIND_DATED = 255 /* as that, with a relative deadline for each task and a tick for each event; at most 6,000 events */
};

/* The policies of a state: which of its active tasks may run. */
enum {
    PARNUSILD_FIXED = 0,      /* fixed priorities: the earliest in the table */
    PARNUSILD_BY_DEADLINE = 1 /* the one whose arrival tick and relative deadline make the least; of several the one that is ahead */
};

/* The kinds of an event. Any other is unknown, refusal 11. */
enum {
    PARNUSILD_ARRIVAL = 1,
    PARNUSILD_START = 2,
    PARNUSILD_READ = 3,
    PARNUSILD_FINISH = 4
};

/* A table. Tasks are numbered from 0. One is ahead of another if it is earlier in the table, or, where they have relative deadlines, if its own is
 * smaller, and earlier in the table where they are alike. Slots past the counts are not looked at. */
struct parnusild_table {
    size_t tasks; /* 1 to 32 */
    size_t links; /* 0 to 96 */
    uint32_t defaults[PARNUSILD_TASKS];
    uint8_t writer[PARNUSILD_LINKS];
    uint8_t reader[PARNUSILD_LINKS];
    uint8_t kind[PARNUSILD_LINKS];         /* 0 direct, 1 delayed; from a task to itself always 1 */
    uint32_t start_value[PARNUSILD_LINKS]; /* what a delayed link reads at first; 0 for a direct one */
};

/* The bytes of a state, by task and then by link, in the library's own order. */
struct parnusild_control {
    uint8_t phase[PARNUSILD_TASKS];    /* 0 idle, 1 waiting, 2 running */
    uint8_t newest[PARNUSILD_TASKS];   /* a position, from 1 */
    uint8_t previous[PARNUSILD_TASKS]; /* a position, from 1 */
    uint8_t seen[PARNUSILD_TASKS];     /* 0 no arrival yet, 1 one, 2 more */
    uint8_t pointer[PARNUSILD_LINKS];  /* a position of the writer; 0: absent */
    uint8_t mark[PARNUSILD_LINKS];     /* 1: the reader's last arrival settled on the start value; 0: none */
    uint8_t writer[PARNUSILD_LINKS];
    uint8_t reader[PARNUSILD_LINKS];
    uint8_t kind[PARNUSILD_LINKS];     /* 0 direct, 1 delayed */
};

/* The numbers of a state, in the library's own order. */
struct parnusild_values {
    uint32_t defaults[PARNUSILD_TASKS];
    uint32_t start_value[PARNUSILD_LINKS];
    uint32_t cells[PARNUSILD_CELLS]; /* position p of task t at t * 10 + p - 1 */
};

/* The times of a state, in the library's own order. With fixed priorities all of them are 0, the policy too. */
struct parnusild_times {
    uint32_t deadline[PARNUSILD_TASKS]; /* each task's relative deadline, from 1 on; at most 65535 in a state that was made here */
    uint32_t since[PARNUSILD_TASKS];    /* the arrival tick of an active task; 0 for an idle one */
    uint32_t last;                      /* the tick of the last accepted event; 0 at first */
    uint32_t policy;                    /* PARNUSILD_FIXED or PARNUSILD_BY_DEADLINE */
};

/* Each struct is lent as one array. Where a compiler would leave gaps in it, this does not compile. */
typedef char parnusild_control_has_no_gaps[sizeof(struct parnusild_control) == PARNUSILD_CONTROL ? 1 : -1];
typedef char parnusild_values_have_no_gaps[sizeof(struct parnusild_values) == PARNUSILD_VALUES * sizeof(uint32_t) ? 1 : -1];
typedef char parnusild_times_have_no_gaps[sizeof(struct parnusild_times) == PARNUSILD_TIMES * sizeof(uint32_t) ? 1 : -1];

/* All that a station has to keep between events. Slots past the counts are never touched by an event. A state that was kept with room for
 * other numbers of tasks and links has its fields elsewhere, and has to be carried over field by field; one that was kept without times has times
 * that are all 0. */
struct parnusild_state {
    size_t tasks;
    size_t links;
    struct parnusild_control control;
    struct parnusild_values values;
    struct parnusild_times times;
};

/* What a replay answers beside the state and the list. */
struct parnusild_answer {
    uint8_t refusal; /* 0: accepted */
    size_t place;    /* the first byte of the recording, count or record at fault; for 17 the first extra byte; on acceptance the length */
    size_t arrivals; /* task by task: each task of an arrival's set counts one */
    size_t starts;
    size_t reads;    /* so many first entries of the list hold the numbers read */
    size_t finishes;
};

/* The name of a call ends in the library with the room of a state, for so many tasks and links, and with so many times; a host writes it without.
 * So an object that was built for another room misses the name and does not link: it would lend arrays of another size, and the call would write
 * past their end. ICU has its version in its names likewise. */
#define parnusild_event parnusild_event_32_96_66
#define parnusild_event_at parnusild_event_at_32_96_66
#define parnusild_fresh parnusild_fresh_32_96_66
#define parnusild_fresh_dated parnusild_fresh_dated_32_96_66
#define parnusild_replay parnusild_replay_32_96_66
#define parnusild_rest parnusild_rest_32_96_66
#define parnusild_write parnusild_write_32_96_66

/* Where the room is changed and the names are not, this does not compile. */
typedef char parnusild_names_have_the_room[PARNUSILD_TASKS == 32 && PARNUSILD_LINKS == 96 && PARNUSILD_TIMES == 66 ? 1 : -1];

/* The calls of the library, on the parts of a state; the functions below take the struct. A slice is a pointer, not null even where
 * its length is 0, and a length; an array is a pointer. `control` has PARNUSILD_CONTROL bytes, in the order of struct parnusild_control,
 * `values` PARNUSILD_VALUES numbers, in that of struct parnusild_values, and `times` PARNUSILD_TIMES numbers, in that of struct
 * parnusild_times: a host that has the structs lends each of them whole, by its own address and not by that of its first field. An array of a
 * table is as long as the field of struct parnusild_table, and one of relative deadlines as long as its defaults. */

/* One event given to a state of fixed priorities, whose parts are lent from `tasks` on. `kind`: 1 arrival of a set, `which` (bit t is task t);
 * 2 start of a task, `which`; 3 read by a link, `which`; 4 finish of a task, `which`, with a value, `value`. Answers 0, or the refusal: 19 a
 * lent state that isn't sound, or is of the other policy, tried before anything else; 11 a kind outside 1 to 4; then in rising order 12 an
 * empty arrival set, or a task or link not in the table; 13 arrival of an active task; 14 start of a task that isn't waiting; 15 read or
 * finish by a task that isn't running; 16 start, read or finish while a more urgent task is active. On a refusal the state is as lent and
 * `number` 0; so is `number` after an accepted arrival, start or finish. After an accepted read it is the link's start value where the link
 * has a mark, else the number at the link's pointer in its writer's positions. */
uint8_t parnusild_event(uint8_t kind, uint32_t which, uint32_t value, uint32_t *number, size_t tasks, size_t links,
                        uint8_t *control, uint32_t *values, uint32_t *times);

/* The same at a tick, for a state by deadlines: one of fixed priorities is 19. After 12, and before the rest, come 22 a tick above 4,000,000,000 and
 * 21 a tick below that of the last accepted event; 16 is start, read or finish while another job is more urgent, that is due before it, or at the
 * same tick and its task is ahead; and last comes 23, a finish after its deadline, which is its arrival tick and its relative deadline; at that
 * tick it passes. An accepted event sets the last tick, an arrival the arrival tick of each task in its set, and a finish sets that of its task
 * back to 0. */
uint8_t parnusild_event_at(uint32_t tick, uint8_t kind, uint32_t which, uint32_t value, uint32_t *number, size_t tasks, size_t links,
                           uint8_t *control, uint32_t *values, uint32_t *times);

/* The fresh state of a table, put into the parts lent from `tasks` on: both `newest` and `previous` at 1, every position holding the
 * task's default, every pointer absent, no mark, every task idle and without arrivals. Answers 0, or the refusal that the table earns: 2 the
 * count of tasks is 0 or above 32; 3 the count of links is above 96; else of the first link at fault, in rising order, 4 it names no task of
 * the table; 5 a direct link from a task to itself; 6 its kind is neither 0 nor 1; 7 a direct link to a reader ahead; 8 its writer has an
 * earlier link to its reader; 9 it is the writer's ninth link to a reader behind; 20 a direct link whose start value isn't 0. On a refusal
 * the state is the fresh one of a single task with default 0 and no links. */
uint8_t parnusild_fresh(size_t table_tasks, size_t table_links, const uint32_t *table_defaults, const uint8_t *table_writer,
                        const uint8_t *table_reader, const uint8_t *table_kind, const uint32_t *table_start_value,
                        size_t *tasks, size_t *links, uint8_t *control, uint32_t *values, uint32_t *times);

/* The same of a table whose tasks have relative deadlines, as a state by deadlines, with the last tick 0. A relative deadline of 0 is 24, tried after
 * 2 and before 3; ahead and behind are by relative deadline. On a refusal the state is the single task's of fixed priorities. */
uint8_t parnusild_fresh_dated(size_t table_tasks, size_t table_links, const uint32_t *table_defaults, const uint16_t *table_deadlines,
                              const uint8_t *table_writer, const uint8_t *table_reader, const uint8_t *table_kind,
                              const uint32_t *table_start_value, size_t *tasks, size_t *links, uint8_t *control, uint32_t *values,
                              uint32_t *times);

/* A whole recording, `size` lent bytes, with a lent list of `room` numbers. Bytes are judged from the left and the first fault decides. The
 * first one is the kind, 253, 254 or 255, whose limits hold: with 253 17 tasks are 2, though a state has room for them. Answers the refusal, 0
 * accepted, 1 to 18 or 20 to 24 (docs/FORMAT.md). `place`: the first byte of the recording, count or record at fault; for 17 the first extra
 * byte; on acceptance the length. `counts`, four of them: arrivals task by task, starts, reads, finishes. At a refusal whose place is the
 * recording's first byte, in the tasks, in the links or one of the three counts, the state (the parts lent from `tasks` on) is the fresh one
 * of a single task with default 0 and no links, of fixed priorities whatever the kind, all counts are 0, and the list is untouched. Later,
 * state and counts are those after the last accepted event; the list's first entries hold the numbers read, the rest is untouched. */
uint8_t parnusild_replay(const uint8_t *bytes, size_t size, uint32_t *numbers, size_t room, size_t *place, size_t *counts,
                         size_t *tasks, size_t *links, uint8_t *control, uint32_t *values, uint32_t *times);

/* The unread rest of a recording, `size` lent bytes, after a replay that answered `place`: how many bytes it has. They are the last of the
 * recording, from the place on; none past the end, and none after acceptance. */
size_t parnusild_rest(const uint8_t *bytes, size_t size, size_t place);

/* A recording of the kind `kind`, 253, 254 or 255, written into a lent buffer of `room` bytes. `tasks`, `tasks_size` numbers: one of each
 * task, its default, and with 255 two, its default and its relative deadline. `links`, `links_size` numbers: four of each link, its writer,
 * reader, kind and start value. `events`, `events_size` numbers: the kind of each event, with 255 its tick, and what it has, so 1 and a set
 * (bit t is task t); 2 and a task; 3 and a link; 4, a task and a value. Judged from the left as a replay would judge the bytes, by that kind's
 * limits, and the first fault decides; another `kind` is 2 at place 0. Answers the refusal, 0 accepted, 1 to 16 or 20 to 24 (docs/FORMAT.md),
 * at the `place` where a replay would find the fault: the first byte of the recording, count or record. No number is cut to its field: a task
 * 256 is not in the table, nor is with 253 a task above 15 in a set, and a relative deadline above 65,535 is 24, as 0 is. A task, a link or an
 * event whose numbers are not all there counts as one, and is 1; a kind of event outside 1 to 4 counts as one event, is 11, and nothing after
 * it is looked at. Tried last: 18, the buffer is too short, and `place` is the length of the whole recording. On acceptance `place` is how
 * many bytes were written, which a replay accepts with room for the numbers; no byte after them is touched, and on a refusal none at all. */
uint8_t parnusild_write(uint32_t kind, const uint32_t *tasks, size_t tasks_size, const uint32_t *links, size_t links_size,
                        const uint32_t *events, size_t events_size, uint8_t *bytes, size_t room, size_t *place);

/* The sizes of the library, PARNUSILD_SIZES of them: how many tasks and how many links a state has room for, how many bytes its control has,
 * and how many numbers its values and its times have. This call alone has no room in its name: a host may ask any library for it. */
void parnusild_sizes(size_t *sizes);

/* Whether the sizes that a library answered are this header's; else no other call of it may be made. For a host that looks the calls up at run
 * time, where no linker would tell. */
static inline int parnusild_fits(const size_t *sizes)
{
    return sizes[0] == PARNUSILD_TASKS && sizes[1] == PARNUSILD_LINKS && sizes[2] == PARNUSILD_CONTROL
        && sizes[3] == PARNUSILD_VALUES && sizes[4] == PARNUSILD_TIMES;
}

/* The fresh state of a table, of fixed priorities: `newest` and `previous` at 1, every position holding the task's default, every pointer
 * absent, no mark, every task idle and without arrivals. Answers 0, or the refusal that the table earns, 2 to 9 or 20; the state is then the
 * fresh one of a single task with default 0 and no links. What the state held before doesn't matter. */
static inline uint8_t parnusild_state_fresh(struct parnusild_state *PARNUSILD_RESTRICT state,
                                            const struct parnusild_table *PARNUSILD_RESTRICT table)
{
    return parnusild_fresh(table->tasks, table->links, table->defaults, table->writer, table->reader, table->kind,
                           table->start_value, &state->tasks, &state->links, (uint8_t *)&state->control,
                           (uint32_t *)&state->values, (uint32_t *)&state->times);
}

/* The fresh state of a table and its tasks' relative deadlines, PARNUSILD_TASKS of them, by deadlines. Answers 0, or the refusal that the table
 * earns: 2, then 24 a relative deadline of 0, then 3 to 9 or 20; the state is then the fresh one of a single task, of fixed priorities. */
static inline uint8_t parnusild_state_fresh_dated(struct parnusild_state *PARNUSILD_RESTRICT state,
                                                  const struct parnusild_table *PARNUSILD_RESTRICT table,
                                                  const uint16_t *PARNUSILD_RESTRICT deadlines)
{
    return parnusild_fresh_dated(table->tasks, table->links, table->defaults, deadlines, table->writer, table->reader, table->kind,
                                 table->start_value, &state->tasks, &state->links, (uint8_t *)&state->control,
                                 (uint32_t *)&state->values, (uint32_t *)&state->times);
}

/* One event given to a state of fixed priorities. `which` is the set of an arrival (bit t is task t), the task of a start or finish, the link of a
 * read; `value` is the value of a finish. Answers 0, or the refusal: 19 a state that isn't sound, or by deadlines, before anything else; 11 a kind
 * outside 1 to 4; then 12 to 16 in rising order. A number that no table can have, as 256, is a task or link not in the table: 12.
 * `number` becomes the number of an accepted read, and 0 otherwise. A refusal leaves the state as it was lent. */
static inline uint8_t parnusild_state_event(struct parnusild_state *PARNUSILD_RESTRICT state, uint8_t kind, uint32_t which,
                                            uint32_t value, uint32_t *PARNUSILD_RESTRICT number)
{
    return parnusild_event(kind, which, value, number, state->tasks, state->links, (uint8_t *)&state->control,
                           (uint32_t *)&state->values, (uint32_t *)&state->times);
}

/* One event given at a tick to a state by deadlines; one of fixed priorities is 19. After 11 and 12 come 22 a tick above PARNUSILD_MOST_TICK and 21
 * one below the last; then 13 to 16; then 23, a finish after its deadline. */
static inline uint8_t parnusild_state_event_at(struct parnusild_state *PARNUSILD_RESTRICT state, uint32_t tick, uint8_t kind,
                                               uint32_t which, uint32_t value, uint32_t *PARNUSILD_RESTRICT number)
{
    return parnusild_event_at(tick, kind, which, value, number, state->tasks, state->links, (uint8_t *)&state->control,
                              (uint32_t *)&state->values, (uint32_t *)&state->times);
}

/* Arrival of a set: `previous` becomes `newest`, `newest` the lowest free position, `seen` one more, up to 2; then the pointers of links
 * whose reader is in the set, and of the delayed ones the mark: 1 where `seen` of the writer is by now below 2, else 0; then all in the
 * set are waiting. Refusals: 19; 12 an empty set, or a task not in the table; 13 an active task. */
static inline uint8_t parnusild_state_arrival(struct parnusild_state *state, uint32_t set)
{
    uint32_t number;
    return parnusild_state_event(state, PARNUSILD_ARRIVAL, set, 0, &number);
}

/* Start: the task is running. Refusals: 19; 12 not in the table; 14 it isn't waiting; 16 a more urgent task is active. */
static inline uint8_t parnusild_state_start(struct parnusild_state *state, uint32_t task)
{
    uint32_t number;
    return parnusild_state_event(state, PARNUSILD_START, task, 0, &number);
}

/* Read: the link's start value where it has a mark, else the number at its pointer in its writer's positions; the link's reader is the
 * task that reads. Refusals, with the number 0: 19; 12 not in the table; 15 it isn't running; 16 a more urgent task is active. */
static inline uint8_t parnusild_state_read(struct parnusild_state *PARNUSILD_RESTRICT state, uint32_t link,
                                           uint32_t *PARNUSILD_RESTRICT number)
{
    return parnusild_state_event(state, PARNUSILD_READ, link, 0, number);
}

/* Finish: the value goes to the task's `newest` position; pointers of links by which this task reads from writers ahead of it become
 * absent, and their marks go, those from writers behind it and from itself stay; the task is idle. Refusals: 19; 12 not in the table;
 * 15 it isn't running; 16 a more urgent task is active. */
static inline uint8_t parnusild_state_finish(struct parnusild_state *state, uint32_t task, uint32_t value)
{
    uint32_t number;
    return parnusild_state_event(state, PARNUSILD_FINISH, task, value, &number);
}

/* The same at a tick, for a state by deadlines: `since` of each task in the set becomes the tick, and so does `last`. Refusals: 19; 12; 22 a tick too
 * large; 21 one below the last; 13. */
static inline uint8_t parnusild_state_arrival_at(struct parnusild_state *state, uint32_t tick, uint32_t set)
{
    uint32_t number;
    return parnusild_state_event_at(state, tick, PARNUSILD_ARRIVAL, set, 0, &number);
}

/* Start at a tick. Refusals: 19; 12; 22; 21; 14; 16 another job is more urgent. */
static inline uint8_t parnusild_state_start_at(struct parnusild_state *state, uint32_t tick, uint32_t task)
{
    uint32_t number;
    return parnusild_state_event_at(state, tick, PARNUSILD_START, task, 0, &number);
}

/* Read at a tick. Refusals, with the number 0: 19; 12; 22; 21; 15; 16. */
static inline uint8_t parnusild_state_read_at(struct parnusild_state *PARNUSILD_RESTRICT state, uint32_t tick, uint32_t link,
                                              uint32_t *PARNUSILD_RESTRICT number)
{
    return parnusild_state_event_at(state, tick, PARNUSILD_READ, link, 0, number);
}

/* Finish at a tick: `since` of the task becomes 0. Refusals: 19; 12; 22; 21; 15; 16; 23 the tick is after the deadline. */
static inline uint8_t parnusild_state_finish_at(struct parnusild_state *state, uint32_t tick, uint32_t task, uint32_t value)
{
    uint32_t number;
    return parnusild_state_event_at(state, tick, PARNUSILD_FINISH, task, value, &number);
}

/* A whole recording of any kind, read from the lent bytes. Bytes are judged from the left and the first fault decides. The answer has the
 * refusal, the place and the four counts; state and counts are those after the last accepted event; the list's first entries hold the
 * numbers read, the rest is untouched. At a refusal whose place is the recording's first byte, in the tasks, in the links or one of the
 * three counts, the state is the fresh one of a single task with default 0 and no links, of fixed priorities, all counts are 0, and the list is
 * untouched. 18 is a read that is otherwise allowed, with no room in the list. parnusild_recording_rest has the unread rest.
 * `bytes` may be null where `size` is 0, and `numbers` where `room` is 0. Answers the refusal, too. */
static inline uint8_t parnusild_state_replay(struct parnusild_state *PARNUSILD_RESTRICT state,
                                             struct parnusild_answer *PARNUSILD_RESTRICT answer,
                                             const uint8_t *PARNUSILD_RESTRICT bytes, size_t size,
                                             uint32_t *PARNUSILD_RESTRICT numbers, size_t room)
{
    const uint8_t no_byte = 0;
    uint32_t no_number = 0;
    size_t counts[4];
    answer->refusal = parnusild_replay(size ? bytes : &no_byte, size, room ? numbers : &no_number, room, &answer->place,
                                       counts, &state->tasks, &state->links, (uint8_t *)&state->control,
                                       (uint32_t *)&state->values, (uint32_t *)&state->times);
    answer->arrivals = counts[0];
    answer->starts = counts[1];
    answer->reads = counts[2];
    answer->finishes = counts[3];
    return answer->refusal;
}

/* The unread rest of a recording after a replay, as that part of the lent bytes: from the place of the refusal to the end, and empty after
 * acceptance. Answers where it begins; `left` is how many bytes it has. `bytes` may be null where `size` is 0, and so may then the answer. */
static inline const uint8_t *parnusild_recording_rest(const struct parnusild_answer *answer, const uint8_t *bytes, size_t size,
                                                      size_t *left)
{
    const uint8_t no_byte = 0;
    *left = parnusild_rest(size ? bytes : &no_byte, size, answer->place);
    return size ? bytes + (size - *left) : bytes;
}

/* A recording of a kind, PARNUSILD_KIND_BASE, PARNUSILD_KIND_WIDE or PARNUSILD_KIND_DATED, written into a lent buffer, as parnusild_write
 * says. Each of the four slices may be null where its length is 0. */
static inline uint8_t parnusild_recording_write(uint32_t kind, const uint32_t *PARNUSILD_RESTRICT tasks, size_t tasks_size,
                                                const uint32_t *PARNUSILD_RESTRICT links, size_t links_size,
                                                const uint32_t *PARNUSILD_RESTRICT events, size_t events_size,
                                                uint8_t *PARNUSILD_RESTRICT bytes, size_t room,
                                                size_t *PARNUSILD_RESTRICT place)
{
    const uint32_t no_task = 0, no_link = 0, no_event = 0;
    uint8_t no_byte = 0;
    return parnusild_write(kind, tasks_size ? tasks : &no_task, tasks_size, links_size ? links : &no_link, links_size,
                           events_size ? events : &no_event, events_size, room ? bytes : &no_byte, room, place);
}

#ifdef __cplusplus
}
#endif
#undef PARNUSILD_RESTRICT

#endif
