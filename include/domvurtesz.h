/*
 * Domvurtesz for C and C++: tables of who may send when on one shared wire, what each queue is sure to get, and the
 * runner that grants the ticks. docs/RULES.md says what the words mean and what every answer is; c/tour.c asks every
 * question.
 *
 * Answers. Every function takes any numbers and comes back. It answers or refuses: a refusal is a number and a place,
 * and number DOMVURTESZ_REFUSAL_NONE means that nothing is refused. Beside a refusal every other member of an answer
 * is 0, but for the state beside a refused step. "Refuses" below lists numbers in the order in which they are tested:
 * of several that apply, the first in the list is given.
 *
 * Memory. Tables and states go by value. Where a function takes a pointer, the number of elements follows it (but for
 * the eight values of a step). The pointer is valid and aligned for that many elements while the call lasts, and not
 * NULL, also for 0 elements. Meanwhile no other thread writes to these elements, nor reads them where they are not
 * const. No pointer is kept, and no call takes two, so nothing can overlap.
 *
 * Threads. The functions keep no state, lock nothing and allocate nothing: any number of calls may run at once.
 *
 * Stack. On the largest tables least, most, fill, verdict and wait take less than 32 KiB each, the others less than
 * 16 KiB, arguments and answer included.
 *
 * Time. Every call judges its table or record first, also a step. A verdict takes the longest: it looks at every
 * deadline up to the least common multiple of P and the gaps.
 *
 * Padding between members means nothing. Compare members, not the bytes of two structs.
 *
 * Link with target/staticlib/libdomvurtesz.a, which `tools/static-library` makes for x86-64 Linux. It calls memcpy
 * and memset, and nothing else.
 */
#ifndef DOMVURTESZ_H
#define DOMVURTESZ_H

#include <assert.h>
#include <stdbool.h>
#include <stddef.h>
#include <stdint.h>

#ifdef __cplusplus
extern "C" {
#endif

/* The limits of a table. */
#define DOMVURTESZ_VERSION 1
#define DOMVURTESZ_LOCATIONS 128
#define DOMVURTESZ_TASKS 32
#define DOMVURTESZ_QUEUES 16
#define DOMVURTESZ_VARIABLES 8
#define DOMVURTESZ_LONGEST_PERIOD 1024

/* The limits of the questions. */
#define DOMVURTESZ_LONGEST_WINDOW 2000000
#define DOMVURTESZ_LONGEST_MESSAGE 65535    /* ticks that a wait may be asked for */
#define DOMVURTESZ_LARGEST_MULTIPLE 1000000 /* of P and the T of a queue's tasks, for a verdict */

/* Room that is enough for every table: bytes of a record, entries of a filling. */
#define DOMVURTESZ_LONGEST_RECORD 1863
#define DOMVURTESZ_LONGEST_FILLING 2048

/* The numbers of refusal, each with its place. */
enum {
    DOMVURTESZ_REFUSAL_NONE = 0,     /* nothing is refused. Place 0 */
    DOMVURTESZ_REFUSAL_CUT = 1,      /* the record ends too soon. Place: offset of the field that is cut */
    DOMVURTESZ_REFUSAL_FIELD = 2,    /* a field's tag, length or order is wrong. Place: its offset */
    DOMVURTESZ_REFUSAL_COUNT = 3,    /* too many locations or tasks, or no location. Place: offset; 0 for a table */
    DOMVURTESZ_REFUSAL_VALUE = 4,    /* a number of the header or of a location is out of range. Place: field */
    DOMVURTESZ_REFUSAL_SHAPE = 5,    /* root, parent or a leaf's variable is wrong. Place: field */
    DOMVURTESZ_REFUSAL_GAP = 6,      /* the children's guards leave a value out. Place: the parent's field */
    DOMVURTESZ_REFUSAL_OVERLAP = 7,  /* the children's guards hold a value twice. Place: the parent's field */
    DOMVURTESZ_REFUSAL_PERIOD = 8,   /* a path's ticks do not sum to P. Place: the leaf's field */
    DOMVURTESZ_REFUSAL_TASK = 9,     /* a task's queue or numbers are wrong. Place: field */
    DOMVURTESZ_REFUSAL_QUEUE = 10,   /* the queue asked about is 0 or not in the table. Place 0 */
    DOMVURTESZ_REFUSAL_AMOUNT = 11,  /* the window, the ticks or the field asked about. Place 0 */
    DOMVURTESZ_REFUSAL_NEVER = 12,   /* some cycle grants the queue nothing. Place 0 */
    DOMVURTESZ_REFUSAL_HORIZON = 13, /* the least common multiple is too large for a verdict. Place 0 */
    DOMVURTESZ_REFUSAL_STATE = 14,   /* the state is not lawful for the table. Place 0 */
    DOMVURTESZ_REFUSAL_EARLY = 15,   /* a released task is not in the table, or its T is not over. Place: task */
    DOMVURTESZ_REFUSAL_ROOM = 16     /* the lent buffer is too short. Place 0 */
};

typedef struct domvurtesz_refusal {
    uint8_t number;
    size_t place; /* an offset in bytes, or the number of a field or task; all count from 0 */
} domvurtesz_refusal;

/* The ticks that one queue has, and the values of the parent's variable that lead here. */
typedef struct domvurtesz_location {
    uint8_t parent;
    uint8_t queue; /* 0: nobody sends */
    uint16_t ticks;
    uint8_t variable; /* chooses among the children; 0 at a leaf */
    uint16_t low;
    uint16_t high;
} domvurtesz_location;

typedef struct domvurtesz_task {
    uint8_t queue;
    uint16_t work;     /* C: ticks that one message needs */
    uint16_t deadline; /* D: ticks from release to deadline */
    uint16_t gap;      /* T: least ticks from one release to the next */
} domvurtesz_task;

/* `locations` and `tasks` say how many entries count. What lies past them means nothing. */
typedef struct domvurtesz_table {
    uint8_t version;
    uint8_t queues;
    uint16_t period; /* P */
    size_t locations;
    size_t tasks;
    domvurtesz_location location[DOMVURTESZ_LOCATIONS];
    domvurtesz_task task[DOMVURTESZ_TASKS];
} domvurtesz_table;

/* The last released message of one task. */
typedef struct domvurtesz_job {
    uint16_t since;     /* ticks since the release; stops at T */
    uint16_t remaining; /* work left; 0 when there is none */
    uint16_t left;      /* ticks left to the deadline; 0 when no work is left */
} domvurtesz_job;

/* Where the runner stands. The entries past the tasks are 0. */
typedef struct domvurtesz_state {
    uint8_t location;
    uint16_t done; /* ticks done at the location */
    domvurtesz_job jobs[DOMVURTESZ_TASKS];
} domvurtesz_state;

typedef struct domvurtesz_read_answer {
    domvurtesz_refusal refusal;
    domvurtesz_table table;
} domvurtesz_read_answer;

typedef struct domvurtesz_write_answer {
    domvurtesz_refusal refusal;
    size_t length; /* of the record, in bytes */
} domvurtesz_write_answer;

typedef struct domvurtesz_field_answer {
    domvurtesz_refusal refusal;
    size_t offset; /* of the payload, from the record's first byte */
    size_t length; /* of the payload; 0 only beside a refusal */
} domvurtesz_field_answer;

typedef struct domvurtesz_ticks_answer {
    domvurtesz_refusal refusal;
    uint32_t ticks;
} domvurtesz_ticks_answer;

typedef struct domvurtesz_cycle_answer {
    domvurtesz_refusal refusal;
    uint32_t least;
    uint32_t most;
} domvurtesz_cycle_answer;

/* MEETS, or SHORT where `meets` is false and nothing is refused. The three numbers are 0 beside MEETS. */
typedef struct domvurtesz_verdict_answer {
    domvurtesz_refusal refusal;
    bool meets;
    uint32_t window;
    uint32_t demand;
    uint32_t supply;
} domvurtesz_verdict_answer;

typedef struct domvurtesz_fresh_answer {
    domvurtesz_refusal refusal;
    domvurtesz_state state;
} domvurtesz_fresh_answer;

typedef struct domvurtesz_step_answer {
    domvurtesz_refusal refusal;
    domvurtesz_state state; /* the next one; beside a refusal the one that was given */
    uint8_t queue;          /* granted; 0 for nobody */
    bool served;            /* whether a task used the tick */
    uint8_t task;           /* which one; 0 where none did */
    uint32_t late;          /* the set of tasks whose jobs are late: bit i is task i, bit 0 the lowest */
} domvurtesz_step_answer;

/* A compiler that lays these out in another way cannot call the library. */
static_assert(sizeof(size_t) == 8, "x86-64");
static_assert(sizeof(domvurtesz_refusal) == 16 && offsetof(domvurtesz_refusal, place) == 8, "refusal");
static_assert(sizeof(domvurtesz_location) == 10 && offsetof(domvurtesz_location, low) == 6, "location");
static_assert(sizeof(domvurtesz_task) == 8 && offsetof(domvurtesz_task, work) == 2, "task");
static_assert(sizeof(domvurtesz_table) == 1560 && offsetof(domvurtesz_table, locations) == 8, "table");
static_assert(offsetof(domvurtesz_table, location) == 24 && offsetof(domvurtesz_table, task) == 1304, "entries");
static_assert(sizeof(domvurtesz_state) == 196 && offsetof(domvurtesz_state, jobs) == 4, "state");
static_assert(sizeof(domvurtesz_read_answer) == 1576 && sizeof(domvurtesz_write_answer) == 24, "record answers");
static_assert(sizeof(domvurtesz_field_answer) == 32 && sizeof(domvurtesz_ticks_answer) == 24, "number answers");
static_assert(sizeof(domvurtesz_cycle_answer) == 24 && sizeof(domvurtesz_verdict_answer) == 32, "queue answers");
static_assert(offsetof(domvurtesz_verdict_answer, window) == 20, "verdict");
static_assert(sizeof(domvurtesz_fresh_answer) == 216 && sizeof(domvurtesz_step_answer) == 224, "state answers");
static_assert(offsetof(domvurtesz_step_answer, queue) == 212 && offsetof(domvurtesz_step_answer, late) == 216, "step");

/* Tables and records. */

/* Whether a table is well formed. Refuses COUNT to TASK, the lowest number first. */
domvurtesz_refusal domvurtesz_judge(domvurtesz_table table);

/*
 * The table that a record holds, with zeros past its locations and tasks. Any bytes of any length are taken.
 * Refuses CUT, FIELD or COUNT by what is met first from the front; then as domvurtesz_judge.
 */
domvurtesz_read_answer domvurtesz_read(const uint8_t *bytes, size_t length);

/*
 * Writes a table as its record into the first bytes of `out`, and answers the record's length: 7 bytes, 12 for each
 * location and 10 for each task. Later bytes of `out` stay as they are; beside a refusal all do.
 * Refuses as domvurtesz_judge; then ROOM where `length` is below the record's.
 */
domvurtesz_write_answer domvurtesz_write(domvurtesz_table table, uint8_t *out, size_t length);

/*
 * The payload of field k of a record: the part of `bytes` that holds it, as an offset and a length. Its numbers are
 * big-endian.
 * Refuses as domvurtesz_read; then AMOUNT where the record has no field k.
 */
domvurtesz_field_answer domvurtesz_field(const uint8_t *bytes, size_t length, size_t k);

/* Bounds. `queue` counts from 1. */

/*
 * The fewest ticks that the queue gets in any window of `window` ticks of any run.
 * Refuses as domvurtesz_judge; then QUEUE; then AMOUNT above DOMVURTESZ_LONGEST_WINDOW.
 */
domvurtesz_ticks_answer domvurtesz_least(domvurtesz_table table, uint32_t queue, uint32_t window);

/* The most ticks there. Refuses as domvurtesz_least. */
domvurtesz_ticks_answer domvurtesz_most(domvurtesz_table table, uint32_t queue, uint32_t window);

/* The fewest and the most ticks that the queue gets in a whole cycle. Refuses as domvurtesz_judge; then QUEUE. */
domvurtesz_cycle_answer domvurtesz_cycle(domvurtesz_table table, uint32_t queue);

/*
 * Writes the least of a window of t ticks into entry t of `out`, for t from 0 to 2P - 1. Later entries stay as they
 * are; beside a refusal all do. For t >= P the least of t + P ticks is that of t ticks and the cycle least.
 * Refuses as domvurtesz_judge; then QUEUE; then ROOM where `length` is below 2P.
 */
domvurtesz_refusal domvurtesz_fill(domvurtesz_table table, uint32_t queue, uint32_t *out, size_t length);

/* Demand, verdict and wait. */

/*
 * The most work of the queue that can be both released and due within `window` ticks.
 * Refuses as domvurtesz_least.
 */
domvurtesz_ticks_answer domvurtesz_demand(domvurtesz_table table, uint32_t queue, uint32_t window);

/*
 * MEETS where demand is at most the least supply in every window, however long: no job of the queue is ever late.
 * Else SHORT: the shortest window in which demand is more, that demand, and the least supply of that window.
 * Refuses as domvurtesz_judge; then QUEUE; then HORIZON where the least common multiple of P and of the T of the
 * queue's tasks is above DOMVURTESZ_LARGEST_MULTIPLE.
 */
domvurtesz_verdict_answer domvurtesz_verdict(domvurtesz_table table, uint32_t queue);

/*
 * The longest time until one message of `ticks` ticks, alone in its queue, is sent.
 * Refuses as domvurtesz_judge; then QUEUE; then AMOUNT where `ticks` is 0 or above DOMVURTESZ_LONGEST_MESSAGE; then
 * NEVER.
 */
domvurtesz_ticks_answer domvurtesz_wait(domvurtesz_table table, uint32_t queue, uint32_t ticks);

/* The runner. */

/* The state at the root, without work, in which every task may be released. Refuses as domvurtesz_judge. */
domvurtesz_fresh_answer domvurtesz_fresh(domvurtesz_table table);

/*
 * One tick: `values` are the variables', and bit i of `released` says that a message of task i is released now.
 * Answers the next state, the queue granted, the task served and the late set.
 * Refuses as domvurtesz_judge; then STATE; then EARLY. A refused step hands `state` back, so that the same tick can
 * be asked again with other releases.
 */
domvurtesz_step_answer domvurtesz_step(domvurtesz_state state, domvurtesz_table table,
                                       const uint16_t values[DOMVURTESZ_VARIABLES], uint32_t released);

#ifdef __cplusplus
}
#endif

#endif
