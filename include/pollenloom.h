/*
 * Pollenloom for programs in C: threads that put samples into one slot array and take them out, one atomic action at a time, and a
 * judge of the orders that anyone proposes for such a history. The words and numbers are those of document 01.
 *
 * Link with target/staticlib/liboutside.a (x86-64 Linux), which `tests/build outside` proves and writes. Each function here is
 * proved to answer every input as its comment says; crates/outside/specs/Outside.antt and Texts.antt are the exact statement.
 *
 * How a list is passed
 *   Each list is two arguments: a pointer to its first entry, and how many entries it has. A list behind a pointer to const is
 *   read; each other one is lent, and the call may write to its entries and to no byte beyond them.
 *
 * What a caller owes, and nothing else
 *   - A pointer is aligned and not null, also that of a list with no entries, and its entries are there to read. (Those of a lent
 *     list are set before the call: they have to have values.)
 *   - A lent list overlaps no other list of the same call, and until the call returns nothing else writes to any of its lists or
 *     reads a lent one.
 *
 * What a refused call does
 *   `refusal` is the document's number, 1 to 12, and `detail` its detail: operations and positions count from 0, and it is 0
 *   where the document gives none. Every other number of the answer is 0, and no entry of any lent list has changed.
 *
 * Input lists
 *   thread, kind, sample   operations, numbered from 0: thread; kind, 1 put, 2 take; sample, 0 for a take. Three lists of one length
 *   schedule               the thread that makes each step
 *   codes, samples         a history: 2 * operation for a call, 2 * operation + 1 for a return; beside it the sample that a returned
 *                          take got, else 0. Two lists of one length
 *   text                   the bytes of a run file
 */
#ifndef POLLENLOOM_H
#define POLLENLOOM_H

#include <stddef.h>
#include <stdint.h>

#ifdef __cplusplus
extern "C" {
#endif

/* Numbers that bound a run. */
#define POLLENLOOM_MOST_THREADS 16
#define POLLENLOOM_MOST_SLOTS 64
#define POLLENLOOM_MOST_OPERATIONS 128
#define POLLENLOOM_MOST_STEPS 4096
#define POLLENLOOM_MOST_BYTES 65536

/* A text of this many bytes has room for the listing of every run. */
#define POLLENLOOM_LISTING_ROOM 12288

/* The codes of a thread's phase, in the list `phases`. */
enum pollenloom_phase {
    POLLENLOOM_REST = 0,
    POLLENLOOM_CALLED_PUT = 1,
    POLLENLOOM_RESERVED = 2,    /* number: its slot */
    POLLENLOOM_STORED = 3,
    POLLENLOOM_CALLED_TAKE = 4,
    POLLENLOOM_SCANNING = 5,    /* number: the next slot; end: the reservation count that this pass read */
    POLLENLOOM_HOLDING = 6      /* number: the sample */
};

/* A run's answer. */
typedef struct {
    size_t refusal;   /* 0: accepted */
    size_t detail;
    size_t events;    /* entries written to codes, and to values */
    size_t order;     /* entries written to order */
    size_t back;      /* the reservation count */
    size_t steps;     /* the six counts */
    size_t idle;
    size_t stores;
    size_t swaps;
    size_t finds;
    size_t fruitless;
} pollenloom_run_answer;

/* The judge's answer. */
typedef struct {
    size_t refusal;   /* 0: there is a verdict */
    size_t detail;
    size_t verdict;   /* 0: a linearization; 20 to 24: the first fault of the whole order */
} pollenloom_judge_answer;

/* What a run file holds. */
typedef struct {
    size_t refusal;   /* 0: accepted */
    size_t detail;
    size_t threads;
    size_t slots;
    size_t operations;   /* entries written to thread, kind and sample */
    size_t steps;        /* entries written to schedule */
} pollenloom_read_answer;

/* A text made. */
typedef struct {
    size_t refusal;   /* 0: accepted */
    size_t detail;
    size_t bytes;     /* bytes written to text */
} pollenloom_text_answer;

/*
 * Plays the schedule and writes what the run shows. The lent lists, and how long each has to be at least:
 *   codes, values          the history: codes and samples                          2 * operations
 *   order                  the listed order                                        operations
 *   marks, held            of each slot 1 or 0, and its sample, 0 where the mark is 0   slots
 *   phases, numbers, ends  the thread records: of each thread its phase's code; the number that the phase shows, 0 where it has
 *                          none; the end of its pass, 0 outside phase 5            threads
 * An accepted run writes the first `events` entries of codes and values, the first `order` of order, the first `slots` of marks and
 * held, and the first `threads` of phases, numbers and ends. No entry after these changes. Refuses 1 to 9.
 */
pollenloom_run_answer pollenloom_run(
    size_t threads, size_t slots,
    const uint8_t *thread, size_t thread_length,
    const uint8_t *kind, size_t kind_length,
    const int32_t *sample, size_t sample_length,
    const uint8_t *schedule, size_t schedule_length,
    uint16_t *codes, size_t codes_length,
    int32_t *values, size_t values_length,
    uint8_t *order, size_t order_length,
    uint8_t *marks, size_t marks_length,
    int32_t *held, size_t held_length,
    uint8_t *phases, size_t phases_length,
    int32_t *numbers, size_t numbers_length,
    uint8_t *ends, size_t ends_length);

/*
 * The verdict on a proposed order, a list of operation numbers, for the history that codes and samples give. Writes nothing. The
 * order may have any length. Refuses 1, 3, 4, 5 and 10.
 */
pollenloom_judge_answer pollenloom_judge(
    size_t threads,
    const uint8_t *thread, size_t thread_length,
    const uint8_t *kind, size_t kind_length,
    const int32_t *sample, size_t sample_length,
    const uint16_t *codes, size_t codes_length,
    const int32_t *samples, size_t samples_length,
    const uint8_t *order, size_t order_length);

/*
 * Reads a run file. Writes its operations to the first `operations` entries of thread, kind and sample, and its schedule to the
 * first `steps` of schedule; no entry after these changes. Refuses 12, 11, then 1, 2, 4 to 9: a lent list has to have room for what
 * the text has.
 */
pollenloom_read_answer pollenloom_read(
    const uint8_t *text, size_t text_length,
    uint8_t *thread, size_t thread_length,
    uint8_t *kind, size_t kind_length,
    int32_t *sample, size_t sample_length,
    uint8_t *schedule, size_t schedule_length);

/*
 * Writes the run file of a run's input to the first `bytes` bytes of text, with no byte 0 at its end; none after these changes.
 * Reading it gives the same lists. Refuses 1 to 9: text has to have room for the whole run file.
 */
pollenloom_text_answer pollenloom_write(
    size_t threads, size_t slots,
    const uint8_t *thread, size_t thread_length,
    const uint8_t *kind, size_t kind_length,
    const int32_t *sample, size_t sample_length,
    const uint8_t *schedule, size_t schedule_length,
    uint8_t *text, size_t text_length);

/*
 * Plays the schedule and writes the run's listing to the first `bytes` bytes of text, with no byte 0 at its end; none after these
 * changes: the reservation count, events, listed order, slots, threads and counts, one line each, as `bench` prints them. Refuses 1
 * to 9: text has to have room for the whole listing, and POLLENLOOM_LISTING_ROOM bytes always suffice.
 */
pollenloom_text_answer pollenloom_list(
    size_t threads, size_t slots,
    const uint8_t *thread, size_t thread_length,
    const uint8_t *kind, size_t kind_length,
    const int32_t *sample, size_t sample_length,
    const uint8_t *schedule, size_t schedule_length,
    uint8_t *text, size_t text_length);

#ifdef __cplusplus
}
#endif

#endif
