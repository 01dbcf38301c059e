/*
 * Run A of document 01, played from C: prints the listed order and the slots, as lines of the listing.
 *
 *   tests/build outside
 *   cc -Iinclude examples/run_a.c target/staticlib/liboutside.a -o target/run_a && target/run_a
 */
#include <inttypes.h>
#include <stdio.h>

#include "pollenloom.h"

enum { THREADS = 3, SLOTS = 2, OPERATIONS = 3, STEPS = 13 };

int main(void)
{
    static const uint8_t thread[OPERATIONS] = {0, 1, 2};
    static const uint8_t kind[OPERATIONS] = {1, 1, 2};
    static const int32_t sample[OPERATIONS] = {100, 0, 0};
    static const uint8_t schedule[STEPS] = {0, 0, 1, 1, 1, 1, 2, 2, 2, 0, 2, 2, 0};

    uint16_t codes[2 * OPERATIONS] = {0};
    int32_t values[2 * OPERATIONS] = {0};
    uint8_t order[OPERATIONS] = {0};
    uint8_t marks[SLOTS] = {0};
    int32_t held[SLOTS] = {0};
    uint8_t phases[THREADS] = {0};
    int32_t numbers[THREADS] = {0};
    uint8_t ends[THREADS] = {0};

    pollenloom_run_answer run = pollenloom_run(
        THREADS, SLOTS, thread, OPERATIONS, kind, OPERATIONS, sample, OPERATIONS, schedule, STEPS,
        codes, 2 * OPERATIONS, values, 2 * OPERATIONS, order, OPERATIONS, marks, SLOTS, held, SLOTS,
        phases, THREADS, numbers, THREADS, ends, THREADS);

    if (run.refusal != 0) {
        printf("refused\t%zu\t%zu\n", run.refusal, run.detail);
        return 1;
    }
    for (size_t i = 0; i < run.order; i++)
        printf("order\t%" PRIu8 "\n", order[i]);
    for (size_t i = 0; i < SLOTS; i++) {
        if (marks[i] == 1)
            printf("slot\t%zu\t%" PRId32 "\n", i, held[i]);
        else
            printf("slot\t%zu\tempty\n", i);
    }

    /* The judge agrees with the order that the run lists. */
    pollenloom_judge_answer judged = pollenloom_judge(
        THREADS, thread, OPERATIONS, kind, OPERATIONS, sample, OPERATIONS, codes, run.events, values, run.events, order, run.order);
    return judged.refusal == 0 && judged.verdict == 0 ? 0 : 1;
}
