/* A written job, tested, run without overlap, then with it step by step, then
 * the same steps in one call, then from the lines that a run printed, then
 * simulated with workers: the top pushes 7 and 9, and a child takes the first of
 * them. */
#include "hyperqueue.h"

#include <stdio.h>
#include <string.h>

/* Two procedures, segments of 4 values. */
static const uint8_t job[] = {
    2, 0, 4, 0,
    /* contents: where a body begins, its instructions, rights, zero */
    16, 0, 4, 0, 255, 0, /* the top: all rights */
    40, 0, 2, 0, 2, 0,   /* the child: may pop from queue 0 */
    /* the top: push 7, push 9, spawn procedure 1, return */
    1, 0, 7, 0, 0, 0, 1, 0, 9, 0, 0, 0, 8, 1, 0, 0, 0, 0, 0, 0, 0, 0, 0, 0,
    /* the child: pop, return */
    3, 0, 0, 0, 0, 0, 0, 0, 0, 0, 0, 0};

static uint32_t working[HQ_WORKING_WORDS];
static uint32_t answers[HQ_ANSWER_WORDS];
static uint32_t core[HQ_WORDS];
static uint32_t runner[HQ_RUNNER_WORDS];
static uint32_t under_way[HQ_SIMULATE_WORDS];

/* The steps that were made with overlap, and their answers. */
#define MOST_STEPS 16
static uint32_t tasks[MOST_STEPS];
static uint64_t stepped[MOST_STEPS];
static size_t steps;

/* Moves the highest ready task until nobody is ready. */
static void with_overlap(void) {
    uint32_t map[6];

    uint64_t answer = hq_job_open(job, sizeof job, core, HQ_WORDS, runner,
                                  HQ_RUNNER_WORDS);

    /* Refusals are 1 to 20. */
    while (HQ_STATUS(answer) >= HQ_WAITS && steps < MOST_STEPS) {
        uint32_t task = 127;

        answer = hq_job_ready(job, sizeof job, core, HQ_WORDS, runner,
                              HQ_RUNNER_WORDS, map);
        if (HQ_STATUS(answer) != HQ_TASK_MOVED || map[4] == 0)
            break;
        while ((map[task / 32] >> task % 32 & 1) == 0)
            task--;
        answer = hq_job_step(job, sizeof job, core, HQ_WORDS, runner,
                             HQ_RUNNER_WORDS, task);
        printf("%u ready, task %u: %s %u\n", map[4], task,
               hq_status_text(HQ_STATUS(answer)), HQ_VALUE(answer));
        tasks[steps] = task;
        stepped[steps++] = answer;
    }
    printf("left in queue 0: %u\n",
           HQ_VALUE(hq_left(core, HQ_WORDS, 0, 0)));
}

/* The same steps again, with the tests made once. */
static void in_one_call(void) {
    uint64_t listed[MOST_STEPS];
    uint64_t answer = hq_job_run(job, sizeof job, core, HQ_WORDS, runner,
                                 HQ_RUNNER_WORDS, tasks, steps, listed, steps);

    printf("%u steps in one call: %s, %s answers\n", (unsigned)steps,
           hq_status_text(HQ_STATUS(answer)),
           memcmp(listed, stepped, steps * sizeof *listed) ? "other" : "the same");
}

/* What a run of the job printed, and the same with another value taken. */
static const char recorded[] = "1 0 pushed 7\n2 0 pushed 9\n3 0 spawned 1\n"
                               "4 1 took 7\n5 1 finished -\n6 0 finished -\n"
                               "left 0 9\n";
static const char altered[] = "1 0 pushed 7\n2 0 pushed 9\n3 0 spawned 1\n"
                              "4 1 took 9\n";

/* Makes the calls of a trace again: does the run print these lines? */
static void replayed(const char *trace) {
    uint64_t answer = hq_replay(job, sizeof job, (const uint8_t *)trace,
                                strlen(trace), core, HQ_WORDS, runner,
                                HQ_RUNNER_WORDS);

    printf("trace of %u bytes: %s", (unsigned)strlen(trace),
           hq_status_text(HQ_STATUS(answer)));
    if (HQ_STATUS(answer) == HQ_DIFFERS)
        printf(" in line %u", HQ_VALUE(answer));
    printf("\n");
}

/* How long the job takes with so many workers, and how long at most. */
static void simulated(uint32_t workers) {
    uint64_t out[3];
    uint64_t answer = hq_simulate(job, sizeof job, workers, core, HQ_WORDS, runner,
                                  HQ_RUNNER_WORDS, under_way, HQ_SIMULATE_WORDS,
                                  out);

    printf("%u worker%s: ", workers, workers == 1 ? "" : "s");
    if (HQ_HAS_MOVED(answer))
        printf("%u ticks, work %u, span %u, at most %u ticks\n",
               (unsigned)out[0], (unsigned)out[1], (unsigned)out[2],
               (unsigned)HQ_CEILING(workers, out));
    else
        printf("%s\n", hq_status_text(HQ_STATUS(answer)));
}

int main(void) {
    uint64_t run;
    uint32_t step, index;

    printf("test: %u, of 3 bytes: %u\n", HQ_STATUS(hq_job_test(job, sizeof job)),
           HQ_STATUS(hq_job_test(job, 3)));
    run = hq_run_serially(job, sizeof job, working, HQ_WORKING_WORDS, answers,
                          HQ_ANSWER_WORDS);
    printf("status %u after %u steps\n", HQ_STATUS(run), HQ_VALUE(run));
    for (step = 0; step < HQ_VALUE(run); step++) {
        const uint32_t *answer = answers + 3 * step;
        printf("task %u %s %u\n", answer[0], hq_status_text(answer[1]),
               answer[2]);
    }
    for (index = 0; index < HQ_QUEUED(working, 0); index++)
        printf("left in queue 0: %u\n", HQ_QUEUED_VALUE(working, 0, index));
    with_overlap();
    in_one_call();
    replayed(recorded);
    replayed(altered);
    replayed("job refused 10\n");
    simulated(0);
    simulated(1);
    simulated(2);
    return 0;
}
