/* The queue core: four queues and a tree of tasks, in memory lent by the host;
 * and the runs of a written job, with overlap and without, the replay of a
 * recorded run, and how long a job takes with so many workers, at the end of this
 * file.
 *
 * Every call gets the host's words and their number: words points to len words
 * that may be written, and len should be HQ_WORDS. Nothing else has to be
 * checked before a call: any contents, any len and any arguments give an
 * answer. A call that is refused or waits changes no word. Nothing outside
 * words[0] to words[len - 1] is read or written, but for the values of a push,
 * which are read, and nothing is kept between calls, so a host may have many
 * cores. Two calls on the same words must not run at the same time.
 *
 * The order of a queue's values is that of a run in which every child ends
 * before its spawner goes on, so it is the order of spawns: a reader that was
 * spawned before its writer finds the queue empty.
 *
 * Link with libhyperqueue.a, which is for x86-64. A call needs about 2 kB of
 * stack, hq_job_ready 2.5 kB; hq_run_serially needs 27 kB where 128 tasks are
 * unfinished. */
#ifndef HYPERQUEUE_H
#define HYPERQUEUE_H

#include <stddef.h>
#include <stdint.h>

#ifdef __cplusplus
extern "C" {
#endif

/* The version of the library. */
#define HQ_VERSION "0.7.0"

/* An answer that is not looked at is mostly an error: where the compiler can,
 * it says so. */
#if defined(__GNUC__)
#define HQ_ANSWER __attribute__((warn_unused_result)) uint64_t
#else
#define HQ_ANSWER uint64_t
#endif

/* Words that the core needs; any other number is refused with 1. */
#define HQ_WORDS 16384

/* An answer: the status in the high 32 bits, the value in the low 32 bits.
 * The value is 0 unless the call moved or a trace differs. An answer is taken
 * apart before it is compared: hq_push(..) == HQ_MOVED is false for every value
 * but 0. */
#define HQ_STATUS(answer) ((uint32_t)((answer) >> 32))
#define HQ_VALUE(answer) ((uint32_t)(answer))
/* The status is HQ_MOVED, so that there is a value. A take that is answered
 * HQ_EMPTY has moved too, and has none. */
#define HQ_HAS_MOVED(answer) (HQ_STATUS(answer) == HQ_MOVED)

/* The statuses. 1 to 20 are refusals, of which 1 to 14 are in use. A call that
 * waits may be made again once other tasks have moved. */
enum {
    HQ_MOVED = 0,
    HQ_LENGTH_WRONG = 1,   /* len is not HQ_WORDS */
    HQ_RULES_FAIL = 2,     /* the words are not such as calls leave behind */
    HQ_NUMBERS_WRONG = 3,  /* open: length or segments out of range */
    HQ_NO_SUCH_TASK = 4,   /* no unfinished task has this number */
    HQ_NO_SUCH_QUEUE = 5,  /* queues are 0 to 3 */
    HQ_NO_RIGHT = 6,       /* the task lacks the right */
    HQ_PAST_THE_END = 7,   /* left: no value is there */
    HQ_NO_RECORD = 8,      /* spawn: 128 tasks are unfinished */
    HQ_NO_SEGMENT = 9,     /* push: too few segments are free for the run */
    HQ_JOB_HEAD = 10,      /* a job too short, or its first numbers wrong */
    HQ_JOB_CONTENTS = 11,  /* an entry of a job or its length is wrong */
    HQ_JOB_BODY = 12,      /* an instruction of a job is wrong */
    HQ_TRACE_FORM = 13,    /* a line of a trace is none, or there are too many */
    HQ_WORKERS_WRONG = 14, /* workers are 1 to 16 */
    HQ_WAITS = 32,
    HQ_EMPTY = 33,     /* take, or a step: no value stands before it */
    HQ_NOT_EMPTY = 34, /* a step of operation 4: a value is there */
    HQ_SPENT = 35,     /* 65,535 steps made, the top unfinished */
    HQ_DIFFERS = 36,   /* a trace: the value is the first line that differs */
    HQ_AGREES = 37,    /* a trace: no line of it differs */
    /* A step of a job's task that moved, in a run with overlap or without,
     * with its value if it has one: */
    HQ_TASK_SPAWNED = 40, /* the number of the new task */
    HQ_TASK_PUSHED = 41,  /* the value */
    HQ_TASK_TOOK = 42,    /* the value */
    HQ_TASK_FINISHED = 43,
    HQ_TASK_MOVED = 44
};

/* A status in words. */
static inline const char *hq_status_text(uint32_t status) {
    switch (status) {
    case HQ_MOVED: return "moved";
    case HQ_LENGTH_WRONG: return "refused: a wrong number of words";
    case HQ_RULES_FAIL: return "refused: the words break the memory rules";
    case HQ_NUMBERS_WRONG: return "refused: length or segments out of range";
    case HQ_NO_SUCH_TASK: return "refused: no unfinished task has this number";
    case HQ_NO_SUCH_QUEUE: return "refused: queues are 0 to 3";
    case HQ_NO_RIGHT: return "refused: the task lacks the right";
    case HQ_PAST_THE_END: return "refused: no value is there";
    case HQ_NO_RECORD: return "refused: 128 tasks are unfinished";
    case HQ_NO_SEGMENT: return "refused: too few segments are free";
    case HQ_JOB_HEAD: return "refused: a job's first numbers";
    case HQ_JOB_CONTENTS: return "refused: a job's entries or its length";
    case HQ_JOB_BODY: return "refused: an instruction of a job";
    case HQ_TRACE_FORM: return "refused: the form of a trace";
    case HQ_WORKERS_WRONG: return "refused: workers are 1 to 16";
    case HQ_WAITS: return "waits";
    case HQ_EMPTY: return "empty";
    case HQ_NOT_EMPTY: return "not empty";
    case HQ_SPENT: return "spent";
    case HQ_DIFFERS: return "differs";
    case HQ_AGREES: return "agrees";
    case HQ_TASK_SPAWNED: return "spawned";
    case HQ_TASK_PUSHED: return "pushed";
    case HQ_TASK_TOOK: return "took";
    case HQ_TASK_FINISHED: return "finished";
    case HQ_TASK_MOVED: return "moved";
    default: return "no status";
    }
}

/* Rights of a task on a queue from 0 to 3; add them up for several. */
#define HQ_MAY_PUSH(queue) ((uint32_t)1 << (2 * (queue)))
#define HQ_MAY_POP(queue) ((uint32_t)2 << (2 * (queue)))

/* Writes all words: an open core whose only task is 0, the top, with all
 * rights. A segment holds `length` values, 1 to 64; `segments` of them, 4 to
 * 256, hold at most 8,192 values together. */
HQ_ANSWER hq_open(uint32_t *words, size_t len, uint32_t length,
                 uint32_t segments);

/* A child of `task`, with some of its rights; the value is its number. */
HQ_ANSWER hq_spawn(uint32_t *words, size_t len, uint32_t task, uint32_t rights);

/* Pushes a run of count values, values[0] first; a single value is a run of one.
 * The value of the answer is the last one of the run, 0 for a run of none. A run
 * goes on into new segments as needed. If they run out part way the whole run is
 * refused with HQ_NO_SEGMENT and nothing is stored: a stage that has taken values
 * has to keep them, since they are in no queue, or push fewer of them at once. A
 * run of none needs no segment, is tested as any other, and changes no word.
 *
 * values points to count words that may be read, and must not be a null pointer
 * where count is 0 either. They are not written, and nothing behind the last of
 * them is read. They must not overlap the core's words. Any count gives an
 * answer. */
HQ_ANSWER hq_push(uint32_t *words, size_t len, uint32_t task, uint32_t queue,
                 const uint32_t *values, size_t count);

/* Takes the next value, in the order of a run in which every child ends before
 * its parent goes on; it asks for the right to pop. With keep 0 the value is
 * taken; with any other number it stays queued and no word changes. The answer
 * is HQ_MOVED with the value either way. HQ_EMPTY says that in that order no
 * value stands before this call; no word changes, and what the task or its later
 * children push is found by later takes. HQ_WAITS says that another task may
 * still push a value that stands before, or that an older sibling which shares a
 * right to pop, or a child that may pop from the queue, is unfinished. */
HQ_ANSWER hq_take(uint32_t *words, size_t len, uint32_t task, uint32_t queue,
                 uint32_t keep);

/* Moves once `task` has no unfinished child. */
HQ_ANSWER hq_sync(uint32_t *words, size_t len, uint32_t task);

/* Ends `task` once it has no unfinished child. Its number is used again, but
 * the top's is not. */
HQ_ANSWER hq_finish(uint32_t *words, size_t len, uint32_t task);

/* Value number `index`, from 0, still in the queue once the top has finished;
 * no word changes. */
HQ_ANSWER hq_left(uint32_t *words, size_t len, uint32_t queue, uint32_t index);

/* JOBS. A job is the len bytes of a job file; any bytes may be handed in, and
 * none of them is written. What is lent beside them must not overlap. */

/* HQ_MOVED where the bytes are a job; else HQ_JOB_HEAD, HQ_JOB_CONTENTS or
 * HQ_JOB_BODY. The value is 0. */
HQ_ANSWER hq_job_test(const uint8_t *job, size_t len);

/* WITH OVERLAP: the host says which task of the job moves next. The runner
 * needs HQ_RUNNER_WORDS words beside the core's HQ_WORDS. Every call is given
 * the same job, and tests first: 1 for a wrong length, the job's refusals, then
 * HQ_RULES_FAIL for either memory, but for the calls that open and write over
 * what they find. In whatever order tasks are called, each gets the
 * answers that it gets in a run without overlap. */
#define HQ_RUNNER_WORDS 384

/* Writes all words of both memories: the top task, 0, is at its first
 * instruction. HQ_TASK_MOVED, or a refusal. */
HQ_ANSWER hq_job_open(const uint8_t *job, size_t job_len, uint32_t *words,
                     size_t len, uint32_t *runner, size_t runner_len);

/* The next instruction of an unfinished task: one of HQ_TASK_SPAWNED to
 * HQ_TASK_MOVED, HQ_EMPTY or HQ_NOT_EMPTY where it moved; HQ_WAITS, or a
 * refusal, and then no word has changed. An empty queue is a move with HQ_EMPTY:
 * operation 3 goes on to the next instruction, operations 4 and 10 go to their
 * operand. HQ_NOT_EMPTY is an answer of operation 4 alone. Once the top has
 * finished, hq_left gives the values left. */
HQ_ANSWER hq_job_step(const uint8_t *job, size_t job_len, uint32_t *words,
                     size_t len, uint32_t *runner, size_t runner_len,
                     uint32_t task);

/* A list of steps in one call: opens the job afresh and makes a step of each
 * of the count tasks, tests being made once. answers_len has to be count; any
 * other is refused with 1, then come the job's refusals, and then no word has
 * changed. Else the answer is HQ_TASK_MOVED with value 0, and answers[i] is
 * what hq_job_step gives for step i; one that waits or is refused stands in its
 * place too, and the list goes on. The memories are as after the last step, so
 * hq_job_step, hq_job_ready and hq_left can follow. */
HQ_ANSWER hq_job_run(const uint8_t *job, size_t job_len, uint32_t *words,
                    size_t len, uint32_t *runner, size_t runner_len,
                    const uint32_t *tasks, size_t count, uint64_t *answers,
                    size_t answers_len);

/* Which tasks' next step would move: bit t mod 32 of out[t / 32], their number
 * in out[4], the lowest of them in out[5], HQ_NO_TASK if there is none. The
 * answer is HQ_TASK_MOVED, or a refusal, which leaves zeros and HQ_NO_TASK. */
#define HQ_NO_TASK 0xFFFFFFFF
HQ_ANSWER hq_job_ready(const uint8_t *job, size_t job_len, const uint32_t *words,
                      size_t len, const uint32_t *runner, size_t runner_len,
                      uint32_t out[6]);

/* A trace is the trace_len bytes of the lines that a run of the job printed,
 * each ended by a line feed: for each call its number from 1, the task, the
 * answer and its value or "-"; then "left", queue and value for each value left,
 * or "open" and the number of unfinished tasks. Any bytes may be handed in, and
 * none of them is written. The trace's calls are made again, and the answer is
 * HQ_DIFFERS with the number, from 1, of the first line that the run of these
 * calls does not print, or HQ_AGREES with value 0. A trace that stops early
 * agrees as far as it goes, and one of no bytes agrees.
 *
 * Refused is, in this order: a wrong length of words or runner with 1; bytes
 * that are no job, as by hq_job_test; with HQ_TRACE_FORM a line of another form,
 * a number with leading zeros or above 4,294,967,295, a task above 255, a queue
 * above 3, a last line without a line feed, a call behind "left" or "open", and
 * more than 65,535 lines. All lines are tested before a call is made, so
 * HQ_TRACE_FORM goes before a difference. Words and runner are for working:
 * their contents before do not matter; a refusal leaves them as they were, and
 * after HQ_AGREES or HQ_DIFFERS they mean nothing. */
#define HQ_MOST_LINES 65535
HQ_ANSWER hq_replay(const uint8_t *job, size_t job_len, const uint8_t *trace,
                   size_t trace_len, uint32_t *words, size_t len,
                   uint32_t *runner, size_t runner_len);

/* WITH WORKERS: how many ticks the job takes with so many workers, 1 to 16. An
 * instruction of operation 0 to 10 takes 2, 3, 3, 3, 2, 1, 1, 1, 5, 1 or 3 ticks.
 * A worker takes it only when it could move and holds it for its ticks; its
 * effect, a step of its task, falls at their end. No task has two instructions
 * under way, and no worker idles while an instruction that could move is untaken.
 * Effects of one tick fall, and free workers choose, in the order of a run without
 * overlap; a free worker passes over what waits.
 *
 * HQ_MOVED where the top task has finished: out[0] is the ticks used, out[1] the
 * work, which is the ticks of all instructions together, and out[2] the span: the
 * ticks of the longest chain of instructions each of which needs the one before,
 * that is its task's previous one, the spawn of its task, the push of the value
 * that it finds, or the finish of a task that it waits for. Work and span are the
 * same for every number of workers with which the job ends, and HQ_CEILING(workers,
 * out) ticks are never exceeded. HQ_SPENT once 65,535 effects have fallen with the
 * top unfinished. HQ_NO_RECORD or HQ_NO_SEGMENT where an instruction is refused so
 * when a free worker comes to it or when its effect falls; with another number of
 * workers the job may end. The value is always 0, and all three of out are 0 with
 * any answer but HQ_MOVED.
 *
 * Refused is, in this order: a wrong length of words, runner or working with 1;
 * bytes that are no job, as by hq_job_test; workers with HQ_WORKERS_WRONG. A
 * refusal leaves words, runner and the first 128 of working as they were; else
 * their contents before do not matter, words and runner are as after the last
 * effect, and working[t], of the first 128, is the tick at which the effect of task
 * t falls, 0 where it has no instruction under way. The others of working may be
 * written whatever the answer, and mean nothing. working has 2 MB, more than a
 * stack may have room for. */
#define HQ_SIMULATE_WORDS 525718
HQ_ANSWER hq_simulate(const uint8_t *job, size_t job_len, uint32_t workers,
                     uint32_t *words, size_t len, uint32_t *runner,
                     size_t runner_len, uint32_t *working, size_t working_len,
                     uint64_t out[3]);

/* The ticks that so many workers, 1 to 16, use at most, by what hq_simulate gave:
 * work plus workers - 1 times span, divided by workers, rounded down. */
#define HQ_CEILING(workers, out)                                               \
    (((out)[1] + ((uint64_t)(workers) - 1) * (out)[2]) / (uint64_t)(workers))

/* WITHOUT OVERLAP. Words that a run without overlap is lent for working and for its answers;
 * any other numbers are refused with 1. Their contents before do not matter. */
#define HQ_WORKING_WORDS 16392
#define HQ_ANSWER_WORDS 196605

/* Runs the job: a child wholly before its spawner goes on. The low 32 bits of
 * the answer are the number of steps made, the high 32 bits say why the run
 * stopped: HQ_MOVED where the top task has finished, HQ_SPENT after 65,535
 * steps, 8 where 128 tasks are unfinished and one more would be spawned, 9
 * where a queue holds 4,096 values and one more would be pushed. Bytes that are
 * no job are refused as by hq_job_test, and nothing is run.
 *
 * Step number n, from 0, has the three words from answers[3 * n] on: the task,
 * numbered in the order of spawns with the top 0; the status, one of
 * HQ_TASK_SPAWNED to HQ_TASK_MOVED, HQ_EMPTY or HQ_NOT_EMPTY, as hq_job_step
 * answers; the value, the child's number for a spawn, 0 where there is none. */
HQ_ANSWER hq_run_serially(const uint8_t *job, size_t len, uint32_t *working,
                         size_t working_len, uint32_t *answers,
                         size_t answers_len);

/* After a run: how many values queue 0 to 3 holds, and value number `index` of
 * it, from 0. */
#define HQ_QUEUED(working, queue) ((working)[16385 + 2 * (queue)])
#define HQ_QUEUED_VALUE(working, queue, index)                                 \
    ((working)[4096 * (queue) +                                                \
               ((working)[16384 + 2 * (queue)] + (index)) % 4096])

#ifdef __cplusplus
}
#endif

#endif
