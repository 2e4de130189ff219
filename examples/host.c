/* A bench of three stages: cut makes blocks of pieces, check marks pieces, print
 * shows them. Queue 0 goes from cut to check, queue 1 from check to print. */
#include "hyperqueue.h"
#include <stdio.h>
#include <stdlib.h>

#define WORDS words, HQ_WORDS
#define BLOCK 40
/* What hq_take does with the value. */
#define TAKE 0
#define KEEP 1

static uint32_t words[HQ_WORDS];

/* The value of a call that has to move here. */
static uint32_t moved(uint64_t answer) {
    if (!HQ_HAS_MOVED(answer)) {
        printf("%s\n", hq_status_text(HQ_STATUS(answer)));
        exit(1);
    }
    return HQ_VALUE(answer);
}

static uint32_t spawn(const char *name, uint32_t rights) {
    uint32_t task = moved(hq_spawn(WORDS, 0, rights));
    printf("%s is task %u\n", name, task);
    return task;
}

/* Cut pushes a block of pieces, from 1 on, as one run. */
static uint64_t cut_block(uint32_t task) {
    uint32_t pieces[BLOCK];

    for (uint32_t i = 0; i < BLOCK; i++)
        pieces[i] = i + 1;
    return hq_push(WORDS, task, 0, pieces, BLOCK);
}

/* Check takes a piece, marks it and hands it on, if one is there. */
static void check(uint32_t task) {
    uint64_t taken = hq_take(WORDS, task, 0, TAKE);
    if (HQ_STATUS(taken) == HQ_WAITS)
        printf("check waits\n");
    if (HQ_HAS_MOVED(taken)) {
        uint32_t marked = HQ_VALUE(taken) + 100;

        printf("check takes %u\n", HQ_VALUE(taken));
        moved(hq_push(WORDS, task, 1, &marked, 1));
    }
}

/* Print takes a piece; false once none will come. */
static int print(uint32_t task) {
    uint64_t taken = hq_take(WORDS, task, 1, TAKE);
    if (HQ_STATUS(taken) == HQ_WAITS)
        printf("print waits\n");
    if (HQ_HAS_MOVED(taken))
        printf("print shows %u\n", HQ_VALUE(taken));
    return HQ_STATUS(taken) != HQ_EMPTY;
}

int main(void) {
    moved(hq_open(WORDS, 4, 16));
    uint32_t cut = spawn("cut", HQ_MAY_PUSH(0));
    uint32_t checker = spawn("check", HQ_MAY_POP(0) | HQ_MAY_PUSH(1));
    uint32_t printer = spawn("print", HQ_MAY_POP(1));
    /* The last stage goes first, so that each one has to wait. */
    print(printer);
    check(checker);
    printf("cut pushes a block, its last piece is %u\n", moved(cut_block(cut)));
    /* The free segments hold a part of a second block: none of it is stored. */
    printf("a second block is refused with %u\n", HQ_STATUS(cut_block(cut)));
    for (int turn = 0; turn < 3; turn++) {
        print(printer);
        check(checker);
    }
    /* Check ends early: the other pieces stay in queue 0. It looks at the next
     * one, which stays too. */
    printf("check leaves %u\n", moved(hq_take(WORDS, checker, 0, KEEP)));
    moved(hq_finish(WORDS, cut));
    moved(hq_finish(WORDS, checker));
    while (print(printer)) {
    }
    moved(hq_finish(WORDS, printer));
    moved(hq_finish(WORDS, 0));
    printf("left in queue 0: %u to %u\n", moved(hq_left(WORDS, 0, 0)),
           moved(hq_left(WORDS, 0, BLOCK - 4)));
    printf("then refused with %u\n", HQ_STATUS(hq_left(WORDS, 0, BLOCK - 3)));
    return 0;
}
