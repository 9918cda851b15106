/*
 * What include/kin.h says of stack and threads: threads ask everything at once, on the stack that it says they should have, lent the
 * same file and cells of their own. Each has to be told what a caller alone is told. It is C, with POSIX threads.
 */
#include <pthread.h>
#include <stdio.h>
#include <string.h>

#include "kin.h"

/* From the first person to the last in at most eight hops, over all links: the deepest search there is. */
#define QUESTION 0, PERSONS - 1, 8, 15, 1, 1, 3652059, 1

/* From the first person back to that person. */
#define ROUND 0, 0, 8, 15, 1, 1, 3652059, 1

enum {
    THREADS = 4,
    /* The join takes as long as a hundred of the others, so that the threads would hardly meet in those: it is asked less often. */
    ROUNDS = 10000,
    ROUNDS_A_JOIN = 100,
    ANSWERS = 6,
    STACK = 128 * 1024,
    PERSONS = 10,
    LINKS = PERSONS * (PERSONS - 1),
    ROW_TABLE = 36,
    LINK_TABLE = ROW_TABLE + 4 * (PERSONS + 1),
    LENGTH = LINK_TABLE + 12 * LINKS,
    OUTPUT = 40 * KIN_RECORD_CELLS,
    /* To, and before it at most four of the others without From: 1 + 8 + 8 * 7 + 8 * 7 * 6 + 8 * 7 * 6 * 5 half chains. */
    WORKING = 2081 * KIN_RECORD_CELLS
};

static uint8_t file[LENGTH];

/* What a caller lends, and what it is told: by the join, and by the others. */
struct join {
    uint64_t answer;
    uint32_t output[OUTPUT], working[WORKING];
};

struct others {
    uint64_t answers[ANSWERS];
    uint32_t held[KIN_HELD_CELLS];
    uint32_t portioned[OUTPUT], rings[OUTPUT], moved[OUTPUT];
};

struct caller {
    struct join join;
    struct others others;
};

static struct caller alone, together[THREADS];

static uint8_t *put(uint8_t *place, uint32_t number) {
    for (int byte = 0; byte < 4; byte++) *place++ = (uint8_t)(number >> 8 * byte);
    return place;
}

/* Everybody linked to everybody as a parent, undated, by one feed: archive 1, days of events. */
static void make_file(void) {
    static const uint32_t counts_and_offsets[] = {PERSONS, LINKS, 1, 32, ROW_TABLE, LINK_TABLE, LENGTH};
    uint8_t *place = file + 4;
    memcpy(file, "KLF1", 4);
    for (int number = 0; number < 7; number++) place = put(place, counts_and_offsets[number]);
    place = put(place, 0x10001);
    for (uint32_t person = 0; person <= PERSONS; person++) place = put(place, person * (PERSONS - 1));
    for (uint32_t link = 0; link < PERSONS * PERSONS; link++) {
        if (link / PERSONS != link % PERSONS) place = put(put(put(place, link % PERSONS), 0), 0x10000);
    }
}

static void ask_join(struct join *told) {
    memset(told, 0, sizeof *told);
    told->answer = kin_join(file, LENGTH, QUESTION, told->working, WORKING, told->output, OUTPUT);
}

static void ask_others(struct others *told) {
    const uint32_t held[KIN_HELD_CELLS] = {QUESTION, 0};
    memset(told, 0, sizeof *told);
    memcpy(told->held, held, sizeof held);
    told->answers[0] = kin_check(file, LENGTH);
    told->answers[1] = kin_row(file, LENGTH, 1);
    told->answers[2] = kin_fewest(file, LENGTH, QUESTION, 1);
    told->answers[3] = kin_portion(file, LENGTH, QUESTION, 0, NULL, 0, told->portioned, OUTPUT);
    told->answers[4] = kin_rings(file, LENGTH, ROUND, 0, NULL, 0, told->rings, OUTPUT);
    told->answers[5] = kin_held(told->held, KIN_HELD_CELLS, file, LENGTH, told->moved, OUTPUT);
}

/* Answers NULL if every round told what a caller alone is told. */
static void *ask_again_and_again(void *lent) {
    struct caller *caller = (struct caller *)lent;
    void *different = NULL;
    for (int round = 0; round < ROUNDS; round++) {
        if (round % ROUNDS_A_JOIN == 0) ask_join(&caller->join);
        ask_others(&caller->others);
        if (memcmp(caller, &alone, sizeof alone) != 0) different = caller;
    }
    return different;
}

static int refused_alone(void) {
    int refused = kin_refused(alone.join.answer);
    for (int answer = 0; answer < ANSWERS; answer++) refused += kin_refused(alone.others.answers[answer]);
    return refused;
}

int main(void) {
    pthread_t threads[THREADS];
    pthread_attr_t with_stack;
    int faults = 0;
    make_file();
    ask_join(&alone.join);
    ask_others(&alone.others);
    if (refused_alone()) return 1;
    if (pthread_attr_init(&with_stack) || pthread_attr_setstacksize(&with_stack, STACK)) return 1;
    for (int thread = 0; thread < THREADS; thread++) {
        if (pthread_create(&threads[thread], &with_stack, ask_again_and_again, &together[thread])) return 1;
    }
    for (int thread = 0; thread < THREADS; thread++) {
        void *different;
        if (pthread_join(threads[thread], &different) || different) faults++;
    }
    if (faults) printf("%d of %d threads were told something else\n", faults, THREADS);
    return faults != 0;
}
