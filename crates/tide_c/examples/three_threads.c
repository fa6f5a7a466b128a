/* Three POSIX threads on one heap. Two build lists and drop them, the third one holds a cell and sleeps. None of the library's
   calls waits: where one says that a turn comes first, its thread meets the others by a lock, and the last to come turns. */
#include "tide.h"
#include <pthread.h>
#include <stdio.h>
#include <stdlib.h>
#include <unistd.h>

enum { BUILDERS = 2, SLEEPER = 2, MEMBERS = 3, ROUNDS = 200, LENGTH = 300 };

static tide_handle keeper, helper, snapshot, members[MEMBERS];
static pthread_mutex_t lock = PTHREAD_MUTEX_INITIALIZER;
static pthread_cond_t turned = PTHREAD_COND_INITIALIZER;
static int awake = MEMBERS, waiting, asleep, has_slept;
static unsigned turns;

static void expect(int is, const char *what) {
    if (!is) fprintf(stderr, "%s\n", what), exit(1);
}

/* The last one to come turns: each that is awake has handed its note in, and nobody else has the sleeper's handle. Once it has
   slept, one turn takes a snapshot, and from then on that handle isn't empty. */
static void turn_if_all(void) {
    if (waiting < awake) return;
    tide_visit(&helper);
    uint32_t status = has_slept ? tide_look(&keeper, &members[SLEEPER], asleep, &snapshot) : TIDE_FILLED;
    if (status == TIDE_FILLED) status = tide_turn(&keeper, &members[SLEEPER], asleep);
    expect(status == TIDE_DONE || status == TIDE_OVER, "turn");
    waiting = 0;
    turns++;
    pthread_cond_broadcast(&turned);
}

static void meet(void) {
    pthread_mutex_lock(&lock);
    unsigned before = turns;
    waiting++;
    turn_if_all();
    while (before == turns) pthread_cond_wait(&turned, &lock);
    pthread_mutex_unlock(&lock);
}

/* So many more are awake, and asleep. */
static void shift(int wakes, int sleeps) {
    pthread_mutex_lock(&lock);
    awake += wakes;
    asleep += sleeps;
    has_slept |= asleep;
    turn_if_all();
    pthread_mutex_unlock(&lock);
}

static tide_answer call(int who, tide_operation operation) {
    tide_answer answer = {0, 0, 0};
    uint32_t status;
    while ((status = tide_call(&members[who], &operation, &answer)) == TIDE_WAIT || status == TIDE_AGAIN) meet();
    expect(status == TIDE_DONE && answer.kind != TIDE_REFUSED, "call");
    return answer;
}

#define CALL(...) call(who, (tide_operation){__VA_ARGS__})

/* The root stack holds the list, and each of its cells a number and the rest. */
static intptr_t build(int who) {
    intptr_t sum = 0;
    for (int round = 0; round < ROUNDS; round++) {
        uint8_t list;
        uint32_t status;
        while ((status = tide_push(&members[who], 1, &list)) == TIDE_WAIT) meet();
        expect(status == TIDE_DONE, "push");
        for (uint32_t n = 1; n <= LENGTH; n++) {
            CALL(TIDE_ALLOC, .dst = 1);
            CALL(TIDE_SET, .dst = 2, .number = n);
            CALL(TIDE_PUT, .src = 1, .at = 0, .val = 2);
            CALL(TIDE_PUT, .src = 1, .at = 1, .val = list);
            CALL(TIDE_MOVE, .dst = list, .src = 1);
        }
        do sum += CALL(TIDE_GET, .dst = 2, .src = 1, .at = 0).value;
        while (CALL(TIDE_GET, .dst = 1, .src = 1, .at = 1).what == TIDE_CELL);
        while ((status = tide_cut(&members[who])) == TIDE_WAIT) meet();
        expect(status == TIDE_DONE, "cut");
    }
    return sum;
}

static intptr_t hold(int who) {
    uint32_t cell = CALL(TIDE_ALLOC, .dst = 0, .at = 1).value;
    tide_rest(&members[who]);
    shift(-1, 1);
    usleep(200000);
    shift(1, -1);
    CALL(TIDE_PUT, .src = 0, .at = 0, .val = 0);
    expect(CALL(TIDE_GET, .dst = 1, .src = 0, .at = 0).value == cell, "cell");
    return cell;
}

static void *play(void *name) {
    int who = (int)(intptr_t)name;
    intptr_t answer = who == SLEEPER ? hold(who) : build(who);
    while (tide_leave(&members[who]) == TIDE_WAIT) meet();
    shift(-1, 0);
    return (void *)answer;
}

int main(void) {
    tide_sizes sizes = {.cells = {16, 1}, .registers = 6, .stack = 2, .calls = 400, .visits = 400, .headroom = 600, .trigger = 300};
    expect(tide_open(&sizes, &keeper, members, MEMBERS, &helper, 1) == TIDE_DONE, "open");
    pthread_t threads[MEMBERS];
    void *answers[MEMBERS];
    for (intptr_t who = 0; who < MEMBERS; who++) pthread_create(&threads[who], 0, play, (void *)who);
    for (int who = 0; who < MEMBERS; who++) pthread_join(threads[who], &answers[who]);
    for (int who = 0; who < BUILDERS; who++) printf("builder %d: sum %ld\n", who, (long)(intptr_t)answers[who]);
    tide_found found = {0};
    tide_find(&snapshot, (uint32_t)(intptr_t)answers[SLEEPER], &found);
    printf("sleeper: its cell was %s, %u steps from a root\n", found.held ? "held" : "lost", found.steps);
    tide_figures figures = {0};
    tide_stats(&keeper, &figures);
    printf("cycles: %s cells freed, kept %lu\n", figures.freed > 60000 ? "many" : "few", (unsigned long)figures.kept);
    tide_handle *handles[] = {&members[0], &members[1], &members[SLEEPER], &helper, &snapshot, &keeper};
    for (int at = 0; at < 6; at++) expect(tide_close(handles[at]) == TIDE_DONE, "close");
}
