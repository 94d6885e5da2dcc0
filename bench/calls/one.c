/* Times the calls of one process from C, as one.rt.txt does from Rattle: the same calls on ledgers of the same books, whose receipts are
 * kept too. Prints the number of processes and the least nanoseconds of a turn.
 *
 *   one [TURNS PROCESSES]   200 turns with 1 and with 16 processes, where nothing is said */
#include "bezglami.h"

#include <stdio.h>
#include <stdlib.h>
#include <time.h>

enum { PAIRS = 4096 };

static void expect(uint32_t outcome) {
    if (outcome != BEZGLAMI_DONE) {
        fprintf(stderr, "one: %u\n", outcome);
        exit(1);
    }
}

static uint64_t now(void) {
    struct timespec time;
    clock_gettime(CLOCK_MONOTONIC, &time);
    return (uint64_t)time.tv_sec * 1000000000u + (uint64_t)time.tv_nsec;
}

/* The calls are those of the last process, as in Rattle, where its pass is taken from the end of a list. */
static uint64_t time_one(const char *book, size_t length, int processes) {
    bezglami_handle ledger = BEZGLAMI_NOTHING, caller = BEZGLAMI_NOTHING;
    bezglami_answer answer;
    uint32_t line, why;
    expect(bezglami_open((const uint8_t *)book, length, &ledger, &line, &why));
    for (int process = 0; process < processes - 1; process++) {
        expect(bezglami_caller(&ledger, 0, &caller));
        bezglami_free(&caller);
    }
    expect(bezglami_caller(&ledger, 2 * PAIRS, &caller));
    uint64_t began = now();
    for (int i = 0; i < PAIRS; i++) {
        expect(bezglami_transfer(&caller, 0, 1, 1, &answer));
        expect(bezglami_read(&caller, 1, &answer));
    }
    uint64_t ended = now();
    expect(answer.balance == PAIRS ? BEZGLAMI_DONE : BEZGLAMI_NO_ACCOUNT);
    bezglami_free(&caller);
    bezglami_free(&ledger);
    return ended - began;
}

static void measure(int turns, int processes) {
    char book[128];
    int length = snprintf(book, sizeof book, "book,1\nprocesses,%d\nlimits,4096,4\naccount,0,1000000000,%d\naccount,1,0,\n", processes, processes - 1);
    uint64_t least = UINT64_MAX;
    for (int turn = 0; turn < turns; turn++) {
        uint64_t taken = time_one(book, (size_t)length, processes);
        least = taken < least ? taken : least;
    }
    printf("%d %llu\n", processes, (unsigned long long)least);
}

int main(int count, char **words) {
    if (count == 3) {
        measure(atoi(words[1]), atoi(words[2]));
        return 0;
    }
    measure(200, 1);
    measure(200, 16);
    return 0;
}
