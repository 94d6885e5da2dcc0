/* The bank test. Fifteen threads pay at random, from accounts of their own and from one that eight of them share, while one more asks for all
 * balances again and again: each time they sum to what the book opens with. By reads of single accounts, one after another, they don't,
 * which is tried until it is seen.
 *
 *   bank [LOOKS]   100,000 where it isn't said */
#include "bezglami.h"

#include <inttypes.h>
#include <pthread.h>
#include <stdatomic.h>
#include <stdbool.h>
#include <stdio.h>
#include <stdlib.h>
#include <string.h>

enum { PROCESSES = 16, PAYERS = PROCESSES - 1, ACCOUNTS = PROCESSES + 1, OPENING = 1000, SHARED = PROCESSES, PAYMENTS = 4096, READS = 1 << 18, ROUNDS_MOST = 1000 };

struct payer {
    bezglami_handle caller;
    uint32_t process;
    pthread_t thread;
};

static atomic_uint paying; /* how many threads still pay */

static void fail(const char *what, uint64_t number) {
    fprintf(stderr, "bank: %s, %" PRIu64 "\n", what, number);
    exit(1);
}

/* The next of a sequence of drawn numbers, below a limit. */
static uint32_t drawn(uint64_t *state, uint32_t limit) {
    *state = *state * 6364136223846793005u + 1442695040888963407u;
    return (uint32_t)(*state >> 33) % limit;
}

static void *pay(void *argument) {
    struct payer *payer = argument;
    uint64_t state = payer->process;
    bezglami_answer answer;
    for (int i = 0; i < PAYMENTS; i++) {
        uint32_t from = payer->process < 8 && drawn(&state, 8) == 0 ? SHARED : payer->process, to = drawn(&state, ACCOUNTS);
        uint32_t outcome = bezglami_transfer(&payer->caller, from, to, drawn(&state, 200), &answer);
        if (outcome != BEZGLAMI_DONE || answer.reply == BEZGLAMI_REPLY_NOT_OWNER)
            fail("a payment has another answer", outcome);
    }
    paying--;
    return NULL;
}

static void open_bank(bezglami_handle *ledger, struct payer *payers) {
    char book[2048];
    size_t at = (size_t)snprintf(book, sizeof book, "book,1\nprocesses,%d\nlimits,%d,1024\n", PROCESSES, PAYMENTS);
    for (int a = 0; a < PROCESSES; a++)
        at += (size_t)snprintf(book + at, sizeof book - at, "account,%d,%d,%d\n", a, OPENING, a);
    at += (size_t)snprintf(book + at, sizeof book - at, "account,%d,%d,0 1 2 3 4 5 6 7\n", SHARED, OPENING);
    if (bezglami_open((const uint8_t *)book, at, ledger, NULL, NULL) != BEZGLAMI_DONE)
        fail("no ledger", 0);
    for (uint32_t p = 0; p < PROCESSES; p++) {
        payers[p].process = p;
        uint32_t outcome = bezglami_caller(ledger, p < PAYERS ? PAYMENTS : READS, &payers[p].caller);
        if (outcome != BEZGLAMI_DONE)
            fail("no caller", outcome);
    }
}

static uint64_t sum_of(const uint64_t *balances) {
    uint64_t sum = 0;
    for (int a = 0; a < ACCOUNTS; a++)
        sum += balances[a];
    return sum;
}

/* All balances, at one point. */
static bool look(bezglami_handle *caller, uint64_t *balances) {
    uint32_t outcome = bezglami_balances(caller, balances, ACCOUNTS);
    if (outcome != BEZGLAMI_DONE)
        fail("no balances", outcome);
    return true;
}

/* The balance of each account, one after another, as long as there is room for these reads. */
static bool read_each(bezglami_handle *caller, uint64_t *balances) {
    bezglami_answer answer;
    for (uint32_t a = 0; a < ACCOUNTS; a++) {
        uint32_t outcome = bezglami_read(caller, a, &answer);
        if (outcome == BEZGLAMI_NO_ROOM)
            return false;
        if (outcome != BEZGLAMI_DONE)
            fail("no balance", outcome);
        balances[a] = answer.balance;
    }
    return true;
}

struct seen {
    uint64_t looks;   /* while payments were made */
    uint64_t changed; /* that differ from the one before */
    uint64_t broken;  /* that sum to something else */
};

/* Opens a bank, and looks as long as its threads pay. */
static void look_at_bank(bool (*by)(bezglami_handle *, uint64_t *), struct seen *seen) {
    static struct payer payers[PROCESSES];
    bezglami_handle ledger = BEZGLAMI_NOTHING;
    uint64_t before[ACCOUNTS] = { 0 }, balances[ACCOUNTS];
    open_bank(&ledger, payers);
    paying = PAYERS;
    for (int p = 0; p < PAYERS; p++)
        if (pthread_create(&payers[p].thread, NULL, pay, &payers[p]) != 0)
            fail("no thread", 0);
    while (paying > 0 && by(&payers[PAYERS].caller, balances)) {
        seen->looks++;
        seen->changed += memcmp(balances, before, sizeof before) != 0;
        seen->broken += sum_of(balances) != ACCOUNTS * OPENING;
        memcpy(before, balances, sizeof before);
    }
    for (int p = 0; p < PAYERS; p++)
        pthread_join(payers[p].thread, NULL);
    for (int p = 0; p < PROCESSES; p++)
        bezglami_free(&payers[p].caller);
    bezglami_free(&ledger);
}

int main(int count, char **words) {
    uint64_t wanted = count > 1 ? (uint64_t)atoll(words[1]) : 100000;
    struct seen at_once = { 0 }, one_by_one = { 0 };
    for (int round = 0; round < ROUNDS_MOST && (at_once.looks < wanted || at_once.changed < wanted / 100); round++)
        look_at_bank(look, &at_once);
    if (at_once.broken != 0)
        fail("the balances sum to something else", at_once.broken);
    if (at_once.looks < wanted || at_once.changed < wanted / 100)
        fail("too few looks while payments were made", at_once.changed);
    for (int round = 0; round < ROUNDS_MOST && one_by_one.broken == 0; round++)
        look_at_bank(read_each, &one_by_one);
    if (one_by_one.broken == 0)
        fail("single reads always sum to the total", one_by_one.looks);
    printf("bank: %" PRIu64 " looks, %" PRIu64 " at other balances than before, and each sums to the total; of %" PRIu64
           " by single reads %" PRIu64 " don't\n",
        at_once.looks, at_once.changed, one_by_one.looks, one_by_one.broken);
    return 0;
}
