/* Each export with each kind of handle, with wrong numbers, out of order, and with each allocation refused in turn. Ends with 0 and one
 * line. */
#include "bezglami.h"

#include <pthread.h>
#include <sched.h>
#include <signal.h>
#include <stdatomic.h>
#include <stdbool.h>
#include <stdio.h>
#include <stdlib.h>
#include <string.h>

/* The linker has the library's calls of malloc and realloc come here (--wrap). */
void *__real_malloc(size_t size);
void *__real_realloc(void *block, size_t size);
void __real_free(void *block);

static atomic_long allocations;
static long refused_at; /* the number of the one that is refused, and 0 for none */
static atomic_long blocks;
static atomic_long wanting; /* how many the C library had no memory for */

void *__wrap_malloc(size_t size) {
    if (++allocations == refused_at)
        return NULL;
    void *block = __real_malloc(size);
    blocks += block != NULL;
    wanting += block == NULL;
    return block;
}

void *__wrap_realloc(void *block, size_t size) {
    if (++allocations == refused_at)
        return NULL;
    void *grown = __real_realloc(block, size);
    blocks += block == NULL && grown != NULL;
    return grown;
}

void __wrap_free(void *block) {
    blocks -= block != NULL;
    __real_free(block);
}

#define EXPECT(condition)                                                      \
    do {                                                                       \
        if (!(condition)) {                                                    \
            fprintf(stderr, "line %d: %s\n", __LINE__, #condition);            \
            exit(1);                                                           \
        }                                                                      \
    } while (0)

static const char BOOK[] = "book,1\nprocesses,3\nlimits,100,20\naccount,0,500,0\naccount,1,100,1\naccount,2,300,0 1\naccount,3,0,\n";

static uint32_t open_book(const char *book, bezglami_handle *ledger, uint32_t *line) {
    uint32_t why = 0;
    return bezglami_open((const uint8_t *)book, strlen(book), ledger, line, &why);
}

static void open_new(const char *book, bezglami_handle *ledger) {
    uint32_t line = 0;
    EXPECT(open_book(book, ledger, &line) == BEZGLAMI_DONE);
}

/* Whether the bytes spell no book, and the first fault is in this line, for this cause. */
static bool is_bad(const char *book, uint32_t line, uint32_t why) {
    bezglami_handle ledger = BEZGLAMI_NOTHING;
    uint32_t told_line = 0, told_why = 0;
    uint32_t outcome = bezglami_open((const uint8_t *)book, strlen(book), &ledger, &told_line, &told_why);
    return outcome == BEZGLAMI_BAD_BOOK && ledger.at == NULL && told_line == line && told_why == why;
}

/* Whether the handle holds a report that is this text, or one that ends so. */
static bool has_report(bezglami_handle *ledger, const char *text, bool whole) {
    static uint8_t report[1024];
    size_t length = bezglami_report(ledger, report, sizeof report), end = strlen(text);
    EXPECT(length > 0 && length <= sizeof report);
    return (whole ? length == end : length >= end) && memcmp(report + length - end, text, end) == 0;
}

static int answered(bezglami_handle *caller, uint32_t account, uint64_t balance) {
    bezglami_answer answer;
    return bezglami_read(caller, account, &answer) == BEZGLAMI_DONE && answer.reply == BEZGLAMI_REPLY_BALANCE && answer.balance == balance;
}

static uint32_t replied(bezglami_handle *caller, uint32_t from, uint32_t to, uint64_t amount) {
    bezglami_answer answer;
    EXPECT(bezglami_transfer(caller, from, to, amount, &answer) == BEZGLAMI_DONE);
    return answer.reply;
}

static uint32_t paid(bezglami_handle *caller, uint32_t from, const bezglami_target *targets, size_t count) {
    bezglami_answer answer;
    EXPECT(bezglami_pay(caller, from, targets, count, &answer) == BEZGLAMI_DONE);
    return answer.reply;
}

/* Pay-outs: all targets or none, an account twice, and a transfer as the pay-out with one target. */
static void test_pay_outs(void) {
    static const bezglami_target four[] = { { 1, 10 }, { 2, 20 }, { 3, 30 }, { 1, 40 } };
    static const bezglami_target more[] = { { 1, 300 }, { 3, 101 } };
    static const bezglami_target most[] = { { 1, UINT64_MAX }, { 3, UINT64_MAX } };
    bezglami_handle ledger = BEZGLAMI_NOTHING, ann = BEZGLAMI_NOTHING, bob = BEZGLAMI_NOTHING;
    uint32_t line = 0;
    EXPECT(open_book(BOOK, &ledger, &line) == BEZGLAMI_DONE);
    EXPECT(bezglami_caller(&ledger, 100, &ann) == BEZGLAMI_DONE && bezglami_caller(&ledger, 100, &bob) == BEZGLAMI_DONE);
    EXPECT(paid(&ann, 0, four, 4) == BEZGLAMI_REPLY_DONE);
    EXPECT(answered(&bob, 0, 400) && answered(&bob, 1, 150) && answered(&bob, 2, 320) && answered(&bob, 3, 30));
    EXPECT(paid(&ann, 0, more, 2) == BEZGLAMI_REPLY_SHORT && paid(&ann, 0, most, 2) == BEZGLAMI_REPLY_SHORT);
    EXPECT(answered(&bob, 0, 400) && answered(&bob, 1, 150) && answered(&bob, 3, 30));
    EXPECT(paid(&ann, 1, four, 1) == BEZGLAMI_REPLY_NOT_OWNER);
    EXPECT(bezglami_exchanges(&ann) == 0);
    EXPECT(paid(&ann, 2, more, 1) == BEZGLAMI_REPLY_DONE && bezglami_exchanges(&ann) == 1);
    EXPECT(answered(&bob, 1, 450) && answered(&bob, 2, 20));
    bezglami_free(&ann);
    bezglami_free(&bob);
    bezglami_free(&ledger);
}

static void test_replies(void) {
    bezglami_handle ledger = BEZGLAMI_NOTHING, ann = BEZGLAMI_NOTHING, bob = BEZGLAMI_NOTHING, carl = BEZGLAMI_NOTHING;
    uint32_t line = 0;
    EXPECT(open_book(BOOK, &ledger, &line) == BEZGLAMI_DONE);
    EXPECT(bezglami_caller(&ledger, 200, &ann) == BEZGLAMI_DONE);
    EXPECT(bezglami_caller(&ledger, 200, &bob) == BEZGLAMI_DONE);
    EXPECT(bezglami_caller(&ledger, 200, &carl) == BEZGLAMI_DONE);
    bezglami_free(&ledger);
    EXPECT(replied(&ann, 0, 1, 200) == BEZGLAMI_REPLY_DONE);
    EXPECT(answered(&bob, 0, 300) && answered(&bob, 1, 300));
    EXPECT(replied(&ann, 0, 1, 301) == BEZGLAMI_REPLY_SHORT);
    EXPECT(replied(&ann, 1, 0, 1) == BEZGLAMI_REPLY_NOT_OWNER);
    EXPECT(replied(&carl, 2, 0, 1) == BEZGLAMI_REPLY_NOT_OWNER);
    EXPECT(bezglami_exchanges(&ann) == 0 && bezglami_steps(&carl) == 0);
    EXPECT(replied(&ann, 2, 3, 100) == BEZGLAMI_REPLY_DONE);
    EXPECT(replied(&bob, 2, 3, 200) == BEZGLAMI_REPLY_DONE);
    EXPECT(bezglami_exchanges(&ann) == 1 && bezglami_exchanges(&bob) == 1);
    EXPECT(replied(&bob, 2, 3, 1) == BEZGLAMI_REPLY_SHORT);
    EXPECT(answered(&carl, 2, 0) && answered(&carl, 3, 300));
    uint64_t before = bezglami_steps(&carl);
    bezglami_answer answer;
    EXPECT(bezglami_read(&carl, 0, &answer) == BEZGLAMI_DONE && answer.steps == bezglami_steps(&carl) - before && answer.exchanges == 0);
    for (int i = 2; i < 100 + 1; i++)
        EXPECT(replied(&ann, 0, 1, 0) == BEZGLAMI_REPLY_DONE);
    EXPECT(replied(&ann, 0, 1, 0) == BEZGLAMI_REPLY_FULL);
    bezglami_free(&ann);
    EXPECT(answered(&bob, 3, 300));
    bezglami_free(&bob);
    bezglami_free(&carl);
}

/* All balances at one point: by a caller alone, into the first numbers, without a receipt. */
static void test_balances(void) {
    bezglami_handle ledger = BEZGLAMI_NOTHING, ann = BEZGLAMI_NOTHING, bob = BEZGLAMI_NOTHING;
    uint64_t balances[6] = { 7, 7, 7, 7, 7, 7 };
    open_new(BOOK, &ledger);
    EXPECT(bezglami_accounts(&ann) == 0 && bezglami_accounts(&ledger) == 4);
    EXPECT(bezglami_balances(&ann, balances, 6) == BEZGLAMI_WRONG_HANDLE && bezglami_balances(&ledger, balances, 6) == BEZGLAMI_WRONG_HANDLE);
    EXPECT(bezglami_caller(&ledger, 2, &ann) == BEZGLAMI_DONE && bezglami_caller(&ledger, 0, &bob) == BEZGLAMI_DONE);
    EXPECT(bezglami_accounts(&ann) == 4 && replied(&ann, 0, 1, 200) == BEZGLAMI_REPLY_DONE && replied(&ann, 2, 3, 50) == BEZGLAMI_REPLY_DONE);
    EXPECT(bezglami_balances(&bob, balances, 3) == BEZGLAMI_NO_ROOM && bezglami_steps(&bob) == 0 && balances[0] == 7);
    EXPECT(bezglami_balances(&bob, balances, 6) == BEZGLAMI_DONE);
    EXPECT(balances[0] == 300 && balances[1] == 300 && balances[2] == 250 && balances[3] == 50 && balances[4] == 7 && balances[5] == 7);
    EXPECT(bezglami_steps(&bob) > 0 && bezglami_exchanges(&bob) == 0);
    EXPECT(bezglami_balances(&ann, balances, 4) == BEZGLAMI_DONE && balances[0] == 300 && balances[3] == 50);
    EXPECT(bezglami_return(&ann) == BEZGLAMI_DONE && bezglami_return(&bob) == BEZGLAMI_DONE && bezglami_close(&ledger) == BEZGLAMI_DONE);
    EXPECT(bezglami_accounts(&ledger) == 0 && bezglami_balances(&ledger, balances, 4) == BEZGLAMI_WRONG_HANDLE);
    EXPECT(has_report(&ledger, "journal 2\n0 1 transfer 0 1 200 done\n0 2 transfer 2 3 50 done\nbalances 4\n0 300\n1 300\n2 250\n3 50\ntotal 900\n", true));
    bezglami_free(&ledger);
}

static void test_misuse(void) {
    bezglami_handle ledger = BEZGLAMI_NOTHING, ann = BEZGLAMI_NOTHING, spare = BEZGLAMI_NOTHING;
    bezglami_target targets[5] = { { 1, 1 }, { 1, 1 }, { 1, 1 }, { 1, 1 }, { 1, 1 } };
    bezglami_answer answer = { 7, 7, 7, 7 };
    uint8_t report[1] = { 7 };
    uint32_t line = 9;
    EXPECT(bezglami_read(&spare, 0, &answer) == BEZGLAMI_WRONG_HANDLE && answer.reply == 7 && answer.steps == 7);
    EXPECT(bezglami_transfer(&spare, 0, 1, 1, &answer) == BEZGLAMI_WRONG_HANDLE);
    EXPECT(bezglami_pay(&spare, 0, targets, 1, &answer) == BEZGLAMI_WRONG_HANDLE && answer.reply == 7 && answer.balance == 7);
    EXPECT(bezglami_pay(&spare, 0, targets, 0, &answer) == BEZGLAMI_NO_PAY_OUT && answer.reply == 7);
    EXPECT(bezglami_steps(&spare) == 0 && bezglami_exchanges(&spare) == 0);
    EXPECT(bezglami_caller(&spare, 1, &ann) == BEZGLAMI_WRONG_HANDLE);
    EXPECT(bezglami_note(&spare, 9) == BEZGLAMI_WRONG_HANDLE && bezglami_learn(&spare, 9) == BEZGLAMI_WRONG_HANDLE);
    EXPECT(bezglami_return(&spare) == BEZGLAMI_WRONG_HANDLE && bezglami_close(&spare) == BEZGLAMI_WRONG_HANDLE);
    EXPECT(bezglami_report(&spare, report, sizeof report) == 0);
    bezglami_free(&spare);
    EXPECT(spare.at == NULL);
    EXPECT(open_book(BOOK, &ledger, &line) == BEZGLAMI_DONE);
    EXPECT(open_book(BOOK, &ledger, &line) == BEZGLAMI_IN_USE);
    EXPECT(bezglami_read(&ledger, 0, &answer) == BEZGLAMI_WRONG_HANDLE);
    EXPECT(bezglami_pay(&ledger, 0, targets, 4, &answer) == BEZGLAMI_WRONG_HANDLE);
    EXPECT(bezglami_steps(&ledger) == 0 && bezglami_exchanges(&ledger) == 0);
    EXPECT(bezglami_note(&ledger, 1) == BEZGLAMI_WRONG_HANDLE && bezglami_learn(&ledger, 1) == BEZGLAMI_WRONG_HANDLE);
    EXPECT(bezglami_return(&ledger) == BEZGLAMI_WRONG_HANDLE && bezglami_report(&ledger, report, 1) == 0 && ledger.at != NULL);
    EXPECT(bezglami_caller(&ledger, 2, &ann) == BEZGLAMI_DONE);
    EXPECT(bezglami_caller(&ledger, 2, &ann) == BEZGLAMI_IN_USE);
    EXPECT(bezglami_caller(&ann, 2, &spare) == BEZGLAMI_WRONG_HANDLE);
    EXPECT(bezglami_close(&ann) == BEZGLAMI_WRONG_HANDLE && bezglami_report(&ann, report, 1) == 0 && ann.at != NULL);
    EXPECT(open_book(BOOK, &ann, &line) == BEZGLAMI_IN_USE);
    EXPECT(bezglami_read(&ann, 4, &answer) == BEZGLAMI_NO_ACCOUNT && bezglami_read(&ann, UINT32_MAX, &answer) == BEZGLAMI_NO_ACCOUNT);
    EXPECT(bezglami_transfer(&ann, 4, 0, 1, &answer) == BEZGLAMI_NO_ACCOUNT);
    EXPECT(bezglami_transfer(&ann, 0, 4, 1, &answer) == BEZGLAMI_NO_ACCOUNT);
    EXPECT(bezglami_pay(&ann, 0, targets, 5, &answer) == BEZGLAMI_NO_PAY_OUT && bezglami_pay(&ann, 4, targets, 5, &answer) == BEZGLAMI_NO_PAY_OUT);
    EXPECT(bezglami_pay(&ann, 4, targets, 4, &answer) == BEZGLAMI_NO_ACCOUNT);
    targets[3].account = 4;
    EXPECT(bezglami_pay(&ann, 0, targets, 4, &answer) == BEZGLAMI_NO_ACCOUNT && answer.reply == 7);
    EXPECT(bezglami_transfer(&ann, 0, 1, UINT64_MAX, &answer) == BEZGLAMI_DONE && answer.reply == BEZGLAMI_REPLY_SHORT);
    EXPECT(answered(&ann, 0, 500));
    uint64_t steps = bezglami_steps(&ann);
    EXPECT(bezglami_read(&ann, 0, &answer) == BEZGLAMI_NO_ROOM && bezglami_steps(&ann) == steps);
    EXPECT(bezglami_pay(&ann, 0, targets, 3, &answer) == BEZGLAMI_NO_ROOM && bezglami_steps(&ann) == steps);
    EXPECT(bezglami_caller(&ledger, 0, &spare) == BEZGLAMI_DONE);
    EXPECT(bezglami_read(&spare, 0, &answer) == BEZGLAMI_NO_ROOM);
    bezglami_free(&spare);
    EXPECT(spare.at == NULL);
    EXPECT(bezglami_caller(&ledger, 1, &spare) == BEZGLAMI_DONE);
    bezglami_handle last = BEZGLAMI_NOTHING;
    EXPECT(bezglami_caller(&ledger, 1, &last) == BEZGLAMI_NO_CALLER && last.at == NULL);
    EXPECT(report[0] == 7);
    bezglami_free(&ann);
    bezglami_free(&ann);
    bezglami_free(&spare);
    bezglami_free(&ledger);
}

/* Each cause for which bytes spell no book. */
static void test_bad_books(void) {
    static char many[32768];
    EXPECT(is_bad("book,3\n", 1, BEZGLAMI_WHY_VERSION));
    EXPECT(is_bad("", 1, BEZGLAMI_WHY_SHAPE) && is_bad("book,2\nprocess\n", 2, BEZGLAMI_WHY_SHAPE));
    EXPECT(is_bad("book,1\nprocesses,1\nlimits,4,4\naccount,0,x,0\n", 4, BEZGLAMI_WHY_NUMBER));
    EXPECT(is_bad("book,1\nprocesses,1\nlimits,4,4\naccount,1,0,\n", 4, BEZGLAMI_WHY_ACCOUNT_ORDER));
    EXPECT(is_bad("book,2\nprocesses,ann,-bob\n", 2, BEZGLAMI_WHY_NAME));
    EXPECT(is_bad("book,2\nprocesses,ann,ann\n", 2, BEZGLAMI_WHY_NAME_TWICE));
    EXPECT(is_bad("book,2\nprocesses,ann\nlimits,4,4\naccount,joint,9,ann bob\n", 4, BEZGLAMI_WHY_UNKNOWN_OWNER));
    EXPECT(is_bad("book,1\nprocesses,0\n", 2, BEZGLAMI_WHY_NO_PROCESS));
    EXPECT(is_bad("book,1\nprocesses,17\n", 2, BEZGLAMI_WHY_TOO_MANY_PROCESSES));
    EXPECT(is_bad("book,1\nprocesses,1\nlimits,4,4\n", 4, BEZGLAMI_WHY_NO_ACCOUNT));
    EXPECT(is_bad("book,1\nprocesses,2\nlimits,4,4\naccount,0,0,0 2\n", 4, BEZGLAMI_WHY_OWNER_OUT_OF_RANGE));
    EXPECT(is_bad("book,1\nprocesses,2\nlimits,4,4\naccount,0,0,1 0\n", 4, BEZGLAMI_WHY_OWNERS_NOT_RISING));
    EXPECT(is_bad("book,1\nprocesses,9\nlimits,4,4\naccount,0,0,0 1 2 3 4 5 6 7 8\n", 4, BEZGLAMI_WHY_TOO_MANY_OWNERS));
    EXPECT(is_bad("book,1\nprocesses,1\nlimits,4,1025\n", 3, BEZGLAMI_WHY_ROOM_OUT_OF_RANGE));
    EXPECT(is_bad("book,1\nprocesses,8\nlimits,4,1024\naccount,0,0,0 1 2 3 4 5 6 7\naccount,1,0,0 1\n", 5, BEZGLAMI_WHY_ROUNDS_OVER_LIMIT));
    EXPECT(is_bad("book,1\nprocesses,1\nlimits,4,4\naccount,0,18446744073709551615,\naccount,1,1,\n", 5, BEZGLAMI_WHY_TOTAL_OVER_LIMIT));
    size_t at = (size_t)snprintf(many, sizeof many, "book,1\nprocesses,1\nlimits,4,4\n");
    for (int account = 0; account < 1025; account++)
        at += (size_t)snprintf(many + at, sizeof many - at, "account,%d,1,0\n", account);
    EXPECT(is_bad(many, 1028, BEZGLAMI_WHY_TOO_MANY_ACCOUNTS));
}

/* The report of calls of one process is in their order, to the byte; nothing is written where there is too little room. */
/* A book of which each account but the first has one owner. */
static const char *book_of(unsigned processes, unsigned own_room, unsigned request_room, unsigned accounts, unsigned owners) {
    static char book[1 << 16];
    int n = sprintf(book, "book,1\nprocesses,%u\nlimits,%u,%u\naccount,0,5,0", processes, own_room, request_room);
    for (unsigned owner = 1; owner < owners; owner++)
        n += sprintf(book + n, " %u", owner);
    for (unsigned account = 1; account < accounts; account++)
        n += sprintf(book + n, "\naccount,%u,5,%u", account, account % processes);
    sprintf(book + n, "\n");
    return book;
}

enum { STACK = 80 * 1024 };

/* Opens a book of this text, and reads, closes and frees, on the little stack that the header says is enough. */
static void *use(void *book) {
    bezglami_handle ledger = BEZGLAMI_NOTHING, ann = BEZGLAMI_NOTHING;
    open_new(book, &ledger);
    EXPECT(bezglami_caller(&ledger, 1, &ann) == BEZGLAMI_DONE);
    EXPECT(answered(&ann, BEZGLAMI_ACCOUNTS_MOST - 1, 5));
    EXPECT(bezglami_return(&ann) == BEZGLAMI_DONE && bezglami_close(&ledger) == BEZGLAMI_DONE);
    bezglami_free(&ledger);
    return NULL;
}

/* What the header says are the limits is taken, and one more isn't. */
static void test_limits(void) {
    unsigned p = BEZGLAMI_PROCESSES_MOST, own = BEZGLAMI_OWN_ROOM_MOST, request = BEZGLAMI_REQUEST_ROOM_MOST;
    unsigned a = BEZGLAMI_ACCOUNTS_MOST, k = BEZGLAMI_OWNERS_MOST;
    EXPECT(k * request == BEZGLAMI_ROUNDS_MOST);
    EXPECT(is_bad(book_of(p + 1, own, request, a, k), 2, BEZGLAMI_WHY_TOO_MANY_PROCESSES));
    EXPECT(is_bad(book_of(p, own + 1, request, a, k), 3, BEZGLAMI_WHY_ROOM_OUT_OF_RANGE));
    EXPECT(is_bad(book_of(p, own, request + 1, a, k), 3, BEZGLAMI_WHY_ROOM_OUT_OF_RANGE));
    EXPECT(is_bad(book_of(p, own, request, a + 1, k), a + 4, BEZGLAMI_WHY_TOO_MANY_ACCOUNTS));
    EXPECT(is_bad(book_of(p, own, request, a, k + 1), 4, BEZGLAMI_WHY_TOO_MANY_OWNERS));
    pthread_attr_t small;
    pthread_t thread;
    EXPECT(pthread_attr_init(&small) == 0 && pthread_attr_setstacksize(&small, STACK) == 0);
    EXPECT(pthread_create(&thread, &small, use, (void *)book_of(p, own, request, a, k)) == 0);
    EXPECT(pthread_join(thread, NULL) == 0 && pthread_attr_destroy(&small) == 0);
}

/* A pay-out has the most targets that the header says, and not one more. */
static void test_targets(void) {
    static const bezglami_target targets[BEZGLAMI_TARGETS_MOST + 1] = { { 1, 1 } };
    bezglami_handle ledger = BEZGLAMI_NOTHING, ann = BEZGLAMI_NOTHING;
    bezglami_answer answer;
    open_new(BOOK, &ledger);
    EXPECT(bezglami_caller(&ledger, 1, &ann) == BEZGLAMI_DONE);
    EXPECT(bezglami_pay(&ann, 0, targets, BEZGLAMI_TARGETS_MOST + 1, &answer) == BEZGLAMI_NO_PAY_OUT);
    EXPECT(paid(&ann, 0, targets, BEZGLAMI_TARGETS_MOST) == BEZGLAMI_REPLY_DONE);
    bezglami_free(&ann);
    bezglami_free(&ledger);
}

/* A book of the most accounts, each of the most owners, with names of 16 bytes. */
static void test_longest_book(void) {
    static char book[1 << 18];
    bezglami_handle ledger = BEZGLAMI_NOTHING, ann = BEZGLAMI_NOTHING;
    int n = sprintf(book, "book,2\nprocesses");
    for (int p = 0; p < BEZGLAMI_PROCESSES_MOST; p++)
        n += sprintf(book + n, ",p%015d", p);
    n += sprintf(book + n, "\nlimits,%d,1\n", BEZGLAMI_OWN_ROOM_MOST);
    for (int a = 0; a < BEZGLAMI_ACCOUNTS_MOST; a++) {
        n += sprintf(book + n, "account,a%015d,5,", a);
        for (int p = 0; p < BEZGLAMI_OWNERS_MOST; p++)
            n += sprintf(book + n, "%sp%015d", p == 0 ? "" : " ", p);
        n += sprintf(book + n, "\n");
    }
    open_new(book, &ledger);
    EXPECT(bezglami_caller(&ledger, 2, &ann) == BEZGLAMI_DONE && replied(&ann, BEZGLAMI_ACCOUNTS_MOST - 1, 0, 5) == BEZGLAMI_REPLY_DONE && answered(&ann, 0, 10));
    EXPECT(bezglami_return(&ann) == BEZGLAMI_DONE && bezglami_close(&ledger) == BEZGLAMI_DONE);
    bezglami_free(&ledger);
}

enum { LONG = 100000 };

/* More calls of one caller than a payment file may have, and a report of more bytes. */
static void test_long_report(void) {
    static char wanted[12 << 20];
    static uint8_t report[sizeof wanted];
    static const bezglami_target targets[] = { { 1, UINT64_MAX }, { 1, UINT64_MAX }, { 1, UINT64_MAX }, { 1, UINT64_MAX } };
    bezglami_handle ledger = BEZGLAMI_NOTHING, ann = BEZGLAMI_NOTHING;
    size_t n = (size_t)sprintf(wanted, "journal %d\n", LONG);
    open_new(BOOK, &ledger);
    EXPECT(bezglami_caller(&ledger, LONG, &ann) == BEZGLAMI_DONE);
    for (int i = 1; i <= LONG; i++) {
        EXPECT(paid(&ann, 3, targets, 4) == BEZGLAMI_REPLY_NOT_OWNER);
        n += (size_t)sprintf(wanted + n, "0 %d pay 3", i);
        for (int target = 0; target < 4; target++)
            n += (size_t)sprintf(wanted + n, " 1 18446744073709551615");
        n += (size_t)sprintf(wanted + n, " not-owner\n");
    }
    n += (size_t)sprintf(wanted + n, "balances 4\n0 500\n1 100\n2 300\n3 0\ntotal 900\n");
    EXPECT(bezglami_return(&ann) == BEZGLAMI_DONE && bezglami_close(&ledger) == BEZGLAMI_DONE);
    EXPECT(n > 8 << 20 && bezglami_report(&ledger, report, sizeof report) == n && memcmp(report, wanted, n) == 0);
    bezglami_free(&ledger);
}

static void test_report(void) {
    static const char wanted[] = "journal 3\n0 1 transfer 0 1 30 done\n0 2 read 0 70\n0 3 read 1 30\nbalances 2\n0 70\n1 30\ntotal 100\n";
    const size_t length = sizeof wanted - 1;
    bezglami_handle ledger = BEZGLAMI_NOTHING, ann = BEZGLAMI_NOTHING;
    uint8_t report[sizeof wanted + 1];
    open_new("book,1\nprocesses,1\nlimits,4,4\naccount,0,100,0\naccount,1,0,\n", &ledger);
    EXPECT(bezglami_caller(&ledger, 3, &ann) == BEZGLAMI_DONE);
    EXPECT(replied(&ann, 0, 1, 30) == BEZGLAMI_REPLY_DONE && answered(&ann, 0, 70) && answered(&ann, 1, 30));
    EXPECT(bezglami_return(&ann) == BEZGLAMI_DONE && bezglami_close(&ledger) == BEZGLAMI_DONE);
    memset(report, '#', sizeof report);
    EXPECT(bezglami_report(&ledger, report, 0) == length && bezglami_report(&ledger, report, length - 1) == length);
    for (size_t i = 0; i < sizeof report; i++)
        EXPECT(report[i] == '#');
    EXPECT(bezglami_report(&ledger, report, length) == length && memcmp(report, wanted, length) == 0 && report[length] == '#');
    memset(report, '#', sizeof report);
    EXPECT(bezglami_report(&ledger, report, sizeof report) == length && memcmp(report, wanted, length) == 0);
    EXPECT(report[length] == '#' && report[length + 1] == '#' && has_report(&ledger, wanted, true));
    bezglami_free(&ledger);
    EXPECT(ledger.at == NULL && bezglami_report(&ledger, report, sizeof report) == 0);
}

/* What is asked of a handle that holds a report: nothing but the report, and to be freed. To close it again changes nothing. */
static void test_closed(void) {
    bezglami_handle ledger = BEZGLAMI_NOTHING, spare = BEZGLAMI_NOTHING;
    bezglami_target target = { 1, 1 };
    bezglami_answer answer = { 7, 7, 7, 7 };
    uint32_t line = 9;
    open_new(BOOK, &ledger);
    EXPECT(bezglami_close(&ledger) == BEZGLAMI_DONE && bezglami_close(&ledger) == BEZGLAMI_DONE);
    EXPECT(bezglami_return(&ledger) == BEZGLAMI_WRONG_HANDLE);
    EXPECT(bezglami_caller(&ledger, 9, &spare) == BEZGLAMI_WRONG_HANDLE && spare.at == NULL);
    EXPECT(bezglami_transfer(&ledger, 0, 1, 1, &answer) == BEZGLAMI_WRONG_HANDLE && bezglami_read(&ledger, 0, &answer) == BEZGLAMI_WRONG_HANDLE);
    EXPECT(bezglami_pay(&ledger, 0, &target, 1, &answer) == BEZGLAMI_WRONG_HANDLE && answer.reply == 7 && answer.steps == 7);
    EXPECT(bezglami_note(&ledger, 1) == BEZGLAMI_WRONG_HANDLE && bezglami_learn(&ledger, 1) == BEZGLAMI_WRONG_HANDLE);
    EXPECT(bezglami_steps(&ledger) == 0 && bezglami_exchanges(&ledger) == 0);
    EXPECT(open_book(BOOK, &ledger, &line) == BEZGLAMI_IN_USE);
    EXPECT(has_report(&ledger, "journal 0\nbalances 4\n0 500\n1 100\n2 300\n3 0\ntotal 900\n", true));
    bezglami_free(&ledger);
    bezglami_free(&ledger);
}

/* Closing before all callers are back, and a caller that is used after it was given back. */
static void test_order_of_closing(void) {
    bezglami_handle ledger = BEZGLAMI_NOTHING, ann = BEZGLAMI_NOTHING, bob = BEZGLAMI_NOTHING, carl = BEZGLAMI_NOTHING;
    bezglami_answer answer = { 7, 7, 7, 7 };
    open_new(BOOK, &ledger);
    EXPECT(bezglami_caller(&ledger, 9, &ann) == BEZGLAMI_DONE && bezglami_caller(&ledger, 9, &bob) == BEZGLAMI_DONE);
    EXPECT(replied(&ann, 0, 3, 200) == BEZGLAMI_REPLY_DONE && bezglami_close(&ledger) == BEZGLAMI_CALLERS_OUT);
    EXPECT(bezglami_return(&ann) == BEZGLAMI_DONE && ann.at == NULL);
    EXPECT(bezglami_return(&ann) == BEZGLAMI_WRONG_HANDLE && bezglami_read(&ann, 0, &answer) == BEZGLAMI_WRONG_HANDLE);
    EXPECT(bezglami_close(&ledger) == BEZGLAMI_CALLERS_OUT && answered(&bob, 3, 200));
    EXPECT(bezglami_caller(&ledger, 9, &carl) == BEZGLAMI_DONE && answered(&carl, 0, 300));
    EXPECT(bezglami_return(&bob) == BEZGLAMI_DONE && bezglami_close(&ledger) == BEZGLAMI_CALLERS_OUT);
    EXPECT(answered(&carl, 0, 300) && bezglami_return(&carl) == BEZGLAMI_DONE && bezglami_close(&ledger) == BEZGLAMI_DONE);
    EXPECT(has_report(&ledger, "\nbalances 4\n0 300\n1 100\n2 300\n3 200\ntotal 900\n", false));
    bezglami_free(&ledger);
}

/* A ledger of which a caller was freed is closed never. */
static void test_lost_caller(void) {
    bezglami_handle ledger = BEZGLAMI_NOTHING, ann = BEZGLAMI_NOTHING, bob = BEZGLAMI_NOTHING;
    open_new(BOOK, &ledger);
    EXPECT(bezglami_caller(&ledger, 9, &ann) == BEZGLAMI_DONE && bezglami_caller(&ledger, 9, &bob) == BEZGLAMI_DONE);
    bezglami_free(&ann);
    EXPECT(bezglami_close(&ledger) == BEZGLAMI_CALLERS_OUT && answered(&bob, 0, 500));
    EXPECT(bezglami_return(&bob) == BEZGLAMI_DONE);
    for (int time = 0; time < 3; time++)
        EXPECT(bezglami_close(&ledger) == BEZGLAMI_CALLERS_OUT);
    EXPECT(bezglami_report(&ledger, (uint8_t[1]){ 0 }, 1) == 0);
    bezglami_free(&ledger);
}

/* A caller goes back to its own ledger, also once that was freed. */
static void test_two_ledgers(void) {
    bezglami_handle one = BEZGLAMI_NOTHING, other = BEZGLAMI_NOTHING;
    bezglami_handle ann = BEZGLAMI_NOTHING, bob = BEZGLAMI_NOTHING, carl = BEZGLAMI_NOTHING;
    open_new(BOOK, &one);
    open_new(BOOK, &other);
    EXPECT(bezglami_caller(&one, 9, &ann) == BEZGLAMI_DONE && bezglami_caller(&other, 9, &bob) == BEZGLAMI_DONE);
    EXPECT(replied(&ann, 0, 3, 1) == BEZGLAMI_REPLY_DONE && replied(&bob, 0, 3, 2) == BEZGLAMI_REPLY_DONE);
    EXPECT(bezglami_note(&ann, 1) == BEZGLAMI_DONE && bezglami_caller(&other, 9, &carl) == BEZGLAMI_DONE);
    EXPECT(bezglami_learn(&carl, 0) == BEZGLAMI_NO_NOTE && bezglami_return(&carl) == BEZGLAMI_DONE);
    EXPECT(bezglami_return(&ann) == BEZGLAMI_DONE && bezglami_close(&other) == BEZGLAMI_CALLERS_OUT);
    EXPECT(bezglami_close(&one) == BEZGLAMI_DONE && has_report(&one, "3 1\ntotal 900\n", false));
    EXPECT(bezglami_return(&bob) == BEZGLAMI_DONE && bezglami_close(&other) == BEZGLAMI_DONE);
    EXPECT(has_report(&other, "journal 1\n0 1 transfer 0 3 2 done\nbalances 4\n0 498\n1 100\n2 300\n3 2\ntotal 900\n", true));
    bezglami_free(&one);
    bezglami_free(&other);
    open_new(BOOK, &one);
    EXPECT(bezglami_caller(&one, 9, &ann) == BEZGLAMI_DONE && bezglami_caller(&one, 9, &bob) == BEZGLAMI_DONE);
    bezglami_free(&one);
    EXPECT(replied(&ann, 0, 3, 1) == BEZGLAMI_REPLY_DONE && bezglami_return(&ann) == BEZGLAMI_DONE);
    EXPECT(answered(&bob, 3, 1) && bezglami_return(&bob) == BEZGLAMI_DONE);
}

/* Notes: taken in once, the last one alone, also of a caller that is gone; each is one step and one exchange. */
static void test_notes(void) {
    bezglami_handle ledger = BEZGLAMI_NOTHING, ann = BEZGLAMI_NOTHING, bob = BEZGLAMI_NOTHING;
    open_new(BOOK, &ledger);
    EXPECT(bezglami_caller(&ledger, 9, &ann) == BEZGLAMI_DONE);
    EXPECT(bezglami_note(&ann, 3) == BEZGLAMI_NO_PROCESS && bezglami_note(&ann, UINT32_MAX) == BEZGLAMI_NO_PROCESS);
    EXPECT(bezglami_learn(&ann, 3) == BEZGLAMI_NO_PROCESS && bezglami_learn(&ann, UINT32_MAX) == BEZGLAMI_NO_PROCESS);
    EXPECT(bezglami_learn(&ann, 1) == BEZGLAMI_NO_NOTE && bezglami_steps(&ann) == 0 && bezglami_exchanges(&ann) == 0);
    long taken = allocations;
    EXPECT(bezglami_note(&ann, 1) == BEZGLAMI_DONE && bezglami_steps(&ann) == 1 && bezglami_exchanges(&ann) == 1);
    EXPECT(replied(&ann, 0, 3, 200) == BEZGLAMI_REPLY_DONE && bezglami_note(&ann, 1) == BEZGLAMI_DONE);
    EXPECT(bezglami_note(&ann, 2) == BEZGLAMI_DONE && bezglami_exchanges(&ann) == 3 && allocations == taken);
    EXPECT(bezglami_caller(&ledger, 9, &bob) == BEZGLAMI_DONE);
    taken = allocations;
    EXPECT(bezglami_return(&ann) == BEZGLAMI_DONE);
    EXPECT(bezglami_learn(&bob, 2) == BEZGLAMI_NO_NOTE && bezglami_learn(&bob, 0) == BEZGLAMI_DONE);
    EXPECT(bezglami_steps(&bob) == 1 && bezglami_exchanges(&bob) == 1);
    EXPECT(bezglami_learn(&bob, 0) == BEZGLAMI_NO_NOTE && bezglami_steps(&bob) == 1);
    EXPECT(answered(&bob, 3, 200) && bezglami_note(&bob, 0) == BEZGLAMI_DONE && bezglami_exchanges(&bob) == 2);
    EXPECT(bezglami_return(&bob) == BEZGLAMI_DONE && allocations == taken);
    EXPECT(bezglami_close(&ledger) == BEZGLAMI_DONE && has_report(&ledger, "3 200\ntotal 900\n", false));
    bezglami_free(&ledger);
}

enum { PROCESSES = 16 };

/* A ledger of sixteen processes, each of which owns an account, with the caller of each. */
static void open_all(bezglami_handle *ledger, bezglami_handle *callers) {
    char book[1024];
    size_t at = (size_t)snprintf(book, sizeof book, "book,1\nprocesses,%d\nlimits,9,9\n", PROCESSES);
    for (int p = 0; p < PROCESSES; p++)
        at += (size_t)snprintf(book + at, sizeof book - at, "account,%d,100,%d\n", p, p);
    open_new(book, ledger);
    for (int p = 0; p < PROCESSES; p++)
        EXPECT(bezglami_caller(ledger, 9, &callers[p]) == BEZGLAMI_DONE);
    EXPECT(bezglami_caller(ledger, 9, &(bezglami_handle)BEZGLAMI_NOTHING) == BEZGLAMI_NO_CALLER);
}

/* Sixteen callers: each leaves a note for each, also for itself, and every one comes, once. */
static void test_notes_of_all(void) {
    bezglami_handle ledger = BEZGLAMI_NOTHING, callers[PROCESSES] = { BEZGLAMI_NOTHING };
    open_all(&ledger, callers);
    for (uint32_t from = 0; from < PROCESSES; from++)
        for (uint32_t to = 0; to < PROCESSES; to++)
            EXPECT(bezglami_note(&callers[from], to) == BEZGLAMI_DONE);
    for (int time = 0; time < 2; time++)
        for (uint32_t to = 0; to < PROCESSES; to++)
            for (uint32_t from = 0; from < PROCESSES; from++)
                EXPECT(bezglami_learn(&callers[to], from) == (time == 0 ? BEZGLAMI_DONE : BEZGLAMI_NO_NOTE));
    for (int p = 0; p < PROCESSES; p++) {
        EXPECT(bezglami_steps(&callers[p]) == 2 * PROCESSES && bezglami_exchanges(&callers[p]) == 2 * PROCESSES);
        bezglami_free(&callers[p]);
    }
    bezglami_free(&ledger);
}

/* Sixteen callers are given back, the last ones first, each with the calls that it made. */
static void test_return_of_all(void) {
    static uint8_t report[2048];
    bezglami_handle ledger = BEZGLAMI_NOTHING, callers[PROCESSES] = { BEZGLAMI_NOTHING };
    char call[64];
    open_all(&ledger, callers);
    for (uint32_t p = PROCESSES; p-- > 0;) {
        EXPECT(replied(&callers[p], p, (p + 1) % PROCESSES, p + 1) == BEZGLAMI_REPLY_DONE);
        EXPECT(bezglami_close(&ledger) == BEZGLAMI_CALLERS_OUT && bezglami_return(&callers[p]) == BEZGLAMI_DONE && callers[p].at == NULL);
    }
    EXPECT(bezglami_close(&ledger) == BEZGLAMI_DONE);
    size_t length = bezglami_report(&ledger, report, sizeof report - 1);
    EXPECT(length < sizeof report && memcmp(report, "journal 16\n", 11) == 0);
    for (uint32_t p = 0; p < PROCESSES; p++) {
        snprintf(call, sizeof call, "\n%u 1 transfer %u %u %u done\n", (unsigned)p, (unsigned)p, (unsigned)((p + 1) % PROCESSES), (unsigned)(p + 1));
        EXPECT(strstr((const char *)report, call) != NULL);
    }
    bezglami_free(&ledger);
}

/* Rooms up to the largest are had, where the C library has the memory. A caller makes as many calls as it has room for. */
static void test_rooms(void) {
    static const uint32_t rooms[] = { 0, 1, 65535, 65536, 65537, 70000, 1 << 20, 1 << 24, UINT32_MAX };
    for (size_t i = 0; i < sizeof rooms / sizeof *rooms; i++) {
        bezglami_handle ledger = BEZGLAMI_NOTHING, ann = BEZGLAMI_NOTHING;
        bezglami_answer answer;
        open_new(BOOK, &ledger);
        long before = wanting;
        uint32_t outcome = bezglami_caller(&ledger, rooms[i], &ann);
        EXPECT(outcome == (wanting == before ? BEZGLAMI_DONE : BEZGLAMI_NO_MEMORY) && (rooms[i] > 70000 || outcome == BEZGLAMI_DONE));
        for (uint32_t call = 0; rooms[i] <= 70000 && call < rooms[i]; call++)
            EXPECT(bezglami_read(&ann, 0, &answer) == BEZGLAMI_DONE);
        EXPECT(rooms[i] > 70000 || bezglami_read(&ann, 0, &answer) == BEZGLAMI_NO_ROOM);
        bezglami_free(&ann);
        bezglami_free(&ledger);
    }
}

/* The word of each reply is that of the report. */
static void test_words_of_replies(void) {
    static const uint32_t replies[] = { BEZGLAMI_REPLY_SHORT, BEZGLAMI_REPLY_DONE, BEZGLAMI_REPLY_FULL, BEZGLAMI_REPLY_NOT_OWNER };
    static const uint64_t amounts[] = { 101, 30, 1, 7 };
    bezglami_handle ledger = BEZGLAMI_NOTHING, ann = BEZGLAMI_NOTHING;
    char wanted[512];
    size_t at = (size_t)snprintf(wanted, sizeof wanted, "journal 4\n");
    open_new("book,1\nprocesses,1\nlimits,1,1\naccount,0,100,0\naccount,1,0,\n", &ledger);
    EXPECT(bezglami_caller(&ledger, 4, &ann) == BEZGLAMI_DONE);
    for (uint32_t i = 0; i < 4; i++) {
        uint32_t from = replies[i] == BEZGLAMI_REPLY_NOT_OWNER;
        EXPECT(replied(&ann, from, 1 - from, amounts[i]) == replies[i]);
        at += (size_t)snprintf(wanted + at, sizeof wanted - at, "0 %u transfer %u %u %u %s\n", (unsigned)i + 1, (unsigned)from, (unsigned)(1 - from),
            (unsigned)amounts[i], bezglami_reply_text(replies[i]));
    }
    snprintf(wanted + at, sizeof wanted - at, "balances 2\n0 70\n1 30\ntotal 100\n");
    EXPECT(bezglami_return(&ann) == BEZGLAMI_DONE && bezglami_close(&ledger) == BEZGLAMI_DONE && has_report(&ledger, wanted, true));
    EXPECT(strcmp(bezglami_reply_text(BEZGLAMI_REPLY_BALANCE), "balance") == 0);
    bezglami_free(&ledger);
}

/* The words of each outcome and of each cause are the header's. */
static void test_words(void) {
    static const char *const outcomes[] = { "done", "wrong handle", "handle in use", "no memory", "bad book", "no caller left", "no such account", "no room",
        "no pay-out", "a caller is out", "no such process", "no note", "busy", "null address", "handle in a call",
        "other processor" };
    static const char *const causes[] = { "version", "shape", "number", "account order", "name", "name twice", "unknown owner", "no process",
        "too many processes", "no account", "too many accounts", "owner out of range", "owners not rising", "too many owners", "room out of range",
        "rounds over limit", "total over limit" };
    for (uint32_t outcome = BEZGLAMI_DONE; outcome <= BEZGLAMI_OTHER_PROCESSOR; outcome++)
        EXPECT(strcmp(bezglami_outcome_text(outcome), outcomes[outcome]) == 0);
    for (uint32_t why = BEZGLAMI_WHY_VERSION; why <= BEZGLAMI_WHY_TOTAL_OVER_LIMIT; why++)
        EXPECT(strcmp(bezglami_why_text(why), causes[why - BEZGLAMI_WHY_VERSION]) == 0);
}

/* A thread that makes one call and then no other, and gives its caller back at the end alone. */
struct stopped {
    bezglami_handle caller;
    pthread_barrier_t called;
    pthread_barrier_t ended;
};

static void *call_and_stop(void *argument) {
    struct stopped *stopped = argument;
    EXPECT(replied(&stopped->caller, 2, 3, 100) == BEZGLAMI_REPLY_DONE);
    pthread_barrier_wait(&stopped->called);
    pthread_barrier_wait(&stopped->ended);
    EXPECT(bezglami_return(&stopped->caller) == BEZGLAMI_DONE);
    return NULL;
}

/* The others make their calls to the end while a thread has stopped. The ledger is closed once that thread has given its caller back. */
static void test_stopped(void) {
    struct stopped stopped = { .caller = BEZGLAMI_NOTHING };
    bezglami_handle ledger = BEZGLAMI_NOTHING, bob = BEZGLAMI_NOTHING;
    uint32_t line = 0;
    pthread_t thread;
    EXPECT(pthread_barrier_init(&stopped.called, NULL, 2) == 0 && pthread_barrier_init(&stopped.ended, NULL, 2) == 0);
    EXPECT(open_book(BOOK, &ledger, &line) == BEZGLAMI_DONE);
    EXPECT(bezglami_caller(&ledger, 10, &stopped.caller) == BEZGLAMI_DONE);
    EXPECT(bezglami_caller(&ledger, 100, &bob) == BEZGLAMI_DONE);
    EXPECT(pthread_create(&thread, NULL, call_and_stop, &stopped) == 0);
    pthread_barrier_wait(&stopped.called);
    for (int i = 0; i < 19; i++)
        EXPECT(replied(&bob, 2, 3, 10) == BEZGLAMI_REPLY_DONE);
    EXPECT(replied(&bob, 2, 3, 11) == BEZGLAMI_REPLY_SHORT && replied(&bob, 2, 3, 1) == BEZGLAMI_REPLY_FULL);
    EXPECT(answered(&bob, 2, 10) && answered(&bob, 3, 290));
    EXPECT(bezglami_return(&bob) == BEZGLAMI_DONE && bezglami_close(&ledger) == BEZGLAMI_CALLERS_OUT);
    pthread_barrier_wait(&stopped.ended);
    pthread_join(thread, NULL);
    EXPECT(bezglami_close(&ledger) == BEZGLAMI_DONE && has_report(&ledger, "2 10\n3 290\ntotal 900\n", false));
    bezglami_free(&ledger);
    pthread_barrier_destroy(&stopped.called);
    pthread_barrier_destroy(&stopped.ended);
}

static void *call_and_return(void *argument) {
    bezglami_handle *caller = argument;
    uint32_t outcome;
    EXPECT(answered(caller, 0, 500));
    while ((outcome = bezglami_return(caller)) == BEZGLAMI_BUSY)
        sched_yield();
    EXPECT(outcome == BEZGLAMI_DONE);
    return NULL;
}

/* A ledger is closed again and again while threads give their callers back: once all are, it is closed. */
static void test_closing_meanwhile(void) {
    for (int time = 0; time < 200; time++) {
        bezglami_handle ledger = BEZGLAMI_NOTHING, callers[] = { BEZGLAMI_NOTHING, BEZGLAMI_NOTHING };
        pthread_t threads[2];
        uint32_t outcome;
        open_new(BOOK, &ledger);
        for (int p = 0; p < 2; p++)
            EXPECT(bezglami_caller(&ledger, 1, &callers[p]) == BEZGLAMI_DONE);
        for (int p = 0; p < 2; p++)
            EXPECT(pthread_create(&threads[p], NULL, call_and_return, &callers[p]) == 0);
        while ((outcome = bezglami_close(&ledger)) == BEZGLAMI_CALLERS_OUT)
            sched_yield();
        EXPECT(outcome == BEZGLAMI_DONE && has_report(&ledger, " read 0 500\nbalances 4\n0 500\n1 100\n2 300\n3 0\ntotal 900\n", false));
        for (int p = 0; p < 2; p++)
            pthread_join(threads[p], NULL);
        bezglami_free(&ledger);
    }
}

/* A caller that reaches for the same two notes as another thread, and what came of it. */
struct reaching {
    bezglami_handle caller;
    uint32_t other;
    uint64_t done;
    pthread_t thread;
};

static void *reach_for_notes(void *argument) {
    struct reaching *reaching = argument;
    for (int time = 0; time < 20000; time++) {
        uint32_t left = bezglami_note(&reaching->caller, reaching->other);
        uint32_t learnt = bezglami_learn(&reaching->caller, reaching->other);
        EXPECT(left == BEZGLAMI_DONE || left == BEZGLAMI_BUSY);
        EXPECT(learnt == BEZGLAMI_DONE || learnt == BEZGLAMI_BUSY || learnt == BEZGLAMI_NO_NOTE);
        reaching->done += (left == BEZGLAMI_DONE) + (learnt == BEZGLAMI_DONE);
    }
    return NULL;
}

/* Two threads leave notes for each other and take them in at once. What is busy counts as no step. */
static void test_notes_meanwhile(void) {
    struct reaching both[2] = { { .other = 1 }, { .other = 0 } };
    bezglami_handle ledger = BEZGLAMI_NOTHING;
    open_new(BOOK, &ledger);
    for (int p = 0; p < 2; p++)
        EXPECT(bezglami_caller(&ledger, 0, &both[p].caller) == BEZGLAMI_DONE);
    for (int p = 0; p < 2; p++)
        EXPECT(pthread_create(&both[p].thread, NULL, reach_for_notes, &both[p]) == 0);
    for (int p = 0; p < 2; p++) {
        pthread_join(both[p].thread, NULL);
        EXPECT(bezglami_steps(&both[p].caller) == both[p].done && bezglami_exchanges(&both[p].caller) == both[p].done);
        EXPECT(bezglami_return(&both[p].caller) == BEZGLAMI_DONE);
    }
    EXPECT(bezglami_close(&ledger) == BEZGLAMI_DONE);
    bezglami_free(&ledger);
}

/* Each export answers what is null or in a call, where the ledger's handle and the caller's are these. */
static void refuse_all(bezglami_handle *ledger, bezglami_handle *caller, uint32_t outcome) {
    const bezglami_target target = { 1, 1 };
    bezglami_answer answer = { 7, 7, 7, 7 };
    uint32_t line = 9, why = 9;
    EXPECT(bezglami_open((const uint8_t *)BOOK, sizeof BOOK - 1, ledger, &line, &why) == outcome && line == 9 && why == 9);
    EXPECT(bezglami_caller(ledger, 9, caller) == outcome);
    EXPECT(bezglami_transfer(caller, 0, 1, 1, &answer) == outcome && bezglami_pay(caller, 0, &target, 1, &answer) == outcome);
    EXPECT(bezglami_read(caller, 0, &answer) == outcome && answer.reply == 7 && answer.steps == 7);
    EXPECT(bezglami_note(caller, 0) == outcome && bezglami_learn(caller, 0) == outcome && bezglami_return(caller) == outcome);
    EXPECT(bezglami_close(ledger) == outcome && bezglami_report(ledger, (uint8_t *)&answer, sizeof answer) == 0 && answer.reply == 7);
    EXPECT(bezglami_steps(caller) == 0 && bezglami_exchanges(caller) == 0 && bezglami_accounts(caller) == 0);
    EXPECT(bezglami_balances(caller, &answer.balance, 1) == outcome && answer.balance == 7);
    bezglami_free(ledger);
    bezglami_free(caller);
}

/* Addresses that are null, and handles that a call has: nothing is lost by either. */
static void test_refused(void) {
    bezglami_handle ledger = BEZGLAMI_NOTHING, ann = BEZGLAMI_NOTHING, spare = BEZGLAMI_NOTHING;
    bezglami_answer answer;
    refuse_all(NULL, NULL, BEZGLAMI_NULL);
    EXPECT(bezglami_open(NULL, 1, &ledger, NULL, NULL) == BEZGLAMI_NULL && bezglami_open(NULL, 0, &ledger, NULL, NULL) == BEZGLAMI_BAD_BOOK);
    EXPECT(bezglami_open((const uint8_t *)BOOK, sizeof BOOK - 1, &ledger, NULL, NULL) == BEZGLAMI_DONE);
    EXPECT(bezglami_caller(NULL, 9, &ann) == BEZGLAMI_NULL && bezglami_caller(&ledger, 9, NULL) == BEZGLAMI_NULL);
    EXPECT(bezglami_caller(&ledger, 9, &ledger) == BEZGLAMI_IN_CALL && bezglami_caller(&ledger, 9, &ann) == BEZGLAMI_DONE);
    EXPECT(bezglami_read(&ann, 0, NULL) == BEZGLAMI_NULL && bezglami_transfer(&ann, 0, 1, 1, NULL) == BEZGLAMI_NULL);
    EXPECT(bezglami_pay(&ann, 0, NULL, 1, &answer) == BEZGLAMI_NULL && bezglami_pay(&ann, 0, NULL, 0, &answer) == BEZGLAMI_NO_PAY_OUT);
    EXPECT(bezglami_pay(&ann, 0, &(bezglami_target){ 1, 1 }, 1, NULL) == BEZGLAMI_NULL && bezglami_steps(&ann) == 0);
    EXPECT(bezglami_balances(&ann, NULL, 4) == BEZGLAMI_NULL && bezglami_balances(&ann, NULL, 0) == BEZGLAMI_NO_ROOM);
    ledger.in_call = ann.in_call = 1;
    refuse_all(&ledger, &ann, BEZGLAMI_IN_CALL);
    EXPECT(bezglami_caller(&ledger, 9, &spare) == BEZGLAMI_IN_CALL && ledger.in_call == 1 && ann.in_call == 1);
    ledger.in_call = 0;
    EXPECT(bezglami_caller(&ledger, 9, &ann) == BEZGLAMI_IN_CALL && bezglami_close(&ledger) == BEZGLAMI_CALLERS_OUT);
    ann.in_call = 0;
    EXPECT(answered(&ann, 0, 500) && bezglami_return(&ann) == BEZGLAMI_DONE && bezglami_close(&ledger) == BEZGLAMI_DONE);
    EXPECT(bezglami_report(&ledger, NULL, 0) > 0 && bezglami_report(&ledger, NULL, 9) == bezglami_report(&ledger, NULL, 0));
    EXPECT(has_report(&ledger, "journal 1\n0 1 read 0 500\nbalances 4\n0 500\n1 100\n2 300\n3 0\ntotal 900\n", true));
    bezglami_free(&ledger);
}

static bezglami_handle shared_handle;
static atomic_long shared_done, shared_refused;

/* A read by the shared handle is made, or another call has the handle. */
static void read_shared(void) {
    bezglami_answer answer;
    uint32_t outcome = bezglami_read(&shared_handle, 0, &answer);
    EXPECT(outcome == BEZGLAMI_IN_CALL || (outcome == BEZGLAMI_DONE && answer.reply == BEZGLAMI_REPLY_BALANCE && answer.balance == 500));
    ++*(outcome == BEZGLAMI_DONE ? &shared_done : &shared_refused);
}

static void read_at_signal(int signal) {
    (void)signal;
    read_shared();
}

enum { SHARED_CALLS = 100000 };

static void *share_handle(void *unused) {
    for (int call = 0; call < SHARED_CALLS; call++) {
        bezglami_steps(&shared_handle);
        read_shared();
    }
    return unused;
}

/* One caller's handle is given to calls of two threads at once, and of a signal handler that interrupts them: each call is made whole or
 * answered, and the report has those that were made. */
static void test_shared_handle(void) {
    bezglami_handle ledger = BEZGLAMI_NOTHING;
    pthread_t threads[2];
    char wanted[64];
    struct sigaction action = { .sa_handler = read_at_signal };
    open_new(BOOK, &ledger);
    EXPECT(bezglami_caller(&ledger, 1 << 20, &shared_handle) == BEZGLAMI_DONE && sigaction(SIGUSR1, &action, NULL) == 0);
    for (int t = 0; t < 2; t++)
        EXPECT(pthread_create(&threads[t], NULL, share_handle, NULL) == 0);
    for (int signals = 0; signals < 1000; signals++) {
        EXPECT(pthread_kill(threads[signals % 2], SIGUSR1) == 0);
        sched_yield();
    }
    for (int t = 0; t < 2; t++)
        EXPECT(pthread_join(threads[t], NULL) == 0);
    EXPECT(shared_done > 0 && shared_done + shared_refused >= 2 * SHARED_CALLS);
    EXPECT(bezglami_return(&shared_handle) == BEZGLAMI_DONE && bezglami_close(&ledger) == BEZGLAMI_DONE);
    size_t length = bezglami_report(&ledger, NULL, 0), head = (size_t)snprintf(wanted, sizeof wanted, "journal %ld\n", (long)shared_done);
    uint8_t *report = malloc(length);
    EXPECT(report != NULL && bezglami_report(&ledger, report, length) == length && memcmp(report, wanted, head) == 0);
    free(report);
    bezglami_free(&ledger);
}

/* What is done again where memory was wanting, which it was once at most. */
static bool again(uint32_t outcome, bool *refused) {
    EXPECT(outcome == BEZGLAMI_DONE || (outcome == BEZGLAMI_NO_MEMORY && !*refused));
    *refused = *refused || outcome == BEZGLAMI_NO_MEMORY;
    return outcome == BEZGLAMI_NO_MEMORY;
}

/* The calls of a caller take no memory, nor do its notes, nor does it to give it back. */
static void call_without_memory(bezglami_handle *ann) {
    const bezglami_target targets[] = { { 1, 3 }, { 3, 2 } };
    long taken = allocations;
    EXPECT(replied(ann, 0, 1, 5) == BEZGLAMI_REPLY_DONE && paid(ann, 0, targets, 2) == BEZGLAMI_REPLY_DONE);
    uint64_t balances[4];
    EXPECT(bezglami_balances(ann, balances, 4) == BEZGLAMI_DONE && balances[1] == 108);
    EXPECT(answered(ann, 0, 490) && bezglami_note(ann, 1) == BEZGLAMI_DONE && bezglami_learn(ann, 1) == BEZGLAMI_NO_NOTE);
    EXPECT(bezglami_return(ann) == BEZGLAMI_DONE && allocations == taken);
}

/* Each allocation refused in turn: what was asked for isn't there, nothing is lost, and it is there when asked for again. */
static long test_memory(void) {
    static const char wanted[] = "journal 3\n0 1 transfer 0 1 5 done\n0 2 pay 0 1 3 3 2 done\n0 3 read 0 490\n"
                                 "balances 4\n0 490\n1 108\n2 300\n3 2\ntotal 900\n";
    for (long at = 1;; at++) {
        bezglami_handle ledger = BEZGLAMI_NOTHING, ann = BEZGLAMI_NOTHING;
        uint32_t line = 9;
        bool refused = false;
        long before = blocks;
        allocations = 0;
        refused_at = at;
        while (again(open_book(BOOK, &ledger, &line), &refused))
            EXPECT(ledger.at == NULL && blocks == before && line == 9);
        while (again(bezglami_caller(&ledger, 10, &ann), &refused))
            EXPECT(ann.at == NULL);
        call_without_memory(&ann);
        while (again(bezglami_close(&ledger), &refused)) {
            EXPECT(bezglami_report(&ledger, (uint8_t[1]){ 0 }, 1) == 0);
            EXPECT(bezglami_caller(&ledger, 10, &ann) == BEZGLAMI_WRONG_HANDLE && ann.at == NULL);
        }
        long taken = allocations;
        EXPECT(has_report(&ledger, wanted, true));
        bezglami_free(&ledger);
        EXPECT(blocks == before && allocations == taken);
        refused_at = 0;
        if (!refused)
            return at - 1;
    }
}

/* A ledger that memory was wanting to close is freed with all that it keeps. */
static void test_freed_half_closed(void) {
    bezglami_handle ledger = BEZGLAMI_NOTHING, ann = BEZGLAMI_NOTHING;
    open_new(BOOK, &ledger);
    EXPECT(bezglami_caller(&ledger, 10, &ann) == BEZGLAMI_DONE);
    call_without_memory(&ann);
    refused_at = allocations + 1;
    EXPECT(bezglami_close(&ledger) == BEZGLAMI_NO_MEMORY);
    refused_at = 0;
    bezglami_free(&ledger);
}

int main(void) {
    long before = blocks;
    test_replies();
    test_pay_outs();
    test_balances();
    test_misuse();
    test_bad_books();
    test_limits();
    test_targets();
    test_longest_book();
    test_long_report();
    test_report();
    test_closed();
    test_order_of_closing();
    test_lost_caller();
    test_two_ledgers();
    test_notes();
    test_notes_of_all();
    test_return_of_all();
    test_rooms();
    test_words_of_replies();
    test_words();
    test_stopped();
    test_closing_meanwhile();
    test_notes_meanwhile();
    test_refused();
    test_shared_handle();
    test_freed_half_closed();
    EXPECT(bezglami_version() == BEZGLAMI_VERSION);
    EXPECT(blocks == before);
    long refused = test_memory();
    printf("bezglami from C: all as said, %ld allocations refused in turn\n", refused);
    return 0;
}
