/* Sixteen threads make ten thousand calls each on one ledger: from accounts of their own, from one that eight of them share, and from one
 * of another process. Now and then a thread leaves a note for another and takes in that of a third, each with each by turns. Each gives
 * its caller back, and the ledger is closed. It is run under sanitizers and valgrind.
 *
 *   threads [CALLS [FOLDER [ordered]]]   10,000 calls where it isn't said. Where there is a FOLDER, book.csv, pay0.csv .. pay15.csv and
 *                                        report are left there, which `verify` takes. `ordered`: a lock orders the two threads that
 *                                        reach for a note, for tools that see locks alone
 *   threads unordered                    one call of a caller in each of two threads, where only time orders the two: what mustn't be
 *                                        done, for tools that have to see it */
#include "bezglami.h"

#include <inttypes.h>
#include <pthread.h>
#include <stdbool.h>
#include <stdio.h>
#include <stdlib.h>
#include <string.h>
#include <time.h>

enum { THREADS = 16, ACCOUNTS = THREADS + 1, OPENING = 500, SHARED = 0, NOTES_EVERY = 64 };

struct worker {
    bezglami_handle caller;
    uint32_t process;
    uint32_t calls;
    uint64_t steps;
    uint64_t exchanges;
    uint32_t replies[5];
    uint32_t notes; /* that it took in */
    pthread_t thread;
};

/* A call: a read of `from` where it has no targets, a transfer where it has one, and a pay-out where it has two. */
struct call {
    uint32_t from;
    uint32_t count;
    bezglami_target targets[2];
};

static bool ordered;
static pthread_mutex_t locks[THREADS]; /* of the notes that each process leaves */

static void fail(const char *what, uint32_t number) {
    fprintf(stderr, "threads: %s, %" PRIu32 "\n", what, number);
    exit(1);
}

/* The account that a call pays from: now and then the shared one or the next process's, and else the process's own. */
static uint32_t source_of(uint32_t process, uint32_t i) {
    if (i % 8 == 1)
        return SHARED;
    return i % 64 == 3 ? (process + 1) % THREADS + 1 : process + 1;
}

/* Call number i of a process: by turns a read and a payment. */
static struct call call_of(uint32_t process, uint32_t i) {
    if (i % 2 == 0)
        return (struct call){ .from = i / 2 % ACCOUNTS };
    return (struct call){ source_of(process, i), i % 4 == 1 ? 2 : 1, { { (process + i) % ACCOUNTS, i % 97 }, { i % ACCOUNTS, 1 } } };
}

static void make_call(struct worker *worker, uint32_t i) {
    bezglami_answer answer = { 9, 9, 9, 9 };
    struct call call = call_of(worker->process, i);
    uint32_t outcome;
    if (call.count == 0)
        outcome = bezglami_read(&worker->caller, call.from, &answer);
    else if (call.count == 1)
        outcome = bezglami_transfer(&worker->caller, call.from, call.targets[0].account, call.targets[0].amount, &answer);
    else
        outcome = bezglami_pay(&worker->caller, call.from, call.targets, call.count, &answer);
    if (outcome != BEZGLAMI_DONE || answer.reply > BEZGLAMI_REPLY_BALANCE || (answer.reply == BEZGLAMI_REPLY_BALANCE) != (call.count == 0))
        fail("a call has another answer", outcome);
    worker->replies[answer.reply]++;
    worker->steps += answer.steps;
    worker->exchanges += answer.exchanges;
}

static uint32_t reach_for_note(struct worker *worker, uint32_t from, uint32_t (*reach)(bezglami_handle *, uint32_t), uint32_t other) {
    if (ordered)
        pthread_mutex_lock(&locks[from]);
    uint32_t outcome = reach(&worker->caller, other);
    if (ordered)
        pthread_mutex_unlock(&locks[from]);
    return outcome;
}

/* Leaves a note for the process so many further, and takes in that of the one so many before. Each is one step and one exchange. */
static void pass_notes(struct worker *worker, uint32_t further) {
    uint32_t next = (worker->process + further) % THREADS, before = (worker->process + THREADS - further) % THREADS;
    uint32_t left = reach_for_note(worker, worker->process, bezglami_note, next);
    uint32_t learnt = reach_for_note(worker, before, bezglami_learn, before);
    if (left != BEZGLAMI_DONE && left != BEZGLAMI_BUSY)
        fail("a note isn't left", left);
    if (learnt != BEZGLAMI_DONE && learnt != BEZGLAMI_NO_NOTE && learnt != BEZGLAMI_BUSY)
        fail("a note isn't taken in", learnt);
    worker->notes += learnt == BEZGLAMI_DONE;
    worker->steps += (left == BEZGLAMI_DONE) + (learnt == BEZGLAMI_DONE);
    worker->exchanges += (left == BEZGLAMI_DONE) + (learnt == BEZGLAMI_DONE);
}

static void make_calls(struct worker *worker) {
    for (uint32_t i = 0; i < worker->calls; i++) {
        make_call(worker, i);
        if (i % NOTES_EVERY == NOTES_EVERY - 1)
            pass_notes(worker, 1 + i / NOTES_EVERY % (THREADS - 1));
    }
    if (worker->steps != bezglami_steps(&worker->caller) || worker->exchanges != bezglami_exchanges(&worker->caller))
        fail("the steps don't add up", worker->process);
}

static void *make_calls_alone(void *argument) {
    make_calls(argument);
    return NULL;
}

static void *work(void *argument) {
    struct worker *worker = argument;
    make_calls(worker);
    uint32_t outcome = bezglami_return(&worker->caller);
    if (outcome != BEZGLAMI_DONE)
        fail("a caller isn't given back", outcome);
    return NULL;
}

/* A book with names, beside which a payment file may have pay-outs: processes p0 .. p15, accounts a0 .. a16. */
static size_t write_book(char *book, size_t room) {
    size_t at = (size_t)snprintf(book, room, "book,2\nprocesses");
    for (int p = 0; p < THREADS; p++)
        at += (size_t)snprintf(book + at, room - at, ",p%d", p);
    at += (size_t)snprintf(book + at, room - at, "\nlimits,4096,512\naccount,a%d,%d,p0 p1 p2 p3 p4 p5 p6 p7\n", SHARED, OPENING);
    for (int p = 0; p < THREADS; p++)
        at += (size_t)snprintf(book + at, room - at, "account,a%d,%d,p%d\n", p + 1, OPENING, p);
    return at;
}

static FILE *new_file(const char *folder, const char *name) {
    char path[1024];
    snprintf(path, sizeof path, "%s/%s", folder, name);
    FILE *file = fopen(path, "wb");
    if (file == NULL) {
        perror(path);
        exit(2);
    }
    return file;
}

static void write_file(const char *folder, const char *name, const void *bytes, size_t length) {
    FILE *file = new_file(folder, name);
    if (fwrite(bytes, 1, length, file) != length || fclose(file) != 0)
        fail("a file isn't written", 0);
}

/* The payment file of a process: the calls that its thread has made. */
static void write_calls(const struct worker *worker, const char *folder) {
    static const char *const kinds[] = { "read", "transfer", "pay" };
    char name[32];
    snprintf(name, sizeof name, "pay%" PRIu32 ".csv", worker->process);
    FILE *file = new_file(folder, name);
    for (uint32_t i = 0; i < worker->calls; i++) {
        struct call call = call_of(worker->process, i);
        fprintf(file, "%s,a%" PRIu32, kinds[call.count], call.from);
        for (uint32_t t = 0; t < call.count; t++)
            fprintf(file, ",a%" PRIu32 ",%" PRIu64, call.targets[t].account, call.targets[t].amount);
        fputc('\n', file);
    }
    if (fclose(file) != 0)
        fail("a file isn't written", worker->process);
}

/* Closes the ledger, looks at the total of its report, and leaves the files. */
static void close_ledger(bezglami_handle *ledger, const struct worker *workers, const char *folder) {
    char book[2048], total[32];
    uint32_t outcome = bezglami_close(ledger);
    if (outcome != BEZGLAMI_DONE)
        fail("the ledger isn't closed", outcome);
    uint8_t none;
    size_t length = bezglami_report(ledger, &none, 0);
    uint8_t *report = malloc(length);
    size_t end = (size_t)snprintf(total, sizeof total, "\ntotal %d\n", ACCOUNTS * OPENING);
    if (report == NULL || bezglami_report(ledger, report, length) != length)
        fail("no report", 0);
    if (length < end || memcmp(report + length - end, total, end) != 0)
        fail("the total is another", 0);
    if (folder != NULL) {
        write_file(folder, "book.csv", book, write_book(book, sizeof book));
        write_file(folder, "report", report, length);
        for (uint32_t p = 0; p < THREADS; p++)
            write_calls(&workers[p], folder);
    }
    free(report);
    bezglami_free(ledger);
}

static void open_all(bezglami_handle *ledger, struct worker *workers, uint32_t calls) {
    char book[2048];
    uint32_t line = 0, why = 0;
    if (bezglami_open((const uint8_t *)book, write_book(book, sizeof book), ledger, &line, &why) != BEZGLAMI_DONE)
        fail("no ledger", line);
    for (uint32_t p = 0; p < THREADS; p++) {
        workers[p].process = p;
        workers[p].calls = calls;
        uint32_t outcome = bezglami_caller(ledger, calls + 1, &workers[p].caller);
        if (outcome != BEZGLAMI_DONE)
            fail("no caller", outcome);
    }
}

/* Uses one caller in another thread and, a while later, in this one. */
static void use_unordered(struct worker *worker) {
    bezglami_answer answer;
    if (pthread_create(&worker->thread, NULL, make_calls_alone, worker) != 0)
        fail("no thread", 0);
    nanosleep(&(struct timespec){ 0, 300000000 }, NULL);
    bezglami_read(&worker->caller, 0, &answer);
    pthread_join(worker->thread, NULL);
}

int main(int count, char **words) {
    static struct worker workers[THREADS];
    bezglami_handle ledger = BEZGLAMI_NOTHING;
    bool unordered = count > 1 && strcmp(words[1], "unordered") == 0;
    uint32_t calls = unordered ? 1 : count > 1 ? (uint32_t)atoi(words[1]) : 10000;
    ordered = count > 3 && strcmp(words[3], "ordered") == 0;
    for (uint32_t p = 0; p < THREADS; p++)
        pthread_mutex_init(&locks[p], NULL);
    open_all(&ledger, workers, calls);
    if (unordered) {
        use_unordered(&workers[0]);
        return 0;
    }
    for (uint32_t p = 0; p < THREADS; p++)
        if (pthread_create(&workers[p].thread, NULL, work, &workers[p]) != 0)
            fail("no thread", p);
    uint32_t replies[5] = { 0 }, notes = 0;
    for (uint32_t p = 0; p < THREADS; p++) {
        pthread_join(workers[p].thread, NULL);
        notes += workers[p].notes;
        for (int reply = 0; reply < 5; reply++)
            replies[reply] += workers[p].replies[reply];
    }
    close_ledger(&ledger, workers, count > 2 ? words[2] : NULL);
    printf("threads: %" PRIu32 " calls, done %" PRIu32 ", short %" PRIu32 ", not-owner %" PRIu32 ", full %" PRIu32 ", reads %" PRIu32
           ", notes %" PRIu32 "\n",
        THREADS * calls, replies[0], replies[1], replies[2], replies[3], replies[4], notes);
    return 0;
}
