/* How many calls a second so many threads make on the object and on the same ledger under a pthread_mutex, and how long the calls of the
 * others take while one thread is stopped in the middle of a call: with the mutex, while it holds the lock. Prints a table as CSV.
 *
 *   calls [SECONDS]   each figure is of about so many seconds (1), over whole ledgers one after another */
#include "bezglami.h"
#include "locked.h"

#include <signal.h>
#include <stdatomic.h>
#include <stdbool.h>
#include <stdio.h>
#include <stdlib.h>
#include <string.h>
#include <time.h>

enum {
    THREADS_MOST = 16,
    OWNERS_MOST = 8,
    OWN_ROOM = 4096,
    REQUEST_ROOM = 1024,
    STOP_MICROSECONDS = 5000,
    STOPS = 20,        /* how many threads are stopped for one figure, each in a ledger of its own */
    TIMED_MOST = 32768 /* calls of a thread in such a ledger */
};

enum kind { OBJECT, LOCK };
enum accounts { SINGLE, SHARED };

static const char *const KIND_NAMES[] = { "object", "lock" };
static const char *const ACCOUNTS_NAMES[] = { "single", "shared" };

struct timed {
    uint64_t began;
    uint64_t ended;
};

/* A thread with its caller of the object, or its number beside the ledger under the lock. */
struct worker {
    struct run *run;
    bezglami_handle caller;
    uint32_t process;
    uint32_t from;
    bool owns;
    uint32_t done;
    uint64_t began;
    uint64_t ended;
    struct timed *timed;
    atomic_uint timed_calls;
    pthread_t thread;
};

struct run {
    enum kind kind;
    enum accounts accounts;
    uint32_t threads;
    uint32_t calls; /* of each thread */
    uint32_t every; /* one call in so many is a payment, where the thread owns what is paid from */
    bezglami_handle ledger;
    struct locked_ledger locked;
    struct worker workers[THREADS_MOST];
    pthread_barrier_t gate;
    atomic_bool over;
};

static void fail(const char *what) {
    fprintf(stderr, "calls: %s\n", what);
    exit(1);
}

static uint64_t now(void) {
    struct timespec time;
    clock_gettime(CLOCK_MONOTONIC, &time);
    return (uint64_t)time.tv_sec * 1000000000u + (uint64_t)time.tv_nsec;
}

/* How many processes own the account that is paid from, and of how many processes the book is. */
static uint32_t owners_of(const struct run *run) {
    if (run->accounts == SINGLE)
        return 1;
    return run->threads < 2 ? 2 : run->threads > OWNERS_MOST ? OWNERS_MOST : run->threads;
}

static uint32_t processes_of(const struct run *run) {
    return run->threads < 2 ? 2 : run->threads;
}

/* The book: an account for each process and one that all pay into; or an account of all owners, and one that they pay into. */
static size_t write_book(const struct run *run, char *book, size_t room) {
    uint32_t processes = processes_of(run);
    size_t at = (size_t)snprintf(book, room, "book,1\nprocesses,%u\nlimits,%u,%u\n", processes, OWN_ROOM, REQUEST_ROOM);
    if (run->accounts == SHARED) {
        at += (size_t)snprintf(book + at, room - at, "account,0,1000000000,0");
        for (uint32_t owner = 1; owner < owners_of(run); owner++)
            at += (size_t)snprintf(book + at, room - at, " %u", owner);
        at += (size_t)snprintf(book + at, room - at, "\naccount,1,0,\n");
        return at;
    }
    for (uint32_t p = 0; p < processes; p++)
        at += (size_t)snprintf(book + at, room - at, "account,%u,1000000000,%u\n", p, p);
    return at + (size_t)snprintf(book + at, room - at, "account,%u,0,\n", processes);
}

/* The account that is paid into, and read. */
static uint32_t target_of(const struct run *run) {
    return run->accounts == SHARED ? 1 : processes_of(run);
}

static void open_object(struct run *run) {
    static char book[4096];
    uint32_t line = 0, why = 0;
    run->ledger = (bezglami_handle)BEZGLAMI_NOTHING;
    size_t length = write_book(run, book, sizeof book);
    if (bezglami_open((const uint8_t *)book, length, &run->ledger, &line, &why) != BEZGLAMI_DONE)
        fail("no ledger");
    for (uint32_t p = 0; p < run->threads; p++) {
        run->workers[p].caller = (bezglami_handle)BEZGLAMI_NOTHING;
        if (bezglami_caller(&run->ledger, run->calls + 1, &run->workers[p].caller) != BEZGLAMI_DONE)
            fail("no caller");
    }
}

static void open_locked(struct run *run) {
    struct locked_ledger *locked = &run->locked;
    uint32_t processes = processes_of(run);
    memset(locked, 0, sizeof *locked);
    pthread_mutex_init(&locked->mutex, NULL);
    locked->accounts = target_of(run) + 1;
    for (uint32_t p = 0; p < processes; p++) {
        locked->own_room[p] = OWN_ROOM;
        locked->request_room[p][0] = REQUEST_ROOM;
        if (run->accounts == SINGLE)
            locked->owners[p] = (uint16_t)(1u << p);
    }
    if (run->accounts == SHARED)
        locked->owners[0] = (uint16_t)((1u << owners_of(run)) - 1);
    for (uint32_t a = 0; a + 1 < locked->accounts; a++)
        locked->balances[a] = 1000000000;
    locked->journal = malloc((size_t)run->threads * run->calls * sizeof *locked->journal);
    if (locked->journal == NULL)
        fail("no memory");
}

static void close_run(struct run *run) {
    if (run->kind == LOCK) {
        free(run->locked.journal);
        pthread_mutex_destroy(&run->locked.mutex);
        return;
    }
    for (uint32_t p = 0; p < run->threads; p++)
        bezglami_free(&run->workers[p].caller);
    bezglami_free(&run->ledger);
}

/* Whether the thread is in the middle of a call: with the mutex, holds the lock. */
static _Thread_local volatile int calling;
static _Thread_local struct run *run_of_thread;
static atomic_int stopped; /* 1 once the thread has stopped, 2 once it has gone on */
static _Atomic uint64_t stop_began, stop_ended;

/* Stops the thread, if it is in the middle of a call. It runs in the thread between two instructions of it. */
static void stop_here(int signal) {
    (void)signal;
    struct run *run = run_of_thread;
    if (run == NULL || stopped != 0 || !(run->kind == LOCK ? holding : calling))
        return;
    struct timespec pause = { 0, STOP_MICROSECONDS * 1000L };
    stop_began = now();
    stopped = 1;
    nanosleep(&pause, NULL);
    stop_ended = now();
    stopped = 2;
}

/* Makes call number i of the thread: a payment, or a read of what it pays into. */
static void call(struct worker *worker, uint32_t i) {
    struct run *run = worker->run;
    uint32_t target = target_of(run);
    bool pays = worker->owns && i % run->every == 0;
    bezglami_answer answer;
    uint32_t outcome;
    if (run->kind == OBJECT)
        outcome = pays ? bezglami_transfer(&worker->caller, worker->from, target, 1, &answer) : bezglami_read(&worker->caller, target, &answer);
    else
        outcome = pays ? locked_transfer(&run->locked, worker->process, worker->from, target, 1, &answer)
                       : locked_read(&run->locked, worker->process, target, &answer);
    if (outcome != BEZGLAMI_DONE || (pays ? answer.reply != BEZGLAMI_REPLY_DONE : answer.reply != BEZGLAMI_REPLY_BALANCE))
        fail("a call has another answer");
    worker->done += pays;
}

static void *make_all(void *argument) {
    struct worker *worker = argument;
    pthread_barrier_wait(&worker->run->gate);
    worker->began = now();
    for (uint32_t i = 0; i < worker->run->calls; i++)
        call(worker, i);
    worker->ended = now();
    return NULL;
}

/* The same, with the time of each call noted, until the stopped thread has gone on. */
static void *make_timed(void *argument) {
    struct worker *worker = argument;
    struct run *run = worker->run;
    run_of_thread = run;
    pthread_barrier_wait(&run->gate);
    for (uint32_t i = 0; i < run->calls && !atomic_load_explicit(&run->over, memory_order_relaxed); i++) {
        uint64_t began = now();
        calling = 1;
        call(worker, i);
        calling = 0;
        worker->timed[i] = (struct timed){ began, now() };
        atomic_store_explicit(&worker->timed_calls, i + 1, memory_order_relaxed);
    }
    run_of_thread = NULL;
    return NULL;
}

/* Opens a ledger, and starts its threads, which wait at the gate with this one. */
static void start(struct run *run, void *(*body)(void *)) {
    if (run->kind == OBJECT)
        open_object(run);
    else
        open_locked(run);
    run->over = false;
    pthread_barrier_init(&run->gate, NULL, run->threads + 1);
    for (uint32_t p = 0; p < run->threads; p++) {
        struct worker *worker = &run->workers[p];
        worker->run = run;
        worker->process = p;
        worker->from = run->accounts == SHARED ? 0 : p;
        worker->owns = run->accounts == SINGLE || p < owners_of(run);
        worker->done = 0;
        worker->timed_calls = 0;
        if (pthread_create(&worker->thread, NULL, body, worker) != 0)
            fail("no thread");
    }
}

static void join(struct run *run) {
    for (uint32_t p = 0; p < run->threads; p++)
        pthread_join(run->workers[p].thread, NULL);
    pthread_barrier_destroy(&run->gate);
}

/* Looks that what was paid has arrived. */
static void look(struct run *run) {
    bezglami_answer answer = { 0 };
    uint64_t paid = 0;
    for (uint32_t p = 0; p < run->threads; p++)
        paid += run->workers[p].done;
    if (run->kind == LOCK) {
        if (run->locked.balances[target_of(run)] != paid)
            fail("a payment is lost");
        return;
    }
    if (bezglami_read(&run->workers[0].caller, target_of(run), &answer) != BEZGLAMI_DONE || answer.balance != paid)
        fail("a payment is lost");
}

/* The shape of a run. Of a shared account with more threads than owners, the others read alone. */
static void shape(struct run *run, enum kind kind, enum accounts accounts, uint32_t threads, uint32_t every) {
    run->kind = kind;
    run->accounts = accounts;
    run->threads = threads;
    run->every = every;
    run->calls = (accounts == SHARED ? REQUEST_ROOM : OWN_ROOM) * every;
}

/* The nanoseconds from the first call of any thread to the end of the last one. */
static uint64_t taken_by(const struct run *run) {
    uint64_t began = run->workers[0].began, ended = run->workers[0].ended;
    for (uint32_t p = 1; p < run->threads; p++) {
        if (run->workers[p].began < began)
            began = run->workers[p].began;
        if (run->workers[p].ended > ended)
            ended = run->workers[p].ended;
    }
    return ended - began;
}

/* Plays whole ledgers for so long, and tells the calls and the seconds that they took. Making a ledger is no part of these. */
static void measure_rate(struct run *run, double seconds, uint64_t *calls, double *taken) {
    *calls = 0;
    *taken = 0;
    for (int ledgers = 0; *taken < seconds || ledgers < 3; ledgers++) {
        start(run, make_all);
        pthread_barrier_wait(&run->gate);
        join(run);
        *taken += (double)taken_by(run) / 1e9;
        *calls += (uint64_t)run->threads * run->calls;
        look(run);
        close_run(run);
    }
}

static void pause_for(long microseconds) {
    struct timespec pause = { 0, microseconds * 1000 };
    nanosleep(&pause, NULL);
}

/* Stops the last thread in the middle of a call, and tells whether it did: it may have made all its calls before. */
static bool stop_one(struct run *run) {
    struct worker *last = &run->workers[run->threads - 1];
    stopped = 0;
    start(run, make_timed);
    pthread_barrier_wait(&run->gate);
    while (stopped == 0 && atomic_load_explicit(&last->timed_calls, memory_order_relaxed) < run->calls) {
        pause_for(50);
        pthread_kill(last->thread, SIGUSR1);
    }
    while (stopped == 1)
        pause_for(50);
    run->over = true;
    join(run);
    bool did = stopped == 2;
    look(run);
    close_run(run);
    return did;
}

static int by_size(const void *a, const void *b) {
    uint64_t left = *(const uint64_t *)a, right = *(const uint64_t *)b;
    return (left > right) - (left < right);
}

/* How long calls of the others took that fell into the time in which one thread was stopped. */
struct waits {
    size_t calls;
    uint64_t *nanoseconds;
};

static void add_waits(struct waits *waits, struct run *run) {
    for (uint32_t p = 0; p + 1 < run->threads; p++) {
        struct worker *worker = &run->workers[p];
        for (uint32_t i = 0; i < worker->timed_calls; i++) {
            struct timed timed = worker->timed[i];
            if (timed.ended > stop_began && timed.began < stop_ended)
                waits->nanoseconds[waits->calls++] = timed.ended - timed.began;
        }
    }
}

static void measure_waits(struct run *run, struct waits *waits) {
    waits->calls = 0;
    for (int stops = 0, tries = 0; stops < STOPS && tries < 4 * STOPS; tries++) {
        if (!stop_one(run))
            continue;
        add_waits(waits, run);
        stops++;
    }
    qsort(waits->nanoseconds, waits->calls, sizeof *waits->nanoseconds, by_size);
}

static uint64_t part_of(const struct waits *waits, size_t thousandths) {
    return waits->calls == 0 ? 0 : waits->nanoseconds[(waits->calls - 1) * thousandths / 1000];
}

static void measure(struct run *run, enum kind kind, enum accounts accounts, uint32_t threads, double seconds, struct waits *waits) {
    uint64_t calls;
    double taken;
    shape(run, kind, accounts, threads, 2);
    measure_rate(run, seconds, &calls, &taken);
    printf("%s,%s,%u,%llu,%.3f,%.0f", ACCOUNTS_NAMES[accounts], KIND_NAMES[kind], threads, (unsigned long long)calls, taken, (double)calls / taken);
    if (threads < 2) {
        printf(",,,,\n");
        return;
    }
    shape(run, kind, accounts, threads, accounts == SHARED ? 32 : 8);
    measure_waits(run, waits);
    printf(",%zu,%llu,%llu,%llu\n", waits->calls, (unsigned long long)part_of(waits, 500), (unsigned long long)part_of(waits, 999),
        (unsigned long long)part_of(waits, 1000));
    fflush(stdout);
}

int main(int count, char **words) {
    static struct run run;
    static struct waits waits;
    double seconds = count > 1 ? strtod(words[1], NULL) : 1;
    struct sigaction action = { .sa_handler = stop_here };
    sigaction(SIGUSR1, &action, NULL);
    waits.nanoseconds = malloc((size_t)STOPS * THREADS_MOST * TIMED_MOST * sizeof *waits.nanoseconds);
    for (int i = 0; i < THREADS_MOST; i++)
        run.workers[i].timed = malloc(TIMED_MOST * sizeof *run.workers[i].timed);
    if (waits.nanoseconds == NULL || run.workers[THREADS_MOST - 1].timed == NULL)
        fail("no memory");
    printf("accounts,ledger,threads,calls,seconds,calls_per_second,stopped_calls,stopped_median_ns,stopped_999_ns,stopped_longest_ns\n");
    for (int accounts = SINGLE; accounts <= SHARED; accounts++)
        for (uint32_t threads = 1; threads <= THREADS_MOST; threads *= 2)
            for (int kind = OBJECT; kind <= LOCK; kind++)
                measure(&run, (enum kind)kind, (enum accounts)accounts, threads, seconds, &waits);
    return 0;
}
