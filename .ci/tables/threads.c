// Loaded before the C library, it has threads fail, come late or stop as the environment says:
//
//   THREADS=none    no thread is made
//   MADE=FILE       the file gets a byte for each thread that is made
//   DELAY=SEED      each thread that is made, and who made it, waits up to 20 milliseconds, which are drawn from the seed
//   STOP=N          the Nth thread is stopped, AFTER=MICROSECONDS from when it was made, until all threads that don't wait for another
//                   have ended: then the file `free` is made. Where they haven't in 30 seconds, it is the file `held`
#define _GNU_SOURCE
#include <dlfcn.h>
#include <errno.h>
#include <fcntl.h>
#include <pthread.h>
#include <signal.h>
#include <stdatomic.h>
#include <stdlib.h>
#include <sys/syscall.h>
#include <unistd.h>

typedef int creates(pthread_t *, const pthread_attr_t *, void *(*)(void *), void *);

struct work {
    void *(*made)(void *);
    void *given;
    long number;
};

// Threads that were made; of these those that made one themselves, and of the others those that have ended.
static atomic_long threads, makers, ended;
static atomic_long stopped;
static _Thread_local int is_made, has_made;
// Of a thread: whether it is the one to be stopped, and how many hold that off.
static _Thread_local int is_to_stop __attribute__((tls_model("initial-exec"))), holds __attribute__((tls_model("initial-exec")));

static long number_of(const char *name) {
    const char *text = getenv(name);
    return text ? atol(text) : 0;
}

static void mark(const char *file) {
    int to = (int)syscall(SYS_openat, AT_FDCWD, file, O_CREAT | O_WRONLY | O_APPEND, 0600);
    syscall(SYS_write, to, "+", 1);
    close(to);
}

static void wait_a_while(long number) {
    unsigned long drawn = (unsigned long)(number_of("DELAY") * 1000003 + number);
    drawn = (drawn ^ (drawn >> 13)) * 0x5bd1e995;
    usleep((drawn ^ (drawn >> 15)) % 20000);
}

// A thread isn't stopped while it makes another, begins or ends, nor while it asks for memory or gives it back: it may hold what the C
// library needs for others then.
static void may_stop(int may) {
    holds += may ? -1 : 1;
    if (holds != !may)
        return;
    sigset_t set;
    sigemptyset(&set);
    sigaddset(&set, SIGUSR1);
    pthread_sigmask(may ? SIG_UNBLOCK : SIG_BLOCK, &set, NULL);
}

void asks_memory(int asks) {
    if (is_to_stop)
        may_stop(!asks);
}

// The thread that is stopped waits here.
static void stand(int signal) {
    (void)signal;
    for (int look = 0; look < 30000; look++) {
        if (threads - makers - ended == !has_made) {
            mark("free");
            return;
        }
        usleep(1000);
    }
    mark("held");
}

static void *stop_later(void *unused) {
    usleep((useconds_t)number_of("AFTER"));
    if (stopped)
        syscall(SYS_tgkill, getpid(), (int)stopped, SIGUSR1);
    return unused;
}

static void *begin(void *given) {
    struct work work = *(struct work *)given;
    free(given);
    // It begins with the signals blocked that were so where it was made.
    is_made = holds = 1;
    if (work.number == number_of("STOP")) {
        is_to_stop = 1;
        stopped = syscall(SYS_gettid);
    }
    if (getenv("DELAY"))
        wait_a_while(2 * work.number);
    may_stop(1);
    void *left = work.made(work.given);
    may_stop(0);
    if (!has_made)
        ended++;
    return left;
}

int pthread_create(pthread_t *thread, const pthread_attr_t *how, void *(*made)(void *), void *given) {
    if (getenv("THREADS"))
        return EAGAIN;
    may_stop(0);
    creates *create = (creates *)dlsym(RTLD_NEXT, "pthread_create");
    struct work *work = malloc(sizeof *work);
    pthread_t watcher;
    if (!work)
        return EAGAIN;
    long number = ++threads;
    *work = (struct work){made, given, number};
    if (is_made && !has_made)
        makers++;
    has_made = 1;
    if (getenv("MADE"))
        mark(getenv("MADE"));
    if (number == number_of("STOP")) {
        signal(SIGUSR1, stand);
        create(&watcher, NULL, stop_later, NULL);
    }
    int answer = create(thread, how, begin, work);
    may_stop(1);
    if (getenv("DELAY"))
        wait_a_while(2 * number + 1);
    return answer;
}
