/* Makes the calls of payment files at once, by a thread for each process of a book on one ledger, where no thread waits for another, and
 * prints the report. It reads accounts as numbers, so the book is of version 1. In a release:
 *
 *   cc -std=c11 -pthread -Iinclude bindings/c/example.c lib/libbezglami.a -o example
 *   ./example examples/owners/book.csv examples/owners/pay0.csv examples/owners/pay1.csv >report */
#include "bezglami.h"

#include <inttypes.h>
#include <pthread.h>
#include <stdio.h>
#include <stdlib.h>
#include <string.h>

enum { PROCESSES_MOST = 16, CALLS_MOST = 16384, BOOK_MOST = 1 << 16 };

struct worker {
    bezglami_handle caller;
    FILE *calls;
    uint32_t replies[5];
    pthread_t thread;
};

static void fail(const char *what, const char *why) {
    fprintf(stderr, "%s: %s\n", what, why);
    exit(3);
}

/* Ends the program where something wasn't done. */
static void expect(uint32_t outcome, const char *what) {
    if (outcome != BEZGLAMI_DONE)
        fail(what, bezglami_outcome_text(outcome));
}

static FILE *open_file(const char *path) {
    FILE *file = fopen(path, "rb");
    if (file == NULL) {
        perror(path);
        exit(2);
    }
    return file;
}

/* Makes the calls of the file one after another, and gives the caller back. */
static void *work(void *argument) {
    struct worker *worker = argument;
    char line[128];
    while (fgets(line, sizeof line, worker->calls) != NULL) {
        bezglami_answer answer;
        uint32_t from, to;
        uint64_t amount;
        int end = 0;
        line[strcspn(line, "\r\n")] = '\0';
        if (sscanf(line, "transfer,%4" SCNu32 ",%4" SCNu32 ",%19" SCNu64 "%n", &from, &to, &amount, &end) == 3 && line[end] == '\0')
            expect(bezglami_transfer(&worker->caller, from, to, amount, &answer), line);
        else if (sscanf(line, "read,%4" SCNu32 "%n", &from, &end) == 1 && line[end] == '\0')
            expect(bezglami_read(&worker->caller, from, &answer), line);
        else
            fail(line, "no call");
        worker->replies[answer.reply]++;
    }
    expect(bezglami_return(&worker->caller), "return");
    return NULL;
}

static void open_ledger(bezglami_handle *ledger, const char *path) {
    static uint8_t book[BOOK_MOST];
    FILE *file = open_file(path);
    size_t length = fread(book, 1, sizeof book, file);
    uint32_t line, why;
    uint32_t outcome = bezglami_open(book, length, ledger, &line, &why);
    if (outcome == BEZGLAMI_BAD_BOOK)
        fprintf(stderr, "line %" PRIu32 ": %s\n", line, bezglami_why_text(why));
    expect(outcome, path);
    fclose(file);
}

static void print_report(bezglami_handle *ledger) {
    uint8_t none;
    size_t length = bezglami_report(ledger, &none, 0);
    uint8_t *report = malloc(length);
    if (report == NULL)
        fail("report", "no memory");
    bezglami_report(ledger, report, length);
    fwrite(report, 1, length, stdout);
    free(report);
}

int main(int count, char **words) {
    static struct worker workers[PROCESSES_MOST];
    bezglami_handle ledger = BEZGLAMI_NOTHING;
    int processes = count - 2;
    if (processes < 1 || processes > PROCESSES_MOST) {
        fprintf(stderr, "usage: example BOOK PAY...\n");
        return 2;
    }
    open_ledger(&ledger, words[1]);
    for (int p = 0; p < processes; p++) {
        workers[p].calls = open_file(words[p + 2]);
        expect(bezglami_caller(&ledger, CALLS_MOST, &workers[p].caller), words[p + 2]);
    }
    for (int p = 0; p < processes; p++)
        if (pthread_create(&workers[p].thread, NULL, work, &workers[p]) != 0)
            return 4;
    for (int p = 0; p < processes; p++) {
        uint32_t *replies = workers[p].replies;
        pthread_join(workers[p].thread, NULL);
        fclose(workers[p].calls);
        fprintf(stderr, "process %d: done %" PRIu32 ", short %" PRIu32 ", not-owner %" PRIu32 ", full %" PRIu32 ", reads %" PRIu32 "\n", p,
            replies[0], replies[1], replies[2], replies[3], replies[4]);
    }
    expect(bezglami_close(&ledger), "close");
    print_report(&ledger);
    bezglami_free(&ledger);
    return 0;
}
