/* The same ledger under one lock: replies by the same rules, and a line of its journal for each call, in memory that was taken before. */
#ifndef LOCKED_H
#define LOCKED_H

#include "bezglami.h"

#include <pthread.h>

enum { LOCKED_PROCESSES_MOST = 16, LOCKED_ACCOUNTS_MOST = 32 };

/* A call with its reply. `account` is the source or the account that was read. */
struct locked_line {
    uint64_t amount; /* or the balance that a read found */
    uint16_t process;
    uint16_t reply;
    uint32_t account;
    uint32_t to;
};

struct locked_ledger {
    pthread_mutex_t mutex;
    uint32_t accounts;
    uint64_t balances[LOCKED_ACCOUNTS_MOST];
    uint16_t owners[LOCKED_ACCOUNTS_MOST]; /* a bit for each process */
    uint32_t own_room[LOCKED_PROCESSES_MOST];
    uint32_t request_room[LOCKED_PROCESSES_MOST][LOCKED_ACCOUNTS_MOST];
    struct locked_line *journal;
    size_t lines;
};

/* Both take the lock, and answer as the library does. `holding` is set while it is held. */
uint32_t locked_transfer(struct locked_ledger *ledger, uint32_t process, uint32_t from, uint32_t to, uint64_t amount, bezglami_answer *answer);
uint32_t locked_read(struct locked_ledger *ledger, uint32_t process, uint32_t account, bezglami_answer *answer);

extern _Thread_local volatile int holding;

#endif
