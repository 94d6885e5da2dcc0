#include "locked.h"

_Thread_local volatile int holding;

static void take(struct locked_ledger *ledger) {
    pthread_mutex_lock(&ledger->mutex);
    holding = 1;
}

static void release(struct locked_ledger *ledger) {
    holding = 0;
    pthread_mutex_unlock(&ledger->mutex);
}

static int is_single(uint16_t owners) {
    return (owners & (owners - 1)) == 0;
}

/* What a process may still pay from an account: its own room, or its requests on it. */
static uint32_t *room_of(struct locked_ledger *ledger, uint32_t process, uint32_t from) {
    return is_single(ledger->owners[from]) ? &ledger->own_room[process] : &ledger->request_room[process][from];
}

/* The reply of a transfer, which is made. A short one uses a request of a shared account, and no own room. */
static uint32_t reply_of(struct locked_ledger *ledger, uint32_t process, uint32_t from, uint32_t to, uint64_t amount) {
    if (!(ledger->owners[from] >> process & 1))
        return BEZGLAMI_REPLY_NOT_OWNER;
    uint32_t *room = room_of(ledger, process, from);
    if (*room == 0)
        return BEZGLAMI_REPLY_FULL;
    int covered = ledger->balances[from] >= amount;
    if (covered || !is_single(ledger->owners[from]))
        (*room)--;
    if (!covered)
        return BEZGLAMI_REPLY_SHORT;
    ledger->balances[from] -= amount;
    ledger->balances[to] += amount;
    return BEZGLAMI_REPLY_DONE;
}

uint32_t locked_transfer(struct locked_ledger *ledger, uint32_t process, uint32_t from, uint32_t to, uint64_t amount, bezglami_answer *answer) {
    if (from >= ledger->accounts || to >= ledger->accounts)
        return BEZGLAMI_NO_ACCOUNT;
    take(ledger);
    uint32_t reply = reply_of(ledger, process, from, to, amount);
    ledger->journal[ledger->lines++] = (struct locked_line){ amount, (uint16_t)process, (uint16_t)reply, from, to };
    release(ledger);
    *answer = (bezglami_answer){ .reply = reply };
    return BEZGLAMI_DONE;
}

uint32_t locked_read(struct locked_ledger *ledger, uint32_t process, uint32_t account, bezglami_answer *answer) {
    if (account >= ledger->accounts)
        return BEZGLAMI_NO_ACCOUNT;
    take(ledger);
    uint64_t balance = ledger->balances[account];
    ledger->journal[ledger->lines++] = (struct locked_line){ balance, (uint16_t)process, BEZGLAMI_REPLY_BALANCE, account, 0 };
    release(ledger);
    *answer = (bezglami_answer){ .reply = BEZGLAMI_REPLY_BALANCE, .balance = balance };
    return BEZGLAMI_DONE;
}
