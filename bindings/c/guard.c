/* What a program in C calls: each export of the header, which looks at the addresses that it is given and then calls the proved one of its
 * name. An address that is null is answered, so is a handle that another call has just now, and a processor for which the library isn't
 * compiled. Nothing else is decided here. */
#include "bezglami.h"

#include <cpuid.h>

/* The proved exports: `bindings/libraries.sh` has given each this prefix. They read and write the pointer of a handle alone. */
uint32_t proved_bezglami_open(const uint8_t *book, size_t length, bezglami_handle *ledger, uint32_t *line, uint32_t *why);
uint32_t proved_bezglami_caller(bezglami_handle *ledger, uint32_t calls, bezglami_handle *caller);
uint32_t proved_bezglami_transfer(bezglami_handle *caller, uint32_t from, uint32_t to, uint64_t amount, bezglami_answer *answer);
uint32_t proved_bezglami_pay(bezglami_handle *caller, uint32_t from, const bezglami_target *targets, size_t count, bezglami_answer *answer);
uint32_t proved_bezglami_read(bezglami_handle *caller, uint32_t account, bezglami_answer *answer);
uint32_t proved_bezglami_accounts(bezglami_handle *handle);
uint32_t proved_bezglami_balances(bezglami_handle *caller, uint64_t *balances, size_t room);
uint64_t proved_bezglami_steps(bezglami_handle *caller);
uint64_t proved_bezglami_exchanges(bezglami_handle *caller);
uint32_t proved_bezglami_note(bezglami_handle *caller, uint32_t process);
uint32_t proved_bezglami_learn(bezglami_handle *caller, uint32_t process);
uint32_t proved_bezglami_return(bezglami_handle *caller);
uint32_t proved_bezglami_close(bezglami_handle *ledger);
size_t proved_bezglami_report(bezglami_handle *ledger, uint8_t *bytes, size_t room);
void proved_bezglami_free(bezglami_handle *handle);

/* Takes the handle for a call, unless it is null or in a call: one exchange, which waits for nobody. */
static uint32_t take(bezglami_handle *handle) {
    if (handle == NULL)
        return BEZGLAMI_NULL;
    return __atomic_exchange_n(&handle->in_call, 1, __ATOMIC_ACQUIRE) == 0 ? BEZGLAMI_DONE : BEZGLAMI_IN_CALL;
}

static void leave(bezglami_handle *handle) {
    __atomic_store_n(&handle->in_call, 0, __ATOMIC_RELEASE);
}

/* Makes a call while nobody else has the handle. */
#define WITH(handle, call)                      \
    do {                                        \
        uint32_t outcome = take(handle);        \
        if (outcome == BEZGLAMI_DONE) {         \
            outcome = (call);                   \
            leave(handle);                      \
        }                                       \
        return outcome;                         \
    } while (0)

/* Whether the processor has what x86-64-v2 names, for which the library is compiled. */
static int has_instructions(void) {
    const unsigned wanted = bit_SSE3 | bit_SSSE3 | bit_SSE4_1 | bit_SSE4_2 | bit_POPCNT | bit_CMPXCHG16B;
    unsigned a, b, c, d;
    return __get_cpuid(1, &a, &b, &c, &d) && (c & wanted) == wanted && __get_cpuid(0x80000001, &a, &b, &c, &d) && (c & bit_LAHF_LM) != 0;
}

uint32_t bezglami_version(void) {
    return BEZGLAMI_VERSION;
}

uint32_t bezglami_open(const uint8_t *book, size_t length, bezglami_handle *ledger, uint32_t *line, uint32_t *why) {
    static const uint8_t none[1];
    uint32_t unread[2];
    if (book == NULL && length != 0)
        return BEZGLAMI_NULL;
    if (!has_instructions())
        return BEZGLAMI_OTHER_PROCESSOR;
    WITH(ledger, proved_bezglami_open(book == NULL ? none : book, length, ledger, line == NULL ? &unread[0] : line, why == NULL ? &unread[1] : why));
}

uint32_t bezglami_caller(bezglami_handle *ledger, uint32_t calls, bezglami_handle *caller) {
    uint32_t outcome = take(ledger);
    if (outcome != BEZGLAMI_DONE)
        return outcome;
    outcome = take(caller);
    if (outcome == BEZGLAMI_DONE) {
        outcome = proved_bezglami_caller(ledger, calls, caller);
        leave(caller);
    }
    leave(ledger);
    return outcome;
}

uint32_t bezglami_transfer(bezglami_handle *caller, uint32_t from, uint32_t to, uint64_t amount, bezglami_answer *answer) {
    if (answer == NULL)
        return BEZGLAMI_NULL;
    WITH(caller, proved_bezglami_transfer(caller, from, to, amount, answer));
}

uint32_t bezglami_pay(bezglami_handle *caller, uint32_t from, const bezglami_target *targets, size_t count, bezglami_answer *answer) {
    static const bezglami_target none[1];
    if (answer == NULL || (targets == NULL && count != 0))
        return BEZGLAMI_NULL;
    WITH(caller, proved_bezglami_pay(caller, from, targets == NULL ? none : targets, count, answer));
}

uint32_t bezglami_read(bezglami_handle *caller, uint32_t account, bezglami_answer *answer) {
    if (answer == NULL)
        return BEZGLAMI_NULL;
    WITH(caller, proved_bezglami_read(caller, account, answer));
}

uint32_t bezglami_accounts(bezglami_handle *handle) {
    uint32_t accounts = 0;
    if (take(handle) == BEZGLAMI_DONE) {
        accounts = proved_bezglami_accounts(handle);
        leave(handle);
    }
    return accounts;
}

uint32_t bezglami_balances(bezglami_handle *caller, uint64_t *balances, size_t room) {
    uint64_t none[1];
    if (balances == NULL && room != 0)
        return BEZGLAMI_NULL;
    WITH(caller, proved_bezglami_balances(caller, balances == NULL ? none : balances, room));
}

/* A count of a handle: 0 where it is null or in a call. */
static uint64_t count_of(bezglami_handle *caller, uint64_t (*count)(bezglami_handle *)) {
    uint64_t counted = 0;
    if (take(caller) == BEZGLAMI_DONE) {
        counted = count(caller);
        leave(caller);
    }
    return counted;
}

uint64_t bezglami_steps(bezglami_handle *caller) {
    return count_of(caller, proved_bezglami_steps);
}

uint64_t bezglami_exchanges(bezglami_handle *caller) {
    return count_of(caller, proved_bezglami_exchanges);
}

uint32_t bezglami_note(bezglami_handle *caller, uint32_t process) {
    WITH(caller, proved_bezglami_note(caller, process));
}

uint32_t bezglami_learn(bezglami_handle *caller, uint32_t process) {
    WITH(caller, proved_bezglami_learn(caller, process));
}

uint32_t bezglami_return(bezglami_handle *caller) {
    WITH(caller, proved_bezglami_return(caller));
}

uint32_t bezglami_close(bezglami_handle *ledger) {
    WITH(ledger, proved_bezglami_close(ledger));
}

size_t bezglami_report(bezglami_handle *ledger, uint8_t *bytes, size_t room) {
    uint8_t none[1];
    size_t length = 0;
    if (take(ledger) == BEZGLAMI_DONE) {
        length = proved_bezglami_report(ledger, bytes == NULL ? none : bytes, bytes == NULL ? 0 : room);
        leave(ledger);
    }
    return length;
}

void bezglami_free(bezglami_handle *handle) {
    if (take(handle) == BEZGLAMI_DONE) {
        proved_bezglami_free(handle);
        leave(handle);
    }
}
