/* Bezglami in a program of one's own: a payment ledger that no thread waits for.
 *
 * Link the release's lib/libbezglami.a, which `bindings/libraries.sh` makes, and threads of your own.
 * A handle has a pointer that the library alone follows. One whose pointer is null holds nothing, so one is made by
 * `bezglami_handle ledger = BEZGLAMI_NOTHING;`. A handle isn't copied: one place holds it.
 *
 * What is looked at, so that a mistake is answered and nothing is lost by it:
 *   - an address that is null is BEZGLAMI_NULL, or 0 where the answer is a count, and `bezglami_free` does nothing then. `book`, `targets`,
 *     `bytes` and `balances` may be null where their number is 0, and `line` and `why` always;
 *   - a handle is for one call at a time. A second one meanwhile, of another thread or of a signal handler, is BEZGLAMI_IN_CALL, or 0
 *     where the answer is a count, and `bezglami_free` does nothing then.
 *
 * What C has to keep to, and nothing checks:
 *   - a handle is BEZGLAMI_NOTHING or as an export left it;
 *   - from one call to the next a handle may go to another thread, where a lock, a thread's start or join, or a sequentially
 *     consistent atomic orders the two. Different handles may be used at once, in any threads;
 *   - `answer`, `line` and `why` point to their types, `bytes` to `room` bytes and `balances` to `room` numbers, that no other thread
 *     reads or writes meanwhile; `book` points to `length` bytes and `targets` to `count` targets that no other thread writes meanwhile; what one
 *     call is given doesn't overlap;
 *   - malloc, realloc and free are one allocator's, which aligns a block to each power of two up to 16 that divides its
 *     size; from a signal handler no export is called that takes or frees memory (open, caller, close, return, free), and in the child of a
 *     fork of a process with threads none at all;
 *   - no call is left before it ends, by longjmp out of a signal handler or by pthread_cancel. Where one is, its handle stays in the
 *     call for good: its process is stopped there, all others go on, and a ledger of which a caller is so lost can't be closed.
 *
 * Costs: `bezglami_read`, `bezglami_transfer` and `bezglami_pay` take no memory, and no more steps than a bound that the book
 * alone sets, and seven for each payment of another process that they count for the first time. Each answer tells its steps. `bezglami_balances` takes
 * no memory, at most the steps of a read, and a write for each account. `bezglami_open`, `bezglami_caller` and `bezglami_close` take memory, in proportion to
 * the book, the calls that a caller has room for, and the calls that were made; `bezglami_report` copies. All others are constant,
 * but that `bezglami_free` and `bezglami_return` free the board with the last that shares it. 80 KiB of stack are enough for each. */
#ifndef BEZGLAMI_H
#define BEZGLAMI_H

#include <stdint.h>
#include <stddef.h>

#ifdef __cplusplus
extern "C" {
#endif

/* The version of this header. `bezglami_version` answers that of the library. */
#define BEZGLAMI_VERSION 5

uint32_t bezglami_version(void);

typedef struct bezglami_handle {
    void *at;
    uint32_t in_call; /* 1 while a call has the handle */
} bezglami_handle;

/* Initializes a handle; nothing else is assigned to one. Static memory, which is zero, holds nothing too. */
#define BEZGLAMI_NOTHING { NULL, 0 }

/* What came of an export. Where it isn't BEZGLAMI_DONE, nothing has changed that an export shows, but for what `bezglami_close` says.
 * `line` and `why` are those of the first fault of a bad book, and are to be read after BEZGLAMI_BAD_BOOK alone. */
enum bezglami_outcome {
    BEZGLAMI_DONE = 0,
    BEZGLAMI_WRONG_HANDLE = 1, /* the handle holds no ledger, or no caller, as the export wants one */
    BEZGLAMI_IN_USE = 2,       /* the handle that is to be filled holds something */
    BEZGLAMI_NO_MEMORY = 3,
    BEZGLAMI_BAD_BOOK = 4,     /* the bytes spell no book: `line` is that of the first fault, from 1, and `why` its cause */
    BEZGLAMI_NO_CALLER = 5,    /* all callers of the ledger were handed out */
    BEZGLAMI_NO_ACCOUNT = 6,   /* the call names an account that isn't there */
    BEZGLAMI_NO_ROOM = 7,      /* the caller has made as many calls as it has room for; one that is refused takes a receipt too. Of
                                * `bezglami_balances`: the accounts are more */
    BEZGLAMI_NO_PAY_OUT = 8,   /* a pay-out has 1 to BEZGLAMI_TARGETS_MOST targets */
    BEZGLAMI_CALLERS_OUT = 9,  /* a caller of the ledger wasn't given back */
    BEZGLAMI_NO_PROCESS = 10,  /* the book has no process of this number */
    BEZGLAMI_NO_NOTE = 11,     /* no note of the process stands there for this caller: none was left, or it was taken in */
    BEZGLAMI_BUSY = 12,        /* another thread just reaches for the same note or caller: ask again. A thread that was stopped
                                * there keeps it busy; no transfer, pay-out or read ever is */
    BEZGLAMI_NULL = 13,        /* an address is null that has to be one */
    BEZGLAMI_IN_CALL = 14,     /* another call has the handle just now */
    BEZGLAMI_OTHER_PROCESSOR = 15 /* the processor lacks instructions of x86-64-v2, for which the library is compiled */
};

/* A few words on an outcome, in English. */
static inline const char *bezglami_outcome_text(uint32_t outcome) {
    switch (outcome) {
    case BEZGLAMI_DONE: return "done";
    case BEZGLAMI_WRONG_HANDLE: return "wrong handle";
    case BEZGLAMI_IN_USE: return "handle in use";
    case BEZGLAMI_NO_MEMORY: return "no memory";
    case BEZGLAMI_BAD_BOOK: return "bad book";
    case BEZGLAMI_NO_CALLER: return "no caller left";
    case BEZGLAMI_NO_ACCOUNT: return "no such account";
    case BEZGLAMI_NO_ROOM: return "no room";
    case BEZGLAMI_NO_PAY_OUT: return "no pay-out";
    case BEZGLAMI_CALLERS_OUT: return "a caller is out";
    case BEZGLAMI_NO_PROCESS: return "no such process";
    case BEZGLAMI_NO_NOTE: return "no note";
    case BEZGLAMI_BUSY: return "busy";
    case BEZGLAMI_NULL: return "null address";
    case BEZGLAMI_IN_CALL: return "handle in a call";
    case BEZGLAMI_OTHER_PROCESSOR: return "other processor";
    default: return "unknown outcome";
    }
}

/* Why bytes spell no book: the cause of their first fault. */
enum bezglami_why {
    BEZGLAMI_WHY_VERSION = 1,             /* the second field of the first record is neither 1 nor 2 */
    BEZGLAMI_WHY_SHAPE = 2,               /* a record isn't there, has another number of fields, or begins with another word */
    BEZGLAMI_WHY_NUMBER = 3,              /* a field that has to be a number is none */
    BEZGLAMI_WHY_ACCOUNT_ORDER = 4,       /* the account's number isn't the next one */
    BEZGLAMI_WHY_NAME = 5,                /* the bytes are no name */
    BEZGLAMI_WHY_NAME_TWICE = 6,          /* a process or an account before it has this name */
    BEZGLAMI_WHY_UNKNOWN_OWNER = 7,       /* no process has this name */
    BEZGLAMI_WHY_NO_PROCESS = 8,          /* the book has no process; the others below are limits of a book too */
    BEZGLAMI_WHY_TOO_MANY_PROCESSES = 9,
    BEZGLAMI_WHY_NO_ACCOUNT = 10,
    BEZGLAMI_WHY_TOO_MANY_ACCOUNTS = 11,
    BEZGLAMI_WHY_OWNER_OUT_OF_RANGE = 12,
    BEZGLAMI_WHY_OWNERS_NOT_RISING = 13,
    BEZGLAMI_WHY_TOO_MANY_OWNERS = 14,
    BEZGLAMI_WHY_ROOM_OUT_OF_RANGE = 15,
    BEZGLAMI_WHY_ROUNDS_OVER_LIMIT = 16,
    BEZGLAMI_WHY_TOTAL_OVER_LIMIT = 17
};

/* A few words on the cause, in English. */
static inline const char *bezglami_why_text(uint32_t why) {
    switch (why) {
    case BEZGLAMI_WHY_VERSION: return "version";
    case BEZGLAMI_WHY_SHAPE: return "shape";
    case BEZGLAMI_WHY_NUMBER: return "number";
    case BEZGLAMI_WHY_ACCOUNT_ORDER: return "account order";
    case BEZGLAMI_WHY_NAME: return "name";
    case BEZGLAMI_WHY_NAME_TWICE: return "name twice";
    case BEZGLAMI_WHY_UNKNOWN_OWNER: return "unknown owner";
    case BEZGLAMI_WHY_NO_PROCESS: return "no process";
    case BEZGLAMI_WHY_TOO_MANY_PROCESSES: return "too many processes";
    case BEZGLAMI_WHY_NO_ACCOUNT: return "no account";
    case BEZGLAMI_WHY_TOO_MANY_ACCOUNTS: return "too many accounts";
    case BEZGLAMI_WHY_OWNER_OUT_OF_RANGE: return "owner out of range";
    case BEZGLAMI_WHY_OWNERS_NOT_RISING: return "owners not rising";
    case BEZGLAMI_WHY_TOO_MANY_OWNERS: return "too many owners";
    case BEZGLAMI_WHY_ROOM_OUT_OF_RANGE: return "room out of range";
    case BEZGLAMI_WHY_ROUNDS_OVER_LIMIT: return "rounds over limit";
    case BEZGLAMI_WHY_TOTAL_OVER_LIMIT: return "total over limit";
    default: return "unknown cause";
    }
}

/* What the ledger replies to a call. */
enum bezglami_reply {
    BEZGLAMI_REPLY_DONE = 0,      /* the amounts were moved */
    BEZGLAMI_REPLY_SHORT = 1,     /* the balance doesn't cover them */
    BEZGLAMI_REPLY_NOT_OWNER = 2, /* the process doesn't own the account */
    BEZGLAMI_REPLY_FULL = 3,      /* the process has used up its room at the account, which the book sets */
    BEZGLAMI_REPLY_BALANCE = 4    /* to a read */
};

/* A few words on a reply, as the report has them but for a balance. */
static inline const char *bezglami_reply_text(uint32_t reply) {
    switch (reply) {
    case BEZGLAMI_REPLY_DONE: return "done";
    case BEZGLAMI_REPLY_SHORT: return "short";
    case BEZGLAMI_REPLY_NOT_OWNER: return "not-owner";
    case BEZGLAMI_REPLY_FULL: return "full";
    case BEZGLAMI_REPLY_BALANCE: return "balance";
    default: return "unknown reply";
    }
}

/* What a call answered: its reply, the balance that a read found and else 0, and the steps of this call, of which so many
 * were exchanges. */
typedef struct bezglami_answer {
    uint32_t reply;
    uint64_t balance;
    uint64_t steps;
    uint64_t exchanges;
} bezglami_answer;

/* An account that a pay-out pays, and the amount for it. */
typedef struct bezglami_target {
    uint32_t account;
    uint64_t amount;
} bezglami_target;

/* The limits of a book, of a call and of a caller. */
#define BEZGLAMI_PROCESSES_MOST 16
#define BEZGLAMI_ACCOUNTS_MOST 1024
#define BEZGLAMI_OWNERS_MOST 8          /* of one account */
#define BEZGLAMI_OWN_ROOM_MOST 4096     /* payments of a process from accounts of its own, for the life of a ledger */
#define BEZGLAMI_REQUEST_ROOM_MOST 1024 /* payments of a process from one shared account, likewise */
#define BEZGLAMI_ROUNDS_MOST 8192       /* the shared accounts' owners, all together, times the request room */
#define BEZGLAMI_TARGETS_MOST 4         /* of a pay-out */
#define BEZGLAMI_VERIFY_CALLS_MOST 16384 /* of a process in a report that `verify` takes */

/* Fills `ledger`, which holds nothing, with a ledger for the book that the bytes spell, a CSV file as the programs read it; `length`
 * is without a terminating 0. Other outcomes: BEZGLAMI_OTHER_PROCESSOR, BEZGLAMI_IN_USE, BEZGLAMI_BAD_BOOK, BEZGLAMI_NO_MEMORY. */
uint32_t bezglami_open(const uint8_t *book, size_t length, bezglami_handle *ledger, uint32_t *line, uint32_t *why);

/* Fills `caller`, which holds nothing, with the caller of the next process of the ledger: the first is that of process 0.
 * It has memory for so many receipts, one for each call. It is used in any thread, also after `ledger` was freed. */
uint32_t bezglami_caller(bezglami_handle *ledger, uint32_t calls, bezglami_handle *caller);

/* Moves the amount from one account to another. Accounts are numbers from 0 in the book's order, also where the book names them.
 * BEZGLAMI_DONE says that the call was made; whether it moved the amount, `answer.reply` tells. Other outcomes of the three calls:
 * BEZGLAMI_WRONG_HANDLE, then BEZGLAMI_NO_ACCOUNT, then BEZGLAMI_NO_ROOM. */
uint32_t bezglami_transfer(bezglami_handle *caller, uint32_t from, uint32_t to, uint64_t amount, bezglami_answer *answer);

/* Moves each amount from one account to its target, or none of them. An account may stand among the targets twice. Where
 * `count` is 0 or more than BEZGLAMI_TARGETS_MOST, the answer is BEZGLAMI_NO_PAY_OUT. */
uint32_t bezglami_pay(bezglami_handle *caller, uint32_t from, const bezglami_target *targets, size_t count,
    bezglami_answer *answer);

/* Tells the balance of an account. */
uint32_t bezglami_read(bezglami_handle *caller, uint32_t account, bezglami_answer *answer);

/* How many accounts the book has, and 0 of a handle that holds neither a ledger nor a caller. */
uint32_t bezglami_accounts(bezglami_handle *handle);

/* Writes the balance of each account into the first of `room` numbers, in the book's order. All are those at one point, so they sum to what
 * the book opens with, whatever other callers do meanwhile; those of single reads, one after another, needn't. It is no call: it takes no
 * receipt, and the report doesn't have it. It makes at most the steps of a read. Other outcomes: BEZGLAMI_WRONG_HANDLE, and BEZGLAMI_NO_ROOM where
 * the accounts are more; then nothing is written. */
uint32_t bezglami_balances(bezglami_handle *caller, uint64_t *balances, size_t room);

/* How many steps all calls, looks at balances and notes of the caller have made, and how many of them were exchanges. 0 of a handle that holds no
 * caller. */
uint64_t bezglami_steps(bezglami_handle *caller);
uint64_t bezglami_exchanges(bezglami_handle *caller);

/* Leaves a note of all that the caller has seen, for the caller of a process, in place of one that it left there before.
 * It counts as one step and one exchange of the caller. Other outcomes: BEZGLAMI_NO_PROCESS, BEZGLAMI_BUSY. */
uint32_t bezglami_note(bezglami_handle *caller, uint32_t process);

/* Takes in the note that the caller of a process has left for this one: in the report its later calls stand after all that the note
 * has seen, but that a later one which is answered not-owner or full may stand before. A note is taken in once. It counts as one step and one exchange. Other outcomes: BEZGLAMI_NO_PROCESS,
 * BEZGLAMI_NO_NOTE, BEZGLAMI_BUSY. */
uint32_t bezglami_learn(bezglami_handle *caller, uint32_t process);

/* Gives the caller back to its ledger, with the receipts of its calls. Its handle is left with nothing. Other outcomes:
 * BEZGLAMI_WRONG_HANDLE, and BEZGLAMI_BUSY where a thread that closes the ledger just looks whether it is back, which none does
 * where all threads are joined before. Where the ledger's handle was freed, the receipts are lost. */
uint32_t bezglami_return(bezglami_handle *caller);

/* Closes the ledger and makes its report: all calls in one legal order, the last balances and the total, as the program's `run`
 * prints it. All callers that were handed out have to be back, so join the threads first: to ask again and again may never end. From then on the handle holds the report, with the receipts and
 * records that it is of, until it is freed; to close it again is BEZGLAMI_DONE. BEZGLAMI_CALLERS_OUT where a caller isn't back, is
 * just on its way, or was freed: a ledger of which a caller is lost can't be closed. BEZGLAMI_NO_MEMORY loses nothing: the handle
 * keeps the ledger with all receipts and may be closed again, but `bezglami_caller` is BEZGLAMI_WRONG_HANDLE from then on. */
uint32_t bezglami_close(bezglami_handle *ledger);

/* How many bytes the report has that the handle holds, and 0 where it holds none. Where `bytes` has room for so many, they are
 * written there, and no 0 behind them; where it hasn't, nothing is. To ask for the length alone give NULL and 0. */
size_t bezglami_report(bezglami_handle *ledger, uint8_t *bytes, size_t room);

/* Frees what the handle holds, whatever it is, and leaves it with nothing. The board of a ledger goes with the last of its
 * ledger and callers. */
void bezglami_free(bezglami_handle *handle);

#ifdef __cplusplus
}
#endif

#endif
