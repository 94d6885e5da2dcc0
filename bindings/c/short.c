#include "bezglami.h"

#include <stdio.h>

int main(void) {
    static const char book[] = "book,2\nprocesses,ann,bob\nlimits,9,9\naccount,joint,300,ann bob\naccount,shop,0,\n";
    bezglami_handle ledger = BEZGLAMI_NOTHING, ann = BEZGLAMI_NOTHING, bob = BEZGLAMI_NOTHING;
    bezglami_answer answer;
    uint8_t report[512];
    uint32_t line, why;
    if (bezglami_open((const uint8_t *)book, sizeof book - 1, &ledger, &line, &why) != BEZGLAMI_DONE)
        return 1;
    if (bezglami_caller(&ledger, 9, &ann) != BEZGLAMI_DONE || bezglami_caller(&ledger, 9, &bob) != BEZGLAMI_DONE)
        return 2;
    if (bezglami_transfer(&ann, 0, 1, 200, &answer) != BEZGLAMI_DONE || answer.reply != BEZGLAMI_REPLY_DONE)
        return 3;
    if (bezglami_read(&bob, 1, &answer) != BEZGLAMI_DONE)
        return 4;
    fprintf(stderr, "the shop has %llu\n", (unsigned long long)answer.balance);
    if (bezglami_return(&ann) != BEZGLAMI_DONE || bezglami_return(&bob) != BEZGLAMI_DONE)
        return 5;
    if (bezglami_close(&ledger) != BEZGLAMI_DONE || bezglami_report(&ledger, report, sizeof report) > sizeof report)
        return 6;
    fwrite(report, 1, bezglami_report(&ledger, report, sizeof report), stdout);
    bezglami_free(&ledger);
    return 0;
}
