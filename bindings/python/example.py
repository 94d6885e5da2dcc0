import sys
from concurrent.futures import ThreadPoolExecutor

import bezglami

book = b"book,2\nprocesses,ann,bob\nlimits,9,9\naccount,joint,300,ann bob\naccount,shop,0,\n"


def pay(caller):
    with caller:
        receipt = caller.transfer(0, 1, 200)
        return caller.process, receipt.reply.name


with bezglami.Ledger(book) as ledger:
    with ThreadPoolExecutor() as threads:
        for process, reply in threads.map(pay, ledger.callers(calls=9)):
            print(process, "was answered", reply, file=sys.stderr)
    print(ledger.close(), end="")
