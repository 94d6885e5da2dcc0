"""Each kind of call, each error, notes, closing, and threads: `python3 -m unittest` in this folder."""

import gc
import os
import resource
import signal
import sys
import unittest
from concurrent.futures import ThreadPoolExecutor
from contextlib import suppress
from unittest import mock
from unittest.mock import DEFAULT

import bezglami
from bezglami import (
    TARGETS_MOST, BadBook, Busy, CallersOut, Error, Forked, InCall, Ledger, NoAccount, NoCaller, NoMemory, NoNote, NoPayOut, NoProcess, NoRoom,
    OtherProcessor, OtherVersion, Reply, Why,
)

BOOK = b"book,1\nprocesses,3\nlimits,100,20\naccount,0,500,0\naccount,1,100,1\naccount,2,300,0 1\naccount,3,0,\n"


BAD_BOOKS = [
    (1, "version", "book,3\n"),
    (1, "shape", ""),
    (2, "number", "book,1\nprocesses,x\n"),
    (2, "no process", "book,1\nprocesses,0\n"),
    (2, "too many processes", "book,1\nprocesses,17\n"),
    (2, "name", "book,2\nprocesses,Ann\n"),
    (2, "name twice", "book,2\nprocesses,ann,ann\n"),
    (3, "room out of range", "book,1\nprocesses,9\nlimits,0,4\n"),
    (4, "no account", "book,1\nprocesses,9\nlimits,4,1024\n"),
    (4, "account order", "book,1\nprocesses,9\nlimits,4,1024\naccount,1,0,\n"),
    (4, "owner out of range", "book,1\nprocesses,9\nlimits,4,1024\naccount,0,0,9\n"),
    (4, "owners not rising", "book,1\nprocesses,9\nlimits,4,1024\naccount,0,0,1 0\n"),
    (4, "too many owners", "book,1\nprocesses,9\nlimits,4,1\naccount,0,0,0 1 2 3 4 5 6 7 8\n"),
    (4, "unknown owner", "book,2\nprocesses,ann\nlimits,4,4\naccount,joint,9,ann bob\n"),
    (5, "rounds over limit", "book,1\nprocesses,8\nlimits,4,1024\naccount,0,0,0 1 2 3 4 5 6 7\naccount,1,0,0 1\n"),
    (5, "total over limit", "book,1\nprocesses,1\nlimits,4,4\naccount,0,18446744073709551615,\naccount,1,1,\n"),
    (1028, "too many accounts", "book,1\nprocesses,1\nlimits,4,4\n" + "".join(f"account,{i},1,\n" for i in range(1025))),
]


def three():
    ledger = Ledger(BOOK)
    callers = ledger.callers(200)
    return ledger, callers


class Calls(unittest.TestCase):
    def test_replies(self):
        _, (ann, bob, carl) = three()
        self.assertEqual([ann.process, bob.process, carl.process], [0, 1, 2])
        self.assertIs(ann.transfer(0, 1, 200).reply, Reply.DONE)
        self.assertEqual(bob.read(0)[:2], (Reply.BALANCE, 300))
        self.assertEqual(ann.transfer(0, 1, 301)[:2], (Reply.SHORT, None))
        self.assertIs(ann.transfer(1, 0, 1).reply, Reply.NOT_OWNER)
        self.assertEqual(bob.transfer(2, 3, 100).exchanges, 1)
        short = ann.transfer(2, 3, 2**64 - 1)
        self.assertEqual((short.reply, short.exchanges), (Reply.SHORT, 1))
        paid = bob.pay(2, [(3, 60), (1, 40)])
        self.assertEqual((paid.reply, paid.exchanges), (Reply.DONE, 1))
        self.assertIs(bob.pay(2, [(3, 2**64 - 1)] * 4).reply, Reply.SHORT)
        self.assertEqual([carl.read(account).balance for account in (2, 3, 1)], [100, 160, 340])
        self.assertEqual(carl.balances(), [300, 340, 100, 160])
        for _ in range(99):
            ann.transfer(0, 0, 0)
        self.assertEqual(ann.transfer(0, 0, 0), (Reply.FULL, None, 0, 0))

    def test_large_amounts(self):
        ledger = Ledger(b"book,1\nprocesses,1\nlimits,9,9\naccount,0,18446744073709551615,0\naccount,1,0,\n")
        caller = ledger.caller(9)
        self.assertIs(caller.transfer(0, 1, 2**63 + 5).reply, Reply.DONE)
        self.assertEqual(caller.read(1).balance, 2**63 + 5)
        self.assertIs(caller.pay(0, [(1, 2**40)] * TARGETS_MOST).reply, Reply.DONE)
        self.assertRaises(NoPayOut, caller.pay, 0, [(1, 2**40)] * (TARGETS_MOST + 1))
        self.assertEqual(caller.read(0).balance, 2**63 - 6 - 2**42)

    def test_a_large_room(self):
        with Ledger(BOOK) as ledger, ledger.caller(65537) as ann:
            self.assertEqual({ann.read(0).balance for _ in range(65537)}, {500})
            self.assertRaises(NoRoom, ann.read, 0)

    def test_steps(self):
        _, (ann, _, carl) = three()
        steps = sum(carl.read(account).steps for account in range(4))
        self.assertEqual((carl.steps(), carl.exchanges(), ann.steps()), (steps, 0, 0))

    def test_bad_books(self):
        self.assertEqual({why for _, why, _ in BAD_BOOKS}, set(map(str, Why)))
        for line, why, book in BAD_BOOKS:
            with self.subTest(why), self.assertRaises(BadBook) as raised:
                Ledger(book.encode())
            self.assertEqual((raised.exception.line, str(raised.exception.why)), (line, why))
            self.assertEqual(str(raised.exception), f"no book: the first fault is in line {line}: {why}")

    def test_notes(self):
        ledger, (ann, bob, carl) = three()
        for process in [3, 2**32 - 1, 2**32, -1]:
            self.assertRaises(NoProcess, ann.note, process)
            self.assertRaises(NoProcess, ann.learn, process)
        self.assertRaises(NoNote, bob.learn, 0)
        self.assertEqual((bob.steps(), bob.exchanges()), (0, 0))
        ann.note(1)
        ann.note(1)
        self.assertEqual((ann.steps(), ann.exchanges()), (2, 2))
        self.assertRaises(NoNote, carl.learn, 0)
        ann.give_back()
        bob.learn(0)
        self.assertEqual((bob.steps(), bob.exchanges()), (1, 1))
        self.assertRaises(NoNote, bob.learn, 0)

    def test_closing(self):
        ledger = Ledger(BOOK)
        with ledger.caller(9) as ann:
            ann.transfer(0, 3, 200)
            self.assertRaises(CallersOut, ledger.close)
            bob = ledger.caller(9)
            self.assertEqual(ann.read(0).balance, 300)
        self.assertRaises(CallersOut, ledger.close)
        del bob
        gc.collect()
        report = "journal 2\n0 1 transfer 0 3 200 done\n0 2 read 0 300\nbalances 4\n0 300\n1 100\n2 300\n3 200\ntotal 900\n"
        self.assertEqual(ledger.close(), report)
        self.assertEqual(ledger.close(), report)
        for use in [ann.steps, ann.exchanges]:
            self.assertRaises(ValueError, use)
        self.assertRaises(ValueError, ledger.caller, 9)
        self.assertRaises(ValueError, ann.read, 0)
        self.assertRaises(ValueError, ann.note, 1)
        self.assertRaises(ValueError, ann.learn, 1)
        ann.give_back()
        ledger.free()

    def test_no_memory_for_the_copy_of_a_report(self):
        with Ledger(BOOK) as ledger:
            with mock.patch("bezglami.ctypes.create_string_buffer", side_effect=MemoryError):
                self.assertRaises(MemoryError, ledger.close)
            self.assertRaises(NoCaller, ledger.caller, 9)
            self.assertTrue(ledger.close().startswith("journal 0\n"))

    def test_closing_meanwhile(self):
        def read(caller):
            with caller:
                caller.read(0)

        for _ in range(50):
            ledger, callers = three()
            with ThreadPoolExecutor(3) as threads:
                done = [threads.submit(read, caller) for caller in callers]
                report = None
                while report is None:
                    with suppress(CallersOut):
                        report = ledger.close()
            self.assertTrue(report.startswith("journal 3\n"))
            self.assertEqual([call.result() for call in done], [None] * 3)

    def test_two_ledgers(self):
        one, ones = three()
        other, others = three()
        for caller in ones:
            caller.give_back()
        self.assertRaises(CallersOut, other.close)
        self.assertTrue(one.close().startswith("journal 0\n"))
        others[0].read(0)
        for caller in others:
            caller.give_back()
        self.assertTrue(other.close().startswith("journal 1\n"))

    def test_errors(self):
        ledger = Ledger(BOOK)
        ann = ledger.caller(1)
        for account in [4, 2**32 - 1, 2**32, -1]:
            self.assertRaises(NoAccount, ann.read, account)
            self.assertRaises(NoAccount, ann.transfer, 0, account, 1)
            self.assertRaises(NoAccount, ann.pay, 0, [(account, 1)])
        for amount in [-1, 2**64]:
            self.assertRaises(ValueError, ann.transfer, 0, 1, amount)
        self.assertRaises(NoPayOut, ann.pay, 0, [])
        self.assertRaises(NoPayOut, ann.pay, 0, [(3, 1)] * 5)
        self.assertEqual(ann.read(0).balance, 500)
        self.assertRaises(NoRoom, ann.read, 0)
        self.assertEqual(len(ledger.callers(1)), 2)
        self.assertRaises(NoCaller, ledger.caller, 1)
        self.assertTrue(issubclass(NoCaller, Error))
        with mock.patch("bezglami._VERSION", 2):
            self.assertRaises(OtherVersion, Ledger, BOOK)

    def test_errors_of_outcomes(self):
        """The error of each outcome, by its number in the header."""
        ledger = Ledger(BOOK)
        ann = ledger.caller(9)
        kinds = {3: NoMemory, 5: NoCaller, 6: NoAccount, 7: NoRoom, 8: NoPayOut, 9: CallersOut, 10: NoProcess, 11: NoNote, 12: Busy, 14: InCall,
                 15: OtherProcessor}
        for outcome, kind in kinds.items():
            for export, use in [("read", ann.read), ("note", ann.note), ("learn", ann.learn), ("caller", ledger.caller)]:
                with mock.patch.object(bezglami._library, "bezglami_" + export, return_value=outcome):
                    self.assertRaises(kind, use, 1)

    def test_words_of_errors(self):
        ledger = Ledger(BOOK)
        ann = ledger.caller(0)
        for call, words in [
            (lambda: ann.transfer(0, 7, 1), "process 0, with room for 0 calls, transfer from account 0 to account 7: "),
            (lambda: ann.pay(2, [(3, 1), (9, 2)]), "process 0, with room for 0 calls, pay-out from account 2 to 2 targets: 3, 9: "),
            (lambda: ann.read(0), "process 0, with room for 0 calls, read of account 0: "),
            (lambda: ann.note(3), "note of process 0 for process 3: "),
            (lambda: ann.learn(1), "note of process 1 for process 0: "),
            (ledger.close, "closing, with 1 callers handed out: "),
        ]:
            with self.assertRaises(Error) as raised:
                call()
            self.assertEqual(str(raised.exception), words + type(raised.exception).__doc__)
        for wrong in [lambda: ann.transfer(0, 1, 2**64), lambda: ann.pay(0, [(1, 2**64)])]:
            self.assertRaisesRegex(ValueError, "^an amount is 0 to 18446744073709551615, and not 18446744073709551616$", wrong)

    def test_a_signal_in_a_call(self):
        ledger = Ledger(BOOK)
        ann, bob, _ = ledger.callers(9)
        told = []

        def handle(number, frame):
            self.assertRaises(InCall, ann.steps)
            self.assertRaises(InCall, ann.give_back)
            told.append(bob.read(0).balance)

        def interrupted(*words):
            if not told:
                told.append("a signal")
                signal.raise_signal(signal.SIGUSR1)
            return read(*words)

        read = bezglami._library.bezglami_read
        before = signal.signal(signal.SIGUSR1, handle)
        try:
            with mock.patch.object(bezglami._library, "bezglami_read", interrupted):
                self.assertEqual(ann.read(0).balance, 500)
        finally:
            signal.signal(signal.SIGUSR1, before)
        self.assertEqual(told, ["a signal", 500])
        self.assertEqual(ann.read(0).balance, 500)

    def test_an_interrupt_after_an_export(self):
        def interrupted(*words):
            hand_out(*words)
            raise KeyboardInterrupt

        hand_out = bezglami._library.bezglami_caller
        ledger = Ledger(BOOK)
        with mock.patch.object(bezglami._library, "bezglami_caller", interrupted):
            self.assertRaises(KeyboardInterrupt, ledger.caller, 9)
        gc.collect()
        with ledger.caller(9) as bob:
            self.assertEqual(bob.process, 1)
            bob.transfer(1, 3, 1)
        self.assertTrue(ledger.close().startswith("journal 1\n1 1 transfer 1 3 1 done\n"))

    def test_a_child_of_a_fork(self):
        ledger = Ledger(BOOK)
        ann = ledger.caller(9)
        child = os.fork()
        if child == 0:
            told = 0
            for use in [lambda: ann.transfer(0, 1, 1), ann.steps, ann.give_back, ledger.close, lambda: ledger.caller(1)]:
                with suppress(Forked):
                    use()
                    told = 1
            os._exit(told)
        self.assertEqual(os.waitstatus_to_exitcode(os.waitpid(child, 0)[1]), 0)
        ann.transfer(0, 1, 1)
        ann.give_back()
        self.assertTrue(ledger.close().startswith("journal 1\n"))

    def test_a_caller_that_is_looked_for(self):
        """While a thread that closes the ledger just looks for a caller, letting go of it ends all the same, and it comes back later."""
        ledger, callers = three()
        callers[0].read(0)
        with mock.patch.object(bezglami._library, "bezglami_return", return_value=12) as busy:
            for caller in callers:
                caller.give_back()
            self.assertEqual(len(bezglami._aside), 3)
            self.assertRaises(CallersOut, ledger.close)
            self.assertEqual(len(bezglami._aside), 3)
            self.assertLess(busy.call_count, 12)
        self.assertRaises(ValueError, callers[0].read, 0)
        self.assertTrue(ledger.close().startswith("journal 1\n"))
        self.assertEqual(len(bezglami._aside), 0)

    def test_no_memory_for_a_caller(self):
        hand_out = bezglami._library.bezglami_caller
        ledger = Ledger(BOOK)
        with mock.patch.object(bezglami._library, "bezglami_caller", side_effect=[DEFAULT, 3, 3], wraps=hand_out):
            self.assertRaises(NoMemory, ledger.callers, 8)
            self.assertEqual(ledger.caller(9).room, 8)
            self.assertRaises(NoMemory, ledger.callers, 8)
        self.assertEqual([(caller.process, caller.room) for caller in ledger.callers(9)], [(1, 9), (2, 9)])
        self.assertEqual(ledger.callers(9), [])
        self.assertTrue(ledger.close().startswith("journal 0\n"))

    def test_what_is_freed_early(self):
        with Ledger(BOOK) as ledger:
            ann = ledger.caller(9)
        self.assertRaises(ValueError, ledger.caller, 9)
        self.assertEqual(ann.read(0).balance, 500)
        ann.give_back()
        ledger.free()
        del ledger, ann
        gc.collect()

    def test_one_caller_of_many_threads(self):
        """Threads that use one caller do so one after another."""
        ledger = Ledger(BOOK)
        before = sys.getswitchinterval()
        sys.setswitchinterval(1e-6)
        try:
            with ledger.caller(2000) as ann, ThreadPoolExecutor(8) as threads:
                found = list(threads.map(lambda _: [ann.read(0).balance for _ in range(250)], range(8)))
        finally:
            sys.setswitchinterval(before)
        self.assertEqual(found, [[500] * 250] * 8)
        self.assertTrue(ledger.close().startswith("journal 2000\n"))

    def test_what_is_collected(self):
        """What is let go of is freed: of 60 ledgers of 4 MiB and more the memory of a few is enough."""
        book = b"book,1\nprocesses,16\nlimits,4096,1\n" + b"".join(b"account,%d,5,%d\n" % (p, p) for p in range(16))
        for time in range(65):
            ledger = Ledger(book)
            for caller in ledger.callers(4096):
                caller.transfer(caller.process, 0, 1)
            del caller
            if time % 2 == 0:
                ledger.close()
            if time == 4:
                most = resource.getrusage(resource.RUSAGE_SELF).ru_maxrss
        self.assertLess(resource.getrusage(resource.RUSAGE_SELF).ru_maxrss, most + 60 * 1024)

    def test_threads(self):
        book = b"book,1\nprocesses,16\nlimits,4096,1000\naccount,0,10000,0 1 2 3 4 5 6 7\n"
        for process in range(16):
            book += b"account,%d,10000,%d\n" % (process + 1, process)
        ledger = Ledger(book)

        def work(caller):
            with caller:
                for i in range(500):
                    source = 0 if i % 4 == 0 else caller.process + 1
                    reply = caller.transfer(source, (caller.process + i) % 17, 1).reply
                    self.assertEqual(reply is Reply.NOT_OWNER, source == 0 and caller.process >= 8)
                    caller.read(i % 17)
                    with suppress(Busy):
                        caller.note((caller.process + 1) % 16)
                    with suppress(Busy, NoNote):
                        caller.learn((caller.process + 15) % 16)

        with ThreadPoolExecutor(16) as threads:
            list(threads.map(work, ledger.callers(1000)))
        report = ledger.close()
        self.assertTrue(report.startswith("journal 16000\n"))
        self.assertTrue(report.endswith("\ntotal 170000\n"))


if __name__ == "__main__":
    unittest.main()
