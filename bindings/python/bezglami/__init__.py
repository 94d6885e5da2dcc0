"""A payment ledger that no thread waits for, by the library for C.

A Ledger is opened with a book and hands out a Caller for each process. Threads make calls at once, each by a caller of its own; ctypes
lets go of the interpreter's lock meanwhile. Once all callers are given back, the ledger is closed, and its report has all calls in one
legal order. Accounts are numbers from 0 in the book's order, also where the book names them.

The library is libbezglami.so in the folder that BEZGLAMI_LIB names, and else beside this file, where a release has it.
It is proved; this module is a thin layer around it, and no proof speaks of it.
"""

from __future__ import annotations

import ctypes
import os
import threading
from collections import deque
from collections.abc import Callable, Sequence
from contextlib import suppress
from enum import Enum
from pathlib import Path
from types import TracebackType
from typing import ClassVar, NamedTuple, NoReturn, TypeVar

__all__ = [
    "TARGETS_MOST", "BadBook", "Busy", "Caller", "CallersOut", "Error", "Forked", "InCall", "Ledger", "NoAccount", "NoCaller", "NoMemory",
    "NoNote", "NoPayOut", "NoProcess", "NoRoom", "OtherProcessor", "OtherVersion", "Receipt", "Reply", "Why",
]

TARGETS_MOST = 4
"""The most targets that a pay-out has."""

_VERSION = 5
"""The version of the header that this module was written by."""


class Error(Exception):
    """Something wasn't done, and nothing has changed."""


class Why(Enum):
    """Why bytes spell no book: the cause of their first fault. As a `str` it has the words that docs/formats.md explains."""

    VERSION = 1
    SHAPE = 2
    NUMBER = 3
    ACCOUNT_ORDER = 4
    NAME = 5
    NAME_TWICE = 6
    UNKNOWN_OWNER = 7
    NO_PROCESS = 8
    TOO_MANY_PROCESSES = 9
    NO_ACCOUNT = 10
    TOO_MANY_ACCOUNTS = 11
    OWNER_OUT_OF_RANGE = 12
    OWNERS_NOT_RISING = 13
    TOO_MANY_OWNERS = 14
    ROOM_OUT_OF_RANGE = 15
    ROUNDS_OVER_LIMIT = 16
    TOTAL_OVER_LIMIT = 17

    def __str__(self) -> str:
        return self.name.lower().replace("_", " ")


class BadBook(Error):
    """The bytes spell no book. `line` is that of the first fault, and `why` its cause; lines are records, counted from 1."""

    def __init__(self, line: int, why: Why) -> None:
        super().__init__(f"no book: the first fault is in line {line}: {why}")
        self.line = line
        self.why = why


class NoMemory(Error):
    """There was no memory."""


class NoCaller(Error):
    """The caller of each process was handed out before."""


class NoAccount(Error):
    """The call names an account that isn't there."""


class NoRoom(Error):
    """The caller has no room for the receipt of one more call."""


class NoPayOut(Error):
    """A pay-out has from 1 to TARGETS_MOST targets."""


class CallersOut(Error):
    """A caller of the ledger wasn't given back."""


class NoProcess(Error):
    """The book has no process of this number."""


class NoNote(Error):
    """The process has left no note."""


class Busy(Error):
    """Another thread is just reaching for the same note. To ask again is all that it takes."""


class InCall(Error):
    """This thread is in a call of it already: a signal handler asks for it that came meanwhile."""


class Forked(Error):
    """It was made before this process was forked from its parent, so what stands here is a copy, and the parent's ledger would see nothing of it."""


class OtherVersion(Error):
    """The library is of another version than this module."""


class OtherProcessor(Error):
    """The processor lacks instructions of x86-64-v2, for which the library is compiled."""


class Reply(Enum):
    """The reply of a call."""

    DONE = 0
    SHORT = 1
    NOT_OWNER = 2
    FULL = 3
    BALANCE = 4


class Receipt(NamedTuple):
    """What a call was answered: the reply, the balance of a read and else None, its steps, and how many of them were exchanges."""

    reply: Reply
    balance: int | None
    steps: int
    exchanges: int


class _Handle(ctypes.Structure):
    _fields_ = [("at", ctypes.c_void_p), ("in_call", ctypes.c_uint32)]


class _Answer(ctypes.Structure):
    _fields_ = [("reply", ctypes.c_uint32), ("balance", ctypes.c_uint64), ("steps", ctypes.c_uint64), ("exchanges", ctypes.c_uint64)]


class _Target(ctypes.Structure):
    _fields_ = [("account", ctypes.c_uint32), ("amount", ctypes.c_uint64)]


def _library_file() -> Path:
    named = os.environ.get("BEZGLAMI_LIB")
    file = (Path(named) if named else Path(__file__).resolve().parent) / "libbezglami.so"
    if not file.is_file():
        raise ImportError(f"{file} isn't there: BEZGLAMI_LIB names the folder that has it")
    return file


def _load() -> ctypes.CDLL:
    library = ctypes.CDLL(str(_library_file()))
    handle, answer, number = ctypes.POINTER(_Handle), ctypes.POINTER(_Answer), ctypes.POINTER(ctypes.c_uint32)
    u32, u64, size = ctypes.c_uint32, ctypes.c_uint64, ctypes.c_size_t
    exports = {
        "version": (u32, []),
        "open": (u32, [ctypes.c_char_p, size, handle, number, number]),
        "caller": (u32, [handle, u32, handle]),
        "transfer": (u32, [handle, u32, u32, u64, answer]),
        "pay": (u32, [handle, u32, ctypes.POINTER(_Target), size, answer]),
        "read": (u32, [handle, u32, answer]),
        "accounts": (u32, [handle]),
        "balances": (u32, [handle, ctypes.POINTER(u64), size]),
        "steps": (u64, [handle]),
        "exchanges": (u64, [handle]),
        "note": (u32, [handle, u32]),
        "learn": (u32, [handle, u32]),
        "return": (u32, [handle]),
        "close": (u32, [handle]),
        "report": (size, [handle, ctypes.c_char_p, size]),
        "free": (None, [handle]),
    }
    for name, (answers, takes) in exports.items():
        # A library of another version may lack it. That is told where a ledger is opened.
        export = getattr(library, "bezglami_" + name, None)
        if export is not None:
            export.restype, export.argtypes = answers, takes
    return library


_library = _load()
_wrong_handle, _bad_book, _no_caller, _busy = 1, 4, 5, 12
_errors: dict[int, type[Error]] = {
    3: NoMemory, _no_caller: NoCaller, 6: NoAccount, 7: NoRoom, 8: NoPayOut, 9: CallersOut, 10: NoProcess, 11: NoNote, _busy: Busy,
    14: InCall, 15: OtherProcessor,
}


def _refuse(outcome: int, asked: str) -> NoReturn:
    refusal = _errors.get(outcome)
    if refusal is None:
        raise RuntimeError(f"the library answered {outcome}, which no use of this module leads to")
    raise refusal(f"{asked}: {refusal.__doc__}")


def _fitting(what: str, value: int, bits: int) -> int:
    """The value, which has to fit so many bits: ctypes would cut it."""
    if not 0 <= value < 1 << bits:
        raise ValueError(f"{what} is 0 to {(1 << bits) - 1}, and not {value}")
    return value


_aside: deque[_Handle] = deque()
"""Callers that were let go of while a thread that closes their ledger just looked for them. The next that is let go of takes them along."""

os.register_at_fork(after_in_child=_aside.clear)


def _give_back_aside() -> None:
    for _ in range(len(_aside)):
        try:
            handle = _aside.popleft()
        except IndexError:
            return
        if _library.bezglami_return(handle) == _busy:
            _aside.append(handle)


_Answered = TypeVar("_Answered")


class _Holder:
    """The one place that holds what the library made. A lock has one thread at a time use it."""

    _end: ClassVar[str]
    """The export that lets go of what is held, and does nothing where nothing is."""

    def __init__(self) -> None:
        self._handle = _Handle()
        self._lock = threading.RLock()
        self._in_call = False
        self._made_in = os.getpid()

    def _alone(self, work: Callable[[], _Answered]) -> _Answered:
        """Does this while no other thread uses what is held, and nothing else of this thread."""
        if os.getpid() != self._made_in:
            raise Forked(Forked.__doc__)
        # The lock lets its own thread in again. What an interrupt may come between is undone by no call that can be interrupted itself.
        with self._lock:
            if self._in_call:
                raise InCall(InCall.__doc__)
            try:
                self._in_call = True
                return work()
            finally:
                self._in_call = False

    def _held(self) -> _Handle:
        if not self._handle.at:
            raise ValueError("it was let go of")
        return self._handle

    def _ask(self, asked: str, name: str, *words: object) -> None:
        """Calls an export with what is held, and raises what its outcome is, if it isn't done."""
        export = getattr(_library, "bezglami_" + name)
        outcome = self._alone(lambda: export(self._held(), *words))
        if outcome != 0:
            _refuse(outcome, asked)

    def _let_go(self) -> None:
        _give_back_aside()
        if getattr(_library, self._end)(self._handle) == _busy:
            handle, self._handle = self._handle, _Handle()
            _aside.append(handle)

    def __del__(self) -> None:
        # What a child of a fork has is a copy, and its board may be half written.
        if "_made_in" in self.__dict__ and _library is not None and os.getpid() == self._made_in:
            self._let_go()

    def __exit__(self, kind: type[BaseException] | None, error: BaseException | None, trace: TracebackType | None) -> None:
        self._alone(self._let_go)


class Caller(_Holder):
    """Makes the calls of one process. A call takes no memory of the library's and waits for no other caller.

    It is given back to its ledger at the end of a `with`, by `give_back`, and else when it is collected.
    """

    _end = "bezglami_return"

    def __init__(self, process: int, room: int) -> None:
        super().__init__()
        self.process = process
        """The number of its process, from 0 in the book's order."""
        self.room = room
        """How many calls it has room for."""

    def __enter__(self) -> Caller:
        return self

    def give_back(self) -> None:
        """Gives it back to its ledger now, with the receipts of its calls. Nothing is done where it was given back before."""
        self._alone(self._let_go)

    def _call(self, asked: str, name: str, *words: object) -> Receipt:
        answer = _Answer()
        self._ask(f"process {self.process}, with room for {self.room} calls, {asked}", name, *words, answer)
        reply = Reply(answer.reply)
        return Receipt(reply, answer.balance if reply is Reply.BALANCE else None, answer.steps, answer.exchanges)

    def transfer(self, source: int, target: int, amount: int) -> Receipt:
        """Moves the amount from one account to another. Raises NoAccount and NoRoom."""
        asked = f"transfer from account {source} to account {target}"
        return self._call(asked, "transfer", _number(source), _number(target), _fitting("an amount", amount, 64))

    def pay(self, source: int, targets: Sequence[tuple[int, int]]) -> Receipt:
        """Moves each amount to its account, or none of them: `targets` has pairs of an account and an amount.

        Raises NoAccount, NoRoom and NoPayOut.
        """
        pairs = (_Target * len(targets))(*(_Target(_number(account), _fitting("an amount", amount, 64)) for account, amount in targets))
        accounts = ", ".join(str(account) for account, _ in targets[: TARGETS_MOST + 1])
        return self._call(f"pay-out from account {source} to {len(targets)} targets: {accounts}", "pay", _number(source), pairs, len(targets))

    def read(self, account: int) -> Receipt:
        """Tells the balance of an account. Raises NoAccount and NoRoom."""
        return self._call(f"read of account {account}", "read", _number(account))

    def balances(self) -> list[int]:
        """Tells the balance of each account, in the book's order.

        All are those at one point, so they sum to what the book opens with, whatever other callers do meanwhile. It is no call: it takes no
        receipt, and the report doesn't have it.
        """
        balances = (ctypes.c_uint64 * self._alone(lambda: _library.bezglami_accounts(self._held())))()
        self._ask(f"balances for process {self.process}", "balances", balances, len(balances))
        return list(balances)

    def note(self, process: int) -> None:
        """Leaves a note of all that the caller has seen, for the caller of another process, in place of one that it left there before.

        It counts as one step and one exchange. Raises NoProcess and Busy.
        """
        self._ask(f"note of process {self.process} for process {process}", "note", _number(process))

    def learn(self, process: int) -> None:
        """Takes in the note that the caller of another process has left for this one.

        The caller's later calls come after all that the note has seen. A note is taken in once. It counts as one step and one exchange.
        Raises NoProcess, NoNote and Busy.
        """
        self._ask(f"note of process {process} for process {self.process}", "learn", _number(process))

    def steps(self) -> int:
        """How many steps all its calls, looks at balances and notes have made."""
        return self._alone(lambda: _library.bezglami_steps(self._held()))

    def exchanges(self) -> int:
        """How many of them were exchanges."""
        return self._alone(lambda: _library.bezglami_exchanges(self._held()))


def _number(number: int) -> int:
    """The number of an account or a process, and of one that no book has in place of a number that doesn't fit."""
    return number if 0 <= number < 1 << 32 else (1 << 32) - 1


class Ledger(_Holder):
    """A ledger for the book that the bytes spell. Raises BadBook, NoMemory, OtherVersion and OtherProcessor.

    It is freed at the end of a `with`, by `free`, and else when it is collected.
    """

    _end = "bezglami_free"

    def __init__(self, book: bytes) -> None:
        super().__init__()
        version = _library.bezglami_version()
        if version != _VERSION:
            raise OtherVersion(f"the library is of version {version}, and this module of version {_VERSION}")
        line, why = ctypes.c_uint32(), ctypes.c_uint32()
        outcome = _library.bezglami_open(bytes(book), len(book), self._handle, line, why)
        if outcome == _bad_book:
            raise BadBook(line.value, Why(why.value))
        if outcome != 0:
            _refuse(outcome, "a ledger")
        self._handed_out = 0
        # Made when there was no memory for the next one. They are handed out first.
        self._ready: list[Caller] = []
        self._report: str | None = None

    def __enter__(self) -> Ledger:
        return self

    def caller(self, calls: int) -> Caller:
        """The caller of the next process, with memory for the receipts of so many calls.

        Raises NoCaller, also once memory was wanting to close the ledger, and NoMemory.
        """
        return self._alone(lambda: self._ready.pop(0) if self._ready else self._next_caller(calls))

    def _next_caller(self, calls: int) -> Caller:
        caller = Caller(self._handed_out, _fitting("the room of a caller", calls, 32))
        try:
            outcome = _library.bezglami_caller(self._held(), calls, caller._handle)
        finally:
            # Also where an interrupt came just now: that caller is then given back, and its process has had it.
            if caller._handle.at:
                self._handed_out += 1
        if outcome != 0:
            # A ledger that was being closed hands out no caller: it is none any more.
            _refuse(_no_caller if outcome == _wrong_handle else outcome, f"a caller with room for {calls} calls")
        return caller

    def callers(self, calls: int) -> list[Caller]:
        """The callers of the processes that have none yet, in order.

        Raises NoMemory. The callers that were made until then are handed out first by the next call, with the room that they have.
        """
        return self._alone(lambda: self._all_callers(calls))

    def _all_callers(self, calls: int) -> list[Caller]:
        with suppress(NoCaller):
            while True:
                self._ready.append(self._next_caller(calls))
        ready, self._ready = self._ready, []
        return ready

    def close(self) -> str:
        """Closes the ledger, all callers of which were given back, and answers its report, as the program's `run` prints it.

        Raises CallersOut and NoMemory, and nothing is lost then: it may be closed again. A ledger that was closed answers its report again.
        """
        return self._alone(self._close)

    def _close(self) -> str:
        if self._report is None:
            self._ready.clear()
            _give_back_aside()
            # Where there was no memory to copy the report, it is still there.
            if self._report_length() == 0:
                outcome = _library.bezglami_close(self._held())
                if outcome != 0:
                    _refuse(outcome, f"closing, with {self._handed_out} callers handed out")
            report = ctypes.create_string_buffer(self._report_length())
            _library.bezglami_report(self._held(), report, len(report))
            self._report = report.raw.decode("ascii")
            _library.bezglami_free(self._handle)
        return self._report

    def _report_length(self) -> int:
        """How long the report is that is held, and 0 where none is."""
        return _library.bezglami_report(self._held(), b"", 0)

    def free(self) -> None:
        """Frees it now, without a report. Nothing is done where nothing is held. Its callers are used on."""
        self._alone(self._let_go)
