//! The library for C, behind functions that are safe to call. All unsafe code of the crate stands here.

use crate::{Error, Receipt, Reply, Target, Why};
use std::alloc::{alloc, Layout};
use std::os::raw::c_void;
use std::ptr;
use std::sync::atomic::{AtomicPtr, Ordering};

/// The version of the header that this module was written by.
const VERSION: u32 = 5;

const DONE: u32 = 0;
const WRONG_HANDLE: u32 = 1;
const IN_USE: u32 = 2;
const NO_MEMORY: u32 = 3;
const BAD_BOOK: u32 = 4;
const NO_CALLER: u32 = 5;
const NO_ACCOUNT: u32 = 6;
const NO_ROOM: u32 = 7;
const NO_PAY_OUT: u32 = 8;
const CALLERS_OUT: u32 = 9;
const NO_PROCESS: u32 = 10;
const NO_NOTE: u32 = 11;
const BUSY: u32 = 12;
const NULL: u32 = 13;
const IN_CALL: u32 = 14;
const OTHER_PROCESSOR: u32 = 15;

/// What a call answered, as the library writes it.
#[repr(C)]
#[derive(Default)]
struct Answer {
    reply: u32,
    balance: u64,
    steps: u64,
    exchanges: u64,
}

extern "C" {
    fn bezglami_version() -> u32;
    fn bezglami_open(
        book: *const u8,
        length: usize,
        ledger: *mut Handle,
        line: *mut u32,
        why: *mut u32,
    ) -> u32;
    fn bezglami_caller(ledger: *mut Handle, calls: u32, caller: *mut Handle) -> u32;
    fn bezglami_transfer(
        caller: *mut Handle,
        from: u32,
        to: u32,
        amount: u64,
        answer: *mut Answer,
    ) -> u32;
    fn bezglami_pay(
        caller: *mut Handle,
        from: u32,
        targets: *const Target,
        count: usize,
        answer: *mut Answer,
    ) -> u32;
    fn bezglami_read(caller: *mut Handle, account: u32, answer: *mut Answer) -> u32;
    fn bezglami_accounts(handle: *mut Handle) -> u32;
    fn bezglami_balances(caller: *mut Handle, balances: *mut u64, room: usize) -> u32;
    fn bezglami_steps(caller: *mut Handle) -> u64;
    fn bezglami_exchanges(caller: *mut Handle) -> u64;
    fn bezglami_note(caller: *mut Handle, process: u32) -> u32;
    fn bezglami_learn(caller: *mut Handle, process: u32) -> u32;
    fn bezglami_return(caller: *mut Handle) -> u32;
    fn bezglami_close(ledger: *mut Handle) -> u32;
    fn bezglami_report(ledger: *mut Handle, bytes: *mut u8, room: usize) -> usize;
    fn bezglami_free(handle: *mut Handle);
}

/// The one place that holds a ledger, a caller or a report of the library, or nothing. It isn't copied, and frees what it holds.
#[repr(C)]
pub(crate) struct Handle {
    at: *mut c_void,
    in_call: u32,
}

// SAFETY: the library lets a handle go to another thread between two calls, where something orders the two. Whatever moves a value of
// Rust to another thread does.
unsafe impl Send for Handle {}

// SAFETY: each method that reaches the library takes `&mut self`, so a shared handle can't be used at all.
unsafe impl Sync for Handle {}

impl Drop for Handle {
    fn drop(&mut self) {
        // SAFETY: the handle is as the library left it, or null, and is used by nobody else.
        unsafe { bezglami_free(self) }
    }
}

/// What an outcome is, where the handle holds what the call wants: the types of this crate see to that.
fn done(outcome: u32) -> Result<(), Error> {
    match outcome {
        DONE => Ok(()),
        NO_MEMORY => Err(Error::NoMemory),
        NO_CALLER => Err(Error::NoCaller),
        NO_ACCOUNT => Err(Error::NoAccount),
        NO_ROOM => Err(Error::NoRoom),
        NO_PAY_OUT => Err(Error::NoPayOut),
        CALLERS_OUT => Err(Error::CallersOut),
        NO_PROCESS => Err(Error::NoProcess),
        NO_NOTE => Err(Error::NoNote),
        BUSY => Err(Error::Busy),
        OTHER_PROCESSOR => Err(Error::OtherProcessor),
        WRONG_HANDLE | IN_USE => unreachable!("the library has lost what a handle holds"),
        NULL | IN_CALL => unreachable!("a handle is lent to one call at a time"),
        other => unreachable!("the library answered {other}, which its header doesn't have"),
    }
}

/// The cause of a fault of a book.
fn cause(why: u32) -> Why {
    match why {
        1 => Why::Version,
        2 => Why::Shape,
        3 => Why::Number,
        4 => Why::AccountOrder,
        5 => Why::Name,
        6 => Why::NameTwice,
        7 => Why::UnknownOwner,
        8 => Why::NoProcess,
        9 => Why::TooManyProcesses,
        10 => Why::NoAccount,
        11 => Why::TooManyAccounts,
        12 => Why::OwnerOutOfRange,
        13 => Why::OwnersNotRising,
        14 => Why::TooManyOwners,
        15 => Why::RoomOutOfRange,
        16 => Why::RoundsOverLimit,
        17 => Why::TotalOverLimit,
        other => unreachable!("the library told the cause {other}, which its header doesn't have"),
    }
}

impl Answer {
    fn receipt(&self) -> Receipt {
        let reply = match self.reply {
            0 => Reply::Done,
            1 => Reply::Short,
            2 => Reply::NotOwner,
            3 => Reply::Full,
            4 => Reply::Balance(self.balance),
            other => unreachable!(
                "the library answered the reply {other}, which its header doesn't have"
            ),
        };
        Receipt {
            reply,
            steps: self.steps,
            exchanges: self.exchanges,
        }
    }
}

impl Handle {
    const fn nothing() -> Handle {
        Handle {
            at: ptr::null_mut(),
            in_call: 0,
        }
    }

    /// A ledger of the book.
    pub(crate) fn open(book: &[u8]) -> Result<Handle, Error> {
        // SAFETY: it takes nothing.
        let library = unsafe { bezglami_version() };
        if library != VERSION {
            return Err(Error::OtherVersion { library });
        }
        let mut ledger = Handle::nothing();
        let (mut line, mut why) = (0, 0);
        // SAFETY: the slice's pointer isn't null and has so many bytes, which nobody writes while they are borrowed. The handle, the line
        // and the cause are places of this function's own.
        let outcome =
            unsafe { bezglami_open(book.as_ptr(), book.len(), &mut ledger, &mut line, &mut why) };
        match outcome {
            BAD_BOOK => Err(Error::BadBook {
                line,
                why: cause(why),
            }),
            outcome => done(outcome).map(|()| ledger),
        }
    }

    /// The next caller of a ledger. One that was being closed, or was closed, hands out none.
    pub(crate) fn next_caller(&mut self, calls: u32) -> Result<Box<Returning>, Error> {
        let mut caller = Returning::room()?;
        // SAFETY: the handles are two places, and each is lent to this call alone.
        match unsafe { bezglami_caller(self, calls, &mut caller.handle) } {
            WRONG_HANDLE => Err(Error::NoCaller),
            outcome => done(outcome).map(|()| caller),
        }
    }

    /// Closes a ledger, and copies its report. Where there is no memory for the copy, the report stays, and the next call copies it.
    pub(crate) fn close(&mut self) -> Result<Vec<u8>, Error> {
        return_aside();
        if self.report(&mut []) == 0 {
            // SAFETY: the handle is lent to this call alone.
            done(unsafe { bezglami_close(self) })?;
        }
        let length = self.report(&mut []);
        let mut bytes = Vec::new();
        bytes
            .try_reserve_exact(length)
            .map_err(|_| Error::NoMemory)?;
        bytes.resize(length, 0);
        self.report(&mut bytes);
        Ok(bytes)
    }

    /// How long the report is that is held, and 0 where none is. It is written where there is room for it.
    fn report(&mut self, bytes: &mut [u8]) -> usize {
        // SAFETY: the handle is lent to this call alone. So are the bytes, whose pointer isn't null, also where there are none.
        unsafe { bezglami_report(self, bytes.as_mut_ptr(), bytes.len()) }
    }

    /// A transfer by a caller.
    pub(crate) fn transfer(&mut self, from: u32, to: u32, amount: u64) -> Result<Receipt, Error> {
        let mut answer = Answer::default();
        // SAFETY: the handle is lent to this call alone, and the answer is a place of this function's own.
        done(unsafe { bezglami_transfer(self, from, to, amount, &mut answer) })?;
        Ok(answer.receipt())
    }

    /// A pay-out by a caller.
    pub(crate) fn pay(&mut self, from: u32, targets: &[Target]) -> Result<Receipt, Error> {
        let mut answer = Answer::default();
        // SAFETY: as in `transfer`; the slice's pointer isn't null and has so many targets of the layout of C, which nobody writes while
        // they are borrowed.
        done(unsafe { bezglami_pay(self, from, targets.as_ptr(), targets.len(), &mut answer) })?;
        Ok(answer.receipt())
    }

    /// A read by a caller.
    pub(crate) fn read(&mut self, account: u32) -> Result<Receipt, Error> {
        let mut answer = Answer::default();
        // SAFETY: as in `transfer`.
        done(unsafe { bezglami_read(self, account, &mut answer) })?;
        Ok(answer.receipt())
    }

    /// How many accounts the book of a ledger or a caller has.
    pub(crate) fn accounts(&mut self) -> u32 {
        // SAFETY: the handle is lent to this call alone.
        unsafe { bezglami_accounts(self) }
    }

    /// The balances of all accounts, by a caller.
    pub(crate) fn balances(&mut self, balances: &mut [u64]) -> Result<(), Error> {
        // SAFETY: the handle is lent to this call alone. So are the numbers, whose pointer isn't null, also where there are none.
        done(unsafe { bezglami_balances(self, balances.as_mut_ptr(), balances.len()) })
    }

    /// Leaves a note of a caller.
    pub(crate) fn note(&mut self, process: u32) -> Result<(), Error> {
        // SAFETY: the handle is lent to this call alone.
        done(unsafe { bezglami_note(self, process) })
    }

    /// Takes a note in.
    pub(crate) fn learn(&mut self, process: u32) -> Result<(), Error> {
        // SAFETY: the handle is lent to this call alone.
        done(unsafe { bezglami_learn(self, process) })
    }

    /// The steps of all calls of a caller.
    pub(crate) fn steps(&mut self) -> u64 {
        // SAFETY: the handle is lent to this call alone.
        unsafe { bezglami_steps(self) }
    }

    /// The exchanges of all calls of a caller.
    pub(crate) fn exchanges(&mut self) -> u64 {
        // SAFETY: the handle is lent to this call alone.
        unsafe { bezglami_exchanges(self) }
    }
}

/// A caller's handle, with the memory to put it aside.
pub(crate) struct Returning {
    pub(crate) handle: Handle,
    next: *mut Returning,
}

// SAFETY: the pointer is null but in the list of what was put aside, from which one thread takes all at once.
unsafe impl Send for Returning {}

// SAFETY: each method takes it by value, and its handle by `&mut`.
unsafe impl Sync for Returning {}

/// Callers that were dropped while a thread that closes their ledger just looked for them. Each is in one list alone, and whoever drops a
/// caller or closes a ledger next takes them along.
static ASIDE: AtomicPtr<Returning> = AtomicPtr::new(ptr::null_mut());

impl Returning {
    /// A handle that holds nothing.
    fn room() -> Result<Box<Returning>, Error> {
        // SAFETY: the layout's size isn't 0.
        let room = unsafe { alloc(Layout::new::<Returning>()) }.cast::<Returning>();
        if room.is_null() {
            return Err(Error::NoMemory);
        }
        let nothing = Returning {
            handle: Handle::nothing(),
            next: ptr::null_mut(),
        };
        // SAFETY: it was allocated just now by the layout that a box has, and is written before it is one.
        unsafe {
            room.write(nothing);
            Ok(Box::from_raw(room))
        }
    }

    /// Gives the caller back, or puts it aside. Neither takes memory, nor waits.
    pub(crate) fn give_back(self: Box<Self>) {
        return_aside();
        self.give_back_now();
    }

    fn give_back_now(mut self: Box<Self>) {
        // SAFETY: the handle is lent to this call alone.
        if unsafe { bezglami_return(&mut self.handle) } == BUSY {
            self.put_aside();
        }
    }

    fn put_aside(self: Box<Self>) {
        let place = Box::into_raw(self);
        let mut first = ASIDE.load(Ordering::SeqCst);
        loop {
            // SAFETY: until the exchange is made nobody else has the pointer.
            unsafe { (*place).next = first };
            match ASIDE.compare_exchange(first, place, Ordering::SeqCst, Ordering::SeqCst) {
                Ok(_) => return,
                Err(other) => first = other,
            }
        }
    }
}

/// Gives back all that was put aside, or puts it aside again.
fn return_aside() {
    let mut first = ASIDE.swap(ptr::null_mut(), Ordering::SeqCst);
    while !first.is_null() {
        // SAFETY: the list was taken whole, so each of its boxes is this thread's alone.
        let place = unsafe { Box::from_raw(first) };
        first = place.next;
        place.give_back_now();
    }
}

#[cfg(test)]
mod tests {
    use super::*;

    /// The error of each outcome, by its number in the header.
    #[test]
    fn outcomes() {
        assert_eq!(done(0), Ok(()));
        for (number, error) in [
            (3, Error::NoMemory),
            (5, Error::NoCaller),
            (6, Error::NoAccount),
            (7, Error::NoRoom),
            (8, Error::NoPayOut),
            (9, Error::CallersOut),
            (10, Error::NoProcess),
            (11, Error::NoNote),
            (12, Error::Busy),
            (15, Error::OtherProcessor),
        ] {
            assert_eq!(done(number), Err(error));
        }
    }

    /// A caller that was put aside goes back with the next one, or with the closing of its ledger. Where its own is gone it is lost.
    #[test]
    fn what_is_put_aside() {
        let open = || Handle::open(b"book,1\nprocesses,3\nlimits,9,9\naccount,0,5,0\n").unwrap();
        let (mut ledger, mut other) = (open(), open());
        for _ in 0..2 {
            let mut caller = ledger.next_caller(9).unwrap();
            caller.handle.read(0).unwrap();
            caller.put_aside();
        }
        let last = ledger.next_caller(9).unwrap();
        last.give_back();
        other.next_caller(9).unwrap().put_aside();
        assert!(ledger.close().unwrap().starts_with(b"journal 2\n"));
        assert!(other.close().unwrap().starts_with(b"journal 0\n"));
        let mut gone = open();
        gone.next_caller(9).unwrap().put_aside();
        drop(gone);
        return_aside();
        assert!(ASIDE.load(Ordering::SeqCst).is_null());
    }
}
