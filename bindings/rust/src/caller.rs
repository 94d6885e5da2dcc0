use crate::sys::{Handle, Returning};
use crate::{Error, Receipt};
use std::cell::Cell;
use std::fmt;
use std::marker::PhantomData;

/// The most targets that a pay-out has.
pub const TARGETS_MOST: usize = 4;

/// An account that a pay-out pays, and the amount for it.
#[repr(C)]
#[derive(Clone, Copy, Debug, PartialEq, Eq, Hash)]
pub struct Target {
    /// The account's number.
    pub account: u32,
    /// What it is paid.
    pub amount: u64,
}

/// What makes the calls of one process.
///
/// It may be sent to another thread, and is used by one thread at a time. A call takes no memory and waits for no thread.
///
/// Where it is dropped, it is given back to its ledger with the receipts of its calls, and to no other; that takes no memory and waits for
/// no thread either. Where a thread that closes the ledger just looks for it, it is put aside, and given back when a ledger is closed or
/// a caller dropped next. A ledger is closed once all its callers are back. So one that is [forgotten](std::mem::forget) keeps its ledger
/// open for good.
///
/// It isn't used by two threads at once, not shared at all, not copied, and not used once it was given back. None of these is compiled:
///
/// ```compile_fail,E0499
/// fn use_twice(mut caller: bezglami::Caller) {
///     std::thread::scope(|threads| {
///         threads.spawn(|| caller.read(0));
///         threads.spawn(|| caller.read(0));
///     });
/// }
/// ```
///
/// ```compile_fail,E0277
/// fn share<T: Sync>() {}
/// share::<bezglami::Caller>();
/// ```
///
/// ```compile_fail,E0277
/// fn copy<T: Clone>() {}
/// copy::<bezglami::Caller>();
/// ```
///
/// ```compile_fail,E0382
/// fn give_back(mut caller: bezglami::Caller) {
///     drop(caller);
///     caller.steps();
/// }
/// ```
pub struct Caller {
    /// It is there until the caller is dropped.
    place: Option<Box<Returning>>,
    process: u32,
    room: u32,
    /// A caller isn't shared, not even to look at it.
    alone: PhantomData<Cell<()>>,
}

impl Caller {
    pub(crate) fn new(place: Box<Returning>, process: u32, room: u32) -> Caller {
        Caller {
            place: Some(place),
            process,
            room,
            alone: PhantomData,
        }
    }

    fn handle(&mut self) -> &mut Handle {
        match &mut self.place {
            Some(place) => &mut place.handle,
            None => unreachable!("a caller is dropped once"),
        }
    }

    /// The number of its process, from 0 in the book's order.
    #[must_use]
    pub fn process(&self) -> u32 {
        self.process
    }

    /// How many calls it has memory for, those that were made among them.
    #[must_use]
    pub fn room(&self) -> u32 {
        self.room
    }

    /// Moves the amount from one account to another.
    ///
    /// # Errors
    ///
    /// [`Error::NoAccount`] and [`Error::NoRoom`]. What isn't moved since the process doesn't own the source, or the balance doesn't
    /// cover it, is no error but a [`Reply`](crate::Reply).
    pub fn transfer(&mut self, from: u32, to: u32, amount: u64) -> Result<Receipt, Error> {
        self.handle().transfer(from, to, amount)
    }

    /// Moves each amount from one account to its target, or none of them. An account may stand among the targets twice.
    ///
    /// # Errors
    ///
    /// As of [`transfer`](Caller::transfer), and [`Error::NoPayOut`].
    pub fn pay(&mut self, from: u32, targets: &[Target]) -> Result<Receipt, Error> {
        self.handle().pay(from, targets)
    }

    /// Tells the balance of an account, by [`Reply::Balance`](crate::Reply::Balance).
    ///
    /// # Errors
    ///
    /// [`Error::NoAccount`] and [`Error::NoRoom`].
    pub fn read(&mut self, account: u32) -> Result<Receipt, Error> {
        self.handle().read(account)
    }

    /// How many accounts the book has.
    #[must_use]
    pub fn accounts(&mut self) -> u32 {
        self.handle().accounts()
    }

    /// Writes the balance of each account into the first of these numbers, in the book's order. All are those at one point, so they sum to
    /// what the book opens with, whatever other callers do meanwhile. It is no call: it takes no receipt, and the report doesn't have it. It
    /// makes at most the steps of a read.
    ///
    /// # Errors
    ///
    /// [`Error::NoRoom`] where the [accounts](Caller::accounts) are more.
    pub fn balances(&mut self, balances: &mut [u64]) -> Result<(), Error> {
        self.handle().balances(balances)
    }

    /// Leaves a note of all that the caller has seen, for the caller of another process, in place of one that it left there before. It counts
    /// as one step and one exchange.
    ///
    /// # Errors
    ///
    /// [`Error::NoProcess`] and [`Error::Busy`].
    pub fn note(&mut self, process: u32) -> Result<(), Error> {
        self.handle().note(process)
    }

    /// Takes in the note that the caller of another process has left for this one: its later calls come after all that the note has seen.
    /// A note is taken in once. It counts as one step and one exchange.
    ///
    /// # Errors
    ///
    /// [`Error::NoProcess`], [`Error::NoNote`] and [`Error::Busy`].
    pub fn learn(&mut self, process: u32) -> Result<(), Error> {
        self.handle().learn(process)
    }

    /// How many steps all its calls, looks at balances and notes have made.
    #[must_use]
    pub fn steps(&mut self) -> u64 {
        self.handle().steps()
    }

    /// How many of them were exchanges.
    #[must_use]
    pub fn exchanges(&mut self) -> u64 {
        self.handle().exchanges()
    }
}

/// Gives the caller back to its ledger.
impl Drop for Caller {
    fn drop(&mut self) {
        if let Some(place) = self.place.take() {
            place.give_back();
        }
    }
}

impl fmt::Debug for Caller {
    fn fmt(&self, f: &mut fmt::Formatter<'_>) -> fmt::Result {
        f.debug_struct("Caller")
            .field("process", &self.process)
            .finish_non_exhaustive()
    }
}
