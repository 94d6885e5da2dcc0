use crate::sys::{Handle, Returning};
use crate::{Caller, Error, Report};
use std::fmt;

/// A ledger of a book, which hands out a [`Caller`] for each process, and is closed once all of them are back.
pub struct Ledger {
    handle: Handle,
    handed_out: u32,
    /// What was made when memory was wanting for the next one. It is handed out first.
    ready: Vec<Ready>,
}

/// What a caller is made of, which a ledger that is shared may hold.
struct Ready {
    place: Box<Returning>,
    process: u32,
    room: u32,
}

impl Ready {
    fn into_caller(self) -> Caller {
        Caller::new(self.place, self.process, self.room)
    }
}

impl Ledger {
    /// A ledger for the book that the bytes spell.
    ///
    /// # Errors
    ///
    /// [`Error::BadBook`], [`Error::NoMemory`], [`Error::OtherVersion`] and [`Error::OtherProcessor`].
    pub fn open(book: &[u8]) -> Result<Ledger, Error> {
        let handle = Handle::open(book)?;
        Ok(Ledger {
            handle,
            handed_out: 0,
            ready: Vec::new(),
        })
    }

    /// The caller of the next process, the first of them that of process 0. It has memory for the receipts of so many calls, and makes
    /// no more.
    ///
    /// # Errors
    ///
    /// [`Error::NoCaller`] once each process has its own, or once the ledger was closed or memory was wanting to close it; and
    /// [`Error::NoMemory`].
    pub fn caller(&mut self, calls: u32) -> Result<Caller, Error> {
        let ready = if self.ready.is_empty() {
            self.next(calls)?
        } else {
            self.ready.remove(0)
        };
        Ok(ready.into_caller())
    }

    fn next(&mut self, room: u32) -> Result<Ready, Error> {
        let place = self.handle.next_caller(room)?;
        let process = self.handed_out;
        self.handed_out += 1;
        Ok(Ready {
            place,
            process,
            room,
        })
    }

    /// The callers of the processes that have none yet, in order, each with memory for so many calls.
    ///
    /// # Errors
    ///
    /// [`Error::NoMemory`]. The callers that were made until then aren't lost: they are handed out first by the next call, with the
    /// [room](Caller::room) that they have.
    pub fn callers(&mut self, calls: u32) -> Result<Vec<Caller>, Error> {
        loop {
            self.ready.try_reserve(1).map_err(|_| Error::NoMemory)?;
            match self.next(calls) {
                Ok(ready) => self.ready.push(ready),
                Err(Error::NoCaller) => break,
                Err(error) => return Err(error),
            }
        }
        let mut callers = Vec::new();
        callers
            .try_reserve_exact(self.ready.len())
            .map_err(|_| Error::NoMemory)?;
        callers.extend(self.ready.drain(..).map(Ready::into_caller));
        Ok(callers)
    }

    /// Closes the ledger, all callers of which were dropped, and makes its report. One that was closed answers its report again.
    ///
    /// It takes time and memory in proportion to the calls that were made. The ledger's own memory is freed where it is dropped.
    ///
    /// # Errors
    ///
    /// [`Error::CallersOut`] and [`Error::NoMemory`]. Nothing is lost: it may be closed again.
    ///
    /// ```
    /// # use bezglami::{Error, Ledger};
    /// # fn main() -> Result<(), Error> {
    /// let mut ledger = Ledger::open(b"book,1\nprocesses,1\nlimits,9,9\naccount,0,5,0\n")?;
    /// let mut caller = ledger.caller(9)?;
    /// caller.read(0)?;
    /// assert_eq!(ledger.close().unwrap_err(), Error::CallersOut);
    /// drop(caller);
    /// let report = ledger.close()?;
    /// assert_eq!(report.as_str(), "journal 1\n0 1 read 0 5\nbalances 1\n0 5\ntotal 5\n");
    /// # Ok(())
    /// # }
    /// ```
    pub fn close(&mut self) -> Result<Report, Error> {
        for ready in self.ready.drain(..) {
            drop(ready.into_caller());
        }
        self.handle.close().map(Report::new)
    }
}

impl fmt::Debug for Ledger {
    fn fmt(&self, f: &mut fmt::Formatter<'_>) -> fmt::Result {
        f.debug_struct("Ledger")
            .field("handed_out", &self.handed_out)
            .finish_non_exhaustive()
    }
}

#[cfg(test)]
mod tests {
    use super::*;

    /// A caller that was made before memory was wanting for the next one is handed out, and comes back where the ledger is closed.
    #[test]
    fn what_is_ready() {
        let book = b"book,1\nprocesses,3\nlimits,9,9\naccount,0,5,0\n";
        let mut ledger = Ledger::open(book).unwrap();
        let first = ledger.next(5).unwrap();
        ledger.ready.push(first);
        let rooms = ledger.callers(9).unwrap();
        let rooms = rooms.iter().map(|caller| (caller.process(), caller.room()));
        assert!(rooms.eq([(0, 5), (1, 9), (2, 9)]));
        let mut ledger = Ledger::open(book).unwrap();
        let first = ledger.next(5).unwrap();
        ledger.ready.push(first);
        assert_eq!(ledger.caller(9).unwrap().room(), 5);
        let second = ledger.next(5).unwrap();
        ledger.ready.push(second);
        assert!(ledger.close().unwrap().as_str().starts_with("journal 0\n"));
    }
}
