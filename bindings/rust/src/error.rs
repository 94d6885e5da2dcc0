use std::fmt;

/// Why something wasn't done. Nothing has changed then.
#[derive(Clone, Copy, Debug, PartialEq, Eq, Hash)]
#[non_exhaustive]
pub enum Error {
    /// The bytes spell no book.
    BadBook {
        /// The line of the first fault. Lines are records, counted from 1.
        line: u32,
        /// The cause of that fault.
        why: Why,
    },
    /// There was no memory.
    NoMemory,
    /// The caller of each process was handed out before.
    NoCaller,
    /// The call names an account that isn't there.
    NoAccount,
    /// The caller has no room for the receipt of one more call, or there are fewer numbers than accounts.
    NoRoom,
    /// A pay-out has from 1 to [`TARGETS_MOST`](crate::TARGETS_MOST) targets.
    NoPayOut,
    /// A caller of the ledger is still there, or was [forgotten](std::mem::forget).
    CallersOut,
    /// The book has no process of this number.
    NoProcess,
    /// The process has left no note.
    NoNote,
    /// Another thread is just reaching for the same note. To ask again is all that it takes.
    Busy,
    /// The library that is linked is of another version than this crate.
    OtherVersion {
        /// The version that the library tells.
        library: u32,
    },
    /// The processor lacks instructions of x86-64-v2, for which the library is compiled.
    OtherProcessor,
}

impl fmt::Display for Error {
    fn fmt(&self, f: &mut fmt::Formatter<'_>) -> fmt::Result {
        match self {
            Error::BadBook { line, why } => {
                write!(f, "no book: the first fault is in line {line}: {why}")
            }
            Error::NoMemory => f.write_str("no memory"),
            Error::NoCaller => f.write_str("the caller of each process was handed out"),
            Error::NoAccount => f.write_str("no such account"),
            Error::NoRoom => f.write_str("no room for one more receipt, or for all balances"),
            Error::NoPayOut => f.write_str("a pay-out has from 1 to 4 targets"),
            Error::CallersOut => f.write_str("a caller of the ledger wasn't given back"),
            Error::NoProcess => f.write_str("no such process"),
            Error::NoNote => f.write_str("the process has left no note"),
            Error::Busy => f.write_str("another thread is reaching for the same note"),
            Error::OtherVersion { library } => write!(f, "the library is of version {library}"),
            Error::OtherProcessor => f.write_str("the processor lacks instructions of x86-64-v2"),
        }
    }
}

impl std::error::Error for Error {}

/// Why bytes spell no book: the cause of their first fault. It is displayed by the words that Bezglami's `docs/formats.md` explains.
#[derive(Clone, Copy, Debug, PartialEq, Eq, Hash)]
#[non_exhaustive]
pub enum Why {
    /// The second field of the first record is neither 1 nor 2.
    Version,
    /// A record isn't there, has another number of fields, or begins with another word.
    Shape,
    /// A field that has to be a number is none.
    Number,
    /// The account's number isn't the next one.
    AccountOrder,
    /// The bytes are no name.
    Name,
    /// A process or an account before it has this name.
    NameTwice,
    /// No process has this name.
    UnknownOwner,
    /// The book has no process.
    NoProcess,
    /// The book has more than 16 processes.
    TooManyProcesses,
    /// The book has no account.
    NoAccount,
    /// The book has more than 1,024 accounts.
    TooManyAccounts,
    /// An owner is no process of the book.
    OwnerOutOfRange,
    /// The owners don't stand in the order of the processes, or one stands twice.
    OwnersNotRising,
    /// An account has more than eight owners.
    TooManyOwners,
    /// A limit is 0 or too great.
    RoomOutOfRange,
    /// The shared accounts have too many owners together for the request room.
    RoundsOverLimit,
    /// The sum of the openings doesn't fit 64 bits.
    TotalOverLimit,
}

impl fmt::Display for Why {
    fn fmt(&self, f: &mut fmt::Formatter<'_>) -> fmt::Result {
        f.pad(match self {
            Why::Version => "version",
            Why::Shape => "shape",
            Why::Number => "number",
            Why::AccountOrder => "account order",
            Why::Name => "name",
            Why::NameTwice => "name twice",
            Why::UnknownOwner => "unknown owner",
            Why::NoProcess => "no process",
            Why::TooManyProcesses => "too many processes",
            Why::NoAccount => "no account",
            Why::TooManyAccounts => "too many accounts",
            Why::OwnerOutOfRange => "owner out of range",
            Why::OwnersNotRising => "owners not rising",
            Why::TooManyOwners => "too many owners",
            Why::RoomOutOfRange => "room out of range",
            Why::RoundsOverLimit => "rounds over limit",
            Why::TotalOverLimit => "total over limit",
        })
    }
}
