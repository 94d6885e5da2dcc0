//! A payment ledger that no thread waits for.
//!
//! A [`Ledger`] is opened with a book: its processes, its accounts, what each opens with and who owns it. It hands out a [`Caller`] for
//! each process. Each thread makes calls by a caller of its own, and no call waits for another thread's. A caller that is dropped is given
//! back, and once all are back, the ledger is closed: its [`Report`] has all calls in one legal order.
//!
#![doc = concat!("```\n", include_str!("../examples/short.rs"), "```")]
//!
//! Accounts are numbers from 0 in the book's order, also where the book names them. The form of a book is that of Bezglami's
//! `docs/formats.md`.
//!
//! # What the types say
//!
//! The library for C has rules that its callers keep. Here the types keep them:
//!
//! | rule | type |
//! |---|---|
//! | one call at a time by a caller | a call takes `&mut self`, and a [`Caller`] is [`Send`], not [`Sync`] |
//! | a handle isn't copied, and is freed once | neither a [`Ledger`] nor a [`Caller`] is [`Clone`], and each lets go of what it holds when it is dropped |
//! | a caller goes back to its ledger, once | dropping it gives it back, so there is no call for it, and none that could name another ledger |
//! | nothing is asked of a ledger that was closed | it hands out no caller, and [`Ledger::close`] answers the same report again |
//! | a caller's ledger is there as long as the caller | the board goes with the last of the ledger and its callers, so no lifetime binds them |
//! | what a call names is there | [`Error::NoAccount`], and nothing has changed |
//!
//! What is proved is the library; this crate is a thin layer around it, and no proof speaks of it.
#![deny(missing_docs)]
#![deny(unsafe_code)]

mod caller;
mod error;
mod ledger;
mod receipt;
mod report;
#[allow(unsafe_code)]
mod sys;

pub use caller::{Caller, Target, TARGETS_MOST};
pub use error::{Error, Why};
pub use ledger::Ledger;
pub use receipt::{Receipt, Reply};
pub use report::Report;
