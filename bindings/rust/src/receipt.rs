use std::fmt;

/// What a call was answered, and what it cost.
#[derive(Clone, Copy, Debug, PartialEq, Eq, Hash)]
pub struct Receipt {
    /// The reply.
    pub reply: Reply,
    /// How many steps the call made: atomic loads, stores and exchanges of shared words.
    pub steps: u64,
    /// How many of them were exchanges. Only a payment from an account of two or more owners makes any.
    pub exchanges: u64,
}

/// The reply of a call.
#[derive(Clone, Copy, Debug, PartialEq, Eq, Hash)]
pub enum Reply {
    /// The amount was moved.
    Done,
    /// The balance is below the sum of the amounts. Nothing was moved.
    Short,
    /// The process doesn't own the source. Nothing was moved.
    NotOwner,
    /// The process's room at the source is used up. Nothing was moved.
    Full,
    /// The balance that a read found.
    Balance(u64),
}

impl Reply {
    /// Whether the amount was moved.
    #[must_use]
    pub fn is_done(self) -> bool {
        self == Reply::Done
    }

    /// The balance that a read found, and nothing of a payment.
    #[must_use]
    pub fn balance(self) -> Option<u64> {
        match self {
            Reply::Balance(balance) => Some(balance),
            Reply::Done | Reply::Short | Reply::NotOwner | Reply::Full => None,
        }
    }
}

/// The word that a report has for the reply.
impl fmt::Display for Reply {
    fn fmt(&self, f: &mut fmt::Formatter<'_>) -> fmt::Result {
        match self {
            Reply::Done => f.pad("done"),
            Reply::Short => f.pad("short"),
            Reply::NotOwner => f.pad("not-owner"),
            Reply::Full => f.pad("full"),
            Reply::Balance(balance) => fmt::Display::fmt(balance, f),
        }
    }
}
