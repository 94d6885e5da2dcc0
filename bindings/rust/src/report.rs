use std::fmt;

/// The report of a closed ledger: all calls in one legal order with their replies, the last balances, and the total.
///
/// It is the text that Bezglami's program prints, in ASCII. `at_program verify` takes it, beside the book and the calls of each process.
#[derive(Clone, PartialEq, Eq, Hash)]
pub struct Report {
    text: String,
}

impl Report {
    pub(crate) fn new(bytes: Vec<u8>) -> Report {
        match String::from_utf8(bytes) {
            Ok(text) => Report { text },
            Err(_) => unreachable!("the library's report is text"),
        }
    }

    /// The text.
    #[must_use]
    pub fn as_str(&self) -> &str {
        &self.text
    }
}

impl AsRef<str> for Report {
    fn as_ref(&self) -> &str {
        &self.text
    }
}

impl AsRef<[u8]> for Report {
    fn as_ref(&self) -> &[u8] {
        self.text.as_bytes()
    }
}

impl From<Report> for String {
    fn from(report: Report) -> String {
        report.text
    }
}

/// The text, whole.
impl fmt::Display for Report {
    fn fmt(&self, f: &mut fmt::Formatter<'_>) -> fmt::Result {
        f.write_str(&self.text)
    }
}

/// Its first line, which has the number of its calls.
impl fmt::Debug for Report {
    fn fmt(&self, f: &mut fmt::Formatter<'_>) -> fmt::Result {
        f.debug_tuple("Report")
            .field(&self.text.lines().next().unwrap_or_default())
            .finish()
    }
}
