//! Why a command did not answer all of its input.
use std::fmt;

/// Why a command did not answer all of its input. Its debug text shows nothing of the input.
#[derive(Clone, PartialEq, Eq)]
#[non_exhaustive]
pub enum RunError {
    /// A line is bad, or the input too long. This is the output, which ends by saying so.
    BadLine(Vec<u8>),
    /// An allocation of the library failed.
    OutOfMemory,
    /// The library answered a status that it does not have: it is another version.
    Status(u8),
}

impl fmt::Debug for RunError {
    fn fmt(&self, f: &mut fmt::Formatter<'_>) -> fmt::Result {
        match self {
            RunError::BadLine(_) => f.write_str("BadLine(***)"),
            RunError::OutOfMemory => f.write_str("OutOfMemory"),
            RunError::Status(status) => write!(f, "Status({status})"),
        }
    }
}

impl fmt::Display for RunError {
    fn fmt(&self, f: &mut fmt::Formatter<'_>) -> fmt::Result {
        match self {
            RunError::BadLine(text) => {
                f.write_str(String::from_utf8_lossy(text).lines().last().unwrap_or("a line is bad"))
            }
            RunError::OutOfMemory => f.write_str("out of memory"),
            RunError::Status(status) => write!(f, "status {status} of the library"),
        }
    }
}

impl std::error::Error for RunError {}
