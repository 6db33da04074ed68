//! Why the desk gave no reply.
use super::ffi;
use std::fmt;

/// Why the desk gave no reply, or added nothing: the first of these that holds. The desk is as it was.
///
/// ```
/// use domreth::desk::{CallId, Desk, DeskError, Loader};
/// use std::time::{Duration, SystemTime};
///
/// let mut desk = Desk::open()?;
/// let (cache, rule) = (desk.add_cache(Loader::Single)?, desk.add_rule(Duration::ZERO)?);
/// let call = CallId { handle: desk.add_handle(cache, rule)?, number: 1 };
/// desk.begin(call, None)?;
/// assert_eq!(desk.add_cache(Loader::Single), Err(DeskError::Late));
/// let year_10000 = SystemTime::UNIX_EPOCH + Duration::from_secs(253_402_300_800);
/// assert_eq!(desk.poll(call, year_10000), Err(DeskError::Moment));
/// # Ok::<(), DeskError>(())
/// ```
#[derive(Clone, Copy, Debug, PartialEq, Eq, Hash)]
#[non_exhaustive]
pub enum DeskError {
    /// An allocation of the library failed.
    OutOfMemory,
    /// The library has no such moment: it lies before the year -9999 or after 9999.
    Moment,
    /// There are as many of these as there may be: 4,294,967,295.
    Full,
    /// A call was begun before.
    Late,
    /// There is no such cache: it is another desk's.
    NoCache,
    /// There is no such rule: it is another desk's.
    NoRule,
    /// The library answered a status, or a kind of reply, that it does not have: it is another version.
    Status(u8),
}

impl DeskError {
    /// Whether the status is that all was done, and else why not.
    pub(super) fn check(status: u8) -> Result<(), DeskError> {
        Err(match status {
            ffi::DONE => return Ok(()),
            ffi::OUT_OF_MEMORY => DeskError::OutOfMemory,
            ffi::NO_MOMENT => DeskError::Moment,
            ffi::FULL => DeskError::Full,
            ffi::LATE => DeskError::Late,
            ffi::NO_CACHE => DeskError::NoCache,
            ffi::NO_RULE => DeskError::NoRule,
            other => DeskError::Status(other),
        })
    }
}

impl fmt::Display for DeskError {
    fn fmt(&self, f: &mut fmt::Formatter<'_>) -> fmt::Result {
        f.write_str(match self {
            DeskError::OutOfMemory => "out of memory",
            DeskError::Moment => "moment out of range",
            DeskError::Full => "desk is full",
            DeskError::Late => "a call was begun before",
            DeskError::NoCache => "no such cache",
            DeskError::NoRule => "no such rule",
            DeskError::Status(status) => return write!(f, "status {status} of the library"),
        })
    }
}

impl std::error::Error for DeskError {}
