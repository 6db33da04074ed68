//! What a desk replies.
use super::{CallId, DeskError, HandleId, ffi};
use std::time::SystemTime;

/// The reply to an event: what to do next. `wake` names the call that waited and has its turn by this, and is to be
/// polled.
///
/// ```
/// use domreth::desk::{Reply, Why};
///
/// let refused = Reply::Refused { why: Why::Missing, wake: None };
/// assert_eq!(refused.wake(), None);
/// ```
#[derive(Clone, Copy, Debug, PartialEq, Eq)]
pub enum Reply {
    /// The call is begun.
    Begun,
    /// It is not the call's turn, or an answer for it is awaited.
    Pending,
    /// The event does not fit the call: there is none, it is over, or it did not ask for this. Nothing changed.
    NotNow,
    /// An allocation of the library failed. Nothing changed.
    OutOfMemory,
    /// The provider of this number is to be asked, and its answer told by `found`, `missing` or `failed`.
    Ask {
        /// Its place in the chain, from 0; that of a single one is 0.
        provider: u32,
    },
    /// The request is to be signed with this credential, and the outcome told by `accept` or `reject`.
    Sign {
        /// Its number.
        credential: u64,
        /// The call that has its turn.
        wake: Option<CallId>,
    },
    /// The call is refused, and over.
    Refused {
        /// The cause.
        why: Why,
        /// The call that has its turn.
        wake: Option<CallId>,
    },
    /// The request is signed, and the call over.
    Done,
    /// The call is given up.
    Cancelled {
        /// The call that has its turn.
        wake: Option<CallId>,
    },
}

/// Why a call is refused.
///
/// ```
/// use domreth::desk::{CallId, Desk, Loader, Reply, Why};
/// use std::time::{Duration, SystemTime};
///
/// let mut desk = Desk::open()?;
/// let (cache, rule) = (desk.add_cache(Loader::Single)?, desk.add_rule(Duration::ZERO)?);
/// let call = CallId { handle: desk.add_handle(cache, rule)?, number: 1 };
/// desk.begin(call, None)?;
/// desk.poll(call, SystemTime::now())?;
/// let refused = desk.failed(call, SystemTime::now(), 404)?;
/// assert_eq!(refused, Reply::Refused { why: Why::Loader(404), wake: None });
/// # Ok::<(), domreth::desk::DeskError>(())
/// ```
#[derive(Clone, Copy, Debug, PartialEq, Eq)]
pub enum Why {
    /// No provider has a credential. In a chain a failure counts so too.
    Missing,
    /// The credential that was found does not last to this deadline.
    Short(SystemTime),
    /// The deadline is past the library's last moment.
    Range,
    /// The single provider failed, with the number that was told.
    Loader(u64),
    /// The service failed, with the number that was told.
    Service(u64),
}

impl Reply {
    /// The call that has its turn by this, where there is one.
    pub fn wake(self) -> Option<CallId> {
        match self {
            Reply::Sign { wake, .. } | Reply::Refused { wake, .. } | Reply::Cancelled { wake } => wake,
            _ => None,
        }
    }
}

impl TryFrom<ffi::Reply> for Reply {
    type Error = DeskError;

    fn try_from(reply: ffi::Reply) -> Result<Self, DeskError> {
        let wake = reply.wakes.then_some(CallId { handle: HandleId(reply.wake_handle), number: reply.wake_number });
        Ok(match reply.kind {
            0 => Reply::Begun,
            1 => Reply::Pending,
            2 => Reply::NotNow,
            3 => Reply::OutOfMemory,
            4 => Reply::Ask { provider: reply.provider },
            5 => Reply::Sign { credential: reply.number, wake },
            6 => Reply::Refused { why: why(&reply)?, wake },
            7 => Reply::Done,
            8 => Reply::Cancelled { wake },
            other => return Err(DeskError::Status(other)),
        })
    }
}

fn why(reply: &ffi::Reply) -> Result<Why, DeskError> {
    Ok(match reply.cause {
        1 => Why::Missing,
        2 => Why::Short(reply.deadline.into()),
        3 => Why::Range,
        4 => Why::Loader(reply.number),
        5 => Why::Service(reply.number),
        other => return Err(DeskError::Status(other)),
    })
}
