//! Why a head is not signed, a link not made, or not valid.
use crate::ffi;
use std::fmt;

/// Why a head is not signed, a link not made, or not valid: the first of these that holds.
#[derive(Clone, Copy, Debug, PartialEq, Eq, Hash)]
#[non_exhaustive]
pub enum SignError {
    /// The payload is not 64 digits from `0-9a-f`.
    Payload,
    /// The library has no such moment: it lies before the year -9999 or after 9999.
    Second,
    /// No version of HTTP has the number that was handed in. This crate hands in none of these.
    Version,
    /// The access key is empty or has a byte other than 0x21 to 0x7e, or the secret is empty.
    Key,
    /// The region or the service is empty, or has a byte other than a to z, 0 to 9 and `-`.
    Scope,
    /// The method, the URI or a header is none of HTTP.
    Head,
    /// The URI names no authority.
    Authority,
    /// The path has a `%`, and the service is not `s3`.
    Path,
    /// The moment lies before the year 0, or on another day than the derived key's.
    Moment,
    /// The query has a key of a link already, or the token of a session.
    Already,
    /// The link would be good for no whole second, or for more than seven days.
    Expires,
    /// The link is no URI, as where it is longer than 65,534 bytes.
    Link,
    /// The query is not that of a link.
    Shape,
    /// The link is for another access key, region, service or day.
    Credential,
    /// The link is not good yet.
    Early,
    /// The link is not good any more.
    Late,
    /// The signature is another one. Tell a sender only that the link is none of this key's.
    Signature,
    /// An allocation of the library failed.
    OutOfMemory,
    /// The library answered a status that it does not have: it is another version.
    Status(u8),
}

impl SignError {
    /// The error of a status other than `DONE`.
    pub(crate) fn of_status(status: u8) -> Self {
        match status {
            ffi::OUT_OF_MEMORY => SignError::OutOfMemory,
            10 => SignError::Payload,
            11 => SignError::Second,
            12 => SignError::Version,
            13 => SignError::Key,
            14 => SignError::Scope,
            20 => SignError::Head,
            21 => SignError::Authority,
            22 => SignError::Path,
            23 => SignError::Moment,
            24 => SignError::Already,
            25 => SignError::Expires,
            26 => SignError::Link,
            30 => SignError::Shape,
            31 => SignError::Credential,
            32 => SignError::Early,
            33 => SignError::Late,
            34 => SignError::Signature,
            other => SignError::Status(other),
        }
    }
}

impl fmt::Display for SignError {
    fn fmt(&self, f: &mut fmt::Formatter<'_>) -> fmt::Result {
        f.write_str(match self {
            SignError::Payload => "invalid payload digest",
            SignError::Second | SignError::Moment => "moment out of range",
            SignError::Version => "no such version of HTTP",
            SignError::Key => "invalid key",
            SignError::Scope => "invalid region or service",
            SignError::Head => "head not accepted",
            SignError::Authority => "request without authority is invalid for signing",
            SignError::Path => "path with escapes is not supported",
            SignError::Already => "query is presigned already",
            SignError::Expires => "expiry out of range",
            SignError::Link => "link not accepted",
            SignError::Shape => "no link",
            SignError::Credential => "link of another key, region, service or day",
            SignError::Early => "link is not good yet",
            SignError::Late => "link is not good any more",
            SignError::Signature => "another signature",
            SignError::OutOfMemory => "out of memory",
            SignError::Status(status) => return write!(f, "status {status} of the library"),
        })
    }
}

impl std::error::Error for SignError {}
