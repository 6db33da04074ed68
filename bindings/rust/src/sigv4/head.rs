//! What is signed.
use crate::ffi;
use std::fmt;

/// A version of HTTP.
#[derive(Clone, Copy, Debug, Default, PartialEq, Eq, Hash)]
pub enum Version {
    /// HTTP/0.9
    V09,
    /// HTTP/1.0
    V10,
    /// HTTP/1.1
    #[default]
    V11,
    /// HTTP/2
    V2,
    /// HTTP/3
    V3,
}

impl Version {
    fn number(self) -> u8 {
        match self {
            Version::V09 => 9,
            Version::V10 => 10,
            Version::V11 => 11,
            Version::V2 => 20,
            Version::V3 => 30,
        }
    }
}

/// A request head, of parts that are lent. Its debug text shows nothing of the URI and of headers.
///
/// ```
/// use domreth::sigv4::{Head, Version};
///
/// let head = Head { method: "GET", uri: "https://e.x/?key=1", version: Version::V11, headers: &[("range", b"bytes=0-9")] };
/// assert_eq!(format!("{head:?}"), "Head(***)");
/// ```
#[derive(Clone, Copy)]
pub struct Head<'a> {
    /// The method, as `GET`.
    pub method: &'a str,
    /// The URI with its scheme and its authority; path and query are percent-encoded, once, and a space is `%20`.
    pub uri: &'a str,
    /// The version of HTTP. No signature depends on it.
    pub version: Version,
    /// The headers. All are signed in a head, and none but the host in a link.
    pub headers: &'a [(&'a str, &'a [u8])],
}

impl Head<'_> {
    /// Calls with the head as the library takes it.
    pub(super) fn lend<T>(&self, call: impl FnOnce(&ffi::Head<'_>) -> T) -> T {
        let headers: Vec<ffi::Field<'_>> =
            self.headers.iter().map(|&(name, value)| ffi::Field { name: name.into(), value: value.into() }).collect();
        call(&ffi::Head::new(self.method, self.uri, &headers, self.version.number()))
    }
}

impl fmt::Debug for Head<'_> {
    fn fmt(&self, f: &mut fmt::Formatter<'_>) -> fmt::Result {
        f.write_str("Head(***)")
    }
}

/// What a signature says of the content. For S3 the head has it too, as `x-amz-content-sha256`.
///
/// ```
/// assert_eq!(domreth::sigv4::Payload::Unsigned.as_str(), "UNSIGNED-PAYLOAD");
/// ```
#[derive(Clone, Copy, Debug, PartialEq, Eq)]
pub enum Payload<'a> {
    /// It is not signed.
    Unsigned,
    /// Its SHA-256 in lower-case hexadecimal.
    Sha256(&'a str),
}

impl<'a> Payload<'a> {
    /// The word that stands for it.
    pub fn as_str(self) -> &'a str {
        match self {
            Payload::Unsigned => "UNSIGNED-PAYLOAD",
            Payload::Sha256(digest) => digest,
        }
    }
}
