//! The calls.
use super::{Credential, DerivedKey, Head, Payload, SignError, token};
use crate::ffi;
use crate::room::text_of;
use std::fmt;
use std::time::{Duration, SystemTime, UNIX_EPOCH};

/// The room in which a text of this much is put at first.
const ROOM: usize = 1024;

/// Signs for one service in one region.
///
/// ```
/// use domreth::sigv4::RequestSigner;
///
/// assert_eq!(RequestSigner::new("s3", "us-east-1").to_string(), "s3 in us-east-1");
/// ```
#[derive(Clone, Debug, PartialEq, Eq)]
pub struct RequestSigner {
    service: String,
    region: String,
}

impl RequestSigner {
    /// A signer for a service and a region, as `s3` and `us-east-1`. Whether they are a scope is known at the first call.
    pub fn new(service: impl Into<String>, region: impl Into<String>) -> Self {
        crate::version::look();
        RequestSigner { service: service.into(), region: region.into() }
    }

    /// The headers that the signature adds to the head: `x-amz-security-token` of a session, `host` where the head has
    /// none, `x-amz-date` and `authorization`. Each but the host is in the place of those of its name that the head has.
    ///
    /// Each header of the head is signed, so add what agents on the way change after signing. Send the request soon,
    /// since AWS compares `x-amz-date` with its clock.
    ///
    /// # Errors
    ///
    /// The first cause that holds, or that memory ran out.
    ///
    /// ```
    /// use domreth::sigv4::{Credential, Head, Payload, RequestSigner, SignError, Version};
    /// use std::time::{Duration, UNIX_EPOCH};
    ///
    /// let signer = RequestSigner::new("service", "us-east-1");
    /// let credential = Credential::new("AKIDEXAMPLE", "wJalrXUtnFEMI/K7MDENG+bPxRfiCYEXAMPLEKEY");
    /// let head = Head { method: "GET", uri: "https://example.amazonaws.com/", version: Version::V11, headers: &[] };
    /// let now = UNIX_EPOCH + Duration::from_secs(1_440_938_160);
    /// let added = signer.sign(&head, &credential, Payload::Unsigned, now)?;
    /// assert_eq!(added[0], ("host".into(), "example.amazonaws.com".into()));
    /// assert_eq!(added[1], ("x-amz-date".into(), "20150830T123600Z".into()));
    /// assert_eq!(added[2].0, "authorization");
    /// # Ok::<(), SignError>(())
    /// ```
    pub fn sign(
        &self,
        head: &Head<'_>,
        credential: &Credential,
        payload: Payload<'_>,
        now: SystemTime,
    ) -> Result<Vec<(String, String)>, SignError> {
        let (key, payload, second) = (self.key(credential), payload.as_str(), seconds_of(now));
        // SAFETY: the declaration fits the export; what the pointers are to is lent for the call, the output and
        // `needed` to it alone; and the export asks nothing of its values.
        added(head, credential.session_token.as_deref(), |head, output, needed| unsafe {
            let (at, room) = (output.as_mut_ptr(), output.len());
            ffi::domreth_sign(head, &key, payload.as_ptr(), payload.len(), second, at, room, needed)
        })
    }

    /// The signing key of this credential for the day of the moment in UTC. Who signs many requests derives it once a
    /// day, and hands the secret to no other call.
    ///
    /// # Errors
    ///
    /// The first cause that holds of `Second`, `Key`, `Scope` and `Moment`, or that memory ran out.
    ///
    /// ```
    /// use domreth::sigv4::{Credential, Head, Payload, RequestSigner, SignError, Version};
    /// use std::time::{Duration, UNIX_EPOCH};
    ///
    /// let signer = RequestSigner::new("service", "us-east-1");
    /// let credential = Credential::new("AKIDEXAMPLE", "wJalrXUtnFEMI/K7MDENG+bPxRfiCYEXAMPLEKEY");
    /// let now = UNIX_EPOCH + Duration::from_secs(1_440_938_160);
    /// let key = signer.derive_key(&credential, now)?;
    /// let head = Head { method: "GET", uri: "https://example.amazonaws.com/", version: Version::V11, headers: &[] };
    /// let added = key.sign(&head, Payload::Unsigned, now)?;
    /// assert_eq!(added, signer.sign(&head, &credential, Payload::Unsigned, now)?);
    /// # Ok::<(), SignError>(())
    /// ```
    pub fn derive_key(&self, credential: &Credential, now: SystemTime) -> Result<DerivedKey, SignError> {
        let (mut bytes, mut needed) = ([0; DerivedKey::LEN], 0);
        let key = self.key(credential);
        // SAFETY: as in `sign`.
        let status =
            unsafe { ffi::domreth_derive_key(&key, seconds_of(now), bytes.as_mut_ptr(), bytes.len(), &mut needed) };
        if status != ffi::DONE {
            return Err(SignError::of_status(status));
        }
        let key = DerivedKey::from_bytes(self.clone(), credential.access_key_id.as_str(), bytes, now);
        Ok(match &credential.session_token {
            Some(token) => key.with_session_token(token.as_str()),
            None => key,
        })
    }

    /// The link by which whoever has it can send this request from the whole second at or before `now` on, for the whole
    /// seconds of `expires_in`. The token of a session becomes a pair of its query. Of the headers the host alone is
    /// signed, and the content is not.
    ///
    /// # Errors
    ///
    /// The first cause that holds, or that memory ran out.
    pub fn presign(
        &self,
        head: &Head<'_>,
        credential: &Credential,
        expires_in: Duration,
        now: SystemTime,
    ) -> Result<String, SignError> {
        let with_token =
            credential.session_token.as_deref().map(|token| token::with_pair(head.uri, token)).transpose()?;
        let head = Head { uri: with_token.as_deref().unwrap_or(head.uri), ..*head };
        let (key, second) = (self.key(credential), seconds_of(now));
        // More than a number of the library's has room for is more than seven days.
        let expires = u32::try_from(expires_in.as_secs()).unwrap_or(u32::MAX);
        head.lend(|head| {
            // SAFETY: as in `sign`.
            text(|output, needed| unsafe {
                ffi::domreth_presign(head, &key, expires, second, output.as_mut_ptr(), output.len(), needed)
            })
        })
    }

    /// Checks the head's URI as a link of this credential, which is valid at this moment. The URI has to name the
    /// authority, as the link does. Of the headers it asks only whether they are of HTTP.
    ///
    /// # Errors
    ///
    /// What is found at the link: the first cause that holds. Or that memory ran out.
    pub fn verify(&self, head: &Head<'_>, credential: &Credential, now: SystemTime) -> Result<(), SignError> {
        let (key, second) = (self.key(credential), seconds_of(now));
        // SAFETY: the declaration fits the export; what the pointers are to is lent for the call; and the export asks
        // nothing of its values.
        match head.lend(|head| unsafe { ffi::domreth_verify(head, &key, second) }) {
            ffi::DONE => Ok(()),
            status => Err(SignError::of_status(status)),
        }
    }

    /// The region and the service.
    pub(super) fn scope(&self) -> (&str, &str) {
        (&self.region, &self.service)
    }

    fn key<'a>(&'a self, credential: &'a Credential) -> ffi::Key<'a> {
        ffi::Key {
            access: credential.access_key_id.as_str().into(),
            secret: credential.secret_access_key.as_str().into(),
            region: self.region.as_str().into(),
            service: self.service.as_str().into(),
        }
    }
}

impl fmt::Display for RequestSigner {
    fn fmt(&self, f: &mut fmt::Formatter<'_>) -> fmt::Result {
        write!(f, "{} in {}", self.service, self.region)
    }
}

/// The headers that a call adds to the head, which has the token of a session first, where there is one.
pub(super) fn added(
    head: &Head<'_>,
    token: Option<&str>,
    call: impl FnMut(&ffi::Head<'_>, &mut [u8], &mut usize) -> u8,
) -> Result<Vec<(String, String)>, SignError> {
    let Some(token) = token else {
        return headers(head, call);
    };
    let with_token = token::with_header(head.headers, token);
    let mut added = vec![(token::HEADER.to_owned(), token.to_owned())];
    added.extend(headers(&Head { headers: &with_token, ..*head }, call)?);
    Ok(added)
}

/// The headers in the lines that a call answers.
fn headers(
    head: &Head<'_>,
    mut call: impl FnMut(&ffi::Head<'_>, &mut [u8], &mut usize) -> u8,
) -> Result<Vec<(String, String)>, SignError> {
    let lines = head.lend(|head| text(|output, needed| call(head, output, needed)))?;
    Ok(lines.split("\r\n").filter_map(|line| line.split_once(": ")).map(owned).collect())
}

fn owned((name, value): (&str, &str)) -> (String, String) {
    (name.to_owned(), value.to_owned())
}

/// The text that a call answers. It is made of what was lent as text and of ASCII, so it is text.
fn text(call: impl FnMut(&mut [u8], &mut usize) -> u8) -> Result<String, SignError> {
    match text_of(ROOM, call) {
        (ffi::DONE, text) => String::from_utf8(text).map_err(|_| SignError::Status(ffi::DONE)),
        (status, _) => Err(SignError::of_status(status)),
    }
}

/// The whole seconds from 1970 to the moment, at or before it.
pub(super) fn seconds_of(now: SystemTime) -> i64 {
    match now.duration_since(UNIX_EPOCH) {
        Ok(since) => i64::try_from(since.as_secs()).unwrap_or(i64::MAX),
        Err(before) => {
            let before = before.duration();
            let whole = i64::try_from(before.as_secs()).unwrap_or(i64::MAX);
            if before.subsec_nanos() == 0 { -whole } else { (-whole).saturating_sub(1) }
        }
    }
}
