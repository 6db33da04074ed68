//! Keys that are derived once a day.
use super::signer::{added, seconds_of};
use super::{Head, Payload, RequestSigner, SignError};
use crate::ffi;
use crate::wiped::{wipe, wipe_text};
use std::fmt;
use std::time::SystemTime;

const SECONDS_OF_A_DAY: i64 = 86_400;

/// The signing key of an access key for one day in UTC, one region and one service, and the token of its session where
/// it has one. Its debug text shows nothing of them.
///
/// [`RequestSigner::derive_key`] derives one, and its bytes may cross to a machine that has no secret. Who has them can
/// sign for that day, region and service, and for nothing else.
///
/// ```
/// use domreth::sigv4::{Credential, DerivedKey, RequestSigner, SignError};
/// use std::time::{Duration, UNIX_EPOCH};
///
/// let signer = RequestSigner::new("iam", "us-east-1");
/// let credential = Credential::new("AKIDEXAMPLE", "wJalrXUtnFEMI/K7MDENG+bPxRfiCYEXAMPLEKEY");
/// let now = UNIX_EPOCH + Duration::from_secs(1_440_938_160);
/// let key = signer.derive_key(&credential, now)?;
/// assert_eq!(key.as_bytes()[..4], [0xc4, 0xaf, 0xb1, 0xcc]);
/// assert_eq!(DerivedKey::from_bytes(signer, "AKIDEXAMPLE", *key.as_bytes(), now), key);
/// assert_eq!(format!("{key:?}"), "DerivedKey(***)");
/// # Ok::<(), SignError>(())
/// ```
#[derive(Clone, PartialEq, Eq)]
pub struct DerivedKey {
    signer: RequestSigner,
    access_key_id: String,
    bytes: [u8; DerivedKey::LEN],
    session_token: Option<String>,
    /// Counted from 1970 on.
    day: i64,
}

impl DerivedKey {
    /// How many bytes a key has.
    pub const LEN: usize = 32;

    /// The key of these bytes, which were derived of the access key's secret for the service and the region of the signer
    /// and the day of the moment. That they were is not asked.
    pub fn from_bytes(
        signer: RequestSigner,
        access_key_id: impl Into<String>,
        bytes: [u8; DerivedKey::LEN],
        now: SystemTime,
    ) -> Self {
        DerivedKey { signer, access_key_id: access_key_id.into(), bytes, session_token: None, day: day_of(now) }
    }

    /// The same key, of the session with this token.
    #[must_use]
    pub fn with_session_token(mut self, token: impl Into<String>) -> Self {
        self.session_token = Some(token.into());
        self
    }

    /// The bytes, which are a secret for the key's day, region and service.
    pub fn as_bytes(&self) -> &[u8; DerivedKey::LEN] {
        &self.bytes
    }

    /// Whether the moment is of the key's day. Where it is not, derive another key.
    #[must_use]
    pub fn is_for_day_of(&self, now: SystemTime) -> bool {
        self.day == day_of(now)
    }

    /// The headers that [`RequestSigner::sign`] adds to the head under the secret.
    ///
    /// # Errors
    ///
    /// `Moment` where the moment is of another day than the key; or the first cause that holds, or that memory ran out.
    pub fn sign(
        &self,
        head: &Head<'_>,
        payload: Payload<'_>,
        now: SystemTime,
    ) -> Result<Vec<(String, String)>, SignError> {
        if !self.is_for_day_of(now) {
            return Err(SignError::Moment);
        }
        let (key, payload, second) = (self.lent(), payload.as_str(), seconds_of(now));
        // SAFETY: the declaration fits the export; what the pointers are to is lent for the call, the output and
        // `needed` to it alone; and the export asks nothing of its values.
        added(head, self.session_token.as_deref(), |head, output, needed| unsafe {
            let (at, room) = (output.as_mut_ptr(), output.len());
            ffi::domreth_sign_with(head, &key, payload.as_ptr(), payload.len(), second, at, room, needed)
        })
    }

    fn lent(&self) -> ffi::DerivedKey<'_> {
        let (region, service) = self.signer.scope();
        ffi::DerivedKey {
            access: self.access_key_id.as_str().into(),
            key: self.bytes.as_slice().into(),
            region: region.into(),
            service: service.into(),
        }
    }
}

/// The bytes and the token are wiped.
impl Drop for DerivedKey {
    fn drop(&mut self) {
        wipe(&mut self.bytes);
        self.session_token.iter_mut().for_each(wipe_text);
    }
}

impl fmt::Debug for DerivedKey {
    fn fmt(&self, f: &mut fmt::Formatter<'_>) -> fmt::Result {
        f.write_str("DerivedKey(***)")
    }
}

/// The day of a moment in UTC, counted from 1970 on.
fn day_of(now: SystemTime) -> i64 {
    seconds_of(now).div_euclid(SECONDS_OF_A_DAY)
}
