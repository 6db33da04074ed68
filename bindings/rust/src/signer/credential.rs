//! What a credential says of itself.
use std::time::SystemTime;

/// A credential that requests are signed with.
///
/// It is asked once, where it is found: its moments are its own, and do not change.
///
/// ```
/// use domreth::signer::SigningCredential;
/// use std::time::{Duration, SystemTime};
///
/// struct Token {
///     until: SystemTime,
/// }
///
/// impl SigningCredential for Token {
///     fn lasts_until(&self) -> Option<SystemTime> {
///         Some(self.until)
///     }
///
///     // Another is loaded in the last five minutes.
///     fn fresh_until(&self) -> Option<SystemTime> {
///         self.until.checked_sub(Duration::from_secs(300))
///     }
/// }
///
/// let until = SystemTime::now() + Duration::from_secs(3600);
/// assert!(Token { until }.fresh_until() < Some(until));
/// ```
pub trait SigningCredential: Send + Sync + 'static {
    /// The moment at which it ends: it lasts to every moment before that. Without one it never ends.
    fn lasts_until(&self) -> Option<SystemTime>;

    /// The moment from which on a cache does not hand it out, and another is loaded. Without one it is always fresh.
    fn fresh_until(&self) -> Option<SystemTime> {
        self.lasts_until()
    }
}
