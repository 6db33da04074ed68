//! Services.
use super::{BoxError, SigningCredential};
use std::time::{Duration, SystemTime};

/// A service that signs requests with a credential.
///
/// ```
/// use domreth::signer::{BoxError, SignRequest, SigningCredential};
/// use domreth::sigv4::{Credential, Head, Payload, RequestSigner, Version};
/// use std::time::{Duration, SystemTime};
///
/// #[derive(Clone)]
/// struct Request {
///     method: String,
///     uri: String,
///     headers: Vec<(String, String)>,
/// }
///
/// struct Keys {
///     keys: Credential,
///     until: SystemTime,
/// }
///
/// impl SigningCredential for Keys {
///     fn lasts_until(&self) -> Option<SystemTime> {
///         Some(self.until)
///     }
/// }
///
/// struct Aws(RequestSigner);
///
/// impl SignRequest for Aws {
///     type Request = Request;
///     type Credential = Keys;
///     type Context = ();
///
///     async fn sign_request(
///         &self,
///         _ctx: &(),
///         request: &mut Request,
///         credential: &Keys,
///         _expires_in: Option<Duration>,
///         now: SystemTime,
///     ) -> Result<(), BoxError> {
///         let headers = request.headers.iter().map(|(name, value)| (name.as_str(), value.as_bytes()));
///         let headers: Vec<_> = headers.collect();
///         let head = Head { method: &request.method, uri: &request.uri, version: Version::V11, headers: &headers };
///         let added = self.0.sign(&head, &credential.keys, Payload::Unsigned, now)?;
///         request.headers.extend(added);
///         Ok(())
///     }
///
///     // A request that is signed now may arrive half a minute later.
///     fn margin(&self) -> Duration {
///         Duration::from_secs(30)
///     }
/// }
/// ```
pub trait SignRequest: Send + Sync + 'static {
    /// The request. A copy of it is signed, and takes its place where the call is done; so what is large in it and is
    /// not changed, as its content, stands behind an `Arc` or apart.
    type Request: Clone + Send;

    /// What it signs with.
    type Credential: SigningCredential;

    /// What it works in, which is the author's own.
    type Context: Send + Sync + 'static;

    /// Signs the request in place. The credential lasts to `now`, and `expires_in` and the margin beyond it; a date in
    /// the signature is that of `now`. Whether `expires_in` asks for a link, or for nothing, is the service's.
    fn sign_request<'a>(
        &'a self,
        ctx: &'a Self::Context,
        request: &'a mut Self::Request,
        credential: &'a Self::Credential,
        expires_in: Option<Duration>,
        now: SystemTime,
    ) -> impl Future<Output = Result<(), BoxError>> + Send + 'a;

    /// How much longer than to the end of the operation a credential has to last. A constant of the service.
    fn margin(&self) -> Duration {
        Duration::ZERO
    }
}
