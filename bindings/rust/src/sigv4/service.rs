//! A service for [`Signer`](crate::signer::Signer) that is ready: requests of any type, signed for AWS.
use super::{Credential, Head, Payload, RequestSigner, Version};
use crate::signer::{BoxError, SignRequest, SigningCredential};
use std::fmt;
use std::marker::PhantomData;
use std::time::{Duration, SystemTime};

/// How long before its end a key of a session is loaded anew, as reqsign's own services have it.
const EARLY: Duration = Duration::from_secs(120);

/// A request that [`SigV4`] can sign: it shows its parts, and takes headers.
///
/// ```
/// use domreth::sigv4::SignableRequest;
///
/// #[derive(Clone)]
/// struct Request {
///     method: String,
///     uri: String,
///     headers: Vec<(String, String)>,
/// }
///
/// impl SignableRequest for Request {
///     fn method(&self) -> &str {
///         &self.method
///     }
///
///     fn uri(&self) -> String {
///         self.uri.clone()
///     }
///
///     fn headers(&self) -> Vec<(&str, &[u8])> {
///         self.headers.iter().map(|(name, value)| (name.as_str(), value.as_bytes())).collect()
///     }
///
///     fn set_header(&mut self, name: &str, value: String) -> Result<(), domreth::signer::BoxError> {
///         self.headers.retain(|(its, _)| !its.eq_ignore_ascii_case(name));
///         self.headers.push((name.into(), value));
///         Ok(())
///     }
/// }
/// ```
pub trait SignableRequest: Clone + Send + 'static {
    /// The method, as `GET`.
    fn method(&self) -> &str;

    /// The URI with its scheme and its authority, as [`Head::uri`] has it.
    fn uri(&self) -> String;

    /// The headers, all of which are signed.
    fn headers(&self) -> Vec<(&str, &[u8])>;

    /// Puts the header in the place of those of its name. The name is in lower case.
    ///
    /// # Errors
    ///
    /// Where the request cannot have such a header. The request that was handed in stays as it was.
    fn set_header(&mut self, name: &str, value: String) -> Result<(), BoxError>;
}

/// A key of AWS, and when its session ends where it has one. It is loaded anew two minutes before that. Its debug text
/// shows nothing of the key.
#[derive(Clone, Debug)]
pub struct SessionKey {
    /// The key, with the token of its session.
    pub credential: Credential,
    /// When it ends; without a moment, never.
    pub expires: Option<SystemTime>,
}

impl SigningCredential for SessionKey {
    fn lasts_until(&self) -> Option<SystemTime> {
        self.expires
    }

    fn fresh_until(&self) -> Option<SystemTime> {
        self.expires.map(|end| end.checked_sub(EARLY).unwrap_or(end))
    }
}

/// Signs requests of a type in their headers, for one service in one region. The content is not signed, and for S3 the
/// header `x-amz-content-sha256` says so; a request that has this header already is signed by the word that it has.
///
/// ```
/// use domreth::signer::{BoxError, ProvideCredential, Signer};
/// use domreth::sigv4::{Credential, SessionKey, SigV4};
/// # use domreth::sigv4::SignableRequest;
/// # #[derive(Clone)]
/// # struct Get(String, Vec<(String, String)>);
/// # impl SignableRequest for Get {
/// #     fn method(&self) -> &str { "GET" }
/// #     fn uri(&self) -> String { self.0.clone() }
/// #     fn headers(&self) -> Vec<(&str, &[u8])> {
/// #         self.1.iter().map(|(name, value)| (name.as_str(), value.as_bytes())).collect()
/// #     }
/// #     fn set_header(&mut self, name: &str, value: String) -> Result<(), BoxError> {
/// #         self.1.push((name.into(), value));
/// #         Ok(())
/// #     }
/// # }
///
/// struct Environment;
///
/// impl ProvideCredential for Environment {
///     type Credential = SessionKey;
///     type Context = ();
///
///     async fn provide_credential(&self, _ctx: &()) -> Result<Option<SessionKey>, BoxError> {
///         # let var = |name: &str| Ok::<_, BoxError>(name.to_owned());
///         # #[cfg(any())]
///         use std::env::var;
///         let credential = Credential::new(var("AWS_ACCESS_KEY_ID")?, var("AWS_SECRET_ACCESS_KEY")?);
///         Ok(Some(SessionKey { credential, expires: None }))
///     }
/// }
///
/// # async fn signed(mut request: Get) -> Result<Get, BoxError> {
/// let signer = Signer::new((), Environment, SigV4::new("s3", "us-east-1"))?;
/// signer.sign(&mut request, None).await?;
/// # Ok(request)
/// # }
/// # let request = Get("https://examplebucket.s3.amazonaws.com/test.txt".into(), Vec::new());
/// # let polled = std::pin::pin!(signed(request)).poll(&mut std::task::Context::from_waker(std::task::Waker::noop()));
/// # let std::task::Poll::Ready(Ok(Get(_, headers))) = polled else { panic!() };
/// # let names: Vec<_> = headers.iter().map(|(name, _)| name.as_str()).collect();
/// # assert_eq!(names, ["x-amz-content-sha256", "host", "x-amz-date", "authorization"]);
/// # Ok::<(), BoxError>(())
/// ```
pub struct SigV4<R, C = ()> {
    signer: RequestSigner,
    says_content: bool,
    of: PhantomData<fn(R, C)>,
}

impl<R, C> SigV4<R, C> {
    /// For a service and a region, as `s3` and `us-east-1`.
    pub fn new(service: &str, region: &str) -> Self {
        SigV4 { signer: RequestSigner::new(service, region), says_content: service == "s3", of: PhantomData }
    }
}

impl<R: SignableRequest, C: Send + Sync + 'static> SignRequest for SigV4<R, C> {
    type Request = R;
    type Credential = SessionKey;
    type Context = C;

    async fn sign_request(
        &self,
        _ctx: &C,
        request: &mut R,
        key: &SessionKey,
        _expires_in: Option<Duration>,
        now: SystemTime,
    ) -> Result<(), BoxError> {
        let word = content_word(request);
        if word.is_none() && self.says_content {
            request.set_header(CONTENT, Payload::Unsigned.as_str().to_owned())?;
        }
        let payload = match word.as_deref() {
            None | Some("UNSIGNED-PAYLOAD") => Payload::Unsigned,
            Some(digest) => Payload::Sha256(digest),
        };
        let (uri, headers) = (request.uri(), request.headers());
        let head = Head { method: request.method(), uri: &uri, version: Version::V11, headers: &headers };
        for (name, value) in self.signer.sign(&head, &key.credential, payload, now)? {
            request.set_header(&name, value)?;
        }
        Ok(())
    }
}

impl<R, C> fmt::Debug for SigV4<R, C> {
    fn fmt(&self, f: &mut fmt::Formatter<'_>) -> fmt::Result {
        f.debug_tuple("SigV4").field(&self.signer).finish()
    }
}

const CONTENT: &str = "x-amz-content-sha256";

/// What the request says of its content, where it does.
fn content_word<R: SignableRequest>(request: &R) -> Option<String> {
    let headers = request.headers();
    let (_, word) = headers.iter().find(|(name, _)| name.eq_ignore_ascii_case(CONTENT))?;
    Some(String::from_utf8_lossy(word).into_owned())
}
