//! The signer.
use super::call::{Call, Step};
use super::line::Line;
use super::{Providers, Refusal, SignRequest, SigningCredential};
use std::fmt;
use std::sync::Arc;
use std::time::{Duration, SystemTime};

/// Signs requests with a credential that it loads, caches and refreshes. A clone shares the cache.
///
/// ```
/// # mod bearer { include!(concat!(env!("CARGO_MANIFEST_DIR"), "/tests/doc/bearer.rs")); }
/// # use bearer::*;
/// # at_once(async {
/// let signer = Signer::new((), TokenServer("let me in"), Header("authorization"))?;
/// let mut headers = vec!["host: e.x".to_owned()];
/// signer.sign(&mut headers, None).await?;
/// assert_eq!(headers, ["host: e.x", "authorization: let me in"]);
/// assert_eq!(format!("{signer:?}"), "Signer(***)");
/// # Ok::<(), Refusal>(())
/// # }).unwrap();
/// ```
pub struct Signer<S: SignRequest> {
    cache: Arc<Cache<S::Credential, S::Context>>,
    ctx: Arc<S::Context>,
    service: Arc<S>,
    clock: Arc<dyn Fn() -> SystemTime + Send + Sync>,
}

/// A cache, and what loads it.
struct Cache<K, C> {
    line: Line<K>,
    providers: Providers<K, C>,
}

impl<K: SigningCredential, C> Cache<K, C> {
    fn new(providers: Providers<K, C>) -> Result<Self, Refusal> {
        Ok(Cache { line: Line::new(providers.loader())?, providers })
    }
}

impl<S: SignRequest> Signer<S> {
    /// A signer with an empty cache. Its clock is `SystemTime::now`.
    ///
    /// # Errors
    ///
    /// [`Refusal::OutOfMemory`].
    ///
    /// ```
    /// # mod bearer { include!(concat!(env!("CARGO_MANIFEST_DIR"), "/tests/doc/bearer.rs")); }
    /// # use bearer::*;
    /// # at_once(async {
    /// let signer = Signer::new((), TokenServer("let me in"), Header("authorization"))?;
    /// # Ok::<(), Refusal>(())
    /// # }).unwrap();
    /// ```
    pub fn new(
        ctx: S::Context,
        providers: impl Into<Providers<S::Credential, S::Context>>,
        service: S,
    ) -> Result<Self, Refusal> {
        Ok(Signer {
            cache: Arc::new(Cache::new(providers.into())?),
            ctx: Arc::new(ctx),
            service: Arc::new(service),
            clock: Arc::new(SystemTime::now),
        })
    }

    /// The same signer by another clock. Calls that share a cache should go by one.
    ///
    /// ```
    /// # mod bearer { include!(concat!(env!("CARGO_MANIFEST_DIR"), "/tests/doc/bearer.rs")); }
    /// # use bearer::*;
    /// # at_once(async {
    /// let signer = Signer::new((), TokenServer("let me in"), Header("authorization"))?;
    /// // In a test, say, where it is always the start of 1970.
    /// let signer = signer.with_clock(|| SystemTime::UNIX_EPOCH);
    /// signer.sign(&mut Vec::new(), None).await?;
    /// # Ok::<(), Refusal>(())
    /// # }).unwrap();
    /// ```
    pub fn with_clock(self, clock: impl Fn() -> SystemTime + Send + Sync + 'static) -> Self {
        Signer { clock: Arc::new(clock), ..self }
    }

    /// The same signer, whose providers and service work in another context. It shares the cache.
    ///
    /// ```
    /// # mod bearer { include!(concat!(env!("CARGO_MANIFEST_DIR"), "/tests/doc/bearer.rs")); }
    /// # use bearer::*;
    /// # at_once(async {
    /// let signer = Signer::new((), TokenServer("let me in"), Header("authorization"))?;
    /// let other = signer.clone().with_context(());
    /// other.sign(&mut Vec::new(), None).await?;
    /// # Ok::<(), Refusal>(())
    /// # }).unwrap();
    /// ```
    pub fn with_context(self, ctx: S::Context) -> Self {
        Signer { ctx: Arc::new(ctx), ..self }
    }

    /// The same signer for another service. It shares the cache.
    ///
    /// ```
    /// # mod bearer { include!(concat!(env!("CARGO_MANIFEST_DIR"), "/tests/doc/bearer.rs")); }
    /// # use bearer::*;
    /// # at_once(async {
    /// let signer = Signer::new((), TokenServer("let me in"), Header("authorization"))?;
    /// let other = signer.clone().with_request_signer(Header("x-token"));
    /// let mut headers = Vec::new();
    /// other.sign(&mut headers, None).await?;
    /// assert_eq!(headers, ["x-token: let me in"]);
    /// # Ok::<(), Refusal>(())
    /// # }).unwrap();
    /// ```
    pub fn with_request_signer<T>(self, service: T) -> Signer<T>
    where
        T: SignRequest<Credential = S::Credential, Context = S::Context>,
    {
        Signer { cache: self.cache, ctx: self.ctx, service: Arc::new(service), clock: self.clock }
    }

    /// The same signer with other providers, and an empty cache of its own.
    ///
    /// # Errors
    ///
    /// [`Refusal::OutOfMemory`].
    ///
    /// ```
    /// # mod bearer { include!(concat!(env!("CARGO_MANIFEST_DIR"), "/tests/doc/bearer.rs")); }
    /// # use bearer::*;
    /// # at_once(async {
    /// let signer = Signer::new((), TokenServer("let me in"), Header("authorization"))?;
    /// let other = signer.clone().with_credential_provider(TokenServer("and me"))?;
    /// let mut headers = Vec::new();
    /// other.sign(&mut headers, None).await?;
    /// assert_eq!(headers, ["authorization: and me"]);
    /// # Ok::<(), Refusal>(())
    /// # }).unwrap();
    /// ```
    pub fn with_credential_provider(
        self,
        providers: impl Into<Providers<S::Credential, S::Context>>,
    ) -> Result<Self, Refusal> {
        Ok(Signer { cache: Arc::new(Cache::new(providers.into())?), ..self })
    }

    /// Signs the request, for an operation that takes so long where that is known.
    ///
    /// The call begins at the first poll of the future, and stands in line by it. Where it returns `Ok` the request is
    /// the signed one; in every other case, also where the future is dropped, it is as it was.
    ///
    /// # Errors
    ///
    /// The cause why the call is refused.
    ///
    /// ```
    /// # mod bearer { include!(concat!(env!("CARGO_MANIFEST_DIR"), "/tests/doc/bearer.rs")); }
    /// # use bearer::*;
    /// # at_once(async {
    /// struct Nobody;
    ///
    /// impl ProvideCredential for Nobody {
    ///     type Credential = Token;
    ///     type Context = ();
    ///
    ///     async fn provide_credential(&self, _ctx: &()) -> Result<Option<Token>, BoxError> {
    ///         Ok(None)
    ///     }
    /// }
    ///
    /// let signer = Signer::new((), Nobody, Header("authorization"))?;
    /// let mut headers = Vec::new();
    /// let refused = signer.sign(&mut headers, Some(Duration::from_secs(60))).await;
    /// assert!(matches!(refused, Err(Refusal::Missing)) && headers.is_empty());
    /// # Ok::<(), Refusal>(())
    /// # }).unwrap();
    /// ```
    pub async fn sign(&self, request: &mut S::Request, expires_in: Option<Duration>) -> Result<(), Refusal> {
        // A sum past the longest duration ends past the library's last moment in either case.
        let duration = expires_in.unwrap_or_default().saturating_add(self.service.margin());
        let mut call = Call::begin(&self.cache.line, duration)?;
        let (credential, now) = self.credential(&mut call).await?;
        let mut candidate = request.clone();
        match self.service.sign_request(&self.ctx, &mut candidate, &credential, expires_in, now).await {
            Ok(()) => {
                call.accept()?;
                *request = candidate;
                Ok(())
            }
            Err(error) => Err(call.reject(error)),
        }
    }

    /// What the call is to sign with, and the moment at which that was found to serve it.
    async fn credential(
        &self,
        call: &mut Call<'_, S::Credential>,
    ) -> Result<(Arc<S::Credential>, SystemTime), Refusal> {
        let (mut step, mut now) = call.turn(&*self.clock).await?;
        loop {
            let place = match step {
                Step::Sign(credential) => return Ok((credential, now)),
                Step::Ask(place) => place,
            };
            let answer = match self.cache.providers.ask(place, &self.ctx) {
                Some(load) => load.await,
                None => Ok(None),
            };
            now = (self.clock)();
            step = match answer {
                Ok(Some(credential)) => call.found(now, credential),
                Ok(None) => call.missing(now),
                Err(error) => call.failed(now, error),
            }?;
        }
    }
}

impl<S: SignRequest> Clone for Signer<S> {
    fn clone(&self) -> Self {
        Signer {
            cache: Arc::clone(&self.cache),
            ctx: Arc::clone(&self.ctx),
            service: Arc::clone(&self.service),
            clock: Arc::clone(&self.clock),
        }
    }
}

impl<S: SignRequest> fmt::Debug for Signer<S> {
    fn fmt(&self, f: &mut fmt::Formatter<'_>) -> fmt::Result {
        f.write_str("Signer(***)")
    }
}
