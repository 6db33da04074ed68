//! Providers, and what a cache asks.
use super::BoxError;
use crate::desk::Loader;
use std::fmt;
use std::num::NonZeroU32;
use std::pin::Pin;

/// A provider of credentials.
///
/// ```
/// use domreth::signer::{BoxError, ProvideCredential};
///
/// struct Environment;
///
/// impl ProvideCredential for Environment {
///     type Credential = String;
///     type Context = ();
///
///     async fn provide_credential(&self, _ctx: &()) -> Result<Option<String>, BoxError> {
///         Ok(std::env::var("ACCESS_TOKEN").ok())
///     }
/// }
/// ```
pub trait ProvideCredential: Send + Sync + 'static {
    /// What it provides.
    type Credential: Send + Sync + 'static;

    /// What it works in, which is the author's own.
    type Context: Send + Sync + 'static;

    /// Finds a credential, where it has one. The future is dropped where the call is that asked.
    fn provide_credential<'a>(
        &'a self,
        ctx: &'a Self::Context,
    ) -> impl Future<Output = Result<Option<Self::Credential>, BoxError>> + Send + 'a;
}

pub(super) type Load<'a, K> = Pin<Box<dyn Future<Output = Result<Option<K>, BoxError>> + Send + 'a>>;

/// A provider of whatever type.
trait ProvideCredentialDyn<K, C>: Send + Sync {
    fn provide_credential_dyn<'a>(&'a self, ctx: &'a C) -> Load<'a, K>;
}

impl<P: ProvideCredential> ProvideCredentialDyn<P::Credential, P::Context> for P {
    fn provide_credential_dyn<'a>(&'a self, ctx: &'a P::Context) -> Load<'a, P::Credential> {
        Box::pin(self.provide_credential(ctx))
    }
}

/// Providers that are asked in order until one finds a credential. A failure of one is passed over. Those past the
/// 4,294,967,295th are not asked.
///
/// ```
/// use domreth::signer::{BoxError, ProvideCredential, ProvideCredentialChain};
///
/// struct Fixed(Option<&'static str>);
///
/// impl ProvideCredential for Fixed {
///     type Credential = &'static str;
///     type Context = ();
///
///     async fn provide_credential(&self, _ctx: &()) -> Result<Option<&'static str>, BoxError> {
///         Ok(self.0)
///     }
/// }
///
/// let chain = ProvideCredentialChain::new().push(Fixed(None)).push(Fixed(Some("token"))).push_front(Fixed(None));
/// assert_eq!(chain.len(), 3);
/// assert!(!chain.is_empty());
/// assert_eq!(format!("{chain:?}"), "ProvideCredentialChain { providers_count: 3, .. }");
/// ```
pub struct ProvideCredentialChain<K, C> {
    providers: Vec<Box<dyn ProvideCredentialDyn<K, C>>>,
}

impl<K, C> ProvideCredentialChain<K, C> {
    /// A chain of no providers, which finds nothing.
    pub fn new() -> Self {
        ProvideCredentialChain { providers: Vec::new() }
    }

    /// The same with one more provider, which is asked last.
    pub fn push(mut self, provider: impl ProvideCredential<Credential = K, Context = C>) -> Self {
        self.providers.push(Box::new(provider));
        self
    }

    /// The same with one more provider, which is asked first.
    pub fn push_front(mut self, provider: impl ProvideCredential<Credential = K, Context = C>) -> Self {
        self.providers.insert(0, Box::new(provider));
        self
    }

    /// How many providers it has.
    pub fn len(&self) -> usize {
        self.providers.len()
    }

    /// Whether it has none.
    pub fn is_empty(&self) -> bool {
        self.providers.is_empty()
    }
}

impl<K, C> Default for ProvideCredentialChain<K, C> {
    fn default() -> Self {
        Self::new()
    }
}

impl<K, C> fmt::Debug for ProvideCredentialChain<K, C> {
    fn fmt(&self, f: &mut fmt::Formatter<'_>) -> fmt::Result {
        f.debug_struct("ProvideCredentialChain").field("providers_count", &self.len()).finish_non_exhaustive()
    }
}

/// What loads a cache: one provider, whose failure is the load's, or a chain, which passes over failures.
///
/// ```
/// use domreth::signer::{BoxError, ProvideCredential, ProvideCredentialChain, Providers};
///
/// struct Nothing;
///
/// impl ProvideCredential for Nothing {
///     type Credential = String;
///     type Context = ();
///
///     async fn provide_credential(&self, _ctx: &()) -> Result<Option<String>, BoxError> {
///         Ok(None)
///     }
/// }
///
/// let single: Providers<String, ()> = Nothing.into();
/// let chain: Providers<String, ()> = ProvideCredentialChain::new().push(Nothing).into();
/// assert_eq!(format!("{single:?} {chain:?}"), "Single Chain(1)");
/// ```
pub struct Providers<K, C>(Source<K, C>);

enum Source<K, C> {
    Single(Box<dyn ProvideCredentialDyn<K, C>>),
    Chain(ProvideCredentialChain<K, C>),
}

impl<K, C> Providers<K, C> {
    /// How the desk is to load a cache from these.
    pub(super) fn loader(&self) -> Loader {
        match &self.0 {
            Source::Single(_) => Loader::Single,
            // One provider that is not there finds as little as none do.
            Source::Chain(chain) => {
                NonZeroU32::new(u32::try_from(chain.len()).unwrap_or(u32::MAX)).map_or(Loader::Single, Loader::Chain)
            }
        }
    }

    /// Asks the provider of this place, where there is one.
    pub(super) fn ask<'a>(&'a self, place: u32, ctx: &'a C) -> Option<Load<'a, K>> {
        let provider = match &self.0 {
            Source::Single(provider) => provider,
            Source::Chain(chain) => chain.providers.get(usize::try_from(place).ok()?)?,
        };
        Some(provider.provide_credential_dyn(ctx))
    }
}

impl<P: ProvideCredential> From<P> for Providers<P::Credential, P::Context> {
    fn from(provider: P) -> Self {
        Providers(Source::Single(Box::new(provider)))
    }
}

impl<K, C> From<ProvideCredentialChain<K, C>> for Providers<K, C> {
    fn from(chain: ProvideCredentialChain<K, C>) -> Self {
        Providers(Source::Chain(chain))
    }
}

impl<K, C> fmt::Debug for Providers<K, C> {
    fn fmt(&self, f: &mut fmt::Formatter<'_>) -> fmt::Result {
        match &self.0 {
            Source::Single(_) => f.write_str("Single"),
            Source::Chain(chain) => write!(f, "Chain({})", chain.len()),
        }
    }
}
