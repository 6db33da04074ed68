//! What a desk numbers.
use std::num::NonZeroU32;

/// A cache of a desk, by its number.
///
/// ```
/// use domreth::desk::{Desk, Loader};
///
/// let mut desk = Desk::open()?;
/// assert_eq!(desk.add_cache(Loader::Single)?.number(), 0);
/// assert_eq!(desk.add_cache(Loader::Single)?.number(), 1);
/// # Ok::<(), domreth::desk::DeskError>(())
/// ```
#[derive(Clone, Copy, Debug, PartialEq, Eq, Hash)]
pub struct CacheId(pub(super) u32);

/// A rule of a desk, by its number.
///
/// ```
/// use domreth::desk::Desk;
/// use std::time::Duration;
///
/// assert_eq!(Desk::open()?.add_rule(Duration::from_secs(30))?.number(), 0);
/// # Ok::<(), domreth::desk::DeskError>(())
/// ```
#[derive(Clone, Copy, Debug, PartialEq, Eq, Hash)]
pub struct RuleId(pub(super) u32);

/// A handle of a desk, by its number.
///
/// ```
/// use domreth::desk::{Desk, Loader};
/// use std::time::Duration;
///
/// let mut desk = Desk::open()?;
/// let (cache, rule) = (desk.add_cache(Loader::Single)?, desk.add_rule(Duration::ZERO)?);
/// assert_eq!(desk.add_handle(cache, rule)?.number(), 0);
/// # Ok::<(), domreth::desk::DeskError>(())
/// ```
#[derive(Clone, Copy, Debug, PartialEq, Eq, Hash)]
pub struct HandleId(pub(super) u32);

impl CacheId {
    /// Its number, from 0.
    pub fn number(self) -> u32 {
        self.0
    }
}

impl RuleId {
    /// Its number, from 0.
    pub fn number(self) -> u32 {
        self.0
    }
}

impl HandleId {
    /// Its number, from 0.
    pub fn number(self) -> u32 {
        self.0
    }
}

/// A call, by its handle and a number of the caller's. Under one handle each is above all that were begun before.
///
/// ```
/// use domreth::desk::{CallId, Desk, Loader, Reply};
/// use std::time::Duration;
///
/// let mut desk = Desk::open()?;
/// let (cache, rule) = (desk.add_cache(Loader::Single)?, desk.add_rule(Duration::ZERO)?);
/// let handle = desk.add_handle(cache, rule)?;
/// assert_eq!(desk.begin(CallId { handle, number: 5 }, None)?, Reply::Begun);
/// assert_eq!(desk.begin(CallId { handle, number: 5 }, None)?, Reply::NotNow);
/// # Ok::<(), domreth::desk::DeskError>(())
/// ```
#[derive(Clone, Copy, Debug, PartialEq, Eq, Hash)]
pub struct CallId {
    /// The handle that it is begun under.
    pub handle: HandleId,
    /// Its number there.
    pub number: u64,
}

/// How a cache is loaded.
///
/// ```
/// use domreth::desk::Loader;
/// use std::num::NonZeroU32;
///
/// assert_ne!(Loader::Single, Loader::Chain(NonZeroU32::MIN));
/// ```
#[derive(Clone, Copy, Debug, PartialEq, Eq, Hash)]
pub enum Loader {
    /// By one provider: its answer decides.
    Single,
    /// By so many providers, asked in order until one finds a credential. A failure of one is passed over.
    Chain(NonZeroU32),
}

impl Loader {
    /// As the library takes it.
    pub(super) fn providers(self) -> u32 {
        match self {
            Loader::Single => 0,
            Loader::Chain(count) => count.get(),
        }
    }
}
