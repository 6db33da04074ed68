//! The desk: it says when a credential is to be loaded, who waits, and who is next. Whoever drives it keeps the
//! credentials, asks the providers and signs, in a runtime of their own; [`crate::signer`] is such a driver.
//!
//! A **cache** holds at most one credential, and is loaded by one provider or by a chain of them. A **rule** says how
//! much longer than to the end of an operation a credential has to last. A **handle** is a cache with a rule, and calls
//! are begun under it. Each method that a call is named to is one event, and the [`Reply`] says what to do next. The
//! reply that gives another call its turn names it, and that call is to be polled.
//!
//! A credential is a number of the driver's, with the moments until which it is fresh and lasts ([`Ticket`]), so no
//! secret crosses into the library.
//!
//! **What is proved**: after any events, each reply is that of a signer which serves the calls of a cache one at a
//! time, in the order of their first polls; or it is that memory ran out, at a begin. It follows that of a cache at
//! most one call is loading, and that no call waits while none has the turn. What is not: this module, which hands the
//! events over.
//!
//! ```
//! use domreth::desk::{CallId, Desk, DeskError, Loader, Reply, Ticket};
//! use std::time::{Duration, SystemTime};
//!
//! let mut desk = Desk::open()?;
//! let cache = desk.add_cache(Loader::Single)?;
//! let rule = desk.add_rule(Duration::ZERO)?;
//! let handle = desk.add_handle(cache, rule)?;
//! let (first, second) = (CallId { handle, number: 1 }, CallId { handle, number: 2 });
//! let now = SystemTime::now();
//!
//! assert_eq!(desk.begin(first, None)?, Reply::Begun);
//! assert_eq!(desk.begin(second, None)?, Reply::Begun);
//! assert_eq!(desk.poll(first, now)?, Reply::Ask { provider: 0 });
//! assert_eq!(desk.poll(second, now)?, Reply::Pending);
//! let hour = Duration::from_secs(3600);
//! let ticket = Ticket { number: 7, fresh: now + hour, lasts: now + hour };
//! assert_eq!(desk.found(first, now, ticket)?, Reply::Sign { credential: 7, wake: Some(second) });
//! assert_eq!(desk.poll(second, now)?, Reply::Sign { credential: 7, wake: None });
//! assert_eq!(desk.accept(first)?, Reply::Done);
//! assert_eq!(desk.cached(cache)?, Some(ticket));
//! # Ok::<(), DeskError>(())
//! ```
mod error;
mod ffi;
mod ids;
mod moment;
mod open;
mod reply;

pub use error::DeskError;
pub use ids::{CacheId, CallId, HandleId, Loader, RuleId};
pub use moment::Ticket;
pub(crate) use moment::up_to_last;
pub use open::Desk;
pub use reply::{Reply, Why};
