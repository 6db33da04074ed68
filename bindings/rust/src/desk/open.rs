//! A desk that is open.
use super::{CacheId, CallId, DeskError, HandleId, Loader, Reply, RuleId, Ticket, ffi};
use std::cell::Cell;
use std::fmt;
use std::time::{Duration, SystemTime};

/// A desk. Caches, rules and handles are added before the first begin; all else is one event of a call each.
///
/// The driver of a desk polls the call that a reply wakes, and cancels each call that it gives up: where it does not,
/// the calls behind that one wait for ever. A credential keeps its number for as long as a cache may hand it out
/// ([`Desk::cached`]).
///
/// A desk may be moved to another thread, and is closed where it is dropped.
pub struct Desk {
    /// A cell, since the library takes a desk out of its place and puts it back, where it only reads it too.
    desk: Cell<ffi::Desk>,
}

// SAFETY: the library keeps nothing by thread, and a desk is that of one owner, whose calls come one after another.
unsafe impl Send for Desk {}

impl Desk {
    /// A desk with no caches, rules, handles or calls.
    ///
    /// # Errors
    ///
    /// [`DeskError::OutOfMemory`].
    ///
    /// ```
    /// use domreth::desk::{Desk, DeskError};
    ///
    /// let desk = Desk::open()?;
    /// assert_eq!(format!("{desk:?}"), "Desk(***)");
    /// # Ok::<(), DeskError>(())
    /// ```
    pub fn open() -> Result<Desk, DeskError> {
        crate::version::look();
        let mut desk = Desk { desk: Cell::new(ffi::Desk::CLOSED) };
        DeskError::check(ffi::domreth_desk_open(desk.desk.get_mut()))?;
        Ok(desk)
    }

    /// Adds an empty cache.
    ///
    /// # Errors
    ///
    /// [`DeskError::Late`] after the first begin, [`DeskError::Full`] and [`DeskError::OutOfMemory`].
    ///
    /// ```
    /// # use domreth::desk::{Desk, DeskError, Loader};
    /// # use std::time::Duration;
    /// # let mut desk = Desk::open()?;
    /// let single = desk.add_cache(Loader::Single)?;
    /// let chain = desk.add_cache(Loader::Chain(3.try_into().unwrap()))?;
    /// assert_ne!(single, chain);
    /// # Ok::<(), DeskError>(())
    /// ```
    pub fn add_cache(&mut self, loader: Loader) -> Result<CacheId, DeskError> {
        let mut number = 0;
        DeskError::check(ffi::domreth_desk_add_cache(self.desk.get_mut(), loader.providers(), &mut number))?;
        Ok(CacheId(number))
    }

    /// Adds the rule that a credential has to last so much longer than to the end of an operation.
    ///
    /// # Errors
    ///
    /// Those of [`Desk::add_cache`].
    ///
    /// ```
    /// # use domreth::desk::{Desk, DeskError, Loader};
    /// # use std::time::Duration;
    /// # let mut desk = Desk::open()?;
    /// let rule = desk.add_rule(Duration::from_secs(30))?;
    /// assert_eq!(rule.number(), 0);
    /// # Ok::<(), DeskError>(())
    /// ```
    pub fn add_rule(&mut self, margin: Duration) -> Result<RuleId, DeskError> {
        let mut number = 0;
        let (seconds, nanos) = (margin.as_secs(), margin.subsec_nanos());
        DeskError::check(ffi::domreth_desk_add_rule(self.desk.get_mut(), seconds, nanos, &mut number))?;
        Ok(RuleId(number))
    }

    /// Adds a handle on this cache with this rule.
    ///
    /// # Errors
    ///
    /// Those of [`Desk::add_cache`], and that there is no such cache or rule.
    ///
    /// ```
    /// # use domreth::desk::{Desk, DeskError, Loader};
    /// # use std::time::Duration;
    /// # let mut desk = Desk::open()?;
    /// let cache = desk.add_cache(Loader::Single)?;
    /// let (now, later) = (desk.add_rule(Duration::ZERO)?, desk.add_rule(Duration::from_secs(60))?);
    /// assert_ne!(desk.add_handle(cache, now)?, desk.add_handle(cache, later)?);
    /// # Ok::<(), DeskError>(())
    /// ```
    pub fn add_handle(&mut self, cache: CacheId, rule: RuleId) -> Result<HandleId, DeskError> {
        let mut number = 0;
        DeskError::check(ffi::domreth_desk_add_handle(self.desk.get_mut(), cache.0, rule.0, &mut number))?;
        Ok(HandleId(number))
    }

    /// Begins a call, whose operation takes so long where that is known.
    ///
    /// Replies: [`Begun`](Reply::Begun); [`NotNow`](Reply::NotNow) where there is no such handle, or the number is not
    /// above all that were begun under it; [`OutOfMemory`](Reply::OutOfMemory).
    ///
    /// # Errors
    ///
    /// [`DeskError::Status`].
    ///
    /// ```
    /// # use domreth::desk::{CallId, Desk, DeskError, Loader, Reply, Ticket, Why};
    /// # use std::time::{Duration, SystemTime};
    /// # let mut desk = Desk::open()?;
    /// # let (cache, rule) = (desk.add_cache(Loader::Single)?, desk.add_rule(Duration::ZERO)?);
    /// # let call = CallId { handle: desk.add_handle(cache, rule)?, number: 1 };
    /// # let now = SystemTime::now();
    /// assert_eq!(desk.begin(call, Some(Duration::from_secs(60)))?, Reply::Begun);
    /// assert_eq!(desk.begin(call, None)?, Reply::NotNow);
    /// # Ok::<(), DeskError>(())
    /// ```
    pub fn begin(&mut self, call: CallId, expires_in: Option<Duration>) -> Result<Reply, DeskError> {
        let duration = expires_in.unwrap_or_default();
        let (seconds, nanos) = (duration.as_secs(), duration.subsec_nanos());
        self.event(call, |desk, handle, number, reply| {
            ffi::domreth_desk_begin(desk, handle, number, expires_in.is_some(), seconds, nanos, reply)
        })
    }

    /// Asks for the call's next step. The first poll puts it in line.
    ///
    /// Replies: [`Pending`](Reply::Pending); at its turn [`Sign`](Reply::Sign) where the cached credential is fresh and
    /// lasts to the deadline, [`Ask`](Reply::Ask) where none such is there, and [`Refused`](Reply::Refused) for
    /// [`Why::Range`](super::Why::Range); [`NotNow`](Reply::NotNow) where the call is not begun, or over.
    ///
    /// # Errors
    ///
    /// [`DeskError::Moment`].
    ///
    /// ```
    /// # use domreth::desk::{CallId, Desk, DeskError, Loader, Reply, Ticket, Why};
    /// # use std::time::{Duration, SystemTime};
    /// # let mut desk = Desk::open()?;
    /// # let (cache, rule) = (desk.add_cache(Loader::Single)?, desk.add_rule(Duration::ZERO)?);
    /// # let call = CallId { handle: desk.add_handle(cache, rule)?, number: 1 };
    /// # let now = SystemTime::now();
    /// desk.begin(call, None)?;
    /// assert_eq!(desk.poll(call, now)?, Reply::Ask { provider: 0 });
    /// assert_eq!(desk.poll(call, now)?, Reply::Pending);
    /// # Ok::<(), DeskError>(())
    /// ```
    pub fn poll(&mut self, call: CallId, now: SystemTime) -> Result<Reply, DeskError> {
        let now = now.into();
        self.event(call, |desk, handle, number, reply| ffi::domreth_desk_poll(desk, handle, number, &now, reply))
    }

    /// Tells that the provider which was asked has this credential.
    ///
    /// Replies: [`Sign`](Reply::Sign) where it lasts to the deadline, and then the cache holds it;
    /// [`Refused`](Reply::Refused) for [`Why::Short`](super::Why::Short) or [`Why::Range`](super::Why::Range);
    /// [`NotNow`](Reply::NotNow) where the call asked nobody.
    ///
    /// # Errors
    ///
    /// [`DeskError::Moment`], of now or of the credential.
    ///
    /// ```
    /// # use domreth::desk::{CallId, Desk, DeskError, Loader, Reply, Ticket, Why};
    /// # use std::time::{Duration, SystemTime};
    /// # let mut desk = Desk::open()?;
    /// # let (cache, rule) = (desk.add_cache(Loader::Single)?, desk.add_rule(Duration::ZERO)?);
    /// # let call = CallId { handle: desk.add_handle(cache, rule)?, number: 1 };
    /// # let now = SystemTime::now();
    /// desk.begin(call, Some(Duration::from_secs(60)))?;
    /// desk.poll(call, now)?;
    /// let minute = now + Duration::from_secs(60);
    /// let ticket = Ticket { number: 7, fresh: minute, lasts: minute };
    /// let refused = desk.found(call, now, ticket)?;
    /// assert_eq!(refused, Reply::Refused { why: Why::Short(minute), wake: None });
    /// # Ok::<(), DeskError>(())
    /// ```
    pub fn found(&mut self, call: CallId, now: SystemTime, credential: Ticket) -> Result<Reply, DeskError> {
        let (now, ticket) = (now.into(), credential.into());
        self.event(call, |desk, handle, number, reply| {
            ffi::domreth_desk_found(desk, handle, number, &now, &ticket, reply)
        })
    }

    /// Tells that the provider which was asked has no credential.
    ///
    /// Replies: [`Ask`](Reply::Ask) for the next of a chain; [`Refused`](Reply::Refused) for
    /// [`Why::Missing`](super::Why::Missing); [`NotNow`](Reply::NotNow) where the call asked nobody.
    ///
    /// # Errors
    ///
    /// [`DeskError::Moment`].
    ///
    /// ```
    /// # use domreth::desk::{CallId, Desk, DeskError, Loader, Reply, Ticket, Why};
    /// # use std::time::{Duration, SystemTime};
    /// # let mut desk = Desk::open()?;
    /// # let (cache, rule) = (desk.add_cache(Loader::Single)?, desk.add_rule(Duration::ZERO)?);
    /// # let call = CallId { handle: desk.add_handle(cache, rule)?, number: 1 };
    /// # let now = SystemTime::now();
    /// desk.begin(call, None)?;
    /// desk.poll(call, now)?;
    /// assert_eq!(desk.missing(call, now)?, Reply::Refused { why: Why::Missing, wake: None });
    /// # Ok::<(), DeskError>(())
    /// ```
    pub fn missing(&mut self, call: CallId, now: SystemTime) -> Result<Reply, DeskError> {
        let now = now.into();
        self.event(call, |desk, handle, number, reply| ffi::domreth_desk_missing(desk, handle, number, &now, reply))
    }

    /// Tells that the provider which was asked failed, by a number of the caller's for it.
    ///
    /// Replies: those of [`Desk::missing`], but that a single provider's failure is
    /// [`Why::Loader`](super::Why::Loader).
    ///
    /// # Errors
    ///
    /// [`DeskError::Moment`].
    ///
    /// ```
    /// # use domreth::desk::{CallId, Desk, DeskError, Loader, Reply, Ticket, Why};
    /// # use std::time::{Duration, SystemTime};
    /// # let mut desk = Desk::open()?;
    /// # let (cache, rule) = (desk.add_cache(Loader::Single)?, desk.add_rule(Duration::ZERO)?);
    /// # let call = CallId { handle: desk.add_handle(cache, rule)?, number: 1 };
    /// # let now = SystemTime::now();
    /// desk.begin(call, None)?;
    /// desk.poll(call, now)?;
    /// assert_eq!(desk.failed(call, now, 503)?, Reply::Refused { why: Why::Loader(503), wake: None });
    /// # Ok::<(), DeskError>(())
    /// ```
    pub fn failed(&mut self, call: CallId, now: SystemTime, failure: u64) -> Result<Reply, DeskError> {
        let now = now.into();
        self.event(call, |desk, handle, number, reply| {
            ffi::domreth_desk_failed(desk, handle, number, &now, failure, reply)
        })
    }

    /// Tells that the service signed.
    ///
    /// Replies: [`Done`](Reply::Done); [`NotNow`](Reply::NotNow) where the call was handed no credential.
    ///
    /// # Errors
    ///
    /// [`DeskError::Status`].
    ///
    /// ```
    /// # use domreth::desk::{CallId, Desk, DeskError, Loader, Reply, Ticket, Why};
    /// # use std::time::{Duration, SystemTime};
    /// # let mut desk = Desk::open()?;
    /// # let (cache, rule) = (desk.add_cache(Loader::Single)?, desk.add_rule(Duration::ZERO)?);
    /// # let call = CallId { handle: desk.add_handle(cache, rule)?, number: 1 };
    /// # let now = SystemTime::now();
    /// desk.begin(call, None)?;
    /// desk.poll(call, now)?;
    /// let minute = now + Duration::from_secs(60);
    /// desk.found(call, now, Ticket { number: 7, fresh: minute, lasts: minute })?;
    /// assert_eq!(desk.accept(call)?, Reply::Done);
    /// # Ok::<(), DeskError>(())
    /// ```
    pub fn accept(&mut self, call: CallId) -> Result<Reply, DeskError> {
        self.event(call, |desk, handle, number, reply| ffi::domreth_desk_accept(desk, handle, number, reply))
    }

    /// Tells that the service failed, by a number of the caller's for it.
    ///
    /// Replies: [`Refused`](Reply::Refused) for [`Why::Service`](super::Why::Service); [`NotNow`](Reply::NotNow) where
    /// the call was handed no credential.
    ///
    /// # Errors
    ///
    /// [`DeskError::Status`].
    ///
    /// ```
    /// # use domreth::desk::{CallId, Desk, DeskError, Loader, Reply, Ticket, Why};
    /// # use std::time::{Duration, SystemTime};
    /// # let mut desk = Desk::open()?;
    /// # let (cache, rule) = (desk.add_cache(Loader::Single)?, desk.add_rule(Duration::ZERO)?);
    /// # let call = CallId { handle: desk.add_handle(cache, rule)?, number: 1 };
    /// # let now = SystemTime::now();
    /// desk.begin(call, None)?;
    /// desk.poll(call, now)?;
    /// let minute = now + Duration::from_secs(60);
    /// desk.found(call, now, Ticket { number: 7, fresh: minute, lasts: minute })?;
    /// assert_eq!(desk.reject(call, 1)?, Reply::Refused { why: Why::Service(1), wake: None });
    /// # Ok::<(), DeskError>(())
    /// ```
    pub fn reject(&mut self, call: CallId, failure: u64) -> Result<Reply, DeskError> {
        self.event(call, |desk, handle, number, reply| ffi::domreth_desk_reject(desk, handle, number, failure, reply))
    }

    /// Gives the call up. No cache changes by it.
    ///
    /// Replies: [`Cancelled`](Reply::Cancelled); [`NotNow`](Reply::NotNow) where the call is not begun, or over.
    ///
    /// # Errors
    ///
    /// [`DeskError::Status`].
    ///
    /// ```
    /// # use domreth::desk::{CallId, Desk, DeskError, Loader, Reply, Ticket, Why};
    /// # use std::time::{Duration, SystemTime};
    /// # let mut desk = Desk::open()?;
    /// # let (cache, rule) = (desk.add_cache(Loader::Single)?, desk.add_rule(Duration::ZERO)?);
    /// # let call = CallId { handle: desk.add_handle(cache, rule)?, number: 1 };
    /// # let now = SystemTime::now();
    /// let next = CallId { number: 2, ..call };
    /// desk.begin(call, None)?;
    /// desk.begin(next, None)?;
    /// desk.poll(call, now)?;
    /// assert_eq!(desk.poll(next, now)?, Reply::Pending);
    /// assert_eq!(desk.cancel(call)?, Reply::Cancelled { wake: Some(next) });
    /// # Ok::<(), DeskError>(())
    /// ```
    pub fn cancel(&mut self, call: CallId) -> Result<Reply, DeskError> {
        self.event(call, |desk, handle, number, reply| ffi::domreth_desk_cancel(desk, handle, number, reply))
    }

    /// The credential that the cache holds, where it holds one: that which was last handed out to one of its calls.
    ///
    /// # Errors
    ///
    /// [`DeskError::NoCache`].
    ///
    /// ```
    /// # use domreth::desk::{CallId, Desk, DeskError, Loader, Reply, Ticket, Why};
    /// # use std::time::{Duration, SystemTime};
    /// # let mut desk = Desk::open()?;
    /// # let (cache, rule) = (desk.add_cache(Loader::Single)?, desk.add_rule(Duration::ZERO)?);
    /// # let call = CallId { handle: desk.add_handle(cache, rule)?, number: 1 };
    /// # let now = SystemTime::now();
    /// assert_eq!(desk.cached(cache)?, None);
    /// desk.begin(call, None)?;
    /// desk.poll(call, now)?;
    /// let minute = now + Duration::from_secs(60);
    /// let ticket = Ticket { number: 7, fresh: minute, lasts: minute };
    /// desk.found(call, now, ticket)?;
    /// assert_eq!(desk.cached(cache)?, Some(ticket));
    /// # Ok::<(), DeskError>(())
    /// ```
    pub fn cached(&self, cache: CacheId) -> Result<Option<Ticket>, DeskError> {
        let mut ticket = ffi::Ticket::default();
        let mut desk = self.desk.replace(ffi::Desk::CLOSED);
        let status = ffi::domreth_desk_cached(&mut desk, cache.0, &mut ticket);
        self.desk.set(desk);
        match status {
            ffi::NOTHING_CACHED => Ok(None),
            status => DeskError::check(status).map(|()| Some(ticket.into())),
        }
    }

    /// Hands one event of a call over.
    fn event(
        &mut self,
        call: CallId,
        event: impl FnOnce(&mut ffi::Desk, u32, u64, &mut ffi::Reply) -> u8,
    ) -> Result<Reply, DeskError> {
        let mut reply = ffi::Reply::default();
        DeskError::check(event(self.desk.get_mut(), call.handle.0, call.number, &mut reply))?;
        reply.try_into()
    }
}

impl Drop for Desk {
    fn drop(&mut self) {
        ffi::domreth_desk_close(self.desk.get_mut());
    }
}

impl fmt::Debug for Desk {
    fn fmt(&self, f: &mut fmt::Formatter<'_>) -> fmt::Result {
        f.write_str("Desk(***)")
    }
}
