//! A desk of one cache, and those that wait at it.
//!
//! The lock is taken for one event of the desk at a time, and by no future across an await. Nothing of the author's or
//! of the runtime's runs under it: clocks and credentials are asked before, wakers are cloned before, and woken and
//! dropped behind it, and so are credentials dropped. So none of these waits for itself where it signs, too.
use super::{Refusal, SigningCredential};
use crate::desk::{CacheId, CallId, Desk, DeskError, HandleId, Loader, Reply, Ticket, up_to_last};
use std::collections::HashMap;
use std::sync::{Arc, Mutex, MutexGuard, PoisonError};
use std::task::Waker;
use std::time::{Duration, SystemTime};

/// A desk with one cache, one rule and one handle.
pub(super) struct Line<K> {
    state: Mutex<State<K>>,
}

struct State<K> {
    desk: Desk,
    cache: CacheId,
    handle: HandleId,
    /// The greatest number of a call so far.
    last_call: u64,
    /// The greatest number of a credential so far.
    last_credential: u64,
    /// Who waits for the turn, by the numbers of calls.
    wakers: HashMap<u64, Waker>,
    held: Option<Held<K>>,
}

/// The credential that the cache holds. The desk hands out no other: one that is found is in the cache where it is
/// handed out, and takes the place of the one before it. A call that was handed an earlier one has a share of it.
struct Held<K> {
    number: u64,
    credential: Arc<K>,
}

/// What the desk replied, and the credential where that is to sign with one.
pub(super) struct Told<K> {
    pub(super) reply: Reply,
    pub(super) credential: Option<Arc<K>>,
}

impl<K: SigningCredential> Line<K> {
    pub(super) fn new(loader: Loader) -> Result<Self, DeskError> {
        let mut desk = Desk::open()?;
        let cache = desk.add_cache(loader)?;
        // Each call is begun with the margin of its own service, so that services may come later.
        let rule = desk.add_rule(Duration::ZERO)?;
        let handle = desk.add_handle(cache, rule)?;
        let wakers = HashMap::new();
        let state = State { desk, cache, handle, last_call: 0, last_credential: 0, wakers, held: None };
        Ok(Line { state: Mutex::new(state) })
    }

    /// Begins a call, for which a credential has to last so long.
    pub(super) fn begin(&self, duration: Duration) -> Result<CallId, Refusal> {
        let mut state = self.lock();
        state.last_call += 1;
        let call = CallId { handle: state.handle, number: state.last_call };
        match state.desk.begin(call, Some(duration))? {
            Reply::Begun => Ok(call),
            Reply::OutOfMemory => Err(Refusal::OutOfMemory),
            _ => Err(Refusal::Library),
        }
    }

    /// Polls the call, and keeps the waker for it where it has to wait.
    pub(super) fn poll(&self, call: CallId, now: SystemTime, waker: Waker) -> Result<Told<K>, DeskError> {
        let mut waker = Some(waker);
        self.tell(|state| {
            let reply = state.desk.poll(call, now)?;
            if reply == Reply::Pending {
                waker = waker.take().and_then(|waker| state.wakers.insert(call.number, waker));
            }
            Ok(reply)
        })
    }

    /// Tells that this credential was found for the call.
    pub(super) fn found(&self, call: CallId, now: SystemTime, credential: K) -> Result<Told<K>, DeskError> {
        let (fresh, lasts) = (up_to_last(credential.fresh_until()), up_to_last(credential.lasts_until()));
        let credential = Arc::new(credential);
        let mut before = None;
        self.tell(|state| {
            state.last_credential += 1;
            let number = state.last_credential;
            let reply = state.desk.found(call, now, Ticket { number, fresh, lasts })?;
            let cached = state.desk.cached(state.cache).ok().flatten();
            if cached.is_some_and(|cached| cached.number == number) {
                before = state.held.replace(Held { number, credential: Arc::clone(&credential) });
            }
            Ok(reply)
        })
    }

    /// Tells that the provider which was asked for the call has none.
    pub(super) fn missing(&self, call: CallId, now: SystemTime) -> Result<Told<K>, DeskError> {
        self.tell(|state| state.desk.missing(call, now))
    }

    /// Tells that the provider which was asked for the call failed. The call keeps the error, so it has no number.
    pub(super) fn failed(&self, call: CallId, now: SystemTime) -> Result<Told<K>, DeskError> {
        self.tell(|state| state.desk.failed(call, now, 0))
    }

    /// Tells that the service signed for the call.
    pub(super) fn accept(&self, call: CallId) -> Result<Told<K>, DeskError> {
        self.tell(|state| state.desk.accept(call))
    }

    /// Tells that the service failed. The call keeps the error, so it has no number.
    pub(super) fn reject(&self, call: CallId) -> Result<Told<K>, DeskError> {
        self.tell(|state| state.desk.reject(call, 0))
    }

    /// Gives the call up.
    pub(super) fn cancel(&self, call: CallId) -> Result<Told<K>, DeskError> {
        let mut waker = None;
        self.tell(|state| {
            waker = state.wakers.remove(&call.number);
            state.desk.cancel(call)
        })
    }

    /// Has the event happen, and wakes the call that has its turn by it.
    fn tell(&self, event: impl FnOnce(&mut State<K>) -> Result<Reply, DeskError>) -> Result<Told<K>, DeskError> {
        let mut state = self.lock();
        let reply = event(&mut state)?;
        let woken = reply.wake().and_then(|call| state.wakers.remove(&call.number));
        let credential = match reply {
            Reply::Sign { credential, .. } => state.held_as(credential),
            _ => None,
        };
        drop(state);
        if let Some(waker) = woken {
            waker.wake();
        }
        Ok(Told { reply, credential })
    }

    fn lock(&self) -> MutexGuard<'_, State<K>> {
        // A thread that panics here did so between two events, for want of room in the map: the state is whole.
        self.state.lock().unwrap_or_else(PoisonError::into_inner)
    }
}

impl<K> State<K> {
    /// The credential of this number, where the cache holds it.
    fn held_as(&self, number: u64) -> Option<Arc<K>> {
        self.held.as_ref().filter(|held| held.number == number).map(|held| Arc::clone(&held.credential))
    }
}
