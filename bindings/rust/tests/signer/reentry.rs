//! Credentials and wakers that call the same signer where they are dropped or woken: no lock is held then.
use crate::steps::{run_one, yields};
use domreth::signer::{BoxError, ProvideCredential, SignRequest, Signer, SigningCredential};
use std::pin::pin;
use std::sync::atomic::{AtomicU64, AtomicUsize, Ordering};
use std::sync::{Arc, Mutex};
use std::task::{Context, Wake, Waker};
use std::time::{Duration, SystemTime, UNIX_EPOCH};

/// The signer that is called, where there is one, how often it was, and its clock.
#[derive(Default)]
struct Shared {
    signer: Mutex<Option<Signer<Service>>>,
    calls: AtomicUsize,
    second: AtomicU64,
}

impl Shared {
    fn now(&self) -> SystemTime {
        UNIX_EPOCH + Duration::from_secs(self.second.load(Ordering::SeqCst))
    }
}

/// Calls where it is dropped, and where it is woken.
struct Calls(Arc<Shared>);

impl Calls {
    /// Begins a call, polls it once, and gives it up.
    fn call(&self) {
        let signer = self.0.signer.lock().unwrap().clone();
        if let Some(signer) = signer {
            let mut request = ();
            let _ = pin!(signer.sign(&mut request, None)).poll(&mut Context::from_waker(Waker::noop()));
            self.0.calls.fetch_add(1, Ordering::SeqCst);
        }
    }
}

impl Drop for Calls {
    fn drop(&mut self) {
        self.call();
    }
}

impl Wake for Calls {
    fn wake(self: Arc<Self>) {
        self.call();
    }
}

/// It is good for ten seconds.
struct Token {
    until: SystemTime,
    _calls: Calls,
}

impl SigningCredential for Token {
    fn lasts_until(&self) -> Option<SystemTime> {
        Some(self.until)
    }
}

struct Server(Arc<Shared>);

impl ProvideCredential for Server {
    type Credential = Token;
    type Context = ();

    async fn provide_credential(&self, _ctx: &()) -> Result<Option<Token>, BoxError> {
        yields(1).await;
        let until = self.0.now() + Duration::from_secs(10);
        Ok(Some(Token { until, _calls: Calls(Arc::clone(&self.0)) }))
    }
}

struct Service;

impl SignRequest for Service {
    type Request = ();
    type Credential = Token;
    type Context = ();

    async fn sign_request(
        &self,
        _ctx: &(),
        _request: &mut (),
        _credential: &Token,
        _expires_in: Option<Duration>,
        _now: SystemTime,
    ) -> Result<(), BoxError> {
        Ok(())
    }
}

fn shared() -> (Arc<Shared>, Signer<Service>) {
    let shared = Arc::new(Shared::default());
    let clock = Arc::clone(&shared);
    let signer = Signer::new((), Server(Arc::clone(&shared)), Service).unwrap().with_clock(move || clock.now());
    *shared.signer.lock().unwrap() = Some(signer.clone());
    (shared, signer)
}

#[test]
fn a_credential_that_gives_way_may_call() {
    let (shared, signer) = shared();
    for (second, calls) in [(0, 0), (9, 0), (10, 1), (20, 2)] {
        shared.second.store(second, Ordering::SeqCst);
        run_one(signer.sign(&mut (), None)).unwrap();
        assert_eq!(shared.calls.load(Ordering::SeqCst), calls);
    }
    *shared.signer.lock().unwrap() = None;
}

#[test]
fn a_waker_that_gives_way_or_is_woken_may_call() {
    let (shared, signer) = shared();
    let (mut loads, mut waits) = ((), ());
    let mut loading = pin!(signer.sign(&mut loads, None));
    assert!(loading.as_mut().poll(&mut Context::from_waker(Waker::noop())).is_pending());
    let mut waiting = Box::pin(signer.sign(&mut waits, None));
    for calls in 0..3 {
        let waker = Waker::from(Arc::new(Calls(Arc::clone(&shared))));
        assert!(waiting.as_mut().poll(&mut Context::from_waker(&waker)).is_pending());
        drop(waker);
        assert_eq!(shared.calls.load(Ordering::SeqCst), calls);
    }
    assert!(loading.as_mut().poll(&mut Context::from_waker(Waker::noop())).is_ready());
    assert_eq!(shared.calls.load(Ordering::SeqCst), 4, "it is woken, and dropped");
    drop(waiting);
    *shared.signer.lock().unwrap() = None;
}

#[test]
fn a_waker_of_a_call_that_is_given_up_may_call() {
    let (shared, signer) = shared();
    let (mut loads, mut waits) = ((), ());
    let mut loading = pin!(signer.sign(&mut loads, None));
    assert!(loading.as_mut().poll(&mut Context::from_waker(Waker::noop())).is_pending());
    let mut waiting = Box::pin(signer.sign(&mut waits, None));
    let waker = Waker::from(Arc::new(Calls(Arc::clone(&shared))));
    assert!(waiting.as_mut().poll(&mut Context::from_waker(&waker)).is_pending());
    drop(waker);
    drop(waiting);
    assert_eq!(shared.calls.load(Ordering::SeqCst), 1);
    *shared.signer.lock().unwrap() = None;
}
