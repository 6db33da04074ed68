//! Providers and services of tests, which look whether what a signer promises is kept.
use crate::steps::yields;
use domreth::signer::{BoxError, ProvideCredential, SignRequest, Signer, SigningCredential};
use std::collections::HashSet;
use std::sync::atomic::{AtomicU64, AtomicUsize, Ordering};
use std::sync::{Arc, Mutex};
use std::time::{Duration, SystemTime, UNIX_EPOCH};

/// What is counted, and the clock.
#[derive(Default)]
pub struct World {
    second: AtomicU64,
    loading: AtomicUsize,
    loads: AtomicUsize,
    found: Mutex<HashSet<usize>>,
    alive: AtomicUsize,
    signers: Mutex<Vec<usize>>,
}

impl World {
    pub fn now(&self) -> SystemTime {
        at(self.second.load(Ordering::SeqCst))
    }

    pub fn tick(&self, seconds: u64) {
        self.second.fetch_add(seconds, Ordering::SeqCst);
    }

    /// How many loads were begun.
    pub fn loads(&self) -> usize {
        self.loads.load(Ordering::SeqCst)
    }

    /// How many credentials were found.
    pub fn found(&self) -> usize {
        self.found.lock().unwrap().len()
    }

    /// How many credentials there are.
    pub fn alive(&self) -> usize {
        self.alive.load(Ordering::SeqCst)
    }

    /// The requests that services were asked to sign, by their numbers, in order.
    pub fn asked(&self) -> Vec<usize> {
        self.signers.lock().unwrap().clone()
    }
}

pub fn at(second: u64) -> SystemTime {
    UNIX_EPOCH + Duration::from_secs(second)
}

/// A credential that counts itself.
pub struct Token {
    pub number: usize,
    fresh: SystemTime,
    lasts: SystemTime,
    world: Arc<World>,
}

impl Drop for Token {
    fn drop(&mut self) {
        self.world.alive.fetch_sub(1, Ordering::SeqCst);
    }
}

impl SigningCredential for Token {
    fn lasts_until(&self) -> Option<SystemTime> {
        Some(self.lasts)
    }

    fn fresh_until(&self) -> Option<SystemTime> {
        Some(self.fresh)
    }
}

/// What a provider answers.
#[derive(Clone, Copy)]
pub enum Answer {
    /// A credential that is fresh, and lasts, for so many seconds.
    Found(u64, u64),
    Missing,
    Fails,
    Panics,
}

/// A provider of one cache: it answers its loads one after another, and the last answer from then on.
pub struct Server {
    world: Arc<World>,
    answers: Vec<Answer>,
    polls: usize,
}

/// A load that is under way.
struct Loading<'a>(&'a AtomicUsize);

impl Drop for Loading<'_> {
    fn drop(&mut self) {
        self.0.fetch_sub(1, Ordering::SeqCst);
    }
}

impl Server {
    pub fn new(world: &Arc<World>, answers: impl Into<Vec<Answer>>, polls: usize) -> Self {
        Server { world: Arc::clone(world), answers: answers.into(), polls }
    }
}

impl ProvideCredential for Server {
    type Credential = Token;
    type Context = ();

    async fn provide_credential(&self, _ctx: &()) -> Result<Option<Token>, BoxError> {
        let number = self.world.loads.fetch_add(1, Ordering::SeqCst);
        assert_eq!(self.world.loading.fetch_add(1, Ordering::SeqCst), 0, "one load at a time");
        let _loading = Loading(&self.world.loading);
        yields(self.polls).await;
        match self.answers[number.min(self.answers.len() - 1)] {
            Answer::Found(fresh, lasts) => {
                self.world.found.lock().unwrap().insert(number);
                self.world.alive.fetch_add(1, Ordering::SeqCst);
                let now = self.world.now();
                let (fresh, lasts) = (now + Duration::from_secs(fresh), now + Duration::from_secs(lasts));
                Ok(Some(Token { number, fresh, lasts, world: Arc::clone(&self.world) }))
            }
            Answer::Missing => Ok(None),
            Answer::Fails => Err(format!("load {number} failed").into()),
            Answer::Panics => panic!("load {number} panics"),
        }
    }
}

/// A request: its number, and the credential by which it is signed.
#[derive(Clone, Debug, PartialEq, Eq)]
pub struct Request {
    pub number: usize,
    pub signed_by: Option<usize>,
}

pub fn request(number: usize) -> Request {
    Request { number, signed_by: None }
}

/// A service, which fails at requests of some numbers.
pub struct Service {
    world: Arc<World>,
    polls: usize,
    margin: u64,
    fails: fn(usize) -> bool,
}

impl Service {
    pub fn new(world: &Arc<World>, polls: usize) -> Self {
        Service { world: Arc::clone(world), polls, margin: 0, fails: |_| false }
    }

    pub fn failing(self, fails: fn(usize) -> bool) -> Self {
        Service { fails, ..self }
    }

    pub fn with_margin(self, margin: u64) -> Self {
        Service { margin, ..self }
    }
}

impl SignRequest for Service {
    type Request = Request;
    type Credential = Token;
    type Context = ();

    async fn sign_request(
        &self,
        _ctx: &(),
        request: &mut Request,
        credential: &Token,
        expires_in: Option<Duration>,
        now: SystemTime,
    ) -> Result<(), BoxError> {
        assert!(self.world.found.lock().unwrap().contains(&credential.number), "it was found");
        assert!(now < credential.fresh, "it is fresh");
        assert!(now + expires_in.unwrap_or_default() + self.margin() < credential.lasts, "it lasts to the deadline");
        self.world.signers.lock().unwrap().push(request.number);
        request.signed_by = Some(credential.number);
        yields(self.polls).await;
        if (self.fails)(request.number) { Err(format!("request {} failed", request.number).into()) } else { Ok(()) }
    }

    fn margin(&self) -> Duration {
        Duration::from_secs(self.margin)
    }
}

/// A signer over these, by the world's clock.
pub fn signer(world: &Arc<World>, server: Server, service: Service) -> Signer<Service> {
    let clock = Arc::clone(world);
    Signer::new((), server, service).unwrap().with_clock(move || clock.now())
}
