//! A thousand calls by eight threads.
use crate::pool::{self, Job};
use crate::steps::yields;
use crate::world::{Answer, Request, Server, Service, World, request, signer};
use domreth::signer::{Refusal, Signer};
use std::future::poll_fn;
use std::pin::{Pin, pin};
use std::sync::{Arc, Mutex};
use std::task::Poll;

const CALLS: usize = 1000;
const THREADS: usize = 8;

/// Each task makes so many calls, one after another. While one of them loads, each of the fifty others begins one call
/// at most.
const CALLS_OF_TASK: usize = 20;

/// So a credential that is fresh for so many seconds is it where it is found, though each begin takes a second.
const FOUND: Answer = Answer::Found(60, 90);

/// A call's request as the call left it, and why it was refused, where it was.
type Outcome = (Request, Option<Refusal>);

#[derive(Clone, Default)]
struct Outcomes(Arc<Mutex<Vec<Outcome>>>);

impl Outcomes {
    fn count(&self, is: impl Fn(&Request, Option<&Refusal>) -> bool) -> usize {
        self.0.lock().unwrap().iter().filter(|(request, refusal)| is(request, refusal.as_ref())).count()
    }
}

/// One call, and what became of it.
async fn call(signer: &Signer<Service>, number: usize, outcomes: &Outcomes) {
    let mut request = request(number);
    let refusal = signer.sign(&mut request, None).await.err();
    outcomes.0.lock().unwrap().push((request, refusal));
}

/// Runs the calls, each a second after the one before it. Some may be dropped after so many polls.
fn run(world: &Arc<World>, signer: &Signer<Service>, outcomes: &Outcomes, dropped: fn(usize) -> Option<usize>) {
    let job = |task: usize| -> Job {
        let (world, signer, outcomes) = (Arc::clone(world), signer.clone(), outcomes.clone());
        Box::pin(async move {
            for number in (0..CALLS_OF_TASK).map(|call| task * CALLS_OF_TASK + call) {
                world.tick(1);
                let call = call(&signer, number, &outcomes);
                match dropped(number) {
                    None => call.await,
                    Some(polls) => given_up(pin!(call), polls).await,
                }
            }
        })
    };
    assert_eq!(pool::run(THREADS, (0..CALLS / CALLS_OF_TASK).map(job)), 0, "each task ends");
}

/// Polls a call so often at most.
async fn given_up(mut call: Pin<&mut impl Future<Output = ()>>, polls: usize) {
    for _ in 0..polls {
        let is_over = poll_fn(|cx| Poll::Ready(call.as_mut().poll(cx).is_ready())).await;
        if is_over {
            return;
        }
        yields(1).await;
    }
}

#[test]
fn calls_of_two_caches_share_one_load_each() {
    let worlds = [Arc::new(World::default()), Arc::new(World::default())];
    let signers = worlds.each_ref().map(|world| signer(world, Server::new(world, [FOUND], 20), Service::new(world, 3)));
    let outcomes = Outcomes::default();
    let jobs = (0..CALLS).map(|number| -> Job {
        let (signer, outcomes) = (signers[number % 2].clone(), outcomes.clone());
        Box::pin(async move { call(&signer, number, &outcomes).await })
    });
    assert_eq!(pool::run(THREADS, jobs), 0, "each call ends");
    assert_eq!(outcomes.count(|request, refusal| refusal.is_none() && request.signed_by == Some(0)), CALLS);
    for world in &worlds {
        assert_eq!((world.loads(), world.alive()), (1, 1));
    }
}

#[test]
fn a_credential_is_loaded_again_once_it_is_not_fresh() {
    let world = Arc::new(World::default());
    let signer = signer(&world, Server::new(&world, [FOUND], 5), Service::new(&world, 3));
    let outcomes = Outcomes::default();
    run(&world, &signer, &outcomes, |_| None);
    assert_eq!(outcomes.count(|request, refusal| refusal.is_none() && request.signed_by.is_some()), CALLS);
    // A credential is found sixty seconds after the one before it at least, and a hundred and ten at most.
    assert!((9..=17).contains(&world.loads()), "{} loads", world.loads());
    assert_eq!(world.alive(), 1, "what no cache and no call hands out is dropped");
}

#[test]
fn each_failure_is_of_one_call() {
    let world = Arc::new(World::default());
    let server = Server::new(&world, [Answer::Fails, Answer::Missing, FOUND].repeat(CALLS), 2);
    let signer = signer(&world, server, Service::new(&world, 2).failing(|number| number % 10 == 0));
    let outcomes = Outcomes::default();
    run(&world, &signer, &outcomes, |_| None);
    let failed_loads = outcomes.count(|_, refusal| matches!(refusal, Some(Refusal::Provider(_) | Refusal::Missing)));
    assert_eq!(failed_loads, world.loads() - world.found());
    let failed = outcomes.count(|request, refusal| {
        matches!(refusal, Some(Refusal::Service(_))) && request.number % 10 == 0 && request.signed_by.is_none()
    });
    let signed = outcomes.count(|request, refusal| refusal.is_none() && request.signed_by.is_some());
    assert_eq!(failed_loads + failed + signed, CALLS);
    assert!(failed_loads > 20 && failed > 50, "{failed_loads} and {failed} failed");
}

#[test]
fn calls_that_are_dropped_anywhere_leave_the_others_alone() {
    // By a multiplicative congruence, which looks like chance: three of eight are dropped, before their first poll or
    // later.
    let dropped = |number: usize| {
        let chance = (number as u64 + 1).wrapping_mul(6_364_136_223_846_793_005) >> 56;
        (chance % 8 < 3).then_some(chance as usize / 20)
    };
    let world = Arc::new(World::default());
    let server = Server::new(&world, [FOUND, Answer::Missing, FOUND, Answer::Fails].repeat(CALLS), 4);
    let signer = signer(&world, server, Service::new(&world, 3));
    let outcomes = Outcomes::default();
    run(&world, &signer, &outcomes, dropped);
    let kept = (0..CALLS).filter(|&number| dropped(number).is_none()).count();
    let kept_ended = outcomes.count(|request, _| dropped(request.number).is_none());
    assert_eq!(kept_ended, kept, "each call that was kept ends");
    assert!((400..800).contains(&kept), "{kept}");
    assert!(world.alive() <= 1);
    drop(signer);
    assert_eq!(world.alive(), 0);
}

#[test]
fn a_signer_and_its_futures_go_to_any_thread() {
    fn is_shared<T: Send + Sync>(_: &T) {}
    fn is_sent<T: Send>(_: &T) {}
    let world = Arc::new(World::default());
    let signer = signer(&world, Server::new(&world, [Answer::Missing], 0), Service::new(&world, 0));
    is_shared(&signer);
    let mut request = request(0);
    is_sent(&signer.sign(&mut request, None));
}
