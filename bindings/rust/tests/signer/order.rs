//! Who is next, what a cache hands out, and who shares it.
use crate::steps::{self, Stepped, run_one};
use crate::world::{Answer, Request, Server, Service, World, at, request, signer};
use domreth::signer::{Refusal, Signer};
use std::sync::Arc;
use std::task::{Context, Waker};
use std::time::Duration;

fn sign(signer: &Signer<Service>, number: usize, expires_in: Option<u64>) -> Result<Request, Refusal> {
    let mut request = request(number);
    run_one(signer.sign(&mut request, expires_in.map(Duration::from_secs)))?;
    Ok(request)
}

#[test]
fn calls_are_served_in_the_order_of_their_first_polls() {
    let world = Arc::new(World::default());
    let signer = signer(&world, Server::new(&world, [Answer::Found(60, 90)], 3), Service::new(&world, 0));
    let order = [2, 0, 4, 1, 3];
    let mut calls: Vec<_> = order
        .iter()
        .map(|&number| {
            let signer = signer.clone();
            Stepped::new(async move { signer.sign(&mut request(number), None).await })
        })
        .collect();
    for call in &mut calls {
        call.step();
    }
    calls.reverse();
    steps::run(&mut calls);
    assert_eq!(world.asked(), order);
}

#[test]
fn a_call_that_is_polled_and_not_woken_waits_on() {
    let world = Arc::new(World::default());
    let signer = signer(&world, Server::new(&world, [Answer::Found(60, 90)], 4), Service::new(&world, 0));
    let mut first = Stepped::new(async { sign_one(&signer, 0).await });
    let mut second = Stepped::new(async { sign_one(&signer, 1).await });
    first.step();
    for _ in 0..3 {
        second.wake();
        assert!(second.step() && !second.is_over());
    }
    steps::run(&mut [first, second]);
    assert_eq!(world.asked(), [0, 1]);
}

async fn sign_one(signer: &Signer<Service>, number: usize) -> Result<(), Refusal> {
    signer.sign(&mut request(number), None).await
}

#[test]
fn a_call_that_moves_to_another_task_is_woken_there() {
    let world = Arc::new(World::default());
    let signer = signer(&world, Server::new(&world, [Answer::Found(60, 90)], 1), Service::new(&world, 0));
    let mut first = Stepped::new(async { sign_one(&signer, 0).await });
    first.step();
    let mut second = Box::pin(sign_one(&signer, 1));
    assert!(second.as_mut().poll(&mut Context::from_waker(Waker::noop())).is_pending());
    let mut moved = Stepped::new(second);
    assert!(moved.step() && !moved.is_over());
    steps::run(&mut [first]);
    assert!(moved.step() && moved.is_over());
}

#[test]
fn a_cached_credential_is_used_while_it_is_fresh_and_lasts_to_the_deadline() {
    let world = Arc::new(World::default());
    let signer =
        signer(&world, Server::new(&world, [Answer::Found(50, 90)], 1), Service::new(&world, 0).with_margin(5));
    for (tick, expires_in, loads) in [
        (0, None, 1),
        (49, None, 1),
        (0, Some(35), 1),
        // 49 + 36 + 5 is 90, to which it does not last.
        (0, Some(36), 2),
        (50, None, 3),
    ] {
        world.tick(tick);
        sign(&signer, 0, expires_in).unwrap();
        assert_eq!(world.loads(), loads, "at {:?}", world.now().duration_since(at(0)));
    }
}

#[test]
fn a_credential_that_is_found_and_refused_is_handed_to_nobody() {
    let world = Arc::new(World::default());
    let server = Server::new(&world, [Answer::Found(50, 90), Answer::Found(50, 70), Answer::Missing], 1);
    let signer = signer(&world, server, Service::new(&world, 0));
    assert_eq!(sign(&signer, 0, None).unwrap().signed_by, Some(0));
    assert!(matches!(sign(&signer, 1, Some(90)), Err(Refusal::Short { deadline }) if deadline == at(90)));
    assert_eq!(world.alive(), 1);
    assert_eq!(sign(&signer, 2, Some(80)).unwrap().signed_by, Some(0));
}

#[test]
fn a_call_keeps_its_credential_while_another_takes_its_place() {
    let world = Arc::new(World::default());
    let signer = signer(&world, Server::new(&world, [Answer::Found(50, 90)], 0), Service::new(&world, 1));
    let mut slow = Stepped::new(async { sign_one(&signer, 0).await });
    slow.step();
    world.tick(50);
    assert_eq!(sign(&signer, 1, None).unwrap().signed_by, Some(1));
    assert_eq!(world.alive(), 2);
    slow.step();
    assert!(matches!(slow.output(), Some(Ok(()))));
    assert_eq!(world.alive(), 1);
}

#[test]
fn another_service_shares_the_cache_and_another_provider_has_its_own() {
    let world = Arc::new(World::default());
    let signer = signer(&world, Server::new(&world, [Answer::Found(60, 90)], 0), Service::new(&world, 0));
    sign(&signer, 0, None).unwrap();
    let other = signer.clone().with_request_signer(Service::new(&world, 0).with_margin(30));
    assert_eq!(sign(&other, 1, None).unwrap().signed_by, Some(0));
    assert_eq!(sign(&signer.clone().with_context(()), 2, None).unwrap().signed_by, Some(0));
    let apart = signer.with_credential_provider(Server::new(&world, [Answer::Found(60, 90)], 0)).unwrap();
    assert_eq!(sign(&apart, 3, None).unwrap().signed_by, Some(1));
}
