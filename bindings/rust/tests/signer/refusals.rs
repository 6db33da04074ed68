//! Each refusal, and chains.
use crate::steps::run_one;
use crate::world::{Answer, Server, Service, World, at, request, signer};
use domreth::signer::{ProvideCredentialChain, Refusal, Signer};
use std::error::Error;
use std::sync::Arc;
use std::time::Duration;

const YEAR_9999: u64 = 253_402_207_200;

/// What one call is refused for, with a provider that answers so.
fn refusal(answer: Answer, second: u64, expires_in: Duration) -> Refusal {
    let world = Arc::new(World::default());
    world.tick(second);
    let service = Service::new(&world, 1).failing(|_| true).with_margin(30);
    let signer = signer(&world, Server::new(&world, [answer], 1), service);
    let mut unsigned = request(0);
    let refusal = run_one(signer.sign(&mut unsigned, Some(expires_in))).unwrap_err();
    assert_eq!(unsigned, request(0), "the request is as it was");
    refusal
}

#[test]
fn each_cause_is_named() {
    let minute = Duration::from_secs(60);
    assert!(matches!(refusal(Answer::Missing, 0, minute), Refusal::Missing));
    let short = refusal(Answer::Found(90, 190), 100, minute + Duration::from_secs(100));
    assert!(matches!(short, Refusal::Short { deadline } if deadline == at(290)), "{short:?}");
    for (second, expires_in) in [(YEAR_9999, minute), (0, Duration::MAX), (YEAR_9999 + 1, Duration::ZERO)] {
        let range = refusal(Answer::Found(90, 190), second, expires_in);
        assert!(matches!(range, Refusal::Range), "{range:?}");
    }
    let provider = refusal(Answer::Fails, 0, minute);
    assert!(matches!(provider, Refusal::Provider(_)));
    assert_eq!(provider.source().unwrap().to_string(), "load 0 failed");
    let service = refusal(Answer::Found(190, 190), 0, minute);
    assert!(matches!(service, Refusal::Service(_)));
    assert_eq!(service.source().unwrap().to_string(), "request 0 failed");
}

/// A chain of servers that count their loads in one world, so each answers by its own place.
fn chain(world: &Arc<World>, answers: &[Answer]) -> Signer<Service> {
    let servers = (0..answers.len()).map(|_| Server::new(world, answers, 1));
    let chain = servers.fold(ProvideCredentialChain::new(), ProvideCredentialChain::push);
    let clock = Arc::clone(world);
    Signer::new((), chain, Service::new(world, 1)).unwrap().with_clock(move || clock.now())
}

#[test]
fn a_chain_asks_in_order_until_one_finds() {
    use Answer::{Fails, Found, Missing};
    for (answers, loads, number) in [
        (&[Found(60, 90), Missing][..], 1, Some(0)),
        (&[Missing, Fails, Found(60, 90), Missing], 3, Some(2)),
        (&[Missing, Fails], 2, None),
        (&[Fails], 1, None),
        (&[], 0, None),
    ] {
        let world = Arc::new(World::default());
        let signer = chain(&world, answers);
        let mut request = request(0);
        let ended = run_one(signer.sign(&mut request, None));
        assert_eq!((world.loads(), request.signed_by), (loads, number));
        assert!(matches!((number, ended), (Some(_), Ok(())) | (None, Err(Refusal::Missing))));
    }
}
