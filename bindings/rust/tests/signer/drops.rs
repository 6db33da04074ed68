//! A future that is dropped after each of its polls in turn: all others end, and one load is made for them.
use crate::steps::{self, Stepped, run_one};
use crate::world::{Answer, Request, Server, Service, World, request, signer};
use domreth::signer::{Refusal, Signer};
use std::sync::Arc;

const CALLS: usize = 5;

/// A call that is dropped, by its number, and the polls after which it is.
#[derive(Clone, Copy)]
struct Dropped {
    number: usize,
    polls: usize,
}

/// Calls on one cache, some of which are dropped.
struct Run {
    world: Arc<World>,
    /// Each request as its call left it, and what the call returned.
    outcomes: Vec<(Request, Option<Result<(), Refusal>>)>,
}

impl Run {
    fn new(signer_of: impl Fn(&Arc<World>) -> Signer<Service>, dropped: &[Dropped]) -> Self {
        let world = Arc::new(World::default());
        let signer = signer_of(&world);
        let mut requests: Vec<Request> = (0..CALLS).map(request).collect();
        let mut calls: Vec<_> = requests.iter_mut().map(|request| Stepped::new(signer.sign(request, None))).collect();
        let mut is_woken = true;
        while is_woken {
            is_woken = false;
            for (number, call) in calls.iter_mut().enumerate() {
                let is_due = |it: &Dropped| it.number == number && it.polls == call.polls();
                if !call.is_over() && dropped.iter().any(is_due) {
                    call.give_up();
                    is_woken = true;
                }
                is_woken |= call.step();
            }
        }
        let ended: Vec<_> = calls.into_iter().map(Stepped::into_output).collect();
        drop(signer);
        Run { world, outcomes: requests.into_iter().zip(ended).collect() }
    }

    fn ended(&self, number: usize) -> Option<&Result<(), Refusal>> {
        self.outcomes[number].1.as_ref()
    }

    /// What is so whatever the providers and the service answer.
    fn check(&self, dropped: &[Dropped]) {
        for (number, (request, ended)) in self.outcomes.iter().enumerate() {
            assert!(ended.is_some() || dropped.iter().any(|it| it.number == number), "call {number} ends");
            assert_eq!(matches!(ended, Some(Ok(()))), request.signed_by.is_some(), "or request {number} is as it was");
        }
        assert_eq!(self.world.alive(), 0, "nothing keeps a credential behind the signer");
    }
}

/// Drops each call after each number of polls, and answers how often one was dropped.
fn each_drop(signer_of: impl Fn(&Arc<World>) -> Signer<Service>, check: impl Fn(&Run, usize)) -> usize {
    let mut drops = 0;
    for number in 0..CALLS {
        for polls in 0.. {
            let dropped = [Dropped { number, polls }];
            let run = Run::new(&signer_of, &dropped);
            run.check(&dropped);
            check(&run, number);
            if run.ended(number).is_some() {
                break;
            }
            drops += 1;
        }
    }
    drops
}

#[test]
fn the_others_sign_by_one_credential() {
    // Where the load takes time, the first call is polled once more than it and the service yield, and each other one
    // first waits. Where it takes none, nobody waits.
    for (load_polls, sign_polls, drops) in [(3, 2, 6 + 4 * 4), (4, 0, 5 + 4 * 2), (0, 3, 5 * 4)] {
        let signer_of = |world: &Arc<World>| {
            signer(world, Server::new(world, [Answer::Found(60, 90)], load_polls), Service::new(world, sign_polls))
        };
        let points = each_drop(signer_of, |run, dropped| {
            assert_eq!(run.world.found(), 1, "one load is made");
            assert!(run.world.loads() <= 2, "one more where it was dropped");
            for number in (0..CALLS).filter(|&number| number != dropped) {
                assert!(matches!(run.ended(number), Some(Ok(()))), "{:?}", run.ended(number));
            }
        });
        assert_eq!(points, drops);
    }
}

#[test]
fn failures_stay_with_their_calls() {
    let answers = [Answer::Fails, Answer::Missing, Answer::Found(60, 90)];
    let signer_of = |world: &Arc<World>| {
        let service = Service::new(world, 1).failing(|number| number == 4);
        signer(world, Server::new(world, answers, 2), service)
    };
    each_drop(signer_of, |run, _| {
        let count = |is: fn(&Refusal) -> bool| {
            run.outcomes.iter().filter(|(_, ended)| matches!(ended, Some(Err(refusal)) if is(refusal))).count()
        };
        assert!(count(|refusal| matches!(refusal, Refusal::Provider(_))) <= 1);
        assert!(count(|refusal| matches!(refusal, Refusal::Missing)) <= 1);
        assert!(count(|refusal| matches!(refusal, Refusal::Service(_))) <= 1);
        assert_eq!(run.world.found(), 1);
    });
}

#[test]
fn two_calls_are_dropped_at_once_or_one_after_the_other() {
    let signer_of =
        |world: &Arc<World>| signer(world, Server::new(world, [Answer::Found(60, 90)], 3), Service::new(world, 2));
    let each = |limit: usize| (0..CALLS).flat_map(move |number| (0..limit).map(move |polls| Dropped { number, polls }));
    for first in each(7) {
        for second in each(7).filter(|second| second.number > first.number) {
            let dropped = [first, second];
            let run = Run::new(signer_of, &dropped);
            run.check(&dropped);
            assert!(run.world.found() == 1 && run.world.loads() <= 3);
            assert!(run.outcomes.iter().all(|(_, ended)| matches!(ended, None | Some(Ok(())))));
        }
    }
}

#[test]
fn a_call_that_was_woken_and_is_dropped_passes_the_turn_on() {
    let world = Arc::new(World::default());
    let signer = signer(&world, Server::new(&world, [Answer::Found(60, 90)], 1), Service::new(&world, 0));
    let mut requests = [0, 1, 2].map(request);
    let mut calls: Vec<_> = requests.iter_mut().map(|request| Stepped::new(signer.sign(request, None))).collect();
    for call in &mut calls {
        assert!(call.step());
    }
    assert!(!calls[1].step(), "it waits");
    assert!(calls[0].step(), "its load ends, and wakes the next");
    calls[1].give_up();
    steps::run(&mut calls);
    assert!(matches!(calls[2].output(), Some(Ok(()))));
}

#[test]
fn a_provider_that_panics_leaves_the_turn_to_the_next() {
    let world = Arc::new(World::default());
    let signer =
        signer(&world, Server::new(&world, [Answer::Panics, Answer::Found(60, 90)], 1), Service::new(&world, 0));
    let panicked = std::panic::catch_unwind(std::panic::AssertUnwindSafe(|| {
        let mut request = request(0);
        run_one(signer.sign(&mut request, None)).is_ok()
    }));
    assert!(panicked.is_err());
    let mut request = request(1);
    assert!(run_one(signer.sign(&mut request, None)).is_ok());
    assert_eq!(request.signed_by, Some(1));
}
