//! Each allocation of the library fails in turn: a call is refused for that, and the others go on.
//!
//! The heap is this file's own, so it is linked with the library without one: `scripts/test-bindings` says how. It stands alone
//! in its program.
use domreth::signer::{BoxError, ProvideCredential, Refusal, SignRequest, Signer, SigningCredential};
use std::pin::{Pin, pin};
use std::sync::atomic::{AtomicI64, Ordering};
use std::task::{Context, Poll, Waker};
use std::time::{Duration, SystemTime};

/// How many allocations succeed before one fails; none fails below 0.
static LEFT: AtomicI64 = AtomicI64::new(-1);

#[repr(C)]
struct Block {
    is_made: bool,
    at: *mut u8,
}

unsafe extern "C" {
    fn malloc(size: usize) -> *mut u8;
    fn realloc(old: *mut u8, size: usize) -> *mut u8;
    fn free(at: *mut u8);
}

fn fails() -> bool {
    LEFT.load(Ordering::SeqCst) >= 0 && LEFT.fetch_sub(1, Ordering::SeqCst) == 0
}

fn block(at: *mut u8) -> Block {
    Block { is_made: !at.is_null(), at: if at.is_null() { std::ptr::dangling_mut() } else { at } }
}

#[unsafe(no_mangle)]
extern "C" fn rattle_alloc(size: usize, align: usize) -> Block {
    // SAFETY: `malloc` takes any size.
    block(if fails() { std::ptr::null_mut() } else { unsafe { malloc(size.max(align)) } })
}

#[unsafe(no_mangle)]
extern "C" fn rattle_realloc(old: *mut u8, _old_size: usize, size: usize, align: usize) -> Block {
    // SAFETY: the library hands a block in that it was given, and takes this one in its place.
    block(if fails() { std::ptr::null_mut() } else { unsafe { realloc(old, size.max(align)) } })
}

#[unsafe(no_mangle)]
extern "C" fn rattle_dealloc(at: *mut u8) {
    // SAFETY: the library hands a block in that it was given, for the last time.
    unsafe { free(at) }
}

struct Token;

impl SigningCredential for Token {
    fn lasts_until(&self) -> Option<SystemTime> {
        None
    }
}

/// Finds a token at the second poll.
struct Server;

impl ProvideCredential for Server {
    type Credential = Token;
    type Context = ();

    async fn provide_credential(&self, _ctx: &()) -> Result<Option<Token>, BoxError> {
        let mut is_first = true;
        std::future::poll_fn(|_| if std::mem::take(&mut is_first) { Poll::Pending } else { Poll::Ready(()) }).await;
        Ok(Some(Token))
    }
}

struct Service;

impl SignRequest for Service {
    type Request = bool;
    type Credential = Token;
    type Context = ();

    async fn sign_request(
        &self,
        _ctx: &(),
        is_signed: &mut bool,
        _credential: &Token,
        _expires_in: Option<Duration>,
        _now: SystemTime,
    ) -> Result<(), BoxError> {
        *is_signed = true;
        Ok(())
    }
}

/// Polls a call once more, where it has not ended.
fn poll<F: Future>(call: Pin<&mut F>, ended: &mut Option<F::Output>) {
    if ended.is_some() {
        return;
    }
    if let Poll::Ready(output) = call.poll(&mut Context::from_waker(Waker::noop())) {
        *ended = Some(output);
    }
}

/// Two calls, of which the second waits while the first one loads.
fn two_calls() -> Result<[Result<(), Refusal>; 2], Refusal> {
    let signer = Signer::new((), Server, Service)?;
    let mut are_signed = [false; 2];
    let mut ended = [None, None];
    {
        let [first, second] = &mut are_signed;
        let (mut first, mut second) = (pin!(signer.sign(first, None)), pin!(signer.sign(second, None)));
        for _ in 0..4 {
            poll(first.as_mut(), &mut ended[0]);
            poll(second.as_mut(), &mut ended[1]);
        }
    }
    let ended = ended.map(|ended| ended.expect("each call ends"));
    assert_eq!(are_signed, ended.each_ref().map(Result::is_ok), "a refused request is as it was");
    Ok(ended)
}

#[test]
#[ignore = "takes the library without a heap: scripts/test-bindings"]
fn each_allocation_fails_in_turn() {
    let (mut unopened, mut refused) = (0, 0);
    for left in 0.. {
        LEFT.store(left, Ordering::SeqCst);
        let outcomes = two_calls();
        let has_failed = LEFT.swap(-1, Ordering::SeqCst) < 0;
        let causes: Vec<&Refusal> = match &outcomes {
            Err(why) => vec![why],
            Ok(ended) => ended.iter().filter_map(|it| it.as_ref().err()).collect(),
        };
        assert!(causes.iter().all(|why| matches!(why, Refusal::OutOfMemory)), "{causes:?}");
        assert_eq!(causes.len(), usize::from(has_failed), "one is refused, and another goes on");
        *if outcomes.is_err() { &mut unopened } else { &mut refused } += causes.len();
        if !has_failed {
            break;
        }
    }
    assert!(unopened > 0 && refused > 0, "{unopened} were not opened, {refused} calls refused");
}
