//! A call, from its begin to its end. Where it is dropped before, it is given up.
use super::line::{Line, Told};
use super::{BoxError, Refusal, SigningCredential};
use crate::desk::{CallId, DeskError, Reply, Why};
use std::future::poll_fn;
use std::sync::Arc;
use std::task::Poll;
use std::time::{Duration, SystemTime};

/// A call that is begun.
pub(super) struct Call<'a, K: SigningCredential> {
    line: &'a Line<K>,
    id: CallId,
    is_over: bool,
}

/// What a call whose turn it is has to do.
pub(super) enum Step<K> {
    /// To ask the provider of this place.
    Ask(u32),
    /// To sign with this credential.
    Sign(Arc<K>),
}

impl<'a, K: SigningCredential> Call<'a, K> {
    /// Begins a call, for which a credential has to last so long.
    pub(super) fn begin(line: &'a Line<K>, duration: Duration) -> Result<Self, Refusal> {
        Ok(Call { line, id: line.begin(duration)?, is_over: false })
    }

    /// Waits for the turn. The step is of the moment at which the clock stood then.
    pub(super) async fn turn(&mut self, clock: impl Fn() -> SystemTime) -> Result<(Step<K>, SystemTime), Refusal> {
        poll_fn(|cx| {
            let now = clock();
            match self.line.poll(self.id, now, cx.waker().clone()) {
                Ok(Told { reply: Reply::Pending, .. }) => Poll::Pending,
                told => Poll::Ready(self.step(told, None).map(|step| (step, now))),
            }
        })
        .await
    }

    /// The provider that was asked has this credential.
    pub(super) fn found(&mut self, now: SystemTime, credential: K) -> Result<Step<K>, Refusal> {
        let told = self.line.found(self.id, now, credential);
        self.step(told, None)
    }

    /// The provider that was asked has none.
    pub(super) fn missing(&mut self, now: SystemTime) -> Result<Step<K>, Refusal> {
        let told = self.line.missing(self.id, now);
        self.step(told, None)
    }

    /// The provider that was asked failed. A chain passes over the error.
    pub(super) fn failed(&mut self, now: SystemTime, error: BoxError) -> Result<Step<K>, Refusal> {
        let told = self.line.failed(self.id, now);
        self.step(told, Some(error))
    }

    /// The service signed.
    pub(super) fn accept(&mut self) -> Result<(), Refusal> {
        match self.line.accept(self.id)?.reply {
            Reply::Done => {
                self.is_over = true;
                Ok(())
            }
            _ => Err(Refusal::Library),
        }
    }

    /// The service failed.
    pub(super) fn reject(&mut self, error: BoxError) -> Refusal {
        let told = self.line.reject(self.id);
        self.step(told, Some(error)).err().unwrap_or(Refusal::Library)
    }

    fn step(&mut self, told: Result<Told<K>, DeskError>, error: Option<BoxError>) -> Result<Step<K>, Refusal> {
        let told = told?;
        match (told.reply, told.credential) {
            (Reply::Ask { provider }, _) => Ok(Step::Ask(provider)),
            (Reply::Sign { .. }, Some(credential)) => Ok(Step::Sign(credential)),
            (Reply::Refused { why, .. }, _) => {
                self.is_over = true;
                Err(refusal(why, error))
            }
            (Reply::OutOfMemory, _) => Err(Refusal::OutOfMemory),
            _ => Err(Refusal::Library),
        }
    }
}

impl<K: SigningCredential> Drop for Call<'_, K> {
    fn drop(&mut self) {
        if !self.is_over {
            // A call that is not over can be given up, and who drops it is told nothing.
            let _ = self.line.cancel(self.id);
        }
    }
}

/// The cause, with the error that was told last.
fn refusal(why: Why, error: Option<BoxError>) -> Refusal {
    match why {
        Why::Missing => Refusal::Missing,
        Why::Short(deadline) => Refusal::Short { deadline },
        Why::Range => Refusal::Range,
        Why::Loader(_) => error.map_or(Refusal::Library, Refusal::Provider),
        Why::Service(_) => error.map_or(Refusal::Library, Refusal::Service),
    }
}
