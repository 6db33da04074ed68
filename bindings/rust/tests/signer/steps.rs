//! Futures that are polled one poll at a time, and only once they are woken.
use std::pin::Pin;
use std::sync::Arc;
use std::sync::atomic::{AtomicBool, Ordering};
use std::task::{Context, Poll, Wake, Waker};

struct Flag(AtomicBool);

impl Wake for Flag {
    fn wake(self: Arc<Self>) {
        self.0.store(true, Ordering::SeqCst);
    }
}

/// A future, whether it is woken, and what it returned.
pub struct Stepped<'a, T> {
    future: Option<Pin<Box<dyn Future<Output = T> + 'a>>>,
    flag: Arc<Flag>,
    polls: usize,
    output: Option<T>,
}

impl<'a, T> Stepped<'a, T> {
    pub fn new(future: impl Future<Output = T> + 'a) -> Self {
        let flag = Arc::new(Flag(AtomicBool::new(true)));
        Stepped { future: Some(Box::pin(future)), flag, polls: 0, output: None }
    }

    pub fn polls(&self) -> usize {
        self.polls
    }

    pub fn output(&self) -> Option<&T> {
        self.output.as_ref()
    }

    pub fn into_output(self) -> Option<T> {
        self.output
    }

    pub fn wake(&self) {
        self.flag.0.store(true, Ordering::SeqCst);
    }

    pub fn is_over(&self) -> bool {
        self.future.is_none()
    }

    pub fn give_up(&mut self) {
        self.future = None;
    }

    /// Polls it where it is woken, and answers whether it was.
    pub fn step(&mut self) -> bool {
        let Some(future) = self.future.as_mut() else { return false };
        if !self.flag.0.swap(false, Ordering::SeqCst) {
            return false;
        }
        self.polls += 1;
        let waker = Waker::from(Arc::clone(&self.flag));
        if let Poll::Ready(output) = future.as_mut().poll(&mut Context::from_waker(&waker)) {
            self.output = Some(output);
            self.future = None;
        }
        true
    }
}

/// Polls what is woken, round after round, until nothing is.
pub fn run<T>(tasks: &mut [Stepped<'_, T>]) {
    while tasks.iter_mut().fold(false, |any, task| task.step() | any) {}
}

/// Runs one future alone.
pub fn run_one<T>(future: impl Future<Output = T>) -> T {
    let mut task = [Stepped::new(future)];
    run(&mut task);
    let [task] = task;
    task.output.expect("the future is woken until it returns")
}

/// Returns at the poll after so many.
pub async fn yields(count: usize) {
    for _ in 0..count {
        let mut is_first = true;
        std::future::poll_fn(|cx| {
            if std::mem::take(&mut is_first) {
                cx.waker().wake_by_ref();
                Poll::Pending
            } else {
                Poll::Ready(())
            }
        })
        .await;
    }
}
