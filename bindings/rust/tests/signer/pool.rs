//! A small executor: threads that poll what is woken, and sleep while nothing is.
use std::collections::VecDeque;
use std::pin::Pin;
use std::sync::{Arc, Condvar, Mutex};
use std::task::{Context, Poll, Wake, Waker};

pub type Job = Pin<Box<dyn Future<Output = ()> + Send>>;

struct Task {
    job: Mutex<Option<Job>>,
    pool: Arc<Pool>,
}

#[derive(Default)]
struct Pool {
    queue: Mutex<Queue>,
    changed: Condvar,
}

#[derive(Default)]
struct Queue {
    woken: VecDeque<Arc<Task>>,
    unfinished: usize,
    polling: usize,
}

impl Wake for Task {
    fn wake(self: Arc<Self>) {
        let pool = Arc::clone(&self.pool);
        pool.queue.lock().unwrap().woken.push_back(self);
        pool.changed.notify_one();
    }
}

impl Task {
    /// Polls the job, and answers whether it is finished by that.
    fn poll(self: &Arc<Self>) -> bool {
        let waker = Waker::from(Arc::clone(self));
        let mut slot = self.job.lock().unwrap();
        let Some(job) = slot.as_mut() else { return false };
        match job.as_mut().poll(&mut Context::from_waker(&waker)) {
            Poll::Pending => false,
            Poll::Ready(()) => {
                *slot = None;
                true
            }
        }
    }
}

impl Pool {
    /// The next task to poll. None where all are finished, or where none is woken and none polled, so that none ever
    /// will be.
    fn next(&self) -> Option<Arc<Task>> {
        let mut queue = self.queue.lock().unwrap();
        loop {
            if queue.unfinished == 0 {
                return None;
            }
            if let Some(task) = queue.woken.pop_front() {
                queue.polling += 1;
                return Some(task);
            }
            if queue.polling == 0 {
                return None;
            }
            queue = self.changed.wait(queue).unwrap();
        }
    }

    fn work(&self) {
        while let Some(task) = self.next() {
            let is_finished = task.poll();
            let mut queue = self.queue.lock().unwrap();
            queue.polling -= 1;
            queue.unfinished -= usize::from(is_finished);
            drop(queue);
            self.changed.notify_all();
        }
    }
}

/// Runs the jobs by so many threads, and answers how many are left where no task is woken any more.
pub fn run(threads: usize, jobs: impl IntoIterator<Item = Job>) -> usize {
    let pool = Arc::new(Pool::default());
    for job in jobs {
        let task = Arc::new(Task { job: Mutex::new(Some(job)), pool: Arc::clone(&pool) });
        let mut queue = pool.queue.lock().unwrap();
        queue.unfinished += 1;
        queue.woken.push_back(task);
    }
    std::thread::scope(|scope| {
        for _ in 0..threads {
            scope.spawn(|| pool.work());
        }
    });
    pool.queue.lock().unwrap().unfinished
}
