//! Threads that wait for a moment, since an allocation failed or the IOMMU hasn't answered. They
//! take no event from a thread that sleeps. Who wants a look for chains ends their wait.
use std::sync::{Condvar, Mutex, MutexGuard, PoisonError};
use std::time::{Duration, Instant};

#[derive(Debug, Default)]
struct Looks {
    /// So many looks were wanted so far.
    count: u64,
    /// So many threads wait.
    waiting: usize,
}

#[derive(Debug, Default)]
pub(super) struct Moments {
    looks: Mutex<Looks>,
    ended: Condvar,
}

impl Moments {
    fn lock(&self) -> MutexGuard<'_, Looks> {
        self.looks.lock().unwrap_or_else(PoisonError::into_inner)
    }

    /// The number of looks that were wanted so far. Ask under the queue's lock before it is
    /// released: then a look that is wanted afterwards ends the wait.
    pub fn looks(&self) -> u64 {
        self.lock().count
    }

    /// A look for chains is wanted.
    pub fn end(&self) {
        let mut looks = self.lock();
        looks.count += 1;
        if looks.waiting > 0 {
            self.ended.notify_all();
        }
    }

    /// Waits for so long, or until more looks are wanted than these.
    pub fn wait(&self, looks: u64, time: Duration) {
        let (begun, mut state) = (Instant::now(), self.lock());
        state.waiting += 1;
        while state.count == looks {
            let left = match time.checked_sub(begun.elapsed()) {
                Some(left) => left,
                None => break,
            };
            let waited = self.ended.wait_timeout(state, left);
            state = waited.unwrap_or_else(PoisonError::into_inner).0;
        }
        state.waiting -= 1;
    }
}
