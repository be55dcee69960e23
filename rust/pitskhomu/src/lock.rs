//! A lock for a few words, which no code of a user runs under: std's, or one that spins without
//! `std`.
#[cfg(not(feature = "std"))]
pub(crate) use spinning::Lock;
#[cfg(feature = "std")]
pub(crate) use waiting::Lock;

#[cfg(feature = "std")]
mod waiting {
    use std::sync::{Mutex, PoisonError};

    /// A value behind a lock.
    #[derive(Debug, Default)]
    pub(crate) struct Lock<T>(Mutex<T>);

    impl<T> Lock<T> {
        /// Does something with the value, which no other thread uses meanwhile.
        pub fn with<R>(&self, f: impl FnOnce(&mut T) -> R) -> R {
            f(&mut self.0.lock().unwrap_or_else(PoisonError::into_inner))
        }
    }
}

#[cfg(any(test, not(feature = "std")))]
#[cfg_attr(feature = "std", allow(dead_code))] // its tests alone use it
#[allow(unsafe_code)]
mod spinning {
    use core::cell::UnsafeCell;
    use core::sync::atomic::{AtomicBool, Ordering};

    /// A value behind a lock.
    #[derive(Debug, Default)]
    pub(crate) struct Lock<T> {
        is_held: AtomicBool,
        value: UnsafeCell<T>,
    }

    // SAFETY: `with` lets one thread at a time use the value, which may go from thread to thread.
    unsafe impl<T: Send> Sync for Lock<T> {}

    /// Frees the lock.
    struct Held<'l>(&'l AtomicBool);

    impl Drop for Held<'_> {
        fn drop(&mut self) {
            self.0.store(false, Ordering::Release);
        }
    }

    impl<T> Lock<T> {
        /// Does something with the value, which no other thread uses meanwhile.
        pub fn with<R>(&self, f: impl FnOnce(&mut T) -> R) -> R {
            while self.is_held.swap(true, Ordering::Acquire) {
                core::hint::spin_loop();
            }
            let _held = Held(&self.is_held);
            // SAFETY: this thread has the lock until `_held` is dropped, and no other reference to
            // the value exists: each is made here.
            f(unsafe { &mut *self.value.get() })
        }
    }
}

#[cfg(all(test, feature = "std"))]
mod tests {
    use std::panic::{catch_unwind, AssertUnwindSafe};
    use std::sync::atomic::{AtomicBool, Ordering};
    use std::thread;
    use std::time::Duration;

    const COUNT: u32 = 20_000;

    /// One thread at a time is within, also if one panics there.
    macro_rules! lets_one_in {
        ($lock:ty) => {
            let (lock, is_within) = (<$lock>::default(), AtomicBool::new(false));
            let add = || {
                for _ in 0..COUNT {
                    lock.with(|count| {
                        assert!(!is_within.swap(true, Ordering::Relaxed));
                        *count += 1;
                        is_within.store(false, Ordering::Relaxed);
                    });
                }
            };
            thread::scope(|scope| (0..3).for_each(|_| drop(scope.spawn(add))));
            assert_eq!(lock.with(|count| *count), 3 * COUNT);
            let panics = || lock.with(|_| panic!("under the lock, as the test wants it"));
            assert!(catch_unwind(AssertUnwindSafe(panics)).is_err());
            assert_eq!(lock.with(|count| *count), 3 * COUNT);
        };
    }

    #[test]
    fn of_std() {
        lets_one_in!(super::waiting::Lock<u32>);
    }

    #[test]
    fn without_std() {
        lets_one_in!(super::spinning::Lock<u32>);
    }

    /// A thread waits as long as another is within.
    #[test]
    fn another_thread_waits() {
        let (lock, entered) = (super::spinning::Lock::<()>::default(), AtomicBool::new(false));
        thread::scope(|scope| {
            lock.with(|()| {
                scope.spawn(|| lock.with(|()| entered.store(true, Ordering::Relaxed)));
                thread::sleep(Duration::from_millis(50));
                assert!(!entered.load(Ordering::Relaxed));
            });
        });
        assert!(entered.into_inner());
    }
}
