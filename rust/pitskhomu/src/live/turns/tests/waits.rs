//! Waits of who stops a queue, beside one another and beside a panic.
use super::*;

/// One wait ends before another.
#[test]
fn several_threads_wait_at_once() {
    let (looping, has_begun, end) = held(1);
    has_begun.recv_timeout(SOON).unwrap();
    let waiter = looping.clone();
    let waits = thread::spawn(move || {
        let begun = Instant::now();
        drop(waiter.settle(waiter.lock(), 2 * SOON));
        begun.elapsed()
    });
    until(&looping, Locked::is_awaited);
    drop(looping.settle(looping.lock(), Duration::from_millis(1)));
    assert!(looping.lock().is_awaited());
    end.send(()).unwrap();
    assert!(waits.join().unwrap() < SOON, "nobody says that the chain is returned");
}

/// A thread has panicked under the lock. Waits continue as before.
#[test]
fn a_panic_ends_no_wait() {
    let (looping, has_begun, _end) = held(1);
    has_begun.recv_timeout(SOON).unwrap();
    let other = looping.clone();
    let panics = thread::spawn(move || {
        let _state = other.lock();
        panic!("the memory panics, as the test wants it");
    });
    assert!(panics.join().is_err());
    let (other, is_over) = (looping.clone(), Arc::new(AtomicBool::new(false)));
    let over = is_over.clone();
    let notifier = thread::spawn(move || {
        while !over.load(Ordering::Relaxed) {
            other.notify_waiting();
            thread::yield_now();
        }
    });
    let begun = Instant::now();
    let state = looping.settle(looping.lock(), MOMENT);
    assert!(begun.elapsed() >= MOMENT);
    drop(looping.close(state, || begun.elapsed() < 2 * MOMENT));
    assert!(begun.elapsed() >= 2 * MOMENT);
    is_over.store(true, Ordering::Relaxed);
    notifier.join().unwrap();
}
