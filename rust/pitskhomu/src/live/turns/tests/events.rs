//! Events that are set, replaced and removed, and that end; and a try again without one.
use super::*;
use crate::live::Builder;
use crate::memory::GuestMemory;
use crate::operation::Request;
use crate::slice::GuestSlice;

/// An event that was replaced or removed wakes nobody. (A wait ends early only by an event.)
#[test]
fn an_event_that_was_removed_is_not_heard() {
    for next in [None, Some(new_event().unwrap())] {
        let (looping, event) = (ring(0, 0), new_event().unwrap());
        let mut state = looping.lock();
        looping.set_kick(&mut state, Some(event.try_clone().unwrap())).unwrap();
        looping.set_kick(&mut state, next).unwrap();
        signal(&event).unwrap();
        let begun = Instant::now();
        assert!(looping.events.wait(100).unwrap().is_none());
        assert!(begun.elapsed() >= Duration::from_millis(99));
    }
}

/// The driver ends its event: the server learns it once, and the loop has no event.
#[test]
fn an_event_that_ends_is_removed() {
    let (looping, (event, driver)) = (ring(0, 0), UnixStream::pair().unwrap());
    let event = File::from(OwnedFd::from(event));
    looping.set_kick(&mut looping.lock(), Some(event)).unwrap();
    let mut server = Fake::default();
    for lost_kicks in [0, 1, 1] {
        looping.look();
        looping.wait(&mut server).unwrap();
        assert_eq!(server.lost_kicks, lost_kicks);
        assert_eq!(looping.lock().kick.is_none(), lost_kicks > 0);
        if lost_kicks == 0 {
            driver.shutdown(std::net::Shutdown::Both).unwrap();
        }
    }
}

/// One event wakes one look: nobody reads its counter, and it isn't heard again.
#[test]
fn an_event_is_heard_once() {
    let (looping, event) = (ring(0, 0), new_event().unwrap());
    looping.set_kick(&mut looping.lock(), Some(event.try_clone().unwrap())).unwrap();
    for wakes in [
        |_: &File, looping: &Loop<Ring>| looping.look(),
        |event: &File, _: &_| {
            signal(event).unwrap();
        },
    ] {
        wakes(&event, &looping);
        let begun = Instant::now();
        assert!(looping.events.wait(20_000).unwrap().is_none() && begun.elapsed() < SOON);
        let begun = Instant::now();
        assert!(looping.events.wait(100).unwrap().is_none());
        assert!(begun.elapsed() >= Duration::from_millis(99));
    }
}

/// A file has no events: then there is none, and the one before is removed.
#[test]
fn an_event_that_is_refused_is_not_kept() {
    let looping = ring(0, 0);
    let mut state = looping.lock();
    looping.set_kick(&mut state, Some(new_event().unwrap())).unwrap();
    let file = File::open(std::env::current_exe().unwrap()).unwrap();
    assert!(looping.set_kick(&mut state, Some(file)).is_err());
    assert!(state.kick.is_none());
}

/// An allocation fails for a while. Without an event the chain is popped a moment later.
#[test]
fn what_failed_is_tried_again_without_an_event() {
    let looping = Arc::new(ring(1, 0));
    let threads = looping.clone();
    let refusals = vec![Status::OutOfMemory; 4];
    let mut server = Fake { refusals, ..Fake::default() };
    thread::spawn(move || threads.run(&mut server)); // it ends with the process
    until(&looping, |state| state.queue.next_used() == 1);
}

/// Memory without a byte: the queue is refused, and its thread sleeps.
struct Nothing;

impl GuestMemory for Nothing {
    fn get_slice(&self, _: usize, _: usize) -> Option<GuestSlice<'_>> {
        None
    }
}

/// A thread that a stop wakes finds that the queue ends: while that can't be set, none is woken.
#[test]
fn a_stop_is_set_before_its_wake() {
    let layout = QueueLayout { size: 64, descriptors: 0, available: 0x1000, used: 0x2000 };
    let (queue, kick, call) =
        (Queue::new(layout, 0).unwrap(), new_event().unwrap(), new_event().unwrap());
    let serving = Builder::new(Arc::default(), Arc::new(Nothing), &[])
        .start_by_values(queue, kick, call, Arc::new(|_: Request<'_>| ()))
        .unwrap();
    let shared = serving.shared.clone();
    until(&shared.threads, |state| state.turns.sleeping() == 1);
    let state = shared.threads.lock();
    let stops = thread::spawn(move || serving.stop());
    thread::sleep(MOMENT / 2);
    assert!(!has_woken(&shared.threads), "a thread finds no end, and sleeps");
    drop(state);
    assert_eq!(stops.join().unwrap().in_flight(), 0);
}

/// The driver's notification was taken while no chain was popped. A close has the chain looked for.
#[test]
fn a_close_has_the_chains_looked_for() {
    let looping = Arc::new(ring(0, 0));
    let threads = looping.clone();
    thread::spawn(move || threads.run(&mut Fake::default())); // it ends with the process
    until(&looping, |state| state.turns.sleeping() == 1);
    let mut state = looping.settle(looping.lock(), SOON);
    state.available = 1;
    drop(looping.close(state, || false));
    until(&looping, |state| state.queue.next_used() == 1);
}
