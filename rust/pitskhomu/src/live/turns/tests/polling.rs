//! A thread that looks for chains before it sleeps. In these tests no event wakes one.
use super::*;

/// A loop with a chain, whose thread looks for others for so long: the last one came soon.
fn polled(most: Duration) -> Loop<Ring> {
    let (looping, begun) = (ring(1, 0), Instant::now());
    looping.poll_at_most(most);
    let mut state = looping.lock();
    assert!(state.polling.begin(|| begun).is_none());
    state.polling.end(|| begun + most / 2);
    drop(state);
    looping
}

/// A chain is popped without an event, while the thread looks.
#[test]
fn a_chain_is_found_without_an_event() {
    let (looping, mut server) = (polled(SOON), Fake::default());
    let mut thread = Thread::new(&looping, &mut server);
    assert_eq!(turn_of(&mut thread, looping.lock(), Came::Back), DO_ANSWER);
    let turn = thread.answer();
    assert_eq!(thread.take_turn(turn), DO_STEP_ASIDE);
    assert!(looping.is_polled());
    looping.lock().available = 2;
    let turn = thread.step_aside();
    assert!(!looping.is_polled() && !has_woken(&looping));
    assert_eq!(thread.take_turn(turn), DO_ANSWER);
    drop(thread);
    assert_eq!((server.told, server.answers), (vec![false], 1));
}

/// A stop ends the look at once, and so does a queue that isn't live.
#[test]
fn a_stop_ends_a_look() {
    for round in 0..20 {
        let (looping, mut server) = (polled(3 * SOON), Fake::default());
        let mut thread = Thread::new(&looping, &mut server);
        assert_eq!(turn_of(&mut thread, looping.lock(), Came::Back), DO_ANSWER);
        let turn = thread.answer();
        assert_eq!(thread.take_turn(turn), DO_STEP_ASIDE);
        match round % 3 {
            0 => looping.lock().refused = Some(Status::OtherTable),
            1 => looping.lock().until = Some(1),
            _ => looping.lock().waiters = 1,
        }
        drop(thread.step_aside());
        drop(thread);
        assert!(!looping.is_polled());
        assert_eq!(server.looks, 1, "it looks on");
    }
}

/// While a thread looks, no other is woken for a chain. If it panics, one is.
#[test]
fn a_thread_that_looks_comes() {
    let looping = ring(1, 1);
    let polled = looping.begin_to_poll();
    let mut server = Fake::default();
    let mut other = Thread::new(&looping, &mut server);
    looping.lock().available = 2;
    assert_eq!(turn_of(&mut other, looping.lock(), Came::Back), DO_ANSWER);
    assert!(!has_woken(&looping) && looping.another_comes());
    drop(polled);
    assert!(!has_woken(&looping) && !looping.another_comes());
    let panics = std::panic::catch_unwind(std::panic::AssertUnwindSafe(|| {
        let _polled = looping.begin_to_poll();
        panic!("the server panics, as the test wants it");
    }));
    assert!(panics.is_err() && has_woken(&looping) && !looping.another_comes());
}

/// A queue whose threads don't look sleeps at once.
#[test]
fn nobody_looks_at_first() {
    let (looping, mut server) = (ring(3, 1), Fake::default());
    assert_eq!(serve_all(&looping, &mut server), Rest::Event);
    assert!(server.pops <= 5 && !looping.is_polled());
}
