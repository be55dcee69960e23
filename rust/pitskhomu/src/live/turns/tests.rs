//! Threads over a ring that is two numbers, with an IOMMU and calls that end when the test says so.
mod answers;
mod begins;
mod chance;
mod events;
mod polling;
mod waits;

use super::*;
use crate::live::events::{new_event, signal};
use crate::queue::{Queue, QueueLayout};
use alloc::boxed::Box;
use alloc::sync::Arc;
use alloc::vec;
use alloc::vec::Vec;
use core::sync::atomic::{AtomicBool, Ordering};
use std::fs::File;
use std::io::Read as _;
use std::os::unix::io::OwnedFd;
use std::os::unix::net::UnixStream;
use std::sync::mpsc::{channel, Receiver, Sender};
use std::thread;
use std::time::{Duration, Instant};

const SOON: Duration = Duration::from_secs(20);
const MOMENT: Duration = Duration::from_millis(200);

/// The queue, and the driver's available index.
#[derive(Debug)]
struct Ring {
    queue: Queue,
    available: u16,
    refused: Option<Status>,
}

impl Queued for Ring {
    fn queue(&self) -> &Queue {
        &self.queue
    }

    fn is_live(&self) -> bool {
        self.refused.is_none()
    }
}

/// A loop with so many chains available, and the state of so many threads that sleep.
fn ring(available: u16, sleeping: u64) -> Loop<Ring> {
    let layout = QueueLayout { size: 64, descriptors: 0, available: 0x1000, used: 0x2000 };
    let queue = Queue::new(layout, 0).and_then(|queue| queue.with_max_in_flight(64)).unwrap();
    let looping = Loop::new(Ring { queue, available, refused: None }).unwrap();
    looping.lock().turns.add_sleeping(sleeping);
    looping
}

/// How a thread's turns end, until it waits.
#[derive(Debug, PartialEq, Eq)]
enum Rest {
    /// It sleeps until an event.
    Event,
    /// It waits for a moment.
    Again,
    /// It ends.
    End,
}

/// How a thread came to the lock: it slept, or it didn't.
#[derive(Clone, Copy, PartialEq, Eq)]
enum Came {
    Woken,
    Back,
}

/// A thread that has come to the lock takes a turn. Returns what it does without the lock.
fn turn_of<'l, Q: Queued, S: Server<Q>>(
    thread: &mut Thread<'l, '_, Q, S>,
    state: Held<'l, Q>,
    came: Came,
) -> u32 {
    let turn = match came {
        Came::Woken => thread.begin(state, Turns::woken),
        Came::Back => thread.come(state, false),
    };
    thread.take_turn(turn)
}

/// A thread takes turns until it waits.
fn serve<Q: Queued, S: Server<Q>>(looping: &Loop<Q>, server: &mut S, came: Came) -> Rest {
    let mut thread = Thread::new(looping, server);
    let mut action = turn_of(&mut thread, looping.lock(), came);
    loop {
        let turn = match action {
            DO_ANSWER => thread.answer(),
            DO_SLEEP => return Rest::Event,
            DO_STEP_ASIDE => match thread.ask_for_missing() {
                Some(state) => thread.come(state, false),
                None if thread.server.rests(&mut looping.lock()) => return Rest::End,
                None => return Rest::Again,
            },
            _ if thread.must_undo => thread.undo(),
            _ => return Rest::End,
        };
        action = thread.take_turn(turn);
    }
}

/// A thread that slept.
fn serve_all<Q: Queued, S: Server<Q>>(looping: &Loop<Q>, server: &mut S) -> Rest {
    serve(looping, server, Came::Woken)
}

/// Whether the loop has woken a thread since the last look at it.
fn has_woken<Q: Queued>(looping: &Loop<Q>) -> bool {
    looping.events.waker().unwrap().read(&mut [0; 8]).is_ok()
}

/// What a test has its server do, and what it counts.
#[derive(Default)]
struct Fake {
    /// So many looks miss addresses.
    missing: u32,
    /// So many pops are refused, for these reasons.
    refusals: Vec<Status>,
    answers: u32,
    /// So many times notifications can't be enabled or disabled, for this reason.
    untold: Vec<Status>,
    /// The times when they were.
    told: Vec<bool>,
    asked: Option<Asked>,
    /// A call begins and ends by these.
    calls: Option<(Sender<()>, Receiver<()>)>,
    /// It ends instead of sleeping.
    ends: bool,
    pops: u32,
    looks: u32,
    asks: u32,
    later: u32,
    lost_kicks: u32,
    /// After so many pops refusals were forgotten.
    forgotten: Vec<u32>,
    /// What happens while it asks.
    meanwhile: Option<Box<dyn FnMut() + Send>>,
    /// The next push is to be undone, and this happens meanwhile.
    undoes: Option<Box<dyn FnOnce() + Send>>,
}

impl Server<Ring> for Fake {
    fn looks(&mut self, _: &Ring, is_same: bool) {
        if !is_same {
            self.forgotten.push(self.pops);
        }
    }

    fn pop(&mut self, ring: &mut Ring) -> Result<Popped, Status> {
        self.pops += 1;
        if let Some(status) = self.refusals.pop() {
            return Err(status);
        }
        if self.missing > 0 {
            self.missing -= 1;
            return Ok(Popped::Missing);
        }
        if ring.queue.next_avail() == ring.available {
            return Ok(Popped::Idle);
        }
        let numbers = ring.queue.numbers_mut();
        numbers.next_avail = numbers.next_avail.wrapping_add(1);
        Ok(Popped::Chain)
    }

    fn answer(&mut self) -> bool {
        self.answers += 1;
        if let Some((begins, ends)) = &self.calls {
            begins.send(()).unwrap();
            ends.recv().unwrap();
        }
        true
    }

    fn push(&mut self, ring: &mut Ring) -> bool {
        let numbers = ring.queue.numbers_mut();
        numbers.next_used = numbers.next_used.wrapping_add(1);
        self.undoes.is_some()
    }

    fn undo(&mut self) {
        if let Some(undoes) = self.undoes.take() {
            undoes();
        }
    }

    fn interrupt(&mut self) {}

    fn set_notification(&mut self, _: &mut Ring, enabled: bool) -> Result<bool, Status> {
        if let Some(status) = self.untold.pop() {
            return Err(status);
        }
        self.told.push(enabled);
        Ok(true)
    }

    fn available_index(&mut self, ring: &Ring) -> Option<u16> {
        self.looks += 1;
        Some(ring.available)
    }

    fn ask(&mut self) -> Asked {
        self.asks += 1;
        self.meanwhile.iter_mut().for_each(|happens| happens());
        self.asked.unwrap_or(Asked::NotAll)
    }

    fn refuse(&mut self, ring: &mut Ring, why: Status) {
        ring.refused = Some(why);
    }

    fn tells_later(&mut self, _: Status) {
        self.later += 1;
    }

    fn loses_kick(&mut self) {
        self.lost_kicks += 1;
    }

    fn rests(&mut self, _: &mut Ring) -> bool {
        self.ends
    }
}

#[test]
fn what_could_not_be_said_is_said_again() {
    let looping = ring(0, 1);
    let mut server = Fake { untold: vec![Status::OutOfMemory], ..Fake::default() };
    assert_eq!(serve_all(&looping, &mut server), Rest::Again);
    assert_eq!((server.told.len(), server.later), (0, 1));
    assert_eq!(serve(&looping, &mut server, Came::Back), Rest::Event);
    assert_eq!((server.told, server.later), (vec![true], 1));
}

/// A thread takes a chain, and another is woken for the next one: by one write, until it has come.
#[test]
fn one_thread_at_a_time_is_woken() {
    let looping = ring(2, 3);
    for wakes in [true, false] {
        let mut server = Fake::default();
        let mut thread = Thread::new(&looping, &mut server);
        assert_eq!(turn_of(&mut thread, looping.lock(), Came::Back), DO_ANSWER);
        assert_eq!((has_woken(&looping), looping.lock().turns.is_called()), (wakes, true));
    }
    let mut server = Fake::default();
    assert_eq!(serve_all(&looping, &mut server), Rest::Event); // it has come, and none is left
    assert!(!has_woken(&looping) && !looping.lock().turns.is_called());
}

/// Without a thread that sleeps notifications are disabled, and enabled before one does.
#[test]
fn notifications_are_for_who_sleeps() {
    let (looping, mut server) = (ring(3, 1), Fake::default());
    assert_eq!(serve_all(&looping, &mut server), Rest::Event);
    assert_eq!((server.told, server.answers), (vec![false, true], 3));
}

/// A thread that undoes an answer makes calls of the file system. Nobody relies on it meanwhile.
#[test]
fn a_thread_that_undoes_hands_on() {
    let looping = Arc::new(ring(1, 2));
    let other = looping.clone();
    let undoes = move || {
        let mut state = other.lock();
        assert!(state.turns.is_called() && has_woken(&other), "a chain may be available");
        state.available = 2;
    };
    let mut server = Fake { undoes: Some(Box::new(undoes)), ..Fake::default() };
    assert_eq!(serve_all(&looping, &mut server), Rest::Event);
    assert_eq!((server.undoes.is_none(), server.answers), (true, 2));
}

/// While a thread comes back from its call to the lock, no other is woken.
#[test]
fn a_thread_that_comes_back_is_known() {
    let (looping, has_begun, end) = held(3);
    has_begun.recv_timeout(SOON).unwrap();
    let (mut state, begun) = (looping.lock(), Instant::now());
    assert!(!looping.another_comes());
    end.send(()).unwrap();
    while !looping.another_comes() {
        assert!(begun.elapsed() < SOON);
        thread::yield_now();
    }
    state.turns.add_sleeping(1);
    let mut server = Fake::default();
    let mut other = Thread::new(&looping, &mut server);
    assert_eq!(turn_of(&mut other, state, Came::Back), DO_ANSWER);
    has_begun.recv_timeout(SOON).unwrap();
    assert!(!looping.another_comes() && !has_woken(&looping));
    end.send(()).unwrap();
    until(&looping, |state| state.queue.next_used() == 2);
}

/// While a thread asks, another one pops the chain, or none does.
#[test]
fn a_refusal_is_for_one_chain() {
    for (is_popped, forgotten) in [(false, vec![0, 2]), (true, vec![0, 1])] {
        let looping = Arc::new(ring(1, 1));
        let other = looping.clone();
        let meanwhile = move || {
            if is_popped {
                other.lock().queue.numbers_mut().next_avail += 1;
            }
        };
        let mut server = Fake {
            missing: 1,
            asked: Some(Asked::All),
            meanwhile: Some(Box::new(meanwhile)),
            ..Fake::default()
        };
        assert_eq!(serve_all(&looping, &mut server), Rest::Event);
        let pops = if is_popped { 2 } else { 3 };
        assert_eq!((server.asks, server.pops), (1, pops));
        assert!(server.forgotten.starts_with(&forgotten), "{:?}", server.forgotten);
    }
}

/// An IOMMU that answers, and unmaps again, holds no thread.
#[test]
fn misses_are_asked_for_a_while() {
    let looping = ring(1, 1);
    let mut server = Fake { missing: 1000, asked: Some(Asked::All), ..Fake::default() };
    assert_eq!(serve_all(&looping, &mut server), Rest::Again);
    assert_eq!((server.asks, server.pops), (MOST_ROUNDS, MOST_ROUNDS + 1));
    server.missing = 1;
    assert_eq!(serve(&looping, &mut server, Came::Back), Rest::Event);
    assert_eq!(looping.lock().queue.next_used(), 1);
}

/// A thread that isn't answered looks again in a moment.
#[test]
fn a_miss_without_an_answer_is_asked_again_later() {
    let looping = ring(1, 1);
    let mut server = Fake { missing: 2, ..Fake::default() };
    for (asks, came) in [(1, Came::Woken), (2, Came::Back)] {
        assert_eq!((serve(&looping, &mut server, came), server.asks), (Rest::Again, asks));
        assert!(looping.lock().is_missing);
    }
    assert_eq!(serve(&looping, &mut server, Came::Back), Rest::Event);
    let state = looping.lock();
    assert!(!state.is_missing && state.queue.next_used() == 1);
}

/// The page of a ring's notification is missed, and mapped or refused.
#[test]
fn a_refused_notification_refuses_the_queue() {
    for (asked, refused) in [(Asked::All, None), (Asked::Refused, Some(Status::NotMapped))] {
        let looping = ring(0, 1);
        let untold = vec![Status::NotMapped];
        let mut server = Fake { untold, asked: Some(asked), ..Fake::default() };
        assert_eq!(serve_all(&looping, &mut server), Rest::Event);
        assert_eq!((looping.lock().refused, server.asks), (refused, 1));
    }
}

/// A page that a chain's buffers need is refused: the chain gets its fault at the next pop.
#[test]
fn a_refused_page_of_a_chain_refuses_no_queue() {
    let looping = ring(1, 1);
    let asked = Some(Asked::Refused);
    let mut server = Fake { missing: 1, asked, ..Fake::default() };
    assert_eq!(serve_all(&looping, &mut server), Rest::Event);
    let state = looping.lock();
    assert_eq!((state.refused, server.asks, server.answers), (None, 1, 1));
    assert_eq!((state.queue.next_used(), state.popped, state.returned), (1, 1, 1));
}

/// What a pop's refusal does: it is tried again, waited for, or refuses the queue. Nothing is
/// answered, and no address is asked for.
#[test]
fn refusals_of_a_pop() {
    for (status, rest, refused) in [
        (Status::ChainInFlight, Rest::Event, None),
        (Status::OutOfMemory, Rest::Again, None),
        (Status::RecordOutOfMemory, Rest::Again, None),
        (Status::AvailTooFar, Rest::Event, Some(Status::AvailTooFar)),
        (Status::OtherTable, Rest::Event, Some(Status::OtherTable)),
    ] {
        let looping = ring(0, 1);
        let refusals = vec![status];
        let mut server = Fake { refusals, asked: Some(Asked::All), ..Fake::default() };
        assert_eq!(serve_all(&looping, &mut server), rest, "{status}");
        let state = looping.lock();
        assert_eq!((state.refused, server.asks, server.answers), (refused, 0, 0), "{status}");
        let asleep = u64::from(rest == Rest::Event);
        assert_eq!((state.popped, state.returned), (0, 0), "{status}");
        assert_eq!((state.turns.sleeping(), server.told.len()), (asleep, 0), "{status}");
        assert!(!state.is_missing);
    }
}

/// Chains of which no thread was notified are popped before a stop.
#[test]
fn a_stop_has_the_chains_looked_for() {
    let looping = Arc::new(ring(0, 0));
    let threads = looping.clone();
    thread::spawn(move || threads.run(&mut Fake::default())); // it ends with the process
    until(&looping, |state| state.turns.sleeping() == 1);
    thread::sleep(MOMENT);
    let mut state = looping.lock();
    state.available = 3;
    let state = looping.pop_until(state, 3, || SOON);
    let state = looping.settle(state, SOON);
    assert_eq!((state.queue.next_avail(), state.queue.next_used()), (3, 3));
}

/// Who closes waits beside who settles: each ends its own wait.
#[test]
fn a_close_ends_no_other_wait() {
    let looping = ring(0, 0);
    let mut state = looping.lock();
    state.waiters = 2;
    let state = looping.close(state, || false);
    assert_eq!((state.waiters, state.until), (2, None));
    let state = looping.settle(state, Duration::from_millis(1));
    assert_eq!((state.waiters, state.until), (2, Some(0)));
}

/// A loop with a thread whose calls begin and end by the test's channels.
fn held(available: u16) -> (Arc<Loop<Ring>>, Receiver<()>, Sender<()>) {
    let (looping, (begins, has_begun), (end, ends)) =
        (Arc::new(ring(available, 0)), channel(), channel());
    let mut server = Fake { calls: Some((begins, ends)), ..Fake::default() };
    let threads = looping.clone();
    thread::spawn(move || threads.run(&mut server)); // it ends with the process
    (looping, has_begun, end)
}

#[test]
fn a_call_that_goes_on_is_waited_for_a_while() {
    let (looping, has_begun, end) = held(3);
    has_begun.recv_timeout(SOON).unwrap();
    let before = Instant::now();
    let state = looping.settle(looping.lock(), MOMENT);
    assert!(before.elapsed() >= MOMENT && before.elapsed() < SOON);
    assert_eq!((state.queue.in_flight(), state.queue.next_avail()), (1, 1));
    drop(state);
    end.send(()).unwrap();
    while looping.lock().queue.next_used() == 0 {
        assert!(before.elapsed() < SOON, "the chain isn't returned");
        thread::yield_now();
    }
    assert!(has_begun.recv_timeout(MOMENT).is_err(), "a chain from the end on is popped");
    looping.go_on(&mut looping.lock());
    has_begun.recv_timeout(SOON).unwrap();
}

#[test]
fn chains_before_the_end_are_waited_for() {
    let (looping, has_begun, end) = held(3);
    let ending = thread::spawn(move || {
        for _ in 0..3 {
            has_begun.recv_timeout(SOON).unwrap();
            end.send(()).unwrap();
        }
        (has_begun, end)
    });
    let before = Instant::now();
    let mut state = looping.lock();
    state.available = 5;
    let state = looping.pop_until(state, 3, || SOON);
    assert_eq!((state.queue.next_avail(), state.until), (3, Some(3)));
    let state = looping.settle(state, SOON);
    assert!(before.elapsed() < SOON);
    assert_eq!((state.queue.in_flight(), state.queue.next_used()), (0, 3));
    let (has_begun, _end) = ending.join().unwrap();
    drop(looping.close(state, || false)); // a thread looks then
    has_begun.recv_timeout(SOON).unwrap();
}

/// After a slow chain no further one is popped.
#[test]
fn chains_behind_a_slow_one_are_left() {
    let (looping, has_begun, end) = held(5);
    has_begun.recv_timeout(SOON).unwrap();
    let state = looping.pop_until(looping.lock(), 5, || MOMENT);
    assert_eq!((state.queue.next_avail(), state.until), (1, Some(1)));
    drop(state);
    end.send(()).unwrap();
    assert!(has_begun.recv_timeout(MOMENT).is_err(), "a chain is popped that was to be left");
    looping.go_on(&mut looping.lock());
    has_begun.recv_timeout(SOON).unwrap();
}

/// A close waits until each thread is out of the guest's memory.
#[test]
fn a_close_waits_for_who_is_within() {
    let looping = Arc::new(ring(0, 0));
    let (leaving, is_within) = (looping.clone(), Arc::new(std::sync::Mutex::new(true)));
    let within = is_within.clone();
    let leaver = thread::spawn(move || {
        while !leaving.lock().is_awaited() {
            thread::yield_now();
        }
        *within.lock().unwrap() = false;
        leaving.notify_waiting();
    });
    let mut state = looping.lock();
    state.until = Some(7);
    let state = looping.close(state, || *is_within.lock().unwrap());
    assert_eq!((state.until, state.is_awaited()), (None, false));
    leaver.join().unwrap();
}

/// What misses addresses isn't waited for, nor a queue that isn't live.
#[test]
fn who_stops_does_not_wait_for_an_iommu() {
    let looping = ring(2, 1);
    let mut server = Fake { missing: 1, ..Fake::default() };
    assert_eq!(serve_all(&looping, &mut server), Rest::Again);
    let before = Instant::now();
    let mut state = looping.pop_until(looping.lock(), 2, || SOON);
    assert_eq!(state.until, Some(0));
    state.refused = Some(Status::NotMapped);
    state.until = None;
    let state = looping.pop_until(state, 2, || SOON);
    assert_eq!(state.until, None);
    assert!(before.elapsed() < SOON);
}

/// Waits until something holds of the loop.
fn until<Q: Queued>(looping: &Loop<Q>, what: impl Fn(&Locked<Q>) -> bool) {
    let begun = Instant::now();
    while !what(&looping.lock()) {
        assert!(begun.elapsed() < SOON);
        thread::yield_now();
    }
}

/// The driver's event ends, and before its end is heard there is another.
#[test]
fn an_event_that_replaces_another_is_heard() {
    let looping = Arc::new(ring(0, 0));
    let (event, driver) = UnixStream::pair().unwrap();
    let event = File::from(OwnedFd::from(event));
    looping.set_kick(&mut looping.lock(), Some(event)).unwrap();
    let threads = looping.clone();
    thread::spawn(move || threads.run(&mut Fake::default())); // it ends with the process
    until(&looping, |state| state.turns.sleeping() == 1);
    let (mut state, event) = (looping.lock(), new_event().unwrap());
    drop(driver);
    thread::sleep(MOMENT); // the thread wakes, and waits for the lock
    looping.set_kick(&mut state, Some(event.try_clone().unwrap())).unwrap();
    drop(state);
    thread::sleep(MOMENT);
    until(&looping, |state| state.turns.sleeping() == 1);
    looping.lock().available = 1;
    signal(&event).unwrap();
    until(&looping, |state| state.queue.next_used() == 1);
}

/// One thread's end wakes the next.
#[test]
fn threads_end_one_after_another() {
    let looping = Arc::new(ring(0, 0));
    let (ended, ends) = channel();
    for _ in 0..3 {
        let (looping, ended) = (looping.clone(), ended.clone());
        thread::spawn(move || {
            let server = &mut Fake { ends: true, ..Fake::default() };
            ended.send(looping.run(server).is_ok()).unwrap();
        });
    }
    (0..3).for_each(|_| assert_eq!(ends.recv_timeout(SOON), Ok(true)));
    assert_eq!(looping.lock().turns.sleeping(), 0);
}
