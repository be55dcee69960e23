//! How a queue is served by a `Builder`: how many chains are in flight, what is refused and when,
//! and what `stop_within` and `set_memory` leave as it was.
#![cfg(target_os = "linux")]
mod guest;

use guest::recorder::entry;
use guest::request;
use guest::running::*;
use pitskhomu::live::{new_event, Builder, Error, Serving};
use pitskhomu::*;
use std::error::Error as _;
use std::io::{self, Read as _, Write as _};
use std::sync::atomic::{AtomicBool, AtomicU64, AtomicUsize, Ordering};
use std::sync::{Arc, Mutex};
use std::thread;
use std::time::Duration;

type Kept = Arc<Mutex<Vec<Reply>>>;

/// Serves a queue of this size by a handler that keeps each reply object.
fn keep(size: u16, build: impl FnOnce(Builder) -> Builder) -> (Arc<Memory>, Driver, Serving, Kept) {
    let (memory, kept) = (Memory::new(), Kept::default());
    let (driver, kick, call) = Driver::new(&memory, false);
    let keeps = kept.clone();
    let handler = move |request: Request<'_>| keeps.lock().unwrap().push(request.reply);
    let queue = Queue::new(QueueLayout { size, ..layout() }, 0).unwrap();
    // What the queue has is replaced.
    let queue = queue.with_max_in_flight(2).unwrap();
    let builder = build(Builder::new(Arc::default(), memory.clone(), &[region()]));
    let serving = builder.start_by_values(queue, kick, call, Arc::new(handler)).unwrap();
    (memory, driver, serving, kept)
}

fn lookup() -> Vec<u8> {
    request(1, 1, b"hello\0")
}

fn take(kept: &Kept) -> Option<Reply> {
    kept.lock().unwrap().pop()
}

/// As many chains are in flight as there are threads, or as were asked for, but no more than the
/// queue has descriptors.
#[test]
fn so_many_chains_are_in_flight() {
    for (threads, in_flight, wanted) in
        [(0, 0, 1), (1, 0, 1), (1, 1, 1), (3, 0, 3), (3, 2, 3), (2, 5, 5), (1, 8, 8)]
    {
        let build = |builder: Builder| builder.threads(threads).in_flight(in_flight);
        let (_, mut driver, serving, kept) = keep(SIZE, build);
        let count = || kept.lock().unwrap().len();
        assert_eq!(serving.in_flight(), 0);
        (0..8).for_each(|slot| driver.offer(slot, &lookup(), 144));
        until(|| count() == wanted);
        thread::sleep(Duration::from_millis(20));
        assert_eq!((count(), usize::from(serving.in_flight())), (wanted, wanted), "{threads}");
        // Each answer lets the next one in.
        for answered in 1..=8 {
            until(|| count() > 0);
            take(&kept).unwrap().send(entry()).unwrap();
            assert_eq!(driver.wait().1, 144);
            until(|| count() == wanted.min(8 - answered));
        }
        assert_eq!((serving.in_flight(), serving.refused()), (0, None));
        assert_eq!(serving.stop().max_in_flight(), wanted as u16);
    }
    // A queue of 4 descriptors has at most 2 of these chains.
    for (threads, in_flight) in [(1, 100), (9, 0), (2, u16::MAX)] {
        let build = |builder: Builder| builder.threads(threads).in_flight(in_flight);
        let (memory, driver, serving, kept) = keep(4, build);
        let mut driver = driver;
        driver.offer(0, &lookup(), 144);
        until(|| kept.lock().unwrap().len() == 1);
        take(&kept).unwrap().send(entry()).unwrap();
        until(|| memory.half(USED + 2).load(Ordering::Acquire) == 1);
        assert_eq!(serving.stop().max_in_flight(), 4);
    }
}

/// A stop that waits in vain leaves the queue as it was, as often as it is tried, and a chain
/// that is offered meanwhile is popped afterwards.
#[test]
fn a_stop_may_be_tried_again() {
    let (_, mut driver, mut serving, kept) = keep(SIZE, |builder| builder.in_flight(3));
    let count = || kept.lock().unwrap().len();
    for round in 1..4 {
        driver.offer(round - 1, &lookup(), 144);
        until(|| count() == usize::from(round));
        serving = serving.stop_within(Duration::ZERO).expect_err("an answer is wanting");
        assert_eq!((serving.in_flight(), serving.refused()), (round, None));
    }
    take(&kept).unwrap().send(entry()).unwrap();
    assert_eq!(driver.wait(), (2, 144));
    while let Some(reply) = take(&kept) {
        reply.send(entry()).unwrap();
    }
    let queue = serving.stop_within(PATIENCE).expect("all answers have come");
    assert_eq!((queue.next_avail(), queue.next_used(), queue.in_flight()), (3, 3, 0));
    assert_eq!((driver.wait().1, driver.wait().1), (144, 144));
    // Nothing is in flight: it stops at once.
    let (_, _driver, serving, _) = keep(SIZE, |builder| builder.threads(2));
    assert_eq!(serving.stop_within(Duration::ZERO).expect("it is idle").next_avail(), 0);
}

/// The first refusal is kept, and its event is signalled. A stop and a reset end all the same.
#[test]
fn a_refused_queue_ends() {
    for (threads, is_reset) in [(1, false), (3, false), (1, true), (3, true)] {
        let err = new_event().unwrap();
        let own = err.try_clone().unwrap();
        let (memory, mut driver, serving, kept) =
            keep(SIZE, |builder| builder.threads(threads).in_flight(4).err(own));
        driver.offer(0, &lookup(), 144);
        until(|| kept.lock().unwrap().len() == 1);
        assert!((&err).read(&mut [0; 8]).is_err() && serving.refused().is_none());
        memory.half(AVAILABLE + 2).store(SIZE + 7, Ordering::Release);
        (&driver.kick).write_all(&1u64.to_ne_bytes()).unwrap();
        until(|| (&err).read(&mut [0; 8]).is_ok());
        assert_eq!(serving.refused(), Some(Status::AvailTooFar));
        // Nothing is popped, and what is in flight is answered.
        memory.half(AVAILABLE + 2).store(2, Ordering::Release);
        serving.look();
        let reply = take(&kept).unwrap();
        if is_reset {
            let before = memory.read(0, LEN);
            serving.reset();
            assert!(reply.is_cancelled());
            let unsent = reply.send(entry()).expect_err("it is too late");
            assert_eq!(unsent.cancelled().undo, [Undo::Forget(entry().node)]);
            assert!(memory.read(0, LEN) == before);
            continue;
        }
        reply.send(entry()).unwrap();
        let queue = serving.stop();
        assert_eq!((queue.stopped(), queue.in_flight()), (Some(Status::AvailTooFar), 0));
        assert_eq!((queue.next_avail(), driver.used()), (1, Some((0, 144))));
        assert!(kept.lock().unwrap().is_empty());
    }
}

/// New memory that is refused leaves the old one, in each worker. A chain in flight keeps the
/// memory that it was popped with.
#[test]
fn memory_is_set_for_the_next_chains() {
    struct Moved(Arc<Memory>, usize);
    impl GuestMemory for Moved {
        fn get_slice(&self, at: usize, len: usize) -> Option<GuestSlice<'_>> {
            self.0.get_slice(at.checked_sub(self.1)?, len)
        }
    }
    let (memory, mut driver, serving, kept) = keep(SIZE, |builder| builder.in_flight(4));
    let count = || kept.lock().unwrap().len();
    let moved = |host| (Arc::new(Moved(memory.clone(), host)), Region { host, ..region() });
    driver.offer(0, &lookup(), 144);
    until(|| count() == 1);
    for k in 1..4 {
        let (there, region) = moved(0x100_0000 * k);
        serving.set_memory(there, &[region]).unwrap();
        let (odd, region) = moved(0x1000);
        let overlap = [region, region];
        assert_eq!(serving.set_memory(odd, &overlap), Err(Status::RegionsOverlap));
        driver.offer(k as u16, &lookup(), 144);
        until(|| count() == k + 1);
    }
    // No worker is idle now.
    let (odd, region) = moved(0x1000);
    assert_eq!(serving.set_memory(odd, &[region, region]), Err(Status::RegionsOverlap));
    // The first three memories are kept by chains in flight, the last one by the queue too.
    assert_eq!(Arc::strong_count(&memory), 2 + 4, "ours, the driver's and those of four workers");
    let mut replies = std::mem::take(&mut *kept.lock().unwrap());
    replies.drain(..).for_each(|reply| reply.send(entry()).unwrap());
    let mut slots: Vec<u16> = (0..4).map(|_| driver.wait().0).collect();
    slots.sort_unstable();
    assert_eq!((slots, serving.refused()), (vec![0, 1, 2, 3], None));
    // No worker keeps a memory that was replaced: ours, the driver's and the last one.
    until(|| Arc::strong_count(&memory) == 3);
}

/// Opens a file once the test says so, and counts what is undone.
#[derive(Default)]
struct Slow {
    is_within: AtomicBool,
    may_end: AtomicBool,
    released: AtomicU64,
}

impl FileSystem for Slow {
    fn lookup(&self, _: &Context, _: Node, _: &CStr) -> Answer<Entry> {
        Err(Errno::ENOENT)
    }
    fn getattr(&self, _: &Context, _: Node, _: Option<Handle>) -> Answer<(Attributes, Duration)> {
        Err(Errno::EIO)
    }
    fn open(&self, _: &Context, _: Node, _: Open) -> Answer<Opened> {
        self.is_within.store(true, Ordering::Release);
        until(|| self.may_end.load(Ordering::Acquire));
        Ok(Opened::new(Handle(0x1234)))
    }
    fn release(&self, _: &Context, node: Node, release: Release) -> Answer<()> {
        assert_eq!((node, release.handle, release.flags), (Node(5), Handle(0x1234), 0x8002));
        self.released.fetch_add(1, Ordering::Release);
        Ok(())
    }
}

/// Resets a queue while a thread is in a call, which ends after so many milliseconds. Returns
/// whether the reset was first: then the answer is undone, and nothing is stored. Else the guest
/// has it.
fn is_overtaken(milliseconds: u64) -> bool {
    let (memory, files) = (Memory::new(), Arc::new(Slow::default()));
    let (mut driver, kick, call) = Driver::new(&memory, false);
    let serving = Builder::new(Arc::default(), memory.clone(), &[region()])
        .start(Queue::new(layout(), 0).unwrap(), kick, call, files.clone())
        .unwrap();
    driver.offer(0, &request(14, 5, &guest::args().d(0x8002).d(0).0), 32);
    until(|| files.is_within.load(Ordering::Acquire));
    let before = memory.read(0, LEN);
    let resetting = thread::spawn(move || serving.reset());
    thread::sleep(Duration::from_millis(milliseconds));
    files.may_end.store(true, Ordering::Release);
    resetting.join().unwrap();
    let is_first = driver.used().is_none();
    assert_eq!(files.released.load(Ordering::Acquire), u64::from(is_first));
    assert!(!is_first || memory.read(0, LEN) == before);
    is_first
}

#[test]
fn a_call_that_a_reset_overtakes_is_undone() {
    assert!((4..15).any(|k| is_overtaken(1 << k)), "no reset is before the end of its call");
}

/// A stop comes while the only thread is in a call, for which it has disabled notifications. The
/// driver notifies for its next chain all the same: the device that goes on may wait for that.
#[test]
fn a_stop_leaves_notifications_enabled() {
    for has_event_index in [false, true] {
        let (memory, files) = (Memory::new(), Arc::new(Slow::default()));
        let (mut driver, kick, call) = Driver::new(&memory, has_event_index);
        let queue = Queue::new(layout(), 0).unwrap().with_event_index(has_event_index);
        let serving = Builder::new(Arc::default(), memory.clone(), &[region()])
            .start(queue, kick, call, files.clone())
            .unwrap();
        driver.offer(0, &request(14, 5, &guest::args().d(0x8002).d(0).0), 32);
        until(|| files.is_within.load(Ordering::Acquire));
        let flags = memory.half(USED).load(Ordering::Acquire);
        assert_eq!(flags, u16::from(!has_event_index));
        let stopping = thread::spawn(move || serving.stop());
        thread::sleep(Duration::from_millis(100)); // the stop has begun
        files.may_end.store(true, Ordering::Release);
        assert_eq!(stopping.join().unwrap().next_used(), 1);
        let before = driver.kicks;
        driver.offer(1, &lookup(), 144);
        assert_eq!(driver.kicks, before + 1, "{has_event_index}");
    }
}

/// Looks up, and tells the system's name of its thread.
#[derive(Default)]
struct Named(AtomicUsize);

impl FileSystem for Named {
    fn lookup(&self, _: &Context, _: Node, _: &CStr) -> Answer<Entry> {
        // SAFETY: it takes no argument.
        self.0.store(unsafe { pthread_self() }, Ordering::Release);
        Ok(entry())
    }
    fn getattr(&self, _: &Context, _: Node, _: Option<Handle>) -> Answer<(Attributes, Duration)> {
        Err(Errno::EIO)
    }
}

extern "C" {
    fn pthread_self() -> usize;
    fn pthread_kill(thread: usize, signal: i32) -> i32;
    fn signal(signal: i32, handler: extern "C" fn(i32)) -> usize;
}

/// How many signals were handled.
static SIGNALS: AtomicU64 = AtomicU64::new(0);

extern "C" fn count_signal(_: i32) {
    SIGNALS.fetch_add(1, Ordering::SeqCst);
}

/// A signal interrupts a thread's wait for an event (EINTR), and the thread waits on.
#[test]
fn a_signal_ends_no_thread() {
    const SIGUSR1: i32 = 10;
    // SAFETY: the handler only adds to an atomic number.
    unsafe { signal(SIGUSR1, count_signal) };
    let (memory, files) = (Memory::new(), Arc::new(Named::default()));
    let (mut driver, kick, call) = Driver::new(&memory, false);
    let serving = Builder::new(Arc::default(), memory, &[region()])
        .start(Queue::new(layout(), 0).unwrap(), kick, call, files.clone())
        .unwrap();
    for slot in 0..3 {
        driver.offer(slot, &lookup(), 144);
        assert_eq!(driver.wait(), (slot, 144));
        thread::sleep(Duration::from_millis(50)); // the thread waits
        let before = SIGNALS.load(Ordering::SeqCst);
        // SAFETY: the thread is joined by `serving` alone, which ends later.
        assert_eq!(unsafe { pthread_kill(files.0.load(Ordering::Acquire), SIGUSR1) }, 0);
        until(|| SIGNALS.load(Ordering::SeqCst) > before);
    }
    assert_eq!((serving.stop().next_used(), driver.used()), (3, None));
}

#[test]
fn errors_are_of_both_kinds() {
    let status = Error::from(Status::ChainInFlight);
    assert!(matches!(status, Error::Status(Status::ChainInFlight)));
    assert_eq!(status.to_string(), Status::ChainInFlight.to_string());
    let source = status.source().and_then(|source| source.downcast_ref::<Status>());
    assert_eq!(source, Some(&Status::ChainInFlight));
    let system = Error::from(io::Error::from_raw_os_error(24));
    assert!(matches!(&system, Error::System(error) if error.raw_os_error() == Some(24)));
    assert_eq!(system.to_string(), io::Error::from_raw_os_error(24).to_string());
    let source = system.source().and_then(|source| source.downcast_ref::<io::Error>());
    assert_eq!(source.and_then(io::Error::raw_os_error), Some(24));
}
