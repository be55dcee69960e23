//! A queue that is served by threads while its guest runs: a driver on a thread of its own, which
//! notifies only when it is asked to, and sleeps until it is interrupted.
#![cfg(target_os = "linux")]
mod guest;

use guest::recorder::{entry, opened, Recorder};
use guest::running::*;
use guest::{args, number, request};
use pitskhomu::live::{new_event, Builder, Handler, Serving};
use pitskhomu::*;
use std::io::{Read as _, Write as _};
use std::sync::atomic::{AtomicUsize, Ordering};
use std::sync::mpsc::{channel, Sender};
use std::sync::{Arc, Mutex};
use std::thread;
use std::time::Duration;

/// Reads by methods.
struct Files;

impl FileSystem for Files {
    fn lookup(&self, _: &Context, _: Node, _: &CStr) -> Answer<Entry> {
        panic!("the file system panics, as the test wants it");
    }
    fn getattr(&self, _: &Context, _: Node, _: Option<Handle>) -> Answer<(Attributes, Duration)> {
        Err(Errno::EIO)
    }
    fn read(&self, _: &Context, _: Node, read: ReadFile, data: &mut ReadData<'_>) -> Answer<()> {
        if read.offset % 97 == 0 {
            thread::sleep(Duration::from_micros(200)); // others overtake it
        }
        data.put(&data_at(read.offset));
        Ok(())
    }
}

/// Reads by values: some at once, some on other threads.
struct Later(Mutex<Sender<(u64, Reply)>>);

impl Handler for Later {
    fn call(&self, request: Request<'_>) {
        match request.operation {
            Operation::Read { read, .. } if read.offset % 3 == 0 => {
                request.reply.send(data_at(read.offset)).unwrap();
            }
            Operation::Read { read, .. } => {
                self.0.lock().unwrap().send((read.offset, request.reply)).unwrap();
            }
            _ => panic!("the handler panics, as the test wants it"),
        }
    }
}

/// A handler whose other threads end with it.
fn later() -> Arc<Later> {
    let (send, receive) = channel::<(u64, Reply)>();
    thread::spawn(move || {
        let mut kept = Vec::new();
        while let Ok((offset, reply)) = receive.recv() {
            kept.push((offset, reply));
            kept.extend(receive.try_iter());
            while let Some((offset, reply)) = kept.pop() {
                reply.send(data_at(offset)).unwrap();
            }
        }
    });
    Arc::new(Later(Mutex::new(send)))
}

fn start(
    memory: &Arc<Memory>,
    (threads, has_event_index, is_by_values): (u16, bool, bool),
) -> (Driver, Serving) {
    let (driver, kick, call) = Driver::new(memory, has_event_index);
    let queue = Queue::new(layout(), 0).unwrap().with_event_index(has_event_index);
    let builder = Builder::new(Arc::default(), memory.clone(), &[region()]).threads(threads);
    let serving = if is_by_values {
        builder.in_flight(8).start_by_values(queue, kick, call, later())
    } else {
        builder.start(queue, kick, call, Arc::new(Files))
    };
    (driver, serving.unwrap())
}

#[test]
fn no_notification_is_lost() {
    for threads in [1, 3] {
        for has_event_index in [false, true] {
            for is_by_values in [false, true] {
                let memory = Memory::new();
                let (mut driver, serving) =
                    start(&memory, (threads, has_event_index, is_by_values));
                for at_a_time in [1, 3, 8] {
                    run(&mut driver, 300, at_a_time);
                }
                assert_eq!((serving.refused(), serving.in_flight()), (None, 0));
                let queue = serving.stop();
                let offered = driver.offered;
                assert_eq!((queue.next_avail(), queue.next_used()), (offered, offered));
                assert!(driver.kicks > 0 && driver.used().is_none());
                // The driver notifies the device that continues the queue.
                let event = memory.half(USED + 4 + 8 * u64::from(SIZE)).load(Ordering::SeqCst);
                let flags = memory.half(USED).load(Ordering::SeqCst);
                assert_eq!((flags, has_event_index && event != offered), (0, false));
            }
        }
    }
}

/// Memory that does something before an access to two bytes.
struct Hooked {
    memory: Arc<Memory>,
    at: usize,
    hook: Mutex<Option<Box<dyn FnOnce() + Send>>>,
}

impl GuestMemory for Hooked {
    fn get_slice(&self, at: usize, len: usize) -> Option<GuestSlice<'_>> {
        if (at, len) == (self.at, 2) {
            let hook = self.hook.lock().unwrap().take();
            hook.into_iter().for_each(|hook| hook());
        }
        self.memory.get_slice(at, len)
    }
}

/// Reads the first file once the second one is read.
struct InOrder(Mutex<bool>, std::sync::Condvar);

impl FileSystem for InOrder {
    fn lookup(&self, _: &Context, _: Node, _: &CStr) -> Answer<Entry> {
        Err(Errno::EIO)
    }
    fn getattr(&self, _: &Context, _: Node, _: Option<Handle>) -> Answer<(Attributes, Duration)> {
        Err(Errno::EIO)
    }
    fn read(&self, _: &Context, _: Node, read: ReadFile, data: &mut ReadData<'_>) -> Answer<()> {
        let mut is_read = self.0.lock().unwrap();
        if read.offset == 2 {
            *is_read = true;
            self.1.notify_all();
        } else {
            let waited = self.1.wait_timeout_while(is_read, PATIENCE, |is_read| !*is_read);
            let (mut is_read, outcome) = waited.unwrap();
            assert!(!outcome.timed_out(), "the second chain isn't served");
            *is_read = false;
        }
        data.put(&data_at(read.offset));
        Ok(())
    }
}

/// The driver offers a chain after the loop's last look, and before it can see that it is to notify
/// again: so it doesn't.
#[test]
fn a_chain_before_the_last_store_is_found() {
    for (has_event_index, at) in [(false, USED), (true, USED + 4 + 8 * u64::from(SIZE))] {
        let memory = Memory::new();
        memory.half(at).store(if has_event_index { 0xffff } else { 1 }, Ordering::Relaxed);
        let (driver, kick, call) = Driver::new(&memory, has_event_index);
        let driver = Arc::new(Mutex::new(driver));
        let hook: Box<dyn FnOnce() + Send> = Box::new({
            let driver = driver.clone();
            move || driver.lock().unwrap().offer(0, &read_request(7, 7), 116)
        });
        let hooked = Hooked { memory, at: at as usize, hook: Mutex::new(Some(hook)) };
        let queue = Queue::new(layout(), 0).unwrap().with_event_index(has_event_index);
        let _serving = Builder::new(Arc::default(), Arc::new(hooked), &[region()])
            .start(queue, kick, call, Arc::new(Files))
            .unwrap();
        until(|| driver.lock().unwrap().offered == 1);
        let mut driver = driver.lock().unwrap();
        assert_eq!((driver.wait().0, driver.kicks), (0, 0));
    }
}

/// A thread that has popped a chain can't take the next one, which the driver offers before it can
/// see that it is to notify for it. Another thread is woken, each time.
#[test]
fn a_chain_is_handed_on() {
    let (memory, at) = (Memory::new(), USED + 4 + 8 * u64::from(SIZE));
    memory.half(at).store(0xffff, Ordering::Relaxed);
    let (driver, kick, call) = Driver::new(&memory, true);
    let driver = Arc::new(Mutex::new(driver));
    let hooked = Hooked { memory: memory.clone(), at: at as usize, hook: Mutex::default() };
    let (hooked, files) =
        (Arc::new(hooked), Arc::new(InOrder(Mutex::default(), Default::default())));
    let queue = Queue::new(layout(), 0).unwrap().with_event_index(true);
    let _serving = Builder::new(Arc::default(), hooked.clone(), &[region()])
        .threads(2)
        .start(queue, kick, call, files)
        .unwrap();
    for round in 0..3 {
        until(|| memory.half(at).load(Ordering::Relaxed) == 2 * round);
        thread::sleep(Duration::from_millis(200)); // both threads sleep
        let second = driver.clone();
        *hooked.hook.lock().unwrap() =
            Some(Box::new(move || second.lock().unwrap().offer(1, &read_request(2, 2), 116)));
        driver.lock().unwrap().offer(0, &read_request(1, 1), 116);
        until(|| driver.lock().unwrap().offered == 2 * round + 2);
        let mut driver = driver.lock().unwrap();
        assert_eq!(driver.wait().0 + driver.wait().0, 1);
        assert_eq!(u16::try_from(driver.kicks), Ok(round + 1));
    }
}

/// After `stop` another loop goes on, without a kick: it looks at its start.
#[test]
fn a_queue_goes_on_where_it_stopped() {
    let memory = Memory::new();
    let (mut driver, serving) = start(&memory, (2, true, false));
    run(&mut driver, 10, 4);
    let queue = serving.stop();
    driver.offer(0, &read_request(7, 7), 116);
    let device = Arc::new(Device::default());
    let record = device.save(&[queue]).unwrap();
    let queue = device.restore(&record).unwrap().remove(0).with_event_index(true);
    let (kick, call) = (driver.kick.try_clone().unwrap(), driver.call.try_clone().unwrap());
    let serving = Builder::new(device, memory, &[region()])
        .start(queue, kick, call, Arc::new(Files))
        .unwrap();
    assert_eq!(driver.wait(), (0, 16 + data_at(7).len() as u32));
    run(&mut driver, 10, 4);
    drop(serving);
}

#[test]
fn a_panic_is_answered_eio() {
    for is_by_values in [false, true] {
        let memory = Memory::new();
        let (mut driver, serving) = start(&memory, (1, false, is_by_values));
        for _ in 0..3 {
            driver.offer(0, &request(1, 1, b"hello\0"), 144);
            let (slot, len) = driver.wait();
            let reply = driver.reply(slot, len);
            assert_eq!((len, number(&reply, 4, 4)), (16, u64::from(5u32.wrapping_neg())));
        }
        run(&mut driver, 10, 1);
        serving.reset();
    }
}

/// Keeps what it is asked, and counts what is undone.
#[derive(Default)]
struct Keeps {
    panics: bool,
    replies: Mutex<Vec<Reply>>,
    undone: Mutex<Vec<Undo>>,
    cancelled: AtomicUsize,
}

impl Handler for Keeps {
    fn call(&self, request: Request<'_>) {
        self.replies.lock().unwrap().push(request.reply);
    }
    fn cancelled(&self, cancelled: &Cancelled) {
        self.cancelled.fetch_add(1, Ordering::Relaxed);
        self.undone.lock().unwrap().extend(&cancelled.undo);
        assert!(!self.panics, "the handler panics, as the test wants it");
    }
}

#[test]
fn a_reset_refuses_what_comes_later() {
    let (memory, keeps) = (Memory::new(), Arc::new(Keeps::default()));
    let (mut driver, kick, call) = Driver::new(&memory, false);
    let serving = Builder::new(Arc::default(), memory.clone(), &[region()])
        .in_flight(4)
        .start_by_values(Queue::new(layout(), 0).unwrap(), kick, call, keeps.clone())
        .unwrap();
    let open = args().q(0);
    for slot in 0..6 {
        driver.offer(slot, &request(14, 5, &open.0), 32);
    }
    // Four are in flight, and the others wait in the ring.
    until(|| keeps.replies.lock().unwrap().len() == 4);
    assert_eq!(serving.in_flight(), 4);
    let take = || keeps.replies.lock().unwrap().pop().unwrap();
    take().send(opened()).unwrap();
    driver.wait();
    until(|| keeps.replies.lock().unwrap().len() == 4);
    let before = memory.read(0, LEN);
    let replies = std::mem::take(&mut *keeps.replies.lock().unwrap());
    serving.reset();
    assert_eq!(keeps.cancelled.load(Ordering::Relaxed), 4);
    assert!(keeps.undone.lock().unwrap().is_empty());
    for reply in replies {
        let unsent = reply.send(opened()).expect_err("it is too late");
        assert_eq!(unsent.status(), Status::OtherCall);
        assert!(matches!(unsent.cancelled().undo[..], [Undo::Release(Node(5), _)]));
    }
    assert!(memory.read(0, LEN) == before, "nothing is stored after a reset");
}

/// A stop waits for the answers.
#[test]
fn a_stop_waits_for_answers() {
    let (memory, keeps) = (Memory::new(), Arc::new(Keeps::default()));
    let (mut driver, kick, call) = Driver::new(&memory, true);
    let queue = Queue::new(layout(), 0).unwrap().with_event_index(true);
    let serving = Builder::new(Arc::default(), memory.clone(), &[region()])
        .threads(2)
        .in_flight(4)
        .start_by_values(queue, kick, call, keeps.clone())
        .unwrap();
    for slot in 0..3 {
        driver.offer(slot, &request(1, 1, b"hello\0"), 144);
    }
    until(|| keeps.replies.lock().unwrap().len() == 3);
    let stopping = thread::spawn(move || serving.stop());
    thread::sleep(Duration::from_millis(20));
    assert!(!stopping.is_finished());
    for reply in std::mem::take(&mut *keeps.replies.lock().unwrap()) {
        reply.send(entry()).unwrap();
    }
    let queue = stopping.join().unwrap();
    assert_eq!((queue.in_flight(), queue.next_used()), (0, 3));
    (0..3).for_each(|_| assert_eq!(driver.wait().1, 144));
}

/// A stop that is bounded: the queue goes on, and stops once the answers have come.
#[test]
fn a_stop_waits_only_a_while() {
    let (memory, keeps) = (Memory::new(), Arc::new(Keeps::default()));
    let (mut driver, kick, call) = Driver::new(&memory, true);
    let queue = Queue::new(layout(), 0).unwrap().with_event_index(true);
    let serving = Builder::new(Arc::default(), memory, &[region()])
        .in_flight(4)
        .start_by_values(queue, kick, call, keeps.clone())
        .unwrap();
    let kept = |count| until(|| keeps.replies.lock().unwrap().len() == count);
    driver.offer(0, &request(1, 1, b"hello\0"), 144);
    kept(1);
    let serving = serving.stop_within(Duration::from_millis(20)).expect_err("an answer is wanting");
    driver.offer(1, &request(1, 1, b"hello\0"), 144);
    kept(2);
    for reply in std::mem::take(&mut *keeps.replies.lock().unwrap()) {
        reply.send(entry()).unwrap();
    }
    let queue = serving.stop_within(PATIENCE).expect("all answers have come");
    assert_eq!((queue.in_flight(), queue.next_used()), (0, 2));
    (0..2).for_each(|_| assert_eq!(driver.wait().1, 144));
}

/// An answer without room is undone. A panic there ends no thread, and loses no chain.
#[test]
fn an_answer_without_room_is_undone() {
    for panics in [false, true] {
        let memory = Memory::new();
        let keeps = Arc::new(Keeps { panics, ..Keeps::default() });
        let (mut driver, kick, call) = Driver::new(&memory, false);
        let serving = Builder::new(Arc::default(), memory, &[region()])
            .start_by_values(Queue::new(layout(), 0).unwrap(), kick, call, keeps.clone())
            .unwrap();
        for room in [100, 100, 144] {
            driver.offer(0, &request(1, 1, b"hello\0"), room);
            until(|| keeps.replies.lock().unwrap().len() == 1);
            let reply = keeps.replies.lock().unwrap().pop().unwrap();
            reply.send(entry()).unwrap();
            assert_eq!(driver.wait().1, if room == 144 { 144 } else { 0 });
        }
        assert_eq!(*keeps.undone.lock().unwrap(), [Undo::Forget(entry().node); 2]);
        driver.offer(0, &request(1, 1, b"hello\0"), 144);
        until(|| keeps.replies.lock().unwrap().len() == 1);
        serving.reset();
        assert_eq!(keeps.cancelled.load(Ordering::Relaxed), 3);
    }
}

/// The memory panics as a chain is pushed, under the queue's lock. A stop doesn't wait for that
/// chain.
#[test]
fn memory_that_panics_has_the_queue_refused() {
    for threads in [1, 3] {
        let (memory, at) = (Memory::new(), USED as usize + 2);
        let (mut driver, kick, call) = Driver::new(&memory, false);
        let hook: Box<dyn FnOnce() + Send> = Box::new(|| panic!("as the test wants it"));
        let hooked = Hooked { memory, at, hook: Mutex::new(Some(hook)) };
        let err = new_event().unwrap();
        let serving = Builder::new(Arc::default(), Arc::new(hooked), &[region()])
            .threads(threads)
            .err(err.try_clone().unwrap())
            .start(Queue::new(layout(), 0).unwrap(), kick, call, Arc::new(Files))
            .unwrap();
        driver.offer(0, &read_request(1, 1), 116);
        until(|| (&err).read(&mut [0; 8]).is_ok());
        assert_eq!(serving.refused(), Some(Status::Stopped));
        let stopping = thread::spawn(move || serving.stop());
        until(|| stopping.is_finished());
    }
}

#[test]
fn a_bad_ring_is_refused() {
    let memory = Memory::new();
    let (driver, kick, call) = Driver::new(&memory, false);
    let err = new_event().unwrap();
    let serving = Builder::new(Arc::default(), memory.clone(), &[region()])
        .threads(3)
        .err(err.try_clone().unwrap())
        .start(Queue::new(layout(), 0).unwrap(), kick, call, Arc::new(Recorder::default()))
        .unwrap();
    assert_eq!(serving.refused(), None);
    memory.half(AVAILABLE + 2).store(SIZE + 1, Ordering::Release);
    (&driver.kick).write_all(&1u64.to_ne_bytes()).unwrap();
    until(|| (&err).read(&mut [0; 8]).is_ok());
    assert_eq!(serving.refused(), Some(Status::AvailTooFar));
    let queue = serving.stop();
    assert_eq!(queue.stopped(), Some(Status::AvailTooFar));
}

/// The memory changes while requests are served: the same bytes at other numbers.
#[test]
fn memory_changes_meanwhile() {
    struct Moved(Arc<Memory>, usize);
    impl GuestMemory for Moved {
        fn get_slice(&self, at: usize, len: usize) -> Option<GuestSlice<'_>> {
            self.0.get_slice(at.checked_sub(self.1)?, len)
        }
    }
    let memory = Memory::new();
    let (mut driver, serving) = start(&memory, (2, true, true));
    for k in 1..20 {
        let host = k * 0x10_0000;
        let moved = Arc::new(Moved(memory.clone(), host));
        serving.set_memory(moved, &[Region { host, ..region() }]).unwrap();
        assert_eq!(Arc::strong_count(&memory), 3, "the driver's, ours, and that of the new memory");
        run(&mut driver, 50, 4);
    }
    let odd = Region { len: 100, ..region() };
    assert_eq!(serving.set_memory(memory.clone(), &[odd]), Err(Status::BadRegionLen));
    run(&mut driver, 50, 4);
    assert_eq!(serving.refused(), None);
}

#[test]
fn wrong_numbers_are_refused() {
    let memory = Memory::new();
    let (_, kick, call) = Driver::new(&memory, false);
    let odd = Region { len: 100, ..region() };
    let refused = Builder::new(Arc::default(), memory, &[odd]).start(
        Queue::new(layout(), 0).unwrap(),
        kick,
        call,
        Arc::new(Files),
    );
    match refused {
        Err(live::Error::Status(Status::BadRegionLen)) => {}
        other => panic!("{other:?}"),
    }
}

/// Memory whose writes are logged.
struct Logged {
    memory: Arc<Memory>,
    marks: Mutex<Vec<GuestRange>>,
}

impl GuestMemory for Logged {
    fn get_slice(&self, at: usize, len: usize) -> Option<GuestSlice<'_>> {
        self.memory.get_slice(at, len)
    }
    fn is_logging(&self) -> bool {
        true
    }
    fn mark(&self, written: GuestRange) {
        self.marks.lock().unwrap().push(written);
    }
}

/// A reset abandons a chain whose answer never came. The data that is in its buffer is marked.
#[test]
fn data_of_an_abandoned_chain_is_marked() {
    let memory = Memory::new();
    let (mut driver, kick, call) = Driver::new(&memory, false);
    let logged = Arc::new(Logged { memory, marks: Mutex::default() });
    let kept = Arc::new(Mutex::new(Vec::new()));
    let keeps = kept.clone();
    let handler = move |request: Request<'_>| {
        if let Operation::Read { mut data, .. } = request.operation {
            assert_eq!(data.put(b"some data"), 9);
        }
        keeps.lock().unwrap().push(request.reply);
    };
    let serving = Builder::new(Arc::default(), logged.clone(), &[region()])
        .start_by_values(Queue::new(layout(), 0).unwrap(), kick, call, Arc::new(handler))
        .unwrap();
    driver.offer(0, &read_request(1, 1), 116);
    until(|| kept.lock().unwrap().len() == 1);
    let of_data = GuestRange { guest: REPLIES, len: 16 + 9 };
    assert!(!logged.marks.lock().unwrap().contains(&of_data));
    serving.reset();
    assert!(logged.marks.lock().unwrap().contains(&of_data));
}

/// An answer comes while the thread has another worker, with which it looks for chains. Both are
/// there again when the queue stops.
#[test]
fn an_answer_takes_no_other_worker_along() {
    let (memory, keeps, at) =
        (Memory::new(), Arc::new(Keeps::default()), USED + 4 + 8 * u64::from(SIZE));
    memory.half(at).store(0xffff, Ordering::Relaxed);
    let (mut driver, kick, call) = Driver::new(&memory, true);
    let hooked = Hooked { memory: memory.clone(), at: at as usize, hook: Mutex::default() };
    let (hooked, queue) = (Arc::new(hooked), Queue::new(layout(), 0).unwrap());
    let serving = Builder::new(Arc::default(), hooked.clone(), &[region()])
        .in_flight(2)
        .start_by_values(queue.with_event_index(true), kick, call, keeps.clone())
        .unwrap();
    until(|| memory.half(at).load(Ordering::Relaxed) == 0);
    let kept = keeps.clone();
    let answers = move || {
        kept.replies.lock().unwrap().pop().unwrap().send(entry()).unwrap();
    };
    *hooked.hook.lock().unwrap() = Some(Box::new(answers));
    driver.offer(0, &request(1, 1, b"hello\0"), 144);
    assert_eq!(driver.wait(), (0, 144));
    let stopping = thread::spawn(move || serving.stop());
    until(|| stopping.is_finished());
}
