//! A ring in memory, with a thread whose calls of the host end when the test says so.
use super::*;
use crate::iommu::Cancel;
use crate::memory::tests::{table, HIGH};
use crate::memory::PAGE;
use crate::notifier::tests::full_pipe;
use crate::ring::waits::LONGEST;
use crate::ring::Server;
use pitskhomu::live::Asked;
use pitskhomu::{
    Answer, Attributes, CStr, Context, Device, Entry, Errno, FileSystem, GuestMemory as _, Handle,
    Node, Popped, QueueLayout, Status, Worker,
};
use std::fs::File;
use std::io::Read;
use std::os::fd::FromRawFd;
use std::sync::atomic::AtomicBool;
use std::sync::mpsc::{channel, Receiver, Sender};
use std::thread;
use std::time::{Duration, Instant};

/// The driver's ring lies in the first page of the upper region, its request in the second.
const LAYOUT: QueueLayout =
    QueueLayout { size: 8, descriptors: HIGH, available: HIGH + 0x100, used: HIGH + 0x200 };
const REQUEST: u64 = HIGH + PAGE;
const SOON: Duration = Duration::from_secs(20);

/// No file is there.
struct Empty;

impl FileSystem for Empty {
    fn lookup(&self, _: &Context, _: Node, _: &CStr) -> Answer<Entry> {
        Err(Errno::ENOENT)
    }
    fn getattr(&self, _: &Context, _: Node, _: Option<Handle>) -> Answer<(Attributes, Duration)> {
        Err(Errno::ENOENT)
    }
}

/// Answers each chain after a call of the host, which begins and ends by these.
struct Holding {
    ring: Arc<Ring>,
    worker: Worker,
    device: Device,
    number: usize,
    begins: Sender<usize>,
    ends: Receiver<()>,
    /// The next chain can't go back.
    fails: Arc<AtomicBool>,
}

impl Server for Holding {
    fn pop(&mut self, queue: &mut Queue, memory: &Arc<Table>) -> Result<Popped, Status> {
        self.worker.set_memory(&self.device, &memory.regions())?;
        let is_popped = self.worker.pop(queue, &**memory)?;
        Ok(if is_popped { Popped::Chain } else { Popped::Idle })
    }

    fn ask(&mut self, _memory: &Table, _cancel: &Cancel) -> Asked {
        Asked::NotAll
    }

    fn forget_refusals(&mut self) {}

    fn answer(&mut self, doing: &Doing, memory: &Table) {
        let _ = self.ring.call_host(doing, || {
            self.begins.send(self.number).expect("who listens");
            self.ends.recv().expect("an end");
        });
        self.worker.answer(&self.device, &Empty, memory).expect("an answer");
    }

    fn push(&mut self, queue: &mut Queue, memory: &Arc<Table>) -> Result<bool, Status> {
        let pushed = if self.fails.swap(false, Ordering::SeqCst) {
            Err(Status::OutOfMemory)
        } else {
            self.worker.push(queue, &**memory).map(|served| served.notify)
        };
        let _ = self.worker.abandon();
        pushed
    }

    fn abandon(&mut self, _memory: &Arc<Table>) {
        let _ = self.worker.abandon();
    }

    fn set_notification(
        &mut self,
        queue: &Queue,
        wanted: bool,
        memory: &Arc<Table>,
    ) -> Result<bool, Status> {
        self.worker.set_memory(&self.device, &memory.regions())?;
        self.worker.set_notification(queue, wanted, &**memory)
    }
}

/// Says nothing of kicks: the front-end's thread has no worker here.
struct Silent;

impl Server for Silent {
    fn pop(&mut self, _queue: &mut Queue, _memory: &Arc<Table>) -> Result<Popped, Status> {
        Ok(Popped::Idle)
    }
    fn ask(&mut self, _memory: &Table, _cancel: &Cancel) -> Asked {
        Asked::NotAll
    }
    fn forget_refusals(&mut self) {}
    fn answer(&mut self, _doing: &Doing, _memory: &Table) {}
    fn push(&mut self, _: &mut Queue, _: &Arc<Table>) -> Result<bool, Status> {
        Ok(false)
    }
    fn set_notification(
        &mut self,
        _queue: &Queue,
        _wanted: bool,
        _memory: &Arc<Table>,
    ) -> Result<bool, Status> {
        Ok(false)
    }
}

fn store(memory: &Table, guest: u64, bytes: &[u8]) {
    let regions = memory.regions();
    let region = regions.iter().find(|region| guest.wrapping_sub(region.guest) < region.len);
    let region = region.expect("a region");
    let at = region.host + usize::try_from(guest - region.guest).expect("an offset");
    memory.get_slice(at, bytes.len()).expect("bytes").store(bytes);
}

fn event() -> File {
    // SAFETY: no memory is touched.
    let fd = unsafe { libc::eventfd(0, libc::EFD_NONBLOCK | libc::EFD_CLOEXEC) };
    // SAFETY: the descriptor is new, and nothing else owns it.
    unsafe { File::from_raw_fd(fd) }
}

/// A ring that runs, with its threads, and the driver's side of it.
struct Tried {
    ring: Arc<Ring>,
    memory: Arc<Table>,
    /// The number of a thread whose call begins.
    begins: Receiver<usize>,
    /// The end of a call of the first thread.
    ends: Sender<()>,
    /// And of the others.
    others: Vec<Sender<()>>,
    fails: Arc<AtomicBool>,
    offered: u16,
}

impl Tried {
    fn new() -> Tried {
        Tried::with(1)
    }

    fn with(threads: u16) -> Tried {
        let ring = Arc::new(Ring::new(1, threads, Arc::default()).expect("a ring"));
        let (memory, fails, (begins, begun)) = (Arc::new(table()), Arc::default(), channel());
        let mut all = Vec::new();
        for number in 0..threads.into() {
            let (end, ends) = channel();
            all.push(end);
            let mut server = Holding {
                ring: ring.clone(),
                worker: Worker::new(),
                device: Device::default(),
                number,
                begins: begins.clone(),
                ends,
                fails: Arc::clone(&fails),
            };
            let ring = ring.clone();
            ring.lock().memory = memory.clone();
            // it ends with the process
            thread::spawn(move || ring.run(&mut server));
        }
        let (ends, others) = (all.remove(0), all);
        let tried = Tried { ring, memory, begins: begun, ends, others, fails, offered: 0 };
        tried.draw();
        tried.start(0);
        tried.ring.enable(true, &mut Silent, &tried.memory, Patience::new());
        tried
    }

    /// A request with an unknown opcode, whose reply is 16 bytes.
    fn draw(&self) {
        let mut descriptors = [0u8; 32];
        for (k, (addr, len, flags)) in
            [(REQUEST, 40u32, 1u16), (REQUEST + 0x100, 16, 2)].into_iter().enumerate()
        {
            descriptors[16 * k..][..8].copy_from_slice(&addr.to_le_bytes());
            descriptors[16 * k + 8..][..4].copy_from_slice(&len.to_le_bytes());
            descriptors[16 * k + 12..][..2].copy_from_slice(&flags.to_le_bytes());
        }
        descriptors[14] = 1;
        store(&self.memory, LAYOUT.descriptors, &descriptors);
        store(&self.memory, REQUEST, &[40, 0, 0, 0, 0x77, 0x77, 0, 0, 9]);
    }

    fn start(&self, base: u16) {
        self.ring.tell(|numbers| (numbers.layout, numbers.next_avail) = (LAYOUT, base));
        self.ring.start(event(), &self.memory).expect("a start");
    }

    fn stop(&self) -> u16 {
        self.ring.stop(&mut Silent, &self.memory, Patience::new())
    }

    /// Offers the chain, and waits until the host has its call: which thread's it is.
    fn hold(&mut self) -> usize {
        self.offered += 1;
        store(&self.memory, LAYOUT.available + 2, &self.offered.to_le_bytes());
        self.ring.look();
        self.begins.recv_timeout(SOON).expect("a call")
    }

    fn end_call_of(&self, thread: usize) {
        let end = if thread == 0 { &self.ends } else { &self.others[thread - 1] };
        end.send(()).expect("who listens");
    }

    fn end_call(&self) {
        self.ends.send(()).expect("who listens");
    }

    fn returned(&self) -> Option<u16> {
        self.memory.ring_index(LAYOUT.used)
    }

    fn waits_for(&self, returned: u16) -> bool {
        let end = Instant::now() + SOON;
        while self.returned() != Some(returned) && Instant::now() < end {
            thread::yield_now();
        }
        self.returned() == Some(returned)
    }

    /// The call ends, and its thread comes back to a closed ring: nothing is stored.
    fn end_call_unseen(&self) {
        let before = self.returned();
        self.end_call();
        thread::sleep(Duration::from_millis(200));
        assert_eq!(self.returned(), before);
        assert_eq!(self.memory.ring_index(REQUEST + 0x100 - 2), Some(0), "no reply is stored");
    }
}

#[test]
fn a_stop_does_not_wait_for_the_host() {
    let mut tried = Tried::new();
    for ends_before in [true, false] {
        tried.draw();
        store(&tried.memory, REQUEST + 0x100, &[0; 16]);
        tried.hold();
        let before = Instant::now();
        assert_eq!(tried.stop(), tried.offered);
        assert!(before.elapsed() < Duration::from_secs(5));
        let held = tried.ring.held().expect("a held call");
        assert!(held.starts_with("queue 1: request "), "{held}");
        if ends_before {
            tried.end_call_unseen();
        }
        assert!(tried.ring.held().is_some(), "it is in flight until the ring goes on");
        tried.start(tried.offered);
        if !ends_before {
            tried.end_call();
        }
        assert!(tried.waits_for(tried.offered));
        assert_eq!(tried.ring.held(), None);
    }
}

/// Two chains are available at once. The first is returned, and the driver interrupted, before the
/// host has the second one's call: that may be a slow one.
#[test]
fn no_reply_waits_for_the_next_call() {
    let (mut tried, mut call) = (Tried::new(), event());
    tried.ring.set_call(Some(call.try_clone().expect("a descriptor"))).expect("a call");
    store(&tried.memory, LAYOUT.available + 2, &[2, 0]);
    tried.offered = 2;
    tried.ring.look();
    for returned in 0..2 {
        tried.begins.recv_timeout(SOON).expect("a call");
        assert_eq!(tried.returned(), Some(returned));
        assert_eq!(call.read(&mut [0; 8]).is_ok(), returned > 0);
        tried.end_call();
    }
    assert!(tried.waits_for(2));
}

/// Whether `GET_VRING_BASE` is answered in time, on a thread of its own.
fn is_answered(tried: &Tried) -> bool {
    let (ring, memory) = (tried.ring.clone(), tried.memory.clone());
    let (answer, answered) = channel();
    thread::spawn(move || {
        let _ = answer.send(ring.stop(&mut Silent, &memory, Patience::new()));
    });
    answered.recv_timeout(Duration::from_millis(100)).is_ok()
}

/// Offers as many chains as the ring has room for, and the first one's call is held.
fn offered_many() -> Tried {
    let mut tried = Tried::new();
    store(&tried.memory, LAYOUT.available + 2, &LAYOUT.size.to_le_bytes());
    tried.ring.look();
    tried.begins.recv_timeout(SOON).expect("a call");
    tried.offered = LAYOUT.size;
    tried
}

/// Stops the ring in time, without a chain in flight. It serves the others once it continues.
fn settles(tried: &Tried) -> Option<u16> {
    let before = Instant::now();
    let base = tried.stop();
    let is_soon = before.elapsed() < Duration::from_millis(100);
    let is_settled = tried.ring.held().is_none();
    tried.start(base);
    assert!(tried.waits_for(tried.offered));
    (is_soon && is_settled).then_some(base)
}

/// Each call takes 30 ms. If more chains were taken, one would be in flight when the message is
/// answered, and the state couldn't be saved. On a busy machine a call may take longer.
#[test]
fn slow_chains_are_left_when_a_ring_stops() {
    let is_right = |_| {
        let tried = offered_many();
        let ends = tried.ends.clone();
        thread::spawn(move || {
            while ends.send(()).is_ok() {
                thread::sleep(Duration::from_millis(30));
            }
        });
        settles(&tried).is_some_and(|base| base < tried.offered)
    };
    assert!((0..9).any(is_right));
}

/// virtiofsd wouldn't look for chains that are left before the next kick.
#[test]
fn quick_chains_are_served_before_a_ring_stops() {
    let is_right = |_| {
        let mut tried = offered_many();
        let (begins, ends) =
            (std::mem::replace(&mut tried.begins, channel().1), tried.ends.clone());
        thread::spawn(move || while ends.send(()).is_ok() && begins.recv().is_ok() {});
        settles(&tried) == Some(tried.offered)
    };
    assert!((0..9).any(is_right));
}

/// A message that ends all rings waits for them together.
#[test]
fn all_held_rings_are_waited_for_at_once() {
    let mut tried = [Tried::new(), Tried::new(), Tried::new(), Tried::new()];
    for tried in &mut tried {
        tried.hold();
    }
    let (before, patience) = (Instant::now(), Patience::new());
    for tried in &tried {
        tried.ring.enable(false, &mut Silent, &tried.memory, patience);
    }
    assert!(before.elapsed() < 2 * LONGEST, "each ring has a time of its own");
}

/// The call descriptor is a full pipe that blocks.
#[test]
fn a_full_call_descriptor_holds_no_stop() {
    let mut tried = Tried::new();
    let (_reader, writer) = full_pipe(0);
    tried.ring.set_call(Some(writer)).expect("a pipe");
    tried.hold();
    tried.end_call();
    assert!(tried.waits_for(1));
    thread::sleep(Duration::from_millis(50)); // the driver is interrupted
    assert!(is_answered(&tried));
}

/// The err descriptor is a full pipe that blocks, and the ring is refused.
#[test]
fn a_full_err_descriptor_holds_no_stop() {
    let tried = Tried::new();
    let (_reader, writer) = full_pipe(0);
    tried.ring.set_err(Some(writer)).expect("a pipe");
    store(&tried.memory, LAYOUT.available + 2, &0x1234u16.to_le_bytes()); // more than its size
    tried.ring.look();
    thread::sleep(Duration::from_millis(50));
    assert!(is_answered(&tried));
}

#[test]
fn a_reset_drops_what_the_host_holds() {
    for has_message in [true, false] {
        let mut tried = Tried::new();
        tried.hold();
        if has_message {
            tried.ring.enable(false, &mut Silent, &tried.memory, Patience::new());
            tried.ring.reset(&tried.memory);
            tried.ring.enable(true, &mut Silent, &tried.memory, Patience::new());
        }
        tried.stop();
        store(&tried.memory, LAYOUT.available, &[0; 0x200]);
        tried.offered = 0;
        tried.start(0);
        assert_eq!(tried.ring.held(), None);
        tried.end_call_unseen();
        tried.hold();
        tried.end_call();
        assert!(tried.waits_for(1));
        thread::sleep(Duration::from_millis(100));
        assert_eq!(tried.returned(), Some(1), "only the new driver's chain is returned");
    }
}

/// A chain can't go back, while the host holds another one's call. That ends after the driver has
/// begun again, and hurts nobody.
#[test]
fn a_chain_of_a_refused_queue_leaves_the_next_one_alone() {
    let mut tried = Tried::with(2);
    let (one, other) = (tried.hold(), tried.hold());
    assert_ne!(one, other);
    tried.fails.store(true, Ordering::SeqCst);
    tried.end_call_of(one);
    let end = Instant::now() + SOON;
    while tried.fails.load(Ordering::SeqCst) && Instant::now() < end {
        thread::yield_now();
    }
    tried.stop();
    store(&tried.memory, LAYOUT.available, &[0; 0x200]);
    tried.offered = 0;
    tried.start(0);
    assert_eq!(tried.hold(), one);
    tried.end_call_of(other);
    thread::sleep(Duration::from_millis(200));
    tried.end_call_of(one);
    assert!(tried.waits_for(1));
    let next = tried.hold();
    tried.end_call_of(next);
    assert!(tried.waits_for(2));
}

#[test]
fn another_position_is_another_ring() {
    let mut tried = Tried::new();
    tried.hold();
    assert_eq!(tried.stop(), 1);
    store(&tried.memory, LAYOUT.used + 2, &[1, 0]); // another device has returned it
    tried.start(1);
    assert_eq!(tried.ring.held(), None);
    tried.end_call();
    tried.hold();
    tried.end_call();
    assert!(tried.waits_for(2));
}

#[test]
fn a_ring_goes_on_when_its_memory_is_back() {
    let mut tried = Tried::new();
    for holds in [false, true] {
        let returned = tried.returned();
        if holds {
            tried.hold();
        }
        let without = tried.memory.without(HIGH, 2 * PAGE).expect("a table");
        tried.ring.leave_memory(&tried.memory, &without, Patience::new());
        tried.ring.enter_memory(&mut tried.ring.lock(), &without);
        if holds {
            tried.end_call_unseen();
        } else {
            tried.offered += 1;
            store(&tried.memory, LAYOUT.available + 2, &tried.offered.to_le_bytes());
            tried.ring.look();
            assert!(tried.begins.recv_timeout(Duration::from_millis(200)).is_err());
        }
        assert_eq!(tried.returned(), returned);
        tried.ring.enter_memory(&mut tried.ring.lock(), &tried.memory);
        assert!(!tried.ring.asking.is_set(), "its threads wait for the IOMMU again");
        if !holds {
            tried.begins.recv_timeout(SOON).expect("a call");
            tried.end_call();
        }
        assert!(tried.waits_for(tried.offered));
        store(&tried.memory, REQUEST + 0x100, &[0; 16]);
    }
}
