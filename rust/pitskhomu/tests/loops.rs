//! The loop of a device that has more than a `Builder`: threads behind an IOMMU, and messages that
//! wait only a while.
#![cfg(target_os = "linux")]
mod guest;

use guest::running::*;
use pitskhomu::live::{Asked, Loop, Queued, Server};
use pitskhomu::*;
use std::fs::File;
use std::io::Write as _;
use std::sync::atomic::{fence, AtomicBool, AtomicU32, Ordering};
use std::sync::{Arc, Mutex};
use std::thread::{self, JoinHandle};
use std::time::{Duration, Instant};

/// I/O addresses are the guest's and so much.
const SHIFT: u64 = 0x7000_0000_0000;
const PAGE: u64 = Iotlb::PAGE;
const MOMENT: Duration = Duration::from_millis(50);

/// What lies under the queue's lock.
#[derive(Debug)]
struct Gate {
    queue: Queue,
    is_closed: bool,
    is_ending: bool,
}

impl Queued for Gate {
    fn queue(&self) -> &Queue {
        &self.queue
    }

    fn is_live(&self) -> bool {
        !self.is_closed && !self.is_ending
    }
}

/// Reads, and may hold those of offset 1.
#[derive(Default)]
struct Holding {
    holds: AtomicBool,
}

impl FileSystem for Holding {
    fn lookup(&self, _: &Context, _: Node, _: &CStr) -> Answer<Entry> {
        Err(Errno::EIO)
    }
    fn getattr(&self, _: &Context, _: Node, _: Option<Handle>) -> Answer<(Attributes, Duration)> {
        Err(Errno::EIO)
    }
    fn read(&self, _: &Context, _: Node, read: ReadFile, data: &mut ReadData<'_>) -> Answer<()> {
        if read.offset == 1 {
            until(|| !self.holds.load(Ordering::Acquire));
        }
        data.put(&data_at(read.offset));
        Ok(())
    }
}

/// A device behind an IOMMU.
struct Platform {
    threads: Loop<Gate>,
    device: Device,
    files: Holding,
    memory: Arc<Memory>,
    table: Mutex<Iotlb>,
    call: File,
    misses: AtomicU32,
    refused: Mutex<Option<Status>>,
}

/// One of its threads.
struct Translated {
    platform: Arc<Platform>,
    worker: Worker,
    owed: bool,
}

impl Server<Gate> for Translated {
    fn pop(&mut self, gate: &mut Gate) -> Result<Popped, Status> {
        let Platform { table, memory, .. } = &*self.platform;
        let mut table = table.lock().unwrap();
        let mut lent = self.worker.lend(&mut table)?;
        lent.pop(&mut gate.queue, &**memory)
    }

    fn ask(&mut self) -> Asked {
        assert!(!self.worker.misses().is_empty());
        drop(self.platform.threads.lock()); // the queue isn't locked
        for miss in self.worker.misses() {
            self.platform.misses.fetch_add(1, Ordering::Relaxed);
            let mut table = self.platform.table.lock().unwrap();
            table.map(miss.iova, miss.len, miss.iova - SHIFT, miss.access).unwrap();
        }
        Asked::All
    }

    fn answer(&mut self) -> bool {
        let Platform { device, files, memory, .. } = &*self.platform;
        self.worker.answer(device, files, &**memory).unwrap();
        true
    }

    fn push(&mut self, gate: &mut Gate) -> bool {
        let Platform { table, memory, .. } = &*self.platform;
        let mut table = table.lock().unwrap();
        let pushed = self.worker.lend(&mut table).unwrap().push(&mut gate.queue, &**memory);
        self.owed |= pushed.unwrap().notify;
        false
    }

    fn interrupt(&mut self) {
        if std::mem::take(&mut self.owed) {
            (&self.platform.call).write_all(&1u64.to_ne_bytes()).unwrap();
        }
    }

    fn set_notification(&mut self, gate: &mut Gate, enabled: bool) -> Result<bool, Status> {
        let Platform { table, memory, .. } = &*self.platform;
        let mut table = table.lock().unwrap();
        let mut lent = self.worker.lend(&mut table)?;
        lent.set_notification(&gate.queue, enabled, &**memory)
    }

    fn available_index(&mut self, _: &Gate) -> Option<u16> {
        let index = self.platform.memory.half(AVAILABLE + 2).load(Ordering::Relaxed);
        fence(Ordering::Acquire);
        Some(index)
    }

    fn refuse(&mut self, _: &mut Gate, why: Status) {
        self.platform.refused.lock().unwrap().get_or_insert(why);
    }

    fn rests(&mut self, gate: &mut Gate) -> bool {
        gate.is_ending
    }
}

/// A device with its threads, and the driver of its guest.
struct Tried {
    platform: Arc<Platform>,
    threads: Vec<JoinHandle<()>>,
    driver: Driver,
}

impl Tried {
    fn new(threads: u16, has_event_index: bool) -> Tried {
        let memory = Memory::new();
        let (mut driver, kick, call) = Driver::new(&memory, has_event_index);
        driver.shift = SHIFT;
        let QueueLayout { size, descriptors, available, used } = layout();
        let io_layout = QueueLayout {
            size,
            descriptors: SHIFT + descriptors,
            available: SHIFT + available,
            used: SHIFT + used,
        };
        let queue = Queue::new(io_layout, 0).unwrap().with_max_in_flight(threads).unwrap();
        let queue = queue.with_event_index(has_event_index);
        let gate = Gate { queue, is_closed: false, is_ending: false };
        let threads_of = Loop::new(gate).unwrap();
        threads_of.set_kick(&mut threads_of.lock(), Some(kick)).unwrap();
        let platform = Arc::new(Platform {
            threads: threads_of,
            device: Device::default(),
            files: Holding::default(),
            memory,
            table: Mutex::new(Iotlb::new().unwrap()),
            call,
            misses: AtomicU32::new(0),
            refused: Mutex::default(),
        });
        let threads = (0..threads).map(|_| start(&platform)).collect();
        Tried { platform, threads, driver }
    }

    fn end(self) {
        let Tried { platform, threads, .. } = self;
        platform.threads.lock().is_ending = true;
        platform.threads.look();
        threads.into_iter().for_each(|thread| thread.join().unwrap());
        assert_eq!(*platform.refused.lock().unwrap(), None);
        assert_eq!(platform.threads.lock().queue().in_flight(), 0);
    }
}

fn start(platform: &Arc<Platform>) -> JoinHandle<()> {
    let mut worker = Worker::new();
    worker.set_memory(&platform.device, &[region()]).unwrap();
    let mut server = Translated { platform: platform.clone(), worker, owed: false };
    let platform = platform.clone();
    thread::spawn(move || platform.threads.run(&mut server).unwrap())
}

/// Buffers are unmapped again and again, and each chain is served.
#[test]
fn misses_are_mapped_meanwhile() {
    for (threads, has_event_index) in [(1, false), (1, true), (3, false), (3, true)] {
        let mut tried = Tried::new(threads, has_event_index);
        let (platform, is_over) = (tried.platform.clone(), Arc::new(AtomicBool::new(false)));
        let over = is_over.clone();
        let unmapping = thread::spawn(move || {
            while !over.load(Ordering::Relaxed) {
                let mut table = platform.table.lock().unwrap();
                table.unmap(SHIFT + REQUESTS, PAGE).unwrap();
                table.unmap(SHIFT + REPLIES, PAGE).unwrap();
                drop(table);
                thread::sleep(Duration::from_micros(50));
            }
        });
        for at_a_time in [1, 3, 8] {
            run(&mut tried.driver, 200, at_a_time);
        }
        while tried.platform.misses.load(Ordering::Relaxed) <= 5 {
            run(&mut tried.driver, 20, 8); // the other thread hasn't run yet
        }
        is_over.store(true, Ordering::Relaxed);
        unmapping.join().unwrap();
        assert!(tried.driver.used().is_none());
        tried.end();
    }
}

/// The driver runs while the queue is stopped, closed and opened again and again.
#[test]
fn a_queue_that_is_closed_goes_on() {
    for (threads, has_event_index) in [(1, true), (3, false), (3, true)] {
        let mut tried = Tried::new(threads, has_event_index);
        // A stop doesn't wait for chains whose addresses are missed: so none is.
        let mapped =
            tried.platform.table.lock().unwrap().map(SHIFT, LEN as u64, 0, Access::ReadWrite);
        mapped.unwrap();
        run(&mut tried.driver, 1, 1);
        let (platform, is_over) = (tried.platform.clone(), Arc::new(AtomicBool::new(false)));
        let over = is_over.clone();
        let stopping = thread::spawn(move || {
            let (threads, mut stops) = (&platform.threads, 0);
            while stops < 6 || !over.load(Ordering::Relaxed) {
                let state = threads.lock();
                let end = platform.memory.half(AVAILABLE + 2).load(Ordering::Acquire);
                let state = threads.pop_until(state, end, || PATIENCE);
                let state = threads.settle(state, PATIENCE);
                assert_eq!(state.queue.in_flight(), 0);
                assert_eq!(state.queue.next_avail(), end);
                let mut state = threads.close(state, || false);
                state.is_closed = true;
                drop(state);
                let used = platform.memory.half(USED + 2).load(Ordering::Acquire);
                assert_eq!(used, end);
                thread::sleep(Duration::from_micros(100));
                assert_eq!(platform.memory.half(USED + 2).load(Ordering::Acquire), used);
                threads.lock().is_closed = false;
                threads.look();
                stops += 1;
            }
        });
        for at_a_time in [1, 3, 8] {
            run(&mut tried.driver, 200, at_a_time);
        }
        is_over.store(true, Ordering::Relaxed);
        stopping.join().unwrap();
        tried.end();
    }
}

/// The file system holds a call. A message waits a while for it, and the others are served.
#[test]
fn a_message_waits_only_a_while() {
    let mut tried = Tried::new(2, true);
    let platform = tried.platform.clone();
    let threads = &platform.threads;
    tried.platform.files.holds.store(true, Ordering::Release);
    tried.driver.offer(0, &read_request(1, 1), 116);
    until(|| threads.lock().queue().in_flight() == 1);
    for slot in 1..7 {
        tried.driver.offer(slot, &read_request(2, 2), 116);
    }
    let before = Instant::now();
    let state = threads.pop_until(threads.lock(), 7, || PATIENCE);
    let mut state = threads.settle(state, MOMENT);
    assert!(before.elapsed() >= MOMENT && before.elapsed() < PATIENCE);
    assert_eq!((state.queue.next_avail(), state.queue.in_flight()), (7, 1));
    tried.driver.offer(7, &read_request(3, 3), 116);
    threads.go_on(&mut state);
    drop(state);
    for _ in 0..7 {
        assert_ne!(tried.driver.wait().0, 0);
    }
    tried.platform.files.holds.store(false, Ordering::Release);
    assert_eq!(tried.driver.wait(), (0, 16 + data_at(1).len() as u32));
    tried.end();
}

/// A server with the methods alone that it must have.
struct Bare;

impl Server<Queue> for Bare {
    fn pop(&mut self, _: &mut Queue) -> Result<Popped, Status> {
        Ok(Popped::Idle)
    }
    fn answer(&mut self) -> bool {
        true
    }
    fn push(&mut self, _: &mut Queue) -> bool {
        false
    }
    fn interrupt(&mut self) {}
    fn set_notification(&mut self, _: &mut Queue, _: bool) -> Result<bool, Status> {
        Ok(false)
    }
    fn available_index(&mut self, _: &Queue) -> Option<u16> {
        None
    }
    fn refuse(&mut self, _: &mut Queue, _: Status) {}
}

/// A queue by itself is live, and a server has no other chains, no IOMMU and no end.
#[test]
fn what_is_not_written_has_a_default() {
    let mut queue = Queue::new(layout(), 0x1234).unwrap();
    assert_eq!(Queued::next_chain(&queue), (0, 0x1234));
    assert!(queue.is_live() && queue.may_tell() && queue.has_room());
    assert!(!Bare.resumes(&mut queue) && !Bare.rests(&mut queue));
    assert_eq!(Bare.ask(), Asked::NotAll);
}
