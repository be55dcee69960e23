//! The order of a push's accesses, and of its barriers: a lost barrier is seen by no guest that
//! doesn't run meanwhile, so they are counted. And the tickets of the library's calls.
use super::*;
use crate::errno::{Answer, Errno};
use crate::memory::tests::BARRIERS;
use crate::memory::{GuestRange, Region};
use crate::queue::QueueLayout;
use crate::slice::GuestSlice;
use crate::values::{Attributes, Context, Entry, Handle, Node};
use alloc::vec;
use core::cell::{Cell, RefCell};
use core::sync::atomic::AtomicU8;
use core::time::Duration;
use std::ffi::CStr;

const AVAILABLE: usize = 0x1000;
const USED: usize = 0x2000;
const REQUEST: usize = 0x3000;
const REPLY: usize = 0x4000;
const LAYOUT: QueueLayout =
    QueueLayout { size: 8, descriptors: 0, available: AVAILABLE as u64, used: USED as u64 };

/// An access of the worker's, or a question of it. Each has the number of barriers before it.
#[derive(Clone, Copy, Debug, PartialEq, Eq)]
enum Step {
    Slice(usize, usize),
    IsLogging,
    Mark(usize, u64),
}

struct Memory {
    bytes: Vec<AtomicU8>,
    is_logging: Cell<bool>,
    steps: RefCell<Vec<(u32, Step)>>,
}

impl Memory {
    fn note(&self, step: Step) {
        self.steps.borrow_mut().push((BARRIERS.with(Cell::get), step));
    }

    fn write(&self, at: usize, bytes: &[u8]) {
        GuestSlice::from(&self.bytes[at..]).store(bytes);
    }

    /// The steps since the last look, whose barriers are counted from then on.
    fn steps(&self) -> Vec<(u32, Step)> {
        BARRIERS.with(|count| count.set(0));
        self.steps.take()
    }
}

impl GuestMemory for Memory {
    fn get_slice(&self, at: usize, len: usize) -> Option<GuestSlice<'_>> {
        self.note(Step::Slice(at, len));
        Some(GuestSlice::from(&self.bytes[at..][..len]))
    }

    fn is_logging(&self) -> bool {
        self.note(Step::IsLogging);
        self.is_logging.get()
    }

    fn mark(&self, written: GuestRange) {
        self.note(Step::Mark(written.guest as usize, written.len));
    }
}

/// Has no file.
struct Empty;

impl FileSystem for Empty {
    fn lookup(&self, _: &Context, _: Node, _: &CStr) -> Answer<Entry> {
        Err(Errno::ENOENT)
    }
    fn getattr(&self, _: &Context, _: Node, _: Option<Handle>) -> Answer<(Attributes, Duration)> {
        Err(Errno::EACCES)
    }
}

/// A worker that has popped the request of a guest that looks "hello" up: VIRTIO 1.2, 2.7.5 and
/// 2.7.6, and struct `fuse_in_header`.
fn popped(is_logging: bool) -> (Worker, Queue, Memory) {
    let bytes = (0..0x5000).map(|_| AtomicU8::new(0)).collect();
    let (is_logging, steps) = (Cell::new(is_logging), RefCell::default());
    let memory = Memory { bytes, is_logging, steps };
    let mut request = vec![0; 46];
    request[..8].copy_from_slice(&[46, 0, 0, 0, 1, 0, 0, 0]);
    request[8] = 77;
    request[16] = 1;
    request[40..45].copy_from_slice(b"hello");
    memory.write(REQUEST, &request);
    memory.write(0, &[0, 0x30, 0, 0, 0, 0, 0, 0, 46, 0, 0, 0, 1, 0, 1, 0]);
    memory.write(16, &[0, 0x40, 0, 0, 0, 0, 0, 0, 144, 0, 0, 0, 2, 0, 0, 0]);
    memory.write(AVAILABLE + 2, &[1, 0]);
    let (device, mut worker) = (Device::default(), Worker::new());
    worker.set_memory(&device, &[Region { guest: 0, len: 0x5000, host: 0 }]).unwrap();
    let mut queue = Queue::new(LAYOUT, 0).unwrap();
    assert_eq!(worker.pop(&mut queue, &memory), Ok(true));
    (worker, queue, memory)
}

/// The same with its reply.
fn asked(is_logging: bool) -> (Worker, Queue, Memory) {
    let (mut worker, queue, memory) = popped(is_logging);
    worker.answer(&Device::default(), &Empty, &memory).unwrap();
    memory.steps();
    (worker, queue, memory)
}

/// The reply, the used element, the used index; a full barrier; the log; and the driver's flags.
#[test]
fn a_push_has_a_barrier_before_its_loads() {
    for is_logging in [false, true] {
        let (mut worker, mut queue, memory) = asked(is_logging);
        worker.push(&mut queue, &memory).unwrap();
        let mut wanted = vec![
            (0, Step::Slice(REPLY, 16)),
            (0, Step::Slice(USED + 4, 4)),
            (0, Step::Slice(USED + 8, 4)),
            (0, Step::Slice(USED + 2, 2)),
            (1, Step::IsLogging),
        ];
        if is_logging {
            wanted.push((1, Step::Mark(REPLY, 16)));
            wanted.push((1, Step::Mark(USED + 4, 8)));
            wanted.push((1, Step::Mark(USED + 2, 2)));
        }
        wanted.push((1, Step::Slice(AVAILABLE, 2)));
        assert_eq!(memory.steps(), wanted);
    }
}

/// The store is before the barrier, and the log after it. So is the next load of the index.
#[test]
fn notifications_are_set_before_a_barrier() {
    for is_logging in [false, true] {
        let (mut worker, queue, memory) = asked(is_logging);
        assert_eq!(worker.set_notification(&queue, true, &memory), Ok(true));
        let barriers = BARRIERS.with(Cell::get);
        let mut wanted = vec![(0, Step::Slice(USED, 2)), (1, Step::IsLogging)];
        if is_logging {
            wanted.push((1, Step::Mark(USED, 2)));
        }
        assert_eq!((memory.steps(), barriers), (wanted, 1));
    }
}

/// A chain that isn't pushed: what was stored is before the barrier.
#[test]
fn data_is_marked_after_a_barrier() {
    let (mut worker, _, memory) = asked(true);
    worker.mark_data(&memory);
    assert_eq!(memory.steps()[0], (1, Step::IsLogging));
}

/// An answer by a ticket of which one bit differs is refused, and changes nothing.
#[test]
fn a_ticket_is_compared_by_each_bit() {
    let (mut worker, mut queue, memory) = popped(false);
    worker.decode_call(&Device::default(), &memory).unwrap();
    let (mut device, entry) = (Device::default().numbers(), sys::Entry::default());
    for bit in 0..u32::BITS {
        let chain = &mut worker.chain;
        *chain.ticket_mut() ^= 1 << bit;
        let late = Some(Status::OtherCall);
        assert_eq!(chain.reply_done().err(), late, "{bit}");
        assert_eq!(chain.reply_error(Errno::ENOENT).err(), late, "{bit}");
        assert_eq!(chain.reply_entry(&entry).err(), late, "{bit}");
        assert_eq!(chain.reply_create(&entry, 1, 0).err(), late, "{bit}");
        assert_eq!(chain.reply_attributes(&sys::Attr::default(), 0, 0).err(), late, "{bit}");
        assert_eq!(chain.reply_open(1, 0).err(), late, "{bit}");
        assert_eq!(chain.reply_data(0).err(), late, "{bit}");
        assert_eq!(chain.reply_xattr(0).err(), late, "{bit}");
        assert_eq!(chain.reply_write(0).err(), late, "{bit}");
        assert_eq!(chain.reply_statfs(&sys::Statfs::default()).err(), late, "{bit}");
        assert_eq!(chain.reply_lseek(0).err(), late, "{bit}");
        assert_eq!(chain.reply_init(&mut device, 0).err(), late, "{bit}");
        assert_eq!(chain.add(&mut [0; 64], b"a", 1, 1, 8).err(), late, "{bit}");
        assert_eq!(chain.add_entry(&mut [0; 256], b"a", &entry, 1).err(), late, "{bit}");
        assert_eq!(chain.reply_entries().err(), late, "{bit}");
        *chain.ticket_mut() ^= 1 << bit;
        assert_eq!(worker.chain.progress(), Progress::Decoded, "{bit}");
    }
    worker.chain.reply_error(Errno::ENOENT).unwrap();
    assert_eq!(worker.push(&mut queue, &memory).unwrap().reply_len, 16);
}
