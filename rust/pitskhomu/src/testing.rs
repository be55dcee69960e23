//! A guest for tests of a file system (feature `std`): its driver makes FUSE requests, offers them
//! in a virtqueue, and reads the replies, so that a file system is called as a guest calls it. The
//! guest doesn't run while it is served.
//!
//! # Examples
//! ```no_run
//! use pitskhomu::testing::Guest;
//! use pitskhomu::{Errno, FileSystem, Node};
//!
//! fn has_a_file(files: &dyn FileSystem) -> Result<(), Errno> {
//!     let mut guest = Guest::new(files);
//!     guest.init()?;
//!     let found = guest.lookup(Node::ROOT, "hello")?;
//!     let file = guest.open(found.node, 0)?.handle;
//!     assert_eq!(guest.read(found.node, file, 0, 100)?, b"Hello, guest!");
//!     assert_eq!(guest.lookup(Node::ROOT, "none").unwrap_err(), Errno::ENOENT);
//!     Ok(())
//! }
//! ```
#![allow(clippy::cast_possible_truncation)] // lengths are at most those of MAX_DATA
mod calls;
#[cfg(target_os = "linux")]
mod live;
mod wire;

use crate::device::Device;
use crate::errno::{Answer, Errno};
use crate::file_system::FileSystem;
use crate::memory::{self, GuestMemory, Region};
use crate::operation::Request;
use crate::queue::{Queue, QueueLayout};
use crate::slice::GuestSlice;
use crate::status::Status;
use crate::values::Node;
use crate::worker::{Served, Worker};
use alloc::boxed::Box;
use alloc::sync::Arc;
use alloc::vec::Vec;
pub use calls::{ListedEntry, MAX_DATA};
use core::fmt;
use core::sync::atomic::{fence, AtomicU8, Ordering};
use std::task::Wake;
use std::thread::{self, Thread};
use std::vec;
use wire::Bytes;

const DESCRIPTORS: usize = 0;
const AVAILABLE: usize = 0x1000;
const USED: usize = 0x2000;
const REQUEST: usize = 0x3000;
const REPLY: usize = REQUEST + ROOM;
/// The bytes of the longest request or reply: data, and headers.
const ROOM: usize = MAX_DATA + 0x1000;
const LEN: usize = REPLY + ROOM;
const SIZE: u16 = 8;
const LAYOUT: QueueLayout = QueueLayout {
    size: SIZE,
    descriptors: DESCRIPTORS as u64,
    available: AVAILABLE as u64,
    used: USED as u64,
};

/// All of the memory.
fn region() -> Region {
    Region { guest: 0, len: (LEN as u64 + 0xfff) & !0xfff, host: 0 }
}

/// The bytes of struct `fuse_in_header` and of struct `fuse_out_header`.
const IN_HEADER: usize = 40;
const OUT_HEADER: usize = 16;

struct Memory {
    bytes: Vec<AtomicU8>,
    /// Other threads access a ring's numbers meanwhile, so each access is a single one.
    is_shared: bool,
}

#[allow(unsafe_code)]
impl GuestMemory for Memory {
    fn get_slice(&self, at: usize, len: usize) -> Option<GuestSlice<'_>> {
        let bytes = self.bytes.get(at..)?.get(..len)?;
        if !self.is_shared {
            return Some(bytes.into());
        }
        // SAFETY: the bytes live as long as `self`, and are atomic: they may be written. All
        // accesses to them are by slices, and so are the guest's.
        Some(unsafe { GuestSlice::new((bytes.as_ptr() as *mut AtomicU8).cast(), len) })
    }
}

impl Memory {
    fn write(&self, at: usize, bytes: &[u8]) {
        let stored = self.get_slice(at, bytes.len()).map_or(0, |slice| slice.store(bytes));
        assert_eq!(stored, bytes.len(), "a request has at most MAX_DATA bytes of data");
    }

    fn read(&self, at: usize, len: usize) -> Vec<u8> {
        let mut bytes = vec![0; len];
        if let Some(slice) = self.get_slice(at, len) {
            slice.load(&mut bytes);
        }
        bytes
    }
}

/// How requests are answered.
enum Service<'f> {
    Methods(&'f dyn FileSystem),
    Values(Box<dyn FnMut(Request<'_>) + 'f>),
    /// By threads beside the guest.
    #[cfg(target_os = "linux")]
    Live(live::Live),
}

/// Wakes the thread that waits for an answer.
struct Unpark(Thread);

impl Wake for Unpark {
    fn wake(self: Arc<Self>) {
        self.0.unpark();
    }
}

/// A guest with one queue, which is served by a file system.
///
/// Each call of a method is a request. Its result is the reply: a value, or the errno with which
/// the guest's system call fails. A request without a reply is `Err(EIO)`, and [`Guest::last`] has
/// its fault.
pub struct Guest<'f> {
    /// The user, group and process that ask.
    pub caller: (u32, u32, u32),
    memory: Arc<Memory>,
    device: Arc<Device>,
    queue: Queue,
    worker: Worker,
    service: Service<'f>,
    offered: u16,
    last: Option<Served>,
}

impl fmt::Debug for Guest<'_> {
    fn fmt(&self, f: &mut fmt::Formatter<'_>) -> fmt::Result {
        f.debug_struct("Guest")
            .field("caller", &self.caller)
            .field("last", &self.last)
            .finish_non_exhaustive()
    }
}

impl<'f> Guest<'f> {
    /// A guest whose requests are answered by the methods of a file system.
    #[must_use]
    pub fn new(file_system: &'f dyn FileSystem) -> Guest<'f> {
        Guest::with(Service::Methods(file_system), false)
    }

    /// A guest whose requests are answered by values, at once or later. The guest waits for each
    /// answer, also for one of another thread. INIT is a request too.
    ///
    /// # Examples
    /// ```no_run
    /// use pitskhomu::testing::Guest;
    /// use pitskhomu::{Errno, Node, Operation, Options, OwnedRequest};
    /// use std::sync::mpsc::Sender;
    ///
    /// fn first_names(jobs: &Sender<OwnedRequest>) -> Result<Vec<Vec<u8>>, Errno> {
    ///     let mut guest = Guest::by_values(|request| match request.operation {
    ///         Operation::Init(_) => request.reply.send(Options::empty()).unwrap(),
    ///         Operation::Opendir { .. } | Operation::Readdir { .. } => {
    ///             jobs.send(request.into_owned().unwrap()).unwrap();
    ///         }
    ///         _ => request.reply.error(Errno::ENOSYS).unwrap(),
    ///     });
    ///     guest.init()?;
    ///     let handle = guest.opendir(Node::ROOT, 0)?.handle;
    ///     let listed = guest.readdirplus(Node::ROOT, handle, 0, 4096)?;
    ///     Ok(listed.into_iter().map(|entry| entry.name).collect())
    /// }
    /// ```
    #[must_use]
    pub fn by_values(handler: impl FnMut(Request<'_>) + 'f) -> Guest<'f> {
        Guest::with(Service::Values(Box::new(handler)), false)
    }

    fn with(service: Service<'f>, is_shared: bool) -> Guest<'f> {
        let (device, mut worker) = (Device::default(), Worker::new());
        let set = worker.set_memory(&device, &[region()]);
        let queue = set.and_then(|()| Queue::new(LAYOUT, 0));
        let bytes = (0..region().len).map(|_| AtomicU8::new(0)).collect();
        Guest {
            caller: (1000, 1000, 1),
            memory: Arc::new(Memory { bytes, is_shared }),
            device: Arc::new(device),
            queue: queue.expect("these numbers are allowed, and there is memory"),
            worker,
            service,
            offered: 0,
            last: None,
        }
    }

    /// The device, with the options that INIT agreed on.
    pub fn device(&self) -> &Device {
        &self.device
    }

    /// What became of the last request.
    #[must_use]
    pub fn last(&self) -> Option<&Served> {
        self.last.as_ref()
    }

    /// Asks a request of any opcode, with its arguments as they are in linux/fuse.h, and so many
    /// bytes for the reply's data. The result is the reply's data.
    ///
    /// # Errors
    /// The reply's errno.
    ///
    /// # Panics
    /// The arguments or the reply are longer than [`MAX_DATA`], or the device refuses the queue.
    pub fn ask(
        &mut self,
        opcode: u32,
        node: Node,
        arguments: &[u8],
        room: usize,
    ) -> Answer<Vec<u8>> {
        self.offer(opcode, node, arguments, OUT_HEADER + room);
        let len = self.serve();
        if len < OUT_HEADER {
            return Err(Errno::EIO);
        }
        let reply = self.memory.read(REPLY, len);
        match i32::from_le_bytes([reply[4], reply[5], reply[6], reply[7]]) {
            0 => Ok(reply[OUT_HEADER..].to_vec()),
            error => Err(Errno::from_raw_os_error(-error)),
        }
    }

    /// Asks a request that gets no reply.
    pub(crate) fn tell(&mut self, opcode: u32, node: Node, arguments: &[u8]) {
        self.offer(opcode, node, arguments, 0);
        self.serve();
    }

    /// Offers a request, in a chain of one buffer for it and one for the reply.
    fn offer(&mut self, opcode: u32, node: Node, arguments: &[u8], room: usize) {
        assert!(room <= ROOM, "a reply has at most MAX_DATA bytes of data");
        let (uid, gid, pid) = self.caller;
        let len = IN_HEADER + arguments.len();
        let unique = u64::from(self.offered) + 1;
        let header = Bytes::default().d(len as u32).d(opcode).q(unique).q(node.0);
        let request = header.d(uid).d(gid).d(pid).d(0).bytes(arguments);
        self.memory.write(REQUEST, &request.0);
        let has_room = room > 0;
        let first = Bytes::default().q(REQUEST as u64).d(len as u32);
        let first = first.w(u16::from(has_room)).w(1); // VIRTQ_DESC_F_NEXT
        let second = Bytes::default().q(REPLY as u64).d(room as u32).w(2).w(0); // .._WRITE
        self.memory.write(DESCRIPTORS, &[first.0, second.0].concat());
        let place = AVAILABLE + 4 + 2 * usize::from(self.offered % SIZE);
        self.memory.write(place, &0u16.to_le_bytes());
        self.offered = self.offered.wrapping_add(1);
        fence(Ordering::Release); // threads that see the index see the request
        memory::store_u16(&*self.memory, AVAILABLE + 2, self.offered);
    }

    /// The reply's length.
    fn serve(&mut self) -> usize {
        let served = match &mut self.service {
            Service::Methods(file_system) => {
                self.worker.serve(&mut self.queue, &self.device, *file_system, &*self.memory)
            }
            Service::Values(_) => self.serve_by_values().map(Some),
            #[cfg(target_os = "linux")]
            Service::Live(live) => return live.serve(&self.memory, self.offered),
        };
        self.last = match served {
            Ok(Some(served)) => Some(served),
            Ok(None) => panic!("no chain is available"),
            Err(status) => panic!("the queue is refused: {status}"),
        };
        self.last.map_or(0, |served| served.reply_len as usize)
    }

    fn serve_by_values(&mut self) -> Result<Served, Status> {
        let Guest { worker, queue, device, service, .. } = self;
        let memory = &*self.memory;
        worker.set_waker(Some(Arc::new(Unpark(thread::current())).into()))?;
        let request = worker.take(queue, device, memory)?;
        if let (Service::Values(handler), Some(request)) = (service, request) {
            handler(request);
        }
        while !worker.finish(device, memory)? {
            thread::park();
        }
        worker.push(queue, memory)
    }
}

#[cfg(test)]
mod tests {
    use super::*;
    use crate::values::{Attributes, Context, Entry, Handle};
    use core::time::Duration;
    use std::ffi::CStr;

    struct Empty;

    impl FileSystem for Empty {
        fn lookup(&self, _: &Context, _: Node, _: &CStr) -> Answer<Entry> {
            Err(Errno::ENOENT)
        }
        fn getattr(
            &self,
            _: &Context,
            _: Node,
            _: Option<Handle>,
        ) -> Answer<(Attributes, Duration)> {
            Err(Errno::EACCES)
        }
    }

    /// A guest asks more often than 16 bits count: positions wrap, and continue.
    #[test]
    fn a_guest_may_ask_for_ever() {
        let first = u16::MAX - 10;
        let begun = |guest: Guest<'static>| {
            memory::store_u16(&*guest.memory, AVAILABLE + 2, first);
            memory::store_u16(&*guest.memory, USED + 2, first);
            Guest { queue: Queue::new(LAYOUT, first).unwrap(), offered: first, ..guest }
        };
        let by_values = Guest::by_values(|request| request.reply.error(Errno::EACCES).unwrap());
        for mut guest in [begun(Guest::new(&Empty)), begun(by_values)] {
            for k in 0..30u16 {
                assert_eq!(guest.getattr(Node::ROOT, None).unwrap_err(), Errno::EACCES);
                let next = first.wrapping_add(k + 1);
                assert_eq!((guest.queue.next_used(), guest.offered), (next, next));
            }
        }
        let start = |builder: crate::live::Builder, queue, kick, call| {
            builder.start(queue, kick, call, Arc::new(Empty))
        };
        let mut guest = Guest::live_from(first, start).unwrap();
        for _ in 0..30 {
            assert_eq!(guest.getattr(Node::ROOT, None).unwrap_err(), Errno::EACCES);
        }
    }
}
