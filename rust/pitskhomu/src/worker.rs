//! The worker: from a chain's pop to its push.
mod ahead;
mod answering;
mod decoding;
mod dispatching;
mod lent;
mod pushing;
mod responding;

use crate::cancelled::{Cancelled, Given};
use crate::chain::{Chain, PopStep, Progress, Replied};
use crate::data::Counts;
use crate::device::Device;
use crate::file_system::FileSystem;
use crate::iotlb::Miss;
use crate::memory::{self, GuestMemory, Region};
use crate::operation::Request;
use crate::queue::Queue;
use crate::reply::Slot;
use crate::status::{Fault, RequestFault, Status};
use crate::sys;
use crate::values::{Node, RequestId};
use alloc::sync::{Arc, Weak};
use alloc::vec::Vec;
use core::fmt;
use core::mem;
use core::sync::atomic::{fence, Ordering};
use core::task::Waker;
pub use lent::{Lent, Popped};

/// A chain that was returned to the driver, with its reply's length, its fault and its notice.
#[derive(Clone, Copy, Debug, PartialEq, Eq)]
#[non_exhaustive]
pub struct Served {
    /// The index of the chain's first descriptor, which is the used element's id.
    pub head: u16,
    /// The length of the request, in bytes; 0 with a fault.
    pub request_len: u64,
    /// The length of the reply buffer, in bytes; 0 with a fault.
    pub room_len: u64,
    /// The request's opcode, as the guest wrote it (enum `fuse_opcode` of linux/fuse.h). 0 if the
    /// request was too short to have one, or with a fault.
    pub opcode: u32,
    /// The request's `unique`, the guest's number of it; 0 as for `opcode`.
    pub unique: u64,
    /// The length of the reply, in bytes; 0 if there is none.
    pub reply_len: u32,
    /// The fault of the chain, if any. Then there is no reply.
    pub fault: Option<Fault>,
    /// The fault of the request, if any. Then there is no reply, and no file call was made.
    pub request_fault: Option<RequestFault>,
    /// Whether the reply buffer was too small for the answer. Then there is no reply, and the
    /// worker undid the answer: it forgot the entry, and released the file.
    pub had_no_room: bool,
    /// Whether to notify the driver (VIRTIO 1.2, 2.7.7). One notification is enough for several
    /// chains.
    pub notify: bool,
}

/// Serves the chains of queues, one at a time. It has the library's handle, and buffers that grow
/// as needed, to about 2 MiB at most. Each thread has a worker of its own, which may move to
/// another thread.
///
/// # Examples
/// ```
/// use pitskhomu::*;
/// use std::sync::atomic::AtomicU8;
/// use std::time::Duration;
///
/// /// A file system with no file.
/// struct Empty;
///
/// impl FileSystem for Empty {
///     fn lookup(&self, _: &Context, _: Node, _: &CStr) -> Answer<Entry> {
///         Err(Errno::ENOENT)
///     }
///     fn getattr(
///         &self,
///         _: &Context,
///         _: Node,
///         _: Option<Handle>,
///     ) -> Answer<(Attributes, Duration)> {
///         Ok((Attributes::directory(0o755).with_inode(1), Duration::from_secs(1)))
///     }
/// }
///
/// /// The memory of a guest that doesn't run.
/// struct Memory(Vec<AtomicU8>);
///
/// impl GuestMemory for Memory {
///     fn get_slice(&self, at: usize, len: usize) -> Option<GuestSlice<'_>> {
///         self.0.get(at..)?.get(..len).map(GuestSlice::from)
///     }
/// }
///
/// # fn main() -> Result<(), Status> {
/// let memory = Memory((0..0x4000).map(|_| AtomicU8::new(0)).collect());
/// // A LOOKUP of the name "a" in the root: descriptor 0 has the request, 1 the reply buffer.
/// let write = |at: usize, bytes: &[u8]| {
///     GuestSlice::from(&memory.0[at..]).store(bytes);
/// };
/// write(0x0000, &[0, 0x30, 0, 0, 0, 0, 0, 0, 42, 0, 0, 0, 1, 0, 1, 0]);
/// write(0x0010, &[0, 0x38, 0, 0, 0, 0, 0, 0, 144, 0, 0, 0, 2, 0, 0, 0]);
/// write(0x1002, &[1, 0, 0, 0]); // the available index, and the head of the one chain
/// write(0x3000, &[42, 0, 0, 0, 1, 0, 0, 0, 9, 0, 0, 0, 0, 0, 0, 0, 1]);
/// write(0x3028, b"a");
///
/// let device = Device::default();
/// let mut worker = Worker::new();
/// worker.set_memory(&device, &[Region { guest: 0, len: 0x4000, host: 0 }])?;
/// let layout = QueueLayout { size: 8, descriptors: 0, available: 0x1000, used: 0x2000 };
/// let mut queue = Queue::new(layout, 0)?;
/// let served = worker.serve(&mut queue, &device, &Empty, &memory)?.expect("one is available");
/// assert_eq!((served.opcode, served.unique, served.reply_len), (1, 9, 16));
/// assert_eq!(worker.serve(&mut queue, &device, &Empty, &memory)?, None);
/// # Ok(())
/// # }
/// ```
#[must_use]
pub struct Worker {
    chain: Chain,
    /// Whether the file system has the request and hasn't returned. If the worker is called again
    /// meanwhile, the file system panicked.
    is_asked: bool,
    /// The number of its regions, by `memory::next_regions`.
    regions: usize,
    /// The regions themselves: marks behind a table are looked up in them.
    layout: Vec<Region>,
    /// What the last pop missed in the table that was lent.
    misses: Vec<Miss>,
    /// The rings of the queue that it popped from last, if they are in its regions.
    ring: Option<ahead::Ring>,
    /// The loads of its pop that were made ahead.
    ahead: ahead::Loads,
    /// A table was lent since the regions were set: addresses are I/O addresses.
    has_table: bool,
    /// The bytes of a pop's loads.
    loaded: Vec<u8>,
    /// The request, as far as it was loaded.
    request: Vec<u8>,
    /// How much of it was decoded.
    decoded: usize,
    /// The data of the reply to a listing, READLINK, GETXATTR or LISTXATTR.
    list: Vec<u8>,
    /// The bytes of entries in `list`, and their nodes.
    used: usize,
    nodes: Vec<Node>,
    front: [u8; sys::FRONT_MAX],
    /// The number of the chain that it has, or had last.
    id: RequestId,
    pop: sys::PopResult,
    call: sys::Call,
    replied: Replied,
    /// The bytes of the reply buffer.
    counts: Counts,
    /// The place of an answer that comes by a reply object.
    slot: Arc<Slot>,
    /// The session of the chain's queue.
    session: Weak<()>,
    /// Whether the file system has a call of the chain, which isn't returned.
    is_called: bool,
    /// What the answer gives the guest.
    given: Given,
    /// What is to be undone.
    cancelled: Option<Cancelled>,
}

impl fmt::Debug for Worker {
    fn fmt(&self, f: &mut fmt::Formatter<'_>) -> fmt::Result {
        f.debug_struct("Worker")
            .field("progress", &self.chain.progress())
            .field("pop", &self.pop)
            .finish_non_exhaustive()
    }
}

impl Default for Worker {
    fn default() -> Worker {
        Worker::new()
    }
}

/// Frees the handle unless it is forgotten. So a pop ends if the memory panics at one of its loads.
struct Popping<'w>(&'w mut Worker);

impl Drop for Popping<'_> {
    fn drop(&mut self) {
        self.0.chain.abandon();
    }
}

impl Worker {
    /// A worker without memory: call `set_memory` first.
    pub fn new() -> Worker {
        Worker {
            chain: Chain::new(),
            is_asked: false,
            regions: 0,
            layout: Vec::new(),
            ring: None,
            ahead: ahead::Loads::default(),
            has_table: false,
            misses: Vec::new(),
            loaded: Vec::new(),
            request: Vec::new(),
            decoded: 0,
            list: Vec::new(),
            used: 0,
            nodes: Vec::new(),
            front: [0; sys::FRONT_MAX],
            id: RequestId::default(),
            pop: sys::PopResult::default(),
            call: sys::Call::default(),
            replied: Replied::Whole,
            counts: Counts::default(),
            slot: Arc::default(),
            session: Weak::new(),
            is_called: false,
            given: Given::default(),
            cancelled: None,
        }
    }

    /// Sets what is woken when an answer comes by a reply object ([`Reply`](crate::Reply)), on the
    /// thread that answers. Then call `finish`.
    ///
    /// # Errors
    /// `ChainInFlight`: the worker has a chain.
    pub fn set_waker(&mut self, waker: Option<Waker>) -> Result<(), Status> {
        if self.has_chain() {
            return Err(Status::ChainInFlight);
        }
        self.slot = Arc::new(Slot::new(waker));
        Ok(())
    }

    /// Sets the regions of the guest's memory for the next chains, and copies them: at most
    /// `Device::MAX_REGIONS` in any order, not empty and without overlap. Call it first, and after
    /// each change of the guest's memory.
    ///
    /// # Errors
    /// An error leaves the regions unchanged.
    /// - `EmptyRegion`, `BadRegionHost`, `BadRegionGuest`, `BadRegionLen`, `BadRegionEnd`: of the
    ///   first region that isn't allowed.
    /// - `TooManyRegions`, `RegionsOverlap`.
    /// - `ChainInFlight`: the worker has a chain.
    /// - `OutOfMemory`: an allocation failed.
    pub fn set_memory(&mut self, device: &Device, regions: &[Region]) -> Result<(), Status> {
        let mut layout = Vec::new();
        layout.try_reserve_exact(regions.len()).map_err(|_| Status::OutOfMemory)?;
        layout.extend_from_slice(regions);
        self.chain.set_memory(&device.numbers(), regions)?;
        (self.regions, self.layout) = (memory::next_regions(), layout);
        (self.ring, self.has_table) = (None, false);
        Ok(())
    }

    /// Serves the next chain of a queue, if one is available: pops it, calls the file system, and
    /// pushes it with the reply. If the worker already has a chain, it serves that one first.
    /// `None` if no chain is available.
    ///
    /// After a panic of the file system, pass the same queue again: the call is answered EIO, and
    /// its chain is returned. A panic of the memory between the stores of a push may lose the chain
    /// for the guest.
    ///
    /// # Errors
    /// After an error the worker has no chain.
    /// - Those of `Status::stops_queue`: set `DEVICE_NEEDS_RESET`.
    /// - `OutOfMemory`: an allocation failed. The chain is still available, and the driver doesn't
    ///   notify again.
    /// - `QueueNotBegun`: the queue isn't set up.
    /// - `WrongOrder`: no memory was set. The worker keeps a chain whose reply object isn't
    ///   answered.
    /// - `ChainInFlight`: other workers have `Queue::max_in_flight` chains of the queue.
    /// - `OtherQueue`: the queue was reset while the worker had a chain of it.
    pub fn serve(
        &mut self,
        queue: &mut Queue,
        device: &Device,
        file_system: &dyn FileSystem,
        memory: &dyn GuestMemory,
    ) -> Result<Option<Served>, Status> {
        if !self.has_chain() && !self.pop(queue, memory)? {
            return Ok(None);
        }
        self.answer(device, file_system, memory)?;
        let pushed = self.push(queue, memory);
        self.tell_cancelled(file_system);
        pushed.map(Some)
    }

    /// Pops the next chain of a queue, and decodes its request. `None` if no chain is available.
    /// Answer by the request's reply object, at once or later, on any thread. Then call `finish`
    /// and `push`.
    ///
    /// # Examples
    /// ```
    /// # use pitskhomu::*;
    /// # fn serve_all(
    /// #     worker: &mut Worker,
    /// #     queue: &mut Queue,
    /// #     device: &Device,
    /// #     memory: &dyn GuestMemory,
    /// #     call: &dyn Fn(Request<'_>),
    /// # ) -> Result<(), Status> {
    /// while let Some(request) = worker.take(queue, device, memory)? {
    ///     call(request); // it may move `request.reply` to another thread
    ///     if !worker.finish(device, memory)? {
    ///         break; // no answer yet: the worker's waker is woken when one comes
    ///     }
    ///     worker.push(queue, memory)?;
    /// }
    /// # Ok(())
    /// # }
    /// ```
    ///
    /// # Errors
    /// Those of `pop` and `decode`.
    pub fn take<'w>(
        &'w mut self,
        queue: &mut Queue,
        device: &Device,
        memory: &'w dyn GuestMemory,
    ) -> Result<Option<Request<'w>>, Status> {
        if !self.pop(queue, memory)? {
            return Ok(None);
        }
        self.decode(device, memory).map(Some)
    }

    /// Pops the next chain of a queue, and returns `true` if one is available. Then call `answer`,
    /// or `decode` and `finish`, and then `push`. Several workers may each have a chain of one
    /// queue, up to `Queue::max_in_flight`. Keep the queue behind a lock, and hold the lock for
    /// `pop` and for `push`, but not for the others. Chains may be pushed in any order.
    ///
    /// # Errors
    /// Those of `serve`, and `WrongOrder`: the worker already has a chain, and keeps it. After
    /// [`Worker::lend`] also `OtherTable`: pop by [`Lent::pop`](crate::Lent::pop), or set the
    /// memory again.
    pub fn pop(&mut self, queue: &mut Queue, memory: &dyn GuestMemory) -> Result<bool, Status> {
        self.pop_next(queue, memory, false).map(|popped| popped == Popped::Chain)
    }

    /// The same, with a table that is lent, or without one.
    fn pop_next(
        &mut self,
        queue: &mut Queue,
        memory: &dyn GuestMemory,
        is_lent: bool,
    ) -> Result<Popped, Status> {
        if self.has_chain() {
            return Err(Status::WrongOrder);
        }
        grow(&mut self.request, sys::FIRST)?;
        let index = if is_lent { None } else { self.first_load(queue, memory)? };
        if self.is_idle(queue, index) {
            return Ok(Popped::Idle);
        }
        self.forget_last();
        let popping = Popping(self);
        match popping.0.pop_steps(queue, memory, is_lent, index)? {
            PopStep::InFlight if is_lent => popping.0.keep_windows(queue)?,
            PopStep::InFlight => {}
            PopStep::Missed if is_lent => {
                return popping.0.gather_misses().map(|()| Popped::Missing)
            }
            PopStep::Missed => return Err(Status::OtherTable), // the table isn't lent
            PopStep::Idle | PopStep::Load => {
                mem::forget(popping); // the handle is free
                return Ok(Popped::Idle);
            }
        }
        mem::forget(popping);
        if self.pop.fault != 0 {
            self.call = sys::Call::default();
        }
        self.id = RequestId::next();
        if !core::ptr::eq(self.session.as_ptr(), Arc::as_ptr(queue.session())) {
            self.session = Arc::downgrade(queue.session());
        }
        Ok(Popped::Chain)
    }

    /// Forgets what belongs to the chain before. Of its call these are read also if no call is
    /// decoded; a chain with a fault has none, and gets all of it.
    fn forget_last(&mut self) {
        let call = &mut self.call;
        (call.kind, call.answer, call.opcode, call.unique, call.fault) = Default::default();
        self.is_asked = false;
        self.replied = Replied::Whole;
        (self.counts, self.used, self.decoded) = (Counts::default(), 0, 0);
        self.nodes.clear();
        (self.given, self.cancelled) = (Given::default(), None);
    }

    /// Whether this worker has a chain that it popped and hasn't pushed.
    #[must_use]
    pub fn has_chain(&self) -> bool {
        self.chain.progress() != Progress::Free
    }

    /// Whether `push` may be called: the chain has its reply, or gets none.
    #[must_use]
    pub fn is_answered(&self) -> bool {
        self.chain.progress() == Progress::Replied
    }

    /// Pops a chain, and returns the end of the pop.
    fn pop_steps(
        &mut self,
        queue: &mut Queue,
        memory: &dyn GuestMemory,
        is_lent: bool,
        index: Option<u16>,
    ) -> Result<PopStep, Status> {
        self.pop = sys::PopResult::default();
        let mut is_first = true;
        if !is_lent {
            match self.pop_ahead(queue, memory, index)? {
                PopStep::Load => self.load_first(queue, memory)?,
                ended => return Ok(ended),
            }
            is_first = false;
        }
        loop {
            let loaded = &self.loaded[..self.pop.load_len];
            match self.chain.pop(queue, loaded, &mut self.pop)? {
                PopStep::Load if is_first => self.load_index(queue, memory)?,
                PopStep::Load => self.load(memory)?,
                ended => return Ok(ended),
            }
            is_first = false;
        }
    }

    /// The load that a pop asks for, which began with loads ahead. It may be the available index.
    fn load_first(&mut self, queue: &mut Queue, memory: &dyn GuestMemory) -> Result<(), Status> {
        if self.pop.load_len == 2 {
            queue.forget_index();
        }
        self.load(memory)
    }

    /// The first load of a pop: the available index. The index that was loaded last is used again
    /// while a chain before it wasn't taken.
    fn load_index(&mut self, queue: &mut Queue, memory: &dyn GuestMemory) -> Result<(), Status> {
        grow(&mut self.loaded, 2)?;
        if let Some(index) = queue.seen_index(self.regions) {
            self.loaded[..2].copy_from_slice(&index.to_le_bytes());
            return Ok(());
        }
        self.load(memory)?;
        queue.see_index(u16::from_le_bytes([self.loaded[0], self.loaded[1]]), self.regions);
        Ok(())
    }

    /// A load of a pop. Two bytes are a ring's index, entry or flags, or the part of a table's
    /// entry before a region's end. In each case their address is even.
    fn load(&mut self, memory: &dyn GuestMemory) -> Result<(), Status> {
        let sys::PopResult { load_at: at, load_len: len, .. } = self.pop;
        grow(&mut self.loaded, len)?;
        match &mut self.loaded[..len] {
            bytes @ [_, _] => bytes.copy_from_slice(&memory::load_u16(memory, at).to_le_bytes()),
            bytes => memory::load(memory, at, bytes),
        }
        fence(Ordering::Acquire);
        Ok(())
    }
}

impl Drop for Worker {
    /// A reply object is refused from now on.
    fn drop(&mut self) {
        let _ = self.slot.close();
    }
}

/// Makes a buffer at least `len` bytes long.
fn grow(buffer: &mut Vec<u8>, len: usize) -> Result<(), Status> {
    if buffer.len() < len {
        buffer.try_reserve_exact(len - buffer.len()).map_err(|_| Status::OutOfMemory)?;
        buffer.resize(len, 0);
    }
    Ok(())
}

#[cfg(test)]
mod tests;
