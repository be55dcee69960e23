//! Serves a queue beside a running guest (feature `std`, Linux): threads that sleep until the
//! driver notifies, over two event descriptors (eventfd), as KVM's ioeventfd and irqfd and
//! vhost-user have them.
//!
//! A thread pops and pushes chains under the queue's lock, and answers them without it. The library
//! decides what it does next (`pitskhomu_turns.h`): when it enables the driver's notifications,
//! sleeps, or wakes another thread. It is proved that threads that do so lose no chain and no
//! answer, with an event index or without. That these threads do so is tested.
//!
//! An answer may come later ([`Builder::start_by_values`]): then the chain waits with a worker of
//! its own, and the thread continues. So more chains may be in flight than there are threads
//! ([`Builder::in_flight`]).
//!
//! The guest's addresses are physical with a [`Builder`]. A device that needs more runs the same
//! loop with threads of its own ([`Loop`], [`Server`]): behind an IOMMU, or if the queue's numbers
//! come and go, or messages wait only a while for chains ([`Loop::settle`]).
//!
//! The driver's side notifies by adding to the counter of `kick`, as ioeventfd does. A test writes
//! `1u64.to_ne_bytes()`. The threads never read that counter. They interrupt the driver by adding
//! 1 to the counter of `call`. Both descriptors may be blocking or non-blocking.
//!
//! # Examples
//! ```no_run
//! use pitskhomu::{live, Device, FileSystem, GuestMemory, Queue, Region, Status};
//! use std::fs::File;
//! use std::sync::Arc;
//!
//! /// `kick` is the queue's ioeventfd, and `call` its irqfd.
//! fn start<M: GuestMemory + Send + Sync + 'static, F: FileSystem + Send + Sync + 'static>(
//!     device: Arc<Device>,
//!     memory: (Arc<M>, Vec<Region>),
//!     file_system: Arc<F>,
//!     (queue, kick, call): (Queue, File, File),
//! ) -> Result<live::Serving, live::Error> {
//!     let (memory, regions) = memory;
//!     let builder = live::Builder::new(device, memory, &regions).threads(4);
//!     builder.start(queue, kick, call, file_system)
//! }
//! ```
//! By values, with another thread that answers: one thread serves the queue, with up to 16 chains
//! in flight.
//! ```no_run
//! use pitskhomu::{live, Cancelled, Errno, FileSystem, Operation, OwnedRequest, Queue, Request};
//! use std::fs::File;
//! use std::sync::mpsc::Sender;
//! use std::sync::{Arc, Mutex};
//!
//! struct Later<F> {
//!     files: Arc<F>,
//!     jobs: Mutex<Sender<OwnedRequest>>, // a lock, since threads share the handler
//! }
//!
//! impl<F: FileSystem + Send + Sync> live::Handler for Later<F> {
//!     fn call(&self, request: Request<'_>) {
//!         match request.operation {
//!             Operation::Readdir { .. } => {
//!                 // If a step fails, the reply object is dropped, and the guest gets an error.
//!                 if let Ok(request) = request.into_owned() {
//!                     let _ = self.jobs.lock().unwrap().send(request);
//!                 }
//!             }
//!             _ => {
//!                 let _ = request.reply.error(Errno::ENOSYS);
//!             }
//!         }
//!     }
//!
//!     fn cancelled(&self, cancelled: &Cancelled) {
//!         cancelled.undo(&*self.files);
//!     }
//! }
//!
//! fn start<F: FileSystem + Send + Sync + 'static>(
//!     builder: live::Builder,
//!     (queue, kick, call): (Queue, File, File),
//!     later: Later<F>,
//! ) -> Result<live::Serving, live::Error> {
//!     builder.in_flight(16).start_by_values(queue, kick, call, Arc::new(later))
//! }
//! ```
mod events;
mod loops;
mod machine;
mod moments;
mod polling;
mod seats;
mod settling;
mod turns;

use crate::cancelled::Cancelled;
use crate::device::Device;
use crate::file_system::FileSystem;
use crate::memory::{GuestMemory, Region};
use crate::operation::Request;
use crate::queue::Queue;
use crate::status::Status;
use crate::worker::Worker;
use alloc::boxed::Box;
use alloc::sync::Arc;
use alloc::vec::Vec;
use core::fmt;
use core::time::Duration;
pub use events::new_event;
use events::Events;
pub use loops::{Asked, Locked, Loop, Queued, Server};
use seats::{Answered, Hand, Seat};
use std::fs::File;
use std::io;
use std::panic::{catch_unwind, AssertUnwindSafe};
use std::thread::JoinHandle;

/// Why a queue isn't served.
#[derive(Debug)]
#[non_exhaustive]
pub enum Error {
    /// A refusal of the library: of the regions, or of the number of chains in flight.
    Status(Status),
    /// An error of the system: of an event descriptor, or of a thread.
    System(io::Error),
}

impl fmt::Display for Error {
    fn fmt(&self, f: &mut fmt::Formatter<'_>) -> fmt::Result {
        match self {
            Error::Status(status) => status.fmt(f),
            Error::System(error) => error.fmt(f),
        }
    }
}

impl std::error::Error for Error {
    fn source(&self) -> Option<&(dyn std::error::Error + 'static)> {
        match self {
            Error::Status(status) => Some(status),
            Error::System(error) => Some(error),
        }
    }
}

impl From<Status> for Error {
    fn from(status: Status) -> Error {
        Error::Status(status)
    }
}

impl From<io::Error> for Error {
    fn from(error: io::Error) -> Error {
        Error::System(error)
    }
}

/// Answers the requests of a queue by values, at once or later. A function of a [`Request`] is one:
/// write a closure's argument with its type, `|request: Request<'_>|`. A function undoes nothing.
/// So a type that counts nodes or open files implements [`Handler::cancelled`] itself.
pub trait Handler: Send + Sync {
    /// Answers a request, or hands its [`Reply`](crate::Reply) on. A panic answers EIO.
    fn call(&self, request: Request<'_>);

    /// An answer that the guest doesn't get is to be undone ([`FileSystem::cancelled`]). It isn't
    /// called for one that [`Reply::send`](crate::Reply::send) has given back as too late: undo
    /// that where you sent it. The default does nothing. [`Cancelled::undo`] calls the methods of a
    /// file system. After a panic the rest of it isn't undone.
    fn cancelled(&self, _cancelled: &Cancelled) {}

    /// The session has ended without DESTROY, since the device was reset: the guest holds no node,
    /// and no file is open. Only `pitskhomu-vhost-user` calls this: a [`Builder`] serves one queue,
    /// and learns of no device.
    fn session_ended(&self) {}
}

impl<F: Fn(Request<'_>) + Send + Sync> Handler for F {
    fn call(&self, request: Request<'_>) {
        self(request);
    }
}

/// Answers the chains of a queue.
trait Service: Send + Sync {
    /// Makes the call of a chain that was popped. Whether it has its reply.
    fn answer(
        &self,
        worker: &mut Worker,
        device: &Device,
        memory: &dyn GuestMemory,
    ) -> Result<bool, Status>;

    fn cancelled(&self, cancelled: &Cancelled);
}

/// By the methods of a file system.
struct Methods<F>(Arc<F>);

impl<F: FileSystem + Send + Sync> Service for Methods<F> {
    /// If the file system panics, this is called again, and the answer is EIO.
    fn answer(
        &self,
        worker: &mut Worker,
        device: &Device,
        memory: &dyn GuestMemory,
    ) -> Result<bool, Status> {
        let mut answer = || worker.answer(device, &*self.0, memory);
        catch_unwind(AssertUnwindSafe(&mut answer)).unwrap_or_else(|_| answer()).map(|()| true)
    }

    fn cancelled(&self, cancelled: &Cancelled) {
        self.0.cancelled(cancelled);
    }
}

/// By values.
struct Values<H>(Arc<H>);

impl<H: Handler> Service for Values<H> {
    /// If the handler panics, the reply object is dropped.
    fn answer(
        &self,
        worker: &mut Worker,
        device: &Device,
        memory: &dyn GuestMemory,
    ) -> Result<bool, Status> {
        let request = worker.decode(device, memory)?;
        let _ = catch_unwind(AssertUnwindSafe(|| self.0.call(request)));
        worker.finish(device, memory)
    }

    fn cancelled(&self, cancelled: &Cancelled) {
        self.0.cancelled(cancelled);
    }
}

/// The guest's memory, with the regions of it.
struct Mapped {
    memory: Arc<dyn GuestMemory + Send + Sync>,
    regions: Vec<Region>,
}

impl Mapped {
    /// The number of the byte at a guest address, for 2 bytes.
    fn host(&self, guest: u64) -> Option<usize> {
        self.regions.iter().find_map(|region| {
            let offset = guest.checked_sub(region.guest)?;
            (offset.checked_add(2)? <= region.len).then_some(())?;
            region.host.checked_add(usize::try_from(offset).ok()?)
        })
    }
}

/// The state of a queue, under its lock.
struct State {
    queue: Queue,
    mapped: Arc<Mapped>,
    /// The workers that have no chain. They move often, and are large.
    #[allow(clippy::vec_box)]
    idle: Vec<Box<Seat>>,
    /// Those whose chain waits for an answer, by their numbers.
    waiting: Vec<Option<Box<Seat>>>,
    refused: Option<Status>,
    /// The number of workers that are gone with a thread.
    lost: usize,
    /// No chain is popped any more.
    is_ending: bool,
    /// Nor is one pushed.
    is_reset: bool,
}

impl State {
    /// Whether no worker has a chain. One that couldn't be pushed stays in flight without a worker.
    fn is_quiet(&self) -> bool {
        self.idle.len() + self.lost == self.waiting.len()
    }
}

/// A queue, shared by its threads and the VMM's.
struct Shared {
    threads: Loop<State>,
    call: File,
    err: Option<File>,
    device: Arc<Device>,
    service: Box<dyn Service>,
    /// The numbers of the workers whose answers have come.
    answered: Arc<Answered>,
}

impl Shared {
    /// The loop of a thread. If the memory panics, the thread ends, its chain is lost, and the
    /// queue is refused.
    fn run(&self) {
        let mut hand = Hand::new(self);
        // without events no thread can go on
        if catch_unwind(AssertUnwindSafe(|| self.threads.run(&mut hand))).is_err() {
            let mut state = self.threads.lock();
            state.lost += 1;
            self.refuse(&mut state, Status::Stopped);
            self.threads.look();
        }
    }

    /// Has an answer undone. A panic there ends no thread, and loses no chain.
    fn undo(&self, cancelled: Option<Cancelled>) {
        if let Some(cancelled) = cancelled {
            let _ = catch_unwind(AssertUnwindSafe(|| self.service.cancelled(&cancelled)));
        }
    }
}

/// How a queue is served.
#[must_use]
pub struct Builder {
    device: Arc<Device>,
    mapped: Mapped,
    threads: u16,
    in_flight: u16,
    err: Option<File>,
    polls: Duration,
}

impl fmt::Debug for Builder {
    fn fmt(&self, f: &mut fmt::Formatter<'_>) -> fmt::Result {
        f.debug_struct("Builder")
            .field("threads", &self.threads)
            .field("in_flight", &self.in_flight)
            .finish_non_exhaustive()
    }
}

impl Builder {
    /// One thread, over the guest's memory and its regions ([`Worker::set_memory`]).
    pub fn new<M: GuestMemory + Send + Sync + 'static>(
        device: Arc<Device>,
        memory: Arc<M>,
        regions: &[Region],
    ) -> Builder {
        let mapped = Mapped { memory, regions: regions.to_vec() };
        Builder { device, mapped, threads: 1, in_flight: 0, err: None, polls: Duration::ZERO }
    }

    /// Sets the number of threads, at least one.
    pub fn threads(mut self, threads: u16) -> Builder {
        self.threads = threads.max(1);
        self
    }

    /// Sets the greatest number of chains in flight, if it is above the number of threads: the
    /// others wait for answers that come later. It is at most the queue's size, and replaces
    /// [`Queue::max_in_flight`].
    pub fn in_flight(mut self, in_flight: u16) -> Builder {
        self.in_flight = in_flight;
        self
    }

    /// Sets the event that is signalled when the queue is refused: set `DEVICE_NEEDS_RESET`
    /// ([`Serving::refused`]).
    pub fn err(mut self, err: File) -> Builder {
        self.err = Some(err);
        self
    }

    /// Sets for how long a thread looks for chains before it sleeps, at most, and only while they
    /// come soon ([`Loop::poll_at_most`]). Without this it sleeps at once. It takes processor time
    /// for shorter waits: 32 microseconds are a good value.
    pub fn poll_at_most(mut self, time: Duration) -> Builder {
        self.polls = time;
        self
    }

    /// Serves a queue by the methods of a file system. `kick` is the event of the driver's
    /// notifications, and `call` interrupts it. Set the queue's event index before
    /// ([`Queue::with_event_index`]). The threads look for chains at once, without a notification.
    ///
    /// # Errors
    /// Those of [`Worker::set_memory`] and of the system. No thread is left then.
    pub fn start<F: FileSystem + Send + Sync + 'static>(
        self,
        queue: Queue,
        kick: File,
        call: File,
        file_system: Arc<F>,
    ) -> Result<Serving, Error> {
        self.start_service(queue, kick, call, Box::new(Methods(file_system)))
    }

    /// Serves a queue by values: `handler` may hand a reply object to another thread. Otherwise it
    /// is like `start`.
    ///
    /// # Errors
    /// Those of `start`.
    pub fn start_by_values<H: Handler + 'static>(
        self,
        queue: Queue,
        kick: File,
        call: File,
        handler: Arc<H>,
    ) -> Result<Serving, Error> {
        self.start_service(queue, kick, call, Box::new(Values(handler)))
    }

    fn start_service(
        self,
        queue: Queue,
        kick: File,
        call: File,
        service: Box<dyn Service>,
    ) -> Result<Serving, Error> {
        let size = queue.layout().size;
        let in_flight = self.in_flight.max(self.threads).min(size);
        let queue = queue.with_max_in_flight(in_flight)?;
        let (events, mapped) = (Events::new()?, Arc::new(self.mapped));
        let answered = Arc::new(Answered::new(events.waker()?));
        let seat = |number| Seat::new(number, &self.device, &mapped, &answered);
        let idle = (0..usize::from(in_flight)).map(seat).collect::<Result<Vec<_>, _>>()?;
        let state = State {
            waiting: idle.iter().map(|_| None).collect(),
            queue,
            mapped,
            idle,
            refused: None,
            lost: 0,
            is_ending: false,
            is_reset: false,
        };
        let (threads, err) = (Loop::over(events, state), self.err);
        threads.set_kick(&mut threads.lock(), Some(kick))?;
        threads.poll_at_most(self.polls);
        let shared =
            Arc::new(Shared { threads, call, err, device: self.device, service, answered });
        let mut serving = Serving { shared, threads: Vec::new() };
        for _ in 0..self.threads {
            let shared = serving.shared.clone();
            let thread = std::thread::Builder::new().name("virtio-fs".into());
            // an error here drops the others: a reset
            serving.threads.push(thread.spawn(move || shared.run())?);
        }
        Ok(serving)
    }
}

/// A queue that is served. Dropped, it is reset. `stop`, `reset` and a drop wait for the calls that
/// the threads are in: make none of them from such a call.
pub struct Serving {
    shared: Arc<Shared>,
    threads: Vec<JoinHandle<()>>,
}

impl fmt::Debug for Serving {
    fn fmt(&self, f: &mut fmt::Formatter<'_>) -> fmt::Result {
        f.debug_struct("Serving").field("threads", &self.threads.len()).finish_non_exhaustive()
    }
}

impl Serving {
    /// The refusal that stopped the queue, if any: set `DEVICE_NEEDS_RESET`, and reset it. It is
    /// `Stopped` if the memory has panicked.
    #[must_use]
    pub fn refused(&self) -> Option<Status> {
        self.shared.threads.lock().refused
    }

    /// The number of chains in flight.
    #[must_use]
    pub fn in_flight(&self) -> u16 {
        self.shared.threads.lock().queue.in_flight()
    }

    /// Sets the guest's memory for the next chains. The queue's rings lie in the new regions too.
    /// Chains in flight keep the memory that they were popped with, until they are pushed.
    ///
    /// # Errors
    /// Those of [`Worker::set_memory`]. The next chains use the memory as it was.
    pub fn set_memory<M: GuestMemory + Send + Sync + 'static>(
        &self,
        memory: Arc<M>,
        regions: &[Region],
    ) -> Result<(), Status> {
        // If each worker has a chain, none of them finds what is wrong with the regions.
        Worker::new().set_memory(&self.shared.device, regions)?;
        let mapped = Arc::new(Mapped { memory, regions: regions.to_vec() });
        let mut state = self.shared.threads.lock();
        // So no worker without a chain keeps the old memory.
        let set = |seat: &mut Box<Seat>| seat.use_memory(&self.shared.device, &mapped);
        state.idle.iter_mut().try_for_each(set)?;
        state.mapped = mapped.clone();
        drop(state);
        self.look();
        Ok(())
    }

    /// Has a thread look for chains, as the driver's notification does.
    pub fn look(&self) {
        self.shared.threads.look();
    }

    /// Takes no more chains, waits until all in flight are answered and pushed, and returns the
    /// queue: [`Queue::next_avail`] is its position, and [`Device::save`] takes it. Notifications
    /// of the driver are enabled then, unless the queue was refused.
    pub fn stop(mut self) -> Queue {
        self.end(false);
        let mut state = self.shared.threads.lock();
        // if the memory panics, the next device enables them
        let _ = catch_unwind(AssertUnwindSafe(|| self.shared.enable_notifications(&mut state)));
        core::mem::take(&mut state.queue)
    }

    /// Stops as `stop` does, if all chains in flight are pushed within this time. None is popped
    /// meanwhile.
    ///
    /// # Errors
    /// The queue, which is served on: an answer hasn't come.
    pub fn stop_within(self, time: Duration) -> Result<Queue, Serving> {
        let threads = &self.shared.threads;
        let mut state = threads.settle(threads.lock(), time);
        if !state.is_quiet() {
            threads.go_on(&mut state);
            drop(state);
            return Err(self);
        }
        state.is_ending = true; // so no chain is popped between
        drop(state);
        Ok(self.stop())
    }

    /// The driver reset the queue, or the device: nothing is stored into the guest's rings any
    /// more. It waits for the calls that the threads are in. Answers that come later are refused.
    pub fn reset(self) {}

    fn end(&mut self, is_reset: bool) {
        let mut state = self.shared.threads.lock();
        state.is_ending = true;
        state.is_reset |= is_reset;
        drop(state);
        self.shared.threads.look();
        for thread in self.threads.drain(..) {
            let _ = thread.join(); // it doesn't panic
        }
    }
}

impl Drop for Serving {
    fn drop(&mut self) {
        self.end(true);
        let mut state = self.shared.threads.lock();
        let waiting = state.waiting.iter_mut().filter_map(Option::take).collect::<Vec<_>>();
        drop(state);
        for mut seat in waiting {
            self.shared.abandon(&mut seat);
        }
    }
}
