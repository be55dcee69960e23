//! A queue under its lock, and what its threads and its device do with it.
use super::events::Events;
use super::machine::Turns;
use super::moments::Moments;
use super::polling::Polling;
use super::turns::Thread;
use crate::queue::Queue;
use crate::status::Status;
use crate::worker::Popped;
use core::hint;
use core::ops::{Deref, DerefMut};
use core::sync::atomic::{AtomicBool, AtomicUsize, Ordering};
use std::fs::File;
use std::io;
use std::sync::{Condvar, Mutex, MutexGuard, PoisonError};
use std::time::{Duration, Instant};

/// What a device keeps of a queue under the queue's lock. A [`Queue`] by itself is enough for a
/// device that keeps nothing else.
pub trait Queued {
    /// The queue.
    fn queue(&self) -> &Queue;

    /// How often the queue has begun, and the position of the next chain. It differs once a thread
    /// has popped that chain, or the queue has begun again ([`Queue::begin`]).
    fn next_chain(&self) -> (u64, u16) {
        (0, self.queue().next_avail())
    }

    /// Whether chains are popped: nothing has refused, stopped or ended the queue.
    fn is_live(&self) -> bool {
        true
    }

    /// Whether notifications of the driver may be enabled and disabled, which is a store into the
    /// guest's memory.
    fn may_tell(&self) -> bool {
        self.is_live()
    }

    /// Whether another thread can pop a chain now: there is a worker for it.
    fn has_room(&self) -> bool {
        true
    }
}

impl Queued for Queue {
    fn queue(&self) -> &Queue {
        self
    }
}

/// The IOMMU's answer to the misses of a call.
#[derive(Clone, Copy, Debug, PartialEq, Eq)]
pub enum Asked {
    /// Each miss is answered.
    All,
    /// Each miss is answered, and a page is refused.
    Refused,
    /// Not each miss is answered. The thread asks again in a moment.
    NotAll,
}

/// Serves chains, on one of a queue's threads: it has a worker. Methods with an argument `queued`
/// are called under the queue's lock, so none of these waits.
pub trait Server<Q> {
    /// A look for a chain begins. `is_same` says that it is for the chain whose misses were asked
    /// for; else forget what the IOMMU refused.
    fn looks(&mut self, _queued: &Q, _is_same: bool) {}

    /// Whether a chain that waited has its answer by now. Then `resumes` is called, and if another
    /// one has its answer, too, a sleeping thread is woken for it: two answers that come close
    /// together may wake one thread. Who answers a chain calls [`Loop::look`] after this is true.
    /// The default has no such chain. A server whose chains wait implements both methods.
    fn has_answered(&mut self, _queued: &Q) -> bool {
        false
    }

    /// Takes up a chain that waited for its answer, if one has it by now.
    fn resumes(&mut self, _queued: &mut Q) -> bool {
        false
    }

    /// Pops the next chain, if one is available.
    ///
    /// # Errors
    /// - `ChainInFlight`: no chain can be popped now. Who changes that calls [`Loop::look`], unless
    ///   it returns a chain, and as many as may be were in flight.
    /// - `OutOfMemory`: it is tried again in a moment.
    /// - Any other is a refusal: `refuse` is called.
    fn pop(&mut self, queued: &mut Q) -> Result<Popped, Status>;

    /// The chain that was popped is the queue's `number`th.
    fn begins(&mut self, _queued: &mut Q, _number: u64) {}

    /// Makes the reply of the chain that was popped or resumed, without the lock. `false` if it
    /// waits for its answer: then the worker is left with it.
    fn answer(&mut self) -> bool;

    /// Pushes the chain, which has its reply, and remembers whether the driver is to be
    /// interrupted. Returns whether `undo` is to be called.
    fn push(&mut self, queued: &mut Q) -> bool;

    /// Undoes what the guest doesn't get, without the lock.
    fn undo(&mut self) {}

    /// Interrupts the driver, if that is owed: an earlier push wanted it. It is called without the
    /// lock after the next chain was popped, so that other threads don't wait for the system call;
    /// or with it, if there is none.
    fn interrupt(&mut self);

    /// Enables or disables notifications of the driver ([`Worker::set_notification`]). Returns
    /// whether something was stored.
    ///
    /// # Errors
    /// - `NotMapped`: the table of the IOMMU lacks the page, and `ask` is called.
    /// - After any other it is tried again in a moment.
    ///
    /// [`Worker::set_notification`]: crate::Worker::set_notification
    fn set_notification(&mut self, queued: &mut Q, enabled: bool) -> Result<bool, Status>;

    /// The index of the available ring, if it is mapped: a load, with what an acquire fence orders
    /// after it.
    fn available_index(&mut self, queued: &Q) -> Option<u16>;

    /// Asks the IOMMU for the misses of the last `pop` or `set_notification`, and waits for its
    /// answer, without the lock.
    fn ask(&mut self) -> Asked {
        Asked::NotAll
    }

    /// The queue is refused: nothing more is popped until it is reset.
    fn refuse(&mut self, queued: &mut Q, why: Status);

    /// Notifications couldn't be enabled, and the thread tries it again in a moment.
    fn tells_later(&mut self, _why: Status) {}

    /// The driver's event has ended, and was removed.
    fn loses_kick(&mut self) {}

    /// The thread found no chain, and sleeps from now on. Returns whether it ends instead.
    fn rests(&mut self, _queued: &mut Q) -> bool {
        false
    }
}

/// What lies under a queue's lock: the device's own, to which this dereferences, and the loop's.
#[derive(Debug)]
pub struct Locked<Q> {
    queued: Q,
    pub(super) kick: Option<File>,
    /// The number of events of the driver's so far, which is that of the last one.
    pub(super) kicks: u64,
    /// How often the queue had begun at the last turn (`Queued::next_chain`).
    pub(super) begun: u64,
    pub(super) turns: Turns,
    /// The number of chains popped, and of those pushed or given up.
    pub(super) popped: u64,
    pub(super) returned: u64,
    /// No chain from this position on is popped (`Loop::settle`).
    pub(super) until: Option<u16>,
    /// So many threads wait until chains are popped or pushed.
    pub(super) waiters: usize,
    /// The next chain has addresses that the IOMMU's table doesn't map.
    pub(super) is_missing: bool,
    pub(super) polling: Polling,
}

impl<Q> Deref for Locked<Q> {
    type Target = Q;

    fn deref(&self) -> &Q {
        &self.queued
    }
}

impl<Q> DerefMut for Locked<Q> {
    fn deref_mut(&mut self) -> &mut Q {
        &mut self.queued
    }
}

impl<Q> Locked<Q> {
    /// The descriptor of the driver's event, unless it was removed.
    #[must_use]
    pub fn kick(&self) -> Option<&File> {
        self.kick.as_ref()
    }
}

impl<Q: Queued> Locked<Q> {
    /// Enables notifications of the driver by `set`, for a device that continues the queue, unless
    /// that may not be stored. Returns whether it was. The queue's threads do so by themselves.
    ///
    /// # Errors
    /// Those of `set`.
    pub fn enable_notifications(
        &mut self,
        set: impl FnOnce(&mut Q) -> Result<bool, Status>,
    ) -> Result<bool, Status> {
        Ok(self.queued.may_tell() && set(&mut self.queued)?)
    }

    /// Whether a thread may look for chains before it sleeps: nobody stops the queue.
    pub(super) fn may_poll(&self) -> bool {
        self.queued.is_live() && self.until.is_none() && !self.is_awaited()
    }

    /// A number that changes when a chain is popped or returned.
    pub(super) fn moved(&self) -> u64 {
        self.popped + self.returned
    }

    /// Whether a thread waits by [`Loop::settle`], [`Loop::close`] or [`Loop::wait_at_most`]. Call
    /// [`Loop::notify_waiting`] after a change that may end its wait.
    #[must_use]
    pub fn is_awaited(&self) -> bool {
        self.waiters > 0
    }
}

/// The loop of a queue's threads, and the queue's lock, for a device that needs more than a
/// [`Builder`](super::Builder) has: an IOMMU, numbers that a front-end sets while the guest runs,
/// messages that wait only a while for chains. A thread calls `run` with a [`Server`] of its own.
///
/// # Examples
/// Behind an IOMMU: a pop waits until the misses are mapped.
/// ```
/// use pitskhomu::live::{Asked, Loop, Server};
/// use pitskhomu::*;
/// use std::sync::atomic::{fence, Ordering};
/// use std::sync::{Arc, Mutex};
///
/// /// The server of a thread.
/// struct Translated<'d, F, M> {
///     device: &'d Device,
///     files: &'d F,
///     memory: &'d M,
///     worker: Worker, // with the memory's regions
///     table: &'d Mutex<Iotlb>,
///     /// Asks the IOMMU for an address: the guest's, or `None`.
///     ask: &'d dyn Fn(&Miss) -> Option<u64>,
///     /// The available index, at an I/O address.
///     index: &'d dyn Fn() -> Option<u16>,
///     call: &'d dyn Fn(),
///     owed: bool,
/// }
///
/// impl<F: FileSystem, M: GuestMemory> Server<Queue> for Translated<'_, F, M> {
///     fn pop(&mut self, queue: &mut Queue) -> Result<Popped, Status> {
///         let mut table = self.table.lock().unwrap();
///         let mut lent = self.worker.lend(&mut table)?;
///         lent.pop(queue, self.memory)
///     }
///
///     fn ask(&mut self) -> Asked {
///         for miss in self.worker.misses() {
///             let mut table = self.table.lock().unwrap();
///             let mapped = match (self.ask)(miss) {
///                 Some(guest) => table.map(miss.iova, miss.len, guest, miss.access),
///                 None => return Asked::NotAll,
///             };
///             if mapped.is_err() {
///                 return Asked::NotAll;
///             }
///         }
///         Asked::All
///     }
///
///     fn answer(&mut self) -> bool {
///         let _ = self.worker.answer(self.device, self.files, self.memory);
///         true
///     }
///
///     fn push(&mut self, queue: &mut Queue) -> bool {
///         let mut table = self.table.lock().unwrap();
///         let lent = self.worker.lend(&mut table);
///         let pushed = lent.and_then(|mut lent| lent.push(queue, self.memory));
///         self.owed |= pushed.map_or(false, |served| served.notify);
///         false
///     }
///
///     fn interrupt(&mut self) {
///         if std::mem::take(&mut self.owed) {
///             (self.call)();
///         }
///     }
///
///     fn set_notification(&mut self, queue: &mut Queue, enabled: bool) -> Result<bool, Status> {
///         let mut table = self.table.lock().unwrap();
///         let mut lent = self.worker.lend(&mut table)?;
///         lent.set_notification(queue, enabled, self.memory)
///     }
///
///     fn available_index(&mut self, _queue: &Queue) -> Option<u16> {
///         let index = (self.index)();
///         fence(Ordering::Acquire);
///         index
///     }
///
///     fn refuse(&mut self, _queue: &mut Queue, _why: Status) {
///         // set DEVICE_NEEDS_RESET
///     }
/// }
/// ```
#[derive(Debug)]
pub struct Loop<Q> {
    state: Mutex<Locked<Q>>,
    /// Notified when a chain is popped or returned while somebody waits, and by `notify_waiting`.
    changed: Condvar,
    pub(super) events: Events,
    pub(super) moments: Moments,
    /// The number of threads on their way to the lock, from a call. Each looks for a chain then.
    coming: AtomicUsize,
    /// A thread looks for chains before it sleeps. It changes under the lock, unless that thread
    /// panics.
    is_polled: AtomicBool,
}

/// A thread looks for chains before it sleeps.
pub(super) struct Polled<'l, Q: Queued>(&'l Loop<Q>);

impl<Q: Queued> Drop for Polled<'_, Q> {
    fn drop(&mut self) {
        self.0.is_polled.store(false, Ordering::SeqCst);
        if std::thread::panicking() {
            self.0.look(); // others relied on this thread
        }
    }
}

/// The lock.
pub(super) type Held<'l, Q> = MutexGuard<'l, Locked<Q>>;

/// A thread that comes from its call tries the lock so often before it waits for it by a system
/// call: another thread has it for a pop and a push, which take less time than that.
const TRIES: u32 = 100;

impl<Q: Queued> Loop<Q> {
    /// A queue that no thread serves yet, and for which no event of the driver's is set.
    ///
    /// # Errors
    /// The system's: too many open files, or too little memory.
    pub fn new(queued: Q) -> io::Result<Loop<Q>> {
        Ok(Loop::over(Events::new()?, queued))
    }

    pub(super) fn over(events: Events, queued: Q) -> Loop<Q> {
        let begun = queued.next_chain().0;
        let turns = Turns::new(queued.queue().has_event_index());
        let state = Locked {
            queued,
            kick: None,
            kicks: 0,
            begun,
            turns,
            popped: 0,
            returned: 0,
            until: None,
            waiters: 0,
            is_missing: false,
            polling: Polling::default(),
        };
        Loop {
            state: Mutex::new(state),
            changed: Condvar::new(),
            events,
            moments: Moments::default(),
            coming: AtomicUsize::new(0),
            is_polled: AtomicBool::new(false),
        }
    }

    /// Locks the queue. Chains may be in flight.
    pub fn lock(&self) -> MutexGuard<'_, Locked<Q>> {
        self.state.lock().unwrap_or_else(PoisonError::into_inner)
    }

    /// Locks the queue for a thread that comes from its call, and is going to look for a chain.
    pub(super) fn come_back(&self) -> MutexGuard<'_, Locked<Q>> {
        if let Ok(state) = self.state.try_lock() {
            return state;
        }
        self.coming.fetch_add(1, Ordering::SeqCst);
        let state = self.try_for_a_while().unwrap_or_else(|| self.lock());
        self.coming.fetch_sub(1, Ordering::SeqCst); // under the lock
        state
    }

    fn try_for_a_while(&self) -> Option<MutexGuard<'_, Locked<Q>>> {
        (0..TRIES).find_map(|_| {
            hint::spin_loop();
            self.state.try_lock().ok()
        })
    }

    /// Whether another thread waits for the lock, which this thread has, and looks for a chain
    /// then; or looks for one before it sleeps.
    pub(super) fn another_comes(&self) -> bool {
        self.coming.load(Ordering::SeqCst) > 0 || self.is_polled()
    }

    pub(super) fn is_polled(&self) -> bool {
        self.is_polled.load(Ordering::SeqCst)
    }

    /// A thread that has the lock looks for chains until this is dropped.
    pub(super) fn begin_to_poll(&self) -> Polled<'_, Q> {
        self.is_polled.store(true, Ordering::SeqCst);
        Polled(self)
    }

    /// Sets or removes the event of the driver's notifications. Then call `look`, since chains may
    /// be available already.
    ///
    /// # Errors
    /// The system's. Then there is none.
    pub fn set_kick(&self, state: &mut Locked<Q>, kick: Option<File>) -> io::Result<()> {
        if let Some(old) = state.kick.take() {
            self.events.remove(&old);
        }
        if let Some(kick) = kick {
            state.kicks += 1;
            self.events.add(&kick, state.kicks)?;
            state.kick = Some(kick);
        }
        Ok(())
    }

    /// The loop of each of the queue's threads: `Ok` once its server stops it. It looks for chains
    /// first, so start it on threads when the queue may be served: an earlier thread that has a
    /// chain may have disabled notifications, since no other slept.
    ///
    /// # Errors
    /// The system's: events can't be waited for.
    pub fn run(&self, server: &mut impl Server<Q>) -> io::Result<()> {
        Thread::new(self, server).run()
    }

    /// Waits for an event: the driver's notification, `look`, or none.
    pub(super) fn wait(&self, server: &mut impl Server<Q>) -> io::Result<()> {
        if let Some(number) = self.events.wait(-1)? {
            let mut state = self.lock();
            if state.kicks != number {
                return Ok(()); // there is another by now
            }
            let _ = self.set_kick(&mut state, None); // a removal can't fail
            drop(state);
            server.loses_kick();
        }
        Ok(())
    }

    /// Has a thread that finds no chain look for one for so long before it sleeps, at most, and
    /// only while chains come soon. Meanwhile the driver needn't notify. With 0, as at first, it
    /// sleeps at once.
    pub fn poll_at_most(&self, time: Duration) {
        self.lock().polling.set_most(time);
    }

    /// Has a thread look for chains, as the driver's notification does. Threads that wait for a
    /// moment, since an allocation failed or the IOMMU hasn't answered, look at once.
    pub fn look(&self) {
        self.moments.end();
        self.events.wake();
    }

    pub(super) fn notify_if_awaited(&self, state: &Locked<Q>) {
        if state.is_awaited() {
            self.notify_waiting();
        }
    }

    /// Has a waiting thread look at its condition again.
    pub fn notify_waiting(&self) {
        self.changed.notify_all();
    }

    /// Waits while a condition holds, without the lock meanwhile. Who changes that calls
    /// `notify_waiting`.
    pub fn wait_while<'a>(
        &self,
        mut state: MutexGuard<'a, Locked<Q>>,
        mut condition: impl FnMut(&mut Locked<Q>) -> bool,
    ) -> MutexGuard<'a, Locked<Q>> {
        // std's own loop ends early if a thread has panicked under the lock
        while condition(&mut state) {
            state = self.changed.wait(state).unwrap_or_else(PoisonError::into_inner);
        }
        state
    }

    /// The same, for this time at most. Returns whether the condition still holds.
    pub fn wait_at_most<'a>(
        &self,
        mut state: MutexGuard<'a, Locked<Q>>,
        time: Duration,
        mut condition: impl FnMut(&mut Locked<Q>) -> bool,
    ) -> (MutexGuard<'a, Locked<Q>>, bool) {
        let begun = Instant::now();
        state.waiters += 1;
        let mut is_held = condition(&mut state);
        while is_held {
            let left = match time.checked_sub(begun.elapsed()) {
                Some(left) => left,
                None => break,
            };
            let waited = self.changed.wait_timeout(state, left);
            state = waited.unwrap_or_else(PoisonError::into_inner).0;
            is_held = condition(&mut state);
        }
        state.waiters -= 1;
        (state, is_held)
    }
}
