//! A queue: its numbers, its descriptors, and the threads that serve it by the loop of
//! `pitskhomu::live`. A thread takes and returns chains under the queue's lock, and answers them
//! without it. Each thread has one chain at a time.
//! A message that changes a ring only takes the lock: chains in flight continue over the memory
//! that they were taken from, and new ones use the new numbers. A message that ends something waits
//! a while until none of the ring's chains is in flight (`waits`), and then closes the ring
//! (`held`): `GET_VRING_BASE`, a ring that is disabled, and memory that maps or unmaps the ring's
//! parts.
mod handed;
mod held;
mod threads;
mod waits;

use crate::in_flight::Doing;
use crate::iommu::Cancel;
use crate::memory::Table;
use crate::notifier::Notifier;
pub use handed::Handed;
use log::warn;
use pitskhomu::live::{Asked, Locked, Loop, Queued};
use pitskhomu::{Popped, Queue, QueueLayout, Status};
use std::fs::File;
use std::io;
use std::sync::atomic::{AtomicBool, AtomicUsize};
use std::sync::{Arc, MutexGuard};
use std::time::Duration;
pub use waits::{Numbers as RingNumbers, Patience, LAST_CHAINS};

/// The greatest queue size that the library allows.
pub const SIZE_MAX: u16 = 32768;

/// A ring's numbers, as the front-end sets them.
#[derive(Debug, Clone, Copy, Default, PartialEq, Eq)]
pub struct Numbers {
    /// Its size, and the guest addresses of its parts.
    pub layout: QueueLayout,
    /// The position of the next chain to take. While no chain is in flight it is the ring's state.
    pub next_avail: u16,
    /// The driver accepted `VIRTIO_F_EVENT_IDX`.
    pub has_event_index: bool,
}

/// A ring's state under its lock, for its threads and the front-end's. The loop has a part of its
/// own (`Locked`).
#[derive(Debug, Default)]
#[allow(clippy::struct_excessive_bools, reason = "messages change each by itself")]
pub struct State {
    numbers: Numbers,
    /// The library's queue. While `is_new` it isn't reset with these numbers yet.
    queue: Queue,
    is_new: bool,
    /// The number of times that the library's queue was reset.
    begun: u64,
    /// From `SET_VRING_KICK` to `GET_VRING_BASE`.
    is_started: bool,
    /// Set by `SET_VRING_ENABLE`.
    is_enabled: bool,
    /// The memory has its parts, as far as that is known.
    is_mapped: bool,
    /// The library refused it. It isn't served until it is reset.
    is_refused: bool,
    /// The number of threads that serve the ring.
    served_by: usize,
    /// Its threads end.
    is_ending: bool,
    /// How often a thread slept, since it found no chain, and how often the driver was interrupted.
    sleeps: u64,
    interrupts: u64,
    /// The guest's memory. Chains in flight keep the one that they were taken from.
    memory: Arc<Table>,
    /// The memory over which chains were in flight when the ring was closed.
    over: Option<Arc<Table>>,
    call: Option<Arc<Notifier>>,
    /// The driver wasn't interrupted, since there was no call descriptor. QEMU sets it after it has
    /// started a ring with available chains.
    owes_call: bool,
    err: Option<Notifier>,
}

impl State {
    /// Sets numbers for the front-end, and returns whether they differ. If so, the queue is reset
    /// with them as soon as none of its chains is in flight.
    fn set(&mut self, change: impl FnOnce(&mut Numbers)) -> bool {
        let before = self.numbers;
        change(&mut self.numbers);
        self.is_new |= self.numbers != before;
        self.numbers != before
    }

    /// The queue for a record, if the front-end has set its numbers.
    pub fn queue_if_begun(&self) -> Option<Result<Queue, Status>> {
        let Numbers { layout, next_avail, .. } = self.numbers;
        (layout.size != 0 && layout.descriptors != 0).then(|| Queue::new(layout, next_avail))
    }

    /// Sets the memory for the next chains.
    pub fn set_memory(&mut self, memory: &Table) {
        self.memory = Arc::new(memory.clone());
    }

    /// Has the queue reset, also after a refusal, with the numbers that it has then.
    pub fn reset(&mut self) {
        (self.is_new, self.is_refused) = (true, false);
    }

    fn begin(&mut self, threads: u16) -> Result<(), Status> {
        let Numbers { layout, next_avail, has_event_index } = self.numbers;
        let queue = Queue::new(layout, next_avail)?
            .with_max_in_flight(threads.min(layout.size))?
            .with_event_index(has_event_index);
        self.queue.begin(queue)?;
        (self.is_new, self.begun) = (false, self.begun + 1);
        Ok(())
    }

    /// Whether chains may be returned.
    fn runs(&self) -> bool {
        self.is_started && self.is_enabled && self.is_mapped
    }

    /// The event that interrupts the driver. Without a call descriptor the driver is interrupted
    /// as soon as there is one.
    fn interrupt(&mut self) -> Option<Arc<Notifier>> {
        self.owes_call = self.call.is_none();
        self.interrupts += 1;
        self.call.clone()
    }

    /// Interrupts the driver, as soon as there is a call descriptor.
    pub fn notify(&mut self) {
        send(&mut self.interrupt());
    }

    /// Marks the ring as refused, and notifies the front-end by its err descriptor.
    fn refuse(&mut self) {
        self.is_refused = true;
        if let Some(Err(e)) = self.err.as_ref().map(Notifier::notify) {
            warn!("the front-end isn't told that a ring is refused: {e}");
        }
    }
}

impl Queued for State {
    fn queue(&self) -> &Queue {
        &self.queue
    }

    fn next_chain(&self) -> (u64, u16) {
        (self.begun + u64::from(self.is_new), self.numbers.next_avail)
    }

    /// Whether chains may be taken, and not only returned.
    fn is_live(&self) -> bool {
        self.runs() && !self.is_refused
    }

    fn may_tell(&self) -> bool {
        self.is_live() && !self.is_new
    }
}

/// Enables kicks, on the front-end's thread.
fn want_kicks(
    state: &mut Locked<State>,
    server: &mut impl Server,
    memory: &Arc<Table>,
) -> Result<bool, Status> {
    state.enable_notifications(|state| server.set_notification(&state.queue, true, memory))
}

/// Interrupts the driver, if an interrupt is owed.
fn send(owed: &mut Option<Arc<Notifier>>) {
    // [Notifies] of the used ring (crate notify, specs/Kicks.antt)
    if let Some(Err(e)) = owed.take().map(|call| call.notify()) {
        warn!("the driver isn't notified: {e}");
    }
}

/// Serves chains, on a ring's thread.
pub trait Server {
    /// Pops the next chain over this memory, if one is available.
    fn pop(&mut self, queue: &mut Queue, memory: &Arc<Table>) -> Result<Popped, Status>;

    /// Asks the IOMMU for the misses of the last call, and waits for the answer, unless that is
    /// cancelled. The ring isn't locked.
    fn ask(&mut self, memory: &Table, cancel: &Cancel) -> Asked;

    /// Forgets the IOMMU's refusals: the next call is for another chain.
    fn forget_refusals(&mut self);

    /// Makes the reply to the chain that was popped, over the memory of its pop. `doing` gets the
    /// request's opcode and number meanwhile. The ring isn't locked.
    fn answer(&mut self, doing: &Doing, memory: &Table);

    /// Pushes the chain. The result is whether to notify the driver.
    fn push(&mut self, queue: &mut Queue, memory: &Arc<Table>) -> Result<bool, Status>;

    /// Forgets the chain, which was dropped.
    fn abandon(&mut self, _memory: &Arc<Table>) {}

    /// Whether a call is to be undone, since the guest doesn't get its answer.
    fn must_undo(&self) -> bool {
        false
    }

    /// Undoes it. The ring isn't locked.
    fn undo(&mut self) {}

    /// Enables or disables the driver's kicks. Returns whether something was stored for that.
    fn set_notification(
        &mut self,
        queue: &Queue,
        wanted: bool,
        memory: &Arc<Table>,
    ) -> Result<bool, Status>;

    /// The index of the available ring, if it is mapped.
    fn available_index(&mut self, queue: &Queue, memory: &Table) -> Option<u16> {
        memory.ring_index(queue.layout().available)
    }
}

/// A queue, shared by its threads and the front-end's.
#[derive(Debug)]
pub struct Ring {
    index: usize,
    /// The number of threads that serve it.
    pub threads: u16,
    served: Loop<State>,
    /// Whether threads that return from the host wait: the ring doesn't run. It changes under the
    /// ring's lock.
    is_closed: AtomicBool,
    /// The number of calls of an earlier session that may change the next one, of all rings. While
    /// there is one no chain is taken.
    late: Arc<AtomicUsize>,
    doing: Vec<Doing>,
    /// Whether its threads wait for the IOMMU.
    pub asking: Cancel,
}

impl Ring {
    /// A ring that isn't started, for `threads` threads.
    pub fn new(index: usize, threads: u16, late: Arc<AtomicUsize>) -> io::Result<Ring> {
        Ok(Ring {
            index,
            threads,
            served: Loop::new(State { is_mapped: true, ..State::default() })?,
            is_closed: AtomicBool::new(true),
            late,
            doing: (0..threads).map(|_| Doing::default()).collect(),
            asking: Cancel::default(),
        })
    }

    /// Locks the ring. Chains may be in flight.
    pub fn lock(&self) -> MutexGuard<'_, Locked<State>> {
        self.served.lock()
    }

    /// Sets numbers for the front-end. If they differ, a thread looks for chains: kicks may not be
    /// enabled yet.
    pub fn tell(&self, change: impl FnOnce(&mut Numbers)) {
        let mut state = self.lock();
        if state.set(change) && state.is_live() {
            self.look();
        }
    }

    /// Has a thread look for chains for so long before it sleeps, at most (`Loop::poll_at_most`).
    pub fn poll_at_most(&self, time: Duration) {
        self.served.poll_at_most(time);
    }

    /// Has a thread look for chains.
    pub fn look(&self) {
        self.served.look();
    }

    /// Ends the ring, whose front-end has left: nobody gets the replies of its chains, and its
    /// threads end as soon as their calls of the host do.
    pub fn end(&self, memory: &Table) {
        let mut state = self.lock();
        self.drop_chains(&mut state, memory);
        (state.is_started, state.is_ending) = (false, true);
        drop(state);
        self.look();
    }

    fn forget_kick(&self, state: &mut Locked<State>) {
        let _ = self.served.set_kick(state, None); // a removal can't fail
    }

    /// Sets the kick descriptor. A ring that wasn't started begins, or continues with its chains in
    /// flight.
    pub fn start(&self, kick: File, memory: &Table) -> io::Result<()> {
        let mut state = self.lock();
        self.served.set_kick(&mut state, Some(kick))?;
        if !state.is_started {
            if !Ring::continues(&state, memory) {
                self.drop_chains(&mut state, memory);
                state.is_new = true;
            }
            (state.is_started, state.is_refused, state.is_mapped) = (true, false, true);
            self.open(&mut state, memory);
        }
        self.look(); // chains may be available already
        Ok(())
    }

    /// Ends the ring, and returns its position. Kicks are enabled first: the back-end that
    /// continues the ring may not do so.
    pub fn stop(&self, server: &mut impl Server, memory: &Arc<Table>, patience: Patience) -> u16 {
        let state = self.settle(memory, patience);
        let mut state = self.close(state, memory, "GET_VRING_BASE is answered");
        if let Err(status) = want_kicks(&mut state, server, memory) {
            warn!(
                "queue {}: it stops, but the driver may not notify its next device: {status}",
                self.index
            );
        }
        if state.is_refused {
            self.drop_chains(&mut state, memory);
        }
        self.forget_kick(&mut state);
        state.call = None;
        (state.is_started, state.is_refused) = (false, false);
        self.asking.resume();
        state.numbers.next_avail
    }

    /// Removes the kick descriptor.
    pub fn stop_kicks(&self) {
        self.forget_kick(&mut self.lock());
    }

    /// Sets the call descriptor, by which the driver is interrupted, also for chains in flight.
    pub fn set_call(&self, call: Option<File>) -> io::Result<()> {
        let call = call.map(Notifier::new).transpose()?;
        let mut state = self.lock();
        state.call = call.map(Arc::new);
        if state.owes_call {
            state.notify();
        }
        Ok(())
    }

    /// Sets the err descriptor, by which the front-end is notified of a refusal.
    pub fn set_err(&self, err: Option<File>) -> io::Result<()> {
        let err = err.map(Notifier::new).transpose()?;
        self.lock().err = err;
        Ok(())
    }

    /// Enables or disables the ring: while it is disabled no chain is taken or returned.
    pub fn enable(
        &self,
        enabled: bool,
        server: &mut impl Server,
        memory: &Arc<Table>,
        patience: Patience,
    ) {
        let mut state = if enabled {
            self.lock()
        } else {
            let state = self.settle(memory, patience);
            self.close(state, memory, "the ring is disabled")
        };
        let _ = want_kicks(&mut state, server, memory); // a thread repeats it before it sleeps
        state.is_enabled = enabled;
        self.open(&mut state, memory);
        self.asking.resume();
        drop(state);
        self.look();
    }
}

#[cfg(test)]
mod tests {
    use super::*;
    use std::io::Read;
    use std::os::fd::FromRawFd;

    fn event() -> File {
        // SAFETY: no memory is touched.
        let fd = unsafe { libc::eventfd(0, libc::EFD_NONBLOCK | libc::EFD_CLOEXEC) };
        assert!(fd >= 0);
        // SAFETY: the descriptor is new, and nothing else owns it.
        unsafe { File::from_raw_fd(fd) }
    }

    /// Whether it was written to since the last look.
    fn is_called(mut event: &File) -> bool {
        event.read(&mut [0; 8]).is_ok()
    }

    #[test]
    fn an_interrupt_waits_for_its_place() {
        let (ring, event) = (Ring::new(0, 1, Arc::default()).expect("a ring"), event());
        let call = || Some(event.try_clone().expect("a descriptor"));
        ring.lock().notify();
        ring.set_call(None).expect("none");
        ring.set_call(call()).expect("a place");
        assert!(is_called(&event));
        ring.set_call(call()).expect("a place"); // no interrupt is owed any more
        assert!(!is_called(&event));
        ring.lock().notify();
        assert!(is_called(&event));
    }
}
