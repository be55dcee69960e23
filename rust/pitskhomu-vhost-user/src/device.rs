//! The state that the queues' threads and the front-end's share, and a queue thread's worker.
mod translated;

use crate::in_flight::Doing;
use crate::iommu::Cancel;
use crate::memory::{Slice, Table};
use crate::numbers::{self, Counts, Numbers};
use crate::pipe::Pipe;
use crate::ring::{Patience, Ring, Server, LAST_CHAINS};
use log::{debug, error};
use pitskhomu::live::Asked;
use pitskhomu::{Cancelled, Popped, Queue, Status, Worker};
use std::collections::BTreeSet;
use std::io;
use std::panic::{catch_unwind, AssertUnwindSafe};
use std::sync::atomic::{AtomicBool, AtomicUsize, Ordering};
use std::sync::mpsc::{sync_channel, Receiver, SyncSender};
use std::sync::{Arc, Condvar, Mutex, OnceLock, PoisonError, RwLock};
use std::task::Wake;
use std::thread;
use std::time::{Duration, Instant};

/// The time between two looks whether a call has ended.
const A_MOMENT: Duration = Duration::from_millis(10);
/// The same between two looks of a thread that waits for its answer, which wakes it.
const LONGER: Duration = Duration::from_millis(50);

/// A file system with all that a device needs: its calls for each chain, the end of a session, and
/// its state, which moves with the guest.
pub trait ServedFs: Send + Sync + 'static {
    /// Makes the reply of a chain that was popped by this worker. If it panics it is called once
    /// more, and the answer is EIO then.
    ///
    /// # Errors
    /// Those of [`Worker::answer`].
    fn answer(
        &self,
        worker: &mut Worker,
        device: &pitskhomu::Device,
        chain: Chain<'_>,
    ) -> Result<(), Status>;

    /// An answer that the guest doesn't get is to be undone.
    fn cancelled(&self, cancelled: &Cancelled, chain: Chain<'_>);

    /// Ends a session without DESTROY: no node is held, and no file is open.
    fn destroy(&self);

    /// Whether the state moves to another device. If not, the front-end refuses a migration.
    fn moves(&self) -> bool {
        true
    }

    /// Prepares the state while the guest runs, until it is prepared or that is cancelled.
    fn prepare_state(&self, is_cancelled: Arc<AtomicBool>);

    /// Gives up a state that was prepared, and isn't sent. No call of the guest's is made
    /// meanwhile.
    fn forget_state(&self) {}

    /// Sends the prepared state with the device's record ([`Device::save`]). The rings are stopped.
    ///
    /// # Errors
    /// Any ends the migration, and the guest continues here.
    ///
    /// [`Device::save`]: pitskhomu::Device::save
    fn save_state(
        &self,
        device: &pitskhomu::Device,
        queues: &[Queue],
        pipe: Pipe,
    ) -> io::Result<()>;

    /// Receives a state, and sets the device's options. The rings are stopped.
    ///
    /// # Errors
    /// Any ends the migration.
    fn load_state(&self, device: &pitskhomu::Device, pipe: Pipe) -> io::Result<()>;

    /// Looks at a saved state that another process of the same host will load, and returns it
    /// without what is gone for good on the host. An error says what that process wouldn't find.
    /// `is_thorough` after a try that failed. By default the state stays as it is.
    fn check_state(&self, state: Vec<u8>, _is_thorough: bool) -> io::Result<Vec<u8>> {
        Ok(state)
    }
}

/// Rings when an answer comes by a reply object.
#[derive(Debug, Default)]
struct Bell {
    has_rung: Mutex<bool>,
    rings: Condvar,
}

impl Bell {
    fn wait(&self, time: Duration) {
        let has_rung = self.has_rung.lock().unwrap_or_else(PoisonError::into_inner);
        let waited = self.rings.wait_timeout_while(has_rung, time, |has_rung| !*has_rung);
        *waited.unwrap_or_else(PoisonError::into_inner).0 = false;
    }
}

impl Wake for Bell {
    fn wake(self: Arc<Self>) {
        *self.has_rung.lock().unwrap_or_else(PoisonError::into_inner) = true;
        self.rings.notify_one();
    }
}

/// A chain in flight, whose call is made.
#[derive(Debug, Clone, Copy)]
pub struct Chain<'c> {
    /// The chain's ring. While it is closed no call returns.
    ring: &'c Ring,
    /// The memory that the chain was taken from.
    memory: &'c Table,
    doing: &'c Doing,
    bell: &'c Bell,
}

impl<'c> Chain<'c> {
    /// The guest's memory.
    #[must_use]
    pub fn memory(&self) -> &'c Table {
        self.memory
    }

    /// Makes a call of the host for the chain. `Err` has the result if the chain was dropped
    /// meanwhile. Until this returns the thread accesses no memory of the guest's.
    pub fn call_host<T>(&self, call: impl FnOnce() -> T) -> Result<T, T> {
        self.ring.call_host(self.doing, call)
    }

    /// Between two calls of the host that one call of the file system makes: returns whether the
    /// chain is in flight yet, if need be once the ring is open again.
    pub fn goes_on(&self) -> bool {
        self.ring.goes_on(self.doing)
    }

    /// Whether the chain was dropped: nobody gets its reply.
    pub fn is_dropped(&self) -> bool {
        self.doing.is_dropped()
    }

    /// Waits until an answer by a reply object comes, or a moment.
    pub(crate) fn wait(&self) {
        let _ = self.call_host(|| self.bell.wait(LONGER));
    }

    /// Whether nobody waits for the call any more. After a reset the next session waits for the
    /// end of INIT and DESTROY.
    pub(crate) fn is_given_up(&self) -> bool {
        self.doing.is_dropped() && !self.doing.is_late()
    }

    /// Sets the opcode and number of the chain's request, for the log.
    pub fn asks(&self, opcode: u32, unique: u64) {
        self.doing.asks(opcode, unique);
    }

    /// The `len` bytes of the guest from a window's number on, if they lie in one region.
    pub fn slice(&self, at: usize, len: usize) -> Option<Slice<'c>> {
        self.memory.slice(at, len)
    }
}

/// The state that all threads share.
pub struct Core<F> {
    /// The file system.
    pub fs: F,
    /// The library's device, with the options that INIT agreed on.
    pub device: pitskhomu::Device,
    /// The high-priority queue, and after it the request queues.
    pub rings: Vec<Ring>,
    /// What the threads count.
    pub numbers: Numbers,
    /// The number of calls of an earlier session that may change the next one.
    late: Arc<AtomicUsize>,
    /// The end of a session is under way.
    is_ending: AtomicBool,
    /// To the thread that ends sessions, once it runs.
    ending: OnceLock<SyncSender<SyncSender<()>>>,
    /// The rings have copies of their own, so that threads of different rings share no count.
    memory: RwLock<Arc<Table>>,
}

impl<F: ServedFs> Core<F> {
    /// A device without memory whose rings aren't started. `threads` threads serve each request
    /// queue, and one the high-priority queue.
    pub fn new(fs: F, request_queues: usize, threads: u16) -> io::Result<Core<F>> {
        if !pitskhomu::is_compatible() {
            return Err(io::Error::other("the archive lacks functions that the wrapper calls"));
        }
        let late: Arc<AtomicUsize> = Arc::default();
        let ring = |index| Ring::new(index, if index == 0 { 1 } else { threads }, late.clone());
        let rings: Vec<Ring> = (0..=request_queues).map(ring).collect::<io::Result<_>>()?;
        // All have the same log and the same IOMMU.
        let memory = Table::default();
        rings.iter().for_each(|ring| ring.lock().set_memory(&memory));
        Ok(Core {
            fs,
            device: pitskhomu::Device::default(),
            rings,
            numbers: Numbers::new(),
            late,
            is_ending: AtomicBool::new(false),
            ending: OnceLock::new(),
            memory: RwLock::new(Arc::new(memory)),
        })
    }

    /// The current memory.
    pub fn memory(&self) -> Arc<Table> {
        self.memory.read().unwrap_or_else(PoisonError::into_inner).clone()
    }

    /// Replaces the memory. Chains in flight are served and returned over the memory that they were
    /// taken from. A ring whose parts the two memories don't have alike is closed first, and runs
    /// again once the memory has them.
    pub fn set_memory(&self, table: Table, patience: Patience) {
        let (old, new) = (self.memory(), Arc::new(table));
        self.rings.iter().for_each(|ring| ring.leave_memory(&old, &new, patience));
        let mut locked: Vec<_> = self.rings.iter().map(Ring::lock).collect();
        locked.iter_mut().for_each(|state| state.set_memory(&new));
        *self.memory.write().unwrap_or_else(PoisonError::into_inner) = new.clone();
        for (ring, state) in self.rings.iter().zip(&mut locked) {
            ring.enter_memory(state, &new);
        }
    }

    /// The calls that chains in flight wait for, and whether calls of an earlier session continue
    /// that may change this one, if there are any.
    pub fn held_calls(&self) -> Option<String> {
        let mut held: Vec<String> = self.rings.iter().filter_map(Ring::held).collect();
        if self.late.load(Ordering::SeqCst) > 0 {
            held.push("one of an earlier session".into());
        }
        (!held.is_empty()).then(|| held.join("; "))
    }

    /// Waits for the calls of `held_calls`, at most `LAST_CHAINS`, and returns those that are left.
    /// The chains of a ring that stands don't end before it continues, so nobody waits for them.
    pub fn calls_left(&self) -> Option<String> {
        let end = Instant::now() + LAST_CHAINS;
        loop {
            let held = self.held_calls()?;
            if self.rings.iter().any(Ring::holds) || Instant::now() >= end {
                return Some(held);
            }
            thread::park_timeout(A_MOMENT); // virtiofsd's filter allows no sleep by the clock
        }
    }

    /// Waits until the host has no call, after the connection has ended. It waits at most
    /// `LAST_CHAINS`, since a call may never end.
    pub fn wait_for_calls(&self) {
        let end = Instant::now() + LAST_CHAINS;
        for ring in &self.rings {
            ring.wait_for_its_calls(end.saturating_duration_since(Instant::now()));
        }
    }

    /// The front-end has left for good: all threads end, as soon as the host's calls do.
    pub fn end(&self) {
        let memory = self.memory();
        self.rings.iter().for_each(|ring| ring.end(&memory));
    }

    /// Starts the thread that ends sessions, with the caller's filter and capabilities. It is there
    /// from the start, so that no reset needs a thread that can't be made.
    pub fn start(self: &Arc<Self>) -> io::Result<()> {
        let (sender, asked): (_, Receiver<SyncSender<()>>) = sync_channel(1);
        let core = Arc::downgrade(self); // which has the sender
        thread::Builder::new().name("session".into()).spawn(move || {
            for done in asked {
                if let Some(core) = core.upgrade() {
                    core.forget_session();
                }
                let _ = done.try_send(());
            }
        })?;
        let _ = self.ending.set(sender);
        Ok(())
    }

    /// Ends the session without DESTROY: then no node is held, no file is open, and no options are
    /// agreed on. The host may hold the close of a file, or a call that has locked the file system.
    /// Then the session ends when it does, and no chain is taken before. So if an end is under way
    /// it is this session's too.
    pub fn end_session(&self, patience: Patience) {
        if self.is_ending.swap(true, Ordering::SeqCst) {
            return;
        }
        self.late.fetch_add(1, Ordering::SeqCst);
        let (done, is_done) = sync_channel(1);
        if self.ending.get().is_some_and(|ending| ending.try_send(done).is_ok()) {
            let _ = is_done.recv_timeout(patience.left());
        } else {
            self.forget_session();
        }
    }

    /// If the file system panics, the session ends all the same.
    fn forget_session(&self) {
        let _ = catch_unwind(AssertUnwindSafe(|| self.fs.destroy()));
        self.device.set_options(pitskhomu::Options::empty());
        self.is_ending.store(false, Ordering::SeqCst); // before chains are taken again
        self.end_late();
    }

    /// A late call has ended. After the last one chains are taken again.
    fn end_late(&self) {
        if self.late.fetch_sub(1, Ordering::SeqCst) == 1 {
            self.rings.iter().for_each(Ring::look);
        }
    }
}

/// The worker of a queue's thread.
pub struct QueueWorker<F> {
    core: Arc<Core<F>>,
    index: usize,
    worker: Worker,
    /// The number of the memory whose regions the worker has, and whether its addresses are I/O
    /// addresses.
    told: Option<(u64, bool)>,
    /// A call whose answer the guest doesn't get, until it is undone, and its memory.
    cancelled: Option<(Cancelled, Arc<Table>)>,
    /// The chain was taken with an IOMMU's table.
    is_translated: bool,
    /// The pages that the front-end refuses to the next pop.
    refused: BTreeSet<u64>,
    counts: Arc<Counts>,
    bell: Arc<Bell>,
}

impl<F: ServedFs> QueueWorker<F> {
    /// A worker for the ring with this index.
    pub fn new(core: Arc<Core<F>>, index: usize) -> QueueWorker<F> {
        let (mut worker, bell) = (Worker::new(), Arc::<Bell>::default());
        let _ = worker.set_waker(Some(bell.clone().into())); // it has no chain
        QueueWorker {
            counts: core.numbers.of_thread(),
            core,
            index,
            worker,
            bell,
            told: None,
            cancelled: None,
            is_translated: false,
            refused: BTreeSet::new(),
        }
    }

    /// Sets the worker's memory, if it is another. Each pop begins with this.
    #[inline]
    fn work_over(&mut self, memory: &Table) -> Result<(), Status> {
        let told = (memory.number(), memory.iommu().is_on());
        match self.told {
            Some(before) if before == told => Ok(()),
            _ => self.tell(memory, told),
        }
    }

    #[cold]
    fn tell(&mut self, memory: &Table, told: (u64, bool)) -> Result<(), Status> {
        self.told = None; // if this is refused, the next call sets the regions again
        self.worker.set_memory(&self.core.device, &memory.regions())?;
        self.told = Some(told);
        Ok(())
    }

    /// Forgets the worker's chain, and keeps its call until it is undone.
    fn forget_chain(&mut self, memory: &Arc<Table>) {
        self.cancelled = self.worker.abandon().map(|cancelled| (cancelled, memory.clone()));
    }

    fn log(&self, served: &pitskhomu::Served) {
        if let Some(fault) = served.fault {
            debug!("queue {}: a faulty chain went back with no reply: {fault}", self.index);
        }
        if let Some(fault) = served.request_fault {
            debug!(
                "queue {}: a request {} went back with no reply: {fault}",
                self.index, served.opcode
            );
        }
    }
}

impl<F: ServedFs> Server for QueueWorker<F> {
    fn pop(&mut self, queue: &mut Queue, memory: &Arc<Table>) -> Result<Popped, Status> {
        self.work_over(memory)?;
        if memory.iommu().is_on() {
            return self.pop_translated(queue, memory);
        }
        let is_popped = self.worker.pop(queue, &**memory)?;
        if !is_popped {
            self.counts.found_none();
        }
        Ok(if is_popped { Popped::Chain } else { Popped::Idle })
    }

    fn ask(&mut self, memory: &Table, cancel: &Cancel) -> Asked {
        if memory.iommu().is_on() {
            return self.ask_for_misses(memory, cancel);
        }
        debug!("queue {}: the driver isn't told yet to kick: {}", self.index, Status::NotMapped);
        Asked::NotAll
    }

    fn forget_refusals(&mut self) {
        if !self.refused.is_empty() {
            self.refused.clear();
        }
    }

    /// A call at which the file system panics is answered EIO, and the thread continues.
    fn answer(&mut self, doing: &Doing, memory: &Table) {
        let begun = numbers::ticks();
        let core = &self.core;
        let ring = &core.rings[self.index];
        let chain = Chain { ring, memory, doing, bell: &self.bell };
        let mut answer = || core.fs.answer(&mut self.worker, &core.device, chain);
        let answered = catch_unwind(AssertUnwindSafe(&mut answer)).or_else(|_| {
            // a daemon's hook logs the panic
            debug!("queue {}: a call panicked, and is answered EIO", self.index);
            ring.come_back(doing);
            catch_unwind(AssertUnwindSafe(&mut answer))
        });
        if let Ok(Err(status)) = answered {
            error!("queue {}: a chain is answered EIO: {status}", self.index);
        }
        if doing.take_late() {
            core.end_late();
        }
        self.counts.answered(doing.opcode(), numbers::ticks().wrapping_sub(begun));
    }

    fn push(&mut self, queue: &mut Queue, memory: &Arc<Table>) -> Result<bool, Status> {
        let served = if self.is_translated {
            self.push_translated(queue, memory)
        } else {
            self.worker.push(queue, &**memory)
        };
        match served {
            Ok(served) => {
                self.log(&served);
                Ok(served.notify)
            }
            Err(status) => {
                self.forget_chain(memory); // the guest gets no answer
                Err(status)
            }
        }
    }

    fn abandon(&mut self, memory: &Arc<Table>) {
        self.is_translated = false; // `Ring::drop_chains` has released the ring's pages
        self.worker.mark_data(&**memory);
        self.forget_chain(memory);
    }

    fn must_undo(&self) -> bool {
        self.cancelled.is_some()
    }

    fn undo(&mut self) {
        if let Some((cancelled, memory)) = self.cancelled.take() {
            let (doing, ring) = (&Doing::dropped(), &self.core.rings[self.index]);
            let chain = Chain { ring, memory: &memory, doing, bell: &self.bell };
            let undo = || self.core.fs.cancelled(&cancelled, chain);
            let _ = catch_unwind(AssertUnwindSafe(undo));
        }
    }

    fn set_notification(
        &mut self,
        queue: &Queue,
        wanted: bool,
        memory: &Arc<Table>,
    ) -> Result<bool, Status> {
        self.work_over(memory)?;
        if memory.iommu().is_on() {
            return self.set_notification_translated(queue, wanted, memory);
        }
        self.worker.set_notification(queue, wanted, &**memory)
    }

    fn available_index(&mut self, queue: &Queue, memory: &Table) -> Option<u16> {
        let is_told = self.told == Some((memory.number(), false));
        let index = is_told.then(|| self.worker.available_index(queue, memory)).flatten();
        index.or_else(|| memory.ring_index(queue.layout().available))
    }
}

#[cfg(test)]
mod tests;
