//! A migration, on the device's side. The file system prepares its state while the guest runs, and
//! a thread sends or receives the state while the rings are stopped.
use crate::device::{Core, ServedFs};
use crate::pipe::Pipe;
use log::warn;
use std::fs::File;
use std::io;
use std::os::fd::{AsRawFd, RawFd};
use std::panic::{catch_unwind, AssertUnwindSafe};
use std::sync::atomic::{AtomicBool, Ordering};
use std::sync::mpsc::{sync_channel, Receiver, RecvTimeoutError, TryRecvError, TrySendError};
use std::sync::{Arc, Mutex, MutexGuard, TryLockError};
use std::thread;
use std::time::{Duration, Instant};
use vmm_sys_util::epoll::{ControlOperation, Epoll, EpollEvent, EventSet};
use vmm_sys_util::eventfd::EventFd;

/// The time that a transfer waits for a preparation. Its length is the number of the guest's files,
/// but a host that holds one of its calls mustn't hold the front-end.
const LONGEST_PREPARATION: Duration = Duration::from_secs(if cfg!(test) { 4 } else { 60 });
/// The time between two looks whether the turn has come.
const A_MOMENT: Duration = Duration::from_millis(10);

/// The sources of the events that end a wait for a transfer.
const ENDED: u64 = 0;
const HUNG_UP: u64 = 1;

/// One thread at a time prepares or transfers a state: they use the same part of the file system.
type Turn = Mutex<()>;

/// The file system's preparation, on a thread of its own.
struct Preparation {
    done: Receiver<io::Result<()>>,
    /// `done` has a result.
    is_done: Arc<AtomicBool>,
    is_cancelled: Arc<AtomicBool>,
}

/// A migration to or from another daemon, if one is under way.
pub struct Migration<F> {
    core: Arc<Core<F>>,
    turn: Arc<Turn>,
    preparation: Option<Preparation>,
    /// The file system keeps a state that it has prepared, also if nobody wants it any more.
    is_kept: Arc<AtomicBool>,
    /// The transfer's result.
    transfer: Option<Receiver<io::Result<()>>>,
    /// Ready when a transfer has ended, or the front-end has left.
    events: Epoll,
    has_ended: Arc<EventFd>,
    /// Ready when a preparation has ended.
    pub prepared: Arc<EventFd>,
}

/// A preparation or transfer has ended without a result.
fn panicked() -> io::Error {
    io::Error::other("a thread of the migration panicked")
}

fn not_asked_about(result: io::Result<()>) {
    if let Err(e) = result {
        warn!("a transfer failed that the front-end didn't ask about: {e}");
    }
}

fn spawn(work: impl FnOnce() + Send + 'static) -> io::Result<()> {
    thread::Builder::new().name("migration".into()).spawn(work).map(|_| ())
}

/// Waits until the threads before have ended.
fn take_turn(turn: &Turn) -> io::Result<MutexGuard<'_, ()>> {
    let end = Instant::now() + LONGEST_PREPARATION;
    loop {
        match turn.try_lock() {
            Ok(taken) => return Ok(taken),
            Err(TryLockError::Poisoned(e)) => return Ok(e.into_inner()),
            Err(TryLockError::WouldBlock) if Instant::now() < end => thread::park_timeout(A_MOMENT),
            Err(TryLockError::WouldBlock) => {
                return Err(io::Error::other("an earlier migration hasn't ended yet"));
            }
        }
    }
}

impl Preparation {
    fn cancel(&self) {
        self.is_cancelled.store(true, Ordering::Relaxed);
    }

    /// Waits for its end. It is cancelled if that takes too long.
    fn wait(&self) -> io::Result<()> {
        self.done.recv_timeout(LONGEST_PREPARATION).unwrap_or_else(|e| match e {
            RecvTimeoutError::Disconnected => Err(panicked()),
            RecvTimeoutError::Timeout => {
                self.cancel();
                Err(io::Error::other(
                    "the state isn't prepared yet: the host may hold a call for it",
                ))
            }
        })
    }
}

/// Refuses to save a state while the host holds a call of the guest's: its reply would be lost.
/// Waits a while for those that may end.
fn may_be_saved<F: ServedFs>(core: &Core<F>) -> io::Result<()> {
    core.calls_left().map_or(Ok(()), |held| {
        Err(io::Error::other(format!(
            "the guest can't move now, and goes on here, since the host holds a call of its: {held}"
        )))
    })
}

/// Refuses to load a state while the host holds a call of the guest's: it may change that state.
fn may_be_loaded<F: ServedFs>(core: &Core<F>) -> io::Result<()> {
    core.calls_left().map_or(Ok(()), |held| {
        Err(io::Error::other(format!(
            "no state can be loaded now, since the host holds a call: {held}"
        )))
    })
}

/// Sends the state, once it is prepared and no call of the guest's may change it.
fn save<F: ServedFs>(
    core: &Core<F>,
    preparation: Option<&Preparation>,
    (turn, is_kept): (&Turn, &AtomicBool),
    pipe: File,
) -> io::Result<()> {
    if let Err(e) = may_be_saved(core) {
        if let Some(preparation) = preparation {
            preparation.cancel();
        }
        return Err(e);
    }
    if let Some(preparation) = preparation {
        preparation.wait()?;
    }
    let _turn = take_turn(turn)?;
    if preparation.is_none() {
        core.fs.prepare_state(Arc::default());
    }
    // A ring whose numbers were never set has none to save.
    let queues = core.rings.iter().filter_map(|ring| ring.lock().queue_if_begun());
    let queues = queues.collect::<Result<Vec<_>, _>>()?;
    core.fs.save_state(&core.device, &queues, Pipe::out(pipe)?)?;
    is_kept.store(false, Ordering::Relaxed);
    Ok(())
}

impl<F: ServedFs> Migration<F> {
    /// No migration.
    pub fn new(core: Arc<Core<F>>) -> io::Result<Migration<F>> {
        let event = || EventFd::new(libc::EFD_NONBLOCK | libc::EFD_CLOEXEC);
        let (has_ended, prepared) = (event()?, event()?);
        let events = Epoll::new()?;
        let ended = EpollEvent::new(EventSet::IN, ENDED);
        events.ctl(ControlOperation::Add, has_ended.as_raw_fd(), ended)?;
        Ok(Migration {
            core,
            turn: Arc::default(),
            preparation: None,
            is_kept: Arc::default(),
            transfer: None,
            events,
            has_ended: Arc::new(has_ended),
            prepared: Arc::new(prepared),
        })
    }

    /// From here on the end of this socket ends each wait for a transfer.
    pub fn watch(&self, front_end: RawFd) -> io::Result<()> {
        let hung_up = EpollEvent::new(EventSet::empty(), HUNG_UP);
        self.events.ctl(ControlOperation::Add, front_end, hung_up)
    }

    /// Whether the file system keeps an earlier state, which it must forget before it prepares
    /// another.
    pub fn is_to_forget(&self) -> bool {
        self.preparation.is_none() && self.is_kept.load(Ordering::Relaxed)
    }

    /// Has the file system forget that state, while no call of the guest's is made. Returns whether
    /// it has: it hasn't if that state is still being prepared.
    pub fn forget(&self) -> bool {
        let _turn = match self.turn.try_lock() {
            Ok(taken) => taken,
            Err(TryLockError::Poisoned(e)) => e.into_inner(),
            Err(TryLockError::WouldBlock) => return false,
        };
        self.core.fs.forget_state();
        self.is_kept.store(false, Ordering::Relaxed);
        true
    }

    /// Begins to prepare the state. The guest will move, and still runs.
    pub fn prepare(&mut self) {
        if self.preparation.is_some() {
            return;
        }
        let is_cancelled: Arc<AtomicBool> = Arc::default();
        let (core, is_over, turn) = (self.core.clone(), is_cancelled.clone(), self.turn.clone());
        let (end, done) = sync_channel(1);
        let is_done: Arc<AtomicBool> = Arc::default();
        let (has_ended, event) = (is_done.clone(), self.prepared.clone());
        let is_kept = self.is_kept.clone();
        let spawned = spawn(move || {
            let prepared = take_turn(&turn).map(|_turn| {
                if !is_over.load(Ordering::Relaxed) {
                    is_kept.store(true, Ordering::Relaxed);
                    core.fs.prepare_state(is_over);
                }
            });
            let _ = end.try_send(prepared);
            has_ended.store(true, Ordering::Release);
            let _ = event.write(1);
        });
        match spawned {
            Ok(()) => self.preparation = Some(Preparation { done, is_done, is_cancelled }),
            Err(e) => warn!("the state is prepared when the guest stops, without a thread: {e}"),
        }
    }

    /// Whether the state is prepared: `None` if there is no preparation.
    pub fn is_prepared(&self) -> Option<bool> {
        let _ = self.prepared.read();
        Some(self.preparation.as_ref()?.is_done.load(Ordering::Acquire))
    }

    /// Whether a state is being saved or loaded.
    pub fn is_under_way(&self) -> bool {
        self.transfer.is_some()
    }

    /// Cancels the preparation, since the guest stays. Nobody waits for its end, but the next
    /// preparation and the next transfer. Returns whether there was one.
    pub fn cancel(&mut self) -> bool {
        let preparation = self.preparation.take();
        preparation.as_ref().inspect(|preparation| preparation.cancel()).is_some()
    }

    /// Begins a transfer. Nobody asks any more about the one before.
    fn begin(&mut self, transfer: impl FnOnce() -> io::Result<()> + Send + 'static) {
        let (end, result) = sync_channel(1);
        let (ended, has_ended) = (end.clone(), self.has_ended.clone());
        let spawned = spawn(move || {
            let result =
                catch_unwind(AssertUnwindSafe(transfer)).unwrap_or_else(|_| Err(panicked()));
            if let Err(TrySendError::Disconnected(result)) = ended.try_send(result) {
                not_asked_about(result);
            }
            let _ = has_ended.write(1);
        });
        if let Err(e) = spawned {
            let why = format!("there is no thread for the state: {e}");
            let _ = end.try_send(Err(io::Error::other(why)));
        }
        if let Some(Ok(result)) = self.transfer.replace(result).map(|before| before.try_recv()) {
            not_asked_about(result);
        }
    }

    /// Sends the state by this pipe, unless the host holds a call of the guest's.
    pub fn save(&mut self, pipe: File) {
        let (core, turn) = (self.core.clone(), self.turn.clone());
        let (preparation, is_kept) = (self.preparation.take(), self.is_kept.clone());
        self.begin(move || save(&core, preparation.as_ref(), (&turn, &is_kept), pipe));
    }

    /// Receives the state by this pipe.
    pub fn load(&mut self, pipe: File) {
        if self.cancel() {
            warn!("a state comes in, so what was prepared to go out is given up");
        }
        let (core, turn) = (self.core.clone(), self.turn.clone());
        self.begin(move || {
            let _turn = take_turn(&turn)?;
            may_be_loaded(&core)?;
            core.fs.load_state(&core.device, Pipe::into(pipe)?)
        });
    }

    /// Waits for the transfer, and returns its result. An error if the front-end leaves before.
    pub fn finish(&mut self) -> io::Result<()> {
        self.finish_until(None)
    }

    /// The same, until then at most.
    pub fn finish_until(&mut self, end: Option<Instant>) -> io::Result<()> {
        let transfer =
            self.transfer.take().ok_or_else(|| io::Error::other("no state was transferred"))?;
        loop {
            match transfer.try_recv() {
                Ok(result) => return result,
                Err(TryRecvError::Disconnected) => return Err(panicked()),
                Err(TryRecvError::Empty) => {}
            }
            let mut events = [EpollEvent::default(); 2];
            let left = end.map(|end| end.saturating_duration_since(Instant::now()));
            if left.is_some_and(|left| left.is_zero()) {
                return Err(io::Error::other("the state isn't transferred in time"));
            }
            let left = left.map_or(-1, |left| left.as_millis().try_into().unwrap_or(i32::MAX));
            let count = match self.events.wait(left, &mut events) {
                Err(e) if e.kind() == io::ErrorKind::Interrupted => 0,
                counted => counted?,
            };
            if events[..count].iter().any(|event| event.data() == HUNG_UP) {
                return Err(io::Error::other(
                    "the front-end left before the state was transferred",
                ));
            }
            let _ = self.has_ended.read(); // of this transfer, or of one before
        }
    }
}
