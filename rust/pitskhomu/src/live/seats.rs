//! The workers of a queue, whose chains may wait for their answers, and the threads that have them.
use super::events::signal;
use super::loops::{Locked, Queued, Server};
use super::{Mapped, Shared, State};
use crate::cancelled::Cancelled;
use crate::device::Device;
use crate::memory;
use crate::queue::Queue;
use crate::status::Status;
use crate::worker::{Popped, Worker};
use alloc::boxed::Box;
use alloc::sync::Arc;
use alloc::vec::Vec;
use core::mem;
use core::sync::atomic::{fence, AtomicU8, Ordering};
use std::fs::File;
use std::sync::{Mutex, PoisonError};
use std::task::Wake;

/// The workers whose answers have come while their chains waited.
pub(super) struct Answered {
    numbers: Mutex<Vec<usize>>,
    /// Wakes a thread of the queue.
    wake: File,
}

impl Answered {
    pub fn new(wake: File) -> Answered {
        Answered { numbers: Mutex::default(), wake }
    }

    fn add(&self, number: usize) {
        self.numbers.lock().unwrap_or_else(PoisonError::into_inner).push(number);
        let _ = signal(&self.wake);
    }

    fn next(&self) -> Option<usize> {
        self.numbers.lock().unwrap_or_else(PoisonError::into_inner).pop()
    }

    fn is_empty(&self) -> bool {
        self.numbers.lock().unwrap_or_else(PoisonError::into_inner).is_empty()
    }
}

/// A worker is with a thread.
const BUSY: u8 = 0;
/// Its chain waits for the answer.
const WAITS: u8 = 1;
/// The answer has come.
const CAME: u8 = 2;

/// The waker of a worker.
struct Bell {
    number: usize,
    state: AtomicU8,
    answered: Arc<Answered>,
}

impl Wake for Bell {
    fn wake(self: Arc<Self>) {
        self.wake_by_ref();
    }

    fn wake_by_ref(self: &Arc<Self>) {
        if self.state.swap(CAME, Ordering::AcqRel) == WAITS {
            self.answered.add(self.number);
        }
    }
}

/// A worker, with the memory of its chain.
pub(super) struct Seat {
    number: usize,
    worker: Worker,
    /// The memory whose regions the worker has. It stays mapped while the worker has a chain.
    mapped: Arc<Mapped>,
    bell: Arc<Bell>,
}

impl Seat {
    pub fn new(
        number: usize,
        device: &Device,
        mapped: &Arc<Mapped>,
        answered: &Arc<Answered>,
    ) -> Result<Box<Seat>, Status> {
        let (state, answered) = (AtomicU8::new(BUSY), answered.clone());
        let bell = Arc::new(Bell { number, state, answered });
        let mut worker = Worker::new();
        worker.set_waker(Some(bell.clone().into()))?;
        worker.set_memory(device, &mapped.regions)?;
        Ok(Box::new(Seat { number, worker, mapped: mapped.clone(), bell }))
    }

    /// Tells the worker of new memory.
    pub fn use_memory(&mut self, device: &Device, mapped: &Arc<Mapped>) -> Result<(), Status> {
        if !Arc::ptr_eq(&self.mapped, mapped) {
            self.worker.set_memory(device, &mapped.regions)?;
            self.mapped = mapped.clone();
        }
        Ok(())
    }

    /// Whether the chain is to wait: its answer hasn't come meanwhile.
    fn begins_to_wait(&self) -> bool {
        let (order, failure) = (Ordering::AcqRel, Ordering::Acquire);
        self.bell.state.compare_exchange(BUSY, WAITS, order, failure).is_ok()
    }

    fn begins_to_work(&self) {
        self.bell.state.store(BUSY, Ordering::Release);
    }
}

impl Queued for State {
    fn queue(&self) -> &Queue {
        &self.queue
    }

    fn is_live(&self) -> bool {
        self.refused.is_none() && !self.is_ending
    }

    fn may_tell(&self) -> bool {
        self.refused.is_none() && !self.is_reset
    }

    fn has_room(&self) -> bool {
        !self.idle.is_empty()
    }
}

/// What a thread has: a worker, while it has the lock, or a chain.
pub(super) struct Hand<'s> {
    shared: &'s Shared,
    seat: Option<Box<Seat>>,
    /// Its chain waited, and the answer has come.
    is_resumed: bool,
    /// The driver is to be interrupted.
    owed: bool,
    /// What is to be undone.
    cancelled: Option<Cancelled>,
}

impl<'s> Hand<'s> {
    pub fn new(shared: &'s Shared) -> Hand<'s> {
        Hand { shared, seat: None, is_resumed: false, owed: false, cancelled: None }
    }

    /// A worker without a chain, if there is one, or the one whose chain was popped.
    fn seat(&mut self, state: &mut State) -> Result<&mut Seat, Status> {
        self.seat = self.seat.take().or_else(|| state.idle.pop());
        let seat = self.seat.as_mut().ok_or(Status::ChainInFlight)?;
        if !seat.worker.has_chain() {
            seat.use_memory(&self.shared.device, &state.mapped)?;
        }
        Ok(seat)
    }
}

impl Shared {
    pub(super) fn refuse(&self, state: &mut State, why: Status) {
        state.refused.get_or_insert(why);
        if let Some(err) = &self.err {
            let _ = signal(err);
        }
    }

    /// Goes on with a chain without the lock: `None` if it waits for its answer from now on.
    fn go_on(&self, mut seat: Box<Seat>, answered: Result<bool, Status>) -> Option<Box<Seat>> {
        let mut answered = answered;
        // a push refuses a chain without a reply
        while answered == Ok(false) {
            let number = seat.number;
            let mut state = self.threads.lock();
            if state.is_reset {
                break;
            }
            if seat.begins_to_wait() {
                state.waiting[number] = Some(seat);
                return None;
            }
            drop(state);
            seat.begins_to_work();
            answered = seat.worker.finish(&self.device, &*seat.mapped.memory);
        }
        Some(seat)
    }

    /// Enables notifications for the device that continues the queue. No thread is left.
    pub(super) fn enable_notifications(&self, state: &mut Locked<State>) {
        let enable = |state: &mut State| {
            let State { idle, queue, mapped, .. } = state;
            let mut set = Ok(false);
            for seat in idle {
                set = seat
                    .use_memory(&self.device, mapped)
                    .and_then(|()| seat.worker.set_notification(queue, true, &*seat.mapped.memory));
                if set.is_ok() {
                    break;
                }
            }
            set
        };
        let _ = state.enable_notifications(enable); // an allocation failed
    }

    /// Abandons a worker's chain, and has its answer undone.
    pub(super) fn abandon(&self, seat: &mut Seat) {
        seat.worker.mark_data(&*seat.mapped.memory);
        self.undo(seat.worker.abandon());
    }
}

impl Server<State> for Hand<'_> {
    /// A chain whose answer has come is served before a new one.
    fn has_answered(&mut self, _: &State) -> bool {
        !self.shared.answered.is_empty()
    }

    fn resumes(&mut self, state: &mut State) -> bool {
        let came = self.shared.answered.next().and_then(|number| state.waiting[number].take());
        self.is_resumed = came.is_some();
        if self.is_resumed {
            state.idle.extend(mem::replace(&mut self.seat, came));
        }
        self.is_resumed
    }

    fn pop(&mut self, state: &mut State) -> Result<Popped, Status> {
        self.is_resumed = false;
        let seat = self.seat(state)?;
        let is_popped = seat.worker.pop(&mut state.queue, &*seat.mapped.memory);
        if is_popped != Ok(true) {
            state.idle.extend(self.seat.take()); // others may pop while this thread steps aside
        }
        Ok(if is_popped? { Popped::Chain } else { Popped::Idle })
    }

    fn answer(&mut self) -> bool {
        let mut seat = match self.seat.take() {
            Some(seat) => seat,
            None => return false,
        };
        seat.begins_to_work();
        let (device, memory) = (&self.shared.device, &*seat.mapped.memory);
        let answered = if self.is_resumed {
            seat.worker.finish(device, memory)
        } else {
            self.shared.service.answer(&mut seat.worker, device, memory)
        };
        self.seat = self.shared.go_on(seat, answered);
        if let Some(seat) = &mut self.seat {
            self.shared.undo(seat.worker.cancelled()); // an answer without room
        }
        self.seat.is_some()
    }

    /// Pushes the chain, unless the queue was reset.
    fn push(&mut self, state: &mut State) -> bool {
        let mut seat = match self.seat.take() {
            Some(seat) => seat,
            None => return false,
        };
        let pushed = if state.is_reset {
            Err(None)
        } else {
            seat.worker.push(&mut state.queue, &*seat.mapped.memory).map_err(Some)
        };
        match pushed {
            Ok(served) => self.owed |= served.notify,
            Err(status) => {
                if let Some(status) = status {
                    self.shared.refuse(state, status);
                }
                seat.worker.mark_data(&*seat.mapped.memory);
                self.cancelled = seat.worker.abandon();
            }
        }
        // A memory that was replaced isn't kept. If this fails it is tried at the next pop.
        let _ = seat.use_memory(&self.shared.device, &state.mapped);
        state.idle.push(seat);
        self.cancelled.is_some()
    }

    fn undo(&mut self) {
        self.shared.undo(self.cancelled.take());
    }

    /// An event that doesn't take it is the VMM's fault.
    fn interrupt(&mut self) {
        if mem::take(&mut self.owed) {
            let _ = signal(&self.shared.call); // [Notifies] of the used ring
        }
    }

    fn set_notification(&mut self, state: &mut State, enabled: bool) -> Result<bool, Status> {
        let seat = self.seat(state)?;
        let is_set = seat.worker.set_notification(&state.queue, enabled, &*seat.mapped.memory);
        if !seat.worker.has_chain() {
            state.idle.extend(self.seat.take());
        }
        is_set
    }

    fn available_index(&mut self, state: &State) -> Option<u16> {
        let at = state.mapped.host(state.queue.layout().available.wrapping_add(2));
        let index = at.map(|at| memory::load_u16(&*state.mapped.memory, at));
        fence(Ordering::Acquire);
        index
    }

    fn refuse(&mut self, state: &mut State, why: Status) {
        self.shared.refuse(state, why);
    }

    /// It ends if nothing is left for it.
    fn rests(&mut self, state: &mut State) -> bool {
        state.is_ending && (state.is_reset || state.is_quiet())
    }
}

#[cfg(test)]
mod tests {
    use super::super::events::new_event;
    use super::*;
    use std::io::Read as _;
    use std::thread;
    use std::time::Duration;

    /// A thread that hears the signal finds the answer. While the list is locked, none is added.
    #[test]
    fn an_answer_is_listed_before_its_signal() {
        let event = new_event().unwrap();
        let mut wake = event.try_clone().unwrap();
        let answered = Arc::new(Answered::new(event));
        let (list, other) = (answered.numbers.lock().unwrap(), answered.clone());
        let adds = thread::spawn(move || other.add(7));
        thread::sleep(Duration::from_millis(100));
        assert!(wake.read(&mut [0; 8]).is_err(), "a thread finds no answer, and sleeps");
        drop(list);
        adds.join().unwrap();
        assert!(wake.read(&mut [0; 8]).is_ok());
        assert_eq!((answered.next(), answered.is_empty()), (Some(7), true));
    }
}
