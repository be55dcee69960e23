//! Chains whose call the host holds while their ring stops. Their threads come back to a closed
//! ring, and wait: the ring may continue, and then they return their chains, or it is reset, and
//! then nobody gets the replies. Nothing is stored in the guest's memory meanwhile, except the data
//! of a READ, which the kernel stores in the READ's own reply buffer.
//!
//! The library's rule 8 wants the calls of a queue's chains ended before its reset. The host may
//! never end them, so another queue takes its place: the library refuses each chain of the old one.
use super::{Patience, Ring, State};
use crate::in_flight::Doing;
use crate::memory::Table;
use log::warn;
use pitskhomu::Queue;
use std::sync::atomic::Ordering;
use std::sync::Arc;

impl Ring {
    fn go_away(&self, doing: &Doing) {
        doing.set_away(true);
        if self.is_closed.load(Ordering::SeqCst) && self.lock().is_awaited() {
            self.served.notify_waiting(); // a message may wait for this thread to be away
        }
    }

    /// Between two calls of the host that one call of the file system makes: returns whether the
    /// chain is in flight yet, if need be once the ring is open again.
    pub fn goes_on(&self, doing: &Doing) -> bool {
        let is_in_flight = self.come_back(doing);
        if is_in_flight {
            self.go_away(doing);
        }
        is_in_flight
    }

    /// Makes a call of the host for a chain. `Err` has the result if the chain was dropped
    /// meanwhile. Until this returns the thread accesses no memory of the guest's.
    pub fn call_host<T>(&self, doing: &Doing, call: impl FnOnce() -> T) -> Result<T, T> {
        if doing.is_dropped() {
            return Err(call());
        }
        self.go_away(doing);
        let result = call();
        if self.come_back(doing) {
            Ok(result)
        } else {
            Err(result)
        }
    }

    /// Returns from a call of the host, if need be once the ring is open again. Returns whether the
    /// chain is in flight yet.
    pub fn come_back(&self, doing: &Doing) -> bool {
        doing.set_away(false);
        if self.is_closed.load(Ordering::SeqCst) {
            doing.set_away(true);
            let state = self.lock();
            doing.set_waiting(true);
            if state.is_awaited() {
                self.served.notify_waiting();
            }
            let state = self.served.wait_while(state, |_| {
                self.is_closed.load(Ordering::SeqCst) && !doing.is_dropped()
            });
            doing.set_waiting(false);
            doing.set_away(false); // under the lock: nobody closes the ring meanwhile
            drop(state);
        }
        !doing.is_dropped()
    }

    /// Opens the ring, if it runs. Threads that wait continue with their chains, unless the ring's
    /// memory isn't the one that they were taken from.
    pub(super) fn open(&self, state: &mut State, memory: &Table) {
        if !state.runs() {
            return;
        }
        let layout = state.queue.layout();
        let over = state.over.take();
        if state.queue.in_flight() > 0 && over.is_some_and(|over| !over.agrees(memory, &layout)) {
            warn!("queue {}: its memory was replaced, so replies are dropped", self.index);
            self.drop_chains(state, memory);
            state.refuse();
        }
        self.is_closed.store(false, Ordering::SeqCst);
        self.served.notify_waiting();
    }

    /// Whether a ring that starts is the one that stopped, with the chains that are in flight: the
    /// same numbers, and as many used elements as the library knows of. After a reset a driver's
    /// used ring has none.
    pub(super) fn continues(state: &State, memory: &Table) -> bool {
        state.queue.in_flight() > 0
            && !state.is_new
            && state.queue.stopped().is_none()
            && memory.ring_index(state.numbers.layout.used) == Some(state.queue.next_used())
    }

    /// Drops the chains in flight of a closed ring: nobody gets their replies. The library's queue
    /// is another one, so it refuses them too.
    pub(super) fn drop_chains(&self, state: &mut State, memory: &Table) {
        if state.queue.in_flight() > 0 {
            memory.iommu().lock().release_all(self.index);
            let late = self.doing.iter().filter(|doing| doing.is_in_flight() && doing.drop_chain());
            self.late.fetch_add(late.count(), Ordering::SeqCst);
            (state.queue, state.is_new, state.over) = (Queue::default(), true, None);
            self.served.notify_waiting();
        }
    }

    /// Resets the ring, which is disabled. Its chains in flight are dropped.
    pub fn reset(&self, memory: &Table) {
        let mut state = self.lock();
        self.drop_chains(&mut state, memory);
        state.reset();
    }

    /// A new memory replaces another. Before that the ring is closed if its parts differ.
    pub fn leave_memory(&self, old: &Arc<Table>, new: &Table, patience: Patience) {
        let layouts = {
            let state = self.lock();
            [state.numbers.layout, state.queue.layout()]
        };
        if !layouts.iter().all(|layout| old.agrees(new, layout)) {
            let mut state = self.settle(old, patience);
            state.is_mapped = false;
            drop(self.close(state, old, "memory without the queue's parts"));
        }
    }

    /// The new memory is there. A ring whose parts it lacks doesn't run until it has them.
    pub fn enter_memory(&self, state: &mut State, memory: &Table) {
        self.asking.resume();
        let is_mapped = memory.has_parts(&state.numbers.layout);
        if is_mapped && !state.is_mapped {
            state.is_mapped = true;
            self.open(state, memory);
            self.look();
        }
        state.is_mapped = is_mapped;
    }
}

#[cfg(test)]
mod tests;
