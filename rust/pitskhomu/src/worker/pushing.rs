//! The push of a worker's chain, and the notifications of both sides.
use super::{Served, Worker};
use crate::chain::Replied;
use crate::data::store_room;
use crate::memory::{self, GuestMemory, GuestRange, Window};
use crate::queue::Queue;
use crate::status::{Fault, RequestFault, Status};
use crate::sys;
use core::mem;
use core::sync::atomic::{fence, Ordering};

/// Ends a push unless it is forgotten. So a push doesn't block the queue's other chains if the
/// memory panics at one of its stores.
struct Pushing<'w>(&'w mut Worker, &'w mut Queue);

impl Drop for Pushing<'_> {
    fn drop(&mut self) {
        let _ = self.0.chain.pushed(self.1, 0);
        self.0.drop_chain();
    }
}

impl Worker {
    /// Pushes the chain: stores the reply, the used element and the used index, in
    /// this order (VIRTIO 1.2, 2.7.8). The result is a summary of the chain.
    ///
    /// # Errors
    /// - `WrongOrder`: the worker has no chain, or one without a reply (`answer`, `finish`), or one
    ///   that was popped with a table ([`Lent::push`](crate::Lent::push)), which it keeps. After
    ///   other errors it has no chain, and `cancelled` returns what is to be undone.
    /// - `OtherQueue`: the chain is of another queue, or its queue was reset.
    /// - `NotMapped`: the worker got regions without the queue's rings. Reset the queue.
    pub fn push(&mut self, queue: &mut Queue, memory: &dyn GuestMemory) -> Result<Served, Status> {
        if self.chain.is_translated() {
            return Err(Status::WrongOrder);
        }
        self.push_next(queue, memory)
    }

    /// The same, with a table that is lent, or without one.
    pub(super) fn push_next(
        &mut self,
        queue: &mut Queue,
        memory: &dyn GuestMemory,
    ) -> Result<Served, Status> {
        if !self.is_answered() {
            return Err(Status::WrongOrder);
        }
        let pushing = Pushing(self, queue);
        let stores = match pushing.0.chain.push(pushing.1, &mut pushing.0.front) {
            Ok(stores) => stores,
            Err(status) => {
                pushing.0.mark_data(memory);
                if status == Status::OtherTable {
                    mem::forget(pushing); // the chain stays in flight, and the worker keeps it
                }
                return Err(status);
            }
        };
        // From here on the guest may get the answer: it isn't undone if the memory panics.
        pushing.0.is_called = false;
        let notify = pushing.0.store(pushing.1, memory, &stores)?;
        mem::forget(pushing);
        self.chain.forget_windows();
        Ok(self.served(stores.len, notify))
    }

    /// Undoes a pop, with a table or without one: the queue's next pop returns the chain again. The
    /// driver doesn't notify for it again.
    ///
    /// # Errors
    /// An error leaves the chain with the worker.
    /// - `WrongOrder`: the worker has no chain, or one that was decoded or has a fault; or another
    ///   worker popped a chain of the queue later.
    /// - `OtherQueue`: the chain is of another queue, or its queue was reset.
    pub fn unpop(&mut self, queue: &mut Queue) -> Result<(), Status> {
        if !self.has_chain() {
            return Err(Status::WrongOrder);
        }
        self.chain.unpop(queue)
    }

    /// Makes the stores of a push, and returns whether to notify the driver.
    fn store(
        &mut self,
        queue: &mut Queue,
        memory: &dyn GuestMemory,
        stores: &sys::Stores,
    ) -> Result<bool, Status> {
        if self.replied == Replied::Entries {
            let len = (stores.len as usize).saturating_sub(stores.front_len);
            store_room(&mut self.chain, memory, sys::HEADER, &self.list[..len]);
        }
        store_room(&mut self.chain, memory, 0, &self.front[..stores.front_len]);
        memory::store_u32(memory, stores.id_at, stores.id);
        memory::store_u32(memory, stores.len_at, stores.len);
        fence(Ordering::Release);
        memory::store_u16(memory, stores.index_at, stores.index);
        // The driver's flags or `used_event` must be loaded after the driver can see the index, or
        // a notification is lost. So must the log's flag: else a log that is turned on meanwhile
        // misses a page.
        memory::full_barrier();
        if memory.is_logging() {
            self.mark_written(memory, stores);
        }
        self.chain.pushed(queue, memory::load_u16(memory, stores.seen_at))
    }

    /// Enables or disables available buffer notifications of the driver (VIRTIO 1.2, 2.7.10).
    /// Enable them before you sleep. They may be disabled while a worker looks for chains. The
    /// worker may have a chain. Returns whether something was stored.
    ///
    /// After enabling, call `pop` once more, since the driver may have made a chain available
    /// before it could see the store. If several workers serve the queue, hold its lock from here
    /// to the end of that `pop`.
    ///
    /// A worker that pops a chain while another worker of the queue sleeps must enable
    /// notifications again before it releases the lock, with an event index and without one. Then
    /// it must load the available index again: an index that was loaded before may show that a
    /// chain is available, but never that none is. If one is available, it wakes a worker that
    /// sleeps, or takes the chain. The driver notifies once for several chains, and with an event
    /// index only for the next chain.
    ///
    /// # Errors
    /// - `WrongOrder`: no memory was set.
    /// - `BadQueueSize`: the queue isn't set up.
    /// - `NotMapped`: the flags, or `avail_event`, aren't in the worker's regions.
    pub fn set_notification(
        &mut self,
        queue: &Queue,
        enabled: bool,
        memory: &dyn GuestMemory,
    ) -> Result<bool, Status> {
        self.store_notification(queue, enabled, memory, false)
    }

    /// The same, with a table that is lent, or without one.
    pub(super) fn store_notification(
        &mut self,
        queue: &Queue,
        enabled: bool,
        memory: &dyn GuestMemory,
        is_lent: bool,
    ) -> Result<bool, Status> {
        let store = self.chain.set_notification(queue, enabled)?;
        if store.len == 0 {
            return Ok(false);
        }
        memory::store_u16(memory, store.at, store.value);
        // The next load of the available index comes after the store, and so does the log's flag.
        memory::full_barrier();
        if memory.is_logging() {
            let len = store.len.into();
            if is_lent {
                self.mark_at(memory, Window { at: store.at, len: store.len.into() });
            } else {
                memory.mark(GuestRange { guest: queue.notification_address(), len });
            }
        }
        Ok(true)
    }

    /// Marks the bytes of the chain's reply buffer that may have been written so far
    /// ([`GuestMemory::mark`]), such as a READ's data. `push` does so by itself. Call this before
    /// [`Worker::abandon`]: the guest gets no reply, but its memory has changed.
    pub fn mark_data(&mut self, memory: &dyn GuestMemory) {
        memory::full_barrier(); // the data is stored before the log's flag is loaded
        if memory.is_logging() {
            self.mark_room(memory, self.counts.end());
        }
    }

    /// Reports the written bytes: the reply buffer up to the end of the reply and of the bytes that
    /// the file system may have written, the used element and the used index.
    fn mark_written(&mut self, memory: &dyn GuestMemory, stores: &sys::Stores) {
        self.mark_room(memory, u64::from(stores.len).max(self.counts.end()));
        if self.chain.is_translated() {
            for (at, len) in [(stores.id_at, 4), (stores.len_at, 4), (stores.index_at, 2)] {
                self.mark_at(memory, Window { at, len });
            }
            return;
        }
        memory.mark(GuestRange { guest: stores.element_guest, len: 8 });
        memory.mark(GuestRange { guest: stores.index_guest, len: 2 });
    }

    /// Reports the first bytes of the reply buffer.
    fn mark_room(&mut self, memory: &dyn GuestMemory, written: u64) {
        if self.chain.is_translated() {
            return self.mark_windows(memory, written);
        }
        let mut ranges = [GuestRange::default(); 16];
        let mut done = 0;
        while done < written {
            let found = self.chain.reply_ranges(done, written - done, &mut ranges);
            if found.is_empty() {
                break;
            }
            for range in found {
                memory.mark(*range);
                done += range.len;
            }
        }
    }

    fn served(&self, reply_len: u32, notify: bool) -> Served {
        Served {
            head: self.pop.head,
            request_len: self.pop.request_len,
            room_len: self.pop.reply_len,
            opcode: self.call.opcode,
            unique: self.call.unique,
            reply_len,
            fault: Some(self.pop.fault).filter(|&number| number != 0).map(Fault::of),
            request_fault: Some(self.call.fault)
                .filter(|&number| number != 0)
                .map(RequestFault::of),
            had_no_room: self.replied == Replied::NoRoom,
            notify,
        }
    }
}
