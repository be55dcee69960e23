//! A worker to which an IOMMU's table is lent: addresses of the driver are I/O addresses from then
//! on, until its memory is set again.
use super::{Served, Worker};
use crate::chain::Missed;
use crate::iotlb::{Iotlb, Miss};
use crate::memory::{GuestMemory, GuestRange, Window};
use crate::queue::Queue;
use crate::status::Status;
use crate::sys;
use core::fmt;

/// A pop reports at most so many misses at once.
const MISSES: usize = 1024;
/// The windows that are marked at a time.
const WINDOWS: usize = 16;

/// The result of a pop with a table.
#[derive(Clone, Copy, Debug, PartialEq, Eq)]
pub enum Popped {
    /// The worker has a chain.
    Chain,
    /// No chain is available.
    Idle,
    /// The table doesn't map all that the pop needs ([`Worker::misses`]). Nothing was popped.
    Missing,
}

/// A worker that has an IOMMU's table, for as long as this lives ([`Worker::lend`]): hold the VMM's
/// lock on the table meanwhile.
pub struct Lent<'w> {
    worker: &'w mut Worker,
    iotlb: &'w mut Iotlb,
}

impl fmt::Debug for Lent<'_> {
    fn fmt(&self, f: &mut fmt::Formatter<'_>) -> fmt::Result {
        f.debug_struct("Lent").field("worker", &self.worker).finish_non_exhaustive()
    }
}

impl Drop for Lent<'_> {
    /// The table is returned to its slot.
    fn drop(&mut self) {
        let (chain, place) = (&mut self.worker.chain, self.iotlb.place_mut());
        if chain.exchange_iotlb(place).is_err() {
            self.worker.drop_chain(); // a pop whose loads panicked
            let _ = self.worker.chain.exchange_iotlb(place);
        }
    }
}

impl Lent<'_> {
    /// Pops the next chain of a queue whose addresses are I/O addresses, as [`Worker::pop`] does.
    ///
    /// The windows of a chain that was popped are valid until it is pushed, even if the table
    /// changes. Only the mappings of the queue's available and used ring must stay until then.
    ///
    /// After [`Popped::Missing`] let go of the table, map the ranges of [`Worker::misses`], and pop
    /// again. Map a range that the IOMMU refuses with [`Access::None`](crate::Access::None), for
    /// that pop alone: then the chain gets its fault, or the queue its refusal.
    ///
    /// # Errors
    /// Those of [`Worker::pop`].
    pub fn pop(&mut self, queue: &mut Queue, memory: &dyn GuestMemory) -> Result<Popped, Status> {
        self.worker.misses.clear();
        self.worker.pop_next(queue, memory, true)
    }

    /// Pushes a chain that was popped with a table, as [`Worker::push`] does.
    ///
    /// # Errors
    /// - Those of [`Worker::push`]. `NotMapped`: a part of the rings isn't mapped any more.
    /// - `OtherTable`: the table has the used index elsewhere than the pop's. The worker keeps the
    ///   chain: lend the right table, and push again.
    pub fn push(&mut self, queue: &mut Queue, memory: &dyn GuestMemory) -> Result<Served, Status> {
        if !self.worker.chain.is_translated() {
            return Err(Status::WrongOrder);
        }
        self.worker.push_next(queue, memory)
    }

    /// Enables or disables notifications of the driver, as [`Worker::set_notification`] does.
    ///
    /// # Errors
    /// Those of [`Worker::set_notification`]. `NotMapped`: the table or the regions don't map the
    /// two bytes, and [`Worker::misses`] names their page.
    pub fn set_notification(
        &mut self,
        queue: &Queue,
        enabled: bool,
        memory: &dyn GuestMemory,
    ) -> Result<bool, Status> {
        self.worker.misses.clear();
        let stored = self.worker.store_notification(queue, enabled, memory, true);
        if stored == Err(Status::NotMapped) {
            let access = sys::access::WRITE;
            self.worker.miss(sys::Miss { at: queue.notification_address(), len: 2, access })?;
        }
        stored
    }

    /// Whether the chain that the worker has uses one of `len` I/O addresses from `iova` on, with
    /// its request or its reply buffer.
    pub fn uses(&mut self, iova: u64, len: u64) -> bool {
        self.worker.chain.uses(iova, len)
    }
}

impl Worker {
    /// Lends an IOMMU's table to the worker. One table serves all workers of a device.
    ///
    /// From then on the worker's addresses are I/O addresses, and mapped only while the table is
    /// lent. If the IOMMU is turned off, set the worker's memory again ([`Worker::set_memory`]).
    ///
    /// # Errors
    /// `WrongOrder`: no memory was set.
    ///
    /// # Examples
    /// ```
    /// # use pitskhomu::*;
    /// # use std::sync::Mutex;
    /// # fn translated(
    /// #     worker: &mut Worker,
    /// #     table: &Mutex<Iotlb>,
    /// #     queue: &mut Queue,
    /// #     memory: &dyn GuestMemory,
    /// #     ask: &dyn Fn(&Miss) -> Option<u64>,
    /// # ) -> Result<bool, Status> {
    /// loop {
    ///     let mut iotlb = table.lock().unwrap();
    ///     let popped = worker.lend(&mut iotlb)?.pop(queue, memory)?;
    ///     drop(iotlb); // others may use it while the IOMMU is asked
    ///     if popped != Popped::Missing {
    ///         return Ok(popped == Popped::Chain);
    ///     }
    ///     for miss in worker.misses() {
    ///         let guest = ask(miss).ok_or(Status::NotMapped)?;
    ///         table.lock().unwrap().map(miss.iova, miss.len, guest, miss.access)?;
    ///     }
    /// }
    /// # }
    /// ```
    pub fn lend<'w>(&'w mut self, iotlb: &'w mut Iotlb) -> Result<Lent<'w>, Status> {
        self.chain.exchange_iotlb(iotlb.place_mut())?;
        self.has_table = true;
        Ok(Lent { worker: self, iotlb })
    }

    /// What the last call of [`Lent::pop`] or [`Lent::set_notification`] missed: ranges of whole
    /// pages, by their addresses, which don't overlap. They are all that can be known before some
    /// of them are mapped, but at most 1,024. None if nothing was missed.
    #[must_use]
    pub fn misses(&self) -> &[Miss] {
        &self.misses
    }

    /// One miss more.
    fn miss(&mut self, miss: sys::Miss) -> Result<(), Status> {
        self.misses.try_reserve(1).map_err(|_| Status::OutOfMemory)?;
        self.misses.push(Miss::of_pages(miss));
        Ok(())
    }

    /// All misses of the pop that has just ended: its first, and those of the buffers of the
    /// descriptors that it gathered.
    pub(super) fn gather_misses(&mut self) -> Result<(), Status> {
        let sys::PopResult { miss_at: at, miss_len: len, miss_access: access, .. } = self.pop;
        self.miss(sys::Miss { at, len, access })?;
        let (mut index, mut from) = (0, 0);
        while self.misses.len() < MISSES {
            match self.chain.miss(index, from) {
                Missed::NoDescriptor => break,
                Missed::Nothing => (index, from) = (index + 1, 0),
                Missed::Range(found) => {
                    self.miss(found)?;
                    from = found.at.saturating_add(found.len);
                }
            }
        }
        self.merge_misses();
        Ok(())
    }

    /// Two buffers may share a page: each page is missed once.
    fn merge_misses(&mut self) {
        self.misses.sort_unstable_by_key(|miss| miss.iova);
        self.misses.dedup_by(|next, miss| {
            let is_new = next.iova - miss.iova >= miss.len;
            if !is_new {
                miss.len = miss.len.max((next.iova - miss.iova).saturating_add(next.len));
                miss.access = miss.access.or(next.access);
            }
            !is_new
        });
    }

    /// Keeps the windows of the chain that was popped.
    pub(super) fn keep_windows(&mut self, queue: &mut Queue) -> Result<(), Status> {
        self.chain.keep_windows(queue, &self.pop)
    }

    /// Reports written bytes by the guest addresses of the regions that have them.
    pub(super) fn mark_at(&self, memory: &dyn GuestMemory, written: Window) {
        for region in &self.layout {
            let offset = written.at.wrapping_sub(region.host) as u64;
            if offset < region.len {
                let len = (written.len as u64).min(region.len - offset);
                memory.mark(GuestRange { guest: region.guest + offset, len });
            }
        }
    }

    /// Reports the first bytes of the reply buffer of a chain that was popped with a table.
    pub(super) fn mark_windows(&mut self, memory: &dyn GuestMemory, written: u64) {
        let mut windows = [Window::default(); WINDOWS];
        let mut done = 0;
        while done < written {
            let found = self.chain.reply_windows(done, written - done, &mut windows);
            if found.is_empty() {
                break;
            }
            let count = found.len();
            for window in &windows[..count] {
                self.mark_at(memory, *window);
                done += window.len as u64;
            }
        }
    }
}
