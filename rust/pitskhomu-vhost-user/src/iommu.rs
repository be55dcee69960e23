//! A vIOMMU in front of the device: the driver's addresses are I/O addresses then, rings too
//! (`VIRTIO_F_ACCESS_PLATFORM` in `SET_FEATURES`). The front-end says what they mean, one after
//! another (`VHOST_USER_IOTLB_MSG`), and the queues' threads ask for those that they miss, over a
//! channel of the back-end's own.
//!
//! Locks are taken in this order: a ring's, the channel's, the table's. None is held while a thread
//! awaits an answer. So the thread that answers the front-end may take each of them: QEMU answers
//! no miss while it waits for that thread.
mod channel;
mod mappings;
pub mod messages;

use crate::memory::Table;
use crate::ring::Ring;
pub use channel::{Cancel, Channel};
use log::{debug, info};
pub use mappings::Mappings;
pub use messages::{answer_next, Outcome};
use pitskhomu::{Access, Iotlb, Miss, Status};
use std::sync::atomic::{AtomicBool, Ordering};
use std::sync::{Arc, Mutex, MutexGuard, PoisonError};

/// The first address of the last page. The library's mappings end below 2^64, so none has it.
pub const LAST_PAGE: u64 = !(Iotlb::PAGE - 1);

/// What an IOMMU does for one device.
#[derive(Debug, Default)]
pub struct Iommu {
    is_on: AtomicBool,
    mappings: Mutex<Mappings>,
    /// The channel of the back-end's own.
    pub channel: Arc<Channel>,
}

impl Iommu {
    /// Whether the driver's addresses are I/O addresses.
    pub fn is_on(&self) -> bool {
        self.is_on.load(Ordering::Acquire)
    }

    /// The table. It is locked for a pop or a push, and never while somebody waits.
    pub fn lock(&self) -> MutexGuard<'_, Mappings> {
        self.mappings.lock().unwrap_or_else(PoisonError::into_inner)
    }

    /// `SET_FEATURES` says whether there is an IOMMU. What was known is forgotten, but for rings
    /// with chains in flight: QEMU reports no change while the device is stopped.
    pub fn set(&self, is_on: bool) -> Result<(), Status> {
        if is_on {
            self.channel.begin();
            self.lock().begin()?;
        } else if self.is_on() {
            self.lock().forget();
        }
        if is_on && !self.is_on() {
            info!("an IOMMU translates the addresses of the device");
        }
        self.is_on.store(is_on, Ordering::Release);
        Ok(())
    }

    /// The guest physical address that an address of the driver means, if it is known.
    pub fn guest_address(&self, address: u64) -> Option<u64> {
        if self.is_on() {
            self.lock().guest_address(address)
        } else {
            Some(address)
        }
    }

    /// Asks the front-end for all missed pages, and waits for its answers. Returns the pages that
    /// it refuses; `None` if it doesn't answer, or the asks were cancelled.
    pub fn ask(&self, misses: &[Miss], cancel: &Cancel) -> Option<Vec<u64>> {
        let is_known = |page| self.lock().guest_address(page).is_some();
        self.channel.ask(misses, cancel, is_known)
    }

    /// The front-end stops a ring.
    pub fn hush(&self) {
        if self.is_on() {
            self.channel.hush();
        }
    }

    /// From here on the ring's threads don't wait for answers.
    pub fn cancel(&self, ring: &Ring) {
        self.channel.cancel(&ring.asking);
    }

    /// An update of the front-end's: `user` is an address of its own.
    fn update(
        &self,
        memory: &Table,
        iova: u64,
        len: u64,
        user: u64,
        access: Access,
    ) -> Result<(), &'static str> {
        if (iova | len | user) % Iotlb::PAGE != 0 || len == 0 || access == Access::None {
            return Err("numbers that no mapping has");
        }
        if iova.checked_add(len).is_none() {
            return Err("I/O addresses past the last one");
        }
        let pieces = memory.guest_ranges(user, len).ok_or("an address outside the memory")?;
        let (mut table, mut at) = (self.lock(), iova);
        for (guest, len) in pieces {
            table.update(at, len, guest, access).map_err(|_| "no memory for a mapping")?;
            at += len;
        }
        drop(table);
        self.channel.wake();
        Ok(())
    }

    /// The mappings of these addresses are gone. QEMU's main loop waits until this is
    /// answered, so nobody is waited for.
    fn invalidate(&self, iova: u64, len: u64) -> Result<(), &'static str> {
        // QEMU says the whole space by a mask, whose length it has no number for.
        let last = match (iova, len) {
            (0, 0) => u64::MAX,
            (_, 0) => return Err("no address"),
            _ => iova.checked_add(len - 1).ok_or("I/O addresses past the last one")?,
        };
        self.lock().invalidate(iova, last);
        debug!("I/O addresses {iova:#x} to {last:#x} are unmapped");
        Ok(())
    }
}
