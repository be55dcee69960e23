//! The guest's memory, by numbers. The library touches no memory: the worker asks the VMM for the
//! bytes.
use crate::slice::GuestSlice;
use core::sync::atomic::{fence, AtomicUsize, Ordering};

/// The guest's memory, addressed by the numbers of `Region::host`.
///
/// It finds bytes, and the worker copies them. A worker asks only for bytes of its regions. Other
/// code may call `get_slice` with any number, so check each. Mapped memory makes a slice of a
/// pointer, and the `unsafe` code for it has the duties of [`GuestSlice::new`]. Memory that is a
/// list of atomic bytes needs no `unsafe`, but is only for a guest that doesn't run while it is
/// served.
///
/// # Examples
/// [`MmapMemory`](crate::MmapMemory) maps files by itself. This one is over a mapping of yours:
/// ```
/// use pitskhomu::{GuestMemory, GuestSlice};
/// use std::sync::atomic::AtomicU8;
///
/// /// A guest's memory, mapped at one address: it is the number of the first byte.
/// struct Mapped {
///     at: *mut u8,
///     len: usize,
/// }
///
/// impl GuestMemory for Mapped {
///     fn get_slice(&self, at: usize, len: usize) -> Option<GuestSlice<'_>> {
///         let from = at.checked_sub(self.at as usize)?;
///         if from.checked_add(len)? > self.len {
///             return None;
///         }
///         // SAFETY: the bytes are mapped for reads and writes until `self` is dropped, and lie
///         // in it. This process has no reference to them, and accesses them by `GuestSlice`s
///         // alone.
///         Some(unsafe { GuestSlice::new(self.at.add(from), len) })
///     }
/// }
/// # let bytes: Vec<AtomicU8> = (0..8).map(AtomicU8::new).collect();
/// # let mapped = Mapped { at: bytes.as_ptr() as *mut u8, len: 8 };
/// # assert!(mapped.get_slice(mapped.at as usize + 8, 0).is_some());
/// # assert!(mapped.get_slice(mapped.at as usize + 8, 1).is_none());
/// # assert!(mapped.get_slice(usize::MAX, usize::MAX).is_none());
/// ```
pub trait GuestMemory {
    /// The `len` bytes from the number `at` on; `None` unless all of them are mapped in one
    /// stretch.
    ///
    /// A worker that doesn't get bytes of its own regions loads zeros in their place, and stores
    /// nothing. So keep memory mapped while a worker has regions of it. The worker accesses a
    /// ring's 16-bit number in one step if its address is even, as it is in mapped pages.
    fn get_slice(&self, at: usize, len: usize) -> Option<GuestSlice<'_>>;

    /// Whether the worker calls `mark`: true while a migration's log is on. The worker asks after
    /// its stores and a full barrier. So who turns the log on, and reads the memory after a full
    /// barrier, finds each store in the memory or in the log.
    fn is_logging(&self) -> bool {
        false
    }

    /// Marks the pages of these written bytes in the migration's log. The worker calls it after the
    /// stores and before the driver is notified, also for bytes that a file system wrote by
    /// windows. A range may go over the end of a page, and of a region into the next.
    fn mark(&self, _written: GuestRange) {}
}

/// Fills `bytes` from the number `at` on.
pub(crate) fn load(memory: &dyn GuestMemory, at: usize, bytes: &mut [u8]) {
    let loaded = memory.get_slice(at, bytes.len()).map_or(0, |slice| slice.load(bytes));
    bytes[loaded..].fill(0);
}

/// Stores bytes from the number `at` on.
pub(crate) fn store(memory: &dyn GuestMemory, at: usize, bytes: &[u8]) {
    if let Some(slice) = memory.get_slice(at, bytes.len()) {
        slice.store(bytes);
    }
}

/// Loads a 16-bit number of a ring, at an even address.
pub(crate) fn load_u16(memory: &dyn GuestMemory, at: usize) -> u16 {
    debug_assert_eq!(at % 2, 0);
    memory.get_slice(at, 2).map_or(0, |slice| slice.load_u16())
}

/// Stores a 32-bit number of a ring.
pub(crate) fn store_u32(memory: &dyn GuestMemory, at: usize, number: u32) {
    if let Some(slice) = memory.get_slice(at, 4) {
        slice.store_u32(number);
    }
}

/// Stores a 16-bit number of a ring, at an even address.
pub(crate) fn store_u16(memory: &dyn GuestMemory, at: usize, number: u16) {
    debug_assert_eq!(at % 2, 0);
    if let Some(slice) = memory.get_slice(at, 2) {
        slice.store_u16(number);
    }
}

/// A full barrier: a load after it happens once the guest, and other threads, can see each store
/// before it.
pub(crate) fn full_barrier() {
    #[cfg(test)]
    tests::BARRIERS.with(|count| count.set(count.get() + 1));
    fence(Ordering::SeqCst);
}

/// A stretch of the guest's memory (struct `pk_region`). All three numbers are multiples of 4096.
#[repr(C)]
#[derive(Clone, Copy, Debug, Default, PartialEq, Eq)]
pub struct Region {
    /// Its first guest address.
    pub guest: u64,
    /// Its length in bytes, not 0.
    pub len: u64,
    /// The number of its first byte in `GuestMemory`, for example its address in this process, its
    /// guest address, or an offset.
    pub host: usize,
}

/// How often any worker's regions were set.
static SET: AtomicUsize = AtomicUsize::new(0);

/// The number of a worker's new regions, greater than all before. Equal regions may lie over
/// different memory, so only this number shows that the memory may have changed.
pub(crate) fn next_regions() -> usize {
    SET.fetch_add(1, Ordering::Relaxed) + 1
}

/// `len` bytes of memory from the number `at` on (struct `pk_window`), with the layout of struct
/// iovec.
#[repr(C)]
#[derive(Clone, Copy, Debug, Default, PartialEq, Eq)]
pub struct Window {
    /// The number of the first byte, by a region's `host`.
    pub at: usize,
    /// The length in bytes.
    pub len: usize,
}

/// `len` bytes of the guest from a guest address on (struct `pk_range`).
#[repr(C)]
#[derive(Clone, Copy, Debug, Default, PartialEq, Eq)]
pub struct GuestRange {
    /// The guest address of the first byte.
    pub guest: u64,
    /// The length in bytes.
    pub len: u64,
}

#[cfg(test)]
pub(crate) mod tests {
    std::thread_local! {
        /// How many full barriers this thread had.
        pub(crate) static BARRIERS: core::cell::Cell<u32> = const { core::cell::Cell::new(0) };
    }
}
