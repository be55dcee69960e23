//! The calls of the library, each behind a safe function.
//!
//! Each `unsafe` block must keep the header's first rule and its section THREADS. Rust's borrows
//! keep both. Handles, queues and records are borrowed, so they are valid and don't overlap. Slices
//! are valid for their lengths, and their pointers aren't NULL. Anything that a call changes is
//! borrowed mutably, so no other code uses it during the call. No call keeps a pointer or returns
//! one.
#![allow(unsafe_code)]

mod records;
mod tables;

use crate::errno::Errno;
use crate::kept::KeptWindows;
use crate::memory::{GuestRange, Region, Window};
use crate::queue::Queue;
use crate::status::Status;
use crate::sys::{self, state, status};
use crate::CStr;
use core::ptr;
pub(crate) use records::{restore, save};
pub(crate) use tables::{free_iotlb, map_iotlb, new_iotlb, unmap_iotlb};

/// How far the handle's chain is.
#[derive(Clone, Copy, Debug, PartialEq, Eq)]
pub(crate) enum Progress {
    /// There is none, or its pop or its push is under way.
    Free,
    /// It was popped.
    Popped,
    /// It was decoded, and its call needs a reply.
    Decoded,
    /// Its reply is known, or it gets none.
    Replied,
}

/// The result of a call of `pop`.
pub(crate) enum PopStep {
    /// The pop needs a load.
    Load,
    /// No chain is available.
    Idle,
    /// The chain is in flight.
    InFlight,
    /// The table that is lent doesn't map what the pop needs.
    Missed,
}

/// The result of `miss`.
pub(crate) enum Missed {
    /// These addresses.
    Range(sys::Miss),
    /// The descriptor misses none from there on.
    Nothing,
    /// The pop gathered no descriptor with this index.
    NoDescriptor,
}

/// The result of `decode`.
pub(crate) enum Decoded {
    /// A call, or none.
    Call,
    /// It needs this many bytes of the request, from its start.
    More(usize),
}

/// The result of an answer.
#[derive(Clone, Copy, Debug, PartialEq, Eq)]
pub(crate) enum Replied {
    /// A reply.
    Whole,
    /// The reply buffer is too small: the chain is returned without a reply.
    NoRoom,
    /// The listing failed, but the guest already holds nodes of its entries: the reply has the
    /// entries so far.
    Entries,
}

/// The result of an entry of a listing.
#[derive(Clone, Copy, Debug, PartialEq, Eq)]
pub(crate) enum Added {
    /// It is in the list.
    In,
    /// It doesn't fit in the size that the guest asked for.
    Full,
    /// It fits there, but not in the reply buffer.
    NoRoom,
}

/// The handle of the library (struct `pk_chain`), and the ticket of the chain in flight, which each
/// answer passes. A worker answers a chain before it takes another, so no answer is late.
#[derive(Debug)]
pub(crate) struct Chain {
    handle: sys::Chain,
    ticket: u32,
    /// The library's state of the handle, as its last call left it.
    progress: Progress,
    /// The windows of a chain that was popped with a table. They are valid until it is returned,
    /// even if the table changes.
    kept: Option<KeptWindows>,
}

// SAFETY: the handle's memory is from malloc, and the library keeps no state of a thread
// (pitskhomu.h, THREADS).
unsafe impl Send for Chain {}

impl Drop for Chain {
    fn drop(&mut self) {
        // SAFETY: as the module says; it does nothing to a handle of zeros.
        unsafe { sys::pk_chain_free(&mut self.handle) }
    }
}

impl Chain {
    pub const fn new() -> Chain {
        let handle = sys::Chain { at: ptr::null_mut(), state: 0 };
        Chain { handle, ticket: 0, progress: Progress::Free, kept: None }
    }

    /// The ticket, for tests of a wrong one.
    #[cfg(test)]
    pub fn ticket_mut(&mut self) -> &mut u32 {
        &mut self.ticket
    }

    pub fn progress(&self) -> Progress {
        debug_assert_eq!(self.progress, self.state());
        self.progress
    }

    /// The library's own word for it.
    fn state(&self) -> Progress {
        // SAFETY: as the module says.
        match unsafe { sys::pk_chain_state(&self.handle) } {
            state::POPPED => Progress::Popped,
            state::DECODED | state::LISTING => Progress::Decoded,
            state::REPLIED => Progress::Replied,
            _ => Progress::Free,
        }
    }

    pub fn set_memory(&mut self, device: &sys::Device, regions: &[Region]) -> Result<(), Status> {
        // SAFETY: as the module says.
        Status::check(unsafe {
            sys::pk_chain_set_memory(&mut self.handle, device, regions.as_ptr(), regions.len())
        })
    }

    /// `loaded` has the bytes of the load that the last call asked for; none at the first call.
    pub fn pop(
        &mut self,
        queue: &mut Queue,
        loaded: &[u8],
        pop: &mut sys::PopResult,
    ) -> Result<PopStep, Status> {
        // SAFETY: as the module says.
        let status = unsafe {
            sys::pk_pop(&mut self.handle, queue.numbers_mut(), loaded.as_ptr(), loaded.len(), pop)
        };
        self.popped(status, pop)
    }

    /// Begins a pop. `bytes` has those of the loads that were made ahead, one after another.
    pub fn pop_ahead(
        &mut self,
        queue: &mut Queue,
        ahead: &[sys::LoadAhead],
        bytes: &[u8],
        pop: &mut sys::PopResult,
    ) -> Result<PopStep, Status> {
        // SAFETY: as the module says.
        let status = unsafe {
            sys::pk_pop_ahead(
                &mut self.handle,
                queue.numbers_mut(),
                ahead.as_ptr(),
                ahead.len(),
                bytes.as_ptr(),
                bytes.len(),
                pop,
            )
        };
        self.popped(status, pop)
    }

    /// The result of a pop that ended with this status.
    fn popped(&mut self, status: u32, pop: &sys::PopResult) -> Result<PopStep, Status> {
        match status {
            status::DONE => {
                self.ticket = pop.ticket;
                self.progress = if pop.fault == 0 { Progress::Popped } else { Progress::Replied };
                Ok(PopStep::InFlight)
            }
            status::IDLE => Ok(PopStep::Idle),
            status::MISS => Ok(PopStep::Missed),
            status::LOAD => Ok(PopStep::Load),
            number => Err(Status::of(number)),
        }
    }

    /// Exchanges the handle's table with that of the place.
    pub fn exchange_iotlb(&mut self, place: &mut sys::Iotlb) -> Result<(), Status> {
        // SAFETY: as the module says.
        Status::check(unsafe { sys::pk_chain_exchange_iotlb(&mut self.handle, place) })
    }

    /// The first addresses of a descriptor that the table doesn't map, from one on.
    pub fn miss(&mut self, index: usize, from: u64) -> Missed {
        let mut miss = sys::Miss::default();
        // SAFETY: as the module says.
        match unsafe { sys::pk_find_miss(&mut self.handle, index, from, &mut miss) } {
            status::MISS => Missed::Range(miss),
            status::DONE => Missed::Nothing,
            _ => Missed::NoDescriptor,
        }
    }

    /// Whether the chain's buffers have one of these I/O addresses.
    pub fn uses(&mut self, iova: u64, len: u64) -> bool {
        // SAFETY: as the module says.
        unsafe { sys::pk_uses(&mut self.handle, iova, len) == 1 }
    }

    /// Keeps the windows of the chain that was popped. If they can't be kept the pop is undone.
    pub fn keep_windows(&mut self, queue: &mut Queue, pop: &sys::PopResult) -> Result<(), Status> {
        self.kept = None;
        match KeptWindows::of(self, pop) {
            Ok(kept) => {
                self.kept = Some(kept);
                Ok(())
            }
            Err(status) => {
                self.unpop(queue)?;
                Err(status)
            }
        }
    }

    /// Undoes the pop of a chain that wasn't decoded.
    pub fn unpop(&mut self, queue: &mut Queue) -> Result<(), Status> {
        // SAFETY: as the module says.
        Status::check(unsafe { sys::pk_drop(&mut self.handle, queue.numbers_mut()) })?;
        (self.kept, self.progress) = (None, Progress::Free);
        Ok(())
    }

    /// Forgets the windows: the chain is returned.
    pub fn forget_windows(&mut self) {
        self.kept = None;
    }

    /// Whether the chain was popped with a table.
    pub fn is_translated(&self) -> bool {
        self.kept.is_some()
    }

    /// Frees the handle without its queue.
    pub fn abandon(&mut self) {
        (self.kept, self.progress) = (None, Progress::Free);
        // SAFETY: as the module says.
        unsafe { sys::pk_abandon(&mut self.handle) }
    }

    /// The store that enables or disables notifications of the driver.
    pub fn set_notification(&mut self, queue: &Queue, enabled: bool) -> Result<sys::Store, Status> {
        let mut store = sys::Store::default();
        // SAFETY: as the module says.
        Status::check(unsafe {
            sys::pk_set_notification(&mut self.handle, queue.numbers(), enabled.into(), &mut store)
        })?;
        Ok(store)
    }

    pub fn request_windows<'w>(
        &mut self,
        from: u64,
        len: u64,
        windows: &'w mut [Window],
    ) -> &'w [Window] {
        if let Some(kept) = &self.kept {
            return kept.request.fill(from, len, windows);
        }
        // SAFETY: as the module says; it fills at most the slice.
        let count = unsafe {
            sys::pk_request_windows(
                &mut self.handle,
                from,
                len,
                windows.as_mut_ptr(),
                windows.len(),
            )
        };
        windows.get(..count).unwrap_or_default()
    }

    pub fn reply_windows<'w>(
        &mut self,
        from: u64,
        len: u64,
        windows: &'w mut [Window],
    ) -> &'w [Window] {
        if let Some(kept) = &self.kept {
            return kept.reply.fill(from, len, windows);
        }
        // SAFETY: as of `request_windows`.
        let count = unsafe {
            sys::pk_reply_windows(&mut self.handle, from, len, windows.as_mut_ptr(), windows.len())
        };
        windows.get(..count).unwrap_or_default()
    }

    pub fn reply_ranges<'r>(
        &mut self,
        from: u64,
        len: u64,
        ranges: &'r mut [GuestRange],
    ) -> &'r [GuestRange] {
        // SAFETY: as of `request_windows`.
        let count = unsafe {
            sys::pk_reply_ranges(&mut self.handle, from, len, ranges.as_mut_ptr(), ranges.len())
        };
        ranges.get(..count).unwrap_or_default()
    }

    pub fn decode(
        &mut self,
        device: &sys::Device,
        request: &[u8],
        call: &mut sys::Call,
    ) -> Result<Decoded, Status> {
        // SAFETY: as the module says.
        let status = unsafe {
            sys::pk_decode(&mut self.handle, device, request.as_ptr(), request.len(), call)
        };
        self.progress = self.state();
        match status {
            status::DONE => Ok(Decoded::Call),
            status::MORE => Ok(Decoded::More(call.needed as usize)),
            number => Err(Status::of(number)),
        }
    }

    pub fn reply_done(&mut self) -> Result<Replied, Status> {
        // SAFETY: as the module says.
        replied(&mut self.progress, unsafe { sys::pk_reply_err(&mut self.handle, self.ticket, 0) })
    }

    pub fn reply_error(&mut self, error: Errno) -> Result<Replied, Status> {
        // SAFETY: as the module says.
        replied(&mut self.progress, unsafe {
            sys::pk_reply_err(&mut self.handle, self.ticket, error.number())
        })
    }

    pub fn reply_entry(&mut self, entry: &sys::Entry) -> Result<Replied, Status> {
        // SAFETY: as the module says.
        replied(&mut self.progress, unsafe {
            sys::pk_reply_entry(&mut self.handle, self.ticket, entry)
        })
    }

    pub fn reply_create(
        &mut self,
        entry: &sys::Entry,
        handle: u64,
        options: u32,
    ) -> Result<Replied, Status> {
        // SAFETY: as the module says.
        replied(&mut self.progress, unsafe {
            sys::pk_reply_create(&mut self.handle, self.ticket, entry, handle, options)
        })
    }

    pub fn reply_attributes(
        &mut self,
        attr: &sys::Attr,
        secs: u64,
        nanos: u32,
    ) -> Result<Replied, Status> {
        // SAFETY: as the module says.
        replied(&mut self.progress, unsafe {
            sys::pk_reply_attr(&mut self.handle, self.ticket, attr, secs, nanos)
        })
    }

    pub fn reply_open(&mut self, handle: u64, options: u32) -> Result<Replied, Status> {
        // SAFETY: as the module says.
        replied(&mut self.progress, unsafe {
            sys::pk_reply_open(&mut self.handle, self.ticket, handle, options)
        })
    }

    pub fn reply_data(&mut self, len: u64) -> Result<Replied, Status> {
        // SAFETY: as the module says.
        replied(&mut self.progress, unsafe {
            sys::pk_reply_data(&mut self.handle, self.ticket, len)
        })
    }

    pub fn reply_xattr(&mut self, len: u32) -> Result<Replied, Status> {
        // SAFETY: as the module says.
        replied(&mut self.progress, unsafe {
            sys::pk_reply_xattr(&mut self.handle, self.ticket, len)
        })
    }

    pub fn reply_write(&mut self, count: u32) -> Result<Replied, Status> {
        // SAFETY: as the module says.
        replied(&mut self.progress, unsafe {
            sys::pk_reply_write(&mut self.handle, self.ticket, count)
        })
    }

    pub fn reply_statfs(&mut self, statfs: &sys::Statfs) -> Result<Replied, Status> {
        // SAFETY: as the module says.
        replied(&mut self.progress, unsafe {
            sys::pk_reply_statfs(&mut self.handle, self.ticket, statfs)
        })
    }

    pub fn reply_lseek(&mut self, offset: u64) -> Result<Replied, Status> {
        // SAFETY: as the module says.
        replied(&mut self.progress, unsafe {
            sys::pk_reply_lseek(&mut self.handle, self.ticket, offset)
        })
    }

    pub fn reply_init(&mut self, device: &mut sys::Device, wanted: u64) -> Result<Replied, Status> {
        // SAFETY: as the module says.
        replied(&mut self.progress, unsafe {
            sys::pk_reply_init(&mut self.handle, self.ticket, device, wanted)
        })
    }

    pub fn add(
        &mut self,
        list: &mut [u8],
        name: &[u8],
        inode: u64,
        next: u64,
        kind: u32,
    ) -> Result<Added, Status> {
        let (at, len) = (list.as_mut_ptr(), list.len());
        // SAFETY: as the module says; list and name don't overlap, for the list is borrowed
        // mutably.
        let number = unsafe {
            sys::pk_add_direntry(
                &mut self.handle,
                self.ticket,
                at,
                len,
                name.as_ptr(),
                name.len(),
                inode,
                next,
                kind,
            )
        };
        added(number)
    }

    pub fn add_entry(
        &mut self,
        list: &mut [u8],
        name: &[u8],
        entry: &sys::Entry,
        next: u64,
    ) -> Result<Added, Status> {
        let (at, len) = (list.as_mut_ptr(), list.len());
        // SAFETY: as of `add`.
        let number = unsafe {
            sys::pk_add_direntry_plus(
                &mut self.handle,
                self.ticket,
                at,
                len,
                name.as_ptr(),
                name.len(),
                entry,
                next,
            )
        };
        added(number)
    }

    /// The caller knows how long the list is.
    pub fn reply_entries(&mut self) -> Result<Replied, Status> {
        let mut len = 0;
        // SAFETY: as the module says.
        replied(&mut self.progress, unsafe {
            sys::pk_reply_entries(&mut self.handle, self.ticket, &mut len)
        })
    }

    /// The reply is the `len` bytes that the caller stored in the reply buffer.
    pub fn reply_bytes(&mut self, len: u64) -> Result<(), Status> {
        // SAFETY: as the module says.
        Status::check(unsafe { sys::pk_reply_bytes(&mut self.handle, self.ticket, len) })?;
        self.progress = Progress::Replied;
        Ok(())
    }

    pub fn push(&mut self, queue: &mut Queue, front: &mut [u8]) -> Result<sys::Stores, Status> {
        let mut stores = sys::Stores::default();
        // SAFETY: as the module says.
        let pushed = Status::check(unsafe {
            sys::pk_push(
                &mut self.handle,
                queue.numbers_mut(),
                front.as_mut_ptr(),
                front.len(),
                &mut stores,
            )
        });
        self.progress = if pushed.is_ok() { Progress::Free } else { self.state() };
        pushed.map(|()| stores)
    }

    /// Whether to notify the driver.
    pub fn pushed(&mut self, queue: &mut Queue, seen: u16) -> Result<bool, Status> {
        let mut notify = 0;
        // SAFETY: as the module says.
        Status::check(unsafe {
            sys::pk_pushed(&mut self.handle, queue.numbers_mut(), seen, &mut notify)
        })?;
        Ok(notify != 0)
    }
}

/// The result of an answer. A refused one changes nothing.
fn replied(progress: &mut Progress, number: u32) -> Result<Replied, Status> {
    let replied = match number {
        status::DONE => Replied::Whole,
        status::NO_ROOM => Replied::NoRoom,
        status::ENTRIES => Replied::Entries,
        _ => return Err(Status::of(number)),
    };
    *progress = Progress::Replied;
    Ok(replied)
}

fn added(number: u32) -> Result<Added, Status> {
    match number {
        status::DONE => Ok(Added::In),
        status::FULL => Ok(Added::Full),
        status::LIST_FAILS => Ok(Added::NoRoom),
        _ => Err(Status::of(number)),
    }
}

/// Resets a queue.
pub(crate) fn begin(queue: &mut sys::Queue, position: u16) -> Result<(), Status> {
    // SAFETY: as the module says.
    Status::check(unsafe { sys::pk_queue_begin(queue, position) })
}

/// The archive's `PK_VERSION`.
pub(crate) fn version() -> u32 {
    // SAFETY: it takes nothing.
    unsafe { sys::pk_version() }
}

/// What the archive is.
pub(crate) fn build() -> &'static str {
    // SAFETY: it takes nothing, and returns a text that ends with a zero byte and stays.
    unsafe { CStr::from_ptr(sys::pk_build().cast()) }.to_str().unwrap_or_default()
}

/// Whether a name is one component of a path.
pub(crate) fn is_name(name: &[u8]) -> bool {
    // SAFETY: as the module says.
    unsafe { sys::pk_is_name(name.as_ptr(), name.len()) == 1 }
}
