//! The device's side of virtio-fs (VIRTIO 1.2, 2.7 and 5.11; FUSE 7.38): a safe wrapper of
//! Pitskhomu's proved C library.
//!
//! The library walks the split virtqueue, decodes each FUSE request, and lays out each reply; it
//! touches no memory, no file and no clock. This crate has the loop around it:
//!
//! - [`GuestMemory`] finds the guest's memory. The worker copies it, since the guest runs at the
//!   same time. [`MmapMemory`](struct.MmapMemory.html) is one over mmap. Only [`GuestSlice::new`],
//!   which makes a slice of a pointer, is `unsafe`.
//! - [`FileSystem`] is the file system that the guest mounts: a method for each call, with a
//!   default for all but two. Or each call is a value, a [`Request`], with a [`Reply`] object that
//!   takes its answer later, on any thread ([`Worker::take`]).
//! - A [`Worker`] on each thread serves a [`Queue`] of its own, or one that several workers serve
//!   ([`Worker::pop`]); all share a [`Device`].
//!
//! # Examples
//! ```no_run
//! use pitskhomu::{Device, FileSystem, GuestMemory, Queue, QueueLayout, Region, Status, Worker};
//!
//! fn serve_all(
//!     worker: &mut Worker,
//!     queue: &mut Queue,
//!     device: &Device,
//!     file_system: &dyn FileSystem,
//!     memory: &dyn GuestMemory,
//! ) -> Result<bool, Status> {
//!     let mut notify = false;
//!     while let Some(served) = worker.serve(queue, device, file_system, memory)? {
//!         notify |= served.notify;
//!     }
//!     Ok(notify) // whether to interrupt the driver
//! }
//!
//! # fn begin(file_system: &dyn FileSystem, memory: &dyn GuestMemory) -> Result<(), Status> {
//! let device = Device::default();
//! let mut worker = Worker::new();
//! worker.set_memory(&device, &[Region { guest: 0, len: 0x10_0000, host: 0 }])?;
//! let layout = QueueLayout { size: 64, descriptors: 0x1000, available: 0x2000, used: 0x3000 };
//! let mut queue = Queue::new(layout, 0)?;
//! serve_all(&mut worker, &mut queue, &device, file_system, memory)?;
//! # Ok(())
//! # }
//! ```
//!
//! The module [`live`](live/index.html) has the loop beside a running guest: threads, event
//! descriptors, and the rules by which no notification is lost.
//!
//! Each function of the library is proved, for any bytes that the guest writes (docs/PROVED.md of
//! the repository). This crate is tested, not proved. The example `monitor` has a file system and a
//! guest in memory.
//!
//! # Features
//! - `live`, on by default: the module of this name. It needs `std`.
//! - `std`: makes an [`Errno`] of a `std::io::Error`, and makes it and [`Status`] errors; on Linux
//!   [`MmapMemory`], and READ and WRITE by system calls. Without it the crate is `no_std` with
//!   `alloc`.
//! - `testing`: the module of this name, a guest for tests of your file system. Name the crate with
//!   this feature among your dev-dependencies.
#![no_std]
#![deny(missing_docs, missing_debug_implementations, unsafe_code, unsafe_op_in_unsafe_fn)]

extern crate alloc;
#[cfg(feature = "std")]
extern crate std;

mod cancelled;
mod chain;
mod data;
mod device;
mod errno;
mod exchange;
mod file_system;
#[cfg(all(feature = "std", target_os = "linux", target_pointer_width = "64"))]
mod files;
mod flags;
mod iotlb;
mod kept;
mod listing;
#[cfg(all(feature = "live", target_os = "linux"))]
pub mod live;
mod lock;
mod memory;
#[cfg(all(feature = "std", target_os = "linux", target_pointer_width = "64"))]
mod mmap;
mod operation;
pub mod prelude;
mod queue;
mod reply;
mod requests;
mod slice;
mod status;
mod sys;
#[cfg(feature = "testing")]
pub mod testing;
mod values;
mod worker;

#[cfg(not(feature = "std"))]
use alloc::ffi::CString;
#[cfg(not(feature = "std"))]
pub use core::ffi::CStr;
#[cfg(feature = "std")]
pub use std::ffi::CStr;
#[cfg(feature = "std")]
use std::ffi::CString;

pub use cancelled::{Cancelled, Undo};
pub use data::{ReadData, WriteData};
pub use device::Device;
pub use errno::{Answer, Errno};
pub use exchange::Exchange;
pub use file_system::FileSystem;
pub use flags::{AccessMask, FileKind, OpenOptions, Options, RenameFlags, SetAttributesValid};
pub use iotlb::{Access, Iotlb, Miss};
pub use listing::{Entries, Listing};
pub use memory::{GuestMemory, GuestRange, Region, Window};
#[cfg(all(feature = "std", target_os = "linux", target_pointer_width = "64"))]
pub use mmap::MmapMemory;
pub use operation::{Operation, OwnedCall, OwnedRequest, Request};
pub use queue::{Queue, QueueLayout};
pub use reply::{Reply, Response, Unsent};
pub use requests::{
    Allocate, Child, CopyFileRange, Create, FilePlace, Forgets, Init, Label, MakeDirectory,
    MakeNode, Open, ReadDirectory, ReadFile, Release, SeekFile, SetAttributes, SetTime, SetValues,
    SetXattr, WriteFile,
};
pub use slice::GuestSlice;
pub use status::{Fault, RequestFault, Status};
pub use values::{
    Attributes, Context, DirectoryEntry, Entry, GuestTime, Handle, Node, Opened, RequestId,
    Statistics, Time,
};
pub use worker::{Lent, Popped, Served, Worker};

/// The version of pitskhomu.h that this crate follows (`PK_VERSION`): the major number, shifted
/// left by 16 bits, and the minor one.
pub const VERSION: u32 = sys::VERSION;

/// The version of the linked archive, which may be of another release: [`is_compatible`] compares
/// it with [`VERSION`].
#[must_use]
pub fn version() -> u32 {
    chain::version()
}

/// Whether the linked archive has all that this crate calls (`pk_is_compatible`): the major numbers
/// are the same, and the archive's minor number isn't less. Ask once, before the first call.
#[must_use]
pub fn is_compatible() -> bool {
    runs_with(VERSION, version())
}

/// Whether a program of this version of the header runs with a library of that one.
const fn runs_with(program: u32, library: u32) -> bool {
    library >> 16 == program >> 16 && library >= program
}

/// What the linked archive is, for logs: its release and commit, and the logic that proved it or
/// "NOT PROVED".
#[must_use]
pub fn build() -> &'static str {
    chain::build()
}

/// Whether a name is one component of a path. If not, it is empty, `.` or `..`, or has a slash or a
/// zero byte. The name may still be that of a symbolic link, which leads elsewhere.
#[must_use]
pub fn is_name(name: &[u8]) -> bool {
    chain::is_name(name)
}

#[cfg(test)]
mod tests {
    use super::{is_compatible, runs_with, version, VERSION};

    // A program runs with each later library of its major number, and with no other.
    #[test]
    #[allow(clippy::absurd_extreme_comparisons)] // the header's minor number may be 0
    fn a_later_library_of_the_same_major_number_is_compatible() {
        for library in 0..0x5_0000 {
            let (major, minor) = (library >> 16, library & 0xffff);
            assert_eq!(runs_with(0x2_0005, library), major == 2 && minor >= 5, "{library:#x}");
        }
        assert!(runs_with(0xffff_ffff, 0xffff_ffff) && !runs_with(0xffff_fffe, 0x1_ffff));
        assert_eq!(is_compatible(), version() >> 16 == 1 && version() & 0xffff >= VERSION & 0xffff);
    }
}
