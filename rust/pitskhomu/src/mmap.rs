//! The guest's memory as this process maps it (mmap of Linux).
#![allow(unsafe_code)]

use crate::memory::{GuestMemory, Region};
use crate::slice::GuestSlice;
use alloc::vec::Vec;
use core::ptr;
use std::fs::File;
use std::io;
use std::os::raw::{c_int, c_void};
use std::os::unix::io::AsRawFd;

/// `PROT_READ | PROT_WRITE`, `MAP_SHARED`, `MAP_ANONYMOUS` and `MAP_NORESERVE` of sys/mman.h.
const PROTECTION: c_int = 1 | 2;
const SHARED: c_int = 1;
const ANONYMOUS: c_int = 0x20;
const NO_RESERVE: c_int = 0x4000;
/// All numbers of a region are multiples of this.
const PAGE: u64 = 4096;

extern "C" {
    fn mmap(
        at: *mut c_void,
        len: usize,
        protection: c_int,
        flags: c_int,
        fd: c_int,
        offset: i64,
    ) -> *mut c_void;
    fn munmap(at: *mut c_void, len: usize) -> c_int;
}

/// `len` bytes that are mapped for reads and writes, until this is dropped.
#[derive(Debug)]
struct Mapping {
    at: *mut u8,
    len: usize,
    guest: u64,
}

// SAFETY: the mapping is this value's own, and any thread may unmap it.
unsafe impl Send for Mapping {}
// SAFETY: a shared reference gives out numbers and `GuestSlice`s alone.
unsafe impl Sync for Mapping {}

impl Drop for Mapping {
    fn drop(&mut self) {
        // SAFETY: the bytes are mapped, and all slices of them, which borrow this, are gone.
        unsafe { munmap(self.at.cast(), self.len) };
    }
}

/// The guest's memory as this process maps it: parts of files, such as memfds that a VMM shares, or
/// memory without a file. The number of a byte (`Region::host`) is its address in this process. For
/// vm-memory's `GuestMemoryMmap` there is the crate `pitskhomu-vm-memory`.
///
/// # Examples
/// ```
/// use pitskhomu::{GuestMemory, MmapMemory};
///
/// # fn main() -> std::io::Result<()> {
/// let mut memory = MmapMemory::new();
/// memory.allocate(0, 0x8000)?;
/// memory.allocate(1 << 32, 0x4000)?; // or `map`, of a file
/// let regions = memory.regions(); // for `Worker::set_memory` and `live::Builder::new`
/// assert_eq!((regions[1].guest, regions[1].len), (1 << 32, 0x4000));
/// let slice = memory.get_slice(regions[1].host + 0x3ffe, 2).expect("the last two bytes");
/// slice.store(&[7, 8]);
/// assert!(memory.get_slice(regions[1].host + 0x3fff, 2).is_none());
/// # Ok(())
/// # }
/// ```
#[derive(Debug, Default)]
pub struct MmapMemory {
    /// By their addresses.
    mappings: Vec<Mapping>,
}

fn invalid(why: &'static str) -> io::Error {
    io::Error::new(io::ErrorKind::InvalidInput, why)
}

impl MmapMemory {
    /// No memory.
    #[must_use]
    pub fn new() -> MmapMemory {
        MmapMemory::default()
    }

    /// Maps `len` bytes of a file, from the byte `offset` on, as the guest's memory from the
    /// address `guest` on. The guest, and each process that has mapped them too, see the stores. If
    /// somebody makes the file shorter, an access to the bytes that are gone is SIGBUS: let nobody
    /// do that (`F_SEAL_SHRINK` of a memfd).
    ///
    /// # Errors
    /// `InvalidInput`: a number isn't a multiple of 4096, `len` is 0, or the file is too short. Or
    /// the system's.
    pub fn map(&mut self, guest: u64, len: u64, file: &File, offset: u64) -> io::Result<()> {
        let end = offset.checked_add(len).filter(|end| i64::try_from(*end).is_ok());
        let end = end.ok_or_else(|| invalid("a file doesn't have so many bytes"))?;
        if offset % PAGE != 0 {
            return Err(invalid("an offset that isn't a multiple of 4096"));
        }
        if file.metadata()?.len() < end {
            return Err(invalid("the file is too short"));
        }
        self.add(guest, len, SHARED | NO_RESERVE, file.as_raw_fd(), offset)
    }

    /// The same of memory without a file, which is zero: no other process sees it, unless it is a
    /// fork of this one.
    ///
    /// # Errors
    /// Those of `map`.
    pub fn allocate(&mut self, guest: u64, len: u64) -> io::Result<()> {
        self.add(guest, len, SHARED | ANONYMOUS | NO_RESERVE, -1, 0)
    }

    fn add(
        &mut self,
        guest: u64,
        len: u64,
        flags: c_int,
        fd: c_int,
        offset: u64,
    ) -> io::Result<()> {
        if guest % PAGE != 0 || len % PAGE != 0 || len == 0 {
            return Err(invalid("a region that isn't of whole pages of 4096 bytes"));
        }
        let len = usize::try_from(len).map_err(|_| invalid("a region that is too long"))?;
        let offset = i64::try_from(offset).map_err(|_| invalid("an offset that is too great"))?;
        // SAFETY: the system chooses the place, so no memory of this process is replaced.
        let at = unsafe { mmap(ptr::null_mut(), len, PROTECTION, flags, fd, offset) };
        if at as isize == -1 {
            return Err(io::Error::last_os_error());
        }
        let mapping = Mapping { at: at.cast(), len, guest };
        let place = self.mappings.partition_point(|other| other.at < mapping.at);
        self.mappings.insert(place, mapping);
        Ok(())
    }

    /// The regions, by their guest addresses.
    #[must_use]
    pub fn regions(&self) -> Vec<Region> {
        let region = |mapping: &Mapping| {
            let (guest, len, host) = (mapping.guest, mapping.len as u64, mapping.at as usize);
            Region { guest, len, host }
        };
        let mut regions: Vec<_> = self.mappings.iter().map(region).collect();
        regions.sort_unstable_by_key(|region| region.guest);
        regions
    }
}

impl GuestMemory for MmapMemory {
    fn get_slice(&self, at: usize, len: usize) -> Option<GuestSlice<'_>> {
        let after = self.mappings.partition_point(|mapping| mapping.at as usize <= at);
        let mapping = &self.mappings[after.checked_sub(1)?];
        let from = at - mapping.at as usize;
        if len > mapping.len.checked_sub(from)? {
            return None;
        }
        // SAFETY: the bytes lie in the mapping, which is mapped for reads and writes until `self`
        // is dropped. This process has no reference to them: it accesses them by slices alone.
        Some(unsafe { GuestSlice::new(mapping.at.add(from), len) })
    }
}

#[cfg(test)]
mod tests {
    use super::*;
    use std::format;
    use std::os::unix::fs::FileExt as _;

    /// A file of three pages, without a name.
    fn file() -> File {
        let path = std::env::temp_dir().join(format!("pitskhomu-mmap-{}", std::process::id()));
        let mut options = File::options();
        let file = options.read(true).write(true).create_new(true).open(&path).unwrap();
        std::fs::remove_file(path).unwrap();
        file.set_len(3 * PAGE).unwrap();
        file
    }

    #[test]
    fn stores_reach_the_file_and_the_other_region() {
        let (file, mut memory) = (file(), MmapMemory::new());
        memory.map(0x1_0000, 2 * PAGE, &file, PAGE).unwrap();
        memory.map(0x4000, PAGE, &file, 2 * PAGE).unwrap();
        let regions = memory.regions();
        assert_eq!(
            regions.iter().map(|region| region.guest).collect::<Vec<_>>(),
            [0x4000, 0x1_0000]
        );
        let slice = memory.get_slice(regions[1].host + 0x1ffe, 2).unwrap();
        slice.store(&[7, 8]);
        let (mut bytes, mut found) = ([0; 2], [0; 2]);
        memory.get_slice(regions[0].host + 0xffe, 2).unwrap().load(&mut bytes);
        file.read_exact_at(&mut found, 3 * PAGE - 2).unwrap();
        assert_eq!((bytes, found), ([7, 8], [7, 8]));
    }

    #[test]
    fn no_slice_leaves_its_mapping() {
        let mut memory = MmapMemory::new();
        (0..3).for_each(|k| memory.allocate(k << 20, 0x4000).unwrap());
        for region in memory.regions() {
            let has = |at: usize, len| memory.get_slice(at, len).is_some();
            let (first, end) = (region.host, region.host + 0x4000);
            assert!(has(first, 0x4000) && has(end - 1, 1) && has(first + 9, 0));
            assert!(!has(end - 1, usize::MAX) && !has(first, usize::MAX));
        }
        assert!(memory.get_slice(0, 1).is_none() && memory.get_slice(usize::MAX, 1).is_none());
        assert!(MmapMemory::new().get_slice(0, 0).is_none());
    }

    #[test]
    fn wrong_numbers_are_refused() {
        let (file, mut memory) = (file(), MmapMemory::new());
        for (guest, len, offset) in [
            (1, PAGE, 0),
            (0, 0, 0),
            (0, PAGE + 1, 0),
            (0, PAGE, 8),
            (0, 4 * PAGE, 0),
            (0, PAGE, 3 * PAGE),
            (0, u64::MAX - PAGE + 1, PAGE),
        ] {
            let refused = memory.map(guest, len, &file, offset).unwrap_err();
            assert_eq!(refused.kind(), io::ErrorKind::InvalidInput, "{guest} {len} {offset}");
        }
        assert!(memory.allocate(0, u64::MAX - PAGE + 1).is_err());
        assert!(memory.regions().is_empty());
    }
}
