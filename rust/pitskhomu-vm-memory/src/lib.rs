//! [`pitskhomu::GuestMemory`] over `GuestMemoryMmap` of vm-memory.
//!
//! It is a package of its own, not a feature of `pitskhomu`: cargo needs even an optional
//! dependency in its index, and `pitskhomu` builds offline.
use pitskhomu::{Device, GuestMemory, GuestRange, GuestSlice, Region, Status};
use std::any::TypeId;
use vm_memory::bitmap::{Bitmap, BS};
use vm_memory::{
    Address, GuestMemoryMmap, GuestMemoryRegion, GuestRegionMmap, MemoryRegionAddress,
    VolatileSlice,
};

/// All numbers of a region are multiples of this.
const PAGE: u64 = 4096;

/// `PROT_READ | PROT_WRITE` of sys/mman.h.
const READ_WRITE: i32 = 3;

/// A byte's number has this many bits for the offset in its region, as many as an x86 processor's
/// physical address. The bits above are the region's place in the list. So only the library looks
/// an address up.
const OFFSET_BITS: u32 = 52;
const _: () = assert!(Device::MAX_REGIONS <= 1 << (usize::BITS - OFFSET_BITS));

/// What vm-memory's versions name differently.
mod versions {
    #[allow(clippy::wildcard_imports)] // the trait with `iter` is another one since 0.18
    use vm_memory::*;

    /// The regions of a memory.
    pub(super) fn regions<B: bitmap::Bitmap + 'static>(
        memory: &GuestMemoryMmap<B>,
    ) -> impl Iterator<Item = &GuestRegionMmap<B>> {
        memory.iter()
    }
}
use versions::regions;

/// A region, for a faster look-up of a guest address. (vm-memory's own takes several times as
/// long.)
#[derive(Debug, Clone)]
struct Stretch {
    guest: u64,
    len: u64,
    /// The address where it is mapped, as long as the memory has the region.
    host: usize,
}

/// The guest's memory, mapped by vm-memory. Workers know each byte by its region and its offset
/// there, as one number ([`MappedMemory::regions`]).
///
/// The regions never change: make another `MappedMemory` for other regions, and keep this one while
/// a chain that was taken from it is in flight. Written pages are marked in the bitmap `B`.
///
/// # Examples
/// ```
/// use pitskhomu::{Device, GuestMemory, Worker};
/// use pitskhomu_vm_memory::MappedMemory;
/// use vm_memory::{GuestAddress, GuestMemoryMmap};
///
/// # fn main() -> Result<(), Box<dyn std::error::Error>> {
/// let memory = GuestMemoryMmap::<()>::from_ranges(&[(GuestAddress(0x4000), 0x2000)])?;
/// let memory = MappedMemory::new(memory)?;
/// let host = memory.regions()[0].host;
/// assert!(memory.get_slice(host + 0x1ffe, 2).is_some());
/// assert!(memory.get_slice(host + 0x1fff, 2).is_none());
///
/// let (device, mut worker) = (Device::default(), Worker::new());
/// worker.set_memory(&device, &memory.regions())?;
/// // worker.serve(&mut queue, &device, &file_system, &memory)
/// # Ok(())
/// # }
/// ```
#[derive(Debug, Clone, Default)]
pub struct MappedMemory<B: Bitmap + 'static = ()> {
    memory: GuestMemoryMmap<B>,
    /// By ascending address, as vm-memory has them.
    stretches: Vec<Stretch>,
}

impl<B: Bitmap + 'static> MappedMemory<B> {
    /// The guest's memory over these regions.
    ///
    /// # Errors
    /// - `EmptyRegion`, `BadRegionHost`, `BadRegionGuest`, `BadRegionLen`: of the first region that
    ///   isn't of whole pages of 4096 bytes.
    /// - `BadRegionEnd`: it ends past the last address, or is longer than 2^52 bytes.
    /// - `BadArgument`: it isn't mapped for reads and writes. A store of the worker's would end the
    ///   process.
    /// - `TooManyRegions`: there are more than `Device::MAX_REGIONS`.
    pub fn new(memory: GuestMemoryMmap<B>) -> Result<MappedMemory<B>, Status> {
        let stretch = |region: &GuestRegionMmap<B>| {
            let (guest, len) = (region.start_addr().raw_value(), region.len());
            let host = region.as_ptr() as usize;
            let fits = guest.checked_add(len).is_some() && len <= 1 << OFFSET_BITS;
            let checks = [
                (len > 0, Status::EmptyRegion),
                (host as u64 % PAGE == 0, Status::BadRegionHost),
                (guest % PAGE == 0, Status::BadRegionGuest),
                (len % PAGE == 0, Status::BadRegionLen),
                (fits, Status::BadRegionEnd),
                (region.prot() & READ_WRITE == READ_WRITE, Status::BadArgument),
            ];
            let refused = checks.into_iter().find(|(holds, _)| !holds);
            refused.map_or(Ok(Stretch { guest, len, host }), |(_, status)| Err(status))
        };
        let stretches = regions(&memory).map(stretch).collect::<Result<Vec<_>, _>>()?;
        if stretches.len() > Device::MAX_REGIONS {
            return Err(Status::TooManyRegions);
        }
        Ok(MappedMemory { memory, stretches })
    }

    /// The memory of vm-memory.
    #[must_use]
    pub fn memory(&self) -> &GuestMemoryMmap<B> {
        &self.memory
    }

    /// The regions for [`Worker::set_memory`](pitskhomu::Worker::set_memory).
    #[must_use]
    pub fn regions(&self) -> Vec<Region> {
        let region = |(k, &Stretch { guest, len, .. }): (usize, &Stretch)| Region {
            guest,
            len,
            host: k << OFFSET_BITS,
        };
        self.stretches.iter().enumerate().map(region).collect()
    }

    /// The region that has the `len` bytes from a number on, and their offset in it.
    fn find(&self, at: usize, len: usize) -> Option<(&Stretch, usize)> {
        let (region, offset) = (at >> OFFSET_BITS, at & ((1 << OFFSET_BITS) - 1));
        let stretch = self.stretches.get(region)?;
        let left = stretch.len.checked_sub(offset as u64)?;
        (left > 0 && len as u64 <= left).then_some((stretch, offset))
    }

    /// The number of a guest address.
    fn number(&self, guest: u64) -> Option<usize> {
        let k = self.stretches.partition_point(|stretch| stretch.guest <= guest).checked_sub(1)?;
        let Stretch { guest: first, len, .. } = self.stretches[k];
        let offset = Some(guest - first).filter(|&offset| offset < len)?;
        Some((k << OFFSET_BITS) + usize::try_from(offset).ok()?)
    }

    /// The bytes as vm-memory's slice, if they lie in one region. vm-memory marks the pages that it
    /// writes by it. `at` is a number, such as that of a window of a READ or WRITE.
    #[must_use]
    pub fn slice(&self, at: usize, len: usize) -> Option<VolatileSlice<'_, BS<'_, B>>> {
        let (_, offset) = self.find(at, len)?;
        let region = regions(&self.memory).nth(at >> OFFSET_BITS)?;
        region.get_slice(MemoryRegionAddress(offset as u64), len).ok()
    }

    /// The same by a guest address, which is looked up.
    #[must_use]
    pub fn guest_slice(&self, guest: u64, len: usize) -> Option<VolatileSlice<'_, BS<'_, B>>> {
        self.slice(self.number(guest)?, len)
    }
}

impl<B: Bitmap + 'static> GuestMemory for MappedMemory<B> {
    fn get_slice(&self, at: usize, len: usize) -> Option<GuestSlice<'_>> {
        let (stretch, offset) = self.find(at, len)?;
        let host = stretch.host as *mut u8;
        // SAFETY: the bytes are in a region that `self.memory` keeps mapped as long as it lives, so
        // as long as the slice, and that `new` found to be mapped for reads and writes. vm-memory
        // makes no reference to them, and returns none but to atomic numbers.
        Some(unsafe { GuestSlice::new(host.add(offset), len) })
    }

    /// Whether `B` is a bitmap. One without fields, which keeps its marks elsewhere, is one too.
    fn is_logging(&self) -> bool {
        TypeId::of::<B>() != TypeId::of::<()>()
    }

    /// A range may begin in one region and end in another: it ends with a descriptor or with a used
    /// element, not with a region.
    fn mark(&self, written: GuestRange) {
        let end = written.guest.saturating_add(written.len);
        for (region, stretch) in regions(&self.memory).zip(&self.stretches) {
            let first = written.guest.max(stretch.guest);
            let end = end.min(stretch.guest + stretch.len);
            if first < end {
                let (offset, len) = (first - stretch.guest, end - first);
                // both are below the region's length, which `new` has found to fit
                region.bitmap().mark_dirty(offset as usize, len as usize);
            }
        }
    }
}

#[cfg(test)]
mod tests {
    use super::*;
    use vm_memory::bitmap::{AtomicBitmap, WithBitmapSlice};
    use vm_memory::mmap::MmapRegionBuilder;
    use vm_memory::{Bytes, GuestAddress};

    const HIGH: u64 = 1 << 32;
    /// The number of the second region's first byte.
    const SECOND: usize = 1 << OFFSET_BITS;

    /// Two regions of two pages each: at 0x4000, and at 2^32.
    fn mapped() -> MappedMemory<AtomicBitmap> {
        let ranges = [0x4000, HIGH].map(|at| (GuestAddress(at), 0x2000));
        MappedMemory::new(GuestMemoryMmap::from_ranges(&ranges).unwrap()).unwrap()
    }

    #[test]
    fn an_access_is_within_one_region() {
        let memory = mapped();
        let places = [
            (0x4000, 0x2000, true),
            (0x5fff, 1, true),
            (HIGH + 8, 8, true),
            (0x3fff, 1, false),
            (0x3fff, 2, false),
            (0x5fff, 2, false),
            (0x6000, 1, false),
            (HIGH + 0x1fff, usize::MAX, false),
            (u64::MAX, 1, false),
        ];
        for (at, len, is_mapped) in places {
            let slice = memory.guest_slice(at, len).map(|slice| slice.len());
            assert_eq!(slice, is_mapped.then_some(len), "{at:#x} {len}");
        }
        let region = |guest, host| Region { guest, len: 0x2000, host };
        assert_eq!(memory.regions(), [region(0x4000, 0), region(HIGH, SECOND)]);
    }

    /// The byte after a region's last is the next region's first, if there is one.
    #[test]
    fn a_region_ends_where_the_next_begins() {
        let memory = side_by_side();
        memory.memory().write_slice(b"next", GuestAddress(0x6000)).unwrap();
        let mut bytes = [0; 4];
        memory.guest_slice(0x6000, 4).unwrap().copy_to(&mut bytes);
        assert_eq!(&bytes, b"next");
        assert_eq!(memory.guest_slice(0x5fff, 1).unwrap().len(), 1);
        assert!(memory.guest_slice(0x5fff, 2).is_none() && memory.guest_slice(0x8000, 1).is_none());
    }

    #[test]
    fn a_number_is_a_region_and_an_offset() {
        let memory = mapped();
        let places = [
            (0, 0x2000, true),
            (0x1fff, 1, true),
            (SECOND + 8, 8, true),
            (0x1fff, 2, false),
            (0x2000, 0, false),
            (SECOND - 1, 1, false),
            (SECOND + 0x1fff, usize::MAX, false),
            (2 * SECOND, 1, false),
            (usize::MAX, 1, false),
        ];
        for (at, len, is_mapped) in places {
            let slice = memory.get_slice(at, len).map(|slice| slice.len());
            assert_eq!(slice, is_mapped.then_some(len), "{at:#x} {len}");
            assert_eq!(memory.slice(at, len).map(|slice| slice.len()), slice, "{at:#x} {len}");
        }
    }

    #[test]
    fn bytes_are_those_of_vm_memory() {
        let memory = mapped();
        memory.memory().write_slice(b"hello", GuestAddress(HIGH + 3)).unwrap();
        let mut bytes = [0; 5];
        memory.get_slice(SECOND + 3, 5).unwrap().load(&mut bytes);
        assert_eq!(&bytes, b"hello");
        memory.get_slice(0x1ffb, 5).unwrap().store(b"world");
        memory.memory().read_slice(&mut bytes, GuestAddress(0x5ffb)).unwrap();
        assert_eq!(&bytes, b"world");
    }

    #[test]
    fn written_pages_are_marked() {
        let memory = mapped();
        memory.mark(GuestRange { guest: HIGH + 0x1000, len: 2 });
        memory.mark(GuestRange { guest: 0x4fff, len: 2 });
        memory.mark(GuestRange { guest: 0x8000, len: 8 }); // in no region
        assert_eq!(dirty(&memory), [true, true, false, true]);
        assert!(memory.is_logging() && !MappedMemory::<()>::default().is_logging());
    }

    /// The pages that were marked, of all regions.
    fn dirty(memory: &MappedMemory<AtomicBitmap>) -> Vec<bool> {
        let pages = |region: &GuestRegionMmap<_>| {
            (0..region.len() / PAGE).map(|k| (k * PAGE) as usize).collect::<Vec<_>>()
        };
        regions(memory.memory())
            .flat_map(|region| pages(region).into_iter().map(|at| region.bitmap().dirty_at(at)))
            .collect()
    }

    /// Regions side by side, as hotplugged memory has them.
    fn side_by_side() -> MappedMemory<AtomicBitmap> {
        let ranges = [0x4000, 0x6000].map(|at| (GuestAddress(at), 0x2000));
        MappedMemory::new(GuestMemoryMmap::from_ranges(&ranges).unwrap()).unwrap()
    }

    /// A range ends with its descriptor, not with a region.
    #[test]
    fn a_range_over_two_regions_is_marked_in_both() {
        let places = [
            (0x5000, 0x2000, [false, true, true, false]),
            (0x4000, 0x4000, [true; 4]),
            (0x3000, 0x3000, [true, true, false, false]),
            (0, u64::MAX, [true; 4]),
            (0x5ffc, 8, [false, true, true, false]), // a used element over the regions' border
            (0x6ffc, 8, [false, false, true, true]), // and over a page's
            (0x6000, 1, [false, false, true, false]),
            (0x7fff, u64::MAX, [false, false, false, true]),
            (0x6000, 0, [false; 4]),
            (0x8000, 8, [false; 4]),
            (0x3ff8, 8, [false; 4]),
        ];
        for (guest, len, pages) in places {
            let memory = side_by_side();
            memory.mark(GuestRange { guest, len });
            assert_eq!(dirty(&memory), pages, "{guest:#x} {len:#x}");
        }
    }

    /// Keeps its marks elsewhere.
    #[derive(Debug, Default)]
    struct Elsewhere;

    impl WithBitmapSlice<'_> for Elsewhere {
        type S = ();
    }

    impl Bitmap for Elsewhere {
        fn mark_dirty(&self, _: usize, _: usize) {}
        fn dirty_at(&self, _: usize) -> bool {
            false
        }
        fn slice_at(&self, _: usize) {}
    }

    #[test]
    fn a_bitmap_without_fields_is_one() {
        assert!(MappedMemory::<Elsewhere>::default().is_logging());
    }

    #[test]
    fn regions_that_the_library_does_not_take_are_refused() {
        let odd = GuestMemoryMmap::<()>::from_ranges(&[(GuestAddress(0x4000), 0x1800)]).unwrap();
        assert_eq!(MappedMemory::new(odd).err(), Some(Status::BadRegionLen));
        let odd = GuestMemoryMmap::<()>::from_ranges(&[(GuestAddress(0x4800), 0x1000)]).unwrap();
        assert_eq!(MappedMemory::new(odd).err(), Some(Status::BadRegionGuest));
        let ranges: Vec<_> =
            (0..=Device::MAX_REGIONS as u64).map(|k| (GuestAddress(k << 13), 0x1000)).collect();
        let many = GuestMemoryMmap::<()>::from_ranges(&ranges).unwrap();
        assert_eq!(MappedMemory::new(many).err(), Some(Status::TooManyRegions));
    }

    /// Safe code maps memory that can't be written. A store there would be a SIGSEGV.
    #[test]
    fn memory_that_cannot_be_written_is_refused() {
        const PRIVATE_ANONYMOUS: i32 = 0x22; // `MAP_PRIVATE | MAP_ANONYMOUS`
        for (protection, is_taken) in [(0, false), (1, false), (2, false), (3, true)] {
            let region = MmapRegionBuilder::<()>::new(0x2000)
                .with_mmap_prot(protection)
                .with_mmap_flags(PRIVATE_ANONYMOUS)
                .build()
                .unwrap();
            let region = GuestRegionMmap::new(region, GuestAddress(0x4000)).unwrap();
            let memory = GuestMemoryMmap::from_regions(vec![region]).unwrap();
            let refusal = (!is_taken).then_some(Status::BadArgument);
            assert_eq!(MappedMemory::new(memory).err(), refusal, "{protection}");
        }
    }
}
