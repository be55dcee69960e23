//! The guest's memory as the front-end reports it. A table never changes: another replaces it, and
//! the old one stays mapped while a chain that was taken over it is in flight. Workers address each
//! byte by the number of its region and its offset there. The library looks these up, and
//! pitskhomu-vm-memory checks them.
use crate::iommu::Iommu;
use crate::marks::{Logging, Marks, MarksFrom};
use pitskhomu::{GuestRange, GuestSlice, QueueLayout};
use pitskhomu_vm_memory::MappedMemory;
use std::fs::File;
use std::io;
use std::os::fd::OwnedFd;
use std::os::unix::fs::MetadataExt;
use std::sync::atomic::{AtomicU64, Ordering};
use std::sync::Arc;
use vhost::vhost_user::message::VhostUserMemoryRegion;
use vm_memory::{
    Bytes, GuestAddress, GuestMemory, GuestMemoryMmap, GuestMemoryRegion, GuestRegionMmap,
    VolatileSlice,
};

/// All numbers of a region are multiples of this.
pub const PAGE: u64 = 4096;

/// Consecutive bytes of one region. Writes to them mark the log.
pub type Slice<'m> = VolatileSlice<'m, MarksFrom<'m>>;

/// A region's place in the front-end's own address space, and its file. The front-end sets rings
/// with these addresses.
#[derive(Debug, Clone, Copy)]
struct Place {
    front_end: u64,
    guest: u64,
    len: u64,
    /// The file's device and number there.
    file: (u64, u64),
    offset: u64,
}

/// A page's place in a file: the file's device and number there, and the page's offset.
type FilePage = ((u64, u64), u64);

/// The guest's memory. A copy has the same mappings, and the same number.
#[derive(Debug, Clone, Default)]
pub struct Table {
    mapped: MappedMemory<Marks>,
    places: Vec<Place>,
    number: u64,
    logging: Arc<Logging>,
    iommu: Arc<Iommu>,
}

/// The next table's number. Each table has a number of its own, and the one without memory has 0.
static NUMBER: AtomicU64 = AtomicU64::new(1);

fn invalid(why: &str) -> io::Error {
    io::Error::new(io::ErrorKind::InvalidInput, why)
}

type Mapped = (Arc<GuestRegionMmap<Marks>>, Place);

fn map(region: &VhostUserMemoryRegion, file: File, logging: &Arc<Logging>) -> io::Result<Mapped> {
    let data = file.metadata()?;
    let place = Place {
        front_end: region.user_addr,
        guest: region.guest_phys_addr,
        len: region.memory_size,
        file: (data.dev(), data.ino()),
        offset: region.mmap_offset,
    };
    if (place.guest | place.len) % PAGE != 0 || place.len == 0 {
        return Err(invalid("a region that isn't of whole pages"));
    }
    let mapped = region.mmap_region::<Marks>(file).map_err(io::Error::other)?;
    let region =
        GuestRegionMmap::new(mapped, GuestAddress(place.guest)).map_err(io::Error::other)?;
    region.bitmap().tie(logging, place.guest);
    Ok((Arc::new(region), place))
}

/// The numbers of the pages of a queue's parts (VIRTIO 1.2, 2.7).
fn pages(layout: &QueueLayout) -> impl Iterator<Item = u64> {
    let size = u64::from(layout.size);
    let parts = [
        (layout.descriptors, 16 * size),
        (layout.available, 6 + 2 * size),
        (layout.used, 6 + 8 * size),
    ];
    parts
        .into_iter()
        .filter(move |_| size > 0)
        .flat_map(|(at, len)| at / PAGE..=at.saturating_add(len - 1) / PAGE)
}

impl Table {
    /// A table of these regions, with this one's log.
    pub fn replaced(
        &self,
        regions: &[VhostUserMemoryRegion],
        files: Vec<File>,
    ) -> io::Result<Table> {
        let mapped =
            regions.iter().zip(files).map(|(region, file)| map(region, file, &self.logging));
        let (mut regions, places) = mapped.collect::<io::Result<(Vec<_>, Vec<_>)>>()?;
        regions.sort_by_key(|region| region.start_addr());
        self.over(GuestMemoryMmap::from_arc_regions(regions).map_err(io::Error::other)?, places)
    }

    /// A table with one more region.
    pub fn with(&self, region: &VhostUserMemoryRegion, file: File) -> io::Result<Table> {
        let (mapped, place) = map(region, file, &self.logging)?;
        let guest = self.mapped.memory().insert_region(mapped).map_err(io::Error::other)?;
        self.over(guest, self.places.iter().copied().chain([place]).collect())
    }

    /// A table without this region.
    pub fn without(&self, guest: u64, len: u64) -> io::Result<Table> {
        let removed = self.mapped.memory().remove_region(GuestAddress(guest), len);
        let (memory, _) = removed.map_err(io::Error::other)?;
        let places = self.places.iter().copied().filter(|place| place.guest != guest).collect();
        self.over(memory, places)
    }

    fn over(&self, guest: GuestMemoryMmap<Marks>, places: Vec<Place>) -> io::Result<Table> {
        let mapped = MappedMemory::new(guest)
            .map_err(|_| invalid("regions of memory that the library doesn't take"))?;
        let number = NUMBER.fetch_add(1, Ordering::Relaxed);
        let (logging, iommu) = (self.logging.clone(), self.iommu.clone());
        Ok(Table { mapped, places, number, logging, iommu })
    }

    /// The table's number, which no other table has.
    pub fn number(&self) -> u64 {
        self.number
    }

    /// The guest address for an address of the front-end.
    pub fn guest_address(&self, front_end: u64) -> io::Result<u64> {
        let offset_in = |place: &Place| {
            front_end.checked_sub(place.front_end).filter(|offset| *offset < place.len)
        };
        self.places
            .iter()
            .find_map(|place| offset_in(place).map(|offset| place.guest + offset))
            .ok_or_else(|| invalid("an address outside the memory"))
    }

    /// The front-end's address for a guest address.
    pub fn front_end_address(&self, guest: u64) -> io::Result<u64> {
        let place = self.places.iter().find(|place| guest.wrapping_sub(place.guest) < place.len);
        place
            .map(|place| place.front_end.wrapping_add(guest - place.guest))
            .ok_or_else(|| invalid("an address outside the memory"))
    }

    /// The regions as the front-end sent them, each with its file.
    pub fn sent(&self) -> io::Result<Vec<(VhostUserMemoryRegion, OwnedFd)>> {
        let file_of = |place: &Place| {
            let region = self.mapped.memory().find_region(GuestAddress(place.guest));
            let file = region.and_then(|region| region.file_offset());
            file.ok_or_else(|| invalid("a region without a file"))?.file().try_clone()
        };
        let sent = self.places.iter().map(|place| {
            let region =
                VhostUserMemoryRegion::new(place.guest, place.len, place.front_end, place.offset);
            Ok((region, file_of(place)?.into()))
        });
        sent.collect()
    }

    /// The guest's addresses for `len` bytes of the front-end's, piece by piece: `None` unless each
    /// byte has one.
    pub fn guest_ranges(&self, front_end: u64, len: u64) -> Option<Vec<(u64, u64)>> {
        let (mut pieces, mut at, mut left) = (Vec::new(), front_end, len);
        while left > 0 {
            let (place, offset) = self.places.iter().find_map(|place| {
                let offset = at.checked_sub(place.front_end)?;
                (offset < place.len).then_some((place, offset))
            })?;
            let part = left.min(place.len - offset);
            pieces.push((place.guest + offset, part));
            left -= part;
            at = if left > 0 { at.checked_add(part)? } else { at };
        }
        Some(pieces)
    }

    /// The IOMMU in front of the device, if the guest has one.
    pub fn iommu(&self) -> &Arc<Iommu> {
        &self.iommu
    }

    /// The log of this table, and of all tables made from it.
    pub fn logging(&self) -> &Logging {
        &self.logging
    }

    /// The regions for the library.
    pub fn regions(&self) -> Vec<pitskhomu::Region> {
        self.mapped.regions()
    }

    /// The `len` bytes from one on, if they lie in one region. `at` is the number by which workers
    /// address a byte.
    pub fn slice(&self, at: usize, len: usize) -> Option<Slice<'_>> {
        self.mapped.slice(at, len)
    }

    /// The same by a guest address.
    fn guest_slice(&self, guest: u64, len: usize) -> Option<Slice<'_>> {
        self.mapped.guest_slice(guest, len)
    }

    /// Whether each page of a queue's parts is the same page of the same file in both tables, or is
    /// mapped in neither.
    pub fn agrees(&self, other: &Table, layout: &QueueLayout) -> bool {
        pages(layout).all(|page| self.file_page(page) == other.file_page(page))
    }

    /// Whether each page of a queue's parts is mapped. One whose I/O address the IOMMU's table
    /// doesn't have may be.
    pub fn has_parts(&self, layout: &QueueLayout) -> bool {
        let is_unknown = |page: u64| self.iommu.guest_address(page.wrapping_mul(PAGE)).is_none();
        pages(layout).all(|page| is_unknown(page) || self.file_page(page).is_some())
    }

    fn file_page(&self, page: u64) -> Option<FilePage> {
        let at = self.iommu.guest_address(page.wrapping_mul(PAGE))?;
        let place = self.places.iter().find(|place| at.wrapping_sub(place.guest) < place.len)?;
        Some((place.file, place.offset + (at - place.guest)))
    }

    /// The index of an available or a used ring (VIRTIO 1.2, 2.7.6 and 2.7.8), if it is mapped.
    pub fn ring_index(&self, ring: u64) -> Option<u16> {
        let at = self.iommu.guest_address(ring.checked_add(2)?)?;
        let index = self.guest_slice(at, 2)?;
        index.load(0, Ordering::Acquire).ok().map(u16::from_le)
    }
}

impl pitskhomu::GuestMemory for Table {
    fn get_slice(&self, at: usize, len: usize) -> Option<GuestSlice<'_>> {
        self.mapped.get_slice(at, len)
    }
    fn is_logging(&self) -> bool {
        self.logging.is_on()
    }
    fn mark(&self, written: GuestRange) {
        self.logging.mark(written.guest, written.len);
    }
}

#[cfg(test)]
pub(crate) mod tests {
    use super::*;
    use pitskhomu::GuestMemory as _;

    pub const HIGH: u64 = 1 << 32;

    /// Two regions of two pages each: at 0x4000, and at 2^32.
    pub fn table() -> Table {
        let file = crate::pipe::scratch().expect("a file in memory");
        file.set_len(4 * PAGE).expect("room");
        let regions = [(HIGH, 2 * PAGE), (0x4000, 0)].map(|(guest, offset)| {
            VhostUserMemoryRegion::new(guest, 2 * PAGE, 0x7000_0000 + offset, offset)
        });
        Table::default()
            .replaced(&regions, vec![file.try_clone().expect("a descriptor"), file])
            .expect("a table")
    }

    #[test]
    fn an_access_is_within_one_region() {
        let table = table();
        let has = |at, len| table.guest_slice(at, len).is_some();
        assert!(has(0x4000, 0x2000) && has(0x5fff, 1) && has(HIGH + 8, 8) && has(HIGH, 0x2000));
        assert!(
            !has(0x3fff, 1)
                && !has(0x3fff, 2)
                && !has(0x5fff, 2)
                && !has(0x6000, 1)
                && !has(0x4000, 0x2001)
        );
        assert!(
            !has(0, 1) && !has(HIGH - 1, 2) && !has(HIGH + 0x1fff, usize::MAX) && !has(u64::MAX, 1)
        );
        let without = table.without(HIGH, 2 * PAGE).expect("a table");
        assert!(without.guest_slice(HIGH, 1).is_none() && without.guest_slice(0x4000, 1).is_some());
    }

    #[test]
    fn tables_agree_on_a_queue_whose_pages_both_have() {
        let table = table();
        let less = table.without(HIGH, 2 * PAGE).expect("a table");
        let at = |available, used| QueueLayout { size: 64, descriptors: 0, available, used };
        assert!(
            table.agrees(&less, &at(0x4000, 0x5000)) && less.agrees(&table, &at(0x7000, 0x9000))
        );
        assert!(!table.agrees(&less, &at(0x4000, HIGH)) && !less.agrees(&table, &at(HIGH, 0x4000)));
        assert!(!table.agrees(&less, &at(0x4000, HIGH - 4))); // its end alone
        assert!(table.has_parts(&QueueLayout { descriptors: HIGH, ..at(0x4000, 0x5000) }));
        assert!(!less.has_parts(&QueueLayout { descriptors: HIGH, ..at(0x4000, 0x5000) }));
        assert!(table.agrees(&less, &QueueLayout { size: 0, ..at(HIGH, HIGH) }));
        assert!(table.agrees(&less, &at(u64::MAX - 1, u64::MAX)));
    }

    #[test]
    fn the_same_addresses_of_another_file_are_another_memory() {
        let layout = QueueLayout { size: 64, descriptors: 0x4000, available: 0x4400, used: 0x5000 };
        let (first, second) = (table(), table());
        assert!(first.agrees(&first.clone(), &layout) && !first.agrees(&second, &layout));
    }

    #[test]
    fn what_is_stored_is_loaded() {
        let table = table();
        let regions = table.regions();
        let bytes_at = |at: u64, len| {
            let holds = |region: &&pitskhomu::Region| at.wrapping_sub(region.guest) < region.len;
            let region = regions.iter().find(holds)?;
            table.get_slice(region.host + (at - region.guest) as usize, len)
        };
        bytes_at(0x5ffd, 3).expect("bytes").store(&[1, 2, 3]);
        bytes_at(HIGH + 2, 2).expect("bytes").store(&0x1234u16.to_le_bytes());
        let mut bytes = [7; 3];
        bytes_at(0x5ffd, 3).expect("bytes").load(&mut bytes);
        assert_eq!(bytes, [1, 2, 3]);
        assert!(bytes_at(0x5ffe, 3).is_none() && bytes_at(0x6000, 1).is_none());
        assert_eq!((table.ring_index(HIGH), table.ring_index(u64::MAX)), (Some(0x1234), None));
        assert_eq!(table.guest_address(0x7000_2008).ok(), Some(HIGH + 8));
    }

    #[test]
    fn the_regions_are_sent_on_as_they_came() {
        let table = table();
        let sent = table.sent().expect("regions");
        assert_eq!(sent.len(), 2);
        let (regions, files): (Vec<_>, Vec<_>) = sent.into_iter().unzip();
        let files: Vec<File> = files.into_iter().map(File::from).collect();
        let again = Table::default().replaced(&regions, files).expect("a table");
        let layout = QueueLayout { size: 64, descriptors: 0x4000, available: HIGH, used: 0x5000 };
        assert!(table.agrees(&again, &layout) && again.has_parts(&layout));
        for guest in [0x4000, 0x5fff, HIGH, HIGH + 0x1fff] {
            let address = table.front_end_address(guest).expect("an address");
            assert_eq!(again.guest_address(address).ok(), Some(guest));
        }
        assert!(table.front_end_address(0x6000).is_err() && table.front_end_address(0).is_err());
    }

    #[test]
    fn addresses_of_the_front_end_are_found_piece_by_piece() {
        let table = table();
        let ranges = |at, len| table.guest_ranges(at, len);
        assert_eq!(ranges(0x7000_0800, 8), Some(vec![(0x4800, 8)]));
        // both regions lie side by side there
        assert_eq!(ranges(0x7000_1000, 0x2000), Some(vec![(0x5000, 0x1000), (HIGH, 0x1000)]));
        assert_eq!((ranges(0x7000_3fff, 2), ranges(0x6fff_ffff, 2)), (None, None));
        assert_eq!((ranges(u64::MAX, 2), ranges(0x7000_0000, u64::MAX)), (None, None));
    }
}
