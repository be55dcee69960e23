//! The loads of a pop, made ahead: with them a pop is one call of the library. They are a guess.
//! The library takes each that is just the one it asks for, and asks for the others.
use super::{grow, Worker};
use crate::chain::PopStep;
use crate::memory::{self, GuestMemory};
use crate::queue::{Queue, QueueLayout};
use crate::status::Status;
use crate::sys;
use core::sync::atomic::{fence, Ordering};

/// The most loads that are made ahead.
const MOST: usize = 5;
/// The bytes of a descriptor.
const ENTRY: usize = 16;
/// The most descriptors of a load of the queue's own table.
const MOST_OWN: usize = 4;
/// The bytes of the longest load, and before it of the ring's two and the own table's first.
const MOST_BYTES: usize = 4 + ENTRY * MOST_OWN + 4096;

/// Where a queue's rings are, by the numbers of `Region::host`.
#[derive(Clone, Copy)]
pub(super) struct Ring {
    layout: QueueLayout,
    descriptors: usize,
    available: usize,
}

/// The loads of a pop. Their bytes lie one after another in the worker's `loaded`.
#[derive(Default)]
pub(super) struct Loads {
    ahead: [sys::LoadAhead; MOST],
    count: usize,
    len: usize,
}

/// A descriptor as the guest has it.
struct Entry {
    address: u64,
    len: u32,
    flags: u16,
    next: u16,
}

impl Entry {
    const NEXT: u16 = 1;
    const INDIRECT: u16 = 4;

    fn at(bytes: &[u8], index: usize) -> Entry {
        let mut entry = [0; ENTRY];
        entry.copy_from_slice(&bytes[ENTRY * index..][..ENTRY]);
        let entry = u128::from_le_bytes(entry);
        #[allow(clippy::cast_possible_truncation)] // each takes its own bits
        Entry {
            address: entry as u64,
            len: (entry >> 64) as u32,
            flags: (entry >> 96) as u16,
            next: (entry >> 112) as u16,
        }
    }

    fn has_next(&self) -> bool {
        self.flags & (Entry::NEXT | Entry::INDIRECT) == Entry::NEXT
    }

    fn is_table(&self) -> bool {
        self.flags & (Entry::NEXT | Entry::INDIRECT) == Entry::INDIRECT
    }
}

impl Worker {
    /// The available index of a queue without an IOMMU's table, if the worker's regions have it: a
    /// load, with what an acquire fence orders after it (`Server::available_index` of `live`).
    pub fn available_index(&mut self, queue: &Queue, memory: &dyn GuestMemory) -> Option<u16> {
        let at = self.available_at(queue).filter(|_| !self.has_table)?;
        let index = memory::load_u16(memory, at);
        fence(Ordering::Acquire);
        Some(index)
    }

    /// Loads the available index, unless the last one shows a chain that is left. `None` if the
    /// rings' places aren't known.
    pub(super) fn first_load(
        &mut self,
        queue: &mut Queue,
        memory: &dyn GuestMemory,
    ) -> Result<Option<u16>, Status> {
        grow(&mut self.loaded, MOST_BYTES)?;
        let at = match self.available_at(queue) {
            Some(at) => at,
            None => return Ok(None),
        };
        let index = queue.seen_index(self.regions).unwrap_or_else(|| {
            let index = memory::load_u16(memory, at);
            queue.see_index(index, self.regions);
            index
        });
        fence(Ordering::Acquire);
        Ok(Some(index))
    }

    /// Whether a pop that begins with this index finds no chain. By the library's contract that is
    /// so if the queue can be popped, and the index is that of its next chain. So the library isn't
    /// called for it.
    pub(super) fn is_idle(&self, queue: &Queue, index: Option<u16>) -> bool {
        index == Some(queue.next_avail()) && queue.may_pop() && !self.has_table
    }

    /// Pops a chain by loads that are made ahead, from the available index on, and returns the end
    /// of the pop, or that it asks for a load.
    pub(super) fn pop_ahead(
        &mut self,
        queue: &mut Queue,
        memory: &dyn GuestMemory,
        index: Option<u16>,
    ) -> Result<PopStep, Status> {
        (self.ahead.count, self.ahead.len) = (0, 0);
        if let (Some(index), Some(ring)) = (index, self.ring) {
            self.load_ahead(queue.next_avail(), memory, &ring, index);
        }
        let Loads { ahead, count, len } = &self.ahead;
        self.chain.pop_ahead(queue, &ahead[..*count], &self.loaded[..*len], &mut self.pop)
    }

    /// The number of the `len` bytes from a guest address on, if one region has them.
    fn place(&self, guest: u64, len: u64) -> Option<usize> {
        self.layout.iter().find_map(|region| {
            let offset = guest.checked_sub(region.guest)?;
            let left = region.len.checked_sub(offset)?;
            let offset = usize::try_from(offset).ok()?;
            (0 < left && len <= left).then(|| region.host.wrapping_add(offset))
        })
    }

    /// Where a queue's available index is, if its rings are known.
    #[inline]
    fn available_at(&mut self, queue: &Queue) -> Option<usize> {
        let layout = queue.layout();
        let available = match &self.ring {
            Some(ring) if ring.layout == layout => ring.available,
            _ => self.find_ring(layout)?,
        };
        Some(available.wrapping_add(2))
    }

    /// Finds the rings of a queue, and returns where the available one is; `None` if one isn't in
    /// one region.
    #[cold]
    fn find_ring(&mut self, layout: QueueLayout) -> Option<usize> {
        let size = u64::from(layout.size);
        let descriptors = self.place(layout.descriptors, ENTRY as u64 * size)?;
        let available = self.place(layout.available, 6 + 2 * size)?;
        self.ring = Some(Ring { layout, descriptors, available });
        Some(available)
    }

    /// Makes the loads of the pop of the chain at a position, as far as they can be told.
    fn load_ahead(&mut self, position: u16, memory: &dyn GuestMemory, ring: &Ring, index: u16) {
        self.add_number(ring.available.wrapping_add(2), index);
        let size = ring.layout.size;
        if index == position || size == 0 {
            return;
        }
        let at = ring.available.wrapping_add(4 + 2 * usize::from(position & (size - 1)));
        let head = memory::load_u16(memory, at);
        self.add_number(at, head);
        self.load_chain(memory, ring, head);
        fence(Ordering::Acquire);
    }

    /// A load of one of the ring's numbers, which was made: one of the first two.
    fn add_number(&mut self, at: usize, number: u16) {
        let Loads { ahead, count, len } = &mut self.ahead;
        self.loaded[*len..*len + 2].copy_from_slice(&number.to_le_bytes());
        ahead[*count] = sys::LoadAhead { at, len: 2 };
        (*count, *len) = (*count + 1, *len + 2);
    }

    /// Makes a load of descriptors, and returns its place in `loaded`; `None` if there is no room
    /// for it.
    fn add(&mut self, memory: &dyn GuestMemory, at: usize, bytes: usize) -> Option<usize> {
        let Loads { ahead, count, len } = &mut self.ahead;
        let from = *len;
        let to = self.loaded.get_mut(from..from + bytes)?;
        *ahead.get_mut(*count)? = sys::LoadAhead { at, len: bytes };
        memory::load(memory, at, to);
        (*count, *len) = (*count + 1, from + bytes);
        Some(from)
    }

    /// Makes the loads of a chain's descriptors from its head on.
    fn load_chain(&mut self, memory: &dyn GuestMemory, ring: &Ring, head: u16) {
        let size = usize::from(ring.layout.size);
        let (mut index, mut left) = (usize::from(head), size);
        while index < size {
            let count = MOST_OWN.min(size - index).min(left);
            let at = ring.descriptors.wrapping_add(ENTRY * index);
            let from = match self.add(memory, at, ENTRY * count) {
                Some(from) => from,
                None => return,
            };
            let (last, walked) = follow(&self.loaded[from..self.ahead.len], index, count);
            if last.is_table() {
                return self.load_table(memory, &last);
            }
            if !last.has_next() || left <= walked {
                return;
            }
            (index, left) = (usize::from(last.next), left - walked);
        }
    }

    /// Makes the load of an indirect table, if it is in one region and no longer than a load.
    fn load_table(&mut self, memory: &dyn GuestMemory, entry: &Entry) {
        let len = entry.len as usize;
        if len % ENTRY != 0 {
            return;
        }
        if let Some(at) = self.place(entry.address, u64::from(entry.len)) {
            self.add(memory, at, len);
        }
    }
}

/// Follows a chain from the first of these `count` descriptors, which are those from index `first`
/// of their table on. Returns the last one of the chain among them, and how many it has there.
fn follow(bytes: &[u8], first: usize, count: usize) -> (Entry, usize) {
    let (mut entry, mut walked) = (Entry::at(bytes, 0), 1);
    while entry.has_next() && walked < count {
        match usize::from(entry.next).checked_sub(first) {
            Some(index) if index < count => entry = Entry::at(bytes, index),
            _ => break,
        }
        walked += 1;
    }
    (entry, walked)
}
