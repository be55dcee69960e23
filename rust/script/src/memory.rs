//! The guest's memory: blocks, regions over them, and marks of the pages that were written.
use pitskhomu::{GuestMemory, GuestRange, GuestSlice, Region};
use std::cell::RefCell;
use std::collections::{BTreeMap, BTreeSet};
use std::ops::Range;
use std::sync::atomic::{AtomicU8, Ordering};

/// The bytes of a page.
const PAGE: usize = 4096;

/// Why a command is refused, by the script language's number.
#[derive(Clone, Copy, Debug)]
pub enum Refusal {
    NoPlace = 1,
    EmptyBlock = 2,
    UnknownBlock = 3,
    BadRegion = 4,
    Overlap = 5,
    NoRegion = 6,
    BadMapping = 7,
    NoSuchQueue = 8,
    OutOfMemory = 9,
}

/// Bytes for regions of the guest's memory. The library's number of byte k is `host` + k.
struct Block {
    host: usize,
    bytes: Vec<AtomicU8>,
    marked: RefCell<BTreeSet<usize>>,
}

impl Block {
    /// A block of zeros, with no page marked; `None` if the allocation fails.
    fn new(host: usize, len: u64) -> Option<Block> {
        let mut bytes = Vec::new();
        let len = usize::try_from(len).ok()?;
        bytes.try_reserve_exact(len).ok()?;
        bytes.resize_with(len, AtomicU8::default);
        Some(Block { host, bytes, marked: RefCell::default() })
    }

    /// The library's number of the first page after the block, for the next block.
    fn end(&self) -> usize {
        self.host + (self.bytes.len() + PAGE - 1) / PAGE * PAGE
    }

    fn load(&self, from: usize, bytes: &mut [u8]) {
        let cells = &self.bytes[from..from + bytes.len()];
        bytes.iter_mut().zip(cells).for_each(|(byte, cell)| *byte = cell.load(Ordering::Relaxed));
    }

    fn store(&self, from: usize, bytes: &[u8]) {
        let cells = &self.bytes[from..from + bytes.len()];
        cells.iter().zip(bytes).for_each(|(cell, &byte)| cell.store(byte, Ordering::Relaxed));
        self.mark(from, bytes.len());
    }

    /// Marks the pages of some bytes.
    fn mark(&self, from: usize, len: usize) {
        if let Some(last) = len.checked_sub(1) {
            self.marked.borrow_mut().extend(from / PAGE..=(from + last) / PAGE);
        }
    }
}

/// A region without its first address.
#[derive(Clone, Copy)]
struct Mapping {
    size: u64,
    block: usize,
}

/// A part of a range of guest addresses that lies in one region.
struct Part {
    /// The region's first address.
    base: u64,
    block: usize,
    offset: usize,
    len: usize,
}

#[derive(Default)]
pub struct Memory {
    blocks: Vec<Block>,
    regions: BTreeMap<u64, Mapping>,
    /// The bytes that the wrapper reported as written since `begin_step`, as ranges of the
    /// library's numbers. Those of the reply come first, in its order.
    stored: RefCell<Vec<Range<usize>>>,
    /// Whether the device that writes them is behind the IOMMU: it marks I/O pages then, which
    /// aren't kept.
    is_translated: bool,
}

impl Memory {
    /// Makes a block of zeros, and returns its number.
    pub fn new_block(&mut self, size: u64) -> Result<usize, Refusal> {
        if size == 0 {
            return Err(Refusal::EmptyBlock);
        }
        let host = self.blocks.last().map_or(PAGE, Block::end);
        self.blocks.push(Block::new(host, size).ok_or(Refusal::OutOfMemory)?);
        Ok(self.blocks.len() - 1)
    }

    /// Adds a region over a whole block.
    pub fn insert(&mut self, base: u64, block: u64) -> Result<(), Refusal> {
        let block = usize::try_from(block).map_err(|_| Refusal::UnknownBlock)?;
        let size = self.blocks.get(block).ok_or(Refusal::UnknownBlock)?.bytes.len() as u64;
        let last = base.checked_add(size - 1).ok_or(Refusal::BadRegion)?;
        if let Some((&other, mapping)) = self.regions.range(..=last).next_back() {
            if other + (mapping.size - 1) >= base {
                return Err(Refusal::Overlap);
            }
        }
        self.regions.insert(base, Mapping { size, block });
        Ok(())
    }

    /// Removes a region. Its block stays.
    pub fn remove(&mut self, base: u64, size: u64) -> Result<(), Refusal> {
        match self.regions.get(&base) {
            Some(mapping) if mapping.size == size => {
                self.regions.remove(&base);
                Ok(())
            }
            _ => Err(Refusal::NoRegion),
        }
    }

    /// The regions as the library takes them.
    pub fn regions(&self) -> Vec<Region> {
        let region = |(&guest, mapping): (&u64, &Mapping)| {
            let host = self.blocks[mapping.block].host;
            Region { guest, len: mapping.size, host }
        };
        self.regions.iter().map(region).collect()
    }

    /// The bytes of a range of guest addresses, region by region.
    fn parts(&self, address: u64, len: u64) -> Result<Vec<Part>, Refusal> {
        let end = address.checked_add(len).ok_or(Refusal::NoPlace)?;
        let (mut at, mut parts) = (address, Vec::new());
        while at < end {
            let (&base, mapping) = self.regions.range(..=at).next_back().ok_or(Refusal::NoPlace)?;
            let offset = at - base;
            let rest = mapping.size.checked_sub(offset).filter(|&rest| rest > 0);
            let len = rest.ok_or(Refusal::NoPlace)?.min(end - at);
            let (block, offset) = (mapping.block, offset as usize);
            parts.push(Part { base, block, offset, len: len as usize });
            at += len;
        }
        Ok(parts)
    }

    /// Writes bytes for the guest. `NoPlace` if not all are mapped.
    pub fn guest_write(&self, address: u64, bytes: &[u8]) -> Result<(), Refusal> {
        let mut rest = bytes;
        for part in self.parts(address, bytes.len() as u64)? {
            let (now, behind) = rest.split_at(part.len);
            self.blocks[part.block].store(part.offset, now);
            rest = behind;
        }
        Ok(())
    }

    /// Reads bytes for the guest. `NoPlace` if not all are mapped.
    pub fn guest_read(&self, address: u64, len: u64) -> Result<Vec<u8>, Refusal> {
        let parts = self.parts(address, len)?;
        let mut bytes = vec![0; parts.iter().map(|part| part.len).sum()];
        let mut rest = &mut bytes[..];
        for part in parts {
            let (now, behind) = rest.split_at_mut(part.len);
            self.blocks[part.block].load(part.offset, now);
            rest = behind;
        }
        Ok(bytes)
    }

    /// Returns the marked pages, each as a block and the page's number in it, and clears their
    /// marks.
    pub fn harvest(&mut self) -> Vec<(usize, usize)> {
        let pages = |(number, block): (usize, &mut Block)| -> Vec<_> {
            block.marked.take().into_iter().map(|page| (number, page)).collect()
        };
        self.blocks.iter_mut().enumerate().flat_map(pages).collect()
    }

    /// The same bytes and regions on another host, with no page marked.
    pub fn moved(&self) -> Option<Memory> {
        let mut moved = Memory { regions: self.regions.clone(), ..Memory::default() };
        for block in &self.blocks {
            let other = Block::new(block.host, block.bytes.len() as u64)?;
            let copied = |(to, from): (&AtomicU8, &AtomicU8)| {
                to.store(from.load(Ordering::Relaxed), Ordering::Relaxed);
            };
            other.bytes.iter().zip(&block.bytes).for_each(copied);
            moved.blocks.push(other);
        }
        Some(moved)
    }

    /// Begins a new list of the bytes that the device writes, behind the IOMMU or not.
    pub fn begin_step(&mut self, is_translated: bool) {
        self.stored.get_mut().clear();
        self.is_translated = is_translated;
    }

    /// Whether a region is the first one over its block.
    fn is_first(&self, part: &Part) -> bool {
        let mut regions = self.regions.iter();
        regions.find(|(_, mapping)| mapping.block == part.block).map(|(&base, _)| base)
            == Some(part.base)
    }

    /// Whether the reply's header and its data share a byte.
    pub fn header_meets_data(&self, data_len: usize, header_len: usize) -> bool {
        let (mut header, mut data) = (Vec::new(), Vec::new());
        let mut done = 0;
        for range in self.stored.borrow().iter() {
            let before = header_len.saturating_sub(done).min(range.len());
            header.push(range.start..range.start + before);
            let rest = (header_len + data_len).saturating_sub(done.max(header_len));
            let behind = (range.len() - before).min(rest);
            data.push(range.start + before..range.start + before + behind);
            done += range.len();
        }
        let meets = |a: &Range<usize>, b: &Range<usize>| a.start.max(b.start) < a.end.min(b.end);
        header.iter().any(|a| data.iter().any(|b| meets(a, b)))
    }

    /// The block of a library's number, and the offset in it.
    fn place(&self, at: usize) -> Option<(&Block, usize)> {
        let number = self.blocks.partition_point(|block| block.host <= at).checked_sub(1)?;
        let block = &self.blocks[number];
        Some((block, at - block.host))
    }
}

impl GuestMemory for Memory {
    fn get_slice(&self, at: usize, len: usize) -> Option<GuestSlice<'_>> {
        let (block, offset) = self.place(at)?;
        block.bytes.get(offset..offset.checked_add(len)?).map(GuestSlice::from)
    }

    fn is_logging(&self) -> bool {
        true
    }

    fn mark(&self, written: GuestRange) {
        for part in self.parts(written.guest, written.len).unwrap_or_default() {
            let block = &self.blocks[part.block];
            if !self.is_translated {
                block.mark(part.offset, part.len);
            } else if !self.is_first(&part) {
                continue; // the wrapper names the bytes in each region over the block
            }
            let at = block.host + part.offset;
            self.stored.borrow_mut().push(at..at + part.len);
        }
    }
}
