//! A migration's log: a bit for each page of the guest's memory, which the front-end reads.
//! vm-memory marks the pages of a file's data when it writes them (its `Bitmap`). The worker
//! reports each reply and each store in a ring before it notifies the driver.
use std::fs::File;
use std::io;
use std::os::fd::OwnedFd;
use std::sync::atomic::{AtomicBool, AtomicU8, Ordering};
use std::sync::{Arc, OnceLock, PoisonError, RwLock};
use vm_memory::bitmap::{Bitmap, BitmapSlice, WithBitmapSlice};
use vm_memory::mmap::NewBitmap;
use vm_memory::{FileOffset, MmapRegion, VolatileMemory};

/// The log's page size in bytes, for any page size of the guest (`VHOST_LOG_PAGE`).
const PAGE: u64 = 4096;

/// The front-end's log, mapped.
#[derive(Debug)]
pub struct Log {
    map: MmapRegion<()>,
}

impl Log {
    /// Maps `len` bytes of a file from `offset` on.
    pub fn new(file: File, offset: u64, len: u64) -> io::Result<Log> {
        let len = usize::try_from(len).map_err(io::Error::other)?;
        let map =
            MmapRegion::from_file(FileOffset::new(file, offset), len).map_err(io::Error::other)?;
        Ok(Log { map })
    }

    /// The log's file, and the offset and length of the part that is mapped.
    pub fn sent(&self) -> io::Result<(OwnedFd, u64, u64)> {
        let file = self.map.file_offset().ok_or(io::ErrorKind::NotFound)?;
        Ok((file.file().try_clone()?.into(), file.start(), self.map.size() as u64))
    }

    fn mark(&self, first: u64, last: u64) {
        let bits = self.map.as_volatile_slice();
        let pages = 8 * self.map.size() as u64;
        for page in first / PAGE..(last / PAGE + 1).min(pages) {
            if let Ok(byte) = bits.get_atomic_ref::<AtomicU8>((page / 8) as usize) {
                // Release: a front-end that sees the mark also sees the written bytes.
                byte.fetch_or(1 << (page % 8), Ordering::Release);
            }
        }
    }
}

/// The log that pages are marked in, if any. All tables of the memory share it. So a chain in
/// flight over a table that was replaced marks its pages in the log that the front-end reads at the
/// time of the write.
#[derive(Debug, Default)]
pub struct Logging {
    /// Whether there is a log: without one no thread takes the lock.
    is_on: AtomicBool,
    log: RwLock<Option<Arc<Log>>>,
}

impl Logging {
    /// Sets the log in which pages are marked from now on, or none. When this returns, no thread
    /// marks in the old one any more.
    pub fn set(&self, log: Option<Arc<Log>>) {
        let is_on = log.is_some();
        *self.log.write().unwrap_or_else(PoisonError::into_inner) = log;
        self.is_on.store(is_on, Ordering::Release);
    }

    /// Whether pages are logged.
    pub fn is_on(&self) -> bool {
        self.is_on.load(Ordering::Acquire)
    }

    /// Marks the pages of `len` bytes from a guest address on, if pages are logged.
    pub fn mark(&self, first: u64, len: u64) {
        if len == 0 || !self.is_on() {
            return;
        }
        if let Some(log) = self.log.read().unwrap_or_else(PoisonError::into_inner).as_ref() {
            log.mark(first, first.saturating_add(len - 1));
        }
    }
}

/// The log of a region, and the region's first guest address.
type RegionLog = OnceLock<(Arc<Logging>, u64)>;

/// vm-memory reports each write to a region here.
#[derive(Debug, Clone, Default)]
pub struct Marks {
    region: Arc<RegionLog>,
}

impl Marks {
    /// Sets the log of the region, and its first guest address.
    pub fn tie(&self, logging: &Arc<Logging>, guest: u64) {
        let _ = self.region.set((logging.clone(), guest));
    }
}

fn mark(region: &RegionLog, offset: usize, len: usize) {
    if let Some((logging, guest)) = region.get() {
        logging.mark(guest.saturating_add(offset as u64), len as u64);
    }
}

/// The marks of a part of a region.
#[derive(Debug, Clone)]
pub struct MarksFrom<'a> {
    region: &'a RegionLog,
    offset: usize,
}

impl<'a> WithBitmapSlice<'a> for Marks {
    type S = MarksFrom<'a>;
}

impl Bitmap for Marks {
    fn mark_dirty(&self, offset: usize, len: usize) {
        mark(&self.region, offset, len);
    }
    fn dirty_at(&self, _offset: usize) -> bool {
        false // only the front-end reads the log
    }
    fn slice_at(&self, offset: usize) -> MarksFrom<'_> {
        MarksFrom { region: &self.region, offset }
    }
}

impl NewBitmap for Marks {
    fn with_len(_len: usize) -> Marks {
        Marks::default()
    }
}

impl<'a> WithBitmapSlice<'_> for MarksFrom<'a> {
    type S = MarksFrom<'a>;
}

impl BitmapSlice for MarksFrom<'_> {}

impl<'a> Bitmap for MarksFrom<'a> {
    fn mark_dirty(&self, offset: usize, len: usize) {
        mark(self.region, self.offset.saturating_add(offset), len);
    }
    fn dirty_at(&self, _offset: usize) -> bool {
        false
    }
    fn slice_at(&self, offset: usize) -> MarksFrom<'a> {
        MarksFrom { region: self.region, offset: self.offset.saturating_add(offset) }
    }
}

#[cfg(test)]
mod tests {
    use super::*;

    fn log(len: u64) -> (File, Arc<Log>) {
        let file = crate::pipe::scratch().expect("a file in memory");
        file.set_len(len).expect("room");
        (file.try_clone().expect("a descriptor"), Arc::new(Log::new(file, 0, len).expect("a log")))
    }

    fn bytes(file: &File, len: usize) -> Vec<u8> {
        use std::os::unix::fs::FileExt;
        let mut bytes = vec![0; len];
        file.read_exact_at(&mut bytes, 0).expect("bytes");
        bytes
    }

    fn marks(logging: &Arc<Logging>, guest: u64) -> Marks {
        let marks = Marks::default();
        marks.tie(logging, guest);
        marks
    }

    #[test]
    fn marks_pages_while_it_is_on() {
        let (file, log) = log(4096);
        let logging: Arc<Logging> = Arc::default();
        let marks = marks(&logging, 0x8000);
        marks.mark_dirty(0, 4096);
        assert_eq!(bytes(&file, 4096), vec![0; 4096]);
        logging.set(Some(log));
        marks.slice_at(0x1000).slice_at(0xfff).mark_dirty(0, 2); // the pages 9 and 10
        marks.mark_dirty(0x7000, 0); // none
        assert_eq!(bytes(&file, 3), [0, 0b110, 0]);
        logging.set(None);
        marks.mark_dirty(0, 4096);
        assert_eq!(bytes(&file, 3), [0, 0b110, 0]);
    }

    #[test]
    fn what_was_taken_before_a_log_marks_in_that_log() {
        let ((old_file, old), (file, new)) = (log(4096), log(4096));
        let logging: Arc<Logging> = Arc::default();
        let marks = marks(&logging, 0);
        let taken = marks.slice_at(0x1000);
        logging.set(Some(old));
        logging.set(Some(new));
        taken.mark_dirty(0, 1);
        assert_eq!((bytes(&old_file, 1), bytes(&file, 1)), (vec![0], vec![0b10]));
    }

    #[test]
    fn what_the_log_has_no_bits_for_is_not_marked() {
        let (file, log) = log(4096);
        let logging: Arc<Logging> = Arc::default();
        logging.set(Some(log));
        marks(&logging, 8 * 4096 * 4096 - 4096).mark_dirty(0, 0x10_0000);
        assert_eq!(bytes(&file, 4096)[4094..], [0, 0x80]);
        let marks = marks(&logging, u64::MAX - 0xfff);
        marks.mark_dirty(0xfff, 1);
        marks.mark_dirty(usize::MAX, usize::MAX);
    }
}
