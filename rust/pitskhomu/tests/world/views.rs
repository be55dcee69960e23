//! The guest's frames, and what workers see of them.
use pitskhomu::*;
use std::cell::{Cell, RefCell};
use std::collections::BTreeSet;
use std::sync::atomic::{AtomicU8, Ordering};
use std::sync::Arc;

pub const PAGE: u64 = 0x1000;
pub const FRAMES: usize = 40;
/// Some frames have second guest addresses, so much behind the first.
pub const SECOND: u64 = 0x100_0000;
const SECOND_FRAMES: std::ops::Range<u64> = 8..26;

pub struct Frames(Vec<AtomicU8>);

impl Frames {
    pub fn new() -> Frames {
        Frames((0..FRAMES * PAGE as usize).map(|_| AtomicU8::new(0)).collect())
    }

    pub fn read(&self, at: usize) -> u8 {
        self.0[at].load(Ordering::Relaxed)
    }

    pub fn all(&self) -> Vec<u8> {
        let mut bytes = vec![0; self.0.len()];
        GuestSlice::from(&self.0[..]).load(&mut bytes);
        bytes
    }

    pub fn write(&self, at: usize, byte: u8) {
        self.0[at].store(byte, Ordering::Relaxed);
    }
}

/// The frames by numbers that no other view has. What a worker asks for lies in one region.
pub struct View {
    frames: Arc<Frames>,
    pub regions: Vec<Region>,
    /// The first frame of each region.
    first: Vec<usize>,
    pub has_second: bool,
    pub is_logging: Cell<bool>,
    /// The guest addresses that were marked.
    pub marks: RefCell<BTreeSet<u64>>,
    /// Panics once so many slices were asked for.
    pub panics_after: Cell<Option<u64>>,
}

impl View {
    pub fn new(frames: &Arc<Frames>, number: usize, shape: u64) -> View {
        let base = number << 32;
        let region = |pages: std::ops::Range<u64>, guest: u64, host: usize| Region {
            guest: guest + pages.start * PAGE,
            len: (pages.end - pages.start) * PAGE,
            host: base + host,
        };
        let last = FRAMES as u64;
        let (regions, first) = match shape {
            0 => (vec![region(0..last, 0, 0)], vec![0]),
            1 => {
                // The first two are neighbours by their numbers too.
                let (front, rest) = (region(21..30, 0, 0), region(30..last, 0, 0x9000));
                (vec![front, rest, region(0..21, 0, 0x100_0000)], vec![21, 30, 0])
            }
            _ => {
                // The two lie over the same numbers.
                let second = 0x8000 + 0x200_0000;
                let rest = region(26..last, 0, 0);
                let parts =
                    vec![region(0..26, 0, 0x200_0000), rest, region(SECOND_FRAMES, SECOND, second)];
                (parts, vec![0, 26, 8])
            }
        };
        View {
            frames: frames.clone(),
            regions,
            first,
            has_second: shape == 2,
            is_logging: Cell::new(false),
            marks: RefCell::default(),
            panics_after: Cell::new(None),
        }
    }

    /// The marks of a byte that was written by the worker's numbers.
    pub fn aliases(&self, guest: u64) -> Vec<u64> {
        let has_second = self.has_second && SECOND_FRAMES.contains(&(guest / PAGE));
        let second = has_second.then_some(guest + SECOND);
        std::iter::once(guest).chain(second).collect()
    }
}

impl GuestMemory for View {
    fn get_slice(&self, at: usize, len: usize) -> Option<GuestSlice<'_>> {
        match self.panics_after.get() {
            Some(0) => std::panic::panic_any("wanted"),
            Some(left) => self.panics_after.set(Some(left - 1)),
            None => {}
        }
        let regions = self.regions.iter().zip(&self.first);
        let place = regions.filter_map(|(region, first)| {
            let offset = at.checked_sub(region.host)?;
            (offset as u64 + len as u64 <= region.len).then_some(first * PAGE as usize + offset)
        });
        let place = place.min().unwrap_or_else(|| panic!("{at:#x} is no number of the worker's"));
        Some(GuestSlice::from(&self.frames.0[place..][..len]))
    }

    fn is_logging(&self) -> bool {
        self.is_logging.get()
    }

    fn mark(&self, written: GuestRange) {
        self.marks.borrow_mut().extend(written.guest..written.guest + written.len);
    }
}
