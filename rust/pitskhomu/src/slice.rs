//! The worker's access to bytes of the guest's memory. The bytes change while they are copied, so
//! the only references to them are to atomic numbers.
#![allow(unsafe_code)]

use core::fmt;
use core::marker::PhantomData;
use core::mem::size_of;
use core::slice;
use core::sync::atomic::{AtomicU16, AtomicU32, AtomicU8, AtomicUsize, Ordering};

/// Consecutive bytes of the guest's memory, which the guest and other threads may write at the same
/// time. The worker copies out of them and into them, each byte once, by relaxed atomic accesses.
///
/// **A slice of atomic bytes isn't for a guest that runs.** Safe code makes one, for tests, and the
/// worker then accesses a ring's numbers byte by byte: a driver that runs meanwhile may see half of
/// one, and so may the worker. Beside a running guest a slice is made of a pointer
/// ([`GuestSlice::new`]), by `unsafe` code, which ensures that the bytes are mapped; or by
/// [`MmapMemory`](crate::MmapMemory).
///
/// # Examples
/// ```
/// use pitskhomu::GuestSlice;
/// use std::sync::atomic::AtomicU8;
///
/// let memory: Vec<AtomicU8> = (0..4).map(AtomicU8::new).collect();
/// let slice = GuestSlice::from(&memory[1..]);
/// let mut bytes = [9; 4];
/// assert_eq!(slice.load(&mut bytes), 3);
/// assert_eq!(bytes, [1, 2, 3, 9]);
/// assert_eq!(slice.store(&[7]), 1);
/// assert_eq!(memory[1].load(std::sync::atomic::Ordering::Relaxed), 7);
/// ```
#[derive(Clone, Copy)]
pub struct GuestSlice<'m> {
    at: *mut u8,
    len: usize,
    /// Whether several bytes may be accessed in one step: those of `new`. Atomic bytes of safe code
    /// may not: other safe code accesses them one by one at the same time, and Rust has no
    /// unsynchronized accesses of different sizes to the same bytes (`core::sync::atomic`).
    is_wide: bool,
    memory: PhantomData<&'m [AtomicU8]>,
}

impl fmt::Debug for GuestSlice<'_> {
    fn fmt(&self, f: &mut fmt::Formatter<'_>) -> fmt::Result {
        f.debug_struct("GuestSlice").field("len", &self.len).finish_non_exhaustive()
    }
}

impl<'m> From<&'m [AtomicU8]> for GuestSlice<'m> {
    /// Memory in safe code, **not for a guest that runs**: a number of two bytes is accessed in two
    /// steps.
    fn from(bytes: &'m [AtomicU8]) -> GuestSlice<'m> {
        let at = bytes.as_ptr() as *mut u8;
        GuestSlice { at, len: bytes.len(), is_wide: false, memory: PhantomData }
    }
}

impl<'m> GuestSlice<'m> {
    /// The `len` bytes from `at` on.
    ///
    /// # Safety
    /// As long as `'m` lasts:
    /// - the bytes are mapped, and may be read and written (`at` may be any pointer if `len` is 0);
    /// - no reference to one of them exists in this process, unless to an atomic number;
    /// - other threads of this process access them only by slices, or by atomic or volatile
    ///   operations. The guest and other processes may access them in any way.
    ///
    /// A slice accesses bytes, halves, quarters and words, each by one relaxed atomic operation.
    /// The guest decides which chains overlap, so accesses of different sizes may meet at one byte,
    /// also those of two threads of this process. Rust's memory model has no rule for that. Like
    /// other VMMs this relies on the machine, and on a compiler that makes one instruction of each
    /// atomic access.
    #[must_use]
    pub unsafe fn new(at: *mut u8, len: usize) -> GuestSlice<'m> {
        GuestSlice { at, len, is_wide: true, memory: PhantomData }
    }

    /// The address of its first byte, for a system call. Code that accesses the bytes by it has the
    /// duties of [`GuestSlice::new`].
    #[must_use]
    pub const fn as_ptr(&self) -> *mut u8 {
        self.at
    }

    /// The number of bytes.
    #[must_use]
    pub const fn len(&self) -> usize {
        self.len
    }

    /// Whether it has no byte.
    #[must_use]
    pub const fn is_empty(&self) -> bool {
        self.len == 0
    }

    /// The address of the byte `from`, which is below `len`.
    fn byte(&self, from: usize) -> *mut u8 {
        debug_assert!(from < self.len);
        // SAFETY: `from` is below `len`, so the byte is in the slice.
        unsafe { self.at.add(from) }
    }

    fn atomic_byte(&self, from: usize) -> &'m AtomicU8 {
        accessed(1);
        // SAFETY: the byte is in the slice, and valid: by the contract of `new`, or since it is one
        // of the atomic bytes of `from`.
        unsafe { &*self.byte(from).cast::<AtomicU8>() }
    }

    /// The word that begins at the byte `from`, if it ends before `end` and is aligned.
    #[allow(clippy::cast_ptr_alignment)] // the test comes before the cast
    fn word(&self, from: usize, end: usize) -> Option<&'m AtomicUsize> {
        let at = self.byte(from);
        if !self.is_wide || at as usize % size_of::<usize>() != 0 || end - from < size_of::<usize>()
        {
            return None;
        }
        accessed(1);
        // SAFETY: the slice is of `new`, by whose contract its bytes are valid and are accessed by
        // atomic or volatile operations alone, of any size. The word is aligned, and lies in the
        // slice.
        Some(unsafe { &*at.cast::<AtomicUsize>() })
    }

    /// The words of the first `len` bytes, if the slice may be accessed by words and begins with a
    /// whole one.
    #[allow(clippy::cast_ptr_alignment)] // the test comes before the cast
    fn words(&self, len: usize) -> &'m [AtomicUsize] {
        let word = size_of::<usize>();
        if !self.is_wide || len < word || len > self.len || self.at as usize % word != 0 {
            return &[];
        }
        accessed(len / word);
        // SAFETY: as in `word`: the first is aligned, and all of them lie in the slice.
        unsafe { slice::from_raw_parts(self.at.cast::<AtomicUsize>(), len / word) }
    }

    /// The first two bytes as a number, if the slice is long enough and aligned.
    #[allow(clippy::cast_ptr_alignment)] // the test comes before the cast
    fn half(&self) -> Option<&'m AtomicU16> {
        if !self.is_wide || self.at as usize % size_of::<u16>() != 0 || self.len < size_of::<u16>()
        {
            return None;
        }
        accessed(1);
        // SAFETY: as in `word`: it is aligned, and lies in the slice.
        Some(unsafe { &*self.at.cast::<AtomicU16>() })
    }

    /// The first four bytes as a number, if the slice is long enough and aligned.
    #[allow(clippy::cast_ptr_alignment)] // the test comes before the cast
    fn quarter(&self) -> Option<&'m AtomicU32> {
        if !self.is_wide || self.at as usize % size_of::<u32>() != 0 || self.len < size_of::<u32>()
        {
            return None;
        }
        accessed(1);
        // SAFETY: as in `word`: it is aligned, and lies in the slice.
        Some(unsafe { &*self.at.cast::<AtomicU32>() })
    }

    /// Copies bytes out of the slice, from the first on, as many as both have. Returns their
    /// number.
    pub fn load(&self, bytes: &mut [u8]) -> usize {
        let len = self.len.min(bytes.len());
        let words = self.words(len);
        for (word, to) in words.iter().zip(bytes.chunks_exact_mut(size_of::<usize>())) {
            to.copy_from_slice(&word.load(Ordering::Relaxed).to_ne_bytes());
        }
        let mut done = words.len() * size_of::<usize>();
        while done < len {
            if let Some(word) = self.word(done, len) {
                let loaded = word.load(Ordering::Relaxed).to_ne_bytes();
                bytes[done..done + loaded.len()].copy_from_slice(&loaded);
                done += loaded.len();
            } else {
                bytes[done] = self.atomic_byte(done).load(Ordering::Relaxed);
                done += 1;
            }
        }
        len
    }

    /// Copies bytes into the slice, from the first on, as many as both have. Returns their number.
    #[allow(clippy::must_use_candidate)] // a caller who knows the length needs no number
    pub fn store(&self, bytes: &[u8]) -> usize {
        let len = self.len.min(bytes.len());
        let words = self.words(len);
        for (word, from) in words.iter().zip(bytes.chunks_exact(size_of::<usize>())) {
            let mut stored = [0; size_of::<usize>()];
            stored.copy_from_slice(from);
            word.store(usize::from_ne_bytes(stored), Ordering::Relaxed);
        }
        let mut done = words.len() * size_of::<usize>();
        while done < len {
            if let Some(word) = self.word(done, len) {
                let mut stored = [0; size_of::<usize>()];
                stored.copy_from_slice(&bytes[done..done + size_of::<usize>()]);
                word.store(usize::from_ne_bytes(stored), Ordering::Relaxed);
                done += stored.len();
            } else {
                self.atomic_byte(done).store(bytes[done], Ordering::Relaxed);
                done += 1;
            }
        }
        len
    }

    /// Loads a ring's le16, in one load if the slice is wide and aligned.
    pub(crate) fn load_u16(&self) -> u16 {
        if let Some(half) = self.half() {
            return u16::from_le(half.load(Ordering::Relaxed));
        }
        let mut bytes = [0; 2];
        self.load(&mut bytes);
        u16::from_le_bytes(bytes)
    }

    /// Stores a ring's le32, in one store if the slice is wide and aligned.
    pub(crate) fn store_u32(&self, number: u32) {
        match self.quarter() {
            Some(quarter) => quarter.store(number.to_le(), Ordering::Relaxed),
            None => {
                self.store(&number.to_le_bytes());
            }
        }
    }

    /// Stores a ring's le16, in one store if the slice is wide and aligned.
    pub(crate) fn store_u16(&self, number: u16) {
        match self.half() {
            Some(half) => half.store(number.to_le(), Ordering::Relaxed),
            None => {
                self.store(&number.to_le_bytes());
            }
        }
    }
}

/// Tests count the atomic accesses.
#[cfg(test)]
use tests::accessed;

#[cfg(not(test))]
const fn accessed(_count: usize) {}

#[cfg(test)]
mod tests {
    use super::*;
    use core::cell::{Cell, UnsafeCell};

    std::thread_local! {
        static ACCESSES: Cell<usize> = const { Cell::new(0) };
    }

    pub fn accessed(count: usize) {
        ACCESSES.with(|accesses| accesses.set(accesses.get() + count));
    }

    /// How many accesses something makes.
    fn accesses(what: impl FnOnce()) -> usize {
        ACCESSES.with(|accesses| accesses.set(0));
        what();
        ACCESSES.with(Cell::get)
    }

    /// A ring's number isn't torn: the guest writes it in one step, and reads it so.
    #[test]
    fn a_number_is_one_access() {
        each_slice(|slice, is_wide| {
            for from in 0..9 {
                let steps = |size| if is_wide && from % size == 0 { 1 } else { size };
                let (half, quarter) = (slice(from, 2), slice(from, 4));
                let load = || {
                    half.load_u16();
                };
                assert_eq!(accesses(load), steps(2), "{from}");
                assert_eq!(accesses(|| half.store_u16(7)), steps(2), "{from}");
                assert_eq!(accesses(|| quarter.store_u32(7)), steps(4), "{from}");
            }
        });
    }

    /// Each byte is accessed once.
    #[test]
    fn a_copy_is_as_few_accesses_as_can_be() {
        let size = size_of::<usize>();
        each_slice(|slice, is_wide| {
            for (from, len) in (0..9).flat_map(|from| (0..31).map(move |len| (from, len))) {
                let begin = len.min((size - from % size) % size);
                let words = if is_wide { (len - begin) / size } else { 0 };
                let wanted = words + len - size * words;
                let (part, mut bytes) = (slice(from, len), [0; 40]);
                let load = || {
                    part.load(&mut bytes);
                };
                assert_eq!(accesses(load), wanted, "{from} {len}");
                let store = || {
                    part.store(&[7; 40]);
                };
                assert_eq!(accesses(store), wanted, "{from} {len}");
            }
        });
    }

    /// Slices of 40 bytes, aligned to words, which are accessed by words and byte by byte.
    fn each_slice(mut test: impl FnMut(&dyn Fn(usize, usize) -> GuestSlice<'static>, bool)) {
        let words = [0u64; 5].map(UnsafeCell::new);
        let at = words.as_ptr() as *mut u8;
        // SAFETY: the bytes are part of `words`, which nothing else uses, and `test` keeps none.
        test(&|from, len| unsafe { GuestSlice::new(at.add(from), len) }, true);
        let bytes = at.cast::<AtomicU8>();
        // SAFETY: the same.
        test(&|from, len| unsafe { slice::from_raw_parts(bytes.add(from), len) }.into(), false);
    }

    /// Each start, each length of the slice and each number of bytes around two words, for all
    /// orders of bytes and words: as many bytes as both have are copied, and no other changes.
    #[test]
    fn bytes_are_copied_at_any_place() {
        let new: [u8; 24] = core::array::from_fn(|k| 0x80 + 5 * k as u8);
        let old: [u8; 40] = core::array::from_fn(|k| 1 + 3 * k as u8);
        each_slice(|slice, _| {
            for (from, len) in (0..9).flat_map(|from| (0..24).map(move |len| (from, len))) {
                for count in 0..24 {
                    let (all, part, both) = (slice(0, 40), slice(from, len), len.min(count));
                    assert_eq!((part.len(), part.is_empty()), (len, len == 0));
                    assert_eq!(part.as_ptr() as usize, all.as_ptr() as usize + from);
                    assert_eq!((all.store(&old), part.store(&new[..count])), (40, both));
                    let (mut found, mut wanted) = ([0; 40], old);
                    wanted[from..from + both].copy_from_slice(&new[..both]);
                    assert_eq!((all.load(&mut found), found), (40, wanted), "{from} {len} {count}");
                    let (mut loaded, mut wanted) = ([7; 24], [7; 24]);
                    wanted[..both].copy_from_slice(&new[..both]);
                    assert_eq!((part.load(&mut loaded[..count]), loaded), (both, wanted));
                }
            }
        });
    }

    /// A number is accessed in one step if memory may be and the number is aligned. A longer slice
    /// is copied by whole words where it is aligned.
    #[test]
    fn what_is_aligned_is_one_access() {
        let size = size_of::<usize>();
        each_slice(|slice, is_wide| {
            for (from, len) in (0..17).flat_map(|from| (0..23).map(move |len| (from, len))) {
                let part = slice(from, len);
                let is_one = |size| is_wide && from % size == 0 && len >= size;
                assert_eq!(
                    (part.half().is_some(), part.quarter().is_some()),
                    (is_one(2), is_one(4))
                );
                for count in 0..len {
                    let words = if is_one(size) { count / size } else { 0 };
                    assert_eq!(part.words(count).len(), words, "{from} {len} {count}");
                    let is_word = is_wide && (from + count) % size == 0 && len - count >= size;
                    assert_eq!(part.word(count, len).is_some(), is_word, "{from} {len} {count}");
                }
                assert_eq!(part.words(len + 1).len(), 0, "not more than there is");
            }
        });
    }

    #[test]
    fn numbers_are_little_endian() {
        each_slice(|slice, _| {
            for from in 0..9 {
                let all = slice(0, 40);
                all.store(&[0xee; 40]);
                slice(from, 2).store_u16(0x1234);
                slice(from + 8, 4).store_u32(0x89ab_cdef);
                let (mut found, mut wanted) = ([0; 40], [0xee; 40]);
                wanted[from..from + 2].copy_from_slice(&[0x34, 0x12]);
                wanted[from + 8..from + 12].copy_from_slice(&[0xef, 0xcd, 0xab, 0x89]);
                all.load(&mut found);
                assert_eq!((found, slice(from, 2).load_u16()), (wanted, 0x1234));
                // What a shorter slice lacks is 0, and isn't stored.
                assert_eq!((slice(from, 1).load_u16(), slice(from, 0).load_u16()), (0x34, 0));
                slice(from, 1).store_u16(0x0908);
                slice(from + 8, 3).store_u32(0x0706_0504);
                wanted[from] = 8;
                wanted[from + 8..from + 11].copy_from_slice(&[4, 5, 6]);
                all.load(&mut found);
                assert_eq!(found, wanted);
            }
        });
    }
}
