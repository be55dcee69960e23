//! READ's and WRITE's data from and to a file, without a copy: system calls on the guest's own
//! memory (preadv and pwritev of Linux).
#![allow(unsafe_code)]

use crate::data::{at_most, ReadData, WriteData};
use crate::memory::{GuestMemory, Window};
use crate::slice::GuestSlice;
use alloc::vec::Vec;
use core::marker::PhantomData;
use std::fs::File;
use std::io::{self, ErrorKind};
use std::os::raw::{c_int, c_void};
use std::os::unix::fs::FileExt;
use std::os::unix::io::AsRawFd;

/// The most windows of one system call.
const WINDOWS: usize = 64;
/// The most bytes that one system call reads for an owned request: Linux's longest READ. A guest
/// that asks for more of a short file has no more memory allocated.
const BUFFER: usize = 1 << 20;

/// struct iovec of sys/uio.h.
#[repr(C)]
#[derive(Clone, Copy)]
struct Piece {
    at: *mut c_void,
    len: usize,
}

extern "C" {
    fn preadv(fd: c_int, pieces: *const Piece, count: c_int, offset: i64) -> isize;
    fn pwritev(fd: c_int, pieces: *const Piece, count: c_int, offset: i64) -> isize;
}

/// A system call on a file, `preadv` or `pwritev`, with pieces of memory.
///
/// # Safety
/// The pieces are valid for the call's reads or writes.
unsafe fn move_bytes(
    call: unsafe extern "C" fn(c_int, *const Piece, c_int, i64) -> isize,
    pieces: &[Piece],
    file: &File,
    offset: u64,
) -> io::Result<u64> {
    // `EINVAL`, as of an offset, or of so many pieces, that the system doesn't have.
    let (offset, count) = match (i64::try_from(offset), c_int::try_from(pieces.len())) {
        (Ok(offset), Ok(count)) => (offset, count),
        _ => return Err(io::Error::from_raw_os_error(22)),
    };
    // SAFETY: there are `count` pieces, which the caller has found to be valid. The call keeps no
    // pointer.
    let moved = unsafe { call(file.as_raw_fd(), pieces.as_ptr(), count, offset) };
    u64::try_from(moved).map_err(|_| io::Error::last_os_error())
}

/// Reads `len` bytes of a file into a buffer, behind its own. Returns how many there were.
fn read_behind(buffer: &mut Vec<u8>, len: usize, file: &File, offset: u64) -> io::Result<u64> {
    buffer.try_reserve(len).map_err(|_| io::Error::from_raw_os_error(12))?; // `ENOMEM`
    let piece = Piece { at: buffer.spare_capacity_mut().as_mut_ptr().cast(), len };
    // SAFETY: the buffer has so many spare bytes, which the call may write.
    let moved = unsafe { move_bytes(preadv, &[piece], file, offset) }?;
    // SAFETY: the system has written the first `moved` of them.
    unsafe { buffer.set_len(buffer.len() + at_most(moved, len)) };
    Ok(moved)
}

/// The bytes of windows, as a system call takes them. They end at the first window that the memory
/// doesn't have.
struct Pieces<'m> {
    list: [Piece; WINDOWS],
    /// How many of the list they are.
    count: usize,
    len: u64,
    memory: PhantomData<GuestSlice<'m>>,
}

impl<'m> Pieces<'m> {
    fn new(memory: &'m dyn GuestMemory, windows: &[Window]) -> Pieces<'m> {
        let none = Piece { at: core::ptr::null_mut(), len: 0 };
        let mut found = Pieces { list: [none; WINDOWS], count: 0, len: 0, memory: PhantomData };
        for (window, piece) in windows.iter().zip(&mut found.list) {
            match memory.get_slice(window.at, window.len) {
                Some(slice) if slice.len() == window.len => {
                    *piece = Piece { at: slice.as_ptr().cast(), len: window.len };
                    found.len += window.len as u64;
                    found.count += 1;
                }
                _ => break,
            }
        }
        found
    }

    /// Makes a system call with them.
    fn call(
        &self,
        call: unsafe extern "C" fn(c_int, *const Piece, c_int, i64) -> isize,
        file: &File,
        offset: u64,
    ) -> io::Result<u64> {
        if self.count == 0 {
            return Err(io::Error::from_raw_os_error(14)); // `EFAULT`: the memory lacks them
        }
        // SAFETY: each piece is a slice of the memory, which `self` borrows: by the contract of
        // `GuestSlice` its bytes are mapped, may be read and written, and are accessed by atomic or
        // volatile operations alone.
        unsafe { move_bytes(call, &self.list[..self.count], file, offset) }
    }
}

/// Moves bytes piece by piece until one is short. `piece` gets how many were moved, and returns how
/// many it moved and wanted to. A call that a signal interrupted is made again. Only an error of
/// the first piece is returned: the guest's next call meets a later one again.
fn move_pieces(mut piece: impl FnMut(u64) -> io::Result<(u64, u64)>) -> io::Result<u64> {
    let mut done = 0;
    loop {
        match piece(done) {
            Ok((moved, wanted)) => {
                done += moved;
                if moved < wanted || wanted == 0 {
                    return Ok(done);
                }
            }
            Err(error) if error.kind() == ErrorKind::Interrupted => {}
            Err(error) if done == 0 => return Err(error),
            Err(_) => return Ok(done),
        }
    }
}

impl ReadData<'_> {
    /// Fills the data from a file, from a byte of it on, without a copy: as much as fits, or up to
    /// the file's end. Returns the number of bytes, which [`ReadData::done`] counts.
    ///
    /// # Errors
    /// Those of pread. After some bytes they aren't returned.
    ///
    /// # Examples
    /// ```
    /// # use pitskhomu::*;
    /// # use std::fs::File;
    /// /// READ of a file system that has an open file for each handle.
    /// fn read(file: &File, read: &ReadFile, data: &mut ReadData<'_>) -> Answer<()> {
    ///     data.read_from(file, read.offset)?;
    ///     Ok(())
    /// }
    /// ```
    pub fn read_from(&mut self, file: &File, offset: u64) -> io::Result<u64> {
        move_pieces(|done| {
            let (from, wanted) = (offset.saturating_add(done), self.left());
            if wanted == 0 {
                return Ok((0, 0));
            }
            let mut windows = [Window::default(); WINDOWS];
            if let Some((memory, windows)) = self.pieces(&mut windows) {
                let pieces = Pieces::new(memory, windows);
                let moved = pieces.call(preadv, file, from)?;
                self.advance(moved);
                return Ok((moved, pieces.len));
            }
            let len = at_most(wanted, BUFFER);
            let moved = self.fill(|buffer| read_behind(buffer, len, file, from))?;
            Ok((moved, len as u64))
        })
    }
}

impl WriteData<'_> {
    /// Writes the data that is left to a file, from a byte of it on, without a copy. Returns the
    /// number of bytes, which [`WriteData::done`] counts.
    ///
    /// # Errors
    /// Those of pwrite. After some bytes they aren't returned.
    pub fn write_to(&mut self, file: &File, offset: u64) -> io::Result<u64> {
        move_pieces(|done| {
            let from = offset.saturating_add(done);
            if self.left() == 0 {
                return Ok((0, 0));
            }
            let mut windows = [Window::default(); WINDOWS];
            let (moved, wanted) = match self.pieces(&mut windows) {
                Ok((memory, windows)) => {
                    let pieces = Pieces::new(memory, windows);
                    (pieces.call(pwritev, file, from)?, pieces.len)
                }
                Err(bytes) => (file.write_at(bytes, from)? as u64, bytes.len() as u64),
            };
            self.advance(moved);
            Ok((moved, wanted))
        })
    }
}

#[cfg(test)]
mod tests {
    use super::*;
    use std::vec;

    /// Moves pieces with these outcomes; the number of bytes before each of them.
    fn moved(outcomes: vec::Vec<io::Result<(u64, u64)>>) -> (io::Result<u64>, vec::Vec<u64>) {
        let (mut outcomes, mut before) = (outcomes.into_iter(), vec![]);
        let moved = move_pieces(|done| {
            before.push(done);
            outcomes.next().unwrap()
        });
        assert!(outcomes.next().is_none());
        (moved, before)
    }

    #[test]
    fn a_signal_ends_no_move() {
        let error = |kind: ErrorKind| Err(kind.into());
        let again = || error(ErrorKind::Interrupted);
        let (count, before) = moved(vec![again(), again(), Ok((8, 8)), again(), Ok((3, 4))]);
        assert_eq!((count.unwrap(), before), (11, vec![0, 0, 0, 8, 8]));
        let (count, _) = moved(vec![again(), error(ErrorKind::Other)]);
        assert_eq!(count.unwrap_err().kind(), ErrorKind::Other);
        let (count, _) = moved(vec![Ok((8, 8)), error(ErrorKind::Other)]);
        assert_eq!(count.unwrap(), 8);
    }
}
