//! The windows of a chain that was popped with an IOMMU's table. The table may change while the
//! chain is in flight, and these don't.
use crate::chain::Chain;
use crate::data::at_most;
use crate::memory::Window;
use crate::status::Status;
use crate::sys;
use alloc::vec::Vec;

/// The library is asked for so many at a time.
const WINDOWS: usize = 64;

/// A window, and how many bytes of its direction lie before it.
#[derive(Clone, Copy, Debug)]
struct Piece {
    from: u64,
    window: Window,
}

/// The windows of one direction of a chain, in the order of its bytes.
#[derive(Debug, Default)]
pub(crate) struct Pieces(Vec<Piece>);

impl Pieces {
    /// Those of `len` bytes; `next` returns the library's from one on.
    fn gather(
        len: u64,
        windows: &mut [Window; WINDOWS],
        mut next: impl FnMut(u64, u64, &mut [Window; WINDOWS]) -> usize,
    ) -> Result<Pieces, Status> {
        let (mut pieces, mut from) = (Vec::new(), 0);
        while from < len {
            let count = next(from, len - from, windows);
            if count == 0 {
                break;
            }
            pieces.try_reserve(count).map_err(|_| Status::OutOfMemory)?;
            for window in &windows[..count] {
                pieces.push(Piece { from, window: *window });
                from += window.len as u64;
            }
        }
        Ok(Pieces(pieces))
    }

    /// Fills the first of some windows with those of `len` bytes from one on.
    pub fn fill<'w>(&self, from: u64, len: u64, windows: &'w mut [Window]) -> &'w [Window] {
        // The first piece that ends behind `from`.
        let first = self.0.partition_point(|piece| piece.from + piece.window.len as u64 <= from);
        let (mut from, mut left, mut count) = (from, len, 0);
        for (piece, to) in self.0[first..].iter().zip(windows.iter_mut()) {
            if left == 0 {
                break;
            }
            let skipped = at_most(from - piece.from, piece.window.len);
            let part = at_most(left, piece.window.len - skipped);
            *to = Window { at: piece.window.at.wrapping_add(skipped), len: part };
            from += part as u64;
            left -= part as u64;
            count += 1;
        }
        &windows[..count]
    }
}

/// The windows of both directions.
#[derive(Debug, Default)]
pub(crate) struct KeptWindows {
    /// Those of the request.
    pub request: Pieces,
    /// Those of the reply buffer.
    pub reply: Pieces,
}

impl KeptWindows {
    /// The windows of the chain in flight, which has no others yet.
    pub fn of(chain: &mut Chain, pop: &sys::PopResult) -> Result<KeptWindows, Status> {
        let mut windows = [Window::default(); WINDOWS];
        let request = Pieces::gather(pop.request_len, &mut windows, |from, len, windows| {
            chain.request_windows(from, len, windows).len()
        })?;
        let reply = Pieces::gather(pop.reply_len, &mut windows, |from, len, windows| {
            chain.reply_windows(from, len, windows).len()
        })?;
        Ok(KeptWindows { request, reply })
    }
}

#[cfg(test)]
mod tests {
    use super::*;

    fn pieces() -> Pieces {
        let window = |at, len| Window { at, len };
        Pieces(alloc::vec![
            Piece { from: 0, window: window(0x1000, 16) },
            Piece { from: 16, window: window(0x5000, 4096) },
            Piece { from: 4112, window: window(0x9008, 8) },
        ])
    }

    fn fill(from: u64, len: u64, most: usize) -> Vec<(usize, usize)> {
        let mut windows = [Window::default(); 4];
        let filled = pieces();
        let filled = filled.fill(from, len, &mut windows[..most]);
        filled.iter().map(|window| (window.at, window.len)).collect()
    }

    #[test]
    fn windows_are_those_of_the_bytes_that_are_asked_for() {
        assert_eq!(fill(0, u64::MAX, 4), [(0x1000, 16), (0x5000, 4096), (0x9008, 8)]);
        assert_eq!(fill(10, 8, 4), [(0x100a, 6), (0x5000, 2)]);
        assert_eq!(fill(16, 4096, 1), [(0x5000, 4096)]);
        assert_eq!(fill(4111, 3, 4), [(0x5fff, 1), (0x9008, 2)]);
        assert_eq!(fill(4119, 9, 4), [(0x900f, 1)]);
        assert_eq!(fill(4120, 1, 4), []);
        assert_eq!(fill(u64::MAX, 1, 4), []);
        assert_eq!(fill(3, 0, 4), []);
        assert_eq!(fill(3, 1, 0), []);
    }
}
