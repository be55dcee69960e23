//! A chain by its bytes, for a file system that is itself a FUSE server.
use crate::chain::Chain;
use crate::data::{at_most, load_request, store_room, Counts};
use crate::errno::Errno;
use crate::memory::{GuestMemory, Window};
use core::fmt;

/// A reply's header (struct `fuse_out_header`).
const HEADER_LEN: usize = 16;

/// A chain in flight by its bytes: the request, and the reply buffer, header included
/// ([`FileSystem::reply_by_bytes`](crate::FileSystem::reply_by_bytes)).
pub struct Exchange<'a> {
    chain: &'a mut Chain,
    memory: &'a dyn GuestMemory,
    /// The request's first bytes, which were loaded.
    front: &'a [u8],
    request_len: u64,
    room_len: u64,
    counts: &'a mut Counts,
}

impl fmt::Debug for Exchange<'_> {
    fn fmt(&self, f: &mut fmt::Formatter<'_>) -> fmt::Result {
        f.debug_struct("Exchange")
            .field("front", &self.front)
            .field("request_len", &self.request_len)
            .field("room_len", &self.room_len)
            .finish_non_exhaustive()
    }
}

impl<'a> Exchange<'a> {
    pub(crate) fn new(
        chain: &'a mut Chain,
        memory: &'a dyn GuestMemory,
        front: &'a [u8],
        request_len: u64,
        room_len: u64,
        counts: &'a mut Counts,
    ) -> Exchange<'a> {
        Exchange { chain, memory, front, request_len, room_len, counts }
    }

    /// The length of the request, in bytes.
    #[must_use]
    pub fn request_len(&self) -> u64 {
        self.request_len
    }

    /// The length of the reply buffer, in bytes.
    #[must_use]
    pub fn room_len(&self) -> u64 {
        self.room_len
    }

    /// The request's opcode (struct `fuse_in_header`); 0 if the request is too short to have one.
    #[must_use]
    pub fn opcode(&self) -> u32 {
        opcode(self.front)
    }

    /// The request's `unique`, the guest's number of it (struct `fuse_in_header`); 0 if the request
    /// is too short to have one.
    #[must_use]
    pub fn unique(&self) -> u64 {
        unique(self.front)
    }

    /// Copies bytes of the request, from byte `from` on, and returns their number. The guest may
    /// write to them at the same time, so load each byte once. The first bytes, which have the
    /// header, don't change: the worker has loaded them.
    pub fn load(&mut self, from: u64, bytes: &mut [u8]) -> usize {
        let known = self.front.get(at_most(from, usize::MAX)..).unwrap_or_default();
        let len = known.len().min(bytes.len());
        bytes[..len].copy_from_slice(&known[..len]);
        len + load_request(
            self.chain,
            self.memory,
            from.saturating_add(len as u64),
            &mut bytes[len..],
        )
    }

    /// The windows of the request's bytes from byte `from` on, as many as the slice holds.
    pub fn request_windows<'w>(&mut self, from: u64, windows: &'w mut [Window]) -> &'w [Window] {
        self.chain.request_windows(from, u64::MAX - from, windows)
    }

    /// Stores bytes in the reply buffer, from its byte `from` on, and returns how many fit.
    pub fn store(&mut self, from: u64, bytes: &[u8]) -> usize {
        self.written_up_to(from.saturating_add(bytes.len() as u64));
        store_room(self.chain, self.memory, from, bytes)
    }

    /// The windows of the reply buffer from its byte `from` on, as many as the slice holds. Report
    /// the bytes that you store by them with `written_up_to`.
    pub fn reply_windows<'w>(&mut self, from: u64, windows: &'w mut [Window]) -> &'w [Window] {
        let windows = self.chain.reply_windows(from, u64::MAX - from, windows);
        self.counts.lend(from, windows.iter().map(|window| window.len as u64));
        windows
    }

    /// Reports that the bytes of the reply buffer before `end` may have been written by its
    /// windows. A migration's log needs this for bytes after the reply's end.
    pub fn written_up_to(&mut self, end: u64) {
        self.counts.reach(end.min(self.room_len));
    }

    /// Stores the reply of an error, and returns its length in bytes: 0 if the request has no
    /// `unique`, or the reply buffer is too small.
    #[allow(clippy::cast_possible_truncation)] // the header's length is 16
    pub fn store_error(&mut self, error: Errno) -> u64 {
        if self.front.len() < HEADER_LEN || self.room_len < HEADER_LEN as u64 {
            return 0;
        }
        let mut header = [0; HEADER_LEN];
        header[..4].copy_from_slice(&(HEADER_LEN as u32).to_le_bytes());
        header[4..8].copy_from_slice(&error.number().wrapping_neg().to_le_bytes());
        header[8..].copy_from_slice(&self.unique().to_le_bytes());
        self.store(0, &header) as u64
    }

    /// The file system has returned: what it reported is all that was written.
    pub(crate) fn settle(&mut self) {
        self.counts.settle();
    }
}

/// The opcode of a request; 0 if it has none.
pub(crate) fn opcode(request: &[u8]) -> u32 {
    request.get(4..8).and_then(|bytes| bytes.try_into().ok()).map_or(0, u32::from_le_bytes)
}

/// The `unique` of a request; 0 if it has none.
pub(crate) fn unique(request: &[u8]) -> u64 {
    request.get(8..16).and_then(|bytes| bytes.try_into().ok()).map_or(0, u64::from_le_bytes)
}
