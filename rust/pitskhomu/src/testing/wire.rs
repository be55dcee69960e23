//! The records of linux/fuse.h, by their bytes.
use crate::errno::{Answer, Errno};
use crate::flags::OpenOptions;
use crate::sys;
use crate::values::{Attributes, Entry, Handle, Node, Opened, Statistics};
use alloc::vec::Vec;
use core::time::Duration;

/// Little-endian numbers one after another.
#[derive(Default)]
pub(super) struct Bytes(pub Vec<u8>);

impl Bytes {
    pub fn w(self, number: u16) -> Bytes {
        self.bytes(&number.to_le_bytes())
    }

    pub fn d(self, number: u32) -> Bytes {
        self.bytes(&number.to_le_bytes())
    }

    pub fn q(self, number: u64) -> Bytes {
        self.bytes(&number.to_le_bytes())
    }

    pub fn bytes(mut self, bytes: &[u8]) -> Bytes {
        self.0.extend_from_slice(bytes);
        self
    }

    /// A name, and a zero byte.
    pub fn name(self, name: &[u8]) -> Bytes {
        self.bytes(name).bytes(&[0])
    }
}

/// The rest of a reply's data. A reply that ends early is EIO.
pub(super) struct Reply<'r>(pub &'r [u8]);

impl<'r> Reply<'r> {
    pub fn bytes(&mut self, len: usize) -> Answer<&'r [u8]> {
        if len > self.0.len() {
            return Err(Errno::EIO);
        }
        let (bytes, rest) = self.0.split_at(len);
        self.0 = rest;
        Ok(bytes)
    }

    pub fn d(&mut self) -> Answer<u32> {
        self.bytes(4)
            .map(|bytes| bytes.iter().rev().fold(0, |all, &byte| all << 8 | u32::from(byte)))
    }

    pub fn q(&mut self) -> Answer<u64> {
        Ok(u64::from(self.d()?) | u64::from(self.d()?) << 32)
    }

    /// struct `fuse_attr`.
    pub fn attributes(&mut self) -> Answer<Attributes> {
        let raw = sys::Attr {
            ino: self.q()?,
            size: self.q()?,
            blocks: self.q()?,
            atime: self.q()?,
            mtime: self.q()?,
            ctime: self.q()?,
            atime_nanos: self.d()?,
            mtime_nanos: self.d()?,
            ctime_nanos: self.d()?,
            mode: self.d()?,
            nlink: self.d()?,
            uid: self.d()?,
            gid: self.d()?,
            rdev: self.d()?,
            block_size: self.d()?,
            flags: self.d()?,
        };
        Attributes::from_raw(&raw).ok_or(Errno::EIO)
    }

    /// struct `fuse_attr_out`.
    pub fn attributes_out(&mut self) -> Answer<(Attributes, Duration)> {
        let timeout = Duration::new(self.q()?, self.d()?);
        self.d()?;
        Ok((self.attributes()?, timeout))
    }

    /// struct `fuse_entry_out`.
    pub fn entry(&mut self) -> Answer<Entry> {
        let (node, generation) = (Node(self.q()?), self.q()?);
        let seconds = (self.q()?, self.q()?);
        let nanos = (self.d()?, self.d()?);
        Ok(Entry {
            node,
            generation,
            attributes: self.attributes()?,
            attributes_timeout: Duration::new(seconds.1, nanos.1),
            entry_timeout: Duration::new(seconds.0, nanos.0),
        })
    }

    /// struct `fuse_open_out`.
    pub fn opened(&mut self) -> Answer<Opened> {
        let (handle, options) = (Handle(self.q()?), OpenOptions::from_bits(self.d()?));
        self.d()?;
        Ok(Opened { handle, options })
    }

    /// struct `fuse_kstatfs`.
    pub fn statistics(&mut self) -> Answer<Statistics> {
        Ok(Statistics {
            blocks: self.q()?,
            blocks_free: self.q()?,
            blocks_available: self.q()?,
            files: self.q()?,
            files_free: self.q()?,
            block_size: self.d()?,
            name_len: self.d()?,
            fragment_size: self.d()?,
        })
    }
}
