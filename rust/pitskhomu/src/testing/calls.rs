//! A request for each call of FUSE, and its reply's value.
use super::wire::{Bytes, Reply};
use super::Guest;
use crate::errno::{Answer, Errno};
use crate::flags::{AccessMask, FileKind, Options, RenameFlags, SetAttributesValid};
use crate::requests::{CopyFileRange, SetAttributes};
use crate::values::{Attributes, Entry, Handle, Node, Opened, Statistics};
use alloc::vec::Vec;
use core::time::Duration;

/// The most bytes of data of a request or a reply.
pub const MAX_DATA: usize = 0x2_0000;

/// A name that READDIR or READDIRPLUS returned.
#[derive(Clone, Debug, PartialEq, Eq)]
#[non_exhaustive]
pub struct ListedEntry {
    /// The name.
    pub name: Vec<u8>,
    /// The number that getdents reports.
    pub inode: u64,
    /// The offset with which the listing continues after it.
    pub next_offset: u64,
    /// The file's kind.
    pub kind: FileKind,
    /// With READDIRPLUS, its entry; node 0 if it has none.
    pub found: Option<Entry>,
}

fn args() -> Bytes {
    Bytes::default()
}

/// struct `fuse_read_in`.
fn read_args(handle: Handle, offset: u64, size: usize) -> Bytes {
    args().q(handle.0).q(offset).d(size as u32).d(0).q(0).d(0).d(0)
}

#[allow(clippy::missing_errors_doc)] // each: the reply's errno
#[allow(clippy::cast_sign_loss)] // seconds keep their bits
impl Guest<'_> {
    fn entry_of(&mut self, opcode: u32, node: Node, args: &Bytes) -> Answer<Entry> {
        Reply(&self.ask(opcode, node, &args.0, 128)?).entry()
    }

    fn done(&mut self, opcode: u32, node: Node, args: &Bytes) -> Answer<()> {
        match self.ask(opcode, node, &args.0, 0)?.len() {
            0 => Ok(()),
            _ => Err(Errno::EIO),
        }
    }

    /// INIT of a guest that has all of the options that a device may agree on: the options that
    /// were agreed on.
    pub fn init(&mut self) -> Answer<Options> {
        let flags = (!0x8000_0000u32, 0x1ffu32); // without the bit that is no option
        let args = args().d(7).d(38).d(0x2_0000).d(flags.0).d(flags.1).bytes(&[0; 44]);
        self.ask(26, Node(0), &args.0, 64)?;
        Ok(self.device().options())
    }

    /// DESTROY.
    pub fn destroy(&mut self) {
        self.tell(38, Node(0), &[]);
    }

    /// LOOKUP.
    pub fn lookup(&mut self, parent: Node, name: impl AsRef<[u8]>) -> Answer<Entry> {
        self.entry_of(1, parent, &args().name(name.as_ref()))
    }

    /// FORGET.
    pub fn forget(&mut self, node: Node, count: u64) {
        self.tell(2, node, &count.to_le_bytes());
    }

    /// `BATCH_FORGET`.
    pub fn batch_forget(&mut self, forgets: &[(Node, u64)]) {
        let head = args().d(forgets.len() as u32).d(0);
        let args = forgets.iter().fold(head, |args, (node, count)| args.q(node.0).q(*count));
        self.tell(42, Node(0), &args.0);
    }

    /// GETATTR.
    pub fn getattr(
        &mut self,
        node: Node,
        handle: Option<Handle>,
    ) -> Answer<(Attributes, Duration)> {
        let args = args().d(u32::from(handle.is_some())).d(0).q(handle.map_or(0, |it| it.0));
        Reply(&self.ask(3, node, &args.0, 104)?).attributes_out()
    }

    /// SETATTR.
    pub fn setattr(&mut self, node: Node, set: &SetAttributes) -> Answer<(Attributes, Duration)> {
        const FATTR_FH: SetAttributesValid = SetAttributesValid::from_bits(1 << 6);
        let handle = set.handle.map_or(0, |handle| handle.0);
        let valid = if set.handle.is_some() { set.valid | FATTR_FH } else { set.valid };
        let a = &set.values;
        let args = args().d(valid.bits()).d(0).q(handle).q(a.size).q(set.lock_owner);
        let args = args.q(a.atime.seconds as u64).q(a.mtime.seconds as u64);
        let args = args.q(a.ctime.seconds as u64);
        let args = args.d(a.atime.nanos).d(a.mtime.nanos).d(a.ctime.nanos);
        let args = args.d(a.mode).d(0).d(a.uid).d(a.gid).d(0);
        Reply(&self.ask(4, node, &args.0, 104)?).attributes_out()
    }

    /// READLINK.
    pub fn readlink(&mut self, node: Node) -> Answer<Vec<u8>> {
        self.ask(5, node, &[], 4096)
    }

    /// SYMLINK.
    pub fn symlink(
        &mut self,
        parent: Node,
        name: impl AsRef<[u8]>,
        target: impl AsRef<[u8]>,
    ) -> Answer<Entry> {
        self.entry_of(6, parent, &args().name(name.as_ref()).name(target.as_ref()))
    }

    /// MKNOD.
    pub fn mknod(
        &mut self,
        parent: Node,
        name: impl AsRef<[u8]>,
        mode: u32,
        rdev: u32,
    ) -> Answer<Entry> {
        self.entry_of(8, parent, &args().d(mode).d(rdev).d(0).d(0).name(name.as_ref()))
    }

    /// MKDIR.
    pub fn mkdir(&mut self, parent: Node, name: impl AsRef<[u8]>, mode: u32) -> Answer<Entry> {
        self.entry_of(9, parent, &args().d(mode).d(0).name(name.as_ref()))
    }

    /// UNLINK.
    pub fn unlink(&mut self, parent: Node, name: impl AsRef<[u8]>) -> Answer<()> {
        self.done(10, parent, &args().name(name.as_ref()))
    }

    /// RMDIR.
    pub fn rmdir(&mut self, parent: Node, name: impl AsRef<[u8]>) -> Answer<()> {
        self.done(11, parent, &args().name(name.as_ref()))
    }

    /// RENAME2.
    pub fn rename(
        &mut self,
        (parent, name): (Node, impl AsRef<[u8]>),
        (new_parent, new_name): (Node, impl AsRef<[u8]>),
        flags: RenameFlags,
    ) -> Answer<()> {
        let args = args().q(new_parent.0).d(flags.bits()).d(0);
        self.done(45, parent, &args.name(name.as_ref()).name(new_name.as_ref()))
    }

    /// LINK.
    pub fn link(&mut self, node: Node, parent: Node, name: impl AsRef<[u8]>) -> Answer<Entry> {
        self.entry_of(13, parent, &args().q(node.0).name(name.as_ref()))
    }

    /// OPEN.
    pub fn open(&mut self, node: Node, flags: u32) -> Answer<Opened> {
        Reply(&self.ask(14, node, &args().d(flags).d(0).0, 16)?).opened()
    }

    /// CREATE.
    pub fn create(
        &mut self,
        parent: Node,
        name: impl AsRef<[u8]>,
        mode: u32,
        flags: u32,
    ) -> Answer<(Entry, Opened)> {
        let args = args().d(flags).d(mode).d(0).d(0).name(name.as_ref());
        let reply = self.ask(35, parent, &args.0, 144)?;
        let mut reply = Reply(&reply);
        Ok((reply.entry()?, reply.opened()?))
    }

    /// READ.
    pub fn read(
        &mut self,
        node: Node,
        handle: Handle,
        offset: u64,
        size: usize,
    ) -> Answer<Vec<u8>> {
        self.ask(15, node, &read_args(handle, offset, size).0, size)
    }

    /// WRITE: the number of bytes that were written.
    pub fn write(&mut self, node: Node, handle: Handle, offset: u64, data: &[u8]) -> Answer<usize> {
        let args = read_args(handle, offset, data.len()).bytes(data);
        Ok(Reply(&self.ask(16, node, &args.0, 8)?).d()? as usize)
    }

    /// STATFS.
    pub fn statfs(&mut self, node: Node) -> Answer<Statistics> {
        Reply(&self.ask(17, node, &[], 80)?).statistics()
    }

    /// RELEASE.
    pub fn release(&mut self, node: Node, handle: Handle, flags: u32) -> Answer<()> {
        self.done(18, node, &args().q(handle.0).d(flags).d(0).q(0))
    }

    /// FSYNC.
    pub fn fsync(&mut self, node: Node, handle: Handle, data_only: bool) -> Answer<()> {
        self.done(20, node, &args().q(handle.0).d(data_only.into()).d(0))
    }

    /// SETXATTR.
    pub fn setxattr(
        &mut self,
        node: Node,
        name: impl AsRef<[u8]>,
        value: &[u8],
        flags: u32,
    ) -> Answer<()> {
        let head = args().d(value.len() as u32).d(flags);
        let is_long = self.device().options().contains(Options::SETXATTR_EXT);
        let head = if is_long { head.d(0).d(0) } else { head };
        self.done(21, node, &head.name(name.as_ref()).bytes(value))
    }

    /// GETXATTR of at most `size` bytes.
    pub fn getxattr(&mut self, node: Node, name: impl AsRef<[u8]>, size: usize) -> Answer<Vec<u8>> {
        self.ask(22, node, &args().d(size as u32).d(0).name(name.as_ref()).0, size)
    }

    /// GETXATTR of the length alone.
    pub fn getxattr_len(&mut self, node: Node, name: impl AsRef<[u8]>) -> Answer<usize> {
        Ok(Reply(&self.ask(22, node, &args().q(0).name(name.as_ref()).0, 8)?).d()? as usize)
    }

    /// LISTXATTR of at most `size` bytes.
    pub fn listxattr(&mut self, node: Node, size: usize) -> Answer<Vec<u8>> {
        self.ask(23, node, &args().d(size as u32).d(0).0, size)
    }

    /// REMOVEXATTR.
    pub fn removexattr(&mut self, node: Node, name: impl AsRef<[u8]>) -> Answer<()> {
        self.done(24, node, &args().name(name.as_ref()))
    }

    /// FLUSH.
    pub fn flush(&mut self, node: Node, handle: Handle) -> Answer<()> {
        self.done(25, node, &args().q(handle.0).q(0).q(0))
    }

    /// OPENDIR.
    pub fn opendir(&mut self, node: Node, flags: u32) -> Answer<Opened> {
        Reply(&self.ask(27, node, &args().d(flags).d(0).0, 16)?).opened()
    }

    /// READDIR, of at most `size` bytes of entries. None is the directory's end.
    pub fn readdir(
        &mut self,
        node: Node,
        handle: Handle,
        offset: u64,
        size: usize,
    ) -> Answer<Vec<ListedEntry>> {
        let reply = self.ask(28, node, &read_args(handle, offset, size).0, size)?;
        listed(&reply, false)
    }

    /// READDIRPLUS: the same, with entries.
    pub fn readdirplus(
        &mut self,
        node: Node,
        handle: Handle,
        offset: u64,
        size: usize,
    ) -> Answer<Vec<ListedEntry>> {
        let reply = self.ask(44, node, &read_args(handle, offset, size).0, size)?;
        listed(&reply, true)
    }

    /// RELEASEDIR.
    pub fn releasedir(&mut self, node: Node, handle: Handle, flags: u32) -> Answer<()> {
        self.done(29, node, &args().q(handle.0).d(flags).d(0).q(0))
    }

    /// FSYNCDIR.
    pub fn fsyncdir(&mut self, node: Node, handle: Handle, data_only: bool) -> Answer<()> {
        self.done(30, node, &args().q(handle.0).d(data_only.into()).d(0))
    }

    /// ACCESS.
    pub fn access(&mut self, node: Node, mask: AccessMask) -> Answer<()> {
        self.done(34, node, &args().d(mask.bits()).d(0))
    }

    /// FALLOCATE.
    pub fn fallocate(
        &mut self,
        node: Node,
        handle: Handle,
        mode: u32,
        (offset, len): (u64, u64),
    ) -> Answer<()> {
        self.done(43, node, &args().q(handle.0).q(offset).q(len).d(mode).d(0))
    }

    /// LSEEK.
    pub fn lseek(&mut self, node: Node, handle: Handle, offset: u64, whence: u32) -> Answer<u64> {
        Reply(&self.ask(46, node, &args().q(handle.0).q(offset).d(whence).d(0).0, 8)?).q()
    }

    /// `COPY_FILE_RANGE`: the number of bytes.
    pub fn copy_file_range(&mut self, copy: CopyFileRange) -> Answer<u64> {
        let (from, to) = (copy.from, copy.to);
        let args = args().q(from.handle.0).q(from.offset).q(to.node.0).q(to.handle.0);
        let args = args.q(to.offset).q(copy.len).q(0);
        Ok(Reply(&self.ask(47, from.node, &args.0, 8)?).d()?.into())
    }

    /// SYNCFS.
    pub fn syncfs(&mut self, node: Node) -> Answer<()> {
        self.done(50, node, &args().q(0))
    }
}

/// Entries as struct `fuse_dirent` and struct `fuse_direntplus` have them.
fn listed(reply: &[u8], with_entries: bool) -> Answer<Vec<ListedEntry>> {
    let (mut reply, mut found) = (Reply(reply), Vec::new());
    while !reply.0.is_empty() {
        let entry = if with_entries { Some(reply.entry()?) } else { None };
        let (inode, next_offset, len) = (reply.q()?, reply.q()?, reply.d()? as usize);
        let kind = FileKind(reply.d()?);
        let name = reply.bytes(len)?.to_vec();
        reply.bytes(len.wrapping_neg() & 7)?;
        found.push(ListedEntry { name, inode, next_offset, kind, found: entry });
    }
    Ok(found)
}
