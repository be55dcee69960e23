//! The trait that a file system implements.
use crate::cancelled::Cancelled;
use crate::data::{ReadData, WriteData};
use crate::errno::{Answer, Errno};
use crate::exchange::Exchange;
use crate::flags::{AccessMask, Options, RenameFlags};
use crate::listing::Listing;
use crate::requests::{
    Allocate, Child, CopyFileRange, Create, Forgets, Init, MakeDirectory, MakeNode, Open,
    ReadDirectory, ReadFile, Release, SeekFile, SetAttributes, SetXattr, WriteFile,
};
use crate::values::{Attributes, Context, Entry, Handle, Node, Opened, Statistics};
use crate::CStr;
use core::time::Duration;

/// A file system. Workers of several threads share it by reference.
///
/// It chooses the numbers of nodes and open files. A name is any bytes but zero. A file system that
/// serves a host directory must refuse each name for which [`is_name`](crate::is_name) is false. A
/// method that isn't implemented answers ENOSYS. The exceptions succeed: `init` wants no option,
/// `open` and `opendir` return handle 0, `statfs` zeros, and `destroy`, `forget`, `release` and
/// `releasedir` do nothing. If the reply buffer is too small for an answer, the answer is undone
/// ([`FileSystem::cancelled`]): an entry by `forget`, an open file by `release`.
///
/// These methods answer before they return. A file system that answers later, on another thread or
/// in an async task, takes each call as a value, with an object for its answer
/// ([`Worker::take`](crate::Worker::take)), as in the examples `later` and `tasks`.
///
/// # Errors
/// Each method returns the errno with which the guest's system call fails.
///
/// # Examples
/// ```
/// use pitskhomu::*;
/// use std::time::Duration;
///
/// /// One file, "hello", with a text.
/// struct Hello(&'static [u8]);
///
/// const FILE: Node = Node(2);
///
/// impl Hello {
///     fn attributes(&self, node: Node) -> Attributes {
///         match node {
///             FILE => Attributes::file(0o444).with_inode(node.0).with_size(self.0.len() as u64),
///             _ => Attributes::directory(0o555).with_inode(node.0),
///         }
///     }
/// }
///
/// impl FileSystem for Hello {
///     fn lookup(&self, _: &Context, parent: Node, name: &CStr) -> Answer<Entry> {
///         if parent != Node::ROOT || name.to_bytes() != b"hello" {
///             return Err(Errno::ENOENT);
///         }
///         Ok(Entry::new(FILE, self.attributes(FILE)))
///     }
///
///     fn getattr(
///         &self,
///         _: &Context,
///         node: Node,
///         _: Option<Handle>,
///     ) -> Answer<(Attributes, Duration)> {
///         Ok((self.attributes(node), Duration::from_secs(1)))
///     }
///
///     fn read(
///         &self,
///         _: &Context,
///         _: Node,
///         read: ReadFile,
///         data: &mut ReadData<'_>,
///     ) -> Answer<()> {
///         let from = self.0.len().min(usize::try_from(read.offset).unwrap_or(usize::MAX));
///         data.put(&self.0[from..]);
///         Ok(())
///     }
/// }
/// # let hello = Hello(b"Hello, guest!");
/// # assert_eq!(hello.attributes(FILE).size, 13);
/// ```
#[allow(unused_variables)]
#[allow(clippy::missing_errors_doc)] // each answers an errno, as the trait says
pub trait FileSystem {
    /// Any request, before the library decodes it. With `None` the library decodes it. With `Some`
    /// the method has replied: it stored the reply in the reply buffer, and returns the reply's
    /// length, header included (struct `fuse_out_header`), or 0 for no reply. A length above the
    /// buffer's is answered EIO.
    ///
    /// So a file system can serve an opcode that the library doesn't know, or be any FUSE server.
    /// The library doesn't see these replies: it undoes none, and after INIT you set the device's
    /// options.
    fn reply_by_bytes(&self, exchange: &mut Exchange<'_>) -> Option<u64> {
        None
    }

    /// INIT: a session begins. The guest holds no node but the root, and no file is open. The
    /// answer is the options that the file system wants, of those that the guest has. Some are
    /// agreed on in any case. With an error there is no session.
    fn init(&self, init: Init) -> Answer<Options> {
        Ok(Options::empty())
    }

    /// DESTROY: the session ends.
    fn destroy(&self) {}

    /// An answer of this file system that the guest doesn't get: its queue was reset, or the reply
    /// buffer was too small. The default undoes it, by `forget`, `release` and `releasedir`.
    fn cancelled(&self, cancelled: &Cancelled) {
        cancelled.undo(self);
    }

    /// LOOKUP of a name in a directory: the guest then holds the node once more. ENOENT, or an
    /// entry with node 0, if the name doesn't exist.
    fn lookup(&self, context: &Context, parent: Node, name: &CStr) -> Answer<Entry>;

    /// FORGET: the guest holds a node `count` times less.
    fn forget(&self, node: Node, count: u64) {}

    /// `BATCH_FORGET`: several nodes at a time. The default calls `forget` for each.
    fn batch_forget(&self, forgets: Forgets<'_>) {
        forgets.for_each(|(node, count)| self.forget(node, count));
    }

    /// GETATTR: attributes, and how long the guest may cache them. `handle` is that of the open
    /// file in the request, if it has one.
    fn getattr(
        &self,
        context: &Context,
        node: Node,
        handle: Option<Handle>,
    ) -> Answer<(Attributes, Duration)>;

    /// SETATTR: sets some attributes, and returns all, as `getattr` does.
    fn setattr(
        &self,
        context: &Context,
        node: Node,
        set: &SetAttributes,
    ) -> Answer<(Attributes, Duration)> {
        Err(Errno::ENOSYS)
    }

    /// READLINK: puts a link's target at the front of `target`, and returns its length. Before the
    /// call `target` may hold any bytes. A length above that of `target` is answered ERANGE.
    fn readlink(&self, context: &Context, node: Node, target: &mut [u8]) -> Answer<usize> {
        Err(Errno::ENOSYS)
    }

    /// SYMLINK: makes a link to `target`; the guest holds the new node once.
    fn symlink(&self, context: &Context, link: Child<'_>, target: &CStr) -> Answer<Entry> {
        Err(Errno::ENOSYS)
    }

    /// MKNOD: makes a file, a device, a pipe or a socket; the guest holds the new node once.
    fn mknod(&self, context: &Context, child: Child<'_>, make: MakeNode) -> Answer<Entry> {
        Err(Errno::ENOSYS)
    }

    /// MKDIR: makes a directory; the guest holds the new node once.
    fn mkdir(&self, context: &Context, child: Child<'_>, make: MakeDirectory) -> Answer<Entry> {
        Err(Errno::ENOSYS)
    }

    /// UNLINK: removes a name of a node that isn't a directory.
    fn unlink(&self, context: &Context, child: Child<'_>) -> Answer<()> {
        Err(Errno::ENOSYS)
    }

    /// RMDIR: removes an empty directory.
    fn rmdir(&self, context: &Context, child: Child<'_>) -> Answer<()> {
        Err(Errno::ENOSYS)
    }

    /// RENAME and RENAME2: changes a name to another, as `flags` say.
    fn rename(
        &self,
        context: &Context,
        from: Child<'_>,
        to: Child<'_>,
        flags: RenameFlags,
    ) -> Answer<()> {
        Err(Errno::ENOSYS)
    }

    /// LINK: adds a name to a node; the guest then holds the node once more.
    fn link(&self, context: &Context, node: Node, child: Child<'_>) -> Answer<Entry> {
        Err(Errno::ENOSYS)
    }

    /// OPEN: opens a file, and makes it empty if [`Open::truncates`]. The guest passes the returned
    /// handle with READ and other calls, until RELEASE.
    fn open(&self, context: &Context, node: Node, open: Open) -> Answer<Opened> {
        Ok(Opened::default())
    }

    /// CREATE: makes a file and opens it; the guest holds the new node once.
    fn create(
        &self,
        context: &Context,
        child: Child<'_>,
        create: Create,
    ) -> Answer<(Entry, Opened)> {
        Err(Errno::ENOSYS)
    }

    /// READ: puts data in. The answer is the data that was put in; none is the end of the file.
    fn read(
        &self,
        context: &Context,
        node: Node,
        read: ReadFile,
        data: &mut ReadData<'_>,
    ) -> Answer<()> {
        Err(Errno::ENOSYS)
    }

    /// WRITE: takes data out. The answer is the number of bytes that were taken out.
    fn write(
        &self,
        context: &Context,
        node: Node,
        write: WriteFile,
        data: &mut WriteData<'_>,
    ) -> Answer<()> {
        Err(Errno::ENOSYS)
    }

    /// STATFS: the file system's size and free space.
    fn statfs(&self, context: &Context, node: Node) -> Answer<Statistics> {
        Ok(Statistics::default())
    }

    /// RELEASE: the last file descriptor of an open file was closed. Linux ignores an error.
    fn release(&self, context: &Context, node: Node, release: Release) -> Answer<()> {
        Ok(())
    }

    /// FSYNC: writes the file's data and attributes to the disk; `data_only` is fdatasync.
    fn fsync(&self, context: &Context, node: Node, handle: Handle, data_only: bool) -> Answer<()> {
        Err(Errno::ENOSYS)
    }

    /// FLUSH: a file descriptor of an open file was closed.
    fn flush(&self, context: &Context, node: Node, handle: Handle, lock_owner: u64) -> Answer<()> {
        Err(Errno::ENOSYS)
    }

    /// SETXATTR: sets an extended attribute.
    fn setxattr(
        &self,
        context: &Context,
        node: Node,
        name: &CStr,
        value: &[u8],
        set: SetXattr,
    ) -> Answer<()> {
        Err(Errno::ENOSYS)
    }

    /// GETXATTR: puts the value at the front of `value`, and returns its length. With an empty
    /// `value` the guest asks for the length alone. ENODATA if there is no such attribute, ERANGE
    /// if the value doesn't fit. Before the call `value` may hold any bytes.
    fn getxattr(
        &self,
        context: &Context,
        node: Node,
        name: &CStr,
        value: &mut [u8],
    ) -> Answer<usize> {
        Err(Errno::ENOSYS)
    }

    /// LISTXATTR: as `getxattr`, with the names one after another, each with a zero byte after it.
    fn listxattr(&self, context: &Context, node: Node, names: &mut [u8]) -> Answer<usize> {
        Err(Errno::ENOSYS)
    }

    /// REMOVEXATTR: removes an extended attribute. ENODATA if there is no such attribute.
    fn removexattr(&self, context: &Context, node: Node, name: &CStr) -> Answer<()> {
        Err(Errno::ENOSYS)
    }

    /// OPENDIR: opens a directory. The guest passes the returned handle with READDIR and other
    /// calls, until RELEASEDIR. `flags` are those of `Open`.
    fn opendir(&self, context: &Context, node: Node, flags: u32) -> Answer<Opened> {
        Ok(Opened::default())
    }

    /// READDIR and READDIRPLUS: adds entries until none is left or the next one doesn't fit. No
    /// entry at all is the directory's end. READDIRPLUS takes entries with their nodes too:
    /// [`Listing::add_with`] serves both calls. Linux sends READDIRPLUS only if `init` answers
    /// [`Options::DO_READDIRPLUS`].
    fn readdir(
        &self,
        context: &Context,
        node: Node,
        read: ReadDirectory,
        list: &mut Listing<'_>,
    ) -> Answer<()> {
        Err(Errno::ENOSYS)
    }

    /// RELEASEDIR: the last file descriptor of an open directory was closed; `flags` are those of
    /// `Open`.
    fn releasedir(&self, context: &Context, node: Node, handle: Handle, flags: u32) -> Answer<()> {
        Ok(())
    }

    /// FSYNCDIR: writes a directory's entries to the disk, as `fsync`.
    fn fsyncdir(
        &self,
        context: &Context,
        node: Node,
        handle: Handle,
        data_only: bool,
    ) -> Answer<()> {
        Err(Errno::ENOSYS)
    }

    /// ACCESS: EACCES if the caller lacks a permission of `mask`. After ENOSYS the guest sends no
    /// more ACCESS.
    fn access(&self, context: &Context, node: Node, mask: AccessMask) -> Answer<()> {
        Err(Errno::ENOSYS)
    }

    /// FALLOCATE: allocates or frees the space of a range of a file, as `mode` says.
    fn fallocate(&self, context: &Context, node: Node, allocate: Allocate) -> Answer<()> {
        Err(Errno::ENOSYS)
    }

    /// LSEEK: the new offset, in bytes from the file's start. ENXIO if there is none.
    fn lseek(&self, context: &Context, node: Node, seek: SeekFile) -> Answer<u64> {
        Err(Errno::ENOSYS)
    }

    /// `COPY_FILE_RANGE`: copies bytes, and returns their number, at most `len`.
    fn copy_file_range(&self, context: &Context, copy: CopyFileRange) -> Answer<u64> {
        Err(Errno::ENOSYS)
    }

    /// SYNCFS: writes all data to the disk.
    fn syncfs(&self, context: &Context, node: Node) -> Answer<()> {
        Err(Errno::ENOSYS)
    }
}
