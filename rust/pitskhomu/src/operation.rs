//! A decoded call as a value: the operation with its arguments, and the object that takes the
//! answer.
use crate::chain::Chain;
use crate::data::{at_most, Counts, ReadData, WriteData};
use crate::errno::{Answer, Errno};
use crate::file_system::FileSystem;
use crate::flags::{AccessMask, Options, RenameFlags, SetAttributesValid};
use crate::listing::Listing;
use crate::memory::GuestMemory;
use crate::reply::{Reply, Unsent};
use crate::requests::{
    Allocate, Child, CopyFileRange, Create, FilePlace, Forgets, Init, Label, MakeDirectory,
    MakeNode, Open, ReadDirectory, ReadFile, Release, SeekFile, SetAttributes, SetValues, SetXattr,
    WriteFile,
};
use crate::status::Status;
use crate::sys::{self, answer, kind};
use crate::values::{Context, Handle, Node};
use crate::CStr;
use alloc::vec::Vec;

/// The flag of SETXATTR that clears the set-group bit.
const SETXATTR_ACL_KILL_SGID: u32 = 1;

/// A file call with its arguments. The [`FileSystem`](crate::FileSystem) has a method for each, and
/// says what it does. Behind each is the [`Response`](crate::Response) that it takes.
#[derive(Debug)]
#[non_exhaustive]
#[allow(missing_docs)] // the fields are the arguments of the trait's methods
pub enum Operation<'a> {
    /// Nothing is to be done, and nothing answered: the chain has its reply, or gets none. Drop
    /// the reply object.
    None,
    /// INIT: `Options`.
    Init(Init),
    /// DESTROY: `Done`.
    Destroy,
    /// LOOKUP: `Entry`.
    Lookup { parent: Node, name: &'a CStr },
    /// FORGET: no answer.
    Forget { node: Node, count: u64 },
    /// `BATCH_FORGET`: no answer.
    BatchForget(Forgets<'a>),
    /// GETATTR: `Attributes`.
    Getattr { node: Node, handle: Option<Handle> },
    /// SETATTR: `Attributes`.
    Setattr { node: Node, set: SetAttributes },
    /// READLINK: `Data`, of at most `size` bytes.
    Readlink { node: Node, size: usize },
    /// SYMLINK: `Entry`.
    Symlink { link: Child<'a>, target: &'a CStr },
    /// MKNOD: `Entry`.
    Mknod { child: Child<'a>, make: MakeNode },
    /// MKDIR: `Entry`.
    Mkdir { child: Child<'a>, make: MakeDirectory },
    /// UNLINK: `Done`.
    Unlink(Child<'a>),
    /// RMDIR: `Done`.
    Rmdir(Child<'a>),
    /// RENAME and RENAME2: `Done`.
    Rename { from: Child<'a>, to: Child<'a>, flags: RenameFlags },
    /// LINK: `Entry`.
    Link { node: Node, child: Child<'a> },
    /// OPEN: `Opened`.
    Open { node: Node, open: Open },
    /// CREATE: `Created`.
    Create { child: Child<'a>, create: Create },
    /// READ: `Data`, which `data` makes.
    Read { node: Node, read: ReadFile, data: ReadData<'a> },
    /// WRITE: `Written`, the number of bytes that were taken out of `data`
    /// ([`WriteData::done`]).
    Write { node: Node, write: WriteFile, data: WriteData<'a> },
    /// STATFS: `Statistics`.
    Statfs { node: Node },
    /// RELEASE: `Done`.
    Release { node: Node, release: Release },
    /// FSYNC: `Done`.
    Fsync { node: Node, handle: Handle, data_only: bool },
    /// FLUSH: `Done`.
    Flush { node: Node, handle: Handle, lock_owner: u64 },
    /// SETXATTR: `Done`.
    Setxattr { node: Node, name: &'a CStr, value: &'a [u8], set: SetXattr },
    /// GETXATTR: `Data`, of at most `size` bytes; `Size` if that is `None`.
    Getxattr { node: Node, name: &'a CStr, size: Option<usize> },
    /// LISTXATTR: as GETXATTR, the names one after another, each with a zero byte after it.
    Listxattr { node: Node, size: Option<usize> },
    /// REMOVEXATTR: `Done`.
    Removexattr { node: Node, name: &'a CStr },
    /// OPENDIR: `Opened`.
    Opendir { node: Node, flags: u32 },
    /// READDIR and READDIRPLUS: `Entries`, which `list` makes.
    Readdir { node: Node, read: ReadDirectory, list: Listing<'a> },
    /// RELEASEDIR: `Done`.
    Releasedir { node: Node, handle: Handle, flags: u32 },
    /// FSYNCDIR: `Done`.
    Fsyncdir { node: Node, handle: Handle, data_only: bool },
    /// ACCESS: `Done`.
    Access { node: Node, mask: AccessMask },
    /// FALLOCATE: `Done`.
    Fallocate { node: Node, allocate: Allocate },
    /// LSEEK: `Offset`.
    Lseek { node: Node, seek: SeekFile },
    /// `COPY_FILE_RANGE`: `Written`, of at most `len` bytes.
    CopyFileRange(CopyFileRange),
    /// SYNCFS: `Done`.
    Syncfs { node: Node },
}

/// The name or value at a span of a request.
fn bytes(request: &[u8], span: sys::Span) -> Answer<&[u8]> {
    let from = span.at as usize;
    request.get(from..from + span.len as usize).ok_or(Errno::EINVAL)
}

/// The name at a span of a request. A zero byte follows it.
fn name(request: &[u8], span: sys::Span) -> Answer<&CStr> {
    let with_zero = sys::Span { at: span.at, len: span.len.saturating_add(1) };
    CStr::from_bytes_with_nul(bytes(request, with_zero)?).map_err(|_| Errno::EINVAL)
}

/// The value, if the request has one.
fn optional<T>(is_there: u8, value: T) -> Option<T> {
    Some(value).filter(|_| is_there != 0)
}

/// The caller of a request, and its numbers.
pub(crate) fn context(id: crate::RequestId, call: &sys::Call) -> Context {
    let sys::Call { unique, uid, gid, pid, has_group, group, .. } = *call;
    Context { id, unique, uid, gid, pid, supplementary_group: optional(has_group, group) }
}

/// The places of a worker for the data of a reply.
pub(crate) struct Places<'a> {
    pub chain: &'a mut Chain,
    pub memory: &'a dyn GuestMemory,
    /// The list of READDIR, how much of it is used, and the nodes of its entries.
    pub list: (&'a mut [u8], &'a mut usize, &'a mut Vec<Node>),
    /// The bytes of the reply buffer.
    pub counts: &'a mut Counts,
}

/// Where the data of a call lies, and where that of its reply goes.
pub(crate) enum Data<'a> {
    /// The guest's memory.
    InPlace(Places<'a>),
    /// These bytes of a WRITE, and buffers.
    Owned(&'a [u8]),
}

/// A call with the bytes of its request.
#[derive(Clone, Copy, Debug)]
pub(crate) struct Decoded<'a> {
    pub call: &'a sys::Call,
    pub request: &'a [u8],
}

impl<'a> Decoded<'a> {
    fn name(self) -> Answer<&'a CStr> {
        name(self.request, self.call.name)
    }

    /// The call's name in a directory, and the label of the node that is made.
    fn child_of(self, parent: u64) -> Answer<Child<'a>> {
        let label = match self.call.has_label {
            0 => None,
            _ => Some(Label {
                name: name(self.request, self.call.label_name)?,
                value: bytes(self.request, self.call.label)?,
            }),
        };
        Ok(Child { parent: Node(parent), name: self.name()?, label })
    }

    fn child(self) -> Answer<Child<'a>> {
        self.child_of(self.call.node)
    }

    fn lock_owner(self) -> Option<u64> {
        optional(self.call.has_owner, self.call.owner)
    }

    /// How long the value of GETXATTR or LISTXATTR may be; `None` if its length is asked for.
    fn size(self) -> Option<usize> {
        let most = at_most(self.call.data_len, sys::REQUEST_MAX);
        Some(most).filter(|_| self.call.answer != answer::XATTR)
    }

    /// The operation.
    pub fn operation(self, data: Data<'a>) -> Answer<Operation<'a>> {
        let call = self.call;
        let (node, handle) = (Node(call.node), Handle(call.handle));
        Ok(match call.kind {
            kind::INIT => Operation::Init(Init { capable: Options::from_bits(call.options) }),
            kind::DESTROY => Operation::Destroy,
            kind::LOOKUP => Operation::Lookup { parent: node, name: self.name()? },
            kind::FORGET => Operation::Forget { node, count: call.count },
            kind::BATCH_FORGET => {
                Operation::BatchForget(Forgets::new(bytes(self.request, call.value)?))
            }
            kind::GETATTR => Operation::Getattr { node, handle: optional(call.has_handle, handle) },
            kind::SETATTR => Operation::Setattr { node, set: self.set_attributes() },
            kind::STATFS => Operation::Statfs { node },
            kind::ACCESS => Operation::Access { node, mask: AccessMask::from_bits(call.mode) },
            kind::SYNCFS => Operation::Syncfs { node },
            kind::COPY_FILE_RANGE => Operation::CopyFileRange(self.copy_file_range()),
            kind::READ => self.read(data),
            kind::WRITE => self.write(data),
            kind::READDIR | kind::READDIRPLUS => self.read_directory(data),
            kind::SYMLINK | kind::MKNOD | kind::MKDIR | kind::LINK | kind::CREATE => {
                self.maker()?
            }
            kind::UNLINK | kind::RMDIR | kind::RENAME => self.remover()?,
            kind::READLINK
            | kind::SETXATTR
            | kind::GETXATTR
            | kind::LISTXATTR
            | kind::REMOVEXATTR => self.of_values()?,
            _ => self.of_open_file(),
        })
    }

    /// The calls that make a node.
    fn maker(self) -> Answer<Operation<'a>> {
        let sys::Call { flags, mode, umask, rdev, kill_priv, .. } = *self.call;
        Ok(match self.call.kind {
            kind::SYMLINK => Operation::Symlink {
                link: self.child()?,
                target: name(self.request, self.call.value)?,
            },
            kind::MKNOD => {
                let make = MakeNode { mode, rdev, umask };
                Operation::Mknod { child: self.child()?, make }
            }
            kind::MKDIR => {
                let make = MakeDirectory { mode, umask };
                Operation::Mkdir { child: self.child()?, make }
            }
            kind::LINK => {
                let child = self.child_of(self.call.node2)?;
                Operation::Link { node: Node(self.call.node), child }
            }
            _ => {
                let create = Create { flags, mode, umask, kill_priv: kill_priv != 0 };
                Operation::Create { child: self.child()?, create }
            }
        })
    }

    fn remover(self) -> Answer<Operation<'a>> {
        let from = self.child()?;
        Ok(match self.call.kind {
            kind::UNLINK => Operation::Unlink(from),
            kind::RMDIR => Operation::Rmdir(from),
            _ => {
                let parent = Node(self.call.node2);
                let to = Child { parent, name: name(self.request, self.call.name2)?, label: None };
                Operation::Rename { from, to, flags: RenameFlags::from_bits(self.call.flags) }
            }
        })
    }

    /// The calls of links' targets and of extended attributes.
    fn of_values(self) -> Answer<Operation<'a>> {
        let (call, node) = (self.call, Node(self.call.node));
        Ok(match call.kind {
            kind::READLINK => Operation::Readlink { node, size: self.size().unwrap_or(0) },
            kind::SETXATTR => {
                let value = bytes(self.request, call.value)?;
                let kill_sgid = SETXATTR_ACL_KILL_SGID & call.setxattr_flags != 0;
                let set = SetXattr { flags: call.flags, kill_sgid };
                Operation::Setxattr { node, name: self.name()?, value, set }
            }
            kind::GETXATTR => Operation::Getxattr { node, name: self.name()?, size: self.size() },
            kind::LISTXATTR => Operation::Listxattr { node, size: self.size() },
            _ => Operation::Removexattr { node, name: self.name()? },
        })
    }

    /// The calls of open files and directories.
    fn of_open_file(self) -> Operation<'a> {
        let sys::Call { flags, mode, offset, size: len, owner, .. } = *self.call;
        let (node, handle) = (Node(self.call.node), Handle(self.call.handle));
        let data_only = self.call.data_only != 0;
        match self.call.kind {
            kind::OPEN => {
                let open = Open { flags, kill_priv: self.call.kill_priv != 0 };
                Operation::Open { node, open }
            }
            kind::OPENDIR => Operation::Opendir { node, flags },
            kind::FSYNC => Operation::Fsync { node, handle, data_only },
            kind::FSYNCDIR => Operation::Fsyncdir { node, handle, data_only },
            kind::FLUSH => Operation::Flush { node, handle, lock_owner: owner },
            kind::RELEASE => Operation::Release { node, release: self.release() },
            kind::RELEASEDIR => Operation::Releasedir { node, handle, flags },
            kind::FALLOCATE => {
                Operation::Fallocate { node, allocate: Allocate { handle, mode, offset, len } }
            }
            kind::LSEEK => {
                Operation::Lseek { node, seek: SeekFile { handle, offset, whence: flags } }
            }
            _ => Operation::None,
        }
    }

    fn set_attributes(self) -> SetAttributes {
        let call = self.call;
        SetAttributes {
            valid: SetAttributesValid::from_bits(call.valid),
            values: SetValues::from_raw(&call.attr),
            handle: optional(call.has_handle, Handle(call.handle)),
            lock_owner: call.owner,
        }
    }

    fn release(self) -> Release {
        let call = self.call;
        Release {
            handle: Handle(call.handle),
            flags: call.flags,
            flush: call.flush != 0,
            unlock: call.unlock != 0,
            lock_owner: self.lock_owner(),
        }
    }

    fn copy_file_range(self) -> CopyFileRange {
        let call = self.call;
        let (node, handle) = (Node(call.node), Handle(call.handle));
        let from = FilePlace { node, handle, offset: call.offset };
        let (node, handle) = (Node(call.node2), Handle(call.handle2));
        let to = FilePlace { node, handle, offset: call.offset2 };
        CopyFileRange { from, to, len: call.size }
    }

    fn read(self, data: Data<'a>) -> Operation<'a> {
        let sys::Call { offset, size, flags, data_at, data_len, .. } = *self.call;
        let (handle, lock_owner) = (Handle(self.call.handle), self.lock_owner());
        let read = ReadFile { handle, offset, size, flags, lock_owner };
        let left = data_len.min(size);
        let data = match data {
            Data::InPlace(Places { chain, memory, counts, .. }) => {
                ReadData::new(chain, memory, data_at, left, counts)
            }
            Data::Owned(_) => ReadData::owned(left),
        };
        Operation::Read { node: Node(self.call.node), read, data }
    }

    fn write(self, data: Data<'a>) -> Operation<'a> {
        let sys::Call { offset, size, flags, data_at, data_len, .. } = *self.call;
        let write = WriteFile {
            handle: Handle(self.call.handle),
            offset,
            size,
            flags,
            lock_owner: self.lock_owner(),
            delayed: self.call.delayed != 0,
            kill_priv: self.call.kill_priv != 0,
        };
        let data = match data {
            Data::InPlace(Places { chain, memory, .. }) => {
                WriteData::new(chain, memory, data_at, data_len)
            }
            Data::Owned(bytes) => WriteData::owned(bytes),
        };
        Operation::Write { node: Node(self.call.node), write, data }
    }

    fn read_directory(self, data: Data<'a>) -> Operation<'a> {
        let sys::Call { offset, size, data_len, .. } = *self.call;
        let with_nodes = self.call.kind == kind::READDIRPLUS;
        let list = match data {
            Data::InPlace(Places { chain, list, .. }) => {
                Listing::new(chain, list, with_nodes, size)
            }
            Data::Owned(_) => Listing::owned(at_most(data_len, sys::REQUEST_MAX), with_nodes, size),
        };
        let read = ReadDirectory { handle: Handle(self.call.handle), offset, size };
        Operation::Readdir { node: Node(self.call.node), read, list }
    }
}

/// A decoded request: who asks, what, and the object that takes the answer. It borrows from the
/// worker; the `reply` may stay when the rest is dropped.
///
/// # Examples
/// ```
/// # use pitskhomu::*;
/// # fn ask(request: Request<'_>) -> Result<(), Unsent> {
/// match request.operation {
///     Operation::Lookup { name, .. } if name.to_bytes() == b"hello" => {
///         request.reply.send(Entry::new(Node(2), Attributes::default()))
///     }
///     Operation::Lookup { .. } => request.reply.error(Errno::ENOENT),
///     Operation::Read { read, mut data, .. } => {
///         data.put(&b"Hello, guest!"[13.min(read.offset as usize)..]);
///         request.reply.send(data)
///     }
///     Operation::None | Operation::Forget { .. } | Operation::BatchForget(_) => Ok(()),
///     _ => request.reply.error(Errno::ENOSYS),
/// }
/// # }
/// ```
#[derive(Debug)]
#[non_exhaustive]
pub struct Request<'w> {
    /// The caller, and the request's numbers.
    pub context: Context,
    /// The operation.
    pub operation: Operation<'w>,
    /// Takes the answer.
    pub reply: Reply,
    pub(crate) decoded: Decoded<'w>,
}

impl Request<'_> {
    /// The request's opcode, as the guest wrote it (enum `fuse_opcode` of linux/fuse.h).
    #[must_use]
    pub fn opcode(&self) -> u32 {
        self.decoded.call.opcode
    }

    /// Answers by the methods of a file system ([`Operation::call`]).
    ///
    /// # Errors
    /// Those of [`Reply::answer`].
    pub fn answer_by(self, file_system: &dyn FileSystem) -> Result<(), Unsent> {
        self.reply.answer(self.operation.call(file_system, &self.context))
    }

    /// The request with copies of its bytes. Of a WRITE, the data that wasn't taken yet is copied;
    /// what was put into a READ's data or a list stays in the reply.
    ///
    /// # Errors
    /// `OutOfMemory`: an allocation failed. The guest gets ENOMEM.
    pub fn into_owned(self) -> Result<OwnedRequest, Status> {
        match self.copied() {
            Ok((call, reply)) => Ok(OwnedRequest { call, reply }),
            Err(reply) => {
                let _ = reply.error(Errno::ENOMEM);
                Err(Status::OutOfMemory)
            }
        }
    }

    fn copied(self) -> Result<(OwnedCall, Reply), Reply> {
        let Request { context, operation, reply, decoded } = self;
        let data = match operation {
            Operation::Write { mut data, .. } => data.take_all(),
            _ => Ok(Vec::new()),
        };
        let mut request = Vec::new();
        let reserved = request.try_reserve_exact(decoded.request.len());
        match (data, reserved) {
            (Ok(data), Ok(())) => {
                request.extend_from_slice(decoded.request);
                Ok((OwnedCall { context, call: *decoded.call, request, data }, reply))
            }
            _ => Err(reply),
        }
    }
}

/// A request that borrows nothing: it may be answered from another thread, or from an async task.
///
/// # Examples
/// READDIRPLUS from another thread. The list of an owned request is a buffer: fill it, and send it.
/// ```
/// use pitskhomu::prelude::*;
///
/// /// A directory with one file.
/// fn list(request: OwnedRequest, files: &dyn FileSystem) {
///     let OwnedRequest { call, reply, .. } = request;
///     let sent = match call.operation() {
///         Operation::Readdir { node, read, mut list } => {
///             let name = CStr::from_bytes_with_nul(b"hello\0").unwrap();
///             let entry = DirectoryEntry::new(name, 2, 1, FileKind::REGULAR);
///             let look_up = || files.lookup(&call.context, node, name);
///             let added = if read.offset == 0 { list.add_with(entry, look_up) } else { Ok(true) };
///             reply.answer(added.map(|_| list))
///         }
///         _ => reply.error(Errno::ENOSYS),
///     };
///     if let Err(unsent) = sent {
///         unsent.cancelled().undo(files); // too late: forgets the nodes of the list
///     }
/// }
/// ```
#[derive(Debug)]
#[non_exhaustive]
pub struct OwnedRequest {
    /// The call.
    pub call: OwnedCall,
    /// Takes the answer.
    pub reply: Reply,
}

impl OwnedRequest {
    /// Answers by the methods of a file system ([`Operation::call`]).
    ///
    /// # Errors
    /// Those of [`Reply::answer`].
    pub fn answer_by(self, file_system: &dyn FileSystem) -> Result<(), Unsent> {
        let OwnedRequest { call, reply } = self;
        reply.answer(call.operation().call(file_system, &call.context))
    }
}

/// A call with all its bytes.
#[derive(Clone, Debug)]
#[non_exhaustive]
pub struct OwnedCall {
    /// The caller, and the request's numbers.
    pub context: Context,
    call: sys::Call,
    request: Vec<u8>,
    /// WRITE's data.
    data: Vec<u8>,
}

impl OwnedCall {
    /// The operation. The data of a WRITE is a copy; that of a READ, and the entries of a list,
    /// are put into buffers, which the worker copies with the reply.
    #[must_use]
    pub fn operation(&self) -> Operation<'_> {
        let decoded = Decoded { call: &self.call, request: &self.request };
        decoded.operation(Data::Owned(&self.data)).unwrap_or(Operation::None)
    }
}
