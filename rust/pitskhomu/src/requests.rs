//! The arguments of the longer calls, one structure for each. A later version may add fields: so
//! code of others begins with `default()`.
use crate::errno::Answer;
use crate::flags::{Options, SetAttributesValid};
use crate::sys;
use crate::values::{GuestTime, Handle, Node, Time};
use crate::CStr;

/// The arguments of MKNOD (struct `fuse_mknod_in`).
#[derive(Clone, Copy, Debug, Default, PartialEq, Eq)]
#[non_exhaustive]
pub struct MakeNode {
    /// Kind and permissions.
    pub mode: u32,
    /// The device number of a device, packed as `Attributes::rdev`.
    pub rdev: u32,
    /// The permissions to take from `mode`. Without `Options::DONT_MASK` the guest has already
    /// taken them.
    pub umask: u32,
}

/// The arguments of MKDIR (struct `fuse_mkdir_in`).
#[derive(Clone, Copy, Debug, Default, PartialEq, Eq)]
#[non_exhaustive]
pub struct MakeDirectory {
    /// Permissions.
    pub mode: u32,
    /// As of `MakeNode`.
    pub umask: u32,
}

/// Of fcntl.h of Linux x86.
const O_TRUNC: u32 = 0o1000;

/// The arguments of OPEN (struct `fuse_open_in`).
#[derive(Clone, Copy, Debug, Default, PartialEq, Eq)]
#[non_exhaustive]
pub struct Open {
    /// O_ flags of Linux x86 (fcntl.h).
    pub flags: u32,
    /// `FUSE_OPEN_KILL_SUIDGID`: clear set-user and set-group bits (with `O_TRUNC`;
    /// `Options::HANDLE_KILLPRIV_V2`).
    pub kill_priv: bool,
}

impl Open {
    /// Whether the file system makes the file empty (`O_TRUNC`). Linux sends no SETATTR for that.
    ///
    /// # Examples
    /// ```
    /// # use pitskhomu::*;
    /// /// OPEN of a file with these bytes.
    /// fn open(bytes: &mut Vec<u8>, open: Open) -> Answer<Opened> {
    ///     if open.truncates() {
    ///         bytes.clear();
    ///     }
    ///     Ok(Opened::default())
    /// }
    /// ```
    #[must_use]
    pub const fn truncates(&self) -> bool {
        self.flags & O_TRUNC != 0
    }
}

/// The arguments of CREATE (struct `fuse_create_in`).
#[derive(Clone, Copy, Debug, Default, PartialEq, Eq)]
#[non_exhaustive]
pub struct Create {
    /// O_ flags of Linux x86 (fcntl.h).
    pub flags: u32,
    /// Kind and permissions.
    pub mode: u32,
    /// As of `MakeNode`.
    pub umask: u32,
    /// As of `Open`.
    pub kill_priv: bool,
}

/// The arguments of READ (struct `fuse_read_in`).
#[derive(Clone, Copy, Debug, Default, PartialEq, Eq)]
#[non_exhaustive]
pub struct ReadFile {
    /// The open file.
    pub handle: Handle,
    /// The offset of the first byte.
    pub offset: u64,
    /// The number of bytes. The reply buffer may have room for fewer: `ReadData::left`.
    pub size: u64,
    /// The file's O_ flags.
    pub flags: u32,
    /// The owner of the locks that apply, with `FUSE_READ_LOCKOWNER`.
    pub lock_owner: Option<u64>,
}

/// The arguments of WRITE (struct `fuse_write_in`).
#[derive(Clone, Copy, Debug, Default, PartialEq, Eq)]
#[non_exhaustive]
pub struct WriteFile {
    /// The open file.
    pub handle: Handle,
    /// The offset of the first byte.
    pub offset: u64,
    /// The number of bytes in the guest's record. The request may have another number:
    /// `WriteData::left`.
    pub size: u64,
    /// The file's O_ flags.
    pub flags: u32,
    /// The owner of the locks that apply, with `FUSE_WRITE_LOCKOWNER`.
    pub lock_owner: Option<u64>,
    /// `FUSE_WRITE_CACHE`: a late write from the guest's cache, so the caller isn't the writer.
    pub delayed: bool,
    /// `FUSE_WRITE_KILL_SUIDGID`: clear set-user and set-group bits.
    pub kill_priv: bool,
}

/// The arguments of RELEASE (struct `fuse_release_in`).
#[derive(Clone, Copy, Debug, Default, PartialEq, Eq)]
#[non_exhaustive]
pub struct Release {
    /// The open file.
    pub handle: Handle,
    /// The file's O_ flags.
    pub flags: u32,
    /// `FUSE_RELEASE_FLUSH`: do as for FLUSH first.
    pub flush: bool,
    /// `FUSE_RELEASE_FLOCK_UNLOCK`: release flock's locks.
    pub unlock: bool,
    /// The owner of the locks, with one of these two.
    pub lock_owner: Option<u64>,
}

/// The arguments of READDIR and READDIRPLUS (struct `fuse_read_in`).
#[derive(Clone, Copy, Debug, Default, PartialEq, Eq)]
#[non_exhaustive]
pub struct ReadDirectory {
    /// The open directory.
    pub handle: Handle,
    /// The offset of the first entry: 0, or the `next_offset` of an earlier entry.
    pub offset: u64,
    /// The greatest number of bytes of entries. The reply buffer may have room for fewer:
    /// `Listing::left`.
    pub size: u64,
}

/// The arguments of FALLOCATE (struct `fuse_fallocate_in`).
#[derive(Clone, Copy, Debug, Default, PartialEq, Eq)]
#[non_exhaustive]
pub struct Allocate {
    /// The open file.
    pub handle: Handle,
    /// `FALLOC_FL`_ flags (linux/falloc.h).
    pub mode: u32,
    /// The offset of the first byte.
    pub offset: u64,
    /// The number of bytes.
    pub len: u64,
}

/// The arguments of LSEEK (struct `fuse_lseek_in`).
#[derive(Clone, Copy, Debug, Default, PartialEq, Eq)]
#[non_exhaustive]
pub struct SeekFile {
    /// The open file.
    pub handle: Handle,
    /// The offset in bytes, by `whence`.
    pub offset: u64,
    /// SEEK_ of linux/fs.h: `SEEK_DATA` is 3, `SEEK_HOLE` 4.
    pub whence: u32,
}

/// An open file, and a place in it.
#[derive(Clone, Copy, Debug, Default, PartialEq, Eq)]
#[non_exhaustive]
pub struct FilePlace {
    /// The node.
    pub node: Node,
    /// The open file.
    pub handle: Handle,
    /// The offset in bytes.
    pub offset: u64,
}

/// The arguments of `COPY_FILE_RANGE` (struct `fuse_copy_file_range_in`), without its flags, which
/// are 0 in Linux.
#[derive(Clone, Copy, Debug, Default, PartialEq, Eq)]
#[non_exhaustive]
pub struct CopyFileRange {
    /// The source.
    pub from: FilePlace,
    /// The destination.
    pub to: FilePlace,
    /// The number of bytes.
    pub len: u64,
}

/// The arguments of INIT (struct `fuse_init_in`).
#[derive(Clone, Copy, Debug, Default, PartialEq, Eq)]
#[non_exhaustive]
pub struct Init {
    /// The guest's options.
    pub capable: Options,
}

/// The security label of a new node (struct `fuse_secctx`).
#[derive(Clone, Copy, Debug, Default, PartialEq, Eq)]
#[non_exhaustive]
pub struct Label<'n> {
    /// The extended attribute that holds it, such as `security.selinux`.
    pub name: &'n CStr,
    /// Its value: the guest's bytes.
    pub value: &'n [u8],
}

/// A name in a directory.
#[derive(Clone, Copy, Debug, Default, PartialEq, Eq)]
#[non_exhaustive]
pub struct Child<'n> {
    /// The directory.
    pub parent: Node,
    /// The name, as the guest wrote it: it may be empty, `.`, `..`, or have a slash.
    pub name: &'n CStr,
    /// Of a node that is made, its label, with `Options::SECURITY_CTX`; otherwise none.
    pub label: Option<Label<'n>>,
}

/// How SETXATTR sets an attribute (struct `fuse_setxattr_in`).
#[derive(Clone, Copy, Debug, Default, PartialEq, Eq)]
#[non_exhaustive]
pub struct SetXattr {
    /// As of setxattr: `XATTR_CREATE` is 1, `XATTR_REPLACE` 2.
    pub flags: u32,
    /// `FUSE_SETXATTR_ACL_KILL_SGID`: with an access control list the set-group bit is to be
    /// cleared (`Options::SETXATTR_EXT`).
    pub kill_sgid: bool,
}

/// A time that SETATTR sets.
#[derive(Clone, Copy, Debug, PartialEq, Eq)]
pub enum SetTime {
    /// This one.
    To(Time),
    /// The current time.
    Now,
}

/// The arguments of SETATTR (struct `fuse_setattr_in`).
#[derive(Clone, Copy, Debug, Default, PartialEq, Eq)]
#[non_exhaustive]
pub struct SetAttributes {
    /// Which attributes are set.
    pub valid: SetAttributesValid,
    /// The numbers that the guest wrote, of attributes that are set and of others.
    pub values: SetValues,
    /// The open file, with `FATTR_FH`.
    pub handle: Option<Handle>,
    /// The owner of the locks that apply, with `FATTR_LOCKOWNER`. Without it Linux writes 0.
    pub lock_owner: u64,
}

/// The numbers of SETATTR, as the guest wrote them.
#[derive(Clone, Copy, Debug, Default, PartialEq, Eq)]
#[non_exhaustive]
pub struct SetValues {
    /// The length in bytes.
    pub size: u64,
    /// When it was read last.
    pub atime: GuestTime,
    /// When its data changed last.
    pub mtime: GuestTime,
    /// When it changed last.
    pub ctime: GuestTime,
    /// The permissions.
    pub mode: u32,
    /// The user.
    pub uid: u32,
    /// The group.
    pub gid: u32,
}

impl SetValues {
    #[allow(clippy::cast_possible_wrap)] // the seconds are the guest's 64 bits, as Linux reads them
    pub(crate) fn from_raw(raw: &sys::Attr) -> SetValues {
        let time = |seconds, nanos| GuestTime { seconds: seconds as i64, nanos };
        SetValues {
            size: raw.size,
            atime: time(raw.atime, raw.atime_nanos),
            mtime: time(raw.mtime, raw.mtime_nanos),
            ctime: time(raw.ctime, raw.ctime_nanos),
            mode: raw.mode,
            uid: raw.uid,
            gid: raw.gid,
        }
    }
}

impl SetAttributes {
    fn if_valid<T>(&self, flags: SetAttributesValid, value: T) -> Option<T> {
        Some(value).filter(|_| self.valid.contains(flags))
    }

    /// The permissions.
    #[must_use]
    pub fn mode(&self) -> Option<u32> {
        self.if_valid(SetAttributesValid::MODE, self.values.mode)
    }

    /// The user.
    #[must_use]
    pub fn uid(&self) -> Option<u32> {
        self.if_valid(SetAttributesValid::UID, self.values.uid)
    }

    /// The group.
    #[must_use]
    pub fn gid(&self) -> Option<u32> {
        self.if_valid(SetAttributesValid::GID, self.values.gid)
    }

    /// The length in bytes.
    #[must_use]
    pub fn size(&self) -> Option<u64> {
        self.if_valid(SetAttributesValid::SIZE, self.values.size)
    }

    /// When it was read last.
    ///
    /// # Errors
    /// `EINVAL`: the guest's nanoseconds aren't those of a time. So of `mtime` and `ctime`.
    pub fn atime(&self) -> Answer<Option<SetTime>> {
        let (set, now) = (SetAttributesValid::ATIME, SetAttributesValid::ATIME_NOW);
        self.set_time((set, now), self.values.atime)
    }

    /// When its data changed last.
    ///
    /// # Errors
    /// As of `atime`.
    pub fn mtime(&self) -> Answer<Option<SetTime>> {
        let (set, now) = (SetAttributesValid::MTIME, SetAttributesValid::MTIME_NOW);
        self.set_time((set, now), self.values.mtime)
    }

    /// When it changed last.
    ///
    /// # Errors
    /// As of `atime`.
    pub fn ctime(&self) -> Answer<Option<Time>> {
        self.if_valid(SetAttributesValid::CTIME, self.values.ctime).map(Time::try_from).transpose()
    }

    fn set_time(
        &self,
        (set, now): (SetAttributesValid, SetAttributesValid),
        time: GuestTime,
    ) -> Answer<Option<SetTime>> {
        if !self.valid.contains(set) {
            return Ok(None);
        }
        if self.valid.contains(now) {
            return Ok(Some(SetTime::Now));
        }
        Time::try_from(time).map(|time| Some(SetTime::To(time)))
    }

    /// Whether to clear set-user and set-group bits (`Options::HANDLE_KILLPRIV_V2`).
    #[must_use]
    pub fn kills_priv(&self) -> bool {
        self.valid.contains(SetAttributesValid::KILL_SUIDGID)
    }
}

/// The nodes of FORGET or `BATCH_FORGET`. With each, the number of times less that the guest holds
/// it.
#[derive(Clone, Debug)]
pub struct Forgets<'r> {
    pairs: Pairs<'r>,
}

#[derive(Clone, Debug)]
enum Pairs<'r> {
    /// Of a request: 8 bytes each, little-endian (struct `fuse_forget_one`).
    Bytes(core::slice::ChunksExact<'r, u8>),
    /// Of other code.
    Numbers(core::slice::Iter<'r, (Node, u64)>),
}

impl<'r> Forgets<'r> {
    /// Those of a request.
    pub(crate) fn new(pairs: &'r [u8]) -> Forgets<'r> {
        Forgets { pairs: Pairs::Bytes(pairs.chunks_exact(16)) }
    }
}

impl<'r> From<&'r [(Node, u64)]> for Forgets<'r> {
    fn from(pairs: &'r [(Node, u64)]) -> Forgets<'r> {
        Forgets { pairs: Pairs::Numbers(pairs.iter()) }
    }
}

impl Iterator for Forgets<'_> {
    type Item = (Node, u64);

    fn next(&mut self) -> Option<(Node, u64)> {
        let pair = match &mut self.pairs {
            Pairs::Bytes(pairs) => pairs.next()?,
            Pairs::Numbers(pairs) => return pairs.next().copied(),
        };
        let number = |at: usize| u64::from_le_bytes(core::array::from_fn(|k| pair[at + k]));
        Some((Node(number(0)), number(8)))
    }

    fn size_hint(&self) -> (usize, Option<usize>) {
        match &self.pairs {
            Pairs::Bytes(pairs) => pairs.size_hint(),
            Pairs::Numbers(pairs) => pairs.size_hint(),
        }
    }
}

impl ExactSizeIterator for Forgets<'_> {}

impl FilePlace {
    /// A place in an open file.
    #[must_use]
    pub const fn new(node: Node, handle: Handle, offset: u64) -> FilePlace {
        FilePlace { node, handle, offset }
    }
}

impl<'n> Label<'n> {
    /// The label of a new node.
    #[must_use]
    pub const fn new(name: &'n CStr, value: &'n [u8]) -> Label<'n> {
        Label { name, value }
    }
}

impl<'n> Child<'n> {
    /// A name in a directory, without a label.
    #[must_use]
    pub const fn new(parent: Node, name: &'n CStr) -> Child<'n> {
        Child { parent, name, label: None }
    }

    /// The same with another label.
    #[must_use]
    pub const fn with_label(mut self, label: Option<Label<'n>>) -> Child<'n> {
        self.label = label;
        self
    }
}
