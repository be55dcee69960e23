//! The values of file calls and answers: nodes, attributes, entries, times.
use crate::errno::Errno;
use crate::flags::{FileKind, OpenOptions};
use crate::sys;
use core::fmt;
use core::sync::atomic::{AtomicU64, Ordering};
use core::time::Duration;

/// The number of a node (`nodeid` of linux/fuse.h): the file system's own, 1 for the root.
#[derive(Clone, Copy, Debug, Default, PartialEq, Eq, PartialOrd, Ord, Hash)]
pub struct Node(
    /// The number.
    pub u64,
);

impl From<u64> for Node {
    fn from(number: u64) -> Node {
        Node(number)
    }
}

impl From<u64> for Handle {
    fn from(number: u64) -> Handle {
        Handle(number)
    }
}

impl Node {
    /// The root (`FUSE_ROOT_ID`).
    pub const ROOT: Node = Node(1);
}

/// The number of an open file or directory (`fh` of linux/fuse.h): the file system's own.
#[derive(Clone, Copy, Debug, Default, PartialEq, Eq, PartialOrd, Ord, Hash)]
pub struct Handle(
    /// The number.
    pub u64,
);

/// The number of a request: that of the chain that a worker took. No two chains of this process
/// have the same number, not even in two queues or devices, or after a reset. So data that you keep
/// under it is never another request's.
#[derive(Clone, Copy, Debug, Default, PartialEq, Eq, PartialOrd, Ord, Hash)]
pub struct RequestId(u64);

/// The number of the last chain that was taken.
static LAST_REQUEST: AtomicU64 = AtomicU64::new(0);

impl RequestId {
    /// That of a chain that was just taken.
    pub(crate) fn next() -> RequestId {
        RequestId(LAST_REQUEST.fetch_add(1, Ordering::Relaxed) + 1)
    }

    #[cfg(test)]
    pub(crate) const fn of(number: u64) -> RequestId {
        RequestId(number)
    }

    /// The number; 0 only of the default, which no chain has.
    #[must_use]
    pub const fn number(self) -> u64 {
        self.0
    }
}

impl fmt::Display for RequestId {
    fn fmt(&self, f: &mut fmt::Formatter<'_>) -> fmt::Result {
        self.0.fmt(f)
    }
}

/// The caller, and the request's numbers (struct `fuse_in_header`).
#[derive(Clone, Copy, Debug, Default, PartialEq, Eq)]
#[non_exhaustive]
pub struct Context {
    /// The worker's number of the request, which no other request has.
    pub id: RequestId,
    /// The request's `unique`, the guest's number of it. Two requests in flight may have the same,
    /// and a guest that starts again uses its numbers again. So keep nothing by it.
    pub unique: u64,
    /// The user. With `Options::ALLOW_IDMAP` (Linux 6.12 and later) only calls that make a node
    /// have it; in all others it is `u32::MAX`.
    pub uid: u32,
    /// The group; as `uid`.
    pub gid: u32,
    /// The process.
    pub pid: u32,
    /// One of the caller's groups besides `gid`, in a call that makes a node, if the guest sends
    /// it.
    pub supplementary_group: Option<u32>,
}

/// A time since 1970 (struct timespec).
///
/// # Examples
/// ```
/// use pitskhomu::Time;
///
/// let time = Time::new(-1, 999_999_999).expect("less than a second");
/// assert_eq!((time.seconds(), time.nanos()), (-1, 999_999_999));
/// assert_eq!(Time::new(0, 1_000_000_000), None);
/// ```
#[derive(Clone, Copy, Debug, Default, PartialEq, Eq, PartialOrd, Ord, Hash)]
pub struct Time {
    seconds: i64,
    nanos: u32,
}

impl Time {
    /// `seconds`, negative before 1970, and `nanos` nanoseconds after them; `None` if these are
    /// 10^9 or more.
    #[must_use]
    pub const fn new(seconds: i64, nanos: u32) -> Option<Time> {
        if nanos < 1_000_000_000 {
            Some(Time { seconds, nanos })
        } else {
            None
        }
    }

    /// A whole number of seconds.
    #[must_use]
    pub const fn from_seconds(seconds: i64) -> Time {
        Time { seconds, nanos: 0 }
    }

    /// The seconds, negative before 1970.
    #[must_use]
    pub const fn seconds(self) -> i64 {
        self.seconds
    }

    /// The nanoseconds after them, below 10^9.
    #[must_use]
    pub const fn nanos(self) -> u32 {
        self.nanos
    }
}

#[cfg(feature = "std")]
impl From<std::time::SystemTime> for Time {
    /// Times that 64 bits of seconds don't have become the nearest ones.
    fn from(time: std::time::SystemTime) -> Time {
        match time.duration_since(std::time::UNIX_EPOCH) {
            Ok(after) => {
                let seconds = i64::try_from(after.as_secs()).unwrap_or(i64::MAX);
                Time { seconds, nanos: after.subsec_nanos() }
            }
            Err(error) => {
                let before = error.duration();
                let seconds = i64::try_from(before.as_secs()).map_or(i64::MIN, |it| -it);
                match before.subsec_nanos() {
                    0 => Time { seconds, nanos: 0 },
                    nanos => {
                        Time { seconds: seconds.saturating_sub(1), nanos: 1_000_000_000 - nanos }
                    }
                }
            }
        }
    }
}

/// A time as the guest wrote it in SETATTR: any numbers.
#[derive(Clone, Copy, Debug, Default, PartialEq, Eq, Hash)]
pub struct GuestTime {
    /// Seconds.
    pub seconds: i64,
    /// Nanoseconds after them; 10^9 and more aren't a time.
    pub nanos: u32,
}

impl TryFrom<GuestTime> for Time {
    type Error = Errno;

    /// `EINVAL` if the nanoseconds are 10^9 or more.
    fn try_from(time: GuestTime) -> Result<Time, Errno> {
        Time::new(time.seconds, time.nanos).ok_or(Errno::EINVAL)
    }
}

impl From<Time> for GuestTime {
    fn from(time: Time) -> GuestTime {
        GuestTime { seconds: time.seconds, nanos: time.nanos }
    }
}

/// A node's attributes (struct `fuse_attr`).
#[derive(Clone, Copy, Debug, Default, PartialEq, Eq)]
#[non_exhaustive]
pub struct Attributes {
    /// The number that stat reports, which may differ from the node's.
    pub inode: u64,
    /// Its length in bytes.
    pub size: u64,
    /// The number of blocks of 512 bytes that it takes.
    pub blocks: u64,
    /// When it was read last.
    pub atime: Time,
    /// When its data changed last.
    pub mtime: Time,
    /// When it changed last.
    pub ctime: Time,
    /// Kind (`S_IFMT` of sys/stat.h) and permissions.
    pub mode: u32,
    /// The number of its names.
    pub links: u32,
    /// Its user.
    pub uid: u32,
    /// Its group.
    pub gid: u32,
    /// The device number of a device, as Linux packs it in 32 bits: bits 8 to 19 are the major
    /// number, the others the minor.
    pub rdev: u32,
    /// The best number of bytes to read at a time.
    pub block_size: u32,
    /// `FUSE_ATTR`_ flags: `SUBMOUNT`, `DAX`.
    pub flags: u32,
}

impl Attributes {
    /// `FUSE_ATTR_SUBMOUNT`: the directory is the root of another mount.
    pub const SUBMOUNT: u32 = 1;
    /// `FUSE_ATTR_DAX`: the file may be mapped. There is no shared memory window here.
    pub const DAX: u32 = 2;

    /// Those of a regular file with one name and these permissions, such as `0o644`. All others
    /// are 0: add its size, and the times, user and group that it has.
    ///
    /// # Examples
    /// ```
    /// use pitskhomu::Attributes;
    ///
    /// let file = Attributes::file(0o644).with_size(13);
    /// assert_eq!((file.mode, file.links, file.size), (0o100_644, 1, 13));
    /// assert_eq!(Attributes::directory(0o1777).mode, 0o41_777);
    /// ```
    #[must_use]
    pub fn file(permissions: u32) -> Attributes {
        Attributes::of_kind(FileKind::REGULAR, permissions, 1)
    }

    /// The same of a directory. It has two names, its own and `.`, as one without directories in
    /// it has on most file systems.
    #[must_use]
    pub fn directory(permissions: u32) -> Attributes {
        Attributes::of_kind(FileKind::DIRECTORY, permissions, 2)
    }

    fn of_kind(kind: FileKind, permissions: u32, links: u32) -> Attributes {
        let mode = kind.mode() | permissions & 0o7777;
        Attributes { mode, links, ..Attributes::default() }
    }

    /// The seconds stay the same 64 bits, which Linux reads as signed.
    #[allow(clippy::cast_sign_loss)]
    pub(crate) fn raw(&self) -> sys::Attr {
        sys::Attr {
            ino: self.inode,
            size: self.size,
            blocks: self.blocks,
            atime: self.atime.seconds as u64,
            mtime: self.mtime.seconds as u64,
            ctime: self.ctime.seconds as u64,
            atime_nanos: self.atime.nanos,
            mtime_nanos: self.mtime.nanos,
            ctime_nanos: self.ctime.nanos,
            mode: self.mode,
            nlink: self.links,
            uid: self.uid,
            gid: self.gid,
            rdev: self.rdev,
            block_size: self.block_size,
            flags: self.flags,
        }
    }

    /// Those of a reply; `None` if a time isn't one.
    #[cfg(feature = "testing")]
    #[allow(clippy::cast_possible_wrap)] // as of `raw`
    pub(crate) fn from_raw(raw: &sys::Attr) -> Option<Attributes> {
        let time = |seconds, nanos| Time::new(seconds as i64, nanos);
        Some(Attributes {
            inode: raw.ino,
            size: raw.size,
            blocks: raw.blocks,
            atime: time(raw.atime, raw.atime_nanos)?,
            mtime: time(raw.mtime, raw.mtime_nanos)?,
            ctime: time(raw.ctime, raw.ctime_nanos)?,
            mode: raw.mode,
            links: raw.nlink,
            uid: raw.uid,
            gid: raw.gid,
            rdev: raw.rdev,
            block_size: raw.block_size,
            flags: raw.flags,
        })
    }
}

/// The node of a name (struct `fuse_entry_out`). The default is node 0: the name doesn't exist, and
/// the guest may remember that.
#[derive(Clone, Copy, Debug, Default, PartialEq, Eq)]
#[non_exhaustive]
pub struct Entry {
    /// The node, which the guest then holds once more; `Node(0)` if the name doesn't exist.
    pub node: Node,
    /// The generation: it differs between nodes that have had the same number.
    pub generation: u64,
    /// The node's attributes.
    pub attributes: Attributes,
    /// The time that the guest may cache the attributes.
    pub attributes_timeout: Duration,
    /// The time that the guest may cache the name.
    pub entry_timeout: Duration,
}

impl Entry {
    pub(crate) fn raw(&self) -> sys::Entry {
        sys::Entry {
            node: self.node.0,
            generation: self.generation,
            entry_secs: self.entry_timeout.as_secs(),
            attr_secs: self.attributes_timeout.as_secs(),
            entry_nanos: self.entry_timeout.subsec_nanos(),
            attr_nanos: self.attributes_timeout.subsec_nanos(),
            attr: self.attributes.raw(),
        }
    }
}

/// A file or directory that was opened (struct `fuse_open_out`).
#[derive(Clone, Copy, Debug, Default, PartialEq, Eq)]
#[non_exhaustive]
pub struct Opened {
    /// The file system's number of it, which the guest passes with READ and other calls.
    pub handle: Handle,
    /// The `FOPEN_` flags for the guest.
    pub options: OpenOptions,
}

/// The file system as a whole (struct `fuse_kstatfs`).
#[derive(Clone, Copy, Debug, PartialEq, Eq)]
#[non_exhaustive]
pub struct Statistics {
    /// The number of blocks of `fragment_size` bytes.
    pub blocks: u64,
    /// The number of free blocks.
    pub blocks_free: u64,
    /// The number of free blocks for all users.
    pub blocks_available: u64,
    /// The greatest number of nodes.
    pub files: u64,
    /// The number of free nodes.
    pub files_free: u64,
    /// The best number of bytes to move at a time.
    pub block_size: u32,
    /// The longest name, in bytes.
    pub name_len: u32,
    /// The bytes of a block.
    pub fragment_size: u32,
}

impl Default for Statistics {
    /// Names of 255 bytes, blocks of 512, and zeros for the rest: unknown.
    fn default() -> Statistics {
        Statistics {
            blocks: 0,
            blocks_free: 0,
            blocks_available: 0,
            files: 0,
            files_free: 0,
            block_size: 512,
            name_len: 255,
            fragment_size: 0,
        }
    }
}

impl Statistics {
    pub(crate) fn raw(&self) -> sys::Statfs {
        sys::Statfs {
            blocks: self.blocks,
            bfree: self.blocks_free,
            bavail: self.blocks_available,
            files: self.files,
            ffree: self.files_free,
            bsize: self.block_size,
            namelen: self.name_len,
            frsize: self.fragment_size,
        }
    }
}

/// A name of a directory (struct `fuse_dirent`).
#[derive(Clone, Copy, Debug)]
#[non_exhaustive]
pub struct DirectoryEntry<'n> {
    /// The name, of 1 to 255 bytes.
    pub name: &'n crate::CStr,
    /// The number that getdents reports.
    pub inode: u64,
    /// The offset with which READDIR continues after this entry.
    pub next_offset: u64,
    /// The file's kind.
    pub kind: FileKind,
}

/// For each field a function that returns the structure with another value of it.
macro_rules! setters {
    ($($type:ident { $($with:ident, $field:ident: $kind:ty;)* })*) => {
        $(impl $type {
            $(
                #[doc = concat!("The same with another `", stringify!($field), "`.")]
                #[must_use]
                pub const fn $with(mut self, $field: $kind) -> $type {
                    self.$field = $field;
                    self
                }
            )*
        })*
    };
}

setters! {
    Attributes {
        with_inode, inode: u64;
        with_size, size: u64;
        with_blocks, blocks: u64;
        with_atime, atime: Time;
        with_mtime, mtime: Time;
        with_ctime, ctime: Time;
        with_mode, mode: u32;
        with_links, links: u32;
        with_uid, uid: u32;
        with_gid, gid: u32;
        with_rdev, rdev: u32;
        with_block_size, block_size: u32;
        with_flags, flags: u32;
    }
    Entry {
        with_node, node: Node;
        with_generation, generation: u64;
        with_attributes, attributes: Attributes;
        with_attributes_timeout, attributes_timeout: Duration;
        with_entry_timeout, entry_timeout: Duration;
    }
    Opened {
        with_options, options: OpenOptions;
    }
    Statistics {
        with_blocks, blocks: u64;
        with_blocks_free, blocks_free: u64;
        with_blocks_available, blocks_available: u64;
        with_files, files: u64;
        with_files_free, files_free: u64;
        with_block_size, block_size: u32;
        with_name_len, name_len: u32;
        with_fragment_size, fragment_size: u32;
    }
}

impl Entry {
    /// An entry that the guest may not cache: see `with_entry_timeout`.
    #[must_use]
    pub fn new(node: Node, attributes: Attributes) -> Entry {
        Entry { node, attributes, ..Entry::default() }
    }
}

impl Opened {
    /// A file with this handle, and no option.
    #[must_use]
    pub const fn new(handle: Handle) -> Opened {
        Opened { handle, options: OpenOptions::empty() }
    }
}

impl<'n> DirectoryEntry<'n> {
    /// A name of a directory.
    #[must_use]
    pub const fn new(
        name: &'n crate::CStr,
        inode: u64,
        next_offset: u64,
        kind: FileKind,
    ) -> DirectoryEntry<'n> {
        DirectoryEntry { name, inode, next_offset, kind }
    }
}

#[cfg(test)]
mod tests {
    use super::*;
    use alloc::string::ToString;

    /// The first number, too, differs from the default.
    #[test]
    fn no_two_requests_have_one_number() {
        let ids: [RequestId; 9] = core::array::from_fn(|_| RequestId::next());
        assert_eq!(
            (RequestId::default().number(), RequestId::default().to_string()),
            (0, "0".into())
        );
        assert!(ids[0] > RequestId::default() && ids.windows(2).all(|two| two[0] < two[1]));
        assert!(ids.iter().all(|id| id.to_string() == id.number().to_string()));
    }

    /// Each field of a reply's record is that of the value, with all of its bits.
    #[test]
    fn records_have_all_bits_of_the_values() {
        let time = |seconds, nanos| Time::new(seconds, nanos).unwrap();
        let (wide, short) = (|k: u64| 0x8182_8384_8586_8700 | k, |k: u32| 0x9192_9300 | k);
        let attributes = Attributes {
            inode: wide(1),
            size: wide(2),
            blocks: wide(3),
            atime: time(i64::MIN + 4, 0x1a2b_3c04),
            mtime: time(i64::MIN + 5, 0x1a2b_3c05),
            ctime: time(i64::MAX - 6, 0x1a2b_3c06),
            mode: short(7),
            links: short(8),
            uid: short(9),
            gid: short(10),
            rdev: short(11),
            block_size: short(12),
            flags: short(13),
        };
        let raw = attributes.raw();
        assert_eq!((raw.ino, raw.size, raw.blocks), (wide(1), wide(2), wide(3)));
        let (first, last) = (0x8000_0000_0000_0000, 0x7fff_ffff_ffff_ffff);
        assert_eq!((raw.atime, raw.mtime, raw.ctime), (first + 4, first + 5, last - 6));
        let nanos = (raw.atime_nanos, raw.mtime_nanos, raw.ctime_nanos);
        assert_eq!(nanos, (0x1a2b_3c04, 0x1a2b_3c05, 0x1a2b_3c06));
        assert_eq!((raw.mode, raw.nlink, raw.uid), (short(7), short(8), short(9)));
        assert_eq!((raw.gid, raw.rdev, raw.block_size), (short(10), short(11), short(12)));
        assert_eq!(raw.flags, short(13));
        #[cfg(feature = "testing")]
        assert_eq!(Attributes::from_raw(&raw), Some(attributes));
        let (name, numbers) = (Duration::new(wide(14), 1), Duration::new(wide(15), 999_999_999));
        let entry = Entry::new(Node(wide(16)), attributes).with_generation(wide(17));
        assert_eq!((entry.entry_timeout, entry.attributes_timeout), Default::default());
        let raw = entry.with_entry_timeout(name).with_attributes_timeout(numbers).raw();
        assert_eq!((raw.node, raw.generation, raw.attr.ino), (wide(16), wide(17), wide(1)));
        assert_eq!((raw.entry_secs, raw.entry_nanos), (wide(14), 1));
        assert_eq!((raw.attr_secs, raw.attr_nanos), (wide(15), 999_999_999));
    }

    /// struct fuse_kstatfs; what isn't known is 0, but names have 255 bytes and blocks 512.
    #[test]
    fn statistics_have_all_bits() {
        let (wide, short) = (|k: u64| 0x8182_8384_8586_8700 | k, |k: u32| 0x9192_9300 | k);
        let all = Statistics::default()
            .with_blocks(wide(1))
            .with_blocks_free(wide(2))
            .with_blocks_available(wide(3))
            .with_files(wide(4))
            .with_files_free(wide(5))
            .with_block_size(short(6))
            .with_name_len(short(7))
            .with_fragment_size(short(8));
        let raw = all.raw();
        assert_eq!((raw.blocks, raw.bfree, raw.bavail), (wide(1), wide(2), wide(3)));
        assert_eq!((raw.files, raw.ffree), (wide(4), wide(5)));
        assert_eq!((raw.bsize, raw.namelen, raw.frsize), (short(6), short(7), short(8)));
        let raw = Statistics::default().raw();
        assert_eq!((raw.blocks, raw.bfree, raw.bavail, raw.files, raw.ffree), Default::default());
        assert_eq!((raw.bsize, raw.namelen, raw.frsize), (512, 255, 0));
    }
}
