//! Sets of flags, and the kinds of files, with the names of the headers of Linux.
use core::fmt;
use core::ops::{
    BitAnd, BitAndAssign, BitOr, BitOrAssign, BitXor, BitXorAssign, Not, Sub, SubAssign,
};

/// A set of flags over an integer, with a constant for each flag. A set may have bits without a
/// name.
macro_rules! flags {
    ($(#[$about:meta])* $type:ident: $bits:ident {
        $($(#[$doc:meta])* $name:ident = $value:expr;)*
    }) => {
        $(#[$about])*
        #[derive(Clone, Copy, Default, PartialEq, Eq, Hash)]
        pub struct $type($bits);

        impl $type {
            $($(#[$doc])* pub const $name: $type = $type($value);)*

            const NAMES: &'static [(&'static str,
                $type)] = &[$((stringify!($name), $type::$name)),*];

            /// No flag.
            pub const fn empty() -> $type {
                $type(0)
            }

            /// The set of these bits, also of those without a name here.
            pub const fn from_bits(bits: $bits) -> $type {
                $type(bits)
            }

            /// Its bits.
            pub const fn bits(self) -> $bits {
                self.0
            }

            /// Whether it has no flag.
            pub const fn is_empty(self) -> bool {
                self.0 == 0
            }

            /// All flags that have a name.
            pub const fn all() -> $type {
                $type(0 $(| $value)*)
            }

            /// Whether it has a flag of the other.
            pub const fn intersects(self, flags: $type) -> bool {
                self.0 & flags.0 != 0
            }

            /// Adds flags.
            pub fn insert(&mut self, flags: $type) {
                self.0 |= flags.0;
            }

            /// Removes flags.
            pub fn remove(&mut self, flags: $type) {
                self.0 &= !flags.0;
            }

            /// Whether it has all flags of the other.
            pub const fn contains(self, flags: $type) -> bool {
                self.0 & flags.0 == flags.0
            }
        }

        impl BitOr for $type {
            type Output = $type;
            /// The flags of either.
            fn bitor(self, other: $type) -> $type {
                $type(self.0 | other.0)
            }
        }

        impl BitOrAssign for $type {
            fn bitor_assign(&mut self, other: $type) {
                self.0 |= other.0;
            }
        }

        impl BitAnd for $type {
            type Output = $type;
            /// The flags of both.
            fn bitand(self, other: $type) -> $type {
                $type(self.0 & other.0)
            }
        }

        impl BitAndAssign for $type {
            fn bitand_assign(&mut self, other: $type) {
                self.0 &= other.0;
            }
        }

        impl BitXor for $type {
            type Output = $type;
            /// The flags of one of both.
            fn bitxor(self, other: $type) -> $type {
                $type(self.0 ^ other.0)
            }
        }

        impl BitXorAssign for $type {
            fn bitxor_assign(&mut self, other: $type) {
                self.0 ^= other.0;
            }
        }

        impl Not for $type {
            type Output = $type;
            /// The named flags that it doesn't have.
            fn not(self) -> $type {
                $type(Self::all().0 & !self.0)
            }
        }

        impl SubAssign for $type {
            fn sub_assign(&mut self, other: $type) {
                self.0 &= !other.0;
            }
        }

        impl Extend<$type> for $type {
            fn extend<I: IntoIterator<Item = $type>>(&mut self, flags: I) {
                flags.into_iter().for_each(|flag| self.insert(flag));
            }
        }

        impl FromIterator<$type> for $type {
            fn from_iter<I: IntoIterator<Item = $type>>(flags: I) -> $type {
                flags.into_iter().fold($type::empty(), |all, flag| all | flag)
            }
        }

        impl fmt::Binary for $type {
            fn fmt(&self, f: &mut fmt::Formatter<'_>) -> fmt::Result {
                fmt::Binary::fmt(&self.0, f)
            }
        }

        impl fmt::Octal for $type {
            fn fmt(&self, f: &mut fmt::Formatter<'_>) -> fmt::Result {
                fmt::Octal::fmt(&self.0, f)
            }
        }

        impl fmt::LowerHex for $type {
            fn fmt(&self, f: &mut fmt::Formatter<'_>) -> fmt::Result {
                fmt::LowerHex::fmt(&self.0, f)
            }
        }

        impl fmt::UpperHex for $type {
            fn fmt(&self, f: &mut fmt::Formatter<'_>) -> fmt::Result {
                fmt::UpperHex::fmt(&self.0, f)
            }
        }

        impl Sub for $type {
            type Output = $type;
            /// The flags that the other doesn't have.
            fn sub(self, other: $type) -> $type {
                $type(self.0 & !other.0)
            }
        }

        impl fmt::Debug for $type {
            fn fmt(&self, f: &mut fmt::Formatter<'_>) -> fmt::Result {
                let mut rest = *self;
                f.write_str(concat!(stringify!($type), "("))?;
                for (name, flag) in Self::NAMES.iter().filter(|(_, flag)| self.contains(*flag)) {
                    write!(f, "{name} | ")?;
                    rest -= *flag;
                }
                write!(f, "{:#x})", rest.0)
            }
        }
    };
}

flags! {
    /// The `FUSE_` flags of INIT (struct `fuse_init_in` of linux/fuse.h, `flags | flags2 << 32`):
    /// those of the guest, those that the file system wants, or those that were agreed on.
    Options: u64 {
        /// Reads may be asynchronous.
        ASYNC_READ = 1 << 0;
        /// The file system has POSIX locks. This crate passes no lock on.
        POSIX_LOCKS = 1 << 1;
        /// The file system wants the handle with attributes.
        FILE_OPS = 1 << 2;
        /// OPEN itself truncates the file with `O_TRUNC`.
        ATOMIC_O_TRUNC = 1 << 3;
        /// The file system answers LOOKUP of "." and "..".
        EXPORT_SUPPORT = 1 << 4;
        /// Writes may have more than a page.
        BIG_WRITES = 1 << 5;
        /// The file system applies the umask.
        DONT_MASK = 1 << 6;
        /// Data may be spliced out.
        SPLICE_WRITE = 1 << 7;
        /// Pages may be moved by splice.
        SPLICE_MOVE = 1 << 8;
        /// Data may be spliced in.
        SPLICE_READ = 1 << 9;
        /// The file system has flock's locks. This crate passes no lock on.
        FLOCK_LOCKS = 1 << 10;
        /// IOCTL of directories.
        HAS_IOCTL_DIR = 1 << 11;
        /// The guest drops cached data when attributes change.
        AUTO_INVAL_DATA = 1 << 12;
        /// The file system wants READDIRPLUS in place of READDIR.
        DO_READDIRPLUS = 1 << 13;
        /// The guest chooses between READDIRPLUS and READDIR (with `DO_READDIRPLUS`).
        READDIRPLUS_AUTO = 1 << 14;
        /// Direct reads and writes may be asynchronous.
        ASYNC_DIO = 1 << 15;
        /// The guest caches written data, and sends it later (`WriteFile::delayed`).
        WRITEBACK_CACHE = 1 << 16;
        /// The guest sends no more OPEN after one that was answered ENOSYS.
        NO_OPEN_SUPPORT = 1 << 17;
        /// Several look-ups and reads of a directory may run at a time.
        PARALLEL_DIROPS = 1 << 18;
        /// The file system clears set-user and set-group bits when a file is written.
        HANDLE_KILLPRIV = 1 << 19;
        /// POSIX access control lists.
        POSIX_ACL = 1 << 20;
        /// Reads return an error after the connection was aborted.
        ABORT_ERROR = 1 << 21;
        /// A request may have more than 32 pages.
        MAX_PAGES = 1 << 22;
        /// The guest caches the targets of links.
        CACHE_SYMLINKS = 1 << 23;
        /// The guest sends no more OPENDIR after one that was answered ENOSYS.
        NO_OPENDIR_SUPPORT = 1 << 24;
        /// The guest drops cached data only when the file system notifies it.
        EXPLICIT_INVAL_DATA = 1 << 25;
        /// Attributes may mark a directory as the root of another mount (`Attributes::SUBMOUNT`).
        SUBMOUNTS = 1 << 27;
        /// The file system clears set-user and set-group bits if a call has `kill_priv`.
        HANDLE_KILLPRIV_V2 = 1 << 28;
        /// SETXATTR has flags of its own (`SetXattr::kill_sgid`).
        SETXATTR_EXT = 1 << 29;
        /// INIT has a second word of flags.
        INIT_EXT = 1 << 30;
        /// Calls that create a node have its security label (`Child::label`).
        SECURITY_CTX = 1 << 32;
        /// Nodes may be mapped one by one. There is no shared memory window here.
        HAS_INODE_DAX = 1 << 33;
        /// Calls that make a node have one of the caller's other groups
        /// (`Context::supplementary_group`).
        CREATE_SUPP_GROUP = 1 << 34;
        /// Files that are opened for direct reads and writes may be mapped.
        DIRECT_IO_ALLOW_MMAP = 1 << 36;
        /// Mounts with mapped users; then most calls have no user and no group (`Context::uid`).
        ALLOW_IDMAP = 1 << 40;
    }
}

flags! {
    /// The FOPEN_ flags of linux/fuse.h: how the guest treats a file that was opened.
    OpenOptions: u32 {
        /// Reads and writes bypass the guest's cache.
        DIRECT_IO = 1 << 0;
        /// The guest keeps its cached data of the file.
        KEEP_CACHE = 1 << 1;
        /// The file can't be sought in.
        NONSEEKABLE = 1 << 2;
        /// The guest may cache the directory's entries.
        CACHE_DIR = 1 << 3;
        /// The file is a stream.
        STREAM = 1 << 4;
        /// The guest sends no FLUSH when the file is closed.
        NOFLUSH = 1 << 5;
        /// Several direct writes may run at a time.
        PARALLEL_DIRECT_WRITES = 1 << 6;
    }
}

flags! {
    /// The FATTR_ flags of linux/fuse.h: which attributes SETATTR sets.
    SetAttributesValid: u32 {
        /// `mode`.
        MODE = 1 << 0;
        /// `uid`.
        UID = 1 << 1;
        /// `gid`.
        GID = 1 << 2;
        /// `size`.
        SIZE = 1 << 3;
        /// `atime`.
        ATIME = 1 << 4;
        /// `mtime`.
        MTIME = 1 << 5;
        /// Sets `atime` to the current time.
        ATIME_NOW = 1 << 7;
        /// Sets `mtime` to the current time.
        MTIME_NOW = 1 << 8;
        /// `ctime`.
        CTIME = 1 << 10;
        /// The file system clears set-user and set-group bits.
        KILL_SUIDGID = 1 << 11;
    }
}

flags! {
    /// The RENAME_ flags of linux/fs.h.
    RenameFlags: u32 {
        /// EEXIST if the new name exists.
        NOREPLACE = 1 << 0;
        /// The two names are exchanged.
        EXCHANGE = 1 << 1;
        /// The old name becomes a whiteout.
        WHITEOUT = 1 << 2;
    }
}

flags! {
    /// The permissions that ACCESS asks for (unistd.h). No flag: whether the node exists (`F_OK`).
    AccessMask: u32 {
        /// `X_OK`.
        EXECUTE = 1;
        /// `W_OK`.
        WRITE = 2;
        /// `R_OK`.
        READ = 4;
    }
}

/// The kind of a file in a directory's entry (`DT_` of dirent.h).
#[derive(Clone, Copy, Debug, Default, PartialEq, Eq, Hash)]
pub struct FileKind(
    /// Its number.
    pub u32,
);

impl FileKind {
    /// `DT_UNKNOWN`.
    pub const UNKNOWN: FileKind = FileKind(0);
    /// `DT_FIFO`, a named pipe.
    pub const FIFO: FileKind = FileKind(1);
    /// `DT_CHR`, a character device.
    pub const CHARACTER_DEVICE: FileKind = FileKind(2);
    /// `DT_DIR`, a directory.
    pub const DIRECTORY: FileKind = FileKind(4);
    /// `DT_BLK`, a block device.
    pub const BLOCK_DEVICE: FileKind = FileKind(6);
    /// `DT_REG`, a regular file.
    pub const REGULAR: FileKind = FileKind(8);
    /// `DT_LNK`, a symbolic link.
    pub const SYMBOLIC_LINK: FileKind = FileKind(10);
    /// `DT_SOCK`, a socket.
    pub const SOCKET: FileKind = FileKind(12);

    /// Whether dirent.h has it.
    pub(crate) fn is_known(self) -> bool {
        matches!(self.0, 0 | 1 | 2 | 4 | 6 | 8 | 10 | 12)
    }

    /// The kind that a mode has (`S_IFMT` of sys/stat.h).
    #[must_use]
    pub const fn from_mode(mode: u32) -> FileKind {
        FileKind(mode >> 12 & 15)
    }

    /// The bits of a mode for this kind, without permissions.
    #[must_use]
    pub const fn mode(self) -> u32 {
        (self.0 & 15) << 12
    }
}
