//! Each number with a name: of errno.h, linux/fuse.h, linux/fs.h, unistd.h, dirent.h and
//! pitskhomu.h.
use pitskhomu::*;
use std::collections::HashSet;
use std::io;

/// Each error's number and name.
macro_rules! errnos {
    ($($name:ident $number:literal,)*) => { [$((Errno::$name, $number, stringify!($name)),)*] };
}

/// errno.h of Linux.
#[rustfmt::skip]
const ERRNOS: [(Errno, u32, &str); 131] = errnos![
    EPERM 1, ENOENT 2, ESRCH 3, EINTR 4, EIO 5, ENXIO 6, E2BIG 7, ENOEXEC 8, EBADF 9, ECHILD 10,
    EAGAIN 11, ENOMEM 12, EACCES 13, EFAULT 14, ENOTBLK 15, EBUSY 16, EEXIST 17, EXDEV 18,
    ENODEV 19, ENOTDIR 20, EISDIR 21, EINVAL 22, ENFILE 23, EMFILE 24, ENOTTY 25, ETXTBSY 26,
    EFBIG 27, ENOSPC 28, ESPIPE 29, EROFS 30, EMLINK 31, EPIPE 32, EDOM 33, ERANGE 34, EDEADLK 35,
    ENAMETOOLONG 36, ENOLCK 37, ENOSYS 38, ENOTEMPTY 39, ELOOP 40, ENOMSG 42, EIDRM 43, ECHRNG 44,
    EL2NSYNC 45, EL3HLT 46, EL3RST 47, ELNRNG 48, EUNATCH 49, ENOCSI 50, EL2HLT 51, EBADE 52,
    EBADR 53, EXFULL 54, ENOANO 55, EBADRQC 56, EBADSLT 57, EBFONT 59, ENOSTR 60, ENODATA 61,
    ETIME 62, ENOSR 63, ENONET 64, ENOPKG 65, EREMOTE 66, ENOLINK 67, EADV 68, ESRMNT 69, ECOMM 70,
    EPROTO 71, EMULTIHOP 72, EDOTDOT 73, EBADMSG 74, EOVERFLOW 75, ENOTUNIQ 76, EBADFD 77,
    EREMCHG 78, ELIBACC 79, ELIBBAD 80, ELIBSCN 81, ELIBMAX 82, ELIBEXEC 83, EILSEQ 84,
    ERESTART 85, ESTRPIPE 86, EUSERS 87, ENOTSOCK 88, EDESTADDRREQ 89, EMSGSIZE 90, EPROTOTYPE 91,
    ENOPROTOOPT 92, EPROTONOSUPPORT 93, ESOCKTNOSUPPORT 94, EOPNOTSUPP 95, EPFNOSUPPORT 96,
    EAFNOSUPPORT 97, EADDRINUSE 98, EADDRNOTAVAIL 99, ENETDOWN 100, ENETUNREACH 101, ENETRESET 102,
    ECONNABORTED 103, ECONNRESET 104, ENOBUFS 105, EISCONN 106, ENOTCONN 107, ESHUTDOWN 108,
    ETOOMANYREFS 109, ETIMEDOUT 110, ECONNREFUSED 111, EHOSTDOWN 112, EHOSTUNREACH 113,
    EALREADY 114, EINPROGRESS 115, ESTALE 116, EUCLEAN 117, ENOTNAM 118, ENAVAIL 119, EISNAM 120,
    EREMOTEIO 121, EDQUOT 122, ENOMEDIUM 123, EMEDIUMTYPE 124, ECANCELED 125, ENOKEY 126,
    EKEYEXPIRED 127, EKEYREVOKED 128, EKEYREJECTED 129, EOWNERDEAD 130, ENOTRECOVERABLE 131,
    ERFKILL 132, EHWPOISON 133,
];

#[test]
fn errnos_are_those_of_linux() {
    let mut texts = HashSet::new();
    for (errno, number, name) in ERRNOS {
        assert_eq!((errno.number(), errno.name()), (number, Some(name)));
        assert_eq!((Errno::new(number), format!("{errno:?}").as_str()), (Some(errno), name));
        let error = io::Error::from(errno);
        assert_eq!((error.raw_os_error(), Errno::from(error)), (Some(number as i32), errno));
        let text = errno.to_string();
        let text = text.strip_suffix(&format!(" ({name})")).expect("its name is behind its text");
        assert!(texts.insert(text.to_owned()), "{name} has another's text");
        #[cfg(all(target_os = "linux", target_env = "gnu"))]
        assert!(
            io::Error::from(errno).to_string().to_lowercase().starts_with(&text.to_lowercase()),
            "{name}: {text}"
        );
    }
    let known: HashSet<u32> = ERRNOS.iter().map(|(_, number, _)| *number).collect();
    for number in 0..5000 {
        let errno = Errno::new(number);
        assert_eq!(errno.is_some(), number > 0 && number < 4096, "{number}");
        let name = errno.and_then(Errno::name);
        assert_eq!(name.is_some(), known.contains(&number), "{number}");
        if let (Some(errno), None) = (errno, name) {
            assert_eq!(format!("{errno:?} {errno}"), format!("Errno({number}) errno {number}"));
        }
    }
    assert!(Errno::ENOENT < Errno::EIO && Errno::MAX == 4095);
    for number in [i32::MIN, -2, 0, 4096, i32::MAX] {
        assert_eq!(Errno::from_raw_os_error(number), Errno::EIO);
    }
}

/// Each flag is the bit of this number, is printed by its name, and all are the type's.
macro_rules! bits {
    ($type:ident $($name:ident $bit:literal,)*) => {
        let mut all = $type::empty();
        $(
            assert_eq!($type::$name.bits(), 1 << $bit, "{}", stringify!($name));
            let printed = concat!(stringify!($type), "(", stringify!($name), " | 0x0)");
            assert_eq!(format!("{:?}", $type::$name), printed);
            assert!(!all.intersects($type::$name));
            all |= $type::$name;
        )*
        assert_eq!((all, !$type::empty()), ($type::all(), all));
        let odd = $type::from_bits(1 << 31) - all;
        assert_eq!((odd.bits(), !odd), (1 << 31, all));
        assert!((all | odd).contains(odd) && !all.contains(odd) && !all.intersects(odd));
    };
}

#[test]
fn flags_are_those_of_linux() {
    bits! { Options
        ASYNC_READ 0, POSIX_LOCKS 1, FILE_OPS 2, ATOMIC_O_TRUNC 3, EXPORT_SUPPORT 4, BIG_WRITES 5,
        DONT_MASK 6, SPLICE_WRITE 7, SPLICE_MOVE 8, SPLICE_READ 9, FLOCK_LOCKS 10, HAS_IOCTL_DIR 11,
        AUTO_INVAL_DATA 12, DO_READDIRPLUS 13, READDIRPLUS_AUTO 14, ASYNC_DIO 15,
        WRITEBACK_CACHE 16, NO_OPEN_SUPPORT 17, PARALLEL_DIROPS 18, HANDLE_KILLPRIV 19,
        POSIX_ACL 20, ABORT_ERROR 21, MAX_PAGES 22, CACHE_SYMLINKS 23, NO_OPENDIR_SUPPORT 24,
        EXPLICIT_INVAL_DATA 25, SUBMOUNTS 27, HANDLE_KILLPRIV_V2 28, SETXATTR_EXT 29, INIT_EXT 30,
        SECURITY_CTX 32, HAS_INODE_DAX 33, CREATE_SUPP_GROUP 34, DIRECT_IO_ALLOW_MMAP 36,
        ALLOW_IDMAP 40,
    }
    bits! { OpenOptions
        DIRECT_IO 0, KEEP_CACHE 1, NONSEEKABLE 2, CACHE_DIR 3, STREAM 4, NOFLUSH 5,
        PARALLEL_DIRECT_WRITES 6,
    }
    bits! { SetAttributesValid
        MODE 0, UID 1, GID 2, SIZE 3, ATIME 4, MTIME 5, ATIME_NOW 7, MTIME_NOW 8, CTIME 10,
        KILL_SUIDGID 11,
    }
    bits! { RenameFlags NOREPLACE 0, EXCHANGE 1, WHITEOUT 2, }
    bits! { AccessMask EXECUTE 0, WRITE 1, READ 2, }
}

/// Sets with bits of all kinds, beside the same of integers.
#[test]
fn sets_of_flags_are_integers() {
    let mut state = 1u64;
    let mut next = || {
        state = state.wrapping_mul(6_364_136_223_846_793_005).wrapping_add(1);
        state ^ state >> 29
    };
    for _ in 0..500 {
        let (a, b) = (next(), next() & next());
        let (x, y) = (Options::from_bits(a), Options::from_bits(b));
        assert_eq!((x.bits(), y.bits()), (a, b));
        assert_eq!(((x | y).bits(), (x & y).bits()), (a | b, a & b));
        assert_eq!(((x ^ y).bits(), (x - y).bits()), (a ^ b, a & !b));
        assert_eq!((!x).bits(), Options::all().bits() & !a);
        assert_eq!((x.contains(y), x.contains(x & y)), (a & b == b, true));
        assert_eq!((x.intersects(y), (x - y).intersects(y)), (a & b != 0, false));
        let mut sets = [x; 7];
        sets[0].insert(y);
        sets[1].remove(y);
        sets[2] |= y;
        sets[3] &= y;
        sets[4] ^= y;
        sets[5] -= y;
        sets[6].extend([y, Options::ALLOW_IDMAP]);
        let wanted = [a | b, a & !b, a | b, a & b, a ^ b, a & !b, a | b | 1 << 40];
        assert_eq!(sets.map(Options::bits), wanted);
        assert_eq!([x, y].into_iter().collect::<Options>().bits(), a | b);
        assert_eq!(format!("{x:b} {x:o} {x:x} {x:X}"), format!("{a:b} {a:o} {a:x} {a:X}"));
        assert_eq!((x.is_empty(), x == y), (a == 0, a == b));
    }
}

#[test]
fn kinds_are_those_of_linux() {
    let kinds = [
        (FileKind::UNKNOWN, 0),
        (FileKind::FIFO, 1),
        (FileKind::CHARACTER_DEVICE, 2),
        (FileKind::DIRECTORY, 4),
        (FileKind::BLOCK_DEVICE, 6),
        (FileKind::REGULAR, 8),
        (FileKind::SYMBOLIC_LINK, 10),
        (FileKind::SOCKET, 12),
    ];
    for (kind, number) in kinds {
        assert_eq!((kind.0, kind.mode()), (number, number << 12));
        assert_eq!(FileKind::from_mode(number << 12 | 0o7777 | 0xffff_0000), kind);
    }
    assert_eq!(FileKind(0xffff_fff7).mode(), 0x7000);
    assert_eq!((Attributes::SUBMOUNT, Attributes::DAX), (1, 2));
}

/// Each number of an enum of pitskhomu.h.
macro_rules! numbers {
    ($type:ident $($name:ident $number:literal,)*) => {
        [$(($type::$name.number(), $number, $type::$name.to_string()),)*]
    };
}

fn check(rows: &[(u32, u32, String)]) {
    let texts: HashSet<_> = rows.iter().map(|(_, _, text)| text).collect();
    assert_eq!(texts.len(), rows.len(), "two have the same text");
    for (number, wanted, text) in rows {
        assert_eq!(number, wanted, "{text}");
    }
}

#[test]
fn numbers_are_those_of_the_header() {
    check(&numbers![Status
        Stopped 1, AvailIndexUnreachable 2, AvailTooFar 3, RingEntryUnreachable 4,
        HeadOutOfTable 5, UsedUnreachable 6, AvailFlagsUnreachable 7, DescriptorUnreachable 8,
        OutOfMemory 9, BadArgument 66, ShortBuffer 69, LongReply 71, WrongOrder 73, OtherQueue 74,
        OtherKind 75, ChainInFlight 76, NotMapped 77, Pushing 78, OtherCall 79, OtherTable 80,
        RecordTruncated 81, RecordBadMagic 82, RecordBadVersion 83, RecordBadCount 84,
        RecordBadReserved 85, RecordBadQueue 86, RecordBadOptions 87, RecordOutOfMemory 89,
        RecordMismatch 90, BadDevice 96, BadQueueSize 97, BadQueueAlignment 98, BadQueueEnd 99,
        BadMaxInFlight 100, BadEventIndex 101, BadQueueState 102, QueueNotBegun 103,
        EmptyRegion 104, BadRegionHost 105, BadRegionGuest 106, BadRegionLen 107, BadRegionEnd 108,
        TooManyRegions 109, RegionsOverlap 110,
    ]);
    check(&numbers![Fault
        TooLong 1, NextOutOfTable 2, AddressOverflow 3, IndirectWithNext 4, IndirectNested 5,
        IndirectLength 6, TableUnreachable 7, OverLimit 8, RequestUnreachable 9,
        RoomUnreachable 10,
    ]);
    check(&numbers![RequestFault
        Decode 1, Encode 2, MissingParameter 4, MissingExtension 5, HeaderLength 6, Name 7,
        XattrSize 9,
    ]);
    assert_eq!(Status::Unknown(88).to_string(), "number 88 of enum pk_status");
    assert_eq!(Fault::Unknown(11).to_string(), "number 11 of enum pk_fault");
    assert_eq!(RequestFault::Unknown(3).to_string(), "number 3 of enum pk_request_fault");
    assert_eq!([Fault::Unknown(11).number(), RequestFault::Unknown(3).number()], [11, 3]);
}

/// 1 to 8 stop a queue. Two say that an allocation failed.
#[test]
fn what_a_refusal_means() {
    let stop = [
        Status::Stopped,
        Status::AvailIndexUnreachable,
        Status::AvailTooFar,
        Status::RingEntryUnreachable,
        Status::HeadOutOfTable,
        Status::UsedUnreachable,
        Status::AvailFlagsUnreachable,
        Status::DescriptorUnreachable,
    ];
    let memory = [Status::OutOfMemory, Status::RecordOutOfMemory];
    let others = [
        Status::BadArgument,
        Status::LongReply,
        Status::RecordMismatch,
        Status::Unknown(10),
        Status::Unknown(0),
    ];
    for status in stop.into_iter().chain(memory).chain(others) {
        let is_of_memory = memory.contains(&status);
        assert_eq!(status.stops_queue(), stop.contains(&status), "{status}");
        assert_eq!(status.is_out_of_memory(), is_of_memory, "{status}");
        let error = io::Error::from(status);
        assert_eq!(error.kind() == io::ErrorKind::OutOfMemory, is_of_memory, "{status}");
        let inner = error.into_inner().and_then(|inner| inner.downcast::<Status>().ok());
        assert_eq!(inner.map(|inner| *inner), Some(status));
    }
}
