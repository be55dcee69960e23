//! Numbers with names, names of files, and the record of a device: by errno.h, linux/fuse.h,
//! linux/fs.h and dirent.h.
use pitskhomu::*;
use std::error::Error;
use std::io;
use std::time::{Duration, SystemTime};

#[test]
fn names() {
    assert!([&b"..."[..], b".a", b"a.", b"\xff"].into_iter().all(is_name));
    assert!(![&b""[..], b".", b"..", b"/", b"a/b", b"a\0"].into_iter().any(is_name));
}

/// The text that tools/archive gives the archive.
#[test]
fn the_archive_says_what_it_is() {
    let parts: Vec<&str> = build().split(", ").collect();
    assert_eq!(parts.len(), 3, "{}", build());
    assert_eq!(parts[0], concat!("pitskhomu ", env!("CARGO_PKG_VERSION")));
    assert!(parts[1].contains("commit"), "{}", parts[1]);
    let logic = parts[2].strip_prefix("proved by logic ");
    assert!(parts[2] == "NOT PROVED" || logic.map(str::len) == Some(16), "{}", parts[2]);
}

#[test]
fn errnos() {
    let numbers = [
        (Errno::EPERM, 1),
        (Errno::ENOENT, 2),
        (Errno::EIO, 5),
        (Errno::ENOSYS, 38),
        (Errno::EDQUOT, 122),
    ];
    for (errno, number) in numbers {
        assert_eq!((errno.number(), Errno::new(number)), (number, Some(errno)));
        assert_eq!(Errno::from_raw_os_error(number as i32), errno);
    }
    assert_eq!((Errno::new(0), Errno::new(Errno::MAX + 1)), (None, None));
    assert_eq!(
        (Errno::from_raw_os_error(0), Errno::from_raw_os_error(-1)),
        (Errno::EIO, Errno::EIO)
    );
    let odd = Errno::new(4095).unwrap();
    assert_eq!((Errno::ENOENT.name(), odd.name()), (Some("ENOENT"), None));
    assert_eq!(
        (format!("{:?}", Errno::ENOENT), format!("{odd:?}")),
        ("ENOENT".into(), "Errno(4095)".into())
    );
    assert_eq!(Errno::ENOENT.to_string(), "no such file or directory (ENOENT)");
    assert_eq!(odd.to_string(), "errno 4095");
}

#[test]
fn errors_of_std() {
    let by_call = io::Error::from_raw_os_error(39);
    assert_eq!(Errno::from(by_call), Errno::ENOTEMPTY);
    let kinds = [
        (io::ErrorKind::NotFound, Errno::ENOENT),
        (io::ErrorKind::PermissionDenied, Errno::EACCES),
        (io::ErrorKind::AlreadyExists, Errno::EEXIST),
        (io::ErrorKind::WouldBlock, Errno::EAGAIN),
        (io::ErrorKind::InvalidInput, Errno::EINVAL),
        (io::ErrorKind::TimedOut, Errno::ETIMEDOUT),
        (io::ErrorKind::Interrupted, Errno::EINTR),
        (io::ErrorKind::Unsupported, Errno::EOPNOTSUPP),
        (io::ErrorKind::OutOfMemory, Errno::ENOMEM),
        (io::ErrorKind::BrokenPipe, Errno::EPIPE),
        (io::ErrorKind::UnexpectedEof, Errno::EIO),
    ];
    for (kind, errno) in kinds {
        assert_eq!(Errno::from(io::Error::from(kind)), errno);
    }
    assert_eq!(io::Error::from(Errno::ENOENT).kind(), io::ErrorKind::NotFound);
    assert_eq!(io::Error::from(Status::OutOfMemory).kind(), io::ErrorKind::OutOfMemory);
    fn fails() -> Result<(), Box<dyn Error + Send + Sync>> {
        Err(Status::ChainInFlight)?
    }
    assert_eq!(fails().unwrap_err().to_string(), "a chain is in flight");
    assert_eq!(io::Error::from(Status::ChainInFlight).to_string(), "a chain is in flight");
}

#[test]
fn statuses_and_faults() {
    assert_eq!((Status::OutOfMemory.number(), Status::RecordMismatch.number()), (9, 90));
    assert!(Status::Stopped.stops_queue() && Status::DescriptorUnreachable.stops_queue());
    assert!(!Status::OutOfMemory.stops_queue() && !Status::ChainInFlight.stops_queue());
    assert!(Status::RecordOutOfMemory.is_out_of_memory() && !Status::Stopped.is_out_of_memory());
    assert_eq!(
        (Status::Unknown(99).number(), Status::Unknown(99).to_string().as_str()),
        (99, "number 99 of enum pk_status")
    );
    assert_eq!(
        (Fault::OverLimit.number(), Fault::OverLimit.to_string().as_str()),
        (8, "the request or the reply buffer is over the limit")
    );
    assert_eq!(RequestFault::XattrSize.number(), 9);
    assert_eq!(RequestFault::Name.to_string(), "a name doesn't end with its only zero byte");
}

#[test]
fn flags() {
    let both = OpenOptions::DIRECT_IO | OpenOptions::NOFLUSH;
    assert_eq!((both.bits(), OpenOptions::from_bits(33)), (33, both));
    assert!(both.contains(OpenOptions::NOFLUSH) && !both.contains(OpenOptions::STREAM));
    assert!(
        both.contains(OpenOptions::empty()) && OpenOptions::empty().is_empty() && !both.is_empty()
    );
    assert_eq!(
        (both & OpenOptions::NOFLUSH, both - OpenOptions::NOFLUSH),
        (OpenOptions::NOFLUSH, OpenOptions::DIRECT_IO)
    );
    let mut all = OpenOptions::default();
    all |= both;
    assert_eq!(
        format!("{:?}", all | OpenOptions::from_bits(0x100)),
        "OpenOptions(DIRECT_IO | NOFLUSH | 0x100)"
    );
    assert_eq!(
        (Options::INIT_EXT.bits(), Options::CREATE_SUPP_GROUP.bits(), Options::ALLOW_IDMAP.bits()),
        (1 << 30, 1 << 34, 1 << 40)
    );
    assert_eq!(
        (SetAttributesValid::CTIME.bits(), RenameFlags::WHITEOUT.bits(), AccessMask::READ.bits()),
        (1024, 4, 4)
    );
}

#[test]
fn workers_are_printed() {
    let printed = format!("{:?}", Worker::new());
    assert!(printed.starts_with("Worker { progress: Free, "), "{printed}");
}

#[test]
fn kinds_of_files() {
    assert_eq!(
        (FileKind::from_mode(0o40755), FileKind::from_mode(0o120777)),
        (FileKind::DIRECTORY, FileKind::SYMBOLIC_LINK)
    );
    let kinds = [
        (FileKind::UNKNOWN, 0),
        (FileKind::FIFO, 0o10000),
        (FileKind::CHARACTER_DEVICE, 0o20000),
        (FileKind::DIRECTORY, 0o40000),
        (FileKind::BLOCK_DEVICE, 0o60000),
        (FileKind::REGULAR, 0o100000),
        (FileKind::SYMBOLIC_LINK, 0o120000),
        (FileKind::SOCKET, 0o140000),
    ];
    for (kind, mode) in kinds {
        assert_eq!((kind.mode(), FileKind::from_mode(mode | 0o777)), (mode, kind));
    }
}

#[test]
fn the_archive_is_of_this_header() {
    assert_eq!((version(), VERSION >> 16, VERSION & 0xffff), (VERSION, 1, 0));
    assert_eq!((Device::MAX_REGIONS, Device::MAX_QUEUES, Device::MIN_LIMIT), (512, 64, 0x101000));
    assert_eq!((Node::ROOT, Attributes::SUBMOUNT, Attributes::DAX), (Node(1), 1, 2));
}

fn queues() -> Vec<Queue> {
    let layout = QueueLayout { size: 64, descriptors: 0x10000, available: 0x11000, used: 0x12000 };
    (0..3).map(|k| Queue::new(QueueLayout { size: 64 >> k, ..layout }, 7 + k).unwrap()).collect()
}

#[test]
fn a_device_is_saved_and_restored() {
    let device = Device::default();
    device.set_options(Options::ASYNC_READ | Options::MAX_PAGES);
    let mut record = device.save(&queues()).unwrap();
    assert_eq!(record.len(), 32 + 3 * 32);
    record.extend(b"what the file system saved");
    let target = Device::default();
    let restored = target.restore(&record).unwrap();
    assert_eq!(target.options(), device.options());
    assert_eq!(restored.len(), 3);
    for (queue, saved) in restored.iter().zip(&queues()) {
        assert_eq!(
            (queue.layout(), queue.next_avail(), queue.stopped()),
            (saved.layout(), saved.next_avail(), None)
        );
    }
}

#[test]
fn records_that_are_refused() {
    let device = Device::default();
    assert_eq!(device.save(&[]), Err(Status::BadArgument));
    assert_eq!(device.save(&[Queue::default()]), Err(Status::BadQueueSize));
    let many = |count| (0..count).map(|_| queues().remove(0)).collect::<Vec<_>>();
    assert_eq!(device.save(&many(65)), Err(Status::BadArgument));
    let most = device.restore(&device.save(&many(64)).unwrap()).unwrap();
    assert!(most.len() == 64 && most.iter().all(|queue| queue.max_in_flight() == 1));
    assert_eq!((Queue::default().max_in_flight(), queues()[0].max_in_flight()), (1, 1));
    let record = device.save(&queues()).unwrap();
    let restored =
        |target: &Device, record: &[u8]| target.restore(record).map(|queues| queues.len());
    for len in 0..record.len() {
        assert_eq!(restored(&device, &record[..len]), Err(Status::RecordTruncated), "{len}");
    }
    let mut changed = record.clone();
    changed[0] ^= 1;
    assert_eq!(restored(&device, &changed), Err(Status::RecordBadMagic));
    let other = Device::new(65536, Device::MIN_LIMIT).unwrap();
    other.set_options(Options::MAX_PAGES);
    assert_eq!(restored(&other, &record), Err(Status::RecordMismatch));
    assert_eq!(other.options(), Options::MAX_PAGES, "it stays as it was");
}

#[test]
fn devices_and_queues_of_bad_numbers_are_refused() {
    let devices = [
        (2048, Device::MIN_LIMIT),
        (4095, Device::MIN_LIMIT),
        (131_072, Device::MIN_LIMIT),
        (4096, Device::MIN_LIMIT - 1),
        (4096, Device::MAX_LIMIT + 1),
    ];
    for (page_size, limit) in devices {
        let refused = Device::new(page_size, limit).err();
        assert_eq!(refused, Some(Status::BadDevice), "{page_size} {limit}");
    }
    for (page_size, limit) in [(4096, Device::MIN_LIMIT), (65536, Device::MAX_LIMIT)] {
        let device = Device::new(page_size, limit).unwrap();
        // The library takes these numbers too.
        assert_eq!(Worker::new().set_memory(&device, &[]), Ok(()), "{page_size} {limit}");
    }
    let layout = QueueLayout { size: 64, descriptors: 0x10000, available: 0x11000, used: 0x12000 };
    let layouts = [
        (QueueLayout { size: 0, ..layout }, Status::BadQueueSize),
        (QueueLayout { size: 3, ..layout }, Status::BadQueueSize),
        (QueueLayout { size: 32769, ..layout }, Status::BadQueueSize),
        (QueueLayout { descriptors: 8, ..layout }, Status::BadQueueAlignment),
        (QueueLayout { available: 1, ..layout }, Status::BadQueueAlignment),
        (QueueLayout { used: 2, ..layout }, Status::BadQueueAlignment),
        (QueueLayout { used: u64::MAX - 3, ..layout }, Status::BadQueueEnd),
        (QueueLayout::default(), Status::BadQueueSize),
    ];
    for (layout, status) in layouts {
        assert_eq!(Queue::new(layout, 0).err(), Some(status), "{layout:?}");
    }
    for (max_in_flight, is_taken) in [(0, false), (1, true), (64, true), (65, false)] {
        let queue = Queue::new(layout, 0).unwrap().with_max_in_flight(max_in_flight);
        assert_eq!(queue.is_ok(), is_taken, "{max_in_flight}");
    }
}

#[test]
fn times_have_less_than_a_second_of_nanoseconds() {
    assert_eq!(
        Time::new(7, 999_999_999).map(|time| (time.seconds(), time.nanos())),
        Some((7, 999_999_999))
    );
    for nanos in [1_000_000_000, 0x3fff_ffff, u32::MAX] {
        assert_eq!(Time::new(7, nanos), None);
        assert_eq!(Time::try_from(GuestTime { seconds: 7, nanos }), Err(Errno::EINVAL));
    }
    let guests = GuestTime { seconds: -7, nanos: 8 };
    assert_eq!(GuestTime::from(Time::try_from(guests).unwrap()), guests);
    let (epoch, time) =
        (SystemTime::UNIX_EPOCH, |seconds, nanos| Time::new(seconds, nanos).unwrap());
    assert_eq!(Time::from(epoch), Time::default());
    assert_eq!(Time::from(epoch + Duration::new(3, 4)), time(3, 4));
    assert_eq!(Time::from(epoch - Duration::new(3, 0)), time(-3, 0));
    assert_eq!(Time::from(epoch - Duration::new(3, 4)), time(-4, 999_999_996));
    let (seconds, nanos) = (0x0102_0304_0506, 0x1a2b_3c4d);
    assert_eq!(Time::from(epoch + Duration::new(seconds, nanos)), time(seconds as i64, nanos));
    let before = Time::from(epoch - Duration::new(seconds, nanos));
    assert_eq!(before, time(-(seconds as i64) - 1, 1_000_000_000 - nanos));
    let guests = GuestTime { seconds: i64::MIN + 7, nanos };
    assert_eq!(GuestTime::from(Time::try_from(guests).unwrap()), guests);
}

/// A time of the system is the same number of nanoseconds since 1970, rounded down to seconds: also
/// the earliest one and the latest, where the system has them.
#[test]
fn times_of_the_system_are_whole_numbers_of_nanoseconds() {
    let most = i64::MAX as u64;
    let mut seconds = vec![0, 1, 1 << 31, 1 << 32, 1 << 62, most - 1, most, most + 1];
    seconds.extend((0..63).map(|bit| 0x7123_4567_89ab_cdef >> bit));
    let nanos = [0, 1, 0x1a2b_3c4d, 500_000_000, 999_999_999];
    let mut extremes = 0;
    for (seconds, nanos) in seconds.iter().flat_map(|s| nanos.map(|nanos| (*s, nanos))) {
        let (length, epoch) = (Duration::new(seconds, nanos), SystemTime::UNIX_EPOCH);
        let since = i128::from(seconds) * 1_000_000_000 + i128::from(nanos);
        for (time, since) in
            [(epoch.checked_add(length), since), (epoch.checked_sub(length), -since)]
        {
            if let Some(time) = time {
                let found = Time::from(time);
                let found = i128::from(found.seconds()) * 1_000_000_000 + i128::from(found.nanos());
                assert_eq!(found, since);
                let floor = since.div_euclid(1_000_000_000);
                extremes += u32::from(floor == i64::MIN.into() || floor == i64::MAX.into());
            }
        }
    }
    // Both ends, with each number of nanoseconds.
    assert!(extremes == 10 || cfg!(not(target_os = "linux")), "{extremes}");
}

/// SETATTR of a time that is none fails; a number of an attribute that isn't set may be any.
#[test]
fn what_is_set_has_times() {
    let mut set = SetAttributes::default();
    set.values.atime = GuestTime { seconds: 1, nanos: 1_000_000_000 };
    (set.values.mtime, set.values.ctime) = (set.values.atime, set.values.atime);
    assert_eq!((set.atime(), set.mtime(), set.ctime()), (Ok(None), Ok(None), Ok(None)));
    set.valid = SetAttributesValid::ATIME | SetAttributesValid::MTIME | SetAttributesValid::CTIME;
    assert_eq!(set.atime(), Err(Errno::EINVAL));
    assert_eq!((set.mtime(), set.ctime()), (Err(Errno::EINVAL), Err(Errno::EINVAL)));
    set.valid |= SetAttributesValid::ATIME_NOW | SetAttributesValid::MTIME_NOW;
    assert_eq!((set.atime(), set.mtime()), (Ok(Some(SetTime::Now)), Ok(Some(SetTime::Now))));
}

#[test]
fn sets_of_flags_are_like_other_sets() {
    let (read, write) = (AccessMask::READ, AccessMask::WRITE);
    let mut mask: AccessMask = [read, write].into_iter().collect();
    assert_eq!((mask, mask.bits()), (read | write, 6));
    assert_eq!((!mask, mask ^ read, mask & read), (AccessMask::EXECUTE, write, read));
    assert!(mask.intersects(read) && !read.intersects(write));
    mask.remove(read);
    mask.insert(AccessMask::EXECUTE);
    mask.extend([write]);
    assert_eq!(format!("{mask:x} {mask:#o} {mask:b} {mask:X}"), "3 0o3 11 3");
    mask ^= write;
    mask &= AccessMask::EXECUTE;
    mask -= AccessMask::EXECUTE;
    assert!(mask.is_empty() && AccessMask::all().contains(read | write));
    assert_eq!((Node::from(7), Handle::from(8)), (Node(7), Handle(8)));
}
