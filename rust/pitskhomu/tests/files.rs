//! READ and WRITE by system calls on the guest's memory, and by buffers of owned requests.
#![cfg(all(target_os = "linux", target_pointer_width = "64"))]
mod guest;

use guest::*;
use pitskhomu::*;
use std::cell::RefCell;
use std::fs::{self, File, OpenOptions};
use std::io::Write as _;
use std::path::PathBuf;
use std::time::Duration;

/// A file that is removed at the end.
struct Temporary(PathBuf, File);

impl Temporary {
    fn new(name: &str, bytes: &[u8]) -> Temporary {
        let path = std::env::temp_dir().join(format!("pitskhomu-{}-{name}", std::process::id()));
        let mut file = OpenOptions::new()
            .read(true)
            .write(true)
            .create(true)
            .truncate(true)
            .open(&path)
            .unwrap();
        file.write_all(bytes).unwrap();
        Temporary(path, file)
    }
}

impl Drop for Temporary {
    fn drop(&mut self) {
        let _ = fs::remove_file(&self.0);
    }
}

/// Moves data from and to its file.
struct Files<'f>(&'f File);

impl FileSystem for Files<'_> {
    fn lookup(&self, _: &Context, _: Node, _: &CStr) -> Answer<Entry> {
        Err(Errno::EIO)
    }
    fn getattr(&self, _: &Context, _: Node, _: Option<Handle>) -> Answer<(Attributes, Duration)> {
        Err(Errno::EIO)
    }
    fn read(&self, _: &Context, _: Node, read: ReadFile, data: &mut ReadData<'_>) -> Answer<()> {
        let count = data.read_from(self.0, read.offset)?;
        assert_eq!(count, data.done());
        Ok(())
    }
    fn write(
        &self,
        _: &Context,
        _: Node,
        write: WriteFile,
        data: &mut WriteData<'_>,
    ) -> Answer<()> {
        let count = data.write_to(self.0, write.offset)?;
        assert_eq!(count, data.done());
        Ok(())
    }
}

/// Bytes of which no two near ones are equal.
fn pattern(len: usize) -> Vec<u8> {
    (0..len).map(|k| (k % 251) as u8 ^ (k / 251) as u8).collect()
}

/// struct fuse_read_in.
fn read_args(offset: u64, size: u32) -> Vec<u8> {
    request(15, 5, &args().q(3).q(offset).d(size).bytes(&[0; 20]).0)
}

/// Offers a request whose reply buffer is of many descriptors, and serves it.
fn serve_pieces(guest: &mut Guest, files: &Files<'_>, request: &[u8], piece: u32) -> Served {
    guest.memory.write(REQUEST, request);
    let mut buffers = vec![Buffer(REQUEST, request.len() as u32, false), Buffer(ROOM, 16, true)];
    for k in 0..u64::from(SIZE) - 2 {
        buffers.push(Buffer(ROOM + 0x1000 + 0x2000 * k, piece, true));
    }
    guest.draw(DESCRIPTORS, 0, &buffers);
    guest.offer(0);
    guest.serve(files).0
}

#[test]
fn a_read_is_of_the_file() {
    let bytes = pattern(100_000);
    let file = Temporary::new("read", &bytes);
    for way in WAYS {
        for (offset, size, len) in
            [(0, 10, 10), (7, 5000, 5000), (99_990, 100, 10), (100_000, 8, 0), (1 << 40, 8, 0)]
        {
            let mut guest = Guest::by(way);
            guest.memory.is_logging.set(true);
            guest.offer_request(&read_args(offset, size), 16 + size);
            let data = guest.serve(&Files(&file.1)).1.data();
            let from = bytes.len().min(offset as usize);
            assert!(data == bytes[from..from + len], "{way:?} {offset}");
            let data_marks =
                guest.memory.marks.take().into_iter().filter(|range| range.guest > ROOM);
            assert_eq!(data_marks.map(|range| range.len).sum::<u64>(), len as u64, "{way:?}");
        }
    }
}

/// How often this thread has read so far; `None` if the system doesn't count that.
fn reads() -> Option<u64> {
    let counts = fs::read_to_string("/proc/thread-self/io").ok()?;
    counts.lines().find_map(|line| line.strip_prefix("syscr: "))?.parse().ok()
}

/// Counts the system calls of each READ.
struct Counting<'f>(Files<'f>, RefCell<Vec<u64>>);

impl FileSystem for Counting<'_> {
    fn lookup(&self, context: &Context, node: Node, name: &CStr) -> Answer<Entry> {
        self.0.lookup(context, node, name)
    }
    fn getattr(
        &self,
        context: &Context,
        node: Node,
        handle: Option<Handle>,
    ) -> Answer<(Attributes, Duration)> {
        self.0.getattr(context, node, handle)
    }
    fn read(
        &self,
        context: &Context,
        node: Node,
        read: ReadFile,
        data: &mut ReadData<'_>,
    ) -> Answer<()> {
        let (first, before) = (reads(), reads());
        self.0.read(context, node, read, data)?;
        if let (Some(first), Some(before), Some(after)) = (first, before, reads()) {
            self.1.borrow_mut().push(after - before - (before - first));
        }
        Ok(())
    }
}

/// The data of an answer that may come later is read by 1 MiB, the longest READ of Linux. Up to the
/// file's end, and of more bytes than one call reads.
#[test]
fn a_long_read_is_one_system_call() {
    const LONG: u32 = 1 << 20;
    let bytes = pattern(LONG as usize + 70_000);
    let file = Temporary::new("long", &bytes);
    for way in WAYS {
        let counting = Counting(Files(&file.1), RefCell::default());
        for (offset, size, calls) in
            [(7, LONG, 1), (7, 300_000, 1), (100_000, LONG, 1), (3, LONG + 60_000, 2)]
        {
            let device = Device::new(4096, 2 * Device::MIN_LIMIT).unwrap();
            let mut guest = Guest::over(device);
            guest.way = way;
            guest.offer_request(&read_args(offset, size), 16 + size);
            let data = guest.serve(&counting).1.data();
            let from = offset as usize;
            let end = bytes.len().min(from + size as usize);
            assert!(data == bytes[from..end], "{way:?} {offset} {size}");
            // In place it is one call. valgrind reads for itself, at most twice a call.
            let most = if way == Way::Owned { 3 * calls } else { 3 };
            let counted = counting.1.take();
            assert!(counted.iter().all(|&count| count <= most), "{way:?} {size}: {counted:?}");
        }
    }
}

#[test]
fn data_is_in_many_pieces() {
    let bytes = pattern(100_000);
    let file = Temporary::new("pieces", &bytes);
    for way in WAYS {
        let mut guest = Guest::by(way);
        let served = serve_pieces(&mut guest, &Files(&file.1), &read_args(3, 14 * 1000), 1000);
        assert_eq!(served.reply_len, 16 + 14 * 1000);
        for k in 0..14u64 {
            let found = guest.memory.read(ROOM + 0x1000 + 0x2000 * k, 1000);
            assert!(found == bytes[3 + 1000 * k as usize..][..1000], "{k}");
        }
    }
}

#[test]
fn a_write_is_to_the_file() {
    for way in WAYS {
        let (file, bytes) = (Temporary::new("write", b"begin"), pattern(9000));
        let mut guest = Guest::by(way);
        let write = args().q(3).q(5).d(9000).bytes(&[0; 20]).bytes(&bytes);
        let reply = guest.ask(&Files(&file.1), 16, 5, write, 24).data();
        assert_eq!(number(&reply, 0, 4), 9000);
        assert!(fs::read(&file.0).unwrap() == [b"begin", &bytes[..]].concat());
    }
}

#[test]
fn errors_are_the_systems() {
    let closed = File::open("/").unwrap(); // a directory isn't read: EISDIR; nor written: EBADF
    for way in WAYS {
        let mut guest = Guest::by(way);
        guest.offer_request(&read_args(0, 100), 116);
        assert_eq!(guest.serve(&Files(&closed)).1, Replied::Error(21));
        let write = args().q(3).q(5).d(1).bytes(&[0; 20]).bytes(b"x");
        assert_eq!(guest.ask(&Files(&closed), 16, 5, write, 24), Replied::Error(9));
        guest.offer_request(&read_args(u64::MAX, 100), 116);
        assert_eq!(guest.serve(&Files(&closed)).1, Replied::Error(22));
    }
}

/// So many pieces, which are more than a system call takes. They lie apart.
const PIECES: u64 = 150;

fn piece_at(k: u64) -> (u64, u32) {
    (0x10_0000 + 0x400 * k, (k % 13 + 1) as u32 * 7)
}

/// The size of their queue: no chain is longer.
const WIDE: u16 = 256;

/// Offers a request with these pieces behind it, or behind its reply's header, in a table.
fn offer_pieces(guest: &mut Guest, request: &[u8], is_read: bool) -> u32 {
    guest.queue = Queue::new(QueueLayout { size: WIDE, ..layout() }, guest.offered).unwrap();
    guest.memory.write(REQUEST, request);
    let mut buffers = vec![Buffer(REQUEST, request.len() as u32, false)];
    buffers.extend(Some(Buffer(ROOM, 16, true)).filter(|_| is_read));
    let pieces = (0..PIECES).map(piece_at);
    buffers.extend(pieces.clone().map(|(at, len)| Buffer(at, len, is_read)));
    buffers.extend(Some(Buffer(ROOM, 24, true)).filter(|_| !is_read));
    guest.draw(TABLE, 0, &buffers);
    guest.descriptor(DESCRIPTORS, 3, (TABLE, 16 * buffers.len() as u32, INDIRECT, 0));
    guest.memory.write(AVAILABLE + 4 + 2 * u64::from(guest.offered % WIDE), &[3, 0]);
    guest.memory.write(AVAILABLE + 2, &guest.offered.wrapping_add(1).to_le_bytes());
    pieces.map(|(_, len)| len).sum()
}

fn serve_wide(guest: &mut Guest, files: &Files<'_>) -> Served {
    let served = if guest.way == Way::Methods {
        guest.worker.serve(&mut guest.queue, &guest.device, files, &guest.memory)
    } else {
        by_values::serve(guest, files)
    };
    served.unwrap().expect("a chain waits")
}

#[test]
fn data_is_in_more_pieces_than_a_call_takes() {
    let total: u32 = (0..PIECES).map(|k| piece_at(k).1).sum();
    let bytes = pattern(total as usize + 20);
    for way in WAYS {
        // All of it, up to the file's end in the second call's pieces, and in the first's.
        for cut in [0, total / 3, total - 100] {
            let file = Temporary::new("many", &bytes[..bytes.len() - 10 - cut as usize]);
            let mut guest = Guest::by(way);
            assert_eq!(offer_pieces(&mut guest, &read_args(10, total), true), total);
            let served = serve_wide(&mut guest, &Files(&file.1));
            assert_eq!(served.reply_len, 16 + total - cut, "{way:?} {cut}");
            let mut found = Vec::new();
            (0..PIECES).for_each(|k| {
                found.extend(guest.memory.read(piece_at(k).0, piece_at(k).1 as usize));
            });
            let len = (total - cut) as usize;
            assert!(found[..len] == bytes[10..10 + len], "{way:?} {cut}");
            assert!(found[len..].iter().all(|byte| *byte == 0), "{way:?} {cut}");
        }
        let file = Temporary::new("many", b"0123456789");
        let mut guest = Guest::by(way);
        let mut at = 0;
        for (place, len) in (0..PIECES).map(piece_at) {
            guest.memory.write(place, &bytes[at..at + len as usize]);
            at += len as usize;
        }
        let mut write = request(16, 5, &args().q(3).q(7).d(total).bytes(&[0; 20]).0);
        write[..4].copy_from_slice(&(80 + total).to_le_bytes());
        offer_pieces(&mut guest, &write, false);
        assert_eq!(serve_wide(&mut guest, &Files(&file.1)).reply_len, 24);
        assert_eq!(number(&guest.memory.read(ROOM + 16, 4), 0, 4), u64::from(total));
        assert!(fs::read(&file.0).unwrap() == [b"0123456", &bytes[..at]].concat(), "{way:?}");
    }
}

/// Memory that lacks a stretch, or has the first byte of it alone.
struct Lacking<'m> {
    memory: &'m Memory,
    from: usize,
    is_short: bool,
}

impl GuestMemory for Lacking<'_> {
    fn get_slice(&self, at: usize, len: usize) -> Option<GuestSlice<'_>> {
        let lacks = (self.from..self.from + 0x400).contains(&at);
        let len = if lacks && self.is_short { 1 } else { len };
        self.memory.get_slice(at, len).filter(|_| !lacks || self.is_short)
    }
}

/// Data ends before the piece that the memory lacks. If that is the first one, the call fails.
#[test]
fn pieces_that_the_memory_lacks() {
    for (k, is_read, is_short) in (0..20).map(|k| (k * 5, k % 2 == 0, k % 3 == 0)) {
        let file = Temporary::new("lacks", &pattern(20_000));
        let mut guest = Guest::new();
        let size = 10_000;
        let mut asked = if is_read {
            read_args(0, size)
        } else {
            request(16, 5, &args().q(3).q(0).d(size).bytes(&[0; 20]).0)
        };
        let wanted: u32 = (0..k).map(|k| piece_at(k).1).sum();
        let total: u32 = (0..PIECES).map(|k| piece_at(k).1).sum();
        asked[..4].copy_from_slice(&(80 + if is_read { 0 } else { total }).to_le_bytes());
        offer_pieces(&mut guest, &asked, is_read);
        let from = guest.memory.host + piece_at(k).0 as usize;
        let Guest { worker, queue, device, memory, .. } = &mut guest;
        let memory = Lacking { memory, from, is_short };
        let served = worker.serve(queue, device, &Files(&file.1), &memory).unwrap().unwrap();
        let error = number(&guest.memory.read(ROOM + 4, 4), 0, 4) as i32;
        if k == 0 {
            assert_eq!((served.reply_len, error), (16, -14), "EFAULT");
        } else if is_read {
            assert_eq!((served.reply_len, error), (16 + wanted, 0), "{k}");
        } else {
            let count = number(&guest.memory.read(ROOM + 16, 4), 0, 4);
            assert_eq!((served.reply_len, error, count), (24, 0, u64::from(wanted)), "{k}");
        }
    }
}
