//! From a chain's walk to its return: rings as VIRTIO 1.2, 2.7 has them, bad ones among them, and
//! what a worker does after a panic.
mod guest;

use guest::recorder::{entry, opened, Recorder};
use guest::*;
use pitskhomu::*;
use std::panic::{catch_unwind, AssertUnwindSafe};

const HELLO: &[u8] = b"hello\0";

fn serve(guest: &mut Guest, file_system: &dyn FileSystem) -> Result<Option<Served>, Status> {
    guest.worker.serve(&mut guest.queue, &guest.device, file_system, &guest.memory)
}

fn is_send<T: Send>() {}
fn is_sync<T: Sync>() {}

#[test]
fn types_go_from_thread_to_thread() {
    is_send::<Worker>();
    is_send::<Queue>();
    is_send::<Device>();
    is_sync::<Device>();
    is_send::<Status>();
    is_sync::<Errno>();
    let (mut guest, recorder) = (Guest::new(), Recorder::default());
    guest.offer_request(&request(1, 1, HELLO), 144);
    std::thread::scope(|scope| {
        let served = scope.spawn(|| serve(&mut guest, &recorder).unwrap());
        assert!(served.join().unwrap().is_some());
    });
}

#[test]
fn an_idle_queue() {
    let (mut guest, recorder) = (Guest::new(), Recorder::default());
    assert_eq!(serve(&mut guest, &recorder), Ok(None));
    assert_eq!((guest.queue.layout(), guest.queue.next_avail()), (layout(), u16::MAX - 2));
    assert_eq!((guest.queue.stopped(), guest.queue.in_flight()), (None, 0));
    assert_eq!((guest.device.page_size(), guest.device.limit()), (4096, Device::MIN_LIMIT));
}

#[test]
fn what_came_of_a_chain() {
    let (mut guest, recorder) = (Guest::new(), Recorder::default());
    guest.offer_request(&request(1, 1, HELLO), 144);
    let (served, reply) = guest.serve(&recorder);
    assert_eq!(
        (served.head, served.request_len, served.room_len, served.reply_len),
        (0, 46, 144, 144)
    );
    assert_eq!((served.opcode, served.unique, served.notify), (1, UNIQUE, true));
    assert_eq!((served.fault, served.request_fault, served.had_no_room), (None, None, false));
    assert_eq!(reply.data().len(), 128);
    // VIRTQ_AVAIL_F_NO_INTERRUPT: the driver wants no notification.
    guest.memory.write(AVAILABLE, &[1, 0]);
    guest.offer_request(&request(1, 1, HELLO), 144);
    assert!(!guest.serve(&recorder).0.notify);
}

/// VIRTIO 1.2, 2.7.8. Each store asks for a slice, so their order is that of the stores.
#[test]
fn the_used_index_is_stored_last() {
    let (mut guest, recorder) = (Guest::new(), Recorder::default());
    let element = USED + 4 + 8 * u64::from(guest.queue.next_used() % SIZE);
    guest.offer_request(&request(1, 5, HELLO), 144);
    guest.serve(&recorder);
    let slices = guest.memory.slices.take();
    let last = |range: std::ops::Range<u64>| slices.iter().rposition(|at| range.contains(at));
    let (reply, index) = (last(ROOM..ROOM + 0x2000), last(USED + 2..USED + 4));
    let (head, len) = (last(element..element + 4), last(element + 4..element + 8));
    assert!(reply.is_some() && reply < head && reply < len, "{slices:x?}");
    assert!(head < index && len < index, "{slices:x?}");
    assert!(index < last(AVAILABLE..AVAILABLE + 2), "the flags are loaded after it: {slices:x?}");
}

#[test]
fn positions_wrap() {
    let (mut guest, recorder) = (Guest::new(), Recorder::default());
    for _ in 0..40 {
        let reply = guest.ask(&recorder, 1, 1, args().bytes(HELLO), 144);
        assert_eq!(reply.data().len(), 128);
    }
    assert_eq!(guest.queue.next_avail(), 37);
}

#[test]
fn calls_without_memory_or_with_bad_numbers_are_refused() {
    let (mut guest, recorder) = (Guest::new(), Recorder::default());
    let fresh = Worker::default().serve(&mut guest.queue, &guest.device, &recorder, &guest.memory);
    assert_eq!(fresh, Err(Status::WrongOrder));
    let mut queue = Queue::default();
    let served = guest.worker.serve(&mut queue, &guest.device, &recorder, &guest.memory);
    assert_eq!(served, Err(Status::QueueNotBegun));
    assert_eq!(
        guest.worker.answer(&guest.device, &recorder, &guest.memory),
        Err(Status::WrongOrder),
        "there is no chain"
    );
    let region = Region { guest: 0, len: 0x1000, host: 0 };
    let bad_regions = [
        (vec![region, region], Status::RegionsOverlap),
        (vec![Region { len: 0, ..region }], Status::EmptyRegion),
        (vec![Region { host: 1, ..region }], Status::BadRegionHost),
        (vec![Region { guest: 0x800, ..region }], Status::BadRegionGuest),
        (vec![Region { len: 0x1800, ..region }], Status::BadRegionLen),
        (vec![Region { guest: !0xfff, len: 0x2000, host: 0 }], Status::BadRegionEnd),
        (vec![region; 513], Status::TooManyRegions),
    ];
    for (regions, status) in bad_regions {
        let refused = guest.worker.set_memory(&guest.device, &regions);
        assert_eq!(refused, Err(status), "{regions:?}");
    }
    // The regions stay as they were.
    assert_eq!(guest.ask(&recorder, 1, 1, args().bytes(HELLO), 144).data().len(), 128);
}

#[test]
fn a_bad_ring_stops_the_queue() {
    let (mut guest, recorder) = (Guest::new(), Recorder::default());
    guest.offer(SIZE);
    let refused = serve(&mut guest, &recorder);
    assert_eq!(refused, Err(Status::HeadOutOfTable));
    assert!(Status::HeadOutOfTable.stops_queue());
    assert_eq!(serve(&mut guest, &recorder), Err(Status::Stopped));
    assert_eq!(guest.queue.stopped(), Some(Status::HeadOutOfTable));
    guest.queue = Queue::new(layout(), guest.offered).unwrap();
    assert_eq!(guest.ask(&recorder, 1, 1, args().bytes(HELLO), 144).data().len(), 128);
    // More chains than the queue holds, and a ring in no region.
    guest.memory.write(AVAILABLE + 2, &guest.offered.wrapping_add(SIZE + 1).to_le_bytes());
    assert_eq!(serve(&mut guest, &recorder), Err(Status::AvailTooFar));
    guest.queue = Queue::new(QueueLayout { available: LEN as u64, ..layout() }, 0).unwrap();
    assert_eq!(serve(&mut guest, &recorder), Err(Status::AvailIndexUnreachable));
}

#[test]
fn faulty_chains_go_back_with_no_reply() {
    let (mut guest, recorder) = (Guest::new(), Recorder::default());
    let far = LEN as u64;
    let faults = [
        ((REQUEST, 40, NEXT, SIZE), Fault::NextOutOfTable),
        ((REQUEST, 40, NEXT, 0), Fault::TooLong),
        ((u64::MAX, 40, 0, 0), Fault::AddressOverflow),
        ((TABLE, 16, INDIRECT | NEXT, 1), Fault::IndirectWithNext),
        ((TABLE, 15, INDIRECT, 0), Fault::IndirectLength),
        ((far, 16, INDIRECT, 0), Fault::TableUnreachable),
        ((REQUEST, Device::MIN_LIMIT + 1, 0, 0), Fault::OverLimit),
        ((far, 40, 0, 0), Fault::RequestUnreachable),
        ((far, 40, DEVICE_WRITES, 0), Fault::RoomUnreachable),
    ];
    for (descriptor, fault) in faults {
        guest.descriptor(DESCRIPTORS, 0, descriptor);
        guest.offer(0);
        let (served, reply) = guest.serve(&recorder);
        assert_eq!((served.fault, reply, served.opcode), (Some(fault), Replied::None, 0));
        assert_eq!((served.request_len, served.room_len), (0, 0));
    }
    assert_eq!(recorder.taken(), [""; 0]);
}

#[test]
fn faulty_requests_go_back_with_no_reply() {
    let (mut guest, recorder) = (Guest::new(), Recorder::default());
    let mut short_header = request(1, 1, HELLO);
    short_header[0] = 39;
    let faults = [
        (request(1, 1, b"no zero"), RequestFault::Name),
        (request(3, 1, &[0; 8]), RequestFault::Decode),
        (request(1, 1, HELLO)[..39].to_vec(), RequestFault::Decode),
        (short_header, RequestFault::HeaderLength),
        (request(12, 1, args().q(1).bytes(b"one").0.as_slice()), RequestFault::MissingParameter),
        (request(21, 1, args().d(9).d(0).bytes(b"name\0x").0.as_slice()), RequestFault::XattrSize),
    ];
    for (bytes, fault) in faults {
        guest.offer_request(&bytes, 144);
        let (served, reply) = guest.serve(&recorder);
        assert_eq!((served.request_fault, served.fault, reply), (Some(fault), None, Replied::None));
    }
    // A room that is shorter than a header.
    guest.offer_request(&request(99, 1, b""), 8);
    assert_eq!(guest.serve(&recorder).0.request_fault, Some(RequestFault::Encode));
    assert_eq!(recorder.taken(), [""; 0]);
}

/// A request in pieces of two bytes at odd places: these come by `load`, which says nothing of
/// them.
#[test]
fn two_bytes_of_a_request_may_be_at_an_odd_place() {
    let (mut guest, recorder) = (Guest::new(), Recorder::default());
    let bytes = request(1, 1, HELLO);
    let (mut buffers, mut at) = (Vec::new(), 0);
    for (k, len) in [2, 2, 4, 2, 30, 2, 2, 2].into_iter().enumerate() {
        let place = REQUEST + 0x101 * k as u64 + u64::from(k % 2 == 1);
        guest.memory.write(place, &bytes[at..at + len]);
        buffers.push(Buffer(place, len as u32, false));
        at += len;
    }
    assert_eq!(at, bytes.len());
    buffers.extend([
        Buffer(ROOM, 2, true),
        Buffer(ROOM + 2, 14, true),
        Buffer(ROOM + 0x1000, 128, true),
    ]);
    guest.draw(DESCRIPTORS, 0, &buffers);
    guest.offer(0);
    assert_eq!(guest.serve(&recorder).1.data().len(), 128);
    assert_eq!(recorder.taken(), [r#"lookup (Node(1), "hello")"#]);
}

/// An indirect table, whose first descriptor lies in two regions that are at other places here:
/// two bytes of it in the first.
#[test]
fn an_indirect_table_over_two_regions() {
    let (mut guest, recorder) = (Guest::new(), Recorder::default());
    let end = 0x10_0000;
    let (first, second) = (guest.memory.host, guest.memory.host + end);
    let regions = [
        Region { guest: end as u64, len: (LEN - end) as u64, host: second },
        Region { guest: 0, len: end as u64, host: first },
    ];
    guest.worker.set_memory(&guest.device, &regions).unwrap();
    let table = end as u64 - 2;
    guest.memory.write(REQUEST, &request(1, 1, HELLO));
    guest.draw(
        table,
        0,
        &[Buffer(REQUEST, 46, false), Buffer(ROOM, 16, true), Buffer(ROOM + 0x1000, 128, true)],
    );
    guest.descriptor(DESCRIPTORS, 7, (table, 48, INDIRECT, 0));
    guest.offer(7);
    let (served, reply) = guest.serve(&recorder);
    assert_eq!((served.head, reply.data().len()), (7, 128));
}

/// An indirect table of 300 descriptors, longer than a load, whose chain goes to and fro in it; at
/// odd places too.
#[test]
fn a_long_indirect_table() {
    let (mut guest, recorder) = (Guest::new(), Recorder::default());
    guest.memory.write(REQUEST, &request(1, 1, HELLO));
    for table in [TABLE, TABLE + 7, LEN as u64 - 4800] {
        let mut at = 0;
        for (buffer, next) in
            [(Buffer(REQUEST, 40, false), 299), (Buffer(REQUEST + 40, 6, false), 150)]
        {
            guest.descriptor(table, at, (buffer.0, buffer.1, NEXT, next));
            at = next;
        }
        guest.descriptor(table, 150, (ROOM, 16, NEXT | DEVICE_WRITES, 1));
        guest.descriptor(table, 1, (ROOM + 0x1000, 128, DEVICE_WRITES, 0));
        guest.descriptor(DESCRIPTORS, 3, (table, 16 * 300, INDIRECT, 0));
        guest.offer(3);
        let (served, reply) = guest.serve(&recorder);
        assert_eq!((served.head, served.fault, reply.data().len()), (3, None, 128));
    }
    assert_eq!(recorder.taken().len(), 3);
}

#[test]
fn answers_without_room_are_taken_back() {
    let (mut guest, recorder) = (Guest::new(), Recorder::default());
    let node = entry().node;
    let forget = format!("forget ({node:?}, 1)");
    let released = |kind: &str, node: Node| {
        let handle = opened().handle;
        let release = format!(
            "Release {{ handle: {handle:?}, flags: 2, flush: false, unlock: false, \
             lock_owner: None }}"
        );
        if kind == "release" {
            format!("release ({node:?}, {release})")
        } else {
            format!("releasedir ({node:?}, {handle:?}, 2)")
        }
    };
    let cases = [
        (1, args().bytes(HELLO), 143, vec![forget.clone()]),
        (14, args().d(2).d(0), 31, vec![released("release", Node(5))]),
        (27, args().d(2).d(0), 31, vec![released("releasedir", Node(5))]),
        (
            35,
            args().d(2).bytes(&[0; 12]).bytes(HELLO),
            159,
            vec![released("release", node), forget],
        ),
        (3, args().bytes(&[0; 16]), 119, vec![]),
    ];
    for (opcode, args, room, after) in cases {
        guest.offer_request(&request(opcode, 5, &args.0), room);
        let (served, reply) = guest.serve(&recorder);
        assert_eq!((reply, served.had_no_room), (Replied::None, true), "opcode {opcode}");
        assert_eq!(recorder.taken()[1..], after, "opcode {opcode}");
    }
}

/// The library replies ENOSYS to these opcodes by itself. A reply that doesn't fit is a fault, as
/// virtiofsd's EncodeMessage.
#[test]
fn a_reply_without_a_call_that_has_no_room() {
    let (mut guest, recorder) = (Guest::new(), Recorder::default());
    for opcode in [31, 32, 33, 37, 39, 40, 41, 51] {
        let encode = Some(RequestFault::Encode);
        for (room, found) in [(15, (Replied::None, encode)), (16, (Replied::Error(38), None))] {
            guest.offer_request(&request(opcode, 5, &[0; 80]), room);
            let (served, reply) = guest.serve(&recorder);
            assert_eq!((reply, served.request_fault), found, "opcode {opcode}, room {room}");
            assert!(!served.had_no_room);
        }
    }
    // INTERRUPT has no reply, and needs no room.
    guest.offer_request(&request(36, 5, &[0; 8]), 0);
    let (served, reply) = guest.serve(&recorder);
    assert_eq!((reply, served.request_fault), (Replied::None, None));
    assert!(recorder.taken().is_empty());
}

/// A file system that panics, in what each test says.
struct Panics(&'static str);

impl FileSystem for Panics {
    fn lookup(&self, _: &Context, _: Node, _: &CStr) -> Answer<Entry> {
        assert_ne!(self.0, "lookup", "the file system panics, as the test wants it");
        Ok(entry())
    }
    fn getattr(
        &self,
        _: &Context,
        _: Node,
        _: Option<Handle>,
    ) -> Answer<(Attributes, std::time::Duration)> {
        Err(Errno::EIO)
    }
    fn forget(&self, _: Node, _: u64) {
        assert_ne!(self.0, "forget", "the file system panics, as the test wants it");
    }
    fn destroy(&self) {
        assert_ne!(self.0, "destroy", "the file system panics, as the test wants it");
    }
}

fn panics(guest: &mut Guest, file_system: &dyn FileSystem) {
    assert!(catch_unwind(AssertUnwindSafe(|| serve(guest, file_system))).is_err());
}

#[test]
fn a_call_that_panics_is_answered_eio() {
    let (mut guest, recorder) = (Guest::new(), Recorder::default());
    let cases = [
        ("lookup", 1, args().bytes(HELLO), 144, Replied::Error(5)),
        ("forget", 2, args().q(1), 0, Replied::None),
        ("destroy", 38, args(), 16, Replied::None),
    ];
    for (call, opcode, args, room, wanted) in cases {
        guest.offer_request(&request(opcode, 5, &args.0), room);
        panics(&mut guest, &Panics(call));
        assert_eq!(guest.queue.in_flight(), 1);
        assert_eq!(guest.worker.set_memory(&guest.device, &[]), Err(Status::ChainInFlight));
        let (served, reply) = guest.serve(&recorder);
        assert_eq!(
            (served.opcode, served.unique, served.notify, reply),
            (opcode, UNIQUE, true, wanted)
        );
        assert!(guest.is_idle(&recorder));
        assert_eq!(recorder.taken(), [""; 0], "nothing is asked twice");
    }
    assert_eq!(guest.ask(&recorder, 1, 1, args().bytes(HELLO), 144).data().len(), 128);
}

#[test]
fn a_memory_that_panics_loses_no_other_chain() {
    for loads in 0..3 {
        let (mut guest, recorder) = (Guest::new(), Recorder::default());
        guest.offer_request(&request(1, 1, HELLO), 144);
        guest.memory.panics_after.set(Some(loads));
        panics(&mut guest, &recorder);
        guest.memory.panics_after.set(None);
        match loads {
            // In the walk: the chain waits still.
            0 | 1 => assert_eq!(guest.serve(&recorder).1.data().len(), 128),
            // At the flags, after all stores: the chain is returned, and whether the driver wants a
            // notification isn't known.
            _ => assert_eq!(guest.queue.in_flight(), 0),
        }
        assert!(guest.is_idle(&recorder));
        assert_eq!(recorder.taken().len(), 1);
        assert_eq!(guest.ask(&recorder, 1, 1, args().bytes(HELLO), 144).data().len(), 128);
    }
}

/// A limit above the least lets a request be longer than any buffer here: it must not stay in its
/// queue.
#[test]
fn a_request_that_is_too_long_is_refused() {
    let (mut guest, recorder) =
        (Guest::over(Device::new(4096, 1 << 31).unwrap()), Recorder::default());
    let long = Device::MIN_LIMIT + 1;
    guest.memory.write(REQUEST, &request(1, 1, HELLO));
    guest.draw(
        DESCRIPTORS,
        0,
        &[Buffer(REQUEST, long, false), Buffer(ROOM, 16, true), Buffer(ROOM + 0x1000, 128, true)],
    );
    guest.offer(0);
    let (served, reply) = guest.serve(&recorder);
    assert_eq!(
        (served.request_len, served.opcode, reply),
        (u64::from(long), 1, Replied::Error(12))
    );
    assert!(guest.is_idle(&recorder));
    // One that is as long as a buffer here is served: the bytes behind the name are ignored.
    guest.draw(
        DESCRIPTORS,
        0,
        &[
            Buffer(REQUEST, long - 1, false),
            Buffer(ROOM, 16, true),
            Buffer(ROOM + 0x1000, 128, true),
        ],
    );
    guest.offer(0);
    assert_eq!(guest.serve(&recorder).1.data().len(), 128);
    assert_eq!(recorder.taken(), [r#"lookup (Node(1), "hello")"#]);
}

/// Moves data by windows, as by preadv and pwritev.
struct ByWindows<'m>(&'m Memory);

impl FileSystem for ByWindows<'_> {
    fn lookup(&self, _: &Context, _: Node, _: &CStr) -> Answer<Entry> {
        Err(Errno::ENOENT)
    }
    fn getattr(
        &self,
        _: &Context,
        _: Node,
        _: Option<Handle>,
    ) -> Answer<(Attributes, std::time::Duration)> {
        Err(Errno::EIO)
    }
    fn read(&self, _: &Context, _: Node, _: ReadFile, data: &mut ReadData<'_>) -> Answer<()> {
        let (mut windows, mut ranges) = ([Window::default(); 4], [GuestRange::default(); 4]);
        let windows = data.windows(&mut windows).to_vec();
        let ranges = data.ranges(&mut ranges).to_vec();
        assert_eq!(windows, [Window { at: self.0.host + ROOM as usize + 0x1000, len: 100 }]);
        assert_eq!(ranges, [GuestRange { guest: ROOM + 0x1000, len: 100 }]);
        self.0.get_slice(windows[0].at, 10).unwrap().store(b"by windows");
        data.advance(10);
        assert_eq!((data.done(), data.left()), (10, 90));
        data.advance(1000); // no more than are left
        assert_eq!((data.done(), data.left(), data.put(b"x")), (100, 0, 0));
        Ok(())
    }
    fn write(
        &self,
        _: &Context,
        _: Node,
        write: WriteFile,
        data: &mut WriteData<'_>,
    ) -> Answer<()> {
        let mut windows = [Window::default(); 4];
        let windows = data.windows(&mut windows).to_vec();
        assert_eq!(
            windows,
            [Window { at: self.0.host + REQUEST as usize + 80, len: write.size as usize }]
        );
        data.advance(3);
        let mut rest = [0; 8];
        assert_eq!((data.take(&mut rest), &rest[..2]), (2, &b"lo"[..]));
        assert_eq!((data.done(), data.left()), (5, 0));
        Ok(())
    }
}

/// Copies the rings, the request and the reply buffer.
fn copy(from: &Memory, to: &Memory) {
    for (at, len) in [(0, REQUEST as usize + 0x1000), (ROOM, 0x2000)] {
        to.write(at, &from.read(at, len));
    }
}

#[test]
fn data_moves_by_windows() {
    let mut guest = Guest::new();
    // The file system has a reference of its own to the memory that is served.
    let memory = Memory::new(LEN, guest.memory.host);
    let by_windows = ByWindows(&memory);
    let mut ask = |bytes: &[u8], room| {
        guest.offer_request(bytes, room);
        copy(&guest.memory, &memory);
        let Guest { worker, queue, device, .. } = &mut guest;
        let served = worker.serve(queue, device, &by_windows, &memory).unwrap().unwrap();
        copy(&memory, &guest.memory);
        served
    };
    let read = request(15, 1, &args().q(3).q(0).d(100).bytes(&[0; 20]).0);
    assert_eq!(ask(&read, 116).reply_len, 116);
    assert_eq!(memory.read(ROOM + 0x1000, 10), b"by windows");
    let write = request(16, 1, &args().q(3).q(0).d(5).bytes(&[0; 20]).bytes(b"hello").0);
    assert_eq!(ask(&write, 24).reply_len, 24);
    assert_eq!(memory.read(ROOM + 0x1000, 4), 5u32.to_le_bytes());
}

/// The memory panics at a load that the library asks for amid a pop: the pop is over, the worker
/// takes other memory, and the chain is popped again.
#[test]
fn a_pop_ends_if_the_memory_panics() {
    let down = [15, 11, 7, 3, 14, 10, 6, 2, 13];
    for at in [14, 6, 13] {
        let (mut guest, recorder) = (Guest::new(), Recorder::default());
        guest.memory.write(REQUEST, &request(1, 1, HELLO));
        for (k, index) in down.into_iter().enumerate() {
            let next = down.get(k + 1).copied();
            let buffer = if k == 0 {
                (REQUEST, 46, NEXT)
            } else {
                let flags = next.map_or(0, |_| NEXT) | DEVICE_WRITES;
                (ROOM + 0x1000 * k as u64, 18, flags)
            };
            let descriptor = (buffer.0, buffer.1, buffer.2, next.unwrap_or(0));
            guest.descriptor(DESCRIPTORS, index, descriptor);
        }
        guest.offer(down[0]);
        guest.memory.panics_at.set(Some(DESCRIPTORS + 16 * at));
        panics(&mut guest, &recorder);
        guest.memory.panics_at.set(None);
        assert!(!guest.worker.has_chain() && guest.queue.in_flight() == 0);
        let region = Region { guest: 0, len: LEN as u64, host: guest.memory.host };
        assert_eq!(guest.worker.set_memory(&guest.device, &[region]), Ok(()), "{at}");
        let served = serve(&mut guest, &recorder).unwrap().unwrap();
        assert_eq!((served.head, served.reply_len, recorder.taken().len()), (15, 144, 1));
    }
}
