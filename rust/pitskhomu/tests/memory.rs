//! Allocations that fail: a request is answered ENOMEM, or stays available, and nothing is lost.
mod guest;

use guest::recorder::Recorder;
use guest::*;
use pitskhomu::*;
use std::alloc::{GlobalAlloc, Layout, System};
use std::cell::Cell;

thread_local! {
    /// No allocation of this thread has more bytes.
    static MOST: Cell<usize> = const { Cell::new(usize::MAX) };
}

struct Refusing;

// SAFETY: it is the system's allocator, which may refuse.
unsafe impl GlobalAlloc for Refusing {
    unsafe fn alloc(&self, layout: Layout) -> *mut u8 {
        if MOST.with(Cell::get) < layout.size() {
            return std::ptr::null_mut();
        }
        // SAFETY: what the caller owes is the same.
        unsafe { System.alloc(layout) }
    }

    unsafe fn dealloc(&self, at: *mut u8, layout: Layout) {
        // SAFETY: what the caller owes is the same.
        unsafe { System.dealloc(at, layout) }
    }
}

#[global_allocator]
static ALLOCATOR: Refusing = Refusing;

/// Does something while no allocation has more bytes.
fn with_most<T>(most: usize, f: impl FnOnce() -> T) -> T {
    MOST.with(|cell| cell.set(most));
    let value = f();
    MOST.with(|cell| cell.set(usize::MAX));
    value
}

/// Offers a request, and has it served with no allocation of more than 16 KiB.
fn asked(guest: &mut Guest, opcode: u32, args: Bytes, room: u32) -> (u32, Replied) {
    let recorder = Recorder::default();
    guest.offer_request(&request(opcode, 5, &args.0), room);
    let Guest { worker, queue, device, memory, .. } = guest;
    let served = with_most(0x4000, || worker.serve(queue, device, &recorder, memory));
    let served = served.unwrap().unwrap();
    assert_eq!(recorder.taken(), [""; 0], "nothing is asked");
    (served.opcode, guest.reply(served.reply_len as usize))
}

#[test]
fn long_requests_and_replies_are_answered_enomem() {
    let mut guest = Guest::new();
    let recorder = Recorder::default();
    // A short one, so that the worker has its first buffers.
    assert_eq!(guest.ask(&recorder, 1, 5, args().bytes(b"name\0"), 144).data().len(), 128);
    let setxattr = args().d(0x1_0000).d(0).bytes(b"name\0").bytes(&[7; 0x1_0000]);
    assert_eq!(asked(&mut guest, 21, setxattr.clone(), 16), (21, Replied::Error(12)));
    let getxattr = args().d(0x1_0000).d(0).bytes(b"name\0");
    assert_eq!(asked(&mut guest, 22, getxattr.clone(), 16 + 0x1_0000), (22, Replied::Error(12)));
    let readdir = args().q(3).q(0).d(0x2_0000).bytes(&[0; 20]);
    assert_eq!(asked(&mut guest, 28, readdir.clone(), 16 + 0x2_0000), (28, Replied::Error(12)));
    // With memory each is served.
    recorder.taken();
    assert_eq!(guest.ask(&recorder, 21, 5, setxattr, 16), Replied::Data(vec![]));
    assert_eq!(
        guest.ask(&recorder, 22, 5, getxattr, 16 + 0x1_0000),
        Replied::Data(b"value".to_vec())
    );
    assert_eq!(guest.ask(&recorder, 28, 5, readdir, 16 + 0x2_0000), Replied::Data(vec![]));
    assert_eq!(recorder.taken().len(), 3);
}

/// A request that can't be copied is answered ENOMEM.
#[test]
fn owned_requests_want_memory() {
    let setxattr = args().d(0x1_0000).d(0).bytes(b"name\0").bytes(&[7; 0x1_0000]);
    let write = args().q(3).q(0).d(0x1_0000).bytes(&[0; 20]).bytes(&[7; 0x1_0000]);
    for (opcode, args) in [(21, setxattr), (16, write)] {
        let mut guest = Guest::new();
        guest.offer_request(&request(opcode, 5, &args.0), 24);
        let Guest { worker, queue, device, memory, .. } = &mut guest;
        let taken = worker.take(queue, device, memory).unwrap().expect("a chain");
        let owned = with_most(0x4000, || taken.into_owned().map(|_| ()));
        assert_eq!(owned, Err(Status::OutOfMemory));
        assert_eq!(worker.finish(device, memory), Ok(true));
        let served = worker.push(queue, memory).unwrap();
        assert_eq!(guest.reply(served.reply_len as usize), Replied::Error(12));
    }
}

/// An entry whose place can't be allocated is refused, and the next one is added.
#[test]
fn entries_want_memory() {
    let name = CStr::from_bytes_with_nul(b"name\0").unwrap();
    let entry = DirectoryEntry::new(name, 9, 1, FileKind::REGULAR);
    let found = Entry::new(Node(7), Attributes::default());
    let add = |list: &mut Listing<'_>| {
        let left = list.left();
        assert_eq!(with_most(31, || list.add_plus(entry, &found)), Err(Errno::ENOMEM));
        assert_eq!(with_most(31, || list.add_with(entry, || panic!())), Err(Errno::ENOMEM));
        assert_eq!((list.left(), list.add_plus(entry, &found)), (left, Ok(true)));
    };
    for is_owned in [false, true] {
        let mut guest = Guest::new();
        let readdir = args().q(3).q(0).d(400).bytes(&[0; 20]);
        guest.offer_request(&request(44, 5, &readdir.0), 416);
        let Guest { worker, queue, device, memory, .. } = &mut guest;
        let mut taken = worker.take(queue, device, memory).unwrap().expect("a chain");
        match &mut taken.operation {
            Operation::Readdir { list, .. } if !is_owned => add(list),
            Operation::Readdir { .. } => {}
            other => panic!("{other:?}"),
        }
        let owned = taken.into_owned().unwrap();
        match owned.call.operation() {
            Operation::Readdir { mut list, .. } => {
                if is_owned {
                    add(&mut list);
                }
                owned.reply.send(list).unwrap();
            }
            other => panic!("{other:?}"),
        }
        assert_eq!(worker.finish(device, memory), Ok(true));
        let served = worker.push(queue, memory).unwrap();
        let data = guest.reply(served.reply_len as usize).data();
        assert_eq!((data.len(), number(&data, 0, 8)), (160, 7));
    }
}

#[test]
fn a_chain_waits_for_the_first_bytes() {
    let (mut guest, recorder) = (Guest::new(), Recorder::default());
    guest.offer_request(&request(1, 5, b"name\0"), 144);
    for most in [0, 1, 15, 44] {
        let Guest { worker, queue, device, memory, .. } = &mut guest;
        let served = with_most(most, || worker.serve(queue, device, &recorder, memory));
        assert_eq!(served, Err(Status::OutOfMemory), "{most}");
        assert!(Status::OutOfMemory.is_out_of_memory() && guest.queue.in_flight() == 0);
    }
    assert_eq!(guest.serve(&recorder).1.data().len(), 128);
    assert_eq!(recorder.taken().len(), 1);
}

#[test]
fn records_want_memory() {
    let (device, queues) = (Device::default(), [Queue::new(layout(), 7).unwrap()]);
    assert_eq!(with_most(63, || device.save(&queues)), Err(Status::OutOfMemory));
    let record = with_most(64, || device.save(&queues)).unwrap();
    assert_eq!(with_most(63, || device.restore(&record).map(|_| ())), Err(Status::OutOfMemory));
    assert_eq!(device.restore(&record).unwrap().len(), 1);
}
