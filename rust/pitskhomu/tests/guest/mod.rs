//! A guest in memory that doesn't run while it is served: it draws a ring, asks by FUSE, and reads
//! the replies. Numbers are those of VIRTIO 1.2 (2.7) and linux/fuse.h.
#![allow(dead_code)]
pub mod by_values;
pub mod random;
pub mod recorder;
pub mod running;

use pitskhomu::*;
use std::cell::{Cell, RefCell};
use std::sync::atomic::{AtomicU8, Ordering};

/// The queue's size.
pub const SIZE: u16 = 16;
/// The guest's memory, in bytes.
pub const LEN: usize = 0x40_0000;
pub const DESCRIPTORS: u64 = 0;
pub const AVAILABLE: u64 = 0x1000;
pub const USED: u64 = 0x2000;
/// Where an indirect table is drawn.
pub const TABLE: u64 = 0x3000;
pub const REQUEST: u64 = 0x8000;
pub const ROOM: u64 = 0x20_0000;

/// VIRTQ_DESC_F_NEXT, VIRTQ_DESC_F_WRITE, VIRTQ_DESC_F_INDIRECT.
pub const NEXT: u16 = 1;
pub const DEVICE_WRITES: u16 = 2;
pub const INDIRECT: u16 = 4;

/// Memory whose first byte is number `host`. What is loaded and stored has to lie in it.
pub struct Memory {
    pub bytes: Box<[AtomicU8]>,
    pub host: usize,
    pub is_logging: Cell<bool>,
    pub marks: RefCell<Vec<GuestRange>>,
    /// Panics at the access to two bytes of the available ring after so many.
    pub panics_after: Cell<Option<u32>>,
    /// Panics at an access from this guest address on.
    pub panics_at: Cell<Option<u64>>,
    /// How often the available index was loaded.
    pub index_loads: Cell<u32>,
    /// Where each slice began that was asked for: a guest address.
    pub slices: RefCell<Vec<u64>>,
    /// How many slices were asked for before each mark.
    pub marked_at: RefCell<Vec<usize>>,
}

impl Memory {
    pub fn new(len: usize, host: usize) -> Memory {
        let bytes = Box::into_raw(vec![0u8; len].into_boxed_slice());
        Memory {
            // SAFETY: an atomic byte is laid out as a byte is. (One by one takes a second.)
            bytes: unsafe { Box::from_raw(bytes as *mut [AtomicU8]) },
            host,
            is_logging: Cell::new(false),
            marks: RefCell::default(),
            panics_after: Cell::new(None),
            panics_at: Cell::new(None),
            index_loads: Cell::new(0),
            slices: RefCell::default(),
            marked_at: RefCell::default(),
        }
    }

    /// The guest's own view.
    pub fn read(&self, guest: u64, len: usize) -> Vec<u8> {
        let bytes = &self.bytes[guest as usize..][..len];
        bytes.iter().map(|byte| byte.load(Ordering::Relaxed)).collect()
    }

    pub fn write(&self, guest: u64, bytes: &[u8]) {
        assert_eq!(GuestSlice::from(&self.bytes[guest as usize..]).store(bytes), bytes.len());
    }
}

impl GuestMemory for Memory {
    fn get_slice(&self, at: usize, len: usize) -> Option<GuestSlice<'_>> {
        let guest = at - self.host;
        self.slices.borrow_mut().push(guest as u64);
        assert_ne!(
            self.panics_at.get(),
            Some(guest as u64),
            "the memory panics, as the test wants it"
        );
        let ring = AVAILABLE as usize..AVAILABLE as usize + 0x1000;
        if len == 2 && ring.contains(&guest) {
            match self.panics_after.get() {
                Some(0) => panic!("the memory panics, as the test wants it"),
                Some(left) => self.panics_after.set(Some(left - 1)),
                None => {}
            }
            if guest == AVAILABLE as usize + 2 {
                self.index_loads.set(self.index_loads.get() + 1);
            }
        }
        Some(GuestSlice::from(&self.bytes[guest..][..len]))
    }

    fn is_logging(&self) -> bool {
        self.is_logging.get()
    }

    fn mark(&self, written: GuestRange) {
        self.marks.borrow_mut().push(written);
        self.marked_at.borrow_mut().push(self.slices.borrow().len());
    }
}

/// A buffer of a chain: the guest address, the length in bytes, and whether the device writes it.
#[derive(Clone, Copy)]
pub struct Buffer(pub u64, pub u32, pub bool);

/// Little-endian numbers one after another.
#[derive(Clone, Default)]
pub struct Bytes(pub Vec<u8>);

impl Bytes {
    pub fn w(mut self, number: u16) -> Bytes {
        self.0.extend(number.to_le_bytes());
        self
    }

    pub fn d(mut self, number: u32) -> Bytes {
        self.0.extend(number.to_le_bytes());
        self
    }

    pub fn q(mut self, number: u64) -> Bytes {
        self.0.extend(number.to_le_bytes());
        self
    }

    pub fn bytes(mut self, bytes: &[u8]) -> Bytes {
        self.0.extend(bytes);
        self
    }
}

/// No bytes yet.
pub fn args() -> Bytes {
    Bytes::default()
}

/// A request: its header (struct fuse_in_header) and its arguments. The caller is user 1000, group
/// 100, process 7.
pub fn request(opcode: u32, node: u64, args: &[u8]) -> Vec<u8> {
    let len = 40 + args.len() as u32;
    Bytes::default().d(len).d(opcode).q(UNIQUE).q(node).d(1000).d(100).d(7).w(0).w(0).bytes(args).0
}

/// The number of each request.
pub const UNIQUE: u64 = 0x1122_3344_5566_7788;

/// A reply: the number of the error, or the bytes behind the header (struct fuse_out_header).
#[derive(Debug, PartialEq, Eq)]
pub enum Replied {
    None,
    Error(i32),
    Data(Vec<u8>),
}

impl Replied {
    pub fn data(self) -> Vec<u8> {
        match self {
            Replied::Data(data) => data,
            other => panic!("no data: {other:?}"),
        }
    }
}

/// A number of a reply, little-endian.
pub fn number(bytes: &[u8], at: usize, len: usize) -> u64 {
    bytes[at..at + len].iter().rev().fold(0, |number, byte| number << 8 | u64::from(*byte))
}

/// A guest with one queue, and the worker that serves it.
pub struct Guest {
    pub memory: Memory,
    pub device: Device,
    pub worker: Worker,
    pub queue: Queue,
    pub offered: u16,
    /// How chains are served.
    pub way: Way,
    next_descriptor: u16,
}

/// How a chain is served.
#[derive(Clone, Copy, Debug, PartialEq, Eq)]
pub enum Way {
    /// By the methods of a file system.
    Methods,
    /// By the request as a value.
    Values,
    /// By an owned request.
    Owned,
}

pub const WAYS: [Way; 3] = [Way::Methods, Way::Values, Way::Owned];

pub fn layout() -> QueueLayout {
    QueueLayout { size: SIZE, descriptors: DESCRIPTORS, available: AVAILABLE, used: USED }
}

impl Guest {
    pub fn new() -> Guest {
        Guest::over(Device::default())
    }

    /// A guest whose chains are served so.
    pub fn by(way: Way) -> Guest {
        Guest { way, ..Guest::new() }
    }

    /// The queue begins near the end of the positions, so that they wrap.
    pub fn over(device: Device) -> Guest {
        let (memory, first) = (Memory::new(LEN, 0x7000_0000), u16::MAX - 2);
        let mut worker = Worker::new();
        worker
            .set_memory(&device, &[Region { guest: 0, len: LEN as u64, host: memory.host }])
            .unwrap();
        memory.write(AVAILABLE + 2, &first.to_le_bytes());
        Guest {
            memory,
            device,
            worker,
            queue: Queue::new(layout(), first).unwrap(),
            offered: first,
            way: Way::Methods,
            next_descriptor: 0,
        }
    }

    /// Writes a descriptor (struct virtq_desc) of a table.
    pub fn descriptor(
        &self,
        table: u64,
        k: u16,
        (address, len, flags, next): (u64, u32, u16, u16),
    ) {
        self.memory.write(table + 16 * u64::from(k), &args().q(address).d(len).w(flags).w(next).0);
    }

    /// Writes a chain into a table from a descriptor on.
    pub fn draw(&self, table: u64, first: u16, buffers: &[Buffer]) {
        for (k, Buffer(address, len, writes)) in (first..).zip(buffers) {
            let last = usize::from(k - first) + 1 == buffers.len();
            let flags = if last { 0 } else { NEXT } | if *writes { DEVICE_WRITES } else { 0 };
            self.descriptor(table, k, (*address, *len, flags, k + 1));
        }
    }

    /// Puts a head into the available ring, and moves its index.
    pub fn offer(&mut self, head: u16) {
        let entry = AVAILABLE + 4 + 2 * u64::from(self.offered % SIZE);
        self.memory.write(entry, &head.to_le_bytes());
        self.offered = self.offered.wrapping_add(1);
        self.memory.write(AVAILABLE + 2, &self.offered.to_le_bytes());
    }

    /// Offers a request in two parts and a room in two parts, as Linux has them.
    pub fn offer_request(&mut self, request: &[u8], room: u32) {
        self.memory.write(REQUEST, request);
        let (cut, behind) = (request.len().min(40) as u32, request.len().saturating_sub(40) as u32);
        let mut buffers = vec![Buffer(REQUEST, cut, false)];
        buffers.extend(Some(Buffer(REQUEST + 40, behind, false)).filter(|_| behind > 0));
        buffers.extend(Some(Buffer(ROOM, room.min(16), true)).filter(|_| room > 0));
        buffers.extend(
            Some(Buffer(ROOM + 0x1000, room.saturating_sub(16), true)).filter(|_| room > 16),
        );
        self.draw(DESCRIPTORS, 0, &buffers);
        self.offer(0);
    }

    /// Serves one chain, and looks at what came back by the used ring.
    pub fn serve(&mut self, file_system: &dyn FileSystem) -> (Served, Replied) {
        let position = self.queue.next_used();
        let served = match self.way {
            Way::Methods => {
                self.worker.serve(&mut self.queue, &self.device, file_system, &self.memory)
            }
            Way::Values | Way::Owned => by_values::serve(self, file_system),
        };
        let served = served.unwrap().expect("a chain waits");
        assert_eq!(self.queue.next_used(), position.wrapping_add(1));
        let index = number(&self.memory.read(USED + 2, 2), 0, 2) as u16;
        assert_eq!(index, self.queue.next_used(), "the used index");
        let element = self.memory.read(USED + 4 + 8 * u64::from(position % SIZE), 8);
        assert_eq!(number(&element, 0, 4), u64::from(served.head));
        assert_eq!(number(&element, 4, 4), u64::from(served.reply_len));
        (served, self.reply(served.reply_len as usize))
    }

    /// What a reply of so many bytes says.
    pub fn reply(&self, len: usize) -> Replied {
        if len == 0 {
            return Replied::None;
        }
        let header = self.memory.read(ROOM, 16);
        assert_eq!(
            (number(&header, 0, 4), number(&header, 8, 8)),
            (len as u64, UNIQUE),
            "the reply's header"
        );
        match number(&header, 4, 4) as i32 {
            0 => Replied::Data(self.memory.read(ROOM + 0x1000, len - 16)),
            error => {
                assert_eq!(len, 16);
                Replied::Error(-error)
            }
        }
    }

    /// Asks, and is served.
    pub fn ask(
        &mut self,
        file_system: &dyn FileSystem,
        opcode: u32,
        node: u64,
        args: Bytes,
        room: u32,
    ) -> Replied {
        self.offer_request(&request(opcode, node, &args.0), room);
        let (served, reply) = self.serve(file_system);
        assert_eq!((served.opcode, served.unique, served.fault), (opcode, UNIQUE, None));
        assert!(self.is_idle(file_system));
        reply
    }

    pub fn is_idle(&mut self, file_system: &dyn FileSystem) -> bool {
        self.worker
            .serve(&mut self.queue, &self.device, file_system, &self.memory)
            .unwrap()
            .is_none()
    }

    /// INIT, by a guest that can all of FUSE 7.38's options that a device may agree on.
    pub fn init(&mut self, file_system: &dyn FileSystem) -> Vec<u8> {
        let args = args().d(7).d(38).d(0x2_0000).d(!(1 << 31)).d(0x1ff).bytes(&[0; 44]);
        self.ask(file_system, 26, 0, args, 80).data()
    }
}
