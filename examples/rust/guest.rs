//! A guest for monitor.rs: a driver that draws a ring by hand (VIRTIO 1.2, 2.7), one chain at a
//! time, and asks for files. It isn't here to be copied, and doesn't run while it is served: so its
//! memory is a list of bytes, where a VMM has mapped memory (`GuestSlice::new`).
use pitskhomu::{
    Device, FileSystem, GuestMemory, GuestRange, GuestSlice, Queue, QueueLayout, Region, Status,
    Worker,
};
use std::cell::RefCell;
use std::sync::atomic::AtomicU8;

const PAGE: usize = 4096;
const MEMORY: usize = 16 * PAGE;
const SIZE: u16 = 8;
const DESC: usize = PAGE;
const AVAIL: usize = 2 * PAGE;
const USED: usize = 3 * PAGE;
const REQUEST: usize = 4 * PAGE;
const ROOM: usize = 8 * PAGE;

struct Memory {
    bytes: Vec<AtomicU8>,
    /// A migration's log: whether a page was written.
    written: RefCell<[bool; MEMORY / PAGE]>,
}

impl Memory {
    /// What the guest itself does.
    fn load(&self, at: usize, bytes: &mut [u8]) {
        GuestSlice::from(&self.bytes[at..]).load(bytes);
    }

    fn store(&self, at: usize, bytes: &[u8]) {
        GuestSlice::from(&self.bytes[at..]).store(bytes);
    }
}

impl GuestMemory for Memory {
    fn get_slice(&self, at: usize, len: usize) -> Option<GuestSlice<'_>> {
        self.bytes.get(at..)?.get(..len).map(GuestSlice::from)
    }

    fn is_logging(&self) -> bool {
        true
    }

    fn mark(&self, written: GuestRange) {
        let (from, end) = (written.guest as usize, (written.guest + written.len) as usize);
        self.written.borrow_mut()[from / PAGE..(end + PAGE - 1) / PAGE].fill(true);
    }
}

/// Numbers of 4 bytes, little-endian.
fn words(numbers: &[u32]) -> Vec<u8> {
    numbers.iter().flat_map(|number| number.to_le_bytes()).collect()
}

/// Numbers of 8 bytes, little-endian.
fn longs(numbers: &[u64]) -> Vec<u8> {
    numbers.iter().flat_map(|number| number.to_le_bytes()).collect()
}

/// Arguments of a request, and a name with its zero byte behind them.
fn with_name(arguments: &[u8], name: &str) -> Vec<u8> {
    [arguments, name.as_bytes(), b"\0"].concat()
}

/// A guest with one queue, and the monitor's side of it.
pub struct Guest<F> {
    memory: Memory,
    offered: u16,
    worker: Worker,
    queue: Queue,
    device: Device,
    files: F,
}

impl<F: FileSystem> Guest<F> {
    pub fn new(files: F) -> Guest<F> {
        let memory = Memory {
            bytes: (0..MEMORY).map(|_| AtomicU8::new(0)).collect(),
            written: RefCell::new([false; MEMORY / PAGE]),
        };
        let layout = QueueLayout {
            size: SIZE,
            descriptors: DESC as u64,
            available: AVAIL as u64,
            used: USED as u64,
        };
        let (device, mut worker) = (Device::default(), Worker::new());
        worker
            .set_memory(&device, &[Region { guest: 0, len: MEMORY as u64, host: 0 }])
            .expect("one region is taken");
        Guest {
            memory,
            offered: 0,
            worker,
            queue: Queue::new(layout, 0).expect("a queue's numbers"),
            device,
            files,
        }
    }

    /// The numbers of the pages that were written.
    pub fn written(&self) -> Vec<String> {
        let written = self.memory.written.borrow();
        (0..written.len()).filter(|page| written[*page]).map(|page| page.to_string()).collect()
    }

    fn draw(&self, index: u16, addr: usize, len: u32, flags: u16) {
        let mut descriptor = longs(&[addr as u64]);
        descriptor.extend(words(&[len]));
        descriptor.extend(flags.to_le_bytes());
        descriptor.extend((index + 1).to_le_bytes());
        self.memory.store(DESC + 16 * usize::from(index), &descriptor);
    }

    /// Offers so many bytes at REQUEST with so much room at ROOM, and has them served: how long the
    /// reply is.
    fn offer(&mut self, len: u32, room: u32) -> u32 {
        let turn = usize::from(self.offered % SIZE);
        self.offered = self.offered.wrapping_add(1);
        self.draw(0, REQUEST, len, 1);
        self.draw(1, ROOM, room, 2);
        self.memory.store(AVAIL + 4 + 2 * turn, &0u16.to_le_bytes());
        self.memory.store(AVAIL + 2, &self.offered.to_le_bytes());
        let mut serve =
            || self.worker.serve(&mut self.queue, &self.device, &self.files, &self.memory);
        let served = serve().expect("the ring is good").expect("a chain waits");
        assert_eq!(serve(), Ok(None));
        assert!(served.notify);
        if let Some(fault) = served.fault {
            println!("Chain {} is pushed without a reply: {}", served.head, fault);
        }
        let mut element = [0; 4];
        self.memory.load(USED + 4 + 8 * turn + 4, &mut element);
        u32::from_le_bytes(element)
    }

    /// Asks, and prints what came back. The bytes behind the reply's header.
    fn asks(&mut self, what: &str, opcode: u32, node: u64, arguments: &[u8], room: u32) -> Vec<u8> {
        let mut request = words(&[40 + arguments.len() as u32, opcode]);
        request.extend(longs(&[self.offered.into(), node, 0, 0]));
        request.extend(arguments);
        self.memory.store(REQUEST, &request);
        let len = self.offer(request.len() as u32, room);
        let mut header = [0; 16];
        self.memory.load(ROOM, &mut header);
        let mut data = vec![0; (len as usize).saturating_sub(16)];
        self.memory.load(ROOM + 16, &mut data);
        match i32::from_le_bytes([header[4], header[5], header[6], header[7]]) {
            _ if len == 0 => println!("{what}: no reply"),
            0 => println!("{what}: {} bytes", data.len()),
            error => println!("{what}: error {}", -error),
        }
        data
    }

    /// Device and queue go on from their record, as they would in another process that has the
    /// memory and the files.
    pub fn moves(&mut self) {
        let record = self.device.save(std::slice::from_ref(&self.queue)).expect("there is memory");
        assert_eq!(
            self.device.restore(&record[..record.len() - 1]).err(),
            Some(Status::RecordTruncated)
        );
        self.queue = self.device.restore(&record).expect("it is a record").remove(0);
        println!("From a record of {} bytes the device goes on", record.len());
    }
}

/// What it asks for, by the records of linux/fuse.h.
impl<F: FileSystem> Guest<F> {
    pub fn uses_a_file(&mut self) {
        let room = PAGE as u32;
        let mut init = words(&[7, 38, 0, 1 << 13]);
        init.resize(64, 0);
        let create = with_name(&words(&[2, 0o100_644, 0, 0]), "greeting");
        let read = longs(&[0, 0, 1000, 0, 0]);
        self.asks("INIT", 26, 0, &init, room);
        self.asks("LOOKUP greeting", 1, 1, b"greeting\0", room);
        self.asks("CREATE greeting", 35, 1, &create, room);
        self.asks("CREATE greeting again", 35, 1, &create, room);
        self.asks(
            "WRITE",
            16,
            2,
            &[&longs(&[0, 0, 13, 0, 0]), &b"Good morning!"[..]].concat(),
            room,
        );
        self.asks("LOOKUP greeting", 1, 1, b"greeting\0", room);
        self.asks("GETATTR of the root", 3, 1, &longs(&[0, 0]), room);
        self.asks("READDIR", 28, 1, &read, room);
        self.asks("READDIRPLUS", 44, 1, &read, room);
        let text = self.asks("READ", 15, 2, &read, room);
        println!("The guest reads: {}", String::from_utf8_lossy(&text));
        let text = self.asks("an opcode of the monitor's own", 0x1000, 0, b"hello, monitor", room);
        println!("The guest has in its memory: {}", String::from_utf8_lossy(&text));
    }

    /// Requests that come to no good.
    pub fn errs(&mut self) {
        self.asks("LOOKUP greeting, and a room that is too short", 1, 1, b"greeting\0", 100);
        self.asks("an opcode that nobody knows", 99, 1, b"", PAGE as u32);
        println!(
            "a request that ends outside the memory: {} bytes in all",
            self.offer(MEMORY as u32, PAGE as u32)
        );
    }

    pub fn removes_it(&mut self) {
        let room = PAGE as u32;
        let mut set = words(&[1 << 3 | 1, 0]);
        set.extend(longs(&[0, 4]));
        set.resize(88, 0);
        set[68..72].copy_from_slice(&0o600u32.to_le_bytes());
        let read = longs(&[0, 0, 1000, 0, 0]);
        self.asks("SETATTR", 4, 2, &set, room);
        self.asks("OPEN", 14, 2, &longs(&[0]), room);
        self.asks("UNLINK greeting", 10, 1, b"greeting\0", room);
        self.asks("LOOKUP greeting", 1, 1, b"greeting\0", room);
        self.asks("READ", 15, 2, &read, room);
        self.asks("RELEASE", 18, 2, &longs(&[0, 0, 0]), room);
        self.asks("FORGET", 2, 2, &longs(&[2]), room);
        self.asks("BATCH_FORGET", 42, 0, &[words(&[2, 0]), longs(&[2, 1, 3, 1])].concat(), room);
        self.asks("READ", 15, 2, &read, room);
        self.asks("DESTROY", 38, 0, b"", room);
    }
}
