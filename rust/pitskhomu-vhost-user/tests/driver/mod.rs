//! A front-end and a driver without a guest: a request queue in a file in memory.
use std::fs::File;
use std::io::{Read as _, Write as _};
use std::os::fd::{AsRawFd, BorrowedFd, FromRawFd, OwnedFd};
use std::os::unix::net::UnixStream;
use std::path::{Path, PathBuf};
use std::thread;
use std::time::{Duration, Instant};
use vhost::vhost_user::message::{VhostUserConfigFlags, VhostUserProtocolFeatures};
use vhost::vhost_user::{Frontend, VhostUserFrontend as _};
use vhost::{VhostBackend as _, VhostUserMemoryRegionInfo, VringConfigData};
use vm_memory::{Bytes as _, FileOffset, MmapRegion, VolatileMemory as _};
use vmm_sys_util::eventfd::EventFd;

/// The high-priority queue is 0, and the request queue 1.
const QUEUE: usize = 1;
const SIZE: u16 = 16;
/// The offsets of the queue's parts, of requests and of reply buffers. A slot has one of each.
const DESCRIPTORS: usize = 0;
const AVAILABLE: usize = 0x1000;
const USED: usize = 0x2000;
const REQUESTS: usize = 0x4000;
const REPLIES: usize = 0x1_4000;
const PART: usize = 0x2000;
const LEN: usize = 0x3_0000;
/// The first guest address.
const GUEST: u64 = 0x10_0000;
/// The device's features: `VIRTIO_F_VERSION_1`, and the protocol's features.
const FEATURES: u64 = 1 << 32 | 1 << 30;
pub const SOON: Duration = Duration::from_secs(20);

/// The number of FUSE's opcodes (linux/fuse.h).
pub const LOOKUP: u32 = 1;
pub const OPEN: u32 = 14;
pub const READ: u32 = 15;
pub const WRITE: u32 = 16;
pub const INIT: u32 = 26;

/// A path of a socket for the test with this name.
pub fn socket(test: &str) -> PathBuf {
    std::env::temp_dir().join(format!("pitskhomu-{test}-{}", std::process::id()))
}

/// The numbers of a structure, each with so many bytes.
pub fn numbers(fields: &[(u64, usize)]) -> Vec<u8> {
    fields.iter().flat_map(|(number, len)| number.to_le_bytes()[..*len].to_vec()).collect()
}

/// The record of INIT, by version 7.38.
pub fn init() -> Vec<u8> {
    [&numbers(&[(7, 4), (38, 4)])[..], &[0; 56]].concat()
}

/// A driver, and its front-end.
pub struct Driver {
    pub front_end: Frontend,
    memory: MmapRegion<()>,
    kick: EventFd,
    call: EventFd,
    available: u16,
    used: u16,
}

fn memory() -> MmapRegion<()> {
    // SAFETY: the name is a C string.
    let fd = unsafe { libc::memfd_create(c"guest".as_ptr(), libc::MFD_CLOEXEC) };
    assert!(fd >= 0);
    // SAFETY: the descriptor is new, and nothing else owns it.
    let file = unsafe { File::from_raw_fd(fd) };
    file.set_len(LEN as u64).expect("room");
    MmapRegion::from_file(FileOffset::new(file, 0), LEN).expect("memory")
}

/// Another descriptor of the front-end's socket.
fn copy(front_end: &Frontend) -> OwnedFd {
    // SAFETY: the front-end keeps its descriptor open.
    let socket = unsafe { BorrowedFd::borrow_raw(front_end.as_raw_fd()) };
    socket.try_clone_to_owned().expect("a descriptor")
}

fn connect(socket: &Path) -> Frontend {
    let end = Instant::now() + SOON;
    loop {
        match Frontend::connect(socket, 2) {
            Ok(front_end) => return front_end,
            Err(e) => assert!(Instant::now() < end, "{e}"),
        }
        thread::sleep(Duration::from_millis(10));
    }
}

impl Driver {
    /// Connects to the device at this socket, and starts its request queue.
    pub fn new(socket: &Path) -> Driver {
        let event = || EventFd::new(libc::EFD_NONBLOCK).expect("an event");
        let (front_end, memory) = (connect(socket), memory());
        let (kick, call) = (event(), event());
        let mut driver = Driver { front_end, memory, kick, call, available: 0, used: 0 };
        driver.agree();
        driver.start(0);
        driver
    }

    fn agree(&mut self) {
        let front_end = &mut self.front_end;
        front_end.set_owner().expect("an owner");
        assert_eq!(front_end.get_features().expect("features") & FEATURES, FEATURES);
        front_end.set_features(FEATURES).expect("features");
        let offered = front_end.get_protocol_features().expect("the protocol's features");
        let wanted = VhostUserProtocolFeatures::REPLY_ACK
            | VhostUserProtocolFeatures::CONFIG
            | VhostUserProtocolFeatures::RESET_DEVICE;
        front_end.set_protocol_features(offered & wanted).expect("the protocol's features");
        let file = self.memory.file_offset().expect("a file").file();
        let region = VhostUserMemoryRegionInfo {
            guest_phys_addr: GUEST,
            memory_size: LEN as u64,
            userspace_addr: self.memory.as_ptr() as u64,
            mmap_offset: 0,
            mmap_handle: file.as_raw_fd(),
        };
        front_end.set_mem_table(&[region]).expect("memory");
    }

    /// Starts the queue at this position.
    pub fn start(&mut self, base: u16) {
        let (front_end, at) = (&mut self.front_end, self.memory.as_ptr() as u64);
        front_end.set_vring_num(QUEUE, SIZE).expect("a size");
        let config = VringConfigData {
            queue_max_size: SIZE,
            queue_size: SIZE,
            flags: 0,
            desc_table_addr: at + DESCRIPTORS as u64,
            used_ring_addr: at + USED as u64,
            avail_ring_addr: at + AVAILABLE as u64,
            log_addr: None,
        };
        front_end.set_vring_addr(QUEUE, &config).expect("addresses");
        front_end.set_vring_base(QUEUE, base).expect("a base");
        front_end.set_vring_call(QUEUE, &self.call).expect("an event");
        front_end.set_vring_kick(QUEUE, &self.kick).expect("an event");
        front_end.set_vring_enable(QUEUE, true).expect("a queue that is enabled");
    }

    /// Stops the queue, and returns its position and how long that took.
    pub fn stop(&mut self) -> (u16, Duration) {
        let begun = Instant::now();
        let base = self.front_end.get_vring_base(QUEUE).expect("a base");
        (base as u16, begun.elapsed())
    }

    /// Resets the device, and starts its queue again. Crate vhost has no such message.
    pub fn reset(&mut self) {
        let mut socket = UnixStream::from(copy(&self.front_end));
        let head = |flags: u64, size: u64| numbers(&[(34, 4), (flags, 4), (size, 4)]);
        socket.write_all(&head(1 | 8, 0)).expect("a message"); // the version, and NEED_REPLY
        let mut answer = [0; 20];
        socket.read_exact(&mut answer).expect("an acknowledgement");
        assert_eq!(answer[..], [&head(1 | 4, 8)[..], &[0; 8]].concat()[..]);
        self.stop();
        self.put(AVAILABLE, &[0; 4]);
        self.put(USED, &[0; 4]);
        (self.available, self.used) = (0, 0);
        self.start(0);
    }

    /// The configuration's first bytes.
    pub fn config(&mut self) -> Vec<u8> {
        let flags = VhostUserConfigFlags::WRITABLE;
        self.front_end.get_config(0, 40, flags, &[0; 40]).expect("a configuration").1
    }

    fn put(&self, at: usize, bytes: &[u8]) {
        self.memory.as_volatile_slice().write_slice(bytes, at).expect("in the memory");
    }

    fn get(&self, at: usize, len: usize) -> Vec<u8> {
        let mut bytes = vec![0; len];
        self.memory.as_volatile_slice().read_slice(&mut bytes, at).expect("in the memory");
        bytes
    }

    /// Makes a request available in a slot, whose `unique` is the slot's number.
    pub fn send(&mut self, slot: usize, opcode: u32, node: u64, body: &[u8]) {
        let len = 40 + body.len() as u64;
        let header = [(len, 4), (opcode.into(), 4), (slot as u64, 8), (node, 8), (0, 8), (0, 8)];
        let request = REQUESTS + slot * PART;
        self.put(request, &[&numbers(&header)[..], body].concat());
        let (first, at) = (2 * slot as u64, |offset: usize| GUEST + offset as u64);
        let chain = [
            [(at(request), 8), (len, 4), (1, 2), (first + 1, 2)],
            [(at(REPLIES + slot * PART), 8), (PART as u64, 4), (2, 2), (0, 2)],
        ];
        self.put(DESCRIPTORS + 32 * slot, &numbers(&chain.concat()));
        let place = AVAILABLE + 4 + 2 * usize::from(self.available % SIZE);
        self.put(place, &numbers(&[(first, 2)]));
        self.available = self.available.wrapping_add(1);
        std::sync::atomic::fence(std::sync::atomic::Ordering::SeqCst);
        self.put(AVAILABLE + 2, &self.available.to_le_bytes());
        self.kick.write(1).expect("a kick");
    }

    /// Whether a reply comes in this time: its slot, its error and its data.
    pub fn reply_within(&mut self, time: Duration) -> Option<(usize, i32, Vec<u8>)> {
        let end = Instant::now() + time;
        while self.get(USED + 2, 2) == self.used.to_le_bytes() {
            if Instant::now() >= end {
                return None;
            }
            thread::sleep(Duration::from_millis(1));
        }
        let element = self.get(USED + 4 + 8 * usize::from(self.used % SIZE), 8);
        self.used = self.used.wrapping_add(1);
        let slot = usize::from(element[0]) / 2;
        let reply = self.get(REPLIES + slot * PART, 0x1000);
        let number = |at: usize| i32::from_le_bytes(reply[at..at + 4].try_into().expect("four"));
        assert_eq!(u64::from_le_bytes(reply[8..16].try_into().expect("eight")), slot as u64);
        let len = number(0) as usize;
        Some((slot, number(4), reply[16..len].to_vec()))
    }

    /// The reply to a request.
    pub fn ask(&mut self, opcode: u32, node: u64, body: &[u8]) -> (i32, Vec<u8>) {
        self.send(0, opcode, node, body);
        let (slot, error, data) = self.reply_within(SOON).expect("a reply");
        assert_eq!(slot, 0);
        (error, data)
    }

    /// Begins a session.
    pub fn init(&mut self) {
        let (error, data) = self.ask(INIT, 0, &init());
        assert_eq!((error, &data[..4]), (0, &[7, 0, 0, 0][..]));
    }
}
