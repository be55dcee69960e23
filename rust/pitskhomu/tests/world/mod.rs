//! A guest of 40 frames, whose workers see them by numbers of their own, and its driver with two
//! queues. Numbers are those of VIRTIO 1.2 (2.7) and linux/fuse.h.
pub mod files;
pub mod views;

use pitskhomu::*;
use std::collections::{BTreeMap, VecDeque};
use std::sync::Arc;
use views::{Frames, View, FRAMES, PAGE};

/// I/O addresses of an IOMMU begin here.
pub const SHIFT: u64 = 0x7000_0000_0000;
/// The pages of a queue, and what lies in them. Its table goes over the end of its page.
const QUEUE: u64 = 20;
const TABLE: u64 = 0xfe0;
const AVAILABLE: u64 = 1;
const USED: u64 = 2;
const TABLES: u64 = 3;
const REQUESTS: u64 = 4;
const ROOMS: u64 = 9;
/// A queue has so many chains, each with a page for its request, and two for its reply buffer.
pub const CHAINS: u16 = 4;
/// Each of a chain's descriptors.
const PARTS: u16 = 4;
pub const SIZES: [u16; 2] = [16, 4];

/// xorshift64.
#[derive(Debug)]
pub struct Chance(u64);

impl Chance {
    pub fn new(seed: u64) -> Chance {
        Chance(seed.wrapping_mul(0x9e37_79b9_7f4a_7c15) | 1)
    }

    pub fn below(&mut self, end: u64) -> u64 {
        self.0 ^= self.0 << 13;
        self.0 ^= self.0 >> 7;
        self.0 ^= self.0 << 17;
        (self.0 >> 20) % end
    }

    pub fn one_in(&mut self, count: u64) -> bool {
        self.below(count) == 0
    }
}

#[derive(Clone, Copy, Debug, PartialEq, Eq)]
pub enum Kind {
    Lookup,
    Read,
    Open,
    Forget,
    /// An opcode that FUSE doesn't have.
    Unknown,
    /// Its descriptors are wrong.
    Faulty,
}

impl Kind {
    const ALL: [Kind; 6] =
        [Kind::Lookup, Kind::Read, Kind::Open, Kind::Forget, Kind::Unknown, Kind::Faulty];

    fn request(self, unique: u64) -> Vec<u8> {
        let args = match self {
            Kind::Lookup => b"name\0".to_vec(),
            Kind::Read => [&[0; 16][..], &200u32.to_le_bytes(), &[0; 20]].concat(),
            Kind::Open | Kind::Forget => vec![0; 8],
            Kind::Unknown | Kind::Faulty => vec![],
        };
        let opcode: u32 = [1, 15, 14, 2, 99, 1][self as usize];
        let len = 40 + args.len() as u32;
        let front = [&len.to_le_bytes()[..], &opcode.to_le_bytes(), &unique.to_le_bytes()];
        [&front.concat()[..], &5u64.to_le_bytes(), &[0; 16], &args].concat()
    }

    pub fn opcode(self) -> u32 {
        [1, 15, 14, 2, 99, 0][self as usize]
    }

    /// The length of the reply of an answer that isn't an error.
    pub fn reply_len(self) -> u64 {
        [144, 216, 32, 0, 16, 0][self as usize]
    }
}

/// A chain that the driver offered.
#[derive(Clone, Debug)]
pub struct Job {
    pub unique: u64,
    pub kind: Kind,
    pub queue: usize,
    /// Its number in the queue, its position, and how often the queue had begun.
    pub k: u16,
    pub at: u16,
    pub begun: u64,
    pub head: u16,
    pub request_len: u64,
    /// The parts of the request and of the reply buffer: addresses and lengths.
    pub request: Vec<(u64, u64)>,
    pub room: Vec<(u64, u64)>,
}

impl Job {
    pub fn room_len(&self) -> u64 {
        self.room.iter().map(|part| part.1).sum()
    }

    /// The addresses of the first bytes of the reply buffer.
    pub fn room_bytes(&self, len: u64) -> Vec<u64> {
        let bytes = self.room.iter().flat_map(|&(at, len)| at..at + len);
        bytes.take(len as usize).collect()
    }
}

/// The guest.
pub struct World {
    pub chance: Chance,
    pub frames: Arc<Frames>,
    /// What the frames have to have.
    pub shadow: Vec<u8>,
    pub device: Device,
    pub queues: Vec<Queue>,
    pub begun: [u64; 2],
    pub has_event_index: [bool; 2],
    pub offered: [VecDeque<Job>; 2],
    is_used: [[bool; CHAINS as usize]; 2],
    next: [u16; 2],
    unique: u64,
    /// An IOMMU's table, and the pages that it maps.
    pub table: Option<Iotlb>,
    pub pages: BTreeMap<u64, Access>,
    pub views: usize,
}

impl World {
    pub fn new(seed: u64) -> World {
        let mut chance = Chance::new(seed);
        let table = chance.one_in(2).then(|| Iotlb::new().unwrap());
        let mut world = World {
            chance,
            frames: Arc::new(Frames::new()),
            shadow: vec![0; FRAMES * PAGE as usize],
            device: Device::default(),
            queues: vec![],
            begun: [0; 2],
            has_event_index: [false; 2],
            offered: Default::default(),
            is_used: Default::default(),
            next: [u16::MAX - 2, 0],
            unique: 0x1122_3344_0000_0000u64.wrapping_mul(seed),
            table,
            pages: BTreeMap::new(),
            views: 0,
        };
        world.queues = (0..2).map(|q| world.queue(q)).collect();
        (0..2).for_each(|q| world.clear(q));
        world
    }

    /// The page of the guest that a page of the driver's addresses is.
    pub fn guest_page(&self, page: u64) -> u64 {
        if self.table.is_some() {
            (page - SHIFT / PAGE) * 7 % FRAMES as u64
        } else {
            page
        }
    }

    pub fn guest(&self, at: u64) -> u64 {
        self.guest_page(at / PAGE) * PAGE + at % PAGE
    }

    /// The driver's address of a place in a queue's pages.
    pub fn at(&self, q: usize, page: u64, offset: u64) -> u64 {
        let first = if self.table.is_some() { SHIFT } else { 0 };
        first + (QUEUE * q as u64 + page) * PAGE + offset
    }

    pub fn layout(&self, q: usize) -> QueueLayout {
        QueueLayout {
            size: SIZES[q],
            descriptors: self.at(q, 0, TABLE),
            available: self.available(q),
            used: self.at(q, USED, 0),
        }
    }

    /// The available ring, which lies elsewhere after a reset.
    fn available(&self, q: usize) -> u64 {
        self.at(q, AVAILABLE, 0x200 + 0x80 * (self.begun[q] % 2))
    }

    /// Writes at an address of the driver's.
    pub fn write(&mut self, at: u64, bytes: &[u8]) {
        for (at, byte) in (at..).zip(bytes) {
            let place = self.guest(at) as usize;
            self.shadow[place] = *byte;
            self.frames.write(place, *byte);
        }
    }

    /// What has to lie there.
    pub fn expect(&mut self, at: u64, bytes: &[u8]) {
        for (at, byte) in (at..).zip(bytes) {
            let place = self.guest(at) as usize;
            self.shadow[place] = *byte;
        }
    }

    pub fn read(&self, at: u64, len: usize) -> Vec<u8> {
        (at..).take(len).map(|at| self.frames.read(self.guest(at) as usize)).collect()
    }

    fn queue(&mut self, q: usize) -> Queue {
        let has_event_index = self.chance.one_in(2);
        self.has_event_index[q] = has_event_index;
        let queue = Queue::new(self.layout(q), self.next[q]).unwrap();
        queue.with_max_in_flight(2).unwrap().with_event_index(has_event_index)
    }

    /// Fresh rings, whose available index is that of the next chain.
    fn clear(&mut self, q: usize) {
        let next = self.next[q];
        self.write(self.available(q), &[0; 0x80]);
        self.write(self.at(q, USED, 0), &[0; 0x100]);
        self.write(self.available(q) + 2, &next.to_le_bytes());
        self.write(self.at(q, USED, 2), &next.to_le_bytes());
    }

    /// The driver resets a queue.
    pub fn reset(&mut self, q: usize) {
        self.begun[q] += 1;
        self.offered[q].clear();
        self.is_used[q] = Default::default();
        let queue = self.queue(q);
        match self.begun[q] % 3 {
            0 => self.queues[q] = queue,
            _ => self.queues[q].begin(queue).unwrap(),
        }
        self.clear(q);
    }

    /// Cuts bytes into at most two buffers.
    fn cut(&mut self, at: u64, len: u64) -> Vec<(u64, u64)> {
        let cut = if self.chance.one_in(2) { self.chance.below(len + 1) } else { len };
        [(at, cut), (at + cut, len - cut)].into_iter().filter(|part| part.1 > 0).collect()
    }

    /// Draws a chain, and offers it, if one is free.
    pub fn offer(&mut self, q: usize) {
        let k = match self.is_used[q].iter().position(|is_used| !is_used) {
            Some(k) => k as u16,
            None => return,
        };
        let kind = Kind::ALL[self.chance.below(6) as usize];
        self.unique += 0x0101;
        let (unique, request) = (self.unique, kind.request(self.unique));
        let offset = [0x100, 0x203, 0xff0][self.chance.below(3) as usize];
        let at = self.at(q, REQUESTS + u64::from(k), offset);
        self.write(at, &request);
        let parts = self.cut(at, request.len() as u64);
        let offset = [0x100, 0x333, 0xfff, 0xfc0][self.chance.below(4) as usize];
        let is_small = kind == Kind::Lookup && self.chance.one_in(4);
        let room = self.at(q, ROOMS + 2 * u64::from(k), offset);
        let room = self.cut(room, kind.reply_len() - u64::from(is_small));
        let (at, begun) = (self.next[q], self.begun[q]);
        let (request_len, head) = (request.len() as u64, k * SIZES[q] / CHAINS);
        let job =
            Job { unique, kind, queue: q, k, at, begun, head, request_len, request: parts, room };
        self.draw(&job);
        self.is_used[q][usize::from(k)] = true;
        let entry = self.available(q) + 4 + 2 * u64::from(at % SIZES[q]);
        self.write(entry, &head.to_le_bytes());
        self.next[q] = at.wrapping_add(1);
        self.write(self.available(q) + 2, &self.next[q].to_le_bytes());
        self.offered[q].push_back(job);
    }

    /// Writes the chain's descriptors: into the queue's table, or into one of its own.
    fn draw(&mut self, job: &Job) {
        let (q, own) = (job.queue, self.at(job.queue, 0, TABLE + 16 * u64::from(job.head)));
        let count = (job.request.len() + job.room.len()) as u16;
        let is_indirect = SIZES[q] < CHAINS * PARTS || self.chance.one_in(3);
        let offset = 0x80 * u64::from(job.k) + self.chance.below(3);
        let table = self.at(q, TABLES, offset);
        let entry = |at: u64, len: u32, flags: u16, next: u16| {
            let numbers = [&at.to_le_bytes()[..], &len.to_le_bytes(), &flags.to_le_bytes()];
            [&numbers.concat()[..], &next.to_le_bytes()].concat()
        };
        if job.kind == Kind::Faulty {
            return self.write(own, &entry(job.request[0].0, 40, 1, SIZES[q]));
        }
        let (to, first) = if is_indirect { (table, 0) } else { (own, job.head) };
        let parts = job.request.iter().map(|part| (part, 0));
        let parts: Vec<_> = parts.chain(job.room.iter().map(|part| (part, 2))).collect();
        for (k, (&(at, len), flags)) in (0..).zip(parts) {
            let next = if k + 1 < count { 1 } else { 0 };
            let bytes = entry(at, len as u32, flags | next, first + k + 1);
            self.write(to + 16 * u64::from(k), &bytes);
        }
        if is_indirect {
            self.write(own, &entry(table, 16 * u32::from(count), 4, 0));
        }
    }

    /// The chain is the driver's again.
    pub fn free(&mut self, job: &Job) {
        self.is_used[job.queue][usize::from(job.k)] = false;
    }

    pub fn is_live(&self, job: &Job) -> bool {
        self.begun[job.queue] == job.begun
    }

    /// What the driver reads of the used ring, where it says when to be notified, and where the
    /// device says the same.
    pub fn used_at(&self, q: usize, position: u16) -> (u64, u64) {
        (self.at(q, USED, 4 + 8 * u64::from(position % SIZES[q])), self.at(q, USED, 2))
    }

    pub fn driver_event_at(&self, q: usize) -> u64 {
        let has_index = self.has_event_index[q];
        self.available(q) + if has_index { 4 + 2 * u64::from(SIZES[q]) } else { 0 }
    }

    pub fn device_event_at(&self, q: usize) -> u64 {
        let has_index = self.has_event_index[q];
        self.at(q, USED, if has_index { 4 + 8 * u64::from(SIZES[q]) } else { 0 })
    }

    /// The pages that a pop of a chain may need, with the access.
    pub fn needs(&self, q: usize, job: Option<&Job>) -> Vec<(u64, Access)> {
        let page = |page| self.at(q, page, 0) / PAGE;
        let mut pages = vec![(page(0), Access::Read), (page(AVAILABLE), Access::Read)];
        pages.extend([(page(USED), Access::Write), (page(TABLES), Access::Read)]);
        let of = |parts: &[(u64, u64)], access| {
            let bytes = parts.iter().flat_map(|&(at, len)| at..at + len);
            bytes.map(|at| (at / PAGE, access)).collect::<Vec<_>>()
        };
        if let Some(job) = job {
            pages.extend(of(&job.request, Access::Read));
            pages.extend(of(&job.room, Access::Write));
        }
        pages
    }

    /// Maps a page as it is, or elsewhere.
    pub fn map(&mut self, page: u64, access: Access, is_right: bool) {
        let guest = self.guest_page(page) + u64::from(!is_right);
        let table = self.table.as_mut().expect("a table");
        table.map(page * PAGE, PAGE, guest % FRAMES as u64 * PAGE, access).unwrap();
        self.pages.insert(page, access);
    }

    pub fn unmap(&mut self, page: u64) {
        self.table.as_mut().expect("a table").unmap(page * PAGE, PAGE).unwrap();
        self.pages.remove(&page);
    }

    /// A view that no worker had before, by regions of another shape.
    #[allow(clippy::arc_with_non_send_sync)] // its workers are on one thread
    pub fn view(&mut self) -> Arc<View> {
        self.views += 1;
        let shape = self.chance.below(3);
        Arc::new(View::new(&self.frames, self.views, shape))
    }

    /// No byte differs from what it has to be.
    pub fn check(&self) {
        let now = self.frames.all();
        if now != self.shadow {
            let differs = now.iter().zip(&self.shadow).position(|(now, wanted)| now != wanted);
            panic!("a byte of another place was stored: {differs:?}");
        }
    }
}
