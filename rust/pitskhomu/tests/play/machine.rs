//! A device with two queues, and its guest, with an IOMMU or without one.
use super::answers::{Answered, Job};
use pitskhomu::*;
use std::collections::VecDeque;
use std::sync::atomic::{AtomicU8, AtomicUsize, Ordering};
use std::sync::Arc;

const SIZE: u16 = 16;
const CHAINS: usize = 8;
pub const MAX_IN_FLIGHT: u16 = 3;
const LEN: usize = 0x1_0000;
const HOST: usize = 0x7000_0000;
/// I/O addresses are the guest's and so much.
const SHIFT: u64 = 0x5000_0000_0000;
/// Where each queue's part of the memory begins, and what stands there.
const QUEUE: u64 = 0x8000;
const AVAILABLE: u64 = 0x1000;
const USED: u64 = 0x2000;
const REQUESTS: u64 = 0x3000;
const ROOMS: u64 = 0x4000;
const ROOM: u64 = 0x400;

/// Memory that counts how often it is asked for a slice.
pub struct Memory {
    bytes: Vec<AtomicU8>,
    touched: AtomicUsize,
}

impl GuestMemory for Memory {
    fn get_slice(&self, at: usize, len: usize) -> Option<GuestSlice<'_>> {
        self.touched.fetch_add(1, Ordering::Relaxed);
        Some(GuestSlice::from(&self.bytes[at - HOST..][..len]))
    }
}

impl Memory {
    fn write(&self, at: u64, bytes: &[u8]) {
        GuestSlice::from(&self.bytes[at as usize..]).store(bytes);
    }

    pub fn all(&self) -> Vec<u8> {
        let mut bytes = vec![0; LEN];
        assert_eq!(GuestSlice::from(&self.bytes[..]).load(&mut bytes), LEN);
        bytes
    }

    pub fn touched(&self) -> usize {
        self.touched.load(Ordering::Relaxed)
    }
}

pub struct Machine {
    pub memory: Arc<Memory>,
    pub device: Device,
    pub queues: Vec<Queue>,
    /// The numbers of the queues' sessions.
    pub epochs: [u64; 2],
    iotlb: Option<Iotlb>,
    offered: [VecDeque<Job>; 2],
    /// The position of the next chain.
    next: [u16; 2],
    /// The `unique` of each chain that the guest waits for.
    waits: [[Option<u64>; CHAINS]; 2],
}

impl Machine {
    pub fn new(is_translated: bool) -> Machine {
        let next = [u16::MAX - 5, 0];
        let bytes = (0..LEN).map(|_| AtomicU8::new(0)).collect();
        let mut machine = Machine {
            memory: Arc::new(Memory { bytes, touched: AtomicUsize::new(0) }),
            device: Device::default(),
            queues: vec![],
            epochs: [0; 2],
            iotlb: is_translated.then(|| Iotlb::new().unwrap()),
            offered: Default::default(),
            next,
            waits: [[None; CHAINS]; 2],
        };
        machine.queues = (0..2).map(|q| machine.queue(q)).collect();
        (0..2).for_each(|q| machine.tell(q));
        machine
    }

    fn shift(&self) -> u64 {
        if self.iotlb.is_some() {
            SHIFT
        } else {
            0
        }
    }

    fn queue(&self, q: usize) -> Queue {
        let at = self.shift() + QUEUE * q as u64;
        let (available, used) = (at + AVAILABLE, at + USED);
        let layout = QueueLayout { size: SIZE, descriptors: at, available, used };
        Queue::new(layout, self.next[q]).unwrap().with_max_in_flight(MAX_IN_FLIGHT).unwrap()
    }

    /// Stores the available index.
    fn tell(&self, q: usize) {
        self.memory.write(QUEUE * q as u64 + AVAILABLE + 2, &self.next[q].to_le_bytes());
    }

    pub fn set_memory(&self, worker: &mut Worker) -> Result<(), Status> {
        let region = Region { guest: 0, len: LEN as u64, host: HOST };
        worker.set_memory(&self.device, &[region])
    }

    pub fn worker(&self) -> Worker {
        let mut worker = Worker::new();
        self.set_memory(&mut worker).unwrap();
        worker
    }

    fn room(job: &Job) -> u64 {
        QUEUE * job.queue as u64 + ROOMS + ROOM * job.k as u64
    }

    /// Draws a chain and offers it, if the guest has one that is free. Half of the requests have
    /// the same `unique`.
    pub fn offer(&mut self, mut job: Job, same: bool) {
        let q = job.queue;
        let k = match self.waits[q].iter().position(Option::is_none) {
            Some(k) => k,
            None => return,
        };
        (job.k, job.at) = (k, self.next[q]);
        let (base, shift) = (QUEUE * q as u64, self.shift());
        let unique = if same { 42 } else { 1000 + job.tag };
        let (bytes, at) = (job.bytes(unique), base + REQUESTS + 0x200 * k as u64);
        self.memory.write(at, &bytes);
        let room = if job.is_small { 16 } else { ROOM as u32 };
        let entry = |address: u64, len: u32, flags: u16, next: u16| {
            crate::guest::args().q(shift + address).d(len).w(flags).w(next).0
        };
        let (head, room_at) = (2 * k as u16, Machine::room(&job));
        let table = base + 16 * u64::from(head);
        self.memory.write(table, &entry(at, bytes.len() as u32, 1, head + 1));
        self.memory.write(table + 16, &entry(room_at, room, 2, 0));
        let place = base + AVAILABLE + 4 + 2 * u64::from(self.next[q] % SIZE);
        self.memory.write(place, &head.to_le_bytes());
        self.next[q] = self.next[q].wrapping_add(1);
        self.tell(q);
        self.waits[q][k] = Some(unique);
        self.offered[q].push_back(job);
    }

    /// The chains that are available.
    pub fn offered(&self, q: usize) -> usize {
        self.offered[q].len()
    }

    /// The job of the chain that was popped.
    pub fn taken(&mut self, q: usize) -> Option<Job> {
        let job = self.offered[q].pop_front()?;
        assert_eq!(self.queues[q].next_avail(), job.at.wrapping_add(1));
        Some(Job { epoch: self.epochs[q], ..job })
    }

    pub fn unpopped(&mut self, job: Job) {
        self.offered[job.queue].push_front(job);
    }

    /// With an IOMMU each miss is mapped. The buffers are unmapped again: a chain that was popped
    /// keeps its windows.
    pub fn pop(&mut self, worker: &mut Worker, q: usize) -> Result<bool, Status> {
        let (queue, memory) = (&mut self.queues[q], &*self.memory);
        let iotlb = match &mut self.iotlb {
            Some(iotlb) => iotlb,
            None => return worker.pop(queue, memory),
        };
        loop {
            let popped = worker.lend(iotlb)?.pop(queue, memory)?;
            if popped != Popped::Missing {
                iotlb.unmap(SHIFT + QUEUE * q as u64 + REQUESTS, 3 * Iotlb::PAGE)?;
                return Ok(popped == Popped::Chain);
            }
            for miss in worker.misses() {
                iotlb.map(miss.iova, miss.len, miss.iova - SHIFT, miss.access)?;
            }
        }
    }

    pub fn push(&mut self, worker: &mut Worker, q: usize) -> Result<Served, Status> {
        let (queue, memory) = (&mut self.queues[q], &*self.memory);
        match &mut self.iotlb {
            None => worker.push(queue, memory),
            Some(iotlb) => {
                assert_eq!(worker.push(queue, memory).err(), Some(Status::WrongOrder));
                worker.lend(iotlb)?.push(queue, memory)
            }
        }
    }

    /// The chain came back, once, with the wanted reply, and no other byte was stored.
    pub fn returned(&mut self, job: &Job, len: usize, answered: &Answered, before: &[u8]) {
        let (q, base) = (job.queue, QUEUE as usize * job.queue);
        let unique = self.waits[q][job.k].take().expect("it comes back once");
        let (room, now) = (Machine::room(job) as usize, self.memory.all());
        job.check_reply(&now[room..room + len], unique, &answered.wanted);
        let used = base + USED as usize;
        let index = self.queues[q].next_used();
        assert_eq!(now[used + 2..used + 4], index.to_le_bytes());
        let element = used + 4 + 8 * usize::from(index.wrapping_sub(1) % SIZE);
        assert_eq!(now[element..element + 4], (2 * job.k as u32).to_le_bytes());
        assert_eq!(now[element + 4..element + 8], (len as u32).to_le_bytes());
        let mut wanted = before.to_vec();
        for stored in [room..room + len, used + 2..used + 4, element..element + 8] {
            wanted[stored.clone()].copy_from_slice(&now[stored]);
        }
        assert!(wanted == now, "a byte of somewhere else was stored");
    }

    /// No byte but those of the request's own reply buffer changed; none at all after a reset.
    pub fn only_its_room(&self, job: &Job, is_live: bool, before: &[u8]) {
        let (room, now) = (Machine::room(job) as usize, self.memory.all());
        let mut wanted = before.to_vec();
        if is_live {
            let room = room..room + if job.is_small { 16 } else { ROOM as usize };
            wanted[room.clone()].copy_from_slice(&now[room]);
        }
        assert!(wanted == now, "{job:?}");
    }

    /// The driver resets a queue, and offers its chains anew.
    pub fn reset(&mut self, q: usize) {
        self.epochs[q] += 1;
        self.offered[q].clear();
        self.waits[q] = [None; CHAINS];
        let next = self.queue(q);
        if self.epochs[q] % 3 == 0 {
            self.queues[q] = next;
        } else {
            self.queues[q].begin(next).unwrap();
        }
    }

    /// The device moves, unless a chain is in flight.
    pub fn moves(&mut self) {
        let saved = self.device.save(&self.queues);
        if self.queues.iter().any(|queue| queue.in_flight() > 0) {
            return assert_eq!(saved, Err(Status::ChainInFlight));
        }
        self.device = Device::default();
        let queues = self.device.restore(&saved.unwrap()).unwrap();
        let again = |queue: Queue| queue.with_max_in_flight(MAX_IN_FLIGHT).unwrap();
        self.queues = queues.into_iter().map(again).collect();
        self.epochs = self.epochs.map(|epoch| epoch + 1);
    }
}
