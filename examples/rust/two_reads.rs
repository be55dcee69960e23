//! A guest for later.rs and tasks.rs that has asked for two READs, at the offsets 10 and 20
//! (linux/fuse.h; VIRTIO 1.2, 2.7). It doesn't run while it is served.
use pitskhomu::*;
use std::sync::atomic::AtomicU8;

const DESC: usize = 0x1000;
const AVAIL: usize = 0x2000;
const USED: usize = 0x3000;
const REQUEST: usize = 0x4000;
const REPLY: usize = 0x8000;
const MEMORY: usize = 0x1_0000;
const READ: u32 = 15;

/// Its memory.
pub struct Memory(Vec<AtomicU8>);

impl GuestMemory for Memory {
    fn get_slice(&self, at: usize, len: usize) -> Option<GuestSlice<'_>> {
        self.0.get(at..)?.get(..len).map(GuestSlice::from)
    }
}

impl Memory {
    pub fn new() -> Memory {
        let memory = Memory((0..MEMORY).map(|_| AtomicU8::new(0)).collect());
        memory.offer(1, 10);
        memory.offer(2, 20);
        memory
    }

    fn write(&self, at: usize, bytes: &[u8]) {
        GuestSlice::from(&self.0[at..]).store(bytes);
    }

    /// Offers a READ with this number, from an offset on.
    fn offer(&self, unique: u16, offset: u64) {
        let k = usize::from(unique) - 1;
        let (request, reply) = (REQUEST + 0x100 * k, REPLY + 0x100 * k);
        self.write(request, &[80u32, READ].map(u32::to_le_bytes).concat());
        let numbers = [unique.into(), 2, 0, 0, 0, offset, 100];
        self.write(request + 8, &numbers.map(u64::to_le_bytes).concat());
        for (index, at, len, flags) in [(2 * k, request, 80u32, 1u16), (2 * k + 1, reply, 116, 2)] {
            let next = (index as u16 + 1).to_le_bytes();
            let bytes = [&len.to_le_bytes()[..], &flags.to_le_bytes(), &next].concat();
            self.write(DESC + 16 * index, &(at as u64).to_le_bytes());
            self.write(DESC + 16 * index + 8, &bytes);
        }
        self.write(AVAIL + 4 + 2 * k, &(2 * k as u16).to_le_bytes());
        self.write(AVAIL + 2, &unique.to_le_bytes());
    }

    /// Its queue, and two workers, each for a chain.
    pub fn queue(&self, device: &Device) -> Result<(Queue, [Worker; 2]), Status> {
        let layout = QueueLayout {
            size: 8,
            descriptors: DESC as u64,
            available: AVAIL as u64,
            used: USED as u64,
        };
        let mut workers = [Worker::new(), Worker::new()];
        for worker in &mut workers {
            worker.set_memory(device, &[Region { guest: 0, len: MEMORY as u64, host: 0 }])?;
        }
        Ok((Queue::new(layout, 0)?.with_max_in_flight(2)?, workers))
    }

    /// Prints the data of each reply.
    pub fn print(&self, mut served: Vec<Served>) {
        served.sort_by_key(|served| served.unique);
        for Served { unique, reply_len, .. } in served {
            let mut bytes = vec![0; reply_len as usize];
            GuestSlice::from(&self.0[REPLY + 0x100 * (unique as usize - 1)..]).load(&mut bytes);
            println!("Request {unique} got {}", String::from_utf8_lossy(&bytes[16..]));
        }
    }
}
