//! A guest that runs while it is served: a driver, which notifies only when it is asked to, and
//! sleeps until it is interrupted.
#![cfg(all(target_os = "linux", feature = "std"))]
use super::{args, number, request};
use pitskhomu::live::new_event;
use pitskhomu::*;
use std::cell::UnsafeCell;
use std::collections::HashMap;
use std::fs::File;
use std::io::{Read as _, Write as _};
use std::sync::atomic::{fence, AtomicU16, Ordering};
use std::sync::Arc;
use std::thread;
use std::time::{Duration, Instant};

pub const SIZE: u16 = 16;
pub const LEN: usize = 0x2_0000;
pub const DESCRIPTORS: u64 = 0x1000;
pub const AVAILABLE: u64 = 0x2000;
pub const USED: u64 = 0x3000;
pub const REQUESTS: u64 = 0x1_0000;
pub const REPLIES: u64 = 0x1_8000;
/// A test waits for at most so long.
pub const PATIENCE: Duration = Duration::from_secs(60);

/// Memory that the guest and the device share, by words where that is possible.
#[repr(align(4096))]
pub struct Shared([UnsafeCell<u8>; LEN]);

// SAFETY: all access it by `GuestSlice`, or by atomic numbers.
unsafe impl Sync for Shared {}
unsafe impl Send for Shared {}

pub struct Memory(pub Box<Shared>);

impl GuestMemory for Memory {
    fn get_slice(&self, at: usize, len: usize) -> Option<GuestSlice<'_>> {
        if at.checked_add(len)? > LEN {
            return None;
        }
        // SAFETY: the bytes are in the memory, and nobody has a reference to them.
        Some(unsafe { GuestSlice::new(self.0 .0[0].get().add(at), len) })
    }
}

impl Memory {
    pub fn new() -> Arc<Memory> {
        // SAFETY: zeros are such bytes.
        Arc::new(Memory(unsafe { Box::new(std::mem::zeroed()) }))
    }

    pub fn write(&self, at: u64, bytes: &[u8]) {
        self.get_slice(at as usize, bytes.len()).unwrap().store(bytes);
    }

    pub fn read(&self, at: u64, len: usize) -> Vec<u8> {
        let mut bytes = vec![0; len];
        self.get_slice(at as usize, len).unwrap().load(&mut bytes);
        bytes
    }

    /// A number of a ring.
    pub fn half(&self, at: u64) -> &AtomicU16 {
        // SAFETY: it is aligned, in the memory, and accessed as an atomic number alone.
        unsafe { &*self.0 .0[at as usize].get().cast::<AtomicU16>() }
    }
}

pub fn region() -> Region {
    Region { guest: 0, len: LEN as u64, host: 0 }
}

pub fn layout() -> QueueLayout {
    QueueLayout { size: SIZE, descriptors: DESCRIPTORS, available: AVAILABLE, used: USED }
}

/// A moment between two looks: other threads run, also on one processor.
pub fn pause(turn: u32) {
    thread::sleep(Duration::from_micros(if turn < 100 { 0 } else { 100 }));
}

/// The driver.
pub struct Driver {
    pub memory: Arc<Memory>,
    has_event_index: bool,
    pub kick: File,
    pub call: File,
    pub offered: u16,
    seen: u16,
    pub kicks: usize,
    /// What an address of a buffer is more than the guest's own.
    pub shift: u64,
}

impl Driver {
    pub fn new(memory: &Arc<Memory>, has_event_index: bool) -> (Driver, File, File) {
        let (kick, call) = (new_event().unwrap(), new_event().unwrap());
        let device = (kick.try_clone().unwrap(), call.try_clone().unwrap());
        let memory = memory.clone();
        let driver =
            Driver { memory, has_event_index, kick, call, offered: 0, seen: 0, kicks: 0, shift: 0 };
        (driver, device.0, device.1)
    }

    /// Offers a request at a place of its own, and notifies the device if it asks for that (VIRTIO
    /// 1.2, 2.7.13).
    pub fn offer(&mut self, slot: u16, request: &[u8], room: u32) {
        let (at, reply) = (REQUESTS + 0x100 * u64::from(slot), REPLIES + 0x100 * u64::from(slot));
        self.memory.write(at, request);
        for (index, at, len, flags) in
            [(2 * slot, at, request.len() as u32, 1), (2 * slot + 1, reply, room, 2)]
        {
            let bytes = args().q(self.shift + at).d(len).w(flags).w(index + 1).0;
            self.memory.write(DESCRIPTORS + 16 * u64::from(index), &bytes);
        }
        let place = AVAILABLE + 4 + 2 * u64::from(self.offered % SIZE);
        self.memory.half(place).store(2 * slot, Ordering::Relaxed);
        let old = self.offered;
        self.offered = old.wrapping_add(1);
        self.memory.half(AVAILABLE + 2).store(self.offered, Ordering::Release);
        fence(Ordering::SeqCst);
        let is_asked = if self.has_event_index {
            let event = USED + 4 + 8 * u64::from(SIZE);
            self.memory.half(event).load(Ordering::Relaxed) == old
        } else {
            self.memory.half(USED).load(Ordering::Relaxed) & 1 == 0
        };
        if is_asked {
            self.kicks += 1;
            (&self.kick).write_all(&1u64.to_ne_bytes()).unwrap();
        }
    }

    /// The next used element, if there is one: the slot, and the reply's length.
    pub fn used(&mut self) -> Option<(u16, u32)> {
        if self.memory.half(USED + 2).load(Ordering::Acquire) == self.seen {
            return None;
        }
        let element = self.memory.read(USED + 4 + 8 * u64::from(self.seen % SIZE), 8);
        self.seen = self.seen.wrapping_add(1);
        Some((number(&element, 0, 4) as u16 / 2, number(&element, 4, 4) as u32))
    }

    /// Sleeps until the device interrupts (2.7.14).
    pub fn wait(&mut self) -> (u16, u32) {
        let end = Instant::now() + PATIENCE;
        loop {
            if let Some(used) = self.used() {
                return used;
            }
            if self.has_event_index {
                self.memory
                    .half(AVAILABLE + 4 + 2 * u64::from(SIZE))
                    .store(self.seen, Ordering::Relaxed);
            }
            fence(Ordering::SeqCst);
            if let Some(used) = self.used() {
                return used;
            }
            // The event doesn't block: a lost interrupt is seen as a test that fails.
            for turn in 0.. {
                if (&self.call).read(&mut [0; 8]).is_ok() {
                    break;
                }
                assert!(Instant::now() < end, "no interrupt came");
                pause(turn);
            }
        }
    }

    pub fn reply(&self, slot: u16, len: u32) -> Vec<u8> {
        self.memory.read(REPLIES + 0x100 * u64::from(slot), len as usize)
    }
}

pub fn read_request(unique: u64, offset: u64) -> Vec<u8> {
    let read = args().q(3).q(offset).d(100).bytes(&[0; 20]);
    let mut bytes = request(15, 5, &read.0);
    bytes[8..16].copy_from_slice(&unique.to_le_bytes());
    bytes
}

/// The data of a READ from this offset on.
pub fn data_at(offset: u64) -> Vec<u8> {
    format!("the data at {offset}").into_bytes()
}

/// Waits until something holds.
pub fn until(what: impl Fn() -> bool) {
    let end = Instant::now() + PATIENCE;
    for turn in (0..).take_while(|_| !what()) {
        assert!(Instant::now() < end);
        pause(turn);
    }
}

/// Reads so often, with up to so many requests at a time; each gets its own data.
pub fn run(driver: &mut Driver, count: u64, at_a_time: u16) {
    let (mut asked, mut free): (HashMap<u16, u64>, Vec<u16>) =
        (HashMap::new(), (0..at_a_time).collect());
    let (mut next, mut done) = (0, 0);
    while done < count {
        while next < count {
            let slot = match free.pop() {
                Some(slot) => slot,
                None => break,
            };
            asked.insert(slot, next);
            driver.offer(slot, &read_request(next, next), 116);
            next += 1;
        }
        let (slot, len) = driver.wait();
        let offset = asked.remove(&slot).expect("it was asked");
        let reply = driver.reply(slot, len);
        assert_eq!((number(&reply, 8, 8), &reply[16..]), (offset, &data_at(offset)[..]));
        free.push(slot);
        done += 1;
    }
}
