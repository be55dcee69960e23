//! Requests, reply buffers and rings by chance: the worker doesn't panic, keeps to the regions, and
//! goes on.
mod guest;

use guest::recorder::Recorder;
use guest::*;
use pitskhomu::*;

/// Numbers by chance, the same at each run (xorshift).
struct Chance(u64);

impl Chance {
    fn next(&mut self) -> u64 {
        self.0 ^= self.0 << 13;
        self.0 ^= self.0 >> 7;
        self.0 ^= self.0 << 17;
        self.0
    }

    fn below(&mut self, most: u64) -> u64 {
        self.next() % most
    }

    /// A number as guests that mean harm write it.
    fn number(&mut self) -> u64 {
        match self.below(6) {
            0 => 0,
            1 => self.below(64),
            2 => u64::MAX - self.below(64),
            3 => 1 << self.below(64),
            4 => self.below(LEN as u64 + 0x1000),
            _ => self.next(),
        }
    }

    fn bytes(&mut self, len: u64) -> Vec<u8> {
        let names = [&b"name\0"[..], b"\0", b"..\0", b"a/b\0", b"no end"];
        let mut bytes = Vec::new();
        while (bytes.len() as u64) < len {
            match self.below(3) {
                0 => bytes.extend(names[self.below(5) as usize]),
                1 => bytes.extend((self.below(4096) as u32).to_le_bytes()),
                _ => bytes.extend(self.number().to_le_bytes()),
            }
        }
        bytes
    }

    /// Cuts a stretch into buffers.
    fn buffers(&mut self, at: u64, len: u64, writes: bool) -> Vec<Buffer> {
        let (mut buffers, mut done) = (Vec::new(), 0);
        for _ in 0..self.below(4) {
            let part = self.below(len - done + 1);
            buffers.push(Buffer(at + done, part as u32, writes));
            done += part;
        }
        buffers.push(Buffer(at + done, (len - done) as u32, writes));
        buffers
    }
}

fn offer_by_chance(guest: &mut Guest, chance: &mut Chance) {
    let (args, opcode) = (chance.below(160), chance.below(56) as u32);
    let mut bytes = request(opcode, 5, &chance.bytes(args));
    if chance.below(8) == 0 {
        let at = chance.below(40) as usize;
        bytes[at] = chance.next() as u8;
    }
    guest.memory.write(REQUEST, &bytes);
    let mut buffers = chance.buffers(REQUEST, bytes.len() as u64, false);
    let room = [0, 15, 16, 80, 144, 160, 4112][chance.below(7) as usize];
    buffers.extend(chance.buffers(ROOM, room, true));
    let is_indirect = chance.below(3) == 0;
    let table = if is_indirect { TABLE + chance.below(32) } else { DESCRIPTORS };
    guest.draw(table, 0, &buffers);
    if is_indirect {
        guest.descriptor(DESCRIPTORS, 0, (table, 16 * buffers.len() as u32, INDIRECT, 0));
    }
    if chance.below(8) == 0 {
        let k = chance.below(buffers.len() as u64) as u16;
        guest.descriptor(
            table,
            k,
            (chance.number(), chance.number() as u32, chance.below(8) as u16, k + 1),
        );
    }
    let head = if chance.below(50) == 0 { chance.next() as u16 } else { 0 };
    guest.offer(head);
}

#[test]
fn requests_and_rings_by_chance() {
    let names = [&b".\0"[..], b"..\0", b"one\0", b"two\0"]
        .map(|name| CStr::from_bytes_with_nul(name).unwrap());
    let mut served_well = 0;
    for seed in 1..=400 {
        let mut chance = Chance(0x9e37_79b9_7f4a_7c15_u64.wrapping_mul(seed));
        let mut guest = Guest::new();
        guest.memory.is_logging.set(chance.below(2) == 0);
        let recorder = Recorder {
            wanted: Options::from_bits(chance.next()),
            names: names.to_vec(),
            error: Some(Errno::EIO).filter(|_| chance.below(4) == 0),
            is_unchecked: true,
            ..Recorder::default()
        };
        for _ in 0..20 {
            offer_by_chance(&mut guest, &mut chance);
            match guest.worker.serve(&mut guest.queue, &guest.device, &recorder, &guest.memory) {
                Ok(served) => {
                    let served = served.expect("a chain waits");
                    served_well += usize::from(served.reply_len > 0);
                    assert!(u64::from(served.reply_len) <= served.room_len);
                }
                Err(status) => {
                    assert!(status.stops_queue(), "{status:?}");
                    guest.queue = Queue::new(layout(), guest.offered).unwrap();
                }
            }
            assert_eq!(guest.queue.in_flight(), 0);
        }
    }
    assert!(served_well > 1000, "{served_well}");
}
