//! A guest that doesn't run: its memory, and a queue with one chain at a time.
use crate::read::{End, Session};
use pitskhomu::{
    Device, FileSystem, GuestMemory, GuestSlice, Options, Queue, QueueLayout, Region, RequestFault,
    Served, Status, Worker,
};
use std::sync::atomic::{AtomicU8, Ordering};

const SIZE: u16 = 1024;
const LAYOUT: QueueLayout =
    QueueLayout { size: SIZE, descriptors: 0, available: 0x4000, used: 0x5000 };
const REQUEST: usize = 0x8000;
const ROOM: usize = 0x10_2000;
const REPLY: usize = REQUEST + ROOM;
const LEN: usize = REPLY + ROOM;
/// A request or a reply buffer of more bytes is cut into longer pieces.
const SHORT: usize = 400;
/// So many bytes behind a request and behind its reply buffer are known.
const BEHIND: usize = 0x1000;

struct Memory(Vec<AtomicU8>);

impl GuestMemory for Memory {
    fn get_slice(&self, at: usize, len: usize) -> Option<GuestSlice<'_>> {
        self.0.get(at..at.checked_add(len)?).map(GuestSlice::from)
    }
}

impl Memory {
    fn write(&self, at: usize, bytes: &[u8]) {
        GuestSlice::from(&self.0[at..]).store(bytes);
    }

    fn read(&self, at: usize, len: usize) -> Vec<u8> {
        self.0[at..at + len].iter().map(|byte| byte.load(Ordering::Relaxed)).collect()
    }
}

pub struct Guest {
    memory: Memory,
    pub device: Device,
    queue: Queue,
    worker: Worker,
}

fn fault_name(fault: RequestFault) -> &'static str {
    match fault {
        RequestFault::Decode => "DecodeMessage",
        RequestFault::Encode => "EncodeMessage",
        RequestFault::MissingParameter => "MissingParameter",
        RequestFault::MissingExtension => "MissingExtension",
        RequestFault::HeaderLength => "InvalidHeaderLength",
        RequestFault::Name => "InvalidCString",
        RequestFault::XattrSize => "InvalidXattrSize",
        _ => "a fault without a name",
    }
}

impl Guest {
    /// A guest whose session begins so.
    pub fn new(session: Session) -> Result<Guest, Status> {
        let device = Device::new(session.page_size, Device::MIN_LIMIT)?;
        device.set_options(Options::from_bits(session.options));
        let mut worker = Worker::new();
        worker.set_memory(&device, &[Region { guest: 0, len: LEN as u64, host: 0 }])?;
        let memory = Memory((0..LEN).map(|_| AtomicU8::new(0xff)).collect());
        Ok(Guest { memory, device, queue: Queue::new(LAYOUT, 0)?, worker })
    }

    /// Draws descriptors of at most `cut` bytes each from number `first` on, longer ones for more
    /// than `SHORT` bytes. Returns the next one.
    fn draw(&self, mut first: usize, at: usize, len: usize, cut: usize, flags: u16) -> usize {
        let cut = if len > SHORT { cut * (1 + len / SHORT) } else { cut };
        for done in (0..len).step_by(cut) {
            let mut descriptor = ((at + done) as u64).to_le_bytes().to_vec();
            descriptor.extend((cut.min(len - done) as u32).to_le_bytes());
            descriptor.extend((flags | 1).to_le_bytes());
            descriptor.extend((first as u16 + 1).to_le_bytes());
            self.memory.write(16 * first, &descriptor);
            first += 1;
        }
        first
    }

    /// Serves a request, whose parts have at most so many bytes.
    pub fn serve(
        &mut self,
        request: &[u8],
        buffer: usize,
        (cut, reply_cut): (usize, usize),
        files: &dyn FileSystem,
    ) -> Result<End, Status> {
        self.memory.write(REQUEST, &vec![0xff; request.len() + BEHIND]);
        self.memory.write(REPLY, &vec![0xff; buffer + BEHIND]);
        self.memory.write(REQUEST, request);
        let count = self.draw(0, REQUEST, request.len(), cut, 0);
        let count = self.draw(count, REPLY, buffer, reply_cut, 2);
        let last = 16 * (count - 1) + 12;
        self.memory.write(last, &[self.memory.read(last, 1)[0] & 2]);
        let position = self.queue.next_used();
        let (entry, next) = (0x4004 + 2 * usize::from(position % SIZE), position.wrapping_add(1));
        self.memory.write(entry, &[0, 0]);
        self.memory.write(0x4002, &next.to_le_bytes());
        match self.worker.serve(&mut self.queue, &self.device, files, &self.memory)? {
            Some(served) if self.used(position) != [0, served.reply_len] => {
                Ok(End::Fault(format!("the used element is {:?}", self.used(position))))
            }
            Some(served) => Ok(self.end(&served)),
            None => Ok(End::Fault("no chain is available".into())),
        }
    }

    /// The used element of a position: head and length.
    fn used(&self, position: u16) -> [u32; 2] {
        let at = 0x5004 + 8 * usize::from(position % SIZE);
        let value = |bytes: &[u8]| bytes.iter().rev().fold(0, |all, &b| all << 8 | u32::from(b));
        [at, at + 4].map(|at| value(&self.memory.read(at, 4)))
    }

    fn end(&self, served: &Served) -> End {
        match (served.request_fault, served.fault) {
            (Some(fault), _) => End::Fault(fault_name(fault).into()),
            (_, Some(fault)) => End::Fault(format!("{fault:?}")),
            _ if served.had_no_room => End::Fault("EncodeMessage".into()),
            _ if served.reply_len == 0 => End::Silent,
            _ => End::Reply(self.memory.read(REPLY, served.reply_len as usize)),
        }
    }
}
