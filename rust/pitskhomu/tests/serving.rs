//! A queue that threads serve, by chance: chains are answered at once, later, never, by a panic or
//! without room, while memory moves, and the queue is stopped, goes on and is reset. Each chain
//! comes back once, an idle queue touches nothing, and nothing is left when it has ended.
#![cfg(target_os = "linux")]
mod guest;

use guest::running::*;
use guest::{args, number, request};
use pitskhomu::live::{Builder, Handler, Serving};
use pitskhomu::*;
use std::sync::atomic::{AtomicU64, Ordering};
use std::sync::{Arc, Mutex};
use std::thread;
use std::time::{Duration, Instant};

/// So many sequences, unless `PITSKHOMU_SEQUENCES` says another number.
const SEQUENCES: u64 = 30;
const STEPS: usize = 40;
const SLOTS: usize = 6;
/// A call with this offset panics.
const PANICS: u64 = 1 << 40;

/// The guest's memory by other numbers, which counts how often it is asked for bytes.
struct Numbered {
    memory: Arc<Memory>,
    base: usize,
    asked: AtomicU64,
}

impl GuestMemory for Numbered {
    fn get_slice(&self, at: usize, len: usize) -> Option<GuestSlice<'_>> {
        self.asked.fetch_add(1, Ordering::Relaxed);
        // The second half has numbers before those of the first.
        let (half, numbers) = (LEN / 2, self.base..self.base + LEN);
        assert!(numbers.contains(&at), "a number of another memory");
        let at = (at - self.base + half) % LEN;
        assert!(at / half == (at + len - 1) / half, "two regions at once");
        self.memory.get_slice(at, len)
    }
}

impl Numbered {
    fn new(memory: &Arc<Memory>, number: usize) -> Arc<Numbered> {
        let (memory, base) = (memory.clone(), number << 24);
        Arc::new(Numbered { memory, base, asked: AtomicU64::new(0) })
    }

    fn regions(&self) -> [Region; 2] {
        let half = LEN / 2;
        let region = |guest: usize, host| Region {
            guest: guest as u64,
            len: half as u64,
            host: self.base + host,
        };
        [region(0, half), region(half, 0)]
    }
}

/// Answers READs by their offsets: at once, or later by the objects that it keeps.
#[derive(Default)]
struct Files {
    kept: Mutex<Vec<(u64, Reply)>>,
    undone: Mutex<Vec<Undo>>,
    cancelled: AtomicU64,
}

/// Half of the offsets are answered later.
fn is_later(offset: u64) -> bool {
    offset % 2 == 1
}

impl Handler for Files {
    fn call(&self, request: Request<'_>) {
        match request.operation {
            Operation::Read { read, .. } if read.offset >= PANICS => {
                std::panic::panic_any("wanted");
            }
            Operation::Read { read, .. } if is_later(read.offset) => {
                self.kept.lock().unwrap().push((read.offset, request.reply));
            }
            Operation::Read { read, .. } => request.reply.send(data_at(read.offset)).unwrap(),
            _ => request.reply.send(guest::recorder::entry()).unwrap(),
        }
    }

    fn cancelled(&self, cancelled: &Cancelled) {
        self.cancelled.fetch_add(1, Ordering::Relaxed);
        self.undone.lock().unwrap().extend(&cancelled.undo);
    }
}

impl FileSystem for Files {
    fn lookup(&self, _: &Context, _: Node, _: &CStr) -> Answer<Entry> {
        Ok(guest::recorder::entry())
    }
    fn getattr(&self, _: &Context, _: Node, _: Option<Handle>) -> Answer<(Attributes, Duration)> {
        Err(Errno::EIO)
    }
    fn read(&self, _: &Context, _: Node, read: ReadFile, data: &mut ReadData<'_>) -> Answer<()> {
        if read.offset >= PANICS {
            std::panic::panic_any("wanted");
        }
        data.put(&data_at(read.offset));
        Ok(())
    }
    fn forget(&self, node: Node, count: u64) {
        assert_eq!(count, 1);
        self.undone.lock().unwrap().push(Undo::Forget(node));
    }
}

/// A request of the guest's that isn't answered yet.
#[derive(Clone, Copy, Debug, PartialEq, Eq)]
enum Asked {
    Read(u64),
    /// A LOOKUP whose reply has no room.
    NoRoom,
}

struct Play {
    chance: u64,
    memory: Arc<Memory>,
    numbered: Arc<Numbered>,
    count: usize,
    device: Arc<Device>,
    files: Arc<Files>,
    is_by_values: bool,
    has_event_index: bool,
    threads: u16,
    in_flight: u16,
    driver: Driver,
    serving: Option<Serving>,
    slots: [Option<Asked>; SLOTS],
    next: u64,
}

impl Play {
    fn new(seed: u64) -> Play {
        let mut chance = seed.wrapping_mul(0x9e37_79b9_7f4a_7c15) | 1;
        let mut below = |end| below(&mut chance, end);
        let (threads, in_flight) = (1 + below(3) as u16, 1 + below(6) as u16);
        let (is_by_values, has_event_index) = (below(3) > 0, below(2) == 0);
        let memory = Memory::new();
        let numbered = Numbered::new(&memory, 1);
        let (driver, ..) = Driver::new(&memory, has_event_index);
        let (device, files) = (Arc::default(), Arc::default());
        let mut play = Play {
            chance,
            memory,
            numbered,
            count: 1,
            device,
            files,
            is_by_values,
            has_event_index,
            threads,
            in_flight,
            driver,
            serving: None,
            slots: [None; SLOTS],
            next: 0,
        };
        play.begin();
        play
    }

    fn below(&mut self, end: u64) -> u64 {
        below(&mut self.chance, end)
    }

    /// Serves a queue.
    fn start(&mut self, queue: Queue) {
        let queue = queue.with_event_index(self.has_event_index);
        let regions = self.numbered.regions();
        let builder = Builder::new(self.device.clone(), self.numbered.clone(), &regions);
        let builder = builder.threads(self.threads).in_flight(self.in_flight);
        let kick = self.driver.kick.try_clone().unwrap();
        let (call, files) = (self.driver.call.try_clone().unwrap(), self.files.clone());
        let serving = match self.is_by_values {
            true => builder.start_by_values(queue, kick, call, files),
            false => builder.start(queue, kick, call, files),
        };
        self.serving = Some(serving.unwrap());
    }

    /// The driver sets the queue up.
    fn begin(&mut self) {
        [AVAILABLE, USED].iter().for_each(|at| self.memory.write(*at, &[0; 0x100]));
        self.driver = Driver::new(&self.memory, self.has_event_index).0;
        self.start(Queue::new(layout(), 0).unwrap());
    }

    fn offer(&mut self) {
        let slot = match self.slots.iter().position(Option::is_none) {
            Some(slot) => slot,
            None => return,
        };
        self.next += 1;
        let (asked, bytes, room) = match self.below(8) {
            0 => (Asked::NoRoom, request(1, 1, &args().bytes(b"name\0").0), 100),
            1 => (Asked::Read(PANICS), read_request(self.next, PANICS), 116),
            _ => (Asked::Read(self.next), read_request(self.next, self.next), 116),
        };
        self.slots[slot] = Some(asked);
        self.driver.offer(slot as u16, &bytes, room);
    }

    /// Whether the answer comes only if the test gives it.
    fn is_kept(&self, asked: Asked) -> bool {
        self.is_by_values
            && matches!(asked, Asked::Read(offset) if offset < PANICS && is_later(offset))
    }

    /// One of the objects is answered, or dropped.
    fn answer(&mut self) {
        let mut kept = self.files.kept.lock().unwrap();
        if kept.is_empty() {
            return;
        }
        let k = below(&mut self.chance, kept.len() as u64) as usize;
        let (offset, reply) = kept.swap_remove(k);
        drop(kept);
        match below(&mut self.chance, 4) {
            0 => thread::scope(|scope| drop(scope.spawn(|| reply.send(data_at(offset)).unwrap()))),
            1 => reply.error(Errno::EIO).unwrap(),
            2 => drop(reply),
            _ => reply.send(data_at(offset)).unwrap(),
        }
    }

    /// A chain is back.
    fn is_used(&mut self, (slot, len): (u16, u32)) {
        let asked = self.slots[usize::from(slot)].take().expect("it comes back once");
        let reply = self.driver.reply(slot, len);
        match asked {
            Asked::NoRoom => {
                assert_eq!(len, 0);
                let undone = std::mem::take(&mut *self.files.undone.lock().unwrap());
                assert_eq!(undone.first(), Some(&Undo::Forget(guest::recorder::entry().node)));
                self.files.undone.lock().unwrap().extend(&undone[1..]);
            }
            Asked::Read(offset) => {
                let is_error = number(&reply, 4, 4) != 0;
                assert_eq!(is_error, offset >= PANICS || (is_error && self.is_kept(asked)));
                assert!(is_error || reply[16..] == data_at(offset));
                assert!(!is_error || number(&reply, 4, 4) == u64::from(5u32.wrapping_neg()));
            }
        }
    }

    /// Waits for all chains. Those that only the test answers are answered.
    fn wait_for_all(&mut self) {
        let begun = Instant::now();
        while self.slots.iter().any(Option::is_some) {
            let used = self.driver.used();
            if let Some(used) = used {
                self.is_used(used);
            } else if !self.files.kept.lock().unwrap().is_empty() {
                self.answer();
            } else if self.slots.iter().flatten().any(|asked| self.is_kept(*asked)) {
                assert!(begun.elapsed() < PATIENCE, "a chain isn't served");
                pause(1000);
            } else {
                let used = self.driver.wait();
                self.is_used(used);
            }
        }
        self.is_idle();
    }

    /// Nothing is touched while nothing is asked, and no memory is kept but the last.
    fn is_idle(&mut self) {
        let begun = Instant::now();
        let asked = || self.numbered.asked.load(Ordering::Relaxed);
        loop {
            let before = asked();
            thread::sleep(Duration::from_millis(4));
            if asked() == before {
                break;
            }
            assert!(begun.elapsed() < Duration::from_secs(20), "an idle queue is looked at");
        }
        let serving = self.serving.as_ref().unwrap();
        assert_eq!((serving.in_flight(), serving.refused()), (0, None));
        assert!(self.files.undone.lock().unwrap().is_empty() && self.driver.used().is_none());
        until(|| Arc::strong_count(&self.memory) == 3); // the driver's, ours, that of `numbered`
    }

    fn set_memory(&mut self) {
        self.count += 1;
        let numbered = Numbered::new(&self.memory, self.count);
        let serving = self.serving.as_ref().unwrap();
        serving.set_memory(numbered.clone(), &numbered.regions()).unwrap();
        self.numbered = numbered;
    }

    /// The queue stops, and goes on if it has.
    fn stop(&mut self, time: Duration) {
        let (serving, next) = (self.serving.take().unwrap(), self.driver.offered);
        match serving.stop_within(time) {
            Ok(queue) => {
                assert_eq!((queue.in_flight(), queue.next_used()), (0, queue.next_avail()));
                assert!(next.wrapping_sub(queue.next_avail()) <= SLOTS as u16);
                let record = self.device.save(&[queue]).unwrap();
                let queue = self.device.restore(&record).unwrap().remove(0);
                self.start(queue);
            }
            Err(serving) => {
                assert_eq!(serving.refused(), None);
                assert!(self.slots.iter().any(Option::is_some), "nothing is asked");
                self.serving = Some(serving);
            }
        }
    }

    /// The queue is reset. What the guest hasn't got is refused, and never stored.
    fn reset(&mut self) {
        match self.serving.take().unwrap() {
            serving if self.next % 2 == 0 => serving.reset(),
            serving => drop(serving),
        }
        let before = self.memory.read(0, LEN);
        while let Some(used) = self.driver.used() {
            self.is_used(used);
        }
        let kept = std::mem::take(&mut *self.files.kept.lock().unwrap());
        let cancelled = self.files.cancelled.swap(0, Ordering::Relaxed);
        assert!(cancelled >= kept.len() as u64, "{cancelled}");
        for (offset, reply) in kept {
            assert!(reply.is_cancelled());
            assert_eq!(reply.send(data_at(offset)).unwrap_err().status(), Status::OtherCall);
        }
        assert!(self.memory.read(0, LEN) == before, "nothing is stored after a reset");
        self.files.undone.lock().unwrap().clear();
        self.slots = [None; SLOTS];
        assert_eq!(Arc::strong_count(&self.files), 1);
        self.begin();
    }

    fn step(&mut self) {
        match self.below(24) {
            0..=9 => self.offer(),
            10..=14 => self.answer(),
            15..=17 => {
                if let Some(used) = self.driver.used() {
                    self.is_used(used);
                }
            }
            18 => self.set_memory(),
            19 => self.stop(Duration::ZERO),
            20 => self.stop(Duration::from_millis(3)),
            21 => self.reset(),
            22 => self.wait_for_all(),
            _ => (0..SLOTS).for_each(|_| self.offer()),
        }
    }

    fn end(mut self) {
        self.wait_for_all();
        let (serving, next) = (self.serving.take().unwrap(), self.driver.offered);
        let queue = serving.stop();
        assert_eq!((queue.next_avail(), queue.next_used()), (next, next));
        let kicks = self.driver.kicks;
        self.offer();
        assert_eq!(self.driver.kicks, kicks + 1, "the next device hears of the next chain");
        let counts = (Arc::strong_count(&self.files), Arc::strong_count(&self.numbered));
        assert_eq!((counts, Arc::strong_count(&self.device)), ((1, 1), 1));
    }
}

fn below(chance: &mut u64, end: u64) -> u64 {
    *chance ^= *chance << 13;
    *chance ^= *chance >> 7;
    *chance ^= *chance << 17;
    (*chance >> 20) % end
}

#[test]
fn a_queue_is_served_whatever_happens() {
    let printed = std::panic::take_hook();
    std::panic::set_hook(Box::new(move |info| {
        if info.payload().downcast_ref::<&str>() != Some(&"wanted") {
            printed(info);
        }
    }));
    let number = |name| std::env::var(name).ok().and_then(|text| text.parse::<u64>().ok());
    let first = number("PITSKHOMU_FIRST").unwrap_or(1);
    for seed in first..first + number("PITSKHOMU_SEQUENCES").unwrap_or(SEQUENCES) {
        let mut play = Play::new(seed);
        (0..STEPS).for_each(|_| play.step());
        play.end();
    }
}
