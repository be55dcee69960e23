//! Data of READ and WRITE by random calls, over buffers that are cut anywhere, in memory whose
//! pages lie in another order than the guest's. A plain model has the same bytes. After each chain
//! all of the memory, the marks, the used ring and the counts are the model's.
#![cfg(all(target_os = "linux", target_pointer_width = "64"))]
mod guest;

use guest::random::Random;
use guest::{args, layout, request, Buffer, AVAILABLE, NEXT, UNIQUE, USED};
use pitskhomu::*;
use std::cell::{Cell, RefCell};
use std::collections::BTreeSet;
use std::fs::{File, OpenOptions};
use std::os::unix::fs::FileExt;
use std::path::PathBuf;
use std::sync::atomic::{AtomicU64, AtomicU8, Ordering};
use std::time::Duration;

/// The rings lie in the first pages, each at its guest address. From `AREA` on are the buffers, in
/// regions of three pages.
const AREA: u64 = 0x10_0000;
const RINGS: usize = 0x8000;
const PAGES: usize = 36;
const PAGE: usize = 0x3000;
const LEN: usize = RINGS + PAGES * PAGE;
const SIZE: u16 = 64;
const HOST: usize = 0x5000_0000;
/// The bytes of struct fuse_in_header and of struct fuse_read_in or fuse_write_in.
const FRONT: usize = 80;
const HEADER: usize = 16;
/// The most bytes of data: more than 16 bits have.
const MOST: usize = 0x1_4000;

/// Memory that is accessed by words or by bytes.
struct Memory {
    words: Vec<AtomicU64>,
    is_wide: Cell<bool>,
    marks: RefCell<Vec<GuestRange>>,
    /// The place of each page of the area.
    pages: Vec<usize>,
}

impl Memory {
    fn at(&self, from: usize, len: usize) -> &[AtomicU8] {
        // SAFETY: a word is eight atomic bytes, and one thread alone accesses them.
        let bytes =
            unsafe { std::slice::from_raw_parts(self.words.as_ptr().cast::<AtomicU8>(), LEN) };
        &bytes[from..from + len]
    }

    fn all(&self) -> Vec<u8> {
        let mut all = vec![0; LEN];
        // SAFETY: as of `at`, and the two don't overlap.
        unsafe { self.words.as_ptr().cast::<u8>().copy_to_nonoverlapping(all.as_mut_ptr(), LEN) };
        all
    }

    fn write(&self, from: usize, bytes: &[u8]) {
        for (to, byte) in self.at(from, bytes.len()).iter().zip(bytes) {
            to.store(*byte, Ordering::Relaxed);
        }
    }

    fn read(&self, from: usize, len: usize) -> Vec<u8> {
        self.at(from, len).iter().map(|byte| byte.load(Ordering::Relaxed)).collect()
    }

    /// No memory, in the place of one that is lent.
    fn none() -> Memory {
        let (is_wide, marks) = (Cell::new(false), RefCell::default());
        Memory { words: vec![], is_wide, marks, pages: vec![] }
    }

    /// The place of a guest's byte.
    fn place(&self, guest: u64) -> usize {
        if guest < RINGS as u64 {
            return guest as usize;
        }
        let behind = (guest - AREA) as usize;
        RINGS + self.pages[behind / PAGE] * PAGE + behind % PAGE
    }
}

impl GuestMemory for Memory {
    fn get_slice(&self, at: usize, len: usize) -> Option<GuestSlice<'_>> {
        let bytes = self.at(at - HOST, len);
        if !self.is_wide.get() {
            return Some(bytes.into());
        }
        // SAFETY: the bytes live as long as `self`, and one thread alone accesses them.
        Some(unsafe { GuestSlice::new(bytes.as_ptr() as *mut u8, len) })
    }

    fn is_logging(&self) -> bool {
        true
    }

    fn mark(&self, written: GuestRange) {
        self.marks.borrow_mut().push(written);
    }
}

/// A guest with one queue, and its device.
struct Machine {
    memory: Memory,
    device: Device,
    worker: Worker,
    queue: Queue,
    offered: u16,
}

/// Where the bytes of a chain are: of the request and of the reply buffer, guest addresses.
struct Places {
    request: Vec<u64>,
    reply: Vec<u64>,
}

impl Machine {
    fn new(random: &mut Random) -> Machine {
        let mut pages: Vec<usize> = (0..PAGES).collect();
        random.shuffle(&mut pages);
        let mut regions = vec![Region { guest: 0, len: RINGS as u64, host: HOST }];
        regions.extend(pages.iter().zip(0..).map(|(place, k)| Region {
            guest: AREA + k * PAGE as u64,
            len: PAGE as u64,
            host: HOST + RINGS + place * PAGE,
        }));
        let (device, mut worker) = (Device::default(), Worker::new());
        worker.set_memory(&device, &regions).unwrap();
        let offered = random.below(0x1_0000) as u16;
        let words = (0..LEN / 8).map(|_| AtomicU64::new(random.next())).collect();
        let (is_wide, marks) = (Cell::new(false), RefCell::default());
        let memory = Memory { words, is_wide, marks, pages };
        memory.write(AVAILABLE as usize + 2, &offered.to_le_bytes());
        let queue = Queue::new(QueueLayout { size: SIZE, ..layout() }, offered).unwrap();
        Machine { memory, device, worker, queue, offered }
    }

    /// Offers a request, in buffers of any lengths and at any places.
    fn offer(&mut self, random: &mut Random, bytes: &[u8], reply_len: usize) -> Places {
        let memory = &self.memory;
        let mut pieces = random.cut(bytes.len(), false);
        pieces.extend(random.cut(reply_len, true));
        let mut order: Vec<usize> = (0..pieces.len()).collect();
        random.shuffle(&mut order);
        let mut next = AREA + random.below(70) as u64;
        for k in order {
            pieces[k].0 = next;
            next += u64::from(pieces[k].1) + [0, 0, 1, 3, 8, 100][random.below(6)];
        }
        assert!(next <= AREA + (PAGES * PAGE) as u64);
        let of = |writes| {
            let all = pieces.iter().filter(|piece| piece.2 == writes);
            all.flat_map(|&Buffer(at, len, _)| at..at + u64::from(len)).collect::<Vec<_>>()
        };
        let places = Places { request: of(false), reply: of(true) };
        for (guest, byte) in places.request.iter().zip(bytes) {
            memory.write(memory.place(*guest), &[*byte]);
        }
        for (k, Buffer(at, len, writes)) in (0..).zip(&pieces) {
            let last = usize::from(k) + 1 == pieces.len();
            let flags = if last { 0 } else { NEXT } | if *writes { 2 } else { 0 };
            memory.write(16 * usize::from(k), &args().q(*at).d(*len).w(flags).w(k + 1).0);
        }
        let entry = AVAILABLE as usize + 4 + 2 * usize::from(self.offered % SIZE);
        memory.write(entry, &[0, 0]);
        self.offered = self.offered.wrapping_add(1);
        memory.write(AVAILABLE as usize + 2, &self.offered.to_le_bytes());
        memory.is_wide.set(random.below(2) == 0);
        places
    }

    /// The chain came back with this reply, and all else is as the model has it. The marks are of
    /// the reply buffer up to one of its bytes, and of the rings.
    fn check(&self, mut model: Vec<u8>, places: &Places, served: &Served, came: &Came) {
        let memory = &self.memory;
        assert_eq!((served.reply_len as usize, served.fault), (came.len, None));
        for (guest, byte) in places.reply.iter().zip(&came.front) {
            model[memory.place(*guest)] = *byte;
        }
        let index = self.queue.next_used();
        assert_eq!(index, self.offered);
        let element = USED + 4 + 8 * u64::from(index.wrapping_sub(1) % SIZE);
        let stored = args().d(0).d(came.len as u32).0;
        model[element as usize..][..8].copy_from_slice(&stored);
        model[USED as usize + 2..][..2].copy_from_slice(&index.to_le_bytes());
        let found = memory.all();
        if found != model {
            panic!("byte {:?} of the memory", (0..LEN).find(|&k| found[k] != model[k]));
        }
        let marks = memory.marks.take();
        let marked = marks.iter().flat_map(|range| range.guest..range.guest + range.len);
        let mut wanted = places.reply[..came.len.max(came.marked_to)].to_vec();
        wanted.extend((element..element + 8).chain(USED + 2..USED + 4));
        assert_eq!(marked.clone().count(), wanted.len(), "each byte is marked once: {came:?}");
        assert_eq!(marked.collect::<BTreeSet<_>>(), wanted.into_iter().collect());
    }
}

/// What has to come of a chain.
#[derive(Debug)]
struct Came {
    len: usize,
    /// The reply's first bytes. The data behind is in the model.
    front: Vec<u8>,
    /// So many bytes of the reply buffer are marked, or all of a longer reply.
    marked_to: usize,
}

/// A length as tests of boundaries have it, up to a greatest one.
fn some_len(random: &mut Random, most: usize) -> usize {
    let some = [0, 1, 2, 7, 8, 9, 15, 16, 17, 100, 511, 512, 513, 1000, 4095, 4096, 4097, 9000];
    match random.below(16) {
        0 => random.below(most + 1),
        1..=5 => random.below(most.min(9000) + 1),
        _ => some[random.below(some.len())].min(most),
    }
}

/// The data of one chain, by the model.
struct Moving<'m> {
    memory: &'m Memory,
    model: Vec<u8>,
    file: &'m File,
    /// Guest addresses of the data.
    places: &'m [u64],
    /// How many bytes were moved in place.
    done: usize,
    /// Up to where windows or ranges of the data were lent.
    lent: usize,
    is_owned: bool,
    /// What an owned request's buffer has of a READ, or what was taken out of a WRITE.
    bytes: Vec<u8>,
    /// The data of a WRITE.
    wanted: Vec<u8>,
}

impl<'m> Moving<'m> {
    fn new(memory: &'m Memory, file: &'m File, places: &'m [u64], wanted: Vec<u8>) -> Moving<'m> {
        let (model, bytes) = (memory.all(), vec![]);
        let is_owned = false;
        Moving { memory, model, file, places, done: 0, lent: 0, is_owned, bytes, wanted }
    }

    /// The places of windows, which are the next bytes of the data.
    fn check_windows(&self, left: usize, windows: &[Window], count: usize) -> Vec<usize> {
        let bytes = windows.iter().flat_map(|it| it.at - HOST..it.at - HOST + it.len);
        let found: Vec<usize> = bytes.collect();
        assert!(windows.len() <= count && windows.iter().all(|window| window.len > 0));
        let next = self.places[self.done..].iter().map(|guest| self.memory.place(*guest));
        assert!(found.len() <= left && found.iter().copied().eq(next.take(found.len())));
        assert!(windows.len() == count || found.len() == left, "all that is left");
        found
    }

    /// One call for the data of a READ.
    fn read_step(&mut self, random: &mut Random, data: &mut ReadData<'_>) {
        let (left, done) = (data.left() as usize, data.done());
        assert_eq!(done, if self.is_owned { self.bytes.len() } else { self.done } as u64);
        assert!(format!("{data:?}").contains(&format!("left: {left}, done: {done}")));
        let mut put = match random.below(5) {
            0 | 1 => {
                let len = some_len(random, left + 20);
                let put = random.bytes(len);
                assert_eq!(data.put(&put), put.len().min(left));
                put
            }
            2 => {
                let (from, mut put) = (random.below(100_000) as u64, vec![0; left]);
                let len = self.file.read_at(&mut put, from).unwrap();
                put.truncate(len);
                assert_eq!(data.read_from(self.file, from).unwrap(), len as u64);
                if !self.is_owned {
                    self.lent = self.lent.max(self.done + left); // a system call gets all windows
                }
                put
            }
            3 => self.by_windows(random, data),
            _ => {
                let (mut ranges, count) = ([GuestRange::default(); 40], random.below(41));
                let found = data.ranges(&mut ranges[..count]);
                let bytes = found.iter().flat_map(|range| range.guest..range.guest + range.len);
                let bytes: Vec<u64> = bytes.collect();
                assert!(bytes[..] == self.places[self.done..][..bytes.len()]);
                let is_all = bytes.len() == left || found.len() == count;
                assert!(if self.is_owned { bytes.is_empty() } else { is_all });
                self.lent = self.lent.max(self.done + bytes.len());
                vec![]
            }
        };
        put.truncate(left);
        if self.is_owned {
            self.bytes.extend(&put);
        } else {
            for (guest, byte) in self.places[self.done..].iter().zip(&put) {
                self.model[self.memory.place(*guest)] = *byte;
            }
            self.done += put.len();
        }
        let now = (data.left() as usize, data.done() as usize);
        assert_eq!(now, (left - put.len(), done as usize + put.len()));
    }

    /// The rest of the data is that of an owned request: a READ's is put into a buffer.
    fn own(&mut self, operation: &Operation<'_>) {
        self.is_owned = true;
        let left = match operation {
            Operation::Read { data, .. } => data.left(),
            Operation::Write { data, .. } => data.left(),
            other => panic!("{other:?}"),
        };
        self.wanted.drain(..self.bytes.len());
        self.bytes.clear();
        let is_read = matches!(operation, Operation::Read { .. });
        assert_eq!(left as usize, if is_read { self.places.len() } else { self.wanted.len() });
    }

    fn by_windows(&mut self, random: &mut Random, data: &mut ReadData<'_>) -> Vec<u8> {
        let (mut windows, count) = ([Window::default(); 40], random.below(41));
        let left = data.left() as usize;
        let found = data.windows(&mut windows[..count]);
        if self.is_owned {
            assert!(found.is_empty());
            data.advance(1 + random.below(9) as u64); // none of them was put in
            return vec![];
        }
        let found = self.check_windows(left, found, count);
        self.lent = self.lent.max(self.done + found.len());
        let len = random.below(found.len() + 1);
        let put = random.bytes(len);
        found.iter().zip(&put).for_each(|(place, byte)| self.memory.write(*place, &[*byte]));
        // More than is left isn't counted.
        data.advance((len + if len == left { random.below(3) } else { 0 }) as u64);
        put
    }

    /// One call for the data of a WRITE.
    fn write_step(&mut self, random: &mut Random, data: &mut WriteData<'_>) {
        let (left, done) = (data.left() as usize, data.done() as usize);
        assert!(format!("{data:?}").contains(&format!("left: {left}, done: {done}")));
        assert_eq!(left + self.bytes.len(), self.wanted.len());
        let mut taken = vec![7; some_len(random, left + 20)];
        match random.below(4) {
            0 | 1 => {
                let len = data.take(&mut taken);
                assert_eq!(len, taken.len().min(left));
                assert!(taken[len..].iter().all(|&byte| byte == 7), "no byte behind");
                taken.truncate(len);
            }
            2 => {
                let (file, from) = (Temporary::new(), random.below(5000));
                assert_eq!(data.write_to(&file.1, from as u64).unwrap(), left as u64);
                taken = std::fs::read(&file.0).unwrap();
                assert!(left == 0 || taken.drain(..from).all(|byte| byte == 0));
            }
            _ => {
                let (mut windows, count) = ([Window::default(); 40], random.below(41));
                let found = data.windows(&mut windows[..count]);
                if self.is_owned {
                    assert!(found.is_empty());
                    taken = self.wanted[self.bytes.len()..][..taken.len().min(left)].to_vec();
                } else {
                    self.done = self.bytes.len();
                    let found = self.check_windows(left, found, count);
                    let found = &found[..random.below(found.len() + 1)];
                    taken = found.iter().map(|&at| self.memory.read(at, 1)[0]).collect();
                }
                let more = if taken.len() == left { random.below(3) } else { 0 };
                data.advance((taken.len() + more) as u64);
            }
        }
        self.bytes.extend(&taken);
        assert!(self.wanted.starts_with(&self.bytes), "the bytes in their order");
        let now = (data.left() as usize, data.done() as usize);
        assert_eq!(now, (left - taken.len(), done + taken.len()));
    }
}

/// A file that is removed at the end.
struct Temporary(PathBuf, File);

impl Temporary {
    fn new() -> Temporary {
        static COUNT: AtomicU64 = AtomicU64::new(0);
        let count = COUNT.fetch_add(1, Ordering::Relaxed);
        let name = format!("pitskhomu-{}-moved-{count}", std::process::id());
        let path = std::env::temp_dir().join(name);
        let mut options = OpenOptions::new();
        let file = options.read(true).write(true).create(true).truncate(true).open(&path).unwrap();
        Temporary(path, file)
    }
}

impl Drop for Temporary {
    fn drop(&mut self) {
        let _ = std::fs::remove_file(&self.0);
    }
}

/// How a chain is answered.
#[derive(Clone, Copy, Debug, PartialEq, Eq)]
enum End {
    /// By the data.
    Data,
    /// By more bytes, or by a number of them.
    Value,
    Error,
    /// By an error, after the data was made an answer.
    Late,
    Dropped,
}

const ENDS: [End; 8] =
    [End::Data, End::Data, End::Data, End::Data, End::Error, End::Value, End::Late, End::Dropped];

fn header(len: usize, error: i32) -> Vec<u8> {
    args().d(len as u32).d(-error as u32).q(UNIQUE).0
}

/// Moves data by the methods of a file system, at most so many calls.
struct Methods<'a, 'm> {
    random: RefCell<&'a mut Random>,
    moving: RefCell<&'a mut Moving<'m>>,
    steps: usize,
    fails: bool,
}

impl Methods<'_, '_> {
    fn act(&self, mut step: impl FnMut(&mut Moving<'_>, &mut Random)) -> Answer<()> {
        let (mut random, mut moving) = (self.random.borrow_mut(), self.moving.borrow_mut());
        (0..self.steps).for_each(|_| step(&mut moving, &mut random));
        if self.fails {
            return Err(Errno::EIO);
        }
        Ok(())
    }
}

impl FileSystem for Methods<'_, '_> {
    fn lookup(&self, _: &Context, _: Node, _: &CStr) -> Answer<Entry> {
        Err(Errno::EIO)
    }
    fn getattr(&self, _: &Context, _: Node, _: Option<Handle>) -> Answer<(Attributes, Duration)> {
        Err(Errno::EIO)
    }
    fn read(&self, _: &Context, _: Node, _: ReadFile, data: &mut ReadData<'_>) -> Answer<()> {
        self.act(|moving, random| moving.read_step(random, data))
    }
    fn write(&self, _: &Context, _: Node, _: WriteFile, data: &mut WriteData<'_>) -> Answer<()> {
        self.act(|moving, random| moving.write_step(random, data))
    }
}

/// One call for the data of a READ or WRITE.
fn step(random: &mut Random, moving: &mut Moving<'_>, operation: &mut Operation<'_>) {
    match operation {
        Operation::Read { data, .. } => moving.read_step(random, data),
        Operation::Write { data, .. } => moving.write_step(random, data),
        other => panic!("{other:?}"),
    }
}

/// The answer by the data of an operation.
fn by_data(operation: Operation<'_>) -> Response {
    match operation {
        Operation::Read { data, .. } => data.into(),
        Operation::Write { data, .. } => data.into(),
        other => panic!("{other:?}"),
    }
}

/// Serves a chain by its request as a value: some calls, and an answer.
fn by_value(
    random: &mut Random,
    (worker, queue, device): (&mut Worker, &mut Queue, &Device),
    moving: &mut Moving<'_>,
    (end, value): (End, Response),
) -> Served {
    let (memory, steps) = (moving.memory, random.below(6));
    let mut request = worker.take(queue, device, memory).unwrap().expect("a chain");
    (0..steps).for_each(|_| step(random, moving, &mut request.operation));
    let answer = |reply: Reply, operation| match end {
        End::Data => reply.send(by_data(operation)).unwrap(),
        End::Value => reply.send(value).unwrap(),
        End::Error => reply.error(Errno::EIO).unwrap(),
        End::Late => {
            let _ = by_data(operation);
            reply.error(Errno::EIO).unwrap();
        }
        End::Dropped => drop(reply),
    };
    if random.below(2) == 0 {
        answer(request.reply, request.operation);
    } else {
        let owned = request.into_owned().unwrap();
        let mut operation = owned.call.operation();
        moving.own(&operation);
        (0..random.below(6)).for_each(|_| step(random, moving, &mut operation));
        answer(owned.reply, operation);
    }
    assert_eq!(worker.finish(device, memory), Ok(true));
    worker.push(queue, memory).unwrap()
}

/// Serves a chain by methods or by values.
fn serve(
    random: &mut Random,
    machine: &mut Machine,
    moving: &mut Moving<'_>,
    (end, value): (End, Response),
) -> Served {
    let Machine { device, worker, queue, .. } = machine;
    if matches!(end, End::Value | End::Late | End::Dropped) || random.below(3) > 0 {
        return by_value(random, (worker, queue, device), moving, (end, value));
    }
    let (memory, steps) = (moving.memory, random.below(6));
    let (random, moving) = (RefCell::new(random), RefCell::new(moving));
    let methods = Methods { random, moving, steps, fails: end == End::Error };
    worker.serve(queue, device, &methods, memory).unwrap().expect("a chain")
}

fn read_once(random: &mut Random, machine: &mut Machine, file: &File) {
    let room = some_len(random, MOST);
    let size = if random.below(2) == 0 { room } else { some_len(random, MOST) };
    let bytes = request(15, 5, &args().q(3).q(9).d(size as u32).bytes(&[0; 20]).0);
    let places = machine.offer(random, &bytes, HEADER + room);
    let memory = std::mem::replace(&mut machine.memory, Memory::none());
    let data = &places.reply[HEADER..HEADER + size.min(room)];
    let mut moving = Moving::new(&memory, file, data, vec![]);
    let end = ENDS[random.below(ENDS.len())];
    let value_len = if end == End::Value { random.below(data.len() + 20) } else { 0 };
    let value = random.bytes(value_len);
    let served = serve(random, machine, &mut moving, (end, value.clone().into()));
    // What was lent and not written isn't marked, once the data was made an answer.
    let is_settled = matches!(end, End::Data | End::Late) && !moving.is_owned;
    let lent = if is_settled { 0 } else { moving.lent };
    let marked_to = HEADER + moving.done.max(lent);
    let came = if matches!(end, End::Error | End::Late | End::Dropped) {
        Came { len: HEADER, front: header(HEADER, 5), marked_to }
    } else {
        let more = if end == End::Value { &value } else { &moving.bytes };
        let behind = data[moving.done..].iter().zip(more);
        behind.clone().for_each(|(at, byte)| moving.model[memory.place(*at)] = *byte);
        let len = HEADER + moving.done + behind.count();
        Came { len, front: header(len, 0), marked_to }
    };
    let model = moving.model;
    machine.memory = memory;
    machine.check(model, &places, &served, &came);
}

fn write_once(random: &mut Random, machine: &mut Machine, file: &File) {
    let len = some_len(random, MOST);
    let wanted = random.bytes(len);
    // The data may be longer or shorter than the record's size.
    let size = if random.below(2) == 0 { len } else { some_len(random, MOST) };
    let arguments = args().q(3).q(9).d(size as u32).bytes(&[0; 20]).bytes(&wanted).0;
    let places = machine.offer(random, &request(16, 5, &arguments), 24);
    let memory = std::mem::replace(&mut machine.memory, Memory::none());
    let mut moving = Moving::new(&memory, file, &places.request[FRONT..], wanted);
    let end = ENDS[random.below(ENDS.len())];
    let value = random.next() >> random.below(60);
    let served = serve(random, machine, &mut moving, (end, Response::Written(value)));
    let count =
        if end == End::Value { value.min(u32::MAX.into()) } else { moving.bytes.len() as u64 };
    let (len, front) = match end {
        End::Error | End::Late | End::Dropped => (HEADER, header(HEADER, 5)),
        _ => (HEADER + 8, [header(HEADER + 8, 0), args().q(count).0].concat()),
    };
    let model = moving.model;
    machine.memory = memory;
    machine.check(model, &places, &served, &Came { len, front, marked_to: 0 });
}

/// So many sequences, unless `PITSKHOMU_SEQUENCES` says another number.
const SEQUENCES: u64 = 20;

#[test]
fn data_moves_as_the_model_has_it() {
    let of = |name| std::env::var(name).ok().and_then(|text| text.parse::<u64>().ok());
    let (first, count) = (of("PITSKHOMU_FIRST"), of("PITSKHOMU_SEQUENCES"));
    for seed in first.unwrap_or(0)..first.unwrap_or(0) + count.unwrap_or(SEQUENCES) {
        let mut random = Random::new(seed);
        let (file, mut machine) = (Temporary::new(), Machine::new(&mut random));
        file.1.write_all_at(&random.bytes(90_000), 0).unwrap();
        for k in 0..20 {
            println!("sequence {seed}, chain {k}");
            match random.below(2) {
                0 => read_once(&mut random, &mut machine, &file.1),
                _ => write_once(&mut random, &mut machine, &file.1),
            }
        }
    }
}
