//! Random entries of READDIR and READDIRPLUS, in place and of owned requests, beside a model that
//! lays them out as struct fuse_dirent and struct fuse_direntplus. The results of each call, the
//! reply and the nodes that are undone are the model's.
mod guest;

use guest::random::Random;
use guest::{args, request, Bytes, Guest, Replied, ROOM};
use pitskhomu::*;
use std::cell::RefCell;
use std::ffi::CString;
use std::time::Duration;

const READDIR: u32 = 28;
const READDIRPLUS: u32 = 44;
/// DT_UNKNOWN, FIFO, CHR, DIR, BLK, REG, LNK and SOCK of dirent.h.
const KINDS: [u32; 8] = [0, 1, 2, 4, 6, 8, 10, 12];

/// An entry of the model, and what it takes.
#[derive(Clone)]
struct Item {
    name: CString,
    inode: u64,
    next_offset: u64,
    kind: u32,
    found: Option<Entry>,
}

impl Item {
    fn random(random: &mut Random) -> Item {
        let len = match random.below(4) {
            0 => random.below(258),
            1 => [1, 7, 8, 9, 15, 16, 17, 254, 255][random.below(9)],
            _ => 1 + random.below(20),
        };
        let mut name: Vec<u8> = random.bytes(len).into_iter().map(|byte| byte.max(1)).collect();
        name.iter_mut().filter(|byte| **byte == b'/').for_each(|byte| *byte = b'x');
        match random.below(20) {
            0 => name = b".".to_vec(),
            1 => name = b"..".to_vec(),
            2 if len > 0 => name[random.below(len)] = b'/',
            _ => {}
        }
        let odd = [3, 5, 7, 9, 11, 13, 14, 15, 16, 0x104, u32::MAX];
        let kind = match random.below(12) {
            0 => odd[random.below(odd.len())],
            _ => KINDS[random.below(KINDS.len())],
        };
        let found = Some(entry(random)).filter(|_| random.below(3) > 0);
        let name = CString::new(name).unwrap();
        Item { name, inode: random.next(), next_offset: random.next(), kind, found }
    }

    fn entry(&self) -> DirectoryEntry<'_> {
        DirectoryEntry::new(&self.name, self.inode, self.next_offset, FileKind(self.kind))
    }

    fn is_dots(&self) -> bool {
        matches!(self.name.as_bytes(), b"." | b"..")
    }

    fn len(&self, plus: bool) -> usize {
        (if plus { 152 } else { 24 } + self.name.as_bytes().len() + 7) / 8 * 8
    }

    /// The node that the guest holds once more.
    fn node(&self) -> Option<Node> {
        self.found.as_ref().map(|found| found.node).filter(|node| node.0 != 0)
    }

    /// struct fuse_dirent, or struct fuse_direntplus. One without a node has its number and kind.
    fn bytes(&self, plus: bool) -> Vec<u8> {
        let unknown = Attributes::default().with_inode(self.inode).with_mode(self.kind << 12);
        let unknown = Entry::new(Node(0), unknown);
        let found = self.found.as_ref().unwrap_or(&unknown);
        let (mut bytes, mut inode, mut kind) = (args(), self.inode, self.kind);
        if plus {
            (inode, kind) = (found.attributes.inode, found.attributes.mode >> 12 & 15);
            bytes = entry_bytes(found);
        }
        let name = self.name.as_bytes();
        let bytes = bytes.q(inode).q(self.next_offset).d(name.len() as u32).d(kind).bytes(name);
        [bytes.0, vec![0; 7]].concat()[..self.len(plus)].to_vec()
    }
}

/// An entry whose fields are all of their own.
fn entry(random: &mut Random) -> Entry {
    let mut time = || Time::new(random.next() as i64, random.next() as u32 % 1_000_000_000);
    let (atime, mtime, ctime) = (time().unwrap(), time().unwrap(), time().unwrap());
    let (kind, odd) = (KINDS[random.below(KINDS.len())], random.below(30) == 0);
    let mode = random.next() as u32 & !0xf000 | if odd { 3 } else { kind } << 12;
    let attributes = Attributes::default()
        .with_inode(random.next())
        .with_size(random.next())
        .with_blocks(random.next())
        .with_atime(atime)
        .with_mtime(mtime)
        .with_ctime(ctime)
        .with_mode(mode)
        .with_links(random.next() as u32)
        .with_uid(random.next() as u32)
        .with_gid(random.next() as u32)
        .with_rdev(random.next() as u32)
        .with_block_size(random.next() as u32)
        .with_flags(random.next() as u32 & 3);
    let node = [0, 1, 2, random.next()][random.below(4)];
    let timeout =
        |random: &mut Random| Duration::new(random.next(), random.next() as u32 % 1_000_000_000);
    Entry::new(Node(node), attributes)
        .with_generation(random.next())
        .with_attributes_timeout(timeout(random))
        .with_entry_timeout(timeout(random))
}

/// struct fuse_entry_out.
fn entry_bytes(entry: &Entry) -> Bytes {
    let (name_for, for_) = (entry.entry_timeout, entry.attributes_timeout);
    let bytes = args().q(entry.node.0).q(entry.generation).q(name_for.as_secs()).q(for_.as_secs());
    let bytes = bytes.d(name_for.subsec_nanos()).d(for_.subsec_nanos());
    let a = &entry.attributes;
    let bytes = bytes.q(a.inode).q(a.size).q(a.blocks).q(a.atime.seconds() as u64);
    let bytes = bytes.q(a.mtime.seconds() as u64).q(a.ctime.seconds() as u64);
    let bytes = bytes.d(a.atime.nanos()).d(a.mtime.nanos()).d(a.ctime.nanos());
    let bytes = bytes.d(a.mode).d(a.links).d(a.uid).d(a.gid);
    bytes.d(a.rdev).d(a.block_size).d(a.flags)
}

/// A list, by the model.
#[derive(Clone)]
struct Model {
    plus: bool,
    asked: usize,
    /// The bytes that the entries may have.
    room: usize,
    used: usize,
    ended: bool,
    items: Vec<Item>,
}

impl Model {
    fn left(&self) -> usize {
        if self.ended {
            0
        } else {
            self.room - self.used
        }
    }

    fn admit(&mut self, item: &Item) -> Answer<bool> {
        let (name, len) = (item.name.as_bytes(), item.len(self.plus));
        if name.is_empty() || name.len() > 255 {
            return Err(Errno::ENAMETOOLONG);
        }
        if len > self.left() {
            self.ended = true;
            let was_asked_for = self.used + len <= self.asked;
            let is_first = self.used == 0;
            return match (was_asked_for, is_first) {
                (true, _) => Err(Errno::EIO),
                (false, true) => Err(Errno::EINVAL),
                (false, false) => Ok(false),
            };
        }
        if name.contains(&b'/') || !KINDS.contains(&item.kind) {
            return Err(Errno::EIO);
        }
        Ok(true)
    }

    fn add(&mut self, item: &Item, found: Option<Entry>) -> Answer<bool> {
        let is_in = self.admit(item)?;
        if is_in {
            let found = found.filter(|_| !item.is_dots());
            let kind = found.map_or(0, |found| found.attributes.mode >> 12 & 15);
            if !KINDS.contains(&kind) {
                return Err(Errno::EIO);
            }
            self.used += item.len(self.plus);
            self.items.push(Item { found, ..item.clone() });
        }
        Ok(is_in)
    }

    fn nodes(&self) -> Vec<Node> {
        self.items.iter().filter_map(Item::node).collect()
    }

    fn bytes(&self) -> Vec<u8> {
        self.items.iter().flat_map(|item| item.bytes(self.plus)).collect()
    }
}

/// One call of a list, and the model's.
fn step(random: &mut Random, model: &mut Model, list: &mut Listing<'_>) {
    let item = Item::random(random);
    assert_eq!((list.has_nodes(), list.left()), (model.plus, model.left()));
    assert_eq!(list.fits(item.name.as_bytes()), item.len(model.plus) <= model.left());
    let shown = format!("with_nodes: {}, used: {}, ended: {}", model.plus, model.used, model.ended);
    assert!(format!("{list:?}").contains(&shown));
    let (found, wanted) = match (random.below(3), &item.found) {
        (0, _) => (list.add(item.entry()), model.add(&item, None)),
        (1, Some(entry)) => {
            let refused = Some(Err(Errno::EINVAL)).filter(|_| !model.plus);
            let found = list.add_plus(item.entry(), entry);
            (found, refused.unwrap_or_else(|| model.add(&item, item.found)))
        }
        _ => {
            let (calls, error) = (RefCell::new(0), Errno::EACCES);
            let look_up = || {
                *calls.borrow_mut() += 1;
                item.found.ok_or(error)
            };
            let found = list.add_with(item.entry(), look_up);
            let looks_up = model.plus && !item.is_dots() && model.clone().admit(&item) == Ok(true);
            assert_eq!(calls.into_inner(), usize::from(looks_up), "a look-up if nothing fails");
            let wanted = match item.found {
                None if looks_up => Err(error),
                found => model.add(&item, found.filter(|_| looks_up)),
            };
            (found, wanted)
        }
    };
    assert_eq!((found, list.left()), (wanted, model.left()), "{:?}", item.entry());
}

/// Lists by the methods of a file system.
struct Methods<'a> {
    random: RefCell<&'a mut Random>,
    model: RefCell<&'a mut Model>,
    steps: usize,
    fails: Option<Errno>,
    forgotten: RefCell<Vec<Node>>,
}

impl FileSystem for Methods<'_> {
    fn lookup(&self, _: &Context, _: Node, _: &CStr) -> Answer<Entry> {
        Err(Errno::EIO)
    }
    fn getattr(&self, _: &Context, _: Node, _: Option<Handle>) -> Answer<(Attributes, Duration)> {
        Err(Errno::EIO)
    }
    fn forget(&self, node: Node, count: u64) {
        assert_eq!(count, 1);
        self.forgotten.borrow_mut().push(node);
    }
    fn readdir(
        &self,
        _: &Context,
        node: Node,
        read: ReadDirectory,
        list: &mut Listing<'_>,
    ) -> Answer<()> {
        let mut model = self.model.borrow_mut();
        assert_eq!((node, read.handle, read.offset), (Node(5), Handle(3), 9));
        assert_eq!(read.size, model.asked as u64);
        for _ in 0..self.steps {
            step(*self.random.borrow_mut(), *model, list);
        }
        self.fails.map_or(Ok(()), Err)
    }
}

/// What the guest has to get, and the nodes that are to be undone.
type Wanted = (Result<Vec<u8>, Errno>, Vec<Node>);

/// What the guest has to get of a list. One that fails is the error, but a READDIRPLUS has its
/// entries so far, whose nodes the guest may hold.
fn wanted(model: &Model, error: Option<Errno>) -> Result<Vec<u8>, Errno> {
    match error {
        Some(error) if !model.plus || model.items.is_empty() => Err(error),
        _ => Ok(model.bytes()),
    }
}

/// The entries of an owned request behind those in place, as far as they fit.
fn joined(model: &Model, owned: &Model) -> Wanted {
    let mut all = Model { ended: false, ..model.clone() };
    let mut error = None;
    let mut count = 0;
    for item in &owned.items {
        match all.add(item, item.found) {
            Ok(true) => count += 1,
            Ok(false) => break,
            Err(found) => {
                error = Some(found);
                break;
            }
        }
    }
    let left_out = owned.items[count..].iter().filter_map(Item::node).collect();
    (wanted(&all, error), left_out)
}

fn ask(
    random: &mut Random,
    guest: &mut Guest,
    mut model: Model,
    fails: Option<Errno>,
) -> (Served, Wanted, Vec<Node>) {
    let steps = random.below(12);
    let (worker, queue, device) = (&mut guest.worker, &mut guest.queue, &guest.device);
    let memory = &guest.memory;
    if random.below(3) == 0 {
        let (random, forgotten) = (RefCell::new(random), RefCell::default());
        let methods = Methods { random, model: RefCell::new(&mut model), steps, fails, forgotten };
        let served = worker.serve(queue, device, &methods, memory).unwrap().expect("a chain");
        let forgotten = methods.forgotten.take();
        return (served, (wanted(&model, fails), vec![]), forgotten);
    }
    let mut taken = worker.take(queue, device, memory).unwrap().expect("a chain");
    match &mut taken.operation {
        Operation::Readdir { list, .. } => {
            (0..steps).for_each(|_| step(random, &mut model, list));
        }
        other => panic!("{other:?}"),
    }
    let wanted = if random.below(2) == 0 {
        let list = match taken.operation {
            Operation::Readdir { list, .. } => list,
            other => panic!("{other:?}"),
        };
        match fails {
            None => taken.reply.send(list).unwrap(),
            Some(error) if random.below(2) == 0 => taken.reply.answer(list.fail(error)).unwrap(),
            Some(error) => taken.reply.error(error).unwrap(),
        }
        (wanted(&model, fails), vec![])
    } else {
        let owned = taken.into_owned().unwrap();
        let mut later = Model { used: 0, ended: false, items: vec![], ..model.clone() };
        let mut list = match owned.call.operation() {
            Operation::Readdir { list, .. } => list,
            other => panic!("{other:?}"),
        };
        (0..random.below(12)).for_each(|_| step(random, &mut later, &mut list));
        let answer = match fails {
            None => Ok(Response::from(list)),
            Some(error) => list.fail(error),
        };
        if let Ok(Response::Entries(entries)) = &answer {
            let count = later.items.len();
            assert_eq!((entries.len(), entries.is_empty()), (count, count == 0));
        }
        let is_error = answer.is_err();
        assert_eq!(is_error, fails.is_some() && later.nodes().is_empty());
        owned.reply.answer(answer).unwrap();
        if is_error {
            (wanted(&model, fails), vec![])
        } else {
            joined(&model, &later)
        }
    };
    assert_eq!(worker.finish(device, memory), Ok(true));
    let undone = worker.cancelled().map_or(vec![], |cancelled| cancelled.undo);
    let nodes = undone.iter().map(|undo| match undo {
        Undo::Forget(node) => *node,
        other => panic!("{other:?}"),
    });
    let nodes = nodes.collect();
    (worker.push(queue, memory).unwrap(), wanted, nodes)
}

#[test]
fn lists_are_laid_out_as_the_model_has_it() {
    let of = |name| std::env::var(name).ok().and_then(|text| text.parse::<u64>().ok());
    let first = of("PITSKHOMU_FIRST").unwrap_or(0);
    for seed in first..first + of("PITSKHOMU_SEQUENCES").unwrap_or(20) {
        let (mut random, mut guest) = (Random::new(seed), Guest::new());
        for k in 0..50 {
            println!("sequence {seed}, list {k}");
            let plus = random.below(2) == 0;
            let most = [100, 400, 1000, 9000][random.below(4)];
            let asked = random.below(most);
            // A buffer that is shorter than the size, with its header, is refused before the call.
            let behind = match random.below(3) {
                0 => asked,
                1 => asked.saturating_sub(random.below(17)),
                _ => asked + random.below(200),
            };
            let room = asked.min(behind);
            let model = Model { plus, asked, room, used: 0, ended: false, items: vec![] };
            let opcode = if plus { READDIRPLUS } else { READDIR };
            let read = args().q(3).q(9).d(asked as u32).bytes(&[0; 20]).0;
            guest.memory.write(ROOM + 0x1000, &vec![0xee; most + 200]);
            guest.offer_request(&request(opcode, 5, &read), 16 + behind as u32);
            let fails = Some(Errno::EPERM).filter(|_| random.below(3) == 0);
            let (served, (wanted, left_out), undone) = ask(&mut random, &mut guest, model, fails);
            let replied = guest.reply(served.reply_len as usize);
            let bytes = match wanted {
                Ok(bytes) => {
                    assert!(replied == Replied::Data(bytes.clone()), "another list");
                    bytes
                }
                Err(error) => {
                    assert_eq!(replied, Replied::Error(error.number() as i32));
                    vec![]
                }
            };
            assert_eq!(undone, left_out);
            let rest = guest.memory.read(ROOM + 0x1000, most + 200)[bytes.len()..].to_vec();
            assert!(rest.iter().all(|&byte| byte == 0xee), "a byte behind the list");
        }
    }
}
