//! The requests of a play, each with a number of its own, and what must come of an answer to one.
use super::machine::Machine;
use super::Random;
use crate::guest::{args, number, request, Bytes, Guest};
use pitskhomu::*;
use std::sync::Mutex;
use std::time::Duration;

#[derive(Clone, Copy, Debug, PartialEq, Eq)]
pub enum Kind {
    Lookup,
    Forget,
    GetAttributes,
    Open,
    Read,
    Write,
    Statistics,
    GetXattr,
    Flush,
    OpenDirectory,
    ReadDirectory,
    Create,
    ReadDirectoryPlus,
    Seek,
    Unknown,
}

use Kind::*;

pub const KINDS: [Kind; 15] = [
    Lookup,
    Forget,
    GetAttributes,
    Open,
    Read,
    Write,
    Statistics,
    GetXattr,
    Flush,
    OpenDirectory,
    ReadDirectory,
    Create,
    ReadDirectoryPlus,
    Seek,
    Unknown,
];

/// A READ's size, a GETXATTR's, and the room of both kinds of lists: three entries.
const SIZE: usize = 64;
const LIST: usize = 3 * 32;
const LIST_PLUS: usize = 3 * 160;
const WRITTEN: u32 = 100;
/// More than any room has.
const HUGE: usize = 3 << 20;

impl Kind {
    pub fn opcode(self) -> u32 {
        [1, 2, 3, 14, 15, 16, 17, 22, 25, 27, 28, 35, 44, 46, 99][self as usize]
    }

    pub fn has_answer(self) -> bool {
        !matches!(self, Forget | Unknown)
    }

    /// Whether a reply buffer of a header alone has no room for the answer.
    pub fn may_be_small(self) -> bool {
        matches!(self, Lookup | GetAttributes | Open | Write | Statistics | OpenDirectory | Create)
            || self == Seek
    }

    fn args(self) -> Bytes {
        let name = b"hello\0";
        let list = |size: usize| args().q(3).q(0).d(size as u32).bytes(&[0; 20]);
        match self {
            Lookup => args().bytes(name),
            Forget => args().q(1),
            GetAttributes => args().d(0).d(0).q(0),
            Open | OpenDirectory => args().d(0x8002).d(0),
            Read => list(SIZE),
            Write => list(WRITTEN as usize).bytes(&[7; WRITTEN as usize]),
            GetXattr => args().d(SIZE as u32).d(0).bytes(name),
            Flush => args().q(3).q(0).q(0),
            ReadDirectory => list(LIST),
            ReadDirectoryPlus => list(LIST_PLUS),
            Create => args().d(0x8002).d(0o100_600).d(0).d(0).bytes(name),
            Seek => args().q(3).q(0).d(3).d(0),
            Statistics | Unknown => args(),
        }
    }

    /// Whether it may have this answer.
    pub fn takes(self, answer: &Answer<Response>) -> bool {
        let response = match answer {
            Ok(response) => response,
            Err(_) => return true,
        };
        match response {
            Response::Done => self == Flush,
            Response::Entry(_) => self == Lookup,
            Response::Created(..) => self == Create,
            Response::Attributes(..) => self == GetAttributes,
            Response::Opened(_) => matches!(self, Open | OpenDirectory),
            Response::Data(_) => matches!(self, Read | GetXattr),
            Response::Written(_) => self == Write,
            Response::Statistics(_) => self == Statistics,
            Response::Offset(_) => self == Seek,
            Response::Entries(_) => matches!(self, ReadDirectory | ReadDirectoryPlus),
            _ => false,
        }
    }
}

/// A request that was offered, in its chain.
#[derive(Clone, Debug)]
pub struct Job {
    /// Its number: the node that it asks about, and the mark of each answer to it.
    pub tag: u64,
    pub kind: Kind,
    pub is_small: bool,
    pub machine: usize,
    pub queue: usize,
    /// The session of its queue.
    pub epoch: u64,
    /// The number of its chain, and its position in the available ring.
    pub k: usize,
    pub at: u16,
}

/// What is to be undone: 0 and a node, or 1 or 2, a node and the handle of a file or a directory.
pub type Undone = Vec<(u8, u64, u64)>;

pub fn undone(undo: &[Undo]) -> Undone {
    let of = |undo: &Undo| match undo {
        Undo::Forget(node) => (0, node.0, 0),
        Undo::Release(node, release) => (1, node.0, release.handle.0),
        Undo::Releasedir(node, handle, _) => (2, node.0, handle.0),
        other => panic!("{other:?}"),
    };
    undo.iter().map(of).collect()
}

/// A reply: none, an error, or bytes at places of its data, whose length may be known.
#[derive(Debug)]
pub enum Wanted {
    Nothing,
    Error(u32),
    Data(Option<usize>, Vec<(usize, Vec<u8>)>),
}

#[derive(Debug)]
pub struct Answered {
    pub wanted: Wanted,
    /// What the guest doesn't get of it, whatever comes.
    pub undo_now: Undone,
    /// What it doesn't get if the chain ends before it is pushed.
    pub undo_if_lost: Undone,
}

impl Answered {
    /// FORGET has no reply. An opcode that linux/fuse.h doesn't have gets ENOSYS.
    pub fn by_library(kind: Kind) -> Answered {
        let wanted = if kind == Unknown { Wanted::Error(38) } else { Wanted::Nothing };
        Answered { wanted, undo_now: vec![], undo_if_lost: vec![] }
    }
}

/// The nodes of a list's entries.
fn listed(tag: u64, range: std::ops::Range<usize>) -> Undone {
    range.map(|k| (0, 1000 * tag + k as u64, 0)).collect()
}

impl Job {
    pub fn bytes(&self, unique: u64) -> Vec<u8> {
        let mut bytes = request(self.kind.opcode(), self.tag, &self.kind.args().0);
        bytes[8..16].copy_from_slice(&unique.to_le_bytes());
        bytes
    }

    pub fn is_live(&self, machines: &[Machine]) -> bool {
        machines[self.machine].epochs[self.queue] == self.epoch
    }

    /// It is the request that was decoded.
    pub fn check(&self, operation: &Operation<'_>) {
        let node = match operation {
            Operation::Lookup { parent: node, .. }
            | Operation::Forget { node, .. }
            | Operation::Getattr { node, .. }
            | Operation::Open { node, .. }
            | Operation::Read { node, .. }
            | Operation::Write { node, .. }
            | Operation::Statfs { node }
            | Operation::Getxattr { node, .. }
            | Operation::Flush { node, .. }
            | Operation::Opendir { node, .. }
            | Operation::Readdir { node, .. }
            | Operation::Lseek { node, .. } => *node,
            Operation::Create { child, .. } => child.parent,
            Operation::None => return assert_eq!(self.kind, Unknown),
            other => panic!("{other:?}"),
        };
        assert_eq!(node, Node(self.tag), "{self:?}");
    }

    /// What is to be undone of an answer that the guest doesn't get.
    pub fn undo(&self, answer: &Answer<Response>) -> Undone {
        match answer {
            Ok(Response::Entry(entry)) => vec![(0, entry.node.0, 0)],
            Ok(Response::Created(entry, opened)) if self.kind == OpenDirectory => {
                vec![(2, self.tag, opened.handle.0), (0, entry.node.0, 0)]
            }
            Ok(Response::Created(entry, opened)) => {
                vec![(1, entry.node.0, opened.handle.0), (0, entry.node.0, 0)]
            }
            Ok(Response::Opened(opened)) => {
                vec![(1 + u8::from(self.kind == OpenDirectory), self.tag, opened.handle.0)]
            }
            Ok(Response::Entries(entries)) => listed(self.tag, 0..entries.len()),
            _ => vec![],
        }
    }

    /// What must come of an answer that was taken.
    pub fn answered(&self, answer: &Answer<Response>) -> Answered {
        let mark = |at| Wanted::Data(None, vec![(at, self.tag.to_le_bytes().to_vec())]);
        let (mut undo_now, mut undo_if_lost) = (vec![], self.undo(answer));
        let wanted = match answer {
            Err(error) => Wanted::Error(error.number()),
            Ok(_) if self.is_small => {
                std::mem::swap(&mut undo_now, &mut undo_if_lost);
                Wanted::Nothing
            }
            Ok(Response::Data(bytes)) if self.kind == GetXattr && bytes.len() > SIZE => {
                Wanted::Error(34) // ERANGE
            }
            Ok(Response::Data(bytes)) => {
                let bytes = &bytes[..bytes.len().min(SIZE)];
                Wanted::Data(Some(bytes.len()), vec![(0, bytes.to_vec())])
            }
            Ok(Response::Entries(entries)) => {
                let told = entries.len().min(3);
                let is_plus = self.kind == ReadDirectoryPlus;
                undo_if_lost = listed(self.tag, 0..if is_plus { told } else { 0 });
                undo_now = listed(self.tag, undo_if_lost.len()..entries.len());
                let numbers = |k| (if is_plus { 160 } else { 32 } * k, 1000 * self.tag + k as u64);
                let marks = (0..told).map(numbers).map(|(at, n)| (at, n.to_le_bytes().to_vec()));
                Wanted::Data(Some(numbers(told).0), marks.collect())
            }
            Ok(Response::Written(count)) => {
                let count = u32::try_from(*count).unwrap_or(u32::MAX);
                Wanted::Data(Some(8), vec![(0, count.to_le_bytes().to_vec())])
            }
            Ok(Response::Attributes(..)) => mark(16),
            Ok(Response::Created(..)) => {
                let tag = self.tag.to_le_bytes().to_vec();
                Wanted::Data(Some(144), vec![(0, tag.clone()), (128, tag)])
            }
            Ok(Response::Done) => Wanted::Data(Some(0), vec![]),
            Ok(_) => mark(0),
        };
        Answered { wanted, undo_now, undo_if_lost }
    }

    /// The reply in the guest's memory is the wanted one.
    pub fn check_reply(&self, reply: &[u8], unique: u64, wanted: &Wanted) {
        if let Wanted::Nothing = wanted {
            return assert!(reply.is_empty(), "{self:?}");
        }
        assert_eq!(number(reply, 0, 4) as usize, reply.len(), "{self:?} {wanted:?}");
        assert_eq!(number(reply, 8, 8), unique, "{self:?}");
        let error = 0u32.wrapping_sub(number(reply, 4, 4) as u32);
        let (len, marks) = match wanted {
            Wanted::Data(len, marks) => (len, marks),
            _ => {
                let is_wanted = matches!(wanted, Wanted::Error(wanted) if *wanted == error);
                return assert!(is_wanted, "{self:?} {wanted:?} {error}");
            }
        };
        assert_eq!(error, 0, "{self:?} {wanted:?}");
        let data = &reply[16..];
        assert_eq!(len.unwrap_or(data.len()), data.len(), "{self:?}");
        for (at, mark) in marks {
            assert!(data[*at..].starts_with(mark), "{self:?} {wanted:?}");
        }
    }
}

/// A request that lists more than any other.
fn long_list() -> OwnedCall {
    static CALL: Mutex<Option<OwnedCall>> = Mutex::new(None);
    let make = || {
        let mut guest = Guest::new();
        let read = args().q(3).q(0).d(0x1_0000).bytes(&[0; 20]);
        guest.offer_request(&request(44, 5, &read.0), 0x1_0010);
        let Guest { worker, queue, device, memory, .. } = &mut guest;
        let taken = worker.take(queue, device, memory).unwrap().unwrap();
        taken.into_owned().unwrap().call
    };
    CALL.lock().unwrap().get_or_insert_with(make).clone()
}

/// Entries with nodes.
fn entries(tag: u64, count: usize) -> Response {
    let call = long_list();
    let mut list = match call.operation() {
        Operation::Readdir { list, .. } => list,
        other => panic!("{other:?}"),
    };
    for k in 0..count {
        let number = 1000 * tag + k as u64;
        let name = CStr::from_bytes_with_nul(b"n\0").unwrap();
        let listed = DirectoryEntry::new(name, number, k as u64 + 1, FileKind::REGULAR);
        let attributes = Attributes::default().with_inode(number).with_mode(0o100_644);
        assert_eq!(list.add_plus(listed, &Entry::new(Node(number), attributes)), Ok(true));
    }
    list.into()
}

fn response(random: &mut Random, kind: Kind, tag: u64) -> Response {
    let attributes = Attributes::default().with_inode(tag).with_mode(0o100_644);
    let (entry, opened) = (Entry::new(Node(tag), attributes), Opened::new(Handle(tag)));
    let mut bytes = || {
        let len = match random.below(60) {
            0 => HUGE,
            k => [0, 8, SIZE, SIZE + 1][k % 4],
        };
        let mut bytes = tag.to_le_bytes().repeat((len + 7) / 8);
        bytes.truncate(len);
        bytes
    };
    match kind {
        GetAttributes => (attributes, Duration::from_secs(1)).into(),
        Open | OpenDirectory => opened.into(),
        Read | GetXattr => bytes().into(),
        Write => Response::Written([tag % 101, tag % 101, 5000, u64::MAX][random.below(4)]),
        self::Kind::Statistics => pitskhomu::Statistics::default().with_blocks(tag).into(),
        Flush => ().into(),
        ReadDirectory | ReadDirectoryPlus => entries(tag, [0, 1, 3, 4, 300][random.below(5)]),
        Create => (entry, opened).into(),
        Seek => Response::Offset(tag),
        Lookup | Forget | Unknown => entry.into(),
    }
}

/// An answer to a request: one of its kind, an error, or one of another kind.
pub fn random(random: &mut Random, job: &Job) -> Answer<Response> {
    match random.below(8) {
        0 => Err(Errno::new(1 + (job.tag % 100) as u32).unwrap()),
        1 => {
            let kind = KINDS[random.below(KINDS.len())];
            Ok(response(random, kind, job.tag))
        }
        _ => Ok(response(random, job.kind, job.tag)),
    }
}

/// A file system that must not be asked.
pub struct Nothing;

impl FileSystem for Nothing {
    fn lookup(&self, _: &Context, _: Node, _: &CStr) -> Answer<Entry> {
        panic!("it is asked");
    }

    fn getattr(&self, _: &Context, _: Node, _: Option<Handle>) -> Answer<(Attributes, Duration)> {
        panic!("it is asked");
    }
}
