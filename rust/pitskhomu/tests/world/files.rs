//! A file system that answers as the test says, and what its answers are.
use super::{Job, Kind};
use pitskhomu::*;
use std::cell::{Cell, RefCell};
use std::time::Duration;

/// How a call ends.
#[derive(Clone, Copy, Debug, PartialEq, Eq)]
pub enum End {
    Well,
    Error,
    Panic,
}

pub struct Files {
    pub end: Cell<End>,
    /// A READ's length, and whether its data is put by windows.
    pub len: Cell<u64>,
    pub by_windows: Cell<bool>,
    pub calls: RefCell<Vec<(&'static str, u64)>>,
    pub undone: RefCell<Vec<String>>,
}

pub const ERROR: Errno = Errno::ENOSPC;

/// The byte of a READ's data at an offset.
pub fn byte(unique: u64, offset: u64) -> u8 {
    (unique >> 8).wrapping_mul(3).wrapping_add(offset * 7 + offset / 13) as u8
}

impl Files {
    pub fn new() -> Files {
        Files {
            end: Cell::new(End::Well),
            len: Cell::new(0),
            by_windows: Cell::new(false),
            calls: RefCell::default(),
            undone: RefCell::default(),
        }
    }

    fn ends<T>(&self, name: &'static str, context: &Context, value: T) -> Answer<T> {
        self.calls.borrow_mut().push((name, context.unique));
        match self.end.get() {
            End::Well => Ok(value),
            End::Error => Err(ERROR),
            End::Panic => std::panic::panic_any("wanted"),
        }
    }
}

impl FileSystem for Files {
    fn lookup(&self, context: &Context, _: Node, name: &CStr) -> Answer<Entry> {
        assert_eq!(name.to_bytes(), b"name");
        self.ends("lookup", context, Entry::new(Node(context.unique), Attributes::default()))
    }
    fn getattr(&self, _: &Context, _: Node, _: Option<Handle>) -> Answer<(Attributes, Duration)> {
        Err(Errno::EIO)
    }
    fn open(&self, context: &Context, _: Node, _: Open) -> Answer<Opened> {
        self.ends("open", context, Opened::new(Handle(context.unique)))
    }
    fn read(&self, x: &Context, _: Node, read: ReadFile, data: &mut ReadData<'_>) -> Answer<()> {
        assert_eq!((read.size, data.left()), (200, 200));
        let bytes: Vec<u8> = (0..self.len.get()).map(|at| byte(x.unique, at)).collect();
        let half = bytes.len() / 2;
        assert_eq!(data.put(&bytes[..half]), half);
        if self.by_windows.get() {
            data.windows(&mut [Window::default(); 8]); // all that is left
        }
        self.ends("read", x, ())?;
        assert_eq!(data.put(&bytes[half..]), bytes.len() - half);
        Ok(())
    }
    fn forget(&self, node: Node, count: u64) {
        self.undone.borrow_mut().push(format!("forget {} {count}", node.0));
    }
    fn release(&self, context: &Context, node: Node, release: Release) -> Answer<()> {
        assert_eq!(context.unique, release.handle.0);
        self.undone.borrow_mut().push(format!("release {} {}", node.0, release.handle.0));
        Ok(())
    }
}

/// What becomes of a chain.
#[derive(Clone, Debug, Default)]
pub struct Outcome {
    /// The reply's first bytes, and its length.
    pub front: Vec<u8>,
    pub len: u64,
    /// So many bytes of the reply buffer may have been written.
    pub written: u64,
    /// What is undone at once, and if the chain isn't pushed.
    pub undone: Vec<String>,
    pub undone_if_lost: Vec<String>,
    pub had_no_room: bool,
}

impl Outcome {
    fn header(len: u64, error: i32, unique: u64) -> Vec<u8> {
        [&(len as u32).to_le_bytes()[..], &error.to_le_bytes(), &unique.to_le_bytes()].concat()
    }

    /// A reply that is an error.
    pub fn error(job: &Job, error: i32) -> Outcome {
        if matches!(job.kind, Kind::Forget | Kind::Faulty) {
            return Outcome::default();
        }
        let front = Outcome::header(16, -error, job.unique);
        Outcome { front, len: 16, written: 16, ..Outcome::default() }
    }

    /// The answer of `Files`, which returns.
    pub fn of(job: &Job, files: &Files) -> Outcome {
        let (put, end) = (files.len.get(), files.end.get());
        match (job.kind, end) {
            (Kind::Forget, _) => {
                let undone = vec![format!("forget 5 0")];
                return Outcome { undone, ..Outcome::default() };
            }
            (Kind::Unknown, _) => return Outcome::error(job, 38),
            (Kind::Faulty, _) => return Outcome::default(),
            (Kind::Read, End::Error) => {
                let written = if files.by_windows.get() { 216 } else { 16 + put / 2 };
                return Outcome { written, ..Outcome::error(job, 28) };
            }
            (_, End::Error) => return Outcome::error(job, 28),
            _ => {}
        }
        let undo = match job.kind {
            Kind::Lookup => vec![format!("forget {} 1", job.unique)],
            Kind::Open => vec![format!("release 5 {}", job.unique)],
            _ => vec![],
        };
        let len = if job.kind == Kind::Read { 16 + put } else { job.kind.reply_len() };
        if len > job.room_len() {
            return Outcome { undone: undo, had_no_room: true, ..Outcome::default() };
        }
        let mut front = Outcome::header(len, 0, job.unique);
        match job.kind {
            Kind::Read => front.extend((0..put).map(|at| byte(job.unique, at))),
            _ => front.extend(job.unique.to_le_bytes()), // the node, or the handle
        }
        Outcome { front, len, written: len, undone_if_lost: undo, ..Outcome::default() }
    }
}
