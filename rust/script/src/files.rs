//! The file system of the script language: the root, node 1, and its file `a`, node 2.
use pitskhomu::{
    Answer, Attributes, Context, DirectoryEntry, Entry, Errno, FileKind, FileSystem, Handle, Init,
    Listing, Node, Options, ReadData, ReadDirectory, ReadFile, Release, WriteData, WriteFile,
};
use std::cell::RefCell;
use std::ffi::{CStr, CString};
use std::fmt::Write as _;
use std::time::Duration;

const FILE: Node = Node(2);

/// The greatest length of the file in bytes.
const FILE_MAX: usize = 4096;

/// The most calls of a chain that are printed.
const CALLS_MAX: usize = 64;

/// The most bytes of a name that are printed.
const NAME_MAX: usize = 16;

const GOOD_FOR: Duration = Duration::from_secs(1);

/// The calls for one chain: the lines of the first ones, and the number of later ones.
#[derive(Default)]
pub struct Calls {
    pub lines: Vec<String>,
    pub more: u64,
}

pub struct Files {
    contents: RefCell<Vec<u8>>,
    calls: RefCell<Calls>,
}

impl Files {
    pub fn new() -> Files {
        Files { contents: RefCell::new(b"hello".to_vec()), calls: RefCell::default() }
    }

    /// The calls since this was last called.
    pub fn take_calls(&self) -> Calls {
        self.calls.take()
    }

    fn note(&self, call: String) {
        let mut calls = self.calls.borrow_mut();
        if calls.lines.len() < CALLS_MAX {
            calls.lines.push(call);
        } else {
            calls.more += 1;
        }
    }

    fn attributes(&self, node: Node) -> Answer<Attributes> {
        let attributes = match node {
            Node::ROOT => Attributes::directory(0o755),
            FILE => Attributes::file(0o644).with_size(self.contents.borrow().len() as u64),
            _ => return Err(Errno::ENOENT),
        };
        Ok(attributes.with_inode(node.0).with_block_size(4096))
    }

    /// Looks up and forgets an entry that doesn't fit the list. The wrapper doesn't look up such a
    /// name. In the script language READDIRPLUS looks up each name, and forgets it if it doesn't
    /// fit (`.` as node 0, without a look-up). So this file system makes both calls.
    fn give_back(&self, context: &Context, parent: Node, name: &CStr) -> Answer<()> {
        let node = if name.to_bytes() == b"." {
            Node(0)
        } else {
            self.lookup(context, parent, name)?.node
        };
        self.forget(node, 1);
        Ok(())
    }
}

/// The bytes that an entry takes in a listing.
fn entry_len(name: &CStr, plus: bool) -> usize {
    let head = if plus { 152 } else { 24 };
    (head + name.to_bytes().len() + 7) / 8 * 8
}

impl FileSystem for Files {
    fn init(&self, _: Init) -> Answer<Options> {
        self.note("init".into());
        Ok(Options::empty())
    }

    fn lookup(&self, _: &Context, parent: Node, name: &CStr) -> Answer<Entry> {
        let name = name.to_bytes();
        let mut note = format!("lookup {} ", parent.0);
        for byte in name.iter().take(NAME_MAX) {
            let _ = write!(note, "{byte:02x}"); // a String takes all
        }
        self.note(note);
        if parent != Node::ROOT || name != b"a" {
            return Err(Errno::ENOENT);
        }
        let attributes = self.attributes(FILE)?;
        Ok(Entry::new(FILE, attributes)
            .with_generation(0)
            .with_attributes_timeout(GOOD_FOR)
            .with_entry_timeout(GOOD_FOR))
    }

    fn forget(&self, node: Node, count: u64) {
        self.note(format!("forget {} {count}", node.0));
    }

    fn getattr(
        &self,
        _: &Context,
        node: Node,
        _: Option<Handle>,
    ) -> Answer<(Attributes, Duration)> {
        self.note(format!("getattr {}", node.0));
        Ok((self.attributes(node)?, GOOD_FOR))
    }

    fn read(&self, _: &Context, node: Node, read: ReadFile, data: &mut ReadData<'_>) -> Answer<()> {
        self.note(format!("read {}", node.0));
        if node != FILE {
            return Err(Errno::ENOENT);
        }
        let contents = self.contents.borrow();
        let from = read.offset.min(contents.len() as u64) as usize;
        data.put(&contents[from..]);
        Ok(())
    }

    fn write(
        &self,
        _: &Context,
        node: Node,
        write: WriteFile,
        data: &mut WriteData<'_>,
    ) -> Answer<()> {
        self.note(format!("write {}", node.0));
        if node != FILE {
            return Err(Errno::ENOENT);
        }
        let end = write.offset.checked_add(write.size).filter(|&end| end <= FILE_MAX as u64);
        let end = end.ok_or(Errno::EFBIG)? as usize;
        let mut bytes = [0; FILE_MAX];
        let from = write.offset as usize;
        let len = data.take(&mut bytes[from..end]);
        let mut contents = self.contents.borrow_mut();
        if len > 0 {
            let size = contents.len().max(from + len);
            contents.resize(size, 0);
            contents[from..from + len].copy_from_slice(&bytes[from..from + len]);
        }
        Ok(())
    }

    fn readdir(
        &self,
        context: &Context,
        node: Node,
        read: ReadDirectory,
        list: &mut Listing<'_>,
    ) -> Answer<()> {
        self.note(format!("readdir {}", node.0));
        if node != Node::ROOT {
            return Err(Errno::ENOENT);
        }
        let plus = list.has_nodes();
        let entries = [(".", Node::ROOT, FileKind::DIRECTORY), ("a", FILE, FileKind::REGULAR)];
        for (next_offset, (name, inode, kind)) in
            (1..).zip(entries).filter(|&(next, _)| next > read.offset)
        {
            let name = CString::new(name).map_err(|_| Errno::EIO)?;
            if plus && entry_len(&name, plus) > list.left() {
                self.give_back(context, node, &name)?;
            }
            let entry = DirectoryEntry::new(&name, inode.0, next_offset, kind);
            match list.add_with(entry, || self.lookup(context, node, &name)) {
                Ok(true) => {}
                // The wrapper returns EINVAL for a first entry that doesn't fit. In the script
                // language the listing ends there.
                Ok(false) | Err(Errno::EINVAL) => break,
                Err(error) => return Err(error),
            }
        }
        Ok(())
    }

    fn release(&self, _: &Context, _: Node, _: Release) -> Answer<()> {
        Err(Errno::ENOSYS)
    }

    fn releasedir(&self, _: &Context, _: Node, _: Handle, _: u32) -> Answer<()> {
        Err(Errno::ENOSYS)
    }
}
