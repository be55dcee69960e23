//! The file system of the vectors: it records each call, and answers by its mood.
use crate::read::{pattern, Mood};
#[allow(clippy::wildcard_imports)] // the trait needs nearly all
use pitskhomu::*;
use std::cell::{Cell, RefCell};
use std::ffi::CString;
use std::time::Duration;

pub struct Files {
    pub mood: Cell<Mood>,
    calls: RefCell<Vec<String>>,
}

/// The number whose bytes are `first` and those that follow it.
const fn numbered(first: u8) -> u64 {
    let [a, b, c, d] = [first, first + 1, first + 2, first + 3];
    u64::from_le_bytes([a, b, c, d, first + 4, first + 5, first + 6, first + 7])
}

/// The `wide` answers: of a field all bytes are different. The highest byte of a count of
/// nanoseconds is another one, and the type of the mode.
pub const WIDE_NODE: u64 = numbered(0x80);
pub const WIDE_HANDLE: u64 = numbered(0x80);
const WIDE_COUNT: u32 = numbered(0x80) as u32;
const WIDE_OPTIONS: u32 = numbered(0x88) as u32;
const WIDE_OFFSET: u64 = numbered(0x80);
const WIDE_DOT: u64 = numbered(0x88);
const WIDE_NEXT: u64 = numbered(0x90);
const WIDE_INODE: u64 = numbered(0xa8);
const WIDE_LINK: u64 = 300;
const WIDE_ERROR: u32 = 0xabc;
/// The lengths of names of the large directory, which has ten of each.
const WIDE_LENGTHS: [usize; 5] = [7, 8, 9, 16, 255];
/// A longer text is noted by its length and its sum.
const TEXT_MAX: usize = 32;

#[allow(clippy::cast_possible_wrap)] // times before 1970
fn wide_attributes() -> Attributes {
    let time = |first, nanos| Time::new(numbered(first) as i64, nanos).unwrap_or_default();
    let [links, uid, gid, rdev] = [0xe8, 0xec, 0xf0, 0xf4].map(|first| numbered(first) as u32);
    Attributes::default()
        .with_inode(WIDE_INODE)
        .with_size(numbered(0xb0))
        .with_blocks(numbered(0xb8))
        .with_atime(time(0xc0, 0x2bda_d9d8))
        .with_mtime(time(0xc8, 0x2cde_dddc))
        .with_ctime(time(0xd0, 0x2de2_e1e0))
        .with_mode(0xe7e6_c5e4)
        .with_links(links)
        .with_uid(uid)
        .with_gid(gid)
        .with_rdev(rdev)
        .with_block_size(numbered(0xf8) as u32)
        .with_flags(0xfffe_fdfc)
}

fn attributes() -> Attributes {
    let time = |seconds, nanos| Time::new(seconds, nanos).unwrap_or_default();
    Attributes::default()
        .with_inode(2)
        .with_size(5)
        .with_blocks(6)
        .with_atime(time(7, 10))
        .with_mtime(time(8, 11))
        .with_ctime(time(9, 12))
        .with_mode(0o100_644)
        .with_links(13)
        .with_uid(14)
        .with_gid(15)
        .with_rdev(16)
        .with_block_size(17)
        .with_flags(18)
}

/// An entry of a directory: its name, inode, next offset and kind.
type Item = (Vec<u8>, u64, u64, FileKind);

fn directory() -> Vec<Item> {
    vec![
        (b".".to_vec(), 1, 1, FileKind::DIRECTORY),
        (b"a".to_vec(), 2, 2, FileKind::REGULAR),
        (b"..".to_vec(), 1, 3, FileKind::DIRECTORY),
    ]
}

fn wide_directory() -> Vec<Item> {
    let mut items = vec![(b".".to_vec(), WIDE_DOT, WIDE_NEXT + 1, FileKind::DIRECTORY)];
    for (at, &len) in (1..=50).zip(WIDE_LENGTHS.iter().cycle()) {
        let name = vec![0x40 + at; len];
        items.push((name, WIDE_INODE, WIDE_NEXT + u64::from(at) + 1, FileKind::SOCKET));
    }
    items
}

/// A number, or `-`.
fn or_dash(number: Option<u64>) -> String {
    number.map_or("-".into(), |number| number.to_string())
}

/// A text in quotes, or the length and the sum of a long one: FNV-1a of 32 bits.
fn quoted(text: &[u8]) -> String {
    if text.len() <= TEXT_MAX {
        return format!("\"{}\"", String::from_utf8_lossy(text));
    }
    let add = |sum: u32, &byte: &u8| (sum ^ u32::from(byte)).wrapping_mul(0x0100_0193);
    format!("#{} {}", text.len(), text.iter().fold(0x811c_9dc5, add))
}

/// Puts bytes at the front of a buffer. Returns how many they are.
fn fill(buffer: &mut [u8], bytes: &[u8]) -> usize {
    if let Some(front) = buffer.get_mut(..bytes.len()) {
        front.copy_from_slice(bytes);
    }
    bytes.len()
}

impl Files {
    pub fn new() -> Files {
        Files { mood: Cell::new(Mood::Default), calls: RefCell::default() }
    }

    /// The calls since this was called last.
    pub fn take_calls(&self) -> Vec<String> {
        self.calls.take()
    }

    /// Records a call: its name, who asks, numbers, and then words.
    fn note(&self, context: &Context, name: &str, numbers: &[u64], words: &[String]) {
        let who = [context.uid, context.gid, context.pid].map(u64::from);
        let mut call = vec![name.to_string()];
        call.extend(who.iter().chain(numbers).map(u64::to_string));
        call.extend_from_slice(words);
        self.calls.borrow_mut().push(call.join(" "));
    }

    fn is_wide(&self) -> bool {
        self.mood.get() == Mood::Wide
    }

    fn answer<T>(&self, value: T) -> Answer<T> {
        match self.mood.get() {
            Mood::Default => Err(Errno::ENOSYS),
            Mood::Failing => Err(Errno::EIO),
            Mood::WideFailing => Err(Errno::new(WIDE_ERROR).unwrap_or(Errno::EIO)),
            _ => Ok(value),
        }
    }

    /// Records a call, and answers it.
    fn done<T>(
        &self,
        context: &Context,
        name: &str,
        numbers: &[u64],
        words: &[String],
        value: T,
    ) -> Answer<T> {
        self.note(context, name, numbers, words);
        self.answer(value)
    }

    fn entry(&self) -> Entry {
        if self.is_wide() {
            return Entry::new(Node(WIDE_NODE), wide_attributes())
                .with_generation(numbered(0x88))
                .with_attributes_timeout(Duration::new(numbered(0x98), 0x2aa6_a5a4))
                .with_entry_timeout(Duration::new(numbered(0x90), 0x29a2_a1a0));
        }
        Entry::new(Node(if self.mood.get() == Mood::NoNode { 0 } else { 2 }), attributes())
            .with_generation(3)
            .with_attributes_timeout(Duration::new(22, 23))
            .with_entry_timeout(Duration::new(20, 21))
    }

    fn attributes(&self) -> (Attributes, Duration) {
        let entry = self.entry();
        (entry.attributes, entry.attributes_timeout)
    }

    /// The length of a text in a buffer: `good` bytes, or in `wide` as many as the buffer has.
    fn text(&self, buffer: &mut [u8], good: &[u8]) -> usize {
        match self.mood.get() {
            Mood::Other => 9,
            Mood::Wide if buffer.is_empty() => WIDE_COUNT as usize,
            Mood::Wide => fill(buffer, &pattern(0, buffer.len() as u64).collect::<Vec<_>>()),
            _ => fill(buffer, good),
        }
    }

    fn opened(&self) -> Opened {
        match self.mood.get() {
            Mood::Other => Opened::new(Handle(0)).with_options(OpenOptions::KEEP_CACHE),
            Mood::Wide => {
                let options = OpenOptions::from_bits(WIDE_OPTIONS);
                Opened::new(Handle(WIDE_HANDLE)).with_options(options)
            }
            _ => Opened::new(Handle(0x66)).with_options(OpenOptions::from_bits(5)),
        }
    }

    fn open_answer(&self) -> Answer<Opened> {
        match self.mood.get() {
            Mood::Default => Ok(Opened::default()),
            _ => self.answer(self.opened()),
        }
    }
}

/// A name of a new node, and the request's extensions: a group, and a label if there is one.
fn named(context: &Context, child: &Child<'_>) -> Vec<String> {
    let group = or_dash(context.supplementary_group.map(u64::from));
    let mut words = vec![quoted(child.name.to_bytes()), group];
    if let Some(label) = child.label {
        words.extend([label.name.to_bytes(), label.value].map(quoted));
    }
    words
}

impl FileSystem for Files {
    fn init(&self, init: Init) -> Answer<Options> {
        let is_default = self.mood.get() == Mood::Default;
        let number = if is_default { String::new() } else { format!(" {}", init.capable.bits()) };
        self.calls.borrow_mut().push(format!("init{number}"));
        match self.mood.get() {
            Mood::Default => Ok(Options::empty()),
            Mood::Other | Mood::Wide => Ok(Options::from_bits(u64::MAX)),
            _ => self.answer(Options::empty()),
        }
    }
    fn destroy(&self) {
        self.calls.borrow_mut().push("destroy".into());
    }
    fn lookup(&self, context: &Context, parent: Node, name: &CStr) -> Answer<Entry> {
        self.note(context, "lookup", &[parent.0], &[quoted(name.to_bytes())]);
        match self.mood.get() {
            Mood::Other => Err(Errno::ENOENT),
            _ => self.answer(self.entry()),
        }
    }
    fn forget(&self, node: Node, count: u64) {
        self.calls.borrow_mut().push(format!("forget ? ? ? {} {count}", node.0));
    }
    fn batch_forget(&self, forgets: Forgets<'_>) {
        if self.mood.get() == Mood::Default {
            return forgets.for_each(|(node, count)| self.forget(node, count));
        }
        let pairs: Vec<_> = forgets.map(|(node, count)| format!(" {} {count}", node.0)).collect();
        self.calls.borrow_mut().push(format!("batch_forget ? ? ?{}", pairs.concat()));
    }
    fn getattr(
        &self,
        context: &Context,
        node: Node,
        handle: Option<Handle>,
    ) -> Answer<(Attributes, Duration)> {
        let handle = or_dash(handle.map(|handle| handle.0));
        self.done(context, "getattr", &[node.0], &[handle], self.attributes())
    }
    #[allow(clippy::cast_sign_loss)] // the guest's numbers are printed as they are
    fn setattr(
        &self,
        context: &Context,
        node: Node,
        set: &SetAttributes,
    ) -> Answer<(Attributes, Duration)> {
        let (a, owner) = (&set.values, set.lock_owner);
        let mut words = vec![or_dash(set.handle.map(|handle| handle.0))];
        words.push(set.valid.bits().to_string());
        words.extend(["?", "?"].map(String::from));
        words.extend([a.size, owner].map(|number| number.to_string()));
        words.extend([a.atime, a.mtime, a.ctime].map(|time| (time.seconds as u64).to_string()));
        words.extend([a.atime, a.mtime, a.ctime].map(|time| time.nanos.to_string()));
        words.extend([a.mode, a.uid, a.gid].map(|number| number.to_string()));
        self.done(context, "setattr", &[node.0], &words, self.attributes())
    }
    fn readlink(&self, context: &Context, node: Node, target: &mut [u8]) -> Answer<usize> {
        let wide = pattern(0, WIDE_LINK).collect::<Vec<_>>();
        let len = fill(target, if self.is_wide() { &wide } else { b"to" });
        self.done(context, "readlink", &[node.0], &[], len)
    }
    fn symlink(&self, context: &Context, link: Child<'_>, target: &CStr) -> Answer<Entry> {
        let words = [vec![quoted(target.to_bytes())], named(context, &link)].concat();
        self.done(context, "symlink", &[link.parent.0], &words, self.entry())
    }
    fn mknod(&self, context: &Context, child: Child<'_>, make: MakeNode) -> Answer<Entry> {
        let numbers = [child.parent.0, make.mode.into(), make.rdev.into(), make.umask.into()];
        let words = named(context, &child);
        self.done(context, "mknod", &numbers, &words, self.entry())
    }
    fn mkdir(&self, context: &Context, child: Child<'_>, make: MakeDirectory) -> Answer<Entry> {
        let numbers = [child.parent.0, make.mode.into(), make.umask.into()];
        let words = named(context, &child);
        self.done(context, "mkdir", &numbers, &words, self.entry())
    }
    fn unlink(&self, context: &Context, child: Child<'_>) -> Answer<()> {
        self.done(context, "unlink", &[child.parent.0], &[quoted(child.name.to_bytes())], ())
    }
    fn rmdir(&self, context: &Context, child: Child<'_>) -> Answer<()> {
        self.done(context, "rmdir", &[child.parent.0], &[quoted(child.name.to_bytes())], ())
    }
    fn rename(
        &self,
        context: &Context,
        from: Child<'_>,
        to: Child<'_>,
        flags: RenameFlags,
    ) -> Answer<()> {
        let numbers = [from.parent.0, to.parent.0, flags.bits().into()];
        let words = [from.name, to.name].map(|name| quoted(name.to_bytes()));
        self.done(context, "rename", &numbers, &words, ())
    }
    fn link(&self, context: &Context, node: Node, child: Child<'_>) -> Answer<Entry> {
        let numbers = [node.0, child.parent.0];
        self.done(context, "link", &numbers, &[quoted(child.name.to_bytes())], self.entry())
    }
    fn open(&self, context: &Context, node: Node, open: Open) -> Answer<Opened> {
        let numbers = [node.0, open.kill_priv.into(), open.flags.into()];
        self.note(context, "open", &numbers, &[]);
        self.open_answer()
    }
    fn create(
        &self,
        context: &Context,
        child: Child<'_>,
        create: Create,
    ) -> Answer<(Entry, Opened)> {
        let Create { flags, mode, umask, kill_priv, .. } = create;
        let numbers = [child.parent.0, mode.into(), kill_priv.into(), flags.into(), umask.into()];
        let words = named(context, &child);
        self.done(context, "create", &numbers, &words, (self.entry(), self.opened()))
    }
    fn read(
        &self,
        context: &Context,
        node: Node,
        read: ReadFile,
        data: &mut ReadData<'_>,
    ) -> Answer<()> {
        let numbers = [node.0, read.handle.0, read.size, read.offset];
        let words = [or_dash(read.lock_owner), read.flags.to_string()];
        self.done(context, "read", &numbers, &words, ())?;
        if self.is_wide() {
            let count = read.size.min(data.left());
            data.put(&pattern(read.offset, count).collect::<Vec<_>>());
            return Ok(());
        }
        data.put(b"hello".get(read.offset as usize..).unwrap_or_default());
        match self.mood.get() {
            Mood::Other => Err(Errno::EIO),
            _ => Ok(()),
        }
    }
    fn write(
        &self,
        context: &Context,
        node: Node,
        write: WriteFile,
        data: &mut WriteData<'_>,
    ) -> Answer<()> {
        let mut bytes = vec![0; data.left().min(write.size) as usize];
        data.take(&mut bytes);
        let numbers = [node.0, write.handle.0, write.size, write.offset];
        let flags = [write.delayed.into(), write.kill_priv.into(), write.flags];
        let mut words = vec![or_dash(write.lock_owner)];
        words.extend(flags.map(|flag| flag.to_string()));
        words.push(quoted(&bytes));
        self.done(context, "write", &numbers, &words, ())
    }
    fn statfs(&self, context: &Context, node: Node) -> Answer<Statistics> {
        self.note(context, "statfs", &[node.0], &[]);
        match self.mood.get() {
            Mood::Default => Ok(Statistics::default()),
            Mood::Wide => {
                let [blocks, blocks_free, blocks_available] = [0x80, 0x88, 0x90].map(numbered);
                let [files, files_free] = [0x98, 0xa0].map(numbered);
                let [block_size, name_len, fragment_size] =
                    [0xa8, 0xac, 0xb0].map(|first| numbered(first) as u32);
                Ok(Statistics::default()
                    .with_blocks(blocks)
                    .with_blocks_free(blocks_free)
                    .with_blocks_available(blocks_available)
                    .with_files(files)
                    .with_files_free(files_free)
                    .with_block_size(block_size)
                    .with_name_len(name_len)
                    .with_fragment_size(fragment_size))
            }
            _ => self.answer(
                Statistics::default()
                    .with_blocks(1)
                    .with_blocks_free(2)
                    .with_blocks_available(3)
                    .with_files(4)
                    .with_files_free(5)
                    .with_block_size(6)
                    .with_name_len(7)
                    .with_fragment_size(8),
            ),
        }
    }
    fn release(&self, context: &Context, node: Node, release: Release) -> Answer<()> {
        let Release { handle, flags, flush, unlock, lock_owner, .. } = release;
        let numbers = [node.0, flags.into(), handle.0, flush.into(), unlock.into()];
        self.done(context, "release", &numbers, &[or_dash(lock_owner)], ())
    }
    fn fsync(&self, context: &Context, node: Node, handle: Handle, data_only: bool) -> Answer<()> {
        self.done(context, "fsync", &[node.0, data_only.into(), handle.0], &[], ())
    }
    fn flush(&self, context: &Context, node: Node, handle: Handle, owner: u64) -> Answer<()> {
        self.done(context, "flush", &[node.0, handle.0, owner], &[], ())
    }
    fn setxattr(
        &self,
        context: &Context,
        node: Node,
        name: &CStr,
        value: &[u8],
        set: SetXattr,
    ) -> Answer<()> {
        let words = [quoted(name.to_bytes()), quoted(value)];
        let numbers = [node.0, set.flags.into(), set.kill_sgid.into()];
        self.done(context, "setxattr", &numbers, &words, ())
    }
    fn getxattr(
        &self,
        context: &Context,
        node: Node,
        name: &CStr,
        value: &mut [u8],
    ) -> Answer<usize> {
        let words = ["?".into(), quoted(name.to_bytes())];
        let len = self.text(value, b"val");
        self.done(context, "getxattr", &[node.0], &words, len)
    }
    fn listxattr(&self, context: &Context, node: Node, names: &mut [u8]) -> Answer<usize> {
        let len = self.text(names, b"a\0b\0");
        self.done(context, "listxattr", &[node.0], &["?".into()], len)
    }
    fn removexattr(&self, context: &Context, node: Node, name: &CStr) -> Answer<()> {
        self.done(context, "removexattr", &[node.0], &[quoted(name.to_bytes())], ())
    }
    fn opendir(&self, context: &Context, node: Node, flags: u32) -> Answer<Opened> {
        self.note(context, "opendir", &[node.0, flags.into()], &[]);
        self.open_answer()
    }
    fn readdir(
        &self,
        context: &Context,
        node: Node,
        read: ReadDirectory,
        list: &mut Listing<'_>,
    ) -> Answer<()> {
        let numbers = [node.0, read.handle.0, read.size, read.offset];
        self.done(context, "readdir", &numbers, &[], ())?;
        let entries = if self.is_wide() { wide_directory() } else { directory() };
        let first = match read.offset {
            offset if offset > 0 && self.is_wide() => offset.wrapping_sub(WIDE_NEXT),
            offset => offset,
        };
        for (name, inode, next_offset, kind) in entries.into_iter().skip(first as usize) {
            let name = CString::new(name).map_err(|_| Errno::EIO)?;
            let entry = DirectoryEntry::new(&name, inode, next_offset, kind);
            match list.add_with(entry, || self.lookup(context, node, &name)) {
                Ok(true) => {}
                // A first entry that doesn't fit is the wrapper's own error.
                Ok(false) | Err(Errno::EINVAL) => break,
                Err(error) => return Err(error),
            }
        }
        Ok(())
    }
    fn releasedir(&self, context: &Context, node: Node, handle: Handle, flags: u32) -> Answer<()> {
        self.done(context, "releasedir", &[node.0, flags.into(), handle.0], &[], ())
    }
    fn fsyncdir(
        &self,
        context: &Context,
        node: Node,
        handle: Handle,
        data_only: bool,
    ) -> Answer<()> {
        self.done(context, "fsyncdir", &[node.0, data_only.into(), handle.0], &[], ())
    }
    fn access(&self, context: &Context, node: Node, mask: AccessMask) -> Answer<()> {
        self.done(context, "access", &[node.0, mask.bits().into()], &[], ())
    }
    fn fallocate(&self, context: &Context, node: Node, allocate: Allocate) -> Answer<()> {
        let Allocate { handle, mode, offset, len, .. } = allocate;
        self.done(context, "fallocate", &[node.0, handle.0, mode.into(), offset, len], &[], ())
    }
    fn lseek(&self, context: &Context, node: Node, seek: SeekFile) -> Answer<u64> {
        let numbers = [node.0, seek.handle.0, seek.offset, seek.whence.into()];
        let offset = if self.is_wide() { WIDE_OFFSET } else { 0x0102_0304_0506_0708 };
        self.done(context, "lseek", &numbers, &[], offset)
    }
    fn copy_file_range(&self, context: &Context, copy: CopyFileRange) -> Answer<u64> {
        let CopyFileRange { from, to, len, .. } = copy;
        let place = |place: FilePlace| [place.node.0, place.handle.0, place.offset];
        let numbers = [&place(from)[..], &place(to), &[len]].concat();
        let count = if self.is_wide() { WIDE_COUNT.into() } else { 0x77 };
        self.done(context, "copy_file_range", &numbers, &["?".into()], count)
    }
    fn syncfs(&self, context: &Context, node: Node) -> Answer<()> {
        self.done(context, "syncfs", &[node.0], &[], ())
    }
}
