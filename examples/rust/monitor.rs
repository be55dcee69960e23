//! A VMM over the crate `pitskhomu` with a file system in memory: it does what examples/c/monitor.c
//! does, without a line of `unsafe`. Copy `Files` and put your own calls in the place of these.
//! `guest.rs` is the guest; it has the memory that a VMM would map.
#![forbid(unsafe_code)]
mod guest;

use guest::Guest;
use pitskhomu::*;
use std::ffi::CString;
use std::sync::{Mutex, MutexGuard};
use std::time::Duration;

const FILES: usize = 8;
const CONTENTS: u64 = 0x4000;
const NAME_MOST: usize = 255;
/// An opcode that no FUSE has, and this monitor serves.
const CAPITALS: u32 = 0x1000;
/// How long the headers of a request and a reply are (struct fuse_in_header, struct
/// fuse_out_header).
const IN_HEADER: u64 = 40;
const OUT_HEADER: u64 = 16;

/// For so long the guest need not ask again for a name or for attributes.
const GOOD_FOR: Duration = Duration::from_secs(1);

/// A file. One that has no name lives as long as the guest holds its node.
struct File {
    name: Option<CString>,
    /// How often the guest holds the node.
    held: u64,
    generation: u64,
    attributes: Attributes,
    contents: Vec<u8>,
}

impl File {
    fn lives(&self) -> bool {
        self.name.is_some() || self.held > 0
    }

    fn set_size(&mut self, size: u64) -> Answer<()> {
        if size > CONTENTS {
            return Err(Errno::EFBIG);
        }
        self.contents.resize(size as usize, 0);
        self.attributes.size = size;
        self.attributes.blocks = (size + 511) / 512; // of 512 bytes, with any block_size
        Ok(())
    }

    /// The entry of its name; the guest holds the node once more.
    fn entry(&mut self) -> Entry {
        self.held += 1;
        Entry::new(Node(self.attributes.inode), self.attributes)
            .with_generation(self.generation)
            .with_attributes_timeout(GOOD_FOR)
            .with_entry_timeout(GOOD_FOR)
    }
}

/// All files are in the root. File k is node k + 2.
#[derive(Default)]
struct Places {
    files: [Option<File>; FILES],
    /// How many files were made: so no two have had one node and one generation.
    made: u64,
}

#[derive(Default)]
struct Files(Mutex<Places>);

impl Files {
    fn lock(&self) -> MutexGuard<'_, Places> {
        self.0.lock().unwrap_or_else(|broken| broken.into_inner())
    }

    /// Does something with a node's file.
    fn with<T>(&self, node: Node, f: impl FnOnce(&mut File) -> Answer<T>) -> Answer<T> {
        let place = usize::try_from(node.0.wrapping_sub(2)).map_err(|_| Errno::ENOENT)?;
        let mut places = self.lock();
        let file = places.files.get_mut(place).and_then(Option::as_mut).filter(|file| file.lives());
        file.map_or(Err(Errno::ENOENT), f)
    }

    /// Does something with the file of a name; names are the guest's bytes, and here they are just
    /// compared.
    fn named<T>(&self, parent: Node, name: &CStr, f: impl FnOnce(&mut File) -> T) -> Answer<T> {
        let mut places = self.lock();
        let mut found = places
            .files
            .iter_mut()
            .flatten()
            .filter(|file| parent == Node::ROOT && file.name.as_deref() == Some(name));
        found.next().map(f).ok_or(Errno::ENOENT)
    }
}

impl FileSystem for Files {
    /// A FUSE server of this monitor's own, for an opcode that the library doesn't serve: what was
    /// asked, in capitals.
    fn reply_by_bytes(&self, exchange: &mut Exchange<'_>) -> Option<u64> {
        let text_len = exchange
            .request_len()
            .checked_sub(IN_HEADER)
            .filter(|_| exchange.opcode() == CAPITALS)?;
        let len = OUT_HEADER + text_len;
        if len > exchange.room_len() {
            return Some(0); // silence
        }
        let mut text = vec![0; text_len as usize];
        exchange.load(IN_HEADER, &mut text);
        text.make_ascii_uppercase();
        let error = 0u32;
        exchange.store(0, &[(len as u32).to_le_bytes(), error.to_le_bytes()].concat());
        exchange.store(8, &exchange.unique().to_le_bytes());
        exchange.store(OUT_HEADER, &text);
        Some(len)
    }

    fn init(&self, init: Init) -> Answer<Options> {
        self.lock().files.iter_mut().flatten().for_each(|file| file.held = 0);
        Ok(init.capable & Options::DO_READDIRPLUS)
    }

    fn lookup(&self, _context: &Context, parent: Node, name: &CStr) -> Answer<Entry> {
        self.named(parent, name, File::entry)
    }

    fn forget(&self, node: Node, count: u64) {
        let _ = self.with(node, |file| {
            file.held = file.held.saturating_sub(count);
            Ok(())
        });
    }

    fn getattr(
        &self,
        _context: &Context,
        node: Node,
        _handle: Option<Handle>,
    ) -> Answer<(Attributes, Duration)> {
        if node == Node::ROOT {
            let root = Attributes::directory(0o755).with_inode(1).with_block_size(4096);
            return Ok((root, GOOD_FOR));
        }
        self.with(node, |file| Ok((file.attributes, GOOD_FOR)))
    }

    fn setattr(
        &self,
        _context: &Context,
        node: Node,
        set: &SetAttributes,
    ) -> Answer<(Attributes, Duration)> {
        self.with(node, |file| {
            set.size().map_or(Ok(()), |size| file.set_size(size))?;
            if let Some(mode) = set.mode() {
                file.attributes.mode = Attributes::file(mode).mode;
            }
            Ok((file.attributes, GOOD_FOR))
        })
    }

    fn create(
        &self,
        context: &Context,
        name: Child<'_>,
        create: Create,
    ) -> Answer<(Entry, Opened)> {
        let mut places = self.lock();
        if name.parent != Node::ROOT {
            return Err(Errno::ENOTDIR);
        }
        if name.name.to_bytes().len() > NAME_MOST {
            return Err(Errno::ENAMETOOLONG);
        }
        if places.files.iter().flatten().any(|file| file.name.as_deref() == Some(name.name)) {
            return Err(Errno::EEXIST);
        }
        let is_free = |file: &Option<File>| !file.as_ref().map_or(false, File::lives);
        let place = places.files.iter().position(is_free).ok_or(Errno::ENOSPC)?;
        places.made += 1;
        let attributes = Attributes::file(create.mode & !create.umask)
            .with_inode(place as u64 + 2)
            .with_uid(context.uid)
            .with_gid(context.gid)
            .with_block_size(4096);
        let contents = Vec::new();
        let mut file = File {
            name: Some(name.name.into()),
            held: 0,
            generation: places.made,
            attributes,
            contents,
        };
        let entry = file.entry();
        places.files[place] = Some(file);
        Ok((entry, Opened::default()))
    }

    fn unlink(&self, _context: &Context, name: Child<'_>) -> Answer<()> {
        self.named(name.parent, name.name, |file| {
            file.name = None;
            file.attributes.links = 0;
        })
    }

    fn open(&self, _context: &Context, node: Node, open: Open) -> Answer<Opened> {
        self.with(node, |file| if open.truncates() { file.set_size(0) } else { Ok(()) })?;
        Ok(Opened::default())
    }

    fn read(
        &self,
        _context: &Context,
        node: Node,
        read: ReadFile,
        data: &mut ReadData<'_>,
    ) -> Answer<()> {
        self.with(node, |file| {
            let from = read.offset.min(file.attributes.size) as usize;
            data.put(&file.contents[from..]);
            Ok(())
        })
    }

    fn write(
        &self,
        _context: &Context,
        node: Node,
        write: WriteFile,
        data: &mut WriteData<'_>,
    ) -> Answer<()> {
        self.with(node, |file| {
            // Bytes behind those of the record's size aren't data.
            let len = data.left().min(write.size);
            let end = write.offset.checked_add(len).ok_or(Errno::EFBIG)?;
            file.set_size(end.max(file.attributes.size))?;
            data.take(&mut file.contents[write.offset as usize..end as usize]);
            Ok(())
        })
    }

    fn readdir(
        &self,
        context: &Context,
        node: Node,
        read: ReadDirectory,
        list: &mut Listing<'_>,
    ) -> Answer<()> {
        let name_of = |file: &Option<File>| file.as_ref().and_then(|file| file.name.clone());
        let names: Vec<_> = self.lock().files.iter().map(name_of).collect();
        let named = (0..)
            .zip(&names)
            .skip(read.offset as usize)
            .filter_map(|(k, name)| Some((k, name.as_ref()?)));
        for (k, name) in named {
            let (inode, next_offset, kind) = (k + 2, k + 1, FileKind::REGULAR);
            let entry = DirectoryEntry::new(name, inode, next_offset, kind);
            // READDIRPLUS has the file's node too.
            if !list.add_with(entry, || self.lookup(context, node, name))? {
                break;
            }
        }
        Ok(())
    }
}

fn main() {
    let mut guest = Guest::new(Files::default());
    guest.uses_a_file();
    guest.errs();
    println!("The pages that were written: {}", guest.written().join(" "));
    guest.moves();
    guest.removes_it();
}
