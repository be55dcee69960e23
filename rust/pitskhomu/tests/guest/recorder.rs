//! A file system that writes down each call, and answers well, or by one errno.
use pitskhomu::*;
use std::fmt::Debug;
use std::sync::Mutex;
use std::time::Duration;

#[derive(Default)]
pub struct Recorder {
    pub calls: Mutex<Vec<String>>,
    /// Each call fails by it.
    pub error: Option<Errno>,
    /// What INIT wants.
    pub wanted: Options,
    /// What a directory lists.
    pub names: Vec<&'static CStr>,
    /// The caller may be anybody.
    pub is_unchecked: bool,
}

/// All attributes of a reply, each another number.
pub fn attributes() -> Attributes {
    let time = |seconds, nanos| Time::new(seconds, nanos).unwrap();
    Attributes::default()
        .with_inode(0x101)
        .with_size(0x102)
        .with_blocks(0x103)
        .with_atime(time(0x104, 0x107))
        .with_mtime(time(0x105, 0x108))
        .with_ctime(time(-1, 0x109))
        .with_mode(0o100644)
        .with_links(0x10b)
        .with_uid(0x10c)
        .with_gid(0x10d)
        .with_rdev(0x10e)
        .with_block_size(0x10f)
        .with_flags(Attributes::SUBMOUNT)
}

pub fn entry() -> Entry {
    Entry::new(Node(0x201), attributes())
        .with_generation(0x202)
        .with_attributes_timeout(Duration::new(0x203, 0x204))
        .with_entry_timeout(Duration::new(0x205, 0x206))
}

pub fn opened() -> Opened {
    Opened::new(Handle(0x301)).with_options(OpenOptions::KEEP_CACHE)
}

impl Recorder {
    pub fn failing(error: Errno) -> Recorder {
        Recorder { error: Some(error), ..Recorder::default() }
    }

    pub fn taken(&self) -> Vec<String> {
        std::mem::take(&mut *self.calls.lock().unwrap())
    }

    fn note<T>(&self, call: &str, arguments: &dyn Debug, value: T) -> Answer<T> {
        self.calls.lock().unwrap().push(format!("{call} {arguments:?}"));
        self.error.map_or(Ok(value), Err)
    }

    fn asked<T>(
        &self,
        context: &Context,
        call: &str,
        arguments: &dyn Debug,
        value: T,
    ) -> Answer<T> {
        let who = (context.uid, context.gid, context.pid, context.unique);
        assert!(self.is_unchecked || who == (1000, 100, 7, super::UNIQUE), "{who:?}");
        self.note(call, arguments, value)
    }
}

fn fill(buffer: &mut [u8], bytes: &[u8]) -> usize {
    if let Some(front) = buffer.get_mut(..bytes.len()) {
        front.copy_from_slice(bytes);
    }
    bytes.len()
}

impl FileSystem for Recorder {
    fn init(&self, init: Init) -> Answer<Options> {
        assert!(self.is_unchecked || init.capable.contains(Options::ASYNC_READ));
        self.note("init", &(), self.wanted)
    }
    fn destroy(&self) {
        let _ = self.note("destroy", &(), ());
    }
    fn lookup(&self, context: &Context, parent: Node, name: &CStr) -> Answer<Entry> {
        self.asked(context, "lookup", &(parent, name), entry())
    }
    fn forget(&self, node: Node, count: u64) {
        let _ = self.note("forget", &(node, count), ());
    }
    fn getattr(
        &self,
        context: &Context,
        node: Node,
        handle: Option<Handle>,
    ) -> Answer<(Attributes, Duration)> {
        self.asked(context, "getattr", &(node, handle), (attributes(), Duration::new(0x401, 0x402)))
    }
    fn setattr(
        &self,
        context: &Context,
        node: Node,
        set: &SetAttributes,
    ) -> Answer<(Attributes, Duration)> {
        let arguments = (
            set.mode(),
            set.uid(),
            set.gid(),
            set.size(),
            set.atime()?,
            set.mtime()?,
            set.ctime()?,
        );
        let arguments = (node, set.valid, set.handle, set.lock_owner, arguments, set.kills_priv());
        self.asked(context, "setattr", &arguments, (attributes(), Duration::new(0x401, 0x402)))
    }
    fn readlink(&self, context: &Context, node: Node, target: &mut [u8]) -> Answer<usize> {
        self.asked(context, "readlink", &(node, target.len()), fill(target, b"where/it/leads"))
    }
    fn symlink(&self, context: &Context, link: Child<'_>, target: &CStr) -> Answer<Entry> {
        self.asked(context, "symlink", &(link, target, context.supplementary_group), entry())
    }
    fn mknod(&self, context: &Context, child: Child<'_>, make: MakeNode) -> Answer<Entry> {
        self.asked(context, "mknod", &(child, make, context.supplementary_group), entry())
    }
    fn mkdir(&self, context: &Context, child: Child<'_>, make: MakeDirectory) -> Answer<Entry> {
        self.asked(context, "mkdir", &(child, make), entry())
    }
    fn unlink(&self, context: &Context, child: Child<'_>) -> Answer<()> {
        self.asked(context, "unlink", &child, ())
    }
    fn rmdir(&self, context: &Context, child: Child<'_>) -> Answer<()> {
        self.asked(context, "rmdir", &child, ())
    }
    fn rename(
        &self,
        context: &Context,
        from: Child<'_>,
        to: Child<'_>,
        flags: RenameFlags,
    ) -> Answer<()> {
        self.asked(context, "rename", &(from, to, flags), ())
    }
    fn link(&self, context: &Context, node: Node, child: Child<'_>) -> Answer<Entry> {
        self.asked(context, "link", &(node, child), entry())
    }
    fn open(&self, context: &Context, node: Node, open: Open) -> Answer<Opened> {
        self.asked(context, "open", &(node, open), opened())
    }
    fn create(
        &self,
        context: &Context,
        child: Child<'_>,
        create: Create,
    ) -> Answer<(Entry, Opened)> {
        self.asked(context, "create", &(child, create), (entry(), opened()))
    }
    fn read(
        &self,
        context: &Context,
        node: Node,
        read: ReadFile,
        data: &mut ReadData<'_>,
    ) -> Answer<()> {
        let left = data.left();
        let put = (data.put(b"some "), data.put(b"data"));
        self.asked(context, "read", &(node, read, left, put, data.done()), ())
    }
    fn write(
        &self,
        context: &Context,
        node: Node,
        write: WriteFile,
        data: &mut WriteData<'_>,
    ) -> Answer<()> {
        let mut bytes = vec![0; data.left() as usize + 1];
        let taken = data.take(&mut bytes);
        bytes.truncate(taken);
        self.asked(context, "write", &(node, write, String::from_utf8_lossy(&bytes)), ())
    }
    fn statfs(&self, context: &Context, node: Node) -> Answer<Statistics> {
        let statistics = Statistics::default()
            .with_blocks(0x501)
            .with_blocks_free(0x502)
            .with_blocks_available(0x503)
            .with_files(0x504)
            .with_files_free(0x505)
            .with_block_size(0x506)
            .with_name_len(0x507)
            .with_fragment_size(0x508);
        self.asked(context, "statfs", &node, statistics)
    }
    fn release(&self, context: &Context, node: Node, release: Release) -> Answer<()> {
        self.asked(context, "release", &(node, release), ())
    }
    fn fsync(&self, context: &Context, node: Node, handle: Handle, data_only: bool) -> Answer<()> {
        self.asked(context, "fsync", &(node, handle, data_only), ())
    }
    fn flush(&self, context: &Context, node: Node, handle: Handle, lock_owner: u64) -> Answer<()> {
        self.asked(context, "flush", &(node, handle, lock_owner), ())
    }
    fn setxattr(
        &self,
        context: &Context,
        node: Node,
        name: &CStr,
        value: &[u8],
        set: SetXattr,
    ) -> Answer<()> {
        self.asked(context, "setxattr", &(node, name, value, set), ())
    }
    fn getxattr(
        &self,
        context: &Context,
        node: Node,
        name: &CStr,
        value: &mut [u8],
    ) -> Answer<usize> {
        self.asked(context, "getxattr", &(node, name, value.len()), fill(value, b"value"))
    }
    fn listxattr(&self, context: &Context, node: Node, names: &mut [u8]) -> Answer<usize> {
        self.asked(context, "listxattr", &(node, names.len()), fill(names, b"user.a\0user.b\0"))
    }
    fn removexattr(&self, context: &Context, node: Node, name: &CStr) -> Answer<()> {
        self.asked(context, "removexattr", &(node, name), ())
    }
    fn opendir(&self, context: &Context, node: Node, flags: u32) -> Answer<Opened> {
        self.asked(context, "opendir", &(node, flags), opened())
    }
    fn readdir(
        &self,
        context: &Context,
        node: Node,
        read: ReadDirectory,
        list: &mut Listing<'_>,
    ) -> Answer<()> {
        self.asked(context, "readdir", &(node, read, list.left(), list.has_nodes()), ())?;
        for (&name, k) in self.names.iter().zip(1..) {
            let entry = DirectoryEntry::new(name, 0x600 + k, k, FileKind::REGULAR);
            if !list.add_with(entry, || self.lookup(context, node, name))? {
                break;
            }
        }
        Ok(())
    }
    fn releasedir(&self, context: &Context, node: Node, handle: Handle, flags: u32) -> Answer<()> {
        self.asked(context, "releasedir", &(node, handle, flags), ())
    }
    fn fsyncdir(
        &self,
        context: &Context,
        node: Node,
        handle: Handle,
        data_only: bool,
    ) -> Answer<()> {
        self.asked(context, "fsyncdir", &(node, handle, data_only), ())
    }
    fn access(&self, context: &Context, node: Node, mask: AccessMask) -> Answer<()> {
        self.asked(context, "access", &(node, mask), ())
    }
    fn fallocate(&self, context: &Context, node: Node, allocate: Allocate) -> Answer<()> {
        self.asked(context, "fallocate", &(node, allocate), ())
    }
    fn lseek(&self, context: &Context, node: Node, seek: SeekFile) -> Answer<u64> {
        self.asked(context, "lseek", &(node, seek), 0x701)
    }
    fn copy_file_range(&self, context: &Context, copy: CopyFileRange) -> Answer<u64> {
        self.asked(context, "copy_file_range", &copy, 0x801)
    }
    fn syncfs(&self, context: &Context, node: Node) -> Answer<()> {
        self.asked(context, "syncfs", &node, ())
    }
}
