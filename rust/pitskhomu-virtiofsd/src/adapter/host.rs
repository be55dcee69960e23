//! Calls of virtiofsd's file system. While one is under way the chain's ring may stop, or be reset
//! (`ring::held`). A call whose chain was dropped leaves nothing behind in the next session: the
//! node that it looked up is forgotten, and the file that it opened is closed.
use super::{context, entry, opened, Adapter, Done};
use pitskhomu as p;
use pitskhomu::{Answer, Context, Errno};
use std::io;
use virtiofsd::filesystem as v;
use virtiofsd::fuse;

/// What OPEN and OPENDIR return.
type Opened<H> = (Option<H>, fuse::OpenOptions);
/// What CREATE returns.
type Created<H> = (v::Entry, Option<H>, fuse::OpenOptions);

impl<F: v::FileSystem> Adapter<'_, F> {
    /// Makes a call. If the chain was dropped meanwhile, the result goes to `undo`.
    fn call<T>(&self, call: impl FnOnce(&F) -> io::Result<T>, undo: impl FnOnce(T)) -> Answer<T> {
        match self.chain.call_host(|| call(self.fs)) {
            Ok(result) => result.done(),
            Err(late) => {
                let _ = late.map(undo);
                Err(Errno::EIO)
            }
        }
    }

    /// A call that makes nothing that the guest would have to give back.
    pub(super) fn host<T>(&self, call: impl FnOnce(&F) -> io::Result<T>) -> Answer<T> {
        self.call(call, drop)
    }

    /// Lists the entries that fit, from an offset on. Returns whether there was one.
    pub(super) fn list(
        &self,
        x: &Context,
        node: p::Node,
        read: &p::ReadDirectory,
        list: &mut p::Listing<'_>,
    ) -> Answer<bool> {
        let size = u32::try_from(list.left()).unwrap_or(u32::MAX);
        let mut found = self.host(|fs| {
            fs.readdir(context(x), node.0.into(), read.handle.0.into(), size, read.offset)
        })?;
        let mut is_listed = false;
        while let Some(entry) = v::DirectoryIterator::next(&mut found) {
            is_listed = true;
            let kind = p::FileKind(entry.type_);
            let added = p::DirectoryEntry::new(entry.name, entry.ino, entry.offset, kind);
            // `virtiofsd` looks each name up too, and not one that doesn't fit.
            if !list.add_with(added, || self.look_name_up(x, node, entry.name))? {
                break;
            }
        }
        Ok(is_listed)
    }

    fn forget_late(&self, made: &v::Entry) {
        self.fs.forget(context(&Context::default()), made.inode.into(), 1);
    }

    /// A call that looks a node up, or makes one.
    pub(super) fn look_up(
        &self,
        call: impl FnOnce(&F) -> io::Result<v::Entry>,
    ) -> Answer<p::Entry> {
        self.call(call, |made| self.forget_late(&made)).map(entry)
    }

    fn release_late(&self, node: u64, handle: Option<F::Handle>) {
        if let Some(handle) = handle {
            let x = context(&Context::default());
            let _ = self.fs.release(x, node.into(), 0, handle, false, false, None);
        }
    }

    /// A call that opens a file of a node.
    pub(super) fn open_file(
        &self,
        node: u64,
        call: impl FnOnce(&F) -> io::Result<Opened<F::Handle>>,
    ) -> Answer<p::Opened> {
        self.call(call, |(handle, _)| self.release_late(node, handle)).map(opened)
    }

    /// A call that opens a directory.
    pub(super) fn open_directory(
        &self,
        node: u64,
        call: impl FnOnce(&F) -> io::Result<Opened<F::Handle>>,
    ) -> Answer<p::Opened> {
        let undo = |(handle, _): Opened<F::Handle>| {
            if let Some(handle) = handle {
                let x = context(&Context::default());
                let _ = self.fs.releasedir(x, node.into(), 0, handle);
            }
        };
        self.call(call, undo).map(opened)
    }

    /// A call that makes a file and opens it.
    pub(super) fn create_file(
        &self,
        call: impl FnOnce(&F) -> io::Result<Created<F::Handle>>,
    ) -> Answer<(p::Entry, p::Opened)> {
        let undo = |(made, handle, _): Created<F::Handle>| {
            self.release_late(made.inode, handle);
            self.forget_late(&made);
        };
        let (made, handle, options) = self.call(call, undo)?;
        Ok((entry(made), opened((handle, options))))
    }
}
