//! The entries of a directory.
use crate::chain::{Added, Chain};
use crate::errno::{Answer, Errno};
use crate::flags::FileKind;
use crate::reply::Response;
use crate::values::{Attributes, DirectoryEntry, Entry, Node};
use crate::CString;
use alloc::vec::Vec;
use core::fmt;

/// The longest name (`NAME_MAX` of linux/limits.h).
const NAME_MAX: usize = 255;

/// An entry of a list that is kept for later.
#[derive(Clone, Debug, PartialEq)]
struct Listed {
    name: CString,
    inode: u64,
    next_offset: u64,
    kind: FileKind,
    found: Option<Entry>,
}

/// Entries of a directory, for an answer that comes later. Usually you need no value of this type:
/// [`Reply::send`](crate::Reply::send) takes the filled [`Listing`] of a request or of an owned
/// request, and makes the entries of it.
#[derive(Clone, Debug, Default, PartialEq)]
pub struct Entries(Vec<Listed>);

impl Entries {
    /// How many they are.
    #[must_use]
    pub fn len(&self) -> usize {
        self.0.len()
    }

    /// Whether there is none.
    #[must_use]
    pub fn is_empty(&self) -> bool {
        self.0.is_empty()
    }

    /// The nodes that the guest is to hold once more, of the entries from one on.
    pub(crate) fn nodes(&self, first: usize) -> Vec<Node> {
        let found = self.0[first..].iter().filter_map(|listed| listed.found.as_ref());
        found.map(|entry| entry.node).filter(|node| node.0 != 0).collect()
    }

    /// Adds them to a list, until one doesn't fit. Returns how many were added, and the error of
    /// the next one.
    pub(crate) fn add_to(&self, list: &mut Listing<'_>) -> (usize, Answer<()>) {
        for (k, Listed { name, inode, next_offset, kind, found }) in self.0.iter().enumerate() {
            let (inode, next_offset, kind) = (*inode, *next_offset, *kind);
            let entry = DirectoryEntry { name, inode, next_offset, kind };
            match list.add_entry(&entry, found.as_ref()) {
                Ok(true) => {}
                Ok(false) => return (k, Ok(())),
                Err(error) => return (k, Err(error)),
            }
        }
        (self.0.len(), Ok(()))
    }
}

/// Where the entries of a list go.
enum Place<'a> {
    /// The worker's list, for the chain's reply; how many bytes of it are used, and the nodes that
    /// were added.
    Reply {
        chain: &'a mut Chain,
        list: &'a mut [u8],
        used: &'a mut usize,
        nodes: &'a mut Vec<Node>,
    },
    /// Entries for an answer that comes later.
    Owned(Vec<Listed>),
}

/// The entries of the reply to READDIR or READDIRPLUS.
pub struct Listing<'a> {
    place: Place<'a>,
    with_nodes: bool,
    /// The bytes of entries that the guest asked for.
    asked: u64,
    /// The bytes of entries that the reply buffer takes.
    room: usize,
    used: usize,
    ended: bool,
}

impl fmt::Debug for Listing<'_> {
    fn fmt(&self, f: &mut fmt::Formatter<'_>) -> fmt::Result {
        f.debug_struct("Listing")
            .field("with_nodes", &self.with_nodes)
            .field("used", &self.used)
            .field("ended", &self.ended)
            .finish_non_exhaustive()
    }
}

impl<'a> Listing<'a> {
    /// `list` is as long as the entries may be, and has `used` bytes of them. The guest asked for
    /// `asked` bytes.
    pub(crate) fn new(
        chain: &'a mut Chain,
        (list, used, nodes): (&'a mut [u8], &'a mut usize, &'a mut Vec<Node>),
        with_nodes: bool,
        asked: u64,
    ) -> Listing<'a> {
        let (room, filled) = (list.len(), *used);
        let place = Place::Reply { chain, list, used, nodes };
        Listing { place, with_nodes, asked, room, used: filled, ended: false }
    }

    /// A list for later, of at most `room` bytes.
    pub(crate) fn owned(room: usize, with_nodes: bool, asked: u64) -> Listing<'a> {
        let place = Place::Owned(Vec::new());
        Listing { place, with_nodes, asked, room, used: 0, ended: false }
    }

    /// The entries that aren't in the reply yet.
    pub(crate) fn into_entries(self) -> Entries {
        match self.place {
            Place::Reply { .. } => Entries::default(),
            Place::Owned(entries) => Entries(entries),
        }
    }

    /// The answer of a list that fails after some entries: the guest gets those, if it holds a node
    /// of them, and the error when it reads on. Otherwise it gets the error now.
    ///
    /// # Errors
    /// The error.
    pub fn fail(self, error: Errno) -> Answer<Response> {
        let entries = self.into_entries();
        if entries.nodes(0).is_empty() {
            return Err(error); // the library knows the nodes of entries in the reply
        }
        Ok(entries.into())
    }

    /// The number of bytes of entries that still fit. An entry takes 24 bytes and its name, with
    /// nodes 152 and its name, rounded up to 8 (struct `fuse_dirent`, struct `fuse_direntplus`).
    #[must_use]
    pub fn left(&self) -> usize {
        if self.ended {
            0
        } else {
            self.room - self.used
        }
    }

    /// Whether entries may have nodes (READDIRPLUS): see `add_plus`.
    #[must_use]
    pub fn has_nodes(&self) -> bool {
        self.with_nodes
    }

    /// Whether the entry of a name still fits. So nothing need be looked up for one that doesn't.
    #[must_use]
    pub fn fits(&self, name: &[u8]) -> bool {
        entry_len(name.len(), self.with_nodes) <= self.left()
    }

    /// Adds an entry after those before it; `false` if it doesn't fit, which ends the list. In
    /// READDIRPLUS too the entry may have no node: then the guest looks its name up when it needs
    /// it.
    ///
    /// # Errors
    /// Return them from `readdir`.
    /// - `EINVAL`: the first entry doesn't fit. No entry at all would be the directory's end.
    /// - `ENAMETOOLONG`: the name is empty or longer than 255 bytes.
    /// - `EIO`: the entry fits the size that the guest asked for, but not the reply buffer; or the
    ///   name has a slash; or its kind is none of dirent.h.
    pub fn add(&mut self, entry: DirectoryEntry<'_>) -> Answer<bool> {
        self.add_entry(&entry, None)
    }

    /// Adds an entry with its node, which the guest then holds once more. Only READDIRPLUS has such
    /// entries (`has_nodes`). Of `.` and `..` the node isn't used, nor held.
    ///
    /// If the result isn't `true`, the guest gets no entry: then undo the look-up. So ask `fits`
    /// before it. The entry's kind and inode are those of the attributes.
    ///
    /// # Errors
    /// Those of `add`. `EINVAL` also for READDIR, `ENOMEM` if an allocation failed, `EIO` if the
    /// kind of the attributes is none of dirent.h.
    pub fn add_plus(&mut self, entry: DirectoryEntry<'_>, found: &Entry) -> Answer<bool> {
        if !self.with_nodes {
            return Err(Errno::EINVAL);
        }
        self.add_entry(&entry, Some(found))
    }

    /// Adds an entry as `add_plus` does in READDIRPLUS, if it fits, and as `add` does in READDIR:
    /// `look_up` is called only for an entry with a node, when nothing else can fail.
    ///
    /// # Errors
    /// Those of `add_plus` and of `look_up`.
    pub fn add_with(
        &mut self,
        entry: DirectoryEntry<'_>,
        look_up: impl FnOnce() -> Answer<Entry>,
    ) -> Answer<bool> {
        if !self.with_nodes || is_dots(&entry) || !self.admit(&entry)? {
            return self.add_entry(&entry, None);
        }
        let found = look_up()?;
        self.add_entry(&entry, Some(&found))
    }

    /// Whether an entry may be added; `false` if it doesn't fit.
    fn admit(&mut self, entry: &DirectoryEntry<'_>) -> Answer<bool> {
        let name = entry.name.to_bytes();
        if name.is_empty() || name.len() > NAME_MAX {
            return Err(Errno::ENAMETOOLONG);
        }
        let len = entry_len(name.len(), self.with_nodes);
        if len > self.left() {
            self.ended = true;
            return match self.asked.saturating_sub(self.used as u64) {
                asked if len as u64 <= asked => Err(Errno::EIO),
                _ if self.used == 0 => Err(Errno::EINVAL),
                _ => Ok(false),
            };
        }
        if name.contains(&b'/') || !entry.kind.is_known() {
            return Err(Errno::EIO);
        }
        let reserved = match &mut self.place {
            Place::Reply { nodes, .. } => nodes.try_reserve(1),
            Place::Owned(entries) => entries.try_reserve(1),
        };
        reserved.map(|()| true).map_err(|_| Errno::ENOMEM)
    }

    fn add_entry(&mut self, entry: &DirectoryEntry<'_>, found: Option<&Entry>) -> Answer<bool> {
        if !self.admit(entry)? {
            return Ok(false);
        }
        let found = found.filter(|_| !is_dots(entry));
        if found.map_or(false, |found| !FileKind::from_mode(found.attributes.mode).is_known()) {
            return Err(Errno::EIO);
        }
        match self.put(entry, found)? {
            Added::In => {
                self.used += entry_len(entry.name.to_bytes().len(), self.with_nodes);
                if let Place::Reply { used, .. } = &mut self.place {
                    **used = self.used;
                }
                Ok(true)
            }
            Added::Full => {
                self.ended = true;
                Ok(false)
            }
            Added::NoRoom => {
                self.ended = true;
                Err(Errno::EIO)
            }
        }
    }

    fn put(&mut self, entry: &DirectoryEntry<'_>, found: Option<&Entry>) -> Answer<Added> {
        let DirectoryEntry { name, inode, next_offset, kind } = *entry;
        let bytes = name.to_bytes();
        match &mut self.place {
            Place::Owned(entries) => {
                let found = found.copied();
                entries.push(Listed { name: name.into(), inode, next_offset, kind, found });
                Ok(Added::In)
            }
            Place::Reply { chain, list, .. } if !self.with_nodes => {
                let added = chain.add(list, bytes, inode, next_offset, kind.0);
                added.map_err(|_| Errno::EIO)
            }
            Place::Reply { chain, list, nodes, .. } => {
                let found = found.copied().unwrap_or_else(|| without_node(inode, kind));
                let added = chain.add_entry(list, bytes, &found.raw(), next_offset);
                let added = added.map_err(|_| Errno::EIO)?;
                if added == Added::In && found.node.0 != 0 {
                    nodes.push(found.node);
                }
                Ok(added)
            }
        }
    }
}

/// Whether an entry is that of the directory or of its parent: it has no node.
fn is_dots(entry: &DirectoryEntry<'_>) -> bool {
    matches!(entry.name.to_bytes(), b"." | b"..")
}

/// The entry of a name that wasn't looked up: only its number and its kind are used.
fn without_node(inode: u64, kind: FileKind) -> Entry {
    let attributes = Attributes { inode, mode: kind.mode(), ..Attributes::default() };
    Entry { attributes, ..Entry::default() }
}

/// The bytes that an entry takes.
fn entry_len(name_len: usize, with_node: bool) -> usize {
    let head = if with_node { 152 } else { 24 };
    (head + name_len + 7) & !7
}

#[cfg(test)]
mod tests {
    use super::*;
    use crate::CStr;

    fn entry_of(name: &CStr) -> DirectoryEntry<'_> {
        DirectoryEntry::new(name, 9, 1, FileKind::REGULAR)
    }

    /// struct fuse_dirent has 24 bytes before the name, and struct fuse_entry_out 128. An entry is
    /// padded to 8 bytes. An entry behind another one fits exactly if it can be added.
    #[test]
    fn what_fits_is_added() {
        let first = CString::new("first").unwrap();
        for (with_nodes, head, before) in [(false, 24, 32), (true, 152, 160)] {
            for len in [1, 7, 8, 9, 16, 255] {
                let name = CString::new(alloc::vec![b'n'; len]).unwrap();
                let len = (head + len + 7) / 8 * 8;
                for room in before..before + len + 9 {
                    let mut list = Listing::owned(room, with_nodes, room as u64);
                    assert_eq!(list.add(entry_of(&first)), Ok(true));
                    assert_eq!(list.left(), room - before);
                    let fits = list.fits(name.as_bytes());
                    assert_eq!(fits, before + len <= room, "{len} of {room}");
                    assert_eq!(list.add(entry_of(&name)), Ok(fits), "{len} of {room}");
                    assert_eq!(list.fits(b""), fits && head + before + len <= room);
                }
            }
        }
    }
}
