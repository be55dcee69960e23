//! What the guest may keep besides what virtiofsd lets it keep. Each is an option, off by default:
//! the guest then sees a change by somebody else later, or a promise about the host's file system
//! is made.
use pitskhomu::{self as p, Handle, Node, OpenOptions};
use std::collections::HashMap;
use std::sync::{Mutex, MutexGuard, PoisonError};
use std::time::{Duration, SystemTime, UNIX_EPOCH};

/// A file whose last change is younger than this when it is opened may be changed once more without
/// another time: the host's clock of files has steps of up to 10 milliseconds, and FAT's of two
/// seconds.
const SETTLED_AFTER: Duration = Duration::from_secs(3);

/// The options, and what they need to know.
#[derive(Debug, Default)]
pub struct GuestCache {
    /// How long the guest may keep that a name is missing.
    pub negative: Duration,
    /// The guest may keep where links lead.
    pub links: bool,
    /// The guest sends no FLUSH when it closes a file.
    pub no_flush: bool,
    /// The guest keeps a file's pages from one open to the next, if nobody changed it meanwhile.
    pub pages: Option<Pages>,
}

impl GuestCache {
    /// The options of INIT that are added, of those that the guest has.
    pub fn options(&self, capable: p::Options) -> p::Options {
        if self.links {
            capable & p::Options::CACHE_SYMLINKS
        } else {
            p::Options::empty()
        }
    }

    /// The answer to a LOOKUP: an entry without a node for a name that is missing.
    pub fn found(&self, found: p::Answer<p::Entry>) -> p::Answer<p::Entry> {
        match found {
            Err(p::Errno::ENOENT) if !self.negative.is_zero() => {
                let missing = p::Entry::new(Node(0), p::Attributes::default());
                Ok(missing.with_entry_timeout(self.negative))
            }
            found => found,
        }
    }
}

/// The size and times of a file. Each change by a system call changes one of them.
#[derive(Debug, Clone, Copy, PartialEq, Eq)]
pub struct Version {
    size: u64,
    mtime: p::Time,
    ctime: p::Time,
}

impl Version {
    pub fn of(attributes: &p::Attributes) -> Version {
        let p::Attributes { size, mtime, ctime, .. } = *attributes;
        Version { size, mtime, ctime }
    }

    /// Whether a change after `now` can't leave these times as they are.
    fn is_settled(&self, now: SystemTime) -> bool {
        let now = now.duration_since(UNIX_EPOCH).unwrap_or_default();
        let settled = now.saturating_sub(SETTLED_AFTER).as_secs();
        let settled = i64::try_from(settled).unwrap_or(i64::MAX);
        self.ctime.seconds() < settled && self.mtime.seconds() < settled
    }
}

/// The versions of files as the guest opened them.
///
/// The guest has a file's pages as of a version once it has processed the answer to an OPEN at
/// which the file had that version, and the version still holds. That it has processed the answer
/// is known when it closes that file: an answer to another OPEN may overtake it.
#[derive(Debug, Default)]
pub struct Pages(Mutex<Versions>);

#[derive(Debug, Default)]
struct Versions {
    /// By handle: the file's node, and its version when it was opened.
    opened: HashMap<u64, (u64, Version)>,
    /// By node: the version at an open whose file was closed since.
    seen: HashMap<u64, Version>,
}

impl Pages {
    fn lock(&self) -> MutexGuard<'_, Versions> {
        self.0.lock().unwrap_or_else(PoisonError::into_inner)
    }

    /// The file of a node was opened, and had this version then, looked at after `now`. Returns
    /// whether the guest's pages are of this version.
    pub fn open(&self, node: Node, handle: Handle, version: Version, now: SystemTime) -> bool {
        let mut versions = self.lock();
        if version.is_settled(now) {
            versions.opened.insert(handle.0, (node.0, version));
        } else {
            versions.opened.remove(&handle.0);
        }
        versions.seen.get(&node.0) == Some(&version)
    }

    /// The guest closed the file, or `is_undone`: it never got the answer to the OPEN.
    pub fn release(&self, handle: Handle, is_undone: bool) {
        let mut versions = self.lock();
        if let Some((node, version)) = versions.opened.remove(&handle.0) {
            if !is_undone {
                versions.seen.insert(node, version);
            }
        }
    }

    /// The guest forgets the node, and its pages with it.
    pub fn forget(&self, node: Node) {
        self.lock().seen.remove(&node.0);
    }

    /// A session ends.
    pub fn clear(&self) {
        *self.lock() = Versions::default();
    }
}

/// The options of an answer to OPEN: those of virtiofsd, and these.
pub fn more(of_virtiofsd: OpenOptions, no_flush: bool, keeps: bool) -> OpenOptions {
    let if_so = |is_so, option| if is_so { option } else { OpenOptions::empty() };
    of_virtiofsd | if_so(no_flush, OpenOptions::NOFLUSH) | if_so(keeps, OpenOptions::KEEP_CACHE)
}

#[cfg(test)]
mod tests {
    use super::*;

    const FIRST: Node = Node(0x1122_3344_5566_7788);

    fn version(size: u64, ctime: i64) -> Version {
        let attributes = p::Attributes::default()
            .with_size(size)
            .with_mtime(p::Time::from_seconds(1))
            .with_ctime(p::Time::from_seconds(ctime));
        Version::of(&attributes)
    }

    fn at(seconds: u64) -> SystemTime {
        UNIX_EPOCH + Duration::from_secs(seconds)
    }

    #[test]
    fn pages_are_kept_if_the_file_is_as_it_was_at_an_open_that_is_closed() {
        let (pages, file) = (Pages::default(), version(5, 10));
        assert!(!pages.open(FIRST, Handle(1), file, at(100)), "nothing is known");
        assert!(!pages.open(FIRST, Handle(2), file, at(100)), "the first answer may be under way");
        pages.release(Handle(1), false);
        assert!(pages.open(FIRST, Handle(3), file, at(100)));
        pages.open(Node(8), Handle(5), file, at(100));
        pages.release(Handle(5), true);
        assert!(!pages.open(Node(8), Handle(6), file, at(100)), "the guest got no answer");
        assert!(!pages.open(Node(7), Handle(4), file, at(100)), "another node's");
    }

    #[test]
    fn a_file_that_was_changed_is_read_again() {
        let pages = Pages::default();
        pages.open(FIRST, Handle(1), version(5, 10), at(100));
        pages.release(Handle(1), false);
        for changed in [version(6, 10), version(5, 11)] {
            assert!(!pages.open(FIRST, Handle(2), changed, at(100)));
        }
        let mtime = p::Attributes::default()
            .with_size(5)
            .with_mtime(p::Time::from_seconds(2))
            .with_ctime(p::Time::from_seconds(10));
        assert!(!pages.open(FIRST, Handle(3), Version::of(&mtime), at(100)));
    }

    #[test]
    fn a_file_that_was_just_changed_may_change_again_unseen() {
        for (now, is_kept) in [(10, false), (13, false), (14, true)] {
            let (pages, file) = (Pages::default(), version(5, 10));
            pages.open(FIRST, Handle(1), file, at(now));
            pages.release(Handle(1), false);
            assert_eq!(pages.open(FIRST, Handle(2), file, at(100)), is_kept, "{now}");
        }
    }

    #[test]
    fn a_session_and_a_node_that_is_forgotten_leave_nothing() {
        let (pages, file) = (Pages::default(), version(5, 10));
        for forget in [|pages: &Pages| pages.forget(FIRST), |pages: &Pages| pages.clear()] {
            pages.open(FIRST, Handle(1), file, at(100));
            pages.release(Handle(1), false);
            forget(&pages);
            assert!(!pages.open(FIRST, Handle(2), file, at(100)));
            pages.clear();
        }
    }

    #[test]
    fn a_missing_name_is_kept_for_the_time_that_is_said() {
        let cache = GuestCache { negative: Duration::from_secs(5), ..GuestCache::default() };
        let missing = cache.found(Err(p::Errno::ENOENT)).expect("an entry");
        assert_eq!((missing.node, missing.entry_timeout), (Node(0), Duration::from_secs(5)));
        assert!(matches!(cache.found(Err(p::Errno::EACCES)), Err(p::Errno::EACCES)));
        let none = GuestCache::default().found(Err(p::Errno::ENOENT));
        assert!(matches!(none, Err(p::Errno::ENOENT)));
    }

    #[test]
    fn options_are_added_if_they_are_wanted_and_the_guest_has_them() {
        let (links, none) = (p::Options::CACHE_SYMLINKS, p::Options::empty());
        let cache = GuestCache { links: true, ..GuestCache::default() };
        assert_eq!((cache.options(!none), cache.options(none)), (links, none));
        assert_eq!(GuestCache::default().options(!none), none);
        // linux/fuse.h: FOPEN_DIRECT_IO 1, FOPEN_KEEP_CACHE 2, FOPEN_NOFLUSH 32.
        let bits = |no_flush, keeps| more(OpenOptions::DIRECT_IO, no_flush, keeps).bits();
        assert_eq!((bits(false, false), bits(true, false), bits(false, true)), (1, 33, 3));
    }
}
