//! virtiofsd's own state, as 1.13.2 writes it (postcard), to refuse numbers that no state has, and
//! to correct the flags of open files. virtiofsd's reader takes some of those numbers, and ignores
//! bytes after its own. It refuses a node that has no way to the root itself.
use crate::open_flags::OpenFlags;
use serde::{Deserialize, Serialize};
use std::collections::{BTreeMap, BTreeSet};
use std::io;

/// The number of the root's node (`FUSE_ROOT_ID`).
const ROOT: u64 = 1;
/// Flags that virtiofsd removes before it keeps the flags of an open file.
const NEVER_KEPT: i32 = libc::O_CREAT | libc::O_EXCL | libc::O_TRUNC;

/// The state (`serialized::PassthroughFs` of virtiofsd).
#[derive(Debug, Deserialize, Serialize)]
enum State {
    V1(Parts),
    /// With the paths of mounts.
    V2(Parts, BTreeMap<u64, String>),
}

#[derive(Debug, Deserialize, Serialize)]
struct Parts {
    nodes: Vec<Node>,
    next_node: u64,
    handles: Vec<Handle>,
    next_handle: u64,
    /// What INIT agreed on.
    _agreed: [bool; 4],
}

#[derive(Debug, Deserialize, Serialize)]
struct Node {
    number: u64,
    /// The look-ups of the guest, and one for each node whose place names this one.
    count: u64,
    place: Place,
    _file_handle: Option<FileHandle>,
}

#[derive(Debug, Deserialize, Serialize)]
enum Place {
    Root,
    Name { parent: u64, name: String },
    Lost,
    Path { path: String },
    FileHandle { _handle: FileHandle },
}

/// A mount, a type, and bytes.
type FileHandle = (u64, i32, Vec<u8>);

#[derive(Debug, Deserialize, Serialize)]
struct Handle {
    number: u64,
    node: u64,
    source: Source,
}

#[derive(Debug, Deserialize, Serialize)]
enum Source {
    Open { flags: i32 },
}

fn is_name(name: &str) -> bool {
    !matches!(name, "" | "." | "..") && !name.contains(['/', '\0'])
}

fn is_path(path: &str) -> bool {
    path.split('/').all(is_name)
}

/// The nodes' numbers and counts, ordered. A state may have a million.
struct Counts(Vec<(u64, u64)>);

impl Counts {
    fn index(&self, number: u64) -> Option<usize> {
        self.0.binary_search_by_key(&number, |(number, _)| *number).ok()
    }
}

/// The nodes' numbers and counts, if each number may be.
fn check_numbers(nodes: &[Node], next: u64) -> Result<Counts, String> {
    let mut counts: Vec<_> = nodes.iter().map(|node| (node.number, node.count)).collect();
    counts.sort_unstable();
    let is_twice = |pair: &&[(u64, u64)]| pair[0].0 == pair[1].0;
    let wrong = counts.iter().find(|(number, _)| *number == 0 || *number >= next);
    if let Some((number, _)) = wrong.or(counts.windows(2).find(is_twice).map(|pair| &pair[0])) {
        return Err(format!("a node {number} that can't be, or is there twice"));
    }
    if let Some((number, _)) = counts.iter().find(|(_, count)| *count == 0) {
        return Err(format!("a node {number} that nobody looked up"));
    }
    Ok(Counts(counts))
}

/// The nodes' numbers and counts, if each number and each place may be.
fn check_nodes(nodes: &[Node], next: u64) -> Result<Counts, String> {
    let counts = check_numbers(nodes, next)?;
    let mut names = vec![0; counts.0.len()];
    for Node { number, place, .. } in nodes {
        let is_right = match place {
            Place::Root => *number == ROOT,
            Place::Name { parent, name } => {
                let parents = counts.index(*parent).and_then(|index| names.get_mut(index));
                let has_parent = parents.map(|names| *names += 1).is_some();
                has_parent && *number != ROOT && parent != number && is_name(name)
            }
            Place::Path { path } => *number != ROOT && is_path(path),
            Place::Lost | Place::FileHandle { .. } => *number != ROOT,
        };
        if !is_right {
            return Err(format!("a node {number} at a place that can't be: {place:?}"));
        }
    }
    if !nodes.is_empty() && counts.index(ROOT).is_none() {
        return Err("no root".into());
    }
    match counts.0.iter().zip(&names).find(|((_, count), names)| count < *names) {
        Some(((parent, _), names)) => {
            Err(format!("{names} nodes below a node {parent} that can't be"))
        }
        None => Ok(counts),
    }
}

fn check_parts(parts: &Parts) -> Result<(), String> {
    let nodes = check_nodes(&parts.nodes, parts.next_node)?;
    let mut numbers = BTreeSet::new();
    for Handle { number, node, source: Source::Open { flags } } in &parts.handles {
        if *number >= parts.next_handle || !numbers.insert(*number) {
            return Err(format!("a handle {number} that can't be, or is there twice"));
        }
        if nodes.index(*node).is_none() {
            return Err(format!("a handle {number} of a node {node} that isn't there"));
        }
        if flags & NEVER_KEPT != 0 {
            return Err(format!("a handle {number} with flags that none has: {flags:#o}"));
        }
    }
    Ok(())
}

/// Changes the flags of open files to those that apply on the host. Returns whether one differs.
#[allow(clippy::cast_possible_wrap, clippy::cast_sign_loss, reason = "flags are bits")]
fn correct(handles: &mut [Handle], host: OpenFlags) -> bool {
    let mut differs = false;
    for Handle { source: Source::Open { flags }, .. } in handles {
        let on_host = host.for_host(*flags as u32) as i32;
        differs |= on_host != *flags;
        *flags = on_host;
    }
    differs
}

/// Drops the nodes that are gone for good: `is_gone` is asked about those that have no place, and
/// with `is_thorough` about those with a file handle, unless a file of theirs is open. Returns the
/// state, if it has changed, and the number of nodes without a place that are left.
pub fn without_gone(
    state: &[u8],
    is_thorough: bool,
    is_gone: impl Fn(u64) -> bool,
) -> io::Result<(Option<Vec<u8>>, usize)> {
    let mut read = postcard::from_bytes::<State>(state).map_err(io::Error::other)?;
    let (State::V1(parts) | State::V2(parts, _)) = &mut read;
    let open: BTreeSet<u64> = parts.handles.iter().map(|handle| handle.node).collect();
    let before = parts.nodes.len();
    parts.nodes.retain(|Node { number, place, .. }| {
        let is_asked = match place {
            Place::Lost => true,
            Place::FileHandle { .. } => is_thorough,
            _ => false,
        };
        !is_asked || open.contains(number) || !is_gone(*number)
    });
    let lost = parts.nodes.iter().filter(|node| matches!(node.place, Place::Lost)).count();
    if parts.nodes.len() == before {
        return Ok((None, lost));
    }
    Ok((Some(postcard::to_stdvec(&read).map_err(io::Error::other)?), lost))
}

/// Refuses a state with a number that can't be, and one with more bytes. Returns it with the flags
/// of open files that apply on the host: a state of virtiofsd has the guest's own.
pub fn for_host(state: Vec<u8>, host: OpenFlags) -> io::Result<Vec<u8>> {
    let refuse = |why: String| {
        io::Error::new(io::ErrorKind::InvalidData, format!("the state is damaged: it has {why}"))
    };
    let (mut read, rest) = postcard::take_from_bytes::<State>(&state)
        .map_err(|e| refuse(format!("another form than virtiofsd's ({e})")))?;
    if !rest.is_empty() {
        return Err(refuse(format!("{} bytes after its end", rest.len())));
    }
    let (State::V1(parts) | State::V2(parts, _)) = &mut read;
    check_parts(parts).map_err(refuse)?;
    if correct(&mut parts.handles, host) {
        return postcard::to_stdvec(&read).map_err(io::Error::other);
    }
    Ok(state)
}

#[cfg(test)]
mod tests {
    use super::*;

    fn node(number: u64, count: u64, place: Place) -> Node {
        Node { number, count, place, _file_handle: None }
    }

    fn below(parent: u64, name: &str) -> Place {
        Place::Name { parent, name: name.into() }
    }

    fn handle(number: u64, node: u64, flags: i32) -> Handle {
        Handle { number, node, source: Source::Open { flags } }
    }

    /// The root, a directory in it, a file in that, and the file open.
    fn parts() -> Parts {
        let nodes = vec![
            node(5, 1, below(3, "file")),
            node(3, 2, below(1, "dir")),
            node(1, 4, Place::Root),
        ];
        let handles = vec![handle(7, 5, libc::O_RDWR)];
        Parts { nodes, next_node: 6, handles, next_handle: 8, _agreed: [false; 4] }
    }

    fn check(state: &[u8]) -> io::Result<()> {
        let unchanged = for_host(state.to_vec(), OpenFlags::default())?;
        assert_eq!(unchanged, state);
        Ok(())
    }

    fn checked(parts: Parts) -> io::Result<()> {
        check(&postcard::to_stdvec(&State::V2(parts, BTreeMap::new())).expect("bytes"))
    }

    #[test]
    fn a_state_that_can_be_is_taken() {
        checked(parts()).expect("a state");
        check(&postcard::to_stdvec(&State::V1(parts())).expect("bytes")).expect("a state");
        let none = Parts { nodes: Vec::new(), handles: Vec::new(), next_handle: 0, ..parts() };
        checked(none).expect("a state before INIT");
        let places = [
            Place::Lost,
            Place::Path { path: "dir/file".into() },
            Place::FileHandle { _handle: (1, 2, vec![3]) },
        ];
        for place in places {
            let mut parts = parts();
            parts.nodes[0].place = place;
            checked(parts).expect("a state");
        }
    }

    /// Nodes 2 and 6 are gone. A file of node 5 is open.
    #[test]
    fn nodes_that_are_gone_are_dropped() {
        let handle_of = |k| Place::FileHandle { _handle: (1, 2, vec![k]) };
        let state = |places: Vec<(u64, Place)>| {
            let mut parts = Parts { next_node: 9, ..parts() };
            parts.nodes.extend(places.into_iter().map(|(number, place)| node(number, 1, place)));
            postcard::to_stdvec(&State::V2(parts, BTreeMap::new())).expect("bytes")
        };
        let without = |places: Vec<(u64, Place)>, is_thorough| {
            let is_gone = |number| [2, 5, 6].contains(&number);
            without_gone(&state(places), is_thorough, is_gone).expect("a state")
        };
        let all = || vec![(2, handle_of(1)), (4, handle_of(2)), (6, Place::Lost), (7, Place::Lost)];
        assert_eq!(without(vec![(4, handle_of(2))], true), (None, 0));
        let left = state(vec![(2, handle_of(1)), (4, handle_of(2)), (7, Place::Lost)]);
        assert_eq!(without(all(), false), (Some(left), 1));
        let left = state(vec![(4, handle_of(2)), (7, Place::Lost)]);
        assert_eq!(without(all(), true), (Some(left), 1));
        let mut open = parts();
        open.nodes[0].place = Place::Lost;
        let open = postcard::to_stdvec(&State::V1(open)).expect("bytes");
        assert_eq!(without_gone(&open, true, |_| true).expect("a state"), (None, 1));
        assert!(without_gone(b"", true, |_| true).is_err());
    }

    #[test]
    fn each_number_that_can_not_be_is_refused() {
        type Change = fn(&mut Parts);
        let changes: [(&str, Change); 18] = [
            ("a handle of no node", |parts| parts.handles[0].node = 4),
            ("a handle that is to come", |parts| parts.next_handle = 7),
            ("a handle twice", |parts| parts.handles.push(handle(7, 3, 0))),
            ("O_TRUNC", |parts| parts.handles[0].source = Source::Open { flags: 0o1002 }),
            ("O_CREAT", |parts| parts.handles[0].source = Source::Open { flags: 0o102 }),
            ("a node that is to come", |parts| parts.next_node = 5),
            ("a node twice", |parts| parts.nodes.push(node(3, 1, below(1, "other")))),
            ("a node 0", |parts| parts.nodes[0].number = 0),
            ("a node that nobody looked up", |parts| parts.nodes[0].count = 0),
            ("more names than the parent's count", |parts| parts.nodes[1].count = 0),
            ("two names, a count of one", |parts| {
                parts.nodes[1].count = 1;
                parts.nodes.push(node(4, 1, below(3, "another")));
            }),
            ("no parent", |parts| parts.nodes[0].place = below(4, "file")),
            ("its own parent", |parts| parts.nodes[0].place = below(5, "file")),
            ("a name that leads out", |parts| parts.nodes[0].place = below(3, "..")),
            ("a name with a slash", |parts| parts.nodes[0].place = below(3, "a/b")),
            ("a path that leads out", |parts| {
                parts.nodes[0].place = Place::Path { path: "dir/../..".into() };
            }),
            ("another root", |parts| parts.nodes[0].place = Place::Root),
            ("no root", |parts| parts.nodes[2].place = Place::Lost),
        ];
        for (what, change) in changes {
            let mut parts = parts();
            change(&mut parts);
            assert!(checked(parts).is_err(), "{what}");
        }
    }

    /// The file with `O_APPEND` is opened without it, and nothing else of the state changes.
    #[test]
    fn open_files_get_the_flags_that_apply_on_the_host() {
        let with = |flags| {
            let file_handle = (1, 2, vec![3, 0x80]);
            let place = Place::FileHandle { _handle: file_handle.clone() };
            let mut parts = parts();
            parts.nodes.push(Node { _file_handle: Some(file_handle), ..node(4, 300, place) });
            parts.handles.push(handle(6, 3, libc::O_DIRECTORY));
            parts.handles[0].source = Source::Open { flags };
            let mounts = BTreeMap::from([(1, "dir".into()), (200, String::new())]);
            postcard::to_stdvec(&State::V2(parts, mounts)).expect("bytes")
        };
        let writeback = OpenFlags { writeback: true, ..OpenFlags::default() };
        for (guests, host, on_host) in [
            (libc::O_WRONLY | libc::O_APPEND, OpenFlags::default(), libc::O_WRONLY),
            (libc::O_WRONLY, OpenFlags::default(), libc::O_WRONLY),
            (libc::O_WRONLY, writeback, libc::O_RDWR),
            (libc::O_RDWR | libc::O_DIRECT | libc::O_NOATIME, writeback, libc::O_RDWR),
        ] {
            let corrected = for_host(with(guests), host).expect("a state");
            assert_eq!(corrected, with(on_host), "{guests:#o}");
        }
    }

    #[test]
    fn bytes_that_are_no_state_are_refused() {
        let state = postcard::to_stdvec(&State::V1(parts())).expect("bytes");
        for len in 0..state.len() {
            assert!(check(&state[..len]).is_err(), "{len}");
        }
        assert!(check(&[&state[..], &[0]].concat()).is_err());
        assert!(check(&state.repeat(2)).is_err());
        assert!(check(&[&[2], &state[1..]].concat()).is_err()); // another version
    }

    /// These are virtiofsd's types, whose bytes virtiofsd itself writes.
    #[test]
    fn virtiofsds_own_is_taken() {
        use std::io::{Read, Seek};
        use virtiofsd::filesystem::{Context, FileSystem, SerializableFileSystem};
        use virtiofsd::passthrough::{Config, PassthroughFs};
        let root_dir = std::env::temp_dir().join(format!("pitskhomu-inner-{}", std::process::id()));
        std::fs::create_dir_all(root_dir.join("dir")).expect("a directory");
        std::fs::write(root_dir.join("dir/file"), "bytes").expect("a file");
        let root = root_dir.to_str().expect("a path").into();
        let fs = PassthroughFs::new(Config { root_dir: root, ..Config::default() }).expect("files");
        fs.init(virtiofsd::fuse::FsOptions::empty()).expect("a session");
        let x = || Context { uid: 0.into(), gid: 0.into(), pid: 1 };
        let dir = fs.lookup(x(), 1, c"dir").expect("the directory").inode;
        let file = fs.lookup(x(), dir, c"file").expect("the file").inode;
        fs.open(x(), file, false, libc::O_RDWR as u32).expect("an open file");
        fs.prepare_serialization(std::sync::Arc::default());
        let mut bytes = Vec::new();
        let mut written = crate::state::scratch().expect("a file in memory");
        fs.serialize(written.try_clone().expect("a descriptor")).expect("a state");
        written.rewind().and_then(|()| written.read_to_end(&mut bytes)).expect("bytes");
        check(&bytes).expect("virtiofsd's state");
        let again = postcard::from_bytes::<State>(&bytes).expect("read");
        assert_eq!(postcard::to_stdvec(&again).expect("bytes"), bytes);
        let (State::V1(parts) | State::V2(parts, _)) = postcard::from_bytes(&bytes).expect("read");
        assert_eq!((parts.nodes.len(), parts.handles.len()), (3, 1));
        assert_eq!((parts.next_node, parts.next_handle), (file + 1, 1));
        std::fs::remove_dir_all(&root_dir).expect("removed");
    }
}
