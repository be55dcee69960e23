//! READDIR and READDIRPLUS: entries as struct fuse_dirent and struct fuse_direntplus lay them out.
mod guest;

use guest::recorder::{entry, Recorder};
use guest::{args, number, request, Bytes, Guest, Replied, Way, ROOM, WAYS};
use pitskhomu::*;
use std::panic::{catch_unwind, AssertUnwindSafe};

const READDIR: u32 = 28;
const READDIRPLUS: u32 = 44;

fn c(name: &'static [u8]) -> &'static CStr {
    CStr::from_bytes_with_nul(name).unwrap()
}

fn listing(names: Vec<&'static CStr>) -> Recorder {
    Recorder { names, ..Recorder::default() }
}

/// struct fuse_read_in.
fn read(size: u32) -> Bytes {
    args().q(3).q(0).d(size).d(0).q(0).d(0).d(0)
}

/// The entries of a reply: number, offset, kind and name; with nodes, each begins with struct
/// fuse_entry_out.
fn entries(bytes: &[u8], front: usize) -> Vec<(u64, u64, u64, String)> {
    let (mut found, mut at) = (Vec::new(), 0);
    while at < bytes.len() {
        let one = &bytes[at + front..];
        let len = number(one, 16, 4) as usize;
        let name = String::from_utf8_lossy(&one[24..24 + len]).into_owned();
        found.push((number(one, 0, 8), number(one, 8, 8), number(one, 20, 4), name));
        at += (front + 24 + len + 7) / 8 * 8;
    }
    found
}

fn found(k: u64, name: &str) -> (u64, u64, u64, String) {
    (0x600 + k, k, 8, name.to_owned())
}

#[test]
fn names_are_listed() {
    WAYS.into_iter().for_each(names_are_listed_by);
}

fn names_are_listed_by(way: Way) {
    let (mut guest, recorder) =
        (Guest::by(way), listing(vec![c(b".\0"), c(b"of eight\0"), c(b"longer name\0")]));
    let data = guest.ask(&recorder, READDIR, 5, read(4096), 16 + 4096).data();
    // A name of 8 bytes has no zeros behind.
    assert_eq!(entries(&data, 0), [found(1, "."), found(2, "of eight"), found(3, "longer name")]);
    assert_eq!(data.len(), 32 + 32 + 40);
    let read = "ReadDirectory { handle: Handle(3), offset: 0, size: 4096 }, 4096, false";
    assert_eq!(recorder.taken(), [format!("readdir (Node(5), {read})")]);
}

#[test]
fn a_list_ends_where_no_more_fits() {
    WAYS.into_iter().for_each(a_list_ends_where_no_more_fits_by);
}

fn a_list_ends_where_no_more_fits_by(way: Way) {
    let (mut guest, recorder) = (Guest::by(way), listing(vec![c(b"a\0"), c(b"b\0"), c(b"c\0")]));
    let data = guest.ask(&recorder, READDIR, 5, read(95), 16 + 95).data();
    assert_eq!(entries(&data, 0), [found(1, "a"), found(2, "b")]);
    // None at all would end the directory.
    assert_eq!(guest.ask(&recorder, READDIR, 5, read(31), 16 + 31), Replied::Error(22));
    // The directory ends.
    assert_eq!(guest.ask(&listing(vec![]), READDIR, 5, read(31), 16 + 31), Replied::Data(vec![]));
}

#[test]
fn nodes_are_listed() {
    WAYS.into_iter().for_each(nodes_are_listed_by);
}

fn nodes_are_listed_by(way: Way) {
    let (mut guest, recorder) = (Guest::by(way), listing(vec![c(b".\0"), c(b"..\0"), c(b"a\0")]));
    let data = guest.ask(&recorder, READDIRPLUS, 5, read(4096), 16 + 4096).data();
    assert_eq!(entries(&data[..160], 128), [found(1, ".")]);
    assert_eq!(number(&data, 0, 8), 0, "no node is held of .");
    assert_eq!(
        (number(&data, 40, 8), number(&data, 40 + 60, 4)),
        (0x601, 0o100000),
        "its number and kind"
    );
    let attributes = entry().attributes;
    assert_eq!(entries(&data[320..], 128), [(attributes.inode, 3, 8, "a".to_owned())]);
    assert_eq!(number(&data, 320, 8), entry().node.0);
    assert_eq!(recorder.taken()[1..], [r#"lookup (Node(5), "a")"#]);
}

#[test]
fn a_node_that_is_not_told_is_not_looked_up() {
    WAYS.into_iter().for_each(a_node_that_is_not_told_is_not_looked_up_by);
}

fn a_node_that_is_not_told_is_not_looked_up_by(way: Way) {
    let (mut guest, recorder) = (Guest::by(way), listing(vec![c(b"a\0"), c(b"b\0")]));
    let data = guest.ask(&recorder, READDIRPLUS, 5, read(319), 16 + 319).data();
    assert_eq!(entries(&data, 128).len(), 1);
    assert_eq!(recorder.taken()[1..], [r#"lookup (Node(5), "a")"#]);
}

#[test]
fn an_entry_that_was_asked_for_and_has_no_room() {
    WAYS.into_iter().for_each(an_entry_that_was_asked_for_and_has_no_room_by);
}

fn an_entry_that_was_asked_for_and_has_no_room_by(way: Way) {
    let (mut guest, recorder) = (Guest::by(way), listing(vec![c(b"a\0"), c(b"b\0")]));
    // The first entry fits the size, and the room is shorter. virtiofsd answers EIO, too.
    for (opcode, len) in [(READDIR, 32), (READDIRPLUS, 160)] {
        assert_eq!(guest.ask(&recorder, opcode, 5, read(len), 16 + len - 1), Replied::Error(5));
    }
    // The second: READDIR fails; by READDIRPLUS the guest gets the entries whose nodes it holds.
    assert_eq!(guest.ask(&recorder, READDIR, 5, read(64), 64), Replied::Error(5));
    let data = guest.ask(&recorder, READDIRPLUS, 5, read(320), 320).data();
    assert_eq!(entries(&data, 128).len(), 1);
}

#[test]
fn a_memory_that_panics_at_the_list_gets_a_reply() {
    for (opcode, calls) in [(READDIR, 1), (READDIRPLUS, 2)] {
        let (mut guest, recorder) = (Guest::new(), listing(vec![c(b"a\0")]));
        guest.offer_request(&request(opcode, 5, &read(4096).0), 16 + 4096);
        guest.memory.panics_at.set(Some(ROOM + 0x1000));
        assert!(catch_unwind(AssertUnwindSafe(|| guest.serve(&recorder))).is_err());
        guest.memory.panics_at.set(None);
        // By READDIRPLUS the guest gets the entries whose nodes it holds.
        match guest.serve(&recorder).1 {
            Replied::Data(data) => {
                assert_eq!((opcode, entries(&data, 128).len()), (READDIRPLUS, 1))
            }
            reply => assert_eq!((opcode, reply), (READDIR, Replied::Error(5))),
        }
        assert!(guest.is_idle(&recorder));
        assert_eq!(recorder.taken().len(), calls, "nothing is asked twice");
    }
}

/// Lists two names and fails then, or fails at the look-up of the second.
struct Fails {
    fails_look_up: bool,
}

impl FileSystem for Fails {
    fn lookup(&self, _: &Context, _: Node, name: &CStr) -> Answer<Entry> {
        if self.fails_look_up && name.to_bytes() == b"b" {
            return Err(Errno::EACCES);
        }
        Ok(entry())
    }
    fn getattr(
        &self,
        _: &Context,
        _: Node,
        _: Option<Handle>,
    ) -> Answer<(Attributes, std::time::Duration)> {
        Err(Errno::EIO)
    }
    fn readdir(
        &self,
        context: &Context,
        node: Node,
        _: ReadDirectory,
        list: &mut Listing<'_>,
    ) -> Answer<()> {
        for (name, k) in [c(b"a\0"), c(b"b\0")].into_iter().zip(1..) {
            let kind = FileKind::REGULAR;
            let entry = DirectoryEntry::new(name, 0x600 + k, k, kind);
            list.add_with(entry, || self.lookup(context, node, name))?;
        }
        Err(Errno::EIO)
    }
}

#[test]
fn a_listing_that_fails() {
    WAYS.into_iter().for_each(a_listing_that_fails_by);
}

fn a_listing_that_fails_by(way: Way) {
    let mut guest = Guest::by(way);
    let fails = |fails_look_up| Fails { fails_look_up };
    // No node is held: the error is the reply.
    assert_eq!(guest.ask(&fails(false), READDIR, 5, read(4096), 16 + 4096), Replied::Error(5));
    // The guest holds the nodes so far: it gets them, and the error when it reads on.
    let data = guest.ask(&fails(false), READDIRPLUS, 5, read(4096), 16 + 4096).data();
    assert_eq!(entries(&data, 128).len(), 2);
    let data = guest.ask(&fails(true), READDIRPLUS, 5, read(4096), 16 + 4096).data();
    assert_eq!(entries(&data, 128).len(), 1);
    assert_eq!(number(&data, 0, 8), entry().node.0);
}

#[test]
fn names_that_no_directory_has() {
    WAYS.into_iter().for_each(names_that_no_directory_has_by);
}

fn names_that_no_directory_has_by(way: Way) {
    struct Named(&'static CStr, Errno);
    impl FileSystem for Named {
        fn lookup(&self, _: &Context, _: Node, _: &CStr) -> Answer<Entry> {
            Err(Errno::ENOENT)
        }
        fn getattr(
            &self,
            _: &Context,
            _: Node,
            _: Option<Handle>,
        ) -> Answer<(Attributes, std::time::Duration)> {
            Err(Errno::EIO)
        }
        fn readdir(
            &self,
            _: &Context,
            _: Node,
            _: ReadDirectory,
            list: &mut Listing<'_>,
        ) -> Answer<()> {
            let entry = DirectoryEntry::new(self.0, 1, 1, FileKind::UNKNOWN);
            assert_eq!(list.add(entry), Err(self.1));
            list.add(entry).map(|_| ())
        }
    }
    static LONG: [u8; 257] = {
        let mut long = [b'x'; 257];
        long[256] = 0;
        long
    };
    let mut guest = Guest::by(way);
    for name in [c(b"\0"), c(&LONG)] {
        assert_eq!(
            guest.ask(&Named(name, Errno::ENAMETOOLONG), READDIR, 5, read(4096), 16 + 4096),
            Replied::Error(36)
        );
    }
    // A Linux guest answers EIO to a listing that has such a name (parse_dirfile of
    // fs/fuse/readdir.c).
    assert_eq!(
        guest.ask(&Named(c(b"a/b\0"), Errno::EIO), READDIR, 5, read(4096), 16 + 4096),
        Replied::Error(5)
    );
}

/// How much a list holds: as much as was asked for, but no more than the reply buffer has behind
/// its header. An owned list has its own place, and holds as much.
#[test]
fn a_list_is_as_long_as_the_buffer() {
    for (opcode, size, room, left) in
        [(READDIR, 100, 100, 84), (READDIR, 100, 116, 100), (READDIRPLUS, 500, 512, 496)]
    {
        let mut guest = Guest::new();
        guest.offer_request(&request(opcode, 5, &read(size).0), room);
        let taken = guest.worker.take(&mut guest.queue, &guest.device, &guest.memory);
        let taken = taken.unwrap().expect("a chain waits");
        match &taken.operation {
            Operation::Readdir { list, .. } => assert_eq!(list.left(), left),
            other => panic!("{other:?}"),
        }
        match taken.into_owned().unwrap().call.operation() {
            Operation::Readdir { list, .. } => assert_eq!(list.left(), left, "owned"),
            other => panic!("{other:?}"),
        };
    }
}
