//! The guest for tests of a file system: each method's request as the file system gets it, and its
//! reply as the guest does.
mod guest;

use guest::recorder::{attributes, entry, opened, Recorder};
use pitskhomu::testing::{Guest, MAX_DATA};
use pitskhomu::*;
use std::fmt::Debug;
use std::sync::mpsc::channel;
use std::thread;
use std::time::Duration;

const NODE: Node = Node(5);
const HANDLE: Handle = Handle(3);

fn recorder() -> Recorder {
    Recorder { is_unchecked: true, wanted: Options::SETXATTR_EXT, ..Recorder::default() }
}

/// One call of the guest: its result, and what the file system was asked.
fn check<T: PartialEq + Debug>(
    call: impl FnOnce(&mut Guest<'_>) -> T,
    result: impl Into<Option<T>>,
    asked: &str,
) {
    let recorder = recorder();
    let mut guest = Guest::new(&recorder);
    guest.init().unwrap();
    assert_eq!(recorder.taken(), ["init ()"]);
    let found = call(&mut guest);
    if let Some(result) = result.into() {
        assert_eq!(found, result);
    }
    assert_eq!(recorder.taken(), [asked]);
}

#[test]
fn names() {
    let child = "Child { parent: Node(5), name: \"a\", label: None }";
    check(|guest| guest.lookup(NODE, "a"), Ok(entry()), "lookup (Node(5), \"a\")");
    check(
        |guest| guest.symlink(NODE, "a", "to/b"),
        Ok(entry()),
        &format!("symlink ({child}, \"to/b\", None)"),
    );
    let make = "MakeNode { mode: 33188, rdev: 259, umask: 0 }";
    check(
        |guest| guest.mknod(NODE, "a", 0o100_644, 0x103),
        Ok(entry()),
        &format!("mknod ({child}, {make}, None)"),
    );
    let make = "MakeDirectory { mode: 448, umask: 0 }";
    check(|guest| guest.mkdir(NODE, "a", 0o700), Ok(entry()), &format!("mkdir ({child}, {make})"));
    check(|guest| guest.unlink(NODE, "a"), Ok(()), &format!("unlink {child}"));
    check(|guest| guest.rmdir(NODE, "a"), Ok(()), &format!("rmdir {child}"));
    let to = "Child { parent: Node(6), name: \"b\", label: None }";
    check(
        |guest| guest.rename((NODE, "a"), (Node(6), "b"), RenameFlags::EXCHANGE),
        Ok(()),
        &format!("rename ({child}, {to}, RenameFlags(EXCHANGE | 0x0))"),
    );
    check(|guest| guest.link(Node(9), NODE, "a"), Ok(entry()), &format!("link (Node(9), {child})"));
    let create = "Create { flags: 66, mode: 33152, umask: 0, kill_priv: false }";
    check(
        |guest| guest.create(NODE, "a", 0o100_600, 0x42),
        Ok((entry(), opened())),
        &format!("create ({child}, {create})"),
    );
}

#[test]
fn files() {
    let open = "Open { flags: 2, kill_priv: false }";
    check(|guest| guest.open(NODE, 2), Ok(opened()), &format!("open (Node(5), {open})"));
    let read = "ReadFile { handle: Handle(3), offset: 7, size: 100, flags: 0, lock_owner: None }";
    check(
        |guest| guest.read(NODE, HANDLE, 7, 100),
        Ok(b"some data".to_vec()),
        &format!("read (Node(5), {read}, 100, (5, 4), 9)"),
    );
    let write = "WriteFile { handle: Handle(3), offset: 7, size: 5, flags: 0, lock_owner: None, \
                 delayed: false, kill_priv: false }";
    check(
        |guest| guest.write(NODE, HANDLE, 7, b"hello"),
        Ok(5),
        &format!("write (Node(5), {write}, \"hello\")"),
    );
    let release = "Release { handle: Handle(3), flags: 2, flush: false, unlock: false, \
                   lock_owner: None }";
    check(|guest| guest.release(NODE, HANDLE, 2), Ok(()), &format!("release (Node(5), {release})"));
    check(|guest| guest.flush(NODE, HANDLE), Ok(()), "flush (Node(5), Handle(3), 0)");
    check(|guest| guest.fsync(NODE, HANDLE, true), Ok(()), "fsync (Node(5), Handle(3), true)");
    let allocate = "Allocate { handle: Handle(3), mode: 1, offset: 7, len: 9 }";
    check(
        |guest| guest.fallocate(NODE, HANDLE, 1, (7, 9)),
        Ok(()),
        &format!("fallocate (Node(5), {allocate})"),
    );
    let seek = "SeekFile { handle: Handle(3), offset: 7, whence: 4 }";
    check(|guest| guest.lseek(NODE, HANDLE, 7, 4), Ok(0x701), &format!("lseek (Node(5), {seek})"));
    let mut copy = CopyFileRange::default();
    copy.from = FilePlace::new(NODE, HANDLE, 7);
    copy.to = FilePlace::new(Node(6), Handle(4), 8);
    copy.len = 0x900;
    check(|guest| guest.copy_file_range(copy), Ok(0x801), &format!("copy_file_range {copy:?}"));
}

#[test]
fn attributes_and_values() {
    let found = (attributes(), Duration::new(0x401, 0x402));
    check(|guest| guest.getattr(NODE, None), Ok(found), "getattr (Node(5), None)");
    check(
        |guest| guest.getattr(NODE, Some(HANDLE)),
        Ok(found),
        "getattr (Node(5), Some(Handle(3)))",
    );
    let mut set = SetAttributes::default();
    set.valid = SetAttributesValid::SIZE | SetAttributesValid::MODE;
    (set.values.size, set.values.mode) = (0x1234, 0o600);
    check(
        |guest| guest.setattr(NODE, &set),
        Ok(found),
        "setattr (Node(5), SetAttributesValid(MODE | SIZE | 0x0), None, 0, (Some(384), None, None, \
         Some(4660), None, None, None), false)",
    );
    check(|guest| guest.readlink(NODE), Ok(b"where/it/leads".to_vec()), "readlink (Node(5), 4096)");
    check(
        |guest| guest.getxattr(NODE, "user.a", 100),
        Ok(b"value".to_vec()),
        "getxattr (Node(5), \"user.a\", 100)",
    );
    check(|guest| guest.getxattr_len(NODE, "user.a"), Ok(5), "getxattr (Node(5), \"user.a\", 0)");
    check(
        |guest| guest.listxattr(NODE, 100),
        Ok(b"user.a\0user.b\0".to_vec()),
        "listxattr (Node(5), 100)",
    );
    check(
        |guest| guest.setxattr(NODE, "user.a", b"xy", 1),
        Ok(()),
        "setxattr (Node(5), \"user.a\", [120, 121], SetXattr { flags: 1, kill_sgid: false })",
    );
    check(|guest| guest.removexattr(NODE, "user.a"), Ok(()), "removexattr (Node(5), \"user.a\")");
}

#[test]
fn directories_and_others() {
    check(|guest| guest.opendir(NODE, 2), Ok(opened()), "opendir (Node(5), 2)");
    check(|guest| guest.releasedir(NODE, HANDLE, 2), Ok(()), "releasedir (Node(5), Handle(3), 2)");
    check(
        |guest| guest.fsyncdir(NODE, HANDLE, false),
        Ok(()),
        "fsyncdir (Node(5), Handle(3), false)",
    );
    check(
        |guest| guest.access(NODE, AccessMask::READ),
        Ok(()),
        "access (Node(5), AccessMask(READ | 0x0))",
    );
    check(|guest| guest.syncfs(NODE), Ok(()), "syncfs Node(5)");
    check(
        |guest| guest.statfs(NODE).map(|found| (found.blocks, found.fragment_size)),
        Ok((0x501, 0x508)),
        "statfs Node(5)",
    );
    check(|guest| guest.forget(NODE, 7), (), "forget (Node(5), 7)");
    check(|guest| guest.destroy(), (), "destroy ()");
    let recorder = recorder();
    let mut guest = Guest::new(&recorder);
    guest.batch_forget(&[(NODE, 7), (Node(6), 8)]);
    assert_eq!(recorder.taken(), ["forget (Node(5), 7)", "forget (Node(6), 8)"]);
    let pairs = [(NODE, 7), (Node(6), 8)];
    recorder.batch_forget(Forgets::from(&pairs[..]));
    assert_eq!(recorder.taken(), ["forget (Node(5), 7)", "forget (Node(6), 8)"]);
}

#[test]
fn listings() {
    let name = |name: &'static [u8]| CStr::from_bytes_with_nul(name).unwrap();
    let names = vec![name(b".\0"), name(b"longer name\0")];
    let recorder = Recorder { names, ..recorder() };
    let mut guest = Guest::new(&recorder);
    let plain = guest.readdir(NODE, HANDLE, 0, 4096).unwrap();
    assert_eq!(plain.len(), 2);
    assert_eq!((&plain[1].name[..], plain[1].inode), (&b"longer name"[..], 0x602));
    assert_eq!((plain[1].next_offset, plain[1].kind), (2, FileKind::REGULAR));
    assert_eq!(plain[1].found, None);
    let plus = guest.readdirplus(NODE, HANDLE, 0, 4096).unwrap();
    assert_eq!(plus[0].found.map(|entry| entry.node), Some(Node(0)));
    assert_eq!(plus[1].found, Some(entry()));
}

#[test]
fn errors_and_faults() {
    let failing = Recorder { is_unchecked: true, ..Recorder::failing(Errno::EROFS) };
    let mut guest = Guest::new(&failing);
    assert_eq!(guest.lookup(Node::ROOT, "a"), Err(Errno::EROFS));
    assert_eq!(guest.unlink(Node::ROOT, "a"), Err(Errno::EROFS));
    // A request without a reply: the buffer is too short for an entry.
    let recorder = recorder();
    let mut guest = Guest::new(&recorder);
    assert_eq!(guest.ask(1, Node::ROOT, b"a\0", 8), Err(Errno::EIO));
    assert!(guest.last().expect("it was asked").had_no_room);
    // A name that has no end.
    assert_eq!(guest.ask(1, Node::ROOT, b"a", 128), Err(Errno::EIO));
    assert_eq!(guest.last().unwrap().request_fault, Some(RequestFault::Name));
    assert_eq!(guest.ask(99, Node::ROOT, b"", 8), Err(Errno::ENOSYS));
    let most = vec![7; MAX_DATA];
    assert_eq!(guest.write(NODE, HANDLE, 0, &most), Ok(MAX_DATA));
    for _ in 0..0x1_0000 / 4096 + 20 {
        assert!(guest.getattr(NODE, None).is_ok());
    }
}

/// A file system that answers on another thread.
#[test]
fn answers_by_values() {
    let (send, receive) = channel::<Reply>();
    let other = thread::spawn(move || {
        while let Ok(reply) = receive.recv() {
            reply.send(entry()).unwrap();
        }
    });
    let mut guest = Guest::by_values(move |request| match request.operation {
        Operation::Lookup { .. } => send.send(request.reply).unwrap(),
        _ => request.reply.error(Errno::ENOSYS).unwrap(),
    });
    guest.caller = (7, 8, 9);
    assert_eq!(guest.lookup(Node::ROOT, "a"), Ok(entry()));
    assert_eq!(guest.readlink(NODE), Err(Errno::ENOSYS));
    guest.forget(NODE, 1);
    drop(guest);
    other.join().unwrap();
}

/// By threads beside the guest. The ring's numbers become longer than a byte meanwhile.
#[cfg(target_os = "linux")]
#[test]
fn methods_are_called_beside_the_guest() {
    for threads in [1, 3] {
        let files = std::sync::Arc::new(recorder());
        let mut guest = Guest::live(|builder, queue, kick, call| {
            builder.threads(threads).start(queue, kick, call, files.clone())
        })
        .unwrap();
        guest.init().unwrap();
        for _ in 0..700 {
            assert_eq!(guest.lookup(NODE, "a"), Ok(entry()));
        }
        assert_eq!(guest.read(NODE, HANDLE, 7, 100), Ok(b"some data".to_vec()));
        assert_eq!(guest.write(NODE, HANDLE, 7, b"hello"), Ok(5));
        guest.forget(NODE, 1);
        assert!(guest.last().is_none());
        drop(guest);
        assert_eq!(files.taken().len(), 704);
    }
}

/// A handler of values, whose answers come from another thread.
#[cfg(target_os = "linux")]
#[test]
fn answers_come_beside_the_guest() {
    let (jobs, taken) = channel::<OwnedRequest>();
    let answering = thread::spawn(move || {
        let files = recorder();
        taken.iter().for_each(|request| request.answer_by(&files).unwrap());
        files.taken().len()
    });
    let jobs = std::sync::Mutex::new(jobs);
    let handler = move |request: Request<'_>| {
        jobs.lock().unwrap().send(request.into_owned().unwrap()).unwrap();
    };
    let mut guest = Guest::live(|builder, queue, kick, call| {
        builder.in_flight(4).start_by_values(queue, kick, call, std::sync::Arc::new(handler))
    })
    .unwrap();
    guest.init().unwrap();
    for _ in 0..300 {
        assert_eq!(guest.lookup(NODE, "a"), Ok(entry()));
    }
    assert_eq!(guest.read(NODE, HANDLE, 7, 100), Ok(b"some data".to_vec()));
    assert_eq!(guest.write(NODE, HANDLE, 7, b"hello"), Ok(5));
    drop(guest);
    assert_eq!(answering.join().unwrap(), 303);
}
