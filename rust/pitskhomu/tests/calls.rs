//! Each call of FUSE once, by requests and replies as linux/fuse.h lays them out: the arguments
//! that the file system gets, and the reply.
mod guest;

use guest::recorder::{opened, Recorder};
use guest::{args, number, Bytes, Guest, Replied, WAYS};
use pitskhomu::*;

/// How a name in a directory is printed.
const NAME: &str = "Child { parent: Node(5), name: \"name\", label: None }";

/// Asks one call, and returns what the file system was called with, and the reply.
fn called(opcode: u32, args: Bytes, room: u32) -> (String, Replied) {
    called_with(Options::empty(), opcode, args, room)
}

/// The same in a session that agreed on these options.
fn called_with(wanted: Options, opcode: u32, args: Bytes, room: u32) -> (String, Replied) {
    let ways = WAYS.map(|way| {
        let (mut guest, recorder) = (Guest::new(), Recorder { wanted, ..Recorder::default() });
        guest.way = way;
        guest.init(&recorder);
        recorder.taken();
        let reply = guest.ask(&recorder, opcode, 5, args.clone(), room);
        let calls = recorder.taken();
        assert_eq!(calls.len(), 1, "{calls:?}, {way:?}");
        (calls[0].clone(), reply)
    });
    assert!(ways[1..].iter().all(|way| *way == ways[0]), "{ways:?}");
    let [first, ..] = ways;
    first
}

fn numbers(bytes: &[u8], len: usize) -> Vec<u64> {
    bytes.chunks(len).map(|one| number(one, 0, one.len())).collect()
}

/// struct fuse_attr of the recorder's attributes.
fn check_attributes(bytes: &[u8]) {
    assert_eq!(numbers(&bytes[..48], 8), [0x101, 0x102, 0x103, 0x104, 0x105, u64::MAX]);
    let rest = [0x107, 0x108, 0x109, 0o100644, 0x10b, 0x10c, 0x10d, 0x10e, 0x10f, 1];
    assert_eq!(numbers(&bytes[48..88], 4), rest);
}

/// struct fuse_entry_out of the recorder's entry.
fn check_entry(bytes: &[u8]) {
    assert_eq!(numbers(&bytes[..32], 8), [0x201, 0x202, 0x205, 0x203]);
    assert_eq!(numbers(&bytes[32..40], 4), [0x206, 0x204]);
    check_attributes(&bytes[40..128]);
}

/// struct fuse_open_out of what the recorder opened.
fn check_opened(bytes: &[u8]) {
    assert_eq!(numbers(&bytes[..8], 8), [opened().handle.0]);
    assert_eq!(numbers(&bytes[8..16], 4), [2, 0]);
}

#[test]
fn init_agrees_on_what_is_wanted() {
    let mut guest = Guest::new();
    let wanted = Options::DO_READDIRPLUS | Options::HANDLE_KILLPRIV_V2;
    let recorder = Recorder { wanted, ..Recorder::default() };
    assert!(guest.device.options().is_empty());
    let reply = guest.init(&recorder);
    assert_eq!(recorder.taken(), ["init ()"]);
    assert_eq!(numbers(&reply[..12], 4), [7, 38, 0x2_0000]);
    let agreed = guest.device.options();
    assert!(agreed.contains(wanted | Options::ASYNC_READ), "{agreed:?}");
    assert!(!agreed.contains(Options::WRITEBACK_CACHE));
    assert_eq!(number(&reply, 12, 4) | number(&reply, 32, 4) << 32, agreed.bits());
    assert_eq!(number(&reply, 20, 4), 1 << 20, "max_write");
    // DESTROY: the session ends.
    assert_eq!(guest.ask(&recorder, 38, 0, args(), 16), Replied::None);
    assert_eq!(recorder.taken(), ["destroy ()"]);
    assert!(guest.device.options().is_empty());
}

#[test]
fn init_fails() {
    let (mut guest, recorder) = (Guest::new(), Recorder::failing(Errno::EPROTO));
    let args = args().d(7).d(38).d(0).d(1).bytes(&[0; 48]);
    assert_eq!(guest.ask(&recorder, 26, 0, args, 80), Replied::Error(71));
    assert!(guest.device.options().is_empty());
}

#[test]
fn names_are_found_and_made() {
    let (call, reply) = called(1, args().bytes(b"na\xffme\0"), 144);
    assert_eq!(call, r#"lookup (Node(5), "na\xffme")"#);
    check_entry(&reply.data());
    let (call, reply) = called(6, args().bytes(b"name\0to/there\0"), 144);
    assert_eq!(call, format!("symlink ({NAME}, \"to/there\", None)"));
    check_entry(&reply.data());
    let (call, reply) = called(8, args().d(0o20666).d(0x103).d(0o22).d(0).bytes(b"name\0"), 144);
    let made = "MakeNode { mode: 8630, rdev: 259, umask: 18 }";
    assert_eq!(call, format!("mknod ({NAME}, {made}, None)"));
    check_entry(&reply.data());
    let (call, reply) = called(9, args().d(0o755).d(0o22).bytes(b"name\0"), 144);
    let made = "MakeDirectory { mode: 493, umask: 18 }";
    assert_eq!(call, format!("mkdir ({NAME}, {made})"));
    check_entry(&reply.data());
    let (call, reply) = called(13, args().q(9).bytes(b"name\0"), 144);
    assert_eq!(call, format!("link (Node(9), {NAME})"));
    check_entry(&reply.data());
}

/// struct fuse_ext_header of FUSE_EXT_GROUPS, and struct fuse_supp_groups with one group.
#[test]
fn a_group_of_the_callers_is_told() {
    let extension = args().d(16).d(32).d(1).d(4711);
    let (call, _) =
        called(8, args().d(0o100644).d(0).d(0).d(0).bytes(b"name\0").bytes(&extension.0), 144);
    assert!(call.ends_with(", Some(4711))"), "{call}");
}

/// struct fuse_secctx_header with one label, struct fuse_secctx with its size, its name and its
/// bytes, filled up to a multiple of 8.
fn label() -> Bytes {
    args().d(40).d(1).d(5).d(0).bytes(b"security.x\0").bytes(b"a\0b:c").bytes(&[0; 8])
}

/// How a call is printed with a name and its label, and with the caller's group.
type Printed = fn(&str, &str) -> String;

/// The calls that make a node: the opcode, the arguments before the label, and the call.
fn makers() -> [(u32, Bytes, Printed); 4] {
    [
        (6, args().bytes(b"name\0to\0"), |name, group| {
            format!("symlink ({name}, \"to\", {group})")
        }),
        (8, args().d(0o100644).d(0).d(0o22).d(0).bytes(b"name\0"), |name, group| {
            format!("mknod ({name}, MakeNode {{ mode: 33188, rdev: 0, umask: 18 }}, {group})")
        }),
        (9, args().d(0o755).d(0o22).bytes(b"name\0"), |name, _| {
            format!("mkdir ({name}, MakeDirectory {{ mode: 493, umask: 18 }})")
        }),
        (35, args().d(0x42).d(0o100600).d(0o77).d(0).bytes(b"name\0"), |name, _| {
            let create = "Create { flags: 66, mode: 33152, umask: 63, kill_priv: false }";
            format!("create ({name}, {create})")
        }),
    ]
}

#[test]
fn a_label_of_a_new_node_is_passed() {
    let label_of = "Label { name: \"security.x\", value: [97, 0, 98, 58, 99] }";
    let labelled = NAME.replace("None", &format!("Some({label_of})"));
    let (label, none, group) = (label(), args().d(8).d(0), args().d(16).d(32).d(1).d(4711));
    for (opcode, args, printed) in makers() {
        let cases = [
            (vec![&label], &*labelled, "None"),
            (vec![&group, &label], &*labelled, "Some(4711)"),
            (vec![&label, &group], &*labelled, "Some(4711)"),
            (vec![&group, &none], NAME, "Some(4711)"),
            (vec![&none], NAME, "None"),
        ];
        for (extensions, name, group) in cases {
            let args = extensions.iter().fold(args.clone(), |args, more| args.bytes(&more.0));
            let (call, _) = called_with(Options::SECURITY_CTX, opcode, args, 160);
            assert_eq!(call, printed(name, group));
        }
    }
}

/// struct fuse_setxattr_in with its flags: FUSE_SETXATTR_ACL_KILL_SGID is 1.
#[test]
fn the_flags_of_setxattr_are_passed() {
    for (flags, kills) in [(1, true), (0, false)] {
        let args = args().d(3).d(2).d(flags).d(0).bytes(b"user.a\0x\0y");
        let (call, _) = called_with(Options::SETXATTR_EXT, 21, args, 16);
        let set = format!("SetXattr {{ flags: 2, kill_sgid: {kills} }}");
        assert_eq!(call, format!("setxattr (Node(5), \"user.a\", [120, 0, 121], {set})"));
    }
}

#[test]
fn names_go_and_change() {
    assert_eq!(called(10, args().bytes(b"name\0"), 16).0, format!("unlink {NAME}"));
    assert_eq!(called(11, args().bytes(b"name\0"), 16).0, format!("rmdir {NAME}"));
    let names = "Child { parent: Node(5), name: \"old\", label: None }, \
                 Child { parent: Node(9), name: \"new\", label: None }";
    let (call, reply) = called(12, args().q(9).bytes(b"old\0new\0"), 16);
    assert_eq!(
        (call, reply),
        (format!("rename ({names}, RenameFlags(0x0))"), Replied::Data(vec![]))
    );
    let (call, _) = called(45, args().q(9).d(3).d(0).bytes(b"old\0new\0"), 16);
    assert_eq!(call, format!("rename ({names}, RenameFlags(NOREPLACE | EXCHANGE | 0x0))"));
}

#[test]
fn files_are_opened_and_closed() {
    let (call, reply) = called(14, args().d(0x8002).d(1), 32);
    assert_eq!(call, "open (Node(5), Open { flags: 32770, kill_priv: true })");
    check_opened(&reply.data());
    let (call, reply) = called(27, args().d(0x10000).d(0), 32);
    assert_eq!(call, "opendir (Node(5), 65536)");
    check_opened(&reply.data());
    let (call, reply) = called(35, args().d(0x42).d(0o100600).d(0o77).d(1).bytes(b"name\0"), 160);
    let create = "Create { flags: 66, mode: 33152, umask: 63, kill_priv: true }";
    assert_eq!(call, format!("create ({NAME}, {create})"));
    let data = reply.data();
    check_entry(&data);
    check_opened(&data[128..]);
    let (call, _) = called(18, args().q(3).d(2).d(3).q(77), 16);
    let release =
        "Release { handle: Handle(3), flags: 2, flush: true, unlock: true, lock_owner: Some(77) }";
    assert_eq!(call, format!("release (Node(5), {release})"));
    let (call, _) = called(18, args().q(3).d(2).d(0).q(77), 16);
    let release =
        "Release { handle: Handle(3), flags: 2, flush: false, unlock: false, lock_owner: None }";
    assert_eq!(call, format!("release (Node(5), {release})"));
    assert_eq!(called(29, args().q(3).d(2).d(0).q(0), 16).0, "releasedir (Node(5), Handle(3), 2)");
    assert_eq!(called(25, args().q(3).d(0).d(0).q(77), 16).0, "flush (Node(5), Handle(3), 77)");
    assert_eq!(called(20, args().q(3).d(1).d(0), 16).0, "fsync (Node(5), Handle(3), true)");
    assert_eq!(called(30, args().q(3).d(0).d(0), 16).0, "fsyncdir (Node(5), Handle(3), false)");
}

/// Each flag of a record is another field of the call, whatever the other flags are.
#[test]
fn each_flag_is_a_field_of_its_own() {
    let lock_owner = |is_there| if is_there { "Some(77)" } else { "None" };
    for flags in 0..8u32 {
        let [a, b, c] = [0, 1, 2].map(|bit| flags >> bit & 1 == 1);
        // FUSE_RELEASE_FLUSH, FLOCK_UNLOCK.
        let (call, _) = called(18, args().q(3).d(2).d(flags & 3).q(77), 16);
        let owner = lock_owner(a || b);
        let release = format!("flags: 2, flush: {a}, unlock: {b}, lock_owner: {owner}");
        assert_eq!(call, format!("release (Node(5), Release {{ handle: Handle(3), {release} }})"));
        // FUSE_WRITE_CACHE, LOCKOWNER, KILL_SUIDGID.
        let (call, _) = called(16, args().q(3).q(4).d(1).d(flags).q(77).d(9).d(0).bytes(b"x"), 24);
        let owner = lock_owner(b);
        let write = format!("flags: 9, lock_owner: {owner}, delayed: {a}, kill_priv: {c}");
        let front = "WriteFile { handle: Handle(3), offset: 4, size: 1";
        assert_eq!(call, format!("write (Node(5), {front}, {write} }}, \"x\")"));
        // FUSE_READ_LOCKOWNER.
        let (call, _) = called(15, args().q(3).q(4).d(9).d(flags).q(77).d(8).d(0), 25);
        assert!(call.contains(&format!("size: 9, flags: 8, lock_owner: {owner} }}")), "{call}");
        // FUSE_OPEN_KILL_SUIDGID, FUSE_FSYNC_FDATASYNC, FUSE_GETATTR_FH.
        let (call, _) = called(14, args().d(6).d(flags), 32);
        assert_eq!(call, format!("open (Node(5), Open {{ flags: 6, kill_priv: {a} }})"));
        for (opcode, name) in [(20, "fsync"), (30, "fsyncdir")] {
            let (call, _) = called(opcode, args().q(3).d(flags).d(0), 16);
            assert_eq!(call, format!("{name} (Node(5), Handle(3), {a})"));
        }
        let (call, _) = called(3, args().d(flags).d(0).q(3), 120);
        assert_eq!(
            call,
            format!("getattr (Node(5), {})", if a { "Some(Handle(3))" } else { "None" })
        );
    }
}

/// Each bit of FATTR_ has its own attribute set, and no other.
#[test]
fn each_attribute_is_set_by_its_own_flag() {
    let times = args().q(10).q(11).q(12).d(20).d(21).d(22);
    let rest = args().bytes(&times.0).d(0o640).d(0).d(1).d(2).d(0);
    for bit in 0..12 {
        let set = args().d(1 << bit).d(0).q(3).q(99).q(77).bytes(&rest.0);
        let (call, _) = called(4, set, 120);
        let time = |seconds| format!("Time {{ seconds: {seconds}, nanos: {} }}", seconds + 10);
        let wanted = [
            (bit == 0, "Some(416)".to_owned()),
            (bit == 1, "Some(1)".to_owned()),
            (bit == 2, "Some(2)".to_owned()),
            (bit == 3, "Some(99)".to_owned()),
            (bit == 4, format!("Some(To({}))", time(10))),
            (bit == 5, format!("Some(To({}))", time(11))),
            (bit == 10, format!("Some({})", time(12))),
        ];
        let wanted = wanted.map(|(is_set, text)| if is_set { text } else { "None".to_owned() });
        let handle = if bit == 6 { "Some(Handle(3))" } else { "None" };
        let values = wanted.join(", ");
        let behind = format!("{handle}, 77, ({values}), {})", bit == 11);
        assert!(call.ends_with(&behind), "{bit}: {call}");
    }
}

#[test]
fn attributes_are_told_and_set() {
    let (call, reply) = called(3, args().d(0).d(0).q(3), 120);
    assert_eq!(call, "getattr (Node(5), None)");
    let data = reply.data();
    assert_eq!((numbers(&data[..8], 8), numbers(&data[8..16], 4)), (vec![0x401], vec![0x402, 0]));
    check_attributes(&data[16..]);
    assert_eq!(called(3, args().d(1).d(0).q(3), 120).0, "getattr (Node(5), Some(Handle(3)))");
    // FATTR_MODE, UID, GID, SIZE, ATIME, MTIME, FH, MTIME_NOW, LOCKOWNER, CTIME, KILL_SUIDGID.
    let valid = 1 | 2 | 4 | 8 | 16 | 32 | 64 | 256 | 512 | 1024 | 2048;
    let times = args().q(10).q(11).q(u64::MAX).d(20).d(21).d(22);
    let set = args().d(valid).d(0).q(3).q(99).q(77).bytes(&times.0).d(0o640).d(0).d(1).d(2).d(0);
    let (call, _) = called(4, set, 120);
    let flags = "MODE | UID | GID | SIZE | ATIME | MTIME | MTIME_NOW | CTIME | KILL_SUIDGID | 0x0";
    let (atime, ctime) = ("To(Time { seconds: 10, nanos: 20 })", "Time { seconds: -1, nanos: 22 }");
    let values =
        format!("Some(416), Some(1), Some(2), Some(99), Some({atime}), Some(Now), Some({ctime})");
    let told_flags = format!("SetAttributesValid({flags}), Some(Handle(3)), 77");
    assert_eq!(call, format!("setattr (Node(5), {told_flags}, ({values}), true)"));
    let (call, _) = called(4, args().bytes(&[0; 88]), 120);
    let values = "None, None, None, None, None, None, None";
    assert_eq!(
        call,
        format!("setattr (Node(5), SetAttributesValid(0x0), None, 0, ({values}), false)")
    );
}

#[test]
fn data_is_read_and_written() {
    // FUSE_READ_LOCKOWNER is 2.
    let (call, reply) = called(15, args().q(3).q(4096).d(100).d(2).q(77).d(0x8000).d(0), 116);
    let read = "ReadFile { handle: Handle(3), offset: 4096, size: 100, flags: 32768, \
                lock_owner: Some(77) }";
    assert_eq!(call, format!("read (Node(5), {read}, 100, (5, 4), 9)"));
    assert_eq!(reply, Replied::Data(b"some data".to_vec()));
    // A room for less than is asked for.
    let (call, reply) = called(15, args().q(3).q(0).d(100).d(0).q(77).d(0).d(0), 22);
    let read = "ReadFile { handle: Handle(3), offset: 0, size: 100, flags: 0, lock_owner: None }";
    assert_eq!(call, format!("read (Node(5), {read}, 6, (5, 1), 6)"));
    assert_eq!(reply, Replied::Data(b"some d".to_vec()));
    // FUSE_WRITE_CACHE, LOCKOWNER and KILL_SUIDGID.
    let (call, reply) =
        called(16, args().q(3).q(4096).d(5).d(7).q(77).d(0x8001).d(0).bytes(b"hello"), 24);
    let flags = "flags: 32769, lock_owner: Some(77), delayed: true, kill_priv: true";
    let write = format!("WriteFile {{ handle: Handle(3), offset: 4096, size: 5, {flags} }}");
    assert_eq!(call, format!("write (Node(5), {write}, \"hello\")"));
    assert_eq!(numbers(&reply.data(), 4), [5, 0]);
}

#[test]
fn values_are_told_and_set() {
    let (call, reply) = called(5, args(), 16 + 4096);
    assert_eq!(
        (call.as_str(), reply),
        ("readlink (Node(5), 4096)", Replied::Data(b"where/it/leads".to_vec()))
    );
    let (call, reply) = called(22, args().d(64).d(0).bytes(b"user.a\0"), 80);
    assert_eq!(
        (call.as_str(), reply),
        (r#"getxattr (Node(5), "user.a", 64)"#, Replied::Data(b"value".to_vec()))
    );
    let (call, reply) = called(22, args().d(0).d(0).bytes(b"user.a\0"), 80);
    assert_eq!(
        (call.as_str(), numbers(&reply.data(), 4)),
        (r#"getxattr (Node(5), "user.a", 0)"#, vec![5, 0])
    );
    let (call, reply) = called(22, args().d(4).d(0).bytes(b"user.a\0"), 80);
    assert_eq!((call.as_str(), reply), (r#"getxattr (Node(5), "user.a", 4)"#, Replied::Error(34)));
    let (call, reply) = called(23, args().d(64).d(0), 80);
    assert_eq!(
        (call.as_str(), reply),
        ("listxattr (Node(5), 64)", Replied::Data(b"user.a\0user.b\0".to_vec()))
    );
    let (call, reply) = called(23, args().d(0).d(0), 80);
    assert_eq!((call.as_str(), numbers(&reply.data(), 4)), ("listxattr (Node(5), 0)", vec![14, 0]));
    let (call, _) = called(21, args().d(3).d(2).bytes(b"user.a\0x\0y"), 16);
    let set = "SetXattr { flags: 2, kill_sgid: false }";
    assert_eq!(call, format!("setxattr (Node(5), \"user.a\", [120, 0, 121], {set})"));
    assert_eq!(called(24, args().bytes(b"user.a\0"), 16).0, r#"removexattr (Node(5), "user.a")"#);
}

#[test]
fn other_calls() {
    let (call, reply) = called(17, args(), 96);
    let data = reply.data();
    assert_eq!(call, "statfs Node(5)");
    assert_eq!(numbers(&data[..40], 8), [0x501, 0x502, 0x503, 0x504, 0x505]);
    assert_eq!(numbers(&data[40..56], 4), [0x506, 0x507, 0x508, 0]);
    assert_eq!(
        called(34, args().d(5).d(0), 16).0,
        "access (Node(5), AccessMask(EXECUTE | READ | 0x0))"
    );
    let (call, _) = called(43, args().q(3).q(10).q(20).d(1).d(0), 16);
    assert_eq!(
        call,
        "fallocate (Node(5), Allocate { handle: Handle(3), mode: 1, offset: 10, len: 20 })"
    );
    let (call, reply) = called(46, args().q(3).q(10).d(4).d(0), 24);
    assert_eq!(call, "lseek (Node(5), SeekFile { handle: Handle(3), offset: 10, whence: 4 })");
    assert_eq!(numbers(&reply.data(), 8), [0x701]);
    let (call, reply) = called(47, args().q(3).q(10).q(6).q(4).q(20).q(0x900).q(0), 24);
    let from = "from: FilePlace { node: Node(5), handle: Handle(3), offset: 10 }";
    let to = "to: FilePlace { node: Node(6), handle: Handle(4), offset: 20 }";
    assert_eq!(call, format!("copy_file_range CopyFileRange {{ {from}, {to}, len: 2304 }}"));
    assert_eq!(numbers(&reply.data(), 4), [0x801, 0]);
    // No more was copied than was asked for.
    let (_, reply) = called(47, args().q(3).q(10).q(6).q(4).q(20).q(7).q(0), 24);
    assert_eq!(numbers(&reply.data(), 4), [7, 0]);
    assert_eq!(called(50, args().q(0), 16).0, "syncfs Node(5)");
}

#[test]
fn nodes_are_forgotten() {
    let (call, reply) = called(2, args().q(3), 0);
    assert_eq!((call.as_str(), reply), ("forget (Node(5), 3)", Replied::None));
    let (mut guest, recorder) = (Guest::new(), Recorder::default());
    let batch = args().d(3).d(0).q(8).q(1).q(9).q(2).q(u64::MAX).q(u64::MAX);
    assert_eq!(guest.ask(&recorder, 42, 0, batch, 0), Replied::None);
    let last = format!("forget (Node({}), {})", u64::MAX, u64::MAX);
    assert_eq!(recorder.taken(), ["forget (Node(8), 1)", "forget (Node(9), 2)", last.as_str()]);
}

#[test]
fn errors_are_told() {
    let recorder = Recorder::failing(Errno::EDQUOT);
    let mut guest = Guest::new();
    let requests = [
        (1, args().bytes(b"name\0")),
        (3, args().bytes(&[0; 16])),
        (5, args()),
        (10, args().bytes(b"name\0")),
        (14, args().d(0).d(0)),
        (15, args().bytes(&[0; 40])),
        (16, args().bytes(&[0; 40])),
        (17, args()),
        (28, args().q(0).q(0).d(64).bytes(&[0; 20])),
        (35, args().bytes(&[0; 16]).bytes(b"name\0")),
        (46, args().bytes(&[0; 24])),
        (47, args().bytes(&[0; 56])),
    ];
    for (opcode, args) in requests {
        assert_eq!(
            guest.ask(&recorder, opcode, 5, args, 256),
            Replied::Error(122),
            "opcode {opcode}"
        );
        assert_eq!(recorder.taken().len(), 1);
    }
}

/// What a file system doesn't have: each default of the trait.
#[test]
fn defaults() {
    struct Nothing;
    impl FileSystem for Nothing {
        fn lookup(&self, _: &Context, _: Node, _: &CStr) -> Answer<Entry> {
            Ok(Entry::default()) // it is known that the name isn't there
        }
        fn getattr(
            &self,
            _: &Context,
            _: Node,
            _: Option<Handle>,
        ) -> Answer<(Attributes, std::time::Duration)> {
            Err(Errno::EIO)
        }
    }
    let mut guest = Guest::new();
    guest.init(&Nothing);
    let entry = guest.ask(&Nothing, 1, 1, args().bytes(b"name\0"), 144).data();
    assert_eq!(entry, [0; 128]);
    for opcode in [14, 27] {
        assert_eq!(
            guest.ask(&Nothing, opcode, 1, args().d(0).d(0), 32),
            Replied::Data(vec![0; 16])
        );
    }
    let statistics = guest.ask(&Nothing, 17, 1, args(), 96).data();
    assert_eq!(numbers(&statistics[40..52], 4), [512, 255, 0]);
    assert_eq!(guest.ask(&Nothing, 18, 1, args().bytes(&[0; 24]), 16), Replied::Data(vec![]));
    assert_eq!(guest.ask(&Nothing, 29, 1, args().bytes(&[0; 24]), 16), Replied::Data(vec![]));
    let name = || args().bytes(b"name\0");
    let behind = |len| args().bytes(&vec![0; len]);
    let missing = [
        (4, behind(88)),
        (5, args()),
        (6, args().bytes(b"name\0to\0")),
        (8, behind(16).bytes(b"name\0")),
        (9, behind(8).bytes(b"name\0")),
        (10, name()),
        (11, name()),
        (12, args().q(1).bytes(b"old\0new\0")),
        (13, args().q(1).bytes(b"name\0")),
        (15, behind(40)),
        (16, behind(40)),
        (20, behind(16)),
        (21, args().d(1).d(0).bytes(b"name\0x")),
        (22, args().d(64).d(0).bytes(b"name\0")),
        (23, args().d(64).d(0)),
        (24, name()),
        (25, behind(24)),
        (28, behind(40)),
        (30, behind(16)),
        (34, behind(8)),
        (35, behind(16).bytes(b"name\0")),
        (43, behind(32)),
        (44, behind(40)),
        (46, behind(24)),
        (47, behind(56)),
        (50, behind(8)),
    ];
    for (opcode, args) in missing {
        assert_eq!(
            guest.ask(&Nothing, opcode, 1, args, 256),
            Replied::Error(38),
            "opcode {opcode}"
        );
    }
    assert_eq!(guest.ask(&Nothing, 2, 1, args().q(1), 0), Replied::None);
    assert_eq!(guest.ask(&Nothing, 38, 1, args(), 16), Replied::None);
}

/// Calls that the library answers by itself: locks, BMAP, IOCTL, POLL, mappings, TMPFILE, and an
/// opcode that FUSE doesn't have.
#[test]
fn calls_that_are_not_told() {
    let (mut guest, recorder) = (Guest::new(), Recorder::default());
    for opcode in [31, 32, 33, 37, 39, 40, 48, 49, 51, 99] {
        assert_eq!(
            guest.ask(&recorder, opcode, 1, args().bytes(&[0; 64]), 256),
            Replied::Error(38),
            "{opcode}"
        );
    }
    assert_eq!(recorder.taken(), [""; 0]);
}

/// A count of bytes has 32 bits in the reply (struct fuse_write_out), where a greater one is the
/// greatest. COPY_FILE_RANGE's is at most the length that was asked for.
#[test]
fn counts_of_more_than_32_bits() {
    for (len, count, told) in [
        (1 << 33, 1 << 33, u32::MAX),
        (1 << 33, (1 << 32) + 5, u32::MAX),
        (1 << 33, u64::from(u32::MAX), u32::MAX),
        (0x1234_5678, 1 << 33, 0x1234_5678),
        (u64::MAX, u64::MAX, u32::MAX),
    ] {
        let mut guest = Guest::new();
        let args = args().q(3).q(0).q(2).q(4).q(0).q(len).q(0);
        guest.offer_request(&guest::request(47, 1, &args.0), 24);
        let taken = guest.worker.take(&mut guest.queue, &guest.device, &guest.memory);
        let reply = taken.unwrap().expect("a chain waits").reply;
        reply.send(Response::Written(count)).unwrap();
        assert_eq!(guest.worker.finish(&guest.device, &guest.memory), Ok(true));
        let served = guest.worker.push(&mut guest.queue, &guest.memory).unwrap();
        let data = guest.reply(served.reply_len as usize).data();
        assert_eq!((data.len(), number(&data, 0, 4)), (8, u64::from(told)), "{len:#x} {count:#x}");
    }
}

/// A value that is as long as the size that was asked for, or as the buffer, is told. A longer one
/// is ERANGE.
#[test]
fn values_that_just_fit() {
    let sized = |size: u32| args().d(size).d(0);
    for (opcode, args, room, fits) in [
        (22, sized(5).bytes(b"name\0"), 21, true),
        (22, sized(64).bytes(b"name\0"), 21, true),
        (22, sized(4).bytes(b"name\0"), 21, false),
        (22, sized(64).bytes(b"name\0"), 20, false),
        (23, sized(5), 21, true),
        (23, sized(5), 20, false),
        (5, args(), 21, true),
        (5, args(), 20, false),
    ] {
        let mut guest = Guest::new();
        guest.offer_request(&guest::request(opcode, 1, &args.0), room);
        let taken = guest.worker.take(&mut guest.queue, &guest.device, &guest.memory);
        taken.unwrap().expect("a chain waits").reply.send(b"value".to_vec()).unwrap();
        assert_eq!(guest.worker.finish(&guest.device, &guest.memory), Ok(true));
        let served = guest.worker.push(&mut guest.queue, &guest.memory).unwrap();
        let wanted = if fits { Replied::Data(b"value".to_vec()) } else { Replied::Error(34) };
        assert_eq!(guest.reply(served.reply_len as usize), wanted, "{opcode}, {room}");
    }
}
