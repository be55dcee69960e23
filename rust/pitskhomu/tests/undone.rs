//! What the guest doesn't get of an answer is undone once, and what it gets is never undone: by the
//! methods of a file system and by values, whenever the chain ends.
mod guest;

use guest::recorder::{entry, opened, Recorder};
use guest::*;
use pitskhomu::*;
use std::panic::{catch_unwind, AssertUnwindSafe};

const HELLO: &[u8] = b"hello\0";

/// Calls whose answers give the guest something: the opcode, the arguments, a reply buffer that has
/// room, and what is undone.
fn givers() -> Vec<(u32, Bytes, u32, Vec<Undo>)> {
    let mut release = Release::default();
    (release.handle, release.flags) = (opened().handle, 0x8002);
    let open = args().d(0x8002).d(0);
    let (node, handle) = (entry().node, opened().handle);
    let list = args().q(3).q(0).d(480).bytes(&[0; 20]);
    vec![
        (1, args().bytes(HELLO), 144, vec![Undo::Forget(node)]),
        (9, args().d(0o755).d(0).bytes(HELLO), 144, vec![Undo::Forget(node)]),
        (14, open.clone(), 32, vec![Undo::Release(Node(5), release)]),
        (27, open, 32, vec![Undo::Releasedir(Node(5), handle, 0x8002)]),
        (
            35,
            args().d(0x8002).d(0o100_600).d(0).d(0).bytes(HELLO),
            160,
            vec![Undo::Release(node, release), Undo::Forget(node)],
        ),
        (44, list, 496, vec![Undo::Forget(node); 2]),
        (3, args().d(0).d(0).q(0), 120, vec![]),
    ]
}

fn recorder() -> Recorder {
    let name = |name| CStr::from_bytes_with_nul(name).unwrap();
    let names = vec![name(b".\0"), name(b"one\0"), name(b"two\0")];
    Recorder { names, is_unchecked: true, ..Recorder::default() }
}

/// The calls that undo, and no others.
fn undoing(recorder: &Recorder) -> Vec<String> {
    let calls = recorder.taken().into_iter();
    calls.filter(|call| call.starts_with("forget") || call.starts_with("release")).collect()
}

/// The calls by which a file system undoes these.
fn calls_of(undo: &[Undo]) -> Vec<String> {
    let of = |undo: &Undo| match undo {
        Undo::Forget(node) => format!("forget ({node:?}, 1)"),
        Undo::Release(node, release) => format!("release ({node:?}, {release:?})"),
        Undo::Releasedir(node, handle, flags) => {
            format!("releasedir ({node:?}, {handle:?}, {flags})")
        }
        other => panic!("{other:?}"),
    };
    undo.iter().map(of).collect()
}

fn pop(guest: &mut Guest, opcode: u32, args: &Bytes, room: u32) {
    guest.offer_request(&request(opcode, 5, &args.0), room);
    assert_eq!(guest.worker.pop(&mut guest.queue, &guest.memory), Ok(true));
}

/// Has the reply made, in each way. What is undone by now isn't told to the file system by values.
fn answer(guest: &mut Guest, way: Way, recorder: &Recorder) {
    let Guest { worker, device, memory, .. } = guest;
    if way == Way::Methods {
        return worker.answer(device, recorder, memory).unwrap();
    }
    let request = worker.decode(device, memory).unwrap();
    let sent = match way {
        Way::Owned => request.into_owned().unwrap().answer_by(recorder),
        _ => request.answer_by(recorder),
    };
    assert!(sent.is_ok());
    assert_eq!(worker.finish(device, memory), Ok(true));
}

fn reset(guest: &mut Guest) {
    guest.queue.begin(Queue::new(layout(), guest.offered).unwrap()).unwrap();
}

#[test]
fn an_answered_chain_that_is_abandoned_is_undone_once() {
    for way in WAYS {
        for (opcode, args, room, undo) in givers() {
            let (mut guest, recorder) = (Guest::new(), recorder());
            pop(&mut guest, opcode, &args, room);
            answer(&mut guest, way, &recorder);
            assert!(guest.worker.cancelled().is_none() && undoing(&recorder).is_empty());
            let cancelled = guest.worker.abandon().expect("a call");
            assert_eq!(cancelled.undo, undo, "{opcode} {way:?}");
            assert!(guest.worker.abandon().is_none() && guest.worker.cancelled().is_none());
            recorder.cancelled(&cancelled);
            assert_eq!(undoing(&recorder), calls_of(&undo), "{opcode} {way:?}");
        }
    }
}

/// The push of an answered chain is refused: `serve` tells its file system, and `push` keeps it.
#[test]
fn a_push_that_is_refused_is_undone_once() {
    for is_served in [true, false] {
        for (opcode, args, room, undo) in givers() {
            let (mut guest, recorder) = (Guest::new(), recorder());
            pop(&mut guest, opcode, &args, room);
            answer(&mut guest, Way::Methods, &recorder);
            reset(&mut guest);
            recorder.taken();
            let Guest { worker, queue, device, memory, .. } = &mut guest;
            if is_served {
                let served = worker.serve(queue, device, &recorder, memory);
                assert_eq!(served, Err(Status::OtherQueue));
                assert_eq!(undoing(&recorder), calls_of(&undo), "{opcode}");
                assert!(worker.cancelled().is_none());
            } else {
                assert_eq!(worker.push(queue, memory), Err(Status::OtherQueue));
                assert_eq!(worker.cancelled().expect("a call").undo, undo, "{opcode}");
            }
            assert!(worker.abandon().is_none() && !worker.has_chain());
        }
    }
}

/// The memory panics at one of a push's accesses. From the first store on the guest may get the
/// answer, so nothing is undone.
#[test]
fn a_push_that_panics_is_not_undone() {
    for (opcode, args, room, _) in givers() {
        let accesses = |panics_at: Option<u64>| {
            let (mut guest, recorder) = (Guest::new(), recorder());
            pop(&mut guest, opcode, &args, room);
            answer(&mut guest, Way::Methods, &recorder);
            guest.memory.slices.take();
            guest.memory.panics_at.set(panics_at);
            let Guest { worker, queue, memory, .. } = &mut guest;
            let pushed = catch_unwind(AssertUnwindSafe(|| worker.push(queue, memory)));
            assert_eq!(pushed.is_err(), panics_at.is_some(), "{opcode} {panics_at:x?}");
            assert_eq!(queue.in_flight(), 0);
            assert!(worker.cancelled().is_none(), "{opcode} {panics_at:x?}");
            assert!(worker.abandon().is_none() && undoing(&recorder).is_empty());
            guest.memory.slices.take()
        };
        let all = accesses(None);
        assert!(all.len() >= 5, "the reply, the used element, its index, the flags: {all:x?}");
        for at in all {
            accesses(Some(at));
        }
    }
}

/// An object has the answer, and the queue is reset before `finish`: nothing is stored, and all of
/// it is to be undone after the push that is refused.
#[test]
fn an_answer_that_a_reset_overtakes_is_undone_once() {
    for is_owned in [false, true] {
        for (opcode, args, room, undo) in givers() {
            let (mut guest, recorder) = (Guest::new(), recorder());
            pop(&mut guest, opcode, &args, room);
            let asked = guest.worker.decode(&guest.device, &guest.memory).unwrap();
            let sent = match is_owned {
                true => asked.into_owned().unwrap().answer_by(&recorder),
                false => asked.answer_by(&recorder),
            };
            assert!(sent.is_ok());
            reset(&mut guest);
            let Guest { worker, queue, device, memory, .. } = &mut guest;
            let before = memory.read(ROOM, 0x2000);
            assert_eq!(worker.finish(device, memory), Ok(true));
            assert!(memory.read(ROOM, 0x2000) == before && worker.cancelled().is_none());
            assert_eq!(worker.push(queue, memory), Err(Status::OtherQueue));
            let cancelled = worker.cancelled().expect("a call");
            assert_eq!(cancelled.undo, undo, "{opcode} {is_owned}");
            assert!(worker.abandon().is_none());
        }
    }
}

/// An answer without room: `answer` tells at once, and nothing is left for an abandon or a push.
#[test]
fn an_answer_without_room_is_undone_once() {
    for way in WAYS {
        for is_pushed in [true, false] {
            for (opcode, args, _, undo) in givers() {
                if opcode == 44 {
                    continue; // it lists fewer
                }
                let (mut guest, recorder) = (Guest::new(), recorder());
                pop(&mut guest, opcode, &args, 16);
                answer(&mut guest, way, &recorder);
                if way == Way::Methods {
                    assert_eq!(undoing(&recorder), calls_of(&undo), "{opcode}");
                    assert!(guest.worker.cancelled().is_none());
                }
                let wanted = if way == Way::Methods { vec![] } else { undo };
                if is_pushed {
                    let Guest { worker, queue, memory, .. } = &mut guest;
                    assert!(worker.push(queue, memory).unwrap().had_no_room);
                }
                let cancelled = guest.worker.abandon();
                let undone = cancelled.map_or_else(Vec::new, |cancelled| cancelled.undo);
                assert_eq!(undone, wanted, "{opcode} {way:?} {is_pushed}");
                assert!(guest.worker.abandon().is_none());
            }
        }
    }
}

/// A reply object has the answer, and `answer` makes the reply: it tells the file system too.
#[test]
fn an_answer_of_an_object_without_room_is_told() {
    for (opcode, args, _, undo) in givers() {
        if opcode == 44 {
            continue;
        }
        let (mut guest, recorder) = (Guest::new(), recorder());
        pop(&mut guest, opcode, &args, 16);
        let Guest { worker, device, memory, .. } = &mut guest;
        let asked = worker.decode(device, memory).unwrap();
        assert!(asked.answer_by(&recorder).is_ok());
        recorder.taken();
        assert_eq!(worker.answer(device, &recorder, memory), Ok(()));
        assert_eq!(undoing(&recorder), calls_of(&undo), "{opcode}");
        assert!(worker.cancelled().is_none());
    }
}

/// Lists names with their nodes, and fails then.
struct Fails(Recorder);

impl FileSystem for Fails {
    fn lookup(&self, context: &Context, parent: Node, name: &CStr) -> Answer<Entry> {
        self.0.lookup(context, parent, name)
    }
    fn getattr(
        &self,
        _: &Context,
        _: Node,
        _: Option<Handle>,
    ) -> Answer<(Attributes, std::time::Duration)> {
        Err(Errno::EIO)
    }
    fn forget(&self, node: Node, count: u64) {
        self.0.forget(node, count);
    }
    fn readdir(
        &self,
        context: &Context,
        node: Node,
        read: ReadDirectory,
        list: &mut Listing<'_>,
    ) -> Answer<()> {
        self.0.readdir(context, node, read, list)?;
        Err(Errno::EACCES)
    }
}

/// A list that fails behind entries whose nodes the guest gets: it holds them. Without a node there
/// is nothing to undo either.
#[test]
fn entries_that_the_guest_gets_are_not_undone() {
    for way in WAYS {
        for (opcode, len) in [(44, 3 * 160), (28, 0)] {
            let (mut guest, fails) = (Guest::by(way), Fails(recorder()));
            let read = args().q(3).q(0).d(4096).bytes(&[0; 20]);
            guest.offer_request(&request(opcode, 5, &read.0), 16 + 4096);
            let reply = guest.serve(&fails).1;
            if opcode == 44 {
                assert_eq!(reply.data().len(), len, "{way:?}");
            } else {
                assert_eq!(reply, Replied::Error(13), "{way:?}");
            }
            assert_eq!(undoing(&fails.0), [""; 0], "{way:?}");
            assert!(guest.worker.cancelled().is_none() && guest.worker.abandon().is_none());
        }
    }
}
