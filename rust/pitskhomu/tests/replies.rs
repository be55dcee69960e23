//! Requests as values, and the objects that take their answers: later, on other threads, too late,
//! of another kind, or never.
mod guest;

use guest::recorder::{attributes, entry, opened, Recorder};
use guest::*;
use pitskhomu::*;
use std::panic::{catch_unwind, AssertUnwindSafe};
use std::sync::atomic::{AtomicUsize, Ordering};
use std::sync::mpsc::channel;
use std::sync::{Arc, Mutex};
use std::task::Wake;
use std::thread;
use std::time::Duration;

const HELLO: &[u8] = b"hello\0";
const LOOKUP: u32 = 1;
const OPEN: u32 = 14;
const READ: u32 = 15;
const WRITE: u32 = 16;
const OPENDIR: u32 = 27;
const CREATE: u32 = 35;
const DESTROY: u32 = 38;
const READDIRPLUS: u32 = 44;

/// struct fuse_read_in.
fn read_args(size: u32) -> Bytes {
    args().q(3).q(0).d(size).bytes(&[0; 20])
}

/// Takes the request of the next chain.
fn take(guest: &mut Guest) -> Request<'_> {
    let Guest { worker, queue, device, memory, .. } = guest;
    worker.take(queue, device, memory).unwrap().expect("a chain is available")
}

/// Offers a request and takes it; only its reply object is kept.
fn ask(guest: &mut Guest, opcode: u32, args: &Bytes, room: u32) -> Reply {
    guest.offer_request(&request(opcode, 5, &args.0), room);
    take(guest).reply
}

fn lookup(guest: &mut Guest) -> Reply {
    ask(guest, LOOKUP, &args().bytes(HELLO), 144)
}

fn finish(guest: &mut Guest) -> Result<bool, Status> {
    guest.worker.finish(&guest.device, &guest.memory)
}

/// Makes the reply and pushes it: what the guest gets.
fn pushed(guest: &mut Guest) -> Replied {
    assert_eq!(finish(guest), Ok(true));
    let served = guest.worker.push(&mut guest.queue, &guest.memory).unwrap();
    guest.reply(served.reply_len as usize)
}

#[test]
fn objects_go_from_thread_to_thread() {
    fn is_send<T: Send + 'static>() {}
    fn is_sync<T: Sync>() {}
    is_send::<Reply>();
    is_sync::<Reply>();
    is_send::<OwnedRequest>();
    is_send::<Response>();
    is_send::<Unsent>();
    is_send::<Cancelled>();
}

#[test]
fn an_answer_may_come_later() {
    let mut guest = Guest::new();
    let reply = lookup(&mut guest);
    assert!(!reply.is_cancelled());
    for _ in 0..2 {
        assert_eq!(finish(&mut guest), Ok(false));
        assert!(guest.worker.has_chain() && !guest.worker.is_answered());
        let pushed = guest.worker.push(&mut guest.queue, &guest.memory);
        assert_eq!(pushed, Err(Status::WrongOrder));
    }
    thread::spawn(move || reply.send(entry()).unwrap()).join().unwrap();
    assert_eq!(pushed(&mut guest).data().len(), 128);
    assert!(!guest.worker.has_chain() && guest.worker.cancelled().is_none());
}

/// Counts how often it is woken.
struct Count(AtomicUsize);

impl Wake for Count {
    fn wake(self: Arc<Self>) {
        self.0.fetch_add(1, Ordering::Relaxed);
    }
}

#[test]
fn an_answer_wakes_the_worker() {
    let (mut guest, count) = (Guest::new(), Arc::new(Count(AtomicUsize::new(0))));
    guest.worker.set_waker(Some(count.clone().into())).unwrap();
    let woken = || count.0.swap(0, Ordering::Relaxed);
    let reply = lookup(&mut guest);
    assert_eq!(guest.worker.set_waker(None), Err(Status::ChainInFlight));
    assert_eq!(woken(), 0);
    reply.send(entry()).unwrap();
    assert_eq!(woken(), 1);
    pushed(&mut guest);
    drop(lookup(&mut guest));
    assert_eq!(woken(), 1);
    pushed(&mut guest);
    let reply = lookup(&mut guest);
    guest.worker.abandon();
    assert!(reply.error(Errno::ENOENT).is_err());
    assert_eq!(woken(), 0, "a late answer wakes nobody");
}

#[test]
fn dropped_it_answers_eio() {
    let mut guest = Guest::new();
    drop(lookup(&mut guest));
    assert_eq!(pushed(&mut guest), Replied::Error(5));
    let reply = lookup(&mut guest);
    let panics = move || {
        let _reply = reply;
        panic!("the thread panics, as the test wants it");
    };
    assert!(thread::spawn(panics).join().is_err());
    assert_eq!(pushed(&mut guest), Replied::Error(5));
    // DESTROY can't fail. The session ends all the same.
    guest.device.set_options(Options::ASYNC_READ);
    drop(ask(&mut guest, DESTROY, &args(), 16));
    assert_eq!(pushed(&mut guest), Replied::None);
    assert!(guest.device.options().is_empty());
}

/// The rings, the request and the reply buffer.
fn seen(guest: &Guest) -> Vec<u8> {
    [guest.memory.read(0, 0x9000), guest.memory.read(ROOM, 0x2000)].concat()
}

/// A late answer of each kind, and what is undone of it.
fn late() -> Vec<(u32, Bytes, Response, Vec<Undo>)> {
    let mut release = Release::default();
    (release.handle, release.flags) = (opened().handle, 0x8002);
    let open = args().d(0x8002).d(0);
    let create = args().d(0x8002).d(0o100_600).d(0).d(0).bytes(HELLO);
    let (node, of) = (entry().node, Node(5));
    let directory = Undo::Releasedir(of, opened().handle, 0x8002);
    vec![
        (LOOKUP, args().bytes(HELLO), entry().into(), vec![Undo::Forget(node)]),
        (LOOKUP, args().bytes(HELLO), Entry::default().into(), vec![]),
        (OPEN, open.clone(), opened().into(), vec![Undo::Release(of, release)]),
        (OPENDIR, open, opened().into(), vec![directory]),
        (
            CREATE,
            create,
            (entry(), opened()).into(),
            vec![Undo::Release(node, release), Undo::Forget(node)],
        ),
        (READ, read_args(100), b"late".to_vec().into(), vec![]),
    ]
}

/// Ends the chain in flight of a guest in each way. The last one takes the next chain.
fn ends() -> [fn(&mut Guest) -> Option<Reply>; 6] {
    fn reset(guest: &mut Guest) {
        let next = Queue::new(layout(), guest.offered).unwrap();
        guest.queue.begin(next).unwrap();
    }
    [
        |guest| {
            reset(guest);
            assert_eq!(guest.worker.abandon().expect("a call").undo, []);
            None
        },
        |guest| {
            reset(guest); // before the worker has abandoned its chain
            None
        },
        |guest| {
            guest.queue = Queue::new(layout(), guest.offered).unwrap();
            None
        },
        |guest| {
            guest.worker = Guest::new().worker;
            None
        },
        |guest| {
            guest.worker.abandon();
            reset(guest);
            lookup(guest).send(entry()).unwrap();
            pushed(guest);
            None
        },
        |guest| {
            guest.worker.abandon();
            reset(guest);
            Some(lookup(guest))
        },
    ]
}

#[test]
fn after_the_end_an_answer_is_refused() {
    for (opcode, args, response, undo) in late() {
        for (k, end) in ends().into_iter().enumerate() {
            let mut guest = Guest::new();
            let reply = ask(&mut guest, opcode, &args, 160);
            let id = reply.id();
            let next = end(&mut guest);
            assert!(reply.is_cancelled());
            let before = seen(&guest);
            let unsent = reply.send(response.clone()).expect_err("it is too late");
            assert_eq!(unsent.status(), Status::OtherCall, "{opcode}, {k}");
            assert_eq!((unsent.cancelled().context.id, &unsent.cancelled().undo), (id, &undo));
            assert_eq!(unsent.into_answer(), Ok(response.clone()));
            assert!(seen(&guest) == before);
            if let Some(next) = next {
                assert_eq!(finish(&mut guest), Ok(false), "it is another's chain");
                next.error(Errno::ENOENT).unwrap();
                assert_eq!(pushed(&mut guest), Replied::Error(2));
            }
        }
    }
}

/// An answer that is of another kind too: nobody gets EIO for it any more.
#[test]
fn after_the_end_an_answer_of_another_kind_is_late() {
    for (k, end) in ends().into_iter().enumerate() {
        let mut guest = Guest::new();
        let reply = lookup(&mut guest);
        let _next = end(&mut guest);
        let before = seen(&guest);
        let unsent = reply.send(Response::Written(1)).expect_err("it is too late");
        assert_eq!(unsent.status(), Status::OtherCall, "{k}");
        assert!(seen(&guest) == before);
    }
}

#[test]
fn after_the_end_a_dropped_object_does_nothing() {
    for end in ends() {
        let mut guest = Guest::new();
        let reply = lookup(&mut guest);
        let _next = end(&mut guest);
        let before = seen(&guest);
        drop(reply);
        assert!(seen(&guest) == before);
    }
}

/// The answer is there, and the chain ends before it is pushed.
#[test]
fn an_answer_that_the_guest_does_not_get_is_undone() {
    for (opcode, args, response, undo) in late() {
        for is_finished in [false, true] {
            let mut guest = Guest::new();
            let reply = ask(&mut guest, opcode, &args, 160);
            let id = reply.id();
            reply.send(response.clone()).unwrap();
            if is_finished {
                assert_eq!(finish(&mut guest), Ok(true));
            }
            let cancelled = guest.worker.abandon().expect("a call");
            assert_eq!((cancelled.context.id, cancelled.undo), (id, undo.clone()), "{opcode}");
            assert!(guest.worker.cancelled().is_none() && guest.worker.abandon().is_none());
        }
        // The queue is reset before the push.
        let mut guest = Guest::new();
        ask(&mut guest, opcode, &args, 160).send(response.clone()).unwrap();
        assert_eq!(finish(&mut guest), Ok(true));
        guest.queue.begin(Queue::new(layout(), guest.offered).unwrap()).unwrap();
        let refused = guest.worker.push(&mut guest.queue, &guest.memory);
        assert_eq!(refused, Err(Status::OtherQueue));
        assert_eq!(guest.worker.cancelled().expect("a call").undo, undo, "{opcode}");
        assert!(!guest.worker.has_chain());
    }
}

#[test]
fn an_answer_without_room_is_undone() {
    for (opcode, args, response, undo) in late() {
        let mut guest = Guest::new();
        ask(&mut guest, opcode, &args, 16).send(response).unwrap();
        if opcode == READ {
            continue; // as many bytes as fit
        }
        assert_eq!(pushed(&mut guest), Replied::None);
        let cancelled = guest.worker.cancelled().map_or_else(Vec::new, |cancelled| cancelled.undo);
        assert_eq!(cancelled, undo, "{opcode}");
    }
}

#[test]
fn what_is_pushed_is_not_undone() {
    for (opcode, args, response, _) in late() {
        let mut guest = Guest::new();
        ask(&mut guest, opcode, &args, 160).send(response).unwrap();
        pushed(&mut guest);
        assert!(guest.worker.cancelled().is_none() && guest.worker.abandon().is_none());
    }
}

#[test]
fn cancelled_undoes_by_the_file_system() {
    let recorder = Recorder { is_unchecked: true, ..Recorder::default() };
    let mut guest = Guest::new();
    let create = args().d(0x42).d(0o100_600).d(0).d(0).bytes(HELLO);
    ask(&mut guest, CREATE, &create, 160).send((entry(), opened())).unwrap();
    recorder.cancelled(&guest.worker.abandon().unwrap());
    let calls = recorder.taken();
    assert_eq!(calls.len(), 2);
    assert!(calls[0].starts_with("release (Node(513), Release { handle: Handle(769), flags: 66"));
    assert_eq!(calls[1], "forget (Node(513), 1)");
}

/// Each response in place of each other.
#[test]
fn an_answer_of_another_kind_is_eio() {
    let xattr = args().d(0).d(0).bytes(HELLO);
    let rows = [
        (10, args().bytes(HELLO), Response::Done),
        (LOOKUP, args().bytes(HELLO), entry().into()),
        (3, args().d(0).d(0).q(0), (attributes(), Duration::ZERO).into()),
        (OPEN, args().q(0), opened().into()),
        (CREATE, args().d(0).d(0).d(0).d(0).bytes(HELLO), (entry(), opened()).into()),
        (READ, read_args(8), b"data".to_vec().into()),
        (22, xattr, Response::Size(7)),
        (17, args(), Statistics::default().into()),
        (WRITE, args().q(3).q(0).d(1).bytes(&[0; 20]).bytes(b"x"), Response::Written(1)),
        (46, args().q(3).q(0).d(3).d(0), Response::Offset(9)),
        (28, read_args(100), Entries::default().into()),
        (26, args().d(7).d(38).d(0).d(0).bytes(&[0; 48]), Options::empty().into()),
    ];
    for (k, (opcode, args, own)) in rows.iter().enumerate() {
        for (other, (_, _, response)) in rows.iter().enumerate() {
            let mut guest = Guest::new();
            let sent = ask(&mut guest, *opcode, args, 200).send(response.clone());
            // GETXATTR counts bytes by itself.
            if k == other || (*opcode, response) == (22, &rows[5].2) {
                assert!(sent.is_ok(), "{opcode} {own:?}");
                pushed(&mut guest).data();
            } else {
                let unsent = sent.expect_err("it is of another kind");
                assert_eq!(unsent.status(), Status::OtherKind, "{opcode} {response:?}");
                assert_eq!(unsent.into_answer(), Ok(response.clone()));
                assert_eq!(pushed(&mut guest), Replied::Error(5));
            }
        }
    }
}

/// Two chains in flight, and the objects are used in the other order, on another thread.
#[test]
fn each_object_answers_its_own_chain() {
    let mut guest = Guest::new();
    guest.queue = Queue::new(layout(), guest.offered).unwrap().with_max_in_flight(2).unwrap();
    let mut other = Worker::new();
    let region = Region { guest: 0, len: LEN as u64, host: guest.memory.host };
    other.set_memory(&guest.device, &[region]).unwrap();
    let first = ask(&mut guest, READ, &read_args(100), 116);
    std::mem::swap(&mut guest.worker, &mut other);
    let second = ask(&mut guest, READ, &read_args(100), 116);
    thread::spawn(move || {
        second.send(b"two".to_vec()).unwrap();
        first.send(b"one".to_vec()).unwrap();
    })
    .join()
    .unwrap();
    assert_eq!(pushed(&mut guest).data(), b"two");
    std::mem::swap(&mut guest.worker, &mut other);
    assert_eq!(pushed(&mut guest).data(), b"one");
}

#[test]
fn bytes_follow_those_that_were_put_in_place() {
    let mut guest = Guest::new();
    guest.offer_request(&request(READ, 5, &read_args(10).0), 116);
    let request = take(&mut guest);
    let reply = match request.operation {
        Operation::Read { mut data, .. } => {
            assert_eq!((data.put(b"in place"), data.left()), (8, 2));
            request.reply
        }
        other => panic!("{other:?}"),
    };
    guest.memory.is_logging.set(true);
    reply.send(b"-cut off".to_vec()).unwrap();
    assert_eq!(pushed(&mut guest).data(), b"in place-c");
    let marks = guest.memory.marks.take();
    let range = |guest, len| GuestRange { guest, len };
    assert_eq!(marks[..2], [range(ROOM, 16), range(ROOM + 0x1000, 10)]);
}

#[test]
fn an_owned_request_has_its_own_bytes() {
    let mut guest = Guest::new();
    let write = args().q(3).q(0).d(5).bytes(&[0; 20]).bytes(b"hello");
    guest.offer_request(&request(WRITE, 5, &write.0), 24);
    let OwnedRequest { call, reply, .. } = take(&mut guest).into_owned().unwrap();
    guest.memory.write(REQUEST + 80, b"other");
    let worker = thread::spawn(move || {
        assert_eq!((call.context.uid, call.context.id), (1000, reply.id()));
        match call.operation() {
            Operation::Write { node: Node(5), mut data, .. } => {
                let mut bytes = [0; 2];
                assert_eq!(data.windows(&mut [Window::default(); 4]).len(), 0);
                assert_eq!((data.take(&mut bytes), &bytes), (2, b"he"));
                data.advance(1);
                assert_eq!((data.take(&mut bytes), &bytes), (2, b"lo"));
                reply.send(data).unwrap();
            }
            other => panic!("{other:?}"),
        }
    });
    worker.join().unwrap();
    assert_eq!(number(&pushed(&mut guest).data(), 0, 4), 5);
}

/// Entries with their nodes, made on another thread; those that don't fit are undone there.
#[test]
fn entries_with_nodes_may_come_later() {
    let mut guest = Guest::new();
    guest.offer_request(&request(READDIRPLUS, 5, &read_args(480).0), 496);
    let OwnedRequest { call, reply, .. } = take(&mut guest).into_owned().unwrap();
    let list = move || {
        let mut list = match call.operation() {
            Operation::Readdir { list, .. } => list,
            other => panic!("{other:?}"),
        };
        let entry_of = |name| DirectoryEntry::new(name, 9, 1, FileKind::REGULAR);
        let dots = CStr::from_bytes_with_nul(b"..\0").unwrap();
        let name = CStr::from_bytes_with_nul(b"name\0").unwrap();
        assert_eq!(list.add_plus(entry_of(dots), &entry()), Ok(true));
        assert_eq!(list.add_plus(entry_of(name), &entry()), Ok(true));
        assert_eq!(list.add(entry_of(name)), Ok(true));
        assert!(!list.fits(b"name"));
        assert_eq!(list.add_plus(entry_of(name), &entry()), Ok(false));
        reply.send(list).unwrap();
    };
    thread::spawn(list).join().unwrap();
    let data = pushed(&mut guest).data();
    assert_eq!(data.len(), 3 * 160);
    let nodes = [0, 160, 320].map(|at| number(&data, at, 8));
    assert_eq!(nodes, [0, entry().node.0, 0]);
    assert!(guest.worker.cancelled().is_none());
}

/// The entries that were added, in place or later, are undone if the chain ends.
#[test]
fn entries_are_undone() {
    for is_owned in [false, true] {
        let (mut guest, recorder) = (Guest::new(), Recorder::default());
        guest.offer_request(&request(READDIRPLUS, 5, &read_args(480).0), 496);
        let name = CStr::from_bytes_with_nul(b"name\0").unwrap();
        let recorder = Recorder { names: vec![name, name], ..recorder };
        let request = take(&mut guest);
        let sent = if is_owned {
            let OwnedRequest { call, reply, .. } = request.into_owned().unwrap();
            reply.answer(call.operation().call(&recorder, &call.context))
        } else {
            let answer = request.operation.call(&recorder, &request.context);
            request.reply.answer(answer)
        };
        sent.unwrap();
        let undo = guest.worker.abandon().expect("a call").undo;
        assert_eq!(undo, [Undo::Forget(entry().node); 2], "{is_owned}");
    }
}

#[test]
fn calls_come_in_their_order() {
    let (mut guest, recorder) = (Guest::new(), Recorder::default());
    assert_eq!(finish(&mut guest), Err(Status::WrongOrder));
    let decoded = |guest: &mut Guest| {
        guest.worker.decode(&guest.device, &guest.memory).map(|request| request.context.unique)
    };
    assert_eq!(decoded(&mut guest), Err(Status::WrongOrder));
    guest.offer_request(&request(LOOKUP, 5, HELLO), 144);
    assert_eq!(guest.worker.pop(&mut guest.queue, &guest.memory), Ok(true));
    assert_eq!(finish(&mut guest), Err(Status::WrongOrder));
    let reply = guest.worker.decode(&guest.device, &guest.memory).unwrap().reply;
    assert_eq!(decoded(&mut guest), Err(Status::WrongOrder));
    // The file system's methods don't answer what a reply object is to answer.
    let answer = |guest: &mut Guest| guest.worker.answer(&guest.device, &recorder, &guest.memory);
    assert_eq!(answer(&mut guest), Err(Status::WrongOrder));
    assert!(guest.worker.has_chain() && !reply.is_cancelled());
    reply.error(Errno::ENOENT).unwrap();
    assert_eq!(answer(&mut guest), Ok(()));
    assert_eq!(pushed(&mut guest), Replied::Error(2));
    assert_eq!(recorder.taken(), [""; 0]);
}

#[test]
fn faulty_chains_and_requests_have_no_call() {
    let mut guest = Guest::new();
    let offers: [fn(&mut Guest); 4] = [
        |guest| {
            guest.draw(DESCRIPTORS, 0, &[Buffer(LEN as u64, 8, false)]);
            guest.offer(0);
        },
        |guest| guest.offer_request(&[0; 39], 16),
        |guest| guest.offer_request(&request(99, 5, &[]), 16),
        |guest| guest.offer_request(&request(36, 5, &[0; 8]), 0),
    ];
    for offer in offers {
        offer(&mut guest);
        let Request { operation, reply, .. } = take(&mut guest);
        assert!(matches!(operation, Operation::None), "{operation:?}");
        assert!(!reply.is_cancelled());
        assert_eq!(reply.send(entry()).map_err(|unsent| unsent.status()), Ok(()));
        pushed(&mut guest);
        assert!(guest.worker.cancelled().is_none());
    }
    // FORGET has a call, and no answer.
    guest.offer_request(&request(2, 5, &7u64.to_le_bytes()), 0);
    assert!(matches!(take(&mut guest).operation, Operation::Forget { node: Node(5), count: 7 }));
    assert_eq!(pushed(&mut guest), Replied::None);
}

/// The memory panics while the answer is copied: the guest gets EIO, and no node.
#[test]
fn a_memory_that_panics_at_an_answer() {
    let mut guest = Guest::new();
    ask(&mut guest, READ, &read_args(100), 116).send(b"data".to_vec()).unwrap();
    guest.memory.panics_at.set(Some(ROOM + 0x1000));
    assert!(catch_unwind(AssertUnwindSafe(|| finish(&mut guest))).is_err());
    guest.memory.panics_at.set(None);
    assert_eq!(pushed(&mut guest), Replied::Error(5));
}

/// After a move the objects of the device that was left answer nothing.
#[test]
fn a_device_that_moves_leaves_its_objects() {
    let mut guest = Guest::new();
    let reply = lookup(&mut guest);
    let _ = guest.worker.abandon();
    guest.queue.begin(Queue::new(layout(), guest.offered.wrapping_sub(1)).unwrap()).unwrap();
    let record = guest.device.save(std::slice::from_ref(&guest.queue)).unwrap();
    guest.device = Device::default();
    guest.queue = guest.device.restore(&record).unwrap().remove(0);
    let now = take(&mut guest).reply;
    assert_eq!(reply.send(entry()).expect_err("too late").status(), Status::OtherCall);
    now.error(Errno::ENOENT).unwrap();
    assert_eq!(pushed(&mut guest), Replied::Error(2));
}

/// Thousands of requests, whose objects are answered or dropped on four threads in any order. Each
/// request gets its own answer.
#[test]
fn answers_from_many_threads() {
    const REQUESTS: usize = 2000;
    let mut guest = Guest::new();
    let (send, receive) = channel::<Reply>();
    let receive = Arc::new(Mutex::new(receive));
    let main = thread::current();
    struct Unpark(thread::Thread);
    impl Wake for Unpark {
        fn wake(self: Arc<Self>) {
            self.0.unpark();
        }
    }
    guest.worker.set_waker(Some(Arc::new(Unpark(main)).into())).unwrap();
    let answering = || {
        let receive = receive.clone();
        thread::spawn(move || loop {
            let next = receive.lock().unwrap().recv();
            match next {
                Ok(reply) if reply.id().number() % 7 == 0 => drop(reply),
                Ok(reply) => {
                    let bytes = reply.id().number().to_le_bytes().to_vec();
                    let _ = reply.send(bytes);
                }
                Err(_) => return,
            }
        })
    };
    let threads = [(); 4].map(|()| answering());
    for k in 0..REQUESTS {
        let reply = ask(&mut guest, READ, &read_args(100), 116);
        let id = reply.id().number();
        send.send(reply).unwrap();
        if k % 5 == 0 {
            // A reset meanwhile. The guest offers another chain.
            let _ = guest.worker.abandon();
            guest.queue.begin(Queue::new(layout(), guest.offered).unwrap()).unwrap();
            continue;
        }
        while finish(&mut guest) == Ok(false) {
            thread::park();
        }
        match pushed(&mut guest) {
            Replied::Error(5) => assert_eq!(id % 7, 0),
            reply => assert_eq!(reply.data(), id.to_le_bytes()),
        }
    }
    drop(send);
    threads.into_iter().for_each(|thread| thread.join().unwrap());
}
