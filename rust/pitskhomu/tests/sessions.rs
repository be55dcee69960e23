//! Answers that outlive their session, or are given to another call.
mod guest;

use guest::recorder::{entry, Recorder};
use guest::*;
use pitskhomu::*;
use std::panic::{catch_unwind, AssertUnwindSafe};
use std::sync::mpsc::channel;
use std::sync::{Arc, Mutex};
use std::task::Wake;
use std::thread;
use std::time::Duration;

fn take(guest: &mut Guest) -> Request<'_> {
    let Guest { worker, queue, device, memory, .. } = guest;
    worker.take(queue, device, memory).unwrap().expect("a chain is available")
}

/// INIT is answered, and the queue is reset before its reply is made: the next session has no
/// options of it. So too for DESTROY, which would end the next session.
#[test]
fn a_session_that_has_ended_agrees_on_nothing() {
    let init = args().d(7).d(38).d(0x2_0000).d(!(1 << 31)).d(0x1ff).bytes(&[0; 44]);
    for (opcode, args, now) in
        [(26, init, Options::empty()), (38, guest::args(), Options::ASYNC_READ)]
    {
        for is_reset in [true, false] {
            let mut guest = Guest::new();
            guest.device.set_options(now);
            guest.offer_request(&request(opcode, 0, &args.0), 80);
            let Request { operation, reply, .. } = take(&mut guest);
            let wanted = Options::DO_READDIRPLUS;
            let sent = match operation {
                Operation::Init(_) => reply.send(wanted),
                _ => reply.send(()),
            };
            assert!(sent.is_ok());
            if is_reset {
                guest.queue.begin(Queue::new(layout(), guest.offered).unwrap()).unwrap();
            }
            assert_eq!(guest.worker.finish(&guest.device, &guest.memory), Ok(true));
            let agreed = guest.device.options();
            if is_reset {
                assert_eq!(agreed, now, "{opcode}");
                let pushed = guest.worker.push(&mut guest.queue, &guest.memory);
                assert_eq!(pushed, Err(Status::OtherQueue));
            } else {
                assert_ne!(agreed, now, "{opcode}");
            }
        }
    }
}

/// READ and READDIRPLUS are answered, and the queue is reset before their replies are made: the
/// guest's memory is the next session's, and no byte of it changes. The push undoes the answer.
#[test]
fn a_session_that_has_ended_stores_nothing() {
    for opcode in [15, 44] {
        let mut guest = Guest::new();
        let args = args().q(3).q(0).d(480).bytes(&[0; 20]);
        let (sent, undo) = if opcode == 15 {
            guest.offer_request(&request(opcode, 5, &args.0), 496);
            (take(&mut guest).reply.send(vec![7; 100]), vec![])
        } else {
            let (entries, reply) = entries_of(&mut guest, &[b"name\0"]);
            (reply.send(entries), vec![Undo::Forget(entry().node)])
        };
        assert!(sent.is_ok());
        guest.queue.begin(Queue::new(layout(), guest.offered).unwrap()).unwrap();
        let seen = |guest: &Guest| guest.memory.read(0, LEN);
        let before = seen(&guest);
        assert_eq!(guest.worker.finish(&guest.device, &guest.memory), Ok(true));
        assert!(guest.worker.cancelled().is_none());
        let pushed = guest.worker.push(&mut guest.queue, &guest.memory);
        assert_eq!(pushed, Err(Status::OtherQueue));
        assert!(seen(&guest) == before, "{opcode}");
        assert_eq!(guest.worker.cancelled().expect("a call").undo, undo);
    }
}

/// The waker panics at an answer of another kind: the guest gets EIO, and the answer isn't leaked,
/// which valgrind sees.
#[test]
fn a_waker_that_panics_at_another_kind() {
    struct Panics;
    impl Wake for Panics {
        fn wake(self: Arc<Self>) {
            panic!("the waker panics, as the test wants it");
        }
    }
    let mut guest = Guest::new();
    guest.worker.set_waker(Some(Arc::new(Panics).into())).unwrap();
    guest.offer_request(&request(1, 5, b"name\0"), 144);
    let reply = take(&mut guest).reply;
    assert!(catch_unwind(AssertUnwindSafe(|| reply.send(vec![7; 1000]))).is_err());
    assert_eq!(guest.worker.finish(&guest.device, &guest.memory), Ok(true));
    let served = guest.worker.push(&mut guest.queue, &guest.memory).unwrap();
    assert_eq!(guest.reply(served.reply_len as usize), Replied::Error(5));
}

/// A waker that does at once what it is for, on the thread that answers: it finishes the chain and
/// returns it. It has objects of earlier chains of the same worker too: asks, answers, drops them.
struct Finishes {
    guest: Mutex<Guest>,
    late: Mutex<Vec<Reply>>,
    reply: Mutex<Option<Replied>>,
}

impl Wake for Finishes {
    fn wake(self: Arc<Self>) {
        for (k, late) in std::mem::take(&mut *self.late.lock().unwrap()).into_iter().enumerate() {
            assert!(late.is_cancelled());
            let sent = match k {
                0 => late.send(entry()),
                1 => late.error(Errno::ENOENT),
                2 => late.send(vec![7; 100]),
                _ => continue, // it is dropped
            };
            assert_eq!(sent.unwrap_err().status(), Status::OtherCall);
        }
        let mut guest = self.guest.lock().unwrap();
        let Guest { worker, queue, device, memory, .. } = &mut *guest;
        assert_eq!(worker.finish(device, memory), Ok(true));
        let len = worker.push(queue, memory).unwrap().reply_len;
        *self.reply.lock().unwrap() = Some(guest.reply(len as usize));
    }
}

#[test]
fn a_waker_may_finish_the_chain_and_use_other_objects() {
    type End = (fn(Reply), Option<i32>);
    let ends: [End; 4] = [
        (|reply| reply.send(entry()).unwrap(), None),
        (|reply| reply.error(Errno::EACCES).unwrap(), Some(13)),
        (|reply| assert_eq!(reply.send(()).unwrap_err().status(), Status::OtherKind), Some(5)),
        (drop, Some(5)),
    ];
    for (end, error) in ends {
        let (guest, late, reply) = (Mutex::new(Guest::new()), Mutex::default(), Mutex::default());
        let waker = Arc::new(Finishes { guest, late, reply });
        let object = {
            let guest = &mut *waker.guest.lock().unwrap();
            guest.worker.set_waker(Some(waker.clone().into())).unwrap();
            for _ in 0..4 {
                guest.offer_request(&request(1, 5, b"name\0"), 144);
                waker.late.lock().unwrap().push(take(guest).reply);
                guest.worker.abandon().expect("a call");
                guest.queue.begin(Queue::new(layout(), guest.offered).unwrap()).unwrap();
            }
            guest.offer_request(&request(1, 5, b"name\0"), 144);
            take(guest).reply
        };
        // On a thread of its own: one that waits for ever is seen.
        let (send, receive) = channel();
        thread::spawn(move || {
            end(object);
            send.send(()).unwrap();
        });
        receive.recv_timeout(Duration::from_secs(60)).expect("the waker waits, or panicked");
        let replied = waker.reply.lock().unwrap().take().expect("the waker was woken");
        match error {
            None => assert_eq!(replied.data().len(), 128),
            Some(error) => assert_eq!(replied, Replied::Error(error)),
        }
        // The worker, which lies in its waker, no longer has it.
        waker.guest.lock().unwrap().worker.set_waker(None).unwrap();
    }
}

/// The entries of a READDIRPLUS by values, whose names a directory has, and the request's reply.
fn entries_of(guest: &mut Guest, names: &[&'static [u8]]) -> (Entries, Reply) {
    let read = args().q(3).q(0).d(480).bytes(&[0; 20]);
    guest.offer_request(&request(44, 5, &read.0), 496);
    let OwnedRequest { call, reply, .. } = take(guest).into_owned().unwrap();
    let names = names.iter().map(|name| CStr::from_bytes_with_nul(name).unwrap()).collect();
    let recorder = Recorder { names, ..Recorder::default() };
    match call.operation().call(&recorder, &call.context) {
        Ok(Response::Entries(entries)) => (entries, reply),
        other => panic!("{other:?}"),
    }
}

/// Each look-up of a list that the guest doesn't get is given back once: of an answer that is late,
/// that is of another kind, or whose chain is abandoned before or after its reply is made.
#[test]
fn look_ups_of_a_list_that_is_not_told_are_given_back() {
    let undo = [Undo::Forget(entry().node), Undo::Forget(entry().node)];
    let names: [&[u8]; 3] = [b".\0", b"one\0", b"two\0"];
    for k in 0..4 {
        let mut guest = Guest::new();
        let (entries, reply) = entries_of(&mut guest, &names);
        assert_eq!(entries.len(), 3);
        let (status, cancelled) = match k {
            0 => {
                assert_eq!(guest.worker.abandon().expect("a call").undo, []);
                let late = reply.send(entries).expect_err("the chain was abandoned");
                (Some(late.status()), late.cancelled().clone())
            }
            1 => {
                drop(reply);
                assert_eq!(guest.worker.finish(&guest.device, &guest.memory), Ok(true));
                guest.worker.push(&mut guest.queue, &guest.memory).unwrap();
                guest.offer_request(&request(1, 5, b"name\0"), 144);
                let other = take(&mut guest).reply.send(entries).expect_err("LOOKUP has no list");
                (Some(other.status()), other.cancelled().clone())
            }
            _ => {
                reply.send(entries).unwrap();
                if k == 3 {
                    assert_eq!(guest.worker.finish(&guest.device, &guest.memory), Ok(true));
                }
                (None, guest.worker.abandon().expect("a call"))
            }
        };
        assert_eq!(status, [Some(Status::OtherCall), Some(Status::OtherKind), None, None][k]);
        assert_eq!(cancelled.undo, undo, "{k}");
    }
}

/// The entries of a READDIRPLUS, given to a READDIR: the guest gets the names, and no node.
#[test]
fn entries_of_another_request_give_no_node() {
    let mut guest = Guest::new();
    let read = args().q(3).q(0).d(480).bytes(&[0; 20]);
    let (entries, reply) = entries_of(&mut guest, &[b"name\0"]);
    reply.error(Errno::EAGAIN).unwrap();
    assert_eq!(guest.worker.finish(&guest.device, &guest.memory), Ok(true));
    guest.worker.push(&mut guest.queue, &guest.memory).unwrap();

    guest.offer_request(&request(28, 5, &read.0), 496);
    take(&mut guest).reply.send(entries).unwrap();
    assert_eq!(guest.worker.finish(&guest.device, &guest.memory), Ok(true));
    let undo = guest.worker.cancelled().expect("a node that isn't given").undo;
    assert_eq!(undo, [Undo::Forget(entry().node)]);
    let served = guest.worker.push(&mut guest.queue, &guest.memory).unwrap();
    assert_eq!(guest.reply(served.reply_len as usize).data().len(), 32);
    assert!(guest.worker.cancelled().is_none());
}

/// The entries of a READDIRPLUS, given to one in which the first has no room: each node is undone.
#[test]
fn entries_of_which_none_fits_are_undone() {
    let mut guest = Guest::new();
    let (entries, reply) = entries_of(&mut guest, &[b"one\0", b"two\0", b"six\0"]);
    reply.error(Errno::EAGAIN).unwrap();
    assert_eq!(guest.worker.finish(&guest.device, &guest.memory), Ok(true));
    guest.worker.push(&mut guest.queue, &guest.memory).unwrap();

    let read = args().q(3).q(0).d(40).bytes(&[0; 20]);
    guest.offer_request(&request(44, 5, &read.0), 496);
    take(&mut guest).reply.send(entries).unwrap();
    assert_eq!(guest.worker.finish(&guest.device, &guest.memory), Ok(true));
    let undo = guest.worker.cancelled().expect("nodes that aren't given").undo;
    assert_eq!(undo, [Undo::Forget(entry().node); 3]);
    let served = guest.worker.push(&mut guest.queue, &guest.memory).unwrap();
    assert_eq!(guest.reply(served.reply_len as usize), Replied::Error(22));
    assert!(guest.worker.cancelled().is_none());
}

/// No reset, and no queue that is restored, is that of a chain in flight: their numbers are the
/// process's (`tools/pk_numbers.c`).
#[test]
fn a_chain_is_refused_after_any_number_of_resets() {
    let mut guest = Guest::new();
    let first = guest.offered;
    let fresh = || Queue::new(layout(), first).unwrap();
    let record = guest.device.save(&[fresh(), fresh()]).unwrap();
    guest.offer_request(&request(1, 5, b"name\0"), 144);
    let Guest { worker, queue, device, memory, .. } = &mut guest;
    assert_eq!(worker.pop(queue, memory), Ok(true));
    for turn in 0..40_000 {
        if turn % 100 == 0 {
            for mut restored in device.restore(&record).unwrap() {
                assert_eq!(worker.unpop(&mut restored), Err(Status::OtherQueue), "{turn}");
            }
        }
        queue.begin(fresh()).unwrap();
        assert_eq!(worker.unpop(queue), Err(Status::OtherQueue), "{turn}");
        assert!(worker.has_chain() && queue.next_avail() == first);
    }
}
