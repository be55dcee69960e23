//! Several chains out of one queue: workers that take turns at its lock, and give back in any order
//! (VIRTIO 1.2, 2.7.8).
mod guest;

use guest::recorder::Recorder;
use guest::*;
use pitskhomu::*;
use std::panic::{catch_unwind, AssertUnwindSafe};
use std::sync::atomic::AtomicU8;
use std::sync::Mutex;

const HELLO: &[u8] = b"hello\0";
const WORKERS: usize = 4;

/// Where the request and the room of a chain stand, whose head is twice its number.
fn places(k: u16) -> (u64, u64) {
    (REQUEST + 0x1000 * u64::from(k), ROOM + 0x1_0000 * u64::from(k))
}

/// A LOOKUP at each even descriptor, with a room of its own.
fn offer(guest: &mut Guest, k: u16) {
    let (at, room) = places(k);
    let mut bytes = request(1, 1, HELLO);
    bytes[8..16].copy_from_slice(&u64::from(k).to_le_bytes());
    guest.memory.write(at, &bytes);
    guest.draw(DESCRIPTORS, 2 * k, &[Buffer(at, 46, false), Buffer(room, 144, true)]);
    guest.offer(2 * k);
}

/// A guest whose queue lets so many chains out, and workers for them.
fn several(max_in_flight: u16) -> (Guest, Vec<Worker>) {
    let mut guest = Guest::new();
    guest.queue =
        Queue::new(layout(), guest.offered).unwrap().with_max_in_flight(max_in_flight).unwrap();
    let region = Region { guest: 0, len: LEN as u64, host: guest.memory.host };
    let worker = || {
        let mut worker = Worker::new();
        worker.set_memory(&guest.device, &[region]).unwrap();
        worker
    };
    let workers = (0..WORKERS).map(|_| worker()).collect();
    (guest, workers)
}

/// Each request has a number of its own.
fn recorder() -> Recorder {
    Recorder { is_unchecked: true, ..Recorder::default() }
}

fn pop(guest: &mut Guest, worker: &mut Worker) -> Result<bool, Status> {
    worker.pop(&mut guest.queue, &guest.memory)
}

fn push(guest: &mut Guest, worker: &mut Worker) -> Result<Served, Status> {
    worker.push(&mut guest.queue, &guest.memory)
}

/// The used index, and the heads of the elements from a position on.
fn used(guest: &Guest, from: u16, count: u16) -> (u16, Vec<u64>) {
    let index = number(&guest.memory.read(USED + 2, 2), 0, 2) as u16;
    let head = |k: u16| {
        number(&guest.memory.read(USED + 4 + 8 * u64::from(from.wrapping_add(k) % SIZE), 4), 0, 4)
    };
    (index, (0..count).map(head).collect())
}

#[test]
fn a_pop_is_undone_if_it_was_the_last_and_its_chain_was_not_decoded() {
    let (mut guest, mut workers) = several(2);
    let recorder = recorder();
    let first = guest.offered;
    offer(&mut guest, 0);
    offer(&mut guest, 1);
    let (one, others) = workers.split_first_mut().unwrap();
    let other = &mut others[0];
    assert_eq!(one.unpop(&mut guest.queue), Err(Status::WrongOrder));
    assert_eq!((pop(&mut guest, one), pop(&mut guest, other)), (Ok(true), Ok(true)));
    assert_eq!(one.unpop(&mut guest.queue), Err(Status::WrongOrder));
    assert!(one.has_chain());
    assert_eq!(other.unpop(&mut Queue::new(layout(), first).unwrap()), Err(Status::OtherQueue));
    assert_eq!(other.unpop(&mut guest.queue), Ok(()));
    assert!(!other.has_chain());
    assert_eq!(guest.queue.next_avail(), first.wrapping_add(1));
    // The chain is popped again.
    assert_eq!(pop(&mut guest, other), Ok(true));
    other.answer(&guest.device, &recorder, &guest.memory).unwrap();
    assert_eq!(other.unpop(&mut guest.queue), Err(Status::WrongOrder));
    assert_eq!(push(&mut guest, other).unwrap().unique, 1);
    assert_eq!(one.unpop(&mut guest.queue), Err(Status::WrongOrder));
    one.answer(&guest.device, &recorder, &guest.memory).unwrap();
    assert_eq!(push(&mut guest, one).unwrap().unique, 0);
}

#[test]
fn chains_go_back_in_any_order() {
    let (mut guest, mut workers) = several(4);
    let recorder = recorder();
    let first = guest.offered;
    for k in 0..4 {
        offer(&mut guest, k);
    }
    for (k, worker) in (1..).zip(&mut workers) {
        assert_eq!(pop(&mut guest, worker), Ok(true));
        assert_eq!((guest.queue.in_flight(), guest.queue.next_avail()), (k, first.wrapping_add(k)));
        assert!(worker.has_chain());
    }
    guest.memory.is_logging.set(true);
    for (turn, k) in (0..).zip([2, 0, 3, 1]) {
        let worker = &mut workers[k];
        assert_eq!(push(&mut guest, worker), Err(Status::WrongOrder));
        worker.answer(&guest.device, &recorder, &guest.memory).unwrap();
        let served = push(&mut guest, worker).unwrap();
        assert_eq!((served.head, served.unique, served.reply_len), (2 * k as u16, k as u64, 144));
        assert_eq!(
            (guest.queue.in_flight(), guest.queue.next_used()),
            (3 - turn, first.wrapping_add(turn + 1))
        );
        let element = USED + 4 + 8 * u64::from(first.wrapping_add(turn) % SIZE);
        assert!(guest.memory.marks.take().contains(&GuestRange { guest: element, len: 8 }));
        let (_, room) = places(k as u16);
        assert_eq!(number(&guest.memory.read(room, 16), 8, 8), k as u64, "the reply's number");
    }
    assert_eq!(used(&guest, first, 4), (first.wrapping_add(4), vec![4, 0, 6, 2]));
    assert_eq!(recorder.taken().len(), 4);
}

#[test]
fn no_more_are_out_than_may_be() {
    for may in [1, 3] {
        let (mut guest, mut workers) = several(may);
        for k in 0..4 {
            offer(&mut guest, k);
        }
        for (k, worker) in workers.iter_mut().enumerate() {
            let wanted = if k < usize::from(may) { Ok(true) } else { Err(Status::ChainInFlight) };
            assert_eq!(pop(&mut guest, worker), wanted, "{k} of {may}");
        }
        assert_eq!(guest.queue.in_flight(), may);
        assert_eq!(guest.device.save(&[guest.queue]), Err(Status::ChainInFlight));
    }
}

#[test]
fn a_worker_has_one_chain_at_a_time() {
    let (mut guest, mut workers) = several(4);
    let recorder = recorder();
    offer(&mut guest, 0);
    offer(&mut guest, 1);
    let worker = &mut workers[0];
    assert_eq!(push(&mut guest, worker), Err(Status::WrongOrder));
    assert_eq!(
        worker.answer(&guest.device, &recorder, &guest.memory),
        Err(Status::WrongOrder),
        "there is none to answer"
    );
    assert_eq!(pop(&mut guest, worker), Ok(true));
    assert_eq!(pop(&mut guest, worker), Err(Status::WrongOrder));
    assert_eq!(worker.set_memory(&guest.device, &[]), Err(Status::ChainInFlight));
    worker.answer(&guest.device, &recorder, &guest.memory).unwrap();
    worker.answer(&guest.device, &recorder, &guest.memory).unwrap();
    assert_eq!(recorder.taken().len(), 1, "nothing is asked twice");
    // A worker that serves alone gets the next chain; one that has a chain finishes it.
    let next = workers[1].serve(&mut guest.queue, &guest.device, &recorder, &guest.memory).unwrap();
    assert_eq!(next.map(|served| served.head), Some(2));
    assert_eq!(pop(&mut guest, &mut workers[1]), Ok(false));
    let finished = workers[0].serve(&mut guest.queue, &guest.device, &recorder, &guest.memory);
    assert_eq!(finished.map(|served| served.map(|served| served.head)), Ok(Some(0)));
    assert_eq!((guest.queue.in_flight(), recorder.taken().len()), (0, 1));
}

#[test]
fn a_queue_that_begins_anew_refuses_its_chains() {
    let (mut guest, mut workers) = several(4);
    let recorder = recorder();
    offer(&mut guest, 0);
    let first = guest.queue.next_avail();
    assert_eq!(pop(&mut guest, &mut workers[0]), Ok(true));
    workers[0].answer(&guest.device, &recorder, &guest.memory).unwrap();
    assert_eq!(guest.queue.begin(Queue::default()), Err(Status::BadQueueSize));
    assert_eq!(guest.queue.in_flight(), 1);
    // The same numbers, from the same position on.
    guest.queue.begin(Queue::new(layout(), first).unwrap().with_max_in_flight(2).unwrap()).unwrap();
    assert_eq!(
        (guest.queue.in_flight(), guest.queue.next_avail(), guest.queue.max_in_flight()),
        (0, first, 2)
    );
    assert_eq!(push(&mut guest, &mut workers[0]), Err(Status::OtherQueue));
    assert!(!workers[0].has_chain());
    assert_eq!(pop(&mut guest, &mut workers[0]), Ok(true));
    workers[0].abandon();
    assert_eq!((workers[0].has_chain(), guest.queue.in_flight()), (false, 1));
    assert_eq!(pop(&mut guest, &mut workers[1]), Ok(false), "nobody gives it back");
    assert_eq!(recorder.taken().len(), 1);
}

/// A file system that panics.
struct Panics;

impl FileSystem for Panics {
    fn lookup(&self, _: &Context, _: Node, _: &CStr) -> Answer<Entry> {
        panic!("the file system panics, as the test wants it")
    }
    fn getattr(
        &self,
        _: &Context,
        _: Node,
        _: Option<Handle>,
    ) -> Answer<(Attributes, std::time::Duration)> {
        Err(Errno::EIO)
    }
}

#[test]
fn a_call_that_panics_is_answered_eio_behind_another() {
    let (mut guest, mut workers) = several(2);
    let recorder = recorder();
    offer(&mut guest, 0);
    offer(&mut guest, 1);
    assert_eq!(
        (pop(&mut guest, &mut workers[0]), pop(&mut guest, &mut workers[1])),
        (Ok(true), Ok(true))
    );
    let answer = |worker: &mut Worker, files: &dyn FileSystem| {
        worker.answer(&guest.device, files, &guest.memory)
    };
    let panicked = catch_unwind(AssertUnwindSafe(|| answer(&mut workers[0], &Panics)));
    assert!(panicked.is_err());
    answer(&mut workers[0], &recorder).unwrap();
    answer(&mut workers[1], &recorder).unwrap();
    assert_eq!(push(&mut guest, &mut workers[1]).map(|served| served.reply_len), Ok(144));
    assert_eq!(push(&mut guest, &mut workers[0]).map(|served| served.reply_len), Ok(16));
    assert_eq!(number(&guest.memory.read(places(0).1, 16), 4, 4) as i32, -5);
    assert_eq!(recorder.taken().len(), 1, "nothing is asked twice");
}

/// Memory that threads share.
struct Shared<'m> {
    bytes: &'m [AtomicU8],
    host: usize,
}

impl GuestMemory for Shared<'_> {
    fn get_slice(&self, at: usize, len: usize) -> Option<GuestSlice<'_>> {
        Some(GuestSlice::from(&self.bytes[at - self.host..][..len]))
    }
}

/// Looks up, and lets other threads meet its chain.
struct Slow;

impl FileSystem for Slow {
    fn lookup(&self, _: &Context, _: Node, _: &CStr) -> Answer<Entry> {
        std::thread::yield_now();
        Ok(guest::recorder::entry())
    }
    fn getattr(
        &self,
        _: &Context,
        _: Node,
        _: Option<Handle>,
    ) -> Answer<(Attributes, std::time::Duration)> {
        Err(Errno::EIO)
    }
}

#[test]
fn threads_serve_one_queue() {
    let (mut guest, workers) = several(4);
    let (mut workers, chains) = (workers, SIZE / 2);
    for _ in 0..50 {
        let first = guest.queue.next_avail();
        for k in 0..chains {
            offer(&mut guest, k);
        }
        let memory = Shared { bytes: &guest.memory.bytes, host: guest.memory.host };
        let (device, queue) = (&guest.device, Mutex::new(&mut guest.queue));
        std::thread::scope(|scope| {
            for worker in &mut workers {
                scope.spawn(|| {
                    while worker.pop(&mut queue.lock().unwrap(), &memory).unwrap() {
                        worker.answer(device, &Slow, &memory).unwrap();
                        worker.push(&mut queue.lock().unwrap(), &memory).unwrap();
                    }
                });
            }
        });
        let (index, mut heads) = used(&guest, first, chains);
        heads.sort_unstable();
        assert_eq!((guest.queue.in_flight(), index), (0, first.wrapping_add(chains)));
        assert_eq!(heads, (0..chains).map(|k| u64::from(2 * k)).collect::<Vec<_>>(), "each once");
    }
}
