//! The available index is loaded once for all chains before it (VIRTIO 1.2, 2.7.6). A guest that
//! changes it in between isn't noticed until the next load.
mod guest;

use guest::recorder::Recorder;
use guest::*;
use pitskhomu::*;

fn offer(guest: &mut Guest, count: u16) {
    for _ in 0..count {
        guest.offer_request(&request(1, 1, b"hello\0"), 144);
    }
}

/// Whatever was offered.
fn write_index(guest: &Guest, index: u16) {
    guest.memory.write(AVAILABLE + 2, &index.to_le_bytes());
}

fn pop(guest: &mut Guest) -> Result<bool, Status> {
    guest.worker.pop(&mut guest.queue, &guest.memory)
}

/// How often the index was loaded since the last look.
fn loads(guest: &Guest) -> u32 {
    guest.memory.index_loads.take()
}

/// Serves so many chains: how often the index was loaded for them.
fn serve(guest: &mut Guest, count: u16) -> u32 {
    let recorder = Recorder::default();
    for _ in 0..count {
        assert_eq!(guest.serve(&recorder).0.reply_len, 144);
    }
    loads(guest)
}

/// The position wraps on the way.
#[test]
fn what_is_offered_at_once_takes_one_load() {
    let mut guest = Guest::new();
    for count in [1, 2, 5, SIZE] {
        offer(&mut guest, count);
        assert_eq!(serve(&mut guest, count), 1, "{count}");
    }
    assert_eq!((pop(&mut guest), loads(&guest)), (Ok(false), 1), "none waits, by the guest's word");
    assert_eq!((pop(&mut guest), loads(&guest)), (Ok(false), 1));
}

#[test]
fn what_is_offered_later_is_found() {
    let mut guest = Guest::new();
    offer(&mut guest, 2);
    assert_eq!(serve(&mut guest, 1), 1);
    assert!(guest.queue.knows_more());
    offer(&mut guest, 2);
    assert_eq!(serve(&mut guest, 1), 0);
    assert!(!guest.queue.knows_more());
    assert_eq!(serve(&mut guest, 1), 1);
    assert_eq!(serve(&mut guest, 1), 0);
    assert_eq!((pop(&mut guest), loads(&guest)), (Ok(false), 1));
}

#[test]
fn an_index_that_is_wrong_is_refused_at_the_next_load() {
    for wrong in [SIZE + 1, 0x8000, u16::MAX] {
        let mut guest = Guest::new();
        offer(&mut guest, 3);
        assert_eq!(serve(&mut guest, 1), 1);
        write_index(&guest, guest.offered.wrapping_add(wrong));
        assert_eq!(serve(&mut guest, 2), 0, "{wrong}");
        assert_eq!((pop(&mut guest), loads(&guest)), (Err(Status::AvailTooFar), 1), "{wrong}");
        assert_eq!((pop(&mut guest), loads(&guest)), (Err(Status::Stopped), 0), "{wrong}");
        guest.queue.begin(Queue::new(layout(), guest.offered).unwrap()).unwrap();
        offer(&mut guest, 2);
        assert_eq!(serve(&mut guest, 2), 1, "{wrong}");
    }
}

/// A queue whose driver has offered three chains, one of which was served, while no other waits by
/// the guest's word any more.
fn one_of_three() -> Guest {
    let mut guest = Guest::new();
    offer(&mut guest, 3);
    assert_eq!(serve(&mut guest, 1), 1);
    write_index(&guest, guest.queue.next_avail());
    guest
}

#[test]
fn a_queue_that_begins_anew_is_loaded_anew() {
    let mut guest = one_of_three();
    let position = guest.queue.next_avail();
    assert_eq!(guest.queue.begin(Queue::default()), Err(Status::BadQueueSize));
    assert!(guest.queue.knows_more(), "it is as it was");
    guest.queue.begin(Queue::new(layout(), position).unwrap()).unwrap();
    assert_eq!((pop(&mut guest), loads(&guest)), (Ok(false), 1));

    let mut guest = one_of_three();
    let record = guest.device.save(&[std::mem::take(&mut guest.queue)]).unwrap();
    guest.queue = guest.device.restore(&record).unwrap().remove(0);
    assert_eq!((pop(&mut guest), loads(&guest)), (Ok(false), 1));
}

#[test]
fn another_memory_is_loaded_anew() {
    let mut guest = one_of_three();
    let region = |len: usize, host| [Region { guest: 0, len: len as u64, host }];
    guest.worker.set_memory(&guest.device, &region(LEN - 0x1000, guest.memory.host)).unwrap();
    assert_eq!((pop(&mut guest), loads(&guest)), (Ok(false), 1));

    for moves in [0, 0x1000] {
        let mut guest = one_of_three();
        guest.memory.host += moves;
        guest.worker.set_memory(&guest.device, &region(LEN, guest.memory.host)).unwrap();
        assert_eq!((pop(&mut guest), loads(&guest)), (Ok(false), 1), "{moves}");
    }
}

#[test]
fn workers_of_a_queue_share_it() {
    let mut guest = Guest::new();
    let region = Region { guest: 0, len: LEN as u64, host: guest.memory.host };
    let mut other = Worker::new();
    other.set_memory(&guest.device, &[region]).unwrap();
    for count in [3, 5] {
        offer(&mut guest, count);
        std::mem::swap(&mut guest.worker, &mut other);
        assert_eq!(serve(&mut guest, 1), 1, "{count}");
        std::mem::swap(&mut guest.worker, &mut other);
        assert_eq!(serve(&mut guest, count - 1), 0, "{count}");
    }
    offer(&mut guest, 2);
    assert_eq!(serve(&mut guest, 1), 1, "the one that got its regions first");
    guest.worker = other;
    assert_eq!(serve(&mut guest, 1), 0);
    assert_eq!((pop(&mut guest), loads(&guest)), (Ok(false), 1));
}

/// A look at a ring without a chain is idle only if the queue may be popped.
#[test]
fn a_ring_without_a_chain_is_refused_too() {
    let mut guest = Guest::new();
    let region = Region { guest: 0, len: LEN as u64, host: guest.memory.host };
    let mut other = Worker::new();
    let wrong = other.pop(&mut guest.queue, &guest.memory);
    assert_eq!(wrong, Err(Status::WrongOrder), "no memory was set");
    other.set_memory(&guest.device, &[region]).unwrap();
    assert_eq!(other.pop(&mut Queue::default(), &guest.memory), Err(Status::QueueNotBegun));
    offer(&mut guest, 1);
    assert_eq!(other.pop(&mut guest.queue, &guest.memory), Ok(true));
    assert_eq!(pop(&mut guest), Err(Status::ChainInFlight));
    other.unpop(&mut guest.queue).unwrap();
    serve(&mut guest, 1);
    assert_eq!(pop(&mut guest), Ok(false));
    let mut table = Iotlb::new().unwrap();
    drop(guest.worker.lend(&mut table).unwrap());
    assert_eq!(pop(&mut guest), Err(Status::OtherTable), "its addresses are I/O addresses");
    guest.worker.set_memory(&guest.device, &[region]).unwrap();
    assert_eq!(pop(&mut guest), Ok(false));
}
