//! Notifications of driver and device, by flags and by an event index (VIRTIO 1.2, 2.7.7 and
//! 2.7.10).
mod guest;

use guest::recorder::Recorder;
use guest::*;
use pitskhomu::*;

const HELLO: &[u8] = b"hello\0";
/// Behind the available ring: at which chain the driver wants the next notification.
const USED_EVENT: u64 = AVAILABLE + 4 + 2 * SIZE as u64;
/// Behind the used ring: at which chain the device wants the next notification.
const AVAIL_EVENT: u64 = USED + 4 + 8 * SIZE as u64;

fn ask(guest: &mut Guest, wanted: bool) -> Result<bool, Status> {
    guest.worker.set_notification(&guest.queue, wanted, &guest.memory)
}

fn number_at(guest: &Guest, at: u64) -> u16 {
    number(&guest.memory.read(at, 2), 0, 2) as u16
}

/// Whether the driver is to be notified of the next chain.
fn is_told(guest: &mut Guest, recorder: &Recorder) -> bool {
    guest.offer_request(&request(1, 1, HELLO), 144);
    guest.serve(recorder).0.notify
}

#[test]
fn by_flags() {
    let mut guest = Guest::new();
    guest.memory.is_logging.set(true);
    for (wanted, flags) in [(false, 1), (true, 0), (true, 0), (false, 1)] {
        assert_eq!(ask(&mut guest, wanted), Ok(true));
        assert_eq!((number_at(&guest, USED), number_at(&guest, AVAIL_EVENT)), (flags, 0));
        assert_eq!(guest.memory.marks.take(), [GuestRange { guest: USED, len: 2 }]);
    }
    assert_eq!(guest.queue.in_flight(), 0);
}

#[test]
fn by_an_event_index() {
    let (mut guest, recorder) = (Guest::new(), Recorder::default());
    let first = guest.offered;
    guest.queue = Queue::new(layout(), first).unwrap().with_event_index(true);
    assert!(guest.queue.has_event_index());
    guest.memory.is_logging.set(true);
    // The driver wants a notification for this chain alone. Flags don't count.
    guest.memory.write(USED_EVENT, &first.wrapping_add(2).to_le_bytes());
    guest.memory.write(AVAILABLE, &[1, 0]);
    for k in 0..6 {
        assert_eq!(ask(&mut guest, false), Ok(false));
        assert_eq!(guest.memory.marks.take(), []);
        assert_eq!(ask(&mut guest, true), Ok(true));
        assert_eq!(number_at(&guest, AVAIL_EVENT), first.wrapping_add(k));
        assert_eq!(guest.memory.marks.take(), [GuestRange { guest: AVAIL_EVENT, len: 2 }]);
        assert_eq!(is_told(&mut guest, &recorder), k == 2, "{k}");
        guest.memory.marks.take();
    }
    assert_eq!(number_at(&guest, USED), 0);
    guest.queue.begin(Queue::new(layout(), guest.offered).unwrap()).unwrap();
    assert!(!guest.queue.has_event_index());
    assert!(!is_told(&mut guest, &recorder), "the flags say so");
}

/// `avail_event` is the position of the next chain to take, also while one is in flight.
#[test]
fn while_a_chain_is_out() {
    let (mut guest, recorder) = (Guest::new(), Recorder::default());
    guest.queue = Queue::new(layout(), guest.offered).unwrap().with_event_index(true);
    guest.offer_request(&request(1, 1, HELLO), 144);
    assert_eq!(guest.worker.pop(&mut guest.queue, &guest.memory), Ok(true));
    assert_eq!(ask(&mut guest, true), Ok(true));
    assert_eq!(number_at(&guest, AVAIL_EVENT), guest.offered);
    guest.worker.answer(&guest.device, &recorder, &guest.memory).unwrap();
    assert_eq!(
        guest.worker.push(&mut guest.queue, &guest.memory).map(|served| served.reply_len),
        Ok(144)
    );
}

#[test]
fn rings_that_do_not_reach_behind_their_ends() {
    let (mut guest, recorder) = (Guest::new(), Recorder::default());
    let serve = |guest: &mut Guest, layout: QueueLayout, has_event_index: bool| {
        guest.queue = Queue::new(layout, guest.offered).unwrap().with_event_index(has_event_index);
        guest.offer_request(&request(1, 1, HELLO), 144);
        guest
            .worker
            .serve(&mut guest.queue, &guest.device, &recorder, &guest.memory)
            .map(|served| served.is_some())
    };
    // All of the used ring is mapped, but not the bytes behind it.
    let used = QueueLayout { used: LEN as u64 - 4 - 8 * u64::from(SIZE), ..layout() };
    assert_eq!(serve(&mut guest, used, false), Ok(true));
    assert_eq!(serve(&mut guest, used, true), Err(Status::UsedUnreachable));
    assert_eq!(ask(&mut guest, true), Err(Status::NotMapped));
    assert_eq!(
        Worker::new().set_notification(&guest.queue, true, &guest.memory),
        Err(Status::WrongOrder)
    );
    assert_eq!(
        guest.worker.set_notification(&Queue::default(), true, &guest.memory),
        Err(Status::BadQueueSize)
    );
}
