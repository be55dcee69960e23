//! A migration's log: what is marked, and when.
mod guest;

use guest::recorder::Recorder;
use guest::*;
use pitskhomu::*;
use std::panic::{catch_unwind, AssertUnwindSafe};

const HELLO: &[u8] = b"hello\0";

#[test]
fn a_log_hears_what_was_written() {
    let (mut guest, recorder) = (Guest::new(), Recorder::default());
    guest.memory.is_logging.set(true);
    let position = guest.queue.next_avail();
    guest.offer_request(&request(15, 1, &args().q(3).q(0).d(100).bytes(&[0; 20]).0), 116);
    guest.serve(&recorder);
    let element = USED + 4 + 8 * u64::from(position % SIZE);
    let range = |guest, len| GuestRange { guest, len };
    let rings = [range(element, 8), range(USED + 2, 2)];
    let marks = guest.memory.marks.take();
    assert_eq!(marks, [vec![range(ROOM, 16), range(ROOM + 0x1000, 9)], rings.to_vec()].concat());
    // A READ that fails after it put data in: that data is marked too.
    guest.offer_request(&request(15, 1, &args().q(3).q(0).d(100).bytes(&[0; 20]).0), 116);
    guest.serve(&Recorder::failing(Errno::EIO));
    assert_eq!(guest.memory.marks.take()[..2], [range(ROOM, 16), range(ROOM + 0x1000, 9)]);
}

/// A reply over more buffers than are asked for at once is marked whole.
#[test]
fn a_log_hears_of_each_of_many_buffers() {
    let (mut guest, recorder) = (Guest::new(), Recorder::default());
    let (first, size) = (guest.offered, 32);
    guest.queue = Queue::new(QueueLayout { size, ..layout() }, first).unwrap();
    guest.memory.is_logging.set(true);
    guest.memory.write(REQUEST, &request(1, 1, HELLO));
    let mut parts = vec![Buffer(REQUEST, 46, false)];
    parts.extend((0..18).map(|k| Buffer(ROOM + 0x1000 * k, 8, true)));
    guest.draw(DESCRIPTORS, 0, &parts);
    guest.memory.write(AVAILABLE + 4 + 2 * u64::from(first % size), &[0, 0]);
    guest.memory.write(AVAILABLE + 2, &first.wrapping_add(1).to_le_bytes());
    let served = guest.worker.serve(&mut guest.queue, &guest.device, &recorder, &guest.memory);
    assert_eq!(served.unwrap().expect("a chain waits").reply_len, 144);
    let range = |guest, len| GuestRange { guest, len };
    let mut wanted: Vec<_> = (0..18).map(|k| range(ROOM + 0x1000 * k, 8)).collect();
    wanted.extend([range(USED + 4 + 8 * u64::from(first % size), 8), range(USED + 2, 2)]);
    assert_eq!(guest.memory.marks.take(), wanted);
}

/// Writes to the reply buffer of a READ, and panics or fails before it has said how far.
struct Breaks {
    by_windows: bool,
    by_bytes: bool,
    panics: bool,
}

impl FileSystem for Breaks {
    fn lookup(&self, _: &Context, _: Node, _: &CStr) -> Answer<Entry> {
        Err(Errno::ENOENT)
    }
    fn getattr(
        &self,
        _: &Context,
        _: Node,
        _: Option<Handle>,
    ) -> Answer<(Attributes, std::time::Duration)> {
        Err(Errno::EIO)
    }
    fn reply_by_bytes(&self, exchange: &mut Exchange<'_>) -> Option<u64> {
        if self.by_bytes && self.by_windows {
            exchange.reply_windows(16, &mut [Window::default(); 4]);
        } else if self.by_bytes {
            exchange.store(16, b"some data");
        }
        assert!(!(self.by_bytes && self.panics), "the file system panics, as the test wants it");
        None
    }
    fn read(&self, _: &Context, _: Node, _: ReadFile, data: &mut ReadData<'_>) -> Answer<()> {
        if self.by_windows {
            data.windows(&mut [Window::default(); 4]);
        } else {
            data.put(b"some data");
        }
        assert!(!self.panics, "the file system panics, as the test wants it");
        Err(Errno::EIO)
    }
}

/// What is in the reply buffer is logged, however the call ends.
#[test]
fn a_log_hears_what_was_written_before_a_panic() {
    let range = |guest, len| GuestRange { guest, len };
    let read = request(15, 1, &args().q(3).q(0).d(100).bytes(&[0; 20]).0);
    for (by_windows, by_bytes, panics, len) in [
        (false, false, true, 9),
        (true, false, true, 100),
        (false, true, true, 9),
        (true, true, true, 100),
        (true, false, false, 100),
        (false, true, false, 9),
    ] {
        let (mut guest, breaks) = (Guest::new(), Breaks { by_windows, by_bytes, panics });
        guest.memory.is_logging.set(true);
        guest.offer_request(&read, 116);
        if panics {
            assert!(catch_unwind(AssertUnwindSafe(|| guest.serve(&breaks))).is_err());
        }
        assert_eq!(guest.serve(&breaks).1, Replied::Error(5));
        let marks = guest.memory.marks.take();
        assert_eq!(marks[..2], [range(ROOM, 16), range(ROOM + 0x1000, len)], "{by_windows}");
    }
}

/// So is what was put into the reply buffer of a chain that is never pushed.
#[test]
fn a_log_hears_of_chains_that_end_without_a_push() {
    let range = |guest, len| GuestRange { guest, len };
    let read = request(15, 1, &args().q(3).q(0).d(100).bytes(&[0; 20]).0);
    for (is_logging, is_answered) in [(true, true), (true, false), (false, true), (false, false)] {
        let mut guest = Guest::new();
        guest.memory.is_logging.set(is_logging);
        guest.offer_request(&read, 116);
        let next = Queue::new(layout(), guest.offered).unwrap();
        let Guest { worker, queue, device, memory, .. } = &mut guest;
        let Request { operation, reply, .. } =
            worker.take(queue, device, memory).unwrap().expect("a chain is available");
        if let Operation::Read { mut data, .. } = operation {
            data.put(b"some data");
            if is_answered {
                reply.send(data).unwrap();
            }
        }
        queue.begin(next).unwrap();
        if is_answered {
            assert_eq!(worker.finish(device, memory), Ok(true));
            assert_eq!(worker.push(queue, memory), Err(Status::OtherQueue));
        } else {
            worker.mark_data(memory);
            worker.abandon();
        }
        let marks = memory.marks.take();
        let wanted = [range(ROOM, 16), range(ROOM + 0x1000, 9)];
        assert_eq!(marks, wanted[..if is_logging { 2 } else { 0 }], "{is_answered}");
        worker.mark_data(memory);
        assert_eq!(memory.marks.take(), [], "it has no chain");
    }
}

/// The stores, the marks, and only then the end of the push, whose last step is the load of the
/// available flags.
#[test]
fn marks_come_between_the_stores_and_the_end_of_the_push() {
    let (mut guest, recorder) = (Guest::new(), Recorder::default());
    guest.memory.is_logging.set(true);
    guest.offer_request(&request(1, 1, HELLO), 144);
    let element = USED + 4 + 8 * u64::from(guest.queue.next_used() % SIZE);
    guest.worker.pop(&mut guest.queue, &guest.memory).unwrap();
    guest.worker.answer(&guest.device, &recorder, &guest.memory).unwrap();
    assert_eq!(guest.memory.marks.take(), []);
    guest.memory.slices.take();
    guest.worker.push(&mut guest.queue, &guest.memory).unwrap();
    let marked = guest.memory.marked_at.take();
    let slices = guest.memory.slices.take();
    let (stores, load) = slices.split_at(slices.len() - 1);
    assert_eq!(stores[stores.len() - 3..], [element, element + 4, USED + 2]);
    assert_eq!(load, [AVAILABLE]);
    assert_eq!(marked, vec![stores.len(); guest.memory.marks.take().len()]);
}

/// The memory panics at a store of a READ's data: what may have been stored is marked.
#[test]
fn a_log_hears_of_a_store_that_panics() {
    struct Puts;
    impl FileSystem for Puts {
        fn lookup(&self, _: &Context, _: Node, _: &CStr) -> Answer<Entry> {
            Err(Errno::ENOENT)
        }
        fn getattr(
            &self,
            _: &Context,
            _: Node,
            _: Option<Handle>,
        ) -> Answer<(Attributes, std::time::Duration)> {
            Err(Errno::EIO)
        }
        fn read(&self, _: &Context, _: Node, _: ReadFile, data: &mut ReadData<'_>) -> Answer<()> {
            assert_eq!(data.put(b"first"), 5);
            data.put(&[7; 40]);
            Ok(())
        }
    }
    let range = |guest, len| GuestRange { guest, len };
    let mut guest = Guest::new();
    guest.memory.is_logging.set(true);
    guest.offer_request(&request(15, 1, &args().q(3).q(0).d(100).bytes(&[0; 20]).0), 116);
    guest.memory.panics_at.set(Some(ROOM + 0x1005));
    assert!(catch_unwind(AssertUnwindSafe(|| guest.serve(&Puts))).is_err());
    guest.memory.panics_at.set(None);
    assert_eq!(guest.serve(&Puts).1, Replied::Error(5));
    assert_eq!(guest.memory.marks.take()[..2], [range(ROOM, 16), range(ROOM + 0x1000, 45)]);
}
