//! A FUSE server of one's own: requests that the library doesn't serve, by their bytes.
mod guest;

use guest::recorder::Recorder;
use guest::*;
use pitskhomu::*;
use std::panic::{catch_unwind, AssertUnwindSafe};
use std::time::Duration;

const LOOKUP: u32 = 1;
const POLL: u32 = 40;

/// Serves POLL by bytes, in the way that its field says, and hands all else to a recorder.
struct Polls(fn(&mut Exchange<'_>) -> u64, Recorder);

impl FileSystem for Polls {
    fn reply_by_bytes(&self, exchange: &mut Exchange<'_>) -> Option<u64> {
        Some(()).filter(|()| exchange.opcode() == POLL).map(|()| (self.0)(exchange))
    }
    fn lookup(&self, context: &Context, parent: Node, name: &CStr) -> Answer<Entry> {
        self.1.lookup(context, parent, name)
    }
    fn getattr(
        &self,
        context: &Context,
        node: Node,
        handle: Option<Handle>,
    ) -> Answer<(Attributes, Duration)> {
        self.1.getattr(context, node, handle)
    }
}

/// struct fuse_poll_in: fh, kh, flags, events.
fn poll() -> Bytes {
    args().q(3).q(4).d(0).d(0x55)
}

/// Replies struct fuse_poll_out with the events that were asked for.
fn reply(exchange: &mut Exchange<'_>) -> u64 {
    let mut request = [0; 100];
    assert_eq!((exchange.request_len(), exchange.load(0, &mut request)), (64, 64));
    assert_eq!(request[..64], guest::request(POLL, 5, &poll().0)[..]);
    let mut events = [0; 4];
    assert_eq!((exchange.load(60, &mut events), u32::from_le_bytes(events)), (4, 0x55));
    assert_eq!((exchange.load(64, &mut events), exchange.load(u64::MAX, &mut events)), (0, 0));
    assert_eq!((exchange.unique(), exchange.room_len()), (UNIQUE, 24));
    let bytes = args().d(24).d(0).q(exchange.unique()).bytes(&events).d(0);
    assert_eq!(exchange.store(0, &bytes.0), 24);
    assert_eq!(exchange.store(20, &[0; 8]), 4, "no more than the room has");
    24
}

#[test]
fn a_request_is_replied_by_bytes() {
    let (mut guest, polls) = (Guest::new(), Polls(reply, Recorder::default()));
    assert_eq!(guest.ask(&polls, POLL, 5, poll(), 24).data(), args().d(0x55).d(0).0);
    assert_eq!(polls.1.taken(), [""; 0]);
    // All else is the library's.
    assert_eq!(guest.ask(&polls, LOOKUP, 5, args().bytes(b"name\0"), 144).data().len(), 128);
    assert_eq!(polls.1.taken(), [r#"lookup (Node(5), "name")"#]);
}

#[test]
fn data_beyond_the_first_bytes() {
    let mut guest = Guest::new();
    let polls = Polls(
        |exchange| {
            let mut bytes = [0; 200];
            assert_eq!(exchange.load(70, &mut bytes), 70);
            let wanted: Vec<u8> = (30..100).collect();
            assert_eq!(bytes[..70], wanted[..]);
            0
        },
        Recorder::default(),
    );
    let bytes: Vec<u8> = (0..100).collect();
    assert_eq!(guest.ask(&polls, POLL, 5, args().bytes(&bytes), 24), Replied::None);
}

#[test]
fn a_reply_by_windows() {
    let mut guest = Guest::new();
    let polls = Polls(
        |exchange| {
            let mut windows = [Window::default(); 4];
            let request = exchange.request_windows(40, &mut windows).to_vec();
            assert_eq!(request, [Window { at: 0x7000_0000 + REQUEST as usize + 40, len: 24 }]);
            let room = exchange.reply_windows(16, &mut windows).to_vec();
            assert_eq!(room, [Window { at: 0x7000_0000 + ROOM as usize + 0x1000, len: 8 }]);
            exchange.written_up_to(20);
            exchange.store_error(Errno::EAGAIN)
        },
        Recorder::default(),
    );
    guest.memory.is_logging.set(true);
    assert_eq!(guest.ask(&polls, POLL, 5, poll(), 24), Replied::Error(11));
    let marks = guest.memory.marks.take();
    let range = |guest, len| GuestRange { guest, len };
    assert_eq!(marks[..2], [range(ROOM, 16), range(ROOM + 0x1000, 4)]);
}

#[test]
fn replies_that_have_no_room() {
    let mut guest = Guest::new();
    let longer = Polls(|exchange| exchange.room_len() + 1, Recorder::default());
    assert_eq!(guest.ask(&longer, POLL, 5, poll(), 24), Replied::Error(5));
    assert_eq!(guest.ask(&longer, POLL, 5, poll(), 15), Replied::None);
    let fails = Polls(|exchange| exchange.store_error(Errno::EAGAIN), Recorder::default());
    assert_eq!(guest.ask(&fails, POLL, 5, poll(), 16), Replied::Error(11));
    assert_eq!(guest.ask(&fails, POLL, 5, poll(), 15), Replied::None);
}

#[test]
fn a_server_that_panics_is_answered_eio() {
    let (mut guest, recorder) = (Guest::new(), Recorder::default());
    let panics = Polls(|_| panic!("the server panics, as the test wants it"), Recorder::default());
    guest.offer_request(&request(POLL, 5, &poll().0), 24);
    let served = catch_unwind(AssertUnwindSafe(|| {
        guest.worker.serve(&mut guest.queue, &guest.device, &panics, &guest.memory)
    }));
    assert!(served.is_err());
    assert_eq!(guest.serve(&recorder).1, Replied::Error(5));
    assert!(guest.is_idle(&recorder));
}

/// A request of fewer bytes than a header has an opcode or a number of 0.
#[test]
fn short_requests() {
    struct Short;
    impl FileSystem for Short {
        fn reply_by_bytes(&self, exchange: &mut Exchange<'_>) -> Option<u64> {
            assert_eq!((exchange.opcode(), exchange.unique()), (0, 0));
            Some(exchange.store_error(Errno::EINVAL))
        }
        fn lookup(&self, _: &Context, _: Node, _: &CStr) -> Answer<Entry> {
            Err(Errno::ENOENT)
        }
        fn getattr(
            &self,
            _: &Context,
            _: Node,
            _: Option<Handle>,
        ) -> Answer<(Attributes, Duration)> {
            Err(Errno::EIO)
        }
    }
    let mut guest = Guest::new();
    guest.offer_request(&[1; 7], 24);
    let (served, reply) = guest.serve(&Short);
    assert_eq!((served.request_len, served.opcode, served.unique, reply), (7, 0, 0, Replied::None));
}
