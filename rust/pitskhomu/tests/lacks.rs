//! Memory that lacks bytes of a worker's own regions: zeros are loaded in their place, and nothing
//! is stored there (`GuestMemory::get_slice`). No byte beside them is touched.
mod guest;

use guest::recorder::Recorder;
use guest::*;
use pitskhomu::*;

const PAGE: u64 = 0x1000;

/// The guest's memory without one page.
struct Lacking<'m>(&'m Memory, u64);

impl GuestMemory for Lacking<'_> {
    fn get_slice(&self, at: usize, len: usize) -> Option<GuestSlice<'_>> {
        let (from, end) = ((at - self.0.host) as u64, (at - self.0.host + len) as u64);
        let lacks = from < self.1 + PAGE && self.1 < end;
        self.0.get_slice(at, len).filter(|_| !lacks)
    }
}

/// The result of a chain, the calls, and the bytes of the reply and of the used ring.
type Came = (Result<Option<Served>, Status>, Vec<String>, Vec<u8>, Vec<u8>);

/// A LOOKUP of "hello" is served while a page lacks.
fn serve(page: u64) -> Came {
    let (mut guest, recorder) = (Guest::new(), Recorder::default());
    // The worker had another request before. Its bytes don't come in the place of those that lack.
    assert_eq!(guest.ask(&recorder, 1, 5, args().bytes(b"other\0"), 144).data().len(), 128);
    recorder.taken();
    guest.memory.write(ROOM, &[0; 16]);
    guest.memory.write(ROOM + PAGE, &[0; 128]);
    guest.memory.write(page, &[0xa5; 16]);
    guest.offer_request(&request(1, 1, b"hello\0"), 144);
    let before = guest.memory.read(page, PAGE as usize);
    let Guest { worker, queue, device, memory, .. } = &mut guest;
    let served = worker.serve(queue, device, &recorder, &Lacking(memory, page));
    assert!(guest.memory.read(page, PAGE as usize) == before, "nothing is stored in the page");
    let (reply, used) = (guest.memory.read(ROOM, 16), guest.memory.read(USED + 2, 2));
    (served, recorder.taken(), [reply, guest.memory.read(ROOM + PAGE, 8)].concat(), used)
}

#[test]
fn a_page_that_lacks_is_of_zeros_and_takes_nothing() {
    let after = u16::MAX;
    let whole = [&144u32.to_le_bytes()[..], &[0; 4], &UNIQUE.to_le_bytes()].concat();
    // A page that nothing lies in.
    let (served, calls, reply, used) = serve(0x7000);
    assert_eq!(served.unwrap().unwrap().reply_len, 144);
    assert_eq!((calls.len(), &reply[..16], &used[..]), (1, &whole[..], &after.to_le_bytes()[..]));
    assert_ne!(reply[16..], [0; 8]);
    // The reply's header, and its data.
    let (served, calls, reply, used) = serve(ROOM);
    assert_eq!(served.unwrap().unwrap().reply_len, 144);
    assert_eq!((calls.len(), &reply[..16]), (1, &[0xa5; 16][..]));
    assert_eq!(used, after.to_le_bytes());
    let (served, calls, reply, used) = serve(ROOM + PAGE);
    assert_eq!(served.unwrap().unwrap().reply_len, 144);
    assert_eq!((&reply[..16], &reply[16..]), (&whole[..], &[0xa5; 8][..]));
    assert_eq!((calls.len(), &used[..]), (1, &after.to_le_bytes()[..]));
    // The request is of zeros. FUSE has no opcode 0: ENOSYS.
    let (served, calls, reply, used) = serve(REQUEST);
    let served = served.unwrap().unwrap();
    assert_eq!((served.opcode, served.unique, served.reply_len), (0, 0, 16));
    assert_eq!((calls.len(), used), (0, after.to_le_bytes().to_vec()));
    let error = [&16u32.to_le_bytes()[..], &(-38i32).to_le_bytes(), &[0; 16]].concat();
    assert_eq!(reply, error);
    // The descriptors: the first is of zeros, so the chain has no byte.
    let (served, calls, reply, used) = serve(DESCRIPTORS);
    let served = served.unwrap().unwrap();
    assert_eq!((served.request_len, served.room_len, served.reply_len), (0, 0, 0));
    assert_eq!((served.request_fault, served.fault), (Some(RequestFault::Decode), None));
    assert_eq!((calls.len(), reply, &used[..]), (0, vec![0; 24], &after.to_le_bytes()[..]));
    // The used ring: the chain is served, and the driver never sees it.
    let (served, calls, reply, used) = serve(USED);
    assert_eq!(served.unwrap().unwrap().reply_len, 144);
    assert_eq!((calls.len(), &reply[..16], &used[..]), (1, &whole[..], &[0xa5; 2][..]));
    // The available ring: its index is 0, which is 3 chains from the position.
    let (served, calls, ..) = serve(AVAILABLE);
    let served = served.unwrap().unwrap();
    assert_eq!((served.head, served.reply_len, calls.len()), (0, 144, 1));
    assert!(served.notify, "the flags are zeros");
}
