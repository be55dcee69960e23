//! A driver behind an IOMMU: its addresses are I/O addresses, and the table is lent to the worker.
mod guest;

use guest::recorder::Recorder;
use guest::*;
use pitskhomu::*;
use std::panic::{catch_unwind, AssertUnwindSafe};

/// I/O addresses are the guest's and so much.
const SHIFT: u64 = 0x7000_0000_0000;
const PAGE: u64 = Iotlb::PAGE;
const RW: Access = Access::ReadWrite;

fn io_layout() -> QueueLayout {
    QueueLayout {
        size: SIZE,
        descriptors: SHIFT + DESCRIPTORS,
        available: SHIFT + AVAILABLE,
        used: SHIFT + USED,
    }
}

/// A guest whose queue has I/O addresses, and a table that maps nothing.
fn guest() -> (Guest, Iotlb) {
    let mut guest = Guest::new();
    let first = guest.queue.next_avail();
    guest.queue = Queue::new(io_layout(), first).unwrap();
    (guest, Iotlb::new().unwrap())
}

/// A LOOKUP whose buffers have I/O addresses: header, name, and a reply buffer of two parts.
fn offer(guest: &mut Guest) {
    guest.memory.write(REQUEST, &request(1, 1, b"hello\0"));
    let parts = [
        Buffer(SHIFT + REQUEST, 40, false),
        Buffer(SHIFT + REQUEST + 40, 6, false),
        Buffer(SHIFT + ROOM, 16, true),
        Buffer(SHIFT + ROOM + 0x1000, 128, true),
    ];
    guest.draw(DESCRIPTORS, 0, &parts);
    guest.offer(0);
}

fn pop(guest: &mut Guest, iotlb: &mut Iotlb) -> Result<Popped, Status> {
    guest.worker.lend(iotlb)?.pop(&mut guest.queue, &guest.memory)
}

fn push(guest: &mut Guest, iotlb: &mut Iotlb) -> Result<Served, Status> {
    guest.worker.lend(iotlb)?.push(&mut guest.queue, &guest.memory)
}

fn map(iotlb: &mut Iotlb, iova: u64, guest: u64) {
    iotlb.map(iova, PAGE, guest, RW).unwrap();
}

fn map_rings(iotlb: &mut Iotlb) {
    [DESCRIPTORS, AVAILABLE, USED].iter().for_each(|part| map(iotlb, SHIFT + part, *part));
}

/// Maps what is missed until the pop comes to an end: each round's misses.
fn take_by_misses(guest: &mut Guest, iotlb: &mut Iotlb) -> Vec<Vec<Miss>> {
    let mut rounds = Vec::new();
    while pop(guest, iotlb).unwrap() == Popped::Missing {
        for miss in guest.worker.misses() {
            iotlb.map(miss.iova, miss.len, miss.iova - SHIFT, miss.access).unwrap();
        }
        rounds.push(guest.worker.misses().to_vec());
    }
    assert!(guest.worker.has_chain() && guest.worker.misses().is_empty());
    rounds
}

fn answer(guest: &mut Guest) {
    guest.worker.answer(&guest.device, &Recorder::default(), &guest.memory).unwrap();
}

fn miss(at: u64, access: Access) -> Miss {
    Miss { iova: SHIFT + at, len: PAGE, access }
}

#[test]
fn a_pop_names_all_that_it_misses() {
    let (mut guest, mut iotlb) = guest();
    offer(&mut guest);
    let rounds = take_by_misses(&mut guest, &mut iotlb);
    let rings = [
        vec![miss(AVAILABLE, Access::Read)],
        vec![miss(USED, Access::Write)],
        vec![miss(DESCRIPTORS, Access::Read)],
    ];
    assert_eq!(rounds[..3], rings);
    let buffers = vec![
        miss(REQUEST, Access::Read),
        miss(ROOM, Access::Write),
        miss(ROOM + 0x1000, Access::Write),
    ];
    assert_eq!(rounds[3..], [buffers]);
    answer(&mut guest);
    let served = push(&mut guest, &mut iotlb).unwrap();
    assert_eq!((served.opcode, served.reply_len, served.fault), (1, 144, None));
    assert_eq!(guest.reply(144).data().len(), 128);
    assert_eq!(pop(&mut guest, &mut iotlb), Ok(Popped::Idle));
}

#[test]
fn a_missed_event_field_names_no_buffer_of_an_earlier_chain() {
    let (mut guest, mut iotlb) = guest();
    let first = guest.queue.next_avail();
    guest.queue = Queue::new(io_layout(), first).unwrap().with_event_index(true);
    offer(&mut guest);
    take_by_misses(&mut guest, &mut iotlb);
    answer(&mut guest);
    push(&mut guest, &mut iotlb).unwrap();
    iotlb.clear();
    assert_eq!(pop(&mut guest, &mut iotlb), Ok(Popped::Missing));
    assert_eq!(guest.worker.misses(), [miss(AVAILABLE, Access::Read)]);
}

#[test]
fn a_chain_keeps_its_windows_whatever_becomes_of_the_table() {
    let (mut guest, mut iotlb) = guest();
    offer(&mut guest);
    take_by_misses(&mut guest, &mut iotlb);
    // The buffers mean other pages now, and then nothing.
    map(&mut iotlb, SHIFT + REQUEST, 0x10_0000);
    map(&mut iotlb, SHIFT + ROOM, 0x10_0000);
    iotlb.unmap(SHIFT + REQUEST, 0x100_0000).unwrap();
    answer(&mut guest);
    iotlb.clear();
    map_rings(&mut iotlb);
    assert_eq!(push(&mut guest, &mut iotlb).unwrap().reply_len, 144);
    assert_eq!(guest.reply(144).data().len(), 128);
    assert_eq!(guest.memory.read(0x10_0000, 16), [0; 16]);
}

#[test]
fn a_buffer_may_lie_in_several_mappings() {
    let (mut guest, mut iotlb) = guest();
    map_rings(&mut iotlb);
    let request = request(1, 1, b"hello\0");
    // The request goes over the end of its first page, and so does the reply buffer.
    let (first, room) = (SHIFT + 0x9000 - 42, SHIFT + 0xa000 - 8);
    map(&mut iotlb, SHIFT + 0x8000, 0x10_0000);
    map(&mut iotlb, SHIFT + 0x9000, 0x2_0000);
    map(&mut iotlb, SHIFT + 0xa000, 0x3_0000);
    guest.memory.write(0x10_1000 - 42, &request[..42]);
    guest.memory.write(0x2_0000, &request[42..]);
    guest.draw(DESCRIPTORS, 0, &[Buffer(first, 46, false), Buffer(room, 144, true)]);
    guest.offer(0);
    assert_eq!(pop(&mut guest, &mut iotlb), Ok(Popped::Chain));
    answer(&mut guest);
    let served = push(&mut guest, &mut iotlb).unwrap();
    assert_eq!((served.unique, served.reply_len), (UNIQUE, 144));
    let reply = [guest.memory.read(0x2_1000 - 8, 8), guest.memory.read(0x3_0000, 136)].concat();
    assert_eq!((number(&reply, 0, 4), number(&reply, 8, 8)), (144, UNIQUE));
}

/// As many pages of a buffer, each in a mapping of its own.
const PAGES: u64 = 70;
/// Where they begin, by I/O addresses and by the guest's.
const MANY: u64 = SHIFT + 0x10_0000;

/// Where the guest has page `k` of the buffer: none lies behind the one before.
fn place(k: u64) -> u64 {
    0x20_0000 + (PAGES - k) * PAGE
}

fn read_or_write(opcode: u32) -> Vec<u8> {
    let size = (PAGES * PAGE) as u32;
    let mut bytes = request(opcode, 1, &args().q(3).q(0).d(size).d(0).q(0).d(0).d(0).0);
    let len = bytes.len() as u32 + if opcode == 16 { size } else { 0 };
    bytes[..4].copy_from_slice(&len.to_le_bytes());
    bytes
}

/// A guest that offers a request of 80 bytes, and a buffer of 70 pages behind other bytes of its
/// kind: the chain's windows are more than are looked for at once.
fn many(opcode: u32) -> (Guest, Iotlb) {
    let (mut guest, mut iotlb) = guest();
    map_rings(&mut iotlb);
    map(&mut iotlb, SHIFT + REQUEST, REQUEST);
    map(&mut iotlb, SHIFT + ROOM, ROOM);
    (0..PAGES).for_each(|k| map(&mut iotlb, MANY + k * PAGE, place(k)));
    guest.memory.write(REQUEST, &read_or_write(opcode));
    let is_read = opcode == 15;
    let pages = Buffer(MANY, (PAGES * PAGE) as u32, is_read);
    let room = Buffer(SHIFT + ROOM, if is_read { 16 } else { 24 }, true);
    let request = Buffer(SHIFT + REQUEST, 80, false);
    let parts = if is_read { [request, room, pages] } else { [request, pages, room] };
    guest.draw(DESCRIPTORS, 0, &parts);
    guest.offer(0);
    assert_eq!(pop(&mut guest, &mut iotlb), Ok(Popped::Chain));
    (guest, iotlb)
}

/// The byte of a buffer at an offset.
fn byte_at(offset: u64) -> u8 {
    (offset / PAGE * 3 + offset) as u8
}

#[test]
fn data_of_many_mappings_is_read_and_marked() {
    let (mut guest, mut iotlb) = many(15);
    guest.memory.is_logging.set(true);
    let bytes: Vec<u8> = (0..PAGES * PAGE).map(byte_at).collect();
    let asked = guest.worker.decode(&guest.device, &guest.memory).unwrap();
    asked.reply.send(bytes.clone()).unwrap();
    assert_eq!(guest.worker.finish(&guest.device, &guest.memory), Ok(true));
    assert_eq!(push(&mut guest, &mut iotlb).unwrap().reply_len, 16 + bytes.len() as u32);
    let marks = guest.memory.marks.take();
    assert_eq!(marks[0], GuestRange { guest: ROOM, len: 16 });
    for (k, page) in (0..).zip(bytes.chunks(PAGE as usize)) {
        assert!(guest.memory.read(place(k), page.len()) == page, "page {k}");
        assert_eq!(marks[1 + k as usize], GuestRange { guest: place(k), len: PAGE });
    }
}

#[test]
fn data_of_many_mappings_is_written() {
    let (mut guest, mut iotlb) = many(16);
    for k in 0..PAGES {
        let page: Vec<u8> = (0..PAGE).map(|at| byte_at(k * PAGE + at)).collect();
        guest.memory.write(place(k), &page);
    }
    let asked = guest.worker.decode(&guest.device, &guest.memory).unwrap();
    let mut found = vec![0; (PAGES * PAGE) as usize];
    match asked.operation {
        Operation::Write { mut data, .. } => assert_eq!(data.take(&mut found), found.len()),
        other => panic!("{other:?}"),
    }
    assert!(found == (0..PAGES * PAGE).map(byte_at).collect::<Vec<u8>>());
    asked.reply.send(Response::Written(PAGES * PAGE)).unwrap();
    assert_eq!(guest.worker.finish(&guest.device, &guest.memory), Ok(true));
    assert_eq!(push(&mut guest, &mut iotlb).unwrap().reply_len, 24);
}

/// A page that has a part of the request and the reply buffer is one miss, of both accesses.
#[test]
fn a_page_that_is_read_and_written_is_one_miss() {
    let (mut guest, mut iotlb) = guest();
    map_rings(&mut iotlb);
    guest.memory.write(REQUEST, &request(1, 1, b"hello\0"));
    let room = SHIFT + REQUEST + 0x100;
    guest.draw(DESCRIPTORS, 0, &[Buffer(SHIFT + REQUEST, 46, false), Buffer(room, 144, true)]);
    guest.offer(0);
    assert_eq!(take_by_misses(&mut guest, &mut iotlb), [vec![miss(REQUEST, RW)]]);
    answer(&mut guest);
    assert_eq!(push(&mut guest, &mut iotlb).unwrap().reply_len, 144);
}

/// A buffer in a page, and one that goes on in the next page, are one miss of two pages.
#[test]
fn misses_that_overlap_are_one() {
    let (mut guest, mut iotlb) = guest();
    map_rings(&mut iotlb);
    map(&mut iotlb, SHIFT + ROOM, ROOM);
    let (bytes, at) = (request(1, 1, b"hello\0"), [REQUEST + 0x800, REQUEST + PAGE - 4]);
    guest.memory.write(at[0], &bytes[..30]);
    guest.memory.write(at[1], &bytes[30..]);
    let parts = [
        Buffer(SHIFT + at[0], 30, false),
        Buffer(SHIFT + at[1], 16, false),
        Buffer(SHIFT + ROOM, 144, true),
    ];
    guest.draw(DESCRIPTORS, 0, &parts);
    guest.offer(0);
    let wanted = Miss { iova: SHIFT + REQUEST, len: 2 * PAGE, access: Access::Read };
    assert_eq!(take_by_misses(&mut guest, &mut iotlb), [vec![wanted]]);
    answer(&mut guest);
    assert_eq!(push(&mut guest, &mut iotlb).unwrap().reply_len, 144);
}

/// A chain of more pages than a pop names at once: each is named once, by few pops.
#[test]
fn a_pop_names_at_most_1024_misses() {
    const MOST: u64 = 1024;
    const RINGS: u64 = 0x10_0000;
    const BUFFERS: u64 = SHIFT + 0x1_0000_0000;
    const PLACE: u64 = 0x3f_0000;
    for count in [MOST - 1, MOST, MOST + 1, 1999] {
        let (mut guest, mut iotlb) = guest();
        let layout = QueueLayout {
            size: 2048,
            descriptors: SHIFT + RINGS,
            available: SHIFT + RINGS + 0x8_0000,
            used: SHIFT + RINGS + 0xc_0000,
        };
        guest.queue = Queue::new(layout, 0).unwrap();
        iotlb.map(SHIFT + RINGS, 0x10_0000, RINGS, RW).unwrap();
        map(&mut iotlb, SHIFT + REQUEST, REQUEST);
        guest.memory.write(REQUEST, &request(1, 1, b"hello\0"));
        // A byte of the reply buffer in every other page.
        let room = (0..count).map(|k| Buffer(BUFFERS + 2 * k * PAGE, 1, true));
        let parts: Vec<_> =
            Some(Buffer(SHIFT + REQUEST, 46, false)).into_iter().chain(room).collect();
        guest.draw(RINGS, 0, &parts);
        guest.memory.write(RINGS + 0x8_0002, &[1, 0, 0, 0]);
        let (mut named, mut rounds) = (Vec::new(), Vec::new());
        while pop(&mut guest, &mut iotlb).unwrap() == Popped::Missing {
            let misses = guest.worker.misses().to_vec();
            for miss in &misses {
                iotlb.map(miss.iova, miss.len, PLACE, miss.access).unwrap();
            }
            rounds.push(misses.len() as u64);
            named.extend(misses);
        }
        assert!(rounds.iter().all(|&len| len <= MOST), "{rounds:?} of {count}");
        assert!(rounds.len() as u64 <= 1 + count / MOST, "{rounds:?} of {count}");
        named.sort_unstable_by_key(|miss| miss.iova);
        let page = |k| Miss { iova: BUFFERS + 2 * k * PAGE, len: PAGE, access: Access::Write };
        assert!(named.into_iter().eq((0..count).map(page)), "{count}");
        answer(&mut guest);
        let served = push(&mut guest, &mut iotlb).unwrap();
        assert_eq!((served.room_len, served.reply_len), (count, 144));
    }
}

#[test]
fn what_is_refused_is_no_miss() {
    let (mut guest, mut iotlb) = guest();
    map_rings(&mut iotlb);
    for (at, fault) in
        [(REQUEST, Fault::RequestUnreachable), (ROOM + 0x1000, Fault::RoomUnreachable)]
    {
        offer(&mut guest);
        [REQUEST, ROOM, ROOM + 0x1000].iter().for_each(|at| map(&mut iotlb, SHIFT + at, *at));
        iotlb.map(SHIFT + at, PAGE, 0, Access::None).unwrap();
        assert_eq!(pop(&mut guest, &mut iotlb), Ok(Popped::Chain));
        assert_eq!(push(&mut guest, &mut iotlb).unwrap().fault, Some(fault));
    }
    iotlb.map(SHIFT + AVAILABLE, PAGE, 0, Access::None).unwrap();
    assert_eq!(pop(&mut guest, &mut iotlb), Err(Status::AvailIndexUnreachable));
    assert_eq!(guest.queue.stopped(), Some(Status::AvailIndexUnreachable));
}

#[test]
fn a_chain_of_a_table_goes_back_with_one() {
    let (mut guest, mut iotlb) = guest();
    offer(&mut guest);
    take_by_misses(&mut guest, &mut iotlb);
    answer(&mut guest);
    assert_eq!(guest.worker.push(&mut guest.queue, &guest.memory), Err(Status::WrongOrder));
    assert!(guest.worker.is_answered());
    assert!(guest.worker.lend(&mut iotlb).unwrap().uses(SHIFT + ROOM + 15, 1));
    assert!(!guest.worker.lend(&mut iotlb).unwrap().uses(SHIFT + ROOM + 16, 1));
    assert_eq!(push(&mut guest, &mut iotlb).unwrap().reply_len, 144);
    assert_eq!(Worker::new().lend(&mut iotlb).err(), Some(Status::WrongOrder), "no memory");
}

/// A pop with a table is undone, and the IOMMU is turned off: the chain is popped without a table.
#[test]
fn a_pop_that_is_undone_leaves_no_window() {
    let (mut guest, mut iotlb) = guest();
    let first = guest.queue.next_avail();
    offer(&mut guest);
    take_by_misses(&mut guest, &mut iotlb);
    guest.worker.unpop(&mut guest.queue).unwrap();
    let region = Region { guest: 0, len: LEN as u64, host: guest.memory.host };
    guest.worker.set_memory(&guest.device, &[region]).unwrap();
    guest.queue = Queue::new(layout(), first).unwrap();
    let parts = [Buffer(REQUEST, 46, false), Buffer(ROOM + 0x2000, 144, true)];
    guest.draw(DESCRIPTORS, 0, &parts);
    assert_eq!(guest.worker.pop(&mut guest.queue, &guest.memory), Ok(true));
    answer(&mut guest);
    let served = guest.worker.push(&mut guest.queue, &guest.memory).unwrap();
    assert_eq!(served.reply_len, 144);
    assert_eq!(number(&guest.memory.read(ROOM + 0x2000, 4), 0, 4), 144);
    assert_eq!(guest.memory.read(ROOM, 16), [0; 16]);
}

#[test]
fn a_push_by_another_table_leaves_the_chain_with_the_worker() {
    let (mut guest, mut iotlb) = guest();
    let mut other = Iotlb::new().unwrap();
    map_rings(&mut other);
    map(&mut other, SHIFT + USED, 0x5000);
    offer(&mut guest);
    take_by_misses(&mut guest, &mut iotlb);
    answer(&mut guest);
    let before = guest.queue.next_used();
    for table in [&mut other, &mut Iotlb::new().unwrap()] {
        assert_eq!(push(&mut guest, table), Err(Status::OtherTable));
        assert!(guest.worker.is_answered());
    }
    assert_eq!((guest.queue.next_used(), guest.memory.read(0x5000, 16)), (before, vec![0; 16]));
    assert_eq!(push(&mut guest, &mut iotlb).unwrap().reply_len, 144);
    assert_eq!(guest.reply(144).data().len(), 128);
    // Without its table the worker finds nothing, until its memory is set again.
    let store = guest.worker.set_notification(&guest.queue, true, &guest.memory);
    assert_eq!(store, Err(Status::NotMapped));
    assert_eq!(guest.worker.pop(&mut guest.queue, &guest.memory), Err(Status::OtherTable));
}

#[test]
fn marks_are_by_guest_addresses() {
    let (mut guest, mut iotlb) = guest();
    guest.memory.is_logging.set(true);
    offer(&mut guest);
    take_by_misses(&mut guest, &mut iotlb);
    answer(&mut guest);
    let element = USED + 4 + 8 * u64::from(guest.queue.next_used() % SIZE);
    push(&mut guest, &mut iotlb).unwrap();
    let mark = |guest, len| GuestRange { guest, len };
    assert_eq!(
        guest.memory.marks.take(),
        [
            mark(ROOM, 16),
            mark(ROOM + 0x1000, 128),
            mark(element, 4),
            mark(element + 4, 4),
            mark(USED + 2, 2)
        ]
    );
    let mut lent = guest.worker.lend(&mut iotlb).unwrap();
    assert_eq!(lent.set_notification(&guest.queue, true, &guest.memory), Ok(true));
    drop(lent);
    assert_eq!(guest.memory.marks.take(), [mark(USED, 2)]);
}

#[test]
fn notifications_are_enabled_where_the_table_says() {
    let (mut guest, mut iotlb) = guest();
    let mut lent = guest.worker.lend(&mut iotlb).unwrap();
    let enabled = lent.set_notification(&guest.queue, false, &guest.memory);
    drop(lent);
    assert_eq!(enabled, Err(Status::NotMapped));
    assert_eq!(guest.worker.misses(), [miss(USED, Access::Write)]);
    map(&mut iotlb, SHIFT + USED, 0x5000);
    let mut lent = guest.worker.lend(&mut iotlb).unwrap();
    assert_eq!(lent.set_notification(&guest.queue, false, &guest.memory), Ok(true));
    drop(lent);
    assert_eq!((guest.memory.read(0x5000, 2), guest.worker.misses().len()), (vec![1, 0], 0));
}

#[test]
fn the_table_is_in_its_place_after_a_panic() {
    let (mut guest, mut iotlb) = guest();
    map_rings(&mut iotlb);
    offer(&mut guest);
    guest.memory.panics_after.set(Some(0));
    let taken = catch_unwind(AssertUnwindSafe(|| pop(&mut guest, &mut iotlb)));
    assert!(taken.is_err());
    guest.memory.panics_after.set(None);
    map(&mut iotlb, SHIFT + 0x10_0000, 0x10_0000);
    take_by_misses(&mut guest, &mut iotlb);
}

/// The IOMMU is turned off behind a push: the next chain has its own windows.
#[test]
fn a_push_leaves_no_window() {
    let (mut guest, mut iotlb) = guest();
    offer(&mut guest);
    take_by_misses(&mut guest, &mut iotlb);
    answer(&mut guest);
    push(&mut guest, &mut iotlb).unwrap();
    guest.memory.write(ROOM, &[0; 16]);
    let region = Region { guest: 0, len: LEN as u64, host: guest.memory.host };
    guest.worker.set_memory(&guest.device, &[region]).unwrap();
    guest.queue = Queue::new(layout(), guest.offered).unwrap();
    let parts = [Buffer(REQUEST, 46, false), Buffer(ROOM + 0x2000, 144, true)];
    guest.draw(DESCRIPTORS, 0, &parts);
    guest.offer(0);
    assert_eq!(guest.worker.pop(&mut guest.queue, &guest.memory), Ok(true));
    answer(&mut guest);
    let served = guest.worker.push(&mut guest.queue, &guest.memory).unwrap();
    assert_eq!((served.reply_len, guest.memory.read(ROOM, 16)), (144, vec![0; 16]));
    assert_eq!(number(&guest.memory.read(ROOM + 0x2000, 4), 0, 4), 144);
}

/// A chain that was popped without a table isn't pushed with one. The worker keeps it.
#[test]
fn a_chain_without_a_table_is_not_pushed_with_one() {
    let (mut guest, mut iotlb) = (Guest::new(), Iotlb::new().unwrap());
    guest.offer_request(&request(1, 1, b"hello\0"), 144);
    assert_eq!(guest.worker.pop(&mut guest.queue, &guest.memory), Ok(true));
    answer(&mut guest);
    assert_eq!(push(&mut guest, &mut iotlb), Err(Status::WrongOrder));
    assert!(guest.worker.is_answered() && guest.queue.in_flight() == 1);
}

/// A window of 128 KiB, and behind it another.
#[test]
fn a_window_may_have_more_than_16_bits() {
    const LONG: u64 = 0x2_0000;
    let (mut guest, mut iotlb) = guest();
    map_rings(&mut iotlb);
    map(&mut iotlb, SHIFT + REQUEST, REQUEST);
    iotlb.map(MANY, LONG, 0x10_0000, RW).unwrap();
    map(&mut iotlb, MANY + LONG, 0x18_0000);
    let size = (LONG + PAGE - 16) as u32;
    let read = args().q(3).q(0).d(size).d(0).q(0).d(0).d(0).0;
    guest.memory.write(REQUEST, &request(15, 1, &read));
    let parts = [Buffer(SHIFT + REQUEST, 80, false), Buffer(MANY, size + 16, true)];
    guest.draw(DESCRIPTORS, 0, &parts);
    guest.offer(0);
    assert_eq!(pop(&mut guest, &mut iotlb), Ok(Popped::Chain));
    let Guest { worker, device, memory, .. } = &mut guest;
    let Request { operation, reply, .. } = worker.decode(device, memory).unwrap();
    if let Operation::Read { mut data, .. } = operation {
        let bytes: Vec<u8> = (0..u64::from(size)).map(byte_at).collect();
        assert_eq!(data.put(&bytes), bytes.len());
        reply.send(data).unwrap();
    }
    assert_eq!(worker.finish(device, memory), Ok(true));
    assert_eq!(push(&mut guest, &mut iotlb).unwrap().reply_len, size + 16);
    for at in [0, 0xfff0, 0x1_0000, LONG - 17, LONG - 16, LONG, u64::from(size) - 1] {
        let place = if at + 16 < LONG { 0x10_0010 + at } else { 0x18_0010 + at - LONG };
        assert_eq!(guest.memory.read(place, 1), [byte_at(at)], "{at:#x}");
    }
}
