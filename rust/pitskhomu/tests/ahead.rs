//! The loads of a pop: each is made once, in the standard's order, whatever shape the chain has
//! (VIRTIO 1.2, 2.7.5.3, 2.7.6 and 2.7.13).
mod guest;

use guest::recorder::Recorder;
use guest::*;

/// Draws these descriptors of the request and of a room of 144 bytes, at these indices of a table.
fn draw(guest: &Guest, table: u64, indices: &[u16]) {
    let request = request(1, 1, b"hello\0");
    guest.memory.write(REQUEST, &request);
    let (len, each) = (request.len() as u32, 144 / (indices.len() as u32 - 1));
    for (k, index) in indices.iter().enumerate() {
        let next = indices.get(k + 1);
        let flags = next.map_or(0, |_| NEXT) | if k == 0 { 0 } else { DEVICE_WRITES };
        let at = ROOM + 0x1000 * k as u64;
        let (at, len) = if k == 0 { (REQUEST, len) } else { (at, each) };
        guest.descriptor(table, *index, (at, len, flags, next.copied().unwrap_or(0)));
    }
}

/// Where the loads of the rings and tables began, up to the request's.
fn loads(guest: &Guest) -> Vec<u64> {
    let slices = guest.memory.slices.take();
    slices.into_iter().take_while(|at| *at != REQUEST).collect()
}

/// The chain of this head is served, and its loads began at these descriptors.
fn is_served(guest: &mut Guest, head: u16, wanted: &[u64]) {
    let position = u64::from(guest.offered % SIZE);
    guest.offer(head);
    guest.memory.slices.take();
    let Guest { worker, queue, device, memory, .. } = guest;
    let served = worker.serve(queue, device, &Recorder::default(), memory).unwrap().unwrap();
    assert_eq!((served.head, served.reply_len), (head, 144));
    let mut rings = vec![AVAILABLE + 2, AVAILABLE + 4 + 2 * position];
    rings.extend(wanted);
    assert_eq!(loads(guest), rings);
}

fn own(index: u64) -> u64 {
    DESCRIPTORS + 16 * index
}

#[test]
fn each_load_is_made_once() {
    let mut guest = Guest::new();
    draw(&guest, DESCRIPTORS, &[2, 3, 4]);
    is_served(&mut guest, 2, &[own(2)]);
    draw(&guest, DESCRIPTORS, &[2, 3, 4, 5, 6]);
    is_served(&mut guest, 2, &[own(2), own(6)]);
    draw(&guest, DESCRIPTORS, &[14, 15, 0]);
    is_served(&mut guest, 14, &[own(14), own(0)]);
}

/// More loads than are made ahead: the others are asked for.
#[test]
fn a_scattered_chain_is_served() {
    let mut guest = Guest::new();
    let down = [15, 11, 7, 3, 14, 10, 6, 2, 13];
    draw(&guest, DESCRIPTORS, &down);
    is_served(&mut guest, 15, &down.map(|index| own(u64::from(index))));
}

#[test]
fn a_table_is_loaded_once() {
    let mut guest = Guest::new();
    draw(&guest, TABLE, &[0, 1, 2]);
    guest.descriptor(DESCRIPTORS, 9, (TABLE, 16 * 3, INDIRECT, 0));
    is_served(&mut guest, 9, &[own(9), TABLE]);
}

/// The handle gets room for more descriptors only with a load that it asks for.
#[test]
fn the_first_long_table_is_loaded_twice() {
    let mut guest = Guest::new();
    draw(&guest, TABLE, &[0, 12, 1, 11, 2, 10, 3, 9, 4, 8, 5, 7, 6]);
    guest.descriptor(DESCRIPTORS, 9, (TABLE, 16 * 13, INDIRECT, 0));
    is_served(&mut guest, 9, &[own(9), TABLE, TABLE]);
    is_served(&mut guest, 9, &[own(9), TABLE]);
}
