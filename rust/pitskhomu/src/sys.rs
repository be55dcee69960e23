//! The declarations of `pitskhomu.h`, and at the end of `pitskhomu_turns.h`, in their order, with
//! their names (without `pk_` and `PK_`). The headers document them. The script `tools/declared`
//! compares the two.
// The numbers and fields are written as the header has them.
#![allow(clippy::unreadable_literal, clippy::struct_field_names)]

use crate::memory::{GuestRange as Range, Region, Window};
use core::ffi::c_void;
use core::mem::size_of;

pub const VERSION: u32 = 0x10000;
pub const REGIONS_MAX: usize = 512;
pub const QUEUES_MAX: usize = 64;
pub const FIRST: usize = 80;
pub const REQUEST_MAX: usize = 0x101000;
pub const FRONT_MAX: usize = 160;
pub const HEADER: u64 = 16;

// The header asserts the same sizes.
const _: () = {
    assert!(size_of::<Device>() == 16);
    assert!(size_of::<Queue>() == 48);
    assert!(size_of::<Region>() == 24);
    assert!(size_of::<Chain>() == 16);
    assert!(size_of::<LoadAhead>() == 16);
    assert!(size_of::<PopResult>() == 72);
    assert!(size_of::<Window>() == 16);
    assert!(size_of::<Range>() == 16);
    assert!(size_of::<Iotlb>() == 16);
    assert!(size_of::<Miss>() == 24);
    assert!(size_of::<Span>() == 8);
    assert!(size_of::<Attr>() == 88);
    assert!(size_of::<Call>() == 312);
    assert!(size_of::<Entry>() == 128);
    assert!(size_of::<Statfs>() == 56);
    assert!(size_of::<Stores>() == 72);
    assert!(size_of::<Store>() == 16);
    assert!(size_of::<Turns>() == 16);
};

/// enum `pk_status`: the numbers that aren't refusals. The refusals are `Status`.
pub mod status {
    pub const DONE: u32 = 0;
    pub const LOAD: u32 = 32;
    pub const IDLE: u32 = 33;
    pub const MORE: u32 = 34;
    pub const NO_ROOM: u32 = 35;
    pub const FULL: u32 = 36;
    pub const LIST_FAILS: u32 = 37;
    pub const ENTRIES: u32 = 38;
    pub const MISS: u32 = 39;
}

/// enum `pk_call_kind`.
pub mod kind {
    pub const NONE: u32 = 0;
    pub const LOOKUP: u32 = 1;
    pub const FORGET: u32 = 2;
    pub const GETATTR: u32 = 3;
    pub const SETATTR: u32 = 4;
    pub const READLINK: u32 = 5;
    pub const SYMLINK: u32 = 6;
    pub const MKNOD: u32 = 8;
    pub const MKDIR: u32 = 9;
    pub const UNLINK: u32 = 10;
    pub const RMDIR: u32 = 11;
    pub const RENAME: u32 = 12;
    pub const LINK: u32 = 13;
    pub const OPEN: u32 = 14;
    pub const READ: u32 = 15;
    pub const WRITE: u32 = 16;
    pub const STATFS: u32 = 17;
    pub const RELEASE: u32 = 18;
    pub const FSYNC: u32 = 20;
    pub const SETXATTR: u32 = 21;
    pub const GETXATTR: u32 = 22;
    pub const LISTXATTR: u32 = 23;
    pub const REMOVEXATTR: u32 = 24;
    pub const FLUSH: u32 = 25;
    pub const INIT: u32 = 26;
    pub const OPENDIR: u32 = 27;
    pub const READDIR: u32 = 28;
    pub const RELEASEDIR: u32 = 29;
    pub const FSYNCDIR: u32 = 30;
    pub const ACCESS: u32 = 34;
    pub const CREATE: u32 = 35;
    pub const DESTROY: u32 = 38;
    pub const BATCH_FORGET: u32 = 42;
    pub const FALLOCATE: u32 = 43;
    pub const READDIRPLUS: u32 = 44;
    pub const LSEEK: u32 = 46;
    pub const COPY_FILE_RANGE: u32 = 47;
    pub const SYNCFS: u32 = 50;
}

/// enum `pk_state`: the states of a handle.
#[allow(dead_code)] // the others are between the calls of the wrapper
pub mod state {
    pub const NONE: u32 = 0;
    pub const FREE: u32 = 1;
    pub const POPPING: u32 = 2;
    pub const POPPED: u32 = 3;
    pub const DECODED: u32 = 4;
    pub const LISTING: u32 = 5;
    pub const REPLIED: u32 = 6;
    pub const PUSHING: u32 = 7;
}

/// enum `pk_access`.
pub mod access {
    pub const NONE: u32 = 0;
    pub const READ: u32 = 1;
    pub const WRITE: u32 = 2;
    pub const READ_WRITE: u32 = 3;
}

/// enum `pk_answer_kind`.
pub mod answer {
    pub const NONE: u32 = 0;
    pub const DONE: u32 = 1;
    pub const ENTRY: u32 = 2;
    pub const ATTR: u32 = 3;
    pub const OPEN: u32 = 4;
    pub const CREATE: u32 = 5;
    pub const DATA: u32 = 6;
    pub const XATTR: u32 = 7;
    pub const STATFS: u32 = 8;
    pub const WRITE: u32 = 9;
    pub const LSEEK: u32 = 10;
    pub const ENTRIES: u32 = 11;
    pub const INIT: u32 = 12;
}

#[repr(C)]
#[derive(Clone, Copy, Debug)]
pub struct Device {
    pub page_size: u32,
    pub limit: u32,
    pub options: u64,
}

#[repr(C)]
#[derive(Clone, Copy, Debug, Default)]
pub struct Queue {
    pub desc: u64,
    pub avail: u64,
    pub used: u64,
    pub size: u16,
    pub next_avail: u16,
    pub next_used: u16,
    pub max_in_flight: u16,
    pub stopped: u16,
    pub pushing: u8,
    pub event_index: u8,
    pub reset_count: u32,
    pub pop_count: u32,
}

#[repr(C)]
#[derive(Debug)]
pub struct Chain {
    pub at: *mut c_void,
    pub state: u32,
}

#[repr(C)]
#[derive(Debug)]
pub struct Iotlb {
    pub at: *mut c_void,
    pub full: u32,
}

#[repr(C)]
#[derive(Clone, Copy, Debug, Default)]
pub struct Miss {
    pub at: u64,
    pub len: u64,
    pub access: u32,
}

#[repr(C)]
#[derive(Clone, Copy, Debug, Default)]
pub struct PopResult {
    pub load_at: usize,
    pub load_len: usize,
    pub request_len: u64,
    pub reply_len: u64,
    pub fault: u32,
    pub head: u16,
    pub ticket: u32,
    pub miss_at: u64,
    pub miss_len: u64,
    pub miss_access: u32,
}

#[repr(C)]
#[derive(Clone, Copy, Debug, Default)]
pub struct LoadAhead {
    pub at: usize,
    pub len: usize,
}

#[repr(C)]
#[derive(Clone, Copy, Debug, Default)]
pub struct Span {
    pub at: u32,
    pub len: u32,
}

#[repr(C)]
#[derive(Clone, Copy, Debug, Default)]
pub struct Attr {
    pub ino: u64,
    pub size: u64,
    pub blocks: u64,
    pub atime: u64,
    pub mtime: u64,
    pub ctime: u64,
    pub atime_nanos: u32,
    pub mtime_nanos: u32,
    pub ctime_nanos: u32,
    pub mode: u32,
    pub nlink: u32,
    pub uid: u32,
    pub gid: u32,
    pub rdev: u32,
    pub block_size: u32,
    pub flags: u32,
}

#[repr(C)]
#[derive(Clone, Copy, Debug, Default)]
pub struct Call {
    pub kind: u32,
    pub answer: u32,
    pub opcode: u32,
    pub fault: u32,
    pub unique: u64,
    pub uid: u32,
    pub gid: u32,
    pub pid: u32,
    pub needed: u32,
    pub node: u64,
    pub handle: u64,
    pub offset: u64,
    pub size: u64,
    pub owner: u64,
    pub options: u64,
    pub count: u64,
    pub node2: u64,
    pub handle2: u64,
    pub offset2: u64,
    pub name: Span,
    pub name2: Span,
    pub value: Span,
    pub data_at: u64,
    pub data_len: u64,
    pub flags: u32,
    pub mode: u32,
    pub umask: u32,
    pub rdev: u32,
    pub valid: u32,
    pub has_handle: u8,
    pub has_owner: u8,
    pub delayed: u8,
    pub kill_priv: u8,
    pub flush: u8,
    pub unlock: u8,
    pub data_only: u8,
    pub has_group: u8,
    pub attr: Attr,
    pub group: u32,
    pub ticket: u32,
    pub label_name: Span,
    pub label: Span,
    pub setxattr_flags: u32,
    pub has_label: u8,
}

#[repr(C)]
#[derive(Clone, Copy, Debug, Default)]
pub struct Entry {
    pub node: u64,
    pub generation: u64,
    pub entry_secs: u64,
    pub attr_secs: u64,
    pub entry_nanos: u32,
    pub attr_nanos: u32,
    pub attr: Attr,
}

#[repr(C)]
#[derive(Clone, Copy, Debug, Default)]
pub struct Statfs {
    pub blocks: u64,
    pub bfree: u64,
    pub bavail: u64,
    pub files: u64,
    pub ffree: u64,
    pub bsize: u32,
    pub namelen: u32,
    pub frsize: u32,
}

#[repr(C)]
#[derive(Clone, Copy, Debug, Default)]
pub struct Stores {
    pub front_len: usize,
    pub id_at: usize,
    pub len_at: usize,
    pub id: u32,
    pub len: u32,
    pub index_at: usize,
    pub index: u16,
    pub seen_at: usize,
    pub element_guest: u64,
    pub index_guest: u64,
}

#[repr(C)]
#[derive(Clone, Copy, Debug, Default)]
pub struct Store {
    pub at: usize,
    pub value: u16,
    pub len: u8,
}

#[rustfmt::skip]
extern "C" {
    pub fn pk_version() -> u32;
    pub fn pk_build() -> *const u8;
    pub fn pk_is_name(name: *const u8, name_len: usize) -> u8;
    pub fn pk_chain_set_memory(chain: &mut Chain, device: &Device, regions: *const Region,
        region_count: usize) -> u32;
    pub fn pk_chain_free(chain: &mut Chain);
    pub fn pk_chain_state(chain: &Chain) -> u32;
    #[allow(dead_code)] // a worker's answers go to its own chain
    pub fn pk_chain_set_ticket(chain: &mut Chain, first: u32) -> u32;
    pub fn pk_pop(chain: &mut Chain, queue: &mut Queue, loaded: *const u8, loaded_len: usize,
        pop: &mut PopResult) -> u32;
    pub fn pk_pop_ahead(chain: &mut Chain, queue: &mut Queue, ahead: *const LoadAhead,
        ahead_count: usize, bytes: *const u8, bytes_len: usize,
        pop: &mut PopResult) -> u32;
    pub fn pk_queue_begin(queue: &mut Queue, next_avail: u16) -> u32;
    pub fn pk_abandon(chain: &mut Chain);
    pub fn pk_set_notification(chain: &mut Chain, queue: &Queue, enabled: u32,
        store: &mut Store) -> u32;
    pub fn pk_iotlb_new(iotlb: &mut Iotlb) -> u32;
    pub fn pk_iotlb_free(iotlb: &mut Iotlb);
    pub fn pk_iotlb_map(iotlb: &mut Iotlb, iova: u64, len: u64, guest: u64, access: u32) -> u32;
    pub fn pk_iotlb_unmap(iotlb: &mut Iotlb, iova: u64, len: u64) -> u32;
    pub fn pk_chain_exchange_iotlb(chain: &mut Chain, iotlb: &mut Iotlb) -> u32;
    pub fn pk_find_miss(chain: &mut Chain, index: usize, from: u64, miss: &mut Miss) -> u32;
    pub fn pk_uses(chain: &mut Chain, iova: u64, len: u64) -> u8;
    pub fn pk_drop(chain: &mut Chain, queue: &mut Queue) -> u32;
    pub fn pk_request_windows(chain: &mut Chain, from: u64, len: u64, windows: *mut Window,
        window_count: usize) -> usize;
    pub fn pk_reply_windows(chain: &mut Chain, from: u64, len: u64, windows: *mut Window,
        window_count: usize) -> usize;
    pub fn pk_reply_ranges(chain: &mut Chain, from: u64, len: u64, ranges: *mut Range,
        range_count: usize) -> usize;
    pub fn pk_decode(chain: &mut Chain, device: &Device, request: *const u8, request_len: usize,
        call: &mut Call) -> u32;
    pub fn pk_reply_err(chain: &mut Chain, ticket: u32, error: u32) -> u32;
    pub fn pk_reply_entry(chain: &mut Chain, ticket: u32, entry: &Entry) -> u32;
    pub fn pk_reply_create(chain: &mut Chain, ticket: u32, entry: &Entry, handle: u64,
        open_flags: u32) -> u32;
    pub fn pk_reply_attr(chain: &mut Chain, ticket: u32, attr: &Attr, secs: u64, nanos: u32) -> u32;
    pub fn pk_reply_open(chain: &mut Chain, ticket: u32, handle: u64, open_flags: u32) -> u32;
    pub fn pk_reply_data(chain: &mut Chain, ticket: u32, len: u64) -> u32;
    pub fn pk_reply_xattr(chain: &mut Chain, ticket: u32, len: u32) -> u32;
    pub fn pk_reply_write(chain: &mut Chain, ticket: u32, count: u32) -> u32;
    pub fn pk_reply_statfs(chain: &mut Chain, ticket: u32, statfs: &Statfs) -> u32;
    pub fn pk_reply_lseek(chain: &mut Chain, ticket: u32, offset: u64) -> u32;
    pub fn pk_reply_init(chain: &mut Chain, ticket: u32, device: &mut Device, wanted: u64) -> u32;
    pub fn pk_add_direntry(chain: &mut Chain, ticket: u32, list: *mut u8, list_len: usize,
        name: *const u8, name_len: usize,
        ino: u64, next_offset: u64, r#type: u32) -> u32;
    pub fn pk_add_direntry_plus(chain: &mut Chain, ticket: u32, list: *mut u8, list_len: usize,
        name: *const u8,
        name_len: usize, entry: &Entry, next_offset: u64) -> u32;
    pub fn pk_reply_entries(chain: &mut Chain, ticket: u32, len: &mut u64) -> u32;
    pub fn pk_reply_bytes(chain: &mut Chain, ticket: u32, len: u64) -> u32;
    pub fn pk_push(chain: &mut Chain, queue: &mut Queue, front: *mut u8, front_len: usize,
        stores: &mut Stores) -> u32;
    pub fn pk_pushed(chain: &mut Chain, queue: &mut Queue, seen: u16, notify: &mut u8) -> u32;
    pub fn pk_save(device: &Device, queues: *const Queue, queue_count: usize, buffer: *mut u8,
        buffer_len: usize,
        len: &mut usize) -> u32;
    pub fn pk_restore(device: &mut Device, queues: *mut Queue, queue_count: usize, saved: *const u8,
        saved_len: usize,
        count: &mut usize) -> u32;
}

/// enum `pk_action`.
#[allow(dead_code)] // without std there is no loop
pub mod turns {
    pub const DO_WRONG: u32 = 0;
    pub const DO_RESUME: u32 = 1;
    pub const DO_POP: u32 = 2;
    pub const DO_ARM: u32 = 3;
    pub const DO_LOOK: u32 = 4;
    pub const DO_MUTE: u32 = 5;
    pub const DO_ANSWER: u32 = 6;
    pub const DO_SLEEP: u32 = 7;
    pub const DO_STEP_ASIDE: u32 = 8;
    pub const DO_STOP: u32 = 9;
    pub const DO: u32 = 255;
    pub const WAKE_ONE: u32 = 256;
    pub const INTERRUPT: u32 = 512;
}

#[repr(C)]
#[derive(Clone, Copy, Debug, Default)]
pub struct Turns {
    pub sleeping: u64,
    pub enabled_at: u16,
    pub notifications: u8,
    pub phase: u8,
    pub event_index: u8,
    pub called: u8,
    pub owed: u8,
    pub reserved: u8,
}

#[rustfmt::skip]
#[allow(dead_code)] // without std there is no loop
extern "C" {
    pub fn pk_turns_begin(turns: &mut Turns, event_index: u32);
    pub fn pk_turns_reset(turns: &mut Turns, event_index: u32) -> u32;
    pub fn pk_turn_woken(turns: &mut Turns, answers_wait: u32) -> u32;
    pub fn pk_turn_back(turns: &mut Turns, notify: u32, answers_wait: u32) -> u32;
    pub fn pk_turn_resumed(turns: &mut Turns, another: u32, next_avail: u16, is_full: u32,
        another_comes: u32) -> u32;
    pub fn pk_turn_none_resumed(turns: &mut Turns) -> u32;
    pub fn pk_turn_popped(turns: &mut Turns, next_avail: u16, is_full: u32,
        another_comes: u32) -> u32;
    pub fn pk_turn_idle(turns: &mut Turns, polls: u32, next_avail: u16) -> u32;
    pub fn pk_turn_full(turns: &mut Turns) -> u32;
    pub fn pk_turn_paused(turns: &mut Turns) -> u32;
    pub fn pk_turn_later(turns: &mut Turns) -> u32;
    pub fn pk_turn_refused(turns: &mut Turns) -> u32;
    pub fn pk_turn_armed(turns: &mut Turns, next_avail: u16) -> u32;
    pub fn pk_turn_not_armed(turns: &mut Turns) -> u32;
    pub fn pk_turn_more(turns: &mut Turns) -> u32;
    pub fn pk_turn_no_more(turns: &mut Turns) -> u32;
    pub fn pk_turn_muted(turns: &mut Turns) -> u32;
}
