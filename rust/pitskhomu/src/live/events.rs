//! Event descriptors of Linux (eventfd), and the wait of several threads for some of them (epoll).
#![allow(unsafe_code)]

use std::fs::File;
use std::io::{self, ErrorKind, Write};
use std::os::raw::{c_int, c_uint};
use std::os::unix::io::{AsRawFd, FromRawFd, OwnedFd};

/// `EFD_CLOEXEC | EFD_NONBLOCK` of sys/eventfd.h.
const EFD_FLAGS: c_int = 0o2_000_000 | 0o4_000;
/// Of sys/epoll.h.
const EPOLL_CLOEXEC: c_int = 0o2_000_000;
const EPOLL_CTL_ADD: c_int = 1;
const EPOLL_CTL_DEL: c_int = 2;
const EPOLLIN: u32 = 1;
const EPOLLERR: u32 = 8;
const EPOLLHUP: u32 = 0x10;
const EPOLLET: u32 = 1 << 31;

/// struct `epoll_event`.
#[cfg_attr(target_arch = "x86_64", repr(C, packed))]
#[cfg_attr(not(target_arch = "x86_64"), repr(C))]
#[derive(Clone, Copy)]
struct EpollEvent {
    events: u32,
    data: u64,
}

extern "C" {
    fn eventfd(initial: c_uint, flags: c_int) -> c_int;
    fn epoll_create1(flags: c_int) -> c_int;
    fn epoll_ctl(epoll: c_int, operation: c_int, fd: c_int, event: *mut EpollEvent) -> c_int;
    fn epoll_wait(epoll: c_int, events: *mut EpollEvent, most: c_int, timeout: c_int) -> c_int;
}

/// The descriptor that a system call returned.
fn descriptor(fd: c_int) -> io::Result<OwnedFd> {
    if fd < 0 {
        return Err(io::Error::last_os_error());
    }
    // SAFETY: the descriptor is new, and nothing else owns it.
    Ok(unsafe { OwnedFd::from_raw_fd(fd) })
}

/// A new event descriptor, for `kick`, `call` or `err`. It doesn't block: a read without an event
/// returns `WouldBlock`. Keep a `try_clone` of each that you pass on.
///
/// # Errors
/// The system's: too many open files, or too little memory.
pub fn new_event() -> io::Result<File> {
    // SAFETY: it takes no pointer.
    descriptor(unsafe { eventfd(0, EFD_FLAGS) }).map(File::from)
}

/// Adds 1 to an event's counter. A counter that is full wakes as well.
pub(super) fn signal(mut event: &File) -> io::Result<()> {
    match event.write(&1u64.to_ne_bytes()) {
        Err(error) if error.kind() != ErrorKind::WouldBlock => Err(error),
        _ => Ok(()),
    }
}

/// The events that a queue's threads wait for.
#[derive(Debug)]
pub(super) struct Events {
    epoll: OwnedFd,
    /// Written by the queue's own threads, and by those who want something of them.
    wake: File,
}

/// The source of an event: `Events::wake`, or else the driver, by the number of its event.
const WAKE: u64 = 0;

impl Events {
    pub fn new() -> io::Result<Events> {
        // SAFETY: it takes no pointer.
        let epoll = descriptor(unsafe { epoll_create1(EPOLL_CLOEXEC) })?;
        let events = Events { epoll, wake: new_event()? };
        events.control(EPOLL_CTL_ADD, &events.wake, WAKE)?;
        Ok(events)
    }

    /// Adds or removes an event. Each wakes one thread, and no thread reads its counter: so none
    /// blocks in the read of a counter that another thread has read.
    fn control(&self, operation: c_int, event: &File, data: u64) -> io::Result<()> {
        let (fd, mut wanted) = (event.as_raw_fd(), EpollEvent { events: EPOLLIN | EPOLLET, data });
        // SAFETY: the event is valid for the call, which keeps no pointer.
        match unsafe { epoll_ctl(self.epoll.as_raw_fd(), operation, fd, &mut wanted) } {
            0 => Ok(()),
            _ => Err(io::Error::last_os_error()),
        }
    }

    /// Waits for the driver's notifications too. `number` isn't 0, and tells this event of the
    /// driver's from those before.
    pub fn add(&self, kick: &File, number: u64) -> io::Result<()> {
        self.control(EPOLL_CTL_ADD, kick, number)
    }

    pub fn remove(&self, kick: &File) {
        // This fails if it was removed already, because it ended.
        let _ = self.control(EPOLL_CTL_DEL, kick, 0);
    }

    /// The event that wakes one thread, for others.
    pub fn waker(&self) -> io::Result<File> {
        self.wake.try_clone()
    }

    /// Wakes one thread.
    pub fn wake(&self) {
        let _ = signal(&self.wake); // it can't fail otherwise than by a full counter
    }

    /// Waits for an event, at most so many milliseconds, or for ever if they are negative. Returns
    /// the number of the driver's if that has ended, and is to be removed.
    pub fn wait(&self, milliseconds: c_int) -> io::Result<Option<u64>> {
        let mut events = [EpollEvent { events: 0, data: 0 }; 2];
        // SAFETY: there is room for two events, and the call keeps no pointer.
        let count =
            unsafe { epoll_wait(self.epoll.as_raw_fd(), events.as_mut_ptr(), 2, milliseconds) };
        if count < 0 {
            let error = io::Error::last_os_error();
            return if error.kind() == ErrorKind::Interrupted { Ok(None) } else { Err(error) };
        }
        let ended = |event: &EpollEvent| {
            let (events, data) = (event.events, event.data);
            (data != WAKE && events & (EPOLLERR | EPOLLHUP) != 0).then_some(data)
        };
        Ok(events[..usize::try_from(count).unwrap_or(0)].iter().find_map(ended))
    }
}
