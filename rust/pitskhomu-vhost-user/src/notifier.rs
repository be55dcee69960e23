//! Descriptors by which others are notified, and whether a descriptor can be written now.
use std::fs::File;
use std::io::{self, ErrorKind, Write};
use std::os::fd::{AsRawFd, OwnedFd, RawFd};
use std::sync::{Mutex, PoisonError};
use vmm_sys_util::epoll::{ControlOperation, Epoll, EpollEvent, EventSet};

/// Whether a write to a descriptor has to wait. The filter of system calls allows no `poll`.
#[derive(Debug)]
pub struct Room(Epoll);

impl Room {
    /// `None` for a descriptor that is always ready, as a regular file.
    pub fn new(fd: RawFd) -> io::Result<Option<Room>> {
        let epoll = Epoll::new()?;
        match epoll.ctl(ControlOperation::Add, fd, EpollEvent::new(EventSet::OUT, 0)) {
            Ok(()) => Ok(Some(Room(epoll))),
            Err(e) if e.kind() == ErrorKind::PermissionDenied => Ok(None),
            Err(e) => Err(e),
        }
    }

    /// Whether a write doesn't have to wait now. It may fail.
    pub fn is_there(&self) -> bool {
        self.0.wait(0, &mut [EpollEvent::default()]).is_ok_and(|count| count > 0)
    }
}

/// A descriptor by which the front-end or the driver is notified. It is written to under a ring's
/// lock, so no write waits, also if the descriptor is full.
#[derive(Debug)]
pub struct Notifier {
    file: File,
    /// For a descriptor that blocks. One thread at a time looks and writes.
    room: Option<Mutex<Room>>,
}

impl Notifier {
    /// Its flags are read here: they are the front-end's too, so they aren't changed.
    pub fn new(file: File) -> io::Result<Notifier> {
        // SAFETY: the descriptor is open, and no memory is touched.
        let flags = unsafe { libc::fcntl(file.as_raw_fd(), libc::F_GETFL) };
        if flags < 0 {
            return Err(io::Error::last_os_error());
        }
        let blocks = flags & libc::O_NONBLOCK == 0;
        let room = if blocks { Room::new(file.as_raw_fd())?.map(Mutex::new) } else { None };
        Ok(Notifier { file, room })
    }

    /// Another descriptor of the same event.
    pub fn descriptor(&self) -> io::Result<OwnedFd> {
        self.file.try_clone().map(OwnedFd::from)
    }

    /// Notifies. A full descriptor is left as it is: who listens to it is notified all the same.
    pub fn notify(&self) -> io::Result<()> {
        let room =
            self.room.as_ref().map(|room| room.lock().unwrap_or_else(PoisonError::into_inner));
        if room.as_ref().is_some_and(|room| !room.is_there()) {
            return Ok(());
        }
        match (&self.file).write(&1u64.to_ne_bytes()) {
            Err(e) if e.kind() != ErrorKind::WouldBlock => Err(e),
            _ => Ok(()),
        }
    }
}

#[cfg(test)]
pub(crate) mod tests {
    use super::*;
    use std::io::Read;
    use std::os::fd::FromRawFd;
    use std::sync::mpsc::channel;
    use std::thread;
    use std::time::Duration;

    /// A pipe with these flags that nobody reads: its reader, and its writer.
    pub fn full_pipe(flags: libc::c_int) -> (File, File) {
        let mut ends = [0; 2];
        // SAFETY: the two numbers are borrowed mutably.
        assert_eq!(unsafe { libc::pipe2(ends.as_mut_ptr(), flags | libc::O_CLOEXEC) }, 0);
        // SAFETY: the descriptors are new, and nothing else owns them.
        let (reader, mut writer) =
            unsafe { (File::from_raw_fd(ends[0]), File::from_raw_fd(ends[1])) };
        // SAFETY: the descriptor is open, and no memory is touched.
        let size = unsafe { libc::fcntl(writer.as_raw_fd(), libc::F_GETPIPE_SZ) };
        let size = usize::try_from(size).expect("a size");
        writer.write_all(&vec![0x5a; size]).expect("a pipe that is filled");
        (reader, writer)
    }

    /// Notifies on a thread of its own, and waits a while for that.
    fn is_notified(notifier: Notifier) -> Notifier {
        let (done, is_done) = channel();
        thread::spawn(move || {
            notifier.notify().expect("a notification");
            done.send(notifier).expect("who waits");
        });
        is_done.recv_timeout(Duration::from_secs(5)).expect("it waits for who reads")
    }

    #[test]
    fn a_full_pipe_is_not_waited_for() {
        for flags in [0, libc::O_NONBLOCK] {
            let (mut reader, writer) = full_pipe(flags);
            let notifier = is_notified(Notifier::new(writer).expect("a notifier"));
            let mut bytes = vec![0; 0x1000];
            reader.read_exact(&mut bytes).expect("what filled it");
            let notifier = is_notified(notifier);
            drop(notifier);
            let (mut count, mut last) = (0, Vec::new());
            while let Ok(read @ 1..) = reader.read(&mut bytes) {
                count += read;
                last = bytes[..read].to_vec();
            }
            assert_eq!(count % 0x1000, 8, "one notification is written");
            assert!(last.ends_with(&1u64.to_ne_bytes()));
        }
    }

    #[test]
    fn a_full_counter_is_not_waited_for() {
        for flags in [0, libc::EFD_NONBLOCK] {
            // SAFETY: no memory is touched.
            let fd = unsafe { libc::eventfd(0, flags | libc::EFD_CLOEXEC) };
            // SAFETY: the descriptor is new, and nothing else owns it.
            let mut event = unsafe { File::from_raw_fd(fd) };
            let notifier = Notifier::new(event.try_clone().expect("a descriptor"));
            let notifier = is_notified(notifier.expect("a notifier"));
            let mut counter = [0; 8];
            event.read_exact(&mut counter).expect("a counter");
            assert_eq!(counter, 1u64.to_ne_bytes());
            event.write_all(&(u64::MAX - 1).to_ne_bytes()).expect("the greatest counter");
            is_notified(notifier);
            event.read_exact(&mut counter).expect("a counter");
            assert_eq!(counter, (u64::MAX - 1).to_ne_bytes());
        }
    }

    #[test]
    fn a_regular_file_is_always_ready() {
        let file = crate::pipe::scratch().expect("a file");
        let room = Room::new(file.as_raw_fd()).expect("a regular file");
        assert!(room.is_none());
        assert_eq!(Notifier::new(file).expect("a notifier").notify().ok(), Some(()));
    }
}
