//! The socket of --metrics. A daemon that takes over from another, and has the same path, gets the
//! other's socket: if it made a new one, and then didn't take over, the path would lead nowhere.
use crate::socket;
use std::fs;
use std::io;
use std::os::fd::{AsRawFd, OwnedFd, RawFd};
use std::os::unix::fs::MetadataExt;
use std::os::unix::net::{UnixListener, UnixStream};
use std::path::Path;
use std::sync::OnceLock;
use vmm_sys_util::epoll::{ControlOperation, Epoll, EpollEvent, EventSet};

/// A socket's device and number in its directory.
pub type SocketId = (u64, u64);

/// The socket of --metrics, if there is one, and the wait for its readers.
#[derive(Debug)]
pub struct MetricsSocket {
    listener: OnceLock<UnixListener>,
    /// Which one it is, also if another process has it.
    id: Option<SocketId>,
    /// Ready when there is a reader.
    events: Epoll,
}

fn id(path: &Path) -> io::Result<SocketId> {
    fs::symlink_metadata(path).map(|data| (data.dev(), data.ino()))
}

impl MetricsSocket {
    /// Makes the socket, to which only its owner can connect. If this daemon takes over, a socket
    /// where another process listens stays. An error is a message.
    pub fn new(path: Option<&Path>, takes_over: bool) -> Result<MetricsSocket, String> {
        let made = || -> io::Result<MetricsSocket> {
            let (events, listener) = (Epoll::new()?, OnceLock::new());
            let Some(path) = path else { return Ok(MetricsSocket { listener, id: None, events }) };
            let is_others = takes_over && UnixStream::connect(path).is_ok();
            let made = (!is_others).then(|| socket::bind(path, None)).transpose()?;
            let socket = MetricsSocket { listener, id: Some(id(path)?), events };
            if let Some(made) = made {
                made.set_nonblocking(true)?;
                socket.listen(made)?;
            }
            Ok(socket)
        };
        made().map_err(|e| format!("Error creating the socket of the metrics: {e}"))
    }

    fn listen(&self, listener: UnixListener) -> io::Result<()> {
        let listener = self.listener.get_or_init(|| listener);
        self.watch(listener.as_raw_fd())
    }

    /// The wait ends when this descriptor is readable, too.
    pub fn watch(&self, fd: RawFd) -> io::Result<()> {
        self.events.ctl(ControlOperation::Add, fd, EpollEvent::new(EventSet::IN, 0))
    }

    /// Waits for a reader, or another event. Returns the reader.
    pub fn next(&self) -> Option<UnixStream> {
        let _ = self.events.wait(-1, &mut [EpollEvent::default()]);
        self.listener.get().and_then(|listener| listener.accept().ok()).map(|(reader, _)| reader)
    }

    /// The socket that another process has, if this daemon wants that one.
    pub fn wanted(&self) -> Option<SocketId> {
        self.id.filter(|_| self.listener.get().is_none())
    }

    /// The socket that this daemon has, and which one it is.
    pub fn lend(&self) -> Option<(RawFd, SocketId)> {
        self.listener.get().map(AsRawFd::as_raw_fd).zip(self.id)
    }

    /// Takes over the wanted socket, if one is wanted. It doesn't block already.
    pub fn adopt(&self, listener: OwnedFd) -> io::Result<()> {
        if self.wanted().is_none() {
            return Ok(());
        }
        self.listen(listener.into())
    }

    /// Another daemon has the socket from here on: no reader comes here any more.
    pub fn leave(&self) {
        if let Some(listener) = self.listener.get() {
            let none = EpollEvent::default();
            let _ = self.events.ctl(ControlOperation::Delete, listener.as_raw_fd(), none);
        }
    }
}

#[cfg(test)]
mod tests {
    use super::*;

    #[test]
    fn a_live_socket_stays_for_the_one_that_takes_over() {
        let path = std::env::temp_dir().join(format!("pitskhomu-door-{}", std::process::id()));
        let make = |takes_over| MetricsSocket::new(Some(&path), takes_over).expect("a socket");
        let old = make(false);
        let (lent, id) = old.lend().expect("a socket");
        let new = make(true);
        assert_eq!((new.wanted(), new.lend()), (Some(id), None));
        let _reader = UnixStream::connect(&path).expect("it listens");
        // SAFETY: the descriptor is open, and no memory is touched.
        let copy = unsafe { std::os::fd::BorrowedFd::borrow_raw(lent) };
        new.adopt(copy.try_clone_to_owned().expect("a copy")).expect("adopted");
        old.leave();
        assert!(new.wanted().is_none() && new.next().is_some());
        drop((old, new));
        let newest = make(true); // nobody listens there any more
        assert!(newest.wanted().is_none() && newest.lend().is_some());
        let none = MetricsSocket::new(None, true).expect("none");
        assert!(none.wanted().is_none() && none.lend().is_none());
        fs::remove_file(&path).expect("removed");
    }
}
