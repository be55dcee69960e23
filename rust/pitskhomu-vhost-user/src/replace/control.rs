//! What goes from process to process besides the guest, and the sockets between the two.
use crate::pipe::scratch;
use std::fmt;
use std::fs::{self, File};
use std::io;
use std::mem::size_of;
use std::os::fd::{AsRawFd, FromRawFd, OwnedFd, RawFd};
use std::os::unix::fs::FileTypeExt;
use std::os::unix::net::{UnixListener, UnixStream};
use std::path::Path;
use std::ptr;

/// The beginning of READY, with the version of the messages.
const READY: &[u8; 8] = b"PKREADY1";
/// The length of a record, in bytes.
const LEN: usize = 4;
/// The greatest length of a record. One with longer options can't take over.
const MOST: usize = 1 << 16;

fn invalid(why: &str) -> io::Error {
    io::Error::new(io::ErrorKind::InvalidData, why)
}

/// READY with this record.
pub(super) fn ready(record: &str) -> io::Result<Vec<u8>> {
    let len = u32::try_from(record.len()).ok().filter(|len| *len as usize <= MOST);
    let len = len.ok_or_else(|| invalid("the options are too long to take over with them"))?;
    Ok([&READY[..], &len.to_le_bytes(), record.as_bytes()].concat())
}

/// The record of these bytes of READY, or `None` while some are still to come.
pub(super) fn record_of(bytes: &[u8]) -> io::Result<Option<String>> {
    let known = bytes.len().min(READY.len());
    if bytes[..known] != READY[..known] {
        return Err(invalid("it doesn't begin as this version's READY"));
    }
    let Some(len) = bytes.get(READY.len()..READY.len() + LEN) else { return Ok(None) };
    let len = u32::from_le_bytes([len[0], len[1], len[2], len[3]]) as usize;
    if len > MOST {
        return Err(invalid("a record of more bytes than any"));
    }
    let text = &bytes[READY.len() + LEN..];
    match text.len().cmp(&len) {
        std::cmp::Ordering::Less => Ok(None),
        std::cmp::Ordering::Equal => {
            let text = String::from_utf8(text.to_vec());
            text.map(Some).map_err(|_| invalid("a record of another form"))
        }
        std::cmp::Ordering::Greater => Err(invalid("bytes after a record")),
    }
}

/// A process that another may replace, or that replaces another: what it says of itself, and the
/// descriptors that it has besides those of the device.
pub trait Process: Send {
    /// What it says of itself when it is ready to take over.
    fn record(&self) -> String;

    /// Why the process with the record `new` can't replace this one, if so.
    ///
    /// # Errors
    /// `new` isn't a record.
    fn refuses(&self, new: &str) -> io::Result<Option<String>>;

    /// Whether the file system looks at the state that the other process will load
    /// ([`ServedFs::check_state`](crate::device::ServedFs::check_state)).
    fn checks_state(&self) -> bool {
        true
    }

    /// The descriptors that the process which takes over gets.
    fn lend(&self) -> [Option<RawFd>; 2] {
        [None; 2]
    }

    /// This process has taken over from another, and has these descriptors of it.
    fn adopt(&mut self, _lent: [Option<OwnedFd>; 2]) {}

    /// This process serves, or waits for a front-end. It is called at least once.
    fn serves(&mut self) {}

    /// Another process serves from here on, and this one only ends.
    fn leaves(&self) {}
}

/// The control socket, and the rest that a process needs to replace another or to be replaced.
pub struct Control {
    /// Where another process connects to, if there is such a socket.
    pub listener: Option<OwnedFd>,
    /// The user that may replace this process: its own, as its sandbox has it.
    pub user: u32,
    /// A file in memory for the state.
    pub pipe: File,
    /// Both ends of a pipe. The other process gets the reading one, which ends when this one dies.
    pub life: Option<(OwnedFd, OwnedFd)>,
    /// What else it has.
    pub process: Box<dyn Process>,
}

impl fmt::Debug for Control {
    fn fmt(&self, f: &mut fmt::Formatter<'_>) -> fmt::Result {
        f.debug_struct("Control").field("listener", &self.listener).finish_non_exhaustive()
    }
}

impl Control {
    /// That of a process with this control socket.
    pub fn new(
        listener: Option<UnixListener>,
        process: impl Process + 'static,
    ) -> io::Result<Control> {
        let (listener, process) = (listener.map(OwnedFd::from), Box::new(process));
        Ok(Control { listener, user: 0, pipe: scratch()?, life: None, process })
    }

    /// The process is in its sandbox, where its user may have another number. The process that
    /// waits outside has no copy of the pipe.
    pub fn enter(&mut self) -> io::Result<()> {
        // SAFETY: no memory is touched.
        self.user = unsafe { libc::getuid() };
        self.life = Some(life()?);
        Ok(())
    }

    /// Why the process with the record `new` can't replace this one, if so.
    pub(super) fn refuses(&self, new: &str) -> Option<String> {
        self.process.refuses(new).unwrap_or_else(|e| Some(e.to_string()))
    }

    /// This process has taken over from another: the control socket is its own from here on, and so
    /// are the descriptors that the other one lent.
    pub(super) fn adopt(&mut self, [listener, lent @ ..]: [Option<OwnedFd>; 3]) {
        self.listener = listener;
        self.process.adopt(lent);
    }
}

/// A pipe, which no other process has.
fn life() -> io::Result<(OwnedFd, OwnedFd)> {
    let mut ends = [0; 2];
    // SAFETY: the numbers are borrowed mutably.
    if unsafe { libc::pipe2(ends.as_mut_ptr(), libc::O_CLOEXEC | libc::O_NONBLOCK) } != 0 {
        return Err(io::Error::last_os_error());
    }
    // SAFETY: the descriptors are new, and nothing else owns them.
    Ok(unsafe { (OwnedFd::from_raw_fd(ends[0]), OwnedFd::from_raw_fd(ends[1])) })
}

/// The length of an option of a socket.
#[allow(clippy::cast_possible_truncation, reason = "options have a few bytes")]
const fn length<T>() -> libc::socklen_t {
    size_of::<T>() as libc::socklen_t
}

/// Has the socket's messages come with the sender's user. The filter of system calls lets nobody
/// ask for that later.
fn pass_credentials(listener: &UnixListener) -> io::Result<()> {
    let on: libc::c_int = 1;
    let (at, len) = (ptr::from_ref(&on).cast(), length::<libc::c_int>());
    // SAFETY: the value is borrowed.
    let set = unsafe {
        libc::setsockopt(listener.as_raw_fd(), libc::SOL_SOCKET, libc::SO_PASSCRED, at, len)
    };
    if set != 0 {
        return Err(io::Error::last_os_error());
    }
    Ok(())
}

/// Makes a control socket, which only its owner can use.
pub fn bind(path: &Path) -> io::Result<UnixListener> {
    if fs::symlink_metadata(path).is_ok_and(|data| data.file_type().is_socket()) {
        if UnixStream::connect(path).is_ok() {
            let why = "a daemon runs that has it: name it with --take-over to replace that one";
            return Err(io::Error::new(io::ErrorKind::AddrInUse, why));
        }
        fs::remove_file(path)?;
    }
    // A file that another thread makes meanwhile is its owner's, too.
    // SAFETY: no memory is touched.
    let umask = unsafe { libc::umask(0o177) };
    let listener = UnixListener::bind(path);
    // SAFETY: as above.
    unsafe { libc::umask(umask) };
    let listener = listener?;
    pass_credentials(&listener)?;
    listener.set_nonblocking(true)?;
    Ok(listener)
}

/// The user of the process that made the socket that this one is connected to.
fn peer(socket: &UnixStream) -> io::Result<u32> {
    let mut peer = libc::ucred { pid: 0, uid: 0, gid: 0 };
    let mut len = length::<libc::ucred>();
    let at = ptr::from_mut(&mut peer).cast();
    // SAFETY: both are borrowed mutably.
    let got = unsafe {
        let fd = socket.as_raw_fd();
        libc::getsockopt(fd, libc::SOL_SOCKET, libc::SO_PEERCRED, at, &raw mut len)
    };
    if got != 0 {
        return Err(io::Error::last_os_error());
    }
    Ok(peer.uid)
}

/// Connects to the process that serves, which must be the same user's.
pub fn connect(path: &Path) -> io::Result<UnixStream> {
    let stream = UnixStream::connect(path)?;
    let user = peer(&stream)?;
    // SAFETY: no memory is touched.
    if user != unsafe { libc::getuid() } {
        return Err(io::Error::other(format!("it is a socket of user {user}")));
    }
    Ok(stream)
}

#[cfg(test)]
mod tests {
    use super::*;

    #[test]
    fn a_record_arrives_byte_by_byte() {
        let bytes = ready("0.1.0\nxattr on\n").expect("bytes");
        for len in 0..bytes.len() {
            assert_eq!(record_of(&bytes[..len]).expect("a part"), None, "{len}");
        }
        assert_eq!(record_of(&bytes).expect("all").as_deref(), Some("0.1.0\nxattr on\n"));
        assert!(record_of(&[&bytes[..], b"x"].concat()).is_err());
        assert!(ready(&"x".repeat(MOST)).is_ok() && ready(&"x".repeat(MOST + 1)).is_err());
    }

    #[test]
    fn bytes_that_are_no_record_are_refused() {
        assert!(record_of(b"GET / HTTP/1.1").is_err() && record_of(b"x").is_err());
        assert!(record_of(&[&READY[..], &[0xff; 4]].concat()).is_err());
        assert!(record_of(&[&READY[..], &[1, 0, 0, 0], b"\xff"].concat()).is_err());
    }
}
