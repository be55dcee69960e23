//! Those who wait until this daemon serves: systemd, for a service of `Type=notify`, and the
//! process that `--detach` leaves in the foreground. Both are notified once, and their sockets are
//! closed, before a guest is served.
use log::{debug, warn};
use std::env;
use std::ffi::OsStr;
use std::fs::File;
use std::io::{self, Read, Write};
use std::os::fd::OwnedFd;
use std::os::linux::net::SocketAddrExt;
use std::os::unix::ffi::OsStrExt;
use std::os::unix::net::{SocketAddr, UnixDatagram, UnixStream};
use std::path::Path;
use std::process::ExitCode;
use std::ptr;
use std::time::Duration;

/// How long the message to systemd may wait. A daemon that is replaced waits longer before it ends:
/// the end of a service's main process is the service's end.
const PATIENCE: Duration = Duration::from_secs(2);

/// One of two processes.
pub enum Process {
    /// The one that was started, which ends with this status.
    Started(ExitCode),
    /// The daemon in the background. It writes a byte once it serves.
    Daemon(File),
}

/// Continues in the background: in a session of its own, and as a child of the system's first
/// process. The process that was started waits until the daemon serves, or has ended. Call it while
/// there is one thread.
pub fn detach() -> io::Result<Process> {
    let (mut ours, theirs) = UnixStream::pair()?;
    match fork()? {
        0 => {}
        child => {
            drop(theirs);
            // SAFETY: no memory is passed.
            unsafe { libc::waitpid(child, ptr::null_mut(), 0) };
            let serves = ours.read_exact(&mut [0]).is_ok();
            let status = if serves { ExitCode::SUCCESS } else { ExitCode::FAILURE };
            return Ok(Process::Started(status));
        }
    }
    drop(ours);
    // SAFETY: no memory is touched.
    unsafe { libc::setsid() };
    match fork()? {
        0 => Ok(Process::Daemon(File::from(OwnedFd::from(theirs)))),
        // SAFETY: as above.
        _ => unsafe { libc::_exit(0) },
    }
}

/// Makes a child: 0 in the child, and its number in this process.
fn fork() -> io::Result<libc::pid_t> {
    // SAFETY: there is one thread, so the child may do all that this process may.
    match unsafe { libc::fork() } {
        -1 => Err(io::Error::last_os_error()),
        child => Ok(child),
    }
}

/// Connects to systemd's socket, whose name begins with `@` if it is an abstract one.
fn connect(name: &OsStr) -> io::Result<File> {
    let address = match name.as_bytes() {
        [b'@', rest @ ..] => SocketAddr::from_abstract_name(rest)?,
        _ => SocketAddr::from_pathname(name)?,
    };
    let socket = UnixDatagram::unbound()?;
    socket.connect_addr(&address)?;
    socket.set_write_timeout(Some(PATIENCE))?;
    Ok(File::from(OwnedFd::from(socket)))
}

/// Those who wait until the daemon serves.
#[derive(Debug)]
pub struct Starter {
    /// Connected to systemd's socket.
    systemd: Option<File>,
    /// Connected to the process in the foreground.
    foreground: Option<File>,
    /// The number of the process that was started, if the service's main process is another until
    /// then. A service that passes its socket on to a daemon of its own stays the main process.
    process: Option<u32>,
}

impl Starter {
    /// Connects to systemd, if it started the daemon (`NOTIFY_SOCKET`). Call it before the sandbox,
    /// which has neither the socket's path nor this process's number.
    pub fn new(foreground: Option<File>, takes_over: bool) -> Starter {
        let systemd = env::var_os("NOTIFY_SOCKET").and_then(|name| match connect(&name) {
            Ok(systemd) => Some(systemd),
            Err(e) => {
                warn!(
                    "systemd can't be notified that this daemon serves: {}: {e}",
                    Path::new(&name).display()
                );
                None
            }
        });
        Starter { systemd, foreground, process: takes_over.then(std::process::id) }
    }

    /// Tells them that this daemon serves, or listens for a front-end.
    pub fn serves(&mut self) {
        if let Some(mut systemd) = self.systemd.take() {
            let process = self.process.map(|process| format!("\nMAINPID={process}"));
            let message = format!("READY=1{}", process.unwrap_or_default());
            match systemd.write_all(message.as_bytes()) {
                Ok(()) => debug!("systemd was notified that this daemon serves"),
                Err(e) => warn!("systemd wasn't notified that this daemon serves: {e}"),
            }
        }
        if let Some(mut foreground) = self.foreground.take() {
            let _ = foreground.write_all(b"1"); // somebody may have ended that process
        }
    }
}

#[cfg(test)]
mod tests {
    use super::*;
    use std::os::fd::AsRawFd;
    use std::path::PathBuf;

    #[test]
    fn systemd_is_told_once() {
        let name = format!("pitskhomu-starter-{}", std::process::id());
        let path = env::temp_dir().join(&name);
        let abstract_name = SocketAddr::from_abstract_name(&name).expect("a name");
        for (theirs, name, process, said) in [
            (
                UnixDatagram::bind_addr(&abstract_name),
                PathBuf::from(format!("@{name}")),
                None,
                "READY=1",
            ),
            (UnixDatagram::bind(&path), path.clone(), Some(7), "READY=1\nMAINPID=7"),
        ] {
            let theirs = theirs.expect("a socket");
            let systemd = connect(name.as_os_str()).expect("connected");
            let mut starter = Starter { systemd: Some(systemd), foreground: None, process };
            starter.serves();
            starter.serves();
            theirs.set_nonblocking(true).expect("a socket");
            let mut bytes = [0; 64];
            let len = theirs.recv(&mut bytes).expect("a message");
            assert_eq!(&bytes[..len], said.as_bytes());
            assert!(theirs.recv(&mut bytes).is_err());
        }
        std::fs::remove_file(&path).expect("removed");
        assert!(connect(path.as_os_str()).is_err());
    }

    /// The daemon may say it only once: then its end of the socket is closed.
    #[test]
    fn the_foreground_is_told() {
        let (mut ours, theirs) = UnixStream::pair().expect("sockets");
        let number = theirs.as_raw_fd();
        let foreground = Some(File::from(OwnedFd::from(theirs)));
        Starter { systemd: None, foreground, process: None }.serves();
        let mut bytes = Vec::new();
        ours.read_to_end(&mut bytes).expect("the end");
        assert_eq!(bytes, b"1", "{number}");
    }
}
