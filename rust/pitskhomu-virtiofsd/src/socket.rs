//! The socket that the front-end connects to, and the PID file next to it.
use crate::options::Options;
use crate::paths::check_folder;
use crate::replace;
use std::ffi::CString;
use std::fs::{self, File, OpenOptions};
use std::io::{self, Write};
use std::os::fd::{AsRawFd, FromRawFd, IntoRawFd, RawFd};
use std::os::unix::fs::{chown, FileTypeExt, OpenOptionsExt, PermissionsExt};
use std::os::unix::net::UnixListener;
use std::path::{Path, PathBuf};
use std::thread;
use std::time::Duration;
use vhost::vhost_user::Listener;

/// The number of tries for a lock that another daemon has, and the time between them.
const LOCK_TRIES: u32 = 40;
const LOCK_PAUSE: Duration = Duration::from_millis(50);

/// The listener, and the PID file, which stays locked as long as it is open.
pub struct Socket {
    /// The socket that the front-end connects to.
    pub listener: Listener,
    /// The locked PID file next to the socket, if the daemon makes the socket.
    pub number: Option<File>,
}

fn group_number(name: &str) -> Result<u32, String> {
    let unknown = || String::from("Couldn't resolve the group name specified for the socket path");
    let name = CString::new(name).map_err(|_| unknown())?;
    // SAFETY: the name is a C string, and no other thread runs yet.
    let group = unsafe { libc::getgrnam(name.as_ptr()).as_ref() };
    group.map(|group| group.gr_gid).ok_or_else(unknown)
}

/// Locks the file, and returns whether that succeeded. A daemon that ends has its lock for a moment
/// longer.
fn lock(file: &File) -> bool {
    (0..LOCK_TRIES).any(|attempt| {
        if attempt > 0 {
            thread::sleep(LOCK_PAUSE);
        }
        // SAFETY: the descriptor is open, and no memory is touched.
        unsafe { libc::flock(file.as_raw_fd(), libc::LOCK_EX | libc::LOCK_NB) == 0 }
    })
}

/// Locks `PATH.pid`, so that no second daemon takes the socket of one that runs, and writes the
/// daemon's PID to it.
fn number_file(path: &Path) -> io::Result<File> {
    let mut options = OpenOptions::new();
    options.write(true).create(true).truncate(false).mode(0o644).custom_flags(libc::O_NOFOLLOW);
    let mut file = options.open(path)?;
    if !lock(&file) {
        return Err(io::Error::new(io::ErrorKind::AddrInUse, "a daemon runs that has locked it"));
    }
    file.set_len(0)?;
    writeln!(file, "{}", std::process::id())?;
    Ok(file)
}

/// Binds the socket, and first removes one that an earlier daemon left there.
pub fn bind(path: &Path, group: Option<u32>) -> io::Result<UnixListener> {
    if fs::symlink_metadata(path).is_ok_and(|metadata| metadata.file_type().is_socket()) {
        fs::remove_file(path)?;
    }
    // No other user connects before the group is set.
    // SAFETY: no memory is touched, and no other thread runs yet.
    let umask = unsafe { libc::umask(0o077) };
    let listener = UnixListener::bind(path);
    // SAFETY: as above.
    unsafe { libc::umask(umask) };
    if group.is_some() {
        chown(path, None, group)?;
        fs::set_permissions(path, fs::Permissions::from_mode(0o660))?;
    }
    listener
}

/// The listener of --fd.
fn passed(fd: RawFd) -> Result<UnixListener, String> {
    // SAFETY: no memory is touched; without such a descriptor the call fails.
    if unsafe { libc::fcntl(fd, libc::F_GETFD) } < 0 {
        return Err(format!("Error creating listener: {}", io::Error::last_os_error()));
    }
    // SAFETY: the descriptor is open. The process that started the daemon passed it for this one
    // use: the daemon's own have other numbers.
    Ok(unsafe { UnixListener::from_raw_fd(fd) })
}

impl Socket {
    /// Makes the socket, or takes the one of --fd, or connects to the daemon of --take-over. From
    /// then on a front-end may connect. An error is a message.
    pub fn open(options: &Options) -> Result<Socket, String> {
        if let Some(path) = &options.take_over {
            return Ok(Socket { listener: replace::connect(path)?, number: None });
        }
        let path = options.socket_path.as_ref().or(options.socket.as_ref());
        let (listener, number) = match (path, options.fd) {
            (Some(path), _) => Socket::made(path, options.socket_group.as_deref())?,
            (None, Some(fd)) => (passed(fd)?, None),
            (None, None) => return Err("neither --socket-path nor --fd".into()),
        };
        // The process that made the socket may have set O_NONBLOCK.
        listener.set_nonblocking(false).map_err(|e| format!("Error creating listener: {e}"))?;
        // `Listener::new` of crate vhost removes the path when it is dropped, which in the sandbox
        // is a path of the guest. SAFETY: the descriptor is open, and the listener owns it from
        // here on.
        Ok(Socket { listener: unsafe { Listener::from_raw_fd(listener.into_raw_fd()) }, number })
    }

    fn made(path: &Path, group: Option<&str>) -> Result<(UnixListener, Option<File>), String> {
        let folder = path.parent().ok_or("Invalid socket file name")?;
        check_folder(folder)?;
        let mut number_path = path.as_os_str().to_owned();
        number_path.push(".pid");
        let number_path = PathBuf::from(number_path);
        let number = number_file(&number_path)
            .map_err(|e| format!("Error creating pid file '{}': {e}", number_path.display()))?;
        let group = group.map(group_number).transpose()?;
        let listener = bind(path, group)
            .map_err(|e| format!("Error creating listener: {}: {e}", path.display()))?;
        Ok((listener, Some(number)))
    }
}
