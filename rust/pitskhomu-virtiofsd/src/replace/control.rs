//! What the daemon has when it replaces another or is replaced: the PID file, the socket of
//! --metrics, those who wait until it serves, and its record.
use super::Record;
use crate::numbers::MetricsSocket;
use crate::options::Options;
use crate::starter::Starter;
use log::warn;
use pitskhomu_vhost_user::replace::{self, Control, Process};
use std::fs::{self, File};
use std::io::{self, Seek, Write};
use std::os::fd::{AsRawFd, FromRawFd, IntoRawFd, OwnedFd, RawFd};
use std::os::unix::fs::MetadataExt;
use std::os::unix::net::UnixListener;
use std::path::Path;
use std::sync::Arc;
use vhost::vhost_user::Listener;
use virtiofsd::passthrough::MigrationOnError;

/// What a daemon has besides its device.
#[derive(Debug)]
struct Daemon {
    /// The locked PID file.
    number: Option<File>,
    /// The number of the process that was started, for the PID file.
    pid: u32,
    /// The socket of --metrics.
    metrics: Arc<MetricsSocket>,
    /// Those who wait until this daemon serves.
    starter: Starter,
    /// What the daemon says of itself.
    record: Record,
    /// A node that another daemon wouldn't find is answered EIO there
    /// (`--migration-on-error=guest-error`).
    may_lose: bool,
}

/// Whether a path lies in a directory, also if the two have other names.
fn lies_in(path: &Path, directory: &Path) -> io::Result<bool> {
    let identity = |path: &Path| fs::metadata(path).map(|data| (data.dev(), data.ino()));
    let wanted = identity(directory)?;
    let folder = path.parent().filter(|folder| !folder.as_os_str().is_empty());
    let folder = fs::canonicalize(folder.unwrap_or(Path::new(".")))?;
    for above in folder.ancestors() {
        if identity(above)? == wanted {
            return Ok(true);
        }
    }
    Ok(false)
}

/// The control socket at this path. An error is a message.
fn open(path: &Path, directory: &Path) -> Result<UnixListener, String> {
    let wrong = |e: &dyn std::fmt::Display| format!("--control-socket {}: {e}", path.display());
    if lies_in(path, directory).map_err(|e| wrong(&e))? {
        return Err(wrong(&"it lies in the shared directory, where the guest could replace it"));
    }
    replace::bind(path).map_err(|e| wrong(&e))
}

impl Daemon {
    /// Writes this daemon's number to the PID file.
    fn write_number(&mut self) -> io::Result<()> {
        let Some(number) = &mut self.number else { return Ok(()) };
        number.set_len(0)?;
        number.rewind()?;
        writeln!(number, "{}", self.pid)
    }
}

impl Process for Daemon {
    fn record(&self) -> String {
        self.record.text()
    }

    fn refuses(&self, new: &str) -> io::Result<Option<String>> {
        let new = Record::of(new)?;
        let lends = self.metrics.lend().map(|(_, id)| id);
        if new.wanted.is_some() && new.wanted != lends {
            return Ok(Some("its option --metrics names another process's socket".into()));
        }
        Ok(self.record.refuses(&new))
    }

    fn checks_state(&self) -> bool {
        !self.may_lose
    }

    fn lend(&self) -> [Option<RawFd>; 2] {
        let metrics = self.metrics.lend().map(|(fd, _)| fd);
        [self.number.as_ref().map(AsRawFd::as_raw_fd), metrics]
    }

    /// The PID file, and the socket of --metrics if it is the same, are this daemon's own from here
    /// on.
    fn adopt(&mut self, [number, metrics]: [Option<OwnedFd>; 2]) {
        self.number = number.map(Into::into);
        if let Err(e) = self.write_number() {
            warn!("the PID file has the old daemon's number: {e}");
        }
        let adopted = metrics.map_or(Ok(()), |metrics| self.metrics.adopt(metrics));
        if let Err(e) = adopted {
            warn!("nobody serves the socket of --metrics: {e}");
        }
    }

    fn serves(&mut self) {
        self.starter.serves();
    }

    fn leaves(&self) {
        self.metrics.leave();
    }
}

/// Makes the control socket that the options name. A daemon that takes over gets that of the old
/// one. An error is a message.
pub fn control(
    options: &Options,
    directory: &Path,
    (mut record, number): (Record, Option<File>),
    (metrics, starter): (Arc<MetricsSocket>, Starter),
) -> Result<Control, String> {
    record.wanted = metrics.wanted();
    let path = options.control_socket.as_deref();
    let listener = match (path, &options.take_over) {
        (Some(path), Some(old)) if path != old => {
            let (path, old) = (path.display(), old.display());
            return Err(format!(
                "--control-socket {path}: with --take-over it is that of the old daemon, {old}"
            ));
        }
        (Some(path), None) => Some(open(path, directory)?),
        _ => None,
    };
    let pid = std::process::id();
    let may_lose = options.migration_on_error == MigrationOnError::GuestError;
    let daemon = Daemon { number, pid, metrics, starter, record, may_lose };
    Control::new(listener, daemon).map_err(|e| format!("a file in memory: {e}"))
}

/// Connects to the old daemon. The connection is no listener, but the sandbox takes one, and leaves
/// no other process a copy of it. An error is a message.
pub fn connect(path: &Path) -> Result<Listener, String> {
    let stream =
        replace::connect(path).map_err(|e| format!("--take-over {}: {e}", path.display()))?;
    // SAFETY: the descriptor is open, and owned from here on.
    Ok(unsafe { Listener::from_raw_fd(stream.into_raw_fd()) })
}

#[cfg(test)]
mod tests {
    use super::*;
    use std::os::unix::fs::{symlink, PermissionsExt};
    use std::path::PathBuf;

    fn folder(name: &str) -> PathBuf {
        let path = std::env::temp_dir().join(format!("pitskhomu-{name}-{}", std::process::id()));
        fs::create_dir_all(path.join("share/dir")).expect("a folder");
        path
    }

    #[test]
    fn the_socket_is_the_owners_and_lies_outside() {
        let folder = folder("control");
        let share = folder.join("share");
        symlink(share.join("dir"), folder.join("link")).expect("a link");
        for inside in ["share/c", "share/dir/c", "link/c", "share/../share/c"] {
            let why = open(&folder.join(inside), &share).expect_err(inside);
            assert!(why.contains("in the shared directory"), "{why}");
        }
        let path = folder.join("control");
        let listener = open(&path, &share).expect("a socket");
        let mode = fs::metadata(&path).expect("a socket").permissions().mode();
        assert_eq!(mode & 0o777, 0o600);
        let why = open(&path, &share).expect_err("a second one");
        assert!(why.contains("--take-over"), "{why}");
        drop(listener);
        drop(open(&path, &share).expect("an old one is replaced"));
        fs::write(folder.join("file"), "x").expect("a file");
        assert!(open(&folder.join("file"), &share).is_err(), "a file isn't removed");
        fs::remove_dir_all(&folder).expect("removed");
    }
}
