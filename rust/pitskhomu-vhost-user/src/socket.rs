//! The socket that the front-end connects to.
use crate::error::Error;
use crate::replace;
use std::fs;
use std::io;
use std::os::unix::fs::FileTypeExt;
use std::os::unix::net::UnixListener;
use std::path::{Path, PathBuf};

/// The path of a socket that this process has made. It is removed with this value, unless another
/// process has the socket then.
pub(crate) struct SocketPath {
    path: PathBuf,
    pub is_others: bool,
}

fn bind(path: &Path) -> io::Result<UnixListener> {
    if fs::symlink_metadata(path).is_ok_and(|data| data.file_type().is_socket()) {
        fs::remove_file(path)?;
    }
    UnixListener::bind(path)
}

impl SocketPath {
    /// Binds the socket, and first removes one that an earlier device left there.
    pub fn bind(path: &Path) -> Result<(SocketPath, UnixListener), Error> {
        SocketPath::by(bind, path)
    }

    /// Makes the socket where another process connects to that takes over.
    pub fn control(path: &Path) -> Result<(SocketPath, UnixListener), Error> {
        SocketPath::by(replace::bind, path)
    }

    fn by(
        bind: fn(&Path) -> io::Result<UnixListener>,
        path: &Path,
    ) -> Result<(SocketPath, UnixListener), Error> {
        match bind(path) {
            Ok(listener) => Ok((SocketPath { path: path.into(), is_others: false }, listener)),
            Err(error) => Err(Error::Socket { path: path.into(), error }),
        }
    }
}

impl Drop for SocketPath {
    fn drop(&mut self) {
        if !self.is_others {
            let _ = fs::remove_file(&self.path);
        }
    }
}
