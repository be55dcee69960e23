//! Why no guest is served.
use std::io;
use std::path::PathBuf;
use thiserror::Error as ThisError;

/// Why no guest is served, or no longer.
#[derive(Debug, ThisError)]
#[non_exhaustive]
pub enum Error {
    /// A tag has 1 to 36 bytes.
    #[error("the tag \"{0}\" doesn't have 1 to 36 bytes")]
    Tag(String),
    /// There are 1 to 63 request queues.
    #[error("{0} request queues: a device has 1 to 63")]
    Queues(u16),
    /// The socket can't be made.
    #[error("the socket {}: {error}", path.display())]
    Socket {
        /// Its path.
        path: PathBuf,
        /// What the system says.
        #[source]
        error: io::Error,
    },
    /// Descriptors for the queues can't be made.
    #[error("the device: {0}")]
    Device(#[source] io::Error),
    /// A thread can't start. The system gives one error for several limits.
    #[error(
        "{what} can't start: {error}. Limits of threads: RLIMIT_NPROC, the cgroup's pids.max, \
        kernel.threads-max. Of memory: RLIMIT_AS, vm.max_map_count"
    )]
    Thread {
        /// Which thread.
        what: String,
        /// What the system says.
        #[source]
        error: io::Error,
    },
    /// The control socket can't be waited for.
    #[error("the control socket: {0}")]
    Control(#[source] io::Error),
    /// This process doesn't take over from the one that serves, which continues.
    #[error("the other daemon continues: {0}")]
    TakeOver(#[source] io::Error),
    /// The front-end doesn't speak vhost-user, or its connection is broken.
    #[error("the front-end: {0}")]
    FrontEnd(#[source] Box<dyn std::error::Error + Send + Sync>),
}
