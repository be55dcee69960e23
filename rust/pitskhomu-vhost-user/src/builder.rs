//! How a file system is served.
use crate::device::Core;
use crate::error::Error;
use crate::front_end::TAG_LEN;
use crate::replace::{self, Control, Process};
use crate::served::{ByMethods, Served};
use crate::session::{self, End};
use crate::socket::SocketPath;
use crate::state::MovableState;
use pitskhomu::live::Handler;
use pitskhomu::FileSystem;
use std::fmt;
use std::io;
use std::os::fd::OwnedFd;
use std::os::unix::net::UnixListener;
use std::path::{Path, PathBuf};
use std::sync::Arc;
use std::time::Duration;

/// Serves a file system to a VMM, which connects to a socket: one request queue, one thread.
/// [`Builder`] has more. It returns when the VMM has disconnected.
///
/// # Errors
/// Those of [`Builder::serve`].
pub fn serve<F: FileSystem + Send + Sync + 'static>(
    socket: impl AsRef<Path>,
    file_system: F,
) -> Result<(), Error> {
    Builder::new().serve(socket, file_system)
}

/// How a file system is served: queues, threads, the tag.
///
/// # Examples
/// ```no_run
/// use pitskhomu::FileSystem;
/// use pitskhomu_vhost_user::{Builder, Error};
/// use std::time::Duration;
///
/// fn serve<F: FileSystem + Send + Sync + 'static>(file_system: F) -> Result<(), Error> {
///     Builder::new()
///         .threads(4)
///         .poll_at_most(Duration::from_micros(32))
///         .serve("/run/memory.sock", file_system)
/// }
/// ```
#[derive(Clone)]
#[must_use]
pub struct Builder {
    tag: Option<String>,
    request_queues: u16,
    threads: u16,
    polls: Duration,
    state: Option<Arc<dyn MovableState>>,
    identity: String,
    control: Option<PathBuf>,
}

impl fmt::Debug for Builder {
    fn fmt(&self, f: &mut fmt::Formatter<'_>) -> fmt::Result {
        f.debug_struct("Builder")
            .field("tag", &self.tag)
            .field("request_queues", &self.request_queues)
            .field("threads", &self.threads)
            .field("polls", &self.polls)
            .field("identity", &self.identity)
            .field("control", &self.control)
            .finish_non_exhaustive()
    }
}

impl Default for Builder {
    fn default() -> Builder {
        let (polls, identity) = (Duration::ZERO, String::new());
        let (request_queues, threads) = (1, 1);
        Builder { tag: None, request_queues, threads, polls, state: None, identity, control: None }
    }
}

/// What a process says of itself to one that takes over.
struct Identity(String);

impl Process for Identity {
    fn record(&self) -> String {
        self.0.clone()
    }

    fn refuses(&self, new: &str) -> io::Result<Option<String>> {
        let why = || format!("it is \"{new}\", and the one that serves is \"{}\"", self.0);
        Ok((new != self.0).then(why))
    }
}

impl Builder {
    /// One request queue with one thread.
    pub fn new() -> Builder {
        Builder::default()
    }

    /// Sets the tag that the guest mounts, 1 to 36 bytes, for a VMM that asks the device for it.
    /// QEMU doesn't: there the tag is the device's property `tag`.
    pub fn tag(mut self, tag: impl Into<String>) -> Builder {
        self.tag = Some(tag.into());
        self
    }

    /// Sets the number of request queues, 1 to 63. QEMU has the same number as
    /// `num-request-queues` of its device.
    pub fn request_queues(mut self, count: u16) -> Builder {
        self.request_queues = count;
        self
    }

    /// Sets the number of threads of each request queue, at least one. So many requests of a queue
    /// are under way at the same time, also if their answers come later.
    pub fn threads(mut self, count: u16) -> Builder {
        self.threads = count.max(1);
        self
    }

    /// Sets for how long a thread looks for requests before it sleeps, at most, and only while they
    /// come soon ([`live::Builder::poll_at_most`](pitskhomu::live::Builder::poll_at_most)).
    pub fn poll_at_most(mut self, time: Duration) -> Builder {
        self.polls = time;
        self
    }

    /// Lets the guest migrate, with this state. Without it the VMM refuses a migration.
    pub fn movable(mut self, state: Arc<dyn MovableState>) -> Builder {
        self.state = Some(state);
        self
    }

    /// Lets another process take over from this one while the guest runs, for example one of a
    /// later version ([`Builder::take_over`]). It connects to a socket at this path, which only the
    /// same user can use. The file system needs a state that moves, too.
    pub fn control_socket(mut self, path: impl Into<PathBuf>) -> Builder {
        self.control = Some(path.into());
        self
    }

    /// Sets what this process is, in words. One that takes over must be the same: name all that the
    /// guest could notice, such as a directory and options. Without this the words are empty.
    pub fn identity(mut self, words: impl Into<String>) -> Builder {
        self.identity = words.into();
        self
    }

    /// Serves a file system by its methods, on the threads of the queues, until the VMM
    /// disconnects. The socket is made at this path; one that an earlier device left there is
    /// removed. A VMM of another user needs the right to write to it.
    ///
    /// A method may take its time: that delays its thread alone, and no message of the VMM's by
    /// more than 0.1 s. [`FileSystem::reply_by_bytes`] isn't asked.
    ///
    /// For one VMM after another call it again. One that connects before the new socket is there is
    /// disconnected, and may try again. If a VMM gives the device a channel for requests of its own
    /// (QEMU does), a thread and a descriptor stay until the process ends.
    ///
    /// # Errors
    /// `Tag` and `Queues` before anything is done, `Socket`, `Device`, `Thread`, and `FrontEnd`. An
    /// answer that is refused, or a chain that isn't one, is no error: the log has a line (crate
    /// log). `Ok` if the VMM has disconnected, or another process has taken over.
    pub fn serve<F: FileSystem + Send + Sync + 'static>(
        self,
        socket: impl AsRef<Path>,
        file_system: F,
    ) -> Result<(), Error> {
        self.serve_by_values(socket, ByMethods(file_system))
    }

    /// Serves requests by values: a handler answers each at once, or hands its reply object to
    /// another thread, or to an async task. Until that answers, a thread of the queue waits. The
    /// rest is as of `serve`. A function of a [`Request`](pitskhomu::Request) is a handler. A type
    /// that counts nodes implements [`Handler`]: it gets what is to be undone, and a session's end.
    ///
    /// # Errors
    /// Those of `serve`.
    pub fn serve_by_values<H: Handler + 'static>(
        self,
        socket: impl AsRef<Path>,
        handler: H,
    ) -> Result<(), Error> {
        self.check()?;
        let (mut path, listener) = SocketPath::bind(socket.as_ref())?;
        let end = self.serve_device(listener.into(), false, handler)?;
        path.is_others = end == End::Replaced;
        Ok(())
    }

    /// The same for a listener that was made before, for example by systemd, or before the process
    /// entered a sandbox. [`ByMethods`] makes a handler of a file system. One VMM is served: the
    /// listener is closed once it has connected.
    ///
    /// # Errors
    /// Those of `serve`.
    pub fn serve_on<H: Handler + 'static>(
        self,
        listener: UnixListener,
        handler: H,
    ) -> Result<(), Error> {
        self.check()?;
        self.serve_device(listener.into(), false, handler).map(|_| ())
    }

    /// Takes over from the process whose [`control_socket`](Builder::control_socket) this is, and
    /// serves its guest from then on, as [`serve_on`](Builder::serve_on) does. ([`ByMethods`] makes
    /// a handler of a file system.) The VMM's socket never closes, and the guest waits for some
    /// milliseconds. The state moves as in a migration ([`Builder::movable`]). This process has the
    /// control socket then, for the next one.
    ///
    /// # Errors
    /// `TakeOver`: the other process continues. It doesn't answer, isn't the same user's or the
    /// same [`identity`](Builder::identity), holds a call, or this one can't load its state. After
    /// this process has taken over: those of `serve`.
    pub fn take_over<H: Handler + 'static>(
        self,
        control: impl AsRef<Path>,
        handler: H,
    ) -> Result<(), Error> {
        self.check()?;
        let socket = replace::connect(control.as_ref()).map_err(Error::TakeOver)?;
        self.serve_device(socket.into(), true, handler).map(|_| ())
    }

    fn serve_device<H: Handler + 'static>(
        self,
        socket: OwnedFd,
        takes_over: bool,
        handler: H,
    ) -> Result<End, Error> {
        let path = self.control.as_ref().filter(|_| !takes_over);
        let made = path.map(|path| SocketPath::control(path)).transpose()?;
        let (mut path, listener) = made.unzip();
        let control = Control::new(listener, Identity(self.identity));
        let mut control = control.map_err(Error::Device)?;
        control.enter().map_err(Error::Device)?;
        let core = Core::new(
            Served { handler, state: self.state },
            self.request_queues.into(),
            self.threads,
        );
        let core = Arc::new(core.map_err(Error::Device)?);
        core.rings.iter().for_each(|ring| ring.poll_at_most(self.polls));
        session::start_threads(&core, || Ok(())).inspect_err(|_| core.end())?;
        let ended = session::run(&core, self.tag, (socket, takes_over), control);
        core.end();
        if let Some(path) = &mut path {
            path.is_others = matches!(ended, Ok(End::Replaced));
        }
        ended
    }

    fn check(&self) -> Result<(), Error> {
        if let Some(tag) = self.tag.as_ref().filter(|tag| !(1..=TAG_LEN).contains(&tag.len())) {
            return Err(Error::Tag(tag.clone()));
        }
        if !(1..=63).contains(&self.request_queues) {
            return Err(Error::Queues(self.request_queues));
        }
        Ok(())
    }
}
