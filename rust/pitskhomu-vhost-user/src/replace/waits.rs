//! Waits for the front-end's next message and, by the control socket, for daemons that are ready to
//! take over.
use super::control::record_of;
use super::{Control, PREPARATION};
use crate::replace::wire::receive;
use log::{debug, warn};
use std::io::{self, ErrorKind};
use std::os::fd::{AsRawFd, FromRawFd, OwnedFd, RawFd};
use std::ptr;
use std::time::{Duration, Instant};
use vmm_sys_util::epoll::{ControlOperation, Epoll, EpollEvent, EventSet};

/// So many processes may be connected without having said READY. One more has the first leave.
const MOST_CALLERS: usize = 8;

/// The sources of events. Callers have their descriptors after these.
const FRONT_END: u64 = 0;
const CONTROL: u64 = 1;
const PREPARED: u64 = 2;
const CHOSEN: u64 = 3;
const CALLERS: u64 = 4;

/// What happened first.
#[derive(Debug)]
pub enum Next {
    /// The front-end has sent a message, or left.
    FrontEnd,
    /// A daemon is ready to take over, by this socket.
    Ready(OwnedFd, String),
    /// The state is prepared.
    Prepared,
    /// The daemon that would take over next has left.
    Left,
    /// The state isn't prepared in time, or the pause before another try is over.
    Late,
}

/// A process that is connected, and the part of READY that it has sent.
#[derive(Debug)]
struct Caller {
    socket: OwnedFd,
    bytes: Vec<u8>,
}

/// The daemon that takes over next.
#[derive(Debug)]
pub struct Chosen {
    pub socket: OwnedFd,
    /// How often it was tried.
    pub tries: u32,
    /// It is tried again then: no state is prepared until then.
    pub is_paused: bool,
    end: Instant,
}

/// The waits of the front-end's thread.
pub struct Waits {
    events: Epoll,
    control: RawFd,
    user: u32,
    callers: Vec<Caller>,
    chosen: Option<Chosen>,
}

impl Caller {
    /// Reads on: returns the record once it is complete. Only a process of this user may send one.
    fn read(&mut self, user: u32) -> io::Result<Option<String>> {
        loop {
            let mut bytes = [0; 4096];
            let fd = self.socket.as_raw_fd();
            let received = match receive(fd, &mut bytes, libc::MSG_DONTWAIT) {
                Err(e) if e.kind() == ErrorKind::WouldBlock => return Ok(None),
                received => received?,
            };
            if received.len == 0 {
                return Err(ErrorKind::UnexpectedEof.into());
            }
            if received.user != Some(user) {
                let user =
                    received.user.map_or("another user".into(), |user| format!("user {user}"));
                return Err(io::Error::new(ErrorKind::PermissionDenied, user));
            }
            self.bytes.extend_from_slice(&bytes[..received.len]);
            if let Some(record) = record_of(&self.bytes)? {
                return Ok(Some(record));
            }
        }
    }
}

impl Waits {
    /// Waits for this front-end, for processes that connect to the control socket, and for the
    /// event that the state is prepared. `None` if there is no control socket.
    pub fn new(
        control: &Control,
        front_end: RawFd,
        prepared: Option<RawFd>,
    ) -> io::Result<Option<Waits>> {
        let Some(listener) = &control.listener else { return Ok(None) };
        let events = Epoll::new()?;
        let listener = listener.as_raw_fd();
        let sources = [(front_end, FRONT_END), (listener, CONTROL)];
        for (fd, source) in sources.into_iter().chain(prepared.map(|fd| (fd, PREPARED))) {
            events.ctl(ControlOperation::Add, fd, EpollEvent::new(EventSet::IN, source))?;
        }
        let (user, callers) = (control.user, Vec::new());
        Ok(Some(Waits { events, control: listener, user, callers, chosen: None }))
    }

    /// Waits for the next event.
    #[allow(clippy::should_implement_trait, reason = "it has no end as an iterator has")]
    pub fn next(&mut self) -> io::Result<Next> {
        loop {
            let left = match &self.chosen {
                Some(chosen) => chosen.end.saturating_duration_since(Instant::now()).as_millis(),
                None => u128::MAX,
            };
            let left = i32::try_from(left).map_or(-1, |left| left + 1); // in whole milliseconds
            let mut events = [EpollEvent::default()];
            match self.events.wait(left, &mut events) {
                Err(e) if e.kind() == ErrorKind::Interrupted => continue,
                Ok(0) => return Ok(Next::Late),
                count => count?,
            };
            match events[0].data() {
                FRONT_END => return Ok(Next::FrontEnd),
                CONTROL => self.accept(),
                PREPARED => return Ok(Next::Prepared),
                CHOSEN => return Ok(Next::Left),
                caller => {
                    if let Some((socket, record)) = self.hear(caller) {
                        return Ok(Next::Ready(socket, record));
                    }
                }
            }
        }
    }

    fn accept(&mut self) {
        let (none, how) = (ptr::null_mut(), libc::SOCK_CLOEXEC | libc::SOCK_NONBLOCK);
        // SAFETY: no memory is touched.
        let fd = unsafe { libc::accept4(self.control, none, ptr::null_mut(), how) };
        if fd < 0 {
            return debug!("the control socket: {}", io::Error::last_os_error());
        }
        // SAFETY: the descriptor is new, and nothing else owns it.
        let socket = unsafe { OwnedFd::from_raw_fd(fd) };
        #[allow(clippy::cast_sign_loss, reason = "a descriptor isn't negative")]
        let event = EpollEvent::new(EventSet::IN, CALLERS + fd as u64);
        if self.callers.len() == MOST_CALLERS {
            self.callers.remove(0);
        }
        match self.events.ctl(ControlOperation::Add, fd, event) {
            Ok(()) => self.callers.push(Caller { socket, bytes: Vec::new() }),
            Err(e) => warn!("the control socket: {e}"),
        }
    }

    /// A caller has sent something, or left.
    fn hear(&mut self, source: u64) -> Option<(OwnedFd, String)> {
        #[allow(clippy::cast_sign_loss, reason = "a descriptor isn't negative")]
        let is_it = |caller: &Caller| CALLERS + caller.socket.as_raw_fd() as u64 == source;
        let at = self.callers.iter().position(is_it)?;
        match self.callers[at].read(self.user) {
            Ok(None) => None,
            Ok(Some(record)) => {
                let socket = self.callers.remove(at).socket;
                let none = EpollEvent::default();
                let _ = self.events.ctl(ControlOperation::Delete, socket.as_raw_fd(), none);
                Some((socket, record))
            }
            Err(e) => {
                match e.kind() {
                    ErrorKind::PermissionDenied => {
                        warn!("{e} may not use the control socket, and is turned away");
                    }
                    ErrorKind::UnexpectedEof => debug!("a process has left the control socket"),
                    _ => warn!("a process is turned away at the control socket: {e}"),
                }
                self.callers.remove(at);
                None
            }
        }
    }

    /// Whether a daemon takes over already.
    pub fn has_chosen(&self) -> bool {
        self.chosen.is_some()
    }

    /// This daemon takes over next, as soon as the state is prepared, or in a while. It may leave
    /// meanwhile.
    pub fn choose(
        &mut self,
        socket: OwnedFd,
        tries: u32,
        pause: Option<Duration>,
    ) -> io::Result<()> {
        let event = EpollEvent::new(EventSet::empty(), CHOSEN);
        self.events.ctl(ControlOperation::Add, socket.as_raw_fd(), event)?;
        let (end, is_paused) = (Instant::now() + pause.unwrap_or(PREPARATION), pause.is_some());
        self.chosen = Some(Chosen { socket, tries, is_paused, end });
        Ok(())
    }

    /// The pause of the chosen daemon is over. Returns whether it had one.
    pub fn resume_chosen(&mut self) -> bool {
        let Some(chosen) = self.chosen.as_mut().filter(|chosen| chosen.is_paused) else {
            return false;
        };
        (chosen.is_paused, chosen.end) = (false, Instant::now() + PREPARATION);
        true
    }

    /// Whether the state is to be prepared for a daemon now.
    pub fn prepares(&self) -> bool {
        self.chosen.as_ref().is_some_and(|chosen| !chosen.is_paused)
    }

    /// The chosen daemon. There is none from here on.
    pub fn take_chosen(&mut self) -> Option<Chosen> {
        let chosen = self.chosen.take()?;
        let none = EpollEvent::default();
        let _ = self.events.ctl(ControlOperation::Delete, chosen.socket.as_raw_fd(), none);
        Some(chosen)
    }
}
