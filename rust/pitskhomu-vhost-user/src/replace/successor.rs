//! The daemon that takes over, to which this one is the front-end.
use super::wire::{receive, send};
use super::Own;
use crate::iommu::messages::{flags, Head, HEAD_LEN};
use std::io;
use std::os::fd::{AsRawFd, OwnedFd, RawFd};
use std::time::Instant;
use vhost::vhost_user::message::FrontendReq;
use vmm_sys_util::epoll::{ControlOperation, Epoll, EpollEvent, EventSet};

/// The longest answer: `SET_LOG_BASE` is answered by its own 16 bytes.
const ANSWER_MAX: usize = 16;

/// The daemon that takes over.
pub struct Successor {
    socket: OwnedFd,
    events: Epoll,
    end: Instant,
}

fn refused(request: FrontendReq) -> io::Error {
    io::Error::other(format!("the new daemon refuses {request:?}"))
}

/// A body of these words.
fn body(words: &[u64]) -> Vec<u8> {
    words.iter().flat_map(|word| word.to_ne_bytes()).collect()
}

impl Successor {
    /// The daemon at the other end of this socket, which doesn't block. It must answer all until
    /// `end`.
    pub fn new(socket: OwnedFd, end: Instant) -> io::Result<Successor> {
        let events = Epoll::new()?;
        let event = EpollEvent::new(EventSet::IN, 0);
        events.ctl(ControlOperation::Add, socket.as_raw_fd(), event)?;
        Ok(Successor { socket, events, end })
    }

    /// The socket.
    pub fn into_socket(self) -> OwnedFd {
        self.socket
    }

    /// From here on it has until then.
    pub fn set_end(&mut self, end: Instant) {
        self.end = end;
    }

    /// Reads so many bytes, as long as there is time.
    fn read(&self, bytes: &mut [u8]) -> io::Result<()> {
        let mut done = 0;
        while done < bytes.len() {
            match receive(self.socket.as_raw_fd(), &mut bytes[done..], libc::MSG_DONTWAIT) {
                Ok(received) if received.len == 0 => {
                    return Err(io::Error::other("the new daemon has ended"));
                }
                Ok(received) => done += received.len,
                Err(e) if e.kind() == io::ErrorKind::WouldBlock => self.wait()?,
                Err(e) if e.kind() == io::ErrorKind::Interrupted => {}
                Err(e) => return Err(e),
            }
        }
        Ok(())
    }

    fn wait(&self) -> io::Result<()> {
        let left = self.end.saturating_duration_since(Instant::now());
        if left.is_zero() {
            return Err(io::Error::other("the new daemon doesn't answer in time"));
        }
        let left = i32::try_from(left.as_millis()).map_or(i32::MAX, |left| left + 1);
        match self.events.wait(left, &mut [EpollEvent::default()]) {
            Err(e) if e.kind() != io::ErrorKind::Interrupted => Err(e),
            _ => Ok(()),
        }
    }

    /// Sends a message, and returns its answer.
    fn exchange(&self, head: Head, body: &[u8], fds: &[RawFd]) -> io::Result<Vec<u8>> {
        let bytes = [&head.with_size(body.len()).bytes()[..], body].concat();
        send(self.socket.as_raw_fd(), &bytes, fds)?;
        let mut answered = [0; HEAD_LEN];
        self.read(&mut answered)?;
        let answered = Head::of(&answered);
        let len = answered.size as usize;
        if answered.request != head.request || len > ANSWER_MAX {
            return Err(io::Error::other("the new daemon answers another message"));
        }
        let mut answer = vec![0; len];
        self.read(&mut answer)?;
        Ok(answer)
    }

    /// A message that is answered by a number.
    pub fn ask(&self, request: FrontendReq, bytes: &[u8], fds: &[RawFd]) -> io::Result<u64> {
        let answer =
            self.exchange(Head { request: request as u32, flags: 0, size: 0 }, bytes, fds)?;
        answer.try_into().map(u64::from_ne_bytes).map_err(|_| refused(request))
    }

    /// A message that is acknowledged.
    pub fn tell(&self, request: FrontendReq, words: &[u64], fds: &[RawFd]) -> io::Result<()> {
        let head = Head { request: request as u32, flags: flags::NEED_REPLY, size: 0 };
        let answer = self.exchange(head, &body(words), fds)?;
        if answer.iter().all(|byte| *byte == 0) && answer.len() == 8 {
            Ok(())
        } else {
            Err(refused(request))
        }
    }

    /// A message that is answered by its own words.
    pub fn repeat(&self, request: FrontendReq, words: &[u64], fds: &[RawFd]) -> io::Result<()> {
        let head = Head { request: request as u32, flags: 0, size: 0 };
        match self.exchange(head, &body(words), fds)? {
            answer if answer == body(words) => Ok(()),
            _ => Err(refused(request)),
        }
    }

    /// A message without an answer.
    pub fn say(&self, request: u32, bytes: &[u8], fds: &[RawFd]) -> io::Result<()> {
        let head = Head { request, flags: 0, size: 0 }.with_size(bytes.len()).bytes();
        send(self.socket.as_raw_fd(), &[&head[..], bytes].concat(), fds)
    }

    /// Sends TAKE, and waits for TAKEN.
    pub fn offer(&self, words: &[u64], fds: &[RawFd]) -> io::Result<()> {
        self.say(Own::Take as u32, &body(words), fds)?;
        let mut answered = [0; HEAD_LEN];
        self.read(&mut answered)?;
        match Head::of(&answered) {
            Head { request, size: 0, .. } if Own::of(request) == Some(Own::Taken) => Ok(()),
            _ => Err(io::Error::other("the new daemon doesn't take over")),
        }
    }

    /// Sends GO: after `Ok` the new daemon serves, and after an error this one.
    pub fn go(&self) -> io::Result<()> {
        self.say(Own::Go as u32, &[], &[])
    }

    /// Waits until the new daemon has closed the connection, since it serves. It may report to
    /// systemd first that it is the service's process.
    pub fn wait_for_end(&self) {
        let _ = self.read(&mut [0]);
    }

    /// Says why the new daemon doesn't take over. After TAKE the end of the connection would mean
    /// that this daemon died, so it stays open if the reason can't be sent.
    pub fn refuse(self, why: &str) {
        let is_left = |e: &io::Error| {
            matches!(e.kind(), io::ErrorKind::BrokenPipe | io::ErrorKind::ConnectionReset)
        };
        if self.say(Own::Refused as u32, why.as_bytes(), &[]).is_err_and(|e| !is_left(&e)) {
            std::mem::forget(self.socket);
        }
    }
}
