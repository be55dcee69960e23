//! The new daemon: is ready, answers the old one's messages as a front-end's, and takes over.
use super::control::ready;
use super::take::Take;
use super::wire::{receive, send};
use super::{Control, Own, PATIENCE};
use crate::device::ServedFs;
use crate::front_end::FrontEnd;
use crate::iommu::messages::{self, Head, HEAD_LEN};
use log::warn;
use std::io::{self, IoSliceMut};
use std::os::fd::{AsRawFd, FromRawFd, OwnedFd, RawFd};
use vmm_sys_util::epoll::{ControlOperation, Epoll, EpollEvent, EventSet};

/// The longest reason of a refusal that is logged.
const REASON_MAX: usize = 4096;

/// The old daemon, at the other end of the connection that crate vhost reads.
#[derive(Debug, Clone, Copy)]
pub struct Old(RawFd);

/// What the old daemon has decided on.
enum Word {
    Go,
    Refused(String),
    /// The connection ended before: the old daemon died, or somebody between the two has left.
    None,
}

impl Old {
    /// Says that this daemon is ready to take over.
    pub fn say_ready(socket: RawFd, control: &Control) -> io::Result<Old> {
        send(socket, &ready(&control.process.record())?, &[])?;
        Ok(Old(socket))
    }

    /// Waits for the first message. If no front-end is connected yet, this daemon has taken over
    /// then: this is the socket that a front-end will connect to.
    pub fn first(self, control: &mut Control) -> io::Result<Option<OwnedFd>> {
        if !self.offers()? {
            return Ok(None);
        }
        let offer = Offer::receive(self.0)?;
        if offer.take.with & Take::LISTENER == 0 {
            return Err(io::Error::other("TAKE of a front-end without its messages"));
        }
        confirm(self.0, offer.life.as_ref())?;
        control.adopt(offer.kept);
        control.process.serves();
        Ok(Some(offer.socket))
    }

    /// Waits for the next message. `false` if it is a front-end's, which is left there. Else this
    /// daemon has taken over, and the connection is the front-end's own.
    pub fn next<F: ServedFs>(
        self,
        front_end: &mut FrontEnd<F>,
        control: &mut Control,
    ) -> io::Result<bool> {
        let offers = self.offers()?;
        if offers {
            self.take(front_end, control)?;
        }
        Ok(offers)
    }

    /// Waits for the next message, which is left there. Whether it is TAKE; else it is a
    /// front-end's. An error if the old daemon has refused this one.
    fn offers(self) -> io::Result<bool> {
        let mut head = [0; HEAD_LEN];
        let peeked = messages::receive(self.0, &mut [IoSliceMut::new(&mut head)], libc::MSG_PEEK)?;
        if peeked == 0 {
            return Err(io::Error::other("the old daemon has ended or left"));
        }
        match (peeked, Own::of(Head::of(&head).request)) {
            (HEAD_LEN, Some(Own::Take)) => Ok(true),
            (HEAD_LEN, Some(Own::Refused)) => match word(self.0)? {
                Word::Refused(why) => Err(io::Error::other(why)),
                _ => Err(io::Error::other("the old daemon has left")),
            },
            _ => Ok(false),
        }
    }

    fn take<F: ServedFs>(
        self,
        front_end: &mut FrontEnd<F>,
        control: &mut Control,
    ) -> io::Result<()> {
        let Offer { take, socket, kept, channel, life } = Offer::receive(self.0)?;
        if take.with & Take::LISTENER != 0 {
            return Err(io::Error::other("TAKE of a listener behind a front-end's messages"));
        }
        let old = replace(self.0, &socket)?;
        drop(socket);
        front_end.connect(self.0)?;
        confirm(old.as_raw_fd(), life.as_ref())?;
        control.adopt(kept);
        if let Some(channel) = channel {
            #[allow(clippy::cast_possible_truncation, reason = "there are few")]
            let unanswered = take.unanswered as usize;
            let memory = front_end.core().memory();
            if let Err(e) = memory.iommu().channel.adopt(channel, unanswered) {
                warn!("the back-end's channel: {e}");
            }
        }
        front_end.adopt(take.enabled, take.refused);
        control.process.serves(); // the old daemon ends after this
        Ok(())
    }
}

/// What comes with TAKE.
struct Offer {
    take: Take,
    /// The front-end's, or the one that a front-end will connect to.
    socket: OwnedFd,
    /// The control socket, and what the process has lent.
    kept: [Option<OwnedFd>; 3],
    /// The back-end's channel.
    channel: Option<OwnedFd>,
    /// A pipe that ends when the old daemon dies.
    life: Option<OwnedFd>,
}

impl Offer {
    fn receive(socket: RawFd) -> io::Result<Offer> {
        let mut bytes = [0; HEAD_LEN + Take::LEN];
        let received = receive(socket, &mut bytes, 0)?;
        let words: &[u8; Take::LEN] = bytes[HEAD_LEN..].try_into().map_err(io::Error::other)?;
        let (take, mut fds) = (Take::of(words), received.fds.into_iter());
        let mut sent = |is_sent: bool| if is_sent { fds.next() } else { None };
        let socket = sent(received.len == bytes.len());
        let socket = socket.ok_or_else(|| io::Error::other("TAKE without the front-end"))?;
        let [listener, number, channel, metrics, life] =
            [Take::CONTROL, Take::NUMBER, Take::CHANNEL, Take::METRICS, Take::LIFE]
                .map(|bit| sent(take.with & bit != 0));
        Ok(Offer { take, socket, kept: [listener, number, metrics], channel, life })
    }
}

/// Says that this daemon has all that it needs, and waits until the old one decides: after `Ok`
/// this one serves.
fn confirm(old: RawFd, life: Option<&OwnedFd>) -> io::Result<()> {
    send(old, &Head { request: Own::Taken as u32, flags: 0, size: 0 }.bytes(), &[])?;
    match word(old)? {
        Word::Go => Ok(()),
        Word::None if life.is_some_and(has_ended) => {
            warn!("the old daemon died, and this one serves");
            Ok(())
        }
        Word::None => Err(io::Error::other("the connection has ended")),
        Word::Refused(why) => Err(io::Error::other(why)),
    }
}

/// Gives the front-end's socket the number of the connection to the old daemon, which gets another:
/// crate vhost continues with that number, and with the features that were agreed on.
fn replace(number: RawFd, socket: &OwnedFd) -> io::Result<OwnedFd> {
    // SAFETY: no memory is touched. The number's owner, crate vhost, only uses it.
    let (old, replaced) = unsafe {
        let old = libc::fcntl(number, libc::F_DUPFD_CLOEXEC, 0);
        if old < 0 {
            return Err(io::Error::last_os_error());
        }
        let replaced = libc::dup3(socket.as_raw_fd(), number, libc::O_CLOEXEC);
        (OwnedFd::from_raw_fd(old), replaced)
    };
    if replaced < 0 {
        return Err(io::Error::last_os_error());
    }
    Ok(old)
}

/// Whether this pipe ends, in a while at most: a process that dies closes one descriptor after
/// another.
fn has_ended(life: &OwnedFd) -> bool {
    let ended = Epoll::new().and_then(|events| {
        let event = EpollEvent::new(EventSet::empty(), 0);
        events.ctl(ControlOperation::Add, life.as_raw_fd(), event)?;
        #[allow(clippy::cast_possible_truncation, reason = "it is a second")]
        events.wait(PATIENCE.as_millis() as i32, &mut [EpollEvent::default()])
    });
    ended.is_ok_and(|count| count > 0)
}

/// Waits for the old daemon's decision.
fn word(old: RawFd) -> io::Result<Word> {
    let mut head = [0; HEAD_LEN];
    match receive(old, &mut head, libc::MSG_WAITALL) {
        Ok(received) if received.len == HEAD_LEN => {}
        Err(e) if e.kind() == io::ErrorKind::Interrupted => return word(old),
        _ => return Ok(Word::None),
    }
    let head = Head::of(&head);
    match Own::of(head.request) {
        Some(Own::Go) => Ok(Word::Go),
        Some(Own::Refused) => {
            let mut why = vec![0; (head.size as usize).min(REASON_MAX)];
            let read = receive(old, &mut why, libc::MSG_WAITALL)?.len;
            Ok(Word::Refused(String::from_utf8_lossy(&why[..read]).into_owned()))
        }
        _ => Err(io::Error::other("a message that can't come now")),
    }
}
