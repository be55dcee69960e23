//! The channel of the back-end's own (`SET_BACKEND_REQ_FD`): misses go out, and each is
//! acknowledged after the update that it led to has come by the front-end's socket. Crate vhost has
//! no such message, so it is written here.
use log::{debug, warn};
use pitskhomu::{Access, Iotlb, Miss};
use std::collections::VecDeque;
use std::io::{self, ErrorKind, IoSlice, IoSliceMut};
use std::iter::Peekable;
use std::os::fd::{AsRawFd, OwnedFd};
use std::sync::atomic::{AtomicBool, AtomicU64, Ordering};
use std::sync::{Arc, Condvar, Mutex, MutexGuard, PoisonError};
use std::thread;
use std::time::{Duration, Instant};
use vmm_sys_util::epoll::{ControlOperation, Epoll, EpollEvent, EventSet};

use super::messages::{flags, receive, send, Head, IotlbBody, HEAD_LEN, MISS};

/// How long a pop waits for the answers to its misses.
const PATIENCE: Duration = Duration::from_secs(2);
/// The time for which no miss is sent after a message that stops a ring. QEMU stops all rings of a
/// device one after another, refuses each miss that it reads then, and complains of it.
const QUIET: Duration = Duration::from_millis(200);
/// So many misses are asked for before the first is answered.
const MOST_ASKED: usize = 64;
/// So many pages are asked for before the pop is made again: a READ and its reply have 514. A guest
/// may have descriptors of any length.
const MOST_PAGES: usize = 1024;
/// A front-end that leaves so many without an answer has none: answers come in order, and nothing
/// tells which are left out.
const MOST_UNANSWERED: usize = 4096;
/// `VHOST_USER_BACKEND_IOTLB_MSG`.
const BACKEND_IOTLB_MSG: u32 = 1;

/// A reply: its head and a number.
const REPLY_LEN: usize = HEAD_LEN + 8;

/// Whether a ring's threads wait for answers.
#[derive(Debug, Default)]
pub struct Cancel {
    is_set: AtomicBool,
    /// The number of times that it was set: a thread may look only after it was reset.
    count: AtomicU64,
}

impl Cancel {
    /// They do from here on.
    pub fn resume(&self) {
        self.is_set.store(false, Ordering::Release);
    }

    fn set(&self) {
        self.is_set.store(true, Ordering::Release);
        self.count.fetch_add(1, Ordering::AcqRel);
    }

    fn count(&self) -> u64 {
        self.count.load(Ordering::Acquire)
    }

    /// Whether they don't.
    pub fn is_set(&self) -> bool {
        self.is_set.load(Ordering::Acquire)
    }

    fn is_set_since(&self, count: u64) -> bool {
        self.is_set() || self.count() != count
    }
}

/// The front-end's answer to a miss.
#[derive(Debug, Clone, Copy, PartialEq, Eq)]
enum Answer {
    None,
    Good,
    Refused,
    /// The channel ended before.
    Lost,
}

/// A page that was asked for. Several threads may wait for it.
#[derive(Debug)]
struct Ask {
    page: u64,
    access: Access,
    /// The channel's epoch.
    epoch: u64,
    sent: Instant,
    /// It changes under the channel's lock.
    answer: Mutex<Answer>,
}

impl Ask {
    /// One of the daemon before, in an epoch that this one doesn't have.
    fn of_another() -> Ask {
        let (access, answer) = (Access::None, Mutex::new(Answer::None));
        Ask { page: 0, access, epoch: 0, sent: Instant::now(), answer }
    }

    fn answer(&self) -> Answer {
        *self.answer.lock().unwrap_or_else(PoisonError::into_inner)
    }

    fn is_fresh(&self) -> bool {
        self.sent.elapsed() < PATIENCE
    }

    fn set(&self, answer: Answer) {
        *self.answer.lock().unwrap_or_else(PoisonError::into_inner) = answer;
    }
}

/// The channel as it is.
#[derive(Debug, Default)]
struct State {
    socket: Option<OwnedFd>,
    /// What was sent, and isn't acknowledged yet, in this order.
    asked: VecDeque<Arc<Ask>>,
    /// The bytes of a reply that has come in part.
    part: Vec<u8>,
    /// Where the reading thread waits, once it runs.
    events: Option<Arc<Epoll>>,
    /// No miss is sent until then.
    quiet: Option<Instant>,
    /// Another daemon may take the channel over: nothing is read from it.
    is_lent: bool,
}

/// The channel, if the front-end has one.
#[derive(Debug, Default)]
pub struct Channel {
    state: Mutex<State>,
    /// An ask was answered or cancelled, or the channel has changed.
    changed: Condvar,
    /// The number of times that the device began. QEMU refuses each miss that it reads while the
    /// device is stopped. So the answer to an ask of an earlier epoch isn't used.
    epoch: AtomicU64,
}

impl State {
    /// The channel has ended, or is broken: nobody waits for its answers.
    fn lose(&mut self) {
        if let (Some(socket), Some(events)) = (self.socket.take(), &self.events) {
            let none = EpollEvent::default();
            let _ = events.ctl(ControlOperation::Delete, socket.as_raw_fd(), none);
        }
        self.part.clear();
        self.asked.drain(..).for_each(|ask| ask.set(Answer::Lost));
    }

    /// Sends a miss, unless that would have to wait.
    fn send(&mut self, page: u64, access: Access, epoch: u64) -> Option<Arc<Ask>> {
        let socket = self.socket.as_ref()?.as_raw_fd();
        if self.asked.iter().rev().take(MOST_ASKED).filter(|ask| ask.is_fresh()).count()
            == MOST_ASKED
        {
            return None;
        }
        if self.asked.len() >= MOST_UNANSWERED {
            self.lose();
            return None;
        }
        let head = Head { request: BACKEND_IOTLB_MSG, flags: flags::NEED_REPLY, size: 0 };
        let body = IotlbBody { iova: page, size: Iotlb::PAGE, user: 0, access, kind: MISS };
        let (head, body) = (head.with_size(IotlbBody::LEN).bytes(), body.bytes());
        match send(socket, &[IoSlice::new(&head), IoSlice::new(&body)], libc::MSG_DONTWAIT) {
            Ok(len) if len == HEAD_LEN + IotlbBody::LEN => {
                let (sent, answer) = (Instant::now(), Mutex::new(Answer::None));
                let ask = Arc::new(Ask { page, access, epoch, sent, answer });
                self.asked.push_back(ask.clone());
                return Some(ask);
            }
            Err(e) if e.kind() == ErrorKind::WouldBlock => {}
            sent => {
                debug!("the back-end's channel has ended: {sent:?}");
                self.lose();
            }
        }
        None
    }

    /// The time until misses may be sent.
    fn quiet_time(&self) -> Duration {
        self.quiet.map_or(Duration::ZERO, |end| end.saturating_duration_since(Instant::now()))
    }

    /// An ask of a moment ago that needs no less.
    fn shared(&self, page: u64, access: Access, epoch: u64) -> Option<Arc<Ask>> {
        let is_same = |ask: &&Arc<Ask>| {
            (ask.page, ask.epoch) == (page, epoch)
                && ask.access.or(access) == ask.access
                && ask.is_fresh()
        };
        self.asked.iter().rev().take(MOST_ASKED).find(is_same).cloned()
    }

    /// Takes the replies that have come. An error ends the channel.
    fn read(&mut self) -> io::Result<()> {
        while let Some(socket) = &self.socket {
            let mut bytes = [0; REPLY_LEN];
            let wanted = REPLY_LEN - self.part.len();
            let into = &mut [IoSliceMut::new(&mut bytes[..wanted])];
            match receive(socket.as_raw_fd(), into, libc::MSG_DONTWAIT) {
                Ok(0) => return Err(ErrorKind::UnexpectedEof.into()),
                Ok(len) => self.part.extend_from_slice(&bytes[..len]),
                Err(e) if e.kind() == ErrorKind::WouldBlock => return Ok(()),
                Err(e) if e.kind() == ErrorKind::Interrupted => {}
                Err(e) => return Err(e),
            }
            if self.part.len() == REPLY_LEN {
                self.take_reply()?;
                self.part.clear();
            }
        }
        Ok(())
    }

    fn take_reply(&mut self) -> io::Result<()> {
        let (head, number) = self.part.split_at(HEAD_LEN);
        let head = Head::of(head);
        let is_reply = head.request == BACKEND_IOTLB_MSG
            && head.flags & flags::REPLY != 0
            && head.size as usize == number.len();
        let ask = if is_reply { self.asked.pop_front() } else { None };
        let ask = ask.ok_or_else(|| io::Error::other("a reply to nothing that was asked"))?;
        let is_good = number.iter().all(|byte| *byte == 0);
        ask.set(if is_good { Answer::Good } else { Answer::Refused });
        Ok(())
    }
}

/// The pages of misses, each with what it is needed for.
fn pages(misses: &[Miss]) -> impl Iterator<Item = (u64, Access)> + '_ {
    misses.iter().flat_map(|miss| {
        let count = miss.len / Iotlb::PAGE;
        (0..count).map(move |k| (miss.iova.wrapping_add(k * Iotlb::PAGE), miss.access))
    })
}

impl Channel {
    fn lock(&self) -> MutexGuard<'_, State> {
        self.state.lock().unwrap_or_else(PoisonError::into_inner)
    }

    /// Misses go by this socket from here on.
    pub fn set(self: &Arc<Channel>, socket: OwnedFd) -> io::Result<()> {
        self.set_with(socket, |_| {})
    }

    fn set_with(
        self: &Arc<Channel>,
        socket: OwnedFd,
        expect: impl FnOnce(&mut State),
    ) -> io::Result<()> {
        let mut state = self.lock();
        state.lose();
        expect(&mut state);
        if state.events.is_none() {
            let events = Arc::new(Epoll::new()?);
            let (channel, heard) = (self.clone(), events.clone());
            thread::Builder::new().name("IOMMU".into()).spawn(move || channel.listen(&heard))?;
            state.events = Some(events);
        }
        if let Some(events) = &state.events {
            let event = EpollEvent::new(EventSet::IN, 0);
            events.ctl(ControlOperation::Add, socket.as_raw_fd(), event)?;
        }
        state.socket = Some(socket);
        self.changed.notify_all();
        Ok(())
    }

    /// The channel for a daemon that may take it over: another descriptor of its socket, and how
    /// many asks the front-end hasn't answered yet. Nothing is read until `take_back`.
    pub fn lend(&self) -> io::Result<Option<(OwnedFd, usize)>> {
        let mut state = self.lock();
        let Some(socket) = &state.socket else { return Ok(None) };
        if !state.part.is_empty() {
            return Err(io::Error::other("a part of the IOMMU's answer is still to come"));
        }
        if let Some(events) = &state.events {
            let none = EpollEvent::default();
            events.ctl(ControlOperation::Delete, socket.as_raw_fd(), none)?;
        }
        let lent = (socket.try_clone()?, state.asked.len());
        state.is_lent = true;
        Ok(Some(lent))
    }

    /// The other daemon doesn't take it over.
    pub fn take_back(&self) -> io::Result<()> {
        let mut state = self.lock();
        if std::mem::take(&mut state.is_lent) {
            if let (Some(socket), Some(events)) = (&state.socket, &state.events) {
                let event = EpollEvent::new(EventSet::IN, 0);
                events.ctl(ControlOperation::Add, socket.as_raw_fd(), event)?;
            }
        }
        Ok(())
    }

    /// Takes over the channel of another daemon, to whose last `unanswered` asks the front-end's
    /// answers are still to come: nobody waits for them here.
    pub fn adopt(self: &Arc<Channel>, socket: OwnedFd, unanswered: usize) -> io::Result<()> {
        self.set_with(socket, |state| {
            let asks = (0..unanswered.min(MOST_UNANSWERED)).map(|_| Arc::new(Ask::of_another()));
            state.asked.extend(asks);
        })
    }

    /// What the reading thread does; it ends with the process.
    fn listen(&self, events: &Epoll) {
        loop {
            match events.wait(-1, &mut [EpollEvent::default()]) {
                Err(e) if e.kind() == ErrorKind::Interrupted => continue,
                Err(e) => {
                    warn!("the back-end's channel isn't heard any more: {e}");
                    self.lock().lose();
                    return self.changed.notify_all();
                }
                Ok(_) => {}
            }
            let mut state = self.lock();
            if state.is_lent {
                continue; // `lend` has removed the socket from the events
            }
            if let Err(e) = state.read() {
                debug!("the back-end's channel has ended: {e}");
                state.lose();
            }
            self.changed.notify_all();
        }
    }

    /// From here on nobody waits for answers with this.
    pub fn cancel(&self, cancel: &Cancel) {
        cancel.set();
        let _state = self.lock(); // who has looked at it already waits by now
        self.changed.notify_all();
    }

    /// The device stops, it seems: for a while no miss is sent.
    pub fn hush(&self) {
        self.lock().quiet = Some(Instant::now() + QUIET);
    }

    /// The device begins: no thread waits for an answer to an earlier ask.
    pub fn begin(&self) {
        self.epoch.fetch_add(1, Ordering::AcqRel);
        self.lock().quiet = None;
        self.changed.notify_all();
    }

    /// The number of times that the device began.
    pub fn epoch(&self) -> u64 {
        self.epoch.load(Ordering::Acquire)
    }

    /// An update has come: what it maps may be waited for.
    pub fn wake(&self) {
        let _state = self.lock();
        self.changed.notify_all();
    }

    /// Asks for pages, several at once, and waits for the answers. Returns the pages that are
    /// refused; `None` if not all are answered in time. What `is_known` isn't waited for: an update
    /// comes before its acknowledgement, and may have more pages than the one that was missed. If
    /// the device begins meanwhile, no page is refused.
    pub fn ask(
        &self,
        misses: &[Miss],
        cancel: &Cancel,
        is_known: impl Fn(u64) -> bool,
    ) -> Option<Vec<u64>> {
        let end = Instant::now() + PATIENCE;
        let mut state = self.lock();
        let mut asking = Asking::new(misses, self.epoch());
        let cancelled = cancel.count();
        loop {
            if self.epoch() != asking.epoch {
                return Some(Vec::new());
            }
            let quiet = state.quiet_time();
            let is_cancelled = cancel.is_set_since(cancelled);
            if quiet.is_zero() && !is_cancelled {
                asking.send(&mut state, &is_known);
            }
            asking.take_answers(&is_known);
            if asking.is_done() {
                return Some(asking.refused);
            }
            let left = end.saturating_duration_since(Instant::now());
            if left.is_zero() {
                warn!("the front-end doesn't answer what an I/O address means");
            }
            if left.is_zero() || is_cancelled || state.socket.is_none() || asking.is_lost() {
                return None;
            }
            let time = if quiet.is_zero() { left } else { left.min(quiet) };
            let changed = self.changed.wait_timeout(state, time);
            state = changed.unwrap_or_else(PoisonError::into_inner).0;
        }
    }
}

/// What a thread asks for at once.
struct Asking<'m> {
    wanted: Peekable<Box<dyn Iterator<Item = (u64, Access)> + 'm>>,
    sent: Vec<Arc<Ask>>,
    refused: Vec<u64>,
    epoch: u64,
}

impl<'m> Asking<'m> {
    fn new(misses: &'m [Miss], epoch: u64) -> Asking<'m> {
        let pages: Box<dyn Iterator<Item = (u64, Access)> + 'm> =
            Box::new(pages(misses).take(MOST_PAGES));
        Asking { wanted: pages.peekable(), sent: Vec::new(), refused: Vec::new(), epoch }
    }

    /// Sends as many as may be.
    fn send(&mut self, state: &mut State, is_known: &impl Fn(u64) -> bool) {
        while let Some(&(page, access)) = self.wanted.peek() {
            if !is_known(page) {
                let ask = state
                    .shared(page, access, self.epoch)
                    .or_else(|| state.send(page, access, self.epoch));
                let Some(ask) = ask else { return };
                self.sent.push(ask);
            }
            self.wanted.next();
        }
    }

    fn take_answers(&mut self, is_known: &impl Fn(u64) -> bool) {
        let refused = &mut self.refused;
        self.sent.retain(|ask| match ask.answer() {
            Answer::None => !is_known(ask.page),
            Answer::Good => false,
            Answer::Refused => {
                refused.push(ask.page);
                false
            }
            Answer::Lost => true,
        });
    }

    fn is_done(&mut self) -> bool {
        self.wanted.peek().is_none() && self.sent.is_empty()
    }

    fn is_lost(&self) -> bool {
        self.sent.iter().any(|ask| ask.answer() == Answer::Lost)
    }
}

#[cfg(test)]
mod tests {
    use super::*;
    use std::io::{Read, Write};
    use std::os::unix::net::UnixStream;

    /// A daemon that is replaced while an ask is unanswered: the next one ignores that answer.
    #[test]
    fn another_daemon_ignores_answers_to_the_one_before() {
        let (old, new) = (Arc::new(Channel::default()), Arc::new(Channel::default()));
        let (ours, mut theirs) = UnixStream::pair().expect("a channel");
        let answer = |good: u64| {
            let head = Head { request: BACKEND_IOTLB_MSG, flags: flags::REPLY, size: 8 };
            [&head.bytes()[..], &good.to_ne_bytes()].concat()
        };
        let misses = [Miss { iova: 0x5000, len: 0x1000, access: Access::Read }];
        new.begin();
        old.set(ours.into()).expect("a channel");
        let cancel = Cancel::default();
        thread::scope(|scope| {
            let asks = scope.spawn(|| old.ask(&misses, &cancel, |_| false));
            theirs.read_exact(&mut [0; HEAD_LEN + IotlbBody::LEN]).expect("an ask");
            old.cancel(&cancel);
            assert_eq!(asks.join().expect("an end"), None);
        });
        let (socket, unanswered) = old.lend().expect("lent").expect("a channel");
        assert_eq!(unanswered, 1);
        theirs.write_all(&answer(1)).expect("an answer to the old one"); // a refusal
        thread::sleep(QUIET / 4);
        assert_eq!(old.lock().asked.len(), 1, "a lent channel is read");
        new.adopt(socket, unanswered).expect("taken over");
        thread::scope(|scope| {
            let asks = scope.spawn(|| new.ask(&misses, &Cancel::default(), |_| false));
            theirs.read_exact(&mut [0; HEAD_LEN + IotlbBody::LEN]).expect("an ask");
            theirs.write_all(&answer(0)).expect("an answer");
            assert_eq!(asks.join().expect("an end"), Some(Vec::new()), "another's refusal");
        });
        assert!(new.lock().asked.is_empty() && new.lock().socket.is_some());
    }

    #[test]
    fn a_channel_that_comes_back_is_read_again() {
        let channel = Arc::new(Channel::default());
        let (ours, theirs) = UnixStream::pair().expect("a channel");
        channel.set(ours.into()).expect("a channel");
        drop(channel.lend().expect("lent"));
        channel.take_back().expect("taken back");
        drop(theirs);
        let end = Instant::now() + PATIENCE;
        while channel.lock().socket.is_some() {
            assert!(Instant::now() < end, "the end isn't seen");
            thread::sleep(QUIET / 20);
        }
        assert!(channel.lend().expect("none").is_none());
    }

    #[test]
    fn nothing_is_asked_while_the_device_stops() {
        let (channel, misses) = (
            Arc::new(Channel::default()),
            [Miss { iova: 0x5000, len: 0x1000, access: Access::Read }],
        );
        let (ours, mut theirs) = UnixStream::pair().expect("a channel");
        channel.set(ours.into()).expect("a channel");
        theirs.set_nonblocking(true).expect("a socket");
        let mut is_asked = || theirs.read(&mut [0; 64]).is_ok();
        let cancel = Cancel::default();
        channel.cancel(&cancel);
        assert_eq!(channel.ask(&misses, &cancel, |_| false), None);
        assert!(!is_asked(), "an ask that is cancelled");
        cancel.resume();
        channel.hush();
        thread::scope(|scope| {
            let asks = scope.spawn(|| channel.ask(&misses, &cancel, |_| false));
            thread::sleep(QUIET / 4);
            assert!(!is_asked(), "an ask while the device stops");
            let end = Instant::now() + PATIENCE / 2;
            while !is_asked() {
                assert!(Instant::now() < end, "no ask after that");
                thread::yield_now();
            }
            channel.cancel(&cancel);
            assert_eq!(asks.join().expect("an end"), None);
        });
    }
}
