//! The turns of the front-end's thread: messages of the front-end, and those of daemons that take
//! over.
use super::old::{give, give_listener, refuse, Kept};
use super::{Control, Next, Old, Waits, PAUSE, TRIES};
use crate::device::ServedFs;
use crate::front_end::FrontEnd;
use log::{debug, info, warn};
use std::io;
use std::os::fd::{OwnedFd, RawFd};
use std::sync::{Mutex, MutexGuard, PoisonError};

/// What the thread does next.
#[derive(Debug, PartialEq, Eq)]
pub enum Turn {
    /// It reads the front-end's next message, or lets a front-end connect.
    Message,
    /// It ends: another daemon serves.
    Replaced,
}

/// The thread's waits.
pub struct Turns<'t, F> {
    front_end: &'t Mutex<FrontEnd<F>>,
    control: Control,
    socket: RawFd,
    /// The daemon that this one takes over from, until it has.
    old: Option<Old>,
    waits: Option<Waits>,
}

impl<'t, F: ServedFs> Turns<'t, F> {
    /// The turns of a daemon whose front-end has this socket.
    pub fn new(
        front_end: &'t Mutex<FrontEnd<F>>,
        control: Control,
        socket: RawFd,
        old: Option<Old>,
    ) -> io::Result<Turns<'t, F>> {
        let mut turns = Turns { front_end, control, socket, old, waits: None };
        if old.is_none() {
            turns.begin()?;
        }
        Ok(turns)
    }

    fn begin(&mut self) -> io::Result<()> {
        let prepared = self.front_end().prepared();
        self.waits = Waits::new(&self.control, self.socket, Some(prepared))?;
        Ok(())
    }

    fn front_end(&self) -> MutexGuard<'t, FrontEnd<F>> {
        self.front_end.lock().unwrap_or_else(PoisonError::into_inner)
    }

    /// Whether this daemon serves the guest.
    pub fn serves(&self) -> bool {
        self.old.is_none()
    }

    /// Waits for the next turn.
    #[allow(clippy::should_implement_trait, reason = "it has no end as an iterator has")]
    pub fn next(&mut self) -> io::Result<Turn> {
        if let Some(old) = self.old {
            if !old.next(&mut self.front_end(), &mut self.control)? {
                return Ok(Turn::Message);
            }
            info!("the guest is taken over from another daemon");
            self.old = None;
            if let Err(e) = self.begin() {
                warn!("no other daemon can take over: {e}");
            }
        }
        loop {
            let Some(waits) = &mut self.waits else { return Ok(Turn::Message) };
            let is_ready = match waits.next()? {
                Next::FrontEnd => return Ok(Turn::Message),
                Next::Ready(socket, record) => self.choose(socket, &record),
                Next::Prepared => true,
                Next::Left => self.leave("it has ended"),
                Next::Late => self.try_again(),
            };
            if is_ready && self.give() {
                return Ok(Turn::Replaced);
            }
        }
    }

    /// A daemon is ready. Returns whether the state is prepared already.
    fn choose(&mut self, socket: OwnedFd, record: &str) -> bool {
        let Some(waits) = &mut self.waits else { return false };
        let mut front_end = self.front_end.lock().unwrap_or_else(PoisonError::into_inner);
        let why = match (self.control.refuses(record), front_end.keeps_daemon()) {
            (Some(why), _) => Some(why),
            (None, Some(why)) => Some(why.into()),
            (None, None) => waits.has_chosen().then(|| "another daemon takes over already".into()),
        };
        if let Some(why) = why {
            warn!("a daemon that would take over is refused: {why}");
            refuse(socket, &why);
            return false;
        }
        if let Err(e) = waits.choose(socket, 1, None) {
            warn!("no other daemon can take over: {e}");
            return false;
        }
        let (begun, is_prepared) = (front_end.prepare(), front_end.is_prepared());
        drop(front_end);
        self.is_ready(begun, is_prepared)
    }

    /// Whether the state for the chosen daemon is prepared. If its preparation couldn't begin, that
    /// daemon is tried again in a moment.
    fn is_ready(&mut self, begun: Result<(), String>, is_prepared: Option<bool>) -> bool {
        let Err(why) = begun else { return is_prepared == Some(true) };
        if let Some(chosen) = self.waits.as_mut().and_then(Waits::take_chosen) {
            self.postpone(chosen.socket, chosen.tries, &why);
        }
        false
    }

    /// A pause is over, or the state isn't prepared in time. Returns whether it is prepared.
    fn try_again(&mut self) -> bool {
        if !self.waits.as_mut().is_some_and(Waits::resume_chosen) {
            return self.leave(
                "the guest's state isn't prepared in time: the host may hold a call for it",
            );
        }
        let mut front_end = self.front_end();
        let (begun, is_prepared) = (front_end.prepare(), front_end.is_prepared());
        drop(front_end);
        self.is_ready(begun, is_prepared)
    }

    /// The chosen daemon doesn't take over.
    fn leave(&mut self, why: &str) -> bool {
        if let Some(chosen) = self.waits.as_mut().and_then(Waits::take_chosen) {
            warn!("a daemon doesn't take over: {why}");
            refuse(chosen.socket, why);
            self.front_end().stay();
        }
        false
    }

    /// Gives all to the chosen daemon, if there is one and the state is prepared. Returns whether
    /// it serves from here on.
    fn give(&mut self) -> bool {
        let is_prepared = self.front_end().is_prepared();
        if !self.waits.as_ref().is_some_and(Waits::prepares) {
            return false;
        }
        match is_prepared {
            Some(true) => {}
            Some(false) => return false,
            None => return self.leave("a migration has begun or ended meanwhile: try it again"),
        }
        let Some(heir) = self.waits.as_mut().and_then(Waits::take_chosen) else { return false };
        let mut front_end = self.front_end();
        if let Some(why) = front_end.keeps_daemon() {
            refuse(heir.socket, why);
            return false;
        }
        match give(&mut front_end, &self.control, (self.socket, heir.socket), heir.tries) {
            Ok(()) => return true,
            Err(Kept::Now(socket, why)) => self.postpone(socket, heir.tries, &why),
            Err(Kept::ForGood(why)) => {
                warn!("a daemon doesn't take over, and this one continues: {why}");
            }
        }
        false
    }

    /// Tries it again in a moment, for this reason, unless it was tried often.
    fn postpone(&mut self, socket: OwnedFd, tries: u32, why: &str) {
        let Some(waits) = &mut self.waits else { return };
        if tries == TRIES {
            warn!("a daemon doesn't take over, and this one continues: {why}");
            return refuse(socket, why);
        }
        debug!("a daemon doesn't take over yet: {why}");
        if let Err(e) = waits.choose(socket, tries + 1, Some(PAUSE)) {
            warn!("no other daemon can take over: {e}");
        }
    }
}

/// Waits until a front-end connects to this listener, or another daemon has taken the listener over
/// and waits there.
pub fn wait_for_front_end(listener: RawFd, control: &Control) -> io::Result<Turn> {
    let Some(mut waits) = Waits::new(control, listener, None)? else { return Ok(Turn::Message) };
    loop {
        match waits.next()? {
            Next::FrontEnd => return Ok(Turn::Message),
            Next::Ready(heir, record) => match control.refuses(&record) {
                Some(why) => {
                    warn!("a daemon that would take over is refused: {why}");
                    refuse(heir, &why);
                }
                None => match give_listener(listener, control, heir) {
                    Ok(()) => return Ok(Turn::Replaced),
                    Err(why) => {
                        warn!("a daemon doesn't take over, and this one continues: {why}");
                    }
                },
            },
            Next::Prepared | Next::Left | Next::Late => {}
        }
    }
}
