//! A front-end that another daemon takes over.
use super::FrontEnd;
use crate::device::{Core, ServedFs};
use crate::ring::{Patience, Ring};
use log::debug;
use std::fs::File;
use std::io;
use std::os::fd::{AsRawFd, OwnedFd, RawFd};
use std::sync::Arc;
use std::time::Instant;
use vhost::vhost_user::message::VhostUserVirtioFeatures;

/// What the front-end has agreed on.
#[derive(Debug)]
pub struct Agreed {
    /// The device's features, without that of a log; 0 if the device never began.
    pub features: u64,
    /// The protocol's features.
    pub protocol: u64,
    /// The log of written pages: its file, offset and length, while the guest migrates.
    pub log: Option<(OwnedFd, u64, u64)>,
    /// Pages are to be logged.
    pub logs: bool,
}

impl<F: ServedFs> FrontEnd<F> {
    /// The device that it uses.
    pub fn core(&self) -> &Arc<Core<F>> {
        &self.core
    }

    /// What it has agreed on.
    pub fn agreed(&self) -> io::Result<Agreed> {
        let log = self.log.as_ref().map(|log| log.sent()).transpose()?;
        let features = self.features & !VhostUserVirtioFeatures::LOG_ALL.bits();
        Ok(Agreed { features, protocol: self.protocol, log, logs: self.logs() })
    }

    /// Why the daemon can't be replaced now, if so.
    pub fn keeps_daemon(&self) -> Option<&'static str> {
        let protocol = VhostUserVirtioFeatures::PROTOCOL_FEATURES.bits();
        if !self.core.fs.moves() {
            return Some("its file system's state doesn't move");
        }
        if self.migration.is_under_way() {
            return Some("a state is being saved or loaded: try it again after that");
        }
        let is_old = self.features != 0 && self.features & protocol == 0;
        is_old.then_some("its front-end lacks the protocol's features")
    }

    /// The event that a prepared state has.
    pub fn prepared(&self) -> RawFd {
        self.migration.prepared.as_raw_fd()
    }

    /// Begins to prepare the state, unless it is prepared already. An error says why it can't: an
    /// earlier state must be forgotten first. Then a save prepares the state.
    pub fn prepare(&mut self) -> Result<(), String> {
        if self.migration.is_to_forget() {
            self.forget()?;
        }
        self.migration.prepare();
        Ok(())
    }

    /// Forgets an earlier state, while the rings are disabled for a moment. virtiofsd's file system
    /// forgets one with all its nodes locked, and a RENAME that is made meanwhile would wait for
    /// ever, and so would all other requests.
    fn forget(&mut self) -> Result<(), String> {
        let is_enabled: Vec<bool> = self.core.rings.iter().map(Ring::is_enabled).collect();
        let forgotten = match self.stop_rings(&is_enabled) {
            Some(held) => Err(format!("the host holds a call of the guest's: {held}")),
            None if self.migration.forget() => Ok(()),
            None => Err("an earlier state is being prepared yet".into()),
        };
        self.restart_rings(&is_enabled);
        forgotten
    }

    /// Whether the state is prepared: `None` if nobody prepares it any more.
    pub fn is_prepared(&self) -> Option<bool> {
        self.migration.is_prepared()
    }

    /// Begins to prepare the state of a guest that migrates.
    pub fn prepare_to_migrate(&mut self) {
        if let Err(why) = self.prepare() {
            debug!("the state is prepared when the guest stops: {why}");
        }
    }

    /// The guest stays. If it migrates, its state is prepared for that.
    pub fn stay(&mut self) {
        if self.logs() {
            self.prepare_to_migrate();
        } else {
            self.migration.cancel();
        }
    }

    /// Disables these rings. Returns the calls that the host holds, if it holds some.
    pub fn stop_rings(&mut self, is_enabled: &[bool]) -> Option<String> {
        let (memory, patience) = (self.core.memory(), Patience::new());
        for (ring, _) in
            self.core.rings.iter().zip(is_enabled).filter(|(_, is_enabled)| **is_enabled)
        {
            ring.enable(false, &mut self.worker, &memory, patience);
        }
        self.core.held_calls()
    }

    /// Enables them again.
    pub fn restart_rings(&mut self, is_enabled: &[bool]) {
        let memory = self.core.memory();
        for (ring, _) in
            self.core.rings.iter().zip(is_enabled).filter(|(_, is_enabled)| **is_enabled)
        {
            ring.enable(true, &mut self.worker, &memory, Patience::new());
        }
    }

    /// Saves the state to a file, and returns its length. The rings are disabled.
    pub fn save(&mut self, pipe: &File, end: Instant) -> io::Result<u64> {
        use std::io::Seek;
        let mut pipe = pipe;
        pipe.set_len(0)?;
        pipe.rewind()?;
        self.migration.save(pipe.try_clone()?);
        self.migration.finish_until(Some(end))?;
        let len = pipe.stream_position()?;
        pipe.rewind()?;
        Ok(len)
    }

    /// Takes over from another daemon: bits say which rings ran there, and which were refused.
    pub fn adopt(&mut self, is_enabled: u64, is_refused: u64) {
        let memory = self.core.memory();
        for (index, ring) in self.core.rings.iter().enumerate() {
            let has = |bits: u64| bits >> index & 1 != 0;
            ring.adopt((has(is_enabled), has(is_refused)), &mut self.worker, &memory);
        }
    }
}
