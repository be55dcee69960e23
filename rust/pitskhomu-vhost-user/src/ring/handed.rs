//! A ring that another daemon takes over.
use super::{Numbers, Ring, Server};
use crate::memory::Table;
use crate::notifier::Notifier;
use crate::ring::Patience;
use std::fs::File;
use std::io;
use std::os::fd::OwnedFd;
use std::sync::Arc;

/// All that the front-end has said of a ring, with descriptors of its own.
#[derive(Debug)]
#[allow(clippy::struct_excessive_bools, reason = "as in the ring's state")]
pub struct Handed {
    /// Its numbers. The position is final once the ring is disabled with no chain in flight.
    pub numbers: Numbers,
    /// From `SET_VRING_KICK` to `GET_VRING_BASE`.
    pub is_started: bool,
    /// Set by `SET_VRING_ENABLE`.
    pub is_enabled: bool,
    /// The library refused it.
    pub is_refused: bool,
    /// The driver's event.
    pub kick: Option<OwnedFd>,
    /// The event that interrupts the driver.
    pub call: Option<OwnedFd>,
    /// The event by which the front-end is notified of a refusal.
    pub err: Option<OwnedFd>,
}

impl Ring {
    /// Whether the front-end has enabled it.
    pub fn is_enabled(&self) -> bool {
        self.lock().is_enabled
    }

    /// All that the front-end has said of the ring.
    pub fn handed(&self) -> io::Result<Handed> {
        let state = self.lock();
        Ok(Handed {
            numbers: state.numbers,
            is_started: state.is_started,
            is_enabled: state.is_enabled,
            is_refused: state.is_refused,
            kick: state.kick().map(File::try_clone).transpose()?.map(OwnedFd::from),
            call: state.call.as_ref().map(|call| call.descriptor()).transpose()?,
            err: state.err.as_ref().map(Notifier::descriptor).transpose()?,
        })
    }

    /// The ring was served by another daemon until now: it runs if it ran there, and is refused if
    /// it was. The driver is interrupted once, since the other daemon may have owed an interrupt.
    pub fn adopt(
        &self,
        (is_enabled, is_refused): (bool, bool),
        server: &mut impl Server,
        memory: &Arc<Table>,
    ) {
        {
            let mut state = self.lock();
            state.is_refused = is_refused;
            if state.is_started {
                state.notify();
            }
        }
        if is_enabled {
            self.enable(true, server, memory, Patience::new());
        }
    }
}
