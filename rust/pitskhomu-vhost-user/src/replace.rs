//! The daemon is replaced while its guest runs: a new process takes over from the one that serves.
//!
//! The old daemon is the vhost-user front-end of the new one. It repeats to it the front-end's own
//! messages, sends the state as in a migration, and at last the front-end's socket. So the new
//! daemon checks all of it as it checks a front-end, and loads the state as after a migration. The
//! old one:
//!
//! 1. gets READY by the control socket, with the new one's options ([`Process::record`]), and
//!    refuses it or prepares its state;
//! 2. repeats features, memory and rings, while the guest runs;
//! 3. disables its rings, which wait for the chains in flight, and sends positions and state;
//! 4. sends TAKE with the front-end's socket, the control socket, the PID file and the channel of
//!    the IOMMU. The new one makes all ready, and answers TAKEN;
//! 5. decides, and sends GO or REFUSED. After GO it only ends.
//!
//! Only the old one decides, and the new one obeys: it serves after GO, or if the old one died
//! after TAKE (a pipe of its own has ended); else it ends. So at most one of them has its rings
//! enabled. Before GO any failure, or the death of the new one, has the old one enable its rings
//! again.
//!
//! If no front-end has connected yet, step 4 follows READY at once, with the socket that a
//! front-end will connect to.
//!
//! No kick is lost: no daemon reads the counter of the driver's event, and a ring that is enabled
//! looks for chains. An interrupt may be owed, so the new one interrupts each driver once. Messages
//! of the front-end wait in its socket meanwhile.
mod control;
mod new;
mod old;
mod successor;
mod take;
mod turns;
mod waits;
mod wire;

pub use control::{bind, connect, Control, Process};
pub use new::Old;
pub use turns::{wait_for_front_end, Turn, Turns};
pub use waits::{Next, Waits};

use std::time::Duration;

/// A message between two daemons, which no front-end sends.
#[derive(Debug, Clone, Copy, PartialEq, Eq)]
#[repr(u32)]
pub enum Own {
    /// The new daemon may serve from here on, once the old one says GO.
    Take = 0x504b_0001,
    /// The new daemon has all that it needs.
    Taken,
    /// The old daemon serves no more.
    Go,
    /// The old daemon continues, for the reason that follows.
    Refused,
}

impl Own {
    /// The message with this number.
    pub fn of(request: u32) -> Option<Own> {
        [Own::Take, Own::Taken, Own::Go, Own::Refused]
            .into_iter()
            .find(|own| *own as u32 == request)
    }
}

/// How long the new daemon has for all its answers before the pause, and for those of the pause.
const PATIENCE: Duration = Duration::from_secs(1);
/// How long the old daemon waits, when it serves no more, until the new one has told systemd which
/// process serves. systemd ends a service with its main process.
const LAST_PATIENCE: Duration = Duration::from_secs(5);
/// A state takes longer by this for each of so many bytes.
const PATIENCE_BYTES: u64 = 1 << 20;
/// How long the guest's state may be prepared, while the guest runs.
const PREPARATION: Duration = Duration::from_secs(if cfg!(test) { 2 } else { 20 });
/// How often a daemon is tried that may succeed in a moment, and the pause between two tries: the
/// guest forgets a file that it has removed, and a call of the host's ends.
const TRIES: u32 = 6;
const PAUSE: Duration = Duration::from_millis(200);
