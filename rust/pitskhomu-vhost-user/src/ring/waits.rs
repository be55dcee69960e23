//! The waits of messages that end something for a ring's chains. Each is bounded: a message that
//! waited for a call of the host would keep QEMU's monitor waiting. The ring's threads and other
//! rings continue meanwhile.
use super::{Ring, State};
use crate::in_flight::Doing;
use crate::memory::Table;
use log::warn;
use pitskhomu::live::{Locked, Queued as _};
use std::sync::atomic::Ordering;
use std::sync::{Arc, MutexGuard};
use std::time::{Duration, Instant};

/// The time that a state waits for calls, and the end of the daemon.
pub const LAST_CHAINS: Duration = Duration::from_secs(5);
/// The time that a message waits for chains in flight. The rest of 100 ms is for its answer.
pub(super) const LONGEST: Duration = Duration::from_millis(80);
/// In the first part of that time available chains are taken. Those have the rest of it to end.
const TAKING: Duration = Duration::from_millis(50);
/// If none is taken or returned for so long, the next one may take too long, and isn't taken.
const QUICK: Duration = Duration::from_millis(15);

/// The numbers of a ring, for the operator.
#[derive(Debug, Clone, Copy)]
pub struct Numbers {
    /// Chains that were taken, and not returned.
    pub in_flight: u16,
    /// Threads that are in a call of the host.
    pub at_the_host: usize,
    /// How often a thread slept.
    pub sleeps: u64,
    /// How often the driver was to be interrupted.
    pub interrupts: u64,
}

/// How long a message waits for chains, of all its rings.
#[derive(Debug, Clone, Copy)]
pub struct Patience {
    begun: Instant,
}

impl Patience {
    /// For a message that came now.
    #[allow(clippy::new_without_default, reason = "it has the time of the call")]
    pub fn new() -> Patience {
        Patience { begun: Instant::now() }
    }

    /// The time that is left.
    pub fn left(&self) -> Duration {
        LONGEST.saturating_sub(self.begun.elapsed())
    }

    /// The time until the next chain must be taken or returned, so that further ones are taken.
    fn left_to_take(&self) -> Duration {
        QUICK.min(TAKING.saturating_sub(self.begun.elapsed()))
    }
}

impl Ring {
    /// Waits until none of the ring's chains is in flight, but only a while. Until the ring is
    /// closed no chain is taken from here on, but for those that are available now, as long as they
    /// are quick. The others are for the back-end that continues the ring. (virtiofsd may not look
    /// for them before the next kick: it drops QEMU's one kick at the start if it reads that before
    /// the ring is enabled.) A slow one would be in flight when the ring stops, and so no state
    /// could be saved.
    pub(super) fn settle(
        &self,
        memory: &Table,
        patience: Patience,
    ) -> MutexGuard<'_, Locked<State>> {
        memory.iommu().cancel(self); // it answers nothing until this message is answered
        let state = self.lock();
        if !state.is_live() {
            return state;
        }
        let first = state.numbers.next_avail;
        let end = memory.ring_index(state.numbers.layout.available).unwrap_or(first);
        let state = self.served.pop_until(state, end, || patience.left_to_take());
        self.served.settle(state, patience.left())
    }

    /// Closes the ring: when this returns, no thread accesses the guest's memory for its chains,
    /// until the ring is open again. The caller says why it doesn't run.
    pub(super) fn close<'a>(
        &'a self,
        state: MutexGuard<'a, Locked<State>>,
        memory: &Arc<Table>,
        message: &str,
    ) -> MutexGuard<'a, Locked<State>> {
        let was_closed = self.is_closed.swap(true, Ordering::SeqCst);
        // each is a moment away from the host, or from the return of its chain
        let mut state = self.served.close(state, || self.doing.iter().any(Doing::is_within));
        if !was_closed && state.queue.in_flight() > 0 {
            state.over = Some(memory.clone());
            warn!("queue {}: {message}, and the host holds {}", self.index, self.held_calls());
        }
        state
    }

    fn held_calls(&self) -> String {
        let held = self.doing.iter().filter(|doing| doing.is_in_flight());
        held.map(Doing::to_string).collect::<Vec<_>>().join(", ")
    }

    /// The calls that chains in flight wait for, if there are any.
    pub fn held(&self) -> Option<String> {
        let state = self.lock();
        (state.queue.in_flight() > 0)
            .then(|| format!("queue {}: {}", self.index, self.held_calls()))
    }

    /// What the ring counts, and what it does now.
    pub fn numbers(&self) -> Numbers {
        let state = self.lock();
        let at_the_host = self.doing.iter().filter(|doing| doing.is_in_call()).count();
        let (sleeps, interrupts) = (state.sleeps, state.interrupts);
        Numbers { in_flight: state.queue.in_flight(), at_the_host, sleeps, interrupts }
    }

    /// Whether chains are in flight that don't end before the ring continues.
    pub fn holds(&self) -> bool {
        let state = self.lock();
        state.queue.in_flight() > 0 && self.is_closed.load(Ordering::SeqCst)
    }

    /// Waits until the host has no call, at most for this time. Then the log says which it has.
    /// This waits for a condition: virtiofsd's filter of system calls allows no sleep by the clock.
    pub fn wait_for_its_calls(&self, time: Duration) {
        let is_called = |_: &mut Locked<State>| self.doing.iter().any(Doing::is_at_the_host);
        let (_state, is_long) = self.served.wait_at_most(self.lock(), time, is_called);
        if is_long {
            warn!(
                "queue {}: the end of the daemon no longer waits for chains in flight: {}",
                self.index,
                self.held_calls()
            );
        }
    }
}
