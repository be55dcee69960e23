//! The waits of who stops a queue, or a part of what it needs. Each is bounded: a chain may wait
//! for ever for its answer. The queue's threads continue meanwhile.
use super::loops::{Locked, Loop, Queued};
use std::sync::MutexGuard;
use std::time::Duration;

impl<Q: Queued> Locked<Q> {
    /// Whether a chain before a position is to be popped. One whose addresses the IOMMU's table
    /// doesn't map isn't waited for.
    fn is_left(&self, end: u16) -> bool {
        self.next_chain().1 != end && !self.is_missing && self.is_live()
    }
}

impl<Q: Queued> Loop<Q> {
    /// Has the chains popped that are before the position `end`, as long as they are quick: `left`
    /// returns how long to wait until one is popped or returned. From here on no other chain is
    /// popped, until `close` or `go_on`. Chains whose addresses the IOMMU's table doesn't map
    /// aren't waited for, nor is a queue that isn't live.
    ///
    /// With the available index as `end`, loaded under the lock, the chains are those that are
    /// available now. Others are for the device that continues the queue.
    pub fn pop_until<'a>(
        &'a self,
        mut state: MutexGuard<'a, Locked<Q>>,
        end: u16,
        mut left: impl FnMut() -> Duration,
    ) -> MutexGuard<'a, Locked<Q>> {
        if !state.is_live() {
            return state;
        }
        let end = if state.is_missing { state.next_chain().1 } else { end };
        state.until = Some(end);
        self.look();
        let mut is_long = false;
        while !is_long && state.is_left(end) {
            let (moved, time) = (state.moved(), left());
            let waits = |state: &mut Locked<Q>| state.is_left(end) && state.moved() == moved;
            (state, is_long) = self.wait_at_most(state, time, waits);
        }
        state.until = Some(state.next_chain().1);
        state
    }

    /// Waits until no chain is in flight, for this time at most. From here on no chain is popped,
    /// until `close` or `go_on`. Afterwards chains may be in flight ([`Queue::in_flight`]).
    ///
    /// [`Queue::in_flight`]: crate::Queue::in_flight
    pub fn settle<'a>(
        &'a self,
        mut state: MutexGuard<'a, Locked<Q>>,
        time: Duration,
    ) -> MutexGuard<'a, Locked<Q>> {
        state.until = Some(state.next_chain().1);
        self.wait_at_most(state, time, |state| state.queue().in_flight() > 0).0
    }

    /// Ends `pop_until` and `settle`: waits while `is_within` holds of the threads, and has chains
    /// popped again from then on, unless the queue isn't live, and a thread look for them. Have it
    /// hold only for moments, as for a thread that pushes a chain.
    pub fn close<'a>(
        &'a self,
        mut state: MutexGuard<'a, Locked<Q>>,
        mut is_within: impl FnMut() -> bool,
    ) -> MutexGuard<'a, Locked<Q>> {
        state.waiters += 1;
        state = self.wait_while(state, |_| is_within());
        state.waiters -= 1;
        state.until = None;
        self.look();
        state
    }

    /// Ends them without a wait: the threads continue, and pop the chains that are left.
    pub fn go_on(&self, state: &mut Locked<Q>) {
        state.until = None;
        self.look();
    }
}
