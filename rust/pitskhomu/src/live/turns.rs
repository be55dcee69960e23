//! The loop of a queue's threads. The machine says what a thread does next (`machine`). A thread
//! does it, and says what happened. The calls of `Server` make the loads and stores, with their
//! barriers. What a thread may report, and what follows from it, is proved over the model of
//! several threads (crates `notify` and `fs_turns`).
use super::loops::{Asked, Held, Locked, Loop, Polled, Queued, Server};
use super::machine::{Orders, Turns};
use super::polling::Look;
use crate::status::Status;
use crate::sys::turns::{
    DO_ANSWER, DO_ARM, DO_LOOK, DO_MUTE, DO_POP, DO_SLEEP, DO_STEP_ASIDE, DO_STOP,
};
use crate::worker::Popped;
use core::hint;
use std::io;
use std::time::{Duration, Instant};

/// The time until the next try after an allocation failed.
const AGAIN: Duration = Duration::from_millis(100);
/// So often a chain's addresses are asked for before other queues have their turn: an IOMMU may
/// answer, and unmap them again before the answer is used.
const MOST_ROUNDS: u32 = 64;
/// A thread that looks for chains leaves the lock for so many pauses.
const PAUSES: u32 = 2;

/// A thread that has the lock, and what it does next.
type Turn<'l, Q> = (Held<'l, Q>, Orders);

impl<Q: Queued> Locked<Q> {
    /// Tells the machine of a queue that has begun again: nothing is stored about its
    /// notifications. Nor is anything known after a panic amid a turn. Returns whether it was so.
    fn begin_again(&mut self) -> bool {
        let (begun, has_index) = (self.next_chain().0, self.queue().has_event_index());
        let is_same = self.begun == begun && self.turns.has_event_index() == has_index;
        if is_same && self.turns.is_free() {
            return false;
        }
        self.begun = begun;
        if !self.turns.is_free() {
            self.turns.end_turn();
        }
        self.turns.reset(has_index);
        true
    }

    /// The same in a pop, by which a queue may begin, too.
    fn begin_again_in_pop(&mut self) {
        let has_index = self.queue().has_event_index();
        if self.turns.has_event_index() != has_index {
            self.turns.reset(has_index);
        }
    }

    /// Whether as many chains are in flight as may be, or all workers have one.
    fn is_full(&self) -> bool {
        let queue = self.queue();
        !self.has_room() || queue.in_flight() >= queue.max_in_flight()
    }

    /// The position of the next chain.
    fn next_position(&self) -> u16 {
        self.next_chain().1
    }
}

/// A thread of the loop.
pub(super) struct Thread<'l, 's, Q: Queued, S> {
    looping: &'l Loop<Q>,
    server: &'s mut S,
    /// So often the IOMMU was asked for the next chain.
    rounds: u32,
    /// The chain that the IOMMU was asked for.
    asked_for: Option<(u64, u16)>,
    /// The chain for which the IOMMU's table lacks addresses, and whether its notification does.
    missing: Option<((u64, u16), bool)>,
    /// Why notifications can't be enabled.
    untold: Option<Status>,
    /// The looks that were wanted when the thread had to step aside.
    looks: u64,
    /// The thread looks for chains before it sleeps.
    polls: Option<(Look, Polled<'l, Q>)>,
    /// An answer is undone before the thread comes again.
    must_undo: bool,
    /// How the thread ends.
    ended: Option<io::Result<()>>,
}

impl<'l, 's, Q: Queued, S: Server<Q>> Thread<'l, 's, Q, S> {
    pub fn new(looping: &'l Loop<Q>, server: &'s mut S) -> Thread<'l, 's, Q, S> {
        Thread {
            looping,
            server,
            rounds: 0,
            asked_for: None,
            missing: None,
            untold: None,
            looks: 0,
            polls: None,
            must_undo: false,
            ended: None,
        }
    }

    /// Takes turns until the thread ends.
    pub fn run(mut self) -> io::Result<()> {
        let mut turn = self.come(self.looping.lock(), false);
        loop {
            turn = match self.take_turn(turn) {
                DO_ANSWER => self.answer(),
                DO_SLEEP => self.sleep(),
                DO_STEP_ASIDE => self.step_aside(),
                _ if self.must_undo => self.undo(),
                _ => return self.ended.unwrap_or(Ok(())),
            };
        }
    }

    /// The thread has the lock, and didn't sleep. `has_pushed`: it may owe the driver an interrupt.
    fn come(&mut self, state: Held<'l, Q>, has_pushed: bool) -> Turn<'l, Q> {
        self.begin(state, |turns, answers_wait| turns.back(has_pushed, answers_wait))
    }

    /// Begins a turn by an event, which says whether a chain may wait that has its answer.
    fn begin(
        &mut self,
        mut state: Held<'l, Q>,
        event: impl FnOnce(&mut Turns, bool) -> Orders,
    ) -> Turn<'l, Q> {
        if state.begin_again() {
            self.looping.events.wake();
        }
        let answers_wait = self.server.has_answered(&state);
        let mut orders = event(&mut state.turns, answers_wait);
        if self.must_undo || self.ended.is_some() {
            orders = state.turns.refused(); // it takes no chain now: another thread does
        }
        (state, orders)
    }

    /// A turn, under the lock. Returns what the thread does without it.
    fn take_turn(&mut self, turn: Turn<'l, Q>) -> u32 {
        let (mut state, mut orders) = turn;
        while orders.keep_the_lock() {
            orders = self.perform(&mut state, orders.action());
        }
        if orders.action() == DO_ANSWER {
            drop(state);
            if orders.interrupts() {
                self.server.interrupt();
            }
        } else {
            orders = self.rest(&mut state, orders);
            self.looping.notify_if_awaited(&state);
            drop(state);
        }
        if orders.wakes() {
            self.looping.events.wake();
        }
        orders.action()
    }

    /// Does what the machine says under the lock. Returns what it says then.
    fn perform(&mut self, state: &mut Locked<Q>, action: u32) -> Orders {
        match action {
            DO_POP => self.pop(state),
            DO_ARM => self.arm(state),
            DO_LOOK if self.sees_more(state) => state.turns.more(),
            DO_LOOK => state.turns.no_more(),
            DO_MUTE => self.mute(state),
            _ => self.resume(state),
        }
    }

    /// The thread has no chain, and releases the lock. It may end in place of its sleep.
    fn rest(&mut self, state: &mut Locked<Q>, orders: Orders) -> Orders {
        if orders.interrupts() {
            // Before anybody who waits gets the lock: a queue that has stopped owes nothing.
            self.server.interrupt();
        }
        match orders.action() {
            DO_SLEEP if self.server.rests(state) => {
                self.ended = Some(Ok(()));
                let answers_wait = self.server.has_answered(state);
                state.turns.woken(answers_wait);
                state.turns.refused()
            }
            DO_SLEEP | DO_STEP_ASIDE | DO_STOP => orders,
            _ => {
                debug_assert!(false, "an event that can't happen");
                self.server.refuse(state, Status::WrongOrder);
                self.ended = Some(Ok(()));
                orders
            }
        }
    }

    /// Takes up a chain that waited for its answer.
    fn resume(&mut self, state: &mut Locked<Q>) -> Orders {
        if !self.server.resumes(state) {
            return state.turns.none_resumed();
        }
        let another = self.server.has_answered(state);
        let (next, is_full) = (state.next_position(), !state.has_room());
        state.turns.resumed(another, next, is_full, self.looping.another_comes())
    }

    /// Pops the next chain, if one is available.
    fn pop(&mut self, state: &mut Locked<Q>) -> Orders {
        let chain = state.next_chain();
        self.server.looks(state, self.asked_for.take() == Some(chain));
        if !state.is_live() || state.until == Some(chain.1) {
            return state.turns.paused();
        }
        let popped = self.server.pop(state);
        state.begin_again_in_pop();
        match popped {
            Ok(Popped::Chain) => {
                state.is_missing = false;
                self.begin_chain(state);
                let (next, is_full) = (state.next_position(), !state.has_room());
                state.turns.popped(next, is_full, self.looping.another_comes())
            }
            Ok(Popped::Idle) => {
                state.is_missing = false;
                let polls = self.begins_to_poll(state);
                let next = state.next_position();
                state.turns.idle(polls, next)
            }
            Ok(Popped::Missing) => {
                state.is_missing = true;
                self.missing = Some((state.next_chain(), false));
                self.later(state, Turns::later)
            }
            Err(Status::ChainInFlight) if state.is_full() => state.turns.full(),
            Err(Status::ChainInFlight) => state.turns.paused(),
            Err(status) if status.is_out_of_memory() => self.later(state, Turns::later),
            Err(status) => {
                self.server.refuse(state, status);
                state.turns.paused()
            }
        }
    }

    /// Whether the thread looks for chains for a while before it sleeps: one thread at a time.
    fn begins_to_poll(&mut self, state: &mut Locked<Q>) -> bool {
        if self.looping.is_polled() || !state.may_poll() {
            return false;
        }
        let look = state.polling.begin(Instant::now);
        self.polls = look.map(|look| (look, self.looping.begin_to_poll()));
        self.polls.is_some()
    }

    fn begin_chain(&mut self, state: &mut Locked<Q>) {
        state.polling.end(Instant::now);
        self.rounds = 0;
        state.popped += 1;
        let number = state.popped;
        self.server.begins(state, number);
        self.looping.notify_if_awaited(state);
    }

    /// Enables notifications of the driver for the next chain.
    fn arm(&mut self, state: &mut Locked<Q>) -> Orders {
        if !state.may_tell() {
            return self.later(state, Turns::not_armed);
        }
        match self.server.set_notification(state, true) {
            Ok(true) => {
                let next = state.next_position();
                let orders = state.turns.armed(next);
                if orders.action() == DO_POP && !self.sees_more(state) {
                    return state.turns.idle(false, next); // such a pop is a load
                }
                orders
            }
            Ok(false) => self.later(state, Turns::not_armed),
            Err(status) => {
                self.untold = Some(status);
                if status == Status::NotMapped {
                    self.missing = Some((state.next_chain(), true));
                }
                self.later(state, Turns::not_armed)
            }
        }
    }

    /// Says by an event that the thread tries again in a moment.
    fn later(&mut self, state: &mut Locked<Q>, event: impl FnOnce(&mut Turns) -> Orders) -> Orders {
        self.looks = self.looping.moments.looks();
        event(&mut state.turns)
    }

    /// Whether a chain is available. The ring's index is loaded only if the last one shows none.
    fn sees_more(&mut self, state: &mut Locked<Q>) -> bool {
        state.queue().knows_more()
            || self.server.available_index(state) != Some(state.next_position())
    }

    /// Disables notifications. If that fails, the driver notifies in vain.
    fn mute(&mut self, state: &mut Locked<Q>) -> Orders {
        if state.may_tell() {
            let _ = self.server.set_notification(state, false);
        }
        state.turns.muted()
    }

    /// Answers the chain that the server has, without the lock, and pushes it.
    fn answer(&mut self) -> Turn<'l, Q> {
        (self.untold, self.missing) = (None, None);
        let has_reply = self.server.answer();
        let mut state = self.looping.come_back();
        if has_reply {
            self.must_undo = self.server.push(&mut state);
            state.returned += 1;
            self.looping.notify_if_awaited(&state);
        }
        self.come(state, has_reply)
    }

    /// Undoes an answer, without the lock: calls of the file system. For the machine the thread has
    /// ended, and another one comes: so nobody relies on it meanwhile.
    fn undo(&mut self) -> Turn<'l, Q> {
        self.must_undo = false;
        self.server.undo();
        self.come(self.looping.come_back(), false)
    }

    /// Sleeps until an event.
    fn sleep(&mut self) -> Turn<'l, Q> {
        (self.rounds, self.asked_for) = (0, None);
        if let Err(error) = self.looping.wait(self.server) {
            self.ended = Some(Err(error));
        }
        self.begin(self.looping.lock(), Turns::woken)
    }

    /// Asks the IOMMU for what the thread missed, or waits for a moment. It takes no event from a
    /// thread that sleeps.
    fn step_aside(&mut self) -> Turn<'l, Q> {
        let state = match self.polls.take() {
            Some((look, polled)) => self.poll(look, polled),
            None => self.ask_for_missing().unwrap_or_else(|| self.wait_a_moment()),
        };
        self.come(state, false)
    }

    /// Looks for a chain, or for an answer to one that waits, for a while.
    fn poll(&mut self, look: Look, polled: Polled<'l, Q>) -> Held<'l, Q> {
        let mut next = Some(look);
        loop {
            (0..PAUSES).for_each(|_| hint::spin_loop());
            let mut state = self.looping.lock();
            let has_more = self.server.has_answered(&state) || self.sees_more(&mut state);
            let now = Instant::now();
            next = next.and_then(|look| state.polling.goes_on(look, now, has_more));
            if next.is_none() || !state.may_poll() {
                drop(polled); // under the lock
                return state;
            }
        }
    }

    fn ask_for_missing(&mut self) -> Option<Held<'l, Q>> {
        if let Some(status) = self.untold.take().filter(|&status| status != Status::NotMapped) {
            self.server.tells_later(status);
        }
        let (chain, is_notification) = self.missing.take()?;
        if self.rounds == MOST_ROUNDS {
            return None;
        }
        self.rounds += 1;
        self.ask(chain, is_notification)
    }

    /// Waits for a moment, or until somebody wants a look.
    fn wait_a_moment(&mut self) -> Held<'l, Q> {
        (self.rounds, self.asked_for) = (0, None);
        let mut state = self.looping.lock();
        if self.server.rests(&mut state) {
            self.ended = Some(Ok(()));
            return state;
        }
        drop(state);
        self.looping.moments.wait(self.looks, AGAIN);
        self.looping.lock()
    }

    /// Asks the IOMMU for what the thread missed, without the lock. `None` if it hasn't answered.
    /// A thread that is woken meanwhile misses the same.
    fn ask(&mut self, chain: (u64, u16), is_notification: bool) -> Option<Held<'l, Q>> {
        self.asked_for = Some(chain);
        let asked = self.server.ask();
        let mut state = self.looping.lock();
        let is_same = state.is_live() && state.next_chain() == chain;
        if is_notification && asked == Asked::Refused && is_same {
            self.server.refuse(&mut state, Status::NotMapped); // else it would ask for ever
        }
        (asked != Asked::NotAll).then_some(state)
    }
}

#[cfg(test)]
mod tests;
