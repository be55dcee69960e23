//! A ring's thread, as the loop of `pitskhomu::live` has it: a server, over the ring's state.
use super::{send, Ring, Server, State};
use crate::in_flight::Doing;
use crate::memory::Table;
use crate::notifier::Notifier;
use log::{debug, error, warn};
use pitskhomu::live::{self, Asked};
use pitskhomu::{Popped, Status};
use std::sync::atomic::Ordering;
use std::sync::Arc;

/// A thread of the ring.
struct Thread<'r, S> {
    ring: &'r Ring,
    server: &'r mut S,
    doing: &'r Doing,
    /// The memory of this look for a chain, and of the chain; none while the thread sleeps, so that
    /// what the front-end removes doesn't stay mapped.
    table: Option<Arc<Table>>,
    /// The event by which the driver is to be interrupted.
    owed: Option<Arc<Notifier>>,
}

impl<S: Server> live::Server<State> for Thread<'_, S> {
    fn looks(&mut self, state: &State, is_same: bool) {
        if !is_same {
            self.server.forget_refusals();
        }
        if !self.table.as_ref().is_some_and(|table| Arc::ptr_eq(table, &state.memory)) {
            self.table = Some(state.memory.clone());
        }
    }

    /// With new numbers none is taken until the chains in flight are returned with the old ones:
    /// the thread that returns the last one wakes the others. So does a late call when it ends.
    fn pop(&mut self, state: &mut State) -> Result<Popped, Status> {
        let waits = state.is_new && state.queue.in_flight() > 0;
        if waits || self.ring.late.load(Ordering::SeqCst) > 0 {
            return Err(Status::ChainInFlight);
        }
        if state.is_new {
            state.begin(self.ring.threads)?;
        }
        let table = self.table.as_ref().ok_or(Status::WrongOrder)?;
        let popped = self.server.pop(&mut state.queue, table).inspect_err(|status| {
            if status.is_out_of_memory() {
                warn!("queue {}: out of memory, and a request waits", self.ring.index);
            }
        })?;
        state.numbers.next_avail = state.queue.next_avail();
        Ok(popped)
    }

    fn begins(&mut self, _state: &mut State, number: u64) {
        self.doing.begin(number);
    }

    fn answer(&mut self) -> bool {
        if let Some(table) = &self.table {
            self.server.answer(self.doing, table);
        }
        true
    }

    fn push(&mut self, state: &mut State) -> bool {
        let Some(table) = &self.table else { return false }; // it has that of its chain
        if self.doing.is_dropped() {
            self.server.abandon(table);
        } else {
            match self.server.push(&mut state.queue, table) {
                Ok(true) => self.owed = state.interrupt(),
                // or the queue was refused, and has begun again since
                Ok(false) | Err(Status::OtherQueue) => {}
                Err(status) => {
                    error!(
                        "queue {} is refused, since a reply can't be returned: {status}",
                        self.ring.index
                    );
                    state.refuse();
                    let _ = state.begin(self.ring.threads); // so no chain is in flight
                }
            }
        }
        self.doing.end();
        if state.is_new && state.queue.in_flight() == 0 {
            self.ring.look(); // threads that found the queue paused may sleep
        }
        self.server.must_undo()
    }

    fn undo(&mut self) {
        self.server.undo();
    }

    fn interrupt(&mut self) {
        send(&mut self.owed);
    }

    fn set_notification(&mut self, state: &mut State, enabled: bool) -> Result<bool, Status> {
        let table = self.table.as_ref().ok_or(Status::WrongOrder)?;
        self.server.set_notification(&state.queue, enabled, table)
    }

    fn available_index(&mut self, state: &State) -> Option<u16> {
        let table = self.table.as_ref()?;
        if state.is_new {
            return table.ring_index(state.numbers.layout.available);
        }
        self.server.available_index(&state.queue, table)
    }

    fn ask(&mut self) -> Asked {
        let Some(table) = &self.table else { return Asked::NotAll };
        self.server.ask(table, &self.ring.asking)
    }

    fn refuse(&mut self, state: &mut State, why: Status) {
        error!("queue {} is refused, and isn't served until it is reset: {why}", self.ring.index);
        state.refuse();
    }

    fn tells_later(&mut self, why: Status) {
        debug!("queue {}: the driver isn't told yet to kick: {why}", self.ring.index);
    }

    fn loses_kick(&mut self) {
        warn!("queue {}: no notification of the driver arrives any more", self.ring.index);
    }

    fn rests(&mut self, state: &mut State) -> bool {
        state.sleeps += 1;
        self.table = None;
        state.is_ending
    }
}

impl Ring {
    /// The loop of each of the ring's threads, until the ring or the process ends.
    pub fn run(&self, server: &mut impl Server) {
        let mut state = self.lock();
        state.served_by += 1;
        let doing = &self.doing[state.served_by - 1]; // at most `threads` run
        drop(state);
        let mut thread = Thread { ring: self, server, doing, table: None, owed: None };
        if let Err(e) = self.served.run(&mut thread) {
            error!("queue {} isn't served any more: {e}", self.index);
        }
    }
}

#[cfg(test)]
mod tests {
    use super::*;
    use crate::iommu::Cancel;
    use pitskhomu::Queue;
    use std::sync::mpsc::{channel, Sender};
    use std::thread;
    use std::time::Duration;

    /// Has no chain, and sends a message for each `take`.
    struct Asked(Sender<()>);

    impl Server for Asked {
        fn pop(&mut self, _queue: &mut Queue, _memory: &Arc<Table>) -> Result<Popped, Status> {
            self.0.send(()).expect("who listens");
            Ok(Popped::Idle)
        }

        fn ask(&mut self, _memory: &Table, _cancel: &Cancel) -> live::Asked {
            live::Asked::NotAll
        }

        fn forget_refusals(&mut self) {}

        fn answer(&mut self, _doing: &Doing, _memory: &Table) {}

        fn push(&mut self, _: &mut Queue, _: &Arc<Table>) -> Result<bool, Status> {
            Ok(false)
        }

        fn set_notification(
            &mut self,
            _queue: &Queue,
            _wanted: bool,
            _memory: &Arc<Table>,
        ) -> Result<bool, Status> {
            Ok(false)
        }
    }

    #[test]
    fn a_thread_looks_before_it_sleeps() {
        let (ring, (asked, answers)) =
            (Ring::new(0, 2, Arc::default()).expect("a ring"), channel());
        let (is_started, is_enabled, is_mapped) = (true, true, true);
        **ring.lock() = State { is_started, is_enabled, is_mapped, ..State::default() };
        // it ends with the process
        thread::spawn(move || ring.run(&mut Asked(asked)));
        assert_eq!(answers.recv_timeout(Duration::from_secs(20)), Ok(()));
    }
}
