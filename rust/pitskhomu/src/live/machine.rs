//! The machine of a queue's threads (`pitskhomu_turns.h`): by what happened it says what a thread
//! does next. All decisions on sleeping, waking, notifications of the driver and handing on are
//! made there, and proved. It lies with the queue under its lock.
#![allow(unsafe_code)]

use crate::sys;
use crate::sys::turns;

/// What a thread does next: an action of `sys::turns`, and what else it does once it has released
/// the lock.
#[derive(Clone, Copy, Debug, PartialEq, Eq)]
pub(super) struct Orders(u32);

impl Orders {
    /// The action.
    pub const fn action(self) -> u32 {
        self.0 & turns::DO
    }

    /// Whether the thread keeps the lock for the action.
    pub const fn keep_the_lock(self) -> bool {
        turns::DO_RESUME <= self.action() && self.action() <= turns::DO_MUTE
    }

    /// Whether the thread wakes one that sleeps.
    pub const fn wakes(self) -> bool {
        self.0 & turns::WAKE_ONE != 0
    }

    /// Whether it interrupts the driver.
    pub const fn interrupts(self) -> bool {
        self.0 & turns::INTERRUPT != 0
    }
}

/// The turns of a queue's threads.
#[derive(Clone, Copy, Debug)]
pub(super) struct Turns(sys::Turns);

/// Functions for the events of the header, with its names, of `bool` and `u16`.
macro_rules! events {
    ($($name:ident = $export:ident($($of:ident: $kind:ty),*);)*) => {
        $(
            pub fn $name(&mut self, $($of: $kind),*) -> Orders {
                // SAFETY: the struct is valid for the call, which keeps no pointer.
                Orders(unsafe { sys::$export(&mut self.0, $($of.into()),*) })
            }
        )*
    };
}

impl Turns {
    events! {
        woken = pk_turn_woken(answers_wait: bool);
        back = pk_turn_back(notify: bool, answers_wait: bool);
        resumed = pk_turn_resumed(another: bool, next: u16, is_full: bool, another_comes: bool);
        none_resumed = pk_turn_none_resumed();
        popped = pk_turn_popped(next: u16, is_full: bool, another_comes: bool);
        idle = pk_turn_idle(polls: bool, next: u16);
        full = pk_turn_full();
        paused = pk_turn_paused();
        later = pk_turn_later();
        refused = pk_turn_refused();
        armed = pk_turn_armed(next: u16);
        not_armed = pk_turn_not_armed();
        more = pk_turn_more();
        no_more = pk_turn_no_more();
        muted = pk_turn_muted();
    }

    /// A queue that no thread serves yet.
    pub fn new(event_index: bool) -> Turns {
        let mut turns = sys::Turns::default();
        // SAFETY: the struct is valid for the call, which keeps no pointer.
        unsafe { sys::pk_turns_begin(&mut turns, event_index.into()) };
        Turns(turns)
    }

    /// The queue begins again, while its threads sleep on: before a thread's event, and wake one
    /// then; or in a thread's pop, before that reports what it popped.
    pub fn reset(&mut self, event_index: bool) {
        // SAFETY: the struct is valid for the call, which keeps no pointer.
        let is_reset = unsafe { sys::pk_turns_reset(&mut self.0, event_index.into()) };
        debug_assert!(is_reset != 0, "a thread has another action");
    }

    /// A panic has ended the thread that was amid its turn: what it was to do has failed, and it
    /// ends. Wake a thread then. An event that doesn't suit what it was to do changes nothing.
    pub fn end_turn(&mut self) {
        for fails in [Turns::refused, Turns::not_armed, Turns::more, Turns::muted] {
            fails(self);
        }
    }

    /// So many threads come, and sleep until something wakes them.
    #[cfg(test)]
    pub fn add_sleeping(&mut self, threads: u64) {
        for _ in 0..threads {
            self.back(false, false);
            self.paused();
        }
    }

    /// Whether a thread was woken by orders, and doesn't have the lock yet.
    #[cfg(test)]
    pub const fn is_called(&self) -> bool {
        self.0.called != 0
    }

    /// The number of threads that sleep, or woke and don't have the lock yet.
    #[cfg(test)]
    pub const fn sleeping(&self) -> u64 {
        self.0.sleeping
    }

    /// Whether it is of a queue with an event index.
    pub const fn has_event_index(&self) -> bool {
        self.0.event_index != 0
    }

    /// Whether no thread is amid its turn.
    pub const fn is_free(&self) -> bool {
        self.0.phase == 0
    }
}
