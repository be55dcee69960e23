//! How long a queue's threads look for chains before they sleep: only while chains come soon, as
//! KVM does by `halt_poll_ns` before it has a processor of a guest's sleep.
use std::time::{Duration, Instant};

/// The shortest time for which a thread looks.
const FIRST: Duration = Duration::from_micros(4);
/// A thread that didn't run for so long, between two looks, shares its processor.
const GAP: Duration = Duration::from_micros(40);
/// After looks in vain so many chains have to come soon, one after another, before the next look.
const WANTED: u32 = 4;
/// And so many after a look on a processor that is shared. The number grows up to the second one
/// while such looks are made again.
const WANTED_IF_SHARED: u32 = 64;
const MOST_WANTED: u32 = 1024;
/// A chain that comes so soon after a look in vain, twice, was kept from coming by the look: the
/// driver waited for this processor.
const LATE: Duration = Duration::from_micros(10);

/// A look for chains: when it was made last, and until when it is made again.
#[derive(Clone, Copy, Debug)]
pub(super) struct Look {
    last: Instant,
    end: Instant,
}

/// What is known of the waits for chains of a queue.
#[derive(Debug, Default)]
pub(super) struct Polling {
    /// The longest time for which a thread looks; 0: none does.
    most: Duration,
    /// The time for which one looks now.
    window: Duration,
    /// Since when no chain is available.
    since: Option<Instant>,
    /// A thread has looked since then, in vain so far.
    has_looked: bool,
    /// When it stopped, and how many such looks before this one were too short by a little.
    stopped: Option<Instant>,
    late: u32,
    /// The number of chains that came soon, one after another, and of those that are wanted.
    soon: u32,
    wanted: u32,
}

impl Polling {
    pub fn set_most(&mut self, most: Duration) {
        (self.most, self.window) = (most, Duration::ZERO);
    }

    /// No chain is available. Returns the look that the thread begins, if it is to look.
    pub fn begin(&mut self, now: impl FnOnce() -> Instant) -> Option<Look> {
        if self.most.is_zero() || self.since.is_some() {
            return None;
        }
        let now = now();
        self.since = Some(now);
        if self.window.is_zero() || self.soon < self.wanted {
            return None;
        }
        self.has_looked = true;
        Some(Look { last: now, end: now + self.window })
    }

    /// The next look, at this time, if the thread has found nothing and looks on.
    pub fn goes_on(&mut self, look: Look, now: Instant, has_found: bool) -> Option<Look> {
        let is_shared = now.saturating_duration_since(look.last) > GAP;
        if is_shared {
            (self.soon, self.wanted) = (0, WANTED_IF_SHARED);
        }
        let goes_on = !has_found && !is_shared;
        self.stopped = (goes_on && look.end <= now).then_some(now);
        (goes_on && now < look.end).then_some(Look { last: now, ..look })
    }

    /// A chain was popped.
    pub fn end(&mut self, now: impl FnOnce() -> Instant) {
        let since = match self.since.take() {
            Some(since) => since,
            None => return,
        };
        let now = now();
        let waited = now.saturating_duration_since(since);
        let has_looked = core::mem::take(&mut self.has_looked);
        if has_looked && self.is_late(now) {
            self.wanted = (4 * self.wanted).clamp(WANTED_IF_SHARED, MOST_WANTED);
            (self.window, self.soon, self.late) = (Duration::ZERO, 0, 0);
            return;
        }
        if waited > self.most {
            (self.window, self.soon) = (Duration::ZERO, 0);
            if has_looked {
                self.wanted = self.wanted.max((2 * self.wanted + 2).min(WANTED));
            }
            return;
        }
        self.soon = self.soon.saturating_add(1);
        if self.soon > 2 * self.wanted {
            self.wanted /= 2;
        }
        // twice the last wait, or a little less than it was before
        let fallen = self.window.saturating_sub(self.window / 8);
        self.window = (2 * waited).max(fallen).max(FIRST).min(self.most);
    }

    /// After a look: whether the last two ended just before their chains came.
    fn is_late(&mut self, now: Instant) -> bool {
        let stopped = self.stopped.take();
        let is_late = stopped.map_or(false, |at| now.saturating_duration_since(at) < LATE);
        self.late = if is_late { self.late + 1 } else { 0 };
        self.late == 2
    }
}

#[cfg(test)]
mod tests {
    use super::*;

    const MOST: Duration = Duration::from_micros(32);

    /// Chains come after these waits, in microseconds. For each, whether a thread looked.
    fn looked(polling: &mut Polling, waits: &[u64]) -> std::vec::Vec<bool> {
        let mut now = Instant::now();
        let waits = waits.iter().map(|&wait| {
            let look = polling.begin(|| now);
            assert!(polling.begin(|| panic!("one look for each wait")).is_none());
            now += Duration::from_micros(wait);
            polling.end(|| now);
            look.is_some()
        });
        waits.collect()
    }

    #[test]
    fn a_thread_looks_while_chains_come_soon() {
        let mut polling = Polling::default();
        assert_eq!(looked(&mut polling, &[1, 1, 1]), [false; 3], "off");
        polling.set_most(MOST);
        assert_eq!(looked(&mut polling, &[3, 3, 33, 3]), [false, true, true, false]);
        // after a look in vain
        assert_eq!(looked(&mut polling, &[3, 3, 3]), [false, true, true]);
        assert_eq!(looked(&mut polling, &[99, 99, 99]), [true, false, false]);
        polling.set_most(Duration::ZERO);
        assert_eq!(looked(&mut polling, &[1, 1, 1]), [false; 3], "off again");
    }

    /// A look is at most twice as long as the last waits, and ends on a shared processor.
    #[test]
    fn a_look_ends() {
        let (mut polling, begun) = (Polling::default(), Instant::now());
        polling.set_most(MOST);
        looked(&mut polling, &[5]);
        let look = polling.begin(|| begun).unwrap();
        let at = |micros| begun + Duration::from_micros(micros);
        let look = polling.goes_on(look, at(9), false).unwrap();
        assert!(polling.goes_on(look, at(10), false).is_none());
        polling.end(|| at(12));
        let look = polling.begin(|| at(20)).unwrap();
        assert!(polling.goes_on(look, at(61), false).is_none(), "it didn't run for so long");
        polling.end(|| at(62));
        assert!(looked(&mut polling, &[1; 63]).iter().all(|looked| !looked));
        assert!(looked(&mut polling, &[1, 1])[1]);
    }

    /// A chain comes three microseconds after each look: the looks keep it from coming.
    fn looks_on_one_processor(polling: &mut Polling, chains: usize) -> usize {
        let mut now = Instant::now();
        let mut looks = 0;
        for _ in 0..chains {
            if let Some(look) = polling.begin(|| now) {
                looks += 1;
                now = look.end;
                let look = Look { last: now, ..look };
                assert!(polling.goes_on(look, now, false).is_none());
            }
            now += Duration::from_micros(3);
            polling.end(|| now);
        }
        looks
    }

    #[test]
    fn looks_that_keep_the_driver_from_running_become_rare() {
        let mut polling = Polling::default();
        polling.set_most(MOST);
        assert!(looks_on_one_processor(&mut polling, 400) <= 8);
        assert!(looks_on_one_processor(&mut polling, 4000) <= 10);
        // on two processors they are made again
        let looked = looked(&mut polling, &[3; 1100]);
        assert!(looked[1050..].iter().all(|&looked| looked));
    }
}
