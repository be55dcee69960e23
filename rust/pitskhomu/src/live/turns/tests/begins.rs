//! A queue that begins in a pop, and a worker that isn't kept while a thread waits for a moment.
use super::*;

/// Has one chain, which comes while notifications are enabled. By its first pop the queue begins
/// with an event index.
#[derive(Default)]
struct Begins {
    pops: u32,
    /// The positions for which notifications were enabled.
    told: Vec<u16>,
    rests: u32,
    has_failed: bool,
}

impl Server<Ring> for Begins {
    fn pop(&mut self, ring: &mut Ring) -> Result<Popped, Status> {
        if self.has_failed {
            return Err(Status::OutOfMemory);
        }
        self.pops += 1;
        if self.pops != 2 {
            ring.queue = core::mem::take(&mut ring.queue).with_event_index(true);
            return Ok(Popped::Idle);
        }
        ring.queue.numbers_mut().next_avail += 1;
        Ok(Popped::Chain)
    }

    fn answer(&mut self) -> bool {
        true
    }

    fn push(&mut self, _: &mut Ring) -> bool {
        false
    }

    fn interrupt(&mut self) {}

    fn set_notification(&mut self, ring: &mut Ring, enabled: bool) -> Result<bool, Status> {
        assert!(enabled, "with an event index nothing is disabled");
        self.told.push(ring.queue.next_avail());
        Ok(true)
    }

    fn available_index(&mut self, ring: &Ring) -> Option<u16> {
        let comes = self.pops == 1 && !self.told.is_empty();
        Some(ring.queue.next_avail() + u16::from(comes))
    }

    fn refuse(&mut self, _: &mut Ring, _: Status) {}

    fn rests(&mut self, _: &mut Ring) -> bool {
        self.rests += 1;
        false
    }
}

/// While the thread answers, others sleep: the driver notifies for the next position.
#[test]
fn a_queue_may_begin_in_a_pop() {
    let (looping, mut server) = (ring(1, 2), Begins::default());
    let mut thread = Thread::new(&looping, &mut server);
    assert_eq!(turn_of(&mut thread, looping.lock(), Came::Woken), DO_ANSWER);
    drop(thread);
    assert_eq!(server.told, [0, 1]);
}

/// A thread that waits for a moment leaves its worker to others, as one that sleeps does.
#[test]
fn a_thread_that_waits_rests() {
    let (looping, mut server) = (ring(1, 0), Begins { has_failed: true, ..Begins::default() });
    let mut thread = Thread::new(&looping, &mut server);
    assert_eq!(turn_of(&mut thread, looping.lock(), Came::Back), DO_STEP_ASIDE);
    let begun = Instant::now();
    drop(thread.step_aside());
    drop(thread);
    assert!(begun.elapsed() >= AGAIN / 2 && server.rests == 1);
}

/// Somebody wants a look, as who stops the queue, after the thread had to step aside: it looks at
/// once. A look before that is done already.
#[test]
fn a_look_ends_a_moment() {
    let mut is_quick = [false; 2];
    for _ in 0..10 {
        for (is_after, is_quick) in [false, true].into_iter().zip(&mut is_quick) {
            let looping = ring(1, 0);
            let mut server = Begins { has_failed: true, ..Begins::default() };
            looping.look();
            let mut thread = Thread::new(&looping, &mut server);
            assert_eq!(turn_of(&mut thread, looping.lock(), Came::Back), DO_STEP_ASIDE);
            if is_after {
                looping.look();
            }
            let begun = Instant::now();
            drop(thread.step_aside());
            *is_quick |= begun.elapsed() < AGAIN / 2;
        }
    }
    assert_eq!(is_quick, [false, true]);
}

/// It wakes a thread that waits already.
#[test]
fn a_look_wakes_who_waits_for_a_moment() {
    let looping = Arc::new(ring(1, 0));
    let other = looping.clone();
    let (looks, begun) = (looping.moments.looks(), Instant::now());
    let waits = thread::spawn(move || other.moments.wait(looks, 2 * SOON));
    while !waits.is_finished() && begun.elapsed() < SOON {
        thread::sleep(Duration::from_millis(20));
        looping.look();
    }
    waits.join().unwrap();
    assert!(begun.elapsed() < SOON);
}
