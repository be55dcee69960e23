//! Several threads of a loop and a driver, by chance, on one thread: whenever a server's method is
//! called, the driver may offer chains, and while a thread makes a call without the lock, others
//! that were woken run. A thread that sleeps is run only if something woke it. So each notification
//! that is lost, and each thread that is woken in vain, is seen at once.
use super::*;

/// So many seeds, unless `PITSKHOMU_SEQUENCES` says another number.
const SEEDS: u64 = 6000;
/// The driver offers so many chains.
const OFFERS: u16 = 12;

/// The ring, the driver's side of it, and the workers.
#[derive(Debug)]
struct World {
    chance: u64,
    queue: Queue,
    begun: u64,
    available: u16,
    /// What the driver reads before it notifies: `avail_event`, or whether it is enabled.
    event: u16,
    is_enabled: bool,
    /// What the device has stored last since the queue has begun.
    told: Option<bool>,
    left: u16,
    /// Something has woken a thread that sleeps, and none has come yet; a thread of the loop has.
    is_pending: bool,
    is_handed: bool,
    /// So many threads stepped aside, and come again by themselves.
    aside: usize,
    idle: usize,
    workers: usize,
    /// The chains that wait for their answers, and how many of these have come.
    waiting: usize,
    answered: usize,
    is_ending: bool,
    has_failed: bool,
    /// Notifications couldn't be disabled.
    is_heard: bool,
    counts: Counts,
}

#[derive(Debug, Default)]
struct Counts {
    pops: u64,
    popped: u64,
    stores: u64,
    turns: u64,
    pushed: u64,
    undone: u64,
    wakes: u64,
}

impl World {
    fn new(seed: u64) -> World {
        let mut world = World {
            chance: seed.wrapping_mul(0x9e37_79b9_7f4a_7c15) | 1,
            queue: Queue::default(),
            begun: 0,
            available: 0,
            event: 0,
            is_enabled: true,
            told: None,
            left: OFFERS,
            is_pending: false,
            is_handed: false,
            aside: 0,
            idle: 0,
            workers: 0,
            waiting: 0,
            answered: 0,
            is_ending: false,
            has_failed: false,
            is_heard: false,
            counts: Counts::default(),
        };
        world.workers = 1 + world.below(4) as usize;
        world.idle = world.workers;
        let has_index = world.below(2) == 0;
        let position = if world.below(2) == 0 { 0 } else { u16::MAX - 3 };
        world.begin(position, has_index);
        world
    }

    /// A fresh ring: zeros, which enable notifications, or ask for that of position 0.
    fn begin(&mut self, position: u16, has_index: bool) {
        let layout = QueueLayout { size: 64, descriptors: 0, available: 0x1000, used: 0x2000 };
        let queue = Queue::new(layout, position).and_then(|queue| queue.with_max_in_flight(64));
        self.queue = queue.unwrap().with_event_index(has_index);
        (self.begun, self.available) = (self.begun + 1, position);
        self.has_failed = true; // a thread is woken for the new queue
        (self.event, self.is_enabled, self.told) = (0, true, None);
    }

    fn below(&mut self, end: u64) -> u64 {
        self.chance ^= self.chance << 13;
        self.chance ^= self.chance >> 7;
        self.chance ^= self.chance << 17;
        (self.chance >> 20) % end
    }

    /// Whether the driver notifies for the chain that it offers next (VIRTIO 1.2, 2.7.13).
    fn would_notify(&self) -> bool {
        if self.queue.has_event_index() {
            self.event == self.available
        } else {
            self.is_enabled
        }
    }

    fn offer(&mut self) {
        self.is_pending |= self.would_notify();
        (self.available, self.left) = (self.available.wrapping_add(1), self.left - 1);
    }

    /// What the driver does at any time.
    fn happens(&mut self) {
        while self.left > 0 && self.below(6) == 0 {
            self.offer();
        }
    }

    fn has_chain(&self) -> bool {
        self.available != self.queue.next_avail()
    }

    fn is_quiet(&self) -> bool {
        self.idle == self.workers && self.waiting == 0
    }
}

impl Queued for World {
    fn queue(&self) -> &Queue {
        &self.queue
    }

    fn next_chain(&self) -> (u64, u16) {
        (self.begun, self.queue.next_avail())
    }

    fn is_live(&self) -> bool {
        !self.is_ending
    }

    fn may_tell(&self) -> bool {
        true
    }

    fn has_room(&self) -> bool {
        self.idle > 0
    }
}

/// One of the threads.
struct Thread<'l> {
    looping: &'l Loop<World>,
    /// It has a worker, with its chain or without one.
    has_worker: bool,
    owes: bool,
    must_undo: bool,
    is_undoing: bool,
}

impl<'l> Thread<'l> {
    fn new(looping: &'l Loop<World>) -> Thread<'l> {
        Thread { looping, has_worker: false, owes: false, must_undo: false, is_undoing: false }
    }

    /// A worker without a chain.
    fn worker(&mut self, world: &mut World) -> Result<(), Status> {
        if !self.has_worker {
            world.idle = world.idle.checked_sub(1).ok_or(Status::ChainInFlight)?;
            self.has_worker = true;
        }
        Ok(())
    }

    /// A call begins: who sleeps is woken for the next chain, and nobody in vain, but while an
    /// answer is undone.
    fn looks_around(&self, world: &mut Locked<World>) {
        let sleeping = world.turns.sleeping();
        if has_woken(self.looping) {
            let is_due = world.has_chain() || world.answered > 0 || world.has_failed;
            assert!(is_due || self.is_undoing, "a thread is woken in vain");
            let has_room = world.idle > 0 || self.is_undoing || world.answered > 0;
            assert!((sleeping > 0 && has_room) || world.has_failed, "nobody can be woken");
            assert!(!world.is_handed || self.is_undoing, "two threads are woken");
            (world.is_handed, world.is_pending) = (world.turns.is_called(), true);
            world.counts.wakes += 1;
        }
        let others = sleeping > 0 && world.idle > 0;
        let is_heard = world.is_pending || (world.would_notify() && !world.has_chain());
        assert!(!others || is_heard, "nobody serves the next chain: {world:?}");
        let is_left = sleeping > 0 && world.answered > 0;
        assert!(!is_left || world.is_pending, "nobody takes up an answer: {world:?}");
        let is_silent = world.queue.has_event_index() || !world.is_enabled;
        let is_excused = world.is_heard || self.is_undoing;
        assert!(sleeping > 0 || is_silent || is_excused, "it notifies in vain");
        world.has_failed = false;
    }

    /// What may happen while a thread doesn't have the lock: also that others come.
    fn without_the_lock(&self) {
        loop {
            let mut world = self.looping.lock();
            world.happens();
            if !world.has_turn() || world.below(3) == 0 {
                return;
            }
            drop(world);
            turn(self.looping);
        }
    }
}

impl Locked<World> {
    /// Whether a thread was woken, or comes by itself.
    fn has_turn(&self) -> bool {
        self.aside > 0 || (self.is_pending && self.turns.sleeping() > 0)
    }
}

impl Server<World> for Thread<'_> {
    fn resumes(&mut self, world: &mut World) -> bool {
        world.happens();
        if world.answered == 0 {
            return false;
        }
        world.idle += usize::from(std::mem::replace(&mut self.has_worker, true));
        (world.answered, world.waiting) = (world.answered - 1, world.waiting - 1);
        true
    }

    fn has_answered(&mut self, world: &World) -> bool {
        world.answered > 0
    }

    fn pop(&mut self, world: &mut World) -> Result<Popped, Status> {
        world.happens();
        world.counts.pops += 1;
        self.worker(world)?;
        if !world.queue.knows_more() {
            world.queue.see_index(world.available, 0);
        }
        if !world.queue.knows_more() {
            return Ok(Popped::Idle);
        }
        let numbers = world.queue.numbers_mut();
        numbers.next_avail = numbers.next_avail.wrapping_add(1);
        world.counts.popped += 1;
        Ok(Popped::Chain)
    }

    fn begins(&mut self, world: &mut World, number: u64) {
        assert_eq!(number, world.counts.popped);
    }

    fn answer(&mut self) -> bool {
        assert!(self.has_worker && !self.owes, "the driver isn't interrupted");
        self.looks_around(&mut self.looping.lock());
        self.without_the_lock();
        let mut world = self.looping.lock();
        if world.below(4) > 0 {
            return true;
        }
        world.waiting += 1;
        self.has_worker = false;
        if world.below(2) == 0 {
            (world.answered, world.is_pending) = (world.answered + 1, true);
        }
        false
    }

    fn push(&mut self, world: &mut World) -> bool {
        world.happens();
        let numbers = world.queue.numbers_mut();
        numbers.next_used = numbers.next_used.wrapping_add(1);
        world.counts.pushed += 1;
        (world.idle, self.has_worker) = (world.idle + 1, false);
        self.must_undo = world.below(4) == 0;
        self.owes |= !self.must_undo;
        self.must_undo
    }

    fn undo(&mut self) {
        assert!(std::mem::take(&mut self.must_undo) && !self.owes);
        let mut world = self.looping.lock();
        world.counts.undone += 1;
        self.is_undoing = true; // with a worker for notifications
        self.looks_around(&mut world);
        drop(world);
        self.without_the_lock();
        self.is_undoing = false;
    }

    fn interrupt(&mut self) {
        self.owes = false;
    }

    fn set_notification(&mut self, world: &mut World, enabled: bool) -> Result<bool, Status> {
        world.happens();
        self.worker(world)?;
        world.is_heard = !enabled && world.below(12) == 0;
        if world.is_heard || (enabled && world.below(12) == 0) {
            (world.has_failed, world.told) = (true, None);
            return Err(Status::OutOfMemory);
        }
        world.counts.stores += 1;
        if world.queue.has_event_index() {
            assert!(enabled, "nothing is to be stored");
            world.event = world.queue.next_avail();
        } else {
            assert_ne!(world.told, Some(enabled), "it is stored already");
            world.is_enabled = enabled;
        }
        world.told = Some(enabled);
        Ok(true)
    }

    fn available_index(&mut self, world: &World) -> Option<u16> {
        Some(world.available)
    }

    fn refuse(&mut self, _: &mut World, why: Status) {
        panic!("{why}");
    }

    fn rests(&mut self, world: &mut World) -> bool {
        world.happens();
        assert!(!self.owes && !self.must_undo, "the driver isn't interrupted");
        world.idle += usize::from(std::mem::take(&mut self.has_worker));
        world.is_ending && world.is_quiet()
    }
}

/// A thread that was woken has its turn, or one that stepped aside. Whether it has ended.
fn turn(looping: &Loop<World>) -> bool {
    let mut world = looping.lock();
    let came = if world.aside > 0 {
        world.aside -= 1;
        Came::Back
    } else {
        (world.is_pending, world.is_handed) = (false, false);
        Came::Woken
    };
    turn_in(looping, world, came)
}

fn turn_in(looping: &Loop<World>, mut world: Held<'_, World>, came: Came) -> bool {
    world.counts.turns += 1;
    let others = world.turns.sleeping() + world.aside as u64 - u64::from(came == Came::Woken);
    drop(world);
    let rest = serve(looping, &mut Thread::new(looping), came);
    let mut world = looping.lock();
    world.is_pending |= has_woken(looping);
    world.aside += usize::from(rest == Rest::Again);
    world.has_failed = false;
    let waiting = world.turns.sleeping() + world.aside as u64;
    assert_eq!(waiting, others + u64::from(rest != Rest::End), "it waits again");
    rest == Rest::End
}

/// Runs the threads until all chains are served. Between, the queue may begin again.
fn serve_chains(looping: &Loop<World>, threads: usize) {
    (0..threads).for_each(|_| {
        turn_in(looping, looping.lock(), Came::Back);
    });
    loop {
        let mut world = looping.lock();
        if world.has_turn() {
            drop(world);
            turn(looping);
            continue;
        }
        assert!(world.would_notify() || world.idle == 0, "nobody serves the next chain");
        assert!(!world.has_chain() || world.idle == 0, "a chain is left: {world:?}");
        if world.waiting > 0 {
            (world.answered, world.is_pending) = (world.waiting, true);
        } else if world.left == 0 {
            return;
        } else if world.below(4) == 0 {
            let (position, has_index) = (world.available, world.queue.has_event_index());
            world.begin(position, has_index);
            world.is_pending = true;
        } else {
            world.offer();
        }
    }
}

#[test]
fn no_notification_is_lost_by_chance() {
    let seeds = std::env::var("PITSKHOMU_SEQUENCES").ok().and_then(|text| text.parse().ok());
    let mut all = Counts::default();
    for seed in 1..=seeds.unwrap_or(SEEDS) {
        let mut world = World::new(seed);
        let threads = 1 + world.below(3) as usize;
        let looping = Loop::new(world).unwrap();
        serve_chains(&looping, threads);
        let mut world = looping.lock();
        assert!(world.is_quiet() && world.queue.in_flight() == 0, "{seed}");
        let Counts { pops, popped, stores, turns, pushed, undone, wakes } = world.counts;
        assert_eq!((popped, pushed), (OFFERS.into(), OFFERS.into()), "{seed}");
        assert!(pops <= popped + stores + turns, "{seed}: nothing is looked for in vain");
        (all.undone, all.wakes) = (all.undone + undone, all.wakes + wakes);
        (world.is_ending, world.is_pending) = (true, true);
        drop(world);
        for left in (0..threads).rev() {
            assert!(turn(&looping) && looping.lock().turns.sleeping() == left as u64, "{seed}");
        }
    }
    assert!(all.undone > 100 && all.wakes > 100, "{all:?}");
}
