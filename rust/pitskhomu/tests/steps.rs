//! Workers of two queues by chance, with an IOMMU or without one: chains are popped, answered,
//! pushed, given up and reset, memory changes its shape, pages are unmapped, allocations fail, and
//! the memory and the file system panic. Each result, each stored byte, each mark and each
//! notification is what a model says.
mod world;

use pitskhomu::*;
use std::alloc::{GlobalAlloc, Layout, System};
use std::cell::Cell;
use std::collections::BTreeSet;
use std::panic::{catch_unwind, AssertUnwindSafe};
use std::sync::Arc;
use world::files::{End, Files, Outcome};
use world::views::{View, PAGE};
use world::{Job, Kind, World};

/// So many sequences, unless `PITSKHOMU_SEQUENCES` says another number.
const SEQUENCES: u64 = 60;
const STEPS: usize = 150;
const WORKERS: usize = 3;

thread_local! {
    /// No allocation of this thread has more bytes.
    static MOST: Cell<usize> = const { Cell::new(usize::MAX) };
}

struct Refusing;

// SAFETY: it is the system's allocator, which may refuse.
unsafe impl GlobalAlloc for Refusing {
    unsafe fn alloc(&self, layout: Layout) -> *mut u8 {
        if MOST.with(Cell::get) < layout.size() {
            return std::ptr::null_mut();
        }
        // SAFETY: what the caller owes is the same.
        unsafe { System.alloc(layout) }
    }

    unsafe fn dealloc(&self, at: *mut u8, layout: Layout) {
        // SAFETY: what the caller owes is the same.
        unsafe { System.dealloc(at, layout) }
    }
}

#[global_allocator]
static ALLOCATOR: Refusing = Refusing;

#[derive(Clone, Copy, Debug, PartialEq, Eq)]
enum Phase {
    Free,
    Popped,
    Answered,
}

/// A worker, with its memory and its chain.
struct Seat {
    worker: Worker,
    view: Arc<View>,
    phase: Phase,
    job: Option<Job>,
    outcome: Outcome,
    /// A table was lent since its memory was set.
    had_table: bool,
    /// A panic leaves open how much of the reply buffer was written.
    has_panicked: bool,
}

struct Play {
    world: World,
    seats: Vec<Seat>,
    files: Files,
    is_logging: bool,
    done: [usize; 12],
}

impl Play {
    fn new(seed: u64) -> Play {
        let mut world = World::new(seed);
        let mut seat = || {
            let view = world.view();
            let mut worker = Worker::new();
            worker.set_memory(&world.device, &view.regions).unwrap();
            let (job, outcome) = (None, Outcome::default());
            let (had_table, has_panicked) = (false, false);
            Seat { worker, view, phase: Phase::Free, job, outcome, had_table, has_panicked }
        };
        let seats = (0..WORKERS).map(|_| seat()).collect();
        Play { world, seats, files: Files::new(), is_logging: false, done: [0; 12] }
    }

    fn step(&mut self) {
        let (w, q) = (self.world.chance.below(3) as usize, self.world.chance.below(2) as usize);
        let turn = self.world.chance.below(40);
        let kind = match turn {
            0..=8 => 0,
            9..=17 => 1,
            18..=23 => 2,
            24..=29 => 3,
            30 => 4,
            31 => 5,
            32 => 6,
            33 => 7,
            34..=35 => 8,
            36 => 9,
            37..=38 => 10,
            _ => 11,
        };
        self.done[kind] += 1;
        match kind {
            0 => self.world.offer(q),
            1 => self.pop(w, q),
            2 => self.answer(w),
            3 => self.push(w),
            4 => self.unpop(w),
            5 => self.abandon(w),
            6 => self.reset(q),
            7 => self.set_memory(w),
            8 => self.set_notification(w, q),
            9 => self.toggle_log(),
            10 => self.guest_writes(q),
            _ => self.moves(),
        }
        for seat in &self.seats {
            assert!(seat.view.marks.borrow().is_empty(), "marks that nobody expects: {kind}");
            assert_eq!(seat.worker.has_chain(), seat.phase != Phase::Free);
            assert_eq!(seat.worker.is_answered(), seat.phase == Phase::Answered);
        }
    }

    fn toggle_log(&mut self) {
        self.is_logging = !self.is_logging;
        self.seats.iter().for_each(|seat| seat.view.is_logging.set(self.is_logging));
    }

    /// The driver changes when it is to be notified, and the IOMMU unmaps a page.
    fn guest_writes(&mut self, q: usize) {
        let world = &mut self.world;
        let next = world.queues[q].next_used();
        let value = if world.has_event_index[q] {
            next.wrapping_add(world.chance.below(4) as u16).wrapping_sub(1)
        } else {
            world.chance.below(2) as u16
        };
        world.write(world.driver_event_at(q), &value.to_le_bytes());
        if let Some((page, access)) = world.pages.clone().into_iter().nth(next as usize % 7) {
            match world.chance.one_in(3) {
                true => world.map(page, access, true),
                false => world.unmap(page),
            }
        }
    }

    /// What a call without a table and one with it have in common.
    fn pop_once(&mut self, w: usize, q: usize) -> Result<Popped, Status> {
        let World { table, queues, .. } = &mut self.world;
        let Seat { worker, view, had_table, .. } = &mut self.seats[w];
        match table {
            None => worker.pop(&mut queues[q], &**view).map(|is_popped| match is_popped {
                true => Popped::Chain,
                false => Popped::Idle,
            }),
            Some(table) => {
                *had_table = true;
                let popped = worker.lend(table)?.pop(&mut queues[q], &**view);
                popped
            }
        }
    }

    /// Pops by all misses. `None` after a panic.
    fn pop_by_misses(&mut self, w: usize, q: usize) -> Option<Result<Popped, Status>> {
        for _ in 0..8 {
            let panicking = AssertUnwindSafe(|| self.pop_once(w, q));
            let popped = catch_unwind(panicking).ok()?;
            if popped != Ok(Popped::Missing) {
                return Some(popped);
            }
            let most = MOST.with(|most| most.replace(usize::MAX));
            let needs = self.world.needs(q, self.world.offered[q].front());
            let mut end = 0;
            for miss in self.seats[w].worker.misses().to_vec() {
                assert!(miss.iova % PAGE == 0 && miss.len % PAGE == 0 && miss.len > 0);
                assert!(miss.iova >= end, "they overlap");
                end = miss.iova + miss.len;
                for page in miss.iova / PAGE..end / PAGE {
                    let needed: Vec<_> = needs.iter().filter(|need| need.0 == page).collect();
                    assert!(needed.iter().any(|need| need.1 == miss.access), "{miss:?}");
                    let access = needed.iter().fold(miss.access, |all, need| all.or(need.1));
                    assert_ne!(self.world.pages.get(&page), Some(&access), "it is mapped");
                    self.world.map(page, access, true);
                }
            }
            MOST.with(|cell| cell.set(most));
        }
        panic!("a pop misses again and again");
    }

    fn pop(&mut self, w: usize, q: usize) {
        let (in_flight, next) =
            (self.world.queues[q].in_flight(), self.world.queues[q].next_avail());
        let wanted = if self.seats[w].phase != Phase::Free {
            Err(Status::WrongOrder)
        } else if in_flight == 2 {
            Err(Status::ChainInFlight)
        } else if self.world.offered[q].is_empty() {
            Ok(Popped::Idle)
        } else {
            Ok(Popped::Chain)
        };
        let fails = self.world.chance.one_in(6);
        let panics = !fails && self.world.chance.one_in(6);
        let most = if fails { self.world.chance.below(400) as usize } else { usize::MAX };
        let after = panics.then(|| self.world.chance.below(8));
        self.seats[w].view.panics_after.set(after);
        MOST.with(|cell| cell.set(most));
        let popped = self.pop_by_misses(w, q);
        MOST.with(|cell| cell.set(usize::MAX));
        self.seats[w].view.panics_after.set(None);
        let is_same = (self.world.queues[q].in_flight(), self.world.queues[q].next_avail());
        if popped.is_none() || (fails && popped == Some(Err(Status::OutOfMemory))) {
            assert!(fails || panics);
            assert_eq!(is_same, (in_flight, next), "nothing is popped");
            return self.pop_unlent(w, q);
        }
        assert_eq!(popped, Some(wanted));
        if wanted != Ok(Popped::Chain) {
            return assert_eq!(is_same, (in_flight, next));
        }
        assert_eq!(is_same, (in_flight + 1, next.wrapping_add(1)));
        let mut job = self.world.offered[q].pop_front().unwrap();
        assert_eq!(job.at, next);
        job.begun = self.world.begun[q];
        let seat = &mut self.seats[w];
        seat.phase = if job.kind == Kind::Faulty { Phase::Answered } else { Phase::Popped };
        (seat.outcome, seat.has_panicked, seat.job) = (Outcome::default(), false, Some(job));
        assert!(seat.worker.misses().is_empty());
    }

    /// A worker that had a table doesn't pop without one, also if no chain is available.
    fn pop_unlent(&mut self, w: usize, q: usize) {
        let (seat, queue) = (&mut self.seats[w], &mut self.world.queues[q]);
        if seat.had_table && seat.phase == Phase::Free && queue.in_flight() < 2 {
            assert_eq!(seat.worker.pop(queue, &*seat.view), Err(Status::OtherTable));
        }
    }

    /// The pages of a chain's buffers mean others, or nothing: the chain keeps its windows.
    fn confuse(&mut self, job: &Job, is_over: bool) {
        let needs = self.world.needs(job.queue, Some(job));
        let buffers: BTreeSet<u64> = needs[4..].iter().map(|need| need.0).collect();
        for page in buffers {
            match is_over {
                true => self.world.unmap(page),
                false => self.world.map(page, Access::ReadWrite, false),
            }
        }
    }

    fn answer(&mut self, w: usize) {
        let (chance, job) = (&mut self.world.chance, self.seats[w].job.clone());
        let end = [End::Well, End::Well, End::Well, End::Error, End::Panic];
        self.files.end.set(end[chance.below(5) as usize]);
        self.files.len.set(1 + chance.below(200));
        self.files.by_windows.set(chance.one_in(3));
        let panics_after = chance.one_in(8).then(|| chance.below(6));
        if let (Some(job), true) = (&job, self.world.table.is_some()) {
            self.confuse(job, false);
        }
        let (seat, device) = (&mut self.seats[w], &self.world.device);
        seat.view.panics_after.set(panics_after);
        let mut answer = || seat.worker.answer(device, &self.files, &*seat.view);
        let mut answered = catch_unwind(AssertUnwindSafe(&mut answer));
        seat.view.panics_after.set(None);
        let has_panicked = answered.is_err();
        if has_panicked {
            answered = Ok(answer());
        }
        let called = std::mem::take(&mut *self.files.calls.borrow_mut());
        if let (Some(job), true) = (&job, self.world.table.is_some()) {
            self.confuse(job, true);
        }
        let seat = &mut self.seats[w];
        let job = match (job, seat.phase) {
            (None, _) => return assert_eq!(answered.unwrap(), Err(Status::WrongOrder)),
            (_, Phase::Answered) => {
                return assert_eq!((answered.unwrap(), called), (Ok(()), vec![]))
            }
            (Some(job), _) => job,
        };
        assert_eq!(answered.unwrap(), Ok(()));
        (seat.phase, seat.has_panicked) = (Phase::Answered, has_panicked);
        seat.outcome =
            if has_panicked { Outcome::error(&job, 5) } else { Outcome::of(&job, &self.files) };
        let is_call = matches!(job.kind, Kind::Lookup | Kind::Read | Kind::Open);
        let name = ["lookup", "read", "open"].get(job.kind as usize).copied().unwrap_or_default();
        assert!(has_panicked || called.len() == usize::from(is_call));
        assert!(called.iter().all(|call| *call == (name, job.unique)), "{called:?}");
        assert_eq!(*self.files.undone.borrow(), seat.outcome.undone);
        self.files.undone.borrow_mut().clear();
        self.may_differ(w);
    }

    /// The bytes of the reply buffer that may have been written.
    fn may_differ(&mut self, w: usize) {
        let seat = &self.seats[w];
        let job = seat.job.as_ref().unwrap();
        let len = if seat.has_panicked { job.room_len() } else { seat.outcome.written };
        for at in job.room_bytes(len) {
            let byte = self.world.read(at, 1);
            self.world.expect(at, &byte);
        }
    }

    /// The guest addresses of what was written, as marks have them.
    fn marks_of(&self, w: usize, bytes: &[u64]) -> BTreeSet<u64> {
        if !self.is_logging {
            return BTreeSet::new();
        }
        let of = |at: &u64| match self.world.table {
            Some(_) => self.seats[w].view.aliases(self.world.guest(*at)),
            None => vec![*at],
        };
        bytes.iter().flat_map(of).collect()
    }

    /// Marks are just of these bytes; those of the chain's reply buffer may be more after a panic.
    fn check_marks(&self, w: usize, job: Option<&Job>, bytes: &[u64]) {
        let (seat, wanted) = (&self.seats[w], self.marks_of(w, bytes));
        let marks = seat.view.marks.take();
        if !seat.has_panicked {
            return assert_eq!(marks, wanted);
        }
        let room = job.map_or(vec![], |job| job.room_bytes(job.room_len()));
        let room = self.marks_of(w, &room);
        assert!(marks.is_superset(&wanted));
        assert!(marks.iter().all(|mark| wanted.contains(mark) || room.contains(mark)));
    }

    fn push_once(&mut self, w: usize, q: usize) -> Result<Served, Status> {
        let World { table, queues, .. } = &mut self.world;
        let Seat { worker, view, .. } = &mut self.seats[w];
        match table {
            None => worker.push(&mut queues[q], &**view),
            Some(table) => {
                let pushed = worker.lend(table)?.push(&mut queues[q], &**view);
                pushed
            }
        }
    }

    fn push(&mut self, w: usize) {
        let job = match (self.seats[w].job.clone(), self.seats[w].phase) {
            (Some(job), Phase::Answered) => job,
            _ => return assert_eq!(self.push_once(w, 0), Err(Status::WrongOrder)),
        };
        let q = job.queue;
        if self.world.table.is_some() {
            self.push_by_other_tables(w, &job);
            for (page, access) in self.world.needs(q, None) {
                self.world.map(page, access, true);
            }
        }
        if !self.world.is_live(&job) || self.world.chance.one_in(16) {
            let to = if self.world.is_live(&job) { 1 - q } else { q };
            assert_eq!(self.push_once(w, to), Err(Status::OtherQueue));
            return self.is_lost(w, &job, None);
        }
        let next = self.world.queues[q].next_used();
        let (element, index) = self.world.used_at(q, next);
        let event = self.world.read(self.world.driver_event_at(q), 2);
        let event = u16::from_le_bytes([event[0], event[1]]);
        let has_index = self.world.has_event_index[q];
        let served = self.push_once(w, q).unwrap();
        let Outcome { front, len, written, had_no_room, .. } = self.seats[w].outcome.clone();
        let is_faulty = job.kind == Kind::Faulty;
        let lens = if is_faulty { (0, 0) } else { (job.request_len, job.room_len()) };
        assert_eq!((served.head, (served.request_len, served.room_len)), (job.head, lens));
        let unique = if is_faulty { 0 } else { job.unique };
        assert_eq!((served.opcode, served.unique), (job.kind.opcode(), unique));
        assert_eq!((u64::from(served.reply_len), served.had_no_room), (len, had_no_room));
        assert_eq!((served.fault.is_some(), served.request_fault), (is_faulty, None));
        let notify = if has_index { event == next } else { event & 1 == 0 };
        assert_eq!(served.notify, notify, "{has_index} {event} {next}");
        self.may_differ(w);
        for (at, byte) in job.room_bytes(front.len() as u64).into_iter().zip(front) {
            self.world.expect(at, &[byte]);
        }
        let head = u32::from(job.head).to_le_bytes();
        self.world.expect(element, &[head, served.reply_len.to_le_bytes()].concat());
        self.world.expect(index, &next.wrapping_add(1).to_le_bytes());
        let used = (element..element + 8).chain(index..index + 2);
        let bytes: Vec<u64> = job.room_bytes(written).into_iter().chain(used).collect();
        self.check_marks(w, Some(&job), &bytes);
        assert!(self.seats[w].worker.cancelled().is_none());
        self.world.free(&job);
        (self.seats[w].phase, self.seats[w].job) = (Phase::Free, None);
    }

    /// Without a table, or by one that lacks the rings, the worker keeps the chain.
    fn push_by_other_tables(&mut self, w: usize, job: &Job) {
        let (seat, queue) = (&mut self.seats[w], &mut self.world.queues[job.queue]);
        assert_eq!(seat.worker.push(queue, &*seat.view), Err(Status::WrongOrder));
        if self.world.begun[job.queue] == job.begun && self.world.chance.one_in(3) {
            let mut other = Iotlb::new().unwrap();
            let pushed = seat.worker.lend(&mut other).unwrap().push(queue, &*seat.view);
            assert_eq!(pushed, Err(Status::OtherTable));
            seat.view.marks.take();
        }
    }

    /// The chain isn't returned, and what its answer gave is undone.
    fn is_lost(&mut self, w: usize, job: &Job, cancelled: Option<Cancelled>) {
        let seat = &mut self.seats[w];
        let cancelled = cancelled.or_else(|| seat.worker.cancelled());
        if let Some(cancelled) = cancelled {
            assert!(!matches!(job.kind, Kind::Unknown | Kind::Faulty));
            assert_eq!(cancelled.context.unique, job.unique);
            cancelled.undo(&self.files);
        }
        assert_eq!(*self.files.undone.borrow(), seat.outcome.undone_if_lost);
        self.files.undone.borrow_mut().clear();
        seat.view.marks.take();
        (seat.phase, seat.job) = (Phase::Free, None);
        if self.world.is_live(job) {
            self.reset(job.queue);
        }
    }

    fn abandon(&mut self, w: usize) {
        let cancelled = self.seats[w].worker.abandon();
        match self.seats[w].job.clone() {
            Some(job) => self.is_lost(w, &job, cancelled),
            None => assert!(cancelled.is_none()),
        }
    }

    fn unpop(&mut self, w: usize) {
        let seat = &mut self.seats[w];
        let job = match seat.job.clone() {
            Some(job) => job,
            None => {
                let unpopped = seat.worker.unpop(&mut self.world.queues[0]);
                return assert_eq!(unpopped, Err(Status::WrongOrder));
            }
        };
        let queue = &mut self.world.queues[job.queue];
        let is_last = queue.next_avail() == job.at.wrapping_add(1);
        let is_live = self.world.begun[job.queue] == job.begun;
        let unpopped = seat.worker.unpop(queue);
        if seat.phase == Phase::Popped && is_last && is_live {
            assert_eq!((unpopped, queue.next_avail()), (Ok(()), job.at));
            (seat.phase, seat.job) = (Phase::Free, None);
            self.world.offered[job.queue].push_front(job);
        } else {
            assert!(matches!(unpopped, Err(Status::WrongOrder | Status::OtherQueue)));
        }
    }

    /// Chains that aren't answered are given up first. The others are refused later.
    fn reset(&mut self, q: usize) {
        for w in 0..WORKERS {
            let is_of = self.seats[w].job.as_ref().map_or(false, |job| job.queue == q);
            if is_of && self.seats[w].phase == Phase::Popped {
                let seat = &mut self.seats[w];
                assert!(seat.worker.abandon().is_none(), "nothing is called");
                (seat.phase, seat.job) = (Phase::Free, None);
            }
        }
        self.world.reset(q);
    }

    fn set_memory(&mut self, w: usize) {
        let (view, fails) = (self.world.view(), self.world.chance.below(4));
        view.is_logging.set(self.is_logging);
        let (seat, device) = (&mut self.seats[w], &self.world.device);
        let twice = [view.regions[0]; 2];
        let regions = if fails == 1 { &twice[..] } else { &view.regions };
        MOST.with(|cell| cell.set(if fails == 2 { 0 } else { usize::MAX }));
        let set = seat.worker.set_memory(device, regions);
        MOST.with(|cell| cell.set(usize::MAX));
        match (seat.phase, fails) {
            (_, 2) => assert_eq!(set, Err(Status::OutOfMemory)),
            (Phase::Free, 1) => assert_eq!(set, Err(Status::RegionsOverlap)),
            (Phase::Free, _) => {
                assert_eq!(set, Ok(()));
                (seat.view, seat.had_table) = (view, false);
            }
            (_, 1) => assert!(set.is_err()),
            _ => assert_eq!(set, Err(Status::ChainInFlight)),
        }
    }

    fn set_notification(&mut self, w: usize, q: usize) {
        let is_enabled = self.world.chance.one_in(2);
        let at = self.world.device_event_at(q);
        let access = self.world.pages.get(&(at / PAGE)).copied();
        let has_index = self.world.has_event_index[q];
        let next = self.world.queues[q].next_avail();
        let (seat, World { table, queues, .. }) = (&mut self.seats[w], &mut self.world);
        let stored = match table {
            None => seat.worker.set_notification(&queues[q], is_enabled, &*seat.view),
            Some(table) => {
                seat.had_table = true;
                let mut lent = seat.worker.lend(table).unwrap();
                lent.set_notification(&queues[q], is_enabled, &*seat.view)
            }
        };
        let stores = is_enabled || !has_index;
        let is_mapped =
            table.is_none() || matches!(access, Some(Access::Write | Access::ReadWrite));
        if stores && !is_mapped {
            let iova = at / PAGE * PAGE;
            assert_eq!(stored, Err(Status::NotMapped));
            let miss = Miss { iova, len: PAGE, access: Access::Write };
            return assert_eq!(seat.worker.misses(), [miss]);
        }
        assert_eq!(stored, Ok(stores));
        if stores {
            let value = if has_index { next } else { u16::from(!is_enabled) };
            self.world.expect(at, &value.to_le_bytes());
            let has_panicked = std::mem::take(&mut self.seats[w].has_panicked);
            self.check_marks(w, None, &[at, at + 1]);
            self.seats[w].has_panicked = has_panicked;
        }
    }

    /// The device moves, unless a chain is in flight.
    fn moves(&mut self) {
        let world = &mut self.world;
        let saved = world.device.save(&world.queues);
        if world.queues.iter().any(|queue| queue.in_flight() > 0) {
            return assert_eq!(saved, Err(Status::ChainInFlight));
        }
        world.device = Device::default();
        let queues = world.device.restore(&saved.unwrap()).unwrap();
        let again = |(queue, has_index): (Queue, bool)| {
            queue.with_max_in_flight(2).unwrap().with_event_index(has_index)
        };
        world.queues = queues.into_iter().zip(world.has_event_index).map(again).collect();
        world.begun = world.begun.map(|begun| begun + 2); // the rings stay
    }
}

#[test]
fn all_is_as_the_model_says() {
    let printed = std::panic::take_hook();
    std::panic::set_hook(Box::new(move |info| {
        if info.payload().downcast_ref::<&str>() != Some(&"wanted") {
            MOST.with(|cell| cell.set(usize::MAX)); // a backtrace takes memory
            printed(info);
        }
    }));
    let number = |name| std::env::var(name).ok().and_then(|text| text.parse::<u64>().ok());
    let first = number("PITSKHOMU_FIRST").unwrap_or(1);
    for seed in first..first + number("PITSKHOMU_SEQUENCES").unwrap_or(SEQUENCES) {
        let mut play = Play::new(seed);
        for step in 0..STEPS {
            play.step();
            if step % 50 == 49 {
                play.world.check();
            }
        }
        assert!(play.done.iter().sum::<usize>() == STEPS);
    }
}
