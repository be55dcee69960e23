//! A player of random sequences, and its model of what must come of each step.
pub mod answers;
pub mod machine;

use answers::{undone, Answered, Job, Undone, KINDS};
use machine::{Machine, MAX_IN_FLIGHT};
use pitskhomu::*;
use std::panic::{catch_unwind, AssertUnwindSafe};
use std::sync::atomic::{AtomicUsize, Ordering};
use std::sync::{Arc, Mutex};
use std::task::Wake;
use std::thread;

/// The seeds of the sequences.
pub fn turns(count: usize) -> std::ops::Range<u64> {
    let of = |name| std::env::var(name).ok().and_then(|text| text.parse::<u64>().ok());
    let first = of("PITSKHOMU_FIRST").unwrap_or(0);
    first..first + of("PITSKHOMU_SEQUENCES").unwrap_or(count as u64)
}

/// Keeps panics that are wanted from being printed.
pub fn silence() {
    let printed = std::panic::take_hook();
    std::panic::set_hook(Box::new(move |info| {
        let wanted = info.payload().downcast_ref::<&str>() == Some(&"wanted");
        if !wanted {
            printed(info);
        }
    }));
}

/// Replies that nobody drops, as `mem::forget` leaves them. They are no leak: they may be reached.
static FORGOTTEN: Mutex<Vec<Reply>> = Mutex::new(Vec::new());

/// xorshift64*.
pub struct Random(u64);

impl Random {
    pub fn below(&mut self, end: usize) -> usize {
        self.0 ^= self.0 >> 12;
        self.0 ^= self.0 << 25;
        self.0 ^= self.0 >> 27;
        (self.0.wrapping_mul(0x2545_f491_4f6c_dd1d) >> 33) as usize % end
    }
}

/// What a waker does, and what it did.
struct Waking {
    panics: bool,
    woken: AtomicUsize,
    /// Replies that it drops when it is woken.
    drops: Mutex<Vec<Held>>,
    dropped: Mutex<Vec<u64>>,
}

impl Wake for Waking {
    fn wake(self: Arc<Self>) {
        self.woken.fetch_add(1, Ordering::Relaxed);
        let drops = std::mem::take(&mut *self.drops.lock().unwrap());
        for held in drops {
            self.dropped.lock().unwrap().push(held.job.tag);
            drop(held);
        }
        if self.panics {
            std::panic::panic_any("wanted");
        }
    }
}

#[derive(Clone, Copy, Debug, PartialEq, Eq)]
enum Phase {
    Free,
    Popped,
    Decoded,
    Replied,
}

struct Served {
    worker: Worker,
    phase: Phase,
    job: Option<Job>,
    id: Option<RequestId>,
    accepted: Option<Answer<Response>>,
    answered: Option<Answered>,
    waking: Option<Arc<Waking>>,
    woken: usize,
}

struct Held {
    reply: Reply,
    job: Job,
}

pub struct Play {
    random: Random,
    machines: Vec<Machine>,
    /// The workers of each machine.
    workers: Vec<Vec<Served>>,
    held: Vec<Held>,
    next_tag: u64,
    tried: [usize; 16],
}

const WORKERS: usize = 3;

fn fresh(machine: &Machine) -> Served {
    Served {
        worker: machine.worker(),
        phase: Phase::Free,
        job: None,
        id: None,
        accepted: None,
        answered: None,
        waking: None,
        woken: 0,
    }
}

impl Served {
    fn free(&mut self) {
        self.phase = Phase::Free;
        (self.job, self.id, self.accepted, self.answered) = (None, None, None, None);
    }
}

/// Runs something here, or on a thread of its own.
fn somewhere<R: Send>(elsewhere: bool, f: impl FnOnce() -> R + Send) -> R {
    if elsewhere {
        thread::scope(|scope| scope.spawn(f).join().unwrap())
    } else {
        f()
    }
}

impl Play {
    pub fn new(seed: u64) -> Play {
        let machines = vec![Machine::new(false), Machine::new(true)];
        let of = |machine| (0..WORKERS).map(|_| fresh(machine)).collect();
        let workers = machines.iter().map(of).collect();
        let random = Random(seed.wrapping_mul(0x9e37_79b9_7f4a_7c15) | 1);
        Play { random, machines, workers, held: vec![], next_tag: 1, tried: [0; 16] }
    }

    pub fn step(&mut self) {
        let (m, w, q) = (self.random.below(2), self.random.below(WORKERS), self.random.below(2));
        let kind =
            [0, 0, 1, 1, 1, 2, 3, 4, 4, 4, 4, 5, 5, 6, 6, 6, 7, 8, 9, 10, 11, 12, 13, 14, 15]
                [self.random.below(25)];
        // Rarer: what ends all chains of a queue.
        if matches!(kind, 8..=11) && self.random.below(3) > 0 {
            return;
        }
        self.tried[kind] += 1;
        match kind {
            0 => self.offer(m, q),
            1 => self.pop(m, w, q, true),
            2 => self.pop(m, w, q, false),
            3 => self.decode(m, w),
            4 | 14 | 15 => self.send(kind),
            5 => self.finish(m, w),
            6 => self.push(m, w, None),
            7 => self.unpop(m, w),
            8 => self.machines[m].reset(q),
            9 => self.machines[m].moves(),
            10 => self.drop_worker(m, w),
            11 => self.abandon(m, w),
            12 => self.set(m, w),
            _ => self.misuse(m, w, q),
        }
        self.hear();
    }

    /// What wakers dropped meanwhile is answered EIO.
    fn hear(&mut self) {
        let mut dropped = Vec::new();
        for served in self.workers.iter_mut().flatten() {
            if let Some(waking) = &served.waking {
                dropped.append(&mut waking.dropped.lock().unwrap());
            }
        }
        for tag in dropped {
            if let Some(served) = self.open(tag) {
                served.accepted = Some(Err(Errno::EIO));
                served.woken += 1;
            }
        }
    }

    /// The worker that still takes the answer to a request.
    fn open(&mut self, tag: u64) -> Option<&mut Served> {
        let machines = &self.machines;
        self.workers.iter_mut().flatten().find(|served| {
            served.job.as_ref().map_or(false, |job| job.tag == tag && job.is_live(machines))
                && served.phase == Phase::Decoded
                && served.accepted.is_none()
        })
    }

    fn offer(&mut self, m: usize, q: usize) {
        let kind = KINDS[self.random.below(KINDS.len())];
        let is_small = kind.may_be_small() && self.random.below(6) == 0;
        let same = self.random.below(2) == 0;
        let job =
            Job { tag: self.next_tag, kind, is_small, machine: m, queue: q, epoch: 0, k: 0, at: 0 };
        self.next_tag += 1;
        self.machines[m].offer(job, same);
    }

    fn pop(&mut self, m: usize, w: usize, q: usize, decodes: bool) {
        let elsewhere = self.random.below(8) == 0;
        let (machine, served) = (&mut self.machines[m], &mut self.workers[m][w]);
        let popped = somewhere(elsewhere, || machine.pop(&mut served.worker, q));
        if served.phase != Phase::Free {
            assert_eq!(popped, Err(Status::WrongOrder));
            return;
        }
        assert!(served.worker.cancelled().is_none());
        match popped {
            Ok(true) => {
                served.job = machine.taken(q);
                assert!(served.job.is_some(), "a chain that nobody offered");
                served.phase = Phase::Popped;
            }
            Ok(false) => assert!(machine.offered(q) == 0, "a chain is left"),
            Err(Status::ChainInFlight) => {
                assert_eq!(machine.queues[q].in_flight(), MAX_IN_FLIGHT);
                if self.random.below(3) == 0 {
                    machine.reset(q); // its chains may be lost
                }
            }
            Err(status) => panic!("{status:?}"),
        }
        if decodes && popped == Ok(true) {
            self.decode(m, w);
        }
    }

    fn decode(&mut self, m: usize, w: usize) {
        let is_owned = self.random.below(2) == 0;
        let (machine, served) = (&self.machines[m], &mut self.workers[m][w]);
        let decoded = served.worker.decode(&machine.device, &*machine.memory);
        if served.phase != Phase::Popped {
            let none = served.job.as_ref().map_or(false, |job| !job.kind.has_answer());
            assert!(decoded.is_err() || (none && served.phase == Phase::Replied));
            return;
        }
        let request = decoded.unwrap();
        let job = served.job.clone().unwrap();
        if !job.is_live(&self.machines) {
            // The bytes are what another session has there by now.
            let Request { reply, operation, .. } = request;
            assert!(
                matches!(operation, Operation::Forget { .. } | Operation::None)
                    || reply.is_cancelled()
            );
            let cancelled = served.worker.abandon().map_or(vec![], |cancelled| cancelled.undo);
            assert_eq!(cancelled, []);
            return served.free();
        }
        job.check(&request.operation);
        let reply = if is_owned {
            let owned = request.into_owned().unwrap();
            job.check(&owned.call.operation());
            owned.reply
        } else {
            request.reply
        };
        served.id = Some(reply.id());
        assert!(!reply.is_cancelled() || !job.is_live(&self.machines));
        let has_answer = job.kind.has_answer();
        let kind = job.kind;
        served.phase = if has_answer { Phase::Decoded } else { Phase::Replied };
        served.answered = (!has_answer).then(|| Answered::by_library(kind));
        self.held.push(Held { reply, job });
    }

    /// Answers by an object, at random.
    fn send(&mut self, kind: usize) {
        if self.held.is_empty() {
            return;
        }
        let k = self.random.below(self.held.len());
        let held = self.held.swap_remove(k);
        let elsewhere = self.random.below(4) == 0;
        if kind == 15 {
            return self.lose(held, elsewhere);
        }
        if kind == 14 && self.random.below(2) == 0 {
            return self.give_to_waker(held);
        }
        let (tag, of, has_answer) = (held.job.tag, held.job.clone(), held.job.kind.has_answer());
        let answer = answers::random(&mut self.random, &held.job);
        let is_open = self.open(tag).is_some();
        let touched = self.touched();
        assert_eq!(held.reply.is_cancelled(), has_answer && !is_open);
        let id = held.reply.id();
        let (reply, given) = (held.reply, answer.clone());
        let send = AssertUnwindSafe(move || reply.answer(given));
        let sent = somewhere(elsewhere, move || catch_unwind(send));
        assert_eq!(self.touched(), touched, "an answer touches no memory");
        let fits = of.kind.takes(&answer);
        let now = if fits { answer.clone() } else { Err(Errno::EIO) };
        let panics = self.accept(tag, now);
        match sent {
            Err(_) => assert!(panics, "the answer panics"),
            Ok(Ok(())) => assert!(!has_answer || (is_open && fits), "{of:?} {answer:?}"),
            Ok(Err(unsent)) => {
                assert!(has_answer && (!is_open || !fits), "{of:?} {answer:?}");
                let status = if is_open { Status::OtherKind } else { Status::OtherCall };
                assert_eq!(unsent.status(), status);
                assert_eq!(unsent.cancelled().context.id, id);
                assert_eq!(undone(&unsent.cancelled().undo), of.undo(&answer));
                assert_eq!(unsent.into_answer(), answer);
            }
        }
    }

    /// Notes an answer that is taken now; whether the worker's waker panics then.
    fn accept(&mut self, tag: u64, answer: Answer<Response>) -> bool {
        self.open(tag).map_or(false, |served| {
            served.accepted = Some(answer);
            served.woken += 1;
            served.waking.as_ref().map_or(false, |waking| waking.panics)
        })
    }

    /// Drops an object: at once, by a thread that panics, or never.
    fn lose(&mut self, held: Held, elsewhere: bool) {
        let (tag, reply) = (held.job.tag, held.reply);
        if self.random.below(8) == 0 {
            return FORGOTTEN.lock().unwrap().push(reply);
        }
        let touched = self.touched();
        if elsewhere && self.open(tag).map_or(true, |served| served.waking.is_none()) {
            let panics = move || {
                let _reply = reply;
                std::panic::panic_any("wanted");
            };
            assert!(thread::spawn(panics).join().is_err());
            self.accept(tag, Err(Errno::EIO));
        } else {
            let dropped = catch_unwind(AssertUnwindSafe(move || drop(reply)));
            assert_eq!(self.accept(tag, Err(Errno::EIO)), dropped.is_err());
        }
        assert_eq!(self.touched(), touched);
    }

    /// The object is dropped when another worker's waker is woken.
    fn give_to_waker(&mut self, held: Held) {
        let own = |served: &&Served| served.job.as_ref().map(|job| job.tag) != Some(held.job.tag);
        let wakers = self.workers.iter().flatten().filter(own);
        let waking =
            wakers.filter_map(|served| served.waking.clone()).find(|waking| !waking.panics);
        // A waker that panics while another one wakes it would end the other's call.
        let panics = self.open(held.job.tag).map_or(false, |served| served.waking.is_some());
        match waking {
            Some(waking) if !panics => waking.drops.lock().unwrap().push(held),
            _ => self.held.push(held),
        }
    }

    fn touched(&self) -> [usize; 2] {
        [0, 1].map(|m| self.machines[m].memory.touched())
    }

    fn finish(&mut self, m: usize, w: usize) {
        let elsewhere = self.random.below(8) == 0;
        let (machine, served) = (&self.machines[m], &mut self.workers[m][w]);
        let (device, memory) = (&machine.device, &*machine.memory);
        let before = (served.accepted.is_some()).then(|| memory.all());
        let touched = memory.touched();
        let Served { worker, .. } = served;
        let finished = somewhere(elsewhere, || worker.finish(device, memory));
        match (&served.job, before) {
            (Some(job), Some(before)) => {
                machine.only_its_room(job, job.is_live(&self.machines), &before);
            }
            _ => assert_eq!(memory.touched(), touched),
        }
        match (served.phase, served.accepted.take()) {
            (Phase::Free | Phase::Popped, _) => assert_eq!(finished, Err(Status::WrongOrder)),
            (Phase::Replied, _) => assert_eq!(finished, Ok(true)),
            (Phase::Decoded, None) => assert_eq!(finished, Ok(false)),
            (Phase::Decoded, Some(answer)) => {
                assert_eq!(finished, Ok(true));
                let job = served.job.as_ref().unwrap();
                let answered = if job.is_live(&self.machines) {
                    job.answered(&answer)
                } else {
                    Answered { undo_if_lost: job.undo(&answer), ..Answered::by_library(job.kind) }
                };
                served.told(&answered.undo_now, !answered.undo_now.is_empty());
                (served.answered, served.phase) = (Some(answered), Phase::Replied);
            }
        }
        assert!(served.worker.cancelled().is_none());
    }

    fn push(&mut self, m: usize, w: usize, queue: Option<usize>) {
        let elsewhere = self.random.below(8) == 0;
        let served = &mut self.workers[m][w];
        let own = served.job.as_ref().map(|job| job.queue);
        let q = queue.or(own).unwrap_or(0);
        let is_live = served.job.as_ref().map_or(false, |job| job.is_live(&self.machines));
        let is_own = own == Some(q) && is_live;
        let machine = &mut self.machines[m];
        let touched = machine.memory.touched();
        let before = if is_own { machine.memory.all() } else { vec![] };
        let pushed = somewhere(elsewhere, || machine.push(&mut served.worker, q));
        if served.phase != Phase::Replied {
            assert_eq!(pushed, Err(Status::WrongOrder));
            assert_eq!(machine.memory.touched(), touched);
            return;
        }
        let (job, answered) = (served.job.clone().unwrap(), served.answered.take().unwrap());
        if is_own {
            let len = pushed.expect("its own queue takes it").reply_len as usize;
            machine.returned(&job, len, &answered, &before);
            assert!(served.worker.cancelled().is_none());
        } else {
            assert_eq!(pushed, Err(Status::OtherQueue));
            assert_eq!(machine.memory.touched(), touched);
            served.told(&answered.undo_if_lost, job.kind.has_answer());
        }
        served.free();
    }

    fn unpop(&mut self, m: usize, w: usize) {
        let served = &mut self.workers[m][w];
        let job = match served.job.clone() {
            Some(job) => job,
            None => {
                let queue = &mut self.machines[m].queues[0];
                return assert_eq!(served.worker.unpop(queue), Err(Status::WrongOrder));
            }
        };
        let is_live = job.is_live(&self.machines);
        let queue = &mut self.machines[m].queues[job.queue];
        let is_last = queue.next_avail() == job.at.wrapping_add(1);
        let undone = served.worker.unpop(queue);
        if served.phase == Phase::Popped && is_live && is_last {
            assert_eq!(undone, Ok(()));
            self.machines[m].unpopped(job);
            served.free();
        } else {
            assert!(matches!(undone, Err(Status::WrongOrder | Status::OtherQueue)), "{undone:?}");
            assert!(served.worker.has_chain());
        }
    }

    fn drop_worker(&mut self, m: usize, w: usize) {
        let gone = std::mem::replace(&mut self.workers[m][w], fresh(&self.machines[m]));
        if let Some(waking) = gone.waking {
            self.held.append(&mut waking.drops.lock().unwrap());
        }
        thread::scope(|scope| {
            let worker = gone.worker;
            scope.spawn(move || drop(worker));
        });
    }

    fn abandon(&mut self, m: usize, w: usize) {
        let served = &mut self.workers[m][w];
        let abandoned = served.worker.abandon();
        let job = served.job.clone();
        let is_called = matches!(served.phase, Phase::Decoded | Phase::Replied)
            && job.as_ref().map_or(false, |job| job.kind.has_answer());
        let undo = match (&served.accepted, &served.answered) {
            (Some(answer), _) => job.as_ref().map_or(vec![], |job| job.undo(answer)),
            (_, Some(answered)) => answered.undo_if_lost.clone(),
            _ => vec![],
        };
        match abandoned {
            Some(cancelled) => {
                assert!(is_called);
                assert_eq!(Some(cancelled.context.id), served.id);
                assert_eq!(undone(&cancelled.undo), undo);
            }
            None => assert!(!is_called),
        }
        assert!(served.worker.cancelled().is_none() && served.worker.abandon().is_none());
        served.free();
    }

    /// Sets a worker's memory or its waker.
    fn set(&mut self, m: usize, w: usize) {
        let (machine, served) = (&self.machines[m], &mut self.workers[m][w]);
        let wanted = if served.phase == Phase::Free { Ok(()) } else { Err(Status::ChainInFlight) };
        if self.random.below(2) == 0 {
            assert_eq!(machine.set_memory(&mut served.worker), wanted);
            return;
        }
        let waking = Arc::new(Waking {
            panics: self.random.below(3) == 0,
            woken: AtomicUsize::new(0),
            drops: Mutex::default(),
            dropped: Mutex::default(),
        });
        assert_eq!(served.worker.set_waker(Some(waking.clone().into())), wanted);
        if wanted.is_ok() {
            if let Some(old) = served.waking.replace(waking) {
                assert_eq!(old.woken.load(Ordering::Relaxed), served.woken);
                self.held.append(&mut old.drops.lock().unwrap());
            }
            served.woken = 0;
        }
    }

    /// Calls that are never right.
    fn misuse(&mut self, m: usize, w: usize, q: usize) {
        match self.random.below(3) {
            0 => self.push(m, w, Some(q)),
            1 => {
                let (machine, served) = (&self.machines[m], &mut self.workers[m][w]);
                if served.phase == Phase::Decoded && served.accepted.is_none() {
                    let answered =
                        served.worker.answer(&machine.device, &answers::Nothing, &*machine.memory);
                    assert_eq!(answered, Err(Status::WrongOrder));
                }
            }
            _ if self.held.len() > 1 => {
                // The objects of two requests change places, on another thread.
                let (from, to) = (self.random.below(self.held.len()), self.held.len() - 1);
                let (held, ids) = (&mut self.held, |held: &[Held]| held[from].reply.id());
                let before = ids(held);
                thread::scope(|scope| {
                    scope.spawn(|| held.swap(from, to));
                });
                assert_eq!(self.held[to].reply.id(), before);
            }
            _ => {}
        }
    }

    /// Ends everything, and drops what is held.
    pub fn end(mut self) -> [usize; 16] {
        for m in 0..2 {
            for w in 0..WORKERS {
                self.finish(m, w);
                self.push(m, w, None);
                self.abandon(m, w);
                if let Some(waking) = &self.workers[m][w].waking {
                    self.held.append(&mut waking.drops.lock().unwrap());
                }
            }
        }
        for held in std::mem::take(&mut self.held) {
            assert!(held.reply.is_cancelled() || !held.job.kind.has_answer());
            drop(held);
        }
        self.tried
    }
}

impl Served {
    /// The worker tells of its call, and what is to be undone of it, if it must.
    fn told(&mut self, undo: &Undone, must: bool) {
        let told = self.worker.cancelled();
        assert_eq!(told.is_some(), must);
        if let Some(cancelled) = told {
            assert_eq!(Some(cancelled.context.id), self.id);
            assert_eq!(undone(&cancelled.undo), *undo);
        }
    }
}
