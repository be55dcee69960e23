//! The chains in flight of a ring, one for each thread, and where each thread is: within the
//! guest's memory, or away in a call of the host.
use std::fmt;
use std::sync::atomic::{AtomicBool, AtomicU32, AtomicU64, Ordering};

/// FUSE's opcodes of the calls that begin and end a session (enum `fuse_opcode`).
const INIT: u32 = 26;
const DESTROY: u32 = 38;

/// The chain of one of the ring's threads.
#[derive(Debug, Default)]
pub struct Doing {
    /// The chain's number, counted from 1 for the ring; 0 while the thread has none. It changes
    /// under the ring's lock.
    chain: AtomicU64,
    opcode: AtomicU32,
    unique: AtomicU64,
    /// The thread is in a call of the host. It accesses no memory of the guest's, except that the
    /// kernel may move the data of a READ or a WRITE.
    is_away: AtomicBool,
    /// The thread has returned from the host, and waits for its ring.
    is_waiting: AtomicBool,
    /// The chain's ring was reset: nobody gets its reply.
    is_dropped: AtomicBool,
    /// The dropped chain's call may change the next session.
    is_late: AtomicBool,
}

impl Doing {
    /// That of a chain which was dropped.
    pub fn dropped() -> Doing {
        Doing { is_dropped: AtomicBool::new(true), ..Doing::default() }
    }

    /// Sets the chain that the thread has taken.
    pub fn begin(&self, chain: u64) {
        self.asks(0, 0);
        for flag in [&self.is_away, &self.is_waiting, &self.is_dropped, &self.is_late] {
            if flag.load(Ordering::SeqCst) {
                flag.store(false, Ordering::SeqCst); // slower than the load, and seldom wanted
            }
        }
        self.chain.store(chain, Ordering::Relaxed);
    }

    /// Sets the opcode and number of the chain's request (struct `fuse_in_header`).
    pub fn asks(&self, opcode: u32, unique: u64) {
        self.opcode.store(opcode, Ordering::Relaxed);
        self.unique.store(unique, Ordering::Relaxed);
    }

    /// The opcode of the chain's request; 0 if it has none.
    #[inline]
    pub fn opcode(&self) -> u32 {
        self.opcode.load(Ordering::Relaxed)
    }

    /// Forgets the chain, which is returned or dropped.
    pub fn end(&self) {
        self.chain.store(0, Ordering::Relaxed);
    }

    /// Whether the thread has a chain of the ring's. A dropped one is none.
    pub fn is_in_flight(&self) -> bool {
        self.chain.load(Ordering::Relaxed) != 0 && !self.is_dropped()
    }

    /// Whether the thread has a chain, and may access the guest's memory for it.
    pub fn is_within(&self) -> bool {
        self.is_in_flight() && !self.is_away.load(Ordering::SeqCst)
    }

    /// Whether the host has a call of the thread's: of a dropped chain too.
    pub fn is_at_the_host(&self) -> bool {
        self.chain.load(Ordering::Relaxed) != 0 && !self.is_waiting.load(Ordering::SeqCst)
    }

    /// Whether the thread is in a call of the host for a chain of the ring's.
    pub fn is_in_call(&self) -> bool {
        self.is_in_flight() && self.is_away.load(Ordering::SeqCst)
    }

    /// The thread goes to the host, or has returned from it. Ordered with the loads and stores of
    /// `Ring::is_closed`.
    pub fn set_away(&self, is_away: bool) {
        self.is_away.store(is_away, Ordering::SeqCst);
    }

    /// The thread waits for its ring, or doesn't any more.
    pub fn set_waiting(&self, is_waiting: bool) {
        self.is_waiting.store(is_waiting, Ordering::SeqCst);
    }

    /// Drops the chain, and returns whether its call may change the next session.
    pub fn drop_chain(&self) -> bool {
        let is_late = matches!(self.opcode.load(Ordering::Relaxed), INIT | DESTROY)
            && !self.is_waiting.load(Ordering::SeqCst);
        self.is_late.store(is_late, Ordering::SeqCst);
        self.is_dropped.store(true, Ordering::SeqCst);
        is_late
    }

    /// Whether the chain was dropped.
    pub fn is_dropped(&self) -> bool {
        self.is_dropped.load(Ordering::SeqCst)
    }

    /// Whether the dropped chain's call may change the next session.
    pub fn is_late(&self) -> bool {
        self.is_late.load(Ordering::SeqCst)
    }

    /// Whether the call that has ended was late. The next look says no.
    pub fn take_late(&self) -> bool {
        self.is_late.swap(false, Ordering::SeqCst)
    }
}

impl fmt::Display for Doing {
    fn fmt(&self, f: &mut fmt::Formatter<'_>) -> fmt::Result {
        let (opcode, unique) =
            (self.opcode.load(Ordering::Relaxed), self.unique.load(Ordering::Relaxed));
        write!(f, "request {unique} with FUSE opcode {opcode}")
    }
}
