//! Numbers for the operator: the requests and their times, by opcode. Each thread counts by itself
//! (`Counts`), so that no cache line is shared.
use std::sync::atomic::{AtomicU64, Ordering::Relaxed};
use std::sync::{Arc, Mutex, MutexGuard, OnceLock, PoisonError};
use std::time::{Duration, Instant};

/// FUSE's opcodes, which are below this, have a row each. Row 0 has the requests without one, and
/// CUSE's, which are multiples of this.
pub const OPCODES: usize = 64;
/// The columns of a row: the times' columns, and at last the sum.
pub const COLUMNS: usize = 64;
/// The column with the sum of all times.
pub const SUM: usize = COLUMNS - 1;
/// The nanoseconds of a unit. Column `k` has the times below `2^(k + 1)` units.
pub const UNIT: u32 = 512;
/// A tick is 2^9 steps of the processor's counter. After 2^32 ticks, which are ten minutes, the
/// count begins again.
const STEPS: u32 = 9;
/// The fraction bits of `Counts::scale`.
const FRACTION: u32 = 31;
/// The time over which ticks are compared with the clock.
const COMPARED: Duration = Duration::from_millis(5);

/// The ticks and the clock, at the first look.
static BEGUN: OnceLock<(Instant, u32)> = OnceLock::new();

/// The processor's time-stamp counter, in ticks: two instructions. A look at the clock takes more
/// than fifty.
#[cfg(target_arch = "x86_64")]
#[inline]
#[must_use]
pub fn ticks() -> u32 {
    let ticks: u32;
    // SAFETY: each processor of this architecture has these instructions, which change two
    // registers and the flags.
    unsafe {
        core::arch::asm!(
            "rdtsc",
            "shrd eax, edx, {steps}",
            steps = const STEPS,
            out("eax") ticks,
            out("edx") _,
            options(nomem, nostack)
        );
    }
    ticks
}

/// The clock, in units of 2^9 nanoseconds.
#[cfg(not(target_arch = "x86_64"))]
#[must_use]
#[allow(clippy::cast_possible_truncation, reason = "the count begins again")]
pub fn ticks() -> u32 {
    static FIRST: OnceLock<Instant> = OnceLock::new();
    (FIRST.get_or_init(Instant::now).elapsed().as_nanos() >> STEPS) as u32
}

/// Looks at ticks and clock for the first time.
pub fn begin() {
    BEGUN.get_or_init(|| (Instant::now(), ticks()));
}

/// The nanoseconds of a tick.
fn tick() -> f64 {
    begin();
    let (time, first) = BEGUN.get().copied().unwrap_or_else(|| (Instant::now(), ticks()));
    while time.elapsed() < COMPARED {
        std::hint::spin_loop();
    }
    let (elapsed, ticks) = (time.elapsed(), ticks().wrapping_sub(first).max(1));
    elapsed.as_secs_f64() * 1e9 / f64::from(ticks)
}

/// What a thread has counted. Only that thread changes it.
#[derive(Debug)]
#[repr(align(128))]
pub struct Counts {
    rows: Box<[[AtomicU64; COLUMNS]; OPCODES]>,
    /// The units of a tick, times `2^FRACTION`.
    scale: u64,
    /// The looks that found no chain.
    idle: AtomicU64,
}

/// Adds to a counter that no other thread changes.
#[inline]
fn add(counter: &AtomicU64, more: u64) {
    counter.store(counter.load(Relaxed).wrapping_add(more), Relaxed);
}

impl Counts {
    fn new(tick: f64) -> Counts {
        // The system gives pages that are zero, and those of rows that nobody uses stay untouched.
        let zeros = vec![0u64; OPCODES * COLUMNS].into_boxed_slice();
        // SAFETY: the box has as many numbers, and an atomic number has the size, the alignment on
        // a 64-bit machine and the values of a plain one.
        let rows = unsafe { Box::from_raw(Box::into_raw(zeros).cast()) };
        #[allow(clippy::cast_possible_truncation, clippy::cast_sign_loss, reason = "it saturates")]
        let scale = (tick / f64::from(UNIT) * f64::from(1u32 << FRACTION)) as u64;
        Counts { rows, scale, idle: AtomicU64::new(0) }
    }

    /// A request with this opcode has its reply, after so many ticks.
    #[inline]
    pub fn answered(&self, opcode: u32, ticks: u32) {
        let row = &self.rows[opcode as usize % OPCODES];
        let units = u64::from(ticks).wrapping_mul(self.scale) >> FRACTION;
        add(&row[(units | 1).ilog2() as usize], 1);
        add(&row[SUM], ticks.into());
    }

    /// A look found no chain.
    pub fn found_none(&self) {
        add(&self.idle, 1);
    }
}

/// The counts of all threads.
#[derive(Debug)]
pub struct Numbers {
    threads: Mutex<Vec<Arc<Counts>>>,
    /// The nanoseconds of a tick.
    pub tick: f64,
}

impl Numbers {
    /// Those of a daemon without threads.
    #[allow(clippy::new_without_default, reason = "it takes some milliseconds")]
    pub fn new() -> Numbers {
        Numbers { threads: Mutex::default(), tick: tick() }
    }

    fn threads(&self) -> MutexGuard<'_, Vec<Arc<Counts>>> {
        self.threads.lock().unwrap_or_else(PoisonError::into_inner)
    }

    /// The counts of one more thread.
    pub fn of_thread(&self) -> Arc<Counts> {
        let counts = Arc::new(Counts::new(self.tick));
        self.threads().push(counts.clone());
        counts
    }

    /// The sum of a row's column.
    pub fn cell(&self, opcode: usize, column: usize) -> u64 {
        let cell = |counts: &Arc<Counts>| counts.rows[opcode][column].load(Relaxed);
        self.threads().iter().map(cell).sum()
    }

    /// The looks that found no chain.
    pub fn idle(&self) -> u64 {
        self.threads().iter().map(|counts| counts.idle.load(Relaxed)).sum()
    }
}

#[cfg(test)]
mod tests {
    use super::*;

    /// So many nanoseconds, in ticks.
    fn ticks_of(numbers: &Numbers, nanoseconds: f64) -> u32 {
        (nanoseconds / numbers.tick).round() as u32
    }

    #[test]
    fn a_time_has_the_column_of_its_power_of_two() {
        let numbers = Numbers::new();
        let counts = numbers.of_thread();
        let times = [(0.0, 0), (1e4, 4), (1.5e4, 4), (1.8e4, 5), (9e8, 20), (1e9, 20), (1.2e9, 21)];
        for (nanoseconds, column) in times {
            let before = numbers.cell(3, column);
            counts.answered(3, ticks_of(&numbers, nanoseconds));
            assert_eq!(numbers.cell(3, column), before + 1, "{nanoseconds}");
        }
        counts.answered(3, u32::MAX);
        assert_eq!((0..SUM).map(|column| numbers.cell(3, column)).sum::<u64>(), 8);
    }

    #[test]
    fn opcodes_without_a_row_are_counted_together() {
        let numbers = Numbers::new();
        let threads = [numbers.of_thread(), numbers.of_thread()];
        for opcode in [0, 4096, 1 << 20, 26 << 24] {
            threads.iter().for_each(|counts| counts.answered(opcode, 1));
        }
        threads[1].answered(63, 1);
        assert_eq!((numbers.cell(0, 0), numbers.cell(63, 0)), (8, 1));
    }

    #[test]
    fn a_tick_is_a_part_of_the_clock() {
        let (before, first) = (Instant::now(), ticks());
        std::thread::sleep(Duration::from_millis(50));
        let counted = f64::from(ticks().wrapping_sub(first)) * tick() / 1e6;
        let elapsed = before.elapsed().as_secs_f64() * 1e3;
        assert!((counted / elapsed - 1.0).abs() < 0.05, "{counted} ms of {elapsed}");
    }
}
