//! The numbers as texts: for Prometheus, and for the log.
use super::{Numbers, COLUMNS, OPCODES, SUM, UNIT};
use crate::logger::lines_left_out;
use crate::ring::{Ring, RingNumbers};
use crate::serve::{Core, ServedFs};
use std::fmt::Write;
use std::fs::File;

/// The prefix of all names.
const PREFIX: &str = "pitskhomu_virtiofsd";
/// The columns that have a bucket of their own: up to 2^33 nanoseconds.
const BUCKETS: usize = 24;

/// FUSE's names of opcodes (enum `fuse_opcode`), in order. "other" is each that has no name here,
/// and a request that isn't one.
const NAMES: [&str; 54] = [
    "other",
    "LOOKUP",
    "FORGET",
    "GETATTR",
    "SETATTR",
    "READLINK",
    "SYMLINK",
    "other",
    "MKNOD",
    "MKDIR",
    "UNLINK",
    "RMDIR",
    "RENAME",
    "LINK",
    "OPEN",
    "READ",
    "WRITE",
    "STATFS",
    "RELEASE",
    "other",
    "FSYNC",
    "SETXATTR",
    "GETXATTR",
    "LISTXATTR",
    "REMOVEXATTR",
    "FLUSH",
    "INIT",
    "OPENDIR",
    "READDIR",
    "RELEASEDIR",
    "FSYNCDIR",
    "GETLK",
    "SETLK",
    "SETLKW",
    "ACCESS",
    "CREATE",
    "INTERRUPT",
    "BMAP",
    "DESTROY",
    "IOCTL",
    "POLL",
    "NOTIFY_REPLY",
    "BATCH_FORGET",
    "FALLOCATE",
    "READDIRPLUS",
    "RENAME2",
    "LSEEK",
    "COPY_FILE_RANGE",
    "SETUPMAPPING",
    "REMOVEMAPPING",
    "SYNCFS",
    "TMPFILE",
    "STATX",
    "COPY_FILE_RANGE_64",
];

/// The requests with one name.
struct Row {
    name: &'static str,
    /// How many there were of each time.
    columns: [u64; COLUMNS],
}

impl Row {
    fn count(&self) -> u64 {
        self.columns[..SUM].iter().sum()
    }

    /// The least bound, in microseconds, below which this part of the requests is.
    fn bound(&self, part: f64) -> f64 {
        #[allow(clippy::cast_precision_loss, reason = "a bound is of a power of two")]
        let (wanted, mut so_far) = (self.count() as f64 * part, 0.0);
        for (column, count) in self.columns[..SUM].iter().enumerate() {
            #[allow(clippy::cast_precision_loss, reason = "as above")]
            let more = *count as f64;
            so_far += more;
            if so_far >= wanted {
                return bound(column) * 1e6;
            }
        }
        f64::INFINITY
    }
}

/// The bound of a column's times, in seconds.
fn bound(column: usize) -> f64 {
    #[allow(clippy::cast_possible_truncation, clippy::cast_possible_wrap, reason = "it is small")]
    let power = column as i32 + 1;
    f64::from(UNIT) * 2f64.powi(power) / 1e9
}

fn rows(numbers: &Numbers) -> Vec<Row> {
    let mut rows: Vec<Row> = Vec::new();
    for opcode in 0..OPCODES {
        let name = NAMES.get(opcode).copied().unwrap_or(NAMES[0]);
        let columns = std::array::from_fn(|column| numbers.cell(opcode, column));
        match rows.iter_mut().find(|row| row.name == name) {
            Some(row) => row.columns.iter_mut().zip(columns).for_each(|(to, more)| *to += more),
            None => rows.push(Row { name, columns }),
        }
    }
    rows.retain(|row| row.count() > 0);
    rows
}

/// All numbers at this moment.
struct Report {
    rows: Vec<Row>,
    queues: Vec<RingNumbers>,
    idle: u64,
    /// The open descriptors, if the kernel says so (Linux 6.2 and later), and the limit.
    descriptors: Option<u64>,
    most_descriptors: u64,
    lines_left_out: u64,
    /// The nanoseconds of a tick.
    tick: f64,
}

/// The number of open descriptors: the size of the directory that lists them.
fn open_descriptors(directory: Option<&File>) -> Option<u64> {
    directory?.metadata().ok().map(|data| data.len()).filter(|size| *size > 0)
}

fn descriptor_limit() -> u64 {
    let mut limit = libc::rlimit { rlim_cur: 0, rlim_max: 0 };
    // SAFETY: `limit` is written, and no other memory is touched.
    unsafe { libc::getrlimit(libc::RLIMIT_NOFILE, &raw mut limit) };
    limit.rlim_cur
}

/// What the reports need besides the core.
pub struct Sources {
    /// `/proc/self/fd`.
    descriptors: Option<File>,
    most_descriptors: u64,
}

impl Sources {
    /// Asks for the limit of descriptors, which the filter of system calls doesn't allow later.
    pub fn new() -> Sources {
        Sources { descriptors: None, most_descriptors: descriptor_limit() }
    }

    /// Uses a descriptor of that directory if there is one, or its path.
    pub fn enter(&mut self, proc_self_fd: Option<&File>) {
        let open = || File::open("/proc/self/fd");
        self.descriptors = proc_self_fd.map_or_else(open, File::try_clone).ok();
    }
}

impl Report {
    fn new<F: ServedFs>(core: &Core<F>, sources: &Sources) -> Report {
        let numbers = &core.numbers;
        Report {
            rows: rows(numbers),
            queues: core.rings.iter().map(Ring::numbers).collect(),
            idle: numbers.idle(),
            descriptors: open_descriptors(sources.descriptors.as_ref()),
            most_descriptors: sources.most_descriptors,
            lines_left_out: lines_left_out(),
            tick: numbers.tick,
        }
    }

    /// The seconds of all requests of a row.
    fn seconds(&self, row: &Row) -> f64 {
        #[allow(clippy::cast_precision_loss, reason = "a sum of times")]
        let ticks = row.columns[SUM] as f64;
        ticks * self.tick / 1e9
    }

    fn histogram(&self, text: &mut Text) {
        let name = "request_duration_seconds";
        text.begin(name, "histogram", "Time from a chain's request to its reply, by FUSE opcode.");
        for row in &self.rows {
            let (opcode, mut so_far) = (row.name, 0);
            for (column, count) in row.columns[..BUCKETS].iter().enumerate() {
                so_far += count;
                let le = bound(column);
                text.line(&format!("{name}_bucket{{opcode=\"{opcode}\",le=\"{le}\"}} {so_far}"));
            }
            let count = row.count();
            text.line(&format!("{name}_bucket{{opcode=\"{opcode}\",le=\"+Inf\"}} {count}"));
            let seconds = self.seconds(row);
            text.line(&format!("{name}_sum{{opcode=\"{opcode}\"}} {seconds}"));
            text.line(&format!("{name}_count{{opcode=\"{opcode}\"}} {count}"));
        }
    }

    fn by_queue(&self, text: &mut Text, (name, kind, help): Name, value: fn(&RingNumbers) -> u64) {
        text.begin(name, kind, help);
        for (index, queue) in self.queues.iter().enumerate() {
            text.line(&format!("{name}{{queue=\"{index}\"}} {}", value(queue)));
        }
    }

    fn for_prometheus(&self) -> String {
        let mut text = Text(String::new());
        self.histogram(&mut text);
        let flying = ("chains_in_flight", "gauge", "Chains that were taken and not returned.");
        self.by_queue(&mut text, flying, |queue| queue.in_flight.into());
        let held = ("host_calls", "gauge", "Requests whose file call the host hasn't ended.");
        self.by_queue(&mut text, held, |queue| queue.at_the_host as u64);
        let sleeps = ("sleeps_total", "counter", "Sleeps of threads, until a kick or a wake.");
        self.by_queue(&mut text, sleeps, |queue| queue.sleeps);
        let interrupts = ("interrupts_total", "counter", "Used buffer notifications.");
        self.by_queue(&mut text, interrupts, |queue| queue.interrupts);
        let idle = ("empty_looks_total", "counter", "Looks for a chain that found none.");
        text.one(idle, self.idle);
        if let Some(open) = self.descriptors {
            text.one(("open_descriptors", "gauge", "Open descriptors of the daemon."), open);
        }
        let most = ("max_descriptors", "gauge", "The limit of open descriptors.");
        text.one(most, self.most_descriptors);
        let lines = ("log_lines_left_out_total", "counter", "Lines that the log left out.");
        text.one(lines, self.lines_left_out);
        text.0
    }

    /// The lines of the log: one for all, and some with the requests.
    fn for_log(&self) -> Vec<String> {
        let sum = |number: fn(&RingNumbers) -> u64| self.queues.iter().map(number).sum::<u64>();
        let mut lines = vec![format!(
            "{} chains in flight, {} calls of the host, {} sleeps, {} interrupts, {} looks in \
            vain, {} of {} descriptors, {} lines left out",
            sum(|queue| queue.in_flight.into()),
            sum(|queue| queue.at_the_host as u64),
            sum(|queue| queue.sleeps),
            sum(|queue| queue.interrupts),
            self.idle,
            self.descriptors.map_or_else(|| "?".into(), |open| open.to_string()),
            self.most_descriptors,
            self.lines_left_out
        )];
        let mut line = String::new();
        for row in &self.rows {
            let (half, most) = (row.bound(0.5), row.bound(0.99));
            let (name, count) = (row.name, row.count());
            let row = format!("{name} {count} (half below {half:.0} us, 99% below {most:.0}); ");
            if line.len() + row.len() > 900 {
                lines.push(std::mem::take(&mut line));
            }
            line += &row;
        }
        lines.extend((!line.is_empty()).then_some(line));
        lines
    }
}

/// A metric's name, its type, and what it is.
type Name = (&'static str, &'static str, &'static str);

/// A text of Prometheus.
struct Text(String);

impl Text {
    fn begin(&mut self, name: &str, kind: &str, help: &str) {
        let _ = writeln!(self.0, "# HELP {PREFIX}_{name} {help}");
        let _ = writeln!(self.0, "# TYPE {PREFIX}_{name} {kind}");
    }

    fn line(&mut self, line: &str) {
        let _ = writeln!(self.0, "{PREFIX}_{line}");
    }

    fn one(&mut self, (name, kind, help): Name, value: u64) {
        self.begin(name, kind, help);
        self.line(&format!("{name} {value}"));
    }
}

/// All numbers, as Prometheus reads them.
pub fn for_prometheus<F: ServedFs>(core: &Core<F>, sources: &Sources) -> String {
    Report::new(core, sources).for_prometheus()
}

/// All numbers, in lines of the log.
pub fn for_log<F: ServedFs>(core: &Core<F>, sources: &Sources) -> Vec<String> {
    Report::new(core, sources).for_log()
}

#[cfg(test)]
mod tests {
    use super::*;

    fn report() -> Report {
        let numbers = Numbers::new();
        let counts = numbers.of_thread();
        for _ in 0..99 {
            counts.answered(1, (3000.0 / numbers.tick).round() as u32); // 3 us
        }
        counts.answered(1, (70_000.0 / numbers.tick).round() as u32);
        counts.answered(4096, 0);
        let queue = |in_flight| RingNumbers { in_flight, at_the_host: 1, sleeps: 7, interrupts: 5 };
        Report {
            rows: rows(&numbers),
            queues: vec![queue(0), queue(2)],
            idle: 6,
            descriptors: Some(40),
            most_descriptors: 1000,
            lines_left_out: 3,
            tick: numbers.tick,
        }
    }

    #[test]
    fn prometheus_reads_it() {
        let text = report().for_prometheus();
        let has = |line: &str| text.lines().any(|other| other == format!("{PREFIX}_{line}"));
        let bucket = "request_duration_seconds_bucket{opcode=\"LOOKUP\",le=";
        assert!(has(&format!("{bucket}\"0.000002048\"}} 0")), "{text}");
        assert!(has(&format!("{bucket}\"0.000004096\"}} 99")), "{text}");
        assert!(has(&format!("{bucket}\"0.000131072\"}} 100")), "{text}");
        assert!(has(&format!("{bucket}\"8.589934592\"}} 100")), "{text}");
        assert!(has(&format!("{bucket}\"+Inf\"}} 100")), "{text}");
        assert!(has("request_duration_seconds_count{opcode=\"LOOKUP\"} 100"), "{text}");
        assert!(has("request_duration_seconds_count{opcode=\"other\"} 1"), "{text}");
        assert!(has("chains_in_flight{queue=\"1\"} 2") && has("sleeps_total{queue=\"0\"} 7"));
        assert!(has("interrupts_total{queue=\"1\"} 5") && has("empty_looks_total 6"));
        assert!(has("open_descriptors 40") && has("max_descriptors 1000"));
        assert!(has("log_lines_left_out_total 3"));
        let sum = text.lines().find_map(|line| line.split_once("_sum{opcode=\"LOOKUP\"} "));
        let seconds: f64 = sum.expect("a sum").1.parse().expect("a number");
        // 99 times 3 us, and 70
        assert!((seconds - 367e-6).abs() < 20e-6, "{seconds}");
        // each metric is named once, before its lines
        let types = text.lines().filter(|line| line.starts_with("# TYPE "));
        assert_eq!(types.count(), 9);
    }

    #[test]
    fn the_log_has_lines_that_fit() {
        let lines = report().for_log();
        assert!(lines[0].starts_with("2 chains in flight, 2 calls of the host, 14 sleeps"));
        assert!(lines[1].contains("LOOKUP 100 (half below 4 us, 99% below 4); "), "{lines:?}");
        assert!(lines.iter().all(|line| line.len() < 1000));
    }

    /// Of linux/fuse.h.
    #[test]
    fn names_are_those_of_the_opcodes() {
        let numbers = [
            (1, "LOOKUP"),
            (2, "FORGET"),
            (3, "GETATTR"),
            (15, "READ"),
            (16, "WRITE"),
            (20, "FSYNC"),
            (26, "INIT"),
            (38, "DESTROY"),
            (42, "BATCH_FORGET"),
            (44, "READDIRPLUS"),
            (45, "RENAME2"),
            (50, "SYNCFS"),
            (51, "TMPFILE"),
            (52, "STATX"),
        ];
        assert!(numbers.iter().all(|(opcode, name)| NAMES[*opcode] == *name));
    }
}
