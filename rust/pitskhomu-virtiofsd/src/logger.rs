//! The log: lines to standard error or to syslog. While a directory is served a thread of its own
//! writes them, so that no ring and no message waits for those who read the log. Each kind of line
//! has a limit (`limits`). If nobody reads the log, lines are left out, and counted.
mod errors;
mod limits;

pub use errors::{lead as lead_errors, without_errors};
use limits::{Limits, Line, LEFT_OUT};
use log::{Level, Log, Metadata, Record};
use std::cell::Cell;
use std::env;
use std::error::Error;
use std::fs::File;
use std::io;
use std::panic::PanicHookInfo;
use std::sync::atomic::{AtomicBool, AtomicI32, AtomicU64, Ordering};
use std::sync::mpsc::{sync_channel, Receiver, RecvTimeoutError, SyncSender};
use std::sync::{Arc, Mutex, MutexGuard, OnceLock, PoisonError};
use std::thread;
use std::time::{Duration, Instant};
use syslog::{BasicLogger, Facility, Formatter3164};

use crate::notifier::Room;
use crate::options::Options;

/// The most lines that wait for the thread.
const MOST_WAITING: usize = 1024;
/// The time in which the last lines must be written when the daemon ends.
const LAST_LINES: Duration = Duration::from_millis(200);
/// The time between two looks for numbers of lines left out, if no period ends before.
const LOOK: Duration = Duration::from_secs(3600);

/// A descriptor of the log's target, for what no thread may be able to write.
static ERRORS: AtomicI32 = AtomicI32::new(libc::STDERR_FILENO);

/// A message to the thread that writes.
enum ToWrite {
    Line(Line),
    /// Answer once the lines before it are written.
    Written(SyncSender<()>),
    /// Write the numbers of all lines left out, and answer.
    All(SyncSender<()>),
}

/// The parts that the log's users and its thread share.
struct Shared {
    /// Formats and writes lines.
    writer: Box<dyn Log>,
    limits: Mutex<Limits>,
    /// To the thread, once it runs.
    sender: OnceLock<SyncSender<ToWrite>>,
    /// The number of lines that the thread didn't get, since the log wasn't read.
    lost: AtomicU64,
    /// A wait for the thread was in vain, and it has written nothing since.
    is_stuck: AtomicBool,
}

/// The daemon's log.
pub struct Logger(Arc<Shared>);

/// Each panic is a line of the log. A backtrace would need system calls that the filter refuses. A
/// panic that can't be caught ends the process right after this.
fn log_panic(panic: &PanicHookInfo<'_>) {
    log::error!("{}: {panic}", thread::current().name().unwrap_or("a thread"));
    log::logger().flush();
}

/// Writes lines to syslog.
fn to_syslog() -> Result<Box<dyn Log>, String> {
    let format = Formatter3164 {
        facility: Facility::LOG_DAEMON,
        hostname: None,
        process: "pitskhomu-virtiofsd".into(),
        pid: std::process::id(),
    };
    let socket = syslog::unix(format).map_err(|e| {
        let causes: Vec<String> = e.iter().skip(1).map(ToString::to_string).collect();
        causes.join(": ")
    })?;
    Ok(Box::new(BasicLogger::new(socket)))
}

/// Writes lines to standard error.
fn to_errors(options: &Options, errors: &File) -> io::Result<(Box<dyn Log>, log::LevelFilter)> {
    let errors = errors::moved(errors)?;
    let mut builder = env_logger::Builder::new();
    match env::var("RUST_LOG") {
        Ok(filters) => builder.parse_filters(&filters),
        Err(_) => builder.filter_level(options.messages()),
    };
    let logger = builder.target(env_logger::Target::Pipe(Box::new(errors))).build();
    let level = logger.filter();
    Ok((Box::new(logger), level))
}

impl Logger {
    /// Begins the log. Until `start` the caller itself writes each line. Without syslog's socket
    /// the log goes to standard error, as virtiofsd's does.
    pub fn new(options: &Options) -> Result<Logger, Box<dyn Error>> {
        let errors = errors::moved(io::stderr())
            .map_err(|e| format!("standard error has no other descriptor (RLIMIT_NOFILE): {e}"))?;
        let syslog = options.syslog.then(to_syslog);
        let no_syslog = syslog.as_ref().and_then(|syslog| syslog.as_ref().err()).cloned();
        let (writer, level) = match syslog {
            Some(Ok(writer)) => (writer, options.messages()),
            _ => to_errors(options, &errors)?,
        };
        let target = errors::open(errors, options.syslog && no_syslog.is_none())?;
        ERRORS.store(target, Ordering::Relaxed);
        let logger = Logger::over(writer);
        log::set_boxed_logger(Box::new(Logger(logger.0.clone())))?;
        log::set_max_level(level);
        std::panic::set_hook(Box::new(log_panic));
        // std prints a backtrace at a failed allocation, and the filter refuses the calls for that
        env::remove_var("RUST_BACKTRACE");
        if let Some(why) = no_syslog {
            log::warn!("no syslog, so the log goes to standard error: /dev/log: {why}");
        }
        Ok(logger)
    }

    fn over(writer: Box<dyn Log>) -> Logger {
        Logger(Arc::new(Shared {
            writer,
            limits: Mutex::default(),
            sender: OnceLock::new(),
            lost: AtomicU64::new(0),
            is_stuck: AtomicBool::new(false),
        }))
    }

    /// Starts the thread that writes. It must have the caller's filter and capabilities.
    pub fn start(&self) -> io::Result<()> {
        let (sender, receiver) = sync_channel(MOST_WAITING);
        let shared = self.0.clone();
        thread::Builder::new().name("log".into()).spawn(move || shared.write_all(&receiver))?;
        let _ = self.0.sender.set(sender);
        Ok(())
    }

    /// Waits a moment until the last lines are written.
    pub fn finish(&self) {
        self.0.wait_for(ToWrite::All);
    }
}

impl Shared {
    fn limits(&self) -> MutexGuard<'_, Limits> {
        self.limits.lock().unwrap_or_else(PoisonError::into_inner)
    }

    fn write(&self, line: &Line) {
        let mut record = Record::builder();
        record.level(line.level).target(&line.target);
        self.writer.log(&record.args(format_args!("{}", line.text)).build());
    }

    /// Hands a line to the thread. If there is none, writes it, unless that would have to wait.
    fn pass(&self, line: Line) {
        let is_passed = match self.sender.get() {
            Some(sender) => sender.try_send(ToWrite::Line(line)).is_ok(),
            None if errors_have_room() => {
                self.write(&line);
                true
            }
            None => false,
        };
        if !is_passed {
            self.lost.fetch_add(1, Ordering::Relaxed);
            LEFT_OUT.fetch_add(1, Ordering::Relaxed);
        }
    }

    /// Sends a message to the thread, and waits a moment for its answer, unless it is stuck: nobody
    /// reads the log.
    fn wait_for(&self, message: impl FnOnce(SyncSender<()>) -> ToWrite) {
        let Some(sender) = self.sender.get() else { return };
        let (done, is_done) = sync_channel(1);
        if self.is_stuck.load(Ordering::Relaxed) || sender.try_send(message(done)).is_err() {
            return;
        }
        let is_done = is_done.recv_timeout(LAST_LINES);
        self.is_stuck.store(is_done == Err(RecvTimeoutError::Timeout), Ordering::Relaxed);
    }

    /// Says how many lines were lost since the last time.
    fn say_lost(&self) {
        let lost = self.lost.swap(0, Ordering::Relaxed);
        if lost > 0 {
            let (level, target) = (Level::Warn, module_path!().into());
            let text = format!("{lost} lines are left out, since nobody read the log");
            self.write(&Line { level, target, text });
        }
    }

    /// The thread that writes.
    fn write_all(&self, receiver: &Receiver<ToWrite>) {
        loop {
            let next = self.limits().next_due(Instant::now()).unwrap_or(LOOK);
            let (lines, done) = match receiver.recv_timeout(next) {
                Ok(ToWrite::Line(line)) => (vec![line], None),
                Ok(ToWrite::Written(done)) => (vec![], Some(done)),
                Ok(ToWrite::All(done)) => (self.limits().all(), Some(done)),
                Err(RecvTimeoutError::Timeout) => (self.limits().due(Instant::now()), None),
                Err(RecvTimeoutError::Disconnected) => return,
            };
            for line in &lines {
                self.write(line);
            }
            self.say_lost();
            self.is_stuck.store(false, Ordering::Relaxed);
            if let Some(done) = done {
                let _ = done.try_send(());
            }
        }
    }
}

thread_local! {
    /// What this thread says isn't logged.
    static IS_QUIET: Cell<bool> = const { Cell::new(false) };
}

/// Makes a call whose lines aren't logged.
pub fn quietly<T>(call: impl FnOnce() -> T) -> T {
    IS_QUIET.set(true);
    let result = call();
    IS_QUIET.set(false);
    result
}

impl Log for Logger {
    fn enabled(&self, metadata: &Metadata<'_>) -> bool {
        !IS_QUIET.get() && self.0.writer.enabled(metadata)
    }

    fn log(&self, record: &Record<'_>) {
        if self.enabled(record.metadata()) {
            let lines = self.0.limits().admit(record, Instant::now());
            for line in lines {
                self.0.pass(line);
            }
        }
    }

    /// Waits a moment until the lines so far are written.
    fn flush(&self) {
        self.0.wait_for(ToWrite::Written);
    }
}

/// The number of lines that were left out so far.
pub fn lines_left_out() -> u64 {
    LEFT_OUT.load(Ordering::Relaxed)
}

/// Whether the log's target takes a line at once: a pipe that nobody reads is full some time.
fn errors_have_room() -> bool {
    let fd = ERRORS.load(Ordering::Relaxed);
    Room::new(fd).ok().flatten().is_none_or(|room| room.is_there())
}

/// Writes to the log's target from a signal's handler, and doesn't wait for those who read it.
pub fn write_at_the_end(bytes: &[u8]) {
    let fd = ERRORS.load(Ordering::Relaxed);
    // SAFETY: a signal's handler may call all of these, and the bytes are borrowed.
    unsafe {
        let flags = libc::fcntl(fd, libc::F_GETFL);
        libc::fcntl(fd, libc::F_SETFL, flags | libc::O_NONBLOCK);
        libc::write(fd, bytes.as_ptr().cast(), bytes.len());
        libc::fcntl(fd, libc::F_SETFL, flags);
    }
}

#[cfg(test)]
mod tests {
    use super::*;
    use crate::notifier::Notifier;
    use crate::options::Seccomp;
    use crate::system_calls;
    use std::io::Write;
    use std::iter;
    use std::os::fd::{AsRawFd, FromRawFd};
    use std::sync::mpsc::{channel, Sender};

    /// A pipe that is full, and that nobody reads: its reader, and its writer.
    pub(super) fn full_pipe() -> (File, File) {
        let mut ends = [0; 2];
        // SAFETY: the two numbers are borrowed mutably.
        assert_eq!(unsafe { libc::pipe2(ends.as_mut_ptr(), libc::O_CLOEXEC) }, 0);
        // SAFETY: the descriptors are new, and nothing else owns them.
        let (reader, mut writer) =
            unsafe { (File::from_raw_fd(ends[0]), File::from_raw_fd(ends[1])) };
        // SAFETY: the descriptor is open, and no memory is touched.
        let size = unsafe { libc::fcntl(writer.as_raw_fd(), libc::F_GETPIPE_SZ) };
        let size = usize::try_from(size).expect("a size");
        writer.write_all(&vec![0x5a; size]).expect("a pipe that is filled");
        (reader, writer)
    }

    /// A writer that waits for a permit at each line.
    struct Slow {
        permits: Mutex<Receiver<()>>,
        written: Mutex<Sender<String>>,
    }

    impl Log for Slow {
        fn enabled(&self, _metadata: &Metadata<'_>) -> bool {
            true
        }
        fn log(&self, record: &Record<'_>) {
            let _ = self.permits.lock().expect("permits").recv();
            let _ = self.written.lock().expect("who reads").send(record.args().to_string());
        }
        fn flush(&self) {}
    }

    /// A system call that the filter refuses ends the process. Only this thread gets the filter.
    #[test]
    fn the_filter_allows_a_look_for_room() {
        let (_reader, writer) = full_pipe();
        let looked = thread::spawn(move || {
            system_calls::limit(Seccomp::Kill, false).expect("a filter");
            let notifier = Notifier::new(writer).expect("a notifier");
            (errors_have_room(), notifier.notify().is_ok())
        });
        assert!(looked.join().expect("a look").1);
    }

    #[test]
    fn nobody_waits_for_a_log_that_is_not_read() {
        let ((permit, permits), (written, lines)) = (channel(), channel());
        let slow = Slow { permits: Mutex::new(permits), written: Mutex::new(written) };
        let logger = Logger::over(Box::new(slow));
        logger.start().expect("a thread");
        let before = Instant::now();
        for k in 0..3000 {
            let text = k.to_string();
            let mut record = Record::builder();
            record.level(Level::Debug); // without a limit
            logger.log(&record.args(format_args!("{text}")).build());
        }
        logger.finish();
        assert!(before.elapsed() < Duration::from_secs(5));
        drop(permit); // all are written from here on
        let mut count = 0;
        let lost = loop {
            let line = lines.recv_timeout(Duration::from_secs(20)).expect("a line");
            match line.strip_suffix(" lines are left out, since nobody read the log") {
                Some(lost) => break lost.parse::<usize>().expect("a number"),
                None => count += 1,
            }
        };
        count += iter::from_fn(|| lines.recv_timeout(Duration::from_millis(300)).ok()).count();
        assert_eq!(count + lost, 3000);
        assert!((MOST_WAITING..=MOST_WAITING + 2).contains(&count), "{count}");
    }
}
