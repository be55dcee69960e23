//! Standard error while a directory is served. The libraries of Rust and C write there why they end
//! the process: a failed allocation, a panic in a panic, a stack's overflow, damaged memory. No
//! thread may be able to run then, so these words go straight to where the log goes.
use std::env;
use std::fs::{File, OpenOptions};
use std::io;
use std::os::fd::{AsFd, AsRawFd, FromRawFd, OwnedFd, RawFd};
use std::os::unix::fs::{FileTypeExt, MetadataExt, OpenOptionsExt};
use std::os::unix::net::UnixDatagram;
use std::sync::{Mutex, OnceLock, PoisonError};

/// The log's own descriptors have this number or a greater one.
const OWN_NUMBERS: libc::c_int = 64;

/// A copy of a descriptor, with a number that `--fd` doesn't name by mistake.
pub fn moved(file: impl AsFd) -> io::Result<File> {
    // SAFETY: the descriptor is open, and no memory is touched.
    let fd = unsafe { libc::fcntl(file.as_fd().as_raw_fd(), libc::F_DUPFD_CLOEXEC, OWN_NUMBERS) };
    if fd < 0 {
        return Err(io::Error::last_os_error());
    }
    // SAFETY: the descriptor is new, and nothing else owns it.
    Ok(unsafe { File::from_raw_fd(fd) })
}

/// Leads standard error to another descriptor.
fn lead_to(fd: RawFd) -> io::Result<()> {
    // SAFETY: no memory is touched.
    match unsafe { libc::dup3(fd, libc::STDERR_FILENO, libc::O_CLOEXEC) } {
        -1 => Err(io::Error::last_os_error()),
        _ => Ok(()),
    }
}

/// Standard error, so that a write doesn't wait for those who read it: a pipe or a terminal is
/// opened once more, since the flags of this one are other programs' too. Others never wait, or
/// can't be opened.
fn without_waiting(errors: &File) -> Option<File> {
    let kind = errors.metadata().ok()?.file_type();
    if !kind.is_fifo() && !kind.is_char_device() {
        return None;
    }
    let mut options = OpenOptions::new();
    options.append(true).custom_flags(libc::O_NONBLOCK | libc::O_NOCTTY);
    options.open(format!("/proc/self/fd/{}", errors.as_raw_fd())).ok()
}

/// Whether standard error is systemd's journal (`JOURNAL_STREAM` in systemd.exec(5)).
fn is_journal(errors: &File) -> bool {
    let is_named = |metadata: std::fs::Metadata| {
        let name = format!("{}:{}", metadata.dev(), metadata.ino());
        env::var("JOURNAL_STREAM").is_ok_and(|journal| journal == name)
    };
    errors.metadata().is_ok_and(is_named)
}

/// A socket to /dev/log, each write to which is a message. None waits.
fn to_syslog() -> Option<File> {
    let socket = UnixDatagram::unbound().ok()?;
    socket.connect("/dev/log").ok()?;
    socket.set_nonblocking(true).ok()?;
    Some(File::from(OwnedFd::from(socket)))
}

/// Where standard error leads while a directory is served, and where it leads in between.
struct Ends {
    log: File,
    nowhere: Option<File>,
}

static ENDS: OnceLock<Ends> = OnceLock::new();

/// Opens both ends, before the daemon enters its sandbox, and returns the log's. `errors` is
/// standard error as the daemon was started with it.
pub fn open(errors: File, is_syslog: bool) -> io::Result<RawFd> {
    let nowhere = OpenOptions::new().write(true).open("/dev/null").and_then(moved).ok();
    let other = match is_syslog {
        true if is_journal(&errors) => None,
        true => to_syslog(),
        false => without_waiting(&errors),
    };
    let log = other.map_or(Ok(errors), moved)?;
    Ok(ENDS.get_or_init(|| Ends { log, nowhere }).log.as_raw_fd())
}

/// Leads standard error to the log.
pub fn lead() -> io::Result<()> {
    ENDS.get().map_or(Ok(()), |ends| lead_to(ends.log.as_raw_fd()))
}

/// Leads standard error back to the log.
struct Back;

impl Drop for Back {
    fn drop(&mut self) {
        let _ = lead();
    }
}

/// Makes a call of a library that writes a line of its own to standard error. A guest can have it
/// made again and again, so meanwhile standard error leads nowhere.
pub fn without_errors<T>(call: impl FnOnce() -> T) -> T {
    static TURN: Mutex<()> = Mutex::new(());
    let _turn = TURN.lock().unwrap_or_else(PoisonError::into_inner);
    let nowhere = ENDS.get().and_then(|ends| ends.nowhere.as_ref());
    let _back = nowhere.map(|nowhere| (lead_to(nowhere.as_raw_fd()), Back));
    call()
}

#[cfg(test)]
mod tests {
    use super::*;
    use crate::logger::Logger;
    use crate::options::{Options, Seccomp};
    use crate::{signals, system_calls};
    use clap::Parser;
    use libc::{c_int, SIGABRT, SIGSEGV};
    use std::hint::black_box;
    use std::os::unix::process::ExitStatusExt;
    use std::process::{Command, Stdio};
    use std::{ptr, thread};

    /// Names a death for the test below, in a process of its own.
    const DEATH: &str = "PITSKHOMU_DEATH";

    struct PanicsAgain;

    impl Drop for PanicsAgain {
        fn drop(&mut self) {
            panic!("the second panic");
        }
    }

    fn overflow(depth: u64) -> u64 {
        let page = black_box([depth; 512]);
        if depth == u64::MAX {
            return 0;
        }
        overflow(depth + 1) + page[7]
    }

    fn die(death: &str) {
        match death {
            "allocation" => drop(black_box(Vec::<u8>::with_capacity(1 << 46))),
            "panic" => {
                let _again = PanicsAgain;
                panic!("the first panic");
            }
            "stack" => drop(black_box(overflow(0))),
            "heap" => {
                let block = black_box(Box::new([1_u64; 16]));
                // SAFETY: none. The C library notices that this isn't what malloc returned, and
                // ends the process.
                unsafe { libc::free((&raw const block[1]).cast_mut().cast()) };
            }
            "fault" => {
                // SAFETY: none. Nothing is mapped there.
                unsafe { black_box(ptr::without_provenance::<u8>(1)).read_volatile() };
            }
            // SAFETY: no memory is touched. The list lacks it.
            "call" => drop(black_box(unsafe { libc::getppid() })),
            _ => unreachable!("{death}"),
        }
    }

    /// Dies as a thread of the daemon would: in its filter, beside the log's thread.
    #[test]
    fn a_death() {
        let Ok(death) = env::var(DEATH) else { return };
        signals::handle();
        let words = ["daemon", "--socket-path=/s", "--shared-dir=/d"];
        let logger = Logger::new(&Options::parse_from(words)).expect("a log");
        lead().expect("standard error");
        let serving = thread::Builder::new().name("queue 1".into()).spawn(move || {
            let action = if death == "call" { Seccomp::Trap } else { Seccomp::Kill };
            system_calls::limit(action, false).expect("a filter");
            logger.start().expect("a thread");
            die(&death);
        });
        let _ = serving.expect("a thread").join();
    }

    fn die_alone(death: &str, errors: Stdio) -> (Option<i32>, String) {
        let mut command = Command::new(env::current_exe().expect("this test"));
        command.args(["--exact", "logger::errors::tests::a_death", "--nocapture"]);
        command.env(DEATH, death).env_remove("RUST_LOG").env("RUST_BACKTRACE", "1");
        command.stdout(Stdio::null()).stderr(errors);
        let ended = command.spawn().expect("a process").wait_with_output().expect("its end");
        (ended.status.signal(), String::from_utf8_lossy(&ended.stderr).into_owned())
    }

    const DEATHS: &[(&str, Option<c_int>, &[&str])] = &[
        ("allocation", Some(SIGABRT), &["memory allocation of 70368744177664 bytes failed"]),
        ("panic", Some(SIGABRT), &["the first panic", "the second panic", "queue 1: ", " ERROR "]),
        ("stack", Some(SIGABRT), &["thread 'queue 1'", "has overflowed its stack"]),
        ("heap", Some(SIGABRT), &["free(): invalid"]),
        ("fault", Some(SIGSEGV), &["a fault (SIGSEGV)"]),
        ("call", None, &["a system call that isn't in the list (SIGSYS): "]),
    ];

    #[test]
    fn no_death_is_silent() {
        for (death, signal, words) in DEATHS {
            let (ended, said) = die_alone(death, Stdio::piped());
            assert_eq!(ended, *signal, "{death}: {said}");
            assert!(words.iter().all(|word| said.contains(word)), "{death}: {said}");
            let number = format!(" {}\n", libc::SYS_getppid);
            assert!(*death != "call" || said.ends_with(&number), "{said}");
        }
    }

    /// Nobody reads the log, and it is full.
    #[test]
    fn no_death_waits_for_a_reader() {
        for (death, signal, _) in DEATHS {
            let (_reader, writer) = super::super::tests::full_pipe();
            assert_eq!(die_alone(death, writer.into()).0, *signal, "{death}");
        }
    }
}
