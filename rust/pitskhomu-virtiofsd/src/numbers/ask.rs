//! Who asks for the numbers: SIGUSR1, which writes them to the log, and the socket of --metrics,
//! which Prometheus reads by HTTP.
use super::report::{self, Sources};
use super::MetricsSocket;
use crate::serve::{Core, ServedFs};
use log::{info, warn};
use pitskhomu_vhost_user::pipe::Pipe;
use std::fs::File;
use std::io::{self, Read, Write};
use std::os::fd::{AsRawFd, OwnedFd};
use std::sync::atomic::{AtomicI32, Ordering};
use std::sync::Arc;
use std::thread;
use std::time::{Duration, Instant};
use vmm_sys_util::epoll::EventSet;
use vmm_sys_util::eventfd::EventFd;

/// The longest that a reader of the socket may pause, and that its whole request may take: other
/// readers, and SIGUSR1, wait for it.
const LONGEST_PAUSE: Duration = Duration::from_secs(1);
/// The most bytes of a reader's request.
const MOST_ASKED: usize = 8192;

/// The event of SIGUSR1; -1 until there is one. The parent of the sandbox has the same event.
static SIGNALLED: AtomicI32 = AtomicI32::new(-1);
/// What is written to the event.
static ONE: u64 = 1;

/// The handler of SIGUSR1.
pub extern "C" fn on_signal(_signal: libc::c_int) {
    // SAFETY: a signal handler may make these calls. Eight bytes are read, and `errno` is restored.
    unsafe {
        let errno = *libc::__errno_location();
        libc::write(SIGNALLED.load(Ordering::Relaxed), (&raw const ONE).cast(), 8);
        *libc::__errno_location() = errno;
    }
}

/// Blocks or allows SIGUSR1 in this thread, and in those that it starts.
fn hold_signal(is_held: bool) {
    let mut signals = std::mem::MaybeUninit::uninit();
    let how = if is_held { libc::SIG_BLOCK } else { libc::SIG_UNBLOCK };
    // SAFETY: the set is initialized by the first call.
    unsafe {
        libc::sigemptyset(signals.as_mut_ptr());
        libc::sigaddset(signals.as_mut_ptr(), libc::SIGUSR1);
        libc::pthread_sigmask(how, signals.as_ptr(), std::ptr::null_mut());
    }
}

/// Reads a request of HTTP to its end.
fn read_request(reader: &mut impl Read, longest: Duration) -> io::Result<Vec<u8>> {
    let (mut request, mut bytes, begun) = (Vec::new(), [0; 1024], Instant::now());
    while !request.windows(4).any(|end| end == b"\r\n\r\n") && request.len() < MOST_ASKED {
        if begun.elapsed() > longest {
            return Err(io::ErrorKind::TimedOut.into());
        }
        match reader.read(&mut bytes)? {
            0 => break,
            len => request.extend_from_slice(&bytes[..len]),
        }
    }
    Ok(request)
}

/// The response to a request.
fn response(request: &[u8], text: impl FnOnce() -> String) -> String {
    let (status, text) = if request.starts_with(b"GET ") {
        ("200 OK", text())
    } else {
        ("400 Bad Request", String::new())
    };
    let len = text.len();
    format!(
        "HTTP/1.1 {status}\r\nContent-Type: text/plain; version=0.0.4\r\n\
        Content-Length: {len}\r\nConnection: close\r\n\r\n{text}"
    )
}

/// Answers one reader of the socket. One that asks nothing only looks whether somebody listens.
fn answer(reader: File, text: impl FnOnce() -> String) -> io::Result<()> {
    let mut asked = Pipe::new(reader.try_clone()?, EventSet::IN, LONGEST_PAUSE)?;
    let slow = |e: io::Error| match e.kind() {
        io::ErrorKind::TimedOut => io::Error::new(e.kind(), "it was slow"),
        _ => e,
    };
    let request = read_request(&mut asked, LONGEST_PAUSE).map_err(slow)?;
    if request.is_empty() {
        return Ok(());
    }
    let mut answered = Pipe::new(reader, EventSet::OUT, LONGEST_PAUSE)?;
    answered.write_all(response(&request, text).as_bytes()).map_err(slow)
}

/// What the thread that answers needs.
pub struct Asked {
    /// The event of SIGUSR1.
    signalled: EventFd,
    /// The socket of --metrics.
    socket: Arc<MetricsSocket>,
    sources: Sources,
}

impl Asked {
    /// Makes the event of SIGUSR1. Call it before the sandbox's fork: the operator knows the number
    /// of the parent. An error is a message.
    pub fn new(socket: Arc<MetricsSocket>) -> Result<Asked, String> {
        let signalled = EventFd::new(libc::EFD_NONBLOCK | libc::EFD_CLOEXEC)
            .map_err(|e| format!("Error creating an event: {e}"))?;
        SIGNALLED.store(signalled.as_raw_fd(), Ordering::Relaxed);
        Ok(Asked { signalled, socket, sources: Sources::new() })
    }

    /// From here on only the thread that answers gets SIGUSR1. Call it in the sandbox.
    pub fn enter(&mut self, proc_self_fd: Option<&File>) {
        hold_signal(true);
        self.sources.enter(proc_self_fd);
    }

    /// Starts the thread. It must have the caller's filter and capabilities.
    pub fn start<F: ServedFs>(self, core: Arc<Core<F>>) -> io::Result<()> {
        self.socket.watch(self.signalled.as_raw_fd())?;
        let thread = thread::Builder::new().name("numbers".into());
        thread.spawn(move || self.answer_all(&core)).map(|_| ())
    }

    fn answer_all<F: ServedFs>(&self, core: &Core<F>) {
        hold_signal(false);
        loop {
            let reader = self.socket.next();
            if self.signalled.read().is_ok() {
                for line in report::for_log(core, &self.sources) {
                    info!("{line}");
                }
            }
            if let Some(reader) = reader {
                let text = || report::for_prometheus(core, &self.sources);
                if let Err(e) = answer(File::from(OwnedFd::from(reader)), text) {
                    warn!("a reader of the metrics isn't answered: {e}");
                }
            }
        }
    }
}

#[cfg(test)]
mod tests {
    use super::*;
    use std::os::unix::net::UnixStream;

    fn answered(request: &[u8]) -> String {
        let (ours, mut theirs) = UnixStream::pair().expect("a socket");
        theirs.write_all(request).expect("a request");
        answer(File::from(OwnedFd::from(ours)), || "numbers 1\n".into()).expect("an answer");
        let mut text = String::new();
        theirs.read_to_string(&mut text).expect("an answer");
        text
    }

    #[test]
    fn http_is_answered() {
        let text = answered(b"GET /metrics HTTP/1.1\r\nHost: localhost\r\n\r\n");
        assert!(text.starts_with("HTTP/1.1 200 OK\r\n") && text.ends_with("\r\n\r\nnumbers 1\n"));
        assert!(text.contains("\r\nContent-Length: 10\r\n"), "{text}");
        assert!(answered(b"PUT / HTTP/1.1\r\n\r\n").starts_with("HTTP/1.1 400 "));
    }

    #[test]
    fn a_silent_reader_is_not_waited_for() {
        let (ours, theirs) = UnixStream::pair().expect("a socket");
        let asked =
            Pipe::new(File::from(OwnedFd::from(ours)), EventSet::IN, Duration::from_millis(50));
        assert!(read_request(&mut asked.expect("a socket"), LONGEST_PAUSE).is_err());
        drop(theirs);
    }

    #[test]
    fn a_reader_that_sends_a_byte_now_and_then_is_not_waited_for() {
        struct Bytes;
        impl Read for Bytes {
            fn read(&mut self, bytes: &mut [u8]) -> io::Result<usize> {
                thread::sleep(Duration::from_millis(1));
                bytes[0] = b'x';
                Ok(1)
            }
        }
        let e = read_request(&mut Bytes, Duration::from_millis(20)).expect_err("too slow");
        assert_eq!(e.kind(), io::ErrorKind::TimedOut);
    }
}
