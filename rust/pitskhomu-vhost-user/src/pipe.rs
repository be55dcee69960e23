//! The pipe of a state, whose other end the front-end has. The front-end waits for the transfer's
//! result, so a transfer must end even if it never reads, or never writes.
use std::fs::File;
use std::io::{self, Read, Write};
use std::os::fd::{AsRawFd, FromRawFd};
use std::time::Duration;
use vmm_sys_util::epoll::{ControlOperation, Epoll, EpollEvent, EventSet};

/// The longest time in which no byte is transferred.
const LONGEST_PAUSE: Duration = Duration::from_secs(if cfg!(test) { 2 } else { 60 });

/// A file in memory, without a name. The filters of some daemons let nobody make one later.
pub fn scratch() -> io::Result<File> {
    // SAFETY: the name is a C string.
    let fd = unsafe { libc::memfd_create(c"pitskhomu-state".as_ptr(), libc::MFD_CLOEXEC) };
    if fd < 0 {
        return Err(io::Error::last_os_error());
    }
    // SAFETY: the descriptor is new, and nothing else owns it.
    Ok(unsafe { File::from_raw_fd(fd) })
}

/// The device's end.
#[derive(Debug)]
pub struct Pipe {
    end: File,
    /// Ready when bytes can be transferred: `None` for a file, which is always ready.
    events: Option<Epoll>,
    /// The longest time in which no byte is transferred.
    longest: Duration,
}

impl Pipe {
    /// The end by which the daemon sends a state.
    pub fn out(end: File) -> io::Result<Pipe> {
        Pipe::new(end, EventSet::OUT, LONGEST_PAUSE)
    }

    /// The end by which the daemon receives a state.
    pub fn into(end: File) -> io::Result<Pipe> {
        Pipe::new(end, EventSet::IN, LONGEST_PAUSE)
    }

    /// An end of any pipe or socket, which is waited for until it is `ready`, but not longer than
    /// this.
    pub fn new(end: File, ready: EventSet, longest: Duration) -> io::Result<Pipe> {
        let fd = end.as_raw_fd();
        // SAFETY: the descriptor is open, and no memory is touched.
        unsafe {
            let flags = libc::fcntl(fd, libc::F_GETFL);
            if flags < 0 || libc::fcntl(fd, libc::F_SETFL, flags | libc::O_NONBLOCK) < 0 {
                return Err(io::Error::last_os_error());
            }
        }
        let events = Epoll::new()?;
        match events.ctl(ControlOperation::Add, fd, EpollEvent::new(ready, 0)) {
            Ok(()) => Ok(Pipe { end, events: Some(events), longest }),
            Err(e) if e.raw_os_error() == Some(libc::EPERM) => {
                Ok(Pipe { end, events: None, longest })
            }
            Err(e) => Err(e),
        }
    }

    /// Calls `transfer` until it doesn't have to wait.
    fn transfer(
        &mut self,
        mut transfer: impl FnMut(&mut File) -> io::Result<usize>,
        idle: &'static str,
    ) -> io::Result<usize> {
        loop {
            match transfer(&mut self.end) {
                Err(e) if e.kind() == io::ErrorKind::WouldBlock => {}
                result => return result,
            }
            let Some(events) = &self.events else { return Err(io::ErrorKind::WouldBlock.into()) };
            #[allow(clippy::cast_possible_truncation, reason = "a minute has 60,000 milliseconds")]
            let milliseconds = self.longest.as_millis() as i32;
            if events.wait(milliseconds, &mut [EpollEvent::default()])? == 0 {
                let why = format!("the front-end {idle} for {} s", self.longest.as_secs());
                return Err(io::Error::new(io::ErrorKind::TimedOut, why));
            }
        }
    }
}

impl Read for Pipe {
    fn read(&mut self, bytes: &mut [u8]) -> io::Result<usize> {
        self.transfer(|end| end.read(bytes), "has its end of the state's pipe, and wrote nothing")
    }
}

impl Write for Pipe {
    fn write(&mut self, bytes: &[u8]) -> io::Result<usize> {
        self.transfer(|end| end.write(bytes), "has its end of the state's pipe, and read nothing")
    }

    fn flush(&mut self) -> io::Result<()> {
        self.end.flush()
    }
}

#[cfg(test)]
mod tests {
    use super::*;
    use std::thread;

    const LEN: usize = 1 << 20; // more than a pipe holds

    fn pipe() -> (File, File) {
        let mut ends = [0; 2];
        // SAFETY: two descriptors are written, and nothing else owns them.
        unsafe {
            assert_eq!(libc::pipe2(ends.as_mut_ptr(), libc::O_CLOEXEC), 0);
            (File::from_raw_fd(ends[0]), File::from_raw_fd(ends[1]))
        }
    }

    #[test]
    fn a_state_that_is_longer_than_the_pipe_is_transferred() {
        let ((reader, writer), sent) = (pipe(), vec![7; LEN]);
        let sender = thread::spawn(move || {
            Pipe::out(writer).expect("a pipe").write_all(&sent).expect("sent");
        });
        thread::sleep(LONGEST_PAUSE / 4); // a pause that isn't too long
        let mut received = Vec::new();
        Pipe::into(reader).expect("a pipe").read_to_end(&mut received).expect("received");
        sender.join().expect("a sender");
        assert_eq!(received, vec![7; LEN]);
    }

    /// A state in a file, too, and one by a pipe that is closed early.
    #[test]
    fn files_and_closed_pipes_end_as_before() {
        let mut file = scratch().expect("a file");
        Pipe::out(file.try_clone().expect("a file")).expect("a file").write_all(&[7; 9]).unwrap();
        io::Seek::rewind(&mut file).expect("a file");
        let mut received = Vec::new();
        Pipe::into(file).expect("a file").read_to_end(&mut received).expect("received");
        assert_eq!(received, [7; 9]);
        let (reader, writer) = pipe();
        drop(reader);
        let broken =
            Pipe::out(writer).expect("a pipe").write_all(&[7; LEN]).expect_err("no reader");
        assert_eq!(broken.kind(), io::ErrorKind::BrokenPipe);
    }

    #[test]
    fn a_front_end_that_keeps_its_end_is_not_waited_for() {
        let (reader, writer) = pipe();
        let sent = Pipe::out(writer).expect("a pipe").write_all(&[7; LEN]);
        let why = sent.expect_err("nobody reads").to_string();
        assert_eq!(why, "the front-end has its end of the state's pipe, and read nothing for 2 s");
        drop(reader);
        let (reader, writer) = pipe();
        let received = Pipe::into(reader).expect("a pipe").read(&mut [0]);
        let why = received.expect_err("nobody writes").to_string();
        assert_eq!(why, "the front-end has its end of the state's pipe, and wrote nothing for 2 s");
        drop(writer);
    }
}
