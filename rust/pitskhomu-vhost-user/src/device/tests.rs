//! A session whose end the host holds, or whose state.
use super::*;
use crate::migration::Migration;
use crate::pipe::scratch;
use pitskhomu::Device;
use std::fs::File;
use std::io::{Read, Seek, Write};
use std::os::fd::{AsRawFd, OwnedFd};
use std::os::unix::net::UnixStream;
use std::process::Command;
use std::sync::mpsc::{channel, Receiver, Sender};
use std::time::Duration;

const SOON: Duration = Duration::from_secs(20);

const STATE: [u8; 10] = [1, 0, 2, 0, 0, 0, 0, 0, 0, 0];

/// A file system whose DESTROY, and whose state, begin and end by these.
struct Holding {
    begins: Mutex<Sender<()>>,
    ends: Mutex<Receiver<()>>,
    /// Its preparation too.
    is_prepared: AtomicBool,
}

impl Holding {
    fn hold(&self) {
        self.begins.lock().expect("who listens").send(()).expect("who listens");
        self.ends.lock().expect("an end").recv().expect("an end");
    }
}

impl ServedFs for Holding {
    fn answer(&self, _: &mut Worker, _: &Device, _: Chain<'_>) -> Result<(), Status> {
        Ok(())
    }

    fn cancelled(&self, _: &Cancelled, _: Chain<'_>) {}

    fn destroy(&self) {
        self.hold();
    }

    fn prepare_state(&self, _is_cancelled: Arc<AtomicBool>) {
        if !self.is_prepared.load(Ordering::SeqCst) {
            self.hold();
        }
    }

    fn save_state(&self, _: &Device, _queues: &[Queue], mut pipe: Pipe) -> io::Result<()> {
        pipe.write_all(&STATE[..4])?;
        self.hold();
        pipe.write_all(&STATE[4..])
    }

    fn load_state(&self, _device: &Device, mut pipe: Pipe) -> io::Result<()> {
        pipe.read_to_end(&mut Vec::new()).map(|_| ())
    }
}

/// A core over it, and the ends of its channels.
fn core() -> (Arc<Core<Holding>>, Receiver<()>, Sender<()>) {
    let ((begins, has_begun), (end, ends)) = (channel(), channel());
    let (begins, ends, is_prepared) = (Mutex::new(begins), Mutex::new(ends), true.into());
    let fs = Holding { begins, ends, is_prepared };
    let core = Arc::new(Core::new(fs, 1, 1).expect("a core"));
    core.start().expect("a thread");
    (core, has_begun, end)
}

/// A guest may be reset as often as it likes while the host holds the close of its files.
#[test]
fn a_session_that_does_not_end_has_one_thread() {
    let (core, has_begun, end) = core();
    core.end_session(Patience::new());
    has_begun.recv_timeout(SOON).expect("an end that begins");
    let before = Instant::now();
    for _ in 0..1000 {
        core.end_session(Patience::new());
    }
    assert!(before.elapsed() < SOON, "{:?}", before.elapsed());
    assert!(core.held_calls().is_some());
    assert!(has_begun.recv_timeout(Duration::from_millis(300)).is_err(), "another end begins");
    end.send(()).expect("who waits");
    let until = Instant::now() + SOON;
    while core.held_calls().is_some() {
        assert!(Instant::now() < until, "chains aren't taken again");
        thread::yield_now();
    }
    // the next session's end is one of its own
    end.send(()).expect("who waits");
    core.end_session(Patience::new());
    has_begun.recv_timeout(SOON).expect("an end that begins");
}

fn bytes(mut file: &File) -> Vec<u8> {
    let mut bytes = Vec::new();
    file.rewind().expect("a file");
    file.read_to_end(&mut bytes).expect("bytes");
    bytes
}

/// A front-end may begin a transfer before the one before has ended.
#[test]
fn one_state_is_transferred_at_a_time() {
    let (core, has_begun, end) = core();
    let mut migration = Migration::new(core).expect("events");
    let pipes = [scratch().expect("a file"), scratch().expect("a file")];
    migration.save(pipes[0].try_clone().expect("a descriptor"));
    has_begun.recv_timeout(SOON).expect("a state that is written");
    migration.save(pipes[1].try_clone().expect("a descriptor"));
    assert!(
        has_begun.recv_timeout(Duration::from_millis(300)).is_err(),
        "both are written at once"
    );
    end.send(()).expect("who waits");
    end.send(()).expect("who waits");
    migration.finish().expect("a state");
    let states = pipes.each_ref().map(bytes);
    assert_eq!(states, [STATE, STATE]);
}

/// The end of a session that is under way may change the state that is saved.
#[test]
fn a_save_waits_for_the_end_of_a_session() {
    let (core, has_begun, end) = core();
    let mut migration = Migration::new(core.clone()).expect("events");
    core.end_session(Patience::new());
    has_begun.recv_timeout(SOON).expect("an end that begins");
    migration.save(scratch().expect("a file"));
    thread::sleep(Duration::from_millis(200));
    end.send(()).expect("who waits");
    end.send(()).expect("who waits"); // for the state
    migration.finish().expect("a state");
}

/// The host may hold a call of the preparation's. A later state is prepared once that has ended.
#[test]
fn a_save_does_not_wait_for_ever_for_its_preparation() {
    let (core, has_begun, end) = core();
    core.fs.is_prepared.store(false, Ordering::SeqCst);
    let mut migration = Migration::new(core.clone()).expect("events");
    migration.prepare();
    has_begun.recv_timeout(SOON).expect("a preparation");
    migration.save(scratch().expect("a file"));
    let (done, is_done) = channel();
    thread::spawn(move || {
        let failed = migration.finish().expect_err("a preparation that is held");
        let _ = done.send((migration, failed.to_string()));
    });
    let (mut migration, failed) = is_done.recv_timeout(SOON).expect("an end");
    assert!(failed.starts_with("the state isn't prepared yet"), "{failed}");
    core.fs.is_prepared.store(true, Ordering::SeqCst);
    migration.prepare();
    end.send(()).expect("who waits");
    migration.save(scratch().expect("a file"));
    end.send(()).expect("who waits"); // for the state
    migration.finish().expect("a state");
}

/// A pipe whose other end nobody closes, since a third process has it.
#[test]
fn nobody_waits_for_a_transfer_when_the_front_end_has_left() {
    let (core, ..) = core();
    let mut migration = Migration::new(core).expect("events");
    let (ours, theirs) = UnixStream::pair().expect("a socket");
    let (pipe, others) = UnixStream::pair().expect("a pipe");
    migration.watch(ours.as_raw_fd()).expect("a socket");
    migration.load(File::from(OwnedFd::from(pipe)));
    let (done, is_done) = channel();
    thread::spawn(move || done.send(migration.finish()));
    assert!(is_done.recv_timeout(Duration::from_millis(300)).is_err(), "nothing has come yet");
    drop(theirs);
    let left = is_done.recv_timeout(SOON).expect("an end");
    assert!(left.expect_err("no state").to_string().starts_with("the front-end left"));
    drop(others);
}

/// A front-end that keeps the pipe, and writes nothing, gets an error. The next state is loaded.
#[test]
fn a_state_that_never_comes_is_not_waited_for() {
    let (core, ..) = core();
    let mut migration = Migration::new(core).expect("events");
    let (pipe, front_ends) = UnixStream::pair().expect("a pipe");
    migration.load(File::from(OwnedFd::from(pipe)));
    let (done, is_done) = channel();
    thread::spawn(move || {
        let late = migration.finish().expect_err("no state").to_string();
        let _ = done.send((migration, late));
    });
    let (mut migration, late) = is_done.recv_timeout(SOON).expect("an end");
    assert!(late.contains("wrote nothing"), "{late}");
    drop(front_ends);
    let mut state = scratch().expect("a file");
    state.write_all(&STATE).and_then(|()| state.rewind()).expect("a state");
    migration.load(state);
    migration.finish().expect("a state");
}

/// In a process of its own, whose user may have no further thread: a transfer fails, and a reset
/// doesn't wait for a session whose end the host holds.
#[test]
fn no_message_needs_a_thread() {
    const NAME: &str = "device::tests::no_message_needs_a_thread";
    const ALONE: &str = "PITSKHOMU_WITHOUT_THREADS";
    if std::env::var_os(ALONE).is_none() {
        let mut again = Command::new(std::env::current_exe().expect("this program"));
        again.args(["--exact", NAME, "--test-threads=1", "--nocapture"]).env(ALONE, "");
        let ended = again.output().expect("this program again");
        assert!(ended.status.success(), "{}", String::from_utf8_lossy(&ended.stderr));
        return;
    }
    let (core, has_begun, _end) = core();
    let mut migration = Migration::new(core.clone()).expect("events");
    let none = libc::rlimit { rlim_cur: 0, rlim_max: 0 };
    // SAFETY: the limit is borrowed, and no other memory is touched.
    unsafe {
        libc::alarm(30); // it ends the process
        assert_eq!(libc::setrlimit(libc::RLIMIT_NPROC, &raw const none), 0);
        libc::setresuid(65534, 65534, 65534); // root's limit isn't looked at
    }
    migration.prepare();
    migration.save(scratch().expect("a file"));
    let failed = migration.finish().expect_err("no thread");
    assert!(failed.to_string().starts_with("there is no thread"), "{failed}");
    core.end_session(Patience::new());
    has_begun.recv_timeout(SOON).expect("an end that begins");
    assert!(core.held_calls().is_some());
}
