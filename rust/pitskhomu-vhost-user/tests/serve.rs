//! A device and a driver without a guest.
mod driver;
#[allow(dead_code)]
#[path = "../examples/in_memory.rs"]
mod in_memory;

use driver::{init, numbers, socket, Driver, INIT, LOOKUP, OPEN, READ, SOON, WRITE};
use pitskhomu::live::Handler;
use pitskhomu::prelude::*;
use pitskhomu::{Cancelled, Undo};
use pitskhomu_vhost_user::{Builder, Error, MovableState};
use std::path::PathBuf;
use std::sync::mpsc::{channel, Receiver, Sender};
use std::sync::{Arc, Mutex};
use std::thread::{self, JoinHandle};
use std::time::Duration;
use vhost::vhost_user::message::VhostUserProtocolFeatures;
use vhost::vhost_user::VhostUserFrontend as _;

/// A READ or a WRITE at an offset: file handle, offset, size, flags.
fn at(offset: u64, size: u64) -> Vec<u8> {
    numbers(&[(0, 8), (offset, 8), (size, 4), (0, 4), (0, 8), (0, 4), (0, 4)])
}

fn serve<H: Handler + 'static>(
    test: &str,
    builder: Builder,
    handler: H,
) -> (PathBuf, JoinHandle<Result<(), Error>>) {
    let path = socket(test);
    let at = path.clone();
    (path, thread::spawn(move || builder.serve_by_values(at, handler)))
}

/// Hands each READ to the test, and says what is undone. The end of a session is as if one were
/// undone with a node that it never has.
struct Later {
    reads: Mutex<Sender<OwnedRequest>>,
    undone: Mutex<Sender<Vec<Undo>>>,
}

const ENDED: Undo = Undo::Forget(Node(u64::MAX));

impl Handler for Later {
    fn call(&self, request: Request<'_>) {
        match request.operation {
            Operation::Init(_) => drop(request.reply.send(Options::empty())),
            Operation::Read { .. } => {
                let read = request.into_owned().expect("a copy");
                self.reads.lock().unwrap().send(read).expect("who answers");
            }
            _ => panic!("no other call"),
        }
    }

    fn cancelled(&self, cancelled: &Cancelled) {
        self.undone.lock().unwrap().send(cancelled.undo.clone()).expect("who listens");
    }

    fn session_ended(&self) {
        self.undone.lock().unwrap().send(vec![ENDED]).expect("who listens");
    }
}

/// A device whose READs are answered by the test.
fn later(test: &str, threads: u16) -> (Driver, Receiver<OwnedRequest>, Receiver<Vec<Undo>>) {
    let ((reads, asked), (undone, undo)) = (channel(), channel());
    let handler = Later { reads: Mutex::new(reads), undone: Mutex::new(undone) };
    let (path, _) = serve(test, Builder::new().threads(threads), handler);
    let mut driver = Driver::new(&path);
    driver.init();
    (driver, asked, undo)
}

#[test]
fn the_example_has_a_file_that_is_read_and_written() {
    let path = socket("example");
    let at_path = path.clone();
    let served = thread::spawn(move || in_memory::serve(at_path));
    let mut driver = Driver::new(&path);
    driver.init();
    let (error, entry) = driver.ask(LOOKUP, 1, b"hello\0");
    assert_eq!((error, &entry[..8]), (0, &[2, 0, 0, 0, 0, 0, 0, 0][..]));
    assert_eq!(driver.ask(LOOKUP, 1, b"none\0").0, -libc::ENOENT);
    assert_eq!(driver.ask(READ, 2, &at(0, 100)), (0, b"Hello, guest!\n".to_vec()));
    let write = [&at(7, 5)[..], b"world"].concat();
    assert_eq!(driver.ask(WRITE, 2, &write), (0, vec![5, 0, 0, 0, 0, 0, 0, 0]));
    assert_eq!(driver.ask(READ, 2, &at(5, 8)), (0, b", world!".to_vec()));
    assert_eq!(driver.ask(READ, 2, &at(1 << 40, 8)), (0, vec![]));
    let truncating = driver.ask(OPEN, 2, &numbers(&[(0o1001, 4), (0, 4)])); // O_WRONLY | O_TRUNC
    assert_eq!((truncating.0, driver.ask(READ, 2, &at(0, 100))), (0, (0, vec![])));
    assert_eq!(driver.ask(WRITE, 2, &[&at(1 << 20, 1)[..], b"x"].concat()).0, -libc::EFBIG);
    drop(driver);
    served.join().expect("a device").expect("no error");
    assert!(!path.exists(), "the socket is left");
}

/// Each thread has a request, and answers may come in any order.
#[test]
fn answers_come_later_and_in_any_order() {
    let (mut driver, asked, _undone) = later("order", 3);
    (0..3).for_each(|slot| driver.send(slot, READ, 2, &at(slot as u64, 8)));
    let mut reads: Vec<_> = (0..3).map(|_| asked.recv_timeout(SOON).expect("a read")).collect();
    assert_eq!(driver.reply_within(Duration::from_millis(100)), None);
    reads.sort_by_key(|read| 2 - read.call.context.unique); // the last first
    for OwnedRequest { call, reply, .. } in reads {
        let slot = call.context.unique as usize;
        reply.send(vec![slot as u8; 8]).expect("in time");
        assert_eq!(driver.reply_within(SOON), Some((slot, 0, vec![slot as u8; 8])));
    }
}

/// A VMM that stops its guest isn't held by an answer to come. The ring goes on with it.
#[test]
fn a_stop_does_not_wait_for_an_answer() {
    let (mut driver, asked, _undone) = later("stop", 1);
    driver.send(0, READ, 2, &at(0, 8));
    let read = asked.recv_timeout(SOON).expect("a read");
    let (base, took) = driver.stop();
    assert!(base == 2 && took < Duration::from_secs(2), "{base} {took:?}");
    read.reply.send(b"late".to_vec()).expect("in time");
    assert_eq!(driver.reply_within(Duration::from_millis(100)), None);
    driver.start(base);
    assert_eq!(driver.reply_within(SOON), Some((0, 0, b"late".to_vec())));
}

/// A ring that begins elsewhere is another one: the answer is refused, and the thread is free.
#[test]
fn after_a_reset_an_answer_is_refused() {
    let (mut driver, asked, undone) = later("reset", 1);
    driver.send(0, READ, 2, &at(0, 8));
    let read = asked.recv_timeout(SOON).expect("a read");
    let (base, _) = driver.stop();
    driver.start(base + 1); // as if one more had been taken
    assert_eq!(undone.recv_timeout(SOON), Ok(vec![]));
    assert!(read.reply.send(b"late".to_vec()).is_err());
    assert_eq!(driver.reply_within(Duration::from_millis(100)), None);
}

/// RESET_DEVICE ends the session: nobody gets the answer, and the next session is another one.
#[test]
fn a_reset_of_the_device_ends_its_session() {
    let (mut driver, asked, undone) = later("session", 2);
    driver.send(0, READ, 2, &at(0, 8));
    let read = asked.recv_timeout(SOON).expect("a read");
    driver.reset();
    let mut both = [undone.recv_timeout(SOON), undone.recv_timeout(SOON)];
    both.sort_by_key(|undone| undone.as_ref().map(Vec::len).unwrap_or(9));
    assert_eq!(both, [Ok(vec![]), Ok(vec![ENDED])]);
    assert!(read.reply.send(b"late".to_vec()).is_err());
    driver.init();
}

/// A handler that panics, or forgets its reply object, leaves the device as it is.
#[test]
fn a_panic_is_answered_eio() {
    let (mut driver, asked, _undone) = later("panic", 1);
    assert_eq!(driver.ask(LOOKUP, 1, b"a\0"), (-libc::EIO, vec![]));
    driver.send(0, READ, 2, &at(0, 8));
    drop(asked.recv_timeout(SOON).expect("a read"));
    assert_eq!(driver.reply_within(SOON), Some((0, -libc::EIO, vec![])));
}

struct Stateless;

impl MovableState for Stateless {}

#[test]
fn the_configuration_and_the_state_are_offered_as_they_are_set() {
    let handler = |request: Request<'_>| drop(request.reply.error(Errno::ENOSYS));
    let builder = Builder::new().tag("memory").request_queues(3);
    let (path, _) = serve("tag", builder.clone(), handler);
    let mut driver = Driver::new(&path);
    let wanted = [&b"memory"[..], &[0; 30], &[3, 0, 0, 0]].concat();
    assert_eq!(driver.config(), wanted);
    let moves = VhostUserProtocolFeatures::DEVICE_STATE;
    assert!(!driver.front_end.get_protocol_features().expect("features").contains(moves));
    let (path, _) = serve("moves", builder.movable(Arc::new(Stateless)), handler);
    let mut driver = Driver::new(&path);
    assert!(driver.front_end.get_protocol_features().expect("features").contains(moves));
    assert_eq!(driver.ask(INIT, 0, &init()).0, -libc::ENOSYS);
}

#[test]
fn mistakes_are_said_before_anything_is_done() {
    let handler = |request: Request<'_>| drop(request.reply.error(Errno::ENOSYS));
    let serve = |builder: Builder, path: &str| builder.serve_by_values(path, handler);
    let none = "/none/socket";
    let long = "x".repeat(37);
    assert!(matches!(serve(Builder::new().tag(&long), none), Err(Error::Tag(tag)) if tag == long));
    assert!(matches!(serve(Builder::new().tag(""), none), Err(Error::Tag(_))));
    assert!(matches!(serve(Builder::new().request_queues(64), none), Err(Error::Queues(64))));
    let why = serve(Builder::new(), none).expect_err("no folder").to_string();
    assert!(why.starts_with("the socket /none/socket: "), "{why}");
}
