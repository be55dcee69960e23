//! One device takes over from another while its driver's queue runs. Here both are of one process.
#[allow(dead_code)]
mod driver;

use driver::{numbers, socket, Driver, READ, SOON, WRITE};
use pitskhomu::live::Handler;
use pitskhomu::prelude::*;
use pitskhomu_vhost_user::{Builder, Error, MovableState};
use std::io::{self, Read, Write};
use std::path::{Path, PathBuf};
use std::sync::{Arc, Mutex, Weak};
use std::thread::{self, JoinHandle};
use std::time::{Duration, Instant};

/// A file, which is all of the state.
#[derive(Default)]
struct Text(Mutex<Vec<u8>>);

impl MovableState for Text {
    fn save(&self, to: &mut dyn Write) -> io::Result<()> {
        to.write_all(&self.0.lock().unwrap())
    }

    fn load(&self, from: &mut dyn Read) -> io::Result<()> {
        from.read_to_end(&mut self.0.lock().unwrap()).map(|_| ())
    }
}

/// Answers READ by all of the text, and appends at WRITE.
struct OfText(Arc<Text>);

impl Handler for OfText {
    fn call(&self, request: Request<'_>) {
        let mut text = self.0 .0.lock().unwrap();
        let sent = match request.operation {
            Operation::Init(_) => request.reply.send(Options::empty()),
            Operation::Read { .. } => request.reply.send(text.clone()),
            Operation::Write { mut data, .. } => {
                let (at, len) = (text.len(), data.left() as usize);
                text.resize(at + len, 0);
                data.take(&mut text[at..]);
                request.reply.send(data)
            }
            _ => request.reply.error(Errno::ENOSYS),
        };
        sent.expect("in time");
    }
}

type Serving = JoinHandle<Result<(), Error>>;

/// Another device, which takes over.
fn take_over(control: &Path, identity: &str) -> (Weak<Text>, Serving) {
    let (text, control) = (Arc::<Text>::default(), control.to_owned());
    let builder = Builder::new().identity(identity).movable(text.clone());
    let weak = Arc::downgrade(&text);
    (weak, thread::spawn(move || builder.take_over(control, OfText(text))))
}

/// A device with a driver, its control socket, and the weak reference to its file system.
fn serve(test: &str, moves: bool) -> (Driver, PathBuf, Weak<Text>, Serving) {
    let (path, control) = (socket(test), socket(&format!("{test}-control")));
    let (text, at) = (Arc::<Text>::default(), path.clone());
    let mut builder = Builder::new().threads(2).control_socket(&control).identity("a text");
    if moves {
        builder = builder.movable(text.clone());
    }
    let weak = Arc::downgrade(&text);
    let serving = thread::spawn(move || builder.serve_by_values(at, OfText(text)));
    let mut driver = Driver::new(&path);
    driver.init();
    (driver, control, weak, serving)
}

fn write(driver: &mut Driver, text: &[u8]) {
    let len = text.len() as u64;
    let head = [(0, 8), (0, 8), (len, 4), (0, 4), (0, 8), (0, 4), (0, 4)];
    let written = driver.ask(WRITE, 2, &[&numbers(&head)[..], text].concat());
    assert_eq!(written, (0, numbers(&[(len, 4), (0, 4)])));
}

fn read(driver: &mut Driver) -> Vec<u8> {
    let read = [(0, 8), (0, 8), (4096, 4), (0, 4), (0, 8), (0, 4), (0, 4)];
    let (error, data) = driver.ask(READ, 2, &numbers(&read));
    assert_eq!(error, 0);
    data
}

/// Whether all threads of a device have ended: nobody has its file system any more.
fn is_gone(text: &Weak<Text>) -> bool {
    let end = Instant::now() + SOON;
    while text.strong_count() > 0 && Instant::now() < end {
        thread::sleep(Duration::from_millis(10));
    }
    text.strong_count() == 0
}

#[test]
fn a_device_takes_over_with_the_state_and_is_taken_over_from() {
    let (mut driver, control, mut text, mut serving) = serve("replaced", true);
    let mut wanted = Vec::new();
    for turn in [b"one ", b"two ", b"last"] {
        write(&mut driver, turn);
        wanted.extend_from_slice(turn);
        let (next, takes) = take_over(&control, "a text");
        serving.join().expect("a device").expect("it is replaced");
        assert!(is_gone(&text), "threads of the old one are left");
        assert_eq!(read(&mut driver), wanted);
        assert_eq!(*next.upgrade().expect("a text").0.lock().unwrap(), wanted);
        (text, serving) = (next, takes);
    }
    drop(driver);
    serving.join().expect("a device").expect("its front-end has left");
    assert!(is_gone(&text), "threads are left");
}

fn refused(serving: Serving) -> String {
    match serving.join().expect("a device") {
        Err(e @ Error::TakeOver(_)) => e.to_string(),
        other => panic!("{other:?}"),
    }
}

#[test]
fn another_device_does_not_take_over() {
    let (mut driver, control, text, serving) = serve("refused", true);
    let why = refused(take_over(&control, "a picture").1);
    assert!(why.ends_with("it is \"a picture\", and the one that serves is \"a text\""), "{why}");
    write(&mut driver, b"here");
    assert_eq!(*text.upgrade().expect("a text").0.lock().unwrap(), b"here");
    let none = refused(take_over(Path::new("/none"), "a text").1);
    assert!(none.starts_with("the other daemon continues: "), "{none}");
    drop(driver);
    serving.join().expect("a device").expect("its front-end has left");
    assert!(!control.exists(), "the control socket is left");
}

#[test]
fn a_state_that_does_not_move_keeps_the_device() {
    let (mut driver, control, _text, serving) = serve("stays", false);
    let why = refused(take_over(&control, "a text").1);
    assert!(why.ends_with("its file system's state doesn't move"), "{why}");
    write(&mut driver, b"here");
    drop(driver);
    serving.join().expect("a device").expect("its front-end has left");
}
