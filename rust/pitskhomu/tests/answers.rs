//! Answers that come later, and close together: none of their chains waits for what another's
//! answer has undone.
#![cfg(target_os = "linux")]
mod guest;

use guest::request;
use guest::running::*;
use pitskhomu::live::{Builder, Handler};
use pitskhomu::*;
use std::sync::mpsc::{channel, Receiver, Sender};
use std::sync::{Arc, Mutex};
use std::thread;
use std::time::{Duration, Instant};

/// So many rounds, unless `PITSKHOMU_SEQUENCES` says another number.
const ROUNDS: u64 = 8;
/// What is undone goes on for so long, unless the test ends it: it drops the other end.
const LONG: Duration = Duration::from_secs(5);

/// Keeps the reply objects for the test, which also says when an undo ends.
struct Kept {
    replies: Mutex<Vec<Reply>>,
    undone: Mutex<Receiver<()>>,
}

impl Handler for Kept {
    fn call(&self, request: Request<'_>) {
        self.replies.lock().unwrap().push(request.reply);
    }

    fn cancelled(&self, _: &Cancelled) {
        let _ = self.undone.lock().unwrap().recv_timeout(LONG);
    }
}

fn kept() -> (Arc<Kept>, Sender<()>) {
    let (end, undone) = channel();
    (Arc::new(Kept { replies: Mutex::default(), undone: Mutex::new(undone) }), end)
}

/// Two LOOKUPs are answered at once. The second reply buffer is too small for its answer, which is
/// undone for a long time. Returns how long the first chain's push took.
fn round(threads: u16) -> Duration {
    let memory = Memory::new();
    let (mut driver, kick, call) = Driver::new(&memory, false);
    let (queue, (kept, end)) = (Queue::new(layout(), 0).unwrap(), kept());
    let builder = Builder::new(Arc::default(), memory.clone(), &[region()]).threads(threads);
    let serving = builder.in_flight(6).start_by_values(queue, kick, call, kept.clone()).unwrap();
    for (slot, room) in [(0, 200), (1, 40)] {
        driver.offer(slot, &request(1, 1, b"short\0"), room);
        until(|| kept.replies.lock().unwrap().len() == usize::from(slot) + 1);
    }
    thread::sleep(Duration::from_millis(20)); // the threads wait for an event
    let replies = std::mem::take(&mut *kept.replies.lock().unwrap());
    let begun = Instant::now();
    for reply in replies {
        let attributes = Attributes::default().with_inode(7).with_mode(0o100_644);
        reply.send(Entry::new(Node(7), attributes)).unwrap();
    }
    let is_pushed = |driver: &mut Driver| matches!(driver.used(), Some((0, _)));
    while !is_pushed(&mut driver) {
        assert!(begun.elapsed() < PATIENCE, "a chain isn't pushed");
        pause(1000);
    }
    let took = begun.elapsed();
    drop(end);
    drop(serving);
    took
}

#[test]
fn an_answered_chain_waits_for_no_undo() {
    let rounds = std::env::var("PITSKHOMU_SEQUENCES").ok().and_then(|text| text.parse().ok());
    for number in 0..rounds.unwrap_or(ROUNDS) {
        for threads in [2, 3] {
            let took = round(threads);
            assert!(took < LONG / 2, "round {number}: {took:?}, while a thread sleeps");
        }
    }
}
