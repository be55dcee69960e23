//! Random sequences of all that may become of reply objects: they are kept, dropped, sent to other
//! threads, answered late, by another kind or by a panic, while workers and queues are reset, moved
//! and dropped. Each answer that is taken is in its own request's reply, once. Each other one comes
//! back, and touches no memory. `cancelled` hears of what the guest doesn't get.
mod guest;
mod play;

use guest::{layout, number, request, Guest};
use pitskhomu::*;
use play::{silence, turns, Play};
use std::collections::HashMap;
use std::sync::atomic::{AtomicUsize, Ordering};
use std::sync::mpsc::channel;
use std::sync::{Arc, Mutex};
use std::thread;

/// So many sequences, unless `PITSKHOMU_SEQUENCES` says another number.
const SEQUENCES: usize = 20;
const STEPS: usize = 200;

#[test]
fn each_answer_is_refused_or_in_its_own_reply() {
    silence();
    let done = AtomicUsize::new(0);
    for seed in turns(SEQUENCES) {
        let mut play = Play::new(seed);
        for _ in 0..STEPS {
            play.step();
        }
        let tried = play.end();
        done.fetch_add(tried.iter().sum::<usize>(), Ordering::Relaxed);
        if seed == 0 {
            assert!(tried.iter().all(|&count| count > 0), "a step is never made: {tried:?}");
        }
    }
    eprintln!("{} steps", done.into_inner());
}

/// What became of a chain, as its worker sees it.
#[derive(Debug)]
enum End {
    /// The guest has this node.
    Pushed(u64),
    /// This is to be undone.
    Cancelled(Vec<Undo>),
    /// The worker was dropped.
    Dropped,
}

/// Ends a chain whose object is on another thread, in one of five ways.
fn end(guest: &mut Guest, way: usize) -> End {
    let reset = |guest: &mut Guest| {
        guest.queue.begin(Queue::new(layout(), guest.offered).unwrap()).unwrap();
    };
    match way {
        0 => {
            let cancelled = guest.worker.abandon().expect("a call");
            reset(guest);
            End::Cancelled(cancelled.undo)
        }
        1 => {
            reset(guest);
            let _ = guest.worker.finish(&guest.device, &guest.memory).unwrap();
            End::Cancelled(guest.worker.abandon().expect("a call").undo)
        }
        2 => {
            let region = Region { guest: 0, len: guest::LEN as u64, host: guest.memory.host };
            let mut next = Worker::new();
            next.set_memory(&guest.device, &[region]).unwrap();
            drop(std::mem::replace(&mut guest.worker, next));
            reset(guest);
            End::Dropped
        }
        _ => {
            while !guest.worker.finish(&guest.device, &guest.memory).unwrap() {
                thread::yield_now();
            }
            if way == 3 {
                reset(guest);
                let pushed = guest.worker.push(&mut guest.queue, &guest.memory);
                assert_eq!(pushed, Err(Status::OtherQueue));
                return End::Cancelled(guest.worker.cancelled().expect("a call").undo);
            }
            let served = guest.worker.push(&mut guest.queue, &guest.memory).unwrap();
            End::Pushed(number(&guest.reply(served.reply_len as usize).data(), 0, 8))
        }
    }
}

/// Objects are answered while their chains are abandoned, reset and pushed: each node is the
/// guest's, or is to be undone by one of both sides.
#[test]
fn answers_race_with_the_ends_of_their_chains() {
    let count = 1500 * turns(1).count();
    let (send, receive) = channel::<(u64, Reply)>();
    let receive = Arc::new(Mutex::new(receive));
    let answering = || loop {
        let next = receive.lock().unwrap().recv();
        let (tag, reply) = match next {
            Ok(next) => next,
            Err(_) => return,
        };
        (0..tag % 64).for_each(|_| std::hint::spin_loop());
        let sent = reply.send(Entry::new(Node(tag), Attributes::default()));
        let undo = sent.err().map(|unsent| unsent.cancelled().undo.clone());
        SENT.lock().unwrap().push((tag, undo));
    };
    let mut ends = HashMap::new();
    thread::scope(|scope| {
        let threads = [(); 3].map(|()| scope.spawn(answering));
        let mut guest = Guest::new();
        for tag in 1..=count as u64 {
            guest.offer_request(&request(1, 5, b"name\0"), 144);
            let Guest { worker, queue, device, memory, .. } = &mut guest;
            let reply = worker.take(queue, device, memory).unwrap().unwrap().reply;
            send.send((tag, reply)).unwrap();
            (0..tag * 7 % 61).for_each(|_| std::hint::spin_loop());
            ends.insert(tag, end(&mut guest, (tag % 5) as usize));
        }
        drop(send);
        threads.into_iter().for_each(|thread| thread.join().unwrap());
    });
    for (tag, refused) in std::mem::take(&mut *SENT.lock().unwrap()) {
        let forget = [Undo::Forget(Node(tag))];
        match (refused, ends.remove(&tag).expect("one answer")) {
            (None, End::Pushed(node)) => assert_eq!(node, tag),
            (None, End::Cancelled(undo)) => assert_eq!(undo, forget),
            (Some(undo), End::Cancelled(none)) => {
                assert_eq!((&undo[..], none), (&forget[..], vec![]))
            }
            (None, End::Dropped) => {}
            (Some(undo), End::Dropped) => assert_eq!(undo, forget),
            other => panic!("{tag}: {other:?}"),
        }
    }
    assert!(ends.is_empty());
}

/// The answers that were taken, and what is to be undone of those that were refused.
static SENT: Mutex<Vec<(u64, Option<Vec<Undo>>)>> = Mutex::new(Vec::new());
