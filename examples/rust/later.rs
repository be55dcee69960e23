//! A file system that answers later: another thread reads, and one thread has two chains in flight
//! meanwhile, each with a worker. A request is a value, and the object that takes its answer goes
//! to the other thread. The serving thread sleeps until an answer is there. Where this unparks a
//! thread, a VMM writes to an eventfd.
#![forbid(unsafe_code)]
mod two_reads;

use pitskhomu::*;
use std::sync::mpsc::{channel, Receiver, Sender};
use std::sync::Arc;
use std::task::Wake;
use std::thread::{self, Thread};
use two_reads::Memory;

/// A read that the other thread is to do.
struct Job {
    offset: u64,
    reply: Reply,
}

/// Hands each READ to the other thread.
fn call(request: Request<'_>, jobs: &Sender<Job>) {
    match request.operation {
        Operation::Read { read, .. } => {
            // If the other thread has ended, the reply object is dropped, and the guest gets EIO.
            let _ = jobs.send(Job { offset: read.offset, reply: request.reply });
        }
        _ => {
            let _ = request.reply.error(Errno::ENOSYS);
        }
    }
}

/// The other thread: it begins when it has two jobs, and does the later one first.
fn work(jobs: &Receiver<Job>) {
    let mut jobs: Vec<Job> = jobs.iter().take(2).collect();
    while let Some(Job { offset, reply }) = jobs.pop() {
        let id = reply.id();
        if let Err(unsent) = reply.send(format!("the data at {offset}").into_bytes()) {
            println!("Request {id} has ended meanwhile: {unsent}");
        }
    }
}

/// Wakes the serving thread.
struct Unpark(Thread);

impl Wake for Unpark {
    fn wake(self: Arc<Self>) {
        self.0.unpark();
    }
}

fn main() -> Result<(), Status> {
    let (memory, device) = (Memory::new(), Device::default());
    let (mut queue, mut workers) = memory.queue(&device)?;
    let (jobs, to_do) = channel();
    let other = thread::spawn(move || work(&to_do));
    for worker in &mut workers {
        worker.set_waker(Some(Arc::new(Unpark(thread::current())).into()))?;
        if let Some(request) = worker.take(&mut queue, &device, &memory)? {
            call(request, &jobs);
        }
    }
    println!("In flight on one thread: {}", queue.in_flight());

    let mut served = Vec::new();
    while queue.in_flight() > 0 {
        thread::park();
        for worker in workers.iter_mut().filter(|worker| worker.has_chain()) {
            if worker.finish(&device, &memory)? {
                served.push(worker.push(&mut queue, &memory)?);
            }
        }
    }
    other.join().expect("the other thread doesn't panic");
    memory.print(served);
    Ok(())
}
