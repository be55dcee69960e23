//! A file system of async functions, on an executor of 20 lines: each request is a task, and one
//! thread has all of them. With another executor spawn the tasks there, and have the workers' waker
//! wake the thread that serves the queue.
#![forbid(unsafe_code)]
mod two_reads;

use pitskhomu::*;
use std::future::Future;
use std::pin::Pin;
use std::sync::{Arc, Mutex};
use std::task::{Context as TaskContext, Poll, Wake, Waker};
use std::thread::{self, Thread};
use std::time::Duration;
use two_reads::Memory;

/// What a read and the thread that does it share: the text, or else who waits for it.
#[derive(Default)]
struct Shared {
    text: Option<String>,
    waker: Option<Waker>,
}

/// A read that another thread does. The earlier one takes longer.
struct Fetch(Arc<Mutex<Shared>>);

impl Fetch {
    fn new(offset: u64) -> Fetch {
        let shared = Arc::new(Mutex::new(Shared::default()));
        let fetch = Fetch(shared.clone());
        thread::spawn(move || {
            thread::sleep(Duration::from_millis(30 - offset));
            let mut shared = shared.lock().expect("no thread panics");
            shared.text = Some(format!("the data at {offset}"));
            if let Some(waker) = shared.waker.take() {
                waker.wake();
            }
        });
        fetch
    }
}

impl Future for Fetch {
    type Output = String;

    fn poll(self: Pin<&mut Self>, context: &mut TaskContext<'_>) -> Poll<String> {
        let mut shared = self.0.lock().expect("no thread panics");
        shared.waker = Some(context.waker().clone());
        shared.text.take().map_or(Poll::Pending, Poll::Ready)
    }
}

/// The file system.
struct Files;

impl Files {
    async fn read(&self, read: ReadFile) -> Answer<Vec<u8>> {
        if read.offset > 20 {
            return Err(Errno::EINVAL);
        }
        Ok(Fetch::new(read.offset).await.into_bytes())
    }

    /// The task of a request, which borrows nothing of the worker.
    async fn call(&self, OwnedRequest { call, reply, .. }: OwnedRequest) -> Result<(), Unsent> {
        let read = match call.operation() {
            Operation::Read { read, .. } => read,
            _ => return reply.error(Errno::ENOSYS),
        };
        reply.answer(self.read(read).await)
    }
}

/// Wakes the thread.
struct Unpark(Thread);

impl Wake for Unpark {
    fn wake(self: Arc<Self>) {
        self.0.unpark();
    }
}

/// A request that is answered.
type Task<'f> = Pin<Box<dyn Future<Output = Result<(), Unsent>> + 'f>>;

/// The executor: polls all its tasks, and removes those that have ended.
struct Tasks<'f> {
    tasks: Vec<Task<'f>>,
    waker: Waker,
}

impl<'f> Tasks<'f> {
    fn new() -> Tasks<'f> {
        Tasks { tasks: Vec::new(), waker: Arc::new(Unpark(thread::current())).into() }
    }

    fn poll(&mut self) {
        let mut context = TaskContext::from_waker(&self.waker);
        self.tasks.retain_mut(|task| match task.as_mut().poll(&mut context) {
            Poll::Pending => true,
            Poll::Ready(Ok(())) => false,
            Poll::Ready(Err(unsent)) => {
                println!("Request {} has ended: {unsent}", unsent.cancelled().context.id);
                false
            }
        });
    }
}

fn main() -> Result<(), Status> {
    let (memory, device, files) = (Memory::new(), Device::default(), Files);
    let (mut queue, mut workers) = memory.queue(&device)?;
    let (mut tasks, mut served) = (Tasks::new(), Vec::new());
    for worker in &mut workers {
        worker.set_waker(Some(tasks.waker.clone()))?;
        if let Some(request) = worker.take(&mut queue, &device, &memory)? {
            tasks.tasks.push(Box::pin(files.call(request.into_owned()?)));
        }
    }
    println!("Tasks on one thread: {}", tasks.tasks.len());
    while queue.in_flight() > 0 {
        tasks.poll();
        for worker in workers.iter_mut().filter(|worker| worker.has_chain()) {
            if worker.finish(&device, &memory)? {
                served.push(worker.push(&mut queue, &memory)?);
            }
        }
        if queue.in_flight() > 0 {
            thread::park();
        }
    }
    memory.print(served);
    Ok(())
}
