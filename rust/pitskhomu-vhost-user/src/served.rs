//! A file system, or a handler of requests, as a device serves it.
use crate::device::{Chain, ServedFs};
use crate::pipe::Pipe;
use crate::state::{self, MovableState};
use pitskhomu::live::Handler;
use pitskhomu::{Cancelled, Device, FileSystem, Queue, Request, Status, Worker};
use std::io;
use std::panic::{catch_unwind, AssertUnwindSafe};
use std::sync::atomic::AtomicBool;
use std::sync::Arc;

/// A handler that answers by the methods of a file system.
#[derive(Clone, Copy, Debug)]
pub struct ByMethods<F>(
    /// The file system.
    pub F,
);

impl<F: FileSystem + Send + Sync> Handler for ByMethods<F> {
    fn call(&self, request: Request<'_>) {
        if let Err(unsent) = request.answer_by(&self.0) {
            self.0.cancelled(unsent.cancelled());
        }
    }

    fn cancelled(&self, cancelled: &Cancelled) {
        self.0.cancelled(cancelled);
    }

    fn session_ended(&self) {
        self.0.destroy();
    }
}

/// A handler, and the state that moves with the guest, if there is one.
pub(crate) struct Served<H> {
    pub handler: H,
    pub state: Option<Arc<dyn MovableState>>,
}

impl<H: Handler> Served<H> {
    /// Waits until the answer has come, and makes the reply. Meanwhile the ring may stop, and
    /// continue. If it is reset, nobody waits for the answer, and the reply object refuses it.
    fn finish(&self, worker: &mut Worker, device: &Device, chain: Chain<'_>) -> Result<(), Status> {
        while !chain.is_given_up() && !worker.finish(device, chain.memory())? {
            chain.wait();
        }
        if let Some(cancelled) = worker.cancelled() {
            self.handler.cancelled(&cancelled); // an answer without room
        }
        Ok(())
    }
}

impl<H: Handler + 'static> ServedFs for Served<H> {
    /// The handler's call is one of the host: a ring that stops doesn't wait for it. If it panics,
    /// the reply object is dropped, and so the answer is EIO.
    fn answer(&self, worker: &mut Worker, device: &Device, chain: Chain<'_>) -> Result<(), Status> {
        let request = worker.decode(device, chain.memory())?;
        chain.asks(request.opcode(), request.context.unique);
        let call = || catch_unwind(AssertUnwindSafe(|| self.handler.call(request)));
        let _ = chain.call_host(call);
        self.finish(worker, device, chain)
    }

    fn cancelled(&self, cancelled: &Cancelled, _chain: Chain<'_>) {
        self.handler.cancelled(cancelled);
    }

    fn destroy(&self) {
        self.handler.session_ended();
    }

    fn moves(&self) -> bool {
        self.state.is_some()
    }

    fn prepare_state(&self, is_cancelled: Arc<AtomicBool>) {
        if let Some(state) = &self.state {
            state.prepare(&is_cancelled);
        }
    }

    fn save_state(&self, device: &Device, queues: &[Queue], pipe: Pipe) -> io::Result<()> {
        state::save(self.state.as_deref(), device, queues, pipe)
    }

    fn load_state(&self, device: &Device, pipe: Pipe) -> io::Result<()> {
        state::load(self.state.as_deref(), device, pipe)
    }
}
