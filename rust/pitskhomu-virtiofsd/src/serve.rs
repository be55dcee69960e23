//! virtiofsd's file system as a device has it: with its adapter for each chain, and its state.
use crate::adapter::Adapter;
use crate::guest_cache::GuestCache;
use crate::open_flags::OpenFlags;
use crate::state;
use pitskhomu::{Cancelled, Device, Queue, Status, Worker};
use pitskhomu_vhost_user::device::Chain;
pub use pitskhomu_vhost_user::device::{Core, ServedFs};
use pitskhomu_vhost_user::pipe::Pipe;
use std::fs::File;
use std::io;
use std::sync::atomic::AtomicBool;
use std::sync::Arc;
use virtiofsd::filesystem::{FileSystem, SerializableFileSystem};

/// A file system with all traits of virtiofsd's that the daemon needs.
pub trait OfVirtiofsd: FileSystem + SerializableFileSystem + Send + Sync + 'static {}
impl<F: FileSystem + SerializableFileSystem + Send + Sync + 'static> OfVirtiofsd for F {}

/// virtiofsd's file system, and what the command line says of it.
pub struct Shared<F> {
    /// virtiofsd's file system.
    pub fs: F,
    /// Which of the guest's open flags apply on the host.
    pub flags: OpenFlags,
    /// What the guest may keep.
    pub cache: GuestCache,
    /// What each session agrees on.
    pub always_agreed: pitskhomu::Options,
    /// The file of `state::scratch`.
    pub scratch: File,
}

impl<F: OfVirtiofsd> Shared<F> {
    fn for_chain<'c>(&'c self, chain: Chain<'c>) -> Adapter<'c, F> {
        Adapter { fs: &self.fs, chain, flags: self.flags, cache: &self.cache }
    }
}

impl<F: OfVirtiofsd> ServedFs for Shared<F> {
    fn answer(&self, worker: &mut Worker, device: &Device, chain: Chain<'_>) -> Result<(), Status> {
        worker.answer(device, &self.for_chain(chain), chain.memory())
    }

    fn cancelled(&self, cancelled: &Cancelled, chain: Chain<'_>) {
        cancelled.undo(&self.for_chain(chain));
    }

    fn destroy(&self) {
        self.fs.destroy();
    }

    fn prepare_state(&self, is_cancelled: Arc<AtomicBool>) {
        self.fs.prepare_serialization(is_cancelled);
    }

    fn forget_state(&self) {
        state::forget(&self.fs, &self.scratch);
    }

    fn save_state(&self, device: &Device, queues: &[Queue], pipe: Pipe) -> io::Result<()> {
        state::send(&self.fs, device, queues, &self.scratch, pipe)
    }

    fn load_state(&self, device: &Device, pipe: Pipe) -> io::Result<()> {
        let settings = state::Settings { always_agreed: self.always_agreed, flags: self.flags };
        state::receive(&self.fs, device, settings, &self.scratch, pipe)
    }

    fn check_state(&self, state: Vec<u8>, is_thorough: bool) -> io::Result<Vec<u8>> {
        state::checked(&self.fs, state, is_thorough)
    }
}
