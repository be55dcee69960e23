//! Serves a file system to a virtual machine: a virtio-fs device (VIRTIO 1.2, 5.11) in a process of
//! its own, which a VMM such as QEMU uses over a socket (vhost-user). You implement
//! [`FileSystem`](pitskhomu::FileSystem) of the crate `pitskhomu`, a method for each file call with
//! a default for all but two, and call [`serve`].
//!
//! # Examples
//! A directory with one file:
//! ```no_run
//! use pitskhomu::prelude::*;
//! use std::time::Duration;
//!
//! const TEXT: &[u8] = b"Hello, guest!\n";
//! const FILE: Node = Node(2);
//! /// The guest may keep names and attributes for so long.
//! const KEPT: Duration = Duration::from_secs(1);
//!
//! struct Hello;
//!
//! impl FileSystem for Hello {
//!     fn lookup(&self, x: &Context, _: Node, name: &CStr) -> Answer<Entry> {
//!         match name.to_bytes() {
//!             b"hello" => Ok(Entry::new(FILE, self.getattr(x, FILE, None)?.0)),
//!             _ => Err(Errno::ENOENT),
//!         }
//!     }
//!
//!     fn getattr(
//!         &self,
//!         _: &Context,
//!         node: Node,
//!         _: Option<Handle>,
//!     ) -> Answer<(Attributes, Duration)> {
//!         let attributes = match node {
//!             FILE => Attributes::file(0o444).with_size(TEXT.len() as u64),
//!             _ => Attributes::directory(0o555),
//!         };
//!         Ok((attributes.with_inode(node.0), KEPT))
//!     }
//!
//!     fn read(
//!         &self,
//!         _: &Context,
//!         _: Node,
//!         read: ReadFile,
//!         data: &mut ReadData<'_>,
//!     ) -> Answer<()> {
//!         let from = TEXT.len().min(read.offset as usize);
//!         data.put(&TEXT[from..]);
//!         Ok(())
//!     }
//! }
//!
//! fn main() -> Result<(), pitskhomu_vhost_user::Error> {
//!     pitskhomu_vhost_user::serve("/run/hello.sock", Hello)
//! }
//! ```
//! QEMU needs the guest's memory to be shared:
//! ```text
//! qemu-system-x86_64 .. -m 1G -machine memory-backend=mem \
//!     -object memory-backend-memfd,id=mem,size=1G,share=on \
//!     -chardev socket,id=fs,path=/run/hello.sock -device vhost-user-fs-pci,chardev=fs,tag=hello
//! ```
//! In the guest: `mount -t virtiofs hello /mnt`, and `cat /mnt/hello`. (`ls` needs `readdir`, too.)
//!
//! # Answers that come later
//! [`Builder::serve_by_values`] hands each request to you as a value, with an object that takes its
//! answer, on any thread. Here another thread answers each READ, by the same methods:
//! ```no_run
//! use pitskhomu::prelude::*;
//! use pitskhomu_vhost_user::{Builder, Error, Handler};
//! use std::{sync::Arc, thread};
//!
//! struct Later<F>(Arc<F>);
//!
//! impl<F: FileSystem + Send + Sync + 'static> Handler for Later<F> {
//!     fn call(&self, request: Request<'_>) {
//!         let files = self.0.clone();
//!         if let Operation::Read { .. } = request.operation {
//!             if let Ok(request) = request.into_owned() {
//!                 thread::spawn(move || request.answer_by(&*files)); // of READ nothing is undone
//!             }
//!         } else if let Err(unsent) = request.answer_by(&*files) {
//!             files.cancelled(unsent.cancelled()); // it came too late
//!         }
//!     }
//!
//!     fn cancelled(&self, cancelled: &Cancelled) {
//!         self.0.cancelled(cancelled);
//!     }
//!
//!     fn session_ended(&self) {
//!         self.0.destroy();
//!     }
//! }
//!
//! fn serve<F: FileSystem + Send + Sync + 'static>(files: Arc<F>) -> Result<(), Error> {
//!     Builder::new().threads(4).serve_by_values("/run/later.sock", Later(files))
//! }
//! ```
//!
//! # What the device does
//! - **It stops when the VMM says so.** A call of your file system that takes its time delays no
//!   message of the VMM's by more than 0.1 s. The thread returns to a ring that stands, and waits
//!   until the ring continues. After a reset nobody gets its answer, which is undone
//!   ([`FileSystem::cancelled`](pitskhomu::FileSystem::cancelled)).
//! - **A guest behind an IOMMU** is served, with QEMU's `iommu_platform=on,ats=on`.
//! - **A guest migrates** if you give the device a state that moves ([`Builder::movable`]). The
//!   pages that it writes are logged.
//! - **Another process takes over** while the guest runs, for example one of a later version
//!   ([`Builder::control_socket`], [`Builder::take_over`]). The VMM's socket never closes.
//! - **A panic** of your file system is answered EIO. Your process continues.
//!
//! The device has no sandbox and makes none: your process may enter one before it serves. The
//! virtqueue, the requests and the replies are those of a proved library. This crate is tested, not
//! proved; it is the device of the daemon `pitskhomu-virtiofsd`.
mod builder;
mod error;
mod served;
mod socket;

// What the daemon `pitskhomu-virtiofsd` needs besides. Any version may change it.
#[doc(hidden)]
pub mod device;
#[doc(hidden)]
pub mod front_end;
#[doc(hidden)]
pub mod in_flight;
#[doc(hidden)]
pub mod iommu;
#[doc(hidden)]
pub mod marks;
#[doc(hidden)]
pub mod memory;
#[doc(hidden)]
pub mod migration;
#[doc(hidden)]
pub mod notifier;
#[doc(hidden)]
pub mod numbers;
#[doc(hidden)]
pub mod pipe;
#[doc(hidden)]
pub mod replace;
#[doc(hidden)]
pub mod ring;
#[doc(hidden)]
pub mod session;
#[doc(hidden)]
pub mod state;

pub use builder::{serve, Builder};
pub use error::Error;
pub use pitskhomu::live::Handler;
pub use served::ByMethods;
pub use state::MovableState;
