//! A guest whose queue is served by threads: it notifies the device, and waits to be interrupted.
use super::{region, Guest, Memory, Service, AVAILABLE, LAYOUT, SIZE, USED};
use crate::live::{new_event, Builder, Error, Serving};
use crate::memory::{self, GuestMemory};
use crate::operation::Request;
use crate::queue::Queue;
use alloc::boxed::Box;
use core::sync::atomic::{fence, Ordering};
use core::time::Duration;
use std::fs::File;
use std::io::{Read, Write};
use std::thread;
use std::time::Instant;

/// A test waits for a reply for so long.
const LONGEST: Duration = Duration::from_secs(60);
/// The time between two looks for an interrupt.
const MOMENT: Duration = Duration::from_micros(20);

/// A queue that is served, and the driver's ends of its events.
pub(super) struct Live {
    serving: Serving,
    kick: File,
    call: File,
}

impl Guest<'_> {
    /// A guest whose queue `start` has served by [`live`](crate::live): by threads, with answers
    /// that may come later. It notifies the device only when that asks for it, and waits for each
    /// interrupt. The builder has the guest's memory. [`Guest::last`] is always `None`.
    ///
    /// # Examples
    /// ```no_run
    /// use pitskhomu::testing::Guest;
    /// use pitskhomu::{live, FileSystem, Node};
    /// use std::sync::Arc;
    ///
    /// fn has_a_file<F>(files: Arc<F>) -> Result<bool, live::Error>
    /// where
    ///     F: FileSystem + Send + Sync + 'static,
    /// {
    ///     let mut guest = Guest::live(|builder, queue, kick, call| {
    ///         builder.threads(4).start(queue, kick, call, files)
    ///     })?;
    ///     guest.init().unwrap();
    ///     Ok(guest.lookup(Node::ROOT, "hello").is_ok())
    /// }
    /// ```
    ///
    /// # Errors
    /// Those of `start`, and the system's.
    pub fn live(
        start: impl FnOnce(Builder, Queue, File, File) -> Result<Serving, Error>,
    ) -> Result<Guest<'static>, Error> {
        Guest::live_from(0, start)
    }

    /// A live guest whose next available index is this one.
    pub(super) fn live_from(
        first: u16,
        start: impl FnOnce(Builder, Queue, File, File) -> Result<Serving, Error>,
    ) -> Result<Guest<'static>, Error> {
        let (kick, call) = (new_event()?, new_event()?);
        let ends = (kick.try_clone()?, call.try_clone()?);
        let guest = Guest::with(Service::Values(Box::new(|_: Request<'_>| ())), true);
        let guest = Guest { offered: first, ..guest };
        memory::store_u16(&*guest.memory, AVAILABLE + 2, first);
        memory::store_u16(&*guest.memory, USED + 2, first);
        let builder = Builder::new(guest.device.clone(), guest.memory.clone(), &[region()]);
        let serving = start(builder, Queue::new(LAYOUT, first)?, kick, call)?;
        let live = Live { serving, kick: ends.0, call: ends.1 };
        Ok(Guest { service: Service::Live(live), ..guest })
    }
}

/// A number of a ring.
fn half(memory: &Memory, at: usize) -> u16 {
    let number = memory::load_u16(memory, at);
    fence(Ordering::Acquire);
    number
}

impl Live {
    /// Notifies the device of a chain, unless it doesn't ask for that, and waits until it is
    /// interrupted and the chain is used (VIRTIO 1.2, 2.7.13 and 2.7.14). Returns the reply's
    /// length.
    pub fn serve(&mut self, memory: &Memory, offered: u16) -> usize {
        fence(Ordering::SeqCst); // the available index is stored before the load
        if half(memory, USED) & 1 == 0 {
            (&self.kick).write_all(&1u64.to_ne_bytes()).expect("an event");
        }
        let end = Instant::now() + LONGEST;
        while half(memory, USED + 2) != offered {
            while (&self.call).read(&mut [0; 8]).is_err() {
                if let Some(status) = self.serving.refused() {
                    panic!("the queue is refused: {status}");
                }
                assert!(Instant::now() < end, "no interrupt came");
                thread::sleep(MOMENT);
            }
        }
        let mut len = [0; 4];
        let element = USED + 4 + 8 * usize::from(offered.wrapping_sub(1) % SIZE);
        let slice = memory.get_slice(element + 4, 4);
        slice.expect("it lies in the memory").load(&mut len);
        u32::from_le_bytes(len) as usize
    }
}
