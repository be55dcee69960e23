//! A virtqueue: its size, the addresses of its parts, and its positions.
use crate::chain;
use crate::status::Status;
use crate::sys;
use alloc::sync::Arc;

/// The size of a split virtqueue and the guest addresses of its parts (VIRTIO 1.2, 2.7), as the
/// driver set them.
#[derive(Clone, Copy, Debug, Default, PartialEq, Eq)]
pub struct QueueLayout {
    /// The number of descriptors: a power of two up to 32768.
    pub size: u16,
    /// The guest address of the descriptor table, a multiple of 16.
    pub descriptors: u64,
    /// The guest address of the available ring, a multiple of 2.
    pub available: u64,
    /// The guest address of the used ring, a multiple of 4.
    pub used: u64,
}

/// The available index that was loaded last (VIRTIO 1.2, 2.7.6), and the regions that it was loaded
/// with. All workers of a queue use the same memory, and each gets new regions after the memory has
/// changed. So a worker may also use an index that was loaded with newer regions than its own.
#[derive(Clone, Copy, Debug)]
struct Seen {
    index: u16,
    regions: usize,
}

/// A virtqueue.
///
/// [`Worker::pop`](crate::Worker::pop) advances `next_avail`, and
/// [`Worker::push`](crate::Worker::push) advances `next_used`. Each of several workers
/// has at most one chain of the queue in flight. A worker loads the available index again once all
/// chains before it were taken, after [`Queue::begin`], and after it got new regions.
///
/// `Queue::default()` isn't set up: a pop refuses it with [`Status::QueueNotBegun`], and other
/// calls with [`Status::BadQueueSize`].
///
/// # Examples
/// ```
/// use pitskhomu::{Queue, QueueLayout, Status};
///
/// # fn main() -> Result<(), Status> {
/// let layout = QueueLayout { size: 64, descriptors: 0x1000, available: 0x2000, used: 0x3000 };
/// let mut queue = Queue::new(layout, 0)?.with_max_in_flight(4)?.with_event_index(true);
/// assert_eq!((queue.next_avail(), queue.in_flight()), (0, 0));
///
/// let odd = QueueLayout { size: 63, ..layout };
/// assert_eq!(Queue::new(odd, 0).err(), Some(Status::BadQueueSize));
///
/// // The driver reset the device, and set the queue up again.
/// queue.begin(Queue::new(layout, 7)?)?;
/// assert_eq!(queue.next_avail(), 7);
/// # Ok(())
/// # }
/// ```
#[derive(Debug)]
#[must_use]
pub struct Queue {
    numbers: sys::Queue,
    seen: Option<Seen>,
    /// It lives until the queue is reset or dropped.
    session: Arc<()>,
}

impl Default for Queue {
    fn default() -> Queue {
        Queue::of_numbers(fresh_numbers())
    }
}

/// Zeros, except for one chain in flight at most. The library gives each queue that is reset or
/// restored a number of its own, by which a chain identifies it.
pub(crate) fn fresh_numbers() -> sys::Queue {
    sys::Queue { max_in_flight: 1, ..sys::Queue::default() }
}

impl Queue {
    /// A queue whose next chain is at the position `next_avail` of the available ring: 0 after a
    /// reset, or the position that another device reported. One chain may be in flight.
    ///
    /// # Errors
    /// - `BadQueueSize`: the size isn't a power of two up to 32768.
    /// - `BadQueueAlignment`: an address isn't aligned.
    /// - `BadQueueEnd`: a part ends past the greatest address.
    pub fn new(layout: QueueLayout, next_avail: u16) -> Result<Queue, Status> {
        let QueueLayout { size, descriptors: desc, available: avail, used } = layout;
        let mut numbers = sys::Queue { desc, avail, used, size, ..fresh_numbers() };
        chain::begin(&mut numbers, next_avail)?;
        Ok(Queue::of_numbers(numbers))
    }

    /// A queue whose index wasn't loaded yet.
    pub(crate) fn of_numbers(numbers: sys::Queue) -> Queue {
        Queue { numbers, seen: None, session: Arc::new(()) }
    }

    /// The session of the chains that are popped now.
    pub(crate) fn session(&self) -> &Arc<()> {
        &self.session
    }

    pub(crate) const fn numbers(&self) -> &sys::Queue {
        &self.numbers
    }

    pub(crate) fn numbers_mut(&mut self) -> &mut sys::Queue {
        &mut self.numbers
    }

    /// The available index that was loaded last with these regions or newer ones, if a chain before
    /// it wasn't taken yet. That load was followed by an acquire fence, and the queue's lock orders
    /// this call after it.
    pub(crate) fn seen_index(&self, regions: usize) -> Option<u16> {
        self.seen
            .filter(|seen| seen.regions >= regions && seen.index != self.next_avail())
            .map(|seen| seen.index)
    }

    /// Keeps the available index that a worker with these regions loaded.
    pub(crate) fn see_index(&mut self, index: u16, regions: usize) {
        let regions = self.seen.map_or(regions, |seen| seen.regions.max(regions));
        self.seen = Some(Seen { index, regions });
    }

    /// Forgets the available index: a pop may go by a later one.
    pub(crate) fn forget_index(&mut self) {
        self.seen = None;
    }

    /// The queue with up to `max_in_flight` chains in flight: one for each worker that serves it.
    ///
    /// # Errors
    /// `BadMaxInFlight`: the number isn't from 1 to the queue's size.
    pub fn with_max_in_flight(mut self, max_in_flight: u16) -> Result<Queue, Status> {
        if max_in_flight == 0 || max_in_flight > self.numbers.size {
            return Err(Status::BadMaxInFlight);
        }
        self.numbers.max_in_flight = max_in_flight;
        Ok(self)
    }

    /// The queue of a driver that accepted `VIRTIO_F_EVENT_IDX`, or didn't. With it driver and
    /// device ask for the next notification by a chain's position, and without it by flags (VIRTIO
    /// 1.2, 2.7.7 and 2.7.10).
    pub fn with_event_index(mut self, is_accepted: bool) -> Queue {
        self.numbers.event_index = is_accepted.into();
        self
    }

    /// Resets the queue: it becomes `queue`. Its chains in flight are then refused
    /// (`Status::OtherQueue`), and answers to them too ([`Reply::send`](crate::Reply::send)). So
    /// first each worker must [`abandon`](crate::Worker::abandon) its own.
    ///
    /// # Errors
    /// `BadQueueSize`: `queue` isn't set up. This one stays as it was.
    #[allow(clippy::needless_pass_by_value)] // afterwards there is one queue, not two
    pub fn begin(&mut self, queue: Queue) -> Result<(), Status> {
        let next_avail = queue.next_avail();
        let mut numbers = sys::Queue { reset_count: self.numbers.reset_count, ..queue.numbers };
        chain::begin(&mut numbers, next_avail)?;
        *self = Queue::of_numbers(numbers);
        Ok(())
    }

    /// Whether a pop gets as far as the available index: the queue was set up, wasn't stopped, and
    /// may have another chain in flight.
    pub(crate) const fn may_pop(&self) -> bool {
        let sys::Queue { reset_count, stopped, size, .. } = self.numbers;
        let has_room = self.in_flight() < self.max_in_flight();
        reset_count != 0 && stopped == 0 && size != 0 && has_room
    }

    /// The queue's size and addresses.
    #[must_use]
    pub const fn layout(&self) -> QueueLayout {
        let sys::Queue { size, desc: descriptors, avail: available, used, .. } = self.numbers;
        QueueLayout { size, descriptors, available, used }
    }

    /// The position of the next chain to take, modulo 2^16. While no chain is in flight it is the
    /// queue's state (`GET_VRING_BASE` of vhost-user).
    #[must_use]
    pub const fn next_avail(&self) -> u16 {
        self.numbers.next_avail
    }

    /// The position of the next used element, modulo 2^16.
    #[must_use]
    pub const fn next_used(&self) -> u16 {
        self.numbers.next_used
    }

    /// The number of chains in flight.
    #[must_use]
    pub const fn in_flight(&self) -> u16 {
        self.numbers.next_avail.wrapping_sub(self.numbers.next_used)
    }

    /// The greatest number of chains in flight.
    #[must_use]
    pub const fn max_in_flight(&self) -> u16 {
        self.numbers.max_in_flight
    }

    /// Whether a chain is available by the index that was loaded last. If `false`, a chain may be
    /// available all the same: [`Worker::pop`](crate::Worker::pop) loads the index then.
    #[must_use]
    pub fn knows_more(&self) -> bool {
        self.seen.map_or(false, |seen| seen.index != self.next_avail())
    }

    /// Whether the driver accepted `VIRTIO_F_EVENT_IDX`.
    #[must_use]
    pub const fn has_event_index(&self) -> bool {
        self.numbers.event_index != 0
    }

    /// The refusal that stopped the queue, if any; `Status::Stopped` if [`Device::restore`]
    /// restored a stopped queue.
    ///
    /// [`Device::restore`]: crate::Device::restore
    #[must_use]
    pub fn stopped(&self) -> Option<Status> {
        Some(self.numbers.stopped)
            .filter(|&number| number != 0)
            .map(|number| Status::of(number.into()))
    }

    /// The guest address of the field that enables available buffer notifications: `avail_event`,
    /// or the flags of the used ring (VIRTIO 1.2, 2.7.8 and 2.7.10).
    pub(crate) const fn notification_address(&self) -> u64 {
        if self.has_event_index() {
            self.numbers.used + 4 + 8 * self.numbers.size as u64
        } else {
            self.numbers.used
        }
    }
}
