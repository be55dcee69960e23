//! The state that all queues share, and the record that moves it to another host.
use crate::chain;
use crate::data::zeros;
use crate::flags::Options;
use crate::queue::{self, Queue};
use crate::status::Status;
use crate::sys;
use alloc::vec::Vec;
use core::sync::atomic::{AtomicU64, Ordering};

/// The state that all queues of a device share (struct `pk_device`). The options that INIT agreed
/// on are one atomic word, so workers of several threads share a device by reference, without a
/// lock.
///
/// # Examples
/// ```
/// use pitskhomu::{Device, Options, Queue, QueueLayout, Status};
///
/// # fn main() -> Result<(), Status> {
/// let device = Device::new(4096, Device::MIN_LIMIT)?;
/// assert_eq!(device.options(), Options::empty(), "no INIT yet");
/// assert_eq!(Device::new(1000, 0).err(), Some(Status::BadDevice));
///
/// // To another host: the record has device and queues, but no memory and no file.
/// let layout = QueueLayout { size: 64, descriptors: 0x1000, available: 0x2000, used: 0x3000 };
/// let record = device.save(&[Queue::new(layout, 7)?])?;
/// let queues = Device::default().restore(&record)?;
/// assert_eq!((queues.len(), queues[0].next_avail()), (1, 7));
/// # Ok(())
/// # }
/// ```
#[derive(Debug)]
#[must_use]
pub struct Device {
    page_size: u32,
    limit: u32,
    options: AtomicU64,
}

impl Default for Device {
    /// A device for a guest with pages of 4096 bytes, with the least limit.
    fn default() -> Device {
        Device::of_numbers(4096, Device::MIN_LIMIT)
    }
}

impl Device {
    /// The least limit, in bytes: enough for one READ or WRITE of 1 MiB with its headers.
    pub const MIN_LIMIT: u32 = 0x0010_1000;

    /// The greatest limit, in bytes.
    pub const MAX_LIMIT: u32 = 1 << 31;

    /// The most regions of the guest's memory.
    pub const MAX_REGIONS: usize = sys::REGIONS_MAX;

    /// The most queues of a record.
    pub const MAX_QUEUES: usize = sys::QUEUES_MAX;

    /// A device. `page_size` is the guest's, in bytes: a power of two from 4096 to 65536. `limit`
    /// is from `MIN_LIMIT` to `MAX_LIMIT`, in bytes. A chain with a longer request or reply
    /// buffer is faulty.
    ///
    /// # Errors
    /// `BadDevice`: the page size or the limit is out of range.
    pub const fn new(page_size: u32, limit: u32) -> Result<Device, Status> {
        let is_page = page_size.is_power_of_two() && page_size >= 4096 && page_size <= 65536;
        if is_page && limit >= Device::MIN_LIMIT && limit <= Device::MAX_LIMIT {
            Ok(Device::of_numbers(page_size, limit))
        } else {
            Err(Status::BadDevice)
        }
    }

    const fn of_numbers(page_size: u32, limit: u32) -> Device {
        Device { page_size, limit, options: AtomicU64::new(0) }
    }

    /// The guest's page size, in bytes.
    #[must_use]
    pub const fn page_size(&self) -> u32 {
        self.page_size
    }

    /// The most bytes of a request, and of a reply buffer.
    #[must_use]
    pub const fn limit(&self) -> u32 {
        self.limit
    }

    /// The options that INIT agreed on; none before.
    #[must_use]
    pub fn options(&self) -> Options {
        Options::from_bits(self.options.load(Ordering::Acquire))
    }

    /// Sets the options that INIT agreed on: none when the device is reset, or those of a session
    /// that moves here from another host.
    pub fn set_options(&self, options: Options) {
        self.options.store(options.bits(), Ordering::Release);
    }

    /// The record of the device and its 1 to `MAX_QUEUES` queues. It has each queue's layout,
    /// positions and whether it is stopped, and the device's options, page size and limit.
    ///
    /// # Errors
    /// - `BadArgument`: the number of queues, or unknown options.
    /// - `BadQueueSize`: a queue isn't set up.
    /// - `ChainInFlight`: a chain of a queue is in flight.
    /// - `OutOfMemory`: an allocation failed.
    pub fn save(&self, queues: &[Queue]) -> Result<Vec<u8>, Status> {
        let numbers = self.numbers();
        let mut places = [sys::Queue::default(); Device::MAX_QUEUES];
        let places = places.get_mut(..queues.len()).ok_or(Status::BadArgument)?;
        places.iter_mut().zip(queues).for_each(|(place, queue)| *place = *queue.numbers());
        let (len, measured) = chain::save(&numbers, places, &mut []);
        if let Err(status) = measured {
            if status != Status::ShortBuffer {
                return Err(status);
            }
        }
        let mut record = zeros(len)?;
        let (_, saved) = chain::save(&numbers, places, &mut record);
        saved.map(|()| record)
    }

    /// Sets the options from a record of a device with the same page size and limit, and returns
    /// its queues. Other bytes may follow the record. A queue that was stopped is stopped here too
    /// (`Status::Stopped`). The new queues may have one chain in flight and have no event index.
    /// [`Queue::with_max_in_flight`] and [`Queue::with_event_index`] set these.
    ///
    /// # Errors
    /// Those that begin with `Record`, and `OutOfMemory`. An error leaves the options unchanged.
    pub fn restore(&self, record: &[u8]) -> Result<Vec<Queue>, Status> {
        let mut queues = Vec::new();
        queues.try_reserve_exact(Device::MAX_QUEUES).map_err(|_| Status::OutOfMemory)?;
        let mut places = [sys::Queue::default(); Device::MAX_QUEUES];
        for place in &mut places {
            *place = queue::fresh_numbers();
        }
        let mut numbers = self.numbers();
        let count = chain::restore(&mut numbers, &mut places, record)?;
        queues.extend(places.iter().take(count).copied().map(Queue::of_numbers));
        self.set_options(Options::from_bits(numbers.options));
        Ok(queues)
    }

    pub(crate) fn numbers(&self) -> sys::Device {
        sys::Device { page_size: self.page_size, limit: self.limit, options: self.options().bits() }
    }
}
