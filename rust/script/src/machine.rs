//! The guest with its device: queues, worker, memory and files.
use crate::files::{Calls, Files};
use crate::halt::{Missing, Stuck};
use crate::iommu::Iommu;
use crate::memory::{Memory, Refusal};
use pitskhomu::{
    Device, Fault, Miss, Popped, Queue, QueueLayout, RequestFault, Served, Status, Worker,
};
use std::mem;

/// The bytes of a reply's header (struct `fuse_out_header`).
const HEADER: usize = 16;

/// The opcodes of READ, READDIR and READDIRPLUS, whose replies have data.
const WITH_DATA: [u32; 3] = [15, 28, 44];

/// The most queues of a device.
pub const QUEUES_MAX: usize = Device::MAX_QUEUES;

pub struct Machine {
    pub memory: Memory,
    pub iommu: Iommu,
    device: Device,
    queues: Vec<Queue>,
    /// Whether the driver accepted `VIRTIO_F_EVENT_IDX`.
    event_index: bool,
    worker: Worker,
    files: Files,
}

/// The outcome of a kick for one chain.
pub enum Step {
    Idle,
    Done(Calls, Served),
    /// With the script language's number.
    Refused(u32),
}

/// The outcome of a pop whose chain is dropped.
pub enum Dropped {
    Idle,
    /// The chain is available again.
    Available,
    /// The chain has a fault, so it was returned.
    Faulty(Served),
    /// With the script language's number.
    Refused(u32),
}

/// The script language's number of a status that refuses a pop.
fn refusal(status: Status) -> Result<u32, Stuck> {
    if status.stops_queue() || status == Status::OutOfMemory {
        Ok(status.number())
    } else {
        Err(status.into())
    }
}

/// The script language's number of a layout's error, if it has one.
pub fn bad_layout(layout: &QueueLayout) -> Option<u32> {
    let QueueLayout { size, descriptors, available, used } = *layout;
    let ends = |address: u64, len: u64| address.checked_add(len).is_some();
    let entries = u64::from(size);
    if !size.is_power_of_two() {
        Some(1)
    } else if descriptors % 16 != 0 || available % 2 != 0 || used % 4 != 0 {
        Some(2)
    } else if !ends(descriptors, 16 * entries)
        || !ends(available, 6 + 2 * entries)
        || !ends(used, 6 + 8 * entries)
    {
        Some(3)
    } else {
        None
    }
}

/// The name of a fault, or a dash.
pub fn fault_name(served: &Served) -> &'static str {
    match (served.fault, served.request_fault) {
        (Some(fault), _) => chain_fault_name(fault),
        (None, Some(fault)) => request_fault_name(fault),
        (None, None) if served.had_no_room => "EncodeMessage",
        (None, None) => "-",
    }
}

fn chain_fault_name(fault: Fault) -> &'static str {
    match fault {
        Fault::TooLong => "TooLong",
        Fault::NextOutOfTable => "NextOutOfTable",
        Fault::AddressOverflow => "AddressOverflow",
        Fault::IndirectWithNext => "IndirectWithNext",
        Fault::IndirectNested => "IndirectNested",
        Fault::IndirectLength => "IndirectLength",
        Fault::TableUnreachable => "TableUnreachable",
        Fault::OverLimit => "OverLimit",
        Fault::RequestUnreachable => "RequestUnreachable",
        Fault::RoomUnreachable => "RoomUnreachable",
        _ => "UnknownFault",
    }
}

fn request_fault_name(fault: RequestFault) -> &'static str {
    match fault {
        RequestFault::Decode => "DecodeMessage",
        RequestFault::Encode => "EncodeMessage",
        RequestFault::MissingParameter => "MissingParameter",
        RequestFault::MissingExtension => "MissingExtension",
        RequestFault::HeaderLength => "InvalidHeaderLength",
        RequestFault::Name => "InvalidCString",
        RequestFault::XattrSize => "InvalidXattrSize",
        _ => "UnknownFault",
    }
}

impl Machine {
    /// A device without queues, and a guest without memory.
    pub fn new() -> Result<Machine, Status> {
        Ok(Machine {
            memory: Memory::default(),
            iommu: Iommu::new()?,
            device: Device::default(),
            queues: Vec::new(),
            event_index: false,
            worker: Worker::new(),
            files: Files::new(),
        })
    }

    pub fn queue_count(&self) -> usize {
        self.queues.len()
    }

    /// Adds a queue; `false` if the layout isn't valid. The session has checked it (`bad_layout`).
    pub fn add_queue(&mut self, layout: QueueLayout) -> bool {
        Queue::new(layout, 0).map(|queue| self.queues.push(queue)).is_ok()
    }

    pub fn has_queue(&self, queue: u64) -> bool {
        queue < self.queues.len() as u64
    }

    /// Resets a queue: position 0, not stopped.
    pub fn reset(&mut self, queue: u64, layout: QueueLayout) -> Result<Result<(), Refusal>, Stuck> {
        let begun = Queue::new(layout, 0)?.with_event_index(self.event_index);
        match usize::try_from(queue).ok().and_then(|queue| self.queues.get_mut(queue)) {
            Some(queue) => Ok(Ok(queue.begin(begun)?)),
            None => Ok(Err(Refusal::NoSuchQueue)),
        }
    }

    /// Whether the driver accepts `VIRTIO_F_EVENT_IDX`, for all queues.
    pub fn set_event_index(&mut self, is_accepted: bool) {
        self.event_index = is_accepted;
        for queue in &mut self.queues {
            *queue = mem::take(queue).with_event_index(is_accepted);
        }
    }

    /// Enables or disables notifications of the driver. `false` if the bytes aren't mapped.
    pub fn notify(&mut self, queue: u64, enabled: bool) -> Result<bool, Stuck> {
        self.set_memory()?;
        self.memory.begin_step(self.iommu.is_on);
        let queue = &self.queues[queue as usize];
        let stored = if self.iommu.is_on {
            let mut lent = self.worker.lend(&mut self.iommu.table)?;
            lent.set_notification(queue, enabled, &self.memory)
        } else {
            self.worker.set_notification(queue, enabled, &self.memory)
        };
        match stored {
            Ok(_) => Ok(true),
            Err(Status::NotMapped) => Ok(false),
            Err(status) => Err(status.into()),
        }
    }

    /// Pops a queue's next chain and drops it, or returns it if it has a fault.
    pub fn drop_chain(&mut self, queue: u64) -> Result<Dropped, Stuck> {
        self.set_memory()?;
        let queue = queue as usize;
        self.memory.begin_step(self.iommu.is_on);
        let popped = if self.iommu.is_on {
            self.pop_translated(queue)?.map(|popped| popped == Popped::Chain)
        } else {
            self.worker.pop(&mut self.queues[queue], &self.memory)
        };
        match popped {
            Ok(false) => Ok(Dropped::Idle),
            Ok(true) if self.worker.is_answered() => Ok(Dropped::Faulty(self.push(queue)?)),
            Ok(true) => {
                self.worker.unpop(&mut self.queues[queue])?;
                Ok(Dropped::Available)
            }
            Err(status) => Ok(Dropped::Refused(refusal(status)?)),
        }
    }

    /// Pushes the worker's chain.
    fn push(&mut self, queue: usize) -> Result<Served, Stuck> {
        if self.iommu.is_on {
            let mut lent = self.worker.lend(&mut self.iommu.table)?;
            return Ok(lent.push(&mut self.queues[queue], &self.memory)?);
        }
        Ok(self.worker.push(&mut self.queues[queue], &self.memory)?)
    }

    /// Sets the worker's regions, before each chain. So the wrapper loads the available index again
    /// for each chain, as the script's device does. Without this it would do so only once it has
    /// taken all chains up to the last index.
    fn set_memory(&mut self) -> Result<(), Stuck> {
        let regions = self.memory.regions();
        if regions.len() > Device::MAX_REGIONS {
            return Err(Missing::ManyRegions.into());
        }
        if regions.iter().any(|region| (region.guest | region.len) % 4096 != 0) {
            return Err(Missing::PartOfAPage.into());
        }
        Ok(self.worker.set_memory(&self.device, &regions)?)
    }

    /// Pops a queue's next chain, whose addresses are I/O addresses. Addresses that the table
    /// doesn't map are refused for this pop: so the chain gets its fault, or the queue its refusal.
    fn pop_translated(&mut self, queue: usize) -> Result<Result<Popped, Status>, Stuck> {
        let mut refused: Vec<Miss> = Vec::new();
        let popped = loop {
            let mut lent = self.worker.lend(&mut self.iommu.table)?;
            let popped = lent.pop(&mut self.queues[queue], &self.memory);
            drop(lent);
            if popped != Ok(Popped::Missing) {
                break popped;
            }
            for miss in self.worker.misses() {
                self.iommu.refuse(miss)?;
                refused.push(*miss);
            }
        };
        refused.iter().try_for_each(|miss| self.iommu.end_refusal(miss))?;
        Ok(popped)
    }

    /// Serves a queue's next chain behind the IOMMU.
    fn serve_translated(&mut self, queue: usize) -> Result<Result<Option<Served>, Status>, Stuck> {
        match self.pop_translated(queue)? {
            Ok(Popped::Chain) => {}
            Ok(Popped::Idle | Popped::Missing) => return Ok(Ok(None)),
            Err(status) => return Ok(Err(status)),
        }
        self.worker.answer(&self.device, &self.files, &self.memory)?;
        Ok(Ok(Some(self.push(queue)?)))
    }

    /// Serves a queue's next chain.
    pub fn step(&mut self, queue: u64) -> Result<Step, Stuck> {
        self.set_memory()?;
        let queue = queue as usize;
        self.memory.begin_step(self.iommu.is_on);
        let served = if self.iommu.is_on {
            self.serve_translated(queue)?
        } else {
            self.worker.serve(&mut self.queues[queue], &self.device, &self.files, &self.memory)
        };
        match served {
            Ok(None) => Ok(Step::Idle),
            Ok(Some(served)) => {
                let len = served.reply_len as usize;
                let has_data = WITH_DATA.contains(&served.opcode) && len > HEADER;
                if has_data && self.memory.header_meets_data(len - HEADER, HEADER) {
                    return Err(Missing::HeaderOverData.into());
                }
                Ok(Step::Done(self.files.take_calls(), served))
            }
            Err(status) => Ok(Step::Refused(refusal(status)?)),
        }
    }

    /// Replaces memory and device by copies, as after a migration. The IOMMU stays as it is.
    /// Returns the length of the device's record in bytes; `None` if an allocation fails.
    pub fn move_on(&mut self) -> Result<Option<usize>, Stuck> {
        let record = self.device.save(&self.queues)?;
        let device = Device::default();
        let queues = device.restore(&record)?;
        let memory = match self.memory.moved() {
            Some(memory) => memory,
            None => return Ok(None),
        };
        self.memory = memory;
        self.device = device;
        self.queues = queues;
        self.set_event_index(self.event_index);
        self.worker = Worker::new();
        Ok(Some(record.len()))
    }
}
