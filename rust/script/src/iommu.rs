//! The IOMMU between the device and the guest's memory: a table, and a switch.
use crate::halt::{Missing, Stuck};
use crate::memory::Refusal;
use pitskhomu::{Access, Iotlb, Miss, Status};

pub struct Iommu {
    /// The table that is lent to the worker.
    pub table: Iotlb,
    pub is_on: bool,
}

/// The table takes whole pages only. In the script language every number is allowed.
fn are_pages(numbers: &[u64]) -> Result<(), Stuck> {
    if numbers.iter().all(|number| number % Iotlb::PAGE == 0) {
        Ok(())
    } else {
        Err(Missing::PartOfAnIoPage.into())
    }
}

/// What the table returned, as the outcome of a command.
fn outcome(changed: Result<(), Status>) -> Result<Result<(), Refusal>, Stuck> {
    match changed {
        Ok(()) => Ok(Ok(())),
        Err(Status::OutOfMemory) => Ok(Err(Refusal::OutOfMemory)),
        Err(status) => Err(status.into()),
    }
}

impl Iommu {
    /// An IOMMU that is off, and whose table maps nothing.
    pub fn new() -> Result<Iommu, Status> {
        Ok(Iommu { table: Iotlb::new()?, is_on: false })
    }

    /// Maps I/O addresses to guest addresses, in place of earlier mappings.
    pub fn map(
        &mut self,
        iova: u64,
        target: u64,
        len: u64,
        access: Access,
    ) -> Result<Result<(), Refusal>, Stuck> {
        if iova.checked_add(len).is_none() || target.checked_add(len).is_none() {
            return Ok(Err(Refusal::BadMapping));
        }
        if len == 0 {
            return Ok(Ok(()));
        }
        are_pages(&[iova, target, len])?;
        outcome(self.table.map(iova, len, target, access))
    }

    /// Removes the mappings of I/O addresses.
    pub fn unmap(&mut self, iova: u64, len: u64) -> Result<Result<(), Refusal>, Stuck> {
        if iova.checked_add(len).is_none() {
            return Ok(Err(Refusal::BadMapping));
        }
        if len == 0 {
            return Ok(Ok(()));
        }
        are_pages(&[iova, len])?;
        outcome(self.table.unmap(iova, len))
    }

    /// Refuses the addresses that a pop missed.
    pub fn refuse(&mut self, miss: &Miss) -> Result<(), Stuck> {
        Ok(self.table.map(miss.iova, miss.len, 0, Access::None)?)
    }

    /// Ends the refusal, so that the addresses aren't mapped again.
    pub fn end_refusal(&mut self, miss: &Miss) -> Result<(), Stuck> {
        Ok(self.table.unmap(miss.iova, miss.len)?)
    }
}
