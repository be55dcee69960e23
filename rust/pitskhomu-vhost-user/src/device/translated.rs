//! A queue's thread behind an IOMMU: pops and pushes with the table, which is locked for each of
//! them.
use super::{QueueWorker, ServedFs};
use crate::iommu::{Cancel, Mappings, LAST_PAGE};
use crate::memory::Table;
use pitskhomu::live::Asked;
use pitskhomu::{Miss, Popped, Queue, Served, Status};
use std::collections::BTreeSet;

/// The first and the last address of a miss.
fn ends(miss: &Miss) -> (u64, u64) {
    (miss.iova, miss.iova.saturating_add(miss.len - 1))
}

/// Whether a miss reaches the last page, which the table can't map.
fn reach_the_last_page(misses: &[Miss]) -> bool {
    misses.iter().any(|miss| ends(miss).1 >= LAST_PAGE)
}

/// The misses with a refused page. One refused page is enough for the chain's fault.
fn refused_of(misses: &[Miss], refused: &BTreeSet<u64>) -> Vec<Miss> {
    let has_one = |miss: &&Miss| {
        let (first, last) = ends(miss);
        refused.range(first..=last).next().is_some()
    };
    misses.iter().filter(has_one).copied().collect()
}

impl<F: ServedFs> QueueWorker<F> {
    /// A pop. What the front-end refuses is in the table for this one alone: so the chain gets its
    /// fault, or the ring its refusal.
    pub(super) fn pop_translated(
        &mut self,
        queue: &mut Queue,
        memory: &Table,
    ) -> Result<Popped, Status> {
        let mut table = memory.iommu().lock();
        if !Mappings::can_have(&queue.layout()) {
            return Err(Status::BadArgument);
        }
        let mut entered = Vec::new();
        let popped = self.pop_over(&mut table, queue, memory, &mut entered);
        for miss in &entered {
            table.unrefuse(miss);
        }
        if popped == Ok(Popped::Chain) {
            table.hold(self.index, &queue.layout());
            self.is_translated = true;
        }
        popped
    }

    fn pop_over(
        &mut self,
        table: &mut Mappings,
        queue: &mut Queue,
        memory: &Table,
        entered: &mut Vec<Miss>,
    ) -> Result<Popped, Status> {
        loop {
            let popped = self.worker.lend(table.iotlb()?)?.pop(queue, memory)?;
            if popped != Popped::Missing {
                return Ok(popped);
            }
            let misses = self.worker.misses();
            if reach_the_last_page(misses) {
                return Err(Status::DescriptorUnreachable); // no answer maps it
            }
            let refused = refused_of(misses, &self.refused);
            if refused.is_empty() {
                return Ok(popped);
            }
            for miss in refused {
                table.refuse(&miss)?;
                entered.push(miss);
            }
        }
    }

    /// Asks for the misses of the last call, without a lock.
    pub(super) fn ask_for_misses(&mut self, memory: &Table, cancel: &Cancel) -> Asked {
        match memory.iommu().ask(self.worker.misses(), cancel) {
            None => Asked::NotAll,
            Some(refused) if refused.is_empty() => Asked::All,
            Some(refused) => {
                self.refused.extend(refused);
                Asked::Refused
            }
        }
    }

    pub(super) fn push_translated(
        &mut self,
        queue: &mut Queue,
        memory: &Table,
    ) -> Result<Served, Status> {
        let mut table = memory.iommu().lock();
        let served = table
            .iotlb()
            .and_then(|iotlb| self.worker.lend(iotlb))
            .and_then(|mut lent| lent.push(queue, memory));
        table.release(self.index);
        self.is_translated = false;
        served
    }

    pub(super) fn set_notification_translated(
        &mut self,
        queue: &Queue,
        wanted: bool,
        memory: &Table,
    ) -> Result<bool, Status> {
        let mut table = memory.iommu().lock();
        let mut lent = self.worker.lend(table.iotlb()?)?;
        lent.set_notification(queue, wanted, memory)
    }
}
