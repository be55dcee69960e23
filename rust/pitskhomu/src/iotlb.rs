//! An IOMMU's table, and what a pop misses in it.
use crate::chain;
use crate::status::Status;
use crate::sys::{self, access};
use core::ptr;

/// What a mapping allows, or a miss needs (enum `pk_access`; `VHOST_ACCESS_*` of
/// `linux/vhost_types.h`).
#[derive(Clone, Copy, Debug, PartialEq, Eq, Hash)]
pub enum Access {
    /// Neither: the range is refused. A pop that needs it gets a fault or a refusal, and no miss.
    None,
    /// The device reads.
    Read,
    /// The device writes.
    Write,
    /// It does both.
    ReadWrite,
}

impl Access {
    /// The access of a number, if it is one.
    #[must_use]
    pub const fn from_number(number: u32) -> Option<Access> {
        match number {
            access::NONE => Some(Access::None),
            access::READ => Some(Access::Read),
            access::WRITE => Some(Access::Write),
            access::READ_WRITE => Some(Access::ReadWrite),
            _ => None,
        }
    }

    /// Its number in enum `pk_access`.
    #[must_use]
    pub const fn number(self) -> u32 {
        match self {
            Access::None => access::NONE,
            Access::Read => access::READ,
            Access::Write => access::WRITE,
            Access::ReadWrite => access::READ_WRITE,
        }
    }

    /// What either of two needs.
    #[must_use]
    pub const fn or(self, other: Access) -> Access {
        match self.number() | other.number() {
            access::NONE => Access::None,
            access::READ => Access::Read,
            access::WRITE => Access::Write,
            _ => Access::ReadWrite,
        }
    }
}

/// I/O addresses that a pop needs, and that the table doesn't map: whole pages of
/// [`Iotlb::PAGE`] bytes.
#[derive(Clone, Copy, Debug, PartialEq, Eq)]
pub struct Miss {
    /// The first address.
    pub iova: u64,
    /// How many bytes. The end is 2^64 at most.
    pub len: u64,
    /// The access that the pop needs.
    pub access: Access,
}

impl Miss {
    /// The pages of these addresses.
    pub(crate) fn of_pages(miss: sys::Miss) -> Miss {
        let iova = miss.at & !(Iotlb::PAGE - 1);
        let last = miss.at.saturating_add(miss.len.saturating_sub(1));
        let access = Access::from_number(miss.access).unwrap_or(Access::ReadWrite);
        let pages = (last - iova) / Iotlb::PAGE + 1;
        Miss { iova, len: pages.saturating_mul(Iotlb::PAGE), access }
    }
}

/// An IOMMU's table: which guest physical addresses the device's I/O addresses mean (struct
/// `pk_iotlb`). All queues of a device share one: keep it behind a lock, and lend it to a worker
/// for a pop and for a push ([`Worker::lend`](crate::Worker::lend)).
///
/// A table has as many ranges as it is given; the caller bounds them.
///
/// # Examples
/// ```
/// use pitskhomu::{Access, Iotlb, Status};
///
/// # fn main() -> Result<(), Status> {
/// let mut iotlb = Iotlb::new()?;
/// iotlb.map(0xffff_f000, 0x1000, 0x4000, Access::ReadWrite)?;
/// assert_eq!(iotlb.map(0x10, 0x1000, 0x4000, Access::Read), Err(Status::BadArgument));
/// iotlb.unmap(0, 1 << 63)?;
/// iotlb.unmap(1 << 63, 1 << 63)?; // the end is 2^64
/// # Ok(())
/// # }
/// ```
#[derive(Debug)]
#[must_use]
pub struct Iotlb {
    place: sys::Iotlb,
}

// SAFETY: the table's memory is malloc's, and the library keeps nothing of a thread's
// (pitskhomu.h, THREADS).
#[allow(unsafe_code)]
unsafe impl Send for Iotlb {}

impl Drop for Iotlb {
    fn drop(&mut self) {
        chain::free_iotlb(&mut self.place);
    }
}

impl Iotlb {
    /// Addresses and lengths of mappings are multiples of it.
    pub const PAGE: u64 = 4096;

    /// A table that maps nothing.
    ///
    /// # Errors
    /// `OutOfMemory`: an allocation failed.
    pub fn new() -> Result<Iotlb, Status> {
        let mut place = sys::Iotlb { at: ptr::null_mut(), full: 0 };
        chain::new_iotlb(&mut place)?;
        Ok(Iotlb { place })
    }

    /// Removes all mappings. It takes no memory.
    pub fn clear(&mut self) {
        let _ = chain::new_iotlb(&mut self.place); // a place that isn't zeros becomes full
    }

    /// Maps `len` I/O addresses from `iova` on to guest physical ones from `guest` on. What was
    /// mapped there before is replaced.
    ///
    /// # Errors
    /// Nothing changes.
    /// - `BadArgument`: a number isn't a multiple of [`Iotlb::PAGE`], `len` is 0, or an end is 2^64
    ///   or more.
    /// - `OutOfMemory`: an allocation failed.
    pub fn map(&mut self, iova: u64, len: u64, guest: u64, access: Access) -> Result<(), Status> {
        chain::map_iotlb(&mut self.place, iova, len, guest, access.number())
    }

    /// Removes the mappings of `len` I/O addresses from `iova` on, if they have any. The end may be
    /// 2^64.
    ///
    /// # Errors
    /// Nothing changes.
    /// - `BadArgument`: a number isn't a multiple of [`Iotlb::PAGE`], `len` is 0, or the end is
    ///   above 2^64.
    /// - `OutOfMemory`: an allocation failed. Only a mapping that continues after the range needs
    ///   one; [`Iotlb::clear`] never does.
    pub fn unmap(&mut self, iova: u64, len: u64) -> Result<(), Status> {
        chain::unmap_iotlb(&mut self.place, iova, len)
    }

    pub(crate) fn place_mut(&mut self) -> &mut sys::Iotlb {
        &mut self.place
    }
}

#[cfg(test)]
mod tests {
    use super::*;

    #[test]
    fn misses_are_whole_pages() {
        let pages = |at, len| {
            let Miss { iova, len, .. } = Miss::of_pages(sys::Miss { at, len, access: 1 });
            (iova, len)
        };
        assert_eq!(pages(0x1000, 1), (0x1000, 0x1000));
        assert_eq!(pages(0x1fff, 2), (0x1000, 0x2000));
        assert_eq!(pages(0x1fff, 1), (0x1000, 0x1000));
        assert_eq!(pages(u64::MAX - 1, 1), (u64::MAX - 0xfff, 0x1000));
    }

    #[test]
    fn accesses_are_numbers() {
        for number in 0..4 {
            assert_eq!(Access::from_number(number).map(Access::number), Some(number));
        }
        assert_eq!(Access::from_number(4), None);
        assert_eq!(Access::Read.or(Access::Write), Access::ReadWrite);
        assert_eq!(Access::None.or(Access::Write), Access::Write);
    }
}
