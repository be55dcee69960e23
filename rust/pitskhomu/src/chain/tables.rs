//! The library's calls on an IOMMU's table that isn't lent.
use crate::status::Status;
use crate::sys;

/// Makes a table without a mapping in its place.
pub(crate) fn new_iotlb(place: &mut sys::Iotlb) -> Result<(), Status> {
    // SAFETY: as the module `chain` says.
    Status::check(unsafe { sys::pk_iotlb_new(place) })
}

/// Frees a place and its table.
pub(crate) fn free_iotlb(place: &mut sys::Iotlb) {
    // SAFETY: as the module `chain` says; of zeros it does nothing.
    unsafe { sys::pk_iotlb_free(place) }
}

pub(crate) fn map_iotlb(
    place: &mut sys::Iotlb,
    iova: u64,
    len: u64,
    guest: u64,
    access: u32,
) -> Result<(), Status> {
    // SAFETY: as the module `chain` says.
    Status::check(unsafe { sys::pk_iotlb_map(place, iova, len, guest, access) })
}

pub(crate) fn unmap_iotlb(place: &mut sys::Iotlb, iova: u64, len: u64) -> Result<(), Status> {
    // SAFETY: as the module `chain` says.
    Status::check(unsafe { sys::pk_iotlb_unmap(place, iova, len) })
}
