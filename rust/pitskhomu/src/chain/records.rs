//! The library's calls on the record of a device and its queues.
use crate::status::Status;
use crate::sys;

/// The length of the record, also with `ShortBuffer`, and whether it is in the buffer.
pub(crate) fn save(
    device: &sys::Device,
    queues: &[sys::Queue],
    buffer: &mut [u8],
) -> (usize, Result<(), Status>) {
    let mut len = 0;
    // SAFETY: as the module `chain` says.
    let number = unsafe {
        sys::pk_save(
            device,
            queues.as_ptr(),
            queues.len(),
            buffer.as_mut_ptr(),
            buffer.len(),
            &mut len,
        )
    };
    (len, Status::check(number))
}

/// The number of queues in the record.
pub(crate) fn restore(
    device: &mut sys::Device,
    queues: &mut [sys::Queue],
    record: &[u8],
) -> Result<usize, Status> {
    let mut count = 0;
    // SAFETY: as the module `chain` says.
    let number = unsafe {
        sys::pk_restore(
            device,
            queues.as_mut_ptr(),
            queues.len(),
            record.as_ptr(),
            record.len(),
            &mut count,
        )
    };
    Status::check(number).map(|()| count)
}
