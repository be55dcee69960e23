//! The kernel's table of the daemon's descriptors.
use log::debug;
use std::io;
use std::os::fd::{AsRawFd, BorrowedFd, FromRawFd, OwnedFd, RawFd};

/// The number of descriptors that the table holds from the start. It takes 2 MiB of the kernel's
/// memory.
const WIDTH: libc::rlim_t = 1 << 18;

/// The greatest number of a descriptor in a table of this width under this limit.
fn last_number(limit: libc::rlim_t) -> RawFd {
    #[allow(clippy::cast_possible_truncation, reason = "it is at most WIDTH")]
    let width = limit.min(WIDTH) as RawFd;
    width - 1
}

/// Makes the kernel allocate a wide table, by a descriptor with a high number that is closed again.
/// The kernel doubles a table that is full. In a process with several threads it then waits for
/// an RCU grace period (`expand_fdtable`), and each request that opens a file waits 10 to 25 ms.
/// While there is one thread it doesn't wait. A fork narrows the table again.
pub fn widen(any: BorrowedFd<'_>) {
    let mut limit = libc::rlimit { rlim_cur: 0, rlim_max: 0 };
    // SAFETY: `limit` is written, and no other memory is touched.
    let fd = unsafe {
        if libc::getrlimit(libc::RLIMIT_NOFILE, &raw mut limit) != 0 {
            return debug!("the limit of descriptors: {}", io::Error::last_os_error());
        }
        libc::fcntl(any.as_raw_fd(), libc::F_DUPFD_CLOEXEC, last_number(limit.rlim_cur))
    };
    if fd < 0 {
        return debug!("the table of descriptors isn't widened: {}", io::Error::last_os_error());
    }
    // SAFETY: the descriptor is new, and nothing else owns it.
    drop(unsafe { OwnedFd::from_raw_fd(fd) });
}

#[cfg(test)]
mod tests {
    use super::*;

    #[test]
    fn a_table_is_as_wide_as_the_limit_and_no_wider_than_two_mebibytes() {
        assert_eq!(last_number(610), 609);
        assert_eq!(last_number(1 << 18), (1 << 18) - 1);
        assert_eq!(last_number(1_000_000), (1 << 18) - 1);
        assert_eq!(last_number(libc::RLIM_INFINITY), (1 << 18) - 1);
    }
}
