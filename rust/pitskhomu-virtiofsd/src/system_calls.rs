//! The list of system calls that the daemon may make (seccomp). It is this daemon's own: a second
//! filter can't allow what virtiofsd's refuses.
use crate::options::Seccomp;
use libseccomp_sys as seccomp;
use std::ffi::{c_int, CString};
use std::io;

/// virtiofsd 1.13.2's list (its `src/seccomp.rs`). Names that this architecture lacks are ignored.
const OF_VIRTIOFSD: &str = "_llseek accept4 brk capget capset clock_gettime clone clone3 close \
    copy_file_range dup epoll_create epoll_create1 epoll_ctl epoll_pwait epoll_wait eventfd2 exit \
    exit_group fallocate fchdir fchmod fchmodat fchownat fcntl fdatasync fgetxattr flistxattr \
    flock fremovexattr fsetxattr fstat fstatfs fstatfs64 fsync ftruncate futex getdents \
    getdents64 getegid geteuid getpid getrandom gettid gettimeofday getxattr linkat listxattr \
    lseek madvise membarrier mkdirat mknodat mmap mprotect mremap munmap name_to_handle_at \
    newfstatat open open_by_handle_at openat openat2 prctl pread64 preadv pwrite64 pwritev2 read \
    readlinkat recvmsg removexattr renameat renameat2 rseq rt_sigaction rt_sigprocmask \
    rt_sigreturn sched_getaffinity sched_yield sendmsg set_robust_list setgroups setresgid \
    setresuid setxattr sigaltstack sigreturn statx symlinkat syncfs tgkill time tkill umask \
    unlink unlinkat unshare utimensat write writev";

/// The calls that only this daemon makes.
/// - `restart_syscall`: after SIGSTOP and SIGCONT, a freezer or a debugger the kernel continues
///   with it a wait that has a time limit (a futex: std's `recv_timeout`, `park_timeout`,
///   `wait_timeout`). virtiofsd has no such wait.
/// - `dup3`: standard error leads nowhere for a moment (`logger::without_errors`), and a daemon
///   that replaces another continues with the front-end's socket.
/// - `pause`: std has a thread that begins or ends wait so while another reports that its stack has
///   overflowed, or ends the process.
const OWN: &str = "restart_syscall dup3 pause";

/// What a log at /dev/log needs.
const OF_SYSLOG: &str = "sendto";

/// Allows a call by its name. An error is libseccomp's, as a negative number.
fn allow(filter: seccomp::scmp_filter_ctx, name: &str) -> Result<(), c_int> {
    let name = CString::new(name).map_err(|_| -libc::EINVAL)?;
    // SAFETY: the name is a C string.
    let number = unsafe { seccomp::seccomp_syscall_resolve_name(name.as_ptr()) };
    // SAFETY: the filter is live, and no conditions follow.
    match unsafe { seccomp::seccomp_rule_add(filter, seccomp::SCMP_ACT_ALLOW, number, 0) } {
        0 => Ok(()),
        error => Err(error),
    }
}

fn message(step: &str, error: c_int) -> String {
    let why = io::Error::from_raw_os_error(error.saturating_neg());
    format!("Error limiting the system calls: {step}: {why}")
}

fn fill_and_load(filter: seccomp::scmp_filter_ctx, has_syslog: bool) -> Result<(), String> {
    let of_syslog = if has_syslog { OF_SYSLOG } else { "" };
    for name in [OF_VIRTIOFSD, OWN, of_syslog].iter().flat_map(|list| list.split_whitespace()) {
        allow(filter, name).map_err(|error| message(name, error))?;
    }
    // SAFETY: the filter is live.
    match unsafe { seccomp::seccomp_load(filter) } {
        0 => Ok(()),
        error => Err(message("load", error)),
    }
}

/// Limits the calling thread, and the threads that it makes later, to the list. An error is a
/// message.
pub fn limit(action: Seccomp, has_syslog: bool) -> Result<(), String> {
    let action = match action {
        Seccomp::None => return Ok(()),
        Seccomp::Kill => seccomp::SCMP_ACT_KILL_PROCESS,
        Seccomp::Log => seccomp::SCMP_ACT_LOG,
        Seccomp::Trap => seccomp::SCMP_ACT_TRAP,
    };
    // SAFETY: no memory is passed.
    let filter = unsafe { seccomp::seccomp_init(action) };
    if filter.is_null() {
        return Err(message("init", -libc::ENOMEM));
    }
    let limited = fill_and_load(filter, has_syslog);
    // SAFETY: the filter is live, and nothing uses it from here on.
    unsafe { seccomp::seccomp_release(filter) };
    limited
}

#[cfg(test)]
mod tests {
    use super::*;
    use std::thread;

    /// A call that the filter refuses ends the process. Only this thread gets the filter.
    #[test]
    fn the_filter_allows_a_wait_to_be_continued() {
        let continued = thread::spawn(|| {
            limit(Seccomp::Kill, false).expect("a filter");
            // SAFETY: no memory is touched. There is no wait to continue, so it fails.
            let result = unsafe { libc::syscall(libc::SYS_restart_syscall) };
            (result, io::Error::last_os_error().raw_os_error())
        });
        assert_eq!(continued.join().expect("a thread"), (-1, Some(libc::EINTR)));
    }

    /// `--seccomp=trap` names a refused call by SIGSYS; with `log` it is made.
    #[test]
    fn a_call_that_is_logged_is_made() {
        let made = thread::spawn(|| {
            limit(Seccomp::Log, false).expect("a filter");
            // SAFETY: no memory is touched.
            unsafe { libc::getppid() }
        });
        assert!(made.join().expect("a thread") > 0);
    }
}
