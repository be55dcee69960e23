//! Signals: those that end the daemon, and faults, which the log names before the daemon ends.
use crate::logger::write_at_the_end;
use crate::numbers::on_signal;
use libc::{c_int, c_void, sighandler_t, siginfo_t};
use std::mem::{transmute, MaybeUninit};
use std::ptr;
use std::sync::atomic::{AtomicUsize, Ordering};

/// A handler with `SA_SIGINFO`.
type Handler = extern "C" fn(c_int, *mut siginfo_t, *mut c_void);

/// std's handler of SIGSEGV, which says that a stack has overflowed.
static OF_STD: AtomicUsize = AtomicUsize::new(libc::SIG_DFL);

extern "C" fn end(_signal: c_int, _info: *mut siginfo_t, _context: *mut c_void) {
    // SAFETY: a signal handler may call _exit, which touches no memory.
    unsafe { libc::_exit(0) }
}

/// The handler of SIGBUS: a page of the front-end's memory is gone, or the host's memory is faulty.
/// A thread that accesses the page can't continue, and the daemon serves no other front-end.
extern "C" fn end_for_lost_memory(_signal: c_int, _info: *mut siginfo_t, _context: *mut c_void) {
    write_at_the_end(
        b"pitskhomu-virtiofsd: memory that the front-end lent is gone (SIGBUS), so nothing more \
         can be served\n",
    );
    // SAFETY: as above.
    unsafe { libc::_exit(1) }
}

/// The handler of SIGSYS (`--seccomp=trap`). `kill` leaves no time for a word.
extern "C" fn end_for_call(_signal: c_int, info: *mut siginfo_t, _context: *mut c_void) {
    // SAFETY: Linux lays SIGSYS's information out so: the call's address, then its number.
    let number = unsafe { info.cast::<c_int>().add(6).read() };
    let (mut digits, mut first, mut rest) = ([b'\n'; 12], 11, number.unsigned_abs());
    while rest > 0 && first > 0 {
        first -= 1;
        digits[first] = b"0123456789"[(rest % 10) as usize];
        rest /= 10;
    }
    write_at_the_end(b"pitskhomu-virtiofsd: a system call that isn't in the list (SIGSYS): ");
    write_at_the_end(&digits[first..]);
    // SAFETY: as above.
    unsafe { libc::_exit(1) }
}

/// The handler of other faults. When it returns, the fault recurs, and ends the process.
extern "C" fn name_fault(signal: c_int, info: *mut siginfo_t, context: *mut c_void) {
    let of_std = OF_STD.load(Ordering::Relaxed);
    if signal == libc::SIGSEGV && of_std != libc::SIG_DFL {
        // SAFETY: `handle` has read it from the signal's action, which has SA_SIGINFO. If a stack
        // has overflowed it says so and aborts. Else it restores the signal's default action.
        unsafe { transmute::<usize, Handler>(of_std)(signal, info, context) }
    }
    write_at_the_end(match signal {
        libc::SIGSEGV => b"pitskhomu-virtiofsd: it ends by a fault (SIGSEGV)\n",
        libc::SIGILL => b"pitskhomu-virtiofsd: it ends by a fault (SIGILL) \n",
        _ => b"pitskhomu-virtiofsd: it ends by a fault (SIGFPE) \n",
    });
    // SAFETY: no memory is touched, and the information is the kernel's. A signal that another
    // process sent doesn't recur.
    unsafe {
        libc::signal(signal, libc::SIG_DFL);
        if (*info).si_code <= 0 {
            libc::_exit(1);
        }
    }
}

/// Sets a signal's handler, and returns the one before, if that had `SA_SIGINFO`.
fn set(signal: c_int, handler: Handler) -> Option<sighandler_t> {
    let mut before = MaybeUninit::<libc::sigaction>::zeroed();
    // SAFETY: the actions are borrowed, and zeros are an action. The handlers of this file call
    // only functions that a signal's handler may call.
    unsafe {
        let mut action = MaybeUninit::<libc::sigaction>::zeroed().assume_init();
        action.sa_sigaction = handler as *const () as sighandler_t;
        action.sa_flags = libc::SA_SIGINFO | libc::SA_ONSTACK;
        libc::sigaction(signal, &raw const action, before.as_mut_ptr());
        let before = before.assume_init();
        (before.sa_flags & libc::SA_SIGINFO != 0).then_some(before.sa_sigaction)
    }
}

/// Sets the handlers. The daemon is the first process of its namespace, so without a handler it
/// wouldn't receive SIGHUP, SIGINT and SIGTERM. SIGXFSZ is ignored, so that a write past
/// `RLIMIT_FSIZE` is answered EFBIG. The process that started the daemon may have signals blocked,
/// and SIGCHLD ignored: then the parent of the namespace would get no status of its child. SIGUSR1
/// asks for the daemon's numbers.
pub fn handle() {
    for signal in [libc::SIGHUP, libc::SIGINT, libc::SIGTERM] {
        set(signal, end);
    }
    set(libc::SIGBUS, end_for_lost_memory);
    set(libc::SIGSYS, end_for_call);
    if let Some(of_std) = set(libc::SIGSEGV, name_fault) {
        OF_STD.store(of_std, Ordering::Relaxed);
    }
    set(libc::SIGILL, name_fault);
    set(libc::SIGFPE, name_fault);
    let mut none = MaybeUninit::uninit();
    // SAFETY: the set is initialized before it is read, and no other memory is touched.
    unsafe {
        libc::signal(libc::SIGUSR1, on_signal as *const () as sighandler_t); // restarts calls
        libc::signal(libc::SIGXFSZ, libc::SIG_IGN);
        libc::signal(libc::SIGCHLD, libc::SIG_DFL);
        libc::sigemptyset(none.as_mut_ptr());
        libc::sigprocmask(libc::SIG_SETMASK, none.as_ptr(), ptr::null_mut());
    }
}
