//! The start of the daemon, from its options to a served directory.
use crate::capabilities;
use crate::fd_table;
use crate::guest_cache::GuestCache;
use crate::landlock;
use crate::logger::{self, Logger};
use crate::numbers::{self, MetricsSocket};
use crate::open_flags::OpenFlags;
use crate::options::Options;
use crate::paths;
use crate::replace::{self, Record};
use crate::serve::{Core, OfVirtiofsd, Shared};
use crate::signals;
use crate::socket::Socket;
use crate::starter::Starter;
use crate::state;
use crate::system_calls;
use log::{error, warn, Level};
use pitskhomu_vhost_user::replace::Control;
use pitskhomu_vhost_user::session;
use std::error::Error;
use std::fs::{self, File};
use std::io;
use std::os::fd::{AsFd, AsRawFd, FromRawFd, OwnedFd};
use std::path::Path;
use std::sync::Arc;
use std::time::Duration;
use vhost::vhost_user::Listener;
use virtiofsd::limits::setup_rlimit_nofile;
use virtiofsd::passthrough::read_only::PassthroughFsRo;
use virtiofsd::passthrough::{CachePolicy, Config, PassthroughFs};
use virtiofsd::sandbox::{self, Sandbox};

/// An error before the directory is served.
type Failure = Box<dyn Error>;

/// The daemon's own descriptors: 509 memory slots, the rings of one request queue, a migration, and
/// virtiofsd's temporary ones. Each thread needs one more: it opens a descriptor before it counts
/// it.
const OWN_DESCRIPTORS: u64 = 609;
/// The descriptors of each further queue: kick, call, err, and those by which its threads wait.
const QUEUE_DESCRIPTORS: u64 = 6;
/// The memory maps of a thread: its stack and its stack for signals, each with a guard page.
const THREAD_MAPS: u64 = 4;
/// The other memory maps: the program, its heap, the guest's memory.
const OWN_MAPS: u64 = 1000;
/// With fewer descriptors for the guest there is a warning.
const FEW_DESCRIPTORS: u64 = 128;
const DAY: Duration = Duration::from_secs(24 * 60 * 60);

/// The time that the guest may cache names and attributes.
fn timeout(cache: &CachePolicy) -> Duration {
    match cache {
        CachePolicy::Never => Duration::ZERO,
        CachePolicy::Auto => Duration::from_secs(1),
        CachePolicy::Metadata | CachePolicy::Always => DAY,
    }
}

fn config(
    options: Options,
    sandbox: &mut Sandbox,
    proc_self_fd: Option<File>,
    guest_descriptors: u64,
) -> Config {
    let timeout = timeout(&options.cache);
    Config {
        entry_timeout: timeout,
        attr_timeout: timeout,
        root_dir: sandbox.get_root_dir(),
        mountinfo_prefix: sandbox.get_mountinfo_prefix(),
        proc_sfd_rawfd: proc_self_fd,
        proc_mountinfo_rawfd: sandbox.get_mountinfo_fd(),
        guest_fd_limit: guest_descriptors,
        writeback: options.writeback,
        xattr: options.has_xattr(),
        xattrmap: options.xattrmap,
        posix_acl: options.posix_acl,
        security_label: options.security_label,
        announce_submounts: !options.no_announce_submounts,
        inode_file_handles: options.inode_file_handles.into(),
        readdirplus: !options.no_readdirplus && !matches!(options.cache, CachePolicy::Never),
        cache_policy: options.cache,
        allow_direct_io: options.allow_direct_io,
        killpriv_v2: options.killpriv_v2,
        clean_noatime: !options.preserve_noatime,
        allow_mmap: options.allow_mmap,
        migration_mode: options.migration_mode,
        migration_on_error: options.migration_on_error,
        migration_verify_handles: options.migration_verify_handles,
        migration_confirm_paths: options.migration_confirm_paths,
        uid_map: Some(options.translate_uid).filter(|map| !map.is_empty()),
        gid_map: Some(options.translate_gid).filter(|map| !map.is_empty()),
        ..Config::default()
    }
}

/// The number of descriptors for the guest.
fn guest_descriptors(options: &Options) -> Result<u64, Failure> {
    let limit = setup_rlimit_nofile(options.rlimit_nofile)
        .map_err(|why| format!("Error increasing number of open files: {why}"))?;
    let queues = u64::from(options.num_request_queues);
    let threads = u64::from(options.thread_pool_size.max(1)) * queues;
    let own = OWN_DESCRIPTORS + threads + QUEUE_DESCRIPTORS * (queues - 1);
    let left = limit.checked_sub(own).ok_or_else(|| {
        format!(
            "Maximum number of file descriptors too small: Limit is {limit}, must be at least \
            {own}"
        )
    })?;
    if left < FEW_DESCRIPTORS {
        warn!(
            "File descriptor count limit is very small, leaving only {left} file descriptors \
            for the guest"
        );
    }
    Ok(left)
}

/// An error if the system allows fewer memory maps than the threads need. Without it some of them
/// would end the process while they start.
fn check_threads(options: &Options) -> Result<(), Failure> {
    let (queues, pool) = (options.num_request_queues, options.thread_pool_size.max(1));
    let wanted = OWN_MAPS + THREAD_MAPS * u64::from(pool) * u64::from(queues);
    let allowed = fs::read_to_string("/proc/sys/vm/max_map_count");
    match allowed.ok().and_then(|number| number.trim().parse().ok()) {
        Some(allowed) if wanted > allowed => Err(format!(
            "{queues} queues of {pool} threads may need {wanted} memory maps, and \
            vm.max_map_count is {allowed}"
        )
        .into()),
        _ => Ok(()),
    }
}

/// The message for an error of the sandbox.
fn sandbox_error(e: sandbox::Error) -> String {
    #[allow(clippy::enum_glob_use, reason = "all of them are named below")]
    use sandbox::Error::*;
    let (step, e) = match e {
        BindMountProcSelfFd(e) => ("bind /proc/self/fd", e),
        ChdirOldRoot(e) | ChdirNewRoot(e) => ("change the directory", e),
        Chroot(e) | ChrootChdir(e) => ("change the root directory", e),
        CleanMount(e) => ("make the mounts private", e),
        CreateTempDir(e) => ("make a directory for a while", e),
        DropSupplementalGroups(e) | GetSupplementalGroups(e) => ("give up groups", e),
        Fork(e) => ("fork", e),
        BindMountSharedDir(e) | MountBind(e) | MountTarget(e) | MountNewRoot(e) => {
            ("mount the shared directory", e)
        }
        MountOldRoot(e) | UmountOldRoot(e) | OpenOldRoot(e) => ("leave the old root directory", e),
        MountProc(e) => ("mount /proc", e),
        OpenMountinfo(e) => ("open /proc/self/mountinfo", e),
        OpenNewRoot(e) => ("open the shared directory", e),
        OpenProcSelf(e) => ("open /proc/self", e),
        OpenProcSelfFd(e) => ("open /proc/self/fd", e),
        PivotRoot(e) => ("make the shared directory the root", e),
        RmdirTempDir(e) | UmountTempDir(e) => ("remove a directory of a while", e),
        Unshare(e) => ("make namespaces", e),
        WriteSetGroups(e) => ("write /proc/self/setgroups", e),
        in_words => return in_words.to_string(),
    };
    format!("can't {step}: {e}")
}

#[allow(clippy::needless_pass_by_value, reason = "a function for map_err")]
fn no_file_system(e: io::Error) -> String {
    format!("Failed to create internal filesystem representation: {e}")
}

/// Logs what the core is, and warns if it isn't proved.
fn log_build() {
    let build = pitskhomu::build();
    let level = if build.ends_with("NOT PROVED") { Level::Warn } else { Level::Info };
    log::log!(level, "the core: {build}");
}

/// The directory of these options, which contradict neither each other nor the host.
fn shared_dir(options: &mut Options) -> Result<String, Failure> {
    let shared_dir =
        options.shared_dir.take().ok_or("missing \"--shared-dir\" or \"-o source\" option")?;
    paths::check_shared(&shared_dir, options.sandbox)?;
    options.warnings().iter().for_each(|warning| warn!("{warning}"));
    if let Some((last, before)) = options.contradictions().split_last() {
        for why in before {
            error!("{why}");
        }
        return Err((*last).into());
    }
    Ok(shared_dir)
}

/// Serves the directory with these options, and returns when the front-end has disconnected, or
/// another daemon serves it.
pub fn run(mut options: Options, foreground: Option<File>, logger: &Logger) -> Result<(), Failure> {
    signals::handle();
    let starter = Starter::new(foreground, options.take_over.is_some());
    log_build();
    let shared_dir = shared_dir(&mut options)?;
    let capabilities = capabilities::Changes::new(&options)?;
    check_threads(&options)?;
    let guest_descriptors = guest_descriptors(&options)?;
    let record = Record::new(&options, Path::new(&shared_dir))?;
    let (uid_map, gid_map) =
        (std::mem::take(&mut options.uid_map), std::mem::take(&mut options.gid_map));
    let sandboxed = Sandbox::new(shared_dir.clone(), options.sandbox, uid_map, gid_map);
    let mut sandbox = sandboxed.map_err(|e| format!("Error creating sandbox: {e}"))?;
    let scratch = state::scratch()?;
    let Socket { listener, number } = Socket::open(&options)?;
    let takes_over = options.take_over.is_some();
    let metrics = Arc::new(MetricsSocket::new(options.metrics.as_deref(), takes_over)?);
    let mut asked = numbers::Asked::new(metrics.clone())?;
    let mut control =
        replace::control(&options, Path::new(&shared_dir), (record, number), (metrics, starter))?;
    let listener = sandbox
        .enter(listener)
        .map_err(|e| format!("Error entering sandbox: {shared_dir}: {}", sandbox_error(e)))?;
    fd_table::widen(scratch.as_fd()); // after the sandbox's fork, and before other threads
    control.enter()?;

    let proc_self_fd = sandbox.get_proc_self_fd();
    asked.enter(proc_self_fd.as_ref());
    let kept = Kept { capabilities, scratch, control, asked, root: sandbox.get_root_dir() };
    let serving = Serving::new(&mut options, listener, kept);
    let readonly = options.readonly;
    let config = config(options, &mut sandbox, proc_self_fd, guest_descriptors);
    if readonly {
        serving.serve(PassthroughFsRo::new(config).map_err(no_file_system)?, logger)
    } else {
        serving.serve(PassthroughFs::new(config).map_err(no_file_system)?, logger)
    }
}

/// The objects that are made before or while the daemon enters the sandbox.
struct Kept {
    capabilities: capabilities::Changes,
    scratch: File,
    control: Control,
    asked: numbers::Asked,
    root: String,
}

/// The options and objects that serving needs besides the file system.
struct Serving {
    listener: Listener,
    scratch: File,
    tag: Option<String>,
    request_queues: usize,
    threads: u16,
    polls: Duration,
    capabilities: capabilities::Changes,
    seccomp: crate::options::Seccomp,
    landlock: crate::options::Landlock,
    /// The directory's path in the sandbox.
    root: String,
    syslog: bool,
    flags: OpenFlags,
    cache: GuestCache,
    always_agreed: pitskhomu::Options,
    control: Control,
    asked: numbers::Asked,
    /// The listener is a connection to the daemon that this one takes over from.
    takes_over: bool,
}

impl Serving {
    fn new(options: &mut Options, listener: Listener, kept: Kept) -> Serving {
        let Kept { capabilities, scratch, control, asked, root } = kept;
        Serving {
            listener,
            scratch,
            tag: options.tag.take(),
            request_queues: options.num_request_queues.into(),
            threads: options.thread_pool_size.max(1),
            polls: Duration::from_micros(options.poll_max_us.into()),
            capabilities,
            seccomp: options.seccomp,
            landlock: options.landlock,
            root,
            syslog: options.syslog,
            flags: OpenFlags {
                allow_direct_io: options.allow_direct_io,
                preserve_noatime: options.preserve_noatime,
                writeback: options.writeback,
            },
            cache: options.guest_cache(),
            always_agreed: options.always_agreed(),
            control,
            asked,
            takes_over: options.take_over.is_some(),
        }
    }

    fn serve<F: OfVirtiofsd>(self, fs: F, logger: &Logger) -> Result<(), Failure> {
        let Serving { flags, cache, always_agreed, scratch, .. } = self;
        let shared = Shared { fs, flags, cache, always_agreed, scratch };
        let core = Arc::new(Core::new(shared, self.request_queues, self.threads)?);
        core.rings.iter().for_each(|ring| ring.poll_at_most(self.polls));
        logger::lead_errors()?;
        capabilities::give_up(&self.capabilities)?;
        landlock::confine(self.landlock, &self.root, self.capabilities.opens_handles())?;
        system_calls::limit(self.seccomp, self.syslog)?; // new threads inherit it
        logger.start().map_err(|e| no_thread("the log's thread", &e))?;
        self.asked.start(core.clone()).map_err(|e| no_thread("the thread for the numbers", &e))?;
        session::start_threads(&core, own_directory)?;
        let socket = descriptor(self.listener);
        session::run(&core, self.tag, (socket, self.takes_over), self.control)?;
        Ok(())
    }
}

/// The descriptor of a listener that removes no path.
fn descriptor(listener: Listener) -> OwnedFd {
    let fd = listener.as_raw_fd();
    std::mem::forget(listener);
    // SAFETY: the descriptor is open, and owned from here on.
    unsafe { OwnedFd::from_raw_fd(fd) }
}

/// The message for a thread that can't start. The system gives one error for several limits.
fn no_thread(what: &str, e: &io::Error) -> String {
    format!(
        "{what} can't start: {e}. Limits of threads: RLIMIT_NPROC, the cgroup's pids.max, \
        kernel.threads-max. Of memory: RLIMIT_AS, vm.max_map_count"
    )
}

/// The first call of each queue's thread: virtiofsd changes the thread's working directory for
/// extended attributes.
fn own_directory() -> io::Result<()> {
    // SAFETY: no memory is touched.
    match unsafe { libc::unshare(libc::CLONE_FS) } {
        0 => Ok(()),
        _ => {
            let e = io::Error::last_os_error();
            Err(io::Error::other(format!("unshare(CLONE_FS): {e}")))
        }
    }
}
