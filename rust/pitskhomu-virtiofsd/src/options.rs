//! The command line: virtiofsd's options, as far as they mean something here. A known option that
//! isn't supported is refused with the reason.
mod compat;
mod listed;
mod values;

use crate::guest_cache::{GuestCache, Pages};
use clap::Parser;
pub use listed::Listed;
use std::os::fd::RawFd;
use std::path::PathBuf;
use std::sync::LazyLock;
use std::time::Duration;
use values::{tag, xattr_map};
pub use values::{CapabilityChanges, Handles, Landlock, Seccomp};
use virtiofsd::idmap::{GidMap, UidMap};
use virtiofsd::passthrough::xattrmap::XattrMap;
use virtiofsd::passthrough::{CachePolicy, MigrationMode, MigrationOnError};
use virtiofsd::sandbox::SandboxMode;
use virtiofsd::soft_idmap::cmdline::IdMap;

/// Shares a directory of the host with the guest of a virtual machine (virtio-fs), over a proved
/// core. Its options are virtiofsd's.
#[derive(Debug, Parser)]
#[command(
    name = "pitskhomu-virtiofsd",
    version = version(),
    args_override_self = true,
    arg_required_else_help = true,
    override_usage = "pitskhomu-virtiofsd --shared-dir <SHARED_DIR> --socket-path <SOCKET_PATH> \
        [OPTIONS]",
    after_help = "A guest may have an IOMMU in front of the device: give QEMU's device \
        iommu_platform=on, and ats=on with Intel's. That needs no option here."
)]
#[allow(clippy::struct_excessive_bools, reason = "each is a flag of the command line")]
#[allow(clippy::struct_field_names, reason = "`options` is clap's word for -o")]
#[allow(clippy::doc_markdown, rustdoc::broken_intra_doc_links, reason = "--help prints them")]
pub struct Options {
    /// The directory that the guest sees
    ///
    /// It must exist before the daemon starts. With --sandbox none it can be a file.
    #[arg(long, required_unless_present_any = ["compat_options", "print_capabilities"])]
    pub shared_dir: Option<String>,
    /// The same as --socket-path [deprecated]
    #[arg(
        long,
        required_unless_present_any = ["fd", "socket_path", "take_over", "print_capabilities"]
    )]
    pub socket: Option<PathBuf>,
    /// The path of the socket that the front-end (QEMU) connects to
    ///
    /// The daemon makes the socket, and replaces an old one. It serves one front-end, and ends with
    /// it. SOCKET_PATH.pid has the daemon's process number, and stays locked while it runs.
    #[arg(
        long,
        required_unless_present_any = ["fd", "socket", "take_over", "print_capabilities"]
    )]
    pub socket_path: Option<PathBuf>,
    /// The group whose users may connect to the socket, besides its owner
    ///
    /// The socket then has mode 0660 in place of 0700. A QEMU of another user also needs search
    /// permission for the socket's directory.
    #[arg(long, conflicts_with_all = ["fd", "print_capabilities"])]
    pub socket_group: Option<String>,
    /// The number of an open socket that listens already
    ///
    /// The process that starts the daemon passes it, in place of --socket-path.
    #[arg(
        long,
        required_unless_present_any = ["socket", "socket_path", "take_over", "print_capabilities"],
        conflicts_with_all = ["socket_path", "socket"]
    )]
    pub fd: Option<RawFd>,
    /// The path of a socket where another daemon can replace this one, with --take-over
    ///
    /// Only a process of this daemon's user may do so. The path must lie outside the shared
    /// directory. A daemon that takes over keeps the socket.
    #[arg(long)]
    pub control_socket: Option<PathBuf>,
    /// Replace the daemon that has this control socket, while its guest runs
    ///
    /// The new daemon needs the same version or a later one, the same directory, and the same
    /// options, except those for names, logs, limits and migration. It takes over the socket of the
    /// front-end, the control socket and the PID file, so --socket-path has no effect. If anything
    /// fails, the old daemon continues, and this one ends with status 1.
    #[arg(long)]
    pub take_over: Option<PathBuf>,
    /// With --take-over: continue in the background
    ///
    /// The process that was started ends once the new daemon serves, with status 0, or with status
    /// 1 if the old one continues. So a script, or ExecReload= of systemd, knows when the old
    /// daemon is replaced. systemd gets the new daemon's process number (MAINPID=).
    #[arg(long, requires = "take_over")]
    pub detach: bool,
    /// The tag that front-ends may ask for
    ///
    /// A tag has 1 to 36 bytes of UTF-8. Only with this option the daemon offers
    /// VHOST_USER_PROTOCOL_F_CONFIG. QEMU has an option of its own for the tag and ignores this
    /// one; QEMU 7.1 to 8.0 crash when a daemon offers that feature.
    #[arg(long, value_parser = tag)]
    pub tag: Option<String>,
    /// The number of request queues, 1 to 63
    ///
    /// Each has threads of its own. QEMU's device uses as many as its property num-request-queues
    /// says, which may not be more.
    #[arg(long, default_value_t = 1, value_parser = clap::value_parser!(u8).range(1..=63))]
    pub num_request_queues: u8,
    /// The number of threads for each request queue, at most 1024
    ///
    /// A thread serves one request at a time. So with one thread a slow request (a lease, a dead
    /// NFS server) delays the later requests of its queue. 0 means one thread, as 1 does.
    #[arg(long, default_value_t = 0, value_parser = clap::value_parser!(u16).range(0..=1024))]
    pub thread_pool_size: u16,
    /// For how many microseconds, at most, a thread looks for requests before it sleeps
    ///
    /// While requests come soon after each other, one thread of a queue looks for the next one, and
    /// saves the wake-ups of guest and daemon. A thread that looked in vain looks no more until
    /// requests come soon again. 0 sleeps at once, as virtiofsd does.
    #[arg(
        long,
        default_value_t = 32,
        value_name = "MICROSECONDS",
        value_parser = clap::value_parser!(u32).range(0..=10_000)
    )]
    pub poll_max_us: u32,
    /// How the daemon is confined to the shared directory: namespace, chroot, none
    ///
    /// - namespace: The directory is the root of a mount namespace. The daemon has a process and a
    ///   network namespace of its own. A user other than root gets a user namespace, too.
    ///
    /// - chroot: The directory is the root of the process. This needs root.
    ///
    /// - none: The daemon isn't confined. Paths of the guest are still resolved below the
    ///   directory.
    #[arg(long, default_value = "namespace")]
    pub sandbox: SandboxMode,
    /// What happens at a system call that the daemon doesn't need: none, kill, log, trap
    ///
    /// - kill: The daemon is killed.
    ///
    /// - trap: The daemon gets SIGSYS, which a debugger can catch.
    ///
    /// - log: The call is made, and the kernel's audit log has a line.
    ///
    /// - none: There is no filter.
    #[arg(long, default_value = "kill")]
    pub seccomp: Seccomp,
    /// Whether landlock confines the daemon to the shared directory, too: never, prefer, mandatory
    ///
    /// - prefer: If the kernel has landlock (Linux 5.19 or later), and the daemon opens no files by
    ///   their handles. A directory that the host moves out of the shared one can't be opened any
    ///   more.
    ///
    /// - mandatory: Without it the daemon doesn't start.
    ///
    /// - never: There is no landlock.
    #[arg(long, default_value = "prefer")]
    pub landlock: Landlock,
    /// Capabilities that root's daemon keeps (+) or drops (-), such as +sys_admin:-chown
    ///
    /// By default it keeps chown, dac_override, fowner, fsetid, mknod, setfcap, setgid and setuid,
    /// and with file handles dac_read_search. -mknod forbids device nodes to the guest. +sys_admin
    /// allows trusted.* and security.* attributes.
    #[arg(long)]
    pub modcaps: Option<String>,
    /// The number of descriptors that may be open [default: min(1000000, '/proc/sys/fs/nr_open')]
    ///
    /// 0 keeps the limit of the process that starts the daemon. Each file that the guest holds
    /// takes one, unless --inode-file-handles says otherwise. When all are taken, the guest gets
    /// ENFILE.
    #[arg(long)]
    pub rlimit_nofile: Option<u64>,
    /// What the guest may keep of files: auto, always, metadata, never
    ///
    /// - never: Nothing. Each access asks the daemon, so the guest sees a change of the host at
    ///   once. Listings come without attributes. Files can't be mapped shared, but see
    ///   --allow-mmap.
    ///
    /// - metadata: Names, attributes and listings for a day, but no file data. Files can't be
    ///   mapped shared, but see --allow-mmap.
    ///
    /// - auto: Names and attributes for a second, and file data until the file is opened again
    ///   (close-to-open consistency, as NFS has it).
    ///
    /// - always: Names, attributes and listings for a day, and file data also after the file is
    ///   opened again.
    ///
    /// With `metadata` and `always` the guest doesn't see for a day what others change. Use these
    /// only if nobody else changes the directory.
    #[arg(long, default_value = "auto")]
    pub cache: CachePolicy,
    /// For how many seconds the guest may keep that a name is missing
    ///
    /// Within this time it doesn't see a file that somebody else makes. 0 asks for each look-up.
    #[arg(long, default_value_t = 0, value_name = "SECONDS")]
    pub negative_timeout: u32,
    /// The guest may keep where symbolic links lead
    ///
    /// A link never changes on Linux hosts: a new one has another inode. Host file systems that use
    /// an inode's number again at once aren't a danger, since the daemon holds the old inode.
    #[arg(long)]
    pub cache_symlinks: bool,
    /// The guest sends no FLUSH when it closes a file
    ///
    /// Use it only for host file systems that do nothing on close, such as ext4, xfs, btrfs and
    /// tmpfs. On NFS, close writes the data and reports errors, which the guest would miss. It has
    /// no effect with --writeback.
    #[arg(long)]
    pub no_flush: bool,
    /// With --cache=auto the guest keeps a file's pages from one open to the next, if nobody
    /// changed it
    ///
    /// The daemon compares size, mtime and ctime at each open. It doesn't see what a program of the
    /// host writes through a shared mapping, and on a network file system what the host hasn't
    /// asked for again.
    #[arg(long)]
    pub keep_cache: bool,
    /// The guest may delay writes, and join small ones
    ///
    /// The host sees data later, and the guest decides sizes and times of change. Use it only if
    /// nobody else changes the directory. Files that are opened only for writing are opened for
    /// reading, too, since the guest reads a page before it changes a part.
    #[arg(long)]
    pub writeback: bool,
    /// The guest can't change anything
    ///
    /// Each request that would change a file, or open one for writing, fails with EROFS.
    #[arg(long)]
    pub readonly: bool,
    /// O_DIRECT of the guest applies on the host, too
    ///
    /// Otherwise the host's page cache is used. The guest's program must then align its buffers as
    /// the host's file system needs it.
    #[arg(long)]
    pub allow_direct_io: bool,
    /// The guest can map files shared, also with --cache metadata or never
    ///
    /// A mapped page stays in the guest while it is mapped. Use it only if nobody else changes the
    /// files. The guest's kernel must be 6.6 or later.
    #[arg(long)]
    pub allow_mmap: bool,
    /// The guest sees mounts below the directory as mounts of its own [default]
    ///
    /// Then files of two mounts stay distinct, even with the same inode number.
    #[arg(long, overrides_with = "no_announce_submounts")]
    pub announce_submounts: bool,
    /// The guest sees mounts below the directory as directories
    #[arg(long)]
    pub no_announce_submounts: bool,
    /// The guest can use extended attributes
    ///
    /// Their names are the same on the host, unless --xattrmap has rules. Which of them the daemon
    /// may set depends on its capabilities: see --modcaps.
    #[arg(long)]
    pub xattr: bool,
    /// Rules for names of extended attributes, such as :map::user.virtiofs.:; implies --xattr
    ///
    /// A rule is :TYPE:SCOPE:KEY:PREPEND: or :map:KEY:PREPEND: with any separator in place of `:`.
    /// White space may stand between rules.
    ///
    /// The first rule that matches a name applies, and each name must have one. A rule of scope
    /// `client` matches names that the guest uses (SETXATTR, GETXATTR, REMOVEXATTR) and that begin
    /// with KEY. One of scope `server` matches names of the host in a list (LISTXATTR) that begin
    /// with PREPEND. Scope `all` is both. An empty KEY or PREPEND matches each name. The types:
    ///
    /// - prefix: PREPEND is put before the guest's name, and removed from the host's.
    ///
    /// - ok: The name is the same on both sides.
    ///
    /// - bad: The guest's use of the name fails with EPERM. The host's name isn't listed.
    ///
    /// - unsupported: The guest's use of the name fails with ENOTSUP. The host's name isn't listed.
    ///
    /// `map` is short for the usual rules, and must be the last rule. With an empty KEY all names
    /// get the prefix, and the guest sees no others: `:prefix:all::PREPEND: :bad:all:::`. With a
    /// KEY these names get the prefix, the guest can't use it itself, and other names stay as they
    /// are: `:prefix:all:KEY:PREPEND: :bad:server::KEY: :bad:client:PREPEND:: :ok:all:::`.
    ///
    /// The kernel reserves trusted.* and security.* for root, and gives user.* to each file's
    /// owner. With a prefix for some names only, see that no user of the guest reaches reserved
    /// names by others. A prefix for all names is safe.
    #[arg(long, value_parser = xattr_map)]
    pub xattrmap: Option<XattrMap>,
    /// The guest has POSIX access control lists; implies --xattr
    ///
    /// The guest's kernel must support them, or it can't mount. The lists are attributes of the
    /// host's files (system.posix_acl_*), and the guest's kernel applies them.
    #[arg(long)]
    pub posix_acl: bool,
    /// A new file gets the security label that the guest sends with it; implies --xattr
    ///
    /// So a guest with SELinux labels a file when it is made, and not afterwards. The guest's
    /// kernel must support it, or it can't mount. To set security.selinux, --modcaps=+sys_admin or
    /// a rule of --xattrmap is needed.
    #[arg(long)]
    pub security_label: bool,
    /// The host clears set-user-ID and set-group-ID bits when a file is written, truncated or
    /// given away
    ///
    /// The guest then needn't ask before each write whether there are such bits, or capabilities.
    #[arg(long, overrides_with = "no_killpriv_v2")]
    pub killpriv_v2: bool,
    /// The guest clears these bits itself [default]
    #[arg(long)]
    pub no_killpriv_v2: bool,
    /// Listings come without attributes
    ///
    /// A program that looks at each file of a directory then needs a request for each. One that
    /// needs only names gets them sooner, and the daemon keeps no descriptor for each file.
    #[arg(long)]
    pub no_readdirplus: bool,
    /// O_NOATIME of the guest applies on the host, too
    ///
    /// The host allows it only to a file's owner, or with CAP_FOWNER. Otherwise the open fails with
    /// EPERM. Without this option the flag is dropped.
    #[arg(long)]
    pub preserve_noatime: bool,
    /// When the daemon keeps a file handle of an inode, not a descriptor: never, prefer, mandatory
    ///
    /// A handle is a name of the host's file system for an inode (name_to_handle_at). With handles
    /// the daemon has descriptors only of files that the guest has opened. So --rlimit-nofile
    /// doesn't limit how many the guest knows, and a removed file of NFS isn't kept as .nfsXXXX.
    /// Each access opens the inode again, which takes some time.
    ///
    /// - never: Each inode has a descriptor.
    ///
    /// - prefer: An inode has a handle, or a descriptor where the file system has no handles, as
    ///   some of several below the directory ("fallback" is the same [deprecated]).
    ///
    /// - mandatory: Each inode has a handle. Where there are none, the guest's request fails.
    ///
    /// `prefer` and `mandatory` keep the capability dac_read_search, which opens handles.
    #[arg(long, require_equals = true, default_value = "never")]
    pub inode_file_handles: Handles,
    /// Users of the sandbox's namespace, as :INSIDE:OUTSIDE:COUNT:
    ///
    /// COUNT users of the host from OUTSIDE on are users INSIDE and so on, for a daemon that a user
    /// other than root starts with --sandbox namespace. So :0:100000:65536: makes 100000 root, and
    /// 165535 user 65535. Several ranges need newuidmap, and can be given by several options. The
    /// kernel maps these; --translate-uid needs no namespace.
    #[arg(long)]
    pub uid_map: Vec<UidMap>,
    /// Groups of the sandbox's namespace, as --uid-map has users
    #[arg(long)]
    pub gid_map: Vec<GidMap>,
    /// Users of the guest that are other users on the host, as TYPE:FIRST:FIRST:COUNT
    ///
    /// - guest:GUEST:HOST:COUNT: COUNT users of the guest from GUEST on are the host's from HOST
    ///   on. This holds for users that the guest names (a new file's owner, chown).
    ///
    /// - host:HOST:GUEST:COUNT: The reverse, for owners of files that the guest sees.
    ///
    /// - map:GUEST:HOST:COUNT: Both.
    ///
    /// - squash-guest:GUEST:HOST:COUNT: COUNT users of the guest are all the host's user HOST.
    ///
    /// - squash-host:HOST:GUEST:COUNT: COUNT users of the host are all the guest's user GUEST.
    ///
    /// - forbid-guest:GUEST:COUNT: A request that names one of these users fails.
    ///
    /// Other users are the same on both sides. Several ranges can be given by several options. The
    /// daemon maps these, not the kernel. Access control lists contain users, too, so this option
    /// excludes --posix-acl.
    #[arg(long, conflicts_with = "posix_acl")]
    pub translate_uid: Vec<IdMap>,
    /// Groups of the guest that are other groups on the host, as --translate-uid has users
    #[arg(long, conflicts_with = "posix_acl")]
    pub translate_gid: Vec<IdMap>,
    /// How a state names inodes to the other host: find-paths, file-handles
    ///
    /// - find-paths: By paths in the directory. The source takes them from /proc/self/fd, and looks
    ///   through the whole directory for those that aren't there. The target needs files with the
    ///   same paths.
    ///
    /// - file-handles: By file handles. Both hosts need the same file system, such as one of NFS,
    ///   and the target --modcaps=+dac_read_search. A removed file that is open moves, too.
    ///
    /// The source's option counts, and the target takes both.
    #[arg(long, default_value = "find-paths")]
    pub migration_mode: MigrationMode,
    /// What happens with an inode that isn't found: abort, guest-error
    ///
    /// - abort: The migration fails, and the guest continues at the source.
    ///
    /// - guest-error: The guest moves, and its requests for that inode fail.
    ///
    /// The target's option counts.
    #[arg(long, default_value = "abort")]
    pub migration_on_error: MigrationOnError,
    /// The source sends a file handle with each path, which the target compares
    ///
    /// So a file that was replaced meanwhile isn't taken for the old one. Use it if others change
    /// the directory, and both hosts have the same file system. For --migration-mode find-paths;
    /// the source's option counts.
    #[arg(long)]
    pub migration_verify_handles: bool,
    /// The source looks at each path again when the guest has stopped
    ///
    /// A path that no longer leads to its inode is looked up in /proc/self/fd. Use it if others
    /// change the directory. The guest is stopped for longer, by a look at each inode that it
    /// holds. For --migration-mode find-paths; the source's option counts.
    #[arg(long)]
    pub migration_confirm_paths: bool,
    /// The least severe messages that are logged: error, warn, info, debug, trace, off
    ///
    /// `debug` has a line for each request that is refused as faulty.
    #[arg(long, default_value = "info")]
    pub log_level: log::LevelFilter,
    /// The same as --log-level debug [deprecated]
    #[arg(short = 'd')]
    pub debug: bool,
    /// Means nothing: the daemon never goes to the background [deprecated]
    #[arg(short = 'f')]
    pub foreground: bool,
    /// The log goes to syslog (/dev/log), not to standard error
    #[arg(long)]
    pub syslog: bool,
    /// The path of a socket that serves numbers of the daemon, for Prometheus
    ///
    /// A GET by HTTP returns requests by opcode with a histogram of their times, chains in flight,
    /// calls that the host holds, interrupts, sleeps, descriptors, and lines that the log left out.
    /// Only the daemon's user can connect. SIGUSR1 writes the same numbers to the log.
    #[arg(long, conflicts_with = "print_capabilities")]
    pub metrics: Option<PathBuf>,
    /// Print what the daemon can, as JSON for vhost-user.json, and exit
    #[arg(long)]
    pub print_capabilities: bool,
    /// Options in the form of the C virtiofsd, such as -o source=DIR,cache=auto,xattr [deprecated]
    ///
    /// They are source, cache (auto, always, none, metadata), sandbox, loglevel (err, warn, info,
    /// debug), modcaps and xattrmap; xattr, posix_acl, security_label, writeback, allow_direct_io,
    /// killpriv_v2 and readdirplus, each also with no_ before it; announce_submounts, no_flock and
    /// no_posix_lock. They apply after all others.
    #[arg(short = 'o')]
    compat_options: Vec<String>,
    /// Whether there were such options.
    #[arg(skip)]
    pub is_compat: bool,
}

/// What --version prints: the daemon's version, and on a line of its own what the core is.
fn version() -> &'static str {
    static VERSION: LazyLock<String> =
        LazyLock::new(|| format!("{}\n{}", env!("CARGO_PKG_VERSION"), pitskhomu::build()));
    &VERSION
}

impl Options {
    /// virtiofsd's warnings about supported options that its next version may not have.
    pub fn warnings(&self) -> Vec<&'static str> {
        let warnings = [
            (
                self.foreground,
                "Use of deprecated flag '-f': This flag has no effect, please remove it",
            ),
            (
                self.debug,
                "Use of deprecated flag '-d': Please use the '--log-level debug' option instead",
            ),
            (
                self.is_compat,
                "Use of deprecated option format '-o': Please specify options without it (e.g., \
                 '--cache auto' instead of '-o cache=auto')",
            ),
            (
                self.inode_file_handles == Handles::Fallback,
                "Use of deprecated value 'fallback' for '--inode-file-handles': Please use \
                 'prefer' instead",
            ),
            (
                self.socket.is_some() && self.socket_path.is_none(),
                "use of deprecated parameter '--socket': Please use the '--socket-path' option \
                 instead",
            ),
        ];
        warnings.into_iter().filter_map(|(is_used, warning)| is_used.then_some(warning)).collect()
    }

    /// The contradictions between these options, as messages.
    pub fn contradictions(&self) -> Vec<&'static str> {
        let by_handles = self.migration_mode == MigrationMode::FileHandles;
        let contradictions = [
            (
                by_handles && self.migration_confirm_paths,
                "Cannot use --migration-confirm-paths with --migration-mode=file-handles (because \
                 it is unnecessary)",
            ),
            (
                by_handles && self.migration_verify_handles,
                "Cannot use --migration-verify-handles with --migration-mode=file-handles \
                 (because it is unnecessary)",
            ),
        ];
        contradictions.into_iter().filter_map(|(is_so, why)| is_so.then_some(why)).collect()
    }

    /// Which messages are logged.
    pub fn messages(&self) -> log::LevelFilter {
        if self.debug {
            log::LevelFilter::Debug
        } else {
            self.log_level
        }
    }

    /// Whether extended attributes are supported.
    pub fn has_xattr(&self) -> bool {
        self.xattr || self.xattrmap.is_some() || self.posix_acl || self.security_label
    }

    /// What the guest may keep besides --cache.
    pub fn guest_cache(&self) -> GuestCache {
        let keeps = self.keep_cache && matches!(self.cache, CachePolicy::Auto);
        GuestCache {
            negative: Duration::from_secs(self.negative_timeout.into()),
            links: self.cache_symlinks,
            no_flush: self.no_flush,
            pages: keeps.then(Pages::default),
        }
    }

    /// What each session with these options agrees on: INIT fails where the guest lacks it.
    pub fn always_agreed(&self) -> pitskhomu::Options {
        use pitskhomu::Options as O;
        let acl = O::POSIX_ACL | O::DONT_MASK | O::SETXATTR_EXT;
        let if_asked = |asked, options| if asked { options } else { O::empty() };
        if_asked(self.posix_acl, acl) | if_asked(self.security_label, O::SECURITY_CTX)
    }
}

#[cfg(test)]
mod tests;
