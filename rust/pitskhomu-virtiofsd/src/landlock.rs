//! landlock, where the kernel has it: the daemon opens, makes, moves and removes files below the
//! shared directory and nowhere else, also without another sandbox. Descriptors that are open stay
//! usable, and so do paths below `/proc/self/fd`, which lead to them: the kernel looks at the file
//! itself. A directory that the host moves out of the shared one can't be opened any more.
//!
//! The kernel finds out by the names above a file whether it lies in the directory. A file that is
//! opened by its handle may have none in the kernel's memory, and would be refused. So a daemon
//! that may open handles goes without.
use crate::options::Landlock;
use libc::{c_int, c_long};
use log::{debug, info, warn};
use std::fs::{File, OpenOptions};
use std::io;
use std::mem::size_of;
use std::os::fd::{AsRawFd, FromRawFd, OwnedFd};
use std::os::unix::fs::OpenOptionsExt;
use std::ptr;

/// `LANDLOCK_CREATE_RULESET_VERSION`: the call returns the kernel's version.
const ASK_VERSION: u32 = 1;
/// `LANDLOCK_RULE_PATH_BENEATH`.
const BELOW: c_int = 1;
/// The first version that lets a file move between directories (`LANDLOCK_ACCESS_FS_REFER`).
const FIRST_VERSION: c_long = 2;

/// The accesses that each version knows (`LANDLOCK_ACCESS_FS_*`), from version 1 on: each has those
/// before, too. 2 adds REFER, 3 TRUNCATE, and 5 IOCTL_DEV.
const KNOWN: [u64; 5] = [(1 << 13) - 1, (1 << 14) - 1, (1 << 15) - 1, (1 << 15) - 1, (1 << 16) - 1];
/// The accesses that a daemon never needs: EXECUTE and IOCTL_DEV.
const NEVER: u64 = 1 << 0 | 1 << 15;
/// Those that a rule for a file can have: WRITE_FILE, READ_FILE and TRUNCATE.
const OF_FILE: u64 = 1 << 1 | 1 << 2 | 1 << 14;

/// `struct landlock_ruleset_attr` of version 1, which later kernels take, too.
#[repr(C)]
struct Ruleset {
    handled: u64,
}

/// `struct landlock_path_beneath_attr`.
#[repr(C, packed)]
struct Below {
    allowed: u64,
    directory: c_int,
}

fn checked(result: c_long) -> io::Result<c_long> {
    if result < 0 {
        return Err(io::Error::last_os_error());
    }
    Ok(result)
}

/// The kernel's version of landlock.
fn version() -> io::Result<c_long> {
    let none = ptr::null::<Ruleset>();
    // SAFETY: no memory is passed.
    checked(unsafe { libc::syscall(libc::SYS_landlock_create_ruleset, none, 0usize, ASK_VERSION) })
}

/// Confines the calling thread, and the threads that it makes later, to this file or directory.
fn confine_to(root: &File, version: c_long) -> io::Result<()> {
    #[allow(clippy::cast_sign_loss, reason = "a version isn't negative")]
    let known = KNOWN[(version as usize - 1).min(KNOWN.len() - 1)];
    let ruleset = Ruleset { handled: known };
    let (at, len) = (ptr::from_ref(&ruleset), size_of::<Ruleset>());
    // SAFETY: the structure is borrowed.
    let rules =
        checked(unsafe { libc::syscall(libc::SYS_landlock_create_ruleset, at, len, 0u32) })?;
    #[allow(clippy::cast_possible_truncation, reason = "it is a descriptor")]
    // SAFETY: the descriptor is new, and nothing else owns it.
    let rules = unsafe { OwnedFd::from_raw_fd(rules as c_int) };
    let of_file = if root.metadata()?.is_dir() { u64::MAX } else { OF_FILE };
    let below = Below { allowed: known & !NEVER & of_file, directory: root.as_raw_fd() };
    let (number, at) = (rules.as_raw_fd(), ptr::from_ref(&below));
    // SAFETY: the structure is borrowed. The last two calls pass no memory.
    unsafe {
        checked(libc::syscall(libc::SYS_landlock_add_rule, number, BELOW, at, 0u32))?;
        checked(libc::prctl(libc::PR_SET_NO_NEW_PRIVS, 1, 0, 0, 0).into())?;
        checked(libc::syscall(libc::SYS_landlock_restrict_self, number, 0u32))?;
    }
    Ok(())
}

/// Why the daemon goes without landlock.
enum Without {
    /// As the kernel or the options have it.
    Usual(String),
    Failure(String),
}

fn try_to_confine(root: &str, opens_handles: bool) -> Result<(), Without> {
    if opens_handles {
        let why = "the daemon may open files by their handles (CAP_DAC_READ_SEARCH)";
        return Err(Without::Usual(why.into()));
    }
    let version = version().map_err(|e| Without::Usual(format!("the kernel: {e}")))?;
    if version < FIRST_VERSION {
        return Err(Without::Usual(format!("the kernel has version {version}")));
    }
    let mut options = OpenOptions::new();
    options.read(true).custom_flags(libc::O_PATH);
    options
        .open(root)
        .and_then(|root| confine_to(&root, version))
        .map_err(|e| Without::Failure(e.to_string()))?;
    debug!("landlock, version {version}, confines the daemon to {root}");
    Ok(())
}

/// Confines this thread, and those that it makes later, to the directory with this path, if that is
/// wanted. An error is a message: only if it is mandatory.
pub fn confine(wanted: Landlock, root: &str, opens_handles: bool) -> Result<(), String> {
    if wanted == Landlock::Never {
        return Ok(());
    }
    match (try_to_confine(root, opens_handles), wanted) {
        (Ok(()), _) => {}
        (Err(Without::Usual(why) | Without::Failure(why)), Landlock::Mandatory) => {
            return Err(format!("--landlock=mandatory: {why}"));
        }
        (Err(Without::Usual(why)), _) => info!("landlock isn't used: {why}"),
        (Err(Without::Failure(why)), _) => warn!("landlock isn't used: {why}"),
    }
    Ok(())
}

#[cfg(test)]
mod tests {
    use super::*;
    use std::fs;
    use std::os::fd::IntoRawFd;
    use std::os::unix::fs::symlink;
    use std::path::{Path, PathBuf};
    use std::thread;

    /// Runs this in a thread that is confined to the path, if the kernel can do that.
    fn confined(path: PathBuf, run: impl FnOnce(&Path) + Send + 'static) {
        if version().is_ok_and(|version| version >= FIRST_VERSION) {
            let confined = thread::spawn(move || {
                let root = path.to_str().expect("a path");
                confine(Landlock::Mandatory, root, false).expect("confined");
                run(&path);
            });
            confined.join().expect("a thread");
        }
    }

    fn is_denied<T>(result: io::Result<T>) -> bool {
        result.is_err_and(|e| e.raw_os_error() == Some(libc::EACCES))
    }

    fn folder(name: &str) -> PathBuf {
        let path = std::env::temp_dir().join(format!("pitskhomu-{name}-{}", std::process::id()));
        fs::create_dir_all(path.join("share/dir")).expect("a folder");
        fs::write(path.join("secret"), "secret").expect("a file");
        fs::write(path.join("share/file"), "file").expect("a file");
        symlink("../secret", path.join("share/link")).expect("a link");
        path
    }

    #[test]
    fn only_the_directory_is_open() {
        let path = folder("landlock");
        let outside = path.clone();
        confined(path.join("share"), move |share| {
            let (secret, file) = (outside.join("secret"), share.join("file"));
            assert!(is_denied(fs::read(&secret)) && is_denied(fs::read(share.join("link"))));
            assert!(is_denied(fs::read_dir(&outside)) && is_denied(fs::write(&secret, "x")));
            assert!(is_denied(fs::remove_file(&secret)));
            assert!(is_denied(fs::create_dir(outside.join("new"))));
            assert!(fs::hard_link(&secret, share.join("hard")).is_err());
            assert!(fs::rename(&file, outside.join("moved")).is_err());
            assert_eq!(fs::read(&file).expect("a file"), b"file");
            fs::write(share.join("dir/new"), "new").expect("a new file");
            fs::rename(share.join("dir/new"), share.join("other")).expect("moved");
            fs::hard_link(&file, share.join("dir/hard")).expect("a link");
            fs::remove_file(share.join("other")).expect("removed");
            fs::create_dir(share.join("made")).expect("a directory");
            assert!(std::process::Command::new("/bin/true").status().is_err());
        });
        fs::remove_dir_all(&path).expect("removed");
    }

    /// The daemon opens an inode by its descriptor. That leads nowhere else either.
    #[test]
    fn descriptors_are_opened_again() {
        let path = folder("landlock-fd");
        let outside = path.clone();
        confined(path.join("share"), move |share| {
            let again = |path: &Path| {
                let mut options = OpenOptions::new();
                let held = options.read(true).custom_flags(libc::O_PATH).open(path);
                fs::read(format!("/proc/self/fd/{}", held.expect("O_PATH").into_raw_fd()))
            };
            assert_eq!(again(&share.join("file")).expect("a file"), b"file");
            assert!(is_denied(again(&outside.join("secret"))));
        });
        fs::remove_dir_all(&path).expect("removed");
    }

    #[test]
    fn a_file_can_be_shared() {
        let path = folder("landlock-file");
        confined(path.join("share/file"), |file| {
            fs::write(file, "changed").expect("a file");
            assert_eq!(fs::read(file).expect("a file"), b"changed");
            assert!(is_denied(fs::read(file.with_file_name("link"))));
        });
        fs::remove_dir_all(&path).expect("removed");
    }

    #[test]
    fn handles_and_landlock_exclude_each_other() {
        let why = confine(Landlock::Mandatory, "/", true).expect_err("handles");
        assert!(why.contains("by their handles"), "{why}");
        confine(Landlock::Prefer, "/", true).expect("without landlock");
        confine(Landlock::Never, "/nowhere", false).expect("without landlock");
    }
}
