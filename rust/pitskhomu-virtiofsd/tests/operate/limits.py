"""Limits of the system: threads, memory, descriptors, the size of files."""
import errno
import os
import resource
import shutil
from functools import partial

from daemon import Daemon, as_user, judged, serves
from rows import Row, is_root, may_mount

def limited(kind, soft, hard=None):
    """What sets a limit in the process that becomes the back-end."""
    return partial(resource.setrlimit, kind, (soft, soft if hard is None else hard))


def few_threads(program):
    """RLIMIT_NPROC counts a user's threads, and not root's."""
    if not is_root():
        return "skipped", "only root becomes another user"
    limit = limited(resource.RLIMIT_NPROC, 8)
    with Daemon(program, "--sandbox=none", "--thread-pool-size=16", prepare=as_user,
            preexec_fn=limit) as daemon:
        # Others may run as that user meanwhile, so any of its threads may be the first too many.
        return judged(daemon, r"thread.* can't start: .*RLIMIT_NPROC|CreateThreadPool")


def little_memory(program):
    limit = limited(resource.RLIMIT_AS, os.path.getsize(program[0]) + (100 << 20))
    with Daemon(program, "--sandbox=none", "--thread-pool-size=200", preexec_fn=limit) as daemon:
        of_thread = r"thread \d+ of 200 of queue 1 can't start: .*RLIMIT_AS|CreateThreadPool"
        return judged(daemon, of_thread + r"|memory allocation of \d+ bytes failed")


def many_threads(program):
    """More memory maps than Linux allows. virtiofsd has one queue."""
    with open("/proc/sys/vm/max_map_count", encoding="utf-8") as file:
        if int(file.read()) > 70_000:
            return "skipped", "vm.max_map_count is greater than Linux's own 65530"
    with Daemon(program, "--rlimit-nofile=0", "--num-request-queues=63",
            "--thread-pool-size=300") as daemon:
        outcome = judged(daemon, "63 queues of 300 threads .*vm.max_map_count is 65530")
        has_one = "unexpected argument" in daemon.said()
        return ("skipped", "it has one queue") if has_one else outcome


def few_descriptors(program):
    """The guest opens more files than the daemon may, and is told ENFILE or EMFILE."""
    limit = limited(resource.RLIMIT_NOFILE, 800)
    with Daemon(program, preexec_fn=limit) as daemon:
        front, error = daemon.front().begin(), 0
        for k in range(800):
            try:
                front.create(str(k))
            except OSError as why:
                error = why.errno
                break
        if error not in (errno.ENFILE, errno.EMFILE):
            return "lost", f"the guest's error is {error}"
        return serves(daemon, front)


def too_few_descriptors(program):
    limit = limited(resource.RLIMIT_NOFILE, 100)
    with Daemon(program, preexec_fn=limit) as daemon:
        return judged(daemon, "file descriptors too small: Limit is 100")


def small_files(program):
    """A WRITE past RLIMIT_FSIZE is EFBIG."""
    limit = limited(resource.RLIMIT_FSIZE, 1 << 20)
    with Daemon(program, preexec_fn=limit) as daemon:
        front = daemon.front().begin()
        node, handle = front.create("new")
        error = front.write(node, handle, b"data", 1 << 20)
        return serves(daemon, front) if error == errno.EFBIG else ("lost", os.strerror(error))


# Runs a command with a file system of its own at $1, with the options $2.
MOUNTED = """mount -t tmpfs -o "$2" none "$1"
    exec "${@:3}" """


def mounted(options):
    def prepare(daemon, program, words, _more):
        return ["unshare", "--mount", "bash", "-c", MOUNTED, "bash", daemon.shared, options,
            *program], words
    return prepare


def full_disk(program):
    """The shared directory's file system is full: ENOSPC."""
    if not may_mount():
        return "skipped", "only root mounts a file system"
    with Daemon(program, prepare=mounted("size=64k")) as daemon:
        front = daemon.front().begin()
        node, handle = front.create("new")
        errors = [front.write(node, handle, bytes(8192), 8192 * k) for k in range(12)]
        return serves(daemon, front) if errno.ENOSPC in errors else ("lost", f"{errors}")


def changes_nothing(program, *options, prepare=None):
    """A new file is EROFS."""
    with Daemon(program, *options, prepare=prepare) as daemon:
        front = daemon.front().begin()
        try:
            front.create("new")
        except OSError as why:
            return serves(daemon, front) if why.errno == errno.EROFS else ("lost", str(why))
        return "lost", "a file is made"


def read_only(program):
    if not may_mount():
        return "skipped", "only root mounts a file system"
    return changes_nothing(program, prepare=mounted("ro"))


def removed(program):
    """The shared directory is removed, and another has its name."""
    with Daemon(program) as daemon:
        front = daemon.front().begin()
        shutil.rmtree(daemon.shared, ignore_errors=True)
        try:
            front.look_up("file")
            return "lost", "a removed file is there"
        except FileNotFoundError:
            return serves(daemon, front)


def most_threads(program):
    with Daemon(program, "--thread-pool-size=1024", "--rlimit-nofile=0") as daemon:
        return serves(daemon)


def bare(program):
    """No environment, no working directory, no umask that lets anybody in."""
    with Daemon(program, env={}, umask=0o777, cwd="/proc/self/task") as daemon:
        return serves(daemon)


def unknown_option(program):
    with Daemon(program, "--no-such-option") as daemon:
        return judged(daemon, "'--no-such-option'")


def rows():
    return [
        Row("too few threads of its user", few_threads, "says why"),
        Row("too little memory for its threads", little_memory, "says why"),
        Row("more threads than memory maps", many_threads, "says why"),
        Row("the most threads of a queue", most_threads),
        Row("a limit of descriptors that a guest uses up", few_descriptors),
        Row("a limit of descriptors that is too small", too_few_descriptors, "says why"),
        Row("a limit of the size of files", small_files),
        Row("a full disk", full_disk),
        Row("a file system that is read-only", read_only),
        Row("--readonly", lambda program: changes_nothing(program, "--readonly")),
        Row("a shared directory that is removed", removed),
        Row("no environment, and a umask of 0777", bare),
        Row("an unknown option", unknown_option, "says why"),
    ]
