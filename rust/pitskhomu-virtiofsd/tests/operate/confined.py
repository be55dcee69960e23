"""landlock: the daemon has no path out of the shared directory, and what a guest does there works,
in each sandbox, and in a mount below the directory."""
import ctypes
import errno
import os
import struct
from functools import partial

from daemon import Daemon, judged, sandboxes, serves
from front import OPEN, RELEASE, ROOT, SETATTR, Lost
from rows import Row, is_root, may_mount

# Opcodes of linux/fuse.h.
SYMLINK, MKNOD, MKDIR, UNLINK, RMDIR, RENAME, LINK = 6, 8, 9, 10, 11, 12, 13
SETXATTR, GETXATTR, REMOVEXATTR, OPENDIR, READDIR, RELEASEDIR = 21, 22, 24, 27, 28, 29
FATTR_SIZE = 1 << 3
CREATE_RULESET, ASK_VERSION = 444, 1


def version():
    """The kernel's version of landlock; negative without it."""
    return ctypes.CDLL(None).syscall(CREATE_RULESET, None, 0, ASK_VERSION)


def name(text):
    return text.encode() + b"\0"


def must(front, opcode, node, body):
    """A request that succeeds: its reply."""
    error, reply = front.ask(opcode, node, body)
    if error:
        raise Lost(f"opcode {opcode}: {os.strerror(error)}")
    return reply


def use(front, node, has_xattr):
    """What a guest does in a directory."""
    made = must(front, MKDIR, node, struct.pack("II", 0o755, 0) + name("dir"))
    directory = struct.unpack_from("Q", made)[0]
    new, handle = front.create("new", parent=node)
    if front.write(new, handle, b"bytes"):
        raise Lost("WRITE")
    must(front, RELEASE, new, struct.pack("QIIQ", handle, 0, 0, 0))
    must(front, SETATTR, new, struct.pack("IIQQ", FATTR_SIZE, 0, 0, 2) + bytes(64))
    must(front, RENAME, node, struct.pack("Q", directory) + name("new") + name("moved"))
    must(front, LINK, node, struct.pack("Q", new) + name("linked"))
    must(front, SYMLINK, node, name("symlink") + name("dir/moved"))
    must(front, MKNOD, node, struct.pack("IIII", 0o10644, 0, 0, 0) + name("fifo"))
    opened = must(front, OPEN, new, struct.pack("II", os.O_RDWR | os.O_TRUNC, 0))
    must(front, RELEASE, new, opened[:8] + bytes(16))
    opened = must(front, OPENDIR, directory, struct.pack("II", os.O_RDONLY, 0))
    all_of = struct.pack("QIIQII", 0, 4096, 0, 0, 0, 0)
    if b"moved" not in must(front, READDIR, directory, opened[:8] + all_of):
        raise Lost("READDIR")
    must(front, RELEASEDIR, directory, opened[:8] + bytes(16))
    if has_xattr:
        for inode in (new, directory):
            of = name("user.try")
            must(front, SETXATTR, inode, struct.pack("II", 5, 0) + of + b"value")
            if must(front, GETXATTR, inode, struct.pack("II", 64, 0) + of) != b"value":
                raise Lost("GETXATTR")
            must(front, REMOVEXATTR, inode, of)
    must(front, UNLINK, directory, name("moved"))
    for left in ("linked", "symlink", "fifo"):
        must(front, UNLINK, node, name(left))
    must(front, RMDIR, node, name("dir"))


def with_mount(daemon, program, options, _more):
    """A file system is mounted below the directory."""
    os.mkdir(daemon.shared + "/mount")
    command = 'mount -t tmpfs none "$1" && exec "${@:2}"'
    words = ["unshare", "--mount", "bash", "-c", command, "bash", daemon.shared + "/mount"]
    return [*words, *program], options


def lacks(daemon):
    """Whether it doesn't know the option."""
    return daemon.ended(0.3) == 2 and "unexpected argument" in daemon.said()


def used(program, sandbox):
    """Requests of each kind that landlock looks at."""
    if version() < 2:
        return "skipped", "the kernel has no landlock that can be used"
    options = f"--sandbox={sandbox}", "--landlock=mandatory", "--xattr"
    with Daemon(program, *options, prepare=with_mount if may_mount() else None) as daemon:
        if lacks(daemon):
            return "skipped", "it has no landlock"
        front = daemon.front().begin()
        use(front, ROOT, has_xattr=True)
        if may_mount():
            use(front, front.look_up("mount"), has_xattr=False)
        return serves(daemon, front)


def moved(program, sandbox, landlock, error):
    """The host moves a directory out of the shared one, whose file the guest opens then."""
    if landlock == "mandatory" and version() < 2:
        return "skipped", "the kernel has no landlock that can be used"
    with Daemon(program, f"--sandbox={sandbox}", f"--landlock={landlock}") as daemon:
        if lacks(daemon):
            return "skipped", "it has no landlock"
        os.mkdir(daemon.shared + "/dir")
        with open(daemon.shared + "/dir/file", "w", encoding="utf-8") as file:
            file.write("file")
        front = daemon.front().begin()
        node = front.look_up("file", front.look_up("dir"))
        os.rename(daemon.shared + "/dir", daemon.folder + "/dir")
        got = front.ask(OPEN, node, struct.pack("II", os.O_RDONLY, 0))[0]
        if got != error:
            return "lost", f"OPEN outside: {os.strerror(got)}"
        return serves(daemon, front)


def refused(program):
    """Options that contradict each other."""
    with Daemon(program, "--landlock=mandatory", "--inode-file-handles=prefer") as daemon:
        return judged(daemon, "--landlock=mandatory: .*handles|unexpected argument")


def rows():
    apart = [sandbox for sandbox in sandboxes() if sandbox != "namespace"]
    return [
        *(Row(f"what a guest does under landlock, {sandbox}", partial(used, sandbox=sandbox))
            for sandbox in sandboxes()),
        *(Row(f"a directory that is moved away, {sandbox}, landlock {landlock}",
            partial(moved, sandbox=sandbox, landlock=landlock, error=error))
            for sandbox in apart
            for landlock, error in (("mandatory", errno.EACCES), ("never", 0))),
        *([Row("landlock and file handles", refused, "says why")] if is_root() else [])]
