"""A back-end that is started for a row: this daemon, or virtiofsd."""
import os
import re
import shutil
import signal
import socket
import subprocess
import tempfile
import time
from contextlib import suppress

from front import Front, Lost
from rows import is_root

PATIENCE = 20


def is_there(pid):
    try:
        with open(f"/proc/{pid}/stat", encoding="utf-8", errors="replace") as file:
            return file.read().rpartition(")")[2].split()[0] not in "ZX"
    except (FileNotFoundError, ProcessLookupError):
        return False


def sandboxes():
    return ("namespace", "chroot", "none") if is_root() else ("namespace", "none")


class Daemon:
    """A back-end with a folder of its own, which has the shared directory, the socket and the log.
    `prepare` is called before it starts."""

    group = None # of cgroup v2

    def __init__(self, program, *options, prepare=None, **more):
        self.folder = tempfile.mkdtemp(prefix="operate-")
        os.chmod(self.folder, 0o755)
        self.shared, self.socket = self.folder + "/shared", self.folder + "/socket"
        self.log, self.process = self.folder + "/log", None
        os.mkdir(self.shared)
        with open(self.shared + "/file", "w", encoding="utf-8") as file:
            file.write("file\n")
        more = {"stdin": subprocess.DEVNULL, "start_new_session": True, **more}
        if prepare:
            program, options = prepare(self, program, options, more)
        self.words = [*program, f"--socket-path={self.socket}", f"--shared-dir={self.shared}",
            *options]
        self.more, self.known, self.fronts = more, [], []
        self.start()

    def start(self):
        """Starts it, at first or again."""
        with open(self.log, "a", encoding="utf-8") as log:
            more = {"stdout": log, "stderr": log, **self.more}
            self.process = subprocess.Popen(self.words, **more)

    def __enter__(self):
        return self

    def __exit__(self, *_):
        for pid in self.processes():
            with suppress(ProcessLookupError):
                os.kill(pid, signal.SIGKILL)
        self.process.wait(PATIENCE)
        for front in self.fronts:
            front.close()
        if self.group:
            self.group.remove()
        shutil.rmtree(self.folder, ignore_errors=True)

    def connect(self, patience=PATIENCE):
        """A socket that is connected as soon as it listens."""
        end = time.monotonic() + patience
        while time.monotonic() < end and self.process.poll() is None:
            made = socket.socket(socket.AF_UNIX)
            try:
                made.connect(self.socket)
                return made
            except (FileNotFoundError, ConnectionRefusedError):
                made.close()
                time.sleep(0.01)
        raise Lost("it doesn't listen")

    def front(self, patience=PATIENCE):
        """A connected front-end."""
        front = Front(self.connect(), patience)
        self.fronts.append(front)
        self.remember()
        return front

    def processes(self):
        """It and its children, as long as they are there."""
        parents = {}
        for name in filter(str.isdigit, os.listdir("/proc")):
            try:
                with open(f"/proc/{name}/stat", encoding="utf-8", errors="replace") as file:
                    state, parent = file.read().rpartition(")")[2].split()[:2]
            except (FileNotFoundError, ProcessLookupError):
                continue
            if state not in "ZX":
                parents[int(name)] = int(parent)
        mine = [self.process.pid] if self.process.pid in parents else []
        for pid in mine:
            mine += [child for child, parent in parents.items() if parent == pid]
        return mine

    def remember(self):
        """Remembers its processes, for `left`."""
        self.known = self.processes()

    def left(self):
        """The processes that were remembered, and still are there."""
        return [pid for pid in self.known if is_there(pid)]

    def threads(self):
        """The threads of all its processes."""
        threads = []
        for pid in self.processes():
            with suppress(FileNotFoundError): # it has ended
                threads += map(int, os.listdir(f"/proc/{pid}/task"))
        return threads

    def said(self):
        """Its log."""
        with open(self.log, encoding="utf-8", errors="replace") as log:
            return log.read().strip()

    def ended(self, patience=PATIENCE):
        """Its status, or None if it doesn't end."""
        try:
            return self.process.wait(patience)
        except subprocess.TimeoutExpired:
            return None


def judged(daemon, pattern, said=None):
    """How it ends where its log should say why: what a pattern finds."""
    status = daemon.ended(8)
    if status is None:
        return "serves", f"it doesn't end: {daemon.said()}"
    said = (said or daemon.said)()
    return "says why" if re.search(pattern, said) else "silent", f"status {status}: {said}"


def serves(daemon, front=None, patience=PATIENCE):
    """How it ends where the guest should be served, and the daemon end with its front-end."""
    try:
        front = front or daemon.front(patience).begin()
        if front.attributes():
            raise Lost("GETATTR fails")
        front.leave()
        status = daemon.ended()
        if status != 0:
            raise Lost(f"its status is {status}")
    except (Lost, OSError) as why:
        return "lost", f"{why}; {daemon.said()}"
    return "serves", ""


USER = 4242


def as_user(daemon, program, options, more):
    """Runs the program as another user than root, although no folder may let that user pass."""
    daemon.file = os.open(program[0], os.O_RDONLY)
    os.chown(daemon.folder, USER, USER)
    more.update(pass_fds=[daemon.file], user=USER, group=USER, extra_groups=[])
    return [f"/proc/self/fd/{daemon.file}", *program[1:]], options


# Runs a command where /dev has a socket for syslog, or none: $1 is its path.
OTHER_DEV = """mount -t tmpfs none /dev && mknod -m 666 /dev/null c 1 3
    [ -z "$1" ] || ln -s "$1" /dev/log
    exec "${@:2}" """


def with_dev(program, log):
    return ["unshare", "--mount", "bash", "-c", OTHER_DEV, "bash", log, *program]


def without_syslog(_daemon, program, options, _more):
    """Nothing is at /dev/log."""
    return with_dev(program, ""), options


class Syslog:
    """What listens at /dev/log."""

    def __init__(self, path):
        self.socket, self.text = socket.socket(socket.AF_UNIX, socket.SOCK_DGRAM), ""
        self.socket.bind(path)

    @classmethod
    def prepare(cls, daemon, program, options, _more):
        path = daemon.folder + "/syslog"
        daemon.syslog = cls(path)
        return with_dev(program, path), options

    def fill(self):
        """Others have sent as many messages as wait for it, and it reads none."""
        with socket.socket(socket.AF_UNIX, socket.SOCK_DGRAM) as other:
            other.connect(self.socket.getsockname())
            with suppress(BlockingIOError):
                while True:
                    other.send(b"others", socket.MSG_DONTWAIT)

    def said(self):
        """The messages so far."""
        try:
            while True:
                self.text += self.socket.recv(1 << 16, socket.MSG_DONTWAIT).decode() + "\n"
        except BlockingIOError:
            return self.text
