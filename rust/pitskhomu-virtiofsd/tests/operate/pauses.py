"""Stops: SIGSTOP and SIGCONT, the freezer of cgroup v2, and a debugger that attaches and detaches.
Each at rest, under load, while the host holds a call, while a message waits for such a call, and
while a state is loaded; in each sandbox."""
import ctypes
import fcntl
import os
import signal
import struct
import tempfile
import threading
import time
from contextlib import suppress
from functools import partial

from daemon import Daemon, sandboxes
from front import GET_VRING_BASE, GETATTR, LOAD, OPEN, QUEUE, ROOT, SAVE, Lost
from rows import Row

A_WHILE = 0.06
TIMES = 3
PTRACE_CONT, PTRACE_ATTACH, PTRACE_DETACH, WALL = 7, 16, 17, 0x40000000
# A thread that has ended.
GONE = ProcessLookupError, PermissionError, ChildProcessError
LIBC = ctypes.CDLL(None, use_errno=True)
LIBC.ptrace.argtypes = [ctypes.c_long, ctypes.c_long, ctypes.c_void_p, ctypes.c_void_p]


def wait_until(what, holds):
    end = time.monotonic() + 10
    while not holds():
        if time.monotonic() > end:
            raise Lost(what)
        time.sleep(0.002)


def stop(daemon):
    """SIGSTOP and SIGCONT to each process, as `kill -STOP` or a shell's ^Z has it."""
    processes = daemon.processes()
    for number in (signal.SIGSTOP, signal.SIGCONT):
        for pid in processes:
            with suppress(ProcessLookupError): # it has ended
                os.kill(pid, number)
        time.sleep(A_WHILE if number == signal.SIGSTOP else 0)


class Cgroup:
    """A new group of cgroup v2 with the daemon's processes, which the freezer takes."""

    def __init__(self, daemon):
        self.path = tempfile.mkdtemp(prefix="operate-", dir=unified())
        for pid in daemon.processes():
            with suppress(ProcessLookupError), open(self.path + "/cgroup.procs", "wb",
                    buffering=0) as file:
                file.write(str(pid).encode())

    def set(self, is_frozen):
        with open(self.path + "/cgroup.freeze", "w", encoding="utf-8") as file:
            file.write(str(is_frozen))
        wait_until(f"the freezer doesn't come to {is_frozen}", lambda: self.is_frozen(is_frozen))

    def is_frozen(self, wanted):
        with open(self.path + "/cgroup.events", encoding="utf-8") as file:
            return f"frozen {wanted}\n" in file.read()

    def remove(self):
        """After its processes have ended."""
        for _ in range(100):
            with suppress(OSError):
                os.rmdir(self.path)
                return
            time.sleep(0.02)


def unified():
    """Where cgroup v2 is mounted, if groups can be made there."""
    with open("/proc/mounts", encoding="utf-8") as file:
        places = [line.split()[1] for line in file if line.split()[2] == "cgroup2"]
    return next((place for place in places if os.access(place, os.W_OK)), None)


def freeze(daemon):
    """As `systemctl freeze` and `podman pause` do."""
    daemon.group = daemon.group or Cgroup(daemon)
    daemon.group.set(1)
    time.sleep(A_WHILE)
    daemon.group.set(0)


def ptrace(request, thread, number=None):
    if LIBC.ptrace(request, thread, None, number) < 0:
        raise OSError(ctypes.get_errno(), f"ptrace {request} of {thread}")


def attach(thread):
    """Attaches to a thread, which stops by SIGSTOP. It may stop by another signal first."""
    ptrace(PTRACE_ATTACH, thread)
    while True:
        status = os.waitpid(thread, WALL)[1]
        if not os.WIFSTOPPED(status) or os.WSTOPSIG(status) == signal.SIGSTOP:
            return
        ptrace(PTRACE_CONT, thread, os.WSTOPSIG(status))


def trace(daemon):
    """As `gdb -p` does, which attaches to each thread and detaches."""
    threads = []
    for thread in daemon.threads():
        with suppress(*GONE):
            attach(thread)
            threads.append(thread)
    time.sleep(A_WHILE)
    # A process's first thread can be waited for once the others were.
    for thread in reversed(threads):
        try:
            ptrace(PTRACE_DETACH, thread)
        except ProcessLookupError: # its process ends, and only the debugger may wait for it
            with suppress(*GONE):
                os.waitpid(thread, WALL)


class Load:
    """Two threads that ask one request after another, each of which must be answered."""

    def __init__(self, front):
        self.front, self.is_over, self.why = front, False, None
        self.threads = [threading.Thread(target=self.run, args=[slot]) for slot in (4, 5)]
        for thread in self.threads:
            thread.start()

    def run(self, slot):
        try:
            while not self.is_over:
                self.front.ask(GETATTR, ROOT, bytes(16), slot)
        except (Lost, OSError, AssertionError) as why:
            self.why = why

    def end(self):
        self.is_over = True
        for thread in self.threads:
            thread.join()
        if self.why:
            raise self.why


class Held:
    """An OPEN that the host holds until the lease of its file ends."""

    def __init__(self, daemon, front):
        self.front = front
        node = front.look_up("file")
        self.lease = os.open(daemon.shared + "/file", os.O_RDWR)
        fcntl.fcntl(self.lease, fcntl.F_SETLEASE, fcntl.F_WRLCK)
        self.unique = front.send(6, OPEN, node, struct.pack("II", os.O_RDONLY, 0))
        wait_until("nothing is held",
            lambda: fcntl.fcntl(self.lease, fcntl.F_GETLEASE) != fcntl.F_WRLCK)

    def end(self):
        if self.front.answered(6, self.unique):
            raise Lost("the call wasn't held")
        os.close(self.lease)
        error = self.front.wait(6, self.unique)[0]
        if error:
            raise Lost(f"the held call fails: {os.strerror(error)}")


class Message:
    """GET_VRING_BASE is sent while the host holds a call, and answered later."""

    def __init__(self, daemon, front):
        self.held, self.front = Held(daemon, front), front
        front.message(GET_VRING_BASE, struct.pack("II", QUEUE, 0), is_acknowledged=False)

    def end(self):
        os.close(self.held.lease) # virtiofsd answers no message before
        if len(self.front.reply()) != 8:
            raise Lost("GET_VRING_BASE isn't answered")


class State:
    """A state is loaded whose bytes come later."""

    def __init__(self, daemon, front):
        front.look_up("file")
        front.stop()
        with front.transfer(SAVE) as pipe:
            self.bytes = pipe.read()
        if not front.is_transferred():
            raise Lost("no state is saved")
        self.front, self.pipe = front, front.transfer(LOAD)

    def end(self):
        self.pipe.write(self.bytes)
        self.pipe.close()
        if not self.front.is_transferred():
            raise Lost("the state isn't loaded")


STATES = {
    "at rest": lambda daemon, front: None,
    "under load": lambda daemon, front: Load(front),
    "with a held call": Held,
    "while a message waits": Message,
    "while a state is loaded": State,
}
# The ring has stopped by then.
STOPPED = (Message, State)


def paused(daemon, pause, state):
    """Pauses the daemon a few times in one state. The ring serves again after it."""
    front = daemon.front().begin()
    under_way = STATES[state](daemon, front)
    for _ in range(1 if STATES[state] is Message else TIMES):
        pause(daemon)
    if under_way:
        under_way.end()
    if STATES[state] not in STOPPED and front.attributes():
        raise Lost("GETATTR fails")
    front.leave()
    status = daemon.ended()
    if status != 0:
        raise Lost(f"its status is {status}")


def pauses(program, pause, state):
    if pause is freeze and not unified():
        return "skipped", "no group of cgroup v2 can be made here"
    for sandbox in sandboxes():
        options = f"--sandbox={sandbox}", "--thread-pool-size=4", "--log-level=warn"
        with Daemon(program, *options) as daemon:
            try:
                paused(daemon, pause, state)
            except (Lost, OSError, AssertionError) as why:
                ended = daemon.ended(1)
                return "lost", f"sandbox {sandbox}: {why}; status {ended}: {daemon.said()}"
    return "serves", ""


def rows():
    kinds = {"SIGSTOP and SIGCONT": stop, "the freezer of cgroup v2": freeze, "a debugger": trace}
    return [Row(f"{name} {state}", partial(pauses, pause=pause, state=state))
        for name, pause in kinds.items() for state in STATES]
