"""Ends: no death is silent, and a signal that asks for the end gets it."""
import os
import resource
import signal
import time
from functools import partial

from daemon import Daemon, Syslog, judged, sandboxes, serves
from front import GETATTR, ROOT, Lost
from pauses import Held
from rows import Row, may_mount

FILES = 1500

def use_up(daemon):
    """The guest holds more and more files, and the daemon may take no more memory."""
    front = daemon.front(5).begin()
    for k in range(FILES):
        with open(f"{daemon.shared}/{k}", "w", encoding="utf-8"):
            pass
    serving = daemon.processes()[-1]
    with open(f"/proc/{serving}/status", encoding="utf-8") as file:
        data = next(int(line.split()[1]) << 10 for line in file if line.startswith("VmData"))
    resource.prlimit(serving, resource.RLIMIT_DATA, (data, data))
    try:
        for k in range(FILES):
            front.look_up(str(k))
    except (Lost, OSError):
        pass


def has_descriptors():
    return resource.getrlimit(resource.RLIMIT_NOFILE)[1] > FILES + 700


def failed_allocation(program):
    if not has_descriptors():
        return "skipped", "the guest's files need more descriptors than RLIMIT_NOFILE allows"
    for sandbox in sandboxes():
        with Daemon(program, f"--sandbox={sandbox}", "--log-level=off") as daemon:
            use_up(daemon)
            outcome = judged(daemon, "memory allocation of ")
            if outcome[0] == "silent":
                return outcome
    return outcome


def failed_allocation_with_syslog(program):
    if not may_mount() or not has_descriptors():
        return "skipped", "only root has a /dev/log of its own"
    with Daemon(program, "--sandbox=none", "--syslog", prepare=Syslog.prepare) as daemon:
        use_up(daemon)
        return judged(daemon, "memory allocation of ", daemon.syslog.said)


def ends(program, number):
    """By a signal, at rest, under load and while the host holds a call; no process stays."""
    for state in ("at rest", "under load", "with a held call"):
        for sandbox in sandboxes():
            with Daemon(program, f"--sandbox={sandbox}", "--thread-pool-size=2") as daemon:
                front = daemon.front().begin()
                if state == "under load":
                    for slot in range(16):
                        front.send(slot, GETATTR, ROOT, bytes(16))
                held = Held(daemon, front) if state == "with a held call" else None
                os.kill(daemon.process.pid, number)
                status = daemon.ended(5)
                if held:
                    os.close(held.lease)
                if status is None or not is_gone(daemon):
                    return "lost", f"{state}, sandbox {sandbox}: {daemon.processes()} stay"
    return "ends", ""


def is_gone(daemon):
    end = time.monotonic() + 5
    while daemon.left() and time.monotonic() < end:
        time.sleep(0.01)
    return not daemon.left()


def killed(program):
    """SIGKILL to the process that serves: the one that waits for it says so."""
    with Daemon(program) as daemon:
        front = daemon.front().begin()
        os.kill(daemon.processes()[-1], signal.SIGKILL)
        outcome = judged(daemon, "signal 9")
        front.leave()
        return outcome


def parent_killed(program):
    """SIGKILL to the process that waits: the one that serves doesn't stay."""
    with Daemon(program) as daemon:
        front = daemon.front().begin()
        os.kill(daemon.process.pid, signal.SIGKILL)
        daemon.ended()
        outcome = ("ends", "") if is_gone(daemon) else ("lost", f"{daemon.left()} stay")
        front.leave()
        return outcome


def leaves_without_a_word(program):
    """A front-end connects, and leaves: a monitor that looks whether the daemon is there."""
    with Daemon(program) as daemon:
        daemon.connect().close()
        status = daemon.ended()
        return ("ends", "") if status == 0 else ("lost", f"status {status}: {daemon.said()}")


def no_second(program):
    """A second front-end isn't left waiting, and the first goes on."""
    with Daemon(program) as daemon:
        front = daemon.front().begin()
        try:
            daemon.connect(1).close()
            return "lost", "a second front-end connects, and nobody answers it"
        except (Lost, OSError):
            return serves(daemon, front)


def again(program):
    """A supervisor starts it on the same socket as soon as it has ended."""
    with Daemon(program) as daemon:
        for _ in range(8):
            outcome = serves(daemon)
            if outcome[0] != "serves":
                return outcome
            daemon.start()
        daemon.connect().close()
    return outcome


def ignores_children(program):
    """Started by a process that ignores SIGCHLD, as some supervisors do."""
    words = ["bash", "-c", 'trap "" CHLD; exec "$@"', "bash", *program]
    with Daemon(words) as daemon:
        return serves(daemon)


def blocks(program):
    """Started by a process that has SIGTERM blocked."""
    block = partial(signal.pthread_sigmask, signal.SIG_BLOCK, {signal.SIGTERM})
    with Daemon(program, preexec_fn=block) as daemon:
        front = daemon.front().begin()
        os.kill(daemon.process.pid, signal.SIGTERM)
        status = daemon.ended(3)
        front.leave()
        return ("lost", "it doesn't end") if status is None else ("ends", "")


def rows():
    return [
        Row("an allocation fails", failed_allocation, "says why"),
        Row("an allocation fails, with --syslog", failed_allocation_with_syslog, "says why"),
        Row("SIGTERM", partial(ends, number=signal.SIGTERM), "ends"),
        Row("SIGINT", partial(ends, number=signal.SIGINT), "ends"),
        Row("SIGHUP", partial(ends, number=signal.SIGHUP), "ends"),
        Row("SIGKILL to the process that serves", killed, "says why"),
        Row("SIGKILL to the process that waits for it", parent_killed, "ends"),
        Row("a front-end that leaves without a word", leaves_without_a_word, "ends"),
        Row("a second front-end", no_second),
        Row("started again on the same socket", again),
        Row("started where SIGCHLD is ignored", ignores_children),
        Row("started where SIGTERM is blocked", blocks, "ends"),
    ]
