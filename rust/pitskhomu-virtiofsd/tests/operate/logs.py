"""Targets of the log: whatever becomes of it, the guest is served."""
import os
from functools import partial

from daemon import Daemon, Syslog, serves, without_syslog
from rows import Row, may_mount

SESSIONS = 400


def to(program, errors, *options):
    """Standard error is a descriptor that a function makes."""
    descriptor = errors()
    try:
        with Daemon(program, *options, stderr=descriptor) as daemon:
            return serves(daemon, patience=5)
    finally:
        os.close(descriptor)


def full_pipe():
    """Nobody reads it, as when a terminal is stopped by ^S."""
    reader, writer = os.pipe()
    full_pipe.readers.append(reader)
    os.set_blocking(writer, False)
    try:
        while True:
            os.write(writer, bytes(1))
    except BlockingIOError:
        os.set_blocking(writer, True)
    return writer


full_pipe.readers = []


def broken_pipe():
    reader, writer = os.pipe()
    os.close(reader)
    return writer


def full_disk():
    return os.open("/dev/full", os.O_WRONLY)


def closed(program):
    """As `daemon 2>&-`."""
    with Daemon(["sh", "-c", 'exec "$@" 0<&- 1>&- 2>&-', "sh", *program]) as daemon:
        return serves(daemon)


def many_sessions(program):
    """A guest's kernel without submounts begins many sessions: virtiofsd has a line for each."""
    with Daemon(program) as daemon:
        front = daemon.front()
        for _ in range(SESSIONS):
            front.begin(flags=0)
        outcome, lines = serves(daemon, front), len(daemon.said().splitlines())
        return outcome if lines < 60 else ("silent", f"{lines} lines for {SESSIONS} sessions")


def many_sessions_unread(program):
    """So it does while nobody reads the log."""
    descriptor = full_pipe()
    with Daemon(program, stderr=descriptor) as daemon:
        os.close(descriptor)
        front = daemon.front(5)
        for _ in range(20):
            front.begin(flags=0)
        return serves(daemon, front)


def no_syslog(program):
    if not may_mount():
        return "skipped", "only root takes /dev/log away"
    with Daemon(program, "--syslog", prepare=without_syslog) as daemon:
        outcome = serves(daemon)
        return outcome if "syslog" in daemon.said() else ("silent", "no word of it")


def syslog(program):
    if not may_mount():
        return "skipped", "only root has a /dev/log of its own"
    with Daemon(program, "--syslog", prepare=Syslog.prepare) as daemon:
        outcome, said = serves(daemon), daemon.syslog.said()
        return outcome if "Client connected" in said else ("silent", said)


def unread_syslog(program):
    """The one that listens at /dev/log is stuck."""
    def prepare(daemon, *more):
        words = Syslog.prepare(daemon, *more)
        daemon.syslog.fill()
        return words

    if not may_mount():
        return "skipped", "only root has a /dev/log of its own"
    with Daemon(program, "--syslog", prepare=prepare) as daemon:
        return serves(daemon, patience=5)


def silent(program):
    with Daemon(program, "--log-level=off") as daemon:
        outcome = serves(daemon)
        return ("lost", daemon.said()) if daemon.said() else outcome


def rows():
    return [
        Row("a log that nobody reads", partial(to, errors=full_pipe)),
        Row("a log whose reader has left", partial(to, errors=broken_pipe)),
        Row("a log on a full disk", partial(to, errors=full_disk)),
        Row("a standard error that is closed", closed),
        Row("a log that a guest could fill", many_sessions),
        Row("a log that a guest could fill, and nobody reads", many_sessions_unread),
        Row("--syslog, and no /dev/log", no_syslog),
        Row("--syslog", syslog),
        Row("--syslog, and nobody reads /dev/log", unread_syslog),
        Row("--log-level=off", silent),
    ]
