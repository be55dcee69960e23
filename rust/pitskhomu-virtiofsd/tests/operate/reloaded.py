"""What ExecReload= of the unit does: a daemon takes over in the background, and tells systemd. A
socket of the test's own stands in for systemd's. Also take-overs before a front-end has
connected."""
import os
import select
import signal
import socket
import subprocess
import threading
import time
from contextlib import suppress
from functools import partial

from daemon import PATIENCE, Daemon, is_there, sandboxes
from front import Lost
from pauses import Load, wait_until
from replaced import New, with_control
from rows import Row

ROUNDS = 3


def must(holds, why):
    if not holds:
        raise Lost(why)


class Systemd:
    """What listens at NOTIFY_SOCKET. An abstract name begins with `@`."""

    def __init__(self, name):
        self.name, self.socket = name, socket.socket(socket.AF_UNIX, socket.SOCK_DGRAM)
        self.socket.bind(name.replace("@", "\0"))
        self.socket.settimeout(PATIENCE)
        self.environment = {**os.environ, "NOTIFY_SOCKET": name}

    def hear(self):
        """The next message, as names and values."""
        message = self.socket.recv(4096).decode()
        return dict(line.split("=") for line in message.splitlines())

    def is_silent(self):
        return not select.select([self.socket], [], [], 0)[0]

    def fill(self):
        """Others have sent as many messages as wait for it. Returns their number."""
        count, before = 0, -1
        while count > before:
            before = count
            with socket.socket(socket.AF_UNIX, socket.SOCK_DGRAM) as other:
                other.connect(self.socket.getsockname())
                with suppress(BlockingIOError):
                    while True:
                        other.send(b"others", socket.MSG_DONTWAIT)
                        count += 1
        return count

    def skip(self, count):
        """Reads the others' messages."""
        for _ in range(count):
            must(self.socket.recv(16) == b"others", "another message")


def prepare(daemon, program, options, more):
    daemon.systemd = Systemd(daemon.folder + "/systemd")
    more["env"] = daemon.systemd.environment
    return with_control(daemon, program, options, more)


def reload(old, program, *options):
    """Runs a command that replaces the daemon and returns: its status."""
    words = [*program, f"--take-over={old.folder}/control", "--detach",
        f"--shared-dir={old.shared}", *options]
    with open(old.log, "a", encoding="utf-8") as log:
        return subprocess.run(words, stdin=subprocess.DEVNULL, stdout=log, stderr=log, check=False,
            timeout=PATIENCE, env=old.systemd.environment).returncode


class Background(Daemon):
    """A daemon in the background, by its number."""

    def __init__(self, old, pid): # pylint: disable=super-init-not-called
        self.pid, self.folder, self.fronts = pid, old.folder + "/none", []
        self.process, self.log = self, old.log

    def poll(self):
        return None if is_there(self.pid) else 0

    def wait(self, patience):
        end = time.monotonic() + patience
        while self.poll() is None:
            if time.monotonic() > end:
                raise subprocess.TimeoutExpired("it", patience)
            time.sleep(0.01)
        return 0


def with_systemd(function):
    """A row over a daemon that systemd would have started."""
    def row(program, *, options=()):
        with Daemon(program, *options, prepare=prepare) as daemon:
            try:
                function(daemon, program, *options)
                return "serves", ""
            except (Lost, OSError, AssertionError, subprocess.TimeoutExpired) as why:
                if "unexpected argument" in daemon.said():
                    return "skipped", "it can't be replaced"
                return "lost", f"{why}; {daemon.said()}"
    return row


def number(daemon):
    with open(daemon.socket + ".pid", encoding="utf-8") as file:
        return int(file.read())


@with_systemd
def reloaded(old, program, *options):
    """Replaced under load. The old one must not end before systemd has the new one's number."""
    systemd = old.systemd
    must(systemd.hear() == {"READY": "1"}, "no READY=1")
    front = old.front().begin()
    load, serving, first = Load(front), old, old
    try:
        for _ in range(ROUNDS):
            others, statuses = systemd.fill(), []
            status = threading.Thread(
                target=lambda found=statuses: found.append(reload(old, program, *options)))
            status.start()
            time.sleep(1)
            must(serving.process.poll() is None, "the old one ended, and systemd wasn't told")
            systemd.skip(others)
            told = systemd.hear()
            status.join()
            must(statuses == [0], f"status {statuses}")
            must(told["MAINPID"] == str(number(old)), "another number in the PID file")
            must(serving.ended() == 0, "the old one stays")
            serving = Background(old, int(told["MAINPID"]))
            must(serving.poll() is None and serving.pid != first.process.pid, "no new process")
    finally:
        load.end()
    must(systemd.is_silent(), "one message more")
    front.leave()
    must(serving.ended() == 0, "the last one stays")


@with_systemd
def refused(old, program):
    """A daemon in the background that doesn't take over."""
    old.systemd.hear()
    front = old.front().begin()
    must(reload(old, program, "--readonly") == 1, "it takes over with another option")
    must(old.systemd.is_silent(), "systemd is told")
    must(not front.attributes(), "GETATTR fails")
    front.leave()
    must(old.ended() == 0, "another status")


@with_systemd
def killed(old, program):
    """The process in the foreground is killed: the daemon in the background takes over."""
    old.systemd.hear()
    front = old.front().begin()
    words = [*program, f"--take-over={old.folder}/control", "--detach",
        f"--shared-dir={old.shared}"]
    others = old.systemd.fill()
    with open(old.log, "a", encoding="utf-8") as log:
        command = subprocess.Popen(words, stderr=log, env=old.systemd.environment)
    time.sleep(1) # it waits, since systemd wasn't notified yet
    command.send_signal(signal.SIGKILL)
    must(command.wait(PATIENCE) == -signal.SIGKILL, "it has ended before")
    old.systemd.skip(others)
    new = Background(old, int(old.systemd.hear()["MAINPID"]))
    must(old.ended() == 0 and not front.attributes(), "GETATTR fails")
    front.leave()
    must(new.ended() == 0, "the new one stays")


def early(program, sandbox):
    """Take-overs before a front-end has connected, and after that."""
    options = f"--sandbox={sandbox}", "--thread-pool-size=2", "--log-level=info"
    with Daemon(program, *options, prepare=with_control) as first:
        serving, news = first, []
        try:
            wait_until("it doesn't listen", lambda: "Waiting for" in first.said())
            for _ in range(ROUNDS):
                news.append(New(program, first, *options))
                must(serving.ended() == 0, "the old one stays")
                serving = news[-1]
            with New(program, first, *options, "--readonly") as other:
                must(other.ended() == 1, "one with another option takes over")
            first.process = serving.process
            front = first.front().begin()
            news.append(New(program, first, *options))
            must(serving.ended() == 0 and not front.attributes(), "GETATTR fails")
            must(number(first) == news[-1].process.pid, "another number in the PID file")
            front.leave()
            must(news[-1].ended() == 0, "the last one stays")
        except (Lost, OSError, AssertionError) as why:
            if "unexpected argument" in first.said():
                return "skipped", "it can't be replaced"
            return "lost", f"{why}; {first.said()}"
        finally:
            for new in news:
                new.__exit__()
    return "serves", ""


def rows():
    return [
        *(Row(f"replaced as ExecReload= does it, {sandbox}",
            partial(reloaded, options=[f"--sandbox={sandbox}"])) for sandbox in sandboxes()),
        Row("a daemon that --detach starts is refused", refused),
        Row("the process in the foreground is killed", killed),
        *(Row(f"replaced before a front-end connects, {sandbox}", partial(early, sandbox=sandbox))
            for sandbox in sandboxes())]
