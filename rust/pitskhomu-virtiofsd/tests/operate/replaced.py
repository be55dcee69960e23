"""The daemon is replaced under load, and one of the two is stopped, frozen or traced meanwhile:
either the new one serves from then on or the old one, and no request is lost."""
import random
import subprocess
import time
from functools import partial

from daemon import Daemon
from front import Lost
from pauses import Load, freeze, stop, trace, unified
from rows import Row

ROUNDS = 6
OPTIONS = "--thread-pool-size=2", "--log-level=warn"


def with_control(daemon, program, options, _more):
    return program, [*options, f"--control-socket={daemon.folder}/control"]


class New(Daemon):
    """A daemon that takes over from another."""

    def __init__(self, program, old, *options): # pylint: disable=super-init-not-called
        self.folder, self.log, self.fronts = old.folder + "/new", old.log, []
        words = [*program, f"--take-over={old.folder}/control", f"--shared-dir={old.shared}"]
        with open(self.log, "a", encoding="utf-8") as log:
            self.process = subprocess.Popen([*words, *(options or OPTIONS)],
                stdin=subprocess.DEVNULL, stdout=log, stderr=log, start_new_session=True)


def one_ends(old, new):
    """Waits until one of the two has ended: the old one with 0, or the new one with 1."""
    end = time.monotonic() + 15
    while old.process.poll() is None and new.process.poll() is None:
        if time.monotonic() > end:
            raise Lost("both daemons stay")
        time.sleep(0.01)
    if (old.process.poll(), new.process.poll()) not in ((0, None), (None, 1)):
        raise Lost(f"status {old.process.poll()} and {new.process.poll()}")
    return new if old.process.poll() == 0 else old


def replace(old, program, pause, of_old):
    """One replacement. Returns whether the new one serves."""
    front = old.front().begin()
    load = Load(front)
    with New(program, old) as new:
        try:
            time.sleep(random.uniform(0, 0.05))
            pause(old if of_old else new)
            serving = one_ends(old, new)
        finally:
            load.end()
        if front.attributes():
            raise Lost("GETATTR fails")
        front.leave()
        status = serving.ended()
        if status != 0:
            raise Lost(f"its status is {status}")
        return serving is new


def replaced(program, pause, of_old):
    if pause is freeze and not unified():
        return "skipped", "no group of cgroup v2 can be made here"
    count = 0
    for _ in range(ROUNDS):
        with Daemon(program, *OPTIONS, prepare=with_control) as old:
            try:
                count += replace(old, program, pause, of_old)
            except (Lost, OSError, AssertionError) as why:
                if "unexpected argument" in old.said():
                    return "skipped", "it can't be replaced"
                return "lost", f"{why}; {old.said()}"
    return "serves", f"the new one in {count} of {ROUNDS}"


def rows():
    kinds = {"SIGSTOP and SIGCONT": stop, "the freezer of cgroup v2": freeze, "a debugger": trace}
    return [Row(f"{name} to the {'old' if of_old else 'new'} one, while it is replaced",
        partial(replaced, pause=pause, of_old=of_old))
        for name, pause in kinds.items() for of_old in (True, False)]
