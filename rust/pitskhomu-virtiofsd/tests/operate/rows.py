"""A row: one thing that an operator does, and how it ends."""
import os
import subprocess
from dataclasses import dataclass
from functools import cache
from typing import Callable

# How a row ends, the worst first, by what is wanted. Where nothing is served, or the daemon has to
# end, its log says why.
RANKS = {
    "serves": ("lost", "silent", "says why", "serves"),
    "says why": ("lost", "serves", "silent", "says why"),
    "ends": ("lost", "serves", "silent", "says why", "ends"),
}


@dataclass
class Row:
    """Its name; a function of a program, which returns how the row ends ("skipped" where this
    machine can't try it) and words for it; and how it must end for the daemon."""

    name: str
    run: Callable
    wanted: str = "serves"

    def is_as_good(self, ours, theirs):
        """Whether the daemon does as well as virtiofsd, or better."""
        ranks = RANKS[self.wanted]
        return theirs == "skipped" or ranks.index(ours) >= ranks.index(theirs)


def is_root():
    return os.geteuid() == 0


@cache
def may_mount():
    """Whether this process may make a mount namespace, as root may who isn't in a container."""
    return not subprocess.call(["unshare", "--mount", "true"], stderr=subprocess.DEVNULL)


@cache
def may_sandbox():
    """Whether it may make the daemon's default sandbox."""
    words = ["unshare", "--mount", "--pid", "--net", *([] if is_root() else ["--user"]), "true"]
    return not subprocess.call(words, stderr=subprocess.DEVNULL)
