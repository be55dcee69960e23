"""Plays a script on the script program with one of its requests for memory refused: it says so,
changes nothing by what lacks memory, and goes on (vectors/SCRIPT.md)."""

import os
import shutil
import subprocess
import tempfile
from itertools import zip_longest
from pathlib import Path

from machine import Player
from memory import TooMuchWork

REFUSE = Path(__file__).resolve().parents[1] / "refuse.c"
WORK = 6_000_000
LINES = ["refused 9", "out of memory"]
SECONDS = 120


def told(script, lacking=None):
    """What the plain machine prints for the script program, its status, and where each line's
    output begins."""
    player = Player(WORK, lacking)
    whole = player.play(script)
    printed, status = whole if player.on_program is None else (player.on_program, 1)
    return printed.decode("latin-1").split("\n")[:-1], status, player.begins


def first_difference(lines, others):
    """The first place at which lists differ, or None."""
    pairs = enumerate(zip_longest(lines, others))
    return next((place for place, (one, other) in pairs if one != other), None)


def places(begins, whole, at):
    """Which line may lack memory, whose output has `refused 9` at a place: the line that prints
    there, or a kick before it, which looks for another chain. And how much of it is done."""
    for begin, line in [it for it in begins if it[0] <= at][-2:]:
        done = sum(text.startswith("done ") for text in whole[begin:at])
        yield from ((line, done), (line, 1))


def wrong_in(script, number, lines, ended):
    """What is wrong in what a program printed, whose request of a number was refused, or None."""
    whole, status, begins = told(script)
    at = first_difference(lines, whole)
    # A look-up that fails asks for memory to tell where, which nobody wants to know here.
    if at is None and ended == status:
        return None
    at = len(lines) if at is None else at
    if lines[at:] == LINES[1:] and ended == 2:
        return None
    if lines[at:at + 1] != LINES[:1]:
        return f"request {number}: {lines[at:at + 1]}, and not {whole[at:at + 1]}"
    for place in places(begins, whole, at):
        other, status, _ = told(script, place)
        if (lines, ended) == (other, status):
            return None
    return f"request {number}: behind the refusal in line {at + 1} of the output others differ"


class Lacking:
    """A program, and what refuses its requests for memory (tools/refuse.c)."""

    def __init__(self, program):
        self.program = program
        self.folder = tempfile.TemporaryDirectory(prefix="refuse-")
        self.below = None
        if shutil.which("cc"):
            self.below = f"{self.folder.name}/refuse.so"
            flags = ["-std=c11", "-O2", "-shared", "-fPIC"]
            subprocess.run(["cc", *flags, "-o", self.below, REFUSE], check=True)

    def played(self, script, number):
        """What the program prints line by line, and its status, if a request is refused."""
        how = {**os.environ, "LD_PRELOAD": self.below, "REFUSED": str(number)}
        try:
            ran = subprocess.run([self.program], env=how, input=script, stdout=subprocess.PIPE,
                stderr=subprocess.DEVNULL, timeout=SECONDS, check=False)
        except subprocess.TimeoutExpired:
            return ["it didn't end"], None
        return ran.stdout.decode("latin-1").split("\n")[:-1], ran.returncode

    def fault(self, script, number):
        """What is wrong if the request of a number is refused, or None."""
        if self.below is None:
            return None
        try:
            return wrong_in(script, number, *self.played(script, number))
        except TooMuchWork:
            return None
