#!/usr/bin/env python3
"""Plays random scripts on the script program, on the handle, on the driver and on a plain machine,
and compares what the four print.

usage: fuzz.py SECONDS [SEED], with the paths of built programs in PROGRAM and, if handle and driver
are to be played, in HANDLE and DRIVER; and in CALLS the folder of the tests in C of the library, if
they are to be played (./run --fuzz has all four). Status 0 if nothing differed, 1 if something did
or no script with a served chain was compared whole or too many weren't played to their end, 2 if it
couldn't begin, 130 if it was interrupted before that."""

import os
import random
import sys
import time
from collections import Counter
from pathlib import Path

from calls import Calls
from ends import wrong_ends
from guests import long_script, wide_write, wraps
from hostile import heavy
from lacking import Lacking
from machine import LACKING, Player, TooMuchWork, play
from malformed import malformed
from programs import Built
from scripts import made, stored
from shrink import shrunk

FOLDER = Path(__file__).resolve().parent / "out"
# A run of so many seconds plays the slow scripts, too: of an index that wraps, and of kicks that
# cost much.
SECONDS_TO_WRAP = 40
MOST_DIFFERENCES = 10
# Of so many random scripts or more a device plays all but so many to their end.
RANDOM_TO_COUNT, MOST_LEFT = 1000, 0.03
SERVED = "whole scripts with a served chain"
SEED = "seed"
UP_TO = "up to "
# The status of a script with a line that is no command: both devices say why.
BAD_LINE = 1
# Each so many random scripts one is played with too little memory.
SELDOM = 8


class Device:
    """A device that is compared with the plain machine."""

    def __init__(self, name, path):
        self.name = name
        self.program = Built(path)


class Fuzzer:
    """What was tried and what differed."""

    def __init__(self, devices, seed, end, lacking):
        self.devices = devices
        self.seed = seed
        self.end = end
        self.lacking = lacking
        self.coverage = Counter()
        self.scripts = 0
        self.random = 0
        self.left = Counter()
        self.skipped = 0
        self.differences = 0

    def run(self):
        """Plays scripts until the time is up, all fixed ones in any case, or until ten differ. Each
        batch has a seed's, so that one can be played again."""
        store = stored()
        fixed = [(f"stored script {index}", script) for index, script in enumerate(store)]
        fixed += [(f"malformed line {index}", script)
            for index, script in enumerate(malformed(Player.COMMANDS))]
        fixed.append(("a script of 1 MiB", long_script(0)))
        fixed.append(("a script that is too long", long_script(1)))
        fixed.append(("a script of a wide write", wide_write()))
        if self.end - time.monotonic() > SECONDS_TO_WRAP:
            fixed.append(("a script that wraps an index", wraps()))
            fixed.append(("a script of kicks that cost much", heavy()))
        self.end_otherwise()
        size = Built.batch
        while self.differences < MOST_DIFFERENCES and (fixed or time.monotonic() < self.end):
            played, fixed = fixed[:size - 1], fixed[size - 1:]
            seeds = range(self.seed, self.seed + size - len(played))
            made_ones = [(f"{SEED} {seed}", made(seed, store)) for seed in seeds]
            self.compare(made_ones + played)
            for (name, script), seed in zip(made_ones, seeds):
                if seed % SELDOM == 0:
                    self.lack(name, script, seed)
            self.seed = seeds.stop

    def end_otherwise(self):
        """Plays scripts on streams of other kinds, and tells what is wrong."""
        for device in self.devices:
            wanted = lambda script, name=device.name: self.plain(script)[0][name]
            for wrong in wrong_ends(device.program.path, device.name, wanted):
                self.differences += 1
                say(f"\nDIFFERENCE: {wrong}")

    def lack(self, name, script, seed):
        """Plays a script with one request for memory refused, and tells what is wrong."""
        number = int(2 ** random.Random(seed).uniform(0, 9))
        wrong = self.lacking.fault(script, number)
        self.coverage["lacks memory", "as it is to be" if wrong is None else "otherwise"] += 1
        if wrong is not None:
            self.differences += 1
            FOLDER.mkdir(exist_ok=True)
            path = FOLDER / f"without memory {name}.fs".replace(" ", "_")
            path.write_bytes(script)
            say(f"\nDIFFERENCE of the program without memory: {name}, {path}\n  {wrong}")

    def compare(self, named):
        """Plays scripts on all, and tells each difference."""
        scripts = [script for _, script in named]
        started = [device.program.start(scripts) for device in self.devices]
        wanted = [self.plain(script) for script in scripts]
        pairs = zip(self.devices, started)
        found = [device.program.results(processes) for device, processes in pairs]
        said = [device.program.why(processes) for device, processes in zip(self.devices, started)]
        for index, ((name, script), want) in enumerate(zip(named, wanted)):
            if want is None:
                self.skipped += 1
                continue
            self.scripts += 1
            self.random += name.startswith(SEED)
            self.coverage += want[1]
            for device, results in zip(self.devices, found):
                how = played(script, *results[index])
                self.coverage[device.name, how] += 1
                self.left[device.name] += name.startswith(SEED) and how.startswith(UP_TO)
                if results[index] != want[0][device.name]:
                    self.tell(name, script, device)
            ends = {results[index] for results in found}
            reasons = {texts[index] for texts in said}
            if len(ends) == 1 and len(reasons) > 1 and is_bad_for_all(script, *ends.pop()):
                self.differences += 1
                say(f"\nDIFFERENCE of the devices: {name}, on standard error: {sorted(reasons)}")

    def plain(self, script):
        """What the plain machine prints and its status, by device, and its coverage; None where it
        would take too long."""
        try:
            return play(script)
        except TooMuchWork:
            return None

    def idle_devices(self):
        """The devices that served no chain of a script that was compared whole."""
        return [it.name for it in self.devices if not self.coverage[it.name, SERVED]]

    def weak_devices(self):
        """The devices that ended too many random scripts early."""
        if self.random < RANDOM_TO_COUNT:
            return []
        return [it.name for it in self.devices if self.left[it.name] > MOST_LEFT * self.random]

    def differ(self, device, scripts):
        """For each script whether the device and the plain machine differ."""
        started = device.program.start(scripts)
        wanted = [self.plain(script) for script in scripts]
        results = device.program.results(started)
        return [want is not None and found != want[0][device.name]
            for want, found in zip(wanted, results)]

    def tell(self, name, script, device):
        """Shrinks a script and tells what differs."""
        self.differences += 1
        say(f"\nDIFFERENCE of {device.name}: {name}")
        differs = lambda scripts: self.differ(device, scripts)
        small = shrunk(script, differs, Built.batch, Built.seconds_to_shrink)
        FOLDER.mkdir(exist_ok=True)
        path = FOLDER / f"{device.name} {name}.fs".replace(" ", "_")
        path.write_bytes(small)
        (found,) = device.program.results(device.program.start([small]))
        want = self.plain(small)[0][device.name]
        say(f"  the smallest script is {path}")
        say(f"  {device.name} ends with {found[1]}, the plain machine with {want[1]}")
        for line, (one, other) in enumerate(zip_lines(found[0], want[0]), 1):
            if one != other:
                say(f"  in line {line} {device.name} prints\n    {one}")
                say(f"  and the plain machine\n    {other}")
                break

    def report(self):
        """What was tried, by kinds."""
        kinds = {}
        for (kind, name), count in self.coverage.items():
            kinds.setdefault(kind, {})[name] = count
        for kind in sorted(kinds):
            by_name = lambda pair: (isinstance(pair[0], str), pair[0])
            counts = sorted(kinds[kind].items(), key=by_name)
            say(f"{kind}: " + ", ".join(f"{name} {count}" for name, count in counts))
        commands = sum(kinds.get("command", {}).values())
        say(f"scripts {self.scripts}, commands {commands}, left out as too long {self.skipped}, "
            f"differences {self.differences}")
        for device in self.devices:
            count = self.left[device.name]
            say(f"{device.name} can't play {count} of {self.random} random scripts to their end")


def last_word(script, printed):
    """The first word of the line at which a script ends."""
    number = printed.rpartition(b"line ")[2].partition(b":")[0]
    lines = dict(enumerate(script.split(b"\n"), 1))
    word = lines.get(int(number) if number.isdigit() else 0, b"no line").split(b" ")[0]
    return word.decode("latin-1")


def is_bad_for_all(script, printed, status):
    """Whether a script ends at a line that is no command for the same reason on each device."""
    return status == BAD_LINE and last_word(script, printed) not in Player.HANDLES


def played(script, printed, status):
    """How much of a script was played, for the coverage."""
    if status != LACKING:
        return SERVED if b"\ndone " in printed else "whole scripts without one"
    return UP_TO + last_word(script, printed)


def zip_lines(first, second):
    """Lines side by side, as long as one of the two has some."""
    ones = first.decode(errors="replace").split("\n")
    others = second.decode(errors="replace").split("\n")
    longest = max(len(ones), len(others))
    ones += ["(nothing)"] * (longest - len(ones))
    others += ["(nothing)"] * (longest - len(others))
    return zip(ones, others)


def say(text):
    """A line at once."""
    print(text, flush=True)


def main(arguments):
    """Plays for so many seconds."""
    try:
        seconds, seed = (*map(int, arguments), int.from_bytes(os.urandom(4), "little"))[:2]
        if len(arguments) not in (1, 2) or "PROGRAM" not in os.environ:
            raise ValueError
    except ValueError:
        print(__doc__, file=sys.stderr)
        return 2
    say(f"seed {seed}")
    devices = [Device(f"the {name.lower()}", os.environ[name])
        for name in ("PROGRAM", "HANDLE", "DRIVER") if os.environ.get(name)]
    lacking = Lacking(os.environ["PROGRAM"])
    fuzzer = Fuzzer(devices, seed, time.monotonic() + seconds, lacking)
    calls = Calls(os.environ["CALLS"], seconds, seed) if os.environ.get("CALLS") else None
    try:
        fuzzer.run()
        status = 0 if fuzzer.scripts else 1
    except KeyboardInterrupt:
        say("interrupted")
        status = 130
    printed, failures = calls.end() if calls and status != 130 else ([], [])
    fuzzer.report()
    for line in [*printed, *failures]:
        say(line)
    say(f"seeds from {seed} to {fuzzer.seed - 1}")
    for name in fuzzer.idle_devices():
        say(f"FAILED: {name} played no script whole in which a chain is served")
        status = status or 1
    for name in fuzzer.weak_devices():
        say(f"FAILED: {name} plays too few of the random scripts to their end")
        status = status or 1
    return 1 if fuzzer.differences or failures else status


if __name__ == "__main__":
    sys.exit(main(sys.argv[1:]))
