#!/usr/bin/env python3
"""play.py [--lacks FILE] PROGRAM [ARGUMENT..]

Plays the vectors of this folder on a device, and compares. README.md says what is compared.
PROGRAM reads one script from its standard input, prints what the script's commands return, and
ends with the script's status. FILE lists the scripts at whose commands the device lacks something,
by lines `SCRIPT PRINTED COMMAND`: it prints the first PRINTED lines of SCRIPT's output, and ends
at the first line COMMAND with status 4, or, if it doesn't know that command at all, with status 1.
Such a script isn't counted; one that is played otherwise fails.

The last line is `N passed, M failed`. The status is 0 if all vectors passed, 1 if one didn't, 2 if
the call is wrong."""
import re
import subprocess
import sys
from collections import Counter
from concurrent.futures import ThreadPoolExecutor
from pathlib import Path

FOLDER = Path(__file__).resolve().parent
QUEUE = b"queue 4 0 0x100 0x200\n"
# Seconds that one script may take.
PATIENCE = 300
# The status of a script that ends at a command which the device lacks, and a line of a list.
LACKING = 4
LISTED = re.compile(rb"(\w+) (\d+) (.+)")
# Commands that a device may not know.
OPTIONAL = (b"event_index ", b"notify ", b"drop ")
# The size of the greatest queue.
GREATEST = 32768


class Device:
    """A program that plays scripts, and the counts of what passed."""

    def __init__(self, command, lacks):
        self.command = command
        self.lacks = lacks
        self.passed = Counter()
        self.left = Counter()
        self.failures = []

    def play(self, script):
        """What a script prints, its status, and what is written to standard error."""
        try:
            done = subprocess.run(
                self.command, input=script, capture_output=True, timeout=PATIENCE, check=False)
        except subprocess.TimeoutExpired:
            return b"", "none: it took too long", b""
        return done.stdout, done.returncode, done.stderr

    def check(self, kind, name, script, whole, reason=None):
        """Plays one script, which prints `whole`; its reason stands on standard error."""
        want, ended = self.wanted(name, script, whole)
        printed, status, said = self.play(script)
        printed, status = self.as_lacking(name, printed, status)
        why = differs(printed, status, want, ended)
        if why is None and reason is not None and ended != LACKING and said != reason:
            why = f"standard error has {said!r} in place of {reason!r}"
        self.count(kind, name, ended, why)

    def check_moving(self, name, script, whole):
        """Plays a script with a `move` before each command but the queues'. Marks of pages don't
        move along, so a script that gathers marks is left out."""
        if b"\nharvest" in script or status_of(whole):
            return
        moving = with_moves(script)
        want, ended = self.wanted(name, moving, whole)
        printed, status, _ = self.play(moving)
        printed, status = self.as_lacking(name, printed, status)
        why = differs(without_moves(printed), status, without_moves(want), ended)
        self.count("moved", f"{name} with moves", ended, why or differs_in_moves(moving, printed))

    def wanted(self, name, script, whole):
        """What the device has to print for a script that prints `whole`, and its status."""
        if name not in self.lacks:
            return whole, status_of(whole)
        count, command = self.lacks[name]
        if command not in script.split(b"\n"):
            return b"(the script has no such line: " + command + b")\n", LACKING
        number = script.split(b"\n").index(command) + 1
        lines = whole.split(b"\n")[:count] + [b"line %d: not on this device" % number, b""]
        return b"\n".join(lines), LACKING

    def as_lacking(self, name, printed, status):
        """What is printed, with `not on this device` for a listed command that isn't known."""
        unknown = b": not a command\n"
        is_listed = name in self.lacks and self.lacks[name][1].startswith(OPTIONAL)
        if is_listed and status == 1 and printed.endswith(unknown):
            return printed.removesuffix(unknown) + b": not on this device\n", LACKING
        return printed, status

    def has_events(self):
        """Whether no script is listed for a lack of the event index."""
        return not any(command.startswith(b"event_index ") for _, command in self.lacks.values())

    def count(self, kind, name, ended, why):
        """Counts a script, which differs for a reason or not at all."""
        if why is not None:
            self.failures.append(f"{name}: {why}")
        elif ended == LACKING:
            self.left[kind] += 1
        else:
            self.passed[kind] += 1


def differs(printed, status, want, ended):
    """What is printed otherwise than wanted, or with another status; nothing if all is the same."""
    if printed != want:
        return first_difference(printed, want)
    return None if status == ended else f"the status is {status} in place of {ended}"


def differs_in_moves(script, printed):
    """Whether each move of a script printed the length of a record of its queues."""
    lines = printed.split(b"\n")
    end = re.search(rb"(?<=\nline )\d+(?=: not on this device\n\Z)", printed)
    played = script.split(b"\n")[:int(end[0]) - 1 if end else None]
    queues = sum(line.startswith(b"queue ") for line in played)
    want = b"moved %d" % (32 + 32 * lines[:queues].count(b"ok"))
    moved = [line for line in lines if line.startswith(b"moved ")]
    if moved == [want] * played.count(b"move"):
        return None
    return f"the lines of its moves aren't {played.count(b'move')} times `{want.decode()}`"


def status_of(printed):
    """The status of a script, by its last line."""
    last = printed.rstrip(b"\n").rpartition(b"\n")[2]
    return 1 if re.fullmatch(rb"line \d+: not a command|script too long", last) else 0


def with_moves(script):
    """The script with a `move` before each command that isn't a `queue`."""
    moving = []
    for line in script.split(b"\n"):
        if line and not line.startswith((b"#", b"queue ")):
            moving.append(b"move")
        moving.append(line)
    return b"\n".join(moving)


def without_moves(printed):
    """The lines of a script but those of its moves."""
    return b"\n".join(line for line in printed.split(b"\n") if not line.startswith(b"moved "))


def first_difference(printed, want):
    """The first line that differs, in words."""
    ones = printed.decode("latin-1").split("\n")
    others = want.decode("latin-1").split("\n")
    for number, (one, other) in enumerate(zip(ones, others), 1):
        if one != other:
            return f"printed line {number} is\n    {one[:300]}\n  in place of\n    {other[:300]}"
    return f"{len(ones) - 1} lines are printed in place of {len(others) - 1}"


def around(with_events):
    """A script that goes round the greatest queue, so that its indices wrap, with chains of no
    byte; and what it prints. With the event index the driver is notified of position 65535."""
    avail, used = 0x100000, 0x200000
    lines = [f"queue {GREATEST} 0 {avail:#x} {used:#x}", "region 0 0x1000",
        f"region {avail:#x} 0x11000", f"region {used:#x} 0x41000"]
    whole = ["ok", "block 0", "block 1", "block 2"]
    if with_events:
        lines += ["event_index on", f"write {avail + 4 + 2 * GREATEST:#x} ffff"]
        whole += ["ok", "ok"]
    for first, end in ((0, 0x8000), (0x8000, 0x10000), (0x10000, 0x10001)):
        index = (end % 65536).to_bytes(2, "little").hex()
        lines += [f"write {avail + 2:#x} {index}", "kick 0 65535", f"read {used:#x} 16"]
        told = [int(not with_events or at == 65535) for at in range(first, end)]
        whole += ["ok", *(f"done 0 0 DecodeMessage {number}" for number in told)]
        whole.append(f"bytes 0000{index}" + "00" * 12)
    if with_events:
        lines += ["notify 0 on", f"read {used + 4 + 8 * GREATEST:#x} 2"]
        whole += ["ok", "bytes 0100"]
    return [("\n".join(text) + "\n").encode() for text in (lines, whole)]


def named_wrongly(device, scripts):
    """The files and the names of the list that belong to no script, a line each."""
    names = {path.stem for path in scripts}
    for path in sorted((FOLDER / "scripts").iterdir()):
        if path.stem not in names or path.suffix not in (".fs", ".out", ".err"):
            yield f"{path.name} belongs to no script"
    for name in sorted(device.lacks.keys() - names):
        yield f"{name}: the device's list names it, and there is no such script"


def play_all(device):
    """Plays each vector, a few at a time."""
    scripts = sorted((FOLDER / "scripts").glob("*.fs"))
    device.failures += named_wrongly(device, scripts)
    with ThreadPoolExecutor(4) as pool:
        jobs = []
        for path in scripts:
            script, want = path.read_bytes(), path.with_suffix(".out").read_bytes()
            reason = path.with_suffix(".err")
            reason = reason.read_bytes() if reason.exists() else None
            jobs.append(pool.submit(device.check, "as they are", path.stem, script, want, reason))
            jobs.append(pool.submit(device.check_moving, path.stem, script, want))
        lines = (FOLDER / "no_commands.txt").read_bytes().removesuffix(b"\n").split(b"\n")
        for number, line in enumerate(lines, 1):
            name, want = f"no_commands.txt, line {number}", b"ok\nline 2: not a command\n"
            jobs.append(pool.submit(device.check, "no commands", name, QUEUE + line, want))
        for with_events in [False, True] if device.has_events() else [False]:
            name = "the round with the event index" if with_events else "the round"
            jobs.append(pool.submit(device.check, "around", name, *around(with_events)))
        for job in jobs:
            job.result()


def read_lacks(path):
    """A list of what a device lacks: of each script how much it prints, and the command."""
    lines = path.read_bytes().split(b"\n")
    found = [LISTED.fullmatch(line) for line in lines if line and not line.startswith(b"#")]
    if None in found or len({it[1] for it in found}) < len(found):
        raise OSError(f"{path} has a line of another form, or a script twice")
    return {it[1].decode(): (int(it[2]), it[3]) for it in found}


def main(arguments):
    """Plays all vectors on one program."""
    listed = []
    if arguments[:1] == ["--lacks"]:
        listed, arguments = arguments[1:2], arguments[2:]
    if not arguments or arguments[0].startswith("-"):
        print(__doc__, file=sys.stderr)
        return 2
    try:
        device = Device(arguments, read_lacks(Path(*listed)) if listed else {})
        play_all(device)
    except OSError as error:
        print(f"play.py: {error}", file=sys.stderr)
        return 2
    for failure in sorted(device.failures):
        print(f"FAILED: {failure}")
    counts = [f"{count} {kind}" for kind, count in sorted(device.passed.items())]
    lacking = sorted(device.left.items())
    counts += [f"{count} {kind} up to a command that the device lacks" for kind, count in lacking]
    print("; ".join(counts))
    for kind in {"around", "as they are", "moved", "no commands"} - device.passed.keys():
        device.failures.append(kind)
        print(f"FAILED: no script passed of the kind: {kind}")
    print(f"{sum(device.passed.values())} passed, {len(device.failures)} failed")
    return 1 if device.failures else 0


if __name__ == "__main__":
    sys.exit(main(sys.argv[1:]))
