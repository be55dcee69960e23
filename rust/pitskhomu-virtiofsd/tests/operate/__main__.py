#!/usr/bin/env python3
"""python3 operate DAEMON [VIRTIOFSD..]: what an operator does to the daemon, without a guest. With
a command that runs virtiofsd each row is tried on virtiofsd too, and the daemon must do as well or
better. Ends with 1 if a row fails. By the environment: ROWS, a part of the names of rows to try."""
import os
import shutil
import signal
import sys
import time
from concurrent.futures import ThreadPoolExecutor

sys.dont_write_bytecode = True
# pylint: disable=wrong-import-position
import confined
import ends
import limits
import logs
import metrics
import paths
import pauses
import reloaded
import replaced
from rows import may_sandbox

AT_ONCE = 4


def ended(row, program):
    """How a row ends, and words for it."""
    try:
        return row.run(program)
    except Exception as why: # pylint: disable=broad-except
        return "lost", f"{type(why).__name__}: {why}"


def tried(row, programs):
    before = time.monotonic()
    return row, [ended(row, program) for program in programs], time.monotonic() - before


def report(row, ours, theirs, seconds):
    """Prints a row, and returns whether it passed."""
    is_good = ours[0] == row.wanted and all(row.is_as_good(ours[0], other[0]) for other in theirs)
    beside = "".join(f"; virtiofsd: {other[0]}" for other in theirs)
    print(f"{'' if is_good else 'FAILED: '}{row.name}: {ours[0]}{beside} ({seconds:.1f} s)")
    for who, (outcome, words) in zip(("", "virtiofsd: "), (ours, *theirs)):
        if words and (not is_good or outcome == "serves" or outcome != row.wanted):
            print(f"    {who}{words}")
    return is_good


def main():
    signal.signal(signal.SIGIO, lambda *_: None) # of leases
    programs = [[shutil.which(words[0]), *words[1:]] for words in (sys.argv[1:2], sys.argv[2:])
        if words]
    parts = (pauses, replaced, reloaded, confined, ends, limits, logs, metrics, paths)
    rows = [row for part in parts for row in part.rows()
        if os.environ.get("ROWS", "") in row.name]
    if not may_sandbox():
        print("operate: not tried, since no namespaces can be made here")
        sys.exit()
    passed = failed = 0
    with ThreadPoolExecutor(AT_ONCE) as threads:
        for row, (ours, *theirs), seconds in threads.map(lambda row: tried(row, programs), rows):
            if ours[0] == "skipped":
                print(f"operate: not tried: {row.name}: {ours[1]}")
            elif report(row, ours, theirs, seconds):
                passed += 1
            else:
                failed += 1
    print(f"operate: {passed} rows passed, {failed} failed")
    sys.exit(bool(failed or not passed))


main()
