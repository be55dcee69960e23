"""The processor time that a daemon took for each row of `rust/test feel`:

  feel_processor.py CONSOLE TAG=PID..    follows the guest's console until it says that it ends

Prints `TIME N processor: TAG ROW` for each row that the guest has timed: milliseconds of the daemon
and its children since the row before, in which the guest asked it nothing else."""
import os
import re
import sys
import time
from pathlib import Path


def processes_of(pid):
    """The process and its children, and theirs."""
    for task in Path(f"/proc/{pid}/task").glob("*/children"):
        for child in task.read_text().split():
            yield from processes_of(int(child))
    yield pid


def processor(pid):
    """Milliseconds of processor time, by each process's clock (clock_getcpuclockid(3))."""
    taken = 0
    for process in processes_of(pid):
        try:
            taken += time.clock_gettime_ns((~process << 3) | 2)
        except OSError:
            pass  # it has ended
    return taken / 1e6


def main(console, *daemons):
    pids = {tag: int(pid) for tag, pid in (word.rsplit("=", 1) for word in daemons)}
    before = {tag: processor(pid) for tag, pid in pids.items()}
    seen, parent = 0, os.getppid()
    while os.getppid() == parent:
        time.sleep(0.005)
        lines = Path(console).read_text(errors="replace").split("\n") if Path(
            console).exists() else [""]
        for line in lines[seen:-1]:
            found = re.search(r"TIME [\d.]+ ms: (\S+) ([^\r]*)", line)
            if found and found[1] in pids:
                tag, row = found.groups()
                now = processor(pids[tag])
                print(f"TIME {now - before[tag]:.1f} processor: {tag} {row}", flush=True)
                before[tag] = now
            if line.startswith("== end"):
                return
        seen = len(lines) - 1


main(*sys.argv[1:])
