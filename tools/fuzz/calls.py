"""The tests of the C library (examples/c/tests), which do what the scripts can't, such as several
chains in flight. Some make random calls, most of them beside a plain model of their own."""

import re
import subprocess
import threading
from pathlib import Path

# For each second of a run so many worlds, rounds or seconds, by the run's seed.
AMOUNTS = {
    "plain": 800, "answered": 4000, "strict": 4000, "extended": 4000, "listed": 80, "clumsy": 0.05,
    "ringed": 40000, "tables": 20000}
# The others that `make check` runs without a number always do the same.
MAKEFILE = Path(__file__).resolve().parents[2] / "examples/c/Makefile"
FIXED = re.findall(r"^\t\$\(OUT\)/(\w+)$", MAKEFILE.read_text(), re.MULTILINE)
# A program that takes so many seconds more than a run doesn't end.
PATIENCE = 1000


class Calls:
    """The tests in a folder, which are played one after another while the scripts are."""

    def __init__(self, folder, seconds, seed):
        self.commands = [
            [str(Path(folder) / name), str(int(amount * seconds) + 1), str(seed % 2**31)]
            for name, amount in AMOUNTS.items()]
        self.commands += [[str(Path(folder) / name)] for name in FIXED]
        self.patience = PATIENCE + seconds
        self.printed = []
        self.failures = []
        self.thread = threading.Thread(target=self.play, daemon=True)
        self.thread.start()

    def play(self):
        """Plays them."""
        for command in self.commands:
            why = self.played(command)
            if why is not None:
                what = " ".join([*command, why])
                self.failures.append(f"DIFFERENCE of the library's calls: {what}")

    def played(self, command):
        """What is wrong with a program, or None."""
        try:
            done = subprocess.run(command, stdout=subprocess.PIPE, stderr=subprocess.STDOUT,
                timeout=self.patience, check=False)
        except (OSError, subprocess.TimeoutExpired) as error:
            return str(error)
        said = done.stdout.decode(errors="replace").strip()
        self.printed += said.split("\n")[-1:] if said else []
        return None if done.returncode == 0 else f"ends with {done.returncode}: {said}"

    def end(self):
        """What they printed, and those that failed, once all are done."""
        self.thread.join()
        return self.printed, self.failures
