"""Times of requests by the daemon and by virtiofsd, without a guest: `rust/test rows` runs this.

  rows.py WORK DAEMON VIRTIOFSD          runs all in turn until three rounds of each row agree
                                         within 5 percent, or the time is over, and prints tables
  rows.py --write WORK PERFORMANCE.md    writes the tables of the last run into the page
  rows.py --instructions WORK            only counts instructions

WORK has the driver `rows` (rows.c). By the environment: ROUNDS, at least (3); MINUTES, at most (6);
REQUESTS of a row (10000); EVENT_INDEX (1)."""
import concurrent.futures
import json
import os
import re
import subprocess
import sys
import textwrap
import time
from pathlib import Path

SMALL = ["unknown opcode", "GETATTR", "LOOKUP", "READ 4 KiB", "WRITE 4 KiB"]
LARGE = ["READ 64 KiB", "WRITE 64 KiB", "READ 512 KiB", "WRITE 512 KiB"]
AT_ONCE = {"READ 64 KiB": 16, "WRITE 64 KiB": 16, "READ 512 KiB": 4, "WRITE 512 KiB": 4}
BETWEEN = {
    "20": "20 us between",
    "50": "50 us between",
    "300": "300 us between",
    "1,000": "1000 us between",
    "20, the driver looks for 200": "20 us between, the driver looks for 200 us"}
AGREES = 1.05
# Each part has words of `rows`, the daemon's threads, the daemons, and whether all share a
# processor.
PARTS = {
    "one": ([], "0", ("ours", "virtiofsd"), False),
    "four": (["small", "both"], "4", ("ours", "virtiofsd"), False),
    "shared": (["3", "1"], "0", ("ours", "sleeping", "virtiofsd"), True)}
# A count of instructions has a sleep before each request.
SLEEP = "3000"


def setting(name, default):
    """A number of the environment."""
    return int(os.environ.get(name) or default)


def asked(work, daemon, share, words, count, before=(), **env):
    """What one run of the driver prints: by word and row a number."""
    share.mkdir(exist_ok=True)
    env = dict(os.environ, EVENT_INDEX=str(setting("EVENT_INDEX", 1)), **env)
    done = subprocess.run([*before, work / "rows", daemon, share, str(count), *words], env=env,
        check=False, capture_output=True, text=True)
    if done.returncode:
        sys.exit(f"FAILED: rows of {daemon}: {done.stderr[-300:]}")
    lines = re.findall(r"^(\w+) (\d+) [^:]*: (.*)$", done.stdout, re.M)
    return {f"{word} {row}": float(number) for word, number, row in lines}


def priority(shares):
    """Words that give real-time priority, if that is allowed; not where both share a processor,
    since there the one that looks would never be interrupted."""
    if shares:
        last = max(os.sched_getaffinity(0))
        return ["taskset", "-c", str(last)]
    allowed = subprocess.run(["chrt", "-f", "5", "true"], check=False, capture_output=True)
    return ["chrt", "-f", "5"] if allowed.returncode == 0 else []


def agree(found):
    """Whether three rounds of each time agree."""
    times = [sorted(values) for part in found.values() for kind in part.values()
        for row, values in kind.items() if row.startswith("ROW ")]
    return all(len(values) >= 3 and values[2] <= AGREES * values[0] for values in times)


def rounds(work, daemons):
    """Runs all parts in turn. Returns the numbers of each, and the machine's load before each."""
    found = {part: {kind: {} for kind in kinds} for part, (_, _, kinds, _) in PARTS.items()}
    begun, loads, last = time.monotonic(), [], 0.0
    most = 60 * setting("MINUTES", 6)
    while True:
        if len(loads) >= setting("ROUNDS", 3) and agree(found):
            break
        if loads and time.monotonic() - begun + last > most:
            break
        from_ = time.monotonic()
        loads.append(os.getloadavg()[0])
        for part, (words, threads, kinds, shares) in PARTS.items():
            for kind in kinds if len(loads) % 2 else reversed(kinds):
                told = asked(work, daemons[kind], work / "rows-share", words,
                    setting("REQUESTS", 10000), priority(shares), THREADS=threads)
                for row, number in told.items():
                    found[part][kind].setdefault(row, []).append(number)
        last = time.monotonic() - from_
    return found, loads


def count_row(job):
    """The instructions of a request of a row: with a sleep before each, or several at once."""
    work, kind, row, once = job
    share, out = work / f"share-{kind}-{row}-{once}", work / f"counted-{kind}-{row}-{once}.out"
    totals, requests = [], []
    for count in (64, 320):
        made = count if row < len(SMALL) else 16 * count  # rows.c makes fewer of the large ones
        told = asked(work, work / f"counted-{kind}", share,
            [str(row), once, SLEEP if once == "1" else "0"], made, COUNTED=str(out))
        totals.append(int(re.search(r"^(?:totals|summary): (\d+)", out.read_text(), re.M)[1]))
        requests.append(5 * count)
    what = next(name[4:] for name in told if name.startswith("ROW "))
    return kind, what.removesuffix(f", {SLEEP} us between"), (totals[1] - totals[0]) / (
        requests[1] - requests[0])


def instructions(work):
    """User instructions of each row's request, by valgrind: the difference of two runs. No other
    load of the machine changes them, so four run at once."""
    jobs = [(work, kind, row, once) for kind in ("ours", "virtiofsd")
        for row in range(len(SMALL + LARGE)) for once in ("1", "0")]
    counts = {}
    with concurrent.futures.ThreadPoolExecutor(4) as pool:
        for kind, what, number in pool.map(count_row, jobs):
            counts.setdefault(what, {})[kind] = number
    return counts


class Times:
    """The minima of what was found, and what didn't agree."""

    def __init__(self, found):
        self.found = found

    def least(self, part, kind, row, word="ROW"):
        return min(self.found[part][kind][f"{word} {row}"])

    def time(self, part, row, word="ROW"):
        return f"{self.least(part, 'ours', row, word):,.0f}"

    def ratio(self, part, row, word="ROW", by="virtiofsd"):
        other = self.least(part, by, row, word)
        return f"{self.least(part, 'ours', row, word) / other:.2f}" if other else "?"

    def spreads(self):
        """By row how many percent its third minimum is above the first."""
        spreads = {}
        for part, kinds in self.found.items():
            for kind, rows in kinds.items():
                for row, values in rows.items():
                    first, *_, third = sorted(values)[:3] if len(values) > 1 else values * 2
                    if row.startswith("ROW "):
                        name = f"{row[4:]}, {PART_NAMES[part]}, {kind}"
                        spreads[name] = 100 * (third / first - 1)
        return spreads


PART_NAMES = {"one": "one thread", "four": "four threads", "shared": "one processor"}


def table(head, rows):
    lines = [head, ["---"] + ["---:"] * (len(head) - 1), *rows]
    return "".join(f"|{'|'.join(cells)}|\n" for cells in lines)


def one_table(times):
    rows = []
    for row in SMALL + LARGE:
        one, many = f"{row}, 1 at once", f"{row}, {AT_ONCE.get(row, 32)} at once"
        processor = ", ".join(times.ratio("one", what, "PROCESSOR") for what in (one, many))
        rows.append([row, times.time("one", one), times.ratio("one", one), times.time("one", many),
            times.ratio("one", many), processor])
    return table(["Request", "One at a time", "Ratio", "Several at once", "Ratio", "Processor"],
        rows)


def four_table(times):
    rows = []
    for row in SMALL:
        one, many = f"{row}, 1 at once", f"{row}, 32 at once"
        by_one = times.least("four", "ours", many, "PROCESSOR") / times.least(
            "one", "ours", many, "PROCESSOR")
        rows.append([row, times.time("four", one), times.ratio("four", one),
            times.time("four", many), times.ratio("four", many),
            f"{times.ratio('four', many, 'PROCESSOR')}, {by_one:.1f}"])
    return table(["Request", "One at a time", "Ratio", "32 at once", "Ratio", "Processor"], rows)


def between_table(times):
    row = "READ 4 KiB, 1 at once"
    asked_so = [(name, "one", f"{row}, {what}") for name, what in BETWEEN.items()]
    rows = [[name, times.time(part, what), times.ratio(part, what),
        times.time(part, what, "PROCESSOR"), times.ratio(part, what, "PROCESSOR"),
        times.time(part, what, "KICKS")]
        for name, part, what in [("0", "one", row), *asked_so,
            ("0, on one processor", "shared", row)]]
    return table(["Microseconds between", "Time", "Ratio", "Processor", "Ratio", "Kicks of 1,000"],
        rows)


def instruction_table(counts):
    rows = []
    for row in SMALL + LARGE:
        cells = [row]
        for at_once in (1, AT_ONCE.get(row, 32)):
            count = counts[f"{row}, {at_once} at once"]
            cells += [f"{count['ours']:,.0f}", f"{count['ours'] / count['virtiofsd']:.2f}"]
        rows.append(cells)
    return table(["Request", "One at a time", "Ratio", "Several at once", "Ratio"], rows)


def texts(kept):
    """By name the tables, and how they were measured."""
    times, loads = Times(kept["found"]), kept["loads"]
    beside = times.ratio("shared", "READ 4 KiB, 1 at once", by="sleeping")
    spreads = list(times.spreads().values())
    near = sum(spread <= 100 * (AGREES - 1) for spread in spreads)
    how = (f"{kept['date']}, `rust/test rows`: minima of {len(loads)} rounds in turn, at "
        f"{kept['priority']}, on {os.cpu_count()} processors whose load was {min(loads):.1f} to "
        f"{max(loads):.1f} as the rounds began. The daemon's core: {kept['core']}. On one "
        f"processor READ takes {beside} of the time with `--poll-max-us 0`. ")
    how += ("The best three rounds of each row agree within 5 percent." if near == len(spreads) else
        f"In {near} of {len(spreads)} rows the best three rounds agree within 5 percent; in the "
        f"others they differ by up to {max(spreads):.0f} percent.")
    return {"daemon": one_table(times), "between": between_table(times),
        "threads": four_table(times), "instructions": instruction_table(kept["counts"])}, how


def wrapped(text):
    return "\n".join(textwrap.wrap(text, 100, break_long_words=False, break_on_hyphens=False))


def write(work, page):
    """Writes the tables, and how they were measured, in place of those of the page."""
    made, how = texts(json.loads((work / "rows.json").read_text()))
    text = page.read_text()
    places = [(f"<!-- tools/plots: {name} -->\n", rows) for name, rows in made.items()]
    for mark, lines in [*places, ("<!-- rows: how -->\n", wrapped(how) + "\n")]:
        text, count = re.subn(re.escape(mark) + r"(?:.+\n)*", lambda _, new=mark + lines: new, text)
        if count != 1:
            sys.exit(f"FAILED: {page} has {count} places for {mark.strip()}")
    page.write_text(text)


def main(words):
    if words[:1] == ["--write"] and len(words) == 3:
        return write(Path(words[1]), Path(words[2]))
    if words[:1] == ["--instructions"] and len(words) == 2:
        return print(instruction_table(instructions(Path(words[1]).resolve())), end="")
    if len(words) != 3:
        sys.exit(__doc__)
    work, daemon, virtiofsd = (Path(word).resolve() for word in words)
    version = subprocess.run([daemon, "--version"], check=True, capture_output=True, text=True)
    found, loads = rounds(work, {"ours": daemon, "sleeping": work / "sleeping",
        "virtiofsd": virtiofsd})
    kept = {"found": found, "loads": loads, "counts": instructions(work),
        "date": time.strftime("%-d %B %Y"),
        "core": " ".join(version.stdout.splitlines()[1:]).strip(),
        "priority": "real-time priority" if priority(False) else "ordinary priority"}
    (work / "rows.json").write_text(json.dumps(kept))
    made, how = texts(kept)
    print(wrapped(how))
    for row, spread in Times(found).spreads().items():
        if spread > 100 * (AGREES - 1):
            print(f"{row}: the best three rounds differ by {spread:.0f} percent")
    for name, rows in made.items():
        print(f"\n{name}\n{rows}", end="")
    return 0


sys.exit(main(sys.argv[1:]))
