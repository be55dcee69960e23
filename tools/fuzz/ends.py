"""How a script is read, and how it ends, where that hangs on streams: it comes in pieces through
a pipe, can't be read, or its output can't be written; or the program has an argument
(vectors/SCRIPT.md)."""

import re
import subprocess
import tempfile
import threading

SECONDS = 600
# So many bytes are written to a pipe at once.
PIECES = [1, 7, 1000, 4096, 65537]
STREAM = 3
SHORT = b"queue 4 0 0x100 0x200\nregion 0 0x1000\nread 0 16\nharvest\n"


def through_pipe(path, script, piece):
    """What a program prints for a script that comes in pieces, and its status."""
    process = subprocess.Popen([path], stdin=subprocess.PIPE, stdout=subprocess.PIPE,
        stderr=subprocess.DEVNULL, bufsize=0)

    def write():
        try:
            for at in range(0, len(script), piece):
                process.stdin.write(script[at:at + piece])
            process.stdin.close()
        except BrokenPipeError:
            pass

    thread = threading.Thread(target=write, daemon=True)
    thread.start()
    printed = process.stdout.read()
    return printed, process.wait(SECONDS)


def run(words, path):
    """What a shell's command prints, in which $0 is a program and $1 a script, and its status."""
    with tempfile.NamedTemporaryFile() as script:
        script.write(SHORT)
        script.flush()
        done = subprocess.run(["sh", "-c", words, path, script.name], stdout=subprocess.PIPE,
            stderr=subprocess.DEVNULL, timeout=SECONDS, check=False)
    return re.sub(rb"^usage: \S+", b"usage: PROGRAM", done.stdout), done.returncode


def wrong_ends(path, name, wanted):
    """What is wrong with how scripts are read and end, a line each. `wanted` tells what a script
    prints, and its status."""
    long = SHORT + b"#" + b"x" * 5000 + b"\nread 0 3"
    for piece in PIECES:
        for script in (SHORT, long, SHORT[:-1], b""):
            if through_pipe(path, script, piece) != wanted(script):
                yield f"{name} reads a script of {len(script)} bytes wrongly by {piece} at a time"
    for size in (0, 1):
        script = SHORT + b"#" + b"x" * (2**20 - len(SHORT) - 1 + size)
        if through_pipe(path, script, 65536) != wanted(script):
            yield f"{name} reads a script of {len(script)} bytes wrongly"
    for what, words, want in (
            ("its output can't be written", '"$0" < "$1" > /dev/full', (b"", STREAM)),
            ("its script can't be read", '"$0" < /', (b"", STREAM)),
            ("it has an argument", '"$0" - < "$1"', (b"usage: PROGRAM < script\n", 1))):
        found = run(words, path)
        if found != want:
            yield f"{name}, if {what}: {found}, and not {want}"
