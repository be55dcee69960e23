"""Numbers: what SIGUSR1 writes to the log, and what the socket of --metrics serves. virtiofsd has
neither: SIGUSR1 ends it, and it refuses the option."""
import os
import re
import signal
import socket
import threading
import time
from functools import partial

from daemon import Daemon, sandboxes, serves
from front import Lost
from replaced import New
from rows import Row

PREFIX = "pitskhomu_virtiofsd_"
REQUESTS = 40


def scrape(path, request=b"GET /metrics HTTP/1.1\r\nHost: x\r\n\r\n"):
    """The response's head, and its body."""
    with socket.socket(socket.AF_UNIX) as reader:
        reader.settimeout(20)
        reader.connect(path)
        reader.sendall(request)
        text = b""
        while part := reader.recv(1 << 16):
            text += part
    head, _, body = text.decode().partition("\r\n\r\n")
    return head, body


def values(body):
    """The value of each line, by its name and labels."""
    lines = [line for line in body.splitlines() if not line.startswith("#")]
    pairs = [re.fullmatch(PREFIX + r"(\w+(?:\{[^}]*\})?) (\S+)", line).groups() for line in lines]
    return {name: float(value) for name, value in pairs}


def must(holds, why):
    if not holds:
        raise Lost(why)


def check(found):
    """The numbers of a guest that has begun a session, and asked for attributes."""
    name = 'request_duration_seconds_%s{opcode="%s"}'
    must(found[name % ("count", "GETATTR")] == REQUESTS, "another number of GETATTR")
    must(found[name % ("count", "INIT")] == 1, "another number of INIT")
    buckets = [value for key, value in found.items()
        if key.startswith('request_duration_seconds_bucket{opcode="GETATTR"')]
    must(buckets == sorted(buckets) and buckets[-1] == REQUESTS, f"buckets: {buckets}")
    seconds = found[name % ("sum", "GETATTR")]
    must(0 < seconds < 20, f"{seconds} seconds")
    must(found['chains_in_flight{queue="1"}'] == 0, "a chain is in flight")
    must(0 < found["max_descriptors"], "no limit of descriptors")
    must(found.get("open_descriptors", 1) < found["max_descriptors"], "descriptors")
    must(found["log_lines_left_out_total"] == 0, "lines are left out")


def served(program, sandbox):
    """--metrics, of a guest that has made some requests."""
    with Daemon(program, f"--sandbox={sandbox}", prepare=with_metrics) as daemon:
        front = daemon.front().begin()
        for _ in range(REQUESTS):
            must(not front.attributes(), "GETATTR fails")
        head, body = scrape(daemon.metrics)
        must(head.startswith("HTTP/1.1 200 "), head)
        check(values(body))
        head, _ = scrape(daemon.metrics, b"PUT / HTTP/1.1\r\n\r\n")
        must(head.startswith("HTTP/1.1 400 "), head)
        must(os.stat(daemon.metrics).st_mode & 0o777 == 0o700, "another mode of the socket")
        return serves(daemon, front)


def with_metrics(daemon, program, options, _more):
    daemon.metrics = daemon.folder + "/metrics"
    return program, [*options, f"--metrics={daemon.metrics}"]


def with_control(daemon, program, options, more):
    program, options = with_metrics(daemon, program, options, more)
    return program, [*options, f"--control-socket={daemon.folder}/control"]


def asked(path):
    """How often the guest of the daemon at this path has asked for attributes."""
    return values(scrape(path)[1]).get('request_duration_seconds_count{opcode="GETATTR"}', 0)


def taken_over(program, old, *options):
    """Replaces the daemon."""
    new = New(program, old, *options)
    must(old.process.wait(20) == 0, f"the old one stays: {old.said()}")
    old.process = new.process


def kept(program):
    """The socket stays the old daemon's if the new one doesn't take over, and else is the new
    one's."""
    with Daemon(program, prepare=with_control) as old:
        front, path, other = old.front().begin(), old.metrics, old.folder + "/other"
        option = f"--metrics={path}"
        must(not front.attributes() and asked(path) == 1, "no numbers")
        must(New(program, old, option, "--readonly").ended() == 1, "another option")
        must(not front.attributes() and asked(path) == 2, "a refused one has the socket")
        for _ in range(2):
            taken_over(program, old, option)
            must(not front.attributes() and asked(path) == 1, "the new one lacks the socket")
        with socket.socket(socket.AF_UNIX) as stranger:
            stranger.bind(other)
            stranger.listen()
            must(New(program, old, f"--metrics={other}").ended() == 1, "a stranger's socket")
            must("names another process's socket" in old.said(), "not the reason")
        taken_over(program, old, f"--metrics={other}") # nobody listens there any more
        must(not front.attributes() and asked(other) == 1, "no numbers at another path")
        taken_over(program, old, option)
        must(not front.attributes() and asked(path) == 1, "no numbers at the first path")
        return serves(old, front)


def silent(program):
    """Readers that say nothing, or leave at once, keep nobody from the numbers for long."""
    with Daemon(program, prepare=with_metrics) as daemon:
        front = daemon.front().begin()
        readers = [socket.socket(socket.AF_UNIX) for _ in range(2)]
        for reader in readers:
            reader.connect(daemon.metrics)
        readers.pop().close()
        before = time.monotonic()
        head, _ = scrape(daemon.metrics)
        must(head.startswith("HTTP/1.1 200 ") and time.monotonic() - before < 15, "it waits")
        return serves(daemon, front)


def signalled(program, sandbox):
    """SIGUSR1 to the process that the PID file names, again and again under load."""
    with Daemon(program, f"--sandbox={sandbox}") as daemon:
        front, is_over = daemon.front().begin(), threading.Event()
        must(not front.attributes(), "GETATTR fails")

        def asks():
            while not is_over.is_set():
                os.kill(daemon.process.pid, signal.SIGUSR1)
                time.sleep(0.02)

        asking = threading.Thread(target=asks)
        asking.start()
        for _ in range(400):
            must(not front.attributes(), "GETATTR fails")
        is_over.set()
        asking.join()
        time.sleep(0.2)
        must(re.search(r" \d+ chains in flight, .* descriptors, ", daemon.said()), "no numbers")
        must(re.search(r"GETATTR \d+ \(half below \d+ us", daemon.said()), "no requests")
        return serves(daemon, front)


def rows():
    return [Row(f"{name}, {sandbox}", partial(run, sandbox=sandbox)) for sandbox in sandboxes()
        for name, run in (("numbers by a socket", served), ("numbers by SIGUSR1", signalled))] + [
        Row("a reader of the numbers that says nothing", silent),
        Row("the socket of the numbers, while the daemon is replaced", kept)]
