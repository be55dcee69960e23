#!/usr/bin/env python3
"""reloads.py COUNT: has systemd start, reload and stop the unit, as the machine's first process
begins it in testing/systemd.sh."""
import os
import socket
import subprocess
import sys
import time

HERE = os.path.dirname(os.path.abspath(__file__))
sys.dont_write_bytecode = True
sys.path.insert(0, HERE + "/../pitskhomu-virtiofsd/tests/operate")
# pylint: disable=wrong-import-position
from front import Front
from pauses import Load

UNIT = "pitskhomu-virtiofsd@shared"
FOLDER = "/run/virtiofs-shared"


def call(*words):
    return subprocess.run(["systemctl", *words], capture_output=True, text=True, timeout=60,
        check=False)


def shown(name):
    return call("show", "-P", name, UNIT).stdout.strip()


def reload(known):
    """One that must succeed: there is a new process, which systemd and the PID file know."""
    done = call("reload", UNIT)
    main = int(shown("MainPID"))
    assert done.returncode == 0, done.stderr
    assert main not in known and os.path.exists(f"/proc/{main}"), (main, known)
    assert shown("SubState") == "running"
    with open(FOLDER + "/socket.pid", encoding="utf-8") as file:
        assert int(file.read()) == main
    known.append(main)


def set_option(option):
    """Gives ExecReload= one option more."""
    with open(f"/run/systemd/system/{UNIT[:-6]}.service", encoding="utf-8") as file:
        words = next(line for line in file.read().replace("\\\n", "").splitlines()
            if line.startswith("ExecReload="))
    with open(f"/run/systemd/system/{UNIT[:-6]}.service.d/c.conf", "w", encoding="utf-8") as file:
        file.write(f"[Service]\nExecReload=\n{words} {option}\n")
    assert call("daemon-reload").returncode == 0


def main():
    started = call("start", UNIT)
    assert started.returncode == 0, started.stderr
    known = [int(shown("MainPID"))]
    for _ in range(3):
        reload(known)
    connected = socket.socket(socket.AF_UNIX)
    connected.connect(FOLDER + "/socket")
    front = Front(connected, 20).begin()
    load, times = Load(front), []
    for _ in range(int(sys.argv[1])):
        before = time.monotonic()
        reload(known)
        times.append(time.monotonic() - before)
    set_option("--readonly")
    for _ in range(3):
        assert call("reload", UNIT).returncode != 0, "another option is taken over"
        assert (int(shown("MainPID")), shown("SubState")) == (known[-1], "running")
    set_option("")
    reload(known)
    load.end()
    assert not front.attributes()
    front.leave()
    end = time.monotonic() + 20
    while int(shown("MainPID")) in (0, known[-1]) and time.monotonic() < end:
        time.sleep(0.1)
    assert shown("NRestarts") == "1", "it isn't started again"
    assert call("stop", UNIT).returncode == 0 and shown("SubState") == "dead"
    times.sort()
    print(f"systemd: {len(known) - 1} reloads, 3 of them before a front-end connected; 3 refused; "
        f"`systemctl reload` takes {1e3 * times[len(times) // 2]:.0f} ms")


main()
