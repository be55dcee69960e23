#!/usr/bin/env python3
"""frozen.py DAEMON WORK ROOT THREADS: a guest writes lines to an ext4 of the host below the share,
and the host freezes it, so that a call is held. QEMU's monitor answers `stop`, `cont` and
`system_reset` at once, a migration fails and the guest goes on, and after the thaw each line is
there once. Before that the daemon itself is stopped, frozen and traced again and again. WORK has
the guest's kernel, image and share, ROOT is where QEMU is unpacked. Ends with 1 at the first that
isn't so; with 3 if the host can't freeze a file system of its own."""
import json
import os
import re
import shutil
import socket
import subprocess
import sys
import time
from pathlib import Path

sys.dont_write_bytecode = True
sys.path.insert(0, str(Path(__file__).parents[1] / "pitskhomu-virtiofsd/tests/operate"))
# pylint: disable=wrong-import-position
import pauses
from daemon import Daemon

DAEMON, WORK, ROOT, THREADS = sys.argv[1:]
RUN, MOUNT = Path(WORK, "run-frozen"), Path(WORK, "share/work/frozen")
IMAGE = Path(WORK, "frozen.ext4")
LIBRARIES = f"{ROOT}/usr/lib/x86_64-linux-gnu"
# A command may take so long, in seconds, on a busy machine.
SOON = 0.5
PATIENCE = 300
PAUSES = 20


def check(what, holds):
    if not holds:
        sys.exit(f"FAILED: frozen: {what}")


def mount():
    """An ext4 below the share, and whether it can be frozen."""
    MOUNT.mkdir(parents=True, exist_ok=True)
    with open(IMAGE, "wb") as image:
        image.truncate(32 << 20)
    for words in (["mkfs.ext4", "-q", IMAGE], ["mount", "-o", "loop", IMAGE, MOUNT],
            ["fsfreeze", "-f", MOUNT], ["fsfreeze", "-u", MOUNT]):
        if subprocess.run(words, stderr=subprocess.DEVNULL, check=False).returncode:
            sys.exit(3)


def freeze(how):
    subprocess.run(["fsfreeze", how, MOUNT], check=True)


def console():
    path = RUN / "console"
    return path.read_text(errors="replace") if path.exists() else ""


def wait_for(what, since=0):
    end = time.monotonic() + PATIENCE
    while what not in console()[since:]:
        check(f"the guest doesn't come to {what}: {console()[-200:]}", time.monotonic() < end)
        time.sleep(0.2)


def wait_for_path(path):
    for _ in range(600):
        if os.path.exists(path):
            return
        time.sleep(0.05)
    check(f"there is no {path}", False)


def qemu():
    words = f"""-L {ROOT}/usr/share/qemu -L {ROOT}/usr/share/seabios -cpu max -smp 2 -m 256M
        -M pc,accel={os.environ.get("ACCEL", "tcg")},memory-backend=mem
        -object memory-backend-memfd,id=mem,size=256M,share=on -nodefaults -no-user-config
        -nic none -display none -serial file:{RUN}/console
        -qmp unix:{RUN}/qmp,server=on,wait=off -chardev socket,id=fs,path={RUN}/socket
        -device vhost-user-fs-pci,chardev=fs,tag=shared,queue-size=128
        -kernel {WORK}/vmlinuz -initrd {WORK}/image""".split()
    kernel = "console=ttyS0 quiet loglevel=3 panic=-1 no_timer_check nowatchdog " \
        "rcupdate.rcu_cpu_stall_suppress=1 rdinit=/init scenario=frozen"
    loader = [f"{ROOT}/usr/lib64/ld-linux-x86-64.so.2", "--library-path",
        f"{LIBRARIES}:{LIBRARIES}/pulseaudio", f"{ROOT}/usr/bin/qemu-system-x86_64"]
    return subprocess.Popen([*loader, *words, "-append", kernel],
        env=dict(os.environ, QEMU_MODULE_DIR=f"{LIBRARIES}/qemu"))


class Monitor:
    """QEMU's monitor (QMP)."""

    def __init__(self):
        wait_for_path(RUN / "qmp")
        made = socket.socket(socket.AF_UNIX)
        made.connect(str(RUN / "qmp"))
        self.file = made.makefile("rw")
        self.answer()
        self.ask("qmp_capabilities")

    def answer(self):
        while True:
            message = json.loads(self.file.readline())
            if "event" not in message:
                return message

    def ask(self, command, **arguments):
        """The answer to a command, and the seconds that it took."""
        before = time.monotonic()
        self.file.write(json.dumps({"execute": command, "arguments": arguments}) + "\n")
        self.file.flush()
        answer = self.answer()
        check(f"{command}: {answer}", "return" in answer)
        return answer["return"], time.monotonic() - before

    def soon(self, command):
        took = self.ask(command)[1]
        print(f"frozen: {command} takes {1000 * took:.0f} ms while the host holds a call")
        check(f"{command} takes {took:.1f} s", took < SOON)

    def migrate(self):
        self.ask("migrate", uri="exec:cat > /dev/null")
        for _ in range(200):
            status = self.ask("query-migrate")[0].get("status")
            if status in ("failed", "completed"):
                return status
            time.sleep(0.1)
        return "under way"


def pause(daemon):
    """Stops, freezes and traces the daemon while the guest writes."""
    operated = Daemon.__new__(Daemon)
    operated.process = daemon
    for how in (pauses.stop, pauses.trace, *([pauses.freeze] if pauses.unified() else [])):
        for _ in range(PAUSES):
            how(operated)
            time.sleep(0.05)
        since = len(console())
        wait_for("LINE ", since)
    print(f"frozen: a guest goes on while the daemon is stopped and traced {PAUSES} times")
    return operated.group


def try_all(monitor, daemon):
    wait_for("LINE 3")
    group = pause(daemon)
    freeze("-f")
    time.sleep(2)
    for command in ("stop", "cont", "stop"):
        monitor.soon(command)
    check("a guest moves whose call is held", monitor.migrate() == "failed")
    monitor.soon("cont")
    freeze("-u")
    last = int(re.findall(r"LINE (\d+)", console())[-1])
    wait_for(f"LINE {last + 3}")
    freeze("-f")
    time.sleep(2)
    since = len(console())
    monitor.soon("system_reset")
    freeze("-u")
    wait_for("LINE 3", since)
    monitor.ask("quit")
    daemon.wait(60)
    if group:
        group.remove()


def main():
    shutil.rmtree(RUN, ignore_errors=True)
    RUN.mkdir()
    mount()
    try:
        with open(RUN / "server", "w", encoding="utf-8") as log:
            daemon = subprocess.Popen([DAEMON, f"--socket-path={RUN}/socket", "--xattr",
                f"--shared-dir={WORK}/share", f"--thread-pool-size={THREADS}"], stderr=log)
        wait_for_path(RUN / "socket")
        guest = qemu()
        try:
            try_all(Monitor(), daemon)
        finally:
            subprocess.run(["fsfreeze", "-u", MOUNT], stderr=subprocess.DEVNULL, check=False)
            guest.terminate()
            guest.wait()
        check("the daemon's status", daemon.wait(60) == 0)
        lines = (MOUNT / "lines").read_text().split()
        check("a line is there twice", len(set(lines)) == len(lines) > 6)
        log = (RUN / "server").read_text()
        check("the log says why no state is saved", "can't move now" in log)
        print(f"frozen: {len(lines)} lines, each once")
    finally:
        subprocess.run(["umount", MOUNT], check=False)


main()
