#!/usr/bin/env python3
"""starts.py DAEMON FOLDER: how the daemon starts and ends: what it refuses by name, its socket, the
file beside it, a second daemon, --fd, signals, and --syslog where nothing else listens. Ends with 1
at the first that isn't so."""
import grp
import json
import os
import resource
import signal
import socket
import stat
import struct
import subprocess
import sys
import tempfile
import time

DAEMON, FOLDER = sys.argv[1:]
PATH, SHARED = FOLDER + "/socket", FOLDER + "/shared"
SYSLOG = "/dev/log"
GET_FEATURES = 1


def start(*words, **more):
    return subprocess.Popen([DAEMON, "--shared-dir", SHARED, *words], stderr=subprocess.PIPE,
        text=True, **more)


def ended(daemon):
    """Its status, and what it told."""
    told = daemon.communicate(timeout=20)[1]
    return daemon.returncode, told


def met(path):
    """A connection, as soon as the socket is there."""
    for _ in range(400):
        if os.path.exists(path):
            break
        time.sleep(0.05)
    front_end = socket.socket(socket.AF_UNIX)
    front_end.connect(path)
    return front_end


def meet(path):
    """Connects as soon as the socket is there, and leaves."""
    met(path).close()


def table_size(*words):
    """How many descriptors the kernel's table of the daemon holds, once the daemon answers its
    front-end, and before it opens a file of the guest's."""
    if os.path.exists(PATH):
        os.unlink(PATH)
    daemon = start("--socket-path", PATH, *words)
    front_end = met(PATH)
    front_end.sendall(struct.pack("III", GET_FEATURES, 1, 0))
    answered = front_end.recv(20)
    number = daemon.pid
    with open(f"/proc/{number}/task/{number}/children") as children:
        number = int(children.read().split()[0]) if "--sandbox=namespace" in words else number
    with open(f"/proc/{number}/status") as told:
        size = next(int(line.split()[1]) for line in told if line.startswith("FDSize:"))
    front_end.close()
    check(f"it answers and ends {words}", ended(daemon)[0] == 0 and len(answered) == 20)
    return size


def connects_as(path, groups):
    """Whether a process of another user, who is in these groups, can connect."""
    child = os.fork()
    if child == 0:
        os.setgroups(groups)
        os.setgid(65534)
        os.setuid(65534)
        with socket.socket(socket.AF_UNIX) as front_end:
            os._exit(front_end.connect_ex(path) != 0)
    return os.waitpid(child, 0)[1] == 0


def check(what, holds):
    if not holds:
        sys.exit(f"FAILED: {what}")


def listener(path, kind):
    made = socket.socket(socket.AF_UNIX, kind)
    made.bind(path)
    made.settimeout(10)
    return made


os.makedirs(SHARED, exist_ok=True)
for word in ("--no-such-option", "--posix-acl=yes"):
    status, told = ended(start("--socket-path", PATH, word))
    check(f"{word} is refused by name: {told}", status == 2 and word.split("=")[0] in told)
for number in ("-1", "77"):
    status, told = ended(start(f"--fd={number}"))
    check(f"--fd={number}, which isn't open: {told}",
        status == 1 and "Bad file descriptor" in told and "panicked" not in told)
told = subprocess.run([DAEMON, "--print-capabilities"], stdout=subprocess.PIPE, check=True).stdout
check("capabilities",
    json.loads(told) == {"type": "fs", "features": ["migrate-precopy", "separate-options"]})
version, core = subprocess.run([DAEMON, "--version"], stdout=subprocess.PIPE, check=True,
    text=True).stdout.splitlines()
check(f"--version: {core}", version.startswith("pitskhomu-virtiofsd ")
    and (core.endswith(", NOT PROVED") or ", proved by logic " in core))

daemon = start("--socket-path", PATH)
while not os.path.exists(PATH):
    time.sleep(0.05)
check("its number stands beside the socket", open(PATH + ".pid").read().strip() == str(daemon.pid))
status, told = ended(start("--socket-path", PATH))
check(f"a second daemon is refused: {told}", status == 1 and "locked" in told)
meet(PATH)
status, told = ended(daemon)
check("it ends with its front-end", status == 0)
check(f"it logs what the core is: {told}", f"the core: {core}\n" in told)

for number in (signal.SIGTERM, signal.SIGINT, signal.SIGHUP):
    os.unlink(PATH)
    daemon = start("--socket-path", PATH)
    while not os.path.exists(PATH):
        time.sleep(0.05)
    daemon.send_signal(number)
    check(f"it ends by signal {number}", ended(daemon)[0] == 0)

# No request waits for a larger table: it has 2 MiB of pointers, or as many as the limit allows.
limit = resource.getrlimit(resource.RLIMIT_NOFILE)[1]
for sandbox in ("namespace", "chroot", "none"):
    size = table_size(f"--sandbox={sandbox}")
    check(f"a wide table in the sandbox {sandbox}: {size}", min(limit, 1 << 18) <= size)
size = table_size("--sandbox=namespace", "--rlimit-nofile=5000")
check(f"the table is as wide as the limit: {size}", 5000 <= size <= 8192)

# A group's users can connect, and no others.
with tempfile.TemporaryDirectory(dir="/tmp") as folder:
    os.chmod(folder, 0o711)
    path, group = folder + "/socket", grp.getgrall()[-1]
    daemon = start("--socket-path", path, "--socket-group", group.gr_name)
    while not (os.path.exists(path) and os.stat(path).st_gid == group.gr_gid):
        time.sleep(0.05)
    time.sleep(0.1)
    check("the socket is its group's", stat.S_IMODE(os.stat(path).st_mode) == 0o660)
    check("no other user connects", not connects_as(path, []))
    check("a user of the group connects", connects_as(path, [group.gr_gid]))
    check("it ends with that user's front-end", ended(daemon)[0] == 0)

with listener(FOLDER + "/handed", socket.SOCK_STREAM) as handed:
    handed.listen(1)
    daemon = start("--fd", str(handed.fileno()), pass_fds=[handed.fileno()])
    meet(FOLDER + "/handed")
    check("a socket that is handed in", ended(daemon)[0] == 0)

with listener(FOLDER + "/of-libvirt", socket.SOCK_STREAM) as handed:
    # The command line of libvirt before 9.1.
    handed.listen(1)
    words = ("-o", f"source={SHARED},cache=always,sandbox=chroot,xattr,no_flock,no_posix_lock",
        "--thread-pool-size=2", "-d")
    number = handed.fileno()
    daemon = subprocess.Popen([DAEMON, f"--fd={number}", *words], pass_fds=[number],
        stderr=subprocess.PIPE, text=True)
    meet(FOLDER + "/of-libvirt")
    status, told = ended(daemon)
    check(f"libvirt's old command line: {told}",
        status == 0 and told.count("Use of deprecated") == 2)

if not os.path.exists(SYSLOG):
    with listener(SYSLOG, socket.SOCK_DGRAM) as log:
        os.unlink(PATH)
        daemon = start("--socket-path", PATH, "--syslog")
        meet(PATH)
        check("it is silent with --syslog", ended(daemon) == (0, ""))
        while b"Client disconnected, shutting down" not in log.recv(4096):
            pass
    os.unlink(SYSLOG)
print("starts: done")
