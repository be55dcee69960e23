"""Paths: each error names the path and the reason, and nothing of others' is removed."""
import fcntl
import os
import re
import socket
from functools import partial

from daemon import Daemon, as_user, judged, serves
from rows import Row, is_root

LONG = "a" * 120


def prepared(change, user=False):
    """What changes the back-end's folder before it starts, and its user."""
    def prepare(daemon, program, options, more):
        change(daemon)
        return as_user(daemon, program, options, more) if user else (program, options)
    return prepare


def refused(program, change, pattern, *options, user=False):
    """It ends, and the log has a pattern; in it {} is the folder."""
    if user and not is_root():
        return "skipped", "only root becomes another user"
    with Daemon(program, *options, prepare=prepared(change, user)) as daemon:
        try:
            return judged(daemon, pattern.replace("{}", re.escape(daemon.folder)))
        finally:
            os.chmod(daemon.folder, 0o755)


def served(program, change, *options):
    with Daemon(program, *options, prepare=prepared(change)) as daemon:
        return serves(daemon)


def missing(daemon):
    daemon.shared += "/missing"


def below_a_file(daemon):
    daemon.shared += "/file/below"


def fifo(daemon):
    daemon.shared += "/fifo"
    os.mkfifo(daemon.shared)


def a_file(daemon):
    daemon.shared += "/file"


def loop(daemon):
    daemon.shared += "/loop"
    os.symlink("loop", daemon.shared)


def closed(daemon):
    daemon.shared = daemon.folder + "/closed/shared"
    os.makedirs(daemon.shared)
    os.chmod(daemon.folder + "/closed", 0o700)


def unreadable(daemon):
    os.chmod(daemon.shared, 0o700)


def stale_socket(daemon):
    with socket.socket(socket.AF_UNIX) as old:
        old.bind(daemon.socket)


def file_as_socket(daemon):
    with open(daemon.socket, "w", encoding="utf-8") as file:
        file.write("keep")


def is_file_kept(program):
    """A file where the socket should be is another program's."""
    with Daemon(program, prepare=prepared(file_as_socket)) as daemon:
        outcome = judged(daemon, re.escape(daemon.socket))
        with open(daemon.socket, encoding="utf-8") as file:
            return outcome if file.read() == "keep" else ("lost", "the file has changed")


def no_folder(daemon):
    daemon.socket = daemon.folder + "/missing/socket"


def folder_below_a_file(daemon):
    daemon.socket = daemon.shared + "/file/socket"


def no_right(daemon):
    daemon.socket = daemon.folder + "/roots/socket"
    os.mkdir(daemon.folder + "/roots")


def long_path(daemon):
    daemon.socket = f"{daemon.folder}/{LONG}"


def stale_number(daemon):
    with open(daemon.socket + ".pid", "w", encoding="utf-8") as file:
        file.write("4194304\n" * 1000)


def locked_number(daemon):
    daemon.number = open(daemon.socket + ".pid", "w", encoding="utf-8")
    fcntl.flock(daemon.number, fcntl.LOCK_EX)


def rows():
    def says_why(name, change, pattern, *options, **more):
        run = partial(refused, change=change, pattern=pattern, **more)
        return Row(name, lambda program: run(program, *options), "says why")

    shared = "{}/shared"
    return [
        says_why("a shared directory that isn't there", missing, shared + "/missing does not"),
        says_why("one below a file", below_a_file, shared + "/file/below .*Not a directory"),
        says_why("one that is a FIFO", fifo, shared + "/fifo is neither"),
        says_why("one that is a file", a_file, shared + "/file is a file"),
        says_why("one that is a loop of links", loop, shared + "/loop .*Too many levels"),
        says_why("one behind another user's directory", closed, "{}/closed/shared .*Permission",
            user=True),
        says_why("one that its user can't read", unreadable, shared + ".*Permission denied",
            user=True),
        Row("a socket of an earlier daemon", partial(served, change=stale_socket)),
        Row("a file where the socket should be", is_file_kept, "says why"),
        says_why("a folder for the socket that isn't there", no_folder, "{}/missing"),
        says_why("one that is a file, for the socket", folder_below_a_file, shared +
            "/file does not exist or is not a directory"),
        says_why("one that its user can't write, for the socket", no_right, "{}/roots/socket"
            ".*Permission denied", user=True),
        says_why("a path for the socket that is too long", long_path, LONG),
        Row("a file of an earlier daemon's number", partial(served, change=stale_number)),
        says_why("a file of its number that another has locked", locked_number, "{}/socket.pid"),
    ]
