#!/usr/bin/env python3
"""options.py DAEMON [VIRTIOFSD..]: what the daemon says of wrong options, and of all options: its
status, and the words that a script may look for. They are virtiofsd 1.13.2's: with a command that
runs virtiofsd it is asked too. Ends with 1 if one differs."""
import os
import re
import subprocess
import sys
import tempfile

DAEMON, VIRTIOFSD = sys.argv[1:2], sys.argv[2:]
FOLDER = tempfile.mkdtemp(prefix="options-")
SHARED, SOCKET = FOLDER + "/shared", FOLDER + "/socket"
BEGIN = "--socket-path={S} --shared-dir={D} "
TWICE = "\n".join(
    f"[ERROR] Cannot use --migration-{option} with --migration-mode=file-handles "
    "(because it is unnecessary)"
    for option in ("confirm-paths", "verify-handles")
)
CAPABILITIES = """{
  "type": "fs",
  "features": [
    "migrate-precopy",
    "separate-options"
  ]
}"""
FILE_HANDLES = BEGIN + "--migration-mode=file-handles "

# The words, the status, and what is said: the whole of a line, or of two.
BOTH = [
    (
        "--fd=3",
        2,
        "error: the following required arguments were not provided:\n  --shared-dir <SHARED_DIR>",
    ),
    (
        "--shared-dir={D}",
        2,
        "error: the following required arguments were not provided:\n  --socket <SOCKET>",
    ),
    (
        "--shared-dir",
        2,
        "error: a value is required for '--shared-dir <SHARED_DIR>' but none was supplied",
    ),
    (
        BEGIN + "--fd=3",
        2,
        "error: the argument '--socket-path <SOCKET_PATH>' cannot be used with '--fd <FD>'",
    ),
    (
        "--fd=3 --shared-dir={D} --socket-group=root",
        2,
        "error: the argument '--fd <FD>' cannot be used with '--socket-group <SOCKET_GROUP>'",
    ),
    (BEGIN + "--no-such", 2, "error: unexpected argument '--no-such' found"),
    (BEGIN + "extra", 2, "error: unexpected argument 'extra' found"),
    (
        BEGIN + "--xattr=1",
        2,
        "error: unexpected value '1' for '--xattr' found; no more were expected",
    ),
    (
        BEGIN + "--tag=",
        2,
        "error: invalid value '' for '--tag <TAG>': The tag may not be empty or longer than "
        "36 bytes (encoded as UTF-8).",
    ),
    (
        BEGIN + "--cache=some",
        2,
        "error: invalid value 'some' for '--cache <CACHE>': invalid cache policy",
    ),
    (
        BEGIN + "--sandbox=x",
        2,
        "error: invalid value 'x' for '--sandbox <SANDBOX>': Unknown sandbox mode",
    ),
    (
        BEGIN + "--seccomp=x",
        2,
        "error: invalid value 'x' for '--seccomp <SECCOMP>': Matching variant not found",
    ),
    (
        BEGIN + "--inode-file-handles=x",
        2,
        "error: invalid value 'x' for '--inode-file-handles=<INODE_FILE_HANDLES>': invalid "
        "inode file handles mode",
    ),
    (
        BEGIN + "--inode-file-handles",
        2,
        "error: equal sign is needed when assigning values to "
        "'--inode-file-handles=<INODE_FILE_HANDLES>'",
    ),
    (
        BEGIN + "--log-level=x",
        2,
        "error: invalid value 'x' for '--log-level <LOG_LEVEL>': attempted to convert a "
        "string that doesn't match an existing log level",
    ),
    (
        BEGIN + "--thread-pool-size=x",
        2,
        "error: invalid value 'x' for '--thread-pool-size <THREAD_POOL_SIZE>': invalid digit "
        "found in string",
    ),
    (
        BEGIN + "--rlimit-nofile=x",
        2,
        "error: invalid value 'x' for '--rlimit-nofile <RLIMIT_NOFILE>': invalid digit found "
        "in string",
    ),
    (
        BEGIN + "--migration-mode=x",
        2,
        "error: invalid value 'x' for '--migration-mode <MIGRATION_MODE>': invalid "
        "migration-mode value",
    ),
    (
        BEGIN + "--migration-on-error=x",
        2,
        "error: invalid value 'x' for '--migration-on-error <MIGRATION_ON_ERROR>': invalid "
        "migration-on-error value",
    ),
    (
        BEGIN + "--translate-uid=map:0:1:1 --posix-acl",
        2,
        "error: the argument '--translate-uid <TRANSLATE_UID>' cannot be used with '--posix-acl'",
    ),
    ("--fd=3 -o cache=never", 2, "error: Invalid compat value 'never' for '-o cache'"),
    ("--fd=3 -o loglevel=trace", 2, "error: Invalid compat value 'trace' for '-o loglevel'"),
    ("--fd=3 -o sandbox=none", 2, "error: Invalid compat value 'none' for '-o sandbox'"),
    ("--fd=3 -o xattrmap=x", 2, "error: Invalid compat value 'x' for '-o xattrmap'"),
    ("--fd=3 -o flock", 2, "error: Invalid compat argument '-o flock'"),
    ("--fd=3 -o posix_lock", 2, "error: Invalid compat argument '-o posix_lock'"),
    ("--fd=3 -o timeout=1", 2, "error: Invalid compat argument '-o timeout=1'"),
    ("--fd=3 -o source=/a=b", 2, "error: Invalid compat argument '-o source=/a=b'"),
    ("--fd=3 -o xattr", 1, '[ERROR] missing "--shared-dir" or "-o source" option'),
    ("--fd=3 -o source={D}/none", 1, "[ERROR] {D}/none does not exist"),
    ("--socket-path={S} --shared-dir={D}/none", 1, "[ERROR] {D}/none does not exist"),
    (
        "--socket-path={D}/none/socket --shared-dir={D}",
        1,
        "[ERROR] {D}/none does not exist or is not a directory",
    ),
    (
        BEGIN + "--socket-group=no-such-group",
        1,
        "[ERROR] Couldn't resolve the group name specified for the socket path",
    ),
    (
        BEGIN + "--rlimit-nofile=40",
        1,
        "[ERROR] Maximum number of file descriptors too small: Limit is 40, must be at least 610",
    ),
    (BEGIN + "--modcaps=", 1, "[ERROR] empty modcap found: expected (+|-)capability:..."),
    (
        BEGIN + "--modcaps==+sys_admin:-chown",
        1,
        "[ERROR] invalid modcap action: expecting '+'|'-' but found '='",
    ),
    (
        BEGIN + "--modcaps=+none",
        1,
        "[ERROR] invalid capability 'NONE': failed to get the ID for the capability with name NONE",
    ),
    (
        BEGIN + "--inode-file-handles=prefer --modcaps=-dac_read_search",
        1,
        "[ERROR] can't disable DAC_READ_SEARCH when using --inode-file-handles=Prefer",
    ),
    (FILE_HANDLES + "--migration-confirm-paths --migration-verify-handles", 1, TWICE),
    (
        BEGIN + "--translate-uid=map:4294967295:1:10",
        1,
        "[ERROR] Failed to create internal filesystem representation: UID map: Parameter "
        "map:4294967295:1:10: Range overflow",
    ),
    (
        "--socket={S} --shared-dir={D} --rlimit-nofile=40",
        1,
        "[ERROR] Maximum number of file descriptors too small: Limit is 40, must be at least 610",
    ),
    (
        "--print-capabilities --socket-group=root",
        2,
        "error: the argument '--print-capabilities' cannot be used with '--socket-group "
        "<SOCKET_GROUP>'",
    ),
    ("--print-capabilities", 0, CAPABILITIES),
]
# What the daemon alone refuses.
OURS = [
    (
        BEGIN + "--rlimit-nofile=40 --num-request-queues=3",
        1,
        "[ERROR] Maximum number of file descriptors too small: Limit is 40, must be at least 624",
    ),
    (
        BEGIN + "--thread-pool-size=1025",
        2,
        "error: invalid value '1025' for '--thread-pool-size <THREAD_POOL_SIZE>': 1025 is "
        "not in 0..=1024",
    ),
    (
        BEGIN + "--num-request-queues=64",
        2,
        "error: invalid value '64' for '--num-request-queues <NUM_REQUEST_QUEUES>': 64 is "
        "not in 1..=63",
    ),
]


def filled(words):
    return words.replace("{S}", SOCKET).replace("{D}", SHARED)


def said(program, words):
    """Its status, and what it said, with no time in front."""
    command = [*program, *filled(words).split()]
    more = {"capture_output": True, "text": True, "stdin": subprocess.DEVNULL}
    done = subprocess.run(command, timeout=20, **more)
    for path in (SOCKET, SOCKET + ".pid"):
        if os.path.exists(path):
            os.unlink(path)
    text = done.stdout + done.stderr
    return done.returncode, re.sub(r"\[20\S+Z (\w+) +[\w:]+\] ", r"[\1] ", text)


def options(program):
    pattern = r"^ +(?:-\w, )?(--?[\w-]+(?:=?<\w+>| <\w+>|\.\.\.)*)"
    return set(re.findall(pattern, said(program, "--help")[1], re.M))


os.mkdir(SHARED)
failed = []
for program, rows in ((DAEMON, BOTH + OURS), (VIRTIOFSD, BOTH)):
    for words, status, line in rows if program else []:
        got, text = said(program, words)
        if got != status or filled(line) + "\n" not in text.replace(" [env", "\n [env"):
            failed.append(f"{program[-1]} {words}: {got}: {text}")
missing = options(VIRTIOFSD) - options(DAEMON) if VIRTIOFSD else set()
failed += [f"{option} isn't in --help" for option in missing]
print("".join(f"FAILED: {why}\n" for why in failed), end="")
print(f"options: {len(BOTH) + len(OURS)} rows: done")
sys.exit(bool(failed))
