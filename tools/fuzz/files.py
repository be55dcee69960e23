"""The file system of the vectors (vectors/README.md): it notes each call, and answers by its
mood."""

from functools import lru_cache

EIO, ENOENT, ENOSYS, WIDE_ERROR = 5, 2, 38, 0xABC

# What a good answer has, by the fields of its record.
ATTR = {"ino": 2, "size": 5, "blocks": 6, "atime": 7, "mtime": 8, "ctime": 9, "atimensec": 10,
    "mtimensec": 11, "ctimensec": 12, "mode": 0o100644, "nlink": 13, "uid": 14, "gid": 15,
    "rdev": 16, "blksize": 17, "flags": 18}
ENTRY = {"nodeid": 2, "generation": 3, "entry_valid": 20, "attr_valid": 22, "entry_valid_nsec": 21,
    "attr_valid_nsec": 23}
STATFS = {name: number for number, name in enumerate(
    "blocks bfree bavail files ffree bsize namelen frsize".split(), 1)}
DIRECTORY = [(1, 1, 4, b"."), (2, 2, 8, b"a"), (1, 3, 4, b"..")]
# A text of more bytes is noted by its length and its sum.
LONGEST_TEXT = 32

# The `wide` answers: all bytes of a field are different.


def numbered(first, width):
    """A number whose bytes are `first` and the numbers behind it."""
    return int.from_bytes(bytes(range(first, first + width)), "little")


# Byte k of the entry is 0x80 + k, but for the highest bytes of counts of nanoseconds, and for the
# type of the mode.
WIDE_ENTRY = {name: numbered(0x80 + 8 * at, 8)
    for at, name in enumerate(["nodeid", "generation", "entry_valid", "attr_valid"])}
WIDE_ENTRY |= {"entry_valid_nsec": 0x29A2A1A0, "attr_valid_nsec": 0x2AA6A5A4}
WIDE_ATTR = {name: numbered(0xA8 + 8 * at, 8)
    for at, name in enumerate(["ino", "size", "blocks", "atime", "mtime", "ctime"])}
WIDE_ATTR |= {"atimensec": 0x2BDAD9D8, "mtimensec": 0x2CDEDDDC, "ctimensec": 0x2DE2E1E0,
    "mode": 0xE7E6C5E4}
WIDE_ATTR |= {name: numbered(0xE8 + 4 * at, 4)
    for at, name in enumerate(["nlink", "uid", "gid", "rdev", "blksize", "flags"])}
WIDE_STATFS = {name: numbered(0x80 + 8 * at, 8)
    for at, name in enumerate(["blocks", "bfree", "bavail", "files", "ffree"])}
WIDE_STATFS |= {name: numbered(0xA8 + 4 * at, 4)
    for at, name in enumerate(["bsize", "namelen", "frsize"])}
WIDE_HANDLE, WIDE_OPEN_FLAGS = numbered(0x80, 8), numbered(0x88, 4)
WIDE_OFFSET, WIDE_COUNT = numbered(0x80, 8), numbered(0x80, 4)
# The directory: `.`, and ten times names of these lengths.
WIDE_LENGTHS, WIDE_DOT, WIDE_OFF = [7, 8, 9, 16, 255] * 10, numbered(0x88, 8), numbered(0x90, 8)
SOCKET = 12
WIDE_LINK = 300


@lru_cache
def pattern(offset, count):
    """The bytes of the large file, each of which hangs on its offset."""
    return bytes((at * 0x9E3779B1 & 0xFFFFFFFF) >> 24 for at in range(offset, offset + count))


def wide_directory():
    """Entries: inode, offset behind it, type, name."""
    entries = [(WIDE_DOT, WIDE_OFF + 1, 4, b".")]
    for at, length in enumerate(WIDE_LENGTHS, 1):
        entries.append((WIDE_ATTR["ino"], WIDE_OFF + at + 1, SOCKET, bytes([0x40 + at]) * length))
    return entries


class Errno(Exception):
    """A call that fails."""

    def __init__(self, number):
        super().__init__(number)
        self.number = number


def quoted(data):
    """A text as a call has it: in quotes, or, if it is long, its length and its sum."""
    if len(data) <= LONGEST_TEXT:
        return '"' + data.decode("latin-1") + '"'
    return f"#{len(data)} {sum_of(data)}"


@lru_cache
def sum_of(data):
    """The sum of bytes: FNV-1a of 32 bits."""
    total = 0x811C9DC5
    for byte in data:
        total = (total ^ byte) * 0x01000193 & 0xFFFFFFFF
    return total


def or_dash(number):
    """A number, or a dash for none."""
    return "-" if number is None else number


class Files:
    """Calls and answers."""

    def __init__(self):
        self.mood = "default"
        self.calls = []

    def note(self, name, *words):
        """A call."""
        words = [quoted(word) if isinstance(word, bytes) else str(word) for word in words]
        self.calls.append(" ".join([name, *words]))

    def fail(self, has_default=False):
        """The error of the mood, if it has one."""
        if self.mood in ("failing", "wide_failing"):
            raise Errno(EIO if self.mood == "failing" else WIDE_ERROR)
        if self.mood == "default" and not has_default:
            raise Errno(ENOSYS)

    def is_wide(self):
        """Whether all bytes of a field are different."""
        return self.mood == "wide"

    def done(self, name, *words):
        """A call that answers nothing but that it is done."""
        self.note(name, *words)
        self.fail()

    def entry(self, name, *words):
        """A call that answers an entry and its attributes."""
        self.done(name, *words)
        if name == "lookup" and self.mood == "other":
            raise Errno(ENOENT)
        return self.good_entry()

    def good_entry(self):
        """An entry, and its attributes."""
        if self.is_wide():
            return WIDE_ENTRY, WIDE_ATTR
        return ENTRY | ({"nodeid": 0} if self.mood == "no_node" else {}), ATTR

    def attributes(self, name, *words):
        """A call that answers attributes, and how long they are valid."""
        entry, attr = self.entry(name, *words)
        return entry["attr_valid"], entry["attr_valid_nsec"], attr

    def opened(self, name, *words):
        """A call that answers a handle, 0 for none, and open flags."""
        self.note(name, *words)
        self.fail(name != "create")
        good = {"default": (0, 0), "other": (0, 2), "wide": (WIDE_HANDLE, WIDE_OPEN_FLAGS)}
        return good.get(self.mood, (0x66, 5))

    def create(self, *words):
        """An entry, and a handle with open flags."""
        opened = self.opened("create", *words)
        return self.good_entry(), opened

    def read(self, room, size, offset, *words):
        """The bytes of a file that the room takes."""
        self.done("read", *words)
        if self.mood == "other":
            raise Errno(EIO)
        most = min(size, room)
        return pattern(offset, most) if self.is_wide() else b"hello"[offset:][:most]

    def write(self, size, data, *words):
        """How many bytes were written."""
        self.done("write", *words, data[:size])
        return min(size, len(data))

    def count(self, name, *words):
        """A call that answers a number."""
        self.done(name, *words)
        if name == "lseek":
            return WIDE_OFFSET if self.is_wide() else 0x0102030405060708
        return WIDE_COUNT if self.is_wide() else 0x77

    def text(self, name, *words, size=None):
        """A call that answers bytes, or how many they are."""
        self.done(name, *words)
        if self.is_wide():
            return WIDE_COUNT if size == 0 else pattern(0, size or WIDE_LINK)
        if self.mood == "other" and name != "readlink":
            return 9
        return {"readlink": b"to", "getxattr": b"val", "listxattr": b"a\0b\0"}[name]

    def statfs(self, *words):
        """What there is."""
        self.note("statfs", *words)
        self.fail(True)
        if self.mood == "default":
            return {"bsize": 512, "namelen": 255}
        return WIDE_STATFS if self.is_wide() else STATFS

    def readdir(self, offset, *words):
        """The entries behind an offset."""
        self.done("readdir", *words)
        if self.is_wide():
            return wide_directory()[offset and (offset - WIDE_OFF) % 2**64:]
        return DIRECTORY[offset:]

    def init(self, capable):
        """The options that are wanted besides the server's own."""
        self.note("init", *[] if self.mood == "default" else [capable])
        self.fail(True)
        return 2**64 - 1 if self.mood in ("other", "wide") else 0

    def batch_forget(self, who, pairs):
        """Counts of many nodes."""
        if self.mood == "default":
            for pair in pairs:
                self.note("forget", *who, *pair)
        else:
            self.note("batch_forget", *who, *(number for pair in pairs for number in pair))
