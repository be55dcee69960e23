"""One request as it is read and answered, field by field and check by check. One of them may be
done wrongly."""

from records import RECORDS, cut

HEADER = 40

OPCODES = {
    1: "lookup", 2: "forget", 3: "getattr", 4: "setattr", 5: "readlink", 6: "symlink", 8: "mknod",
    9: "mkdir", 10: "unlink", 11: "rmdir", 12: "rename", 13: "link", 14: "open", 15: "read",
    16: "write", 17: "statfs", 18: "release", 20: "fsync", 21: "setxattr", 22: "getxattr",
    23: "listxattr", 24: "removexattr", 25: "flush", 26: "init", 27: "opendir", 28: "readdir",
    29: "releasedir", 30: "fsyncdir", 31: "getlk", 32: "setlk", 33: "setlkw", 34: "access",
    35: "create", 36: "interrupt", 37: "bmap", 38: "destroy", 39: "ioctl", 40: "poll",
    41: "notify_reply", 42: "batch_forget", 43: "fallocate", 44: "readdirplus", 45: "rename2",
    46: "lseek", 47: "copy_file_range", 48: "setup_mapping", 49: "remove_mapping", 50: "syncfs",
    51: "tmpfile"}


# What one function does for all requests, so that one request is enough to see it.
ALL = "any request"
SHARED = ("in_header.opcode", "out_header.error", "out_header.unique", "check of in_header's end",
    "check of the greatest length")
# The same of extensions. Whether a request reads them is seen by the label that has to be there.
SHARED += ("ext_header.", "secctx.", "supp_groups.", "check of a group", "check of a label",
    "check of an extension", "check of ext_header", "check of secctx", "check of supp_groups",
    "check of group", "check of the number of")


class Fault(Exception):
    """A request that has no reply: the fault's name, and its numbers."""


def name_of(request):
    """The name of a request by its opcode."""
    return OPCODES.get(int.from_bytes(request[4:8], "little"), "no opcode")


class Wrong:
    """One thing that a server does wrongly: a request's name, and a record's field with how many of
    its bits are left, or a set of bits with the one that is wrong, or a check."""

    def __init__(self, request, what, bits=None):
        self.request, self.what, self.bits = request, what, bits

    def __str__(self):
        how = "left out" if self.bits is None else f"cut to {self.bits} bits"
        if self.what.startswith("bits:"):
            how = f"with another bit {self.bits}"
        return f"{self.request} {self.what} {how}"


class Reading:
    """A request whose rest isn't read yet."""

    def __init__(self, server, request, room):
        self.server = server
        self.files = server.files
        self.rest = request
        self.room = room
        self.name = ALL
        self.head = self.call = None

    def is_wrong(self, what, request=None):
        """Whether this is the one thing that is done wrongly."""
        request = request or (ALL if what.startswith(SHARED) else self.name)
        self.server.met.add((request, what))
        wrong = self.server.wrong
        return wrong is not None and wrong.what == what and wrong.request == request

    def check(self, is_well, why, what):
        """Raises a refusal unless something is so."""
        is_left_out = self.is_wrong(f"check of {what}")
        if not is_well and not is_left_out:
            raise why

    def flipped(self, what, options):
        """Bits that have a meaning, of which one may be wrong."""
        return options ^ (1 << self.server.wrong.bits if self.is_wrong(what) else 0)

    def has(self, flags, bits, what):
        """Whether flags have one of these bits: 1 or 0."""
        return int(flags & self.flipped(f"bits: {what}", bits) != 0)

    def crooked(self, record, values, request=None):
        """Values, one of which may be cut."""
        for field in values:
            is_field = field in RECORDS[record].widths
            if is_field and self.is_wrong(f"{record}.{field}", request):
                values = values | {field: cut(values[field], self.server.wrong.bits)}
        return values

    def read(self, record):
        """The next record's fields."""
        data = self.take(RECORDS[record].size, record)
        return self.crooked(record, RECORDS[record].values(data))

    def take(self, count, what):
        """The next bytes."""
        self.check(len(self.rest) >= count, Fault("DecodeMessage"), f"{what}'s end")
        data, self.rest = self.rest[:count], self.rest[count:]
        return data + bytes(count - len(data))

    def counted(self, read):
        """The bytes that the header's length leaves, once so many were read behind it."""
        count = self.asked("len") - HEADER - read
        self.check(count >= 0, Fault("InvalidHeaderLength"), "the header's length")
        return self.take(max(0, count), "names")

    def packed(self, record, values):
        """The bytes of a record."""
        return RECORDS[record].bytes_of(self.crooked(record, values))

    def one_name(self, data):
        """The name that bytes are, which end with their only zero byte."""
        is_name = data.find(b"\0") == len(data) - 1 and data
        self.check(is_name, Fault("InvalidCString"), "a name's zero byte")
        return data.partition(b"\0")[0]

    def first_name(self, data):
        """A name, and what is behind its zero byte."""
        self.check(b"\0" in data, Fault("MissingParameter"), "the first name")
        name, _, rest = data.partition(b"\0")
        return name, rest

    def who(self):
        """User, group and process."""
        return [self.asked(name) for name in ("uid", "gid", "pid")]

    def asker(self):
        """The same, and the node."""
        return [*self.who(), self.asked("nodeid")]

    def asked(self, field, request=None):
        """A field of the header."""
        return self.crooked("in_header", {field: self.head[field]}, request)[field]
