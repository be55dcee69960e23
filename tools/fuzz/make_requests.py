"""Requests for the fuzzer: mostly well made, of all opcodes, with fields drawn by chance."""

import struct

from reading import OPCODES
from records import RECORDS

BOUNDARIES = [0, 1, 2, 3, 4, 5, 7, 8, 15, 16, 17, 31, 32, 33, 63, 64, 127, 128, 255, 256, 4095,
    4096, 4097, 65535, 65536]
GREAT = [0x100000, 0x100001, 0x101000, 0x101001, 2**31, 2**32 - 1, 2**63 - 1, 2**63, 2**64 - 4096,
    2**64 - 2, 2**64 - 1]

SIZES = [0, 1, 3, 5, 16, 31, 32, 33, 63, 64, 65, 159, 160, 161, 319, 320, 321, 1000, 4096,
    0x100000, 0x100001]

# The records of requests whose name isn't theirs.
RECORD_OF = {
    "readdir": "read", "readdirplus": "read", "opendir": "open", "releasedir": "release",
    "fsyncdir": "fsync", "listxattr": "getxattr",
}
# Behind the record: the number of names, and whether extensions may follow.
NAMED = {
    "lookup": 1, "unlink": 1, "rmdir": 1, "removexattr": 1, "link": 1, "getxattr": 1, "rename": 2,
    "rename2": 2,
    "symlink": 2, "mknod": 1, "mkdir": 1, "create": 1,
}
EXTENDED = {"symlink", "mknod", "mkdir", "create"}
# How many bytes a good reply has, where that doesn't hang on the request.
REPLY_LENGTH = {
    "lookup": 144, "getattr": 120, "open": 32, "opendir": 32, "statfs": 96, "init": 80, "write": 24,
    "forget": 0,
    "batch_forget": 0, "interrupt": 0, "destroy": 0,
}
# What the file system does most with is asked most often.
FAVOURITES = ["lookup", "forget", "getattr", "read", "write", "readdir", "readdirplus", "init",
    "batch_forget"]


# An INIT that agrees on groups of a request.
INIT = struct.pack("<IIQQIIIHHIIIII44s", 104, 26, 1, 0, 0, 0, 0, 0, 0, 7, 38, 0x20000,
    0x7BFFFFFB, 0xF, b"")


def number(rng, width=8):
    """A number of so many bytes: small, near a boundary, or any."""
    kind = rng.random()
    if kind < 0.5:
        value = rng.choice(BOUNDARIES)
    elif kind < 0.65:
        value = rng.choice(GREAT) + rng.randint(-1, 1)
    else:
        value = rng.getrandbits(rng.randint(1, 8 * width))
    return value % (1 << 8 * width)


def name(rng):
    """A name with its zero byte, mostly."""
    text = rng.choice([b"a", b"a", b"a", b".", b"..", b"b", b"aa", b"", b"user.x",
        b"0123456789abcdef", b"0123456789abcdefg"])
    if rng.random() < 0.08:
        text = rng.randbytes(rng.randint(1, 40))
    return text if rng.random() < 0.09 else text + b"\0"


def extensions(rng):
    """Extensions: groups, security contexts, and what is neither."""
    data = b""
    for _ in range(rng.choice([0, 1, 1, 1, 2, 3])):
        kind = rng.choice([32, 32, 32, 0, 1, 2, 31, 33, rng.getrandbits(32)])
        body = struct.pack("<II", rng.choice([1, 1, 1, 0, 2]),
            number(rng, 4)) + rng.randbytes(rng.choice([0, 0, 0, 4, 8]))
        if kind < 32 and rng.random() < 0.8:
            body = struct.pack("<II", rng.choice([3, 3, 0, 9]), 0) + b"security.x\0abc"
        if rng.random() < 0.1:
            body = body[:rng.randint(0, len(body))]
        size = 8 + len(body)
        if rng.random() < 0.1:
            size = rng.choice([0, 7, 8, size - 1, size + 1, number(rng, 4)])
        data += struct.pack("<II", size % 2**32, kind) + body
    return data if rng.random() < 0.9 else data + rng.randbytes(rng.randint(1, 9))


def fields(rng, record):
    """A record's fields, by chance."""
    return [number(rng, width // 8) for width in RECORDS[record].widths.values()]


def packed(record, values):
    """A record's bytes."""
    return RECORDS[record].packer.pack(*values)


def read_fields(rng):
    """The fields of READ and its like, mostly near what the file and the directory hold."""
    values = fields(rng, "read_in")
    if rng.random() < 0.85:
        values[1] = rng.choice([0, 0, 0, 1, 2, 3, 4, 5, 6, 4095, 4096, 4097])
    if rng.random() < 0.85:
        values[2] = rng.choice(SIZES)
    return values


def write_body(rng):
    """The body of WRITE, with its data."""
    data = rng.randbytes(rng.choice([0, 1, 2, 5, 16, 100, 300, 1000]))
    values = fields(rng, "write_in")
    if rng.random() < 0.9:
        values[1] = rng.choice([0, 0, 1, 4, 5, 6, 10, 100, 4000, 4095, 4096, 4097])
        values[2] = rng.choice([len(data)] * 5
            + [0, len(data) + 1, max(0, len(data) - 1), 4096, 4095])
    return packed("write_in", values) + data


def init_body(rng):
    """The body of INIT, mostly of a client that there is."""
    major = rng.choice([7] * 8 + [0, 6, 8, number(rng, 4)])
    minor = rng.choice([38] * 5 + [31, 27, 26, 0, number(rng, 4)])
    flags = rng.choice([0x7BFFFFFB, 1 << 30, 0, 2**32 - 1, rng.getrandbits(32),
        rng.getrandbits(32) | 1 << 30])
    body = struct.pack("<IIII", major, minor, number(rng, 4), flags)
    if flags >> 30 & 1 or rng.random() < 0.2:
        body += struct.pack("<I44s",
            rng.choice([4, 4, 0xB, 0, 0x104, 2**32 - 1, rng.getrandbits(32)]), b"")
    return body


def batch_body(rng):
    """The body of BATCH_FORGET."""
    count = rng.choice([0, 1, 2, 3, 5, 63, 64, 65, 66, 90])
    ones = b"".join(struct.pack("<QQ", rng.choice([1, 2, number(rng)]), number(rng))
        for _ in range(count))
    told = count if rng.random() < 0.85 else rng.choice([count + 1, max(0, count - 1), 65536, 65537,
        number(rng, 4)])
    return struct.pack("<II", told % 2**32, 0) + ones


def setxattr_body(rng):
    """The body of SETXATTR."""
    value = rng.randbytes(rng.choice([0, 1, 4, 20]))
    told = len(value) if rng.random() < 0.6 else rng.choice([len(value) + 1, 0, number(rng, 4)])
    return struct.pack("<II", told, number(rng, 4)) + name(rng) + value


def body(rng, kind):
    """The bytes behind the header."""
    special = {"write": write_body, "init": init_body, "batch_forget": batch_body,
        "setxattr": setxattr_body}
    if kind in special:
        return special[kind](rng)
    record = RECORD_OF.get(kind, kind) + "_in"
    data = b""
    if record == "read_in":
        data = packed(record, read_fields(rng))
    elif record in RECORDS:
        data = packed(record, fields(rng, record))
        if record == "getxattr_in" and rng.random() < 0.8:
            data = struct.pack("<II", rng.choice([0, 5, 0x100000, 0x100001]), 0)
    elif kind not in NAMED:
        data = rng.randbytes(rng.choice([0, 0, 8, 24]))
    data += b"".join(name(rng) for _ in range(NAMED.get(kind, 0)))
    return data + extensions(rng) if kind in EXTENDED and rng.random() < 0.6 else data


def asked(rng, session):
    """An opcode: any, or one of those that are wanted most."""
    if session and rng.random() < 0.3:
        return rng.choice([number for number, kind in OPCODES.items() if kind in EXTENDED])
    if rng.random() < 0.45:
        return rng.choice([number for number, kind in OPCODES.items() if kind in FAVOURITES])
    return rng.choice(list(OPCODES))


def header(rng, length, opcode, node):
    """A request's header."""
    ids = [number(rng, 4) for _ in range(3)]
    return struct.pack("<IIQQIIIHH", length % 2**32, opcode, number(rng), node, *ids,
        number(rng, 2), 0)


def reply_length(kind, data):
    """How many bytes a good reply to a request's body has."""
    if kind in ("read", "readdir", "readdirplus"):
        return 16 + min(int.from_bytes(data[16:20], "little"), 5000)
    return REPLY_LENGTH.get(kind, 16)


def good_request(rng):
    """A request whose header is right, about a node that is there, and how many bytes its reply
    would have."""
    opcode = rng.choice(list(OPCODES))
    kind = OPCODES[opcode]
    data = body(rng, kind)
    node = 2 if kind in ("read", "write") else rng.choice([1, 1, 2])
    return header(rng, 40 + len(data), opcode, node) + data, reply_length(kind, data)


def request(rng, session=False):
    """A request's bytes, and how many its reply would have. In a session extensions are read."""
    opcode = asked(rng, session)
    kind = OPCODES[opcode]
    data = body(rng, kind)
    wanted = reply_length(kind, data)
    length = 40 + len(data)
    if rng.random() < 0.1:
        near = [length - 1, length + 1, length - 8, length + 8, length + 0x10000, length + 0x20000]
        length = rng.choice([0, 39, 40, 47, 48, 55, 56, *near, 0x101000, 0x101001, number(rng, 4)])
    if rng.random() < 0.04:
        opcode = rng.choice([0, 7, 19, 52, 4096, number(rng, 4)])
    node = rng.choice([1, 1, 1, 2, 2, 2, 0, 3, number(rng)])
    if kind in ("read", "write") and rng.random() < 0.8:
        node = 2
    data = header(rng, length, opcode, node) + data
    if rng.random() < 0.05:
        data = data[:rng.randint(0, len(data))]
    if rng.random() < 0.08:
        data += rng.randbytes(rng.randint(1, 40))
    return data, wanted


def room_length(rng, wanted):
    """The length of a room: just enough, a byte too few, more, or anything."""
    lengths = [wanted] * 5 + [wanted + rng.randint(0, 300)] * 3 + [wanted - 1, wanted + 1, 144, 0,
        15, 16, 17]
    return max(0, rng.choice([*lengths, rng.randint(0, 400)]))
