"""The records of `linux/fuse.h` that a server reads and writes, field by field, and the wrong
readings of a field."""

import struct

# q has 8 bytes, d 4, w 2, i 4 with a sign.
FIELDS = {
    "in_header": "d len opcode; q unique nodeid; d uid gid pid; w total_extlen padding",
    "out_header": "d len; i error; q unique",
    "attr": "q ino size blocks atime mtime ctime; d atimensec mtimensec ctimensec mode nlink uid "
            "gid rdev blksize flags",
    "kstatfs": "q blocks bfree bavail files ffree; d bsize namelen frsize",
    "entry_out": "q nodeid generation entry_valid attr_valid; d entry_valid_nsec attr_valid_nsec",
    "attr_out": "q attr_valid; d attr_valid_nsec dummy",
    "forget_in": "q nlookup",
    "forget_one": "q nodeid nlookup",
    "batch_forget_in": "d count dummy",
    "getattr_in": "d getattr_flags dummy; q fh",
    "setattr_in": "d valid padding; q fh size lock_owner atime mtime ctime; d atimensec mtimensec "
                  "ctimensec mode unused4 uid gid unused5",
    "mknod_in": "d mode rdev umask padding",
    "mkdir_in": "d mode umask",
    "rename_in": "q newdir",
    "rename2_in": "q newdir; d flags padding",
    "link_in": "q oldnodeid",
    "open_in": "d flags open_flags",
    "create_in": "d flags mode umask open_flags",
    "open_out": "q fh; d open_flags padding",
    "release_in": "q fh; d flags release_flags; q lock_owner",
    "flush_in": "q fh; d unused padding; q lock_owner",
    "read_in": "q fh offset; d size read_flags; q lock_owner; d flags padding",
    "write_in": "q fh offset; d size write_flags; q lock_owner; d flags padding",
    "write_out": "d size padding",
    "fsync_in": "q fh; d fsync_flags padding",
    "setxattr_in": "d size flags setxattr_flags padding",
    "setxattr_in_compat": "d size flags",
    "getxattr_in": "d size padding",
    "getxattr_out": "d size padding",
    "access_in": "d mask padding",
    "init_in": "d major minor max_readahead flags",
    "init_in_ext": "d flags2",
    "init_out": "d major minor max_readahead flags; w max_background congestion_threshold; "
                "d max_write time_gran; w max_pages map_alignment; d flags2",
    "fallocate_in": "q fh offset length; d mode padding",
    "dirent": "q ino off; d namelen type",
    "lseek_in": "q fh offset; d whence padding",
    "lseek_out": "q offset",
    "copy_file_range_in": "q fh_in off_in nodeid_out fh_out off_out len flags",
    "ext_header": "d size type",
    "secctx": "d size padding",
    "secctx_header": "d size nr_secctx",
    "supp_groups": "d nr_groups",
    "group": "d gid",
}
# Bytes behind the fields, which aren't used.
SPARE = {"kstatfs": 28, "init_in_ext": 44, "init_out": 28}
# Fields that have no meaning.
UNUSED = {"padding", "dummy", "unused", "unused4", "unused5", "total_extlen", "map_alignment"}
LETTERS = {"q": ("Q", 64), "d": ("I", 32), "w": ("H", 16), "i": ("i", 32)}


class Record:
    """A record: its fields with their widths in bits, and its bytes."""

    def __init__(self, name, text):
        self.name = name
        self.widths = {}
        letters = ""
        for part in text.split(";"):
            letter, *names = part.split()
            letters += LETTERS[letter][0] * len(names)
            self.widths |= dict.fromkeys(names, LETTERS[letter][1])
        self.packer = struct.Struct(f"<{letters}{SPARE.get(name, 0)}x")
        self.size = self.packer.size

    def values(self, data):
        """The values of a record's bytes, by field."""
        return dict(zip(self.widths, self.packer.unpack(data)))

    def bytes_of(self, values):
        """The bytes of a record; a field that isn't given is 0."""
        return self.packer.pack(*(values.get(name, 0) for name in self.widths))

    def wrong(self):
        """Each wrong reading: a field, and how many of its bits are left."""
        for field, width in self.widths.items():
            if field not in UNUSED:
                yield from ((field, bits) for bits in (0, 8, 16, 32) if bits < width)


RECORDS = {name: Record(name, text) for name, text in FIELDS.items()}


def cut(value, bits):
    """The lowest bits of a value; a negative one stays negative where it can."""
    low = abs(value) & (1 << bits) - 1
    return -low if value < 0 else low
