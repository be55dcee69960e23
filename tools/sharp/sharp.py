#!/usr/bin/env python3
"""sharp.py FILE..

Does one thing wrongly at a time in the plain server (tools/fuzz/server.py). It reads or writes one
field wrongly (a value cut to its lowest 8, 16 or 32 bits, or to none), flips one bit of the flags
that have a meaning or of the options that it agrees on by itself, or leaves out one check. It
prints those that no request of the FILEs (vectors/requests) notices and that aren't explained here.
The last line is `N passed, M failed`; the status is 1 if M isn't 0."""

# pylint: disable=wrong-import-position
import sys
from pathlib import Path

sys.path.append(str(Path(__file__).resolve().parents[1] / "fuzz"))
from reading import ALL, OPCODES, Wrong
from records import RECORDS, UNUSED
from rows import differences, read
from server import KNOWN

# So many bits of a field have a meaning, so the others needn't be seen.
MEANT = {
    "getattr_in.getattr_flags": 1, "open_in.open_flags": 1, "create_in.open_flags": 1,
    "release_in.release_flags": 2, "read_in.read_flags": 2, "write_in.write_flags": 3,
    "fsync_in.fsync_flags": 1, "rename2_in.flags": 3, "setxattr_in.setxattr_flags": 1,
    "init_in_ext.flags2": 9, "init_out.flags2": 9,  # FUSE_ALLOW_IDMAP is bit 40
    "init_out.major": 8, "init_out.minor": 8, "init_out.time_gran": 8,  # 7, 38 and 1
    "dirent.namelen": 8,  # a name has at most 255 bytes
    "dirent.type": 4,  # DT_ of dirent.h
    "out_header.error": 12,  # an errno is at most 4095
    "out_header.len": 8,  # the longest reply without data has 176 bytes
}
# Replies with data: so many bits of their length have a meaning. A list of 64 KiB isn't played: a
# list's length is made by the function that makes READ's.
DATA = {"read": 32, "getxattr": 32, "listxattr": 32, "readlink": 13, "readdir": 16,
    "readdirplus": 16}
# Fields of a record that some of its requests don't use.
UNREAD = {
    "opendir": ["open_flags"], "releasedir": ["release_flags", "lock_owner"],
    "readdir": ["read_flags", "lock_owner", "flags"],
    "readdirplus": ["read_flags", "lock_owner", "flags"],
}
# Checks behind which another one refuses the same requests by the same fault.
EXPLAINED = {
    # The room has 16 bytes, and the data is what they leave.
    "read check of the reply's room left out",
    # Then the second name is missing, too.
    "symlink check of name 1 left out",
    # Then the value is cut off.
    "any request check of a label's zero byte left out",
    # Then it is a number of labels that isn't 1.
    "any request check of an extension's type left out",
    # Then the group is cut off.
    "any request check of supp_groups's end left out",
}


def wrongs(met):
    """Each thing that a server may do wrongly, of those that requests met."""
    for request, what in sorted(met):
        record, _, field = what.partition(".")
        if what.startswith("bits:"):
            # What the server wants of options that there aren't has no meaning.
            width = 64 if request == "init" else 32
            bits = KNOWN if what.endswith("of its own") else 2**width - 1
            yield from (Wrong(request, what, bit) for bit in range(64) if bits >> bit & 1)
        elif record not in RECORDS:
            yield Wrong(request, what)
        elif field not in UNUSED and field not in UNREAD.get(request, []):
            meant = DATA.get(request) if what == "out_header.len" else None
            width = min(RECORDS[record].widths[field], meant or MEANT.get(what, 64))
            yield from (Wrong(request, what, bits) for bits in (0, 8, 16, 32) if bits < width)


def is_noticed(wrong, groups):
    """Whether a request of the groups is served otherwise."""
    for group in groups:
        if wrong.request == ALL or any(row.name() == wrong.request for row in group.rows):
            if next(differences(group, wrong), None) is not None:
                return True
    return False


def weight(group):
    """How long a group's requests and buffers are: short ones are tried first."""
    return sum(len(row.request) + row.buffer for row in group.rows) * len(group.variants)


def main(paths):
    """Tries all."""
    groups = [group for path in paths for group in read(Path(path).read_text())]
    groups.sort(key=weight)
    met, failed = set(), 0
    for group in groups:
        for row, variant, *found in differences(group, met=met):
            print(f"FAILED: line {row.line}, {variant}: {found} in place of {row}")
            failed += 1
    tried = list(wrongs(met))
    for wrong in tried:
        if not is_noticed(wrong, groups) and str(wrong) not in EXPLAINED:
            print(f"FAILED: no request notices: {wrong}")
            failed += 1
    for name in sorted(set(OPCODES.values()) - {row.name() for it in groups for row in it.rows}):
        print(f"FAILED: there is no request {name}")
        failed += 1
    print(f"{len(tried) - failed} passed, {failed} failed")
    return 1 if failed else 0


if __name__ == "__main__":
    sys.exit(main(sys.argv[1:]))
