#!/usr/bin/env python3
"""rings.py FOLDER

Does one thing wrongly at a time in the plain machine of tools/fuzz. It reads or writes one field of
a descriptor or a ring wrongly (a value cut to its lowest 8, 16 or 32 bits, or to none), or leaves
out one check. It prints those that no script of the FOLDER (vectors/scripts) notices, and that
aren't explained here. The last line is `N passed, M failed`; the status is 1 if M isn't 0."""

import sys
from pathlib import Path

sys.path.append(str(Path(__file__).resolve().parents[1] / "fuzz"))
from machine import TooMuchWork, play  # pylint: disable=wrong-import-position

# The fields of VIRTIO 1.2, 2.7.5 to 2.7.8, with how many of their bits have a meaning.
FIELDS = {
    "desc.addr": 64, "desc.len": 32, "desc.flags": 3, "desc.next": 16,
    "avail.flags": 1, "avail.idx": 16, "avail.ring": 16, "used_event": 16,
    "used.idx": 16, "used.id": 16, "used.len": 32, "avail_event": 16,
}
CHECKS = [
    "NextOutOfTable", "TooLong", "AddressOverflow", "IndirectWithNext", "IndirectNested",
    "IndirectLength 0", "IndirectLength", "AddressOverflow of a table", "OverLimit of a request",
    "OverLimit of a room", "Stopped", "AvailTooFar", "HeadOutOfTable", "AvailFlagsUnreachable",
    "used_event unreachable", "avail_event unreachable",
]
# A reply of more than 65535 bytes is none of the script's file system, whose file has at most 4096.
# The runners of vectors/requests compare the used element, of READs of a mebibyte too.
EXPLAINED = {("used.len", 16)}
# So much work a script takes of the plain machine at most, unless a check is left out.
WORK = 300_000


def outputs(script, wrong=None):
    """What a script prints, on one of the two devices; nothing if it takes too long."""
    try:
        return [printed for printed, _ in play(script, WORK, wrong)[0].values()]
    except TooMuchWork:
        return []


def main(arguments):
    """Tries all."""
    paths = sorted(Path(arguments[0]).glob("*.fs"), key=lambda path: path.stat().st_size)
    scripts = [(path.read_bytes(), path.with_suffix(".out").read_bytes()) for path in paths]
    failed = 0
    for path, (script, wanted) in zip(paths, scripts):
        if wanted not in outputs(script):
            print(f"FAILED: the plain machine plays {path} otherwise")
            failed += 1
    tried = [(field, bits) for field, width in FIELDS.items() for bits in (0, 8, 16, 32)
        if bits < width]
    tried += [(check, None) for check in CHECKS]
    for wrong in tried:
        is_noticed = any(wanted not in outputs(script, wrong) for script, wanted in scripts)
        if not is_noticed and wrong not in EXPLAINED:
            how = "left out" if wrong[1] is None else f"cut to {wrong[1]} bits"
            print(f"FAILED: no script notices: {wrong[0]} {how}")
            failed += 1
    print(f"{len(scripts) + len(tried) - failed} passed, {failed} failed")
    return 1 if failed else 0


if __name__ == "__main__":
    sys.exit(main(sys.argv[1:]))
