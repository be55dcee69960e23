"""The script program's file system: the root, node 1, and its file `a`, node 2."""

from files import ENOENT, Errno, Files

EFBIG = 27
GREATEST_FILE = 4096
# The calls that are printed (vectors/SCRIPT.md), and how many words of each: after user, group and
# process come its node, and a name or a count. Other calls are answered as in the mood `default`.
PRINTED = {"init": 0, "lookup": 2, "forget": 2, "getattr": 1, "read": 1, "write": 1, "readdir": 1}


class ScriptFiles(Files):
    """Calls and answers."""

    def __init__(self):
        super().__init__()
        self.contents = bytearray(b"hello")

    def note(self, name, *words):
        """A call, if it is one that is printed."""
        if name in PRINTED:
            words = [word[:16].hex() if isinstance(word, bytes) else str(word)
                for word in words[3:3 + PRINTED[name]]]
            self.calls.append(" ".join([name, *words]))

    def about(self, wanted, name, *words):
        """A call about one of the wanted nodes, which it returns."""
        self.note(name, *words)
        if words[3] not in wanted:
            raise Errno(ENOENT)
        return words[3]

    def entry(self, name, *words):
        """A node with its attributes."""
        if name not in PRINTED:
            self.fail()
        node = self.about((1,) if name == "lookup" else (1, 2), name, *words)
        if name == "lookup" and words[4] != b"a":
            raise Errno(ENOENT)
        node = 2 if name == "lookup" else node
        attr = {"ino": node, "mode": 0o40755, "nlink": 2, "blksize": 4096}
        if node == 2:
            attr |= {"size": len(self.contents), "mode": 0o100644, "nlink": 1}
        return {"nodeid": node, "entry_valid": 1, "attr_valid": 1, "attr_valid_nsec": 0}, attr

    def read(self, room, size, offset, *words):
        """The bytes of the file that the room takes."""
        self.about((2,), "read", *words)
        return bytes(self.contents[offset:offset + min(size, room)])

    def write(self, size, data, *words):
        """How many bytes were written."""
        self.about((2,), "write", *words)
        offset = words[6]
        if offset + size > GREATEST_FILE:
            raise Errno(EFBIG)
        taken = data[:size]
        if taken:
            self.contents.extend(bytes(max(0, offset + len(taken) - len(self.contents))))
            self.contents[offset:offset + len(taken)] = taken
        return len(taken)

    def readdir(self, offset, *words):
        """The entries behind an offset: inode, offset behind it, type, name."""
        self.about((1,), "readdir", *words)
        return [entry for entry in [(1, 1, 4, b"."), (2, 2, 8, b"a")] if entry[1] > offset]
