"""Reads files of vectors/requests (vectors/README.md), and plays them."""

from dataclasses import dataclass, field, replace

from files import Files, pattern
from reading import Fault, name_of
from server import Server

WITH_ENTRY = ("lookup", "symlink", "mknod", "mkdir", "link", "create")
EIO, ENOSYS = 5, 38


@dataclass
class Row:
    """A request, and what results from it. `end` is the reply, or the fault's text."""

    line: int
    request: bytes
    files: str = "default"
    buffer: int = 0
    calls: list = field(default_factory=list)
    end: object = b""
    agreed: object = None

    def error(self, number):
        """The reply by an error alone."""
        head = (16).to_bytes(4, "little") + (-number).to_bytes(4, "little", signed=True)
        return head + self.request[8:16]

    def name(self):
        """The request's name."""
        return name_of(self.request)

    def has_entry(self):
        """Whether the reply begins with an entry."""
        is_good = isinstance(self.end, bytes) and self.end[4:8] == bytes(4)
        return is_good and self.name() in WITH_ENTRY

    def forgets(self):
        """The call that forgets the entry."""
        numbers = [self.request[at:at + 4] for at in (24, 28, 32)] + [self.end[16:24]]
        words = [str(int.from_bytes(number, "little")) for number in numbers]
        return " ".join(["forget", *words, "1"])

    def variant(self, name):
        """The row with a variant."""
        if name == "short_request":
            return replace(self, request=self.request[:-1], calls=[], end="DecodeMessage",
                agreed=None)
        if name == "short_buffer":
            calls = self.calls + ([self.forgets()] if self.has_entry() else [])
            return replace(self, buffer=self.buffer - 1, calls=calls, end="EncodeMessage")
        if name == "failing":
            return replace(self, files="failing", end=self.error(EIO), agreed=None)
        if name == "default":
            return replace(self, files="default", end=self.error(ENOSYS), agreed=None)
        return self


@dataclass
class Group:
    """A session."""

    options: int = 0
    pages: int = 4096
    variants: list = field(default_factory=lambda: ["as it is written"])
    rows: list = field(default_factory=list)


def spelled(lets, words):
    """The bytes that words spell."""
    data = b""
    for word in words.split():
        if word in lets:
            data += lets[word]
        elif word.startswith("@"):
            data += pattern(*(int(number) for number in word[1:].split(":")))
        else:
            digits, _, count = word.partition("*")
            data += bytes.fromhex(digits) * int(count or 1)
    return data


def statements(text):
    """The lines of a text, each with those that continue it, and their numbers."""
    found = []
    for number, line in enumerate(text.split("\n"), 1):
        if line.startswith("  ") and found:
            found[-1][1] += line[1:]
        else:
            found.append([number, line])
    return found


def read(text):
    """The groups of a file."""
    lets, groups = {}, []
    for number, line in statements(text):
        key, _, words = line.partition(" ")
        if key == "let":
            name, _, words = words.partition(" ")
            lets[name] = spelled(lets, words)
        elif key == "group":
            groups.append(Group())
        elif key in ("options", "pages"):
            setattr(groups[-1], key, int(words, 0))
        elif key == "variants":
            groups[-1].variants += words.split(" ")
        elif key == "request":
            groups[-1].rows.append(Row(number, spelled(lets, words)))
        elif key and key != "#":
            set_line(groups[-1].rows[-1], lets, key, words)
    return groups


def set_line(row, lets, key, words):
    """A line of a request."""
    if key == "call":
        row.calls.append(words)
    elif key in ("buffer", "agreed"):
        setattr(row, key, int(words, 0))
    elif key == "files":
        row.files = words
    else:
        row.end = {"reply": lambda: spelled(lets, words), "silent": lambda: b"",
            "fault": lambda: words}[key]()


def outcome(server, row):
    """The calls, the end and the options that a request leads to."""
    server.files.mood, server.files.calls = row.files, []
    try:
        end = server.serve(row.request, row.buffer)
    except Fault as fault:
        end = " ".join(str(part) for part in fault.args)
    return server.files.calls, end, server.options


def differences(group, wrong=None, met=None):
    """The requests of a group that a server serves otherwise, with the variant."""
    for variant in group.variants:
        server = Server(Files(), group.options, group.pages, wrong)
        for written in group.rows:
            row = written.variant(variant)
            calls, end, options = outcome(server, row)
            agreed = options if row.agreed is None else row.agreed
            if (calls, end, options) != (row.calls, row.end, agreed):
                yield row, variant, calls, end, options
        if met is not None:
            met |= server.met
