"""A FUSE server after virtiofsd's grammar, for the vectors' file system and the script program's.
It shares nothing with those that it is compared with. It can read or write one field wrongly, or
leave out one check."""

from files import Errno
from reading import ALL, OPCODES, Fault, Reading, name_of
from records import RECORDS

LARGEST_LENGTH, LARGEST_BUFFER = 0x101000, 1 << 20
EIO, ENOMEM, ENOSYS, EPROTO = 5, 12, 38, 71
# Options by their bits, and those that a server wants by itself.
KNOWN = sum(1 << bit for bit in [*range(0, 26), *range(27, 35), 36, 40])
WANTED = sum(1 << bit for bit in [0, 3, 5, 11, 12, 15, 18, 22, 27, 30, 34, 40])
INIT_EXT, SETXATTR_EXT, SECURITY_CTX, CREATE_SUPP_GROUP = (1 << bit for bit in (30, 29, 32, 34))
SETATTR_BITS = sum(1 << bit for bit in [0, 1, 2, 3, 4, 5, 7, 8, 10, 11])
FATTR_FH = 1 << 6
# Calls that are passed some fields of a record, and have an empty reply.
PASSED = {
    "access": ("access_in", "mask"), "releasedir": ("release_in", "flags", "fh"),
    "flush": ("flush_in", "fh", "lock_owner"),
    "fallocate": ("fallocate_in", "fh", "mode", "offset", "length"),
}


class Server:
    """Answers one request after another."""

    def __init__(self, files, options=0, page_size=4096, wrong=None):
        self.files = files
        self.options = options
        self.page_size = page_size
        self.wrong = wrong
        # The fields and the checks that were met, by the request's name.
        self.met = set()

    def serve(self, request, room):
        """The reply's bytes, none for silence. A fault is raised."""
        return Request(self, request, room).serve()


class Request(Reading):
    """Serves one request."""

    def serve(self):
        """The reply."""
        self.name = name_of(self.rest)
        head = RECORDS["in_header"]
        self.head = head.values(self.take(head.size, "in_header"))
        try:
            length, opcode = self.asked("len", ALL), self.asked("opcode")
            self.check(length <= LARGEST_LENGTH, Errno(ENOMEM), "the greatest length")
            if opcode not in OPCODES:
                raise Errno(ENOSYS)
            self.call = OPCODES[opcode]
            body, number = getattr(self, "do_" + self.call)(), 0
        except Errno as error:
            body, number = b"", -error.number
        return b"" if body is None else self.reply(number, body)

    def reply(self, number, body):
        """A reply, which has to fit."""
        values = {"len": 16 + len(body), "error": number, "unique": self.asked("unique")}
        reply = self.packed("out_header", values) + body
        self.check(len(reply) <= self.room, Fault("EncodeMessage"), "the reply's room")
        return reply

    # What replies have.

    def entry(self, answer):
        """An entry's bytes. Its node is forgotten if the reply doesn't fit."""
        entry, attr = answer
        return self.packed("entry_out", entry) + self.packed("attr", attr)

    def new_entry(self, answer, behind=b""):
        """A reply that begins with an entry."""
        body = self.entry(answer) + behind
        if 16 + len(body) > self.room and not self.is_wrong("check of the entry's room"):
            self.forget_entry(answer[0])
        return body

    def forget_entry(self, entry):
        """The node of an entry is forgotten."""
        node = self.crooked("entry_out", {"nodeid": entry["nodeid"]})["nodeid"]
        self.files.note("forget", *self.who(), node, 1)

    def attributes(self, answer):
        """Attributes' bytes."""
        seconds, nanoseconds, attr = answer
        valid = {"attr_valid": seconds, "attr_valid_nsec": nanoseconds}
        return self.packed("attr_out", valid) + self.packed("attr", attr)

    def opened(self, answer):
        """A handle's bytes."""
        return self.packed("open_out", dict(zip(("fh", "open_flags"), answer)))

    # Names.

    def do_lookup(self):
        """LOOKUP"""
        name = self.one_name(self.counted(0))
        return self.new_entry(self.files.entry("lookup", *self.asker(), name))

    def do_unlink(self):
        """UNLINK, RMDIR, REMOVEXATTR"""
        name = self.one_name(self.counted(0))
        self.files.done(self.call, *self.asker(), name)
        return b""

    do_rmdir = do_removexattr = do_unlink

    def do_link(self):
        """LINK"""
        old = self.read("link_in")["oldnodeid"]
        name = self.one_name(self.counted(8))
        words = [*self.who(), old, self.asked("nodeid"), name]
        return self.new_entry(self.files.entry("link", *words))

    def do_rename(self):
        """RENAME, RENAME2"""
        record = self.call + "_in"
        values = self.read(record)
        old, rest = self.first_name(self.counted(RECORDS[record].size))
        new = self.one_name(rest)
        flags = values["flags"] & self.flipped("bits: flags", 7) if "flags" in values else 0
        words = [*self.asker(), values["newdir"], flags, old, new]
        self.files.done("rename", *words)
        return b""

    do_rename2 = do_rename

    # New nodes.

    def made(self, record, count):
        """The record, the names behind it, and the words of the extensions."""
        values = self.read(record) if record else {}
        data = self.counted(RECORDS[record].size if record else 0)
        names = []
        for _ in range(count):
            self.check(data, Fault("MissingParameter"), f"name {len(names) + 1}")
            name, zero, data = data.partition(b"\0")
            names.append(name + zero)
        extensions = self.extensions(data)
        for name in names:
            self.check(name[-1:] == b"\0", Fault("InvalidCString"), "a name's zero byte")
        return values, [name.rstrip(b"\0") for name in names], extensions

    def do_symlink(self):
        """SYMLINK"""
        _, (name, link), extensions = self.made(None, 2)
        words = [*self.asker(), link, name, *extensions]
        return self.new_entry(self.files.entry("symlink", *words))

    def do_mknod(self):
        """MKNOD, MKDIR"""
        values, (name,), extensions = self.made(self.call + "_in", 1)
        values.pop("padding", None)
        words = [*self.asker(), *values.values(), name, *extensions]
        return self.new_entry(self.files.entry(self.call, *words))

    do_mkdir = do_mknod

    def do_create(self):
        """CREATE"""
        values, (name,), extensions = self.made("create_in", 1)
        kill = self.has(values["open_flags"], 1, "kill")
        numbers = [values["mode"], kill, values["flags"], values["umask"]]
        answer = self.files.create(*self.asker(), *numbers, name, *extensions)
        return self.new_entry(answer[0], self.opened(answer[1]))

    def extensions(self, data):
        """The group, and the name and the value of a label."""
        if not self.server.options & (SECURITY_CTX | CREATE_SUPP_GROUP):
            return ["-"]
        group, label, has_label = None, [], False
        before, self.rest = self.rest, data
        while self.rest:
            kind, body = self.extension()
            if kind == 32:
                self.agreed(CREATE_SUPP_GROUP, group is not None, "a group")
                group = self.group(body)
            else:
                self.agreed(SECURITY_CTX, has_label, "a label")
                label, has_label = self.label(kind, body), True
        self.rest = before
        is_lacking = self.server.options & SECURITY_CTX and not has_label
        self.check(not is_lacking, Fault("MissingExtension"), "the label that has to be there")
        return ["-" if group is None else group, *label]

    def extension(self):
        """The next extension's kind and body."""
        head = self.read("ext_header")
        self.check(head["size"] >= 8, Fault("InvalidHeaderLength"), "an extension's size")
        body = self.take(max(0, head["size"] - 8), "an extension's body")
        self.check(head["type"] <= 32, Fault("DecodeMessage"), "an extension's type")
        return head["type"], body

    def agreed(self, option, is_there, what):
        """An extension has to be agreed on, and to be the first of its kind."""
        self.check(self.server.options & option, Fault("DecodeMessage"), f"{what} without option")
        self.check(not is_there, Fault("DecodeMessage"), f"{what} more")

    def inside(self, body):
        """A reader of an extension's body alone."""
        part = Request(self.server, body, 0)
        part.name = self.name
        return part

    def group(self, body):
        """The group of an extension."""
        part = self.inside(body)
        count = part.read("supp_groups")["nr_groups"]
        self.check(count == 1, Fault("DecodeMessage"), "the number of groups")
        return part.read("group")["gid"]

    def label(self, count, body):
        """The name and the value of a label, or nothing for none."""
        if count == 0:
            return []
        self.check(count == 1, Fault("DecodeMessage"), "the number of labels")
        part = self.inside(body)
        size = part.read("secctx")["size"]
        self.check(size, Fault("DecodeMessage"), "a label's size")
        self.check(part.rest, Fault("MissingParameter"), "a label's name")
        self.check(b"\0" in part.rest, Fault("DecodeMessage"), "a label's zero byte")
        name, _, part.rest = part.rest.partition(b"\0")
        return [name, part.take(size, "a label")]

    # Attributes.

    def do_getattr(self):
        """GETATTR"""
        values = self.read("getattr_in")
        handle = values["fh"] if self.has(values["getattr_flags"], 1, "handle") else "-"
        return self.attributes(self.files.attributes("getattr", *self.asker(), handle))

    def do_setattr(self):
        """SETATTR"""
        values = self.read("setattr_in")
        valid = values["valid"]
        handle = values["fh"] if self.has(valid, FATTR_FH, "handle") else "-"
        fields = [name for name in values if name not in ("padding", "unused4", "unused5")]
        known = valid & self.flipped("bits: valid", SETATTR_BITS)
        words = [handle, known, *(values[name] for name in fields)]
        return self.attributes(self.files.attributes("setattr", *self.asker(), *words))

    def do_access(self):
        """ACCESS, RELEASEDIR, FLUSH, FALLOCATE"""
        record, *fields = PASSED[self.call]
        values = self.read(record)
        self.files.done(self.call, *self.asker(), *(values[field] for field in fields))
        return b""

    do_releasedir = do_flush = do_fallocate = do_access

    # Extended attributes, links, the file system.

    def do_setxattr(self):
        """SETXATTR"""
        is_long = self.server.options & SETXATTR_EXT
        record = "setxattr_in" if is_long else "setxattr_in_compat"
        values = self.read(record)
        name, value = self.first_name(self.counted(RECORDS[record].size))
        why = Fault("InvalidXattrSize", values["size"], len(value))
        self.check(len(value) == values["size"], why, "the value's size")
        known = values.get("setxattr_flags", 0) & self.flipped("bits: setxattr_flags", 1)
        flags = [values["flags"], known]
        self.files.done("setxattr", *self.asker(), *flags, name, value)
        return b""

    def do_getxattr(self):
        """GETXATTR, LISTXATTR"""
        size = self.read("getxattr_in")["size"]
        data = [self.counted(8)] if self.call == "getxattr" else []
        self.check(size <= LARGEST_BUFFER, Errno(ENOMEM), "the size")
        names = [self.one_name(name) for name in data]
        answer = self.files.text(self.call, *self.asker(), size, *names, size=size)
        if isinstance(answer, int):
            return self.packed("getxattr_out", {"size": answer})
        return answer

    do_listxattr = do_getxattr

    def do_readlink(self):
        """READLINK"""
        return self.files.text("readlink", *self.asker())

    def do_statfs(self):
        """STATFS"""
        return self.packed("kstatfs", self.files.statfs(*self.asker()))

    def do_syncfs(self):
        """SYNCFS"""
        self.files.done("syncfs", *self.asker())
        return b""

    # Open files.

    def do_open(self):
        """OPEN"""
        values = self.read("open_in")
        kill = self.has(values["open_flags"], 1, "kill")
        words = [*self.asker(), kill, values["flags"]]
        return self.opened(self.files.opened("open", *words))

    def do_opendir(self):
        """OPENDIR"""
        flags = self.read("open_in")["flags"]
        return self.opened(self.files.opened("opendir", *self.asker(), flags))

    def do_release(self):
        """RELEASE"""
        values = self.read("release_in")
        flags = values["release_flags"]
        owner = values["lock_owner"] if self.has(flags, 3, "owner") else "-"
        flush, unlock = self.has(flags, 1, "flush"), self.has(flags, 2, "unlock")
        words = [values["flags"], values["fh"], flush, unlock, owner]
        self.files.done("release", *self.asker(), *words)
        return b""

    def do_fsync(self):
        """FSYNC, FSYNCDIR"""
        values = self.read("fsync_in")
        data_only = self.has(values["fsync_flags"], 1, "data")
        self.files.done(self.call, *self.asker(), data_only, values["fh"])
        return b""

    do_fsyncdir = do_fsync

    def do_lseek(self):
        """LSEEK"""
        values = self.read("lseek_in")
        words = [values[name] for name in ("fh", "offset", "whence")]
        offset = self.files.count("lseek", *self.asker(), *words)
        return self.packed("lseek_out", {"offset": offset})

    def do_copy_file_range(self):
        """COPY_FILE_RANGE"""
        values = self.read("copy_file_range_in")
        count = self.files.count("copy_file_range", *self.asker(), *values.values())
        return self.packed("write_out", {"size": count})

    # Data.

    def do_read(self):
        """READ"""
        values = self.read("read_in")
        self.check(self.room >= 16, Fault("EncodeMessage"), "the room for a header")
        owner = values["lock_owner"] if self.has(values["read_flags"], 2, "owner") else "-"
        words = [values["fh"], values["size"], values["offset"], owner, values["flags"]]
        return self.files.read(max(0, self.room - 16), values["size"], values["offset"],
            *self.asker(), *words)

    def do_write(self):
        """WRITE"""
        values = self.read("write_in")
        flags = values["write_flags"]
        owner = values["lock_owner"] if self.has(flags, 2, "owner") else "-"
        delayed, kill = self.has(flags, 1, "delayed"), self.has(flags, 4, "kill")
        words = [values["fh"], values["size"], values["offset"], owner, delayed, kill,
            values["flags"]]
        count = self.files.write(values["size"], self.rest, *self.asker(), *words)
        return self.packed("write_out", {"size": count})

    # Directories.

    def do_readdir(self):
        """READDIR, READDIRPLUS: the entries that fit, in order."""
        plus = self.call == "readdirplus"
        values = self.read("read_in")
        size = values["size"]
        self.check(size <= LARGEST_BUFFER, Errno(ENOMEM), "the size")
        self.check(self.room >= size, Errno(ENOMEM), "the room for the size")
        self.check(self.room >= 16, Fault("EncodeMessage"), "the room for a header")
        words = [values["fh"], size, values["offset"]]
        body = b""
        for entry in self.files.readdir(values["offset"], *self.asker(), *words):
            try:
                data = self.list_entry(entry, plus, size - len(body), self.room - 16 - len(body))
            except Errno:
                if not plus or not body:
                    raise
                break
            if data is None:
                break
            body += data
        return body

    do_readdirplus = do_readdir

    def list_entry(self, entry, plus, left, room):
        """The bytes of an entry, or None if it ends the list. One that doesn't fit is forgotten."""
        ino, offset, kind, name = entry
        front, found = b"", {"nodeid": 0}
        if plus and name in (b".", b".."):
            front = self.entry(({"nodeid": 0}, {"ino": ino, "mode": kind * 4096}))
        elif plus:
            answer = self.files.entry("lookup", *self.asker(), name)
            front, found = self.entry(answer), answer[0]
        values = {"ino": ino, "off": offset, "namelen": len(name), "type": kind}
        data = front + self.packed("dirent", values) + name
        data += bytes(-len(data) % 8)
        if len(data) <= min(left, room):
            return data
        if plus:
            self.forget_entry(found)
        self.check(len(data) > left, Errno(EIO), "the entry's room")
        return None

    # Sessions.

    def do_init(self):
        """INIT"""
        values = self.read("init_in")
        flags = values["flags"]
        flags |= self.read("init_in_ext")["flags2"] << 32 if flags & INIT_EXT else 0
        self.check(values["major"] >= 7, Errno(EPROTO), "the major version")
        out = {"major": 7, "minor": 38}
        if values["major"] > 7:
            return self.packed("init_out", out)
        self.check(values["minor"] >= 27, Errno(EPROTO), "the minor version")
        capable = flags & self.flipped("bits: options", KNOWN)
        wanted = self.flipped("bits: options of its own", WANTED)
        agreed = capable & (self.files.init(capable) | wanted)
        self.server.options = agreed
        out |= {"max_readahead": values["max_readahead"], "flags": agreed & 0xFFFFFFFF,
            "max_background": 65535, "congestion_threshold": 49149, "max_write": LARGEST_BUFFER,
            "time_gran": 1, "max_pages": (LARGEST_BUFFER - 1) // self.server.page_size + 1,
            "flags2": agreed >> 32}
        return self.packed("init_out", out)

    def do_destroy(self):
        """DESTROY"""
        self.files.note("destroy")
        self.server.options = 0

    def do_interrupt(self):
        """INTERRUPT"""

    def do_forget(self):
        """FORGET"""
        self.files.note("forget", *self.asker(), self.read("forget_in")["nlookup"])

    def do_batch_forget(self):
        """BATCH_FORGET"""
        count = self.read("batch_forget_in")["count"]
        self.check(count * 16 <= LARGEST_BUFFER, Errno(ENOMEM), "the count")
        ones = [self.read("forget_one") for _ in range(count)]
        self.files.batch_forget(self.who(), [(one["nodeid"], one["nlookup"]) for one in ones])

    # Calls without arguments.

    def do_getlk(self):
        """A call that is passed nothing, and whose good answer is no reply."""
        self.files.done(self.call)

    do_setlk = do_setlkw = do_bmap = do_ioctl = do_poll = do_notify_reply = do_getlk

    def do_tmpfile(self):
        """TMPFILE"""
        self.files.done("tmpfile")
        raise Errno(ENOSYS)

    def do_setup_mapping(self):
        """SETUPMAPPING, REMOVEMAPPING"""
        raise Errno(ENOSYS)

    do_remove_mapping = do_setup_mapping
