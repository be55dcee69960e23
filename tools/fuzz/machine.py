"""The plain machine: what a script prints, told by single addresses and whole lists. It shares
nothing with the program. It also tells at which command the handle ends, which lacks a few, the
driver, which lacks one, and the program, which hasn't the commands that only the handle has
(vectors/SCRIPT.md, vectors/README.md)."""

import re
from collections import Counter

from memory import (
    LAST, NO_MEMORY, NO_SUCH_QUEUE, PAGE, Memory, Refused, TooMuchWork, bytes_at, length_of,
    singles)
from reading import HEADER as REQUEST_HEADER, Fault, name_of
from script_files import ScriptFiles
from server import Server

__all__ = ["LACKING", "Player", "TooMuchWork", "play"]
LIMIT = 0x101000
LONGEST_SCRIPT = 1 << 20

NEXT, WRITE, INDIRECT = 1, 2, 4
# Refusals of a step.
STOPPED, INDEX_UNREACHABLE, TOO_FAR, ENTRY_UNREACHABLE, HEAD_OUT = range(1, 6)
USED_UNREACHABLE, FLAGS_UNREACHABLE, DESCRIPTOR_UNREACHABLE, NO_QUEUE = 6, 7, 8, 10
# What the handle lacks: a reply of these opcodes whose header lies over its data.
WITH_DATA, HEADER = ("read", "readdir", "readdirplus"), 16
# The status of a script that ends at a command which the device lacks.
LACKING = 4


class Queue:
    """A split virtqueue: where its areas stand, and how far it is."""

    def __init__(self, size, desc, avail, used):
        self.size, self.desc, self.avail, self.used = size, desc, avail, used
        self.position = 0
        self.stopped = False

    def used_event(self):
        """The address of the driver's field behind the available ring."""
        return self.avail + 4 + 2 * self.size

    def avail_event(self):
        """The address of the device's field behind the used ring."""
        return self.used + 4 + 8 * self.size


def bad_layout(size, desc, avail, used):
    """The number of what is wrong with a layout, or None."""
    if size == 0 or size > 32768 or size & (size - 1):
        return 1
    if desc % 16 or avail % 2 or used % 4:
        return 2
    if desc + 16 * size > LAST or avail + 6 + 2 * size > LAST or used + 6 + 8 * size > LAST:
        return 3
    return None


def walk(memory, queue, head):
    """The chain that begins at a head (address, length and flags of each ordinary descriptor), and
    whether it ends in a table."""
    chain = []
    table, entries, index, inside = queue.desc, queue.size, head, False
    while True:
        if index >= entries and memory.keeps("NextOutOfTable"):
            raise Fault("NextOutOfTable")
        address, length, flags, follower = descriptor(memory, table + 16 * index, inside)
        if flags & INDIRECT:
            check_table(memory, address, length, flags, inside)
            table, entries, index, inside = address, length // 16, 0, True
            continue
        if len(chain) == queue.size and memory.keeps("TooLong"):
            raise Fault("TooLong")
        if length > 0 and address + length > LAST and memory.keeps("AddressOverflow"):
            raise Fault("AddressOverflow")
        chain.append((address, length, flags))
        if not flags & NEXT:
            return chain, inside
        index = follower


def descriptor(memory, address, inside):
    """The four numbers of a descriptor."""
    try:
        data = memory.fetch(address, 16, DESCRIPTOR_UNREACHABLE)
    except Refused:
        if inside:
            raise Fault("TableUnreachable") from None
        raise
    parts = {"addr": data[:8], "len": data[8:12], "flags": data[12:14], "next": data[14:]}
    return [memory.seen("desc." + field, int.from_bytes(part, "little"))
        for field, part in parts.items()]


def check_table(memory, address, length, flags, inside):
    """Whether a descriptor may name an indirect table."""
    if flags & NEXT and memory.keeps("IndirectWithNext"):
        raise Fault("IndirectWithNext")
    if inside and memory.keeps("IndirectNested"):
        raise Fault("IndirectNested")
    if length == 0 and memory.keeps("IndirectLength 0"):
        raise Fault("IndirectLength")
    if length % 16 and memory.keeps("IndirectLength"):
        raise Fault("IndirectLength")
    if address + length > LAST and memory.keeps("AddressOverflow of a table"):
        raise Fault("AddressOverflow")


def request_and_room(memory, chain):
    """The bytes of the readable descriptors, and the places of the writable ones."""
    readable = [part for part in chain if not part[2] & WRITE]
    writable = [part for part in chain if part[2] & WRITE]
    for parts, check in ((readable, "OverLimit of a request"), (writable, "OverLimit of a room")):
        if sum(length for _, length, _ in parts) > LIMIT and memory.keeps(check):
            raise Fault("OverLimit")
    request = all_places(memory, readable, "r", "RequestUnreachable")
    room = all_places(memory, writable, "w", "RoomUnreachable")
    return bytes_at(request), room


def all_places(memory, parts, access, fault):
    """The places of descriptors, joined."""
    joined = []
    for address, length, _ in parts:
        places = memory.places(address, length, access) if length else []
        if places is None:
            raise Fault(fault)
        joined += places
    return joined


class Machine:
    """A guest's memory, a device with its queues, and a file system."""

    def __init__(self, work, coverage):
        self.memory = Memory(work)
        self.queues = []
        # Whether the driver accepted VIRTIO_F_EVENT_IDX.
        self.event_index = False
        self.files = ScriptFiles()
        self.server = Server(self.files)
        self.coverage = coverage
        # Whether the header of the last reply lies over its data.
        self.header_meets_data = False

    def step(self, queue):
        """One chain goes back: the lines that it prints. None where none waits."""
        taken = self.pop(queue)
        return None if taken is None else self.serve(queue, *taken)

    def drop(self, queue):
        """A chain is popped and dropped, so that it waits again: the line that is printed. One with
        a fault goes back."""
        taken = self.pop(queue)
        if taken is None:
            return ["idle"]
        *_, fault = taken
        return ["dropped"] if fault is None else self.serve(queue, *taken)

    def notify(self, queue, is_on):
        """The driver is asked to notify, or not to."""
        address, value = queue.used, 0 if is_on else 1
        if self.event_index:
            address, value = queue.avail_event(), self.memory.seen("avail_event", queue.position)
        places = self.memory.places(address, 2, "w")
        if is_on or not self.event_index:
            if places is None:
                raise Refused(USED_UNREACHABLE)
            self.memory.store(places, value.to_bytes(2, "little"))

    def pop(self, queue):
        """As `take`; a refusal stops the queue."""
        if queue.stopped and self.memory.keeps("Stopped"):
            raise Refused(STOPPED)
        try:
            return self.take(queue)
        except Refused:
            queue.stopped = True
            raise

    def take(self, queue):
        """The head of the next chain, the places of its element and of the used index, and the
        chain or its fault."""
        memory = self.memory
        if self.event_index:
            if memory.keeps("used_event unreachable"):
                memory.fetch(queue.used_event(), 2, FLAGS_UNREACHABLE)
            is_there = memory.places(queue.avail_event(), 2, "w") is not None
            if not is_there and memory.keeps("avail_event unreachable"):
                raise Refused(USED_UNREACHABLE)
        index = memory.seen("avail.idx", memory.number(queue.avail + 2, 2, INDEX_UNREACHABLE))
        waiting = (index - queue.position) % 65536
        if waiting == 0:
            return None
        if waiting > queue.size and memory.keeps("AvailTooFar"):
            raise Refused(TOO_FAR)
        slot = queue.position % queue.size
        entry = memory.number(queue.avail + 4 + 2 * slot, 2, ENTRY_UNREACHABLE)
        head = memory.seen("avail.ring", entry)
        if head >= queue.size and memory.keeps("HeadOutOfTable"):
            raise Refused(HEAD_OUT)
        element = memory.places(queue.used + 4 + 8 * slot, 8, "w")
        used_index = memory.places(queue.used + 2, 2, "w")
        if element is None or used_index is None:
            raise Refused(USED_UNREACHABLE)
        if not self.event_index and memory.keeps("AvailFlagsUnreachable"):
            memory.fetch(queue.avail, 2, FLAGS_UNREACHABLE)
        try:
            chain, inside = walk(memory, queue, head)
            self.coverage["shape", "through a table" if inside else "direct"] += 1
            return head, element, used_index, request_and_room(memory, chain), None
        except Fault as fault:
            return head, element, used_index, (b"", []), fault

    def serve(self, queue, head, element, used_index, chain, fault):
        """The request is answered, and the chain goes back."""
        request, room = chain
        reply = b""
        self.files.calls = []
        self.header_meets_data = False
        if fault is None:
            asked = name_of(request) if len(request) >= REQUEST_HEADER else "no header"
            try:
                reply = self.server.serve(request, length_of(room))
            except Fault as found:
                fault = found
            self.count_request(asked, reply, fault)
            self.count_shape(singles(room, 0, len(reply)), singles(element + used_index, 0, 10))
            self.header_meets_data = asked in WITH_DATA and \
                not set(singles(room, 0, HEADER)).isdisjoint(singles(room, HEADER, len(reply)))
        else:
            self.coverage["chain fault", str(fault)] += 1
        self.give_back(queue, head, element, used_index, room, reply)
        name = "-" if fault is None else fault.args[0]
        told = int(self.is_told(queue))
        return call_lines(self.files.calls) + [f"done {head} {len(reply)} {name} {told}"]

    def is_told(self, queue):
        """Whether the driver is notified of the chain that went back last."""
        if self.event_index:
            event = self.memory.number(queue.used_event(), 2, FLAGS_UNREACHABLE)
            return self.memory.seen("used_event", event) == (queue.position - 1) % 65536
        flags = self.memory.number(queue.avail, 2, FLAGS_UNREACHABLE)
        return self.memory.seen("avail.flags", flags) % 2 == 0

    def give_back(self, queue, head, element, used_index, room, reply):
        """The reply, the used element, the used index, in this order."""
        queue.position = (queue.position + 1) % 65536
        self.memory.store(room, reply)
        used = [self.memory.seen("used.id", head), self.memory.seen("used.len", len(reply))]
        self.memory.store(element, b"".join(number.to_bytes(4, "little") for number in used))
        index = self.memory.seen("used.idx", queue.position)
        self.memory.store(used_index, index.to_bytes(2, "little"))

    def count_request(self, asked, reply, fault):
        """What was asked and how it ended, for the coverage."""
        self.coverage["opcode", asked] += 1
        if fault is not None:
            self.coverage["server fault", fault.args[0]] += 1
        elif reply:
            self.coverage["error answered", -int.from_bytes(reply[4:8], "little", signed=True)] += 1
        else:
            self.coverage["error answered", "silence"] += 1

    def count_shape(self, written, used):
        """Where the reply went, for the coverage."""
        self.coverage["shape", "behind the IOMMU"] += self.memory.iommu
        self.coverage["shape", "reply over itself"] += len(set(written)) < len(written)
        self.coverage["shape", "reply over what is used"] += not set(written).isdisjoint(used)
        blocks = {block for block, _ in written}
        self.coverage["shape", "reply in several blocks"] += len(blocks) > 1


def call_lines(calls):
    """Lines of the first 64 calls, and a count of the others."""
    lines = [f"call {call}" for call in calls[:64]]
    return lines + [f"more {len(calls) - 64}"] if len(calls) > 64 else lines


class Player:
    """Plays a script's lines on a machine of its own."""

    COMMANDS = {
        "queue": "smmm", "region": "mm", "alias": "mm", "unregion": "mm", "write": "mh",
        "read": "mm", "map": "mmmp",
        "unmap": "mm", "iommu": "o", "kick": "ms", "reset": "msmmm", "harvest": "", "move": "",
        "event_index": "o", "notify": "mo", "drop": "m",
    }
    # The program doesn't know these.
    HANDLES = ("event_index", "notify", "drop")

    def __init__(self, work, lacking=None):
        self.coverage = Counter()
        self.machine = Machine(work, self.coverage)
        # For which line memory lacks, and of a kick for which of its chains; None if there is
        # enough. A region's block may be there already.
        self.lacking = lacking
        # Where each line's output begins.
        self.begins = []
        self.began = False
        self.printed = []
        self.number = 0
        # What handle and driver print, if they end at a command that they lack, and the program, if
        # it ends at one of the handle's.
        self.on_handle = None
        self.on_driver = None
        self.on_program = None

    def play(self, script):
        """What the script prints, and its status."""
        if len(script) > LONGEST_SCRIPT:
            return b"script too long\n", 1
        for self.number, line in enumerate(script.split(b"\n"), 1):
            if line == b"" or line.startswith(b"#"):
                continue
            command = parse(line)
            if command is None or not self.may_stand(command[0]):
                self.coverage["command", "not a command"] += 1
                self.printed.append(f"line {self.number}: not a command")
                return text_of(self.printed), 1
            self.command(*command)
        return text_of(self.printed), 0

    def lack(self, lines=()):
        """The handle ends at this command, of which it has printed some lines."""
        self.on_handle = self.on_handle or self.lacking_end(lines)

    def lacking_end(self, lines=()):
        """What is printed by a device that lacks this command."""
        return text_of([*self.printed, *lines, f"line {self.number}: not on this device"])

    def need_regions(self):
        """Handle and driver end at this command, if they don't take the regions."""
        if not self.machine.memory.has_whole_pages():
            self.on_driver = self.on_driver or self.lacking_end()
        if not self.machine.memory.fits_handle():
            self.lack()

    def lack_parts(self, length, *numbers):
        """The handle maps whole pages alone."""
        if length and any(number % PAGE for number in (length, *numbers)):
            self.lack()

    def may_stand(self, name):
        """Whether a command may stand here: queues come first, one at least and 64 at most."""
        if name == "queue":
            return not self.began and len(self.machine.queues) < 64
        return len(self.machine.queues) > 0

    def command(self, name, arguments):
        """Plays one command."""
        if name in self.HANDLES and self.on_program is None:
            self.on_program = text_of([*self.printed, f"line {self.number}: not a command"])
        self.began = self.began or name != "queue"
        self.coverage["command", name] += 1
        self.begins.append((len(self.printed), self.number))
        try:
            if name not in ("kick", "region"):
                self.allocate()
            lines = getattr(self, name)(*arguments)
        except Refused as refused:
            self.coverage["refused " + name, refused.number] += 1
            lines = [f"refused {refused.number}"]
        self.printed += lines

    def allocate(self, part=0):
        """Memory for a part of a command: a chain of a kick, or a region behind its block."""
        if self.lacking == (self.number, part):
            raise Refused(NO_MEMORY)

    def queue(self, *layout):
        """One more queue."""
        return self.laid_out(layout, self.machine.queues.append)

    def laid_out(self, layout, done):
        """A layout that is well is done with."""
        bad = bad_layout(*layout)
        if bad is not None:
            self.coverage["bad layout", bad] += 1
            return [f"badlayout {bad}"]
        done(Queue(*layout))
        return ["ok"]

    def reset(self, index, *layout):
        """A queue begins anew."""
        return self.laid_out(layout, lambda queue: self.replace(index, queue))

    def replace(self, index, queue):
        """A queue is replaced."""
        if index >= len(self.machine.queues):
            raise Refused(NO_SUCH_QUEUE)
        self.machine.queues[index] = queue

    def region(self, base, size):
        """A block and a region over it."""
        self.allocate(0)
        block = self.machine.memory.new_block(size)
        self.allocate(1)
        self.machine.memory.insert(base, block)
        return [f"block {block}"]

    def alias(self, base, block):
        """One more region over a block."""
        self.machine.memory.insert(base, block)
        return ["ok"]

    def unregion(self, base, size):
        """A region goes."""
        self.machine.memory.remove(base, size)
        return ["ok"]

    def write(self, address, data):
        """The guest writes."""
        self.machine.memory.guest_write(address, data)
        return ["ok"]

    def read(self, address, length):
        """The guest reads."""
        return ["bytes " + bytes_at(self.machine.memory.guest_places(address, length)).hex()]

    def map(self, iova, target, length, may):
        """I/O addresses are mapped."""
        self.machine.memory.map(iova, target, length, may)
        self.lack_parts(length, iova, target)
        return ["ok"]

    def unmap(self, iova, length):
        """I/O addresses aren't mapped any more."""
        self.machine.memory.unmap(iova, length)
        self.lack_parts(length, iova)
        return ["ok"]

    def iommu(self, on):
        """The IOMMU is turned on or off."""
        self.machine.memory.iommu = on
        return ["ok"]

    def kick(self, index, most):
        """At most so many chains are served."""
        if index >= len(self.machine.queues):
            raise Refused(NO_QUEUE)
        lines = []
        try:
            for done in range(most):
                self.allocate(done)
                self.need_regions()
                step = self.machine.step(self.machine.queues[index])
                if step is None:
                    break
                if self.machine.header_meets_data:
                    self.lack(lines)
                lines += step
        except Refused as refused:
            self.coverage["refused kick", refused.number] += 1
            return lines + [f"refused {refused.number}"]
        return lines or ["idle"]

    def event_index(self, on):
        """The driver accepts VIRTIO_F_EVENT_IDX, or doesn't."""
        self.machine.event_index = on
        return ["ok"]

    def notify(self, index, on):
        """The device asks the driver to notify it, or not to."""
        self.machine.notify(self.queue_of(index), on)
        return ["ok"]

    def drop(self, index):
        """A chain is popped and dropped."""
        return self.machine.drop(self.queue_of(index))

    def queue_of(self, index):
        """A queue that is served, by its number."""
        if index >= len(self.machine.queues):
            raise Refused(NO_QUEUE)
        self.need_regions()
        return self.machine.queues[index]

    def harvest(self):
        """The marked pages, whose marks are cleared."""
        lines = []
        for number, block in enumerate(self.machine.memory.blocks):
            lines += [f"page {number} {page}" for page in sorted(block.marks)]
            block.marks = set()
        return lines or ["none"]

    def move(self):
        """The guest goes on elsewhere: no page is marked there."""
        for block in self.machine.memory.blocks:
            block.marks = set()
        return [f"moved {32 + 32 * len(self.machine.queues)}"]


def text_of(lines):
    """Lines as they are printed."""
    return "".join(line + "\n" for line in lines).encode()


def parse(line):
    """A line's command and its arguments, or None."""
    name, *words = line.split(b" ")
    kinds = Player.COMMANDS.get(name.decode("latin-1"))
    if kinds is None or len(words) != len(kinds):
        return None
    arguments = [ARGUMENTS[kind](word) for kind, word in zip(kinds, words)]
    return None if None in arguments else (name.decode(), arguments)


def number(word, most):
    """A number up to a greatest one, or None."""
    if re.fullmatch(rb"[0-9]+", word):
        value = int(word.lstrip(b"0")[:21] or b"0")
    elif re.fullmatch(rb"0x[0-9a-fA-F]+", word):
        value = int(word, 16)
    else:
        return None
    return value if value <= most else None


def hexadecimal(word):
    """Bytes, one at least, or None."""
    return bytes.fromhex(word.decode()) if re.fullmatch(rb"(?:[0-9a-fA-F]{2})+", word) else None


# What words mean, by the kinds of arguments: m is a number, s a short one, h bytes, p a permission,
# o a switch.
ARGUMENTS = {
    "m": lambda word: number(word, LAST),
    "s": lambda word: number(word, 65535),
    "h": hexadecimal,
    "p": {b"none": "", b"r": "r", b"w": "w", b"rw": "rw"}.get,
    "o": {b"on": True, b"off": False}.get,
}


def play(script, work=6_000_000, wrong=None):
    """What a script prints and its status, on each device, and what it covered. A wrong device
    reads or writes one field wrongly (`Memory.wrong`)."""
    player = Player(work)
    player.machine.memory.wrong = wrong
    whole = player.play(script)
    on_handle = whole if player.on_handle is None else (player.on_handle, LACKING)
    on_driver = whole if player.on_driver is None else (player.on_driver, LACKING)
    on_program = whole if player.on_program is None else (player.on_program, 1)
    ends = {"the program": on_program, "the handle": on_handle, "the driver": on_driver}
    return ends, player.coverage
