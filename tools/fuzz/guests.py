"""Scripts of guests for the fuzzer: queues, memory and mappings that are mostly well made, and
rounds of chains and kicks."""

import struct

from make_requests import INIT, number, request, room_length

NEXT, WRITE, INDIRECT = 1, 2, 4
SPAN = 0x3000
BASES = [0] * 6 + [0x10000, 2**32 - 0x2000, 2**40, 2**64 - SPAN, 2**64 - 0x10000]
# So many of the scripts have only regions and mappings of whole pages.
FOR_HANDLE = 0.95
# In so many of them the driver may have an event index, and chains are dropped.
EVENTS = 0.15
NO_COMMANDS = [
    " ", "harvest ", "kick 0", "kick 0 65536", "read 0 -1", "write 0 0", "write 0 ",
    "queue 4 0 0 0", "iommu", "x", "read 0X0 1"]


class Queue:
    """A queue as the guest knows it: where its areas are, and how many chains it offered."""

    def __init__(self, size, desc, avail, used):
        self.size, self.desc, self.avail, self.used = size, desc, avail, used
        self.index = 0
        self.risky = False
        self.free = list(range(size))

    def layout(self):
        """The words of the layout."""
        return f"{self.size} {self.desc:#x} {self.avail:#x} {self.used:#x}"


class Guest:
    """Makes a script line by line. Addresses are the device's; a guest knows where they stand in
    its memory."""

    rounds = [1, 2, 3, 5, 8, 12]

    def __init__(self, rng):
        self.rng = rng
        self.lines = []
        self.base = rng.choice(BASES)
        # The handle has regions and mappings of whole pages.
        self.for_handle = rng.random() < FOR_HANDLE
        self.iommu = rng.random() < 0.4
        self.start = self.base
        if self.iommu:
            self.start = rng.choice([0, 0x1000, 2**20, 2**64 - SPAN - 0x1000])
        self.pieces = []
        self.regions = []
        self.taken = []
        self.queues = []
        self.blocks = 0
        self.session = rng.random() < 0.3
        self.began = False
        # Whether the script has commands that only the handle has.
        self.has_events = rng.random() < EVENTS

    def chance(self, part):
        """Whether something happens that happens so often."""
        return self.rng.random() < part

    def say(self, line):
        """One more line."""
        self.lines.append(line)

    def script(self):
        """The whole script."""
        self.make_queues()
        self.make_regions()
        self.make_mappings()
        for queue in self.queues:
            self.put(queue.avail, struct.pack("<HH", self.flags(), 0))
        if self.chance(0.7):
            self.say("harvest")
        if self.has_events:
            self.say("event_index on")
        for _ in range(self.rng.choice(self.rounds)):
            self.round()
        self.look()
        return "\n".join(self.lines).encode() + b"\n"

    # Memory.

    def place(self, length, alignment=1):
        """A device's address for so many bytes, mostly apart from all others, else upon another's
        bytes."""
        rng = self.rng
        for _ in range(12):
            address = self.start + rng.randrange(max(1, SPAN - length)) // alignment * alignment
            if all(address + length <= other or other + size <= address
                    for other, size in self.taken):
                break
        if self.taken and self.chance(0.06):
            other, size = rng.choice(self.taken)
            address = max(0, other + rng.randint(-min(length, 20), size)) // alignment * alignment
        if self.chance(0.01):
            address = number(rng) // alignment * alignment
        if self.chance(0.02):
            address = max(0, self.start + SPAN - length + rng.choice([-1, 0, 0, 1]))
        address = min(address, 2**64 - 1) // alignment * alignment
        self.taken.append((address, length))
        return address

    def in_guest(self, address):
        """The guest's address of a device's one, or None."""
        if not self.iommu:
            return address if address < 2**64 else None
        for iova, target, length in self.pieces:
            if iova <= address < iova + length:
                return target + address - iova
        return None

    def put(self, address, data):
        """The guest writes bytes where the device finds them, by a line for each run."""
        run, begin = b"", None
        for index, byte in enumerate(data):
            here = self.in_guest(address + index)
            if run and here != begin + len(run):
                self.say(f"write {begin:#x} {run.hex()}")
                run = b""
            if here is not None:
                begin = here if not run else begin
                run += bytes([byte])
        if run:
            self.say(f"write {begin:#x} {run.hex()}")

    def cut_span(self, count):
        """Beginnings and ends of parts of the memory, which has so many cuts, at pages or
        anywhere."""
        rng = self.rng
        anywhere, pages = range(1, SPAN), range(0x1000, SPAN, 0x1000)
        kinds = [pages] if self.for_handle else [anywhere, pages]
        cuts = {rng.choice(rng.choice(kinds)) for _ in range(count)}
        places = sorted({0, SPAN, *cuts})
        return list(zip(places, places[1:]))

    def somewhere(self):
        """A device's address in or beside something that is there."""
        address, size = self.rng.choice(self.taken or [(self.start, SPAN)])
        size = min(size, self.rng.choice([4, 16, 64, 2**20]))
        return max(0, address + self.rng.randint(-1, size + 1))

    def make_queues(self):
        """Queues, one mostly, and lines that add none."""
        rng = self.rng
        for _ in range(rng.choice([1] * 6 + [2, 3, 4])):
            size = rng.choice([1, 2, 4, 4, 4, 8, 8, 8, 16, 16, 32, 64])
            queue = Queue(size, self.place(16 * size, 16), self.place(6 + 2 * size, 2),
                self.place(6 + 8 * size, 4))
            if self.chance(0.03):
                bad = rng.choice([0, 3, size, 65535])
                self.say(f"queue {bad} {queue.desc + rng.choice([0, 8]):#x} {queue.avail + 1:#x} "
                    f"{number(rng):#x}")
            self.say("queue " + queue.layout())
            self.queues.append(queue)
        if self.chance(0.01):
            for _ in range(rng.choice([59, 60, 63, 64])):
                self.say("queue " + self.queues[0].layout())

    def make_regions(self):
        """Regions over the guest's memory, which may be cut, have gaps and lie over one block."""
        rng = self.rng
        parts = self.cut_span(rng.choice([0, 0, 1, 1, 2, 3]))
        if self.chance(0.15):
            rng.shuffle(parts)
        hole = self.somewhere() - self.start if not self.for_handle and self.chance(0.06) else None
        # Blocks of more than 64 pages, whose marks need a second word.
        front = rng.choice([0x3D000, 0x3E000, 0x3F000]) if self.chance(0.05) else 0
        for begin, end in parts:
            if self.chance(0.02):
                continue
            if begin == 0 and front <= self.base:
                begin = -front
            if hole is not None and begin < hole < end - 2:
                self.region(self.base + begin, hole - begin)
                begin = hole + rng.choice([1, 1, 2])
            self.region(self.base + begin, end - begin)
        if self.chance(0.05):
            self.far_regions()
        if self.chance(0.1):
            self.change_regions()

    def far_regions(self):
        """Many regions of a page, behind or before all others, among which an address is sought."""
        step = 0x10000 if self.base < 2**63 else -0x10000
        for place in range(1, self.rng.choice([5, 12, 30, 56])):
            if 0 <= self.base + step * place < 2**64 - 0x1000:
                self.say(f"region {self.base + step * place:#x} 0x1000")
                self.blocks += 1

    def region(self, base, size):
        """A region with a block of its own."""
        self.say(f"region {base:#x} {size:#x}")
        self.regions.append((base, size))
        self.blocks += 1

    def make_mappings(self):
        """Mappings of the device's addresses, piece by piece, in order or not, some with fewer
        permissions."""
        rng = self.rng
        if not self.iommu:
            if self.chance(0.1):
                self.change_mappings()
            return
        pages = SPAN // 0x1000
        cut = self.cut_span(rng.choice([0, 0, 1, 2, 4]))
        targets = list(range(pages))
        if len(cut) == 1 and self.chance(0.5):
            rng.shuffle(targets)
            parts = [(0x1000 * page, 0x1000 * target, 0x1000)
                for page, target in enumerate(targets)]
        else:
            parts = [(begin, begin, end - begin) for begin, end in cut]
        for begin, target, length in parts:
            self.pieces.append((self.start + begin, self.base + target, length))
            may = rng.choice(["rw"] * 30 + ["r", "w", "none"])
            self.map(self.start + begin, self.base + target, length, may)
        self.say("iommu on")

    def in_pages(self, *numbers):
        """Numbers of a mapping: of whole pages, if the handle has to play it."""
        page = 0x1000 if self.for_handle else 1
        return " ".join(f"{value % 2**64 // page * page:#x}" for value in numbers)

    def map(self, iova, target, length, may):
        """A line that maps addresses."""
        self.say(f"map {self.in_pages(iova, target, length)} {may}")

    def unmap(self, iova, length):
        """A line that removes mappings."""
        self.say(f"unmap {self.in_pages(iova, length)}")

    # Chains.

    def cut(self, length, most):
        """Lengths whose sum is a length, mostly no more than a number."""
        rng = self.rng
        count = min(rng.choice([1, 1, 1, 2, 3, 5]), max(1, most) + self.chance(0.03))
        cuts = sorted(rng.choice([rng.randint(0, length), min(length, rng.choice([1, 16, 40, 56]))])
            for _ in range(count - 1))
        return [end - begin for begin, end in zip([0, *cuts], [*cuts, length])]

    def spread(self, length, flag, most, data=None):
        """Descriptors for so many bytes, apart or one behind the other, and their data in
        memory."""
        together = self.place(length) if self.chance(0.4) else None
        if flag == WRITE and self.chance(0.12):
            together = self.somewhere()
        parts, done = [], 0
        for size in self.cut(length, most):
            address = self.place(size) if together is None else together + done
            if data is not None:
                self.put(address, data[done:done + size])
            if size == 0 and self.chance(0.4):
                address = number(self.rng)
            elif parts and flag == WRITE and self.chance(0.06):
                address = parts[-1][0] + self.rng.randint(0, 4)
            parts.append([address % 2**64, size, flag])
            done += size
        return parts

    def request(self):
        """A request's bytes, and how many its reply would have."""
        return request(self.rng, self.session)

    def descriptors(self, most):
        """The ordinary descriptors of a chain for a request, mostly no more than a number."""
        rng = self.rng
        data, wanted = self.request()
        if self.session and not self.began:
            data, wanted = INIT, 80
            self.began = True
        parts = self.spread(len(data), 0, most - 1, data)
        room = room_length(rng, wanted)
        if room and (len(parts) < most or self.chance(0.3)) or self.chance(0.03):
            parts += self.spread(room, WRITE, most - len(parts))
        if self.chance(0.1):
            rng.shuffle(parts)
        if self.chance(0.08):
            self.spoil_part(rng.choice(parts))
        if self.chance(0.004):
            parts += self.longest()
        return parts

    def longest(self):
        """A room of the limit's length, or a byte longer, whose parts lie over one another."""
        address = self.place(0x2000)
        lengths = [0x2000] * 128 + [0x1000 + self.chance(0.5)]
        return [[address, length, WRITE] for length in lengths]

    def spoil_part(self, part):
        """A number of a descriptor is another one."""
        rng = self.rng
        kind = rng.randrange(4)
        if kind == 0:
            part[0] = number(rng)
        elif kind == 1:
            part[1] = rng.choice([0, part[1] + 1, 0x101000, 0x101001, 2**32 - 1, number(rng, 4)])
        elif kind == 2:
            part[0] = 2**64 - rng.choice([0, 1, 2, part[1], part[1] + 1]) - 1
            part[0] = max(0, part[0])
        else:
            part[2] ^= rng.choice([WRITE, INDIRECT, 8, 0x8000, 0xFFF8])

    def linked(self, parts, indices):
        """Entries of a table by index: each part names the next one's index."""
        rng = self.rng
        entries = {}
        for place, (address, length, flags) in enumerate(parts):
            last = place + 1 == len(parts)
            follower = 0 if last else indices[place + 1]
            if last and self.chance(0.2):
                follower = number(rng, 2)
            if not flags & INDIRECT or not last:
                flags |= 0 if last else NEXT
            if self.chance(0.06):
                flags |= rng.choice([8, 0x10, 0x4000, 0x8000])
            if self.chance(0.008):
                flags ^= rng.choice([NEXT, INDIRECT])
            if self.chance(0.012):
                follower = rng.choice([indices[0], len(parts), 65535, number(rng, 2)])
            entries[indices[place]] = struct.pack("<QIHH", address % 2**64, length, flags, follower)
        return entries

    def indirect(self, parts):
        """A table of a chain's own in memory, and the descriptor that names it."""
        rng = self.rng
        count = len(parts) + rng.choice([0, 0, 0, 1, 3])
        rest = rng.sample(range(1, count), len(parts) - 1)
        entries = self.linked(parts, [0, *(sorted(rest) if self.chance(0.5) else rest)])
        if self.chance(0.03):
            entries[0] = entries[0][:12] + struct.pack("<HH", INDIRECT, 0)
        table = self.place(16 * count)
        for index, entry in entries.items():
            self.put(table + 16 * index, entry)
        length = 16 * count
        if self.chance(0.06):
            length = rng.choice([0, length - 16, length + 16, length - 1, length + 8,
                number(rng, 4)]) % 2**32
        if self.chance(0.02):
            table = 2**64 - rng.choice([1, length, length + 1])
        flags = INDIRECT | (WRITE if self.chance(0.1) else 0) | (NEXT if self.chance(0.03) else 0)
        return [max(0, table), length, flags]

    def chain(self, queue):
        """A chain's descriptors in memory, and its head."""
        rng = self.rng
        parts = self.descriptors(queue.size)
        if self.chance(0.01):
            parts = [[self.place(0), 0, rng.choice([0, WRITE])]
                for _ in range(queue.size + rng.choice([-1, 0, 0, 1]))] or parts
        own = len(parts)
        if own > queue.size or self.chance(0.35):
            keep = rng.randint(0, min(queue.size - 1, own - 1)) if self.chance(0.3) else 0
            parts = parts[:keep] + [self.indirect(parts[keep:])]
        if len(queue.free) < len(parts):
            queue.free = list(range(queue.size))
        indices = rng.sample(queue.free, len(parts))
        queue.free = [index for index in queue.free if index not in indices]
        if self.chance(0.5):
            indices.sort()
        for index, entry in self.linked(parts, indices).items():
            self.put(queue.desc + 16 * index, entry)
        return indices[0]

    def offer(self, queue):
        """One more chain in the available ring."""
        head = self.chain(queue)
        if self.chance(0.01):
            head = self.rng.choice([queue.size, 65535, number(self.rng, 2)])
            queue.risky = True
        self.put(queue.avail + 4 + 2 * (queue.index % queue.size), struct.pack("<H", head % 65536))
        queue.index = (queue.index + 1) % 65536

    def flags(self):
        """Flags of an available ring."""
        return self.rng.choice([0, 0, 0, 1, 2, 0xFFFF])

    # Rounds.

    def round(self):
        """Chains are offered and served, with something in between or not."""
        rng = self.rng
        number_of = rng.randrange(len(self.queues))
        queue = self.queues[number_of]
        if self.chance(0.9 if queue.risky else 0.1):
            self.reset(number_of)
        offers = min(rng.choice([1, 1, 1, 2, 3]), queue.size)
        queue.free = list(range(queue.size))
        for _ in range(offers):
            self.offer(queue)
        if self.chance(0.015):
            queue.index = (queue.index + rng.choice([1, queue.size, queue.size + 1, 65535])) % 65536
            queue.risky = True
        self.put(queue.avail, struct.pack("<HH", self.flags(), queue.index))
        if self.has_events:
            self.events(number_of, queue)
        if self.chance(0.3):
            self.disturb()
        self.say(f"kick {number_of} {rng.choice([offers] * 6 + [0, 1, 2, 9, 65535])}")
        if self.chance(0.4):
            self.say("harvest")
        if self.chance(0.15):
            self.say(
                f"read {self.base + rng.randrange(SPAN):#x} {rng.choice([0, 1, 16, 100, 4096])}")
        if self.chance(0.1):
            self.disturb()
        if self.chance(0.8):
            self.taken = self.taken[:3 * len(self.queues)]

    def events(self, number_of, queue):
        """The driver's used_event, mostly near the next chain's position; the device's avail_event,
        which is read; and chains that are dropped."""
        rng = self.rng
        if rng.random() < 0.7:
            event = rng.choice([queue.index - 1, queue.index - 1, queue.index, queue.index - 2,
                0, 65535, queue.index ^ 0x100])
            self.put(queue.avail + 4 + 2 * queue.size, struct.pack("<H", event % 65536))
        for _ in range(rng.choice([0, 0, 1, 2])):
            self.say(rng.choice([f"drop {number_of}", f"notify {number_of} on",
                f"notify {number_of} off"]))
        if rng.random() < 0.1:
            self.say(rng.choice(["event_index on", "event_index off"]))

    def disturb(self):
        """Something that isn't a kick."""
        rng = self.rng
        kinds = [self.change_regions, self.change_mappings, self.overwrite, self.overwrite]
        rng.choice([*kinds, self.other, self.other])()

    def change_regions(self):
        """Regions come, go, and come back elsewhere."""
        rng = self.rng
        kind = rng.randrange(4)
        base, size = rng.choice(self.regions or [(self.base, SPAN)])
        place = rng.choice([self.base + SPAN, base + size, base, number(rng)]) % 2**64
        sizes = [0, 1, 2, 0x800, 0x1000, 0x1001, 2**63, 2**64 - 1]
        if self.for_handle:
            place = place // 0x1000 * 0x1000
            sizes = [0, 0x1000, 0x2000, 0x5000, 2**63, 2**64 - 1]
        if kind == 0:
            self.say(f"unregion {base:#x} {size + rng.choice([0, 0, 0, 1]):#x}")
            if self.chance(0.7) and self.blocks:
                self.say(f"alias {base:#x} {rng.randrange(self.blocks)}")
            self.spoil_queues()
        elif kind == 1:
            self.say(f"alias {place:#x} {rng.choice([0, 0, 1, self.blocks, number(rng)])}")
        elif kind == 2:
            self.say(f"region {place:#x} {rng.choice(sizes):#x}")
        else:
            self.say(f"unregion {number(rng):#x} {number(rng):#x}")

    def spoil_queues(self):
        """Queues that may stop now."""
        for queue in self.queues:
            queue.risky = True

    def change_mappings(self):
        """Mappings come and go, and the IOMMU is turned."""
        rng = self.rng
        kind = rng.randrange(8)
        address = self.somewhere() if self.chance(0.7) else self.start + rng.randrange(SPAN)
        may = rng.choice(["rw", "rw", "r", "w", "none"])
        lengths, step = [0, 1, 2, 16, 0x100, 0x1000, number(rng)], 1
        if self.for_handle:
            lengths, step = [0, 0x1000, 0x1000, 0x2000, number(rng)], 0x1000
        length = rng.choice(lengths)
        if kind < 2:
            target = (self.in_guest(address) or 0) + rng.choice([0, 0, step])
            self.map(address, target, length, may)
        elif kind < 4:
            self.map(address, self.base + rng.randrange(SPAN), length, may)
        elif kind < 6:
            self.unmap(address, length)
        elif kind == 6 and self.chance(0.5):
            self.say(rng.choice(["iommu on", "iommu off"]))
            self.spoil_queues()
        else:
            self.map(number(rng), number(rng), number(rng), may)
        if self.iommu:
            self.spoil_queues()

    def overwrite(self):
        """The guest writes where the queues are, or anywhere."""
        rng = self.rng
        queue = rng.choice(self.queues)
        kind = rng.randrange(4)
        if kind == 0:
            self.put(queue.used + rng.choice([0, 2, 4]), rng.randbytes(2))
        elif kind == 1:
            self.put(queue.avail, struct.pack("<H", self.flags()))
        elif kind == 2:
            self.put(queue.desc + 16 * rng.randrange(queue.size) + rng.choice([0, 8, 12, 14]),
                rng.randbytes(rng.choice([1, 2])))
        else:
            self.say(f"write {self.base + rng.randrange(SPAN + 10):#x} "
                f"{rng.randbytes(rng.choice([1, 2, 40])).hex()}")

    def reset(self, number_of):
        """A queue begins anew, and the guest with it."""
        queue = self.queues[number_of]
        if self.chance(0.08):
            self.say(f"reset {number_of + self.rng.choice([0, 64])} "
                f"{self.rng.choice([0, 3, queue.size])} {queue.desc + 8:#x} 0 0")
        if self.chance(0.12):
            self.lay_out(queue)
        self.say(f"reset {number_of} {queue.layout()}")
        queue.index, queue.risky = 0, False

    def lay_out(self, queue):
        """A queue gets another size, and other places."""
        size = self.rng.choice([1, 2, 4, 8, 16])
        queue.__init__(size, self.place(16 * size, 16), self.place(6 + 2 * size, 2),
            self.place(6 + 8 * size, 4))
        self.put(queue.avail, struct.pack("<HH", self.flags(), 0))

    def other(self):
        """A move, a harvest, a reset, a read, another queue's kick."""
        rng = self.rng
        kind = rng.randrange(6)
        if kind < 2:
            self.say("move")
        elif kind == 2:
            self.say("harvest")
        elif kind == 3:
            self.reset(rng.randrange(len(self.queues)))
            queue = rng.choice(self.queues)
            self.put(queue.avail + 2, struct.pack("<H", queue.index))
        elif kind == 4:
            self.say(f"read {rng.choice([self.base, number(rng)]):#x} "
                f"{rng.choice([0, 1, 64, number(rng)])}")
        else:
            self.say(f"kick {rng.choice([0, 1, 2, 63, 64, number(rng)])} {number(rng, 2)}")

    def look(self):
        """All that the guest can see at the end."""
        if self.chance(0.3):
            self.say("move")
        for index in range(len(self.queues)):
            self.say(f"kick {index} {self.rng.choice([0, 1, 5])}")
        self.say("harvest")
        for base, size in self.regions:
            if self.chance(0.8):
                self.say(f"read {base:#x} {min(size, 2**64 - 1 - base):#x}")
        if self.chance(0.05):
            self.say(self.rng.choice(NO_COMMANDS))


def wraps():
    """A script whose used index wraps: a queue of the greatest size goes round twice, with chains
    of no byte."""
    size = 32768
    lines = [f"queue {size} 0 0x100000 0x200000", "region 0 0x1000", "region 0x100000 0x11000",
        "region 0x200000 0x41000"]
    for index in (0x8000, 0x0000, 0x0001):
        lines += [f"write 0x100002 {index.to_bytes(2, 'little').hex()}", "kick 0 65535",
            "read 0x200000 16"]
    return "\n".join(lines).encode() + b"\n"


def long_script(more):
    """A script of 1 MiB and so many bytes more, most of it a comment."""
    begin = b"queue 4 0 0x100 0x200\nharvest\n#"
    return begin + b"x" * (2**20 + more - len(begin))


def wide_write():
    """A script of a write over 64 whole pages and a byte on either side: their marks are taken."""
    pages = 64 * 4096
    write = f"write {pages - 1:#x} " + "5a" * (pages + 2)
    lines = ["queue 4 0 0x100 0x200", "region 0 0x100000", write, "harvest"]
    return "\n".join(lines).encode() + b"\n"
