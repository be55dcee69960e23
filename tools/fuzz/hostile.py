"""Scripts of guests for the fuzzer that want a kick to be slow, wrong or endless: what stands over
the rings, loops, nests, runs out."""

import struct

from guests import INDIRECT, NEXT, SPAN, WRITE, Guest, Queue
from make_requests import number

GREAT = [2**31, 2**32 - 1, 2**32 - 16, 2**32 - 40, 2**32 - 56, 0x101000, 0x101001, 0x100FD8]
PERMISSIONS = ["none", "r", "w"]


class Hostile(Guest):
    """A guest that breaks one rule at a time, and mostly has all else well made."""

    def __init__(self, rng):
        super().__init__(rng)
        self.queue = None
        # Where the device finds the same bytes again, so far behind.
        self.twin = None

    def make_queues(self):
        """A queue or two, whose areas may lie over one another."""
        rng = self.rng
        for _ in range(rng.choice([1, 1, 1, 2])):
            size = rng.choice([1, 2, 4, 8, 8, 16, 64])
            queue = Queue(size, self.place(16 * size, 16), self.place(6 + 2 * size, 2),
                self.place(6 + 8 * size, 4))
            if self.chance(0.12):
                self.lay_over(queue)
            self.say("queue " + queue.layout())
            self.queues.append(queue)

    def lay_over(self, queue):
        """One area of a queue lies over another of it, wholly or by its edge."""
        rng = self.rng
        area, alignment = rng.choice([("desc", 16), ("avail", 2), ("used", 4)])
        other = rng.choice([name for name in ("desc", "avail", "used") if name != area])
        size = {"desc": 16 * queue.size, "avail": 6 + 2 * queue.size,
            "used": 6 + 8 * queue.size}[other]
        place = getattr(queue, other)
        place += rng.choice([0, 0, 2, 4, 16, size - 2, size, -alignment, rng.randrange(size)])
        setattr(queue, area, max(0, place) // alignment * alignment)

    def make_regions(self):
        """Regions, one of whose blocks may be there again behind all of them."""
        super().make_regions()
        if self.regions and not self.iommu and self.base < 2**63 and self.chance(0.3):
            place = self.rng.randrange(len(self.regions))
            base, size = self.regions[place]
            self.say(f"alias {base + 2**20:#x} {place}")
            self.twin = (base, size)

    def make_mappings(self):
        """Mappings, each of which may be there again behind all of them."""
        super().make_mappings()
        if self.iommu and self.start < 2**63 and self.chance(0.3):
            for iova, target, length in list(self.pieces):
                self.map(iova + 2**20, target, length, "rw")
            self.twin = (self.start, SPAN)

    def area(self):
        """An address in or beside the queue, or in what stands near it, or where the same bytes are
        again."""
        address = self.address()
        if self.twin and self.twin[0] <= address < sum(self.twin) and self.chance(0.5):
            return address + 2**20
        return address

    def address(self):
        """An address in or beside the queue, or in what stands near it."""
        rng, queue = self.rng, self.queue
        slot = queue.index % queue.size
        places = [
            queue.desc, queue.desc + 16 * rng.randrange(queue.size), queue.avail, queue.avail + 2,
            queue.avail + 4 + 2 * slot,
            queue.used, queue.used + 2, queue.used + 4 + 8 * slot, queue.used + 4 + 8 * queue.size,
            self.somewhere()]
        return max(0, rng.choice(places) + rng.choice([0, 0, 0, -8, -1, 1, 4, -rng.randrange(80)]))

    # Requests that are cut, and rooms over what is used.

    def request(self):
        """A request, cut anywhere or with a length that is wrong, or a list that is longer or
        shorter than it says."""
        rng = self.rng
        data, wanted = super().request()
        kind = rng.random()
        if kind < 0.15:
            data = data[:rng.randint(0, len(data))]
        elif kind < 0.25 and len(data) >= 40:
            told = rng.choice([0, 39, 40, rng.randint(40, len(data)), len(data) + rng.randint(1, 9),
                2**32 - 1])
            data = struct.pack("<I", told) + data[4:]
        elif kind < 0.35:
            data, wanted = self.batch(), 0
        if kind < 0.15 and len(data) >= 4 and self.chance(0.5):
            data = struct.pack("<I", len(data)) + data[4:]
        return data, wanted

    def batch(self):
        """BATCH_FORGET whose count, length and bytes don't agree."""
        rng = self.rng
        count = rng.choice([0, 1, 2, 5, 70])
        told = rng.choice([count, count + 1, max(0, count - 1), 2 * count, 65535, 65536, 65537,
            2**28, 2**32 - 1])
        body = struct.pack("<II", told, number(rng, 4)) + rng.randbytes(16 * count)
        length = 40 + len(body) + rng.choice([0, 0, 0, -1, 1, -16, 16, -8])
        return struct.pack("<IIQQIIIHH", max(0, length), 42, number(rng), number(rng), 0, 0, 0,
            0, 0) + body

    def descriptors(self, most):
        """Descriptors of a request, whose room may lie over the queue, or whose lengths or
        addresses run out."""
        parts = super().descriptors(most)
        rooms = [part for part in parts if part[2] & WRITE]
        if rooms and self.chance(0.4):
            self.rng.choice(rooms)[0] = self.area()
        if parts and self.chance(0.08):
            self.run_out(parts)
        return parts

    def run_out(self, parts):
        """Lengths near 2^32, whose sum has few low bits, or an address near 2^64."""
        rng = self.rng
        for part in rng.sample(parts, rng.randint(1, min(2, len(parts)))):
            if self.chance(0.5):
                part[1] = rng.choice([*GREAT, 2**32 - part[1] if part[1] else 1])
            else:
                part[0] = 2**64 - rng.choice([1, 2, 16, part[1] + 1, part[1] or 1])
                part[1] = rng.choice([part[1], 0, 1, 2, 15, 16])

    # Chains.

    def chain(self, queue):
        """A chain's head: an ordinary one, or one that loops, nests, or stands over the queue."""
        self.queue = queue
        kinds = [super().chain] * 3 + [self.loop, self.loop, self.nest, self.table_of_the_queue,
            self.table_anywhere, self.long_table]
        return self.rng.choice(kinds)(queue)

    def link(self, parts, table, indices):
        """Parts stand in a table at these indices, each naming the next; the last one names
        nothing."""
        for place, (address, length, flags) in enumerate(parts):
            last = place + 1 == len(parts)
            follower = 0 if last else indices[place + 1]
            flags |= 0 if last else NEXT
            self.put(table + 16 * indices[place],
                struct.pack("<QIHH", address % 2**64, length, flags, follower))

    def loop(self, queue):
        """A chain that comes back to itself, in the queue's table or in one of its own, with bytes
        or without."""
        rng = self.rng
        if self.chance(0.6):
            parts = self.descriptors(queue.size)[:queue.size]
        else:
            parts = [[0, 0, rng.choice([0, WRITE])]]
        own = self.chance(0.4)
        table = self.place(16 * len(parts)) if own else queue.desc
        indices = list(range(len(parts))) if own else rng.sample(range(queue.size), len(parts))
        self.link(parts, table, indices)
        flags = parts[-1][2] | NEXT
        self.put(table + 16 * indices[-1] + 12, struct.pack("<HH", flags, rng.choice(indices)))
        return self.named(queue, table, 16 * len(parts)) if own else indices[0]

    def named(self, queue, table, length, flags=INDIRECT):
        """The head of a chain whose first descriptor names a table."""
        head = self.rng.randrange(queue.size)
        self.put(queue.desc + 16 * head,
            struct.pack("<QIHH", table % 2**64, length % 2**32, flags, number(self.rng, 2)))
        return head

    def nest(self, queue):
        """A table, one of whose descriptors names a table: itself, the queue's, any."""
        rng = self.rng
        parts = self.descriptors(queue.size)
        table = self.place(16 * len(parts) + 16)
        inner = [rng.choice([table, queue.desc, self.area(), number(rng)]),
            rng.choice([0, 8, 16, 48, number(rng, 4)]), INDIRECT]
        parts.insert(rng.choice([0, len(parts), len(parts), rng.randint(0, len(parts))]), inner)
        self.link(parts, table, list(range(len(parts))))
        return self.named(queue, table, 16 * len(parts),
            INDIRECT | rng.choice([0, 0, 0, WRITE, NEXT]))

    def table_of_the_queue(self, queue):
        """A descriptor of the queue's table that names a part of that table, mostly with a chain in
        it."""
        rng = self.rng
        parts = self.descriptors(queue.size)[:max(1, queue.size - 1)]
        first = rng.randint(0, queue.size - len(parts))
        self.link(parts, queue.desc + 16 * first, list(range(len(parts))))
        outside = [index for index in range(queue.size) if not first <= index < first + len(parts)]
        head = rng.choice(outside or [0])
        length = 16 * rng.choice([len(parts), len(parts), queue.size - first, queue.size,
            queue.size + 1])
        self.put(queue.desc + 16 * head,
            struct.pack("<QIHH", (queue.desc + 16 * first) % 2**64, length, INDIRECT, 0))
        return head

    def table_anywhere(self, queue):
        """A table over a ring, with whatever stands there."""
        return self.named(queue, self.area(),
            16 * self.rng.choice([1, 1, 2, 3, queue.size, 64, 4096]))

    def long_table(self, queue):
        """A table whose length goes past all that is there, or past 2^64; a chain stands in its
        first entries."""
        rng = self.rng
        parts = self.descriptors(queue.size)
        table = self.place(16 * len(parts))
        self.link(parts, table, list(range(len(parts))))
        lengths = [0x1000, 0x3000, 2**20, 2**31, 2**32 - 16, 2**32 - 8]
        return self.named(queue, table, rng.choice(lengths))

    # Rounds.

    def round(self):
        """A round, after which a chain may be offered again as often as goes, or a mapping be taken
        out between kicks."""
        super().round()
        number_of = self.rng.randrange(len(self.queues))
        if self.chance(0.25):
            self.offer_again(number_of)
        if self.iommu and self.chance(0.5):
            self.take_out(number_of)

    def offer_again(self, number_of):
        """Each entry of the available ring names one chain."""
        queue = self.queues[number_of]
        if queue.size > 16 or queue.risky:
            self.reset(number_of)
        head = self.chain(queue)
        count = min(queue.size, 9)
        for _ in range(count):
            self.put(queue.avail + 4 + 2 * (queue.index % queue.size), struct.pack("<H", head))
            queue.index = (queue.index + 1) % 65536
        self.put(queue.avail + 2, struct.pack("<H", queue.index))
        self.say(f"kick {number_of} {self.rng.choice([1, count - 1, count, 65535])}")
        queue.risky = True

    def take_out(self, number_of):
        """A mapping goes, or may do less, just where the queue or its chain is; a kick; it comes
        back; the queue goes on."""
        rng = self.rng
        self.queue = self.queues[number_of]
        address = self.area()
        target = self.in_guest(address)
        if target is None:
            return
        length = 0x1000 if self.for_handle else rng.choice([1, 1, 2, 16])
        self.offer(self.queue)
        self.put(self.queue.avail + 2, struct.pack("<H", self.queue.index))
        if self.chance(0.5):
            self.unmap(address, length)
        else:
            self.map(address, target, length, rng.choice(PERMISSIONS))
        self.say(f"kick {number_of} {rng.choice([1, 1, 2])}")
        self.map(address, target, length, "rw")
        if self.chance(0.5):
            self.reset(number_of)
            self.put(self.queue.avail, struct.pack("<HH", 0, 0))
        else:
            self.queue.risky = True
            self.say(f"kick {number_of} 1")


def heavy():
    """Kicks that cost as much as a script of few bytes can make them: loops, long lists and names
    of bytes that nobody wrote."""
    size, avail, used, request = 32768, 0x100000, 0x120000, 0x200000
    lines = [f"queue {size} 0 {avail:#x} {used:#x}", "region 0 0x400000"]
    lines += ["write 0 " + struct.pack("<QIHH", 0, 0, NEXT, 0).hex()]
    lengths = {1: 48 + 16 * 65536, 2: 0x101000}
    for head, length in lengths.items():
        lines.append(f"write {16 * head:#x} " + struct.pack("<QIHH", request, length, 0, 0).hex())
    kicks = [(0, b"")] + [(1, header(lengths[1], 42, count))
        for count in (65536, 65537)] + [(2, header(lengths[2], 1, 97))]
    for index, (head, data) in enumerate(kicks):
        if data:
            lines.append(f"write {request:#x} " + data.hex())
        lines.append(f"write {avail + 4 + 2 * index:#x} " + struct.pack("<H", head).hex())
        lines += [f"write {avail + 2:#x} " + struct.pack("<H", index + 1).hex(), "kick 0 65535"]
    return "\n".join([*lines, "harvest", f"read {used:#x} 40"]).encode() + b"\n"


def header(length, opcode, behind):
    """A request's header and the four bytes behind it."""
    return struct.pack("<IIQQIIIHHI", length, opcode, 9, 1, 0, 0, 0, 0, 0, behind)
