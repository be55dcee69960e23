"""Scripts of guests for the fuzzer that change an IOMMU's table, or regions, on purpose: mappings
that touch, go on in one another, are split, cut, bridged and replaced, and chains that show it."""

import struct

from guests import INDIRECT, NEXT, WRITE, Guest, Queue

PAGE = 0x1000
# I/O pages that change, and guest pages that they are mapped to.
PAGES, TARGETS = 12, 14
# Where the first of them is, and the first guest page.
STARTS = [0, 0, PAGE, 2**31 - 4 * PAGE, 2**32 - 5 * PAGE, 2**40, 2**64 - (PAGES + 1) * PAGE]
BASES = [0x100000, 0x100000, 2**32 - 6 * PAGE, 2**44, 2**64 - 0x200000]
# The queue, and requests, have pages of their own that mostly stay.
HOME, HOME_PAGES = 0x7000000, 4
GETATTR = struct.pack("<IIQQIIIHHIIQ", 56, 3, 0x1122334455667788, 1, 1, 2, 3, 0, 0, 0, 0, 0)
REPLY = 120
MAY = ["rw", "rw", "rw", "rw", "r", "w", "none"]


class Mapped(Guest):
    """A guest that knows what each I/O page is mapped to."""

    rounds = [4, 6, 10, 14]

    def __init__(self, rng):
        super().__init__(rng)
        # In units: whole pages, or fewer bytes, which the script program alone has.
        self.unit = PAGE if self.for_handle else rng.choice([16, 64, 0x200])
        self.iommu = rng.random() < 0.85
        self.start, self.base = rng.choice(STARTS), rng.choice(BASES)
        if not self.iommu:
            self.start = self.base
        self.table = {}
        self.home = self.home_target = rng.choice([HOME, HOME, 2**63])
        # Whether the queue stands among the pages that change.
        self.is_exposed = rng.random() < 0.15

    def script(self):
        """The whole script."""
        self.make_queues()
        self.make_regions()
        for _ in range(self.rng.choice([2, 4, 6])):
            self.change()
        if self.iommu:
            self.say("iommu on")
        self.begin_anew()
        for _ in range(self.rng.choice(self.rounds)):
            self.round()
        self.look()
        return "\n".join(self.lines).encode() + b"\n"

    # Memory.

    def make_queues(self):
        """One queue, which has a long table now and then."""
        rng = self.rng
        size = rng.choice([4, 8, 16, 16, 256])
        place = self.home
        if self.is_exposed:
            place = self.start + self.unit * rng.randrange(PAGES // 2)
        areas = [(16 * size, 16), (6 + 2 * size, 2), (6 + 8 * size, 4)]
        found = []
        for length, alignment in rng.sample(areas, 3):
            # An area ends at the edge of a page, goes over it, or stands anywhere.
            edge = (place // self.unit + 1) * self.unit
            edges = [edge - alignment, edge - length // 2, edge - length, place, place]
            place = max(place, rng.choice(edges)) // alignment * alignment
            place += -place % alignment
            found.append((length, place))
            place += length
        places = dict(found)
        self.queue = Queue(size, *[places[length] for length, _ in areas])
        self.queues.append(self.queue)
        self.say("queue " + self.queue.layout())

    def make_regions(self):
        """Regions of the pages that are mapped, which touch, mostly, and those of home."""
        rng = self.rng
        inner = [rng.randrange(1, TARGETS) for _ in range(rng.choice([0, 1, 2, 3]))]
        cuts = sorted({0, TARGETS, *inner})
        parts = [(self.base + PAGE * begin, PAGE * (end - begin))
            for begin, end in zip(cuts, cuts[1:])]
        home = self.home
        if not self.iommu or self.chance(0.5):
            parts.append((home, PAGE * HOME_PAGES))
        else:
            home = 0x9000000
            parts += [(home, PAGE), (home + PAGE, PAGE * (HOME_PAGES - 1))]
        self.home_target = home
        if self.chance(0.4):
            rng.shuffle(parts)
        for base, size in parts:
            self.region(base, size)
        if self.chance(0.3):
            self.say(f"alias {self.base + 2**20:#x} {rng.randrange(self.blocks)}")
        if self.iommu:
            self.say(f"map {self.home:#x} {home:#x} {PAGE * HOME_PAGES:#x} rw")

    def in_guest(self, address):
        """The guest's address of a device's one, or None."""
        if self.home <= address < self.home + PAGE * HOME_PAGES:
            return address - self.home + self.home_target
        if not self.iommu:
            return address if address < 2**64 else None
        place, rest = divmod(address - self.start, self.unit)
        target = self.table.get(place)
        return None if target is None else target[0] + rest

    # Changes.

    def runs(self):
        """The runs of I/O pages that are mapped as one: first page, length, target, permission."""
        found = []
        for place in sorted(self.table):
            target, may = self.table[place]
            if found:
                begin, count, first, same = found[-1]
                if begin + count == place and first + self.unit * count == target and may == same:
                    found[-1] = (begin, count + 1, first, may)
                    continue
            found.append((place, 1, target, may))
        return found

    def lay(self, place, count, target, may):
        """Maps pages, as the table has them then."""
        place, count = max(0, place), max(1, count)
        if self.start + self.unit * (place + count) >= 2**64:
            return
        target = min(max(target, 0), 2**64 - self.unit * (count + 1))
        for k in range(count):
            self.table[place + k] = (target + self.unit * k, may)
        self.say(f"map {self.start + self.unit * place:#x} {target:#x} {self.unit * count:#x} "
            f"{may}")

    def take(self, place, count):
        """Unmaps pages."""
        if place < 0 or count < 1 or self.start + self.unit * (place + count) >= 2**64:
            return
        for k in range(count):
            self.table.pop(place + k, None)
        self.say(f"unmap {self.start + self.unit * place:#x} {self.unit * count:#x}")

    def any_target(self):
        """A guest page that there is, mostly."""
        return self.base + PAGE * self.rng.randrange(TARGETS) + self.rng.randrange(
            PAGE // self.unit) * self.unit

    def change(self):
        """One change of the table, beside, in or over a run that is there."""
        rng = self.rng
        if not self.iommu:
            self.change_block()
            return
        runs = self.runs()
        if not runs or self.chance(0.15):
            self.lay(rng.randrange(PAGES), rng.choice([1, 1, 2, 3, 5]), self.any_target(),
                rng.choice(MAY))
            return
        begin, count, target, may = rng.choice(runs)
        step, size = self.unit, rng.choice([1, 1, 2, 3])
        other = may if self.chance(0.6) else rng.choice(MAY)
        inner = rng.randrange(count)
        kinds = [
            # In front of the run, and behind it, as it would go on, or otherwise.
            lambda: self.lay(begin - size, size, target - step * size, other),
            lambda: self.lay(begin + count, size, target + step * count, other),
            lambda: self.lay(begin - size, size, self.any_target(), may),
            lambda: self.lay(begin + count, size, self.any_target(), may),
            # In it, from its first page on, up to its last one, or past either end.
            lambda: self.lay(begin + inner, 1, target + step * inner, other),
            lambda: self.lay(begin + inner, size, self.any_target(), other),
            lambda: self.lay(begin, count, target, other),
            lambda: self.lay(begin - 1, count + 2, target - step, other),
            lambda: self.lay(begin + inner, count, target + step * inner, other),
            lambda: self.lay(begin + inner - count, count, target + step * (inner - count), other),
            # Taken away: its head, its tail, its middle, all of it, what is around it.
            lambda: self.take(begin, rng.choice([1, count])),
            lambda: self.take(begin + count - 1, rng.choice([1, 2])),
            lambda: self.take(begin + inner, 1),
            lambda: self.take(begin + inner, count),
            lambda: self.take(begin - 1, rng.choice([1, 2, count + 1, count + 2])),
            lambda: self.take(begin + inner, 1),
            self.bridge, self.bridge, self.split, self.split, self.other_change]
        rng.choice(kinds)()

    def bridge(self):
        """The gap between two runs is filled, as the first would go on, or as the second begins."""
        runs = self.runs()
        for (begin, count, target, may), (other, _, first, its) in zip(runs, runs[1:]):
            gap = other - begin - count
            if gap > 0 and self.chance(0.6):
                if self.chance(0.5):
                    self.lay(begin + count, gap, target + self.unit * count, may)
                else:
                    self.lay(begin + count, gap, first - self.unit * gap, its)
                return

    def split(self):
        """A run of three pages loses its middle, which comes back or not."""
        place = self.rng.randrange(PAGES - 3)
        target = self.base + PAGE * self.rng.randrange(TARGETS - 3)
        self.lay(place, 3, target, "rw")
        self.take(place + 1, 1)
        if self.chance(0.5):
            self.probe(place, 3)
            self.lay(place + 1, 1, target + self.unit, self.rng.choice(MAY))

    def other_change(self):
        """A change of no page, of too many, of all; the table isn't used for a while; a move."""
        kind = self.rng.randrange(7)
        if kind == 0:
            self.say(f"map {self.start:#x} {self.base:#x} 0 rw")
        elif kind == 1:
            self.say(f"map {2**64 - PAGE:#x} {self.base:#x} {PAGE:#x} rw")
        elif kind == 2:
            self.say(f"map {self.start:#x} {2**64 - PAGE:#x} {PAGE:#x} rw")
        elif kind == 3:
            self.say("iommu off")
            self.say("iommu on")
        elif kind == 4 and not self.is_exposed:
            self.table = {}
            self.say(f"unmap 0 {self.home:#x}")
            end = self.home + PAGE * HOME_PAGES
            self.say(f"unmap {end:#x} {2**64 - PAGE - end:#x}")
        elif kind == 5:
            self.change_block()
        else:
            self.say("move")

    def change_block(self):
        """A region goes, and its block, others, or parts of its size come there or elsewhere."""
        rng = self.rng
        base, size = rng.choice(self.regions)
        if base in (self.home_target, self.home_target + PAGE):
            self.say(rng.choice(["move", "harvest"]))
            return
        block = self.regions.index((base, size))
        kind = rng.randrange(6)
        if kind == 0:
            self.say(f"alias {base + 2**20:#x} {block}")
        elif kind == 1:
            self.say(f"unregion {base + 2**20:#x} {size:#x}")
        elif kind == 2:
            near = [base - PAGE, base + size, base + size - PAGE, base + PAGE, base]
            self.say(f"alias {rng.choice(near) % 2**64:#x} {rng.choice([block, self.blocks - 1])}")
        elif kind == 3:
            self.say(f"unregion {base:#x} {max(0, size + rng.choice([-PAGE, PAGE])):#x}")
        else:
            self.say(f"unregion {base:#x} {size:#x}")
            if self.chance(0.5):
                self.probe(rng.randrange(PAGES), 1)
            if self.chance(0.5):
                self.say(f"alias {base:#x} {block}")
            else:
                self.fill(base, size)

    def fill(self, base, size):
        """New regions, or blocks that are there, in a region's place: with or without a gap."""
        rng = self.rng
        while size > 0:
            part = min(size, PAGE * rng.choice([1, 1, 2, 3]))
            if self.chance(0.6):
                self.say(f"region {base:#x} {part:#x}")
                self.regions.append((base, part))
                self.blocks += 1
            elif self.chance(0.7):
                self.say(f"alias {base:#x} {rng.randrange(self.blocks)}")
            base, size = base + part, size - part

    # Chains.

    def begin_anew(self):
        """The queue is reset, and the rings with it."""
        self.say("reset 0 " + self.queue.layout())
        self.queue.index = 0
        self.put(self.queue.avail, bytes(4))

    def edge(self, place, count):
        """An address at one of the edges of pages, or near it."""
        rng = self.rng
        address = self.start + self.unit * (place + rng.randint(0, count))
        near = [0, 0, 0, -1, 1, -REPLY, 1 - REPLY, -REPLY // 2, -16, 16 - REPLY, -8, -20]
        far = 2**20 if not self.iommu and self.chance(0.2) else 0
        return max(0, address + far + rng.choice(near))

    def probe(self, place, count):
        """A chain whose room, request or table lies on pages; it is served."""
        rng, queue = self.rng, self.queue
        address = self.edge(place, count)
        here = self.home + PAGE * HOME_PAGES - 0x400
        length = max(REPLY, rng.choice([REPLY, REPLY, REPLY + 1, self.unit, self.unit * count]))
        reads, room = [[here, len(GETATTR), 0]], [[address, length, WRITE]]
        kind = rng.randrange(8)
        if kind == 0:
            reads, room = [[address, len(GETATTR), 0]], [[here + 0x80, REPLY, WRITE]]
        elif kind == 1:
            reads += [[address, rng.choice([1, 16, self.unit]), 0]]
        elif kind == 2:
            cut = rng.choice([1, 16, 60, 119])
            room = [[address, cut, WRITE], [self.edge(place, count), REPLY - cut, WRITE]]
        elif kind == 3:
            room = [[here + 0x80, 16, WRITE], [address, length, WRITE]]
        data = struct.pack("<IIQ", len(GETATTR), 3, rng.getrandbits(64)) + GETATTR[16:]
        self.put(reads[0][0], data)
        parts = (reads + room)[:queue.size]
        if kind == 4:
            table = self.edge(place, count) // 16 * 16
            parts = [self.written(parts, table)]
        elif kind == 5:
            parts = [self.written(parts, here + 0x200)]
        self.serve(parts)

    def written(self, parts, table):
        """A descriptor of a table that has these parts."""
        last = len(parts) - 1
        for index, (address, length, flags) in enumerate(parts):
            flags |= NEXT if index < last else 0
            self.put(table + 16 * index, struct.pack("<QIHH", address % 2**64, length, flags,
                (index + 1) % (last + 1)))
        return [table, 16 * len(parts), INDIRECT]

    def serve(self, parts):
        """A chain of these parts is offered and served."""
        rng, queue = self.rng, self.queue
        if self.is_exposed or queue.risky:
            self.begin_anew()
        first = rng.randrange(queue.size)
        indices = [(first + k) % queue.size for k in range(len(parts))]
        for index, entry in self.linked_so(parts, indices):
            self.put(queue.desc + 16 * index, entry)
        self.put(queue.avail + 4 + 2 * (queue.index % queue.size), struct.pack("<H", first))
        queue.index = (queue.index + 1) % 65536
        self.put(queue.avail + 2, struct.pack("<H", queue.index))
        self.say("kick 0 2")

    def linked_so(self, parts, indices):
        """Entries of the queue's table: each names the next."""
        for place, (address, length, flags) in enumerate(parts):
            last = place + 1 == len(parts)
            follower = 0 if last else indices[place + 1]
            yield indices[place], struct.pack("<QIHH", address % 2**64, length,
                flags | (0 if last else NEXT), follower)

    # Rounds.

    def round(self):
        """A change or two, and chains that show what the pages about it are."""
        rng = self.rng
        for _ in range(rng.choice([1, 1, 2])):
            self.change()
        for _ in range(rng.choice([1, 2, 3])):
            runs = self.runs()
            if runs and self.chance(0.7):
                begin, count, *_ = rng.choice(runs)
            else:
                begin, count = rng.randrange(PAGES), rng.choice([1, 2])
            self.probe(begin, count)
        if self.chance(0.3):
            self.say("harvest")

    def look(self):
        """All that the guest can see at the end."""
        self.say("harvest")
        for page in range(TARGETS):
            self.say(f"read {self.base + PAGE * page:#x} {PAGE:#x}")
        self.say(f"read {self.home_target:#x} {PAGE * HOME_PAGES:#x}")
