"""A plain guest's memory: blocks, regions over them, and the table of an IOMMU. Each address is
looked up by itself; those that follow in the same region and by the same mapping come along."""

LAST = 2**64 - 1
PAGE = 4096
# A block that no host has.
TOO_LARGE = 1 << 47
# Refusals of commands that aren't a kick.
NO_PLACE, EMPTY_BLOCK, UNKNOWN_BLOCK, BAD_REGION, OVERLAP = range(1, 6)
NO_REGION, BAD_MAPPING, NO_SUCH_QUEUE = 6, 7, 8
# Refusals of every command, for want of memory.
NO_MEMORY = 9
# The most regions that the handle takes.
MOST_REGIONS = 64
# So many bytes that lie behind one another cost as much as finding where the first one is.
BYTES_OF_ONE_PLACE = 64


class Refused(Exception):
    """A command or a step that is refused with a number."""

    def __init__(self, number):
        super().__init__(number)
        self.number = number


class TooMuchWork(Exception):
    """A script that takes a plain machine too long."""


class Block:
    """Bytes of a host, all 0 at first, and the pages that were written."""

    def __init__(self, size):
        self.size = size
        self.pages = {}
        self.marks = set()

    def load(self, offset, count):
        """So many bytes from an offset on."""
        found = b""
        for page, begin, end in pages_of(offset, count):
            held = self.pages.get(page)
            found += held[begin:end] if held else bytes(end - begin)
        return found

    def store(self, offset, data, is_marked):
        """Bytes from an offset on, whose pages are marked or not."""
        for page, begin, end in pages_of(offset, len(data)):
            held = self.pages.setdefault(page, bytearray(PAGE))
            held[begin:end], data = data[:end - begin], data[end - begin:]
            if is_marked:
                self.marks.add(page)


def pages_of(offset, count):
    """The pages of bytes, each with where its bytes begin and end."""
    while count > 0:
        page, begin = divmod(offset, PAGE)
        end = min(PAGE, begin + count)
        yield page, begin, end
        offset, count = offset + end - begin, count - (end - begin)


class Memory:
    """Blocks, regions over them, and the table of the IOMMU."""

    def __init__(self, work):
        self.blocks = []
        self.regions = []
        self.table = []
        self.iommu = False
        self.work = work
        # A field that the device reads or writes wrongly, and how many of its bits are left; or a
        # check that it leaves out, and None.
        self.wrong = None

    def place(self, address):
        """The block and the offset of a guest address, and how many of its region follow from it
        on; or None."""
        self.work -= 1
        if self.work < 0:
            raise TooMuchWork
        for base, size, block in self.regions:
            if base <= address < base + size:
                return self.blocks[block], address - base, base + size - address
        return None

    def target(self, address, access):
        """The guest address that an I/O address is mapped to for an access, or None: the latest
        change of it decides. And how many addresses from it on the same change decides."""
        count = LAST + 1 - address
        for iova, length, target, may in reversed(self.table):
            if iova <= address < iova + length:
                count = min(count, iova + length - address)
                return (target + (address - iova) if access in may else None), count
            if iova > address:
                count = min(count, iova - address)
        return None, count

    def where(self, address, access):
        """The place that the device's address has for an access, and how many follow from it on;
        or None."""
        count = LAST + 1
        if self.iommu:
            address, count = self.target(address, access)
        found = None if address is None else self.place(address)
        return found and (found[0], found[1], min(found[2], count))

    def places(self, address, length, access):
        """The places of a range of the device's, or None where it can't be reached."""
        return self.gathered(address, length, lambda one: self.where(one, access))

    def gathered(self, address, length, where):
        """The places of a range: runs of a block, an offset and a length."""
        if address + length > LAST:
            return None
        found = []
        while length > 0:
            run = where(address)
            if run is None:
                return None
            block, offset, count = run
            count = min(count, length)
            self.work -= count // BYTES_OF_ONE_PLACE
            found.append((block, offset, count))
            address, length = address + count, length - count
        return found

    def seen(self, field, value):
        """A field's value, which may be cut."""
        if self.wrong is not None and self.wrong[0] == field:
            return value & (1 << self.wrong[1]) - 1
        return value

    def keeps(self, check):
        """Whether a check is made."""
        return self.wrong != (check, None)

    def fetch(self, address, length, refusal):
        """The bytes that the device reads there."""
        places = self.places(address, length, "r")
        if places is None:
            raise Refused(refusal)
        return bytes_at(places)

    def number(self, address, length, refusal):
        """The little-endian number that the device reads there."""
        return int.from_bytes(self.fetch(address, length, refusal), "little")

    def store(self, places, data):
        """The device writes bytes, in order. Behind an IOMMU it marks no page of a block."""
        for block, offset, count in places:
            block.store(offset, data[:count], not self.iommu)
            data = data[count:]

    def guest_places(self, address, length):
        """The places of a range of the guest's."""
        places = self.gathered(address, length, self.place)
        if places is None:
            raise Refused(NO_PLACE)
        return places

    def guest_write(self, address, data):
        """The guest writes, and marks the pages."""
        for block, offset, count in self.guest_places(address, len(data)):
            block.store(offset, data[:count], True)
            data = data[count:]

    def new_block(self, size):
        """One more block's number."""
        if size == 0:
            raise Refused(EMPTY_BLOCK)
        if size >= TOO_LARGE:
            raise Refused(NO_MEMORY)
        self.blocks.append(Block(size))
        return len(self.blocks) - 1

    def insert(self, base, block):
        """One more region over a whole block."""
        if block >= len(self.blocks):
            raise Refused(UNKNOWN_BLOCK)
        size = self.blocks[block].size
        if base + size - 1 > LAST:
            raise Refused(BAD_REGION)
        if any(base < other + length and other < base + size for other, length, _ in self.regions):
            raise Refused(OVERLAP)
        self.regions.append((base, size, block))

    def remove(self, base, size):
        """A region goes."""
        kept = [region for region in self.regions if region[:2] != (base, size)]
        if len(kept) == len(self.regions):
            raise Refused(NO_REGION)
        self.regions = kept

    def fits_handle(self):
        """Whether the handle takes the regions: few, and of whole pages."""
        return len(self.regions) <= MOST_REGIONS and self.has_whole_pages()

    def has_whole_pages(self):
        """Whether all regions are of whole pages."""
        return not any((base | size) % PAGE for base, size, _ in self.regions)

    def map(self, iova, target, length, may):
        """A range of I/O addresses is mapped."""
        if iova + length > LAST or target + length > LAST:
            raise Refused(BAD_MAPPING)
        self.table.append((iova, length, target, may))

    def unmap(self, iova, length):
        """A range of I/O addresses isn't mapped any more."""
        if iova + length > LAST:
            raise Refused(BAD_MAPPING)
        self.table.append((iova, length, 0, ""))


def bytes_at(places):
    """The bytes at places."""
    return b"".join(block.load(offset, count) for block, offset, count in places)


def length_of(places):
    """How many places there are."""
    return sum(count for _, _, count in places)


def singles(places, begin, end):
    """Each of the places from one to another by itself."""
    found = []
    for block, offset, count in places:
        found += [(block, offset + at) for at in range(max(0, begin), min(count, end))]
        begin, end = begin - count, end - count
    return found
