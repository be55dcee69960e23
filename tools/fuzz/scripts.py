"""Scripts for the fuzzer: the stored ones, guests made by chance, and either with lines and numbers
changed."""

import random
import re
from pathlib import Path

from busy import Busy
from guests import Guest
from hostile import Hostile
from make_requests import number
from mapped import Mapped

ROOT = Path(__file__).resolve().parents[2]
GREATEST_REGION = 1 << 20
LEAST_REFUSED = 1 << 62
NUMBER = re.compile(rb"0x[0-9a-fA-F]+|[0-9]+")
# The numbers of lines that the handle takes in whole pages alone.
OF_PAGES = re.compile(rb"^(?:region|map|unmap) ([0-9a-fA-Fx ]+)", re.MULTILINE)
PAGE = 4096
# Of the scripts with others so many are played.
PARTS_OF_PAGES = 0.3
MALFORMED = [
    b" ", b"\t", b"\r", b"  ", b"-1", b"+1", b"0x", b"0X1", b"1_0", b"18446744073709551616",
    b"65536", b"0x10000", b"on", b"rwx",
    b"\xff", b"0g", b"", b"\0", b"\xc3\xa9"]
SHORT_LINES = [b"move", b"harvest", b"iommu on", b"iommu off", b"kick 0 1", b"kick 0 65535",
    b"# x", b""]


def stored():
    """Each script that the repository has: its examples, and the vectors."""
    paths = [*sorted(ROOT.glob("examples/*.fs")), *sorted(ROOT.glob("vectors/scripts/*.fs"))]
    return [script for script in (path.read_bytes() for path in paths) if is_playable(script)]


def is_playable(script):
    """Whether no region asks for so much that one host has it and another hasn't."""
    sizes = [value_of(size)
        for size in re.findall(rb"^region \S+ (0x[0-9a-fA-F]+|[0-9]+)$", script, re.MULTILINE)]
    return sum(size for size in sizes if size < LEAST_REFUSED) <= 8 * GREATEST_REGION


def is_of_pages(script):
    """Whether regions and mappings are of whole pages, as the handle's have to be."""
    return not any(value_of(word) % PAGE for line in OF_PAGES.findall(script)
        for word in NUMBER.findall(line))


def made(seed, store):
    """The script of a seed."""
    rng = random.Random(seed)
    while True:
        guest = rng.choice([Guest, Busy, Hostile, Mapped])
        kind = rng.random()
        script = rng.choice(store) if kind < 0.1 else guest(rng).script()
        if kind < 0.3:
            script = changed(rng, script)
        if is_playable(script) and (is_of_pages(script) or rng.random() < PARTS_OF_PAGES):
            return script


def changed(rng, script):
    """A script with a few changes, each of one line or one number."""
    lines = script.split(b"\n")[:-1]
    for _ in range(rng.choice([1, 1, 1, 2, 3, 6])):
        changes = [change_number] * 5 + [change_hexadecimal] * 4 + [move_lines] * 2
        change = spoil_line if rng.random() < 0.01 else rng.choice(changes)
        lines = change(rng, lines) or [b"harvest"]
    end = b"\n" if rng.random() < 0.95 else b""
    return b"\n".join(lines) + end


def change_number(rng, lines):
    """A number of a line is another one: near it, a boundary, or one of another line."""
    place = rng.randrange(len(lines))
    words = lines[place].split(b" ")
    index = rng.randrange(len(words))
    if words[0] in (b"write", b"#") and index != 1 or not NUMBER.fullmatch(words[index]):
        return lines
    value = value_of(words[index])
    others = NUMBER.findall(b"\n".join(line for line in [*lines[place:], *lines]
        if line[:1] not in b"w#"))
    near = [value + 1, value - 1, value + 16, value * 2, value ^ 1 << rng.randrange(16)]
    value = rng.choice([*near, number(rng), value_of(rng.choice(others))]) % 2**64
    words[index] = rng.choice([b"%d", b"%d", b"0x%x", b"0x%x", b"0x%X", b"0x%025x",
        b"%025d"]) % value
    return lines[:place] + [b" ".join(words)] + lines[place + 1:]


def value_of(word):
    """The value of a number's digits."""
    return int(word, 16 if word.startswith(b"0x") else 10)


def change_hexadecimal(rng, lines):
    """A byte or two of a guest's write are others."""
    writes = [place for place, line in enumerate(lines) if line.startswith(b"write ")
        and line.count(b" ") == 2]
    if not writes:
        return lines
    place = rng.choice(writes)
    head, data = lines[place].rsplit(b" ", 1)
    try:
        data = bytearray(bytes.fromhex(data.decode()))
    except ValueError:
        return lines
    for _ in range(rng.choice([1, 1, 2])):
        if data:
            index = rng.randrange(len(data))
            near = [data[index] ^ 1 << rng.randrange(8), (data[index] + 1) % 256]
            data[index] = rng.choice([0, 1, 2, 4, 7, 255, *near, rng.randrange(256)])
    if rng.random() < 0.1:
        data = data[:rng.randint(1, len(data) or 1)] * rng.choice([1, 2])
    return lines[:place] + [head + b" " + data.hex().encode()] + lines[place + 1:]


def move_lines(rng, lines):
    """Lines are dropped, said twice, exchanged or brought elsewhere."""
    first, second = sorted(rng.randrange(len(lines)) for _ in range(2))
    kind = rng.randrange(4)
    if kind == 0:
        return lines[:first] + lines[first + rng.choice([1, 1, 2]):]
    if kind == 1:
        return lines[:second] + lines[first:first + 1] + lines[second:]
    if kind == 2:
        lines[first], lines[second] = lines[second], lines[first]
        return lines
    return lines[:first] + [rng.choice(SHORT_LINES)] + lines[first:]


def spoil_line(rng, lines):
    """A line that may be no command."""
    place = rng.randrange(len(lines))
    words = lines[place].split(b" ")
    index = rng.randrange(len(words))
    kind = rng.randrange(4)
    if kind == 0:
        words[index] = rng.choice(MALFORMED)
    elif kind == 1:
        words.insert(index, rng.choice(MALFORMED))
    elif kind == 2:
        del words[index]
    else:
        words[index] = words[index].swapcase() if rng.random() < 0.5 else words[index] + rng.choice(
            MALFORMED)
    return lines[:place] + [b" ".join(words)] + lines[place + 1:]
