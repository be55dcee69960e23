"""Makes a script smaller, as long as what is printed for it differs."""

import time

from scripts import NUMBER, value_of


def shrunk(script, differs, batch, seconds):
    """The smallest script that was found. `differs` tells of a list of scripts which of them
    differ."""
    shrinking = Shrinking(script, differs, batch, time.monotonic() + seconds)
    before = None
    while before != shrinking.lines and not shrinking.is_over():
        before = list(shrinking.lines)
        shrinking.drop_lines()
        shrinking.shorten_words()
    return b"\n".join(shrinking.lines) + b"\n"


class Shrinking:
    """The lines that are left."""

    def __init__(self, script, differs, batch, end):
        self.lines = [line for line in script.split(b"\n") if line]
        self.differs = differs
        self.batch = batch
        self.end = end

    def is_over(self):
        """Whether the time is up."""
        return time.monotonic() > self.end

    def take_first(self, candidates):
        """Goes on with the first of these that differs; says whether there is one."""
        for begin in range(0, len(candidates), self.batch):
            part = candidates[begin:begin + self.batch]
            if self.is_over():
                return False
            found = self.differs([b"\n".join(lines) + b"\n" for lines in part])
            if True in found:
                self.lines = part[found.index(True)]
                return True
        return False

    def drop_lines(self):
        """Drops lines, many at once as long as that goes."""
        size = max(1, len(self.lines) // 2)
        while True:
            places = range(len(self.lines) - size, -1, -size)
            if self.take_first([self.lines[:place] + self.lines[place + size:]
                    for place in places]):
                size = min(size, max(1, len(self.lines) // 2))
            elif size == 1 or self.is_over():
                return
            else:
                size //= 2

    def shorten_words(self):
        """Makes numbers and bytes smaller."""
        while self.take_first([
            self.lines[:place] + [line] + self.lines[place + 1:]
            for place in range(len(self.lines)) for line in smaller(self.lines[place])
        ]):
            pass


def smaller(line):
    """A line with one word made smaller, in each way."""
    words = line.split(b" ")
    found = []
    for index, word in enumerate(words):
        if words[0] == b"write" and index == 2:
            choices = smaller_bytes(word)
        elif index and NUMBER.fullmatch(word):
            value = value_of(word)
            choices = [b"%d" % less for less in sorted({0, 1, value // 2, value - 1})
                if 0 <= less < value]
        else:
            choices = []
        found += [b" ".join(words[:index] + [choice] + words[index + 1:]) for choice in choices]
    return found


def smaller_bytes(word):
    """Fewer bytes of a write, or one of them 0."""
    count = len(word) // 2
    found = [word[:2 * (count // 2)], word[:-2]] if count > 1 else []
    for index in range(count):
        if word[2 * index:2 * index + 2] != b"00":
            found.append(word[:2 * index] + b"00" + word[2 * index + 2:])
    return found
