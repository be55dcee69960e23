"""Scripts whose last line is no command: one word of it is wrong, missing or too much."""

# A word of each kind that is right, and near ones that are wrong (vectors/SCRIPT.md, "Lines").
RIGHT = {"m": b"0", "s": b"4", "h": b"00", "p": b"rw", "o": b"on"}
NUMBERS = [b"1a", b"a", b"1:", b"/1", b"0x", b"0x1g", b"0xG1", b"0x`", b"0x1@", b"0x:", b"0x1/",
    b"0X1", b"+1", b"-1", b"1_0", b"", b"0x0x1", b"\xd9\xa1", b"18446744073709551616",
    b"0x10000000000000000", b"99999999999999999999999999999999999999999"]
WRONG = {
    "m": NUMBERS,
    "s": [b"65536", b"0x10000", b"4294967296", b"0x100000001", b"-1", b"18446744073709551617"],
    "h": [b"0", b"000", b"0g", b"G0", b"`0", b"0@", b":0", b"0/", b"0x00", b"", b"0\xd9\xa1"],
    "p": [b"R", b"RW", b"wr", b"rwx", b"n", b"nones", b"None", b"", b"-", b"rw0"],
    "o": [b"ON", b"of", b"on1", b"", b"1", b"offf", b"Off"]}
AROUND = [b" %s", b"%s ", b"%s\t", b"\t%s", b"%s\r", b"%s 0", b"%s  0", b"x%s", b"%s\0"]
BEFORE = b"queue 4 0 0x100 0x200\nregion 0 0x1000\n"


def malformed(commands):
    """The scripts: for each command its words cut, and of all commands' arguments each wrong
    word."""
    places = {kind: [] for kind in RIGHT}
    for name, kinds in commands.items():
        words = [name.encode(), *[RIGHT[kind] for kind in kinds]]
        for index, kind in enumerate(kinds, 1):
            places[kind].append((words, index))
        if kinds:
            yield BEFORE + b" ".join(words[:-1]) + b"\n"
        yield BEFORE + b" ".join([*words, b"0"]) + b"\n"
        yield BEFORE + b" ".join([words[0].upper(), *words[1:]]) + b"\n"
    for kind, wrong in WRONG.items():
        for number, word in enumerate(wrong):
            words, index = places[kind][number % len(places[kind])]
            yield BEFORE + b" ".join([*words[:index], word, *words[index + 1:]]) + b"\n"
    for form in AROUND:
        yield BEFORE + form % b"read 0 16" + b"\n"
