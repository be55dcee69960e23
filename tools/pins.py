"""The sums of believed.txt: one for each definition of specs/, each type with its model, each trait
with what its implementations say, and each contract of a public function, of its text without
comments and spaces, and of what the names in it mean. So the order of imports, and those that
aren't used, don't count."""
import functools
import hashlib
import re
from pathlib import PurePath

from terms import TOP, UNCOUNTED, end_of_braces, module, source, words

PINNED = "believed.txt"
HEAD = """\
# A row for each definition, type and contract: its crate and name, the headlines of BELIEVE.md
# that rest on it (law: only a theorem that is no headline does; -: none), a sum of its text.
# Written by `tools/believe --write`, which mends conflicts too, and compared by ./test.
"""
ROW = re.compile(r"\S+ \S+ \S+ [0-9a-f]{12}")
COMMENT = {
    "antt": re.compile(r"(^|\s)--(\s.*|$)", re.M),
    "rt": re.compile(r"(^|\s)//.*", re.M),
}
FUNCTION = re.compile(r'( *)(pub )?(?:(?:const|unsafe|extern "C") )*fn (\w+)')
CLAUSE = re.compile(r"^ *(ensures|requires)\b", re.M)


def place(path, kind):
    """The crate of a file, and what its path is in the name of a row."""
    _, crate, _, *inner = PurePath(path).with_suffix("").parts
    if kind == "definition":
        return crate, ".".join(inner) + "."
    return crate, "".join(f"{part}::" for part in inner if part not in ("lib", "main"))


def sum_of(text, suffix, resolve):
    """The sum of a text, and of what its words mean."""
    text = COMMENT[suffix].sub("", text)
    means = {f"{word} {item}" for word in set(words(text)) for item in resolve(word)}
    tokens = re.findall(r"[(){}\[\],;]|[^\s(){}\[\],;]+", text)
    whole = "\n".join([" ".join(tokens), *sorted(means)])
    return hashlib.sha256(whole.encode()).hexdigest()[:12]


def means_in_specs(here, word):
    """The items that a word of a definition may mean; of `if◌then◌else◌` by its first part."""
    yield from filter(None, [here.resolve(word)])
    yield from (here.find(name) for name in here.names if name.startswith(word + "◌"))


def means_in_code(here, word):
    """The items that a word of a contract or a type may mean, and constants with their values."""
    found = {here.resolve(word)}
    for name in re.findall(r"\w+", word):
        found |= {here.kind(name), here.constant(name)}
    return sorted(found - {None})


def definitions(path):
    """The definitions of a file: of each its item, its name and its sum."""
    here = module(path)
    crate, inner = place(path, "definition")
    lines = (TOP / path).read_text(encoding="utf-8").split("\n")
    for name, (first, last, shared) in here.blocks.items():
        # How an operator binds may be said elsewhere in the file, also of an imported one.
        own = "\n".join(lines[first:last + 1])
        binds = [line for line in lines[:first] + lines[last + 1:] if re.match(r"\s*infix", line)
            and any(f" {operator} " in own for operator in re.findall(r"◌(\S+?)◌", line))
            or f"◌{name}◌" in line and re.match(r"\s*infix", line)]
        text = "\n".join([shared, *binds, *lines[first:last + 1]])
        yield ("definition", path, name), crate, inner + name, sum_of(text, "antt",
            functools.partial(means_in_specs, here))


def types(path):
    """The types and traits of a file."""
    here = source(path)
    crate, inner = place(path, "type")
    for name in sorted({name for _, name in here.declared}):
        text = "\n".join(here.text(block) for block in here.blocks(name))
        yield ("type", path, name), crate, inner + name, sum_of(text, "rt",
            functools.partial(means_in_code, here))


def instances(path):
    """What the implementations of traits in a file say of the traits' ghosts, but for proofs: the
    ghosts whose type in the trait begins with a premise."""
    here = source(path)
    crate, inner = place(path, "instance")
    for at, line in enumerate(here.lines):
        owner = head_of(here, at) if line.startswith("impl") else ""
        if " for " not in owner or re.search(r"\bModel for ", owner):
            continue
        trait = re.match(r"impl(?:<.*?>)? (?:\w+::)*(\w+)", owner)[1]
        block = "\n".join(here.lines[at:here.lines.index("}", at)]) + "\n"
        said = [block[ghost.start():end_of_braces(block, ghost.end())]
            for ghost in re.finditer(r"^    ghost (\w+) = \{", block, re.M)
            if not is_proof(here, trait, ghost[1])]
        said += re.findall(r"^    (?:type \w+ = .*|ghost use .*);$", block, re.M) if said else []
        if said:
            kind = here.kind(re.split(r" for &?", owner)[-1].split("<")[0].strip(" {"))
            yield (kind or ("instance", path, owner), crate, inner + of_owner(owner) + "ghosts",
                sum_of("\n".join([owner, *said]), "rt", functools.partial(means_in_code, here)))


def is_proof(here, trait, ghost):
    """Whether a ghost of a trait of this repository is a proof."""
    kind = here.kind(trait)
    if not kind:
        return False
    declared = "\n".join(source(kind[1]).text(block) for block in source(kind[1]).blocks(trait))
    return bool(re.search(rf"ghost {ghost}: \{{\s*\(", declared))


def head_of(here, at):
    """The head of a block of code, which may have several lines."""
    end = next(end for end in range(at, len(here.lines)) if here.lines[end].endswith(("{", "}")))
    return " ".join(line.strip() for line in here.lines[at:end + 1])


def contracts(path):
    """The contracts of a file: of public functions, and of methods of a trait's implementation."""
    here = source(path)
    crate, inner = place(path, "contract")
    owner, found = "", {}
    for at, line in enumerate(here.lines):
        if re.match(r"\S", line):
            owner = head_of(here, at) if line.startswith("impl") else ""
        head = FUNCTION.match(line)
        if head and (head[2] or " for " in owner):
            text = owner * bool(head[1]) + "\n" + here.head(at, head[1])
            name = of_owner(owner) * bool(head[1]) + head[3]
            found.setdefault((head[3], name), []).append(text)
    for (name, shown), texts in found.items():
        if CLAUSE.search("\n".join(texts)):
            yield ("contract", path, name), crate, inner + shown, sum_of("\n".join(texts), "rt",
                functools.partial(means_in_code, here))


def of_owner(line):
    """What stands before a method's name: its type, and the trait that has it."""
    line = re.sub(r"^impl(<.*?>)? | (where .*)?\{$", "", line)
    kind = line if re.search(r"<.* for |^\S+ for ", line) else re.sub(r"<.*", "", line)
    return re.sub(r"\s", "", kind.replace(" for ", "@")) + "::"


def rows(headlines):
    """The rows, by the headlines of each item."""
    found = set()
    for path in sorted(str(path.relative_to(TOP)) for path in TOP.glob("crates/*/s*/**/*")):
        kinds = []
        if re.search(r"/specs/.*\.antt$", path) and not UNCOUNTED.search(path):
            kinds = [definitions]
        elif re.search(r"/src/.*\.rt$", path):
            kinds = [types, instances, contracts]
        for kind in kinds:
            for item, crate, name, digest in kind(path):
                found.add(f"{crate} {name} {','.join(headlines.get(item, ())) or '-'} {digest}")
    return sorted(found)


def write(headlines):
    """Writes the file."""
    (TOP / PINNED).write_text(HEAD + "".join(f"{row}\n" for row in rows(headlines)))


def differences(headlines):
    """What differs from the file, a line for each row."""
    text = (TOP / PINNED).read_text() if (TOP / PINNED).exists() else ""
    lines = [line for line in text.split("\n") if line and not line.startswith("#")]
    then, now = [line for line in lines if ROW.fullmatch(line)], rows(headlines)
    yield from (f"{line} is no row" for line in lines if not ROW.fullmatch(line))
    keys = {" ".join(row.split(" ")[:2]) for row in set(now) ^ set(then)}
    for key in sorted(keys):
        old, new = ([row.split(" ")[2:] for row in side if row.startswith(key + " ")]
            for side in (then, now))
        where = " and then ".join(dict.fromkeys(row[0] for row in (*old, *new)))
        how = "is new" if not old else "is gone" if not new else (
            "is as it was" if old[0][-1:] == new[0][-1:] else "has another text")
        yield f"{key} ({where}) {how}"
    if not keys and lines == then and text != HEAD + "".join(f"{row}\n" for row in now):
        yield "its rows aren't sorted, or one is there twice"
