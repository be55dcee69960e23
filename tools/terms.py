"""Reads the definitions of specs/ and the contracts of src/ by name, for `tools/believe`."""
import functools
import re
import sys
from pathlib import Path

TOP = Path(__file__).resolve().parents[1]
# Words of definitions that name nothing, and those that were found to name nothing.
NAMELESS = re.compile(r"pub|abbrev|unfoldable|data|record|where|if|then|else|let|in|Type|Unit|tt|⊥"
    r"|[0-9]+|0x[0-9a-f]+|[_→×=λ|:]|.*◌.*")
unknown = set()
# The proofs and worked examples of specs/.
UNCOUNTED = re.compile(r"/(Examples\w*|\w*Proof)\.antt$")


@functools.cache
def lines_of(path):
    """The lines of a file."""
    return (TOP / path).read_text(encoding="utf-8").split("\n")


def words(text):
    """The words of a term; what stands behind a dot belongs to the word before it."""
    text = re.sub(r"\"[^\"]*\"|[)}]\.[\w.]+", " ", text)
    return list(filter(None,
        (word.strip(".:") for word in re.findall(r"[^\s(){}\[\],;\"]+", text))))


def variables(text):
    """The words that binders bring in: (x y : T), λ x y., let x =."""
    found = re.findall(r"[({]([^(){}:]+) :", text) + re.findall(r"let (\S+) (?::[^=]*)?=",
        text)
    found += [re.sub(r" : [^()]*", "", binder)
        for binder in re.findall(r"λ ([^.λ]*)\.(?=\s)", text)]
    return {word for binder in found for word in words(binder)}


def without_labels(text):
    """A text without the labels of records."""
    return re.sub(r"([{;]\s*)\w+ = ", r"\1", text)


def imports(text, keyword):
    """What lines of use bring in: names with where they stand, and short names of modules."""
    names, modules = {}, {}
    found = re.findall(keyword + r" ([\w.]+?)(?:\.\{(.*)\}| as (\w+));?$", text, flags=re.M)
    if len(found) != len(re.findall(keyword + r"\b", text, flags=re.M)):
        sys.exit(f"tools/believe: a line of use has another form in\n{text[:200]}")
    for path, listed, short in found:
        if short:
            modules[short] = path
        for one in filter(None, listed.split(", ")):
            name, _, other = one.partition(" as ")
            names[(other or name).strip("◌")] = (path, name.strip("◌"))
    return names, modules


def sides(clause):
    """Both sides of an equation; a signature, and what isn't one, is all right side."""
    depth = 0
    for at, letter in enumerate(clause):
        depth += (letter in "({") - (letter in ")}")
        if depth == 0 and re.match(r"\s=\s", clause[at:at + 3]):
            return clause[:at], clause[at + 2:]
        if depth == 0 and clause[at:at + 2] == " :":
            break
    return "", clause


class Module:
    """A file of specs/: where each definition stands, and what the names in it are."""

    def __init__(self, path):
        self.path, self.blocks, self.makers = path, {}, {}
        self.names, self.modules = imports("\n".join(lines_of(path)),
            r"^(?:unfoldable )?(?:pub )?use")
        self.read()

    def read(self):
        """Finds the blocks: comment, signature and equations of each definition, and the head of a
        module of parameters round it."""
        name = above = None
        shared = ""
        for at, line in enumerate(lines_of(self.path)):
            shared = line if line.startswith("module ") else "" if re.match(r"\S", line) else shared
            text = line[2:] if shared else line
            if not text or line == shared or re.match(r"(unfoldable )?(pub )?use |pub mod |-- ----",
                    text):
                name = above = None
            elif text.startswith(("--", "infix", "unfolding ")):
                above = at if above is None else above
            elif self.begun(text):
                name = self.begun(text)
                self.blocks[name] = [at if above is None else above, at, shared]
                above = None
            elif name is None:
                sys.exit(f"{self.path}:{at + 1}: this line belongs to no definition")
            else:
                self.blocks[name][1] = at
        for name, (first, last, _) in self.blocks.items():
            self.makers |= {maker: name
                for maker in self.makers_in("\n".join(lines_of(self.path)[first:last + 1]))}

    @staticmethod
    def begun(text):
        """The name of the definition that a line begins."""
        found = re.match(
            r"(?:pub )?(?:data|record) (\S+)|(?:(?:pub|abbrev|unfoldable) )*(\S+) :(?: |$)", text)
        return found and (found[1] or found[2]).strip("◌")

    @staticmethod
    def makers_in(text):
        """The constructors of a `data`."""
        return re.findall(r"^  (\S+) :", text, flags=re.M) if re.search(r"^(pub )?data ", text,
            flags=re.M) else []

    def find(self, name):
        """The item of a name that stands in this file, or goes through it."""
        if name in self.blocks or name in self.makers:
            return ("definition", self.path, self.makers.get(name, name))
        return named(*self.names[name]) if name in self.names else None

    def resolve(self, word):
        """The item of a word."""
        first, *others = word.split(".")
        return named(self.modules[first],
            others[0]) if others and first in self.modules else self.find(first)

    def is_maker(self, word):
        """Whether a word of a pattern is no variable."""
        first, *others = word.split(".")
        if others and first in self.modules or first in self.makers:
            return True
        item = named(*self.names[first]) if first in self.names else None
        return item is not None and (item[0] != "definition"
            or self.names[first][1] in module(item[1]).makers)

    def references(self, name):
        """The items that a definition cites."""
        first, last, shared = self.blocks[name]
        body = "\n".join(line for line in lines_of(self.path)[first:last + 1]
            if not re.match(r"\s*(--|infix|unfolding )", line))
        if re.match(r"(pub )?record ", body):
            return self.cited_by_fields(body)
        return set().union(*map(self.cited,
            re.split(r"\n(?! )", body) + [shared.removeprefix("module _")]))

    def cited_by_fields(self, body):
        """What a record cites: a field's name is a variable only in the fields behind it."""
        head, *fields = re.split(r"\n(?=  (?:pub )?\S+ :)", body)
        found, before = self.cited(head), variables(head)
        for field in fields:
            name, kind = re.split(r"\s:\s+", field.strip().removeprefix("pub "), maxsplit=1)
            found |= self.cited(kind, before)
            before |= {name}
        return found

    def cited(self, clause, before=frozenset()):
        """What a signature or an equation cites: its words, but for variables and labels."""
        left, right = sides(clause)
        bound = before | variables(clause) | {word
            for word in words(left) if not self.is_maker(word)}
        cited = [word for word in words(without_labels(right)) if word.split(".")[0] not in bound]
        cited += filter(self.is_maker, words(left))
        found = {word: self.resolve(word) for word in cited}
        unknown.update((self.path, word)
            for word in found if not found[word] and not NAMELESS.fullmatch(word))
        return set(found.values()) - {None}


class Source:
    """A file of src/: its types, and its functions' contracts."""

    def __init__(self, path):
        self.path, self.crate, self.lines, self.uses = path, path.split("/")[1], lines_of(path), {}
        text = "\n".join(self.lines)
        self.names, self.modules = imports(text, r"^ *ghost use")
        for listed in re.findall(r"^(?:pub(?:\(crate\))? )?use ([^;]*);", text, flags=re.M):
            self.add_uses(re.sub(r"\s", "", listed))

    def add_uses(self, listed):
        """Keeps the names of a line of use, with their paths."""
        path, braces, names = listed.partition("::{")
        if not braces:
            path, _, names = listed.rpartition("::")
        self.uses |= {name: path.split("::") + [name] for name in names.rstrip("}").split(",")}

    @functools.cached_property
    def declared(self):
        """Where each type, trait and alias is declared, and each model: first and last line, with
        what is written above."""
        found = {}
        for at, line in enumerate(self.lines):
            begun = re.match(
                r"(?:pub(?:\(crate\))? )?(struct|enum|trait|type) (\w+)|(impl)\b.* Model for (\w+)",
                line)
            if begun:
                last = at if line.endswith((";", "}")) else self.lines.index("}", at)
                while self.lines[at - 1].startswith(("///", "#[", "// ")):
                    at -= 1
                found[begun[1] or "model", begun[2] or begun[4]] = (at, last)
        return found

    def blocks(self, name):
        """The declaration of a type or a trait, and the type's model."""
        return [self.declared[kind, name] for kind in ("struct", "enum", "trait", "type", "model")
            if (kind, name) in self.declared]

    def text(self, block):
        """The lines of a block."""
        return "\n".join(self.lines[block[0]:block[1] + 1])

    def is_trait(self, name):
        """Whether a name is a trait's."""
        return ("trait", name) in self.declared

    def resolve(self, word):
        """The item of a word of a clause."""
        first, *others = word.split(".")
        if others and first in self.modules:
            return named(self.modules[first], others[0])
        return named(*self.names[first]) if first in self.names else self.kind(first)

    def kind(self, name):
        """The type of a name of the code."""
        if self.blocks(name):
            return ("type", self.path, name)
        return of_path(self.crate, self.uses[name]) if name in self.uses else None

    def constant(self, name):
        """The declaration of a constant of the code."""
        found = re.search(rf"^(?:pub(?:\(crate\))? )?const ({name}: [^;]*);", "\n".join(self.lines),
            flags=re.M) if name.isupper() else None
        if found:
            return ("constant", found[1])
        file = name.isupper() and name in self.uses and file_of(self.crate, self.uses[name])
        return source(file).constant(name) if file and file != self.path else None

    def cited(self, clauses, code):
        """What clauses and code cite; a trait is what its implementers promise, and isn't
        followed."""
        found = {self.kind(name) for name in re.findall(r"\b[A-Z]\w+", code)}
        for _, clause in clauses:
            bound = variables(clause)
            cited = [word for word in words(without_labels(clause))
                if word.split(".")[0] not in bound]
            found |= {self.resolve(word) for word in cited}
            unknown.update((self.path, word)
                for word in cited if word.startswith(("Rattle.", "package.")))
        return {item for item in found if item
            and not (item[0] == "type" and source(item[1]).is_trait(item[2]))}

    def references(self, name):
        """What a type's declaration and model cite: its fields, or what its model shows in their
        place, and those fields that this names. Invariants and what a value owns are proved of each
        value, so they needn't be believed."""
        declared, *model = (parts(self.text(block)) for block in self.blocks(name))
        shown = [clause for clauses, _ in model
            for ghost, clause in clauses if ghost in ("Value", "view")]
        fields = [line for line in declared[1].split("\n") if not model
            or is_shown(line, " ".join(shown))]
        return self.cited([("", clause) for clause in shown], "\n".join(fields))

    def head(self, at, indent):
        """The lines of a function's head, with its clauses, from a line on."""
        opened = re.compile(indent + r"(\{|\{\}|\S.*( \{|;|\}))$")
        end = next(end for end in range(at, len(self.lines)) if opened.match(self.lines[end]))
        return "\n".join(self.lines[at:end + 1])

    def contract(self, name):
        """The head of a function with its clauses, behind that of what it is a method of; all of a
        trait."""
        if self.is_trait(name):
            return self.text(self.declared["trait", name])
        begins = rf'( *)pub (?:extern "C" )?fn {name}\b'
        at = next((at for at, line in enumerate(self.lines) if re.match(begins, line)), None)
        if at is None:
            sys.exit(f"{self.path}: there is no public function {name}")
        indent = re.match(begins, self.lines[at])[1]
        above = [line for line in self.lines[:at] if line.startswith("impl")] if indent else []
        return "\n".join(above[-1:] + [self.head(at, indent)])

    def functions(self):
        """The public functions."""
        return re.findall(r'^ *pub (?:extern "C" )?fn (\w+)', "\n".join(self.lines), flags=re.M)


def is_shown(line, model):
    """Whether a line of a type is a field that its model names, or its fields have no names."""
    field = re.match(r" *(?:pub(?:\(crate\))? )?(\w+): ", line)
    return bool(re.search(rf"\.{field[1]}\b", model) if field
        else re.match(r"pub struct .*\(", line))


def parts(text):
    """The clauses and ghosts of a piece of code, each behind its ghost's name, and the code without
    these and without comments."""
    text = re.sub(r"//.*|^ *ghost use .*| by \{[^{}]*\}", "", text, flags=re.M)
    clauses, code, at = [], "", 0
    for found in re.finditer(r"(?:ghost (\w+)(?:: | = )|(?:requires|ensures)(?: \w+)? )\{", text):
        if found.start() >= at:
            end = end_of_braces(text, found.end())
            clauses.append((found[1] or "", text[found.end():end]))
            code, at = code + text[at:found.start()], end + 1
    return clauses, code + text[at:]


def end_of_braces(text, at):
    """Where the braces end that were opened before a place."""
    depth = 1
    while depth:
        depth += (text[at] == "{") - (text[at] == "}")
        at += 1
    return at - 1


@functools.cache
def module(path):
    return Module(path)


@functools.cache
def source(path):
    return Source(path)


def named(where, name):
    """The item of a name of a module; one that isn't of this repository is outside."""
    found = re.fullmatch(r"Rattle\.(\w+)\.specs\.(?:(declared|contracts)\.)?(.*)", where)
    if not found or not (TOP / "crates" / found[1]).exists():
        return ("outside", where, name)
    path = found[3].removesuffix(".TheVariants").split(".")
    if found[2]:
        return ("type", f"crates/{found[1]}/src/{'/'.join(path[:-1])}.rt", path[-1])
    return module(f"crates/{found[1]}/specs/{'/'.join(path)}.antt").find(name)


def of_path(crate, path):
    """The type of a path in a crate's code, if it is of this repository."""
    file = file_of(crate, path)
    return source(file).kind(path[-1]) if file else None


def file_of(crate, path):
    """The file of a path in a crate's code, if it is of this repository."""
    first, *others = path
    if first == "crate":
        return file_of(crate, others)
    if not others:
        return f"crates/{crate}/src/lib.rt"
    file = f"crates/{crate}/src/{'/'.join(path[:-1])}.rt"
    if (TOP / file).exists():
        return file
    return file_of(first, others) if (TOP / "crates" / first).exists() else None
