"""The layout of structures in C, and in Rust with repr(C), on x86-64 (System V ABI, 3.1.2)."""
import re

WIDTHS = {"u8": 1, "u16": 2, "u32": 4, "u64": 8, "usize": 8}


def layouts(structs):
    """Of structures, each with its fields as pairs of a name and a type: where each field lies, by
    the structure's and the field's name, and each size, by the structure's name alone."""
    sizes, aligns, places = dict(WIDTHS), dict(WIDTHS), {}

    def lay_out(name):
        end, most = 0, 1
        for field, kind in structs[name]:
            kind = "usize" if kind.startswith("*") else kind
            if kind not in sizes:
                lay_out(kind)
            end += -end % aligns[kind]
            places[f"{name}.{field}"] = f"{name}.{field} at {end}"
            end, most = end + sizes[kind], max(most, aligns[kind])
        sizes[name], aligns[name] = end + -end % most, most
        places[name] = f"{name} has {sizes[name]} bytes"

    for name in structs:
        lay_out(name)
    return places


def asserted(text, named):
    """What a header asserts, in the same form; `named` makes a structure's name of C's."""
    places = {f"{named(name)}.{field}": f"{named(name)}.{field} at {int(at)}"
        for name, field, at in re.findall(r"\bPK_AT\((pk_\w+), (\w+), (\d+)\);", text)}
    for name, size in re.findall(r"\bPK_SIZE\((pk_\w+), (\d+)\);", text):
        places[named(name)] = f"{named(name)} has {int(size)} bytes"
    return places
