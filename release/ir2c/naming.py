"""Naming: what functions, texts and types of the module are called in C.

The C names are the same at each run, since they rest on the module's order alone. A function's
has the words of its path, so that a debugger or a profile tells where it is.
"""

import re

from kinds import DOUBLE, I1, I8, POINTER, VOID, Int, Struct, Vector, is_scalar, places, size
from words import Stop

# How much of a path a name has at most.
LONGEST = 48
WIDTHS = (8, 16, 32, 64, 128)


class Naming:
    """The C names of a module. Types get theirs when they are first asked for."""

    def __init__(self, module):
        self.functions, self.texts = {}, {}
        self.structs, self.lanes = {}, set()
        taken = set()
        for names, first, found in (
            (module.functions, "f_", self.functions),
            (module.texts, "g_", self.texts),
        ):
            for name in names:
                found[name] = free_name(first + shortened(name), taken)

    def kind(self, kind):
        """The C type of a kind."""
        if kind == I1:
            return "b1"
        if isinstance(kind, Int) and kind.width in WIDTHS:
            return f"u{kind.width}"
        if kind in (POINTER, DOUBLE, VOID):
            return {POINTER: "P", DOUBLE: "double", VOID: "void"}[kind]
        if isinstance(kind, Vector) and kind.of in (I1, I8):
            self.lanes.add(kind.count)
            return f"V{kind.count}"
        if isinstance(kind, Struct) and is_plain(kind):
            return self.structs.setdefault(kind, f"S{len(self.structs)}")
        raise Stop(f"a value of {kind}")

    def struct_texts(self):
        """The C text of each struct, which the C compiler holds to the places of its fields."""
        for kind, name in self.structs.items():
            fields = " ".join(f"{self.kind(it)} f{k};" for k, it in enumerate(kind.fields))
            yield f"typedef struct {{ {fields} }} {name};"
            sums = " && ".join(
                f"offsetof({name}, f{k}) == {place}" for k, place in enumerate(places(kind)[:-1])
            )
            yield f"HOLDS({name}_in_memory, sizeof({name}) == {size(kind)} && {sums});"


def is_plain(struct):
    """Whether C has the struct's fields as they are: a truth's byte may hold more than C's has."""
    return bool(struct.fields) and all(is_scalar(it) and it != I1 for it in struct.fields)


def signed(kind):
    """The C type of the same width that has a sign."""
    if not isinstance(kind, Int) or kind.width not in WIDTHS:
        raise Stop(f"a sign at {kind}")
    return f"s{kind.width}"


def shortened(name):
    """The last words of a path, without the types that it is for."""
    plain = re.sub(r"\W+", "_", re.sub(r"<.*", "", name)).strip("_")
    return plain[-LONGEST:].strip("_") or "nameless"


def free_name(name, taken):
    """The name, or with a number if it is taken. It is taken from then on."""
    found, number = name, 1
    while found in taken:
        number += 1
        found = f"{name}_{number}"
    taken.add(found)
    return found
