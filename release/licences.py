"""Copies the licences of the crates whose code a module has, and says which crates have none.

    licences.py MODULE.ll CRATES KIT FOLDER

CRATES has the repository's own crates, and KIT those of the toolchain.
"""

import os
import re
import shutil
import sys

FUNCTION = re.compile(r'^define [^"@]*@"?([\w]+)::', re.MULTILINE)
# Parts of the toolchain itself. It comes with no licence for them.
UNLICENSED = set("core io libc os std std_alloc std_collections std_heap std_io".split())
TEXT = """The crates whose compiled code pua.c has, and their licences.

pua itself, ISC, in LICENSE one folder up:
    {own}

Crates that the toolchain ports from Rust's, each with the licences that are beside this page:
    {ported}

Parts of the toolchain itself, core, the standard library and what they rest on:
    {unlicensed}

The toolchain comes with no licence text for these parts. Whoever passes this archive on, or a
program built from it, has to ask those from whom the toolchain is.
"""


def licences_of(folder):
    """The names of the licences in a crate's folder."""
    names = sorted(os.listdir(folder)) if os.path.isdir(folder) else []
    return [it for it in names if it.startswith("LICENSE")]


def main():
    """Copies the licences."""
    module, crates, kit, folder = sys.argv[1:]
    with open(module, encoding="ascii") as it:
        names = sorted(set(FUNCTION.findall(it.read())))
    found = {"own": [], "ported": [], "unlicensed": []}
    os.mkdir(folder)
    for name in names:
        files = licences_of(f"{kit}/{name}")
        if os.path.isdir(f"{crates}/{name}"):
            found["own"].append(name)
        elif files:
            found["ported"].append(name)
            os.mkdir(f"{folder}/{name}")
            for file in files:
                shutil.copyfile(f"{kit}/{name}/{file}", f"{folder}/{name}/{file}")
        elif name in UNLICENSED:
            found["unlicensed"].append(name)
        else:
            sys.exit(f"licences: the crate {name} has no licence, and is no part of the toolchain")
    texts = {kind: ", ".join(among) for kind, among in found.items()}
    with open(f"{folder}/README", "w", encoding="ascii") as it:
        it.write(TEXT.format(**texts))


if __name__ == "__main__":
    main()
