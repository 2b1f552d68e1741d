#!/usr/bin/env python3
"""Writes the listings of the benchmarks into a folder: python3 listings.py FOLDER"""
import random
import sys


def write(name, lines):
    with open(f"{sys.argv[1]}/{name}", "w") as out:
        out.write("tree 1\n0 dir\n" + "".join(line + "\n" for line in lines))


def wide():
    """4,096 nodes: directories of 64 files each, the rows in order."""
    lines = []
    for i in range(63):
        top = len(lines) + 1
        lines.append(f"{top} dir 0 dir{i:03d}")
        lines += [f"{top + 1 + f} file {top} file{f:03d}.c" for f in range(64)]
    return lines[:4095]


def mixed():
    """4,096 nodes, the names in no order."""
    chance = random.Random(7)
    lines, dirs, taken = [], [0], set()
    while len(lines) < 4095:
        parent = chance.choice(dirs)
        name = "".join(chance.choice("abcdefghij") for _ in range(8))
        if (parent, name) in taken:
            continue
        taken.add((parent, name))
        number = len(lines) + 1
        kind = "dir" if chance.random() < 0.1 else "file"
        lines.append(f"{number} {kind} {parent} {name}")
        if kind == "dir":
            dirs.append(number)
    return lines


def deep():
    """A path of ten parts, and a chain of links: l31 follows 32 of them, each with a target of four parts."""
    lines = [f"{i + 1} dir {i} part{i}" for i in range(9)] + ["10 file 9 part9", "11 dir 0 d", "12 file 11 f"]
    lines.append("13 link 11 l0 ./../d/f")
    lines += [f"{13 + i} link 11 l{i} ./../d/l{i - 1}" for i in range(1, 33)]
    return lines


def tower():
    """4,000 directories, each in the one before, and a file in the last."""
    return [f"{i + 1} dir {i} d" for i in range(4000)] + ["4001 file 4000 f"]


def folders():
    """4,000 directories in the root, with nothing in them."""
    return [f"{i + 1} dir 0 d{i:04d}" for i in range(4000)]


def linked():
    """60 directories with a file, a link to the next one, and an absolute link to the file of the one after it."""
    lines = []
    for i in range(60):
        top = len(lines) + 1
        lines.append(f"{top} dir 0 d{i:02d}")
        lines.append(f"{top + 1} file {top} f")
        lines.append(f"{top + 2} link {top} next ../d{(i + 1) % 60:02d}")
        lines.append(f"{top + 3} link {top} file /d{(i + 2) % 60:02d}/f")
    return lines


def names():
    """4,096 nodes: 95 directories of 42 or 43 files each, all names different."""
    lines = [f"{i + 1} dir 0 d{i:02d}" for i in range(95)]
    return lines + [f"{i + 96} file {i % 95 + 1} file{i:04d}" for i in range(4000)]


def dead():
    """Directories in the root, 100 of them, each with a file; in the last one another file."""
    lines = [f"{i + 1} dir 0 d{i:02d}" for i in range(100)]
    return lines + [f"{i + 101} file {i + 1} f" for i in range(100)] + ["201 file 100 g"]


# of the wide one, the first 4,000 nodes and the first 3,000
listings = [("wide", wide()), ("large", wide()[:3999]), ("middle", wide()[:2999])]
listings += [("mixed", mixed()), ("deep", deep()), ("tower", tower()), ("root", []), ("folders", folders())]
for name, lines in [*listings, ("linked", linked()), ("names", names()), ("dead", dead())]:
    write(name, lines)
