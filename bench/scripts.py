#!/usr/bin/env python3
"""Writes the scripts of the benchmarks into a folder: python3 scripts.py FOLDER

All but `refused-1000` (2,000), `denied` (20,001), `climb`, `descend`, `empty`, the veils, and those of words (4,000) and of
sixty (20,000) have 60,000 lines. `ten` and `through` are for the listing `deep`. `one`, `many`, `looks`, `edits`, `sandbox`,
`denied`, the three `refused`, and those of words and of sixty are for the listing `large` of listings.py, which has 4,000 nodes,
`mkdirs` for `folders`, `links` for `linked`, `fill` for `wide`, `climb` and `descend` for `tower`. In `one` process 1 makes all calls; in `many` 256 processes take turns."""
import sys

LINES = 60_000
CLIMBS = 200


def calls():
    """Calls that leave the tree as it was after each eight of them."""
    turn = 0
    while True:
        folder, file = f"/dir{turn % 61:03d}", f"file{turn % 64:03d}.c"
        yield f"stat {folder}/{file}"
        yield f"create {folder}/new"
        yield f"open-w {folder}/new"
        yield f"rename {folder}/new {folder}/old"
        yield f"lstat {folder}/../{folder[1:]}/old"
        yield f"unlink {folder}/old"
        yield f"chdir {folder}"
        yield f"stat {file}"
        turn += 1


def write(name, lines):
    with open(f"{sys.argv[1]}/{name}", "w") as out:
        out.write("".join(line + "\n" for line in lines))


def one():
    made = calls()
    return [f"1 {next(made)}" for _ in range(LINES)]


def many():
    made = calls()
    forks = [f"1 fork {number}" for number in range(2, 257)]
    turns = [f"{1 + turn % 256} {next(made)}" for turn in range(LINES - len(forks))]
    return forks + turns


def looks():
    """Look-ups alone: of files, of what isn't there, of directories, and by way of the parent."""
    lines = []
    for turn in range(LINES // 6):
        folder, file = f"/dir{turn % 61:03d}", f"file{turn % 64:03d}.c"
        lines += [f"1 stat {folder}/{file}", f"1 lstat {folder}/../{folder[1:]}/{file}", f"1 open-r {folder}/none"]
        lines += [f"1 chdir {folder}", f"1 stat {file}", f"1 open-rw ./../{folder[1:]}/{file}"]
    return lines


def edits():
    """In 60 directories files are made, renamed and removed."""
    lines = []
    for turn in range(LINES // 3):
        folder = f"/dir{turn % 60:03d}"
        lines += [f"1 create {folder}/new", f"1 rename {folder}/new {folder}/old", f"1 unlink {folder}/old"]
    return lines


def mkdirs():
    """In each of 4,000 directories 15 directories are made."""
    return [f"1 mkdir /d{turn % 4000:04d}/new{turn // 4000:02d}" for turn in range(LINES)]


def sandbox():
    """255 forks, then unveils, pledges and further forks, which are refused, by all processes in turn."""
    lines = [f"1 fork {number}" for number in range(2, 257)]
    promises = "stdio,rpath,wpath,cpath,fattr,exec,proc,unveil"
    while len(lines) < LINES:
        turn = len(lines)
        process, folder = 1 + turn // 4 % 256, f"/dir{turn // 1024 % 60:03d}"
        lines += [f"{process} unveil {folder} rw", f"{process} pledge {promises} -"]
        lines += [f"{process} unveil {folder}/file{turn % 64:03d}.c r", f"{process} fork {1 + turn % 256}"]
    return lines[:LINES]


def links():
    """Paths through links, and links of both kinds made and removed."""
    lines = []
    for turn in range(LINES // 8):
        here, there = f"/d{turn % 60:02d}", f"d{(turn + 7) % 60:02d}"
        lines += [f"1 stat {here}/next/next/next/file", f"1 open-r {here}/file", f"1 readlink {here}/next/file"]
        lines += [f"1 link {here}/f {here}/g", f"1 unlink {here}/g", f"1 symlink ../{there}/f {here}/s"]
        lines += [f"1 open-w {here}/s", f"1 unlink {here}/s"]
    return lines


def fill():
    """60,000 files, in 60 directories that have 64 already."""
    return [f"1 create /dir{turn % 60:03d}/new{turn:05d}" for turn in range(LINES)]


def refused(kinds, lines_in_all=LINES):
    """Every second line is refused by a veil, so many different ones; the others make a file and take it away."""
    lines = ["1 unveil /dir000 r", "1 unveil /dir001 rwc"]
    for turn in range(lines_in_all // 2 - 1):
        edit = "unlink" if turn % 2 else "create"
        lines += [f"1 open-w /dir000/other{turn % kinds}", f"1 {edit} /dir001/new"]
    return lines


def denied():
    """20,000 lines that a veil refuses, all different, and none that changes anything."""
    return ["1 unveil /dir000 r"] + [f"1 open-w /dir000/other{turn}" for turn in range(20_000)]


def climb(times):
    """A veil on the root, and then, 4,000 directories deeper, a file's cover so many times."""
    down = "/".join(["d"] * 500)
    return ["1 unveil / r"] + [f"1 chdir {down}"] * 8 + ["1 stat f"] * times


def stats(path):
    """Resolutions of one path."""
    return [f"1 stat {path}"] * LINES


def narrow(path):
    """A veil on one file or directory, and the lock."""
    return [f"1 unveil {path} r", "1 unveil - -"]


def veiled(count, far):
    """Files with three letters each that are needed: by the next two lines, or behind all veils."""
    files = [f"/dir{turn % 61:03d}/file{turn // 61:03d}.c" for turn in range(count)]
    askers = [1 + turn // 121 for turn in range(count)]
    forks = [f"1 fork {number}" for number in range(2, askers[-1] + 1)]
    veils = [[f"{asker} unveil {file} rwc"] for asker, file in zip(askers, files)]
    needs = [[f"{asker} open-rw {file}", f"{asker} unlink {file}"] for asker, file in zip(askers, files)]
    turns = veils + needs if far else [veil + need for veil, need in zip(veils, needs)]
    return forks + [line for turn in turns for line in turn]


def sixty(needed):
    """20,000 lines of which the first give 60 letters, and the last need all of them, or none."""
    lines = veiled(20, True)
    made = calls()
    middle = [f"2 {next(made)}" for _ in range(20_000 - len(lines) - 1)]
    return ["1 fork 2"] + lines[:20] + middle + (lines[20:] if needed else middle[:40])


made = {"one": one(), "many": many(), "looks": looks(), "edits": edits(), "mkdirs": mkdirs(), "sandbox": sandbox()}
made |= {"links": links(), "fill": fill(), "climb": climb(CLIMBS), "descend": climb(0), "empty": []}
made |= {"refused": refused(LINES), "refused-300": refused(300), "refused-1000": refused(LINES, 2_000), "denied": denied()}
made |= {"ten": stats("".join(f"/part{number}" for number in range(10))), "through": stats("/d/l31")}
made |= {"veil-names": narrow("/d50/file0050"), "veil-dead": narrow("/d99/g"), "veil-etc": narrow("/etc/ssl")}
made |= {"veil-include": narrow("/usr/include/linux/can"), "veil-large": narrow("/dir030/file030.c")}
made |= {"veil-tower": narrow("/")}
made |= {"words-near": veiled(1_330, False), "words-far": veiled(1_330, True), "words-spare": ["1 pledge stdio,rpath -"] * 4_000}
made |= {"sixty-needed": sixty(True), "sixty-spare": sixty(False)}
for name, lines in made.items():
    write(name, lines)
