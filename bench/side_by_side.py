#!/usr/bin/env python3
"""Prints the tables of docs/BENCHMARKS.md, `pua` beside the plain Rust program: python3 side_by_side.py PUA [TURNS]

PUA is the program `pua`; the plain one is built from bench/plain/pua.rs by `rustc -O`. Both take turns on the same
inputs, made by listings.py, scripts.py and tools/list.pl. A time is that which the processor spent on a program, user
and system together, the least of TURNS runs (5): other work on the machine lengthens it less than the time on the
clock. Where a run is short, the time of the same program over an empty tree is taken away. A row where the outputs
of both differ says so."""
import functools
import hashlib
import os
import pathlib
import signal
import subprocess
import sys
import tempfile
import threading

TOP = pathlib.Path(__file__).resolve().parents[1]
PUA = str(pathlib.Path(sys.argv[1]).resolve())
TURNS = int(sys.argv[2]) if len(sys.argv) > 2 else 5
PIECE = 1 << 16
# A program that takes longer than this is stopped.
SECONDS = 60


def run(words, lines=None):
    """The output's hash, its lines and the seconds of one run, cut after so many lines if that is given. A program that
    is stopped has no seconds."""
    read = os.pipe()
    ends = [(os.POSIX_SPAWN_DUP2, read[1], 1), (os.POSIX_SPAWN_CLOSE, read[0])]
    ends.append((os.POSIX_SPAWN_OPEN, 2, "/dev/null", os.O_WRONLY, 0))
    pid = os.posix_spawn(words[0], words, {}, file_actions=ends)
    os.close(read[1])
    stop = threading.Timer(SECONDS, os.kill, (pid, signal.SIGKILL))
    stop.start()
    seen, count = hashlib.md5(), 0
    while piece := os.read(read[0], PIECE):
        if lines is not None and count + piece.count(b"\n") >= lines:
            seen.update(b"".join(piece.splitlines(True)[:lines - count]))
            count = lines
            break
        seen.update(piece)
        count += piece.count(b"\n")
    os.close(read[0])
    _, status, used = os.wait4(pid, 0)
    stop.cancel()
    return seen.hexdigest(), count, None if os.WIFSIGNALED(status) else used.ru_utime + used.ru_stime


def both(words, lines=None):
    """The least time of both programs with these words, their lines, and whether their outputs are the same."""
    best, same, count = [None, None], True, 0
    for turn in range(TURNS):
        ran = [run([program, *words], lines) for program in (PUA, PLAIN)]
        same = same and ran[0][:2] == ran[1][:2]
        count = ran[1][1]
        if None in (ran[0][2], ran[1][2]):
            return [ran[0][2], ran[1][2]], True, count
        best = [min(one[2], best[at] or one[2]) for at, one in enumerate(ran)]
        if ran[0][2] > 2:
            break
    return best, same, count


@functools.cache
def before(*words):
    """The least times of a command that is taken away from another's."""
    return both(list(words))[0]


def shown(seconds):
    if seconds is None:
        return f"over {SECONDS} s"
    if seconds < 1e-6:
        return f"{seconds * 1e9:.0f} ns"
    return f"{seconds * 1e3:.1f} ms" if seconds < 0.1 else f"{seconds:.2f} s"


def row(what, words, lines=None, less=None, per=1, count=False):
    """A line of a table: both times, of one of `per` parts, and how often the one goes into the other."""
    times, same, seen = both(words, lines)
    if None not in times:
        rest = before(*less) if less else [0, 0]
        times = [max(time - other, 1e-9) / per for time, other in zip(times, rest)]
    ratio = f"{times[0] / times[1]:.1f}" if None not in times else "-"
    cells = [what, *([f"{seen:,}"] if count else []), *map(shown, times), ratio]
    cells += [] if same else ["the outputs differ"]
    print("| " + " | ".join(cells) + " |", flush=True)


def table(*columns):
    print("\n| " + " | ".join([*columns, "`pua`", "plain Rust", "ratio"]) + " |")
    print("|" + "---|" * (len(columns) + 3))


def memory(what, words, lines=None):
    """A line with the most memory that both programs take."""
    cells = []
    for program in (PUA, PLAIN):
        run(["/usr/bin/time", "-f", "%M", "-o", "most", program, *words], lines)
        cells.append(f"{int(pathlib.Path('most').read_text().split()[-1]) / 1024:.1f} MB")
    print("| " + " | ".join([what, *cells]) + " |", flush=True)


NOTHING = ("run", "root", "empty")


def runs():
    table("Runs of 60,000 lines")
    row("look-ups (`large`, `looks`)", ["run", "large", "looks"])
    row("creates, renames and unlinks in 60 directories (`large`, `edits`)", ["run", "large", "edits"])
    row("look-ups and edits (`large`, `one`)", ["run", "large", "one"])
    row("the same by 256 processes (`large`, `many`)", ["run", "large", "many"])
    row("mkdir in 4,000 directories (`folders`, `mkdirs`)", ["run", "folders", "mkdirs"])
    row("unveils, pledges and forks (`large`, `sandbox`)", ["run", "large", "sandbox"])
    row("links (`linked`, `links`)", ["run", "linked", "links"])
    row("creates up to 64,096 names (`wide`, `fill`)", ["run", "wide", "fill"])
    table("Listings and covers")
    row("a listing of 4,096 lines, in order (`wide`)", ["run", "wide", "empty"], less=NOTHING)
    row("a listing of 4,096 lines, names in no order (`mixed`)", ["run", "mixed", "empty"], less=NOTHING)
    row("a line with a path of ten components (`deep`, `ten`)", ["run", "deep", "ten"], less=NOTHING, per=60_000)
    row("a line whose path goes through 32 links (`deep`, `through`)", ["run", "deep", "through"], less=NOTHING, per=60_000)
    row("a level of a cover, 4,000 directories below the veil (`tower`, `climb`)", ["run", "tower", "climb"],
        less=("run", "tower", "descend"), per=200 * 4000)


def audits():
    table("Long audits", "Lines")
    for limit in (3, 4):
        row(f"`middle`, no veil, limit {limit}", ["audit", "--limit", str(limit), "middle", "empty"], count=True)
    for limit in (5, 6):
        words = ["audit", "--limit", str(limit), "middle", "empty"]
        row(f"`middle`, no veil, limit {limit}, cut", words, lines=2_000_000, count=True)
    table("First lines (beyond a run over an empty tree)", "Lines")
    row("`wide`, no veil, limit 0", ["audit", "--limit", "0", "wide", "empty"], less=NOTHING, count=True)
    for name in ("large", "names"):
        words = ["audit", "--limit", "6", name, "empty"]
        row(f"`{name}`, no veil, limit 6, cut", words, lines=2, less=NOTHING, count=True)
        words = ["audit", "--limit", "6", name, f"veil-{name}"]
        row(f"`{name}`, veil on a file, limit 6, cut", words, lines=4, less=NOTHING, count=True)
    row("`tower`, veil on the root, limit 0", ["audit", "--limit", "0", "tower", "veil-tower"], less=NOTHING, count=True)
    table("Narrow veils (beyond a run over an empty tree)", "Lines")
    for name, limits in (("names", (4, 8, 16)), ("dead", (16,)), *REAL):
        for limit in limits:
            words = ["audit", "--limit", str(limit), name, f"veil-{name}"]
            row(f"`{name}`, limit {limit}", words, lines=300_000, less=NOTHING, count=True)


def objects():
    table("Lists of objects", "Lines")
    row("4,096 nodes in 63 directories (`wide`)", ["objects", "wide", "empty"], count=True)
    row("4,096 nodes, names in no order (`mixed`)", ["objects", "mixed", "empty"], count=True)
    row("4,096 nodes, as many different names (`names`)", ["objects", "names", "empty"], count=True)
    row("4,000 directories, each in the one before (`tower`)", ["objects", "tower", "empty"], count=True)
    row("`names`, a veil on a file", ["objects", "names", "veil-names"], count=True)


def peaks():
    print("\n| Peak memory | `pua` | plain Rust |\n|---|---|---|")
    memory("a run over an empty tree", list(NOTHING))
    memory("a listing of 4,096 lines (`wide`)", ["run", "wide", "empty"])
    memory("60,000 lines of edits (`large`, `edits`)", ["run", "large", "edits"])
    memory("64,096 names (`wide`, `fill`)", ["run", "wide", "fill"])
    for limit, lines in ((2, None), (4, None), (6, 2_000_000), (6, 20_000_000)):
        cut = f", cut after {lines:,} lines" if lines else ""
        memory(f"audit of `middle`, limit {limit}{cut}", ["audit", "--limit", str(limit), "middle", "empty"], lines)
    for name in ("names", "dead"):
        for lines in (3_000, 300_000):
            words = ["audit", "--limit", "16", name, f"veil-{name}"]
            memory(f"audit of `{name}`, veil on a file, limit 16, cut after {lines:,} lines", words, lines)


def listed(name, *words):
    """A listing of this machine's own directories."""
    with open(name, "wb") as out:
        done = subprocess.run(["perl", str(TOP / "tools/list.pl"), *words], stdout=out, stderr=subprocess.DEVNULL)
    return done.returncode == 0 and os.path.getsize(name) > 0


with tempfile.TemporaryDirectory() as room:
    os.chdir(room)
    PLAIN = f"{room}/plain"
    subprocess.run(["rustc", "-O", "--edition", "2024", "-o", PLAIN, str(TOP / "bench/plain/pua.rs")], check=True)
    for maker in ("listings.py", "scripts.py"):
        subprocess.run([sys.executable, str(TOP / "bench" / maker), "."], check=True)
    REAL = [("etc", (4, 5, 6))] if listed("etc", "/etc") else []
    without = [word for name in ("node", "llvm-14", "x86_64-linux-gnu") for word in ("-x", f"/usr/include/{name}")]
    REAL += [("include", (4, 8))] if listed("include", *without, "/usr/include") else []
    for name, _ in REAL:
        print(f"`{name}`: {sum(1 for _ in open(name)) - 1} names")
    runs()
    audits()
    objects()
    peaks()
