#!/usr/bin/env python3
"""What a run of the gate takes, crate by crate: python3 bench/gate.py [COMMAND..] > bench/gate.tsv

Runs the command (`rt ci`, if none is given; where the toolchain keeps what passed, give it `rt ci --anew`) and looks twice a
second at the processes that it started. A process
of the prover counts for the crate that its words name, any other one for the program that runs. What is written is a
line for each with its minutes of the processor, then those of all processes as the kernel counts them, and those on the
clock. What a process did after the last look is in the sum of all alone.
"""
import os
import resource
import subprocess
import sys
import time

TICKS = os.sysconf("SC_CLK_TCK")
PAUSE = 0.5


def words_of(process):
    """The words that a process was started with."""
    with open(f"/proc/{process}/cmdline", "rb") as file:
        return file.read().decode(errors="replace").split("\0")


def state_of(process):
    """The parent of a process, its own seconds of the processor, and when it was started (numbers are used again)."""
    with open(f"/proc/{process}/stat") as file:
        fields = file.read().rpartition(")")[2].split()
    return int(fields[1]), (int(fields[11]) + int(fields[12])) / TICKS, fields[19]


def name_of(words):
    """What a process counts for: a crate, or a program."""
    if "--crate-name" in words[:-1]:
        return words[words.index("--crate-name") + 1]
    return os.path.basename(words[0]) or "?"


def look(top, seen):
    """Notes for each process below one what it counts for and how many seconds it took so far."""
    parents, took, started = {}, {}, {}
    for entry in os.listdir("/proc"):
        if entry.isdigit():
            try:
                parents[int(entry)], took[int(entry)], started[int(entry)] = state_of(entry)
            except (OSError, ValueError, IndexError):
                continue
    for process in took:
        if not is_below(process, top, parents):
            continue
        try:
            words = words_of(process)
        except OSError:
            continue
        # (one that has ended, and that its parent has not looked at, has no words any more)
        key = (process, started[process])
        name = seen[key][0] if words == [""] and key in seen else name_of(words)
        seen[key] = (name, took[process])


def is_below(process, top, parents):
    """Whether a process was started by another one, or by what that started."""
    while process in parents and process != top:
        process = parents[process]
    return process == top


def main():
    command = sys.argv[1:] or ["rt", "ci"]
    begun = time.monotonic()
    running = subprocess.Popen(command, stdout=sys.stderr)
    seen, status = {}, None
    while status is None:
        look(running.pid, seen)
        time.sleep(PAUSE)
        status = running.poll()
    spent = resource.getrusage(resource.RUSAGE_CHILDREN)
    minutes = {}
    for name, seconds in seen.values():
        minutes[name] = minutes.get(name, 0) + seconds / 60
    for name in sorted(minutes):
        print(f"{name}\t{minutes[name]:.1f}")
    print(f"all, user\t{spent.ru_utime / 60:.1f}")
    print(f"all, system\t{spent.ru_stime / 60:.1f}")
    print(f"on the clock\t{(time.monotonic() - begun) / 60:.1f}")
    return status


if __name__ == "__main__":
    sys.exit(main())
