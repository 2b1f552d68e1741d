"""Tries for which machines the C text compiles: into an object, or with a sentence that says why
not.

No headers of these systems are here: clang's own stand for them, and `headers/string.h`.
"""

import re
import shutil
import subprocess
import sys
import tempfile

import common
from by_hand import module_of, read

MADE = ["x86_64-unknown-openbsd", "aarch64-unknown-openbsd", "riscv64-unknown-openbsd"]
MADE += ["x86_64-unknown-linux-gnu", "aarch64-unknown-linux-gnu"]
REFUSED = {
    "i386-unknown-openbsd": "addresses and longs of 64 bits",
    "arm-unknown-openbsd": "addresses and longs of 64 bits",
    "powerpc-unknown-openbsd": "addresses and longs of 64 bits",
    "sparc64-unknown-openbsd": "low byte of a number first",
    "powerpc64-unknown-openbsd": "low byte of a number first",
    "mips64-unknown-openbsd": "low byte of a number first",
}


def clang_of(target):
    """A clang that knows the target, or none."""
    for clang in (shutil.which("clang"), common.kit_clang()):
        if clang and compiled(clang, target, "/dev/null", "-x", "c")[0] == 0:
            return clang
    return None


def compiled(clang, target, file, *more):
    """How clang ends for a target, and what it says."""
    words = ["-O1", "-w", "-ffreestanding", "-nostdlibinc", "-fno-stack-protector", *more]
    files = ["-isystem", f"{common.HERE}/headers", "-c", file, "-o", "/dev/null"]
    how = dict(stdout=subprocess.PIPE, stderr=subprocess.PIPE, universal_newlines=True)
    ran = subprocess.run([clang, f"--target={target}", *words, *files], **how)
    return ran.returncode, ran.stderr


def is_right(status, said, sentence):
    """Whether an object was made, or was not made for this reason."""
    if sentence is None:
        return status == 0
    return status != 0 and "#error" in said and sentence in said


def main():
    """Tries all targets."""
    wrong = tried = 0
    text = module_of(read(f"{common.HERE}/by_hand.txt"))
    with tempfile.TemporaryDirectory() as room:
        file = f"{room}/hand.c"
        with open(file, "w", encoding="ascii") as it:
            # (what is static and not called is no part of an object)
            it.write(re.sub("^static u64", "u64", common.translate(room, text)[0], flags=re.M))
        asked = [(target, [], None) for target in MADE]
        asked += [(target, [], sentence) for target, sentence in REFUSED.items()]
        asked.append((MADE[0], ["-ffast-math"], "without -ffast-math"))
        for target, more, sentence in asked:
            clang = clang_of(target)
            if clang is None:
                print(f"{target}: no clang here makes objects for it")
                continue
            tried += 1
            status, said = compiled(clang, target, file, *more)
            if not is_right(status, said, sentence):
                wrong += 1
                print(f"{target}: status {status}: {said[:600]}")
    print(f"machines: {tried} tried, {wrong} wrong")
    return wrong != 0


if __name__ == "__main__":
    sys.exit(main())
