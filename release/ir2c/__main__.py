"""ir2c: translates the module of a whole program, as LLVM's text, into one C file.

    python3 release/ir2c MODULE.ll > program.c

It knows what Rattle's LLVM backend writes of a program without threads, and stops with the line
at anything else. The C file and `runtime.c` are then the program, for any system with gcc or
clang.
"""

import sys

from module import Reader
from program import Program
from words import Stop


def main():
    """Reads the module that is named, and writes C, or says what is not known."""
    if len(sys.argv) != 2:
        print("usage: ir2c MODULE.ll", file=sys.stderr)
        return 2
    with open(sys.argv[1], encoding="ascii") as it:
        text = it.read()
    try:
        lines = list(Program(Reader(text).read()).text())
    except Stop as it:
        print(f"ir2c: {sys.argv[1]}: {it}", file=sys.stderr)
        return 1
    sys.stdout.write("\n".join(lines) + "\n")
    return 0


if __name__ == "__main__":
    sys.exit(main())
