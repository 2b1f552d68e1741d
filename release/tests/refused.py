"""Tries that the translator stops at each case of `refused.txt`, says why, and names the line."""

import re
import sys
import tempfile

import common


def read(file):
    """The cases of a table: the name, the lines, and what is to be said."""
    cases = []
    with open(file, encoding="ascii") as it:
        for line in it.read().split("\n"):
            if line.startswith("# "):
                cases.append([line[2:], [], None])
            elif line.startswith("! "):
                cases[-1][2] = line[2:]
            elif cases[-1][2] is None:
                cases[-1][1].append(line)
    return [it for it in cases if it[2]]


def module(lines):
    """The module of a case. What belongs to the module itself is at the left edge."""
    data, body = [], []
    is_of_module = False
    for line in lines:
        is_of_module |= bool(re.match(r"[@%]|define|declare|attributes|module|target", line))
        (data if is_of_module else body).append(line)
        if not line.startswith("define") and (line == "}" or "define" not in "".join(data)):
            is_of_module = False
    return common.module(["\n".join(body)], "\n".join(data) + "\n")


def main():
    """Tries all cases."""
    cases = read(f"{common.HERE}/refused.txt")
    wrong = 0
    with tempfile.TemporaryDirectory() as room:
        for case, lines, wanted in cases:
            text = module(lines)
            here = [k for k, line in enumerate(text.split("\n"), 1) if line.endswith("; here")]
            made, said = common.translate(room, text.replace(" ; here", ""))
            place = f": line {here[0]}: " if here else ": "
            if made or place not in said or wanted not in said or "Traceback" in said:
                wrong += 1
                print(f"{case}: {said or 'it was translated'}")
    print(f"refused: {len(cases)} cases, {wrong} wrong")
    return wrong != 0


if __name__ == "__main__":
    sys.exit(main())
