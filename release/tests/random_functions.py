"""Tries random functions: the kit's clang from the module, beside each compiler here from the
translator's C.

    random_functions.py FIRST LAST      the seeds
"""

import random
import sys
import tempfile

import common
import generated
from by_hand import HELPERS

FUNCTIONS, ROWS = 10, 120


def rows(seed):
    """Pairs of arguments, small ones among them."""
    chance = random.Random(seed)
    for number in range(FUNCTIONS * ROWS):
        a, b = chance.randrange(2**64), chance.randrange(2**64)
        if number % 3 == 0:
            a, b = a >> (a & 63), b >> (b & 63)
        yield number % FUNCTIONS, a, b


def main():
    """Tries the seeds."""
    first, last = int(sys.argv[1]), int(sys.argv[2])
    wrong = answers = 0
    with tempfile.TemporaryDirectory() as room:
        for seed in range(first, last + 1):
            made = generated.functions(seed, FUNCTIONS)
            text = common.module(made, generated.text(seed) + HELPERS)
            asked = list(rows(seed))
            wanted = common.answers(common.by_ir(room, text, FUNCTIONS), asked)
            if len(wanted) != len(asked):
                sys.exit(f"seed {seed}: the kit's clang: {wanted[-3:]}")
            for way in common.ways():
                found = common.answers(common.by_c(room, text, FUNCTIONS, way), asked)
                answers += len(found)
                if found != wanted:
                    wrong += 1
                    at = next(k for k, it in enumerate(wanted) if found[k : k + 1] != [it])
                    print(f"seed {seed}: {' '.join(way)}: {asked[at]}: {found[at:][:1]}")
                    print(f"    and not {wanted[at]}")
    print(f"random: seeds {first} to {last}, {answers} answers, {wrong} programs wrong")
    return wrong != 0


if __name__ == "__main__":
    sys.exit(main())
