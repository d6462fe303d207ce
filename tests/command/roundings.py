"""roundings.py PROGRAM: a fraction with six decimals (roundings.c), rounded down and up, beside Python's fractions."""
import random
import subprocess
import sys

from program import agree, decimals

LEAST, MOST = -(2**63), 2**63 - 1
ENDS = (LEAST, LEAST + 1, -(10**18), -3000001, -1000001, -1000000, -999999, -3, -2, -1)
RANDOM = 100000


def whole(source):
    """A number of any length, either sign."""
    return source.randrange(-(2 ** source.randrange(1, 64)), 2 ** source.randrange(1, 64))


def fractions():
    ends = sorted({0, *ENDS, *(min(MOST, -end) for end in ENDS)})
    yield from ((above, below) for above in ends for below in ends)
    source = random.Random(1)
    for _ in range(RANDOM):
        below = abs(whole(source)) or 1
        yield whole(source), below
        # A whole number of millionths, where rounding begins, and the fractions beside it.
        millionths, part = whole(source), source.randrange(1, 2 ** source.randrange(1, 44))
        if abs(millionths * part) < MOST:
            yield from ((millionths * part + step, 10**6 * part) for step in (-1, 0, 1))


def main():
    asked = list(fractions())
    lines = "".join(f"{above} {below}\n" for above, below in asked)
    done = subprocess.run([sys.argv[1]], input=lines, stdout=subprocess.PIPE, text=True, check=True)
    told = done.stdout.splitlines()
    agree("the fractions that are told", len(told), len(asked))
    for (above, below), line in zip(asked, told):
        agree(f"{above}/{below}", line, f"{decimals(f'{above}/{below}', False)} {decimals(f'{above}/{below}', True)}")
    print(f"{len(told)} fractions with decimals as Python's")


main()
