#!/usr/bin/env python3
"""cases.py FOLDER COUNT SEED: the outside test of the table, as FOLDER/stdin and FOLDER/stdout for
the program `damage`. First every place below the lists and the due time with every number at an
edge, the edges of the lists, and versions in other lengths, on each of the three buffers of
model.py; then COUNT random cases."""
import itertools
import random
import struct
import sys

from model import ROOM, SIZE, bases, is_good

LONGEST = 1400
EDGES = [0, 1, 2, 3, 4, 10, 11, 255, 256, 65_535, 65_536, 999, 1000, 1001, 9000, 9001, 232_830, 232_831, 2_764_472_319, 2_764_472_320,
         4_000_000_000, 4_000_000_001, 4_000_131_069, 4_000_131_070, 2**32 - 1, 0x00575250]


def fixed():
    for which in range(3):
        for length in (0, 1, 55, SIZE - 1, SIZE, SIZE + 1, LONGEST):
            yield which, length, {}
        for place in (*range(55), SIZE - 1):
            for x in EDGES:
                yield which, SIZE, {place: x}
        for version in (0, 1, 2, 3):
            for length in (SIZE - 1, SIZE + 1):
                yield which, length, {1: version}
        for k in range(5):
            n, first = bases()[which][50 + k], 55 + ROOM * k
            for x in (n - 1, n + 1):
                if x >= 0:
                    yield which, SIZE, {50 + k: x}
            for place in {first, first + 1, first + max(n, 1) - 1, first + min(n, ROOM - 1), first + ROOM - 1}:
                for x in (0, 1, 999, 1000, 8999, 9000, 9001, 4_000_000_000, 4_000_000_001):
                    yield which, SIZE, {place: x}
            # one more, with a time at each end of what is allowed
            if n < ROOM:
                for x in (999, 1000, 9000, 9001):
                    yield which, SIZE, {50 + k: n + 1, first + n: x}
        # intervals and ends that hang on a second place
        for n in range(12):
            yield which, SIZE, {9: n, 10 + n if n < 10 else 9: n and 65_535}
        for nfm in (0, 1):
            for s in range(4):
                yield which, SIZE, {6: nfm, 35: 0, 36: 0, 37: 0, 38: 0, 35 + s: 1}
        for stands in (0, 1, 2, 3):
            for end in (0, 1):
                yield which, SIZE, {6: 1, 41: stands, 37: end}


def drawn(count, seed):
    draw = random.Random(seed)
    for _ in range(count):
        edits = {}
        for _ in range(draw.choice((0, 1, 1, 1, 2, 3, 6))):
            place = draw.randrange(LONGEST) if draw.random() < 0.4 else draw.randrange(55)
            edits[place] = draw.choice(EDGES) if draw.random() < 0.7 else draw.randrange(2**32)
        length = SIZE if draw.random() < 0.9 else draw.randrange(LONGEST + 1)
        yield draw.randrange(3), length, edits


def main():
    folder, count, seed = sys.argv[1], int(sys.argv[2]), int(sys.argv[3])
    cases = itertools.chain(fixed(), drawn(count, seed))
    wide = [b + [0] * (LONGEST - SIZE) for b in bases()]
    good = 0
    with open(f"{folder}/stdin", "wb") as given, open(f"{folder}/stdout", "w") as told:
        for b in wide:
            given.write(struct.pack(f"<{LONGEST}I", *b))
        for number, (which, length, edits) in enumerate(cases, 1):
            given.write(struct.pack("<HH", which, length))
            for place, x in (list(edits.items()) + [(65_535, 0)] * 6)[:6]:
                given.write(struct.pack("<HI", place, x))
            b = list(wide[which])
            for place, x in edits.items():
                b[place] = x
            verdict = is_good(b[:length])
            good += verdict
            told.write(f"{int(verdict)}\n")
    print(f"damaged buffers: {number} cases, {good} of them good, seed {seed}")


if __name__ == "__main__":
    assert all(is_good(b) for b in bases())
    main()
