#!/usr/bin/env python3
"""million.py SEED LINES: a made trace of LINES lines, for timing the trace program of document 01. One gateway in ordinary use: one opening with
limits, then requests and their outcomes at growing times, with blocks and back-offs among them, and few refusals. A million lines span a year."""
import random
import sys

from make import Idea

OPENED, IMSI, INTERVALS, PARAMETERS, A1, S1 = 1_700_000_000, 1_010_123_456_789, [60, 120, 240, 480, 960], [1, 0, 12, 10, 12, 20], 18, 20
# by service: the column, and causes as they may come, with rows and without
CAUSES = (((0, 2), (0, 3), (0, 8), (0, 11), (0, 12), (0, 15), (0, 17), (0, 17), (0, 22), (0, 22), (0, 95)),
          ((1, 3), (1, 7), (1, 9), (1, 10), (1, 11), (1, 14), (1, 15), (1, 16), (1, 17), (1, 22), (1, 111)),
          tuple((2, cause) for cause in (8, 26, 26, 26, 27, 28, 29, 31, 32, 33, 33, 34, 34, 36, 38, 39, 101)),
          ((3, 8), (3, 21), (3, 38), (3, 38), (3, 41), (3, 42), (3, 47), (3, 69), (3, 96), (4, 17), (4, 21), (4, 97)))
SETTINGS = ("A AT+NFM=?", "A AT+NFM=1", "A AT+NFM=1,1", "A AT+NFMCI=60,120,240,480,960")


def trace(seed, count):
    r = random.Random(seed)
    pick, chance = r.choice, r.random
    idea = Idea(OPENED, IMSI, INTERVALS, PARAMETERS, A1, S1)
    yield f"O {OPENED} {IMSI} {','.join(map(str, INTERVALS))} {','.join(map(str, PARAMETERS))} 1,24,2 {A1} {S1}"
    t, asked = OPENED, []
    for n in range(1, count):
        t += int(chance() * chance() * 120)
        x = chance()
        if n % 50_000 == 25_000:
            yield SETTINGS[n // 50_000 % 4]
        elif x < 0.003:
            yield pick((f"Q {t} 6", f"J {t} 2 256 0 2", f"J {t} 3 8 0 2", f"G {t - 1000} 3", f"Q {t} {2 if idea.standing[2] == 2 else 4}"))
        elif x < 0.06:
            idea.clock(t)
            yield f"T {t}"
        elif asked and x < 0.6:
            service = asked.pop()
            x = chance()
            if x < 0.7:
                idea.outcome("G", t, service)
                yield f"G {t} {service}"
            elif x < 0.82:
                idea.outcome("S", t, service)
                yield f"S {t} {service}"
            else:
                (column, cause), second = pick(CAUSES[service]), pick((0, 1))
                idea.outcome("J", t, service, cause, second, column)
                yield f"J {t} {service} {cause} {second} {column}"
        elif idea.standing[2] == 2 and x < 0.8:
            if x < 0.65:
                idea.dropped(t)
                yield f"D {t}"
            else:
                idea.request(t, 4)
                yield f"Q {t} 4"
        else:
            idle = [s for s in (0, 1, 2, 2, 3, 3, 3) if idea.standing[s] == 0] if x < 0.99 else []
            request = pick(idle) if idle else 5
            if idea.request(t, request):
                asked = asked + [request] if request < 4 else []
            yield f"Q {t} {request}"


if __name__ == "__main__":
    sys.stdout.writelines(line + "\n" for line in trace(int(sys.argv[1]), int(sys.argv[2])))
