#!/usr/bin/env python3
"""make.py SEED COUNT: COUNT made traces in one stream, for the trace program of document 01. Some lines come before any `O`; then each trace
begins with one, mostly taken. One trace in a hundred fills a list, one in sixty comes back to a
limit at the edges of its seconds, one in twenty is of the two registrations, which some causes
hold together, and one in ten of the timed reset. The generator keeps an idea of where a trace
stands, so that most lines pass the checks and many times fall on an edge."""
import random
import sys

HOUR = 3_600
LATEST = 4_000_000_000
U32 = 2**32 - 1
PERMANENT = {8, 27, 28, 29, 32, 33}
COLUMNS = ((0,), (1,), (2,), (3, 4))  # by service: MM 0, GMM 1, SM 2, RP 3, CP 4
# by column: the causes on which its service backs off, of these the ones on which both registrations
# do, and the others that have a row
BACKING = ({2, 3, 5, 6, 8, 9, 17, 22, 34}, {2, 3, 6, 7, 8, 9, 16, 17, 22}, {8, 26, 27, 29, 30, 31, 32, 33, 34, 35, 38},
           {8, 10, 21, 22, 28, 29, 30, 38, 41, 42, 47, 50, 69, 81}, {17, 21})
BOTH = ({8, 9}, {2, 3, 6, 8, 9}, set(), set(), set())
OTHERS = ({4, 11, 12, 13, 15, 20, 21, 23, 32, 33, 38, 40}, {10, 11, 12, 13, 14, 15, 20, 21},
          {28, 36, 37, 39, 40, 43, 56, 112}, set(), set())
# by column: the causes on which a reset becomes due; and each of these, with what comes near: a
# column and a cause, or silence of that column's service
SETTING = ({2, 3, 6}, {2, 3, 6, 7, 8}, set(), set(), set())
FOR_GOOD = tuple((column, cause) for column in (0, 1) for cause in sorted(SETTING[column]))
NEARLY = ((0, 5), (0, 8), (1, 9), (0, None), (1, None), (0, 7), (0, 9), (1, 5), (1, 16), (2, 8), (3, 8))
LISTS = ((0,), (0,), (1, 2), (3,), (2,), (4,))  # by request: attach 0, activation 1, PDP 2, SMS 3, reset 4


def drawn(imsi, n):
    """The number of request 3 whose remainder spreads the waits."""
    x = imsi * 16 + min(n, 15)
    for shifted in (lambda x: x << 13, lambda x: x >> 7, lambda x: x << 17):
        x = (x ^ shifted(x)) % 2**64
    return x


def delay(imsi, t1):
    """From a permanent rejection until its reset is due."""
    return 324 * t1 + drawn(imsi, 0) % (72 * t1 + 1)


class Idea:
    """Where a trace stands. It steers the generator and judges no answer."""

    def __init__(self, t, imsi, intervals, parameters, a1, s1):
        self.t, self.imsi, self.intervals, self.parameters, self.a1, self.s1 = t, imsi, intervals, parameters, a1, s1
        self.nfm, self.mood = True, 0
        self.standing, self.failures, self.ends = [0] * 4, [0] * 4, [0] * 4
        self.lists = [[], [], [], [], []]
        self.due = 0

    def limits(self, request):
        """The limits that may meet a request, each with its list."""
        n1, _, f1, f2, f3, f4 = self.parameters
        if request == 2:
            return ((0, f1, f2, f3)[self.mood], 1), (f4, 2)
        return (((self.a1, 0),), ((self.a1, 0),), (), ((self.s1, 3),), ((f4, 2),), ((n1, 4),))[request]

    def request(self, t, request):
        """True when permitted."""
        fits = request == 5 or (self.standing[2] == 2 if request == 4 else request < 4 and self.standing[request] == 0)
        if not fits or not self.t <= t <= LATEST:
            return False
        self.t = t
        if request < 4 and t < self.ends[request]:
            return False
        for limit, k in self.limits(request):
            if 0 < limit <= len(self.lists[k]) and self.lists[k][-limit] + HOUR > t:
                return False
        for k in LISTS[request]:
            self.lists[k].append(t)
        if request == 5:
            self.standing, self.due = [0] * 4, 0
        elif request == 4:
            self.standing[2] = 0
        else:
            self.standing[request] = 1
        return True

    def outcome(self, letter, t, service, cause=0, second=0, column=None):
        if service > 3 or cause > 255 or second > 1 or not self.t <= t <= LATEST or self.standing[service] != 1:
            return
        if letter == "J" and column not in COLUMNS[service]:
            return
        self.t, self.standing[service] = t, 0
        if letter == "J" and cause in SETTING[column] and self.parameters[1] and not self.due:
            self.due = t + delay(self.imsi, self.parameters[1])
        if letter == "G":
            self.failures[service] = self.ends[service] = 0
            if service == 2:
                self.standing[2], self.mood = 2, 0
            return
        if service == 2:
            self.mood = 1 if letter == "S" else 2 if cause in PERMANENT else 3
        if letter == "J" and (cause not in BACKING[column] or (column, cause, second) == (2, 34, 1)):
            return
        both = letter == "J" and cause in BOTH[column]
        if self.nfm:
            for each in (0, 1) if both else (service,):
                n = self.failures[each] = min(255, self.failures[each] + 1)
                b = self.intervals[min(n, len(self.intervals)) - 1]
                self.ends[each] = t + b + drawn(self.imsi, n) % b

    def dropped(self, t):
        if self.t <= t <= LATEST and self.standing[2] == 2:
            self.t, self.standing[2] = t, 0

    def full(self, t):
        """Would N1 hold back a reset at t?"""
        n1, times = self.parameters[0], self.lists[4]
        return 0 < n1 <= len(times) and times[-n1] + HOUR > t

    def clock(self, t):
        """True when a reset is ordered."""
        if not self.t <= t <= LATEST:
            return False
        self.t = t
        if not 0 < self.due <= t or self.full(t):
            return False
        self.lists[4].append(t)
        self.standing, self.due = [0] * 4, 0
        return True

    def flag(self, a):
        self.nfm = a == 1
        if a == 0:
            self.failures, self.ends = [0] * 4, [0] * 4


def joined(numbers):
    return ",".join(map(str, numbers))


class Maker:
    def __init__(self, seed):
        self.r = random.Random(seed)
        self.idea = None
        self.lines = []
        self.edges = self.ill = self.at = 0.1
        self.steps = (0, 1)

    # Openings

    def intervals(self):
        r = self.r
        most = r.choice((2, 5, 60, 240, 240, 1000, 4000, 65_535))
        listed = sorted(r.randint(1, most) for _ in range(r.choice((1, 1, 2, 3, 3, 4, 9, 10))))
        if r.random() < 0.05:
            listed[-1] = 65_535
        return listed

    def limit(self):
        return self.r.choice(((0, 0, 0, 1, 2, 3), (1, 1, 2, 2, 3, 5), (0, 3, 8, 20, 254, 255))[self.r.choice((0, 0, 1, 1, 2))])

    def opening_time(self):
        r = self.r
        return r.choice((0, 0, 1, 1000, r.randrange(10_000), r.randrange(LATEST), r.randrange(LATEST), LATEST - r.randrange(20_000),
                         LATEST - r.randrange(3), 1_700_000_000))

    def opening(self, **fixed):
        """The fields of an opening that is taken."""
        r = self.r
        fields = {
            "t": self.opening_time(),
            "imsi": r.choice((1_010_123_456_789, 1_010_123_456_789, r.randrange(10**15), r.randrange(10**15), 0, r.randrange(10**6), 10**15 - 1)),
            "intervals": self.intervals(),
            "parameters": [self.limit() for _ in range(6)],
            "rates": [r.choice((0, 0, 1, 1, 2, 24, 255)) for _ in range(3)],
            "a1": self.limit(),
            "s1": self.limit(),
        }
        fields.update(fixed)
        return fields

    @staticmethod
    def o_line(f):
        return f"O {f['t']} {f['imsi']} {joined(f['intervals'])} {joined(f['parameters'])} {joined(f['rates'])} {f['a1']} {f['s1']}".encode()

    def open(self, **fixed):
        f = self.opening(**fixed)
        self.idea = Idea(f["t"], f["imsi"], f["intervals"], f["parameters"], f["a1"], f["s1"])
        self.lines.append(self.o_line(f))

    def refused_opening(self):
        """One field or more out of the rules' range or out of the format: the record before it goes on."""
        r, f = self.r, self.opening()
        for _ in range(r.choice((1, 1, 1, 2))):
            which = r.choice((0, 0, 0, *range(1, 16)))
            if which == 0:
                f["t"] = r.choice((LATEST + 1, LATEST + 1, LATEST + 2, U32))
            elif which == 1:
                f["imsi"] = r.choice((10**15, 10**15 + 1, 2**63, 2**64 - 1))
            elif which == 2:
                f["intervals"] = sorted(r.randint(1, 300) for _ in range(r.choice((11, 11, 12, 20, 40))))
            elif which == 3:
                f["intervals"] = [r.randint(2, 300), 1]
            elif which == 4:
                f["intervals"][:1] = [0]
            elif which == 5:
                f["intervals"][-1:] = [r.choice((65_536, 100_000, U32))]
            elif which == 6:
                f["a1"] = r.choice((256, 257, 1000, U32))
            elif which == 7:
                f["s1"] = r.choice((256, 257, 1000, U32))
            elif which == 8:
                f["t"] = r.choice((U32 + 1, 10**12, 2**64))
            elif which == 9:
                f["imsi"] = r.choice((2**64, 2**64 + 10, 10**25))
            elif which == 10:
                f["intervals"] = r.choice(([U32 + 1], [60, U32 + 1], [2**64 + 60], []))
            elif which == 11:
                f["parameters"][r.randrange(len(f["parameters"]))] = r.choice((256, 300, U32, U32 + 1))
            elif which == 12:
                f["rates"][r.randrange(len(f["rates"]))] = r.choice((256, 1000))
            elif which == 13:
                f["parameters"] = r.choice((f["parameters"][1:], f["parameters"] + [0]))
            elif which == 14:
                f["rates"] = r.choice((f["rates"][1:], f["rates"] + [0]))
            else:
                f[r.choice(("a1", "s1"))] = U32 + 1
        return self.o_line(f)

    # Times

    def edge(self):
        """A time next to a back-off's end, a due time or a permit's leaving the hour, or None."""
        r, idea = self.r, self.idea
        if r.random() < 0.5:
            near = [end + d for end in (*idea.ends, idea.due) if end for d in (-1, 0, 1)]
        else:
            times = r.choice(idea.lists)
            limits = (idea.a1, r.choice(idea.parameters[2:5]), idea.parameters[5], idea.s1, idea.parameters[0])
            picked = times[-4:]
            for limit in limits:
                if 0 < limit <= len(times):
                    picked.append(times[-limit])
            near = [p + d for p in picked for d in (HOUR - 1, HOUR, HOUR + 1)]
        near = [t for t in near if t >= idea.t]
        return r.choice(near) if near else None

    def time(self):
        r, idea = self.r, self.idea
        x = r.random()
        if x < self.edges:
            t = self.edge()
            if t is not None:
                return t
        if x > 0.985:
            return r.choice((0, idea.t - 1 if idea.t else 0, idea.t // 2, LATEST + 1, LATEST + 1, U32, U32 + 1))
        if x > 0.984:
            return r.choice((LATEST - 1, LATEST))
        if x > 0.965:
            silence = r.choice((r.randint(1, 3) * HOUR + r.randint(-1, 1), r.randint(1, 400) * HOUR, r.randrange(10**6), r.randrange(4 * 10**7)))
            return min(idea.t + silence, LATEST)
        t = idea.t + r.choice(self.steps)
        return min(t, LATEST) if r.random() < 0.95 else t

    # Calls: the letter, then the numbers; of an AT line, the bytes and what they set

    def column(self, service):
        """A column of the service, seldom one of another or one that there is not."""
        r = self.r
        if service < 4 and r.random() < 0.95:
            return r.choice(COLUMNS[service])
        return r.choice((0, 1, 2, 3, 4, 4, 5, 6, 255, U32))

    def cause(self, column):
        """A cause of that column, with a row there or without one, by turns on the edge of the
        tables; or one that another column has a row for."""
        r = self.r
        rows = sorted(BACKING[column] | OTHERS[column]) if column < 5 else (8,)
        strange = r.choice((0, 1, 7, 10, 14, 16, 18, 24, 25, 27, 36, 41, 44, 57, 63, 64, 65, 68, 70, 80, 82, 127, 128, 255, 256))
        other = r.choice(sorted(r.choice(BACKING)))
        return r.choice((r.choice(rows), r.choice(rows), r.choice(rows), r.choice(rows), self.weighty(column),
                         r.randrange(50), r.randrange(256), strange, other))

    def weighty(self, column):
        """A cause that matters most in its column: of MM and GMM one for both registrations."""
        r = self.r
        return r.choice(((8, 9, 2), (2, 3, 6, 8, 9, 7), (27, 28, 33, 34, 34, 39), (22, 69, 81), (17, 21))[column] if column < 5 else (8,))

    def rejection(self, service):
        r = self.r
        column = self.column(service)
        return "J", self.time(), service, self.cause(column), r.choice((0, 0, 0, 1, 1, 1, r.choice((0, 1, 1, 2, U32)))), column

    def blind(self):
        """A call that asks nothing of the standing and leaves some ranges."""
        r = self.r
        service = r.choice((0, 1, 2, 2, 3, 4, 5, 6, 7, U32))
        column = self.column(service)
        return r.choice((("Q", self.time(), service), ("G", self.time(), service), ("S", self.time(), service), ("D", self.time()),
                         ("J", self.time(), service, r.choice((self.cause(column), 256, U32)), r.choice((0, 1, 2)), column)))

    def call(self):
        r, standing = self.r, self.idea.standing
        x = r.random()
        if x < 0.04 or self.idea.due and x > 0.9:
            return "T", self.time()
        if x < 0.10:
            return self.blind()
        asked = [s for s in range(4) if standing[s] == 1]
        if asked and r.random() < 0.75:
            service = r.choice(asked)
            return r.choice((("G", self.time(), service), ("S", self.time(), service), self.rejection(service), self.rejection(service)))
        if standing[2] == 2 and r.random() < 0.6:
            return r.choice((("D", self.time()), ("Q", self.time(), 4), ("Q", self.time(), 4)))
        return "Q", self.time(), r.choice([s for s in (0, 1, 2, 2, 2, 3) if standing[s] == 0] + [5])

    def act(self, call):
        """Adds a call's line, and moves the idea."""
        idea, letter = self.idea, call[0]
        if letter == "A":
            _, line, flag, intervals = call
            if flag is not None:
                idea.flag(flag)
            if intervals:
                idea.intervals = intervals
        elif letter == "Q":
            idea.request(*call[1:])
        elif letter == "D":
            idea.dropped(call[1])
        elif letter == "T":
            idea.clock(call[1])
        else:
            idea.outcome(*call)
        self.lines.append(self.text(call))

    @staticmethod
    def text(call):
        return b"A " + call[1] if call[0] == "A" else " ".join(map(str, call)).encode()

    def at_call(self):
        r = self.r
        which = r.randrange(8)
        if which < 3:
            a = r.choice((0, 1, 1))
            return "A", b"AT+NFM=%d" % a + r.choice((b"", b",0", b",1")), a, None
        if which == 3:
            return "A", b"AT+NFM=?", None, None
        if which < 6:
            listed = r.choice((self.intervals(), [65_535] * r.choice((9, 10)), [r.randint(1, 200)]))
            return "A", b"AT+NFMCI=" + joined(listed).encode(), None, listed
        return "A", self.bad_at(), None, None

    def bad_at(self):
        r = self.r
        listed = joined(self.intervals()).encode()
        good = r.choice((b"AT+NFM=1", b"AT+NFM=0", b"AT+NFM=1,0", b"AT+NFM=0,1", b"AT+NFM=?", b"AT+NFMCI=" + listed))
        return r.choice((
            r.choice((b"", b"A", b"AT", b"AT+", b"AT+NFM", b"AT+NFM=", b"AT+NFM?", b"AT+NFM=2", b"AT+NFM=9", b"AT+NFM=00", b"AT+NFM=01", b"AT+NFM=10",
                      b"AT+NFM=1,", b"AT+NFM=,1", b"AT+NFM=1,2", b"AT+NFM=1,01", b"AT+NFM=1,1,1", b"AT+NFM=-1", b"AT+NFM=1,?", b"AT+NFM=?,1",
                      b"AT+NFM=??", b"AT+NFM= 1", b"AT +NFM=1", b"AT+NFM=a", b"AT+NFM=/", b"AT+NFM=:", b"AT+NFM:1", b"AT+NFN=1", b"OK")),
            r.choice((b"AT+NFMCI", b"AT+NFMCI=", b"AT+NFMCI?", b"AT+NFMCI=?", b"AT+NFMCI=0", b"AT+NFMCI=0,60", b"AT+NFMCI=65536",
                      b"AT+NFMCI=60,65536", b"AT+NFMCI=120,60", b"AT+NFMCI=060", b"AT+NFMCI=60,0120", b"AT+NFMCI=60,", b"AT+NFMCI=,60",
                      b"AT+NFMCI=60,,120", b"AT+NFMCI=60 ,120", b"AT+NFMCI=60, 120", b"AT+NFMCI=4294967296", b"AT+NFMCI=4294967356",
                      b"AT+NFMCI=18446744073709551676", b"AT+NFMCI=60;120", b"AT+NFMCI=/", b"AT+NFMCI=6:", b"AT+NFMIC=60", b"AT+NFMCI 60")),
            b"AT+NFMCI=" + joined(sorted(r.randint(1, r.choice((9, 300))) for _ in range(r.choice((11, 11, 12, 20, 40))))).encode(),
            b"AT+NFMCI=" + b"6" * r.randint(6, 240),
            good.lower(),
            b"At" + good[2:],
            good + r.choice((b" ", b"\r", b"\r\r", b"\0", b",", b"0", b"\xff", b"\rAT+NFM=0", b"A")),
            r.choice((b" ", b"\r", b"\0", b"A")) + good,
            good + bytes(r.choice((0, 13, 32, 48, 200, 255)) for _ in range(r.randint(1, 240 - len(good)))),
            self.spoilt(good),
            bytes(r.randint(200, 255) for _ in range(r.randint(1, 250))),
            r.randbytes(r.randint(1, 250)).replace(b"\n", b"\r"),
        ))

    # Ill-formed lines, and a few that only look so

    def spoilt(self, line):
        """The line with one byte lost, put in or changed."""
        r = self.r
        if not line:
            return b" "
        i = r.randrange(len(line))
        x = r.choice(b" ,0159aQ+-.\0\r\t\x7f\x80\xff/:")
        return r.choice((line[:i] + line[i + 1:], line[:i] + bytes([x]) + line[i:], line[:i] + bytes([x]) + line[i + 1:], line[:i]))

    def ill_formed(self):
        r = self.r
        if r.random() < 0.05:
            # a rejection that names no column, or more than one
            line = self.text(self.rejection(r.randrange(4)))
            return r.choice((line[:line.rfind(b" ")], line[:line.rfind(b" ") + 1], line + b" 0", line + b"," + line[-1:]))
        line = self.text(r.choice((self.call, self.call, self.call, self.blind, self.at_call))()) if r.random() < 0.8 else self.o_line(self.opening())
        fields = line.split(b" ")
        i = r.randrange(len(fields))
        which = r.randrange(20)
        if which == 0:
            return line.replace(b" ", b"  ", 1) if r.random() < 0.5 else line[::-1].replace(b" ", b"  ", 1)[::-1]
        if which == 1:
            return r.choice((line + b" ", b" " + line, line + b"\t", line + b",", line + b" 0"))
        if which == 2:
            return b" ".join(fields[:i] + fields[i + 1:])
        if which == 3:
            return b" ".join(fields[:i] + [b"%d" % r.randrange(4)] + fields[i:])
        if which == 4:
            fields[i] = b"0" * r.randint(1, 3) + fields[i]
            return b" ".join(fields)
        if which == 5:
            fields[i] = r.choice((b"+", b"-", b"0x", b"#")) + fields[i]
            return b" ".join(fields)
        if which == 6:
            fields[-1] = r.choice((b"x", b"1e3", b"1.0", b"", b"two", b"1_0", b"\xb2", b"\xd9\xa1"))
            return b" ".join(fields)
        if which == 7:
            return r.choice(b"BCEFHIKLMNPRUVWXYZ0 #").to_bytes(1, "big") + line[1:]
        if which == 8:
            return line.lower()
        if which == 9:
            return r.choice((b"", b"", b" ", b"\r", b"\0", b"A", b"O", b"Q", b"T ", b"D ", b"A ", b"  "))
        if which == 10:
            return line + b"\r"
        if which == 11:
            return line[:2] + r.choice((b"4294967296", b"4294967306", b"18446744073709551616", b"9" * 30, b"0" * 20)) + line[line.find(b" ", 2):]
        if which == 12:
            return b"\0" + line if r.random() < 0.3 else line + r.choice((b"\0", b"\xff", b"\xc3\xa9"))
        if which == 13:
            return r.randbytes(r.randint(1, 60)).replace(b"\n", b"O")
        if which == 14:
            return line.replace(b" ", r.choice((b"\t", b",", b"", b"\xa0")), r.randint(1, 3))
        if which == 15:
            return self.long_line()
        return self.spoilt(line)

    def long_line(self):
        """A line of a length at the edge, or far beyond it."""
        r = self.r
        x = r.random()
        length = 200_000 if x < 0.02 else 5_000 if x < 0.08 else r.choice((254, 255, 256, 256, 257, 257, 258, 300))
        which = r.randrange(4)
        if which == 0:
            return r.randbytes(length).replace(b"\n", b"\0")
        if which == 1:
            line = b"A " + r.choice((b"AT+NFM=1", b"AT+NFM=?", b"AT+NFMCI=60", b""))
            return (line + r.choice((b"0", b" ", b"\xff", b"\r", b",60")) * length)[:length]
        if which == 2:
            f = self.opening(intervals=[6])
            room = length - len(self.o_line(f))
            f["intervals"] = [66 if room % 2 else 6] + [6] * (room // 2)
            return self.o_line(f)
        line = self.text(self.call())
        return line + r.choice((b" ", b"0", b"\0", b"\r")) * (length - len(line))

    # Traces

    def before_opening(self):
        """Some lines for a buffer that is all 0."""
        self.idea = Idea(1000, 1, [60], [0] * 6, 0, 0)
        for i in range(160):
            some = [self.text(self.blind()), self.text(self.at_call()), self.text(self.call()), self.refused_opening()]
            self.lines.append(self.r.choice(some if i < 110 else [self.ill_formed()]))

    def mixed(self, count):
        r = self.r
        for _ in range(count):
            x = r.random()
            if x < self.ill:
                self.lines.append(self.ill_formed())
            elif x < self.ill + self.at:
                self.act(self.at_call())
            elif x > 0.997:
                self.lines.append(self.refused_opening())
            else:
                self.act(self.call())

    def manner(self):
        r = self.r
        self.edges = r.choice((0.0, 0.2, 0.2, 0.4, 0.6))
        self.ill = r.choice((0.0, 0.0, 0.05, 0.08, 0.3))
        self.at = r.choice((0.0, 0.03, 0.03, 0.2))
        self.steps = r.choice(((0, 0, 0, 1), (0, 0, 1, 1, 2, 3, 5, 10), (0, 1, 2, 43, 60, 61, 103, 120), (0, 1, 60, 600, 1199, 1800),
                               (0, 1, 3599, 3600, 7200)))

    def plain(self):
        r = self.r
        self.manner()
        if r.random() < 0.06:
            self.lines.append(self.refused_opening())
        else:
            self.open()
        self.mixed(r.choice((r.randint(0, 5), r.randint(5, 40), r.randint(5, 40), r.randint(40, 150))))

    def full(self, k, limit):
        """Over 255 permits on list k, most within an hour, under a high limit or none; then calls at the edges of the hour."""
        r = self.r
        self.manner()
        parameters = [0] * 6
        parameters[{1: r.choice((2, 3, 4)), 2: 5, 4: 0}.get(k, 1)] = limit
        if k == 1 and r.random() < 0.5:
            parameters[2:5] = [limit] * 3
        self.open(t=r.choice((0, 1000, r.randrange(LATEST // 2))), parameters=parameters, a1=limit if k == 0 else 0, s1=limit if k == 3 else 0)
        self.act(("A", b"AT+NFM=0", 0, None))
        clear = k == 1 and r.random() < 0.5
        most = r.choice((5, 10, 11, 12))
        for _ in range(r.randint(280, 330)):
            self.fill(k, r.randrange(most), clear)
        for _ in range(120):
            times = self.idea.lists[k]
            newest = limit or 255
            back = times[-newest] + HOUR + r.choice((-1, 0, 0, 0, 1)) - self.idea.t if len(times) >= newest else 0
            self.fill(k, max(0, back) if r.random() < 0.6 else r.choice((0, 0, 1, 20)), False)
        self.act(("A", b"AT+NFM=1", 1, None))
        self.mixed(40)

    def weary(self):
        """Over 255 failures in a row of one service, each asked again as soon as its back-off ends;
        of a registration by causes that take the other along, or by others."""
        r = self.r
        self.manner()
        service = r.randrange(4)
        column = r.choice(COLUMNS[service])
        causes = sorted(BOTH[column] if BOTH[column] and r.random() < 0.5 else BACKING[column])
        self.open(t=r.randrange(LATEST // 2), intervals=self.intervals(), parameters=[0] * 6, a1=0, s1=0)
        for _ in range(r.randint(258, 300)):
            t = max(self.idea.t, self.idea.ends[service])
            if r.random() < 0.1 and t > self.idea.t:
                self.act(("Q", t - 1, service))
            self.act(("Q", t, service))
            self.act(r.choice((("S", t, service), ("J", t, service, r.choice(causes), 0, column))))
        self.mixed(40)

    def paired(self):
        """The two registrations: each asked, waiting and held while the other is rejected by a row
        for both, and asked again at the ends of both back-offs."""
        r = self.r
        self.manner()
        few = sorted(r.sample(range(1, r.choice((6, 90, 300))), r.choice((1, 1, 2, 3, 4))))
        self.open(t=r.choice((0, 1000, r.randrange(LATEST // 2))), intervals=few, a1=r.choice((0, 0, 0, 5)), parameters=[0] * 6)
        for _ in range(r.randint(20, 60)):
            idea = self.idea
            asked = [s for s in (0, 1) if idea.standing[s] == 1]
            x = r.random()
            t = idea.t + r.choice((0, 0, 0, 1, 2))
            if asked and x < 0.45:
                service = r.choice(asked)
                both = x < 0.3
                cause = r.choice(sorted(BOTH[service] if both else BACKING[service] - BOTH[service]))
                self.act(("J", t, service, cause, r.choice((0, 1)), service))
            elif asked and x < 0.55:
                self.act((r.choice("GS"), t, r.choice(asked)))
            elif x < 0.85:
                later = [end for end in idea.ends[:2] if end > idea.t]
                then = r.choice(later) + r.choice((-1, 0, 0, 1)) if later and r.random() < 0.5 else t
                self.act(("Q", then, r.choice((0, 1))))
            elif x < 0.88:
                self.act(("Q", t, 5))
            else:
                self.mixed(1)

    def pending(self):
        """A registration is asked, and held while it is, by rejections of the other, which ends its
        back-offs sooner: it has failed less often, and the intervals grow fast."""
        r = self.r
        self.manner()
        held = r.choice((0, 1))
        other = 1 - held
        self.open(t=r.choice((0, 1000, r.randrange(LATEST // 2))), intervals=[2, 30, 400, 5000, 60_000], parameters=[0] * 6, a1=0)
        for _ in range(r.randint(1, 3)):
            self.act(("Q", max(self.idea.t, self.idea.ends[held]), held))
            self.act(("S", self.idea.t, held))
        self.act(("Q", self.idea.ends[held], held))
        for _ in range(r.randint(1, 3)):
            self.act(("Q", max(self.idea.t, self.idea.ends[other]), other))
            self.act(("J", self.idea.t, other, r.choice(sorted(BOTH[other])), 0, other))
        t = self.idea.t + r.choice((0, 1))
        causes = BOTH[held] if r.random() < 0.5 else BACKING[held] | OTHERS[held]
        self.act(r.choice((("G", t, held), ("S", t, held), ("J", t, held, r.choice(sorted(causes)), 0, held))))
        for service in held, other:
            self.act(("Q", t, service))
        self.mixed(20)

    def stubborn(self):
        """Over 255 blocks by one limit, most within an hour."""
        r = self.r
        self.manner()
        request = r.choice((0, 2, 2, 2, 3, 4, 5))
        self.open(t=r.randrange(LATEST // 2), intervals=[1], parameters=[1, 0, 1, 1, 1, 2], a1=1, s1=1)
        self.act(("Q", self.idea.t, 2 if request == 4 else request))
        if request == 2:
            self.act(r.choice((("S", self.idea.t, 2), ("J", self.idea.t, 2, 33, 0, 2), ("J", self.idea.t, 2, 26, 0, 2))))
            self.act(("T", self.idea.t + 2))
        elif request == 4:
            self.act(("G", self.idea.t, 2))
            self.act(("D", self.idea.t))
            self.act(("Q", self.idea.t, 2))
            self.act(("G", self.idea.t, 2))
        elif request != 5:
            self.act(("G", self.idea.t, request))
        for _ in range(r.randint(258, 300)):
            self.act(("Q", self.idea.t + r.choice((0, 1, 11, 14)), request))
        self.mixed(40)

    def returning(self, which):
        """One limit, by `which` N1, F1, F2, F3, F4, A1 or S1, full by permits of one second: asked in that second, a second before they leave the
        hour, and when they have left; twice, so that older ones are on the list. Of F1 to F3 there are others in the hour, which were granted."""
        r = self.r
        self.manner()
        granted = ("G",)
        permanent, temporary = ("J", 33, 0, 2), ("J", 26, 0, 2)
        request, last = ((5, granted), (2, ("S",)), (2, permanent), (2, temporary), (2, granted), (r.choice((0, 1)), granted), (3, granted))[which]
        limits = [0] * 7
        limit = limits[which] = r.choice((1, 2, 3, 20, 255))
        n1, f1, f2, f3, f4, a1, s1 = limits
        self.open(t=r.choice((0, 1000, r.randrange(LATEST // 2))), parameters=[n1, 0, f1, f2, f3, f4], a1=a1, s1=s1)
        self.act(("A", b"AT+NFM=0", 0, None))
        for _ in range(2):
            for _ in range(r.choice((0, 1, 5)) if last != granted else 0):
                self.sent(self.idea.t + r.choice((0, 1, 300)), request, granted)
            t = self.idea.t
            for left in reversed(range(limit)):
                self.sent(t, request, granted if left else last)
            for then in t, t + HOUR - 1:
                self.act(("Q", then, request))
            self.sent(t + HOUR, request, granted)
            self.act(("T", self.idea.t + HOUR + r.choice((0, 1, 1000))))
        self.mixed(20)

    def timed(self, which):
        """A service is rejected for good, or nearly so, by `which`, up to three times; clock calls
        come about the second in which a reset is due, or would be. By turns T1 is 0, or that second
        is one of the latest that there are."""
        r = self.r
        self.manner()
        imsi = r.choice((1_010_123_456_789, 0, r.randrange(10**15), 10**15 - 1))
        t1 = 0 if which % 12 == 5 else r.choice((1, 1, 1, 2, 2, 10, 10, 255, r.randint(1, 255)))
        n1 = r.choice((0, 0, 1, 1, 1, 2, 3, 20, 255))
        late = which % 4 == 3
        t = LATEST - delay(imsi, t1) + r.choice((-3, -2, -1, -1, 0, 0, 1)) if late else r.choice((0, 1000, r.randrange(LATEST // 2)))
        fixed = {"imsi": imsi, "intervals": r.choice(([1], [2, 3], [60, 120, 240], [600, 6000], [65_535])),
                 "parameters": [n1, t1, 0, 0, 0, r.choice((0, 0, 2))], "a1": r.choice((0, 0, 4)), "s1": 0}
        self.open(t=min(t, LATEST), **fixed)
        causes = FOR_GOOD if late else FOR_GOOD + NEARLY
        for again in range(r.choice((1, 2, 2, 3))):
            if n1 and not late and r.random() < 0.4:
                self.fill_up()
            due = self.failed(*causes[which % len(causes)] if not again and not late else r.choice(causes))
            self.meanwhile(due)
            if r.random() < 0.1:
                self.open(t=self.idea.t, **fixed)
            self.about(due)
        self.mixed(10)

    def fill_up(self):
        """Resets, as many as N1 lets through."""
        while not self.idea.full(self.idea.t):
            self.act(("Q", self.idea.t + self.r.choice((0, 0, 0, 0, 1)), 5))

    def failed(self, column, cause):
        """A service asked when its back-off is over, and rejected by that cause, or ignored where
        there is none. Gives back when a reset is due after that, or would be."""
        r, idea = self.r, self.idea
        if idea.standing[column] == 2:
            self.act(("D", idea.t))
        if idea.standing[column] == 0:
            self.act(("Q", max(idea.t, idea.ends[column]), column))
        t = idea.t + r.choice((0, 0, 1, 2))
        self.act(("S", t, column) if cause is None else ("J", t, column, cause, r.choice((0, 1)), column))
        return idea.due or t + delay(idea.imsi, idea.parameters[1])

    def meanwhile(self, due):
        """Calls up to that second, of which a reset alone would end the wait."""
        r, idea = self.r, self.idea
        for _ in range(r.choice((0, 1, 2, 3, 6))):
            t = max(idea.t, min(idea.t + r.choice((0, 1, 10, 60, 200)), due))
            some = [("A", b"AT+NFM=0", 0, None), ("A", b"AT+NFM=1,1", 1, None), self.at_call(),
                    ("Q", t, r.randrange(6)), ("T", max(idea.t, min(t, due - 1)))]
            for service in range(4):
                if idea.standing[service] == 0:
                    some.append(("Q", max(t, min(due, idea.ends[service])), service))
                elif idea.standing[service] == 1:
                    some += [("G", t, service), ("S", t, service), self.rejection(service)]
                else:
                    some += 3 * [("D", t), ("Q", t, 4)]
                if service < 2 and idea.standing[service] == 1:
                    some += 2 * [("J", t, service, r.choice(sorted(SETTING[service])), 0, service)]
            self.act(r.choice(some))

    def about(self, due):
        """The second before that one, that one and later ones: clock calls, and before the last of
        them a request, a reset or one more rejection; then what an ordered reset has left."""
        r, idea = self.r, self.idea
        if r.random() < 0.5:
            for service in range(4):
                self.act(("Q", idea.t, service))
            if idea.standing[2] == 1 and r.random() < 0.5:
                self.act(("G", idea.t, 2))
        if due > idea.t and r.random() < 0.7:
            self.act(("T", due - 1))
        x = r.random()
        if x < 0.15:
            self.act(("Q", max(idea.t, due - r.choice((1, 1, 20))), 5))
        elif x < 0.3:
            self.act(("Q", max(idea.t, due + r.choice((0, 0, 1, 9))), 5))
        elif x < 0.45:
            if r.random() < 0.6:
                self.act(("Q", max(idea.t, due), 3))
            self.failed(*r.choice(FOR_GOOD))
        elif x < 0.6:
            self.act(("Q", max(idea.t, due), r.choice((0, 1, 2, 3))))
        asked = [service for service in range(4) if idea.standing[service]]
        then = max(idea.t, due + r.choice((0, 0, 0, 1, 40, 5000)))
        self.act(("T", LATEST if due <= LATEST < then else then))
        if idea.due and idea.full(idea.t):
            leaves = idea.lists[4][-idea.parameters[0]] + HOUR
            if r.random() < 0.5:
                self.act(("Q", idea.t, 5))
            self.act(("T", leaves - 1))
            self.act(("T", leaves + r.choice((0, 0, 1))))
        self.act(("T", idea.t))
        for service in asked:
            self.act(r.choice((("G", idea.t, service), ("S", idea.t, service), ("J", idea.t, service, 2, 0, service), ("D", idea.t))))
        for request in r.sample((0, 1, 2, 3, 4, 5, 5), 3):
            self.act(("Q", idea.t + r.choice((0, 0, 1, 30)), request))

    def sent(self, t, request, outcome):
        """A request and, unless it is a reset, its outcome in the same second; PDP is then dropped."""
        self.act(("Q", t, request))
        if request < 4:
            self.act((outcome[0], t, request, *outcome[1:]))
        if request == 2 and outcome == ("G",):
            self.act(("D", t))

    def fill(self, k, step, clear):
        """One more permit on list k, when nothing blocks it, and its outcome; an activation succeeds when `clear` says so."""
        r, idea = self.r, self.idea
        t = idea.t + step
        request = (r.choice((0, 1)), 2, 4 if idea.standing[2] == 2 else 2, 3, 5)[k]
        if k == 1 and idea.standing[2] == 2:
            self.act(("D", t))
        if request < 4 and idea.standing[request] == 1:
            self.act(("G", t, request))
            if request == 2:
                self.act(("D", t))
        self.act(("Q", t, request))
        if request > 3 or idea.standing[request] != 1:
            return
        t += r.choice((0, 0, 1))
        if k == 1 and not clear:
            self.act(r.choice((("S", t, 2), ("J", t, 2, r.choice((8, 27, 28, 32)), 0, 2), ("J", t, 2, r.randrange(256), r.choice((0, 1)), 2))))
        else:
            self.act(("G", t, request))


def stream(seed, count):
    maker = Maker(seed)
    maker.before_opening()
    for i in range(count):
        if i % 100 == 50:
            maker.full((0, 1, 2, 1, 3, 1, 4)[i // 100 % 7], (255, 0, 250, 254, 200)[i // 700 % 5])
        elif i % 300 == 20:
            maker.weary()
        elif i % 300 == 120:
            maker.stubborn()
        elif i % 60 == 40:
            maker.returning(i // 60 % 7)
        elif i % 30 == 7:
            maker.paired()
        elif i % 60 == 22:
            maker.pending()
        elif i % 10 == 3:
            maker.timed(i // 10)
        else:
            maker.plain()
    return b"\n".join(maker.lines) + maker.r.choice((b"", b"\n"))


if __name__ == "__main__":
    sys.stdout.buffer.write(stream(int(sys.argv[1]), int(sys.argv[2])))
