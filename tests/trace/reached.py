#!/usr/bin/env python3
"""reached.py TRACE ANSWERS: what a made trace reaches, by its answers. It fails where an answer
number, an action of a column, a column that is refused, a cause for both registrations in one of the
other's states, a rejection without a column, a limit's block with 1 or with 3,600 seconds, or a case
of the timed reset is not among them."""
import sys
from collections import Counter

from make import BOTH, FOR_GOOD, HOUR, LATEST, Idea, delay

NUMBERS = "0 1 2 3 4 5 10 11 12 13 14 15 16 17 18 20 21 22 23 24 25 26 27 28 ERR".split()
LIMITS = "11 13 14 15 16 17 18".split()
ENDS = [f"{number} {seconds}" for number in LIMITS for seconds in (1, HOUR)]
LISTS = "attach activation PDP SMS reset".split()
NAMES = "MM GMM SM RP CP".split()
ACTIONS = [f"{name} {number}" for name, numbers in zip(NAMES, ("20 23 24 25 26", "20 23 24 25 26", "20 21 22 23 27 28", "20 23", "20 23"))
           for number in numbers.split()]
REFUSED = "of another service", "unknown", "not named"
STANDS = "idle", "asked", "idle in a back-off", "asked in a back-off"
# of the timed reset: what set it and what came near; what it stays through until it is ordered, and
# what ends it; the clock calls; what an ordered one leaves
SET_BY = [f"{NAMES[column]} {cause}" for column, cause in FOR_GOOD]
NEAR = "MM 5", "MM 8", "GMM 9", "silence", "T1 0"
STAYS = ("a second rejection", "one after it", "AT+NFM=0", "AT+NFM=1", "AT+NFMCI", "a grant", "silence", "a drop", "a permit",
         "a block by a back-off", "request 5 blocked", "the same after it", "a request after it")
ENDED = "request 5 before it", "request 5 after it", "an opening"
CLOCK = ("a second before", "at it", "after it", "again in that second", "N1 full", "N1 free again", "N1 not full", "N1 0", "above the latest time",
         "at the latest time")
DRAWN = "T1 1", "T1 2", "T1 10", "T1 255", "IMSI 0"
LEFT = "one asked", "PDP up", "an outcome refused", "a drop refused", "a back-off runs on", "11 by an ordered reset", "a second one"


def opened(fields):
    """The idea of a trace whose opening was taken."""
    t, imsi, intervals, parameters, _, a1, s1 = fields
    return Idea(int(t), int(imsi), [*map(int, intervals.split(","))], [*map(int, parameters.split(","))], int(a1), int(s1))


def moved(idea, letter, rest):
    """The idea after a line that was taken."""
    if letter == "O":
        return opened(rest.split())
    if letter == "A":
        name, _, value = rest.partition("=")
        if name == "AT+NFMCI":
            idea.intervals = [*map(int, value.split(","))]
        elif value[0] in "01":
            idea.flag(int(value[0]))
        return idea
    numbers = [*map(int, rest.split())]
    if letter in "GSJ":
        idea.outcome(letter, *numbers)
    else:
        {"Q": idea.request, "D": idea.dropped, "T": idea.clock}[letter](*numbers)
    return idea


class Timed:
    """What was seen of the timed reset, a count for each of the lists above."""

    def __init__(self):
        self.set_by, self.near, self.stays, self.ended, self.clock, self.drawn, self.left = (Counter() for _ in range(7))
        self.begin()

    def begin(self):
        """A new record. `cause` set the due time, and `through` has what came since; `ends` and
        `nears` have when a reset would be due that was ended, or not set, and by what; `flags` tells
        the ordered ones on the reset list; and the rest is of the last one that was ordered."""
        self.cause, self.through, self.full, self.ends, self.nears, self.flags = None, set(), False, [], [], []
        self.ordered, self.idled, self.held = None, set(), {}

    def line(self, idea, letter, rest, number):
        """A line that was taken, or refused with 4, before the idea moves; none of a bad buffer."""
        if letter == "O":
            due = idea.due if idea else 0
            self.begin()
            self.ends = [(due, "an opening")] if due else []
        elif letter == "A":
            self.through |= {rest[:8]} & set(STAYS)
        elif letter == "T":
            self.tick(idea, int(rest), number)
        elif letter == "Q":
            self.request(idea, *map(int, rest.split(" ")), number)
        else:
            self.outcome(idea, letter, *map(int, rest.split(" ")), number=number)

    def tick(self, idea, t, number):
        n1, t1 = idea.parameters[:2]
        if number == "0":
            self.clock["a second before"] += t == idea.due - 1
            self.clock["again in that second"] += t == self.ordered
            self.clock["above the latest time"] += t == LATEST < idea.due
            if 0 < idea.due <= t:
                self.clock["N1 full"] += 1
                self.full = True
            for kind, counts in (self.ends, self.ended), (self.nears, self.near):
                counts.update(what for due, what in kind if due <= t and not idea.due)
                kind[:] = [(due, what) for due, what in kind if due > t]
            return
        self.set_by[self.cause] += 1
        self.stays.update(self.through)
        self.clock["at it" if t == idea.due else "after it"] += 1
        self.clock["N1 free again" if self.full else "N1 not full" if n1 else "N1 0"] += 1
        self.clock["at the latest time"] += t == LATEST
        self.drawn[f"T1 {t1}"] += 1
        self.drawn["IMSI 0"] += idea.imsi == 0
        self.left["one asked"] += 1 in idea.standing
        self.left["PDP up"] += idea.standing[2] == 2
        self.left["a second one"] += self.ordered is not None
        self.idled = {service for service in range(4) if idea.standing[service]}
        self.held = {service: end for service, end in enumerate(idea.ends) if t < end}
        self.cause, self.through, self.full, self.ordered = None, set(), False, t
        self.ends, self.nears = [], []
        self.flags.append(True)

    def request(self, idea, t, request, number):
        if number == "4":
            return
        past = 0 < idea.due <= t
        if request < 4:
            self.idled.discard(request)
            self.left["a back-off runs on"] += number == "10" and self.held.get(request) == idea.ends[request]
        if past and request < 5:
            self.through.add("a request after it")
        if request < 5 and number == "0":
            self.through.add("a permit")
        elif number == "10":
            self.through.add("a block by a back-off")
        elif number == "11":
            self.through.add("the same after it" if past else "request 5 blocked")
            self.left["11 by an ordered reset"] += self.flags[-idea.parameters[0]]
        elif request == 5:
            self.ends = [(idea.due, f"request 5 {'after' if past else 'before'} it")] if idea.due else []
            self.nears, self.cause, self.through, self.full, self.idled = [], None, set(), False, set()
            self.flags.append(False)

    def outcome(self, idea, letter, t, service=2, cause=None, second=0, column=None, number="0"):
        if number == "4":
            if service in self.idled:
                self.left["a drop refused" if letter == "D" else "an outcome refused"] += 1
            return
        self.held.pop(service, None)
        name = {"G": "a grant", "D": "a drop", "S": "silence"}.get(letter) or f"{NAMES[column]} {cause}"
        if name in STAYS:
            self.through.add(name)
        t1 = idea.parameters[1]
        if name in SET_BY and idea.due:
            self.through.add("one after it" if idea.due <= t else "a second rejection")
        elif name in SET_BY and t1:
            self.cause, self.through, self.ends, self.nears = name, set(), [], []
        elif name in SET_BY or name in NEAR and t1 and service < 2 and not idea.due:
            self.nears.append((t + delay(idea.imsi, t1), name if t1 else "T1 0"))


def look(trace, answers):
    """How often each answer was given, alone and with its second number; each action of a column;
    each refused column; each state of the other registration; lists that passed 255 permits; and
    what was seen of the timed reset."""
    reached, pairs, actions, refused, stood, over = Counter(), Counter(), Counter(), Counter(), Counter(), Counter()
    idea, timed = None, Timed()
    for line, answer in zip(trace, answers):
        number = answer.split()[0]
        reached[number] += 1
        pairs[answer] += 1
        letter, rest = line[:1], line[2:]
        fields = rest.split(" ")
        if letter == "J" and (len(fields), number) == (4, "ERR") and rest.replace(" ", "").isdecimal():
            refused["not named"] += 1
        if letter == "J" and number == "2":
            _, service, cause, second, column = map(int, fields)
            if service < 4 and cause < 256 and second < 2:
                refused["unknown" if column > 4 else "of another service"] += 1
        if number not in ("ERR", "1", "2", "3", "5"):
            timed.line(idea, letter, rest, number)
        if number in ("ERR", "1", "2", "3", "4", "5"):
            continue
        if letter == "J":
            t, service, cause, _, column = map(int, fields)
            actions[f"{NAMES[column]} {number}"] += 1
            if number == "20" and cause in BOTH[column]:
                other = 1 - service
                stood[STANDS[2 * (t < idea.ends[other]) + idea.standing[other]]] += 1
        before = idea and [len(times) for times in idea.lists]
        idea = moved(idea, letter, rest)
        if letter == "Q":
            over.update(k for k, times in enumerate(idea.lists) if before[k] == 255 and len(times) == 256)
    return reached, pairs, actions, refused, stood, over, timed


def told(names, counts):
    return ", ".join(f"{name} {counts[name]}" for name in names)


def main():
    trace, answers = (open(name, "rb").read().decode("latin-1") for name in sys.argv[1:])
    reached, pairs, actions, refused, stood, over, timed = look(trace.split("\n"), answers.splitlines())
    print("answers reached:", told(NUMBERS, reached))
    print("blocks by a limit, with their seconds:", told(LIMITS, reached))
    print("of these with 1 and with 3600 seconds:", ", ".join(f"'{end}' {pairs[end]}" for end in ENDS))
    print("rejections, by column and answer:", told(ACTIONS, actions))
    print("columns refused:", told(REFUSED, refused))
    print("causes for both registrations, by the other one:", told(STANDS, stood))
    print("traces with over 255 permits on a list:", ", ".join(f"{name} {over[k]}" for k, name in enumerate(LISTS)))
    print("resets ordered, by the cause that set the due time:", told(SET_BY, timed.set_by))
    print("clock calls when none was due, by what did not set it:", told(NEAR, timed.near))
    print("resets ordered, by what the due time stayed through:", told(STAYS, timed.stays))
    print("clock calls when none was due any more, by what ended it:", told(ENDED, timed.ended))
    print("clock calls by the due time and N1:", told(CLOCK, timed.clock))
    print("resets ordered, by what the due time is drawn from:", told(DRAWN, timed.drawn))
    print("what an ordered reset met and left:", told(LEFT, timed.left))
    wanted = ((NUMBERS, reached), (ENDS, pairs), (ACTIONS, actions), (REFUSED, refused), (STANDS, stood),
              (SET_BY, timed.set_by), (NEAR, timed.near), (STAYS, timed.stays), (ENDED, timed.ended),
              (CLOCK, timed.clock), (DRAWN, timed.drawn), (LEFT, timed.left))
    missing = [name for names, counts in wanted for name in names if not counts[name]]
    missing += [] if over else ["over 255 permits on a list"]
    if missing:
        sys.exit(f"not reached: {', '.join(missing)}")


if __name__ == "__main__":
    main()
