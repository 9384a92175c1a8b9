#!/usr/bin/env python3
"""Gives the repository's own definitions and lemmas the spelling of today's Rattle: words in snake
case. Run once, at the top, after the toolchain's own script; docs/PORT.md tells when.

usage: tools/respell.py LANDED [--show]

LANDED is a folder with the repository as it was before; the names that its specs/ and proofs/ declare
are taken from there and from here. Only words that are declared so are changed: in specs/ and proofs/,
in the clauses and imports of src/, and between backticks in comments and in Markdown. A word that a
file takes from a library of the toolchain stays as it is in that file, and so do the names of goals,
which the toolchain makes. Two words that would fall together in one file are printed, and nothing is
written.
"""
import os
import re
import sys

NAME = re.compile(r"[^\W\d][\w'-]*")
WORD = r"[^\s(){}\[\].,;:λ∷⌜⌝`\"]+"
DECLARED = re.compile(r"\s*(?:let )?\s*(?:(?:abbrev|unfoldable|pub)\s+)*((?:" + WORD + r"\s+)*?" + WORD + r")\s+:\s")
MADE = re.compile(r"\s*(" + WORD + r") : tie\.")
IMPORT = re.compile(r"^(?:pub )?(?:ghost )?use ([^\s;{]+?)\.?(?:\{([^}]*)\}|\s|;|$)", re.M)


# a lemma and a definition that would fall together, or a local name and one of these: the lemma's name
# is told apart
APART = {
    "mood-on": "mood_low",
    "event-of": "event_from",
    "in-hour": "in_the_hour",
    "held-answers": "held_answers_ruled",
    "in-range": "is_in_range",
    "recordOf": "record_since",
    "next-wait": "next_wait_told",
    "of-six": "of_six_is",
}
# and those of a folder alone
APART_IN = [
    (("crates/buffer/", "crates/opening/", "crates/saving/", "crates/clock/", "crates/timer/"), {"at-most": "each_at_most"}),
    (("crates/rules/proofs/Direct.antt",), {"one_more": "one_more_reset"}),
]
# definitions with the name of the function that computes them
SAME = {"full_for", "how_many", "first_block", "open_line", "timed_line", "typed_line", "one_more"}


def snake(name):
    if name in APART:
        return APART[name]
    if "-" in name:
        return name.replace("getD", "get_or").replace("-", "_")
    return re.sub(r"(?<=[a-z0-9])([A-Z])|(?<=[A-Z])([A-Z])(?=[a-z])", lambda m: "_" + m.group(0), name).lower()


def odd(name):
    return "-" in name or bool(re.match(r"[a-z].*[A-Z]", name))


def texts(top, endings):
    for folder, dirs, files in os.walk(top):
        dirs[:] = sorted(d for d in dirs if d not in (".git", "target", "out"))
        for f in sorted(files):
            if f.endswith(endings):
                yield os.path.join(folder, f)


def read(path):
    with open(path, encoding="utf-8") as f:
        return f.read()


def declared(top):
    names = set()
    made = set()
    for path in texts(os.path.join(top, "crates"), (".antt",)):
        for line in read(path).splitlines():
            if line.lstrip().startswith("--"):
                continue
            goal = MADE.match(line)
            if goal:
                made.add(goal.group(1))
                continue
            found = DECLARED.match(line)
            if found:
                names.update(n.lstrip("+") for n in found.group(1).split())
    return {n for n in names if odd(n) and NAME.fullmatch(n)}, made


def imported(text, own):
    """The words that a text takes from libraries, and those that it renames by `as`."""
    words = set()
    for module, listed in IMPORT.findall(text):
        crate = re.match(r"Rattle[.·](\w+)", module)
        if crate and crate.group(1) in own:
            continue
        words.update(NAME.findall(listed or ""))
    return words


def spelled(text, names, kept):
    """The text with each name in its new spelling; what follows `tie.` or `goal.` is made elsewhere."""

    def one(m):
        before = text[max(0, m.start() - 5) : m.start()]
        if m.group(0) in kept or before.endswith("tie.") or before.endswith("goal."):
            return m.group(0)
        return names.get(m.group(0), m.group(0))

    return NAME.sub(one, text)


def in_ticks(text, names, kept):
    return re.sub(r"`[^`\n]*`", lambda m: spelled(m.group(0), names, kept), text)


def turned(path, text, names, own):
    kept = imported(text, own)
    if path.endswith(".md"):
        return in_ticks(text, names, set())
    mark = "--" if path.endswith(".antt") else "//"
    lines = []
    for line in text.split("\n"):
        at = line.find(mark + " ") if not line.lstrip().startswith(mark) else len(line) - len(line.lstrip())
        if at < 0:
            at = len(line)
        code, said = line[:at], line[at:]
        lines.append(spelled(code, names, kept) + in_ticks(said, names, kept))
    return "\n".join(lines)


def main(argv):
    landed = argv[0]
    own = {d for d in os.listdir("crates")}
    names, made = set(), set()
    for top in (landed, "."):
        n, m = declared(top)
        names |= n
        made |= m
    names = {n for n in names if not re.match(r"(invariant|decreases|loop)-|returns-\d", n)}
    turn = {n: snake(n) for n in sorted(names) if snake(n) != n}
    clash = 0
    writes = []
    whole = turn
    for path in [p for p in texts("crates", (".antt", ".rt"))] + [p for p in texts(".", (".md",))]:
        text = read(path)
        turn = dict(whole)
        for places, apart in APART_IN:
            if path.startswith(places):
                turn.update(apart)
        new = turned(path, text, turn, own)
        before = {}
        if not path.endswith(".md"):
            kept = imported(text, own)
            code = "\n".join(l.split("-- ")[0].split("// ")[0] for l in text.split("\n"))
            for word in set(NAME.findall(code)):
                to = turn.get(word, word) if word not in kept else word
                before.setdefault(to, set()).add(word)
            for to, words in sorted(before.items()):
                if len(words) > 1 and not (to in SAME and (path.endswith(".rt") or path.endswith("/Proof.antt"))):
                    clash += 1
                    print(f"{path}: {' and '.join(sorted(words))} would both be {to}")
        if new != text:
            writes.append((path, new))
    if "--show" in argv:
        for n in sorted(whole):
            print(n, "->", whole[n])
        return 0
    if clash:
        print(f"{clash} words would fall together; nothing was written")
        return 1
    for path, new in writes:
        with open(path, "w", encoding="utf-8") as f:
            f.write(new)
    print(f"{len(whole)} names, {len(writes)} files")
    return 0


if __name__ == "__main__":
    raise SystemExit(main(sys.argv[1:]))
