#!/usr/bin/env python3
"""Brings the names of this repository's definitions and lemmas to snake case, once, after port.py.

usage: tools/respell.py [--words FILE]      at the top of the repository

It goes over crates/*/{specs,proofs}/**/*.antt, crates/*/src/**/*.rt and crates/*/must-fail/*.edit. A name of the kit's
library keeps its spelling, and so do names that the kit makes (goals, and the word after which `-spec` stands).
"""

import os
import re
import sys

OURS = {"choice", "lock", "history", "frame", "bench", "report", "lockbench", "lockreport", "random", "board"}

# Lemmas whose names fall together with that of a definition, once both are in snake case: the lemma gets a name of its own.
TOGETHER = {
    "cells-sound": "cells_sound_holds",
    "first-line": "first_line_read",
    "first-state": "first_state_is",
    "fresh-by": "fresh_by_tests",
    "fresh-row": "fresh_row_there",
    "is-accepted": "is_zero",
    "journal-by": "journal_by_kind",
    "later-heard": "later_heard_log",
    "log-before": "log_before_is",
    "no-interrupt": "without_interrupt",
    "put-flag": "flag_put",
    "put-guard": "guard_put",
    "put-locked": "locked_put",
    "put-nx": "nx_put",
    "put-pred": "pred_put",
    "put-succ": "succ_put",
    "put-tail": "tail_put",
    "put-row": "row_put",
    "refused-by": "refused_by_tests",
    "rows-after": "rows_stay",
    "second-read": "second_read_same",
    "to-hand": "hand_next",
    "to-lift": "lift_next",
    "to-queue": "queue_next",
}
# The same where port.py had already turned the lemma: by the end of the file's path.
IN_FILE = {
    "crates/lock/proofs/Keeping/Puts.antt": {"put_next": "next_put"},
    "crates/lock/proofs/Keeping/Acts.antt": {"put_next": "next_put"},
    "crates/history/proofs/Claimed.antt": {"one_more": "one_more_told"},
}

NAME = r"[a-z_][^\s(){}\[\].,;:|\u03bb\u2192\u00ab\u00bb\u2261\u2262\u27e8\u27e9+*/=!&<>?#\"`@%$^~\\]*"
DEFINED = re.compile(
    r"\s*(?:(?:pub|abbrev|unfoldable|opaque|inline|private)\s+)*(" + NAME + r")\s*(?:[({].*)?:(?:\s|$)"
)
TOKEN = re.compile(r"(?<![^\s(){}\[\].,;:|\u03bb\u2192\u00ab\u00bb\u2190\u2200\u2203`-])" + NAME)
USE = re.compile(r"\s*(?:ghost )?(?:pub )?use ([\w.'-]+)\.\{(.*)\}")


def snake(name):
    name = name.replace("\u2032", "'").replace("-", "_")
    return re.sub(r"(?<=.)([A-Z])", lambda m: "_" + m.group(1).lower(), name)


def files(end):
    for folder, dirs, names in os.walk("crates"):
        dirs[:] = sorted(d for d in dirs if d != "out" or "proofs" in folder)
        for name in sorted(names):
            if name.endswith(end):
                yield os.path.join(folder, name)


def read(path):
    with open(path, encoding="utf-8") as f:
        return f.read()


def words():
    """What is turned: each camel-case word that is not the library's, and each name with hyphens that is defined here."""
    library, defined, seen = set(), set(), set()
    for path in files((".antt", ".rt")):
        for line in read(path).split("\n"):
            m = USE.match(line)
            if m:
                way = m.group(1).split(".")
                if way[0] != "Rattle" or way[1] not in OURS:
                    library |= {w.strip() for n in m.group(2).split(",") for w in n.split(" as ")}
                continue
            if not path.endswith(".antt"):
                continue
            line = re.sub(r"--.*", "", line)
            m = DEFINED.match(line)
            goal = path.endswith("/Proof.antt") and re.search(r":\s*tie\.|statement M", line)
            if m and not goal:
                defined.add(m.group(1))
            seen |= {t for t in TOKEN.findall(line) if re.search("[A-Z]", t) and "-" not in t}
    turned = {}
    for w in defined | seen:
        if w in library or w.endswith("-spec"):
            continue
        to = TOGETHER.get(w) or snake(w)
        if to != w:
            turned[w] = to
    return turned


def turn(path, turned):
    text = read(path)
    own = next((v for k, v in IN_FILE.items() if path.endswith(k)), {})

    def one(m):
        w = m.group(0)
        if w in own:
            return own[w]
        to = turned.get(w)
        if to is None:
            return w
        # a name that the kit makes of a call, as in `c.put-row.ensures`
        if w in TOGETHER and text[m.start() - 1 : m.start()] == "." and text[m.end() : m.end() + 1] == ".":
            return snake(w)
        return to

    new = TOKEN.sub(one, text)
    if new != text:
        with open(path, "w", encoding="utf-8") as f:
            f.write(new)
    return new != text


def main():
    if "--words" in sys.argv:
        with open(sys.argv[sys.argv.index("--words") + 1], encoding="utf-8") as f:
            turned = dict(line.split() for line in f)
    else:
        turned = words()
        with open("tools/respelled.txt", "w", encoding="utf-8") as f:
            f.writelines(f"{a} {b}\n" for a, b in sorted(turned.items()))
    changed = sum(turn(p, turned) for p in list(files((".antt", ".rt", ".edit"))))
    print(f"{len(turned)} words, {changed} files changed")


main()
