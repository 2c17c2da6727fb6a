#!/usr/bin/env python3
"""Writes cases of calls on locks: crates/row_cases/data/locks.

The answers are worked out by a plain model over lists, written from the rules alone; it knows nothing of the Rust code.

    tools/lock_calls.py          writes the file
    tools/lock_calls.py --check  ends with status 1 if the file isn't what would be written

The rules. A resource has holders, in the order of granting, and a queue. Two locks conflict unless both are for reading. An
ask that the enlistment's own lock covers is granted. Another is granted exactly if no other holder conflicts and either the
enlistment holds the resource or nobody waits for it. Else the enlistment waits: an upgrade from reading to writing stands
before all but earlier upgrades, any other ask last; the answer names the first holder other than the enlistment. At a
release the enlistment leaves all holders and queues; then, resource by resource in the order in which it first asked for
them, the first of the queue is granted while no other holder conflicts. At a tick each wait counts one more; then, of the
waits that have counted 16, the one that began first ends. A tick grants nothing. A hold is a granted ask, and comes only
where no other holder conflicts and nobody waits.
"""

import random
import sys
from pathlib import Path

FILE = Path(__file__).resolve().parent.parent / "crates/row_cases/data/locks"


class Model:
    """All locks, waits and asks of a site, each in one list, in the order in which they came."""

    def __init__(self):
        self.holds = []  # [who, what, mode], in the order of granting
        self.first_grants = []  # (who, what), in the order of first granting
        self.asks = []  # (who, what), in the order of first asking
        self.waits = []  # [who, what, mode, ticks, is an upgrade], in the order of beginning

    def own(self, who, what):
        return next((lock for lock in self.holds if lock[:2] == [who, what]), None)

    def other(self, who, what):
        return next((lock[0] for lock in self.holds if lock[1] == what and lock[0] != who), None)

    def conflicts(self, who, what, mode):
        return any(
            lock[1] == what and lock[0] != who and "write" in (mode, lock[2]) for lock in self.holds
        )

    def queue(self, what):
        here = [wait for wait in self.waits if wait[1] == what]
        return [wait for wait in here if wait[4]] + [wait for wait in here if not wait[4]]

    def is_waiting(self, who):
        return any(wait[0] == who for wait in self.waits)

    def note(self, pairs, who, what):
        if (who, what) not in pairs:
            pairs.append((who, what))

    def grant(self, who, what, mode):
        self.holds = [lock for lock in self.holds if lock[:2] != [who, what]]
        self.holds.append([who, what, mode])
        self.note(self.first_grants, who, what)

    def covered(self, who, what, mode):
        own = self.own(who, what)
        return own is not None and (own[2] == "write" or mode == "read")

    def ask(self, who, what, mode):
        if self.is_waiting(who):
            return "is waiting"
        if self.covered(who, what, mode):
            return "granted"
        self.note(self.asks, who, what)
        holds = self.own(who, what) is not None
        if not self.conflicts(who, what, mode) and (holds or not self.queue(what)):
            self.grant(who, what, mode)
            return "granted"
        self.waits.append([who, what, mode, 0, holds])
        return "waits for " + shown(self.other(who, what))

    def may_hold(self, who, what, mode):
        return not self.conflicts(who, what, mode) and not self.queue(what)

    def hold(self, who, what, mode):
        if not self.may_hold(who, what, mode):
            return "conflict"
        if not self.covered(who, what, mode):
            self.note(self.asks, who, what)
            self.grant(who, what, mode)
        return ""

    def release(self, who):
        asked = [what for (other, what) in self.asks if other == who]
        self.asks = [pair for pair in self.asks if pair[0] != who]
        self.first_grants = [pair for pair in self.first_grants if pair[0] != who]
        self.holds = [lock for lock in self.holds if lock[0] != who]
        self.waits = [wait for wait in self.waits if wait[0] != who]
        granted = []
        for what in asked:
            while True:
                queue = self.queue(what)
                if not queue or self.conflicts(queue[0][0], what, queue[0][2]):
                    break
                self.waits.remove(queue[0])
                self.grant(queue[0][0], what, queue[0][2])
                granted.append(queue[0][0])
        return "".join(shown(who) + " " for who in granted)

    def tick(self):
        for wait in self.waits:
            wait[3] += 1
        for wait in self.waits:
            if wait[3] >= 16:
                self.waits.remove(wait)
                return f"{shown(wait[0])} {wait[1]} {shown(self.other(wait[0], wait[1]))}"
        return "none"

    def holder(self, what, but):
        other = self.other(but, what)
        return "none" if other is None else shown(other)

    def held(self, who):
        return "".join(
            f"{what} {self.own(who, what)[2]} " for (other, what) in self.first_grants if other == who
        )


def shown(who):
    return who.replace(" ", ".")


ENLISTS = [f"{site} {epoch} {number}" for site in (1, 2) for epoch in (1, 7) for number in (1, 2, 3)]
RESOURCES = [
    "table ann@1.t@1",
    "table ann@1.s@1",
    "table ann@1.t@2",
    "birth ann@1.t@1",
    "program ann t",
    "program bob t",
    "synonyms ann",
]


def by_hand():
    """The cases that the rules name, one list of calls after another."""
    t, s, r = RESOURCES[0], RESOURCES[1], RESOURCES[3]
    a, b, c, d = ENLISTS[:4]
    yield "a reader waits behind a waiting writer"
    yield from [("ask", a, t, "read"), ("ask", b, t, "write"), ("ask", c, t, "read"), ("ask", c, s, "read")]
    yield from [("release", a), ("release", b)]
    yield "an upgrade stands before all but earlier upgrades"
    yield from [("ask", a, t, "read"), ("ask", b, t, "read"), ("ask", c, t, "read"), ("ask", d, t, "write")]
    yield from [("ask", b, t, "write"), ("ask", c, t, "write"), ("release", a), ("release", c), ("held", b)]
    yield from [("release", b), ("release", d)]
    yield "a sole reader's upgrade is granted at once, also where others wait"
    yield from [("ask", a, t, "read"), ("ask", b, t, "write"), ("ask", a, t, "write"), ("ask", a, t, "read"), ("release", a)]
    yield "a release grants in the order of asking, not of names"
    yield from [("ask", a, r, "write"), ("ask", a, t, "write"), ("ask", a, s, "write")]
    yield from [("ask", b, t, "read"), ("ask", c, s, "write"), ("ask", d, r, "read"), ("held", a), ("release", a)]
    yield "a wait ends at its 16th tick, one at a tick, the first that began first"
    yield from [("ask", a, t, "write"), ("ask", b, t, "read"), ("ask", c, t, "write")]
    yield from [("tick",)] * 15 + [("ask", d, t, "read")] + [("tick",)] * 18
    yield from [("ask", b, s, "read"), ("ask", b, t, "read"), ("release", a), ("held", b)]
    yield "a tick grants nothing; the release of the one that waited does"
    yield from [("ask", a, t, "read"), ("ask", b, t, "write"), ("tick",), ("ask", c, t, "read")]
    yield from [("tick",)] * 15 + [("holder", t, a), ("holder", t, b), ("release", b), ("holder", t, a)]
    yield "holds"
    yield from [("hold", a, t, "write"), ("hold", a, s, "read"), ("hold", b, s, "read"), ("hold", b, t, "read")]
    yield from [("held", a), ("held", b), ("ask", b, t, "read"), ("hold", c, t, "read"), ("release", a), ("held", b)]


def at_random(seed, calls, enlists, resources, writes):
    """A list of calls, each of an enlistment that may call then."""
    chosen = random.Random(seed)
    model = Model()
    for _ in range(calls):
        kind = chosen.choices(["ask", "hold", "release", "tick", "holder", "held"], [50, 3, 9, 24, 4, 4])[0]
        who, what = chosen.choice(enlists), chosen.choice(resources)
        mode = "write" if chosen.random() < writes else "read"
        if kind == "ask" and model.is_waiting(who):
            kind = "tick"
        call = {
            "ask": ("ask", who, what, mode),
            "hold": ("hold", who, what, mode),
            "release": ("release", who),
            "tick": ("tick",),
            "holder": ("holder", what, who),
            "held": ("held", who),
        }[kind]
        getattr(model, kind)(*call[1:])
        yield call


def lines():
    model = Model()

    def answered(call):
        answer = getattr(model, call[0])(*call[1:])
        return " ".join(call) + (" -> " + answer if answer else "")

    yield "# Written by tools/lock_calls.py: calls on locks, the answers by a plain model over lists."
    for call in by_hand():
        if isinstance(call, str):
            model = Model()
            yield "# " + call
            yield "new"
        else:
            yield answered(call)
    lists = [
        (1, 700, ENLISTS[:3], RESOURCES[:2], 0.5),
        (2, 700, ENLISTS, RESOURCES, 0.3),
        (3, 700, ENLISTS[:6], RESOURCES[:3], 0.2),
        (4, 700, ENLISTS, RESOURCES[:1], 0.3),
    ]
    for seed, calls, enlists, resources, writes in lists:
        model = Model()
        yield f"# at random: {calls} calls of {len(enlists)} enlistments on {len(resources)} resources"
        yield "new"
        for call in at_random(seed, calls, enlists, resources, writes):
            yield answered(call)


def main():
    text = "".join(line + "\n" for line in lines())
    if sys.argv[1:] == ["--check"]:
        sys.exit(0 if FILE.read_text() == text else 1)
    FILE.write_text(text)


if __name__ == "__main__":
    main()
