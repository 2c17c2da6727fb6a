#!/usr/bin/env python3
"""Writes cases of the protocols between sites: the files in crates/protocol_cases/data.

It knows the rules alone, and nothing of the Rust code. Answers are found over the whole list of what has come so far, by
the places of its members, and no state is kept from one call to the next. The lists are random, from a fixed seed.

    tools/protocol_cases.py          writes the files
    tools/protocol_cases.py --check  ends with status 1 if a file isn't what would be written
"""

import random
import sys
from pathlib import Path

DATA = Path(__file__).resolve().parent.parent / "crates/protocol_cases/data"


# ---- numbered calls: a body replies to an even number with the next one, and an odd one waits


def accepted(came):
    """The calls that were accepted: of each its number, what it asks, and its reply, if it has one.

    A call is accepted if it is the next and the one before has its reply. The reply of a call that waits comes later.
    """
    calls = []
    for kind, *rest in came:
        waits = bool(calls) and calls[-1][2] is None
        if kind == "take" and rest[0] == len(calls) + 1 and not waits:
            ask = rest[1]
            calls.append((rest[0], ask, ask + 1 if ask % 2 == 0 else None))
        if kind == "told" and waits:
            calls[-1] = calls[-1][:2] + (rest[0],)
    return calls


def answer_of_take(came, number, ask):
    calls = accepted(came)
    last = len(calls)
    if number < 1 or number < last:
        return "old"
    if number == last:
        return "parked" if calls[-1][2] is None else "repeat"
    if number == last + 1 and (last == 0 or calls[-1][2] is not None):
        return "ran" if ask % 2 == 0 else "parked"
    return "ahead"


def call_cases(rand, length):
    """Calls numbered from 1 that are delivered again and again, mostly near the next, and replies of those that wait."""
    asks = [rand.randrange(1000) for _ in range(length)]
    came, lines = [], ["new"]
    while len(lines) < length:
        last = len(accepted(came))
        kind = rand.choice(["take"] * 6 + ["told"] * 3 + ["kept", "ran"])
        if kind == "take":
            number = rand.choice([last, last + 1, last + 1, last + 1, last + 2, max(0, last - 1), rand.randrange(length)])
            ask = asks[number - 1]
            lines.append(f"take {number} {ask} -> {answer_of_take(came, number, ask)}")
            came.append(("take", number, ask))
        elif kind == "told":
            reply = rand.randrange(10**6)
            calls = accepted(came)
            waits = bool(calls) and calls[-1][2] is None
            lines.append(f"told {reply}" if waits else f"told {reply} -> none waits")
            came.append(("told", reply))
        elif kind == "kept":
            calls = accepted(came)
            reply = calls[-1][2] if calls else None
            lines.append("kept -> none" if reply is None else f"kept -> {reply}")
        else:
            ran = "".join(f"{ask} " for _, ask, _ in accepted(came))
            lines.append(f"ran -> {ran}" if ran else "ran")
    return lines


# ---- the numbers of a caller


def number_cases(rand, length):
    """A reply is fresh if it is that of the last call, and none for it came before, after the call."""
    did, lines = [], ["new"]
    while len(lines) < length:
        made = did.count("next")
        if rand.random() < 0.4:
            lines.append(f"next -> {made + 1}")
            did.append("next")
        else:
            number = rand.choice([made, made, made, max(0, made - 1), made + 1, rand.randrange(length)])
            since = did[len(did) - did[::-1].index("next"):] if made else []
            fresh = made > 0 and number == made and number not in since
            lines.append(f"reply {number} -> {'fresh' if fresh else 'old'}")
            did.append(number)
    return lines


# ---- a coordinator


def enlist_word(enlist):
    return "{} {} {}".format(*enlist)


def coordinator_cases(rand, length):
    names = [(rand.randint(1, 3), rand.randint(1, 2), rand.randint(1, 2)) for _ in range(6)]
    parts = [rand.choice(names[:4]) for _ in range(rand.randint(0, 5))]
    came = []
    lines = [" ".join(["new", str(len(parts))] + [enlist_word(part) for part in parts])]

    def heard(kind, part):
        return (kind, part) in came

    while len(lines) < length:
        kind = rand.choice(["vote", "vote", "ack", "ack", "silent", "voted", "acked"])
        part = rand.choice(names)
        if kind in ("vote", "ack"):
            came.append((kind, part))
            answer = "all" if all(heard(kind, one) for one in parts) else "more"
            lines.append(f"{kind} {enlist_word(part)} -> {answer}")
        elif kind == "silent":
            silent = [one for one in parts if not heard("vote", one)]
            lines.append(f"silent -> {enlist_word(silent[0]) if silent else 'none'}")
        else:
            truth = part in parts and heard(kind[:-2] if kind == "acked" else "vote", part)
            lines.append(f"{kind} {enlist_word(part)} -> {str(truth).lower()}")
    return lines


# ---- one part


def part_cases(rand, length):
    """The first Prepare prepares, if no Abort came before it; a Commit commits a prepared part, an Abort aborts one that
    hasn't committed; what has committed or aborted stays so."""
    came, lines = [], ["new"]

    def first(kind):
        return came.index(kind) if kind in came else len(came)

    def committed():
        prepared = first("prepare")
        commits = [at for at, kind in enumerate(came) if kind == "commit" and at > prepared]
        return bool(commits) and first("abort") > commits[0]

    def aborted():
        return "abort" in came and not committed()

    def prepared():
        return "prepare" in came and not committed() and not aborted()

    while len(lines) < length:
        kind = rand.choice(["prepare"] * 3 + ["commit"] * 2 + ["abort", "prepared", "prepared"])
        if kind == "prepared":
            lines.append(f"prepared -> {str(prepared()).lower()}")
            continue
        if kind == "prepare":
            answer = "again" if prepared() else "gone" if committed() or aborted() else "force"
        elif kind == "commit":
            answer = "force" if prepared() else "again" if committed() else "nothing"
        else:
            answer = "nothing" if committed() or aborted() else "note" if prepared() else "release"
        lines.append(f"{kind} -> {answer}")
        came.append(kind)
    return lines


# ---- what the parts decide: by the places of the events in their list


def prepare_takes(events, at):
    part = events[at][1]
    for place in range(at):
        if events[place] == ("stop", part):
            return False
        if events[place] == ("abort", part) and ("give-up", None) in events[:place]:
            return False
    return True


def prepared_before(events, part, at):
    return any(events[place] == ("prepare", part) and prepare_takes(events, place) for place in range(at))


def decide_counts(events, parts, at):
    return all(
        any(events[place] == ("vote", part) and prepared_before(events, part, place) for place in range(at))
        for part in range(parts)
    )


def settling(events, parts):
    """The place of the event that settles the transaction, or None."""
    for at, (kind, _) in enumerate(events):
        if kind in ("give-up", "stop-master") or kind == "decide" and decide_counts(events, parts, at):
            return at
    return None


def decision(events, parts, part):
    settled = settling(events, parts)
    if settled is None:
        return "none"
    how = events[settled][0]
    for at in range(settled + 1, len(events)):
        kind, of = events[at]
        if of != part:
            continue
        if how == "decide" and kind in ("commit", "inquire"):
            return "commit"
        prepared = prepared_before(events, part, at)
        if how == "give-up" and kind == "abort" and (prepared or ("stop", part) not in events[:at]):
            return "abort"
        if how in ("give-up", "stop-master") and kind == "inquire" and prepared:
            return "abort"
    return "none"


def event_word(event):
    kind, part = event
    return kind if part is None else f"{kind}:{part}"


def agreement_case(parts, events):
    words = " ".join([str(parts)] + [event_word(event) for event in events])
    decided = "".join(decision(events, parts, part) + " " for part in range(parts))
    return f"{words} -> {decided}" if decided else words


def random_events(rand, parts, length):
    """Events in any order, by weights that make a settlement neither sure nor rare."""
    early = rand.choice([["prepare", "vote"] * 3, ["prepare", "vote", "prepare", "vote", "stop"], ["prepare", "vote", "abort"]])
    late = ["commit", "inquire", "abort", "ack", "prepare", "stop", "vote"]
    masters = rand.choice([["decide"], ["decide"], ["decide", "give-up"], ["decide", "stop-master"], ["give-up", "stop-master"]])
    turn = rand.randint(0, length)
    events = []
    for at in range(length):
        if rand.random() < 0.15:
            events.append((rand.choice(masters), None))
        else:
            events.append((rand.choice(early if at < turn else late), rand.randint(0, parts)))
    return events


def usual_events(rand, parts):
    """A commit as it goes without faults, with a few events put in, taken out or moved."""
    events = [("prepare", part) for part in range(parts)] + [("vote", part) for part in range(parts)]
    events.append((rand.choice(["decide", "decide", "give-up", "stop-master"]), None))
    events += [(rand.choice(["commit", "abort", "inquire"]), part) for part in range(parts)]
    for _ in range(rand.randint(0, 4)):
        at = rand.randrange(len(events) + 1)
        change = rand.choice(["put", "put", "take", "move"])
        if change == "put":
            events[at:at] = random_events(rand, parts, 1)
        elif events:
            event = events.pop(at % len(events))
            if change == "move":
                events.insert(rand.randrange(len(events) + 1), event)
    return events


def agreement_cases(rand):
    lines = ["# nothing happens; no parts"]
    lines += [agreement_case(parts, []) for parts in (0, 1, 3)]
    lines += [agreement_case(0, [("decide", None), ("commit", 0)])]
    lines += ["# every list of up to four of these events of one part"]
    kinds = [("prepare", 0), ("vote", 0), ("decide", None), ("give-up", None), ("commit", 0), ("abort", 0), ("inquire", 0)]
    kinds += [("stop", 0), ("stop-master", None)]
    lists = [[]]
    for _ in range(4):
        lists = [older + [event] for older in lists for event in kinds]
        lines += [line for line in (agreement_case(1, events) for events in lists) if not line.endswith("-> none ")]
    lines += ["# a commit without faults, and little besides"]
    for _ in range(600):
        parts = rand.randint(1, 4)
        lines.append(agreement_case(parts, usual_events(rand, parts)))
    lines += ["# events in any order"]
    for _ in range(600):
        parts = rand.randint(1, 4)
        lines.append(agreement_case(parts, random_events(rand, parts, rand.randint(4, 40))))
    lines += ["# long lists of many parts"]
    for parts in (16, 40, 255):
        events = [("prepare", part) for part in range(parts)] + [("vote", part) for part in range(parts)]
        rand.shuffle(events)
        votes = [event for event in events if event[0] == "vote"]
        events += [("decide", None)] + votes + [("decide", None)]
        events += [(rand.choice(["commit", "inquire"]), rand.randrange(parts)) for _ in range(parts)]
        lines.append(agreement_case(parts, events))
    return lines


def files():
    rand = random.Random(1986)
    return {
        "calls": [line for length in (20, 60, 200, 600) for line in call_cases(rand, length)],
        "numbers": [line for length in (20, 60, 400) for line in number_cases(rand, length)],
        "coordinators": [line for length in [30] * 20 for line in coordinator_cases(rand, length)],
        "parts": [line for length in [12] * 60 for line in part_cases(rand, length)],
        "agreement": agreement_cases(rand),
    }


def main():
    differ = False
    for name, lines in files().items():
        text = f"# Cases of the kind {name}, written by tools/protocol_cases.py.\n" + "\n".join(lines) + "\n"
        path = DATA / name
        if sys.argv[1:] == ["--check"]:
            differ = differ or not path.exists() or path.read_text() != text
        else:
            path.write_text(text)
    sys.exit(1 if differ else 0)


main()
