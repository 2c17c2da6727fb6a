#!/usr/bin/env python3
"""Times texts that are costly to parse: large statements, and texts of 4,096 and 8,192 bytes with a fault early or late.

Bound: twice the bytes take at most 2.6 times the time. The status says whether it held (see program.py).
"""

from program import Bounds, Runs, Schedule

ASKS = 2_000

INSERT = "INSERT INTO t VALUES " + ",".join(f"({n},'x')" for n in range(500))
SELECT = (
    "SELECT a.x, b.y, COUNT(*) FROM t1 a, t2 b, t3 c, t4 d, t5 e, t6 f WHERE "
    + " AND ".join(f"(a.x{n} = b.y{n} OR c.z{n} <= {n})" for n in range(10))
    + " GROUP BY a.x, b.y ORDER BY 1 DESC, a.x"
)


def hard_texts(size):
    """Texts of this size that a parser may take long for."""
    return {
        "(": "(" * size,
        "one word": "a" * size,
        ",": "," * size,
        "words": "a " * (size // 2),
        "an open text": "'" + "x" * (size - 1),
        "tuples": ("INSERT INTO t VALUES " + "(1)," * size)[:size],
        "predicates": ("DELETE FROM t WHERE " + "a=1 AND " * size)[:size],
    }


def asked(text):
    schedule = Schedule()
    schedule.ask(text, ASKS)
    return Runs(schedule)


bounds = Bounds()
for name, text in (("INSERT of 500 tuples", INSERT), ("SELECT of six tables", SELECT)):
    runs = asked(text)
    print(f"{name}, {len(text)} bytes: {ASKS / runs.median:.0f} texts a second, {runs}")
for name, text in hard_texts(4_096).items():
    half = asked(text)
    whole = asked(hard_texts(8_192)[name])
    print(f"8,192 bytes of {name}: {ASKS / whole.median:.0f} texts a second, {whole}")
    bounds.ratio("times that of half as many bytes", whole.median, half.median, max(whole.spread, half.spread), 2.6)
bounds.end()
